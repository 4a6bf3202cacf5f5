"""What became of the rows of an export: how many were taken, and how many were not and why.

The two make the rows there are.
"""

from __future__ import annotations

from collections import Counter
from dataclasses import dataclass, field

from registrar import tell
from registrar.amounts import grouped

#: Why a row is not taken.
EMPTY = "empty"
ABOVE = "above the first row that counts"
REPLACED = "replaced by a later submission"
STRANGER = "of nobody on the roll"
SILENT = "without an answer"
ZERO = "with a rating of 0, which says nothing"
COPY = "with the content of another file of that student"
OF_SYSTEM = "of the system"


@dataclass
class Tally:
    """The rows of one export below its header, or the files of a folder (`what` is their noun).

    `left` has the numbers of the rows that were not taken, each with its reason.

    `filled` counts, for each column of merged cells, the cells that were filled down; `cells` has for each row of a survey
    how many of its cells have an answer and how many are blank.
    """

    file: str
    rows: int = 0
    what: tuple[str, str] = ("row", "rows")
    left: dict[int, str] = field(default_factory=dict)
    filled: Counter[str] = field(default_factory=Counter)
    cells: dict[int, tuple[int, int]] = field(default_factory=dict)

    @property
    def taken(self) -> int:
        """How many rows were taken."""
        return self.rows - len(self.left)

    def leave(self, row: int, reason: str) -> None:
        """Keeps that a row is not taken. The first reason stays."""
        self.left.setdefault(row, reason)

    def lines(self) -> list[str]:
        """What is told of the export."""
        line = f"{self.file}: {counted(self.rows, *self.what)}, {grouped(self.taken)} taken"
        reasons = Counter(self.left.values())
        if reasons:
            told = ", ".join(f"{grouped(count)} {reason}" for reason, count in reasons.items())
            line += f", {grouped(len(self.left))} not: {told}"
        found = [line]
        if self.cells:
            taken = [cells for row, cells in self.cells.items() if row not in self.left]
            answers, blanks = (sum(cells[at] for cells in taken) for at in (0, 1))
            blank = counted(blanks, "cell", "cells")
            found.append(f"  in those taken {counted(answers, 'answer', 'answers')}, {blank} blank")
        found += [f"  {counted(count, 'cell', 'cells')} of {title} filled down" for title, count in self.filled.items()]
        return found


def counted(number: int, one: str, more: str) -> str:
    """A number with its noun, and with commas between thousands."""
    return tell.count(number, one, more).replace(str(number), grouped(number), 1)
