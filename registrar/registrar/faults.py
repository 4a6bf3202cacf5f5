"""Faults in what a registrar gave: where each stands, what stands there, and what was expected.

A command gathers all faults before it answers, so that one run tells them all.
"""

from __future__ import annotations

import unicodedata
from collections import Counter
from dataclasses import dataclass, replace
from typing import Iterable, Sequence, TextIO

from registrar import tell

#: How many characters of a value are shown.
SHOWN = 60

#: How many rows, or runs of rows, one line names.
NAMED = 40


@dataclass(frozen=True)
class Fault:
    """One fault: its file, its row and column where it has them, the value that stands there, and what was expected."""

    file: str
    row: int | None
    column: str
    value: str
    expected: str

    def line(self, rows: Sequence[int] = ()) -> str:
        """The fault in one line, for a person; with `rows` it is that of several rows."""
        place = self.file
        if len(rows) > 1:
            place += f" rows {spans(rows)}"
        elif self.row is not None:
            place += f" row {self.row}"
        if self.column:
            place += f", column {self.column}"
        if not self.column and self.value in ("", self.file):
            return f"{place}: {self.expected}"
        return f"{place}: {shown(self.value)} where this was expected: {self.expected}"


def spans(rows: Sequence[int]) -> str:
    """Row numbers with runs put together: `2-5, 9`."""
    runs: list[list[int]] = []
    for row in sorted(set(rows)):
        if runs and runs[-1][1] == row - 1:
            runs[-1][1] = row
        else:
            runs.append([row, row])
    words = [str(first) if first == last else f"{first}-{last}" for first, last in runs[:NAMED]]
    left = sum(last - first + 1 for first, last in runs[NAMED:])
    return ", ".join(words) + (f" and {left} more (`--faults FILE` writes them all)" if left else "")


def shown(value: str) -> str:
    """A value as a fault shows it: in quotes, in one line, cut where it is long, and with what is hardly seen named."""
    if not value.strip():
        return "blank"
    plain = "".join(sign if sign.isprintable() else f"[{name_of(sign)}]" for sign in value)
    if len(plain) > SHOWN:
        plain = plain[: SHOWN - 2] + ".."
    places = [place for place, sign in (("before", value[0]), ("behind", value[-1])) if sign == " "]
    return f'"{plain}"' + (f" (with a blank {' and '.join(places)} it)" if places else "")


def plain(value: str) -> str:
    """A value as it stands where it is short and all of it can be seen; else as `shown` shows it."""
    return value if value.isprintable() and len(value) <= SHOWN else shown(value)


def name_of(sign: str) -> str:
    """The name of a sign that no screen shows."""
    return {"\n": "line end", "\r": "line end", "\t": "tab"}.get(sign) or unicodedata.name(sign, f"U+{ord(sign):04X}").lower()


class Faults:
    """The faults that one run has found, in the order in which they were found."""

    def __init__(self) -> None:
        self.found: list[Fault] = []
        #: Whether a file could not be read.
        self.lacks_file = False

    def __len__(self) -> int:
        return len(self.found)

    @property
    def status(self) -> int:
        """The exit status of a command that ends with these faults."""
        return tell.NO_FILE if self.lacks_file else tell.FAULTS

    def add(self, file: str, row: int | None, column: str, value: str, expected: str) -> None:
        """Keeps one fault more."""
        self.found.append(Fault(file, row, column, value, expected))

    def tell(self, out: TextIO) -> None:
        """Writes a line for each fault, equal ones of several rows together, and then how many there are in each column.

        Files come in the order in which they were read, and in each file the rows in theirs.
        """
        files = {file: at for at, file in enumerate(dict.fromkeys(fault.file for fault in self.found))}
        ordered = sorted(self.found, key=lambda fault: (files[fault.file], fault.row or 0))
        rows: dict[Fault, list[int]] = {}
        for fault in ordered:
            rows.setdefault(replace(fault, row=None), []).append(fault.row or 0)
        for fault in ordered:
            same = rows.pop(replace(fault, row=None), None)
            if same is not None:
                print(fault.line(same), file=out)
        if len(self.found) > 1:
            for words in sums(self.found):
                print(words, file=out)

    def rows(self) -> list[list[object]]:
        """The faults as a table, which a spreadsheet sorts."""
        found = [[one.file, "" if one.row is None else one.row, one.column, one.value, one.expected] for one in self.found]
        return [["file", "row", "column", "value", "expected"], *found]


def sums(faults: Iterable[Fault]) -> list[str]:
    """How many faults stand in each column of each file, the most first."""
    counts = Counter((fault.file, fault.column) for fault in faults)
    lines = [f"{sum(counts.values())} faults"]
    for (file, column), count in counts.most_common():
        place = f"{file} column {column}" if column else file
        lines.append(f"  {count} in {place}")
    return lines
