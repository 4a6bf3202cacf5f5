"""An export with its columns named: the rows of a sheet, read by the columns that a mapping names."""

from __future__ import annotations

import difflib
import os
import re
import unicodedata
from dataclasses import dataclass

from registrar.faults import Faults
from registrar.mapping import Source
from registrar.sheet import SheetFault, read_rows
from registrar.spelling import tidy
from registrar.tally import ABOVE, EMPTY, Tally


def plain(name: str) -> str:
    """A column's name as it is compared: small letters and digits alone, without accents."""
    folded = unicodedata.normalize("NFKD", tidy(name)).casefold()
    kept = "".join(sign if sign.isalnum() else " " for sign in folded if not unicodedata.combining(sign))
    return " ".join(kept.split())


@dataclass(frozen=True)
class Column:
    """A column of an export, or several that are joined by `-`: its places, and its name for a person."""

    places: tuple[int, ...]
    title: str

    def cell(self, row: Row) -> str:
        """What stands there in a row."""
        cells = [row.cells[place].strip() for place in self.places if place < len(row.cells)]
        return "-".join(cell for cell in cells if cell)


@dataclass(frozen=True)
class Row:
    """A row that is not empty, with its number in the sheet."""

    number: int
    cells: list[str]


class Export:
    """The rows of one export. What is wrong with the file, its header and its columns is added to `faults`."""

    def __init__(self, source: Source, faults: Faults) -> None:
        self.source = source
        self.faults = faults
        self.file = os.path.basename(source.path)
        self.header: list[str] = []
        self.rows: list[Row] = []
        self.columns: dict[str, Column | None] = {}
        self.is_read = False
        self.tally = Tally(self.file)
        #: Of each cell that was filled down, by row number and place: the number of the row from which.
        self.filled: dict[tuple[int, int], int] = {}
        self.read()

    def read(self) -> None:
        """Reads the file."""
        header_row = int(self.source.get("header row"))
        try:
            rows = read_rows(self.source.path, self.source.get("encoding"), self.source.get("sheet"))
            for number, cells in enumerate(rows, 1):
                self.take(number, cells, header_row)
        except SheetFault as fault:
            self.faults.add(self.file, fault.row, "", fault.value, fault.expected)
            return
        except OSError as error:
            self.faults.lacks_file = True
            self.faults.add(self.file, None, "", "", f"{self.source.path} can not be read ({error.strerror})")
            return
        if not any(cell.strip() for cell in self.header):
            self.faults.add(self.file, header_row, "", "", "there are no columns' names (`header row` says where they stand)")
            return
        self.is_read = True
        for name in (tidy(name) for name in self.source.get("fill down").split("|")):
            if name:
                self.fill_down(name)

    def fill_down(self, name: str) -> None:
        """Fills the blank cells of a column with what stands above them, as merged cells are meant."""
        place = self.place(name)
        if place is None:
            listed = ", ".join(title for title in self.header if title)
            self.missing("fill down", name, f"columns of the file, with | between them; it has: {listed}")
            return
        above: Row | None = None
        for row in self.rows:
            row.cells.extend([""] * (place + 1 - len(row.cells)))
            if row.cells[place].strip():
                above = row
            elif above:
                row.cells[place] = above.cells[place]
                self.filled[row.number, place] = above.number
                self.tally.filled[self.header[place]] += 1

    def take(self, number: int, cells: list[str], header_row: int) -> None:
        """Takes one row of the sheet."""
        if number == header_row:
            self.header = [tidy(cell) for cell in cells]
        if number <= header_row:
            return
        self.tally.rows += 1
        if not any(cell.strip() for cell in cells):
            self.tally.leave(number, EMPTY)
        elif number < int(self.source.get("first row") or 1):
            self.tally.leave(number, ABOVE)
        else:
            beyond = [cell for cell in cells[len(self.header) :] if cell.strip()]
            if beyond:
                expected = (
                    f"at most {len(self.header)} cells, as the header has; a separator too many, or a quote that is missing"
                )
                self.faults.add(self.file, number, "", beyond[0], expected)
            self.rows.append(Row(number, cells))

    def place(self, name: str) -> int | None:
        """The place of the column of this name: the same letters, else the same but for capitals, blanks and signs."""
        numbered = re.fullmatch(r"@([1-9][0-9]{0,3})", name)
        if numbered and int(numbered.group(1)) <= len(self.header):
            return int(numbered.group(1)) - 1
        for names in (self.header, [plain(title) for title in self.header]):
            wanted = name if names is self.header else plain(name)
            found = [at for at, title in enumerate(names) if title == wanted]
            if len(found) == 1:
                return found[0]
            if len(found) > 1:
                self.faults.add(
                    self.file, None, name, name, f"one column of this name; {len(found)} have it (`@3` names the third)"
                )
                return found[0]
        return None

    def column(self, option: str, needed: bool = False) -> Column | None:
        """The column that the mapping names for this option; none where it names none. Faults are told once."""
        if option not in self.columns:
            self.columns[option] = self.find(option, self.source.get(option), needed) if self.is_read else None
        return self.columns[option]

    def find(self, option: str, name: str, needed: bool) -> Column | None:
        """Looks for the column of an option."""
        if not name:
            if needed:
                self.missing(option, "", "a column; those of the file: " + ", ".join(title for title in self.header if title))
            return None
        whole = self.place(name)
        if whole is not None:
            return Column((whole,), self.header[whole])
        places: list[int] = []
        for part in (tidy(part) for part in name.split(" + ")):
            at = self.place(part)
            if at is None:
                near = difflib.get_close_matches(plain(part), [plain(title) for title in self.header if title], n=1)
                hint = f"; nearest: {near[0]}" if near else ""
                listed = ", ".join(title for title in self.header if title)
                self.missing(option, part, f"a column of the file{hint}; it has: {listed}")
                return None
            places.append(at)
        return Column(tuple(places), name)

    def missing(self, option: str, value: str, expected: str) -> None:
        """Keeps the fault of a column that the mapping should name and does not."""
        self.faults.add(self.file, None, f"[{self.source.title}] {option}", value, expected)

    def filled_from(self, row: Row, option: str) -> int:
        """The number of the row from which the cell of an option was filled down; 0 where it was not."""
        column = self.column(option)
        return max((self.filled.get((row.number, place), 0) for place in column.places), default=0) if column else 0

    def cell(self, row: Row, option: str) -> str:
        """What stands in the column of an option, or what the mapping states for a blank."""
        column = self.column(option)
        text = column.cell(row).strip() if column else ""
        return text or self.source.get(f"{option} default")

    def fault(self, row: Row, option: str, value: str, expected: str) -> None:
        """Keeps the fault of a cell."""
        column = self.column(option)
        title = column.title if column else f"[{self.source.title}] {option}"
        self.faults.add(self.file, row.number, title, value, expected)
