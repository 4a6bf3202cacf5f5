"""What the school's own exports say besides what the program takes: names, addresses, programmes, codes of its system.

It is read anew from the register and the timetable by the mapping wherever a list, a mail or a summary needs it. The
program never sees it, and nothing of it is kept beside what is published.
"""

from __future__ import annotations

import argparse
import sys
from dataclasses import dataclass, field
from typing import Dict, List, Optional, Sequence

from registrar import own_names, tables, tell
from registrar.exported import Column, Export, Row
from registrar.faults import Faults
from registrar.mapping import Mapping, read_mapping
from registrar.spelling import NameFault, Names, tidy

#: What a list says of a student besides its number, where the mapping names the column: the options of [roll].
OF_A_STUDENT = ("name", "e-mail")


@dataclass
class Table:
    """One of the two exports, and its rows by the program's names: a section may have several."""

    export: Export
    kind: str
    rows: Dict[str, List[Row]] = field(default_factory=dict)
    strangers: int = 0

    def column(self, title: str) -> Optional[Column]:
        """The column of this title; where there is none, a fault."""
        return self.export.find(f"{{{title}}}", title, True) if self.export.is_read else None

    def text(self, name: str, column: Column) -> str:
        """What stands in a column of a name's rows: the first that is not blank. Two that differ are a fault."""
        found: Dict[str, Row] = {}
        for row in self.rows.get(name, []):
            found.setdefault(tidy(column.cell(row)), row)
        found.pop("", None)
        said = list(found)
        if len(said) > 1:
            expected = f'"{said[0]}", as row {found[said[0]].number} says of {name}'
            self.export.faults.add(self.export.file, found[said[1]].number, column.title, said[1], expected)
        return said[0] if said else ""


@dataclass
class Register:
    """The register and the timetable of a mapping, by the names of a roll and a catalogue."""

    mapping: Mapping
    own: own_names.Own
    faults: Faults
    students: Optional[Table] = None
    sections: Optional[Table] = None
    #: For each kind the program's name of what `names.csv` has in the school's own spelling.
    names: Dict[str, Dict[str, str]] = field(default_factory=dict)

    def meant(self, kind: str, word: str) -> str:
        """The program's name of what is in the school's own spelling; any other word is left as it is."""
        return self.names.get(kind, {}).get(tidy(word), word)

    def has(self, option: str) -> bool:
        """Whether the mapping names a column of the register for `name` or `e-mail`."""
        return self.students is not None and bool(self.students.export.source.get(option))

    def said(self, student: str, option: str) -> str:
        """The student's name or e-mail address; nothing where the mapping names no column, or the cell is blank."""
        column = self.students.export.column(option) if self.students else None
        return self.students.text(student, column) if self.students and column else ""

    def by_column(self, title: str) -> Dict[str, str]:
        """What stands in this column of the register, for each student; a fault where there is no such column."""
        column = self.students.column(title) if self.students else None
        if self.students is None or column is None:
            return {}
        return {name: self.students.text(name, column) for name in self.students.rows}


def add_argument(parser: argparse.ArgumentParser, needed: bool = False) -> None:
    """The option by which a command takes a mapping."""
    parser.add_argument(
        "--mapping", metavar="FILE", required=needed,
        help="the mapping of the import: the register's columns, names and e-mail addresses as its [roll] has them",
    )


def read(path: str, catalogue: str, roll: str, faults: Faults) -> Register:
    """The register and the timetable of this mapping. A student or a section without a row there is a fault."""
    try:
        mapping = read_mapping(path, faults)
    except OSError as error:
        raise tell.Trouble(f"{path} can not be read: {error.strerror}", tell.NO_FILE) from error
    made = Register(mapping, own_names.beside(catalogue), faults)
    made.names = {kind: {tidy(original): name for name, original in names.items()} for kind, names in made.own.items()}
    if faults:
        return made
    made.students = table(made, "roll", "student", [one.name for one in tables.read_roll(roll)], faults)
    made.sections = table(made, "catalogue", "section", [one.code for one in tables.read_catalogue(catalogue)], faults)
    return made


def table(made: Register, title: str, kind: str, names: Sequence[str], faults: Faults) -> Optional[Table]:
    """The export of [roll] or [catalogue], its rows by these names."""
    sources = made.mapping.of_kind(title)
    if not sources:
        faults.add(made.mapping.path, None, "", "", f"there is no section [{title}] with an export")
        return None
    found = Table(Export(sources[0], faults), kind)
    found.rows = {name: [] for name in names}
    rules = made.mapping.students if kind == "student" else made.mapping.sections
    spelling = Names(kind, rules)
    for row in found.export.rows if found.export.column(kind, needed=True) else []:
        name = name_of(made, spelling, found.export, row)
        if name in found.rows:
            found.rows[name].append(row)
        else:
            found.strangers += 1
    whose = "who is on the roll" if kind == "student" else "which the catalogue has"
    for name in [name for name, rows in found.rows.items() if not rows] if found.export.is_read else []:
        faults.add(found.export.file, None, "", "", f"a row of {own_names.spelt(made.own, kind, name)}, {whose}")
    return found


def name_of(made: Register, spelling: Names, export: Export, row: Row) -> str:
    """The program's name of a row: by `names.csv`, else by the rule of spelling; nothing where the cell is no name."""
    cell = export.cell(row, spelling.kind)
    code = spelling.meant(cell)
    name = made.meant(spelling.kind, code)
    if name != code:
        return name
    try:
        return spelling.spelt(cell)[1]
    except NameFault:
        return ""


def read_or_tell(path: str, catalogue: str, roll: str) -> Register:
    """As `read`; where there are faults they are told, and the command ends."""
    faults = Faults()
    made = read(path, catalogue, roll, faults)
    refuse(faults, path)
    return made


def of_people(path: str, catalogue: str, roll: str, faults: Faults) -> Optional[Register]:
    """The register, where the mapping's [roll] names a column of names or addresses; else nothing."""
    try:
        sources = read_mapping(path, Faults()).of_kind("roll")
    except OSError:
        return None
    if not any(source.get(option) for source in sources for option in OF_A_STUDENT):
        return None
    return read(path, catalogue, roll, faults)


def refuse(faults: Faults, mapping: str) -> None:
    """Tells the faults, where there are any, and ends the command."""
    if faults:
        faults.tell(sys.stdout)
        raise tell.Trouble(f"nothing is written; correct the exports, or {mapping}, and run again", faults.status)


def with_people(made: Optional[Register], rows: Sequence[Sequence[object]]) -> List[Sequence[object]]:
    """A table whose column `student` is followed by the columns `name` and `e-mail`, those that the mapping names."""
    options = [option for option in OF_A_STUDENT if made is not None and made.has(option)]
    if made is None or not options or not rows:
        return list(rows)
    at = list(rows[0]).index("student") + 1
    told: List[Sequence[object]] = [[*rows[0][:at], *options, *rows[0][at:]]]
    for row in rows[1:]:
        name = made.meant("student", str(row[at - 1]))
        told.append([*row[:at], *(made.said(name, option) for option in options), *row[at:]])
    return told
