"""`rosters`: the roster as the school's own system imports it, and what drop and add changed, by the mapping."""

from __future__ import annotations

import argparse
import csv
import io
import os
from dataclasses import dataclass
from typing import Callable, Dict, Iterator, List, Optional, Sequence, Set, Tuple

from registrar import fields, hall_desk, hall_text, manifest, own_names, published, register, tables, tell, work_log
from registrar.import_exports import write_all
from registrar.mapping import split

NAME = "rosters"
HELP = "write the roster, and what drop and add changed, as the school's system imports it, by [rosters] of the mapping"

FIELDS = ("student", "section", "course", "credits", "name", "e-mail", "action", "number")
OPENINGS = ("register", "timetable")
SEPARATORS = {"comma": ",", "semicolon": ";", "tab": "\t", "bar": "|"}

#: By these a spreadsheet takes a cell for a formula.
FORMULA = ("=", "+", "-", "@")

# A seat that somebody holds: the section and the student.
Seat = Tuple[str, str]
Holds = Dict[str, Tuple[str, ...]]


@dataclass(frozen=True)
class Row:
    """A row of the file: the seat, and what the system is to do with it."""

    seat: Seat
    action: str


def add_arguments(parser: argparse.ArgumentParser) -> None:
    """The options of `rosters`."""
    parser.description = (
        f"{HELP}. Without --hall it is the roster of the published text. With --hall it is the roster after drop and "
        "add, and a second file, `NAME-changes`, has the difference: first all drops, then all adds, so that no "
        "section has too many students at any row."
    )
    manifest.add_argument(parser)
    register.add_argument(parser, needed=True)
    parser.add_argument("--hall", metavar="FILE", help="hall.txt, as `registrar hall` wrote it")
    parser.add_argument(
        "--since", metavar="FILE",
        help="with --hall: the hall.txt that the system has imported already (default: the published text)",
    )
    parser.add_argument("--into", metavar="FOLDER", help="where the files are written (default: the mapping's folder)")
    parser.add_argument("--replace", action="store_true", help="write over files that stand there and differ")


def writes(arguments: argparse.Namespace) -> List[str]:
    """The folder of the manifest and that of the files."""
    return work_log.folders(arguments.manifest, arguments.into or os.path.dirname(arguments.mapping) or ".")


def run(arguments: argparse.Namespace) -> int:
    """Writes the files."""
    if arguments.since and not arguments.hall:
        raise tell.Trouble("--since needs --hall", tell.USAGE)
    found = read_manifest(arguments)
    text = published.read_published(found.text)
    made = register.read_or_tell(arguments.mapping, found.catalogue, found.roll)
    template = Template(made, found)
    holds = now = {name: bundle.sections for name, bundle in text.finals.items()}
    if arguments.hall:
        now = held_after(arguments.hall, found)
        holds = held_after(arguments.since, found) if arguments.since else holds
    name = template.file
    files = {name: template.written(rows_of(now, template.word("enrolled"), template))}
    difference = changes(holds, now, template) if arguments.hall else []
    if arguments.hall:
        files[changes_file(name)] = template.written(difference)
    template.refuse()
    folder = arguments.into or os.path.dirname(arguments.mapping) or "."
    exports = [("export", source.path) for source in made.mapping.sources]
    read = [*manifest.files_read(found), ("mapping", arguments.mapping), *exports]
    read += [("text of the hall", path) for path in (arguments.hall, arguments.since) if path]
    tables.refuse_over([os.path.join(folder, one) for one in files], read)
    write_all(folder, files, arguments.replace)
    for line in told(folder, template, now, difference if arguments.hall else None):
        tell.say(line)
    return 0


def read_manifest(arguments: argparse.Namespace) -> manifest.Manifest:
    """The manifest. After a hall the catalogue may have other seats than at the run, and is else the same."""
    found = manifest.read(arguments.manifest, catalogue_too=not arguments.hall)
    if arguments.hall and not hall_desk.is_catalogue_of_run(found):
        hall_desk.refuse_more_than_seats(found, False)
    return found


def held_after(path: str, found: manifest.Manifest) -> Holds:
    """What each student holds after this hall, which the program is asked for anew."""
    after = hall_text.read(path)
    hall_text.refuse_other(after, found)
    return after.finals


def changes_file(name: str) -> str:
    """`enrolment-changes.csv` for `enrolment.csv`."""
    stem, ending = os.path.splitext(name)
    return f"{stem}-changes{ending}"


def seats_of(holds: Holds) -> Set[Seat]:
    """All seats that are held."""
    return {(section, student) for student, sections in holds.items() for section in sections}


def rows_of(holds: Holds, action: str, template: Template) -> List[Row]:
    """A row for each seat, in the template's order."""
    return [Row(seat, action) for seat in template.in_order(seats_of(holds))]


def changes(before: Holds, after: Holds, template: Template) -> List[Row]:
    """First all drops, then all adds: behind the drops each student holds what it keeps, and no add passes the end."""
    had, has = seats_of(before), seats_of(after)
    drops = [Row(seat, template.word("drop")) for seat in template.in_order(had - has)]
    return drops + [Row(seat, template.word("add")) for seat in template.in_order(has - had)]


def told(folder: str, template: Template, now: Holds, difference: Optional[List[Row]]) -> List[str]:
    """What is told of the files."""
    lines = [f"{os.path.join(folder, template.file)}: {tell.count(len(seats_of(now)), 'seat', 'seats')}"]
    if difference is not None:
        drops = sum(row.action == template.word("drop") for row in difference)
        where = os.path.join(folder, changes_file(template.file))
        adds = tell.count(len(difference) - drops, "add", "adds")
        lines.append(f"{where}: {tell.count(drops, 'drop', 'drops')}, then {adds}")
    if template.formulas:
        lines.append(
            f"{tell.count(template.formulas, 'cell begins', 'cells begin')} as a formula does (=, +, -, @) and is "
            "written as it stands: the school's system takes it so; to look at it in a spreadsheet, import the "
            "columns as text"
        )
    for table in (template.register.students, template.register.sections):
        if table is not None and table.strangers:
            rows = tell.count(table.strangers, "row is", "rows are")
            lines.append(f"{table.export.file}: {rows} of no {table.kind} of this run, and passed over")
    return lines


class Template:
    """The file that [rosters] and [roster columns] describe. What is wrong with them, or blank, is a fault."""

    def __init__(self, made: register.Register, found: manifest.Manifest) -> None:
        self.register = made
        self.faults = made.faults
        self.options = made.mapping.rosters
        self.columns = made.mapping.roster_columns
        self.file = self.options["file"]
        self.sections = {one.code: one for one in tables.read_catalogue(found.catalogue)}
        self.places = {one.name: place for place, one in enumerate(tables.read_roll(found.roll))}
        self.blanks = split(self.options["may be blank"])
        self.formulas = 0
        self.alike = False
        self.seen: Dict[Tuple[str, ...], Row] = {}
        self.values: Dict[str, Callable[[Row], str]] = {}
        self.look()

    def fault(self, option: str, value: str, expected: str, section: str = "rosters") -> None:
        """Keeps a fault of the mapping."""
        self.faults.add(self.register.mapping.path, None, f"[{section}] {option}".strip(), value, expected)

    def look(self) -> None:
        """Looks at the options and columns, and ends the command where they have faults."""
        if not self.columns:
            self.fault("", "", "columns, each as `CRN = {section}`; this section has none", "roster columns")
        if os.path.basename(self.file) != self.file or self.file in (".", ".."):
            self.fault("file", self.file, "the name of a file, without a folder")
        try:
            "".encode(self.options["encoding"])
        except LookupError:
            self.fault("encoding", self.options["encoding"], "an encoding that Python knows, for instance cp1252")
        for name in self.blanks:
            if name not in self.columns:
                self.fault("may be blank", name, "one of the columns of [roster columns]")
        for title, text in self.columns.items():
            try:
                fields.refuse_unknown(text, FIELDS, OPENINGS)
            except fields.FieldFault as fault:
                self.fault(title, fault.value, str(fault), "roster columns")
            else:
                self.take(title, text)
        self.refuse()

    def take(self, title: str, text: str) -> None:
        """Finds what the fields of a column are filled with."""
        for _, name in fields.fields_of(text):
            if name in ("name", "e-mail") and not self.register.has(name):
                expected = f"`{name} = COLUMN` in [roll], which names no column for it"
                self.fault(title, f"{{{name}}}", expected, "roster columns")
            self.values.setdefault(name, self.value_of(name))

    def value_of(self, name: str) -> Callable[[Row], str]:
        """What gives a field's value for a row."""
        made = self.register
        opening, _, title = name.partition(" ")
        table = {"register": made.students, "timetable": made.sections}.get(opening)
        if title and table is not None:
            column, text = table.column(title), table.text
            who = 1 if opening == "register" else 0
            return lambda row: text(row.seat[who], column) if column else ""
        plain: Dict[str, Callable[[Row], str]] = {
            "student": lambda row: own_names.spelt(made.own, "student", row.seat[1]),
            "section": lambda row: own_names.spelt(made.own, "section", row.seat[0]),
            "course": lambda row: own_names.spelt(made.own, "course", self.sections[row.seat[0]].course),
            "credits": lambda row: own_names.credits(made.own, self.sections[row.seat[0]].credits),
            "action": lambda row: row.action,
        }
        return plain.get(name) or (lambda row: made.said(row.seat[1], name))

    def refuse(self) -> None:
        """Ends the command where there are faults, also of the exports' columns."""
        register.refuse(self.faults, self.register.mapping.path)

    def word(self, action: str) -> str:
        """What {action} says."""
        return self.options[f"{action} word"]

    def in_order(self, seats: Set[Seat]) -> List[Seat]:
        """The seats by section, in the catalogue's order, and by student, in the roll's; or the other way round."""
        sections = {code: place for place, code in enumerate(self.sections)}
        places = {seat: (sections[seat[0]], self.places[seat[1]]) for seat in seats}
        by_student = self.options["rows by"] == "student"
        return sorted(seats, key=lambda seat: places[seat][::-1] if by_student else places[seat])

    def written(self, rows: Sequence[Row]) -> bytes:
        """The file with these rows."""
        self.seen = {}
        cells = [list(self.columns)] if self.options["header"] == "yes" else []
        cells += [list(row) for row in self.filled(rows)]
        out = io.StringIO(newline="")
        end = "\r\n" if self.options["line end"] == "crlf" else "\n"
        csv.writer(out, delimiter=SEPARATORS[self.options["separator"]], lineterminator=end).writerows(cells)
        try:
            return out.getvalue().encode(self.options["encoding"])
        except UnicodeEncodeError as error:
            sign = out.getvalue()[error.start]
            self.fault("encoding", self.options["encoding"], f"an encoding that has the sign {sign} too, as utf-8")
            return b""

    def filled(self, rows: Sequence[Row]) -> Iterator[Tuple[str, ...]]:
        """The cells of the rows. A blank where none may be, or a row that another seat has too, is a fault."""
        for number, row in enumerate(rows, 1):
            cells = self.cells(row, number)
            for title, cell in zip(self.columns, cells):
                self.formulas += cell.startswith(FORMULA)
                if not cell.strip() and title not in self.blanks:
                    expected = f"something for {self.seat(row)}; `may be blank = {title}` in [rosters] lets it be blank"
                    self.fault(title, cell, expected, "roster columns")
            same = self.seen.setdefault(cells, row)
            if same is not row and not self.alike:
                self.alike = True
                self.fault("", "", f"columns that tell {self.seat(same)} and {self.seat(row)} apart", "roster columns")
            yield cells

    def cells(self, row: Row, number: int) -> Tuple[str, ...]:
        """The cells of one row."""
        return tuple(fields.filled(text, lambda name: self.cell(name, row, number)) for text in self.columns.values())

    def cell(self, name: str, row: Row, number: int) -> str:
        """The value of a field in a row."""
        return str(number) if name == "number" else self.values[name](row)

    def seat(self, row: Row) -> str:
        """A seat in words."""
        section, student = row.seat
        own = self.register.own
        return f"{own_names.spelt(own, 'student', student)} in {own_names.spelt(own, 'section', section)}"
