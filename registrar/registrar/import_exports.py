"""`import`: from the exports of a school to catalogue, roll and sessions, by a mapping file of columns."""

from __future__ import annotations

import argparse
import os
import re
import sys
from dataclasses import dataclass, field
from typing import Container

from registrar import at_work, guess, limits, own_names, pseudonyms, tables, tell
from registrar.amounts import AmountFault, in_units, seats, whole
from registrar.exported import Export, Row
from registrar.faults import Faults
from registrar.imported import Made
from registrar.mapping import OF_WISHES, Mapping, Source, read_mapping
from registrar.meetings import MeetingFault, joined, meetings_by_columns, meetings_of, minutes_of
from registrar.own_sessions import FolderReader
from registrar.spelling import NameFault, Names, tidy
from registrar.surveys import Known, Survey, SurveyReader
from registrar.whole import write_all as write_files

NAME = "import"
HELP = "make catalogue, roll and sessions from a school's exports, by a mapping of columns"

#: What a catalogue says of each section.
OF_SECTIONS = ("seats", "credits", "meetings", "days", "start", "end", "length", "parts")

#: The kinds of faults that may be allowed.
NOT_ON_ROLL = "not-on-roll"


def add_arguments(parser: argparse.ArgumentParser) -> None:
    """The options of `import`."""
    parser.description = (
        f"{HELP}. "
        "First `import EXPORT ..`: it writes the mapping as a guess, says what it could not guess, and stops. Correct the mapping, "
        "then `import`: it tells all faults at once, or writes catalogue.csv, roll.csv, a session for each survey, and names.csv."
    )
    parser.add_argument("exports", nargs="*", metavar="EXPORT", help="the exports of which a first mapping is to be guessed")
    parser.add_argument("--mapping", default="mapping.ini", metavar="FILE", help="the mapping (default: mapping.ini)")
    parser.add_argument(
        "--encoding", default="", help="with EXPORT: what a text is in that has no mark and is not UTF-8, as cp1252"
    )
    parser.add_argument("--into", metavar="FOLDER", help="where the files are written (default: the mapping's folder)")
    parser.add_argument("--replace", action="store_true", help="write over files that stand there and differ")
    parser.add_argument(
        "--pseudonyms", action="store_true",
        help=f"draw a name for each student; {pseudonyms.FILE}, beside the register, keeps whose each is: never publish it",
    )
    parser.add_argument("--faults", metavar="FILE", help="write the faults as a table too")
    parser.add_argument(
        "--allow", action="append", default=[], choices=[NOT_ON_ROLL], metavar="KIND",
        help=f"{NOT_ON_ROLL}: leave out who answered and is not on the roll, and list them",
    )


def writes(arguments: argparse.Namespace) -> list[str]:
    """The folder of the program's files, or of the mapping that is guessed."""
    beside = os.path.dirname(arguments.mapping) or "."
    faults = [os.path.dirname(arguments.faults) or "."] if arguments.faults else []
    return [beside] if arguments.exports else [arguments.into or beside, *faults]


def run(arguments: argparse.Namespace) -> int:
    """Guesses a mapping, or imports by one."""
    if arguments.exports:
        return guess.run(arguments.exports, arguments.mapping, arguments.encoding)
    if not os.path.exists(arguments.mapping):
        raise tell.Trouble(
            f"there is no mapping {arguments.mapping}: `registrar import EXPORT ..` with the exports writes a first one",
            tell.NO_FILE,
        )
    faults = Faults()
    importer = Importer(arguments.mapping, faults, set(arguments.allow))
    if not arguments.pseudonyms:
        return import_all(arguments, importer, "")
    place = importer.place_of_key()
    if place:
        pseudonyms.refuse_among(place, folder_of(arguments))
        with at_work.in_folder(os.path.realpath(os.path.dirname(place) or "."), NAME):
            return import_all(arguments, importer, place)
    return import_all(arguments, importer, "")


def folder_of(arguments: argparse.Namespace) -> str:
    """The folder into which files are written."""
    return arguments.into or os.path.dirname(arguments.mapping) or "."


def import_all(arguments: argparse.Namespace, importer: Importer, place: str) -> int:
    """Imports, with drawn names where there is a place for their key."""
    folder, faults = folder_of(arguments), importer.faults
    refuse_own_among_drawn(folder, arguments.pseudonyms)
    key = importer.known_by(pseudonyms.read(place)) if place else None
    made = importer.made()
    made.limits(faults)
    if arguments.faults:
        exports = [("export", source.path) for source in made.mapping.sources]
        tables.refuse_over([arguments.faults], [("mapping", arguments.mapping), *exports])
    if faults:
        return tell_faults(faults, arguments.faults, arguments.mapping)
    if key:
        made.draw(key, folder)
    files = made.files()
    refuse_exports(folder, files, made.mapping)
    write_all(folder, files, arguments.replace, key.changes() if key else {})
    if key:
        key.hide()
    for line in [*made.lines(), *strange_sessions(folder, files)]:
        tell.say(line)
    return 0


def tell_faults(faults: Faults, table: str | None, mapping: str) -> int:
    """Tells all faults, and that nothing was written."""
    faults.tell(sys.stdout)
    if table:
        tables.write_whole(table, tables.sheet_bytes(faults.rows()))
    tell.say(f"nothing is written; correct the exports, or {mapping}, and run again")
    return faults.status


def refuse_own_among_drawn(folder: str, draws: bool) -> None:
    """Refuses own names in a folder whose students have drawn ones: they would be published beside them."""
    path = os.path.join(folder, own_names.FILE)
    if not draws and os.path.exists(path) and own_names.are_drawn(own_names.read(path)):
        raise tell.Trouble(f"the students in {folder} have drawn names: say `--pseudonyms`, or `--into` another folder")


def refuse_exports(folder: str, files: dict[str, bytes], mapping: Mapping) -> None:
    """Refuses where a file would be written over one of the exports that it is made of."""
    exports = {tables.file_at(source.path) for source in mapping.sources} - {None}
    folders = [source.path for source in mapping.sources if source.kind == "sessions" and os.path.exists(source.path)]
    if os.path.isdir(folder) and any(os.path.samefile(folder, one) for one in folders):
        raise tell.Trouble(f"{folder} is the folder of the students' files: `--into` names another folder")
    over = [name for name in files if tables.file_at(os.path.join(folder, name)) in exports]
    if over:
        raise tell.Trouble(f"{', '.join(over)} would be written over an export of that name: `--into` names another folder")


def strange_sessions(folder: str, written: dict[str, bytes]) -> list[str]:
    """The sessions that stand in the folder and are of no survey: a run with all sessions there would hear them too."""
    strange = sorted(name for name in os.listdir(folder) if name.endswith(".session") and name not in written)
    return [f"{os.path.join(folder, name)} stands there and is of no survey of this mapping" for name in strange]


@dataclass
class Draft:
    """A section as its rows say it. `said` has each column's value with the row that said it first."""

    name: str
    said: dict[str, tuple[str, int]] = field(default_factory=dict)
    meetings: list[str] = field(default_factory=list)
    #: The meetings as the timetable writes them.
    written: list[str] = field(default_factory=list)
    rows: list[int] = field(default_factory=list)


class Importer:
    """Reads all exports of a mapping."""

    def __init__(self, path: str, faults: Faults, allowed: Container[str] = ()) -> None:
        self.faults = faults
        self.allowed = allowed
        try:
            self.mapping = read_mapping(path, faults)
        except OSError as error:
            raise tell.Trouble(f"{path} can not be read: {error.strerror}", tell.NO_FILE) from error
        self.students = Names("student", self.mapping.students)
        self.sections = Names("section", self.mapping.sections)
        self.courses = Names("course", self.mapping.courses)
        self.result = Made(self.mapping)

    def place_of_key(self) -> str:
        """Where the key of drawn names is: beside the register; nothing where the mapping has none, which is a fault."""
        registers = self.mapping.of_kind("roll")
        return pseudonyms.beside(registers[0].path) if registers else ""

    def known_by(self, key: pseudonyms.Key) -> pseudonyms.Key:
        """The key, by whose drawn names exports may name students too: what they saved by the page has them."""
        for row in key.rows.values():
            self.mapping.students.same.setdefault(row.drawn, row.own)
        return key

    def made(self) -> Made:
        """The files' content. Where there are faults it is not to be used."""
        if not self.mapping.is_read:
            return self.result
        tables_of = (("catalogue", self.sections, self.take_catalogue), ("roll", self.students, self.take_roll))
        for kind, names, take in tables_of:
            sources = self.mapping.of_kind(kind)
            names.is_whole = bool(sources)
            if sources:
                export = Export(sources[0], self.faults)
                take(export)
                self.result.tallies.append(export.tally)
            elif kind not in self.mapping.kinds:
                self.faults.add(self.mapping.path, None, "", "", f"there is no section [{kind}]")
        for source in self.mapping.sources:
            if source.kind in OF_WISHES:
                self.result.surveys.append(self.survey(source))
        self.result.names = [*self.sections.rows(), *self.courses.rows(), *self.students.rows()]
        return self.result

    def survey(self, source: Source) -> Survey:
        """A survey. Where a table could not be read its names are not looked up: that would be a fault a row."""
        known = Known(self.mapping, self.students, self.sections, NOT_ON_ROLL in self.allowed)
        if source.kind == "sessions":
            return FolderReader(source, known, self.faults).read()
        return SurveyReader(source, known, self.faults).read()

    def number(self, export: Export, row: Row, option: str, most: int) -> str:
        """A whole number, as the program reads it; 0, with a fault, where it is none."""
        text = export.cell(row, option)
        try:
            if option == "credits":
                return str(in_units(text, self.mapping.unit, most, self.mapping.decimal))
            if option == "seats":
                return str(seats(text, most, self.mapping.decimal, export.source.get("reserved seats")))
            return str(whole(text, 0, most, self.mapping.decimal))
        except AmountFault as fault:
            hint = "" if text else f"; `{option} default` states what a blank means, `fill down` that cells are merged"
            export.fault(row, option, text, f"{fault}{hint}")
            return "0"

    def has_names(self, export: Export, option: str) -> bool:
        """Whether a table has the column of its names, and rows. Where it has not, no name is looked up in it."""
        if export.is_read and not export.rows:
            self.faults.add(export.file, None, "", "", f"there are no {option}s below the header")
        return bool(export.column(option, needed=True) and export.rows)

    def take_catalogue(self, export: Export) -> None:
        """The catalogue, a section's rows together."""
        self.sections.is_whole = self.has_names(export, "section")
        export.column("course", needed=True)
        for option in ("seats", "credits"):
            export.column(option, needed=not export.source.get(f"{option} default"))
        if not any(export.column(option) for option in ("meetings", "days")):
            export.column("meetings", needed=not export.source.get("meetings default"))
        self.refuse_filled(export)
        drafts: dict[str, Draft] = {}
        for row in export.rows if self.sections.is_whole else []:
            text = export.cell(row, "section")
            try:
                name = self.sections.define(text)
            except NameFault as fault:
                export.fault(row, "section", text, str(fault))
                name = f"\0{row.number}"
            draft = drafts.setdefault(name, Draft(name))
            draft.rows.append(row.number)
            self.take_row(export, row, draft)
        self.settle(export, list(drafts.values()))

    def refuse_filled(self, export: Export) -> None:
        """Refuses a cell that was filled down from a row of another course: no merged cell is that."""
        by_number = {row.number: row for row in export.rows}
        for row in export.rows:
            for option in OF_SECTIONS:
                source = export.filled_from(row, option)
                course = export.cell(by_number[source], "course") if source else ""
                if source and course != export.cell(row, "course"):
                    above = f"what stands above, in row {source}, is of another course ({course})"
                    export.fault(row, option, "", f"{option} of its own: {above}")

    def take_row(self, export: Export, row: Row, draft: Draft) -> None:
        """One row of a section. What it says of course, seats, credits and parts has to be what its other rows say."""
        for option in ("course", "seats", "credits", "parts"):
            column = export.column(option)
            text = column.cell(row) if column else ""
            said = draft.said.get(option)
            if text and said and said[0] != text:
                export.fault(row, option, text, f'"{said[0]}", as row {said[1]} says of {draft.name}')
            elif text and not said:
                draft.said[option] = (text, row.number)
        draft.meetings += self.meetings(export, row)
        draft.written.append(self.meetings_as_written(export, row))

    def meetings_as_written(self, export: Export, row: Row) -> str:
        """The meetings of a row in the timetable's own words."""
        if export.column("meetings"):
            return tidy(export.cell(row, "meetings"))
        times = [tidy(export.cell(row, option)) for option in ("start", "end")]
        return " ".join(part for part in (tidy(export.cell(row, "days")), "-".join(one for one in times if one)) if part)

    def meetings(self, export: Export, row: Row) -> list[str]:
        """The meetings that a row says, in one cell or in cells for days and times."""
        option = "meetings" if export.column("meetings") else "days"
        start = export.cell(row, "start") if option == "days" else ""
        text = export.cell(row, option)
        if not text and not start:
            text = export.source.get("meetings default")
        try:
            if not text and not start:
                raise MeetingFault("days and times; `meetings default = TBA` states that a blank is no meeting")
            length = self.length(export, row)
            if start:
                return meetings_by_columns(text, start, export.cell(row, "end"), length, self.mapping.meetings)
            return meetings_of(text, length, self.mapping.meetings)
        except MeetingFault as fault:
            export.fault(row, option, f"{text} {start}".strip(), str(fault))
            return []

    def length(self, export: Export, row: Row) -> int:
        """The minutes of the row's meetings that state no end; 0 where none are stated."""
        text = export.cell(row, "length")
        return minutes_of(text) if text else 0

    def settle(self, export: Export, drafts: list[Draft]) -> None:
        """The rows of the catalogue, in the order in which the export has the sections."""
        has_parts = bool(export.column("parts"))
        header = ["section", "course", "seats", "credits", "meetings"] + ["parts"] * has_parts
        self.result.catalogue = [header]
        by_number = {row.number: row for row in export.rows}
        for draft in drafts:
            first = by_number[draft.rows[0]]
            row = {option: by_number[draft.said[option][1]] if option in draft.said else first for option in header[1:]}
            try:
                meetings = ";".join(joined(draft.meetings))
            except MeetingFault as fault:
                export.fault(first, "meetings", draft.name, str(fault))
                meetings = ""
            written = "; ".join(dict.fromkeys(one for one in draft.written if one))
            self.result.written += [[own_names.MEETINGS, written, draft.name]] if written else []
            cells = [draft.name, self.course(export, row["course"])]
            cells += [
                self.number(export, row["seats"], "seats", limits.MAX_SEATS),
                self.number(export, row["credits"], "credits", limits.MAX_SECTION_CREDITS),
                meetings,
            ]
            self.result.catalogue.append(cells + ([self.parts(export, row["parts"])] if has_parts else []))
        several = [draft.name for draft in drafts if len(draft.rows) > 1]
        if several:
            shown = ", ".join(several[:5]) + (", .." if len(several) > 5 else "")
            self.result.notes.append(
                f"{tell.count(len(several), 'section has', 'sections have')} several rows, put together: {shown}"
            )

    def course(self, export: Export, row: Row) -> str:
        """The course of a section."""
        text = export.cell(row, "course")
        try:
            return self.courses.define(text) if export.column("course") else ""
        except NameFault as fault:
            export.fault(row, "course", text, str(fault))
            return ""

    def parts(self, export: Export, row: Row) -> str:
        """The half of the term, or both."""
        text = export.cell(row, "parts")
        plain = self.mapping.parts.get(text.casefold(), re.sub(r"\.0+$", "", text))
        if plain not in ("1", "2", "12"):
            export.fault(
                row, "parts", text, "1 for the first half of the term, 2 for the second, 12 for both, or a word of [parts]"
            )
        return plain

    def take_roll(self, export: Export) -> None:
        """The roll."""
        self.students.is_whole = self.has_names(export, "student")
        has_carry = bool(export.column("carry"))
        self.result.roll = [["student", "budget", "credits", "courses"] + ["carry"] * has_carry]
        for option in ("budget", "credits", "courses"):
            export.column(option, needed=not export.source.get(f"{option} default"))
        rows: dict[str, int] = {}
        for row in export.rows if self.students.is_whole else []:
            text = export.cell(row, "student")
            try:
                name = self.students.define(text)
            except NameFault as fault:
                export.fault(row, "student", text, str(fault))
                name = ""
            if name and name in rows:
                export.fault(row, "student", text, f"a student once; row {rows[name]} has it already")
            rows.setdefault(name, row.number)
            budget = self.number(export, row, "budget", limits.MAX_BASE)
            cells = [name, budget, self.number(export, row, "credits", limits.MAX_CREDITS)]
            cells.append(self.number(export, row, "courses", limits.MAX_COURSES))
            if has_carry:
                cells.append(self.number(export, row, "carry", limits.MAX_BASE - int(budget)))
            self.result.roll.append(cells)


def write_all(folder: str, files: dict[str, bytes], replace: bool, besides: dict[str, bytes] | None = None) -> None:
    """Writes all files, or none where one can not be written or stands there with another content.

    Each is written under another name first; they take their names when all are whole. `besides` has paths of files elsewhere
    that are written with them, and first, over what stands there.
    """
    paths = {os.path.normpath(os.path.join(folder, name)): content for name, content in files.items()}
    if not replace:
        refuse_standing(paths)
    with at_work.made(folder):
        write_files({**(besides or {}), **paths})


def refuse_standing(paths: dict[str, bytes]) -> None:
    """Refuses where a file stands already that would change."""
    standing = [path for path, content in paths.items() if os.path.exists(path) and tables.read_bytes(path) != content]
    if standing:
        raise tell.Trouble(f"these files stand already and would change: {', '.join(standing)}. `--replace` writes over them")
