"""The program's own formats, read strictly enough to retell its answers, and the tables that the tools write.

A line number counts from 1. A row is the number of a record, the header being 1, as the program counts.
"""

from __future__ import annotations

import csv
import io
import json
import os
import re
from dataclasses import dataclass
from typing import Dict, Iterable, Iterator, List, Optional, Sequence, Tuple

from registrar import limits, whole
from registrar.tell import FAULTS, NO_FILE, USAGE, Trouble

NAME = re.compile(r"[A-Za-z0-9._-]{1,32}\Z")
# A number of more digits is above every range, and Python reads no text of thousands of digits as a number.
NUMBER = re.compile(r"(0|[1-9][0-9]{0,19})\Z")
MEETING = re.compile(r"([MTWRFSU])([01][0-9]|2[0-3])([0-5][0-9])-([01][0-9]|2[0-3])([0-5][0-9])\Z")
POINTS = re.compile(r"(?!-0\Z)-?(0|[1-9][0-9]{0,5})\Z")

# What a spreadsheet takes for the beginning of a formula, also behind apostrophes that guard a text already.
FORMULA = re.compile(r"'*[=+\-@\t\r]")

# A number with its sign, which is no formula.
SIGNED = re.compile(r"[-+][0-9]+([.,][0-9]+)?%?\Z")

CATALOGUE_HEADERS = ("section,course,seats,credits,meetings", "section,course,seats,credits,meetings,parts")
ROLL_HEADERS = ("student,budget,credits,courses", "student,budget,credits,courses,carry")
SETTINGS = ("seed", "spread", "accept", "turns", "tabu", "patience", "steps", "raise")


@dataclass(frozen=True)
class Record:
    """A record of a table: its row, the line at which it begins, and its fields."""

    row: int
    line: int
    fields: Tuple[str, ...]


@dataclass(frozen=True)
class Section:
    """A row of the catalogue. `meetings` is the text of the table; `parts` is `12` in a table without that column."""

    code: str
    course: str
    seats: int
    credits: int
    meetings: str
    parts: str
    file: str
    row: int
    line: int


@dataclass(frozen=True)
class Student:
    """A row of the roll. `carry` is 0 in a table without that column."""

    name: str
    budget: int
    credits: int
    courses: int
    carry: int
    file: str
    row: int
    line: int


@dataclass(frozen=True)
class Command:
    """A command of a session: its words, the session's number (from 1), the file and the line."""

    session: int
    file: str
    line: int
    words: Tuple[str, ...]

    @property
    def text(self) -> str:
        """The command with one space between its words."""
        return " ".join(self.words)

    @property
    def kind(self) -> str:
        """`rate`, `pair`, `clear`, `close` or `unreadable`."""
        return kind_of(self.words)

    @property
    def student(self) -> Optional[str]:
        """The student whom the command names, if it names one."""
        return self.words[1] if self.kind in ("rate", "pair", "clear") else None


def kind_of(words: Sequence[str]) -> str:
    """Which of the commands the words are."""
    first = words[0]
    names = {"rate": 2, "pair": 3, "clear": 1, "close": 0}.get(first)
    if names is None:
        return "unreadable"
    numbers = 1 if first in ("rate", "pair") else 0
    if len(words) != 1 + names + numbers or not all(NAME.match(word) for word in words[1 : 1 + names]):
        return "unreadable"
    if numbers and not POINTS.match(words[-1]):
        return "unreadable"
    return first


def read_bytes(path: str) -> bytes:
    """The bytes of a file."""
    try:
        with open(path, "rb") as file:
            return file.read()
    except OSError as error:
        raise Trouble(f"{path} can not be read: {error.strerror}", NO_FILE) from error


def read_text(path: str) -> str:
    """The text of one of the program's inputs: a leading byte order mark is dropped, a byte that is no UTF-8 is kept as a mark."""
    return read_bytes(path).decode("utf-8-sig", "replace")


def records(path: str) -> Iterator[Record]:
    """The records of a comma-separated table as the program counts them: empty lines are none."""
    csv.field_size_limit(1 << 26)
    reader = csv.reader(io.StringIO(read_text(path), newline=""))
    row = 0
    line = 1
    while True:
        begun = line
        try:
            fields = next(reader)
        except StopIteration:
            return
        except csv.Error as error:
            raise Trouble(f"{path}, line {begun}: {error}") from error
        line = reader.line_num + 1
        if fields:
            row += 1
            yield Record(row, begun, tuple(fields))


def fault(path: str, record: Record, column: int, expected: str) -> Trouble:
    """A refusal of a field, with all that is needed to find and correct it."""
    return Trouble(f"{place(path, record, column)}: {value_at(record, column)} is not {expected}")


def place(path: str, record: Record, column: int = 0) -> str:
    """Where a record, or one of its fields (columns count from 1), stands."""
    where = f"{path}, row {record.row} (line {record.line})"
    return f"{where}, column {column}" if column else where


def value_at(record: Record, column: int) -> str:
    """The value in a column, in quotes, or that there is none."""
    if column <= len(record.fields):
        return repr(record.fields[column - 1])
    return "nothing"


def number_at(path: str, record: Record, column: int, most: int) -> int:
    """The number in a column."""
    text = record.fields[column - 1]
    if not NUMBER.match(text) or int(text) > most:
        raise fault(path, record, column, f"a whole number from 0 to {most}")
    return int(text)


def rows_of(path: str, headers: Sequence[str]) -> List[Record]:
    """The records behind the header, which is one of these, each with as many fields as it."""
    all_rows = list(records(path))
    if not all_rows or ",".join(all_rows[0].fields) not in headers:
        raise Trouble(f"{path}, row 1: the header is none of {' or '.join(headers)}")
    width = len(all_rows[0].fields)
    for record in all_rows[1:]:
        if len(record.fields) != width:
            raise Trouble(f"{place(path, record)}: {len(record.fields)} fields where the header has {width}")
    return all_rows[1:]


def name_at(path: str, record: Record, column: int) -> str:
    """The name in a column."""
    if not NAME.match(record.fields[column - 1]):
        raise fault(path, record, column, "1 to 32 letters, digits, '-', '_' and '.'")
    return record.fields[column - 1]


def read_catalogue(path: str) -> List[Section]:
    """The sections of a catalogue, in its order."""
    found: Dict[str, Section] = {}
    for record in rows_of(path, CATALOGUE_HEADERS):
        code = name_at(path, record, 1)
        if code in found:
            raise Trouble(f"{place(path, record, 1)}: {code} stands in row {found[code].row} already")
        parts = record.fields[5] if len(record.fields) == 6 else "12"
        if parts not in ("1", "2", "12"):
            raise fault(path, record, 6, "'1', '2' or '12'")
        if not are_meetings(record.fields[4]):
            raise fault(path, record, 5, "a list of meetings such as M0900-1020;W0900-1020")
        found[code] = Section(
            code, name_at(path, record, 2), number_at(path, record, 3, limits.MAX_SEATS),
            number_at(path, record, 4, limits.MAX_SECTION_CREDITS), record.fields[4], parts, path, record.row, record.line,
        )
    return list(found.values())


def are_meetings(text: str) -> bool:
    """Whether the text is a list of meetings as a catalogue has it."""
    if not text:
        return True
    meetings = [MEETING.match(one) for one in text.split(";")]
    return len(meetings) <= limits.MAX_MEETINGS and all(one and one.group(2, 3) < one.group(4, 5) for one in meetings)


def read_roll(path: str) -> List[Student]:
    """The students of a roll, in its order."""
    found: Dict[str, Student] = {}
    for record in rows_of(path, ROLL_HEADERS):
        name = name_at(path, record, 1)
        if name in found:
            raise Trouble(f"{place(path, record, 1)}: {name} stands in row {found[name].row} already")
        budget = number_at(path, record, 2, limits.MAX_BASE)
        carry = number_at(path, record, 5, limits.MAX_BASE - budget) if len(record.fields) == 5 else 0
        found[name] = Student(
            name, budget, number_at(path, record, 3, limits.MAX_CREDITS), number_at(path, record, 4, limits.MAX_COURSES), carry,
            path, record.row, record.line,
        )
    return list(found.values())


def read_settings(path: str) -> Dict[str, object]:
    """The settings, by name. Their ranges are the program's to judge."""
    try:
        found = json.loads(read_text(path))
    except (ValueError, RecursionError) as error:
        raise Trouble(f"{path} is no JSON: {error}", FAULTS) from error
    if not isinstance(found, dict):
        raise Trouble(f"{path} is no JSON object")
    for name in SETTINGS:
        if name not in found:
            raise Trouble(f"{path}: the setting '{name}' is missing")
    return found


def read_session(path: str, number: int = 1) -> List[Command]:
    """The commands of a session, in its order, also those that are unreadable."""
    found = []
    for line, text in enumerate(read_text(path).split("\n"), 1):
        words = re.findall(r"[^ \t]+", text[:-1] if text.endswith("\r") else text)
        if words and not words[0].startswith("#"):
            found.append(Command(number, path, line, tuple(words)))
    return found


def read_sessions(paths: Sequence[str]) -> List[List[Command]]:
    """The commands of each session, the sessions being numbered from 1."""
    return [read_session(path, number) for number, path in enumerate(paths, 1)]


def ratings_of(commands: Iterable[Command], sections: Iterable[str]) -> Dict[str, Dict[str, int]]:
    """How each student rates sections after these commands, heard in this order.

    It follows the desk's rules but for students who are not on the roll and the limits on how many.
    """
    known = set(sections)
    ratings: Dict[str, Dict[str, int]] = {}
    for command in commands:
        kind = command.kind
        if kind == "close":
            break
        if kind == "clear":
            ratings.pop(command.words[1], None)
        elif kind == "rate" and command.words[2] in known and 0 <= int(command.words[3]) <= 100:
            set_or_drop(ratings.setdefault(command.words[1], {}), command.words[2], int(command.words[3]))
    return ratings


def set_or_drop(kept: Dict[str, int], key: str, value: int) -> None:
    """Keeps the value under the key; 0 takes the key away."""
    if value:
        kept[key] = value
    else:
        kept.pop(key, None)


def csv_text(rows: Iterable[Sequence[object]]) -> str:
    """A table as text: commas, quotes where they are needed, lines that end with a line feed."""
    out = io.StringIO(newline="")
    csv.writer(out, lineterminator="\n").writerows(rows)
    return out.getvalue()


def guarded(cell: object) -> object:
    """A text that a spreadsheet would take for a formula, with an apostrophe before it; any other cell as it is.

    So a number stays one. A text that begins with apostrophes and then so gets one more, so that `unguarded` leads back.
    """
    is_formula = isinstance(cell, str) and FORMULA.match(cell) and not SIGNED.match(cell)
    return f"'{cell}" if is_formula else cell


def unguarded(cell: str) -> str:
    """The text of a cell that `guarded` made."""
    return cell[1:] if cell.startswith("'") and FORMULA.match(cell) else cell


def sheet_text(rows: Iterable[Sequence[object]]) -> str:
    """A table that a spreadsheet opens, as text by RFC 4180: commas, quotes where needed, lines that end with CR LF.

    No text in it is a formula (`guarded`).
    """
    out = io.StringIO(newline="")
    csv.writer(out, lineterminator="\r\n").writerows([guarded(cell) for cell in row] for row in rows)
    return out.getvalue()


def sheet_bytes(rows: Iterable[Sequence[object]]) -> bytes:
    """`sheet_text` as bytes. With letters beyond ASCII it has a mark, by which a spreadsheet knows them."""
    text = sheet_text(rows)
    return text.encode("utf-8" if text.isascii() else "utf-8-sig")


def write_csv(path: str, rows: Iterable[Sequence[object]]) -> None:
    """Writes a table that a spreadsheet opens, whole or not at all."""
    write_whole(path, sheet_bytes(rows))


def refuse_over(targets: Iterable[str], inputs: Iterable[Tuple[str, str]]) -> None:
    """Refuses a file to be written that is no regular one, or that the command reads.

    `inputs` has what each file is that is read, and its path.
    """
    targets = list(targets)
    whole.refuse_others(targets)
    read = {file_at(path): what for what, path in inputs}
    for target in targets:
        found = file_at(target)
        if found is not None and found in read:
            raise Trouble(f"{target} is the {read[found]} that this command reads: give what is written another name", USAGE)


def file_at(path: str) -> Optional[Tuple[int, int]]:
    """What a file is known by under whatever name, or nothing where there is none."""
    try:
        found = os.stat(path)
    except OSError:
        return None
    return found.st_dev, found.st_ino


def make_folder(path: str) -> None:
    """Makes a folder, with those above it, where it is not there."""
    try:
        os.makedirs(path, exist_ok=True)
    except OSError as error:
        raise Trouble(f"{path} can not be written: {error.strerror}") from error


def write_whole(path: str, content: bytes) -> None:
    """Writes a file under another name in its folder and renames it, so that the old file stands until the new one is whole."""
    whole.write_whole(path, content)
