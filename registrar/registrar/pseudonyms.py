"""Drawn names of students, so that what is published names nobody; and the key, which has whose each name is.

The key is the table `pseudonyms.csv` beside the register, apart from what is published. A student keeps its drawn name as
long as the key is there. `names.csv`, beside the catalogue, says where the key is; with it every list has the student's own
name.
"""

from __future__ import annotations

import contextlib
import csv
import io
import os
import secrets
from dataclasses import dataclass, field
from typing import Dict, Iterable, List

from registrar import tables
from registrar.spelling import is_name
from registrar.tell import FAULTS, Trouble

FILE = "pseudonyms.csv"

#: The kind of the row of `names.csv` that says where the key is.
KIND = "pseudonyms"

HEADER = ["student", "name", "pseudonym"]

#: A drawn name has so many of these signs, the first of which is a letter. None of them is taken for another.
LENGTH = 8
SIGNS = "abcdefghjkmnpqrstuvwxyz23456789"
LETTERS = SIGNS.rstrip("23456789")


@dataclass(frozen=True)
class Row:
    """A student: its own number as the register has it, what that would be to the program, and the drawn name."""

    own: str
    name: str
    drawn: str


@dataclass
class Key:
    """The key. `rows` are by the names that the program would have without it."""

    path: str
    rows: Dict[str, Row] = field(default_factory=dict)
    #: How many names were drawn since it was read.
    new: int = 0

    def draw(self, names: Dict[str, str]) -> None:
        """Draws a name for each of these students who has none; `names` has the own number of each name."""
        taken = {row.drawn for row in self.rows.values()} | set(self.rows) | set(names)
        for name, own in names.items():
            drawn = self.rows[name].drawn if name in self.rows else drawn_name(taken)
            self.new += name not in self.rows
            taken.add(drawn)
            self.rows[name] = Row(own, name, drawn)

    def drawn(self, name: str) -> str:
        """The drawn name of a student."""
        return self.rows[name].drawn

    def changes(self) -> Dict[str, bytes]:
        """The key as it is to be written, by its path; nothing where it stands so already."""
        content = tables.sheet_bytes([HEADER, *([row.own, row.name, row.drawn] for row in self.rows.values())])
        is_there = os.path.exists(self.path) and tables.read_bytes(self.path) == content
        return {} if is_there else {self.path: content}


    def hide(self) -> None:
        """Lets nobody but its owner read the key, where that can be done."""
        with contextlib.suppress(OSError):
            os.chmod(self.path, 0o600)


def drawn_name(taken: Iterable[str]) -> str:
    """A name that nobody has."""
    while True:
        name = secrets.choice(LETTERS) + "".join(secrets.choice(SIGNS) for _ in range(LENGTH - 1))
        if name not in taken:
            return name


def beside(register: str) -> str:
    """The path of the key of a register."""
    return os.path.join(os.path.dirname(register), FILE)


def read(path: str) -> Key:
    """Reads a key; where there is none it is empty.

    Raises `Trouble` where the file is no key, so that no name is drawn anew by mistake.
    """
    key = Key(path)
    if not os.path.lexists(path):
        return key
    try:
        rows = [row for row in csv.reader(io.StringIO(tables.read_text(path), newline="")) if row]
    except csv.Error as error:
        raise no_key(path, str(error)) from error
    if not rows or rows[0] != HEADER:
        raise no_key(path, f"its first row is not {','.join(HEADER)}")
    for number, cells in enumerate(rows[1:], 2):
        if len(cells) != len(HEADER) or not is_name(cells[2]):
            raise no_key(path, f"row {number}")
        row = Row(*(tables.unguarded(cell) for cell in cells))
        if row.name in key.rows or any(row.drawn == other.drawn for other in key.rows.values()):
            raise no_key(path, f"row {number} has a name that stands above it already")
        key.rows[row.name] = row
    return key


def no_key(path: str, why: str) -> Trouble:
    """A refusal of a file that is no key."""
    advice = "put back the one that was written, or take it away to draw all names anew"
    return Trouble(f"{path} is no key of drawn names ({why}): {advice}", FAULTS)


def own_numbers(path: str) -> Dict[str, str]:
    """The own number of each drawn name of a key."""
    return {row.drawn: row.own for row in read(path).rows.values()}


def own_files(path: str) -> Dict[str, str]:
    """What each student of a key would be to the program without it, by drawn names: so its own files are called."""
    return {row.drawn: row.name for row in read(path).rows.values()}


def refuse_among(path: str, folder: str) -> None:
    """Refuses a key that would stand in the folder of what is published, or below it."""
    inner, outer = os.path.realpath(path), os.path.realpath(folder or ".")
    if os.path.commonpath([inner, outer]) == outer:
        raise Trouble(
            f"the key {path} would stand in {folder or '.'}, among what is published: "
            "`--into` names a folder apart from the register's"
        )


def row_of_names(path: str, folder: str) -> List[str]:
    """The row of a `names.csv` in this folder that says where the key is."""
    place = os.path.relpath(os.path.realpath(path), os.path.realpath(folder or "."))
    return [KIND, place.replace(os.sep, "/"), "student"]
