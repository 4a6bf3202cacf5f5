"""A folder of session files, one of each student, as the page's form saves them: what the students want, as one survey.

Each file is its student's own: it is named after the student, and each of its lines speaks of that student alone. Whose file
is doubled, or speaks of another, is a fault; whose is missing is told.
"""

from __future__ import annotations

import os
import re
from typing import Iterator, Optional

from registrar import limits, tables
from registrar.faults import Faults, plain
from registrar.mapping import Source
from registrar.spelling import NameFault, UnknownName
from registrar.surveys import Known, Survey, Wish, over_limits
from registrar.tally import COPY, OF_SYSTEM, SILENT, STRANGER, Tally

#: Files that systems, and these tools, leave in folders.
LEFT_BY_SYSTEMS = ("thumbs.db", "desktop.ini", "course-match.lock", "course-match.log")

#: What a browser puts behind the name of a file that it saves again.
AGAIN = re.compile(r"(.+?)\s*\(\d+\)")

#: What a line of such a file may be.
EXPECTED = "a line as the form saves it: `rate NAME SECTION POINTS`, `pair NAME SECTION SECTION POINTS` or `clear NAME`"


def place_of(name: str) -> tuple[bool, str]:
    """By what files are sorted: those that a browser saved again come behind the others."""
    return bool(AGAIN.fullmatch(os.path.splitext(name)[0])), name


class FolderReader:
    """Reads one folder."""

    def __init__(self, source: Source, known: Known, faults: Faults) -> None:
        self.source = source
        self.known = known
        self.faults = faults
        self.folder = os.path.join(source.folder, source.get("folder"))
        self.survey = Survey(source.name, Tally(source.get("folder"), what=("file", "files")))
        #: The file of each student, by the student's name.
        self.files: dict[str, str] = {}

    def read(self) -> Survey:
        """The wishes of all files; each fault is added to the faults."""
        self.survey.has_file = set()
        try:
            names = sorted(os.listdir(self.folder), key=place_of)
        except OSError as error:
            self.faults.lacks_file = True
            expected = f"{self.folder} can not be read ({error.strerror})"
            self.faults.add(self.source.get("folder"), None, "", "", expected)
            return self.survey
        self.survey.tally.rows = len(names)
        for number, name in enumerate(names):
            self.take(number, name)
        for wish, words in over_limits(self.survey.wishes):
            self.faults.add(wish.column, wish.row, "", wish.value, words)
        return self.survey

    def fault(self, name: str, line: int | None, value: str, expected: str) -> None:
        """Keeps a fault of a file."""
        self.faults.add(os.path.join(self.source.get("folder"), plain(name)), line, "", value, expected)

    def take(self, number: int, name: str) -> None:
        """Takes one file of the folder."""
        shape = self.source.get("files")
        before, _, behind = shape.partition("*")
        found = re.fullmatch(f"{re.escape(before)}(.+){re.escape(behind)}", name, re.IGNORECASE)
        if name.startswith(".") or name.lower() in LEFT_BY_SYSTEMS:
            self.survey.tally.leave(number, OF_SYSTEM)
        elif not found or not os.path.isfile(os.path.join(self.folder, name)):
            self.fault(name, None, "", f"a file named like `{shape}`, the * standing for the student")
        else:
            student = self.student(number, name, found.group(1))
            if student and self.is_first(number, name, student):
                self.take_lines(number, name, student)

    def student(self, number: int, name: str, text: str) -> str:
        """The student after whom a file is named; nothing, with a fault, where that is nobody.

        Where such files are left out there is no fault.
        """
        again = AGAIN.fullmatch(text)
        last: Optional[NameFault] = None
        for code in [text, *([again.group(1)] if again else [])]:
            try:
                return self.known.students.find(code)
            except NameFault as fault:
                last = fault
        if self.known.leaves_strangers and isinstance(last, UnknownName) and not last.is_nearly:
            self.survey.tally.leave(number, STRANGER)
            self.survey.strangers.setdefault(name, ([], last.hint))
        else:
            self.fault(name, None, text, str(last))
        return ""

    def is_first(self, number: int, name: str, student: str) -> bool:
        """Whether no file of this student was taken before. A copy is left out; another content is a fault."""
        before = self.files.setdefault(student, name)
        if before == name:
            return True
        if tables.read_bytes(os.path.join(self.folder, before)) == tables.read_bytes(os.path.join(self.folder, name)):
            self.survey.tally.leave(number, COPY)
        else:
            expected = f"one file of each student; {before} is one of {student} too, and says something else"
            self.fault(name, None, student, expected)
        return False

    def take_lines(self, number: int, name: str, student: str) -> None:
        """Takes the lines of a student's file. As at the desk, each section and pair has what its last line says."""
        commands = tables.read_session(os.path.join(self.folder, name))
        unread = [one for one in commands if one.kind == "unreadable"]
        if len(unread) * 2 > len(commands):
            expected = f"a session; {len(unread)} of its {len(commands)} lines are none of its lines"
            self.fault(name, unread[0].line, unread[0].text, expected)
            return
        kept: dict[tuple[str, ...], Wish] = {}
        for command in commands:
            if not self.is_own(name, command, student):
                continue
            if command.kind == "clear":
                kept.clear()
                continue
            for wish in self.wish(name, command, student):
                kept.pop(wish.about, None)
                kept[wish.about] = wish
        wishes = [wish for wish in kept.values() if wish.points]
        assert self.survey.has_file is not None
        self.survey.has_file.add(student)
        self.survey.wishes += wishes
        if not wishes:
            self.survey.tally.leave(number, SILENT)

    def is_own(self, name: str, command: tables.Command, student: str) -> bool:
        """Whether a line is one of the form's, and speaks of the student whose file it is; if not, it is a fault."""
        if command.kind not in ("rate", "pair", "clear"):
            self.fault(name, command.line, command.text, EXPECTED)
            return False
        try:
            spoken_of = self.known.students.find(command.words[1])
        except NameFault:
            spoken_of = ""
        if spoken_of != student:
            expected = f"lines of {student} alone, whose file this is by its name"
            self.fault(name, command.line, command.words[1], expected)
        return spoken_of == student

    def wish(self, name: str, command: tables.Command, student: str) -> Iterator[Wish]:
        """The wish of a line, or nothing, with a fault."""
        sections: list[str] = []
        for word in command.words[2:-1]:
            try:
                sections.append(self.known.sections.find(word))
            except NameFault as fault:
                self.fault(name, command.line, word, str(fault))
                return
        points = int(command.words[-1])
        least, most = (0, limits.MAX_RATING) if len(sections) == 1 else (-limits.MAX_ADJUSTMENT, limits.MAX_ADJUSTMENT)
        if not least <= points <= most:
            self.fault(name, command.line, command.words[-1], f"a whole number from {least} to {most}")
        elif len(set(sections)) != len(sections):
            self.fault(name, command.line, command.text, "two different sections")
        else:
            second = sections[1] if len(sections) > 1 else ""
            file = os.path.join(self.source.get("folder"), name)
            yield Wish(student, sections[0], second, points, command.line, file, command.text)
