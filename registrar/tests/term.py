"""What tests of the commands share: a folder with a small made school, and a call of a command with what it says."""

from __future__ import annotations

import re

from tests import school, support

#: The encodings of the made school's exports.
ENCODINGS = {"timetable.csv": "utf-16", "web.csv": "utf-8"}


def say(*words: str) -> tuple[int, str]:
    """The status of a command, and what it says, on standard output and then on standard error."""
    told = support.call(*words)
    return told.status, told.out + told.err


class InFolder(support.InFolder):
    """A test in a folder of its own, with files in any encoding."""

    def write(self, name: str, text: str, encoding: str = "utf-8") -> None:
        """Writes a file."""
        with open(name, "w", encoding=encoding, newline="") as file:
            file.write(text)

    def read(self, name: str, encoding: str = "utf-8-sig") -> str:
        """The text of a file."""
        with open(name, encoding=encoding, newline="") as file:
            return file.read()

    def settle(self, option: str, value: str, section: str = "") -> None:
        """Writes an option of the mapping: the first one of that name, or that of a section."""
        text = self.read("mapping.ini")
        begin = text.index(f"[{section}]") if section else 0
        head, rest = text[:begin], text[begin:]
        self.write("mapping.ini", head + re.sub(rf"(?m)^{option} =.*$", f"{option} = {value}", rest, count=1))


class WithSchool(InFolder):
    """A test with the exports of a made school, and the mapping that was guessed and then corrected in three lines."""

    STUDENTS = 60
    SECTIONS = 24

    def setUp(self) -> None:
        super().setUp()
        self.school = school.write_school(".", 7, self.STUDENTS, self.SECTIONS)
        self.guessed = say("import", *sorted(school.exports(self.school)))
        self.settle("courses default", "5")
        for survey in ("web", "desk"):
            self.settle("says", "rating", f"survey {survey}")

    def spoil(self, name: str, old: str, new: str, count: int = -1) -> None:
        """Replaces a text in an export, in its own encoding."""
        encoding = ENCODINGS.get(name, "utf-8-sig")
        text = self.read(name, encoding)
        self.assertIn(old, text)
        self.write(name, text.replace(old, new, count), encoding)

    def imported(self) -> tuple[int, str]:
        """Imports into the folder `out`."""
        return say("import", "--into", "out")
