#!/usr/bin/env python3
"""The exports of a made college of 900 students and 170 sections: examples/college/make.py FOLDER writes them there.

The college is made first, and the exports of it as its offices write them: each in an encoding, with a separator and with
habits of its own. What an import has to make of them follows from the college and not from the exports. It draws nothing but
`random()`, which gives the same numbers under every Python.
"""

from __future__ import annotations

import csv
import io
import os
import random
import sys
from dataclasses import dataclass, field
from typing import Sequence, TypeVar

SEED = 2026
STUDENTS = 900
SECTIONS = 170

#: The departments with their subjects, and the names of their courses.
DEPARTMENTS = {
    "ECON": "Economics", "ÖKOL": "Ökologie", "HIST": "History", "MATH": "Mathematics", "PHYS": "Physics", "BIOL": "Biology",
    "CHEM": "Chemistry", "PHIL": "Philosophy", "MÚS": "Music", "LING": "Linguistics", "SOCI": "Sociology", "ARTH": "Art History",
    "COMP": "Computing", "PSYC": "Psychology", "GEOG": "Geography", "LITT": "Littérature",
}  # fmt: skip
TOPICS = "Foundations Methods Theory Practice Readings Problems Seminar Workshop".split()
GIVEN = "Ana Béla Chen Dana Émile Farid Grace Hugo Inès Jonas Kaja Lena Mira Noor Otto Priya Rosa Sven Tara Uma".split()
FAMILY = "Abara Baker Costa Devaux Evans Fischer Gómez Haddad Ivanov Jones Kim Lee Müller Novak Ortiz Park Rossi Silva Tran Weiß".split()

#: How the days stand in the timetable, the program's letters for them, the start and the length in minutes.
SLOTS = [
    ("MW", "MW", 510, 75), ("TTh", "TR", 510, 75), ("Mon, Wed", "MW", 600, 75), ("TTh", "TR", 600, 75), ("MWF", "MWF", 700, 50),
    ("Tue, Thu", "TR", 700, 75), ("MW", "MW", 810, 75), ("TTh", "TR", 810, 75), ("Fri", "F", 540, 150), ("F", "F", 810, 150),
    ("MW", "MW", 920, 75), ("TTh", "TR", 920, 75), ("Mon", "M", 1080, 150), ("Th", "R", 1080, 150),
]  # fmt: skip

#: In which survey a student answers, by its place on the roll.
SURVEYS = ("stars", "stars", "stars", "list", "list", "list", "choices", "ranks", "ranks")


@dataclass
class Section:
    """A section: the school's code of the course and of the section in it, and what the program is to know."""

    course: str
    letter: str
    title: str
    seats: int
    reserved: int
    half_credits: int
    days: str
    letters: str
    start: int
    length: int
    has_practice: bool
    worth: float

    @property
    def code(self) -> str:
        """The school's code, as surveys have it."""
        return f"{self.course}-{self.letter}"

    def meetings(self) -> str:
        """The meetings as the program reads them. Practice is on Friday from 16:30 on."""
        found = [f"{day}{hour(self.start)}-{hour(self.start + self.length)}" for day in self.letters]
        return ";".join(found + ["F1630-1720"] * self.has_practice)


@dataclass
class Student:
    """A student of the register, and what it wants: `wants` has the sections, the best first, each with a worth of 1 to 100."""

    number: str
    name: str
    department: str
    year: int
    tokens: int
    half_credits: int
    survey: str
    wants: dict[str, int] = field(default_factory=dict)
    answers_twice: bool = False

    @property
    def mail(self) -> str:
        """Its address."""
        return f"s{self.number}@college.example"

    def stars(self) -> dict[str, int]:
        """One to five stars for each section."""
        return {code: 1 + min(4, worth // 21) for code, worth in self.wants.items()}

    def ranks(self) -> dict[str, int]:
        """Ranks of the ten best."""
        return {code: at for at, code in enumerate(list(self.wants)[:10], 1)}

    def ratings(self) -> dict[str, int]:
        """The ratings that an import has to make, by the survey: worth, stars, or 100 less 5 for each next rank."""
        if self.survey == "stars":
            return self.stars()
        if self.survey in ("ranks", "choices"):
            most = 10 if self.survey == "ranks" else 8
            return {code: 105 - 5 * rank for code, rank in self.ranks().items() if rank <= most}
        return self.wants if self.survey == "list" else {}


T = TypeVar("T")


class Draw:
    """Numbers that are drawn."""

    def __init__(self, seed: int) -> None:
        self.random = random.Random(seed).random

    def below(self, count: int) -> int:
        """A number from 0 on, below `count`."""
        return int(self.random() * count)

    def of(self, choices: Sequence[T]) -> T:
        """One of several."""
        return choices[self.below(len(choices))]


@dataclass
class College:
    """All of it."""

    sections: list[Section]
    students: list[Student]


def hour(minutes: int) -> str:
    """`0930`."""
    return f"{minutes // 60:02d}{minutes % 60:02d}"


def clock(minutes: int) -> str:
    """`9:30`."""
    return f"{minutes // 60}:{minutes % 60:02d}"


def spelt(code: str) -> str:
    """A code as the program has it: without accents, with `_` for a blank."""
    for sign, plain in (("Ö", "O"), ("Ú", "U"), (" ", "_")):
        code = code.replace(sign, plain)
    return code


def made_college() -> College:
    """The college."""
    draw = Draw(SEED)
    sections = made_sections(draw)
    students = []
    for at in range(STUDENTS):
        year = 1 + at * 4 // STUDENTS
        one = Student(
            f"{1203 + 17 * at + draw.below(17):07d}", f"{draw.of(FAMILY)}, {draw.of(GIVEN)}", draw.of(list(DEPARTMENTS)), year,
            6000 if year == 4 else 4500, 2 * (8 + draw.below(3)) + draw.below(2), SURVEYS[at % len(SURVEYS)],
        )
        one.wants = wants_of(draw, one, sections)
        one.survey = "none" if at % 36 == 20 else one.survey
        one.answers_twice = at % 23 == 5
        students.append(one)
    return College(sections, students)


def made_sections(draw: Draw) -> list[Section]:
    """The sections: one to four of each course, in the order of the departments."""
    sections: list[Section] = []
    subjects = list(DEPARTMENTS)
    number = 101
    while len(sections) < SECTIONS:
        for subject in subjects:
            course, half_credits = f"{subject} {number}", draw.of([3, 4, 4, 4, 6, 8])
            title = f"{DEPARTMENTS[subject]}: {draw.of(TOPICS)}"
            for letter in range(1, 2 + draw.of([0, 1, 1, 2, 3])):
                if len(sections) < SECTIONS:
                    sections.append(made_section(draw, course, f"{letter:03d}", title, half_credits, len(sections)))
        number += 10
    return sorted(sections, key=lambda one: (subjects.index(one.course.split()[0]), one.code))


def made_section(draw: Draw, course: str, letter: str, title: str, half_credits: int, at: int) -> Section:
    """One section."""
    days, letters, start, length = draw.of(SLOTS)
    if at % 17 == 7:
        days, letters = "TBA", ""
    if at == 40:
        days, letters, start, length = "SU", "SU", 540, 180
    seats = 12 + draw.below(28)
    reserved = 5 if at % 13 == 3 else 0
    return Section(
        course, letter, title, seats, reserved, half_credits, days, letters, start, length, at % 19 == 4 and letters not in ("", "SU"),
        draw.random() ** 2,
    )


def wants_of(draw: Draw, student: Student, sections: list[Section]) -> dict[str, int]:
    """What a student wants: 10 to 18 sections, those of its department and those that many want before others."""
    count = 10 + draw.below(9)
    drawn = {one.code: draw.random() + 0.4 * one.worth + 0.3 * (one.course.split()[0] == student.department) for one in sections}
    best = sorted(sections, key=lambda one: -drawn[one.code])[:count]
    return {one.code: max(1, 100 - 5 * at - draw.below(5)) for at, one in enumerate(best)}


def timetable(college: College) -> list[list[str]]:
    """The timetable. Course, title and credits are merged cells; a practice is a second row; rows between departments are blank."""
    rows = [["Sections of the spring term", *[""] * 7], [""] * 8, "Course;Title;Section;Credits;Seats;Days;Time;Room".split(";")]
    before = subject = ""
    for at, one in enumerate(college.sections):
        if subject and one.course.split()[0] != subject:
            rows.append([""] * 8)
        subject = one.course.split()[0]
        merged = ["", "", ""] if one.course == before else [one.course, one.title, f"{one.half_credits / 2:g}".replace(".", ",")]
        seats = f"{one.seats} ({one.reserved} reserved)" if one.reserved else str(one.seats)
        time = f"{clock(one.start)}-{clock(one.start + one.length)}" if one.letters else ""
        rows.append([*merged[:2], f'="{one.letter}"', merged[2], seats, one.days, time, f"H{at % 40:02d}"])
        if one.has_practice:
            rows.append(["", "", f'="{one.letter}"', "", "", "F", "16:30-17:20", "Lab"])
        before = one.course
    return rows


def register(college: College) -> list[list[str]]:
    """The register. There is no cap on sections in it: the school has one for all."""
    rows = ["Matriculation number;Name;E-mail;Programme;Year;Tokens;Max credits".split(";")]
    for one in college.students:
        credits = f"{one.half_credits / 2:g}".replace(".", ",")
        rows.append([f'="{one.number}"', one.name, one.mail, DEPARTMENTS[one.department], str(one.year), str(one.tokens), credits])
    return rows


def answering(college: College, survey: str) -> list[tuple[Student, int]]:
    """Who answers in a survey, with the minute in which it does, the newest first. Some have answered before: see `earlier`."""
    found = [(one, 3000 + 7 * at) for at, one in enumerate(college.students) if one.survey == survey]
    again = [(earlier(one), minute - 2900) for one, minute in found if one.answers_twice]
    strangers = [(Student(f"88{at}{len(survey)}01", "", "ECON", 1, 0, 0, survey, dict(found[0][0].wants)), 5000 + at) for at in range(2)]
    return sorted(found + again + strangers, key=lambda pair: -pair[1])


def earlier(student: Student) -> Student:
    """What a student answered before: it liked its sections the other way round, and one that it likes no more."""
    worths = list(student.wants.values())
    return Student(
        student.number, "", student.department, 1, 0, 0, student.survey, dict(zip(reversed(list(student.wants)[1:]), worths)),
    )


def day_and_time(minute: int) -> tuple[int, int, int]:
    """The day of November, the hour and the minute of a minute from November 2 on, by days of ten hours from 8:00 on."""
    return 2 + minute // 600, 8 + minute % 600 // 60, minute % 60


def stars(college: College) -> list[list[str]]:
    """A form's grid: a row for each answer, a column for each section, one to five stars; the newest first."""
    heads = [f"How much do you want it? [{one.code}]" for one in college.sections]
    rows = [["Timestamp", "Matriculation number", *heads]]
    for at, (one, minute) in enumerate(answering(college, "stars")):
        day, hours, minutes = day_and_time(minute)
        time = f"2026/11/{day:02d} {(hours + 11) % 12 + 1}:{minutes:02d}:{at % 60:02d} {'PM' if hours > 11 else 'AM'} GMT+1"
        given = one.stars()
        rows.append([time, one.number, *(str(given.get(section.code, "")) for section in college.sections)])
        if at % 90 == 50:
            rows.append([""] * len(rows[0]))
    return rows


def listed(college: College) -> list[list[str]]:
    """A list with a row for each wish, rated from 0 to 100; the newest first. All rows of an answer have one time."""
    rows = [["Sent", "Student", "Section", "Points"]]
    for one, minute in answering(college, "list"):
        day, hours, minutes = day_and_time(minute)
        time = f"11/{day}/2026 {(hours + 11) % 12 + 1}:{minutes:02d} {'PM' if hours > 11 else 'AM'}"
        rows += [[time, one.number, code, str(worth)] for code, worth in one.wants.items()]
        if one.number.endswith("7"):
            spare = next(section.code for section in college.sections if section.code not in one.wants)
            rows.append([time, one.number, spare, "0"])
    return rows


def ranks(college: College) -> list[list[str]]:
    """A grid of ranks, 1 being the best; the newest first. Some send it without an answer."""
    rows = [["Gesendet", "Matriculation number", *(one.code for one in college.sections), "Remarks"]]
    for at, (one, minute) in enumerate(answering(college, "ranks")):
        day, hours, minutes = day_and_time(minute)
        given = one.ranks()
        remark = "Café?" if at % 40 == 7 else ""
        ranked = [str(given.get(section.code, "")) for section in college.sections]
        rows.append([f"{day:02d}.11.2026 {hours:02d}:{minutes:02d}", one.number, *ranked, remark])
    for one in [one for one in college.students if one.survey == "none"][:4]:
        rows.append(["02.11.2026 08:00", one.number, *[""] * len(college.sections), ""])
    return rows


def choices(college: College) -> list[list[str]]:
    """A form with eight choices, the newest first, without a time."""
    rows = [["Matriculation number", *(f"Choice {at}" for at in range(1, 9))]]
    for one, _ in answering(college, "choices"):
        rows.append([one.number, *(list(one.ranks())[:8] + [""] * 8)[:8]])
    return rows


def changes(college: College) -> list[list[str]]:
    """What some students ask for after publication, by a form: a section to drop, one to add, or both."""
    draw = Draw(SEED + 1)
    rows = [["Timestamp", "Matriculation number", "Drop", "Add"]]
    for at in range(60):
        one = draw.of(college.students)
        codes = list(one.wants)
        drop, add = draw.of(codes[:4]), draw.of(codes)
        rows.append([f"2026-12-01 09:{at:02d}", one.number, drop if at % 3 else "", add if at % 3 != 2 and add != drop else ""])
    return [row for row in rows if any(row[2:])]


def text_of(rows: list[list[str]], separator: str) -> str:
    """The rows as a text."""
    out = io.StringIO(newline="")
    csv.writer(out, delimiter=separator, lineterminator="\r\n").writerows(rows)
    return out.getvalue()


def exports(college: College) -> dict[str, bytes]:
    """The exports by file."""
    return {
        "timetable.csv": text_of(timetable(college), ";").encode("utf-8-sig"),
        "register.csv": text_of(register(college), ";").encode("cp1252"),
        "stars.csv": text_of(stars(college), ",").encode("utf-8"),
        "list.csv": text_of(listed(college), ",").encode("utf-8-sig"),
        "ranks.csv": text_of(ranks(college), ";").encode("cp1252"),
        "choices.csv": text_of(choices(college), ";").encode("utf-8-sig"),
        "changes.csv": text_of(changes(college), ",").encode("utf-8"),
    }


def catalogue_text(college: College) -> str:
    """The catalogue that an import has to make, the reserved seats being seats as the others."""
    lines = ["section,course,seats,credits,meetings"]
    for one in college.sections:
        lines.append(f"{spelt(one.code)},{spelt(one.course)},{one.seats},{one.half_credits},{one.meetings()}")
    return "\n".join(lines) + "\n"


def roll_text(college: College) -> str:
    """The roll that an import has to make, with five sections for everybody."""
    rows = [f"{one.number},{one.tokens},{one.half_credits},5" for one in college.students]
    return "\n".join(["student,budget,credits,courses", *rows]) + "\n"


def commands(college: College, survey: str) -> set[str]:
    """The commands that an import has to make of a survey."""
    asked = (one for one in college.students if one.survey == survey)
    return {f"rate {one.number} {spelt(code)} {rating}" for one in asked for code, rating in one.ratings().items()}


def main(words: list[str]) -> int:
    """Writes the exports."""
    is_asked = words in (["-h"], ["--help"])
    if is_asked or len(words) != 1:
        print(__doc__, file=sys.stdout if is_asked else sys.stderr)
        return 0 if is_asked else 64
    os.makedirs(words[0], exist_ok=True)
    for name, content in exports(made_college()).items():
        with open(os.path.join(words[0], name), "wb") as file:
            file.write(content)
    return 0


if __name__ == "__main__":
    sys.exit(main(sys.argv[1:]))
