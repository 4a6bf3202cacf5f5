"""A made school: its exports as schools write them, and beside them what the import has to make of them.

`python3 registrar/tests/school.py FOLDER SEED STUDENTS SECTIONS` writes the exports. Some sections are wanted by many, ratings
are close to one another, and there are few hours for many sections, so that they clash. The truth is made first; the exports
render it, and the import is not asked for either.
"""

from __future__ import annotations

import csv
import io
import os
import random
import sys
from dataclasses import dataclass, field

SUBJECTS = "ACCT GÉNI FNCE MGMT MKTG STAT HCMG LGST COMM REAL MUS BIOL CHEM HIST PHIL PHYS MATH SOCI LING ARTH".split()
SLOTS = [
    ("MW", 510),
    ("TR", 510),
    ("MW", 600),
    ("TR", 600),
    ("MWF", 720),
    ("TR", 810),
    ("MW", 900),
    ("TR", 900),
    ("F", 540),
    ("TR", 1020),
]
LETTERS = "ABCDEFGH"
GIVEN = "Ana Béla Chen Dana Émile Farid Grace Hugo Inès Jonas Kaja Lena Mira Noor Otto Priya Rosa Sven Tara Uma".split()
FAMILY = "Abara Baker Costa Dvořák Evans Fischer Gómez Haddad Ivanov Jones Kim Lee Müller Novak Ortiz Park Rossi Silva Tran Weiss".split()
PROGRAMMES = ("Économie", "Statistics", "History")
WORDS = {"M": "Mon", "T": "Tue", "W": "Wed", "R": "Thu", "F": "Fri"}


@dataclass
class Section:
    """A section as it is; `code` is the school's, `name` the program's."""

    code: str
    name: str
    course: str
    course_name: str
    seats: int
    credits: int
    days: str
    start: int
    length: int
    has_practice: bool

    def meetings(self) -> str:
        """The meetings as the program reads them. Practice is on Friday, from 13:00 on."""
        found = [f"{day}{hour(self.start)}-{hour(self.start + self.length)}" for day in self.days]
        return ";".join(found + ["F1300-1350"] * self.has_practice)


@dataclass
class Student:
    """A student as it is: ratings by section, pairs, and in which survey it answers."""

    number: str
    title: str
    budget: int
    credits: int
    courses: int
    survey: str
    ratings: dict[str, int] = field(default_factory=dict)
    pairs: list[tuple[str, str, int]] = field(default_factory=list)


@dataclass
class School:
    """All of it, made from a seed."""

    sections: list[Section]
    students: list[Student]


def hour(minutes: int) -> str:
    """`0930`."""
    return f"{minutes // 60:02d}{minutes % 60:02d}"


def clock(minutes: int, half: bool = False) -> str:
    """`9:30`, or `1:30pm`."""
    hours = minutes // 60
    if half:
        return f"{(hours + 11) % 12 + 1}:{minutes % 60:02d}{'pm' if hours >= 12 else 'am'}"
    return f"{hours}:{minutes % 60:02d}"


def made_school(seed: int, students: int, sections: int) -> School:
    """The school of a seed."""
    draw = random.Random(seed)
    offered = made_sections(draw, students, sections)
    worth = {section.code: draw.choice([0, 0, 0, 1, 2, 4]) for section in offered}
    who: list[Student] = []
    for at in range(students):
        last_year = draw.random() < 0.3
        title = f"{draw.choice(GIVEN)} {draw.choice(FAMILY)}"
        survey = ("web", "web", "desk", "choices")[at % 4]
        one = Student(
            f"{1000 * at // 7 + at + 113:06d}", title, 5000 if last_year else 4500, draw.choice([8, 9, 10]), 5, survey
        )
        rate(draw, one, offered, worth)
        who.append(one)
    return School(offered, who)


def made_sections(draw: random.Random, students: int, count: int) -> list[Section]:
    """The sections: one to four of a course, with seats for four or five a student."""
    found: list[Section] = []
    number = 100
    while len(found) < count:
        subject = SUBJECTS[number % len(SUBJECTS)]
        number += 1
        credits = draw.choice([1, 2, 2, 2, 3])
        for letter in LETTERS[: draw.randint(1, 4)]:
            if len(found) == count:
                break
            days, start = draw.choice(SLOTS)
            course = f"{subject} {number}"
            name = course.replace("É", "E").replace(" ", "_")
            seats = max(2, round(students * 4.5 / count * draw.choice([0.4, 0.7, 1, 1.3, 1.6])))
            if len(found) % 11 == 10:
                days = ""
            length = 50 if days == "MWF" else 80
            has_practice = len(found) % 9 == 4 and days != ""
            names = (f"{course} {letter}", f"{name}_{letter}", course, name)
            found.append(Section(*names, seats, credits, days, start, length, has_practice))
    return found


def rate(draw: random.Random, student: Student, offered: list[Section], worth: dict[str, int]) -> None:
    """The student's ratings: 10 to 40 sections, those that many want before others, and all of them close together."""
    count = min(len(offered), draw.randint(10, 40) if len(offered) > 40 else draw.randint(5, 8))
    ranked = sorted(offered, key=lambda section: draw.random() * 20 + worth[section.code], reverse=True)[:count]
    for section in sorted(ranked, key=offered.index):
        student.ratings[section.code] = min(100, 70 + draw.randint(0, 15) + 4 * worth[section.code])
    if student.survey == "choices":
        codes = [section.code for section in ranked[:10]]
        student.ratings = {code: max(1, 100 - 5 * at) for at, code in enumerate(codes)}
    elif draw.random() < 0.3:
        first, second = draw.sample(sorted(student.ratings), 2)
        student.pairs.append((first, second, draw.choice([-20, -5, 5, 12])))


def shown_meetings(section: Section, at: int) -> tuple[str, str]:
    """The meetings as this school writes them, one way or another, and the length where no end is written."""
    if not section.days:
        return "TBA", ""
    end = section.start + section.length
    if at % 3 == 0:
        return f"{section.days} {clock(section.start)}-{clock(end)}", ""
    if at % 3 == 1:
        return f"{'/'.join(WORDS[day] for day in section.days)} {clock(section.start)}", str(section.length)
    return f"{section.days} {clock(section.start, True)} - {clock(end, True)}", ""


def catalogue_rows(school: School) -> list[list[str]]:
    """The export of the timetable. The unit of credits is half of one: 1.5 credits are 3 units."""
    rows = [["SECTION CODE", "Course", "Title", "Max Enrollment", "Credits", "Meeting Times", "Length", "Room", "CRN"]]
    for at, section in enumerate(school.sections):
        when, length = shown_meetings(section, at)
        seats = f"{section.seats}.0" if at % 5 == 0 else f"{section.seats:,}"
        credits = f"{section.credits / 2:.1f}"
        room, number = f"R{at % 30}", str(20001 + 7 * at)
        rows.append([section.code, section.course, f"Topics in {section.course}", seats, credits, when, length, room, number])
        if section.has_practice:
            rows.append([section.code, section.course, "Practice", "", "", "Fri 13:00-13:50", "", "R31", ""])
        if at % 10 == 9:
            rows.append([""] * 9)
    return rows


def roll_rows(school: School) -> list[list[str]]:
    """The export of the register. Caps on sections are blank: the mapping states them. The last year has the greater budget."""
    rows = [["Student ID", "Name", "Tokens", "Max Credits", "Max Courses", "E-mail", "Programme", "Year"]]
    for at, one in enumerate(school.students):
        year = "4" if one.budget == 5000 else str(at % 3 + 1)
        cells = [one.number, one.title, f"{one.budget:,}", f"{one.credits / 2:g}", ""]
        rows.append([*cells, f"s{one.number}@school.example", PROGRAMMES[at % 5 % 3], year])
    return rows


def web_rows(school: School) -> list[list[str]]:
    """A form: a row for each student, a column for each section, and one for pairs."""
    heads = [f"Rate the sections [{section.code}]" for section in school.sections]
    rows = [["Timestamp", "Student ID", *heads, "Better together"]]
    for at, one in enumerate(one for one in school.students if one.survey == "web"):
        ratings = [str(one.ratings.get(section.code, "")) for section in school.sections]
        pairs = "; ".join(f"{first} + {second} = {points}" for first, second, points in one.pairs)
        rows.append([f"2026-11-{at % 9 + 10} 10:{at % 60:02d}", one.number, *ratings, pairs])
    return rows


def desk_rows(school: School) -> list[list[str]]:
    """A list from the desk: a row for each wish."""
    rows = [["STUDENT", "SECTION", "TOGETHER WITH", "POINTS"]]
    for one in (one for one in school.students if one.survey == "desk"):
        rows += [[one.number, code, "", str(rating)] for code, rating in one.ratings.items()]
        rows += [[one.number, first, second, str(points)] for first, second, points in one.pairs]
    return rows


def choice_rows(school: School) -> list[list[str]]:
    """A form with ten choices."""
    rows = [["Student ID", *(f"Choice {at}" for at in range(1, 11))]]
    for one in (one for one in school.students if one.survey == "choices"):
        codes = list(one.ratings)
        rows.append([one.number, *codes, *[""] * (10 - len(codes))])
    return rows


def request_rows(school: School) -> list[list[str]]:
    """What six students ask for after publication, by a form: another section of the course that they rated highest."""
    draw = random.Random(len(school.students))
    course_of = {section.code: section.course for section in school.sections}
    asked: list[tuple[str, str, str]] = []
    for one in draw.sample(school.students, min(6, len(school.students))):
        best = max(sorted(one.ratings), key=one.ratings.__getitem__)
        others = [code for code in course_of if code != best]
        others = [code for code in others if course_of[code] == course_of[best]] or others
        asked += [(one.number, "Drop", best), (one.number, "Add", draw.choice(others))]
    rows = [[f"2026-12-01 09:{at:02d}", *words] for at, words in enumerate(asked)]
    return [["Timestamp", "Student ID", "Request", "Section"], *rows]


def text_of(rows: list[list[str]], separator: str, end: str = "\r\n") -> str:
    """The rows as a text."""
    out = io.StringIO(newline="")
    csv.writer(out, delimiter=separator, lineterminator=end).writerows(rows)
    return out.getvalue()


def exports(school: School) -> dict[str, bytes]:
    """The exports by file: UTF-16 with semicolons, UTF-8 with a mark and commas, tabs, and UTF-8 without a mark."""
    return {
        "timetable.csv": b"\xff\xfe" + text_of(catalogue_rows(school), ";").encode("utf-16-le"),
        "register.csv": text_of(roll_rows(school), ",").encode("utf-8-sig"),
        "web.csv": text_of(web_rows(school), ",", "\n").encode("utf-8"),
        "desk.tsv": text_of(desk_rows(school), "\t").encode("utf-8-sig"),
        "choices.csv": text_of(choice_rows(school), ";").encode("utf-8-sig"),
        "changes.csv": text_of(request_rows(school), ",").encode("utf-8-sig"),
    }


def catalogue_text(school: School) -> str:
    """The catalogue that the import has to make."""
    lines = ["section,course,seats,credits,meetings"]
    for one in school.sections:
        lines.append(f"{one.name},{one.course_name},{one.seats},{one.credits},{one.meetings()}")
    return "\n".join(lines) + "\n"


def roll_text(school: School) -> str:
    """The roll that the import has to make."""
    lines = ["student,budget,credits,courses"]
    lines += [f"{one.number},{one.budget},{one.credits},{one.courses}" for one in school.students]
    return "\n".join(lines) + "\n"


def session_commands(school: School, survey: str) -> set[str]:
    """The commands that the import has to make of a survey."""
    names = {section.code: section.name for section in school.sections}
    found: set[str] = set()
    for one in (one for one in school.students if one.survey == survey):
        found |= {f"rate {one.number} {names[code]} {rating}" for code, rating in one.ratings.items()}
        found |= {f"pair {one.number} {names[first]} {names[second]} {points}" for first, second, points in one.pairs}
    return found


def write_school(folder: str, seed: int, students: int, sections: int) -> School:
    """Writes the exports of a school."""
    school = made_school(seed, students, sections)
    os.makedirs(folder, exist_ok=True)
    for name, content in exports(school).items():
        with open(os.path.join(folder, name), "wb") as file:
            file.write(content)
    return school


if __name__ == "__main__":
    write_school(sys.argv[1], *(int(word) for word in sys.argv[2:5]))
