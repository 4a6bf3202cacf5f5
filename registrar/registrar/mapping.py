"""The mapping file: which export is what, which column says what, and how codes, numbers and times are to be read.

It is an INI text with a comment above each option. `import` writes it as a first guess, and the registrar corrects it.
"""

from __future__ import annotations

import configparser
import difflib
import os
import re
import typing
from dataclasses import dataclass, field
from decimal import Decimal

from registrar.amounts import AmountFault, amount, whole
from registrar.faults import Faults
from registrar.meetings import DAYS, NO_MEETING, MeetingFault, MeetingRules, clock
from registrar.sheet import SheetFault, decoded
from registrar.spelling import NameRules, is_name, tidy

#: The options of every export.
OF_EVERY_EXPORT: typing.Mapping[str, str] = {
    "file": "the export; its place is told from the folder of this mapping",
    "sheet": "of an .xlsx book, the name of the sheet; the first one where blank",
    "encoding": "of a text without a mark that is not UTF-8, for instance cp1252",
    "header row": "the row that has the columns' names",
    "first row": "the first row below it that counts, where it is not the next one",
    "fill down": "columns of merged cells, with | between them: a blank there means what stands above it",
}

#: The options of each kind of section, each with what is said above it. A column may also be `@3`, the third one, or several
#: joined by `-`, written `Subject + Number`.
OPTIONS: typing.Mapping[str, typing.Mapping[str, str]] = {
    "catalogue": {
        **OF_EVERY_EXPORT,
        "section": "the column of the section's code",
        "course": "the column of the course: of one course a student takes one section",
        "seats": "the column of the seats",
        "seats default": "what a blank there means",
        "reserved seats": "what `35 (5 reserved)` means: all: 35 seats; less: 30 seats; blank: a fault",
        "credits": "the column of the credits",
        "credits default": "what a blank there means",
        "meetings": "the column of days and times together, as `MWF 9:00-10:15`",
        "days": "or a column of the days",
        "start": "and one of the start",
        "end": "and one of the end",
        "length": "and, where there is no end, one of the length in minutes",
        "length default": "the minutes of a meeting without an end",
        "meetings default": "what a blank means, for instance TBA; blank: a fault",
        "parts": "the column of the half of the term: 1, 2 or 12; none: every section runs in the whole term",
        "parts default": "what a blank there means",
    },
    "roll": {
        **OF_EVERY_EXPORT,
        "student": "the column of the student's number or name",
        "budget": "the column of the tokens",
        "budget default": "the tokens of a student without a number there, or of all where there is no such column",
        "credits": "the column of the cap on credits",
        "credits default": "the cap of a student without one there",
        "courses": "the column of the cap on sections, at most 8",
        "courses default": "the cap of a student without one there",
        "carry": "the column of the tokens from the term before; none: nobody brings any",
        "carry default": "what a blank there means",
        "name": "the column of the student's own name, for lists and mails; the program never sees it",
        "e-mail": "the column of the student's e-mail address, likewise",
    },
    "survey": {
        **OF_EVERY_EXPORT,
        "shape": "wishes: a row for each wish; students: a row for each student and a column for each section; "
        "choices: a row for each student and a column for each choice",
        "student": "the column of the student",
        "section": "(wishes) the column of the section",
        "second": "(wishes) the column of a second section: where it is filled, the row is about both together",
        "value": "(wishes) the column of the rating or rank",
        "value default": "(wishes) what a blank there means; blank: a fault",
        "columns": "(students, choices) the names of the columns, the first * standing for the section or for the number of the "
        "choice, a further one for anything",
        "extra": "(students, `columns = *`) the columns that are no sections, with | between them: any other has to be one",
        "pairs": "(students, choices) a column with pairs as `A-1 + B-2 = 9; A-1 + C-1 = -5`",
        "says": "(wishes, students) rating: 0 to 100, more is better; rank: 1 is the best, and a student gives each rank once; "
        "grade: 1 is the best, and may come again; blank: a fault",
        "first rating": "(rank, grade, choices) the rating of 1",
        "rating step": "(rank, grade, choices) by so much less each next one is rated",
        "least rating": "(rank, grade, choices) and no less than this",
        "answers": "words in place of numbers, as `High: 100, Medium: 60, Low: 20`",
        "again": "what a second submission of one student means: refuse: a fault; last: it replaces the whole earlier one, by the "
        "column `time`; last row or first row: the lowest or the uppermost one counts, where there is no such column",
        "time": "the column of the time at which a row was sent",
        "dates": "day first or month first, where 3/4/2026 in that column reads in two ways",
        "submission": "(wishes) the column that has the same in all rows that were sent together; blank: `time` tells that",
    },
    "sessions": {
        "folder": "the folder with a file of each student, as the page's form saves it; its place is told from the folder of this mapping",
        "files": "how these files are named, the * standing for the student",
    },
    "requests": {
        **OF_EVERY_EXPORT,
        "student": "the column of the student",
        "request": "the column that says what is asked for",
        "section": "and the column of the section of that request",
        "add": "or a column of sections to add",
        "drop": "and one of sections to drop",
        "leave": "and one of waiting lists to leave",
        "both": "where a row has several of these: the order, as `drop, add`; blank: a fault",
        "add words": "what stands in the column `request` for add",
        "drop words": "for drop",
        "leave words": "for leave",
    },
    "rosters": {
        "file": "`registrar rosters` writes this file, as the school's system imports it; its columns stand in [roster columns]",
        "separator": "what stands between two columns: comma, semicolon, tab or bar",
        "encoding": "what the file is written in, for instance cp1252",
        "line end": "crlf or lf",
        "header": "yes: the first row has the columns' names; no: it has not",
        "rows by": "section: one section's students after another's; student: the other way round",
        "may be blank": "the columns that may be blank in a row, with commas between them; in any other a blank is a fault",
        "enrolled word": "what {action} says in a roster",
        "add word": "in a difference, of a seat that the system is to give",
        "drop word": "and of one that it is to take",
    },
    "numbers": {
        "decimal": "the decimal sign: . or , (the other one may stand between thousands)",
        "credit unit": "how many credits are one unit of the program, which takes whole units: 0.5 for half credits",
    },
    "times": {
        "clock": "24: a time that says neither am nor pm is of 24 hours; blank: it is a fault where it could be of the evening too",
        "earliest": "an earlier time that says neither am nor pm is a fault",
        "latest": "(`clock` blank) no meeting of the evening ends later, so that 10:00-11:30 reads in one way",
        "no meeting": "the words for no meeting",
    },
    "students": {
        "pad": "how many digits a student's number has: zeros are filled in where a spreadsheet took them; 0: as it stands",
        "endings": "what is dropped behind, for instance @school.edu; several with commas between them",
        "any case": "yes: capital and small letters are the same; no: they count",
    },
    "sections": {
        "endings": "what is dropped behind a section's code",
        "cut": "the sign behind which a cell has more than the code, for instance - for `FNCE-601-A - Corporate Finance`",
        "any case": "yes: capital and small letters are the same; no: they count",
    },
}

#: The values of options that are not blank where nothing is written.
DEFAULTS: typing.Mapping[str, typing.Mapping[str, str]] = {
    "catalogue": {"header row": "1"},
    "roll": {"header row": "1"},
    "survey": {
        "header row": "1", "shape": "wishes", "first rating": "100", "rating step": "5", "least rating": "1", "again": "refuse",
    },
    "sessions": {"files": "*.session"},
    "requests": {
        "header row": "1", "add words": "add, enrol, enroll", "drop words": "drop, withdraw",
        "leave words": "leave, leave waitlist",
    },
    "rosters": {
        "file": "enrolment.csv", "separator": "comma", "encoding": "utf-8", "line end": "crlf", "header": "yes",
        "rows by": "section", "enrolled word": "enrolled", "add word": "add", "drop word": "drop",
    },
    "numbers": {"decimal": ".", "credit unit": "1"},
    "times": {"earliest": "7:00", "latest": "22:00", "no meeting": ", ".join(NO_MEETING)},
    "students": {"pad": "0", "any case": "no"},
    "sections": {"any case": "no"},
}  # fmt: skip

#: Sections whose options are the registrar's own words.
FREE: typing.Mapping[str, str] = {
    "roster columns": "the columns of the file of [rosters] in their order, each with what stands there: words, and fields as {student}, "
    "{section}, {course}, {credits}, {name}, {e-mail}, {action}, {number}, {register COLUMN}, {timetable COLUMN}",
    "parts": "words for the halves of the term, as `Q1 = 1`, `Q2 = 2`, `Full = 12`",
    "days": "words for days and the program's letters (M T W R F S U), as `Di = T`, or `SU = SU` for Saturday and Sunday",
    "same students": "what stands in an export = the student that is meant",
    "same sections": "what stands in an export = the section that is meant",
    "spell students": "a student = a name of the program, chosen by hand",
    "spell sections": "a section = a name of the program, chosen by hand",
    "spell courses": "a course = a name of the program, chosen by hand",
}

#: The kinds of sections of which there may be several, each with a name of its own; and those that make a session.
NAMED_KINDS = ("survey", "sessions", "requests")
OF_WISHES = ("survey", "sessions")

#: Options that are one of a few words.
CHOICES: typing.Mapping[str, tuple[str, ...]] = {
    "shape": ("wishes", "students", "choices"),
    "says": ("rating", "rank", "grade"),
    "again": ("refuse", "last", "last row", "first row"),
    "dates": ("day first", "month first"),
    "any case": ("yes", "no"),
    "decimal": (".", ","),
    "clock": ("24",),
    "reserved seats": ("all", "less"),
    "separator": ("comma", "semicolon", "tab", "bar"),
    "line end": ("crlf", "lf"),
    "header": ("yes", "no"),
    "rows by": ("section", "student"),
}

#: Options that are whole numbers, and their ranges.
RANGES: typing.Mapping[str, tuple[int, int]] = {
    "header row": (1, 9999),
    "first row": (1, 9999),
    "first rating": (1, 100),
    "rating step": (0, 100),
    "least rating": (1, 100),
}


@dataclass
class Source:
    """One export, as the mapping has it."""

    title: str
    kind: str
    name: str
    folder: str
    options: dict[str, str]

    def get(self, option: str) -> str:
        """The value of an option, or its default."""
        return self.options.get(option, "") or DEFAULTS[self.kind].get(option, "")

    @property
    def path(self) -> str:
        """Where the export, or the folder of students' files, is."""
        return os.path.join(self.folder, self.get("folder" if self.kind == "sessions" else "file"))


@dataclass
class Mapping:
    """A mapping that was read."""

    path: str
    sources: list[Source] = field(default_factory=list)
    #: Whether the text is a mapping at all; where it is none its fault says so, and nothing is known of its sections.
    is_read: bool = False
    #: The kinds of the sections that stand there, also of those that have faults.
    kinds: set[str] = field(default_factory=set)
    decimal: str = "."
    unit: Decimal = Decimal(1)
    meetings: MeetingRules = field(default_factory=MeetingRules)
    students: NameRules = field(default_factory=NameRules)
    sections: NameRules = field(default_factory=NameRules)
    courses: NameRules = field(default_factory=NameRules)
    parts: dict[str, str] = field(default_factory=dict)
    #: The options of [rosters], and the columns of [roster columns] with what stands there.
    rosters: dict[str, str] = field(default_factory=dict)
    roster_columns: dict[str, str] = field(default_factory=dict)

    def of_kind(self, kind: str) -> list[Source]:
        """The exports of a kind, in the mapping's order."""
        return [source for source in self.sources if source.kind == kind]


def parser() -> configparser.ConfigParser:
    """A reader of mappings: `=` alone ends an option's name, `#` at the beginning of a line alone begins a comment."""
    reader = configparser.ConfigParser(
        delimiters=("=",), comment_prefixes=("#",), inline_comment_prefixes=None, interpolation=None,
        default_section="\0", empty_lines_in_values=False,
    )  # fmt: skip
    reader.optionxform = tidy  # type: ignore[assignment]
    return reader


class MappingReader:
    """Reads one mapping, and keeps all of its faults."""

    def __init__(self, path: str, faults: Faults) -> None:
        self.path = path
        self.faults = faults
        self.lines: list[str] = []
        self.parsed = parser()
        self.mapping = Mapping(path)

    def read(self) -> Mapping:
        """The mapping. Raises `OSError` where it can not be read."""
        try:
            with open(self.path, "rb") as file:
                text = decoded(file.read(), "")
            self.lines = text.splitlines()
            self.parsed.read_string(text)
        except SheetFault as fault:
            self.faults.add(self.path, fault.row, "", fault.value, fault.expected)
        except configparser.Error as error:
            line, what = first_fault(error)
            self.faults.add(self.path, line, "", "", f"this is no mapping: {what}")
        else:
            self.mapping.is_read = True
            for title in self.parsed.sections():
                self.take(title)
            self.settle()
        return self.mapping

    def fault(self, title: str, option: str, value: str, expected: str) -> None:
        """Keeps a fault of an option, with its line."""
        place = f"[{title}] {option}".strip()
        self.faults.add(self.path, self.line_of(title, option), place, value, expected)

    def line_of(self, title: str, option: str) -> int | None:
        """The line of an option, or of its section."""
        found = None
        inside = False
        for number, line in enumerate(self.lines, 1):
            if line.startswith("["):
                inside = line.strip() == f"[{title}]"
                found = number if inside else found
            elif inside and option and tidy(line.split("=")[0]) == option:
                return number
        return found

    def take(self, title: str) -> None:
        """Takes a section that is about an export; of every section, tells the options that nobody knows."""
        kind, _, name = title.partition(" ")
        if title in FREE:
            return
        if kind not in OPTIONS or (name and kind not in NAMED_KINDS):
            known = [*OPTIONS, *FREE]
            self.fault(title, "", title, f"one of {', '.join(known)}")
            return
        self.mapping.kinds.add(kind)
        values = {option: tidy(value) for option, value in self.parsed[title].items()}
        for option, value in values.items():
            if option not in OPTIONS[kind]:
                near = difflib.get_close_matches(option, OPTIONS[kind], n=1)
                self.fault(title, option, option, "an option of this section" + (f"; nearest: {near[0]}" if near else ""))
            elif value and option in CHOICES and value not in CHOICES[option]:
                self.fault(title, option, value, " or ".join(CHOICES[option]))
                values[option] = ""
            elif value and option in RANGES:
                values[option] = self.in_range(title, option, value)
        if kind not in ("catalogue", "roll", *NAMED_KINDS):
            return
        if kind in NAMED_KINDS and not is_name(name):
            self.fault(title, "", title, f"[{kind} NAME], the name of letters, digits, '-', '_' and '.'")
            return
        if kind in OF_WISHES and any(source.name == name and source.kind in OF_WISHES for source in self.mapping.sources):
            self.fault(title, "", title, f"a name of its own: another section makes {name}.session")
        if kind == "sessions" and values.get("files", "*").count("*") != 1:
            self.fault(title, "files", values["files"], "a name with one * for the student, as `*.session`")
            values["files"] = ""
        if values.get("folder" if kind == "sessions" else "file"):
            self.mapping.sources.append(Source(title, kind, name, os.path.dirname(self.path), values))
        elif kind == "sessions":
            self.fault(title, "folder", "", "the folder of the students' files")
        else:
            self.fault(title, "file", "", "the export's file")

    def in_range(self, title: str, option: str, value: str) -> str:
        """The value where it is a whole number of its range; else nothing, with a fault."""
        try:
            return str(whole(value, *RANGES[option]))
        except AmountFault as fault:
            self.fault(title, option, value, str(fault))
            return ""

    def value(self, title: str, option: str) -> str:
        """The value of an option of one of the sections without an export, or its default."""
        written = self.parsed.get(title, option, fallback="") if self.parsed.has_section(title) else ""
        return tidy(written) or DEFAULTS.get(title, {}).get(option, "")

    def settle(self) -> None:
        """Takes the sections on numbers, times and names."""
        mapping = self.mapping
        mapping.decimal = self.value("numbers", "decimal")
        unit = self.value("numbers", "credit unit")
        try:
            mapping.unit = amount(unit)
            if mapping.unit <= 0:
                raise AmountFault
        except AmountFault:
            self.fault("numbers", "credit unit", unit, "a number above 0, as 1 or 0.5")
            mapping.unit = Decimal(1)
        mapping.meetings = self.meeting_rules()
        mapping.parts = {word.casefold(): part for word, part in self.free("parts").items()}
        for word, part in mapping.parts.items():
            if part not in ("1", "2", "12"):
                self.fault("parts", word, part, "1, 2 or 12")
        mapping.students = self.name_rules("students")
        mapping.sections = self.name_rules("sections")
        mapping.courses = self.name_rules("courses")
        mapping.rosters = {option: self.value("rosters", option) for option in OPTIONS["rosters"]}
        mapping.roster_columns = self.free("roster columns")

    def meeting_rules(self) -> MeetingRules:
        """What is stated of meetings."""
        rules = MeetingRules(none=tuple(split(self.value("times", "no meeting"))))
        rules.is_24 = self.value("times", "clock") == "24"
        rules.earliest = self.time_of_day("earliest")
        rules.latest = self.time_of_day("latest")
        for word, letters in self.free("days").items():
            if not letters or len(set(letters)) != len(letters) or not set(letters) <= set(DAYS.values()):
                self.fault("days", word, letters, "one of the letters M, T, W, R, F, S, U, or those of several days, as MW")
            rules.days[word.casefold()] = letters
        return rules

    def time_of_day(self, option: str) -> int:
        """The minute of the day that an option of [times] states; 0, with a fault, where it states none."""
        text = self.value("times", option)
        try:
            return clock(text).minutes
        except MeetingFault as fault:
            self.fault("times", option, text, str(fault))
            return 0

    def name_rules(self, title: str) -> NameRules:
        """What is stated of the names of one kind."""
        rules = NameRules(same=self.free(f"same {title}"), spell=self.free(f"spell {title}"))
        rules.endings = tuple(split(self.value(title, "endings")))
        rules.cut = self.value(title, "cut")
        rules.any_case = self.value(title, "any case") == "yes"
        pad = self.value(title, "pad") or "0"
        if re.fullmatch("[0-9]|[12][0-9]|3[0-2]", pad):
            rules.pad = int(pad)
        else:
            self.fault(title, "pad", pad, "a number of digits from 0 to 32")
        for code, name in rules.spell.items():
            if not is_name(name):
                self.fault(f"spell {title}", code, name, "1 to 32 letters, digits, '-', '_' and '.'")
        return rules

    def free(self, title: str) -> dict[str, str]:
        """The pairs of a section whose options are the registrar's own words."""
        if not self.parsed.has_section(title):
            return {}
        return {tidy(key): tidy(value) for key, value in self.parsed[title].items()}


def first_fault(error: configparser.Error) -> tuple[int | None, str]:
    """The line of a text that is no mapping, and what is wrong there."""
    if isinstance(error, configparser.DuplicateOptionError):
        return error.lineno, f"[{error.section}] has the option {error.option} already"
    if isinstance(error, configparser.DuplicateSectionError):
        return error.lineno, f"the section [{error.section}] stands there already"
    if isinstance(error, configparser.MissingSectionHeaderError):
        return error.lineno, "no section in brackets stands above this line"
    if isinstance(error, configparser.ParsingError):
        return error.errors[0][0], "this line is no option with its `=`, no section in brackets, and no comment"
    return None, error.message


def split(text: str) -> list[str]:
    """The words of a list with commas."""
    return [word.strip() for word in text.split(",") if word.strip()]


def read_mapping(path: str, faults: Faults) -> Mapping:
    """Reads a mapping, and adds its faults to `faults`. Raises `OSError` where it can not be read."""
    return MappingReader(path, faults).read()


def mapping_text(sections: typing.Mapping[str, typing.Mapping[str, str]], notes: typing.Mapping[str, list[str]]) -> str:
    """A mapping as text, with a comment above each option. `notes` are lines above a section.

    Options that are blank stand there too, so that the registrar sees what could be said.
    """
    lines = [
        "# Which export is what, and which column says what. `registrar import` reads it.",
        "# A line that begins with # is a comment. A column is named as in the export; capitals and blanks there do not count.",
        "# `@3` is the third column; `Subject + Number` joins two columns by `-`. An option that is blank says nothing.",
    ]
    for title, values in {**sections, "rosters": sections.get("rosters", {})}.items():
        kind = title.split(" ")[0]
        lines += ["", f"[{title}]"]
        lines += [f"# {note}" for note in notes.get(title, [])]
        for option, comment in OPTIONS[kind].items():
            lines.append(f"# {comment}")
            value = values.get(option) or DEFAULTS.get(kind, {}).get(option, "")
            lines.append(f"{option} = {value}".rstrip())
    for title, comment in FREE.items():
        lines += ["", f"[{title}]", f"# {comment}"]
    return "\n".join(lines) + "\n"
