"""What an import makes, and what it tells of it."""

from __future__ import annotations

import os
from dataclasses import dataclass, field, replace

from registrar import limits, own_names, pseudonyms, tables, tell
from registrar.amounts import grouped
from registrar.faults import Faults, plain, spans
from registrar.mapping import OF_WISHES, Mapping
from registrar.surveys import Survey, Wish
from registrar.tally import Tally

#: So many students are named in a line of several.
NAMED = 10

#: So many students without a file are named; `look` names all students without wishes.
MISSING = 60


@dataclass
class Made:
    """What an import makes: the rows of both tables, the surveys, and the names."""

    mapping: Mapping
    catalogue: list[list[str]] = field(default_factory=list)
    roll: list[list[str]] = field(default_factory=list)
    surveys: list[Survey] = field(default_factory=list)
    tallies: list[Tally] = field(default_factory=list)
    names: list[list[str]] = field(default_factory=list)
    #: The rows of `names.csv` that have no names: each section's meetings as the timetable writes them.
    written: list[list[str]] = field(default_factory=list)
    notes: list[str] = field(default_factory=list)
    #: The key, where students have drawn names, and the row of `names.csv` that says where it is.
    key: pseudonyms.Key | None = None
    place: list[str] = field(default_factory=list)

    def draw(self, key: pseudonyms.Key, folder: str) -> None:
        """Gives each student a drawn name in what is written into this folder."""
        key.draw({name: original for kind, original, name in self.names if kind == "student"})
        self.key, self.place = key, pseudonyms.row_of_names(key.path, folder)

    def files(self) -> dict[str, bytes]:
        """The files by name.

        With a key students have drawn names, and stand in the order of these, which tells nothing of the register's.
        """
        files = {
            "catalogue.csv": tables.csv_text(self.catalogue).encode(),
            "roll.csv": tables.csv_text(self.drawn_roll()).encode(),
            own_names.FILE: tables.sheet_bytes(self.own_rows()),
        }
        for survey in self.surveys:
            files[f"{survey.name}.session"] = session_text(survey.name, self.drawn_wishes(survey)).encode()
        return files

    def drawn_roll(self) -> list[list[str]]:
        """The roll, with drawn names where there is a key."""
        if self.key is None:
            return self.roll
        key = self.key
        return [*self.roll[:1], *sorted([key.drawn(row[0]), *row[1:]] for row in self.roll[1:])]

    def drawn_wishes(self, survey: Survey) -> list[Wish]:
        """The wishes of a survey, with drawn names where there is a key."""
        if self.key is None:
            return survey.wishes
        wishes = [replace(wish, student=self.key.drawn(wish.student)) for wish in survey.wishes]
        return sorted(wishes, key=lambda wish: wish.student)

    def own_rows(self) -> list[list[str]]:
        """The rows of `names.csv`: the names, the meetings, the unit of credits, and where the key of drawn names is."""
        unit = own_names.rows_of_units(self.mapping.unit, self.mapping.decimal)
        names = [row for row in self.names if self.key is None or row[0] != "student"]
        return [["kind", "original", "name"], *names, *self.written, *unit, *([self.place] if self.place else [])]

    def limits(self, faults: Faults) -> None:
        """Adds what passes the limits of the program."""
        source = os.path.basename(self.mapping.path)
        counts = (
            ("sections", len(self.catalogue) - 1, limits.MAX_SECTIONS),
            ("students", len(self.roll) - 1, limits.MAX_STUDENTS),
            ("surveys", len(self.surveys), limits.MAX_SESSIONS),
            ("wishes", sum(len(survey.wishes) for survey in self.surveys), limits.MAX_COMMANDS),
        )
        for what, count, most in counts:
            if count > most:
                expected = f"at most {grouped(most)} {what}, the limit of the program"
                faults.add(source, None, what, grouped(count), expected)
        if self.mapping.is_read and not self.mapping.kinds & set(OF_WISHES):
            faults.add(source, None, "", "", "there is no section [survey NAME] or [sessions NAME]")
        for name, content in self.files().items():
            if len(content) > limits.MAX_INPUT_BYTES and name != own_names.FILE:
                faults.add(name, None, "", f"{grouped(len(content))} bytes", f"at most {grouped(limits.MAX_INPUT_BYTES)} bytes")

    def lines(self) -> list[str]:
        """What is told of an import."""
        students = len(self.roll) - 1
        lines = [f"catalogue.csv: {tell.count(len(self.catalogue) - 1, 'section', 'sections')}"]
        lines.append(f"roll.csv: {tell.count(students, 'student', 'students')}")
        spoke: set[str] = set()
        for survey in self.surveys:
            named = {wish.student for wish in survey.wishes}
            spoke |= named
            wishes = tell.count(len(survey.wishes), "wish", "wishes")
            lines.append(f"{survey.name}.session: {wishes} of {tell.count(len(named), 'student', 'students')}")
            lines += of_survey(survey)
        names = [row for row in self.names if self.key is None or row[0] != "student"]
        spelt = sum(original != name for _, original, name in names)
        lines.append(f"{own_names.FILE}: {tell.count(len(names), 'name', 'names')}, {spelt} of them spelt anew")
        if self.key is not None:
            count = tell.count(len(self.key.rows), "drawn name", "drawn names")
            advice = "keep it, and keep it apart from what is published"
            lines.append(f"{self.key.path}: {count}, {self.key.new} of them new; {advice}")
        lines += self.notes
        for tally in [*self.tallies, *(survey.tally for survey in self.surveys)]:
            lines += tally.lines()
        lines += self.in_several()
        lines += self.without_file(spoke)
        if students > len(spoke):
            silent = tell.count(students - len(spoke), "student has", "students have")
            lines.append(f"{silent} no wishes; `registrar look` names them")
        return lines


    def without_file(self, spoke: set[str]) -> list[str]:
        """Whose file is missing in a folder of students' files, whoever spoke elsewhere left out."""
        lines: list[str] = []
        for survey in (survey for survey in self.surveys if survey.has_file is not None):
            missing = [row[0] for row in self.roll[1:] if row[0] not in (survey.has_file or ()) and row[0] not in spoke]
            if missing:
                who = tell.count(len(missing), "student has no file, and spoke", "students have no file, and spoke")
                lines.append(f"{survey.tally.file}: {who} nowhere else: {some(missing, MISSING)}")
        return lines

    def in_several(self) -> list[str]:
        """That some students are in several surveys: what they want may depend on which session is heard first."""
        surveys: dict[str, list[str]] = {}
        for survey in self.surveys:
            for student in dict.fromkeys(wish.student for wish in survey.wishes):
                surveys.setdefault(student, []).append(survey.name)
        several = [f"{student} ({', '.join(found)})" for student, found in surveys.items() if len(found) > 1]
        if not several:
            return []
        who = tell.count(len(several), "student is", "students are")
        return [f"{who} in several surveys, so that `run` will stop: {some(several)}"]


def of_survey(survey: Survey) -> list[str]:
    """What is told below the line of a session: columns passed over, submissions replaced, who is not on the roll."""
    lines: list[str] = []
    if survey.passed_over:
        lines.append(f"  columns passed over: {', '.join(survey.passed_over)}")
    if survey.replaced:
        count = tell.count(sum(survey.replaced.values()), "submission was", "submissions were")
        lines.append(f"  {count} replaced whole by a later one, of {some(list(survey.replaced))}")
    for code, (rows, hint) in survey.strangers.items():
        place = f" (row{'s' * (len(rows) > 1)} {spans(rows)}{hint})" if rows else hint
        lines.append(f"  not on the roll, left out: {plain(code)}{place}")
    return lines


def some(words: list[str], most: int = NAMED) -> str:
    """The first of these words, at most so many, and how many more there are."""
    more = f" and {len(words) - most} more" if len(words) > most else ""
    return ", ".join(words[:most]) + more


def session_text(name: str, wishes: list[Wish]) -> str:
    """A survey as a session."""
    lines = [f"# The survey {name}, written by `registrar import`."]
    return "\n".join(lines + [wish.command() for wish in wishes]) + "\n"
