"""Surveys: what the students want, from exports of three shapes, as wishes with their places.

`wishes` has a row for each wish, `students` a row for each student and a column for each section, `choices` a row for each
student and a column for each choice. A wish says a rating, or a rank that the mapping's rule turns into a rating.
"""

from __future__ import annotations

import re
from dataclasses import dataclass, field
from typing import Callable, Iterator, Sequence

from registrar import limits
from registrar.amounts import AmountFault, whole
from registrar.exported import Column, Export, Row, plain
from registrar.faults import Faults
from registrar.mapping import Mapping, Source, split
from registrar.meaning import what_numbers_may_mean
from registrar.spelling import NameFault, Names, UnknownName, tidy
from registrar.submissions import Chooser
from registrar.tally import REPLACED, SILENT, STRANGER, ZERO, Tally

ORDINALS = "first second third fourth fifth sixth seventh eighth ninth tenth".split()


@dataclass(frozen=True)
class Wish:
    """What a student says of a section, or of two together, with its place in the export."""

    student: str
    section: str
    second: str
    points: int
    row: int
    column: str
    value: str
    #: The rank that was given, where the survey asks for ranks of sections; else 0.
    rank: int = 0

    @property
    def about(self) -> tuple[str, ...]:
        """The section, or both in one order whichever was named first."""
        return tuple(sorted((self.section, self.second))) if self.second else (self.section,)

    def command(self) -> str:
        """The wish as a command of a session."""
        if self.second:
            return f"pair {self.student} {self.section} {self.second} {self.points}"
        return f"rate {self.student} {self.section} {self.points}"


@dataclass(frozen=True)
class Known:
    """Who and what the wishes may be about. Whoever is not on the roll is a fault, or left out."""

    mapping: Mapping
    students: Names
    sections: Names
    leaves_strangers: bool = False


@dataclass
class Survey:
    """What one survey says, and what was not taken of it.

    `passed_over` are the columns that nothing was taken from, `replaced` the number of submissions of each student that a
    later one replaced, and `strangers` the rows of each code that is nobody's on the roll, with what is told of it.
    """

    name: str
    tally: Tally
    wishes: list[Wish] = field(default_factory=list)
    passed_over: list[str] = field(default_factory=list)
    replaced: dict[str, int] = field(default_factory=dict)
    strangers: dict[str, tuple[list[int], str]] = field(default_factory=dict)
    #: Of a folder of students' own files, the students who have one there.
    has_file: set[str] | None = None


def rating_of(rank: int, source: Source) -> int:
    """The rating of a rank by the mapping's rule: the first one, less a step for each further rank, and never below the least."""
    first, step, least = (int(source.get(option)) for option in ("first rating", "rating step", "least rating"))
    return max(least, first - step * (rank - 1))


def answers_of(source: Source) -> dict[str, str]:
    """The words that a survey has in place of numbers."""
    pairs = (word.rsplit(":", 1) for word in split(source.get("answers")))
    return {tidy(pair[0]).casefold(): pair[1].strip() for pair in pairs if len(pair) == 2}


class SurveyReader:
    """Reads one survey."""

    def __init__(self, source: Source, known: Known, faults: Faults) -> None:
        self.source = source
        self.known = known
        self.faults = faults
        self.export = Export(source, faults)
        self.answers = answers_of(source)
        self.survey = Survey(source.name, self.export.tally)
        self.rows_of: dict[str, list[Row]] = {}
        #: What stands in the cells for sections, by answer, with its first row: examples of what they may mean.
        self.given: dict[tuple[str, ...], tuple[str, list[str]]] = {}

    def read(self) -> Survey:
        """The survey's wishes; each fault is added to the faults."""
        student = self.export.column("student", needed=True)
        if not self.export.is_read or not student:
            return self.survey
        shapes: dict[str, Callable[[], Iterator[Wish]]] = {
            "wishes": self.by_wish, "students": self.by_section, "choices": self.by_choice,
        }  # fmt: skip
        shape = shapes.get(self.source.get("shape"))
        if shape:
            wishes = list(shape())
            if self.source.get("shape") != "choices" and not self.source.get("says"):
                self.ask_what_numbers_mean()
            self.survey.wishes = self.once(self.of_last_submissions(wishes))
            self.ranks_once()
            self.limits()
        return self.survey

    def ask_what_numbers_mean(self) -> None:
        """Keeps the fault that the mapping does not say what the numbers mean, with examples."""
        self.export.missing("says", "", "; ".join(what_numbers_may_mean(list(self.given.values()), self.source)))

    def refuse_blank(self, counted: set[int]) -> None:
        """Refuses a submission without an answer that would replace one with answers: either may be meant."""
        answers = {row: cells[0] for row, cells in self.survey.tally.cells.items()}
        for student in self.survey.replaced:
            rows = [row.number for row in self.rows_of[student]]
            kept = [row for row in rows if row in counted]
            lost = [row for row in rows if row not in counted and answers.get(row)]
            if lost and all(answers.get(row) == 0 for row in kept):
                column = self.export.column("student")
                title = column.title if column else ""
                expected = f"an answer: this later row of {student} is blank, and row {lost[0]} has answers"
                self.faults.add(self.export.file, kept[0], title, student, f"{expected}. Take out one of the two")

    def name(self, names: Names, row: Row, column: str, text: str) -> str:
        """The name that a cell means, or nothing, with a fault, where it is nobody's."""
        try:
            return names.find(text)
        except NameFault as fault:
            self.faults.add(self.export.file, row.number, column, text, str(fault))
            return ""

    def students(self) -> Iterator[tuple[Row, str]]:
        """The rows with the student of each, but those that are left out.

        Another row whose student is nobody's is still read, for its other faults.
        """
        column = self.export.column("student")
        assert column is not None
        for row in self.export.rows:
            text = column.cell(row)
            if self.known.leaves_strangers and self.is_stranger(row, text):
                continue
            student = self.name(self.known.students, row, column.title, text)
            if student:
                self.rows_of.setdefault(student, []).append(row)
            yield row, student

    def is_stranger(self, row: Row, text: str) -> bool:
        """Whether a code is nobody's on the roll, and is left out and listed.

        Where capitals, zeros or signs alone are other than those of somebody's, it may be that one, and is a fault.
        """
        try:
            self.known.students.find(text)
        except UnknownName as fault:
            if fault.is_nearly:
                return False
            self.survey.tally.leave(row.number, STRANGER)
            self.survey.strangers.setdefault(tidy(text), ([], fault.hint))[0].append(row.number)
            return True
        except NameFault:
            pass
        return False

    def of_last_submissions(self, wishes: list[Wish]) -> list[Wish]:
        """The wishes of the submissions that count."""
        chooser = Chooser(self.export, self.source.get("shape") == "wishes")
        counted = chooser.counted(self.rows_of)
        for rows in self.rows_of.values():
            for row in rows:
                if row.number not in counted:
                    self.survey.tally.leave(row.number, REPLACED)
        self.survey.replaced = chooser.replaced
        self.refuse_blank(counted)
        return [wish for wish in wishes if wish.row in counted]

    def points(self, row: Row, column: str, text: str) -> tuple[int, int] | None:
        """The rating that a cell says, and the rank where the survey asks for ranks; none, with a fault, where it says none.

        While the mapping does not say what the numbers mean, nothing is read.
        """
        text = self.answers.get(tidy(text).casefold(), text)
        says = self.source.get("says")
        try:
            if says in ("rank", "grade"):
                rank = whole(text, 1, 999, self.known.mapping.decimal)
                return rating_of(rank, self.source), rank if says == "rank" else 0
            return (whole(text, 0, 100, self.known.mapping.decimal), 0) if says else None
        except AmountFault as fault:
            self.faults.add(self.export.file, row.number, column, text, str(fault))
            return None

    def give(self, row: Row, student: str, text: str) -> None:
        """Keeps what a student gave a section, as it stands.

        An answer is a row, or in a long sheet the rows of a student with one time.
        """
        key = (student, self.export.cell(row, "time")) if self.source.get("shape") == "wishes" else (str(row.number),)
        self.given.setdefault(key, (f"row {row.number}", []))[1].append(self.answers.get(tidy(text).casefold(), text))

    def adjustment(self, row: Row, column: str, text: str) -> int | None:
        """What a cell says of two sections together; none, with a fault, where it says nothing."""
        try:
            return whole(text, -200, 200, self.known.mapping.decimal)
        except AmountFault as fault:
            self.faults.add(self.export.file, row.number, column, text, str(fault))
            return None

    def by_wish(self) -> Iterator[Wish]:
        """The wishes of a row for each wish."""
        section = self.export.column("section", needed=True)
        value = self.export.column("value", needed=True)
        second = self.export.column("second")
        self.pass_over(self.titles("student", "section", "second", "value"))
        if not section or not value:
            return
        for row, student in self.students():
            first = self.name(self.known.sections, row, section.title, section.cell(row))
            other_text = second.cell(row) if second else ""
            other = self.name(self.known.sections, row, second.title, other_text) if second and other_text else ""
            text = self.export.cell(row, "value")
            if other_text:
                adjustment = self.adjustment(row, value.title, text)
                points = None if adjustment is None else (adjustment, 0)
            else:
                self.give(row, student, text)
                points = self.points(row, value.title, text)
            if student and first and points is not None and bool(other) == bool(other_text):
                yield Wish(student, first, other, points[0], row.number, value.title, text, points[1])

    def section_columns(self) -> list[tuple[Column, str]]:
        """The columns that stand for sections, with the section of each. One that should and does not is a fault."""
        extra = {plain(name) for name in [*self.source.get("extra").split("|"), *self.titles("student", "pairs", "time")]}
        found: list[tuple[Column, str]] = []
        for column, text in self.matching():
            if plain(column.title) in extra:
                continue
            try:
                found.append((column, self.known.sections.find(text)))
            except NameFault as fault:
                hint = "; a column that is none goes under `extra`" if self.source.get("columns") in ("", "*") else ""
                header_row = int(self.source.get("header row"))
                self.faults.add(self.export.file, header_row, column.title, text, f"{fault}{hint}")
        self.pass_over([column.title for column, _ in found] + self.titles("student", "pairs"))
        return found

    def titles(self, *options: str) -> list[str]:
        """The names of the columns of these options, where the mapping names any."""
        columns = [self.export.column(option) for option in options]
        return [self.export.header[place] for column in columns if column for place in column.places]

    def pass_over(self, taken: list[str]) -> None:
        """Keeps the columns from which nothing was taken."""
        if self.source.get("again") != "refuse":
            taken = taken + self.titles("time", "submission")
        self.survey.passed_over = [title for title in self.export.header if title and title not in taken]

    def matching(self) -> list[tuple[Column, str]]:
        """The columns whose name is like `columns`, with what stands there for the `*`."""
        shape = tidy(self.source.get("columns")) or "*"
        before, *behind = (re.escape(part) for part in shape.split("*"))
        like = re.compile(before + "(.+?)" * bool(behind) + ".+?".join(behind), re.IGNORECASE)
        found: list[tuple[Column, str]] = []
        for place, title in enumerate(self.export.header):
            match = like.fullmatch(title)
            if match and like.groups:
                found.append((Column((place,), title), tidy(match.group(1))))
        if not found:
            self.export.missing(
                "columns", shape, "the names of some columns, with a * for the section or the number of the choice"
            )
        return found

    def by_section(self) -> Iterator[Wish]:
        """The wishes of a row for each student with a column for each section. A blank is no wish."""
        columns = self.section_columns()
        for row, student in self.students():
            texts = [(column, section, column.cell(row)) for column, section in columns]
            self.count(row, [text for _, _, text in texts])
            for column, section, text in texts:
                if not text:
                    continue
                self.give(row, student, text)
                points = self.points(row, column.title, text)
                if student and points is not None:
                    yield Wish(student, section, "", points[0], row.number, column.title, text, points[1])
            yield from self.pairs(row, student)

    def count(self, row: Row, texts: Sequence[str]) -> None:
        """Counts the answers and the blanks of a row. One without any answer is not taken."""
        answers = sum(bool(text) for text in texts)
        self.survey.tally.cells[row.number] = (answers, len(texts) - answers)
        pairs = self.export.column("pairs")
        if not answers and not (pairs and pairs.cell(row)):
            self.survey.tally.leave(row.number, SILENT)

    def by_choice(self) -> Iterator[Wish]:
        """The wishes of a row for each student with a column for each choice. A blank is no choice."""
        columns = self.choice_columns()
        for row, student in self.students():
            self.count(row, [column.cell(row) for column, _ in columns])
            for column, rank in columns:
                text = column.cell(row)
                section = self.name(self.known.sections, row, column.title, text) if text else ""
                if student and section:
                    yield Wish(student, section, "", rating_of(rank, self.source), row.number, column.title, text)
            yield from self.pairs(row, student)

    def choice_columns(self) -> list[tuple[Column, int]]:
        """The columns that stand for choices, with the number of each. Two of one number are a fault."""
        ranks: dict[int, Column] = {}
        for column, text in self.matching():
            rank = rank_of(text)
            if rank in ranks:
                header_row = int(self.source.get("header row"))
                self.faults.add(
                    self.export.file, header_row, column.title, text, f"another number than that of {ranks[rank].title}"
                )
            elif rank:
                ranks[rank] = column
        self.pass_over([column.title for column in ranks.values()] + self.titles("student", "pairs"))
        return [(column, rank) for rank, column in ranks.items()]

    def pairs(self, row: Row, student: str) -> Iterator[Wish]:
        """The pairs of a row: `A-1 + B-2 = 9; A-1 + C-1 = -5`."""
        column = self.export.column("pairs")
        for text in re.split(r"[;\n]", column.cell(row)) if column else []:
            found = re.fullmatch(r"\s*(.+?)\s+(?:\+|&|and)\s+(.+?)\s*[=:]\s*(\S+)\s*", text)
            if column is None or not text.strip():
                continue
            if not found:
                self.faults.add(self.export.file, row.number, column.title, text, "pairs as `A-1 + B-2 = 9; A-1 + C-1 = -5`")
                continue
            both = [self.name(self.known.sections, row, column.title, found.group(at)) for at in (1, 2)]
            points = self.adjustment(row, column.title, found.group(3))
            if student and all(both) and points is not None:
                yield Wish(student, both[0], both[1], points, row.number, column.title, text)

    def once(self, wishes: list[Wish]) -> list[Wish]:
        """The wishes. One that a student has twice in one submission is a fault."""
        kept: dict[tuple[str, ...], Wish] = {}
        for wish in wishes:
            key = (wish.student, *wish.about)
            if wish.second == wish.section:
                self.fault(wish, "two different sections")
            elif key not in kept:
                kept[key] = wish
            else:
                said = f"row {kept[key].row}" if kept[key].row != wish.row else "this row"
                self.fault(wish, f"a wish of {wish.student} that {said} does not have yet")
        return list(kept.values())

    def ranks_once(self) -> None:
        """A rank that a student gives to two sections is a fault: then the numbers may be no ranks."""
        first: dict[tuple[str, int], Wish] = {}
        for wish in self.survey.wishes:
            if wish.rank and first.setdefault((wish.student, wish.rank), wish) is not wish:
                before = first[wish.student, wish.rank]
                place = f"column {before.column}" if before.row == wish.row else f"row {before.row}"
                advice = "`says = grade` where 1 is the best and may come again"
                self.fault(wish, f"a rank that {wish.student} did not give in {place} ({advice})")

    def fault(self, wish: Wish, expected: str) -> None:
        """Keeps a fault of a wish."""
        self.faults.add(self.export.file, wish.row, wish.column, wish.value, expected)

    def limits(self) -> None:
        """Adds the students with more wishes than the program takes, and drops the wishes that say 0."""
        if self.source.get("shape") == "wishes":
            for wish in self.survey.wishes:
                if not wish.points:
                    self.survey.tally.leave(wish.row, ZERO)
        self.survey.wishes = [wish for wish in self.survey.wishes if wish.points]
        for wish, words in over_limits(self.survey.wishes):
            self.fault(wish, words)


def over_limits(wishes: Sequence[Wish]) -> Iterator[tuple[Wish, str]]:
    """The first wish of each student that is one more than the program takes, and what was expected."""
    counts: dict[tuple[str, bool], int] = {}
    for wish in wishes:
        key = (wish.student, bool(wish.second))
        counts[key] = counts.get(key, 0) + 1
        most = limits.MAX_PAIRS if wish.second else limits.MAX_RATINGS
        if counts[key] == most + 1:
            what = "pairs" if wish.second else "rated sections"
            yield wish, f"at most {most} {what} of one student; {wish.student} has more from here on"


def rank_of(text: str) -> int:
    """The number of a choice: `1`, `1st`, `first`; 0 where the text is none."""
    found = re.fullmatch(r"([1-9][0-9]?)(?:st|nd|rd|th|\.)?", text, re.IGNORECASE)
    if found:
        return int(found.group(1))
    return ORDINALS.index(text.casefold()) + 1 if text.casefold() in ORDINALS else 0
