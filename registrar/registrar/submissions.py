"""Which submission of a student counts, where there are several: by a column of time, or by the order of the rows.

A submission is a row, or in a long sheet all rows of a student that were sent together. A later one replaces the whole
earlier one. What the mapping does not say is a fault: nothing tells a form that was sent twice from a mistyped number.
"""

from __future__ import annotations

import datetime
import re
from dataclasses import dataclass
from typing import Sequence

from registrar.exported import Export, Row

MONTHS = "jan feb mar apr may jun jul aug sep oct nov dec".split()
NUMBERS = re.compile(r"(\d{1,4})[-./](\d{1,2})[-./](\d{1,4})(?:[\sT,-]+(.*))?", re.DOTALL)
DAY_AND_WORD = re.compile(r"(\d{1,2})\.?[\s-]+([A-Za-z]{3})[a-z]*\.?[\s,-]+(\d{2,4})(?:\s*,?\s*(.*))?", re.DOTALL)
WORD_AND_DAY = re.compile(r"([A-Za-z]{3})[a-z]*\.?\s+(\d{1,2}),?\s+(\d{2,4})(?:\s*,?\s*(.*))?", re.DOTALL)
HOURS = re.compile(
    r"(\d{1,2})[:.](\d{2})(?:[:.](\d{2})(?:[.,](\d{1,6}))?)?\s*([ap]\.?m\.?)?\s*"
    r"(?:(Z|UTC|GMT)?([+-]\d{1,2}(?::?\d{2})?)?)",
    re.IGNORECASE,
)

#: What faults say was expected.
NO_TIME = "the column of the time; where there is none, `again = last row` or `first row` says which submission is the last"
TOGETHER = "the column that has the same in all rows that were sent together"
ADVICE = "`again = last` takes the last by the column `time`, `last row` and `first row` by the order of the rows"

#: So many seconds apart two times may be those of one answer.
AT_ONCE = 60

#: How a date of three numbers is read that does not begin with the year.
ORDERS = ("day first", "month first")


class TimeFault(Exception):
    """A text that is no time; its words say what was expected."""


@dataclass(frozen=True)
class Submission:
    """What a student sent together: its rows, and the text of its time."""

    rows: tuple[Row, ...]
    time: str


def time_of(text: str, order: str) -> float:
    """A time as a number, later ones being greater, by this order of day and month. Raises `TimeFault`.

    Read are `2026-11-10 10:05:12`, `2026/11/10 10:05:12 AM GMT+1`, `11/10/2026 3:05 PM`, `10.11.2026 15:05`,
    `10 Nov 2026`, and a plain number, which is itself.
    """
    text = text.strip()
    if re.fullmatch(r"\d+([.,]\d+)?", text):
        return float(text.replace(",", "."))
    day, rest = date_of(text, order)
    return day.timestamp() + seconds_of(rest)


def date_of(text: str, order: str) -> tuple[datetime.datetime, str]:
    """The day of a time, and the text behind it. Raises `TimeFault`."""
    numbers, word_last, word_first = NUMBERS.fullmatch(text), DAY_AND_WORD.fullmatch(text), WORD_AND_DAY.fullmatch(text)
    if numbers:
        first, second, third = (int(part) for part in numbers.group(1, 2, 3))
        rest = numbers.group(4)
        if len(numbers.group(1)) == 4:
            year, month, day = first, second, third
        else:
            day, month = (first, second) if order == "day first" else (second, first)
            year = third
    elif word_last or word_first:
        found = word_last or word_first
        assert found is not None
        names = found.group(2, 1) if word_last else found.group(1, 2)
        month, day, year, rest = month_of(names[0]), int(names[1]), int(found.group(3)), found.group(4)
    else:
        raise TimeFault("a time, as `2026-11-10 10:05:12`")
    try:
        return datetime.datetime(year + 2000 * (year < 100), month, day, tzinfo=datetime.timezone.utc), rest or ""
    except ValueError:
        raise TimeFault("a day that there is") from None


def month_of(word: str) -> int:
    """The month that a word of three letters begins. Raises `TimeFault`."""
    if word.lower() not in MONTHS:
        raise TimeFault("a month, as `Nov`")
    return MONTHS.index(word.lower()) + 1


def seconds_of(text: str) -> float:
    """The seconds of the day of a time of day, its zone taken off; 0 where there is none. Raises `TimeFault`."""
    if not text.strip():
        return 0.0
    found = HOURS.fullmatch(text.strip())
    if not found:
        raise TimeFault("a time of day, as `10:05:12`")
    hour, minute, second = (int(part or 0) for part in found.group(1, 2, 3))
    half = (found.group(5) or "").lower()
    if hour > 23 or minute > 59 or second > 60 or half and not 1 <= hour <= 12:
        raise TimeFault("a time of day from 0:00 to 23:59")
    if half:
        hour = hour % 12 + (12 if half.startswith("p") else 0)
    return hour * 3600 + minute * 60 + second + float(f"0.{found.group(4) or 0}") - zone_of(found.group(7) or "")


def zone_of(text: str) -> int:
    """The seconds by which a zone, as `+1`, `+01:00` or `-0530`, is before universal time."""
    digits = re.sub(r"\D", "", text)
    hours, minutes = (digits[:-2], digits[-2:]) if len(digits) > 2 else (digits, "0")
    return (int(hours or 0) * 3600 + int(minutes) * 60) * (-1 if text.startswith("-") else 1)


class Chooser:
    """Chooses among the submissions of one survey. What can not be chosen is a fault of the export."""

    def __init__(self, export: Export, is_long: bool) -> None:
        self.export = export
        self.is_long = is_long
        self.again = export.source.get("again")
        self.time = export.column("time")
        self.together = export.column("submission") if is_long else None
        #: How many submissions were replaced, by student.
        self.replaced: dict[str, int] = {}

    def counted(self, rows_of: dict[str, list[Row]]) -> set[int]:
        """The numbers of the rows that count."""
        sent = {student: self.submissions(rows) for student, rows in rows_of.items()}
        several = {student: found for student, found in sent.items() if len(found) > 1}
        last = {student: found[-1] for student, found in sent.items()}
        if not self.can_be_told():
            several = {}
        if several and self.again == "refuse":
            self.refuse(several)
        elif self.again == "first row":
            last = {student: found[0] for student, found in sent.items()}
        elif several and self.again == "last":
            last.update(self.latest(several))
        if self.again != "refuse":
            self.replaced = {student: len(found) - 1 for student, found in several.items()}
        return {row.number for one in last.values() for row in one.rows}

    def can_be_told(self) -> bool:
        """Whether the mapping says enough. What it lacks is a fault."""
        source = self.export.source
        if self.again == "last" and not self.time:
            if not source.get("time"):
                self.export.missing("time", "", NO_TIME)
            return False
        if self.is_long and self.again in ("last row", "first row") and not self.together:
            if not source.get("submission"):
                self.export.missing("submission", "", TOGETHER)
            return False
        return True

    def submissions(self, rows: Sequence[Row]) -> list[Submission]:
        """The submissions that these rows of a student make, in the order of the rows."""
        column = self.together or self.time
        groups: dict[str, list[Row]] = {}
        for row in rows:
            if not self.is_long:
                key = str(row.number)
            else:
                key = column.cell(row) if column else ""
            groups.setdefault(key, []).append(row)
        return [Submission(tuple(group), self.time_text(group)) for group in groups.values()]

    def time_text(self, rows: Sequence[Row]) -> str:
        """The text of the time of rows that were sent together: that of the last of them."""
        return self.time.cell(rows[-1]) if self.time else ""

    def refuse(self, several: dict[str, list[Submission]]) -> None:
        """Each further submission is a fault."""
        advice = ADVICE + ("; where rows add to one another, leave `time` and `submission` blank" if self.is_long else "")
        for student, found in several.items():
            for one in found[1:]:
                first = found[0].rows[0].number
                expected = f"one submission of each student; row {first} is one of {student} too ({advice})"
                self.export.fault(one.rows[0], "student", student, expected)

    def latest(self, several: dict[str, list[Submission]]) -> dict[str, Submission]:
        """The latest submission of each student by time."""
        found: dict[str, Submission] = {}
        if self.is_long and not self.together and self.is_timed_by_row(several):
            self.export.missing("submission", "", f"{TOGETHER}: the time differs in each row of a student")
            return found
        order = self.order()
        for student, sent in several.items():
            timed = [(time, one) for one in sent for time in [self.time_at(one, order)] if time is not None]
            if len(timed) < len(sent):
                continue
            timed.sort(key=lambda pair: pair[0])
            self.refuse_at_once(student, timed)
            if timed[-1][0] == timed[-2][0]:
                rows = " and ".join(str(one.rows[0].number) for _, one in timed[-2:])
                expected = f"a time of its own: rows {rows} of {student} have the same"
                self.export.fault(timed[-1][1].rows[0], "time", timed[-1][1].time, expected)
            found[student] = timed[-1][1]
        return found

    def refuse_at_once(self, student: str, timed: Sequence[tuple[float, Submission]]) -> None:
        """Refuses two times of a long sheet that may be of one answer: close together, and of different sections."""
        for (before, first), (time, second) in zip(timed, timed[1:]) if self.is_long and not self.together else []:
            if 0 < time - before < AT_ONCE and not self.sections_of(first) & self.sections_of(second):
                rows = f"rows {first.rows[0].number} and {second.rows[0].number} of {student}"
                expected = (
                    f"one time in all rows that were sent together: {rows} are less than a minute apart, "
                    "and of different sections; `submission` names a column that tells which are one answer"
                )
                self.export.fault(second.rows[0], "time", second.time, expected)

    def sections_of(self, sent: Submission) -> set[str]:
        """The sections that a submission of a long sheet is about, as they stand there."""
        return {self.export.cell(row, "section") for row in sent.rows}

    def is_timed_by_row(self, several: dict[str, list[Submission]]) -> bool:
        """Whether no two rows of any student have one time, though some have three or more."""
        is_single = all(len(one.rows) == 1 for sent in several.values() for one in sent)
        return is_single and any(len(sent) > 2 for sent in several.values())

    def order(self) -> str:
        """The order of day and month: that of the mapping, or the one in which all times of the column can be read.

        Where both can, and they differ in which submission is the last, the mapping has to say it: a fault.
        """
        stated = self.export.source.get("dates")
        column = self.time
        if stated or column is None:
            return stated
        texts = sorted({column.cell(row) for row in self.export.rows})
        readable = [text for text in texts if any(is_time(text, order) for order in ORDERS)]
        fitting = [order for order in ORDERS if all(is_time(text, order) for text in readable)]
        if len(fitting) == 1:
            return fitting[0]
        differing = next((text for text in readable if not fitting or len({time_of(text, one) for one in ORDERS}) > 1), "")
        if differing:
            self.export.missing("dates", "", f'day first or month first: "{differing}" does not tell')
        return ORDERS[0]

    def time_at(self, sent: Submission, order: str) -> float | None:
        """The time of a submission; none, with a fault, where it states none."""
        try:
            return time_of(sent.time, order)
        except TimeFault as fault:
            self.export.fault(sent.rows[-1], "time", sent.time, str(fault))
            return None


def is_time(text: str, order: str) -> bool:
    """Whether a text is a time in this order of day and month."""
    try:
        time_of(text, order)
        return True
    except TimeFault:
        return False
