"""What a guess says of times: whether they are of 24 hours, and which column tells when a survey's row was sent."""

from __future__ import annotations

import re
from collections import Counter
from typing import Iterable, Sequence

from registrar.meetings import MeetingFault, MeetingRules, meetings_by_columns, meetings_of

UNMARKED = re.compile(r"(?<![\d:.])(\d{1,2})[:.h]?(\d{2})(?!\d)(?!\s*(?::\d\d\s*)?[ap]\.?m)", re.IGNORECASE)


def hours_of_24(texts: Iterable[str]) -> str:
    """A cell that has a time from 13:00 on without am and pm, so that times are of 24 hours; nothing where none has."""
    for text in texts:
        for hour, minute in UNMARKED.findall(text):
            if 13 <= int(hour) <= 23 and int(minute) <= 59:
                return text
    return ""


def two_ways(rows: Iterable[Sequence[str]]) -> str:
    """What is wrong with the first row that reads in two ways; or nothing. Rows have one cell, or days, start and end."""
    for cells in rows:
        try:
            if len(cells) == 1:
                meetings_of(cells[0], 60, MeetingRules())
            else:
                meetings_by_columns(cells[0], cells[1], cells[2], 60, MeetingRules())
        except MeetingFault as fault:
            if "reads in one way" in str(fault) or "read in one way" in str(fault):
                return f'"{" ".join(cell for cell in cells if cell)}": {fault}'
    return ""


def is_of_submissions(students: Sequence[str], times: Sequence[str]) -> bool:
    """Whether rows of one student have one time, so that a time tells what was sent together in a long sheet."""
    rows = Counter(zip(students, times))
    several = {student for student, count in Counter(students).items() if count > 1}
    return bool(several) and any(count > 1 for (student, _), count in rows.items() if student in several)
