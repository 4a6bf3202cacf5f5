"""Meetings as schools export them, and as the program reads them (`M0900-1015;W0900-1015;F0900-1015`).

Read are days and times in one cell (`MWF 9:00-10:15`, `Tue/Thu 1:30pm-2:45pm`, `M0900-1020;W0900-1020`), several such in one
cell, days and times in columns of their own, and words for no meeting (`TBA`). A start without an end needs a length, which is
stated. Nothing is guessed: what can be read in two ways is a fault.
"""

from __future__ import annotations

import re
from dataclasses import dataclass, field
from typing import Iterator, Mapping

from registrar import limits

#: The words for days, in small letters, and the program's letters. The longest one that fits is taken.
DAYS: Mapping[str, str] = {
    word: letter
    for letter, words in {
        "M": "monday mon mo m",
        "T": "tuesday tues tue tu t",
        "W": "wednesday weds wed we w",
        "R": "thursday thurs thur thu th r",
        "F": "friday fri fr f",
        "S": "saturday sat sa s",
        "U": "sunday sun su u",
    }.items()
    for word in words.split()
}

#: The days' names, by the program's letters.
DAY_NAMES: Mapping[str, str] = dict(zip("MTWRFSU", "Monday Tuesday Wednesday Thursday Friday Saturday Sunday".split()))

#: What stands between days.
BETWEEN = re.compile(r"(?:[\s,./&+;]|\band\b|\bund\b)+", re.IGNORECASE)

#: No word for a day is longer; a longer text of one word is cut by it alone.
LONGEST = 12

#: The words for no meeting at all.
NO_MEETING = ("TBA", "TBD", "ARR", "ARRANGED", "ONLINE", "ASYNC", "NONE", "N/A", "-")

#: What a fault says was expected.
EXPECTED = "days and times as `MWF 9:00-10:15`, or a word for no meeting"

TIME = r"\d{1,2}(?:[:.h]\d{2}(?::00)?|\d{2})?(?:\s*[ap]\.?m\.?)?"
MEETING = re.compile(
    rf"(?P<days>[^\W\d_][^\d;|\n]*?)\s*(?P<start>{TIME})(?:\s*(?:-|\u2013|\u2014|\bto\b|\bbis\b)\s*(?P<end>{TIME}))?(?![\d:])",
    re.IGNORECASE,
)
CLOCK = re.compile(r"(?P<hour>\d{1,2})(?:[:.h]?(?P<minute>\d{2})(?::00)?)?\s*(?P<half>[ap])?\.?(?:m\.?)?", re.IGNORECASE)


class MeetingFault(Exception):
    """A text that is no meeting; its words say what was expected."""


@dataclass
class MeetingRules:
    """What a mapping states of meetings."""

    #: Words for days beside those of `DAYS`, in small letters, with the program's letters of one day or of several.
    days: dict[str, str] = field(default_factory=dict)
    #: Words for no meeting.
    none: tuple[str, ...] = NO_MEETING
    #: A time before this minute of the day that says neither am nor pm is a fault.
    earliest: int = 7 * 60
    #: A time that says neither am nor pm reads in two ways where it could also end in the evening, by this minute.
    latest: int = 22 * 60
    #: Whether a time that says neither am nor pm is of 24 hours, so that it reads in one way.
    is_24: bool = False
    #: The minutes of a meeting that states no end; 0 where none are stated.
    length: int = 0


@dataclass(frozen=True)
class Clock:
    """A time as it is written: minutes of the day, and `a` or `p` where it says so.

    `is_24` says whether its hour is one of 24, as in `09:00` and `13:00`.
    """

    minutes: int
    half: str
    is_24: bool = False


def days_of(text: str, rules: MeetingRules) -> str:
    """The program's letters for the days that the text names, in its order.

    Raises `MeetingFault`, also where it reads in two ways.
    """
    letters = ""
    whole = rules.days.get(text.strip().casefold())
    for word in [] if whole else BETWEEN.split(text.strip()):
        for letter in days_of_word(word, text, rules) if word else "":
            if letter in letters:
                raise MeetingFault(f'{EXPECTED}: a day stands twice in "{text.strip()}"')
            letters += letter
    if not whole and not letters:
        raise MeetingFault(f"{EXPECTED}: no day is named")
    return whole or letters


def days_of_word(word: str, text: str, rules: MeetingRules) -> str:
    """The letters of one word without blanks and signs, as `MWF`, `TTh`, `TuTh`, `Sunday`. Raises `MeetingFault`.

    A word of the mapping is what the mapping says. Where capitals begin small letters, each capital begins a day. A day's
    name of three letters or more that stands alone is that day. Any other word is read in all ways that there are.
    """
    folded = word.casefold()
    words = {**DAYS, **rules.days}
    parts = [part.casefold() for part in re.findall(r"[^\W\d_][^\W\d_A-Z]*", word)]
    if folded in rules.days or len(folded) > 2 and folded in words:
        return words[folded]
    if not (word.isupper() or word.islower()) and "".join(parts) == folded and all(part in words for part in parts):
        return "".join(words[part] for part in parts)
    once = {"".join(sorted(letters)): letters for letters in readings(folded, words)}
    if not once and are_days(folded, words):
        raise MeetingFault(f'{EXPECTED}: a day stands twice in "{text.strip()}"')
    if not once:
        raise MeetingFault(f'{EXPECTED}: "{text.strip()}" are no days; write them one by one, or name them under [days]')
    if len(once) > 1:
        shown = ", or ".join(" and ".join(DAY_NAMES[letter] for letter in letters) for letters in once.values())
        said = " or ".join(f"`{word} = {letters}`" for letters in once.values())
        advice = f"write the days apart, or say {said} under [days]"
        raise MeetingFault(f'days that read in one way: "{word}" may be {shown}; {advice}')
    return next(iter(once.values()))


def readings(text: str, words: Mapping[str, str], before: str = "") -> Iterator[str]:
    """The letters of each way to read a text in small letters as words for days that stand side by side, no day twice.

    `before` are the letters of what was read already: a day that comes again ends a way, so that there are few of them.
    """
    if not text:
        yield before
    for size in range(1, min(len(text), LONGEST) + 1):
        letters = words.get(text[:size], "")
        if letters and not set(letters) & set(before):
            yield from readings(text[size:], words, before + letters)


def are_days(text: str, words: Mapping[str, str]) -> bool:
    """Whether a text in small letters can be cut into words for days, be it with a day twice."""
    cuts = {0}
    for end in range(1, len(text) + 1):
        if any(start in cuts and text[start:end] in words for start in range(max(0, end - LONGEST), end)):
            cuts.add(end)
    return len(text) in cuts


def clock(text: str) -> Clock:
    """A time as `9:00`, `09:00`, `0900`, `9.00`, `9am`, `1:30 p.m.`. Raises `MeetingFault`."""
    found = CLOCK.fullmatch(text.strip())
    if not found:
        raise MeetingFault("a time as `9:00`, `13:30` or `1:30pm`")
    hour, minute = int(found["hour"]), int(found["minute"] or 0)
    half = (found["half"] or "").lower()
    if minute > 59 or hour > 23 or half and not 1 <= hour <= 12:
        raise MeetingFault("a time as `9:00`, `13:30` or `1:30pm`, from 0:00 to 23:59")
    if half:
        hour = hour % 12 + (12 if half == "p" else 0)
    return Clock(hour * 60 + minute, half, not half and (hour > 12 or found["hour"].startswith("0")))


def other_half(time: Clock, half: str) -> Clock:
    """A time without am and pm, read with this one; a time of more than 12 hours stays as it is."""
    hour, minute = divmod(time.minutes, 60)
    if time.half or not 1 <= hour <= 12:
        return time
    return Clock((hour % 12 + (12 if half == "p" else 0)) * 60 + minute, half)


def span(start: str, end: str, length: int, rules: MeetingRules) -> tuple[int, int]:
    """Start and end in minutes of the day. Raises `MeetingFault`.

    Of `1:30-2:45pm` the time without a mark takes the other's, or the opposite one where the end would not be behind the start.
    """
    begin = clock(start)
    if not end:
        if re.fullmatch(r"\d{1,2}", start.strip()):
            raise MeetingFault(f'{EXPECTED}: "{start.strip()}" alone is no time')
        minutes = length or rules.length
        if not minutes:
            raise MeetingFault("an end or a length: state `length` or `length default`, in minutes")
        stop = Clock(begin.minutes + minutes, begin.half, begin.is_24)
    else:
        stop = clock(end)
        if stop.half and not begin.half:
            marked = [other_half(begin, half) for half in (stop.half, "a")]
            begin = next((time for time in marked if time.minutes < stop.minutes), marked[0])
        elif begin.half and not stop.half:
            marked = [other_half(stop, half) for half in (begin.half, "p")]
            stop = next((time for time in marked if begin.minutes < time.minutes), marked[0])
    if not begin.half and begin.minutes < rules.earliest:
        raise MeetingFault(f"a time from {told(rules.earliest)} on, or with am or pm (`earliest` under [times] changes that)")
    if not begin.minutes < stop.minutes < 24 * 60:
        raise MeetingFault("an end that is later than the start, on the same day")
    refuse_two_readings(begin, stop, rules)
    return begin.minutes, stop.minutes


def refuse_two_readings(begin: Clock, stop: Clock, rules: MeetingRules) -> None:
    """Refuses times that say neither am nor pm where they may be of the evening as well as of the morning."""
    half = 12 * 60
    is_said = bool(begin.half or stop.half or begin.is_24 or stop.is_24 or rules.is_24)
    if not is_said and begin.minutes < half and stop.minutes + half <= rules.latest:
        morning, evening = (f"{told(begin.minutes + more)}-{told(stop.minutes + more)}" for more in (0, half))
        raise MeetingFault(
            f"a time that reads in one way: this may be {morning} or {evening}; write am or pm, "
            "or state `clock = 24` under [times] where times are of 24 hours"
        )


def told(minutes: int) -> str:
    """Minutes of the day as `7:00`."""
    return f"{minutes // 60}:{minutes % 60:02d}"


def meeting(day: str, begin: int, stop: int) -> str:
    """A meeting as the program reads it."""
    return f"{day}{begin // 60:02d}{begin % 60:02d}-{stop // 60:02d}{stop % 60:02d}"


def is_none(text: str, rules: MeetingRules) -> bool:
    """Whether the text is a word for no meeting."""
    return text.strip().casefold() in {word.casefold() for word in rules.none}


def meetings_of(text: str, length: int, rules: MeetingRules) -> list[str]:
    """The meetings of a cell that has days and times. Raises `MeetingFault`."""
    if is_none(text, rules):
        return []
    found: list[str] = []
    for piece in re.split(r"[;|\n]", text):
        rest = piece.strip()
        if not rest:
            continue
        at = 0
        for match in MEETING.finditer(rest):
            between = rest[at : match.start()]
            if between.strip(" ,/&+"):
                raise MeetingFault(f'{EXPECTED}: "{between.strip()}" is more than that')
            letters = days_of(match["days"], rules)
            begin, stop = span(match["start"], match["end"] or "", length, rules)
            found += [meeting(day, begin, stop) for day in letters]
            at = match.end()
        if rest[at:].strip(" ,/&+") or at == 0:
            raise MeetingFault(f'{EXPECTED}: "{rest[at:].strip()}" can not be read')
    if not found:
        raise MeetingFault(EXPECTED)
    return found


def meetings_by_columns(days: str, start: str, end: str, length: int, rules: MeetingRules) -> list[str]:
    """The meetings of cells for the days, the start and the end. `start` may have both times (`9:00-10:15`)."""
    if is_none(days, rules) or is_none(start, rules):
        return []
    if not days.strip() or not start.strip():
        raise MeetingFault("days and a start, or a word for no meeting in one of both")
    letters = days_of(days, rules)
    both = re.fullmatch(rf"({TIME})\s*(?:-|\u2013|\u2014|to)\s*({TIME})", start.strip(), re.IGNORECASE)
    if both and not end.strip():
        start, end = both.group(1), both.group(2)
    begin, stop = span(start, end.strip(), length, rules)
    return [meeting(day, begin, stop) for day in letters]


def minutes_of(text: str) -> int:
    """A length: `75`, `75 min`, `1:15`, `1h15`. Raises `MeetingFault`."""
    plain = re.fullmatch(r"(\d{1,4})(?:\.0+)?\s*(?:m|min|mins|minutes)?\.?", text.strip(), re.IGNORECASE)
    hours = re.fullmatch(r"(\d{1,2})(?::|h)([0-5]\d)(?::00)?", text.strip(), re.IGNORECASE)
    minutes = int(plain.group(1)) if plain else int(hours.group(1)) * 60 + int(hours.group(2)) if hours else 0
    if not 1 <= minutes < 24 * 60:
        raise MeetingFault("a length in minutes as `75` or `1:15`")
    return minutes


def joined(found: list[str]) -> list[str]:
    """The meetings without repeats, by day and time. Raises `MeetingFault` where there are more than ten."""
    order = "MTWRFSU"
    once = sorted(set(found), key=lambda one: (order.index(one[0]), one[1:]))
    if len(once) > limits.MAX_MEETINGS:
        raise MeetingFault(f"at most {limits.MAX_MEETINGS} meetings of a section; there are {len(once)}")
    return once
