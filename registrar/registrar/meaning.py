"""What the numbers of a survey may mean, told by examples: ratings of which the greatest is the best, ranks, or grades.

Nothing in a number says which it is: the mapping has to.
"""

from __future__ import annotations

import re
from typing import Sequence

from registrar.mapping import Source

#: So many rows are shown, and so many values of each.
ROWS = 3
VALUES = 6

#: The words of the option `says`, each with what it means.
WORDS = (
    "rating (the greatest number is the best), rank (1 is the best, and a student gives each rank once) "
    "or grade (1 is the best, and may come again)"
)


def what_numbers_may_mean(rows: Sequence[tuple[str, Sequence[str]]], source: Source) -> list[str]:
    """What the option `says` has to be, and then examples before and after.

    Each of `rows` has its place in the export, and the values of one answer.
    """
    shown = [(place, [value for value in values if is_number(value)][:VALUES]) for place, values in rows]
    shown = [(place, values) for place, values in shown if values][:ROWS]
    parts = [WORDS, *(example(place, values, source) for place, values in shown)]
    repeats = next(((place, found) for place, values in rows for found in [repeated(values)] if found), None)
    if repeats:
        parts.append(f"{repeats[0]} has {repeats[1]} twice, so these are no ranks")
    elif shown:
        parts.append("no answer has a number twice, as is so of ranks")
    return parts


def example(place: str, values: Sequence[str], source: Source) -> str:
    """The values of a row, and the ratings that they are by each meaning."""
    by_rank = [rated(value, source) for value in values]
    ratings = joined(values) if all(int(value) <= 100 for value in values) else "none, since one is above 100"
    ranked = "none, since there is no rank 0" if 0 in map(int, values) else joined(by_rank)
    return f"{place}: {joined(values)} as ratings are {ratings}; as ranks or grades {ranked}"


def rated(value: str, source: Source) -> str:
    """The rating of a rank, by the mapping's rule."""
    first, step, least = (int(source.get(option)) for option in ("first rating", "rating step", "least rating"))
    return str(max(least, first - step * (int(value) - 1)))


def joined(values: Sequence[str]) -> str:
    """Some values for a person."""
    return ", ".join(values)


def is_number(value: str) -> bool:
    """Whether a value is a whole number of at most three digits."""
    return re.fullmatch(r"\d{1,3}", value) is not None


def repeated(values: Sequence[str]) -> str:
    """A number that stands among the values twice, or nothing."""
    seen: set[str] = set()
    for value in values:
        if value in seen and is_number(value):
            return value
        seen.add(value)
    return ""
