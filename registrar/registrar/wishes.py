"""What students want, as the program tells it: ratings and adjustments at the end, and what bundles are worth."""

from __future__ import annotations

import os
import tempfile
from dataclasses import dataclass
from typing import Dict, FrozenSet, List, Sequence, Tuple

from registrar import program, streams, tables, tell
from registrar.tell import Trouble


@dataclass(frozen=True)
class Wishes:
    """The ratings of each student, and its adjustments of pairs, without those that are 0."""

    ratings: Dict[str, Dict[str, int]]
    pairs: Dict[str, Dict[FrozenSet[str], int]]

    def of(self, student: str) -> Tuple[Dict[str, int], Dict[FrozenSet[str], int]]:
        """All that a student wants."""
        return self.ratings.get(student, {}), self.pairs.get(student, {})

    def worth(self, student: str, sections: Sequence[str]) -> int:
        """The utility of these sections: the sum of the ratings and of the adjustments of their pairs."""
        ratings, pairs = self.of(student)
        held = set(sections)
        return sum(ratings.get(one, 0) for one in held) + sum(points for both, points in pairs.items() if both <= held)


def stream(folder: str, commands: Sequence[tables.Command]) -> str:
    """The path of one session with these commands in their order, which it writes."""
    path = os.path.join(folder, "all.session")
    tables.write_whole(path, streams.as_session(commands))
    return path


def at_the_end(catalogue: str, roll: str, commands: Sequence[tables.Command]) -> Wishes:
    """What students want after these commands, heard in this order: the program is asked."""
    with tempfile.TemporaryDirectory() as folder:
        answer = program.call(["prefer", catalogue, roll, stream(folder, commands)], tell.Life("reading the wishes"))
    refuse(answer)
    ratings: Dict[str, Dict[str, int]] = {}
    pairs: Dict[str, Dict[FrozenSet[str], int]] = {}
    for words in (line.split(" ") for line in answer.lines):
        if words[0] == "rate":
            ratings.setdefault(words[1], {})[words[2]] = int(words[3])
        elif words[0] == "pair":
            pairs.setdefault(words[1], {})[frozenset(words[2:4])] = int(words[4])
    return Wishes(ratings, pairs)


def best_for_nothing(
    catalogue: str, roll: str, settings: str, commands: Sequence[tables.Command], workers: int
) -> Dict[str, Tuple[str, ...]]:
    """The best bundle of each student where each price is 0: the program is asked."""
    with tempfile.TemporaryDirectory() as folder:
        prices = os.path.join(folder, "prices.csv")
        tables.write_whole(prices, b"section,price\n")
        words = ["demand", str(workers), catalogue, roll, settings, prices, stream(folder, commands)]
        answer = program.call(words, tell.Life("looking for what would be best"))
    refuse(answer)
    found: Dict[str, Tuple[str, ...]] = {}
    for words in (line.split(" ") for line in answer.lines):
        if words[0] == "bundle":
            found[words[1]] = tuple(one for one in words[2][1:-1].split(",") if one)
    return found


def refuse(answer: program.Answer) -> None:
    """Refuses where the program did not answer."""
    if answer.status:
        raise Trouble("\n".join(program.retell(answer)) or answer.text, answer.status)


def choices(wishes: Wishes, student: str) -> List[str]:
    """The sections that a student rated highest: one, or several of equal rating."""
    ratings = wishes.ratings.get(student, {})
    most = max(ratings.values(), default=0)
    return [section for section, rating in ratings.items() if rating == most]
