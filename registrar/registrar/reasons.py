"""Why a student has no seat in a section: the answer of the program's `explain` in the guide's words.

It speaks of the second stage; of the turns behind it `aftermarket` does.
"""

from __future__ import annotations

from dataclasses import dataclass, field
from typing import Dict, List, Optional, Sequence, Tuple

from registrar import own_names, published, tables, tell


@dataclass(frozen=True)
class Market:
    """What a reason is found from: the published text, the tables, and what was wished; and how the school spells it."""

    text: published.Published
    sections: Dict[str, tables.Section]
    students: Dict[str, tables.Student]
    ratings: Dict[str, Dict[str, int]]
    own: own_names.Own = field(default_factory=dict)

    def section(self, code: str) -> str:
        """A section in the school's own spelling."""
        return own_names.spelt(self.own, "section", code)

    def student(self, name: str) -> str:
        """A student in the school's own spelling."""
        return own_names.spelt(self.own, "student", name)

    def listed(self, codes: Sequence[str]) -> str:
        """Sections in a sentence."""
        return and_joined([self.section(code) for code in codes])


@dataclass(frozen=True)
class Reason:
    """An answer of `explain`: the first line's words, and, where it has them, the best bundle, its worth, and what is lost."""

    student: str
    section: str
    words: Tuple[str, ...]
    best: Tuple[str, ...] = ()
    worth: int = 0
    lost: Optional[int] = None


def market_of(text: published.Published, catalogue: str, roll: str, commands: Sequence[tables.Command]) -> Market:
    """The market of a text, the commands being in the text's order."""
    sections = {one.code: one for one in tables.read_catalogue(catalogue)}
    students = {one.name: one for one in tables.read_roll(roll)}
    return Market(text, sections, students, tables.ratings_of(commands, sections), own_names.beside(catalogue))


def read_reason(lines: Sequence[str]) -> Reason:
    """Reads what `explain` printed."""
    student, section, *words = lines[0].split(" ")
    if len(lines) < 3:
        return Reason(student, section, tuple(words))
    _, bundle, worth = lines[1].split(" ")
    best = tuple(bundle[1:-1].split(",")) if bundle != "[]" else ()
    return Reason(student, section, tuple(words), best, int(worth), int(lines[2].split(" ")[1]))


def and_joined(names: Sequence[str]) -> str:
    """`A`, `A and B`, `A, B and C`, or `nothing`."""
    if not names:
        return "nothing"
    return names[0] if len(names) == 1 else ", ".join(names[:-1]) + " and " + names[-1]


def in_words(market: Market, reason: Reason) -> str:
    """The answer in the guide's words, for the student. It speaks of the second stage."""
    return " ".join([why_in_words(market, reason)] + best_in_words(market, reason))


def in_all_words(market: Market, reason: Reason) -> List[str]:
    """The answer, and before it what the aftermarket changed, for a student who reads this answer alone."""
    settled, final = held_by(market, reason.student)
    told = [in_words(market, reason)]
    if settled != final and reason.words[0] not in ("held", "unrated"):
        told.insert(0, of_second_stage(market, settled))
    if reason.section in final and reason.section not in settled:
        told.insert(0, f"You won {market.section(reason.section)} in the aftermarket; this is why you did not have it before.")
    return told


def held_by(market: Market, student: str) -> Tuple[Tuple[str, ...], Tuple[str, ...]]:
    """The student's bundles of the second stage and of the end."""
    return market.text.bundles[student].sections, market.text.finals[student].sections


def of_second_stage(market: Market, settled: Sequence[str]) -> str:
    """That the student had these sections in the second stage, and others in the end."""
    return f"(In the second stage you had {market.listed(settled)}. What the aftermarket changed, your turn lines tell.)"


def why_in_words(market: Market, reason: Reason) -> str:
    """The first line in words."""
    section = market.section(reason.section)
    costs = f"{section} costs {market.text.prices[reason.section]}."
    first = reason.words[0]
    if first == "held":
        return held_in_words(market, reason)
    if first == "unrated":
        return f"You gave {section} no rating above 0, so you did not ask for it."
    if first == "alone":
        budget = f"your budget of {market.text.budgets[reason.student]}"
        return f"{costs} It alone passes {budget if reason.words[1] == 'price' else cap_in_words(market, reason)}."
    if first == "beside":
        cost = f"cost more than your {market.text.budgets[reason.student]} tokens"
        passes = cost if reason.words[1] == "price" else f"pass {cap_in_words(market, reason)}"
        return f"{costs} Together with what your budget bought in the second stage it would {passes}."
    if first == "clash":
        return f"{costs} It is {clash_in_words(market, reason)}, which your budget bought in the second stage."
    return f"{costs} You could have had it besides all else: the adjustments that you gave make the bundle worth less with it."


def held_in_words(market: Market, reason: Reason) -> str:
    """The answer where the bundle of the second stage has the section: the student has it still, or gave it up."""
    section = market.section(reason.section)
    if reason.section in held_by(market, reason.student)[1]:
        return f"You have {section}: your bundle of the second stage has it, and so has your final one."
    return f"Your bundle of the second stage had {section}, and your final one has not."


def cap_in_words(market: Market, reason: Reason) -> str:
    """The cap that a reason names."""
    caps = market.students[reason.student]
    if reason.words[1] == "credits":
        return f"your cap of {own_names.credits_in_words(market.own, caps.credits)}"
    return f"your cap of {tell.count(caps.courses, 'section', 'sections')}"


def clash_in_words(market: Market, reason: Reason) -> str:
    """How the section clashes with the one that a reason names."""
    other = reason.words[1]
    same = market.sections[other].course == market.sections[reason.section].course
    return f"{'of the same course as' if same else 'at the same time as'} {market.section(other)}"


def more_in_words(reason: Reason) -> str:
    """How much more the bundle is worth than the best one with the section."""
    return f"{reason.lost} more" if reason.lost else "as much"


def best_in_words(market: Market, reason: Reason) -> List[str]:
    """The best bundle with the section, and what it would have been worth."""
    if reason.lost is None:
        return []
    bought = reason.worth + reason.lost
    return [
        f"The best that your budget could have bought with it is {market.listed(reason.best)}, worth {reason.worth} to you by your own "
        f"ratings. What it bought is worth {bought}, {more_in_words(reason)}.",
    ]
