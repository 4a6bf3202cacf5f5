"""What was at each of a student's turns of the aftermarket, of one section, in words for the student.

What was held and what was free the text's bundles and turns say (docs/FORMATS.md, "The stages of a market"); of others it is
only counted. Why a section that could be had was not chosen the program says: it is asked as of the second stage, in a market of
the student alone whose second stage is the turn. The budget there is the raised one, and what the student neither held nor found
free costs more: so its place in the tree is closed, as it is by a missing seat, and the turn's tree holds there too.
"""

from __future__ import annotations

from bisect import bisect_left
from dataclasses import dataclass, field, replace
from enum import Enum
from typing import Dict, List, Mapping, Optional, Sequence, Tuple

from registrar import alone, published, reasons, tables, tell


@dataclass(frozen=True)
class Turn:
    """A turn of a student: its number among all turns, from 0, what was held before it, and its line."""

    number: int
    before: Tuple[str, ...]
    line: published.Bundle


class Kind(Enum):
    """What a turn was to a section: it was held before and after it, or only after, or only before; or free, or full."""

    KEPT = 1
    GOT = 2
    GAVE = 3
    FREE = 4
    FULL = 5


@dataclass(frozen=True)
class Holders:
    """How many hold a section: after the second stage, and then after each turn `at` which one took it or gave it up.

    `given` has how often it was given up by then.
    """

    at: List[int] = field(default_factory=list)
    held: List[int] = field(default_factory=lambda: [0])
    given: List[int] = field(default_factory=lambda: [0])

    def move(self, number: int, step: int) -> None:
        """At the turn of this number one took the section (1), or gave it up (-1)."""
        self.at.append(number)
        self.held.append(self.held[-1] + step)
        self.given.append(self.given[-1] + (step < 0))

    def before(self, number: int) -> Tuple[int, int]:
        """How many hold it before the turn of this number, and how often it was given up by then."""
        place = bisect_left(self.at, number)
        return self.held[place], self.given[place]


@dataclass(frozen=True)
class Aftermarket:
    """The aftermarket of a text that holds: each student's turns, the holders of each section, and each student's place in a pass."""

    market: reasons.Market
    percent: int
    turns: Dict[str, List[Turn]]
    holders: Dict[str, Holders]
    places: Dict[str, int]

    def raised(self, student: str) -> int:
        """The student's raised budget."""
        budget = self.market.text.budgets[student]
        return budget + budget * self.percent // 100

    def free(self, section: str, number: int) -> int:
        """How many seats of the section were free at the turn of this number."""
        return self.market.sections[section].seats - self.holders[section].before(number)[0]

    def kind(self, section: str, turn: Turn) -> Kind:
        """What the turn was to the section."""
        if section in turn.line.sections:
            return Kind.KEPT if section in turn.before else Kind.GOT
        if section in turn.before:
            return Kind.GAVE
        return Kind.FREE if self.free(section, turn.number) > 0 else Kind.FULL

    def was_full(self, student: str, section: str) -> bool:
        """Whether the student could not have the section at one of its turns."""
        return any(self.kind(section, turn) is Kind.FULL for turn in self.turns.get(student, ()))


#: Why a student did not take a section at the turn of a number; none where the program can not be asked.
Answers = Mapping[Tuple[str, int], Optional[reasons.Reason]]


def read(market: reasons.Market, settings: str) -> Aftermarket:
    """The aftermarket of a market whose text was checked with these settings."""
    percent = tables.read_settings(settings)["raise"]
    held = {name: one.sections for name, one in market.text.bundles.items()}
    holders = {section: Holders() for section in market.sections}
    for section in (one for sections in held.values() for one in sections):
        holders[section].held[0] += 1
    turns: Dict[str, List[Turn]] = {}
    for number, line in enumerate(market.text.turns):
        before, held[line.student] = held[line.student], line.sections
        turns.setdefault(line.student, []).append(Turn(number, before, line))
        for section in sorted(set(before) ^ set(line.sections)):
            holders[section].move(number, 1 if section in line.sections else -1)
    budgets = market.text.budgets
    places = {name: at for at, name in enumerate(sorted(budgets, key=lambda name: -budgets[name]), 1)}
    return Aftermarket(market, percent if isinstance(percent, int) else 0, turns, holders, places)


def ask(after: Aftermarket, room: alone.Room, student: str, sections: Sequence[str]) -> Answers:
    """Asks the program why the student did not take each of these sections, which it rated, when it could be had."""
    found: Dict[Tuple[str, int], Optional[reasons.Reason]] = {}
    known: Dict[object, Dict[str, reasons.Reason]] = {}
    for turn in after.turns.get(student, []):
        asked = [one for one in sections if after.kind(one, turn) in (Kind.GAVE, Kind.FREE)]
        if asked and after.raised(student) > alone.MOST_BASE:
            found.update({(one, turn.number): None for one in asked})
        elif asked:
            prices = prices_at(after, room, turn)
            # Where nothing that the student named changed hands, a turn is as the one before.
            answers = known.setdefault((turn.line.sections, tuple(prices.values())), {})
            left = [one for one in asked if one not in answers]
            if left:
                answers.update(asked_at(after, room, turn, prices, left))
            found.update({(one, turn.number): answers[one] for one in asked})
    return found


def prices_at(after: Aftermarket, room: alone.Room, turn: Turn) -> Dict[str, int]:
    """The prices of what the student named: that of what could not be had at the turn is above the raised budget."""
    student, prices = turn.line.student, after.market.text.prices
    too_dear = after.raised(student) + 1
    return {
        one.code: prices[one.code] if after.kind(one.code, turn) is not Kind.FULL else too_dear
        for one in alone.named_by(room, student)
    }


def asked_at(
    after: Aftermarket, room: alone.Room, turn: Turn, prices: Dict[str, int], sections: Sequence[str]
) -> Dict[str, reasons.Reason]:
    """The program's answers in a market of the student alone whose second stage is the turn."""
    student = turn.line.student
    budgets, bundles = {student: after.raised(student)}, {student: turn.line}
    text = replace(after.market.text, budgets=budgets, prices=prices, bundles=bundles)
    within = replace(room, market=replace(after.market, text=text))
    alone.enter(within, student)
    found = {}
    for section in sections:
        answer = alone.explain(within, student, section)
        if answer.status:
            raise tell.Trouble(f"explain {student} {section} at line {turn.line.line}: {answer.text}", tell.FAULTS)
        found[section] = reasons.read_reason(answer.lines)
    return found


@dataclass(frozen=True)
class Run:
    """Turns of a student that follow each other and of which one thing is told of a section; and why, if that is known."""

    kind: Kind
    turns: Tuple[Turn, ...]
    why: Optional[reasons.Reason]

    @property
    def chosen(self) -> Tuple[str, ...]:
        """What the student had after the last of these turns."""
        return self.turns[-1].line.sections

    def takes(self, other: Run) -> bool:
        """Whether the turn behind these is told with them."""
        if self.kind is Kind.GOT:
            return other.kind is Kind.KEPT
        if self.kind is Kind.FREE is other.kind:
            words = [one.why.words if one.why else () for one in (self, other)]
            return words[0] == words[1] and self.chosen == other.chosen
        return self.kind is other.kind and self.kind is not Kind.GAVE

    def with_next(self, other: Run) -> Run:
        """These turns and that behind them; of the best bundles with the section it keeps the one that is worth most."""
        better = self.why and other.why and other.why.worth > self.why.worth
        return Run(self.kind, self.turns + other.turns, other.why if better else self.why)


def runs_of(after: Aftermarket, student: str, section: str, answers: Answers) -> List[Run]:
    """A student's turns, those together of which the same is told."""
    runs: List[Run] = []
    for turn in after.turns.get(student, []):
        now = Run(after.kind(section, turn), (turn,), answers.get((section, turn.number)))
        if runs and runs[-1].takes(now):
            runs[-1] = runs[-1].with_next(now)
        else:
            runs.append(now)
    return runs


def in_words(after: Aftermarket, reason: reasons.Reason, answers: Answers) -> str:
    """What was at the student's turns, behind the words of the second stage's reason; nothing where those say it all."""
    if reason.words[0] == "unrated":
        return ""
    teller = Teller(after, reason)
    runs = runs_of(after, reason.student, reason.section, answers)
    return " ".join([teller.told(run) for run in runs if run.kind is not Kind.KEPT])


def order_in_words(after: Aftermarket, student: str) -> str:
    """When the student's turn is."""
    place, count = after.places[student], len(after.places)
    return f"In each pass of the aftermarket turns go by budget, the greatest first: yours is number {place} of {count}."


class Teller:
    """Tells the turns of a student in their order, and what was told before not again."""

    def __init__(self, after: Aftermarket, reason: reasons.Reason) -> None:
        self.after = after
        self.market = after.market
        self.section = reason.section
        self.raised = f"your raised budget of {after.raised(reason.student)}"
        self.turns = after.turns.get(reason.student, [])
        #: Why the section was not chosen, as it was told last, first of the second stage.
        self.known = facts_of(reason, after.market.text.bundles[reason.student].sections)
        self.kinds: List[Kind] = []

    def told(self, run: Run) -> str:
        """What was at these turns."""
        when = self.when(run)
        self.kinds.append(run.kind)
        if run.kind is Kind.GOT:
            return f"You got it at {when}{', and have it in the end' if run.turns[-1] is self.turns[-1] else ''}."
        if run.kind is Kind.FULL:
            seats = f": {self.seats(run)}" if self.kinds.count(Kind.FULL) == 1 else ""
            return f"No seat was free at {when}{seats}."
        known, self.known = self.known, facts_of(run.why, run.chosen)
        if run.kind is Kind.GAVE:
            return f"You gave it up at {when}: {self.why(run)}"
        if self.known is None or self.known != known:
            return f"A seat was free at {when}, but {self.why(run)}"
        return f"A seat was free at {when}, but with {self.raised} the same holds."

    def when(self, run: Run) -> str:
        """`your turn of pass 2`."""
        turns = run.turns[:1] if run.kind is Kind.GOT else run.turns
        first, last = turns[0].line.turn_pass, turns[-1].line.turn_pass
        of_what = "" if self.kinds else " of the aftermarket"  # (where it is told first)
        if len(self.turns) == 1:
            return f"your turn{of_what}"
        if len(turns) == len(self.turns):
            return f"{'any' if run.kind is Kind.FULL else 'each'} of your {len(turns)} turns{of_what}"
        return f"your turn{'' if first == last else 's'} of {passes_in_words(first, last)}{of_what}"

    def seats(self, run: Run) -> str:
        """How the seats went, of which none was free at these turns: how many, and never to whom."""
        seats, holders = self.market.sections[self.section].seats, self.after.holders[self.section]
        if not seats:
            return "it has none"
        taken, (_, given) = holders.held[0], holders.before(run.turns[-1].number)
        left = seats - taken
        went = [f"the {left} that {was(left)} free then"] * bool(left) + [f"{given} that {was(given)} given up since"] * bool(given)
        turns = "an earlier turn" if left + given == 1 else "earlier turns"
        later = f"; {' and '.join(went)} went at {turns}" if went else ", and none was given up since"
        before = f"{(taken or 'none') if left else 'all'} of its {seats} seats {was(taken)}"
        if seats == 1:
            before = "its only seat was" if taken else "its only seat was not"
        return f"{before} taken in the second stage{later}"

    def why(self, run: Run) -> str:
        """Why the section was not chosen, as the program says; where it can not be asked, what the text's tree proves."""
        why, chosen = run.why, self.market.listed(run.chosen)
        if why is None:
            return f"the best of what you held and what was free that {self.raised} buys is {chosen}."
        costs = f"it costs {self.market.text.prices[self.section]}"
        if why.words == ("alone", "price"):
            return f"{costs}, more than {self.raised}."
        if why.words[0] == "alone":
            return f"it alone passes {reasons.cap_in_words(self.market, why)}."
        if why.words == ("beside", "price"):
            left = self.after.raised(why.student) - self.market.text.cost(run.chosen)
            told = f"{costs}, and beside what you then chose, {chosen}, {self.raised} left {left}"
        elif why.words[0] == "beside":
            told = f"together with what you then chose, {chosen}, it would pass {reasons.cap_in_words(self.market, why)}"
        elif why.words[0] == "clash":
            told = f"it is {reasons.clash_in_words(self.market, why)}, which you then chose"
        else:
            told = f"the adjustments that you gave make what you then chose, {chosen}, worth less with it"
        return f"{told}. {self.best(why)}"

    def best(self, why: reasons.Reason) -> str:
        """The best bundle with the section that could be had at these turns, and what it would have been worth."""
        best = f"The best with it was then {self.market.listed(why.best)}, worth {why.worth}."
        return f"{best} What you chose is worth {why.worth + (why.lost or 0)}, {reasons.more_in_words(why)}."


def facts_of(why: Optional[reasons.Reason], chosen: Tuple[str, ...]) -> Optional[Tuple[object, ...]]:
    """What is told of why a section was not chosen, but for the budget; nothing where no bundle is told."""
    return None if why is None or why.lost is None else (why.words, why.best, why.lost, chosen)


def passes_in_words(first: int, last: int) -> str:
    """`pass 2`, `passes 2 and 3`, `passes 2 to 5`."""
    if first == last:
        return f"pass {first}"
    return f"passes {first} {'and' if last == first + 1 else 'to'} {last}"


def was(count: int) -> str:
    """The verb of so many."""
    return "was" if count < 2 else "were"
