"""What a run gave each student and each group of students, for those who compare runs or sum one up."""

from __future__ import annotations

import statistics
from dataclasses import dataclass
from typing import Dict, List, Optional, Sequence, Tuple

from registrar import audit, explain, manifest, program, reasons, streams, tell, wishes

#: The group of a student whose cell is blank.
BLANK = "(blank)"

#: The group of those whose own groups are too small.
OTHERS = "(groups of fewer than {least})"

#: The group of all.
ALL = "all"


@dataclass(frozen=True)
class Measured:
    """A run, what its students want, and the utility of each one's best bundle at prices of 0."""

    found: manifest.Manifest
    market: reasons.Market
    wishes: wishes.Wishes
    best: Dict[str, int]
    envy: Optional[Dict[str, audit.Envy]]

    @property
    def students(self) -> List[str]:
        """The students in the order of the roll."""
        return list(self.market.text.finals)

    def held(self, student: str) -> Tuple[str, ...]:
        """What a student holds in the end."""
        return self.market.text.finals[student].sections

    def worth(self, student: str) -> int:
        """The utility of that."""
        return self.wishes.worth(student, self.held(student))

    def share(self, student: str) -> Optional[float]:
        """The utility in percent of that of the best bundle at prices of 0; nothing for a student who wants nothing."""
        best = self.best.get(student, 0)
        return 100 * self.worth(student) / best if best > 0 else None

    def spent(self, student: str) -> int:
        """What a student holds in the end costs so many tokens; the aftermarket's raise may have paid some."""
        return self.market.text.cost(self.held(student))

    def credits(self, student: str) -> int:
        """The credits of what a student holds, in the program's unit."""
        return sum(self.market.sections[one].credits for one in self.held(student))

    def has_first(self, student: str) -> bool:
        """Whether a student holds a section that it rated highest."""
        return bool(set(wishes.choices(self.wishes, student)) & set(self.held(student)))

    def envies(self, student: str) -> Optional[bool]:
        """Whether a student envies somebody in the end; nothing where no audit was made."""
        if self.envy is None:
            return None
        lower, higher, _ = self.envy["final"].students[student]
        return lower + higher > 0


@dataclass(frozen=True)
class Group:
    """What a run gave a group of students. Shares are in percent, none where nobody of the group wants anything."""

    name: str
    students: int
    without: int
    seats: int
    credits: int
    shares: Tuple[float, ...]
    first: int
    spent: int
    budgets: Tuple[int, ...]
    envious: Optional[int]

    @property
    def mean_share(self) -> Optional[float]:
        """The mean of the shares."""
        return statistics.fmean(self.shares) if self.shares else None

    @property
    def median_share(self) -> Optional[float]:
        """The median of the shares."""
        return statistics.median(self.shares) if self.shares else None


def measured(found: manifest.Manifest, workers: int, audited: bool = True) -> Measured:
    """Measures a run. With `audited` the program is asked who envies whom, which checks the whole text."""
    market = explain.market_of(found)
    commands = streams.in_order(market.text.order, found.sessions)
    wanted = wishes.at_the_end(found.catalogue, found.roll, commands)
    bundles = wishes.best_for_nothing(found.catalogue, found.roll, found.settings, commands, workers)
    best = {name: wanted.worth(name, bundle) for name, bundle in bundles.items()}
    envy = None
    if audited:
        answer = program.call(manifest.audit_words(found, str(workers)), tell.Life("auditing"))
        if answer.status == 8:
            told = f"{found.text} does not hold: {answer.text.strip()} (`registrar check` says more)"
            raise tell.Trouble(told, answer.status)
        wishes.refuse(answer)
        envy = audit.read_audit(answer.lines)
    return Measured(found, market, wanted, best, envy)


def group(run: Measured, name: str, students: Sequence[str]) -> Group:
    """What a run gave these students."""
    shares = [run.share(one) for one in students]
    return Group(
        name,
        len(students),
        sum(1 for one in students if not run.held(one)),
        sum(len(run.held(one)) for one in students),
        sum(run.credits(one) for one in students),
        tuple(share for share in shares if share is not None),
        sum(run.has_first(one) for one in students),
        sum(run.spent(one) for one in students),
        tuple(run.market.text.budgets[one] for one in students),
        None if run.envy is None else sum(bool(run.envies(one)) for one in students),
    )


def parted(groups: Dict[str, str], students: Sequence[str], least: int) -> Dict[str, List[str]]:
    """The students of each group, groups in the order of their names; those of fewer than `least` are the last one."""
    found: Dict[str, List[str]] = {}
    for student in students:
        found.setdefault(groups.get(student) or BLANK, []).append(student)
    small = [name for name, members in found.items() if len(members) < least]
    kept = {name: found[name] for name in sorted(found, key=order) if name not in small}
    if small:
        others = set().union(*(found[name] for name in small))
        kept[OTHERS.format(least=least)] = [one for one in students if one in others]
    return kept


def order(name: str) -> Tuple[int, int, str]:
    """Numbers by their size, before words in the order of their letters; the blank group last."""
    if name == BLANK:
        return 2, 0, ""
    return (0, int(name), name) if name.isascii() and name.isdigit() else (1, 0, name.casefold())


def groups_of(run: Measured, groups: Dict[str, str], least: int) -> List[Group]:
    """What a run gave each group, and then all students."""
    parts = parted(groups, run.students, least)
    return [group(run, name, members) for name, members in parts.items()] + [group(run, ALL, run.students)]
