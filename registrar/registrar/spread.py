"""How far a rank reaches on a roll, and the greatest spread at which no base reaches the next one.

A budget is base, carry, and `spread` times the rank, which is 0 to the number of students less 1 (docs/FORMATS.md,
"Draws"). The draw may give the highest rank to anybody: so a base is sure to stay below the next one where its greatest
sum of base and carry, with the highest rank, is less than the least such sum of the next.
"""

from __future__ import annotations

from dataclasses import dataclass
from typing import Dict, List, Optional, Sequence, Tuple

from registrar import limits, tables


@dataclass(frozen=True)
class Base:
    """The students of one base: how many they are, and the least and the greatest sum of base and carry."""

    tokens: int
    students: int
    least: int
    greatest: int


def bases_of(students: Sequence[tables.Student]) -> List[Base]:
    """The bases of a roll, the least first."""
    sums: Dict[int, List[int]] = {}
    for one in students:
        sums.setdefault(one.budget, []).append(one.budget + one.carry)
    return [Base(tokens, len(found), min(found), max(found)) for tokens, found in sorted(sums.items())]


def reach(students: Sequence[tables.Student], spread: int) -> int:
    """How many tokens the highest rank has more than the lowest."""
    return spread * max(0, len(students) - 1)


def crossed(students: Sequence[tables.Student], spread: int) -> List[Tuple[Base, Base]]:
    """The neighbouring bases of which the lower one may have a budget that is no less than one of the higher one."""
    bases = bases_of(students)
    far = reach(students, spread)
    return [(low, high) for low, high in zip(bases, bases[1:]) if low.greatest + far >= high.least]


def greatest(students: Sequence[tables.Student]) -> Optional[int]:
    """The greatest spread at which each base stays below the next; nothing where there is none from 1 on."""
    kept = [spread for spread in range(1, limits.MAX_SPREAD + 1) if not crossed(students, spread)]
    return max(kept, default=None)


def in_words(students: Sequence[tables.Student], spread: int) -> List[str]:
    """What a spread does on this roll, and which one is offered."""
    bases = bases_of(students)
    if not bases:
        return []
    last = len(students) - 1
    far = reach(students, spread)
    told = [
        f"spread {spread}: of {len(students)} students the highest rank has {far} tokens more than the lowest "
        f"({spread} * {last})"
    ]
    for base in bases:
        sums = f"{base.least}"
        if base.least != base.greatest:
            sums += f" to {base.greatest} with what is carried over"
        told.append(f"  base {base.tokens}, {base.students} students ({sums}): budgets up to {base.greatest + far}")
    for low, high in crossed(students, spread):
        told.append(f"  a student of base {low.tokens} may have more than one of base {high.tokens}")
    return told + offer(students)


def offer(students: Sequence[tables.Student]) -> List[str]:
    """The greatest spread that keeps the bases apart, or why there is none."""
    bases = bases_of(students)
    if len(bases) < 2:
        return []
    best = greatest(students)
    if best is not None:
        return [f"  the greatest spread at which the highest rank of a base stays below the next base: {best}"]
    gap = min(high.least - low.greatest for low, high in zip(bases, bases[1:]))
    number = len(students)
    return [
        f"  no spread from 1 on keeps each base below the next: with 1 the highest rank has {number - 1} tokens more, "
        f"and the nearest two are {gap} apart. Bases that are {number} apart, carry counted, would allow 1"
    ]
