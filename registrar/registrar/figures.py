"""The figures of a published text: error by stage, seats, choices, and what the aftermarket changed."""

from __future__ import annotations

from typing import Dict, List, Sequence, Tuple

from registrar import published, reasons

# Whoever holds a choice beyond this is counted once, as one who holds a later one.
CHOICES = 10


def counts(bundles: Dict[str, published.Bundle], sections: Sequence[str]) -> Dict[str, int]:
    """How many students have each section in these bundles."""
    found = {section: 0 for section in sections}
    for bundle in bundles.values():
        for section in bundle.sections:
            found[section] += 1
    return found


def clearing_error(text: published.Published, bundles: Dict[str, published.Bundle]) -> int:
    """The sum of the squares of count less seats, but for sections of price 0 with free seats, at the second stage's prices."""
    taken = counts(bundles, list(text.prices))
    total = 0
    for section, used in text.used.items():
        excess = taken[section] - used.seats
        if excess > 0 or text.prices[section] > 0:
            total += excess * excess
    return total


def errors_by_stage(text: published.Published) -> List[Tuple[str, float]]:
    """The clearing error at the end of each stage."""
    return [
        ("search", text.error),
        ("second stage", clearing_error(text, text.bundles)),
        ("aftermarket", clearing_error(text, text.finals)),
    ]


def changed(text: published.Published) -> List[str]:
    """The students whose sections the aftermarket changed."""
    return [name for name, final in text.finals.items() if final.sections != text.bundles[name].sections]


def changes_by_pass(text: published.Published) -> List[Tuple[str, float]]:
    """How many turns of each pass changed a bundle."""
    held = {name: bundle.sections for name, bundle in text.bundles.items()}
    found: Dict[int, int] = {}
    for turn in text.turns:
        found.setdefault(turn.turn_pass, 0)
        if turn.sections != held[turn.student]:
            found[turn.turn_pass] += 1
            held[turn.student] = turn.sections
    return [(f"pass {number}", found[number]) for number in sorted(found)]


def choices(market: reasons.Market) -> List[Tuple[str, float]]:
    """How many students hold in the end the section that they rated highest, second highest, and so on.

    Of two sections of equal rating the one that the catalogue has first is counted as the higher choice.
    """
    found = [0] * (CHOICES + 1)
    places = {code: place for place, code in enumerate(market.sections)}
    for name, final in market.text.finals.items():
        rated = market.ratings.get(name, {})
        ranked = sorted(sorted(rated, key=places.__getitem__), key=rated.__getitem__, reverse=True)
        held = {min(place, CHOICES) for place, section in enumerate(ranked) if section in final.sections}
        for place in held:
            found[place] += 1
    return [(str(place + 1), float(number)) for place, number in enumerate(found[:-1])] + [("a later one", float(found[-1]))]


def fill(text: published.Published) -> List[Tuple[str, float]]:
    """The share of the seats that are taken, in percent, fullest section first; a section without seats is left out."""
    shares = [(one.section, 100 * one.used / one.seats) for one in text.used.values() if one.seats]
    return sorted(shares, key=lambda item: -item[1])


def prices(text: published.Published) -> List[Tuple[str, float]]:
    """The prices, dearest section first."""
    return sorted(((section, float(price)) for section, price in text.prices.items()), key=lambda item: -item[1])


def median(values: Sequence[float]) -> float:
    """The middle value; of an even number of values the upper of the two."""
    return sorted(values)[len(values) // 2] if values else 0
