"""Numbers as exports write them: `30`, `1.0`, `1,200`, `1 200`, `1.200,0` under a decimal comma."""

from __future__ import annotations

import re
from decimal import Decimal


class AmountFault(Exception):
    """A text that is no such number; its words say what was expected."""


#: Blanks and apostrophes that stand between groups of three digits.
GROUPS = " \u00a0\u202f\u2009'\u2019"


#: Seats some of which are reserved.
RESERVED = re.compile(r"(\d+)\s*\(\s*(\d+)\s+reserved\s*\)", re.IGNORECASE)


def amount(text: str, decimal: str = ".") -> Decimal:
    """The number that the text writes, under this decimal sign. Raises `AmountFault`.

    The other one of comma and point, a blank or an apostrophe may stand between groups of three digits, and nowhere else.
    """
    group = "," if decimal == "." else "."
    shape = re.compile(
        rf"(?P<sign>[-+\u2212]?)(?P<whole>\d+|\d{{1,3}}(?:[{re.escape(group)}{GROUPS}]\d{{3}})+)(?:{re.escape(decimal)}(?P<part>\d+))?"
    )
    found = shape.fullmatch(text.strip())
    if not found or not text.isascii() and re.search(r"\d", re.sub(r"[0-9]", "", text)):
        raise AmountFault(f"a number (with `{decimal}` as decimal sign)")
    digits = re.sub(r"\D", "", found["whole"])
    sign = "-" if found["sign"] in ("-", "\u2212") else ""
    return Decimal(f"{sign}{digits}.{found['part'] or '0'}")


def whole(text: str, least: int, most: int, decimal: str = ".") -> int:
    """A whole number of that range. `1.0` is one, `1.5` is none. Raises `AmountFault`."""
    expected = f"a whole number from {grouped(least)} to {grouped(most)}"
    try:
        found = amount(text, decimal)
    except AmountFault:
        raise AmountFault(expected) from None
    if re.fullmatch(rf"[-+]?[1-9]\d{{0,2}}{re.escape(decimal)}\d{{3}}", text.strip()):
        raise AmountFault(f"{expected}; this may be thousands or have three decimals")
    if found != found.to_integral_value() or not least <= found <= most:
        raise AmountFault(expected)
    return int(found)


def seats(text: str, most: int, decimal: str, reserved: str) -> int:
    """A number of seats. Of `35 (5 reserved)` it is 35 where `reserved` is `all`, and 30 where it is `less`.

    Raises `AmountFault`, also where it is neither.
    """
    found = RESERVED.fullmatch(text.strip())
    if not found:
        return whole(text, 0, most, decimal)
    everything, kept = (whole(part, 0, most, decimal) for part in found.groups())
    if kept > everything:
        raise AmountFault("no more reserved seats than there are seats")
    if not reserved:
        both = f"{everything} or {everything - kept}"
        raise AmountFault(
            f"a number of seats: this may be {both}; state `reserved seats = all` or `reserved seats = less`"
        )
    return everything if reserved == "all" else everything - kept


def in_units(text: str, unit: Decimal, most: int, decimal: str = ".") -> int:
    """How many units a number has, from 0 to `most`. Raises `AmountFault` where it is no whole number of them."""
    try:
        found = amount(text, decimal) / unit
    except AmountFault:
        raise AmountFault(f"a number of credits, in steps of {unit}") from None
    if found != found.to_integral_value():
        raise AmountFault(f"a multiple of {unit}, the credit unit that the mapping states")
    if not 0 <= found <= most:
        raise AmountFault(f"0 to {unit * most} (in units of {unit}: 0 to {most})")
    return int(found)


def grouped(number: int) -> str:
    """A number for a person: with commas between thousands."""
    return f"{number:,}"
