"""Reading a published text ("The published text" in docs/FORMATS.md) line by line."""

from __future__ import annotations

import re
from dataclasses import dataclass
from typing import Callable, Dict, List, Optional, Tuple

from registrar import tables
from registrar.tell import Trouble


@dataclass(frozen=True)
class Bundle:
    """A `bundle`, `turn` or `final` line: its line, the student, the sections, and the tree (none in a final line)."""

    line: int
    student: str
    sections: Tuple[str, ...]
    tree: str = ""
    turn_pass: int = 0


@dataclass(frozen=True)
class Used:
    """A `used` line."""

    line: int
    section: str
    used: int
    seats: int


@dataclass(frozen=True)
class Published:
    """A published text. Students and sections stand in their files' order; `turns` in that in which they were made."""

    path: str
    version: int
    order: Tuple[int, ...]
    budgets: Dict[str, int]
    start: Dict[str, int]
    error: int
    prices: Dict[str, int]
    bundles: Dict[str, Bundle]
    turns: Tuple[Bundle, ...]
    finals: Dict[str, Bundle]
    used: Dict[str, Used]
    lines: Tuple[str, ...]

    def cost(self, sections: Tuple[str, ...]) -> int:
        """What these sections cost at the published prices."""
        return sum(self.prices[section] for section in sections)

    def passes(self) -> int:
        """How many passes the aftermarket made."""
        return max((turn.turn_pass for turn in self.turns), default=0)


HELD = re.compile(r"\[([A-Za-z0-9._,-]*)\]\Z")


class Reader:
    """The lines of a text, taken one by one."""

    def __init__(self, path: str, lines: List[str]) -> None:
        self.path = path
        self.lines = lines
        self.next = 0

    def refuse(self, expected: str) -> Trouble:
        """The refusal of the next line."""
        if self.next >= len(self.lines):
            return Trouble(f"{self.path}: the text ends at line {self.next} where {expected} is due: it is not whole")
        shown = self.lines[self.next][:60]
        return Trouble(f"{self.path}, line {self.next + 1}: '{shown}' stands where {expected} is due")

    def peek(self) -> Optional[str]:
        """The first word of the next line, or nothing at the end."""
        return self.lines[self.next].split(" ", 1)[0] if self.next < len(self.lines) else None

    def take(self, word: str, fields: int) -> List[str]:
        """The fields of the next line, which begins with this word."""
        found = self.lines[self.next].split(" ") if self.next < len(self.lines) else []
        if not found or found[0] != word or len(found) != fields + 1:
            raise self.refuse(f"a line '{word}'")
        self.next += 1
        return found[1:]

    def number(self, text: str) -> int:
        """A number of the line that was taken last."""
        if not tables.NUMBER.match(text):
            raise Trouble(f"{self.path}, line {self.next}: '{text}' is no number")
        return int(text)

    def many(self, word: str, fields: int, each: Callable[[List[str]], None]) -> None:
        """All lines in a row that begin with this word."""
        while self.peek() == word:
            each(self.take(word, fields))

    def sections(self, text: str) -> Tuple[str, ...]:
        """The sections of a bundle."""
        match = HELD.match(text)
        if not match:
            raise Trouble(f"{self.path}, line {self.next}: '{text}' is no bundle")
        return tuple(match.group(1).split(",")) if match.group(1) else ()


def read_published(path: str) -> Published:
    """Reads a published text. It checks the form only as far as retelling needs it; `check` judges."""
    raw = tables.read_bytes(path)
    if b"\r" in raw:
        line = raw[: raw.index(b"\r")].count(b"\n") + 1
        raise Trouble(f"{path}, line {line}: a carriage return. Lines of a published text end with a line feed alone")
    lines = raw.decode("utf-8", "replace").split("\n")
    whole = lines.pop() == ""
    reader = Reader(path, lines)
    version = reader.number(reader.take("course-match", 1)[0])
    order = take_order(reader)
    budgets: Dict[str, int] = {}
    start: Dict[str, int] = {}
    prices: Dict[str, int] = {}
    reader.many("budget", 2, lambda f: budgets.__setitem__(f[0], reader.number(f[1])))
    reader.many("start", 2, lambda f: start.__setitem__(f[0], reader.number(f[1])))
    error = reader.number(reader.take("error", 1)[0])
    reader.many("price", 2, lambda f: prices.__setitem__(f[0], reader.number(f[1])))
    bundles, turns, finals, used = take_bundles(reader)
    reader.take("end", 0)
    if not whole or reader.next != len(lines):
        raise reader.refuse("nothing more")
    text = Published(path, version, order, budgets, start, error, prices, bundles, tuple(turns), finals, used, tuple(lines))
    refuse_unknown(text)
    return text


def refuse_unknown(text: Published) -> None:
    """Refuses a bundle of a student without a budget, or with a section without a price."""
    for bundle in (*text.bundles.values(), *text.turns, *text.finals.values()):
        if bundle.student not in text.budgets:
            raise Trouble(f"{text.path}, line {bundle.line}: no line 'budget' has the student {bundle.student}")
        for section in bundle.sections:
            if section not in text.prices:
                raise Trouble(f"{text.path}, line {bundle.line}: no line 'price' has the section {section}")


def take_order(reader: Reader) -> Tuple[int, ...]:
    """The order line."""
    if reader.peek() != "order":
        raise reader.refuse("the line 'order'")
    words = reader.lines[reader.next].split(" ")[1:]
    reader.next += 1
    return tuple(reader.number(word) for word in words)


Taken = Tuple[Dict[str, Bundle], List[Bundle], Dict[str, Bundle], Dict[str, Used]]


def take_bundles(reader: Reader) -> Taken:
    """The lines of bundles, turns, last bundles and used seats."""
    bundles: Dict[str, Bundle] = {}
    turns: List[Bundle] = []
    finals: Dict[str, Bundle] = {}
    used: Dict[str, Used] = {}
    reader.many("bundle", 3, lambda f: bundles.__setitem__(f[0], Bundle(reader.next, f[0], reader.sections(f[1]), f[2])))
    reader.many(
        "turn", 4, lambda f: turns.append(Bundle(reader.next, f[1], reader.sections(f[2]), f[3], reader.number(f[0])))
    )
    reader.many("final", 2, lambda f: finals.__setitem__(f[0], Bundle(reader.next, f[0], reader.sections(f[1]))))
    reader.many("used", 3, lambda f: used.__setitem__(f[0], Used(reader.next, f[0], reader.number(f[1]), reader.number(f[2]))))
    return bundles, turns, finals, used
