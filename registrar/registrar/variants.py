"""The file of variants that `trial` runs: other seats of a section, another spread, raise, number of turns, seed.

An INI text, a section for each variant:

    [more seats]
    seats ACCT_101_A = 30
    seats FNCE-717-A = +4

    [other seeds]
    seed = 1, 2, 3

Several values with commas between them are as many trials.
"""

from __future__ import annotations

import configparser
import difflib
import itertools
from dataclasses import dataclass
from typing import Dict, Iterable, List, Sequence, Tuple

from registrar import limits, own_names, tables
from registrar.faults import Faults
from registrar.mapping import first_fault, parser, split
from registrar.spelling import tidy

#: The settings that a variant may have, with their ranges (docs/FORMATS.md, "Settings").
RANGES: Dict[str, Tuple[int, int]] = {
    "seed": (0, 2**64 - 1),
    "spread": (0, limits.MAX_SPREAD),
    "raise": (0, limits.MAX_RAISE),
    "turns": (0, limits.MAX_TURNS),
    "accept": (0, limits.MAX_ACCEPT),
}

#: So many trials one file may ask for.
MOST_TRIALS = 64


@dataclass(frozen=True)
class Variant:
    """A trial: its name, and what is other than in the run: settings, and seats by section."""

    name: str
    settings: Dict[str, int]
    seats: Dict[str, int]

    def in_words(self) -> str:
        """What is other."""
        told = [f"{name} {value}" for name, value in self.settings.items()]
        told += [f"{value} seats in {section}" for section, value in self.seats.items()]
        return ", ".join(told) or "nothing else"


class Reader:
    """Reads a file of variants, and keeps all of its faults."""

    def __init__(self, path: str, sections: Sequence[tables.Section], own: own_names.Own, faults: Faults) -> None:
        self.path = path
        self.seats = {one.code: one.seats for one in sections}
        self.codes = {original: name for name, original in own.get("section", {}).items()}
        self.faults = faults

    def read(self) -> List[Variant]:
        """The variants, in the file's order."""
        parsed = parser()
        try:
            parsed.read_string(tables.read_text(self.path))
        except configparser.Error as error:
            line, what = first_fault(error)
            self.faults.add(self.path, line, "", "", f"this is no file of variants: {what}")
            return []
        found = [variant for title in parsed.sections() for variant in self.variants(tidy(title), dict(parsed[title]))]
        if not found and not self.faults:
            expected = "a variant, as `[more seats]` and below it `seats ACCT_101_A = 30`"
            self.faults.add(self.path, None, "", "", expected)
        if len(found) > MOST_TRIALS:
            self.faults.add(self.path, None, "", f"{len(found)} trials", f"at most {MOST_TRIALS} trials")
        return found

    def variants(self, title: str, options: Dict[str, str]) -> List[Variant]:
        """The trials of one section: one, or one for each of several values."""
        values: Dict[str, List[int]] = {}
        for option, text in options.items():
            word, _, section = option.partition(" ")
            name = self.codes.get(tidy(section), tidy(section))
            if word == "seats" and section:
                if name in self.seats:
                    now = self.seats[name]
                    values[f"seats {name}"] = [self.seats_of(title, option, one, now) for one in parts(text)]
                else:
                    self.fault(title, option, section, f"a section of the catalogue{near(name, self.seats)}")
            elif option in RANGES:
                values[option] = [self.number(title, option, one, *RANGES[option]) for one in parts(text)]
            else:
                known = [*RANGES, "seats SECTION"]
                self.fault(title, option, option, f"one of {', '.join(known)}{near(option, RANGES)}")
        several = [option for option, found in values.items() if len(found) > 1]
        made = []
        for chosen in itertools.product(*values.values()):
            picked = dict(zip(values, chosen))
            told = ", ".join(f"{option} {picked[option]}" for option in several)
            seats = {option[6:]: value for option, value in picked.items() if option.startswith("seats ")}
            settings = {option: value for option, value in picked.items() if option in RANGES}
            made.append(Variant(f"{title}: {told}" if told else title, settings, seats))
        return made

    def seats_of(self, title: str, option: str, text: str, now: int) -> int:
        """A number of seats: as it stands, or `+4` or `-4` of what the catalogue has."""
        if text[:1] in ("+", "-"):
            least, most = (0, limits.MAX_SEATS - now) if text[0] == "+" else (0, now)
            number = self.number(title, option, text[1:], least, most)
            return now + number if text[0] == "+" else now - number
        return self.number(title, option, text, 0, limits.MAX_SEATS)

    def number(self, title: str, option: str, text: str, least: int, most: int) -> int:
        """A whole number of that range; 0, with a fault, where it is none."""
        if not tables.NUMBER.match(text) or not least <= int(text) <= most:
            self.fault(title, option, text, f"a whole number from {least} to {most}")
            return 0
        return int(text)

    def fault(self, title: str, option: str, value: str, expected: str) -> None:
        """Keeps a fault."""
        self.faults.add(self.path, None, f"[{title}] {option}", value, expected)


def parts(text: str) -> List[str]:
    """The values with commas between them; one blank where there are none."""
    return split(text) or [""]


def near(name: str, known: Iterable[str]) -> str:
    """The nearest of the known names, in words."""
    found = difflib.get_close_matches(name, list(known), n=1)
    return f"; nearest: {found[0]}" if found else ""
