"""The program's `explain` for one student, in a market of that student alone.

`explain` checks the whole text before it answers, so that an answer takes as long as `check`; a school's lists ask for ten
answers a student. What it answers depends on the student's wishes, budget and caps, on the catalogue, and on the printed
prices and bundle of the second stage (docs/FORMATS.md, "Explanations"), and on nothing of any other student. So `lists` checks
the whole text once, and then asks in a market that has all of that and one student: its catalogue has the sections that the
student's commands name, so that the desk replies alike; the seats suffice for one, the budget is what the draw made of it,
nothing is raised, and so the bundle and its tree are lines of a text that the program accepts.
"""

from __future__ import annotations

import json
import os
from dataclasses import dataclass
from typing import Dict, List, Sequence

from registrar import limits, program, published, reasons, streams, tables

# The greatest base of a roll. A drawn budget may be greater: then the whole market is asked.
MOST_BASE = limits.MAX_BASE

SETTINGS = {"seed": 0, "spread": 0, "accept": 0, "turns": 0, "tabu": 1, "patience": 1, "steps": [1], "raise": 0}


@dataclass(frozen=True)
class Room:
    """A folder for such markets: the market that they are cut from, and each student's commands before a `close`."""

    folder: str
    market: reasons.Market
    commands: Dict[str, List[tables.Command]]

    def path(self, name: str) -> str:
        """A file of the folder."""
        return os.path.join(self.folder, name)


def room(folder: str, market: reasons.Market, commands: Sequence[tables.Command]) -> Room:
    """Puts the settings into the folder, which all such markets share."""
    made = Room(folder, market, streams.by_student(commands))
    tables.write_whole(made.path("settings.json"), json.dumps(SETTINGS).encode("ascii"))
    return made


def seats_for_one(section: tables.Section) -> int:
    """The seats, and one where there are none: what nobody may take would be left out of the aftermarket's tree."""
    return max(1, section.seats)


def enter(made: Room, name: str) -> None:
    """Puts the catalogue, the roll, the session and the text of this student into the room."""
    student = made.market.students[name]
    sections = named_by(made, name)
    rows = [(one.code, one.course, seats_for_one(one), one.credits, one.meetings, one.parts) for one in sections]
    tables.write_whole(made.path(name + ".catalogue"), tables.csv_text([tables.CATALOGUE_HEADERS[1].split(","), *rows]).encode())
    roll = [tables.ROLL_HEADERS[0].split(","), (name, made.market.text.budgets[name], student.credits, student.courses)]
    tables.write_whole(made.path(name + ".roll"), tables.csv_text(roll).encode())
    said = made.commands.get(name, [])
    tables.write_whole(made.path(name + ".session"), streams.as_session(said))
    text = text_of_one(made.market, made.market.text.bundles[name], sections, len(said))
    tables.write_whole(made.path(name + ".text"), text.encode("ascii"))


def named_by(made: Room, name: str) -> List[tables.Section]:
    """The sections that the student's commands name, in the catalogue's order."""
    named = {word for command in made.commands.get(name, []) for word in command.words[2:-1]}
    return [one for one in made.market.sections.values() if one.code in named]


def text_of_one(market: reasons.Market, bundle: published.Bundle, sections: Sequence[tables.Section], said: int) -> str:
    """The published text of this student alone."""
    held = f"[{','.join(bundle.sections)}]"
    lines = ["course-match 2", "order" + " 1" * said]
    lines.append(f"budget {bundle.student} {market.text.budgets[bundle.student]}")
    lines += [f"start {section.code} 0" for section in sections]
    lines.append("error 0")
    lines += [f"price {section.code} {market.text.prices[section.code]}" for section in sections]
    lines.append(f"bundle {bundle.student} {held} {bundle.tree}")
    lines.append(f"turn 1 {bundle.student} {held} {bundle.tree}")
    lines.append(f"final {bundle.student} {held}")
    for section in sections:
        lines.append(f"used {section.code} {1 if section.code in bundle.sections else 0} {seats_for_one(section)}")
    return "\n".join([*lines, "end", ""])


def leave(made: Room, name: str) -> None:
    """Takes the files of this student away."""
    for ending in (".catalogue", ".roll", ".session", ".text"):
        os.remove(made.path(name + ending))


def explain(made: Room, name: str, section: str) -> program.Answer:
    """What the program answers for this student, who has entered, and this section, which one of its commands names."""
    words = [
        "explain", made.path(name + ".catalogue"), made.path(name + ".roll"), made.path("settings.json"),
        made.path(name + ".text"), name, section, made.path(name + ".session"),
    ]  # fmt: skip
    return program.call(words, is_brief=True)
