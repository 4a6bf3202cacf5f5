"""The place of a finding: the line of the published text that it names, its student, and what that means in words."""

from __future__ import annotations

import re
from typing import List, Sequence, Tuple

from registrar import tables
from registrar.tell import Trouble

SHOWN = 100

TREES = {
    "syntax": "no symbol of a tree stands there",
    "open": "the tree says that nothing better is to be found there, and that is not so",
    "redundant": "the tree goes on where nothing more is to be found",
    "leaf": "another reason closes that place of the tree",
    "branch": "the tree looks elsewhere than it has to",
    "rest": "the tree is at its end, and symbols are left",
}

CAUSES = {
    "unaffordable": "the prices of these sections come to more than the budget",
    "infeasible": "two of these sections clash, or are not rated, or pass a cap",
    "order": "no turn is due here, or that of another student or pass is",
    "taken": "one of these sections is neither held nor free",
}


def lines_of(path: str) -> List[str]:
    """The lines of a text, as they stand."""
    return tables.read_bytes(path).decode("utf-8", "replace").split("\n")


def numbered(lines: Sequence[str], start: str) -> List[int]:
    """The numbers of the lines that begin so."""
    return [number for number, line in enumerate(lines, 1) if line.startswith(start)]


def shown(path: str, lines: Sequence[str], number: int) -> str:
    """A line with its place, cut where it is long."""
    text = lines[number - 1].rstrip("\r") if 0 < number <= len(lines) else ""
    return f"{path}, line {number}: {text[:SHOWN]}{' ..' if len(text) > SHOWN else ''}"


def explain_finding(finding: str, path: str, last: str = "bundle") -> List[str]:
    """The place and the meaning of a finding. `last` is the line of a student whom it names: `final` for `hall`."""
    lines = lines_of(path)
    words = finding.replace("finding: ", "", 1).split(" ")
    if words[0] == "line":
        return [shown(path, lines, int(words[1])), form_in_words(words[2], lines, int(words[1]))]
    if words[0] == "journal":
        return [f"{path}, line 2: entry {words[2]} of the order", "the order does not fit the sessions as they are now"]
    if words[0] == "not":
        number = (numbered(lines, "turn ") or [len(lines)])[-1]
        return [shown(path, lines, number), "the turns end before a whole pass without a change: lines are missing behind this one"]
    start, meaning = place_and_meaning(words, lines, last)
    return [shown(path, lines, number) for number in start[:3]] + [meaning]


def place_and_meaning(words: Sequence[str], lines: Sequence[str], last: str) -> Tuple[List[int], str]:
    """The lines that a finding on a student, a section or a turn names, and what it means."""
    if words[0] == "turn":
        numbers = numbered(lines, "turn ")
        at = numbers[int(words[1]) - 1 : int(words[1])]
        return at, cause_in_words(words[2:])
    if words[0] == "student":
        return numbered(lines, f"{last} {words[1]} "), cause_in_words(words[2:])
    if words[0] == "seats":
        holders = [line.split(" ")[1] for line in lines if line.startswith(last + " ") and words[1] in sections_of(line)]
        return numbered(lines, f"used {words[1]} "), f"{words[2]} students have it in their {last} lines: {', '.join(holders)}"
    if words[0] == "budget":
        meaning = "the budget is not base, carry and drawn amount: roll, settings or this line changed"
        return numbered(lines, f"budget {words[1]} "), meaning
    if words[0] == "final":
        return numbered(lines, f"final {words[1]} "), "these are not the sections that the student has after its last turn"
    return numbered(lines, f"used {words[1]} "), "the last bundles take another number of seats, or the catalogue has another"


def sections_of(line: str) -> List[str]:
    """The sections between the brackets of a line."""
    match = re.search(r"\[([^\]]*)\]", line)
    return match.group(1).split(",") if match else []


def cause_in_words(words: Sequence[str]) -> str:
    """What a finding on a bundle means."""
    if words[0] == "tree":
        return f"{TREES.get(words[1], words[1])} (byte {words[3]} of the tree, counted from 0)"
    return CAUSES.get(words[0], " ".join(words))


def form_in_words(cause: str, lines: Sequence[str], number: int) -> str:
    """What a finding on a line's form means."""
    line = lines[number - 1] if number <= len(lines) else ""
    if cause == "missing":
        return "the text ends here: its end is lost"
    if cause == "rest":
        return "the text goes on behind its line 'end'"
    if line.endswith("\r"):
        return "the line ends with CR LF in place of LF: an editor or a mail program has changed the text"
    if line.startswith("\ufeff"):
        return "the text begins with a byte order mark: an editor has changed it"
    return "no such line may stand here"


def names_that_differ(path: str, roll: Sequence[str], catalogue: Sequence[str]) -> List[str]:
    """Where the text is of other students or sections than the roll and the catalogue are."""
    lines = [line.rstrip("\r").split(" ") for line in lines_of(path)]
    told = []
    for word, names, table in (("budget", roll, "roll"), ("price", catalogue, "catalogue")):
        there = [line[1] for line in lines if line[0] == word and len(line) == 3]
        if there != list(names):
            told.append(first_difference(there, names, table))
    return told


def first_difference(there: Sequence[str], names: Sequence[str], table: str) -> str:
    """The first name on which text and table differ."""
    for row, (one, other) in enumerate(zip(there, names), 2):
        if one != other:
            return f"the text has {one} where row {row} of the {table} has {other}: is it the {table} of that run?"
    return f"the text has {len(there)} names where the {table} has {len(names)} rows: is it the {table} of that run?"


def entries_that_differ(order: Sequence[int], sessions: Sequence[str]) -> List[str]:
    """How often the order names each session, where that is not how many commands it has."""
    told = []
    for number, path in enumerate(sessions, 1):
        has = len(tables.read_session(path, number))
        named = sum(1 for one in order if one == number)
        if has != named:
            told.append(f"session {number}, {path}, has {has} commands; the order has {named} of it")
    beyond = [one for one in order if one > len(sessions)]
    if beyond:
        told.append(f"the order names session {beyond[0]}, and there are {len(sessions)}")
    return told


def order_of(path: str) -> List[int]:
    """The numbers of a text's order line, or none."""
    try:
        line = lines_of(path)[1].rstrip("\r").split(" ")
        return [int(word) for word in line[1:]] if line[0] == "order" else []
    except (IndexError, ValueError, Trouble):
        return []
