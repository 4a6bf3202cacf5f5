"""`next`: the roll of the next term, with the tokens that are carried over.

The rule is that of the guide ("What is carried over"): the student's budget less the prices of what it holds in the
end, and 0 where these come to more. What it holds in the end is what it holds after `hall`, where there was one.
"""

from __future__ import annotations

import argparse
import os
import sys
from dataclasses import dataclass

from registrar import after_hall, limits, manifest, own_names, published, ranges, tables, tell, work_log
from registrar.faults import Faults
from registrar.import_exports import write_all

NAME = "next"
HELP = "make the roll of the next term, with the tokens that are carried over"


def add_arguments(parser: argparse.ArgumentParser) -> None:
    """The options of `next`."""
    parser.description = (
        f"{HELP}. "
        "The rule: what is carried over is the student's budget less the prices of what it holds in the end, after "
        "`registrar hall` where there was one, and 0 where these come to more. The text is not judged: `registrar check` does that."
    )
    manifest.add_argument(parser)
    parser.add_argument(
        "--roll", metavar="ROLL", help="the roll of the text, where no manifest is at hand; together with --text"
    )
    parser.add_argument("--text", metavar="TEXT", help="the published text, where no manifest is at hand")
    parser.add_argument(
        "--students",
        metavar="ROLL",
        help="who is there in the next term, with new bases and caps (default: the roll of the text)",
    )
    parser.add_argument(
        "--most", type=ranges.whole(0, limits.MAX_BASE), default=limits.MAX_BASE, metavar="N",
        help="nobody carries over more than so many tokens",
    )
    parser.add_argument(
        "--into", default="roll.next.csv", metavar="FILE", help="the roll that is written (default: roll.next.csv)"
    )
    parser.add_argument(
        "--hall", metavar="FILE", help="the hall.requests of the hall (default: those of the last `registrar hall`)"
    )
    parser.add_argument("--no-hall", action="store_true", help="what the published text says, though there was a hall")
    parser.add_argument("--replace", action="store_true", help="write over a file that stands there and differs")


def writes(arguments: argparse.Namespace) -> list[str]:
    """The folder of the manifest, or of the text that is named without one, and that of the new roll."""
    return work_log.folders(arguments.text or arguments.manifest, os.path.dirname(arguments.into) or ".")


@dataclass(frozen=True)
class Carried:
    """What the students of a text carry over, and who of them is not there in the next term."""

    rows: list[list[object]]
    brings: int
    tokens: int
    gone: list[str]
    new: int


@dataclass(frozen=True)
class Term:
    """The text of a term, what each student holds in the end, and what was told of a hall."""

    text: published.Published
    held: dict[str, tuple[str, ...]]
    notes: list[str]

    def left_over(self, student: str) -> int:
        """The student's budget less the prices of what it holds, and 0 where these come to more."""
        return max(0, self.text.budgets[student] - self.text.cost(self.held[student]))


def run(arguments: argparse.Namespace) -> int:
    """Writes the roll of the next term."""
    if bool(arguments.roll) != bool(arguments.text):
        raise tell.Trouble("--roll and --text go together", tell.USAGE)
    found = None
    if not arguments.text:
        found = manifest.read(arguments.manifest, catalogue_too=False)
        arguments.roll, arguments.text = found.roll, found.text
        tables.refuse_over([arguments.into], manifest.files_read(found))
    tables.refuse_over([arguments.into], [(what, path) for what, path in read_by(arguments) if path])
    faults = Faults()
    text = published.read_published(arguments.text)
    compare(arguments, text, faults)
    students = tables.read_roll(arguments.students or arguments.roll)
    term = term_of(text, arguments, found)
    carried = carry_over(term, students, arguments, faults)
    if faults:
        faults.tell(sys.stdout)
        tell.say("nothing is written")
        return tell.FAULTS
    content = tables.csv_text([["student", "budget", "credits", "courses", "carry"], *carried.rows]).encode()
    folder, name = os.path.split(arguments.into)
    write_all(folder or ".", {name: content}, arguments.replace)
    tell.say(f"{arguments.into}: {tell.count(len(students), 'student', 'students')}")
    for line in term.notes:
        tell.say(line)
    tell.say(f"{tell.count(carried.brings, 'brings', 'bring')} tokens, {carried.tokens} together")
    if carried.new:
        tell.say(
            f"{carried.new} {'is' if carried.new == 1 else 'are'} new and {'brings' if carried.new == 1 else 'bring'} none"
        )
    own = own_names.beside(arguments.text)
    for student in carried.gone:
        name = own_names.spelt(own, "student", student)
        tell.say(f"not on the new roll: {name}, with {term.left_over(student)} tokens left")
    return 0


def read_by(arguments: argparse.Namespace) -> list[tuple[str, str]]:
    """What each file is that the words name, and its path."""
    given = [("roll", arguments.roll), ("published text", arguments.text), ("file of requests", arguments.hall)]
    return [*given, ("roll of the next term", arguments.students)]


def term_of(text: published.Published, arguments: argparse.Namespace, found: manifest.Manifest | None) -> Term:
    """What each student holds in the end: after the hall where there was one, else by the published text."""
    finals = {name: final.sections for name, final in text.finals.items()}
    if found is None or arguments.no_hall:
        if arguments.hall:
            words = "--hall needs a manifest, which names the catalogue, and goes not with --no-hall"
            raise tell.Trouble(words, tell.USAGE)
        return Term(text, finals, [])
    requests = arguments.hall or after_hall.requests_of(found)
    if requests is None:
        return Term(text, finals, [])
    tables.refuse_over([arguments.into], [("file of requests", requests)])
    held = after_hall.held(found, requests)
    changed = sum(held[name] != finals[name] for name in finals)
    words = tell.count(changed, "student holds", "students hold")
    return Term(text, held, [f"after {requests}: {words} other sections than the published text says"])


def compare(arguments: argparse.Namespace, text: published.Published, faults: Faults) -> None:
    """Adds where the roll is not the one of the text."""
    names = [student.name for student in tables.read_roll(arguments.roll)]
    for row, (name, budgeted) in enumerate(zip(names, text.budgets), 2):
        if name != budgeted:
            faults.add(
                os.path.basename(arguments.roll),
                row,
                "student",
                name,
                f"{budgeted}, as the published text has it; it is of another roll",
            )
            return
    if len(names) != len(text.budgets):
        expected = f"{len(text.budgets)} students, as the published text has; it is of another roll"
        faults.add(os.path.basename(arguments.roll), None, "", f"{len(names)} students", expected)


def carry_over(
    term: Term, students: list[tables.Student], arguments: argparse.Namespace, faults: Faults
) -> Carried:
    """The rows of the next roll. A row whose base and carry come to more than a student may have is a fault."""
    rows: list[list[object]] = []
    brings = tokens = new = 0
    for one in students:
        if arguments.students and one.carry:
            expected = "0: what is carried over comes from the published text"
            faults.add(os.path.basename(one.file), one.row, "carry", str(one.carry), expected)
        left = min(arguments.most, term.left_over(one.name)) if one.name in term.held else 0
        new += one.name not in term.held
        if one.budget + left > limits.MAX_BASE:
            expected = f"at most {limits.MAX_BASE - left}, since {left} tokens are carried over; `--most` states how many may be"
            faults.add(os.path.basename(one.file), one.row, "budget", str(one.budget), expected)
        brings += left > 0
        tokens += left
        rows.append([one.name, one.budget, one.credits, one.courses, left])
    there = {one.name for one in students}
    gone = [name for name in term.held if name not in there]
    return Carried(rows, brings, tokens, gone, new)
