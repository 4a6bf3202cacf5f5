"""`explain`: why a student has no seat in a section, in the second stage and at its turns, with words for the student."""

from __future__ import annotations

import argparse
import tempfile
from typing import List, Tuple

from registrar import (
    aftermarket, alone, check, manifest, own_names, program, published, reasons, streams, tables, tell,
)

NAME = "explain"
HELP = "tell why a student has no seat in a section, by the manifest, with words for the student"


# The program's status for a name that is nobody's.
NO_NAME = 9


def add_arguments(parser: argparse.ArgumentParser) -> None:
    """The words of `explain`."""
    parser.set_defaults(takes_names=True)
    parser.add_argument("student", metavar="STUDENT", help="the student's name, or the school's own spelling of it in names.csv")
    parser.add_argument("section", metavar="SECTION", help="the section's name, or the school's own spelling of it")
    manifest.add_argument(parser)


def run(arguments: argparse.Namespace) -> int:
    """Calls the program, and tells its answer and what to say to the student."""
    found = manifest.read(arguments.manifest, text_too=False, trial_too=True)
    student, section = meant(found, arguments.student, arguments.section)
    answer = program.call(manifest.explain_words(found, student, section), tell.Life("explaining"))
    tell.say(answer.text.rstrip("\n"))
    if answer.status == 0:
        tell.say()
        for line in in_words(found, reasons.read_reason(answer.lines)):
            tell.say(line)
        check.tell_changed(found)
    else:
        tell_refusal(found, answer)
    return answer.status


def in_words(found: manifest.Manifest, reason: reasons.Reason) -> List[str]:
    """The answer of the second stage in words, and behind it what was at the student's turns of the aftermarket."""
    market = market_of(found)
    after = aftermarket.read(market, found.settings)
    rated = [reason.section] if reason.words[0] != "unrated" else []
    with tempfile.TemporaryDirectory() as folder:
        room = alone.room(folder, market, streams.in_order(market.text.order, found.sessions))
        later = aftermarket.in_words(after, reason, aftermarket.ask(after, room, reason.student, rated))
    if later and after.was_full(reason.student, reason.section):
        later += f" {aftermarket.order_in_words(after, reason.student)}"
    return [*reasons.in_all_words(market, reason), *[later] * bool(later)]


def meant(found: manifest.Manifest, student: str, section: str) -> Tuple[str, str]:
    """The names of a student and of a section that are given in the program's spelling or in the school's own.

    Where one is nobody's, that is a refusal with the program's own status, and names whoever may have been meant.
    """
    own = own_names.beside(found.catalogue)
    tables_of = (
        ("student", student, "student of the roll", [one.name for one in tables.read_roll(found.roll)]),
        ("section", section, "section of the catalogue", [one.code for one in tables.read_catalogue(found.catalogue)]),
    )
    names = []
    for kind, word, whose, known in tables_of:
        names.append(own_names.meant(own, kind, word))
        if names[-1] not in known:
            hint = own_names.nearest(own, kind, word, known)
            raise tell.Trouble(f"No {whose} has the name '{word}'. Capital letters count{hint or '.'}", NO_NAME)
    return names[0], names[1]


def market_of(found: manifest.Manifest) -> reasons.Market:
    """The market of a manifest."""
    text = published.read_published(found.text)
    return reasons.market_of(text, found.catalogue, found.roll, streams.in_order(text.order, found.sessions))


def tell_refusal(found: manifest.Manifest, answer: program.Answer) -> None:
    """Tells a status other than 0; a finding with its place."""
    for line in check.about(found, answer.lines[-1]) if answer.status == 8 else program.retell(answer):
        tell.warn(line)
