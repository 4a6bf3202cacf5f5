"""`check`: whether the published text of a manifest holds, and where the first thing stands that does not."""

from __future__ import annotations

import argparse
import itertools
import os
import tempfile
from dataclasses import replace
from typing import Dict, Iterator, List, Optional, Sequence, Tuple

from registrar import findings, manifest, program, tables, tell

NAME = "check"
HELP = "check the published text by its manifest; a finding is told with its place"

# No more orders of the sessions than this are tried, and those only for the findings that the sessions bear upon.
TRIES = 24
OF_SESSIONS = ("journal", "student", "turn", "not", "final")


def add_arguments(parser: argparse.ArgumentParser) -> None:
    """The options of `check`."""
    manifest.add_argument(parser)
    parser.add_argument(
        "files", nargs="*", metavar="FILE", help="CATALOGUE ROLL SETTINGS TEXT SESSION.., for a text without a manifest"
    )


def run(arguments: argparse.Namespace) -> int:
    """Calls the program, tells its answer, and what is known of a finding."""
    found = manifest.of_files(arguments.files) if arguments.files else manifest.read(arguments.manifest, text_too=False, trial_too=True)
    answer = program.call(manifest.check_words(found), tell.Life("checking"))
    tell.say(answer.text.rstrip("\n"))
    if answer.status == 0:
        tell_changed(found)
        tell_error(found)
    elif answer.status == 8:
        for line in about(found, answer.lines[-1]):
            tell.say("  " + line)
    else:
        for line in program.retell(answer):
            tell.warn(line)
    return answer.status


def tell_changed(found: manifest.Manifest) -> None:
    """Says where the text that holds is not the one that the manifest's run wrote."""
    if found.path and not manifest.is_text_as_run(found):
        tell.warn(f"warning: {found.text} holds, but is not the text that the run of {found.path} wrote")


def tell_error(found: manifest.Manifest) -> None:
    """Says where the text's error passes the settings' `accept`: that is not part of the program's check."""
    error = error_of(found.text)
    accept = tables.read_settings(found.settings)["accept"]
    if error is not None and isinstance(accept, int) and error > accept:
        tell.warn(
            f"warning: the text's error is {error}, more than the settings' accept of {accept}: "
            "the search with these settings does not end there (`registrar again` compares)"
        )


def error_of(path: str) -> Optional[int]:
    """The number of a text's error line."""
    for line in findings.lines_of(path):
        if line.startswith("error ") and line[6:].isdigit():
            return int(line[6:])
    return None


def about(found: manifest.Manifest, finding: str) -> List[str]:
    """The place of a finding, and what may have brought it about."""
    told = findings.explain_finding(finding, found.text)
    if finding.startswith("finding: line"):
        told += findings.names_that_differ(found.text, *names_of(found))
        told += repaired(found)
    elif finding.startswith("finding: journal"):
        told += findings.entries_that_differ(findings.order_of(found.text), found.sessions)
    if finding.split(" ")[1] in OF_SESSIONS:
        told += swapped(found)
    return told


def names_of(found: manifest.Manifest) -> Tuple[List[str], List[str]]:
    """The students and the sections."""
    return [one.name for one in tables.read_roll(found.roll)], [one.code for one in tables.read_catalogue(found.catalogue)]


def repaired(found: manifest.Manifest) -> List[str]:
    """What the check says of the text without carriage returns and without a byte order mark, if it has any."""
    raw = tables.read_bytes(found.text)
    plain = raw[3:] if raw.startswith(b"\xef\xbb\xbf") else raw
    plain = plain.replace(b"\r\n", b"\n")
    if plain == raw:
        return []
    with tempfile.TemporaryDirectory() as folder:
        path = os.path.join(folder, "text")
        tables.write_whole(path, plain)
        answer = program.call(manifest.check_words(replace(found, text=path)), tell.Life("checking without CR"))
    return [f"with LF line ends and without a byte order mark the check says: {answer.lines[-1]}"]


def swapped(found: manifest.Manifest) -> List[str]:
    """The order of the sessions with which the text holds, if it is another one."""
    for sessions in itertools.islice(orders(found), TRIES):
        answer = program.call(manifest.check_words(replace(found, sessions=sessions)), tell.Life("trying the sessions swapped"))
        if answer.status == 0:
            pairs = [f"{now} and {then}" for now, then in zip(found.sessions, sessions) if now < then]
            return [f"with {', and '.join(pairs)} in each other's place the check says: accepted"] + [
                f"the sessions in their order: {' '.join(sessions)}"
            ]
    return []


def orders(found: manifest.Manifest) -> Iterator[Tuple[str, ...]]:
    """Other orders of the sessions in which each has as many commands as the text's order has entries of it."""
    order = findings.order_of(found.text)
    counts = {path: len(tables.read_session(path)) for path in found.sessions}
    wanted = [sum(1 for one in order if one == number) for number in range(1, len(found.sessions) + 1)]
    if not order or sorted(counts.values()) != sorted(wanted):
        return
    for sessions in candidates(found.sessions, counts, wanted):
        if sessions != found.sessions:
            yield sessions


def candidates(left: Sequence[str], counts: Dict[str, int], wanted: Sequence[int]) -> Iterator[Tuple[str, ...]]:
    """The orders of these sessions whose counts are the wanted ones."""
    if not left:
        yield ()
        return
    for place, path in enumerate(left):
        if counts[path] == wanted[0]:
            for rest in candidates([*left[:place], *left[place + 1 :]], counts, wanted[1:]):
                yield (path, *rest)
