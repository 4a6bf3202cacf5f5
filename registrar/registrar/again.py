"""`again`: runs once more in the text's own order and compares every byte but the order line.

So a reader sees that the prices came from the search with these settings, which `check` does not judge.
"""

from __future__ import annotations

import argparse
import os
import tempfile
from typing import List, Optional, Tuple

from registrar import check, findings, manifest, program, published, run_market, streams, tables, tell

NAME = "again"
HELP = "run once more from the manifest, in the text's own order, and compare every byte but the order line"


def add_arguments(parser: argparse.ArgumentParser) -> None:
    """The options of `again`."""
    manifest.add_argument(parser)
    run_market.add_workers(parser)


def run(arguments: argparse.Namespace) -> int:
    """Runs once more and compares."""
    found = manifest.read(arguments.manifest, text_too=False, trial_too=True)
    text = published.read_published(found.text)
    check.tell_changed(found)
    check.tell_error(found)
    with tempfile.TemporaryDirectory() as folder:
        stream = os.path.join(folder, "all.session")
        tables.write_whole(stream, streams.as_session(streams.in_order(text.order, found.sessions)))
        words = ["run", str(arguments.workers), found.catalogue, found.roll, found.settings, stream]
        life = tell.Life("running once more", [found.elapsed])
        answer = program.call(words, life)
    if answer.status:
        for line in program.retell(answer):
            tell.warn(line)
        return answer.status
    return compare(found, answer)


def compare(found: manifest.Manifest, answer: program.Answer) -> int:
    """Tells whether both texts are the same but for the order line, or the first line on which they differ."""
    difference = first_difference(tables.read_bytes(found.text), answer.output)
    if difference is None:
        tell.say(f"the same, byte for byte, but for the order line: a run of these files gives {found.text}")
        return 0
    line, there, now = difference
    tell.say(f"{found.text}, line {line}: {there[: findings.SHOWN]}")
    tell.say(f"the run gives      line {line}: {now[: findings.SHOWN]}")
    tell.say("the text is not what a run of these files gives; `registrar check` says whether it holds all the same")
    return tell.FAULTS


def first_difference(there: bytes, now: bytes) -> Optional[Tuple[int, str, str]]:
    """The first line, but the second, on which the texts differ."""
    one, other = lines_of(there), lines_of(now)
    for number in range(1, max(len(one), len(other)) + 1):
        a = one[number - 1] if number <= len(one) else b""
        b = other[number - 1] if number <= len(other) else b""
        if number != 2 and (a != b or (number <= len(one)) != (number <= len(other))):
            return number, a.decode("utf-8", "replace"), b.decode("utf-8", "replace")
    return None


def lines_of(text: bytes) -> List[bytes]:
    """The lines between line feeds; behind the last one an empty line."""
    return text.split(b"\n")
