"""What stops `run` before it runs: what looks like an oversight, or makes the end depend on the order of the sessions.

The findings are those of `look`. Each kind can be allowed.
"""

from __future__ import annotations

import argparse
from collections import Counter
from typing import List

from registrar import look, program, tables, tell

#: The kinds that stop a run.
STOPPING = ("export", "empty", "twice", "few-wishes", "two-sessions", "close")

#: The kinds by which two runs of the same files may differ, where there are several sessions.
OF_ORDER = ("two-sessions", "close")

#: So many findings of a kind are shown; `look` tells all.
SHOWN = 5


def add_argument(parser: argparse.ArgumentParser) -> None:
    """The option that lets a kind pass."""
    kinds = "; ".join(f"{kind}: {look.KINDS[kind]}" for kind in STOPPING)
    parser.add_argument(
        "--allow", action="append", default=[], choices=STOPPING, metavar="KIND",
        help=f"run in spite of this; may come again. {kinds}",
    )


def found_in(arguments: argparse.Namespace) -> List[look.Finding]:
    """What stops a run of these files.

    Nothing where the program refuses them or does not answer each command: the run itself says why.
    """
    words = ["prefer", arguments.catalogue, arguments.roll, *arguments.sessions]
    answer = program.call(words, tell.Life("looking at the commands"))
    if answer.status:
        return []
    is_one = len(arguments.sessions) == 1
    seen = look.read(arguments, answer.lines)
    if len(seen.entries) != sum(map(len, tables.read_sessions(arguments.sessions))):
        return []
    found = look.findings(seen)
    return [one for one in found if one.kind in STOPPING and not (is_one and one.kind in OF_ORDER)]


def stop(arguments: argparse.Namespace) -> int:
    """The status with which `run` ends before it runs, all that stops it being told; 0 where nothing stops it."""
    found = found_in(arguments)
    stopping = [one for one in found if one.kind not in arguments.allow]
    counts = Counter(one.kind for one in found)
    told: Counter[str] = Counter()
    for one in stopping:
        told[one.kind] += 1
        if told[one.kind] <= SHOWN:
            tell.warn(one.line)
    for kind in STOPPING:
        if counts[kind]:
            allowed = " (allowed)" if kind in arguments.allow else ""
            left = counts[kind] - SHOWN
            more = f"; {left} more than these: `registrar look` tells them" if told[kind] > SHOWN else ""
            tell.warn(f"{counts[kind]} {kind}{allowed}: {look.KINDS[kind]}{more}")
    if not stopping:
        return 0
    words = " ".join(f"--allow {kind}" for kind in STOPPING if kind in told)
    tell.warn(f"nothing is run, and {arguments.text} is what it was. Correct the sessions, or say {words}")
    return tell.FAULTS


def why_not_again(arguments: argparse.Namespace) -> List[str]:
    """Why a run of the same files may give another market, where it may."""
    counts = Counter(one.kind for one in found_in(arguments))
    if not any(counts[kind] for kind in OF_ORDER):
        return []
    why = []
    if counts["two-sessions"]:
        why.append(f"{tell.count(counts['two-sessions'], 'student is', 'students are')} named in two sessions")
    if counts["close"]:
        why.append("a session has a `close`")
    return [
        f"these rows may not come again: {' and '.join(why)}, and each run hears the sessions in an order of its own. "
        "One session with all commands has one order."
    ]
