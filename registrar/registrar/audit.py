"""`audit`: whom each student envies, as the program tells it, and the sums in words."""

from __future__ import annotations

import argparse
from dataclasses import dataclass
from typing import Dict, List, Sequence, Tuple

from registrar import check, explain, manifest, program, run_market, tables, tell, work_log

NAME = "audit"
HELP = "tell whom each student envies, by the manifest"


@dataclass(frozen=True)
class Envy:
    """The part `settled` or `final` of an audit: each student's three numbers, and the sums."""

    students: Dict[str, Tuple[int, int, int]]
    total: Tuple[int, int, int]


def add_arguments(parser: argparse.ArgumentParser) -> None:
    """The options of `audit`."""
    manifest.add_argument(parser)
    parser.add_argument("--out", metavar="FILE", help="write the program's lines to this file; the sums alone are told")
    run_market.add_workers(parser)


def writes(arguments: argparse.Namespace) -> List[str]:
    """The folder of the manifest and that of the program's lines, if these are written."""
    return work_log.folders(arguments.manifest, work_log.folder_of(arguments.out)) if arguments.out else []


def run(arguments: argparse.Namespace) -> int:
    """Calls the program, and tells its lines and the sums."""
    found = manifest.read(arguments.manifest, text_too=False, trial_too=True)
    if arguments.out:
        tables.refuse_over([arguments.out], manifest.files_read(found))
    answer = program.call(manifest.audit_words(found, str(arguments.workers)), tell.Life("auditing"))
    if answer.status:
        tell.say(answer.text.rstrip("\n"))
        explain.tell_refusal(found, answer)
        return answer.status
    if arguments.out:
        tables.write_whole(arguments.out, answer.output)
    else:
        tell.say(answer.text.rstrip("\n"))
        tell.say()
    for line in in_words(read_audit(answer.lines)):
        tell.say(line)
    check.tell_changed(found)
    return 0


def read_audit(lines: Sequence[str]) -> Dict[str, Envy]:
    """The parts of an audit."""
    rows: Dict[str, List[Tuple[str, Tuple[int, int, int]]]] = {"settled": [], "final": []}
    for line in lines:
        words = line.split(" ")
        if words[0] in rows:
            rows[words[0]].append((words[1], (int(words[2]), int(words[3]), int(words[4]))))
    # The last row of a part is its sum, whatever names the students have.
    return {part: Envy(dict(found[:-1]), found[-1][1]) for part, found in rows.items()}


def in_words(parts: Dict[str, Envy]) -> List[str]:
    """The sums of an audit in words."""
    told = []
    for part, name in (("settled", "In the second stage"), ("final", "In the end")):
        envy = parts[part]
        envious = sum(1 for one in envy.students.values() if one[0] + one[1])
        lower, higher, beyond = envy.total
        told.append(
            f"{name} {tell.count(envious, 'student envies', 'students envy')} somebody: {higher} times somebody of a greater budget, "
            f"{lower} times one of a budget no greater; {beyond} times it takes more than one section to explain it."
        )
    return told
