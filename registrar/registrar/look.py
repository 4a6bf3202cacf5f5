"""`look`: what is wrong or strange in catalogue, roll and sessions, before a market is run with them.

The program says nothing of commands that have no effect; its form `prefer` prints the desk's reply to each. These replies are
told with the file and line of each command, and beside them what replies do not show.
"""

from __future__ import annotations

import argparse
import os
import sys
from collections import Counter
from dataclasses import dataclass, field
from typing import Iterable, Sequence

from registrar import limits, own_names, program, table_faults, tables, tell
from registrar.faults import Faults, shown
from registrar.spelling import Meant

NAME = "look"
HELP = "look at catalogue, roll and sessions before a run: commands without effect, students without wishes, and more"

#: The kinds of findings, and what each is.
KINDS = {
    "export": "a session that is an export: most of its lines are no commands",
    "empty": "a session without commands",
    "unreadable": "a line that is no command",
    "no-section": "a section that is not in the catalogue",
    "no-student": "a student who is not on the roll",
    "closed": "a command that comes behind a `close`",
    "same-pair": "a pair of a section with itself",
    "out-of-range": f"a rating that is not from 0 to {limits.MAX_RATING}, an adjustment that is not from -{limits.MAX_ADJUSTMENT}"
    f" to {limits.MAX_ADJUSTMENT}",
    "too-many": f"more than {limits.MAX_RATINGS} rated sections or {limits.MAX_PAIRS} pairs of a student",
    "close": "a `close`: nobody can say anything behind it, in whatever session",
    "twice": "a file that is given twice, or two files with the same content",
    "two-sessions": "a student who is named in two sessions: the end may depend on who is heard first",
    "no-wishes": "a student without wishes",
    "few-wishes": "half of the roll or more without wishes: a session may be missing",
    "unwanted": "a section that nobody wants",
}

#: From so many sections on the table of seats and wishes is cut, unless `--all` is said.
SHOWN = 10


@dataclass(frozen=True)
class Finding:
    """A finding: its kind, and what is told of it."""

    kind: str
    line: str


@dataclass(frozen=True)
class Entry:
    """A command of a session with the desk's reply."""

    command: tables.Command
    reply: str


@dataclass
class Seen:
    """What was read: tables, commands with replies, and who rates what in the end."""

    sections: list[tables.Section]
    students: list[tables.Student]
    paths: list[str]
    entries: list[Entry]
    ratings: dict[str, dict[str, int]] = field(default_factory=dict)

    def of_session(self, number: int) -> list[Entry]:
        """The entries of a session, in its order."""
        return [entry for entry in self.entries if entry.command.session == number]


def add_arguments(parser: argparse.ArgumentParser) -> None:
    """The options of `look`."""
    kinds = "; ".join(f"{kind}: {what}" for kind, what in KINDS.items())
    parser.description = f"{HELP}. It ends with 0 where nothing is found that is not allowed, else with 65. The kinds: {kinds}."
    parser.add_argument("catalogue", metavar="CATALOGUE")
    parser.add_argument("roll", metavar="ROLL")
    parser.add_argument("sessions", nargs="+", metavar="SESSION")
    parser.add_argument(
        "--allow",
        action="append",
        default=[],
        choices=list(KINDS),
        metavar="KIND",
        help="a kind that does not count; may come again",
    )
    parser.add_argument("--all", action="store_true", help="show seats and wishes of all sections")


def run(arguments: argparse.Namespace) -> int:
    """Looks, and tells what is found."""
    faults = Faults()
    table_faults.add_faults("catalogue", arguments.catalogue, faults)
    table_faults.add_faults("roll", arguments.roll, faults)
    if faults:
        faults.tell(sys.stdout)
        return tell.FAULTS
    words = ["prefer", arguments.catalogue, arguments.roll, *arguments.sessions]
    answer = program.call(words, tell.Life("looking"))
    if answer.status:
        for line in program.retell(answer):
            tell.warn(line)
        return answer.status
    seen = read(arguments, answer.lines)
    found = findings(seen)
    for finding in found:
        tell.say(finding.line)
    for line in seats(seen, arguments.all):
        tell.say(line)
    return conclude(found, set(arguments.allow))


def conclude(found: Sequence[Finding], allowed: set[str]) -> int:
    """Tells how many findings there are of each kind, and answers the status."""
    counts = Counter(finding.kind for finding in found)
    if not found:
        tell.say("nothing is found")
        return 0
    for kind, words in KINDS.items():
        if counts[kind]:
            tell.say(f"{counts[kind]} {kind}{' (allowed)' if kind in allowed else ''}: {words}")
    return tell.FAULTS if set(counts) - allowed else 0


def read(arguments: argparse.Namespace, lines: Sequence[str]) -> Seen:
    """What the program printed, put to the lines of the sessions: entry by entry, each session in its own order."""
    commands = tables.read_sessions(arguments.sessions)
    next_of = [0] * len(commands)
    seen = Seen(tables.read_catalogue(arguments.catalogue), tables.read_roll(arguments.roll), list(arguments.sessions), [])
    for line in lines:
        words = line.split(" ")
        if words[0] == "entry":
            session = int(words[1]) - 1
            if next_of[session] == len(commands[session]):
                raise tell.Trouble(f"{arguments.sessions[session]} has changed while it was looked at: look again")
            seen.entries.append(Entry(commands[session][next_of[session]], words[2]))
            next_of[session] += 1
        elif words[0] == "rate":
            seen.ratings.setdefault(words[1], {})[words[2]] = int(words[3])
    return seen


def findings(seen: Seen) -> list[Finding]:
    """All findings: session by session, and then those on all together."""
    found: list[Finding] = []
    for number, path in enumerate(seen.paths, 1):
        found += of_session(seen, number, path)
    found += given_twice(seen.paths)
    found += in_two_sessions(seen)
    own = own_names.beside(seen.sections[0].file) if seen.sections else {}
    for student in seen.students:
        if not seen.ratings.get(student.name):
            shown = own_names.shown(own, "student", student.name)
            found.append(Finding("no-wishes", f"{student.file}:{student.line}: no-wishes: {shown}"))
    silent = sum(not seen.ratings.get(student.name) for student in seen.students)
    if seen.students and silent * 2 >= len(seen.students):
        found.append(Finding("few-wishes", f"few-wishes: {silent} of {len(seen.students)} students have no wishes"))
    wanted = {section for ratings in seen.ratings.values() for section in ratings}
    for section in seen.sections:
        if section.code not in wanted:
            found.append(Finding("unwanted", f"{section.file}:{section.line}: unwanted: {section.code}"))
    return found


def of_session(seen: Seen, number: int, path: str) -> list[Finding]:
    """The findings on one session."""
    entries = seen.of_session(number)
    if not entries:
        return [Finding("empty", f"{path}: empty: it has no commands")]
    unread = [entry for entry in entries if entry.reply == "unreadable"]
    found: list[Finding] = []
    is_export = len(unread) * 2 > len(entries)
    if is_export:
        first = unread[0].command
        found.append(
            Finding(
                "export",
                f"{path}: export: {len(unread)} of its {len(entries)} lines are no commands (line {first.line}: {shown(first.text)}). "
                "It is no session: `registrar import` makes one of a survey's export",
            )
        )
    sections, students = Meant(one.code for one in seen.sections), Meant(one.name for one in seen.students)
    for entry in entries:
        command = entry.command
        if entry.reply != "done" and not (is_export and entry.reply == "unreadable"):
            hint = hint_of(entry, sections, students)
            found.append(Finding(entry.reply, f"{path}:{command.line}: {entry.reply}: {plain(command)}{hint}"))
        if command.kind == "close":
            found.append(Finding("close", f"{path}:{command.line}: close: what any session says behind it does not count"))
    return found


def plain(command: tables.Command) -> str:
    """A command as it is told: as it stands, or in quotes and cut where it is none."""
    return shown(command.text) if command.kind == "unreadable" else command.text


def hint_of(entry: Entry, sections: Meant, students: Meant) -> str:
    """The name that was likely meant, where a name is nobody's."""
    words = entry.command.words
    if entry.reply == "no-student":
        return students.hint(words[1])
    if entry.reply == "no-section":
        known = set(sections.known)
        return "".join(sections.hint(word) for word in words[2:-1] if word not in known)
    return ""


def given_twice(paths: Sequence[str]) -> list[Finding]:
    """Files that are given twice, or have the same content."""
    found: list[Finding] = []
    first: dict[str, str] = {}
    for path in paths:
        total = program.sha256(path)
        if total in first and os.path.getsize(path):
            same = "it is given twice" if os.path.samefile(path, first[total]) else f"it has the content of {first[total]}"
            found.append(Finding("twice", f"{path}: twice: {same}"))
        first.setdefault(total, path)
    return found


def in_two_sessions(seen: Seen) -> list[Finding]:
    """Students of the roll who are named in two sessions."""
    named: dict[str, dict[str, int]] = {student.name: {} for student in seen.students}
    for entry in sorted(seen.entries, key=lambda one: (one.command.session, one.command.line)):
        student = entry.command.student
        if student in named:
            named[student].setdefault(seen.paths[entry.command.session - 1], entry.command.line)
    found: list[Finding] = []
    for student, places in named.items():
        if len(places) > 1:
            told = ", ".join(f"{path}:{line}" for path, line in places.items())
            found.append(Finding("two-sessions", f"{told}: two-sessions: {student}"))
    return found


def seats(seen: Seen, everything: bool) -> Iterable[str]:
    """A table of seats against wishes: the sections that the most students want for each seat first."""
    wishes = Counter(section for ratings in seen.ratings.values() for section in ratings)
    total = sum(section.seats for section in seen.sections)
    yield ""
    yield (
        f"{tell.count(total, 'seat', 'seats')} in {tell.count(len(seen.sections), 'section', 'sections')}; "
        f"{tell.count(sum(wishes.values()), 'rated section', 'rated sections')} of {tell.count(len(seen.ratings), 'student', 'students')}; "
        f"the caps allow {sum(student.courses for student in seen.students)} seats"
    )
    ordered = sorted(seen.sections, key=lambda one: -wishes[one.code] / max(one.seats, 0.5))
    rows = [[one.code, one.seats, wishes[one.code]] for one in (ordered if everything else ordered[:SHOWN])]
    yield from tell.table(["section", "seats", "wanted by"], rows)
    if len(rows) < len(ordered):
        yield f"and {len(ordered) - len(rows)} more (`--all`)"
    yield ""
