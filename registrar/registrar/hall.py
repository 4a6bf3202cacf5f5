"""`hall`: drop and add after publication, from the exports of a form to the rosters that stand then."""

from __future__ import annotations

import argparse
import functools
import os
import sys
from collections import Counter
from typing import Optional, Sequence

from registrar import forms, hall_desk, manifest, own_names, program, register, swaps, tables, tell, work_log
from registrar.faults import Faults, shown
from registrar.import_exports import write_all
from registrar.spelling import Meant

NAME = "hall"
HELP = "drop and add after publication: requests of a form to a stream, and the rosters after the hall"

#: The kinds of what keeps the hall from its work, or is left out, unless it is allowed.
KINDS = {
    "unreadable": "a line that is no request",
    "no-student": "a student who is not on the roll",
    "no-section": "a section that is not in the catalogue",
    "lost-seat": "a swap that gives a seat up for one that is not free: it is left out",
    "catalogue": "a catalogue in which more than seats changed since the run",
}

#: The replies to requests that say nothing to the desk.
LOST = ("unreadable", "no-student", "no-section")


def add_arguments(parser: argparse.ArgumentParser) -> None:
    """The options of `hall`."""
    parser.description = (
        f"{HELP}. "
        "The requests of all [requests NAME] of the mapping make one stream, in the order of the mapping and of the rows, "
        "so that the replies are the same each time. Written are hall.requests, hall.txt (what the program printed), and "
        "as tables "
        "hall-replies.csv, hall-rosters.csv, hall-students.csv and hall-waiting.csv. The kinds of --allow: "
        + "; ".join(f"{kind}: {what}" for kind, what in KINDS.items()) + "."
    )
    manifest.add_argument(parser)
    parser.add_argument(
        "requests", nargs="*", metavar="REQUESTS", help="streams in the program's own form, in place of a mapping's"
    )
    parser.add_argument("--mapping", default="mapping.ini", metavar="FILE", help="the mapping (default: mapping.ini)")
    parser.add_argument("--into", metavar="FOLDER", help="where the files are written (default: the mapping's folder)")
    parser.add_argument("--replace", action="store_true", help="write over files that stand there and differ")
    parser.add_argument(
        "--allow", action="append", default=[], choices=list(KINDS), metavar="KIND",
        help="a kind that is taken all the same; may come again",
    )


def writes(arguments: argparse.Namespace) -> list[str]:
    """The folder of the manifest and that of the lists after the hall."""
    return work_log.folders(arguments.manifest, into(arguments))


def into(arguments: argparse.Namespace) -> str:
    """The folder in which the files are written."""
    return arguments.into or os.path.dirname(arguments.mapping) or "."


def run(arguments: argparse.Namespace) -> int:
    """Makes the stream, asks the program, and writes what it answers."""
    found = manifest.read(arguments.manifest, catalogue_too=False)
    if not hall_desk.is_catalogue_of_run(found):
        status = take_other_catalogue(found, "catalogue" in arguments.allow)
        if status:
            return status
    faults = Faults()
    asked = gathered(arguments, found, faults)
    if faults:
        faults.tell(sys.stdout)
        tell.say(f"nothing is written; correct the exports, or {arguments.mapping}, and run again")
        return faults.status
    answer = hall_desk.ask(found, hall_desk.as_stream(asked))
    if answer.status:
        return tell_refusal(found, answer)
    if tell_lost(found, asked, hall_desk.replies_of(answer.lines), arguments.allow):
        return tell.FAULTS
    people = register.of_people(arguments.mapping, found.catalogue, found.roll, faults)
    register.refuse(faults, arguments.mapping)
    takes_all = "lost-seat" in arguments.allow
    settled = swaps.Settled(tuple(asked), answer, ()) if takes_all else swaps.settle(found, asked, answer)
    if settled.answer.status:
        return tell_refusal(found, settled.answer)
    return written(arguments, found, settled, people)


def gathered(arguments: argparse.Namespace, found: manifest.Manifest, faults: Faults) -> list[forms.Request]:
    """The requests of the streams that are named, or of the mapping's exports."""
    if arguments.requests:
        return [request for path in arguments.requests for request in forms.stream(path)]
    return forms.Gatherer(arguments.mapping, found, faults).requests()


def take_other_catalogue(found: manifest.Manifest, allowed: bool) -> int:
    """Takes a catalogue in which seats were changed since the run, and says which; answers the status of any other."""
    answer = hall_desk.ask(found, hall_desk.as_stream([]))
    if answer.status:
        return tell_refusal(found, answer)
    hall_desk.refuse_more_than_seats(found, allowed)
    for line in hall_desk.seats_changed(found):
        tell.say(line)
    return 0


def tell_refusal(found: manifest.Manifest, answer: program.Answer) -> int:
    """Tells why no desk opened, and answers the status."""
    for line in hall_desk.refusal(found, answer):
        tell.warn(line)
    return answer.status


def tell_lost(
    found: manifest.Manifest, asked: Sequence[forms.Request], replies: Sequence[str], allowed: Sequence[str]
) -> int:
    """Lists the requests that are none, or name nobody and nothing, and answers how many of these are not allowed."""
    names = {
        "no-student": Meant(one.name for one in tables.read_roll(found.roll)),
        "no-section": Meant(one.code for one in tables.read_catalogue(found.catalogue)),
    }
    lost = [(request, reply) for request, reply in zip(asked, replies) if reply in LOST]
    for request, reply in lost:
        word = request.words[1 if reply == "no-student" else 2] if reply in names else ""
        hint = names[reply].hint(word) if reply in names else ""
        line = shown(request.line) if reply == "unreadable" else request.line
        tell.say(f"{request.file}:{request.row}: {reply}: {line}{hint}")
    counts = Counter(reply for _, reply in lost)
    for kind, number in counts.items():
        tell.say(f"{number} {kind}{' (allowed)' if kind in allowed else ''}: {KINDS[kind]}")
    refused = sum(number for kind, number in counts.items() if kind not in allowed)
    if refused:
        tell.say("nothing is written; correct these requests, or allow their kind, and run again")
    return refused


def written(
    arguments: argparse.Namespace, found: manifest.Manifest, settled: swaps.Settled, people: Optional[register.Register]
) -> int:
    """Writes the stream, the program's answer and the tables, and tells what became of each request."""
    own = own_names.beside(found.catalogue)
    left_out = [swaps.in_words(swap, own, True) for swap in settled.left_out]
    if left_out:
        number = tell.count(len(left_out), "swap", "swaps")
        tell.say(f"{number} would lose a seat and get none (`--allow lost-seat` takes such swaps too):")
        for line in left_out:
            tell.say("  " + line)
    comments = "".join(f"# {one.line}, of a swap that is left out\n" for one in left_requests(settled))
    files = {
        "hall.requests": (hall_desk.as_stream(settled.asked) + comments).encode(),
        "hall.txt": settled.answer.output,
        **tables_of(settled, own, people),
    }
    folder = into(arguments)
    tables.refuse_over([os.path.join(folder, name) for name in files], manifest.files_read(found))
    write_all(folder, files, arguments.replace)
    tell_replies(settled, own)
    return 0


def tables_of(settled: swaps.Settled, own: own_names.Own, people: Optional[register.Register]) -> dict[str, bytes]:
    """The tables after the hall, in the school's own spelling: replies, rosters, what each student holds, who waits.

    With `people` each student's name and address stand behind its number.
    """
    section, student = (functools.partial(own_names.spelt, own, kind) for kind in ("section", "student"))
    rosters, holds, waits = [["section", "student"]], [["student", "sections"]], [["section", "place", "student"]]
    held: dict[str, list[str]] = {}
    for words in (line.split(" ") for line in settled.answer.lines):
        if words[0] == "final":
            sections = [one for one in words[2][1:-1].split(",") if one]
            holds.append([student(words[1]), "; ".join(section(one) for one in sections)])
            for one in sections:
                held.setdefault(one, []).append(words[1])
        elif words[0] == "wait":
            waits += [[section(words[1]), str(place), student(who)] for place, who in enumerate(words[2:], 1)]
        elif words[0] == "used":
            rosters += [[section(words[1]), student(who)] for who in held.get(words[1], [])]
    made = {"replies": reply_rows(settled, own), "rosters": rosters, "students": holds, "waiting": waits}
    return {f"hall-{name}.csv": tables.sheet_bytes(register.with_people(people, rows)) for name, rows in made.items()}


def left_requests(settled: swaps.Settled) -> list[forms.Request]:
    """The requests of the swaps that are left out."""
    return [one for swap in settled.left_out for one in (swap.drop, swap.add)]


def reply_rows(settled: swaps.Settled, own: own_names.Own) -> list[list[str]]:
    """A row for each request, also for those of swaps that are left out; those of a swap say what became of it."""
    outcomes = {swap.drop.place: swaps.outcome(swap, own) for swap in swaps.swaps_of(settled.asked, settled.replies)}
    outcomes.update((swap.drop.place, swaps.outcome(swap, own, True)) for swap in settled.left_out)
    replied = [*zip(settled.asked, settled.replies), *((one, "left out") for one in left_requests(settled))]
    rows = [["file", "row", "request", "student", "section", "reply", "swap"]]
    for request, reply in replied:
        word, who, what = request.words if len(request.words) == 3 else (" ".join(request.words), "", "")
        names = [own_names.spelt(own, "student", who), own_names.spelt(own, "section", what)]
        of_swap = outcomes.get(request.place, "") if request.is_swap else ""
        rows.append([request.file, str(request.row), word, *names, swaps.spelt(reply, own), of_swap])
    return rows


def tell_replies(settled: swaps.Settled, own: own_names.Own) -> None:
    """Tells each request with its place and reply, and each swap in one line."""
    outcomes = {swap.drop.place: swap for swap in swaps.swaps_of(settled.asked, settled.replies)}
    for request, reply in zip(settled.asked, settled.replies):
        if not request.is_swap:
            tell.say(f"{request.file} row {request.row}: {in_own_words(request, own)}: {swaps.spelt(reply, own)}")
        elif request.place in outcomes:
            tell.say(swaps.in_words(outcomes.pop(request.place), own))
    done = sum(reply.split(" ")[0] in hall_desk.DONE for reply in settled.replies)
    left = len(left_requests(settled))
    out = f", {left} left out with their swaps" if left else ""
    number = tell.count(len(settled.asked) + left, "request", "requests")
    tell.say(f"{number}, {done} carried out{out}; the lists after them are in hall-*.csv")


def in_own_words(request: forms.Request, own: own_names.Own) -> str:
    """A request with its names in the school's own spelling; a line that is none as it stands."""
    if len(request.words) != 3:
        return request.line
    word, who, what = request.words
    return f"{word} {own_names.spelt(own, 'student', who)} {own_names.spelt(own, 'section', what)}"
