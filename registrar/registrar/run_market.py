"""`run`: runs the market to a file that takes its name only where the status is 0."""

from __future__ import annotations

import argparse
import os
import tempfile
from typing import Dict, List, Sequence, Tuple

from registrar import at_work, before_run, limits, manifest, program, published, ranges, streams, tables, tell, whole, work_log

NAME = "run"
HELP = "run the market to a file, which takes its name only where the run succeeds, with a manifest beside it"

TAIL = 4096


def add_arguments(parser: argparse.ArgumentParser) -> None:
    """The words and options of `run`."""
    add_market(parser)
    parser.add_argument("--text", default="published.txt", metavar="FILE", help="where the text goes (default: published.txt)")
    add_workers(parser)
    before_run.add_argument(parser)


def writes(arguments: argparse.Namespace) -> List[str]:
    """The folder of the text, which has to be there."""
    return [work_log.folder_of(arguments.text)]


def add_market(parser: argparse.ArgumentParser) -> None:
    """The files of a market."""
    parser.add_argument("catalogue", metavar="CATALOGUE")
    parser.add_argument("roll", metavar="ROLL")
    parser.add_argument("settings", metavar="SETTINGS")
    parser.add_argument("sessions", metavar="SESSION", nargs="+")


def add_workers(parser: argparse.ArgumentParser) -> None:
    """The number of workers."""
    parser.add_argument(
        "--workers", type=ranges.whole(1, limits.MAX_WORKERS), default=workers(), metavar="N",
        help="1 to 16 workers, which change the time and never the text (default: one for each processor)",
    )


def workers() -> int:
    """One worker for each processor, at most the program's sixteen."""
    return max(1, min(limits.MAX_WORKERS, os.cpu_count() or 1))


def run(arguments: argparse.Namespace) -> int:
    """Runs the market, and keeps the last good text where that fails. What looks like an oversight is told before."""
    stopped = before_run.stop(arguments)
    if stopped:
        return stopped
    sessions = arguments.sessions
    words = ["run", str(arguments.workers), arguments.catalogue, arguments.roll, arguments.settings, *sessions]
    answer = to_file(words, arguments.text)
    if answer.status:
        return answer.status
    text = published.read_published(arguments.text)
    tell_text(text, arguments.settings, answer.elapsed)
    warn_of_sessions(text, arguments)
    return 0


def to_file(words: Sequence[str], text: str) -> program.Answer:
    """Runs these words to a file. Where the status is not 0 the file is what it was, and the terminal says what to do.

    The program's `check` reads what was written before it takes the text's name; the manifest takes its own with it.
    """
    program.find_program()
    program.refuse_many(words)
    tables.refuse_over((text, manifest.beside(text)), [(one.role, one.path) for one in program.inputs_of(words)])
    folder = os.path.dirname(text) or "."
    with at_work.in_folders([folder], NAME):
        size = size_of(words)
        try:
            with whole.Part(text) as part:
                far = tell.far_of(folder, size, turns_of(words[4]))
                answer = run_to(part, words, tell.Life("running the market", tell.times_of(folder, size), far=far))
        except tell.Trouble as trouble:
            raise tell.Trouble(f"{trouble}\n{kept_in_words(text)}", trouble.status) from trouble
        if answer.status:
            tell.warn(kept_in_words(text))
        else:
            tell.keep_time(folder, size, answer.elapsed)
        return answer


def turns_of(settings: str) -> object:
    """The turns of the settings, as far as they can be read."""
    try:
        return tables.read_settings(settings)["turns"]
    except tell.Trouble:
        return None


def run_to(part: whole.Part, words: Sequence[str], life: tell.Life) -> program.Answer:
    """Runs these words to a part file. Where that holds it takes the text's name, and its manifest takes its own."""
    before = sums(words)
    answer = program.call(words, life, part.file)
    if answer.status:
        for line in program.retell(answer, tail(part.path)):
            tell.warn(line if answer.status != 6 else f"{part.target} can not be written: {line}")
        return answer
    part.close_whole()
    refuse_unsound(words, part.path)
    if sums(words) != before:
        raise tell.Trouble("an input was changed while the program ran: run again")
    path = manifest.beside(part.target)
    with whole.Part(path) as kept:
        kept.fill(manifest.content(path, words, part.target, program.sha256(part.path), answer.elapsed))
        whole.settle_all([part, kept])
    return answer


def refuse_unsound(words: Sequence[str], path: str) -> None:
    """Refuses what was written where the program's own check does not accept it: a disk or a memory spoiled it."""
    catalogue, roll, settings, *sessions = words[2:]
    answer = program.call(["check", catalogue, roll, settings, path, *sessions], tell.Life("checking what was written"))
    if answer.status:
        told = [answer.lines[-1]] if answer.status == 8 and answer.lines else program.retell(answer)
        raise tell.Trouble("\n".join(["what the run wrote does not hold, and is not kept: run again", *told]))


def sums(words: Sequence[str]) -> Dict[str, str]:
    """The sums of the inputs that can be read; the program tells of the others."""
    return {one.path: program.sha256(one.path) for one in program.inputs_of(words) if os.path.isfile(one.path)}


def size_of(words: Sequence[str]) -> tell.Size:
    """How large the market is, as far as its files can be read."""
    size: tell.Size = {"workers": int(words[1])}
    for one in program.inputs_of(words)[:2]:
        try:
            size["sections" if one.role == "catalogue" else "students"] = sum(1 for _ in tables.records(one.path)) - 1
        except tell.Trouble:
            pass
    return size


def kept_in_words(text: str) -> str:
    """That nothing is lost."""
    return f"{text} is what it was before this run." if os.path.exists(text) else f"{text} was not written."


def tail(path: str) -> List[str]:
    """The last lines of a file; a line of order may be long, and is not asked for."""
    with open(path, "rb") as file:
        file.seek(max(0, os.path.getsize(path) - TAIL))
        return file.read().decode("utf-8", "replace").splitlines()


def tell_text(text: published.Published, settings: str, elapsed: float) -> None:
    """What a run gave, in a few lines."""
    filled = sum(one.used for one in text.used.values())
    seats = sum(one.seats for one in text.used.values())
    without = sum(1 for one in text.finals.values() if not one.sections)
    accept = tables.read_settings(settings)["accept"]
    tell.say(f"{text.path}: {len(text.budgets)} students, {len(text.prices)} sections, in {tell.seconds(elapsed)}")
    tell.say(f"clearing error {text.error} (accept {accept}); {filled} of {seats} seats taken; {without} students without a section")
    tell.say(f"{manifest.beside(text.path)} keeps what made it: `registrar check` reads that")


def warn_of_sessions(text: published.Published, arguments: argparse.Namespace) -> None:
    """Says where commands had no effect, since the program publishes a text all the same, and which `close` closed the desk.

    The desk's replies are those of `prefer` to all commands in the text's own order.
    """
    commands = streams.in_order(text.order, arguments.sessions)
    with tempfile.TemporaryDirectory() as folder:
        stream = os.path.join(folder, "all.session")
        tables.write_whole(stream, streams.as_session(commands))
        answer = program.call(["prefer", arguments.catalogue, arguments.roll, stream], tell.Life("looking at the commands"))
    if answer.status:
        tell.warn("warning: how many commands had no effect was not counted: `registrar look` tells each")
        return
    replies = [line.split(" ", 3)[2] for line in answer.lines if line.startswith("entry ")]
    for number, path in enumerate(arguments.sessions, 1):
        warn_of_session(path, [(one, reply) for one, reply in zip(commands, replies) if one.session == number])


def warn_of_session(path: str, replied: Sequence[Tuple[tables.Command, str]]) -> None:
    """Says how many commands of a session had no effect, and whether it closed the desk."""
    lost = [one for one, reply in replied if reply != "done"]
    if lost:
        tell.warn(
            f"warning: {path}: {len(lost)} of {len(replied)} commands had no effect, the first in line {lost[0].line}: "
            f"{lost[0].text[:60]} (`registrar look` tells each)"
        )
    for one, reply in replied:
        if one.kind == "close" and reply == "done":
            tell.warn(f"warning: {path}: line {one.line} closed the desk: what any session said behind it had no effect")
