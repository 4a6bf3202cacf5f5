"""`settings`: tries values of `accept` and `turns`, shows what each gives, and writes the settings that are chosen."""

from __future__ import annotations

import argparse
import json
import os
import tempfile
from dataclasses import dataclass
from typing import Dict, List, Optional, Sequence, Tuple

from registrar import before_run, limits, program, published, ranges, run_market, spread, tables, tell, work_log

NAME = "settings"
HELP = (
    "say how far a rank reaches, try values of accept and turns, show what each gives, and write the settings that "
    "are chosen"
)

HEADER = ("row", "turns", "accept", "time", "error", "seats filled", "of", "students without a section")


@dataclass(frozen=True)
class Trial:
    """What a run with these values gave. `least` is the least error of a search that accepted none."""

    turns: int
    accept: int
    elapsed: float
    error: Optional[int] = None
    least: Optional[int] = None
    filled: int = 0
    seats: int = 0
    without: int = 0


def add_arguments(parser: argparse.ArgumentParser) -> None:
    """The words and options of `settings`."""
    run_market.add_market(parser)
    run_market.add_workers(parser)
    parser.add_argument(
        "--turns", type=ranges.wholes(0, limits.MAX_TURNS), metavar="N,N,..",
        help="the numbers of turns to try (default: that of SETTINGS)",
    )
    parser.add_argument(
        "--accept", type=ranges.wholes(0, limits.MAX_ACCEPT), default=[], metavar="N,N,..",
        help="errors to try besides the least that a search sees with accept 0",
    )
    parser.add_argument(
        "--spread", type=ranges.whole(0, limits.MAX_SPREAD), metavar="N",
        help="try, and write, with this spread in place of that of SETTINGS",
    )
    parser.add_argument(
        "--write", metavar="FILE", help="write the settings of the row of least error, or those of --take, to FILE"
    )
    parser.add_argument(
        "--take", nargs=2, type=ranges.whole(0, limits.MAX_ACCEPT), metavar=("TURNS", "ACCEPT"),
        help="try nothing: write these two and the rest of SETTINGS",
    )


def writes(arguments: argparse.Namespace) -> List[str]:
    """The folder of the settings that are written, if any are."""
    return [work_log.folder_of(arguments.write)] if arguments.write else []


def run(arguments: argparse.Namespace) -> int:
    """Tries, tells, and writes."""
    settings = tables.read_settings(arguments.settings)
    if arguments.spread is not None:
        settings["spread"] = arguments.spread
    if arguments.write:
        tables.refuse_over([arguments.write], read_beside(arguments))
    if arguments.take:
        if not arguments.write:
            raise tell.Trouble("--take needs --write FILE", tell.USAGE)
        if arguments.take[0] > limits.MAX_TURNS:
            raise tell.Trouble(f"--take: {arguments.take[0]} turns are more than {limits.MAX_TURNS}", tell.USAGE)
        tell_spread(arguments.roll, settings["spread"])
        write(arguments.write, settings, *arguments.take)
        return 0
    tell_spread(arguments.roll, settings["spread"])
    trials: List[Trial] = []
    for turns in arguments.turns or [settings["turns"]]:
        status = try_turns(arguments, settings, turns, trials)
        if status:
            return status
    for line in tell.table(HEADER, [row_of(number, trial) for number, trial in enumerate(trials, 1)]):
        tell.say(line)
    for line in before_run.why_not_again(arguments):
        tell.say(line)
    return choose(arguments, settings, trials)


def tell_spread(roll: str, value: object) -> None:
    """Says what the spread does on this roll, where both can be read; what is wrong with either the program tells."""
    if isinstance(value, int) and not isinstance(value, bool) and 0 <= value <= limits.MAX_SPREAD:
        try:
            students = tables.read_roll(roll)
        except tell.Trouble:
            return
        for line in spread.in_words(students, value):
            tell.say(line)


def read_beside(arguments: argparse.Namespace) -> List[Tuple[str, str]]:
    """What is read besides the settings, which may be written anew."""
    sessions = [("session", path) for path in arguments.sessions]
    return [("catalogue", arguments.catalogue), ("roll", arguments.roll), *sessions]


def try_turns(arguments: argparse.Namespace, settings: Dict[str, object], turns: int, trials: List[Trial]) -> int:
    """The trials with this number of turns: accept 0 first, then the least error that it saw, then the given ones."""
    first, status = attempt(arguments, settings, turns, 0)
    if status not in (0, 5):
        return status
    trials.append(first)
    wanted = ([first.least] if first.least is not None else []) + arguments.accept
    for accept in sorted(set(wanted) - {0}):
        trial, status = attempt(arguments, settings, turns, accept)
        if status not in (0, 5):
            return status
        trials.append(trial)
    return 0


def attempt(arguments: argparse.Namespace, settings: Dict[str, object], turns: int, accept: int) -> Tuple[Trial, int]:
    """A run with these values. A status other than 0 and 5 is told."""
    with tempfile.TemporaryDirectory() as folder:
        path = os.path.join(folder, "settings.json")
        write_settings(path, settings, turns, accept)
        text = os.path.join(folder, "text")
        words = ["run", str(arguments.workers), arguments.catalogue, arguments.roll, path, *arguments.sessions]
        with open(text, "wb") as output:
            answer = program.call(words, tell.Life(f"turns {turns}, accept {accept}"), output)
        last = run_market.tail(text)
        if answer.status == 0:
            return trial_of(turns, accept, answer.elapsed, text), 0
        if answer.status == 5:
            return Trial(turns, accept, answer.elapsed, least=int(last[-1].rsplit(" ", 1)[1])), 5
        for line in program.retell(answer, last):
            tell.warn(line.replace(path, f"{arguments.settings} with turns {turns} and accept {accept}"))
        return Trial(turns, accept, answer.elapsed), answer.status


def trial_of(turns: int, accept: int, elapsed: float, path: str) -> Trial:
    """What stands in the text of a trial."""
    text = published.read_published(path)
    return Trial(
        turns, accept, elapsed, text.error, None,
        sum(one.used for one in text.used.values()),
        sum(one.seats for one in text.used.values()),
        sum(1 for one in text.finals.values() if not one.sections),
    )


def row_of(number: int, trial: Trial) -> Sequence[object]:
    """A row of the table. A search that accepted none has no seats to tell of."""
    begin = (number, trial.turns, trial.accept, tell.seconds(trial.elapsed))
    if trial.error is None:
        return (*begin, f"no prices: least {trial.least}", "", "", "")
    return (*begin, str(trial.error), str(trial.filled), str(trial.seats), str(trial.without))


def choose(arguments: argparse.Namespace, settings: Dict[str, object], trials: Sequence[Trial]) -> int:
    """Writes the settings of the row of least error, or says how to. Of equal ones that of most turns: a search ends with the first
    prices that it accepts, whatever turns it has left."""
    with_prices = [one for one in trials if one.error is not None]
    if not with_prices:
        tell.say("no row has prices: give more turns, or an --accept of at least the least error")
        return tell.FAULTS
    best = min(with_prices, key=lambda one: (one.error, -one.turns, one.accept))
    if arguments.write:
        write(arguments.write, settings, best.turns, best.accept)
    else:
        taken = f"--take {best.turns} {best.accept}"
        tell.say(f"the least error: {taken}, with --write FILE and the same words, writes these settings")
    return 0


def write(path: str, settings: Dict[str, object], turns: int, accept: int) -> None:
    """Writes the settings with these values, and says so."""
    write_settings(path, settings, turns, accept)
    tell.say(f"{path}: turns {turns}, accept {accept}, the rest as it was")


def write_settings(path: str, settings: Dict[str, object], turns: object, accept: object) -> None:
    """Writes settings, one a line, in the order in which they stood."""
    values: Dict[str, object] = {**settings, "turns": turns, "accept": accept}
    lines = [f"  {json.dumps(name)}: {json.dumps(value)}" for name, value in values.items()]
    tables.write_whole(path, ("{\n" + ",\n".join(lines) + "\n}\n").encode("utf-8"))
