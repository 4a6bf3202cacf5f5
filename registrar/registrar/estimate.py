"""`estimate`: how long a run takes and how far its search comes, by runs of few turns; where it is a guess it says so.

The search is the same turn by turn whatever number of turns is allowed. So what a run of few turns saw, a longer one
sees too: where it saw an error that the settings accept, the run is sure to end by then. How long a turn takes, and
what the error of later turns is, nobody knows before: the first is told as it was measured, the second not at all.
"""

from __future__ import annotations

import argparse
import os
from dataclasses import dataclass
from typing import Dict, List, Optional, Sequence, Tuple

from registrar import ranges, run_market, tables, tell, try_settings, work_log

NAME = "estimate"
HELP = "say how long a run will take, and what error its search is sure to see, by runs of few turns"

#: An estimate spends about so many seconds.
MOST_SECONDS = 60

#: Less than this is too little to be measured.
LEAST_SECONDS = 0.2


@dataclass(frozen=True)
class Sample:
    """A run of few turns with `accept` 0: how long it took, and the least error that it saw."""

    turns: int
    elapsed: float
    least: int


@dataclass(frozen=True)
class Pace:
    """What the samples tell: seconds before the first turn, and for each turn."""

    begin: float
    turn: float


def add_arguments(parser: argparse.ArgumentParser) -> None:
    """The words of `estimate`."""
    run_market.add_market(parser)
    parser.add_argument(
        "--seconds", type=ranges.whole(1, 86_400), default=MOST_SECONDS, metavar="N",
        help=f"begin no further run of few turns after so many seconds (default: {MOST_SECONDS})",
    )
    parser.add_argument(
        "--text", default="published.txt", metavar="FILE",
        help="the text that is to be run: beside it stand the times of earlier runs, and what is measured is kept "
        "(default: published.txt)",
    )
    run_market.add_workers(parser)


def writes(arguments: argparse.Namespace) -> List[str]:
    """The folder of the text."""
    return [work_log.folder_of(arguments.text)]


def run(arguments: argparse.Namespace) -> int:
    """Runs few turns, then more, and tells what they say."""
    settings = tables.read_settings(arguments.settings)
    turns, accept = whole_of(settings["turns"]), whole_of(settings["accept"])
    if turns is None or accept is None:
        raise tell.Trouble(f"{arguments.settings}: \"turns\" and \"accept\" have to be whole numbers")
    samples: List[Sample] = []
    for number in numbers(turns):
        sample, status = sampled(arguments, settings, number)
        if status:
            return status
        samples.append(sample)
        if sample.least <= accept or sum(one.elapsed for one in samples) > arguments.seconds:
            break
    whole, status = try_settings.attempt(arguments, settings, samples[-1].turns, max(accept, samples[-1].least))
    if status:
        return status
    pace = pace_of(samples)
    size = run_market.size_of(["run", str(arguments.workers), arguments.catalogue, arguments.roll])
    folder = os.path.dirname(arguments.text) or "."
    rows = [(one.turns, shown(one.elapsed), one.least) for one in samples]
    lines = tell.table(("turns", "time", "least error"), rows) + pace_in_words(samples, pace, size.get("students", 0))
    for line in lines + in_words(samples, pace, turns, accept, whole.elapsed):
        tell.say(line)
    before = tell.times_of(folder, size)
    if before:
        tell.say(f"the last runs of this size took {', '.join(tell.seconds(one) for one in before[-3:])}")
    tell.keep_pace(folder, size, pace.begin, pace.turn)
    return 0


def whole_of(value: object) -> Optional[int]:
    """A setting that is a whole number from 0 on; nothing where it is none."""
    return value if isinstance(value, int) and not isinstance(value, bool) and value >= 0 else None


def numbers(turns: int) -> List[int]:
    """0, 1, 2, 4, 8, .. turns, the last one being all."""
    found = [0]
    while found[-1] < turns:
        found.append(min(turns, max(1, 2 * found[-1])))
    return found


def sampled(arguments: argparse.Namespace, settings: Dict[str, object], turns: int) -> Tuple[Sample, int]:
    """A run of so many turns with `accept` 0. A status other than 0 and 5 is told."""
    trial, status = try_settings.attempt(arguments, settings, turns, 0)
    least = trial.least if trial.least is not None else trial.error or 0
    return Sample(turns, trial.elapsed, least), status if status not in (0, 5) else 0


def pace_of(samples: Sequence[Sample]) -> Pace:
    """The pace of the samples: each turn takes as long as those between the first and the last sample."""
    first, last = samples[0], samples[-1]
    turns = last.turns - first.turns
    turn = max(0.0, last.elapsed - first.elapsed) / turns if turns else 0.0
    return Pace(first.elapsed, turn)


def pace_in_words(samples: Sequence[Sample], pace: Pace, students: int) -> List[str]:
    """How long a turn took, and how many students were looked at in a second."""
    spent = samples[-1].elapsed - samples[0].elapsed
    if spent < LEAST_SECONDS:
        return ["a turn took too little to be measured"]
    rate = students * samples[-1].turns / spent
    return [f"a turn took {pace.turn:.3f} s: {rate:,.0f} students a second were looked at, each once a turn"]


def in_words(samples: Sequence[Sample], pace: Pace, turns: int, accept: int, whole: float) -> List[str]:
    """What the samples tell of a run with these settings. `whole` is how long the whole run of the last sample took."""
    last = samples[-1]
    if last.least <= accept:
        seen = f"by turn {last.turns} the search sees an error of {last.least}"
        ends = f"with accept {accept} it ends by then, and the turns behind are not used"
        return [f"{seen}: {ends}", f"the whole run took {shown(whole)}"]
    lines = [f"by turn {last.turns} of {turns} the least error is {last.least}, and accept is {accept}"]
    if last.turns == turns:
        return [*lines, "so the run ends with status 5: give more turns, or an accept of at least that error"]
    most = shown(whole + pace.turn * (turns - last.turns))
    return [
        *lines,
        "whether a later turn comes to that is not known; if none does, the run ends with status 5",
        f"with accept {last.least} the whole run took {shown(whole)}; with all {turns} turns it takes at most about "
        f"{most}: an estimate, which takes each further turn to be as long as these",
    ]


def shown(elapsed: float) -> str:
    """A span of time: below ten seconds with a digit behind the point."""
    return f"{elapsed:.1f} s" if elapsed < 10 else tell.seconds(elapsed)
