"""`trial`: what if a section had more seats, or the spread, the raise or the seed were another? Each variant is run.

No trial is a run that anybody is told of: its manifest says that it is one, and `lists`, `hall`, `next` and `rosters`
refuse it.
All trials hear the same commands in the same order, so that they differ by their variants alone.
"""

from __future__ import annotations

import argparse
import os
from dataclasses import dataclass
from typing import Callable, Dict, List, Optional, Sequence, Tuple

from registrar import (
    at_work, compare, manifest, measures, own_names, pages, plots, program, pseudonyms, published, register, run_market,
    streams, tables, tell, try_settings, variants, whole, work_log,
)
from registrar.faults import Faults
from registrar.spelling import spelt

NAME = "trial"
HELP = "run variants (seats, spread, raise, turns, seed) as trials, and put them beside the run on one page"

BASE = "as it is"
ORDER = "trials.session"
PAGE = "trials.html"
TABLE = "trials.csv"


@dataclass(frozen=True)
class Base:
    """What the variants are made of: the files, the commands in one order, and the run that they are compared with."""

    catalogue: str
    roll: str
    settings: str
    commands: Sequence[tables.Command]
    found: Optional[manifest.Manifest]


@dataclass(frozen=True)
class Trial:
    """A variant that was run: its folder, how long it took, what it gave, or the least error where it had no prices."""

    variant: variants.Variant
    folder: str
    elapsed: float
    run: Optional[measures.Measured]
    least: Optional[int] = None


def add_arguments(parser: argparse.ArgumentParser) -> None:
    """The words of `trial`."""
    parser.description = (
        f"{HELP}. VARIANTS is a text with a section for each variant, as `[more seats]` and below it `seats ACCT_101_A "
        "= 30`, `spread = 3`, `raise = 0`, `turns = 200`, `accept = 40` or `seed = 1, 2, 3` (three trials). The run "
        "is that of --manifest, or, before there is one, of the files that are given."
    )
    parser.add_argument("variants", metavar="VARIANTS")
    parser.add_argument(
        "files", metavar="FILE", nargs="*", help="CATALOGUE ROLL SETTINGS SESSION.., in place of a manifest's"
    )
    manifest.add_argument(parser)
    register.add_argument(parser)
    compare.add_groups(parser)
    parser.add_argument("--into", default="trials", metavar="FOLDER", help="where the trials go (default: trials)")
    parser.add_argument("--replace", action="store_true", help="write over the trials that stand in that folder")
    parser.add_argument("--no-audit", action="store_true", help="leave envy out: `audit` checks each text first")
    run_market.add_workers(parser)


def writes(arguments: argparse.Namespace) -> List[str]:
    """The folder of the manifest, where one is taken, and that of the trials."""
    return [arguments.into] if arguments.files else work_log.folders(arguments.manifest, arguments.into)


def run(arguments: argparse.Namespace) -> int:
    """Runs the variants, and writes the page."""
    base = base_of(arguments)
    made = register.read_or_tell(arguments.mapping, base.catalogue, base.roll) if arguments.mapping else None
    groups = compare.groups_by(arguments, made)
    faults = Faults()
    sections = tables.read_catalogue(base.catalogue)
    wanted = variants.Reader(arguments.variants, sections, own_names.beside(base.catalogue), faults).read()
    register.refuse(faults, arguments.variants)
    refuse_standing(arguments, base)
    tables.make_folder(arguments.into)
    tables.write_whole(os.path.join(arguments.into, ORDER), streams.as_session(base.commands))
    foresee(base, wanted)
    trials = [first_of(base, arguments)]
    for number, variant in enumerate(wanted, 1):
        life = tell.Life(f"trial {number} of {len(wanted)} ({variant.name})", [trials[0].elapsed])
        trials.append(tried(base, variant, folder_of(arguments.into, number, variant), arguments, life))
    return tell_all(trials, groups, arguments)


def base_of(arguments: argparse.Namespace) -> Base:
    """The run of the manifest, its commands in the text's order; or the given files, one session behind the other."""
    if arguments.files:
        if len(arguments.files) < 4:
            raise tell.Trouble("give no files, or CATALOGUE ROLL SETTINGS SESSION..", tell.USAGE)
        catalogue, roll, settings, *sessions = arguments.files
        commands = [command for session in tables.read_sessions(sessions) for command in session]
        return Base(catalogue, roll, settings, commands, None)
    found = manifest.read(arguments.manifest)
    text = published.read_published(found.text)
    return Base(found.catalogue, found.roll, found.settings, streams.in_order(text.order, found.sessions), found)


def refuse_standing(arguments: argparse.Namespace, base: Base) -> None:
    """Refuses a folder that has something already, but with --replace; and one that has a file which is read."""
    read = [("catalogue", base.catalogue), ("roll", base.roll), ("settings file", base.settings)]
    read.append(("file of variants", arguments.variants))
    read += manifest.files_read(base.found) if base.found else []
    read += [("session", path) for path in arguments.files[3:]]
    here = os.path.abspath(arguments.into)
    inside = [(what, path) for what, path in read if os.path.dirname(os.path.abspath(path)) == here]
    if inside:
        told = f"--into: {arguments.into} has the {inside[0][0]} {inside[0][1]}: give the trials a folder of their own"
        raise tell.Trouble(told, tell.USAGE)
    there = set(os.listdir(arguments.into)) if os.path.isdir(arguments.into) else set()
    if not arguments.replace and there - {at_work.FILE, work_log.FILE}:
        raise tell.Trouble(f"{arguments.into} has files already: give another --into, or --replace")


def foresee(base: Base, wanted: Sequence[variants.Variant]) -> None:
    """Says how many trials there are, and about how long they take."""
    trials = tell.count(len(wanted), "trial", "trials")
    if base.found and base.found.elapsed:
        about = tell.seconds(base.found.elapsed * len(wanted))
        took = tell.seconds(base.found.elapsed)
        tell.warn(f"{trials}; the run took {took}, so all of them about {about} if each takes as long")
    else:
        tell.warn(trials)


def folder_of(into: str, number: int, variant: variants.Variant) -> str:
    """The folder of a trial."""
    return os.path.join(into, f"{number:02d}-{spelt(variant.name)[:40]}")


def first_of(base: Base, arguments: argparse.Namespace) -> Trial:
    """The run that the trials are compared with: that of the manifest, or the files as they are, run as a trial too."""
    nothing = variants.Variant(BASE, {}, {})
    if base.found:
        run_of = measures.measured(base.found, arguments.workers, not arguments.no_audit)
        return Trial(nothing, "", base.found.elapsed, run_of)
    return tried(base, nothing, folder_of(arguments.into, 0, nothing), arguments, tell.Life(BASE))


def tried(base: Base, variant: variants.Variant, folder: str, arguments: argparse.Namespace, life: tell.Life) -> Trial:
    """Runs a variant into its folder, and measures it. Of one without prices nothing is kept but its inputs."""
    tables.make_folder(folder)
    catalogue, settings = put_inputs(base, variant, folder)
    text = os.path.join(folder, "published.txt")
    words = ["run", str(arguments.workers), catalogue, base.roll, settings, os.path.join(arguments.into, ORDER)]
    answer, least = run_into(words, text, variant.name, life)
    if answer.status == 5:
        return Trial(variant, folder, answer.elapsed, None, least)
    found = manifest.read(manifest.beside(text), trial_too=True)
    return Trial(variant, folder, answer.elapsed, measures.measured(found, arguments.workers, not arguments.no_audit))


def put_inputs(base: Base, variant: variants.Variant, folder: str) -> Tuple[str, str]:
    """The catalogue and the settings of a variant: the run's own, or files in the folder where something is other."""
    catalogue, settings = base.catalogue, base.settings
    if variant.seats:
        catalogue = os.path.join(folder, "catalogue.csv")
        header, *records = [one.fields for one in tables.records(base.catalogue)]
        rows = [(*fields[:2], variant.seats.get(fields[0], fields[2]), *fields[3:]) for fields in records]
        tables.write_whole(catalogue, tables.csv_text([header, *rows]).encode())
        put_names(os.path.dirname(base.catalogue), folder)
    if variant.settings:
        settings = os.path.join(folder, "settings.json")
        values = {**tables.read_settings(base.settings), **variant.settings}
        try_settings.write_settings(settings, values, values["turns"], values["accept"])
    return catalogue, settings


def put_names(beside: str, folder: str) -> None:
    """Puts the `names.csv` of the run's catalogue beside that of a trial, which finds the key of drawn names too."""
    path = os.path.join(beside, own_names.FILE)
    if not os.path.exists(path):
        return
    rows = [[tables.unguarded(cell) for cell in one.fields] for one in tables.records(path)]
    for row in rows:
        if row[0] == pseudonyms.KIND:
            row[1] = os.path.relpath(os.path.join(beside, row[1]), folder).replace(os.sep, "/")
    tables.write_csv(os.path.join(folder, own_names.FILE), rows)


def run_into(words: Sequence[str], text: str, trial: str, life: tell.Life) -> Tuple[program.Answer, Optional[int]]:
    """Runs these words to a text, before which its manifest stands, with the mark; the least error of status 5."""
    path = manifest.beside(text)
    for old in (text, path):
        if os.path.exists(old):
            os.remove(old)
    with whole.Part(text) as part, whole.Part(path) as kept:
        answer = program.call(words, life, part.file)
        part.close_whole()
        last = run_market.tail(part.path)
        if answer.status == 5:
            return answer, int(last[-1].rsplit(" ", 1)[1])
        if answer.status:
            raise tell.Trouble("\n".join([f"the trial '{trial}':", *program.retell(answer, last)]), answer.status)
        run_market.refuse_unsound(words, part.path)
        kept.fill(manifest.content(path, words, text, program.sha256(part.path), answer.elapsed, trial))
        whole.settle_all([kept, part])
    return answer, None


HEADER = (
    "trial", "what is other", "time", "error", "seats", "without", "first choice", "share", "spent", "envious",
    "gained", "lost",
)  # fmt: skip


def rows_of(trials: Sequence[Trial]) -> List[Tuple[str, ...]]:
    """A row for each trial."""
    first = trials[0].run
    rows = []
    for trial in trials:
        other = trial.variant.in_words() if trial.variant.name != BASE else ""
        begin = (trial.variant.name, other, tell.seconds(trial.elapsed))
        if trial.run is None:
            rows.append((*begin, f"no prices: least {trial.least}", *[""] * (len(HEADER) - 4)))
            continue
        whole = measures.group(trial.run, measures.ALL, trial.run.students)
        text = trial.run.market.text
        counts = counted(first, trial.run) if first is not None and trial is not trials[0] else ("", "")
        seats = f"{whole.seats} of {sum(one.seats for one in text.used.values())}"
        envious = "" if whole.envious is None else str(whole.envious)
        rows.append((
            *begin, str(text.error), seats, str(whole.without), str(whole.first), pages.percent(whole.mean_share),
            str(whole.spent), envious, *counts,
        ))  # fmt: skip
    return rows


def counted(one: measures.Measured, other: measures.Measured) -> Tuple[str, str]:
    """How many students gained and lost."""
    changes = compare.beside(one, other).changes.values()
    gained, lost = (sum(each.what == what for each in changes) for what in (compare.GAINED, compare.LOST))
    return str(gained), str(lost)


def group_rows(trials: Sequence[Trial], groups: Dict[str, str], least: int) -> List[Tuple[str, ...]]:
    """The mean share of each group in each trial."""
    names = list(measures.parted(groups, next((trial.run.students for trial in trials if trial.run), []), least))
    rows: List[Tuple[str, ...]] = [("trial", *names, measures.ALL)]
    for trial in trials:
        if trial.run is not None:
            found = {one.name: pages.percent(one.mean_share) for one in measures.groups_of(trial.run, groups, least)}
            rows.append((trial.variant.name, *(found.get(name, "") for name in [*names, measures.ALL])))
    return rows


def tell_all(trials: Sequence[Trial], groups: Dict[str, str], arguments: argparse.Namespace) -> int:
    """Tells the trials, and writes the table and the page."""
    rows = rows_of(trials)
    told = [(*HEADER, "folder"), *((*row, trial.folder) for row, trial in zip(rows, trials))]
    tables.write_whole(os.path.join(arguments.into, TABLE), tables.sheet_bytes(told))
    tables.write_whole(os.path.join(arguments.into, PAGE), page(trials, rows, groups, arguments.least).encode("utf-8"))
    for line in tell.table(HEADER, rows):
        tell.say(line)
    if groups:
        header, *body = group_rows(trials, groups, arguments.least)
        tell.say()
        for line in tell.table(header, body):
            tell.say(line)
    made = tell.count(len(trials) - 1, "trial", "trials")
    tell.say(f"{arguments.into}: {PAGE}, {TABLE}, and {made}, which `lists` refuses")
    return 0


def page(trials: Sequence[Trial], rows: Sequence[Tuple[str, ...]], groups: Dict[str, str], least: int) -> str:
    """The page: the table, and a plot of each figure, with its table."""
    text = (
        "Each row is a trial: the same wishes in the same order, and one thing other. Nobody has these seats. Shares "
        "are the utility of what a student holds in the end, in percent of its best bundle if all prices were 0. Who "
        f"gained and who lost is told by the own ratings, beside the run '{BASE}'. Another seed alone moves some "
        "students; only what is greater than that is the variant's doing."
    )
    parts = [pages.paragraph(text), pages.table("Trials", HEADER, rows)]
    if groups:
        header, *body = group_rows(trials, groups, least)
        parts.append(pages.table("Mean share of the best bundle, by group", header, body))
    parts += [plot(trials, *one) for one in PLOTS]
    return pages.page("Trials", parts)


def mean_share(run: measures.Measured) -> float:
    """The mean share of all students, with one digit behind the point."""
    return round(measures.group(run, measures.ALL, run.students).mean_share or 0, 1)


PLOTS: Tuple[Tuple[str, str, Callable[[measures.Measured], float]], ...] = (
    ("Mean share of the best bundle", "percent", mean_share),
    ("Students with a first choice", "students", lambda run: float(sum(run.has_first(one) for one in run.students))),
    ("Seats taken", "seats", lambda run: float(sum(len(run.held(one)) for one in run.students))),
    ("Students without a section", "students", lambda run: float(sum(not run.held(one) for one in run.students))),
    ("Error of the search", "error", lambda run: float(run.market.text.error)),
)


def plot(trials: Sequence[Trial], title: str, up: str, value: Callable[[measures.Measured], float]) -> str:
    """A bar for each trial that has prices."""
    items = [(trial.variant.name, value(trial.run)) for trial in trials if trial.run is not None]
    told = "; ".join(f"{name}: {number:g}" for name, number in items)
    return pages.plot_with_table(plots.Axes(title, told, "trial", up), items)
