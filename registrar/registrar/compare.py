"""`compare`: two runs beside each other: who gained and lost by the own ratings, seats, prices, errors, envy."""

from __future__ import annotations

import argparse
import os
from dataclasses import dataclass
from typing import Callable, Dict, List, Optional, Tuple

from registrar import figures, limits, manifest, measures, own_names, pages, plots, ranges, register, run_market, tables, tell

NAME = "compare"
HELP = "put two runs beside each other: who gained and lost by the own ratings, seats, prices, errors, envy, by group"

#: So many students and sections are told on the terminal; the files have all.
SHOWN = 20

GAINED, LOST, SAME, OTHER = "gained", "lost", "as before", "other wishes"


@dataclass(frozen=True)
class Change:
    """A student of both runs: what it holds is worth so much by its own wishes, and which of the four that is."""

    student: str
    before: int
    after: int
    what: str
    moved: bool


@dataclass(frozen=True)
class Both:
    """Two runs, the changes of the students that both have, and who is in one alone."""

    one: measures.Measured
    other: measures.Measured
    changes: Dict[str, Change]
    gone: Tuple[str, ...]
    new: Tuple[str, ...]
    names: Callable[[str], str]


def add_arguments(parser: argparse.ArgumentParser) -> None:
    """The words of `compare`."""
    parser.description = (
        f"{HELP}. A student gained where what it holds in the end of B is worth more by its own ratings and "
        "adjustments than what it holds in A. A student whose wishes differ between the two is counted apart."
    )
    parser.add_argument("one", metavar="A", help="the manifest of the first run")
    parser.add_argument("other", metavar="B", help="the manifest of the second run")
    register.add_argument(parser)
    add_groups(parser)
    parser.add_argument(
        "--out", metavar="FOLDER", help="write compare.html, and students.csv, sections.csv and groups.csv"
    )
    parser.add_argument("--no-audit", action="store_true", help="leave envy out: `audit` checks both texts first")
    run_market.add_workers(parser)


def add_groups(parser: argparse.ArgumentParser) -> None:
    """The options by which students are put into groups."""
    parser.add_argument(
        "--by", metavar="COLUMN", help="with --mapping: by this column of the register, as the programme or the year"
    )
    parser.add_argument(
        "--least", type=ranges.whole(1, limits.MAX_STUDENTS), default=5, metavar="N",
        help="groups of fewer than N students are put together, so that nobody stands alone (default: 5)",
    )


def groups_by(arguments: argparse.Namespace, made: Optional[register.Register]) -> Dict[str, str]:
    """The group of each student; nothing where no column is named."""
    if not arguments.by:
        return {}
    if made is None:
        raise tell.Trouble("--by needs --mapping, which says where the register is", tell.USAGE)
    groups = made.by_column(arguments.by)
    register.refuse(made.faults, arguments.mapping)
    return groups


def writes(arguments: argparse.Namespace) -> List[str]:
    """The folder of --out, where there is one."""
    return [arguments.out] if arguments.out else []


def run(arguments: argparse.Namespace) -> int:
    """Measures both runs, and tells what differs."""
    found = [manifest.read(path, trial_too=True) for path in (arguments.one, arguments.other)]
    made = register.read_or_tell(arguments.mapping, found[1].catalogue, found[1].roll) if arguments.mapping else None
    groups = groups_by(arguments, made)
    one, other = (measures.measured(each, arguments.workers, not arguments.no_audit) for each in found)
    both = beside(one, other, made)
    files = written(both, groups, arguments) if arguments.out else {}
    if files:
        read = [item for each in found for item in manifest.files_read(each)]
        tables.refuse_over([os.path.join(arguments.out, name) for name in files], read)
    for line in told(both, groups, arguments):
        tell.say(line)
    if files:
        tables.make_folder(arguments.out)
        for name, content in files.items():
            tables.write_whole(os.path.join(arguments.out, name), content)
        tell.say(f"{arguments.out}: {', '.join(files)}")
    return 0


def beside(one: measures.Measured, other: measures.Measured, made: Optional[register.Register] = None) -> Both:
    """The two runs beside each other. Students are called as the register or `names.csv` does."""

    def called(student: str) -> str:
        name = made.said(student, "name") if made is not None and made.has("name") else ""
        return other.market.student(student) + (f" ({name})" if name else "")

    changes = {name: change(one, other, name) for name in one.students if name in other.market.text.finals}
    gone = tuple(name for name in one.students if name not in changes)
    new = tuple(name for name in other.students if name not in changes)
    return Both(one, other, changes, gone, new, called)


def change(one: measures.Measured, other: measures.Measured, student: str) -> Change:
    """What changed for a student."""
    before, after = one.worth(student), other.worth(student)
    what = GAINED if after > before else LOST if after < before else SAME
    if one.wishes.of(student) != other.wishes.of(student):
        what = OTHER
    return Change(student, before, after, what, set(one.held(student)) != set(other.held(student)))


def title_of(found: manifest.Manifest) -> str:
    """A run in words."""
    return f"{found.path} (the trial '{found.trial}')" if found.trial else found.path


def differences(both: Both) -> List[str]:
    """What differs between the inputs of the two runs."""
    one, other = both.one, both.other
    lines = []
    settings = [tables.read_settings(each.found.settings) for each in (one, other)]
    changed = [name for name in tables.SETTINGS if settings[0][name] != settings[1][name]]
    lines += [f"{name}: {shown(settings[0][name])} in A, {shown(settings[1][name])} in B" for name in changed]
    sections = [each.market.sections for each in (one, other)]
    called = both.other.market.section
    for at in (0, 1):
        lines += [f"{called(code)}: only in {'AB'[at]}" for code in sections[at] if code not in sections[1 - at]]
    for code in (code for code in sections[0] if code in sections[1]):
        for what in ("seats", "credits", "meetings", "parts", "course"):
            before, after = (getattr(each[code], what) for each in sections)
            if before != after:
                told = [told_as(both, what, value) for value in (before, after)]
                lines.append(f"{called(code)}: {what} {told[0]} in A, {told[1]} in B")
    rolls = [each.market.students for each in (one, other)]
    changed = [name for name in both.changes if row(rolls[0][name]) != row(rolls[1][name])]
    if changed:
        lines.append(f"{tell.count(len(changed), 'student has', 'students have')} another row in the roll")
    if both.gone or both.new:
        gone = tell.count(len(both.gone), "student is", "students are")
        lines.append(f"{gone} in A alone, {len(both.new)} in B alone")
    wished = sum(one.what == OTHER for one in both.changes.values())
    if wished:
        lines.append(f"{tell.count(wished, 'student has', 'students have')} other wishes in B than in A")
    return lines or ["the inputs say the same"]


def told_as(both: Both, what: str, value: object) -> str:
    """What a catalogue says of a section, in words."""
    if what == "credits" and isinstance(value, int):
        return own_names.credits(both.other.market.own, value)
    return "none" if value == "" else str(value)


def shown(value: object) -> str:
    """A setting in words."""
    return ", ".join(str(one) for one in value) if isinstance(value, list) else str(value)


def row(student: tables.Student) -> Tuple[int, int, int, int]:
    """What a roll says of a student."""
    return student.budget, student.credits, student.courses, student.carry


def figure_rows(both: Both) -> List[Tuple[str, str, str]]:
    """The figures of both runs."""
    rows = [figures_of(one) for one in (both.one, both.other)]
    return [(name, value, rows[1][name]) for name, value in rows[0].items() if name in rows[1]]


def figures_of(run_of: measures.Measured) -> Dict[str, str]:
    """The figures of a run, by name."""
    text = run_of.market.text
    whole = measures.group(run_of, measures.ALL, run_of.students)
    errors = figures.errors_by_stage(text)
    found = {
        "students": str(whole.students),
        "without a section": str(whole.without),
        "seats taken": f"{whole.seats} of {sum(one.seats for one in text.used.values())}",
        "share of the best bundle, mean": pages.percent(whole.mean_share),
        "share of the best bundle, median": pages.percent(whole.median_share),
        "students with a first choice": str(whole.first),
        "tokens spent": str(whole.spent),
        "sections with a price": str(sum(1 for price in text.prices.values() if price)),
        "dearest section": str(max(text.prices.values(), default=0)),
        "error of the search": str(text.error),
        "error of the second stage": f"{errors[1][1]:g}",
    }
    if run_of.envy is not None:
        found["students who envy somebody in the end"] = str(whole.envious)
    return found


GROUP_HEADER = ("group", "students", GAINED, LOST, SAME, OTHER, "share in A", "share in B")


def group_rows(both: Both, groups: Dict[str, str], least: int) -> List[Tuple[object, ...]]:
    """A row for each group of the students of both runs, and one for all."""
    students = list(both.changes)
    parts = measures.parted(groups, students, least) if groups else {}
    rows = []
    for name, members in [*parts.items(), (measures.ALL, students)]:
        counts = [sum(both.changes[one].what == what for one in members) for what in (GAINED, LOST, SAME, OTHER)]
        shares = [pages.percent(measures.group(each, name, members).mean_share) for each in (both.one, both.other)]
        rows.append((name, len(members), *counts, *shares))
    return rows


SECTION_HEADER = ("section", "seats A", "seats B", "used A", "used B", "price A", "price B")


def section_rows(both: Both) -> List[Tuple[object, ...]]:
    """A row for each section of either run, in the catalogue's order."""
    texts = [each.market.text for each in (both.one, both.other)]
    codes = list(dict.fromkeys([*texts[0].used, *texts[1].used]))
    rows = []
    for code in codes:
        used = [text.used.get(code) for text in texts]
        seats = [one.seats if one else "" for one in used]
        taken = [one.used if one else "" for one in used]
        prices = [text.prices.get(code, "") for text in texts]
        rows.append((both.other.market.section(code), *seats, *taken, *prices))
    return rows


STUDENT_HEADER = ("student", "change", "worth A", "worth B", "share A", "share B", "sections A", "sections B")


def student_rows(both: Both) -> List[Tuple[object, ...]]:
    """A row for each student of both runs: who lost most first, who gained most last."""
    places = {name: place for place, name in enumerate(both.changes)}
    rows = []
    for one in sorted(both.changes.values(), key=lambda one: (one.after - one.before, places[one.student])):
        shares = [pages.percent(each.share(one.student)) for each in (both.one, both.other)]
        runs = (both.one, both.other)
        held = ["; ".join(each.market.section(code) for code in each.held(one.student)) for each in runs]
        rows.append((both.other.market.student(one.student), one.what, one.before, one.after, *shares, *held))
    return rows


def sum_line(both: Both) -> str:
    """How many gained and lost."""
    counts = {what: sum(one.what == what for one in both.changes.values()) for what in (GAINED, LOST, SAME, OTHER)}
    moved = sum(one.what == SAME and one.moved for one in both.changes.values())
    other = f"; {counts[OTHER]} with other wishes are not compared" if counts[OTHER] else ""
    return (
        f"By their own ratings {counts[GAINED]} of {tell.count(len(both.changes), 'student', 'students')} gained, "
        f"{counts[LOST]} lost, and for {counts[SAME]} it is worth as much ({moved} of them hold other sections){other}."
    )


def told(both: Both, groups: Dict[str, str], arguments: argparse.Namespace) -> List[str]:
    """The lines on the terminal."""
    lines = [f"A: {title_of(both.one.found)}", f"B: {title_of(both.other.found)}"]
    lines += ["  " + line for line in differences(both)]
    lines += ["", *tell.table(("", "A", "B"), figure_rows(both)), "", sum_line(both)]
    if groups:
        lines += ["", *tell.table(GROUP_HEADER, group_rows(both, groups, arguments.least))]
    for what in (LOST, GAINED):
        those = [one for one in both.changes.values() if one.what == what]
        found = sorted(those, key=lambda one: one.after - one.before, reverse=what == GAINED)
        lines += [""] * bool(found) + [f"{what}: {in_words(both, one)}" for one in found[:SHOWN]]
        lines += [f"and {len(found) - SHOWN} more, whom --out FOLDER writes"] * (len(found) > SHOWN)
    changed = [row for row in section_rows(both) if row[1:6:2] != row[2:7:2]]
    if changed:
        lines += ["", *tell.table(SECTION_HEADER, changed[:SHOWN])]
        lines += [f"and {len(changed) - SHOWN} more sections, which --out FOLDER writes"] * (len(changed) > SHOWN)
    return lines


def in_words(both: Both, one: Change) -> str:
    """A student's change in words."""
    before, after = (set(each.held(one.student)) for each in (both.one, both.other))
    lost = ", ".join(both.one.market.section(code) for code in both.one.held(one.student) if code not in after)
    won = ", ".join(both.other.market.section(code) for code in both.other.held(one.student) if code not in before)
    return f"{both.names(one.student)} from {one.before} to {one.after}: {lost or 'nothing'} for {won or 'nothing'}"


def written(both: Both, groups: Dict[str, str], arguments: argparse.Namespace) -> Dict[str, bytes]:
    """The files of --out."""
    tables_of: Dict[str, List[Tuple[object, ...]]] = {
        "students.csv": [STUDENT_HEADER, *student_rows(both)],
        "sections.csv": [SECTION_HEADER, *section_rows(both)],
        "groups.csv": [GROUP_HEADER, *group_rows(both, groups, arguments.least)],
    }
    files = {"compare.html": page(both, groups, arguments.least).encode("utf-8")}
    return {**files, **{name: tables.sheet_bytes(rows) for name, rows in tables_of.items()}}


def page(both: Both, groups: Dict[str, str], least: int) -> str:
    """The page: what differs, the figures, the groups, and a plot of gains and losses with its table."""
    parts = [pages.paragraph(f"A is {title_of(both.one.found)}, B is {title_of(both.other.found)}.")]
    parts += [pages.listed(differences(both)), pages.paragraph(sum_line(both))]
    parts.append(pages.table("The figures of both runs", ("", "A", "B"), figure_rows(both)))
    if groups:
        parts.append(pages.table("Groups", GROUP_HEADER, group_rows(both, groups, least)))
    parts.append(gains(both))
    parts.append(pages.table("Sections", SECTION_HEADER, section_rows(both)))
    parts.append(pages.table("Students, those who lost most first", STUDENT_HEADER, student_rows(both)))
    return pages.page("Two runs beside each other", parts)


def gains(both: Both) -> str:
    """How many students gained or lost so many percent of their best bundle."""
    spans: Dict[int, int] = {}
    for one in both.changes.values():
        shares = [each.share(one.student) for each in (both.one, both.other)]
        if one.what in (GAINED, LOST) and shares[0] is not None and shares[1] is not None:
            place = int((shares[1] - shares[0]) // 10)
            spans[place] = spans.get(place, 0) + 1
    places = range(min(spans, default=0), max(spans, default=-1) + 1)
    items = [(f"{10 * place} to {10 * place + 10}", float(spans.get(place, 0))) for place in places]
    axes = plots.Axes(
        "Who gained and who lost", sum_line(both), "points of percent of the best bundle, from A to B", "students"
    )
    return pages.plot_with_table(axes, items)
