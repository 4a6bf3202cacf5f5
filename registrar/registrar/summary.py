"""`summary`: one page of figures and plots from the published text; by groups of students; for a council."""

from __future__ import annotations

import argparse
import statistics
from typing import Dict, List, Sequence, Tuple

from registrar import (
    audit, compare, council, figures, manifest, measures, pages, plots, reasons, register, run_market, tables, tell,
    work_log,
)

NAME = "summary"
HELP = (
    "write a page of figures and plots, each with its table (HTML with SVG): seats, prices, errors, budgets, "
    "aftermarket, choices, shares of the best bundle, envy; by any column of the register; or one page for a council "
    "in the school's own words"
)


def add_arguments(parser: argparse.ArgumentParser) -> None:
    """The options of `summary`."""
    manifest.add_argument(parser)
    parser.add_argument(
        "--out", default="summary.html", metavar="FILE", help="where the page goes (default: summary.html)"
    )
    register.add_argument(parser)
    compare.add_groups(parser)
    parser.add_argument(
        "--council", metavar="WORDS", help="write the page that this text describes, in place of the whole summary"
    )
    parser.add_argument("--no-audit", action="store_true", help="leave envy out: `audit` checks the whole text first")
    run_market.add_workers(parser)


def writes(arguments: argparse.Namespace) -> List[str]:
    """The folder of the manifest and that of the page."""
    return work_log.folders(arguments.manifest, work_log.folder_of(arguments.out))


def run(arguments: argparse.Namespace) -> int:
    """Writes the page."""
    found = manifest.read(arguments.manifest, trial_too=True)
    read = [*manifest.files_read(found), *[("text", arguments.council)] * bool(arguments.council)]
    tables.refuse_over([arguments.out], read)
    made = register.read_or_tell(arguments.mapping, found.catalogue, found.roll) if arguments.mapping else None
    groups = compare.groups_by(arguments, made)
    words = council.read(arguments.council) if arguments.council else None
    measured = measures.measured(found, arguments.workers, not arguments.no_audit)
    parts = measures.groups_of(measured, groups, arguments.least) if groups else [whole(measured)]
    if words is not None:
        text = council.page(words, measured, parts, arguments.by or "")
    else:
        text = page(measured, parts, arguments.by or "")
    tables.write_whole(arguments.out, text.encode("utf-8"))
    for line in tell.table(*group_table(measured, parts, arguments.by or "")) if groups else []:
        tell.say(line)
    tell.say(f"{arguments.out}: figures and plots of {compare.title_of(found) if found.trial else found.text}")
    return 0


def whole(run_of: measures.Measured) -> measures.Group:
    """All students as one group."""
    return measures.group(run_of, measures.ALL, run_of.students)


def page(run_of: measures.Measured, parts: Sequence[measures.Group], column: str) -> str:
    """The whole page."""
    shown = [pages.paragraph(f"This is the trial '{run_of.found.trial}', and no run.")] if run_of.found.trial else []
    shown.append(facts(run_of))
    if len(parts) > 1:
        shown.append(pages.table(f"By {column}", *group_table(run_of, parts, column)))
        shown.append(pages.paragraph(EXPLAINED))
        shown += group_plots(parts, column)
    shown += market_plots(run_of) + student_plots(run_of)
    shown.append(base_plot(run_of))
    if run_of.envy:
        shown.append(envy_plot(run_of.envy))
    return pages.page(f"Summary of the {'trial' if run_of.found.trial else 'market'}", shown)


EXPLAINED = (
    "A share is the utility of what a student holds in the end, in percent of its best bundle if all prices were 0, "
    "by its own ratings and adjustments; the column has the mean over the students who wished for something. A first "
    "choice is a section that the student rated highest. What is spent is the sum of the prices of what is held, of "
    "which the aftermarket's raise may have paid a part."
)


def facts(run_of: measures.Measured) -> str:
    """The table of figures."""
    text = run_of.market.text
    found = run_of.found
    seats = sum(one.seats for one in text.used.values())
    without = [name for name, final in text.finals.items() if not final.sections]
    unheard = [name for name in without if not run_of.market.ratings.get(name)]
    second = sum(figures.counts(text.bundles, list(text.prices)).values())
    everybody = whole(run_of)
    rows: List[Tuple[str, str]] = [
        ("Made", f"{found.made}, in {tell.seconds(found.elapsed)}"),
        ("Students", str(len(text.finals))),
        ("Sections", f"{len(text.prices)}, with {seats} seats"),
        ("Seats taken in the second stage", str(second)),
        ("Seats taken in the end", str(sum(one.used for one in text.used.values()))),
        ("Students without a section", f"{len(without)} ({len(unheard)} of them wished for none)"),
        ("Share of the best bundle, mean", pages.percent(everybody.mean_share)),
        ("Students with a first choice", str(everybody.first)),
        ("Clearing error of the search", str(text.error)),
        ("Sections with a price", str(sum(1 for price in text.prices.values() if price))),
        ("Students whose sections the aftermarket changed", str(len(figures.changed(text)))),
    ]
    if run_of.envy:
        rows += [("Envy", line) for line in audit.in_words(run_of.envy)]
    return pages.table("", ("figure", "value"), rows)


def group_table(
    run_of: measures.Measured, parts: Sequence[measures.Group], column: str
) -> Tuple[Sequence[str], List[Sequence[object]]]:
    """The header and the rows of the table of groups."""
    keys = [key for key in council.COLUMNS if key != "envious" or run_of.envy is not None]
    header = [column or "group", *(council.COLUMNS[key] for key in keys)]
    return header, [[one.name, *(council.value(key, one, run_of.market.own) for key in keys)] for one in parts]


def group_plots(parts: Sequence[measures.Group], column: str) -> List[str]:
    """The plots by group, of groups beside all."""
    shown = []
    for title, up, figure in council.PLOTS.values():
        items = [(one.name, figure(one)) for one in parts]
        told = "; ".join(f"{name}: {number:g}" for name, number in items)
        shown.append(pages.plot_with_table(plots.Axes(f"{title}, by {column}", told, column, up), items))
    return shown


def market_plots(run_of: measures.Measured) -> List[str]:
    """The plots of sections and of stages."""
    market = run_of.market
    text = market.text
    shares = figures.fill(text)
    full = sum(1 for _, share in shares if share >= 100)
    fill = named(market, [(name, round(share, 1)) for name, share in shares])
    dear = named(market, figures.prices(text))
    errors = figures.errors_by_stage(text)
    passes = [(name, float(number)) for name, number in figures.changes_by_pass(text)]
    told = f"{full} of {len(fill)} sections are full, the fullest stand first."
    return [
        pages.plot_with_table(plots.Axes("Seats used", told, "section", "percent"), fill),
        pages.plot_with_table(plots.Axes("Prices", dearest(dear), "section", "tokens"), dear),
        pages.plot_with_table(plots.Axes("Clearing error by stage", listed(errors), "stage", "error"), errors),
        pages.plot_with_table(
            plots.Axes("Changes in the aftermarket", listed(passes), "pass", "turns that changed"), passes
        ),
    ]


def named(market: reasons.Market, items: Sequence[Tuple[str, float]]) -> List[Tuple[str, float]]:
    """Figures of sections, with the school's own spelling of each."""
    return [(market.section(section), value) for section, value in items]


def listed(items: Sequence[Tuple[str, float]]) -> str:
    """All items in words."""
    return "; ".join(f"{name}: {value:g}" for name, value in items) + "."


def dearest(prices: List[Tuple[str, float]]) -> str:
    """The dearest section in words."""
    if not prices:
        return "There are no sections."
    return f"The dearest section, {prices[0][0]}, costs {prices[0][1]:g} tokens."


def student_plots(run_of: measures.Measured) -> List[str]:
    """The plots of budgets, of choices and of shares."""
    budgets = list(run_of.market.text.budgets.values())
    span = f"Budgets from {min(budgets)} to {max(budgets)} tokens." if budgets else "No students."
    choices = figures.choices(run_of.market)
    told = f"{choices[0][1]:g} students have the section that they rated highest, {choices[1][1]:g} the next one."
    axes = plots.Axes("Who has the first, second, .. choice", told, "choice, by the own ratings", "students")
    shares = council.shares_by_ten(whole(run_of))
    return [
        pages.plot_with_table(plots.Axes("Budgets", span, "tokens, from", "students"), plots.spans(budgets)),
        pages.plot_with_table(axes, choices),
        pages.plot_with_table(plots.Axes("Shares of the best bundle", listed(shares), "percent", "students"), shares),
    ]


def base_plot(run_of: measures.Measured) -> str:
    """The budgets by base: a bar for the median, and a table of how far they reach."""
    budgets = run_of.market.text.budgets
    bases: Dict[int, List[int]] = {}
    for name, student in run_of.market.students.items():
        bases.setdefault(student.budget, []).append(budgets[name])
    rows = [
        (base, len(found), min(found), f"{statistics.median(found):g}", max(found))
        for base, found in sorted(bases.items())
    ]
    items = [(str(base), float(statistics.median(found))) for base, found in sorted(bases.items())]
    told = "; ".join(f"base {base}: {least} to {most} tokens" for base, _, least, _, most in rows)
    picture = plots.bars(plots.Axes("Budgets by base", told, "base", "tokens, median"), items)
    return f"<figure>{picture}{pages.table('', ('base', 'students', 'least', 'median', 'greatest'), rows)}</figure>"


def envy_plot(envy: Dict[str, audit.Envy]) -> str:
    """How many students envy so many others in the end."""
    found: Dict[int, int] = {}
    for lower, higher, _ in envy["final"].students.values():
        found[lower + higher] = found.get(lower + higher, 0) + 1
    items = [(str(number), float(found.get(number, 0))) for number in range(max(found, default=0) + 1)]
    told = f"{found.get(0, 0)} students envy nobody."
    return pages.plot_with_table(plots.Axes("Envy in the end", told, "others whom a student envies", "students"), items)
