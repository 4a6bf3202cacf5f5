"""`lists`: what a school hands out, from the published text: students, rosters, sections, a text for each student."""

from __future__ import annotations

import argparse
import concurrent.futures
import os
import tempfile
from dataclasses import dataclass
from typing import Callable, Dict, FrozenSet, Iterable, List, Optional, Sequence, Tuple

from registrar import (
    aftermarket, alone, explain, mails, manifest, own_names, program, published, reasons, register, run_market, sheet, streams,
    tables, tell, work_log,
)

NAME = "lists"
HELP = (
    "write students.csv, rosters.csv, sections.csv and for each student a text and its own lines of the sessions, by "
    "the manifest; the tables have the school's own spelling where names.csv stands beside the catalogue"
)

# What may be amiss with addresses, and is allowed by word alone.
ALLOWED = ("no-e-mail", "same-e-mail")

BOOK = "lists.xlsx"


@dataclass(frozen=True)
class Ask:
    """What the texts are made from: manifest, market, turns, each student's lines, what it said, where reasons are asked."""

    found: manifest.Manifest
    market: reasons.Market
    after: aftermarket.Aftermarket
    lines: Dict[str, List[int]]
    said: Dict[str, List[tables.Command]]
    room: Optional[alone.Room]
    post: Optional[mails.Post]
    mailed: FrozenSet[str]


@dataclass(frozen=True)
class Told:
    """What a student is told: its text, and its mail, where it has one."""

    text: str
    mail: Optional[bytes]


def add_arguments(parser: argparse.ArgumentParser) -> None:
    """The options of `lists`."""
    parser.set_defaults(takes_names=True)
    manifest.add_argument(parser)
    parser.add_argument("--out", default="lists", metavar="FOLDER", help="where the lists go (default: lists)")
    parser.add_argument(
        "--student", action="append", default=[], metavar="NAME", help="texts for these students alone; may be repeated"
    )
    parser.add_argument(
        "--no-reasons", action="store_true", help="leave the program's reasons out of the texts, which takes less time"
    )
    register.add_argument(parser)
    parser.add_argument(
        "--mail", metavar="TEMPLATE",
        help="with --mapping: write a mail for each student as a file, mails/NAME.eml; nothing is sent",
    )
    parser.add_argument(
        "--allow", action="append", default=[], choices=ALLOWED, metavar="KIND",
        help=f"with --mail: no mail for students without an address, or one address for several ({', '.join(ALLOWED)})",
    )
    run_market.add_workers(parser)


def writes(arguments: argparse.Namespace) -> List[str]:
    """The folder of the manifest and that of the lists."""
    return work_log.folders(arguments.manifest, arguments.out)


def run(arguments: argparse.Namespace) -> int:
    """Checks the text, and writes the lists."""
    if arguments.mail and not arguments.mapping:
        raise tell.Trouble("--mail needs --mapping, which says where names and addresses stand", tell.USAGE)
    found = manifest.read(arguments.manifest)
    answer = program.call(manifest.check_words(found), tell.Life("checking the text"))
    if answer.status:
        tell.say(answer.text.rstrip("\n"))
        explain.tell_refusal(found, answer)
        return answer.status
    market = explain.market_of(found)
    names = chosen(arguments.student, market)
    made = register.read_or_tell(arguments.mapping, found.catalogue, found.roll) if arguments.mapping else None
    post, mailed = post_of(arguments, made, names)
    written = targets(arguments.out, stems_of(market, names), stems_of(market, mailed))
    tables.refuse_over(written, read_by(arguments, found, made))
    tables.make_folder(os.path.join(arguments.out, "students"))
    own = market.own
    books = {
        "students": register.with_people(made, student_rows(market, own)),
        "rosters": register.with_people(made, roster_rows(market, own)),
        "sections": section_rows(market, own),
    }
    for name, rows in books.items():
        tables.write_csv(os.path.join(arguments.out, name + ".csv"), rows)
    write_book(os.path.join(arguments.out, BOOK), books)
    with tempfile.TemporaryDirectory() as folder:
        commands = streams.in_order(market.text.order, found.sessions)
        room = None if arguments.no_reasons else alone.room(folder, market, commands)
        after = aftermarket.read(market, found.settings)
        ask = Ask(found, market, after, own_lines(market.text), streams.by_student(commands), room, post, frozenset(mailed))
        write_texts(arguments.out, ask, names, arguments.workers)
    warn_of_others(arguments.out, stems_of(market, market.students))
    texts = tell.count(len(names), "text", "texts")
    made_of_each = f"{texts} in students/, each with the student's session"
    tell.say(f"{arguments.out}: students.csv, rosters.csv, sections.csv, and {made_of_each}")
    if post is not None:
        none = f"; {len(names) - len(mailed)} without an address have none" if len(mailed) < len(names) else ""
        tell.say(f"{arguments.out}: {tell.count(len(mailed), 'mail', 'mails')} in mails/, which nobody has sent{none}")
    return 0


def read_by(
    arguments: argparse.Namespace, found: manifest.Manifest, made: Optional[register.Register]
) -> List[Tuple[str, str]]:
    """What each file is that the command reads, and its path."""
    exports = [("export", source.path) for source in made.mapping.sources] if made else []
    words = [("mapping", arguments.mapping), ("template", arguments.mail)]
    return [*manifest.files_read(found), *exports, *((what, path) for what, path in words if path)]


def post_of(
    arguments: argparse.Namespace, made: Optional[register.Register], names: Sequence[str]
) -> Tuple[Optional[mails.Post], List[str]]:
    """The template, and who has a mail. Faults of both are told, and end the command."""
    if made is None or not arguments.mail:
        return None, []
    post = mails.read(arguments.mail, made)
    register.refuse(made.faults, arguments.mapping)
    if arguments.no_reasons and "reasons" in mails.names_of(post.template):
        raise tell.Trouble(f"{arguments.mail} has the field {{reasons}}, which --no-reasons leaves out", tell.USAGE)
    mailed = mails.look_at_students(post, names, arguments.allow)
    register.refuse(made.faults, arguments.mapping)
    return post, mailed


def stems_of(market: reasons.Market, names: Iterable[str]) -> List[str]:
    """What the files of these students are called by: never by a drawn name, where its own is known."""
    return [own_names.file_of(market.own, name) for name in names]


def targets(folder: str, stems: Sequence[str], mailed: Sequence[str]) -> List[str]:
    """The files that are written: the texts of these students, and the mails of those."""
    texts = [os.path.join("students", name + ending) for name in stems for ending in (".txt", ".session")]
    posted = [os.path.join("mails", name + ".eml") for name in mailed]
    tables_of_all = ("students.csv", "rosters.csv", "sections.csv", BOOK)
    return [os.path.join(folder, name) for name in (*tables_of_all, *texts, *posted)]


def chosen(names: Sequence[str], market: reasons.Market) -> List[str]:
    """The students whose texts are written."""
    found = [own_names.meant(market.own, "student", name) for name in names]
    for name, word in zip(found, names):
        if name not in market.students:
            hint = own_names.nearest(market.own, "student", word, market.students)
            raise tell.Trouble(f"no student of the roll has the name '{word}'. Capital letters count{hint or '.'}")
    return list(dict.fromkeys(found)) or list(market.students)


def student_rows(market: reasons.Market, own: own_names.Own) -> List[Sequence[object]]:
    """A row for each student: final sections, credits, tokens spent and left."""
    rows: List[Sequence[object]] = [("student", "sections", "credits", "spent", "left")]
    for name, final in market.text.finals.items():
        spent = market.text.cost(final.sections)
        sections = "; ".join(own_names.spelt(own, "section", one) for one in final.sections)
        credits = credits_cell(market, final.sections)
        rows.append((own_names.spelt(own, "student", name), sections, credits, spent, left_of(market, name)))
    return rows


def left_of(market: reasons.Market, name: str) -> int:
    """The tokens that a student has left; what the aftermarket's raise paid is not owed."""
    return max(0, market.text.budgets[name] - market.text.cost(market.text.finals[name].sections))


def credits_of(market: reasons.Market, sections: Sequence[str]) -> int:
    """The credits of these sections, in the program's units."""
    return sum(market.sections[one].credits for one in sections)


def credits_cell(market: reasons.Market, sections: Sequence[str]) -> object:
    """The credits of these sections in the school's own units: a number where its decimal sign is the point."""
    text = own_names.credits(market.own, credits_of(market, sections))
    return text if "," in text else float(text) if "." in text else int(text)


def roster_rows(market: reasons.Market, own: own_names.Own) -> List[Sequence[object]]:
    """A row for each seat that is taken: section by section, the students in the order of the roll."""
    rows: List[Sequence[object]] = [("section", "student")]
    for section in market.sections:
        code = own_names.spelt(own, "section", section)
        holders = [name for name, final in market.text.finals.items() if section in final.sections]
        rows += [(code, own_names.spelt(own, "student", name)) for name in holders]
    return rows


def section_rows(market: reasons.Market, own: own_names.Own) -> List[Sequence[object]]:
    """A row for each section: price, seats, how many are used, and how many students rated it."""
    rows: List[Sequence[object]] = [("section", "price", "seats", "used", "wanted")]
    for section, used in market.text.used.items():
        wanted = sum(1 for rated in market.ratings.values() if section in rated)
        code = own_names.spelt(own, "section", section)
        rows.append((code, market.text.prices[section], used.seats, used.used, wanted))
    return rows


def write_book(path: str, books: Dict[str, List[Sequence[object]]]) -> None:
    """Writes the tables as one .xlsx too, where that can be done."""
    if sheet.has_xlsx():
        sheet.write_book(path, {name: [list(row) for row in rows] for name, rows in books.items()})


def missed(market: reasons.Market, name: str) -> List[str]:
    """The sections that a student lacks and rated higher than the lowest of what it has, highest rating first."""
    rated = market.ratings.get(name, {})
    held = market.text.finals[name].sections
    least = min((rated.get(one, 0) for one in held), default=0)
    better = [one for one in rated if one not in held and rated[one] > least]
    places = {code: place for place, code in enumerate(market.sections)}
    return sorted(better, key=lambda one: (-rated[one], places[one]))


def write_texts(folder: str, ask: Ask, names: Sequence[str], workers: int) -> None:
    """Writes for each student a text, what it said, and its mail, a few at a time, and says how far it is."""
    life = tell.Life("")
    if ask.mailed:
        tables.make_folder(os.path.join(folder, "mails"))
    with concurrent.futures.ThreadPoolExecutor(max_workers=max(1, workers)) as pool:
        tasks = [pool.submit(told_of, ask, name) for name in names]
        try:
            for done, (name, task) in enumerate(zip(names, tasks), 1):
                stem = own_names.file_of(ask.market.own, name)
                write_told(folder, stem, task.result(), own_session(name, ask.said.get(name, [])))
                life.what = f"texts: {done} of {len(names)}"
                life.tick()
        finally:
            # Where a signal or a fault ends this, nobody asks for the others any more.
            for task in tasks:
                task.cancel()
    life.end()


def write_told(folder: str, stem: str, told: Told, session: bytes) -> None:
    """Writes what a student is told under its files' name: its text, what it said, and its mail, where it has one."""
    path = os.path.join(folder, "students", stem)
    tables.write_whole(path + ".txt", told.text.encode("utf-8"))
    tables.write_whole(path + ".session", session)
    if told.mail is not None:
        tables.write_whole(os.path.join(folder, "mails", stem + ".eml"), told.mail)


def warn_of_others(folder: str, names: Sequence[str]) -> None:
    """Says which texts and mails of an earlier run are still there: they are of nobody on this roll."""
    for part, ending, one, more in (("students", ".txt", "text", "texts"), ("mails", ".eml", "mail", "mails")):
        path = os.path.join(folder, part)
        wanted = {name + ending for name in names}
        there = sorted(os.listdir(path)) if os.path.isdir(path) else []
        others = [name for name in there if name.endswith(ending) and name not in wanted]
        if others:
            counted = tell.count(len(others), one, more)
            tell.warn(f"warning: {path} has {counted} of nobody on this roll, such as {others[0]}")


def told_of(ask: Ask, name: str) -> Told:
    """A student's text, and its mail, where it has one."""
    why = reason_lines(ask, ask.room, name) if ask.room is not None else []
    text = student_text(ask, name, why)
    if ask.post is None or name not in ask.mailed:
        return Told(text, None)
    values = field_values(ask, ask.post.register, name, why)
    return Told(text, mails.mail(ask.post, name, values, own_session(name, ask.said.get(name, []))))


def field_values(
    ask: Ask, made: register.Register, name: str, why: Sequence[str]
) -> Dict[str, Callable[[], str]]:
    """What the fields of a mail say of a student."""
    market = ask.market
    final = market.text.finals[name].sections
    return {
        "student": lambda: own_names.spelt(made.own, "student", name),
        "name": lambda: made.said(name, "name"),
        "e-mail": lambda: made.said(name, "e-mail"),
        "sections": lambda: "\n".join(section_lines(market, name, final)) if final else "none",
        "credits": lambda: own_names.credits(market.own, credits_of(market, final)),
        "budget": lambda: str(market.text.budgets[name]),
        "spent": lambda: str(market.text.cost(final)),
        "left": lambda: str(left_of(market, name)),
        "reasons": lambda: "\n".join(why).strip("\n"),
        "lines": lambda: "\n".join(f"{number}: {market.text.lines[number - 1]}" for number in ask.lines[name]),
    }


def student_text(ask: Ask, name: str, why: Sequence[str]) -> str:
    """A student's own lines, and why it has no seat in what it would rather have had."""
    text, market = ask.market.text, ask.market
    final = text.finals[name].sections
    spent = text.cost(final)
    lines = [market.student(name), ""]
    credits = own_names.credits_in_words(market.own, credits_of(market, final))
    lines.append(f"You have {market.listed(final)}: {credits}.")
    raised = ": the aftermarket raised the budgets" if spent > text.budgets[name] else ""
    lines.append(f"Your budget was {text.budgets[name]} tokens. What you have costs {spent}{raised}.")
    lines += ["", "Your sections:", ""] + section_lines(market, name, final)
    lines += ["", "Your lines of the published text, with their numbers:", ""]
    lines += [f"  {number}: {text.lines[number - 1]}" for number in ask.lines[name]]
    lines += names_of_lines(ask, name)
    return "\n".join([*lines, *why]) + "\n"


def own_session(name: str, said: Sequence[tables.Command]) -> bytes:
    """What a student said, as a session: by it and the published files a reader checks this student's bundles."""
    return f"# What {name} said, in the order in which the desk took it.\n".encode("ascii") + streams.as_session(said)


def section_lines(market: reasons.Market, name: str, final: Sequence[str]) -> List[str]:
    """The sections that a student has, with price, own rating and meetings."""
    rated = market.ratings.get(name, {})
    rows = [
        (
            market.section(one), market.text.prices[one], rated.get(one, 0), credits_cell(market, [one]),
            own_names.meetings(market.own, one, market.sections[one].meetings or "none"),
        )
        for one in final
    ]  # fmt: skip
    return ["  " + line for line in tell.table(("section", "price", "your rating", "credits", "meetings"), rows)]


def names_of_lines(ask: Ask, name: str) -> List[str]:
    """What the names in a student's lines stand for, where the school spells them otherwise."""
    market = ask.market
    bundles = [bundle for bundle in (*market.text.turns, market.text.bundles[name]) if bundle.student == name]
    named = {section for bundle in bundles for section in bundle.sections}
    pairs = [(name, market.student(name))] + [(one, market.section(one)) for one in market.sections if one in named]
    told = [f"{one} is {original}" for one, original in pairs if one != original]
    return ["", f"  There {', '.join(told)}."] if told else []


def own_lines(text: published.Published) -> Dict[str, List[int]]:
    """The numbers of the lines of the published text that are each student's own. The budgets stand from line 3 on."""
    found = {name: [number] for number, name in enumerate(text.budgets, 3)}
    for bundle in (*text.bundles.values(), *text.turns, *text.finals.values()):
        found[bundle.student].append(bundle.line)
    return found


def reason_lines(ask: Ask, room: alone.Room, name: str) -> List[str]:
    """For each section that the student would rather have had, why it has none."""
    if not ask.market.ratings.get(name):
        return ["", "No wish of yours was heard: at the end no section has a rating of yours above 0."]
    better = missed(ask.market, name)
    if not better:
        return ["", "You have all that you rated highest."]
    lines = ["", "Sections that you rated higher than one of yours, and have not:"]
    settled, final = reasons.held_by(ask.market, name)
    if settled != final:
        lines += ["", reasons.of_second_stage(ask.market, settled)]
    lines += ["", aftermarket.order_in_words(ask.after, name)]
    alone.enter(room, name)
    found = [reason_of(ask, room, name, section) for section in better]
    answers = aftermarket.ask(ask.after, room, name, better)
    alone.leave(room, name)
    for reason in found:
        rating = ask.market.ratings[name][reason.section]
        lines += ["", f"  {ask.market.section(reason.section)} (your rating {rating})"]
        told = (reasons.in_words(ask.market, reason), aftermarket.in_words(ask.after, reason, answers))
        lines += [f"  {one}" for one in told if one]
    return lines


def reason_of(ask: Ask, room: alone.Room, name: str, section: str) -> reasons.Reason:
    """The program's answer, in a market of the student alone where its budget fits there, else in the whole one."""
    if ask.market.text.budgets[name] <= alone.MOST_BASE:
        answer = alone.explain(room, name, section)
    else:
        answer = program.call(manifest.explain_words(ask.found, name, section))
    if answer.status:
        raise tell.Trouble(f"explain {name} {section}: {answer.text}", tell.FAULTS)
    return reasons.read_reason(answer.lines)
