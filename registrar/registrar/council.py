"""One page for a council, in the school's own words: a text with figures in it, a table of groups, and plots.

The text has lines of a head, an empty line, and paragraphs with empty lines between them:

    Title: How seats were given, spring 2027
    Columns: students, share, first
    Column share: what they got of what they wished for

    Of {students} students {first percent} have a course that they wished for most. First-years got {share of 1}.

    {table}

    {plot share}
"""

from __future__ import annotations

import functools
import re
from dataclasses import dataclass
from typing import Callable, Dict, List, Mapping, Sequence, Tuple

from registrar import fields, measures, own_names, pages, plots, register, tables
from registrar.faults import Faults

#: The columns of the table of groups, and what they are called where the text says nothing.
COLUMNS: Mapping[str, str] = {
    "students": "students",
    "without": "without a section",
    "seats": "sections a student",
    "credits": "credits a student",
    "share": "share of the best bundle",
    "first": "with a first choice",
    "spent": "tokens spent a student",
    "budget": "budget, median",
    "envious": "envy somebody",
}

#: The plots by group: title, what is counted, and its value.
PLOTS: Mapping[str, Tuple[str, str, Callable[[measures.Group], float]]] = {
    "share": ("Mean share of the best bundle", "percent", lambda one: round(one.mean_share or 0, 1)),
    "first": ("With a first choice", "percent of the students", lambda one: percent_of(one.first, one)),
    "without": ("Without a section", "percent of the students", lambda one: percent_of(one.without, one)),
    "seats": ("Sections a student", "sections", lambda one: each(one.seats, one)),
    "spent": ("Tokens spent a student", "tokens", lambda one: round(one.spent / max(1, one.students))),
    "budget": ("Budget, median", "tokens", lambda one: median(one.budgets)),
}

#: The fields that speak of all students, and, as `{share of GROUP}`, of a group.
FIELDS = (*COLUMNS, "first percent", "without percent", "envious percent", "share median")

#: The fields that speak of the market.
OF_MARKET = ("sections", "seats in all", "seats taken", "seats taken percent", "full sections", "error")

TITLE, CHOSEN, LANGUAGE, CALLED, WORD = "Title", "Columns", "Language", "Column ", "Word "

#: Words of tables and plots that the text may say otherwise.
WORDS = ("all", "small groups", "percent", "percent of the students", "sections", "tokens")

STYLE = (
    "svg{max-height:75mm;width:auto}@media print{body{font-size:10pt}h1{margin-top:0;font-size:16pt}"
    "svg{max-height:55mm}figure,table{margin:.6em 0}@page{margin:15mm}}"
)


@dataclass(frozen=True)
class Words:
    """A text that was read: its title, the columns with what they are called, and the paragraphs with their lines."""

    path: str
    title: str
    columns: Dict[str, str]
    group: str
    language: str
    others: Dict[str, str]
    paragraphs: Tuple[Tuple[int, str], ...]

    def word(self, text: str) -> str:
        """A word of tables and plots as the text says it."""
        return self.others.get(text, text)

    def called(self, group: str) -> str:
        """The name of a group; `all` and the groups that were put together may have other ones."""
        small = group.startswith(measures.OTHERS.partition("{")[0]) and "small groups" in self.others
        return self.others["small groups"] if small else self.word(group) if group == measures.ALL else group


def read(path: str) -> Words:
    """Reads the text. Its faults are told, and end the command."""
    faults = Faults()
    lines = tables.read_text(path).replace("\r\n", "\n").split("\n")
    end = next((at for at, line in enumerate(lines) if not line.strip()), len(lines))
    head: Dict[str, str] = {}
    for number, line in enumerate(lines[:end], 1):
        name, colon, value_of = line.partition(":")
        known = name in (TITLE, CHOSEN, LANGUAGE) or name.startswith((CALLED, WORD))
        if not colon or not known or name in head or not value_of.strip():
            expected = (
                "`Title: ..`, `Columns: students, share`, `Column share: ..`, `Word all: ..` or `Language: en`, once"
            )
            faults.add(path, number, "", line, expected)
        else:
            head[name] = value_of.strip()
    if TITLE not in head and not faults:
        faults.add(path, None, "", "", "a line `Title: ..` above the first empty line")
    columns = columns_of(path, head, faults)
    others = {name[len(WORD) :]: told for name, told in head.items() if name.startswith(WORD)}
    for name in [name for name in others if name not in WORDS]:
        faults.add(path, None, "", f"{WORD}{name}", f"one of the words {', '.join(WORDS)}")
    language = head.get(LANGUAGE, "en")
    if not re.fullmatch("[A-Za-z]{2,8}(-[A-Za-z0-9]{1,8})*", language):
        faults.add(path, None, "", language, "a language, as en or fr")
    register.refuse(faults, path)
    return Words(path, head[TITLE], columns, head.get(CALLED + "group", ""), language, others, paragraphs(lines, end))


def columns_of(path: str, head: Mapping[str, str], faults: Faults) -> Dict[str, str]:
    """The columns in their order, and what each is called."""
    chosen = [one.strip() for one in head.get(CHOSEN, ", ".join(COLUMNS)).split(",")]
    called = [name[len(CALLED) :] for name in head if name.startswith(CALLED)]
    for name in [one for one in [*chosen, *called] if one not in COLUMNS and one != "group"]:
        faults.add(path, None, "", name, f"one of the columns {', '.join(COLUMNS)}, or group")
    return {one: head.get(CALLED + one, COLUMNS.get(one, one)) for one in chosen if one != "group"}


def paragraphs(lines: Sequence[str], end: int) -> Tuple[Tuple[int, str], ...]:
    """The paragraphs below the head, each with the number of its first line."""
    found: List[Tuple[int, List[str]]] = []
    above = True
    for number, line in enumerate(lines[end:], end + 1):
        if line.strip():
            if above:
                found.append((number, []))
            found[-1][1].append(line.strip())
        above = not line.strip()
    return tuple((number, " ".join(text)) for number, text in found)


def page(words: Words, run: measures.Measured, parts: Sequence[measures.Group], column: str) -> str:
    """The page. A field that nobody knows, or of a group that is not there, is told, and ends the command."""
    values = values_of(run, parts)
    blocks: Dict[str, Callable[[], str]] = {"table": lambda: table(words, run, parts, column)}
    for name in PLOTS:
        blocks[f"plot {name}"] = functools.partial(plot, words, name, parts, column)
    faults = Faults()
    shown = []
    for line, text in words.paragraphs:
        block = blocks.get(" ".join(text[1:-1].split())) if text.startswith("{") and text.endswith("}") else None
        if block is not None:
            shown.append(block())
            continue
        try:
            fields.refuse_unknown(text, [*values, *blocks])
            shown.append(pages.paragraph(fields.filled(text, lambda name: values[name])))
        except fields.FieldFault as fault:
            faults.add(words.path, line, "", fault.value, str(fault))
        except KeyError as error:
            faults.add(words.path, line, "", f"{{{error.args[0]}}}", "a paragraph of its own for a table or a plot")
    register.refuse(faults, words.path)
    if run.found.trial:
        shown.insert(0, pages.paragraph(f"This is the trial '{run.found.trial}', and no run."))
    return pages.page(words.title, shown, STYLE, words.language)


def values_of(run: measures.Measured, parts: Sequence[measures.Group]) -> Dict[str, str]:
    """What the fields say: of all, of each group, and of the market."""
    text, own = run.market.text, run.market.own
    seats = [one for one in text.used.values() if one.seats]
    everybody = parts[-1]
    found = of_group(everybody, own)
    for one in parts[:-1]:
        found.update({f"{name} of {one.name}": told for name, told in of_group(one, own).items()})
    total = sum(one.seats for one in seats)
    taken = sum(one.used for one in seats)
    found.update({
        "sections": str(len(text.used)), "seats in all": str(total), "seats taken": str(taken),
        "seats taken percent": pages.percent(100 * taken / total if total else None),
        "full sections": str(sum(one.used >= one.seats for one in seats)), "error": str(text.error),
    })  # fmt: skip
    return found


def of_group(one: measures.Group, own: own_names.Own) -> Dict[str, str]:
    """What the fields say of a group."""
    found = {key: str(value(key, one, own)) for key in COLUMNS if key != "envious" or one.envious is not None}
    found["first percent"] = f"{percent_of(one.first, one):g} %"
    found["without percent"] = f"{percent_of(one.without, one):g} %"
    found["share median"] = pages.percent(one.median_share)
    if one.envious is not None:
        found["envious percent"] = f"{percent_of(one.envious, one):g} %"
    return found


def value(key: str, one: measures.Group, own: own_names.Own) -> object:
    """What stands in a column for a group."""
    if key == "credits":
        return each(one.credits * float(own_names.unit_of(own)), one)
    found: Dict[str, object] = {
        "students": one.students,
        "without": one.without,
        "seats": each(one.seats, one),
        "share": pages.percent(one.mean_share),
        "first": one.first,
        "spent": round(one.spent / max(1, one.students)),
        "budget": f"{median(one.budgets):g}",
        "envious": one.envious,
    }
    return found[key]


def each(total: float, one: measures.Group) -> float:
    """So many a student, with two digits behind the point."""
    return round(total / max(1, one.students), 2)


def percent_of(number: int, one: measures.Group) -> float:
    """So many percent of the group's students, with one digit behind the point."""
    return round(100 * number / max(1, one.students), 1)


def median(values: Sequence[int]) -> float:
    """The median, or 0 where there are no values."""
    ordered = sorted(values)
    middle = len(ordered) // 2
    if not ordered:
        return 0
    return float(ordered[middle]) if len(ordered) % 2 else (ordered[middle - 1] + ordered[middle]) / 2


def shares_by_ten(one: measures.Group) -> List[Tuple[str, float]]:
    """How many students have a share in each span of ten percent; whoever has the whole is in the last."""
    counts = [0] * 11
    for share in one.shares:
        counts[max(0, min(10, int(share // 10)))] += 1
    names = [f"{10 * place} to {10 * place + 10}" for place in range(10)] + ["100"]
    return list(zip(names, map(float, counts)))


def table(words: Words, run: measures.Measured, parts: Sequence[measures.Group], column: str) -> str:
    """The table of groups in the school's words."""
    own = run.market.own
    keys = [key for key in words.columns if key != "envious" or run.envy is not None]
    header = [words.group or column or "group", *(words.columns[key] for key in keys)]
    return pages.table("", header, [[words.called(one.name), *(value(key, one, own) for key in keys)] for one in parts])


def plot(words: Words, name: str, parts: Sequence[measures.Group], column: str) -> str:
    """A plot by group in the school's words, with its table, unless the page's table has these values."""
    title, up, figure = PLOTS[name]
    items = [(words.called(one.name), figure(one)) for one in parts]
    told = "; ".join(f"{group}: {number:g}" for group, number in items)
    axes = plots.Axes(words.columns.get(name) or title, told, words.group or column or "group", words.word(up))
    if name in words.columns and any(text == "{table}" for _, text in words.paragraphs):
        # The table of groups has the same values.
        return f"<figure>{plots.bars(axes, items)}</figure>"
    return pages.plot_with_table(axes, items)
