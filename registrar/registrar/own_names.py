"""The school's own spelling of names, meetings and credits, read back from the `names.csv` that `import` writes."""

from __future__ import annotations

import csv
import io
import os
from dataclasses import replace
from decimal import Decimal, InvalidOperation
from typing import Dict, Iterable, List, Optional

from registrar import pseudonyms, tables
from registrar.spelling import Meant, NameRules, letters_of, tidy
from registrar.tell import Trouble, warn

FILE = "names.csv"

# For each kind (`section`, `course`, `student`) the school's own spelling of each name that was spelt anew. The kind
# `meetings` has the timetable's own words for the meetings of a section, and `unit` how many of the school's credits
# one `credit` of the program is.
Own = Dict[str, Dict[str, str]]

UNIT, CREDIT, MEETINGS = "unit", "credit", "meetings"

# By what names the files of students with drawn names are called: those that they would have without.
OWN_FILES = "own files"

# Of more names that begin with the same letters the others are counted.
MOST_MEANT = 5


def beside(catalogue: str) -> Own:
    """What `names.csv` says, if it stands beside the catalogue."""
    path = os.path.join(os.path.dirname(catalogue), FILE)
    return read(path) if os.path.exists(path) else {}


def read(path: str) -> Own:
    """The names of a file whose columns are kind, original and name."""
    own: Own = {}
    csv.field_size_limit(1 << 26)
    try:
        for row in csv.DictReader(io.StringIO(tables.read_text(path), newline="")):
            if row.get("kind") and row.get("name") and row.get("original"):
                own.setdefault(row["kind"], {})[tables.unguarded(row["name"])] = tables.unguarded(row["original"])
    except csv.Error as error:
        raise Trouble(f"{path} is no table of names: {error}") from error
    unit = own.get(UNIT, {}).get(CREDIT, "1")
    if not is_unit(unit):
        raise Trouble(f"{path}: the unit of credits is '{unit}', which is no number above 0")
    for place in own.get(pseudonyms.KIND, {}).values():
        key = os.path.join(os.path.dirname(path), place)
        if os.path.exists(key):
            own["student"] = pseudonyms.own_numbers(key)
            own[OWN_FILES] = pseudonyms.own_files(key)
        else:
            warn(f"warning: the key {key} is not there: students stand under the names that were drawn for them")
    return own


def are_drawn(own: Own) -> bool:
    """Whether the students' names are drawn."""
    return pseudonyms.KIND in own


def file_of(own: Own, student: str) -> str:
    """What a student's own files are called by: never by a drawn name, where its own is known."""
    return own.get(OWN_FILES, {}).get(student, student)


def with_drawn(rules: NameRules, own: Own) -> NameRules:
    """The rules by which a school's export names students, where these have drawn names in the program's tables."""
    if not are_drawn(own):
        return rules
    drawn = {original: name for name, original in own.get("student", {}).items()}
    if rules.any_case:
        drawn.update({original.casefold(): name for original, name in list(drawn.items())})
    return replace(rules, spell=(AnyCase if rules.any_case else dict)({**rules.spell, **drawn}))


class AnyCase(Dict[str, str]):
    """A table by codes of which capital and small letters are the same; it has each in small letters too."""

    def get(self, key: str, default: Optional[str] = None) -> Optional[str]:  # type: ignore[override]
        """What stands under a code, as it is written or else in small letters."""
        return super().get(key) or super().get(key.casefold(), default)


def is_unit(text: str) -> bool:
    """Whether the text is a number above 0, with a point or a comma as decimal sign."""
    try:
        number = Decimal(text.replace(",", "."))
    except InvalidOperation:
        return False
    return number.is_finite() and number > 0


def rows_of_units(unit: Decimal, decimal: str) -> List[List[str]]:
    """The row of `names.csv` that has the unit of credits, in the school's own decimal sign; none where it is 1."""
    return [] if unit == 1 else [[UNIT, plain(unit).replace(".", decimal), CREDIT]]


def plain(number: Decimal) -> str:
    """A number without an exponent and without zeros behind its point."""
    text = format(number, "f")
    return text.rstrip("0").rstrip(".") if "." in text else text


def unit_of(own: Own) -> Decimal:
    """How many of the school's credits one credit of the program is."""
    return Decimal(own.get(UNIT, {}).get(CREDIT, "1").replace(",", "."))


def credits(own: Own, number: int) -> str:  # pylint: disable=redefined-builtin
    """So many credits of the program in the school's own units and with its own decimal sign."""
    value = plain(number * unit_of(own))
    return value.replace(".", ",") if "," in own.get(UNIT, {}).get(CREDIT, "1") else value


def credits_in_words(own: Own, number: int) -> str:
    """`1 credit`, `5.5 credits`: so many credits of the program in the school's own units."""
    text = credits(own, number)
    return f"{text} credit" if text == "1" else f"{text} credits"


def meetings(own: Own, section: str, otherwise: str) -> str:
    """When a section meets, in the timetable's own words where they are known."""
    return own.get(MEETINGS, {}).get(section, otherwise)


def meant(own: Own, kind: str, word: str) -> str:
    """The program's name of what is given in the school's own spelling; any other word is left as it is."""
    for name, original in own.get(kind, {}).items():
        if original == word or tidy(original) == tidy(word):
            return name
    return word


def nearest(own: Own, kind: str, word: str, names: Iterable[str]) -> str:
    """`; nearest: ÖKON 101`: whom or what a word that is nobody's name may mean, in the school's own spelling.

    Where it is the beginning of some names, these. Nothing where none is near.
    """
    known = list(names)
    letters = letters_of(word)
    spellings = [(name, {letters_of(spelt(own, kind, name)), letters_of(name)}) for name in known]
    found = [name for name, all_letters in spellings if letters in all_letters]
    if not found and len(letters) > 1:
        found = [name for name, all_letters in spellings if any(one.startswith(letters) for one in all_letters)]
    if not found:
        by_spelling = {spelt(own, kind, name): name for name in known}
        near = by_spelling.get(Meant(by_spelling).near(word)) or Meant(known).near(word)
        found = [near] if near else []
    more = [f"and {len(found) - MOST_MEANT} more"] if len(found) > MOST_MEANT else []
    told = [*(shown(own, kind, name) for name in found[:MOST_MEANT]), *more]
    return f"; nearest: {', '.join(told)}" if found else ""


def shown(own: Own, kind: str, name: str) -> str:
    """A name in the school's own spelling, with that of the program behind it where that is another."""
    original = spelt(own, kind, name)
    return original if original == name else f"{original} ({name})"


def spelt(own: Own, kind: str, name: str) -> str:
    """A name in the school's own spelling, or as it is where the file has none."""
    return own.get(kind, {}).get(name, name)
