"""How a school's own codes and numbers become names of the program, and how they are read back.

A name of the program is 1 to 32 bytes of letters, digits, `-`, `_` and `.`. The rule: blanks at both ends go, and each run of
blanks inside is one `_`; a letter with an accent loses it; `LETTERS` has the letters that are no accents' work; any other
character of a script with letters or digits is `u` and its code point in hexadecimal; every other sign is `-`. Two codes that
would become one name are refused, so that `names.csv`, which has each code beside its name, leads back.
"""

from __future__ import annotations

import difflib
import re
import unicodedata
from dataclasses import dataclass, field
from typing import Iterable, Mapping

#: What a name of the program is.
NAME = re.compile(r"[A-Za-z0-9._-]{1,32}")

#: How letters are spelt that are not a plain letter with an accent.
LETTERS: Mapping[str, str] = {
    "ß": "ss", "æ": "ae", "Æ": "AE", "œ": "oe", "Œ": "OE", "ø": "o", "Ø": "O", "ł": "l", "Ł": "L",
    "đ": "d", "Đ": "D", "ð": "d", "Ð": "D", "þ": "th", "Þ": "Th", "ı": "i",
}  # fmt: skip

#: So many unknown values are compared with the known ones: each comparison takes a while.
COMPARED = 200


def tidy(text: str) -> str:
    """A cell without blanks at its ends and with single blanks inside; letters and accents are composed."""
    return " ".join(unicodedata.normalize("NFC", text).replace("\u200b", "").replace("\ufeff", "").split())


def is_name(text: str) -> bool:
    """Whether the text is a name of the program."""
    return NAME.fullmatch(text) is not None


def spelt(original: str) -> str:
    """The text by the rule of this module. It is no name where it is empty or longer than 32 bytes."""
    return "".join(spelt_sign(sign) for sign in tidy(original))


def spelt_sign(sign: str) -> str:
    """One character by the rule of this module."""
    if re.fullmatch("[A-Za-z0-9._-]", sign):
        return sign
    if sign == " ":
        return "_"
    if sign in LETTERS:
        return LETTERS[sign]
    plain = "".join(part for part in unicodedata.normalize("NFKD", sign) if not unicodedata.combining(part))
    if re.fullmatch("[A-Za-z0-9._-]+", plain):
        return plain
    return f"u{ord(sign):x}" if sign.isalnum() else "-"


@dataclass
class NameRules:
    """What a mapping states of the names of one kind."""

    #: A code of digits alone is filled up with zeros to so many digits; 0 for none.
    pad: int = 0
    #: Endings that are dropped, `@school.edu` for instance.
    endings: tuple[str, ...] = ()
    #: The sign behind which, and a blank, a cell has more than the code; nothing where it has the code alone.
    cut: str = ""
    #: Whether capital and small letters are the same.
    any_case: bool = False
    #: What stands in an export, and the code that is meant.
    same: dict[str, str] = field(default_factory=dict)
    #: Codes with names that are chosen by hand.
    spell: dict[str, str] = field(default_factory=dict)


class NameFault(Exception):
    """A code that is no name, or of nobody: its words say what was expected."""


class UnknownName(NameFault):
    """A code that stands there and is nobody's.

    `hint` tells the nearest name; `is_nearly`, whether capitals, zeros or signs alone are other than in that one.
    """

    def __init__(self, words: str, hint: str = "", is_nearly: bool = False) -> None:
        super().__init__(words)
        self.hint = hint
        self.is_nearly = is_nearly


class Names:
    """The names of one kind (`student`, `section`, `course`), with the codes that they stand for."""

    def __init__(self, kind: str, rules: NameRules) -> None:
        self.kind = kind
        self.rules = rules
        self.originals: dict[str, str] = {}
        self.folded: dict[str, str] = {}
        self.nearer: Meant | None = None
        #: Whether the school's table could be read: where it could not, no name is looked up in it.
        self.is_whole = True

    def meant(self, cell: str) -> str:
        """The code that a cell means, by the rules: corrections, endings, zeros."""
        code = tidy(cell)
        code = self.rules.same.get(code, code)
        if self.rules.cut:
            code = code.split(f"{self.rules.cut} ", 1)[0].strip()
        for ending in self.rules.endings:
            if ending and code.lower().endswith(ending.lower()):
                code = code[: len(code) - len(ending)]
                break
        if self.rules.pad and code.isascii() and code.isdigit():
            code = code.zfill(self.rules.pad)
        return code

    def spelt(self, cell: str) -> tuple[str, str]:
        """The code that a cell means, and its name. Raises `NameFault`."""
        code = self.meant(cell)
        if "\ufffd" in code:
            raise NameFault(f"a {self.kind}: a letter was lost before this file was saved; export it anew as UTF-8")
        name = self.rules.spell.get(code) or spelt(code)
        if not is_name(name):
            told = f"{name} has {len(name)}" if name else "it has none"
            raise NameFault(
                f"a {self.kind} of 1 to 32 letters, digits, '-', '_' and '.' ({told}); `spell` or `endings` can shorten it"
            )
        return code, name

    def define(self, cell: str) -> str:
        """The name of a code that the school's own table has. Raises `NameFault`, also where another code has that name."""
        code, name = self.spelt(cell)
        known = self.originals.get(name)
        if known is not None and known != code:
            raise NameFault(f'a name of its own: "{known}" is spelt {name} too; choose one by `spell`')
        folded = self.folded.get(name.casefold(), name)
        if self.rules.any_case and folded != name:
            raise NameFault(f"a name of its own under `any case = yes`: {folded} differs from {name} by capitals alone")
        self.originals[name] = code
        self.folded.setdefault(name.casefold(), name)
        return name

    def find(self, cell: str) -> str:
        """The name of a code that the school's table should have. Raises `UnknownName` where it has not, with the nearest one.

        A blank, and a code that lost a letter, are a `NameFault` that is no `UnknownName`: nobody can say whose they are.
        """
        try:
            name = self.spelt(cell)[1]
        except NameFault as fault:
            if not tidy(cell) or "\ufffd" in cell:
                raise
            raise UnknownName(str(fault)) from None
        if name in self.originals or not self.is_whole:
            return name
        if self.rules.any_case and name.casefold() in self.folded:
            return self.folded[name.casefold()]
        raise self.missing(name)

    def missing(self, name: str) -> UnknownName:
        """What is said of a name that nobody has."""
        if self.nearer is None:
            self.nearer = Meant(self.originals)
        hint = self.nearer.hint(name)
        advice = ""
        if hint.endswith("capitals)"):
            advice = "; `any case = yes` joins them"
        elif hint.endswith("zeros)"):
            advice = f"; `pad = {max(len(known) for known in self.originals if known.isdigit())}` joins them"
        return UnknownName(f"a {self.kind} of the {table_of(self.kind)}{hint}{advice}", hint, self.nearer.is_nearly(name))

    def rows(self) -> list[list[str]]:
        """The rows of `names.csv`: kind, code, name."""
        return [[self.kind, code, name] for name, code in self.originals.items()]


def table_of(kind: str) -> str:
    """The table that has the names of a kind."""
    return "roll" if kind == "student" else "catalogue"


def letters_of(name: str) -> str:
    """A name's letters and digits alone, in small letters."""
    return re.sub("[-_.]", "", spelt(name).casefold())


class Meant:
    """What may have been meant by names that nobody has."""

    def __init__(self, known: Iterable[str]) -> None:
        self.known = list(known)
        self.by_letters = {letters_of(name): name for name in reversed(self.known)}
        self.bare = {name.lstrip("0"): name for name in reversed(self.known) if name.isdigit() and name.strip("0")}
        self.told: dict[str, str] = {}

    def hint(self, name: str) -> str:
        """`; nearest: FNCE-601-A`, and where the difference is capitals or zeros, that it is; nothing where none is near."""
        if name not in self.told:
            self.told[name] = self.look(name)
        return self.told[name]

    def near(self, name: str) -> str:
        """The name that was likely meant, or nothing."""
        letters = letters_of(name)
        same = self.by_letters.get(letters) or (self.bare.get(name.lstrip("0")) if name.isdigit() else None)
        if same:
            return same
        near = difflib.get_close_matches(letters, self.by_letters, n=1, cutoff=0.75) if len(self.told) < COMPARED else []
        return self.by_letters[near[0]] if near else ""

    def is_nearly(self, name: str) -> bool:
        """Whether capitals, signs or leading zeros alone are other than in a known name."""
        return letters_of(name) in self.by_letters or name.isdigit() and name.lstrip("0") in self.bare

    def look(self, name: str) -> str:
        """The hint for a name that was not looked for yet."""
        near = self.near(name)
        if not near:
            return ""
        if letters_of(near) == letters_of(name):
            return f"; nearest: {near}" + (" (other capitals)" if near.casefold() == spelt(name).casefold() else "")
        bare = name.isdigit() and self.bare.get(name.lstrip("0")) == near
        return f"; nearest: {near}" + (" (a spreadsheet may have taken leading zeros)" if bare else "")
