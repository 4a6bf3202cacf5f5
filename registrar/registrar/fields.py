"""Templates: texts with fields in braces, `{name}`; `{{` and `}}` are braces. A value is put in as it is."""

from __future__ import annotations

import difflib
import re
from typing import Callable, Iterable, List, Tuple

PART = re.compile(r"\{\{|\}\}|\{([^{}\n]*)\}|[{}]")


class FieldFault(Exception):
    """A field that nobody knows, or a single brace; `line` is its line in the template, `value` what stands there."""

    def __init__(self, line: int, value: str, expected: str) -> None:
        super().__init__(expected)
        self.line = line
        self.value = value


def fields_of(text: str) -> List[Tuple[int, str]]:
    """The fields of a template, each with its line. Raises `FieldFault` at a single brace."""
    found = []
    for match in PART.finditer(text):
        line = text.count("\n", 0, match.start()) + 1
        if match.group(1) is not None:
            found.append((line, " ".join(match.group(1).split())))
        elif len(match.group(0)) == 1:
            raise FieldFault(line, match.group(0), "a field as {name}; a brace itself is written twice")
    return found


def refuse_unknown(text: str, known: Iterable[str], openings: Iterable[str] = ()) -> None:
    """Raises `FieldFault` at the first field that is not known, and is none of the openings with a column behind it."""
    names = list(known)
    for line, name in fields_of(text):
        if name not in names and not any(name.startswith(one + " ") for one in openings):
            near = difflib.get_close_matches(name, names, n=1)
            hint = f"; nearest: {near[0]}" if near else ""
            listed = ", ".join(names + [f"{one} COLUMN" for one in openings])
            raise FieldFault(line, f"{{{name}}}", f"one of the fields {listed}{hint}")


def filled(text: str, value: Callable[[str], str]) -> str:
    """The template with each field's value in its place."""

    def put(match: "re.Match[str]") -> str:
        if match.group(1) is None:
            return match.group(0)[0]
        return value(" ".join(match.group(1).split()))

    return PART.sub(put, text)
