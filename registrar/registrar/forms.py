"""What is asked for after publication: the requests of a form's exports, or of streams in the program's own form."""

from __future__ import annotations

import os
from dataclasses import dataclass
from typing import Iterator, Sequence

from registrar import manifest, own_names, tables, tell
from registrar.exported import Export, Row
from registrar.faults import Faults
from registrar.mapping import Mapping, Source, read_mapping, split
from registrar.spelling import NameFault, NameRules, Names, tidy

#: The words of a request.
REQUESTS = ("add", "drop", "leave")


@dataclass(frozen=True)
class Request:
    """A request, with its place in the export. The `drop` and the `add` of one row are a swap."""

    words: tuple[str, ...]
    file: str
    row: int
    is_swap: bool = False
    #: The section of the mapping that has the export.
    source: str = ""

    @property
    def line(self) -> str:
        """The request as a line of a stream."""
        return " ".join(self.words)

    @property
    def place(self) -> tuple[str, int]:
        """The section of the mapping and the row, by which the requests of a swap are known."""
        return self.source, self.row


def stream(path: str) -> list[Request]:
    """The requests of a stream in the program's own form. Its lines are those of a session."""
    return [Request(one.words, os.path.basename(path), one.line) for one in tables.read_session(path)]


class Gatherer:
    """Reads the requests of a mapping's exports."""

    def __init__(self, path: str, found: manifest.Manifest, faults: Faults) -> None:
        self.faults = faults
        try:
            self.mapping: Mapping = read_mapping(path, faults)
        except OSError as error:
            raise tell.Trouble(f"{path} can not be read: {error.strerror}", tell.NO_FILE) from error
        rules = own_names.with_drawn(self.mapping.students, own_names.beside(found.catalogue))
        self.students = known("student", rules, [one.name for one in tables.read_roll(found.roll)])
        codes = [one.code for one in tables.read_catalogue(found.catalogue)]
        self.sections = known("section", self.mapping.sections, codes)

    def requests(self) -> list[Request]:
        """The requests of all exports, in the mapping's order."""
        sources = self.mapping.of_kind("requests")
        if self.mapping.is_read and "requests" not in self.mapping.kinds:
            self.faults.add(self.mapping.path, None, "", "", "there is no section [requests NAME]")
        return [request for source in sources for request in self.of_source(source)]

    def of_source(self, source: Source) -> Iterator[Request]:
        """The requests of one export."""
        export = Export(source, self.faults)
        student = export.column("student", needed=True)
        by_word = bool(source.get("request"))
        if by_word:
            export.column("request", needed=True)
            export.column("section", needed=True)
        elif not any(source.get(word) for word in REQUESTS):
            export.missing("request", "", "a column that says add, drop or leave, or columns `add`, `drop`, `leave`")
        for row in export.rows if student else []:
            who = self.name(self.students, export, row, "student")
            words = self.asked(export, row, by_word)
            swapped = ("add", "drop") if {"add", "drop"} <= {word for word, _ in words} else ()
            for word, option in words:
                what = self.name(self.sections, export, row, option)
                if who and what:
                    yield Request((word, who, what), export.file, row.number, word in swapped, source.title)

    def asked(self, export: Export, row: Row, by_word: bool) -> list[tuple[str, str]]:
        """What a row asks for: the request, and the option of the column with its section."""
        if by_word:
            text = tidy(export.cell(row, "request")).casefold()
            for word in REQUESTS:
                if text in [one.casefold() for one in split(export.source.get(f"{word} words"))]:
                    return [(word, "section")]
            known_words = [export.source.get(f"{word} words") for word in REQUESTS]
            export.fault(row, "request", text, f"one of {'; '.join(known_words)}")
            return []
        filled = [word for word in REQUESTS if export.cell(row, word)]
        order = [tidy(word) for word in split(export.source.get("both"))]
        if len(filled) > 1 and not set(filled) <= set(order):
            expected = "one request; `both = drop, add` states an order for rows with several"
            export.fault(row, filled[0], " and ".join(filled), expected)
            return []
        if not filled:
            self.faults.add(export.file, row.number, "", "", "this row asks for nothing")
        return [(word, word) for word in sorted(filled, key=lambda word: order.index(word) if word in order else 0)]

    def name(self, names: Names, export: Export, row: Row, option: str) -> str:
        """The name that a cell means, or nothing, with a fault."""
        text = export.cell(row, option)
        try:
            return names.find(text)
        except NameFault as fault:
            export.fault(row, option, text, str(fault))
            return ""


def known(kind: str, rules: NameRules, names: Sequence[str]) -> Names:
    """The names of the program's own table."""
    found = Names(kind, rules)
    for name in names:
        found.originals[name] = name
        found.folded.setdefault(name.casefold(), name)
    return found
