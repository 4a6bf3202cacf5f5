"""Reading what the program's `hall` printed, and asking it anew whether it printed that."""

from __future__ import annotations

import os
import tempfile
from dataclasses import dataclass
from typing import Dict, List, Sequence, Tuple

from registrar import manifest, program, published, tables, tell
from registrar.tell import Trouble


@dataclass(frozen=True)
class After:
    """What stands after the hall: requests with replies, what each student holds, who waits, used seats and seats."""

    path: str
    entries: Tuple[Tuple[str, str], ...]
    finals: Dict[str, Tuple[str, ...]]
    waits: Dict[str, Tuple[str, ...]]
    used: Dict[str, Tuple[int, int]]
    lines: Tuple[str, ...]


def read(path: str) -> After:
    """Reads the text. It checks the form only as far as it needs it."""
    lines = tables.read_text(path).splitlines()
    entries: List[Tuple[str, str]] = []
    finals: Dict[str, Tuple[str, ...]] = {}
    waits: Dict[str, Tuple[str, ...]] = {}
    used: Dict[str, Tuple[int, int]] = {}
    for number, line in enumerate(lines, 1):
        words = line.split(" ")
        if words[0] == "entry" and len(words) > 2 and ": " in line:
            request, reply = line.split(" ", 2)[2].split(": ", 1)
            entries.append((request, reply))
        elif words[0] == "final" and len(words) == 3 and published.HELD.match(words[2]):
            finals[words[1]] = tuple(one for one in words[2][1:-1].split(",") if one)
        elif words[0] == "wait" and len(words) > 2:
            waits[words[1]] = tuple(words[2:])
        elif words[0] == "used" and len(words) == 4 and all(tables.NUMBER.match(word) for word in words[2:]):
            used[words[1]] = (int(words[2]), int(words[3]))
        else:
            raise Trouble(f"{path}, line {number}: '{line[:60]}' is no line that `hall` prints")
    return After(path, tuple(entries), finals, waits, used, tuple(lines))


def refuse_other(after: After, found: manifest.Manifest) -> None:
    """Refuses a text that the program does not print of these requests and this published text.

    The seats are those of the text's own lines, since a hall may have more of them than the run had.
    """
    sections = tables.read_catalogue(found.catalogue)
    if [one.code for one in sections] != list(after.used):
        raise Trouble(f"{after.path} is of another catalogue than {found.catalogue}: it has other sections")
    header, *records = [one.fields for one in tables.records(found.catalogue)]
    rows = [(*fields[:2], after.used[fields[0]][1], *fields[3:]) for fields in records]
    with tempfile.TemporaryDirectory() as folder:
        catalogue, requests = os.path.join(folder, "catalogue.csv"), os.path.join(folder, "hall.requests")
        tables.write_whole(catalogue, tables.csv_text([header, *rows]).encode())
        tables.write_whole(requests, "".join(request + "\n" for request, _ in after.entries).encode("utf-8"))
        answer = program.call(["hall", catalogue, found.roll, found.text, requests], tell.Life("asking the hall anew"))
    if answer.status or replies(answer.lines) != replies(after.lines):
        raise Trouble(
            f"{after.path} is not what the hall gives of its requests and {found.text}: run `registrar hall` anew, and "
            "give that text"
        )


def replies(lines: Sequence[str]) -> List[str]:
    """The lines, those of requests without the number of their stream."""
    return ["entry " + line.split(" ", 2)[2] if line.startswith("entry ") else line for line in lines]
