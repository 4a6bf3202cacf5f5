"""The desk of drop and add, as the program keeps it: its replies, and the catalogue with which it may open."""

from __future__ import annotations

import os
import tempfile
from typing import Iterable, List, Optional, Sequence

from registrar import findings, manifest, program, published, tables, tell
from registrar.forms import Request

#: What stands above the requests in the file that is kept.
HEAD = "# Requests, written by `registrar hall`.\n"

#: The replies to requests that were carried out.
DONE = ("added", "queued", "dropped", "left")


def as_stream(asked: Iterable[Request]) -> str:
    """These requests as a stream in the program's own form."""
    return HEAD + "".join(request.line + "\n" for request in asked)


def ask(found: manifest.Manifest, text: str, life: Optional[tell.Life] = None) -> program.Answer:
    """Calls `hall` of the program with one stream; `life` is the line of life of a command that calls it often."""
    with tempfile.TemporaryDirectory() as folder:
        path = os.path.join(folder, "hall.requests")
        tables.write_whole(path, text.encode("utf-8", "replace"))
        return program.call(manifest.hall_words(found, [path]), life or tell.Life("taking requests"))


def replies_of(lines: Sequence[str]) -> List[str]:
    """The reply to each request, in the order of the one stream."""
    return [line.split(": ", 1)[1] for line in lines if line.startswith("entry ")]


def refusal(found: manifest.Manifest, answer: program.Answer) -> List[str]:
    """Why no desk opened: the program's words, and the place and meaning of a finding."""
    if answer.status != 8:
        return program.retell(answer)
    return [answer.lines[-1], *("  " + one for one in findings.explain_finding(answer.lines[-1], found.text, "final"))]


def is_catalogue_of_run(found: manifest.Manifest) -> bool:
    """Whether the catalogue is, byte for byte, that of the run."""
    return program.sha256(found.catalogue) == found.catalogue_sum


def seats_changed(found: manifest.Manifest) -> List[str]:
    """The sections that have other seats than in the published text, in words, those with more seats first."""
    before = published.read_published(found.text).used
    sections = [one for one in tables.read_catalogue(found.catalogue) if one.code in before]
    words = "{} from {} to {}"
    told = []
    for what, changed in (
        ("raised", [one for one in sections if one.seats > before[one.code].seats]),
        ("lowered", [one for one in sections if one.seats < before[one.code].seats]),
    ):
        if changed:
            listed = ", ".join(words.format(one.code, before[one.code].seats, one.seats) for one in changed)
            told.append(f"{found.catalogue}: seats {what} since the run: {listed}")
    return told


def refuse_more_than_seats(found: manifest.Manifest, allowed: bool) -> None:
    """Refuses a catalogue in which more than seats changed since the run, unless that is allowed.

    The program's desk would judge by the new times, courses and credits, and can not tell that they were others.
    """
    if manifest.sum_but_seats(found.catalogue) == found.but_seats_sum or allowed:
        return
    unknown = f"and {found.path} does not say whether in its seats alone"
    why = "in more than its seats" if found.but_seats_sum else unknown
    raise tell.Trouble(
        f"{found.catalogue} has changed since the run {why}. Put the catalogue of that run back, with other seats "
        "where there are any; `--allow catalogue` takes it as it is, and the desk goes by its times, courses and credits"
    )
