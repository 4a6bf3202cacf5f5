"""What students hold after drop and add: the last `registrar hall` of a manifest, asked again."""

from __future__ import annotations

import os
from typing import Dict, List, Optional, Tuple

from registrar import hall_desk, manifest, program, tables, tell, work_log

#: What `hall` keeps of the requests, and of what the program printed.
REQUESTS, PRINTED = "hall.requests", "hall.txt"


def requests_of(found: manifest.Manifest) -> Optional[str]:
    """The requests of the last hall, by the log beside the manifest, else those that stand beside it; nothing without.

    Raises `Trouble` where the log tells of a hall whose requests are gone.
    """
    log = os.path.join(found.folder, work_log.FILE)
    entries = work_log.read(log)[0] if os.path.isfile(log) else []
    names = [one.get("file", "") for entry in entries if entry["command"] == "hall" for one in entry["files"]]
    names = [name for name in names if os.path.basename(name) == REQUESTS]
    written = [os.path.normpath(os.path.join(found.folder, name)) for name in names]
    beside = os.path.normpath(os.path.join(found.folder, REQUESTS))
    if written and not os.path.isfile(written[-1]):
        raise tell.Trouble(
            f"`registrar hall` wrote {written[-1]}, which is not there: `--hall FILE` names the requests, "
            "`--no-hall` leaves them out",
            tell.NO_FILE,
        )
    return written[-1] if written else beside if os.path.isfile(beside) else None


def held(found: manifest.Manifest, requests: str) -> Dict[str, Tuple[str, ...]]:
    """What each student holds after these requests, as the program answers.

    Raises `Trouble` where no desk opens, or where `hall.txt` beside the requests tells otherwise: then they were
    changed since.
    """
    answer = program.call(manifest.hall_words(found, [requests]), tell.Life("taking requests"))
    if answer.status:
        raise tell.Trouble("\n".join(hall_desk.refusal(found, answer)), answer.status)
    printed = os.path.join(os.path.dirname(requests), PRINTED)
    if os.path.isfile(printed) and tables.read_bytes(printed) != answer.output:
        raise tell.Trouble(
            f"{printed} is not what the program answers to {requests} now: one of them, or the catalogue, was changed "
            "since. Run `registrar hall` again"
        )
    return finals(answer.lines)


def finals(lines: List[str]) -> Dict[str, Tuple[str, ...]]:
    """The sections of each student, by the lines `final STUDENT BUNDLE`."""
    found = {}
    for words in (line.split(" ") for line in lines):
        if words[0] == "final":
            found[words[1]] = tuple(one for one in words[2][1:-1].split(",") if one)
    return found
