"""The commands of all sessions as one stream, in the order that a published text says."""

from __future__ import annotations

import itertools
from typing import Dict, Iterable, List, Sequence

from registrar import tables
from registrar.tell import Trouble


def in_order(order: Sequence[int], sessions: Sequence[str]) -> List[tables.Command]:
    """The commands of these sessions in a text's order."""
    left = [iter(one) for one in tables.read_sessions(sessions)]
    merged = []
    for place, number in enumerate(order, 1):
        command = next(left[number - 1], None) if 0 < number <= len(left) else None
        if command is None:
            raise Trouble(
                f"entry {place} of the text's order is of session {number}, which has no command left: `registrar check` says more"
            )
        merged.append(command)
    for number, rest in enumerate(left, 1):
        if next(rest, None) is not None:
            raise Trouble(f"the text's order leaves out commands of session {number}: `registrar check` says more")
    return merged


def by_student(commands: Iterable[tables.Command]) -> Dict[str, List[tables.Command]]:
    """What each student said, of commands in the text's order: what comes behind a `close` the desk did not hear."""
    heard = itertools.takewhile(lambda one: one.kind != "close", commands)
    said: Dict[str, List[tables.Command]] = {}
    for command in heard:
        if command.student is not None:
            said.setdefault(command.student, []).append(command)
    return said


def as_session(commands: Sequence[tables.Command]) -> bytes:
    """These commands as a session. Of an unreadable one nothing is kept but that: what stood there may read otherwise alone."""
    return "".join(one.kind + "\n" if one.kind == "unreadable" else one.text + "\n" for one in commands).encode("utf-8")
