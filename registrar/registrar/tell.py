"""What the tools say: lines, tables, refusals, and a line of life while the program works."""

from __future__ import annotations

import contextlib
import json
import os
import sys
import time
from typing import Any, Callable, Dict, List, Optional, Sequence, TextIO

# The tool's own exit statuses (those of sysexits.h), apart from 1 to 9, which are the program's.
USAGE = 64
FAULTS = 65
NO_FILE = 66
NO_PROGRAM = 69
BUSY = 75

# The file in the output folder that keeps what earlier runs took.
TIMES = "registrar-times.json"


class Trouble(Exception):
    """What keeps a command from its work. It is told on standard error, and `status` is the exit status."""

    def __init__(self, message: str, status: int = FAULTS) -> None:
        super().__init__(message)
        self.status = status


def errors() -> TextIO:
    """Standard error."""
    return sys.stderr


def say(line: str = "") -> None:
    """A line of the answer, to standard output."""
    print(line, flush=True)


def warn(line: str) -> None:
    """A line about the work, to standard error."""
    print(line, file=sys.stderr, flush=True)


def table(header: Sequence[str], rows: Sequence[Sequence[object]]) -> List[str]:
    """The lines of a table in plain text: columns that hold numbers alone stand to the right."""
    cells = [[str(cell) for cell in row] for row in rows]
    widths = [max([len(head)] + [len(row[i]) for row in cells]) for i, head in enumerate(header)]
    right = [bool(rows) and all(isinstance(row[i], (int, float)) for row in rows) for i in range(len(header))]

    def line(row: Sequence[str]) -> str:
        parts = [cell.rjust(width) if flush else cell.ljust(width) for cell, width, flush in zip(row, widths, right)]
        return "  ".join(parts).rstrip()

    return [line(header), "  ".join("-" * width for width in widths)] + [line(row) for row in cells]


def seconds(elapsed: float) -> str:
    """A span of time in words: `19 s`, `3 min 05 s`."""
    whole = int(round(elapsed))
    if whole < 60:
        return f"{whole} s"
    return f"{whole // 60} min {whole % 60:02d} s"


def count(number: int, one: str, more: str) -> str:
    """A number with its noun: `1 seat`, `2 seats`."""
    return f"{number} {one if number == 1 else more}"


class Life:
    """A line of life while the program works: what it does, how long, and what the last such runs took.

    On a terminal the line is written anew each second; elsewhere a line comes each half minute.
    """

    def __init__(
        self, what: str, before: Sequence[float] = (), stream: Optional[TextIO] = None, far: Optional[Callable[[float], str]] = None
    ) -> None:
        self.what = what
        self.before = list(before)
        #: What is said of how far the work is at a time, where an estimate tells it.
        self.far = far
        self.stream = stream if stream is not None else sys.stderr
        self.begun = time.monotonic()
        self.told = self.begun
        self.open = False

    def line(self, elapsed: float) -> str:
        """The line at this time."""
        earlier = ""
        if self.before:
            earlier = "; the last runs of this size took " + ", ".join(seconds(one) for one in self.before[-3:])
        far = f"; {self.far(elapsed)}" if self.far else ""
        return f"{self.what}: {seconds(elapsed)}{far}{earlier}"

    def tick(self) -> None:
        """To be called often: tells the line where it is due."""
        now = time.monotonic()
        due = 1.0 if self.stream.isatty() else 30.0
        if now - self.told < due:
            return
        self.told = now
        text = self.line(now - self.begun)
        if self.stream.isatty():
            self.stream.write("\r" + text + "\x1b[K")
            self.open = True
        else:
            self.stream.write(text + "\n")
        self.stream.flush()

    def end(self) -> None:
        """Takes the line from the terminal."""
        if self.open:
            self.stream.write("\r\x1b[K")
            self.stream.flush()
            self.open = False


Size = Dict[str, int]


def times_of(folder: str, size: Size) -> List[float]:
    """What the last runs of about this size took, by the file in the output folder; none where it cannot be read."""
    return [one["seconds"] for one in read_times(folder) if is_like(one.get("size"), size)]


def is_like(one: object, other: Size) -> bool:
    """Whether two sizes have the same measures, each within a tenth of the other's."""
    if not isinstance(one, dict) or set(one) != set(other):
        return False
    return all(isinstance(one[name], int) and abs(one[name] - other[name]) * 10 <= other[name] for name in other)


def read_times(folder: str) -> List[Dict[str, Any]]:
    """All that the file of times keeps."""
    try:
        with open(os.path.join(folder, TIMES), encoding="utf-8") as file:
            kept = json.load(file)
        return [one for one in kept if isinstance(one, dict) and isinstance(one.get("seconds"), (int, float))]
    except (OSError, ValueError, TypeError):
        return []


def far_of(folder: str, size: Size, turns: object) -> Optional[Callable[[float], str]]:
    """Says how far a run of this size is, by the pace that `estimate` measured last; nothing where it measured none."""
    paces = [one for one in read_times(folder) if is_like(one.get("estimate"), size) and is_pace(one)]
    if not paces or not isinstance(turns, int):
        return None
    begin, turn, most = float(paces[-1]["begin"]), float(paces[-1]["turn"]), turns

    def far(elapsed: float) -> str:
        now = int((elapsed - begin) / turn)
        if now > most:
            return f"by an estimate behind the {most} turns of the search"
        return f"by an estimate at turn {max(0, now)} of at most {most}"

    return far


def is_pace(one: Dict[str, Any]) -> bool:
    """Whether an entry of the file of times has a pace by which turns are told."""
    return all(isinstance(one.get(name), (int, float)) for name in ("begin", "turn")) and one["turn"] > 0


def keep_pace(folder: str, size: Size, begin: float, turn: float) -> None:
    """Keeps what `estimate` measured, as `keep_time` keeps what a run took."""
    keep(folder, {"estimate": size, "begin": round(begin, 3), "turn": round(turn, 5), "seconds": round(begin, 1)})


def keep_time(folder: str, size: Size, elapsed: float) -> None:
    """Keeps what a run of this size took. A folder that takes no file is no fault of the run."""
    keep(folder, {"size": size, "seconds": round(elapsed, 1)})


def keep(folder: str, entry: Dict[str, Any]) -> None:
    """Keeps one entry more in the file of times, of which the last hundred stay."""
    # Here and not above, since `whole` needs `Trouble`.
    from registrar import whole  # pylint: disable=cyclic-import

    kept = read_times(folder)[-99:] + [entry]
    content = json.dumps(kept, indent=1) + "\n"
    with contextlib.suppress(Trouble):
        whole.write_whole(os.path.join(folder, TIMES), content.encode("ascii"))
