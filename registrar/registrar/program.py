"""Finding and calling the program, and retelling its answers in words."""

from __future__ import annotations

import contextlib
import hashlib
import json
import os
import re
import subprocess
import tempfile
import time
from dataclasses import dataclass
from typing import BinaryIO, Callable, Dict, List, Optional, Sequence, Tuple

from registrar import ending, limits, tables
from registrar.tell import NO_PROGRAM, USAGE, Life, Trouble

TOP = os.path.dirname(os.path.dirname(os.path.dirname(os.path.abspath(__file__))))

# Where the program stands in the repository, and in a release; `$COURSE_MATCH_PROGRAM` comes before both.
PLACES = ("crates/market_program/out/market_program", "bin/market_program")

# So many seconds a call is waited for until it is looked whether a signal came.
LOOKED_AFTER = 0.5

# The inputs of each form, in the order of its words; the last one may come several times. A capital word is no input.
FORMS: Dict[str, Tuple[str, ...]] = {
    "run": ("WORKERS", "catalogue", "roll", "settings", "session"),
    "check": ("catalogue", "roll", "settings", "text", "session"),
    "explain": ("catalogue", "roll", "settings", "text", "STUDENT", "SECTION", "session"),
    "hall": ("catalogue", "roll", "text", "requests"),
    "audit": ("WORKERS", "catalogue", "roll", "settings", "text", "session"),
    "prefer": ("catalogue", "roll", "session"),
    "demand": ("WORKERS", "catalogue", "roll", "settings", "prices", "session"),
    "quote": ("catalogue", "session", "STUDENT", "CREDITS", "COURSES"),
    "make": ("WORKERS", "SEED", "STUDENTS", "SECTIONS", "ACCEPT"),
}


@dataclass(frozen=True)
class Answer:
    """What a call of the program gave. `output` is empty where it went to a file; `last` is its last line, if it is short."""

    words: Tuple[str, ...]
    status: int
    output: bytes
    elapsed: float

    @property
    def text(self) -> str:
        """The output as text."""
        return self.output.decode("utf-8", "replace")

    @property
    def lines(self) -> List[str]:
        """The lines of the output."""
        return self.text.splitlines()


@dataclass(frozen=True)
class Input:
    """An input of a call: its number as the program counts, what it is, and its file."""

    number: int
    role: str
    path: str


def find_program() -> str:
    """The path of the program, or a refusal that says how to come by it."""
    named = os.environ.get("COURSE_MATCH_PROGRAM")
    if named:
        if not (os.path.isfile(named) and os.access(named, os.X_OK)):
            raise Trouble(f"COURSE_MATCH_PROGRAM names {named}, which is no program that can be called", NO_PROGRAM)
        return os.path.abspath(named)
    for one in PLACES:
        path = os.path.join(TOP, one)
        if os.access(path, os.X_OK):
            return path
    raise Trouble(
        f"there is no program yet: run `rt run` in {TOP}/crates/market_program first, which proves and builds it, "
        "or name one in COURSE_MATCH_PROGRAM",
        NO_PROGRAM,
    )


def sha256(path: str) -> str:
    """The SHA-256 of a file, in hexadecimal digits."""
    return hashlib.sha256(tables.read_bytes(path)).hexdigest()


def call(
    words: Sequence[str], life: Optional[Life] = None, output: Optional[BinaryIO] = None, is_brief: bool = False
) -> Answer:
    """Calls the program with these words. What it prints goes to the file `output`, or into the answer.

    The status is the program's own. A program that was killed has none, and that is a refusal of ours. It ends when
    this process ends; a brief call, which is over in a moment, is not bound to that: binding takes longer than the call.
    """
    program = find_program()
    refuse_many(words)
    begun = time.monotonic()
    with tempfile.TemporaryFile() as kept:
        target = output if output is not None else kept
        try:
            process = subprocess.Popen(
                [program, *words], stdin=subprocess.DEVNULL, stdout=target,
                preexec_fn=None if is_brief else ending.tied(),
            )  # fmt: skip
        except OSError as error:
            raise Trouble(f"{program} can not be called: {error.strerror}", NO_PROGRAM) from error
        status = wait(process, life, None if is_brief else LOOKED_AFTER)
        kept.seek(0)
        found = kept.read()
    elapsed = time.monotonic() - begun
    if status < 0:
        raise Trouble(f"the program was ended by signal {-status} after {elapsed:.0f} s: it gave no answer", 128 - status)
    if status > 9:
        raise Trouble(f"{program} ended with {status}, which is no status of the program", NO_PROGRAM)
    return Answer(tuple(words), status, found, elapsed)


def refuse_many(words: Sequence[str]) -> None:
    """Refuses more sessions than the program takes."""
    sessions = sum(one.role == "session" for one in inputs_of(words))
    if sessions > limits.MAX_SESSIONS:
        raise Trouble(f"{sessions} sessions are given; the program takes at most {limits.MAX_SESSIONS}", USAGE)


def wait(process: subprocess.Popen[bytes], life: Optional[Life], seconds: Optional[float]) -> int:
    """Waits for the program. Each so many seconds it tells the line of life, and heeds a signal that came."""
    try:
        while True:
            ending.heed()
            try:
                return process.wait(timeout=seconds)
            except subprocess.TimeoutExpired:
                if life:
                    life.tick()
    except BaseException:
        process.kill()
        # Not by `process.wait`, which would wait for ever where a signal came while it held its own lock.
        with contextlib.suppress(ChildProcessError):
            os.waitpid(process.pid, 0)
        raise
    finally:
        if life:
            life.end()


def inputs_of(words: Sequence[str]) -> List[Input]:
    """The inputs that these words name, numbered as the program numbers them."""
    form = FORMS.get(words[0], ()) if words else ()
    found: List[Input] = []
    for place, word in enumerate(words[1:]):
        role = form[min(place, len(form) - 1)] if form else "WORD"
        if role.islower():
            found.append(Input(len(found) + 1, role, word))
    return found


COLUMNS = {
    "catalogue": ("section", "course", "seats", "credits", "meetings", "parts"),
    "roll": ("student", "budget", "credits", "courses", "carry"),
    "prices": ("section", "price"),
}

RANGES = {
    ("catalogue", 3): f"no whole number from 0 to {limits.MAX_SEATS}",
    ("catalogue", 4): f"no whole number from 0 to {limits.MAX_SECTION_CREDITS} (in a unit that the school chooses, half credits"
    " for instance)",
    ("roll", 2): f"no whole number from 0 to {limits.MAX_BASE}",
    ("roll", 3): f"no whole number from 0 to {limits.MAX_CREDITS}",
    ("roll", 4): f"no whole number from 0 to {limits.MAX_COURSES}",
    ("roll", 5): f"no whole number from 0 to {limits.MAX_BASE} less the budget of column 2",
    ("prices", 2): f"no whole number from 0 to {limits.MAX_PRICE}",
}

REFUSAL = re.compile(r"input (\d+) row (\d+): (.*)\Z")
UNREAD = re.compile(r"input (\d+) can not be read\Z")
TOO_LONG = re.compile(r"input (\d+) is too long\Z")
NO_NAME = re.compile(r"no such name: word (\d+)\Z")
NO_PRICES = re.compile(r"no prices: least error (\d+)\Z")


def retell(answer: Answer, lines: Optional[Sequence[str]] = None) -> List[str]:
    """What a status other than 0 means, in words: file, row, column and value, and what to do.

    `lines` are the lines of the output where that went to a file.
    """
    lines = answer.lines if lines is None else lines
    last = lines[-1] if lines else ""
    told: Dict[int, Callable[[], List[str]]] = {
        1: lambda: retell_usage(answer.words),
        2: lambda: retell_unread(answer.words, last),
        3: lambda: retell_refusal(answer.words, last),
        4: lambda: retell_too_long(answer.words, last),
        5: lambda: retell_no_prices(last),
        6: lambda: ["The output was not taken whole: the disk is full, or whoever reads it went away. Make room and run again."],
        7: lambda: ["The machine had no memory left. Run again with less beside it."],
        8: lambda: [f"The text does not hold. {last}"],
        9: lambda: retell_no_name(answer.words, last),
    }
    teller = told.get(answer.status)
    return teller() if teller else []


def retell_usage(words: Sequence[str]) -> List[str]:
    """Status 1."""
    return [f"The program does not take these words: {' '.join(words)}. docs/FORMATS.md, 'The command line', has the forms."]


def input_at(words: Sequence[str], number: int) -> Input:
    """The input of this number."""
    for one in inputs_of(words):
        if one.number == number:
            return one
    return Input(number, "input", f"input {number}")


def retell_unread(words: Sequence[str], last: str) -> List[str]:
    """Status 2."""
    match = UNREAD.match(last)
    if not match:
        return [last]
    one = input_at(words, int(match.group(1)))
    why = "is not there" if not os.path.exists(one.path) else "may not be read"
    return [f"The {one.role} {one.path} {why} ({last})."]


def retell_too_long(words: Sequence[str], last: str) -> List[str]:
    """Status 4."""
    match = TOO_LONG.match(last)
    if not match:
        return [last]
    one = input_at(words, int(match.group(1)))
    limit = 67108864 if one.role == "text" else 16777216
    try:
        size = os.path.getsize(one.path)
    except OSError:
        size = 0
    if size > limit:
        return [f"The {one.role} {one.path} has {size} bytes; the program takes at most {limit}."]
    return [f"With {one.path} there are more than {limits.MAX_COMMANDS} commands or requests; the program takes no more."]


def retell_no_prices(last: str) -> List[str]:
    """Status 5."""
    match = NO_PRICES.match(last)
    if not match:
        return [last]
    least = match.group(1)
    return [
        f"The search found no prices that the settings accept: the least error that it saw is {least}.",
        f'Write "accept": {least} (or more) in the settings, or more "turns", and run again with the same files;',
        "`registrar settings` tries values and shows what each gives.",
    ]


def retell_no_name(words: Sequence[str], last: str) -> List[str]:
    """Status 9."""
    match = NO_NAME.match(last)
    if not match:
        return [last]
    number = int(match.group(1))
    word = words[number - 1] if number <= len(words) else ""
    whose = "student of the roll" if number == 6 else "section of the catalogue"
    return [f"No {whose} has the name '{word}'. Capital letters count."]


def retell_refusal(words: Sequence[str], last: str) -> List[str]:
    """Status 3: the file, the row with its line, the column with its name, the value, and what was expected."""
    match = REFUSAL.match(last)
    if not match:
        return [last]
    one = input_at(words, int(match.group(1)))
    row, cause = int(match.group(2)), match.group(3)
    if row == 0:
        return [retell_settings(one, cause)]
    record = record_at(one.path, row)
    return [f"{place_of(one, record, row, cause)}: {expected(one, record, cause)}", f"(The program's line: {last})"]


def record_at(path: str, row: int) -> Optional[tables.Record]:
    """The record of this row, or nothing where the table has none or cannot be read."""
    try:
        for record in tables.records(path):
            if record.row == row:
                return record
    except Trouble:
        pass
    return None


def column_of(cause: str) -> int:
    """The column that a cause names, or 0."""
    match = re.search(r"column (\d+)\Z", cause)
    if match:
        return int(match.group(1))
    return {"meetings": 5, "parts": 6}.get(cause, 1 if cause.startswith("repeats") else 0)


def place_of(one: Input, record: Optional[tables.Record], row: int, cause: str) -> str:
    """`catalogue.csv, row 2 (line 2), column 4 'credits'`."""
    where = f"{one.path}, row {row}" + (f" (line {record.line})" if record else "")
    column = column_of(cause)
    names = COLUMNS.get(one.role, ())
    if column and column <= len(names):
        where += f", column {column} '{names[column - 1]}'"
    return where


def expected(one: Input, record: Optional[tables.Record], cause: str) -> str:
    """The value that stands there, and what was expected."""
    column = column_of(cause)
    value = f"'{record.fields[column - 1]}'" if record and 0 < column <= len(record.fields) else "what stands there"
    width = len(record.fields) if record else 0
    if cause == "header":
        return retell_header(one, record)
    if cause == "fields":
        return (
            f"{tables_count(width)}, and the header has another number of them. A comma is too many or too few, "
            "or a quote is not closed"
        )
    if cause.startswith("repeats row "):
        return f"{value} stands in row {cause.split()[-1]} already. Rename one of the two, or remove it"
    if cause == "too many rows":
        most = limits.MAX_SECTIONS if one.role == "catalogue" else limits.MAX_STUDENTS
        return f"the table has more than {most} rows behind its header"
    if cause.startswith("name in column"):
        return f"{value} is no name. A name has 1 to 32 letters, digits, '-', '_' and '.', without blanks and accents"
    if cause.startswith("number in column"):
        return f"{value} is {RANGES.get((one.role, column), 'no such number')}, without sign, point and leading zeros"
    if cause == "meetings":
        return f"{value} is no list of meetings. Write them as M0900-1020;W0900-1020, with R for Thursday and U for Sunday"
    if cause == "parts":
        return f"{value} is no part of the term. Write 1 for the first half, 2 for the second, 12 for both"
    return cause


def tables_count(width: int) -> str:
    """How many fields a record has."""
    return "it has 1 field" if width == 1 else f"it has {width} fields"


def retell_header(one: Input, record: Optional[tables.Record]) -> str:
    """What is wrong with a header."""
    names = {"catalogue": tables.CATALOGUE_HEADERS, "roll": tables.ROLL_HEADERS, "prices": ("section,price",)}
    wanted = " or ".join(names.get(one.role, ()))
    if record is None:
        return f"the table is empty. Its first line has to be {wanted}"
    found = ",".join(record.fields)
    why = ""
    if len(record.fields) == 1 and (";" in found or "\t" in found):
        why = ". Its columns are separated by something other than commas: `registrar import` takes such an export"
    elif found.replace(" ", "").lower() in names.get(one.role, ()):
        why = ". Blanks and capital letters count"
    return f"the header is '{found}' and has to be {wanted}{why}"


def retell_settings(one: Input, cause: str) -> str:
    """A fault of the settings."""
    where = f"the settings {one.path}"
    if cause == "not json":
        return f"{where} are no JSON ({json_fault(one.path)})"
    if cause == "not an object":
        return f"{where} are no JSON object: they begin with {{ and end with }}"
    if cause.startswith("missing "):
        return f"{where} have no \"{cause.split()[1]}\". docs/FORMATS.md, 'Settings', has all eight"
    if cause == "unknown key":
        return f"{where} have a name that is none of {', '.join(tables.SETTINGS)}{unknown_keys(one.path)}"
    if cause.startswith("range of "):
        name = cause.split()[-1]
        return f'{where}: "{name}" is {value_of(one.path, name)}. It has to be {SETTING_RANGES.get(name, "another")}'
    return f"{where}: {cause}"


def whole_to(least: int, most: int) -> str:
    """What a setting has to be that is a whole number in a range."""
    return f"a whole number from {least} to {most}, without sign, point and exponent"


SETTING_RANGES = {
    "seed": whole_to(0, 2**64 - 1),
    "spread": whole_to(0, limits.MAX_SPREAD),
    "accept": whole_to(0, limits.MAX_ACCEPT),
    "turns": whole_to(0, limits.MAX_TURNS),
    "tabu": whole_to(1, limits.MAX_TABU),
    "patience": whole_to(1, limits.MAX_PATIENCE),
    "steps": f"an array of 1 to {limits.MAX_STEPS} whole numbers from 1 to {limits.MAX_STEP}",
    "raise": whole_to(0, limits.MAX_RAISE),
}


def json_fault(path: str) -> str:
    """What Python's reader says of a text that is no JSON."""
    try:
        tables.read_settings(path)
    except Trouble as trouble:
        return str(trouble).split(": ", 1)[-1]
    return "the program's reader is stricter than Python's"


def unknown_keys(path: str) -> str:
    """The names of the settings that are unknown, in brackets."""
    try:
        return " (" + ", ".join(sorted(set(tables.read_settings(path)) - set(tables.SETTINGS))) + ")"
    except Trouble:
        return ""


def value_of(path: str, name: str) -> str:
    """The value of a setting, as it reads in JSON, and what is wrong with it."""
    try:
        value = tables.read_settings(path).get(name)
    except Trouble:
        return "out of its range"
    kinds = {str: "a text in quotes and no number", bool: "no number", type(None): "no number"}
    fault = kinds.get(type(value), "out of its range")
    return f"{json.dumps(value, ensure_ascii=False)}, which is {fault}"
