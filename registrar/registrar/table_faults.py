"""All faults of a catalogue or a roll in the program's own form, where the program tells the first alone."""

from __future__ import annotations

import os

from registrar import limits, tables
from registrar.faults import Faults

#: The columns of both tables, with the greatest number of each that has numbers.
COLUMNS = {
    "catalogue": (
        ("section", None), ("course", None), ("seats", limits.MAX_SEATS), ("credits", limits.MAX_SECTION_CREDITS), ("meetings", None),
        ("parts", None),
    ),
    "roll": (
        ("student", None), ("budget", limits.MAX_BASE), ("credits", limits.MAX_CREDITS), ("courses", limits.MAX_COURSES),
        ("carry", limits.MAX_BASE),
    ),
}

HEADERS = {"catalogue": tables.CATALOGUE_HEADERS, "roll": tables.ROLL_HEADERS}
MOST = {"catalogue": limits.MAX_SECTIONS, "roll": limits.MAX_STUDENTS}

EXPECTED = {
    "name": "a name: 1 to 32 letters, digits, '-', '_' and '.'",
    "meetings": "meetings as M0900-1020;W0900-1020, at most ten",
    "parts": "1, 2 or 12",
}


def add_faults(kind: str, path: str, faults: Faults) -> None:
    """Adds all faults of a table of this kind (`catalogue`, `roll`)."""
    file = os.path.basename(path)
    records = list(tables.records(path))
    header = ",".join(records[0].fields) if records else ""
    if header not in HEADERS[kind]:
        missing = "" if header else "the header is missing: "
        faults.add(file, 1, "", header, missing + " or ".join(HEADERS[kind]))
        return
    if len(records) - 1 > MOST[kind]:
        faults.add(file, MOST[kind] + 2, "", f"{len(records) - 1} rows", f"at most {MOST[kind]} rows behind the header")
    width = len(records[0].fields)
    first: dict[str, int] = {}
    for record in records[1:]:
        if len(record.fields) != width:
            faults.add(file, record.row, "", ",".join(record.fields), f"{width} fields, as the header has")
            continue
        if record.fields[0] in first:
            faults.add(
                file, record.row, COLUMNS[kind][0][0], record.fields[0], f"a name once; row {first[record.fields[0]]} has it"
            )
        first.setdefault(record.fields[0], record.row)
        for (column, most), value in zip(COLUMNS[kind], record.fields):
            expected = fault_of(column, most, value)
            if expected:
                faults.add(file, record.row, column, value, expected)
        if kind == "roll" and width == 5:
            add_too_much(file, record, faults)


def fault_of(column: str, most: int | None, value: str) -> str:
    """What was expected in a column, where the value is not that; else nothing."""
    if most is not None:
        is_number = tables.NUMBER.match(value) and int(value) <= most
        return "" if is_number else f"a whole number from 0 to {most}, without sign, point and leading zeros"
    if column == "meetings":
        return "" if tables.are_meetings(value) else EXPECTED["meetings"]
    if column == "parts":
        return "" if value in ("1", "2", "12") else EXPECTED["parts"]
    return "" if tables.NAME.match(value) else EXPECTED["name"]


def add_too_much(file: str, record: tables.Record, faults: Faults) -> None:
    """Adds that base and carry together are above what a student may have."""
    budget, carry = record.fields[1], record.fields[4]
    if (
        all(tables.NUMBER.match(value) and int(value) <= limits.MAX_BASE for value in (budget, carry))
        and int(budget) + int(carry) > limits.MAX_BASE
    ):
        faults.add(
            file, record.row, "carry", carry, f"at most {limits.MAX_BASE - int(budget)}: base and carry together are at most {limits.MAX_BASE}"
        )
