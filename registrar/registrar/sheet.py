"""Reading and writing of sheets: text with commas, semicolons or tabs in any encoding with a mark, and .xlsx.

A sheet is read row by row, each row a list of texts. Empty rows are kept, so that the number of a row is the one that a
spreadsheet shows. `.xlsx` needs the package openpyxl; where it is missing the refusal says so.
"""

from __future__ import annotations

import codecs
import csv
import datetime
import importlib.util
import io
import os
import re
import zipfile
from collections import Counter
from typing import Any, Iterator, Mapping, Sequence

from registrar.whole import write_whole

#: The marks that a file may begin with, and the encoding that each says. The longer ones stand first.
MARKS: tuple[tuple[bytes, str], ...] = (
    (codecs.BOM_UTF8, "utf-8"),
    (codecs.BOM_UTF32_LE, "utf-32-le"),
    (codecs.BOM_UTF32_BE, "utf-32-be"),
    (codecs.BOM_UTF16_LE, "utf-16-le"),
    (codecs.BOM_UTF16_BE, "utf-16-be"),
)

#: The separators that are looked for, in the order in which they are preferred.
SEPARATORS = ",;\t"

#: By so many rows the separator is told.
LOOKED_AT = 50

#: A text that a spreadsheet was kept from reading as a number: `="0001"`.
AS_TEXT = re.compile(r'="((?:[^"]|"")*)"', re.DOTALL)

#: What an old .xls file begins with.
OLD_BOOK = bytes.fromhex("d0cf11e0a1b11ae1")


class SheetFault(Exception):
    """A sheet that can not be read: in which row, what stands there, and what was expected."""

    def __init__(self, row: int | None, value: str, expected: str) -> None:
        super().__init__(expected)
        self.row = row
        self.value = value
        self.expected = expected


def has_xlsx() -> bool:
    """Whether .xlsx can be read and written here."""
    return importlib.util.find_spec("openpyxl") is not None


def read_rows(path: str | os.PathLike[str], encoding: str = "", sheet: str = "") -> Iterator[list[str]]:
    """The rows of a sheet, empty ones too, each a list of texts.

    `encoding` is what a text is in that has no mark and is not UTF-8. `sheet` names a sheet of a book; without it the first
    is read. Raises `SheetFault`, or `OSError` where the file can not be read.
    """
    name = os.path.basename(path)
    with open(path, "rb") as file:
        data = file.read()
    if data.startswith(OLD_BOOK):
        raise SheetFault(None, name, "this is an old .xls book: save it as .xlsx or as CSV")
    if data.startswith(b"PK\x03\x04"):
        return book_rows(data, name, sheet)
    return text_rows(decoded(data, encoding))


def decoded(data: bytes, encoding: str) -> str:
    """The text of the bytes: by their mark, else as UTF-8, else in the encoding that is given."""
    for mark, named in MARKS:
        if data.startswith(mark):
            return decoded_as(data[len(mark) :], named)
    if b"\0" not in data:
        try:
            return data.decode("utf-8")
        except UnicodeDecodeError:
            pass
    if encoding:
        return decoded_as(data, encoding)
    if b"\0" in data:
        raise SheetFault(1, "", "this looks like UTF-16 without a mark: state `encoding = utf-16-le` or `utf-16-be`")
    return decoded_as(data, "utf-8")


def decoded_as(data: bytes, encoding: str) -> str:
    """The text of the bytes in that encoding."""
    try:
        return data.decode(encoding)
    except LookupError:
        raise SheetFault(None, encoding, "an encoding that Python knows, for instance cp1252") from None
    except UnicodeDecodeError as error:
        before = data[: error.start].decode(encoding, "replace")
        row = before.count("\n") + 1
        value = data[error.start : error.start + 4].hex(" ")
        expected = f"text in {encoding}; bytes {value} are none. Save as UTF-8, or state the encoding, for instance `encoding = cp1252`"
        raise SheetFault(row, before.splitlines()[-1] if before else "", expected) from None


def text_rows(text: str) -> Iterator[list[str]]:
    """The rows of a text with commas, semicolons or tabs. A first line `sep=;`, as a spreadsheet writes it, is an empty row."""
    stated = re.match(r"sep=([,;\t|])\r?\n", text)
    if stated:
        yield []
        text = text[stated.end() :]
    separator = stated.group(1) if stated else separator_of(text)
    rows = csv.reader(io.StringIO(text, newline=""), delimiter=separator, strict=True)
    number = 2 if stated else 1
    while True:
        try:
            row = next(rows)
        except StopIteration:
            return
        except csv.Error as error:
            raise SheetFault(number, "", f"a quote is not closed, or text stands behind a closing quote ({error})") from None
        yield [unwrapped(cell) for cell in row]
        number += 1


def unwrapped(cell: str) -> str:
    """What a cell shows that is written `="0001"`, which keeps a spreadsheet from taking its zeros; any other as it is."""
    found = AS_TEXT.fullmatch(cell.strip())
    return found.group(1).replace('""', '"') if found else cell


def separator_of(text: str) -> str:
    """The separator by which most of the first rows have equally many fields, and more than one."""
    best = (0, 0)
    chosen = ","
    for separator in SEPARATORS:
        widths = Counter(widths_of(text, separator))
        if not widths:
            continue
        width, times = max(widths.items(), key=lambda item: (item[1], item[0]))
        if width > 1 and (times, width) > best:
            best = (times, width)
            chosen = separator
    return chosen


def widths_of(text: str, separator: str) -> list[int]:
    """How many fields each of the first rows has with that separator, rows without text left out."""
    widths: list[int] = []
    rows = csv.reader(io.StringIO(text, newline=""), delimiter=separator)
    try:
        for row in rows:
            if any(cell.strip() for cell in row):
                widths.append(len(row))
            if len(widths) == LOOKED_AT:
                break
    except csv.Error:
        pass
    return widths


def book_rows(data: bytes, name: str, sheet: str) -> Iterator[list[str]]:
    """The rows of a sheet of an .xlsx book."""
    if not has_xlsx():
        raise SheetFault(None, name, "reading .xlsx needs the Python package openpyxl: install it, or save the sheet as CSV")
    import openpyxl

    try:
        book = openpyxl.load_workbook(io.BytesIO(data), read_only=True, data_only=True)
    except (KeyError, ValueError, OSError, zipfile.BadZipFile) as error:
        raise SheetFault(None, name, f"this is no .xlsx book ({error})") from None
    if sheet and sheet not in book.sheetnames:
        raise SheetFault(None, sheet, "one of the book's sheets: " + ", ".join(book.sheetnames))
    page = book[sheet] if sheet else book[book.sheetnames[0]]
    page.reset_dimensions()
    return ([cell_text(cell.value, getattr(cell, "number_format", "")) for cell in row] for row in page.iter_rows())


def cell_text(value: Any, shape: str = "") -> str:
    """What a cell of a book shows. A number under a format of zeros (`00000`) has its leading zeros, as the spreadsheet shows it."""
    if value is None:
        return ""
    if isinstance(value, bool):
        return "TRUE" if value else "FALSE"
    if isinstance(value, float):
        value = int(value) if value.is_integer() else format(value, ".15g")
    if isinstance(value, int) and re.fullmatch("0+", shape or ""):
        return str(value).zfill(len(shape))
    if isinstance(value, datetime.time):
        return value.strftime("%H:%M")
    if isinstance(value, datetime.datetime):
        return value.strftime("%Y-%m-%d %H:%M:%S").replace(" 00:00:00", "")
    return str(value)


def write_book(path: str | os.PathLike[str], sheets: Mapping[str, Sequence[Sequence[object]]]) -> None:
    """Writes an .xlsx book with these sheets. Texts stay texts, also where they begin with `=`. It needs `has_xlsx`."""
    import openpyxl
    from openpyxl.cell import WriteOnlyCell

    book = openpyxl.Workbook(write_only=True)
    for title, rows in sheets.items():
        page = book.create_sheet(re.sub(r"[][:*?/\\]", "-", title)[:31])
        for row in rows:
            cells = []
            for value in row:
                cell = WriteOnlyCell(page, value=value)
                if isinstance(value, str):
                    cell.data_type = "s"
                cells.append(cell)
            page.append(cells)
    content = io.BytesIO()
    book.save(content)
    write_whole(os.fspath(path), content.getvalue())
