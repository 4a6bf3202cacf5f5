"""Sheets: encodings with marks, separators by the content, faults with their row, and books where openpyxl is installed."""

from __future__ import annotations

import datetime
import os
import tempfile
import unittest
from unittest import mock

from registrar import sheet


class Sheets(unittest.TestCase):
    """Reading and writing sheets."""

    def setUp(self) -> None:
        self.folder = tempfile.TemporaryDirectory()
        self.addCleanup(self.folder.cleanup)
        self.path = os.path.join(self.folder.name, "one.csv")

    def rows(self, content: bytes, encoding: str = "") -> list[list[str]]:
        with open(self.path, "wb") as file:
            file.write(content)
        return list(sheet.read_rows(self.path, encoding))

    def test_encodings(self) -> None:
        text = "code,né\r\nÉ 1,€\r\n"
        expected = [["code", "né"], ["É 1", "€"]]
        cases = [
            (text.encode("utf-8"), ""),
            (text.encode("utf-8-sig"), ""),
            (b"\xff\xfe" + text.encode("utf-16-le"), ""),
            (b"\xfe\xff" + text.encode("utf-16-be"), ""),
            (b"\xff\xfe\0\0" + text.encode("utf-32-le"), ""),
            (text.encode("cp1252"), "cp1252"),
            (text.encode("utf-16-le"), "utf-16-le"),
            (text.encode("utf-8"), "cp1252"),
        ]
        for content, encoding in cases:
            with self.subTest(content=content[:12], encoding=encoding):
                self.assertEqual(self.rows(content, encoding), expected)

    def test_separators(self) -> None:
        cases = [
            ("a,b\n1,2\n", [["a", "b"], ["1", "2"]]),
            ("a;b\n1,5;2\n3,5;4\n", [["a", "b"], ["1,5", "2"], ["3,5", "4"]]),
            ("a\tb\n1\t2\n", [["a", "b"], ["1", "2"]]),
            ("section,when\nA,M0900-1000;W0900-1000\n", [["section", "when"], ["A", "M0900-1000;W0900-1000"]]),
            ('name;id\n"Ito, Ana";1\n"Ito, Bo";2\n', [["name", "id"], ["Ito, Ana", "1"], ["Ito, Bo", "2"]]),
            ('a,b\n"x,1","say ""y"""\n', [["a", "b"], ["x,1", 'say "y"']]),
            ("sep=;\na;b\n", [[], ["a", "b"]]),
            ("a,b\n\n1,2\n", [["a", "b"], [], ["1", "2"]]),
            ("a\n1\n", [["a"], ["1"]]),
            ('id,x\n="0001",="say ""y"""\n"=""0002""",=A1\n', [["id", "x"], ["0001", 'say "y"'], ["0002", "=A1"]]),
            ("a,b\r1,2\r", [["a", "b"], ["1", "2"]]),
            ("", []),
        ]
        for text, expected in cases:
            with self.subTest(text=text):
                self.assertEqual(self.rows(text.encode()), expected)

    def test_what_is_no_sheet_is_told_with_its_row(self) -> None:
        cases = [
            ("a,b\n1,2\nné,3\n".encode("cp1252"), "", 3, "cp1252"),
            ("a,b\n1,2\n".encode("utf-16-le"), "", 1, "utf-16-le"),
            (b'a,b\n1,2\n"3,4\n5,6\n', "", 3, "quote"),
            (b"\xd0\xcf\x11\xe0\xa1\xb1\x1a\xe1rest", "", None, ".xlsx"),
            ("né\n".encode("cp1252"), "no-such-encoding", None, "cp1252"),
        ]
        for content, encoding, row, words in cases:
            with self.subTest(content=content[:12]), self.assertRaises(sheet.SheetFault) as told:
                self.rows(content, encoding)
            self.assertEqual(told.exception.row, row)
            self.assertIn(words, told.exception.expected)

    def test_a_book_without_openpyxl_is_refused_by_the_name_of_the_package(self) -> None:
        with mock.patch.object(sheet, "has_xlsx", lambda: False), self.assertRaises(sheet.SheetFault) as told:
            self.rows(b"PK\x03\x04rest")
        self.assertIn("openpyxl", told.exception.expected)

    def test_cells_of_a_book(self) -> None:
        cases = [
            (None, "", ""),
            (123, "00000", "00123"),
            (123, "General", "123"),
            (12.0, "", "12"),
            (1.5, "", "1.5"),
            (True, "", "TRUE"),
            (datetime.time(9, 5), "", "09:05"),
            (datetime.datetime(2026, 11, 9), "", "2026-11-09"),
            ("=1", "", "=1"),
        ]
        for value, shape, expected in cases:
            with self.subTest(value=value):
                self.assertEqual(sheet.cell_text(value, shape), expected)

    @unittest.skipUnless(sheet.has_xlsx(), "openpyxl is not installed")
    def test_a_book_is_read_as_it_was_written(self) -> None:
        path = os.path.join(self.folder.name, "book.xlsx")
        rows: list[list[object]] = [["student", "left"], ["00123", 5], ["=1+1", 7]]
        sheet.write_book(path, {"students: all": rows, "empty": []})
        self.assertEqual(list(sheet.read_rows(path)), [["student", "left"], ["00123", "5"], ["=1+1", "7"]])
        with self.assertRaises(sheet.SheetFault) as told:
            sheet.read_rows(path, sheet="other")
        self.assertIn("students- all", told.exception.expected)

    @unittest.skipUnless(sheet.has_xlsx(), "openpyxl is not installed")
    def test_an_archive_that_is_no_book_is_refused(self) -> None:
        with self.assertRaises(sheet.SheetFault):
            self.rows(b"PK\x03\x04rest")


if __name__ == "__main__":
    unittest.main()
