"""Reading the program's formats, on the example term."""

import os
import tempfile
import unittest
from typing import List

from registrar import own_names, program, published, tables, tell

TERM = os.path.join(program.TOP, "examples", "term")


class Guarded(unittest.TestCase):
    """Tables that a spreadsheet opens."""

    def test_no_text_is_a_formula(self) -> None:
        """What begins as a formula has an apostrophe before it, and comes back as it was; numbers stay numbers."""
        texts = ("=cmd()", "+1+1", "-5", "'-5", "+2.5%", "-1-", "@x", "\tx", "'=x", "''-y", "plain", "'tis", "", "a=b")
        wanted = ("'=cmd()", "'+1+1", "-5", "''-5", "+2.5%", "'-1-", "'@x", "'\tx", "''=x", "'\''-y", "plain", "'tis", "", "a=b")
        for text, there in zip(texts, wanted):
            with self.subTest(text):
                self.assertEqual(tables.guarded(text), there)
                self.assertEqual(tables.unguarded(there), text)
        rows: List[List[object]] = [["a", "b"], ["=1+1", -5], ['x,"y"', "é\nz"]]
        self.assertEqual(tables.sheet_text(rows), "a,b\r\n'=1+1,-5\r\n\"x,\"\"y\"\"\",\"é\nz\"\r\n")

    def test_names_come_back(self) -> None:
        """A student's own number that begins with a sign is read from names.csv as it was."""
        with tempfile.TemporaryDirectory() as folder:
            path = os.path.join(folder, "names.csv")
            tables.write_csv(path, [["kind", "original", "name"], ["student", "=cmd()", "-cmd--"]])
            with open(path, encoding="utf-8") as file:
                self.assertIn("student,'=cmd(),'-cmd--", file.read())
            self.assertEqual(own_names.read(path), {"student": {"-cmd--": "=cmd()"}})


class Reading(unittest.TestCase):
    """What stands in examples/term."""

    def test_the_term(self) -> None:
        """The counts of the term as docs/GUIDE.md tells them."""
        self.assertEqual(len(tables.read_catalogue(os.path.join(TERM, "catalogue.csv"))), 30)
        self.assertEqual(len(tables.read_roll(os.path.join(TERM, "roll.csv"))), 100)
        self.assertEqual(set(tables.read_settings(os.path.join(TERM, "settings.json"))), set(tables.SETTINGS))

    def test_the_text(self) -> None:
        """Lines that docs/GUIDE.md shows."""
        text = published.read_published(os.path.join(TERM, "published.txt"))
        self.assertEqual(text.budgets["n.jones"], 4542)
        self.assertEqual(text.prices["FNCE-601-A"], 1942)
        self.assertEqual(text.bundles["n.jones"].sections, ("ACCT-611-B", "FNCE-601-A", "HCMG-841-A"))
        self.assertEqual(text.finals["n.jones"].sections, ("ACCT-611-B", "FNCE-601-A", "MGMT-691-B"))

    def test_a_text_of_unknown_names(self) -> None:
        """Whoever reads a text that was not checked meets no name without a price or a budget."""
        lines = ["course-match 1", "order", "budget u 5", "start X 0", "error 0", "price X 0", "bundle u [X] *", "final u [X]"]
        lines += ["used X 1 1", "end"]
        for old, new, wanted in (("final u [X]", "final u [Z]", "the section Z"), ("bundle u [X]", "bundle w [X]", "the student w")):
            with tempfile.TemporaryDirectory() as folder, self.subTest(new):
                path = os.path.join(folder, "text")
                tables.write_whole(path, "\n".join([*lines, ""]).encode())
                self.assertEqual(published.read_published(path).finals["u"].sections, ("X",))
                tables.write_whole(path, "\n".join([*lines, ""]).replace(old, new).encode())
                with self.assertRaisesRegex(tell.Trouble, wanted):
                    published.read_published(path)

    def test_names_that_are_no_table(self) -> None:
        """A file of names that Python's reader refuses is told."""
        with tempfile.TemporaryDirectory() as folder:
            path = os.path.join(folder, "names.csv")
            tables.write_whole(path, b'kind,original,name\nsection,"' + b"x" * (1 << 26) + b'x",X\n')
            with self.assertRaisesRegex(tell.Trouble, "is no table of names"):
                own_names.read(path)

    def test_kinds(self) -> None:
        """Commands as docs/FORMATS.md, "Sessions", has them."""
        cases = (
            ("rate a B 10", "rate"),
            ("rate a B -0", "unreadable"),
            ("rate a B 01", "unreadable"),
            ("rate a B", "unreadable"),
            ("pair a B C -7", "pair"),
            ("clear a", "clear"),
            ("close", "close"),
            ("close now", "unreadable"),
            ("a,B,10", "unreadable"),
        )
        for line, kind in cases:
            with self.subTest(line):
                self.assertEqual(tables.kind_of(line.split()), kind)
