"""`summary` by groups and for a council: of the scarce market, told by hand."""

from __future__ import annotations

import html
import re
import unittest
import xml.etree.ElementTree

from registrar import council, measures, published, tell
from tests.support import Told, call, needs_program
from tests.test_compare import TwoRuns

WORDS = (
    "Title: Wie die Plätze <vergeben> wurden\n"
    "Language: de\n"
    "Columns: students, share, first\n"
    "Column group: Studienjahr\n"
    "Column share: Anteil am Wunsch\n"
    "Word all: alle\n"
    "\n"
    "{students} Studierende, {seats taken} von {seats in all} Plätzen ({seats taken percent}).\n"
    "Im ersten Jahr {share of 1}, im zehnten {first percent of 10}.\n"
    "\n"
    "{table}\n"
    "\n"
    "{plot share}\n"
)


def cells(page: str) -> list[list[str]]:
    """The rows of all tables of a page."""
    rows = re.findall("<tr>(.*?)</tr>", page)
    return [[html.unescape(cell) for cell in re.findall("<t[hd][^>]*>(.*?)</t[hd]>", row)] for row in rows]


class WithGroups(TwoRuns):
    """A test that sums up the years of two students: one holds X and Y, the other Y."""

    def summary(self, *words: str) -> Told:
        """Calls `summary` by year, each group for itself."""
        return call("summary", "--mapping", "mapping.ini", "--by", "Year", "--least", "1", *words)


@needs_program
class ByGroup(WithGroups):
    """The whole summary."""

    def test_groups(self) -> None:
        told = self.summary()
        self.assertEqual(told.status, 0, told.err)
        page = self.read("summary.html")
        rows = cells(page)
        years = {"u": "1", "v": "10"}
        text = published.read_published("published.txt")
        share = 100 * self.alone / self.both
        # Students, without, sections, credits, share, first choice, spent, budget, envious.
        price = str(text.prices["X"])
        self.assertIn([years[self.winner], "1", "0", "2", "2", "100.0 %", "1", price, "110", "0"], rows)
        self.assertIn([years[self.loser], "1", "0", "1", "1", f"{share:.1f} %", "0", "0", "100", "1"], rows)
        mean = f"{(100 + share) / 2:.1f} %"
        half = f"{round(text.prices['X'] / 2)}"
        self.assertIn(["all", "2", "0", "1.5", "1.5", mean, "1", half, "105", "1"], rows)
        # The table of budgets by base.
        self.assertIn(["100", "2", "100", "105", "110"], rows)
        self.assertEqual(page.count("<svg"), 15)
        self.assertEqual(page.count("<figure>"), page.count("</svg><table>"))
        xml.etree.ElementTree.fromstring(page.split("\n", 1)[1].replace('<meta charset="utf-8">', ""))
        self.assertIn("envy somebody", told.out)

    def test_small_groups_stand_together(self) -> None:
        told = call("summary", "--mapping", "mapping.ini", "--by", "Year", "--no-audit")
        self.assertEqual(told.status, 0, told.err)
        rows = cells(self.read("summary.html"))
        self.assertIn(["(groups of fewer than 5)", "2"], [row[:2] for row in rows])
        self.assertNotIn("envy somebody", told.out)

    def test_credits_in_the_school_s_unit(self) -> None:
        self.put("names.csv", "kind,original,name\nunit,0.5,credit\n")
        told = self.summary()
        self.assertEqual(told.status, 0, told.err)
        rows = {row[0]: row for row in cells(self.read("summary.html")) if len(row) == 10}
        self.assertEqual(rows["all"][4], "0.75")

    def test_a_trial_says_that_it_is_one(self) -> None:
        self.put("variants.ini", "[more]\nseats X = 2\n")
        self.assertEqual(call("trial", "variants.ini").status, 0)
        told = call("summary", "--manifest", "trials/01-more/manifest.json")
        self.assertEqual(told.status, 0, told.err)
        self.assertIn("This is the trial &#x27;more&#x27;, and no run.", self.read("summary.html"))

    def test_words_that_go_together(self) -> None:
        self.assertEqual(call("summary", "--by", "Year").status, tell.USAGE)
        told = call("summary", "--mapping", "mapping.ini", "--by", "Name")
        self.assertEqual(told.status, tell.FAULTS)
        self.assertIn("a column of the file", told.out)


@needs_program
class Council(WithGroups):
    """A page in the school's own words."""

    def council(self, text: str) -> Told:
        """Calls `summary` for a council."""
        self.put("words.txt", text)
        return self.summary("--council", "words.txt", "--out", "council.html")

    def test_a_page(self) -> None:
        told = self.council(WORDS)
        self.assertEqual(told.status, 0, told.err + told.out)
        page = self.read("council.html")
        self.assertIn('<html lang="de">', page)
        self.assertIn("<h1>Wie die Plätze &lt;vergeben&gt; wurden</h1>", page)
        share = f"{100 * self.alone / self.both:.1f} %" if self.loser == "u" else "100.0 %"
        first = "100 %" if self.winner == "v" else "0 %"
        text = f"2 Studierende, 3 von 3 Plätzen (100.0 %). Im ersten Jahr {share}, im zehnten {first}."
        self.assertIn(f"<p>{text}</p>", page)
        rows = cells(page)
        self.assertIn(["Studienjahr", "students", "Anteil am Wunsch", "with a first choice"], rows)
        self.assertIn("alle", [row[0] for row in rows])
        self.assertNotIn("all", [row[0] for row in rows])
        self.assertEqual((page.count("<svg"), page.count("<table>")), (1, 1))
        xml.etree.ElementTree.fromstring(page.split("\n", 1)[1].replace('<meta charset="utf-8">', ""))

    def test_faults(self) -> None:
        for text, wanted in (
            (WORDS.replace("Title", "Titel"), 'words.txt row 1: "Titel: '),
            (WORDS.replace("Columns: students", "Columns: studens"), '"studens" where this was expected: one of'),
            (WORDS.replace("Word all", "Word everybody"), '"Word everybody" where this was expected: one of'),
            (WORDS.replace("Language: de", "Language: d<e"), "a language, as en or fr"),
            (WORDS.replace("{share of 1}", "{share of 2}"), 'words.txt row 8: "{share of 2}"'),
            (WORDS.replace("{students} S", "{students S"), 'words.txt row 8: "{"'),
            (WORDS.replace("{table}", "Hier: {table}"), "a paragraph of its own for a table or a plot"),
            (WORDS.replace("Title: Wie die Plätze <vergeben> wurden\n", ""), "a line `Title: ..` above the first"),
        ):
            with self.subTest(wanted):
                told = self.council(text)
                self.assertEqual(told.status, tell.FAULTS, told.out)
                self.assertIn(wanted, told.out)
                with self.assertRaises(FileNotFoundError):
                    self.read("council.html")

    def test_a_plot_has_its_table_where_the_page_has_none(self) -> None:
        told = self.council(WORDS.replace("{table}\n\n", "").replace("{plot share}", "{plot first}"))
        self.assertEqual(told.status, 0, told.out)
        self.assertIn("</svg><table>", self.read("council.html"))

    def test_envy_without_an_audit(self) -> None:
        told = self.council(WORDS.replace("{students} S", "{envious} S"))
        self.assertEqual(told.status, 0, told.out)
        self.put("words.txt", WORDS.replace("{students} S", "{envious} S"))
        told = self.summary("--council", "words.txt", "--out", "other.html", "--no-audit")
        self.assertEqual(told.status, tell.FAULTS)
        self.assertIn('"{envious}"', told.out)

    def test_the_text_is_not_written_over(self) -> None:
        self.put("words.txt", WORDS)
        self.assertEqual(self.summary("--council", "words.txt", "--out", "words.txt").status, tell.USAGE)
        self.assertEqual(self.read("words.txt"), WORDS)


class Shares(unittest.TestCase):
    """Spans of ten percent."""

    def test_spans(self) -> None:
        one = measures.Group("all", 4, 0, 0, 0, (0.0, 9.99, 10.0, 100.0), 0, 0, (), None)
        found = dict(council.shares_by_ten(one))
        self.assertEqual((found["0 to 10"], found["10 to 20"], found["100"]), (2, 1, 1))
        self.assertEqual(council.median((1, 2, 4, 8)), 3)
        self.assertEqual(council.median(()), 0)


if __name__ == "__main__":
    unittest.main()
