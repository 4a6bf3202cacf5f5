"""What students and deans read is in the school's own units and spelling: lists, texts, plots, sentences."""

from __future__ import annotations

import csv
import os
import shutil
import unittest
from decimal import Decimal
from typing import Dict, List

from registrar import own_names, program, tell
from tests.support import InFolder, call, needs_program

EXPORTS = os.path.join(program.TOP, "examples", "exports")


class Units(InFolder):
    """Credits of the program in those of a school."""

    def test_credits(self) -> None:
        """Eleven half credits are 5.5, and where the school writes a comma, 5,5."""
        for unit, number, wanted in (
            ("0.5", 11, "5.5"), ("0.5", 12, "6"), ("0,5", 11, "5,5"), ("0,5", 12, "6"), ("0.25", 1, "0.25"), ("1", 11, "11"), ("3", 2, "6"),
            ("0.5", 0, "0"), ("0.5", 800, "400"), ("0.01", 100, "1"),
        ):  # fmt: skip
            with self.subTest((unit, number)):
                self.assertEqual(own_names.credits({"unit": {"credit": unit}}, number), wanted)
        self.assertEqual(own_names.credits({}, 11), "11")
        self.assertEqual(own_names.credits_in_words({"unit": {"credit": "0.5"}}, 2), "1 credit")
        self.assertEqual(own_names.credits_in_words({"unit": {"credit": "0.5"}}, 1), "0.5 credits")

    def test_the_row(self) -> None:
        """What an import writes is what is read."""
        self.assertEqual(own_names.rows_of_units(Decimal(1), "."), [])
        self.assertEqual(own_names.rows_of_units(Decimal("0.50"), ","), [["unit", "0,5", "credit"]])
        for unit in ("0", "-1", "half", "nan", "inf", "1,000.5"):
            with self.subTest(unit):
                self.put("names.csv", f'kind,original,name\nunit,"{unit}",credit\n')
                with self.assertRaises(tell.Trouble) as caught:
                    own_names.read("names.csv")
                self.assertEqual(str(caught.exception), f"names.csv: the unit of credits is '{unit}', which is no number above 0")


@needs_program
class Term(InFolder):
    """The exports of examples/exports, whose credits are halves and whose codes have blanks and accents."""

    def setUp(self) -> None:
        super().setUp()
        self.assertEqual(call("import", "--mapping", os.path.join(EXPORTS, "mapping.ini"), "--into", ".").status, 0)
        shutil.copy(os.path.join(EXPORTS, "settings.json"), "settings.json")
        sessions = ["choices.session", "desk.session", "web.session"]
        self.assertEqual(call("run", "catalogue.csv", "roll.csv", "settings.json", *sessions).status, 0)

    def rows(self, name: str) -> List[Dict[str, str]]:
        """The rows of a list."""
        with open(os.path.join("lists", name), encoding="utf-8-sig", newline="") as file:
            return list(csv.DictReader(file))

    def timetable(self) -> Dict[str, Decimal]:
        """The credits of each section, as the export of the timetable has them."""
        with open(os.path.join(EXPORTS, "timetable.csv"), encoding="utf-16", newline="") as file:
            rows = list(csv.DictReader(file, delimiter=";"))
        return {row["SECTION CODE"]: Decimal(row["Credits"].replace(",", ".")) for row in rows if row["Credits"]}

    def test_lists(self) -> None:
        """The credits of each student are the sum of what the timetable says, and every code is the timetable's."""
        self.assertEqual(call("lists").status, 0)
        credits = self.timetable()
        for row in self.rows("students.csv"):
            sections = [one for one in row["sections"].split("; ") if one]
            self.assertEqual(Decimal(row["credits"]), sum(credits[one] for one in sections), row)
        self.assertTrue(any("." in row["credits"] for row in self.rows("students.csv")))
        for name in ("rosters.csv", "sections.csv"):
            self.assertLessEqual({row["section"] for row in self.rows(name)}, set(credits))

    def test_texts(self) -> None:
        """A student's sentences and table have the timetable's codes, meetings and credits; its lines are those of the text."""
        self.assertEqual(call("lists").status, 0)
        text = self.read("lists/students/000113.txt")
        self.assertIn("You have ACCT 101 A, GÉNI 102 C and MKTG 105 A: 3 credits.\n", text)
        self.assertRegex(text, r"\n  GÉNI 102 C +0 +74 +1.5  TR 3:00pm - 4:20pm\n")
        self.assertIn("\n  There ACCT_101_A is ACCT 101 A, GENI_102_C is GÉNI 102 C, MKTG_105_A is MKTG 105 A.\n", text)
        sentences = text.split("Sections that you rated higher")[1]
        self.assertNotIn("_", sentences)
        self.assertIn("MKTG 105 C costs 150. It is at the same time as ACCT 101 A", sentences)

    def test_a_cap(self) -> None:
        """A cap on credits is told in the school's units."""
        lines = self.read("roll.csv").splitlines()
        rows = [",".join([*one.split(",")[:2], "3", *one.split(",")[3:]]) for one in lines[1:]]
        self.put("roll.csv", "\n".join([lines[0], *rows]) + "\n")
        sessions = ["choices.session", "desk.session", "web.session"]
        self.assertEqual(call("run", "catalogue.csv", "roll.csv", "settings.json", *sessions).status, 0)
        self.assertEqual(call("lists").status, 0)
        texts = "".join(self.read(os.path.join("lists/students", one)) for one in os.listdir("lists/students") if one.endswith(".txt"))
        self.assertIn("your cap of 1.5 credits", texts)
        self.assertNotIn("your cap of 3 credits", texts)

    def test_summary_and_explain(self) -> None:
        """The plots and the sentences."""
        self.assertEqual(call("summary").status, 0)
        page = self.read("summary.html")
        self.assertIn("GÉNI 102 C", page)
        self.assertNotIn("GENI_102_C", page)
        self.assertIn("FNCE 103 A, costs", page)
        told = call("explain", "000113", "FNCE 103 A").out
        self.assertRegex(told, r"\A000113 FNCE_103_A alone price\n\nFNCE 103 A costs [0-9]+. It alone passes your budget of 4689.\nNo seat ")


if __name__ == "__main__":
    unittest.main()
