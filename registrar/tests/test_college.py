"""`examples/college`: a made college of 900 students from its exports to lists, without a wrong step or a silent one."""

from __future__ import annotations

import csv
import importlib.util
import io
import os
import shutil
import sys
import types
import unittest

from registrar import program, tell
from tests.support import needs_program
from tests.term import InFolder, say

COLLEGE = os.path.join(program.TOP, "examples", "college")
SURVEYS = ("choices", "list", "ranks", "stars")


def load_maker() -> types.ModuleType:
    """The script that makes the exports."""
    found = importlib.util.spec_from_file_location("college_make", os.path.join(COLLEGE, "make.py"))
    assert found is not None and found.loader is not None
    module = importlib.util.module_from_spec(found)
    sys.modules[found.name] = module
    found.loader.exec_module(module)
    return module


make = load_maker()


class College(InFolder):
    """The exports, in a folder of their own."""

    def setUp(self) -> None:
        super().setUp()
        self.college = make.made_college()
        for name in os.listdir(COLLEGE):
            if name.endswith((".csv", ".ini", ".json")):
                shutil.copy(os.path.join(COLLEGE, name), name)

    def test_the_exports_are_those_that_the_script_makes(self) -> None:
        for name, content in make.exports(self.college).items():
            with open(os.path.join(COLLEGE, name), "rb") as file:
                self.assertEqual(file.read(), content, name)
        self.assertEqual((len(self.college.students), len(self.college.sections)), (900, 170))

    def test_the_guess_asks_for_each_thing_that_reads_in_two_ways(self) -> None:
        """Written as it is guessed, the mapping imports nothing, and each answer that the example's mapping has is asked for."""
        os.remove("mapping.ini")
        status, told = say("import", "--encoding", "cp1252", *sorted(make.exports(self.college)))
        self.assertEqual(status, tell.FAULTS)
        self.assert_told(told, (
            "timetable.csv is [catalogue]: section = Course + Section; course = Course; seats = Seats; credits = Credits; days = Days; start = Time",
            "decimal = ,; credit unit = 0.5",
            "[catalogue] section: 106 of 179 rows have nothing in Course: `fill down = Course` where these are merged cells",
            "[catalogue] credits: 97 of 170 rows have nothing in Credits: `fill down = Credits` where these are merged cells",
            'reserved seats: what "15 (5 reserved)" means, all or less',
            "[roll] courses or courses default",
            *(f"[survey {survey}] says: " for survey in ("list", "ranks", "stars")),
        ))  # fmt: skip
        status, told = say("import", "--into", "out")
        self.assertEqual(status, tell.FAULTS)
        self.assertIn('"SU" may be Saturday and Sunday, or Sunday', told)
        self.assertIn("nothing is written", told)
        self.assertFalse(os.path.exists("out"))

    def test_what_the_mapping_leaves_out_is_a_fault(self) -> None:
        """Each line that was written into the guess is needed: without it nothing is imported, and the fault names it."""
        cases = [
            ("fill down = Course | Title | Credits", "fill down =", "timetable.csv rows 5, 8-9, 23, column Credits: blank where this was expected: a number of credits, in steps of 0.5; `credits default`"),
            ("reserved seats = all", "reserved seats =",
             'column Seats: "15 (5 reserved)" where this was expected: a number of seats: this may be 15 or 10'),
            ("courses default = 5", "courses default =", "[roll] courses: blank"),
            ("says = rank", "says =", "ranks.csv, column [survey ranks] says: blank"),
            ("again = first row", "again = refuse", "choices.csv row 51, column Matriculation number"),
        ]
        mapping = self.read("mapping.ini")
        for old, new, wanted in cases:
            with self.subTest(new or old):
                self.assertIn(old, mapping)
                self.write("mapping.ini", mapping.replace(old, new, 1))
                status, told = say("import", "--into", "out", "--allow", "not-on-roll", "--replace")
                self.assertEqual(status, tell.FAULTS)
                self.assertIn(wanted, told)

    def test_the_exports_become_what_the_college_is(self) -> None:
        status, told = say("import", "--into", "out")
        self.assertEqual(status, tell.FAULTS)
        self.assertIn('choices.csv row 71, column Matriculation number: "881701" where this was expected: a student of the roll', told)
        status, told = say("import", "--into", "out", "--allow", "not-on-roll")
        self.assertEqual(status, 0, told)
        self.assertEqual(self.read("out/catalogue.csv"), make.catalogue_text(self.college))
        self.assertEqual(self.read("out/roll.csv"), make.roll_text(self.college))
        for survey in SURVEYS:
            with self.subTest(survey):
                lines = self.read(f"out/{survey}.session").splitlines()
                self.assertEqual({line for line in lines if not line.startswith("#")}, make.commands(self.college, survey))
        self.assert_told(told, (
            "timetable.csv: 194 rows, 179 taken, 15 not: 15 empty\n  106 cells of Course filled down\n",
            "list.csv: 4,496 rows, 4,242 taken, 254 not: 36 of nobody on the roll, 182 replaced by a later submission, 36 with a rating of 0",
            "stars.csv: 292 rows, 275 taken, 17 not: 3 empty, 2 of nobody on the roll, 12 replaced by a later submission",
            "  not on the roll, left out: 881401 (rows 2961-2978)",
            "  5 submissions were replaced whole by a later one, of 0016148,",
            "25 students have no wishes",
        ))  # fmt: skip

    @needs_program
    def test_from_the_exports_to_the_lists(self) -> None:
        """Each step with the real program; each student stands in the lists with its own name."""
        self.assertEqual(say("import", "--into", "out", "--allow", "not-on-roll")[0], 0)
        tables = ["out/catalogue.csv", "out/roll.csv"]
        sessions = [f"out/{survey}.session" for survey in SURVEYS]
        status, told = say("look", *tables, *sessions, "--allow", "no-wishes")
        self.assertEqual(status, 0, told)
        status, told = say("run", *tables, "settings.json", *sessions, "--text", "out/published.txt")
        self.assertEqual(status, 0, told)
        self.assertIn("out/published.txt: 900 students, 170 sections", told)
        status, told = say("check", "--manifest", "out/manifest.json")
        self.assertEqual((status, told), (0, "accepted\n"))
        status, told = say("lists", "--manifest", "out/manifest.json", "--out", "out/lists", "--no-reasons")
        self.assertEqual(status, 0, told)
        rows = self.read("out/lists/students.csv").splitlines()
        self.assertEqual([row.split(",")[0] for row in rows[1:]], [one.number for one in self.college.students])
        holders = [row.rsplit(",", 1)[0] for row in self.read("out/lists/rosters.csv").splitlines()[1:]]
        for section in self.college.sections:
            self.assertLessEqual(holders.count(section.code), section.seats)
        self.assert_own_credits(rows)
        self.after_publication({one[0]: one[1].split("; ") for one in csv.reader(rows[1:])})

    def assert_own_credits(self, rows: list[str]) -> None:
        """The credits of each student are the sum of what the college says, with its decimal comma."""
        halves = {one.code: one.half_credits for one in self.college.sections}
        for _, sections, told, *_ in csv.reader(rows[1:]):
            total = sum(halves[one] for one in sections.split("; ") if one)
            self.assertEqual(told, f"{total // 2},5" if total % 2 else str(total // 2))

    def after_publication(self, before: dict[str, list[str]]) -> None:
        """Drop and add, and the next roll: nobody loses a seat by a swap, and what is carried over is of what is held then."""
        status, told = say("hall", "--manifest", "out/manifest.json", "--into", "out")
        self.assertEqual(status, 0, told)
        with open("out/hall-students.csv", encoding="utf-8-sig", newline="") as file:
            held = {row["student"]: row["sections"].split("; ") for row in csv.DictReader(file)}
        with open("changes.csv", encoding="cp1252", newline="") as file:
            swaps = [row for row in csv.reader(file) if row[1] in before and row[2] and row[3]]
        self.assertGreater(len(swaps), 5)
        for _, student, drop, add in swaps:
            if drop in before[student]:
                self.assertTrue({drop, add} & set(held[student]), (student, drop, add))
                self.assertEqual(f"{student} keeps {drop}; left out: {add} can not be had (" in told, drop in held[student])
        status, told = say("next", "--manifest", "out/manifest.json", "--into", "out/next.csv")
        self.assertEqual(status, 0, told)
        self.assertIn("after out/hall.requests: ", told)
        self.assert_carried(held)

    def assert_carried(self, held: dict[str, list[str]]) -> None:
        """Budget less prices of what is held, by the lines of the published text, and 0 where these come to more."""
        rows = csv.DictReader(io.StringIO(self.read("out/names.csv")))
        names = {row["original"]: row["name"] for row in rows if row["kind"] == "section"}
        lines = [line.split(" ") for line in self.read("out/published.txt").splitlines()]
        budgets = {one[1]: int(one[2]) for one in lines if one[0] == "budget"}
        prices = {one[1]: int(one[2]) for one in lines if one[0] == "price"}
        for row in csv.DictReader(io.StringIO(self.read("out/next.csv"))):
            cost = sum(prices[names[section]] for section in held[row["student"]] if section)
            self.assertEqual(int(row["carry"]), max(0, budgets[row["student"]] - cost), row)


if __name__ == "__main__":
    unittest.main()
