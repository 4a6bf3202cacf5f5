"""A folder of the files that students saved by the page's form: whose are missing, doubled, or not the student's own."""

from __future__ import annotations

import os
import unittest

from registrar import tell
from tests.support import needs_program
from tests.term import InFolder, say

MAPPING = (
    "[catalogue]\nfile = c.csv\nsection = s\ncourse = c\nseats default = 5\ncredits default = 1\nmeetings default = TBA\n"
    "[roll]\nfile = r.csv\nstudent = id\nbudget default = 500\ncredits default = 9\ncourses default = 5\n"
    "[sessions forms]\nfolder = forms\n"
)


class Folder(InFolder):
    """Four students, of whom three have saved a file."""

    def setUp(self) -> None:
        super().setUp()
        self.write("mapping.ini", MAPPING)
        self.write("c.csv", "s,c\nÖK 1,ÖK\nB-1,B\nC-1,C\n")
        self.write("r.csv", "id\na.b\nb\nc\n00d\n")
        os.mkdir("forms")
        self.write("forms/a.b.session", "# What a.b wishes.\nclear a.b\nrate a.b OK_1 90\nrate a.b B-1 70\npair a.b OK_1 B-1 -5\n")
        self.write("forms/b.session", "# What b wishes.\r\nclear b\r\nrate b C-1 100\r\nrate b C-1 60\r\nrate b B-1 0\r\n")
        self.write("forms/c.session", "# What c wishes.\nclear c\n")

    def imported(self, *words: str) -> tuple[int, str]:
        """Imports into the folder `out`."""
        return say("import", "--into", "out", "--replace", *words)

    def test_all_files_make_one_session(self) -> None:
        """Each section has what its last line says; whoever has no file is named."""
        self.write("forms/.DS_Store", "x")
        status, told = self.imported()
        self.assertEqual(status, 0, told)
        lines = self.read("out/forms.session").splitlines()[1:]
        self.assertEqual(lines, ["rate a.b OK_1 90", "rate a.b B-1 70", "pair a.b OK_1 B-1 -5", "rate b C-1 60"])
        self.assert_told(told, (
            "forms: 4 files, 2 taken, 2 not: 1 of the system, 1 without an answer\n",
            "forms: 1 student has no file, and spoke nowhere else: 00d\n",
        ))  # fmt: skip

    def test_who_spoke_elsewhere_is_not_missing(self) -> None:
        self.write("mapping.ini", MAPPING + "[survey w]\nfile = w.csv\nstudent = id\nsection = s\nvalue = v\nsays = rating\n")
        self.write("w.csv", "id,s,v\n00d,B-1,5\nb,B-1,4\n")
        status, told = self.imported()
        self.assertEqual(status, 0, told)
        self.assertNotIn("has no file", told)
        self.assertIn("1 student is in several surveys, so that `run` will stop: b (forms, w)", told)

    def test_each_fault_is_told_with_its_file_and_line(self) -> None:
        cases = [
            ("b.session", "rate b B-1 5\nrate a.b B-1 5\n",
             'forms/b.session row 2: "a.b" where this was expected: lines of b alone, whose file this is by its name'),
            ("b (1).session", "rate b B-1 5\n", 'forms/b (1).session: "b" where this was expected: one file of each student'),
            ("zz.session", "rate zz B-1 5\n", 'forms/zz.session: "zz" where this was expected: a student of the roll'),
            ("D00.session", "rate b B-1 5\n", "forms/D00.session"),
            ("notes.txt", "x", "forms/notes.txt: a file named like `*.session`, the * standing for the student"),
            ("b.session", "rate b B-1 5\nclose\nrate b C-1 1\n",
             'forms/b.session row 2: "close" where this was expected: a line as the form saves it'),
            ("b.session", "student,B-1\nb,5\n",
             "forms/b.session row 1: \"student,B-1\" where this was expected: a session; 2 of its 2 lines are none of its lines"),
            ("b.session", "rate b B-1 101\n", '"101" where this was expected: a whole number from 0 to 100'),
            ("b.session", "pair b B-1 B-1 5\n", "two different sections"),
            ("b.session", "pair b B-1 C-1 -201\n", "a whole number from -200 to 200"),
            ("b.session", "rate b B-2 5\n", '"B-2" where this was expected: a section of the catalogue'),
        ]  # fmt: skip
        for name, text, wanted in cases:
            with self.subTest(wanted):
                before = self.read("forms/b.session")
                self.write(f"forms/{name}", text)
                status, told = self.imported()
                os.remove(f"forms/{name}")
                self.write("forms/b.session", before)
                self.assertEqual((status, os.path.exists("out")), (tell.FAULTS, False), told)
                self.assertIn(wanted, told)

    def test_a_name_that_no_screen_shows(self) -> None:
        with open(b"forms/\xff\x1b.session", "wb") as file:
            file.write(b"rate b B-1 5\n")
        status, told = self.imported()
        self.assertEqual(status, tell.FAULTS)
        self.assertIn('forms/"[u+dcff][u+001b].session"', told)

    def test_a_copy_and_a_stranger(self) -> None:
        self.write("forms/b (1).session", self.read("forms/b.session"))
        self.write("forms/zz.session", "rate zz B-1 5\n")
        status, told = self.imported("--allow", "not-on-roll")
        self.assertEqual(status, 0, told)
        left = ("1 with the content of another file of that student", "1 of nobody on the roll")
        self.assert_told(told, (*left, "not on the roll, left out: zz.session"))

    def test_what_a_mapping_of_a_folder_lacks(self) -> None:
        for old, new, wanted in (
            ("folder = forms", "folder =", "[sessions forms] folder: blank"),
            ("folder = forms", "folder = none", "none can not be read"),
            ("folder = forms", "folder = forms\nfiles = x.session", "a name with one * for the student"),
            ("[sessions forms]", "[survey forms]\nfile = c.csv\nstudent = s\nsays = rating\n[sessions forms]",
             "another section makes forms.session"),
        ):
            with self.subTest(wanted):
                self.write("mapping.ini", MAPPING.replace(old, new))
                status, told = self.imported()
                self.assertIn(wanted, told)
                self.assertNotEqual(status, 0)
        self.write("mapping.ini", MAPPING)
        self.assertIn("forms is the folder of the students' files", say("import", "--into", "forms")[1])

    def test_a_guess(self) -> None:
        os.remove("mapping.ini")
        self.write("sections.csv", "section,course,seats,credits,meetings\nÖK 1,ÖK,5,1,TBA\nB-1,B,5,1,TBA\nC-1,C,5,1,TBA\n")
        self.write("register.csv", "student,budget,credits,courses\na.b,500,9,5\nb,500,9,5\nc,500,9,5\n00d,500,9,5\n")
        status, told = say("import", "sections.csv", "register.csv", "forms")
        self.assertEqual(status, 0, told)
        self.assertIn("forms is [sessions forms]: 3 session files", told)
        self.assertEqual(self.imported()[0], 0)

    @needs_program
    def test_a_run(self) -> None:
        settings = '{"seed": 1, "spread": 1, "accept": 50, "turns": 5, "tabu": 5, "patience": 5, "steps": [5], "raise": 0}\n'
        self.write("settings.json", settings)
        self.assertEqual(self.imported()[0], 0)
        words = ["out/catalogue.csv", "out/roll.csv", "settings.json", "out/forms.session", "--text", "out/published.txt"]
        status, told = say("run", *words)
        self.assertEqual(status, tell.FAULTS)
        self.assertIn("few-wishes: 2 of 4 students have no wishes", told)
        status, told = say("run", *words, "--allow", "few-wishes")
        self.assertEqual(status, 0, told)
        self.assertIn("final a.b [OK_1,B-1]\nfinal b [C-1]\nfinal c []\n", self.read("out/published.txt"))


if __name__ == "__main__":
    unittest.main()
