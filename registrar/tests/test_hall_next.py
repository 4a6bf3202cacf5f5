"""`next` and `hall`: the roll of the next term by the guide's rule, and the rosters after drop and add."""

from __future__ import annotations

import os
import shutil
import unittest

from registrar import manifest, tell
from tests.support import TERM, needs_program
from tests.term import InFolder, WithSchool, say


class Next(InFolder):
    """The roll of the next term, of examples/term."""

    def setUp(self) -> None:
        super().setUp()
        for name in ("roll.csv", "published.txt"):
            shutil.copy(os.path.join(TERM, name), name)

    def next(self, *words: str) -> tuple[int, str]:
        """Calls `next` for the example's roll and text."""
        return say("next", "--roll", "roll.csv", "--text", "published.txt", *words)

    def test_the_rows_that_the_guide_shows(self) -> None:
        status, told = self.next()
        self.assertEqual(status, 0, told)
        rows = self.read("roll.next.csv").splitlines()
        self.assertEqual(rows[0], "student,budget,credits,courses,carry")
        self.assertIn("r.grant,4500,8,5,532", rows)
        self.assertIn("n.jones,4500,8,5,0", rows)
        self.assertEqual(len(rows), 101)

    def test_a_greatest_carry(self) -> None:
        self.assertEqual(self.next("--most", "500")[0], 0)
        self.assertIn("r.grant,4500,8,5,500\n", self.read("roll.next.csv"))
        for most in ("-5", "900001", "1e3"):
            status, told = self.next("--most", most, "--into", "other.csv")
            self.assertEqual(status, tell.USAGE)
            self.assertIn(f"argument --most: '{most}' is no whole number from 0 to 900000", told)
        self.assertFalse(os.path.exists("other.csv"))
        self.assertEqual(self.next("--most", "0", "--replace")[0], 0)
        self.assertIn("r.grant,4500,8,5,0\n", self.read("roll.next.csv"))

    def test_who_is_new_and_who_is_gone(self) -> None:
        self.write("new.csv", "student,budget,credits,courses\nr.grant,5000,10,4\nz.new,4500,8,5\n")
        status, told = self.next("--students", "new.csv")
        self.assertEqual(status, 0, told)
        expected = "student,budget,credits,courses,carry\nr.grant,5000,10,4,532\nz.new,4500,8,5,0\n"
        self.assertEqual(self.read("roll.next.csv"), expected)
        self.assertIn("1 is new and brings none", told)
        self.assertIn("not on the new roll: n.jones, with 0 tokens left", told)

    def test_faults_are_told_all_at_once(self) -> None:
        self.write("new.csv", "student,budget,credits,courses,carry\nr.grant,900000,10,4,0\nz.new,4500,8,5,3\n")
        status, told = self.next("--students", "new.csv")
        self.assertEqual(status, tell.FAULTS)
        self.assertIn('new.csv row 2, column budget: "900000" where this was expected: at most 899468, since 532 tokens', told)
        self.assertIn('new.csv row 3, column carry: "3"', told)
        self.assertFalse(os.path.exists("roll.next.csv"))

    def test_a_roll_of_another_text(self) -> None:
        lines = self.read("roll.csv").splitlines()
        self.write("roll.csv", "\n".join([lines[0], lines[2], lines[1], *lines[3:]]) + "\n")
        status, told = self.next()
        self.assertEqual(status, tell.FAULTS)
        self.assertIn("roll.csv row 2, column student", told)
        self.write("roll.csv", "\n".join(lines[:-1]) + "\n")
        self.assertEqual(self.next()[0], tell.FAULTS)

    def test_a_roll_that_stands_is_written_over_by_word_alone(self) -> None:
        self.write("roll.next.csv", "by hand")
        self.assertEqual(self.next()[0], tell.FAULTS)
        self.assertEqual(self.read("roll.next.csv"), "by hand")
        self.assertEqual(self.next("--replace")[0], 0)

    def test_no_file_that_is_read_is_written_over(self) -> None:
        before = self.read("published.txt")
        status, told = self.next("--into", "published.txt", "--replace")
        self.assertEqual(status, tell.USAGE)
        self.assertIn("published.txt is the published text that this command reads", told)
        self.assertEqual(self.read("published.txt"), before)

    def test_words_that_go_together(self) -> None:
        self.assertEqual(say("next", "--roll", "roll.csv")[0], tell.USAGE)


FORM = (
    "When,Who,What,Section\n"
    "1,f.gomez,Add,FNCE-717-A\n"
    "2,n.jones,ADD,fnce-717-a\n"
    "3,f.gomez,add,LGST-611-A\n"
    "4,n.jones,add,FNCE-601-B\n"
    "\n"
    "5,y.lee,Drop,FNCE-717-A\n"
    "6,y.lee,add,FNCE-717-A\n"
    "7,f.gomez,leave,FNCE-717-A\n"
)

MAPPING = "[requests form]\nfile = form.csv\nstudent = Who\nrequest = What\nsection = Section\n[sections]\nany case = yes\n"


@needs_program
class Hall(InFolder):
    """Requests of a form, of examples/term."""

    def setUp(self) -> None:
        super().setUp()
        for name in ("catalogue.csv", "roll.csv", "settings.json", "desk.session", "web.session", "published.txt"):
            shutil.copy(os.path.join(TERM, name), name)
        words = ["run", "2", "catalogue.csv", "roll.csv", "settings.json", "desk.session", "web.session"]
        manifest.write("manifest.json", words, "published.txt", 1.0)
        self.write("mapping.ini", MAPPING)
        self.write("form.csv", FORM)

    def test_a_form_gives_what_the_guide_shows(self) -> None:
        status, told = say("hall", "--into", "hall")
        self.assertEqual(status, 0, told)
        with open(os.path.join(TERM, "desk.requests"), encoding="utf-8") as file:
            asked = [line for line in file.read().splitlines() if line and not line.startswith("#")]
        self.assertEqual(self.read("hall/hall.requests").splitlines()[1:], asked)
        with open(os.path.join(TERM, "dropadd.txt"), encoding="utf-8") as file:
            self.assertEqual(self.read("hall/hall.txt"), file.read())
        self.assertIn("form.csv row 7: drop y.lee FNCE-717-A: dropped 1 to n.jones\n", told)
        replies = self.read("hall/hall-replies.csv").splitlines()
        self.assertEqual(replies[4], "form.csv,5,add,n.jones,FNCE-601-B,clash FNCE-601-A,")
        rosters = self.read("hall/hall-rosters.csv").splitlines()
        self.assertIn("FNCE-717-A,n.jones", rosters)
        self.assertNotIn("FNCE-717-A,y.lee", rosters)
        self.assertEqual(sum(row.startswith("FNCE-717-A,") for row in rosters), 12)
        self.assertEqual(self.read("hall/hall-waiting.csv"), "section,place,student\r\nFNCE-717-A,1,y.lee\r\n")
        self.assertIn("y.lee,ACCT-611-A; FNCE-601-B; STAT-613-B\r\n", self.read("hall/hall-students.csv"))

    def test_a_stream_in_the_program_s_own_form(self) -> None:
        shutil.copy(os.path.join(TERM, "desk.requests"), "desk.requests")
        status, told = say("hall", "desk.requests", "--into", "hall")
        self.assertEqual(status, 0, told)
        with open(os.path.join(TERM, "dropadd.txt"), encoding="utf-8") as file:
            self.assertEqual(self.read("hall/hall.txt"), file.read())

    def test_faults_are_told_all_at_once_and_nothing_is_written(self) -> None:
        self.write("form.csv", "When,Who,What,Section\n1,f.gomes,Add,FNCE-717-A\n2,n.jones,want,FNCE-717\n")
        status, told = say("hall", "--into", "hall")
        self.assertEqual(status, tell.FAULTS)
        self.assertIn(
            'form.csv row 2, column Who: "f.gomes" where this was expected: a student of the roll; nearest: f.gomez', told
        )
        self.assertIn('form.csv row 3, column What: "want" where this was expected: one of add', told)
        self.assertFalse(os.path.exists("hall"))

    def test_columns_for_add_and_drop(self) -> None:
        self.write("mapping.ini", "[requests form]\nfile = form.csv\nstudent = Who\nadd = Add\ndrop = Drop\n")
        self.write("form.csv", "Who,Add,Drop\ny.lee,STAT-613-A,FNCE-717-A\nn.jones,FNCE-717-A,\n")
        status, told = say("hall", "--into", "hall")
        self.assertEqual(status, tell.FAULTS)
        self.assertIn("`both = drop, add` states an order", told)
        self.write("mapping.ini", self.read("mapping.ini") + "both = drop, add\n")
        status, told = say("hall", "--into", "hall")
        self.assertEqual(status, 0, told)
        # STAT-613-A clashes with what y.lee holds besides: so the swap would lose a seat, and FNCE-717-A stays full.
        self.assertIn("  form.csv row 2: y.lee keeps FNCE-717-A; left out: STAT-613-A can not be had (clash STAT-613-B)", told)
        self.assertIn("form.csv row 3: add n.jones FNCE-717-A: queued 0\n", told)
        status, told = say("hall", "--into", "hall", "--allow", "lost-seat", "--replace")
        self.assertEqual(status, 0, told)
        asked = ["drop y.lee FNCE-717-A", "add y.lee STAT-613-A", "add n.jones FNCE-717-A"]
        self.assertEqual(self.read("hall/hall.requests").splitlines()[1:], asked)
        self.assertIn("form.csv row 2: y.lee gave up FNCE-717-A and did not get STAT-613-A (clash STAT-613-B)\n", told)
        self.assertIn("form.csv row 3: add n.jones FNCE-717-A: added\n", told)

    def test_a_mapping_without_requests(self) -> None:
        self.write("mapping.ini", "[numbers]\n")
        status, told = say("hall")
        self.assertEqual(status, tell.FAULTS)
        self.assertIn("there is no section [requests NAME]", told)
        self.write("mapping.ini", "a stray line\n")
        status, told = say("hall")
        self.assertEqual((status, len(told.splitlines())), (tell.FAULTS, 2), told)
        self.write("mapping.ini", "[requests form]\nfile = none.csv\nstudent = Who\nadd = Add\n")
        self.assertEqual(say("hall")[0], tell.NO_FILE)
        os.remove("mapping.ini")
        self.assertEqual(say("hall")[0], tell.NO_FILE)


@needs_program
class WholeTerm(WithSchool):
    """The made school, from exports to the next roll."""

    def test_from_exports_to_rosters_after_the_hall(self) -> None:
        self.assertEqual(self.imported()[0], 0)
        self.write(
            "settings.json", '{"seed":1,"spread":7,"accept":1000000,"turns":1,"tabu":30,"patience":25,"steps":[3],"raise":10}'
        )
        sessions = ["out/web.session", "out/desk.session", "out/choices.session"]
        status, told = say("run", "out/catalogue.csv", "out/roll.csv", "settings.json", *sessions)
        self.assertEqual(status, 0, told)
        status, told = say("hall", "--into", "hall")
        self.assertEqual(status, 0, told)
        self.assertEqual(told.count("changes.csv row"), 12)
        codes = {section.code for section in self.school.sections}
        rosters = [row.split(",") for row in self.read("hall/hall-rosters.csv").splitlines()]
        self.assertEqual(rosters[0], ["section", "student", "name", "e-mail"])
        self.assertLessEqual({row[0] for row in rosters[1:]}, codes)
        status, told = say("next")
        self.assertEqual(status, 0, told)
        self.assertEqual(len(self.read("roll.next.csv").splitlines()), 61)


if __name__ == "__main__":
    unittest.main()
