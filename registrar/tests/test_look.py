"""`look`: what is wrong or strange before a run, told with file and line, and a status that stops a script."""

from __future__ import annotations

import unittest

from registrar import tell
from tests import school
from tests.support import needs_program
from tests.term import InFolder, WithSchool, say

CATALOGUE = (
    "section,course,seats,credits,meetings\nFNCE-601-A,FNCE-601,2,1,\nFNCE-601-B,FNCE-601,2,1,\nMGMT-690-A,MGMT-690,2,1,\n"
)
ROLL = "student,budget,credits,courses\n00123,100,8,5\nt.jain,100,8,5\n"
ALL = "rate 00123 FNCE-601-A 5\nrate 00123 MGMT-690-A 5\nrate t.jain FNCE-601-B 5\n"


@needs_program
class Looks(InFolder):
    """A small market with one strange thing each."""

    def look(self, *sessions: str, words: tuple[str, ...] = ()) -> tuple[int, list[str]]:
        """What is found in these sessions, without the table of seats."""
        self.write("catalogue.csv", CATALOGUE)
        self.write("roll.csv", ROLL)
        for at, text in enumerate(sessions, 1):
            self.write(f"{at}.session", text)
        names = [f"{at}.session" for at in range(1, len(sessions) + 1)]
        status, told = say("look", "catalogue.csv", "roll.csv", *names, *words)
        return status, told.splitlines()

    def test_each_finding_has_its_place(self) -> None:
        cases = [
            (
                "# note\n\nrate t.jain FNCE601-A 100\n",
                "1.session:3: no-section: rate t.jain FNCE601-A 100; nearest: FNCE-601-A",
            ),
            (
                "pair t.jain FNCE-601-A MGMT-69-A 1\n",
                "1.session:1: no-section: pair t.jain FNCE-601-A MGMT-69-A 1; nearest: MGMT-690-A",
            ),
            (
                "rate 123 FNCE-601-A 1\n",
                "1.session:1: no-student: rate 123 FNCE-601-A 1; nearest: 00123 (a spreadsheet may have taken leading zeros)",
            ),
            (
                "rate T.Jain FNCE-601-A 1\n",
                "1.session:1: no-student: rate T.Jain FNCE-601-A 1; nearest: t.jain (other capitals)",
            ),
            ("rate t.jain FNCE-601-A 101\n", "1.session:1: out-of-range: rate t.jain FNCE-601-A 101"),
            ("pair t.jain FNCE-601-A FNCE-601-A 1\n", "1.session:1: same-pair: pair t.jain FNCE-601-A FNCE-601-A 1"),
            ("rate t.jain FNCE-601-A\n", '1.session:1: unreadable: "rate t.jain FNCE-601-A"'),
        ]
        for text, expected in cases:
            with self.subTest(text=text):
                status, lines = self.look(text + ALL)
                self.assertEqual(status, tell.FAULTS)
                self.assertEqual(lines[0], expected)
                kind = expected.split(": ")[1]
                self.assertTrue(lines[-1].startswith(f"1 {kind}: "))
                self.assertEqual(self.look(text + ALL, words=("--allow", kind))[0], 0)

    def test_nothing_is_found(self) -> None:
        status, lines = self.look(ALL)
        self.assertEqual((status, lines[-1]), (0, "nothing is found"))
        self.assertIn("6 seats in 3 sections; 3 rated sections of 2 students; the caps allow 10 seats", lines)
        self.assertIn("FNCE-601-A      2          1", lines)

    def test_a_close_and_what_comes_behind_it(self) -> None:
        status, lines = self.look(ALL + "close\nrate t.jain MGMT-690-A 7\n")
        self.assertEqual(status, tell.FAULTS)
        self.assertEqual(
            lines[:2],
            [
                "1.session:4: close: what any session says behind it does not count",
                "1.session:5: closed: rate t.jain MGMT-690-A 7",
            ],
        )

    def test_students_and_sections_without_wishes(self) -> None:
        status, lines = self.look("rate t.jain FNCE-601-A 5\n")
        self.assertEqual(status, tell.FAULTS)
        self.assertEqual(
            lines[:4],
            [
                "roll.csv:2: no-wishes: 00123",
                "few-wishes: 1 of 2 students have no wishes",
                "catalogue.csv:3: unwanted: FNCE-601-B",
                "catalogue.csv:4: unwanted: MGMT-690-A",
            ],
        )
        self.assertEqual(self.look("rate t.jain FNCE-601-A 5\n", words=("--allow", "no-wishes"))[0], tell.FAULTS)
        words = ("--allow", "no-wishes", "--allow", "unwanted", "--allow", "few-wishes")
        self.assertEqual(self.look("rate t.jain FNCE-601-A 5\n", words=words)[0], 0)

    def test_a_student_in_two_sessions(self) -> None:
        status, lines = self.look(ALL, "# web\nrate t.jain MGMT-690-A 7\n")
        self.assertEqual(status, tell.FAULTS)
        self.assertEqual(lines[0], "1.session:3, 2.session:2: two-sessions: t.jain")

    def test_a_file_given_twice_and_the_content_of_another(self) -> None:
        self.look(ALL)
        status, told = say("look", "catalogue.csv", "roll.csv", "1.session", "./1.session")
        self.assertEqual(status, tell.FAULTS)
        self.assertIn("./1.session: twice: it is given twice\n", told)
        self.assertIn("2.session: twice: it has the content of 1.session", "\n".join(self.look(ALL, ALL)[1]))

    def test_a_session_without_commands(self) -> None:
        self.assertEqual(self.look(ALL, "# nothing\n")[1][0], "2.session: empty: it has no commands")

    def test_more_wishes_than_the_desk_takes(self) -> None:
        self.write("roll.csv", "student,budget,credits,courses\ns,1,1,1\n")
        self.write(
            "catalogue.csv", "section,course,seats,credits,meetings\n" + "".join(f"C{at},C{at},1,1,\n" for at in range(61))
        )
        self.write("1.session", "".join(f"rate s C{at} 5\n" for at in range(61)))
        status, told = say("look", "catalogue.csv", "roll.csv", "1.session")
        self.assertEqual(status, tell.FAULTS)
        self.assertTrue(told.startswith("1.session:61: too-many: rate s C60 5\n"))

    def test_all_faults_of_both_tables_are_told_with_file_row_column_and_value(self) -> None:
        self.write(
            "catalogue.csv", "section,course,seats,credits,meetings,parts\nA,A,5,0.5,,1\nA,B c,05,1,MWF 9:00,3\nB,B,5,1\n"
        )
        self.write("roll.csv", "student,budget,credits,courses,carry\nu v,1,000,9,0\nw,900000,8,5,1\n")
        self.write("1.session", "")
        status, told = say("look", "catalogue.csv", "roll.csv", "1.session")
        self.assertEqual(status, tell.FAULTS)
        for place in (
            'catalogue.csv row 2, column credits: "0.5" where this was expected: a whole number from 0 to 100',
            'catalogue.csv row 3, column section: "A"',
            'catalogue.csv row 3, column course: "B c"',
            'catalogue.csv row 3, column seats: "05"',
            'catalogue.csv row 3, column meetings: "MWF 9:00"',
            'catalogue.csv row 3, column parts: "3"',
            'catalogue.csv row 4: "B,B,5,1" where this was expected: 6 fields',
            'roll.csv row 2, column student: "u v"',
            'roll.csv row 2, column credits: "000"',
            'roll.csv row 2, column courses: "9"',
            'roll.csv row 3, column carry: "1" where this was expected: at most 0',
        ):
            with self.subTest(place=place):
                self.assertIn(place, told)
        self.assertIn("11 faults", told)

    def test_what_is_hardly_seen_is_named(self) -> None:
        self.write("catalogue.csv", CATALOGUE.replace("FNCE-601,2,", "FNCE-601,2 ,", 1).replace("MGMT-690,2", "MGMT-690,\u00a02"))
        self.write("roll.csv", ROLL.replace("00123,100", '00123," 100 "').replace("8,5\nt", '8,"5\n"\nt').replace("t.jain", "\u200bt.jain"))
        self.write("1.session", ALL)
        status, told = say("look", "catalogue.csv", "roll.csv", "1.session")
        self.assertEqual(status, tell.FAULTS)
        for place in (
            'catalogue.csv row 2, column seats: "2 " (with a blank behind it) where this was expected: a whole number',
            'catalogue.csv row 4, column seats: "[no-break space]2" where this was expected',
            'roll.csv row 2, column budget: " 100 " (with a blank before and behind it) where this was expected',
            'roll.csv row 2, column courses: "5[line end]" where this was expected',
            'roll.csv row 3, column student: "[zero width space]t.jain" where this was expected',
        ):
            with self.subTest(place=place):
                self.assertIn(place, told)

    def test_a_number_of_thousands_of_digits(self) -> None:
        self.write("catalogue.csv", CATALOGUE)
        self.write("roll.csv", ROLL.replace(",100,8,5\nt.jain", "," + "9" * 5000 + ",8,5\nt.jain"))
        self.write("1.session", ALL)
        status, told = say("look", "catalogue.csv", "roll.csv", "1.session")
        self.assertEqual(status, tell.FAULTS)
        self.assertRegex(told, r'^roll\.csv row 2, column budget: "9+\.\." where this was expected: a whole number from 0 to 900000')

    def test_300_bad_rows_take_one_run(self) -> None:
        self.write("catalogue.csv", CATALOGUE)
        self.write("roll.csv", "student,budget,credits,courses\n" + "".join(f"s{at},1,000{at},5\n" for at in range(300)))
        self.write("1.session", ALL)
        status, told = say("look", "catalogue.csv", "roll.csv", "1.session")
        self.assertEqual((status, told.count("column credits")), (tell.FAULTS, 301))

    def test_a_header_of_another_form(self) -> None:
        self.write("catalogue.csv", CATALOGUE.replace(",", ";"))
        self.write("roll.csv", ROLL)
        self.write("1.session", ALL)
        status, told = say("look", "catalogue.csv", "roll.csv", "1.session")
        self.assertEqual(status, tell.FAULTS)
        self.assertIn(
            'catalogue.csv row 1: "section;course;seats;credits;meetings" where this was expected: section,course', told
        )


@needs_program
class LooksAtSchool(WithSchool):
    """The made school."""

    def test_a_raw_export_given_as_a_session(self) -> None:
        self.assertEqual(self.imported()[0], 0)
        for name in ("web.csv", "desk.tsv", "timetable.csv"):
            with self.subTest(name=name):
                status, told = say("look", "out/catalogue.csv", "out/roll.csv", "out/desk.session", name)
                self.assertEqual(status, tell.FAULTS)
                self.assertRegex(told, rf"{name}: export: \d+ of its \d+ lines are no commands \(line 1: ")
                self.assertIn("`registrar import` makes one", told)
                self.assertNotIn(f"{name}:", told.replace(f"{name}: export", ""))

    def test_what_was_imported_is_in_order(self) -> None:
        self.assertEqual(self.imported()[0], 0)
        status, told = say(
            "look", "out/catalogue.csv", "out/roll.csv", "out/web.session", "out/desk.session", "out/choices.session"
        )
        self.assertEqual(status, 0, told)
        self.assertTrue(told.endswith("nothing is found\n"))
        wishes = sum(len(one.ratings) for one in self.school.students)
        self.assertIn(f"{wishes} rated sections of {len(self.school.students)} students", told)
        self.assertEqual(school.catalogue_text(self.school), self.read("out/catalogue.csv"))


if __name__ == "__main__":
    unittest.main()
