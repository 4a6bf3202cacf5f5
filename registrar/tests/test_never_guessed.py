"""`import` guesses nothing silently: what reads in two ways is asked for, and each row that is not taken is counted."""

from __future__ import annotations

import unittest

from registrar import submissions, tell
from tests.term import InFolder, say

TABLES = (
    "[catalogue]\nfile = c.csv\nsection = s\ncourse = c\nseats = n\ncredits = cr\nmeetings default = TBA\n"
    "[roll]\nfile = r.csv\nstudent = id\nbudget default = 5\ncredits default = 9\ncourses default = 5\n"
)
#: The same tables under names by which a guess knows them.
KNOWN = {
    "sections.csv": "section,course,seats,credits,time\nA-1,A,5,1,TBA\nA-2,A,5,1,TBA\nB-1,B,5,2,TBA\n",
    "register.csv": "student,budget,credits,courses\na,5,9,5\nb,5,9,5\nc,5,9,5\n",
}
CATALOGUE = "s,c,n,cr\nA-1,A,5,1\nA-2,A,5,1\nB-1,B,5,2\n"
ROLL = "id\na\nb\nc\nd01\n"


class Asked(InFolder):
    """A small school of four students."""

    def setUp(self) -> None:
        super().setUp()
        self.write("c.csv", CATALOGUE)
        self.write("r.csv", ROLL)

    def survey(self, options: str, text: str, *words: str, tables: str = TABLES) -> tuple[int, str]:
        """Imports with one survey."""
        self.write("mapping.ini", f"{tables}[survey w]\nfile = w.csv\nstudent = id\n{options}")
        self.write("w.csv", text)
        return say("import", "--into", "out", "--replace", *words)

    def guess(self, survey: str) -> str:
        """What is told of a guess with one survey."""
        for name, text in KNOWN.items():
            self.write(name, text)
        self.write("w.csv", survey)
        status, told = say("import", *KNOWN, "w.csv")
        self.assertEqual(status, tell.FAULTS)
        return told

    def commands(self) -> list[str]:
        """The commands of the session that was written."""
        return self.read("out/w.session").splitlines()[1:]


class Numbers(Asked):
    """Ratings, ranks and grades."""

    WIDE = "shape = students\n"
    STARS = "id,A-1,A-2,B-1\na,5,3,3\nb,1,4,\nc,2,5,1\n"

    def test_what_numbers_mean_is_asked_with_three_rows(self) -> None:
        """Five stars are no rank 5: the mapping has to say it, and a guess does not."""
        told = self.guess(self.STARS)
        wanted = (
            "    row 2: 5, 3, 3 as ratings are 5, 3, 3; as ranks or grades 80, 90, 90\n",
            "    row 3: 1, 4 as ratings are 1, 4; as ranks or grades 100, 85\n",
            "    row 4: 2, 5, 1 as ratings are 2, 5, 1; as ranks or grades 95, 80, 100\n    row 2 has 3 twice, so these are no ranks\n",
        )
        self.assert_told(told, wanted)
        self.assertIn("\nsays =\n", self.read("mapping.ini"))
        status, told = self.survey(self.WIDE, self.STARS)
        self.assertEqual(status, tell.FAULTS)
        self.assertIn("w.csv, column [survey w] says: blank where this was expected: rating (the greatest number is the best), rank", told)
        self.assertIn("row 2 has 3 twice, so these are no ranks", told)

    def test_what_the_mapping_says(self) -> None:
        """Each word gives its ratings; a rank that repeats is a fault."""
        for says, wanted in (("rating", "rate a A-1 5"), ("grade", "rate a A-1 80")):
            with self.subTest(says):
                status, told = self.survey(self.WIDE + f"says = {says}\n", self.STARS)
                self.assertEqual((status, self.commands()[0]), (0, wanted), told)
        status, told = self.survey(self.WIDE + "says = rank\n", self.STARS)
        self.assertEqual(status, tell.FAULTS)
        self.assertIn('w.csv row 2, column B-1: "3" where this was expected: a rank that a did not give in column A-2', told)
        status, told = self.survey("section = s\nvalue = v\nsays = rank\n", "id,s,v\na,A-1,1\nb,A-1,1\na,B-1,1\n")
        self.assertEqual(status, tell.FAULTS)
        self.assertIn('w.csv row 4, column v: "1" where this was expected: a rank that a did not give in row 2', told)

    def test_words_in_place_of_numbers_are_named(self) -> None:
        told = self.guess("id,A-1,B-1\na,High,Low\nb,Low,\n")
        self.assertIn('[survey w] answers: these stand in place of numbers: "High", "Low"', told)
        status, told = self.survey(self.WIDE + "says = rating\nanswers = High: 100, Low: 20\n", self.read("w.csv"))
        self.assertEqual((status, self.commands()), (0, ["rate a A-1 100", "rate a B-1 20", "rate b A-1 20"]), told)


class MergedCells(Asked):
    """Cells that a sheet has merged, which an export leaves blank but for the first."""

    MERGED = "s,c,n,cr\nA-1,A,5,1.5\nA-2,,5,\n\nB-1,B,5,2\nB-2,,5,\n"
    WISHES = "section = s\nvalue = v\nsays = rating\n"

    def test_a_guess_offers_to_fill_down_by_name(self) -> None:
        self.write("c.csv", "section,course,seats,credits,time\nA-1,A,5,1.5,TBA\nA-2,,5,,TBA\nB-1,B,5,2,TBA\n")
        told = say("import", "c.csv", "r.csv")[1]
        self.assertIn("[catalogue] credits: 1 of 3 rows have nothing in credits: `fill down = credits` where these are merged cells, or "
                      "`credits default` where all of them mean one value", told)  # fmt: skip
        self.assertIn("[catalogue] course: 1 of 3 rows have nothing in course: `fill down = course` where these are merged cells\n", told)

    def test_cells_are_filled_and_counted(self) -> None:
        self.write("c.csv", self.MERGED)
        filled = TABLES.replace("[roll]", "fill down = c | cr\n[numbers]\ncredit unit = 0.5\n[roll]")
        status, told = self.survey(self.WISHES, "id,s,v\na,A-1,5\n", tables=filled)
        self.assertEqual(status, 0, told)
        self.assertEqual(self.read("out/catalogue.csv").splitlines()[1:], ["A-1,A,5,3,", "A-2,A,5,3,", "B-1,B,5,4,", "B-2,B,5,4,"])
        self.assert_told(told, ("c.csv: 5 rows, 4 taken, 1 not: 1 empty\n  2 cells of c filled down\n  2 cells of cr filled down\n",))

    def test_nothing_is_filled_from_another_course(self) -> None:
        self.write("c.csv", "s,c,n,cr\nA-1,A,5,1\nB-1,B,5,\n")
        filled = TABLES.replace("[roll]", "fill down = cr\n[roll]")
        status, told = self.survey(self.WISHES, "id,s,v\na,A-1,5\n", tables=filled)
        self.assertEqual(status, tell.FAULTS)
        self.assertIn("c.csv row 3, column cr: blank where this was expected: credits of its own: what stands above, in row 2, is of another course (A)", told)
        status, told = self.survey(self.WISHES, "id,s,v\na,A-1,5\n", tables=filled.replace("= cr\n[roll]", "= crd\n[roll]"))
        self.assertIn("c.csv, column [catalogue] fill down: \"crd\" where this was expected: columns of the file", told)

    def test_a_student_s_merged_rows_in_a_long_sheet(self) -> None:
        status, told = self.survey(self.WISHES + "fill down = id\n", "id,s,v\na,A-1,5\n,B-1,6\nb,A-1,7\n")
        self.assertEqual((status, self.commands()), (0, ["rate a A-1 5", "rate a B-1 6", "rate b A-1 7"]), told)
        self.assertIn("  1 cell of id filled down", told)


class Counted(Asked):
    """Rows taken and not taken make the rows there are."""

    def test_each_reason_and_the_sum(self) -> None:
        text = "id,t,A-1,A-2,B-1\n(example),x,1,1,1\na,2026-11-03,5,,\n,,,,\na,2026-11-01,9,9,9\nb,2026-11-02,,,\nzz,2026-11-02,5,,\nc,2026-11-02,0,7,\n"
        options = "shape = students\nsays = rating\nfirst row = 3\nagain = last\ntime = t\nextra = t\n"
        status, told = self.survey(options, text, "--allow", "not-on-roll")
        self.assertEqual((status, self.commands()), (0, ["rate a A-1 5", "rate c A-2 7"]), told)
        self.assertIn("w.csv: 7 rows, 2 taken, 5 not: 1 above the first row that counts, 1 empty, 1 without an answer, "
                      "1 of nobody on the roll, 1 replaced by a later submission\n", told)  # fmt: skip
        self.assertIn("  not on the roll, left out: zz (row 7)\n", told)
        self.assertIn("  1 submission was replaced whole by a later one, of a\n", told)

    def test_a_rating_of_0_in_a_long_sheet(self) -> None:
        status, told = self.survey("section = s\nvalue = v\nsays = rating\n", "id,s,v\na,A-1,0\na,B-1,4\n")
        self.assertEqual(status, 0, told)
        self.assertIn("w.csv: 2 rows, 1 taken, 1 not: 1 with a rating of 0, which says nothing", told)

    def test_respondents_off_the_roll(self) -> None:
        """A stranger is left out by word alone; whoever may be somebody of the roll is a fault all the same."""
        options = "section = s\nvalue = v\nsays = rating\n"
        text = "id,s,v\na,A-1,5\nzz,A-1,6\nzz,B-1,6\nan.address.of.more.than.32.letters@elsewhere.edu,A-1,1\n"
        status, told = self.survey(options, text)
        self.assertEqual(status, tell.FAULTS)
        self.assertIn('w.csv rows 3-4, column id: "zz" where this was expected: a student of the roll', told)
        status, told = self.survey(options, text, "--allow", "not-on-roll")
        self.assertEqual((status, self.commands()), (0, ["rate a A-1 5"]), told)
        self.assert_told(told, ("zz (rows 3-4)", "elsewhere.edu (row 5)", "w.csv: 4 rows, 1 taken, 3 not: 3 of nobody on the roll"))
        status, told = self.survey(options, "id,s,v\n\x1b[2Jzz,A-1,5\n", "--allow", "not-on-roll")
        self.assertIn('left out: "[u+001b][2Jzz" (row 2)', told)
        for code in ("D01", "d-01", "", "a\ufffd"):
            with self.subTest(code):
                status, told = self.survey(options, f"id,s,v\n{code},A-1,5\n", "--allow", "not-on-roll")
                self.assertEqual(status, tell.FAULTS, told)


class Submissions(Asked):
    """A second submission of a student."""

    LONG = "section = s\nvalue = v\nsays = rating\ntime = t\n"
    TWICE = "id,s,v,t\na,A-1,9,11/14/2026 9:05 PM\na,B-1,8,11/14/2026 9:05 PM\na,A-1,5,11/13/2026 8:00 AM\na,A-2,4,11/13/2026 8:00 AM\nb,A-1,1,11/13/2026 8:00 AM\n"

    def test_a_long_sheet_newest_first(self) -> None:
        """The whole earlier submission goes, also a section that the later one lacks."""
        status, told = self.survey(self.LONG, self.TWICE)
        self.assertEqual(status, tell.FAULTS)
        self.assertIn("w.csv row 4, column id: \"a\" where this was expected: one submission of each student; row 2 is one of a too", told)
        status, told = self.survey(self.LONG + "again = last\n", self.TWICE)
        self.assertEqual((status, self.commands()), (0, ["rate a A-1 9", "rate a B-1 8", "rate b A-1 1"]), told)
        self.assertIn("w.csv: 5 rows, 3 taken, 2 not: 2 replaced by a later submission", told)

    def test_what_does_not_tell_the_last_is_a_fault(self) -> None:
        cases = [
            (self.LONG.replace("time = t\n", "again = last\n"), self.TWICE, "[survey w] time: blank"),
            (self.LONG.replace("time = t\n", "again = last row\n"), self.TWICE, "[survey w] submission: blank"),
            (self.LONG + "again = last\n", "id,s,v,t\na,A-1,5,3/4/2026\na,B-1,4,4/3/2026\na,A-2,4,4/3/2026\n",
             'dates: blank where this was expected: day first or month first: "3/4/2026" does not tell'),
            (self.LONG + "again = last\n", "id,s,v,t\na,A-1,5,2026-11-01 8:00\na,B-1,4,2026-11-01 8:01\na,A-2,4,2026-11-01 8:02\n", "the time differs in each row of a student"),
            (self.LONG + "again = last\n", "id,s,v,t\na,A-1,5,2026-11-01 8:00:01\na,B-1,4,2026-11-01 8:00:01\na,A-2,4,2026-11-01 8:00:02\n", "rows 2 and 4 of a are less than a minute apart, and of different sections"),
            (self.LONG + "again = last\n", "id,s,v,t\na,A-1,5,yesterday\na,B-1,4,2026-11-01\na,A-2,4,2026-11-01\n",
             '"yesterday" where this was expected: a time, as'),
            (self.LONG + "again = last\nsubmission = u\n", "id,s,v,t,u\na,A-1,5,2026-11-01,1\na,B-1,4,2026-11-01,2\n",
             "a time of its own: rows 2 and 3 of a have the same"),
        ]  # fmt: skip
        for options, text, wanted in cases:
            with self.subTest(wanted):
                status, told = self.survey(options, text)
                self.assertEqual(status, tell.FAULTS)
                self.assertIn(wanted, told)

    def test_a_blank_answer_replaces_nothing_unasked(self) -> None:
        """Where the last row of a student is blank and an earlier one is not, either may be meant."""
        options = "shape = students\nsays = rating\ntime = t\nextra = t\nagain = last\n"
        status, told = self.survey(options, "id,t,A-1,B-1\na,2026-11-02,,\na,2026-11-01,5,4\nb,2026-11-02,,\nb,2026-11-01,,\n")
        self.assertEqual(status, tell.FAULTS)
        self.assertIn('w.csv row 2, column id: "a" where this was expected: an answer: this later row of a is blank, and row 3 has answers', told)
        self.assertNotIn("row of b is blank", told)

    def test_a_day_and_a_time_in_two_columns(self) -> None:
        options = "shape = students\nsays = rating\ntime = Day + At\nextra = Day | At\nagain = last\n"
        status, told = self.survey(options, "id,Day,At,A-1\na,2026-11-02,9:15,7\na,2026-11-02,10:05,8\n")
        self.assertEqual((status, self.commands()), (0, ["rate a A-1 8"]), told)

    def test_rows_that_were_sent_together_by_a_number(self) -> None:
        text = "id,s,v,u\na,A-1,5,7\na,B-1,4,7\na,A-1,9,8\n"
        for again, wanted in (("last row", ["rate a A-1 9"]), ("first row", ["rate a A-1 5", "rate a B-1 4"])):
            with self.subTest(again):
                status, told = self.survey(f"section = s\nvalue = v\nsays = rating\nsubmission = u\nagain = {again}\n", text)
                self.assertEqual((status, self.commands()), (0, wanted), told)


class Times(unittest.TestCase):
    """Times as forms write them."""

    def test_what_is_read(self) -> None:
        """Seconds since 1970 by `date -u -d .. +%s`."""
        cases = [
            ("2026-11-10 10:05:12", "", 1794305112), ("2026/11/10 10:05:12 AM GMT+1", "", 1794301512),
            ("2026-11-10T10:05:12Z", "", 1794305112),
            ("11/10/2026 3:05:00 PM", "month first", 1794323100), ("11/10/2026 15:05", "day first", 1791731100),
            ("10.11.2026 15:05", "day first", 1794323100), ("10 Nov 2026 15:05", "", 1794323100), ("Nov 10, 2026, 3:05 PM", "", 1794323100),
            ("2026-11-10 12:30 am", "", 1794270600), ("11/10/26", "month first", 1794268800), ("46336.5", "", 46336.5),
            ("2026-11-10 10:05:12.5-05:30", "", 1794324912.5), ("2026-11-10-10:05:12", "", 1794305112),
        ]  # fmt: skip
        for text, order, wanted in cases:
            with self.subTest(text):
                self.assertEqual(submissions.time_of(text, order), wanted)
        for text in ("", "soon", "2026-13-01", "2026-11-10 25:00", "10 Foo 2026", "2026-11-10 13:00 pm"):
            with self.subTest(text), self.assertRaises(submissions.TimeFault):
                submissions.time_of(text, "month first")


if __name__ == "__main__":
    unittest.main()
