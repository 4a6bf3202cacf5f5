"""`import`: a made school's exports become what the school is; spoiled exports are told whole, and nothing is written."""

from __future__ import annotations

import os
import re
import unittest

from registrar import program, sheet, tell
from tests import school
from tests.term import InFolder, WithSchool, say

EXPORTS = os.path.join(program.TOP, "examples", "exports")


class Imports(WithSchool):
    """A made school of sixty students."""

    def commands(self, survey: str) -> set[str]:
        """The commands of a session that was written."""
        lines = self.read(f"out/{survey}.session").splitlines()
        return {line for line in lines if not line.startswith("#")}

    def expect_the_school(self) -> None:
        """What was written is what the school is."""
        self.assertEqual(self.read("out/catalogue.csv"), school.catalogue_text(self.school))
        self.assertEqual(self.read("out/roll.csv"), school.roll_text(self.school))
        for survey in ("web", "desk", "choices"):
            with self.subTest(survey=survey):
                self.assertEqual(self.commands(survey), school.session_commands(self.school, survey))

    def test_the_guess_is_whole_but_for_what_no_export_says(self) -> None:
        status, told = self.guessed
        self.assertEqual(status, tell.FAULTS)
        self.assertIn("[roll] courses: 60 of 60 rows have nothing in Max Courses: `courses default` where all of them mean one value", told)
        self.assertIn("[survey desk] says: rating (the greatest number is the best), rank (1 is the best", told)
        self.assertIn("[survey web] says: ", told)
        self.assertEqual(told.split("What could not be guessed")[1].count("\n  ["), 3)

    def test_exports_become_what_the_school_is(self) -> None:
        status, told = self.imported()
        self.assertEqual(status, 0, told)
        self.expect_the_school()
        names = self.read("out/names.csv").splitlines()
        self.assertEqual(names[0], "kind,original,name")
        self.assertIn("section,GÉNI 102 A,GENI_102_A", names)

    def test_leading_zeros_that_a_survey_lost_are_told_and_joined_by_pad(self) -> None:
        number = next(one.number for one in self.school.students if one.survey == "desk")
        text = self.read("desk.tsv")
        self.write("desk.tsv", "\n".join(line.lstrip("0") for line in text.splitlines()), "utf-8-sig")
        status, told = self.imported()
        self.assertEqual(status, tell.FAULTS)
        line = next(line for line in told.splitlines() if f'"{number.lstrip("0")}"' in line)
        self.assertRegex(line, r"^desk\.tsv rows? [0-9, -]+, column STUDENT: ")
        self.assertIn(f"nearest: {number} (a spreadsheet may have taken leading zeros); `pad = 6` joins them", line)
        self.settle("pad", "6")
        status, told = self.imported()
        self.assertEqual(status, 0, told)
        self.expect_the_school()

    def test_one_misspelt_code_is_told_with_all_its_rows_and_the_nearest_one(self) -> None:
        code = max({code for one in self.school.students for code in one.ratings if one.survey == "desk"})
        rows = [at for at, line in enumerate(self.read("desk.tsv").splitlines(), 1) if line.split("\t")[1] == code]
        wrong = code.replace(" ", "", 1)
        self.spoil("desk.tsv", f"\t{code}\t", f"\t{wrong}\t")
        status, told = self.imported()
        self.assertEqual(status, tell.FAULTS)
        line = next(line for line in told.splitlines() if f'"{wrong}"' in line)
        self.assertEqual([int(row) for row in re.findall(r"\d+", line.split(", column")[0])], rows)
        name = code.replace("É", "E").replace(" ", "_")
        self.assertIn(f'column SECTION: "{wrong}" where this was expected: a section of the catalogue; nearest: {name}', line)
        self.write("mapping.ini", self.read("mapping.ini").replace("[same sections]", f"[same sections]\n{wrong} = {code}"))
        self.assertEqual(self.imported()[0], 0)
        self.expect_the_school()

    def test_each_fault_is_told_with_file_row_column_and_value_and_nothing_is_written(self) -> None:
        first = self.school.sections[0]
        cases = [
            (
                "timetable.csv",
                f";{first.seats}.0;",
                ";many;",
                'timetable.csv row 2, column Max Enrollment: "many"',
                "0 to 9,999",
            ),
            (
                "timetable.csv",
                f";{first.seats}.0;",
                ";12,000;",
                'timetable.csv row 2, column Max Enrollment: "12,000"',
                "0 to 9,999",
            ),
            ("timetable.csv", ";1.0;", ";0.7;", '"0.7"', "a multiple of 0.5"),
            ("timetable.csv", "TBA", "", "column Meeting Times: blank", "`meetings default = TBA`"),
            ("timetable.csv", "TBA", "MWF 1:30-2:45", '"MWF 1:30-2:45"', "am or pm"),
            ("timetable.csv", ";80;", ";;", "column Meeting Times", "`length` or `length default`"),
            ("timetable.csv", f"{first.code};", ";", "timetable.csv row 2, column SECTION CODE: blank", "a section of 1 to 32"),
            (
                "timetable.csv",
                "\nACCT 101 B;",
                "\nACCT_101_A;",
                'column SECTION CODE: "ACCT_101_A"',
                '"ACCT 101 A" is spelt ACCT_101_A too',
            ),
            (
                "timetable.csv",
                "\nACCT 101 B;",
                "\nACCT 101 A;",
                "timetable.csv row 3, column Max Enrollment",
                "as row 2 says of ACCT_101_A",
            ),
            ("timetable.csv", "Max Enrollment", "Places", "[catalogue] seats", "a column of the file"),
            ("timetable.csv", ";R0;20001\r", ";R0;20001;x\r", 'timetable.csv row 2: "x"', "at most 9 cells"),
            ("register.csv", '"5,000"', "4,5OO", 'register.csv row 2, column Max Credits: "5OO"', "credits"),
            ("register.csv", '"5,000"', '"5,00"', 'register.csv row 2, column Tokens: "5,00"', "0 to 900,000"),
            ("register.csv", "000256,", "000113,", 'register.csv row 3, column Student ID: "000113"', "row 2 has it already"),
            ("register.csv", '"5,000"', "-1", 'column Tokens: "-1"', "0 to 900,000"),
            ("register.csv", '"5,000"', "", "column Tokens: blank", "`budget default` states what a blank means"),
            (
                "web.csv",
                "[ACCT 101 A]",
                "[ACCT 101 Z]",
                'web.csv row 1, column Rate the sections [ACCT 101 Z]: "ACCT 101 Z"',
                "nearest",
            ),
            ("web.csv", ",000256,", ",000999,", 'column Student ID: "000999"', "a student of the roll"),
            ("web.csv", ",86,", ",101,", '"101"', "a whole number from 0 to 100"),
            ("web.csv", ",86,", ",8.6,", '"8.6"', "a whole number from 0 to 100"),
            ("web.csv", ",000256,", ",000113,", "web.csv row 3, column Student ID", "`again = last` takes the last"),
            ("web.csv", " = ", " is ", "column Better together", "pairs as"),
            ("desk.tsv", "\t\t", "\t\t1", "column POINTS", "0 to 100"),
            ("choices.csv", "Choice 2;", "Choice 1;", "column Choice 2", "this row does not have yet"),
        ]
        for name, old, new, place, expected in cases:
            with self.subTest(name=name, new=new):
                school.write_school(".", 7, self.STUDENTS, self.SECTIONS)
                if name == "choices.csv":
                    row = self.read(name).splitlines()[1].split(";")
                    old, new = f"{row[1]};{row[2]}", f"{row[1]};{row[1]}"
                self.spoil(name, old, new, 1)
                status, told = self.imported()
                lines = [line for line in told.splitlines() if place in line and expected in line]
                self.assertEqual((status, len(lines) > 0), (tell.FAULTS, True), told)
                self.assertFalse(os.path.exists("out"))

    def test_faults_of_all_files_are_told_in_one_run(self) -> None:
        self.spoil("timetable.csv", ";80;", ";;")
        self.spoil("register.csv", "5,000", "5,0OO")
        self.spoil("web.csv", ",86,", ",8.6,", 3)
        self.spoil("desk.tsv", "\t\t", "\t\t1")
        status, told = self.imported()
        self.assertEqual(status, tell.FAULTS)
        for name in ("timetable.csv", "register.csv", "web.csv", "desk.tsv"):
            self.assertRegex(told, rf"(?m)^{re.escape(name)} row")
        self.assertIn("nothing is written", told)

    def test_a_survey_that_is_ranks(self) -> None:
        self.settle("says", "rank", "survey desk")
        number = next(one for one in self.school.students if one.survey == "desk").number
        self.write(
            "desk.tsv", f"STUDENT\tSECTION\tTOGETHER WITH\tPOINTS\n{number}\tACCT 101 A\t\t1\n{number}\tACCT 101 B\t\t3.0\n"
        )
        self.settle("rating step", "10", "survey desk")
        status, told = self.imported()
        self.assertEqual(status, 0, told)
        self.assertEqual(self.commands("desk"), {f"rate {number} ACCT_101_A 100", f"rate {number} ACCT_101_B 80"})

    def test_the_last_of_two_answers_where_the_mapping_says_which_is_the_last(self) -> None:
        one = next(one for one in self.school.students if one.survey == "web")
        text = self.read("web.csv")
        code = next(iter(one.ratings))
        line = next(line for line in text.splitlines() if f",{one.number}," in line)
        later = line.replace("2026-11-10 10:00", "2026-11-19 10:00").replace(f",{one.ratings[code]},", ",1,", 1)
        for again, time, is_first in (("last", "Timestamp", True), ("first row", "", True), ("last row", "", False)):
            with self.subTest(again):
                rows = text.splitlines()
                self.write("web.csv", "\n".join([rows[0], later, *rows[1:]] if is_first else [*rows, later]) + "\n")
                self.settle("again", "refuse", "survey web")
                self.settle("time", time, "survey web")
                status, told = self.imported()
                self.assertIn("one submission of each student; row", told)
                self.settle("again", again, "survey web")
                status, told = say("import", "--into", "out", "--replace")
                self.assertEqual(status, 0, told)
                self.assertIn(f"1 submission was replaced whole by a later one, of {one.number}", told)
                self.assertIn(f"web.csv: {len(rows)} rows, {len(rows) - 1} taken, 1 not: 1 replaced by a later submission", told)
                before, one.ratings[code] = one.ratings[code], 1
                self.expect_the_school()
                one.ratings[code] = before
        self.settle("again", "last", "survey web")
        status, told = self.imported()
        self.assertIn("column [survey web] time: blank where this was expected: the column of the time; where there is none, `again = last row`", told)

    def test_a_session_of_an_earlier_survey_is_told(self) -> None:
        os.mkdir("out")
        self.write("out/old.session", "rate 000113 ACCT_101_A 5\n")
        status, told = self.imported()
        self.assertEqual(status, 0)
        self.assertIn("out/old.session stands there and is of no survey of this mapping", told)

    def test_tables_without_rows(self) -> None:
        self.settle("header row", "70", "roll")
        status, told = self.imported()
        self.assertEqual(status, tell.FAULTS)
        self.assertIn("register.csv row 70: there are no columns' names", told)
        self.write("empty.csv", "SECTION CODE,Course,Max Enrollment,Credits,Meeting Times,Length\n")
        self.settle("file", "empty.csv", "catalogue")
        self.settle("header row", "1", "roll")
        status, told = self.imported()
        self.assertEqual((status, told.splitlines()[0]), (tell.FAULTS, "empty.csv: there are no sections below the header"))
        self.assertNotIn("a section of the catalogue", told)

    def test_a_table_that_says_nothing_is_the_one_fault(self) -> None:
        mapping = self.read("mapping.ini")
        self.write("register.csv", "Student ID,Name,Tokens,Max Credits,Max Courses\n")
        wanted = "register.csv: there are no students below the header\n"
        wanted += "nothing is written; correct the exports, or mapping.ini, and run again\n"
        self.assertEqual(self.imported(), (tell.FAULTS, wanted))
        self.settle("file", "none.csv", "roll")
        status, told = self.imported()
        self.assertEqual((status, told.splitlines()[0]), (tell.NO_FILE, "none.csv: none.csv can not be read (No such file or directory)"))
        self.assertEqual(len(told.splitlines()), 2, told)
        self.write("mapping.ini", mapping.replace("[roll]", "[rol]"))
        status, told = self.imported()
        self.assertEqual(status, tell.FAULTS)
        self.assertTrue(told.startswith("mapping.ini: there is no section [roll]\nmapping.ini row "), told)
        self.assertIn("\n2 faults\n", told)

    def test_what_is_no_mapping_is_the_one_fault(self) -> None:
        mapping = self.read("mapping.ini")
        for old, new, wanted in (
            ("[catalogue]", "[catalogue]\nstudent = a\nstudent = b",
             "row 7: this is no mapping: [catalogue] has the option student already"),
            ("[catalogue]", "[catalogue]\na stray line", "row 6: this is no mapping: this line is no option"),
            ("[catalogue]", "[catalogue]\n[catalogue]", "row 6: this is no mapping: the section [catalogue] stands there already"),
            ("[catalogue]", "a = b", "row 5: this is no mapping: no section in brackets stands above this line"),
        ):
            with self.subTest(new):
                self.write("mapping.ini", mapping.replace(old, new))
                status, told = self.imported()
                self.assertEqual((status, len(told.splitlines())), (tell.FAULTS, 2), told)
                self.assertTrue(told.startswith(f"mapping.ini {wanted}"), told)

    def test_a_section_without_its_file_is_there(self) -> None:
        self.settle("file", "", "roll")
        status, told = self.imported()
        self.assertEqual((status, len(told.splitlines())), (tell.FAULTS, 2), told)
        self.assertIn("column [roll] file: blank where this was expected: the export's file", told)

    def test_files_that_stand_are_written_over_by_word_alone(self) -> None:
        self.assertEqual(self.imported()[0], 0)
        self.assertEqual(self.imported()[0], 0)
        self.write("out/catalogue.csv", "by hand")
        status, told = self.imported()
        self.assertEqual(status, tell.FAULTS)
        self.assertIn("catalogue.csv", told)
        self.assertEqual(self.read("out/catalogue.csv"), "by hand")
        self.assertEqual(say("import", "--into", "out", "--replace")[0], 0)
        self.expect_the_school()
        self.assertEqual([name for name in os.listdir("out") if name.endswith(".part")], [])

    def test_the_faults_as_a_table(self) -> None:
        self.spoil("register.csv", "5,000", "5,0OO")
        bad = self.read("register.csv").count("5,0OO")
        self.assertEqual(say("import", "--into", "out", "--faults", "faults.csv")[0], tell.FAULTS)
        rows = list(sheet.read_rows("faults.csv"))
        self.assertEqual(rows[0], ["file", "row", "column", "value", "expected"])
        self.assertEqual([row[0] for row in rows[1:]], ["register.csv"] * bad)
        self.assertEqual(rows[1][2:4], ["Tokens", "5,0OO"])
        before = self.read("register.csv")
        status, told = say("import", "--into", "out", "--faults", "register.csv")
        self.assertEqual(status, tell.USAGE)
        self.assertIn("register.csv is the export that this command reads", told)
        self.assertEqual(self.read("register.csv"), before)


class Examples(InFolder):
    """`examples/exports`."""

    def test_the_examples_are_the_school_that_the_script_makes(self) -> None:
        made = school.made_school(2026, 40, 12)
        for name, content in school.exports(made).items():
            with open(os.path.join(EXPORTS, name), "rb") as file:
                self.assertEqual(file.read(), content, name)
        status, told = say("import", "--mapping", os.path.join(EXPORTS, "mapping.ini"), "--into", ".")
        self.assertEqual(status, 0, told)
        self.assertEqual(self.read("catalogue.csv"), school.catalogue_text(made))
        self.assertEqual(self.read("roll.csv"), school.roll_text(made))


class Many(InFolder):
    """Small exports of one trait each."""

    def test_300_bad_rows_take_one_run(self) -> None:
        self.write("mapping.ini", "[catalogue]\nfile = c.csv\nsection = s\ncourse = c\nseats = n\ncredits default = 1\nmeetings default = TBA\n"
                   "[roll]\nfile = r.csv\nstudent = id\nbudget = b\ncredits default = 9\ncourses default = 5\n"
                   "[survey w]\nfile = w.csv\nstudent = id\nsection = s\nvalue = v\nsays = rating\n")  # fmt: skip
        self.write("c.csv", "s,c,n\nA,A,5\n")
        self.write("r.csv", "id,b\n" + "".join(f"s{at},bad{at}\n" for at in range(300)))
        self.write("w.csv", "id,s,v\ns1,A,5\n")
        status, told = say("import", "--into", "out")
        self.assertEqual(status, tell.FAULTS)
        for at in range(300):
            self.assertIn(
                f'r.csv row {at + 2}, column b: "bad{at}" where this was expected: a whole number from 0 to 900,000', told
            )
        self.assertIn("300 faults\n  300 in r.csv column b\n", told)
        self.assertFalse(os.path.exists("out"))

    def test_the_limits_of_the_program(self) -> None:
        self.write("mapping.ini", "[catalogue]\nfile = c.csv\nsection = s\ncourse = s\nseats default = 5\ncredits default = 1\n"
                   "meetings default = TBA\n[roll]\nfile = r.csv\nstudent = id\nbudget default = 5\ncredits default = 9\n"
                   "courses default = 5\n[survey w]\nfile = w.csv\nstudent = id\nsection = s\nvalue = v\nsecond = t\nsays = rating\n")  # fmt: skip
        self.write("c.csv", "s\n" + "".join(f"C{at}\n" for at in range(401)))
        self.write("r.csv", "id\n" + "".join(f"s{at}\n" for at in range(2001)))
        rated = "".join(f"s1,C{at},5,\n" for at in range(61))
        pairs = "".join(f"s2,C0,5,C{at}\n" for at in range(1, 202))
        self.write("w.csv", "id,s,v,t\n" + rated + pairs)
        status, told = say("import", "--into", "out")
        self.assertEqual(status, tell.FAULTS)
        self.assertIn("at most 60 rated sections of one student; s1", told)
        self.assertIn("at most 200 pairs of one student; s2", told)
        self.write("w.csv", "id,s,v,t\ns1,C0,5,\n")
        status, told = say("import", "--into", "out")
        self.assertIn("at most 400 sections, the limit of the program", told)
        self.assertIn("at most 2,000 students, the limit of the program", told)

    def test_several_rows_of_a_section_and_columns_of_days_and_times(self) -> None:
        self.write("mapping.ini", "[catalogue]\nfile = c.csv\nsection = Subject + No + Sec\ncourse = Subject + No\nseats = cap\ncredits = cr\n"
                   "days = Days\nstart = Begin\nend = End\nparts = Half\nparts default = 12\n[numbers]\ndecimal = ,\ncredit unit = 0.5\n"
                   "[roll]\nfile = r.csv\nheader row = 3\nstudent = @2\nbudget default = 5\ncredits default = 9,5\ncourses default = 5\n"
                   "[survey w]\nfile = w.csv\nshape = students\nstudent = id\nextra = name\nsays = rating\n[parts]\nQ1 = 1\n")  # fmt: skip
        self.write("c.csv", "SUBJECT;no;sec;CAP;cr;days;begin;end;half\nACCT;101;A;1.200;1,5;MW;9:00;10:15;Q1\nACCT;101;A;;;F;1:00 PM;2:00 PM;\n"
                   ";;;;;;;;\nACCT;101;B;20,0;1;TBA;;;\n")  # fmt: skip
        self.write("r.csv", "The register\n\nname,number\nAnn,a1\nBen,b1\n")
        self.write("w.csv", "id,name,ACCT-101-A,acct 101 b\na1,Ann,5,7\n")
        status, told = say("import", "--into", "out")
        self.assertEqual(status, tell.FAULTS)
        self.assertIn("nearest: ACCT-101-B", told)
        self.write("w.csv", "id,name,ACCT-101-A,ACCT-101-B\na1,Ann,5,7\n")
        status, told = say("import", "--into", "out")
        self.assertEqual(status, 0, told)
        self.assertEqual(
            self.read("out/catalogue.csv"),
            "section,course,seats,credits,meetings,parts\n"
            "ACCT-101-A,ACCT-101,1200,3,M0900-1015;W0900-1015;F1300-1400,1\nACCT-101-B,ACCT-101,20,2,,12\n",
        )
        self.assertEqual(self.read("out/roll.csv"), "student,budget,credits,courses\na1,5,19,5\nb1,5,19,5\n")
        self.assertIn("rate a1 ACCT-101-A 5\nrate a1 ACCT-101-B 7\n", self.read("out/w.session"))

    def test_codes_with_their_titles(self) -> None:
        self.write("c.csv", "section,course,seats,credits,meetings\nECON-1-A,ECON-1,5,1,TBA\nECON-1-B,ECON-1,5,1,TBA\n")
        self.write("r.csv", "student,budget,credits,courses\na1,5,9,5\nb1,5,9,5\n")
        self.write("w.csv", "student,ECON-1-A - Micro (first),ECON-1-B - Macro\na1,5,7\n")
        self.write("w.tsv", "student\tFirst choice\tSecond choice\nb1\tECON-1-B - Macro\tECON-1-A - Micro (first)\n")
        self.assertEqual(say("import", "c.csv", "r.csv", "w.csv", "w.tsv")[0], tell.FAULTS)
        self.settle("says", "rating", "survey w")
        text = self.read("mapping.ini")
        self.assertIn("\ncolumns = * - *\n", text)
        self.assertIn("\n[survey w-2]\n", text)
        self.assertIn("\ncolumns = * choice\n", text)
        status, told = say("import")
        self.assertEqual(status, tell.FAULTS)
        self.assertIn('w.tsv row 2, column First choice: "ECON-1-B - Macro"', told)
        self.write("mapping.ini", text.replace("\ncut =", "\ncut = -"))
        status, told = say("import")
        self.assertEqual(status, 0, told)
        self.assertIn("rate a1 ECON-1-A 5\nrate a1 ECON-1-B 7\n", self.read("w.session"))
        os.rename("r.csv", "roll.csv")
        self.settle("file", "roll.csv", "roll")
        status, told = say("import", "--replace")
        self.assertEqual(status, tell.FAULTS)
        self.assertIn("roll.csv would be written over an export of that name", told)
        os.symlink(".", "other")
        self.assertIn("roll.csv would be written over an export of that name", say("import", "--replace", "--into", "other")[1])
        self.assertEqual(self.read("roll.csv"), "student,budget,credits,courses\na1,5,9,5\nb1,5,9,5\n")
        self.assertIn("rate b1 ECON-1-B 100\nrate b1 ECON-1-A 95\n", self.read("w-2.session"))

    def test_a_column_that_is_no_section_is_not_passed_over_in_silence(self) -> None:
        self.write("mapping.ini", "[catalogue]\nfile = c.csv\nsection = s\ncourse = s\nseats default = 5\ncredits default = 1\n"
                   "meetings default = TBA\n[roll]\nfile = r.csv\nstudent = id\nbudget default = 5\ncredits default = 9\n"
                   "courses default = 5\n[survey w]\nfile = w.csv\nshape = students\nstudent = id\nsays = rating\n")  # fmt: skip
        self.write("c.csv", "s\nECON-1-A\nECON-1-B\n")
        self.write("r.csv", "id\na1\n")
        self.write("w.csv", "id,ECON-1-A,ECON-1B\na1,5,7\n")
        status, told = say("import", "--into", "out")
        self.assertEqual(status, tell.FAULTS)
        self.assertIn('w.csv row 1, column ECON-1B: "ECON-1B"', told)
        self.assertIn("nearest: ECON-1-B; a column that is none goes under `extra`", told)

    def test_faults_of_a_mapping_are_told_with_their_lines(self) -> None:
        self.write("mapping.ini", "[catalogue]\nfile = c.csv\nsektion = s\n\n[survey a b]\nfile = w.csv\n[roll]\nfile =\n[colours]\n"
                   "[students]\npad = many\n[survey w]\nfile = w.csv\nshape = rows\nfirst rating = 101\n[days]\nDi = X\n")  # fmt: skip
        status, told = say("import")
        self.assertEqual(status, tell.NO_FILE)
        for place in (
            'mapping.ini row 3, column [catalogue] sektion: "sektion" where this was expected: an option of this section; nearest: section',
            "mapping.ini row 5, column [survey a b]",
            "mapping.ini row 8, column [roll] file",
            "mapping.ini row 9, column [colours]",
            "mapping.ini row 11, column [students] pad",
            "mapping.ini row 14, column [survey w] shape",
            "mapping.ini row 15, column [survey w] first rating",
            "mapping.ini row 17, column [days] di",
        ):
            with self.subTest(place=place):
                self.assertIn(place.casefold(), told.casefold())

    def test_what_can_not_begin(self) -> None:
        self.assertEqual(say("import")[0], tell.NO_FILE)
        self.write("a.csv", "x\n")
        self.assertEqual(say("import", "none.csv"), (tell.NO_FILE, "none.csv can not be read: No such file or directory\n"))
        self.assertFalse(os.path.exists("mapping.ini"))
        self.assertEqual(say("import", "a.csv")[0], tell.FAULTS)
        self.assertEqual(say("import", "a.csv")[0], tell.FAULTS)
        self.assertIn("stands already", say("import", "a.csv")[1])
        status, told = say("import", "--mapping", "a.csv/mapping.ini", "a.csv")
        self.assertEqual(status, tell.FAULTS)
        self.assertIn("a.csv can not be written: ", told)


class Guesses(InFolder):
    """What a first mapping has of other exports."""

    def guessed(self, **exports: str) -> str:
        """The mapping that is guessed of these exports."""
        for name, text in exports.items():
            self.write(f"{name}.csv", text)
        say("import", *(f"{name}.csv" for name in exports))
        return self.read("mapping.ini")

    def test_subject_number_and_letter(self) -> None:
        text = self.guessed(
            sections="Spring\n\nSubject,Catalog Number,Section,Cap,Units,Days,Start Time,End Time\n"
            "FNCE,601,A,30,1.5,MW,9:00,10:15\nFNCE,601,B,30,1.5,TuTh,13:30,14:45\nMGMT,690,A,25,3,TBA,,\n",
            survey="Student ID,Code,Priority\na,FNCE-601-A,1\na,MGMT-690-A,2\n",
            register="Student ID,Tokens,Max Credits,Max Courses\na,5000,15,5\n",
        )
        for line in (
            "section = Subject + Catalog Number + Section", "course = Subject + Catalog Number", "header row = 3",
            "start = Start Time", "section = Code", "value = Priority", "says =", "credit unit = 0.5", "clock = 24",
        ):  # fmt: skip
            with self.subTest(line=line):
                self.assertIn(f"\n{line}\n", text)
        self.settle("says", "rank", "survey survey")
        self.assertEqual(say("import")[0], 0)
        catalogue = self.read("catalogue.csv").splitlines()
        self.assertEqual(catalogue[1], "FNCE-601-A,FNCE-601,30,3,M0900-1015;W0900-1015")

    def test_columns_with_codes_alone_and_a_decimal_comma(self) -> None:
        text = self.guessed(
            sections="Section;Course;Seats;Credits;Time\nA-1;A;30;1,5;Mo 9:00-10:15\nB-1;B;30;2;Di 9:00-10:15\n",
            register="E-mail;Credits;Tokens;Max Courses\na@b.edu;10;5000;5\n",
            survey="Timestamp;E-mail;A-1;B-1;Comments\n1;a@b.edu;5;7;none\n",
        )
        for line in ("decimal = ,", "columns = *", "extra = Timestamp | Comments", "student = E-mail", "time = Timestamp"):
            with self.subTest(line=line):
                self.assertIn(f"\n{line}\n", text)
        self.settle("says", "rating", "survey survey")
        text = self.read("mapping.ini")
        status, told = say("import")
        self.assertEqual((status, told.splitlines()[0].split(":")[0]), (tell.FAULTS, "sections.csv row 3, column Time"))
        self.write("mapping.ini", text.replace("[days]", "[days]\nDi = T"))
        self.assertEqual(say("import")[0], 0)
        self.assertIn("rate a-b.edu A-1 5\nrate a-b.edu B-1 7\n", self.read("survey.session"))

    def test_a_file_in_another_encoding(self) -> None:
        self.write("sections.csv", "Section,Course,Seats,Credits,Times\nG\u00c9NI 1 A,G\u00c9NI 1,5,1,TBA\n", "cp1252")
        status, told = say("import", "sections.csv")
        self.assertEqual(status, tell.FAULTS)
        self.assertIn("sections.csv row 2: ", told)
        self.assertIn("encoding = cp1252", told)
        say("import", "sections.csv", "--encoding", "cp1252")
        self.assertIn("\nencoding = cp1252\n", self.read("mapping.ini"))


@unittest.skipUnless(sheet.has_xlsx(), "openpyxl is not installed")
class Books(WithSchool):
    """Exports as .xlsx."""

    def test_a_register_as_a_book(self) -> None:
        rows: list[list[object]] = [list(row) for row in school.roll_rows(self.school)]
        sheet.write_book("register.xlsx", {"notes": [["nothing"]], "roll": rows})
        self.settle("file", "register.xlsx", "roll")
        self.settle("sheet", "roll", "roll")
        status, told = self.imported()
        self.assertEqual(status, 0, told)
        self.assertEqual(self.read("out/roll.csv"), school.roll_text(self.school))


if __name__ == "__main__":
    unittest.main()
