"""`rosters`: the school's system imports what is written, and no row of a difference gives a section too many."""

from __future__ import annotations

import csv
import os
import shutil
import unittest

from registrar import fields, manifest, tables, tell
from tests import school
from tests.support import TERM, needs_program
from tests.term import InFolder, WithSchool, say

REGISTER = "Number;Name;Mail;Programme\n"
TIMETABLE = "Code,CRN,Room\n"
MAPPING = (
    "[catalogue]\nfile = timetable.csv\nsection = Code\n"
    "[roll]\nfile = register.csv\nstudent = Number\nname = Name\ne-mail = Mail\n"
    "[requests form]\nfile = form.csv\nstudent = Who\nrequest = What\nsection = Section\n"
    "[rosters]\nfile = system.txt\nseparator = tab\nline end = lf\nadd word = A\ndrop word = D\nenrolled word = E\n"
    "[roster columns]\nTERM = 2027S\nCRN = {timetable CRN}\nSID = {student}\nNAME = {name}\nMAIL = {e-mail}\n"
    "WHAT = {action}\n"
)
# At the desk: two take what is free, a full section goes from one student to another, a third changes its mind.
FORM = (
    "Who,What,Section\n"
    "n.jones,add,FNCE-717-A\n"
    "f.gomez,add,LGST-611-A\n"
    "y.lee,drop,FNCE-717-A\n"
    "f.gomez,drop,LGST-611-A\n"
    "r.grant,drop,ACCT-611-A\n"
)


class WithTerm(InFolder):
    """A test with examples/term, and a register and a timetable of its students and sections."""

    def setUp(self) -> None:
        super().setUp()
        for name in ("catalogue.csv", "roll.csv", "settings.json", "desk.session", "web.session", "published.txt"):
            shutil.copy(os.path.join(TERM, name), name)
        words = ["run", "2", "catalogue.csv", "roll.csv", "settings.json", "desk.session", "web.session"]
        manifest.write("manifest.json", words, "published.txt", 1.0)
        students = [one.name for one in tables.read_roll("roll.csv")]
        self.sections = {one.code: one for one in tables.read_catalogue("catalogue.csv")}
        rows = [
            f"{name};{name.upper()} Ünal;{name}@school.example;{'Law' if at % 3 else 'Art'}\n"
            for at, name in enumerate(students)
        ]
        self.write("register.csv", REGISTER + "".join(rows) + "gone.one;Gone One;gone@school.example;Law\n")
        rooms = [f"{code},{5000 + at},R{at}\n{code},,R9\n" for at, code in enumerate(self.sections)]
        self.write("timetable.csv", TIMETABLE + "".join(rooms))
        self.crn = {code: str(5000 + at) for at, code in enumerate(self.sections)}
        self.write("mapping.ini", MAPPING)
        self.write("form.csv", FORM)

    def rows(self, name: str) -> list[list[str]]:
        """The rows of a file of the system, below the header."""
        with open(name, encoding="utf-8", newline="") as file:
            return list(csv.reader(file, delimiter="\t"))[1:]

    def held(self, path: str = "published.txt") -> set[tuple[str, str]]:
        """The seats that the `final` lines of a text have, by CRN and student."""
        found = set()
        for line in self.read(path).splitlines():
            if line.startswith("final "):
                _, student, bundle = line.split(" ")
                found |= {(self.crn[code], student) for code in bundle[1:-1].split(",") if code}
        return found


@needs_program
class Rosters(WithTerm):
    """The roster of the published text, and after the hall."""

    def hall(self, into: str) -> None:
        """Takes the form's requests."""
        status, told = say("hall", "--into", into)
        self.assertEqual(status, 0, told)

    def test_a_roster_by_the_template(self) -> None:
        status, told = say("rosters", "--mapping", "mapping.ini", "--into", "out")
        self.assertEqual(status, 0, told)
        lines = self.read("out/system.txt").split("\n")
        self.assertEqual(lines[0], "TERM\tCRN\tSID\tNAME\tMAIL\tWHAT")
        self.assertIn("2027S\t5001\tn.jones\tN.JONES Ünal\tn.jones@school.example\tE", lines)
        rows = self.rows("out/system.txt")
        self.assertEqual({(row[1], row[2]) for row in rows}, self.held())
        self.assertEqual(len(rows), len(self.held()))
        self.assertEqual([row[1] for row in rows], sorted(row[1] for row in rows))
        self.assertIn(f"system.txt: {len(rows)} seats\n", told)
        self.assertIn("register.csv: 1 row is of no student of this run, and passed over", told)
        self.assertFalse(os.path.exists("out/system-changes.txt"))

    def test_rows_by_student_without_a_header(self) -> None:
        options = "separator = semicolon\nheader = no\nrows by = student"
        self.write("mapping.ini", MAPPING.replace("separator = tab", options))
        self.assertEqual(say("rosters", "--mapping", "mapping.ini", "--into", "out")[0], 0)
        rows = [line.split(";") for line in self.read("out/system.txt").splitlines()]
        order = [one.name for one in tables.read_roll("roll.csv")]
        self.assertEqual([row[2] for row in rows], sorted((row[2] for row in rows), key=order.index))
        self.assertEqual(len(rows), len(self.held()))

    def test_the_difference_never_oversubscribes(self) -> None:
        self.hall("hall")
        status, told = say("rosters", "--mapping", "mapping.ini", "--hall", "hall/hall.txt", "--into", "out")
        self.assertEqual(status, 0, told)
        changes = self.rows("out/system-changes.txt")
        self.assertEqual(
            [(row[1], row[2], row[5]) for row in changes],
            [
                (self.crn["ACCT-611-A"], "r.grant", "D"),
                (self.crn["FNCE-717-A"], "y.lee", "D"),
                (self.crn["FNCE-717-A"], "n.jones", "A"),
            ],
        )
        self.assertIn("system-changes.txt: 2 drops, then 1 add\n", told)
        self.assert_seats_kept(self.held(), changes)
        self.assertEqual({(row[1], row[2]) for row in self.rows("out/system.txt")}, self.held("hall/hall.txt"))

    def assert_seats_kept(self, held: set[tuple[str, str]], changes: list[list[str]]) -> None:
        """Makes the changes row by row: no seat is given twice or taken from nobody, no section has too many."""
        seats = {self.crn[code]: one.seats for code, one in self.sections.items()}
        for row in changes:
            seat = (row[1], row[2])
            self.assertEqual(seat in held, row[5] == "D")
            held ^= {seat}
            self.assertLessEqual(sum(crn == row[1] for crn, _ in held), seats[row[1]])
        self.assertEqual(held, self.held("hall/hall.txt"))

    def test_the_next_week_has_what_is_new_alone(self) -> None:
        self.hall("first")
        self.write("form.csv", FORM + "y.lee,add,LGST-611-A\nn.jones,drop,FNCE-717-A\n")
        self.hall("hall")
        words = ("--hall", "hall/hall.txt", "--since", "first/hall.txt", "--into", "out")
        status, told = say("rosters", "--mapping", "mapping.ini", *words)
        self.assertEqual(status, 0, told)
        changes = self.rows("out/system-changes.txt")
        self.assertIn((self.crn["FNCE-717-A"], "n.jones", "D"), [(row[1], row[2], row[5]) for row in changes])
        self.assertNotIn("r.grant", [row[2] for row in changes])
        self.assert_seats_kept(self.held("first/hall.txt"), changes)

    def test_a_hall_of_another_text_is_refused(self) -> None:
        self.hall("hall")
        text = self.read("hall/hall.txt")
        self.write("hall/hall.txt", text.replace("final y.lee [", "final y.lee [FNCE-717-A,"))
        status, told = say("rosters", "--mapping", "mapping.ini", "--hall", "hall/hall.txt", "--into", "out")
        self.assertEqual(status, tell.FAULTS)
        self.assertIn("hall/hall.txt is not what the hall gives of its requests and published.txt", told)
        status, told = say("rosters", "--mapping", "mapping.ini", "--hall", "published.txt", "--into", "out")
        self.assertEqual(status, tell.FAULTS)
        self.assertIn("published.txt, line 1: 'course-match 2' is no line that `hall` prints", told)
        self.assertFalse(os.path.exists("out"))
        self.assertEqual(say("rosters", "--mapping", "mapping.ini", "--since", "hall/hall.txt")[0], tell.USAGE)

    def test_seats_that_were_raised_for_the_hall(self) -> None:
        """The catalogue may have more seats than at the run, and is else the same."""
        catalogue = self.read("catalogue.csv")
        self.write("catalogue.csv", catalogue.replace("FNCE-717-A,FNCE-717,12,", "FNCE-717-A,FNCE-717,13,"))
        self.hall("hall")
        self.assertIn("used FNCE-717-A 12 13\n", self.read("hall/hall.txt"))
        words = ("rosters", "--mapping", "mapping.ini", "--hall", "hall/hall.txt", "--into", "out")
        status, told = say(*words)
        self.assertEqual(status, 0, told)
        self.assertEqual({(row[1], row[2]) for row in self.rows("out/system.txt")}, self.held("hall/hall.txt"))
        self.write("catalogue.csv", catalogue.replace("FNCE-717-A,FNCE-717,12,2,", "FNCE-717-A,FNCE-717,12,1,"))
        status, told = say(*words, "--replace")
        self.assertEqual(status, tell.FAULTS)
        self.assertIn("catalogue.csv has changed since the run in more than its seats", told)

    def test_names_in_the_lists_after_the_hall(self) -> None:
        self.hall("hall")
        rows = self.read("hall/hall-rosters.csv").splitlines()
        self.assertEqual(rows[0], "section,student,name,e-mail")
        self.assertIn("FNCE-717-A,n.jones,N.JONES Ünal,n.jones@school.example", rows)
        self.assertEqual(self.read("hall/hall-students.csv").splitlines()[0], "student,name,e-mail,sections")
        self.assertEqual(self.read("hall/hall-waiting.csv").splitlines()[0], "section,place,student,name,e-mail")
        replies = self.read("hall/hall-replies.csv").splitlines()
        self.assertIn("student,name,e-mail,section,reply", replies[0])


@needs_program
class Faults(WithTerm):
    """What is wrong with a template or the exports is told at once, and nothing is written."""

    def refused(self, *wanted: str) -> None:
        """The command tells these, and writes nothing."""
        status, told = say("rosters", "--mapping", "mapping.ini", "--into", "out")
        self.assertEqual(status, tell.FAULTS, told)
        for one in wanted:
            self.assertIn(one, told)
        self.assertFalse(os.path.exists("out"))

    def test_unknown_fields_and_columns(self) -> None:
        text = MAPPING
        for old, new in (
            ("{student}", "{studnet}"), ("{timetable CRN}", "{timetable CRM}"), ("{name}", "{name"),
            ("file = system.txt", "file = ../system.txt\nmay be blank = CRM\nencoding = klingon"),
        ):  # fmt: skip
            text = text.replace(old, new)
        self.write("mapping.ini", text)
        self.refused(
            '[roster columns] SID: "{studnet}" where this was expected: one of the fields student, section,',
            "nearest: student", '[roster columns] NAME: "{" where this was expected: a field as {name}',
            "a column of the file; nearest: crn; it has: Code, CRN, Room", "the name of a file, without a folder",
            '"klingon"', '[rosters] may be blank: "CRM"',
        )  # fmt: skip

    def test_a_blank_where_none_may_be(self) -> None:
        self.write("register.csv", self.read("register.csv").replace(";n.jones@school.example;", ";;"))
        self.refused("[roster columns] MAIL", "something for n.jones in FNCE-601-A; `may be blank = MAIL`")
        self.write("mapping.ini", MAPPING.replace("file = system.txt", "file = system.txt\nmay be blank = MAIL"))
        self.assertEqual(say("rosters", "--mapping", "mapping.ini", "--into", "out")[0], 0)

    def test_rows_that_nobody_tells_apart(self) -> None:
        self.write("mapping.ini", MAPPING.replace("SID = {student}\nNAME = {name}\nMAIL = {e-mail}\n", ""))
        self.refused("columns that tell ")

    def test_a_section_of_two_codes(self) -> None:
        self.write("timetable.csv", self.read("timetable.csv").replace("FNCE-601-A,,R9", "FNCE-601-A,77,R9"))
        self.refused('column CRN: "77" where this was expected: "', " says of FNCE-601-A")

    def test_a_student_who_is_not_in_the_register(self) -> None:
        lines = [line for line in self.read("register.csv").splitlines() if not line.startswith("n.jones;")]
        self.write("register.csv", "\n".join(lines) + "\n")
        self.refused("register.csv: a row of n.jones, who is on the roll")

    def test_a_sign_that_the_encoding_lacks(self) -> None:
        self.write("register.csv", self.read("register.csv").replace("N.JONES Ünal", "N.Jones 李"))
        self.write("mapping.ini", MAPPING.replace("separator = tab", "separator = tab\nencoding = cp1252"))
        self.refused("an encoding that has the sign 李 too, as utf-8")

    def test_what_a_spreadsheet_would_reckon_is_told(self) -> None:
        self.write("register.csv", self.read("register.csv").replace("N.JONES Ünal", "=cmd()"))
        status, told = say("rosters", "--mapping", "mapping.ini", "--into", "out")
        self.assertEqual(status, 0, told)
        self.assertIn("cells begin as a formula does", told)
        self.assertIn("\t=cmd()\t", self.read("out/system.txt"))

    def test_no_export_is_written_over(self) -> None:
        self.write("mapping.ini", MAPPING.replace("file = system.txt", "file = register.csv"))
        before = self.read("register.csv")
        status, told = say("rosters", "--mapping", "mapping.ini", "--replace")
        self.assertEqual(status, tell.USAGE)
        self.assertIn("register.csv is the export that this command reads", told)
        self.assertEqual(self.read("register.csv"), before)


@needs_program
class Imported(WithSchool):
    """A made school whose codes have blanks and accents."""

    def test_the_school_s_own_codes(self) -> None:
        self.assertEqual(self.imported()[0], 0)
        self.settle("name", "Name", "roll")
        columns = "\n[roster columns]\n"
        wanted = "Code = {section}\nC = {credits}\nP = {register Programme}\nN = {number}\n"
        self.write("mapping.ini", self.read("mapping.ini").replace(columns, columns + wanted))
        self.settle("credit unit", "0.5")
        settings = '{"seed":1,"spread":7,"accept":1000000,"turns":1,"tabu":30,"patience":25,"steps":[3],"raise":10}'
        self.write("settings.json", settings)
        sessions = ["out/web.session", "out/desk.session", "out/choices.session"]
        self.assertEqual(say("run", "out/catalogue.csv", "out/roll.csv", "settings.json", *sessions)[0], 0)
        status, told = say("rosters", "--mapping", "mapping.ini", "--into", "out")
        self.assertEqual(status, 0, told)
        credits = {one.code: f"{one.credits / 2:g}" for one in self.school.sections}
        rows = [line.split(",") for line in self.read("out/enrolment.csv").splitlines()]
        self.assertEqual(rows[0], ["Code", "C", "P", "N"])
        self.assertEqual([row[3] for row in rows[1:]], [str(at) for at in range(1, len(rows))])
        for code, credit, programme, _ in rows[1:]:
            self.assertEqual(credit, credits[code])
            self.assertIn(programme, school.PROGRAMMES)


class Fields(unittest.TestCase):
    """Templates."""

    def test_a_value_is_not_read_again(self) -> None:
        self.assertEqual(fields.filled("{{a}} {name} {e-mail}", lambda name: "{" + name + "}"), "{a} {name} {e-mail}")

    def test_a_single_brace(self) -> None:
        for text in ("a\n{name", "a\n}", "a\n{na\nme}"):
            with self.assertRaises(fields.FieldFault) as caught:
                fields.refuse_unknown(text, ["name"])
            self.assertEqual(caught.exception.line, 2)


if __name__ == "__main__":
    unittest.main()
