"""`import --pseudonyms`: what is published names nobody, and every list has the student's own name."""

from __future__ import annotations

import email
import os
import re
import stat
import unittest

from registrar import tell
from tests.support import needs_program
from tests.term import InFolder, say

MAPPING = (
    "[catalogue]\nfile = c.csv\nsection = s\ncourse = c\nseats = n\ncredits default = 1\nmeetings default = TBA\n"
    "[roll]\nfile = r.csv\nstudent = id\nbudget default = 500\ncredits default = 9\ncourses default = 5\n"
    "[survey w]\nfile = w.csv\nstudent = id\nsection = s\nvalue = v\nsays = rating\n"
    "[requests later]\nfile = q.csv\nstudent = id\nadd = a\ndrop = d\n[students]\nany case = yes\npad = 4\n"
)
OWN = ["0012", "Ümit", "=cmd()", "n.jones"]


class Drawn(InFolder):
    """Four students, whose register stands in a folder of its own."""

    def setUp(self) -> None:
        super().setUp()
        os.mkdir("office")
        self.write("office/mapping.ini", MAPPING)
        self.write("office/c.csv", "s,c,n\nÖK 1,ÖK,1\nB-1,B,2\n")
        self.write("office/r.csv", "id\n" + "".join(f"{own}\n" for own in OWN))
        self.write("office/w.csv", "id,s,v\n12,ÖK 1,90\n12,B-1,50\nÜmit,ÖK 1,80\n=cmd(),B-1,70\nN.JONES,B-1,60\nN.JONES,ÖK 1,10\n")
        self.write("office/q.csv", "id,a,d\nN.Jones,,B-1\n12,B-1,\n")
        settings = '{"seed": 1, "spread": 10, "accept": 9, "turns": 20, "tabu": 5, "patience": 5, "steps": [1, 10], "raise": 0}\n'
        self.write("settings.json", settings)

    def imported(self, *words: str) -> tuple[int, str]:
        """Imports into the folder `term`."""
        return say("import", "--mapping", "office/mapping.ini", "--into", "term", "--pseudonyms", *words)

    def key(self) -> dict[str, str]:
        """The drawn name of each student, by its own."""
        rows = [line.split(",") for line in self.read("office/pseudonyms.csv").splitlines()[1:]]
        return {row[0].lstrip("'"): row[2] for row in rows}

    def published(self) -> str:
        """All that stands in the folder, and the names of the files."""
        names = sorted(name for name in os.listdir("term") if os.path.isfile(f"term/{name}"))
        return "\n".join(names) + "".join(self.read(f"term/{name}") for name in names)

    def test_what_is_published_names_nobody(self) -> None:
        status, told = self.imported()
        self.assertEqual(status, 0, told)
        self.assertIn("office/pseudonyms.csv: 4 drawn names, 4 of them new; keep it, and keep it apart from what is published", told)
        for own in ("0012", "mit", "cmd", "jones"):
            self.assertNotIn(own, self.published())
        key = self.key()
        self.assertEqual(list(key), OWN)
        self.assertTrue(all(re.fullmatch("[a-z][a-z2-9]{7}", drawn) for drawn in key.values()))
        roll = [line.split(",")[0] for line in self.read("term/roll.csv").splitlines()[1:]]
        self.assertEqual(roll, sorted(key.values()))
        self.assertIn(f"rate {key['n.jones']} B-1 60\nrate {key['n.jones']} OK_1 10\n", self.read("term/w.session"))
        self.assertEqual(stat.S_IMODE(os.stat("office/pseudonyms.csv").st_mode), 0o600)

    def test_a_name_stays_while_the_key_is_there(self) -> None:
        self.imported()
        before = self.key()
        self.assertEqual(self.imported()[0], 0)
        self.write("office/r.csv", self.read("office/r.csv") + "new\n")
        status, told = self.imported("--replace")
        self.assertEqual(status, 0, told)
        self.assertIn("5 drawn names, 1 of them new", told)
        self.assertEqual({own: drawn for own, drawn in self.key().items() if own != "new"}, before)
        os.remove("office/pseudonyms.csv")
        self.assertEqual(self.imported("--replace")[0], 0)
        self.assertFalse(set(before.values()) & set(self.key().values()))

    def test_a_student_may_be_named_by_its_drawn_name(self) -> None:
        """A file that a student saved by the page has the name that the published roll has."""
        self.imported()
        drawn = self.key()["Ümit"]
        os.mkdir("office/forms")
        self.write(f"office/forms/{drawn}.session", f"clear {drawn}\nrate {drawn} B-1 33\n")
        self.write("office/mapping.ini", MAPPING.replace("[survey w]", "[sessions s]\nfolder = forms\n[survey w]"))
        status, told = self.imported("--replace")
        self.assertEqual(status, 0, told)
        self.assertIn(f"rate {drawn} B-1 33\n", self.read("term/s.session"))

    def test_what_is_refused(self) -> None:
        """A key among what is published, own names beside drawn ones, and a file that is no key."""
        for into in (".", "office"):
            status, told = say("import", "--mapping", "office/mapping.ini", "--into", into, "--pseudonyms")
            self.assertEqual(status, tell.FAULTS)
            self.assertIn("would stand in", told)
        self.assertFalse(os.path.exists("office/pseudonyms.csv"))
        self.imported()
        status, told = say("import", "--mapping", "office/mapping.ini", "--into", "term", "--replace")
        self.assertEqual(status, tell.FAULTS)
        self.assertIn("the students in term have drawn names: say `--pseudonyms`, or `--into` another folder", told)
        whole = self.read("office/pseudonyms.csv")
        for text in ("", "x,y\n", whole.replace("0012,", "0012,x,"), whole + whole.split("\r\n", 1)[1]):
            with self.subTest(text[:20]):
                self.write("office/pseudonyms.csv", text)
                status, told = self.imported("--replace")
                self.assertEqual(status, tell.FAULTS)
                self.assertIn("is no key of drawn names", told)
                self.assertEqual(self.read("office/pseudonyms.csv"), text)

    def test_faults_name_students_as_the_register_does_and_draw_nothing(self) -> None:
        self.write("office/w.csv", self.read("office/w.csv") + "12,B-1,7\n")
        status, told = self.imported()
        self.assertEqual(status, tell.FAULTS)
        self.assertIn("a wish of 0012 that row 3 does not have yet", told)
        self.assertFalse(os.path.exists("office/pseudonyms.csv"))

    @needs_program
    def test_every_list_has_the_student_s_own_name(self) -> None:
        self.imported()
        key = self.key()
        words = ["term/catalogue.csv", "term/roll.csv", "settings.json", "term/w.session", "--text", "term/published.txt"]
        status, told = say("run", *words)
        self.assertEqual(status, 0, told)
        self.assertIn(f"budget {key['0012']} ", self.read("term/published.txt"))
        status, told = say("lists", "--manifest", "term/manifest.json", "--out", "lists")
        self.assertEqual(status, 0, told)
        rows = self.read("lists/students.csv").splitlines()[1:]
        self.assertEqual({row.split(",")[0] for row in rows}, {"0012", "Ümit", "'=cmd()", "n.jones"})
        files = {name for name in os.listdir("lists/students") if name.endswith(".txt")}
        self.assertEqual(files, {"0012.txt", "Umit.txt", "-cmd--.txt", "n.jones.txt"})
        text = self.read("lists/students/Umit.txt")
        self.assertTrue(text.startswith("Ümit\n"))
        self.assertIn(f"{key['Ümit']} is Ümit", text)
        self.assertIn(f"rate {key['Ümit']} OK_1 80", self.read("lists/students/Umit.session"))
        status, told = say("explain", "Ümit", "ÖK 1", "--manifest", "term/manifest.json")
        self.assertEqual(status, 0, told)
        status, told = say("hall", "--manifest", "term/manifest.json", "--mapping", "office/mapping.ini", "--into", "after")
        self.assertEqual(status, 0, told)
        self.assertIn("q.csv,2,drop,n.jones,B-1,", self.read("after/hall-replies.csv"))
        os.rename("office/pseudonyms.csv", "office/elsewhere.csv")
        status, told = say("lists", "--manifest", "term/manifest.json", "--out", "others", "--no-reasons")
        self.assertEqual(status, 0, told)
        self.assertIn("pseudonyms.csv is not there: students stand under the names that were drawn for them", told)
        self.assertIn(key["0012"], self.read("others/students.csv"))


    @needs_program
    def test_mails_and_rosters_have_the_student_s_own_name(self) -> None:
        """The register is joined by the key; in the mail's attachment stands the drawn name, by which it is checked."""
        self.write("office/c.csv", "s,c,n\nÖK 1,ÖK,1\nB-1,B,3\n")  # (a seat for each, whatever names are drawn)
        self.write("office/r.csv", "id,who,mail\n" + "".join(f"{own},N{at},s{at}@school.edu\n" for at, own in enumerate(OWN)))
        rosters = "[rosters]\nfile = system.csv\nencoding = utf-8\n[roster columns]\nID = {student}\nNAME = {name}\nSEC = {section}\n"
        self.write("office/mapping.ini", MAPPING.replace("[survey w]", "name = who\ne-mail = mail\n[survey w]") + rosters)
        self.write("mail.txt", "From: office@school.edu\nSubject: Sections of {student}\n\nDear {name},\n{sections}\n")
        status, told = self.imported()
        self.assertEqual(status, 0, told)
        key = self.key()
        words = ["term/catalogue.csv", "term/roll.csv", "settings.json", "term/w.session", "--text", "term/published.txt"]
        self.assertEqual(say("run", *words)[0], 0)
        by = ["--manifest", "term/manifest.json", "--mapping", "office/mapping.ini"]
        status, told = say("lists", *by, "--mail", "mail.txt", "--out", "lists", "--no-reasons")
        self.assertEqual(status, 0, told)
        self.assertEqual(sorted(os.listdir("lists/mails")), ["-cmd--.eml", "0012.eml", "Umit.eml", "n.jones.eml"])
        with open("lists/mails/n.jones.eml", "rb") as file:
            mail = email.message_from_binary_file(file)
        self.assertEqual([part.get_filename() for part in mail.get_payload()], [None, "n.jones.session"])
        text, session = (part.get_payload(decode=True).decode() for part in mail.get_payload())
        self.assertEqual((mail["To"], mail["Subject"]), ('"N3" <s3@school.edu>', "Sections of n.jones"))
        self.assert_told(text, ("Dear N3,", "B-1"))
        self.assertIn(f"rate {key['n.jones']} B-1 60\n", session)
        status, told = say("rosters", *by, "--into", "system")
        self.assertEqual(status, 0, told)
        rows = self.read("system/system.csv").splitlines()[1:]
        self.assertEqual({row.split(",")[0] for row in rows} - set(OWN), set(), rows)
        self.assertTrue(rows)


if __name__ == "__main__":
    unittest.main()
