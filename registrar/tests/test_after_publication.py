"""`hall` and `next` after publication: raised seats, requests that are none, swaps, and what is carried over after the hall."""

from __future__ import annotations

import json
import os
import shutil
import unittest
from typing import Dict, List, Tuple

from registrar import manifest, tell
from tests.support import SCARCE_WORDS, TERM, call, needs_program
from tests.term import InFolder, say

FILES = ("catalogue.csv", "roll.csv", "settings.json", "desk.session", "web.session", "published.txt")
WORDS = ["run", "2", "catalogue.csv", "roll.csv", "settings.json", "desk.session", "web.session"]


class OfTerm(InFolder):
    """A test after the term of examples/term."""

    def setUp(self) -> None:
        super().setUp()
        for name in FILES:
            shutil.copy(os.path.join(TERM, name), name)
        manifest.write("manifest.json", WORDS, "published.txt", 1.0)
        shutil.copy(os.path.join(TERM, "desk.requests"), "desk.requests")

    def spoil(self, name: str, old: str, new: str) -> None:
        """Replaces a text in a file."""
        text = self.read(name)
        self.assertIn(old, text)
        self.write(name, text.replace(old, new))


@needs_program
class Catalogue(OfTerm):
    """A catalogue that is not that of the run."""

    def test_raised_seats(self) -> None:
        """They are taken and told: of the twelve seats of FNCE-717-A there are thirteen, so f.gomez need not wait."""
        self.spoil("catalogue.csv", "FNCE-717-A,FNCE-717,12,", "FNCE-717-A,FNCE-717,13,")
        status, told = say("hall", "desk.requests", "--into", "hall")
        self.assertEqual(status, 0, told)
        lines = told.splitlines()
        self.assertEqual(lines[0], "catalogue.csv: seats raised since the run: FNCE-717-A from 12 to 13")
        self.assertIn("desk.requests row 2: add f.gomez FNCE-717-A: added", lines)
        self.assertIn("used FNCE-717-A 13 13\n", self.read("hall/hall.txt"))

    def test_seats_that_are_held(self) -> None:
        """Fewer seats than are held: the program's words, with what they mean. Nothing is written."""
        self.spoil("catalogue.csv", "FNCE-717-A,FNCE-717,12,", "FNCE-717-A,FNCE-717,11,")
        status, told = say("hall", "desk.requests", "--into", "hall")
        self.assertEqual(status, 8)
        self.assertTrue(told.startswith("finding: seats FNCE-717-A 12 of 11\n"), told)
        self.assertIn("12 students have it in their final lines: ", told)
        self.assertFalse(os.path.exists("hall"))

    def test_free_seats_that_go(self) -> None:
        """Fewer seats, but as many as are held: they are taken and told."""
        self.spoil("catalogue.csv", "LGST-611-A,LGST-611,26,", "LGST-611-A,LGST-611,4,")
        status, told = say("hall", "desk.requests", "--into", "hall")
        self.assertEqual(status, 0, told)
        self.assertIn("catalogue.csv: seats lowered since the run: LGST-611-A from 26 to 4\n", told)
        self.assertIn("add f.gomez LGST-611-A: queued 0\n", told)

    def test_what_the_program_refuses(self) -> None:
        """A catalogue that is none, and one without a section of the text: its own words and status."""
        text = self.read("catalogue.csv")
        for old, new, status, words in (
            ("FNCE-717-A,FNCE-717,12,", "FNCE-717-A,FNCE-717,12.5,", 3, "'12.5' is no whole number"),
            ("FNCE-717-A,FNCE-717,12,", "FNCE-717-B,FNCE-717,12,", 8, "finding: line "),
        ):
            with self.subTest(new):
                self.write("catalogue.csv", text.replace(old, new))
                told = say("hall", "desk.requests", "--into", "hall")
                self.assertEqual(told[0], status)
                self.assertIn(words, told[1])

    def test_more_than_seats(self) -> None:
        """Other times are taken by word alone: the program's desk goes by them and can not tell that they changed."""
        self.spoil("catalogue.csv", "FNCE-717-A,FNCE-717,12,2,M1330-1500;W1330-1500", "FNCE-717-A,FNCE-717,12,2,F0600-0630")
        status, told = say("hall", "desk.requests", "--into", "hall")
        self.assertEqual(status, tell.FAULTS)
        self.assertIn("catalogue.csv has changed since the run in more than its seats.", told)
        self.assertFalse(os.path.exists("hall"))
        self.assertEqual(say("hall", "desk.requests", "--into", "hall", "--allow", "catalogue")[0], 0)

    def test_a_manifest_that_does_not_say(self) -> None:
        """An earlier manifest has no sum of the catalogue without its seats: so what changed is not known."""
        with open("manifest.json", encoding="utf-8") as file:
            kept = json.load(file)
        del kept["inputs"][0][manifest.BUT_SEATS]
        self.write("manifest.json", json.dumps(kept))
        self.assertEqual(say("hall", "desk.requests", "--into", "hall")[0], 0)
        self.spoil("catalogue.csv", "FNCE-717-A,FNCE-717,12,", "FNCE-717-A,FNCE-717,13,")
        status, told = say("hall", "desk.requests", "--into", "other")
        self.assertEqual(status, tell.FAULTS)
        self.assertIn("manifest.json does not say whether in its seats alone", told)

    def test_other_commands(self) -> None:
        """To them a catalogue with other seats is not that of the run."""
        self.spoil("catalogue.csv", "FNCE-717-A,FNCE-717,12,", "FNCE-717-A,FNCE-717,13,")
        self.assertIn("catalogue.csv (catalogue) has changed since the run", say("lists")[1])


@needs_program
class Requests(OfTerm):
    """Requests that say nothing to the desk."""

    def test_they_are_listed(self) -> None:
        """Each with its place; nothing is written unless their kinds are allowed."""
        self.write("more.requests", "# a note\ndrop n.jones\nadd n.jonas FNCE-717-A\nadd n.jones FNCE717A\nadd n.jones LGST-611-A\n")
        status, told = say("hall", "desk.requests", "more.requests", "--into", "hall")
        self.assertEqual(status, tell.FAULTS)
        self.assertEqual(told.splitlines()[:6], [
            'more.requests:2: unreadable: "drop n.jones"',
            "more.requests:3: no-student: add n.jonas FNCE-717-A; nearest: n.jones",
            "more.requests:4: no-section: add n.jones FNCE717A; nearest: FNCE-717-A",
            "1 unreadable: a line that is no request",
            "1 no-student: a student who is not on the roll",
            "1 no-section: a section that is not in the catalogue",
        ])  # fmt: skip
        self.assertFalse(os.path.exists("hall"))
        allowed = [word for kind in ("unreadable", "no-student", "no-section") for word in ("--allow", kind)]
        self.assertEqual(say("hall", "desk.requests", "more.requests", "--into", "hall", *allowed[:4])[0], tell.FAULTS)
        status, told = say("hall", "desk.requests", "more.requests", "--into", "hall", *allowed)
        self.assertEqual(status, 0, told)
        self.assertIn("more.requests row 5: add n.jones LGST-611-A: ", told)


#: Four sections at four hours, the seats of the first three being full: a holds A, b holds B, c holds C, and d nothing.
SMALL: Dict[str, str] = {
    "catalogue.csv": "section,course,seats,credits,meetings\nA,KA,1,1,M0900-1000\nB,KB,1,1,M1000-1100\nC,KC,1,1,M1100-1200\nD,KD,2,1,M1200-1300\n",
    "roll.csv": "student,budget,credits,courses\na,100,4,2\nb,100,4,2\nc,100,4,2\nd,100,4,2\n",
    "settings.json": '{"seed":1,"spread":1,"accept":0,"turns":20,"tabu":5,"patience":5,"steps":[1,10],"raise":0}\n',
    "a.session": "rate a A 90\nrate b B 90\nrate c C 90\n",
    "mapping.ini": "[requests form]\nfile = form.csv\nstudent = Who\nadd = Add\ndrop = Drop\nboth = drop, add\n",
}


@needs_program
class Swaps(InFolder):
    """Rows that drop a section and add another."""

    def setUp(self) -> None:
        super().setUp()
        for name, text in SMALL.items():
            self.write(name, text)
        self.assertEqual(call("run", *SCARCE_WORDS[:4]).status, 0)
        self.assertIn("final a [A]\nfinal b [B]\nfinal c [C]\nfinal d []\n", self.read("published.txt"))

    def hall(self, rows: str, *words: str) -> Tuple[List[str], str]:
        """What is told of these rows of the form, and what is held then."""
        self.write("form.csv", "Who,Drop,Add\n" + rows)
        status, told = say("hall", "--replace", *words)
        self.assertEqual(status, 0, told)
        held = [line for line in self.read("hall.txt").splitlines() if line.startswith("final ")]
        return told.splitlines(), " ".join(line.split(" ", 1)[1] for line in held)

    def test_one_that_would_lose_its_seat(self) -> None:
        """B is full: a keeps A, and it is said before what was done. With its kind allowed a has nothing, and d gets A."""
        told, held = self.hall("a,A,B\nd,,A\n")
        self.assertEqual(told, [
            "1 swap would lose a seat and get none (`--allow lost-seat` takes such swaps too):",
            "  form.csv row 2: a keeps A; left out: B can not be had (queued 0)",
            "form.csv row 3: add d A: queued 0",
            "3 requests, 1 carried out, 2 left out with their swaps; the lists after them are in hall-*.csv",
        ])  # fmt: skip
        self.assertEqual(held, "a [A] b [B] c [C] d []")
        replies = self.read("hall-replies.csv").splitlines()
        outcome = "keeps A; left out: B can not be had (queued 0)"
        self.assertEqual(replies[2:], [f"form.csv,2,drop,a,A,left out,{outcome}", f"form.csv,2,add,a,B,left out,{outcome}"])
        self.assertIn("# drop a A, of a swap that is left out\n", self.read("hall.requests"))
        told, held = self.hall("a,A,B\nd,,A\n", "--allow", "lost-seat")
        self.assertEqual(told[0], "form.csv row 2: a gave up A and did not get B (queued 0)")
        self.assertEqual(held, "a [] b [B] c [C] d [A]")

    def test_one_that_gets_its_seat(self) -> None:
        """D has free seats: one line for the swap."""
        told, held = self.hall("a,A,D\n")
        self.assertEqual(told[0], "form.csv row 2: a has D in place of A")
        self.assertEqual(held, "a [D] b [B] c [C] d []")

    def test_an_exchange(self) -> None:
        """a waits for B until b gives it up, and b finds A free: nobody loses a seat. So it goes round among three too."""
        told, held = self.hall("a,A,B\nb,B,A\n")
        self.assertEqual(told[:2], ["form.csv row 2: a has B in place of A", "form.csv row 3: b has A in place of B"])
        self.assertEqual(held, "a [B] b [A] c [C] d []")
        self.assertEqual(self.hall("a,A,B\nb,B,C\nc,C,A\n")[1], "a [B] b [C] c [A] d []")

    def test_one_that_loses_makes_another_lose(self) -> None:
        """b would lose its seat for C, which c keeps; without b's swap a would lose its own. Both are left out."""
        told, held = self.hall("a,A,B\nb,B,C\n")
        self.assertEqual(told[0], "2 swaps would lose a seat and get none (`--allow lost-seat` takes such swaps too):")
        self.assertEqual(held, "a [A] b [B] c [C] d []")

    def test_rows_of_one_request(self) -> None:
        """They are no swaps, and are taken as they stand: d gets what c gives up, and a's section is of D's course."""
        self.write("catalogue.csv", SMALL["catalogue.csv"].replace("D,KD,2,1,M1200-1300", "D,KA,2,1,M1200-1300"))
        told, held = self.hall("c,C,D\nd,,C\na,,D\n", "--allow", "catalogue")
        self.assertIn("form.csv row 4: add a D: clash A", told)
        self.assertEqual(held, "a [A] b [B] c [D] d [C]")

    def test_what_is_not_held(self) -> None:
        """Nothing is given up: so nothing is lost, and the line says so."""
        told, held = self.hall("d,A,B\nd,B,D\n")
        self.assertEqual(told[:2], [
            "form.csv row 2: d did not get B (queued 0); A was not given up (not-holding)",
            "form.csv row 3: d has D; B was not given up (not-holding)",
        ])  # fmt: skip
        self.assertEqual(held, "a [A] b [B] c [C] d [D]")


@needs_program
class NextAfterHall(OfTerm):
    """What is carried over after the hall. After it y.lee has no more FNCE-717-A, which n.jones has; f.gomez has LGST-611-A too."""

    def rows(self) -> Dict[str, int]:
        """What each student brings."""
        return {row.split(",")[0]: int(row.split(",")[4]) for row in self.read("roll.next.csv").splitlines()[1:]}

    def left(self, student: str, *sections: str) -> int:
        """The budget less these prices, by the published text."""
        words = [line.split(" ") for line in self.read("published.txt").splitlines()]
        budget = next(int(one[2]) for one in words if one[:2] == ["budget", student])
        prices = {one[1]: int(one[2]) for one in words if one[0] == "price"}
        return max(0, budget - sum(prices[section] for section in sections))

    def test_where_there_was_one(self) -> None:
        """Wherever its files are: the log beside the manifest tells."""
        self.assertEqual(say("next")[0], 0)
        before = self.rows()
        self.assertEqual(say("hall", "desk.requests", "--into", "hall")[0], 0)
        status, told = say("next", "--replace")
        self.assertEqual(status, 0, told)
        self.assertIn("after hall/hall.requests: 3 students hold other sections than the published text says\n", told)
        after = self.rows()
        self.assertEqual(after["y.lee"], self.left("y.lee", "ACCT-611-A", "FNCE-601-B", "STAT-613-B"))
        self.assertGreater(after["y.lee"], before["y.lee"])
        self.assertLessEqual({name for name in after if after[name] != before[name]}, {"y.lee", "n.jones", "f.gomez"})
        self.assertEqual(say("next", "--replace", "--no-hall")[0], 0)
        self.assertEqual(self.rows(), before)

    def test_raised_seats(self) -> None:
        """The catalogue of the hall may have more seats than that of the run."""
        self.spoil("catalogue.csv", "FNCE-717-A,FNCE-717,12,", "FNCE-717-A,FNCE-717,13,")
        self.assertEqual(say("hall", "desk.requests")[0], 0)
        self.assertEqual(say("next")[0], 0)

    def test_what_was_changed_since(self) -> None:
        """Requests, or what was printed, that are not those of the hall; and requests that are gone."""
        self.assertEqual(say("hall", "desk.requests", "--into", "hall")[0], 0)
        self.spoil("hall/hall.requests", "drop y.lee FNCE-717-A\n", "")
        status, told = say("next")
        self.assertEqual(status, tell.FAULTS)
        self.assertIn("hall/hall.txt is not what the program answers to hall/hall.requests now", told)
        shutil.rmtree("hall")
        status, told = say("next")
        self.assertEqual(status, tell.NO_FILE)
        self.assertIn("`registrar hall` wrote hall/hall.requests, which is not there", told)
        self.assertFalse(os.path.exists("roll.next.csv"))
        self.assertEqual(say("next", "--hall", "desk.requests")[0], 0)

    def test_words(self) -> None:
        """Without a manifest there is no catalogue, and no hall."""
        self.assertEqual(say("next", "--roll", "roll.csv", "--text", "published.txt", "--hall", "desk.requests")[0], tell.USAGE)
        self.assertEqual(say("next", "--hall", "desk.requests", "--no-hall")[0], tell.USAGE)
        status, told = say("next", "--hall", "desk.requests", "--into", "desk.requests", "--replace")
        self.assertEqual(status, tell.USAGE)
        self.assertIn("desk.requests is the file of requests that this command reads", told)


if __name__ == "__main__":
    unittest.main()
