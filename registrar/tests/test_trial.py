"""`trial`: variants of the scarce market, told by hand. X has one seat that two students want, Y has two."""

from __future__ import annotations

import csv
import errno
import json
import os
import unittest
import xml.etree.ElementTree
from unittest import mock

from registrar import own_names, program, tell, trial
from tests.support import SCARCE_WORDS, InFolder, call, needs_program

VARIANTS = (
    "[more <seats>]\nseats X = +1\n\n[none]\nseats X = 0\nspread = 3\n\n[seeds]\nseed = 1, 2\n\n"
    "[no prices]\nturns = 0\naccept = 0\n"
)


class WithRun(InFolder):
    """A test with a run of the scarce market, and a file of variants."""

    def setUp(self) -> None:
        super().setUp()
        self.run_scarce()
        self.put("variants.ini", VARIANTS)

    def rows(self, name: str = "trials/trials.csv") -> dict[str, dict[str, str]]:
        """The rows of the table, by trial."""
        with open(name, encoding="utf-8-sig", newline="") as file:
            return {row["trial"]: row for row in csv.DictReader(file)}


@needs_program
class Trials(WithRun):
    """Each variant is run, and none is taken for a run."""

    def test_variants(self) -> None:
        told = call("trial", "variants.ini")
        self.assertEqual(told.status, 0, told.err)
        self.assertIn("5 trials", told.err)
        self.assertIn("trials: trials.html, trials.csv, and 5 trials, which `lists` refuses", told.out)
        rows = self.rows()
        self.assertEqual(
            list(rows), ["as it is", "more <seats>", "none", "seeds: seed 1", "seeds: seed 2", "no prices"]
        )
        self.assertEqual((rows["more <seats>"]["gained"], rows["more <seats>"]["lost"]), ("1", "0"))
        self.assertEqual((rows["none"]["gained"], rows["none"]["lost"]), ("0", "1"))
        self.assertEqual((rows["seeds: seed 1"]["gained"], rows["seeds: seed 1"]["lost"]), ("0", "0"))
        self.assertEqual(rows["none"]["what is other"], "spread 3, 0 seats in X")
        self.assertEqual(rows["as it is"]["seats"], "3 of 3")
        self.assertEqual(rows["more <seats>"]["seats"], "4 of 4")
        self.assertEqual(rows["more <seats>"]["share"], "100.0 %")
        # At prices of 0 both want X, which has one seat: 1 too many.
        self.assertEqual(rows["no prices"]["error"], "no prices: least 1")
        self.assertFalse(os.path.exists(os.path.join(rows["no prices"]["folder"], "published.txt")))
        page = self.read("trials/trials.html")
        self.assertIn("more &lt;seats&gt;", page)
        self.assertNotIn("<seats>", page)
        xml.etree.ElementTree.fromstring(page.split("\n", 1)[1].replace('<meta charset="utf-8">', ""))
        self.assertEqual(page.count("<svg"), 5)
        self.assertEqual(page.count("<figure>"), page.count("</svg><table>"))

    def test_inputs_of_a_trial(self) -> None:
        self.put("names.csv", "kind,original,name\nsection,GÉNI 1,X\n")
        self.put("variants.ini", "[more]\nseats GÉNI 1 = 4\nraise = 5\n")
        self.assertEqual(call("trial", "variants.ini").status, 0)
        folder = self.rows()["more"]["folder"]
        self.assertIn("X,KX,4,1,M0900-1000\n", self.read(f"{folder}/catalogue.csv"))
        self.assertEqual(json.loads(self.read(f"{folder}/settings.json"))["raise"], 5)
        self.assertTrue(os.path.exists(f"{folder}/names.csv"))
        self.assertEqual(call("check", "--manifest", f"{folder}/manifest.json").out, "accepted\n")
        self.assertEqual(call("again", "--manifest", f"{folder}/manifest.json").status, 0)

    def test_nothing_is_handed_out_of_a_trial(self) -> None:
        self.put("variants.ini", "[more]\nseats X = 2\n")
        self.assertEqual(call("trial", "variants.ini").status, 0)
        path = os.path.join(self.rows()["more"]["folder"], "manifest.json")
        self.assertEqual(json.loads(self.read(path))["trial"], "more")
        self.put("mapping.ini", "[requests form]\nfile = form.csv\nstudent = Who\nadd = Add\n")
        self.put("form.csv", "Who,Add\nu,X\n")
        for words in (("lists", "--out", "out"), ("hall", "--into", "out"), ("next", "--into", "out"),
                      ("rosters", "--mapping", "mapping.ini", "--into", "out")):  # fmt: skip
            told = call(*words, "--manifest", path)
            self.assertEqual(told.status, tell.FAULTS, words)
            self.assertIn("is of the trial 'more', which is no run that anybody is told of", told.err)
            self.assertFalse(os.path.exists("out"))
        told = call("compare", "manifest.json", path)
        self.assertEqual(told.status, 0)
        self.assertIn(f"B: {path} (the trial 'more')\n", told.out)
        self.assertEqual(call("trial", "variants.ini", "--manifest", path, "--into", "other").status, tell.FAULTS)

    def test_before_there_is_a_run(self) -> None:
        os.remove("manifest.json")
        os.remove("published.txt")
        told = call("trial", "variants.ini", *SCARCE_WORDS)
        self.assertEqual(told.status, 0, told.err)
        rows = self.rows()
        self.assertEqual(rows["more <seats>"]["gained"], "1")
        self.assertEqual(json.loads(self.read("trials/00-as_it_is/manifest.json"))["trial"], "as it is")
        self.assertFalse(os.path.exists("published.txt"))

    def test_a_trial_that_is_ended_leaves_no_text(self) -> None:
        """The manifest with the mark stands before the text has its name."""
        real = os.replace

        def ended(source: str, target: str) -> None:
            if str(target).endswith("published.txt"):
                raise OSError(errno.ENOSPC, "No space left on device", target)
            real(source, target)

        with mock.patch("os.replace", ended):
            told = call("trial", "variants.ini")
        self.assertEqual(told.status, tell.FAULTS)
        self.assertIn("published.txt can not be", told.err)
        texts = [name for folder, _, names in os.walk("trials") for name in names if name == "published.txt"]
        self.assertEqual(texts, [])

    def test_groups(self) -> None:
        self.put("mapping.ini", "[catalogue]\nfile = t.csv\nsection = code\n[roll]\nfile = r.csv\nstudent = id\n")
        self.put("t.csv", "code\nX\nY\n")
        self.put("r.csv", "id,Year\nu,1\nv,2\n")
        words = ("trial", "variants.ini", "--mapping", "mapping.ini", "--by", "Year", "--least", "1")
        told = call(*words)
        self.assertEqual(told.status, 0, told.err)
        found = [line.split() for line in told.out.splitlines()]
        self.assertIn(["trial", "1", "2", "all"], found)
        self.assertIn(["more", "<seats>", *["100.0", "%"] * 3], found)


class Names(InFolder):
    """The school's own spelling goes with a trial's catalogue."""

    def test_names_and_the_key_of_drawn_ones(self) -> None:
        os.makedirs("office")
        os.makedirs("term/trials/01")
        self.put("office/pseudonyms.csv", "student,name,pseudonym\n0012,0012,abcdefgh\n")
        self.put(
            "term/names.csv",
            "kind,original,name\nsection,'=X(),X\nunit,0.5,credit\npseudonyms,../office/pseudonyms.csv,student\n",
        )
        trial.put_names("term", "term/trials/01")
        self.assertEqual(own_names.read("term/trials/01/names.csv"), {
            **own_names.read("term/names.csv"), "pseudonyms": {"student": "../../../office/pseudonyms.csv"},
        })  # fmt: skip
        self.assertEqual(own_names.spelt(own_names.read("term/trials/01/names.csv"), "section", "X"), "=X()")
        trial.put_names("office", "term/trials")
        self.assertFalse(os.path.exists("term/trials/names.csv"))


@needs_program
class Refused(WithRun):
    """What is wrong is told before anything is run or written."""

    def refused(self, text: str, *wanted: str) -> None:
        """The variants are refused with these words."""
        self.put("variants.ini", text)
        with mock.patch.object(program, "call", side_effect=AssertionError("the program was called")):
            told = call("trial", "variants.ini")
        self.assertEqual(told.status, tell.FAULTS, told.out + told.err)
        self.assert_told(told.out, wanted)
        self.assertFalse(os.path.exists("trials"))

    def test_faults(self) -> None:
        self.refused("", "a variant, as `[more seats]`")
        self.refused("seats X = 4\n", "this is no file of variants")
        self.refused("[a]\nseats Z = 4\nsed = 3\n", '[a] seats Z: "Z" where this was expected: a section of the catalogue',
                     '[a] sed: "sed" where this was expected: one of seed, spread', "nearest: seed")  # fmt: skip
        self.refused("[a]\nseats X = -2\n[b]\nspread = 50\n[c]\nraise = 1.5\n[d]\nseed =\n",
                     "a whole number from 0 to 1", "a whole number from 0 to 49", '"1.5"', "[d] seed: blank")  # fmt: skip
        self.refused("[a]\nseats X = 10000\n[b]\nseats X = +9999\n", "from 0 to 9999", "from 0 to 9998")
        self.refused("[a]\nseed = " + ",".join(map(str, range(65))) + "\n", "at most 64 trials")

    def test_folders_that_have_something(self) -> None:
        self.assertEqual(call("trial", "variants.ini").status, 0)
        told = call("trial", "variants.ini")
        self.assertEqual(told.status, tell.FAULTS)
        self.assertIn("trials has files already: give another --into, or --replace", told.err)
        self.assertEqual(call("trial", "variants.ini", "--replace").status, 0)
        told = call("trial", "variants.ini", "--into", ".", "--replace")
        self.assertEqual(told.status, tell.USAGE)
        self.assertIn("has the catalogue", told.err)
        self.assertEqual(call("trial", "none.ini", "--into", "other").status, tell.NO_FILE)
        self.assertEqual(call("trial", "variants.ini", "catalogue.csv").status, tell.USAGE)


if __name__ == "__main__":
    unittest.main()
