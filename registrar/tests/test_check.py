"""`check`, `explain`, `audit` and `again` by the manifest: a finding is told with its place."""

import json
import os
import shutil
import unittest
from unittest import mock

from registrar import audit, explain, findings, manifest, own_names, program, reasons, tell
from tests.support import IN_SPITE, SCARCE_WORDS, TERM, InFolder, call, needs_program

FILES = ["catalogue.csv", "roll.csv", "settings.json", "published.txt", "a.session", "b.session"]


def term() -> manifest.Manifest:
    """The files of examples/term."""
    names = ["catalogue.csv", "roll.csv", "settings.json", "published.txt", "desk.session", "web.session"]
    return manifest.of_files([os.path.join(TERM, name) for name in names])


@needs_program
class Check(InFolder):
    """Texts that hold and texts that do not."""

    def setUp(self) -> None:
        """A text with its manifest."""
        super().setUp()
        self.run_scarce()

    def spoil(self, old: str, new: str) -> None:
        """Changes the text."""
        text = self.read("published.txt")
        self.assertIn(old, text)
        self.put("published.txt", text.replace(old, new))

    def test_accepted(self) -> None:
        """Without words the manifest says all."""
        told = call("check")
        self.assertEqual((told.status, told.out, told.err), (0, "accepted\n", ""))

    def test_without_manifest(self) -> None:
        """A reader without a manifest names the files."""
        os.remove("manifest.json")
        self.assertEqual(call("check").status, tell.NO_FILE)
        self.assertEqual(call("check", *FILES).out, "accepted\n")
        self.assertEqual(call("check", *FILES[:4]).status, tell.USAGE)

    def test_each_finding(self) -> None:
        """The line of the text that each finding names. The lines are counted by hand: 2 students, 2 sections."""
        good = self.read("published.txt")
        budget = good.split("\n")[2]
        for old, new, wanted in (
            (budget, budget[:-1] + "7", ("finding: budget u", "published.txt, line 3: budget u 1", "not base, carry and drawn")),
            ("used X 1 1", "used X 1 2", ("finding: used X", "line ", ": used X 1 2")),
            ("final u", "final  u", ("form", "no such line may stand here")),
            ("end\n", "", ("missing", "its end is lost")),
            ("end\n", "end\nmore\n", ("rest", "behind its line 'end'")),
            ("course-match 1", "\ufeffcourse-match 1", ("finding: line 1 form", "byte order mark", "check says: accepted")),
            ("\n", "\r\n", ("finding: line 1 form", "CR LF", "check says: accepted")),
        ):
            with self.subTest(new):
                self.put("published.txt", good.replace(old, new))
                told = call("check")
                self.assertEqual(told.status, 8)
                self.assert_told(told.out, wanted)

    def test_another_roll(self) -> None:
        """Where the text is of other students, the first that differs is told."""
        self.put("other.csv", "student,budget,credits,courses\nv,100,4,2\nu,100,4,2\n")
        told = call("check", FILES[0], "other.csv", *FILES[2:])
        self.assertEqual(told.status, 8)
        self.assert_told(told.out, ("the text has u where row 2 of the roll has v", "roll of that run"))

    def test_swapped_sessions(self) -> None:
        """Files that were given in another order are named, whether their counts differ or not."""
        told = call("check", *FILES[:4], "b.session", "a.session")
        self.assertIn("accepted", told.out)  # Each names one student alone: any order of the two holds.
        self.put("b.session", self.read("b.session") + "rate u Y 60\nrate v Y 30\n")
        self.assertEqual(call("run", *SCARCE_WORDS, *IN_SPITE).status, 0)
        told = call("check", *FILES[:4], "b.session", "a.session")
        self.assertEqual(told.status, 8)
        self.assert_told(
            told.out,
            (
                "finding: journal at",
                "session 1, b.session, has 4 commands; the order has 2 of it",
                "with a.session and b.session in each other's place the check says: accepted",
            ),
        )

    def test_changed_files(self) -> None:
        """Files that changed since the run are named, and two that were swapped."""
        os.rename("a.session", "x")
        os.rename("b.session", "a.session")
        os.rename("x", "b.session")
        told = call("check")
        self.assertEqual(told.status, tell.FAULTS)
        self.assert_told(told.err, ("a.session (session) has changed", "it is what b.session was. Were the two swapped?"))
        os.remove("roll.csv")
        told = call("check")
        self.assertEqual(told.status, tell.NO_FILE)
        self.assertIn("roll.csv (roll) is not there", told.err)

    def test_a_spoiled_manifest(self) -> None:
        """A manifest that is none is refused in words."""
        good = self.read("manifest.json")
        long = good.replace('"elapsed": ', f'"elapsed": 1{"0" * 400}, "was": ')
        for text in ("", "[]", '{"inputs": []}', "[" * 100000, long, good.replace('"catalogue.csv"', '"7"')):
            with self.subTest(text):
                self.put("manifest.json", text)
                told = call("check")
                self.assertEqual(told.status, tell.NO_FILE if '"7"' in text else tell.FAULTS)
                self.assertRegex(told.err, r"is no manifest|7 \(catalogue\) is not there")

    def test_a_file_that_fails(self) -> None:
        """What no command tells of a file is told all the same."""
        with mock.patch.object(program, "call", side_effect=OSError(28, "No space left on device", "x")):
            told = call("check")
        self.assertEqual((told.status, told.err), (tell.FAULTS, "x can not be read or written: No space left on device\n"))

    def test_error_over_accept(self) -> None:
        """`check` does not judge the error line; the tool warns where it passes `accept`, and `again` compares."""
        self.assertEqual(call("again").status, 0)
        self.spoil("error 0", "error 3")
        told = call("check")
        self.assertEqual((told.status, told.out), (0, "accepted\n"))
        self.assert_told(told.err, ("error is 3, more than the settings' accept of 0", "not the text that the run"))
        told = call("again")
        self.assertEqual(told.status, tell.FAULTS)
        self.assert_told(told.out, ("published.txt, line 7: error 3", "line 7: error 0"))

    def test_another_folder(self) -> None:
        """A manifest is read from anywhere, and moves with its files."""
        shutil.copytree(".", "deep/moved")
        self.assertEqual(call("check", "--manifest", "deep/moved/manifest.json").out, "accepted\n")


@needs_program
class Again(InFolder):
    """Two sessions that name one student: the end depends on the order, and `again` keeps it."""

    def test_the_order(self) -> None:
        """The same text comes out in one stream, in the text's own order."""
        self.scarce()
        self.put("a.session", "rate u X 90\nrate u Y 50\n# nothing\nnot a command\nrate u X 0\r\r\nclear v\n")
        self.put("b.session", "rate v X 80\nrate u Y 7\nrate v Y 40\n")
        self.assertEqual(call("run", *SCARCE_WORDS, *IN_SPITE).status, 0)
        told = call("again")
        self.assertEqual(told.status, 0)
        self.assertIn("the same, byte for byte, but for the order line", told.out)


@needs_program
class Explain(InFolder):
    """The reason in words. Of u and v the one of the greater budget has X, the other cannot pay it."""

    def test_in_words(self) -> None:
        """The price is above the lesser budget, which is 100, the base."""
        self.run_scarce()
        text = self.read("published.txt")
        loser = "u" if "budget u 100\n" in text else "v"
        told = call("explain", loser, "X")
        self.assertEqual(told.status, 0)
        self.assert_told(told.out, (f"{loser} X alone price\n", "X costs 10", "It alone passes your budget of 100."))

    def test_own_spelling(self) -> None:
        """A section may be named as the school spells it."""
        self.run_scarce()
        self.put("names.csv", "kind,original,name\nsection,GÉNI 1,X\n")
        self.assertIn("u X ", call("explain", "u", "GÉNI 1").out)

    def test_no_name(self) -> None:
        """Status 9 names the word."""
        self.run_scarce()
        told = call("explain", "U", "X")
        self.assertEqual(told.status, 9)
        self.assertIn("No student of the roll has the name 'U'. Capital letters count; nearest: u\n", told.err)
        self.assertIn("No section of the catalogue has the name 'Z'", call("explain", "u", "Z").err)
        told = call("explain", "u", "GÉNI 1")
        self.assertEqual((told.status, told.err), (9, "No section of the catalogue has the name 'GÉNI 1'. Capital letters count.\n"))

    def test_the_one_that_was_meant(self) -> None:
        """It is named in the school's own spelling, whether the word has its letters, other capitals, or begins it."""
        self.run_scarce()
        self.put("names.csv", "kind,original,name\nsection,ÖKON 101,X\nsection,Ünal,Y\nstudent,Émile,u\n")
        for word in ("OKON 101", "ökon101", "OKON", "okon-101", "ÖKON 110"):
            told = call("explain", "u", word)
            self.assertEqual(told.status, 9)
            self.assertIn(f"has the name '{word}'. Capital letters count; nearest: ÖKON 101 (X)\n", told.err)
        self.assertIn("nearest: Émile (u)", call("explain", "Emile", "X").err)
        many = {f"O{number}": f"ÖKON {number}" for number in range(1, 8)}
        hint = own_names.nearest({"section": many}, "section", "OKON", many)
        self.assertEqual(hint, "; nearest: ÖKON 1 (O1), ÖKON 2 (O2), ÖKON 3 (O3), ÖKON 4 (O4), ÖKON 5 (O5), and 2 more")
        told = call("explain", "Émile", "ÖKON 101")
        self.assertEqual(told.status, 0)
        self.assertRegex(told.out, "(You have ÖKON 101|ÖKON 101 costs)")

    def test_names_that_begin_with_a_dash(self) -> None:
        """They are words, also as the value of an option; one that is an option stands behind `--`, or behind `=`."""
        self.scarce()
        for name in ("catalogue.csv", "roll.csv", "a.session", "b.session"):
            text = self.read(name).replace("u,", "-u-,").replace("v,", "-h,").replace("X", "-X").replace("Y", "--Y")
            self.put(name, text.replace(" u ", " -u- ").replace(" v ", " -h "))
        os.rename("a.session", "-a.session")
        words = ["catalogue.csv", "roll.csv", "settings.json", "-a.session", "b.session"]
        self.assertEqual(call("look", *words[:2], *words[3:]).status, 0)
        self.assertEqual(call("run", *words).status, 0)
        self.assertEqual(call("check", "catalogue.csv", "roll.csv", "settings.json", "published.txt", *words[3:]).out, "accepted\n")
        self.assertRegex(call("explain", "-u-", "-X").out, r"\A-u- -X ")
        self.assertRegex(call("explain", "-u-", "--Y", "--manifest", "manifest.json").out, r"\A-u- --Y ")
        self.assertRegex(call("explain", "--", "-h", "--Y").out, r"\A-h --Y ")
        self.assertEqual(call("lists", "--student", "-u-", "--student=-h").status, 0)
        self.assertEqual(sorted(os.listdir("lists/students")), ["-h.session", "-h.txt", "-u-.session", "-u-.txt"])
        self.assertEqual(call("explain", "-u-", "-X", "--manifesto", "x").status, tell.USAGE)
        self.assertEqual(call("run", *words, "--worker", "1").status, 0)
        self.assertEqual(call("run", *words, "--wokers", "1").status, tell.USAGE)

    def test_a_finding(self) -> None:
        """Where the text does not hold, the finding is told with its place."""
        self.run_scarce()
        self.put("published.txt", self.read("published.txt").replace("used X 1 1", "used X 0 1"))
        told = call("explain", "u", "X")
        self.assertEqual(told.status, 8)
        self.assert_told(told.err, (": used X 0 1", "another number of seats"))

    def test_audit(self) -> None:
        """One of the two envies the other, who has the greater budget."""
        self.run_scarce()
        told = call("audit", "--out", "envy.txt")
        self.assertEqual(told.status, 0)
        self.assertIn("In the end 1 student envies somebody: 1 times somebody of a greater budget, 0 times", told.out)
        self.assertIn("final total 0 1 0", self.read("envy.txt"))
        self.assertIn("final total 0 1 0", call("audit").out)

    def test_no_file_that_is_read_is_written_over(self) -> None:
        """`audit` and `summary` refuse an output that is a file of the manifest, or the manifest, under whatever name."""
        self.run_scarce()
        os.link("b.session", "link")
        before = {name: self.read(name) for name in [*FILES, "manifest.json"]}
        for name, what in (("published.txt", "published text"), ("./roll.csv", "roll"), ("link", "session"), ("manifest.json", "manifest")):
            for command in ("audit", "summary"):
                with self.subTest(command + name):
                    told = call(command, "--out", name)
                    self.assertEqual(told.status, tell.USAGE)
                    self.assertIn(f"{name} is the {what} that this command reads", told.err)
        self.assertEqual(before, {name: self.read(name) for name in before})

    def test_a_text_that_has_changed_and_holds(self) -> None:
        """`explain` and `audit` speak of a text that is not the one of the run, and say so."""
        self.run_scarce()
        self.put("published.txt", self.read("published.txt").replace("error 0", "error 3"))
        for words in (("explain", "u", "Y"), ("audit",)):
            told = call(*words)
            self.assertEqual(told.status, 0)
            self.assertIn("warning: published.txt holds, but is not the text that the run of manifest.json wrote", told.err)


class Reading(unittest.TestCase):
    """Reading answers that were printed, without the program."""

    def test_audit_of_a_student_total(self) -> None:
        """A student may have the name `total`."""
        parts = audit.read_audit(["settled total 0 1 0", "settled total 0 1 0", "final total 0 0 0", "final total 0 0 0"])
        self.assertEqual(parts["settled"].students, {"total": (0, 1, 0)})
        self.assertEqual(parts["final"].total, (0, 0, 0))

    def test_the_guides_reason(self) -> None:
        """The reason of examples/term in the words of docs/GUIDE.md."""
        market = explain.market_of(term())
        with open(os.path.join(TERM, "reason.txt"), encoding="utf-8") as file:
            reason = reasons.read_reason(file.read().splitlines())
        with open(os.path.join(program.TOP, "docs", "GUIDE.md"), encoding="utf-8") as file:
            guide = file.read()
        told = reasons.in_words(market, reason)
        self.assertTrue(told.startswith("FNCE-717-A costs 3252. ") and told.endswith(" What it bought is worth 260, 72 more."))
        self.assertIn(f'In words for the student: "{told}"', guide)

    def test_what_the_aftermarket_changed(self) -> None:
        """By the lines of y.chen and n.jones in the term: what was had and is had, was given up, was won; and a clash."""
        market = explain.market_of(term())
        for student, section, words, wanted in (
            ("n.jones", "FNCE-601-A", ("held",), ["You have FNCE-601-A: your bundle of the second stage has it, and so has your final one."]),
            ("n.jones", "HCMG-841-A", ("held",), ["Your bundle of the second stage had HCMG-841-A, and your final one has not."]),
            ("y.chen", "COMM-620-A", ("beside", "credits"), [
                "You won COMM-620-A in the aftermarket; this is why you did not have it before.",
                "(In the second stage you had FNCE-601-A, MGMT-691-B and HCMG-841-A. ",
                "Together with what your budget bought in the second stage it would pass your cap of 10 credits.",
            ]),
            ("n.jones", "FNCE-601-B", ("clash", "FNCE-601-A"), [
                "(In the second stage you had ACCT-611-B, FNCE-601-A and HCMG-841-A. ",
                "It is of the same course as FNCE-601-A, which your budget bought in the second stage.",
            ]),
        ):  # fmt: skip
            with self.subTest(student + section):
                told = reasons.in_all_words(market, reasons.Reason(student, section, words))
                self.assertEqual(len(told), len(wanted))
                for line, part in zip(told, wanted):
                    self.assertIn(part, line)

    def test_findings(self) -> None:
        """Findings on bundles and turns of the term, with the lines in which they stand."""
        path = os.path.join(TERM, "published.txt")
        for finding, wanted in (
            ("finding: student n.jones tree open at 11", "line 227: bundle n.jones [ACCT-611-B"),
            ("finding: student n.jones tree open at 11", "(byte 11 of the tree, counted from 0)"),
            ("finding: turn 1 taken", "line 264: turn 1 "),
            ("finding: seats FNCE-717-A 13 of 12", "used FNCE-717-A"),
            ("finding: not quiet after 500 turns", "line 763"),
            ("finding: final n.jones", "line 827: final n.jones"),
        ):
            with self.subTest(finding):
                self.assertIn(wanted, "\n".join(findings.explain_finding(finding, path)))

    def test_manifest_needs_all(self) -> None:
        """A manifest is JSON with inputs, words, program, text, elapsed and made."""
        self.assertEqual(manifest.beside("out/published.txt"), os.path.join("out", "manifest.json"))
        self.assertEqual(manifest.beside("spring.txt"), "spring.manifest.json")
        self.assertTrue(json.dumps(manifest.ROLES))
