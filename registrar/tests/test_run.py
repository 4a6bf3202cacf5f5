"""`run`: a refusal keeps the last good text, and names file, row, column and value in words."""

import os
import stat
import unittest

from registrar import program, tell
from tests.support import IN_SPITE, SCARCE, SCARCE_WORDS, InFolder, call, needs_program

CATALOGUE = "section,course,seats,credits,meetings\n"
ROLL = "student,budget,credits,courses\n"

# What is spoiled: the file, its text, and what has to be told.
REFUSED = (
    ("catalogue.csv", CATALOGUE + "X,KX,1,1.5,\n", ("catalogue.csv, row 2 (line 2), column 4 'credits'", "'1.5'", "0 to 100")),
    ("catalogue.csv", CATALOGUE + "\n\nX,KX,1200x,1,\n", ("row 2 (line 4), column 3 'seats'", "'1200x'", "0 to 9999")),
    ("catalogue.csv", CATALOGUE + "X Y,KX,1,1,\n", ("column 1 'section'", "'X Y'", "letters, digits")),
    ("catalogue.csv", CATALOGUE + "X,KX,1,1,MWF 9:00-10:15\n", ("column 5 'meetings'", "'MWF 9:00-10:15'", "M0900-1020")),
    ("catalogue.csv", CATALOGUE + "X,KX,1,1,\nX,KY,1,1,\n", ("row 3 (line 3), column 1", "'X'", "row 2")),
    ("catalogue.csv", CATALOGUE + "X,KX,1,1\n", ("row 2 (line 2)", "4 fields")),
    ("catalogue.csv", "section;course;seats;credits;meetings\n", ("catalogue.csv, row 1", "section;course", "registrar import")),
    ("catalogue.csv", "Section,Course,Seats,Credits,Meetings\n", ("row 1", "capital letters")),
    ("catalogue.csv", "section,course,seats,credits,meetings,parts\nX,KX,1,1,,21\n", ("column 6 'parts'", "'21'")),
    ("catalogue.csv", "", ("catalogue.csv, row 1", "empty")),
    ("roll.csv", ROLL + "u,-1,4,2\n", ("roll.csv, row 2 (line 2), column 2 'budget'", "'-1'", "900000")),
    ("roll.csv", ROLL + "u,100,801,2\n", ("column 3 'credits'", "'801'", "800")),
    ("roll.csv", ROLL + "u,100,4,9\n", ("column 4 'courses'", "'9'", "0 to 8")),
    ("settings.json", "{", ("settings.json", "no JSON")),
    ("settings.json", "[" * 100000, ("settings.json", "no JSON")),
    ("settings.json", "[]", ("settings.json", "no JSON object")),
    ("settings.json", SCARCE["settings.json"].replace('"seed": 1, ', ""), ('no "seed"',)),
    ("settings.json", SCARCE["settings.json"].replace('"raise"', '"rase": 1, "raise"'), ("rase",)),
    ("settings.json", SCARCE["settings.json"].replace('"spread": 10', '"spread": 50'),
     ('"spread" is 50, which is out of its range', "0 to 49")),
    ("settings.json", SCARCE["settings.json"].replace('"accept": 0', '"accept": "40"'),
     ('"accept" is "40", which is a text in quotes', "1000000000000")),
    ("settings.json", SCARCE["settings.json"].replace('"raise": 0', '"raise": true'), ('"raise" is true, which is no number', "0 to 50")),
    ("settings.json", SCARCE["settings.json"].replace("[1, 10]", "[0]"),
     ('"steps" is [0], which is out of its range', "an array of 1 to 16")),
)


@needs_program
class Refused(InFolder):
    """A run that the program refuses."""

    def test_each_refusal(self) -> None:
        """The terminal names file, row, column, value and what was expected, and the last good text stands."""
        for name, text, wanted in REFUSED:
            with self.subTest(text):
                self.scarce()
                self.put("published.txt", "the last good text\n")
                self.put(name, text)
                told = call("run", *SCARCE_WORDS)
                self.assertEqual(told.status, 3)
                self.assert_told(told.err, wanted)
                self.assert_kept(told.err)

    def assert_kept(self, told: str) -> None:
        """The last good text is as it was, it is said so, and nothing else was left."""
        self.assertEqual(self.read("published.txt"), "the last good text\n")
        self.assertIn("published.txt is what it was", told)
        self.assertFalse(os.path.exists("published.txt.part"))
        self.assertFalse(os.path.exists("manifest.json"))

    def test_no_input_is_written_over(self) -> None:
        """A text that would take an input's place is refused before the program is called."""
        self.scarce()
        told = call("run", *SCARCE_WORDS, "--text", "./roll.csv")
        self.assertEqual(told.status, tell.USAGE)
        self.assertIn("./roll.csv is the roll that this command reads", told.err)
        self.assertEqual(self.read("roll.csv"), SCARCE["roll.csv"])

    def test_a_folder_in_the_place_of_the_text(self) -> None:
        """It is refused before the program is called."""
        self.scarce()
        os.mkdir("texts")
        told = call("run", *SCARCE_WORDS, "--text", "texts")
        self.assertEqual((told.status, told.err), (tell.FAULTS, "texts can not be written: it is a folder\n"))

    def test_a_missing_file(self) -> None:
        """Status 2 names the file."""
        self.scarce()
        self.put("published.txt", "the last good text\n")
        told = call("run", "catalogue.csv", "rol.csv", "settings.json", "a.session")
        self.assertEqual(told.status, 2)
        self.assert_told(told.err, ("roll rol.csv is not there",))
        self.assert_kept(told.err)

    def test_too_long(self) -> None:
        """Status 4 names the file and its size."""
        self.scarce()
        self.put("published.txt", "the last good text\n")
        self.put("b.session", "#" * 16777217)
        told = call("run", *SCARCE_WORDS)
        self.assertEqual(told.status, 4)
        self.assert_told(told.err, ("b.session", "16777217", "16777216"))
        self.assert_kept(told.err)

    def test_too_many_commands(self) -> None:
        """Status 4 for the session with which there are too many commands."""
        self.scarce()
        self.put("b.session", "close\n" * 199999)
        told = call("run", *SCARCE_WORDS)
        self.assertEqual(told.status, 4)
        self.assert_told(told.err, ("b.session", "200000 commands"))

    def test_no_prices(self) -> None:
        """Status 5 says which `accept` to write: at price 0 both want the one seat, which is an error of 1."""
        self.scarce()
        self.put("published.txt", "the last good text\n")
        self.put("settings.json", SCARCE["settings.json"].replace('"turns": 20', '"turns": 0'))
        told = call("run", *SCARCE_WORDS)
        self.assertEqual(told.status, 5)
        self.assert_told(told.err, ("least error that it saw is 1", '"accept": 1', "registrar settings"))
        self.assert_kept(told.err)

    def test_wrong_words(self) -> None:
        """The tool's own status, before the program is called: words that are missing or out of their range."""
        self.scarce()
        self.assertEqual(call("run", "catalogue.csv").status, tell.USAGE)
        for number in ("0", "17", "a", "1.0"):
            told = call("run", "--workers", number, *SCARCE_WORDS)
            self.assertEqual(told.status, tell.USAGE)
            self.assertIn(f"argument --workers: '{number}' is no whole number from 1 to 16", told.err)
        told = call("run", *SCARCE_WORDS[:3], *["a.session"] * 65)
        self.assertEqual((told.status, told.err), (tell.USAGE, "65 sessions are given; the program takes at most 64\n"))
        self.assertEqual(call("run", *SCARCE_WORDS[:3], *["a.session"] * 64, *IN_SPITE).status, 0)

    @unittest.skipUnless(os.path.exists("/dev/full"), "there is no /dev/full")
    def test_a_full_disk(self) -> None:
        """Status 6: the output was not taken whole."""
        self.scarce()
        with open("/dev/full", "wb") as full:
            answer = program.call(["run", "1", *SCARCE_WORDS], output=full)
        self.assertEqual(answer.status, 6)
        self.assertIn("run again", " ".join(program.retell(answer, [])))


@needs_program
class Good(InFolder):
    """A run that succeeds."""

    def test_text_and_manifest(self) -> None:
        """The text, the manifest, and what is told."""
        self.scarce()
        told = call("run", *SCARCE_WORDS)
        self.assertEqual((told.status, told.err), (0, ""))
        self.assertTrue(self.read("published.txt").startswith("course-match 1\norder "))
        self.assertTrue(self.read("published.txt").endswith("used X 1 1\nused Y 2 2\nend\n"))
        self.assert_told(told.out, ("2 students, 2 sections", "3 of 3 seats", "0 students without a section"))
        self.assert_told(self.read("manifest.json"), ('"role": "catalogue"', '"a.session"', '"sha256"'))

    def test_a_survey_is_no_session(self) -> None:
        """A raw export given as a session publishes a market without wishes: that is said."""
        self.scarce()
        self.put("b.session", "student,X,Y\nv,80,40\n")
        told = call("run", *SCARCE_WORDS, *IN_SPITE)
        self.assertEqual(told.status, 0)
        self.assert_told(told.err, ("warning: b.session: 2 of 2 commands had no effect", "line 1: student,X,Y"))

    def test_each_command_without_effect_is_counted(self) -> None:
        """The desk's own replies: out of range, a pair of a section with itself, nobody's name, a line that is no command."""
        self.scarce()
        self.put("a.session", "rate u X 90\nrate u Y 101\npair u X X 5\nrate w X 5\nrate u X\nrate u Y 50\n")
        told = call("run", *SCARCE_WORDS)
        self.assertEqual(told.status, 0)
        self.assertEqual(
            told.err,
            "warning: a.session: 4 of 6 commands had no effect, the first in line 2: rate u Y 101 (`registrar look` tells each)\n",
        )

    def test_a_close(self) -> None:
        """The `close` that closed the desk is told, and what came behind it had no effect; so had a second `close`."""
        self.scarce()
        self.put("a.session", "rate u X 90\nclose\nrate u Y 50\nrate v X 80\nclose\n")
        told = call("run", *SCARCE_WORDS[:3], "a.session", *IN_SPITE)
        self.assertEqual(told.status, 0)
        self.assertEqual(told.err.splitlines()[-2:], [
            "warning: a.session: 3 of 5 commands had no effect, the first in line 3: rate u Y 50 (`registrar look` tells each)",
            "warning: a.session: line 2 closed the desk: what any session said behind it had no effect",
        ])  # fmt: skip

    def test_life(self) -> None:
        """The line of life tells what the last runs of about this size took."""
        tell.keep_time(".", {"students": 100, "workers": 2}, 19.2)
        before = tell.times_of(".", {"students": 105, "workers": 2})
        self.assertEqual(before, [19.2])
        self.assertEqual(tell.times_of(".", {"students": 200, "workers": 2}), [])
        self.assertEqual(tell.Life("running", before).line(3.0), "running: 3 s; the last runs of this size took 19 s")


class NoProgram(InFolder):
    """Calls where the program is not there, or ends as the program never does."""

    def setUp(self) -> None:
        """Names another program."""
        super().setUp()
        self.named = os.environ.get("COURSE_MATCH_PROGRAM")
        os.environ["COURSE_MATCH_PROGRAM"] = os.path.join(self.folder, "other")
        self.scarce()
        self.put("published.txt", "the last good text\n")

    def tearDown(self) -> None:
        """Names the program again."""
        if self.named is None:
            del os.environ["COURSE_MATCH_PROGRAM"]
        else:
            os.environ["COURSE_MATCH_PROGRAM"] = self.named
        super().tearDown()

    def other(self, body: str) -> None:
        """Puts another program in the program's place."""
        self.put("other", "#!/bin/sh\n" + body + "\n")
        os.chmod("other", os.stat("other").st_mode | stat.S_IXUSR)

    def test_each_end(self) -> None:
        """None of these numbers stands for the program's."""
        for body, status, wanted in (
            ("exit 101", tell.NO_PROGRAM, "101, which is no status of the program"),
            ("kill -9 $$", 137, "signal 9"),
        ):
            with self.subTest(body):
                self.other(body)
                told = call("run", *SCARCE_WORDS)
                self.assertEqual(told.status, status)
                self.assertIn(wanted, told.err)
                self.assertEqual(self.read("published.txt"), "the last good text\n")

    def test_a_text_that_does_not_hold(self) -> None:
        """What was written is checked before it takes the text's name; the finding is told."""
        answers = 'run) echo course-match 1;; check) echo "finding: line 2 missing"; exit 8;; *) exit 3;;'
        self.other(f'case "$1" in {answers} esac')
        told = call("run", *SCARCE_WORDS)
        self.assertEqual((told.status, told.err.splitlines()), (tell.FAULTS, [
            "what the run wrote does not hold, and is not kept: run again",
            "finding: line 2 missing",
            "published.txt is what it was before this run.",
        ]))  # fmt: skip
        self.assertEqual(self.read("published.txt"), "the last good text\n")
        self.assertFalse(os.path.exists("manifest.json"))

    def test_none(self) -> None:
        """There is no program."""
        told = call("run", *SCARCE_WORDS)
        self.assertEqual(told.status, tell.NO_PROGRAM)
        self.assertIn("no program", told.err)

    def test_memory(self) -> None:
        """Status 7 is told in words."""
        self.other("echo out of memory; exit 7")
        told = call("run", *SCARCE_WORDS)
        self.assertEqual(told.status, 7)
        self.assertIn("no memory left", told.err)

    def test_an_input_that_changes(self) -> None:
        """A file that changes while the program runs is no input that a manifest can name."""
        self.other("echo '#' >> a.session; exit 0")
        told = call("run", *SCARCE_WORDS, *IN_SPITE)
        self.assertEqual(told.status, tell.FAULTS)
        self.assertIn("changed while the program ran", told.err)
        self.assertEqual(self.read("published.txt"), "the last good text\n")
