"""`lists`, `summary` and `settings`."""

import json
import os
import random
import subprocess
import sys
import unittest
import xml.etree.ElementTree
from unittest import mock

from registrar import alone, explain, figures, manifest, plots, program, published, reasons, sheet, streams, tell
from tests.support import IN_SPITE, SCARCE, SCARCE_WORDS, TERM, InFolder, call, needs_program

TERM_FILES = [
    os.path.join(TERM, name)
    for name in ("catalogue.csv", "roll.csv", "settings.json", "published.txt", "desk.session", "web.session")
]
VERIFY = os.path.join(program.TOP, "verify", "verify.py")


def term() -> reasons.Market:
    """The market of examples/term."""
    return explain.market_of(manifest.of_files(TERM_FILES))


@needs_program
class Lists(InFolder):
    """The lists of the scarce market, told by hand: X has one seat, Y has two."""

    def setUp(self) -> None:
        """A text, and who of the two has X."""
        super().setUp()
        self.run_scarce()
        text = self.read("published.txt")
        self.winner, self.loser = ("v", "u") if "budget u 100\n" in text else ("u", "v")

    def test_tables(self) -> None:
        """Each table, and who wanted what."""
        told = call("lists")
        self.assertEqual(told.status, 0)
        self.assertEqual(self.read("lists/rosters.csv").split("\r\n"), ["section,student", f"X,{self.winner}", "Y,u", "Y,v", ""])
        price = published.read_published("published.txt").prices["X"]
        rows = ["section,price,seats,used,wanted", f"X,{price},1,1,2", "Y,0,2,2,2", ""]
        self.assertEqual(self.read("lists/sections.csv").split("\r\n"), rows)
        rows = self.read("lists/students.csv").splitlines()
        self.assertEqual(rows[0], "student,sections,credits,spent,left")
        self.assertIn(f"{self.winner},X; Y,2,{price},{110 - price}", rows)
        self.assertIn(f"{self.loser},Y,1,0,100", rows)

    def test_a_book(self) -> None:
        """Where .xlsx can be written, the three tables are one book too."""
        self.assertEqual(call("lists", "--no-reasons").status, 0)
        self.assertEqual(os.path.exists("lists/lists.xlsx"), sheet.has_xlsx())

    def test_own_spelling(self) -> None:
        """Where `import` left names.csv, the tables have the school's own codes."""
        self.put("names.csv", "kind,original,name\nsection,GÉNI 1,X\nstudent,Ü 7,u\n")
        self.assertEqual(call("lists", "--no-reasons").status, 0)
        self.assert_told(self.read("lists/rosters.csv"), ("GÉNI 1,", "Y,Ü 7"))

    def test_texts_of_an_earlier_run(self) -> None:
        """A text of somebody who is not on this roll is told, and left."""
        os.makedirs("lists/students")
        self.put("lists/students/w.txt", "an earlier text")
        self.assertIn("1 text of nobody on this roll, such as w.txt", call("lists", "--no-reasons").err)
        self.assertTrue(os.path.exists("lists/students/w.txt"))

    def test_texts(self) -> None:
        """The loser's text has the reason; the winner needs none."""
        self.assertEqual(call("lists").status, 0)
        text = self.read(f"lists/students/{self.loser}.txt")
        self.assert_told(text, ("You have Y: 1 credit.", "It alone passes your budget of 100.", f"budget {self.loser} 100"))
        self.assertIn("You have all that you rated highest.", self.read(f"lists/students/{self.winner}.txt"))

    def test_a_student_without_wishes(self) -> None:
        """A student who rated nothing above 0 has not what it rated highest."""
        self.put("b.session", "rate v X 0\nrate v Z 9\n")
        self.assertEqual(call("run", *SCARCE_WORDS, *IN_SPITE).status, 0)
        self.assertEqual(call("lists").status, 0)
        text = self.read("lists/students/v.txt")
        self.assertIn("No wish of yours was heard: at the end no section has a rating of yours above 0.", text)
        self.assertNotIn("You have all", text)
        self.assertIn("You have all that you rated highest.", self.read("lists/students/u.txt"))

    def test_own_lines(self) -> None:
        """Beside each text stands what the student said, in the text's order and up to a `close`; the second checker takes it."""
        self.put("a.session", "rate u X 90\n# note\nrate  u Y 50\nnone\nrate v Y 40\nclose\nrate u Y 7\n")
        self.put("b.session", "# nothing\n")
        self.assertEqual(call("run", *SCARCE_WORDS, *IN_SPITE).status, 0)
        self.assertEqual(call("lists", "--no-reasons").status, 0)
        said = self.read("lists/students/u.session").splitlines()
        self.assertEqual(said, ["# What u said, in the order in which the desk took it.", "rate u X 90", "rate u Y 50"])
        self.assertEqual(self.read("lists/students/v.session").splitlines()[1:], ["rate v Y 40"])
        for name, bundle in (("u", "[X,Y]"), ("v", "[Y]")):
            words = ["--own", name, *SCARCE_WORDS[:3], "published.txt", f"lists/students/{name}.session"]
            done = subprocess.run([sys.executable, VERIFY, *words], stdout=subprocess.PIPE, check=False, universal_newlines=True)
            self.assertEqual(done.returncode, 0, done.stdout)
            self.assertIn(f"holds: final {name} {bundle}\n", done.stdout)

    def test_no_reasons(self) -> None:
        """`--no-reasons` leaves them out, and one student alone may be asked for."""
        self.assertEqual(call("lists", "--no-reasons", "--student", self.loser).status, 0)
        self.assertEqual(sorted(os.listdir("lists/students")), [self.loser + ".session", self.loser + ".txt"])
        self.assertNotIn("rated higher", self.read(f"lists/students/{self.loser}.txt"))
        self.assertEqual(call("lists", "--student", "w").status, tell.FAULTS)

    def test_a_budget_that_no_roll_has(self) -> None:
        """Where a drawn budget is above the greatest base of a roll, the whole market is asked."""
        with mock.patch.object(alone, "MOST_BASE", 0):
            self.test_texts()

    def test_no_file_that_is_read_is_written_over(self) -> None:
        """A roll of the name `students.csv` stays where the lists would go into its folder."""
        os.rename("roll.csv", "students.csv")
        self.assertEqual(call("run", SCARCE_WORDS[0], "students.csv", *SCARCE_WORDS[2:]).status, 0)
        told = call("lists", "--out", ".")
        self.assertEqual(told.status, tell.USAGE)
        self.assertIn("students.csv is the roll that this command reads", told.err)
        self.assertEqual(self.read("students.csv"), SCARCE["roll.csv"])
        self.assertFalse(os.path.exists("rosters.csv"))

    def test_a_folder_that_can_not_be_made(self) -> None:
        """A file stands in its place, or in that of a folder above it."""
        for folder in ("roll.csv", "roll.csv/lists"):
            told = call("lists", "--out", folder)
            self.assertEqual(told.status, tell.FAULTS)
            self.assertRegex(told.err, rf"^{folder}(/students)? can not be written: ")

    def test_a_text_that_does_not_hold(self) -> None:
        """No lists come of it."""
        self.put("published.txt", self.read("published.txt").replace("used X 1 1", "used X 0 1"))
        self.assertEqual(call("lists").status, tell.FAULTS)
        self.assertFalse(os.path.exists("lists"))

    def test_summary(self) -> None:
        """The page has each figure, and each plot is XML with a title and a text alternative."""
        self.assertEqual(call("summary").status, 0)
        page = self.read("summary.html")
        self.assert_told(page, ("Seats taken in the end", "In the end 1 student envies somebody", "Clearing error by stage"))
        for one in page.split("<svg")[1:]:
            plot = xml.etree.ElementTree.fromstring("<svg" + one.split("</svg>")[0] + "</svg>")
            self.assertEqual(plot.get("role"), "img")
            self.assertTrue(plot.get("aria-label"))
        self.assertEqual(page.count("<svg"), 9)
        self.assertEqual(page.count("</svg><table>"), 9)
        self.assertEqual(call("summary", "--no-audit").status, 0)
        self.assertNotIn("envies", self.read("summary.html"))


@needs_program
class Settings(InFolder):
    """At price 0 the error is 1; a search finds 0."""

    def test_the_table(self) -> None:
        """Both numbers of turns, the least error first read with accept 0."""
        self.scarce()
        told = call("settings", *SCARCE_WORDS, "--turns", "0,20")
        self.assertEqual(told.status, 0)
        rows = [line.split() for line in told.out.splitlines() if line.strip()[:1].isdigit()]
        self.assertEqual(rows[0][:3] + rows[0][5:8], ["1", "0", "0", "no", "prices:", "least"])
        self.assertEqual(rows[1][:3] + rows[1][5:6], ["2", "0", "1", "1"])
        self.assertEqual(rows[2][:3] + rows[2][5:8], ["3", "20", "0", "0", "3", "3"])
        self.assertIn("--take 20 0", told.out)

    def test_writing(self) -> None:
        """The settings of the row of least error, or those that are taken, with the rest as it was."""
        self.scarce()
        before = json.loads(self.read("settings.json"))
        self.assertEqual(call("settings", *SCARCE_WORDS, "--turns", "0", "--write", "new.json").status, 0)
        self.assertEqual(json.loads(self.read("new.json")), {**before, "turns": 0, "accept": 1})
        self.assertEqual(call("settings", *SCARCE_WORDS, "--take", "30", "2", "--write", "new.json").status, 0)
        self.assertEqual(json.loads(self.read("new.json")), {**before, "turns": 30, "accept": 2})
        self.assertEqual(call("settings", *SCARCE_WORDS, "--take", "30", "2").status, tell.USAGE)

    def test_no_file_that_is_read_is_written_over(self) -> None:
        """But for the settings, which may be written anew."""
        self.scarce()
        for words in (["--take", "30", "2"], ["--turns", "0"]):
            told = call("settings", *SCARCE_WORDS, *words, "--write", "b.session")
            self.assertEqual((told.status, told.out), (tell.USAGE, ""))
            self.assertIn("b.session is the session that this command reads", told.err)
        self.assertEqual(self.read("b.session"), SCARCE["b.session"])
        self.assertEqual(call("settings", *SCARCE_WORDS, "--take", "30", "2", "--write", "settings.json").status, 0)

    def test_refusals(self) -> None:
        """A fault of a table ends the trials with the program's status."""
        self.scarce()
        self.put("roll.csv", "student,budget,credits,courses\nu,1e2,4,2\n")
        told = call("settings", *SCARCE_WORDS)
        self.assertEqual(told.status, 3)
        self.assertIn("roll.csv, row 2 (line 2), column 2 'budget'", told.err)
        self.assertEqual(call("settings", *SCARCE_WORDS, "--turns", "a").status, tell.USAGE)

    def test_numbers_out_of_their_ranges(self) -> None:
        """FORMATS, "Settings": at most 10,000 turns, and `accept` from 0 to 1,000,000,000,000."""
        self.scarce()
        write = ["--write", "new.json"]
        for words, wanted in (
            (["--take", "20000", "5", *write], "20000 turns are more than 10000"),
            (["--take", "20", "-5", *write], "'-5' is no whole number from 0 to 1000000000000"),
            (["--take", "20", "1000000000001", *write], "'1000000000001' is no whole number"),
            (["--turns", "20,10001"], "'10001' is no whole number from 0 to 10000"),
            (["--accept", "1000000000001"], "'1000000000001' is no whole number"),
        ):
            with self.subTest(words):
                told = call("settings", *SCARCE_WORDS, *words)
                self.assertEqual(told.status, tell.USAGE)
                self.assertIn(wanted, told.err)
        self.assertFalse(os.path.exists("new.json"))
        self.assertEqual(call("settings", *SCARCE_WORDS, "--take", "10000", "1000000000000", *write).status, 0)


class Figures(unittest.TestCase):
    """Figures of examples/term, against numbers of its text and its audit."""

    def test_choices(self) -> None:
        """No more students have a choice than there are, and the aftermarket's last pass changes nothing."""
        market = term()
        self.assertTrue(all(0 <= number <= 100 for _, number in figures.choices(market)))
        self.assertEqual(figures.changes_by_pass(market.text)[-1], ("pass 5", 0))
        self.assertIn("n.jones", figures.changed(market.text))
        self.assertEqual(figures.median([3, 1, 2]), 2)

    def test_error_of_the_end(self) -> None:
        """By hand: the squares of the free seats of sections with a price, from the lines `price` and `used`."""
        text = term().text
        by_hand = 0
        for line in text.lines:
            words = line.split(" ")
            if words[0] == "used" and text.prices[words[1]]:
                by_hand += (int(words[3]) - int(words[2])) ** 2
        self.assertEqual(figures.errors_by_stage(text)[2], ("aftermarket", by_hand))
        self.assertEqual(figures.errors_by_stage(text)[0], ("search", 59))

    def test_plots_of_nothing(self) -> None:
        """A market without sections or students has plots all the same."""
        axes = plots.Axes("a <title>", 'a "text"', "x", "y")
        for plot in (plots.bars(axes, []), plots.histogram(axes, []), plots.line(axes, []), plots.line(axes, [(1, 2), (3, 4)])):
            self.assertEqual(xml.etree.ElementTree.fromstring(plot).get("role"), "img")

    def test_histogram(self) -> None:
        """Each value is counted once."""
        plot = plots.histogram(plots.Axes("t", "t", "x", "y"), [5, 5, 7, 11], 4)
        self.assertEqual(sum(int(part.split("<")[0]) for part in plot.split(": ")[1:]), 4)


@needs_program
class Reasons(InFolder):
    """The program's `explain` in a market of one student, against that in the whole one: a drawn market with few seats."""

    STUDENTS = 10
    SECTIONS = 8

    def draw(self) -> None:
        """A market with a seed of its own: two sections a course, clashes, both halves of the term, caps that bind."""
        dice = random.Random(52)
        meetings = ("M0900-1000", "M0930-1030;W0900-1000", "T0900-1000", "", "M1000-1100")
        sections = [
            f"S{j},K{j // 2},{dice.randint(1, 4)},{dice.randint(1, 4)},{dice.choice(meetings)},{dice.choice(('1', '2', '12'))}"
            for j in range(self.SECTIONS)
        ]
        roll = [f"p{i},100,{dice.randint(3, 9)},{dice.randint(1, 3)}" for i in range(self.STUDENTS)]
        wishes = [
            f"rate p{i} S{j} {dice.choice((0, dice.randint(1, 100)))}"
            for i in range(self.STUDENTS) for j in range(self.SECTIONS) if dice.random() < 0.7
        ]
        wishes += [f"pair p{i} S0 S{dice.randint(1, 7)} {dice.choice((-150, 20))}" for i in range(self.STUDENTS)]
        self.put("catalogue.csv", "section,course,seats,credits,meetings,parts\n" + "\n".join(sections) + "\n")
        self.put("roll.csv", "student,budget,credits,courses\n" + "\n".join(roll) + "\n")
        self.put("a.session", "\n".join(wishes) + "\n")
        self.put("settings.json", SCARCE["settings.json"].replace('"accept": 0', '"accept": 1000'))

    def test_alone(self) -> None:
        """Each student with each section that it named: the same bytes."""
        self.draw()
        self.assertEqual(call("run", "catalogue.csv", "roll.csv", "settings.json", "a.session").status, 0)
        found = manifest.read()
        market = explain.market_of(found)
        os.mkdir("room")
        room = alone.room("room", market, streams.in_order(market.text.order, found.sessions))
        kinds = set()
        for name in market.students:
            alone.enter(room, name)
            for section in (one.code for one in alone.named_by(room, name)):
                answer = program.call(manifest.explain_words(found, name, section))
                self.assertEqual(alone.explain(room, name, section).output, answer.output, f"{name} {section}")
                kinds.add(reasons.read_reason(answer.lines).words[0])
        self.assertLessEqual({"held", "unrated", "alone", "clash", "beside"}, kinds)
