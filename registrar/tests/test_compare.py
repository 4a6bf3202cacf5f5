"""`compare`: of the scarce market, told by hand. X has one seat and then two; Y has two."""

from __future__ import annotations

import csv
import os
import re
import unittest
import xml.etree.ElementTree

from registrar import manifest, measures, program, tell
from tests.support import IN_SPITE, SCARCE, SCARCE_WORDS, InFolder, call, needs_program

MAPPING = (
    "[catalogue]\nfile = timetable.csv\nsection = code\n"
    "[roll]\nfile = register.csv\nstudent = id\nname = called\n"
)
MORE = ["more.csv", *SCARCE_WORDS[1:]]


class TwoRuns(InFolder):
    """A test with two runs of the scarce market: with one seat in X, and with two."""

    def setUp(self) -> None:
        super().setUp()
        self.run_scarce()
        self.put("more.csv", SCARCE["catalogue.csv"].replace("X,KX,1,", "X,KX,2,"))
        os.mkdir("more")
        self.assertEqual(call("run", *MORE, "--text", "more/published.txt").status, 0)
        text = self.read("published.txt")
        self.winner, self.loser = ("v", "u") if "budget u 100\n" in text else ("u", "v")
        self.put("mapping.ini", MAPPING)
        self.put("timetable.csv", "code\nX\nY\n")
        self.put("register.csv", "id,called,Year\nu,Uma,1\nv,Vic,10\n")
        # What X and Y are worth together, and Y alone, by the own ratings.
        self.both, self.alone = {"u": (140, 50), "v": (120, 40)}[self.loser]

    def rows(self, name: str) -> list[dict[str, str]]:
        """The rows of a table."""
        with open(name, encoding="utf-8-sig", newline="") as file:
            return list(csv.DictReader(file))


@needs_program
class Compare(TwoRuns):
    """Who gained and who lost."""

    def test_who_gained(self) -> None:
        told = call("compare", "manifest.json", "more/manifest.json", "--out", "out")
        self.assertEqual(told.status, 0, told.err)
        self.assert_told(
            told.out,
            (
                "  X: seats 1 in A, 2 in B\n",
                "By their own ratings 1 of 2 students gained, 0 lost, and for 1 it is worth as much (0 of them hold "
                "other sections).",
                f"gained: {self.loser} from {self.alone} to {self.both}: nothing for X\n",
                "out: compare.html, students.csv, sections.csv, groups.csv",
            ),
        )
        found = [re.split("  +", line.strip()) for line in told.out.splitlines()]
        figures = {cells[0]: cells[1:] for cells in found}
        self.assertEqual(figures["students with a first choice"], ["1", "2"])
        self.assertEqual(figures["sections with a price"], ["1", "0"])
        self.assertEqual(figures["students who envy somebody in the end"], ["1", "0"])
        middle = (100 + 100 * self.alone / self.both) / 2
        self.assertEqual(figures["share of the best bundle, median"], [f"{middle:.1f} %", "100.0 %"])
        rows = {row["student"]: row for row in self.rows("out/students.csv")}
        self.assertEqual(rows[self.loser]["change"], "gained")
        self.assertEqual(rows[self.loser]["share A"], f"{100 * self.alone / self.both:.1f} %")
        self.assertEqual(rows[self.loser]["share B"], "100.0 %")
        self.assertEqual((rows[self.loser]["sections A"], rows[self.loser]["sections B"]), ("Y", "X; Y"))
        self.assertEqual(rows[self.winner]["change"], "as before")
        sections = self.rows("out/sections.csv")
        named = ("section", "seats A", "seats B", "used A", "used B")
        self.assertEqual([tuple(row[name] for name in named) for row in sections],
                         [("X", "1", "2", "1", "2"), ("Y", "2", "2", "2", "2")])  # fmt: skip
        page = self.read("out/compare.html").split("\n", 1)[1]
        xml.etree.ElementTree.fromstring(page.replace('<meta charset="utf-8">', ""))

    def test_who_lost(self) -> None:
        told = call("compare", "more/manifest.json", "manifest.json")
        self.assertEqual(told.status, 0, told.err)
        self.assertIn(f"lost: {self.loser} from {self.both} to {self.alone}: X for nothing\n", told.out)

    def test_a_run_beside_itself(self) -> None:
        told = call("compare", "manifest.json", "manifest.json", "--no-audit")
        self.assertEqual(told.status, 0, told.err)
        self.assertIn("  the inputs say the same\n", told.out)
        self.assertIn("0 of 2 students gained, 0 lost, and for 2 it is worth as much", told.out)
        self.assertNotIn("envy", told.out)

    def test_groups_with_names(self) -> None:
        words = ("compare", "manifest.json", "more/manifest.json", "--mapping", "mapping.ini", "--by", "Year")
        told = call(*words, "--least", "1")
        self.assertEqual(told.status, 0, told.err)
        names = {"u": "Uma", "v": "Vic"}
        self.assertIn(f"gained: {self.loser} ({names[self.loser]}) from ", told.out)
        rows = [line.split()[:5] for line in told.out.splitlines()]
        years = {"u": "1", "v": "10"}
        self.assertIn([years[self.loser], "1", "1", "0", "0"], rows)
        self.assertIn([years[self.winner], "1", "0", "0", "1"], rows)
        self.assertEqual([row[0] for row in rows if row and row[0] in ("1", "10", "all")], ["1", "10", "all"])
        told = call(*words)
        self.assertIn("(groups of fewer than 5)", told.out)
        self.assertNotIn("\n10 ", told.out)

    def test_other_wishes_and_other_students(self) -> None:
        self.put("b.session", "rate v X 70\nrate v Y 40\n")
        self.put("roll.csv", "student,budget,credits,courses\nv,100,4,2\nw,100,4,2\n")
        self.assertEqual(call("run", *MORE, "--text", "more/published.txt", *IN_SPITE).status, 0)
        self.put("roll.csv", SCARCE["roll.csv"])
        self.put("b.session", SCARCE["b.session"])
        told = call("compare", "manifest.json", "more/manifest.json")
        self.assertEqual(told.status, tell.FAULTS)
        self.assert_told(told.err, ("by more/manifest.json:", "roll.csv (roll) has changed since the run"))
        one, other = self.other_run(), self.other_run("w,100,4,2\n", "rate v X 70\n")
        told = call("compare", one, other)
        self.assertEqual(told.status, 0, told.err)
        self.assert_told(
            told.out,
            (
                "1 student is in A alone, 1 in B alone",
                "1 student has other wishes in B than in A",
                "0 of 1 student gained, 0 lost, and for 0 it is worth as much (0 of them hold other "
                "sections); 1 with other wishes",
            ),
        )

    def other_run(self, second: str = "u,100,4,2\n", wish: str = "rate v X 80\n") -> str:
        """A run in a folder of its own, of v and a second student; its manifest."""
        folder = "of-" + second[0]
        os.mkdir(folder)
        for name, text in SCARCE.items():
            self.put(os.path.join(folder, name), text)
        self.put(f"{folder}/roll.csv", "student,budget,credits,courses\nv,100,4,2\n" + second)
        self.put(f"{folder}/b.session", wish)
        words = [os.path.join(folder, name) for name in SCARCE_WORDS]
        self.assertEqual(call("run", *words, "--text", f"{folder}/published.txt", *IN_SPITE).status, 0)
        return f"{folder}/manifest.json"

    def test_words_that_go_together(self) -> None:
        told = call("compare", "manifest.json", "more/manifest.json", "--by", "Year")
        self.assertEqual(told.status, tell.USAGE)
        self.assertIn("--by needs --mapping", told.err)
        told = call("compare", "manifest.json", "more/manifest.json", "--mapping", "mapping.ini", "--by", "Yaer")
        self.assertEqual(told.status, tell.FAULTS)
        self.assertIn("nearest: year", told.out)

    def test_a_text_that_does_not_hold(self) -> None:
        text = self.read("published.txt").replace(f"final {self.winner} [X,Y]", f"final {self.winner} [Y]")
        self.put("published.txt", text)
        kept = self.read("manifest.json")
        before = manifest.read("manifest.json", verify=False).text_sum
        self.put("manifest.json", kept.replace(before, program.sha256("published.txt")))
        told = call("compare", "manifest.json", "more/manifest.json")
        self.assertEqual(told.status, 8)
        self.assertIn("published.txt does not hold", told.err)


@needs_program
class Wishes(TwoRuns):
    """What bundles are worth, with adjustments."""

    def test_pairs_count_where_both_are_held(self) -> None:
        self.put("a.session", "rate u X 90\nrate u Y 50\npair u X Y -30\npair u X X 5\n")
        self.assertEqual(call("run", *MORE, "--text", "more/published.txt").status, 0)
        run = measures.measured(manifest.read("more/manifest.json"), 1, False)
        self.assertEqual(run.wishes.worth("u", ("X", "Y")), 110)
        self.assertEqual(run.wishes.worth("u", ("X",)), 90)
        self.assertEqual(run.wishes.worth("v", ("X", "Y")), 120)
        self.assertEqual(run.best, {"u": 110, "v": 120})
        self.assertEqual(run.share("u"), 100)

    def test_somebody_who_wants_nothing_has_no_share(self) -> None:
        self.put("b.session", "rate v X 80\nclear v\n")
        self.assertEqual(call("run", *MORE, "--text", "more/published.txt", *IN_SPITE).status, 0)
        run = measures.measured(manifest.read("more/manifest.json"), 1)
        self.assertIsNone(run.share("v"))
        self.assertEqual(measures.group(run, "all", run.students).shares, (100.0,))


class Groups(unittest.TestCase):
    """Which students are put together."""

    def test_parted(self) -> None:
        groups = {"a": "2", "b": "10", "c": "Law", "d": "2", "e": ""}
        each = {"2": ["a", "d"], "10": ["b"], "Law": ["c"], "(blank)": ["e"]}
        self.assertEqual(measures.parted(groups, list("abcde"), 1), each)
        self.assertEqual(
            measures.parted(groups, list("abcde"), 2), {"2": ["a", "d"], "(groups of fewer than 2)": ["b", "c", "e"]}
        )


if __name__ == "__main__":
    unittest.main()
