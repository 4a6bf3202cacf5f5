"""What was at a student's turns of the aftermarket, in words: `explain`, and the texts of `lists`."""

from __future__ import annotations

import os
import tempfile
import unittest
from dataclasses import replace
from typing import Dict, List
from unittest import mock

from registrar import aftermarket, alone, explain, manifest, reasons, streams
from tests.support import TERM, InFolder, call, needs_program

#: Told by hand. At prices of 0 three want X, which has two seats: at 101 w alone has it, and one seat is free. Y goes to u at 20,
#: and Z to nobody at 6; N has no seat. Turns go w, n, m, u, v, q, t, s. Raised by 10 percent u has 110 and chooses X in place of Y,
#: which q has then; n could have X, but with A it is worth less; m may have but one section; t and s have 5 all the same.
TURNS: Dict[str, str] = {
    "catalogue.csv": "section,course,seats,credits,meetings\n"
    "X,KX,2,1,M0900-1000\nY,KY,1,1,T0900-1000\nZ,KZ,1,1,W0900-1000\nA,KA,9,1,R0900-1000\nN,KN,0,1,F0900-1000\n",
    "roll.csv": "student,budget,credits,courses\n"
    "w,150,9,5\nn,100,9,5\nm,100,9,1\nu,100,9,5\nv,100,9,5\nq,19,9,5\nt,5,9,5\ns,5,9,5\n",
    "settings.json": '{"seed":1,"spread":0,"accept":99,"turns":0,"tabu":5,"patience":5,"steps":[1],"raise":10}\n',
    "a.session": "rate w X 90\nrate n A 50\nrate n X 40\npair n A X -60\nrate m A 95\nrate m X 40\nrate u X 90\nrate u Y 50\n"
    "rate v X 90\nrate q Y 50\nrate q N 40\nrate t Z 10\nrate s Z 10\n",
}
ORDER = "In each pass of the aftermarket turns go by budget, the greatest first: yours is number {} of 8."
NONE_LEFT = "1 of its 2 seats was taken in the second stage; the 1 that was free then went at an earlier turn."


@needs_program
class Turns(InFolder):
    """The market above."""

    def setUp(self) -> None:
        super().setUp()
        for name, text in TURNS.items():
            self.put(name, text)
        self.assertEqual(call("run", "catalogue.csv", "roll.csv", "settings.json", "a.session").status, 0)
        text = self.read("published.txt")
        for line in ("price X 101", "price Y 20", "price Z 6", "turn 1 u [X] ", "turn 1 q [Y] ", "final n [A]", "final v []"):
            self.assertIn(f"\n{line}", text)

    def told(self, student: str, section: str) -> List[str]:
        """What `explain` says in words."""
        told = call("explain", student, section)
        self.assertEqual(told.status, 0, told.err)
        return told.out.split("\n\n", 1)[1].splitlines()

    def test_got_at_a_turn(self) -> None:
        """A seat that was too dear in the second stage."""
        self.assertEqual(self.told("u", "X"), [
            "You won X in the aftermarket; this is why you did not have it before.",
            "(In the second stage you had Y. What the aftermarket changed, your turn lines tell.)",
            "X costs 101. It alone passes your budget of 100.",
            "You got it at your turn of pass 1 of the aftermarket, and have it in the end.",
        ])  # fmt: skip

    def test_no_seat_free(self) -> None:
        """How many went is told, and not to whom."""
        told = self.told("v", "X")
        self.assertEqual(told[1:], [f"No seat was free at any of your 2 turns of the aftermarket: {NONE_LEFT} {ORDER.format(5)}"])

    def test_free_but_too_dear(self) -> None:
        """The price beside the raised budget."""
        self.assertEqual(self.told("t", "Z"), [
            "Z costs 6. It alone passes your budget of 5.",
            "A seat was free at each of your 2 turns of the aftermarket, but it costs 6, more than your raised budget of 5.",
        ])  # fmt: skip

    def test_given_up(self) -> None:
        """It was held; the seat went to somebody else behind."""
        self.assertEqual(self.told("u", "Y"), [
            "Your bundle of the second stage had Y, and your final one has not.",
            "You gave it up at your turn of pass 1 of the aftermarket: it costs 20, and beside what you then chose, X, your raised "
            "budget of 110 left 9. The best with it was then Y, worth 50. What you chose is worth 90, 40 more. No seat was free at "
            "your turn of pass 2: its only seat was taken in the second stage; 1 that was given up since went at an earlier turn. "
            + ORDER.format(4),
        ])  # fmt: skip

    def test_free_and_not_chosen(self) -> None:
        """An adjustment, and a cap; at the next turn the seat is gone."""
        gone = f"No seat was free at your turn of pass 2: {NONE_LEFT}"
        self.assertEqual(self.told("n", "X")[1:], [
            "A seat was free at your turn of pass 1 of the aftermarket, but the adjustments that you gave make what you then chose, A, "
            "worth less with it. The best with it was then X, worth 40. What you chose is worth 50, 10 more. "
            f"{gone} {ORDER.format(2)}",
        ])  # fmt: skip
        self.assertEqual(self.told("m", "X")[1:], [
            "A seat was free at your turn of pass 1 of the aftermarket, but together with what you then chose, A, it would pass your "
            f"cap of 1 section. The best with it was then X, worth 40. What you chose is worth 95, 55 more. {gone} {ORDER.format(3)}",
        ])  # fmt: skip

    def test_no_seats_at_all(self) -> None:
        """A section whose seats are 0."""
        self.assertIn("No seat was free at any of your 2 turns of the aftermarket: it has none.", self.told("q", "N")[-1])

    def test_nothing_to_tell(self) -> None:
        """A section that was not rated, and one that was held all along."""
        self.assertEqual(self.told("v", "Y"), ["You gave Y no rating above 0, so you did not ask for it."])
        self.assertEqual(self.told("w", "X"), ["You have X: your bundle of the second stage has it, and so has your final one."])

    def test_lists(self) -> None:
        """The same in a student's text, with the order once."""
        self.assertEqual(call("lists").status, 0)
        text = self.read("lists/students/v.txt")
        self.assertIn(f"\n  No seat was free at any of your 2 turns of the aftermarket: {NONE_LEFT}\n", text)
        self.assertEqual(text.count(ORDER.format(5)), 1)
        self.assertIn("You have all that you rated highest.", self.read("lists/students/n.txt"))

    def test_own_spelling(self) -> None:
        """Sections are told as the school spells them."""
        self.put("names.csv", "kind,original,name\nsection,GÉNI 1,X\nsection,Öl 3,A\n")
        told = self.told("n", "GÉNI 1")[-1]
        self.assert_told(told, ("what you then chose, Öl 3, worth less", "The best with it was then GÉNI 1, worth 40."))

    def test_a_raised_budget_that_no_roll_has(self) -> None:
        """The program can not be asked of it alone: what the turn's own line proves is told, and no more."""
        with mock.patch.object(alone, "MOST_BASE", 109):
            self.assertIn(
                "A seat was free at your turn of pass 1 of the aftermarket, but the best of what you held and what was free that your "
                "raised budget of 110 buys is A. No seat was free at your turn of pass 2: ", self.told("n", "X")[-1],
            )  # fmt: skip


def term() -> aftermarket.Aftermarket:
    """The aftermarket of examples/term."""
    found = of_term()
    return aftermarket.read(explain.market_of(found), found.settings)


def of_term() -> manifest.Manifest:
    """The files of examples/term."""
    names = ("catalogue.csv", "roll.csv", "settings.json", "published.txt", "desk.session", "web.session")
    return manifest.of_files([os.path.join(TERM, name) for name in names])


class Recounted(unittest.TestCase):
    """The turns of examples/term, counted anew at each line."""

    def test_what_was_free(self) -> None:
        """Who holds a section before a line is counted over all students; the page's tests have the same numbers of n.jones."""
        after = term()
        text = after.market.text
        held = {name: one.sections for name, one in text.bundles.items()}
        given: Dict[str, int] = {}
        for number, line in enumerate(text.turns):
            turn = after.turns[line.student][line.turn_pass - 1]
            self.assertEqual((turn.number, turn.before, turn.line), (number, held[line.student], line))
            for section, row in after.market.sections.items():
                free = row.seats - sum(section in sections for sections in held.values())
                self.assertEqual(after.free(section, number), free)
                self.assertEqual(after.holders[section].before(number), (row.seats - free, given.get(section, 0)))
            for section in set(held[line.student]) - set(line.sections):
                given[section] = given.get(section, 0) + 1
            held[line.student] = line.sections
        self.assertEqual(held, {name: one.sections for name, one in text.finals.items()})
        first, second = after.turns["n.jones"][:2]
        kinds = [after.kind(section, turn) for turn in (first, second) for section in ("MGMT-691-B", "HCMG-841-A")]
        self.assertEqual(kinds, [aftermarket.Kind.FULL, aftermarket.Kind.KEPT, aftermarket.Kind.GOT, aftermarket.Kind.GAVE])
        self.assertEqual(after.raised("n.jones"), 4996)

    def test_no_turns(self) -> None:
        """Of a text without turns nothing is told, and nothing asked."""
        after = term()
        after = replace(after, turns={})
        reason = reasons.Reason("n.jones", "FNCE-717-A", ("beside", "price"), ("FNCE-717-A",), 100, 160)
        self.assertEqual(aftermarket.in_words(after, reason, {}), "")
        self.assertFalse(after.was_full("n.jones", "FNCE-717-A"))

    def test_caps(self) -> None:
        """Reasons by credits, made by hand: each in the words of the second stage."""
        after = term()
        name, section = "n.jones", "LGST-806-B"
        second = reasons.Reason(name, section, ("beside", "price"), (section,), 86, 174)
        for why, wanted in (
            (reasons.Reason(name, section, ("alone", "credits")), "but it alone passes your cap of 8 credits. "),
            (
                reasons.Reason(name, section, ("beside", "credits"), (section,), 260, 0),
                "but together with what you then chose, ACCT-611-B, FNCE-601-A and HCMG-841-A, it would pass your cap of 8 credits. "
                "The best with it was then LGST-806-B, worth 260. What you chose is worth 260, as much. ",
            ),
        ):
            told = aftermarket.in_words(after, second, {(section, after.turns[name][0].number): why})
            self.assertIn(wanted, told)


@needs_program
class Term(unittest.TestCase):
    """Students of examples/term, by the program."""

    def told(self, student: str, *sections: str) -> List[str]:
        """What is said of the turns of a student."""
        after, found = term(), of_term()
        with tempfile.TemporaryDirectory() as folder:
            room = alone.room(folder, after.market, streams.in_order(after.market.text.order, found.sessions))
            alone.enter(room, student)
            answers = [alone.explain(room, student, section) for section in sections]
            later = aftermarket.ask(after, room, student, sections)
        return [aftermarket.in_words(after, reasons.read_reason(one.lines), later) for one in answers]

    def test_n_jones(self) -> None:
        """Full at each turn; free, too dear, and gone; full, free and full; and the same as in the second stage."""
        self.assertEqual(self.told("n.jones", "FNCE-717-A", "LGST-806-B", "LGST-806-A", "FNCE-601-B"), [
            "No seat was free at any of your 5 turns of the aftermarket: 4 of its 12 seats were taken in the second stage; the 8 that "
            "were free then and 1 that was given up since went at earlier turns.",
            "A seat was free at your turn of pass 1 of the aftermarket, but it costs 2670, and beside what you then chose, ACCT-611-B, "
            "FNCE-601-A and HCMG-841-A, your raised budget of 4996 left 1082. The best with it was then ACCT-611-B, LGST-806-B and "
            "HCMG-841-A, worth 246. What you chose is worth 260, 14 more. No seat was free at your turns of passes 2 to 5: all of its "
            "9 seats were taken in the second stage; 4 that were given up since went at earlier turns.",
            "No seat was free at your turn of pass 1 of the aftermarket: all of its 9 seats were taken in the second stage; 6 that were "
            "given up since went at earlier turns. A seat was free at your turn of pass 2, but it costs 2670, and beside what you then "
            "chose, ACCT-611-B, FNCE-601-A and MGMT-691-B, your raised budget of 4996 left 66. The best with it was then ACCT-611-B, "
            "LGST-806-A and HCMG-841-A, worth 248. What you chose is worth 262, 14 more. No seat was free at your turns of passes 3 to 5.",
            "A seat was free at your turn of pass 1 of the aftermarket, but with your raised budget of 4996 the same holds. A seat was "
            "free at your turns of passes 2 to 5, but it is of the same course as FNCE-601-A, which you then chose. The best with it "
            "was then ACCT-611-B, FNCE-601-B and MGMT-691-B, worth 238. What you chose is worth 262, 24 more.",
        ])  # fmt: skip


if __name__ == "__main__":
    unittest.main()
