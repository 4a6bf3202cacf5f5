"""How far a rank reaches, and the spread that a roll can bear; reckoned by hand."""

from __future__ import annotations

import json
import os
import unittest

from registrar import spread, tables
from tests.support import SCARCE_WORDS, TERM, InFolder, call, needs_program


def student(number: int, budget: int, carry: int = 0) -> tables.Student:
    """A student of a roll."""
    return tables.Student(f"s{number}", budget, 8, 5, carry, "roll.csv", number + 2, number + 2)


class Spread(unittest.TestCase):
    """The rule."""

    def test_900_students_of_two_bases(self) -> None:
        """899 ranks reach 6293 tokens with spread 7; bases of 4500 and 5000 bear none, 4500 and 5400 bear 1."""
        students = [student(at, 4500 if at < 600 else 5000) for at in range(900)]
        self.assertEqual(spread.reach(students, 7), 6293)
        self.assertIsNone(spread.greatest(students))
        told = "\n".join(spread.in_words(students, 7))
        self.assertIn("base 4500, 600 students (4500): budgets up to 10793\n", told)
        self.assertIn("base 5000, 300 students (5000): budgets up to 11293\n", told)
        self.assertIn("a student of base 4500 may have more than one of base 5000\n", told)
        self.assertIn("no spread from 1 on keeps each base below the next: with 1 the highest rank has 899", told)
        self.assertIn("nearest two are 500 apart. Bases that are 900 apart, carry counted, would allow 1", told)
        wider = [student(at, 4500 if at < 600 else 5400) for at in range(900)]
        self.assertEqual(spread.greatest(wider), 1)
        self.assertEqual(spread.crossed(wider, 1), [])
        self.assertEqual(len(spread.crossed(wider, 2)), 1)

    def test_the_term(self) -> None:
        """Of 100 students one has 4500 and 350 carried over: 4850 and 99 are less than 5000, with 198 more."""
        students = tables.read_roll(os.path.join(TERM, "roll.csv"))
        self.assertEqual(spread.greatest(students), 1)
        self.assertIn("(7 * 99)", spread.in_words(students, 7)[0])

    def test_what_is_carried_over_counts(self) -> None:
        """Two students: of 100 and 50 carried, and of 160: a spread of 9 keeps 159 below 160, and 10 does not."""
        students = [student(0, 100, 50), student(1, 160)]
        self.assertEqual(spread.greatest(students), 9)
        self.assertIsNone(spread.greatest([student(0, 100, 60), student(1, 160)]))
        self.assertEqual(spread.greatest([student(0, 100, 60), student(1, 160, 11)]), 10)

    def test_one_base_and_nobody(self) -> None:
        self.assertEqual(len(spread.in_words([student(0, 100), student(1, 100)], 3)), 2)
        self.assertEqual(spread.in_words([], 3), [])
        self.assertEqual(spread.greatest([student(0, 100)]), 49)


@needs_program
class Settings(InFolder):
    """`settings` says it, and writes the spread that is chosen."""

    def test_settings(self) -> None:
        self.scarce()
        self.put("roll.csv", "student,budget,credits,courses\nu,100,4,2\nv,105,4,2\n")
        told = call("settings", *SCARCE_WORDS)
        self.assertEqual(told.status, 0, told.err)
        self.assert_told(
            told.out,
            (
                "spread 10: of 2 students the highest rank has 10 tokens more than the lowest (10 * 1)\n",
                "a student of base 100 may have more than one of base 105\n",
                "the greatest spread at which the highest rank of a base stays below the next base: 4\n",
            ),
        )
        told = call("settings", *SCARCE_WORDS, "--spread", "4", "--write", "new.json")
        self.assertEqual(told.status, 0, told.err)
        self.assertNotIn("may have more than", told.out)
        self.assertEqual(json.loads(self.read("new.json"))["spread"], 4)
        told = call("settings", *SCARCE_WORDS, "--spread", "3", "--take", "5", "0", "--write", "new.json")
        self.assertEqual((told.status, json.loads(self.read("new.json"))["spread"]), (0, 3))
        self.assertEqual(call("settings", *SCARCE_WORDS, "--spread", "50").status, 64)


if __name__ == "__main__":
    unittest.main()
