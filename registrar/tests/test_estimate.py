"""`estimate`: what runs of few turns tell of a longer one, and what is not known."""

from __future__ import annotations

import json
import unittest

from registrar import estimate, tell
from registrar.estimate import Pace, Sample
from tests.support import SCARCE_WORDS, InFolder, call, needs_program

SIZE = {"workers": 2, "sections": 30, "students": 100}


class Words(unittest.TestCase):
    """By samples that are given."""

    SAMPLES = (Sample(0, 1.0, 900), Sample(1, 1.5, 400), Sample(2, 2.0, 90))

    def test_numbers_of_turns(self) -> None:
        self.assertEqual(estimate.numbers(0), [0])
        self.assertEqual(estimate.numbers(1), [0, 1])
        self.assertEqual(estimate.numbers(11), [0, 1, 2, 4, 8, 11])

    def test_a_pace(self) -> None:
        """Two turns took one second, and 100 students were looked at in each: 200 a second."""
        pace = estimate.pace_of(self.SAMPLES)
        self.assertEqual(pace, Pace(1.0, 0.5))
        told = estimate.pace_in_words(self.SAMPLES, pace, 100)
        self.assertEqual(told, ["a turn took 0.500 s: 200 students a second were looked at, each once a turn"])
        self.assertEqual(estimate.pace_of(self.SAMPLES[:1]), Pace(1.0, 0.0))
        self.assertIn("too little", estimate.pace_in_words(self.SAMPLES[:1], Pace(1.0, 0.0), 100)[0])

    def test_an_error_that_was_seen_is_sure(self) -> None:
        told = "\n".join(estimate.in_words(self.SAMPLES, Pace(1.0, 0.5), 120, 90, 3.0))
        self.assertIn("by turn 2 the search sees an error of 90: with accept 90 it ends by then", told)
        self.assertIn("the whole run took 3.0 s", told)
        self.assertNotIn("estimate", told)

    def test_an_error_that_was_not_seen_is_not_known(self) -> None:
        """18 further turns of half a second each, and the 3 s of the whole run."""
        told = "\n".join(estimate.in_words(self.SAMPLES, Pace(1.0, 0.5), 20, 89, 3.0))
        self.assertIn("by turn 2 of 20 the least error is 90, and accept is 89", told)
        self.assertIn("whether a later turn comes to that is not known", told)
        self.assertIn("with all 20 turns it takes at most about 12 s: an estimate", told)

    def test_all_turns_are_too_few(self) -> None:
        told = "\n".join(estimate.in_words(self.SAMPLES, Pace(1.0, 0.5), 2, 89, 3.0))
        self.assertIn("so the run ends with status 5", told)


@needs_program
class Estimate(InFolder):
    """Of the scarce market: at prices of 0 the error is 1, and the search comes to 0."""

    def test_until_the_error_is_accepted(self) -> None:
        self.scarce()
        told = call("estimate", *SCARCE_WORDS)
        self.assertEqual(told.status, 0, told.err)
        rows = [line.split() for line in told.out.splitlines() if line.strip()[:1].isdigit()]
        self.assertEqual((rows[0][0], rows[0][-1], rows[-1][-1]), ("0", "1", "0"))
        self.assertIn(f"by turn {rows[-1][0]} the search sees an error of 0: with accept 0 it ends by then", told.out)
        self.assertEqual(call("run", *SCARCE_WORDS).status, 0)
        self.assertIn("the last runs of this size took ", call("estimate", *SCARCE_WORDS).out)

    def test_no_file_but_that_of_times_is_written(self) -> None:
        self.scarce()
        settings = self.read("settings.json").replace('"turns": 20', '"turns": 0')
        self.put("settings.json", settings)
        told = call("estimate", *SCARCE_WORDS)
        self.assertEqual(told.status, 0, told.err)
        self.assertIn("by turn 0 of 0 the least error is 1, and accept is 0\nso the run ends with status 5", told.out)
        self.assertEqual(self.read("settings.json"), settings)
        kept = json.loads(self.read(tell.TIMES))
        self.assertEqual(kept[0]["estimate"]["students"], 2)

    def test_faults_are_the_program_s(self) -> None:
        self.scarce()
        self.put("roll.csv", "student,budget,credits,courses\nu,-1,4,2\n")
        told = call("estimate", *SCARCE_WORDS)
        self.assertEqual(told.status, 3)
        self.assertIn("roll.csv, row 2 (line 2), column 2 'budget'", told.err)
        self.put("settings.json", self.read("settings.json").replace('"accept": 0', '"accept": "0"'))
        self.assertEqual(call("estimate", *SCARCE_WORDS).status, tell.FAULTS)


class HowFar(InFolder):
    """The line of life says how far a run is, by the pace that was measured last."""

    def test_turns_by_the_pace(self) -> None:
        """One second, and then half a second for each turn: after eleven seconds twenty turns are over."""
        self.assertIsNone(tell.far_of(".", SIZE, 30))
        tell.keep_pace(".", SIZE, 9.0, 9.0)
        tell.keep_pace(".", SIZE, 1.0, 0.5)
        far = tell.far_of(".", {**SIZE, "students": 101}, 30)
        assert far is not None
        self.assertEqual(far(11), "by an estimate at turn 20 of at most 30")
        self.assertEqual(far(0), "by an estimate at turn 0 of at most 30")
        self.assertEqual(far(100), "by an estimate behind the 30 turns of the search")
        life = tell.Life("running the market", [12], far=far)
        far_and_before = "by an estimate at turn 20 of at most 30; the last runs of this size took 12 s"
        self.assertEqual(life.line(11), f"running the market: 11 s; {far_and_before}")
        self.assertEqual(tell.times_of(".", SIZE), [])

    def test_no_pace_that_fits(self) -> None:
        tell.keep_pace(".", SIZE, 1.0, 0.0)
        self.assertIsNone(tell.far_of(".", SIZE, 30))
        tell.keep_pace(".", SIZE, 1.0, 0.5)
        self.assertIsNone(tell.far_of(".", {**SIZE, "students": 900}, 30))
        self.assertIsNone(tell.far_of(".", SIZE, None))


if __name__ == "__main__":
    unittest.main()
