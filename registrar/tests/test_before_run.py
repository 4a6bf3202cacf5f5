"""`run` ends before it runs where something looks like an oversight, and `settings` says why its rows may not come again."""

from __future__ import annotations

import os

from registrar import tell
from tests.support import SCARCE_WORDS, InFolder, call, needs_program


@needs_program
class Stops(InFolder):
    """The scarce market, with one oversight each."""

    def setUp(self) -> None:
        super().setUp()
        self.scarce()
        self.put("published.txt", "the last good text\n")

    def test_each_kind(self) -> None:
        """Each is told with its place, ends with 65, and leaves the last good text; `--allow` of its kind alone lets it pass."""
        cases: list[tuple[str, dict[str, str], list[str], str]] = [
            ("two-sessions", {"b.session": "rate v X 80\nrate u Y 40\n"}, [], "a.session:1, b.session:2: two-sessions: u"),
            ("twice", {}, ["b.session"], "b.session: twice: it is given twice"),
            ("empty", {"c.session": "# nothing\n"}, ["c.session"], "c.session: empty: it has no commands"),
            ("export", {"c.session": "student,X,Y\nv,80,40\n"}, ["c.session"], "c.session: export: 2 of its 2 lines are no commands"),
            ("few-wishes", {"b.session": "rate v X 0\n"}, [], "few-wishes: 1 of 2 students have no wishes"),
            ("close", {"a.session": "rate u X 90\nclose\n"}, [], "a.session:2: close: what any session says behind it does not count"),
        ]
        for kind, files, more, wanted in cases:
            with self.subTest(kind):
                self.scarce()
                for name, text in files.items():
                    self.put(name, text)
                words = [*SCARCE_WORDS, *more]
                told = call("run", *words)
                self.assertEqual(told.status, tell.FAULTS)
                kept = "nothing is run, and published.txt is what it was. Correct the sessions, or say "
                # Behind a `close` the other session may be unheard, so that another kind is told too.
                self.assert_told(told.err, (wanted, f"1 {kind}: ", kept, f"--allow {kind}"))
                self.assertEqual(self.read("published.txt"), "the last good text\n")
                self.assertFalse(os.path.exists("manifest.json"))
                if kind != "close":
                    self.assertIn(f"{kept}--allow {kind}\n", told.err)
                    self.assertEqual(call("run", *words, "--allow", kind, "--text", "other.txt").status, 0)

    def test_one_session_has_one_order(self) -> None:
        """A `close` in the only session is told by the warning of the run alone."""
        self.put("a.session", "rate u X 90\nrate v X 5\nclose\n")
        told = call("run", *SCARCE_WORDS[:3], "a.session")
        self.assertEqual(told.status, 0)
        self.assertIn("line 3 closed the desk", told.err)

    def test_files_that_the_program_refuses_are_told_by_the_run(self) -> None:
        self.put("roll.csv", "student,budget\nu,5\n")
        told = call("run", *SCARCE_WORDS)
        self.assertEqual(told.status, 3)
        self.assertIn("roll.csv, row 1", told.err)

    def test_settings_say_why_rows_may_not_come_again(self) -> None:
        self.assertNotIn("may not come again", call("settings", *SCARCE_WORDS).out)
        self.put("b.session", "rate v X 80\nrate u Y 40\nclose\n")
        told = call("settings", *SCARCE_WORDS)
        self.assertIn("these rows may not come again: 1 student is named in two sessions and a session has a `close`, and each run", told.out)
