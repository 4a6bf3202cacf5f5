"""What `scripts/plain_words` tells, and what it lets pass."""

import importlib.machinery
import importlib.util
import pathlib
import unittest

LOADER = importlib.machinery.SourceFileLoader("plain_words", str(pathlib.Path(__file__).with_name("plain_words")))
SPEC = importlib.util.spec_from_loader("plain_words", LOADER)
assert SPEC is not None
plain_words = importlib.util.module_from_spec(SPEC)
LOADER.exec_module(plain_words)


class Words(unittest.TestCase):
    def what(self, text):
        """What each told word of a text is."""
        return [what for _, what, _ in plain_words.told(text)]

    def test_each_word_is_told(self):
        for text, what in (
            ("tried on 29 November 2026", "a date"),
            ("since March 2026", "a date"),
            ("the code of that noon", "a time of the work"),
            ("on the ninth machine it was 0.274", "a machine by its place"),
            ("in a later session of work", "a session of work"),
            ("a helper found it", "somebody who helped"),
            ("written by an AI", "a language model"),
            ("see issue 80", "an issue"),
            ("as #17 asks", "an issue"),
            ("Co-authored-by: somebody", "a co-author"),
        ):
            with self.subTest(text):
                self.assertEqual(self.what(text), [what])

    def test_the_line_is_told(self):
        self.assertEqual(list(plain_words.told("one\ntwo\nby 3 May\n")), [(3, "a date", "3 May")])

    def test_words_of_the_market_pass(self):
        for text in (
            "sessions speak at once, and each session has a number",
            "the second session closes the desk",
            "a machine of a school's machine room",
            "students may enrol",
            "a colour, #1f6feb, and &#39;",
            "2026-12-01 09:00,004284,Add,GENI_102_D",
            "the paid sections",
        ):
            with self.subTest(text):
                self.assertEqual(self.what(text), [])


class Messages(unittest.TestCase):
    def test_a_path_of_a_machine(self):
        told = list(plain_words.in_message("1234567", "Tables: rows\n\nmeasured in /work/main/out\n"))
        self.assertEqual(told, ["commit 1234567: a path of a machine: /work/main/out"])

    def test_paths_of_the_repository_pass(self):
        self.assertEqual(list(plain_words.in_message("1234567", "docs/GUIDE.md: crates/market_host/src\n")), [])

    def test_the_length_of_a_subject(self):
        self.assertEqual(list(plain_words.too_long("1234567", "a" * 72 + "\n\n" + "b" * 100)), [])
        self.assertEqual(len(list(plain_words.too_long("1234567", "a" * 73))), 1)


if __name__ == "__main__":
    unittest.main()
