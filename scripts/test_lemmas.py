"""What `scripts/lemmas` takes for one lemma, and what for two."""

import importlib.machinery
import importlib.util
import pathlib
import tempfile
import unittest

LOADER = importlib.machinery.SourceFileLoader("lemmas", str(pathlib.Path(__file__).with_name("lemmas")))
SPEC = importlib.util.spec_from_loader("lemmas", LOADER)
assert SPEC is not None
lemmas = importlib.util.module_from_spec(SPEC)
LOADER.exec_module(lemmas)

USES = "use Rattle.std.proofs.Common.{◌≡◌, ◌≤◌, ℕ, List, length}\nuse Rattle.low.specs.Words.{count}\n"
LONG = """
pub long : {A : Type 0} (xs : List A) (n : ℕ) (h : n ≤ length xs) → (k : ℕ) → k ≤ n
    → k ≤ length xs
long xs n h k low = omega arith
"""


class Twice(unittest.TestCase):
    def found(self, one, other):
        """Where the lemmas of two files of two crates stand twice."""
        with tempfile.TemporaryDirectory() as home:
            for crate, text in (("high", one), ("low", other)):
                folder = pathlib.Path(home) / "crates" / crate / "proofs"
                folder.mkdir(parents=True)
                (folder / "Facts.antt").write_text(text, encoding="utf-8")
            return list(lemmas.twice(pathlib.Path(home) / "crates").values())

    def test_other_names_are_the_same_lemma(self):
        other = "within : (B : Type 0) (ys : List B) (m : ℕ) → m ≤ length ys → (i : ℕ) → i ≤ m → i ≤ length ys\n"
        places = [["crates/high/proofs/Facts.antt:4 long", "crates/low/proofs/Facts.antt:3 within"]]
        self.assertEqual(self.found(USES + LONG, USES + other), places)

    def test_a_bound_variable_of_a_function_has_no_name(self):
        one = "same : (xs : List ℕ) → count (λ x. x ≤ 2) xs ≡ 0\nsame xs = cc\n"
        other = "none : (ns : List ℕ) → count (λ n. n ≤ 2) ns ≡ 0\nnone ns = cc\n"
        self.assertEqual(len(self.found(USES + one, USES + other)), 1)

    def test_another_number_is_another_lemma(self):
        one = "same : (xs : List ℕ) → count (λ x. x ≤ 2) xs ≡ 0\nsame xs = cc\n"
        self.assertEqual(self.found(USES + one, USES + one.replace("≤ 2", "≤ 3")), [])

    def test_a_definition_of_the_file_is_its_own(self):
        one = "held : ℕ → ℕ\nheld n = n\n\nlow : (n : ℕ) → held n ≤ 5\nlow n = cc\n"
        self.assertEqual(self.found(USES + one, USES + one), [])

    def test_what_a_module_takes_belongs_to_its_lemmas(self):
        one = "module _ (xs : List ℕ) (h : length xs ≤ 3) where\n  low : count xs ≤ 3\n  low = cc\n"
        other = "low : (xs : List ℕ) → length xs ≤ 3 → count xs ≤ 3\nlow xs h = cc\n"
        self.assertEqual(len(self.found(USES + one, USES + other)), 1)
        self.assertEqual(self.found(USES + one, USES + other.replace("≤ 3 →", "≤ 4 →")), [])

    def test_definitions_fields_and_answers_are_no_lemmas(self):
        record = "pub record IsLow (n : ℕ) : Type 0 where\n  pub low : n ≤ 5\n\n"
        text = record + "double : ℕ → ℕ\ndouble n = n\n\npub returns : goal.returns\nreturns = cc\n"
        self.assertEqual(self.found(USES + text, USES + text), [])


if __name__ == "__main__":
    unittest.main()
