"""Tests of verify.py: python3 -m unittest discover -s verify

What needs the worked examples (shared/vectors, beside the repository) or the built program is skipped where that is not
there, and says so."""
import os
import pathlib
import re
import subprocess
import sys
import tempfile
import unittest
from typing import List

sys.path.insert(0, str(pathlib.Path(__file__).resolve().parent))
import spoil
import verify

TOP = pathlib.Path(__file__).resolve().parent.parent
TERM = TOP / "examples" / "term"
TABLES = [str(TERM / name) for name in ("catalogue.csv", "roll.csv", "settings.json")]
SESSIONS = [str(TERM / name) for name in ("desk.session", "web.session")]
EXAMPLES = TOP.parent / "shared" / "vectors" / "check"
PROGRAM = pathlib.Path(os.environ.get("COURSE_MATCH_PROGRAM") or TOP / "crates" / "market_program" / "out" / "market_program").resolve()


class Examples(unittest.TestCase):
    def test_worked_examples(self):
        if not EXAMPLES.is_dir():
            self.skipTest(f"no worked examples: {EXAMPLES} is not there")
        for case in sorted(EXAMPLES.iterdir()):
            words = (case / "words").read_text(encoding="utf-8").split()[1:]
            told = (int((case / "status").read_text(encoding="ascii")), (case / "stdout").read_text(encoding="utf-8"))
            with self.subTest(case.name):
                status, lines = verify.verdict([str(case / word) for word in words])
                self.assertEqual(told, (status, lines[0] + "\n"))

    def test_term(self):
        self.assertEqual((0, ["accepted"]), verify.verdict(TABLES + [str(TERM / "published.txt")] + SESSIONS))

    def test_words(self):
        """The verdict is the program's; what is printed are the two forms of verify.py."""
        forms = re.findall(r"^    (python3 verify.py .+)$", verify.__doc__, re.M)
        self.assertEqual(2, len(forms))
        own = ["--own", "n"]
        wrong: List[List[str]] = [[], ["a"] * 4, ["a"] * 69, own, own + ["--before", "1", "a", "b", "c", "d"], own + ["a"] * 6,
                                  own + ["--before", "x"] + ["a"] * 5]
        for words in wrong:
            with self.subTest(words):
                self.assertEqual((1, [verify.USAGE]), verify.verdict(words))
                done = subprocess.run([sys.executable, verify.__file__, *words], stdout=subprocess.PIPE, text=True, check=False)
                self.assertEqual((1, forms), (done.returncode, done.stdout.splitlines()))


class Draws(unittest.TestCase):
    def test_block_of_rfc_8439(self):
        """Section 2.3.2: key 00 to 1f, counter 1, nonce 00 00 00 09 00 00 00 4a 00 00 00 00."""
        key = [int.from_bytes(bytes(range(i, i + 4)), "little") for i in range(0, 32, 4)]
        state = [0x61707865, 0x3320646e, 0x79622d32, 0x6b206574, *key, 1, 0x09000000, 0x4a000000, 0]
        block = [0xe4e7f110, 0x15593bd1, 0x1fdd0f50, 0xc47120a3, 0xc7f4d1c7, 0x0368c033, 0x9aaa2204, 0x4e6cd4c3,
                 0x466482d2, 0x09aa9f07, 0x05d7c214, 0xa2028bd9, 0xd19c12b5, 0xb94e16de, 0xe883d0cb, 0x4e3c50a2]
        self.assertEqual(block, verify.chacha_block(state))


class Own(unittest.TestCase):
    """One student with the own lines alone."""

    def verdict(self, name, text, *options):
        said = "".join(pathlib.Path(path).read_text(encoding="utf-8") for path in SESSIONS).splitlines(keepends=True)
        lines = "".join(line for line in said if f" {name} " in line)
        with tempfile.TemporaryDirectory() as folder:
            (pathlib.Path(folder) / "text").write_text(text)
            (pathlib.Path(folder) / "lines").write_text(lines)
            return verify.verdict(["--own", name, *options, *TABLES, f"{folder}/text", f"{folder}/lines"])

    def test_students_of_the_term(self):
        text = (TERM / "published.txt").read_text()
        for name in "n.jones", "k.abara", "u.ortiz", "y.chen", "s.adler":
            own = re.findall(rf"^(?:budget|bundle|turn \d+|final) {re.escape(name)} [^ \n]*", text, re.M)
            with self.subTest(name):
                self.assertEqual((0, ["holds: " + line for line in own]), self.verdict(name, text))

    def test_spoilt_lines(self):
        text = (TERM / "published.txt").read_text()
        for line, spoilt, told in (
                ("budget n.jones 4542", "budget n.jones 4543", "finding: budget n.jones"),
                ("bundle n.jones [ACCT-611-B,FNCE-601-A,HCMG-841-A]", "bundle n.jones [ACCT-611-B,FNCE-601-A]",
                 "finding: student n.jones tree open at 11"),
                ("turn 2 n.jones [ACCT-611-B,FNCE-601-A,MGMT-691-B] ++----+----*n+n---+nnb2",
                 "turn 2 n.jones [ACCT-611-B,FNCE-601-A,MGMT-691-B] ++----+----*n+n---+nnb3", "finding: turn 200 tree leaf at 21"),
                ("final n.jones [ACCT-611-B,FNCE-601-A,MGMT-691-B]", "final n.jones [ACCT-611-B,FNCE-601-A]",
                 "finding: final n.jones")):
            self.assertEqual(1, text.count(line))
            with self.subTest(line):
                status, lines = self.verdict("n.jones", text.replace(line, spoilt))
                self.assertEqual(8, status)
                self.assertEqual(told, lines[0])
                self.assertIn(spoilt[:60], lines[1])

    def test_other_lines_and_names(self):
        text = (TERM / "published.txt").read_text()
        self.assertEqual((8, "finding: student n.jones infeasible"), self.first(self.verdict("n.jones", text, "--before", "0")))
        self.assertEqual(0, self.verdict("n.jones", text, "--before", "14")[0])
        self.assertEqual((9, ["no such name: N.JONES"]), self.verdict("N.JONES", text))

    def first(self, verdict):
        return verdict[0], verdict[1][0]


class Spoilt(unittest.TestCase):
    def test_the_program_says_the_same(self):
        if not PROGRAM.is_file():
            self.skipTest(f"nothing to compare with: {PROGRAM} is not built")
        with tempfile.TemporaryDirectory() as keep:
            words = ["--program", str(PROGRAM), "--texts", "300", "--seed", "3", "--term", "0.02", "--keep", keep]
            done = subprocess.run([sys.executable, spoil.__file__, *words], capture_output=True, text=True, check=False)
        self.assertEqual("300 texts compared, 0 differences", done.stdout.splitlines()[-1], done.stdout)


if __name__ == "__main__":
    unittest.main()
