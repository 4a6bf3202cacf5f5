"""The scripts: usage where words are missing, the program's status with words, and rt's numbers never in its place."""

import os
import shutil
import subprocess
import unittest
from typing import List, Optional, Tuple

from registrar import program, tell
from tests.support import MARKET, SCRIPTS, InFolder, needs_program

# Each form with too few words for it.
FORMS = {
    "run": ["2", "c.csv", "r.csv", "s.json"],
    "check": ["c.csv", "r.csv", "s.json", "t.txt"],
    "explain": ["c.csv", "r.csv", "s.json", "t.txt", "a", "B"],
    "hall": ["c.csv", "r.csv", "t.txt"],
    "audit": ["2", "c.csv", "r.csv", "s.json", "t.txt"],
    "quote": ["c.csv", "a.session", "a", "12"],
    "prefer": ["c.csv", "r.csv"],
    "demand": ["2", "c.csv", "r.csv", "s.json", "p.csv"],
}


@unittest.skipUnless(os.path.isdir(SCRIPTS) and shutil.which("bash"), "the scripts are not here")
class Scripts(InFolder):
    """The scripts of the repository."""

    def script(
        self, name: str, words: List[str], named: Optional[str] = None, path: Optional[str] = None, scripts: str = SCRIPTS
    ) -> "subprocess.CompletedProcess[str]":
        """Calls a script, with another program, another search path, or from another folder of scripts."""
        there = dict(os.environ)
        if named is not None:
            there["COURSE_MATCH_PROGRAM"] = named
        if path is not None:
            there["PATH"] = path + os.pathsep + there["PATH"]
        return subprocess.run([os.path.join(scripts, name), *words], env=there, capture_output=True, text=True, check=False)

    def test_usage(self) -> None:
        """`--help` answers 0 and the usage; missing words answer it on standard error, and no status of the program."""
        for name, words in FORMS.items():
            with self.subTest(name):
                helped = self.script(name, ["--help"])
                self.assertEqual((helped.returncode, helped.stderr), (0, ""))
                self.assertIn(f"scripts/{name} ", helped.stdout)
                short = self.script(name, words)
                self.assertEqual((short.returncode, short.stdout, short.stderr), (tell.USAGE, "", helped.stdout))
        for name in ("examples", "program", "registrar"):
            self.assertEqual(self.script(name, ["--help"]).returncode, 0)

    def test_a_closed_output(self) -> None:
        """Where nothing can be printed a command ends with its status all the same."""
        words = ["sh", "-c", 'exec "$@" >&-', "", os.path.join(SCRIPTS, "registrar"), "--help"]
        told = subprocess.run(words, capture_output=True, text=True, check=False)
        self.assertEqual(told.returncode, 0, told.stderr)

    def without_program(self) -> str:
        """The scripts in a folder beside which nothing was built."""
        shutil.copytree(SCRIPTS, "top/scripts")
        os.makedirs("top/crates/market_program")
        return os.path.abspath("top/scripts")

    def test_no_program(self) -> None:
        """With words and without a program each ends with 69."""
        scripts = self.without_program()
        for name, words in FORMS.items():
            with self.subTest(name):
                told = self.script(name, words + ["more"], named="", scripts=scripts)
                self.assertEqual((told.returncode, told.stdout), (tell.NO_PROGRAM, ""))
                self.assertIn("there is no program yet", told.stderr)

    def test_another_program_that_is_none(self) -> None:
        """Where COURSE_MATCH_PROGRAM names none, no other one is called: neither with words nor for the example."""
        self.put("none", "no program")
        examples: List[Tuple[str, List[str]]] = [("check", []), ("examples", [])]
        for named in ("missing", "none", self.folder):
            for name, words in (*FORMS.items(), *examples):
                with self.subTest(name + named):
                    told = self.script(name, words + ["more"] if words else [], named=named)
                    self.assertEqual((told.returncode, told.stdout), (tell.NO_PROGRAM, ""))
                    self.assertRegex(told.stderr, rf"^COURSE_MATCH_PROGRAM names \S*{named}, which is no program that can be called\n$")

    def test_a_program_of_this_folder(self) -> None:
        """A name without a slash is a file of this folder, and no word of the search path."""
        self.put("true", "#!/bin/sh\nexit 7\n")
        os.chmod("true", 0o755)
        self.assertEqual(self.script("check", FORMS["check"] + ["more"], named="true").returncode, 7)

    def test_numbers_of_rt(self) -> None:
        """Where `rt try` fails with a number that is also one of the program's, the script does not end with it."""
        os.mkdir("bin")
        self.put("bin/rt", "#!/bin/sh\nexit 6\n")
        os.chmod("bin/rt", 0o755)
        scripts = self.without_program()
        for name in FORMS:
            with self.subTest(name):
                told = self.script(name, [], named="", path=os.path.join(self.folder, "bin"), scripts=scripts)
                self.assertEqual(told.returncode, 70)
                self.assertIn("rt try ended with 6", told.stderr)

    @needs_program
    def test_with_words(self) -> None:
        """`quote`, `prefer` and `demand` take the program where it stands, with files from any folder."""
        shutil.copytree(MARKET, "m")
        built = program.find_program()
        ann = self.script("quote", ["m/catalogue.csv", "m/ann.session", "ann", "12", "4"], named=built)
        self.assertEqual(ann.stdout, "bundle ann [ACCT-101-A,ECON-201-B,MATH-210-B,PHIL-150-A]\nutility 288\n")
        self.assertEqual(self.script("prefer", ["m/catalogue.csv", "m/roll.csv", "m/none"], named=built).returncode, 2)
        words = ["2", "m/catalogue.csv", "m/roll.csv", "m/settings.json", "m/prices.csv", "m/ann.session"]
        self.assertEqual(self.script("demand", words, named=built).returncode, 0)

    @needs_program
    def test_many_wishes(self) -> None:
        """`prefer` of 300 students with 60 ratings each prints each entry: 18,000."""
        self.put("c.csv", "section,course,seats,credits,meetings\n" + "".join(f"S{j},K{j},9,1,\n" for j in range(60)))
        self.put("r.csv", "student,budget,credits,courses\n" + "".join(f"p{i},100,9,5\n" for i in range(300)))
        self.put("a.session", "".join(f"rate p{i} S{j} 7\n" for i in range(300) for j in range(60)))
        told = self.script("prefer", ["c.csv", "r.csv", "a.session"], named=program.find_program())
        self.assertEqual(told.returncode, 0)
        self.assertEqual(told.stdout.count("entry 1 done"), 18000)
