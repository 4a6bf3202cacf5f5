"""Every script tells its words by `--help` and then starts nothing; what would prove for long asks first."""

import os
import pathlib
import shutil
import subprocess
import tempfile
import unittest

HERE = pathlib.Path(__file__).resolve().parent
TOP = HERE.parent
BESIDE = (".ci/run", "examples/college/make.py", "page/tests/run", "page/tests/try_release", "registrar/tests/sitting")
OTHERS = [TOP / name for name in BESIDE]
STUBS = ("rt", "chromium", "debootstrap")


class WithoutRt(unittest.TestCase):
    """`rt`, a browser and Debian are commands that note their call and fail."""

    def setUp(self):
        self.folder = tempfile.TemporaryDirectory()
        self.called = pathlib.Path(self.folder.name, "called")
        for name in STUBS:
            stub = pathlib.Path(self.folder.name, name)
            stub.write_text(f'#!/bin/sh\necho {name} "$@" >>"{self.called}"\nexit 1\n', encoding="utf-8")
            stub.chmod(0o755)

    def tearDown(self):
        self.folder.cleanup()

    def call(self, script, *words):
        """What a script does at these words."""
        there = {**os.environ, "PATH": f"{self.folder.name}:{os.environ['PATH']}", "PYTHONDONTWRITEBYTECODE": "1"}
        there.pop("COURSE_MATCH_PROGRAM", None)
        return subprocess.run([script, *words], env=there, capture_output=True, text=True, timeout=60, check=False)


class Help(WithoutRt):
    """In this repository."""

    def test_help_starts_nothing(self):
        scripts = [it for it in sorted(HERE.iterdir()) if it.is_file() and os.access(it, os.X_OK)]
        self.assertGreater(len(scripts), 15)
        for script in filter(pathlib.Path.exists, [*scripts, *OTHERS]):
            with self.subTest(script.name):
                done = self.call(script, "--help")
                self.assertEqual((done.returncode, done.stderr), (0, ""))
                self.assertIn(script.name, done.stdout)
                self.assertFalse(self.called.exists())

    def test_a_wrong_word_starts_nothing(self):
        for name in ("documents", "examples", "gate_times", "lemmas", "lint", "plain_words", "release", "specs_stand_alone", "test"):
            if (HERE / name).exists():
                with self.subTest(name):
                    done = self.call(HERE / name, "--no-such-word")
                    self.assertEqual((done.returncode, done.stdout), (64, ""))
                    self.assertFalse(self.called.exists())


@unittest.skipUnless((TOP / "page/build.py").exists(), "the page's sources are not here")
class Proofs(WithoutRt):
    """In a copy in which nothing was proved."""

    def copied(self):
        """The copy: all that the scripts look at, and the sources of no crate."""
        top = pathlib.Path(self.folder.name, "top")
        for name in ("scripts", "page"):
            shutil.copytree(TOP / name, top / name, ignore=shutil.ignore_patterns("out", "__pycache__"))
        (top / "crates/market_program").mkdir(parents=True)
        for name in ("crates.txt", "VERSION"):
            shutil.copy(TOP / name, top)
        for words in (["init", "-q"], ["add", "-A"], ["-c", "user.name=a", "-c", "user.email=a@b", "commit", "-qm", "all"]):
            subprocess.run(["git", *words], cwd=top, check=True)
        return top / "scripts"

    def test_nothing_is_proved_unasked(self):
        scripts = self.copied()
        for name in ("page", "release"):
            with self.subTest(name):
                done = self.call(scripts / name)
                self.assertEqual((done.returncode, done.stdout), (1, ""))
                self.assertIn("Say --prove", done.stderr)
                self.assertFalse(self.called.exists())

    def test_what_is_asked_is_said_and_done(self):
        scripts = self.copied()
        for name in ("page", "release"):
            with self.subTest(name):
                done = self.call(scripts / name, "--prove")
                self.assertNotEqual(done.returncode, 0)
                self.assertIn("the program is proved first", done.stdout)
                self.assertEqual(self.called.read_text(encoding="utf-8"), "rt run\n" if name == "page" else "rt run\nrt run\n")


if __name__ == "__main__":
    unittest.main()
