"""What the tests share: small markets in a folder of their own, and calling a command as the terminal does."""

from __future__ import annotations

import contextlib
import io
import os
import shutil
import sys
import tempfile
import unittest
from dataclasses import dataclass
from typing import Dict, List, Sequence

from registrar import before_run, command, program, tell

TERM = os.path.join(program.TOP, "examples", "term")
MARKET = os.path.join(program.TOP, "examples", "market")
SCRIPTS = os.path.join(program.TOP, "scripts")

MARKET_FILES = ["catalogue.csv", "roll.csv", "settings.json"]
MARKET_SESSIONS = ["ann.session", "bob.session", "cleo.session"]

# Two students who want one seat: X has a price, and one of the two has Y alone.
SCARCE: Dict[str, str] = {
    "catalogue.csv": "section,course,seats,credits,meetings\nX,KX,1,1,M0900-1000\nY,KY,2,1,M1000-1100\n",
    "roll.csv": "student,budget,credits,courses\nu,100,4,2\nv,100,4,2\n",
    "settings.json": '{"seed": 1, "spread": 10, "accept": 0, "turns": 20, "tabu": 5, "patience": 5, "steps": [1, 10], "raise": 0}\n',
    "a.session": "rate u X 90\nrate u Y 50\n",
    "b.session": "rate v X 80\nrate v Y 40\n",
}
# A run in spite of all that would stop it.
IN_SPITE = [word for kind in before_run.STOPPING for word in ("--allow", kind)]
SCARCE_WORDS = ["catalogue.csv", "roll.csv", "settings.json", "a.session", "b.session"]


def stands() -> bool:
    """Whether there is a program to call."""
    try:
        program.find_program()
        return True
    except tell.Trouble:
        return False


if not stands():
    print("there is no program yet (`rt run` in crates/market_program): the tests that call it are skipped", file=sys.stderr)

needs_program = unittest.skipUnless(stands(), "there is no program yet")


@dataclass(frozen=True)
class Told:
    """What a command said, and its exit status."""

    status: int
    out: str
    err: str


def call(*words: str) -> Told:
    """Runs a command as `scripts/registrar` does."""
    out, err = io.StringIO(), io.StringIO()
    with contextlib.redirect_stdout(out), contextlib.redirect_stderr(err):
        try:
            status = command.main(list(words))
        except SystemExit as end:
            status = end.code if isinstance(end.code, int) else 0
    return Told(status, out.getvalue(), err.getvalue())


class InFolder(unittest.TestCase):
    """A test that runs in a new folder of its own."""

    def setUp(self) -> None:
        """Makes the folder and goes there."""
        self.before = os.getcwd()
        self.folder = tempfile.mkdtemp()
        os.chdir(self.folder)

    def tearDown(self) -> None:
        """Goes back and takes the folder away."""
        os.chdir(self.before)
        shutil.rmtree(self.folder)

    def put(self, name: str, text: str) -> None:
        """Writes a file as it stands."""
        with open(name, "w", encoding="utf-8", newline="") as file:
            file.write(text)

    def read(self, name: str) -> str:
        """The text of a file, as it stands."""
        with open(name, encoding="utf-8", newline="") as file:
            return file.read()

    def scarce(self) -> None:
        """Puts the scarce market here."""
        for name, text in SCARCE.items():
            self.put(name, text)

    def example(self) -> List[str]:
        """Puts the example market here, and answers its words."""
        for name in MARKET_FILES + MARKET_SESSIONS:
            shutil.copy(os.path.join(MARKET, name), name)
        return MARKET_FILES + MARKET_SESSIONS

    def run_scarce(self) -> None:
        """Runs the scarce market."""
        self.scarce()
        self.assertEqual(call("run", *SCARCE_WORDS).status, 0)

    def assert_told(self, told: str, wanted: Sequence[str]) -> None:
        """Each of these stands in what was told."""
        for one in wanted:
            self.assertIn(one, told)
