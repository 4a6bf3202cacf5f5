"""No form wants memory for inputs of the greatest sizes: each of them is answered, and not with status 7."""

import os
import subprocess
import tempfile
import unittest
from pathlib import Path
from typing import BinaryIO

TOP = Path(__file__).resolve().parent.parent
PROGRAM, BENCH = TOP / "scripts" / "program", TOP / "scripts" / "bench"
STUDENTS, SECTIONS, RATED, SESSIONS = 2000, 400, 40, 64
ALL_COMMANDS = 200_000  # of all sessions together, and of all streams of requests
GREATEST_INPUT, GREATEST_TEXT = 16_777_216, 67_108_864  # in bytes
WORKERS = "4"


def filled(path: Path, lines: int) -> None:
    """Repeats the first command of a session until the session has so many; the first wish once more changes nothing."""
    commands = path.read_text(encoding="ascii").splitlines()
    path.write_text("\n".join(commands + commands[:1] * (lines - len(commands))) + "\n", encoding="ascii")


class Greatest(unittest.TestCase):
    """A market of 2,000 students and 400 sections, 64 sessions with 200,000 commands, and 64 streams with as many requests."""

    room: Path
    sessions: list[str]
    streams: list[str]
    tables: list[str]
    ran: subprocess.CompletedProcess[bytes]

    @classmethod
    def setUpClass(cls) -> None:
        if subprocess.run([PROGRAM, "--stands"], stderr=subprocess.DEVNULL, check=False).returncode != 0:
            raise unittest.SkipTest("there is no program yet: `rt run` in crates/market_program")
        room = tempfile.TemporaryDirectory()
        cls.addClassCleanup(room.cleanup)
        cls.room = Path(room.name)
        sizes = [str(size) for size in (STUDENTS, SECTIONS, RATED, SESSIONS, 7)]
        subprocess.run([BENCH, "--market", *sizes, cls.room], check=True, stdout=subprocess.DEVNULL)
        cls.sessions = [f"S{number}" for number in range(1, SESSIONS + 1)]
        cls.streams = [f"R{number}" for number in range(1, SESSIONS + 1)]
        for name in cls.sessions:
            filled(cls.room / name, ALL_COMMANDS // SESSIONS)
        settings = cls.room / "SET"
        settings.write_bytes(settings.read_bytes() + b" " * (GREATEST_INPUT - settings.stat().st_size))
        cls.tables = ["CAT", "STU", "SET"]
        with (cls.room / "TEXT").open("wb") as text:
            cls.ran = cls.program("run", WORKERS, *cls.tables, *cls.sessions, into=text)

    @classmethod
    def program(cls, *words: str, into: int | BinaryIO = subprocess.PIPE) -> subprocess.CompletedProcess[bytes]:
        """A call of the program in the folder of the market."""
        return subprocess.run([PROGRAM, *words], cwd=cls.room, stdin=subprocess.DEVNULL, stdout=into, env=dict(os.environ), check=False)

    def answered(self, *words: str) -> bytes:
        """What a call prints, which has to end with status 0."""
        ended = self.program(*words)
        self.assertEqual((ended.returncode, ended.stdout[-200:] if ended.returncode else b""), (0, b""))
        return ended.stdout

    def test_a_run_of_sixty_four_sessions(self) -> None:
        self.assertEqual(self.ran.returncode, 0)
        order = (self.room / "TEXT").read_bytes().split(b"order", 1)[1].split(b"\n", 1)[0]
        self.assertEqual(len(order.split()), ALL_COMMANDS)

    def test_preferences_and_demand(self) -> None:
        printed = self.answered("prefer", *self.tables[:2], *self.sessions)
        self.assertEqual(printed.count(b"\nentry "), ALL_COMMANDS - (not printed.startswith(b"order")))
        printed = self.answered("demand", WORKERS, *self.tables, "PRICES", *self.sessions)
        self.assertEqual(printed.count(b"\nbundle "), STUDENTS)

    def test_the_text_is_accepted(self) -> None:
        self.assertEqual(self.answered("check", *self.tables, "TEXT", *self.sessions), b"accepted\n")

    def test_answers_about_the_text(self) -> None:
        self.answered("explain", *self.tables, "TEXT", "S0000", "C003", *self.sessions)
        self.answered("audit", WORKERS, *self.tables, "TEXT", *self.sessions)
        self.answered("hall", *self.tables[:2], "TEXT", *self.streams)

    def test_a_session_of_the_greatest_size(self) -> None:
        line = b"rate S0000 C003 9\n"
        (self.room / "LONG").write_bytes(line + b"#" * (GREATEST_INPUT - len(line)))
        self.answered("prefer", *self.tables[:2], "LONG")
        self.answered("quote", "CAT", "LONG", "S0000", "12", "5")
        (self.room / "LONG").write_bytes(line + b"#" * (GREATEST_INPUT - len(line) + 1))
        ended = self.program("quote", "CAT", "LONG", "S0000", "12", "5")
        self.assertEqual((ended.returncode, ended.stdout), (4, b"input 2 is too long\n"))

    def test_a_text_of_the_greatest_size(self) -> None:
        text = (self.room / "TEXT").read_bytes()
        (self.room / "LONG").write_bytes(text + b"\n" * (GREATEST_TEXT - len(text)))
        for words in (["check"], ["audit", WORKERS]):
            ended = self.program(*words, *self.tables, "LONG", *self.sessions)
            self.assertIn(ended.returncode, (5, 8, 9))
            self.assertNotIn(b"out of memory", ended.stdout)

    def test_a_made_market_of_the_greatest_size(self) -> None:
        made = self.answered("make", WORKERS, "7", str(STUDENTS), str(SECTIONS), "1000000000000")
        self.assertEqual(made.splitlines()[:2], [b"students 2000", b"sections 400"])


if __name__ == "__main__":
    unittest.main()
