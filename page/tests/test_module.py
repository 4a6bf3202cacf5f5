"""The page's module, called by node: each example of each form, as shipped and in the checked form; want of memory."""

import base64
import contextlib
import json
import shutil
import subprocess
import sys
import tempfile
import unittest
from collections.abc import Iterator
from pathlib import Path

from calls import OF_TERM, SESSIONS, TABLES, example_calls, worked_calls
from common import HERE, PAGE, PROGRAM, TERM, native, refuser

sys.path.insert(0, str(HERE.parent))
import narrow
from module import is_look

MODULE, WIDE = PAGE.with_suffix(".wasm"), PAGE.parent / "module/wide.wasm"


class Caller:
    """A module in a process of node."""

    def __init__(self, process: subprocess.Popen[str]) -> None:
        assert process.stdin is not None and process.stdout is not None
        self.asked, self.told = process.stdin, process.stdout
        self.most = 0

    def ask(self, words: list[str], files: dict[str, bytes], limit: int = 0) -> tuple[int | str, bytes]:
        """The status and output of a call."""
        given = [words, [[name, base64.b64encode(it).decode()] for name, it in files.items()], limit]
        self.asked.write(json.dumps(given) + "\n")
        self.asked.flush()
        status, out, memory = json.loads(self.told.readline())
        self.most = max(self.most, memory)
        return status, base64.b64decode(out)


@contextlib.contextmanager
def caller(module: Path) -> Iterator[Caller]:
    """Starts a process that calls the module, and ends it."""
    words = ["node", str(HERE / "call.js"), str(module)]
    with subprocess.Popen(words, stdin=subprocess.PIPE, stdout=subprocess.PIPE, text=True) as process:
        try:
            yield Caller(process)
        finally:
            process.terminate()


class Looks(unittest.TestCase):
    """What is left out of a program that is built without proofs."""

    def test_looks_at_conditions_are_known(self) -> None:
        for line in '  call void @"rattle-llvm-checks::Alignment"(i8 %r7)', "  call void @llvm.trap()":
            self.assertTrue(is_look(line), line)
        for line in "declare void @llvm.trap()", '  call void @"core::hint::spin_loop"()', "  unreachable":
            self.assertFalse(is_look(line), line)


@unittest.skipUnless(shutil.which("node") and MODULE.is_file(), "no node, or no page is built")
class Module(unittest.TestCase):
    """Bytes and statuses of the module."""

    room: Path
    refuse: Path

    @classmethod
    def setUpClass(cls) -> None:
        cls.room = Path(cls.enterClassContext(tempfile.TemporaryDirectory(prefix="course-match-")))
        cls.refuse = refuser(cls.room)

    def answers(self, module: Path, name: str) -> None:
        """Compares each call with what is lawful, and with the native program."""
        calls = [*example_calls(), *worked_calls()]
        with caller(module) as program:
            for words, files, lawful in calls:
                with self.subTest(words=words[:8]):
                    answer = program.ask(words, files)
                    if lawful:
                        self.assertIn(answer, lawful)
                    if PROGRAM.is_file():
                        self.assertEqual(answer, native(words, files, self.room, self.refuse))
            print(f"page: {len(calls)} calls of every form, {name}, at most {program.most >> 20} MiB")

    def test_examples_of_every_form(self) -> None:
        self.answers(MODULE, "as shipped")

    @unittest.skipUnless(WIDE.is_file(), "the page was not built here")
    def test_examples_of_every_form_with_every_address_checked(self) -> None:
        wide = WIDE.read_bytes()
        self.assertEqual(MODULE.read_bytes(), narrow.narrowed(wide))
        checked = self.room / "checked.wasm"
        checked.write_bytes(narrow.narrowed(wide, is_checked=True))
        self.answers(checked, "each address checked")

    def test_want_of_memory_is_status_7(self) -> None:
        files = {name: (TERM / name).read_bytes() for name in [*TABLES, *SESSIONS, "published.txt"]}
        with caller(MODULE) as program:
            for words in (OF_TERM[0], OF_TERM[5]):
                for limit in (9_000_000, 9_500_000):
                    self.assertEqual((7, b"out of memory\n"), program.ask(words, files, limit), (words[0], limit))


if __name__ == "__main__":
    unittest.main()
