"""The page's module answers as the native program: each example of each form, spoiled texts, want of memory."""

import base64
import json
import queue
import random
import tempfile
import unittest
from concurrent.futures import ThreadPoolExecutor
from pathlib import Path
from typing import Any

from browser import Browser, browser, chromium
from calls import OF_TERM, SESSIONS, TABLES, example_calls, worked_calls
from common import PAGE, PROGRAM, TERM, in_page, native, open_page, refuser

SPOILED, SEED, THREADS = 2000, 20261128, 4


def edits(text: bytes, count: int) -> list[tuple[int, int, str]]:
    """Edits of a text: at which byte, how many go, what comes. Lines go or come twice; bytes go, come, change or turn
    around."""
    draw, starts = random.Random(SEED), [0, *(at + 1 for at, it in enumerate(text) if it == 10)]
    made = []
    for _ in range(count):
        line = draw.randrange(len(starts) - 1)
        at, end = starts[line], starts[line + 1]
        byte = draw.randrange(at, end)
        made.append(
            draw.choice(
                [
                    (at, end - at, ""),
                    (at, 0, text[at:end].decode()),
                    (byte, 1, ""),
                    (byte, 0, chr(draw.randrange(32, 127))),
                    (byte, 1, draw.choice("0123456789+-*nbcm[], \n\r")),
                    (byte, min(8, end - byte), text[byte : byte + 8][::-1].decode()),
                ]
            )
        )
    return made


# The spoiled texts are made and checked in the page, so that each comes over the pipe as one small edit.
CHECK = """(async edits => {
  const base = atob(spoilt.text), answers = [];
  for (const [at, gone, come] of edits) {
    const text = Uint8Array.from(base.slice(0, at) + come + base.slice(at + gone), it => it.charCodeAt(0));
    const files = [...spoilt.files, ['published.txt', text]];
    const { status, text: said } = await program.ask({ words: spoilt.words, files });
    answers.push([status, said]);
  }
  return answers;
})"""
GIVE = """(([words, text, files]) => {
  const bytes = it => Uint8Array.from(atob(it), one => one.charCodeAt(0));
  globalThis.spoilt = { words, text, files: files.map(([name, it]) => [name, bytes(it)]) };
})"""


@unittest.skipUnless(chromium() and PAGE.is_file(), "no Chromium, or no page is built")
class Answers(unittest.TestCase):
    """Bytes and statuses of the page's module."""

    room: Path
    tab: Browser
    refuse: Path

    @classmethod
    def setUpClass(cls) -> None:
        cls.room = Path(cls.enterClassContext(tempfile.TemporaryDirectory(prefix="course-match-")))
        cls.tab = cls.enterClassContext(browser())
        cls.refuse = refuser(cls.room)
        open_page(cls.tab)

    def test_module_asks_nothing_of_its_host(self) -> None:
        self.assertEqual(self.tab.evaluate("WebAssembly.Module.imports(program.module).length"), 0)

    def test_examples_of_every_form(self) -> None:
        calls = [*example_calls(), *worked_calls()]
        for words, files, lawful in calls:
            with self.subTest(words=words[:8]):
                answer = in_page(self.tab, words, files)
                if lawful:
                    self.assertIn(answer, lawful)
                if PROGRAM.is_file():
                    self.assertEqual(answer, native(words, files, self.room, self.refuse))
        print(f"page: {len(calls)} calls of every form{'' if PROGRAM.is_file() else ', beside no native program'}")

    @unittest.skipUnless(PROGRAM.is_file(), "no native program to compare with")
    def test_spoiled_texts(self) -> None:
        files = {name: (TERM / name).read_bytes() for name in [*TABLES, *SESSIONS]}
        text, words = (TERM / "published.txt").read_bytes(), ["check", *TABLES, "published.txt", *SESSIONS]
        counts: dict[int, int] = {}
        given = [
            words,
            base64.b64encode(text).decode(),
            [[name, base64.b64encode(it).decode()] for name, it in files.items()],
        ]
        self.tab.evaluate(f"{GIVE}({json.dumps(given)})")
        rooms: queue.SimpleQueue[Path] = queue.SimpleQueue()
        for number in range(THREADS):
            (self.room / str(number)).mkdir()
            rooms.put(self.room / str(number))

        def answer_of(edit: tuple[int, int, str]) -> list[Any]:
            at, gone, come = edit
            room = rooms.get()
            spoilt = {**files, "published.txt": text[:at] + come.encode() + text[at + gone :]}
            status, out = native(words, spoilt, room, self.refuse)
            rooms.put(room)
            return [status, out.decode()]

        all_edits = edits(text, SPOILED)
        with ThreadPoolExecutor(THREADS) as pool:
            due = pool.map(answer_of, all_edits)  # (begun at once, while the page answers)
            for first in range(0, SPOILED, 100):
                some = all_edits[first : first + 100]
                for edit, answer in zip(some, self.tab.evaluate(f"{CHECK}({json.dumps(some)})"), strict=True):
                    expected = next(due)
                    self.assertEqual(expected, answer, edit)
                    counts[expected[0]] = counts.get(expected[0], 0) + 1
        print(f"page: {SPOILED} spoiled texts, by status {counts}")

    def test_want_of_memory_is_status_7(self) -> None:
        files = {name: (TERM / name).read_bytes() for name in [*TABLES, *SESSIONS, "published.txt"]}
        for words in (OF_TERM[0], OF_TERM[5]):
            for limit in (9_000_000, 9_500_000):
                with self.subTest(words=words[0], limit=limit):
                    self.assertEqual(in_page(self.tab, words, files, limit), (7, b"out of memory\n"))


if __name__ == "__main__":
    unittest.main()
