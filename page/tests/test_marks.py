"""The marks for a market of 2,000 students and 400 sections: nothing holds the page up, answers come soon, memory is kept
small. All is told by processor time, so that a machine that does other work too passes it. A machine that is slower is
told by a fixed piece of work in the same tab: it has as much more time as it takes longer for this than the one on which the
marks were set, and never less than the marks. (`measure` has the clock, and the market that was measured for
docs/PERFORMANCE.md: its trees take most of the time, and this one has shorter ones.)"""

import os
import re
import subprocess
import sys
import tempfile
import unittest
from pathlib import Path

from browser import Browser, browser, chromium
from common import LONGEST_TASK, PAGE, PROGRAM, TOP, open_page, slowness

SIZES = ("2000", "400", "10", "2", "1")
MOST_ANSWER, MOST_MEMORY, MOST_EXAMPLE = 300, 400, 1000
STUDENTS = ("S0007", "S0500", "S1234", "S1999")
# Shows a student, with a mark as it is asked for and one as the answer stands there; and waits for all lines below.
ANSWER = """(async name => {
  const next = () => new Promise(done => setTimeout(done));
  performance.mark(`${name} asked`);
  const begun = performance.now();
  showStudent(name);
  while (!/^Yes|^No/.test(document.querySelector('#answer .lead').textContent)) await next();
  performance.mark(`${name} answered`);
  const answered = performance.now() - begun;
  while (!document.querySelector('.question') || document.querySelector('.below')?.fill || isWorking()) await next();
  return [answered, performance.now() - begun];
})"""
# Waits till what was drawn is laid out, and seen.
SEEN = "new Promise(done => requestAnimationFrame(() => setTimeout(done)))"
TICKS = os.sysconf("SC_CLK_TCK")


def used(process: int) -> float:
    """The processor time of a process so far, of all its threads, in milliseconds."""
    after_name = Path(f"/proc/{process}/stat").read_text(encoding="utf-8", errors="replace").rsplit(")", 1)[1].split()
    return 1000 * (int(after_name[11]) + int(after_name[12])) / TICKS


def most_memory(process: int) -> float:
    """The most memory that a process had so far, in MB: all of it, also what each browser's tab has."""
    status = Path(f"/proc/{process}/status").read_text(encoding="utf-8", errors="replace")
    return int(re.findall(r"VmHWM:\s+(\d+) kB", status)[0]) * 1024 / 1e6


@unittest.skipUnless(chromium() and PAGE.is_file(), "no Chromium, or no page is built")
@unittest.skipUnless(PROGRAM.is_file(), "no native program that makes the market's text")
class Marks(unittest.TestCase):
    """One market, looked at by one reader after another."""

    room: Path
    tab: Browser
    process: int
    slowness: float

    @classmethod
    def setUpClass(cls) -> None:
        cls.room = Path(cls.enterClassContext(tempfile.TemporaryDirectory(prefix="course-match-")))
        subprocess.run([sys.executable, TOP / "scripts/bench", "--market", *SIZES, cls.room], check=True)
        with (cls.room / "published.txt").open("wb") as text:
            words = ["run", "4", "CAT", "STU", "SET", "S1", "S2"]
            subprocess.run([PROGRAM.resolve(), *words], cwd=cls.room, stdout=text, check=True)
        cls.tab = cls.enterClassContext(browser())
        cls.tab.look(390, 844)
        with cls.tab.tasks():
            open_page(cls.tab)
        cls.process = cls.tab.process_of_page

    def setUp(self) -> None:
        self.slowness = slowness(self.tab)

    def assert_short(self, took: float, most: float, words: object) -> None:
        """That something took less than the mark, as much greater as this machine is slower."""
        self.assertLess(took, most * self.slowness, f"{words}, on a machine {self.slowness:.1f} times as slow")

    def test_example_is_checked_in_a_second(self) -> None:
        before = used(self.process)
        self.tab.evaluate("$('example').click()")
        self.tab.wait("$('verdict').textContent.includes('This text holds') && !isWorking()")
        self.assert_short(used(self.process) - before, MOST_EXAMPLE, "the example is checked")

    def test_market_of_2000_students(self) -> None:
        self.tab.evaluate("list.set([])")
        files = [self.room / it for it in ("CAT", "STU", "SET", "published.txt", "S1", "S2")]
        with self.tab.tasks() as tasks:
            self.tab.choose("#choose", files)
            self.tab.wait("$('verdict').textContent.includes('2,000 students') && $('student-name') && !isWorking()")
        self.assert_short(tasks[-1], LONGEST_TASK, "while the text is checked and read")
        with self.tab.tasks() as tasks:
            for name in STUDENTS:
                self.tab.evaluate(f"{ANSWER}('{name}')")
        self.assert_short(tasks[-1], LONGEST_TASK, "while students are looked at")
        answers = [self.tab.between(f"{name} asked", f"{name} answered") for name in STUDENTS]
        self.assert_short(min(answers), MOST_ANSWER, answers)
        with self.tab.tasks() as tasks:
            for view in "auditor", "rate", "registrar":
                self.tab.evaluate(f"show('{view}')")
                self.tab.wait(f"$('{view}').querySelector('h2') && !$('{view}').fill")
                self.tab.evaluate(SEEN)
        self.assert_short(tasks[-1], LONGEST_TASK, "while the views are looked at")
        self.assertLess(most_memory(self.process), MOST_MEMORY)


if __name__ == "__main__":
    unittest.main()
