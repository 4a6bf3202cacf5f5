"""Each printed line of README, GUIDE and FORMATS is compared with what is printed.

An indented block in these documents has a comment above it, which does not show:

- `<!-- words -->`: a command line for the shell. It is run at the top of a copy of what the document speaks of, and the
  blocks of one document are run in their order, in one folder;
- `<!-- words not run -->`: a command line that takes too long for a test, or whose words are placeholders;
- `<!-- printed -->`: each line was printed by the last words that were run;
- `<!-- printed by NAME -->`: each line was printed by one of `PRINTERS`;
- `<!-- form -->`: a grammar or a file, and nothing that is printed.

Above a table, `<!-- printed by NAME -->` speaks of all that stands between backticks in its rows.
"""

from __future__ import annotations

import os
import re
import shutil
import subprocess
import tempfile
import unittest
from dataclasses import dataclass
from typing import Callable, Dict, Iterator, List, Tuple

from registrar import explain, manifest, program, reasons
from tests.support import MARKET, MARKET_FILES, MARKET_SESSIONS, TERM, needs_program

DOCUMENTS = ("README.md", "docs/GUIDE.md", "docs/FORMATS.md")
MARK = re.compile(r"<!-- (words not run|words|printed by ([a-z_]+)|printed|form) -->\Z")
CASES = os.path.join(os.path.dirname(os.path.abspath(__file__)), "documented")
TERM_WORDS = [os.path.join(TERM, name) for name in ("catalogue.csv", "roll.csv", "settings.json")]
SESSIONS = [os.path.join(TERM, name) for name in ("desk.session", "web.session")]
# Spans of time differ from run to run.
SPAN = re.compile(r"\b(\d+ min )?\d+ s\b")


@dataclass(frozen=True)
class Block:
    """A block of a document: the line at which it begins, the mark above it, and its lines."""

    line: int
    mark: str
    printer: str
    lines: Tuple[str, ...]


def blocks_of(path: str) -> Iterator[Block]:
    """The indented blocks of a document, and the tables that have a mark."""
    with open(os.path.join(program.TOP, path), encoding="utf-8") as file:
        lines = file.read().split("\n") + [""]
    mark, printer, found = "", "", []
    for number, line in enumerate(lines, 1):
        kind = MARK.match(line)
        if line.startswith("    ") or (mark and line.startswith("|")):
            found.append(line)
        elif found:
            yield Block(number - len(found), mark, printer, tuple(shown(found)))
            mark, printer, found = "", "", []
        if kind:
            mark, printer = kind.group(1), kind.group(2) or ""


def shown(lines: List[str]) -> List[str]:
    """The lines of a block without their indent, or what a table has between backticks."""
    if lines[0].startswith("|"):
        return [span for line in lines for span in re.findall("`([^`]+)`", line)]
    return [line[4:] for line in lines]


def called(words: List[str]) -> List[str]:
    """The lines that the program prints at these words."""
    return program.call(words).lines


def published() -> List[str]:
    """The published text of the term, which the program accepts: so its lines follow from its order, start, error and prices."""
    text = os.path.join(TERM, "published.txt")
    if called(["check", *TERM_WORDS, text, *SESSIONS]) != ["accepted"]:
        return []
    with open(text, encoding="utf-8") as file:
        return file.read().splitlines()


def spoiled() -> List[str]:
    """The check of the term's text with one section taken out of a bundle, as GUIDE tells it."""
    with open(os.path.join(TERM, "published.txt"), encoding="utf-8") as file:
        text = file.read()
    bundle = "bundle n.jones [ACCT-611-B,FNCE-601-A,HCMG-841-A]"
    with tempfile.TemporaryDirectory() as folder:
        path = os.path.join(folder, "text")
        with open(path, "w", encoding="utf-8") as file:
            file.write(text.replace(bundle, bundle.replace(",HCMG-841-A", "")))
        return called(["check", *TERM_WORDS, path, *SESSIONS])


def semicolons() -> List[str]:
    """A run with a catalogue that has semicolons in place of commas."""
    with open(TERM_WORDS[0], encoding="utf-8") as file:
        text = file.read()
    with tempfile.TemporaryDirectory() as folder:
        path = os.path.join(folder, "catalogue.csv")
        with open(path, "w", encoding="utf-8") as file:
            file.write(text.replace(";", "/").replace(",", ";"))
        return called(["run", "1", path, *TERM_WORDS[1:], *SESSIONS])


def case(name: str) -> Callable[[], List[str]]:
    """The call of a folder of tests/documented, which has its words in the file `words`."""

    def run() -> List[str]:
        folder = os.path.join(CASES, name)
        with open(os.path.join(folder, "words"), encoding="utf-8") as file:
            words = file.read().split()
        return called([os.path.join(folder, word) if os.path.exists(os.path.join(folder, word)) else word for word in words])

    return run


def inputs() -> List[str]:
    """The lines of the term's inputs."""
    lines: List[str] = []
    for path in TERM_WORDS + SESSIONS + [os.path.join(TERM, "desk.requests")]:
        with open(path, encoding="utf-8") as file:
            lines += [line.strip().rstrip(",") for line in file]
    return lines


PRINTERS: Dict[str, Callable[[], List[str]]] = {
    "published": published,
    "inputs": inputs,
    "spoiled": spoiled,
    "semicolons": semicolons,
    "explain": lambda: called(["explain", *TERM_WORDS, os.path.join(TERM, "published.txt"), "n.jones", "FNCE-717-A", *SESSIONS]),
    "quote": lambda: called(["quote", os.path.join(MARKET, "catalogue.csv"), os.path.join(MARKET, "ann.session"), "ann", "12", "4"]),
    "prefer": lambda: called(["prefer", *[os.path.join(MARKET, name) for name in MARKET_FILES[:2] + MARKET_SESSIONS]]),
    "make": lambda: called(["make", "1", "7", "2", "2", "0"]),
    "no_prices": case("no_prices"),
    "demand_case": case("demand"),
    "hall_case": case("hall"),
    "audit_case": case("audit"),
}


def plain(line: str) -> str:
    """A line without what differs from run to run, and without the mark and the widths of columns."""
    return " ".join(SPAN.sub("N s", line.replace("\ufeff", "")).split())


class Marks(unittest.TestCase):
    """Each block says what it is."""

    def test_each_block_has_a_mark(self) -> None:
        """No block is without, and each printer that is named is there."""
        for path in DOCUMENTS:
            for block in blocks_of(path):
                with self.subTest(f"{path}:{block.line}"):
                    self.assertTrue(block.mark, block.lines[:1])
                    self.assertTrue(not block.printer or block.printer in PRINTERS, block.printer)


class Tables(unittest.TestCase):
    """Tables of GUIDE that are reckoned from the published text."""

    def rows(self, first: str) -> List[List[str]]:
        """The rows of GUIDE's table whose header begins with this cell."""
        with open(os.path.join(program.TOP, "docs", "GUIDE.md"), encoding="utf-8") as file:
            lines = file.read().split("\n")
        at = next(number for number, line in enumerate(lines) if line.startswith(f"| {first} |"))
        end = lines.index("", at)
        return [[cell.strip().strip("`") for cell in line.split("|")[1:-1]] for line in lines[at + 2 : end]]

    def market(self) -> reasons.Market:
        """The market of the term."""
        return explain.market_of(manifest.of_files([*TERM_WORDS, os.path.join(TERM, "published.txt"), *SESSIONS]))

    def test_places_of_a_tree(self) -> None:
        """The places of n.jones are the sections that it rated, with rating and price."""
        market = self.market()
        rated = [code for code in market.sections if code in market.ratings["n.jones"]]
        rows = [[str(place), code, str(market.ratings["n.jones"][code]), str(market.text.prices[code])] for place, code in enumerate(rated)]
        self.assertEqual(self.rows("Place"), rows)

    def test_what_is_carried_over(self) -> None:
        """Budget, final sections with their prices, and what is left."""
        text = self.market().text
        for name, budget, final, left, row in self.rows("Student"):
            with self.subTest(name):
                sections = text.finals[name].sections
                prices = [text.prices[one] for one in sections]
                rest = text.budgets[name] - sum(prices)
                shown = f"[{','.join(sections)}]`: {' + '.join(map(str, prices))} = {sum(prices)}"
                self.assertEqual((budget, final), (str(text.budgets[name]), shown))
                self.assertEqual(left, str(rest) if rest > 0 else "none")
                self.assertTrue(row.endswith(f",{max(0, rest)}"))


@needs_program
class Printed(unittest.TestCase):
    """Each printed line."""

    def test_documents(self) -> None:
        """Runs the words of each document in their order, and compares."""
        known: Dict[str, List[str]] = {}
        for path in DOCUMENTS:
            with tempfile.TemporaryDirectory() as folder:
                self.prepare(folder)
                last: List[str] = []
                for block in blocks_of(path):
                    if block.mark == "words":
                        last = self.run_words(folder, block.lines)
                    elif block.printer:
                        if block.printer not in known:
                            known[block.printer] = PRINTERS[block.printer]()
                        self.compare(f"{path}:{block.line}", block.lines, known[block.printer])
                    elif block.mark == "printed":
                        self.compare(f"{path}:{block.line}", block.lines, last)

    def prepare(self, folder: str) -> None:
        """What the words of a document find there."""
        for name in ("scripts", "registrar", "verify", "crates"):
            os.symlink(os.path.join(program.TOP, name), os.path.join(folder, name))
        shutil.copytree(os.path.join(program.TOP, "examples"), os.path.join(folder, "examples"))

    def run_words(self, folder: str, lines: Tuple[str, ...]) -> List[str]:
        """What the shell prints at these lines, and the statuses that are no 0."""
        there = {**os.environ, "COURSE_MATCH_PROGRAM": program.find_program()}
        done = subprocess.run(
            ["bash", "-c", "\n".join(lines)], cwd=folder, env=there, check=False,
            stdout=subprocess.PIPE, stderr=subprocess.STDOUT, universal_newlines=True,
        )
        return done.stdout.splitlines()

    def compare(self, where: str, lines: Tuple[str, ...], printed: List[str]) -> None:
        """Each line was printed. The order is not compared: sessions that speak at once may be heard in any."""
        there = {plain(line) for line in printed}
        for line in lines:
            with self.subTest(where):
                self.assertIn(plain(line), there)
