"""The page computes the sums of what it holds, compares them, and runs nothing that it was not built with."""

import base64
import gzip
import hashlib
import json
import re
import tempfile
import unittest
from pathlib import Path

from browser import Browser, browser, chromium
from common import PAGE, open_page

OTHER_MODULE = b"\0asm\x01\0\0\0"
OTHER_EXAMPLE = json.dumps([["roll.csv", "student,budget,credits,courses\n"]]).encode()


def with_part(page: str, name: str, content: str) -> str:
    """The page with something else in the place of a part."""
    return re.sub(rf'(<script type="[^"]*" id="{name}">)[^<]*', lambda it: it[1] + content, page)


def packed(data: bytes) -> str:
    return base64.b64encode(gzip.compress(data)).decode()


@unittest.skipUnless(chromium() and PAGE.is_file(), "no Chromium, or no page is built")
class Sums(unittest.TestCase):
    """The page as it was built, and pages with other parts."""

    room: Path
    tab: Browser

    @classmethod
    def setUpClass(cls) -> None:
        cls.room = Path(cls.enterClassContext(tempfile.TemporaryDirectory(prefix="course-match-")))
        cls.tab = cls.enterClassContext(browser())

    def words(self, selector: str) -> str:
        return self.tab.evaluate(f"document.querySelector({json.dumps(selector)}).textContent")

    def test_sums_are_those_of_the_files(self) -> None:
        open_page(self.tab)
        lines = (PAGE.parent / "SHA256SUMS").read_text(encoding="ascii").splitlines()
        listed = {name: total for total, name in (line.split("  ") for line in lines)}
        for name in ("course-match.html", "course-match.wasm"):
            self.assertEqual(hashlib.sha256((PAGE.parent / name).read_bytes()).hexdigest(), listed[name])
        self.assertEqual(listed["course-match.wasm"], self.words("#module-sum"))

    def test_published_sum_is_compared(self) -> None:
        open_page(self.tab)
        own = self.words("#module-sum")
        for typed, told in (
            (f"  {own.upper()} ", "It is the sum of the module of this page."),
            (f"{own}  course-match.wasm", "It is the sum of the module of this page."),
            ("0" * 64, "It is not the sum of the module of this page."),
            (own[:-1], "This is no SHA-256"),
            (" ", ""),
        ):
            with self.subTest(typed=typed):
                self.tab.evaluate("$('published-sum').value = ''; $('published-sum').focus()")
                self.tab.type(typed)
                said = self.words("#sums [role=status]")
                self.assertTrue(said.startswith(told) and bool(said) == bool(told), said)

    def test_page_with_another_part_runs_nothing(self) -> None:
        page = PAGE.read_text()
        worker = re.findall(r'id="worker">([^<]*)', page)[0]
        for name, content, told in (
            (
                "module",
                packed(OTHER_MODULE),
                f"The module of this page has the SHA-256 {hashlib.sha256(OTHER_MODULE).hexdigest()}",
            ),
            ("module", "AAAA", "It cannot be unpacked"),
            ("example-files", packed(OTHER_EXAMPLE), "The example term of this page has the SHA-256"),
            ("worker", worker + "//", "The worker's script of this page has the SHA-256"),
        ):
            with self.subTest(told=told):
                changed = self.room / "changed.html"
                changed.write_text(with_part(page, name, content))
                self.tab.go(changed.as_uri())
                self.tab.wait("!document.getElementById('changed').hidden")
                self.assertIn(told, self.words("#changed"))
                self.assertFalse(self.tab.evaluate("document.querySelector('main').checkVisibility()"))
                self.assertEqual("undefined", self.tab.evaluate("typeof program"))
        self.tab.seen.clear()

    def test_other_script_is_not_run(self) -> None:
        changed = self.room / "script.html"
        changed.write_text(PAGE.read_text().replace("// The page: files in", "// The page, files in"))
        self.tab.go(changed.as_uri())
        self.assertEqual("undefined", self.tab.evaluate("typeof check"))
        self.assertTrue(any("Content Security Policy" in it for _, it in self.tab.seen), self.tab.seen)
        self.tab.seen.clear()


if __name__ == "__main__":
    unittest.main()
