"""Long inputs do not hold the page up: it answers clicks while they are read, and the work can be stopped.

A machine that is slower at a fixed piece of work than the one on which the mark was set has as much more time."""

import json
import shutil
import tempfile
import unittest
from pathlib import Path

from browser import Browser, browser, chromium
from common import LONGEST_TASK, PAGE, TERM, open_page, slowness

FILES = ["catalogue.csv", "roll.csv", "settings.json", "published.txt", "desk.session", "web.session"]
MANY = b"\n" * (60 << 20)


@unittest.skipUnless(chromium() and PAGE.is_file(), "no Chromium, or no page is built")
class Long(unittest.TestCase):
    """Files of many bytes."""

    tab: Browser
    longest: float

    @classmethod
    def setUpClass(cls) -> None:
        cls.tab = cls.enterClassContext(browser())
        open_page(cls.tab)
        cls.longest = LONGEST_TASK * slowness(cls.tab)

    def setUp(self) -> None:
        self.room = Path(self.enterContext(tempfile.TemporaryDirectory(prefix="course-match-")))
        for name in FILES:
            shutil.copy(TERM / name, self.room / name)
        open_page(self.tab)

    def give(self, changed: dict[str, bytes]) -> None:
        """Gives the example term with another file, or with one more."""
        for name, content in changed.items():
            (self.room / name).write_bytes(content)
        self.tab.evaluate("list.set([])")
        self.tab.choose("#choose", sorted(self.room.iterdir()))

    def told(self, changed: dict[str, bytes], more: str = "") -> str:
        """What the page says of the example term with another file; nothing holds it up meanwhile, nor what is done
        then."""
        with self.tab.tasks() as tasks:
            self.give(changed)
            self.tab.wait("$('verdict').textContent && !isWorking()")
            if more:
                self.tab.evaluate(more)
                self.tab.wait("!isWorking()")
        self.assertLess(tasks[-1], self.longest)
        return self.tab.evaluate("$('verdict').textContent")

    def test_text_of_line_feeds(self) -> None:
        self.assertIn("line 1", self.told({"published.txt": MANY}))

    def test_text_of_one_order_line(self) -> None:
        self.assertIn("line 2", self.told({"published.txt": b"course-match 2\norder" + b" 1" * (30 << 20)}))

    def test_session_of_line_feeds(self) -> None:
        """Also for the form, which looks in it for the lines of whoever writes its name."""
        name = "$('rate-name').value = 'n.jones'; $('rate-name').dispatchEvent(new Event('input'))"
        self.assertIn("more.session", self.told({"more.session": b"clear n.jones\n" + MANY}, name))
        take = "Take the 1 line of n.jones in more.session"
        self.tab.wait(f"document.querySelector('.who').textContent.includes('{take}')")

    def test_session_of_one_line(self) -> None:
        """Whose words are as long as it."""
        self.assertIn("more.session", self.told({"more.session": b"clear " + b"n" * (15 << 20)}))

    def test_name_that_is_as_long_as_its_line(self) -> None:
        """Among one student's own lines: it is told, and shortened."""
        own = b"# What n.jones said, in the order in which the desk took it.\nclear n.jones\nclear " + b"n" * (15 << 20)
        for it in "desk.session", "web.session":
            (self.room / it).unlink()
        with self.tab.tasks() as tasks:
            self.give({"n.jones.session": own})
            self.tab.wait("document.querySelector('.note') && !isWorking()")
        self.assertLess(tasks[-1], self.longest)
        told = self.tab.evaluate("document.querySelector('.note').textContent")
        self.assertEqual(f"n.jones.session has lines of {'n' * 77}.., whom the roll does not have: they are left out.", told)

    def test_quote_that_is_not_closed(self) -> None:
        """In the catalogue, of which the form shows nothing then, and in the roll."""
        quote = b'"' + b"x,y\n" * (15 << 18)
        form = "$('to-rate').click()"
        catalogue = (TERM / "catalogue.csv").read_bytes()
        self.assertIn("catalogue.csv, row", self.told({"catalogue.csv": catalogue + quote}, form))
        self.assertIn("catalogue.csv is no catalogue", self.tab.evaluate("$('rate').textContent"))
        roll = (TERM / "roll.csv").read_bytes() + quote
        self.assertIn("roll.csv, row", self.told({"catalogue.csv": catalogue, "roll.csv": roll}, form))
        self.assertIn("ACCT-611-B", self.tab.evaluate("$('rate').textContent"))

    def test_tables_of_many_rows(self) -> None:
        """Of more sections than a market has the form shows the first 400; of names no more than a school has."""
        head, *rows = (TERM / "catalogue.csv").read_bytes().splitlines(keepends=True)
        names = b"kind,original,name\n" + b"".join(b"section,Section %d,S%d\n" % (it, it) for it in range(300_000))
        many = {"catalogue.csv": head + b"".join(rows) * 4000, "names.csv": names}
        told = self.told(many, "$('to-rate').click()")
        self.assertIn("catalogue.csv, row", told)
        self.tab.evaluate("document.querySelector('#rate tbody').fill()")
        self.assertEqual(400, self.tab.evaluate("document.querySelectorAll('#rate tbody tr').length"))

    def test_many_files(self) -> None:
        """Of 500 the first rows are drawn, and others as the last one comes into view; what has the focus keeps it, also
        where its row is far below."""
        rows = "document.querySelectorAll('#file-list li').length"
        told = self.told({f"n{it:03}.session": b"clear n.jones\n" for it in range(500)})
        self.assertIn("files are taken for sessions, and a market has at most", told)
        self.assertEqual(500 + len(FILES), self.tab.evaluate("list.files.length"))
        self.assertEqual(20, self.tab.evaluate(rows))
        last = "document.querySelector('#file-list').lastElementChild"
        with self.tab.tasks() as tasks:
            for count in 40, 60, 80:
                self.tab.evaluate(f"{last}.scrollIntoView()")
                self.tab.wait(f"{rows} === {count}")
            before = self.tab.evaluate(f"{last}.querySelector('.name').textContent")
            self.tab.evaluate(f"{last}.querySelector('select').focus()")
            self.tab.evaluate(
                f"{{ const it = {last}.querySelector('select'); it.value = 'other';"
                " it.dispatchEvent(new Event('change', { bubbles: true })) }"
            )
            self.tab.wait("document.activeElement.closest('li')?.className === 'other'")
            self.assertEqual(f"What {before} is", self.tab.evaluate("document.activeElement.getAttribute('aria-label')"))
        self.assertLess(tasks[-1], self.longest)

    def test_settings_of_blanks(self) -> None:
        told = self.told({"settings.json": b"{" + b" " * (15 << 20)}, "$('to-registrar').click()")
        self.assertIn("settings.json", told)

    def test_stop_while_a_text_is_read(self) -> None:
        """Whatever is being read: the tables, the sessions, or why they are refused."""
        self.tab.evaluate(
            "globalThis.tell = program.told.bind(program); globalThis.stopped = 0;"
            " program.told = message => { const answer = tell(message);"
            " if (message.reading === globalThis.at) { globalThis.stopped++; stopWork(); } return answer; }"
        )
        for reading in "tables", "orders", "refusal", "sum":
            with self.subTest(reading=reading):
                self.tab.evaluate(f"globalThis.at = '{reading}'; globalThis.stopped = 0")
                manifest = {"inputs": [{"role": "roll", "file": "roll.csv", "sha256": "00"}]}
                self.give(
                    {"more.session": b"clear n.jones\n" + b"\n" * (16 << 20)}
                    | ({"manifest.json": json.dumps(manifest).encode()} if reading == "sum" else {})
                )
                self.tab.wait("globalThis.stopped && $('verdict').textContent && !isWorking()")
                told = self.tab.evaluate("$('verdict').textContent")
                self.assertIn("Stopped", told)
                self.assertIn("Check again", told)

    def test_names_of_files_turn_nothing(self) -> None:
        name = "roll\u202ecsv.exe"
        (self.room / name).write_bytes((TERM / "roll.csv").read_bytes())
        (self.room / "roll.csv").unlink()
        self.assertIn("This text holds", self.told({}))
        listed = self.tab.evaluate("[...document.querySelectorAll('#file-list .name')].map(it => it.textContent)")
        self.assertIn("roll‹right-to-left override›csv.exe", listed, json.dumps(listed))


if __name__ == "__main__":
    unittest.main()
