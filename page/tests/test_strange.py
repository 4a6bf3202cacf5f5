"""Names that are words of the program or of the page's language, and lines of signs that no screen shows: they are names and
lines as any others."""

import json
import tempfile
import unittest
from pathlib import Path

from browser import Browser, browser, chromium
from common import DRAWN, PAGE, TERM, open_page

STUDENTS = ["total", "__proto__", "constructor", "toString", "hasOwnProperty", "end"]
SECTIONS = ["__proto__", "constructor", "valueOf", "total", "bundle"]
HOSTILE = '<img src=x onerror="document.title=1">'


def market() -> dict[str, bytes]:
    """A market of these names, in which all want the same; two seats a section, so that some envy others."""
    catalogue = ["section,course,seats,credits,meetings", *(f"{it},{it},2,1," for it in SECTIONS)]
    roll = ["student,budget,credits,courses", *(f"{it},{1000 + 10 * at},3,3" for at, it in enumerate(STUDENTS))]
    wishes = [
        f"rate {student} {section} {90 - 7 * at}" for student in STUDENTS for at, section in enumerate(SECTIONS)
    ]
    # what the desk refuses: a return too many, an end of a text within, a direction that turns, no name at all
    refused = ["rate total bundle 99\r\r", "rate total\0 bundle 98", "rate total bundle\u202e 97", "rate"]
    session = "\n".join([*wishes, *refused, "pair __proto__ valueOf constructor 5\r", "clear end", ""])
    files = {"catalogue.csv": catalogue, "roll.csv": roll}
    return {name: ("\n".join(lines) + "\n").encode() for name, lines in files.items()} | {
        "settings.json": (TERM / "settings.json").read_bytes().replace(b'"accept": 60', b'"accept": 1000000'),
        "desk.session": session.encode(),
    }


@unittest.skipUnless(chromium() and PAGE.is_file(), "no Chromium, or no page is built")
class Strange(unittest.TestCase):
    """One market, run, checked and looked at in the page."""

    tab: Browser

    @classmethod
    def setUpClass(cls) -> None:
        cls.tab = cls.enterClassContext(browser())

    def setUp(self) -> None:
        self.room = Path(self.enterContext(tempfile.TemporaryDirectory(prefix="course-match-")))
        self.tab.look(390, 844)
        open_page(self.tab)

    def tearDown(self) -> None:
        failed = [it for what, it in self.tab.seen if what == "fails"]
        asked = [it for what, it in self.tab.seen if what == "asks" and not it.startswith(("blob:", "about:", "file:"))]
        self.tab.seen.clear()
        self.assertEqual(([], [], "Course Match"), (failed, asked, self.tab.evaluate("document.title")))

    def give(self, files: dict[str, bytes]) -> None:
        for name, content in files.items():
            (self.room / name).write_bytes(content)
        self.tab.choose("#choose", [self.room / it for it in files])

    def text_of_run(self) -> bytes:
        """Runs the market in the page, and has its text checked there."""
        self.give(market())
        self.tab.wait("document.querySelector('#registrar form') && !isWorking()")
        self.tab.evaluate("document.querySelector('#registrar form').requestSubmit()")
        self.tab.wait("registrar.made && !isWorking()")
        text = self.tab.evaluate("new TextDecoder().decode(registrar.made.text.bytes)")
        self.tab.evaluate("registrar.made.isSaved = true; registrar.take(registrar.made.text, registrar.made.settings)")
        self.tab.wait("$('verdict').textContent.includes('This text holds') && $('student-name') && !isWorking()")
        return text.encode()

    def test_whole_market(self) -> None:
        text = self.text_of_run().decode()
        for name in STUDENTS:
            with self.subTest(name=name):
                self.tab.evaluate(f"showStudent({json.dumps(name)})")
                self.tab.wait("/^Yes|rated nothing/.test(document.querySelector('#answer .lead').textContent)")
                self.tab.wait(f"document.querySelector('#student-answer table') && {DRAWN}")
                final = next(it for it in text.splitlines() if it.startswith(f"final {name} "))
                held = [it for it in final.split(" ")[2].strip("[]").split(",") if it]
                told = self.tab.evaluate("document.querySelector('.holds').textContent")
                named = told.split(" holds ")[1].split(", worth ")[0].replace(",", "").rstrip(".").split()
                self.assertEqual(held, [it for it in SECTIONS if it in named])
        rated = self.tab.evaluate("[...shown.market.wishes.get('total').ratings]")
        self.assertEqual([[it, 90 - 7 * at] for at, it in enumerate(SECTIONS)], rated)
        pairs = self.tab.evaluate("shown.market.wishes.get('__proto__').pairs")
        self.assertEqual([["constructor", "valueOf"], 5], [sorted(pairs[0][:2]), pairs[0][2]])
        self.tab.evaluate("show('auditor')")
        self.tab.wait("!$('auditor').fill")
        look = "[...document.querySelectorAll('#auditor button')].find(it => /envies/.test(it.textContent))"
        self.tab.evaluate(f"{look}?.click()")
        self.tab.wait("$('auditor').textContent.includes('students envy') && !isWorking()")
        names = self.tab.evaluate(
            "[...document.querySelectorAll('[aria-label=\"Students: budgets and bundles\"] tbody th')].map(it =>"
            " it.textContent)"
        )
        self.assertEqual(STUDENTS, names)

    def test_what_the_desk_refused_is_no_wish(self) -> None:
        self.give(market())
        self.tab.wait("document.querySelector('#registrar form') && !isWorking()")
        self.tab.evaluate("$('to-registrar').click(); document.querySelector('#registrar .buttons button').click()")
        self.tab.wait("$('run-answer').textContent.includes('The desk carried out') && !isWorking()")
        told = self.tab.evaluate("$('run-answer').textContent")
        commands = len(STUDENTS) * len(SECTIONS) + 6
        self.assertIn(f"The desk carried out {commands - 4} of {commands} commands.", told)
        for shown in "99\\r", "total\\0 bundle", "bundle‹right-to-left override› 97":
            self.assertIn(shown, told)

    def test_own_lines(self) -> None:
        text = self.text_of_run()
        self.tab.evaluate("list.set([])")
        files = market()
        session = files.pop("desk.session").decode().splitlines(keepends=True)
        for name in ("__proto__", "total"):
            with self.subTest(name=name):
                own = "".join(it for it in session if it.split()[1:2] == [name]).encode()
                quoted = HOSTILE.replace('"', '""')
                names = f'kind,original,name\nstudent,"{quoted}",{name}\n__proto__,x,y\n'.encode()
                self.tab.evaluate("list.set([])")
                self.give({**files, "published.txt": text, f"{name}.session": own, "names.csv": names})
                lead = "document.querySelector('#answer .lead')?.textContent"
                self.tab.wait(f"{lead}?.startsWith('Yes') && {DRAWN}")
                heading = self.tab.evaluate("document.querySelector('#student-answer h2').textContent")
                self.assertEqual(f"{HOSTILE} {name}", heading)


if __name__ == "__main__":
    unittest.main()
