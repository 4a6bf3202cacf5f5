"""Clicks through the page as its three readers do, by the browser's remote protocol, and keeps pictures for the eye."""

import functools
import hashlib
import json
import shutil
import tempfile
import unittest
from collections.abc import Mapping
from pathlib import Path

from browser import Browser, browser, chromium
from common import DRAWN, PAGE, PICTURES, TERM, open_page

FILES = ["catalogue.csv", "roll.csv", "settings.json", "published.txt", "desk.session", "web.session"]
BESIDE = ["dropadd.txt", "envy.txt", "reason.txt", "desk.requests"]
SIZES = {"desktop": (1200, 900), "phone": (390, 844)}
OLD = {
    "no module can be read": "WebAssembly.validate = () => false",
    "no WebAssembly": "delete globalThis.WebAssembly",
    "nothing can be unpacked": "delete globalThis.DecompressionStream",
    "a word that is not known": "JSON.parse = () => { throw SyntaxError('old'); }",
}
# What stands on the page, also as the hint of a field, with a contrast to what is behind it of less than 4.5.
FAINT = """(() => {
  const numbers = it => it.match(/[\\d.]+/g).map(Number);
  const linear = it => it <= .03928 ? it / 12.92 : ((it + .055) / 1.055) ** 2.4;
  const light = ([red, green, blue]) =>
    .2126 * linear(red / 255) + .7152 * linear(green / 255) + .0722 * linear(blue / 255);
  const behind = it => {
    const ground = numbers(getComputedStyle(it).backgroundColor);
    return ground.length === 3 || !it.parentElement ? ground : behind(it.parentElement);
  };
  const contrast = (color, ground) => {
    const [one, other] = [light(numbers(color)), light(ground)];
    return (Math.max(one, other) + .05) / (Math.min(one, other) + .05);
  };
  const hasWords = it => [...it.childNodes].some(that => that.nodeType === 3 && that.textContent.trim());
  const seen = [...document.querySelectorAll('body *')].filter(it => it.checkVisibility());
  const words = seen.filter(hasWords).map(it => [it, getComputedStyle(it).color]);
  const hints = seen.filter(it => it.placeholder).map(it => [it, getComputedStyle(it, '::placeholder').color]);
  return [...words, ...hints].filter(([it, color]) => contrast(color, behind(it)) < 4.5)
    .map(([it, color]) => `${it.outerHTML.slice(0, 80)} ${color}`);
})()"""


def has_content(file: Path) -> bool:
    """Whether a file is there, and not empty."""
    return file.is_file() and file.stat().st_size > 0


@unittest.skipUnless(chromium() and PAGE.is_file(), "no Chromium, or no page is built")
class Ways(unittest.TestCase):
    """Each test opens the page anew."""

    tab: Browser

    @classmethod
    def setUpClass(cls) -> None:
        cls.tab = cls.enterClassContext(browser())
        PICTURES.mkdir(parents=True, exist_ok=True)

    def setUp(self) -> None:
        self.room = Path(self.enterContext(tempfile.TemporaryDirectory(prefix="course-match-")))
        self.tab.look(*SIZES["desktop"])
        open_page(self.tab)

    def tearDown(self) -> None:
        asked = [
            it for what, it in self.tab.seen if what == "asks" and not it.startswith(("blob:", "about:", PAGE.as_uri()))
        ]
        failed = [it for what, it in self.tab.seen if what == "fails"]
        self.tab.seen.clear()
        self.assertEqual(([], []), (asked, failed))

    def give(self, names: list[str], changed: Mapping[str, bytes | None] | None = None) -> None:
        """Chooses files of the example term, some of them with another content."""
        for name in names:
            content = (changed or {}).get(name)
            (self.room / name).write_bytes(content if content is not None else (TERM / name).read_bytes())
        self.tab.choose("#choose", [self.room / it for it in names])

    def verdict(self, title: str) -> str:
        """Waits for the verdict; answers all its words."""
        self.tab.wait(f"document.querySelector('#verdict h2')?.textContent === {json.dumps(title)} && !isWorking()")
        return self.words("#verdict")

    def words(self, selector: str) -> str:
        return self.tab.evaluate(f"document.querySelector({json.dumps(selector)}).textContent")

    def click(self, words: str) -> None:
        """Clicks the button that has these words."""
        self.tab.evaluate(
            f"[...document.querySelectorAll('button, summary')].find(it => it.checkVisibility() && "
            f"it.textContent.includes({json.dumps(words)})).click()"
        )

    def open_all(self, selector: str) -> None:
        """Opens all parts below an element, and what stands in them."""
        for _ in range(9):
            self.tab.evaluate(
                f"document.querySelectorAll('{selector} details').forEach(it => it.open = true); new Promise(done => "
                f"setTimeout(done, 50))"
            )

    def pictures(self, name: str) -> None:
        """Keeps the page light and dark, on a desktop and on a phone."""
        for size, (width, height) in SIZES.items():
            for dark in (False, True):
                self.tab.look(width, height, dark)
                self.tab.picture(PICTURES / f"{name}-{size}-{'dark' if dark else 'light'}.png")
        self.tab.look(*SIZES["desktop"])

    def show(self, name: str) -> None:
        """Types a student's name and presses Enter."""
        self.tab.evaluate("$('student-name').select()")
        self.tab.type(name)
        self.tab.press("Enter", "\r")
        self.tab.wait(f"$('student-answer').querySelector('h2')?.textContent === {json.dumps(name)} && {DRAWN}")

    def test_files_and_folders_are_dropped(self) -> None:
        self.tab.drop([TERM / it for it in FILES])
        self.verdict("This text holds")
        open_page(self.tab)
        fall, spring = self.room / "fall", self.room / "spring"
        (fall / "wishes").mkdir(parents=True)
        for it in FILES:
            shutil.copy(TERM / it, fall / ("wishes" if it.endswith(".session") else "") / it)
        self.tab.drop([fall])
        self.verdict("This text holds")
        self.assertIn("wishes/desk.session", self.words("#file-list"))
        open_page(self.tab)
        shutil.copytree(fall, spring)
        self.tab.drop([fall, spring])
        self.assertIn(
            "the roll (fall/roll.csv and spring/roll.csv): remove all but one",
            self.verdict("The files do not fit together"),
        )

    def test_lists_of_the_registrars_tools_are_no_parts_of_a_market(self) -> None:
        for name, first, kind in (
            ("students.csv", "\ufeffstudent,sections,credits,spent,left", "other"),
            ("hall-students.csv", "\ufeffstudent,sections", "other"),
            ("rosters.csv", "\ufeffsection,student", "other"),
            ("names.csv", "\ufeffkind,original,name", "names"),
            ("summary.html", "<!DOCTYPE html>", "other"),
            ("students/000113.txt", "000113", "unknown"),
            ("students/000113.session", "# What 000113 said, in the order in which the desk took it.", "own"),
            ("web.session", "# What we said\nclear 000113", "session"),
            ("roll.next.csv", "student,budget,credits,courses,carry", "roll"),
        ):
            self.assertEqual(
                kind,
                self.tab.evaluate(f"kindOf({json.dumps(name)}, new TextEncoder().encode({json.dumps(first)} + '\\n'))"),
                name,
            )

    def test_folder_that_is_not_opened_is_told(self) -> None:
        self.tab.evaluate("DataTransferItem.prototype.getAsFileSystemHandle = undefined")
        self.tab.drop([TERM])
        self.assertIn("open the folder, and give the files", self.verdict("The folder was not opened"))

    def test_nothing_of_old_files_stands_beside_new_ones(self) -> None:
        self.click("Take the example term")
        self.verdict("This text holds")
        self.show("n.jones")
        self.tab.evaluate(
            "globalThis.ask = program.ask.bind(program); program.ask = (...it) => new Promise(done => { globalThis.go "
            "= () => done(ask(...it)); })"
        )
        self.give(
            ["roll.csv"], {"roll.csv": (TERM / "roll.csv").read_bytes().replace(b"n.jones,4500", b"n.jones,4600")}
        )
        self.tab.wait("globalThis.go")
        self.assertEqual("", self.words("#verdict"))
        for view in ("student", "auditor"):
            self.assertIn("The files are being checked", self.words(f"#{view}"))
        self.tab.evaluate("go()")
        self.assertIn("The budget of n.jones is not", self.verdict("This text does not hold"))
        self.assertIn("nothing of it is shown", self.words("#student"))

    def test_files_that_are_no_texts_are_told(self) -> None:
        roll, settings, text = ((TERM / it).read_bytes() for it in ("roll.csv", "settings.json", "published.txt"))
        for name, content, title, words in (
            (
                "roll.csv",
                roll.decode().encode("utf-16"),
                "Not all files are there yet",
                "roll.csv is a text in UTF-16: save it in UTF-8.",
            ),
            (
                "roll.csv",
                b"PK\3\4" + bytes(99),
                "Not all files are there yet",
                "roll.csv is a packed file or a workbook",
            ),
            ("published.txt", b"%PDF-1.7\n", "Not all files are there yet", "published.txt is a PDF"),
            ("roll.csv", b"", "A file is refused", "roll.csv is empty."),
            ("settings.json", b"", "A file is refused", "settings.json is empty."),
            ("published.txt", b"", "This text does not hold", "published.txt is empty."),
            (
                "published.txt",
                b"\xef\xbb\xbf" + text,
                "This text does not hold",
                "published.txt begins with a byte order mark.",
            ),
            (
                "published.txt",
                text.replace(b"\n", b"\r\n"),
                "This text does not hold",
                "published.txt has carriage returns",
            ),
            ("published.txt", text[:-1], "This text does not hold", "the text ends before that"),
            (
                "settings.json",
                settings.replace(b"}", b',"Turns": 3}'),
                "A file is refused",
                "It has “Turns”, which is no setting",
            ),
        ):
            with self.subTest(words=words):
                self.give(FILES, {name: content})
                self.assertIn(words, self.verdict(title))
                self.click("Remove all files")
                self.tab.wait("!list.files.length && !$('verdict').textContent")

    def test_tables_of_a_spreadsheet_are_taken(self) -> None:
        tables = {name: b"\xef\xbb\xbf" + (TERM / name).read_bytes().replace(b"\n", b"\r\n") for name in FILES[:2]}
        self.give(FILES, tables)
        self.verdict("This text holds")

    def test_file_that_cannot_be_read_is_told(self) -> None:
        self.tab.evaluate("File.prototype.arrayBuffer = () => Promise.reject(new DOMException('', 'NotReadableError'))")
        self.give(["roll.csv"])
        self.assertIn("roll.csv cannot be read", self.verdict("Not all files are there yet"))

    def test_text_of_another_term_is_told(self) -> None:
        self.give(
            FILES,
            {
                "roll.csv": (TERM / "roll.csv")
                .read_bytes()
                .replace(b"n.jones,", b"n.johns,")
                .replace(b"s.adler,", b"s.eagle,")
            },
        )
        told = self.verdict("This text does not hold")
        self.assertIn("Of the 100 students of the text roll.csv lacks 2 (s.adler and n.jones).", told)
        self.assertIn("It may be the text of another term than roll.csv.", told)
        self.give(["roll.csv"])
        self.verdict("This text holds")
        self.give(
            ["published.txt"],
            {"published.txt": (TERM / "published.txt").read_bytes().replace(b"course-match 2", b"course-match 1")},
        )
        self.assertIn("the first line is to be “course-match 2”", self.verdict("This text does not hold"))

    def test_line_that_is_due_is_told(self) -> None:
        text = (TERM / "published.txt").read_bytes()
        for changed, words in (
            (
                text.replace(b"budget n.jones ", b"budget n.johns "),
                "The line that is due there begins with “budget n.jones”.",
            ),
            (
                text.replace(b"final n.jones [ACCT-611-B,", b"final n.jones [ACCT-611-X,"),
                "catalogue.csv has no section ACCT-611-X.",
            ),
        ):
            with self.subTest(words=words):
                self.give(FILES, {"published.txt": changed})
                self.tab.wait(f"$('verdict').textContent.includes({json.dumps(words)}) && !isWorking()")
                self.assertIn(
                    "The line does not have the form that is due there.", self.verdict("This text does not hold")
                )

    def test_sessions_that_do_not_fit_are_told(self) -> None:
        web = (TERM / "web.session").read_bytes()
        nothing: dict[str, bytes] = {}
        for names, changed, words in (
            (FILES[:5], nothing, "No session of 605 commands is left for it: one is missing"),
            (
                [*FILES, "more.session"],
                {"more.session": b"clear n.jones\n"},
                "no session of so many commands as more.session (1 command)",
            ),
            (
                [*FILES, "web (1).session"],
                {"web (1).session": web},
                "web (1).session is the same as web.session: remove one of them.",
            ),
        ):
            with self.subTest(words=words):
                self.give(names, changed)
                told = self.verdict("The text and these sessions do not fit together")
                self.assertIn(words, told)
                self.assertIn("its own lines alone gives these and no other session", told)
                self.click("Remove all files")
                self.tab.wait("!list.files.length && !$('verdict').textContent")

    def test_lines_of_one_student_give_way_to_all_sessions(self) -> None:
        own = b"# What n.jones said, in the order in which the desk took it.\nrate n.jones FNCE-601-A 100\n"
        self.give([*FILES[:4], "n.jones.session"], {"n.jones.session": own})
        self.tab.wait("document.querySelector('.known') && !isWorking()")
        self.give(FILES[4:])
        self.verdict("This text holds")

    def test_more_sessions_than_a_market_has_are_told(self) -> None:
        given = {f"{it}.session": b"clear n.jones\n" for it in range(65)}
        self.give([*FILES[:4], *given], given)
        self.assertIn(
            "65 files are taken for sessions, and a market has at most 64",
            self.verdict("The files do not fit together"),
        )

    def test_failure_is_told(self) -> None:
        self.tab.evaluate("setTimeout(() => { throw new Error('something'); })")
        self.assertIn("something", self.verdict("The page failed"))
        self.tab.seen.clear()

    def test_order_of_the_sessions_is_found(self) -> None:
        self.give(FILES)
        self.verdict("This text holds")
        self.tab.evaluate("$('files').open = true")
        self.click("Up")
        self.tab.wait("list.files.findIndex(it => it.name === 'web.session') === 4")
        self.verdict("This text holds")
        self.assertEqual(
            ["desk.session", "web.session"], self.tab.evaluate("shown.market.parts.sessions.map(it => it.name)")
        )

    def test_order_that_was_not_tried_is_no_finding(self) -> None:
        given = {
            "catalogue.csv": b"section,course,seats,credits,meetings\nX,X,1,1,\n",
            "roll.csv": b"student,budget,credits,courses\nann,100,5,5\n",
            "settings.json": b'{"seed":1,"spread":0,"accept":0,"turns":0,"tabu":1,"patience":1,"steps":[1],"raise":0}',
            "published.txt": b"course-match 1\norder 1 2 3 4 5\nbudget ann 100\nstart X 0\nerror 0\nprice X 0\n"
            b"bundle ann [X] +*n\nturn 1 ann [X] +*n\nfinal ann [X]\nused X 1 1\nend\n",
            **{f"{it}.session": b"rate ann X %d\n" % (5 if it == "a" else 0) for it in "abcde"},
        }
        self.give(list(given), given)
        self.assertIn("put them into the order that the school says", self.verdict("This text was not found to hold"))
        for at in range(5, 9):
            self.tab.evaluate(f"list.moveUp(list.files[{at}])")
        self.verdict("This text holds")

    def test_student(self) -> None:
        self.give(
            ["web.session", "published.txt", *BESIDE, "settings.json", "roll.csv", "desk.session", "catalogue.csv"]
        )
        self.verdict("This text holds")
        self.show("n.jones")
        self.open_all("#student-answer")
        self.tab.wait("!isWorking()")
        told = self.words("#student-answer")
        for words in (
            "nothing better was to be had for 4,542 tokens, nor at the turns of n.jones in the aftermarket for 4,996,",
            "of the whole text, with all sessions: it holds;",
            "In the end n.jones holds ACCT-611-B, FNCE-601-A and MGMT-691-B, worth 262 by the ratings of n.jones, prices together",
            "4,542 tokens: 4,500 by the roll, and 42 by the draw",
            "The price of FNCE-717-A is 3,252. n.jones bought ACCT-611-B, FNCE-601-A and HCMG-841-A, whose prices "
            "together are 3,914. "
            "Of its budget of 4,542 that leaves 628, too little for FNCE-717-A besides.",
            "ACCT-611-B and FNCE-717-A (prices together 4,103), worth 188 by the ratings of n.jones",
            "worth 260, 72 more",
            "at the end of the second stage: 8",
            "aftermarket, passes 1 to 5, at the turn of n.jones: none",
            "in the end: none",
            "the turn of n.jones is number 100 of 100. With a free seat too n.jones would not have taken it: at each",
            "s.adler, whose budget is 5,018",
            "ACCT-611-B, FNCE-601-A and MGMT-691-B, which are worth more",
            "Without ACCT-611-B it would not envy s.adler.",
        ):
            self.assertIn(words, told)
        self.assertNotIn("costs", told)
        self.assertIn("“Whole text” says what that means, and what it does not mean.", self.words("#verdict"))
        self.pictures("student")

    def test_trees_are_read_as_the_guide_reads_them(self) -> None:
        self.click("Take the example term")
        self.verdict("This text holds")
        self.show("n.jones")
        self.click("Second stage")
        self.open_all("#student-answer")
        told = self.words("#student-answer")
        for words in (
            "3,691 of 4,542 tokens, 6 of 8 credits and 4 of 5 sections",
            "1,749 of 4,542 tokens",
            "FNCE-601-B is of the same course as FNCE-601-A",
            "What is chosen is worth 188. Nothing else can come to it.",
            "109 (its rating 100, and 9 more by pairs: two sections that were said to be worth more, or less, together) for 2,989",
            "+ 31.644 (HCMG-841-A: 72 less 0.036 · 1,121)",
            "+ 6.592 (FNCE-601-B",
            "+ 1.396 (MGMT-690-A",
            "= 260.508",
            "Worth is a whole number, so at most 260, as much as the bundle; and a tie goes to the bundle, which alone has",
            "= 247.429",
            "439 of 4,542 tokens",
            "FNCE-717-A can no more be taken: it has the price 3,252, and 1,749 tokens are left",
            "! the section that is asked for: it has to be taken",
            "72 (HCMG-841-A)",
            "So at most 172, less than the 188 of the bundle",
        ):
            self.assertIn(words, told)
        self.pictures("trees")

    def test_auditor(self) -> None:
        self.give(FILES)
        self.verdict("This text holds")
        self.click("Whole text")
        self.tab.wait("!$('auditor').fill")
        self.assertIn("59 by the text, which the check does not judge (the settings accept 60)", self.words("#auditor"))
        sections = "document.querySelector('[aria-label=\"Sections: prices and seats\"]')"
        for _ in range(2):
            self.tab.evaluate(
                f"[...{sections}.querySelectorAll('button')].find(it => it.textContent === 'Price').click()"
            )
        self.assertEqual(
            "FNCE-717-A3,252",
            self.tab.evaluate(
                f"[...{sections}.querySelector('tbody tr').children].slice(0, 2).map(it => it.textContent).join('')"
            ),
        )
        self.assertEqual(
            "descending", self.tab.evaluate(f"{sections}.querySelector('[aria-sort]').getAttribute('aria-sort')")
        )
        self.tab.evaluate(
            "{ const filter = document.querySelector('[aria-label=\"Filter: Students: budgets and bundles\"]'); "
            "filter.value = 'n.jones'; filter.dispatchEvent(new Event('input')); }"
        )
        self.assertEqual(
            1,
            self.tab.evaluate(
                "document.querySelectorAll('[aria-label=\"Students: budgets and bundles\"] tbody tr').length"
            ),
        )
        self.click("Look whom each student envies")
        self.tab.wait("$('auditor').textContent.includes('Who envies whom')")
        told = self.words("#auditor")
        for stage, lower, higher in ("In the second stage", "0 times", "47 times"), (
            "In the end",
            "1 time",
            "50 times",
        ):
            words = (
                f"students envy {lower} somebody of a budget no greater than their own, "
                f"and {higher} somebody of a greater one."
            )
            self.assertIn(f"{stage} {words}", told)
        rows = "[...document.querySelectorAll('[aria-label=\"Who envies whom\"] tbody tr')]"
        row = self.tab.evaluate(
            f"[...{rows}.find(it => it.textContent.startsWith('n.jones')).children].map(it => it.textContent)"
        )
        self.assertEqual(["n.jones", "4,542", "0", "2", "s.adler, but for ACCT-611-B"], row[:5])
        self.pictures("auditor")

    def test_finding_has_its_place(self) -> None:
        spoilt = (
            (TERM / "published.txt")
            .read_bytes()
            .replace(b"bundle n.jones [ACCT-611-B,FNCE-601-A,HCMG-841-A]", b"bundle n.jones [ACCT-611-B,FNCE-601-A]")
        )
        self.give(FILES, {"published.txt": spoilt})
        told = self.verdict("This text does not hold")
        at = spoilt.index(b"bundle n.jones")
        line, column = spoilt[:at].count(b"\n") + 1, spoilt.index(b"] ", at) - at + 3 + 11
        for words in (
            "finding: student n.jones tree open at 11",
            f"This is line {line}, column {column} of published.txt",
            "does not prove that the bundle is the best one: behind its first 11 characters it "
            "stops where it has to go on",
        ):
            self.assertIn(words, told)
        self.assertEqual("*", self.words("#verdict mark"))
        self.pictures("finding")

    def test_registrar(self) -> None:
        self.give([it for it in FILES if it != "published.txt"])
        self.click("Run a market")
        self.tab.wait("document.querySelector('#registrar form')")
        self.click("Look at the wishes")
        self.tab.wait("document.querySelector('#run-answer h3')")
        self.assertIn("The desk carried out", self.words("#run-answer"))
        self.tab.evaluate("$('setting-accept').value = '0'; $('setting-turns').value = '0'")
        self.tab.evaluate("document.querySelector('#registrar form').requestSubmit()")
        self.tab.wait("document.querySelector('#run-answer h3')?.textContent === 'No prices were found'")
        self.click("Set “accept” to")
        self.assertEqual("", self.words("#run-answer"))
        self.tab.evaluate("document.querySelector('#registrar form').requestSubmit()")
        self.tab.wait("document.querySelector('#run-answer h3')?.textContent === 'The market has prices'")
        self.pictures("registrar")
        self.tab.call("Page.setDownloadBehavior", behavior="allow", downloadPath=str(self.room))
        for name, words in (("published.txt", "Save the published text"), ("manifest.json", "Save the manifest")):
            self.click(words)
            self.tab.until(functools.partial(has_content, self.room / name), f"{name} is saved")
        manifest = json.loads((self.room / "manifest.json").read_text())
        origin = json.loads((PAGE.parent / "course-match.json").read_text())
        keys = {"inputs", "words", "program", "text", "elapsed", "made", "page"}
        self.assertEqual(keys if origin["proved"] else keys | {"unproved"}, set(manifest))
        self.assertEqual([origin["module"], origin["commit"]], [manifest["program"], manifest["page"]])
        self.assertEqual(
            ["catalogue", "roll", "settings", "session", "session"], [it["role"] for it in manifest["inputs"]]
        )
        self.assertEqual(
            hashlib.sha256((self.room / "published.txt").read_bytes()).hexdigest(), manifest["text"]["sha256"]
        )
        self.click("Check it and look at it")
        self.verdict("This text holds")
        self.assertEqual("The whole text", self.tab.evaluate("document.activeElement.textContent"))
        self.click("Run a market")
        self.assertIn("Save the published text", self.words("#run-answer"))
        self.assertRegex(self.words("#run-answer"), r"accept \d+; turns 0;")
        self.give(["desk.session", "web.session"])
        self.verdict("This text holds")
        self.assertIn("Save the published text", self.words("#run-answer"))
        self.give(["desk.session"], {"desk.session": b"clear n.jones\n"})
        self.verdict("The text and these sessions do not fit together")
        self.assertEqual("", self.words("#run-answer"))

    def submit(self, **settings: str) -> None:
        """Writes settings into the form and runs the market."""
        for name, value in settings.items():
            self.tab.evaluate(
                f"$('setting-{name}').value = {json.dumps(value)}; $('setting-{name}').dispatchEvent(new "
                f"Event('input', {{ bubbles: true }}))"
            )
        self.tab.evaluate("document.querySelector('#registrar form').requestSubmit()")

    def test_settings_stand_in_the_form_as_in_the_file(self) -> None:
        files, settings = [it for it in FILES if it != "published.txt"], (TERM / "settings.json").read_bytes()
        for one, other in (
            (b"2026", b"18446744073709551615"),
            (b'"raise"', b'"raise": 3, "raise"'),
            (b'"tabu"', b'"Tabu"'),
        ):
            settings = settings.replace(one, other)
        self.give(files, {"settings.json": settings})
        self.tab.wait("$('setting-seed')")
        values = self.tab.evaluate("['seed', 'raise', 'steps'].map(it => $(`setting-${it}`).value)")
        self.assertEqual(["18446744073709551615", "10", "3, 12, 50"], values)
        told = self.words("#registrar")
        self.assertIn("settings.json does not say tabu: what stands here is the usual.", told)
        self.assertIn("settings.json has “Tabu”, which is no setting and is not taken.", told)
        self.tab.evaluate(
            "$('setting-turns').value = '7'; $('setting-turns').dispatchEvent(new Event('input', { bubbles: true }))"
        )
        self.give(["more.session"], {"more.session": b"clear n.jones\n"})
        self.tab.wait("$('registrar').textContent.includes('more.session') && $('setting-turns').value === '7'")
        self.give(["settings.json"], {"settings.json": b"{seed: 7}"})
        self.tab.wait(
            "$('registrar').textContent.includes('settings.json is no JSON object, so that the usual settings stand "
            "here')"
        )
        self.assertEqual("2026", self.tab.evaluate("$('setting-seed').value"))

    def test_wrong_settings_are_told_of_their_field(self) -> None:
        self.give([it for it in FILES if it != "published.txt"])
        self.click("Run a market")
        self.tab.wait("$('setting-accept')")
        for name, value, words in (
            ("accept", "1,000", "“1,000” stands here. Expected: a whole number, 0 to 1000000000000"),
            ("steps", "3; 12", "“3; 12” stands here. Expected: a list of 1 to 16 numbers"),
            ("raise", "51", "The setting raise is out of its range. Expected: a whole number, 0 to 50"),
            ("turns", "10001", "The setting turns is out of its range."),
        ):
            with self.subTest(name=name):
                self.submit(**{name: value})
                self.tab.wait(f"$('wrong-{name}')?.textContent.includes({json.dumps(words)}) && !isWorking()")
                self.assertNotIn("settings.json", self.words("#registrar form"))
                self.assertIn(
                    f"wrong-{name}", self.tab.evaluate("document.activeElement.getAttribute('aria-describedby')")
                )
                focus = self.tab.evaluate(
                    "[document.activeElement.id, document.activeElement.getAttribute('aria-invalid')]"
                )
                self.assertEqual([f"setting-{name}", "true"], focus)
                self.submit(accept="100000", turns="0", steps="3 12", **{"raise": "10"})
                self.tab.wait("document.querySelector('#run-answer h3')?.textContent === 'The market has prices'")
                self.assertIn("steps 3, 12;", self.words("#run-answer"))
                faults = "document.querySelectorAll('#registrar [aria-invalid], #registrar .fault').length"
                self.assertEqual(0, self.tab.evaluate(faults))
        self.submit(seed="9" * 400)
        self.tab.wait("document.querySelector('#run-answer h3')?.textContent === 'A file is refused'")

    def test_run_warns_of_wishes_without_effect(self) -> None:
        export = b"Student;Section;Points\nn.jones;FNCE-601-A;100\nrate\n"
        self.give(["catalogue.csv", "roll.csv", "desk.session", "web.session"], {"web.session": export})
        self.click("Run a market")
        self.tab.wait("$('setting-accept')")
        self.submit(accept="100000", turns="0")
        self.tab.wait("document.querySelector('#run-answer h3')?.textContent === 'The market has prices'")
        warning = r"Before you publish it: the desk did not carry out 3 of 993 commands, and \d+ students want nothing."
        self.assertRegex(self.words("#run-answer"), warning)
        self.click("Look at the wishes")
        self.tab.wait("document.querySelector('#run-answer h3')?.textContent === 'What the desk replies'")
        self.assertIn("Save the published text", self.words("#run-answer"))

    def test_text_that_is_not_saved_is_asked_for(self) -> None:
        self.give([it for it in FILES if it != "published.txt"])
        self.click("Run a market")
        self.tab.wait("$('setting-accept')")
        self.submit(accept="100000", turns="0")
        self.tab.wait("registrar.made")
        self.tab.press("Tab")
        question = ("dialog", "beforeunload")
        for button, dialogs in ("Look at the wishes", [question]), ("Save the published text", []):
            self.click(button)
            self.tab.seen.clear()
            if dialogs:
                self.tab.call("Page.reload")
                self.tab.until(
                    lambda: self.tab.call("Page.getNavigationHistory") and question in self.tab.seen, "the page asks"
                )
                self.tab.call("Page.handleJavaScriptDialog", accept=False)
            else:
                self.tab.reload()
            self.assertEqual(dialogs, [it for it in self.tab.seen if it[0] == "dialog"])

    def test_work_can_be_stopped(self) -> None:
        self.click("Take the example term")
        self.verdict("This text holds")
        self.click("Run a market")
        self.tab.evaluate("$('setting-accept').value = '0'; $('setting-turns').value = '10000'")
        self.tab.evaluate("document.querySelector('#registrar form').requestSubmit()")
        self.tab.wait("!$('working').hidden && $('working-time').textContent !== ''")
        self.assertIn("Running the market", self.words("#working"))
        self.click("Stop")
        self.tab.wait("document.querySelector('#run-answer h3')?.textContent === 'Stopped' && $('working').hidden")
        self.tab.evaluate("document.querySelector('#registrar form').requestSubmit()")
        self.tab.wait("!$('working').hidden")
        self.give(["more.session"], {"more.session": b"# nothing\n"})
        self.tab.wait("$('registrar').textContent.includes('more.session')")
        self.assertEqual(
            "The files were changed, so the run was stopped: run the market again.", self.words("#run-answer")
        )
        self.verdict("This text holds")
        self.click("One student")
        self.tab.evaluate(
            "globalThis.ask = program.ask; program.ask = () => Promise.resolve({ status: 'stopped', text: '' })"
        )
        self.show("n.jones")
        told = "document.querySelector('.question .answer').textContent"
        self.tab.wait(f"{told}.includes('The work was stopped before its end. Nothing is lost.')")
        self.assertIn("The work was stopped before the program had answered.", self.words("#answer"))
        envy = "[...document.querySelectorAll('#student section')].find(it => it.textContent.startsWith('What others'))"
        self.assertIn(
            "The work was stopped before its end. Nothing is lost. Ask again", self.tab.evaluate(f"{envy}.textContent")
        )
        self.tab.evaluate(
            "program.ask = globalThis.ask; [...document.querySelectorAll('#student button')].filter(it => "
            "it.textContent === 'Ask again').forEach(it => it.click())"
        )
        self.tab.wait(
            f"{told}.includes('The price of FNCE-717-A is 3,252') && $('student').textContent.includes('s.adler, whose "
            f"budget is 5,018') && $('answer').textContent.startsWith('Yes')"
        )

    def test_back_leads_to_what_was_looked_at(self) -> None:
        self.click("Take the example term")
        self.verdict("This text holds")
        self.click("Whole text")
        self.tab.wait("!$('auditor').fill")
        self.click("s.adler")
        self.show("n.jones")
        self.click("Run a market")
        for view, name in ("student", "n.jones"), ("student", "s.adler"), ("auditor", "s.adler"):
            self.tab.evaluate("history.back()")
            self.tab.wait(
                f"shown.view === '{view}' && $('student-answer').dataset.name === '{name}' && !$('{view}').hidden"
            )
            self.assertEqual(PAGE.as_uri(), self.tab.evaluate("location.href"))
        self.tab.evaluate("history.go(2)")
        self.tab.wait("shown.view === 'student' && $('student-answer').dataset.name === 'n.jones'")
        self.tab.reload()
        self.tab.wait("document.body.dataset.ready && !list.files.length")
        self.give(FILES)
        self.verdict("This text holds")
        self.assertEqual(["student", "n.jones"], self.tab.evaluate("[shown.view, $('student-answer').dataset.name]"))

    def test_long_names_stay_on_a_narrow_screen(self) -> None:
        changed = {
            it: (TERM / it).read_bytes().replace(b"n.jones", b"N" * 32).replace(b"FNCE-717-A", b"F" * 32)
            for it in FILES
        }
        self.tab.look(360, 740)
        self.give(FILES, changed)
        self.verdict("This text holds")
        self.show("N" * 32)
        self.tab.evaluate("$('files').open = true")
        for view in ("One student", "Rate sections", "Whole text", "Run a market"):
            self.click(view)
            self.assertEqual(
                [360, 360],
                self.tab.evaluate("[document.documentElement.clientWidth, document.documentElement.scrollWidth]"),
                view,
            )

    def test_no_answer_stands_beside_another_name(self) -> None:
        self.click("Take the example term")
        self.verdict("This text holds")
        self.tab.evaluate("$('student-name').focus()")
        self.tab.type("n.jones")
        self.assertEqual(100, self.tab.evaluate("$('student-names').children.length"))
        self.assertEqual("shown below", self.words("#student-said"))
        self.tab.wait("$('student-answer').textContent.includes('4,542 tokens')")
        self.tab.type("x")
        self.assertEqual(
            ["", ""], self.tab.evaluate("[$('student-said').textContent, $('student-answer').textContent]")
        )
        self.tab.press("Enter", "\r")
        self.assertEqual("No student of the roll has this name.", self.words("#student-said"))

    def test_bad_files_are_refused_in_words(self) -> None:
        roll, settings, catalogue = ((TERM / it).read_bytes() for it in ("roll.csv", "settings.json", "catalogue.csv"))
        for changed, words in (
            (
                {"roll.csv": roll.replace(b"n.jones,4500,8", b"n.jones,4500,8.5")},
                "column 3 (credits): “8.5” stands there. Expected: a whole number from 0 to 800",
            ),
            ({"roll.csv": roll.replace(b",", b";")}, "semicolons in place of commas"),
            (
                {"roll.csv": roll.replace(b"n.jones,", b"s.adler,")},
                "column 1 (student): “s.adler” stands there. Expected: a name that no earlier row has, and row 3 "
                "has "
                "it already",
            ),
            (
                {"catalogue.csv": catalogue.replace(b"M1030-1200", b"M1030-2560", 1)},
                "catalogue.csv, row 4 (the header is row 1): column 5 (meetings)",
            ),
            (
                {"settings.json": settings.replace(b'"spread": 7', b'"spread": 70')},
                "settings.json: The setting spread is out of its range. Expected: a whole number, 0 to 49",
            ),
            ({"settings.json": settings.replace(b"7,", b"7")}, "settings.json, line 4, column 3: It is not JSON"),
            (
                {"settings.json": settings.replace(b"7,", b"1e400,")},
                "settings.json: The program takes it for no JSON: a number in it is beyond",
            ),
        ):
            with self.subTest(words=words):
                self.give(FILES, changed)
                self.assertIn(words, self.verdict("A file is refused"))
                self.tab.evaluate("showVerdict('open', '')")

    def test_want_of_memory_is_told(self) -> None:
        self.tab.evaluate("program.limit = 9.2e6")
        self.click("Take the example term")
        self.assertIn("status 7", self.verdict("There is not enough memory"))

    def test_manifest_gives_the_order(self) -> None:
        sessions = [(TERM / it).read_bytes() for it in ("desk.session", "web.session")]
        names = {"catalogue": "catalogue.csv", "roll": "roll.csv", "settings": "settings.json"}
        inputs = [
            {"role": role, "file": name, "sha256": hashlib.sha256((TERM / name).read_bytes()).hexdigest()}
            for role, name in names.items()
        ]
        inputs += [
            {"role": "session", "file": name, "sha256": hashlib.sha256(it).hexdigest()}
            for name, it in zip(("z.session", "a.session"), sessions)
        ]
        text = {"file": "published.txt", "sha256": hashlib.sha256((TERM / "published.txt").read_bytes()).hexdigest()}
        for name, it in zip(("z.session", "a.session"), sessions):
            (self.room / name).write_bytes(it)
        (self.room / "manifest.json").write_text(
            json.dumps({"inputs": inputs, "words": [], "program": "", "text": text})
        )
        for name in FILES[:4]:
            shutil.copy(TERM / name, self.room / name)
        self.tab.choose("#choose", sorted(self.room.iterdir()))
        self.verdict("This text holds")
        (self.room / "late.session").write_bytes(b"clear n.jones\n")
        self.tab.choose("#choose", [self.room / "late.session"])
        self.tab.wait("list.files.length === 8")
        self.assertIn("does not name late.session, so the check left that out", self.verdict("This text holds"))
        other = "".join((TERM / "catalogue.csv").read_text().splitlines(keepends=True)[:3])
        (self.room / "spring-catalogue.csv").write_text(other)
        self.tab.evaluate("clearVerdict()")
        self.tab.choose("#choose", [self.room / "spring-catalogue.csv"])
        self.assertIn("100 students, 30 sections", self.verdict("This text holds"))
        self.tab.evaluate("document.querySelector('#rate tbody').fill()")
        self.assertEqual(30, self.tab.evaluate("document.querySelectorAll('#rate tbody tr').length"))
        (self.room / "spring-catalogue.csv").unlink()
        self.tab.evaluate("list.set([])")
        (self.room / "late.session").unlink()
        (self.room / "z.session").write_bytes(sessions[0] + b"# changed\n")
        self.tab.choose("#choose", sorted(self.room.iterdir()))
        self.assertIn(
            "z.session is not the file that manifest.json tells of", self.verdict("The files do not fit together")
        )
        self.tab.evaluate("list.files.find(it => it.kind === 'manifest').bytes = new Uint8Array(); check()")
        self.assertIn(
            "manifest.json is taken for a manifest and is none", self.verdict("The files do not fit together")
        )

    def test_old_browser_is_told_which_ones_can(self) -> None:
        for lack, source in OLD.items():
            with self.subTest(lack=lack):
                script = self.tab.call("Page.addScriptToEvaluateOnNewDocument", source=source)["identifier"]
                self.tab.go("about:blank")
                self.tab.go(PAGE.as_uri())
                self.tab.wait("!document.getElementById('old-browser').hidden")
                self.assertIn("Safari from 16.4 on (iOS 16.4)", self.words("#old-browser"))
                self.assertFalse(self.tab.evaluate("document.querySelector('main').checkVisibility()"))
                self.tab.call("Page.removeScriptToEvaluateOnNewDocument", identifier=script)
        self.tab.go("about:blank")
        self.tab.seen.clear()

    def test_keyboard_reaches_everything(self) -> None:
        self.tab.evaluate("$('example').focus()")
        self.tab.press("Enter", "\r")
        self.verdict("This text holds")
        self.assertEqual("The files: 6", self.tab.evaluate("document.activeElement.textContent"))
        self.tab.evaluate("document.activeElement.blur(); scrollTo(0, 0)")
        reached = set()
        for _ in range(40):
            self.tab.press("Tab")
            reached.add(
                self.tab.evaluate("document.activeElement.id || document.activeElement.textContent.trim().slice(0, 20)")
            )
        for name in ("to-student", "student-name", "The files: 6"):  # (the other tabs are reached by the keys of the arrows)
            self.assertIn(name, reached)

    def test_everything_has_a_name(self) -> None:
        self.click("Take the example term")
        self.verdict("This text holds")
        self.show("n.jones")
        nameless = """[...document.querySelectorAll('button, input, select, [role=region], [role=img]')].filter(it =>
          !it.textContent.trim() && !it.getAttribute('aria-label') && !it.labels?.length)
          .map(it => it.outerHTML.slice(0, 120))"""
        self.assertEqual([], self.tab.evaluate(nameless))
        self.assertEqual(
            [],
            self.tab.evaluate(
                "(all => all.filter((it, at) => all.indexOf(it) !== at))([...document.querySelectorAll('[id]')].map(it "
                "=> it.id))"
            ),
        )

    def test_words_stand_out(self) -> None:
        self.give(FILES)
        self.verdict("This text holds")
        self.show("n.jones")
        self.tab.evaluate("$('files').open = true")
        for dark in (False, True):
            self.tab.look(*SIZES["desktop"], dark)
            for view in ("One student", "Rate sections", "Whole text", "Run a market"):
                self.click(view)
                self.assertEqual([], self.tab.evaluate(FAINT), (dark, view))
            self.submit(turns="many")
            self.tab.wait("$('wrong-turns')")
            self.assertEqual([], self.tab.evaluate(FAINT))
            self.assertEqual("3px", self.tab.evaluate("getComputedStyle(document.activeElement).outlineWidth"))

    def test_prints(self) -> None:
        self.click("Take the example term")
        self.verdict("This text holds")
        self.show("n.jones")
        self.tab.look(*SIZES["desktop"], medium="print")
        self.tab.picture(PICTURES / "student-print.png")
        self.assertFalse(self.tab.evaluate("$('tabs').checkVisibility()"))
        self.tab.evaluate("show('auditor'); dispatchEvent(new Event('beforeprint'))")
        told = self.words("#auditor")
        self.assertIn(hashlib.sha256((TERM / "published.txt").read_bytes()).hexdigest(), told)
        self.assertIn("It does not mean that the prices came from the search", told)
        rows = "document.querySelectorAll('[aria-label=\"Students: budgets and bundles\"] tbody tr').length"
        self.assertEqual(100, self.tab.evaluate(rows))
        self.tab.evaluate("dispatchEvent(new Event('afterprint'))")
        self.assertEqual(0, self.tab.evaluate("document.querySelectorAll('#auditor details[open]').length"))


if __name__ == "__main__":
    unittest.main()
