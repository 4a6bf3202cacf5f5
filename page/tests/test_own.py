"""Goes the ways of one student: with its own lines alone, on a phone, and before the desk closes."""

import hashlib
import json
import tempfile
import unittest
from collections.abc import Mapping
from pathlib import Path

from browser import Browser, browser, chromium
from common import DRAWN, PAGE, PICTURES, TERM, open_page

PUBLISHED = ["catalogue.csv", "roll.csv", "settings.json", "published.txt"]
HEAD = "# What n.jones said, in the order in which the desk took it.\n"
YES = (
    "Yes: at these prices nothing better was to be had for 4,542 tokens, nor at the turns of n.jones in the aftermarket for"
    " 4,996, which is 4,542 raised by 10 percent."
)
FURTHER = "[...document.querySelectorAll('button')].find(it => it.textContent === 'Further signs')"
# What is pressed and stands on the page, with its size; a checkbox counts with its label.
CONTROLS = """[...document.querySelectorAll('button, select, input, summary, .button, textarea')]
  .filter(it => it.checkVisibility() && !it.classList.contains('aside') && it.type !== 'checkbox')
  .map(it => [it.outerHTML.slice(0, 90), it.getBoundingClientRect().height])"""


def own_lines(name: str = "n.jones") -> bytes:
    """What a student of the example term said, as `registrar lists` hands it out."""
    lines = [it for name_ in ("desk.session", "web.session") for it in (TERM / name_).read_text().splitlines()]
    return (HEAD.replace("n.jones", name) + "".join(f"{it}\n" for it in lines if it.split()[1:2] == [name])).encode()


@unittest.skipUnless(chromium() and PAGE.is_file(), "no Chromium, or no page is built")
class Own(unittest.TestCase):
    """Each test opens the page anew, on a phone."""

    tab: Browser

    @classmethod
    def setUpClass(cls) -> None:
        cls.tab = cls.enterClassContext(browser())
        PICTURES.mkdir(parents=True, exist_ok=True)

    def setUp(self) -> None:
        self.room = Path(self.enterContext(tempfile.TemporaryDirectory(prefix="course-match-")))
        self.tab.look(390, 844)
        self.tab.evaluate("typeof form === 'undefined' || (form.isUnsaved = false)")
        open_page(self.tab)

    def tearDown(self) -> None:
        asked = [
            it for what, it in self.tab.seen if what == "asks" and not it.startswith(("blob:", "about:", PAGE.as_uri()))
        ]
        failed = [it for what, it in self.tab.seen if what == "fails"]
        self.tab.seen.clear()
        self.assertEqual(([], []), (asked, failed))

    def give(self, changed: Mapping[str, bytes | None] | None = None, names: list[str] | None = None) -> None:
        """Gives what is published and the own lines, some of it with another content, or left out where that is None."""
        there: dict[str, bytes | None] = {it: (TERM / it).read_bytes() for it in names or PUBLISHED}
        there["n.jones.session"] = own_lines()
        there.update(changed or {})
        given = {name: content for name, content in there.items() if content is not None}
        for name, content in given.items():
            (self.room / name).write_bytes(content)
        self.tab.choose("#choose", [self.room / it for it in given])

    def answer(self, begins: str) -> str:
        """Waits for the first line of the answer, and for all below it; answers all words of the answer."""
        self.tab.wait(
            f"document.querySelector('#answer .lead')?.textContent.startsWith({json.dumps(begins)}) && {DRAWN}"
        )
        return self.words("#answer")

    def verdict(self, title: str) -> str:
        """Waits for the verdict; answers all its words."""
        self.tab.wait(f"document.querySelector('#verdict h2')?.textContent === {json.dumps(title)} && !isWorking()")
        return self.words("#verdict")

    def words(self, selector: str) -> str:
        return self.tab.evaluate(f"document.querySelector({json.dumps(selector)}).textContent")

    def click(self, words: str) -> None:
        """Clicks what has these words."""
        self.tab.evaluate(
            "[...document.querySelectorAll('button, summary')].find(it => it.checkVisibility() &&"
            f" it.textContent.includes({json.dumps(words)})).click()"
        )

    def fill(self, identity: str, value: str) -> None:
        """Writes into a field, as somebody who types."""
        self.tab.evaluate(
            f"$('{identity}').value = {json.dumps(value)}; for (const it of ['input', 'change'])"
            f" $('{identity}').dispatchEvent(new Event(it, {{ bubbles: true }}))"
        )

    def test_own_lines_suffice_and_the_answer_is_on_the_first_screen(self) -> None:
        self.give()
        told = self.answer(YES)
        self.assertEqual("", self.words("#verdict"))
        self.tab.picture(PICTURES / "own-phone.png", False)
        self.assertIn("Who says so", told)
        self.assertEqual(
            "In the end n.jones holds ACCT-611-B, FNCE-601-A and MGMT-691-B, worth 262 by the ratings of n.jones, prices"
            " together 4,930 of the raised 4,996 tokens. First n.jones bought a bundle with HCMG-841-A, worth 260; at"
            " turns in the aftermarket n.jones took MGMT-691-B and gave up HCMG-841-A (pass 2).",
            self.words(".holds"),
        )
        ends = self.tab.evaluate(
            "[...document.querySelectorAll('#answer .lead, .week')].map(it => it.getBoundingClientRect().bottom)"
        )
        self.assertLess(max(ends), 844)
        self.assertEqual(0, self.tab.evaluate("scrollY"))
        cells = self.tab.evaluate(
            "[...document.querySelectorAll('.week tr')].map(it => [...it.children].map(that =>"
            " that.textContent).join('|'))"
        )
        self.assertEqual(
            [
                "|Mon|Tue|Wed|Thu|Fri",
                "09:00–12:00|||||MGMT-691-B second half",
                "10:30–12:00|FNCE-601-A|ACCT-611-B|FNCE-601-A|ACCT-611-B|",
            ],
            cells,
        )
        self.tab.evaluate("document.querySelector('.basis').open = true; new Promise(done => setTimeout(done, 50))")
        for words in (
            "The program says:",
            "each budget is the one that the roll",
            "The page reads and reckons by itself",
            "Nobody can say here:what others said",
        ):
            self.assertIn(words, self.words(".basis"))
        own = [
            f"{at}: {it}"
            for at, it in enumerate((TERM / "published.txt").read_text().splitlines(), 1)
            if it.startswith(("bundle n.jones", "turn 2 n.jones"))
        ]
        for line in own:
            self.assertIn(line, self.words(".basis"))
        self.assertIn("with all sessions", self.words("#auditor"))

    def test_what_was_checked_besides_stands_below_the_answer_in_plain_words(self) -> None:
        self.give({"n.jones.session": own_lines().replace(HEAD.encode(), b"") + b"rate n.jones NOWHERE 5\n"})
        self.answer(YES)
        self.tab.wait("document.querySelector('.known')")
        tops = self.tab.evaluate(
            "['#answer .lead', '.week', '.ways', '.known', '.note', '#student-answer section'].map(it =>"
            " document.querySelector(it).getBoundingClientRect().top)"
        )
        self.assertEqual(sorted(tops), tops)
        self.assertLess(self.tab.evaluate("document.querySelector('.ways').getBoundingClientRect().bottom"), 844)
        self.assertEqual(
            "All else in the text that can be checked without other students' lines is right. Not checked: how the prices"
            " came about, and other students' bundles.",
            self.words(".known summary"),
        )
        self.assertEqual(
            [
                "n.jones.session names one student alone, so it is taken for what this student told the school. The"
                " school made the text from other files, which have everybody's lines.",
                "The desk carries out all of the lines but “rate n.jones NOWHERE 5” (the section is not in the"
                " catalogue).",
            ],
            self.tab.evaluate("[...document.querySelectorAll('.note')].map(it => it.textContent)"),
        )
        self.click("All else in the text")
        self.tab.wait("document.querySelector('.known li')")
        for words in "published.txt: 100 students, 30 sections.", "nobody can tell without their lines":
            self.assertIn(words, self.words(".known"))

    def test_each_part_is_one_tap_from_the_first_screen(self) -> None:
        self.give()
        self.answer("Yes")
        self.tab.wait("document.querySelector('.ways') && !isWorking()")
        self.assertLess(self.tab.evaluate("document.querySelector('.ways').getBoundingClientRect().bottom"), 844)
        for words, title in (
            ("Stages", "Stage by stage"),
            ("Why not?", "Why not?"),
            ("What if?", "What if?"),
            ("Signs", "What the signs mean"),
            ("Prices", "Ratings and prices"),
        ):
            with self.subTest(words=words):
                self.click(words)
                self.assertEqual(title, self.tab.evaluate("document.activeElement.textContent"))
                self.assertTrue(-1 < self.tab.evaluate("document.activeElement.getBoundingClientRect().top") < 60)

    def test_answer_is_seen_before_the_parts_are_drawn_and_each_is_there_when_it_is_asked_for(self) -> None:
        """The frames of the browser are held back here: what was drawn is not seen before one comes."""
        hold = "globalThis.frames = []; globalThis.requestAnimationFrame = it => frames.push(it)"
        titles = "[...document.querySelectorAll('.below > section > h3')].map(it => it.textContent)"
        six = ["Stage by stage", "Why not?", "What if?", "What the signs mean", "Ratings and prices", "On paper"]
        anew = "show('student'); showNobody(); frames.splice(0); showStudent('n.jones')"
        seen = "document.querySelector('#answer .lead')?.textContent.startsWith('Yes') && frames.length === 1"
        self.tab.evaluate(hold)
        self.give()
        self.tab.wait(seen)
        self.assertEqual([], self.tab.evaluate(titles))
        self.assertEqual(6, self.tab.evaluate("document.querySelectorAll('.ways button').length"))
        self.tab.evaluate("frames.pop()()")
        self.tab.wait(DRAWN)
        self.assertEqual(six, self.tab.evaluate(titles))
        for what, go in (
            ("a part is asked for", "[...document.querySelectorAll('.ways button')][4].click()"),
            ("the page is printed", "dispatchEvent(new Event('beforeprint'))"),
        ):
            with self.subTest(what=what):
                self.tab.evaluate(anew)
                self.tab.wait(seen)
                self.tab.evaluate(go)
                self.assertEqual(six, self.tab.evaluate(titles))
                self.assertFalse(self.tab.evaluate("!!document.querySelector('.below').fill"))
                if what == "a part is asked for":
                    self.assertEqual("Ratings and prices", self.tab.evaluate("document.activeElement.textContent"))
                rated = "document.querySelectorAll('[aria-label^=\"What n.jones rated\"] tbody tr').length"
                self.assertLess(3, self.tab.evaluate(rated))
                self.tab.evaluate("frames.pop()()")
                self.tab.wait(DRAWN)
                self.assertEqual(six, self.tab.evaluate(titles))
        with self.subTest(what="nobody looks at the page"):
            self.tab.evaluate("Object.defineProperty(document, 'hidden', { value: true, configurable: true })")
            self.tab.evaluate(anew)
            self.tab.wait(f"{titles}.length === 6 && {DRAWN}")
            self.assertEqual(0, self.tab.evaluate("frames.length"))
        with self.subTest(what="another student is shown meanwhile"):
            self.tab.evaluate("delete document.hidden")
            self.tab.evaluate(anew)
            self.tab.wait(seen)
            self.tab.evaluate("globalThis.gone = document.querySelector('.below'); showNobody(); frames.pop()()")
            self.tab.evaluate("new Promise(done => setTimeout(done, 50))")
            self.assertEqual(0, self.tab.evaluate("gone.childElementCount"))

    def test_who_asks_for_a_student_of_the_whole_text_sees_its_answer_with_the_line_to_the_parts(self) -> None:
        """Below the verdict it would begin in the lower half of a phone's screen; on a high screen there is room for both.
        While a name is typed nothing moves."""
        self.give({it: (TERM / it).read_bytes() for it in ("desk.session", "web.session")})
        self.verdict("This text holds")
        self.tab.evaluate("document.querySelector('.unproved')?.remove()")
        self.fill("student-name", "n.jones")
        self.answer("Yes")
        self.assertEqual(0, self.tab.evaluate("scrollY"))
        self.tab.evaluate("document.querySelector('.chooser').requestSubmit()")
        ends = self.tab.evaluate(
            "['#student-answer h2', '.ways'].map(it => (({ top, bottom }) => [top, bottom])"
            "(document.querySelector(it).getBoundingClientRect())).flat()"
        )
        self.assertEqual(sorted(ends), ends)
        self.assertTrue(-1 < ends[0] < 422 and ends[-1] < 844, ends)
        self.assertEqual("H2", self.tab.evaluate("document.activeElement.tagName"))
        self.tab.look(1200, 1200)
        self.tab.evaluate("scrollTo(0, 0); document.querySelector('.chooser').requestSubmit()")
        self.assertEqual(0, self.tab.evaluate("scrollY"))
        self.tab.look(390, 844)

    def test_each_part_leads_back_to_the_top(self) -> None:
        self.give()
        self.answer("Yes")
        self.tab.wait("document.querySelectorAll('.up').length === document.querySelectorAll('.ways button').length")
        self.tab.evaluate("[...document.querySelectorAll('.up button')].at(-1).click()")
        self.assertEqual("H2", self.tab.evaluate("document.activeElement.tagName"))
        self.assertTrue(-1 < self.tab.evaluate("document.activeElement.getBoundingClientRect().top") < 60)

    def test_week_and_fields_and_tables_keep_within_their_frames_on_a_phone(self) -> None:
        self.give()
        self.answer("Yes")
        self.tab.wait("$('what-if-rating') && document.querySelector('.table .on-screen') && !isWorking()")
        border = "getComputedStyle(document.querySelector('.week tr:last-child td')).borderBottomWidth"
        self.assertEqual("1px", self.tab.evaluate(border))
        for width in 390, 320:
            with self.subTest(width=width):
                self.tab.look(width, 844)
                rooms = self.tab.evaluate(
                    "[...document.querySelectorAll('.week tbody th')].map(it => it.getBoundingClientRect().right -"
                    " Math.max(...[...it.children].map(that => { const range = document.createRange();"
                    " range.selectNodeContents(that); return range.getBoundingClientRect().right; })))"
                )
                self.assertTrue(min(rooms) >= 2, rooms)
                lines = self.tab.evaluate(
                    "[...document.querySelectorAll('.what-if .field')].map(it => [...it.children].map(that =>"
                    " (box => (box.top + box.bottom) / 2)(that.getBoundingClientRect())))"
                )
                self.assertEqual(3, len(lines))
                for label, field in lines:
                    self.assertLess(abs(label - field), 8)
        hint = "document.querySelector('.table .on-screen').checkVisibility()"
        self.tab.wait(hint)
        self.tab.look(1200, 844)
        self.tab.wait(f"!{hint}")
        self.tab.look(390, 844)

    def test_fields_of_the_form_stand_beside_their_labels_on_a_phone(self) -> None:
        self.give({"n.jones.session": None, "published.txt": None, "settings.json": None})
        self.open_form()
        for width in 390, 320:
            with self.subTest(width=width):
                self.tab.look(width, 844)
                boxes = self.tab.evaluate(
                    "[...document.querySelectorAll('.who .field, .pair .field')].map(it => [...it.children].map(that =>"
                    " (box => [box.left, box.right, box.top, box.bottom])(that.getBoundingClientRect())))"
                )
                self.assertEqual(6, len(boxes))
                for (_, end, top, bottom), (start, right, above, below) in boxes:
                    self.assertLessEqual(right, width)
                    is_beside = end <= start and above < (top + bottom) / 2 < below
                    self.assertTrue(is_beside or bottom <= above + 1 and above - bottom < 16, boxes)
        self.tab.look(390, 844)

    def test_lines_of_nobody_on_the_roll_are_told_and_answer_nothing(self) -> None:
        self.give({"n.jones.session": HEAD.encode() + b"rate nobody FNCE-601-A 5\n"})
        told = self.verdict("Whose lines are these?")
        self.assertIn("None of them is of a student of roll.csv", told)
        self.assertIn("n.jones.session has lines of nobody, whom the roll does not have: they are left out.", told)
        self.assertEqual("", self.words("#student-answer"))

    def test_stages_and_questions_are_one_line_each_that_unfolds(self) -> None:
        self.give()
        self.answer("Yes")
        self.tab.wait(
            "document.querySelectorAll('.question').length === 7 && ![...document.querySelectorAll('.question > summary"
            " .short')].some(it => it.textContent.length < 3)"
        )
        self.assertIn("rated these sections higher than MGMT-691-B (rated 74), the lowest", self.words("#student-answer"))
        stages = self.tab.evaluate("[...document.querySelectorAll('#student-answer section')][0].innerText")
        for words in (
            "Budget: 4,542 tokens, and 4,996 in the aftermarket",
            "Second stage: bought ACCT-611-B, FNCE-601-A and HCMG-841-A",
            "Aftermarket, pass 2: took MGMT-691-B and gave up HCMG-841-A",
            "Aftermarket, passes 3 to 5: no change",
        ):
            self.assertIn(words, stages)
        self.assertEqual(
            [
                "Why not FNCE-717-A? Too dear with the rest: worth 188 with it, 260 without.",
                "Why not FNCE-601-B? Same course as FNCE-601-A: worth 164 with it, 260 without.",
            ],
            self.tab.evaluate(
                "[...document.querySelectorAll('.question > summary')].map(it => it.textContent).filter(it =>"
                " /FNCE-717-A|FNCE-601-B/.test(it))"
            ),
        )
        self.tab.evaluate(
            "document.querySelectorAll('.question > .answer > details.paper > summary').forEach(it => it.click());"
            " new Promise(done => setTimeout(done, 50))"
        )
        later = "details => [details.querySelector('summary').textContent, details.querySelector('p').textContent]"
        lines = self.tab.evaluate(
            "[...document.querySelectorAll('.question > .answer')].map(it => [it.firstChild.textContent,"
            f" ...({later})(it.lastChild)])"
        )
        self.assertEqual(
            [
                "n.jones would have had to give something up for it: its price is 3,252, and what n.jones bought left 628 of"
                " 4,542 tokens (by the ratings of n.jones the best with it was worth 188, without it 260).",
                "Aftermarket: no seat was free at any turn of n.jones.",
                "Aftermarket: 8 of 12 seats were free when it began, and none at any turn of n.jones. With a free seat too"
                " n.jones would not have taken it.",
            ],
            lines[0],
        )
        first, brief, lgst = next(it for it in lines if "its price is 2,670" in it[0])
        self.assertRegex(
            first, r"and what n.jones bought left 628 of 4,542 tokens \(by .* was worth \d+, without it 260\)\.$"
        )
        self.assertEqual("Aftermarket, pass 2: 1 of 9 seats was free; too dear with the rest.", brief)
        # 4,542 raised by ten in a hundred is 4,996; the prices of ACCT-611-B, FNCE-601-A and MGMT-691-B are together
        # 851 + 1,942 + 2,137 = 4,930
        self.assertRegex(
            lgst,
            r"^Aftermarket, pass 2: 1 of 9 seats was free at the turn of n.jones, but what n.jones took left 66 of 4,996"
            r" tokens \(by the ratings of n.jones the best with it was worth \d+, without it 262\)\.$",
        )
        fnce = next(it for it in lines if "same course as FNCE-601-A" in it[0])
        self.assertEqual("Aftermarket, pass 5: 2 of 20 seats were free; same course as FNCE-601-A.", fnce[1])
        self.assertRegex(
            fnce[2], r"2 of 20 seats were free at the turn of n\.jones, but the same holds( \(by the ratings .*\))?\.$"
        )
        self.click("Why not FNCE-717-A")
        told = self.words(".question")
        for words in (
            (
                "The price of FNCE-717-A is 3,252. n.jones bought ACCT-611-B, FNCE-601-A and HCMG-841-A, whose prices"
                " together are 3,914. Of its budget of 4,542 that leaves 628, too little for FNCE-717-A besides."
            ),
            (
                "ACCT-611-B and FNCE-717-A (prices together 4,103), worth 188 by the ratings of n.jones. What n.jones"
                " bought is worth 260, 72 more."
            ),
            "at the end of the second stage: 8",
            "aftermarket, passes 1 to 5, at the turn of n.jones: none",
            "is number 100 of 100. With a free seat too n.jones would not have taken it: at each of these turns the program"
            " finds another bundle better.",
        ):
            self.assertIn(words, told)
        self.click("Why not LGST-806-A")
        told = self.tab.evaluate(
            "[...document.querySelectorAll('.question')].find(it => it.open &&"
            " it.textContent.includes('LGST-806-A')).textContent"
        )
        self.assertIn(
            (
                "n.jones took ACCT-611-B, FNCE-601-A and MGMT-691-B, whose prices together are 4,930. Of its budget of"
                " 4,996 that leaves 66"
            ),
            told,
        )
        self.tab.evaluate("[...document.querySelectorAll('summary')].find(it => /rated no higher/.test(it.textContent)).click()")
        gone = "[...document.querySelectorAll('.question')].find(it => it.textContent.startsWith('Why not HCMG'))?.textContent"
        unfold = ".querySelector('.answer > details.paper')"
        self.tab.wait(f"{gone.removesuffix('?.textContent')}?{unfold} && !isWorking()")
        self.tab.evaluate(f"{gone.removesuffix('?.textContent')}{unfold}.open = true")
        self.tab.wait(f"{gone}.includes('in the end: none')")
        for words in (
            "aftermarket, passes 1 to 2, at the turn of n.jones, besides the seat of n.jones: none",
            "aftermarket, passes 3 to 5, at the turn of n.jones: none",
            "Bought, and given up later for a better bundle.",
            "Aftermarket, pass 1: kept, and given up later for a better bundle.",
            "Aftermarket, pass 1. n.jones kept HCMG-841-A, and gave it up later",
        ):
            self.assertIn(words, self.tab.evaluate(gone))
        self.assertNotIn("is number 100", self.tab.evaluate(gone))

    def test_questions_take_two_lines_each_on_a_phone_and_unfold_by_the_keyboard(self) -> None:
        self.give()
        self.answer("Yes")
        self.tab.evaluate("new Promise(done => setTimeout(done))")
        self.tab.wait("document.querySelectorAll('.question').length === 7 && !isWorking()")
        questions = "[...document.querySelectorAll('.question > summary')]"
        for width, most in (390, 2), (320, 3):
            with self.subTest(width=width):
                self.tab.look(width, 844)
                sizes = self.tab.evaluate(
                    f"{questions}.map(it => [it.getBoundingClientRect().height, parseFloat(getComputedStyle(it).lineHeight),"
                    " it.scrollWidth - it.clientWidth])"
                )
                self.assertEqual(7, len(sizes))
                for height, line, over in sizes:
                    self.assertTrue(44 <= height < (most + 1) * line and over <= 0, sizes)
                self.assertLessEqual(self.tab.evaluate("document.documentElement.scrollWidth"), width)
        self.tab.look(390, 844)
        self.tab.evaluate(f"{questions}[0].focus()")
        self.tab.press("Enter", "\r")
        self.tab.wait(f"{questions}[0].parentElement.open")
        self.tab.evaluate("document.querySelector('.question > .answer > details.paper > summary').focus()")
        self.tab.press("Enter", "\r")
        self.tab.wait("document.querySelector('.question').innerText.includes('8 of 12 seats were free when it began')")
        later = "document.querySelector('.question > .answer > details.paper > summary').getBoundingClientRect().height"
        self.assertTrue(44 <= self.tab.evaluate(later) < 72)
        self.tab.picture(PICTURES / "own-why.png", False)

    def test_lines_that_are_not_those_of_the_desk_are_told_with_what_may_be_the_cause(self) -> None:
        self.give(
            {"n.jones.session": own_lines().replace(b"rate n.jones FNCE-601-A 100", b"rate n.jones FNCE-601-A 1")}
        )
        told = self.answer("No: by these lines and prices")
        # with FNCE-601-A at 1: 88 + 74 + 72 for 851 + 2,137 + 1,121 tokens
        for words in (
            "for 4,542 tokens: ACCT-611-B, MGMT-691-B and HCMG-841-A, worth 234.",
            "worth 234.First compare n.jones.session with what you told the school: one rating that differs is enough",
            "The text gives ACCT-611-B, FNCE-601-A and HCMG-841-A",
            "One of these may be the cause",
            "a rating or an adjustment is not the one that the desk took last",
            "a price in the text was changed",
            "the budget in the text was changed",
        ):
            self.assertIn(words, told)
        self.give({"n.jones.session": own_lines() + b"rate n.jones HCMG-841-A 0\n"})
        self.tab.wait(f"$('answer')?.textContent.includes('a section is not rated') && {DRAWN}")
        self.assertIn(
            "Its signs cannot be drawn, since not rated above 0: HCMG-841-A",
            self.tab.evaluate(
                "document.querySelectorAll('#student-answer details').forEach(it => it.open = true); new Promise(done"
                " => setTimeout(() => done($('student-answer').textContent), 100))"
            ),
        )

    def test_signs_that_were_changed_prove_nothing_of_the_best_bundle(self) -> None:
        text = (TERM / "published.txt").read_bytes()
        self.give({"published.txt": text.replace(b"++--------+*nb5b1", b"++--------+*nb6b1", 1)})
        told = self.answer("The bundle is the best that 4,542 tokens buy, but the signs beside it do not prove it.")
        self.assertIn("another bound is due", told)
        self.assertIn("tell the school: line 227 of published.txt.", told)

    def test_what_needs_no_ratings_is_judged_of_the_whole_text(self) -> None:
        text = (TERM / "published.txt").read_bytes()
        for changed, words in (
            (
                text.replace(b"budget k.abara ", b"budget k.abara 1", 1),
                "The budget of k.abara is not what the roll, the settings and the draw give.",
            ),
            (
                text.replace(
                    b"final n.jones [ACCT-611-B,FNCE-601-A,MGMT-691-B]", b"final n.jones [ACCT-611-B,FNCE-601-A]"
                ),
                "What n.jones holds in the end is not",
            ),
            (text[:-1], "the text ends before that"),
        ):
            with self.subTest(words=words):
                self.give({"published.txt": changed})
                self.assertIn(words, self.verdict("This text does not hold"))
                if self.tab.evaluate("$('clear').checkVisibility()"):
                    self.click("Remove all files")

    def test_wrong_files_are_refused_by_name(self) -> None:
        text = (TERM / "published.txt").read_bytes()
        cases: tuple[tuple[dict[str, bytes | None], str, str], ...] = (
            (
                {"published.txt": b"<!doctype html><title>Log in</title>"},
                "Not all files are there yet",
                "By what stands in it, none of the missing files is published.txt",
            ),
            ({"settings.json": None}, "Not all files are there yet", "Missing: the settings. Your school publishes it."),
            ({"published.txt": b"%PDF-1.4"}, "Not all files are there yet", "published.txt is a PDF"),
            (
                {"n.jones.session": None},
                "Not all files are there yet",
                "Missing: your own lines (what you told the school; ask it for them).Whoever has all sessions",
            ),
            (
                {"n.jones.session": b""},
                "The text and these sessions do not fit together",
                "n.jones.session is empty.",
            ),
            (
                {"n.jones.session": bytes(range(256)) * 40},
                "The text and these sessions do not fit together",
                "No line of n.jones.session is a student's wish.",
            ),
            (
                {"published.txt": text.replace(b"price FNCE-717-A 3252", b"price FNCE-717-A -5")},
                "This text does not hold",
                "This is line 138 of published.txt",
            ),
            (
                {"published.txt": text.replace(b"order 2", b"order 99999999999 2", 1)},
                "This text does not hold",
                "This is line 2 of published.txt",
            ),
            (
                {"published.txt": text.replace(b"order 2", b"order x,2", 1)},
                "This text does not hold",
                "This is line 2 of published.txt",
            ),
            ({"settings.json": b"[]"}, "A file is refused", "settings.json: It is JSON, but no object"),
        )
        for changed, title, words in cases:
            with self.subTest(words=words):
                self.give(changed)
                self.assertIn(words, self.verdict(title))
                self.assertFalse(self.tab.evaluate("!!$('answer')"))
                self.tab.evaluate("list.set([])")
                self.tab.wait("!$('verdict').textContent && !isWorking()")

    def test_lines_as_grep_prints_them_are_told_first_and_how_such_a_line_looks(self) -> None:
        lines = b"".join(b"web.session:%b\n" % it for it in own_lines().splitlines()[1:])
        grep = b"# What n.jones said, in the order in which the desk took it.\n" + lines
        cases = (
            (lines, "The text and these sessions do not fit together", "No line of n.jones.session is a student's wish."),
            (b"", "The text and these sessions do not fit together", "n.jones.session is empty."),
            (grep, "Whose lines are these?", "No line of n.jones.session is a student's wish."),
        )
        for content, title, words in cases:
            with self.subTest(title=title, words=words):
                self.give({"n.jones.session": content})
                self.verdict(title)
                shown = self.tab.evaluate("[...$('verdict').children].map(it => it.textContent)")
                looks = "Such a line looks so, with nothing before it: “rate NAME SECTION POINTS”."
                self.assertEqual([title, words, looks, "What else is to be said of it"], shown)
                self.click("What else is to be said")
                self.tab.wait("document.querySelector('#verdict details p')")
                self.tab.evaluate("list.set([])")
                self.tab.wait("!$('verdict').textContent && !isWorking()")

    def test_part_below_asks_for_own_lines_alone_where_the_published_files_are_there(self) -> None:
        self.give({"n.jones.session": None})
        self.verdict("Not all files are there yet")
        self.assertIn("The published files are there. Give your own lines too", self.words("#student"))
        self.tab.evaluate("list.set(list.files.filter(it => it.name !== 'roll.csv'))")
        self.tab.wait("$('verdict').textContent.includes('Your school publishes the roll.') && !isWorking()")
        self.assertIn("Missing: the roll and your own lines (what you told", self.words("#verdict"))
        self.assertIn("First give the published files above.", self.words("#student"))

    def test_verdict_is_on_the_first_screen_also_with_a_long_list_of_files(self) -> None:
        text = (TERM / "published.txt").read_bytes()
        cases: tuple[tuple[dict[str, bytes | None], str], ...] = (
            ({"n.jones.session": None}, "Not all files are there yet"),
            ({"published.txt": text[:-1]}, "This text does not hold"),
        )
        for changed, title in cases:
            with self.subTest(title=title):
                self.give(changed)
                self.verdict(title)
                self.assertEqual(0, self.tab.evaluate("scrollY"))
                self.assertTrue(self.tab.evaluate("$('files').open"))
                self.assertLess(self.tab.evaluate("$('verdict').getBoundingClientRect().bottom"), 844)
                self.tab.evaluate("list.set([])")
                self.tab.wait("!$('verdict').textContent && !isWorking()")

    def test_what_is_under_way_is_told_above_the_files_and_stays_in_sight(self) -> None:
        self.tab.evaluate(
            "globalThis.send = program.told.bind(program); program.told = it => new Promise(done => { globalThis.go ="
            " () => { program.told = globalThis.send; done(globalThis.send(it)); }; })"
        )
        self.give()
        self.tab.wait("globalThis.go && $('working').checkVisibility()")
        top = "$('working').getBoundingClientRect().top"
        self.assertLess(self.tab.evaluate(top), self.tab.evaluate("$('files').getBoundingClientRect().top"))
        self.assertLess(self.tab.evaluate(top), 422)
        self.tab.evaluate("$('file-list').lastElementChild?.scrollIntoView(); scrollTo(0, document.body.scrollHeight)")
        self.assertTrue(0 <= self.tab.evaluate(top) < 422, self.tab.evaluate("[scrollY, innerHeight]"))
        self.tab.evaluate("go()")
        self.answer(YES)
        self.assertFalse(self.tab.evaluate("$('working').checkVisibility()"))

    def test_turn_that_these_lines_do_not_prove_is_named(self) -> None:
        line = b"turn 2 n.jones [ACCT-611-B,FNCE-601-A,MGMT-691-B] ++----+----*n+n---+nnb2"
        text = (TERM / "published.txt").read_bytes()
        self.give({"published.txt": text.replace(line, line.replace(b"nnb2", b"nnb3"))})
        told = self.answer("No: by these lines the bundle of the aftermarket, pass 2 is not right.")
        self.assertIn("The tree of n.jones, the signs behind its bundle, does not prove", told)
        self.assertIn("If each line is right, tell the school: line 463 of published.txt.", told)

    def test_lines_of_a_form_are_own_lines_too(self) -> None:
        self.give({"n.jones.session": own_lines().replace(HEAD.encode(), b"clear n.jones\n")})
        self.answer(YES)

    def test_several_students_are_chosen_by_name_and_strangers_are_told(self) -> None:
        self.give(
            {
                "s.adler.session": own_lines("s.adler"),
                "other.session": HEAD.encode() + b"rate nobody FNCE-601-A 5\nclose\n",
            }
        )
        self.tab.wait("document.querySelector('.known') && !isWorking()")
        told = self.words("#student")
        self.assertIn("other.session has lines of nobody, whom the roll does not have: they are left out.", told)
        self.assertIn("1 line of other.session names no student, and is left out.", told)
        self.fill("student-name", "s.adler")
        self.answer(YES.replace("4,542", "5,018").replace("4,996", "5,519").replace("n.jones", "s.adler"))
        self.fill("student-name", "k.abara")
        self.tab.evaluate("document.querySelector('.chooser').requestSubmit()")
        self.assertIn("No lines of a student of this name were given.", self.words("#student-said"))

    def test_what_if(self) -> None:
        self.give()
        self.answer("Yes")
        for section, rating, budget, words in (
            ("HCMG-841-A", "0", "4542", "It would take "),
            (
                "",
                "",
                "4542",
                (
                    "The same bundle (ACCT-611-B, FNCE-601-A and HCMG-841-A) for 4,542 tokens: worth 260, prices"
                    " together 3,914."
                ),
            ),
            ("", "", "0", "It would take nothing for 0 tokens: worth 0, prices together 0."),
            ("FNCE-601-A", "101", "4542", "A rating is a whole number from 0 to 100."),
            ("", "", "4,542", "A budget is a whole number from 0 to 900,000"),
        ):
            with self.subTest(words=words):
                self.fill("what-if-section", section)
                self.fill("what-if-rating", rating)
                self.fill("what-if-budget", budget)
                self.tab.evaluate("document.querySelector('.what-if').requestSubmit()")
                self.tab.wait(
                    f"document.querySelector('.what-if + .answer').textContent.includes({json.dumps(words)})"
                )

    def test_signs_are_explained_step_by_step(self) -> None:
        self.give()
        self.answer("Yes")
        told = "$('signs-told').textContent"
        self.open_signs()
        self.explain("bundle n.jones [ACCT-611-B,FNCE-601-A,HCMG-841-A] ++--------+*nb5b1")
        for words in (
            "in the second stage, with a budget of 4,542 tokens",
            "+ ACCT-611-B is taken (rating 88, price 851): left are 3,691 of 4,542 tokens",
            "- FNCE-601-B is left out: it is of the same course as FNCE-601-A.",
            "b5 Back at FNCE-601-A, now without it: With ACCT-611-B, worth 88, and no other section",
            "= 260.508",
            "All signs fit",
        ):
            self.assertIn(words, self.tab.evaluate(told))
        self.assertEqual(
            ["+", "+", *"--------", "+", "*", "n", "b5", "b1"],
            self.tab.evaluate("[...document.querySelectorAll('.steps .sign')].map(it => it.textContent)"),
        )
        self.assertFalse(self.tab.evaluate(f"{FURTHER}.checkVisibility()"))
        self.explain("++x+x!-------*+x+x!n")
        self.assertIn("FNCE-717-A being the section that is asked for", self.tab.evaluate(told))
        self.explain("++--------+*nb6b1")
        for words in ("“b6” stands here", "“b5” is due", "a price in the text was changed"):
            self.assertIn(words, self.tab.evaluate(told))
        self.explain("bundle s.adler [] *")
        self.assertIn("This is a line of s.adler", self.tab.evaluate(told))

    def open_signs(self) -> None:
        """Goes to the signs, and unfolds the field for others."""
        self.tab.wait("$('signs-told') && !isWorking()")
        self.click("Explain other signs")
        self.tab.wait("$('signs')")

    def explain(self, signs: str) -> None:
        """Has signs explained that are pasted; the answer is in sight then."""
        self.fill("signs", signs)
        self.tab.evaluate("scrollTo(0, 0); document.querySelector('form.signs').requestSubmit()")
        top = self.tab.evaluate("$('signs-told').getBoundingClientRect().top")
        self.assertTrue(-1 <= top <= 422, top)

    def test_further_signs_come_by_a_button_that_goes_with_the_last(self) -> None:
        made = """(count => {
          const step = (it, at) => ({ kind: it, at, sign: '+', back: '', words: `step ${at}`, depth: 0 });
          $('student').replaceChildren(...stepNodes([...Array(count).fill('leaf'), 'end'].map(step).values()));
        })"""
        shown = "[document.querySelectorAll('.steps li').length, document.querySelectorAll('#student .right').length]"
        for count, first in (40, [40, 1]), (41, [40, 0]), (80, [40, 0]):
            with self.subTest(count=count):
                self.tab.evaluate(f"{made}({count})")
                self.assertEqual(first, self.tab.evaluate(shown))
                self.assertEqual(count > 40, self.tab.evaluate(f"{FURTHER}.checkVisibility()"))
                self.tab.evaluate(f"{FURTHER}.click()")
                self.assertEqual([count, 1], self.tab.evaluate(shown))
                self.assertFalse(self.tab.evaluate(f"{FURTHER}.checkVisibility()"))

    def test_signs_of_each_bundle_are_a_button_and_those_of_the_second_stage_are_explained_at_once(self) -> None:
        self.give()
        self.answer("Yes")
        self.tab.wait("$('signs-told') && !isWorking()")
        choices = "[...document.querySelectorAll('.choice')]"
        pressed = f"{choices}.map(it => it.getAttribute('aria-pressed'))"
        self.assertEqual(
            [
                "Second stage: ACCT-611-B, FNCE-601-A, HCMG-841-A ++--------+*nb5b1",
                "Aftermarket, pass 1: ACCT-611-B, FNCE-601-A, HCMG-841-A ++--------+*n+nnn",
                "Aftermarket, pass 2: ACCT-611-B, FNCE-601-A, MGMT-691-B ++----+----*n+n---+nnb2",
                "Aftermarket, passes 3 to 5: ACCT-611-B, FNCE-601-A, MGMT-691-B ++----+----*nnn",
            ],
            self.tab.evaluate(f"{choices}.map(it => it.textContent)"),
        )
        self.assertEqual(["true", "false", "false", "false"], self.tab.evaluate(pressed))
        told = self.words("#signs-told")
        for words in (
            "(second stage, with a budget of 4,542 tokens):++--------+*nb5b1",
            "* stop: this is the bundle itself, which the signs prove to be the best",
            "b5 stop: even with the tokens left spent as well as on MGMT-690-A (number 5), or better",
            "b1 the same with FNCE-601-A (number 1)",
            "number them from 0: 0 ACCT-611-B, 1 FNCE-601-A, 2 FNCE-601-B",
            "All signs fit",
        ):
            self.assertIn(words, told)
        self.assertNotIn("aftermarket", told)
        self.tab.evaluate(f"{choices}[2].click()")
        self.assertEqual(["false", "false", "true", "false"], self.tab.evaluate(pressed))
        told = self.words("#signs-told")
        self.assertIn("(aftermarket, pass 2, with a budget of 4,996 tokens):++----+----*n+n---+nnb2", told)
        self.assertNotIn("second stage", told)
        self.assertLess(self.tab.evaluate("$('signs-told').getBoundingClientRect().top"), 422)
        self.open_signs()
        self.explain("tree *")
        self.assertEqual(["false"] * 4, self.tab.evaluate(pressed))
        self.tab.evaluate(f"{choices}[0].click()")
        self.assertEqual(["true", "false", "false", "false"], self.tab.evaluate(pressed))

    def test_names_are_shown_as_the_school_spells_them(self) -> None:
        names = '\ufeffkind,original,name\nsection,ACCT 611 (é),ACCT-611-B\nstudent,"Jones, Nora",n.jones\n'.encode()
        self.give({"names.csv": names})
        self.answer("Yes")
        self.assertIn("In the end Jones, Nora holds ACCT 611 (é), FNCE-601-A and MGMT-691-B, worth 262", self.words(".holds"))
        self.assertEqual("Jones, Nora n.jones", self.words("#student-answer h2"))
        self.tab.wait("$('signs-told')")
        self.assertIn("0 ACCT 611 (é), 1 FNCE-601-A", self.words("#signs-told"))
        self.assertIn("+ ACCT 611 (é) is taken", self.words("#signs-told"))
        self.give(
            {"desk.session": (TERM / "desk.session").read_bytes(), "web.session": (TERM / "web.session").read_bytes()}
        )
        self.verdict("This text holds")
        self.fill("student-name", "Jones, N")
        self.tab.evaluate("document.querySelector('.chooser').requestSubmit()")
        self.answer("Yes")
        self.assertEqual("Jones, Nora n.jones", self.words("#student-answer h2"))

    def test_answers_of_one_student_are_asked_in_its_own_market(self) -> None:
        self.give({it: (TERM / it).read_bytes() for it in ("desk.session", "web.session")})
        self.verdict("This text holds")
        self.tab.evaluate(
            "globalThis.sizes = []; globalThis.ask = program.ask.bind(program);program.ask = call => {"
            " sizes.push([call.words[0], call.files.reduce((sum, [, it]) => sum + it.length, 0)]); return ask(call); }"
        )
        self.fill("student-name", "n.jones")
        self.answer("Yes")
        self.tab.wait("sizes.filter(([it]) => it === 'explain').length >= 7 && !isWorking()")
        asked = self.tab.evaluate("sizes.filter(([it]) => it !== 'audit')")
        self.assertLess(max(size for _, size in asked), 6000)

    def test_tabs(self) -> None:
        roles = self.tab.evaluate(
            "[...document.querySelectorAll('[role=tab]')].map(it => [it.textContent, it.getAttribute('aria-selected'),"
            " it.tabIndex, $(it.getAttribute('aria-controls')).getAttribute('role')])"
        )
        self.assertEqual(
            [
                ["One student", "true", 0, "tabpanel"],
                ["Rate sections", "false", -1, "tabpanel"],
                ["Whole text", "false", -1, "tabpanel"],
                ["Run a market", "false", -1, "tabpanel"],
            ],
            roles,
        )
        self.tab.evaluate("$('to-student').focus()")
        for key, view in (
            ("ArrowRight", "rate"),
            ("End", "registrar"),
            ("ArrowRight", "student"),
            ("ArrowLeft", "registrar"),
            ("Home", "student"),
        ):
            self.tab.press(key)
            self.assertEqual(
                [f"to-{view}", False], self.tab.evaluate(f"[document.activeElement.id, $('{view}').hidden]")
            )

    def test_controls_are_large_enough_and_nothing_overflows(self) -> None:
        self.give()
        self.answer("Yes")
        for width, least in (390, 44), (320, 44), (1200, 24):
            self.tab.look(width, 844)
            for view in "student", "rate", "auditor", "registrar":
                with self.subTest(width=width, view=view):
                    self.tab.evaluate(f"$('to-{view}').click(); $('files').open = true")
                    self.assertEqual([], [it for it in self.tab.evaluate(CONTROLS) if it[1] < least - 0.5])
                    self.assertLessEqual(self.tab.evaluate("document.documentElement.scrollWidth"), width)
                    self.tab.picture(PICTURES / f"own-{view}-{width}.png")

    def test_without_scripts_a_sentence_stands_and_no_button(self) -> None:
        self.tab.call("Emulation.setScriptExecutionDisabled", value=True)
        try:
            self.tab.call("Page.navigate", url=PAGE.as_uri() + "?without")
            self.tab.until(lambda: "turned off here" in self.seen_text(), "the sentence stands")
            self.assertNotIn("Choose files", self.seen_text())
        finally:
            self.tab.call("Emulation.setScriptExecutionDisabled", value=False)
            self.tab.seen.clear()

    def seen_text(self) -> str:
        """What stands on the page for whoever looks, as the browser tells it to a screen reader."""
        nodes = self.tab.call("Accessibility.getFullAXTree")["nodes"]
        return " ".join(it.get("name", {}).get("value", "") for it in nodes if not it.get("ignored"))

    def test_sheet_has_the_sums_and_the_date(self) -> None:
        self.give()
        self.answer("Yes")
        self.assertFalse(self.tab.evaluate("document.querySelector('.on-paper').checkVisibility()"))
        self.tab.look(800, 1100, medium="print")
        self.assertTrue(self.tab.evaluate("document.querySelector('.on-paper').checkVisibility()"))
        told = self.words(".on-paper")
        self.assertRegex(told, r"Printed on \d+ \w+ \d{4}")
        for name, content in ("published.txt", (TERM / "published.txt").read_bytes()), ("n.jones.session", own_lines()):
            self.assertIn(name + hashlib.sha256(content).hexdigest(), told)
        self.assertFalse(
            self.tab.evaluate("$('tabs').checkVisibility() || document.querySelector('.what-if').checkVisibility()")
        )
        self.tab.picture(PICTURES / "own-sheet.png")
        self.tab.look(390, 844)

    def open_form(self) -> None:
        """Goes to the form, once the files are read."""
        self.click("Rate sections")
        self.tab.wait("$('rate-name') && !isWorking()")

    def rate(self, section: str, points: str) -> None:
        """Searches a section in the form, and types a rating of it."""
        self.fill("rate-search", section)
        self.tab.evaluate(
            "{ const it = [...document.querySelectorAll('#rate tbody tr')].find(it => it.children[1].textContent ==="
            f" '{section}').querySelector('input');it.value = '{points}'; it.dispatchEvent(new Event('input', {{"
            " bubbles: true })) }"
        )

    def test_sections_are_rated_and_saved_before_the_desk_closes(self) -> None:
        self.give({"n.jones.session": None, "published.txt": None, "settings.json": None})
        self.open_form()
        self.fill("rate-name", "n.jones")
        self.tab.wait(
            "$('rate').textContent.includes('By the roll n.jones may take 8 credits and 5 sections at most.')"
        )
        for section, points in ("FNCE-601-A", "100"), ("FNCE-601-B", "40"), ("ACCT-611-B", "80"), ("MGMT-690-A", "30"):
            self.rate(section, points)
        # without prices: FNCE-601-A, ACCT-611-B and MGMT-690-A do not clash, and have 2 + 2 + 1 credits
        best = "document.querySelector('.beside').textContent"
        self.tab.wait(
            f"{best}.includes('your best bundle would be ACCT-611-B, FNCE-601-A and MGMT-690-A, worth 210')"
        )
        told = self.words(".beside")
        for words in (
            "Rated: 4 of at most 60 sections, 7 credits together; you may hold 8 credits and 5 sections.",
            "1 pair of them cannot be held together",
            "FNCE-601-A is of the same course as FNCE-601-B",
        ):
            self.assertIn(words, told)
        self.rate("ACCT-611-A", "101")
        self.assertIn("A rating is a whole number from 0 to 100.", self.words("#rate"))
        self.click("Save my lines")
        self.assertIn("A rating above is none: correct it first.", self.words("#rate"))
        self.rate("ACCT-611-A", "")
        for identity, value in ("rate-one", "MGMT-690-A"), ("rate-other", "ACCT-611-B"), ("rate-points", "-35"):
            self.fill(identity, value)
        self.tab.evaluate("document.querySelector('form.pair').requestSubmit()")
        self.tab.wait(f"{best}.includes('your best bundle would be ACCT-611-B and FNCE-601-A, worth 180')")
        self.assertIn("ACCT-611-B with MGMT-690-A: -35", self.words("#rate"))
        self.tab.picture(PICTURES / "own-rating.png")
        self.tab.call("Page.setDownloadBehavior", behavior="allow", downloadPath=str(self.room))
        self.click("Save my lines")
        saved = self.room / "n.jones.session"
        self.tab.until(lambda: saved.is_file() and saved.stat().st_size > 0, "the lines are saved")
        self.assertEqual(
            (
                "# What n.jones wishes.\nclear n.jones\nrate n.jones ACCT-611-B 80\nrate n.jones FNCE-601-A 100\nrate"
                " n.jones FNCE-601-B 40\nrate n.jones MGMT-690-A 30\npair n.jones ACCT-611-B MGMT-690-A -35\n"
            ),
            saved.read_text(),
        )
        self.assertFalse(self.tab.evaluate("form.mayLose()"))

    def test_what_was_saved_is_taken_up_again(self) -> None:
        lines = (
            b"clear n.jones\nrate n.jones FNCE-601-A 90\nrate n.jones NOWHERE 5\npair n.jones FNCE-601-A ACCT-611-B"
            b" 7\nrate s.adler FNCE-601-A 1\n"
        )
        self.give({"n.jones.session": lines, "published.txt": None, "settings.json": None})
        self.open_form()
        self.fill("rate-name", "n.jones")
        self.tab.wait("document.querySelector('.who button')")
        self.click("Take the 4 lines of n.jones in n.jones.session")
        self.tab.wait("$('rate').textContent.includes('Taken: 1 rating and 1 adjustment.')")
        self.assertIn(
            "ACCT-611-B with FNCE-601-A: +7 (ACCT-611-B not rated: it counts only once it is)", self.words("#rate")
        )
        self.assertTrue(self.tab.evaluate("form.mayLose()"))

    def test_catalogue_that_the_program_refuses_is_told_before_anything_is_rated(self) -> None:
        rows = (
            "section,course,seats,credits,meetings,parts\nA\u202eB,A,1,x,,constructor\n"
            '"<img src=x onerror=""document.title=1"">",A,1,1,,12\n'
        )
        self.give({"n.jones.session": None, "catalogue.csv": rows.encode()}, ["catalogue.csv"])
        self.open_form()
        best = "document.querySelector('.beside').textContent"
        self.tab.wait(f"{best}.includes('catalogue.csv, row 2')")
        self.assertIn("“A‹right-to-left override›B” stands there. Expected: a name.", self.tab.evaluate(best))
        names = self.tab.evaluate("[...document.querySelectorAll('#rate tbody th')].map(it => it.textContent)")
        self.assertEqual(["A‹right-to-left override›B", '<img src=x onerror="document.title=1">'], names)
        self.assertNotIn("function", self.words("#rate"))
        self.assertEqual("Course Match", self.tab.evaluate("document.title"))
        self.give({"n.jones.session": None}, ["catalogue.csv"])
        self.tab.wait(f"{best}.includes('Nothing is rated yet.') && !isWorking()")

    def test_sections_are_searched(self) -> None:
        self.give({"n.jones.session": None, "published.txt": None, "settings.json": None, "roll.csv": None})
        self.open_form()
        rows = (
            "[...document.querySelectorAll('#rate tbody tr')].filter(it => it.checkVisibility() &&"
            " it.querySelector('input')).length"
        )
        first = self.tab.evaluate(rows)
        self.tab.evaluate("document.querySelector('#rate tbody').lastElementChild.scrollIntoView()")
        self.tab.wait(f"{rows} === 30")
        self.assertLess(first, 30)  # (the others are drawn as they come into view)
        everything = self.tab.evaluate(rows)
        self.fill("rate-search", "fnce mon")
        shown = self.tab.evaluate(rows)
        self.assertTrue(0 < shown < everything, (shown, everything))
        self.fill("rate-credits", "900")
        self.assertIn("Credits are a whole number from 0 to 800", self.words("#rate"))


if __name__ == "__main__":
    unittest.main()
