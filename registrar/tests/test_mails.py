"""`lists --mail` and the names in every list: a mail a student, whose head no name can change."""

from __future__ import annotations

import email
import email.policy
import functools
import os
import unittest
from email.headerregistry import Address
from email.message import EmailMessage
from typing import Callable, cast

from registrar import mails, register, tell
from registrar.faults import Faults
from tests.support import needs_program
from tests.term import say
from tests.test_rosters import WithTerm

TEMPLATE = (
    "From: The Registrar <registrar@school.example>\n"
    "Reply-To: desk@school.example\n"
    "Subject: Your sections, {name}\n"
    "\n"
    "Dear {name} ({student}, {register Programme}),\n"
    "\n"
    "{sections}\n"
    "{{credits}}: {credits}; budget {budget}, spent {spent}, left {left}.\n"
    "{reasons}\n"
    "{lines}\n"
)


def read(written: bytes) -> EmailMessage:
    """A mail as a mail program reads it."""
    return cast(EmailMessage, email.message_from_bytes(written, policy=email.policy.default))


def in_brackets(name: str) -> str:
    """What stands for the value of a field."""
    return f"({name})"


def text_of(mail: EmailMessage) -> str:
    """The text of a mail."""
    return str(cast(EmailMessage, mail.get_body()).get_content())


class WithMails(WithTerm):
    """A test that writes mails for examples/term."""

    def setUp(self) -> None:
        super().setUp()
        self.write("mail.txt", TEMPLATE)

    def lists(self, *words: str) -> tuple[int, str]:
        """Calls `lists` with the template, for r.grant and n.jones."""
        chosen = ("--student", "n.jones", "--student", "r.grant")
        return say("lists", "--mapping", "mapping.ini", "--mail", "mail.txt", "--out", "lists", *chosen, *words)

    def mail(self, name: str) -> EmailMessage:
        """A mail that was written, as a mail program reads it."""
        with open(f"lists/mails/{name}.eml", "rb") as file:
            return read(file.read())

    def called(self, name: str, row: str) -> None:
        """Gives a student another row in the register."""
        lines = self.read("register.csv").splitlines()
        found = [row if line.startswith(f"{name};") else line for line in lines]
        self.write("register.csv", "\n".join(found) + "\n")


@needs_program
class Mails(WithMails):
    """What stands in a mail."""

    def test_a_mail(self) -> None:
        status, told = self.lists()
        self.assertEqual(status, 0, told)
        self.assertIn("lists: 2 mails in mails/, which nobody has sent", told)
        self.assertEqual(sorted(os.listdir("lists/mails")), ["n.jones.eml", "r.grant.eml"])
        mail = self.mail("n.jones")
        self.assertEqual(mail["To"].addresses[0], Address("N.JONES Ünal", addr_spec="n.jones@school.example"))
        self.assertEqual(mail["From"].addresses[0], Address("The Registrar", addr_spec="registrar@school.example"))
        self.assertEqual(mail["Reply-To"], "desk@school.example")
        self.assertEqual(mail["Subject"], "Your sections, N.JONES Ünal")
        self.assertNotIn("Date", mail)
        text = text_of(mail)
        self.assertIn("Dear N.JONES Ünal (n.jones, ", text)
        # GUIDE, "What is carried over": 851 + 1942 + 2137 of 4542.
        self.assertIn("{credits}: ", text)
        self.assertIn("; budget 4542, spent 4930, left 0.", text)
        self.assertIn("FNCE-717-A costs 3252.", text)
        self.assertIn(": final n.jones [ACCT-611-B,FNCE-601-A,MGMT-691-B]", text)
        attached = list(mail.iter_attachments())
        self.assertEqual([one.get_filename() for one in attached], ["n.jones.session"])
        with open("lists/students/n.jones.session", "rb") as file:
            self.assertEqual(attached[0].get_payload(decode=True), file.read())

    def test_the_same_mail_each_time(self) -> None:
        self.assertEqual(self.lists()[0], 0)
        with open("lists/mails/n.jones.eml", "rb") as file:
            before = file.read()
        self.assertEqual(self.lists()[0], 0)
        with open("lists/mails/n.jones.eml", "rb") as file:
            self.assertEqual(file.read(), before)

    def test_names_and_addresses_in_every_list(self) -> None:
        self.assertEqual(say("lists", "--mapping", "mapping.ini", "--no-reasons", "--out", "lists")[0], 0)
        self.assertFalse(os.path.exists("lists/mails"))
        rows = self.read("lists/students.csv").splitlines()
        self.assertEqual(rows[0], "student,name,e-mail,sections,credits,spent,left")
        self.assertTrue(any(row.startswith("r.grant,R.GRANT Ünal,r.grant@school.example,") for row in rows))
        rows = self.read("lists/rosters.csv").splitlines()
        self.assertEqual(rows[0], "section,student,name,e-mail")
        self.assertIn("FNCE-601-A,n.jones,N.JONES Ünal,n.jones@school.example", rows)

    def test_mails_of_an_earlier_run_are_told(self) -> None:
        os.makedirs("lists/mails")
        self.write("lists/mails/w.eml", "an earlier mail")
        status, told = self.lists()
        self.assertEqual(status, 0, told)
        self.assertIn("1 mail of nobody on this roll, such as w.eml", told)

    def test_students_without_an_address(self) -> None:
        self.called("n.jones", "n.jones;N Jones;;Law")
        status, told = self.lists()
        self.assertEqual(status, tell.FAULTS)
        self.assertIn("column Mail: blank where this was expected: the e-mail address of n.jones", told)
        self.assertFalse(os.path.exists("lists"))
        status, told = self.lists("--allow", "no-e-mail")
        self.assertEqual(status, 0, told)
        self.assertEqual(os.listdir("lists/mails"), ["r.grant.eml"])
        self.assertIn("lists: 1 mail in mails/, which nobody has sent; 1 without an address have none", told)

    def test_two_with_one_address(self) -> None:
        self.called("n.jones", "n.jones;N Jones;R.Grant@school.example;Law")
        status, told = self.lists()
        self.assertEqual(status, tell.FAULTS)
        self.assertIn("an address of r.grant alone; n.jones has it too", told)
        self.assertEqual(self.lists("--allow", "same-e-mail")[0], 0)


class Attacks(WithMails):
    """A name is a name, whatever stands in it. One case goes through the command, the others through what it calls."""

    post: mails.Post
    ADDRESSES = ["n.jones@school.example"]
    HEAD = ["From", "To", "Reply-To", "Subject", "X-Unsent", "MIME-Version", "Content-Type"]

    def faults(self, row: str) -> list[str]:
        """What is wrong with n.jones, who has this row in the register."""
        self.called("n.jones", row)
        made = register.read("mapping.ini", "catalogue.csv", "roll.csv", Faults())
        self.post = mails.read("mail.txt", made)
        mails.look_at_students(self.post, ["n.jones"])
        return [fault.line() for fault in made.faults.found]

    def written(self, row: str) -> bytes:
        """The mail of n.jones, who has this row in the register."""
        self.assertEqual(self.faults(row), [])
        values: dict[str, Callable[[], str]] = {name: functools.partial(in_brackets, name) for name in mails.FIELDS}
        values["name"] = lambda: self.post.register.said("n.jones", "name")
        return mails.mail(self.post, "n.jones", values, b"rate n.jones X 1\n")

    def assert_one_head(self, written: bytes) -> None:
        """The head has its own lines alone, none of them long, and one address."""
        mail = read(written)
        self.assertEqual(list(mail.keys()), self.HEAD)
        self.assertEqual([one.addr_spec for one in mail["To"].addresses], self.ADDRESSES)
        head = written.split(b"\r\n\r\n")[0]
        self.assertLessEqual(max(len(line) for line in head.split(b"\r\n")), 78)
        self.assertNotIn(b"evil", head)

    @needs_program
    def test_a_name_with_a_line_end(self) -> None:
        self.called("n.jones", 'n.jones;"N Jones\r\nBcc: all@evil.example";n.jones@school.example;Law')
        status, told = self.lists("--student", "n.jones")
        self.assertEqual(status, 0, told)
        with open("lists/mails/n.jones.eml", "rb") as file:
            self.assert_one_head(file.read())

    def test_names_that_would_be_lines_of_the_head(self) -> None:
        for called in (
            '"N Jones\nBcc: all@evil.example"',
            "\"N Jones\r\nBcc: all@evil.example\r\n\r\nPay here\"",
            '"""N"" <all@evil.example>, x"',
            "N Jones <all@evil.example>",
            "N Jones, all@evil.example",
            "N Jones\u2028Bcc: all@evil.example",
            "N Jones\u0085Bcc: all@evil.example",
            '"(comment) N: Jones; all@evil.example"',
            "=?utf-8?q?N=0D=0ABcc:_all=40evil.example?=",
            "Łukasz O'Brien-Smith " * 20,
            "{budget} {reasons} {nobody}",
            "N\\",
        ):
            with self.subTest(called):
                self.assert_one_head(self.written(f"n.jones;{called};n.jones@school.example;Law"))

    def test_a_name_s_braces_are_no_field(self) -> None:
        written = self.written("n.jones;{budget};n.jones@school.example;Law")
        text = text_of(read(written))
        self.assertIn("Dear {budget} ((student), Law)", text)

    def test_control_signs_are_refused(self) -> None:
        for called in ("N\x07Jones", "N\x1bJones", "N\u202eJones"):
            with self.subTest(called):
                told = self.faults(f"n.jones;{called};n.jones@school.example;Law")
                self.assertEqual(len(told), 1)
                self.assertIn("the name of n.jones without control signs", told[0])

    def test_addresses_that_are_none(self) -> None:
        for address in (
            "n.jones", "n.jones@", "@school.example", "n jones@school.example", "a@b.example,c@d.example",
            "n..j@school.example", "N <n@school.example>", '"n@school.example\nBcc: x@y.example"', "n@school",
            "ñ@school.example", "n@" + "x." * 130 + "de",
        ):  # fmt: skip
            with self.subTest(address):
                told = self.faults(f"n.jones;N Jones;{address};Law")
                self.assertEqual(len(told), 1)
                self.assertIn("the e-mail address of n.jones, as name@school.edu", told[0])


@needs_program
class Templates(WithMails):
    """What is wrong with a template is told before anything is written."""

    def refused(self, text: str, *wanted: str) -> None:
        """The template is refused with these words."""
        self.write("mail.txt", text)
        status, told = self.lists()
        self.assertEqual(status, tell.FAULTS, told)
        for one in wanted:
            self.assertIn(one, told)
        self.assertFalse(os.path.exists("lists"))

    def test_faults(self) -> None:
        self.refused("Subject: Hello\n\nDear\n", "a line `From: ..` above the first empty line")
        wanted = ('mail.txt row 3: "Bcc: Your sections, {name}"', "`Subject: ..`, once")
        self.refused(TEMPLATE.replace("Subject", "Bcc"), *wanted)
        self.refused(TEMPLATE.replace("{sections}", "{section}"), 'mail.txt row 7: "{section}"', "nearest: sections")
        self.refused(TEMPLATE.replace("{sections}", "{sections"), 'mail.txt row 7: "{"')
        self.refused(TEMPLATE.replace("{name}\n", "{nome}\n"), 'mail.txt, column Subject: "{nome}"')
        self.refused(TEMPLATE.replace("{register Programme}", "{register Program}"), "nearest: programme")
        self.refused(TEMPLATE.replace("<registrar@school.example>", "<a@b.example>, c@d.example"), "one address, as")
        self.write("mapping.ini", self.read("mapping.ini").replace("e-mail = Mail\n", ""))
        self.refused(TEMPLATE, "mapping.ini, column [roll] e-mail", "the column of the e-mail: a mail needs it")

    def test_words_that_go_together(self) -> None:
        self.assertEqual(say("lists", "--mail", "mail.txt")[0], tell.USAGE)
        status, told = self.lists("--no-reasons")
        self.assertEqual(status, tell.USAGE)
        self.assertIn("mail.txt has the field {reasons}, which --no-reasons leaves out", told)
        status, told = say("lists", "--mapping", "mapping.ini", "--mail", "lists/students/n.jones.txt")
        self.assertEqual(status, tell.NO_FILE)


class Addresses(unittest.TestCase):
    """One address."""

    def test_one_address(self) -> None:
        for text in ("a@b.example", "A B <a@b.example>", '"B, A" <a@b.example>', "a+c/d=e@b-c.example"):
            self.assertTrue(mails.one_address(text)[1], text)
        for text in ("", "a", "a@b.example, c@d.example", "A <a@b.example> <c@d.example>", "a@b.example\nBcc: c@d.org"):
            self.assertEqual(mails.one_address(text), ("", ""), text)


if __name__ == "__main__":
    unittest.main()
