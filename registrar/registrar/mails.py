"""A mail for each student as a file, `.eml`, from a template with fields: whoever opens it sends it, nothing else does.

A template has lines `From:`, `Subject:` and, if wished, `Reply-To:`, an empty line, and the text. Fields stand in
braces, also in the subject. What a student is called can not become a line of the head: blanks and line ends in it are
one blank, other control signs are a fault, and each mail is read back before it is written.
"""

from __future__ import annotations

import base64
import email
import email.policy
import hashlib
import re
import unicodedata
from dataclasses import dataclass
from email.message import EmailMessage
from typing import Callable, Dict, List, Mapping, Optional, Sequence, Tuple, cast

from registrar import fields, own_names, register, tables, tell

HEADS = ("From", "Reply-To", "Subject")
NEEDED = ("From", "Subject")

#: The fields of a mail, besides the register's columns.
FIELDS = ("student", "name", "e-mail", "sections", "credits", "budget", "spent", "left", "reasons", "lines")
OPENINGS = ("register",)

LOCAL = r"[A-Za-z0-9!#$%&'*+/=?^_`{|}~-]+"
DOMAIN = r"[A-Za-z0-9-]+"
ADDRESS = re.compile(rf"{LOCAL}(\.{LOCAL})*@{DOMAIN}(\.{DOMAIN})+")
MOST_LETTERS = 254

#: Signs that turn the direction of what is read.
TURNING = set("\u200e\u200f\u202a\u202b\u202c\u202d\u202e\u2066\u2067\u2068\u2069")

POLICY = email.policy.SMTP


@dataclass(frozen=True)
class Template:
    """A template that was read: the lines of its head, and its text."""

    path: str
    head: Dict[str, str]
    text: str


@dataclass(frozen=True)
class Post:
    """What mails are made from: the template, the register, and its columns that the template names."""

    template: Template
    register: register.Register
    columns: Dict[str, Dict[str, str]]


def read(path: str, made: register.Register) -> Post:
    """Reads a template, and finds its columns. Its faults are added to those of the register."""
    lines = tables.read_text(path).replace("\r\n", "\n").split("\n")
    head: Dict[str, str] = {}
    end = next((at for at, line in enumerate(lines) if not line.strip()), len(lines))
    for number, line in enumerate(lines[:end], 1):
        title, colon, value = line.partition(":")
        if not colon or title not in HEADS or title in head or not value.strip():
            expected = f"one of {', '.join(f'`{one}: ..`' for one in HEADS)}, once; the text stands below an empty line"
            made.faults.add(path, number, "", line, expected)
        else:
            head[title] = value.strip()
    for title in NEEDED:
        if title not in head and not made.faults:
            made.faults.add(path, None, "", "", f"a line `{title}: ..` above the first empty line")
    template = Template(path, head, "\n".join(lines[end + 1 :]).rstrip("\n") + "\n")
    look(template, end + 1, made)
    columns: Dict[str, Dict[str, str]] = {}
    for name in names_of(template) if not made.faults else []:
        opening, _, title = name.partition(" ")
        if opening in OPENINGS:
            columns[name] = made.by_column(title)
    return Post(template, made, columns)


def look(template: Template, above: int, made: register.Register) -> None:
    """Adds the faults of the fields and addresses. `above` is how many lines stand above the text."""
    for title, text in (("Subject", template.head.get("Subject", "")), ("", template.text)):
        try:
            fields.refuse_unknown(text, FIELDS, OPENINGS)
        except fields.FieldFault as found:
            made.faults.add(template.path, None if title else above + found.line, title, found.value, str(found))
    for title in ("From", "Reply-To"):
        if title in template.head and not one_address(template.head[title])[1]:
            expected = "one address, as `The Registrar <registrar@school.edu>`"
            made.faults.add(template.path, None, title, template.head[title], expected)
    for option in ("e-mail", "name"):
        if not made.has(option) and (option == "e-mail" or option in names_of(template)):
            expected = f"the column of the {option}: a mail needs it"
            made.faults.add(made.mapping.path, None, f"[roll] {option}", "", expected)


def names_of(template: Template) -> List[str]:
    """The fields that a template has, where it has no faults."""
    try:
        texts = (template.head.get("Subject", ""), template.text)
        return [name for text in texts for _, name in fields.fields_of(text)]
    except fields.FieldFault:
        return []


def one_address(text: str) -> Tuple[str, str]:
    """The name and the address of a text that is one address, with a name or without; else two empty texts."""
    message = EmailMessage(policy=POLICY)
    try:
        message["From"] = text
        found = message["From"].addresses
    except (ValueError, IndexError):
        return "", ""
    if len(found) != 1 or message["From"].defects or not is_address(found[0].addr_spec):
        return "", ""
    return found[0].display_name, found[0].addr_spec


def is_address(text: str) -> bool:
    """Whether the text is an address of letters without accents, digits and the usual signs."""
    return bool(ADDRESS.fullmatch(text)) and len(text) <= MOST_LETTERS and len(text.split("@", 1)[0]) <= 64


def look_at_students(post: Post, names: Sequence[str], allowed: Sequence[str] = ()) -> List[str]:
    """Who has a mail. Adds students without an address, with a wrong one or another's, and names with control signs.

    With `no-e-mail` allowed a student without an address has no mail, with `same-e-mail` two may have one address.
    """
    made = post.register
    seen: Dict[str, str] = {}
    mailed = []
    for name in names:
        address, own = made.said(name, "e-mail"), own_names.spelt(made.own, "student", name)
        if not address and "no-e-mail" in allowed:
            continue
        mailed.append(name)
        if not is_address(address):
            fault(post, name, "e-mail", f"the e-mail address of {own}, as name@school.edu")
        elif address.lower() in seen and "same-e-mail" not in allowed:
            fault(post, name, "e-mail", f"an address of {own} alone; {seen[address.lower()]} has it too")
        seen.setdefault(address.lower(), own)
        if any(is_control(sign) for sign in made.said(name, "name")):
            fault(post, name, "name", f"the name of {own} without control signs")
    return mailed


def fault(post: Post, student: str, option: str, expected: str) -> None:
    """Adds the fault of a student's cell in the register."""
    table = post.register.students
    rows = table.rows.get(student, []) if table else []
    if table and rows:
        table.export.fault(rows[0], option, post.register.said(student, option), expected)


def is_control(sign: str) -> bool:
    """Whether a sign is none that a name has: a control sign, one of no letter, or one that turns the direction."""
    return unicodedata.category(sign) in ("Cc", "Cs", "Cn") or sign in TURNING


def mail(post: Post, name: str, values: Mapping[str, Callable[[], str]], session: bytes) -> bytes:
    """The mail of a student, with its own session attached. `values` has what the fields say."""
    made, template = post.register, post.template

    def value(field: str) -> str:
        return post.columns[field].get(name, "") if field in post.columns else values[field]()

    people = {"From": one_address(template.head["From"]), "To": (made.said(name, "name"), made.said(name, "e-mail"))}
    if "Reply-To" in template.head:
        people["Reply-To"] = one_address(template.head["Reply-To"])
    subject = " ".join(fields.filled(template.head["Subject"], value).split())
    text = fields.filled(template.text, value)
    head = [address_line(title, *who) for title, who in people.items()]
    # By the last line a mail program opens it as a draft.
    head += ["Subject: " + (subject if is_plain(subject) else encoded(subject)), "X-Unsent: 1"]
    attached = f"{own_names.file_of(made.own, name)}.session"
    written = "".join(line + "\r\n" for line in head).encode("ascii") + body(text, session, attached)
    fault = read_back(written, {**people, "Subject": subject}, session)
    if fault:
        raise tell.Trouble(f"the mail of {name} is not written: read back, its {fault} is another")
    return written


def body(text: str, session: bytes, called: str) -> bytes:
    """The text and what is attached, with their own heads. The boundary follows from both: it is the same each time."""
    message = EmailMessage(policy=POLICY)
    message.set_content(text, cte="quoted-printable")
    message.add_attachment(session, maintype="text", subtype="plain", filename=called)
    message.set_boundary("part-" + hashlib.sha256(text.encode("utf-8", "replace") + session).hexdigest()[:40])
    return message.as_bytes()


def is_plain(text: str) -> bool:
    """Whether a text can stand in a head as it is: letters, digits and a few signs, not too long."""
    return bool(re.fullmatch(r"[A-Za-z0-9][A-Za-z0-9 .,:!'-]*", text)) and len(text) <= 60


def encoded(text: str) -> str:
    """A text as encoded words (RFC 2047), one a line: no sign of it is read as a sign of the head."""
    words = [""]
    for sign in text:
        if len((words[-1] + sign).encode("utf-8")) > 39:
            words.append("")
        words[-1] += sign
    return "\r\n ".join(f"=?utf-8?b?{base64.b64encode(word.encode('utf-8')).decode('ascii')}?=" for word in words)


def address_line(title: str, name: str, address: str) -> str:
    """A line of the head with one address."""
    if not name:
        return f"{title}: {address}"
    called = f'"{name}"' if is_plain(name) else encoded(name)
    line = f"{title}: {called} <{address}>"
    return line if len(line) <= 76 and "\r\n" not in called else f"{title}: {called}\r\n <{address}>"


def plain(name: str) -> str:
    """A name without blanks: some readers put one between two encoded words of a long name."""
    return "".join(name.split())


def read_back(written: bytes, wanted: Mapping[str, "str | Tuple[str, str]"], session: bytes) -> Optional[str]:
    """What differs in a mail that is read as a mail program reads it; nothing where all is as it was meant."""
    again = cast(EmailMessage, email.message_from_bytes(written, policy=POLICY))
    if sorted(again.keys()) != sorted([*wanted, "X-Unsent", "MIME-Version", "Content-Type"]):
        return "head"
    for title, meant in wanted.items():
        people = [(plain(one.display_name), one.addr_spec) for one in getattr(again[title], "addresses", ())]
        if str(again[title]) != meant if isinstance(meant, str) else people != [(plain(meant[0]), meant[1])]:
            return title
    attached = [part.get_payload(decode=True) for part in again.iter_attachments()]
    return None if attached == [session] else "attachment"
