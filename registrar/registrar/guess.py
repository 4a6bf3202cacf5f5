"""A first guess of a mapping, from the columns' names and what stands below them.

The guess never decides: it is written as a file that the registrar reads and corrects, and what could not be guessed is told.
"""

from __future__ import annotations

import os
import re
from dataclasses import dataclass, field

from registrar import tell
from registrar.amounts import RESERVED
from registrar.exported import plain
from registrar.guess_times import hours_of_24, is_of_submissions, two_ways
from registrar.mapping import Source, mapping_text
from registrar.meaning import what_numbers_may_mean
from registrar.meetings import NO_MEETING
from registrar.sheet import SheetFault, read_rows
from registrar.spelling import spelt, tidy
from registrar.surveys import rank_of
from registrar.tables import make_folder, write_whole

#: How columns are called, by what they say. The first word that a file has is taken.
WORDS: dict[str, str] = {
    "section": "section code|section id|section|course section|class code|class nbr|class number|class|crn|code|offering",
    "course": "course code|course id|course|course number|module|subject",
    "seats": "seats|capacity|max enrollment|max enrolment|enrollment cap|enrolment cap|enrl cap|max seats|cap|places|size|limit",
    "credits": "credits|credit|units|credit units|credit hours|cu|ects|max credits|credit cap|credit limit|max units|hours",
    "meetings": "meetings|meeting times|meeting time|meeting|days times|days and times|day time|schedule|times|time|meets|when",
    "days": "days|day|meeting days|weekdays|weekday",
    "start": "start|start time|begin|begin time|starts|from",
    "end": "end|end time|ends|until|to",
    "length": "length|duration|minutes|length min|duration min|length minutes",
    "parts": "parts|part of term|half|term half|part",
    "student": "student number|student id|student no|student|matriculation number|id number|id|net id|netid|username|email|"
    "e mail|email address|name",
    "budget": "budget|tokens|bid points|endowment|points",
    "courses": "max courses|courses|course cap|course limit|max sections|section cap|section limit|max number of courses",
    "name": "name|full name|student name|last name first name",
    "e-mail": "e mail|email|e mail address|email address|mail",
    "carry": "carry|carried over|carry over|tokens carried over|tokens left|left over|rollover",
    "rating": "rating|score|points|utility|value|stars|how much",
    "rank": "rank|priority|preference|order of preference",
    "second": "second section|together with|with section|other section|with|second",
    "request": "request|action|type of request|what",
    "add": "section to add|add section|add",
    "drop": "section to drop|drop section|drop",
    "leave": "waiting list to leave|leave|leave waiting list",
    "pairs": "pairs|together|better together|pair",
    "time": "timestamp|time stamp|submitted|submitted at|submission time|submission date|completion time|recorded date|end date|sent|"
    "sent at|date submitted|submission timestamp|date|zeitstempel",
    "submission": "submission|submission id|submission number|response id|response|response number|form id",
}

#: What is looked for in each kind of file, and how it is called there.
SOUGHT = {
    "catalogue": ("section", "course", "seats", "credits", "meetings", "days", "start", "end", "length", "parts"),
    "roll": ("student", "budget", "credits", "courses", "carry", "name", "e-mail"),
}

#: What a mapping needs to be whole: one of each group of options.
NEEDED = {
    "catalogue": ("section", "course", "seats", "credits", "meetings|days"),
    "roll": ("student", "budget|budget default", "credits|credits default", "courses|courses default"),
    "survey": ("student",),
    "sessions": ("folder",),
    "requests": ("student", "request|add|drop"),
}


#: The columns that are looked at for blanks; of the latter ones, of several rows of a section the first alone counts.
MAY_BE_BLANK = ("section", "course", "student", "seats", "credits", "meetings", "budget", "courses")
OF_FIRST_ROWS = ("seats", "credits", "budget", "courses")

#: So many words that stand in place of numbers are shown.
WORDS_SHOWN = 12


@dataclass
class Seen:
    """A file that is looked at: its header, the rows below with their numbers, and in which row the header stands.

    `asked` are the options that the registrar has to write.
    """

    path: str
    header: list[str]
    rows: list[list[str]]
    numbers: list[int]
    header_row: int
    encoding: str = ""
    kind: str = ""
    values: dict[str, str] = field(default_factory=dict)
    asked: list[str] = field(default_factory=list)

    def has(self, what: str) -> str:
        """The column that is called like this, or nothing."""
        names = {plain(title): title for title in reversed(self.header) if title}
        return next((names[word] for word in WORDS[what].split("|") if word in names), "")

    def column(self, title: str) -> list[str]:
        """What stands in a column, blanks left out."""
        at = self.header.index(title)
        return [tidy(row[at]) for row in self.rows if at < len(row) and row[at].strip()]


def look_at(path: str, encoding: str) -> Seen:
    """Reads a file and finds its header: of the first rows the one with the most names that are known."""
    rows = [[tidy(cell) for cell in row] for row in read_rows(path, encoding)]
    known = {word for words in WORDS.values() for word in words.split("|")}

    def names(row: list[str]) -> int:
        return sum(plain(cell) in known for cell in row)

    first = next((at for at, row in enumerate(rows) if any(row)), 0)
    best = max(range(first, min(len(rows), first + 10)), key=lambda at: (names(rows[at]), -at), default=0)
    header = rows[best] if rows else []
    below = [(number, row) for number, row in enumerate(rows[best + 1 :], best + 2) if any(row)]
    return Seen(path, header, [row for _, row in below], [number for number, _ in below], best + 1, encoding)


def choices(option: str, title: str, is_partly: bool) -> str:
    """What a mapping may say of a column that is blank in some rows (`is_partly`), or in all."""
    found = [f"`fill down = {title}` where these are merged cells"] if is_partly else []
    if option not in ("section", "course", "student"):
        found.append(f"`{option} default` where all of them mean one value")
    return ", or ".join(found)


class Guesser:
    """Guesses what the files are. `open` are what the registrar has to say."""

    def __init__(self, files: list[Seen], folders: list[str], folder: str) -> None:
        self.files = files
        self.folders = folders
        self.folder = folder
        self.codes: set[str] = set()
        self.numbers: set[str] = set()
        self.open: list[str] = []
        self.told: list[str] = []
        self.sections: dict[str, dict[str, str]] = {}
        self.notes: dict[str, list[str]] = {}

    def guess(self) -> str:
        """The mapping as text."""
        self.tables()
        for seen in self.files:
            if not seen.kind:
                self.speaking(seen)
        for kind in ("catalogue", "roll"):
            if not any(seen.kind == kind for seen in self.files):
                self.open.append(f"[{kind}]: none of the files looks like it")
                self.sections[kind] = {}
        order = {"catalogue": 0, "roll": 1, "survey": 2, "sessions": 3, "requests": 4}
        for seen in sorted((seen for seen in self.files if seen.kind), key=lambda seen: order[seen.kind]):
            if seen.kind == "survey":
                self.sent(seen)
            self.keep(seen)
        for folder in self.folders:
            self.keep_folder(folder)
        self.sections = dict(sorted(self.sections.items(), key=lambda item: order[item[0].split(" ")[0]]))
        self.sections["numbers"] = self.of_numbers()
        self.sections.update({"times": self.of_times(), "students": {}, "sections": {}})
        return mapping_text(self.sections, self.notes)

    def tables(self) -> None:
        """Finds the catalogue and the roll, and the codes and numbers that they have."""
        for seen in self.files:
            if seen.has("section") and seen.has("seats") and not self.of("catalogue"):
                seen.kind = "catalogue"
                seen.values = {what: seen.has(what) for what in SOUGHT["catalogue"]}
                self.split_codes(seen)
                self.codes = {spelt(code) for code in self.joined(seen, seen.values["section"])}
        for seen in self.files:
            caps = [seen.has(what) for what in ("budget", "credits", "courses")]
            if not seen.kind and seen.has("student") and any(caps) and not seen.has("section") and not self.of("roll"):
                seen.kind = "roll"
                seen.values = {what: seen.has(what) for what in SOUGHT["roll"]}
                self.numbers = {spelt(number) for number in seen.column(seen.values["student"])}

    def of(self, kind: str) -> list[Seen]:
        """The files of a kind."""
        return [seen for seen in self.files if seen.kind == kind]

    def joined(self, seen: Seen, names: str) -> list[str]:
        """The codes of a column, or of several that are joined by `-`: what is blank in these is what stands above."""
        places = [seen.header.index(name) for name in names.split(" + ")]
        found: list[str] = []
        above = [""] * len(places)
        for row in seen.rows:
            cells = [row[at] if at < len(row) else "" for at in places]
            above = [cell or before for cell, before in zip(cells, above)]
            found.append("-".join(cell for cell in (above if len(places) > 1 else cells) if cell))
        return found

    def split_codes(self, seen: Seen) -> None:
        """Where two courses have a section of one code (`A`), a section's code is the course's and that one.

        Likewise a course's code may be the subject's and a number; and a column for times may have no days.
        """
        section, course = seen.values["section"], seen.values["course"]
        subject = next((title for title in seen.header if plain(title) in ("subject", "dept", "department")), "")
        number = next(
            (title for title in seen.header if plain(title) in ("number", "catalog number", "catalogue number", "course no")),
            "",
        )
        if subject and number:
            course = f"{subject} + {number}"
            seen.values["course"] = course
        courses: dict[str, set[str]] = {}
        for code, of in zip(self.joined(seen, section), self.joined(seen, course) if course else []):
            courses.setdefault(code, set()).add(of)
        if any(len(several) > 1 for several in courses.values()):
            seen.values["section"] = f"{course} + {section}"
        if seen.values["meetings"] and seen.values["days"]:
            clocks = [clock for clock in seen.column(seen.values["meetings"]) if clock.upper() not in NO_MEETING]
            if not any(re.match(r"[A-Za-z]", clock) for clock in clocks):
                seen.values["start"], seen.values["meetings"] = seen.values["start"] or seen.values["meetings"], ""

    def like(self, seen: Seen, known: set[str]) -> str:
        """The column that has the most of the known names, where it has any."""

        def shared(title: str) -> int:
            return len({spelt(value) for value in seen.column(title)} & known)

        titles = [title for title in dict.fromkeys(seen.header) if title]
        best = max(titles, key=shared, default="")
        return best if best and shared(best) else ""

    def speaking(self, seen: Seen) -> None:
        """Guesses what a file is that is neither catalogue nor roll: a survey of one of three shapes, or requests."""
        student = self.like(seen, self.numbers) or seen.has("student")
        columns = self.code_columns(seen)
        choices = self.choice_columns(seen)
        section = self.like(seen, self.codes) or seen.has("section")
        asked = {what: seen.has(what) for what in ("request", "add", "drop", "leave")}
        value = seen.has("rating") or seen.has("rank")
        if student and (asked["request"] and section or asked["add"] or asked["drop"]):
            seen.kind = "requests"
            seen.values = {"student": student, **asked}
            if asked["request"]:
                seen.values["section"] = seen.has("section") or section
        elif student and len(columns[1]) > 1:
            seen.kind = "survey"
            extra = [title for title in seen.header if title and title not in columns[1] and title != student]
            seen.values = {"student": student, "shape": "students", "columns": columns[0], "pairs": seen.has("pairs")}
            if columns[0] == "*":
                seen.values["extra"] = " | ".join(title for title in extra if title != seen.values["pairs"])
            self.ask(seen, columns[1])
        elif student and choices:
            seen.kind = "survey"
            seen.values = {"student": student, "shape": "choices", "columns": choices, "pairs": seen.has("pairs")}
        elif student and section and value:
            seen.kind = "survey"
            second = seen.has("second")
            seen.values = {"student": student, "shape": "wishes", "section": section, "second": second, "value": value}
            if second == section:
                seen.values["section"] = seen.has("section")
            self.ask(seen, [value])
        else:
            self.open.append(f"{os.path.basename(seen.path)}: neither catalogue, roll, survey nor requests; it is left out")

    def ask(self, seen: Seen, titles: list[str]) -> None:
        """Asks what the numbers in these columns mean, with examples. Of words it asks for numbers."""
        source = Source("survey", "survey", "", self.folder, {})
        seen.asked.append("says: " + "\n    ".join(what_numbers_may_mean(self.values_of(seen, titles), source)))
        values = (value for title in titles for value in seen.column(title))
        words = list(dict.fromkeys(value for value in values if not re.match(r"[-+]?\d", value)))
        if words:
            more = ", .." if len(words) > WORDS_SHOWN else ""
            shown = ", ".join(f'"{word}"' for word in words[:WORDS_SHOWN]) + more
            seen.asked.append(f"answers: these stand in place of numbers: {shown}")

    def values_of(self, seen: Seen, titles: list[str]) -> list[tuple[str, list[str]]]:
        """What each answer gave in these columns, with its first row.

        An answer is a row, or in a long sheet the rows of a student with one time.
        """
        student = seen.header.index(seen.values["student"])
        places = [seen.header.index(title) for title in titles]
        second = seen.header.index(seen.values["second"]) if seen.values.get("second") else len(seen.header)
        time = seen.header.index(seen.has("time")) if seen.has("time") else len(seen.header)
        found: dict[tuple[str, ...], tuple[str, list[str]]] = {}
        for number, row in zip(seen.numbers, seen.rows):
            is_long = seen.values["shape"] == "wishes"
            key = tuple(row[at] for at in (student, time) if at < len(row)) if is_long else (str(number),)
            is_pair = second < len(row) and row[second].strip()
            values = [] if is_pair else [tidy(row[at]) for at in places if at < len(row) and row[at].strip()]
            found.setdefault(key, (f"row {number}", []))[1].extend(values)
        return list(found.values())

    def sent(self, seen: Seen) -> None:
        """Guesses which column tells when a row was sent, and in a long sheet which rows were sent together."""
        is_long = seen.values["shape"] == "wishes"
        time, submission = seen.has("time"), seen.has("submission") if is_long else ""
        taken = set(seen.values.values())
        if submission and submission not in taken:
            seen.values["submission"] = submission
        if time and time not in taken and (not is_long or submission or self.is_of_submissions(seen, time)):
            seen.values["time"] = time

    def is_of_submissions(self, seen: Seen, time: str) -> bool:
        """Whether the column of a time tells what was sent together."""
        at, student = seen.header.index(time), seen.header.index(seen.values["student"])
        rows = [row for row in seen.rows if max(at, student) < len(row)]
        return is_of_submissions([row[student] for row in rows], [row[at] for row in rows])

    def code_columns(self, seen: Seen) -> tuple[str, list[str]]:
        """The columns whose name has a section's code in it, and how their names are built around it."""
        shapes: dict[str, list[str]] = {}
        for title in seen.header:
            for found in re.finditer(r"(?:(?! [-\u2013] )[^\[\]():])+", title):
                stem = found.group().strip()
                if spelt(stem) in self.codes:
                    at = title.index(stem, found.start())
                    behind = title[at + len(stem) :]
                    shapes.setdefault(title[:at] + "*" + behind, []).append(title)
                    if re.search(r"\w", behind):
                        shapes.setdefault(title[:at] + "*" + re.split(r"\w", behind)[0] + "*", []).append(title)
        return max(shapes.items(), key=lambda item: len(item[1]), default=("", []))

    def choice_columns(self, seen: Seen) -> str:
        """How the names of the columns for choices are built (`Choice *`), or nothing."""
        shapes: dict[str, int] = {}
        for title in seen.header:
            for found in re.finditer(r"\w+", title):
                if rank_of(found.group()):
                    shape = title[: found.start()] + "*" + title[found.end() :]
                    shapes[shape] = shapes.get(shape, 0) + 1
        shape = max(shapes, key=lambda one: shapes[one], default="")
        return shape if shape and shapes[shape] > 1 else ""

    def keep(self, seen: Seen) -> None:
        """Keeps a file's section of the mapping, and what is open in it."""
        stem = spelt(os.path.splitext(os.path.basename(seen.path))[0])[:28] or "one"
        title = seen.kind if seen.kind in SOUGHT else f"{seen.kind} {stem}"
        while title in self.sections:
            title += "-2"
        file = os.path.relpath(seen.path, self.folder)
        self.sections[title] = {"file": file, "encoding": seen.encoding, "header row": str(seen.header_row), **seen.values}
        self.notes[title] = ["the columns of the file: " + " | ".join(name for name in seen.header if name)]
        named = [f"{option} = {value}" for option, value in seen.values.items() if value]
        self.told.append(f"{os.path.basename(seen.path)} is [{title}]: " + "; ".join(named))
        for options in NEEDED[seen.kind]:
            if not any(seen.values.get(option) for option in options.split("|")):
                self.open.append(f"[{title}] {options.replace('|', ' or ')}")
        self.open += [f"[{title}] {line}" for line in (*seen.asked, *self.blanks(seen))]
        if seen.kind in SOUGHT:
            self.open += [f"[{title}] {line}" for line in (*self.lengths(seen), *self.reserved(seen))]

    def keep_folder(self, path: str) -> None:
        """Keeps a folder of students' own session files."""
        title = f"sessions {spelt(os.path.basename(os.path.abspath(path)))[:28] or 'own'}"
        self.sections[title] = {"folder": os.path.relpath(path, self.folder)}
        count = sum(name.endswith(".session") for name in os.listdir(path))
        files = tell.count(count, "session file", "session files")
        self.told.append(f"{os.path.basename(os.path.abspath(path))} is [{title}]: {files}")

    def blanks(self, seen: Seen) -> list[str]:
        """The columns that are blank in some rows, so that the mapping has to say what a blank means.

        Of several rows of one section the first alone has to say its seats and credits.
        """
        names = self.joined(seen, seen.values["section"]) if seen.kind == "catalogue" else []
        firsts = [row for at, row in enumerate(seen.rows) if not names or names.index(names[at]) == at]
        found: list[str] = []
        told: set[str] = set()
        for option in MAY_BE_BLANK if seen.kind in SOUGHT else ("student",):
            rows = firsts if option in OF_FIRST_ROWS else seen.rows
            for title in seen.values.get(option, "").split(" + "):
                at = seen.header.index(title) if title in seen.header else -1
                blank = sum(at >= len(row) or not row[at] for row in rows) if at >= 0 and title not in told else 0
                if blank:
                    told.add(title)
                    found.append(f"{option}: {blank} of {len(rows)} rows have nothing in {title}: "
                                 + choices(option, title, blank < len(rows)))  # fmt: skip
        return found

    def reserved(self, seen: Seen) -> list[str]:
        """That seats some of which are reserved read in two ways."""
        texts = seen.column(seen.values["seats"]) if seen.values.get("seats") in seen.header else []
        return [f'reserved seats: what "{text}" means, all or less' for text in texts if RESERVED.fullmatch(text)][:1]

    def lengths(self, seen: Seen) -> list[str]:
        """That meetings without an end need a length, where there are some and no column has one."""
        if not seen.values.get("meetings") or seen.values.get("length"):
            return []
        texts = seen.column(seen.values["meetings"])
        open_ended = [
            text for text in texts if re.search(r"\d", text) and not re.search(r"\d\s*(am|pm)?\s*([-\u2013]|to)", text, re.I)
        ]
        return [f'length or length default: "{text}" has no end' for text in open_ended[:1]]

    def of_times(self) -> dict[str, str]:
        """Whether times are of 24 hours, by those of the catalogue. Where they do not tell, two readings are asked about."""
        for seen in self.of("catalogue"):
            options: tuple[str, ...] = ("meetings", "start", "end")
            names = [seen.values[option] for option in options if seen.values.get(option) in seen.header]
            of_day = hours_of_24(text for name in names for text in seen.column(name))
            if of_day:
                self.told.append(f'clock = 24, since "{of_day}" stands in {os.path.basename(seen.path)}')
                return {"clock": "24"}
            options = ("meetings",) if seen.values.get("meetings") else ("days", "start", "end")
            named = [seen.values.get(option) for option in options]
            places = [seen.header.index(name) if name else len(seen.header) for name in named]
            unclear = two_ways([row[at] if at < len(row) else "" for at in places] for row in seen.rows)
            if unclear:
                self.open.append(f"[times] or [days] {unclear}")
        return {}

    def of_numbers(self) -> dict[str, str]:
        """The decimal sign, and the unit of credits, by the numbers that stand in the tables."""
        texts = [
            text
            for seen in self.files
            for what in ("credits", "seats", "budget")
            if seen.kind in SOUGHT and seen.values.get(what)
            for text in seen.column(seen.values[what])
        ]
        decimal = "," if any(re.fullmatch(r"\d+,\d{1,2}", text) for text in texts) else "."
        parts = {text.rpartition(decimal)[2].rstrip("0") for text in texts if decimal in text}
        unit = "1" if parts <= {""} else "0.5" if parts <= {"", "5"} else "0.25" if parts <= {"", "5", "25", "75"} else "0.01"
        self.told.append(f"decimal = {decimal}; credit unit = {unit}")
        return {"decimal": decimal, "credit unit": unit}


def run(exports: list[str], mapping: str, encoding: str) -> int:
    """Writes a guessed mapping, and tells what was guessed and what is open."""
    if os.path.exists(mapping):
        raise tell.Trouble(f"{mapping} stands already; name another by --mapping, or remove it")
    seen: list[Seen] = []
    faults: list[str] = []
    status = tell.FAULTS
    for path in (path for path in exports if not os.path.isdir(path)):
        try:
            seen.append(look_at(path, encoding))
        except SheetFault as fault:
            faults.append(f"{path}" + (f" row {fault.row}" if fault.row else "") + f": {fault.expected}")
        except OSError as error:
            faults.append(f"{path} can not be read: {error.strerror}")
            status = tell.NO_FILE
    if faults:
        raise tell.Trouble("\n".join(faults), status)
    guesser = Guesser(seen, [path for path in exports if os.path.isdir(path)], os.path.dirname(mapping) or ".")
    text = guesser.guess()
    make_folder(os.path.dirname(mapping) or ".")
    write_whole(mapping, text.encode("utf-8"))
    tell.say(f"{mapping} is written. What was guessed, and is to be looked at:")
    for line in guesser.told:
        tell.say(f"  {line}")
    if guesser.open:
        tell.say("What could not be guessed, and has to be written there:")
    for line in guesser.open:
        tell.say(f"  {line}")
    tell.say(f"then: registrar import --mapping {mapping}")
    return tell.FAULTS if guesser.open else 0
