#!/usr/bin/env python3
"""Checks what Course Match publishes, with Python's standard library alone, by the rules of docs/FORMATS.md.

    python3 verify.py CATALOGUE ROLL SETTINGS TEXT SESSION..
    python3 verify.py --own NAME [--before N] CATALOGUE ROLL SETTINGS TEXT LINES

The first form checks a whole published text. It prints the line of the program's form `check` and ends with its status:
`accepted` and 0, or the first thing that does not hold and 8 and where in the text that is, or why an input is refused.
`accepted` means: the order takes all commands of each session in their own order; each budget is the drawn one; at the
printed prices each bundle is the student's best feasible one that the budget buys, which the tree beside it proves; no
section has more students than seats; each turn of the aftermarket is the due one, and its bundle the best of what is
held and free within the raised budget; the last pass changes nothing; final bundles and used seats follow. The `start`
and `error` lines, which tell how the prices were found, are read and not judged.

The second form needs nobody else's ratings: LINES has the student's own `rate`, `pair` and `clear` lines, in the order
in which the desk took them (others are passed over), and N is how many of them came before the desk was closed (without
it, all). It checks whatever needs no ratings of others (form, budgets, prices, turns, seats), and of the student each
bundle with its tree. Of other words both forms are printed, and the status is 1. All amounts are whole numbers. Long
work tells on standard error how far it is."""
import collections, csv, io, itertools, json, re, sys, time

INPUT_LIMIT, TEXT_LIMIT, COMMAND_LIMIT, ANY_64_BITS = 2**24, 2**26, 200_000, 2**64 - 1
USAGE = "usage: run, check, prefer, demand, quote, make, explain, hall, audit"
NAME, POINTS = re.compile("[A-Za-z0-9._-]{1,32}"), re.compile("0|-?[1-9][0-9]{0,5}")
MEETING = re.compile("([MTWRFSU])([01][0-9]|2[0-3])([0-5][0-9])-([01][0-9]|2[0-3])([0-5][0-9])")
TREE, SYMBOL = re.compile("[*nbcm+0-9-]+"), re.compile("[*n+-]|[bcm](?:0|[1-9][0-9]?)(?![0-9])")
SETTINGS = {"seed": (0, ANY_64_BITS), "spread": (0, 49), "accept": (0, 10**12), "turns": (0, 10_000),
            "tabu": (1, 1_000), "patience": (1, 10_000), "steps": (1, 100_000), "raise": (0, 50)}
FIRST_HALF, SECOND_HALF = 1, 1 << 7 * 24 * 60  # times a week's minutes, a bit for each: those of half a term
Section = collections.namedtuple("Section", "name course seats credits meetings parts", defaults=[1 + SECOND_HALF])
Student = collections.namedtuple("Student", "name base credit_cap course_cap carry", defaults=[0])
progress = {}  # of the walk of the trees, in bytes: what is done, of how many; and when to tell it next

class Ended(Exception):
    """The check ends: status, line, and the number of the line of the text that it speaks of, if any."""

def number(most, least=0):
    """Reads from a field a number of this range, without sign and leading zeros; None where it has none."""
    def read(digits, *_):
        return int(digits) if re.fullmatch("0|[1-9][0-9]{0,19}", digits) and least <= int(digits) <= most else None
    return read

# ---- The inputs. A text is held as one character for each byte ------------------------------------------------------
def read_input(ordinal, path, limit=INPUT_LIMIT):
    try:
        with open(path, "rb") as file:
            text = file.read(limit + 1).decode("latin-1")
    except OSError as error:
        raise Ended(2, f"input {ordinal} can not be read", None) from error
    if len(text) > limit:
        raise Ended(4, f"input {ordinal} is too long", None)
    return text[3:] if limit == INPUT_LIMIT and text.startswith("\xef\xbb\xbf") else text

def meetings_in(text, *_):
    """The minutes of at most ten meetings joined by `;`; None where the text is none."""
    minutes, meetings = 0, text.split(";") if text else []
    for meeting in map(MEETING.fullmatch, meetings):
        start, end = (int(meeting[at]) * 60 + int(meeting[at + 1]) for at in (2, 4)) if meeting else (0, 0)
        if start >= end or len(meetings) > 10:
            return None
        minutes |= (1 << end) - (1 << start) << "MTWRFSU".index(meeting[1]) * 24 * 60
    return minutes

# A table: its columns, how many rows at most, what a row becomes, and behind the name each column's refusal and reader.
CATALOGUE = "section,course,seats,credits,meetings,parts".split(","), 400, Section, (
    ("name in column 2", lambda name, *_: name if NAME.fullmatch(name) else None),
    ("number in column 3", number(9_999)), ("number in column 4", number(100)), ("meetings", meetings_in),
    ("parts", lambda parts, *_: {"1": FIRST_HALF, "2": SECOND_HALF, "12": FIRST_HALF + SECOND_HALF}.get(parts)))
ROLL = "student,budget,credits,courses,carry".split(","), 2_000, Student, (
    ("number in column 2", number(900_000)), ("number in column 3", number(800)), ("number in column 4", number(8)),
    ("number in column 5", lambda carry, base, *_: number(900_000 - base)(carry)))

def table_in(ordinal, text, columns, most_rows, kind, readers):
    """The version and the rows of a table, or the refusal of its first bad record at that record's first fault."""
    csv.field_size_limit(INPUT_LIMIT)  # a zero byte, which no field may have, stops some versions of csv
    records = filter(None, csv.reader(io.StringIO(text.replace("\0", "\1"), newline="")))
    header, rows, row_of = next(records, []), [], {}
    if header not in (columns[:-1], columns):
        raise Ended(3, f"input {ordinal} row 1: header", None)
    for row, (name, *fields) in enumerate(records, 2):
        values, fault = [name], "too many rows" if len(rows) == most_rows else \
            "fields" if 1 + len(fields) != len(header) else "name in column 1" if not NAME.fullmatch(name) else \
            f"repeats row {row_of[name]}" if name in row_of else None
        for (refusal, read), field in zip(readers, fields):
            values.append(None if fault else read(field, *values[1:]))
            fault = refusal if not fault and values[-1] is None else fault
        if fault:
            raise Ended(3, f"input {ordinal} row {row}: {fault}", None)
        row_of[name] = row
        rows.append(kind(*values))
    return 2 if header == columns else 1, rows

def json_in(text):
    """The value of a JSON text, where whole numbers beyond 64 bits or with a sign are None. A ValueError where it is no
    JSON, nests deeper than 127, or has half of a surrogate pair or a number too great for a double."""
    text = text.encode("latin-1").decode("utf-8")
    value = json.loads(text, parse_int=number(ANY_64_BITS))
    text = re.sub(r"\\u[dD][89abAB]..\\u[dD][c-fC-F]..|\\[^u]", "", text)
    half, text = re.search(r"\\u[dD][89a-fA-F]", text), re.sub('"[^"]*"', "", text)
    depths = itertools.accumulate(1 if bracket in "[{" else -1 for bracket in re.findall(r"[][{}]", text))
    great = [digits for digits in re.findall("NaN|Infinity|[0-9][-+.0-9eE]*", text) if not float(digits) < float("inf")]
    if half or great or max(depths, default=0) > 127:
        raise ValueError("none that is read here")
    return value

def settings_in(text):
    def is_in_range(xs, least, most):
        return isinstance(xs, list) and 1 <= len(xs) <= 16 and all(type(x) is int and least <= x <= most for x in xs)
    try:
        settings = json_in(text)
    except (ValueError, RecursionError) as error:
        raise Ended(3, "input 3 row 0: not json", None) from error
    faults = ["not an object"] if not isinstance(settings, dict) else \
        [f"missing {key}" for key in SETTINGS if key not in settings] or ["unknown key"] * (len(settings) > 8) or \
        [f"range of {key}" for key, ends in SETTINGS.items()
         if not is_in_range(settings[key] if key == "steps" else [settings[key]], *ends)]
    if faults:
        raise Ended(3, f"input 3 row 0: {faults[0]}", None)
    return settings

def read_sessions(paths):
    sessions = []
    for ordinal, path in enumerate(paths, 5):
        lines = [re.findall("[^ \t]+", line) for line in re.split("\r?\n", read_input(ordinal, path) + "\n")]
        sessions.append([words for words in lines if words and not words[0].startswith("#")])
        if sum(map(len, sessions)) > COMMAND_LIMIT:
            raise Ended(4, f"input {ordinal} is too long", None)
    return sessions

class Market:
    """A catalogue, a roll and settings. Sections and students are numbered from 0 in the order of their tables."""
    def __init__(self, catalogue, roll, settings):
        of_sections, self.sections = table_in(1, read_input(1, catalogue), *CATALOGUE)
        of_students, self.students = table_in(2, read_input(2, roll), *ROLL)
        self.settings, self.version = settings_in(read_input(3, settings)), max(of_sections, of_students)
        self.section_of = {section.name: s for s, section in enumerate(self.sections)}
        self.student_of = {student.name: i for i, student in enumerate(self.students)}
        busy = [(s, x.course, x.meetings * x.parts) for s, x in enumerate(self.sections)]
        self.clashes = [{t for t, d, y in busy if t != s and (c == d or x & y)} for s, c, x in busy]

# ---- The form of the text -------------------------------------------------------------------------------------------
class Text:
    """What a text publishes, or the first line that is missing or has not its form. A bundle is a tuple of ascending
    sections; `first` has of each kind of line the number of the first."""
    def __init__(self, market, text):
        self.market, self.text, self.at, self.line, self.first, self.known = market, text, 0, 0, {}, {}
        price, bundle, tree = number(1_000_001), self.read_bundle, lambda tree: tree if TREE.fullmatch(tree) else None
        def each(kind, owners, *readers):
            self.first[kind] = self.line + 1
            return [self.fields(f"{kind} {owner.name} ", *readers) for owner in owners]
        self.fields("course-match ", lambda version: version if version == str(market.version) else None)
        self.order, = self.fields("order", self.read_order, apart="\n")
        self.budgets = [budget for budget, in each("budget", market.students, number(1_000_000))]
        each("start", market.sections, price)
        self.fields("error ", number(ANY_64_BITS))
        self.prices = [price for price, in each("price", market.sections, price)]
        self.bundles = each("bundle", market.students, bundle, tree)
        self.first["turn"], self.turns = self.line + 1, []
        while text.startswith("turn ", self.at):
            self.turns.append(self.fields("turn ", number(ANY_64_BITS, 1), market.student_of.get, bundle, tree))
        self.finals = [final for final, in each("final", market.students, bundle)]
        self.used = each("used", market.sections, number(9_999), number(9_999))
        self.fields("end", lambda nothing: None if nothing else "")
        if self.at < len(text):
            raise Ended(8, f"finding: line {self.line + 1} rest", self.line + 1)

    def fields(self, front, *readers, apart=" "):
        """The fields behind the front of the next line, each as its reader reads it: None where it has not its form."""
        start, end = self.at, self.text.find("\n", self.at)
        fields = self.text[start + len(front):end].split(apart) if self.text.startswith(front, start) else []
        values = [read(field) for read, field in zip(readers, fields)]
        self.line, self.at = self.line + 1, end + 1
        if end < 0 or len(fields) != len(readers) or None in values:
            raise Ended(8, f"finding: line {self.line} {'missing' if end < 0 else 'form'}", self.line)
        return values

    def read_order(self, entries):
        sessions, known = entries.split(" "), {str(session): session for session in range(1, 65)}
        return bytes(map(known.get, sessions)) if sessions.pop(0) == "" and known.keys() >= set(sessions) else None

    def read_bundle(self, written):
        """The sections of a written bundle: at most 8, in the order of the catalogue, none twice. Each is read once."""
        if written not in self.known:
            bundle = tuple(self.market.section_of.get(name, -1) for name in written[1:-1].split(",") if written != "[]")
            ascends = len(bundle) <= 8 and all(a < b for a, b in zip((-1,) + bundle, bundle))
            self.known[written] = bundle if ascends and written[:1] + written[-1:] == "[]" else None
        return self.known[written]

# ---- What the students want, and their budgets ----------------------------------------------------------------------
def commands_in(order, sessions):  # all commands, each taken from its session in the printed order
    left = [iter(session) for session in sessions]
    commands = [next(left[session - 1], None) if session <= len(left) else None for session in order]
    at = commands.index(None) if None in commands else len(order)
    if at < max(len(order), sum(map(len, sessions))):
        raise Ended(8, f"finding: journal at {at + 1}", 2)
    return commands

def wanted_after(market, commands):
    """What each student wants after these commands: points, by section (s,) and by pair of sections (s, t), s < t.
    A command that the desk answers otherwise than `done` changes nothing, so those answers are not told apart."""
    ranges = {("rate", 1): (0, 100, 60), ("pair", 2): (-200, 200, 200)}  # least, most, and of how many there is room
    wanted = {student.name: {} for student in market.students}
    for words in commands:
        if words == ["close"]:
            break
        noted, points = wanted.get("".join(words[1:2])), int(words[-1]) if POINTS.fullmatch(words[-1]) else 201
        key = tuple(sorted(market.section_of.get(name, -1) for name in words[2:-1]))
        least, most, room = ranges.get((words[0], len(key)), (1, 0, 0))
        if noted is not None and words[0] == "clear" and len(words) == 2:
            noted.clear()
        elif noted is None or not least <= points <= most or key[0] < 0 or len(set(key)) < len(key):
            continue
        elif points == 0:
            noted.pop(key, None)
        elif key in noted or sum(len(other) == len(key) for other in noted) < room:
            noted[key] = points
    return wanted

def chacha_block(state):
    """The block function of RFC 8439, from sixteen words of 32 bits to sixteen."""
    x = list(state)
    for turn in range(80):  # ten times four quarter rounds by column and four by diagonal
        a, b, c, d = (4 * row + (turn + turn % 8 // 4 * row) % 4 for row in range(4))
        for into, by, turned, bits in ((a, b, d, 16), (c, d, b, 12), (a, b, d, 8), (c, d, b, 7)):
            x[into] = (x[into] + x[by]) % 2**32
            word = x[turned] ^ x[into]
            x[turned] = (word << bits | word >> 32 - bits) % 2**32
    return [(before + after) % 2**32 for before, after in zip(state, x)]

def drawn_budgets(market):
    """Base, carry, and the spread times the rank: how many students come before by (word of stream 0, ordinal)."""
    seed, words, students = market.settings["seed"], [], market.students
    start = [0x61707865, 0x3320646e, 0x79622d32, 0x6b206574, seed % 2**32, seed >> 32] + [0] * 6
    for counter in range((len(students) + 7) // 8):
        block = chacha_block(start + [counter, 0, 0, 0])
        words += [low + (high << 32) for low, high in zip(block[::2], block[1::2])]
    rank = {i: rank for rank, i in enumerate(sorted(range(len(students)), key=lambda i: (words[i], i)))}
    return [x.base + x.carry + market.settings["spread"] * rank[i] for i, x in enumerate(students)]

# ---- Menus and trees ------------------------------------------------------------------------------------------------
class Menu:
    """What one student may choose from: the rated sections, which are its places, in the order of the catalogue."""
    def __init__(self, market, wanted, student):
        self.market, self.caps = market, (student.credit_cap, student.course_cap)
        self.rating = {key[0]: points for key, points in wanted.items() if len(key) == 1}
        self.places, self.pairs = sorted(self.rating), {section: {} for section in self.rating}
        for key, points in wanted.items():
            if len(key) == 2 and self.rating.keys() >= set(key):
                self.pairs[key[0]][key[1]] = self.pairs[key[1]][key[0]] = points

    def added(self, section, chosen):  # the points that a section adds to chosen ones
        return self.rating[section] + sum(self.pairs[section].get(other, 0) for other in chosen)

    def allows(self, bundle):  # it is feasible
        return self.rating.keys() >= set(bundle) and len(bundle) <= self.caps[1] \
            and sum(self.market.sections[s].credits for s in bundle) <= self.caps[0] \
            and not any(t in self.market.clashes[s] for s in bundle for t in bundle)

def first_closing(places, opens, reached, left, limit, guesses):
    """The symbol of the first bound at a node that is below the limit, or None; all in thousandths of a point.
    A resource's bound is convex in its price m: so the tangent at one price shows that other prices do not close."""
    def bound(r, m):  # how far it is above the limit, and its slope; at price 0 it is the plain bound
        best, takes = {}, {}
        for x in opens:
            rest = x[2] - m * x[r]
            if rest > best.get(x[1], 0):
                best[x[1]], takes[x[1]] = rest, x[r]
        return reached + m * left[r - 3] + sum(best.values()) - limit, left[r - 3] - sum(takes.values())

    if bound(3, 0)[0] < 0:
        return "n"
    for r in 3, 4, 5:
        low, high = -1, 2**64  # prices that may close are between
        for section, m in [(None, guesses[r])] + [(x[0], x[2] // x[r]) for x in opens if x[2] and x[r]]:
            above, slope = bound(r, m) if low < m < high else (0, None)
            if above < 0 and section is not None:
                return f"{'bcm'[r - 3]}{places.index(section)}"
            if above >= 0 and slope is not None:
                guesses[r] = m
                low, high = (m + above // -slope, high) if slope < 0 else (low, m - above // slope if slope else low)

def defect_of(symbol, due):  # of a symbol that is not the due one; none is due where nothing proves the node
    is_leaf, leaf_due = symbol not in "*+-", due is not None and due not in "*+-"
    return "open" if due is None or is_leaf > leaf_due else "leaf" if is_leaf else "redundant" if leaf_due else "branch"

def tree_defect(menu, prices, budget, allowed, bundle, tree):
    """The first defect of the tree beside a bundle, and its offset; None where the tree proves the bundle the best.
    A node has: how many places are decided; which are chosen; 1000 times their utility; what they leave of budget,
    credits and number; the open places, each with its course, 1000 times its worth, and what it takes of these three;
    1 or -1 where the champion or the chosen ones have the first place on which they differ; whether no bound closes."""
    places, sections, at, guesses = menu.places, menu.market.sections, 0, {3: 0, 4: 0, 5: 0}
    target = 1000 * sum(menu.added(s, [t for t in bundle if t < s]) for s in bundle)
    def weighed(undecided, chosen, left):
        fits = [s for s in undecided if prices[s] <= left[0] and sections[s].credits <= left[1] and left[2]]
        return [(s, sections[s].course, 1000 * max(0, menu.added(s, chosen) + sum(
            points for t, points in menu.pairs[s].items() if points > 0 and t > s and t in fits)),
            prices[s], sections[s].credits, 1) for s in fits]
    left = budget, *menu.caps
    nodes = [(0, (), 0, left, weighed([s for s in places if s in allowed], (), left), 0, False)]
    while nodes:
        k, chosen, reached, left, opens, first, none_closes = nodes.pop()
        due = "*" if k == len(places) and first == 0 else None if none_closes else \
            first_closing(places, opens, reached, left, target + (1000 if first > 0 else 0), guesses)
        if due is None and k < len(places):
            due = "+" if opens and opens[0][0] == places[k] else "-"
        symbol = SYMBOL.match(tree, at)
        if not symbol or symbol[0] != due:
            return f"{defect_of(symbol[0], due) if symbol else 'syntax'} at {at}"
        at = symbol.end()
        if due == "-":  # the bounds stay as they are: a place that the champion alone has would be open
            nodes.append((k + 1, chosen, reached, left, opens, first, True))
        if due == "+":
            s, left_with = places[k], tuple(rest - taken for rest, taken in zip(left, opens[0][3:]))
            nodes.append((k + 1, chosen, reached, left, opens[1:], first or int(s in bundle), False))
            reached, chosen, left = reached + 1000 * menu.added(s, chosen), chosen + (s,), left_with
            opens = weighed([x[0] for x in opens[1:] if x[0] not in menu.market.clashes[s]], chosen, left)
            nodes.append((k + 1, chosen, reached, left, opens, first or int(s in bundle) - 1, False))
        if time.monotonic() > progress["due"]:
            progress["due"] += 10
            print(f"{progress['done'] + at} of {progress['all']} bytes of trees are walked", file=sys.stderr)
    progress["done"] += at
    return f"rest at {at}" if at < len(tree) else None

# ---- The certificate ------------------------------------------------------------------------------------------------
def bundle_fault(menu, prices, budget, allowed, bundle, tree):  # without a menu what needs ratings is left out
    fault = "unaffordable" if sum(prices[section] for section in bundle) > budget else \
        "infeasible" if menu and not menu.allows(bundle) else "taken" if not allowed.issuperset(bundle) else None
    defect = tree_defect(menu, prices, budget, allowed, bundle, tree) if menu and not fault else None
    return f"tree {defect}" if defect else fault

def holders_of(market, bundles):
    return [sum(section in bundle for bundle in bundles) for section in range(len(market.sections))]

def check_turns(market, text, menus):  # and give the bundles after the last turn
    held, changes = [bundle for bundle, _ in text.bundles], 1
    order, holders = sorted(range(len(held)), key=lambda i: (-text.budgets[i], i)), holders_of(market, held)
    for k, (number_of_pass, i, bundle, tree) in enumerate(text.turns):
        passes, turn = divmod(k, len(order))
        is_due = (turn or changes) and (number_of_pass, i) == (passes + 1, order[turn])
        raised = text.budgets[i] + text.budgets[i] * market.settings["raise"] // 100
        allowed = {s for s, x in enumerate(market.sections) if holders[s] < x.seats}.union(held[i])
        fault = bundle_fault(menus[i], text.prices, raised, allowed, bundle, tree) if is_due else "order"
        if fault:
            raise Ended(8, f"finding: turn {k + 1} {fault}", text.first["turn"] + k)
        changes = (changes if turn else 0) + (bundle != held[i])
        for section in set(bundle) ^ set(held[i]):
            holders[section] += 1 if section in bundle else -1
        held[i] = bundle
    if order and (changes or len(text.turns) % len(order)):
        raise Ended(8, f"finding: not quiet after {len(text.turns)} turns", text.first["turn"] + len(text.turns))
    return held

def check_certificate(market, text, menus):
    def compare(kind, owners, printed, due):
        for i, owner in enumerate(owners):
            if printed[i] != due[i]:
                raise Ended(8, f"finding: {kind} {owner.name}", text.first[kind] + i)
    progress.update(done=0, all=sum(len(proved[-1]) for proved in text.bundles + text.turns), due=time.monotonic() + 5)
    compare("budget", market.students, text.budgets, drawn_budgets(market))
    for i, (bundle, tree) in enumerate(text.bundles):
        fault = bundle_fault(menus[i], text.prices, text.budgets[i], set(market.section_of.values()), bundle, tree)
        if fault:
            raise Ended(8, f"finding: student {market.students[i].name} {fault}", text.first["bundle"] + i)
    holders = holders_of(market, [bundle for bundle, _ in text.bundles])
    for s, (x, used) in enumerate(zip(market.sections, holders)):
        if used > x.seats:
            raise Ended(8, f"finding: seats {x.name} {used} of {x.seats}", text.first["price"] + s)
    held = check_turns(market, text, menus)
    compare("final", market.students, text.finals, held)
    used = [[used, section.seats] for used, section in zip(holders_of(market, held), market.sections)]
    compare("used", market.sections, text.used, used)

def check(own, before, catalogue, roll, settings, text, *sessions):
    market, text, sessions = Market(catalogue, roll, settings), read_input(4, text, TEXT_LIMIT), read_sessions(sessions)
    if own and own not in market.student_of:
        raise Ended(9, f"no such name: {own}", None)
    text, own_commands = Text(market, text), [words for words in sessions[0] if words[1:2] == [own]][:before]
    wanted = wanted_after(market, own_commands if own else commands_in(text.order, sessions))
    menus = [Menu(market, wanted[x.name], x) if own in (None, x.name) else None for x in market.students]
    check_certificate(market, text, menus)
    lines = own and re.findall(rf"^(?:budget|bundle|turn [0-9]+|final) {re.escape(own)} [^ \n]*", text.text, re.M)
    return [f"holds: {line}" for line in lines] if own else ["accepted"]

def verdict(words):  # the exit status and the lines that are printed
    own, words = (words[1], words[2:]) if words[:1] == ["--own"] and len(words) > 6 else (None, words)
    before, words = (number(COMMAND_LIMIT)(words[1]), words[2:]) if own and words[0] == "--before" else (COMMAND_LIMIT, words)
    try:
        if before is None or not 5 <= len(words) <= (5 if own else 68):
            raise Ended(1, USAGE, None)
        return 0, check(own, before, *words)
    except Ended as ended:
        status, line, place = ended.args
    at = "".join(read_input(4, words[3], TEXT_LIMIT).split("\n", place)[place - 1:place]) if place else ""
    where = f"at line {place} of the text: {re.sub('[^ -~]', '?', at[:100]) or '(nothing)'}"
    return status, [line, where] if place else [line]

if __name__ == "__main__":
    status, lines = (0, [__doc__]) if sys.argv[1:] == ["--help"] else verdict(sys.argv[1:])
    print("\n".join(re.findall("python3 verify.py .*", __doc__) if status == 1 else lines))
    sys.exit(status)
