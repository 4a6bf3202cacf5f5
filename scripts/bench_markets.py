"""The markets that scripts/bench makes: the contested one, and crowds that differ from it in what is named."""

import random
from pathlib import Path
from typing import Any, NamedTuple

STARTS = [(480, 80), (570, 80), (660, 80), (780, 80), (870, 80), (960, 80), (1080, 110)]
DAYS = ["MW", "TR", "MW", "TR", "F", "M", "T", "W", "R"]
SETTINGS = '{"seed":%d,"spread":%d,"accept":%d,"turns":%d,"tabu":20,"patience":10,"steps":[1,10,100,1000],"raise":10}\n'
ANY_ERROR = 1_000_000_000_000
BASE = 100_000
MOST_COMMANDS = 200_000


class Crowd(NamedTuple):
    """What a market has; by itself, what the contested one has. Where several values stand, each is as likely."""

    ratings: range | None = None  # the ratings; without a range they follow what is popular
    pairs: int = 5  # the adjustments a student, as long as the market may have more commands
    worths: tuple[int, ...] = (-20, -10, 10, 20)  # of an adjustment
    slots: int = 0  # sections meet in so many hours of the Monday, one each; 0: as in the contested market
    meetings: int = 0  # so many hours of the week are drawn a section; 0: as in the contested market
    points: tuple[int, ...] = (2, 3, 3, 4)  # the credits of a section
    above: tuple[int, ...] = (0, 0, 0, 500, 2000)  # by how much a base passes 100,000
    spread: int = 10  # tokens between the budgets of neighbouring ranks
    credits: tuple[int, ...] = (12, 14, 16)  # the cap on credits
    courses: tuple[int, ...] = (4, 5, 5)  # the cap on sections
    price: int = 0  # of each section in PRICES; 0: drawn below 60,000


FLAT, NEAR = range(50, 51), range(50, 53)
WIDE: dict[str, Any] = {"above": (0,), "spread": 0, "credits": (800,), "courses": (8,)}  # equal budgets, and caps that leave eight sections
CROWDS = {
    "contested": Crowd(),
    "flat": Crowd(ratings=FLAT, pairs=0),
    "nearly flat": Crowd(ratings=NEAR),
    "interlocked": Crowd(ratings=NEAR, pairs=40),
    "clashes": Crowd(ratings=NEAR, pairs=40, meetings=4, price=1, **WIDE),
    "seven hours": Crowd(ratings=FLAT, pairs=0, slots=7, price=1, **WIDE),
    "a fifth and one": Crowd(ratings=FLAT, pairs=0, price=BASE // 5 + 1, **WIDE)._replace(courses=(5,)),
    "many pairs": Crowd(ratings=NEAR, pairs=200, price=1, **WIDE),
    "odd credits": Crowd(ratings=FLAT, pairs=0, points=(3, 4), price=1, **WIDE)._replace(credits=(23,)),
    "an eighth and one": Crowd(ratings=FLAT, pairs=0, price=BASE // 8 + 1, **WIDE),
}


class Dice(random.Random):
    """The draws of one market."""

    crowd = Crowd()
    left = MOST_COMMANDS  # so many commands the market may still have

    def meetings(self, number):
        """The meetings of a section."""
        if self.crowd.slots:
            hour = 8 + number % self.crowd.slots
            return f"M{hour:02}00-{hour:02}50"
        if self.crowd.meetings:
            hours = self.sample([(day, hour) for day in "MTWRF" for hour in range(8, 20)], self.crowd.meetings)
            return ";".join(f"{day}{hour:02}00-{hour:02}50" for day, hour in hours)
        start, length = self.choice(STARTS)
        days = self.choice(DAYS)
        ends = [f"{at // 60:02}{at % 60:02}" for at in (start, start + length)]
        return ";".join(f"{day}{'-'.join(ends)}" for day in days)

    def section(self, number, sections, seats):
        """The row of a section and how popular it is; its seats are 0.5 to 1.6 times what is wanted of each."""
        meetings = self.meetings(number)
        seats = max(1, int(seats * self.uniform(0.5, 1.6)))
        row = f"C{number:03},K{number // 2:03},{seats},{self.choice(self.crowd.points)},{meetings}"
        return row, 1.0 / (1 + self.randrange(sections)) ** 0.5

    def student(self, name):
        """The row of a student: of the contested market three in five have the same budget."""
        budget = BASE + self.choice(self.crowd.above)
        return f"{name},{budget},{self.choice(self.crowd.credits)},{self.choice(self.crowd.courses)}"

    def rating(self, popular, most):
        """A rating of a section that is so popular."""
        if self.crowd.ratings:
            return self.choice(self.crowd.ratings)
        liked = int(100 * (popular / most) ** 0.5 * self.uniform(0.6, 1.0))
        return max(1, min(100, liked + self.randrange(0, 8)))

    def commands(self, name, popular, rated):
        """What a student posts: ratings that follow what is popular, and at most five adjustments, or what the crowd has."""
        chosen = self.sample(range(len(popular)), rated) if rated < len(popular) else list(range(len(popular)))
        chosen.sort(key=lambda section: -popular[section] * self.random())
        most = max(popular)
        for section in sorted(chosen):
            yield f"rate {name} C{section:03} {self.rating(popular[section], most)}"
        pairs = min(self.crowd.pairs, len(chosen) * self.crowd.pairs // 10, self.left)
        self.left -= pairs
        for _ in range(pairs):
            first, second = self.sample(chosen, 2)
            yield f"pair {name} C{first:03} C{second:03} {self.choice(self.crowd.worths)}"

    def price(self):
        """The price of a section."""
        return self.crowd.price or self.randrange(0, 60_000)


def make_market(numbers, folder, crowd=CROWDS["contested"], most=MOST_COMMANDS):
    """Writes a market into the folder: CAT, STU, SET, SEARCH, PRICES, S1 .., and of so many requests R1 .. and ONE.

    Its numbers are those of students, sections, rated sections a student and sessions, and the seed.
    """
    students, sections, rated, sessions, seed = numbers
    dice, folder = Dice(seed), Path(folder)
    dice.crowd, dice.left = crowd, MOST_COMMANDS - students * rated
    folder.mkdir(parents=True, exist_ok=True)

    def put(name, lines):
        (folder / name).write_text("".join(f"{line}\n" for line in lines), encoding="utf-8")

    rows, popular = zip(*(dice.section(it, sections, students * 4 / sections) for it in range(sections)))
    put("CAT", ["section,course,seats,credits,meetings", *rows])
    names = [f"S{it:04}" for it in range(students)]
    put("STU", ["student,budget,credits,courses", *(dice.student(name) for name in names)])
    (folder / "SET").write_text(SETTINGS % (seed, crowd.spread, ANY_ERROR, 0), encoding="utf-8")
    (folder / "SEARCH").write_text(SETTINGS % (seed, crowd.spread, 0, 10), encoding="utf-8")
    put("PRICES", ["section,price", *(f"C{it:03},{dice.price()}" for it in range(sections))])
    posts: list[list[str]] = [[] for _ in range(sessions)]
    for at, name in enumerate(names):
        posts[at % sessions].extend(dice.commands(name, popular, rated))
    for at, lines in enumerate(posts, 1):
        put(f"S{at}", lines)
    requests: list[list[str]] = [[] for _ in range(64)]
    for at in range(most):
        word = dice.choice(["add", "add", "drop", "leave"])
        requests[at % 64].append(f"{word} {dice.choice(names)} C{dice.randrange(sections):03}")
    for at, lines in enumerate(requests, 1):
        put(f"R{at}", lines)
    put("ONE", [line for lines in requests for line in lines])
