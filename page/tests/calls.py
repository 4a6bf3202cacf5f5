"""The calls with which the page's module is compared: words, files, and the lawful answers where these are known."""

from collections.abc import Iterator
from pathlib import Path

from common import MARKET, TERM, VECTORS

Call = tuple[list[str], dict[str, bytes], list[tuple[int, bytes]]]

TABLES = ["catalogue.csv", "roll.csv", "settings.json"]
SESSIONS = ["desk.session", "web.session"]
SCHOOL = ["ann.session", "bob.session", "cleo.session"]
OF_TERM = [
    ["check", *TABLES, "published.txt", *SESSIONS],
    ["check", *TABLES, "published.txt", *SESSIONS[::-1]],
    ["check", *TABLES, "published.txt", SESSIONS[0]],
    ["explain", *TABLES, "published.txt", "n.jones", "FNCE-717-A", *SESSIONS],
    ["explain", *TABLES, "published.txt", "nobody", "FNCE-717-A", *SESSIONS],
    ["run", "1", *TABLES, *SESSIONS],
    ["run", "16", *TABLES, *SESSIONS],
    ["audit", "2", *TABLES, "published.txt", *SESSIONS],
    ["hall", *TABLES[:2], "published.txt", "desk.requests"],
    ["prefer", *TABLES[:2], *SESSIONS],
    ["check", *TABLES, "nothing.txt", *SESSIONS],
    ["make", "4", "7", "300", "60", "1000000000000"],
    ["make", "2", "7", "40", "15", "0"],
    ["help"],
]
OF_MARKET = [
    ["prefer", *TABLES[:2], *SCHOOL],
    ["demand", "3", *TABLES, "prices.csv", *SCHOOL],
    ["quote", "catalogue.csv", "ann.session", "ann", "12", "4"],
    ["run", "2", *TABLES, *SCHOOL],
]


def example_calls() -> list[Call]:
    """The calls on the repository's examples, whose answers are not known beforehand."""

    def calls(folder: Path, words: list[list[str]]) -> list[Call]:
        files = [{name: (folder / name).read_bytes() for name in it if (folder / name).is_file()} for it in words]
        return [(it, given, []) for it, given in zip(words, files, strict=True)]

    return calls(TERM, OF_TERM) + calls(MARKET, OF_MARKET)


def worked_calls() -> Iterator[Call]:
    """The worked examples beside the repository, with the outputs that are lawful; none where they are not there."""
    for folder in sorted(it.parent for it in VECTORS.glob("*/*/words")):
        names = {it.name: it.read_bytes() for it in folder.iterdir() if it.is_file()}
        words = names.pop("words").decode().splitlines()
        files = {name: it for name, it in names.items() if name in words}
        if "cuts.tsv" in names:
            yield from cut_calls(words, files, names)
        else:
            lawful = [(int(names["status"]), names[it]) for it in sorted(names) if it.startswith("stdout")]
            yield words, files, lawful


def cut_calls(words: list[str], files: dict[str, bytes], names: dict[str, bytes]) -> Iterator[Call]:
    """The example whose catalogue is cut after each of its bytes."""
    for row in names["cuts.tsv"].decode().splitlines():
        if row[0].isdigit():
            kept, status, told, *line = row.split("\t")
            cut = {**files, "catalogue.csv": files["catalogue.csv"][: int(kept)]}
            yield words, cut, [(int(status), names[line[0]] if any(line) else f"{told}\n".encode())]
