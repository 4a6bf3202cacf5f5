"""The manifest beside a published text: which files, words and program made it, with their SHA-256.

By it `check`, `explain`, `audit`, `hall`, `again`, `lists` and `summary` are called without naming files again. Reading it
verifies each sum, so that none of them speaks of files that have changed since.
"""

from __future__ import annotations

import argparse
import hashlib
import json
import os
import time
from dataclasses import dataclass
from typing import Dict, List, Sequence, Tuple

from registrar import program, tables
from registrar.tell import FAULTS, NO_FILE, USAGE, Trouble

NAME = "manifest.json"
ROLES = ("catalogue", "roll", "settings", "session")

# What the manifest calls the sum of a catalogue without its seats, which may be raised after publication.
BUT_SEATS = "sha256_but_seats"


@dataclass(frozen=True)
class Manifest:
    """A manifest that was read: the paths of its files, as they are to be opened from here."""

    path: str
    catalogue: str
    roll: str
    settings: str
    sessions: Tuple[str, ...]
    text: str
    words: Tuple[str, ...]
    program: str
    elapsed: float
    made: str
    text_sum: str = ""
    #: The sums of the catalogue at the run, and of that without its seats; nothing where the manifest has none.
    catalogue_sum: str = ""
    but_seats_sum: str = ""
    #: The name of the trial that it is of, or nothing.
    trial: str = ""

    @property
    def folder(self) -> str:
        """The folder in which the manifest stands."""
        return os.path.dirname(self.path) or "."

    @property
    def workers(self) -> str:
        """The number of workers of the run."""
        return self.words[1] if len(self.words) > 1 and self.words[1].isdigit() else "1"


def add_argument(parser: argparse.ArgumentParser) -> None:
    """The option by which a command takes a manifest."""
    parser.add_argument(
        "--manifest", default=NAME, metavar="FILE", help="the manifest that `run` wrote (default: manifest.json in this folder)"
    )


def beside(text: str) -> str:
    """The path of the manifest of a text: `manifest.json` for `published.txt`, else the text's name with `.manifest.json`."""
    folder, name = os.path.split(text)
    stem = os.path.splitext(name)[0]
    return os.path.join(folder, NAME if stem == "published" else f"{stem}.{NAME}")


def write(path: str, words: Sequence[str], text: str, elapsed: float) -> None:
    """Writes the manifest of a run of these words (`run WORKERS CATALOGUE ROLL SETTINGS SESSION..`) that made this text."""
    tables.write_whole(path, content(path, words, text, program.sha256(text), elapsed))


def content(path: str, words: Sequence[str], text: str, text_sum: str, elapsed: float, trial: str = "") -> bytes:
    """What the manifest at this path says of such a run, whose text has this sum. A trial's has its name."""
    folder = os.path.dirname(os.path.abspath(path))
    inputs = [
        {"role": one.role, "file": relative(one.path, folder), "sha256": program.sha256(one.path)}
        for one in program.inputs_of(words)
    ]
    for one in inputs:
        if one["role"] == "catalogue":
            one[BUT_SEATS] = sum_but_seats(os.path.join(folder, one["file"]))
    kept = {
        "inputs": inputs,
        "words": list(words[:2]) + [one["file"] for one in inputs],
        "program": program.sha256(program.find_program()),
        "text": {"file": relative(text, folder), "sha256": text_sum},
        "elapsed": round(elapsed, 1),
        "made": time.strftime("%Y-%m-%dT%H:%M:%SZ", time.gmtime()),
    }
    if trial:
        kept["trial"] = trial
    return (json.dumps(kept, indent=1, ensure_ascii=False) + "\n").encode("utf-8")


def sum_but_seats(catalogue: str) -> str:
    """The SHA-256 of a catalogue's records without the column of seats, as lines of a table."""
    rows = [[*one.fields[:2], *one.fields[3:]] for one in tables.records(catalogue)]
    return hashlib.sha256(tables.csv_text(rows).encode("utf-8")).hexdigest()


def relative(path: str, folder: str) -> str:
    """A path as seen from a folder, with slashes."""
    return os.path.relpath(os.path.abspath(path), folder).replace(os.sep, "/")


def read(
    path: str = NAME, verify: bool = True, text_too: bool = True, catalogue_too: bool = True, trial_too: bool = False
) -> Manifest:
    """Reads a manifest. With `verify`, a file that is gone or has changed since the run is a refusal that names all such files.

    `text_too=False` leaves the published text out of that: `check` judges a text that may have been changed. So does
    `catalogue_too=False` the catalogue, whose seats may be raised after publication. The text of a trial is refused but with
    `trial_too`: nothing is to be handed out of it.
    """
    if not os.path.exists(path):
        raise Trouble(f"there is no manifest {path}: `registrar run` writes one beside the published text", NO_FILE)
    try:
        kept = json.loads(tables.read_text(path))
        inputs = [(one["role"], str(one["file"]), one["sha256"]) for one in kept["inputs"]]
        text = (str(kept["text"]["file"]), kept["text"]["sha256"])
        words = tuple(str(word) for word in kept["words"])
        rest = (str(kept["program"]), float(kept["elapsed"]), str(kept["made"]))
        trial = str(kept.get("trial", ""))
    except (ValueError, KeyError, TypeError, OverflowError, RecursionError) as error:
        raise Trouble(f"{path} is no manifest of `registrar run` ({error})") from error
    folder = os.path.dirname(path)
    if trial and not trial_too:
        raise Trouble(
            f"{path} is of the trial '{trial}', which is no run that anybody is told of: `check`, `explain`, `audit`, `again`, "
            "`summary` and `compare` take it"
        )
    if verify:
        asked = [one for one in inputs if catalogue_too or one[0] != "catalogue"]
        refuse_changed(path, folder, asked + [("text", *text)] * text_too)
    by_role = {role: [os.path.join(folder, name) for one, name, _ in inputs if one == role] for role in ROLES}
    if any(len(by_role[role]) != 1 for role in ROLES[:3]) or not by_role["session"]:
        raise Trouble(f"{path} has to name one catalogue, one roll, one settings file and at least one session")
    return Manifest(
        path, by_role["catalogue"][0], by_role["roll"][0], by_role["settings"][0], tuple(by_role["session"]),
        os.path.join(folder, text[0]), words, *rest, text[1], *catalogue_sums(kept["inputs"]), trial,
    )


def catalogue_sums(inputs: Sequence[Dict[str, str]]) -> Tuple[str, str]:
    """The sums of the catalogue, whole and without its seats; nothing for the second where the manifest has none."""
    return next((one["sha256"], str(one.get(BUT_SEATS, ""))) for one in inputs if one["role"] == "catalogue")


def refuse_changed(path: str, folder: str, files: List[Tuple[str, str, str]]) -> None:
    """Refuses where a file is gone or has changed since the run."""
    names = {total: name for _, name, total in files}
    told = []
    status = FAULTS
    for role, name, total in files:
        full = os.path.join(folder, name)
        if not os.path.exists(full):
            told.append(f"{full} ({role}) is not there")
            status = NO_FILE
            continue
        now = program.sha256(full)
        if now != total:
            other = f": it is what {names[now]} was. Were the two swapped?" if now in names else ""
            told.append(f"{full} ({role}) has changed since the run{other}")
    if told:
        advice = "Put the file of that run back, or run again with the files as they are now."
        raise Trouble("\n".join([f"by {path}:"] + ["  " + one for one in told] + [advice]), status)


def of_files(files: Sequence[str]) -> Manifest:
    """What a manifest of these files (CATALOGUE ROLL SETTINGS TEXT SESSION..) would say, for a reader who has none."""
    if len(files) < 5:
        raise Trouble("give no files, or CATALOGUE ROLL SETTINGS TEXT SESSION..", USAGE)
    catalogue, roll, settings, text = files[:4]
    return Manifest("", catalogue, roll, settings, tuple(files[4:]), text, (), "", 0.0, "")


def is_text_as_run(found: Manifest) -> bool:
    """Whether the published text is the one that the run wrote."""
    return program.sha256(found.text) == found.text_sum


def files_read(found: Manifest) -> List[Tuple[str, str]]:
    """What each file is that a command reads by a manifest, and its path."""
    tables_and_settings = [("catalogue", found.catalogue), ("roll", found.roll), ("settings file", found.settings)]
    rest = [("published text", found.text)] + [("manifest", found.path)] * bool(found.path)
    return tables_and_settings + [("session", path) for path in found.sessions] + rest


def inputs_words(found: Manifest) -> List[str]:
    """CATALOGUE ROLL SETTINGS TEXT of a call."""
    return [found.catalogue, found.roll, found.settings, found.text]


def check_words(found: Manifest) -> List[str]:
    """The words of `check`."""
    return ["check", *inputs_words(found), *found.sessions]


def audit_words(found: Manifest, workers: str) -> List[str]:
    """The words of `audit`."""
    return ["audit", workers, *inputs_words(found), *found.sessions]


def explain_words(found: Manifest, student: str, section: str) -> List[str]:
    """The words of `explain`."""
    return ["explain", *inputs_words(found), student, section, *found.sessions]


def hall_words(found: Manifest, requests: Sequence[str]) -> List[str]:
    """The words of `hall`."""
    return ["hall", found.catalogue, found.roll, found.text, *requests]
