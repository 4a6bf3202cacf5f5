#!/usr/bin/env python3
"""Spoils published texts, and compares what the program and verify.py say of each.

    python3 spoil.py [--program PATH] [--texts N] [--seed S] [--workers W] [--keep FOLDER]

The texts are that of examples/term and those of drawn markets, of both versions of the tables, which the program itself
publishes. A text is spoilt at one place, seldom at two: a line deleted, doubled or swapped with the next; a number
changed by one; a byte deleted, doubled or replaced; a word replaced by another of its kind; a symbol of a tree, a section
of a bundle. Of seven cases one spoils an input besides or instead: settings, a session, the catalogue or the roll. The
program's form `check` and verify.py must give the same line and the same status.

It prints how many texts were compared, how the answers were distributed, and each difference, whose files it keeps.
"""
import argparse
import collections
import json
import multiprocessing
import os
import pathlib
import random
import re
import shutil
import subprocess
import sys
import tempfile
from typing import Counter, List

import verify

TOP = pathlib.Path(__file__).resolve().parent.parent
TERM = TOP / "examples" / "term"
INPUTS = ["catalogue", "roll", "settings", "text"]  # the sessions stand behind these


def run_program(program, words, cwd):
    """What the program prints, and its status."""
    done = subprocess.run([program, *words], cwd=cwd, stdout=subprocess.PIPE, stderr=subprocess.PIPE, check=False)
    return done.stdout, done.returncode


# ---- Drawn markets --------------------------------------------------------------------------------------------------

def drawn_meetings(dice):
    meetings = []
    for _ in range(dice.choice([0, 1, 1, 2])):
        start = dice.randrange(8, 14) * 60 + dice.choice([0, 20, 30])
        end = start + dice.choice([50, 80, 90])
        meetings.append(f"{dice.choice('MTWRF')}{start // 60:02}{start % 60:02}-{end // 60:02}{end % 60:02}")
    return ";".join(meetings)


def drawn_catalogue(dice, count):
    with_parts = dice.random() < 0.5
    rows = ["section,course,seats,credits,meetings" + (",parts" if with_parts else "")]
    for s in range(count):
        row = [f"S{s}", f"K{dice.randrange(count)}", dice.randrange(0, 6), dice.randrange(0, 5), drawn_meetings(dice)]
        rows.append(",".join(map(str, row + ([dice.choice(["1", "2", "12"])] if with_parts else []))))
    return rows


def drawn_roll(dice, count):
    with_carry = dice.random() < 0.5
    rows = ["student,budget,credits,courses" + (",carry" if with_carry else "")]
    for i in range(count):
        row = [f"u{i}", dice.choice([50, 100, 100, 1000]), dice.randrange(4, 13), dice.randrange(1, 6)]
        rows.append(",".join(map(str, row + ([dice.randrange(0, 30)] if with_carry else []))))
    return rows


def drawn_sessions(dice, students, sections):
    """One to three sessions with ratings, adjustments, some that are taken back, and sometimes a close."""
    sessions: List[List[str]] = [[] for _ in range(dice.randrange(1, 4))]
    for i in range(students):
        rated = dice.sample(range(sections), dice.randrange(0, min(sections, 9) + 1))
        lines = [f"rate u{i} S{s} {dice.randrange(0, 101)}" for s in rated]
        for _ in range(dice.choice([0, 0, 1, 4]) if len(rated) > 1 else 0):
            lines.append(f"pair u{i} S{dice.choice(rated)} S{dice.choice(rated)} {dice.randrange(-60, 61)}")
        if dice.random() < 0.05:
            lines.insert(dice.randrange(len(lines) + 1), f"clear u{i}")
        for line in lines:
            sessions[dice.randrange(len(sessions)) if dice.random() < 0.1 else i % len(sessions)].append(line)
    odd = ["# a comment", "", "unreadable words", "rate nobody S0 5", "rate u0 S0 101", "rate u0\tS1  7 "]
    for session in sessions:
        for _ in range(dice.choice([0, 1, 3])):
            session.insert(dice.randrange(len(session) + 1), dice.choice(odd))
    if dice.random() < 0.2:
        session = dice.choice(sessions)
        session.insert(dice.randrange(len(session) + 1), "close")
    return sessions


def drawn_market(dice, program, folder):
    """The files of a drawn market by name, with the text that the program publishes; None where it finds no prices."""
    students, sections = dice.randrange(0, 8), dice.randrange(1, 9)
    settings = {"seed": dice.choice([dice.randrange(2**64), 0, 2**64 - 1]), "spread": dice.randrange(0, 5),
                "accept": 1000, "turns": 20, "tabu": 5, "patience": 6, "steps": [1, 10], "raise": dice.choice([0, 10, 50])}
    end = dice.choice(["\n", "\r\n"])
    files = {"catalogue": end.join(drawn_catalogue(dice, sections) + [""]), "settings": json.dumps(settings),
             "roll": end.join(drawn_roll(dice, students) + [""])}
    for number, session in enumerate(drawn_sessions(dice, students, sections), 1):
        files[f"session-{number}"] = end.join(session + [""])
    files = {name: content.encode() for name, content in files.items()}
    write(files, folder)
    words = ["catalogue", "roll", "settings", *sorted(name for name in files if name.startswith("session"))]
    text, status = run_program(program, ["run", "1", *words], folder)
    files["text"] = text
    return files if status == 0 else None


def term():
    names = {"catalogue": "catalogue.csv", "roll": "roll.csv", "settings": "settings.json", "text": "published.txt",
             "session-1": "desk.session", "session-2": "web.session"}
    return {name: (TERM / path).read_bytes() for name, path in names.items()}


def write(files, folder):
    for name, content in files.items():
        (pathlib.Path(folder) / name).write_bytes(content)


# ---- Spoiling -------------------------------------------------------------------------------------------------------

def spoil_line(dice, content):
    lines = content.splitlines(keepends=True)
    if not lines:
        return content
    at = dice.randrange(len(lines))
    lines[at:at + 2] = dice.choice([lines[at + 1:at + 2], lines[at:at + 1] + lines[at:at + 2],
                                    lines[at + 1:at + 2] + lines[at:at + 1]])
    return b"".join(lines)


def spoil_number(dice, content):
    numbers = list(re.finditer(rb"[0-9]+", content))
    if not numbers:
        return content
    number = dice.choice(numbers)
    changed = max(0, int(number[0]) + dice.choice([-1, 1]))
    return content[:number.start()] + b"%d" % changed + content[number.end():]


def spoil_byte(dice, content):
    if not content:
        return content
    at = dice.randrange(len(content))
    common = dice.choice(b"0123456789 \n\r,;\"[]*nbcm+-#\t{}:.eSuK\x00\x80\xff\xef")
    put = dice.choice([b"", content[at:at + 1] * 2, bytes([common]), bytes([dice.randrange(256)])])
    return content[:at] + put + content[at + 1:]


def spoil_word(dice, content):
    """Puts another word of the text in the place of one: a tree for a tree, say, or a name for a name."""
    kinds = [rb"[*nbcm+0-9-]+(?=\n)", rb"\[[^] \n]*\]", rb"(?<= )[A-Za-z][0-9]+(?= )", rb"[^ \n,]+"]
    words = list(re.finditer(dice.choice(kinds), content))
    if not words:
        return content
    at, other = dice.choice(words), dice.choice(words)
    return content[:at.start()] + other[0] + content[at.end():]


def spoil_tree(dice, content):
    """Puts, doubles or deletes a symbol in a tree."""
    symbols = [at for at in re.finditer(rb"[*n+-]|[bcm][0-9]+", content)
               if content[content.rfind(b"\n", 0, at.start()) + 1:][:5] in (b"bundl", b"turn ")]
    if not symbols:
        return content
    at, put = dice.choice(symbols), dice.choice([b"*", b"n", b"+", b"-", b"b0", b"c1", b"m2", b"m0", b""])
    return content[:at.start()] + dice.choice([put, put, put + at[0]]) + content[at.end():]


def spoil_bundle(dice, content):
    """Takes a section out of a bundle, or puts one of another bundle into it."""
    bundles = list(re.finditer(rb"\[([^] \n]*)\]", content))
    if not bundles:
        return content
    at, other = dice.choice(bundles), dice.choice(bundles)
    names, others = ([name for name in bundle[1].split(b",") if name] for bundle in (at, other))
    changed = set(names) ^ set(dice.sample(names + others, 1) if names + others else [])
    return content[:at.start(1)] + b",".join(sorted(changed)) + content[at.end(1):]


SPOILERS = [spoil_line, spoil_number, spoil_number, spoil_byte]
SPOILERS_OF_TEXTS = SPOILERS + [spoil_word, spoil_tree, spoil_tree, spoil_bundle, spoil_bundle]


def spoilt(dice, files):
    """The files with the text spoilt, or, once in seven times, another file besides or instead."""
    files = dict(files)
    if dice.randrange(7) == 0:
        name = dice.choice([name for name in files if name != "text"])
        files[name] = dice.choice(SPOILERS)(dice, files[name])
        if dice.random() < 0.1:
            files[name] = b"\xef\xbb\xbf" + files[name]
        if dice.random() < 0.5:
            return files
    for _ in range(dice.choice([1, 1, 1, 1, 2])):
        files["text"] = dice.choice(SPOILERS_OF_TEXTS)(dice, files["text"])
    return files


# ---- Comparing ------------------------------------------------------------------------------------------------------

def compare(program, files, folder):
    """The program's answer and that of verify.py, each a line and a status."""
    for old in pathlib.Path(folder).iterdir():
        old.unlink()
    write(files, folder)
    words = INPUTS + sorted(name for name in files if name.startswith("session"))
    told, status = run_program(program, ["check", *words], folder)
    own_status, lines = verify.verdict([os.path.join(folder, word) for word in words])
    return (told, status), ((lines[0] + "\n").encode("latin-1"), own_status)


def kind_of(line):
    """What an answer says, without names and numbers."""
    return re.sub(r"\b(student|budget|final|used|seats) [A-Za-z0-9._-]+", r"\1", re.sub(r"[0-9]+", "", line)).strip()


def work(job):
    """Compares so many texts from one seed. Of twenty markets one is the term, whose text is long."""
    program, seed, count, keep, term_share = job
    answers: Counter[str] = collections.Counter()
    dice, folder, differences = random.Random(seed), tempfile.mkdtemp(), []
    files, left = None, 0
    for number in range(count):
        while left == 0:
            is_term = dice.random() < term_share
            files = term() if is_term else drawn_market(dice, program, folder)
            left = 0 if files is None else 1 if is_term else 12
        left -= 1
        case = spoilt(dice, files)
        theirs, ours = compare(program, case, folder)
        answers[kind_of(theirs[0].decode("latin-1"))] += 1
        if theirs != ours:
            kept = pathlib.Path(keep) / f"difference-{seed}-{number}"
            shutil.rmtree(kept, ignore_errors=True)
            shutil.copytree(folder, kept)
            differences.append((str(kept), theirs, ours))
    shutil.rmtree(folder)
    return count, answers, differences


def main():
    parser = argparse.ArgumentParser(description=__doc__, formatter_class=argparse.RawDescriptionHelpFormatter)
    parser.add_argument("--program", default=str(TOP / "crates/market_program/out/market_program"))
    parser.add_argument("--texts", type=int, default=300, help="how many spoilt texts are compared (300)")
    parser.add_argument("--seed", type=int, default=1, help="what the texts are drawn from (1)")
    parser.add_argument("--workers", type=int, default=2, help="how many processes compare (2)")
    parser.add_argument("--term", type=float, default=0.05, help="the share of the term among the markets (0.05)")
    parser.add_argument("--keep", default="spoilt", help="the folder that differences are kept in (spoilt)")
    options = parser.parse_args()
    batch = max(1, min(100, options.texts // options.workers))
    jobs = [(options.program, options.seed * 1_000_000 + start, min(batch, options.texts - start), options.keep,
             options.term) for start in range(0, options.texts, batch)]
    answers: Counter[str] = collections.Counter()
    compared = found = 0
    with multiprocessing.Pool(options.workers) as pool:
        for count, kinds, differences in pool.imap_unordered(work, jobs):
            compared += count
            answers += kinds
            found += len(differences)
            for kept, theirs, ours in differences:
                print(f"{kept}: the program says {theirs}, verify.py says {ours}", flush=True)
            print(f"{compared} texts compared, {found} differences", file=sys.stderr, flush=True)
    for kind, times in answers.most_common():
        print(f"{times:7} {kind}")
    print(f"{compared} texts compared, {found} differences")
    return 1 if found else 0


if __name__ == "__main__":
    sys.exit(main())
