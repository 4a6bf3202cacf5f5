"""What valgrind's callgrind counts of a run: instructions, calls, and look-ups of the search for a best bundle.

Such counts do not depend on the machine. They are those of one thread or of several that take turns, so a run that is counted
has one worker.
"""

import os
import re
import resource
import shutil
import subprocess
import sys
import tempfile
from collections import defaultdict
from pathlib import Path

TOP = Path(__file__).resolve().parent.parent
SEARCH, BELOW = "demand_oracle::oracle::search", "demand_oracle::below::"
ROUND, WORKER = "::least_prices::", "task_board::worker::"
NAMED = re.compile(r"(c?fn)=\((\d+)\)(?: (.*))?$")
STARTED = re.compile(r"[0-9a-f]+ <(.*)>:$")
LOOKED = re.compile(r" *([0-9a-f]+):\s+(?:tzcnt|rep bsf|bsf) ")


def moved(at, position):
    """A position that is told beside the one before it: the same, so much further, or a new one."""
    if position == "*":
        return at
    return int(position, 0) + (at if position[0] in "+-" else 0)


class Profile:
    """What one run did: instructions in all, calls and what they took by caller and callee, executions by function and place."""

    def __init__(self, lines):
        self.total = 0
        self.calls: dict[tuple[str, str], int] = defaultdict(int)
        self.spent: dict[tuple[str, str], int] = defaultdict(int)
        self.executed: dict[tuple[str, int], int] = defaultdict(int)
        names: dict[str, str] = {}
        here, there, called, at = "", "", 0, 0
        for line in lines:
            if named := NAMED.match(line):
                name = names.setdefault(named[2], re.sub(r"'\d+$", "", named[3] or ""))
                here, there = (name, there) if named[1] == "fn" else (here, name)
            elif line.startswith("calls="):
                called = int(line[6:].split()[0])
            elif line[:1] in "0123456789+-*" and len(fields := line.split()) == 3:
                at = moved(at, fields[0])
                if called:
                    self.calls[here, there] += called
                    self.spent[here, there] += int(fields[2])
                    called = 0
                else:
                    self.executed[here, at] += int(fields[2])
                    self.total += int(fields[2])

    def called(self, callee, caller=""):
        """How often others, with one word in their names, called functions with another one, and what that took."""
        found = [pair for pair in self.calls if callee in pair[1] and caller in pair[0] and callee not in pair[0]]
        return sum(self.calls[pair] for pair in found), sum(self.spent[pair] for pair in found)


def real_program():
    """The program itself, and not the script that calls it, which would be counted in its place."""
    return os.path.abspath(os.environ.get("COURSE_MATCH_PROGRAM") or TOP / "crates/market_program/out/market_program")


def need(*tools):
    """Ends with 69 where one of these is not there."""
    for tool in tools:
        if not shutil.which(tool):
            print(f"bench: --count needs {tool}, which is not here", file=sys.stderr)
            sys.exit(69)


def within(limit, memory=None):
    """What a child does before it begins: it gets so many seconds of processor time, and so much memory if that is told."""

    def limited():
        resource.setrlimit(resource.RLIMIT_CPU, (limit, limit + 1))
        if memory:
            resource.setrlimit(resource.RLIMIT_AS, (memory, memory))

    return limited


def profile(command, folder, limit, environment=None):
    """The profile of a run, the start of what it wrote, and its status. After so many seconds of valgrind's processor time it is
    stopped, and what was counted till then is told."""
    with tempfile.NamedTemporaryFile() as told, tempfile.TemporaryFile() as out:
        words = ["valgrind", "--tool=callgrind", "--dump-instr=yes", f"--callgrind-out-file={told.name}", *command]
        done = subprocess.run(
            words, cwd=folder, stdout=out, stderr=subprocess.DEVNULL, env=environment, preexec_fn=within(limit), check=False
        )
        out.seek(0)
        with open(told.name, encoding="utf-8", errors="replace") as lines:
            return Profile(line.rstrip("\n") for line in lines), out.read(2**20), done.returncode


def look_ups(text):
    """The functions and addresses, in a program that objdump wrote as text, at which the search finds the next open place.

    It looks up what can be reached there once for each such place: the only instructions of these functions that look for a bit.
    """
    found, inside = set(), ""
    for line in text.splitlines():
        if started := STARTED.match(line):
            inside = started[1]
        elif inside.startswith(BELOW) and (looked := LOOKED.match(line)):
            found.add((inside, int(looked[1], 16)))
    return found


def disassembled(program):
    """The program as objdump writes it."""
    return subprocess.run(["objdump", "-d", "--no-show-raw-insn", program], capture_output=True, text=True, check=True).stdout


def elimination(counted, places, students):
    """What the elimination of a run did that accepted its first prices, in words: its rounds, its questions in all and a student;
    and of each question of the run the nodes that were made, the look-ups, and the instructions. Last what is left of the
    elimination's instructions, by round and student.

    Before the elimination each student is asked once; the aftermarket's questions come from no worker.
    """
    rounds, spent = counted.called(ROUND)
    searches, searched = counted.called(SEARCH)
    asked, within = counted.called(SEARCH, WORKER)
    questions = asked - students
    nodes = sum(count for (_, callee), count in counted.calls.items() if callee.startswith(BELOW + "below"))
    looked = sum(counted.executed[place] for place in places)
    if not rounds or questions < 1:
        return ["no call of these names"]
    rest = (spent - within * questions / asked) / (rounds * students)
    each = (value / searches for value in (nodes, looked, searched))
    return [f"{rounds:,}", f"{questions:,}", f"{questions / students:.1f}", *(f"{value:,.0f}" for value in each), f"{rest:,.0f}"]
