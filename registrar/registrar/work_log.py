"""`log`: who did what. Each command that writes appends a line to `course-match.log` beside the manifest.

A line is a JSON object: `time` (UTC), `user` (by the system), `command`, `words`, `status`, and `files`, each with its
SHA-256. Of many files in one folder there is one entry, with their number and the SHA-256 of the lines that `sha256sum`
prints of them.
"""

from __future__ import annotations

import argparse
import contextlib
import hashlib
import json
import os
import shlex
import time
from typing import Any, Dict, Iterator, List, Optional, Sequence, Tuple

from registrar import at_work, manifest, program, tables, tell, whole

NAME = "log"
HELP = "show who did what beside a manifest: time, user, command, and the files that it wrote"

FILE = "course-match.log"

#: Of more files in one folder there is one entry for all.
MOST_NAMED = 70

#: What a command writes besides what it was asked for.
UNNAMED = (tell.TIMES,)

Entry = Dict[str, Any]


def add_arguments(parser: argparse.ArgumentParser) -> None:
    """The options of `log`."""
    manifest.add_argument(parser)
    parser.add_argument("--sums", action="store_true", help="show the SHA-256 of each file")


def run(arguments: argparse.Namespace) -> int:
    """Shows the log, and which files are no more what was written last."""
    folder = os.path.dirname(arguments.manifest) or "."
    path = os.path.normpath(os.path.join(folder, FILE))
    if not os.path.lexists(path):
        raise tell.Trouble(f"there is no {path}: a command that writes beside the manifest begins it", tell.NO_FILE)
    entries, broken = read(path)
    for entry in entries:
        for line in in_words(entry, arguments.sums):
            tell.say(line)
    for line in changed(folder, entries):
        tell.warn(line)
    for number in broken:
        tell.warn(f"{path}, line {number}: this is no line of a log")
    return tell.FAULTS if broken else 0


def folders(beside: str, into: str) -> List[str]:
    """The folders of a command that works beside a manifest and writes into a folder, that of the log first.

    Who may read beside the manifest and not write there has the log where it writes.
    """
    there = os.path.dirname(beside) or "."
    if not os.path.isdir(there):
        return []
    return [there, into] if os.access(there, os.W_OK) else [into]


def folder_of(path: str) -> str:
    """The folder of a file that is written. It has to be there: `NO_FILE`."""
    folder = os.path.dirname(path) or "."
    if not os.path.isdir(folder):
        raise tell.Trouble(f"{path} can not be written: there is no folder {folder}", tell.NO_FILE)
    return folder


@contextlib.contextmanager
def kept(folder: str, command: str, words: Sequence[str]) -> Iterator[Dict[str, Optional[int]]]:
    """Keeps what a command writes, with its words and its status, which it puts into what this gives."""
    whole.refuse_others([os.path.normpath(os.path.join(folder, FILE))])
    whole.forget()
    ended: Dict[str, Optional[int]] = {"status": None}
    try:
        yield ended
    except tell.Trouble as trouble:
        ended["status"] = trouble.status
        raise
    finally:
        files = [path for path in whole.written() if os.path.basename(path) not in UNNAMED]
        if files:
            # A folder that was made and stays empty goes again.
            there = folder if set(os.listdir(folder)) - {at_work.FILE} else os.path.dirname(files[0])
            path = os.path.normpath(os.path.join(there, FILE))
            append(path, entry_of(there, command, words, ended["status"], files))


def entry_of(folder: str, command: str, words: Sequence[str], status: Optional[int], files: Sequence[str]) -> Entry:
    """The entry of a command that wrote these files."""
    return {
        "time": time.strftime("%Y-%m-%dT%H:%M:%SZ", time.gmtime()),
        "user": at_work.user(),
        "command": command,
        "words": list(words),
        "status": status,
        "files": summed(folder, files),
    }


def summed(folder: str, files: Sequence[str]) -> List[Dict[str, Any]]:
    """The files with their sums, as seen from a folder; of many in one folder the sum of their sums."""
    by_folder: Dict[str, List[str]] = {}
    for path in files:
        by_folder.setdefault(os.path.dirname(path), []).append(path)
    found: List[Dict[str, Any]] = []
    for there, paths in by_folder.items():
        if len(paths) > MOST_NAMED:
            found.append({"folder": manifest.relative(there, folder), "files": len(paths), "sha256": sum_of(paths)})
        else:
            found += [{"file": manifest.relative(path, folder), "sha256": program.sha256(path)} for path in paths]
    return found


def sum_of(paths: Sequence[str]) -> str:
    """The SHA-256 of what `sha256sum` prints of these files of one folder, in the order of their names."""
    named = sorted((os.path.basename(path).encode("utf-8", "surrogateescape"), path) for path in paths)
    lines = b"".join(program.sha256(path).encode("ascii") + b"  " + name + b"\n" for name, path in named)
    return hashlib.sha256(lines).hexdigest()


def append(path: str, entry: Entry) -> None:
    """Appends an entry whole. Where that can not be done it is told; what the command wrote stands."""
    line = (json.dumps(entry) + "\n").encode("ascii")
    try:
        descriptor = os.open(path, os.O_RDWR | os.O_CREAT | os.O_APPEND | os.O_NOFOLLOW | os.O_CLOEXEC, 0o666)
        try:
            before = os.fstat(descriptor).st_size
            if before and os.pread(descriptor, 1, before - 1) != b"\n":
                line = b"\n" + line
            if not written(descriptor, line):
                os.ftruncate(descriptor, before)
                raise OSError(None, "the disk takes no more")
        finally:
            os.close(descriptor)
    except OSError as error:
        tell.warn(f"warning: {path} can not be written: {error.strerror}; it lacks what this command did")


def written(descriptor: int, line: bytes) -> bool:
    """Whether all of the line was taken."""
    try:
        return os.write(descriptor, line) == len(line)
    except OSError:
        return False


def read(path: str) -> Tuple[List[Entry], List[int]]:
    """The entries of a log, and the numbers of the lines that are none."""
    entries: List[Entry] = []
    broken: List[int] = []
    for number, line in enumerate(tables.read_bytes(path).splitlines(), 1):
        try:
            entry = json.loads(line)
            texts = [entry["time"], entry["user"], entry["command"], *entry["words"]]
            names = [name_of(one) + one["sha256"] for one in entry["files"]]
            if not all(isinstance(text, str) for text in texts + names):
                raise TypeError
            entries.append(entry)
        except (ValueError, KeyError, TypeError, RecursionError):
            broken.append(number)
    return entries, broken


def name_of(one: Dict[str, Any]) -> str:
    """What was written: a file, or a folder with how many files."""
    return str(one["file"]) if "file" in one else f"{one['folder']}/ ({one['files']} files)"


def in_words(entry: Entry, sums: bool) -> List[str]:
    """An entry for a person."""
    when = entry["time"].replace("T", " ").replace("Z", " UTC")
    status = "" if entry.get("status") == 0 else f", which ended with {entry.get('status') or 'a signal'}"
    told = [f"{when}, {entry['user']}{status}", "  registrar " + " ".join(shlex.quote(word) for word in entry["words"])]
    if sums:
        told += [f"    {one['sha256']}  {name_of(one)}" for one in entry["files"]]
    else:
        told.append("    wrote " + ", ".join(name_of(one) for one in entry["files"]))
    return ["".join(sign if sign.isprintable() else "?" for sign in line) for line in told]


def changed(folder: str, entries: Sequence[Entry]) -> List[str]:
    """The files that stand there and are not what was written last: no command of the tools changed them."""
    last = {one["file"]: (one["sha256"], entry) for entry in entries for one in entry["files"] if "file" in one}
    told = []
    for name, (total, entry) in last.items():
        path = os.path.normpath(os.path.join(folder, name))
        if os.path.isfile(path) and program.sha256(path) != total:
            told.append(
                f"{path} is not what `registrar {entry['command']}` of {entry['user']} wrote last: "
                "it was changed by other means"
            )
    return told
