"""Who works in a folder: one command at a time writes there, and whoever comes second is told who it is.

The lock is the system's lock on the file `course-match.lock`, which says who holds it. The system opens it when its
holder ends, however that is, so that no lock is ever left behind: a file that is left says nothing.
"""

from __future__ import annotations

import contextlib
import fcntl
import json
import os
import pwd
import socket
import time
from typing import Dict, Iterator, Optional, Sequence

from registrar.tell import BUSY, NO_FILE, Trouble

FILE = "course-match.lock"

#: So often a lock is sought whose file its holder takes away in the same moment.
TRIES = 100

#: What a lock says of its holder is no longer than this.
MOST_BYTES = 4096

#: The folders that this process holds, and how often.
_held: Dict[str, int] = {}


def user() -> str:
    """Whoever runs this process, by the system and not by the environment; a number where it has no name."""
    return name_of(os.getuid())


def name_of(number: int) -> str:
    """The name of the user of this number, or the number."""
    try:
        return pwd.getpwuid(number).pw_name
    except KeyError:
        return str(number)


@contextlib.contextmanager
def in_folders(folders: Sequence[str], command: str, make: bool = False) -> Iterator[None]:
    """Holds these folders for a command.

    With `make`, those that are not there are made, and go again where they stay empty.

    Raises `Trouble` with the status `BUSY` where another process holds one of them, which says whose it is.
    """
    with contextlib.ExitStack() as stack:
        for folder in sorted({os.path.realpath(folder or ".") for folder in folders}):
            if make:
                stack.enter_context(made(folder))
            stack.enter_context(in_folder(folder, command))
        yield


@contextlib.contextmanager
def made(folder: str) -> Iterator[None]:
    """A folder, with those above it, made where it is not there; what was made and is empty in the end goes again."""
    missing = []
    folder = above = os.path.realpath(folder)
    while not os.path.lexists(above):
        missing.append(above)
        above = os.path.dirname(above)
    try:
        os.makedirs(folder, exist_ok=True)
    except OSError as error:
        raise Trouble(f"{shown(folder)} can not be written: {error.strerror}") from error
    try:
        yield
    finally:
        for one in missing:
            with contextlib.suppress(OSError):
                os.rmdir(one)


@contextlib.contextmanager
def in_folder(folder: str, command: str) -> Iterator[None]:
    """Holds one folder, which is given by its real path. A process that holds it already holds it once more."""
    descriptor = None if folder in _held else taken(folder, command)
    _held[folder] = _held.get(folder, 0) + 1
    try:
        yield
    finally:
        _held[folder] -= 1
        if not _held[folder]:
            del _held[folder]
        if descriptor is not None:
            # The name goes first: whoever opens it now waits for nobody, and a new holder makes a new file.
            with contextlib.suppress(OSError):
                os.remove(os.path.join(folder, FILE))
            os.close(descriptor)


def taken(folder: str, command: str) -> int:
    """The descriptor of the lock of a folder, which is held from now on.

    Raises `Trouble` where somebody else holds it.
    """
    if not os.path.isdir(folder):
        raise Trouble(f"there is no folder {shown(folder)}", NO_FILE)
    path = os.path.join(folder, FILE)
    for _ in range(TRIES):
        descriptor = opened(path)
        try:
            fcntl.flock(descriptor, fcntl.LOCK_EX | fcntl.LOCK_NB)
            if is_of(descriptor, path) and says(descriptor, path, command):
                return descriptor
        except BlockingIOError:
            told = read(descriptor)
            os.close(descriptor)
            raise Trouble(in_words(folder, told), BUSY) from None
        except OSError as error:
            os.close(descriptor)
            raise Trouble(f"{shown(path)} can not be locked: {error.strerror}") from error
        os.close(descriptor)
    raise Trouble(f"{shown(path)} can not be locked: it is taken away each time", BUSY)


def opened(path: str) -> int:
    """The descriptor of the file of a lock; of another's file, which may be held, one that reads alone."""
    flags = os.O_CLOEXEC | os.O_NOFOLLOW | os.O_NONBLOCK
    try:
        try:
            return os.open(path, flags | os.O_RDWR | os.O_CREAT, 0o666)
        except PermissionError:
            return os.open(path, flags | os.O_RDONLY)
    except OSError as error:
        raise Trouble(f"{shown(path)} can not be written: {error.strerror}") from error


def is_of(descriptor: int, path: str) -> bool:
    """Whether the open file still has this name: its holder may have taken it away before it was locked."""
    try:
        return os.path.samestat(os.fstat(descriptor), os.stat(path))
    except OSError:
        return False


def says(descriptor: int, path: str, command: str) -> bool:
    """Writes into the lock who holds it. Where the file is another's, who is gone, it goes, and has to be made anew."""
    holder = {
        "user": user(), "command": command, "since": time.strftime("%Y-%m-%d %H:%M:%S", time.localtime()),
        "process": os.getpid(), "machine": socket.gethostname(),
    }  # fmt: skip
    try:
        os.fchmod(descriptor, 0o644)
    except OSError:
        os.remove(path)
        return False
    # On a full disk the lock holds all the same, and says less.
    with contextlib.suppress(OSError):
        os.ftruncate(descriptor, 0)
        os.pwrite(descriptor, json.dumps(holder).encode("ascii"), 0)
    return True


def read(descriptor: int) -> Optional[Dict[str, str]]:
    """What a lock says of its holder, or nothing in the moment before it does."""
    try:
        kept = json.loads(os.pread(descriptor, MOST_BYTES, 0))
        return {name: str(kept[name]) for name in ("user", "command", "since", "process", "machine")}
    except (OSError, ValueError, KeyError, TypeError):
        return None


def in_words(folder: str, holder: Optional[Dict[str, str]]) -> str:
    """Who works in a folder, for whoever comes second."""
    if holder is None:
        return f"somebody else works in {shown(folder)}: wait until that has ended, and run again"
    line = (
        f"{holder['user']} works in {shown(folder)}: `registrar {holder['command']}` since {holder['since']} "
        f"(process {holder['process']} on {holder['machine']}). Wait until that has ended, and run again"
    )
    return "".join(sign if sign.isprintable() else "?" for sign in line)


def shown(path: str) -> str:
    """A path as it is told: from here where it is below this folder."""
    near = os.path.relpath(path)
    return path if near.startswith("..") else near
