"""Files that are written whole or not at all.

What is written goes into a part file beside its target first, under a name that nobody else has, and takes the target's
name when all of it is there. So whatever ends a command, or keeps it from writing, the old file stands, and two
commands that write the same file never mix. A target that stands and is no regular file (a device, a folder, a symbolic
link) is refused: to take its name would put a file in its place.
"""

from __future__ import annotations

import contextlib
import glob
import os
import re
import secrets
import shutil
import stat
from typing import BinaryIO, Dict, Iterable, Iterator, List, Sequence

from registrar.tell import USAGE, Trouble

#: What a part file is called: its target's name, and drawn digits.
ENDING = ".part"
PART = re.compile(r"\.[0-9a-f]{12}\.part\Z")

#: The files that this process has given their names since `forget`, for the log of who did what.
_written: List[str] = []

KINDS = (
    (stat.S_ISDIR, "a folder"),
    (stat.S_ISLNK, "a symbolic link"),
    (stat.S_ISCHR, "a device"),
    (stat.S_ISBLK, "a device"),
    (stat.S_ISFIFO, "a pipe"),
    (stat.S_ISSOCK, "a socket"),
)


def refuse_others(targets: Iterable[str]) -> None:
    """Refuses a target that stands and is no regular file, or is protected against writing. Raises `Trouble`."""
    for target in targets:
        if not os.path.basename(target) or not is_text(target):
            raise Trouble(f"{target!r} can not be written: it is no name of a file in UTF-8", USAGE)
        try:
            mode = os.lstat(target).st_mode
        except (FileNotFoundError, NotADirectoryError):
            continue
        except OSError as error:
            raise refusal(target, error) from error
        for is_kind, what in KINDS:
            if is_kind(mode):
                raise Trouble(f"{target} can not be written: it is {what}")
        if not mode & 0o222 or not os.access(target, os.W_OK):
            raise Trouble(f"{target} can not be written: it is protected against writing")


def is_text(name: str) -> bool:
    """Whether a name is text: a system's name may have bytes that are no UTF-8, and the program takes no such words."""
    try:
        return bool(name.encode("utf-8"))
    except UnicodeEncodeError:
        return False


def refusal(target: str, error: OSError) -> Trouble:
    """What is told of a write that the system refused: the file, and why."""
    return Trouble(f"{target} can not be written: {error.strerror or error}")


class Part:
    """A file while it is written. Where it does not `settle`, leaving its `with` takes it away."""

    def __init__(self, target: str) -> None:
        refuse_others([target])
        self.target = target
        #: The part file.
        self.path = drawn_name(target)
        try:
            self.file: BinaryIO = open(self.path, "xb")
        except OSError as error:
            raise refusal(target, error) from error
        with contextlib.suppress(OSError):
            os.fchmod(self.file.fileno(), stat.S_IMODE(os.stat(target).st_mode))

    def __enter__(self) -> Part:
        return self

    def __exit__(self, *_: object) -> None:
        with contextlib.suppress(OSError):
            self.file.close()
        with contextlib.suppress(OSError):
            os.remove(self.path)

    def fill(self, content: bytes) -> None:
        """Writes the content, and closes the file. Raises `Trouble`, which names the target."""
        try:
            self.file.write(content)
        except OSError as error:
            raise refusal(self.target, error) from error
        self.close_whole()

    def close_whole(self) -> None:
        """Closes the file, its bytes being on the disk. Raises `Trouble`, which names the target."""
        try:
            if not self.file.closed:
                self.file.flush()
                os.fsync(self.file.fileno())
                self.file.close()
        except OSError as error:
            raise refusal(self.target, error) from error

    def settle(self) -> None:
        """Gives the file its target's name. Raises `Trouble`, which names the target."""
        self.close_whole()
        refuse_others([self.target])
        try:
            os.replace(self.path, self.target)
        except OSError as error:
            raise refusal(self.target, error) from error
        _written.append(self.target)


def drawn_name(target: str) -> str:
    """A name beside the target that nobody else has."""
    return f"{target}.{secrets.token_hex(6)}{ENDING}"


def write_whole(path: str, content: bytes) -> None:
    """Writes a file whole or not at all. Raises `Trouble`, which names it."""
    with Part(path) as part:
        part.fill(content)
        part.settle()


def write_all(files: Dict[str, bytes]) -> None:
    """Writes all of these files, or none of them. Raises `Trouble`, which names the one that could not be written."""
    refuse_others(files)
    with contextlib.ExitStack() as stack:
        parts = []
        for path, content in files.items():
            parts.append(stack.enter_context(Part(path)))
            parts[-1].fill(content)
        settle_all(parts)


def settle_all(parts: Sequence[Part]) -> None:
    """Gives all parts their names, or none: where one is refused, the others' targets get back what stood there."""
    refuse_others([part.target for part in parts])
    done: List[Part] = []
    begun = len(_written)
    with old_files([part.target for part in parts]) as old:
        try:
            for part in parts:
                part.settle()
                done.append(part)
        except BaseException:
            del _written[begun:]
            for part in reversed(done):
                give_back(part.target, old)
            raise


@contextlib.contextmanager
def old_files(targets: Sequence[str]) -> Iterator[Dict[str, str]]:
    """A second name for what stands under each of these names; the second names go with the `with`."""
    old: Dict[str, str] = {}
    try:
        for target in targets:
            if os.path.lexists(target):
                old[target] = drawn_name(target)
                keep(target, old[target])
        yield old
    finally:
        for second in old.values():
            with contextlib.suppress(OSError):
                os.remove(second)


def keep(target: str, second: str) -> None:
    """Gives a file a second name; where the disk has no such names, a copy."""
    try:
        os.link(target, second)
    except OSError:
        try:
            shutil.copy2(target, second)
        except OSError as error:
            raise refusal(target, error) from error


def give_back(target: str, old: Dict[str, str]) -> None:
    """Puts back what stood under the name, or nothing where nothing did."""
    with contextlib.suppress(OSError):
        if target in old:
            os.replace(old[target], target)
        else:
            os.remove(target)


def left_parts(folder: str) -> List[str]:
    """The part files that stand in a folder: whoever wrote them was ended, if nobody writes there now."""
    found = [path for begin in ("*", ".*") for path in glob.glob(os.path.join(glob.escape(folder), begin + ENDING))]
    return sorted(os.path.normpath(path) for path in found if PART.search(path))


def written() -> List[str]:
    """The files that were written since `forget` and are there, each once, in the order in which they were written."""
    return [path for path in dict.fromkeys(_written) if os.path.isfile(path)]


def forget() -> None:
    """Begins the list of `written` anew."""
    _written.clear()
