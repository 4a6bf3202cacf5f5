"""What is written is written whole or not at all: two at once, signals, a full disk, and targets that are no files."""

from __future__ import annotations

import glob
import os
import shutil
import signal
import stat
import subprocess
import sys
import time
import unittest
from typing import Dict, List, Optional, Sequence

from registrar import at_work, program, tell, whole
from tests.support import SCARCE_WORDS, TERM, InFolder, call, needs_program

TERM_WORDS = ["catalogue.csv", "roll.csv", "settings.json", "desk.session", "web.session"]

#: So long a test waits for what has to come.
PATIENCE = 60.0


def there() -> Dict[str, str]:
    """The environment of a command that is started."""
    path = os.path.join(program.TOP, "registrar")
    return {**os.environ, "PYTHONPATH": path, "PYTHONDONTWRITEBYTECODE": "1", "COURSE_MATCH_PROGRAM": program.find_program()}


def heed_all() -> None:
    """Lets each signal end the process that is started: under `nohup`, or behind `&`, some are passed over."""
    for number in (signal.SIGTERM, signal.SIGHUP, signal.SIGINT, signal.SIGQUIT, signal.SIGUSR1):
        signal.signal(number, signal.SIG_DFL)


def start(*words: str) -> subprocess.Popen[str]:
    """Starts a command as a process of its own."""
    return subprocess.Popen(
        [sys.executable, "-m", "registrar", *words], env=there(), stdout=subprocess.PIPE, stderr=subprocess.PIPE,
        universal_newlines=True, preexec_fn=heed_all,
    )  # fmt: skip


def child_of(process: subprocess.Popen[str]) -> Optional[int]:
    """The number of the program that a command has called."""
    try:
        with open(f"/proc/{process.pid}/task/{process.pid}/children", encoding="ascii") as file:
            numbers = file.read().split()
        for number in numbers:
            if os.path.samefile(f"/proc/{number}/exe", program.find_program()):
                return int(number)
    except OSError:
        pass
    return None


def is_there(number: int) -> bool:
    """Whether a process of this number works."""
    try:
        with open(f"/proc/{number}/stat", encoding="ascii", errors="replace") as file:
            return file.read().rsplit(")", 1)[1].split()[0] not in ("Z", "X")
    except OSError:
        return False


@needs_program
@unittest.skipUnless(os.path.exists(f"/proc/self/task/{os.getpid()}/children"), "children are found by /proc of Linux")
class AtOnce(InFolder):
    """Commands that run while others do."""

    def setUp(self) -> None:
        super().setUp()
        for name in TERM_WORDS:
            shutil.copy(os.path.join(TERM, name), name)
        # No prices have the error 0, so that each run goes on until a test ends it.
        settings = self.read("settings.json").replace('"accept": 60', '"accept": 0').replace('"turns": 120', '"turns": 10000')
        self.put("settings.json", settings)
        self.put("published.txt", "the last good text\n")

    def begun(self, *words: str) -> tuple[subprocess.Popen[str], int]:
        """A run that was started, and the program that it has called."""
        process = start("run", *TERM_WORDS, "--workers", "1", *words)
        self.addCleanup(process.kill)
        until = time.monotonic() + PATIENCE
        while time.monotonic() < until:
            child = child_of(process)
            if child is not None and glob.glob("published.txt.*.part"):
                return process, child
            if process.poll() is not None:
                break
            time.sleep(0.01)
        process.kill()
        raise AssertionError(f"the run did not begin: {process.communicate(timeout=PATIENCE)}")

    def assert_ended(self, child: int) -> None:
        """The program ends."""
        until = time.monotonic() + PATIENCE
        while is_there(child) and time.monotonic() < until:
            time.sleep(0.01)
        self.assertFalse(is_there(child))

    def test_the_second_run_is_told_who_works_there(self) -> None:
        """It ends at once with a status of its own, and the first goes on."""
        first, child = self.begun()
        told = call("run", *TERM_WORDS)
        self.assertEqual(told.status, tell.BUSY)
        wanted = f"{at_work.user()} works in .: `registrar run` since "
        self.assertTrue(told.err.startswith(wanted), told.err)
        self.assertIn(f"(process {first.pid} on ", told.err)
        self.assertTrue(is_there(child))
        first.terminate()
        first.communicate(timeout=PATIENCE)
        self.assertFalse(os.path.exists(at_work.FILE))
        with at_work.in_folders(["."], "run"):
            self.assertTrue(os.path.exists(at_work.FILE))

    def test_what_can_be_heeded(self) -> None:
        """The program ends with the tool, the part file is taken away, and the last good text stands."""
        for number in (signal.SIGTERM, signal.SIGHUP, signal.SIGINT, signal.SIGQUIT, signal.SIGUSR1):
            with self.subTest(number):
                process, child = self.begun()
                process.send_signal(number)
                _, told = process.communicate(timeout=PATIENCE)
                self.assertEqual(process.returncode, 128 + number)
                self.assertIn("what stood before still stands", told)
                self.assert_ended(child)
                self.assertEqual(sorted(os.listdir(".")), sorted([*TERM_WORDS, "published.txt"]))
                self.assertEqual(self.read("published.txt"), "the last good text\n")

    def test_what_can_not_be_heeded(self) -> None:
        """The program ends too. The part file that is left is named by the next run, and nothing is locked."""
        process, child = self.begun()
        process.kill()
        process.communicate(timeout=PATIENCE)
        self.assert_ended(child)
        self.assertEqual(self.read("published.txt"), "the last good text\n")
        [left] = glob.glob("published.txt.*.part")
        self.scarce()
        told = call("run", *SCARCE_WORDS)
        self.assertEqual(told.status, 0)
        self.assertEqual(
            told.err, f"{left} is a part of a file, left by a command that was ended; nothing reads it, and it may be removed\n"
        )


class Targets(InFolder):
    """What is no regular file is written by no command."""

    def targets(self) -> List[str]:
        """Something of each kind."""
        self.put("real.txt", "real\n")
        os.symlink("real.txt", "link.txt")
        os.symlink("nothing.txt", "dangling.txt")
        os.mkdir("folder.txt")
        os.mkfifo("pipe.txt")
        self.put("protected.txt", "protected\n")
        os.chmod("protected.txt", 0o444)
        return ["link.txt", "dangling.txt", "folder.txt", "pipe.txt", "protected.txt", *["/dev/full"] * os.path.exists("/dev/full")]

    def test_each_kind(self) -> None:
        """It is refused, and what stood there is what it was."""
        words = {
            "link.txt": "a symbolic link", "dangling.txt": "a symbolic link", "folder.txt": "a folder", "pipe.txt": "a pipe",
            "protected.txt": "protected against writing", "/dev/full": "a device",
        }  # fmt: skip

        def alone(target: str) -> None:
            whole.write_whole(target, b"new")

        def beside_another(target: str) -> None:
            whole.write_all({"other.txt": b"new", target: b"new"})

        for target in self.targets():
            before = os.lstat(target)
            for write in (alone, beside_another):
                with self.subTest(target), self.assertRaises(tell.Trouble) as caught:
                    write(target)
                self.assertEqual(str(caught.exception), f"{target} can not be written: it is {words[target]}")
            self.assertEqual((os.lstat(target).st_ino, os.lstat(target).st_mode), (before.st_ino, before.st_mode))
        self.assertFalse(os.path.lexists("nothing.txt") or os.path.lexists("other.txt"))
        self.assertEqual((self.read("real.txt"), self.read("protected.txt")), ("real\n", "protected\n"))

    @needs_program
    def test_names_that_are_none(self) -> None:
        """Nothing, a folder's name with a slash, and bytes that are no UTF-8, before the program is called."""
        self.scarce()
        for name in ("", "texts/", os.fsdecode(b"text\xff")):
            with self.subTest(name):
                os.makedirs("texts", exist_ok=True)
                told = call("run", *SCARCE_WORDS, "--text", name)
                self.assertEqual((told.status, told.err), (tell.USAGE, f"{name!r} can not be written: it is no name of a file in UTF-8\n"))

    @needs_program
    def test_each_command(self) -> None:
        """Each option that names what is written, before the program is called."""
        self.run_scarce()
        self.put("held.csv", "")
        os.symlink("held.csv", "link")
        for words in (
            ("run", *SCARCE_WORDS, "--text", "link"),
            ("settings", *SCARCE_WORDS, "--write", "link"),
            ("audit", "--out", "link"),
            ("summary", "--out", "link"),
            ("next", "--into", "link"),
            ("next", "--into", "link", "--replace"),
        ):
            with self.subTest(words):
                told = call(*words)
                self.assertEqual((told.status, told.err), (tell.FAULTS, "link can not be written: it is a symbolic link\n"))
        self.assertTrue(os.path.islink("link"))
        told = call("lists", "--out", "held.csv")
        self.assertEqual(told.status, tell.FAULTS)
        self.assertRegex(told.err, r"\Aheld.csv(/students.csv)? can not be written: ")

    @needs_program
    def test_a_folder_that_is_not_there(self) -> None:
        """A run makes none: a name that is mistyped would lie in a folder that nobody looks for."""
        self.scarce()
        told = call("run", *SCARCE_WORDS, "--text", "sprnig/published.txt")
        self.assertEqual((told.status, told.err), (tell.NO_FILE, "sprnig/published.txt can not be written: there is no folder sprnig\n"))


class Whole(InFolder):
    """Files that are written together."""

    def test_what_stood_there_comes_back(self) -> None:
        """The second file can not take its name: the first has its old content, and what was not there is not there."""
        self.put("a", "old a")
        os.mkdir("b")
        parts = [whole.Part(name) for name in ("a", "new")]
        for part in parts:
            part.fill(b"new")
        third = whole.Part("c")
        third.fill(b"new")
        third.target = "b"
        with self.assertRaises(tell.Trouble) as caught:
            whole.settle_all([*parts, third])
        self.assertEqual(str(caught.exception), "b can not be written: it is a folder")
        self.assertEqual(self.read("a"), "old a")
        for part in (*parts, third):
            part.__exit__()
        self.assertEqual(sorted(os.listdir(".")), ["a", "b"])

    def test_modes(self) -> None:
        """A new file has the mode that the mask leaves, and a file that is written anew has its own."""
        before = os.umask(0o027)
        try:
            whole.write_whole("new", b"")
            self.put("old", "")
            os.chmod("old", 0o604)
            whole.write_whole("old", b"new")
        finally:
            os.umask(before)
        self.assertEqual([stat.S_IMODE(os.stat(name).st_mode) for name in ("new", "old")], [0o640, 0o604])


#: A disk of 160 KiB, in a space of names of the test's own.
SMALL_DISK = 'mount -t tmpfs -o size=160k none "$0" && cd "$0" && exec "$@"'


def on_small_disk(folder: str, *words: str) -> subprocess.CompletedProcess[str]:
    """Runs words in a folder that is a small disk, which goes when they end."""
    return subprocess.run(
        ["unshare", "-rm", "sh", "-c", SMALL_DISK, folder, *words], env=there(), check=False,
        stdout=subprocess.PIPE, stderr=subprocess.STDOUT, universal_newlines=True,
    )  # fmt: skip


def has_small_disk() -> bool:
    """Whether a test may have a disk of its own here."""
    if not shutil.which("unshare"):
        return False
    words = ["unshare", "-rm", "mount", "-t", "tmpfs", "none", "/mnt"]
    return subprocess.run(words, check=False, stderr=subprocess.DEVNULL).returncode == 0


@needs_program
@unittest.skipUnless(has_small_disk(), "no disk of its own can be mounted here")
class FullDisk(InFolder):
    """A disk that is full: the file is named, the old ones stand, and no part file is left."""

    def full(self, left: int, *words: str) -> List[str]:
        """What is told, and what lies on the disk then. Before the words so many KiB are left on it."""
        script = (
            'cp "$1"/* . && echo old > published.txt && shift && '
            f'head -c $(($(stat -f -c "%a * %S" .) - {left * 1024})) /dev/zero > ballast && '
            '"$@"; echo "status $?"; ls -A; cat published.txt'
        )
        folder = os.path.join(self.folder, "disk")
        os.makedirs(folder, exist_ok=True)
        sources = os.path.join(self.folder, "sources")
        return on_small_disk(folder, "sh", "-c", script, "sh", sources, *words).stdout.splitlines()

    def sources(self, names: Sequence[str], folder: str) -> None:
        """Puts these files where the disk is filled from."""
        os.makedirs("sources", exist_ok=True)
        for name in names:
            shutil.copy(os.path.join(folder, name), os.path.join("sources", name))

    def test_a_run(self) -> None:
        """The text of the term does not fit behind its inputs."""
        self.sources(TERM_WORDS, TERM)
        before = sorted([*TERM_WORDS, "ballast", "published.txt"])
        told = self.full(48, sys.executable, "-m", "registrar", "run", *TERM_WORDS)
        self.assertIn("published.txt can not be written: The output was not taken whole: the disk is full", told[0])
        self.assertEqual(told[1:3], ["published.txt is what it was before this run.", "status 6"])
        self.assertEqual(told[3:], [*before, "old"])

    def test_an_import(self) -> None:
        """None of its files is written, and the one that can not be is named."""
        exports = os.path.join(program.TOP, "examples", "exports")
        self.sources(os.listdir(exports), exports)
        told = self.full(12, sys.executable, "-m", "registrar", "import", "--into", "made")
        self.assertRegex(told[0], r"\Amade/[a-z]+\.(csv|session) can not be written: No space left on device\Z")
        self.assertEqual(told[1], f"status {tell.FAULTS}")
        self.assertNotIn("made", told)

    def test_each_other_command(self) -> None:
        """Behind a good run the disk is full to its last byte: each names the file, and nothing is left or lost."""
        self.scarce()
        self.put("b.requests", "add u X\n")
        self.sources([*SCARCE_WORDS, "b.requests"], ".")
        commands = (
            "lists --no-reasons", "summary", "next", "hall b.requests", "audit --out envy.txt",
            f"settings {' '.join(SCARCE_WORDS)} --take 20 1 --write new.json", f"run {' '.join(SCARCE_WORDS)}",
        )  # fmt: skip
        called = "; ".join(f'"$0" -m registrar {words}; echo "status $?"' for words in commands)
        script = (
            f'"$0" -m registrar run {" ".join(SCARCE_WORDS)} && sha256sum * > /tmp/sums && cat /dev/zero > ballast; '
            f'{called}; find . -type f | sort; grep -v course-match.log /tmp/sums | sha256sum -c --quiet && echo whole'
        )
        folder = os.path.join(self.folder, "disk")
        os.makedirs(folder)
        script = f'cp "{self.folder}"/sources/* . && {script.replace("/tmp/sums", self.folder + "/sums")}'
        told = on_small_disk(folder, "sh", "-c", script, sys.executable).stdout
        for name in ("lists/students.csv", "summary.html", "roll.next.csv", "hall.requests", "envy.txt", "new.json"):
            self.assertRegex(told, rf"(?m)^(\./)?{name} can not be written: No space left on device$")
        self.assertIn("published.txt can not be written: The output was not taken whole: the disk is full", told)
        self.assertEqual(told.count(f"status {tell.FAULTS}\n"), 6)
        files = [line[2:] for line in told.splitlines() if line.startswith("./") and " " not in line]
        kept = [*SCARCE_WORDS, "b.requests", "ballast", "course-match.log", "manifest.json", "published.txt", tell.TIMES]
        self.assertEqual(files, sorted(kept))
        self.assertTrue(told.endswith("whole\n"), told)


if __name__ == "__main__":
    unittest.main()
