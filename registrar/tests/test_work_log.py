"""`log`: who did what, one line for each command that writes; and who comes second is told who works there."""

from __future__ import annotations

import hashlib
import json
import os
import shutil
import subprocess
import unittest
from typing import Any, Dict, List

from registrar import at_work, tell, work_log
from tests.support import SCARCE_WORDS, InFolder, call, needs_program
from tests.term import WithSchool, say

LOG = work_log.FILE


def entries(folder: str = ".") -> List[Dict[str, Any]]:
    """The lines of a log."""
    with open(os.path.join(folder, LOG), encoding="ascii") as file:
        return [json.loads(line) for line in file]


def sum_by_the_system(name: str) -> str:
    """The SHA-256 of a file, as another program tells it."""
    return subprocess.run(["sha256sum", name], check=True, stdout=subprocess.PIPE, universal_newlines=True).stdout.split()[0]


@needs_program
class Log(InFolder):
    """The log beside a manifest."""

    def test_each_command_that_writes(self) -> None:
        """One line for each, with the files that it wrote; a command that only reads has none."""
        self.run_scarce()
        for words in (
            ("check",), ("explain", "u", "X"), ("look", *SCARCE_WORDS[:2], "a.session"), ("audit",), ("again",), ("log",),
            ("lists",), ("summary",), ("audit", "--out", "envy.txt"), ("next",), ("settings", *SCARCE_WORDS, "--turns", "20"),
            ("settings", *SCARCE_WORDS, "--take", "20", "1", "--write", "other.json"),
        ):  # fmt: skip
            self.assertIn(call(*words).status, (0, tell.FAULTS), words)
        kept = entries()
        self.assertEqual([one["command"] for one in kept], ["run", "lists", "summary", "audit", "next", "settings"])
        self.assertEqual([one["file"] for one in kept[0]["files"]], ["published.txt", "manifest.json"])
        self.assertEqual(kept[0]["words"], ["run", *SCARCE_WORDS])
        for one in kept:
            self.assertEqual((one["status"], one["user"]), (0, at_work.user()))
            self.assertRegex(one["time"], r"\A\d{4}-\d\d-\d\dT\d\d:\d\d:\d\dZ\Z")
            for file in one["files"]:
                self.assertEqual(file["sha256"], sum_by_the_system(file["file"]))
        self.assertEqual([one["file"] for one in kept[5]["files"]], ["other.json"])
        self.assertIn("lists/students/u.session", [one["file"] for one in kept[1]["files"]])

    def test_many_files(self) -> None:
        """Of many files in one folder there is the sum that `sha256sum * | sha256sum` prints there."""
        os.mkdir("many")
        for number in range(work_log.MOST_NAMED + 1):
            self.put(os.path.join("many", f"{number}.txt"), str(number))
        files = [os.path.join("many", f"{number}.txt") for number in range(work_log.MOST_NAMED + 1)]
        [one] = work_log.summed(".", files)
        there = "cd many && LC_ALL=C sha256sum * | sha256sum"
        told = subprocess.run(["sh", "-c", there], check=True, stdout=subprocess.PIPE, universal_newlines=True).stdout
        self.assertEqual(one, {"folder": "many", "files": work_log.MOST_NAMED + 1, "sha256": told.split()[0]})

    def test_what_is_shown(self) -> None:
        """The words of each command and what it wrote; and which file was changed since by other means."""
        self.run_scarce()
        self.assertEqual(call("next").status, 0)
        told = call("log")
        self.assertEqual((told.status, told.err), (0, ""))
        lines = told.out.splitlines()
        self.assertEqual(len(lines), 6)
        self.assertRegex(lines[0], rf"\A[-0-9]+ [:0-9]+ UTC, {at_work.user()}\Z")
        wanted = ["  registrar run " + " ".join(SCARCE_WORDS), "    wrote published.txt, manifest.json"]
        self.assertEqual(lines[1:3] + lines[4:], [*wanted, "  registrar next", "    wrote roll.next.csv"])
        with open("roll.next.csv", "rb") as file:
            total = hashlib.sha256(file.read()).hexdigest()
        self.assertIn(f"    {total}  roll.next.csv\n", call("log", "--sums").out)
        self.put("roll.next.csv", "by hand")
        told = call("log")
        wanted_line = f"roll.next.csv is not what `registrar next` of {at_work.user()} wrote last: it was changed by other means\n"
        self.assertEqual((told.status, told.err), (0, wanted_line))

    def test_a_line_that_is_none(self) -> None:
        """It is told, and a log whose last line is cut gets its next line on a line of its own."""
        self.run_scarce()
        with open(LOG, "a", encoding="ascii") as file:
            file.write('{"time": "2026')
        self.assertEqual(call("next").status, 0)
        told = call("log")
        self.assertEqual((told.status, told.err), (tell.FAULTS, f"{LOG}, line 2: this is no line of a log\n"))
        self.assertIn("  registrar next\n", told.out)

    def test_a_log_that_can_not_be_written(self) -> None:
        """The command is refused before it writes anything."""
        self.scarce()
        self.put("held", "")
        os.symlink("held", LOG)
        told = call("run", *SCARCE_WORDS)
        self.assertEqual((told.status, told.err), (tell.FAULTS, f"{LOG} can not be written: it is a symbolic link\n"))
        self.assertFalse(os.path.exists("published.txt"))

    def test_a_command_that_ends_badly_and_writes_nothing(self) -> None:
        """It has no line."""
        self.scarce()
        self.put("roll.csv", "nothing\n")
        self.assertEqual(call("run", *SCARCE_WORDS).status, 3)
        self.assertFalse(os.path.exists(LOG))
        self.assertEqual(call("log").status, tell.NO_FILE)


@needs_program
class Import(WithSchool):
    """An import has a line too, in the folder into which it writes, which has no manifest yet."""

    def test_import_and_hall(self) -> None:
        self.assertEqual(self.imported()[0], 0)
        [one] = entries("out")
        self.assertEqual(one["words"], ["import", "--into", "out"])
        self.assertIn("catalogue.csv", [file["file"] for file in one["files"]])
        self.assertEqual([one["file"] for one in entries()[0]["files"]], ["mapping.ini"])

    def test_faults(self) -> None:
        """The table of faults is written, and that stands there with the status; the folder that stays empty goes again."""
        self.settle("courses default", "")
        status, _ = say("import", "--into", "other", "--faults", "faults.csv")
        self.assertEqual(status, tell.FAULTS)
        self.assertFalse(os.path.exists("other"))
        self.assertFalse(os.path.exists(at_work.FILE))
        kept = [(one["status"], one["files"][0]["file"]) for one in entries()]
        self.assertEqual(kept[-1], (tell.FAULTS, "faults.csv"))


class SomebodyElse(InFolder):
    """Who comes second is told who works there."""

    def test_each_command(self) -> None:
        """Each command that writes beside the manifest or into that folder, whoever holds it."""
        holder = at_work.taken(os.path.realpath("."), "run")
        try:
            os.mkdir("other")
            for words in (
                ("run", *SCARCE_WORDS), ("lists",), ("lists", "--out", "other"), ("summary",), ("audit", "--out", "envy.txt"), ("next",),
                ("hall",), ("import",), ("settings", *SCARCE_WORDS, "--write", "new.json"), ("import", "--into", "."),
            ):  # fmt: skip
                with self.subTest(words):
                    told = call(*words)
                    self.assertEqual(told.status, tell.BUSY)
                    self.assertTrue(told.err.startswith(f"{at_work.user()} works in .: `registrar run` since "), told.err)
        finally:
            os.close(holder)
        # Its holder is gone, and left the file: that says nothing.
        self.assertTrue(os.path.exists(at_work.FILE))
        self.assertEqual(call("next").status, tell.NO_FILE)
        self.assertEqual(os.listdir("."), ["other"])

    @unittest.skipUnless(os.getuid() == 0 and shutil.which("setpriv"), "only the superuser can be somebody else")
    def test_another_user(self) -> None:
        """A lock of somebody else, who may write there and not into the lock's file: held it is told, and left it is passed."""
        os.chmod(".", 0o777)
        lock = 'exec 9<>course-match.lock && flock -n 9 && cat > course-match.lock && exec sleep 60'
        said = '{"user": "ann", "command": "run", "since": "2026-03-01 10:00:00", "process": 7, "machine": "desk"}'
        self.put("said", said)
        with open("said", "rb") as given:
            other = subprocess.Popen(["setpriv", "--reuid=12345", "--clear-groups", "sh", "-c", lock], stdin=given)
        try:
            while not os.path.exists(at_work.FILE) or not os.path.getsize(at_work.FILE):
                self.assertIsNone(other.poll())
            told = call("next")
        finally:
            other.kill()
            other.wait()
        words = "`registrar run` since 2026-03-01 10:00:00 (process 7 on desk). Wait until that has ended, and run again\n"
        self.assertEqual((told.status, told.err), (tell.BUSY, f"ann works in .: {words}"))
        self.assertEqual(call("next").status, tell.NO_FILE)


if __name__ == "__main__":
    unittest.main()
