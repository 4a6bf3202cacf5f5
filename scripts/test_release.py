"""The archive of a release: its name, its README, and what is in it."""

import hashlib
import json
import pathlib
import shutil
import subprocess
import tarfile
import tempfile
import unittest

TOP = pathlib.Path(__file__).resolve().parent.parent
COPIED = ("scripts", "page", "docs", "registrar", "verify", "examples")
OF_BUILDERS = (
    "page", "release", "documents", "lemmas", "lint", "plain_words", "unproved", "gate_times", "specs_stand_alone", "test_release.py",
)  # fmt: skip


@unittest.skipUnless((TOP / "page/release_text.py").exists(), "the sources are not here")
class Archive(unittest.TestCase):
    def setUp(self):
        self.folder = tempfile.TemporaryDirectory()
        self.top = pathlib.Path(self.folder.name, "top")
        for name in COPIED:
            shutil.copytree(TOP / name, self.top / name, ignore=shutil.ignore_patterns("out", "__pycache__"))
        for name in ("README.md", "VERSION", "CHANGELOG.md", ".gitignore"):
            shutil.copy(TOP / name, self.top)
        for words in (["init", "-q"], ["add", "-A"], ["-c", "user.name=a", "-c", "user.email=a@b", "commit", "-qm", "all"]):
            subprocess.run(["git", *words], cwd=self.top, check=True)
        (self.top / "page/out").mkdir()
        for name in ("course-match.html", "course-match.wasm"):
            (self.top / "page/out" / name).write_text("a page")
        origin = {"commit": "1234567", "kit": "a kit", "proved": False, "module": "0" * 64, "page": "0" * 64}
        (self.top / "page/out/course-match.json").write_text(json.dumps(origin))
        (self.top / "program").write_text("#!/bin/sh\n")

    def tearDown(self):
        self.folder.cleanup()

    def release(self):
        """The folder that the archive holds."""
        done = subprocess.run(["scripts/release", "--unproved", "program"], cwd=self.top, capture_output=True, text=True, check=True)
        name = f"course-match-{(TOP / 'VERSION').read_text().strip()}-unproved"
        self.assertIn(f"out/{name}.tar.gz: ", done.stdout)
        with tarfile.open(self.top / f"out/{name}.tar.gz") as archive:
            archive.extractall(self.folder.name)
        return pathlib.Path(self.folder.name, name)

    def test_what_is_in_it(self):
        there = self.release()
        readme = (there / "README.md").read_text(encoding="utf-8")
        self.assertTrue(readme.startswith(f"# Course Match {(TOP / 'VERSION').read_text().strip()}-unproved\n"))
        for words in ("WITHOUT PROOFS", "What to copy where", "What to check", "How to go back"):
            self.assertIn(words, readme)
        self.assertEqual((there / "docs/README.md").read_bytes(), (TOP / "README.md").read_bytes())
        self.assertTrue((there / "course-match").is_symlink() and (there / "course-match").exists())
        for name in OF_BUILDERS:
            self.assertFalse((there / "scripts" / name).exists(), name)

    def test_each_file_has_its_sum(self):
        there = self.release()
        sums = dict(line.split("  ./")[::-1] for line in (there / "SHA256SUMS").read_text().splitlines())
        files = {str(it.relative_to(there)) for it in there.rglob("*") if it.is_file() and not it.is_symlink()}
        self.assertEqual(set(sums), files - {"SHA256SUMS"})
        for name, said in sums.items():
            self.assertEqual(hashlib.sha256((there / name).read_bytes()).hexdigest(), said, name)


if __name__ == "__main__":
    unittest.main()
