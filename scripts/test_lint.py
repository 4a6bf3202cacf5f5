"""What `scripts/lint` takes for Python, and what it says where its tools are not there."""

import importlib.machinery
import importlib.util
import pathlib
import subprocess
import sys
import tempfile
import unittest

FILE = pathlib.Path(__file__).resolve().with_name("lint")
LOADER = importlib.machinery.SourceFileLoader("lint", str(FILE))
SPEC = importlib.util.spec_from_loader("lint", LOADER)
assert SPEC is not None
lint = importlib.util.module_from_spec(SPEC)
LOADER.exec_module(lint)


class Sources(unittest.TestCase):
    """The files that are looked through."""

    def test_a_script_is_known_by_its_first_line(self):
        texts = {"a": "#!/usr/bin/env python3\n", "b": "#!/usr/bin/env bash\n# python\n", "c.py": "", "d.csv": "#!python\n"}
        with tempfile.TemporaryDirectory() as folder:
            for name, text in texts.items():
                pathlib.Path(folder, name).write_text(text, encoding="ascii")
            self.assertEqual([name for name in texts if lint.is_python(pathlib.Path(folder, name))], ["a", "c.py"])
            self.assertFalse(lint.is_python(pathlib.Path(folder, "none.py")))

    def test_each_folder_is_held_to_its_python(self):
        parts = lint.parted(lint.sources())
        for version, names in (
            ("", ["registrar/registrar/tell.py", "registrar/tests/school.py", "verify/verify.py", "examples/college/make.py"]),
            (lint.OF_DEBIAN, ["scripts/lint", "scripts/bench_markets.py", "page/build.py", "page/tests/measure"]),
        ):
            self.assertEqual([name for name in names if name not in parts[version]], [])
        self.assertFalse([name for name in sum(parts.values(), []) if name.endswith((".js", ".csv", "scripts/registrar"))])


class Tools(unittest.TestCase):
    """The command itself."""

    def test_without_tools_the_last_lines_say_so(self):
        with tempfile.TemporaryDirectory() as folder:
            git = subprocess.run(["sh", "-c", "command -v git"], capture_output=True, text=True, check=True).stdout.strip()
            pathlib.Path(folder, "git").symlink_to(git)
            done = subprocess.run([sys.executable, FILE], env={"PATH": folder}, capture_output=True, text=True, check=False)
        self.assertEqual((done.returncode, done.stderr), (0, ""))
        told = ["lint: NOT TESTED: the repository's Python by pylint", "lint: NOT TESTED: the repository's Python by mypy"]
        self.assertEqual(done.stdout.splitlines()[1:], told)


if __name__ == "__main__":
    unittest.main()
