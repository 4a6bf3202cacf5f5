"""Modules are joined into one script, in which each comes after those that it needs."""

import shutil
import subprocess
import sys
import tempfile
import unittest
from pathlib import Path

PAGE = Path(__file__).resolve().parents[1]
sys.path.insert(0, str(PAGE))
import join


class Join(unittest.TestCase):
    """Folders of small modules."""

    def setUp(self) -> None:
        self.room = Path(self.enterContext(tempfile.TemporaryDirectory(prefix="course-match-")))

    def joined(self, **modules: str) -> str:
        """The module `a` of a folder of these."""
        for name, text in modules.items():
            (self.room / f"{name}.js").write_text(text)
        return join.joined(self.room, "a")

    def refused(self, words: str, **modules: str) -> None:
        with self.assertRaisesRegex(join.NotJoined, words):
            self.joined(**modules)

    def test_each_comes_once_and_after_what_it_needs(self) -> None:
        text = self.joined(
            a="// first\n\nimport { b } from './b.js';\nimport {\n  c,\n} from './c.js';\n\nconst one = b + c;\n",
            b="import { c } from './c.js';\n\nexport const b = c;\n",
            c="export const c = 1;\n",
        )
        self.assertEqual("'use strict';\n\nconst c = 1;\n\nconst b = c;\n\n// first\n\nconst one = b + c;\n", text)

    def test_what_a_module_keeps_to_itself_is_not_to_be_had(self) -> None:
        self.refused(
            "a.js imports b, which b.js does not export", a="import { b } from './b.js';\n", b="const b = 1;\n"
        )

    def test_no_two_declare_one_name(self) -> None:
        same = "function twice() {}\n"
        self.refused(
            "b.js and a.js both declare twice",
            a="import { b } from './b.js';\n" + same,
            b="export const b = 1;\n" + same,
        )

    def test_no_two_need_each_other(self) -> None:
        b = "import { a } from './a.js';\nexport const b = a;\n"
        self.refused("a -> b -> a", a="import { b } from './b.js';\nexport const a = b;\n", b=b)

    def test_other_imports_and_exports_are_refused(self) -> None:
        self.refused("import \\* as b", a="import * as b from './b.js';\n", b="")
        self.refused("export default", a="export default 1;\n")
        self.refused("b as c", a="import { b as c } from './b.js';\n", b="export const b = 1;\n")

    @unittest.skipUnless(shutil.which("node"), "no node")
    def test_lines_have_120_columns_at_most(self) -> None:
        for file in [*PAGE.glob("*.js"), *PAGE.glob("*.ts"), *PAGE.glob("tests/unit/*.js")]:
            for number, line in enumerate(file.read_text().splitlines(), 1):
                self.assertLessEqual(len(line), 120, f"{file.name}:{number}")

    def test_scripts_of_the_page_are_scripts(self) -> None:
        for entry in ("page", "worker"):
            (self.room / f"{entry}.js").write_text(join.joined(PAGE, entry))
            subprocess.run(["node", "--check", self.room / f"{entry}.js"], check=True)


if __name__ == "__main__":
    unittest.main()
