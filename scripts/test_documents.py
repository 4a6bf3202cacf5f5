"""What `scripts/documents --check` tells of figures, of the kit and of long rows."""

import functools
import importlib.machinery
import importlib.util
import pathlib
import tempfile
import unittest
from unittest import mock

LOADER = importlib.machinery.SourceFileLoader("documents", str(pathlib.Path(__file__).with_name("documents")))
SPEC = importlib.util.spec_from_loader("documents", LOADER)
assert SPEC is not None
documents = importlib.util.module_from_spec(SPEC)
LOADER.exec_module(documents)

MEASURED = "Before it 9.9 s.\n\n<!-- measured -->\nA run takes 5.4 s and {} MiB.\n\nBehind it 8.8 s.\n"


class Told(unittest.TestCase):
    """Over a folder with these documents alone."""

    def told(self, of, **texts):
        """What a function of the script tells of README, and of the documents in docs/, by their names."""
        with tempfile.TemporaryDirectory() as name:
            top = pathlib.Path(name)
            (top / "docs").mkdir()
            for title, text in texts.items():
                (top / ("README.md" if title == "README" else f"docs/{title}.md")).write_text(text, encoding="utf-8")
            with mock.patch.object(documents, "TOP", top):
                return list(of())

    def test_figures_that_were_measured(self):
        measured = "| `run 1` | 5.425 s | 2,103 MiB |\n"
        self.assertEqual(self.told(documents.strange_figures, README=MEASURED.format("2,103"), PERFORMANCE=measured), [])

    def test_another_figure_is_told(self):
        told = self.told(documents.strange_figures, README=MEASURED.format(102), PERFORMANCE="5.425 s, 103 MiB, 102 s\n")
        self.assertEqual(told, ["README.md has the figure 102 MiB, which docs/PERFORMANCE.md has not"])
        told = self.told(documents.strange_figures, README="", GUIDE=MEASURED.format(103), PERFORMANCE="5.46 s, 103 MiB\n")
        self.assertEqual(told, ["docs/GUIDE.md has the figure 5.4 s, which docs/PERFORMANCE.md has not"])

    def test_the_logic_of_the_kit(self):
        readme = "`rattle-kit-13b logic dac8208d`.\n"
        same = "rattle-kit-13b logic dac8208d"
        for kit, count in ((same, 0), ("rattle-kit-13f logic dac8208d", 0), ("rattle-kit-13b logic 0", 1), ("", 0)):
            with self.subTest(kit):
                self.assertEqual(len(self.told(functools.partial(documents.strange_kit, kit), README=readme)), count)
        self.assertEqual(len(self.told(lambda: documents.strange_kit(same), README="none\n")), 1)

    def test_long_rows(self):
        rows = "\n".join(f"| {'why ' * count} | so | since |" for count in (58, 59)) + "\n" + "why " * 61
        self.assertEqual(self.told(documents.long_rows, DECISIONS=rows), ["docs/DECISIONS.md:2 has 61 words, of 60 at most"])


if __name__ == "__main__":
    unittest.main()
