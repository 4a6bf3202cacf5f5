"""The limits that the tools know, beside those of the program's source."""

from __future__ import annotations

import re
import unittest
from pathlib import Path

from registrar import limits

SOURCE = Path(__file__).resolve().parents[2] / "crates/market_units/src/limits.rt"


class Limits(unittest.TestCase):
    """One table, which the tools share."""

    def test_each_is_the_program_s(self) -> None:
        text = SOURCE.read_text(encoding="utf-8")
        program = {name: int(digits.replace("_", "")) for name, digits in re.findall(r"^pub const (\w+): \w+ = ([\d_]+);", text, re.M)}
        known = {name: value for name, value in vars(limits).items() if name.startswith("MAX_")}
        self.assertEqual(known, {name: program.get(name) for name in known})
        self.assertIn("MAX_STUDENTS", known)
