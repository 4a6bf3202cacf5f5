"""Words of the command line that are numbers. One that is out of its range is refused before anything is done, with status 64."""

from __future__ import annotations

import argparse
from typing import Callable, List

from registrar import tables


def whole(least: int, most: int) -> Callable[[str], int]:
    """Reads a whole number of this range."""

    def read(text: str) -> int:
        if not tables.NUMBER.match(text) or not least <= int(text) <= most:
            raise argparse.ArgumentTypeError(f"'{text}' is no whole number from {least} to {most}")
        return int(text)

    return read


def wholes(least: int, most: int) -> Callable[[str], List[int]]:
    """Reads whole numbers of this range, with commas between them."""
    one = whole(least, most)
    return lambda text: [one(part) for part in text.split(",")]
