#!/usr/bin/env python3
"""Prints the README of an archive, for whoever puts it on a school's machine: what to copy where, what to check, how to go back, and
what was proved with which kit. The words are the version, and yes or no: whether the program is proved."""

import json
import sys
from pathlib import Path

TOP = Path(__file__).resolve().parent.parent
TEXT = """# Course Match {version}

{proof}

For whoever puts this archive on a school's machine. What the program does, and what is proved of it: `docs/README.md`.

## What it needs

A machine with x86-64 Linux and a C library of version 2.34 or later (Debian 12), and Python 3.8 or later for `scripts/registrar` and
`verify/`. Nothing is installed, no service runs, nothing listens, and nothing is sent. A term of 2,000 students takes some 100 MiB, and
mostly less than a minute.

## What to copy where

1. Unpack the archive beside the version that is there, and leave that one: `tar xzf course-match-{version}.tar.gz -C /opt`
2. In the new folder hold the sums: `sha256sum --quiet -c SHA256SUMS` prints nothing.
3. Try it: `scripts/check` prints `accepted`; `scripts/run >try.txt` runs the example term.
4. Point the name that people call at the new folder: `ln -sfn /opt/course-match-{version} /opt/course-match`
5. Keep a school's own files elsewhere, each term in a folder: the archive's folder may belong to root and be read by all.

`course-match.html` may lie on any web server or disk: it is one file, and asks for no other. For phones serve it over
https. Publish the lines of `SHA256SUMS` for it and for `course-match.wasm`, its module, in a second place
(`docs/GUIDE.md`, "In a browser").

## What to check

| What | How | What is right |
|---|---|---|
| the files | `sha256sum --quiet -c SHA256SUMS` | nothing is printed |
| the program | `scripts/examples` | `the examples are as they were` |
| last term's text | `scripts/registrar check --manifest FILE` | `accepted` |
| a text, by whoever trusts none of this | `python3 verify/verify.py CATALOGUE ROLL SETTINGS TEXT SESSION..` | `accepted` |

A `manifest.json` has the SHA-256 of the program that wrote its text. After a change of version `scripts/registrar again` tells whether
the new program gives the same text.

## How to go back

Point the name at the old folder: `ln -sfn /opt/course-match-OLD /opt/course-match`. No file of a term is changed by a version, and a
published text stays what it is: `check` of either version says the same of it, if `CHANGELOG.md` names no change of the text between.

## What is in it

| File | What it is |
|---|---|
| `course-match` | the program |
| `course-match.html`, `course-match.wasm`, `course-match.json` | the page, its module, and what they were built from |
| `scripts/` | commands that call the program; `--help` tells the words of each |
| `registrar/`, `verify/` | the registrar's tools (`scripts/registrar --help`), and the second checker |
| `docs/` | begin with `docs/GUIDE.md`; `docs/README.md` is the README that the documents speak of |
| `examples/` | what the guide runs |
| `CHANGELOG.md`, `VERSION` | what is new |
| `SHA256SUMS` | the sum of each file |
"""
PROVED = """The program is built from commit {commit}, each crate of which is proved, with `{kit}`. \
Its checks, all tests and all edits that must be refused run by `rt ci` in the repository.

The page holds the program compiled to WebAssembly from the same module of LLVM; the module's SHA-256 is `{module}`."""
UNPROVED = "THIS ARCHIVE WAS MADE WITHOUT PROOFS, for work on the archive alone. Trust nothing in it."


def main() -> None:
    version, proved = sys.argv[1:]
    origin = json.loads((TOP / "page/out/course-match.json").read_text())
    is_proved = proved == "yes"
    if is_proved and not origin["proved"]:
        sys.exit("release: the page in page/out is not of the proved program")
    print(TEXT.format(version=version, proof=PROVED.format(**origin) if is_proved else UNPROVED), end="")


if __name__ == "__main__":
    main()
