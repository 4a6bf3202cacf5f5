"""Puts the page together: one file with the module, the example term, and all scripts and styles in it.

The default is the module of the proved program. `--unproved` takes the one that `rt try` builds without proofs, and the
page then says so in plain sight; it is for whoever works on the page."""

import argparse
import base64
import gzip
import hashlib
import html
import json
import re
import shutil
import subprocess
from pathlib import Path

import join
import kit
import module
import narrow

HERE = Path(__file__).resolve().parent
TOP = HERE.parent
EXAMPLE = ("catalogue.csv", "roll.csv", "settings.json", "published.txt", "desk.session", "web.session")
UNPROVED = "This page was built without proofs, for work on the page alone. Trust nothing that it says."
PROVED = (
    "The program in this page is compiled from the LLVM module of the proved program for Linux. The README of Course "
    "Match says what is proved of that program, and what has to be trusted besides."
)

NOT_KEPT = (
    "page: nothing proved is kept of the sources as they stand: the page would prove all crates of the program first, "
    "which takes half an hour to two hours. Say --prove to have that done. (Or call `rt ci` first, or build with "
    "--unproved.)\n"
)


def packed(data: bytes) -> str:
    """Bytes as the page holds them."""
    return base64.b64encode(gzip.compress(data, 9, mtime=0)).decode()


def source_of(text: str) -> str:
    """The policy's word for an inline script or style: its hash."""
    return f"'sha256-{base64.b64encode(hashlib.sha256(text.encode()).digest()).decode()}'"


def said(*words: str) -> str:
    """What a command prints, at the top of the repository."""
    return subprocess.run(words, cwd=TOP, check=True, capture_output=True, text=True).stdout.strip()


def version() -> str:
    """The commit, and the tag if there is one; it says where files of the repository differ from it."""
    return said("git", "describe", "--always", "--dirty")


def example() -> bytes:
    """The files of the example term, each with its name."""
    return json.dumps([[name, (TOP / "examples/term" / name).read_text()] for name in EXAMPLE]).encode()


def page_of(wasm: bytes, is_proved: bool) -> str:
    """The whole page."""
    script = join.joined(HERE, "page")
    style = (HERE / "course-match.css").read_text()
    guard, worker = (HERE / "guard.js").read_text(), join.joined(HERE, "worker")
    packed_in = {"module": wasm, "example": example(), "worker": worker.encode()}
    commit, of_kit = version(), said("rt", "version")
    policy = (
        f"default-src 'none'; script-src {source_of(guard)} {source_of(script)} 'wasm-unsafe-eval'; worker-src blob:; "
        f"style-src {source_of(style)}; base-uri 'none'; form-action 'none'"
    )
    sums = {name: hashlib.sha256(it).hexdigest() for name, it in packed_in.items()}
    about = {"version": commit, "kit": of_kit, "proved": is_proved, "sums": sums}
    parts = {
        "policy": policy,
        "style": style,
        "guard": guard,
        "script": script,
        "worker": worker,
        "module": packed(wasm),
        "example": packed(packed_in["example"]),
        "about": json.dumps(about),
        "unproved": "" if is_proved else f'<p class="unproved" role="alert">{UNPROVED}</p>',
        "origin": PROVED if is_proved else UNPROVED,
        "commit": html.escape(commit),
        "kit": html.escape(of_kit),
    }
    text = (HERE / "course-match.html").read_text()
    return re.sub(r"\{\{(\w+)\}\}", lambda it: parts[it[1]], text)


def wide_module(arguments: argparse.Namespace, room: Path) -> Path:
    """The module with a 64-bit memory that the arguments ask for; it is kept by what it is made of, since compiling
    takes minutes."""
    crate = TOP / "crates/market_program"
    if arguments.bitcode:
        bitcode = arguments.bitcode.resolve()
    else:
        bitcode = (kit.unproved_module if arguments.unproved else kit.proved_module)(crate, room)
    made_of = hashlib.sha256()
    for file in (bitcode, HERE / "shim.c", HERE / "module.py"):
        made_of.update(hashlib.sha256(file.read_bytes()).digest())
    kept = room / f"{made_of.hexdigest()[:16]}.wasm"
    if not kept.is_file():
        clang = kit.kit_folder() / "toolchain/bin/clang"
        shutil.move(module.make_module(clang, bitcode, HERE / "shim.c", room, not arguments.unproved), kept)
    return kept


def main() -> None:
    parser = argparse.ArgumentParser(prog="scripts/page", description=__doc__)
    parser.add_argument("--unproved", action="store_true", help="build from what `rt try` compiles, without proofs")
    parser.add_argument(
        "--as-it-stands", action="store_true", help="proved where `rt ci` left the program, else --unproved"
    )
    parser.add_argument(
        "--prove",
        action="store_true",
        help="prove the program first, where nothing proved is kept: half an hour to two",
    )
    parser.add_argument("--bitcode", type=Path, help="with --unproved: take this module of LLVM")
    arguments = parser.parse_args()
    if arguments.as_it_stands and not kit.is_left_by_gate(TOP / "crates/market_program"):
        arguments.unproved = True
    if arguments.bitcode and not arguments.unproved:
        parser.error("--bitcode is for --unproved: a given file is tied to no proof")
    if not arguments.unproved and not kit.is_kept(TOP / "crates/market_program"):
        if not arguments.prove:
            parser.exit(1, NOT_KEPT)
        print("page: the program is proved first, which takes half an hour to two hours", flush=True)
    out, room = HERE / "out", HERE / "out/module"
    room.mkdir(parents=True, exist_ok=True)
    wide = wide_module(arguments, room).read_bytes()
    (room / "wide.wasm").write_bytes(wide)  # (of which the tests derive the other anew)
    wasm = narrow.narrowed(wide)
    text = page_of(wasm, not arguments.unproved)
    files = {"course-match.html": text.encode(), "course-match.wasm": wasm}
    sums = {name: hashlib.sha256(content).hexdigest() for name, content in files.items()}
    origin = {
        "commit": version(),
        "kit": said("rt", "version"),
        "proved": not arguments.unproved,
        "module": sums["course-match.wasm"],
        "page": sums["course-match.html"],
    }
    files["course-match.json"] = (json.dumps(origin, indent=2) + "\n").encode()
    files["SHA256SUMS"] = "".join(f"{total}  {name}\n" for name, total in sums.items()).encode()
    for name, content in files.items():
        (out / name).write_bytes(content)
    proved = "proved" if origin["proved"] else "UNPROVED"
    sizes = f"{len(text.encode())} bytes, module {len(wasm)} bytes"
    print(f"page/out/course-match.html: {sizes}, {proved}, commit {origin['commit']}")


if __name__ == "__main__":
    main()
