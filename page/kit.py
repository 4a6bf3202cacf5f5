"""Takes the LLVM module from which the kit compiles the program.

The kit's `rattle` hands the module to the clang of its toolchain and removes it. So the program is built with a view of
the kit: a folder of links to all of it, with copies of `rt` and `rtlib.py` (which look for the kit beside themselves) and
a `clang` that keeps the module and then is the kit's. What is kept is therefore what the program that the build leaves was
compiled from, whatever the time of day and whatever else the machine builds."""

import hashlib
import shutil
import subprocess
import sys
from pathlib import Path

COPIED = ("rt", "rtlib.py")
WRAPPER = """#!/usr/bin/env bash
# Keeps the module that the kit hands to clang, and is then the kit's clang.
set -eu
if [ -f module.bc ]; then
    cp module.bc '{kept}'
    printf '%s\\n' "$@" >'{kept}.words'
fi
exec -a "$0" '{clang}' "$@"
"""


def kit_folder() -> Path:
    """The folder of the kit, which `rt doc` names."""
    return Path(subprocess.run(["rt", "doc"], check=True, capture_output=True, text=True).stdout.strip()).resolve().parent


def sum_of(file: Path) -> str:
    """The SHA-256 of a file."""
    return hashlib.sha256(file.read_bytes()).hexdigest()


def link_all(source: Path, view: Path, but: tuple[str, ...]) -> None:
    """Makes a folder of links to what the source folder has, but for some names."""
    view.mkdir(parents=True)
    for it in source.iterdir():
        if it.name not in but:
            (view / it.name).symlink_to(it)


def view_of(kit: Path, view: Path, kept: Path) -> None:
    """Makes the view of the kit whose clang keeps the module as the file `kept`."""
    link_all(kit, view, ("bin", "toolchain"))
    link_all(kit / "bin", view / "bin", COPIED)
    for name in COPIED:
        shutil.copy(kit / "bin" / name, view / "bin" / name)
    link_all(kit / "toolchain", view / "toolchain", ("bin",))
    link_all(kit / "toolchain/bin", view / "toolchain/bin", ("clang",))
    wrapper = view / "toolchain/bin/clang"
    wrapper.write_text(WRAPPER.format(kept=kept, clang=kit / "toolchain/bin/clang"))
    wrapper.chmod(0o755)


def call(words: list[str | Path], folder: Path) -> int:
    """Runs a command with what it says on standard error; answers its status."""
    return subprocess.run(words, cwd=folder, stdin=subprocess.DEVNULL, stdout=sys.stderr, check=False).returncode


def proved_module(crate: Path, room: Path) -> Path:
    """The module of the proved program of the crate.

    `rt ci` leaves the program and the libraries that it stands on; where it did not run, `rt run` proves and builds the
    program. The program is then built once more with the view, from the proofs that are kept; it must come out the same,
    byte for byte. The module is kept beside the program's sum for the next call."""
    program, kept, of_program = crate / "out" / crate.name, room / "proved.bc", room / "proved.sha256"
    stamp = crate / "out" / f"{crate.name}.stamp"
    by_gate = is_left_by_gate(crate)
    if not by_gate:
        call(["rt", "run"], crate)  # (without words the program answers 1: whether it was built is seen at its stamp)
        if not stamp.is_file():
            sys.exit(f"page: `rt run` in {crate} did not prove and build the program")
    before = sum_of(program)
    if kept.is_file() and of_program.is_file() and of_program.read_text().split()[0] == before:
        return kept
    of_program.unlink(missing_ok=True)
    if by_gate:
        again = built_from_libraries(crate, room, kept)
    else:
        built_with_view("run", crate, room, kept, stamp)
        again = program if stamp.is_file() else room
    if again == room or sum_of(again) != before:
        sys.exit(f"page: the program was built anew and is not the one that stood in {program}")
    of_program.write_text(f"{before}  {crate.name}\n")
    return kept


def is_left_by_gate(crate: Path) -> bool:
    """Whether the program and all libraries that it stands on are there, as `rt ci` leaves them, and nothing that they are
    made of was changed since."""
    return all(it.is_dir() for it in libraries_of(crate)[1].values()) and is_younger_than_sources(crate)


def is_kept(crate: Path) -> bool:
    """Whether nothing has to be proved for the program: `rt ci` or `rt run` left it, and no source was changed since."""
    return is_left_by_gate(crate) or (crate / "out" / f"{crate.name}.stamp").is_file() and is_younger_than_sources(crate)


def is_younger_than_sources(crate: Path) -> bool:
    """Whether the program is there, and nothing that it is made of was changed since."""
    program = crate / "out" / crate.name
    folders = [crate.parent / name / part for name in (crate.name, *libraries_of(crate)[1]) for part in ("src", "specs", "proofs", "c")]
    sources = [crate.parent.parent / "crates.txt", *(it for folder in folders for it in folder.rglob("*"))]
    return program.is_file() and all(it.stat().st_mtime <= program.stat().st_mtime for it in sources)


def libraries_of(crate: Path) -> tuple[list[str], dict[str, Path]]:
    """The libraries that crates.txt names for the crate, and where those of the repository stand that it uses, at any depth."""
    named = {}
    for line in (crate.parent.parent / "crates.txt").read_text().splitlines():
        before, colon, after = line.partition(":")
        if colon and not line.startswith("#"):
            named[before.split()[0]] = after.split()
    below, waiting = {}, list(named[crate.name])
    while waiting:
        name = waiting.pop()
        if name in named and name not in below:
            below[name] = crate.parent / name / "out/rlib" / f"{name}.rlib"
            waiting += named[name]
    return named[crate.name], below


def built_from_libraries(crate: Path, room: Path, kept: Path) -> Path:
    """Builds the program from the libraries that `rt ci` left, with the view of the kit, as `rt ci` builds it."""
    kit, view = kit_folder(), room / "kit"
    shutil.rmtree(view, ignore_errors=True)
    kept.unlink(missing_ok=True)
    view_of(kit, view, kept)
    direct, below = libraries_of(crate)
    words = ["--crate-name", crate.name, "src/main.rt", "--extern", f"std={kit}/rlibs/std.rlib"]
    words += ["-L", f"dependency={kit}/rlibs"]
    for name in direct:
        words += ["--extern", f"{name}={below.get(name, kit / 'rlibs' / f'{name}.rlib')}"]
    for rlib in below.values():
        words += ["-L", f"dependency={rlib.parent}"]
    words += ["--antt-project", f"{kit}/rattle/logic/antt-project.json", "--logic-built", f"{kit}/logic_built"]
    words += ["--links", f"{crate.name}=", "--toolchain", f"{view}/toolchain", "--backend", "llvm"]
    program, made = room / crate.name, room / f"{crate.name}.o"
    status = call([kit / "bin/rattle", "build", *words, "-o", made], crate)
    link: list[str | Path] = ["--target", "x86_64-unknown-linux-gnu", "--toolchain", kit / "toolchain", "-o", program, made]
    status = status or call([kit / "bin/rattle-link", *link, kit / "c/libos_c.a", kit / "c/liblibc_c.a"], crate)
    shutil.rmtree(view)
    if status or not kept.is_file():
        sys.exit(f"page: {crate.name} could not be built from the libraries that `rt ci` left")
    return program


def unproved_module(crate: Path, room: Path) -> Path:
    """The module of the program that `rt try` builds, without proofs."""
    kept = room / "unproved.bc"
    built_with_view("try", crate, room, kept)
    return kept


def built_with_view(verb: str, crate: Path, room: Path, kept: Path, stamp: Path | None = None) -> None:
    """Calls rt's verb, `run` or `try`, with the view of the kit. Where a stamp would spare it the build, that goes."""
    view = room / "kit"
    shutil.rmtree(view, ignore_errors=True)
    kept.unlink(missing_ok=True)
    view_of(kit_folder(), view, kept)
    if stamp:
        stamp.unlink()
    call([view / "bin/rt", verb], crate)
    shutil.rmtree(view)
    if not kept.is_file():
        sys.exit(f"page: `rt {verb}` in {crate} handed no module to clang")
