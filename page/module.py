"""Makes the WebAssembly module out of the LLVM module of the program.

Of the program's LLVM text these change: the target's triple and data layout; attributes of functions that speak of
x86-64; the names `main` and that of the question what the processor has; and two instructions of x86-64, of which the
one pauses, and is left out, and the other shuffles sixteen bytes, and is written by WebAssembly's own. `shim.c` is all
that is linked to it. The module has 64-bit addresses; `narrow.py` makes one of 32-bit addresses of it.

Of a program without proofs the looks at conditions are left out that `rt try` adds, as `scripts/unproved` leaves them out:
with them a check takes half as long again, and what is measured of the page would tell nothing of the proved one."""

import re
import subprocess
import sys
from pathlib import Path

TARGET = [
    "--target=wasm64-unknown-unknown",
    "--no-default-config",
    "-fno-crash-diagnostics",
    "-ffunction-sections",
    "-fdata-sections",
]
# The processor and the passes of LLVM are those with which the kit compiles for this target and for x86-64.
PROGRAM = "-mcpu=lime1 -mllvm -expand-div-rem-bits=64 -mllvm -expand-fp-convert-bits=64 -mllvm -trap-unreachable"
PROGRAM += " -mllvm -disable-machine-licm -mllvm -disable-postra-machine-licm -mllvm -sink-common-insts=false -O3"
SHIM = "-mcpu=lime1 -O2 -ffreestanding -nostdinc -fno-builtin -Wall -Werror -Wno-incompatible-library-redeclaration"
LINK = "-mwasm64 --no-entry --gc-sections --stack-first -z stack-size=8388608 --max-memory=8589934592 --strip-all"
OF_X86 = re.compile(r' sanitize_address|"frame-pointer"="all" ?|"probe-stack"="[^"]*" ?|"stack-probe-size"="[^"]*" ?')
PROCESSOR = re.compile(r'"target-cpu"="[^"]*"')
NO_ATTRIBUTE = re.compile(r"\{ +\}")
# What `rt try` adds: calls that look at conditions, or that stop where one fails.
LOOKS = ('call void @"rattle-llvm-checks::', "call void @llvm.trap()")
PAUSE = re.compile(r"\b(?:call|declare) void @llvm\.x86\.sse2\.pause\(\)")
SHUFFLE = "@llvm.x86.ssse3.pshuf.b.128("
NAMES = {
    "@main(": "@program_main(",
    "@__x86_get_cpuid_feature_leaf(": "@processor_features(",
    SHUFFLE: "@byte_shuffle(",
}
# Byte n of the answer is the byte at place n's lowest four bits, or 0 where the highest bit of place n is set.
# WebAssembly's own gives 0 for each place of 16 and more, so the three bits between are cleared.
SHUFFLE_HERE = """
declare <16 x i8> @llvm.wasm.swizzle(<16 x i8>, <16 x i8>)

define internal <16 x i8> @byte_shuffle(<16 x i8> %bytes, <16 x i8> %places)
    alwaysinline nounwind "target-cpu"="lime1" "target-features"="+simd128" {
  %within = and <16 x i8> %places, <MASK>
  %shuffled = call <16 x i8> @llvm.wasm.swizzle(<16 x i8> %bytes, <16 x i8> %within)
  ret <16 x i8> %shuffled
}
""".replace(
    "MASK", ", ".join(["i8 -113"] * 16)
)


def run(words: list[str | Path], given: str = "") -> str:
    """Runs a command, whose input this is, and stops where it fails; answers what it prints."""
    ran = subprocess.run(words, text=True, stdout=subprocess.PIPE, input=given, check=False)
    if ran.returncode:
        sys.exit(f"page: this failed: {' '.join(map(str, words))}")
    return ran.stdout


def is_look(line: str) -> bool:
    """Whether a line of a program's LLVM text is one of the looks that `rt try` adds."""
    return line.lstrip().startswith(LOOKS)


def data_layout(clang: Path) -> str:
    """The line of the target's data layout, as the kit's clang writes it."""
    text = run([clang, *TARGET, "-S", "-emit-llvm", "-x", "c", "-", "-o", "-"], "int x;")
    return next(line for line in text.splitlines() if line.startswith("target datalayout"))


def retargeted(line: str, layout: str) -> str:
    """A line of the program's LLVM text, for WebAssembly."""
    if line.startswith("target datalayout"):
        return layout
    if line.startswith("target triple"):
        return 'target triple = "wasm64-unknown-unknown"'
    if line.startswith("attributes "):
        line = PROCESSOR.sub('"target-cpu"="lime1" "target-features"="+simd128"', OF_X86.sub("", line))
        return NO_ATTRIBUTE.sub("{ nounwind }", line)
    if PAUSE.search(line) or line.startswith("declare ") and SHUFFLE in line:
        return ""
    for one, other in NAMES.items():
        line = line.replace(one, other)
    return line


def retarget(clang: Path, module: Path, text: Path, is_proved: bool) -> None:
    """Writes the LLVM text of the module, for WebAssembly; of one that is not proved without the looks at conditions."""
    layout, printed = data_layout(clang), text.with_suffix(".x86.ll")
    run(
        [
            clang,
            "--target=x86_64-unknown-linux-gnu",
            "-x",
            "ir",
            module,
            "-S",
            "-emit-llvm",
            "-Xclang",
            "-disable-llvm-passes",
            "-o",
            printed,
        ]
    )
    with open(printed, encoding="utf-8") as lines, open(text, "w", encoding="utf-8") as to:
        for number, line in enumerate(lines, 1):
            if not is_proved and is_look(line):
                continue
            line = retargeted(line.rstrip("\n"), layout)
            if "x86" in line:
                sys.exit(f"page: {printed}:{number} asks for x86: {line[:120]}")
            to.write(line + "\n")
        to.write(SHUFFLE_HERE)
    printed.unlink()


def make_module(clang: Path, module: Path, shim: Path, room: Path, is_proved: bool) -> Path:
    """Makes the WebAssembly module in the folder `room`; what it is made of goes again."""
    text, program, of_shim, wasm = (room / it for it in ("program.ll", "program.o", "shim.o", "course-match.wasm"))
    retarget(clang, module, text, is_proved)
    run([clang, *TARGET, *PROGRAM.split(), "-c", "-x", "ir", text, "-o", program])
    run([clang, *TARGET, *SHIM.split(), "-c", shim, "-o", of_shim])
    linker = room / "wasm-ld"  # (the kit's linker goes by the name that it is called)
    linker.unlink(missing_ok=True)
    linker.symlink_to(clang)
    run([linker, *LINK.split(), "-o", wasm, program, of_shim])
    for it in (text, program, of_shim, linker):
        it.unlink()
    return wasm
