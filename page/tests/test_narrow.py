"""The pass to 32-bit addresses: small modules, what it refuses, and the page's own module by another parser's text."""

import json
import re
import shutil
import subprocess
import sys
import tempfile
import unittest
from collections.abc import Iterator, Sequence
from pathlib import Path
from typing import Any

from common import HERE, PAGE

sys.path.insert(0, str(HERE.parent))
import narrow
from narrow import Refused, signed, unsigned

MODULE, WIDE = PAGE.with_suffix(".wasm"), PAGE.parent / "module/wide.wasm"
WIDE_MEMORY = b"\x01\x05\x01\x02"  # (one memory, 64-bit, of 1 page and at most 2)
ADDRESSES = [8, 65528, 65529, (1 << 32) + 8, -8, (1 << 32) - 8]

# Calls the functions of a module, each [name, numbers]; tells the value, or that it trapped.
CALLS = """
const { exports } = new WebAssembly.Instance(new WebAssembly.Module(require('fs').readFileSync(process.argv[1])));
const told = JSON.parse(process.argv[2]).map(([name, ...values]) => {
  try { return String(exports[name](...values.map(it => typeof it === 'string' ? BigInt(it) : it))); }
  catch (fault) { return fault instanceof WebAssembly.RuntimeError ? 'trap' : String(fault); }
});
console.log(JSON.stringify(told));
"""

SMALL = """(module
  (memory i64 1 2)
  (func (export "put") (param i64 i64) local.get 0 local.get 1 i64.store offset=0)
  (func (export "put_sum") (param i64 i64) local.get 0 local.get 1 i64.const 1 i64.add i64.store)
  (func (export "put_byte") (param i64) local.get 0 i32.const 513 i32.store8)
  (func (export "put_real") (param i64) local.get 0 f64.const 2.5 f64.store)
  (func (export "real") (param i64) (result f64) local.get 0 f64.load)
  (func (export "at") (param i64) (result i64) local.get 0 i64.load)
  (func (export "beyond") (param i64) (result i64) local.get 0 i64.load offset=65535)
  (func (export "copy") (param i64 i64 i64) local.get 0 local.get 1 local.get 2 memory.copy)
  (func (export "fill") (param i64 i32 i64) local.get 0 local.get 1 local.get 2 memory.fill)
  (func (export "size") (result i64) memory.size)
  (func (export "grow") (param i64) (result i64) local.get 0 memory.grow)
  (func (export "lanes") (param i64 i64) (result i64)
    local.get 0 (i64x2.splat (local.get 1)) v128.store
    local.get 0 local.get 0 v128.load v128.load32_lane offset=8 3
    i64x2.extract_lane 1)
  (func (export "choose") (param i64) (result i64)
    (block (block (block (br_table 0 1 2 (i32.wrap_i64 (local.get 0))))
      (return (i64.const 10))) (return (i64.const 11)))
    (i64.trunc_sat_f64_s (f64.const -7.5)))
  (data (i64.const 16) "\\2a\\00\\00\\00\\00\\00\\00\\00"))
"""


def section(kind: int, content: bytes) -> bytes:
    return bytes([kind]) + unsigned(len(content)) + content


def by_table() -> bytes:
    """A module with a 64-bit table: `call` calls entry 0 or 1 of it, which answer 7 and 9."""
    types = b"\x02\x60\x00\x01\x7e\x60\x01\x7e\x01\x7e"
    bodies = [b"\x00\x42\x07\x0b", b"\x00\x42\x09\x0b", b"\x00\x20\x00\x11\x00\x00\x0b"]
    code = unsigned(len(bodies)) + b"".join(unsigned(len(it)) + it for it in bodies)
    parts = [
        section(1, types),
        section(3, b"\x03\x00\x00\x01"),
        section(4, b"\x01\x70\x05\x02\x02"),
        section(5, WIDE_MEMORY),
        section(7, b"\x01\x04call\x00\x02"),
        section(9, b"\x01\x00\x42\x00\x0b\x02\x00\x01"),
        section(10, code),
    ]
    return b"\0asm\x01\0\0\0" + b"".join(parts)


@unittest.skipUnless(shutil.which("node"), "no node")
class Small(unittest.TestCase):
    """Small modules, in both forms."""

    def setUp(self) -> None:
        self.room = Path(self.enterContext(tempfile.TemporaryDirectory(prefix="course-match-")))

    def called(self, wasm: bytes, calls: Sequence[Sequence[object]]) -> list[str]:
        """What the module answers to these calls, one after the other."""
        file = self.room / "small.wasm"
        file.write_bytes(wasm)
        words = [
            [name, *(str(it) if isinstance(it, int) and name != "fill" else it for it in of)] for name, *of in calls
        ]
        ran = subprocess.run(["node", "-e", CALLS, file, json.dumps(words)], check=True, capture_output=True, text=True)
        return json.loads(ran.stdout)

    def wide(self) -> bytes:
        """The small module with its 64-bit memory."""
        source, wasm = self.room / "small.wat", self.room / "wide.wasm"
        source.write_text(SMALL)
        subprocess.run(["wat2wasm", "--enable-memory64", source, "-o", wasm], check=True)
        return wasm.read_bytes()

    @unittest.skipUnless(shutil.which("wat2wasm"), "no wabt")
    def test_each_access_has_its_address(self) -> None:
        calls: list[tuple[list[object], str]] = [
            (["at", 16], "42"),
            (["put", 8, 41], "undefined"), (["at", 8], "41"), (["put_sum", 8, 41], "undefined"), (["at", 8], "42"),
            (["put_byte", 9], "undefined"), (["at", 8], str(42 + 256)),
            (["put_real", 24], "undefined"), (["real", 24], "2.5"),
            (["put", 65528, 5], "undefined"), (["at", 65529], "trap"), (["at", -8], "trap"), (["put", -8, 1], "trap"),
            (["beyond", 0], "trap"), (["beyond", -65535], "trap"),
            (["copy", 100, 8, 8], "undefined"), (["at", 100], str(42 + 256)), (["copy", 65530, 8, 8], "trap"),
            (["fill", "200", 7, "8"], "undefined"), (["at", 200], str(0x0707070707070707)),
            (["lanes", 32, (3 << 32) + 1], str((1 << 32) + 1)),
            (["choose", 0], "10"), (["choose", 1], "11"), (["choose", 2], "-7"), (["choose", 9], "-7"),
            (["size"], "1"), (["grow", 1 << 32], "-1"), (["grow", -1], "-1"), (["grow", 65536], "-1"),
            (["grow", 1], "1"), (["grow", 1], "-1"), (["size"], "2"), (["beyond", 0], "0"),
        ]  # fmt: skip
        for is_checked in (False, True):
            told = self.called(narrow.narrowed(self.wide(), is_checked), [it for it, _ in calls])
            for (call, expected), answer in zip(calls, told, strict=True):
                self.assertEqual(expected, answer, (is_checked, call))

    @unittest.skipUnless(shutil.which("wat2wasm"), "no wabt")
    def test_address_past_the_end_traps_where_it_is_checked_and_else_is_cut(self) -> None:
        past = 1 << 32
        calls = [
            ["at", past + 16], ["put", past + 8, 1], ["put_sum", past + 8, 1],
            ["copy", past, 0, 8], ["copy", 0, past, 8], ["copy", 0, 0, past],
            ["fill", str(past), 1, "0"], ["fill", "0", 1, str(past)], ["lanes", past + 32, 1],
        ]  # fmt: skip
        self.assertEqual(["trap"] * len(calls), self.called(narrow.narrowed(self.wide(), True), calls))
        self.assertNotIn("trap", self.called(narrow.narrowed(self.wide()), calls))

    def test_functions_are_called_by_the_table(self) -> None:
        for is_checked in (False, True):
            told = self.called(narrow.narrowed(by_table(), is_checked), [["call", 0], ["call", 1], ["call", 2]])
            self.assertEqual(["7", "9", "trap"], told)
        self.assertEqual(["trap"], self.called(narrow.narrowed(by_table(), True), [["call", 1 << 32]]))

    def test_what_is_not_known_is_refused(self) -> None:
        wide, head = by_table(), b"\0asm\x01\0\0\0"
        types, body = section(1, b"\x01\x60\x00\x00") + section(3, b"\x01\x00"), b"\0asm\x01\0\0\0"
        for words, wasm in (
            ("no module", b"\0asm\x02\0\0\0"),
            ("imports", head + section(2, b"\0")),
            ("section 13", head + section(13, b"\0")),
            ("ends too early", wide[:-1]),
            ("not 64-bit", head + section(5, b"\x01\x01\x01\x02")),
            ("not 64-bit", head + section(5, b"\x01\x04\x01")),
            ("second memory or table", head + section(5, b"\x02" + WIDE_MEMORY[1:] * 2)),
            ("begins with 32769", head + section(5, b"\x01\x05" + unsigned(32769) + unsigned(32769))),
            ("a segment at -1", head + section(11, b"\x01\x00\x42" + signed(-1) + b"\x0b\x00")),
            ("no constant", head + section(11, b"\x01\x00\x23\x00\x0b\x00")),
            ("not one of the first", head + section(11, b"\x01\x01\x00")),
            ("does not end", head + section(5, WIDE_MEMORY + b"\0")),
            ("does not end", body + types + section(10, b"\x01\x02\x00\x01")),
            ("instruction 0xD0", body + types + section(10, b"\x01\x04\x00\xd0\x70\x0b")),
            ("instruction 0xFC 8", body + types + section(10, b"\x01\x04\x00\xfc\x08\x0b")),
            ("instruction 0xFD 256", body + types + section(10, b"\x01\x05\x00\xfd\x80\x02\x0b")),
            (
                "offset 4294967296",
                body + types + section(10, b"\x01\x0a\x00\x28\x02" + unsigned(1 << 32) + b"\x1a\x0b"),
            ),
        ):
            with self.subTest(words=words), self.assertRaisesRegex(Refused, re.escape(words)):
                narrow.narrowed(wasm)


# The derivation anew, from wabt's text: (SET, kind, role) and the like stand for a local of the pass's own.
WRAPPED = "i32.wrap_i64"
LANE = re.compile(r"v128\.(load\d+_lane|store(\d+_lane)?)")
LOAD, STORE = re.compile(r"(?:i32|i64|f32|f64|v128)\.load"), re.compile(r"(i32|i64|f32|f64)\.store")
READS_NO_STACK = re.compile(r"local\.get |(i32|i64|f32|f64)\.const ")
GROWN = [
    ("tee", "i64", 3), "i64.const 65536", "i64.gt_u", "if (result i64)", "i64.const -1", "else",
    ("get", "i64", 3), WRAPPED, "memory.grow", "i64.extend_i32_s", "end",
]  # fmt: skip


def expected(lines: list[str]) -> list[Any]:
    """The lines of a function of the 32-bit module, from those of the 64-bit one."""
    want: list[Any] = []
    for line in lines:
        op = line.split(" ")[0]
        if LANE.fullmatch(op):
            want += [("set", "v128", 0), WRAPPED, ("get", "v128", 0), line]
        elif LOAD.match(op):
            want += [WRAPPED, line]
        elif found := STORE.match(op):
            if isinstance(want[-1], str) and READS_NO_STACK.match(want[-1]):
                want[-1:] = [WRAPPED, want[-1], line]
            else:
                want += [("set", found[1], 0), WRAPPED, ("get", found[1], 0), line]
        elif op in ("memory.copy", "memory.fill"):
            middle = "i64" if op == "memory.copy" else "i32"
            want += [("set", "i64", 1), ("set", middle, 2), WRAPPED, ("get", middle, 2)]
            want += [*([WRAPPED] if middle == "i64" else []), ("get", "i64", 1), WRAPPED, line]
        elif op == "memory.size":
            want += [line, "i64.extend_i32_u"]
        elif op == "memory.grow":
            want += GROWN
        elif op == "call_indirect":
            want += [WRAPPED, line]
        elif op in ("memory.init", "table.get", "table.set"):
            raise AssertionError(f"the derivation does not know {op}")
        else:
            want.append(line)
    return want


def functions(file: Path) -> Iterator[tuple[list[str], list[str]]]:
    """Of each function in wabt's text the kinds of its parameters and locals, and its instructions; first what stands
    outside of all functions."""
    outside, found = [], []
    for line in file.read_text().splitlines():
        text = re.sub(r" +;; label = @\d+| +\(;@?\d+;\)", "", line.strip())
        if line.startswith("  (func "):
            found.append([text])
        elif found and line.startswith("    "):
            found[-1].append(text)
        else:
            outside.append(text)
    yield [], outside
    for head, *rest in found:
        heads = [head, *(rest[:1] if rest and rest[0].startswith("(local") else [])]
        kinds = [
            it for text in heads for many in re.findall(r"\((?:param|local) ([^)]*)\)", text) for it in many.split()
        ]
        lines = rest[len(heads) - 1 :]
        yield kinds, [*lines[:-1], *(it.removesuffix(")") for it in lines[-1:])]


def with_small_table(wasm: bytes) -> bytes:
    """The module with its table, of which wabt reads no 64-bit one, made 32-bit, and nothing else."""
    table = wasm.index(bytes.fromhex("70 05"))
    return wasm[: table + 1] + b"\x01" + wasm[table + 2 :]


@unittest.skipUnless(shutil.which("wasm2wat") and WIDE.is_file() and MODULE.is_file(), "no wabt, or no page is built")
class SecondDerivation(unittest.TestCase):
    """Each line of wabt's text of the one module is that of the other, but for the cuts, which the text gives anew."""

    def text(self, wasm: bytes, name: str) -> Path:
        binary, text = self.room / f"{name}.wasm", self.room / f"{name}.wat"
        binary.write_bytes(wasm)
        subprocess.run(["wasm2wat", "--enable-memory64", "--no-check", binary, "-o", text], check=True)
        return text

    def setUp(self) -> None:
        self.room = Path(self.enterContext(tempfile.TemporaryDirectory(prefix="course-match-")))

    def test_each_function(self) -> None:
        wide = functions(self.text(with_small_table(WIDE.read_bytes()), "wide"))
        small = functions(self.text(MODULE.read_bytes(), "small"))
        (_, outside), (_, outside_small) = next(wide), next(small)
        differ = [(one, other) for one, other in zip(outside, outside_small, strict=True) if one != other]
        for one, other in differ:
            self.assertRegex(one, r"^\((memory i64|data \(i64|elem \(i64)")
            small_memory = re.sub(r"^\(memory i64 (\d+) \d+\)", r"(memory \1 32768)", one)
            self.assertEqual(small_memory.replace("(i64.const", "(i32.const", 1), other)
        count = cuts = 0
        for (kinds, lines), (kinds_small, lines_small) in zip(wide, small, strict=True):
            self.assertEqual(kinds, kinds_small[: len(kinds)])
            cuts += self.same(expected(lines), lines_small, kinds, kinds_small)
            count += 1
        print(f"page: {count} functions by wabt's text, {cuts} lines of the pass")

    def same(self, want: list[Any], lines: list[str], kinds: list[str], kinds_small: list[str]) -> int:
        """Compares a function's lines; each local of the pass's own is beyond the function's, and has one use."""
        self.assertEqual(len(want), len(lines), lines[:3])
        numbers: dict[tuple[Any, ...], int] = {}
        for due, line in zip(want, lines, strict=True):
            if isinstance(due, str):
                self.assertEqual(due, line)
                continue
            verb, *use = due
            found = re.fullmatch(rf"local\.{verb} (\d+)", line)
            assert found, (due, line)
            number = int(found[1])
            self.assertGreaterEqual(number, len(kinds))
            self.assertEqual(use[0], kinds_small[number])
            self.assertEqual(number, numbers.setdefault(tuple(use), number))
        self.assertEqual(len(set(numbers.values())), len(numbers))
        return sum(1 for it in want if not isinstance(it, str) or it == WRAPPED)


if __name__ == "__main__":
    unittest.main()
