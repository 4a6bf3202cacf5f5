"""Makes a module with an ordinary memory, of 32-bit addresses, of one with a 64-bit memory and table.

Types, locals, globals, exports and all arithmetic stay as they are: an address stays 64 bits wide up to the instruction
that uses it, and is cut to 32 bits there. With `is_checked` an address of 2^32 or more is a trap, as it was before;
without, it is taken modulo 2^32. What the pass does not know it refuses: imports, a second memory or table, and
instructions that are not named here."""

from dataclasses import dataclass, field

I32, I64, F32, F64, V128 = 0x7F, 0x7E, 0x7D, 0x7C, 0x7B
CUSTOM, TYPES, IMPORTS, FUNCTIONS, TABLES, MEMORIES, GLOBALS = range(7)
EXPORTS, START, ELEMENTS, CODE, DATA, DATA_COUNT = range(7, 13)
BLOCK, LOOP, IF, ELSE, END, BRANCH, BRANCH_IF, BRANCH_TABLE = 0x02, 0x03, 0x04, 0x05, 0x0B, 0x0C, 0x0D, 0x0E
CALL, CALL_INDIRECT = 0x10, 0x11
GET, SET, TEE, CONST32, CONST64, CONST_F32, CONST_F64 = 0x20, 0x21, 0x22, 0x41, 0x42, 0x43, 0x44
MEMORY_SIZE, MEMORY_GROW, BULK, VECTOR = 0x3F, 0x40, 0xFC, 0xFD

# What follows the byte of an instruction that has nothing to do with an address.
ALONE = {0x00, 0x01, ELSE, END, 0x0F, 0x1A, 0x1B, *range(0x45, 0xC5)}
WITH_NUMBER = {BRANCH, BRANCH_IF, CALL, *range(0x20, 0x25)}
WITH_SIGNED = {BLOCK, LOOP, IF, CONST32, CONST64}
WITH_BYTES = {CONST_F32: 4, CONST_F64: 8}

LOADS = range(0x28, 0x36)
STORES = {0x36: I32, 0x37: I64, 0x38: F32, 0x39: F64, 0x3A: I32, 0x3B: I32, 0x3C: I64, 0x3D: I64, 0x3E: I64}
CONVERSIONS, MEMORY_COPY, MEMORY_FILL = range(8), 10, 11
VECTOR_LOADS, VECTOR_STORE, VECTOR_LANES = {*range(11), 92, 93}, 11, range(84, 92)
VECTOR_BYTES = {12: 16, 13: 16, **dict.fromkeys(range(21, 35), 1)}
MOST_VECTOR = 0xFF

WRAP, EXTEND_SIGNED, EXTEND = b"\xa7", b"\xac", b"\xad"
# i64.const 32; i64.shr_u; i32.wrap_i64; if; unreachable; end
TRAP_IF_WIDE = (b"\x42\x20", b"\x88", WRAP, b"\x04\x40", b"\x00", b"\x0b")
MOST_PAGES, MOST_ENTRIES, PAGES_IN_4_GIB = 1 << 15, 10_000_000, 1 << 16


class Refused(Exception):
    """What the pass does not know."""


def unsigned(value: int) -> bytes:
    """A number as unsigned LEB128."""
    made = bytearray()
    while value >= 128:
        made.append(value & 127 | 128)
        value >>= 7
    return bytes([*made, value])


def signed(value: int) -> bytes:
    """A number as signed LEB128."""
    made = bytearray()
    while not -64 <= value < 64:
        made.append(value & 127 | 128)
        value >>= 7
    return bytes([*made, value & 127])


class Reader:
    """Reads bytes up to an end."""

    def __init__(self, data: bytes, at: int, end: int) -> None:
        self.data, self.at, self.end = data, at, end

    def take(self, count: int) -> bytes:
        """So many bytes."""
        if self.at + count > self.end:
            raise Refused("a part that ends too early")
        self.at += count
        return self.data[self.at - count : self.at]

    def byte(self) -> int:
        """One byte."""
        return self.take(1)[0]

    def unsigned(self) -> int:
        """A number in unsigned LEB128."""
        value = shift = 0
        while True:
            one = self.byte()
            value |= (one & 127) << shift
            shift += 7
            if one < 128:
                return value

    def signed(self) -> int:
        """A number in signed LEB128."""
        value = shift = 0
        while True:
            one = self.byte()
            value |= (one & 127) << shift
            shift += 7
            if one < 128:
                return value - (1 << shift) if one & 64 else value

    def part(self) -> "Reader":
        """What a length before it makes a part of its own."""
        length = self.unsigned()
        self.take(length)
        return Reader(self.data, self.at - length, self.at)

    def rest(self) -> bytes:
        """All up to the end."""
        return self.take(self.end - self.at)


@dataclass
class Function:
    """One function as it is rewritten: an instruction of `out` is one of WebAssembly."""

    code: Reader
    locals: int
    groups: list[tuple[int, int]]
    is_checked: bool
    out: list[bytes] = field(default_factory=list)
    own: dict[tuple[int, int], int] = field(default_factory=dict)

    def own_local(self, kind: int, number: int = 0) -> bytes:
        """The index of a local of the pass's own, one to each kind and number."""
        if (kind, number) not in self.own:
            self.own[kind, number] = self.locals + len(self.own)
            self.groups.append((1, kind))
        return unsigned(self.own[kind, number])

    def emit(self, *instructions: bytes) -> None:
        self.out.extend(instructions)

    def cut(self) -> list[bytes]:
        """Cuts the 64 bits on top of the stack to 32; of the checked form it is a trap where more bits are set."""
        if not self.is_checked:
            return [WRAP]
        own = self.own_local(I64, 3)
        return [bytes([TEE]) + own, *TRAP_IF_WIDE, bytes([GET]) + own, WRAP]

    def cut_below(self, kind: int) -> None:
        """Cuts the address below the value of a kind on top of the stack. A value that one instruction put there, which
        reads no stack, comes after the cut; another waits in a local."""
        if self.out[-1][0] in (GET, CONST32, CONST64, CONST_F32, CONST_F64):
            value = self.out.pop()
            self.emit(*self.cut(), value)
        else:
            own = self.own_local(kind)
            self.emit(bytes([SET]) + own, *self.cut(), bytes([GET]) + own)

    def place(self) -> bytes:
        """The alignment and the offset of an access."""
        align, offset = self.code.unsigned(), self.code.unsigned()
        if align > 4 or offset >= 1 << 32:
            raise Refused(f"alignment {align} or offset {offset}")
        return unsigned(align) + unsigned(offset)

    def rewritten(self) -> bytes:
        """The whole function: its length, its locals and its instructions."""
        while self.code.at < self.code.end:
            self.instruction()
        if self.out[-1][0] != END:
            raise Refused("a function that does not end where it should")
        groups = b"".join(unsigned(count) + bytes([kind]) for count, kind in self.groups)
        body = unsigned(len(self.groups)) + groups + b"".join(self.out)
        return unsigned(len(body)) + body

    def instruction(self) -> None:
        """One instruction."""
        start, op = self.code.at, self.code.byte()
        if op in LOADS:
            self.emit(*self.cut(), bytes([op]) + self.place())
        elif op in STORES:
            self.cut_below(STORES[op])
            self.emit(bytes([op]) + self.place())
        elif op == CALL_INDIRECT:
            kind = self.code.unsigned()
            self.only_first()
            self.emit(*self.cut(), bytes([op]) + unsigned(kind) + b"\0")
        elif op == MEMORY_SIZE:
            self.only_first()
            self.emit(bytes([op, 0]), EXTEND)
        elif op == MEMORY_GROW:
            self.only_first()
            self.grow()
        elif op == BULK:
            self.bulk()
        elif op == VECTOR:
            self.vector()
        else:
            self.skip(op)
            self.emit(self.code.data[start : self.code.at])

    def only_first(self) -> None:
        """Reads the number of a memory or table, which has to be that of the only one."""
        if self.code.unsigned():
            raise Refused("a second memory or table")

    def grow(self) -> None:
        """memory.grow: more pages than any 32-bit memory has are not to be had, and -1 stays -1."""
        own = self.own_local(I64, 3)
        self.emit(bytes([TEE]) + own, bytes([CONST64]) + signed(PAGES_IN_4_GIB), b"\x56")  # i64.gt_u
        self.emit(bytes([IF, I64]), bytes([CONST64]) + signed(-1), bytes([ELSE]))
        self.emit(bytes([GET]) + own, WRAP, bytes([MEMORY_GROW, 0]), EXTEND_SIGNED, bytes([END]))

    def bulk(self) -> None:
        """An instruction of the prefix for conversions and whole parts of the memory."""
        op = self.code.unsigned()
        name = bytes([BULK]) + unsigned(op)
        if op in CONVERSIONS:
            self.emit(name)
        elif op in (MEMORY_COPY, MEMORY_FILL):
            memories = 2 if op == MEMORY_COPY else 1
            for _ in range(memories):
                self.only_first()
            kind = I64 if op == MEMORY_COPY else I32  # (of the middle operand: from where, or which byte)
            length, middle = self.own_local(I64, 1), self.own_local(kind, 2)
            self.emit(bytes([SET]) + length, bytes([SET]) + middle, *self.cut(), bytes([GET]) + middle)
            self.emit(*(self.cut() if op == MEMORY_COPY else []), bytes([GET]) + length, *self.cut())
            self.emit(name + bytes(memories))
        else:
            raise Refused(f"instruction 0xFC {op}")

    def vector(self) -> None:
        """An instruction of the prefix for 128 bits."""
        op = self.code.unsigned()
        name = bytes([VECTOR]) + unsigned(op)
        if op in VECTOR_LOADS:
            self.emit(*self.cut(), name + self.place())
        elif op == VECTOR_STORE or op in VECTOR_LANES:
            own = self.own_local(V128)
            self.emit(bytes([SET]) + own, *self.cut(), bytes([GET]) + own)
            self.emit(name + self.place() + (b"" if op == VECTOR_STORE else self.code.take(1)))
        elif op <= MOST_VECTOR:
            self.emit(name + self.code.take(VECTOR_BYTES.get(op, 0)))
        else:
            raise Refused(f"instruction 0xFD {op}")

    def skip(self, op: int) -> None:
        """Reads what follows the byte of an instruction that has nothing to do with an address."""
        if op in WITH_NUMBER:
            self.code.unsigned()
        elif op in WITH_SIGNED:
            self.code.signed()
        elif op in WITH_BYTES:
            self.code.take(WITH_BYTES[op])
        elif op == BRANCH_TABLE:
            for _ in range(self.code.unsigned() + 1):
                self.code.unsigned()
        elif op not in ALONE:
            raise Refused(f"instruction 0x{op:02X}")


def limits(read: Reader, most: int) -> bytes:
    """The limits of a 64-bit memory or table that has a greatest size, as those of a 32-bit one of at most so much."""
    if read.byte() != 5:
        raise Refused("a memory or table that is not 64-bit with a greatest size")
    least, had = read.unsigned(), read.unsigned()
    if least > most:
        raise Refused(f"a memory or table that begins with {least}")
    return b"\x01" + unsigned(least) + unsigned(min(most, had))


def start_of(read: Reader) -> bytes:
    """Where a segment goes: its number, of the only memory or table, and one constant."""
    if read.unsigned():
        raise Refused("a segment that is not one of the first memory or table, at a place")
    if read.byte() != CONST64:
        raise Refused("a segment whose place is no constant")
    at = read.signed()
    if not 0 <= at < 1 << 31 or read.byte() != END:
        raise Refused(f"a segment at {at}")
    return b"\0" + bytes([CONST32]) + signed(at) + bytes([END])


def element_segment(read: Reader) -> bytes:
    """A segment of the table."""
    start, count = start_of(read), read.unsigned()
    return start + unsigned(count) + b"".join(unsigned(read.unsigned()) for _ in range(count))


def data_segment(read: Reader) -> bytes:
    """A segment of the memory."""
    start, data = start_of(read), read.part().rest()
    return start + unsigned(len(data)) + data


def parameter_counts(read: Reader) -> list[int]:
    """How many parameters the functions of each type have."""
    counts = []
    for _ in range(read.unsigned()):
        if read.byte() != 0x60:
            raise Refused("a type that is no function's")
        counts.append(len(read.part().rest()))
        read.part()
    return counts


class Module:
    """A module as it is rewritten, section by section."""

    def __init__(self, most_pages: int, is_checked: bool) -> None:
        self.most_pages, self.is_checked = most_pages, is_checked
        self.parameters: list[int] = []  # (of each type)
        self.kinds: list[int] = []  # (the type of each function)

    def section(self, kind: int, read: Reader) -> bytes:
        """What stands in a section of the module with 32-bit memory and table."""
        if kind in (TYPES, FUNCTIONS):
            start = read.at
            if kind == TYPES:
                self.parameters = parameter_counts(read)
            else:
                self.kinds = [read.unsigned() for _ in range(read.unsigned())]
            return read.data[start : read.at]
        if kind in (CUSTOM, GLOBALS, EXPORTS, START, DATA_COUNT):
            return read.rest()
        if kind not in (TABLES, MEMORIES, ELEMENTS, CODE, DATA):
            raise Refused("imports" if kind == IMPORTS else f"section {kind}")
        count = read.unsigned()
        if kind in (TABLES, MEMORIES) and count > 1:
            raise Refused("a second memory or table")
        return unsigned(count) + b"".join(self.entry(kind, number, read) for number in range(count))

    def entry(self, kind: int, number: int, read: Reader) -> bytes:
        """One entry of a section that speaks of addresses."""
        if kind == TABLES:
            return read.take(1) + limits(read, MOST_ENTRIES)
        if kind == MEMORIES:
            return limits(read, self.most_pages)
        if kind == ELEMENTS:
            return element_segment(read)
        return data_segment(read) if kind == DATA else self.function(number, read.part())

    def function(self, number: int, code: Reader) -> bytes:
        """The code of a function."""
        groups = [(code.unsigned(), code.byte()) for _ in range(code.unsigned())]
        count = self.parameters[self.kinds[number]] + sum(many for many, _ in groups)
        return Function(code, count, groups, self.is_checked).rewritten()


def narrowed(wasm: bytes, is_checked: bool = False, most_pages: int = MOST_PAGES) -> bytes:
    """The module with a 32-bit memory of at most so many pages of 64 KiB."""
    read, made, module = Reader(wasm, 0, len(wasm)), bytearray(wasm[:8]), Module(most_pages, is_checked)
    if read.take(8) != b"\0asm\x01\0\0\0":
        raise Refused("bytes that are no module")
    while read.at < read.end:
        kind, part = read.byte(), read.part()
        new = module.section(kind, part)
        if part.at != part.end:
            raise Refused(f"section {kind} does not end where it should")
        made += bytes([kind]) + unsigned(len(new)) + new
    return bytes(made)
