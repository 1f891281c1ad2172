#!/usr/bin/env python3
"""Judges a certificate of a serial run: check_certificate.py IMAGE CERT.

It is written from docs/CERTIFICATES.md and the RISC-V unprivileged manual, with Python's standard library alone, and
shares no code with elide. It prints `certificate holds, serial Q out W` (status 0), `certificate fails N NAME at P`
(status 7), or `certificate fault N NAME at byte P` (status 2). An image that it cannot read ends it with status 2.
"""
import struct
import sys

FAULTS = "Short Magic Version Harts Stretch View Output Lines Tail".split()
DIFFERENCES = "View Output Memory".split()
MASK, LIMIT = 0xFFFFFFFF, 16_777_216


class Refused(Exception):
    """A line to print, and the status to end with."""


def bad(number, place):
    raise Refused(f"certificate fault {number} {FAULTS[number - 1]} at byte {place}", 2)


class Reader:
    """Fields of a file, from left to right."""

    def __init__(self, data):
        self.data, self.place = data, 0

    def take(self, count):
        if self.place + count > len(self.data):
            bad(1, len(self.data))
        self.place += count
        return self.data[self.place - count : self.place]

    def number(self):
        return struct.unpack("<I", self.take(4))[0]


def read_view(reader):
    at = reader.place
    words = struct.unpack("<32IBIBI", reader.take(138))
    flag, word, status, number = words[32:]
    if flag > 1 or (flag == 0 and word) or status > 2 or (status == 0 and number) or (status == 2 and number > 255):
        bad(6, at)
    return [words[0], [0, *words[1:32]], word if flag else None, (status, number)]


def read_certificate(data):
    """The harts, stretches, views, output and lines of a file, or its first fault."""
    reader = Reader(data)
    magic = reader.take(4)
    for place, letter in enumerate(b"ELCT"):
        if magic[place] != letter:
            bad(2, place)
    if reader.take(1)[0] != 1:
        bad(3, 4)
    harts = reader.take(1)[0]
    if not 1 <= harts <= 8:
        bad(4, 5)
    stretches, total, last = [], 0, None
    for _ in range(reader.number()):
        at = reader.place
        hart = reader.take(1)[0]
        if hart >= harts or hart == last:
            bad(5, at)
        count = reader.number()
        total += count
        if count == 0 or total > LIMIT:
            bad(5, at)
        stretches.append((hart, count))
        last = hart
    views = [read_view(reader) for _ in range(harts)]
    at = reader.place
    length = reader.number()
    if length > LIMIT:
        bad(7, at)
    output = reader.take(length)
    at = reader.place
    count = reader.number()
    if count > 262_144:
        bad(8, at)
    lines, before = {}, -1
    for _ in range(count):
        at = reader.place
        line = reader.number()
        if line <= before or line >= 1 << 26:
            bad(8, at)
        lines[line] = reader.take(64)
        before = line
    if reader.place < len(data):
        bad(9, reader.place)
    return harts, stretches, views, output, lines


def load(data, harts):
    """Base, memory, entry and code segments of a static 32-bit RISC-V image."""
    if data[:7] != b"\x7fELF\x01\x01\x01" or struct.unpack_from("<HHI", data, 16) != (2, 243, 1):
        raise Refused("no image of a static RV32 program", 2)
    entry, table = struct.unpack_from("<II", data, 24)
    count = struct.unpack_from("<H", data, 44)[0]
    headers = [struct.unpack_from("<8I", data, table + 32 * n) for n in range(count)]
    loaded = [h for h in headers if h[0] == 1 and h[5]]
    if not loaded:
        raise Refused("no segment is loaded", 2)
    base = min(h[2] for h in loaded) // 64 * 64
    top = -(-max(h[2] + h[5] for h in loaded) // 64) * 64
    memory = bytearray(top - base + 65536 * harts)
    code = []
    for _, offset, start, _, filed, size, flags, _ in loaded:
        memory[start - base : start - base + filed] = data[offset : offset + filed]
        if flags & 1:
            code.append((start, bytes(memory[start - base : start - base + size])))
    return base, memory, entry, code


def signed(value, bits=32):
    value &= (1 << bits) - 1
    return value - (1 << bits) if value >> (bits - 1) else value


class Trap(Exception):
    pass


def alu(op, variant, a, b):
    """The operation of OP and OP-IMM of this funct3; the variant is SUB or SRA."""
    if op == 0:
        return a - b if variant else a + b
    if op == 1:
        return a << (b & 31)
    if op == 2:
        return int(signed(a) < signed(b))
    if op == 3:
        return int(a < b)
    if op == 5:
        return (signed(a) if variant else a) >> (b & 31)
    return {4: a ^ b, 6: a | b, 7: a & b}[op]


def multiply(op, a, b):
    """The operation of the M extension of this funct3."""
    if op < 4:
        product = (a if op == 3 else signed(a)) * (signed(b) if op == 1 else b)
        return product >> 32 if op else product
    if b == 0:
        return MASK if op < 6 else a
    if op in (4, 6):
        a, b = signed(a), signed(b)
    quotient = abs(a) // abs(b) if (a < 0) == (b < 0) else -(abs(a) // abs(b))
    return quotient if op < 6 else a - quotient * b


AMOS = {
    1: lambda old, new: new, 0: lambda old, new: old + new, 4: lambda old, new: old ^ new, 12: lambda old, new: old & new,
    8: lambda old, new: old | new, 16: lambda old, new: min(old, new, key=signed), 20: lambda old, new: max(old, new, key=signed),
    24: min, 28: max,
}
BRANCHES = {
    0: lambda a, b: a == b, 1: lambda a, b: a != b, 4: lambda a, b: signed(a) < signed(b), 5: lambda a, b: signed(a) >= signed(b),
    6: lambda a, b: a < b, 7: lambda a, b: a >= b,
}


class Machine:
    """Harts on plain shared memory. A view is [pc, registers, reserved word, (status, number)]."""

    def __init__(self, image, harts):
        self.base, self.memory, entry, self.code = image
        self.output = bytearray()
        end = self.base + len(self.memory)
        self.views = [[entry, [0] * 32, None, (0, 0)] for _ in range(harts)]
        for hart, view in enumerate(self.views):
            view[1][10], view[1][11], view[1][2] = hart, harts, end - 65536 * hart

    def word(self, pc):
        for start, data in self.code:
            if start <= pc and pc + 4 <= start + len(data):
                return struct.unpack_from("<I", data, pc - start)[0]
        raise Trap(1)

    def reach(self, address, size, cause):
        if address % size:
            raise Trap(cause)
        if not self.base <= address <= self.base + len(self.memory) - size:
            raise Trap(cause + 1)
        return address - self.base

    def store(self, hart, address, size, value):
        place = address - self.base
        self.memory[place : place + size] = (value & ((1 << 8 * size) - 1)).to_bytes(size, "little")
        for view in self.views:
            if view[2] is not None and view[2] // 64 == address // 64:
                view[2] = None
        self.views[hart][2] = None

    def write_call(self, regs):
        if regs[10] not in (1, 2):
            return -9
        if regs[12] == 0:
            return 0
        start = regs[11] - self.base
        if not 0 <= start < len(self.memory):
            return -14
        if len(self.output) == LIMIT:
            return -28
        count = min(regs[12], 64 - regs[11] % 64, LIMIT - len(self.output))
        self.output += self.memory[start : start + count]
        return count

    def step(self, hart):
        view = self.views[hart]
        if view[3][0]:
            return
        try:
            self.run(hart, view, view[1], view[0])
        except Trap as trap:
            view[3] = (2, trap.args[0])

    def run(self, hart, view, regs, pc):
        word = self.word(pc)
        opcode, rd, op = word & 127, word >> 7 & 31, word >> 12 & 7
        a, b = regs[word >> 15 & 31], regs[word >> 20 & 31]
        top, following = word >> 25, pc + 4 & MASK
        offset, target, result = signed(word >> 20, 12), following, None
        if opcode == 0x37:
            result = word & 0xFFFFF000
        elif opcode == 0x17:
            result = pc + (word & 0xFFFFF000)
        elif opcode == 0x6F:
            jump = signed(word >> 31 << 20 | word & 0xFF000 | (word >> 20 & 1) << 11 | (word >> 21 & 1023) << 1, 21)
            target, result = pc + jump & MASK, following
        elif opcode == 0x67 and op == 0:
            target, result = a + offset & MASK & ~1, following
        elif opcode == 0x63 and op in BRANCHES:
            jump = signed(word >> 31 << 12 | (word >> 7 & 1) << 11 | (word >> 25 & 63) << 5 | (word >> 8 & 15) << 1, 13)
            target = pc + jump & MASK if BRANCHES[op](a, b) else following
        elif opcode == 0x03 and op in (0, 1, 2, 4, 5):
            size = 1 << (op & 3)
            place = self.reach(a + offset & MASK, size, 4)
            result = int.from_bytes(self.memory[place : place + size], "little")
            result = result if op & 4 else signed(result, 8 * size)
        elif opcode == 0x23 and op in (0, 1, 2):
            address = a + signed(top << 5 | rd, 12) & MASK
            self.reach(address, 1 << op, 6)
            self.store(hart, address, 1 << op, b)
            rd = 0
        elif opcode == 0x13 and (op not in (1, 5) or top == 0 or (op == 5 and top == 32)):
            result = alu(op, op == 5 and top == 32, a, offset & MASK)
        elif opcode == 0x33 and (top == 0 or (top == 32 and op in (0, 5))):
            result = alu(op, top == 32, a, b)
        elif opcode == 0x33 and top == 1:
            result = multiply(op, a, b)
        elif opcode == 0x0F and op == 0:
            pass
        elif word == 0x73:
            if regs[17] == 93:
                view[3] = (1, regs[10])
                return
            rd, result = 10, self.write_call(regs) if regs[17] == 64 else -38
        elif word == 0x100073:
            raise Trap(3)
        elif opcode == 0x2F and op == 2 and self.is_atomic(word):
            result = self.atomic(hart, view, word >> 27, a, b)
        else:
            raise Trap(2)
        if target % 4:
            raise Trap(0)
        if result is not None and rd:
            regs[rd] = result & MASK
        view[0] = target

    @staticmethod
    def is_atomic(word):
        return word >> 27 in AMOS or word >> 27 == 3 or (word >> 27 == 2 and word >> 20 & 31 == 0)

    def atomic(self, hart, view, kind, address, source):
        place = self.reach(address, 4, 4 if kind == 2 else 6)
        old = struct.unpack_from("<I", self.memory, place)[0]
        if kind == 2:
            view[2] = address
            return old
        if kind == 3:
            if view[2] != address:
                view[2] = None
                return 1
            self.store(hart, address, 4, source)
            return 0
        self.store(hart, address, 4, AMOS[kind](old, source) & MASK)
        return old


def differ(kind, place):
    raise Refused(f"certificate fails {kind} {DIFFERENCES[kind - 1]} at {place}", 7)


def judge(image, certificate):
    """The line of a certificate that holds; else the first difference is raised."""
    harts, stretches, views, output, lines = certificate
    image = load(image, harts)
    wanted = bytearray(image[1])
    machine = Machine(image, harts)
    for hart, count in stretches:
        for _ in range(count):
            if machine.views[hart][3][0]:
                break
            machine.step(hart)
    for hart in range(harts):
        if machine.views[hart] != views[hart]:
            differ(1, hart)
    if machine.output != output:
        shorter = min(len(machine.output), len(output))
        differ(2, next((n for n in range(shorter) if machine.output[n] != output[n]), shorter))
    first, count = machine.base // 64, len(wanted) // 64
    outside = [line for line in lines if not first <= line < first + count]
    for line, data in lines.items():
        if line not in outside:
            wanted[64 * (line - first) : 64 * (line - first) + 64] = data
    wrong = [first + n for n in range(count) if machine.memory[64 * n : 64 * n + 64] != wanted[64 * n : 64 * n + 64]]
    if wrong or outside:
        differ(3, min(wrong + outside))
    return f"certificate holds, serial {sum(count for _, count in stretches)} out {len(output)}"


def main():
    if len(sys.argv) != 3:
        print("usage: check_certificate.py IMAGE CERT", file=sys.stderr)
        return 2
    try:
        with open(sys.argv[1], "rb") as image, open(sys.argv[2], "rb") as certificate:
            print(judge(image.read(), read_certificate(certificate.read())))
        return 0
    except Refused as refused:
        print(refused.args[0])
        return refused.args[1]
    except (OSError, struct.error) as error:
        print(error, file=sys.stderr)
        return 2


if __name__ == "__main__":
    sys.exit(main())
