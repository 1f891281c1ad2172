#!/usr/bin/env python3
"""Says what elide answers to files that were changed, cut or joined.

    tools/hostile_files.py [FIRST COUNT]      prints the answers, as crates/hostile_files has to
    tools/hostile_files.py --built [COUNT]    gives the files to the built program, and measures it

A file is drawn from its number by SplitMix64. The readers of images and traces here are written from the ELF
specification and docs/MODEL.md; they share no code with elide. Instructions are those of check_certificate.py. Of an
accepted file all is foretold where it runs on one hart and no lock is elided; else it is said only that it ran.
"""
import hashlib
import os
import pathlib
import resource
import struct
import sys
import tempfile
import time

import check_certificate as flat

ROOT = pathlib.Path(__file__).resolve().parent.parent
DATA = ROOT / "crates/hostile_files/data"
IMAGES = ["worked.elf", "hello.elf", "table.elf", "counter.elf", "lock_word.elf", "overflow.elf"]
PLAYED = 2  # the first so many of them have no atomic instruction
TRACES = ["bare.trace", "worked.trace", "locks.trace"]
MASK = (1 << 64) - 1
IMAGE_FAULTS = """Short Magic Class ByteOrder Version FileKind Machine Flags Table Dynamic Segment Overlap TooWide
TooHigh Entry Empty""".split()
TRACE_FAULTS = "Short Magic Version Config Event Tail Outcome".split()
MODES = ["plain", "sle", "tlr"]


def draw(seed, place):
    """The number at a place of the sequence that a seed begins: SplitMix64."""
    state = seed + 0x9E3779B97F4A7C15 * (place + 1) & MASK
    state = (state ^ state >> 30) * 0xBF58476D1CE4E5B9 & MASK
    state = (state ^ state >> 27) * 0x94D049BB133111EB & MASK
    return state ^ state >> 31


# ---- the files


class Drawn:
    """What is drawn from a number: `places` of its sequence are used one after the other."""

    def __init__(self, number):
        self.number, self.place = number, 0

    def below(self, limit):
        self.place += 1
        return draw(self.number, self.place - 1) % limit


def changed(drawn, data, limit):
    """A file with one to four bytes written over, all below a limit."""
    file = bytearray(data)
    for _ in range(1 + drawn.below(4)):
        place = drawn.below(min(limit, len(data)))
        file[place] = drawn.below(256)
    return bytes(file)


def hostile(drawn, files, own, head):
    """A file made from one of the first `own` ones: changed anywhere, changed in its head, cut, or joined to another."""
    data = files[drawn.below(own)]
    way = drawn.below(8)
    if way < 4:
        return changed(drawn, data, len(data))
    if way < 6:
        return changed(drawn, data, head)
    if way == 6:
        return data[: drawn.below(len(data) + 1)]
    other = files[drawn.below(len(files))]
    front = data[: drawn.below(len(data) + 1)]
    return front + other[drawn.below(len(other) + 1) :]


class Case:
    """The files `a` and `t` of a number, and the words behind their names."""

    def __init__(self, number, images, traces):
        drawn = Drawn(number)
        self.is_run = drawn.below(2) == 0
        self.trace = b""
        if self.is_run:
            self.harts = 1 + drawn.below(8) if drawn.below(4) == 0 else 1
            self.mode = 0 if self.harts == 1 else drawn.below(3)
            self.steps = 1 + drawn.below(20000)
            self.image = hostile(drawn, images + traces, len(images), 116)
        else:
            self.image = images[drawn.below(PLAYED)]
            self.trace = hostile(drawn, traces + images, len(traces), 22)

    def words(self, image, trace):
        if not self.is_run:
            return ["replay", image, trace]
        return ["run", image, "--mode", MODES[self.mode], "--harts", str(self.harts), "--steps", str(self.steps)]


# ---- the readers


class Refused(Exception):
    """A line for standard error."""


def image_fault(number, place):
    raise Refused(f"image fault {number} {IMAGE_FAULTS[number - 1]} at byte {place}\n")


def check_image(data, harts):
    """Raises the first fault of an image file for so many harts, where it has one."""
    if len(data) < 52:
        image_fault(1, len(data))
    for place, wanted in enumerate(b"\x7fELF"):
        if data[place] != wanted:
            image_fault(2, place)
    for number, place in ((3, 4), (4, 5), (5, 6)):
        if data[place] != 1:
            image_fault(number, place)
    kind, machine, version, entry, table, _, flags, size, each, count = struct.unpack_from("<HHIIIIIHHH", data, 16)
    for number, wrong, place in (
        (5, version != 1, 20), (6, kind != 2, 16), (7, machine != 243, 18), (8, flags & 15, 36), (9, size != 52, 40),
        (9, count > 64, 44), (9, count and each != 32, 42), (9, table + 32 * count > len(data), 28),
    ):
        if wrong:
            image_fault(number, place)
    headers = [(table + 32 * n, struct.unpack_from("<8I", data, table + 32 * n)) for n in range(count)]
    for place, header in headers:
        if header[0] in (2, 3):
            image_fault(10, place)
    for place, (kind, offset, _, _, filed, size, _, _) in headers:
        if kind == 1 and filed > size:
            image_fault(11, place + 16)
        if kind == 1 and filed and offset + filed > len(data):
            image_fault(11, place + 4)
    check_segments([(place, header[2], header[5], header[6]) for place, header in headers if header[0] == 1 and header[5]],
                   entry, harts)


def check_segments(loaded, entry, harts):
    """The faults of segments by header, start, length and flags."""
    for index, (place, start, size, _) in enumerate(loaded):
        if any(start < other + length and other < start + size for _, other, length, _ in loaded[:index]):
            image_fault(12, place)
    if not loaded:
        image_fault(16, 44)
    base = min(start for _, start, _, _ in loaded) // 64 * 64
    end = -(-max(start + size for _, start, size, _ in loaded) // 64) * 64 + 65536 * harts
    if end - base > 16_777_216:
        image_fault(13, 28)
    if end > 0xFFFF0000:
        image_fault(14, 28)
    if entry % 4 or not any(flags & 1 and start <= entry and entry + 4 <= start + size for _, start, size, flags in loaded):
        image_fault(15, 24)


def trace_fault(number, place):
    raise Refused(f"trace fault {number} {TRACE_FAULTS[number - 1]} at byte {place}\n")


class Fields:
    """The fields of a trace, from left to right."""

    def __init__(self, data):
        self.data, self.place = data, 0

    def take(self, width, fault, passes):
        """The number in the next so many bytes; at a fault of this number where it does not pass."""
        if self.place + width > len(self.data):
            trace_fault(1, len(self.data))
        number = int.from_bytes(self.data[self.place : self.place + width], "little")
        if not passes(number):
            trace_fault(fault, self.place)
        self.place += width
        return number


def nibbles(number):
    return [number >> 4 * hart & 15 for hart in range(8)]


def are_losers(harts):
    return lambda number: all(found == 0 or (hart < harts and found <= harts) for hart, found in enumerate(nibbles(number)))


def are_freed(harts):
    return lambda number: all(found == 0 or hart < harts for hart, found in enumerate(nibbles(number)))


def pass_outcome(fields, harts):
    """Reads past an outcome."""
    code = fields.take(1, 7, lambda code: code <= 14)
    if code in (2, 3):
        fields.take(4, 7, lambda line: line <= 67_108_863)
    elif code == 7:
        fields.take(4, 7, lambda count: 1 <= count <= 65_536)
    elif code == 8:
        fields.take(1, 7, lambda cause: cause <= 4)
    elif code in (9, 10):
        fields.take(4, 7, are_losers(harts))
        fields.take(4, 7, are_freed(harts))
    elif code == 11:
        fields.take(1, 7, lambda why: why // 16 <= 2 and why % 16 < harts)
    elif code == 12:
        fields.take(4, 7, are_losers(harts))
    elif code == 14:
        fields.take(1, 7, lambda count: 1 <= count <= 15)


def read_trace(data):
    """The harts, mode, sets and ways, and the events with their outcomes' bytes, or None where it records none."""
    fields = Fields(data)
    magic = fields.take(4, 2, lambda _: True).to_bytes(4, "little")
    for place, letter in enumerate(b"ELTR"):
        if magic[place] != letter:
            trace_fault(2, place)
    version = fields.take(1, 3, lambda number: number in (1, 2))
    harts = fields.take(1, 4, lambda number: 1 <= number <= 8)
    mode = fields.take(1, 4, lambda number: number <= 2)
    sets = fields.take(1, 4, lambda number: number in (1, 2, 4, 8, 16, 32, 64))
    ways = fields.take(1, 4, lambda number: 1 <= number <= 8)
    fields.take(1, 4, lambda number: 1 <= number <= 32)
    fields.take(4, 4, lambda number: 2 <= number <= 65_536)
    steps = fields.take(4, 4, lambda number: 1 <= number <= 16_777_216)
    count = fields.take(4, 4, lambda number: number <= steps)
    events = []
    for _ in range(count):
        event = fields.take(1, 5, lambda byte: byte // 16 <= 3 and byte % 16 < harts)
        start = fields.place
        if version == 2:
            pass_outcome(fields, harts)
        events.append((event // 16, data[start : fields.place] if version == 2 else None))
    if fields.place < len(data):
        trace_fault(6, fields.place)
    return harts, MODES[mode], sets, ways, events


# ---- one hart


class OneHart:
    """A hart with a cache, alone on the bus: every line is its own once it was fetched."""

    def __init__(self, data, sets, ways):
        self.machine = flat.Machine(flat.load(data, 1), 1)
        self.view = self.machine.views[0]
        self.sets, self.ways, self.cache = sets, ways, {}
        self.asked, self.is_ordered = None, False
        self.events = self.ran = self.missed = self.stalled = 0

    def footprint(self):
        """The line that the next instruction touches, and whether it writes there; or None."""
        pc, regs, reserved, _ = self.view
        try:
            word = self.machine.word(pc)
            opcode, op = word & 127, word >> 12 & 7
            address = regs[word >> 15 & 31]
            if opcode == 0x03 and op in (0, 1, 2, 4, 5):
                address = address + flat.signed(word >> 20, 12) & 0xFFFFFFFF
                self.machine.reach(address, 1 << (op & 3), 4)
                return address // 64, False
            if opcode == 0x23 and op in (0, 1, 2):
                address = address + flat.signed(word >> 25 << 5 | word >> 7 & 31, 12) & 0xFFFFFFFF
                self.machine.reach(address, 1 << op, 6)
                return address // 64, True
            if opcode == 0x2F and op == 2 and self.machine.is_atomic(word):
                kind = word >> 27
                self.machine.reach(address, 4, 4 if kind == 2 else 6)
                return None if kind == 3 and reserved != address else (address // 64, kind != 2)
            if word == 0x73 and regs[17] == 64 and regs[10] in (1, 2) and regs[12]:
                inside = 0 <= regs[11] - self.machine.base < len(self.machine.memory)
                return (regs[11] // 64, False) if inside and len(self.machine.output) < flat.LIMIT else None
        except flat.Trap:
            pass
        return None

    def lines(self, line):
        return self.cache.setdefault(line % self.sets, [])

    def step(self):
        if self.view[3][0]:
            return b"\0"
        if self.asked:
            self.stalled += 1
            return b"\1"
        touched = self.footprint()
        if touched and touched[0] not in self.lines(touched[0]):
            self.asked, self.missed = touched, self.missed + 1
            return struct.pack("<BI", 3 if touched[1] else 2, touched[0])
        if touched:
            self.touch(touched[0])
        self.machine.step(0)
        self.ran += 1
        return b"\4"

    def touch(self, line):
        """The line is the first of its set, which keeps as many as it has ways."""
        lines = self.lines(line)
        if line in lines:
            lines.remove(line)
        lines.insert(0, line)
        del lines[self.ways :]

    def make(self, kind):
        """Makes an event, and gives the bytes of what came of it."""
        self.events += 1
        if kind == 0:
            return self.step()
        if kind == 1 and self.asked and not self.is_ordered:
            self.is_ordered = True
            return b"\x09" + bytes(8)
        if kind == 2 and self.is_ordered:
            self.touch(self.asked[0])
            self.asked, self.is_ordered = None, False
            return b"\x0a" + bytes(8)
        return b"\0"

    def end(self, mode):
        """The status, what is put to out, and the report."""
        status, number = self.view[3]
        said = ["running", f"exit {number}", f"trap {number} at {self.view[0]:08x}"][status]
        report = (
            f"elide {mode} harts 1 events {self.events}\n"
            f"hart 0 ran {self.ran} began 0 committed 0 instr 0 conflict 0 room 0 lines 0 long 0 call 0 mixed 0"
            f" missed {self.missed} stalled {self.stalled} blocked 0 {said}\n"
            f"serial {self.ran} out {len(self.machine.output)}\n"
        )
        return 3 if status == 0 else int((status, number) != (1, 0)), bytes(self.machine.output), report


def run(case):
    check_image(case.image, case.harts)
    if case.harts > 1:
        return None
    hart = OneHart(case.image, 16, 4)
    while hart.events < case.steps and not hart.view[3][0]:
        hart.make(hart.events % 4)
    return hart.end(MODES[case.mode])


def replay(case):
    harts, mode, sets, ways, events = read_trace(case.trace)
    check_image(case.image, harts)
    if harts > 1:
        return None
    hart = OneHart(case.image, sets, ways)
    for place, (kind, recorded) in enumerate(events):
        found = hart.make(kind)
        if recorded is not None and recorded != found:
            return 6, b"", f"replay differs at event {place}: recorded {recorded.hex()} found {found.hex()}\n"
    return hart.end(mode)


def answer(case):
    """The status, what is put to out and what to err; or None, where it is only known that it runs."""
    try:
        return run(case) if case.is_run else replay(case)
    except Refused as refused:
        return 2, b"", refused.args[0]


def line(number, found):
    """What is printed of a file: its number, the status, the MD5 of what is put to out, and the text for err."""
    if found is None:
        return f"{number} ran"
    status, out, err = found
    text = err.rstrip("\n").replace("\n", "; ")
    return f"{number} {status} {hashlib.md5(out).hexdigest()} {text}"


# ---- the built program


def run_built(words, folder):
    """The status, out and err of the built program, its seconds and its greatest memory in MiB."""
    with open(folder / "out", "wb") as out, open(folder / "err", "wb") as err:
        began = time.monotonic()
        child = os.posix_spawn(ROOT / "crates/elide/out/elide", ["elide", *words], os.environ, file_actions=[
            (os.POSIX_SPAWN_DUP2, out.fileno(), 1), (os.POSIX_SPAWN_DUP2, err.fileno(), 2)])
        _, status, used = os.wait4(child, 0)
        seconds = time.monotonic() - began
    return os.waitstatus_to_exitcode(status), (folder / "out").read_bytes(), (folder / "err").read_text(), seconds, used.ru_maxrss / 1024


def built(cases):
    """Gives each case to the built program: the wrong ones, the longest time and the most memory."""
    wrong, slowest, largest, statuses = 0, 0.0, 0.0, {}
    with tempfile.TemporaryDirectory() as name:
        folder = pathlib.Path(name)
        for number, case in cases:
            (folder / "a").write_bytes(case.image)
            (folder / "t").write_bytes(case.trace)
            status, out, err, seconds, memory = run_built(case.words(str(folder / "a"), str(folder / "t")), folder)
            found = answer(case)
            is_right = status in (0, 1, 3, 6) if found is None else found == (status, out, err)
            if not is_right:
                print(f"{number}: status {status}, {err!r}; wanted {found}")
            wrong += not is_right
            slowest, largest = max(slowest, seconds), max(largest, memory)
            statuses[status] = statuses.get(status, 0) + 1
    print(f"{len(cases)} files, {wrong} wrong; statuses {dict(sorted(statuses.items()))};"
          f" at most {slowest:.3f} s and {largest:.0f} MiB")
    return wrong > 0


def main(words):
    images, traces = ([(DATA / name).read_bytes() for name in names] for names in (IMAGES, TRACES))
    is_built = words[:1] == ["--built"]
    first, count = (0, int((words[1:] or ["1000"])[0])) if is_built else (int(words[0]), int(words[1])) if words else (0, 1000)
    cases = [(number, Case(number, images, traces)) for number in range(first, first + count)]
    if is_built:
        return built(cases)
    for number, case in cases:
        print(line(number, answer(case)))
    return 0


if __name__ == "__main__":
    sys.exit(main(sys.argv[1:]))
