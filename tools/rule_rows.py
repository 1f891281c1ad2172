#!/usr/bin/env python3
"""Writes the short runs that the rules tell in words, in the form of the runs of crates/worked_runs.

    tools/rule_rows.py [--check]

Each run is a program of a few instructions, the events, and what comes of each by the rules of docs/MODEL.md, worked
by hand. They go to crates/worked_runs/data/row-NAME.json. With --check the files there are compared with that.
"""
import json
import pathlib
import sys

DATA = pathlib.Path(__file__).resolve().parent.parent / "crates/worked_runs/data"
BASE, CODE = 0x10000, 0x20000
FIRST = BASE // 64  # the first line of memory
ROWS = {}  # the text of each file, by its name


def lui(rd, imm):
    return imm << 12 | rd << 7 | 0x37


def addi(rd, rs1, imm):
    return (imm & 0xFFF) << 20 | rs1 << 15 | rd << 7 | 0x13


def slli(rd, rs1, by):
    return by << 20 | rs1 << 15 | 1 << 12 | rd << 7 | 0x13


def add(rd, rs1, rs2):
    return rs2 << 20 | rs1 << 15 | rd << 7 | 0x33


def lw(rd, offset, rs1):
    return (offset & 0xFFF) << 20 | rs1 << 15 | 2 << 12 | rd << 7 | 0x03


def sw(rs2, offset, rs1):
    return (offset >> 5 & 0x7F) << 25 | rs2 << 20 | rs1 << 15 | 2 << 12 | (offset & 31) << 7 | 0x23


def bne(rs1, rs2, offset):
    high = (offset >> 12 & 1) << 6 | offset >> 5 & 0x3F
    low = (offset >> 1 & 15) << 1 | offset >> 11 & 1
    return high << 25 | rs2 << 20 | rs1 << 15 | 1 << 12 | low << 7 | 0x63


def atomic(funct5, rd, rs2, rs1):
    return funct5 << 27 | rs2 << 20 | rs1 << 15 | 2 << 12 | rd << 7 | 0x2F


def amoswap(rd, rs2, rs1):
    return atomic(1, rd, rs2, rs1)


def amoadd(rd, rs2, rs1):
    return atomic(0, rd, rs2, rs1)


def lr(rd, rs1):
    return atomic(2, rd, 0, rs1)


def sc(rd, rs2, rs1):
    return atomic(3, rd, rs2, rs1)


ECALL = 0x73
START = [lui(5, BASE >> 12), addi(6, 0, 1)]  # x5 is where memory begins, x6 is 1


def ran(hart, times=1):
    return [["Step", hart, ["Ran"]]] * times


def step(hart, *outcome):
    return [["Step", hart, list(outcome)]]


def fetch(hart, line, need, freed=None):
    """The hart misses a line, and gets it; its request lets these harts go, each with so many instructions."""
    lists = [[]] if freed is None else [[], freed]
    return [
        ["Step", hart, ["Missed", line, need]],
        ["Order", hart, ["Ordered"] + lists],
        ["Serve", hart, ["Served", []]],
    ]


def ending(register, value):
    """The end of a run of which one register of hart 0 is told."""
    registers = [value if number == register else None for number in range(32)]
    return {"harts": [{"pc": None, "registers": registers, "cache": None}]}


def row(name, mode, harts, words, events, lines=16, sets=16, ways=4, long=2000, length=64 * 18, end=None,
        ready=None):
    run = {
        "config": {"harts": harts, "mode": mode, "sets": sets, "ways": ways, "lines": lines, "long": long},
        "memory": {"base": BASE, "length": length},
        "code": {"start": CODE, "words": words},
        "events": events,
    }
    if end is not None:
        run["end"] = end
    if ready is not None:
        run["ready"] = ready
    ROWS[f"row-{name}.json"] = json.dumps(run, indent=1) + "\n"


def reservation_lost_to_an_elided_commit(mode):
    """The load between the pair lets its hart go, so the reservation is a committed one, and another's commit ends it."""
    words = START + [
        addi(12, 5, 4),
        lw(7, 0, 5),
        bne(10, 0, 16),
        lr(8, 12),
        lw(7, 0, 12),
        sc(9, 6, 12),
        amoswap(8, 6, 5),
        sw(0, 0, 5),
    ]
    events = (
        ran(0, 3) + fetch(0, FIRST, "Read") + ran(0)
        + ran(1, 3) + fetch(1, FIRST, "Read") + ran(1)
        + ran(1) + ran(0)  # both branch
        + step(0, "Armed") + step(0, "LetGo", 1) + ran(0)
        + step(1, "Began") + step(1, "Committed", 2)
        + ran(0)  # its store conditional fails
    )
    row(f"reservation-lost-to-an-elided-commit-{mode.lower()}", mode, 2, words, events, end=ending(9, 1))


def written_lines(name, mode, count, last):
    words = START + [amoswap(8, 6, 5)] + [sw(6, 64 * n, 5) for n in range(1, count + 1)] + [sw(0, 0, 5)]
    events = ran(0, 2) + fetch(0, FIRST, "Read") + step(0, "Began")
    for n in range(1, min(count, 16) + 1):
        events += fetch(0, FIRST + n, "Write") + step(0, "Buffered")
    row(name, mode, 1, words, events + last)


def set_full_of_bits(mode):
    words = START + [
        amoswap(8, 6, 5), lw(7, 64, 5), sw(0, 0, 5),
        amoswap(8, 6, 5), lw(7, 128, 5), sw(0, 0, 5),
        amoswap(8, 6, 5), lw(7, 64, 5), lw(7, 128, 5), sw(0, 0, 5),
    ]
    lock, second, third = FIRST, FIRST + 1, FIRST + 2
    events = (
        ran(0, 2) + fetch(0, lock, "Read") + step(0, "Began")
        + fetch(0, second, "Read") + step(0, "Buffered") + step(0, "Committed", 3)
        + step(0, "Began") + fetch(0, third, "Read") + step(0, "Buffered") + step(0, "Committed", 3)
        + step(0, "Began") + fetch(0, second, "Read") + step(0, "Buffered") + step(0, "RolledBack", "Room")
    )
    row(f"set-full-of-bits-{mode.lower()}", mode, 1, words, events, sets=1, ways=2)


def lock_word_added_to(mode):
    words = START + [amoswap(8, 6, 5), amoadd(9, 6, 5), sw(0, 0, 5), bne(6, 0, -12)]
    events = (
        ran(0, 2) + fetch(0, FIRST, "Read") + step(0, "Began") + step(0, "RolledBack", "Mixed")
        + ran(0, 4)  # the acquire takes the lock, the word is added to and given back, and it begins anew
        + ran(0)  # the place is not trusted any more
    )
    row(f"lock-word-added-to-{mode.lower()}", mode, 1, words, events)


def both_releases(mode):
    words = START + [amoswap(8, 6, 5), sw(0, 0, 5), amoswap(8, 6, 5), amoswap(9, 0, 5)]
    events = (
        ran(0, 2) + fetch(0, FIRST, "Read")
        + step(0, "Began") + step(0, "Committed", 2) + step(0, "Began") + step(0, "Committed", 2)
    )
    row(f"both-releases-{mode.lower()}", mode, 1, words, events)


def chain_of_two(mode):
    first, line, other = FIRST, FIRST + 1, FIRST + 2
    words = START + [
        bne(10, 0, 20),
        amoswap(8, 6, 5), lw(7, 64, 5), sw(6, 64, 5), sw(0, 0, 5),
        addi(12, 5, 128), amoswap(8, 6, 12), sw(6, 64, 5), sw(0, 0, 12),
    ]
    events = (
        ran(0, 3) + fetch(0, first, "Read") + step(0, "Began") + fetch(0, line, "Read") + step(0, "Buffered")
        + ran(1, 4) + fetch(1, other, "Read") + step(1, "Began")
        + step(1, "Missed", line, "Write")
    )
    if mode == "Sle":
        events += [["Order", 1, ["Ordered", [[0, 1]]]]]
    else:
        events += (
            [["Order", 1, ["Ordered", []]], ["Serve", 1, ["Blocked", "Retained", 0]]]
            + fetch(0, line, "Write") + step(0, "Buffered") + step(0, "Committed", 4)
            + [["Serve", 1, ["Served", []]]] + step(1, "Buffered")
        )
    row(f"chain-of-two-{mode.lower()}", mode, 2, words, events)


def chain_of_four(name, commits):
    words = START + [
        slli(12, 10, 6), add(12, 12, 5), addi(12, 12, 64),
        amoswap(8, 6, 12), sw(6, 0, 5), sw(0, 0, 12),
    ]
    events = []
    for hart in range(4):
        events += ran(hart, 5) + fetch(hart, FIRST + 1 + hart, "Read") + step(hart, "Began")
    events += fetch(1, FIRST, "Write") + step(1, "Buffered")
    for hart in (2, 3, 0):
        events += step(hart, "Missed", FIRST, "Write")
    ready = [[len(events), ["Order", 0]]]
    for hart in (2, 3, 0):
        events += [["Order", hart, ["Ordered", []]]]
    for hart in (0, 3, 3, 2, 2, 2, 1, 1):
        events += [["Deliver", hart, ["Delivered", []]]]
    events += step(1, "Committed", 3) if commits else [["Deliver", 1, ["Delivered", [[1, 0]]]]]
    events += [
        ["Serve", 2, ["Served", [[2, 0]]]],
        ["Serve", 3, ["Served", [[3, 0]]]],
        ["Serve", 0, ["Served", []]],
    ]
    events += [["Deliver", 1, ["Idle"]]]
    row(name, "Tlr", 4, words, events, ready=ready)


def four_losses():
    words = START + [bne(10, 0, 12), amoswap(8, 6, 5), sw(0, 0, 5)] + [sw(6, 4, 5)] * 4
    lose = step(1, "Missed", FIRST, "Write") + [["Order", 1, ["Ordered", [[0, 1]]]], ["Serve", 1, ["Served", []]]] + ran(1)
    begin = fetch(0, FIRST, "Read") + step(0, "Began")
    events = ran(0, 3) + begin + ran(1, 3) + lose + (begin + lose) * 3 + fetch(0, FIRST, "Write") + ran(0)
    row("four-losses-and-the-plain-acquire", "Sle", 2, words, events)


def shortest_limit(mode):
    words = START + [amoswap(8, 6, 5), sw(0, 0, 5), amoswap(8, 6, 5), addi(9, 0, 5), sw(0, 0, 5)]
    events = (
        ran(0, 2) + fetch(0, FIRST, "Read") + step(0, "Began") + step(0, "Committed", 2)
        + step(0, "Began") + step(0, "Buffered") + step(0, "RolledBack", "Long") + ran(0, 3)
    )
    row(f"shortest-limit-{mode.lower()}", mode, 1, words, events, long=2)


def call_inside(mode):
    words = START + [amoswap(8, 6, 5), ECALL, sw(0, 0, 5)]
    events = (
        ran(0, 2) + fetch(0, FIRST, "Read") + step(0, "Began") + step(0, "RolledBack", "Call") + ran(0, 3)
    )
    row(f"call-inside-{mode.lower()}", mode, 1, words, events, end=ending(10, 2**32 - 38))


def elided_pair(mode):
    """A lock by LR and SC, given back by a store: its line is never written."""
    words = START + [lr(7, 5), bne(7, 0, 8), sc(8, 6, 5), bne(8, 0, 8), sw(0, 0, 5)]
    events = (
        ran(0, 2) + fetch(0, FIRST, "Read") + step(0, "Armed") + step(0, "Buffered") + step(0, "Began")
        + step(0, "Buffered") + step(0, "Committed", 5)
    )
    row(f"elided-pair-{mode.lower()}", mode, 1, words, events, end=ending(8, 0))


def let_go_by_a_write(mode):
    """Another hart's store meets an armed hart, whose SC fails then."""
    words = START + [bne(10, 0, 16), lr(7, 5), bne(7, 0, 8), sc(8, 6, 5), sw(6, 0, 5)]
    events = (
        ran(0, 3) + fetch(0, FIRST, "Read") + step(0, "Armed") + step(0, "Buffered")
        + ran(1, 3) + fetch(1, FIRST, "Write", [[0, 2]]) + ran(1)
        + ran(0)
    )
    row(f"let-go-by-a-write-{mode.lower()}", mode, 2, words, events, end=ending(8, 1))


def two_let_go_at_one_order(mode):
    """One request lets two harts go, each with its own count; a read of the line lets nobody go."""
    words = START + [addi(9, 0, 2), bne(10, 9, 8), sw(6, 0, 5), lr(7, 5), addi(7, 7, 0), addi(7, 7, 0), sc(8, 6, 5)]
    events = (
        ran(0, 4) + fetch(0, FIRST, "Read") + step(0, "Armed")
        + ran(1, 4) + fetch(1, FIRST, "Read", []) + step(1, "Armed") + step(1, "Buffered") + step(1, "Buffered")
        + ran(2, 4) + fetch(2, FIRST, "Write", [[0, 1], [1, 3]]) + ran(2)
        + ran(0, 3)
    )
    row(f"two-let-go-at-one-order-{mode.lower()}", mode, 3, words, events, end=ending(8, 1))


def let_go_by_the_next_head(mode):
    """A request behind another lets nobody go as it is ordered, but as the one before it is served."""
    words = START + [addi(9, 0, 1), bne(10, 9, 12), lr(7, 5), sc(8, 6, 5), bne(10, 0, 8), lw(7, 0, 5), sw(6, 0, 5)]
    events = (
        ran(1, 4) + fetch(1, FIRST, "Read") + step(1, "Armed")
        + ran(0, 5) + step(0, "Missed", FIRST, "Read") + [["Order", 0, ["Ordered", [], []]]]
        + ran(2, 5) + step(2, "Missed", FIRST, "Write") + [["Order", 2, ["Ordered", [], []]]]
        + [["Serve", 2, ["Blocked", "Behind", 0]], ["Serve", 0, ["Served", [], [[1, 1]]]]]
        + [["Serve", 2, ["Blocked", "Locked", 0]]] + ran(0)
        + [["Serve", 2, ["Served", [], []]]] + ran(2) + ran(1)
    )
    row(f"let-go-by-the-next-head-{mode.lower()}", mode, 3, words, events)


def armed_at_the_shortest(mode):
    words = START + [lr(7, 5), bne(7, 0, 8), sc(8, 6, 5), sw(0, 0, 5)]
    events = (
        ran(0, 2) + fetch(0, FIRST, "Read") + step(0, "Armed") + step(0, "LetGo", 1)
        + ran(0, 3)
    )
    row(f"armed-at-the-shortest-{mode.lower()}", mode, 1, words, events, long=2, end=ending(8, 0))


def armed_at_the_longest(mode):
    """Fifteen instructions may be armed, the LR among them; then comes the SC, or the hart is let go."""
    words = START + [lr(7, 5)] + [addi(9, 9, 1)] * 14 + [sc(8, 6, 5), sw(0, 0, 5), lr(7, 5)] + [addi(9, 9, 1)] * 15 + [sc(8, 6, 5)]
    events = (
        ran(0, 2) + fetch(0, FIRST, "Read") + step(0, "Armed") + step(0, "Buffered") * 14 + step(0, "Began")
        + step(0, "Committed", 17)
        + step(0, "Armed") + step(0, "Buffered") * 14 + step(0, "LetGo", 15) + ran(0, 2)
    )
    row(f"armed-at-the-longest-{mode.lower()}", mode, 1, words, events, end=ending(9, 29))


def conditional_elsewhere(mode):
    """An SC to another word fails and lets go; so does one that would leave the word as it is, which then stores."""
    words = START + [addi(12, 5, 4), lr(7, 5), sc(8, 6, 12), lr(7, 5), sc(9, 0, 5)]
    events = (
        ran(0, 3) + fetch(0, FIRST, "Read") + step(0, "Armed") + step(0, "LetGo", 1) + ran(0)
        + step(0, "Armed") + step(0, "LetGo", 1) + ran(0)
    )
    row(f"conditional-elsewhere-{mode.lower()}", mode, 1, words, events, end=ending(8, 1))


def work_out():
    for mode in ("Sle", "Tlr"):
        low = mode.lower()
        reservation_lost_to_an_elided_commit(mode)
        written_lines(f"seventeen-lines-{low}", mode, 17, step(0, "RolledBack", "Lines") + ran(0))
        written_lines(f"sixteen-lines-{low}", mode, 16, step(0, "Committed", 18))
        set_full_of_bits(mode)
        lock_word_added_to(mode)
        both_releases(mode)
        chain_of_two(mode)
        shortest_limit(mode)
        call_inside(mode)
        elided_pair(mode)
        let_go_by_a_write(mode)
        two_let_go_at_one_order(mode)
        let_go_by_the_next_head(mode)
        armed_at_the_shortest(mode)
        armed_at_the_longest(mode)
        conditional_elsewhere(mode)
    chain_of_four("chain-of-four", False)
    chain_of_four("chain-of-four-with-an-early-commit", True)
    four_losses()


def main():
    work_out()
    if sys.argv[1:] != ["--check"]:
        for name, text in ROWS.items():
            (DATA / name).write_text(text)
        return 0
    there = {file.name: file.read_text() for file in DATA.glob("row-*.json")}
    wrong = sorted(name for name in ROWS.keys() | there.keys() if ROWS.get(name) != there.get(name))
    for name in wrong:
        print(f"{name}: not what tools/rule_rows.py writes")
    print(f"rule_rows: {len(ROWS.keys() | there.keys()) - len(wrong)} passed, {len(wrong)} failed")
    return 1 if wrong else 0


if __name__ == "__main__":
    sys.exit(main())
