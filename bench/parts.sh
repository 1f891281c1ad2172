#!/bin/sh
# Prints what one call of each part costs, in nanoseconds: the best of seven runs of the program `part_timing`, less the
# best of seven that make no call, by the number of calls. The time is the process's own processor time. A touch comes
# without its look-up, and a fill without the questions whether the line is there and whether there is room for it.
set -eu
cd "$(dirname "$0")/.."
(cd crates/part_timing && rt run > /dev/null) # builds the program, also where a source has changed since
PYTHONPATH=bench python3 - <<'PYTHON'
import timing

CALLS = 20_000_000


def seconds(part, count):
    return timing.best(["crates/part_timing/out/part_timing", part, str(count)], runs=7)[0]


def nanoseconds(part):
    calls = CALLS // 20 if part == "drain" else CALLS
    return (seconds(part, calls) - seconds(part, 0)) / calls * 1e9


has, room = nanoseconds("has"), nanoseconds("room")
print(f"letter {nanoseconds('letter'):.1f} ns, touch {nanoseconds('touch') - has:.1f} ns,"
      f" fill {nanoseconds('fill') - room:.1f} ns")
print(f"store into a hold {nanoseconds('store'):.1f} ns, read over it {nanoseconds('load'):.1f} ns,"
      f" store into 16 lines and drain them {nanoseconds('drain'):.0f} ns")
on_memory, over_port = {}, {}
for insn in ("addi", "lw", "sw", "add", "mul", "div"):
    on_memory[insn], over_port[insn] = nanoseconds(f"flat-{insn}"), nanoseconds(f"port-{insn}")
    print(f"{insn}: over a port {over_port[insn]:.1f} ns, on plain memory {on_memory[insn]:.1f} ns,"
          f" {over_port[insn] / on_memory[insn]:.2f} times")
for insn in ("mul", "div"):
    print(f"{insn} beside add: over a port {over_port[insn] / over_port['add']:.2f} times,"
          f" on plain memory {on_memory[insn] / on_memory['add']:.2f} times")
PYTHON
