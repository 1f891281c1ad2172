#!/bin/sh
# Prints how many events a second the built program makes of whole programs that gcc has compiled, in each mode, on 1 and
# 8 harts: the best of fifteen runs. Given another built program, say that of an earlier commit, it runs both by turns and
# prints the part of the other's time that this one takes. The time is the process's own processor time over the whole
# run, from its start to its end.
set -eu
cd "$(dirname "$0")/.."

./elide run crates/elide/data/hello.elf > /dev/null 2>&1 # builds the program where it is not built
PYTHONPATH=bench python3 - "$@" <<'PYTHON'
import itertools
import sys

import timing

ENDS = (0, 1, 3)
IMAGES = ("examples/table/table.elf", "examples/products/products.elf", "study/images/gcc/counter-ticket.elf",
          "study/images/gcc/accounts-tas.elf")
programs = [timing.ELIDE, *sys.argv[1:2]]
for image, mode, harts in itertools.product(IMAGES, ("plain", "sle", "tlr"), (1, 8)):
    words = ["run", image, "--mode", mode, "--harts", str(harts), "--steps", "16777216"]
    (own, report), *others = timing.by_turns([[program, *words] for program in programs], statuses=ENDS)
    events = timing.events(report)
    beside = "".join(f", {own / other:.2f} times the other" for other, _ in others)
    print(f"{image}, {mode}, {harts} harts: {events} events in {own * 1e3:.0f} ms, {own / events * 1e9:.0f} ns an event{beside}")
PYTHON
