#!/bin/sh
# Prints how many events a second the built program makes of a loop, in each mode, on 1, 2 and 8 harts, each over a line
# of its own and all over one line: the best of five runs. The loop takes no lock. One hart makes 3,999,998 steps, and one
# in which its line is not there yet. Several harts use up the events that a run may have. The time is the process's own
# processor time over the whole run, from its start to its end.
set -eu
cd "$(dirname "$0")/.."
own=$(mktemp)
one=$(mktemp)
trap 'rm -f "$own" "$one"' EXIT

bench/loop_image.py own "$own"
bench/loop_image.py one "$one"

./elide run crates/elide/data/hello.elf > /dev/null 2>&1 # builds the program where it is not built
PYTHONPATH=bench python3 - "$own" "$one" <<'PYTHON'
import itertools
import sys

import timing

DONE, STEP_LIMIT = 0, 3
IMAGES = (("a line each", sys.argv[1]), ("one line", sys.argv[2]))
for mode, (lines, image), harts in itertools.product(("plain", "sle", "tlr"), IMAGES, (1, 2, 8)):
    words = [timing.ELIDE, "run", image, "--mode", mode, "--harts", str(harts), "--steps", "16777216"]
    seconds, report = timing.best(words, statuses=(DONE, STEP_LIMIT))
    events = timing.events(report)
    print(f"{mode}, {harts} harts, {lines}: {events} events in {seconds:.3f} s,"
          f" {events / seconds / 1e6:.1f} million a second, {seconds / events * 1e9:.0f} ns an event")
PYTHON
