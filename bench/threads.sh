#!/bin/sh
# Prints what drivers on threads cost beside the round robin: a loop over a line a hart, on 1, 2 and 8 harts, with as many
# events by either: the least time that passes in three runs. Both write their trace.
set -eu
cd "$(dirname "$0")/.."
work=$(mktemp -d)
trap 'rm -rf "$work"' EXIT
bench/loop_image.py own "$work/loop"

./elide run crates/elide/data/hello.elf > /dev/null 2>&1 # builds the program where it is not built
PYTHONPATH=bench python3 - "$work" <<'PYTHON'
import subprocess
import sys
import time

import timing

EVENTS = 2_000_000
STEP_LIMIT = 3


def least(words, runs=3):
    """The least seconds that pass in so many runs, each of which uses up its steps."""
    taken = []
    for _ in range(runs):
        before = time.perf_counter()
        run = subprocess.run(words, capture_output=True, text=True)
        taken.append(time.perf_counter() - before)
        if run.returncode != STEP_LIMIT:
            sys.exit(run.stderr)
    return min(taken)


work = sys.argv[1]
for harts in (1, 2, 8):
    words = [timing.ELIDE, "run", work + "/loop", "--harts", str(harts), "--steps", str(EVENTS), "--trace", work + "/trace"]
    robin = least(words)
    driven = least([*words, "--threads", str(EVENTS // harts)])
    print(f"{harts} harts: round robin {robin:.3f} s, drivers {driven:.3f} s, {driven / robin:.1f} times,"
          f" {(driven - robin) / EVENTS * 1e9:.0f} ns a turn more")
PYTHON
