#!/bin/sh
# Prints what it costs to go over a trace, of a loop over a line a hart on 1 and 8 harts and up to 16,777,216 events: the replay of the
# trace, `look` at its end and half way back from there, and `find` over all of it, with the greatest memory. The best of
# five runs, in processor seconds of the process itself.
set -eu
cd "$(dirname "$0")/.."
work=$(mktemp -d)
trap 'rm -rf "$work"' EXIT
bench/loop_image.py own "$work/loop"

./elide run crates/elide/data/hello.elf > /dev/null 2>&1 # builds the program where it is not built
PYTHONPATH=bench python3 - "$work" <<'PYTHON'
import resource
import sys

import timing

ENDS = (0, 3)
work = sys.argv[1]
files = [work + "/loop", work + "/trace"]


def seconds(*words):
    return timing.best([timing.ELIDE, *words], statuses=ENDS)[0]


for harts in (1, 8):
    words = ["run", work + "/loop", "--harts", str(harts), "--steps", "16777216", "--trace", work + "/trace"]
    _, report = timing.best([timing.ELIDE, *words], statuses=ENDS)
    events = timing.events(report)
    replayed = seconds("replay", *files)
    looked = seconds("look", *files, str(events))
    back = seconds("look", *files, str(events), "--back", str(events // 2))
    found = seconds("find", *files, "0", "0")
    memory = resource.getrusage(resource.RUSAGE_CHILDREN).ru_maxrss / 1024
    print(f"{harts} harts, {events} events: replay {replayed:.2f} s, look at the end {looked:.2f} s"
          f" ({looked / replayed:.2f} times), and half way back {back:.2f} s, find {found:.2f} s"
          f" ({found / replayed:.2f} times), at most {memory:.0f} MiB")
PYTHON
