#!/bin/sh
# Prints how many events a second the built program makes of each workload over locks, on 8 harts in each mode, by the process's own
# processor time: the best of five runs.
set -eu
cd "$(dirname "$0")/.."
image=$(mktemp)
trap 'rm -f "$image"' EXIT

./elide run crates/elide/data/hello.elf > /dev/null 2>&1 # builds the program where it is not built
for kind in counter bank buckets locks overflow; do
    ./elide gen "$kind" 3 "$image" 2> /dev/null
    PYTHONPATH=bench python3 - "$kind" "$image" <<'PYTHON'
import sys

import timing

kind, image = sys.argv[1:]
for mode in ("plain", "sle", "tlr"):
    words = [timing.ELIDE, "run", image, "--mode", mode, "--harts", "8", "--steps", "16777216"]
    seconds, report = timing.best(words)
    events = timing.events(report)
    print(f"{kind}, {mode}: {events} events, {seconds:.3f} s, {events / seconds / 1e6:.0f} million a second")
PYTHON
done
