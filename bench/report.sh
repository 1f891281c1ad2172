#!/bin/sh
# Prints how long the report of 15,999,993 events takes, the best of five runs: the time that passes from the last write to
# the trace, which comes before the report, to the moment at which the report has been read.
set -eu
cd "$(dirname "$0")/.."
image=$(mktemp)
trace=$(mktemp)
trap 'rm -f "$image" "$trace"' EXIT

bench/loop_image.py own "$image"
./elide run crates/elide/data/hello.elf > /dev/null 2>&1 # builds the program where it is not built
PYTHONPATH=bench python3 - "$image" "$trace" <<'PYTHON'
import os
import subprocess
import sys
import time

import timing

image, trace = sys.argv[1:]
best = None
for _ in range(5):
    words = [timing.ELIDE, "run", image, "--steps", "16777216", "--trace", trace]
    with subprocess.Popen(words, stdout=subprocess.DEVNULL, stderr=subprocess.PIPE) as run:
        report = run.stderr.read().decode()
        taken = time.time() - os.stat(trace).st_mtime_ns / 1e9
    best = taken if best is None else min(best, taken)
print(f"the report of {timing.events(report)} events in {best:.3f} s")
PYTHON
