#!/bin/sh
# Prints what a step costs inside of sections and outside of them: the built program runs one image, of 500 turns of 8,000
# instructions under a lock, in the plain mode and in both that elide; the best of five runs, by the process's own processor time. Each
# step comes with the three events of its hart that have nothing to do.
set -eu
cd "$(dirname "$0")/.."
image=$(mktemp)
trap 'rm -f "$image"' EXIT

bench/section_image.py "$image"

./elide run crates/elide/data/hello.elf > /dev/null 2>&1 # builds the program where it is not built
PYTHONPATH=bench python3 - "$image" <<'PYTHON'
import sys

import timing

for mode in ("plain", "sle", "tlr"):
    words = [timing.ELIDE, "run", sys.argv[1], "--mode", mode, "--long", "65536", "--steps", "16777216"]
    seconds, report = timing.best(words)
    inside = int(report.split("instr ")[1].split()[0])
    print(f"{mode}: {inside} instructions inside of sections, {seconds / timing.events(report) * 4e9:.0f} ns a step")
PYTHON
