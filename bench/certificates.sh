#!/bin/sh
# Prints what a certificate costs: a run with one and without one, and the judging of it, of a loop and of an example:
# the best of five runs, in processor seconds of the process itself.
set -eu
cd "$(dirname "$0")/.."
work=$(mktemp -d)
trap 'rm -rf "$work"' EXIT
bench/loop_image.py own "$work/loop"

./elide run crates/elide/data/hello.elf > /dev/null 2>&1 # builds the program where it is not built
PYTHONPATH=bench python3 - "$work" examples/table/table.elf <<'PYTHON'
import sys

import timing

work, table = sys.argv[1:]
for name, image in (("loop", work + "/loop"), ("table", table)):
    words = [timing.ELIDE, "run", image, "--mode", "plain", "--steps", "16777216"]
    alone, _ = timing.best(words)
    certified, _ = timing.best([*words, "--cert", work + "/cert"])
    judged, line = timing.best([timing.ELIDE, "check", image, work + "/cert"])
    steps = int(line.split("serial ")[1].split()[0])
    print(f"{name}: run {alone:.3f} s, with a certificate {certified:.3f} s; check {judged:.3f} s of {steps} steps,"
          f" {judged / steps * 1e9:.0f} ns a step")
PYTHON
