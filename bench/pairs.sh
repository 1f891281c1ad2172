#!/bin/sh
# Prints what an event costs of a loop over an uncontended lock in each mode, taken by a swap and by lr.w and sc.w: the best of five
# runs of 16,777,216 events, by the process's own processor time. The aim is at most 1.2 times in tlr.
set -eu
cd "$(dirname "$0")/.."
swap=$(mktemp)
pair=$(mktemp)
trap 'rm -f "$swap" "$pair"' EXIT

bench/lock_image.py swap "$swap"
bench/lock_image.py pair "$pair"

./elide run crates/elide/data/hello.elf > /dev/null 2>&1 # builds the program where it is not built
PYTHONPATH=bench python3 - "$swap" "$pair" <<'PYTHON'
import sys

import timing

for mode in ("plain", "sle", "tlr"):
    costs = []
    for image in sys.argv[1:]:
        words = [timing.ELIDE, "run", image, "--mode", mode, "--steps", "16777216"]
        seconds, report = timing.best(words, statuses=(3,))
        costs.append(seconds / timing.events(report) * 1e9)
    swap, pair = costs
    print(f"{mode}: {swap:.1f} ns an event by a swap, {pair:.1f} by lr.w and sc.w, {pair / swap:.2f} times")
PYTHON
