#!/bin/sh
# Prints what traces and times cost, of a loop over a line a hart on 1 and 8 harts: a run of up to 16,777,216 events alone,
# with its trace, and with its times; the replay of the trace, and its greatest memory. The best of fifteen runs by turns, and
# of five replays, in processor seconds of the process itself.
set -eu
cd "$(dirname "$0")/.."
work=$(mktemp -d)
trap 'rm -rf "$work"' EXIT
bench/loop_image.py own "$work/loop"

./elide run crates/elide/data/hello.elf > /dev/null 2>&1 # builds the program where it is not built
PYTHONPATH=bench python3 - "$work" <<'PYTHON'
import resource
import sys

import timing

ENDS = (0, 3)
work = sys.argv[1]
for harts in (1, 8):
    words = [timing.ELIDE, "run", work + "/loop", "--harts", str(harts), "--steps", "16777216"]
    (alone, report), (traced, _), (timed, _) = timing.by_turns(
        [words, [*words, "--trace", work + "/trace"], [*words, "--times"]], statuses=ENDS)
    replayed, _ = timing.best([timing.ELIDE, "replay", work + "/loop", work + "/trace"], statuses=ENDS)
    memory = resource.getrusage(resource.RUSAGE_CHILDREN).ru_maxrss / 1024
    events = timing.events(report)
    print(f"{harts} harts, {events} events: run {alone:.3f} s, with a trace {(traced - alone) / events * 1e9:.0f} ns an"
          f" entry more, with times {timed - alone:.3f} s more; replay {replayed:.3f} s, at most {memory:.0f} MiB")
PYTHON
