#!/usr/bin/env bash
# Runs an image many times by drivers on threads, and says how many different histories came of it. Each run has to
# print the same output as the round robin, and the replay of its trace the same output and report.
#
#   tools/driver_runs.sh [RUNS [IMAGE [HARTS [TURNS]]]]
#
# Without words: 300 runs of examples/counter on 4 harts with 2000 turns each. Status 1 where a run went wrong.
set -u
cd "$(dirname "$0")/.." || exit 2
runs=${1:-300} image=${2:-examples/counter/counter.elf} harts=${3:-4} turns=${4:-2000}
work=$(mktemp -d) || exit 2
trap 'rm -rf "$work"' EXIT
./elide run "$image" --harts "$harts" > "$work/expected" 2> /dev/null
wrong=0
for run in $(seq "$runs"); do
    mode=$(printf 'plain\nsle\ntlr\n' | sed -n "$((run % 3 + 1))p")
    ./elide run "$image" --harts "$harts" --mode "$mode" --threads "$turns" --trace "$work/trace" > "$work/out" 2> "$work/err"
    ./elide replay "$image" "$work/trace" > "$work/again" 2> "$work/said"
    if ! cmp -s "$work/out" "$work/expected" || ! cmp -s "$work/out" "$work/again" || ! cmp -s "$work/err" "$work/said"; then
        echo "driver_runs: run $run in $mode went wrong"
        wrong=$((wrong + 1))
    fi
    cksum < "$work/trace" >> "$work/sums"
done
echo "$runs runs, $wrong wrong, $(sort -u "$work/sums" | wc -l) different histories"
[ "$wrong" -eq 0 ]
