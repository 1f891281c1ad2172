#!/usr/bin/env bash
# The numbers of docs/STUDY.md are those of study/results/study.jsonl; some of its runs, made again, give the same
# results; and a sweep goes on behind a line that was cut off. Quick: the whole study is made by study/all.sh.
set -u
cd "$(dirname "$0")/.." || exit 2
study/page.py || exit 1
folder=$(mktemp -d) || exit 1
trap 'rm -rf "$folder"' EXIT

# Every fortieth run of the study, of each kind of schedule.
study/sweep.py list study/grids/study.json | awk 'NR % 40 == 1' > "$folder/runs"
study/sweep.py run "$folder/runs" --to "$folder/whole" 2> "$folder/said" || { cat "$folder/said"; exit 1; }
study/sweep.py join study/results/study.jsonl "$folder/whole" --to "$folder/joined" || exit 1
cmp study/results/study.jsonl "$folder/joined" || exit 1

# Cut off in the middle of a line.
head -c $(($(wc -c < "$folder/whole") / 2)) "$folder/whole" > "$folder/cut"
study/sweep.py run "$folder/runs" --to "$folder/cut" 2> "$folder/said" || { cat "$folder/said"; exit 1; }
cmp "$folder/whole" "$folder/cut" || exit 1
echo "study: $(wc -l < "$folder/runs") runs give what they gave, and a sweep that was cut off comes to the same"
