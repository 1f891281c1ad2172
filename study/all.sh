#!/usr/bin/env bash
# Makes the study anew: every run of study/grids/study.json that is not there, each figure, and the numbers of
# docs/STUDY.md. With --anew all runs are made again. It takes python3 with matplotlib, or PYTHON names another.
set -eu
cd "$(dirname "$0")/.."
python=${PYTHON-python3}
[ "${1-}" != --anew ] || rm -f study/results/study.jsonl
mkdir -p study/results
# Builds the program where it is not built.
./elide run crates/elide/data/hello.elf > /dev/null 2>&1
"$python" study/sweep.py run study/grids/study.json --to study/results/study.jsonl
"$python" study/plot.py
"$python" study/page.py --write
