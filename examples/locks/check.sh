#!/usr/bin/env bash
# Runs the programs over locks and compares what each prints, its status and its report, on one hart and on
# several. README.md has the reasons for what is expected. The last line counts the runs.
#
#   examples/locks/check.sh [FOLDER]
#
# FOLDER has other images than those beside the sources, as examples/build.sh makes them.
set -u
images=$(cd "${1-$(dirname "$0")}" && pwd) || exit 2
cd "$(dirname "$0")/../.." || exit 2
passed=0
failed=0
report=$(mktemp) || exit 1
trap 'rm -f "$report"' EXIT

# ends_well NAME OUT WORD..: the image run with these words prints this line, and every hart exits with 0
ends_well() {
    local name=$1 line=$2 out
    shift 2
    out=$(./elide run "$images/$name.elf" "$@" 2> "$report") && [ "$out" = "$line" ]
}

# count WORD..: counts the run that ended just before, and names it by these words where it went otherwise
count() {
    if [ $? -eq 0 ]; then
        passed=$((passed + 1))
    else
        echo "locks: otherwise: $*"
        failed=$((failed + 1))
    fi
}

# exactly NAME EVENTS COUNTS SERIAL WORD..: in this mode one hart gives just this report, with no loss to
# another hart, no wait, and `ok` as its output
exactly() {
    local name=$1 mode=$2 events=$3 counts=$4 serial=$5
    shift 5
    ends_well "$name" ok --mode "$mode" "$@" && diff "$report" - << LINES
elide $mode harts 1 events $events
hart 0 $counts stalled 0 blocked 0 exit 0
serial $serial out 3
LINES
    count "$name" "$mode" "$@"
}

# facts NAME OUT EACH ALL WORD..: what holds of each hart's line, and of the sums of all. The serial order has
# each instruction that ran outside of sections and each of a committed one, in every run.
facts() {
    local name=$1 out=$2 each=$3 all=$4
    shift 4
    ends_well "$name" "$out" "$@" && awk '
        $1 == "hart" {
            hart = $2; ran = $4; began = $6; committed = $8; instr = $10; conflict = $12
            room = $14; lines = $16; long = $18; call = $20; mixed = $22
            serial += ran + instr; all_committed += committed; all_mixed += mixed; harts++
            if (!('"$each"')) wrong = 1
        }
        $1 == "serial" && $2 != serial { wrong = 1 }
        END { exit wrong || harts == 0 || !('"$all"') }' "$report"
    count "$name" "$@"
}

# Nothing but another hart ended a section.
quiet='room + lines + long + call + mixed == 0'
none='began + committed + instr + conflict + room + lines + long + call + mixed == 0'

# One hart. The counts are worked in README.md.
for mode in sle tlr; do
    exactly private $mode 493 \
        'ran 72 began 8 committed 8 instr 48 conflict 0 room 0 lines 0 long 0 call 0 mixed 0 missed 4' 120
    exactly lock_word $mode 565 \
        'ran 135 began 1 committed 0 instr 0 conflict 0 room 0 lines 0 long 0 call 0 mixed 1 missed 4' 135
    exactly overflow $mode 7429 \
        'ran 1014 began 8 committed 0 instr 0 conflict 0 room 0 lines 8 long 0 call 0 mixed 0 missed 20' 1014
    exactly overflow $mode 4133 \
        'ran 150 began 8 committed 8 instr 864 conflict 0 room 0 lines 0 long 0 call 0 mixed 0 missed 20' 1014 \
        --lines 17
    exactly overflow $mode 4337 \
        'ran 1014 began 1 committed 0 instr 0 conflict 0 room 0 lines 0 long 1 call 0 mixed 0 missed 20' 1014 \
        --lines 17 --long 50
    facts overflow ok 'began == 8 && room == 8 && committed + lines + long + call + mixed == 0' 1 \
        --mode $mode --sets 1 --ways 8
done
exactly private plain 493 \
    'ran 120 began 0 committed 0 instr 0 conflict 0 room 0 lines 0 long 0 call 0 mixed 0 missed 4' 120
exactly lock_word plain 553 \
    'ran 135 began 0 committed 0 instr 0 conflict 0 room 0 lines 0 long 0 call 0 mixed 0 missed 4' 135
exactly overflow plain 4133 \
    'ran 1014 began 0 committed 0 instr 0 conflict 0 room 0 lines 0 long 0 call 0 mixed 0 missed 20' 1014

# Several harts, and C.
for harts in 1 2 8; do
    moved=$((1000 - 8 * (harts % 2)))
    balances="$moved $((2000 - moved))"
    for mode in sle tlr; do
        facts private ok "began == 8 && committed == 8 && instr == 48 && conflict == 0 && $quiet &&
            (hart == 0 || ran == 59)" 1 --mode $mode --harts $harts
        for name in private_in_c mutex_in_c compare_in_c; do
            facts $name $((8 * harts)) "began == 8 && committed == 8 && conflict == 0 && $quiet" 1 \
                --mode $mode --harts $harts
        done
        facts lock_word ok 'committed + instr + room + lines + call == 0' 'all_mixed >= 1' --mode $mode --harts $harts
    done
    facts overflow ok 'lines == 8 && began == 8 + conflict && committed + room + long + call + mixed == 0' 1 \
        --mode tlr --harts $harts
    facts overflow ok 'began == lines + conflict && 4 * (8 - lines) <= conflict &&
        committed + room + long + call + mixed == 0' 1 --mode sle --harts $harts
    facts accounts "$balances" "committed == 8 && began == 8 + conflict && $quiet" 1 --mode tlr --harts $harts
    facts accounts "$balances" "committed <= 8 && began == committed + conflict &&
        4 * (8 - committed) <= conflict && $quiet" 1 --mode sle --harts $harts
    for name in private lock_word overflow; do
        facts $name ok "$none" 1 --mode plain --harts $harts
    done
    for name in private_in_c mutex_in_c compare_in_c; do
        facts $name $((8 * harts)) "$none" 1 --mode plain --harts $harts
    done
    facts accounts "$balances" "$none" 1 --mode plain --harts $harts
done
# With eight harts at two accounts, some sections lose four times in a row where nothing settles who goes first.
facts accounts '1000 1000' 1 'all_committed < 64' --mode sle --harts 8
# How long a section of C is depends on the compiler; so long are those of the images here.
if [ $# -eq 0 ]; then
    facts private_in_c 8 'instr == 8 * 7' 1
    facts accounts '992 1008' 'instr == 8 * 11' 1
fi
echo "$passed passed, $failed failed"
[ "$failed" -eq 0 ]
