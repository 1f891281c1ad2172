#!/usr/bin/env bash
# Runs the example images on 1, 2 and 8 harts and compares what they print, and the images that the program
# itself writes on 1, 2, 4 and 8. Those over locks have a script of their own, which also compares reports.
# Where a compiler for RISC-V is there, it builds them anew and runs those too. Then it gives the program words
# that are no UTF-8, and devices and pipes for files, which no test can. The last line counts the runs, but for those over locks.
set -u
cd "$(dirname "$0")/.." || exit 2
passed=0
failed=0

# prints FOLDER NAME HARTS EXPECTED: the image prints the expected text on so many harts
prints() {
    local out
    if out=$(./elide run "$1/$2/$2.elf" --harts "$3" 2> /dev/null) && [ "$out" = "$4" ]; then
        passed=$((passed + 1))
    else
        echo "examples: $1/$2/$2.elf on $3 harts went wrong"
        failed=$((failed + 1))
    fi
}

all_of() {
    for harts in 1 2 8; do
        prints "$1" hello "$harts" "$(cat examples/hello/expected)"
        prints "$1" table "$harts" "$(cat examples/table/expected)"
        prints "$1" counter "$harts" "$((100 * harts))"
        prints "$1" products "$harts" "$(cat examples/products/expected)"
    done
}

# draws KIND NUMBER RESULT..: the image of this kind prints these results on 1, 2, 4 and 8 harts
draws() {
    local kind=$1 number=$2 image out harts=1
    image=$(mktemp) || exit 1
    shift 2
    ./elide gen "$kind" "$number" "$image" 2> /dev/null
    for result in "$@"; do
        if out=$(./elide run "$image" --harts "$harts" --steps 16777216 2> /dev/null) && [ "$out" = "$result" ]; then
            passed=$((passed + 1))
        else
            echo "examples: $kind $number on $harts harts went wrong"
            failed=$((failed + 1))
        fi
        harts=$((2 * harts))
    done
    rm -f "$image"
}

# certifies IMAGE HARTS [OPTION..]: in each mode a certificate of a run of the image holds, by `check`, and by the page of Python
# that shares no code with it, where python3 is there
certifies() {
    local image=$1 harts=$2 certificate mode said
    shift 2
    certificate=$(mktemp) || exit 1
    for mode in plain sle tlr; do
        ./elide run "$image" --harts "$harts" --mode "$mode" --cert "$certificate" "$@" > /dev/null 2>&1
        said=$(./elide check "$image" "$certificate" 2>&1)
        case $? in
            0) passed=$((passed + 1)) ;;
            *)
                echo "examples: the certificate of $image on $harts harts in $mode fails: $said"
                failed=$((failed + 1))
                ;;
        esac
        if command -v python3 > /dev/null; then
            if [ "$(python3 tools/check_certificate.py "$image" "$certificate")" = "$said" ]; then
                passed=$((passed + 1))
            else
                echo "examples: two checkers differ on $image on $harts harts in $mode"
                failed=$((failed + 1))
            fi
        fi
    done
    rm -f "$certificate"
}

# drives NAME HARTS EXPECTED: by drivers on threads the image prints the expected text in each mode, and the trace that such
# a run writes is replayed with the same bytes
drives() {
    local image=examples/$1/$1.elf trace mode out report replayed
    trace=$(mktemp) || exit 1
    for mode in plain sle tlr; do
        out=$(./elide run "$image" --harts "$2" --mode $mode --threads 500 --trace "$trace" 2> "$trace.err")
        report=$(cat "$trace.err")
        replayed=$(./elide replay "$image" "$trace" 2> "$trace.err")
        if [ "$out" = "$3" ] && [ "$out" = "$replayed" ] && [ "$report" = "$(cat "$trace.err")" ]; then
            passed=$((passed + 1))
        else
            echo "examples: a run of $1 by $2 drivers in $mode, or its replay, went wrong"
            failed=$((failed + 1))
        fi
    done
    rm -f "$trace" "$trace.err"
}

# drives_all: the example images by drivers on 1, 2 and 8 harts; and two courteous harts go on for ever in step
drives_all() {
    ./elide run examples/courtesy/courtesy.elf --harts 2 --mode plain --steps 100000 > /dev/null 2>&1
    if [ $? -eq 3 ]; then
        passed=$((passed + 1))
    else
        echo "examples: courtesy comes to its end in step"
        failed=$((failed + 1))
    fi
    for harts in 1 2 8; do
        drives hello "$harts" "$(cat examples/hello/expected)"
        drives table "$harts" "$(cat examples/table/expected)"
        drives counter "$harts" "$((100 * harts))"
        drives products "$harts" "$(cat examples/products/expected)"
    done
}

# costs NAME MODE TOTAL: on four harts the program over locks has so many units, as its page says
costs() {
    if [ "$(./elide run "examples/locks/$1.elf" --harts 4 --mode "$2" --times 2>&1 > /dev/null | tail -1)" = "time total $3" ]; then
        passed=$((passed + 1))
    else
        echo "examples: $1 in $2 has other units than docs/COSTS.md says"
        failed=$((failed + 1))
    fi
}

# changes: with each byte of a certificate changed by one, both checkers say the same
changes() {
    local certificate
    command -v python3 > /dev/null || return
    certificate=$(mktemp) || exit 1
    ./elide run examples/hello/hello.elf --cert "$certificate" > /dev/null 2>&1
    if python3 examples/changed_certificates.py examples/hello/hello.elf "$certificate"; then
        passed=$((passed + 1))
    else
        failed=$((failed + 1))
    fi
    rm -f "$certificate"
}

# refuses LINE WORD..: these words are refused with this line, and nothing is put to standard output
refuses() {
    local line=$1 all
    shift
    all=$(./elide "$@" 2>&1 > /dev/null)
    if [ $? -eq 2 ] && [ "$all" = "$line" ] && [ -z "$(./elide "$@" 2> /dev/null)" ]; then
        passed=$((passed + 1))
    else
        echo "examples: refused otherwise: $*"
        failed=$((failed + 1))
    fi
}

# fails WORD..: a file that these words name cannot be read: status 4, and nothing is put to out
fails() {
    if [ -z "$(./elide "$@" 2> /dev/null)" ] && { ./elide "$@" > /dev/null 2>&1; [ $? -eq 4 ]; }; then
        passed=$((passed + 1))
    else
        echo "examples: no fault of a device: $*"
        failed=$((failed + 1))
    fi
}

# piped: an image from a pipe, which comes in pieces, is read to its end
piped() {
    local image=examples/table/table.elf out
    out=$({ head -c 100 $image; sleep 0.1; tail -c +101 $image; } | ./elide run /dev/stdin 2> /dev/null)
    if [ "$out" = "$(cat examples/table/expected)" ]; then
        passed=$((passed + 1))
    else
        echo "examples: an image from a pipe went wrong"
        failed=$((failed + 1))
    fi
}

# over_locks [FOLDER]: the programs over locks, whose script counts its runs itself
over_locks() {
    examples/locks/check.sh "$@" || failed=$((failed + 1))
}

# Builds the programs where they are not built.
./elide run crates/elide/data/hello.elf > /dev/null || exit 1
./elide-lab --version > /dev/null || exit 1

all_of examples
over_locks
anew=$(mktemp -d) || exit 1
trap 'rm -rf "$anew"' EXIT
examples/build.sh "$anew"
case $? in
    0)
        all_of "$anew"
        over_locks "$anew/locks"
        ;;
    3) echo "examples: not built anew" ;;
    *)
        echo "examples: the sources do not build"
        failed=$((failed + 1))
        ;;
esac
for harts in 1 2 8; do
    for image in hello/hello table/table counter/counter products/products locks/accounts locks/lock_word \
        locks/overflow locks/private locks/private_in_c; do
        certifies "examples/$image.elf" $harts
    done
    certifies examples/courtesy/courtesy.elf $harts --steps 100000
done
drives_all
changes
costs accounts plain 16773
costs accounts tlr 13721
costs overflow plain 48473
costs overflow tlr 109427
draws counter 1 00000064 000000c8 00000190 00000320
draws bank 7 0000fa00 0000fa00 0000fa00 0000fa00
draws buckets 3 000000c8 00000190 00000320 00000640
draws locks 3 000000c8 00000190 00000320 00000640
draws overflow 3 00000190 00000320 00000640 00000c80
draws pairs 1 00000064 000000c8 00000190 00000320
refuses "usage: elide run IMAGE [options], elide replay IMAGE TRACE, elide gen KIND NUMBER FILE" run $'\xff'
refuses "file too big: limit 33554432" run /dev/zero
refuses "file too big: limit 167772182" replay crates/elide/data/hello.elf /dev/zero
fails run examples
fails run examples/none.elf
fails replay crates/elide/data/hello.elf examples
fails gen counter 1 examples/none/image.elf
piped
# What the scripts say themselves, the laboratory on every example, the runs that a page shows, and the numbers of docs/STUDY.md,
# with tries of their own.
tools/check_words.sh || failed=$((failed + 1))
if command -v python3 > /dev/null; then
    tools/lab_runs.py || failed=$((failed + 1))
    tools/check_transcripts.py docs/CLASS.md docs/LAB.md docs/STUDY.md docs/TIMELINE.md || failed=$((failed + 1))
    study/check.sh || failed=$((failed + 1))
fi
echo "$passed passed, $failed failed"
[ "$failed" -eq 0 ]
