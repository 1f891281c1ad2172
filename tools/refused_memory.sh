#!/usr/bin/env bash
# Refuses each allocation of each command in turn, and lets each read, write and open fail or give one byte alone, and
# compares what is left with a run in which nothing failed. docs/HOSTILE.md has what it found.
#
#   tools/refused_memory.sh [IMAGE]
#
# It needs a C compiler. The last line counts the runs; status 1 where one went wrong. It prints a line for each command and
# kind of call: how many calls there were, and how many ended with which status.
set -u
cd "$(dirname "$0")/.." || exit 2
image=${1:-crates/elide/data/hello.elf}
work=$(mktemp -d) || exit 2
trap 'rm -rf "$work"' EXIT
./elide run "$image" > /dev/null 2>&1 # builds the program where it is not built
cc -shared -fPIC -O2 -o "$work/failing.so" tools/failing_calls.c || exit 2
program=$PWD/crates/elide/out/elide
runs=0
wrong=0

# run_with FAIL WORD..: runs the program with one call that fails, in a folder of its own; `status` is how it ended
run_with() {
    local fail=$1
    shift
    rm -rf "$work/now" "$work/reached" && mkdir "$work/now"
    cp "$work/given/"* "$work/now/"
    (cd "$work/now" && FAIL=$fail REACHED=$work/reached LD_PRELOAD=$work/failing.so "$program" "$@" > ../out 2> ../err)
    status=$?
}

# is_prefix FILE WHOLE
is_prefix() {
    cmp -s -n "$(stat -c %s "$1")" "$1" "$2" && [ "$(stat -c %s "$1")" -le "$(stat -c %s "$2")" ]
}

# is_left FILE: a file that the command writes is not there, or is whole; where its write failed, it may be cut
is_left() {
    [ ! -e "$work/now/$1" ] || cmp -s "$work/now/$1" "$work/whole/$1" ||
        { [ "$status" -eq 4 ] && is_prefix "$work/now/$1" "$work/whole/$1"; }
}

# is_whole WRITTEN..: everything is as if nothing had failed
is_whole() {
    local file
    [ "$status" -eq "$ended" ] && cmp -s "$work/out" "$work/whole.out" && cmp -s "$work/err" "$work/whole.err" || return 1
    for file in "$@"; do cmp -s "$work/now/$file" "$work/whole/$file" || return 1; done
}

# is_right KIND WRITTEN..: what is left where a call of this kind failed
is_right() {
    local kind=$1 file
    shift
    for file in "$@"; do is_left "$file" || return 1; done
    case $kind in
        malloc) # all of out or nothing of it, and nothing on err; or a list that was refused room to double took what it needs
            [ "$status" -eq 5 ] && [ ! -s "$work/err" ] && { [ ! -s "$work/out" ] || cmp -s "$work/out" "$work/whole.out"; } ||
                is_whole "$@" ;;
        short-*) is_whole "$@" ;;
        *) # nothing that was put is lost, and nothing is put that would not have been
            [ "$status" -eq 4 ] && is_prefix "$work/out" "$work/whole.out" && is_prefix "$work/err" "$work/whole.err" ;;
    esac
}

# each_call_fails WRITTEN WORD..: each call of each kind fails in a run of its own
each_call_fails() {
    local written=$1 kind number
    shift
    run_with none "$@"
    ended=$status
    rm -rf "$work/whole" && mv "$work/now" "$work/whole"
    mv "$work/out" "$work/whole.out" && mv "$work/err" "$work/whole.err"
    for kind in malloc read write open short-read short-write; do
        number=1
        : > "$work/statuses"
        while run_with "$kind:$number" "$@"; [ -e "$work/reached" ]; do
            echo "$status" >> "$work/statuses"
            runs=$((runs + 1))
            # shellcheck disable=SC2086
            if ! is_right "$kind" $written; then
                echo "refused_memory: $*: $kind $number ends with $status"
                wrong=$((wrong + 1))
            fi
            number=$((number + 1))
        done
        echo "$*: $kind $((number - 1)): $(sort "$work/statuses" | uniq -c | awk '{ printf "%s%d with %d", (NR > 1 ? ", " : ""), $1, $2 }')"
    done
}

mkdir "$work/given"
cp "$image" "$work/given/image"
(cd "$work/given" && "$program" run image --harts 2 --trace trace --cert cert > /dev/null 2>&1)
head -c 22 "$work/given/trace" > "$work/given/cut"
each_call_fails "" run image
each_call_fails "t c" run image --harts 2 --trace t --cert c --times
each_call_fails "t" run image --harts 2 --mode plain --threads 20 --trace t
each_call_fails "" replay image trace
each_call_fails "t" replay image trace --trace t --times
each_call_fails "" look image trace 20 --back 3
each_call_fails "" find image trace 0 65644
each_call_fails "" check image cert
each_call_fails "g" gen bank 7 g
each_call_fails "g" gen pairs 1 g
each_call_fails "" run
each_call_fails "" run image --harts 9
each_call_fails "" run trace
each_call_fails "" replay image cut
echo "$runs runs, $wrong wrong"
[ "$wrong" -eq 0 ]
