#!/usr/bin/env bash
# What the scripts ./elide and ./elide-lab say themselves: help, a version, a line behind the statuses 4 and 5, and on a
# terminal a line of help behind a refusal. The last line counts the tries.
set -u
cd "$(dirname "$0")/.." || exit 2
passed=0
failed=0
image=crates/elide/data/hello.elf
folder=$(mktemp -d) || exit 1
trap 'rm -rf "$folder"' EXIT

# count WORD..: counts what was tried just before, and names it by these words where it went otherwise
count() {
    if [ $? -eq 0 ]; then
        passed=$((passed + 1))
    else
        echo "words: otherwise: $*"
        failed=$((failed + 1))
    fi
}

# says STATUS TEXT WORD..: with these words the status is this, and this text is all that standard error gets
says() {
    local status=$1 text=$2 said
    shift 2
    said=$(./elide "$@" 2>&1 > /dev/null)
    [ $? -eq "$status" ] && [ "$said" = "$text" ]
    count "$@"
}

# on_terminal LAST WORD..: with these words this is the last line that a terminal gets
on_terminal() {
    local last=$1
    shift
    [ "$(script -qec "./elide $*" /dev/null | tr -d '\r' | tail -1)" = "$last" ]
    count "$@" on a terminal
}

help=$(./elide --help 2> "$folder/err") && [ ! -s "$folder/err" ]
count --help
# Each option of the program stands in the help, and its range: `crates/command_line/README.md` writes numbers with commas.
while IFS='|' read -r _ option _ range _; do
    option=$(echo "$option" | tr -d ' `' | sed 's/[A-Z]*$//')
    range=$(echo "$range" | sed 's/;.*//; s/ but .*//; s/,\([0-9]\{3\}\)/\1/g; s/`//g; s/^ *//; s/ *$//')
    echo "$help" | grep -q -e "$option" || false
    count "--help has $option"
    case $range in
        [0-9]*) echo "$help" | grep -e "$option" | grep -q "${range/ or /, }" ;;
        *) true ;;
    esac
    count "--help has the range of $option: $range"
done < <(sed -n '/^## The options of a run$/,/^## The options of a replay$/p' crates/command_line/README.md | grep '^| `--')

version=$(./elide --version 2> "$folder/err") && [ ! -s "$folder/err" ]
count --version
[ "$version" = "elide $(sed -n 's/^## \([0-9]\)/\1/p' CHANGELOG.md | head -1)" ]
count CHANGELOG.md names the version
grep -qF "Version ${version#elide }." README.md
count README.md names the version
[ "$(./elide-lab --version)" = "elide-lab ${version#elide }" ]
count the laboratory names the version
[ "$(./elide-lab info "$folder/none" 2>&1)" = "elide-lab: no such file: $folder/none" ]
count the laboratory names a file that is not there
[ "$(./elide-lab page $image /dev/null "$folder/none/page" 2>&1)" = "error: /dev/null: trace fault 1 Short at byte 0" ]
count the laboratory refuses a trace

usage=$(crates/elide/out/elide 2>&1)
says 2 "$usage
$help"
says 2 "$usage" --help again
says 4 "elide: no such file: $folder/none" run "$folder/none"
says 4 "elide: no such file: $folder/none" run --harts 2 --mode=sle --times -- "$folder/none"
says 4 "elide: a folder, and no file: $folder" run "$folder"
says 4 "elide: no such folder: $folder/none" run "$image" --trace "$folder/none/trace"
says 4 "elide: no such folder: $folder/none" run "$image" --cert="$folder/none/cert"
says 4 "elide: a folder, and no file: $folder" run --trace "$folder" "$image"
says 4 "elide: no such file: $folder/none" replay "$image" "$folder/none"
says 4 "elide: no such file: $folder/none" check "$image" "$folder/none"
says 4 "elide: no such folder: $folder/none" gen counter 1 "$folder/none/image"
if [ "$(id -u)" -ne 0 ]; then
    cp "$image" "$folder/closed" && chmod 000 "$folder/closed"
    says 4 "elide: cannot be read: $folder/closed" run "$folder/closed"
    chmod 500 "$folder"
    says 4 "elide: cannot be written: $folder/new" run "$image" --trace "$folder/new"
    chmod 700 "$folder"
fi
if [ -w /dev/full ]; then
    said=$(./elide run "$image" 2>&1 > /dev/full)
    [ $? -eq 4 ] && [ "$said" = "elide: a stream or a file failed while it was read or written" ]
    count run to a full device
fi
said=$( (ulimit -v 100000 && ./elide run "$image" --steps 16777216) 2>&1 > /dev/null)
[ $? -eq 5 ] && [ "$said" = "elide: out of memory" ]
count run with too little memory
if command -v script > /dev/null; then
    on_terminal "help: --harts takes 1 to 8" run "$image" --harts 9
    on_terminal "help: --long takes 2 to 65536" run "$image" --long 1
    on_terminal "help: this is no ELF file" run "$folder/err"
    on_terminal "help: ./elide --help has the words of each command" walk
    on_terminal "serial 9 out 2" run "$image"
fi
echo "$passed passed, $failed failed"
[ "$failed" -eq 0 ]
