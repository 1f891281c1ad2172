# What the scripts ./elide and ./elide-lab say beside their programs: help and the version of the first, and a line where
# a program says nothing. They set `root` before they read this. The programs' own bytes are passed on as they are.

# The part of README.md between its two marks, with its tables in columns.
help() {
    sed -n '/^<!-- help -->$/,/^<!-- end of help -->$/p' "$root/README.md" | awk '
        function flush(    row, at, line, cells) {
            for (row = 1; row <= rows; row++) {
                line = ""
                for (at = 2; at < columns; at++)
                    line = line sprintf("  %-" (at < columns - 1 ? width[at] : 1) "s", cell[row, at])
                sub(/ +$/, "", line)
                print line
            }
            for (at in width) delete width[at]
            rows = 0
        }
        /^<!--/ || /^\|[-|]*\|$/ { next }
        { gsub(/`/, "") }
        /^\|/ {
            rows++
            columns = split($0, cells, "|")
            for (at = 2; at < columns; at++) {
                gsub(/^ +| +$/, "", cells[at])
                cell[rows, at] = cells[at]
                if (length(cells[at]) > width[at]) width[at] = length(cells[at])
            }
            next
        }
        { flush(); print }
        END { flush() }'
}

# The version is the one that CITATION.cff names.
version() {
    echo "elide $(sed -n 's/^version: *//p' "$root/CITATION.cff")"
}

# Why a file that was to be read may not have been, or nothing.
why_unread() {
    if [ ! -e "$1" ]; then
        echo "$name: no such file: $1"
    elif [ -d "$1" ]; then
        echo "$name: a folder, and no file: $1"
    elif [ ! -r "$1" ]; then
        echo "$name: cannot be read: $1"
    fi
}

# Why a file that was to be written may not have been, or nothing.
why_unwritten() {
    folder=$(dirname -- "$1")
    if [ -d "$1" ]; then
        echo "$name: a folder, and no file: $1"
    elif [ ! -d "$folder" ]; then
        echo "$name: no such folder: $folder"
    elif { [ -e "$1" ] && [ ! -w "$1" ]; } || { [ ! -e "$1" ] && [ ! -w "$folder" ]; }; then
        echo "$name: cannot be written: $1"
    fi
}

# failed_file WORD..: why the first of a command's files failed, or nothing. Positional words are files to be read, which
# comes first, but for the words of `gen` and the numbers of `look`, `find` and `state`; the third words of `gen` and `page`
# and the values of --trace and --cert are written. The value of --order is read.
failed_file() {
    command=$1
    shift
    at=0
    ended=
    unread=
    unwritten=
    while [ $# -gt 0 ]; do
        case $ended$1 in
            --) ended=: ;;
            --trace=* | --cert=*) written "${1#*=}" ;;
            --trace | --cert)
                [ $# -lt 2 ] || shift
                written "$1"
                ;;
            --order=*) unread_yet "${1#*=}" ;;
            --order)
                [ $# -lt 2 ] || shift
                unread_yet "$1"
                ;;
            --times | --all | --json | --csv | --*=*) ;;
            --*) [ $# -lt 2 ] || shift ;;
            *)
                at=$((at + 1))
                case $command:$at in
                    gen:1 | gen:2 | look:3 | find:3 | find:4 | state:3) ;;
                    gen:* | page:3) written "$1" ;;
                    *) unread_yet "$1" ;;
                esac
                ;;
        esac
        shift
    done
    echo "${unread:-$unwritten}"
}

# A file that a command reads.
unread_yet() {
    [ -n "$unread" ] || unread=$(why_unread "$1")
}

# A file that a command writes.
written() {
    [ -n "$unwritten" ] || unwritten=$(why_unwritten "$1")
}

# What a refusal asks for, by its line.
cure() {
    case $1 in
        usage:*) echo "./elide --help has the words of each command" ;;
        'config fault 1 '*) echo "--harts takes 1 to 8" ;;
        'config fault 2 '*) echo "--sets takes 1, 2, 4, 8, 16, 32 or 64" ;;
        'config fault 3 '*) echo "--ways takes 1 to 8" ;;
        'config fault 4 '*) echo "--lines takes 1 to 32" ;;
        'config fault 5 '*) echo "--long takes 2 to 65536" ;;
        'config fault 6 '*) echo "--steps takes 1 to 16777216" ;;
        'image fault 1 '* | 'image fault 2 '*) echo "this is no ELF file" ;;
        'image fault 3 '*) echo "not of 32 bits: build with -march=rv32ima -mabi=ilp32" ;;
        'image fault 4 '*) echo "not little-endian: build for a little-endian machine" ;;
        'image fault 5 '*) echo "not of version 1 of the ELF format" ;;
        'image fault 6 '*) echo "no executable of fixed addresses: link it, with -static and without -pie" ;;
        'image fault 7 '*) echo "built for another machine than RISC-V: name the compiler for RISC-V" ;;
        'image fault 8 '*) echo "compressed or floating-point: build with -march=rv32ima -mabi=ilp32" ;;
        'image fault 9 '*) echo "its table of program headers is broken: was the file cut?" ;;
        'image fault 10 '*) echo "dynamic: link with -static" ;;
        'image fault 11 '*) echo "a segment is not whole: link with -s in place of strip; was the file cut?" ;;
        'image fault 12 '*) echo "two segments overlap: see the linker script" ;;
        'image fault 13 '*) echo "more than 16 MiB with stacks: take a linker script such as examples/runtime/elide.ld" ;;
        'image fault 14 '*) echo "above address ffff0000 with stacks: place it lower" ;;
        'image fault 15 '*) echo "no code at the entry: define _start, or name another entry with -e" ;;
        'image fault 16 '*) echo "nothing to load: link it with code" ;;
        'trace fault '*) echo "no trace of elide as run --trace writes it: was it cut or changed?" ;;
        'certificate fault '*) echo "no certificate as run --cert writes it: docs/CERTIFICATES.md" ;;
        'file too big: '*) echo "is this the file that was meant?" ;;
        'place over the end: '*) echo "a place is a number of events, from 0 to those of the trace" ;;
        'back over the start: '*) echo "--back takes at most the place" ;;
        'no such hart'*) echo "the trace has fewer harts: they are numbered from 0" ;;
    esac
}

# run_and_say NAME WORD..: runs the program, and says behind it what its status leaves open, under this name. On a terminal
# a refusal gets a line of help: that of its line, behind 'error: FILE: ' where it has that.
run_and_say() {
    name=$1
    shift
    if [ -t 2 ]; then
        said=$(mktemp) || exit 70
        help_line=
        "$program" "$@" 2>"$said"
        status=$?
        cat "$said" >&2
        [ $status -ne 2 ] || help_line=$(cure "$(sed 's/^error: [^:]*: //' "$said")")
        rm -f "$said"
        [ -z "$help_line" ] || echo "help: $help_line" >&2
    else
        "$program" "$@"
        status=$?
    fi
    case $name:$status:$# in
        elide:2:0) help >&2 ;;
        *:4:*)
            why=$(failed_file "$@")
            echo "${why:-$name: a stream or a file failed while it was read or written}" >&2
            ;;
        *:5:*) echo "$name: out of memory" >&2 ;;
    esac
    exit $status
}
