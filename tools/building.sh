# Builds a program of this repository where that has to be done. Read by ./elide and ./elide-lab, which set `root` to the
# folder that they lie in.

# Whether a source is newer than what was built of it.
source_is_newer() {
    newer=$(find "$root/crates.txt" "$root/crates" \( -name out -o -name must-fail \) -prune -o \
        -type f \( -name '*.rt' -o -name '*.antt' -o -name crates.txt \) -newer "$1" -print -quit)
    [ -n "$newer" ]
}

# The program then gets the time at which the build began, so that a source that was saved since is still newer.
build() {
    echo "$1: building" >&2
    started=$(mktemp) || return 1
    "$root/tools/build_program.py" "$1" >&2 && touch -r "$started" "$root/crates/$1/out/$1"
    built=$?
    rm -f "$started"
    return $built
}

# build_where_needed NAME: `program` is then the built program.
build_where_needed() {
    program=$root/crates/$1/out/$1
    if [ ! -x "$program" ] || source_is_newer "$program"; then
        build "$1" || { echo "$1: not built" >&2; exit 70; }
    fi
}
