#!/usr/bin/env bash
# Builds each lock of locks/ with each program of work/, by GCC and by clang, into images/gcc and images/clang, or below
# the folder that is named. A compiler that is not there is passed over.
#
#   study/build.sh [FOLDER]
#
# On Debian: apt-get install gcc-riscv64-unknown-elf clang lld
set -eu
here=$(cd "$(dirname "$0")" && pwd)
to=${1-$here/images}
runtime=$here/../examples/runtime

machine=(-march=rv32ima -mabi=ilp32 -mstrict-align)
code=(-std=c11 -O2 -Wall -Wextra -ffreestanding -fno-builtin -fno-pic -I "$here" -I "$here/work" -I "$runtime")
link=(-nostdlib -static -Wl,-T,"$runtime/elide.ld" -Wl,-z,max-page-size=64 -Wl,--build-id=none)

# images NAME COMPILER..: all images by this compiler. Their symbols stay, for programs that show addresses.
images() {
    local name=$1 lock work
    shift
    mkdir -p "$to/$name"
    for lock in "$here"/locks/*; do
        for work in accounts apart beside counter overflow readers table; do
            "$@" "${machine[@]}" "${code[@]}" "$runtime/start.S" "$runtime/runtime.c" "$here/work/main.c" \
                "$here/work/$work.c" "$lock" "${link[@]}" -o "$to/$name/$work-$(basename "${lock%.*}").elf"
        done
    done
}

built=0
if command -v riscv64-unknown-elf-gcc > /dev/null; then
    images gcc riscv64-unknown-elf-gcc -fno-tree-loop-distribute-patterns
    built=1
fi
if command -v clang > /dev/null && command -v ld.lld > /dev/null; then
    images clang clang --target=riscv32-unknown-elf -Qunused-arguments -fuse-ld=lld
    built=1
fi
if [ $built -eq 0 ]; then
    echo "study: no compiler for RISC-V is here; on Debian: apt-get install gcc-riscv64-unknown-elf" >&2
    exit 3
fi
