#!/usr/bin/env bash
# Builds the example images into their folders, or below the folder that is named.
#
#   examples/build.sh [FOLDER]
#
# It takes GCC for RISC-V, else clang with lld. On Debian:
#
#   apt-get install gcc-riscv64-unknown-elf        or        apt-get install clang lld
set -eu
here=$(cd "$(dirname "$0")" && pwd)
to=${1-$here}

machine=(-march=rv32ia -mabi=ilp32 -mstrict-align)
code=(-std=c11 -O2 -Wall -Wextra -ffreestanding -fno-builtin -fno-pic)
link=(-nostdlib -static -Wl,-T,"$here/runtime/elide.ld" -Wl,-z,max-page-size=64 -Wl,--build-id=none -s)

if command -v riscv64-unknown-elf-gcc > /dev/null; then
    compile=(riscv64-unknown-elf-gcc "${machine[@]}" -fno-tree-loop-distribute-patterns)
elif command -v clang > /dev/null && command -v ld.lld > /dev/null; then
    compile=(clang --target=riscv32-unknown-elf "${machine[@]}" -Qunused-arguments -fuse-ld=lld)
else
    echo "examples: no compiler for RISC-V is here; on Debian: apt-get install gcc-riscv64-unknown-elf" >&2
    exit 3
fi

# image NAME SOURCE..: the image NAME/NAME.elf
image() {
    local name=$1
    shift
    mkdir -p "$to/$name"
    "${compile[@]}" "${code[@]}" -I "$here/runtime" "$@" "$here/runtime/start.S" "${link[@]}" -o "$to/$name/$name.elf"
}

runtime=("$here/runtime/runtime.c" "$here/runtime/arithmetic.c")
image hello "$here/hello/hello.S"
image courtesy "$here/courtesy/courtesy.S"
image table "$here/table/table.c" "${runtime[@]}"
image counter "$here/counter/counter.c" "${runtime[@]}"
# With the M extension, and so without the functions that stand in for it: a later -march holds.
image products -march=rv32ima "$here/products/products.c" "$here/runtime/runtime.c"

# lock NAME SOURCE..: the image locks/NAME.elf, without relaxation, so that both linkers leave every `la` and
# `call` two instructions, and the counts of locks/check.sh hold of either's image
lock() {
    local name=$1
    shift
    mkdir -p "$to/locks"
    "${compile[@]}" "${code[@]}" -I "$here/runtime" -I "$here/locks" "$@" "$here/runtime/start.S" \
        "${link[@]}" -Wl,--no-relax -o "$to/locks/$name.elf"
}

for name in private lock_word overflow; do
    lock "$name" "$here/locks/$name.S" "$here/locks/finish.S"
done
for name in private_in_c mutex_in_c compare_in_c accounts; do
    lock "$name" "$here/locks/$name.c" "${runtime[@]}"
done
