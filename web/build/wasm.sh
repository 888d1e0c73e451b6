#!/bin/sh
# Makes the WebAssembly module of the page: sh web/build/wasm.sh MODULE OUT.wasm, called by tools/web.sh.
#
# MODULE is what Rattle's LLVM backend gave to clang for the static library b67_web. It is for x86-64. Here the kit's own clang
# compiles it for wasm64, with the flags that the kit gives clang for that target, and the kit's linker links it with heap.c. Four
# things are changed in the module: the layout of data, the target, the processor's name, and the attributes of stack probes. The
# two layouts agree on all that the module's code may have used: pointers of 64 bits, and the alignment of each number.
#
# Binaryen's wasm-opt then lowers the memory to one of 32 bits, which every browser since 2021 has, Safari among them, and node without a
# flag: each address loses its upper half. That half is 0, since the heap gives nothing above 2^32 bytes.
#
# The stack of 4 MiB lies below all data, so what overflows it is a trap and never a wrong number: an address below 0 is near 2^32 after
# the lowering, where no memory is. No function is imported. WASM64, if it is set, names a file for the module before it is lowered.
set -eu
[ $# = 2 ] || { echo "usage: sh web/build/wasm.sh MODULE OUT.wasm" >&2; exit 2; }
kit=$(dirname "$(dirname "$(readlink -f "$(command -v rt)")")")
clang=$kit/toolchain/bin/clang
here=$(dirname "$(readlink -f "$0")")
room=$(mktemp -d)
trap 'rm -rf "$room"' EXIT
flags="--target=wasm64-unknown-unknown -mcpu=lime1 -mllvm -expand-div-rem-bits=64 -mllvm -expand-fp-convert-bits=64
 -ffunction-sections -fdata-sections -mllvm -trap-unreachable -mllvm -disable-machine-licm -mllvm -disable-postra-machine-licm
 -mllvm -sink-common-insts=false --no-default-config -O3 -Werror"
layout='e-m:e-p:64:64-p10:8:8-p20:8:8-i64:64-i128:128-n32:64-S128-ni:1:10:20'

"$clang" --target=x86_64-unknown-linux-gnu -x ir "$1" -S -emit-llvm -Xclang -disable-llvm-passes -o "$room/x86.ll"
sed -e "s/^target datalayout = .*/target datalayout = \"$layout\"/" \
    -e 's/^target triple = .*/target triple = "wasm64-unknown-unknown"/' \
    -e '/^attributes #/s/ "probe-stack"="[^"]*"//' -e '/^attributes #/s/ "stack-probe-size"="[^"]*"//' \
    -e '/^attributes #/s/ "target-cpu"="[^"]*"/ "target-cpu"="lime1"/' -e '/^attributes #/s/ "target-features"="[^"]*"//' \
    "$room/x86.ll" >"$room/wasm.ll"
if grep -n 'x86\|asm sideeffect\|^module asm' "$room/wasm.ll" >&2; then
    echo "wasm.sh: the module has code for x86-64 alone" >&2
    exit 1
fi
# shellcheck disable=SC2086
"$clang" $flags -c -x ir "$room/wasm.ll" -o "$room/machine.o"
# shellcheck disable=SC2086
"$clang" $flags -Wall -Wextra -c -ffreestanding -nostdinc -x c "$here/heap.c" -o "$room/heap.o"
"$kit/toolchain/bin/ld.lld" -flavor wasm -mwasm64 --no-entry --stack-first -z stack-size=4194304 --fatal-warnings --gc-sections \
    --threads=1 --export=b67_web_serve --export=b67_web_find --export=b67_web_step --export=room -o "$room/linked.wasm" "$room/machine.o" "$room/heap.o"
[ -z "${WASM64-}" ] || cp "$room/linked.wasm" "$WASM64"
sh "$here/lower.sh" "$room/linked.wasm" "$2"
