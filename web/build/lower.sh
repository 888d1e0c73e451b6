#!/bin/sh
# Lowers a module's memory of 64 bits to one of 32 bits: sh web/build/lower.sh MODULE OUT.wasm, called by web/build/wasm.sh, and by
# tools/check-web.sh for the heap by itself. Debian's binaryen does it. What its pass needs to know is which features the kit's clang
# uses (-mcpu=lime1); the numbers of functions keep their 64 bits.
set -eu
[ $# = 2 ] || { echo "usage: sh web/build/lower.sh MODULE OUT.wasm" >&2; exit 2; }
exec wasm-opt --enable-memory64 --enable-bulk-memory --enable-multivalue --enable-sign-ext --enable-mutable-globals \
    --enable-nontrapping-float-to-int --enable-extended-const --memory64-lowering "$1" -o "$2"
