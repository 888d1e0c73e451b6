#!/bin/sh
# Makes the proved program as one file of C, out of the WebAssembly module of the page: from the top of the repository
#
#     sh web/c/make.sh OUT.c [PAGE]
#
# PAGE is web/b67.html unless it is given. `cc -O2 -o b67 OUT.c` then makes the command `b67`. wasm2c of Debian's package wabt turns the
# module into C. Of its output the functions and the data are kept; wasm.h replaces what stands above them, and host.c follows. The functions
# are changed in two ways: a module has one memory, so no access names it, and exports are called directly. One page gives the same bytes each
# time. Status 2 if something is missing.
set -eu
usage() {
    echo "usage: sh web/c/make.sh OUT.c [PAGE]" >&2
    exit 2
}
missing() {
    echo "make.sh: $1" >&2
    exit 2
}
[ $# -ge 1 ] && [ $# -le 2 ] || usage
case $1 in -* | '') usage ;; *.c) ;; *) missing "$1: the name of a file of C ends in .c" ;; esac
[ ! -d "$1" ] && [ -d "$(dirname "$1")" ] || missing "$1: not a file that can be written"
here=$(cd "$(dirname "$0")" && pwd)
page=${2:-$here/../b67.html}
[ -f "$page" ] || missing "$page: no such page"
for tool in wasm2c base64 sha256sum; do
    command -v $tool >/dev/null || missing "$tool isn't on the path (Debian: apt-get install wabt coreutils)"
done
[ "$(wasm2c --version)" = 1.0.32 ] || missing "wasm2c is of version $(wasm2c --version), and this is made for 1.0.32, that of Debian 12"
room=
trap 'rm -rf "$room"' EXIT
trap 'exit 130' HUP INT TERM
room=$(mktemp -d)

sed -n '/^AGFzb[A-Za-z0-9+/]*=*$/{p;q;}' "$page" | base64 -d >"$room/b67.wasm"
[ -s "$room/b67.wasm" ] || missing "$page holds no module of the machine"
wasm2c --module-name b67 "$room/b67.wasm" -o "$room/b67.c" || missing "wasm2c doesn't accept this module: its memory must be one of 32 bits"
# From the first declaration to the first export.
awk '/^static [a-z0-9]+ w2c_/ { on = 1 } /^\/\* export:/ { exit } on' "$room/b67.c" |
    sed -e 's/&instance->w2c_memory, &instance->w2c_memory, //' -e 's/&instance->w2c_memory, //' \
        -e 's/instance->w2c_memory\.pages/memory_pages()/' -e 's/LOAD_DATA(instance->w2c_memory, /LOAD_DATA(/' >"$room/functions"
if grep -n 'CALL_INDIRECT\|[^a-z_]f\(32\|64\) ' "$room/functions" >&2 || [ ! -s "$room/functions" ]; then
    missing "this module has a table or floating-point numbers, and wasm.h has neither"
fi
{
    echo "// b67 as one file of C: cc -O2 -o b67 b67.c"
    echo "//"
    echo "// Made by wasm2c $(wasm2c --version) from the WebAssembly module of b67.html, whose SHA-256 is"
    echo "// $(sha256sum <"$room/b67.wasm" | cut -d' ' -f1)"
    echo
    cat "$here/wasm.h" "$room/functions" "$here/host.c"
} >"$room/out.c"
cp "$room/out.c" "$1"
echo "$1: $(wc -c <"$1") bytes, the module $(wc -c <"$room/b67.wasm")"
