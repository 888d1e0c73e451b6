#!/bin/sh
# Makes the page of the machine, one file that fetches nothing: from the top of the repository
#
#     sh tools/web.sh [OUT.html]
#
# OUT.html is web/b67.html if it isn't given. The crate b67_web and those below it are proved by then (`rt lib` in crates/b67_web).
# Rattle's LLVM backend gives its module for b67_web to clang (web/build/module.py), the kit's own clang compiles that for WebAssembly
# (web/build/wasm.sh), Debian's binaryen lowers its memory to 32 bits (web/build/lower.sh), and the page's parts are joined (web/build/join.py, by
# Debian's esbuild). All other tools but the shell and python3 are the kit's, and nothing of it is kept. One tree, one kit, one
# binaryen and one esbuild give the same bytes each time. Some two minutes. Status 2 if something is missing.
set -eu
usage() {
    echo "usage: sh tools/web.sh [OUT.html]" >&2
    exit 2
}
missing() {
    echo "web.sh: $1" >&2
    exit 2
}
[ $# -le 1 ] || usage
case ${1-} in -*) usage ;; esac
top=$(cd "$(dirname "$0")/.." && pwd)
out=${1:-$top/web/b67.html}
[ -d "$(dirname "$out")" ] || missing "$(dirname "$out"): no such folder"
command -v rt >/dev/null || missing "rt, the command of the Rattle kit, isn't on the path"
command -v python3 >/dev/null || missing "python3 isn't on the path"
command -v esbuild >/dev/null || missing "esbuild isn't on the path (Debian: apt-get install esbuild)"
command -v wasm-opt >/dev/null || missing "wasm-opt isn't on the path (Debian: apt-get install binaryen)"
kit=$(dirname "$(dirname "$(readlink -f "$(command -v rt)")")")
for tool in clang ld.lld; do
    [ -x "$kit/toolchain/bin/$tool" ] || missing "the kit has no toolchain/bin/$tool"
done

room=$(mktemp -d)
trap 'rm -rf "$room"' EXIT
python3 "$top/web/build/module.py" "$room/b67.bc" 2>"$room/said" || {
    status=$?
    [ $status = 2 ] || { cat "$room/said" >&2; exit 1; }
    missing "$(tail -1 "$room/said")"
}
sh "$top/web/build/wasm.sh" "$room/b67.bc" "$room/b67.wasm"
python3 "$top/web/build/join.py" "$room/b67.wasm" "$room/b67.html"
mv "$room/b67.html" "$out"
echo "$out: $(wc -c <"$out") bytes, the module $(wc -c <"$room/b67.wasm")"
