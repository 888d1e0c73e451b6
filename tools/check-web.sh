#!/bin/sh
# Compares the machine of the page, web/b67.html, with the native program: from the top of the repository
#
#     sh tools/check-web.sh [PROGRAM]
#
# PROGRAM is `b67` on the path if it isn't given. Seven parts, and each line says how long one took:
#
# heap      the heap of the module by itself, built by the kit's clang and lowered by binaryen
# reader    the page's reader of images and its other parts, by node's own test runner
# page      made again by tools/web.sh from the proved crates, with the same bytes as web/b67.html; it wants the esbuild and the
#           wasm-opt by which that was made (web/README.md)
# module    each deck of decks/ by each command in the page's module and in PROGRAM: statuses, all that is printed, and the sectors
# searches  of each deck that is run: images from marks and by the command `image`; searches by one run and by a look at each state
# shell     web/b67.mjs, the machine as a command of node: decks/run.sh over it, and the rows of crates/b67_rows, with their backing files
#
# c         b67.c, made from the page by web/c/make.sh twice with the same bytes, and compiled by `cc`: the rows with their backing files, calls
#           that a shell makes, images that one of both halted and the other resumes, decks/run.sh
#
# The last line is `check-web: all the same`, or names the parts that differ or can't be tried. Seven minutes on a machine that does
# nothing else. PARTS='shell c' tries these parts alone. Status 1 if anything differs, 2 if something is missing: then what can be tried is tried. No part of the gate.
set -eu
usage() {
    echo "usage: sh tools/check-web.sh [PROGRAM]" >&2
    exit 2
}
missing() {
    echo "check-web.sh: $1" >&2
    exit 2
}
[ $# -le 1 ] || usage
case ${1-} in -*) usage ;; esac
top=$(cd "$(dirname "$0")/.." && pwd)
program=$(command -v "${1:-b67}") || missing "${1:-b67}: no such program"
page=$top/web/b67.html
[ -f "$page" ] || missing "web/b67.html isn't there: sh tools/web.sh"
command -v node >/dev/null || missing "node isn't on the path"
all='heap reader page module searches shell c'
parts=${PARTS:-$all}
for part in $parts; do
    case " $all " in *" $part "*) ;; *) missing "$part is no part: $all" ;; esac
done
room=$(mktemp -d)
trap 'rm -rf "$room"' EXIT
kit=$(command -v rt >/dev/null && dirname "$(dirname "$(readlink -f "$(command -v rt)")")")/toolchain/bin

heap() {
    [ -x "$kit/clang" ] || { echo "the kit isn't here"; return 2; }
    command -v wasm-opt >/dev/null || { echo "wasm-opt isn't on the path (Debian: apt-get install binaryen)"; return 2; }
    "$kit/clang" --target=wasm64-unknown-unknown -mcpu=lime1 --no-default-config -O3 -Wall -Wextra -Werror -ffreestanding -nostdinc \
        -c -x c "$top/web/build/heap.c" -o "$room/heap.o" &&
        heap_linked heap --max-memory=67108864 && heap_linked large &&
        node "$top/web/check/heap.mjs" "$room/heap.wasm" "$room/large.wasm"
}
# heap_linked NAME [FLAG]: the heap alone as a module, lowered as the page's is
heap_linked() {
    name=$1
    shift
    "$kit/ld.lld" -flavor wasm -mwasm64 --no-entry --stack-first "$@" --fatal-warnings --threads=1 --export=room --export=rattle_alloc \
        --export=rattle_realloc --export=rattle_dealloc --export=__multi3 -o "$room/$name.64" "$room/heap.o" &&
        sh "$top/web/build/lower.sh" "$room/$name.64" "$room/$name.wasm"
}
reader() {
    B67=$program node --test --test-reporter=tap "$top"/web/tests/*.test.js >"$room/tests" 2>&1 || { cat "$room/tests"; return 1; }
    echo "$(sed -n 's/^# pass //p' "$room/tests") tests passed"
}
page() {
    sh "$top/tools/web.sh" "$room/b67.html" || return
    if cmp -s "$room/b67.html" "$page"; then echo 'made again, with the same bytes'; else
        echo 'made again, with OTHER bytes than web/b67.html'
        return 1
    fi
}
module() {
    node "$top/web/check/compare.mjs" "$page" "$program" "$top/decks"
}
searches() {
    node "$top/web/check/searches.mjs" "$page" "$top/decks"
}
shell() {
    node "$top/web/check/shell.mjs" "$top/web/b67.mjs" "$page" "$program" "$top/decks" "$top/crates/b67_rows/data"
}
c() {
    command -v cc >/dev/null || { echo "cc isn't on the path (Debian: apt-get install gcc)"; return 2; }
    sh "$top/web/c/make.sh" "$room/b67.c" "$page" && sh "$top/web/c/make.sh" "$room/again.c" "$page" || return
    cmp "$room/b67.c" "$room/again.c" && cc -std=c99 -pedantic -O1 -Wall -Wextra -Werror -o "$room/b67-of-c" "$room/b67.c" || return 1
    node "$top/web/check/command.mjs" "$room/b67-of-c" "$program" "$top/decks" "$top/crates/b67_rows/data"
}

differ='' lacking='' begun=$(date +%s)
for part in $parts; do
    since=$(date +%s) status=0
    $part >"$room/said" 2>&1 || status=$?
    case $status in
    0) ;;
    2) lacking="$lacking $part" ;;
    *) differ="$differ $part" && sed '$d' "$room/said" ;;
    esac
    printf '%-8s %s (%d s)\n' "$part" "$(tail -1 "$room/said")" $(($(date +%s) - since))
done
took="$(($(date +%s) - begun)) s"
if [ -n "$differ" ]; then
    echo "check-web: DIFFERENT:$differ${lacking:+; not tried:$lacking} ($took)"
    exit 1
elif [ -n "$lacking" ]; then
    echo "check-web: the same, but not tried:$lacking ($took)"
    exit 2
fi
if [ "$parts" = "$all" ]; then echo "check-web: all the same ($took)"; else echo "check-web: the same: $parts ($took)"; fi
