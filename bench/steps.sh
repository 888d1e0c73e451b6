#!/bin/sh
# The instructions of one operator, by valgrind: each deck runs with two limits, and the difference is divided by the
# operators between. The same on every machine. Takes the built program's path (default crates/b67/out/b67):
# `sh bench/steps.sh [PROGRAM]`. It wants valgrind.
# The last line is the whole run of the paging deck, in millions of instructions.
set -eu
here=$(cd "$(dirname "$0")" && pwd)
program=${1:-$here/../crates/b67/out/b67}
usage() {
    echo "$1" >&2
    echo "usage: sh bench/steps.sh [PROGRAM]" >&2
    exit 2
}
[ $# -le 1 ] || usage "one program at most"
command -v "$program" >/dev/null && [ ! -d "$program" ] || usage "$program: not a program that can be run"
command -v valgrind >/dev/null || usage "valgrind isn't on the path"
room=$(mktemp -d)
trap 'rm -rf "$room"' EXIT

# instructions of a run of the deck on standard input, at a size of core
count() {
    valgrind --tool=callgrind --callgrind-out-file=/dev/null "$program" run --core "$1" --backing "$room/b" 2>&1 >"$room/lines" |
        sed -n 's/.*Collected : *\([0-9]*\).*/\1/p'
}

# name, deck, core
row() {
    few=$(sed 's/^?LIMIT .*/?LIMIT 200000/' "$2" | count "$3")
    many=$(sed 's/^?LIMIT .*/?LIMIT 400000/' "$2" | count "$3")
    grep -q LIMIT "$room/lines" || echo "$1: ended before its limit" >&2
    echo "$1 $3 $(((many - few) / 200000))"
}

echo "deck core instructions-an-operator"
for core in 4096 1048575; do
    row counting "$here/count.deck" $core
    row calls "$here/calls.deck" $core
    row elements "$here/elements.deck" $core
    row thunks "$here/thunks.deck" $core
    row locals "$here/locals.deck" $core
    row array-loop "$here/array-loop.deck" $core
    row array-calls "$here/array-calls.deck" $core
done
for deck in sieve outer-cells outer-arrays quicksort small-arrays intrinsic hand-over prints; do
    row $deck "$here/$deck.deck" 8192
done
# each operator is a turn of its own
for deck in count calls; do
    sed 's/^?JOB/?QUANTUM 1\n?JOB/' "$here/$deck.deck" >"$room/turns"
    row $deck-quantum-1 "$room/turns" 4096
done
# the outer block calls its procedure again and again
sed -e '0,/^MKST$/s//L: MKST/' -e '0,/^EXIT$/s//BRUN L/' -e 's/^?ASM/?LIMIT 1\n?ASM/' "$here/../decks/manboy/stdin" >"$room/manboy"
row man-or-boy "$room/manboy" 32768
# a translator and interpreter of PL/0, from ALGOL 60: in ample core, and where it pages
if command -v node >/dev/null && node "$here/../algol/algol.mjs" "$here/../algol/programs/pl0.alg" >"$room/pl0"; then
    row pl0 "$room/pl0" 65536
    row pl0 "$room/pl0" 2300
fi
# the same loop by one task alone, and while others live
few=$(sh "$here/tasks.sh" 0 200000 | sed '/^?SWITCH/d; /^?END/q' | count 16384)
many=$(sh "$here/tasks.sh" 0 400000 | sed '/^?SWITCH/d; /^?END/q' | count 16384)
echo "counting-alone 16384 $(((many - few) / 200000))"
for children in 0 14; do
    few=$(sh "$here/tasks.sh" $children 200000 | count 16384)
    many=$(sh "$here/tasks.sh" $children 400000 | count 16384)
    echo "counting-while-$((8 + 8 * children))-tasks-live 16384 $(((many - few) / 200000))"
done
sh "$here/arrays.sh" | sed 's/^LT8 100 .*/LT8 20/' >"$room/arrays"
echo "paging-total 1910 $(($(count 1910 <"$room/arrays") / 1000000))"
echo "present-total 65536 $(($(count 65536 <"$room/arrays") / 1000000))"
