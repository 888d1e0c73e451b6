#!/bin/sh
# What an operator, a call or a store costs as something grows, in instructions counted by valgrind: the displacement of a cell,
# also of a parent's that a child uses, the level of a call, the tasks that are ready, and areas that nobody uses any more. Each figure
# is the difference of two runs of a loop, so what a run costs before the loop isn't in it. Takes the built program's path (default crates/b67/out/b67):
# `sh bench/growth.sh [PROGRAM]`. It wants valgrind, and takes some minutes.
set -eu
here=$(cd "$(dirname "$0")" && pwd)
program=${1:-$here/../crates/b67/out/b67}
usage() {
    echo "$1" >&2
    echo "usage: sh bench/growth.sh [PROGRAM]" >&2
    exit 2
}
[ $# -le 1 ] || usage "one program at most"
command -v "$program" >/dev/null && [ ! -d "$program" ] || usage "$program: not a program that can be run"
command -v valgrind >/dev/null || usage "valgrind isn't on the path"
room=$(mktemp -d)
trap 'rm -rf "$room"' EXIT

# instructions of a run of the deck on standard input, at a size of core
count() {
    valgrind --tool=callgrind --callgrind-out-file=/dev/null "$program" run --core "$1" --backing "$room/b" 2>&1 >"$room/lines" |
        sed -n 's/.*Collected : *\([0-9]*\).*/\1/p'
    grep -q 'ENDED\|LIMIT' "$room/lines" || { echo "no end: $(tail -n 1 "$room/lines")" >&2; exit 1; }
}

# cards TIMES CARD..: the cards, so many times
cards() {
    times=$1
    shift
    while [ "$times" -gt 0 ]; do
        printf '%s\n' "$@"
        times=$((times - 1))
    done
}

begin() {
    printf '?STACK %s\n?JOB GROWTH\n?LIMIT 100000000\n?ASM\nSEGMENT MAIN 2\n' "$1"
}

# ends a loop whose first card has the label L and whose count lies on top
turn() {
    printf '%s\n' ONE SUBT DUPL ZERO NEQL 'BRTR L' EXIT
}

# a call of a procedure whose cell lies at this displacement, so many times
calls_at() {
    begin 16383
    cards $(($1 - 2)) ZERO
    printf '%s\n' 'MPCW P' "LT48 $2" 'L: MKST' "NAMC 2,$1" ENTR
    turn
    printf '%s\n' 'SEGMENT P 3' EXIT '?END'
}

# ten times VALC and DLET of the cell at this displacement, one level up, in a procedure that is called so many times
cells_at() {
    begin 16383
    cards $(($1 - 1)) ZERO
    printf '%s\n' 'MPCW P' "LT48 $2" 'L: MKST' "NAMC 2,$(($1 + 1))" ENTR
    turn
    echo 'SEGMENT P 3'
    cards 10 "VALC 2,$1" DLET
    printf '%s\n' EXIT '?END'
}

# a call of a procedure at this level, so many times
calls_deep() {
    begin 16383
    printf '%s\n' 'MPCW P3' MKST 'NAMC 2,2' ENTR EXIT
    level=3
    while [ $level -lt $(($1 - 1)) ]; do
        printf '%s\n' "SEGMENT P$level $level" "MPCW P$((level + 1))" MKST "NAMC $level,2" ENTR EXIT
        level=$((level + 1))
    done
    printf '%s\n' "SEGMENT P$level $level" "MPCW P$1" "LT48 $2" 'L: MKST' "NAMC $level,2" ENTR
    turn
    printf '%s\n' "SEGMENT P$1 $1" EXIT '?END'
}

# a child counts in its parent's cell at this displacement, so many times
childs_cell_at() {
    begin 8191
    cards $(($1 - 1)) ZERO
    printf '%s\n' 'MPCW P' MKST 'NAMC 0,13' MKST 'NAMC 0,12' "NAMC 2,$(($1 + 1))" ENTR ENTR EXIT 'SEGMENT P 3' "LT48 $2"
    printf '%s\n' "L: VALC 2,$1" ONE ADD "NAMC 2,$1" STOD
    turn
    echo '?END'
}

# a child calls its parent's procedure, whose cell lies at this displacement, so many times
childs_calls_at() {
    begin 8191
    cards $(($1 - 2)) ZERO
    printf '%s\n' 'MPCW Q' 'MPCW P' MKST 'NAMC 0,13' MKST 'NAMC 0,12' "NAMC 2,$(($1 + 1))" ENTR ENTR EXIT 'SEGMENT P 3' "LT48 $2"
    printf '%s\n' 'L: MKST' "NAMC 2,$1" ENTR
    turn
    printf '%s\n' 'SEGMENT Q 3' EXIT '?END'
}

# so many jobs of so many tasks count in turns of this many operators, each up to a limit
tasks_ready() {
    printf '?STACK 64\n?QUANTUM %s\n' "$3"
    job=1
    while [ $job -le "$1" ]; do
        printf '?JOB J%s\n?LIMIT %s\n?ASM\nSEGMENT M 2\nMPCW C\nZERO\n' $job "$4"
        cards $(($2 - 1)) MKST 'NAMC 0,12' 'NAMC 2,2' ENTR
        printf '%s\n' 'L: ONE' ADD 'BRUN L' 'SEGMENT C 3' ZERO 'L: ONE' ADD 'BRUN L' '?END'
        job=$((job + 1))
    done
}

# the cards of a store into each of these cells' arrays
stores() {
    for cell; do
        printf '%s\n' ONE "NAMC 2,$cell" ZERO INDX STOD
    done
}

# so many arrays of 300 words, then a loop over stores into those of a pattern, so many times; in core is room for twenty
# shellcheck disable=SC2046 # a word for each cell
arrays() {
    begin 1024
    case $1 in dead) made=31 ;; hot) made=41 ;; *) made=40 ;; esac
    cards $made MKST 'NAMC 0,8' 'LT16 300' ENTR
    case $1 in
    dead)
        # twenty are used once; then a hot one and ten others in turn
        stores $(seq 2 21)
        loop=$(stores $(seq 23 32 | sed 's/^/22 /'))
        ;;
    turn) loop=$(stores $(seq 2 41)) && stores $(seq 2 41) ;;
    hot) loop=$(stores $(seq 3 42 | sed 's/^/2 /')) && stores 2 ;;
    random)
        # the first ones more often
        loop=$(stores $(awk 'BEGIN { x = 5; for (i = 0; i < 120; i++) { x = (x * 16807) % 2147483647; r = x / 2147483647; print 2 + int(40 * r * r) } }'))
        ;;
    esac
    echo "LT48 $2"
    echo "L: $loop"
    turn
    echo '?END'
}

# row NAME CORE FEW MANY OPERATORS DECK ARGS..: the instructions of one of so many operators of a turn of the loop
row() {
    name=$1 core=$2 few=$3 many=$4 operators=$5
    shift 5
    one=$("$@" "$few" | count "$core")
    other=$("$@" "$many" | count "$core")
    echo "$name $(((other - one) / ((many - few) * operators)))"
}

echo "a call of a procedure whose cell lies at a displacement: an operator"
for place in 2 16 128 1024; do row $place 65536 200 1200 10 calls_at $place; done
echo "ten VALC of a cell at a displacement, one level up: an operator"
for place in 2 16 128 1024; do row $place 65536 200 1200 30 cells_at $place; done
echo "a call of a procedure at a level: an operator"
for level in 4 8 16 31; do row $level 65536 200 1200 10 calls_deep $level; done
echo "a child counts in its parent's cell at a displacement: a turn of eleven operators"
for place in 2 16 1024 4000; do row $place 65536 200 1200 1 childs_cell_at $place; done
echo "a child calls its parent's procedure, whose cell lies at a displacement: a turn of ten operators"
for place in 2 16 1024 4000; do row $place 65536 200 1200 1 childs_calls_at $place; done
for quantum in 1 20; do
    echo "jobs, tasks of each, all ready, ?QUANTUM $quantum: an operator"
    for many in '1 1' '1 8' '1 15' '2 15' '4 15' '8 15'; do
        # shellcheck disable=SC2086 # two words
        row "$many" 65536 5000 15000 "${many%% *}" tasks_ready $many $quantum
    done
done
echo "stores into arrays of 300 words, with room for twenty: a store"
core=$((160 + 4 + 1024 + 20 * 302 + 200))
row 'a hot one and ten cold ones, beside twenty that nobody uses' $core 10 40 20 arrays dead
row 'forty in turn' $core 10 40 40 arrays turn
row 'a hot one before each of forty' $core 10 40 80 arrays hot
row 'forty at random' $core 10 40 120 arrays random
