#!/bin/sh
# Runs decks over a device that gives back other words than were written: `sh bench/lies.sh PROGRAM [SEEDS]`, where PROGRAM is
# a built b67, and each random lie is told so many times (1000 if it isn't given). For each deck and lie it prints how many
# runs ended with which status: 0 with the lines of the run without a lie, or 6, BACKING FAULT. A run that ends otherwise, with
# other lines, or not within 20 seconds, is printed and gives status 1. It wants gcc.
set -eu
usage() {
    echo "$1" >&2
    echo "usage: sh bench/lies.sh PROGRAM [SEEDS]" >&2
    exit 2
}
[ $# = 1 ] || [ $# = 2 ] || usage "a program, and a number of seeds if you like"
program=$1
seeds=${2:-1000}
command -v "$program" >/dev/null && [ ! -d "$program" ] || usage "$program: not a program that can be run"
case $seeds in '' | *[!0-9]* | 0* | ???????*) usage "$seeds: not a number of seeds from 1 to 999999" ;; esac
command -v gcc >/dev/null || usage "gcc isn't on the path"
bench=$(cd "$(dirname "$0")" && pwd)
room=$(mktemp -d)
trap 'rm -rf "$room"' EXIT
gcc -O1 -shared -fPIC -o "$room/lie.so" "$bench/lie.c"

# The arrays, the calls and the tasks of one job, in little core.
job() {
    printf '?JOB %s\n?LIMIT 20000\n?ASM\nSEGMENT MAIN 2\nMPCW CH\n' "$1"
    for j in 0 1 2 3; do printf 'MKST\nNAMC 0,8\nLT8 100\nENTR\n'; done
    for j in 0 1 2 3; do printf 'NAMC 2,%d\nLT8 %d\nINDX\n' $((3 + j)) $j; done
    for j in 0 1 2 3; do printf 'LT8 %d\nNAMC 2,%d\nSTOD\n' $((11 + j)) $((7 + j)); done
    printf 'MKST\nNAMC 0,12\nNAMC 2,2\nENTR\nMKST\nNAMC 2,2\nENTR\nMKST\nNAMC 0,13\nVALC 2,11\nENTR\n'
    for j in 0 1 2 3; do printf 'MKST\nNAMC 0,9\nVALC 2,%d\nENTR\n' $((7 + j)); done
    printf 'EXIT\nSEGMENT CH 3\n'
    for j in 0 1 2 3; do printf 'VALC 2,%d\nLT8 100\nADD\nNAMC 2,%d\nSTOD\n' $((7 + j)) $((7 + j)); done
    printf 'EXIT\n?END\n'
}
{
    printf '?STACK 128\n?QUANTUM 7\n'
    job A
} >"$room/one"
{
    printf '?STACK 128\n?QUANTUM 7\n'
    job A
    job B
} >"$room/two"

# One run: its status, or `none` if it doesn't end by itself, with what it was.
run() {
    rm -f "$room/b"
    status=0
    LIE=$3 SEED=$4 LD_PRELOAD=$room/lie.so timeout 20 "$program" run --core "$2" --backing "$room/b" <"$room/$1" >"$room/lines" || status=$?
    case $status in
    0)
        [ "$3" != none ] || cp "$room/lines" "$room/honest-$1"
        if cmp -s "$room/lines" "$room/honest-$1"; then
            echo "status 0, the same lines"
        else
            echo "status 0, other lines, seed $4" | tee -a "$room/failed"
        fi
        ;;
    6) echo "status 6" ;;
    *) echo "status $status, seed $4" | tee -a "$room/failed" ;;
    esac
}

each() {
    for lie in none before other bit random; do
        last=$seeds
        case $lie in none | before) last=1 ;; esac
        seed=1
        while [ $seed -le "$last" ]; do
            run "$1" "$2" $lie $seed
            seed=$((seed + 1))
        done | sort | uniq -c | sed "s/^ */$1, $lie: /"
    done
}

each one 544
each two 804
[ ! -e "$room/failed" ]
