#!/bin/sh
# Prints a deck of eight jobs. Each of their first tasks starts so many children (0 to 14) as its switch lets it, and then the
# first job's first task counts in a loop up to its limit, while all of them live. `sh bench/tasks.sh CHILDREN LIMIT`
set -eu
usage() {
    echo "$1" >&2
    echo "usage: sh bench/tasks.sh [CHILDREN [LIMIT]]" >&2
    exit 2
}
[ $# -le 2 ] || usage "two numbers at most"
children=${1:-14}
limit=${2:-400000}
case $children in [0-9] | 1[0-4]) ;; *) usage "$children: not a number of children from 0 to 14" ;; esac
case $limit in '' | *[!0-9]* | 0* | ??????????*) usage "$limit: not a number of operators from 1 to 999999999" ;; esac
echo "?STACK 64"
echo "?QUANTUM 1000000"
for job in 1 2 3 4 5 6 7 8; do
    echo "?SWITCH $((job * 60 - 60)) $job.1"
done
echo "?SWITCH 480 1.1"
for job in 1 2 3 4 5 6 7 8; do
    echo "?JOB J$job"
    [ $job = 1 ] && echo "?LIMIT $limit" || echo "?LIMIT 1000"
    printf '?ASM\nSEGMENT M 2\nMPCW C\nZERO\n'
    child=0
    while [ $child -lt "$children" ]; do
        printf 'MKST\nNAMC 0,12\nNAMC 2,2\nENTR\n'
        child=$((child + 1))
    done
    printf 'L: ONE\nADD\nBRUN L\nSEGMENT C 3\nL: BRUN L\n?END\n'
done
