#!/bin/sh
# Refuses each request for memory in turn: `sh bench/refused.sh PROGRAM`, where PROGRAM is a built b67. For each deck it
# prints how many requests a run makes, and how many of them, refused, left the answer as it was and how many gave NO MEMORY
# alone, with status 9. Any other answer is printed and gives status 1. It wants gcc.
set -eu
usage() {
    echo "$1" >&2
    echo "usage: sh bench/refused.sh PROGRAM" >&2
    exit 2
}
[ $# = 1 ] || usage "one program"
program=$1
command -v "$program" >/dev/null && [ ! -d "$program" ] || usage "$program: not a program that can be run"
command -v gcc >/dev/null || usage "gcc isn't on the path"
bench=$(cd "$(dirname "$0")" && pwd)
room=$(mktemp -d)
trap 'rm -rf "$room"' EXIT
gcc -O1 -shared -fPIC -o "$room/refuse.so" "$bench/refuse.c"

# A sum, as hexadecimal cards and as assembly.
printf '?JOB SUM\n?HEX\n423637434f44453100010000020002\n0003ae4009b202b200030380aba3ffff\n?END\n' >"$room/sum"
printf 'SEGMENT MAIN 2\nMKST\nNAMC 0,9\nLT8 2\nLT8 3\nADD\nENTR\nEXIT\n' >"$room/cards"

# A task and its child share eight arrays of 200 words, of which core has room for one.
{
    printf '?STACK 256\n?JOB EIGHT\n?ASM\nSEGMENT MAIN 2\nMPCW CH\n'
    for j in 0 1 2 3 4 5 6 7; do printf 'MKST\nNAMC 0,8\nLT8 200\nENTR\n'; done
    for j in 0 1 2 3 4 5 6 7; do printf 'NAMC 2,%d\nLT8 %d\nINDX\n' $((3 + j)) $j; done
    for j in 0 1 2 3 4 5 6 7; do printf 'LT8 %d\nNAMC 2,%d\nSTOD\n' $((11 + j)) $((11 + j)); done
    printf 'MKST\nNAMC 0,12\nNAMC 2,2\nENTR\nMKST\nNAMC 0,13\nVALC 2,19\nENTR\nMKST\nNAMC 0,9\nVALC 2,11\n'
    for j in 1 2 3 4 5 6 7; do printf 'VALC 2,%d\nADD\n' $((11 + j)); done
    printf 'ENTR\nEXIT\nSEGMENT CH 3\n'
    for j in 0 1 2 3 4 5 6 7; do printf 'NAMC 2,%d\nLT8 %d\nINDX\n' $((3 + j)) $j; done
    for j in 0 1 2 3 4 5 6 7; do printf 'VALC 3,%d\nLT8 100\nADD\nNAMC 3,%d\nSTOD\n' $((2 + j)) $((2 + j)); done
    printf 'EXIT\n?END\n'
} >"$room/eight"

failed=0

# What the words answer on a deck, with request k refused: the lines, and the status after them.
answer() {
    rm -f "$room/b"
    status=0
    REFUSE=$1 REQUESTS=$room/requests LD_PRELOAD=$room/refuse.so "$program" $3 <"$room/$2" >"$room/lines" || status=$?
    echo "status $status" >>"$room/lines"
    cat "$room/lines"
}

each() {
    answer 0 "$1" "$2" >"$room/wanted"
    requests=$(cat "$room/requests")
    same=0
    refused=0
    k=1
    while [ $k -le "$requests" ]; do
        answer $k "$1" "$2" >"$room/got"
        if cmp -s "$room/got" "$room/wanted"; then
            same=$((same + 1))
        elif [ "$(cat "$room/got")" = "$(printf 'NO MEMORY\nstatus 9')" ]; then
            refused=$((refused + 1))
        else
            failed=1
            echo "$1, request $k:"
            cat "$room/got"
        fi
        k=$((k + 1))
    done
    echo "$1: $requests requests, of which $refused give NO MEMORY, and $same change nothing"
}

each sum "run --core 4096 --backing $room/b"
each eight "run --core 910 --backing $room/b"
each cards asm
exit $failed
