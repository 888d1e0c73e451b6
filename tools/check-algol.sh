#!/bin/sh
# Tests the translator from ALGOL 60 over a built program: each program and exercise prints its lines, what is refused is refused.
# With COUNT it also compares as many random programs with the reference interpreter, in N processes, and mutates as many texts. They are
# numbered from FIRST, 1 if it isn't said. Each piece that is done is told, so a run that was cut off goes on by FIRST.
#
#     sh tools/check-algol.sh [--jobs N] PROGRAM [COUNT [FIRST]]
usage() {
    printf '%s\nusage: sh tools/check-algol.sh [--jobs N] PROGRAM [COUNT [FIRST]]\n' "$1" >&2
    exit 2
}
number() { case $1 in '' | 0* | *[!0-9]*) usage "$1: not a number" ;; esac }
case ${1-} in -h | --help) sed -n '1d; /^[^#]/q; s/^# \{0,1\}//p' "$0"; exit ;; esac
jobs=1
if [ "${1-}" = --jobs ]; then
    [ $# -ge 2 ] || usage '--jobs wants a number'
    jobs=$2
    number "$jobs"
    shift 2
fi
[ $# -ge 1 ] && [ $# -le 3 ] || usage 'a program, and two numbers at most'
[ -f "$1" ] && [ -x "$1" ] || usage "$1: not a program that can be run"
number "${2-1}"
number "${3-1}"
command -v node >/dev/null || usage 'node is missing'
B67=$(cd "$(dirname "$1")" && pwd)/$(basename "$1")
export B67
cd "$(dirname "$0")/.." || exit 2
node --test algol/test/*.test.mjs || exit 1
[ $# -eq 1 ] || node algol/test/long.mjs --jobs "$jobs" "$2" "${3-1}"
