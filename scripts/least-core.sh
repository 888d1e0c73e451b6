#!/bin/sh
# The least core in which a deck runs, found by the first number of NO CORE. Prints that number of words.
#
#     sh scripts/least-core.sh DECK
#
# DECK is a file of cards, with names for cells if you like (cells.sh). The program is `b67` on the path, or what the variable
# B67 names. Each try runs the deck from the start. Only a run that ends (status 0), or that halts where its deck says so
# (status 3), is an answer; any other end is an error.
set -u
case ${1-} in -h | --help) sed -n '1d; /^[^#]/q; s/^# \{0,1\}//p' "$0"; exit ;; esac
usage() {
    echo "$1" >&2
    echo "usage: sh scripts/least-core.sh DECK" >&2
    exit 2
}
[ $# = 1 ] || usage "one deck is wanted"
deck=$1
here=$(cd "$(dirname "$0")" && pwd)
[ -f "$deck" ] && [ -r "$deck" ] || usage "$deck: not a file that can be read"
room=
trap 'rm -rf "$room"' EXIT
# what runs is a child that is waited for, so a signal ends both; twice, since a child that is no program yet loses the first
running=
trap '[ -z "$running" ] || { kill $!; sleep 0.2; kill $!; } 2>/dev/null; exit 130' HUP INT TERM
room=$(mktemp -d) || exit 2
program=
. "$here/program"
sh "$here/cells.sh" "$deck" >"$room/deck" || exit 1
core=256
while :; do
    running=1
    "$program" run --core "$core" --backing "$room/b" <"$room/deck" >"$room/lines" &
    wait $!
    status=$?
    running=
    last=$(tail -n 1 "$room/lines")
    case $status in
    0 | 3)
        echo "$core"
        exit
        ;;
    4)
        need=${last#NO CORE }
        need=${need% *}
        # each need exceeds the core before it
        if ! [ "$need" -gt "$core" ] 2>/dev/null; then
            echo "status 4 without a need above $core: $last" >&2
            exit 1
        fi
        core=$need
        if [ "$core" -gt 1048575 ]; then
            echo "no core is large enough: the deck needs $core words" >&2
            exit 1
        fi
        ;;
    *)
        echo "no least core: status $status${last:+, $last}" >&2
        exit 1
        ;;
    esac
done
