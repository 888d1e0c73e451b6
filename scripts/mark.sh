#!/bin/sh
# Marks decks: what each prints, in its least core and in the greatest, in turns of 1, 7, 17 and 1,000 operators, against
# the lines that are wanted.
#
#     sh scripts/mark.sh [--in-order] DECK.. EXPECTED
#
# EXPECTED is a file with all lines that a right deck prints, up to `1.1 ENDED`. The lines of each task are compared, in their
# order; the order in which the lines of several tasks mix is compared only with --in-order. A DECK may have names for cells
# (cells.sh). Its own ?QUANTUM is left out, so a deck with tasks is right only if each task prints the same in turns of each
# length; a race may hide from these four all the same. No job makes more than 1,000,000 operators, and no run takes more than
# 20 seconds of a processor or prints more than 16 MB. Prints a line for each deck, and after that of a wrong one the first
# line that differs and the run in which it does. The program is `b67` on the path, or what the variable B67 names. Status 0:
# all are right; 1: one isn't; 2: one can't be read. Nothing here is proved.
set -u
case ${1-} in -h | --help) sed -n '1d; /^[^#]/q; s/^# \{0,1\}//p' "$0"; exit ;; esac
usage() {
    echo "$1" >&2
    echo "usage: sh scripts/mark.sh [--in-order] DECK.. EXPECTED" >&2
    exit 2
}
in_order=
[ "${1-}" != --in-order ] || { in_order=1; shift; }
[ $# -ge 2 ] || usage "a deck, and a file with the lines that it should print"
here=$(cd "$(dirname "$0")" && pwd)
for wanted in "$@"; do :; done
[ -f "$wanted" ] && [ -r "$wanted" ] || usage "$wanted: not a file that can be read"
LC_ALL=C grep -q '^[0-9][0-9]*\.[0-9][0-9]* ' <"$wanted" || usage "$wanted: no lines of a run: EXPECTED stands last"
LC_ALL=C grep -q '^?JOB' <"$wanted" && usage "$wanted: this is a deck: EXPECTED stands last"
room=
trap 'rm -rf "$room"' EXIT
# what runs is a child that is waited for, so a signal ends both; twice, since a child that is no program yet loses the first
running=
trap '[ -z "$running" ] || { kill $!; sleep 0.2; kill $!; } 2>/dev/null; exit 130' HUP INT TERM
room=$(mktemp -d) || exit 2
program=
. "$here/program"

# lines as they are compared: those of each task together, unless the order of all counts
grouped() {
    if [ -n "$in_order" ]; then cat; else awk '{ printf "%s %09d %s\n", $1, NR, $0 }' | LC_ALL=C sort | cut -d' ' -f3-; fi
}
tr -d '\r' <"$wanted" | grouped >"$room/wanted" || exit 2
[ -s "$room/wanted" ] || exit 2
most=$(wc -l <"$room/wanted")
several=
[ -n "$in_order" ] || [ "$(cut -d' ' -f1 <"$room/wanted" | uniq | wc -l)" = 1 ] || several=1

# the first line of `lines` that isn't as it should be, in words; nothing if all are
first() {
    head -n $((most + 100)) <"$room/lines" | grouped >"$room/printed"
    LC_ALL=C awk -v printed="$room/printed" -v several="$several" '
        function at(number, task) { return "line " number (several ? " of task " task : "") }
        { is = (getline line < printed) > 0; split(line, word, " "); number = several ? ++count[$1] : NR }
        !is || several && word[1] > $1 { print at(number, $1) " is missing, `" $0 "`"; found = 1; exit }
        several && word[1] != $1 { print "`" line "` is one line more than is wanted of task " word[1]; found = 1; exit }
        line != $0 { print at(number, $1) " is `" line "` and should be `" $0 "`"; found = 1; exit }
        END { if (!found && (getline line < printed) > 0) print at(NR + 1, "") " is `" line "`, and nothing more is wanted" }' "$room/wanted"
}
# the bounds of a run, for the shell that makes it: 16 MB, as long as the backing file, and 20 seconds
bounded() {
    ulimit -f 32768
    # shellcheck disable=SC3045 # dash, bash, ksh, yash and busybox have it
    ulimit -t 20
    "$@"
}
wrong=0
while [ $# -gt 1 ]; do
    deck=$1
    shift
    all=0
    failed=0
    why=
    if ! [ -f "$deck" ] || ! [ -r "$deck" ]; then
        echo "$deck: not a file that can be read" || exit 2
        wrong=2
        continue
    fi
    if ! sh "$here/cells.sh" "$deck" >"$room/plain" 2>"$room/said"; then
        why=$(sed -n '1s/^cells.sh: //; 1p' "$room/said")
        why=${why:-it could not be read}
    fi
    [ -n "$why" ] || "$program" check <"$room/plain" >"$room/lines" || why="refused, $(tail -n 1 "$room/lines")"
    [ -n "$why" ] || [ -s "$room/lines" ] || why="no job is in it"
    if [ -n "$why" ]; then
        echo "$deck: $why" || exit 2
        [ $wrong = 2 ] || wrong=1
        continue
    fi
    for quantum in 1 7 17 1000; do
        { echo "?QUANTUM $quantum"; awk '/^[?]QUANTUM/ { next } /^[?]LIMIT +[0-9]+ *$/ && $2 > 1000000 { $2 = 1000000 } { print }' "$room/plain"; } >"$room/deck"
        for core in least 1048575; do
            all=$((all + 1))
            if [ $core = least ]; then
                running=1
                B67=$program TMPDIR=$room bounded sh "$here/least-core.sh" "$room/deck" >"$room/core" 2>"$room/said" &
                wait $! && core=$(cat "$room/core") || core=
                running=
            fi
            if [ -n "$core" ]; then
                running=1
                bounded exec "$program" run --core "$core" --backing "$room/b" <"$room/deck" >"$room/lines" 2>/dev/null &
                wait $!
                [ $? -lt 128 ] && said=$(first) || said='it was ended, after 16 MB of lines or 20 seconds'
                running=
                said=${said:+in turns of $quantum, in $core words: $said}
            else
                said="in turns of $quantum: $(tail -n 1 "$room/said")"
            fi
            [ -n "$said" ] || continue
            failed=$((failed + 1))
            why=${why:-$said}
        done
    done
    if [ $failed = 0 ]; then echo "$deck: right in $all runs" || exit 2; else
        printf '%s: wrong in %s of %s runs\n    %s\n' "$deck" $failed $all "$why" || exit 2
        [ $wrong = 2 ] || wrong=1
    fi
done
exit $wrong
