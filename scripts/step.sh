#!/bin/sh
# Shows the machine operator by operator: for each count from FROM to TO the operator that was made, with its task, its
# place and its card, what was printed, and the stacks in plain words.
#
#     sh scripts/step.sh DECK FROM [TO]
#
# DECK is a file of cards, with names for cells if you like (cells.sh); a ?HALT of its own is left out. TO is FROM if it
# isn't given. The program is `b67` on the path, or what the variable B67 names. Each count runs the deck from its beginning
# with `image`, in a core that has room for it; `dump` reads the machine, and plain.sh its lines. Nothing here is proved, and
# it is no part of the gate.
set -u
case ${1-} in -h | --help) sed -n '1d; /^[^#]/q; s/^# \{0,1\}//p' "$0"; exit ;; esac
usage() {
    echo "$1" >&2
    echo "usage: sh scripts/step.sh DECK FROM [TO]" >&2
    exit 2
}
[ $# = 2 ] || [ $# = 3 ] || usage "a deck, and one or two counts of operators"
deck=$1
from=$2
to=${3:-$2}
here=$(cd "$(dirname "$0")" && pwd)
for count in "$from" "$to"; do
    case $count in '' | *[!0-9]* | 0* | ??????????*) usage "$count: a count is a number from 1 to 800000000" ;; esac
    [ "$count" -le 800000000 ] || usage "$count: a count is a number from 1 to 800000000"
done
[ "$from" -le "$to" ] || usage "$from comes after $to"
[ -f "$deck" ] && [ -r "$deck" ] || usage "$deck: not a file that can be read"
room=
trap 'rm -rf "$room"' EXIT
trap 'exit 130' HUP INT TERM
room=$(mktemp -d) || exit 2
program=
. "$here/program"
sh "$here/cells.sh" "$deck" >"$room/deck" || exit 2
"$program" check <"$room/deck" >"$room/checked" || { tail -n 1 "$room/checked" | grep . >&2 || echo "$program: it answers nothing" >&2; exit 2; }
grep -v '^?HALT' <"$room/deck" >"$room/whole"

# runs the deck to count $1, in a core that has room for it: `printed`, `lines` of tasks, `dump`, and `status`
core=16384
run_to() {
    while :; do
        { echo "?HALT $1"; cat "$room/whole"; } | "$program" image --core "$core" --backing "$room/b" >"$room/printed"
        status=$?
        [ $status = 4 ] && [ "$core" -lt 1048575 ] || break
        core=$((core * 8 > 1048575 ? 1048575 : core * 8))
    done
    grep '^[0-9]*\.[0-9]* ' "$room/printed" >"$room/lines"
    : >"$room/dump"
    [ $status = 3 ] || return 0
    "$program" dump <"$room/printed" >"$room/dump" || { echo "step.sh: dump: $(tail -n 1 "$room/dump")" >&2; exit 1; }
}
# the task that made the last operator, as the image says; if no task lives any more, the one that can have made it
maker() {
    if [ $status = 3 ]; then
        LC_ALL=C awk '
            function number(from, bytes,   i, n) {
                n = 0
                for (i = 2 * from; i < 2 * (from + bytes); i++)
                    n = n * 16 + index("0123456789abcdef", substr(card[int(i / 64)], i % 64 + 1, 1)) - 1
                return n
            }
            /^\?IMAGE/ { begun = 1; next }
            /^\?END/ { exit }
            begun { card[cards++] = $0 }
            # after the text B67IMAGE: core, registers and tables, the links of the sectors, and three counts
            END {
                at = 12 + 8 * number(8, 4) + 412
                at += 4 + 4 * number(at, 4) + 16
                print number(at, 1) "." number(at + 1, 4)
            }' "$room/printed"
    elif [ "$(grep -c '^TASK [^ ]* READY ' "$room/before")" = 1 ]; then
        sed -n 's/^TASK \([^ ]*\) READY .*/\1/p' "$room/before"
    else
        # it ended after all that it had started; at LIMIT it may be any that was ready
        sed -n '/ LIMIT$/d; $s/ .*//p' "$room/lines"
    fi
}
# the operator that task $1 was about to make: its place, its name, and its card
operator() {
    line=$(grep "^TASK $1 " "$room/before") || return 0
    place=${line##* } line=${line% *}
    segment=${line##* }
    list=$room/listing.${1%%.*}
    [ -f "$list" ] || sh "$here/listing.sh" "$deck" "${1%%.*}" >"$list"
    awk -v segment="$segment" -v place="$place" '
        /^(job [^:]*: )?segment / { sub(/^job [^:]*: /, ""); now = $2 + 0; next }
        now == segment && $1 == place && /^ / {
            name = substr($0, 31, 22)
            sub(/ +$/, "", name)
            card = substr($0, 55)
            found = 1
            exit
        }
        END { print " at " segment "@" place ", " (!found ? "in the filling after the last operator" : card == "" ? name : "card " card) }' "$list"
}

# the machine before the first count; before the first operator of all each job stands at its beginning
if [ "$from" = 1 ]; then
    awk '{ print "TASK " NR ".1 READY 1 0:0" }' "$room/checked" >"$room/before"
    : >"$room/shown"
else
    run_to $((from - 1))
    cp "$room/dump" "$room/before"
    : >"$room/shown"
fi
while [ "$from" -le "$to" ]; do
    run_to "$from"
    if [ $status != 0 ] && [ $status != 3 ]; then
        tail -n "+$(($(wc -l <"$room/shown") + 1))" "$room/lines"
        echo "step.sh: the run stops before $from operators: status $status, $(tail -n 1 "$room/printed")" >&2
        exit 1
    fi
    if [ -s "$room/before" ]; then
        task=$(maker)
        echo "after $from${task:+, by $task$(operator "$task")}" || exit 1
    else
        echo "after $from" || exit 1
    fi
    tail -n "+$(($(wc -l <"$room/shown") + 1))" "$room/lines" || exit 1
    if [ $status = 0 ]; then
        echo "no task lives"
        exit
    fi
    sh "$here/plain.sh" "$room/dump" >"$room/plain" || exit 1
    # the shell says when the output is full, and not every awk does
    plain=$(awk -f "$here/named" "$room/deck" "$room/plain") && printf '%s\n' "$plain" || exit 1
    cp "$room/lines" "$room/shown"
    cp "$room/dump" "$room/before"
    from=$((from + 1))
done
