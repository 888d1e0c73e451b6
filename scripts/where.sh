#!/bin/sh
# Where a run first goes wrong. For a fault: the least count of operators after which the task has ended, the operator
# that did it with its place and card, and the activation record that it found on top. For DEADLOCK and LIMIT: each live
# task of the job before it, what it waits for, and the card of its next operator.
#
#     sh scripts/where.sh DECK
#
# DECK is a file of cards, with names for cells if you like (cells.sh); a ?HALT of its own is left out. The program is `b67`
# on the path, or what the variable B67 names. The deck is run some forty times at most, to counts between which the ending
# lies ever more closely. Then `image` and `dump` read the machine before the ending, plain.sh prints it, and explain.sh says
# what the ending means. Status 1: no task ends by a fault, DEADLOCK or LIMIT. Nothing here is proved, and it is no part of
# the gate.
set -u
case ${1-} in -h | --help) sed -n '1d; /^[^#]/q; s/^# \{0,1\}//p' "$0"; exit ;; esac
usage() {
    echo "$1" >&2
    echo "usage: sh scripts/where.sh DECK" >&2
    exit 2
}
[ $# = 1 ] || usage "one deck is wanted"
deck=$1
here=$(cd "$(dirname "$0")" && pwd)
[ -f "$deck" ] && [ -r "$deck" ] || usage "$deck: not a file that can be read"
room=
trap 'rm -rf "$room"' EXIT
trap 'exit 130' HUP INT TERM
room=$(mktemp -d) || exit 2
program=
. "$here/program"
sh "$here/cells.sh" "$deck" >"$room/deck" || exit 2
"$program" check <"$room/deck" >"$room/checked" || { tail -n 1 "$room/checked" | grep . >&2 || echo "$program: it answers nothing" >&2; exit 2; }
grep -v '^?HALT' <"$room/deck" >"$room/whole"
# the same after a card ?HALT, whose count is written over in place: spaces at a card's end don't count
{ echo '?HALT 1          '; cat "$room/whole"; } >"$room/halting"

# runs the deck by command $1 to count $2, if it is given, into `printed`, in a core that has room for it
core=16384
go() {
    while :; do
        cards=$room/whole
        [ $# = 1 ] || { cards=$room/halting; printf '?HALT %-11s\n' "$2" 1<>"$cards"; }
        "$program" "$1" --core "$core" --backing "$room/b" <"$cards" >"$room/printed"
        status=$?
        [ $status = 4 ] && [ "$core" -lt 1048575 ] || break
        core=$((core * 8 > 1048575 ? 1048575 : core * 8))
    done
}
# whether the first fault has come after count $1
has_faulted() {
    go run "$1"
    grep -c '^[0-9]*\.[0-9]* ' "$room/printed" >"$room/count"
    read -r count <"$room/count"
    [ "$count" -ge "$line" ]
}

go run
first=$(grep -n '^[0-9]*\.[0-9]* [A-Z]' "$room/printed" | grep -vE ' (ENDED|PARENT)$' | head -n 1)
if [ -z "$first" ]; then
    last=$(tail -n 1 "$room/printed")
    echo "no task ends by a fault, DEADLOCK or LIMIT${last:+; the last line: $last}"
    exit 1
fi
line=${first%%:*}
fault=${first#*:}
task=${fault%% *}
high=1
low=0
most=800000000
# one job alone reaches its limit at just that count, so no other need be tried
case $fault in
*' LIMIT')
    if [ "$(wc -l <"$room/checked")" = 1 ]; then
        high=$(sed -n 's/^?LIMIT *\([0-9]*\).*/\1/p' "$deck")
        high=${high:-1000000}
        if has_faulted $((high - 1)); then high=1; else low=$((high - 1)); fi
    fi
    ;;
esac
while ! has_faulted "$high"; do
    if [ "$high" -ge "$most" ]; then
        echo "where.sh: after $high operators: $(tail -n 1 "$room/printed")" >&2
        exit 1
    fi
    low=$high
    high=$((high * 8 > most ? most : high * 8))
done
while [ $((high - low)) -gt 1 ]; do
    middle=$(((low + high) / 2))
    if has_faulted "$middle"; then high=$middle; else low=$middle; fi
done

# the machine before it; before the first operator of all it stands at the program's beginning
if [ "$low" = 0 ]; then
    printf 'TASK %s READY 1 0:0\nFRAME 1 LEVEL 2 ENV DICT 1\n' "$task" >"$room/dump"
else
    go image "$low"
    "$program" dump <"$room/printed" >"$room/dump" || { echo "where.sh: dump: $(tail -n 1 "$room/dump")" >&2; exit 1; }
fi
sh "$here/listing.sh" "$deck" "${task%%.*}" >"$room/listing" || exit 1
# the heading of segment $1 and the operator at place $2 of it, from the listing
operator() {
    awk -v segment="$1" -v place="$2" -v heading="$3" '
        /^(job [^:]*: )?segment / { text = $0; sub(/^job [^:]*: /, ""); now = $2 + 0; if (now == segment && heading) print "    " text; next }
        now == segment && $1 == place && /^ / { print "  " $0; found = 1 }
        END { if (!found) print "       " place "  in the filling after its last operator" }' "$room/listing"
}
# the record on top of task $1; after `$2`, `running`, also the topmost entered one, whose cells couples name
record() {
    awk -v task="$1" '
        /^TASK / { mine = $2 == task; if (mine) print; next }
        mine && /^FRAME / { if (text !~ /MARKED/) level = text; text = $0; next }
        mine { text = text "\n" $0 }
        END { if (text ~ /MARKED/ && level != "") print level; print text }' "$room/dump" | sh "$here/plain.sh" |
        awk -v all="${2-}" '
            /^task / { next }
            /^  record / && !all { text = $0; next }
            { text = text (text == "" ? "" : "\n") $0 }
            END { print text }' | sed 's/^/  /'
}
# the names of cells, if the deck has some, to the cells of a record that runs segment $2 of job $1
named() { awk -v job="$1" -v segment="$2" -f "$here/named" "$room/deck" -; }
# what MESSAGES.md says of the ending
causes() { sh "$here/explain.sh" "$fault" | sed '1s/.*/What it means, and the usual causes:/'; }
echo "$fault, by operator $high:"
case $fault in
*' DEADLOCK' | *' LIMIT')
    echo "The live tasks of job ${task%%.*} before it, each with its next operator:"
    grep "^TASK ${task%%.*}\." "$room/dump" | while read -r line; do
        echo "$line" | sh "$here/plain.sh" | sed 's/^/    /'
        before=${line% *}
        operator "${before##* }" "${line##* }" ''
        segment=${before##* }
        # at a DEADLOCK the one that is still ready comes to wait by this operator: its record says for what
        case $fault$line in *DEADLOCK*READY*) record "$(echo "$line" | cut -d' ' -f2)" running | named "${task%%.*}" "$segment" | sed 's/^/    /' ;; esac
    done
    causes
    exit 0
    ;;
esac
# shellcheck disable=SC2046 # the words of the line
set -- $(grep "^TASK $task " "$room/dump")
[ $# -ge 5 ] || { echo "where.sh: the dump at $low has no task $task" >&2; exit 1; }
operator "$4" "$5" 1
echo "The record on top before it:"
record "$task" >"$room/record"
shows=$(named "${task%%.*}" "$4" <"$room/record") || exit 1
[ -z "$shows" ] || printf '%s\n' "$shows" || exit 1
# the one cause of several that the record shows; nothing if it shows none. The card that faulted is the operator of the listing's line
shown() {
    awk -v card="$1" '
        # of a line of the record the word alone, without the couple of its cell, and its kind
        function word_of(line) { sub(/^ +/, "", line); if (line ~ /^[0-9]+,[0-9]+ /) sub(/^[0-9]+,[0-9]+ +/, "", line); return line }
        function kind_of(word) { return word ~ /^-?[0-9]+$/ ? "number" : word ~ /^(couple|reference)/ ? "reference" : word ~ /^procedure/ ? "procedure" : "other" }
        BEGIN {
            many["PRINT"] = many["AWAIT"] = many["STATUS"] = many["PRINTROW"] = many["DEALLOCATE"] = many["ARRAYDEC"] = many["WAIT"] = many["CAUSE"] = 1
            many["RESIZE"] = 2; many["READ"] = 0
            split("PRINTROW DEALLOCATE RESIZE", its); for (k in its) wants_row[its[k]] = 1
            wants_reference["WAIT"] = wants_reference["CAUSE"] = 1
            split("PRINT AWAIT STATUS ARRAYDEC", of_numbers); for (k in of_numbers) wants_number[of_numbers[k]] = 1
        }
        /^ *record / { marked = / marked for a call$/; count = 0; next }
        { words[++count] = word_of($0) }
        END {
            top = words[count]; below = words[count - 1]; name = words[1]
            if (card == "ENTR" && !marked) { print "No record is marked: MKST is missing before the NAMC of this call."; exit }
            is_intrinsic = marked && name ~ /^couple 0,[0-9]+ [A-Z]+$/
            sub(/^couple 0,[0-9]+ /, "", name)
            has = count - 1
            if (card == "ENTR" && is_intrinsic && name in many) {
                if (has == 0 && many[name] > 0) print name " wants " many[name] (many[name] == 1 ? " argument" : " arguments") ", and has none: did the procedure that was to give it end by EXIT in place of RETN?"
                else if (has != many[name]) print name " takes " many[name] (many[name] == 1 ? " argument" : " arguments") ", and has " has "."
                else if (name in wants_row && kind_of(words[2]) == "reference") print name " wants a copy of a whole array, and has a reference: LOAD is missing after NAMC."
                else if (name in wants_reference && kind_of(top) == "number") print name " wants a reference to a cell, and has " top ": is VALC to be NAMC?"
                else if (name in wants_number && kind_of(top) == "reference") print name " wants a number, and has a reference: is NAMC to be VALC?"
            } else if (card ~ /^STO[DN]$/ && kind_of(top) == "number" && kind_of(below) == "number") print card " has two numbers, " below " and " top ", and wants a reference with one of them: is VALC to be NAMC?"
            else if (card ~ /^(ADD|SUBT|MULT|IDIV|RDIV|LESS|GREQ|GRTR|LSEQ|EQUL|NEQL)$/ && (kind_of(top) == "reference" || kind_of(below) == "reference")) print card " wants two numbers, and has " below " and " top ": is NAMC to be VALC?"
        }' "$room/record"
}
case $fault in
*' INVALID OPERAND') shown "$(operator "$4" "$5" '' | awk 'NR == 1 { print $3 }')" ;;
esac
causes
