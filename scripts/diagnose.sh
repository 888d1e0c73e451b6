#!/bin/sh
# Why a deck is refused: the line of `check`, the card itself, what the line means and what to do.
#
#     sh scripts/diagnose.sh DECK
#
# DECK is a file of cards, with names for cells if you like (cells.sh). The program is `b67` on the path, or what the variable
# B67 names. A tab shows as ^I, and another character that no card may have begins with M- or ^. Status 0: the deck is good;
# 1: it is refused.
set -u
case ${1-} in -h | --help) sed -n '1d; /^[^#]/q; s/^# \{0,1\}//p' "$0"; exit ;; esac
usage() {
    echo "$1" >&2
    echo "usage: sh scripts/diagnose.sh DECK" >&2
    exit 2
}
[ $# = 1 ] || usage "one deck is wanted"
deck=$1
here=$(cd "$(dirname "$0")" && pwd)
[ -f "$deck" ] && [ -r "$deck" ] || usage "$deck: not a file that can be read"
job=
room=
trap 'rm -rf "$room"' EXIT
trap 'exit 130' HUP INT TERM
room=$(mktemp -d) || exit 2
program=
. "$here/program"
sh "$here/cells.sh" "$deck" >"$room/deck" || exit 1
"$program" check <"$room/deck" >"$room/lines"
status=$?
line=$(tail -n 1 "$room/lines")
if [ $status = 0 ]; then
    named=
    cmp -s "$deck" "$room/deck" || named=1
    case $deck in *[!A-Za-z0-9_./-]*) deck="'$deck'" ;; esac
    [ -z "$named" ] || echo "    This deck has names for cells, which b67 refuses: sh $(dirname "$0")/cells.sh $deck > plain makes one without. Of that check says:" || exit 2
    cat "$room/lines" || exit 2
    [ -n "$line" ] || echo "    The deck is empty, or has empty cards alone."
    echo "    Nothing is refused. It may still fault: run it, and pipe its lines to sh $(dirname "$0")/explain.sh."
    echo "    Where it goes wrong then: sh $(dirname "$0")/where.sh $deck"
    exit 0
fi
# a text that is no deck at all, by its first cards
head -c 100000 "$deck" | tr '\000' '\001' | LC_ALL=C awk '
    { sub(/[ \r]+$/, "") }
    /[\001-\010\013\014\016-\037\177]/ { say = "This is no text file."; exit }
    /\r/ { say = "Its lines end by CR alone, as on an old Mac: tr \047\\r\047 \047\\n\047 < FILE makes a deck of it."; exit }
    $0 == "" { next }
    /^\?IMAGE$/ { say = "This is an image, as image prints it: b67 dump < FILE prints its stacks, and resume goes on from it."; exit }
    /^423637494[dD]414745/ && !cards { say = "This is hexadecimal: an image without its card ?IMAGE."; exit }
    /^TASK [0-9]+\.[0-9]+ / { say = "This is a dump: sh scripts/plain.sh FILE prints it in plain words, and sh scripts/draw.sh FILE draws it."; exit }
    /^\?/ { exit }
    /^([0-9a-fA-F][0-9a-fA-F])+$/ { cards += 1; next }
    { cards += 1; other = 1 }
    END {
        if (say == "" && cards && !other) say = "This is hexadecimal, as asm, bind and convert print it: put ?JOB NAME and ?HEX before it, and ?END after it."
        if (say == "" && other && NR > 1 && !/^\?/) say = "No ? card stands before these cards: if they are assembly, give them to asm, or put ?JOB NAME and ?ASM before them, and ?END after them."
        if (say != "") print "    " say
    }'
case $line in
DECK* | ASM* | CODEFILE*)
    card=$(echo "$line" | cut -d' ' -f2)
    sed -n "${card}p" "$deck" | tr -d '\r' | cut -c1-100 | cat -vt | sed "s/^/    card $card: /"
    ;;
LOAD*)
    card=$(echo "$line" | cut -d' ' -f2)
    segment=$(echo "$line" | cut -d' ' -f6)
    place=$(echo "$line" | cut -d' ' -f8)
    job=$(sed -n "1,${card}p" "$deck" | grep -c '^?JOB')
    name=$(sed -n "${card}p" "$deck" | tr -d '\r' | sed 's/^?JOB *//; s/ *$//')
    # the operator between its segment's heading and that of the segment which it names; for rule 8 their levels
    sh "$here/listing.sh" "$deck" "$job" |
        awk -v segment="$segment" -v place="$place" -v rule="$(echo "$line" | cut -d' ' -f4)" -v hint="$room/hint" '
            # what the heading says of its segment: its number, name, level and card
            function read(heading,    part, number) {
                sub(/^job [^:]*: /, "", heading)
                if (heading !~ /^segment /) return 0
                split(heading, part, /, */)
                number = substr(part[1], 9)
                name[number] = part[2] !~ /^level / ? part[2] : "segment " number
                if (match(heading, /level [0-9]+/)) level[number] = substr(heading, RSTART + 6, RLENGTH - 6)
                if (match(heading, /   [0-9]+: /)) card[number] = substr(heading, RSTART + 3, RLENGTH - 5)
                return number
            }
            /^[a-z]/ { now = read($0); text[now] = $0; if (now == segment) print "    " $0 }
            now == segment && $1 == place {
                print "  " $0
                if (match($0, /MPCW segment [0-9]+/)) named = substr($0, RSTART + 13, RLENGTH - 13)
            }
            END {
                if (named in text && named != segment) print "    " text[named]
                made = level[segment] + 1
                if (rule != 8 || !(named in level) || level[named] == made) exit
                if (named == segment) what = " makes itself: let a segment one level up make it, and name its cell here."
                else {
                    what = " has level " level[named] ", but " name[segment] ", which makes it, has level " level[segment] ": "
                    if (made <= 31 && named in card) what = what "card " card[named] " must read SEGMENT " name[named] " " made ", or "
                    else if (made <= 31) what = what "it must have level " made ", or "
                    what = what name[segment] " isn\047t the one to make it."
                }
                print "    " toupper(substr(name[named], 1, 1)) substr(name[named], 2) what > hint
            }'
    ;;
esac
sh "$here/explain.sh" "${line:-status $status}" >"$room/explained"
if [ -n "$job" ]; then
    sed "s/^    The program of the job that begins at card $card /    The program of job $job, $name, which begins at card $card, /" "$room/explained" >"$room/named"
    mv "$room/named" "$room/explained"
fi
# a hint that knows the levels takes the place of the general one
if [ -f "$room/hint" ]; then sed '$d' "$room/explained"; cat "$room/hint"; else cat "$room/explained"; fi
exit 1
