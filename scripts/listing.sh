#!/bin/sh
# Lists an assembled program: for each operator its place (word:syllable), its bytes, its name, and the card that it
# comes from. A refusal such as LOAD 2 REASON 8 SEGMENT 1 AT 0:0 names a segment and such a place. The heading of a
# segment or data row ends with its card, and begins with the job if the deck has several.
#
#     sh scripts/listing.sh DECK [JOB]
#
# DECK is a file: a deck, of which the program of job JOB is listed, the first if it isn't given; assembly cards alone;
# or the hexadecimal that `b67 asm` prints. It may have names for cells (cells.sh). The program, which assembles, is `b67` on
# the path, or what the variable B67 names.
set -u
case ${1-} in -h | --help) sed -n '1d; /^[^#]/q; s/^# \{0,1\}//p' "$0"; exit ;; esac
usage() {
    echo "$1" >&2
    echo "usage: sh scripts/listing.sh DECK [JOB]" >&2
    exit 2
}
[ $# = 1 ] || [ $# = 2 ] || usage "one deck, and a job if you like"
deck=$1
job=${2:-1}
here=$(cd "$(dirname "$0")" && pwd)
case $job in [1-8]) ;; *) usage "$job: a job is a number from 1 to 8" ;; esac
[ -f "$deck" ] && [ -r "$deck" ] || usage "$deck: not a file that can be read"
room=
trap 'rm -rf "$room"' EXIT
trap 'exit 130' HUP INT TERM
room=$(mktemp -d) || exit 2

sh "$here/cells.sh" "$deck" >"$room/deck" || exit 1
# the body, each card on the line that it has in the deck; `kind` says what it is, `prefix` which job of several
awk -v kind="$room/kind" -v prefix="$room/prefix" -v wanted="$job" '
BEGIN { is = "plain" }
{ sub(/\r$/, "") }
/^\?/ {
    if (/^\?JOB/ && ++job == wanted) name = $2
    in_body = 0
    if (/^\?(ASM|HEX) *$/ && job == wanted && is == "plain") { in_body = 1; is = substr($1, 2) }
    marked = 1
    print ""
    next
}
{ if (in_body || !marked) print; else print "" }
!marked && !/^([0-9a-fA-F][0-9a-fA-F])* *$/ { other = 1 }
END {
    if (is == "plain") is = marked || wanted > 1 ? "none" : other ? "ASM" : "HEX"
    print is > kind
    if (job > 1) printf "job %d, %s, of %d: ", wanted, name, job > prefix
}' "$room/deck" >"$room/body"
[ "$(cat "$room/kind")" != none ] || usage "$deck: no program of a job $job"

prefix=$(cat "$room/prefix" 2>/dev/null)
: >"$room/cards"
: >"$room/names"
if [ "$(cat "$room/kind")" = ASM ]; then
    program=
    . "$here/program"
    "$program" asm <"$room/body" >"$room/hex" || { grep . "$room/hex" >&2 || echo "$program: it answers nothing" >&2; exit 1; }
    # operators alone: number, segment, mnemonic, and the card as it stands in DECK; and the names of segments and rows
    tr -d '\r' <"$deck" >"$room/own"
    awk -v names="$room/names" -v own="$room/own" '
    {
        if ((getline text < own) <= 0) text = $0
        sub(/;.*/, "")
        if ($1 == "SEGMENT") segment++
        if ($1 == "SEGMENT" || $1 == "ROW") { print $1 "\t" $2 "\t" NR ": " text > names; next }
        if ($1 == "NUM" || $1 == "ENTRY" || NF == 0) next
        print NR "\t" segment "\t" ($1 ~ /:$/ ? $2 : $1) "\t" text
    }' "$room/body" >"$room/cards"
else
    cp "$room/body" "$room/hex"
fi

printed=$(awk -v cards="$room/cards" -v names_of="$room/names" -v prefix="$prefix" '
function digit(c) { return index("0123456789abcdef", c) - 1 }
function counted(words) { return words (words == 1 ? " word" : " words") }
function number(text,    i, n) {
    n = 0
    for (i = 1; i <= length(text); i++) n = n * 16 + digit(substr(text, i, 1))
    return n
}
# the next n bytes of the file, as digits
function take(n,    text) {
    if (at + 2 * n > length(file)) { print "the codefile ends too early" > "/dev/stderr"; failed = 1; exit 1 }
    text = substr(file, at + 1, 2 * n)
    at += 2 * n
    return text
}
function place(n) { return n % 8192 ":" int(n / 8192) }
# 2 to the n: not every awk can compute powers
function p2(n,   power) { power = 1; for (; n > 0; n--) power *= 2; return power }
# a couple of 14 bits, split by the level of its segment
function couple(n, level,    bits, i, left, of) {
    bits = level < 2 ? 1 : level < 4 ? 2 : level < 8 ? 3 : level < 16 ? 4 : 5
    left = n
    of = 0
    for (i = 0; i < bits; i++)
        if (left >= p2(13 - i)) { left -= p2(13 - i); of += p2(i) }
    return of "," left
}
# what the 48 bits of a literal are
function literal(digits,    n) {
    n = number(digits)
    if (n < 549755813888) return sprintf("%.0f", n)
    if (n >= 70368744177664 && n < 70918499991552) return sprintf("-%.0f", n - 70368744177664)
    return "#" digits
}
function pcw(digits,    n) {
    n = number(digits)
    return sprintf("segment %d at %d:%d", n % 16384 - 1, int(n / 1048576) % 8192, int(n / 8589934592) % 8)
}
function show(from, bytes, text,    card) {
    card = ""
    if (next_card <= last_card && segment_of[next_card] == segment && name_of[next_card] == word(text)) {
        card = "  " number_of[next_card] ": " text_of[next_card]
        next_card++
    }
    line = sprintf("  %6s  %-18s  %-22s%s", from, bytes, text, card)
    sub(/ +$/, "", line)
    print line
}
function word(text) { sub(/ .*/, "", text); return text }
function list(level, words, code,    n, i, first, b, from, two, run) {
    n = words * 6
    i = 0
    while (i < n) {
        from = int(i / 6) ":" i % 6
        b = substr(code, 2 * i + 1, 2)
        first = number(b)
        two = substr(code, 2 * i + 1, 4)
        if (first < 64) { show(from, two, "VALC " couple(number(two), level)); i += 2 }
        else if (first < 128) { show(from, two, "NAMC " couple(number(two) - 16384, level)); i += 2 }
        else if (b == "ff" && !(next_card <= last_card && segment_of[next_card] == segment && name_of[next_card] == "NVLD")) {
            run = 0
            while (i < n && substr(code, 2 * i + 1, 2) == "ff") { run++; i++ }
            printf "  %6s  %-18s  %s\n", from, run " x ff", cards_known ? "filling" : "NVLD, or filling"
        }
        else if (!(b in names)) { show(from, b, "not in the table"); i++ }
        else if (wants[b] == 0) { show(from, b, names[b]); i++ }
        else if (wants[b] == 1) { show(from, two, names[b] " " number(substr(two, 3))); i += 2 }
        else if (wants[b] == 2) {
            two = substr(code, 2 * i + 1, 6)
            if (b ~ /^a/) show(from, two, names[b] " to " place(number(substr(two, 3))))
            else if (b == "b3") show(from, two, names[b] " " number(substr(two, 3)))
            else show(from, two, names[b] " " number(substr(two, 3, 2)) "," number(substr(two, 5)))
            i += 3
        }
        else {
            two = substr(code, 12 * (int(i / 6) + 1) + 1, 12)
            if (b == "be") show(from, b " .. " two, names[b] " " literal(two))
            else show(from, b " .. " two, names[b] " " pcw(two))
            i = 6 * (int(i / 6) + 2)
        }
    }
}
BEGIN {
    split("80 ADD 0 81 SUBT 0 82 MULT 0 84 IDIV 0 85 RDIV 0 88 LESS 0 89 GREQ 0 8a GRTR 0 8b LSEQ 0 8c EQUL 0 " \
        "8d NEQL 0 8e CHSN 0 90 LAND 0 91 LOR 0 92 LNOT 0 93 LEQV 0 94 SAME 0 96 BSET 1 9a ISOL 2 9c INSR 2 " \
        "9e BRST 1 a0 BRFL 2 a1 BRTR 2 a2 BRUN 2 a3 EXIT 0 a6 INDX 0 a7 RETN 0 ab ENTR 0 ad NXLV 0 ae MKST 0 " \
        "af STFF 0 b0 ZERO 0 b1 ONE 0 b2 LT8 1 b3 LT16 2 b4 PUSH 0 b5 DLET 0 b6 EXCH 0 b7 DUPL 0 b8 STOD 0 " \
        "b9 STON 0 bd LOAD 0 be LT48 8 bf MPCW 8 fe NOOP 0 ff NVLD 0", table, " ")
    for (i = 1; i in table; i += 3) { names[table[i]] = table[i + 1]; wants[table[i]] = table[i + 2] }
    while ((getline line < cards) > 0) {
        split(line, part, "\t")
        last_card++
        number_of[last_card] = part[1]
        segment_of[last_card] = part[2]
        name_of[last_card] = part[3]
        text_of[last_card] = part[4]
    }
    while ((getline line < names_of) > 0) {
        split(line, part, "\t")
        if (part[1] == "ROW") { row_names[++named_rows] = part[2] ", "; row_cards[named_rows] = "   " part[3] }
        else { segment_names[++named_segments] = part[2] ", "; segment_cards[named_segments] = "   " part[3] }
    }
    next_card = 1
    cards_known = last_card > 0
}
{ gsub(/[ \r]/, ""); file = file tolower($0) }
END {
    if (failed) exit 1
    version = take(8)
    if (version != "423637434f444531" && version != "423637434f444532") { print "no codefile" > "/dev/stderr"; exit 1 }
    segments = number(take(2))
    rows = number(take(2))
    for (segment = 1; segment <= segments; segment++) {
        level = number(take(1))
        entries = ""
        if (version ~ /2$/) for (k = number(take(1)); k > 0; k--) entries = entries " " place(number(take(2)))
        words = number(take(2))
        print prefix "segment " segment ", " segment_names[segment] "level " level ", " counted(words) (entries == "" ? "" : ", entries" entries) segment_cards[segment]
        code = ""
        for (k = 0; k < words; k++) code = code substr(take(8), 5)
        list(level, words, code)
    }
    for (row = 1; row <= rows; row++) {
        words = number(take(2))
        print prefix "data row " row ", " row_names[row] "displacement " segments + 1 + row ", " counted(words) row_cards[row]
        for (k = 0; k < words; k++) print "  " sprintf("%6d", k) "  " literal(substr(take(8), 5))
    }
}' "$room/hex")
status=$?
# the shell says when the output is full, and not every awk does
[ -z "$printed" ] || printf '%s\n' "$printed" || exit 2
exit $status
