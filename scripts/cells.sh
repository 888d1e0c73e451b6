#!/bin/sh
# Names for cells. Prints a deck in which `VALC name` and `NAMC name` have become those of a couple:
#
#     sh scripts/cells.sh DECK > plain && b67 run --core 4096 --backing b < plain
#
# DECK is a file of cards. A line `CELL name level,displacement` gives the cell a name, and comes out as a comment. `CELL name`
# alone names the next cell of its segment: behind that of the CELL line before it, or the first one. The name is a small letter
# and up to 15 small letters, digits or `_`. It holds up to the next CELL line of that name, or to the next ?JOB. Each card keeps
# its number; if it would be longer than 80 characters, its comment loses the end. A deck without names comes out as it is.
# Status 2: a name without a CELL line before it, or a malformed CELL line; nothing is printed then.
#
# On standard error it warns, as far as the cards show it, of a name that is another procedure's; of a name whose cell isn't
# pushed yet; and of a call with another number of arguments than an intrinsic takes, a procedure names, or another call gives.
# The deck is printed all the same. Nothing here is proved.
set -u
case ${1-} in -h | --help) sed -n '1d; /^[^#]/q; s/^# \{0,1\}//p' "$0"; exit ;; esac
usage() {
    echo "$1" >&2
    echo "usage: sh scripts/cells.sh DECK" >&2
    exit 2
}
[ $# = 1 ] || usage "one deck is wanted"
[ -f "$1" ] && [ -r "$1" ] || usage "$1: not a file that can be read"
printed=$(LC_ALL=C awk '
BEGIN {
    is_assembly = 1
    # how many words each operator leaves more than it takes; calls and branches stand apart
    split("ZERO 1 ONE 1 LT8 1 LT16 1 LT48 1 VALC 1 NAMC 1 MPCW 1 DUPL 1 STOD -2 STON -1 INDX -1 NXLV -1 ADD -1 SUBT -1 MULT -1 IDIV -1 " \
        "RDIV -1 LESS -1 GREQ -1 GRTR -1 LSEQ -1 EQUL -1 NEQL -1 LAND -1 LOR -1 LEQV -1 SAME -1 INSR -1 DLET -1 BRTR -1 BRFL -1", table, " ")
    for (k = 1; k in table; k += 2) leaves[table[k]] = table[k + 1]
    # of each intrinsic its name, how many arguments it takes, and how many words it leaves; PROCESS takes any number
    split("8 ARRAYDEC 1 1 9 PRINT 1 0 10 PRINTROW 1 0 11 READ 0 1 12 PROCESS -1 1 13 AWAIT 1 0 14 STATUS 1 1 15 WAIT 1 0 16 CAUSE 1 0 17 DEALLOCATE 1 0 18 RESIZE 2 0", table, " ")
    for (k = 1; k in table; k += 4) { intrinsic[table[k]] = table[k + 1]; takes[table[k]] = table[k + 2]; answers[table[k]] = table[k + 3] }
}
function wrong(why) { printf "cells.sh: card %d: %s\n", NR, why > "/dev/stderr"; is_wrong = 1 }
# a number from 0 to `most`, written as the assembler wants it
function within(text, most) { return text ~ /^(0|[1-9][0-9]*)$/ && length(text) <= 4 && text + 0 <= most }
function is_name(text) { return text ~ /^[a-z][a-z0-9_]*$/ && length(text) <= 16 }
function is_couple(text,   part) { return split(text, part, /,/) == 2 && within(part[1], 31) && within(part[2], 4095) }
# a changed card, of which the comment may be cut
function put(card,   code) {
    code = card
    sub(/;.*/, "", code)
    if (length(card) > 80 && length(code) < 80) card = substr(card, 1, 80)
    deck[NR] = card
    is_changed = 1
}
# the card of an operator, or of a segment, for what is checked
function take(text, given,   word, count, first) {
    sub(/;.*/, "", text)
    gsub(/:/, ": ", text)
    count = split(text, word, " ")
    if (word[1] == "SEGMENT") {
        segments++
        name_of[segments] = word[2]; level_of[segments] = word[3]; card_of[segments] = NR; from[segments] = operators + 1; job_of[segments] = job
        by_name[job, word[2]] = segments
        next_cell = 2
    }
    first = 1
    if (count > 1 && word[1] ~ /:$/) first = 2
    if (!segments || job_of[segments] != job || !count || word[1] ~ /^(SEGMENT|ROW|NUM|ENTRY)$/) return
    operators++
    op[operators] = word[first]; operand[operators] = word[first + 1]; card[operators] = NR; label[operators] = first == 2 ? substr(word[1], 1, length(word[1]) - 1) : ""
    of_name[operators] = given
    home[operators] = given == "" ? 0 : home_of[given]
    till[segments] = operators
}
{
    line = $0
    sub(/\r$/, "", line)
    deck[NR] = $0
}
line ~ /^\?JOB/ { split("", couple); split("", home_of); split("", is_malformed); job++ }
line ~ /^\?/ { is_assembly = line ~ /^\?ASM/ }
!is_assembly { next }
line ~ /^ *([A-Z0-9]+: *)?CELL( |;|$)/ {
    text = line
    sub(/;.*/, "", text)
    count = split(text, word, / +/)
    first = word[1] == "" ? 2 : 1
    if (word[count] == "") count--
    is_next = count == first + 1 && word[first] == "CELL" && is_name(word[first + 1])
    its = is_next && segments && job_of[segments] == job ? level_of[segments] "," next_cell : word[first + 2]
    if (is_next && !(segments && job_of[segments] == job)) {
        wrong("CELL " word[first + 1] " names the next cell of a segment, and stands in none: a couple is wanted")
        next
    }
    if (!is_next && (count != first + 2 || word[first] != "CELL" || !is_name(word[first + 1])) || !is_couple(its)) {
        card_text = line
        sub(/^ +/, "", card_text)
        wrong(substr(card_text, 1, 60) ": CELL name level,displacement is wanted, or CELL name: a name of at most 16 small letters, digits or _, a letter first, and no space in the couple")
        is_malformed[word[first + 1]] = 1 # its uses are no mistakes of their own
        next
    }
    couple[word[first + 1]] = its
    home_of[word[first + 1]] = segments && job_of[segments] == job ? segments : 0
    split(its, part, /,/)
    if (segments && part[1] == level_of[segments]) {
        next_cell = part[2] + 1
        # those before the first operator are the parameters; the last one may be the first cell that is pushed
        if (operators < from[segments] && part[2] - 1 > named[segments]) named[segments] = part[2] - 1
    }
    sub(/^ +/, "", line)
    sub(/ +$/, "", line)
    if (is_next) { text = line; sub(/^CELL +[a-z0-9_]+/, "", text); line = "CELL " word[first + 1] " " its text }
    put("; " line)
    next
}
match(line, /^ *([A-Z0-9]+: +)?(VALC|NAMC) +[a-z][^ ;]*/) {
    before = substr(line, 1, RLENGTH)
    after = substr(line, RLENGTH + 1)
    name = before
    sub(/.* /, "", name)
    if (!(name in couple)) {
        if (!(name in is_malformed)) wrong(substr(before, length(before) - length(name) - 4) ": no CELL line before it names " name)
        next
    }
    line = substr(before, 1, length(before) - length(name)) couple[name] after
    put(line)
    take(line, name)
    next
}
{ take(line, "") }

# ---- what the cards show of calls and cells
function warns(at, why) { if (is_told) printf "cells.sh: card %d: warning: %s\n", at, why > "/dev/stderr" }
function of_arguments(count) { return count == 1 ? "1 argument" : count == 0 ? "no argument" : count " arguments" }
# pushes so many words, on the record that is marked last, or on the running one; -1 stands for an unknown number
function pushes(words) { if (marks) { if (words_of[marks] >= 0) words_of[marks] += words } else if (height >= 0) height += words }
function loses() { if (marks) words_of[marks] = -1; else height = -1 }
# what stands where a label does, as a text; it keeps what is marked
function state(   k, text) {
    text = height " " marks
    for (k = 1; k <= marks; k++) text = text " " words_of[k] " " callee[k] " " started[k]
    return text
}
function restores(text,   part, k) {
    split(text, part, " ")
    height = part[1]; marks = part[2]
    for (k = 1; k <= marks; k++) { words_of[k] = part[3 * k]; callee[k] = part[3 * k + 1]; started[k] = part[3 * k + 2] }
}
# the segment in whose record a level is read, from a segment on; 0 if no card shows it
function at_level(segment, level,   k) {
    for (k = 0; segment && level_of[segment] > level && k < 32; k++) segment = maker[segment] + 0
    return segment > 0 && level_of[segment] == level ? segment : 0
}
# the procedure that a couple names in a segment, if an MPCW made that cell
function called_by(segment, text,   part) {
    if (split(text, part, /,/) != 2 || part[1] < 2) return 0
    segment = at_level(segment, part[1])
    return segment ? made[segment, part[2]] + 0 : 0
}
# how many words a procedure hands back: by RETN one, by EXIT none; -1 if it has both
function hands(segment,   k, ends, returns) {
    for (k = from[segment]; k <= till[segment]; k++) { if (op[k] == "EXIT") ends = 1; if (op[k] == "RETN") returns = 1 }
    return ends && returns || !ends && !returns ? -1 : returns + 0
}
# a call of a procedure with so many arguments
function calls(segment, count, at,   text) {
    if (!(segment in given_to)) { given_to[segment] = count; given_at[segment] = at }
    if (named[segment] > 0 && (count > named[segment] || count < named[segment] - 1 || count == named[segment] - 1 && leaves[op[from[segment]]] != 1 && op[from[segment]] != "MKST"))
        warns(at, name_of[segment] " names " (named[segment] == 1 ? "1 parameter" : named[segment] " parameters") " before its first operator, and gets " of_arguments(count))
    else if (given_to[segment] != count) warns(at, name_of[segment] " gets " of_arguments(count) " here, and " of_arguments(given_to[segment]) " on card " given_at[segment])
}
function enters(segment, at,   count, text, number, called) {
    if (!marks) { loses(); return }
    count = words_of[marks] - 1
    text = callee[marks]
    called = called_by(segment, text)
    number = substr(text, 3)
    if (text ~ /^0,/ && number in takes) {
        if (count >= 0 && takes[number] >= 0 && count != takes[number]) warns(at, intrinsic[number] " takes " of_arguments(takes[number]) ", and gets " of_arguments(count))
        if (number == 12 && count > 0 && called_by(segment, started[marks])) calls(called_by(segment, started[marks]), count - 1, at)
        marks--
        pushes(answers[number])
        return
    }
    if (called && count >= 0) calls(called, count, at)
    marks--
    number = called ? hands(called) : -1
    if (number < 0) loses(); else pushes(number)
}
function walks(segment,   k, part, target) {
    split("", seen)
    marks = 0
    height = segment in given_to ? 2 + given_to[segment] : is_first[segment] ? 2 : -1
    for (k = from[segment]; k <= till[segment]; k++) {
        if (label[k] != "") { if (height < 0 && !marks && (segment, label[k]) in seen) restores(seen[segment, label[k]]); else if (marks && !((segment, label[k]) in seen)) { marks = 0; height = -1 } }
        if (op[k] == "MKST") { marks++; words_of[marks] = 0; callee[marks] = started[marks] = "-"; continue }
        if (op[k] == "ENTR") { enters(segment, card[k]); continue }
        if (op[k] ~ /^(VALC|NAMC)$/ && split(operand[k], part, /,/) == 2) {
            if (of_name[k] != "") looks(segment, k, part[1], part[2])
            if (op[k] == "NAMC" && marks && words_of[marks] == 0) callee[marks] = operand[k]
            if (op[k] == "NAMC" && marks && words_of[marks] == 1) started[marks] = operand[k]
        }
        target = operand[k]
        if (op[k] == "MPCW") {
            sub(/:.*/, "", target)
            target = by_name[job_of[segment], target] + 0
            # (not as one assignment: some awks make the element before they look whether it is there)
            if (target && !(target in maker)) maker[target] = segment
            else if (target && maker[target] != segment) maker[target] = -1
            if (target && !marks && height >= 0) {
                if (!((segment, height) in made)) made[segment, height] = target
                else if (made[segment, height] != target) made[segment, height] = -1
            }
            target = ""
        }
        if (op[k] in leaves) pushes(leaves[op[k]])
        if (op[k] ~ /^BR/) seen[segment, target] = state()
        if (op[k] ~ /^(BRUN|EXIT|RETN)$/) { height = -1; marks = 0 }
    }
}
# a name that is used: is the cell that of its own record, and is it there?
function looks(segment, k, level, at,   its) {
    its = home[k]
    if (its && its != segment && level_of[its] == level && level >= 2 && (level >= level_of[segment] || at_level(segment, level) && at_level(segment, level) != its))
        warns(card[k], of_name[k] " is a cell of " name_of[its] ", and in " name_of[segment] " the couple " level "," at " is another cell")
    else if (level == level_of[segment] && height >= 0 && at >= height)
        warns(card[k], of_name[k] " is cell " level "," at ", and the cells that are pushed here are " (height == 2 ? "none" : "those up to " level "," height - 1))
}
END {
    if (is_wrong) exit 2
    if (!is_changed) exit 3
    for (card_number = 1; card_number <= NR; card_number++) print deck[card_number]
    print "."
    for (k = 1; k <= segments; k++) if (!(job_of[k] in first_of)) { first_of[job_of[k]] = k; is_first[k] = 1 }
    # what makes a procedure, and how it is called, is known when all cards were walked once
    for (turn = 1; turn <= 3; turn++) { is_told = turn == 3; for (k = 1; k <= segments; k++) walks(k) }
}' <"$1")
status=$?
# without a name nothing is changed, not even the end of the last line
[ $status != 3 ] || exec cat <"$1"
[ $status = 0 ] || exit $status
# the shell says when the output is full, and not every awk does; the point keeps the empty lines at the end
printf '%s' "${printed%.}" || exit 2
