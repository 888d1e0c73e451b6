#!/bin/sh
# Explains lines that b67 prints, by the tables of docs/MESSAGES.md.
#
#     sh scripts/explain.sh 'LOAD 2 REASON 8 SEGMENT 1 AT 0:0'
#     sh scripts/explain.sh 'status 4'
#     sh scripts/explain.sh STACK OVERFLOW
#     b67 run --core 4096 --backing b < deck | sh scripts/explain.sh
#
# Status 1: a line is none of b67's.
set -u
case ${1-} in -h | --help) sed -n '1d; /^[^#]/q; s/^# \{0,1\}//p' "$0"; exit ;; esac
usage() {
    echo "usage: sh scripts/explain.sh LINE, or lines on standard input" >&2
    exit 2
}
here=$(cd "$(dirname "$0")" && pwd)
[ $# -gt 0 ] || [ ! -t 0 ] || usage
# no line begins with a dash
case ${1-} in -*) usage ;; esac
printed=$(if [ $# -gt 0 ]; then printf '%s\n' "$*"; else cat; fi |
    awk -v pages="$here/../docs/MESSAGES.md" '
function trim(s) {
    gsub(/^ +| +$/, "", s)
    return s
}
function unknown() { print "    no line of b67"; strange = 1 }
# prints what the row says from column `from` on, the first of it after `subject`, with the numbers of the line
function look(key, from, subject,    i, name, text) {
    if (!(key in columns)) { unknown(); return }
    for (i = from; i <= columns[key]; i++) {
        text = cell[key, i]
        for (name in numbers) gsub("`" name "`", numbers[name], text)
        gsub(/`/, "", text)
        if (text != "") print "    " subject text
        subject = ""
    }
}
# prints each row of a table of this page: its first column, and then the others
function list(of,    i, text) {
    for (i = 1; i <= rows; i++)
        if (index(row[i], of ":") == 1 && i != first_row[of]) {
            print "    - " substr(row[i], length(of) + 2)
            text = cell[row[i], 2]
            gsub(/`/, "", text)
            print "      " text
        }
}
BEGIN {
    while ((getline line < pages) > 0) {
        if (line ~ /^## /) section = substr(line, 4)
        if (line !~ /^\|/) continue
        n = split(line, part, /\|/)
        first = trim(part[2])
        gsub(/`/, "", first)
        key = section ":" first
        if (first ~ /^-+$/) continue
        columns[key] = n - 2
        row[++rows] = key
        if (!(section in first_row)) first_row[section] = rows
        for (i = 1; i <= n - 2; i++) {
            text = trim(part[i + 1])
            gsub(/\[[^]]*\]\([^)]*\)/, "docs/MESSAGES.md", text)
            cell[key, i] = text
        }
    }
    if (section == "") { print "cannot read " pages > "/dev/stderr"; strange = 2; exit 2 }
}
{ print; split("", numbers) }
/^status [0-9]$/ { look("Statuses:" $2, 2); next }
/^USAGE: / { look("Statuses:1", 3); next }
/^DECK [0-9]+ REASON [0-9]+$/ { look("DECK:" $4, 2, "Card " $2 " "); next }
/^ASM [0-9]+ REASON [0-9]+$/ { look("ASM:" $4, 2, "Card " $2 " "); next }
/^CODEFILE [0-9]+ REASON [0-9]+( BYTE [0-9]+)?$/ { look("CODEFILE:" $4, 2, "The bytes under card " $2 " "); next }
/^LOAD [0-9]+ REASON [0-9]+( SEGMENT [0-9]+ AT [0-9]+:[0-9])?$/ { look("LOAD:" $4, 2, "The program of the job that begins at card " $2 " "); next }
/^BIND [0-9]+ REASON [0-9]+$/ { look("BIND:" $4, 2, "Pair " $2 " "); next }
/^IMAGE [0-9]+ REASON [0-9]+$/ { look("IMAGE:" $4, 2, "Card " $2 " "); next }
/^HALTED( [0-9]+)?$/ { look("Statuses:3", 3); next }
/^NO CORE( [0-9]+ [0-9]+)?$/ { if (NF > 2) { numbers["need"] = $3; numbers["core"] = $4 }; look("Statuses:4", 3); next }
/^BACKING FULL( [0-9]+ [0-9]+)?$/ { if (NF > 2) { numbers["sum"] = $3; numbers["sectors"] = $4 }; look("Statuses:5", 3); next }
/^BACKING FAULT$/ { print "    " cell["Statuses:6", 3]; list("BACKING FAULT"); next }
/^EXERCISE [0-9]+ [0-9]+ [0-9]+$/ {
    print "    The deck of seed " $2 " with " $3 " arrays made " $4 " operators. All its tasks have ended."
    next
}
/^READING FAULT$/ { look("Statuses:7", 3); next }
/^NO MEMORY$/ { look("Statuses:9", 3); next }
/^[A-Z][A-Z0-9]* ADMITTED [0-9]+ [0-9]+$/ {
    print "    The job " $1 " has an admitted program: " $3 " segments, " $4 " data rows."
    next
}
/^[0-9]+\.[0-9]+ / {
    name = $0
    sub(/^[0-9]+\.[0-9]+ /, "", name)
    if (name ~ /^-?[0-9]/) print "    Task " $1 " printed this."
    else look("Endings and faults:" name, 2)
    next
}
/^TASK [0-9]+\.[0-9]+ / { print "    A dump: task " $2 " lives. Its records follow, the bottom one first."; next }
/^FRAME [0-9]+ / { print "    A dump: record " $2 " of the task. Its cells follow."; next }
/^CELL [0-9]+ / { print "    A dump: cell " $2 " of the record."; next }
/^\?IMAGE$/ { print "    Here begins the image of a machine that halted, up to ?END."; image = 1; next }
/^\?END$/ && image { print "    Here the image ends."; image = 0; next }
/^([0-9a-f][0-9a-f])+$/ {
    if (image) print "    Bytes of the image."
    else print "    Bytes of the codefile that asm, bind or convert prints."
    next
}
/^[A-Z]/ && ("Endings and faults:" $0) in columns { look("Endings and faults:" $0, 2); next }
{ unknown() }
END { exit strange }
')
status=$?
# the shell says when the output is full, and not every awk does
[ -z "$printed" ] || printf '%s\n' "$printed" || exit 2
exit $status
