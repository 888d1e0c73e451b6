#!/bin/sh
# Reads a dump and prints it for people: numbers in decimal, each cell under the couple that names it, couples as
# level,displacement, intrinsics by their names.
#
#     sh scripts/plain.sh [DUMP]
#     b67 dump < halted | sh scripts/plain.sh
#
# DUMP is a file with what `dump` printed, or standard input if it isn't given. Records and arrays have the names of the
# dump: `1.1 2` is record 2 of task 1.1, and array `1.1 2 3` is that of the original in its cell 3. A place is written
# as the tracer writes it, segment@word:syllable. Lines that are none of a dump are passed on, if there is a line of one at all.
# Status 1: there is none, or one is cut. Nothing here is proved.
set -u
case ${1-} in -h | --help) sed -n '1d; /^[^#]/q; s/^# \{0,1\}//p' "$0"; exit ;; esac
usage() {
    echo "$1" >&2
    echo "usage: sh scripts/plain.sh [DUMP]" >&2
    exit 2
}
[ $# -le 1 ] || usage "one dump, or none to read standard input"
if [ $# = 1 ]; then
    case $1 in -*) usage "$1: there are no options" ;; esac
    [ -f "$1" ] && [ -r "$1" ] || usage "$1: not a file that can be read"
    exec <"$1"
elif [ -t 0 ]; then
    usage "a dump is missing"
fi
printed=$(LC_ALL=C awk '
function hex(text,   i, n) {
    n = 0
    for (i = 1; i <= length(text); i++) n = n * 16 + index("0123456789abcdef", substr(text, i, 1)) - 1
    return n
}
# 2 to the n: not every awk can compute powers
function p2(n,   power) { power = 1; for (; n > 0; n--) power *= 2; return power }
function bits(value, low, width) { return int(value / p2(low)) % p2(width) }
function whole(digits,   n) {
    if (digits == "800000000000") return "#800000000000, as READ gives when no number is left"
    n = hex(digits)
    if (bits(n, 39, 7) || bits(n, 47, 1)) return "#" digits
    return (bits(n, 46, 1) && n % 549755813888 ? "-" : "") sprintf("%.0f", n % 549755813888)
}
# a couple of 14 bits as the running level reads it
function couple(digits,   n, width, i, level, at) {
    n = hex(digits)
    width = running < 4 ? 2 : running < 8 ? 3 : running < 16 ? 4 : 5
    level = 0
    for (i = 0; i < width; i++) level += bits(n, 13 - i, 1) * p2(i)
    at = n % p2(14 - width)
    return level "," at (level == 0 && at in intrinsic ? " " intrinsic[at] : "")
}
# the record that fields from `at` on name; the field after it is `next_field`
function record(at) {
    if ($at == "MCP") { next_field = at + 1; return "MCP" }
    next_field = at + 2
    return $at " " $(at + 1)
}
# a cell of such a record
function cell(   r) { r = record(4); return "cell " $next_field " of " r }
# the array whose original such a cell is
function array(   r) { r = record(4); return "array " r " " $next_field }
# a line, after those that were held back while no line of a dump had come
function put(line,   i) {
    for (i = 1; i <= held; i++) print before[i]
    held = 0
    has_dump = 1
    print line
}
function show(text) { put(sprintf("    %-6s%s", is_entered ? running "," $2 : "", text)) }
BEGIN {
    n = split("ARRAYDEC PRINT PRINTROW READ PROCESS AWAIT STATUS WAIT CAUSE DEALLOCATE RESIZE", names, " ")
    for (i = 1; i <= n; i++) intrinsic[i + 7] = names[i]
}
{ sub(/\r$/, "") }
/^\?IMAGE *$/ { print "plain.sh: this is an image: give it to b67 dump first" > "/dev/stderr"; failed = 2; exit 2 }
/^TASK [0-9]+\.[0-9]+ (READY|AWAITS|WAITS) / {
    what = $3 == "READY" ? "ready" : $3 == "AWAITS" ? "awaits the end of task " $2 : "waits at " cell()
    if ($3 == "AWAITS") sub(/[0-9]+$/, $4, what)
    put("task " $2 ", " what ", next " $(NF - 1) "@" $NF)
    running = 2
    next
}
/^FRAME [0-9]+ MARKED$/ { is_entered = 0; put("  record " $2 ", marked for a call"); next }
/^FRAME [0-9]+ LEVEL [0-9]+ ENV / {
    is_entered = 1
    running = $4
    put("  record " $2 ", level " $4 ", static link to " record(6))
    next
}
/^CELL [0-9]+ NUM / { show(whole($4)); next }
/^CELL [0-9]+ NAME / { show("couple " couple($4)); next }
/^CELL [0-9]+ REF / { show("reference to " cell()); next }
/^CELL [0-9]+ ARRAY / { show("array of " $4); next }
/^CELL [0-9]+ ROW / { show("copy of " array()); next }
/^CELL [0-9]+ ELEMENT / { what = array(); show("element " $(next_field + 1) " of " what); next }
/^CELL [0-9]+ PROC / { show("procedure: segment " $4 ($5 == "0:0" ? "" : " at " $5)); next }
/^(TASK|FRAME|CELL)( |$)/ {
    print "plain.sh: line " NR " of the dump is cut: " substr($0, 1, 60) > "/dev/stderr"
    failed = 1
    exit 1
}
has_dump { print; next }
{ before[++held] = $0 }
END {
    if (failed) exit failed
    if (held) { print "plain.sh: no line of a dump is there" > "/dev/stderr"; exit 1 }
}')
status=$?
# the shell says when the output is full, and not every awk does
[ -z "$printed" ] || printf '%s\n' "$printed" || exit 2
exit $status
