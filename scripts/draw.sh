#!/bin/sh
# Draws the stacks of a dump as an SVG: the activation records of each task as boxes, the bottom one below, and as
# arrows their static links, references, copies of arrays, and the cells at which tasks wait.
#
#     sh scripts/draw.sh [DUMP] > stacks.svg
#
# DUMP is a file with what `dump` printed, or standard input if it isn't given. Any browser shows an SVG. Of more than
# fifteen records those are drawn as one box that stand below the last three of a stack and that nothing drawn refers to.
# References and copies then also say to what in words, since their arrows may end at such a box.
# Nothing here is proved, and it is no part of the gate.
set -u
case ${1-} in -h | --help) sed -n '1d; /^[^#]/q; s/^# \{0,1\}//p' "$0"; exit ;; esac
usage() {
    echo "$1" >&2
    echo "usage: sh scripts/draw.sh [DUMP] > stacks.svg" >&2
    exit 2
}
[ $# -le 1 ] || usage "one dump, or none to read standard input"
if [ $# = 1 ]; then
    case $1 in -*) usage "$1: there are no options" ;; esac
    [ -f "$1" ] && [ -r "$1" ] || usage "$1: not a file that can be read"
    exec <"$1"
elif [ -t 0 ]; then
    usage "a dump is missing"
fi
printed=$(LC_ALL=C awk '
function fail(why) { print "draw.sh: " why > "/dev/stderr"; failed = 1; exit 2 }
function stray() { fail("line " NR " is no line of a dump: " substr($0, 1, 60)) }
function number(text) { return text ~ /^[0-9]+$/ }
function place(text) { return text ~ /^[0-9]+:[0-9]$/ }
function hex(text,   i, n) {
    n = 0
    for (i = 1; i <= length(text); i++) n = n * 16 + index("0123456789abcdef", substr(text, i, 1)) - 1
    return n
}
# 2 to the n: not every awk can compute powers
function p2(n,   power) { power = 1; for (; n > 0; n--) power *= 2; return power }
function bits(value, low, width) { return int(value / p2(low)) % p2(width) }
# the record that fields from `at` on name, as one word; the field behind it is `behind`
function record(at) {
    if ($at == "MCP") { behind = at + 1; return "MCP" }
    if ($at != "DICT" && $at !~ /^[0-9]+\.[0-9]+$/ || !number($(at + 1))) stray()
    behind = at + 2
    return $at "/" $(at + 1)
}
function named(r) { sub(/\//, " ", r); return r }
# a record and the number behind it, as one word
function cell_of(at,   r) {
    r = record(at)
    if (!number($behind)) stray()
    return r "#" $(behind++)
}
function whole(digits,   n) {
    n = hex(digits)
    if (bits(n, 39, 7) || bits(n, 47, 1)) return "#" digits
    return (bits(n, 46, 1) ? "-" : "") sprintf("%.0f", n % 549755813888)
}
# a couple of 14 bits as the running level reads it
function couple(digits,   n, width, i, level) {
    n = hex(digits)
    width = running < 4 ? 2 : running < 8 ? 3 : running < 16 ? 4 : 5
    level = 0
    for (i = 0; i < width; i++) level += bits(n, 13 - i, 1) * p2(i)
    return level "," n % p2(14 - width)
}
function row(text) { rows[now]++; said[now, rows[now]] = text; if (length(text) > wide[task]) wide[task] = length(text) }
# a row that leads to a cell or an array: its words, and those that say to what too
function leads(text, to) { row(text); in_full[now, rows[now]] = text to }
function spaced(cell) { gsub(/[\/#]/, " ", cell); return cell }
function arrow(kind, from, to) { arrows++; is[arrows] = kind; comes[arrows] = from; goes[arrows] = to; wanted[to]; sub(/#.*/, "", to); wanted[to] }
{ sub(/\r$/, "") }
NR == 1 && /^(IMAGE|USAGE:|READING|NO MEMORY)/ { fail("dump printed no dump, but: " $0) }
/^TASK / {
    if ($2 !~ /^[0-9]+\.[0-9]+$/) stray()
    task = $2
    whom = ""
    if ($3 == "READY") { at = 4; what = "ready" }
    else if ($3 == "AWAITS" && number($4)) { at = 5; what = "awaits"; whom = "task " $2; sub(/[0-9]+$/, $4, whom) }
    else if ($3 == "WAITS") {
        to = cell_of(4)
        at = behind
        whom = to
        sub(/.*#/, "", whom)
        whom = "cell " whom " of " named(key_of(to))
        what = "waits at"
        arrow("wait", "task " task, to)
    } else stray()
    if (!number($at) || !place($(at + 1)) || NF != at + 1) stray()
    names[++tasks] = task
    # three lines below the stack; those of a task that is ready are two
    title[task, 1] = "task " task ", " what
    title[task, 2] = whom
    title[task, whom == "" ? 2 : 3] = "segment " $at " at " $(at + 1)
    for (i = 1; i <= 3; i++) if (length(title[task, i]) > wide[task]) wide[task] = length(title[task, i])
    running = 2
    now = ""
    next
}
/^FRAME / && task != "" {
    if ($2 != records[task] + 1) stray()
    records[task]++
    now = task "/" $2
    if ($3 == "MARKED" && NF == 3) { is_entered = 0; row("record " $2 ", marked") }
    else if ($3 == "LEVEL" && number($4) && $5 == "ENV") {
        is_entered = 1
        running = $4
        row("record " $2 ", level " $4)
        to = record(6)
        if (NF != behind - 1) stray()
        arrow("link", now, to)
    } else stray()
    next
}
/^CELL / && now != "" {
    if (!number($2)) stray()
    here = now "#" $2
    # what no couple names, in a record that is only marked, has no name
    name = is_entered ? running "," $2 "  " : ""
    at = 5
    if ($3 == "NUM" && $4 ~ /^[0-9a-f]+$/) row(name whole($4))
    else if ($3 == "NAME" && $4 ~ /^[0-9a-f]+$/) row(name "couple " couple($4))
    else if ($3 == "ARRAY" && number($4)) row(name "array of " $4)
    else if ($3 == "PROC" && number($4) && place($5) && number($6)) {
        row(name "procedure: segment " $4 ($5 == "0:0" ? "" : " at " $5))
        at = 7
    }
    else if ($3 == "REF") {
        to = cell_of(4)
        at = behind
        whom = to
        sub(/.*#/, "", whom)
        leads(name "reference", " to cell " whom " of " named(key_of(to)))
        arrow("ref", here, to)
    }
    else if ($3 == "ROW") { to = cell_of(4); at = behind; leads(name "copy of an array", " " spaced(to)); arrow("copy", here, to) }
    else if ($3 == "ELEMENT") {
        to = cell_of(4)
        if (!number($behind)) stray()
        leads(name "element " $behind, " of " spaced(to))
        at = behind + 1
        arrow("copy", here, to)
    } else stray()
    if (NF != at - 1) stray()
    row_of[here] = rows[now]
    next
}
{ stray() }
# the text, and where an arrow sets out from it or comes to it
function put(text) { out[++outs] = text }
function write(x, y, words, more) { put(sprintf("<text x=\"%.1f\" y=\"%.1f\"%s>%s</text>", x, y, more, words)) }
function box(key, left, width,   i, y) {
    low[key] = floor
    floor -= rows[key] * line
    put(sprintf("<rect x=\"%.1f\" y=\"%.1f\" width=\"%.1f\" height=\"%.1f\" rx=\"3\"/>", left, floor, width, rows[key] * line))
    for (i = 1; i <= rows[key]; i++) {
        y = low[key] - (i - 1) * line
        write(left + 8, y - 5, said[key, i], i == 1 ? " class=\"mark\"" : "")
        if (i > 1) put(sprintf("<path class=\"rule\" d=\"M%.1f %.1fh%.1f\"/>", left, y, width))
    }
    from_left[key] = left
    from_right[key] = left + width
    if (floor < highest) highest = floor
    floor -= 8
}
# the side column: the dictionaries and the record of the MCP, so far as something names them
function sides(   j, key, n) {
    floor = base
    if (!(("MCP") in wanted)) for (j = 1; j <= 8; j++) if (("DICT/" j) in wanted) wanted["MCP"]
    for (j = 0; j <= 8; j++) {
        key = j == 0 ? "MCP" : "DICT/" j
        if (!(key in wanted)) continue
        now = key
        task = "side"
        row(j == 0 ? "MCP: level 0" : "DICT " j ": level 1")
        if (j > 0) arrow("link", key, "MCP")
    }
    for (j = 0; j <= 8; j++) {
        key = j == 0 ? "MCP" : "DICT/" j
        if (key in rows) box(key, 60, wide["side"] * letter + 16)
    }
    if (wide["side"]) across = 60 + wide["side"] * letter + 16
}
# the record of a cell, of a mark, or of what is written under a stack; or the box that has it with others
function key_of(cell) {
    if (cell ~ /^task /) return substr(cell, 6) "/1"
    sub(/#.*/, "", cell)
    return cell in folded ? folded[cell] : cell
}
# which records are drawn by themselves, and which as one box: drawn[task, 1] to drawn[task, boxes[task]]
function fold(   n, k, i, all, key, last) {
    for (n = 1; n <= tasks; n++) all += records[names[n]]
    is_large = all > 15
    if (is_large) {
        for (n = 1; n <= tasks; n++) {
            drawn_by_itself[names[n] "/1"]
            for (k = records[names[n]] - 2; k <= records[names[n]]; k++) drawn_by_itself[names[n] "/" k]
        }
        # what is at a child, and what waits, stays too; and then what all these refer to
        for (n = 1; n <= arrows; n++) {
            key = comes[n]
            sub(/\/.*/, "", key)
            if (is[n] == "wait" || (is[n] == "link" && index(goes[n], key "/") != 1)) drawn_by_itself[key_of(goes[n])]
        }
        for (n = 1; n <= arrows; n++) if (key_of(comes[n]) in drawn_by_itself) referred_to[key_of(goes[n])]
        for (key in referred_to) drawn_by_itself[key]
    }
    for (n = 1; n <= tasks; n++) {
        task = names[n]
        wide[task] = 0
        for (i = 1; i <= 3; i++) if (length(title[task, i]) > wide[task]) wide[task] = length(title[task, i])
        for (k = 1; k <= records[task]; k = last + 1) {
            last = k
            if (is_large) while (last < records[task] && !((task "/" k) in drawn_by_itself) && !((task "/" last + 1) in drawn_by_itself)) last++
            key = task "/" k
            drawn[task, ++boxes[task]] = key
            if (last > k) {
                for (i = k; i <= last; i++) folded[task "/" i] = key
                rows[key] = 1
                said[key, 1] = last - k + 1 " records, " k " to " last
                is_box[key]
            }
            for (i = 1; i <= rows[key]; i++) {
                if (is_large && (key, i) in in_full) said[key, i] = in_full[key, i]
                if (length(said[key, i]) > wide[task]) wide[task] = length(said[key, i])
            }
        }
    }
}
# whether an arrow sets out from a record that is drawn by itself
function is_drawn(n,   from) {
    from = comes[n]
    sub(/#.*/, "", from)
    return !(from in folded)
}
# what has no row of its own, as a cell of a dictionary, is at the mark
function height(cell) {
    if (cell ~ /^task /) return base + 29
    return low[key_of(cell)] - ((cell in row_of && !(key_of(cell) in is_box) ? row_of[cell] : 1) - 0.5) * line
}
# the side at which an arrow sets out from a column, and that at which it comes in: 1 is the right one
function way_out(n) { return to_column[n] > from_column[n] || (to_column[n] == from_column[n] && is[n] != "link") ? 1 : -1 }
function way_in(n) { return to_column[n] < from_column[n] || (to_column[n] == from_column[n] && is[n] != "link") ? 1 : -1 }
# An arrow that passes a column goes below all stacks, in a lane that it shares with those of its kind that lead to the
# same cell. It goes down and up in gaps, each time in a place of its own: on the left those of the column before the
# gap, on the right those of the column after it.
function place_arrow(n,   from, to, way, lane) {
    from = key_of(comes[n])
    to = key_of(goes[n])
    if (!(to in rows)) fail("no record " named(to) " stands in the dump")
    from_column[n] = column[from] + 0
    to_column[n] = column[to] + 0
    way = way_out(n)
    if ((to_column[n] - from_column[n]) * way < 2) return
    lane = is[n] SUBSEP goes[n] SUBSEP way
    if (!(lane in lanes)) {
        lanes[lane] = ++count
        to_gap[lane] = way > 0 ? to_column[n] : to_column[n] + 1
        to_place[lane] = way > 0 ? ++places[to_gap[lane]] : ++places_before[to_gap[lane]]
    }
    lane_of[n] = lane
    from_gap[n] = way > 0 ? from_column[n] + 1 : from_column[n]
    from_place[n] = way < 0 ? ++places[from_gap[n]] : ++places_before[from_gap[n]]
    if (!(lane in first) || (from_gap[n] - from_gap[first[lane]]) * way < 0 || (from_gap[n] == from_gap[first[lane]] && way < 0)) first[lane] = n
}
# how wide the gap before a column is
function gap_before(n,   all) {
    all = 42 + 6 * (places[n] + places_before[n])
    return all > gap ? all : gap
}
# where in a gap a place is, of the column after the gap or of that before it
function gap_at(n, nth, before) { return lefts[n] - 12 - 6 * (places[n] - nth + 1 + (before ? places_before[n] : 0)) }
function depth(lane) { return base + 57 + 8 * lanes[lane] }
# where an arrow sets out: from a box, or from the words under a stack
function start_of(n, way,   from) {
    from = key_of(comes[n])
    if (is[n] == "wait" && way > 0) return title_end[from]
    return way > 0 ? from_right[from] : from_left[from]
}
function draw_arrow(n,   to, x, y, to_x, to_y, way, in_way, bend) {
    to = key_of(goes[n])
    y = height(comes[n])
    to_y = height(goes[n])
    way = way_out(n)
    in_way = way_in(n)
    x = start_of(n, way)
    to_x = in_way > 0 ? from_right[to] : from_left[to]
    if (n in lane_of) {
        draw_lane(n, lane_of[n], x, y, to_x + in_way * 7, to_y)
        if (first[lane_of[n]] != n) return
    } else {
        bend = to_column[n] == from_column[n] ? (y > to_y ? y - to_y : to_y - y) / 4 + 14 : (x > to_x ? x - to_x : to_x - x) / 3
        if (to_column[n] == from_column[n] && bend > gap * 0.8) bend = gap * 0.8
        behind_boxes[++curves] = sprintf("<path class=\"%s\" d=\"M%.1f %.1fC%.1f %.1f %.1f %.1f %.1f %.1f\"/>", is[n], x, y, x + way * bend, y, to_x + in_way * (7 + bend), to_y, to_x + in_way * 7, to_y)
    }
    put(sprintf("<path class=\"%s head\" d=\"M%.1f %.1fl%d -4v8z\"/>", is[n], to_x, to_y, in_way * 7))
}
# the way of an arrow to its lane; the outermost goes on to where the lane leads, and the others end there in a dot
function draw_lane(n, lane, x, y, to_x, to_y,   down, path) {
    down = gap_at(from_gap[n], from_place[n], way_out(n) > 0)
    path = sprintf("M%.1f %.1fH%.1fV%.1f", x, y, down, depth(lane))
    if (first[lane] == n) path = path sprintf("H%.1fV%.1fH%.1f", gap_at(to_gap[lane], to_place[lane], way_out(n) < 0), to_y, to_x)
    else put(sprintf("<circle class=\"%s head\" cx=\"%.1f\" cy=\"%.1f\" r=\"2.5\"/>", is[n], down, depth(lane)))
    behind_boxes[++curves] = sprintf("<path class=\"%s\" d=\"%s\"/>", is[n], path)
}
function legend(x, kind, words) {
    put(sprintf("<path class=\"%s\" d=\"M%.1f %.1fh30\"/>", kind, x, bottom + 69))
    write(x + 36, bottom + 73, words, "")
    return x + 36 + length(words) * letter + 24
}
END {
    if (failed) exit 2
    letter = 7.4
    line = 18
    gap = 70
    base = 0
    across = 60
    highest = -40
    sides()
    fold()
    for (n = 1; n <= tasks; n++)
        for (k = 1; k <= records[names[n]]; k++) column[names[n] "/" k] = n
    for (n = 1; n <= arrows; n++) if (is_drawn(n)) place_arrow(n)
    bottom = base + (count ? 8 * count + 2 : 0)
    for (n = 1; n <= tasks; n++) {
        task = names[n]
        floor = base
        if (across > 60) across += gap_before(n)
        lefts[n] = across
        for (k = 1; k <= boxes[task]; k++) box(drawn[task, k], across, wide[task] * letter + 16)
        write(across, base + 18, title[task, 1], " class=\"mark\"")
        for (k = 2; k <= 3; k++) if (title[task, k] != "") write(across, base + 3 + 15 * k, title[task, k], "")
        title_end[task "/1"] = across + length(title[task, 2]) * letter + 4
        across += wide[task] * letter + 16
    }
    across += gap
    for (n = 1; n <= arrows; n++) if (is_drawn(n)) draw_arrow(n)
    if (tasks == 0) write(60, base, "No task lives.", "")
    x = legend(60, "link", "static link")
    x = legend(x, "ref", "reference")
    x = legend(x, "copy", "copy of an array")
    x = legend(x, "wait", "waits at")
    if (across < x) across = x
    wide_all = across + 20
    high_all = bottom + 109 - highest
    print "<svg xmlns=\"http://www.w3.org/2000/svg\" xml:space=\"preserve\" width=\"" int(wide_all) "\" height=\"" int(high_all) "\" viewBox=\"0 " int(highest - 20) " " int(wide_all) " " int(high_all) "\">"
    print "<style>text{font:12px monospace;fill:#222}.mark{font-weight:bold}rect{fill:#fff;stroke:#555}path{fill:none;stroke-width:1.3}"
    print ".rule{stroke:#ddd;stroke-width:1}.link{stroke:#444}.ref{stroke:#15c;stroke-dasharray:6 3}.copy{stroke:#083;stroke-dasharray:2 3}"
    print ".wait{stroke:#c40;stroke-dasharray:10 3 2 3}.head{stroke-dasharray:none}.link.head{fill:#444}.ref.head{fill:#15c}.copy.head{fill:#083}.wait.head{fill:#c40}</style>"
    print "<rect x=\"0\" y=\"" int(highest - 20) "\" width=\"" int(wide_all) "\" height=\"" int(high_all) "\" style=\"stroke:none\"/>"
    for (n = 1; n <= curves; n++) print behind_boxes[n]
    for (n = 1; n <= outs; n++) print out[n]
    print "</svg>"
}')
status=$?
# the shell says when the output is full, and not every awk does
[ -z "$printed" ] || printf '%s\n' "$printed" || exit 2
exit $status
