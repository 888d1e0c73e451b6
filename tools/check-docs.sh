#!/bin/bash
# Runs the commands of the documents as they are written there, on a clone of the repository in the temporary folder,
# and compares what they print. No part of the gate: run it by hand, with a built program.
#
#     bash tools/check-docs.sh PROGRAM [DOCUMENT..]
#
# In the pages at the top, in docs/ and teaching/, and in the README of bench, decks, reference, scripts, tools and web
# - a block that begins with ```console holds commands after `$ ` and, after each, exactly what it prints;
# - a block that begins with ```sh holds commands without their output: each must end with status 0;
# - a block that begins with a `?` card is the deck of a folder of decks/, and a block of lines that begin with a
#   task's name after it is that deck's stdout;
# - cards in a sentence, as `ZERO / EXIT` gives `1.1 ENDED`, are the outer block of a deck that prints this first.
# A block after a line <!-- check-docs: skip, WHY --> isn't run, and is listed as such; one that needs strace is run if
# strace can be. The program is found as `b67` and as crates/b67/out/b67. The two lines with a status that `rt try` adds
# are left out of the comparison. Beside that
# - each link must lead to a file and a heading, and each name of a file or a crate to one (tools/links.py);
# - the table of decks must name each folder of decks/, that of crates be what tools/heads.py makes, some page name each script;
# - the manual pages, README.md and CHANGES.md must be of the version and date that CITATION.cff has; b67.1 must name each status's line,
#   and its examples must end with status 0 and print something;
# - the CPU minutes of the gate in README.md, docs/CHANGING.md and docs/PAPER.md must be those of docs/minutes.txt, to a tenth, which must
#   have a line for each crate;
# - each number of lines in README.md, docs/PROVED.md and docs/PAPER.md must be one that tools/trust.py or tools/sizes.py prints;
# - docs/PROVED.md must name each public function of b67_promises, docs/TESTED.md the number of rows, README.md that of decks,
#   docs/ARCHITECTURE.md that of crates.
set -u
usage() {
    echo "$1" >&2
    echo "usage: bash tools/check-docs.sh PROGRAM [DOCUMENT..]" >&2
    exit 2
}
[ $# -ge 1 ] || usage "a program is missing"
[ -f "$1" ] && [ -x "$1" ] || usage "$1: not a program that can be run"
program=$(cd "$(dirname "$1")" && pwd)/$(basename "$1")
shift
top=$(cd "$(dirname "$0")/.." && pwd)
for document in "$@"; do
    [ "$(git -C "$top" cat-file -t "HEAD:$document" 2>/dev/null)" = blob ] || usage "$document: not a document of the repository"
done
room=
trap 'rm -rf "$room"' EXIT
trap 'exit 130' HUP INT TERM
room=$(mktemp -d) || exit 2
git clone -q "$top" "$room/clone"
mkdir -p "$room/bin" "$room/blocks" "$room/clone/crates/b67/out"
for place in "$room/bin/b67" "$room/clone/crates/b67/out/b67"; do
    printf '#!/bin/sh\nexec "%s" "$@"\n' "$program" >"$place"
    chmod +x "$place"
done
export PATH="$room/bin:$PATH" HOME="$room/home"
mkdir -p "$HOME"
cd "$room/clone" || exit 2
[ $# -gt 0 ] || set -- *.md docs/*.md bench/README.md decks/README.md reference/README.md scripts/README.md tools/README.md web/README.md teaching/*.md teaching/*/*.md teaching/*/*/*.md
if strace -o "$room/traced" true 2>/dev/null; then strace=1; else strace=; fi

passed=0
failed=0
skipped=0
wrong() {
    echo "FAILED: $1"
    failed=$((failed + 1))
}
for document in "$@"; do
    rm -f "$room"/blocks/*
    # each block into a file NUMBER.KIND that begins with the number of its first line
    awk -v folder="$room/blocks" -v strace="$strace" '
    /^<!-- check-docs: skip.*needs strace/ && strace { next }
    /^<!-- check-docs: skip/ { skip = $0; next }
    /^```/ && !inside { inside = 1; kind = substr($0, 4); if (kind == "") kind = "plain"; if (skip != "") kind = "skip"
        n++; file = sprintf("%s/%04d.%s", folder, n, kind); print NR ": " skip > file; skip = ""; next }
    /^```/ { inside = 0; close(file); next }
    inside { print > file }' "$document"
    deck=
    for block in "$room"/blocks/*; do
        [ -f "$block" ] || continue
        line=$(sed -n '1s/:.*//p' "$block")
        name="$document:$line"
        tail -n +2 "$block" >"$room/text"
        case $block in
        *.console)
            # the commands, each printed before it is run, with the status of the one before kept for it
            awk '/^\$ / { command = substr($0, 3); quoted = command; gsub(/\047/, "\047\\\047\047", quoted)
                print "status=$?; printf \047%s\\n\047 \047$ " quoted "\047; (exit $status)"; print command }' "$room/text" >"$room/script"
            bash "$room/script" 2>&1 </dev/null | grep -vE '^(checked: |run=)ended status=' >"$room/printed"
            if cmp -s "$room/text" "$room/printed"; then passed=$((passed + 1)); else
                wrong "$name"
                diff "$room/text" "$room/printed"
            fi
            ;;
        *.sh)
            if bash -e "$room/text" >"$room/printed" 2>&1 </dev/null; then passed=$((passed + 1)); else
                wrong "$name"
                cat "$room/printed"
            fi
            ;;
        *.skip)
            echo "not run: $name $(sed -n '1s/.*skip, \(.*\) -->/\1/p' "$block")"
            skipped=$((skipped + 1))
            ;;
        *)
            if head -1 "$room/text" | grep -q '^?'; then
                deck=
                for folder in decks/*/stdin; do
                    folder=${folder%/stdin}
                    if cmp -s "$folder/stdin" "$room/text"; then deck=$folder; fi
                done
                if [ -n "$deck" ]; then passed=$((passed + 1)); else wrong "$name: no deck of decks/"; fi
            elif head -1 "$room/text" | grep -q '^1\.[1-9] '; then
                if [ -n "$deck" ] && cmp -s "$deck/stdout" "$room/text"; then passed=$((passed + 1)); else wrong "$name: not what ${deck:-no deck} prints"; fi
            fi
            ;;
        esac
    done
    grep -oE '`[A-Z0-9,: ]+( / [A-Z0-9,: ]+)+` gives `[^`]+`' "$document" | sed 's/`//g; s/ gives /\t/' >"$room/sentences"
    while IFS="$(printf '\t')" read -r cards printed; do
        { printf '?JOB A\n?ASM\nSEGMENT MAIN 2\n'; printf '%s\n' "$cards" | sed 's: / :\n:g'; echo '?END'; } >"$room/text"
        if [ "$(b67 run --core 4096 --backing b <"$room/text" | head -1)" = "$printed" ]; then passed=$((passed + 1)); else
            wrong "$document: $cards"
        fi
    done <"$room/sentences"
done

if [ "$(ls decks/*/stdin | cut -d/ -f2 | sort)" = "$(sed -n '/^## The decks/,$s/^| `\([a-z0-9]*\)` .*/\1/p' docs/ASSEMBLER.md | sort)" ]; then
    passed=$((passed + 1))
else wrong 'the table of decks in docs/ASSEMBLER.md'; fi
if python3 tools/heads.py --check >"$room/printed"; then passed=$((passed + 1)); else
    wrong 'the table of crates in docs/ARCHITECTURE.md'
    cat "$room/printed"
fi
missing=$(for script in scripts/*.sh tools/*.sh tools/*.py; do grep -qF "$(basename "$script")" *.md docs/*.md */README.md || echo "$script"; done)
if [ -z "$missing" ]; then passed=$((passed + 1)); else wrong "scripts that no page names: $(echo $missing)"; fi
python3 tools/trust.py >"$room/sizes"
python3 tools/sizes.py >>"$room/sizes"
missing=$(grep -ohE '[0-9][0-9,]* lines' README.md docs/PROVED.md docs/PAPER.md | sed 's/ lines//; s/,//g' | sort -u | while read -r number; do
    grep -qw "$number" "$room/sizes" || echo "$number"
done)
if [ -z "$missing" ]; then passed=$((passed + 1)); else wrong "numbers of lines that no script prints: $(echo $missing)"; fi
missing=$(tr '\n' ' ' <crates/b67_promises/src/lib.rt | grep -oE 'pub use [^;]*;' | sed 's/.*:://' | grep -oE '\b[a-z_]+\b' | while read -r name; do
    grep -qE "::$name( |\$)" "$room/sizes" && grep -qF "\`$name\`" docs/PROVED.md || echo "$name"
done)
if [ -z "$missing" ]; then passed=$((passed + 1)); else wrong "theorems that docs/PROVED.md or tools/trust.py leaves out: $(echo $missing)"; fi
rows=$(tail -1 crates/b67_rows/stdout | cut -d' ' -f1)
if grep -qF "$rows rows" docs/TESTED.md; then passed=$((passed + 1)); else wrong "docs/TESTED.md: there are $rows rows"; fi
crates=$(ls -d crates/*/ | wc -l)
if grep -qF "There are $crates crates" docs/ARCHITECTURE.md; then passed=$((passed + 1)); else wrong "docs/ARCHITECTURE.md: there are $crates crates"; fi
decks=$(ls decks/*/stdin | wc -l)
if grep -qF "the $decks decks" README.md; then passed=$((passed + 1)); else wrong "README.md: there are $decks decks"; fi
version=$(sed -n 's/^version: //p' CITATION.cff)
date=$(sed -n 's/^date-released: //p' CITATION.cff)
for page in docs/b67.1 docs/*.5; do
    head -1 "$page" | grep -qF "\"$date\" \"b67 $version\"" || wrong "$page: its head isn't of b67 $version, $date"
done
if grep -qF "This is version $version " README.md && grep -q "^## $version, $date" CHANGES.md; then passed=$((passed + 1)); else wrong "README.md or CHANGES.md isn't of $version, $date"; fi
minutes=$(awk '$1 == "all" { print $2 + $3 + $4 }' docs/minutes.txt)
for page in README.md docs/CHANGING.md docs/PAPER.md; do
    said=$(grep -oE '(some|about) [0-9]+ (minutes of a processor|minutes of CPU time|CPU minutes)' $page | head -1 | cut -d' ' -f2)
    if [ $((${said:-0} * 10)) -ge $((minutes * 9)) ] && [ $((${said:-0} * 10)) -le $((minutes * 11)) ]; then passed=$((passed + 1)); else
        wrong "$page: the gate takes ${said:-no} minutes, and $minutes by docs/minutes.txt"
    fi
done
if [ "$(LC_ALL=C ls crates)" = "$(sed -n 's/^\(b67[a-z0-9_]*\) .*/\1/p' docs/minutes.txt | LC_ALL=C sort)" ]; then passed=$((passed + 1)); else wrong 'the crates of docs/minutes.txt'; fi
for page in README.md CONTRIBUTING.md docs/CHANGING.md docs/PAPER.md tools/before-landing.sh; do
    if grep -qE 'one (to|or) two hours' $page; then passed=$((passed + 1)); else wrong "$page: the gate takes one to two hours"; fi
done
if grep -qF "This page describes b67 $version, of $date." docs/b67.1; then passed=$((passed + 1)); else wrong "docs/b67.1: VERSION isn't of b67 $version, $date"; fi
page=$(MANWIDTH=1000 man -l docs/b67.1 2>/dev/null | col -b)
for words in 'USAGE: b67 run' DECK ASM CODEFILE LOAD BIND IMAGE HALTED 'NO CORE' 'BACKING FULL' 'BACKING FAULT' 'READING FAULT' 'NO MEMORY'; do
    case $page in *"$words"*) passed=$((passed + 1)) ;; *) wrong "docs/b67.1: $words" ;; esac
done
if python3 tools/links.py "$@" >"$room/printed"; then passed=$((passed + 1)); else
    wrong links
    cat "$room/printed"
fi
cp decks/halt/stdin deck
sed -n '/^\.SH EXAMPLES/,/^\.SH SEE/p' docs/b67.1 | awk -v folder="$room" '/^\.nf/ { n++; inside = 1; next } /^\.fi/ { inside = 0 }
    inside { gsub(/\\-/, "-"); gsub(/\\e/, "\\"); sub(/^ */, ""); print > (folder "/example." n) }'
for example in "$room"/example.*; do
    if bash "$example" >"$room/printed" 2>&1 </dev/null && [ -s "$room/printed" ]; then passed=$((passed + 1)); else
        wrong "docs/b67.1: $(cat "$example")"
        cat "$room/printed"
    fi
done
echo "$passed passed, $failed failed, $skipped not run"
[ $failed = 0 ]
