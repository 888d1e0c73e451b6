#!/usr/bin/env bash
# Makes the print of docs/PAPER.md, as it is now, with its figures: at most fourteen pages. Needs pandoc and weasyprint, as Debian has them.
#
#     bash tools/paper.sh FILE.pdf
#
# It ends with 3, and writes nothing, if one of them isn't there. The same text gives the same bytes by the same versions of both and
# the same fonts; other versions give other bytes. Links to other pages are printed as their words.
[ -n "${BASH_VERSION:-}" ] || { echo "usage: bash tools/paper.sh FILE.pdf" >&2; exit 2; }
set -euo pipefail
usage() {
    printf '%s\nusage: bash tools/paper.sh FILE.pdf\n' "$1" >&2
    exit 2
}
[ $# -eq 1 ] || usage 'a file to write is wanted'
case $1 in -* | */) usage "$1: not a file to write" ;; *.pdf) ;; *) usage "$1: doesn't end in .pdf" ;; esac
[ -d "$(dirname "$1")" ] || usage "$1: its folder is missing"
[ ! -d "$1" ] || usage "$1: a folder"
file=$(cd "$(dirname "$1")" && pwd)/$(basename "$1")
for tool in pandoc weasyprint; do
    command -v "$tool" >/dev/null || { echo "paper.sh: $tool isn't there, so no print is made (Debian: apt-get install pandoc weasyprint)" >&2; exit 3; }
done
cd "$(dirname "$0")/../docs"
room=$(mktemp -d) || exit 2
trap 'rm -rf "$room" "$file.part"' EXIT
trap 'exit 130' HUP INT TERM
# the day of the version is the only one that a print names
day=$(sed -n 's/^date-released: //p' ../CITATION.cff)
SOURCE_DATE_EPOCH=$(date -u -d "$day" +%s)
export SOURCE_DATE_EPOCH TZ=UTC
cp paper*.svg paper.css "$room/"
grep -v '^<!--' PAPER.md | sed -E 's/\[([^]]*)\]\([A-Za-z./]+\.md[^)]*\)/\1/g' |
    pandoc -f gfm -t html5 -s --wrap=none --metadata title='Paging changes no line' --metadata lang=en --css paper.css |
    sed '/<header id="title-block-header">/,/<\/header>/d; s/^<p><em>Figure/<p class="caption"><em>Figure/; s/<code>?/<code class="card">?/g' |
    awk '# each line of a listing by itself, so that what is too long for the page goes on further in
        { first = ""; last = ""; line = $0
          if (match(line, /^<pre[^>]*><code[^>]*>/)) { inside = 1; first = substr(line, 1, RLENGTH); line = substr(line, RLENGTH + 1) }
          if (inside && match(line, /<\/code><\/pre>.*$/)) { last = substr(line, RSTART); line = substr(line, 1, RSTART - 1) }
          if (inside && !(last && line == "")) line = "<span>" (line == "" ? " " : line) "</span>"
          printf "%s%s%s%s", first, line, last, inside && !last ? "" : "\n"
          if (last) inside = 0 }' >"$room/paper.html"
(cd "$room" && weasyprint -q paper.html paper.pdf)
cp "$room/paper.pdf" "$file.part"
mv "$file.part" "$file"
