#!/usr/bin/env bash
# Makes two archives. The first has what a class needs: the built program, the page b67.html if there is one, the manual pages, decks with
# the exercises but not their answers, documents, scripts, the tracer, and a sum of each file. Nothing in it needs the toolchain. The same tree and program give
# the same bytes: files are in the order of their names, and their time is the version's date. Needs git and GNU tar.
# The paper is printed too (docs/PAPER.pdf), if pandoc and weasyprint are there; the same versions of both give the same bytes. So is b67.c,
# the program as one file of C, if wasm2c is there (Debian: wabt). A link
# of a document that leads to no file of the archive is an error. What teachers alone get, FILE-teachers.tar.gz, is unpacked beside it: keys,
# solutions, exam, slides, the answers, and how to teach with it all. What pupils get has a README of its own, tools/release-readme.txt.
#
#     bash tools/release.sh PROGRAM FILE.tar.gz [PAGE]
#
# PROGRAM is a built program, as crates/b67/out/b67. PAGE is the machine in a page, web/b67.html if it isn't named and is
# there. Files are those that git knows, as they are now. The version is that of CITATION.cff.
[ -n "${BASH_VERSION:-}" ] || { echo "usage: bash tools/release.sh PROGRAM FILE.tar.gz [PAGE]" >&2; exit 2; }
set -euo pipefail
usage() {
    printf '%s\nusage: bash tools/release.sh PROGRAM FILE.tar.gz [PAGE]\n' "$1" >&2
    exit 2
}
[ $# -ge 2 ] && [ $# -le 3 ] || usage 'a program and a file to write are wanted'
[ -f "$1" ] && [ -x "$1" ] || usage "$1: not a program that can be run"
case $2 in -* | */) usage "$2: not a file to write" ;; *.tar.gz) ;; *) usage "$2: doesn't end in .tar.gz" ;; esac
[ -d "$(dirname "$2")" ] || usage "$2: its folder is missing"
program=$(cd "$(dirname "$1")" && pwd)/$(basename "$1")
archive=$(cd "$(dirname "$2")" && pwd)/$(basename "$2")
top=$(cd "$(dirname "$0")/.." && pwd)
page=$top/web/b67.html
if [ $# -eq 3 ]; then
    [ -f "$3" ] || usage "$3: no such page"
    page=$(cd "$(dirname "$3")" && pwd)/$(basename "$3")
fi
cd "$top"
git rev-parse -q --verify HEAD >/dev/null 2>&1 || usage "$top: not a repository of git"
version=$(sed -n 's/^version: //p' CITATION.cff)
date=$(sed -n 's/^date-released: //p' CITATION.cff)
room=
trap 'rm -rf "$room" "$archive.part"' EXIT
trap 'exit 130' HUP INT TERM
room=$(mktemp -d)
name=b67-$version
out=$room/$name
mkdir -p "$out/bin" "$out/man/man1" "$out/man/man5"

# put FILE.. : each under the name that it has here
put() {
    local file
    for file in "$@"; do
        mkdir -p "$out/$(dirname "$file")"
        cp "$file" "$out/$file"
    done
}
cp "$program" "$out/bin/b67"
cp docs/b67.1 "$out/man/man1/b67.1"
cp docs/*.5 "$out/man/man5/"
[ ! -f "$page" ] || cp "$page" "$out/b67.html"
[ ! -f "$page" ] || cp web/b67.mjs "$out/b67.mjs"
# the page in three files
[ ! -f "$page" ] || { mkdir "$out/server" && python3 web/build/apart.py "$page" "$out/server"; }
# the same program as one file of C, if there is what makes it
[ ! -f "$page" ] || sh web/c/make.sh "$out/b67.c" "$page" >"$room/said" || [ $? = 2 ] || usage 'b67.c was not made'
mapfile -t files < <(git ls-files README.md CHANGES.md CITATION.cff CONTRIBUTING.md docs bench/README.md tools/README.md web/README.md reference editors \
    teaching/pupils teaching/decks crates/b67_rows/data/README.md 'crates/b67_rows/data/*.rows' \
    crates/b67/src/main.rt crates/b67_promises/src/lib.rt crates/b67_promises/src/shipped.rt crates/b67_recorded/src)
put "${files[@]}"
# the page stands at the top, where a pupil finds it
moved='s:`web/b67\.html`:`b67.html`:; s:node web/b67\.mjs:node b67.mjs:g; s:run\.sh web/b67\.mjs:run.sh ./b67.mjs:'
sed -i "$moved" "$out/README.md" "$out/web/README.md"
# what teachers alone get is named there, and no link leads to it
find "$out" -name '*.md' -exec sed -i -E 's:\[([^]]*)\]\(([./]*teaching/README|([./]*teaching/|\.\./)(TEACHING|SOLUTIONS|KEYS|EXAM|EXAM-ANSWERS))\.md[^)]*\):\1:g' {} +
# the scripts need only the program, sh and awk; the translator from ALGOL 60 only node
mapfile -t files < <(git ls-files scripts algol)
put "${files[@]}"
# the paper in print, if there is what prints it
bash tools/paper.sh "$out/docs/PAPER.pdf" || [ $? = 3 ] || usage 'the paper was not printed'
mkdir -p "$out/decks"
for file in $(git ls-files crates/b67_rows/data/decks); do
    under=${file#crates/b67_rows/data/decks/}
    case $under in answers/*) continue ;; esac
    mkdir -p "$out/decks/$(dirname "$under")"
    # links lead three folders less far up from here, and none to the answers
    case $under in
    *.md) sed 's:(\.\./\.\./\.\./\(\.\./\):(\1:g; s:, \[answers\](answers/README\.md) the answers::' "$file" >"$out/decks/$under" ;;
    *) cp "$file" "$out/decks/$under" ;;
    esac
done

# its own README; the repository's becomes docs/ABOUT.md, and links lead there
mv "$out/README.md" "$out/docs/ABOUT.md"
sed -i -E 's:\]\(docs/:](@:g; s:\]\(([A-Za-z]):](../\1:g; s:\]\(@:](:g' "$out/docs/ABOUT.md"
find "$out" -name '*.md' ! -path "$out/docs/ABOUT.md" -exec sed -i -E 's:\]\((\.\./\.\./\.\./|\.\./\.\./)README\.md:](\1docs/ABOUT.md:g' {} +
sed -i -E 's:\]\(\.\./README\.md:](ABOUT.md:g' "$out"/docs/*.md
kept=
[ -f "$out/b67.html" ] || kept="$kept;/^\[page\]/d"
[ -f "$out/b67.c" ] || kept="$kept;/^\[c\]/d"
sed "s/VERSION/$version/; s/DATE/$date/$kept;s/^\[[a-z]*\] *//" tools/release-readme.txt >"$out/README.md"
(cd "$out" && find . -type f ! -name SHA256SUMS | LC_ALL=C sort | sed 's:^\./::' | xargs -d '\n' sha256sum >SHA256SUMS)
# each link of a document leads to a file of the archive
broken=$(cd "$out" && find . -name '*.md' | while read -r document; do
    grep -oE '\]\([^)#: ]+' "$document" | sed 's/^](//' | while read -r link; do
        [ -e "$(dirname "$document")/$link" ] || printf '%s: %s\n' "$document" "$link"
    done
done)
if [ -n "$broken" ]; then
    printf 'links that lead to no file of the archive:\n%s\n' "$broken" >&2
    exit 1
fi
find "$out" -type d -exec chmod 755 {} +
find "$out" -type f -exec chmod 644 {} +
chmod 755 "$out/bin/b67"
find "$out" -name '*.sh' -exec chmod 755 {} +
# packs FOLDER of the room into an archive
packs() {
    tar -C "$1" --sort=name --format=ustar --owner=0 --group=0 --numeric-owner --mtime="$date 00:00:00Z" -cf - "$name" | gzip -9n >"$archive.part"
    mv "$archive.part" "$2"
    printf '%s: %d files, %d bytes\n' "$(basename "$2")" "$(find "$1/$name" -type f | wc -l)" "$(stat -c %s "$2")"
}
packs "$room" "$archive"

# what teachers alone get: it has the same folder at its top, and its links lead into what pupils get
theirs=$room/teachers/$name
for file in $(git ls-files teaching ':!teaching/pupils' ':!teaching/decks') $(git ls-files crates/b67_rows/data/decks/answers); do
    to=$theirs/${file#crates/b67_rows/data/}
    mkdir -p "$(dirname "$to")"
    case $file in
    *.md) sed "$moved; s:(\.\./\.\./\.\./\(\.\./\):(\1:g; s:](\.\./README\.md:](../docs/ABOUT.md:g" "$file" >"$to" ;;
    *) cp "$file" "$to" ;;
    esac
done
mkdir "$room/both"
cp -r "$out/." "$theirs/." "$room/both"
broken=$(cd "$theirs" && find . -name '*.md' | (cd "$room/both" && while read -r document; do
    grep -oE '\]\([^)#: ]+' "$document" | sed 's/^](//' | while read -r link; do
        [ -e "$(dirname "$document")/$link" ] || printf '%s: %s\n' "$document" "$link"
    done
done))
if [ -n "$broken" ]; then
    printf 'links that lead to no file of the archives:\n%s\n' "$broken" >&2
    exit 1
fi
find "$theirs" -type d -exec chmod 755 {} +
find "$theirs" -type f -exec chmod 644 {} +
packs "$room/teachers" "${archive%.tar.gz}-teachers.tar.gz"
