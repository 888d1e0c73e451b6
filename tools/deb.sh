#!/bin/sh
# Makes a package for Debian, with what `make install` installs below /usr: sh tools/deb.sh PROGRAM FILE.deb
#
# PROGRAM is a built program, as crates/b67/out/b67. The version is that of CITATION.cff, and the time of each file its date, so the same tree
# and program give the same bytes. Debian's own tool makes it (dpkg-deb).
set -eu
usage() {
    printf '%s\nusage: sh tools/deb.sh PROGRAM FILE.deb\n' "$1" >&2
    exit 2
}
[ $# = 2 ] || usage 'a program and a file to write are wanted'
[ -f "$1" ] && [ -x "$1" ] || usage "$1: not a program that can be run"
case $2 in -* | */) usage "$2: not a file to write" ;; *.deb) ;; *) usage "$2: doesn't end in .deb" ;; esac
[ -d "$(dirname "$2")" ] || usage "$2: its folder is missing"
command -v dpkg-deb >/dev/null || usage "dpkg-deb isn't on the path"
top=$(cd "$(dirname "$0")/.." && pwd)
version=$(sed -n 's/^version: //p' "$top/CITATION.cff")
SOURCE_DATE_EPOCH=$(date -ud "$(sed -n 's/^date-released: //p' "$top/CITATION.cff")" +%s)
export SOURCE_DATE_EPOCH
room=
trap 'rm -rf "$room"' EXIT
trap 'exit 130' HUP INT TERM
room=$(mktemp -d)
mkdir -p "$room/b67/DEBIAN"
DESTDIR=$room/b67 sh "$top/tools/install.sh" "$1" /usr >/dev/null
cat >"$room/b67/DEBIAN/control" <<TEXT
Package: b67
Version: $version
Architecture: amd64
Maintainer: $(git -C "$top" log -1 --format='%an <%ae>')
Installed-Size: $(du -sk "$room/b67/usr" | cut -f1)
Depends: libc6 (>= 2.34)
Suggests: nodejs (>= 18)
Section: education
Priority: optional
Description: verified stack machine after the Burroughs B6700
 An emulator of a stack machine with tagged words, ALGOL procedures, several
 tasks, and arrays that move between memory and a file. Its program is proved:
 however small its memory is, it prints the same lines, or stops and says what
 it lacks. It wants a processor of the level x86-64-v2.
TEXT
find "$room/b67" -exec touch -hd "@$SOURCE_DATE_EPOCH" {} +
dpkg-deb --root-owner-group -Zgzip --build "$room/b67" "$room/b67.deb" >/dev/null
cp "$room/b67.deb" "$2"
printf '%s: %d files, %d bytes\n' "$(basename "$2")" "$(find "$room/b67/usr" -type f | wc -l)" "$(wc -c <"$2")"
