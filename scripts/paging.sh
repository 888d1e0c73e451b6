#!/bin/sh
# Makes paging visible: how many sectors a deck reads and writes at each size of core, and the last line of each run.
#
#     sh scripts/paging.sh DECK CORE..
#
# The sectors are counted by strace, which shows each call that the program makes on its backing file: pread64 reads a
# sector, pwrite64 writes one. So strace must be there, and be allowed to watch a program; `node web/b67.mjs paging` needs none. DECK may have names for cells
# (cells.sh). The program is `b67` on the path, or what the variable B67 names.
set -u
case ${1-} in -h | --help) sed -n '1d; /^[^#]/q; s/^# \{0,1\}//p' "$0"; exit ;; esac
usage() {
    echo "$1" >&2
    echo "usage: sh scripts/paging.sh DECK CORE.." >&2
    exit 2
}
[ $# -ge 2 ] || usage "a deck, and at least one size of core"
deck=$1
shift
here=$(cd "$(dirname "$0")" && pwd)
[ -f "$deck" ] && [ -r "$deck" ] || usage "$deck: not a file that can be read"
command -v strace >/dev/null || usage "strace isn't installed; without it node web/b67.mjs paging DECK CORE.. counts them"
for core in "$@"; do
    case $core in
    '' | *[!0-9]* | 0* | ????????*) usage "$core: a size of core is a number from 256 to 1048575" ;;
    esac
    [ "$core" -ge 256 ] && [ "$core" -le 1048575 ] || usage "$core: a size of core is a number from 256 to 1048575"
done
room=
trap 'rm -rf "$room"' EXIT
trap 'exit 130' HUP INT TERM
room=$(mktemp -d) || exit 2
program=
. "$here/program"
sh "$here/cells.sh" "$deck" >"$room/deck" || exit 2
"$program" check <"$room/deck" >"$room/lines" || { tail -n 1 "$room/lines" | grep . >&2 || echo "$program: it answers nothing" >&2; exit 2; }
echo "   core    read written  last line"
for core in "$@"; do
    strace -o "$room/calls" -P "$room/b" -e trace=pread64,pwrite64 \
        "$program" run --core "$core" --backing "$room/b" <"$room/deck" >"$room/lines"
    grep -q '^+++ exited with' "$room/calls" 2>/dev/null || usage "strace may not watch $program here"
    awk -v core="$core" -v last="$(tail -n 1 "$room/lines")" '
        /^pread64/ { reads++ }
        /^pwrite64/ { writes++ }
        END { printf "%7d %7d %7d  %s\n", core, reads, writes, last }' "$room/calls"
done
