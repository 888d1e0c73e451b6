#!/bin/sh
# Compares the tracer with the decks: the lines that reference/trace.py shows as printed, and its HALTED, must be those of
# each deck's `stdout`. For a deck that fills the backing file they must begin with the lines before BACKING FULL, since
# the tracer has no backing. Outside the gate.
#
#     sh tools/check-trace.sh [DECK..]
set -u
top=$(cd "$(dirname "$0")/.." && pwd)
usage() {
    echo "$1" >&2
    echo "usage: sh tools/check-trace.sh [DECK..]" >&2
    exit 2
}
command -v python3 >/dev/null || usage "python3 isn't on the path"
[ $# -gt 0 ] || for name in "$top"/decks/*/stdin; do name=${name%/stdin} && set -- "$@" "${name##*/}"; done
for name in "$@"; do
    [ -f "$top/decks/$name/stdin" ] || usage "$name: not a folder of decks/"
done
room=
trap 'rm -rf "$room"' EXIT
trap 'exit 130' HUP INT TERM
room=$(mktemp -d) || exit 2
passed=0
failed=0
for name in "$@"; do
    # the tracer runs decks alone
    [ "$(head -n 1 "$top/decks/$name/args")" = run ] || continue
    python3 "$top/reference/trace.py" "$top/decks/$name/stdin" >"$room/trace"
    status=$?
    grep -E '^([0-9]+\.[0-9]+ |HALTED )' "$room/trace" >"$room/all"
    grep -v '^BACKING FULL ' "$top/decks/$name/stdout" >"$room/wanted"
    if cmp -s "$room/wanted" "$top/decks/$name/stdout"; then
        cp "$room/all" "$room/lines"
    else
        head -n "$(wc -l <"$room/wanted")" "$room/all" >"$room/lines"
    fi
    if [ $status = 0 ] && cmp -s "$room/lines" "$room/wanted"; then
        passed=$((passed + 1))
    else
        echo "FAILED: $name: status $status"
        diff "$room/lines" "$room/wanted"
        failed=$((failed + 1))
    fi
done
echo "$passed passed, $failed failed"
[ $failed = 0 ]
