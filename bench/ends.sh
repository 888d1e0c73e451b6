#!/bin/sh
# Tries the program's ends as the system has them: `sh bench/ends.sh PROGRAM`, where PROGRAM is a built b67. Each run must end with
# status 0 and its own lines, or with BACKING FAULT and status 6 behind a beginning of them; any other end is printed, and gives status 1.
#
# - bytes of the backing file are changed while a run goes on: in one of ten runs at least that is met, and ends it with 6
# - the backing file lies on a disk of 64 kB, which is full before all is paged out. The disk is made with `mount`, as root; if
#   that can't be, this is left out, and said
# - standard output takes one byte of each write
# - the output is closed, and full
# - a run halts with an image, and is resumed: over the file as it was left, which gives the other lines; over one of another
#   length; and by scripts/keep.sh over one of which a byte was changed, which isn't run, since its sum differs. `resume` alone
#   doesn't notice that: that the file holds what it was left with is believed
#
# It wants gcc. Devices that lie are in lies.sh.
set -eu
usage() {
    echo "$1" >&2
    echo "usage: sh bench/ends.sh PROGRAM" >&2
    exit 2
}
[ $# = 1 ] || usage "one program"
program=$1
command -v "$program" >/dev/null && [ ! -d "$program" ] || usage "$program: not a program that can be run"
command -v gcc >/dev/null || usage "gcc isn't on the path"
bench=$(cd "$(dirname "$0")" && pwd)
room=$(mktemp -d)
leave() {
    [ -z "${mounted:-}" ] || umount "$room/small"
    rm -rf "$room"
}
trap leave EXIT
trap 'exit 130' HUP INT TERM
gcc -O1 -shared -fPIC -o "$room/ends.so" "$bench/ends.c"

failed=0

# 200 arrays in core for some of them, and a line at the end; the loop is made so many times.
deck() {
    sh "$bench/arrays.sh" | sed "s/^LT8 100 /LT8 $1 /"
}
deck 100 >"$room/short"
deck 255 >"$room/long"

# So ended a run: its status, and whether its lines are those of another run.
judge() {
    if [ "$2" = 0 ] && cmp -s "$room/lines" "$room/honest"; then
        echo "$1: status 0, the same lines"
    elif [ "$2" = 6 ] && [ "$(tail -n 1 "$room/lines")" = 'BACKING FAULT' ] && sed '$d' "$room/lines" | cmp -s -n "$(sed '$d' "$room/lines" | wc -c)" - "$room/honest"; then
        echo "$1: status 6"
    else
        echo "$1: status $2, and these lines:"
        cat "$room/lines"
        failed=1
    fi
}

honest() {
    rm -f "$room/b"
    "$program" run --core 1910 --backing "$room/b" <"$room/$1" >"$room/honest" || usage "$program: doesn't run a deck"
}

# ---- bytes of the file are changed

honest long
met=0
for turn in 1 2 3 4 5 6 7 8 9 10; do
    rm -f "$room/b"
    status=0
    "$program" run --core 1910 --backing "$room/b" <"$room/long" >"$room/lines" &
    run=$!
    while kill -0 $run 2>/dev/null; do
        [ ! -s "$room/b" ] || dd if=/dev/urandom of="$room/b" bs=240 count=400 conv=notrunc 2>/dev/null
    done
    wait $run || status=$?
    judge "changed bytes, run $turn" $status
    [ $status != 6 ] || met=1
done
[ $met = 1 ] || {
    echo "changed bytes: no run met them"
    failed=1
}

# ---- a full disk

honest short
mkdir "$room/small"
if mount -t tmpfs -o size=64k none "$room/small" 2>/dev/null; then
    mounted=1
    status=0
    "$program" run --core 1910 --backing "$room/small/b" <"$room/short" >"$room/lines" || status=$?
    judge "full disk" $status
    [ $status = 6 ] || failed=1
else
    echo "full disk: left out, since no disk can be mounted"
fi

# ---- an output that takes one byte at a time, that is closed, that is full

status=0
rm -f "$room/b"
LD_PRELOAD=$room/ends.so "$program" run --core 1910 --backing "$room/b" <"$room/short" >"$room/lines" || status=$?
judge "one byte at a time" $status
[ $status = 0 ] || failed=1
for end in closed full; do
    status=0
    rm -f "$room/b"
    case $end in
    closed) "$program" run --core 1910 --backing "$room/b" <"$room/short" >&- || status=$? ;;
    full) "$program" run --core 1910 --backing "$room/b" <"$room/short" >/dev/full || status=$? ;;
    esac
    echo "output $end: status $status"
    [ $status = 8 ] || failed=1
done

# ---- an image, and its file

honest short
sed '1i?HALT 3000' "$room/short" >"$room/halting"
rm -f "$room/b"
status=0
"$program" image --core 1910 --backing "$room/b" <"$room/halting" >"$room/image" || status=$?
[ $status = 3 ] || {
    echo "image: status $status"
    failed=1
}
cp "$room/b" "$room/left"
status=0
"$program" resume --backing "$room/b" <"$room/image" >"$room/rest" || status=$?
sed '/^?IMAGE/,$d' "$room/image" | cat - "$room/rest" >"$room/lines"
judge "resumed over the file as it was left" $status
[ $status = 0 ] || failed=1
head -c 15728400 "$room/left" >"$room/b"
status=0
"$program" resume --backing "$room/b" <"$room/image" >"$room/lines" || status=$?
judge "resumed over a shorter file" $status
[ $status = 6 ] || failed=1
status=0
B67=$program sh "$bench/../scripts/keep.sh" "$room/halting" 1910 "$room/kept" >/dev/null || status=$?
[ $status = 0 ] || {
    echo "kept: status $status"
    failed=1
}
printf '\377' | dd of="$room/kept/backing" bs=1 seek=240000 conv=notrunc 2>/dev/null
status=0
B67=$program sh "$bench/../scripts/keep.sh" resume "$room/kept" >"$room/lines" 2>/dev/null || status=$?
echo "resumed by keep.sh over a changed file: status $status, $(wc -c <"$room/lines") bytes of lines"
[ $status = 1 ] && [ ! -s "$room/lines" ] || failed=1
exit $failed
