#!/bin/sh
# Keeps a machine that halted: its deck, its image, its backing file and their sums, in a folder of their own.
#
#     sh scripts/keep.sh DECK CORE FOLDER     runs the deck, which has a ?HALT, and keeps the machine
#     sh scripts/keep.sh check FOLDER         compares what is kept with its sums
#     sh scripts/keep.sh resume FOLDER        compares it, and goes on over a copy of the backing file
#
# An image means something only over the backing file that belongs to it, and `resume` writes into that file. So FOLDER
# has both, and `resume` of this script leaves them as they are: it may be called as often as you like. FOLDER must not
# be there before, and isn't there afterwards if the run can't be kept. Beside them stand SUMS, by SHA-256; `made-by`, with
# the size of core, the sum of the program, the version, and the toolchain if its `rt` is there; README, for who finds the
# folder and has nothing else; and `image.5`, the layout of an image. DECK may have names for cells (cells.sh). The program is
# `b67` on the path, or what the variable B67 names. The status of `keep` is 0, of `resume` that of b67; 1: what is kept was
# changed, or the run didn't halt. Nothing here is proved.
set -u
case ${1-} in -h | --help) sed -n '1d; /^[^#]/q; s/^# \{0,1\}//p' "$0"; exit ;; esac
usage() {
    echo "$1" >&2
    echo "usage: sh scripts/keep.sh DECK CORE FOLDER, or check FOLDER, or resume FOLDER" >&2
    exit 2
}
sums() {
    if command -v sha256sum >/dev/null; then sha256sum "$@"; else shasum -a 256 "$@"; fi
}
# what the folder says of itself
tell() {
    cat <<TEXT
A machine that stands still.

b67 runs programs of a stack machine after the Burroughs B6700, a mainframe of the 1970s. This folder has one run that was
stopped half way, on $(date -u +%Y-%m-%d), by the script keep.sh of version $version. With this folder and the program
b67 the run goes on, and prints the lines that it had still to print.

    deck      what is run: cards of text, that can be read. The card ?HALT says after how many operators it stopped
    image     what was printed: the lines up to the halt; then the whole machine as text, from ?IMAGE to ?END; then HALTED
    backing   what the machine's core didn't hold, 65,536 sectors of 240 bytes. It belongs to this image and to no other
    image.5   how the bytes of image and backing are laid out, as a manual page: man -l image.5, or read it as text
    made-by   the words of core, the sum of the program that ran, and versions
    SUMS      the sum of each file but itself, by SHA-256: sha256sum -c SUMS says whether all is as it was kept

To go on, in this folder:

    cp backing copy
    b67 resume --backing copy < image

Take a copy each time, since resume writes to it. Over the backing file of another image, or an empty one, no line is
promised, and numbers may be wrong without a word. To see the stacks: b67 dump < image. To run it all from the beginning,
without ?HALT and in a core of $core words: grep -v '^?HALT' deck | b67 run --core $core --backing new

If no b67 is to be had, the deck says what the machine did, and image.5 how it stood. The book of its rules is
docs/MACHINE.md of b67 $version.
TEXT
}
command -v sha256sum >/dev/null || command -v shasum >/dev/null || usage "neither sha256sum nor shasum is installed"
program=${B67:-b67}
program=$(command -v "$program") && [ ! -d "$program" ] ||
    usage "${B67:-b67}: not a program that can be run: put b67 on the path, or name it as in B67=PROGRAM sh scripts/keep.sh"
here=$(cd "$(dirname "$0")" && pwd)
case $# in
2)
    case $1 in check | resume) ;; *) usage "$1: what to do with $2 is check or resume" ;; esac
    folder=$2
    case $folder in -*) folder=./$folder ;; esac
    # those of version 1.3.0 and before had four files
    kept="deck image backing made-by"
    if [ -e "$folder/README" ] || [ -e "$folder/image.5" ]; then kept="README image.5 $kept"; fi
    for file in SUMS $kept; do
        [ -f "$folder/$file" ] && [ -r "$folder/$file" ] || usage "$folder: no folder that keep.sh made, since $file isn't there"
    done
    # in order, so that the sums of these files are compared, and of nothing else
    if ! (cd "$folder" && sums $kept | cmp -s - SUMS); then
        echo "keep.sh: $2 isn't as it was kept, and nothing is run. The sums that differ:" >&2
        differ=$(cd "$folder" && sums $kept | diff SUMS - | tr -d '\r' | sed -n 's/^[<>] [0-9a-f]* [ *]/    /p' | sort -u)
        echo "$differ" >&2
        [ "$(echo "$differ" | wc -l)" -lt "$(echo "$kept" | wc -w)" ] || echo "All of them: it may be SUMS that was changed." >&2
        exit 1
    fi
    [ "$1" = resume ] || exit 0
    [ "$(sums <"$program" | sed 's/ .*//')" = "$(sed -n 's/  b67$//p' "$folder/made-by")" ] ||
        echo "keep.sh: another program than this one made it, which may be as good: see made-by" >&2
    room=
    trap 'rm -rf "$room"' EXIT
    trap 'exit 130' HUP INT TERM
    room=$(mktemp -d) || exit 2
    cp "$folder/backing" "$room/backing" && chmod u+w "$room/backing" || {
        echo "keep.sh: there is no room for a copy of the backing file, and nothing is run" >&2
        exit 1
    }
    "$program" resume --backing "$room/backing" <"$folder/image"
    ;;
3)
    deck=$1
    core=$2
    folder=$3
    case $folder in -*) folder=./$folder ;; esac
    [ -f "$deck" ] && [ -r "$deck" ] || usage "$1: not a file that can be read"
    case $core in '' | *[!0-9]* | 0* | ????????*) usage "$core: a size of core is a number from 256 to 1048575" ;; esac
    [ "$core" -ge 256 ] && [ "$core" -le 1048575 ] || usage "$core: a size of core is a number from 256 to 1048575"
    version=$(sed -n 's/^version: //p' "$here/../CITATION.cff" 2>/dev/null)
    [ -n "$version" ] && [ -r "$here/../docs/b67-image.5" ] ||
        usage "keep.sh must stand in its folder: ../CITATION.cff or ../docs/b67-image.5 isn't there"
    # mkdir refuses what is there already, so nothing of anybody's is written over or removed
    if [ -e "$folder/image" ] && [ ! -e "$folder/SUMS" ]; then
        usage "$3: a call of keep.sh was ended there before it was through: remove the folder, or name another"
    fi
    refuses() { usage "$1: name a folder that isn't there yet, in one that can be written"; }
    [ ! -e "$folder" ] || refuses "$3"
    leave() {
        [ -n "$is_whole" ] || {
            for file in README SUMS backing deck image image.5 made-by; do rm -f "$folder/$file"; done
            [ ! -d "$folder" ] || rmdir "$folder"
        }
    }
    # before the folder is made, so that a signal in that moment leaves nothing
    is_whole=
    trap leave EXIT
    trap 'exit 130' HUP INT TERM
    mkdir "$folder" 2>/dev/null || { is_whole=1; refuses "$3"; }
    fail() {
        echo "keep.sh: $1" >&2
        exit 1
    }
    sh "$here/cells.sh" "$deck" >"$folder/deck" || fail "nothing is kept"
    "$program" image --core "$core" --backing "$folder/backing" <"$folder/deck" >"$folder/image"
    status=$?
    case $status in
    3) ;;
    6 | 8) fail "the machine couldn't be written whole, so nothing is kept: is the disk full? Status $status" ;;
    *)
        [ $status != 0 ] || echo "keep.sh: a card ?HALT n before the first ?JOB halts it after n operators, while a task lives" >&2
        fail "the run didn't halt, so there is nothing to keep. Its status: $status; its last line: $(tail -n 1 "$folder/image")"
        ;;
    esac
    cp "$here/../docs/b67-image.5" "$folder/image.5" && tell >"$folder/README" && {
        echo "core $core"
        sums <"$program" | sed 's/ .*/  b67/'
        echo "version $version"
        rt version 2>/dev/null || :
    } >"$folder/made-by" && (cd "$folder" && sums README image.5 deck image backing made-by >SUMS) ||
        fail "$3 couldn't be written whole, so nothing is kept: is the disk full?"
    is_whole=1
    sed -n '/^?IMAGE/q;p' "$folder/image" && tail -n 1 "$folder/image"
    ;;
*)
    usage "a deck, a size of core and a folder; or a folder that is kept"
    ;;
esac
