#!/usr/bin/env bash
# Calls each script carelessly, and fails if one goes on: if its status is 0, or it says nothing, or hangs, or leaves anything in
# the temporary folder, in the folder it was called from, or in the repository. Then the other way: what must work does.
#
#     bash tools/check-scripts.sh PROGRAM
#
# PROGRAM is a built program, as crates/b67/out/b67. All is done on a clone of the repository in the temporary folder. Each script
# is called with no words, too many, an option that is none, a file that isn't there, a folder, binary bytes, a text that is cut
# or of another kind, no temporary folder, a full disk, a full output, a program that is none, a folder of the program's name
# beside it, and a signal: what of these it can meet, at least eight times. A disk of 64 kB is made with `mount`, as root; if that
# can't be, the calls that need it are left out and counted. A script that goes on without a temporary folder writes into /, so
# the names there are compared too. Some 40 seconds of a processor.
[ -n "${BASH_VERSION:-}" ] || { echo "usage: bash tools/check-scripts.sh PROGRAM" >&2; exit 2; }
set -u
usage() {
    printf '%s\nusage: bash tools/check-scripts.sh PROGRAM\n' "$1" >&2
    exit 2
}
[ $# = 1 ] || usage 'one program is wanted'
[ -f "$1" ] && [ -x "$1" ] || usage "$1: not a program that can be run"
program=$(cd "$(dirname "$1")" && pwd)/$(basename "$1")
top=$(cd "$(dirname "$0")/.." && pwd)
room=$(mktemp -d) || exit 2
leave() {
    [ -z "${mounted:-}" ] || umount "$room/full"
    rm -rf "$room"
}
trap leave EXIT
trap 'exit 130' HUP INT TERM
git -C "$top" rev-parse -q --verify HEAD >/dev/null 2>&1 || usage "$top: not a repository of git"
git clone -q "$top" "$room/clone" || exit 2
# as the scripts are now, committed or not
cp "$top"/scripts/* "$room/clone/scripts/"
cp "$top"/tools/*.* "$room/clone/tools/"
cp "$top"/decks/run.sh "$room/clone/decks/run.sh"
cp "$top"/reference/*.py "$room/clone/reference/"
git -C "$room/clone" add -A
git -C "$room/clone" -c user.name=check -c user.email=check commit -qm 'as it is now' >/dev/null
mkdir "$room/bin" "$room/tmp" "$room/none" "$room/full" "$room/files" || exit 2
ln -s "$program" "$room/bin/b67"
# a small disk that is full
if mount -t tmpfs -o size=64k tmpfs "$room/full" 2>/dev/null; then
    mounted=1
    head -c 100000 /dev/zero >"$room/full/filling" 2>/dev/null
fi
path=$room/bin:$PATH
# the path without any b67
bare=$(printf '%s' "$PATH" | tr : '\n' | while read -r folder; do [ -e "$folder/b67" ] || printf '%s:' "$folder"; done)
bare=${bare%:}

# the texts: good ones, and what is made of them
cd "$room/files" || exit 2
decks=$room/clone/decks
export PYTHONDONTWRITEBYTECODE=1
cp "$decks/sum/stdin" deck
cp "$decks/fault/stdin" fault
cp "$decks/paused/stdin" halting
cp "$decks/exercises/larger.lines" lines
cp "$decks/answers/larger.deck" named
printf '?HALT 800000000\n?JOB LONG\n?LIMIT 100000000\n?ASM\nSEGMENT MAIN 2\nL: BRUN L\n?END\n' >long
"$program" image --core 4096 --backing b <halting >image
"$program" dump <image >dump
head -c 3000 /dev/urandom >binary
printf '\377\000\001?\n' >>binary
sed '$d' deck | head -c 40 >deck.cut
sed '/^CELL/s/,.*/,/' named >named.cut
head -c 20000 image >image.cut
sed '$s/ .*//' dump >dump.cut
head -n 1 lines | cut -c1-2 >lines.cut
sed '/^?JOB/d' deck >deck.other
mkdir folder
rm -f b

calls=0
had=
failed=0
total=0
skipped=0
wrong() {
    printf 'FAILED: %s: %s\n' "$called" "$1"
    failed=$((failed + 1))
}
# what stands where nothing may be left: names, and the sum of the files in the folder of the call
state() { (cd "$room" && ls -A tmp files full / && cd files && cat -- * 2>/dev/null | cksum); }
# refused WORD.. : calls them in the folder of files, with input from $in, and expects that they refuse
refused() {
    called="$* ${note:+($note)}"
    before=$(state)
    (cd "$room/files" && PATH=${bin-$path} TMPDIR=${tmp-$room/tmp} exec timeout ${alone:+--foreground} -k 20 ${after:+-s ${signal:-INT}} ${after:-60} "$@" <"${in:-/dev/null}" >"${out:-$room/out}" 2>"$room/err")
    status=$?
    calls=$((calls + 1))
    total=$((total + 1))
    [ $status != 0 ] || wrong 'status 0'
    case $status in 124) [ -n "${after-}" ] || wrong 'it hangs' ;; 137) wrong "it doesn't end" ;; 126 | 127) wrong "status $status: $(head -1 "$room/err")" ;; esac
    [ -s "$room/err" ] || [ -s "$room/out" ] || [ -n "${after-}${out-}" ] || wrong 'it says nothing'
    [ "$before" = "$(state)" ] || wrong "it leaves or changes something: $(state | diff - <(echo "$before") | tr '\n' ' ')"
    rm -rf "$room/tmp" && mkdir "$room/tmp"
    : >"$room/out"
}
# works WORD.. : the same, and expects that they work
works() {
    called="$* ${note:+($note)}"
    (cd "$room/files" && PATH=${bin-$path} TMPDIR=$room/tmp exec timeout 60 "$@" <"${in:-/dev/null}" >"$room/out" 2>"$room/err")
    status=$?
    total=$((total + 1))
    [ $status = 0 ] || { wrong "status $status"; head -3 "$room/err"; }
    [ -z "$(ls -A "$room/tmp")" ] || wrong 'it leaves a temporary folder'
    rm -rf "$room/tmp" && mkdir "$room/tmp"
}
# the end of a script's calls
done_with() {
    had="$had $1 "
    printf '%-18s %3d calls\n' "$1" $calls
    called=$1
    [ $calls -ge 8 ] || wrong "only $calls calls"
    if [ -n "$(git -C "$room/clone" status --porcelain)" ]; then
        wrong "it writes into the repository: $(git -C "$room/clone" status --porcelain | head -3)"
        git -C "$room/clone" checkout -q . && git -C "$room/clone" clean -qfd
    fi
    calls=0
}

# texts FILE-WORD KIND SHELL SCRIPT WORD.. : the calls of a script that reads a file; @ stands for the file in its words
texts() {
    local kind=$1 file
    shift
    for file in nothere folder binary "$kind.cut" "$kind.other" -- --nonsense; do
        [[ $file != *.* || -e $room/files/$file ]] || continue
        note=''
        refused "${@//@/$file}"
    done
    note='one word too many'
    refused "${@//@/$kind}" a b c d
    note='output full' out=/dev/full
    refused "${@//@/$kind}"
    out='' note=''
}
# programs KIND SHELL SCRIPT WORD.. : those of a script that calls b67 and has a temporary folder
programs() {
    local kind=$1
    shift
    note='no temporary folder'
    tmp=$room/none/such refused "${@//@/$kind}"
    note='temporary folder full'
    if [ -n "${mounted:-}" ]; then tmp=$room/full refused "${@//@/$kind}"; else skipped=$((skipped + 1)); fi
    note='B67 is no file'
    B67=./nothing refused "${@//@/$kind}"
    note='B67 is a folder'
    B67=./folder refused "${@//@/$kind}"
    note='B67 is no program'
    B67=./binary refused "${@//@/$kind}"
    note='B67 fails'
    B67=/bin/false refused "${@//@/$kind}"
    note='no program, and a folder of its name'
    mkdir "$room/files/b67"
    bin=$bare refused "${@//@/$kind}"
    rmdir "$room/files/b67"
    note=''
}
# signals SHELL SCRIPT WORD.. : ended from outside, as by Ctrl-C and by kill; with $alone the signal comes to the shell and not to its children
signals() {
    for signal in INT TERM HUP; do
        note="signal $signal"
        after=0.4 refused "$@"
    done
    note=''
}
here=../clone/scripts
tools=../clone/tools

# cells.sh passes on what has no names, whatever it is
refused sh $here/cells.sh
for file in nothere folder named.cut -- --nonsense ''; do refused sh $here/cells.sh "$file"; done
refused sh $here/cells.sh named deck
for card in 'VALC n' 'L: NAMC i' 'CELL' 'CELL N 2,3' 'CELL n 2, 3' 'CELL n 2,4096' 'CELL abcdefghijklmnopq 2,3' 'L: CELL n 2,3' "$(printf 'CELL n 2,2\n?END\n?JOB B\n?ASM\nVALC n')"; do
    printf '?JOB A\n?ASM\n%s\n' "$card" >"$room/files/card"
    refused sh $here/cells.sh card
done
out=/dev/full refused sh $here/cells.sh deck
out=/dev/full refused sh $here/cells.sh named
out=
rm "$room/files/card"
done_with cells.sh
for name in where diagnose least-core listing; do
    kind=deck
    [ $name != where ] && [ $name != listing ] || kind=fault
    [ $name = diagnose ] && kind=deck.cut
    refused sh $here/$name.sh
    if [ $name = diagnose ]; then
        for file in nothere folder binary deck.cut deck.other --nonsense ''; do refused sh $here/$name.sh "$file"; done
        refused sh $here/$name.sh deck b67
        out=/dev/full refused sh $here/$name.sh deck
        out=
        programs deck.cut sh $here/$name.sh @
    else
        texts $kind sh $here/$name.sh @
        refused sh $here/$name.sh deck.cut
        programs $kind sh $here/$name.sh @
    fi
    refused sh $here/$name.sh $kind ../bin/b67
    case $name in where | least-core) signals sh $here/$name.sh long ;; esac
    [ $name != least-core ] || alone=1 signals sh $here/$name.sh long
    done_with $name.sh
done
refused sh $here/step.sh
refused sh $here/step.sh deck
for words in '3 2' '0' '01' 'x' '800000001' '1 2 ../bin/b67' '1,2' '-1'; do refused sh $here/step.sh deck $words; done
texts deck sh $here/step.sh @ 1 2
programs deck sh $here/step.sh @ 1 2
signals sh $here/step.sh long 50000000
done_with step.sh
refused sh $here/paging.sh
refused sh $here/paging.sh deck
for core in 255 x 0256 1048576 '' -1; do refused sh $here/paging.sh deck "$core"; done
programs deck sh $here/paging.sh @ 4096
command -v strace >/dev/null && signals sh $here/paging.sh long 4096
done_with paging.sh
refused sh $here/mark.sh
refused sh $here/mark.sh lines
refused sh $here/mark.sh lines named
refused sh $here/mark.sh deck lines
refused sh $here/mark.sh named nothere
refused sh $here/mark.sh nothere lines
refused sh $here/mark.sh binary lines
refused sh $here/mark.sh named lines.cut
refused sh $here/mark.sh named binary
refused sh $here/mark.sh folder lines
refused sh $here/mark.sh deck.cut lines
note='output full' out=/dev/full
refused sh $here/mark.sh named lines
out=
programs named sh $here/mark.sh @ lines
signals sh $here/mark.sh long lines
alone=1 signals sh $here/mark.sh long lines
done_with mark.sh
refused sh $here/keep.sh
refused sh $here/keep.sh halting 4096
for words in '255 kept' 'x kept' '01 kept' '1048576 kept' '4096 folder' '4096 nothere/kept' '4096 deck' '256 kept'; do refused sh $here/keep.sh halting $words; done
for file in nothere folder binary deck deck.cut named.cut --nonsense; do refused sh $here/keep.sh $file 4096 kept; done
for word in check resume start; do for folder in nothere folder deck --nonsense; do refused sh $here/keep.sh $word $folder; done; done
note='full disk'
if [ -n "${mounted:-}" ]; then refused sh $here/keep.sh halting 4096 ../full/kept; else skipped=$((skipped + 1)); fi
for wanted in nothing folder binary; do B67=./$wanted refused sh $here/keep.sh halting 4096 kept; done
B67=/bin/false refused sh $here/keep.sh halting 4096 kept
signals sh $here/keep.sh long 4096 kept
# a kept machine, and what may have happened to it
(cd "$room/files" && PATH=$path sh $here/keep.sh halting 4096 kept >/dev/null) || { called='keep.sh halting 4096 kept'; wrong 'it fails'; }
tmp=$room/none/such refused sh $here/keep.sh resume kept
if [ -n "${mounted:-}" ]; then tmp=$room/full refused sh $here/keep.sh resume kept; else skipped=$((skipped + 1)); fi
refused sh $here/keep.sh halting 4096 kept
out=/dev/full refused sh $here/keep.sh resume kept
out=
for file in README SUMS backing deck image image.5 made-by; do
    cp -r "$room/files/kept" "$room/files/changed"
    note="$file lost"
    rm "$room/files/changed/$file"
    refused sh $here/keep.sh resume changed
    note="$file changed"
    cp "$room/files/kept/$file" "$room/files/changed/"
    echo >>"$room/files/changed/$file"
    refused sh $here/keep.sh resume changed
    rm -rf "$room/files/changed"
done
note=
done_with keep.sh
refused sh $here/core-map.sh
texts image sh $here/core-map.sh @
refused sh $here/core-map.sh deck
refused sh $here/core-map.sh dump
done_with core-map.sh
for name in plain draw; do
    texts dump sh $here/$name.sh @
    for file in deck image binary lines; do in=$room/files/$file refused sh $here/$name.sh; done
    in=
    done_with $name.sh
done
refused sh $here/explain.sh --nonsense
for line in 'no line' 'DECK' 'DECK 1 REASON' 'DECK 1 REASON 99' 'ASM x REASON 1' 'status 77' '?JOB A' '1.1 NONSENSE' "$(printf 'LOAD\t1')"; do refused sh $here/explain.sh "$line"; done
for file in binary deck lines.cut; do in=$room/files/$file refused sh $here/explain.sh; done
in=
out=/dev/full refused sh $here/explain.sh NO CORE 5 4
out=
done_with explain.sh
refused sh ../clone/decks/run.sh
for wanted in nothere folder binary --nonsense ''; do refused sh ../clone/decks/run.sh "$wanted" sum; done
for name in nothere exercises answers ../sum 'sum two'; do refused sh ../clone/decks/run.sh ../bin/b67 "$name"; done
refused sh ../clone/decks/run.sh /bin/true sum
refused sh ../clone/decks/run.sh /bin/cat sum
tmp=$room/none/such refused sh ../clone/decks/run.sh ../bin/b67 sum
if [ -n "${mounted:-}" ]; then tmp=$room/full refused sh ../clone/decks/run.sh ../bin/b67 sum; else skipped=$((skipped + 1)); fi
mkdir "$room/files/b67"
bin=$bare refused sh ../clone/decks/run.sh b67 sum
rmdir "$room/files/b67"
signals sh ../clone/decks/run.sh ../bin/b67
done_with decks/run.sh
for name in nothere exercises run.sh README.md --nonsense ../sum '' ; do refused sh $tools/check-trace.sh "$name"; done
tmp=$room/none/such refused sh $tools/check-trace.sh sum
if [ -n "${mounted:-}" ]; then tmp=$room/full refused sh $tools/check-trace.sh sum; else skipped=$((skipped + 1)); fi
signals sh $tools/check-trace.sh
done_with check-trace.sh
for words in '' nothere folder binary --nonsense '../bin/b67 0' '../bin/b67 x' '../bin/b67 -1' '../bin/b67 1 0' '../bin/b67 1 2 3' --jobs '--jobs 0 ../bin/b67'; do refused sh $tools/check-algol.sh $words; done
done_with check-algol.sh
for words in '' nothere folder binary --nonsense '../bin/b67 more' /bin/true /bin/cat; do refused bash $tools/check-teaching.sh $words; done
refused sh $tools/check-teaching.sh ../bin/b67
tmp=$room/none/such refused bash $tools/check-teaching.sh ../bin/b67
if [ -n "${mounted:-}" ]; then tmp=$room/full refused bash $tools/check-teaching.sh ../bin/b67; else skipped=$((skipped + 1)); fi
signals bash $tools/check-teaching.sh ../bin/b67
done_with check-teaching.sh
for words in 'mark.py' 'mark.py --nonsense' 'mark.py nothing hidden deck' 'mark.py collatz hidden nothere' 'mark.py collatz hidden folder' 'slides.py --nonsense' 'slides.py more words'; do refused python3 ../clone/teaching/$words; done
for words in 'numbers.py --nonsense' 'numbers.py nothing 1' 'numbers.py collatz' 'wrong.py --nonsense' 'wrong.py 11' 'wrong.py 0' 'wrong.py'; do refused python3 ../clone/teaching/pupils/$words; done
for words in '' '--stage 0 cat' '--stage 9 cat' '--stage' nothere --nonsense '--seeds x cat' '--seeds 9..1 cat'; do refused python3 ../clone/teaching/pupils/emulator/grade.py $words; done
for words in '' '--stage 0 cat' '--stage' nothere --nonsense folder '--programs nothere cat'; do refused python3 ../clone/teaching/pupils/translator/grade.py $words; done
done_with teaching
for name in check-docs check-scripts before-landing release; do
    words=
    [ $name != release ] || words=../files/out.tar.gz
    refused bash $tools/$name.sh
    for wanted in nothere folder binary --nonsense ''; do refused bash $tools/$name.sh "$wanted" $words; done
    refused sh $tools/$name.sh
    # of before-landing a short part alone, so that the gate isn't run if it goes on
    part=
    [ $name != before-landing ] || part='--only links'
    tmp=$room/none/such refused bash $tools/$name.sh $part ../bin/b67 $words
    if [ -n "${mounted:-}" ]; then tmp=$room/full refused bash $tools/$name.sh $part ../bin/b67 $words; else skipped=$((skipped + 1)); fi
    mkdir "$room/files/b67"
    refused bash $tools/$name.sh b67 $words
    rmdir "$room/files/b67"
    case $name in
    check-docs) for page in nothere.md ../README.md docs; do refused bash $tools/$name.sh ../bin/b67 $page; done ;;
    check-scripts) refused bash $tools/$name.sh ../bin/b67 more ;;
    before-landing) for more in '--skip nothing' '--only' '--since nocommit ../bin/b67' '../bin/b67 ../bin/b67' '--list-all'; do refused bash $tools/$name.sh $more; done ;;
    release)
        for file in out.zip nothere/out.tar.gz folder/ -out.tar.gz; do refused bash $tools/$name.sh ../bin/b67 $file; done
        refused bash $tools/$name.sh ../bin/b67 out.tar.gz nopage
        if [ -n "${mounted:-}" ]; then refused bash $tools/$name.sh ../bin/b67 ../full/out.tar.gz; else skipped=$((skipped + 1)); fi
        ;;
    esac
    [ $name = before-landing ] || signals bash $tools/$name.sh ../bin/b67 $words
    done_with $name.sh
done
for words in '' nothere/out.pdf folder folder/ out.zip -out.pdf 'out.pdf more' --nonsense; do refused bash $tools/paper.sh $words; done
refused sh $tools/paper.sh out.pdf
tmp=$room/none/such refused bash $tools/paper.sh out.pdf
if [ -n "${mounted:-}" ]; then tmp=$room/full refused bash $tools/paper.sh out.pdf; else skipped=$((skipped + 1)); fi
done_with paper.sh
for name in refill house links sizes trust names heads premises signatures statement compiled mend check-edits check-premises claims edits minutes modules plants shorter unproved tables cores; do
    for words in --nonsense -h nothere folder -x --text '--own nothing' 'nothing more' '--nonsense run_twice'; do refused python3 $tools/$name.py $words; done
    done_with $name.py
done
for words in --nonsense -h nothere folder -x --jobs '--into nothere/lines' '--into folder' '--jobs 0' 'nothing more'; do refused bash $tools/more-edits.sh $words; done
done_with more-edits.sh
for words in '' nothere "nothere $room/none" 'binary ../files/out' "folder $room/none" '../bin/b67 out' '../bin/b67 /dev/null/out' '--remove /dev/null/out' '--remove folder' --help; do refused sh $tools/install.sh $words; done
done_with install.sh
for words in '' nothere "nothere $room/none.deb" 'binary ../files/out.deb' 'folder out.deb' '../bin/b67 out' '../bin/b67 nothere/out.deb' '../bin/b67 -out.deb' --help; do refused sh $tools/deb.sh $words; done
done_with deb.sh
# those of the page: what they refuse before they begin, since each takes minutes
for name in web check-web check-page; do
    for words in --nonsense -x - --help 'a b c' nothere/page ./nothere/page; do refused sh $tools/$name.sh $words; done
    case $name in
    web) tmp=$room/none/such refused sh $tools/web.sh ../files/page.html ;;
    *) bin=$bare refused sh $tools/$name.sh ;;
    esac
    done_with $name.sh
done
for words in '' nothere folder binary 'deck 3 2' 'deck x' 'deck 1 2 3' 'deck --draw' 'deck first' deck.cut '--nonsense'; do refused python3 ../clone/reference/trace.py $words; done
out=/dev/full refused python3 ../clone/reference/trace.py deck
out=
done_with trace.py

# each script of the users says what it is
for file in "$top"/scripts/*.sh; do
    name=${file##*/}
    works sh "$here/$name" --help
    grep -q "scripts/$name" "$room/out" || wrong 'its help has no call of it'
    out=/dev/full refused sh "$here/$name" -h
    out=
done
calls=0
# what must work: beside a folder of the program's name, with another program named, with a deck that has names
mkdir "$room/files/b67"
for words in 'where.sh fault' 'diagnose.sh deck' 'least-core.sh deck' 'listing.sh deck' 'step.sh fault 1 2' 'mark.sh named lines' 'least-core.sh named' 'listing.sh named' 'step.sh named 1' 'keep.sh check kept'; do
    note='beside a folder b67'
    works sh $here/$words
    note='named by B67'
    bin=$bare B67=../bin/b67 works sh $here/$words
done
rmdir "$room/files/b67"
note=
# what is installed works from there, and nothing is left of it
works sh $tools/install.sh ../bin/b67 "$room/files/installed"
for words in 'where fault' 'diagnose deck' 'explain HALTED' 'least-core named' 'step fault 1' 'keep check kept'; do works sh "../files/installed/bin/b67-${words%% *}" ${words#* }; done
works sh $tools/install.sh --remove "$room/files/installed"
called='install.sh --remove'
[ -z "$(find "$room/files/installed" ! -path "$room/files/installed" 2>/dev/null)" ] || wrong "it leaves $(find "$room/files/installed" | tail -1)"
rm -rf "$room/files/installed"
# the folder that was kept is resumed by it and the program alone
called='b67 resume over what was kept'
(cd "$room/files/kept" && sha256sum -c --quiet SUMS && cp backing ../copy && env -i PATH="$room/bin" b67 resume --backing ../copy <image) >"$room/out" 2>&1
(cd "$room/files" && grep -v '^?HALT' halting | "$program" run --core 4096 --backing copy2) >"$room/whole"
{ sed '/^?IMAGE/,$d' "$room/files/image"; cat "$room/out"; } | cmp -s - "$room/whole" || wrong 'other lines than the whole run'
# names: decks without any come out as they are; each answer is right; five mistakes are found
for deck in "$decks"/*/stdin; do
    called="cells.sh $deck"
    sh "$room/clone/scripts/cells.sh" "$deck" | cmp -s - "$deck" || wrong 'a deck without names is changed'
done
# cells.sh numbers names, warns of what the cards show, and of no deck that is right
for deck in "$decks"/exercises/example.deck "$decks"/answers/*.deck "$top"/teaching/answers/*.deck; do
    called="cells.sh $deck"
    sh "$room/clone/scripts/cells.sh" "$deck" 2>&1 >"$room/plain" | grep . && wrong 'it warns of a right deck'
done
called='cells.sh with CELL lines without a couple'
sed 's/^CELL base 3,2 */CELL base /; s/^CELL n 3,3 */CELL n /; s/^CELL power 2,2/CELL power/; s/^CELL n 2,3/CELL n/' "$decks/exercises/example.deck" >"$room/planted"
sh "$room/clone/scripts/cells.sh" "$room/planted" | grep -v '^;' >"$room/plain"
sh "$room/clone/scripts/cells.sh" "$decks/exercises/example.deck" | grep -v '^;' | cmp -s - "$room/plain" || wrong 'other couples'
while IFS='|' read -r edit sentence; do
    called="cells.sh, example.deck with $edit"
    sed "$edit" "$decks/exercises/example.deck" >"$room/planted"
    cmp -s "$room/planted" "$decks/exercises/example.deck" && wrong 'nothing is planted'
    sh "$room/clone/scripts/cells.sh" "$room/planted" 2>&1 >/dev/null | grep -q "warning: $sentence" || wrong "it doesn't warn: $sentence"
done <<'EDITS'
s/^LT8 3$/LT8 3\nONE/|POWER names 2 parameters before its first operator, and gets 3 arguments
/^LT8 3$/d|POWER gets 2 arguments here, and 1 argument on card 15
s/^NAMC print/NAMC print\nONE/|PRINT takes 1 argument, and gets 2 arguments
s/^CELL n 2,3/CELL n 2,4/|n is cell 2,4, and the cells that are pushed here are those up to 2,3
s/^SEGMENT POWER/SEGMENT P 3\nCELL x 3,2\nEXIT\n&/;s/^M: VALC base/M: VALC x/|x is a cell of P, and in POWER the couple 3,2 is another cell
EDITS
called='where.sh, step.sh and the tracer with names'
sed 's/^VALC base$/NAMC base/' "$decks/exercises/example.deck" >"$room/planted"
PATH=$path sh "$room/clone/scripts/where.sh" "$room/planted" | grep -q '3,2   base = couple 3,2' || wrong 'where.sh shows no name'
PATH=$path sh "$room/clone/scripts/step.sh" "$decks/exercises/example.deck" 12 | grep -q '2,3   n = 0' || wrong 'step.sh shows no name'
python3 "$room/clone/reference/trace.py" "$decks/exercises/example.deck" 8 8 | grep -q 'VALC 2,3 n ' || wrong 'trace.py shows no name'
called='diagnose.sh with names'
PATH=$path sh "$room/clone/scripts/diagnose.sh" "$decks/exercises/example.deck" | head -1 | grep -q 'which b67 refuses' || wrong 'it admits the deck'
marks() { PATH=$path sh "$room/clone/scripts/mark.sh" "$1" "$decks/exercises/$2.lines"; }
for answer in "$decks"/answers/*.deck; do
    called="mark.sh $answer"
    marks "$answer" "$(basename "$answer" .deck)" >"$room/out" || { wrong 'marked wrong'; cat "$room/out"; }
done
while read -r name edit; do
    called="mark.sh, $name with $edit"
    sed "$edit" "$decks/answers/$name.deck" >"$room/planted"
    cmp -s "$room/planted" "$decks/answers/$name.deck" && wrong 'nothing is planted'
    marks "$room/planted" "$name" >"$room/out" && wrong "the mistake isn't found"
done <<'EDITS'
larger s/^GRTR/LESS/
backwards s/^LT8\ 20/LT8\ 5/
digits s/^DLET//
gcd s/^RDIV/IDIV/
counter s/^BRTR\ W/DLET/
EDITS
# (a file without a usage is a part of another script)
for file in $(grep -l usage "$top"/scripts/*.sh "$top"/tools/*.sh "$top"/tools/*.py); do
    case $had in *" $(basename "$file") "*) ;; *) called=$(basename "$file"); wrong 'it isn'\''t called' ;; esac
done
echo "$total calls, $failed failed, $skipped left out"
[ $failed = 0 ]
