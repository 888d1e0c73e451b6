#!/bin/bash
# Checks what teaching/ has for a term, with a built program: from the top of the repository
#
#     bash tools/check-teaching.sh PROGRAM
#
# - the decks of teaching/decks print what they should, in two cores;
# - each answer is right with a pupil's numbers and with hidden ones, and wrong with a mistake planted in it: of the answers of
#   teaching/answers, and of those of decks/answers whose exercise has numbers;
# - the emulator's harness gives PROGRAM, and the second implementation, all tests of the first three stages, and not to one that
#   prints another number; the translator's refuses a translator that hands its input on;
# - each of the ten wrong machines is found by a deck, and none by a deck that ends at once;
# - slides.html is what slides.py makes.
# It wants node and python3. The last line is `N passed, M failed`. Status 1 if one failed, 2 if something is missing. No part of the gate.
[ -n "${BASH_VERSION:-}" ] || { echo "usage: bash tools/check-teaching.sh PROGRAM" >&2; exit 2; }
set -u
usage() {
    printf '%s\nusage: bash tools/check-teaching.sh PROGRAM\n' "$1" >&2
    exit 2
}
[ $# = 1 ] || usage 'a program is wanted'
[ -f "$1" ] && [ -x "$1" ] || usage "$1: not a program that can be run"
program=$(cd "$(dirname "$1")" && pwd)/$(basename "$1")
for tool in node python3; do command -v $tool >/dev/null || usage "$tool isn't on the path"; done
cd "$(dirname "$0")/.." || exit 2
room=
trap 'rm -rf "$room"' EXIT
trap 'exit 130' HUP INT TERM
room=$(mktemp -d) || exit 2
mkdir "$room/bin" "$room/tmp" || exit 2
export TMPDIR="$room/tmp" # so that what a signal ends leaves nothing
ln -s "$program" "$room/bin/b67" || exit 2
export PATH="$room/bin:$PATH" B67="$program"
[ "$(printf '?JOB A\n?ASM\nSEGMENT M 2\nEXIT\n?END\n' | "$program" run --core 4096 --backing "$room/b")" = '1.1 ENDED' ] || usage "$program: no b67"
passed=0
failed=0
# tried NAME STATUS COMMAND.. : the command ends with this status
tried() {
    local name=$1 wanted=$2 status
    shift 2
    "$@" >"$room/said" 2>&1
    status=$?
    if [ $status = "$wanted" ]; then passed=$((passed + 1)); else
        failed=$((failed + 1))
        echo "FAILED: $name: status $status, wanted $wanted"
        tail -3 "$room/said"
    fi
}
tried 'the decks of the term' 0 sh teaching/decks/run.sh "$program"
for answer in teaching/answers/*.deck decks/answers/{backwards,digits,gcd,larger,swap}.deck; do
    exercise=$(basename "$answer" .deck)
    tried "$answer" 0 python3 teaching/mark.py "$exercise" hidden "$answer"
    # the first operator of the deck that gives or compares a number becomes another one
    sed -E '0,/^(.*: )?(MULT|LSEQ|GRTR|RDIV|ADD)$/s//\1IDIV/' "$answer" >"$room/$exercise.deck"
    cmp -s "$answer" "$room/$exercise.deck" && echo "FAILED: $answer: no mistake could be planted" && failed=$((failed + 1))
    tried "$answer, with a mistake" 1 python3 teaching/mark.py "$exercise" hidden "$room/$exercise.deck"
done
printf '#!/bin/sh\nexec "$B67" run --core 1048575 --backing "%s/b"\n' "$room" >"$room/bin/right"
printf '#!/bin/sh\n"$B67" run --core 1048575 --backing "%s/b" | sed "s/ 7$/ 8/"\n' "$room" >"$room/bin/wrong"
printf '#!/bin/sh\nexec python3 "%s/reference/b67ref.py" run --core 1048575 --backing "%s/b"\n' "$PWD" "$room" >"$room/bin/second"
chmod +x "$room"/bin/*
grade=teaching/pupils/emulator/grade.py
tried 'all stages, by the program' 0 python3 $grade --seconds 60 right
tried 'three stages, by the second implementation' 0 python3 $grade --seconds 60 --stage 3 second
tried 'an emulator that prints 8 for 7' 1 python3 $grade --stage 2 wrong
tried 'random decks' 0 python3 $grade --stage 1 --seeds 0..9 --seconds 60 right
tried 'a translator that translates nothing' 1 python3 teaching/pupils/translator/grade.py --stage 1 cat
[ ! -f algol/algol.mjs ] || tried 'the translator of algol/' 0 python3 teaching/pupils/translator/grade.py node algol/algol.mjs -
# a deck for each wrong machine: of decks/, or the cards of an outer block
deck() {
    printf '?JOB A\n%s?ASM\nSEGMENT MAIN 2\n%s\n?END\n' "${2:-}" "$(printf %s "$1" | sed 's: / :\n:g')"
}
wrong() {
    tried "wrong machine $1" 0 sh -c "python3 teaching/pupils/wrong.py $1 <'$2'"
}
deck 'MKST / NAMC 0,9 / LT8 7 / CHSN / LT8 2 / IDIV / ENTR / EXIT' >"$room/2"
deck 'MPCW P / MKST / NAMC 2,2 / ENTR / EXIT / SEGMENT P 3 / MKST / NAMC 0,8 / ONE / ENTR / NAMC 3,2 / LOAD / RETN' >"$room/3"
deck 'MPCW P / MKST / NAMC 0,12 / NAMC 2,2 / ENTR / MKST / NAMC 0,13 / VALC 2,3 / ENTR / EXIT / SEGMENT P 3 / EXIT' >"$room/5"
deck 'MKST / NAMC 0,8 / ONE / ENTR / ONE / NAMC 2,2 / ZERO / INDX / STOD / MKST / NAMC 0,17 / NAMC 2,2 / LOAD / ENTR / MKST / NAMC 0,9 / NAMC 2,2 / ZERO / NXLV / ENTR / EXIT' >"$room/8"
deck 'MKST / NAMC 0,8 / LT8 2 / ENTR / NAMC 2,2 / ONE / INDX / MKST / NAMC 0,18 / NAMC 2,2 / LOAD / ONE / ENTR / VALC 2,3 / EXIT' >"$room/9"
deck 'MKST / NAMC 0,9 / ONE / ENTR / EXIT' $'?LIMIT 4\n' >"$room/10"
for number in 2 3 5 8 9 10; do wrong $number "$room/$number"; done
wrong 1 decks/manboy/stdin
wrong 4 decks/protect/stdin
wrong 6 decks/dining/stdin
wrong 7 decks/critical/stdin
deck EXIT >"$room/exit"
tried 'a deck that ends at once' 1 sh -c "python3 teaching/pupils/wrong.py <'$room/exit'"
tried 'the slides' 0 python3 teaching/slides.py --check
echo "$passed passed, $failed failed"
[ $failed = 0 ]
