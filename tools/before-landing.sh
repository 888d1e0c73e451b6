#!/usr/bin/env bash
# Runs what must pass before a change lands: the gate, and what the gate leaves out. It works on what is committed, goes on
# after a failure, says of each part how long it took and what its last line was, and ends with status 1 if a part failed. The
# Makefile calls it: `make land` all parts, `make test` and `make lint` some.
#
#     bash tools/before-landing.sh [--skip PART].. [--only PART].. [--since COMMIT] [PROGRAM]
#     bash tools/before-landing.sh --list
#
# PROGRAM is a built program, as crates/b67/out/b67; parts that read texts alone need none. COMMIT is what the change stands on, origin/main if it isn't named: the
# edits outside the gate are those of the crates that changed since, and of the crates that name one whose definitions or contracts
# changed. Of a part that failed the last thirty lines are shown.
[ -n "${BASH_VERSION:-}" ] || { echo "usage: bash tools/before-landing.sh --list, or PROGRAM" >&2; exit 2; }
set -u
parts='gate rows decks algol teaching tracer modules scripts documents python shell manual house signatures premises claims links names made page browser release edits mends'
with_program=' decks algol teaching modules scripts documents page browser release '
usage() {
    printf '%s\nusage: bash tools/before-landing.sh [--skip PART].. [--only PART].. [--since COMMIT] [PROGRAM]\nparts: %s\n' "$1" "$parts" >&2
    exit 2
}
means() {
    case $1 in
    gate) echo 'rt ci: proofs, tests, must-fail edits, programs; one to two hours' ;;
    rows) echo 'the rows of b67_rows by the reference' ;;
    decks) echo 'the decks over the built program' ;;
    algol) echo 'the translator from ALGOL 60: its programs and exercises over the built program' ;;
    teaching) echo 'the decks, answers and harnesses of a term over the built program, and mistakes planted in them' ;;
    tracer) echo "the tracer's lines over the decks" ;;
    modules) echo "the page's modules, by node's test runner" ;;
    house) echo 'tools/house.py: no count above its bound' ;;
    signatures) echo 'the public calls against their list' ;;
    premises) echo 'what meets the premises of each theorem' ;;
    claims) echo 'whether the listings of PAPER stand in the sources, and what PROVED and PAPER say that a script can see' ;;
    links) echo 'each link and path of the documents' ;;
    names) echo 'what pages say of functions, calls and crates is in the code' ;;
    made) echo 'the lists of operators, the exact cores of examples and decks, the statement, the blocks of PROVED and PAPER, the table of crates, the page: none is older than its sources' ;;
    python) echo 'pyflakes3 finds nothing' ;;
    shell) echo 'shellcheck has no warning' ;;
    manual) echo 'mandoc -Tlint has no warning of the manual pages' ;;
    page) echo 'tools/check-web.sh: the page in node, beside the program; the page made again' ;;
    browser) echo 'tools/check-page.sh: the page in Chromium' ;;
    scripts) echo 'tools/check-scripts.sh: each script, called carelessly' ;;
    documents) echo 'the commands of the documents' ;;
    release) echo 'tools/release.sh twice: the same bytes' ;;
    edits) echo 'the edits outside the gate, of the crates that changed and of those above' ;;
    mends) echo 'the mends of comments that wait for the next gate: each still applies' ;;
    esac
}
named() {
    case " $parts " in *" $1 "*) ;; *) usage "no part $1" ;; esac
}
skip=' ' only=' ' since='' program=''
while [ $# -gt 0 ]; do
    case $1 in
    --list)
        for part in $parts; do printf '%-10s %s\n' "$part" "$(means "$part")"; done
        exit 0
        ;;
    --skip | --only)
        [ $# -ge 2 ] || usage "$1 wants a part"
        named "$2"
        if [ "$1" = --skip ]; then skip="$skip$2 "; else only="$only$2 "; fi
        shift 2
        ;;
    --since)
        [ $# -ge 2 ] || usage '--since wants a commit'
        since=$2
        shift 2
        ;;
    -*) usage "no option $1" ;;
    *)
        [ -z "$program" ] || usage 'more than one program'
        program=$1
        shift
        ;;
    esac
done
chosen() {
    case $skip in *" $1 "*) return 1 ;; esac
    [ "$only" = ' ' ] || case $only in *" $1 "*) ;; *) return 1 ;; esac
}
if [ -n "$program" ]; then
    [ -f "$program" ] && [ -x "$program" ] || usage "$program: not a program that can be run"
    program=$(cd "$(dirname "$program")" && pwd)/$(basename "$program")
else
    for part in $with_program; do ! chosen "$part" || usage "a program is missing, which $part needs"; done
fi
cd "$(dirname "$0")/.." || exit 2
if [ -z "$since" ]; then
    for since in origin/main main ''; do git rev-parse -q --verify "$since^{commit}" >/dev/null 2>&1 && break; done
fi
[ -z "$since" ] || git rev-parse -q --verify "$since^{commit}" >/dev/null || usage "no commit $since"
room=
trap 'rm -rf "$room"' EXIT
trap 'exit 130' HUP INT TERM
room=$(mktemp -d) || exit 2
echo 'room for what is said' >"$room/log" || exit 2
[ -z "$(git status --porcelain --untracked-files=no)" ] || echo 'Some changes are not committed: the parts documents and edits do not see them.'

# each part is a function of its name
gate() { .ci/run; }
rows() { python3 reference/compare_rows.py reference crates/b67_rows/data; }
decks() { sh decks/run.sh "$program"; }
algol() { sh tools/check-algol.sh "$program"; }
teaching() { bash tools/check-teaching.sh "$program"; }
tracer() { sh tools/check-trace.sh; }
house() { python3 tools/house.py; }
signatures() { python3 tools/signatures.py; }
premises() { python3 tools/premises.py && python3 tools/check-premises.py; }
claims() { python3 tools/claims.py --planted; }
links() { python3 tools/links.py; }
names() { python3 tools/names.py; }
modules() { B67=$program node --test --test-reporter=tap web/tests/*.test.js >"$room/tests" || { cat "$room/tests" && return 1; } && sed -n 's/^# pass /modules: tests passed: /p' "$room/tests"; }
python() { found pyflakes3 && pyflakes3 tools/*.py bench/*.py reference/*.py web/build/*.py teaching/*.py teaching/pupils/*.py teaching/pupils/*/*.py && echo 'nothing found'; }
# (decks/run.sh lies in a crate: what is mended there waits for a gate)
shell() { found shellcheck && shellcheck -S warning scripts/*.sh scripts/b67.bash tools/*.sh bench/*.sh web/build/*.sh web/c/*.sh teaching/decks/*.sh && echo 'nothing found'; }
manual() { found mandoc && mandoc -Tlint -W warning docs/*.[15] && echo 'nothing found'; }
found() {
    command -v "$1" >/dev/null && return
    echo "$1 isn't on the path (Debian: apt-get install ${1%3})"
    return 1
}
# each is asked, so that all that is old is named
made() {
    local old=0
    python3 tools/statement.py --check || old=1
    python3 tools/tables.py --check || old=1
    python3 tools/cores.py --check || old=1
    python3 tools/heads.py --check || old=1
    python3 tools/refill.py --check || old=1
    python3 web/build/join.py web/b67.html --check || old=1
    if [ $old = 0 ]; then echo 'none is old'; else
        echo 'some are old: make fill'
        return 1
    fi
}
page() { (cd crates/b67_web && rt lib) && sh tools/check-web.sh "$program"; }
browser() { sh tools/check-page.sh "$program"; }
mends() { python3 tools/mend.py; }
scripts() { bash tools/check-scripts.sh "$program"; }
documents() { bash tools/check-docs.sh "$program"; }
release() {
    bash tools/release.sh "$program" "$room/one.tar.gz" && bash tools/release.sh "$program" "$room/two.tar.gz" &&
        cmp "$room/one.tar.gz" "$room/two.tar.gz" && echo 'the same bytes twice'
}
# the crates that changed, and those that name one whose definitions or contracts changed: their edits are refused by these, too
touched() {
    local name said
    git diff --name-only "$since" HEAD -- crates | cut -d/ -f2 | sort -u | while read -r name; do
        echo "$name"
        said=$(git diff -U0 "$since" HEAD -- "crates/$name/specs" "crates/$name/src" | grep -cE '^[-+].*(→|≡|ensures|requires|record |abbrev )' || true)
        [ "$said" = 0 ] || sed -n "s/^\([a-z0-9_]*\)[^:]*:.* $name\( .*\)*\$/\1/p" crates.txt
    done | sort -u
}
edits() {
    [ -n "$since" ] || {
        echo 'no commit to compare with: name it by --since'
        return 1
    }
    local name names=()
    while read -r name; do
        if compgen -G "crates/$name/more-edits/*.edit" >/dev/null; then names+=("$name"); fi
    done < <(touched)
    if [ ${#names[@]} -eq 0 ]; then
        echo "no crate with edits outside the gate changed since $since"
    else
        bash tools/more-edits.sh "${names[@]}"
    fi
}

failed=0
for part in $parts; do
    if ! chosen "$part"; then
        [ "$only" != ' ' ] || printf '%-10s skipped\n' "$part"
        continue
    fi
    began=$SECONDS
    if "$part" >"$room/log" 2>&1; then said=passed; else
        said=FAILED
        failed=$((failed + 1))
    fi
    printf '%-10s %-7s %5d s  %s\n' "$part" "$said" "$((SECONDS - began))" "$(tail -n 1 "$room/log" | cut -c 1-90)"
    [ "$said" = passed ] || tail -n 30 "$room/log" | sed 's/^/    /'
done
[ "$failed" = 0 ]
