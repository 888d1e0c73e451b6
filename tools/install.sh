#!/bin/sh
# Installs b67 below a folder, or removes what it has installed there. The Makefile calls it.
#
#     sh tools/install.sh PROGRAM PREFIX
#     sh tools/install.sh --remove PREFIX
#
# PROGRAM is a built program, as crates/b67/out/b67. Below PREFIX, as /usr/local, stand then
#
# bin/b67, bin/b67-NAME    the program, and each script of scripts/ as a command: b67-where, b67-explain ..
# libexec/b67              the scripts themselves, with what they read
# share/doc/b67            MESSAGES, CHANGES, and the decks with their exercises
# share/man                b67.1, b67-deck.5, b67-image.5
# share/bash-completion, share/vim/vimfiles, share/b67    completion; the syntax for Vim, and for editors that read TextMate's
#
# libexec/b67/installed names each file. An installation that is there is removed first. Removed are these files alone, and the
# folders that are empty then. DESTDIR, if it is set, goes before PREFIX, and no file that is installed names it.
set -eu
usage() {
    printf '%s\nusage: sh tools/install.sh PROGRAM PREFIX, or --remove PREFIX\n' "$1" >&2
    exit 2
}
[ $# = 2 ] || usage 'a program, or --remove, and a folder are wanted'
case $2 in /*) ;; *) usage "$2: PREFIX begins with /" ;; esac
top=$(cd "$(dirname "$0")/.." && pwd)
prefix=${2%/}
root=${DESTDIR-}$prefix
installed=libexec/b67/installed

# what is installed: the mode, the file, and its name below PREFIX
table() {
    echo "755 program bin/b67"
    for file in scripts/*.sh; do
        name=${file#scripts/}
        echo "644 $file libexec/b67/$file"
        echo "755 command bin/b67-${name%.sh}"
    done
    for file in program named; do echo "644 scripts/$file libexec/b67/scripts/$file"; done
    echo "644 CITATION.cff libexec/b67/CITATION.cff"
    echo "644 docs/MESSAGES.md libexec/b67/docs/MESSAGES.md"
    echo "644 docs/b67-image.5 libexec/b67/docs/b67-image.5"
    echo "644 docs/MESSAGES.md share/doc/b67/MESSAGES.md"
    echo "644 CHANGES.md share/doc/b67/CHANGES.md"
    (cd decks && find -L . -type f ! -path './answers/*') | LC_ALL=C sort | while read -r file; do
        echo "644 decks/${file#./} share/doc/b67/decks/${file#./}"
    done
    echo "644 docs/b67.1 share/man/man1/b67.1"
    for file in docs/*.5; do echo "644 $file share/man/man5/${file#docs/}"; done
    echo "644 scripts/b67.bash share/bash-completion/completions/b67"
    echo "644 scripts/b67.vim share/vim/vimfiles/syntax/b67.vim"
    echo "644 editors/vscode/b67.tmLanguage.json share/b67/b67.tmLanguage.json"
}
# put MODE FILE NAME: a script and MESSAGES name the scripts as the commands that they are there
put() {
    mkdir -p "$root/$(dirname "$3")"
    rm -f "$root/$3"
    case $2 in
    program) cp "$program" "$root/$3" ;;
    command)
        printf '#!/bin/sh\nexec sh "$(dirname "$(readlink -f "$0")")/../libexec/b67/scripts/%s.sh" "$@"\n' "${3#bin/b67-}" >"$root/$3"
        ;;
    scripts/*.sh | docs/MESSAGES.md)
        sed 's:sh scripts/\([a-z-]*\)\.sh:b67-\1:g; s:scripts/\([a-z-]*\)\.sh:b67-\1:g; s:sh $(dirname "$0")/\([a-z-]*\)\.sh:b67-\1:g' "$2" >"$root/$3"
        ;;
    *) cp "$2" "$root/$3" ;;
    esac
    chmod "$1" "$root/$3"
}
remove() {
    while read -r file; do
        case $file in '' | /* | *..*) usage "$root/$installed: not the name of a file below PREFIX: $file" ;; esac
        rm -f "$root/$file"
        folder=$(dirname "$file")
        while [ "$folder" != . ] && rmdir "$root/$folder" 2>/dev/null; do folder=$(dirname "$folder"); done
    done <"$root/$installed"
    [ -z "${DESTDIR-}" ] || (cd "$DESTDIR" && rmdir -p "${prefix#/}" 2>/dev/null) || :
}

if [ "$1" = --remove ]; then
    [ -f "$root/$installed" ] || usage "$root: nothing is installed there: no $installed"
    remove
    echo "removed from $root"
    exit 0
fi
[ -f "$1" ] && [ -x "$1" ] || usage "$1: not a program that can be run"
program=$(cd "$(dirname "$1")" && pwd)/$(basename "$1")
cd "$top"
[ ! -f "$root/$installed" ] || remove
mkdir -p "$root/libexec/b67"
{ table | cut -d' ' -f3; echo $installed; } >"$root/$installed"
table | while read -r mode file name; do put "$mode" "$file" "$name"; done
echo "installed below $root: $(wc -l <"$root/$installed") files, the commands $(cd "$root/bin" && echo b67*)"
# a program that is proved is built for x86-64-v2, and ends with 127 on an older processor
[ -n "${DESTDIR-}" ] || "$root/bin/b67" check </dev/null >/dev/null 2>&1 || echo "install.sh: this machine can't run it, status $?; 127 is a processor below the level x86-64-v2: see b67(1)" >&2
