#!/usr/bin/env bash
# Tries the edits of crates/NAME/more-edits, which the gate leaves out: each crate's edits cost it another check from nothing.
#
#     bash tools/more-edits.sh [--applies] [--gate] [--jobs N] [--into FILE] [NAME|NAME/EDIT..]
#
# Without a name it tries all, with NAME/EDIT one, of more-edits or of the gate's. Edits in different functions of a crate are tried
# in one check. It works where the libraries below are built: in a tree over which the gate has just run. All of them in a night, begun
# again by the same words where it was cut off:
#
#     bash tools/more-edits.sh --gate --jobs 4 --into FILE
#
# edits.py says the rest.
[ -n "${BASH_VERSION:-}" ] || { echo "usage: bash tools/more-edits.sh [NAME|NAME/EDIT..]" >&2; exit 2; }
exec python3 "$(dirname "$0")/edits.py" "$@"
