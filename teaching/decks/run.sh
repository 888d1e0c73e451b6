#!/bin/sh
# Runs the decks of this folder, or those that are named, as decks/run.sh runs its own:
#
#     sh teaching/decks/run.sh PROGRAM [DECK..]
set -u
here=$(cd "$(dirname "$0")" && pwd)
# (decks/run.sh takes the folder of the name by which it is called)
RUNS=$here/../../decks/run.sh exec sh -c '. "$RUNS"' "$here/run.sh" "$@"
