#!/bin/sh
# Tries the edits in tools/edits, each of which makes a body wrong: the prover has to refuse it. Words are names of crates, and
# none stand for all. `rt ci` would prove a crate once more for its edits. Here the prover is asked for the function that the edit
# names alone, so a try takes seconds. What the crates stand on is proved before, or with `built` taken from what `rt ci` left.
# The status is 1 if an edit isn't refused.
set -eu
cd "$(dirname "$0")/.."

. tools/crates.sh

built=
if [ "${1-}" = built ]; then
    built=1
    shift
fi
if [ $# = 0 ]; then
    cd tools/edits
    set -- *
    cd ../..
fi

# Tries the edits of these crates over the libraries that are there.
try_edits() {
    python3 -B tools/edits.py "$(dirname "$(rt doc)")" "$@"
}

if [ -n "$built" ]; then
    if try_edits "$@"; then exit; fi
    echo 'edits.sh: once more, with what the crates stand on proved again' >&2
fi
# What the lines of these crates name.
below=$(for crate in "$@"; do sed -n "s/^$crate://p" crates.txt; done)
# shellcheck disable=SC2086
[ -z "${below# }" ] || prove $below
try_edits "$@"
