#!/bin/sh
# Loses power by chance under an image and its log in memory, as the tests random_outcomes do of pk_test_redo, over the log alone, and of
# pk_test_durable, over the program: sessions are stopped at calls of both files, and so are sessions over what remains; after each, ten
# outcomes of what was not synced are opened again. Half of the outcomes are over each. It prints for both within what the sessions were
# stopped: a checkpoint, zeros written ahead, a barrier. It is not part of the gate.
#
# The tests are proved with other numbers, from a copy of their sources, over the libraries that `rt ci` left in this checkout or in
# another one, and run as they are built.
#
#   bench/crashes.sh [OUTCOMES [SEED [CHECKOUT]]]     100,000 by default; SEED is the number of the first session, by default 1
set -eu

outcomes=${1:-100000}
seed=${2:-1}
case $outcomes/$seed in
0* | *[!0-9/]* | */)
    echo "crashes: OUTCOMES is a number above 0, and SEED a number" >&2
    exit 2
    ;;
esac
top=$(CDPATH='' cd -- "$(dirname -- "$0")/.." && pwd)
libraries=${3:-$top}
folder=$(mktemp -d)
trap 'rm -rf "$folder"' EXIT
trap 'exit 1' HUP INT TERM

# Proves and runs the test of a crate that has so many outcomes a session.
run() { # crate, outcomes of a session
    room=$folder/$1
    mkdir "$room"
    for part in src specs proofs; do
        [ ! -d "$top/crates/$1/$part" ] || cp -r "$top/crates/$1/$part" "$room/"
    done
    grep -q '^const SESSIONS: u32 = ' "$room/src/chance.rt" && grep -q '^const SEED: u32 = ' "$room/src/chance.rt" || {
        echo "crashes: the test of $1 has no number of sessions, or no seed" >&2
        exit 1
    }
    sessions=$(((outcomes / 2 + $2 - 1) / $2))
    sed -i "s/^const SESSIONS: u32 = .*/const SESSIONS: u32 = $sessions;/; s/^const SEED: u32 = .*/const SEED: u32 = $seed;/" \
        "$room/src/chance.rt"
    python3 "$top/bench/build_tests.py" "$1" "$room" "$libraries"
    "$room/tests" chance::random_outcomes
}

start=$(date +%s)
run pk_test_redo 30
run pk_test_durable 20
echo "$(($(date +%s) - start)) seconds"
