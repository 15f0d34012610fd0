#!/bin/sh
# Tries the wrong bodies of bench/wrong-bodies, which the gate does not try for its time, and with --gate those that it tries: the prover
# has to refuse each. bench/wrong.py has the words, and how edits of one crate share a check. Run it in a checkout in which `rt ci` has
# passed: it uses the libraries that are there, and proves nothing again that no edit changes. It is not part of the gate.
#
#   bench/wrong.sh [CRATE..]         all crates of bench/wrong-bodies by default
#   bench/wrong.sh --since COMMIT    those that changed after this commit, or whose wrong bodies did
#
# docs/wrong_bodies.py prints what each of them does.
set -eu
exec python3 "$(dirname -- "$0")/wrong.py" "$@"
