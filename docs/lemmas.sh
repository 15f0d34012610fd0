#!/bin/sh
# Prints the index of lemma files: each file of crates/*/proofs with its first line, which says what the file is about.
#
#   docs/lemmas.sh [CRATE..]    prints the index, of all crates by default
#   docs/lemmas.sh --check      prints the files whose first line is no comment, and fails if there are any
set -eu

top=$(CDPATH='' cd -- "$(dirname -- "$0")/.." && pwd)
cd "$top/crates"

if [ "${1:-}" = --check ]; then
    # shellcheck disable=SC2046  # a name of a source has no blank
    silent=$(for file in $(ls ./*/proofs/*.antt); do
        case $file in */Lib.antt) continue ;; esac
        head -n 1 "$file" | grep -q '^-- ' || echo "crates/${file#./}: its first line does not say what it is about"
    done)
    [ -z "$silent" ] || { echo "$silent"; exit 1; }
    exit
fi

[ $# -gt 0 ] || set -- $(ls)
for crate; do
    ls "$crate"/proofs/*.antt >/dev/null 2>&1 || continue
    printf '\n%s\n' "$crate"
    for file in "$crate"/proofs/*.antt; do
        lemma=$(basename "$file" .antt)
        [ "$lemma" = Lib ] || sed -n '1s/^-- *\(.*\)$/  '"$lemma"': \1/p' "$file"
    done
done
