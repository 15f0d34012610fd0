#!/bin/sh
# Runs trials of whole sessions that take longer than the gate gives a test, and prints how many cuts each made and how long it took:
# the first reclaim of a full drive of 64 blocks, cut at every mark, and so the session after each cut; and on the three smallest shapes
# three consecutive sessions, the first of which begins with a freeze, with merges into each of the four levels and a freeze, or with a
# reclaim and a freeze inside it. A program is interrupted in three ways, that of the second page of a pair in six, an erase in four; of
# the marks of the later sessions one of every EVERY is cut, and the next cut goes on from there. It is not part of the gate.
#
# It works on a copy of the sources, in which these are the tests of a crate. They are proved, over the libraries in out/, which ./pink and
# `rt check` leave (what is missing there is proved first), and run as they are built, at full speed.
#
#   bench/long.sh [EVERY [WORD]]     all cuts if EVERY is 1, the default; with a WORD only trials whose name has it
set -eu

every=${1:-1}
word=${2:-}
case $every/$word in
0* | *[!0-9]*/* | */*[!a-z_0-9]*)
    echo "long: EVERY is a number above 0, and WORD a part of a trial's name" >&2
    exit 2
    ;;
esac
top=$(CDPATH='' cd -- "$(dirname -- "$0")/.." && pwd)
folder=$(mktemp -d)
trap 'rm -rf "$folder"' EXIT
trap 'exit 1' HUP INT TERM

mkdir "$folder/crates"
cp "$top/HANDLES" "$folder/"
for crate in "$top"/crates/*/; do
    name=$(basename "$crate")
    mkdir "$folder/crates/$name"
    for part in src specs proofs; do
        [ ! -d "$crate$part" ] || cp -r "$crate$part" "$folder/crates/$name/"
    done
    [ -d "${crate}out/rlib" ] || continue
    mkdir "$folder/crates/$name/out"
    cp -rl "${crate}out/rlib" "$folder/crates/$name/out/" 2>/dev/null || cp -rf "${crate}out/rlib" "$folder/crates/$name/out/"
done
tests=$folder/crates/pk_test_hard
rm -r "$tests"/src/*
# the trials of reclaims are in another crate than those of hard cases
sed 's/^pk_test_hard: /&pk_test_cuts /' "$top/crates.txt" > "$folder/crates.txt"
cat > "$tests/src/lib.rt" <<'RT'
//! The trials that take long.
#![tactic(auto)]

#[cfg(test)]
mod tests;
RT

# A trial of a shape: its name, the call, and what it prints.
trial() { # name, call
    cat <<RT

#[test]
fn $1(rt: HostRuntime) -> Result<(), Fail> {
    let cuts = $2?;
    println!(rt; "$1: {cuts} cuts")?;
    Ok(())
}
RT
}

{
    cat <<'RT'
//! One test for each long trial.

use pk_test_cuts::reclaims::first_on_full_twice;
use pk_test_program::pink::Pink;
use pk_test_stress::deep::{SHAPES, three_deep_in_all_ways};
use pk_test_stress::merged::{FREEZES, MERGES, freeze_in_all_ways, merges_in_all_ways};
use std::test::*;

#[test]
fn first_on_full(rt: HostRuntime) -> Result<(), Fail> {
    let cuts = first_on_full_twice::<Pink>(rt.alloc(), EVERY)?;
    println!(rt; "first_on_full: {} cuts, and {} after them", cuts.first, cuts.second)?;
    Ok(())
}
RT
    for shape in 0 1 2; do
        trial "freeze_$shape" "freeze_in_all_ways::<Pink>(rt.alloc(), &FREEZES[$shape], EVERY)"
        trial "merges_$shape" "merges_in_all_ways::<Pink>(rt.alloc(), &MERGES[$shape], EVERY)"
        trial "reclaim_$shape" "three_deep_in_all_ways::<Pink>(rt.alloc(), &SHAPES[$shape], EVERY)"
    done
} | sed "s/EVERY/$every/" > "$tests/src/tests.rt"

cd "$tests"
# no trial has this name, so that they are only proved and built
rt test -- "no trial" >log 2>&1 || {
    cat log >&2
    exit 1
}
./out/pk_test_hard_tests --list | sed -n "s/^tests::\\(.*$word.*\\): test\$/\\1/p" | while read -r name; do
    start=$(date +%s)
    ./out/pk_test_hard_tests "tests::$name"
    echo "$name: $(($(date +%s) - start)) seconds"
done
