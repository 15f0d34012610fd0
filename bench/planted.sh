#!/bin/sh
# Plants one fault after another in a copy of the repository, and sees that the check that is meant for it fails and names it: a check that
# cannot fail shows nothing. It takes two minutes, and is not part of the gate.
#
#   bench/planted.sh
set -eu

top=$(CDPATH='' cd -- "$(dirname -- "$0")/.." && pwd)
copy=$(mktemp -d)
trap 'rm -rf "$copy"' EXIT
trap 'exit 1' HUP INT TERM
cd "$copy"
git -C "$top" archive HEAD | tar -x
git init -q .
git -c user.name=planted -c user.email=planted@localhost add -A
git -c user.name=planted -c user.email=planted@localhost commit -q -m copy
count=0

# The command has to fail now, and to say this.
planted() { # what is planted, what is said, command ..
    what=$1
    said=$2
    shift 2
    if "$@" >said.txt 2>&1; then echo "$what: not found" >&2; exit 1; fi
    grep -q "$said" said.txt || { echo "$what: found, but not named:" >&2; cat said.txt >&2; exit 1; }
    echo "$what: found"
    count=$((count + 1))
    git checkout -q .
    git clean -qfd
}

# The checks pass before anything is planted.
sh docs/check.sh
python3 docs/figures.py --check

echo '[nowhere](nowhere.md)' >>docs/LIVING.md
planted "a link to no file" 'no file nowhere.md' sh docs/check.sh
echo '`pk_core::no_such_call`' >>docs/LIVING.md
planted "a function that is not there" 'no pk_core::no_such_call' sh docs/check.sh
echo '`Drive::no_such_method`' >>docs/DECISIONS.md
planted "a method that is not there" 'no Drive::no_such_method' sh docs/check.sh
echo 'the crate pk_nothing' >>docs/ARCHITECTURE.md
planted "a crate that is not there" 'no crate pk_nothing' sh docs/check.sh
sed -i 's/^| 1 |.*/| 1 | a claim | 1 | 1 |/' docs/DEFINITIONS.md
planted "another number of definitions" 'docs/definitions.py' sh docs/check.sh
sed -i 's/record(?! \\{)/record/' docs/definitions.py
planted "a definition that is cut off in its list" 'goes on a definition' sh docs/check.sh
sed -i '1d' docs/wrong-bodies.txt
planted "a wrong body of which nothing says what it does" 'nothing says what the wrong body' sh docs/check.sh
rm "$(ls crates/*/must-fail/*.edit | head -n 1)"
planted "a wrong body of the gate that is gone" 'docs/wrong_bodies.py' sh docs/check.sh
sed -i '1s/^-- .*//' crates/pk_gc/proofs/Copying.antt
planted "lemmas that do not say what they are about" 'does not say what it is about' sh docs/check.sh
printf '%0300d\n' 0 >>crates/pk_gc/proofs/Copying.antt
planted "a long line of a proof" 'over 200 columns' python3 docs/figures.py --check
echo 'if then' >>launch/why.sh
planted "a script that does not parse" 'launch/why.sh' ./check.sh
mkdir -p crates/pink/out
ln -s /bin/false crates/pink/out/pink
planted "a program that fails its clients' tests" 'test_pinkdrive: see above' ./check.sh --gate
rm crates/pink/out/pink
printf '#!/bin/sh\n[ "$2" = make ] && : >"$1"\necho "most $$"\n' >crates/pink/out/pink
chmod +x crates/pink/out/pink
planted "a workload whose second run differs" 'differ' sh bench/gen.sh
rm -rf crates/pink/out
planted "a gate without the program" 'the program: see above' ./check.sh --gate
echo "$count faults planted, and found"
