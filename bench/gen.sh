#!/bin/sh
# Runs the generated workload on fresh images of shape (4096, 64, 512), twice, with the built program: both runs have to end with 0 and to
# print the same summary, and the keys and live pages that `stat` prints have to be those of the summary. The program serves the same
# commands as a script, too (bench/reads.py writes them): `gen` commits in groups as `serve` does, so both images have to be the same, byte
# for byte. If strace is installed, the script prints the programs and erases of the second run. The gate runs it.
#
#   bench/gen.sh [SEED [COUNT]]     gen 7 100000 by default
set -eu

top=$(CDPATH='' cd -- "$(dirname -- "$0")/.." && pwd)
folder=$(mktemp -d)
trap 'rm -rf "$folder"' EXIT
seed=${1:-7}
count=${2:-100000}

"$top/pink" "$folder/made.img" make 4096 64 512
program=$top/crates/pink/out/pink

run() { # the name of the run, and what is put before the program
    name=$1
    shift
    cp "$folder/made.img" "$folder/$name.img"
    "$@" "$program" "$folder/$name.img" gen "$seed" "$count" >"$folder/$name.txt"
    "$program" "$folder/$name.img" stat >"$folder/$name.stat"
}

run first
if command -v strace >/dev/null; then
    run second strace -f -o "$folder/trace" -e trace=pwrite64
    python3 "$top/bench/states.py" "$folder/trace" 32768 64
else
    run second
fi
cat "$folder/first.txt"
cmp "$folder/first.txt" "$folder/second.txt"
cmp "$folder/first.stat" "$folder/second.stat"
python3 -c '
import sys
sys.path.insert(0, sys.argv[1])
import reads
for _, entry in reads.commands(int(sys.argv[2]), int(sys.argv[3])):
    sys.stdout.buffer.write(entry)
' "$top/bench" "$seed" "$count" >"$folder/script"
cp "$folder/made.img" "$folder/served.img"
"$program" "$folder/served.img" serve 36 <"$folder/script" >/dev/null
cmp "$folder/first.img" "$folder/served.img"
for name in keys live; do
    told=$(sed -n "s/^$name //p" "$folder/first.txt")
    there=$(sed -n "s/^$name //p" "$folder/first.stat")
    [ "$told" = "$there" ] || { echo "$name: $told in the summary, $there in the drive" >&2; exit 1; }
done
