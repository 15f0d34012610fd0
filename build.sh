#!/bin/sh
# Proves and builds a program, with the crates that it depends on and no others, and reports its progress on standard error. Nothing is
# built twice: what was proved before is kept, also if a run was interrupted. `./pink` and `./pinkdump` call it on their first use;
# after an edit of the sources it is called by hand.
#
#   ./build.sh [pink|pinkdump|pinkcut]
set -u

top=$(CDPATH='' cd -- "$(dirname -- "$0")" && pwd) || exit 1
name=${1:-pink}
folder=$top/crates/$name
jobs=$(nproc 2>/dev/null || echo 1)

# Lines of code, definitions and proofs: a proof takes about as long as its crate is long.
weigh() { # crate
    find "$top/crates/$1/src" "$top/crates/$1/specs" "$top/crates/$1/proofs" -type f -exec cat {} + 2>/dev/null | wc -l
}

# The crates that a crate depends on, and itself: by the lines of crates.txt, in which each crate comes after those it needs.
needs() { # crate
    awk -v top="$1" '
        /^[a-z]/ { name = $1; sub(/:.*/, "", name); sub(/^[^:]*:/, ""); below[name] = $0; order[++count] = name }
        END {
            want[top] = 1
            for (i = count; i; i--) if (order[i] in want) {
                parts = split(below[order[i]], it, " ")
                for (j = 1; j <= parts; j++) if (it[j] in below) want[it[j]] = 1
            }
            for (i = 1; i <= count; i++) if (order[i] in want) print order[i]
        }' "$top/crates.txt"
}

if ! command -v rt >/dev/null; then
    echo "$name: the program is not built, and building it takes the kit of Rattle (rt), which is not in the path;" >&2
    echo "$name: without it use a program that was built elsewhere, by make install (docs/LIVING.md)" >&2
    exit 1
fi

# One build at a time: in a pipe of first uses the others wait for the one that came first.
if command -v flock >/dev/null && exec 9<"$0" && ! flock -n 9; then
    echo "$name: waiting for the program, which is being built" >&2
    flock 9
    [ -x "$folder/out/$name" ] && exit 0
fi

log=$(mktemp) || exit 1
weights=$(mktemp) || exit 1
trap 'rm -f "$log" "$weights"' EXIT
trap 'exit 1' HUP INT TERM
for crate in $(needs "$name"); do
    echo "$crate $(weigh "$crate")"
done >"$weights"

cat >&2 <<END
$name: proving and building the program, on first use only: $(wc -l <"$weights" | tr -d ' ') crates, about half an hour on four
$name: processors (there are $jobs here). What is proved is kept, so it may be interrupted and goes on from there.
END

# Each crate is named once it is proved; the remaining time is estimated from the time that the lines so far took.
progress() {
    start=$(date +%s)
    total=$(awk '{ sum += $2 } END { print sum }' "$weights")
    count=0
    proved=0
    while read -r crate; do
        lines=$(awk -v it="$crate" '$1 == it { print $2 }' "$weights")
        [ -n "$lines" ] || continue
        count=$((count + 1))
        proved=$((proved + lines))
        spent=$(($(date +%s) - start))
        rest=
        [ $((proved * 10)) -lt "$total" ] || rest=", about $((spent * (total - proved) / (proved * 60) + 1)) more"
        printf '%s: %s of %s crates (%s), %s%% of the lines, %s min so far%s\n' \
            "$name" "$count" "$(wc -l <"$weights" | tr -d ' ')" "$crate" $((proved * 100 / total)) $((spent / 60)) "$rest" >&2
    done
}

# In the crate's own folder `rt all` works on it and on what is below it. Without words the program ends with status 2 at once, so
# its run only leaves it built.
{
    (cd "$folder" && rt all check --jobs "$jobs" </dev/null) && (cd "$folder" && rt run </dev/null)
} 2>&1 | tee "$log" | sed -un '/^== summary$/!s/^== //p' | progress

if [ ! -x "$folder/out/$name" ]; then
    cat "$log" >&2
    echo "$name: the program was not built" >&2
    exit 1
fi
echo "$name: built" >&2
