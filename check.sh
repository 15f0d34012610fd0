#!/bin/sh
# Checks what needs no proof: documents against the sources, figures that may not rise, the layout of the sources, the scripts, and, if
# the program is built, the clients. Each fault is a line.
#
#   ./check.sh           before a commit, in a minute or two; the clients are passed over if the program is not built
#   ./check.sh --gate    as the gate runs it, after rt ci: the program has to be there; the layout, which rt ci looks at, is left out
set -u
gate=${1:-}

top=$(CDPATH='' cd -- "$(dirname -- "$0")" && pwd) || exit 1
cd "$top" || exit 1
status=0

check() { # what, command ..
    what=$1
    shift
    if "$@"; then echo "$what: ok"; else echo "$what: see above" >&2; status=1; fi
}

scripts() {
    for script in check.sh build.sh demo.sh pink pinkdump launch/*.sh docs/*.sh bench/*.sh; do sh -n "$script" || return 1; done
    python3 -c 'import ast; ast.parse(open("pinkctl").read())' && python3 -m compileall -q docs bench clients
}

# The sources in the layout that the gate asks for: `rt fmt` writes it, and each file that it had to change is a fault.
layout() {
    before=$(mktemp) && after=$(mktemp) || return 1
    find crates -name out -prune -o \( -name '*.rt' -o -name '*.antt' \) -exec cksum {} + | sort >"$before"
    for crate in crates/*/; do (cd "$crate" && rt fmt >/dev/null 2>&1) || return 1; done
    find crates -name out -prune -o \( -name '*.rt' -o -name '*.antt' \) -exec cksum {} + | sort >"$after"
    diff "$before" "$after" | sed -n 's/^> [0-9]* [0-9]* /laid out anew: /p'
    cmp -s "$before" "$after"
    result=$?
    rm -f "$before" "$after"
    return $result
}

# Runs a test of the clients, and prints the end of what it wrote if it failed.
quiet() { # command ..
    written=$(mktemp) || return 1
    "$@" >"$written" 2>&1
    result=$?
    [ "$result" -eq 0 ] || tail -n 30 "$written" >&2
    rm -f "$written"
    return "$result"
}

python_tests() { (cd clients/python && quiet python3 "$1"); }

c_tests() { quiet make -s -C clients/c test; }

logs() { check test_log python_tests test_log.py; }

clients() {
    for test in test_pinkdrive test_pinkctl test_pinkmirror test_serve; do check "$test" python_tests "$test.py"; done
    check "the generated workload" quiet sh bench/gen.sh
    if [ -d clients/c ]; then
        if command -v cc >/dev/null; then check "client in C" c_tests; else echo "client in C: skipped, there is no cc"; fi
    fi
}

check documents sh docs/check.sh
check figures python3 docs/figures.py --check
check scripts scripts
if [ "$gate" != --gate ] && command -v rt >/dev/null; then check layout layout; fi
logs
if [ -x crates/pink/out/pink ]; then
    clients
elif [ "$gate" = --gate ]; then
    check "the program" test -x crates/pink/out/pink
else
    echo "clients: not tried, the program is not built"
fi
exit $status
