#!/bin/sh
# Checks the documents beside the sources, in a second or two; the gate runs it too. Each fault is a line.
#
# Each file of lemmas says what it is about; the table of definitions, the map of the crates and the list of wrong bodies are those that
# docs/definitions.py, docs/crates.py and docs/wrong_bodies.py write, and each list of definitions is complete; every wrong body says
# what is wrong; README keeps to its size; README and TESTS have the right counts;
# every link leads to a file; every crate, every path of a function, every type with a method, every file of definitions, every clause
# of GUARANTEES and every wrong body that a document names exists.
set -u

top=$(CDPATH='' cd -- "$(dirname -- "$0")/.." && pwd) || exit 1
cd "$top" || exit 1
faults=$(mktemp) || exit 1
trap 'rm -f "$faults"' EXIT

fault() { echo "$*" >>"$faults"; }

# The text in backticks in a document, an item a line; blocks of code are left out.
quoted() { # document
    sed '/^```/,/^```/d' "$1" | tr '\n' ' ' | grep -o '`[^`]*`' | tr -d '`'
}

# Whether a crate has this wrong body, tried by the gate or by bench/wrong.sh.
refused() { # crate, name
    [ -f "crates/$1/must-fail/$2.edit" ] || [ -f "bench/wrong-bodies/$1/$2.edit" ]
}

# Whether the sources of a crate, its definitions or its wrong bodies have this name.
has() { # crate, name
    refused "$1" "$2" || grep -rqwE "(fn|struct|enum|trait|mod|ensures|requires|ghost) $2|(pub|record|abbrev) $2" "crates/$1/src" "crates/$1/specs" 2>/dev/null
}

# Whether a path exists: after a name with a small letter, a public module, the next name is in the file of that module; after one with
# a capital letter, a type or a trait, it is in a file that names that type; what follows the crate directly is a public module, or
# public at its top.
leads() { # crate, rest of the path
    part=${2%%::*}
    rest=${2#"$part"}
    rest=${rest#::}
    last=${rest##*::}
    sources=crates/$1/src
    if [ -z "$rest" ]; then
        grep -qwE "^pub (fn|struct|enum|trait|mod) $part" "$sources/lib.rt" \
            || tr '\n' ' ' <"$sources/lib.rt" | grep -o 'pub use [^;]*;' | sed 's/[a-z_]*:://g' | grep -qw "$part" \
            || grep -rqwE "(record|abbrev|pub) $part" "crates/$1/specs"
        return
    fi
    case $part in
        [a-z]*)
            grep -qE "^pub mod $part;" "$sources/lib.rt" || return 1
            grep -qwE "(fn|struct|enum|const) $last" "$sources/$part.rt"
            ;;
        *)
            files=$(grep -rlwE "(impl|trait|struct|enum)(<[^>]*>)? (.* for )?$part" "$sources") || return 1
            # shellcheck disable=SC2086  # a name of a source has no blank
            grep -qwE "fn $last" $files
            ;;
    esac
}

docs/lemmas.sh --check >>"$faults"
docs/definitions.py --check 2>>"$faults"
docs/crates.py --check 2>>"$faults"
docs/wrong_bodies.py --check 2>>"$faults"

[ "$(wc -l <README.md)" -le 100 ] || fault "README.md: more than 100 lines"
LC_ALL=C awk '{ gsub(/[\200-\277]/, "") } length($0) > 100 { print "README.md:" FNR ": wider than 100 columns" }' README.md >>"$faults"

# Numbers that README and TESTS repeat: the lines of the definitions, the wrong bodies, the tests of the gate.
lines=$(sed -n 's/^| 1 | .* | \([0-9]*\) | [0-9]* |$/\1/p' docs/DEFINITIONS.md)
grep -q " $lines lines for the claim" README.md || fault "README.md: the claim has $lines lines of definitions"
edits=$(find crates -path '*/must-fail/*.edit' | wc -l)
for document in README.md docs/TESTS.md; do
    grep -q "$edits wrong bodies" "$document" || fault "$document: there are $edits wrong bodies"
done
tried=$(find bench/wrong-bodies -name '*.edit' | wc -l)
grep -q "| $tried | .bench/wrong.sh. |" docs/TESTS.md || fault "docs/TESTS.md: there are $tried wrong bodies in bench"
# Each crate that has tests has a line of TESTS with their number.
for crate in $(grep -rl '^#\[test\]' crates/*/src | cut -d / -f 2 | sort -u); do
    found=$(grep -rh '^#\[test\]' "crates/$crate/src" | wc -l)
    grep -q "^| tests .* | $found | .$crate. |" docs/TESTS.md || fault "docs/TESTS.md: $crate has $found tests"
done

# Whether the sources have a type or trait of this name with a function of that name.
has_method() { # type, function
    # shellcheck disable=SC2046  # a name of a source has no blank
    grep -qwE "fn $2" $(grep -rlwE "(impl|trait|struct|enum)(<[^>]*>)? (.* for )?$1" crates/*/src) /dev/null
}

for document in README.md docs/*.md clients/python/README.md; do
    folder=$(dirname "$document")
    for link in $(sed '/^```/,/^```/d' "$document" | grep -o '](\([^)#]*\)' | sed 's/^](//' | grep -v '^[a-z]*:'); do
        [ -e "$folder/$link" ] || fault "$document: no file $link"
    done
    [ "$document" = docs/PROOFS.md ] && continue
    for crate in $(grep -ow 'pk_[a-z_]*[a-z]' "$document" | sort -u); do
        [ -d "crates/$crate" ] || fault "$document: no crate $crate"
    done
    # crate::name, crate::Type::name and crate/specs/Name
    quoted "$document" | grep -oE '^pk_[a-z_]+(::[A-Za-z_]+)+' | sort -u | while IFS= read -r name; do
        crate=${name%%::*}
        { has "$crate" "${name##*::}" && leads "$crate" "${name#*::}"; } || fault "$document: no $name"
    done
    # Type::function
    quoted "$document" | grep -oE '^[A-Z][A-Za-z]+::[a-z_]+' | sort -u | while IFS= read -r name; do
        case $name in Vec::* | String::* | Option::* | Result::* | Box::* | File::* | OpenOptions::* | BufWriter::* | SmallVec::*) continue ;; esac
        has_method "${name%%::*}" "${name##*::}" || fault "$document: no $name"
    done
    quoted "$document" | grep -oE '^pk_[a-z_]+/specs/[A-Za-z]+' | sort -u | while IFS= read -r name; do
        [ -f "crates/$name.antt" ] || fault "$document: no definitions $name"
    done
done

# In GUARANTEES each line of a clause names a function, and after it clauses and fields; each line of refused bodies names edits.
awk '
    /^- \*/ { kind = $2 }
    /^$/ { kind = "" }
    kind == "*Clause*:" || kind == "*Refused*:" {
        count = split($0, part, "`")
        for (i = 2; i <= count; i += 2) print kind, part[i]
    }' docs/GUARANTEES.md | while read -r kind name; do
    case $name in
        pk_*::*) crate=${name%%::*} ;;
        pk_*) crate=$name ;;
        *::* | *" "*) ;;
        *)
            case $kind in
                '*Refused*:')
                    refused "$crate" "$name" || fault "docs/GUARANTEES.md: no wrong body $name of $crate"
                    ;;
                *) has "$crate" "$name" || has pk_drive "$name" || has pk_call "$name" || fault "docs/GUARANTEES.md: no clause $name of $crate" ;;
            esac
            ;;
    esac
done

# In WRONG-BODIES each name of the second column is a test.
sed -n 's/^| .* | \(the test.*\) |$/\1/p' docs/WRONG-BODIES.md | grep -o '`[^`]*`' | tr -d '`' | while IFS= read -r name; do
    grep -rqw "fn $name" crates/pk_test_*/src || fault "docs/WRONG-BODIES.md: no test $name"
done

for crate in $(sed -n 's/^\(pk_[a-z_]*\):.*/\1/p' crates.txt); do
    case $crate in
        pk_test_*) ;;
        *) grep -qw "$crate" docs/CRATES.md docs/ARCHITECTURE.md 2>/dev/null || fault "docs: the map of the crates has nothing of $crate" ;;
    esac
done

cat "$faults" >&2
[ ! -s "$faults" ]
