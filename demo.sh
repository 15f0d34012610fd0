#!/bin/sh
# Shows a drive at work: makes one, serves a script of three commands, and reads the value again in a second session.
#
#   ./demo.sh
#   ./demo.sh --cut [FILE]     cuts the power of one Store at each of its marks, in each way that this may leave the flash, and shows
#                              what opens then: as text, and as a page with pictures (cut.html, if no file is named)
#
# If the program is built it is run, by a pipe. Otherwise the same sources are run unproved: `rt try` compiles them with checks
# (which takes about a minute) and runs one case for each word. There is no pipe between cases, so each case gets what the one before
# it has to write, and what that one wrote is compared with it, byte for byte.
set -eu

top=$(CDPATH='' cd -- "$(dirname -- "$0")" && pwd)
folder=$(mktemp -d)
trap 'rm -rf "$folder"' EXIT
trap 'exit 1' HUP INT TERM

cut_power() { # FILE: prints the cuts of a Store, and writes the page
    if [ -x "$top/crates/pinkcut/out/pinkcut" ]; then
        echo "This is the program that is built (crates/pinkcut/out/pinkcut), over the board in memory."
        "$top/crates/pinkcut/out/pinkcut" >"$folder/cuts"
    elif command -v rt >/dev/null; then
        echo "This runs the sources unproved, with checks (rt try, two minutes); ./build.sh pinkcut proves and builds them."
        (cd "$top/crates/pinkcut" && rt try) >"$folder/cuts" 2>"$folder/said" || { cat "$folder/said" >&2 && exit 1; }
    else
        echo "demo.sh: there is no program crates/pinkcut/out/pinkcut, and the kit of Rattle (rt) is not in the path" >&2
        exit 1
    fi
    echo
    python3 "$top/docs/cuts.py" -o "$1" <"$folder/cuts"
    printf '\nThe same with pictures: %s\n' "$1"
}

case ${1:-} in
    --cut)
        cut_power "${2:-cut.html}"
        exit
        ;;
    '') ;;
    *)
        sed -n 's/^#   \(.*\)$/\1/p' "$0" >&2
        exit 2
        ;;
esac

cat >"$folder/script.txt" <<'END'
# the value 'abc' under the key 'a', in hexadecimal; the value again; a key that does not exist
store 61 616263
retrieve 61 3
exist 63
END
echo 'retrieve 61 3' >"$folder/later.txt"

make='./pink drive.img make 512 16 64'
pipe='./pink drive.img asm < script.txt | ./pink drive.img serve 36 | ./pink drive.img show'
again="echo 'retrieve 61 3' | ./pink drive.img asm | ./pink drive.img serve 36 | ./pink drive.img show"

# Prints what was typed and what came out of it.
print_sessions() { # the lines of the first session, those of the second
    printf '\n$ cat script.txt\n'
    cat "$folder/script.txt"
    printf '\n$ %s      # pages of 512 bytes, 16 in a block, 64 blocks\n' "$make"
    printf '\n$ %s\n' "$pipe"
    cat "$1"
    printf '\n# the same drive in a second session\n$ %s\n' "$again"
    cat "$2"
}

if [ -x "$top/crates/pink/out/pink" ]; then
    echo "This is the program that is built (crates/pink/out/pink)."
    pink() { "$top/pink" "$folder/drive.img" "$@"; }
    pink make 512 16 64
    pink asm <"$folder/script.txt" | pink serve 36 | pink show >"$folder/first"
    pink asm <"$folder/later.txt" | pink serve 36 | pink show >"$folder/second"
    print_sessions "$folder/first" "$folder/second"
    exit
fi

if ! command -v rt >/dev/null; then
    echo "demo.sh: there is no program, and running the sources takes the kit of Rattle (rt), which is not in the path;" >&2
    echo "demo.sh: without it use a program that was built elsewhere (docs/LIVING.md)" >&2
    exit 1
fi
echo "This runs the sources unproved, with checks (rt try, about a minute); ./pink proves and builds them."

numbers() { # each number below 65536, as two bytes
    for number; do
        printf "\\$(printf %03o $((number % 256)))\\$(printf %03o $((number / 256)))"
    done
}

# A submission entry: sixteen dwords, with a key of one byte from dword 2 on, the size in dword 10 and the key's length in dword 11.
entry() { # opcode, command identifier, key, size
    numbers "$1" "$2" 1 0
    printf %s "$3"
    head -c 31 /dev/zero
    numbers "$4" 0 1 0 0 0 0 0 0 0 0 0
}

# An answer record: the completion entry of four dwords, the pages read, the length of the data.
record() { # command identifier, which is also the count of entries taken; status, result, pages read, length
    numbers "$3" 0 0 0 "$1" 1 "$1" $(($2 * 2 + 1)) "$4" 0 "$5" 0
}

cases=$folder/cases
mkdir "$cases"
case_of() { # number, words
    number=$1
    shift
    printf '%s\n' "$folder/drive.img" "$@" >"$cases/$number.args"
}
case_of 1-make make 512 16 64
: >"$cases/1-make"
case_of 2-asm asm
case_of 3-serve serve 36
case_of 4-show show
cp "$folder/script.txt" "$cases/2-asm"
{ entry 1 1 a 3; printf abc; entry 2 2 a 3; entry 20 3 c 0; } >"$cases/3-serve"
{ record 1 0 0 0 0; record 2 0 3 1 3; printf abc; record 3 135 0 0 0; } >"$cases/4-show"
case_of 5-asm asm
case_of 6-serve serve 36
case_of 7-show show
cp "$folder/later.txt" "$cases/5-asm"
entry 2 1 a 3 >"$cases/6-serve"
{ record 1 0 3 1 3; printf abc; } >"$cases/7-show"
: >"$cases/1-make.stdout"
cp "$cases/3-serve" "$cases/2-asm.stdout"
cp "$cases/4-show" "$cases/3-serve.stdout"
cp "$cases/6-serve" "$cases/5-asm.stdout"
cp "$cases/7-show" "$cases/6-serve.stdout"

# What has no file to be compared with is printed, after a line '== NAME'.
if ! (cd "$top/crates/pink" && rt try --cases "$cases") >"$folder/out" 2>"$folder/said"; then
    cat "$folder/out" "$folder/said" >&2
    exit 1
fi
sed -n '/^== 4-show$/,/^== /{/^== /!p;}' "$folder/out" >"$folder/first"
sed -n '/^== 7-show$/,/^== /{/^== /!p;}' "$folder/out" >"$folder/second"
print_sessions "$folder/first" "$folder/second"
