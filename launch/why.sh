# Why a program ended with a status, as far as its words, the image file and the system show it.
# shellcheck shell=sh

why() { # NAME STATUS IMAGE WORDS..
    name=$1
    status=$2
    shift 2
    if [ "$name" = pink ] && [ "$1" = mirror ]; then
        shift
        fault=$(pair_fault "$status" "$@")
        [ -z "$fault" ] || { echo "$fault" && return; }
    fi
    case $status in
        2) if [ "$name" = pink ]; then words_fault "$@"; else echo "the words are IMAGE or IMAGE spared S, and lines after them or not"; fi ;;
        3) input_cut "${2:-}" ;;
        4) if [ -d /dev/fd/0 ]; then echo "the input is a folder"; else echo "reading the input failed"; fi ;;
        5) echo "writing the output failed (is its disk full?)" ;;
        6) flash_fault "$1" "${2:-}" ;;
        7) echo "there was not enough memory; nothing was taken from the input" ;;
        8) if [ "${2:-}" = spared ]; then image_fault "$1" "${4:-}" "${3:-}"; else image_fault "$1" "${2:-}"; fi ;;
        9) echo "there is an image already: remove $1, or name another file" ;;
        10) echo "the drive is worn, or 2^32-1 entries were taken" ;;
        12) bad_line ;;
        *)
            if [ "$status" -gt 128 ]; then
                echo "ended by signal $((status - 128)); what was answered is on the flash"
            else
                echo "which the program has not (docs/COMMANDS.md)"
            fi
            ;;
    esac
}

# Words outside the table.

is_number() { # WORD: decimal digits without a leading zero, at most 4,294,967,295
    case $1 in
        0) return 0 ;;
        '' | 0* | *[!0-9]*) return 1 ;;
    esac
    [ ${#1} -le 10 ] && [ "$1" -le 4294967295 ]
}

is_hexadecimal() { # WORD: an even count of digits, at least 2
    case $1 in
        '' | *[!0-9a-fA-F]*) return 1 ;;
    esac
    [ $((${#1} % 2)) -eq 0 ]
}

key_fault() { # WORD: prints nothing if it is a key
    if ! is_hexadecimal "$1"; then
        echo "the key '$1' is not an even count of hexadecimal digits (the key abc is 616263)"
    elif [ ${#1} -gt 32 ]; then
        echo "the key has $((${#1} / 2)) bytes; at most 16 are allowed"
    fi
}

count_index() { # P N M: sets `held`, the entries of a page, `quarters`, and `index`, the blocks of the index
    held=$((($1 - 32) / 32))
    quarters=$((3 * $2 / 4))
    # the blocks of runs of 4, 16 and 64 pages and of the last run, and of the longer of the last two again
    last=$(((($3 * quarters + held - 1) / held + 24 + $2 - 1) / $2))
    third=$(((64 + $2 - 1) / $2))
    longer=$((last > third ? last : third))
    index=$(((4 + $2 - 1) / $2 + (16 + $2 - 1) / $2 + third + last + longer))
}

shape_fault() { # P N M: the first rule of docs/FORMATS.md that they break; nothing if they break none
    case $1 in
        512 | 1024 | 2048 | 4096 | 8192 | 16384) ;;
        *) echo "a page has 512, 1024, 2048, 4096, 8192 or 16384 bytes, not $1" && return ;;
    esac
    case $2 in
        8 | 16 | 32 | 64 | 128 | 256) ;;
        *) echo "a block has 8, 16, 32, 64, 128 or 256 pages, not $2" && return ;;
    esac
    count_index "$@"
    if [ "$quarters" -gt "$held" ]; then
        echo "with pages of $1 bytes a block has fewer than $2 pages"
    elif [ "$3" -gt 4096 ]; then
        echo "a drive has at most 4096 blocks, not $3"
    elif [ $(($1 * $2 * $3)) -gt 268435456 ]; then
        echo "a drive has at most 256 MiB (268435456 bytes), not $(($1 * $2 * $3)) bytes"
    elif [ $((64 + 2 * (index + 4))) -gt "$1" ]; then
        echo "a root with $((index + 4)) block numbers does not fit a page of $1 bytes"
    elif [ "$3" -lt $((9 + index)) ]; then
        echo "a drive of this page and block has at least $((9 + index)) blocks, not $3"
    fi
}

limits_fault() { # P N M LIMITS..: the first rule of docs/FORMATS.md that limits of an allowed shape break
    count_index "$1" "$2" "$3"
    most=$((($3 - 7 - index) * quarters)) page=$1
    shift 3
    if [ $# -gt 8 ]; then
        echo "a drive has at most 8 namespaces, not $#" && return
    fi
    sum=0
    for limit; do
        [ "$limit" -gt 0 ] || { echo "a namespace has a limit of at least one page" && return; }
        sum=$((sum + limit))
    done
    if [ "$sum" -gt "$most" ]; then
        echo "the limits are together $sum pages; this drive has $most"
    elif [ $((96 + 2 * (index + 4))) -gt "$page" ]; then
        echo "a root with limits does not fit a page of $page bytes"
    fi
}

spared_fault() { # IMAGE spared S WORDS..
    spares=${3:-}
    word=${4:-}
    if ! is_number "$spares" || [ "$spares" -lt 1 ] || [ "$spares" -gt 64 ]; then
        echo "spared takes 1 to 64 spare blocks and a word, and was given '$spares'"
        return
    fi
    shift $(($# < 4 ? $# : 4))
    case $word in
        make)
            fault=$(operands_fault make "$@")
            echo "${fault:-with $spares spare blocks and two of tables: $(shape_fault "$1" "$2" $(($3 + spares + 2)))}"
            ;;
        serve | put | get | del | has | list | stat | gen) operands_fault "$word" "$@" ;;
        '') echo "spared $spares takes a word after it: make serve put get del has list stat gen" ;;
        *) echo "there is no word '$word' for a drive with spare blocks; the words are make serve put get del has list stat gen" ;;
    esac
}

words_fault() { # IMAGE WORDS..
    image=$1
    word=${2:-}
    known='make serve asm show put get del has list stat gen spared'
    if [ "$word" = spared ]; then
        spared_fault "$@"
        return
    fi
    shift 2
    case " $known " in
        *" $word "*) ;;
        *)
            case " $known " in
                *" $image "*) echo "the image comes first: pink IMAGE $image .." ;;
                *) echo "there is no word '$word'; the words are $known" ;;
            esac
            return
            ;;
    esac
    operands_fault "$word" "$@"
}

operands_fault() { # WORD OPERANDS..
    word=$1
    shift
    case $word in
        make) wanted=$(($# > 3 ? $# : 3)) operands='P N M and at most 8 limits' ;;
        serve) wanted=1 operands=FRAMES ;;
        put) wanted=2 operands='KEY BYTES' ;;
        gen) wanted=2 operands='START COUNT' ;;
        get | del | has) wanted=1 operands=KEY ;;
        list) wanted=1 operands='a KEY or nothing' ;;
        *) wanted=0 operands='no more words' ;;
    esac
    if [ $# -ne "$wanted" ]; then
        given="$# words"
        [ $# -ne 1 ] || given='1 word'
        echo "$word takes $operands, and was given $given"
        return
    fi
    case $word in
        make | serve | gen)
            for number; do
                is_number "$number" || { echo "'$number' is no number: digits without a leading zero, at most 4294967295" && return; }
            done
            ;;
    esac
    case $word in
        make)
            fault=$(shape_fault "$1" "$2" "$3")
            echo "${fault:-$(limits_fault "$@")}"
            ;;
        serve) echo "there are at most 16384 frames, not $1" ;;
        get | del | has | list) key_fault "$1" ;;
        put)
            fault=$(key_fault "$1")
            echo "${fault:-the value is not - or an even count of hexadecimal digits (the bytes abc are 616263)}"
            ;;
        *) echo "the words are none of those that it knows (docs/COMMANDS.md)" ;;
    esac
}

# A pair of images.

pair_fault() { # STATUS IMAGE IMAGE WORDS..: prints nothing if it has no more to say than of one image
    case $1 in
        2)
            shift
            pair_words_fault "$@"
            ;;
        6)
            # shellcheck disable=SC3013  # dash, bash and BusyBox have it
            if [ "$2" -ef "$3" ]; then echo "both images are one file: $2 and $3" && return; fi
            fault=$(seen 6 "$2" mirror || open_fault "$2" list)
            [ -n "$fault" ] || fault=$(seen 6 "$3" mirror || open_fault "$3" list)
            echo "${fault:-a read or write of an image failed, or another process had it open}"
            ;;
        8) pair_shape_fault "$2" "$3" ;;
        10) echo "a drive of the pair is worn" ;;
    esac
}

pair_words_fault() { # IMAGE IMAGE WORDS..
    known='put get del list resync'
    for image in "${1:-}" "${2:-}"; do
        case " $known " in
            *" $image "*) echo "two images come first: pink mirror IMAGE IMAGE $image .." && return ;;
        esac
    done
    if [ $# -lt 3 ]; then
        echo "mirror takes two images and a word: pink mirror IMAGE IMAGE WORDS.."
        return
    elif [ "$1" = mirror ] || [ "$2" = mirror ]; then
        echo "an image of a pair cannot be named mirror; ./mirror can"
        return
    elif [ "$1" = "$2" ]; then
        echo "both images are $1"
        return
    fi
    word=$3
    shift 3
    case $word in
        list | resync) echo "$word of a pair takes no more words" ;;
        put | get | del) operands_fault "$word" "$@" ;;
        *) echo "there is no word '$word' for a pair; the words are $known" ;;
    esac
}

pair_shape_fault() { # IMAGE IMAGE
    one=$(make_words_of "$1") two=$(make_words_of "$2")
    fault=$(seen 8 "$1" mirror || drive_fault "$1" list)
    if [ -n "$fault" ]; then
        first_lost "$1" "$2" "$fault" "$two"
        return
    fi
    fault=$(seen 8 "$2" mirror || drive_fault "$2" list)
    if [ -n "$fault" ] && [ ! -e "$2" ] && [ -n "$one" ]; then
        fault="${fault%%; pink *}; pink $2 make $one makes one, which the next word of the pair fills"
    elif [ -z "$fault" ] && [ "$one" != "$two" ]; then
        fault="the drives have different shapes or limits: $1 has $one, $2 has $two"
    fi
    echo "${fault:-an image is damaged: see pinkctl check}"
}

# The second drive of a pair decides nothing, so a new first one beside it would empty it.
first_lost() { # IMAGE IMAGE FAULT WORDS: the fault of the first, and how to go on with the second if it opens
    if [ -z "$(keys_of "$(program_of pink)" "$2")" ]; then
        echo "$3"
        return
    fi
    away=
    fault=${3%%; pink *}
    [ ! -e "$1" ] || away="move $1 away, then "
    echo "$fault; the drive that is left is $2, so name it first: ${away}pink $1 make $4, then pink mirror $2 $1 resync"
}

# The input. A file is looked at again from its start; a pipe is gone.

input_cut() { # WORD
    text="the input ends inside an entry, a value or a record; all before it was served"
    if [ -f /dev/fd/0 ] && [ "$1" = serve ]; then
        case $(head -c 4 /dev/fd/0 | tr -d '\0') in
            stor | retr | dele | exis | list | flus | repo | tick | raw\ | '#'*) text="the input is a text: pink IMAGE asm turns it into entries" ;;
        esac
    fi
    echo "$text"
}

bad_line() { # the first line of the input that is outside the grammar
    if [ ! -f /dev/fd/0 ]; then
        echo "a line of the script is outside the grammar; if it is a file, as in asm < script.txt, its number is printed"
        return
    fi
    LC_ALL=C awk -F '[ ]' '
        function hexadecimal(word) { return length(word) % 2 == 0 && word ~ /^[0-9a-fA-F]+$/ }
        function key(word) { return hexadecimal(word) && length(word) <= 32 }
        function bytes(word) { return word == "-" || hexadecimal(word) }
        function number(word) { return word ~ /^(0|[1-9][0-9]*)$/ && length(word) <= 10 && word + 0 <= 4294967295 }
        function known(count) { return NF == count }
        function fault() {
            if ($0 ~ /\r$/) return "it ends with a carriage return"
            if ($0 ~ /\t/) return "it has a tab; words are divided by one blank"
            if ($0 ~ /^ / || $0 ~ /  / || $0 ~ / $/) return "words are divided by one blank, and none comes first or last"
            if (length($0) > 2200000) return "it has more than 2200000 bytes"
            if ($1 !~ /^(store|retrieve|delete|exist|list|flush|report|tick|raw)$/) return "there is no command " substr($1, 1, 20)
            if ($1 == "store") {
                if (NF < 3 || NF > 4) return "store takes KEY BYTES, and if-exists, if-absent or both"
                if (!bytes($3)) return "the bytes are not - or an even count of hexadecimal digits"
                if (NF == 4 && $4 !~ /^(if-exists|if-absent|both)$/) return "the option is none of if-exists, if-absent, both"
            }
            if ($1 ~ /^(retrieve|list)$/ && NF != 3) return $1 " takes KEY SIZE"
            if ($1 ~ /^(delete|exist)$/ && NF != 2) return $1 " takes KEY"
            if ($1 ~ /^(flush|report)$/ && NF != 1) return $1 " takes no more words"
            if ($1 == "tick") return NF == 2 && number($2) ? "" : "tick takes STEPS, a number"
            if ($1 == "raw") return NF == 3 && hexadecimal($2) && length($2) == 128 && bytes($3) ? "" : "raw takes ENTRY, 128 digits, and BYTES"
            if (NF > 1 && !key($2) && !($1 == "list" && $2 == "-")) return "the key is not 2 to 32 hexadecimal digits, an even count"
            if ($1 ~ /^(retrieve|list)$/ && !number($3)) return "the size is no number"
            return ""
        }
        /^#/ || /^$/ { next }
        { why = fault() }
        why != "" { print "line " FNR " of the script: " why; found = 1; exit }
        END { if (!found) print "a line of the script is outside the grammar" }' /dev/fd/0
}

# The image.

user_of() { # IMAGE: the process that has it locked, as the system lists it
    inode=$(ls -diL -- "$1" 2>/dev/null | sed 's/^ *\([0-9]*\) .*$/\1/')
    [ -n "$inode" ] || return 1
    # A list that is read in pieces while it changes may lack an entry, so it is read up to three times.
    for _ in 1 2 3; do
        user=$(sed -n "s/^.*: FLOCK *[A-Z]* *[A-Z]* *\(-*[0-9]*\) [^ ]*:$inode .*$/\1/p" /proc/locks 2>/dev/null | sed -n 1p)
        [ -z "$user" ] || break
    done
    [ -n "$user" ] && echo "$user"
}

file_fault() { # IMAGE WORD: why it cannot be opened; prints nothing if nothing is seen
    folder=$(dirname -- "$1")
    if [ -d "$1" ]; then
        echo "$1 is a folder"
    elif [ ! -d "$folder" ]; then
        echo "there is no folder $folder"
    elif [ -e "$1" ] && { [ ! -r "$1" ] || [ ! -w "$1" ]; }; then
        echo "no permission to read and write $1"
    elif [ ! -e "$1" ] && [ "$2" = make ] && [ ! -w "$folder" ]; then
        echo "no permission to make a file in $folder"
    fi
}

log_of() { # IMAGE: the path of its log, if there is one
    log=$(readlink -f -- "$1" 2>/dev/null || echo "$1")-wal
    if [ -e "$log" ] || [ -L "$log" ]; then echo "$log"; fi
}

names_of() { # FILE: how many names it has
    ls -ldL -- "$1" 2>/dev/null | awk '{ print $2 }'
}

log_fault() { # IMAGE: why its log cannot be opened; prints nothing if nothing is seen
    log=$(log_of "$1")
    [ -n "$log" ] && [ -f "$1" ] || return 0
    if [ ! -f "$log" ] || [ -L "$log" ]; then
        echo "$log, the log of $1, is no file of its own"
    elif [ ! -r "$log" ] || [ ! -w "$log" ]; then
        echo "no permission to read and write $log, the log of $1"
    elif [ "$(names_of "$1")" != 1 ] || [ "$(names_of "$log")" != 1 ]; then
        echo "$1 or $log has several names (hard links), and an image with a log may have one: remove the others"
    fi
}

open_fault() { # IMAGE WORD: why the system does not read or write it; prints nothing if nothing is seen
    if user=$(user_of "$1"); then
        # The process may have ended by now, so that its file is not there.
        words=$({ tr '\0' ' ' <"/proc/$user/cmdline"; } 2>/dev/null | cut -c 1-80 | sed 's/ *$//')
        echo "$1 is in use by process $user${words:+ ($words)}"
        return
    fi
    fault=$(file_fault "$1" "$2")
    [ -n "$fault" ] || fault=$(log_fault "$1")
    if [ -z "$fault" ]; then
        place=$1
        [ -e "$place" ] || place=$(dirname -- "$1")
        free=$(df -Pk -- "$place" 2>/dev/null | awk 'NR == 2 { print $4 }')
        if [ "${free:-64}" -lt 64 ]; then fault="there is no space left on the disk of $1"; fi
    fi
    echo "$fault"
}

flash_fault() { # IMAGE WORD
    fault=$(seen 6 "$1" "$2" || open_fault "$1" "$2")
    echo "${fault:-a read or write of the image failed, or another process had it open}"
}

# The module of pinkctl knows more of images than what follows it here, which is for a system without Python.
seen() { # STATUS IMAGE WORD [S]: what is the matter with the image; fails if nothing is seen, or Python is not there
    command -v python3 >/dev/null 2>&1 || return 1
    python3 -I -B -c 'import sys; sys.path.insert(0, sys.argv[1]); from pinkctl import causes; sys.exit(causes.main(sys.argv[2:]))' \
        "$top/clients/python" "$@" 2>/dev/null
}

spares_of() { # IMAGE: the number of spare blocks in the first table of the last two blocks; prints nothing if there is none
    # shellcheck disable=SC2046  # the three numbers of a shape are words
    set -- "$1" $(shape_of "$1")
    [ $# -eq 4 ] || return
    size=$(($2 * $3 * 2))
    at=$(tail -c "$size" -- "$1" 2>/dev/null | LC_ALL=C grep -abo PINKSPAR 2>/dev/null | sed -n '1s/:.*//p')
    [ -z "$at" ] || tail -c "$size" -- "$1" | od -An -v -tu1 -j $((at + 24)) -N 2 | awk '{ print $1 + $2 * 256 }'
}

spared_image_fault() { # IMAGE S: why it has no drive with S spare blocks, by its tables; prints nothing if nothing is seen
    spares=$(spares_of "$1")
    if [ -z "$spares" ]; then
        [ -z "${2:-}" ] || echo "$1 has no table of spare blocks: it was made without them"
    elif [ -z "${2:-}" ]; then
        echo "$1 has $spares spare blocks: pink $1 spared $spares WORDS.."
    elif [ "$spares" -ne "$2" ]; then
        echo "$1 has $spares spare blocks, not $2"
    fi
}

image_fault() { # IMAGE WORD [S]
    if seen 8 "$1" "$2" "${3:-0}"; then return; fi
    fault=$(drive_fault "$1" "$2")
    [ -n "$fault" ] || fault=$(spared_image_fault "$1" "${3:-}")
    if [ -n "${3:-}" ] && [ "${fault#"there is no file $1;"}" != "$fault" ]; then
        fault="there is no file $1; pink $1 spared $3 make 512 16 64 would make a small drive"
    fi
    hint=
    [ "$2" != make ] || [ ! -e "$1" ] || hint="; remove it, or name another file"
    echo "${fault:-the image is damaged, or its making was broken off; see pinkctl check $1}$hint"
}

drive_fault() { # IMAGE WORD: why there is no drive in it, by its file, its head and its roots; prints nothing if nothing is seen
    fault=$(file_fault "$1" "$2")
    if [ -n "$fault" ]; then
        echo "$fault"
        return
    fi
    if [ ! -e "$1" ]; then
        log=$(log_of "$1")
        if [ -n "$log" ]; then
            echo "there is no file $1, but $log is there, the log of an image that was moved or removed without it"
        else
            echo "there is no file $1; pink $1 make 512 16 64 would make a small drive"
        fi
        return
    fi
    size=$(wc -c <"$1" | tr -d ' ')
    # shellcheck disable=SC2046  # the three numbers of a shape are words
    set -- "$1" $(shape_of "$1")
    if [ $# -ne 4 ]; then
        echo "$1 ($size bytes) is no image of a drive"
        return
    fi
    wanted=$((32 + $3 * $4 * ($2 + 1)))
    if [ "$size" -ne "$wanted" ]; then
        echo "$1 has $size bytes, and by its head it should have $wanted"
        return
    fi
    version=$(version_of "$@")
    case $version in
        '' | 2 | 3) ;;
        *) echo "$1 has version $version of the format, and this program opens versions 2 and 3; docs/LIVING.md says how to move it" ;;
    esac
}

make_words_of() { # IMAGE: the numbers of the make of a drive like it; prints nothing if it has no shape
    # shellcheck disable=SC2046  # the three numbers of a shape are words
    set -- "$1" $(shape_of "$1")
    [ $# -eq 4 ] || return 0
    echo "$2 $3 $4$([ "$(version_of "$@")" != 3 ] || limits_of "$@")"
}

limits_of() { # IMAGE P N M: the limits of its namespaces, each after a blank
    at=$(root_of "$@")
    od -An -v -tu4 -j $((at + 64)) -N 32 -- "$1" | awk -v count="$(od -An -v -tu4 -j $((at + 20)) -N 4 -- "$1")" '
        { for (i = 1; i <= NF && seen < count; i++) { printf " %s", $i; seen++ } }'
}

version_of() { # IMAGE P N M: the version in the first page of its root blocks that begins as a root does; prints nothing if there is none
    at=$(root_of "$@")
    [ -z "$at" ] || od -An -v -tu1 -j $((at + 8)) -N 2 -- "$1" 2>/dev/null | awk '{ print $1 + $2 * 256 }'
}

root_of() { # IMAGE P N M: where the first page of its root blocks that begins as a root does lies in the file; prints nothing if there is none
    head -c $((32 + $3 * $4 + 2 * $2 * $3)) -- "$1" 2>/dev/null | LC_ALL=C grep -abo PINKROOT 2>/dev/null | sed -n '1s/:.*//p'
}

shape_of() { # IMAGE: the bytes of a page, the pages of a block and the blocks, by its head; prints nothing if it has none
    # shellcheck disable=SC2046  # the bytes of the head are words
    set -- $(od -An -v -tu1 -N 32 -- "$1" 2>/dev/null)
    [ "${1:-} ${2:-} ${3:-} ${4:-} ${5:-} ${6:-} ${7:-} ${8:-}" = "80 73 78 75 73 77 71 49" ] || return
    shift 8
    echo "$((${1:-0} + ${2:-0} * 256)) $((${5:-0} + ${6:-0} * 256)) $((${9:-0} + ${10:-0} * 256))"
}
