# What a pair of images holds, by the program's own words on each of them.
# shellcheck shell=sh

keys_of() { # PROGRAM IMAGE: the keys of namespace 1; prints nothing if the drive does not open
    # An image of the name mirror would be taken for the word of a pair.
    place=$2
    [ "$place" != mirror ] || place=./mirror
    "$1" "$place" stat 2>/dev/null </dev/null | sed -n 's/^keys //p'
}

# Each word of a pair deletes from the second drive what the first lacks. So a new first drive beside the one that is left of a broken
# pair would lose everything at the next word, also at one that reads.
empty_first() { # PROGRAM IMAGE IMAGE WORDS..: why the word is refused; prints nothing if the first drive has a key or the second has none
    [ -n "${4:-}" ] && [ "${PINK_FROM_EMPTY:-0}" != 1 ] && [ "$(keys_of "$1" "$2")" = 0 ] || return 0
    count=$(keys_of "$1" "$3")
    [ "${count:-0}" -gt 0 ] || return 0
    echo "$2 has no key and $3 has $count, which this word would delete: if $3 is what is left of the pair, name it first:" \
        "pink mirror $3 $2 resync; PINK_FROM_EMPTY=1 in the environment lets the word through"
}
