#!/bin/sh
# Measures the program on images of the two worked shapes, (512, 16, 64) and (4096, 64, 512), the second of 134 MB: a serve of Stores
# and 100,000 Retrieves within one epoch of the journal, then on the image that this left a serve without input (load and opening)
# and one of 100,000 Retrieves, next to a plain read and a copy of the file. Commands per second are those of the whole run, with its
# load and opening. An image holds what one epoch takes (a full one needs merges), so a load reads fewer bytes than a copy, which
# copies every page. It is not part of the gate.
#
#   bench/run.sh [FOLDER]        FOLDER holds the files while it runs; a temporary one by default
set -eu

top=$(CDPATH='' cd -- "$(dirname -- "$0")/.." && pwd)
if [ $# -gt 0 ]; then
    folder=$1
    mkdir -p "$folder"
else
    folder=$(mktemp -d)
    trap 'rm -rf "$folder"' EXIT
fi
image=$folder/bench.img
script=$folder/script
retrieves=$folder/retrieves

write_scripts() { # Stores of values of one length, then 100,000 Retrieves of these keys; and these Retrieves alone
    python3 - "$script" "$retrieves" "$1" "$2" <<'PY'
import struct, sys
count, size = int(sys.argv[3]), int(sys.argv[4])
def entry(opcode, cid, key, size):
    body = bytearray(64)
    body[0] = opcode
    struct.pack_into('<HI', body, 2, cid % 65536, 1)
    padded = key + bytes(16 - len(key))
    body[8:16] = padded[:8]
    body[56:64] = padded[8:]
    struct.pack_into('<I', body, 40, size)
    body[44] = len(key)
    return bytes(body)
stores = b''.join(entry(1, i, b'key:%012d' % i, size) + bytes(size) for i in range(count))
retrieves = b''.join(entry(2, i, b'key:%012d' % (i * 7 % count), size) for i in range(100000))
with open(sys.argv[1], 'wb') as script:
    script.write(stores + retrieves)
with open(sys.argv[2], 'wb') as script:
    script.write(retrieves)
PY
}

seconds() { # SOURCE COMMAND..: prints the seconds that a command took with this input; its output is dropped
    python3 - "$@" <<'PY'
import subprocess, sys, time
start = time.monotonic()
source = open(sys.argv[1], 'rb')
status = subprocess.call(sys.argv[2:], stdin=source, stdout=subprocess.DEVNULL)
print('%.3f (status %d)' % (time.monotonic() - start, status))
PY
}

per_second() { # COMMANDS SECONDS
    python3 -c "print(int($1 / float('$2'.split()[0])))"
}

measure() { # PAGE_BYTES BLOCK_PAGES BLOCKS STORES VALUE_BYTES
    rm -f "$image" "$image.copy"
    "$top/pink" "$image" make "$1" "$2" "$3"
    write_scripts "$4" "$5"
    program=$top/pink
    echo "shape ($1, $2, $3), $(wc -c <"$image" | tr -d ' ') bytes; $4 Stores of $5 bytes and 100,000 Retrieves in one session"
    whole=$(seconds "$script" "$program" "$image" serve 36)
    echo "  serve of these commands, seconds:    $whole"
    echo "  commands per second:                 $(per_second $((100000 + $4)) "$whole")"
    echo "the image that it left"
    echo "  cat of the image, seconds:           $(seconds /dev/null cat "$image")"
    echo "  cp of the image, seconds:            $(seconds /dev/null cp --sparse=never "$image" "$image.copy")"
    echo "  load and opening, seconds:           $(seconds /dev/null "$program" "$image" serve 36)"
    whole=$(seconds "$retrieves" "$program" "$image" serve 36)
    echo "  serve of 100,000 Retrieves, seconds: $whole"
    echo "  commands per second:                 $(per_second 100000 "$whole")"
    rm -f "$image" "$image.copy" "$script" "$retrieves"
}

measure 512 16 64 30 400
measure 4096 64 512 250 4000
