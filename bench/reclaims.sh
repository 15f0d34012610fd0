#!/bin/sh
# Measures reclaims: an image of shape (4096, 64, 512) on which a part of the space that values may have is live, and then overwrites of
# single keys in an order that is the same each time. It prints programs and erases of the flash per Store, Stores per second, and the
# longest command in flash operations: with one Store after another, and with background steps between them. It is not part of the gate.
#
#   bench/reclaims.sh [STORES]      20,000 overwrites by default; operations are counted by strace
set -eu

top=$(CDPATH='' cd -- "$(dirname -- "$0")/.." && pwd)
command -v strace >/dev/null || { echo "strace is not installed" >&2; exit 1; }
folder=$(mktemp -d)
trap 'rm -rf "$folder"' EXIT

"$top/pink" "$folder/made.img" make 4096 64 512
PYTHONPATH=$top/bench python3 - "$top/crates/pink/out/pink" "$folder" "${1:-20000}" <<'PY'
import os, random, re, shutil, struct, subprocess, sys, time
from states import counted

program, folder, stores = sys.argv[1], sys.argv[2], int(sys.argv[3])
STORE, FLUSH, TICK, REPORT, SIZE, RECORD, PAGE = 0x01, 0x00, 0xc0, 0xc2, 1000, 24, 4096
image, trace = os.path.join(folder, 'drive.img'), os.path.join(folder, 'trace')

def entry(opcode, key, size):
    body = bytearray(64)
    body[0] = opcode
    struct.pack_into('<I', body, 4, 1)
    padded = key + bytes(16 - len(key))
    body[8:16], body[56:64] = padded[:8], padded[8:]
    struct.pack_into('<I', body, 40, size)
    body[44] = len(key)
    return bytes(body)

def serve(script, wrapper=()):
    start = time.monotonic()
    done = subprocess.run([*wrapper, program, image, 'serve', '36'], input=script, stdout=subprocess.PIPE)
    if done.returncode != 0:
        sys.exit('status %d' % done.returncode)
    return done.stdout, time.monotonic() - start

def records(posted):
    at = 0
    while at < len(posted):
        size = struct.unpack_from('<I', posted, at + 20)[0]
        status = (struct.unpack_from('<I', posted, at + 12)[0] >> 17) & 255
        yield status, struct.unpack_from('<I', posted, at + 16)[0], posted[at + RECORD:at + RECORD + size]
        at += RECORD + size

def store(key, seed):
    return entry(STORE, b'key:%012d' % key, SIZE) + bytes([seed % 256]) * SIZE

# The lines of the trace between two posts: the writes of pages and of the states of a block.
def calls_between_posts():
    longest = programs = erases = 0
    now = 0
    for line in open(trace, errors='replace'):
        if re.search(r'\bwrite\(1,', line):
            longest, now = max(longest, now), 0
        made, cleared = counted(line, 64 * 512, 64)
        programs, erases, now = programs + made, erases + cleared, now + made + cleared
    return programs, erases, longest

shutil.copy(os.path.join(folder, 'made.img'), image)
posted, _ = serve(entry(REPORT, b'', 0))
limit = struct.unpack('<16I', list(records(posted))[-1][2])[1]
for share in (80, 100):
    keys = limit * share // 200                     # a value takes two pages
    shutil.copy(os.path.join(folder, 'made.img'), image)
    posted, _ = serve(b''.join(store(key, 0) for key in range(keys)))
    if any(status for status, _, _ in records(posted)):
        sys.exit('a Store was refused')
    full = image + '.full'
    shutil.copy(image, full)
    _, opening = serve(b'')
    print('%d %% of %d pages live: %d keys of %d bytes' % (share, limit, keys, SIZE))
    for name, ticks, flushes in (('one after another', 0, False), ('each after a Flush', 0, True), ('with 8 background steps before each', 8, True)):
        shutil.copy(full, image)
        chosen = random.Random(7)
        script = []
        for seed in range(stores):
            if ticks:
                script.append(entry(TICK, b'', ticks))
            script.append(store(chosen.randrange(keys), seed))
            if flushes:
                script.append(entry(FLUSH, b'', 0))
        posted, seconds = serve(b''.join(script))
        if any(status for status, _, _ in records(posted)):
            sys.exit('a command was refused')
        reads = max(pages for _, pages, _ in records(posted))
        shutil.copy(full, image)
        serve(b''.join(script), ['strace', '-f', '-o', trace, '-e', 'trace=pwrite64,write'])
        programs, erases, longest = calls_between_posts()
        print('  %s: programs of a Store %.2f, erases %.3f; %d Stores a second after opening; between two posts at most %d programs and erases; of a command at most %d reads' % (name, programs / stores, erases / stores, stores / max(seconds - opening, 0.01), longest, reads))
PY
