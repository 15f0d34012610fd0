#!/bin/sh
# Measures freezes and merges: Stores of distinct keys, of two pages each, on an image of shape (4096, 64, 512), until all four levels
# have merged; then a Retrieve of each key with 36 frames and with none. It prints Stores per second, flash operations per Store, and
# the mean and the greatest number of pages that a Retrieve read. It is not part of the gate.
#
#   bench/merges.sh [KEYS]        11,500 keys by default; operations are counted by strace, if that is installed
set -eu

top=$(CDPATH='' cd -- "$(dirname -- "$0")/.." && pwd)
folder=$(mktemp -d)
trap 'rm -rf "$folder"' EXIT

"$top/pink" "$folder/drive.img" make 4096 64 512
PYTHONPATH=$top/bench python3 - "$top/crates/pink/out/pink" "$folder" "${1:-11500}" <<'PY'
import os, shutil, struct, subprocess, sys, time
from states import counted

program, folder, keys = sys.argv[1], sys.argv[2], int(sys.argv[3])
STORE, RETRIEVE, REPORT, SIZE, RECORD = 0x01, 0x02, 0xc2, 1000, 24
image, trace = os.path.join(folder, 'drive.img'), os.path.join(folder, 'trace')
NAMES = 'live limit keys pinned frames leased active frozen run1 run2 run3 run4 epoch blocks ready merge'.split()

def entry(opcode, number, key, size):
    body = bytearray(64)
    body[0] = opcode
    struct.pack_into('<HI', body, 2, number % 65536, 1)
    padded = key + bytes(16 - len(key))
    body[8:16], body[56:64] = padded[:8], padded[8:]
    struct.pack_into('<I', body, 40, size)
    body[44] = len(key)
    return bytes(body)

def serve(script, frames, wrapper=()):
    start = time.monotonic()
    done = subprocess.run([*wrapper, program, image, 'serve', str(frames)], input=script, stdout=subprocess.PIPE)
    if done.returncode != 0:
        sys.exit('status %d' % done.returncode)
    return done.stdout, time.monotonic() - start

def records(posted):
    at = 0
    while at < len(posted):
        result, _, _, _, reads, size = struct.unpack_from('<6I', posted, at)
        status = (struct.unpack_from('<I', posted, at + 12)[0] >> 17) & 255
        yield status, reads, posted[at + RECORD:at + RECORD + size]
        at += RECORD + size

names = [b'key:%012d' % (i * 7919 % keys) for i in range(keys)]
stores = b''.join(entry(STORE, i, name, SIZE) + bytes(SIZE) for i, name in enumerate(names))
report = entry(REPORT, 0, b'', 0)
shutil.copy(image, image + '.made')
posted, seconds = serve(stores + report, 36)
told = list(records(posted))
if any(status for status, _, _ in told):
    sys.exit('a Store was refused')
reads = [pages for _, pages, _ in told[:-1]]
print('%d Stores of %d bytes: %.2f seconds, %d a second' % (keys, SIZE, seconds, keys / seconds))
print('  reads of a Store: mean %.2f, greatest %d' % (sum(reads) / keys, max(reads)))
numbers = struct.unpack('<16I', told[-1][2])
print('  ' + ', '.join('%s %d' % pair for pair in zip(NAMES, numbers)))
if shutil.which('strace'):
    done = image + '.done'
    shutil.move(image, done)
    shutil.copy(image + '.made', image)
    serve(stores, 36, ['strace', '-f', '-o', trace, '-e', 'trace=pwrite64'])
    programs, erases = (sum(it) for it in zip(*(counted(line, 64 * 512, 64) for line in open(trace, errors='replace'))))
    print('  programs of a Store: %.3f; erases: %.3f; flash operations: %.2f' % (programs / keys, erases / keys, (programs + erases + sum(reads)) / keys))
    shutil.move(done, image)
for frames in (36, 0):
    posted, seconds = serve(b''.join(entry(RETRIEVE, i, name, SIZE) for i, name in enumerate(names)), frames)
    reads = [pages for status, pages, data in records(posted) if status == 0 and len(data) == SIZE]
    if len(reads) != keys:
        sys.exit('a key is missing')
    print('%d Retrieves with %d frames: mean reads %.2f, greatest %d; %d a second' % (keys, frames, sum(reads) / keys, max(reads), keys / seconds))
PY
