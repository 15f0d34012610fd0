#!/bin/sh
# Refuses each allocation of a run in turn, by a library that the program is started with and whose malloc fails once: whatever is
# refused, the run ends with status 7, with nothing taken, posted or written, or as it ends without the refusal, or with 5 or 6 where the
# output or the file failed for lack of memory. Then counts what the program asked for when its drive is open, by shape and frames, beside
# what `pinkctl shapes` prints of it. It is not part of the gate. A C compiler makes the libraries.
#
#   bench/memory.sh
set -eu

top=$(CDPATH='' cd -- "$(dirname -- "$0")/.." && pwd)
folder=$(mktemp -d)
trap 'rm -rf "$folder"' EXIT

"$top/pink" "$folder/first.img" make 512 16 64
cat >"$folder/refuse.c" <<'C'
#define _GNU_SOURCE
#include <dlfcn.h>
#include <errno.h>
#include <stdlib.h>

/* The call with this number is refused, counted from 1 over all that ask for memory. */
static long left = -1;

static int refused(void) {
    if (left < 0) {
        const char *text = getenv("REFUSED");
        left = text ? atol(text) : 0;
    }
    if (left > 0 && --left == 0) {
        errno = ENOMEM;
        return 1;
    }
    return 0;
}

void *malloc(size_t size) {
    static void *(*real)(size_t);
    if (!real) real = (void *(*)(size_t))dlsym(RTLD_NEXT, "malloc");
    return refused() ? NULL : real(size);
}

void *realloc(void *old, size_t size) {
    static void *(*real)(void *, size_t);
    if (!real) real = (void *(*)(void *, size_t))dlsym(RTLD_NEXT, "realloc");
    return refused() ? NULL : real(old, size);
}

void *aligned_alloc(size_t align, size_t size) {
    static void *(*real)(size_t, size_t);
    if (!real) real = (void *(*)(size_t, size_t))dlsym(RTLD_NEXT, "aligned_alloc");
    return refused() ? NULL : real(align, size);
}

int posix_memalign(void **into, size_t align, size_t size) {
    static int (*real)(void **, size_t, size_t);
    if (!real) real = (int (*)(void **, size_t, size_t))dlsym(RTLD_NEXT, "posix_memalign");
    return refused() ? ENOMEM : real(into, align, size);
}
C
cc -shared -fPIC -O1 -o "$folder/refuse.so" "$folder/refuse.c" -ldl
python3 - "${PINK:-$top/crates/pink/out/pink}" "$folder" <<'PY'
import os, struct, subprocess, sys

program, folder = sys.argv[1:]
image = folder + '/drive.img'
STORE, RETRIEVE, RECORD = 0x01, 0x02, 24

def entry(opcode, key=b'', size=0):
    body = bytearray(64)
    body[0] = opcode
    struct.pack_into('<HI', body, 2, 1, 1)
    padded = key + bytes(16 - len(key))
    body[8:16], body[56:64] = padded[:8], padded[8:]
    struct.pack_into('<I', body, 40, size)
    body[44] = len(key)
    return bytes(body)

def content():
    with open(image, 'rb') as file:
        return file.read()

def put(bytes):
    with open(image, 'wb') as file:
        file.write(bytes)

def run(words, text=b'', refused=0):                # the status and the output
    environment = {**os.environ, 'LD_PRELOAD': folder + '/refuse.so', 'REFUSED': str(refused)}
    done = subprocess.run([program, image] + words, input=text, stdout=subprocess.PIPE, env=environment, timeout=60)
    return done.returncode, done.stdout

keys = [b'key%d' % i for i in range(9)]
values = [bytes([i]) * (100 + i) for i in range(8)]
stores = b''.join(entry(STORE, key, len(value)) + value for key, value in zip(keys, values))
asks = b''.join(entry(RETRIEVE, key, 2016) for key in keys)

def held():                                         # the values that a run with all memory finds
    status, told = run(['serve', '36'], asks)
    found, at = [], 0
    while status == 0 and at < len(told):
        size = struct.unpack_from('<I', told, at + 20)[0]
        there = struct.unpack_from('<I', told, at + 12)[0] >> 17 & 255 == 0
        found.append(told[at + RECORD:at + RECORD + size] if there else None)
        at += RECORD + size
    return found

def after(count):                                   # those after this many of the Stores
    return values[:count] + [None] * (len(keys) - count)

with open(folder + '/first.img', 'rb') as file:
    made = file.read()
put(made)
if run(['serve', '36'], stores)[0] != 0 or held() != after(8):
    sys.exit('memory: the Stores failed')
full = content()

print('each allocation of a run refused in turn')
for words, text, before, maps in [
    (['serve', '36'], asks, full, [after(8)]),
    (['serve', '36'], stores, made, [after(i) for i in range(9)]),
    (['serve', '236'], asks, full, [after(8)]),
    (['get', '6b657930'], b'', full, [after(8)]),
    (['put', '6b657938', '6162'], b'', full, [after(8), values + [b'ab']]),
    (['list'], b'', full, [after(8)]),
    (['stat'], b'', full, [after(8)]),
]:
    put(before)
    wanted = run(words, text)
    ends, refused, served = {}, 0, 0
    while served < 60:                              # this many consecutive ones, after the last allocation
        refused += 1
        put(before)
        status, told = run(words, text, refused)
        where = f'memory: {" ".join(words)}, allocation {refused}: status {status}'
        served = served + 1 if status == 0 else 0
        ends[status] = ends.get(status, 0) + 1
        if status == 7 and not (told == b'' and content() == before):
            sys.exit(where + ', and something was done')
        if status not in (0, 5, 6, 7) or status == 0 and told != wanted[1]:
            sys.exit(where)
        if status in (5, 6) and held() not in maps[-(-len(told) // RECORD) if text == stores else 0:]:
            sys.exit(where + ', and the image holds another map')
    print(f'  {" ".join(words)}: of {refused - 60} allocations {ends.get(7, 0)} were refused with status 7, {ends.get(6, 0)} with 6, '
          f'{ends.get(5, 0)} with 5, and {ends[0] - 60} were not needed')
PY

cat >"$folder/count.c" <<'C'
#define _GNU_SOURCE
#include <dlfcn.h>
#include <stdio.h>
#include <stdlib.h>
#include <unistd.h>

/* The pieces that were asked for and not given back, and their bytes. */
enum { MOST = 1 << 18 };
static struct { void *at; size_t size; } pieces[MOST];
static long count;
static size_t bytes;

static void *given(void *at, size_t size) {
    if (at && count < MOST) {
        pieces[count].at = at;
        pieces[count++].size = size;
        bytes += size;
    }
    return at;
}

static void taken(void *at) {
    for (long i = count; i--;) {
        if (pieces[i].at == at) {
            bytes -= pieces[i].size;
            pieces[i] = pieces[--count];
            return;
        }
    }
}

void *malloc(size_t size) {
    static void *(*real)(size_t);
    if (!real) real = (void *(*)(size_t))dlsym(RTLD_NEXT, "malloc");
    return given(real(size), size);
}

void *realloc(void *old, size_t size) {
    static void *(*real)(void *, size_t);
    if (!real) real = (void *(*)(void *, size_t))dlsym(RTLD_NEXT, "realloc");
    taken(old);
    return given(real(old, size), size);
}

void *aligned_alloc(size_t align, size_t size) {
    static void *(*real)(size_t, size_t);
    if (!real) real = (void *(*)(size_t, size_t))dlsym(RTLD_NEXT, "aligned_alloc");
    return given(real(align, size), size);
}

int posix_memalign(void **into, size_t align, size_t size) {
    static int (*real)(void **, size_t, size_t);
    if (!real) real = (int (*)(void **, size_t, size_t))dlsym(RTLD_NEXT, "posix_memalign");
    int failed = real(into, align, size);
    if (!failed) given(*into, size);
    return failed;
}

void free(void *at) {
    static void (*real)(void *);
    if (!real) real = (void (*)(void *))dlsym(RTLD_NEXT, "free");
    taken(at);
    real(at);
}

/* The first read of the input: the drive is open, and the loop has its buffers. */
ssize_t read(int file, void *into, size_t size) {
    static ssize_t (*real)(int, void *, size_t);
    static int told;
    if (!real) real = (ssize_t (*)(int, void *, size_t))dlsym(RTLD_NEXT, "read");
    if (file == 0 && !told) {
        told = 1;
        size_t now = bytes;
        FILE *out = fopen(getenv("COUNTED"), "w");
        if (out) {
            fprintf(out, "%zu\n", now);
            fclose(out);
        }
    }
    return real(file, into, size);
}
C
cc -shared -fPIC -O1 -o "$folder/count.so" "$folder/count.c" -ldl
python3 - "${PINK:-$top/crates/pink/out/pink}" "$folder" "$top/clients/python" <<'PY'
import os, subprocess, sys

program, folder, clients = sys.argv[1:]
sys.path.insert(0, clients)
from pinkctl.layout import Layout, Shape

BESIDES = 2048                                      # paths, words, and what else depends on no shape
counted = folder + '/counted'
environment = {**os.environ, 'LD_PRELOAD': folder + '/count.so', 'COUNTED': counted}
print('what the program asked for when an empty drive is open: bytes, and those that pinkctl shapes prints')
for shape in (512, 16, 64), (1024, 32, 256), (4096, 64, 512), (2048, 32, 4096), (16384, 256, 64), (1024, 32, 3955):
    image = f'{folder}/{shape[0]}-{shape[1]}-{shape[2]}.img'
    subprocess.run([program, image, 'make', *map(str, shape)], check=True)
    layout, first = Layout(Shape(*shape)), None
    for frames in 0, 36, 520:
        subprocess.run([program, image, 'serve', str(frames)], stdin=subprocess.DEVNULL, env=environment, check=True, timeout=60)
        with open(counted) as file:
            found = int(file.read())
        told = layout.program_memory(frames)
        print(f'  {shape}, {frames} frames: {found:,}; {told:,}')
        first = found if first is None else first
        if not 0 <= found - told <= BESIDES or found - first != layout.memory(frames) - layout.memory(0):
            sys.exit(f'memory: {shape} with {frames} frames takes {found} bytes, and {told} are told')
    os.remove(image)
PY
