#!/bin/sh
# Tries a drive with spare blocks on a file in which some places cannot be written. The program is started with a library that refuses
# writes of the image between named places, as a disk with bad sectors does. It proves nothing and is no part of the gate; a C compiler
# makes the library. It ends with a count, and with 1 if a check failed.
#
#   bench/spared.sh [TIMES]        TIMES drives with up to four bad blocks each, 20 by default, then one with more than its spare blocks
#
# Words and sessions store and delete values until every bad block was written. Each answer has to be that of a drive without a fault,
# and the content has to be the same when the drive is opened without the library. If all spare blocks are used the status is 6, and
# what was answered before is there. pinkdump prints the used spare blocks as the newest table in the file has them.
set -eu

top=$(CDPATH='' cd -- "$(dirname -- "$0")/.." && pwd)
folder=$(mktemp -d)
trap 'rm -rf "$folder"' EXIT
program=${PINK:-$top/crates/pink/out/pink}
[ -x "$program" ] || { "$top/pink" 2>/dev/null || true; }
dump=${PINKDUMP:-$top/crates/pinkdump/out/pinkdump}
[ -x "$dump" ] || { "$top/pinkdump" 2>/dev/null || true; }

cat >"$folder/bad.c" <<'C'
#define _GNU_SOURCE
#include <dlfcn.h>
#include <errno.h>
#include <stdlib.h>
#include <unistd.h>

/* BAD names places of the image as FROM-TO, divided by commas: a write of any byte of them fails. */
static int is_bad(off_t at, size_t len) {
    const char *text = getenv("BAD");
    while (text && *text) {
        char *end;
        long from = strtol(text, &end, 10);
        long to = strtol(end + 1, &end, 10);
        if (at < to && (off_t)(at + len) > from) return 1;
        text = *end == ',' ? end + 1 : end;
    }
    return 0;
}

static ssize_t write_at(const char *name, int fd, const void *bytes, size_t len, off_t at) {
    ssize_t (*real)(int, const void *, size_t, off_t) = (ssize_t (*)(int, const void *, size_t, off_t))dlsym(RTLD_NEXT, name);
    if (is_bad(at, len)) {
        errno = EIO;
        return -1;
    }
    return real(fd, bytes, len, at);
}

ssize_t pwrite(int fd, const void *bytes, size_t len, off_t at) { return write_at("pwrite", fd, bytes, len, at); }
ssize_t pwrite64(int fd, const void *bytes, size_t len, off_t at) { return write_at("pwrite64", fd, bytes, len, at); }
C
cc -shared -fPIC -O1 -o "$folder/bad.so" "$folder/bad.c" -ldl

python3 - "$program" "$dump" "$folder" "${1:-20}" <<'PY'
import os, random, subprocess, sys

program, dump, folder, times = sys.argv[1], sys.argv[2], sys.argv[3], int(sys.argv[4])
image = folder + '/d.img'
PAGE, PAGES, BLOCKS, SPARES = 512, 16, 64, 4
INNER = BLOCKS + SPARES + 2
FIRST_PAGE = 32 + INNER * PAGES                         # the state bytes come before the pages
failures, checks, moved = [], 0, 0

def run(words, bad=()):                                 # status and text, with these blocks bad
    environment = dict(os.environ)
    if bad:
        size = PAGES * PAGE
        places = ','.join(f'{FIRST_PAGE + b * size}-{FIRST_PAGE + (b + 1) * size}' for b in bad)
        environment.update(LD_PRELOAD=folder + '/bad.so', BAD=places)
    done = subprocess.run([program, image, 'spared', str(SPARES), *words], capture_output=True, env=environment, stdin=subprocess.DEVNULL)
    return done.returncode, done.stdout.decode()

def expect(what, found, wanted):
    global checks
    checks += 1
    if found != wanted:
        failures.append(f'{what}: {found!r} and not {wanted!r}')
        print('FAILED', failures[-1])

def used():                                             # the used spare blocks of the newest table
    data = open(image, 'rb').read()
    tables = [data[at:at + PAGE] for at in range(FIRST_PAGE + (BLOCKS + SPARES) * PAGES * PAGE, len(data), PAGE)]
    tables = [table for table in tables if table.startswith(b'PINKSPAR')]
    newest = max(tables, key=lambda table: int.from_bytes(table[8:16], 'little'))
    count = int.from_bytes(newest[26:28], 'little')
    return [int.from_bytes(newest[32 + 2 * i:34 + 2 * i], 'little') for i in range(count)]

def told():                                             # the used spare blocks, as pinkdump prints them
    done = subprocess.run([dump, image, 'spared', str(SPARES), 'lines'], capture_output=True)
    lines = [line.split() for line in done.stdout.decode().splitlines()]
    rows = [dict(it.split('=') for it in fields) for name, *fields in lines if name == 'spare']
    expect('the numbers of spare blocks', [int(it['number']) for it in rows], list(range(len(rows))))
    expect('the places of spare blocks', [int(it['block']) for it in rows], [BLOCKS + i for i in range(len(rows))])
    left = [line for line in lines if line[0] == 'spares']
    expect('the spare blocks left', left, [['spares', f'all={SPARES}', f'left={SPARES - len(rows)}']])
    return [0xffff if it['serves'] == 'failed' else int(it['serves']) for it in rows]

def make():
    if os.path.exists(image):
        os.remove(image)
    expect('make', run(['make', str(PAGE), str(PAGES), str(BLOCKS)]), (0, ''))

def check_content(content):                             # without the library
    expect('list', run(['list']), (0, ''.join(f'{key}\n' for key in sorted(content))))
    for key, value in content.items():
        expect('get', run(['get', key]), (0, f'ok {value}\n'))

def step(content, bad):                                 # a word that changes the drive; its status
    key = f'{random.randrange(40):02x}'
    if key in content and random.random() < 0.2:
        status, text = run(['del', key], bad)
        if status == 0:
            expect('del', text, 'ok\n')
            del content[key]
        return status
    value = random.randbytes(random.randrange(1, 1500)).hex()
    status, text = run(['put', key, value], bad)
    if status == 0:
        expect('put', text, 'ok\n')
        content[key] = value
    return status

def drive(seed):                                        # up to four bad blocks
    global moved
    random.seed(seed)
    make()
    bad = random.sample(range(2, 30), random.randrange(1, SPARES + 1))
    content = {}
    for _ in range(120):
        expect('a word', step(content, bad), 0)
    check_content(content)
    expect('what pinkdump prints', told(), used())
    for block in used():
        expect('a block that was moved', block in bad, True)
        moved += 1

def used_up():                                          # more bad blocks than spare ones, and the spare ones among them
    random.seed(0)
    make()
    content, status = {}, 0
    bad = list(range(6, BLOCKS + SPARES))
    for _ in range(120):
        status = step(content, bad)
        if status:
            break
    expect('the status with all spare blocks used', status, 6)
    expect('list', run(['list'])[0], 0)
    for key, value in content.items():
        expect('get', run(['get', key]), (0, f'ok {value}\n'))
    expect('what pinkdump prints', told(), used())

for seed in range(times):
    drive(seed)
used_up()
if not moved:
    failures.append('no block was moved')
print(f'{checks} checks passed, {moved} blocks moved' if not failures else f'{len(failures)} FAILED of {checks}')
sys.exit(1 if failures else 0)
PY
