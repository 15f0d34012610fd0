#!/bin/sh
# Tries a mirrored pair over the built program. It proves nothing and is no part of the gate. It ends with a count, and with 1 if a
# check failed.
#
#   bench/mirror.sh [TIMES]        kills this many sessions, 300 if no number is named; then tries images that are lost
#   bench/mirror.sh speed          the processor time of words over a pair and over one drive, and of resyncs of 10,000 keys
#
# Kills: words of a pair, each killed at a random moment. After each the next run has to answer, with every word that was completed
# and with all or nothing of the one that was killed, and both drives hold the same. Now and then the second drive is a new one.
# Images: one is damaged, missing, of another shape or open in another process. The status has to say so, and both stay as they were.
set -eu

top=$(CDPATH='' cd -- "$(dirname -- "$0")/.." && pwd)
folder=$(mktemp -d)
trap 'rm -rf "$folder"' EXIT
program=${PINK:-$top/crates/pink/out/pink}
[ -x "$program" ] || { "$top/pink" 2>/dev/null || true; }

python3 - "$program" "$folder" "${1:-300}" <<'PY'
import fcntl, os, random, resource, shutil, struct, subprocess, sys, time

program, folder, task = sys.argv[1:4]
first, second = folder + '/a.img', folder + '/b.img'
failures = []
checks = 0

def run(*words, seconds=None, data=None):               # status and text; None if it was killed
    with open(folder + '/text', 'wb') as text:
        process = subprocess.Popen([program, *words], stdin=subprocess.PIPE if data is not None else subprocess.DEVNULL, stdout=text)
        try:
            if data is not None:
                process.communicate(data)
            status = process.wait(timeout=seconds)
        except subprocess.TimeoutExpired:
            process.kill()
            process.wait()
            status = None
    with open(folder + '/text', 'rb') as text:
        return status, text.read().decode(errors='replace')

def pair(*words, **more):
    return run('mirror', first, second, *words, **more)

def expect(what, found, wanted):
    global checks
    checks += 1
    if found != wanted:
        failures.append(f'{what}: {found!r} and not {wanted!r}')
        print('FAILED', failures[-1])

def make(image, shape=('512', '16', '64')):
    if os.path.exists(image):
        os.remove(image)
    expect('make', run(image, 'make', *shape)[0], 0)

def content(image):                                     # of one drive alone
    status, text = run(image, 'list')
    expect('list', status, 0)
    return {key: run(image, 'get', key)[1] for key in text.split()}

def digits(value):
    return value.hex() or '-'

# ---- kills

def kills(times):
    make(first)
    make(second)
    keys = [b'k%d' % i for i in range(8)]
    held, killed, completed, most = {}, 0, 0, 0.2
    for turn in range(times):
        key, value = random.choice(keys), random.randbytes(random.choice([0, 1, 40, 600, 2000]))
        word = random.choice(['put', 'put', 'put', 'del', 'resync'])
        after = dict(held)
        if word == 'put':
            words, after[key.hex()] = ('put', key.hex(), digits(value)), 'ok ' + digits(value) + '\n'
        elif word == 'del':
            words = ('del', key.hex())
            after.pop(key.hex(), None)
        else:
            words = ('resync',)
        if random.random() < 0.1:                       # a second drive that was replaced
            make(second)
        began = time.monotonic()
        status, text = pair(*words, seconds=random.uniform(0, most))
        if status is None:
            killed += 1
        else:
            most = max(0.02, min(most, 1.5 * (time.monotonic() - began)))
            completed += 1
            expect('status', status, 0)
        told = text.startswith('ok')                    # or that a key was missing, which changes nothing
        one, two = content(first), None
        if told or status == 0:
            expect('first after a completed word', one, after)
        elif one != held:
            expect('first after a word that was killed', one, after)
        content(second)                                 # it holds some map
        expect('resync', pair('resync'), (0, 'ok\n'))
        expect('second after a resync', content(second), one)
        expect('first after a resync', content(first), one)
        held = one
    print(f'{times} sessions: {killed} killed, {completed} completed')

# ---- images that are lost

def images():
    make(first)
    make(second)
    expect('put', pair('put', '61', '616263'), (0, 'ok\n'))
    kept = content(first)

    def stays(what, change, wanted, words=('put', '62', '00')):
        for image, other in ((first, second), (second, first)):
            saved = [folder + '/saved.a', folder + '/saved.b']
            shutil.copy(first, saved[0])
            shutil.copy(second, saved[1])
            release = change(image)
            before = [open(it, 'rb').read() if os.path.exists(it) else None for it in (first, second)]
            status, text = pair(*words)
            expect(what, (status, text), (wanted, ''))
            now = [open(it, 'rb').read() if os.path.exists(it) else None for it in (first, second)]
            expect(what + ': bytes', [a == b for a, b in zip(before, now)], [True, True])
            if release:
                release()
            shutil.copy(saved[0], first)
            shutil.copy(saved[1], second)

    def missing(image):
        os.remove(image)

    def damaged(image):                                 # its first 64 bytes, which have the shape
        with open(image, 'r+b') as file:
            file.write(bytes(64))

    def shaped(image):
        make(image, ('512', '8', '33'))

    def opened(image):                                  # as a running program has it
        file = open(image, 'r+b')
        fcntl.flock(file, fcntl.LOCK_EX)
        return file.close

    stays('a missing image', missing, 8)
    stays('a damaged image', damaged, 8)
    stays('an image of another shape', shaped, 8)
    def no_map(image):                                  # each page is torn, so there is no root
        with open(image, 'r+b') as file:
            file.seek(32)
            file.write(bytes([2]) * 1024)

    stays('an image in use', opened, 6)
    stays('an image without a map', no_map, 8)
    stays('a missing image, read', missing, 8, ('get', '61'))
    for words in ((), ('mirror',), ('mirror', first), ('mirror', first, second), ('mirror', first, first, 'list'),
                  ('mirror', 'mirror', second, 'list'), ('mirror', first, second, 'stat'), ('mirror', first, second, 'list', '61'),
                  ('mirror', first, second, 'make', '512', '16', '64'), ('mirror', first, second, 'resync', '61')):
        expect('words ' + ' '.join(words), run(*words), (2, ''))
    expect('first', content(first), kept)
    expect('second', content(second), kept)
    expect('get', pair('get', '61'), (0, 'ok 616263\n'))
    expect('get of a missing key', pair('get', '62'), (0, 'refused 87\n'))
    expect('del', pair('del', '61'), (0, 'ok\n'))
    expect('del of a missing key', pair('del', '61'), (0, 'refused 87\n'))
    expect('list', pair('list'), (0, ''))
    print('images that are lost: done')

# ---- speed

def script(count, length):
    parts = []
    for i in range(count):
        key = struct.pack('>I', i)
        entry = bytearray(64)
        entry[0] = 1
        struct.pack_into('<HI', entry, 2, 1, 1)
        entry[8:12] = key
        struct.pack_into('<I', entry, 40, length)
        entry[44] = 4
        parts.append(bytes(entry) + bytes(random.randbytes(length)))
    return b''.join(parts)

def processor():                                        # seconds that the runs so far took, of program and system
    used = resource.getrusage(resource.RUSAGE_CHILDREN)
    return used.ru_utime + used.ru_stime

def timed(what, *words, turns=3, text=None):
    best = None
    for turn in range(turns):
        began = processor()
        answer = run(*words)
        spent = processor() - began
        expect(what, answer if text else answer[0], (0, text) if text else 0)
        best = spent if best is None else min(best, spent)
    print(f'{what}: {best * 1000:.0f} ms')

def speed():
    shape = ('4096', '64', '512')
    make(first, shape)
    make(second, shape)
    timed('put, one empty drive', first, 'put', '61', '616263')
    timed('put, an empty pair', 'mirror', first, second, 'put', '61', '616263')
    timed('get, one drive of a key', first, 'get', '61')
    timed('get, a pair of a key', 'mirror', first, second, 'get', '61')
    expect('fill', run(first, 'serve', '36', data=script(10000, 100))[0], 0)
    timed('resync of 10,000 keys to an empty second', 'mirror', first, second, 'resync', turns=1, text='ok\n')
    timed('resync of 10,000 equal keys', 'mirror', first, second, 'resync')
    timed('put, one drive of 10,000 keys', first, 'put', '61', '616263')
    timed('put, a pair of 10,000 keys', 'mirror', first, second, 'put', '61', '616263')
    timed('get, one drive of 10,000 keys', first, 'get', '61')
    timed('get, a pair of 10,000 keys', 'mirror', first, second, 'get', '61')

if task == 'speed':
    speed()
else:
    kills(int(task))
    images()
print(f'mirror.sh: {checks - len(failures)} of {checks} checks passed')
sys.exit(1 if failures else 0)
PY
