#!/bin/sh
# Kills the program at random moments of a serve, again and again on the same image, and compares the value of every key after each kill
# with the commands whose record was written: each of them must have been executed, and no part of a command. The commands are Stores,
# Deletes, Flushes and Ticks on two drives, of which the small one reclaims a block with every few Stores. A session that ends before
# its kill is a session and no kill; both are counted. With PINK_SYNC=1 in the environment the program has a log beside the image: what the
# kills leave of it is counted, and how many came within a checkpoint; with the third word all kills wait for one. It is not part of the
# gate.
#
#   bench/kill.sh [TIMES [COMMANDS [checkpoints]]]     TIMES sessions, 300 by default, each of less than COMMANDS commands, 600 by default
set -eu

top=$(CDPATH='' cd -- "$(dirname -- "$0")/.." && pwd)
folder=$(mktemp -d)
trap 'rm -rf "$folder"' EXIT

"$top/pink" "$folder/small.img" make 512 8 33
"$top/pink" "$folder/worked.img" make 512 16 64
python3 - "${PINK:-$top/crates/pink/out/pink}" "$folder" "${1:-300}" "${2:-600}" "${3:-}" <<'PY'
import collections, os, random, struct, subprocess, sys, time

program, folder, times, most = sys.argv[1], sys.argv[2], int(sys.argv[3]), int(sys.argv[4])
waits = sys.argv[5] == 'checkpoints'
FLUSH, STORE, RETRIEVE, DELETE, TICK, RECORD = 0x00, 0x01, 0x02, 0x10, 0xC0, 24

def entry(opcode, key=b'', size=0):
    body = bytearray(64)
    body[0] = opcode
    struct.pack_into('<HI', body, 2, 1, 1)
    padded = key + bytes(16 - len(key))
    body[8:16], body[56:64] = padded[:8], padded[8:]
    struct.pack_into('<I', body, 40, size)
    body[44] = len(key)
    return bytes(body)

class Drive:
    def __init__(self, name, keys, longest, pages, count):
        self.image = f'{folder}/{name}.img'
        self.count = count                              # of all pages
        self.keys = [b'key%02d' % i for i in range(keys)]
        self.longest, self.pages = longest, pages       # of a value, and of all blocks for values
        self.map, self.stored, self.commands, self.kills, self.inside = {}, 0, 0, 0, 0
        self.most = None                                # how long a session takes that is not killed
        self.logs = collections.Counter()               # what kills left of the log

    def command(self):                                  # its bytes, and what it makes of a map
        draw = random.random()
        key = random.choice(self.keys)
        if draw < 0.7:
            value = random.randbytes(random.randrange(self.longest + 1))
            return entry(STORE, key, len(value)) + value, lambda held: {**held, key: value}, 2 * ((32 + len(value) + 1023) // 1024)
        if draw < 0.8:
            return entry(DELETE, key), lambda held: {k: v for k, v in held.items() if k != key}, 0
        if draw < 0.9:
            return entry(TICK, size=random.choice([1, 3, 10, 100])), lambda held: held, 0
        return entry(FLUSH), lambda held: held, 0

    def serve(self, script, seconds):                   # how many bytes of records came out, and whether it was killed
        with open(folder + '/script', 'wb') as file:
            file.write(script)
        with open(folder + '/script', 'rb') as entries, open(folder + '/records', 'wb') as records:
            began = time.monotonic()
            run = subprocess.Popen([program, self.image, 'serve', '36'], stdin=entries, stdout=records)
            try:
                status = run.wait(timeout=seconds)
            except subprocess.TimeoutExpired:
                if waits:
                    self.wait_for_checkpoint(run)
                run.kill()
                status = run.wait()
            spent = time.monotonic() - began
        if status not in (0, -9):
            sys.exit(f'status {status}')
        with open(folder + '/records', 'rb') as records:
            return records.read(), status == -9, spent

    def in_checkpoint(self):                            # a page of the image is being written, and the log has steps
        with open(self.image, 'rb') as file:
            states = os.pread(file.fileno(), self.count, 32)
        return 2 in states and self.log() == 'with steps'

    def wait_for_checkpoint(self, run):                 # and a moment more, so that each part of one is met
        with open(self.image, 'rb') as file:
            image = file.fileno()
            while run.poll() is None:
                if any(2 in os.pread(image, self.count, 32) and os.path.exists(self.image + '-wal') for _ in range(50)):
                    break
        until = time.monotonic() + random.random() * 0.0001
        while time.monotonic() < until:
            pass

    def files(self):                                    # the image, and its log or none
        names = [self.image, self.image + '-wal']
        return [(name, open(name, 'rb').read() if os.path.exists(name) else None) for name in names]

    def put(self, files):
        for name, content in files:
            if content is not None:
                with open(name, 'wb') as file:
                    file.write(content)
            elif os.path.exists(name):
                os.remove(name)

    def log(self):
        name = self.image + '-wal'
        if not os.path.exists(name):
            return 'none'
        with open(name, 'rb') as file:
            head = file.read(17)
        if head[:1] != b'\x50':
            return 'shut'
        return 'with steps' if self.has_steps(name) else 'with no step'

    def has_steps(self, name):                          # it has a batch behind its first
        with open(name, 'rb') as file:
            log = file.read()
        first = 25 + int.from_bytes(log[17:21], 'little')
        return log[first:first + 1] == b'\x01'

    def held(self):
        records, _, _ = self.serve(b''.join(entry(RETRIEVE, key, 2016) for key in self.keys), 60)
        found, at = {}, 0
        for key in self.keys:
            size = struct.unpack_from('<I', records, at + 20)[0]
            if struct.unpack_from('<I', records, at + 12)[0] >> 17 == 0:
                found[key] = records[at + RECORD:at + RECORD + size]
            at += RECORD + size
        return found

    def trial(self, number):
        made = [self.command() for _ in range(random.randrange(1, most))]
        maps = [self.map]                               # after each number of commands
        for _, makes, _ in made:
            maps.append(makes(maps[-1]))
        seconds = 60 if self.most is None else random.random() * 1.3 * self.most
        if waits and self.most is not None:             # a session that finds a log begins with a checkpoint
            seconds *= random.randrange(2)
        records, was_killed, spent = self.serve(b''.join(bytes for bytes, _, _ in made), seconds)
        if not was_killed:
            self.most = spent if self.most is None else (self.most + spent) / 2
        else:
            self.logs[self.log() + self.in_checkpoint() * ', in a checkpoint'] += 1
        told = -(-len(records) // RECORD)
        left = self.files()                             # the next session finds this, and not what reading the map made of it
        found = self.held()
        self.put(left)
        if found not in maps[told:]:
            sys.exit(f'kill {number}: after {told} of {len(made)} records {self.image} holds another map')
        kept = len(maps) - 1 - maps[::-1].index(found)
        self.map = found
        self.commands += kept
        self.stored += sum(pages for _, _, pages in made[:kept])
        self.kills += was_killed
        self.inside += was_killed and 0 < kept < len(made)

random.seed(times)
drives = [Drive('small', 5, 992, 2 * 8, 33 * 8), Drive('worked', 60, 2016, 42 * 16, 64 * 16)]
for number in range(times):
    drives[number % 2].trial(number)
for drive in drives:
    print(f'{drive.image.split("/")[-1]}: {drive.kills} kills, {drive.inside} of them between the first and the last command; {drive.commands} '
          f'commands were kept, and their values took {drive.stored} pages, on a drive that has {drive.pages} for values')
    if set(drive.logs) - {'none'}:
        print('  logs after kills:', '; '.join(f'{count} {what}' for what, count in sorted(drive.logs.items())))
print(f'{times} sessions: after each the image held every command whose record was written')
PY
