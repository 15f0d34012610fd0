#!/bin/sh
# Runs the program with standard streams that are closed, full, slow or shared, and with two processes on one image, and checks the
# image, the records and the status afterwards. It is not part of the gate.
#
#   bench/edge.sh
set -eu

top=$(CDPATH='' cd -- "$(dirname -- "$0")/.." && pwd)
folder=$(mktemp -d)
trap 'rm -rf "$folder"' EXIT

"$top/pink" "$folder/first.img" make 512 16 64
python3 - "$top" "$folder" <<'PY'
import os, select, shutil, signal, struct, subprocess, sys, time

top, folder = sys.argv[1:]
program, launcher = os.environ.get('PINK', top + '/crates/pink/out/pink'), top + '/pink'
image, script = folder + '/drive.img', folder + '/script'
STORE, RETRIEVE, RECORD = 1, 2, 24

def entry(opcode, cid, key, size):
    body = bytearray(64)
    body[0] = opcode
    struct.pack_into('<HI', body, 2, cid, 1)
    padded = key + bytes(16 - len(key))
    body[8:16], body[56:64] = padded[:8], padded[8:]
    struct.pack_into('<I', body, 40, size)
    body[44] = len(key)
    return bytes(body)

keys = [b'key%02d' % i for i in range(20)]
stores = [(keys[i * 7 % 20], bytes([i]) * (100 + i)) for i in range(40)]
commands = [entry(STORE, i, key, len(value)) + value for i, (key, value) in enumerate(stores)]
with open(script, 'wb') as file:
    file.write(b''.join(commands))
asks = [entry(RETRIEVE, i, key, 2016) for i, key in enumerate(keys)]
maps = [{}]                                     # after each number of Stores
for key, value in stores:
    maps.append({**maps[-1], key: value})

def fresh():
    with open(folder + '/first.img', 'rb') as file:
        made = file.read()
    with open(image, 'wb') as file:
        file.write(made)

def content(path=image):
    with open(path, 'rb') as file:
        return file.read()

def shell(words):                               # the status and standard error of the launcher under these redirections
    line = f'"{launcher}" "{image}" {words}'
    run = subprocess.run(['sh', '-c', line], stdin=subprocess.DEVNULL, stdout=subprocess.PIPE, stderr=subprocess.PIPE, timeout=60)
    return run.returncode, run.stderr.decode()

def held():                                     # the map that a further run finds
    run = subprocess.run([program, image, 'serve', '36'], input=b''.join(asks), stdout=subprocess.PIPE, check=True, timeout=60)
    found, at = {}, 0
    for key in keys:
        size = struct.unpack_from('<I', run.stdout, at + 20)[0]
        if struct.unpack_from('<I', run.stdout, at + 12)[0] >> 17 == 0:
            found[key] = run.stdout[at + RECORD:at + RECORD + size]
        at += RECORD + size
    return found

def expect(what, holds):
    if not holds:
        sys.exit('edge: ' + what)
    print('  ' + what)

print('closed streams')
for streams in ['>&-', '>&- 2>&-']:
    fresh()
    status, _ = shell(f'serve 36 <"{script}" {streams}')
    expect(f'serve < script {streams}: status 5, the image holds a prefix of the script', status == 5 and held() in maps)
for streams in ['<&-', '<&- 2>&-']:
    fresh()
    status, _ = shell(f'serve 36 {streams}')
    expect(f'serve {streams}: status 0, the image is as it was', status == 0 and content() == content(folder + '/first.img'))
fresh()
status, _ = shell('serve 36 <&- >&- 2>&-')
expect('serve <&- >&- 2>&-: status 0, the image is as it was', status == 0 and content() == content(folder + '/first.img'))
for streams in ['>&-', '<&- >&- 2>&-']:
    os.remove(image)
    status, _ = shell(f'make 512 16 64 {streams}')
    expect(f'make {streams}: status 0, the same image as ever', status == 0 and content() == content(folder + '/first.img'))

print('an output that fails')
fresh()
status, _ = shell(f'serve 36 <"{script}" >/dev/full')
expect('serve < script > /dev/full: status 5, the image holds a prefix of the script', status == 5 and held() in maps)
fresh()
serve = subprocess.Popen([program, image, 'serve', '36'], stdin=subprocess.PIPE, stdout=subprocess.PIPE)
serve.stdin.write(asks[0])
serve.stdin.flush()
serve.stdout.read(RECORD)
serve.stdout.close()
serve.stdin.write(asks[1])
serve.stdin.close()
status = serve.wait(timeout=60)
expect('a reader that leaves between two records: status 5', status == 5)

print('streams and images that are something else')
fresh()
status, told = shell(f'serve 36 <"{folder}"')
expect('serve < a folder: status 4, the image is as it was', status == 4 and content() == content(folder + '/first.img'))
fresh()
run = subprocess.run(['sh', '-c', f'(cat "{script}"; head -c 40 "{script}") | "{launcher}" "{image}" serve 36'], stdout=subprocess.PIPE, stderr=subprocess.PIPE, timeout=60)
expect('an input that ends inside an entry: status 3, a record of each command before it', run.returncode == 3 and len(run.stdout) == len(commands) * RECORD and held() == maps[-1])
fresh()
run = subprocess.run(['sh', '-c', f'"{launcher}" "{image}" serve 36 <"{script}" 1<"{script}"'], stdout=subprocess.PIPE, stderr=subprocess.PIPE, timeout=60)
expect('an output that was opened for reading: status 5, the image holds a prefix of the script', run.returncode == 5 and held() in maps)
for what, path, statuses in [('a folder', folder, (6, 6)), ('in no folder', folder + '/none/drive.img', (8, 6)), ('the null device', '/dev/null', (8, 6))]:
    told = []
    for words in [['serve', '36'], ['make', '512', '16', '64']]:
        run = subprocess.run([program, path] + words, stdin=subprocess.DEVNULL, stdout=subprocess.PIPE, timeout=60)
        told.append((run.returncode, run.stdout))
    expect(f'an image that is {what}: serve ends with {statuses[0]}, make with {statuses[1]}', told == [(statuses[0], b''), (statuses[1], b'')])
for size in [1, 31, 32, 1000, os.path.getsize(folder + '/first.img') - 1]:
    fresh()
    os.truncate(image, size)
    before = content()
    told = [shell(words)[0] for words in [f'serve 36 <"{script}"', 'make 512 16 64', 'put 61 61']]
    expect(f'an image of {size} bytes: serve, make and put end with 8, nothing changed', told == [8, 8, 8] and content() == before)

print('a limit on the size of files, in blocks of 512 bytes')
for limit, sync in [(256, ''), (256, 'PINK_SYNC=1'), (256, 'PINK_SYNC=2'), (2048, 'PINK_SYNC=1'), (2048, 'PINK_SYNC=2')]:
    fresh()
    if os.path.exists(image + '-wal'):              # that the last program could not make long enough
        os.remove(image + '-wal')
    line = f'ulimit -f {limit}; {sync} "{launcher}" "{image}" serve 36 <"{script}"'
    run = subprocess.run(['sh', '-c', line], stdout=subprocess.PIPE, stderr=subprocess.PIPE, timeout=60)
    answered = sum(struct.unpack_from('<I', run.stdout, at + 12)[0] >> 17 == 0 for at in range(0, len(run.stdout), RECORD))
    expect(f'{sync or "no PINK_SYNC"}, at most {limit} blocks: status {run.returncode}, all {answered} answered Stores are there',
           run.returncode in ([0] if limit == 2048 else [0, 6]) and held() in maps[answered:])

print('an image that may not be written')
fresh()
os.chmod(image, 0o444)
os.chmod(folder, 0o755)
own = folder + '/pink'                              # a program that another user may run
shutil.copy(program, own)
os.chmod(own, 0o755)
other = {'user': 65534, 'group': 65534, 'extra_groups': []} if os.geteuid() == 0 else {}
before = content()
for words in [['serve', '36'], ['get', '61'], ['put', '61', '61'], ['make', '512', '16', '64']]:
    with open(script, 'rb') as file:
        run = subprocess.run([own, image] + words, stdin=file, stdout=subprocess.PIPE, timeout=60, **other)
    expect(f'{words[0]}: status 6, nothing posted, nothing changed', run.returncode == 6 and run.stdout == b'' and content() == before)
os.chmod(image, 0o644)

print('an input and an output that are slow')
fresh()
serve = subprocess.Popen([program, image, 'serve', '36'], stdin=subprocess.PIPE, stdout=subprocess.PIPE)
text = b''.join(commands[:4])
out = b''
for at in range(0, len(text), 7):
    serve.stdin.write(text[at:at + 7])
    serve.stdin.flush()
    time.sleep(0.001)
serve.stdin.close()
while (piece := serve.stdout.read(1)):
    out += piece
    time.sleep(0.0005)
expect('seven bytes a time in, one byte a time out: all records, status 0', serve.wait(timeout=60) == 0 and len(out) == 4 * RECORD and held() == maps[4])

print('records leave before the input waits')
fresh()
serve = subprocess.Popen([program, image, 'serve', '36'], stdin=subprocess.PIPE, stdout=subprocess.PIPE)
out = b''
for ask in asks:
    serve.stdin.write(ask[:40])
    serve.stdin.flush()
    serve.send_signal(signal.SIGSTOP)           # a read that waits is interrupted
    serve.send_signal(signal.SIGCONT)
    serve.stdin.write(ask[40:])
    serve.stdin.flush()
    ready, _, _ = select.select([serve.stdout], [], [], 30)
    out += os.read(serve.stdout.fileno(), 65536) if ready else sys.exit('edge: no record came')
serve.stdin.close()
expect('each record came before the next entry was given', serve.wait(timeout=60) == 0 and len(out) == len(asks) * RECORD)

print('the same records however the input comes')
long = b''.join(commands) + b''.join(entry(RETRIEVE, i, keys[i * 3 % 20], i % 200) for i in range(3000))
outs = []
for step in [len(long), 65536, 4096, 1000, 64]:
    fresh()
    serve = subprocess.Popen([program, image, 'serve', '36'], stdin=subprocess.PIPE, stdout=open(folder + '/out', 'wb'))
    for at in range(0, len(long), step):
        serve.stdin.write(long[at:at + step])
        serve.stdin.flush()
    serve.stdin.close()
    outs.append((serve.wait(timeout=60), content(folder + '/out')))
expect('pieces of 64 bytes to the whole at once: the same bytes, status 0', outs[0][0] == 0 and all(out == outs[0] for out in outs))

print('two processes on one image')
fresh()
serve = subprocess.Popen([program, image, 'serve', '36'], stdin=subprocess.PIPE, stdout=subprocess.PIPE)
serve.stdin.write(commands[0] + asks[0])
serve.stdin.flush()
serve.stdout.read(RECORD)
before = content()
for words in [f'serve 36 <"{script}"', 'make 512 16 64']:
    status, told = shell(words)
    expect(f'a second {words.split()[0]}: status 6, "in use", nothing changed', status == 6 and 'in use' in told and content() == before)
serve.stdin.close()
serve.stdout.read()
expect('the first goes on to its end', serve.wait(timeout=60) == 0)
expect('after it the image is free, with what the first stored', held() == maps[1])
PY
