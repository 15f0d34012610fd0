#!/bin/sh
# Tries pinkctl serve with redis-cli and redis-benchmark (Debian's redis-tools), at 1, 10 and 50 clients, and kills it at random
# moments: the server, the program that it runs, or both. After each kill the drive opens again, and each client's keys hold what its
# answered commands made of them, or what its further commands, in their order, would have. It is not part of the gate.
#
#   bench/redis.sh [KILLS]       KILLS kills, 60 by default; ends with a count, and with 1 if a check failed
#   bench/redis.sh --speed [N]   requests per second next to Redis (Debian's redis-server), medians of three runs, as a table; with
#                                the Nth part of the requests if N is given, for a trial
#   bench/redis.sh --module [KILLS]        the module redis/pink.so of redis-server: its replies beside those of pinkctl serve, what
#                                only Redis has, names of any length, the sanitizers, and KILLS kills, 60 by default
#   bench/redis.sh --module-speed [TURNS]  processor time of a request: the module, pinkctl serve, Redis
#   bench/redis.sh --cluster-speed [N..]   the same for clusters of N drives on this machine, 1, 2 and 4 by default
#   bench/redis.sh --fair        what one client's GET waits for, and the memory of pinkctl serve, while others ask much
set -eu

top=$(CDPATH='' cd -- "$(dirname -- "$0")/.." && pwd)
word=${1:-}
case $word in
    --module | --module-speed | --cluster-speed | --fair)
        shift
        case $word in
            --module) script=module.py ;;
            --module-speed) script=module_speed.py ;;
            --cluster-speed) script=cluster_speed.py ;;
            --fair) script=fair.py ;;
        esac
        exec python3 "$top/bench/$script" "$@"
        ;;
esac
for tool in redis-cli redis-benchmark; do
    command -v "$tool" >/dev/null || { echo "bench/redis.sh: there is no $tool (apt-get install redis-tools)" >&2; exit 2; }
done
folder=$(mktemp -d)
trap 'rm -rf "$folder"' EXIT
trap 'exit 1' HUP INT TERM

exec 3<<'PY'
import atexit, os, random, signal, socket, statistics, subprocess, sys, threading, time

top, folder = sys.argv[1:3]
words = sys.argv[3:]
sys.path.insert(0, top + '/clients/python')
from pinkdrive import Drive, make

checks = 0

def check(what, holds):
    global checks
    checks += 1
    if not holds:
        sys.exit(f'redis.sh: failed after {checks - 1} checks: {what}')

def start(image, path, *more, stderr=None):
    """The server, once it serves."""
    server = subprocess.Popen([top + '/pinkctl', 'serve', image, '--socket', path, *more], stdout=subprocess.PIPE, stderr=stderr, text=True)
    atexit.register(server.kill)
    if not server.stdout.readline():
        sys.exit(f'redis.sh: the server ended with {server.wait()}')
    return server

def cli(path, *given, text=None):
    run = subprocess.run(['redis-cli', '-s', path, *given], input=text, capture_output=True, text=True, timeout=120)
    return run.stdout.strip()

def request(*parts):
    return b'*%d\r\n' % len(parts) + b''.join(b'$%d\r\n%b\r\n' % (len(it), it) for it in parts)

# redis-cli.

def try_cli():
    image, path = folder + '/cli.img', folder + '/cli'
    make(image, 512, 16, 64)
    server = start(image, path)
    rows = [
        ('PING', 'PONG'), ('SET a 1', 'OK'), ('GET a', '1'), ('SET a 2 NX', ''), ('SET b 2 XX', ''), ('SET a 3 XX', 'OK'), ('STRLEN a', '1'),
        ('EXISTS a b', '1'), ('DEL a b', '1'), ('GET a', ''), ('DBSIZE', '0'), ('TYPE a', 'none'), ('ECHO hello', 'hello'),
        ('SELECT 0', 'OK'), ('SELECT 1', 'ERR DB index is out of range: there is 0 alone'), ('CLIENT GETNAME', ''), ('COMMAND DOCS', ''),
    ]
    for given, wanted in rows:
        check(f'redis-cli {given}', cli(path, *given.split()) == wanted)
    check('an unknown command is refused by name', "unknown command 'LPUSH'" in cli(path, 'LPUSH', 'a', '1'))
    check('a long key is refused with the limit', 'a key has 1 to 16 bytes' in cli(path, 'SET', 'k' * 17, '1'))
    check('a long value is refused with the limit', 'at most 2016' in cli(path, '-x', 'SET', 'a', text='x' * 2017))
    check('a value from standard input', cli(path, '-x', 'SET', 'a', text='x' * 2016) == 'OK' and cli(path, 'GET', 'a') == 'x' * 2016)
    lines = ''.join(f'SET key:{i} {i}\n' for i in range(200))
    check('200 lines at standard input', cli(path, text=lines).split() == ['OK'] * 200)
    check('--scan', sorted(cli(path, '--scan', '--pattern', 'key:*').split()) == sorted(f'key:{i}' for i in range(200)))
    mass = b''.join(request(b'SET', b'p%d' % i, b'%d' % i) for i in range(20))
    piped = subprocess.run(['redis-cli', '-s', path, '--pipe'], input=mass, capture_output=True, timeout=120).stdout.decode()
    check('--pipe', 'errors: 0, replies: 20' in piped)
    full = ''.join(f'SET f{i} x\n' for i in range(100))
    check('a full drive is refused with the limit', 'ERR no space' in cli(path, text=full) and 'at most 492' in cli(path, 'SET', 'more', 'x'))
    count = cli(path, 'DBSIZE')
    check('--bigkeys', f'Sampled {count} keys' in cli(path, '--bigkeys'))
    check('INFO', 'report_live:492' in cli(path, 'INFO'))
    server.send_signal(signal.SIGTERM)
    check('TERM ends it with 0', server.wait(30) == 0)
    with Drive(image) as d:
        check('all keys are on the flash', len(d) == int(count) and d[b'key:199'] == b'199')

# Kills.

class Recorder(threading.Thread):
    """A client that changes its own keys in pipelines, and keeps what was sent and how much of it was answered."""

    def __init__(self, path, number, turn, held):
        super().__init__(daemon=True)
        self.path, self.number, self.turn = path, number, turn
        self.draw = random.Random(turn * 1000 + number)
        self.maps, self.answered = [held], 0

    def change(self):
        """A request, and what it makes of the map."""
        draw, key = self.draw.random(), b'%d:%d' % (self.number, self.draw.randrange(8))
        held = self.maps[-1]
        value = b'%d/%d/' % (self.turn, len(self.maps)) * self.draw.randrange(1, 40)
        if draw < 0.2:
            return request(b'DEL', key), {k: v for k, v in held.items() if k != key}
        if draw < 0.3:
            return request(b'SET', key, value, b'NX'), held if key in held else {**held, key: value}
        if draw < 0.4:
            return request(b'SET', key, value, b'XX'), {**held, key: value} if key in held else held
        return request(b'SET', key, value), {**held, key: value}

    def run(self):
        try:
            with socket.socket(socket.AF_UNIX) as it:
                it.connect(self.path)
                file = it.makefile('rb')
                while True:
                    count = self.draw.choice([1, 1, 1, 4, 16])
                    sent = b''
                    for _ in range(count):
                        asked, held = self.change()
                        self.maps.append(held)
                        sent += asked
                    it.sendall(sent)
                    for _ in range(count):
                        line = file.readline()
                        if line.startswith(b'-') or not line.endswith(b'\r\n'):
                            return
                        self.answered += 1
        except OSError:
            pass

def own_keys(held, number):
    return {k: v for k, v in held.items() if k.startswith(b'%d:' % number)}

def try_kills(kills):
    image, path = folder + '/kill.img', folder + '/kill'
    make(image, 4096, 64, 64)
    random.seed(kills)
    answered, held = 0, {}
    for turn in range(kills):
        clients = (1, 10, 50)[turn % 3]
        server = start(image, path, '--wait', '10', stderr=subprocess.DEVNULL)
        with open(f'/proc/{server.pid}/task/{server.pid}/children') as children:
            program = int(children.read().split()[0])
        load = subprocess.Popen(['redis-benchmark', '-s', path, '-t', 'set', '-r', '300', '-n', '10000000', '-c', str(clients),
                                 '-P', random.choice(['1', '16']), '-d', '300', '-q'], stdout=subprocess.DEVNULL, stderr=subprocess.DEVNULL)
        recorders = [Recorder(path, number, turn, own_keys(held, number)) for number in range(clients)]
        for it in recorders:
            it.start()
        time.sleep(random.random() * 0.6 + 0.05)
        victims = [(server.pid,), (program,), (program, server.pid)][turn // 3 % 3]
        for victim in victims:
            os.kill(victim, signal.SIGKILL)
        status = server.wait(30)
        check(f'kill {turn}: the server ends', status == (15 if victims == (program,) else -9))
        for it in recorders:
            it.join(30)
        load.kill()
        load.wait()
        with Drive(image, timeout=20) as d:
            held = dict(d.items())
        for it in recorders:
            found = own_keys(held, it.number)
            check(f'kill {turn}, client {it.number} of {clients}: what {it.answered} answers said is kept', found in it.maps[it.answered:])
            answered += it.answered
        others = [v for k, v in held.items() if k.startswith(b'key:')]
        check(f'kill {turn}: values of redis-benchmark are whole', all(len(v) == 300 for v in others))
        print(f'\r{turn + 1} of {kills} kills', end='', file=sys.stderr)
    print(file=sys.stderr)
    return answered

def try_benchmark():
    image, path = folder + '/bench.img', folder + '/bench'
    make(image, 4096, 64, 128)
    server = start(image, path)
    for clients in (1, 10, 50):
        for depth in (1, 16):
            run = subprocess.run(['redis-benchmark', '-s', path, '-t', 'ping_mbulk,set,get', '-r', '1000', '-n', '3000', '-c', str(clients), '-P', str(depth),
                                  '--csv'], capture_output=True, text=True, timeout=300)
            check(f'redis-benchmark at {clients} clients, {depth} at once', run.returncode == 0 and run.stdout.count('\n') >= 4 and 'rror' not in run.stderr)
    server.send_signal(signal.SIGTERM)
    check('TERM ends it with 0', server.wait(30) == 0)

# Speed.

def speed(part):
    image, path = folder + '/speed.img', folder + '/speed'
    make(image, 4096, 64, 512)
    server = start(image, path)
    redis = []
    for name, more in (('memory', ['--save', '', '--appendonly', 'no']), ('append', ['--save', '', '--appendonly', 'yes', '--appendfsync', 'no'])):
        os.mkdir(f'{folder}/{name}')
        redis.append(subprocess.Popen(['redis-server', '--port', '0', '--unixsocket', f'{folder}/{name}.sock', '--dir', f'{folder}/{name}', *more],
                                      stdout=subprocess.DEVNULL))
    places = [path, f'{folder}/append.sock', f'{folder}/memory.sock']
    deadline = time.monotonic() + 20
    while not all(map(os.path.exists, places)) and time.monotonic() < deadline:
        time.sleep(0.1)
    rows = [(word, clients, depth) for word in ('SET', 'GET') for clients, depth in ((1, 1), (10, 1), (50, 1), (50, 16))]
    print(f'| thousands of requests a second, values of 100 bytes, load {os.getloadavg()[0]:.1f} of {os.cpu_count()} | pinkctl serve | Redis, appending | Redis |')
    print('|---|---|---|---|')
    for word, clients, depth in rows:
        told = []
        for place in places:
            rates = []
            for _ in range(3):
                count = (20000 if clients == 1 else 50000 if depth == 1 else 200000) // part
                run = subprocess.run(['redis-benchmark', '-s', place, '-t', word.lower(), '-r', '10000', '-d', '100', '-n', str(count), '-c', str(clients), '-P', str(depth),
                                      '--csv'], capture_output=True, text=True, check=True)
                rates.append(float(run.stdout.splitlines()[-1].split(',')[1].strip('"')))
            told.append(f'{statistics.median(rates) / 1000:.1f}')
        text = f'{clients} client' + 's' * (clients > 1) + f', {depth} at once' * (depth > 1)
        print(f'| {word}, {text} | ' + ' | '.join(told) + ' |', flush=True)
    for it in [server, *redis]:
        it.terminate()
        it.wait(30)

if words[:1] == ['--speed']:
    speed(int(words[1]) if words[1:] else 1)
else:
    kills = int(words[0]) if words else 60
    try_cli()
    try_benchmark()
    answered = try_kills(kills)
    print(f'redis.sh: {checks} checks passed; {kills} kills at 1, 10 and 50 clients, {answered} changes were answered before them and none is lost')
PY
python3 /dev/fd/3 "$top" "$folder" "$@"
