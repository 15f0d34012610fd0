"""Tries redis/pink.so, the module of redis-server:  bench/redis.sh --module [KILLS]

The replies are compared byte for byte with those of `pinkctl serve` where both have the command. Then what only a
redis-server has: TLS, AUTH, ACL, MULTI, WATCH, scripts, RESP3; names of any length; a run with the sanitizers; and kills.
"""

import atexit
import os
import random
import signal
import subprocess
import sys
import tempfile
import threading
import time

from servers import CLIENTS, PROGRAM, Error, Link, Server, contents, fields, make, module, skip_without

SMALL, GREATEST = (512, 16, 64), 2016
checks = 0


def check(what, holds, *more):
    global checks
    checks += 1
    if not holds:
        sys.exit(f'module.py: failed after {checks - 1} checks: {what} {more if more else ""}')


# The same replies as pinkctl serve.


class Serve:
    """`pinkctl serve` of an image."""

    def __init__(self, folder, name, shape, limits=()):
        self.image, self.place = f'{folder}/{name}.img', f'{folder}/{name}.socket'
        make(self.image, *shape, limits=limits)
        words = [sys.executable, '-m', 'pinkctl', 'serve', self.image, '--socket', self.place]
        self.process = subprocess.Popen(words, cwd=CLIENTS, stdout=subprocess.PIPE, text=True, env={**os.environ, 'PINK_PROGRAM': PROGRAM})
        atexit.register(self.process.kill)
        if not self.process.stdout.readline():
            sys.exit(f'pinkctl serve ended with {self.process.wait()}')

    def end(self):
        self.process.send_signal(signal.SIGTERM)
        return self.process.wait(60)


ROWS = [
    'SET a 1', 'GET a', 'SET a 2 NX', 'SET b 2 XX', 'SET a 3 XX', 'STRLEN a', 'STRLEN no', 'EXISTS a b a', 'TYPE a', 'TYPE no', 'SET a 4 GET',
    'SET c 5 GET', 'SET c 6 NX GET', 'SETNX c 7', 'SETNX d 8', 'MGET a b c d', 'DEL a b c', 'UNLINK d', 'DBSIZE', 'GET a', 'MSET a 1 b 2 a 3', 'MGET a b',
    'GET', 'GET a b', 'SET a', 'DEL', 'MGET', 'MSET a', 'MSET a 1 b', 'STRLEN', 'TYPE a b', 'EXISTS', 'SETNX a', 'DBSIZE x', 'UNLINK', 'SCAN', 'SCAN x',
    'SCAN 77', 'SCAN 0 COUNT 0', 'SCAN 0 COUNT', 'SCAN 0 FOO 1', 'SET a 1 EX 9', 'SET a 1 NX XX', 'SCAN 0 TYPE hash', 'SCAN 0 TYPE string',
    'SCAN 0 MATCH b*', 'SCAN 0 MATCH *a', 'ECHO x', 'PING', 'PING x', 'SELECT 0', 'SELECT 1', 'DBSIZE', 'GET a', 'SET a 9', 'GET a',
    'SELECT 0', 'GET a',
]  # fmt: skip


def both(links, words):
    replies = []
    for it in links:
        it.send(*words)
        replies.append(it.raw())
    check(f'the same reply to {words!r}', replies[0] == replies[1], replies)
    return replies[0]


def drawn(draw):
    """A request of a few keys, drawn."""
    key = draw.choice([b'a', b'b', b'key:%d' % draw.randrange(40), b'k' * 16, b'k' * 17, b'', b'\xff' * 16, b"it's", b'"\'\n\x00'])
    value = draw.choice([b'', b'x', b'\r\n\0', b'v' * draw.randrange(3000)])
    other = b'key:%d' % draw.randrange(40)
    rows = [
        (b'GET', key), (b'SET', key, value), (b'SET', key, value, draw.choice([b'NX', b'xx', b'GET', b'EX'])), (b'DEL', key, other), (b'UNLINK', key),
        (b'MGET', key, other), (b'MSET', key, value, other, b'1'), (b'EXISTS', key, other), (b'STRLEN', key), (b'TYPE', key), (b'SETNX', key, value), (b'DBSIZE',),
        (b'SET', key, value, b'XX', b'GET'), (b'SCAN', b'0', b'COUNT', b'%d' % draw.randrange(1, 60), b'MATCH', draw.choice([b'*', b'key:1*', b'k?y:[^3]*', b'*9', b'b'])),
    ]  # fmt: skip
    return draw.choice(rows)


def try_same_replies(folder):
    servers = [Serve(folder, 'same', SMALL, limits=(300, 100)), Server(folder, 'same-module', shape=SMALL, limits=(300, 100))]
    links = [Link(it.place) for it in servers]
    for row in ROWS:
        both(links, row.split())
    both(links, ['SET', 'k' * 17, '1'])
    both(links, ['SET', 'a', 'x' * (GREATEST + 1)])
    both(links, ['SET', 'a', 'x' * GREATEST])
    both(links, ['GET', 'a'])
    draw = random.Random(7)
    for _ in range(4000):
        both(links, drawn(draw))
    for i in range(200):
        last = both(links, ['SET', f'full{i}', 'x'])
    check('a full drive is refused with ERR and its limit', last.startswith(b'-ERR no space') and b'at most 300' in last, last)
    cursor, turns = b'0', 0
    while turns == 0 or cursor != b'0':  # the cursors are the same too
        cursor, turns = both(links, ['SCAN', cursor, 'COUNT', '7']).split(b'\r\n')[2], turns + 1
    check('SCAN takes several turns', turns > 5)
    check('both end with 0', [it.end() for it in servers] == [0, 0])


# What redis-cli, RESP3, ACL, transactions and scripts do.


def cli(server, *words):
    place = ['-p', str(server.port)] if server.port else ['-s', server.place]
    run = subprocess.run(['redis-cli', *place, *words], capture_output=True, text=True, timeout=60)
    return (run.stdout + run.stderr).strip()


REFUSED = ['INCR w', 'LPUSH w 1', 'APPEND w x', 'EXPIRE w 9', 'TTL w', 'KEYS *', 'SORT w', 'OBJECT ENCODING w', 'DUMP w', 'RESTORE w 0 x', 'FLUSHALL', 'FLUSHDB',
           'SWAPDB 0 1', 'RENAME w v', 'GETSET w 1', 'HSET w a 1', 'MIGRATE h 1 w 0 9', 'DEBUG OBJECT w', 'MEMORY USAGE w', 'BGREWRITEAOF', 'NOSUCH w', 'RANDOMKEY']  # fmt: skip


def try_only_redis(folder):
    server = Server(folder, 'plain', limits=(1000, 1000))
    it = server.link()
    it.sure('SET', 'w', '9')
    for row in REFUSED:
        reply = it.do(*row.split())
        name = row.split()[0]
        check(f'{row} is refused by its name', isinstance(reply, Error) and f"unknown command '{name}'; the drive has" in str(reply), reply)
    check('nothing of it was done, and Redis has no key', it.sure('GET', 'w') == b'9' and 'db0' not in server.info('keyspace'))
    check('RESP3', cli(server, '-3', 'GET', 'w') == '9' and cli(server, '-3', 'GET', 'no') == '')
    it.sure('MULTI')
    check('MULTI queues', [it.sure('SET', 'm', '1'), it.sure('GET', 'm')] == ['QUEUED'] * 2 and it.sure('EXEC') == ['OK', b'1'])
    other = server.link()
    it.sure('WATCH', 'm')
    other.sure('SET', 'm', '2')
    it.sure('MULTI')
    it.sure('SET', 'm', '3')
    check('WATCH notices a change', it.sure('EXEC') is None and it.sure('GET', 'm') == b'2')
    check('a script', it.sure('EVAL', "redis.call('set', KEYS[1], ARGV[1]) return redis.call('get', KEYS[1])", 1, 's', '5') == b'5')
    refused = it.do('EVAL', "return redis.call('incr', KEYS[1])", 1, 's')
    check('a script cannot do what the drive has not', isinstance(refused, Error) and 'unknown command' in str(refused), refused)
    check('commandstats', 'cmdstat_pink.get' in server.info('commandstats'))
    it.sure('ACL', 'SETUSER', 'bob', 'on', '>secret', '~b*', '+pink.get', '+pink.set')
    it.sure('AUTH', 'bob', 'secret')
    check('ACL: keys by pattern', it.do('SET', 'b1', 'x') == 'OK' and str(it.do('GET', 'w')).startswith('NOPERM'))
    check('SELECT is a namespace', cli(server, '-n', '1', 'SET', 'w', 'other') == 'OK' and cli(server, 'GET', 'w') == '9')
    check('a namespace that is not there', 'the drive has no namespace 3 (status 0Bh)' in cli(server, '-n', '2', 'GET', 'w'))
    check('INFO', server.info('pink_drive')['pink_report_limit_2'] == '1000')
    check('--scan', sorted(cli(server, '--scan').split()) == ['b1', 'm', 's', 'w'])
    check('--bigkeys', 'Sampled 4 keys' in cli(server, '--bigkeys'))
    check('SET with an end is refused', 'keys do not expire' in cli(server, 'SET', 'a', '1', 'EX', '9'))
    check('PINK.APPLY is for primaries', 'comes from a primary alone' in cli(server, 'PINK.APPLY', 'x'))
    check('TERM ends it with 0', server.end() == 0)
    server.start()
    check('all is there after a start', contents(server.link()) == {b'w': b'9', b'm': b'2', b's': b'5', b'b1': b'x'})
    os.kill(server.drive(), signal.SIGKILL)
    check('the end of the program ends the server with 15', server.process.wait(30) == 15)


def try_tls(folder):
    key, paper = f'{folder}/key.pem', f'{folder}/paper.pem'
    made = subprocess.run(['openssl', 'req', '-x509', '-newkey', 'rsa:2048', '-nodes', '-keyout', key, '-out', paper, '-days', '2', '-subj', '/CN=localhost'],
                          capture_output=True)  # fmt: skip
    if made.returncode:
        print('skipped: TLS, there is no openssl')
        return
    port = 7391
    settings = ['--tls-port', str(port), '--tls-cert-file', paper, '--tls-key-file', key, '--tls-ca-cert-file', paper, '--tls-auth-clients', 'no',
                '--requirepass', 'word']  # fmt: skip
    server = Server(folder, 'tls', settings=settings)
    tls = ['redis-cli', '--tls', '--cacert', paper, '-h', 'localhost', '-p', str(port), '--no-auth-warning']
    said = [subprocess.run([*tls, *more, 'SET', 'a', '1'], capture_output=True, text=True).stdout.strip() for more in ([], ['-a', 'word'])]
    check('TLS: refused without a password, served with it', said[0].startswith('NOAUTH') and said[1] == 'OK', said)
    server.kill()


# Names of any length.


def try_names(folder):
    server = Server(folder, 'hashed', words=['names', 'hashed'], shape=SMALL)
    it = server.link()
    long = 'user:' + 'x' * 300
    names = ['a', '', long, 'user:alice@example.org', 'celery-task-meta-0123456789abcdef'] + [f'some:long:name:{i}' for i in range(40)]
    for name in names:
        it.sure('SET', name, 'of ' + name)
    check('values by long names', all(it.sure('GET', name) == ('of ' + name).encode() for name in names))
    check('lengths and counts', it.sure('STRLEN', 'a') == 4 and it.sure('EXISTS', *names, 'no') == len(names) and it.sure('TYPE', long) == 'string')
    check('conditions', it.sure('SET', long, 'x', 'NX') is None and it.sure('SET', 'new', 'x', 'XX') is None and it.sure('SETNX', 'a', '1') == 0)
    check('SET with GET', it.sure('SET', 'a', '2', 'GET') == b'of a' and it.sure('MGET', 'a', 'no', '') == [b'2', None, b'of '])
    check('SCAN tells names', sorted(contents(it)) == sorted(name.encode() for name in names))
    check('DEL', it.sure('DEL', 'a', 'no', long) == 2 and it.sure('DBSIZE') == len(names) - 2)
    refused = str(it.do('SET', 'n' * 100, 'x' * GREATEST))
    check('the greatest value is shorter by the name', f'takes at most {GREATEST - 104} (status 85h)' in refused, refused)
    check('one that fits', it.do('SET', 'n' * 100, 'x' * (GREATEST - 104)) == 'OK' and len(it.sure('GET', 'n' * 100)) == GREATEST - 104)
    server.kill()


def try_names_that_meet(folder):
    """A build whose hash has one byte: 256 places."""
    server = Server(folder, 'meeting', so=module('meeting'), words=['names', 'hashed'])
    it, draw, held, met = server.link(), random.Random(3), {}, 0
    names = [b'name %d' % i for i in range(600)]
    for name in names:
        reply = it.do('SET', name, name)
        if isinstance(reply, Error):
            check('the cause of a refusal', 'another name has the hash of' in str(reply), reply)
            met += 1
        else:
            held[name] = name
    check('names have met', met > 200 and 200 < len(held) <= 256)
    for name in draw.sample(names, 300):
        reply = it.do('GET', name)
        check('no name has the value of another', reply == name if name in held else 'another name' in str(reply), name, reply)
        check('DEL of another name does nothing', name in held or isinstance(it.do('DEL', name), Error))
    check('all are there', contents(it) == held)
    first = next(iter(held))
    links, others = [server.link() for _ in range(100)], [name for name in names if name not in held]
    it.sure('DEL', *held)
    for link, name in zip(links, others):  # many of one round
        link.send('SET', name, name)
    said = [link.reply() for link in links]
    found = contents(it)
    check('of one round too', all((found.get(name) == name) == (reply == 'OK') for name, reply in zip(others, said)), first)
    server.kill()


# The sanitizers, under clients that come and go.


class Noise(threading.Thread):
    """Connections with drawn commands, cut off at random."""

    def __init__(self, server, number, connections):
        super().__init__(daemon=True)
        self.server, self.draw, self.connections, self.done = server, random.Random(number), connections, 0

    def run(self):
        for _ in range(self.connections):
            try:
                it = self.server.link(20)
                for _ in range(self.draw.randrange(30)):
                    words = self.draw.choice([drawn(self.draw)] * 12 + [(b'MULTI',), (b'EXEC',), (b'BGSAVE',), (b'INFO',), (b'CLIENT', b'PAUSE', b'20', b'WRITE')])
                    it.send(*words)
                    if self.draw.random() < 0.7:
                        it.reply()
                    self.done += 1
                it.close()
            except (OSError, ValueError):
                pass


def try_sanitized(folder):
    libraries = [subprocess.run(['gcc', f'-print-file-name={name}'], capture_output=True, text=True).stdout.strip() for name in ('libasan.so', 'libubsan.so')]
    for words in ((), ('names', 'hashed')):
        name = 'sanitized' + ''.join(words[1:])
        server = Server(folder, name, so=module('sanitized'), words=words, preload=' '.join(libraries), limits=(5000, 5000))
        threads = [Noise(server, number, 40) for number in range(15)]
        for it in threads:
            it.start()
        for it in threads:
            it.join(300)
        check('the server is alive', server.link().do('PING') == 'PONG')
        check('many commands were done', sum(it.done for it in threads) > 5000)
        status = server.end()
        with open(server.log + '.err') as said:
            text = said.read()
        check('no sanitizer has a report', status == 0 and 'ERROR' not in text and 'runtime error' not in text, status, text[-2000:])


# Kills.


class Writer(threading.Thread):
    """A client that changes and reads keys of its own, and notes what was answered."""

    def __init__(self, server, number, turn, held):
        super().__init__(daemon=True)
        self.it, self.draw = server.link(20), random.Random(turn * 100 + number)
        self.number, self.turn, self.held, self.doubt, self.answered, self.wrong = number, turn, held, {}, 0, 0

    def step(self):
        key = b'%d:%d' % (self.number, self.draw.randrange(20))
        what = self.draw.random()
        if what < 0.2:
            self.wrong += self.it.sure('GET', key) != self.held.get(key)
            return
        value = None if what < 0.4 else b'%d/%d/' % (self.turn, self.answered) * self.draw.randrange(1, 60)
        self.doubt = {key: value}
        self.it.sure('DEL', key) if value is None else self.it.sure('SET', key, value)
        self.doubt = {}
        self.held[key] = value
        self.answered += 1

    def run(self):
        try:
            while True:
                self.step()
        except (OSError, Error):
            pass


def try_kills(folder, kills):
    server, answered, looked = Server(folder, 'kill'), 0, 0
    held = [{} for _ in range(12)]
    random.seed(kills)
    for turn in range(kills):
        writers = [Writer(server, number, turn, held[number]) for number in range(12)]
        for it in writers:
            it.start()
        time.sleep(random.random() * 0.7 + 0.1)
        os.kill((server.process.pid, server.drive())[turn % 2], signal.SIGKILL)
        server.process.wait(30)
        for it in writers:
            it.join(30)
        server.start()
        link = server.link()
        for it in writers:
            check(f'kill {turn}: reads', it.wrong == 0)
            for key in {*it.held, *it.doubt}:
                found = link.sure('GET', key)
                check(f'kill {turn}: {key!r}', found == it.held.get(key) or key in it.doubt and found == it.doubt[key], found)
                it.held[key] = found
                looked += 1
            answered += it.answered
        print(f'\r{turn + 1} of {kills} kills', end='', file=sys.stderr)
    print(file=sys.stderr)
    server.end()
    return f'{kills} kills of the server or the program, {answered} changes were answered before them, {looked} keys looked at, none lost'


def main(kills):
    skip_without('redis-server', 'redis-cli', 'gcc', 'make')
    with tempfile.TemporaryDirectory() as folder:
        for part in (try_same_replies, try_only_redis, try_tls, try_names, try_names_that_meet, try_sanitized):
            part(folder)
            print(f'{part.__name__}: {checks} checks so far', flush=True)
        told = try_kills(folder, kills)
    print(f'redis.sh --module: {checks} checks passed; {told}')


if __name__ == '__main__':
    main(int(sys.argv[1]) if len(sys.argv) > 1 else 60)
