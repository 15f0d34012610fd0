"""Servers for the tests of redis.sh and cluster.sh, and a client of Redis' protocol in a few lines.

Debian's redis-server and a C compiler are needed; `skip_without` ends with a line where they are not there.
"""

import atexit
import os
import shutil
import signal
import socket
import struct
import subprocess
import sys
import time

TOP = os.path.dirname(os.path.dirname(os.path.realpath(__file__)))
CLIENTS = os.path.join(TOP, 'clients', 'python')
PROGRAM = os.environ.get('PINK_PROGRAM') or os.path.join(TOP, 'pink')
sys.path.insert(0, CLIENTS)

from pinkdrive import make  # noqa: E402

SHAPE = (4096, 64, 512)


def skip_without(*tools):
    """Ends with 0 and a line if one of these programs is missing. A TERM ends what was started, too."""
    signal.signal(signal.SIGTERM, lambda *_: sys.exit(143))
    for tool in tools:
        if not shutil.which(tool):
            print(f'skipped: there is no {tool} (apt-get install redis-server redis-tools gcc make iproute2)')
            sys.exit(0)


def module(kind='.'):
    """The module, built: `.`, `sanitized` or `meeting`."""
    folder = os.path.join(TOP, 'redis')
    subprocess.run(['make', '-s', '-C', folder] + ([kind] if kind != '.' else []), check=True)
    return os.path.join(folder, kind, 'pink.so')


class Error(Exception):
    """An error reply."""


class Link:
    """A connection to a socket (a path), a port of this machine, or a pair of an address and a port."""

    def __init__(self, place, seconds=60):
        unix = isinstance(place, str)
        self.socket = socket.socket(socket.AF_UNIX if unix else socket.AF_INET)
        self.socket.settimeout(seconds)
        self.socket.connect(('127.0.0.1', place) if isinstance(place, int) else place)
        if not unix:
            self.socket.setsockopt(socket.IPPROTO_TCP, socket.TCP_NODELAY, 1)
        self.file = self.socket.makefile('rb')

    def close(self):
        self.file.close()
        self.socket.close()

    def abort(self):
        """Leaves nothing that could still be sent: what was not answered may be done, but not later than what is asked next."""
        self.socket.setsockopt(socket.SOL_SOCKET, socket.SO_LINGER, struct.pack('ii', 1, 0))
        self.close()

    def send(self, *words):
        self.socket.sendall(request(*words))

    def raw(self):
        """A reply as its bytes."""
        line = self.file.readline()
        if not line.endswith(b'\r\n'):
            raise ConnectionError('the server has left')
        if line[:1] in b'$=' and line[1:3] != b'-1':
            return line + self.file.read(int(line[1:]) + 2)
        if line[:1] in b'*%~>' and line[1:3] != b'-1':
            count = int(line[1:]) * (2 if line[:1] == b'%' else 1)
            return line + b''.join(self.raw() for _ in range(count))
        return line

    def reply(self):
        line = self.file.readline()
        if not line.endswith(b'\r\n'):
            raise ConnectionError('the server has left')
        kind, rest = line[:1], line[1:-2]
        if kind == b'-':
            return Error(rest.decode())
        if kind == b'+':
            return rest.decode()
        if kind == b':':
            return int(rest)
        if rest == b'-1':
            return None
        if kind == b'$':
            return self.file.read(int(rest) + 2)[:-2]
        return [self.reply() for _ in range(int(rest))]

    def do(self, *words):
        self.send(*words)
        return self.reply()

    def sure(self, *words):
        """The same, for a request that is not refused."""
        reply = self.do(*words)
        if isinstance(reply, Error):
            raise reply
        return reply


def encoded(word):
    return word if isinstance(word, bytes) else str(word).encode()


def request(*words):
    words = [encoded(it) for it in words]
    return b'*%d\r\n' % len(words) + b''.join(b'$%d\r\n%b\r\n' % (len(it), it) for it in words)


def fields(text):
    """The fields of an INFO."""
    return dict(it.split(':', 1) for it in text.decode().split('\r\n') if ':' in it)


class Server:
    """A redis-server with the module, over an image that is made if it is not there."""

    def __init__(self, folder, name, port=0, shape=SHAPE, so=None, words=(), settings=(), limits=(), preload=None):
        self.folder, self.name, self.port = folder, name, port
        self.image, self.place = f'{folder}/{name}.img', port or f'{folder}/{name}.sock'
        self.log, self.so = f'{folder}/{name}.log', so or module()
        self.words, self.settings, self.preload = list(words), list(settings), preload
        if not os.path.exists(self.image):
            make(self.image, *shape, limits=limits)
        self.process = None
        self.start()

    def command(self):
        common = ['--save', '', '--appendonly', 'no', '--dir', self.folder, '--dbfilename', f'{self.name}.rdb', '--logfile', self.log]
        common += ['--repl-diskless-sync-delay', '0', '--repl-ping-replica-period', '1', '--bind', '127.0.0.1', '--port', str(self.port)]
        if not self.port:
            common += ['--unixsocket', self.place]
        return ['redis-server', *common, *self.settings, '--loadmodule', self.so, self.image, 'program', PROGRAM, *self.words]

    def start(self):
        self.start_only()
        return self.wait_up()

    def start_only(self):
        more = {'LD_PRELOAD': self.preload, 'ASAN_OPTIONS': 'detect_leaks=0:verify_asan_link_order=0'} if self.preload else {}
        with open(os.devnull, 'w') as nothing, open(self.log + '.err', 'a') as said:
            self.process = subprocess.Popen(self.command(), stdout=nothing, stderr=said, start_new_session=True, env={**os.environ, **more})
        atexit.register(self.kill)

    def wait_up(self, seconds=300):
        last = time.monotonic() + seconds
        while time.monotonic() < last:
            try:
                it = Link(self.place)
                said = it.do('PING')
                it.close()
                if not str(said).startswith('LOADING'):
                    return self
            except OSError:
                pass
            if self.process.poll() is not None:
                sys.exit(f'{self.name} ended with {self.process.returncode}: {self.last_lines()}')
            time.sleep(0.02)
        sys.exit(f'{self.name} does not come up: {self.last_lines()}')

    def last_lines(self):
        with open(self.log, errors='replace') as log:
            return ''.join(log.readlines()[-4:])

    def link(self, seconds=60):
        return Link(self.place, seconds)

    def drive(self):
        """The process of the program."""
        return int(self.info('pink_drive')['pink_program'])

    def info(self, section):
        it = self.link()
        told = fields(it.sure('INFO', section))
        it.close()
        return told

    def kill(self):
        if self.process and self.process.poll() is None:
            self.process.kill()
            self.process.wait(60)

    def end(self):
        """Ends the server by a signal, and returns its status."""
        self.process.send_signal(signal.SIGTERM)
        return self.process.wait(60)


def contents(link, space=0):
    """All keys and values, by SCAN and MGET."""
    link.sure('SELECT', space)
    found, cursor = {}, b'0'
    while True:
        cursor, names = link.sure('SCAN', cursor, 'COUNT', 1000)
        for name in names:
            found[name] = link.sure('GET', name)
        if cursor == b'0':
            return found
