"""Processor time and requests a second of redis-server with redis/pink.so, `pinkctl serve` and plain redis-server.

    bench/redis.sh --module-speed [TURNS]      TURNS is 5 by default

All servers run at once and are asked in turns, as other work on the machine comes and goes; the table has medians. Processor
time is that of all threads of a process before and after each redis-benchmark, so it does not depend on what else runs:
microseconds a request, of the server and of the program of the drive. PINKCTL_BEFORE names a folder clients/python of another
version, whose `pinkctl serve` is measured too.
"""

import atexit
import glob
import os
import shutil
import statistics
import subprocess
import sys
import tempfile
import time

from servers import CLIENTS, PROGRAM, Link, Server, fields, make, skip_without

SHAPE = (4096, 64, 512)
CASES = [('set', 1, 1), ('get', 1, 1), ('set', 1, 16), ('get', 1, 16), ('set', 50, 1), ('get', 50, 1), ('set', 50, 16), ('get', 50, 16)]
COUNT = {(1, 1): 4000, (1, 16): 8000, (50, 1): 20000, (50, 16): 40000}


def used(pid):
    """Microseconds that a process has computed."""
    if not pid:
        return 0
    total = 0
    for path in glob.glob(f'/proc/{pid}/task/*/schedstat'):
        with open(path) as file:
            total += int(file.read().split()[0])
    return total / 1000


class Serve:
    """`pinkctl serve`."""

    def __init__(self, folder, name, port, clients):
        image = f'{folder}/{name}.img'
        make(image, *SHAPE)
        words = [sys.executable, '-m', 'pinkctl', 'serve', image, '--port', str(port)]
        self.process = subprocess.Popen(words, cwd=clients, stdout=subprocess.PIPE, text=True, env={**os.environ, 'PINK_PROGRAM': PROGRAM})
        atexit.register(self.process.kill)
        self.process.stdout.readline()
        told = fields(Link(port).sure('INFO', 'server'))
        self.pids = self.process.pid, int(told['drive_process_id'])


class Module:
    def __init__(self, folder, port, words=()):
        self.server = Server(folder, f'module{port}', port, words=words)
        self.pids = self.server.process.pid, self.server.drive()


class Plain:
    def __init__(self, folder, port, *more):
        words = ['redis-server', '--port', str(port), '--bind', '127.0.0.1', '--save', '', '--dir', folder, '--appendfilename', f'{port}.aof', *more]
        self.process = subprocess.Popen(words, stdout=subprocess.DEVNULL, start_new_session=True)
        atexit.register(self.process.kill)
        self.pids = self.process.pid, 0


def measure(port, pids, case):
    """Requests a second, and the microseconds of a request that each process computes."""
    test, clients, depth = case
    count = COUNT[clients, depth]
    before, began = [used(it) for it in pids], time.monotonic()
    words = ['redis-benchmark', '-p', str(port), '-t', test, '-n', str(count), '-c', str(clients), '-P', str(depth), '-r', '5000', '-d', '100', '-q']
    subprocess.run(words, capture_output=True, check=True)
    seconds = time.monotonic() - began
    return (count / seconds, *((used(it) - was) / count for it, was in zip(pids, before)))


def main(turns):
    skip_without('redis-server', 'redis-benchmark', 'gcc', 'make')
    folder = tempfile.mkdtemp()
    atexit.register(shutil.rmtree, folder, True)
    servers = {'module': Module(folder, 7420), 'hashed names': Module(folder, 7421, ('names', 'hashed')), 'pinkctl serve': Serve(folder, 'serve', 7422, CLIENTS)}
    if os.environ.get('PINKCTL_BEFORE'):
        servers['pinkctl serve before'] = Serve(folder, 'before', 7423, os.environ['PINKCTL_BEFORE'])
    servers['Redis, no AOF'] = Plain(folder, 7424, '--appendonly', 'no')
    servers['Redis, AOF everysec'] = Plain(folder, 7425, '--appendonly', 'yes', '--appendfsync', 'everysec')
    ports = dict(zip(servers, [7420, 7421, 7422, *([7423] if len(servers) == 6 else []), 7424, 7425]))
    time.sleep(1)
    found = {}
    for _ in range(turns):
        for case in CASES:
            for name, it in servers.items():
                found.setdefault((case, name), []).append(measure(ports[name], it.pids, case))
    print(f'load {os.getloadavg()[0]:.1f} of {os.cpu_count()} processors, {turns} turns, values of 100 bytes')
    print('| test | clients | at once | ' + ' | '.join(servers) + ' |\n|' + '---|' * (3 + len(servers)))
    for case in CASES:
        row = []
        for name in servers:
            rate, mine, its = (statistics.median(it) for it in zip(*found[case, name]))
            row.append((f'{mine:.1f} + {its:.1f}' if its else f'{mine:.1f}') + f' ({rate:,.0f}/s)')
        print('| ' + ' | '.join([*map(str, case), *row]) + ' |')


if __name__ == '__main__':
    main(int(sys.argv[1]) if len(sys.argv) > 1 else 5)
