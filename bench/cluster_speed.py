"""Requests a second and processor time a request of clusters of several drives on this machine, without replicas.

    bench/redis.sh --cluster-speed [N..]      N drives each; 1, 2 and 4 by default

redis-benchmark asks with 50 connections in cluster mode, values of 100 bytes, three times; the table has medians. Its keys have
22 bytes there, so the names are hashed: a SET reads once more. The processor time is that of all servers and of all programs of the
drives, in microseconds a request.
"""

import os
import statistics
import subprocess
import sys
import tempfile
import time

from module_speed import used
from servers import CLIENTS, PROGRAM, TOP, module, skip_without

sys.path.insert(0, CLIENTS)
from pinkctl.nodes import Node  # noqa: E402

PORT, CASES, COUNT = 7700, (('set', 1), ('get', 1), ('set', 16), ('get', 16)), 10000


def pinkctl(*words):
    subprocess.run([TOP + '/pinkctl', 'cluster', *words], check=True, stdout=subprocess.DEVNULL, env={**os.environ, 'PINK_PROGRAM': PROGRAM})


def processes(folder, count):
    """The servers, and the programs of their drives."""
    servers, drives = [], []
    for port in range(PORT, PORT + count):
        with open(f'{folder}/{port}/pid') as file:
            servers.append(int(file.read()))
        with Node(port) as node:
            drives.append(int(node.info('pink_drive')['pink_program']))
    return servers, drives


def measure(pids, test, depth):
    before, began = [sum(map(used, it)) for it in pids], time.monotonic()
    cluster = ['--cluster'] if len(pids[0]) > 1 else []  # it takes no cluster of one
    words = ['redis-benchmark', *cluster, '-p', str(PORT), '-t', test, '-n', str(COUNT), '-c', '50', '-P', str(depth), '-r', '5000', '-d', '100', '-q']
    subprocess.run(words, capture_output=True, check=True)
    seconds = time.monotonic() - began
    return (COUNT / seconds, *((sum(map(used, it)) - was) / COUNT for it, was in zip(pids, before)))


def main(counts):
    skip_without('redis-server', 'redis-benchmark', 'gcc', 'make')
    module()
    print(f'load {os.getloadavg()[0]:.1f} of {os.cpu_count()} processors')
    print('| drives | ' + ' | '.join(f'{test}, {depth} at once' for test, depth in CASES) + ' |\n|' + '---|' * (1 + len(CASES)))
    for count in counts:
        with tempfile.TemporaryDirectory() as folder:
            folder += '/cluster'
            pinkctl('make', folder, str(count), '4096', '64', '512', '--replicas', '0', '--names', 'hashed', '--port', str(PORT))
            try:
                pinkctl('start', folder)
                pids, row = processes(folder, count), []
                for test, depth in CASES:
                    rate, mine, its = (statistics.median(it) for it in zip(*(measure(pids, test, depth) for _ in range(3))))
                    row.append(f'{mine:.1f} + {its:.1f} ({rate:,.0f}/s)')
                print(f'| {count} | ' + ' | '.join(row) + ' |', flush=True)
            finally:
                pinkctl('stop', folder)


if __name__ == '__main__':
    main([int(it) for it in sys.argv[1:]] or [1, 2, 4])
