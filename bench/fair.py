"""What another client's GET waits for, and how much memory `pinkctl serve` takes, while some clients ask much or read nothing.

    bench/redis.sh --fair

Each row has a server of its own: values of 60,000 bytes in shape (4096, 64, 512), of 1,000,000 bytes in (16384, 256, 64). The times are
of 100 GETs of a missing key on a connection of its own. It ends with 1 if one of them took 50 ms or more, or if the server took
64 MiB more than with nothing else to do. PINKCTL_BEFORE names a folder clients/python of another version.
"""

import multiprocessing
import os
import signal
import subprocess
import sys
import tempfile
import time

from servers import CLIENTS, PROGRAM, Link, make, request

PAGES = {60000: (4096, 64, 512), 1000000: (16384, 256, 64)}


def resident(process):
    with open(f'/proc/{process}/statm') as file:
        return int(file.read().split()[1]) * 4096 >> 20


READS, SLOWLY, NOTHING = range(3)


def flood(place, count, way):
    """A client that pipelines GETs and reads the replies, reads them slowly, or reads nothing; a process of its own."""
    it = Link(place, 600)
    try:
        while True:
            it.socket.sendall(request('GET', 'big') * count)
            if way == NOTHING:
                time.sleep(600)
            for _ in range(count):
                it.raw()
                if way == SLOWLY:
                    time.sleep(0.02)
    except OSError:
        pass


ROWS = [
    ('nothing', 60000, 0, 0, READS),
    ('one client asks for 1,000 values of 60 KB at a time, and reads them', 60000, 1, 1000, READS),
    ('one client asks for 1,000 values of 60 KB, and reads 50 a second', 60000, 1, 1000, SLOWLY),
    ('one client asks for 4,000 values of 60 KB, and reads nothing', 60000, 1, 4000, NOTHING),
    ('one client asks for 1,500 values of 1 MB, and reads nothing', 1000000, 1, 1500, NOTHING),
    ('20 clients ask for 3,000 values of 60 KB, and read nothing', 60000, 20, 3000, NOTHING),
    ('20 clients ask for 1,000 values of 60 KB, and read 50 a second each', 60000, 20, 1000, SLOWLY),
    ('20 clients ask for 200 values of 60 KB at a time, and read them', 60000, 20, 200, READS),
]


def row(folder, clients_folder, length, clients, count, way):
    image, place = f'{folder}/fair.img', f'{folder}/fair.sock'
    make(image, *PAGES[length])
    words = [sys.executable, '-m', 'pinkctl', 'serve', image, '--socket', place]
    server = subprocess.Popen(words, cwd=clients_folder, stdout=subprocess.PIPE, text=True, env={**os.environ, 'PINK_PROGRAM': PROGRAM})
    floods = []
    try:
        server.stdout.readline()
        it = Link(place, 600)
        it.sure('SET', 'big', 'x' * length)
        for _ in range(clients):
            floods.append(multiprocessing.Process(target=flood, args=(place, count, way), daemon=True))
            floods[-1].start()
        time.sleep(1)
        times, most = [], 0
        for _ in range(100):
            began = time.monotonic()
            it.sure('GET', 'none')
            times.append(1000 * (time.monotonic() - began))
            most = max(most, resident(server.pid))
        server.send_signal(signal.SIGTERM)
        began = time.monotonic()
        server.wait(600)
        return most, sorted(times)[50], max(times), time.monotonic() - began
    finally:
        server.kill()
        server.wait()
        for other in floods:
            other.kill()
            other.join()
        os.unlink(image)


def main():
    folder_of_clients = os.environ.get('PINKCTL_BEFORE', CLIENTS)
    print(f'load {os.getloadavg()[0]:.1f} of {os.cpu_count()} processors')
    print('| others do | memory | another client\'s GET, median | the worst of 100 | TERM ends it in |\n|---|---|---|---|---|')
    base, faults = 0, []
    with tempfile.TemporaryDirectory() as folder:
        for name, *more in ROWS:
            most, median, worst, end = row(folder, folder_of_clients, *more)
            print(f'| {name} | {most} MB | {median:.1f} ms | {worst:.1f} ms | {end:.1f} s |', flush=True)
            base = base or most
            if worst >= 50 or most >= base + 64:
                faults.append(name)
    sys.exit('fair.py: too slow or too large: ' + '; '.join(faults) if faults else None)


if __name__ == '__main__':
    main()
