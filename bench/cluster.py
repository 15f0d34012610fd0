"""Tries replicas and a cluster of drives: what bench/cluster.sh says."""

import binascii
import glob
import os
import random
import shutil
import signal
import subprocess
import sys
import tempfile
import threading
import time

from servers import CLIENTS, PROGRAM, TOP, Error, Link, Server, contents, fields, module, skip_without

sys.path.insert(0, CLIENTS)
from pinkctl.nodes import Node, owner  # noqa: E402
from pinkctl.status import ToolError  # noqa: E402

PORT, SHORT, LONG = int(os.environ.get('PINK_TEST_PORT', 7600)), 3000, 15000
TAGS = [f's{number}' for number in range(8)]
"""All keys of the writers have one of these tags, and so are in eight slots."""
checks = 0


def check(what, holds, *more):
    global checks
    checks += 1
    if not holds:
        sys.exit(f'cluster.py: failed after {checks - 1} checks: {what} {more if more else ""}')


def until(what, holds, seconds=300):
    last = time.monotonic() + seconds
    while not holds():
        check(what, time.monotonic() < last)
        time.sleep(0.05)


# Pairs of servers.


def follow(replica, primary):
    replica.link().sure('REPLICAOF', '127.0.0.1', primary.port)
    until('the replica has a link', lambda: replica.info('replication').get('master_link_status') == 'up')


def pair(folder, name, port, words=()):
    primary, replica = (Server(folder, f'{name}{i}', port + i, words=words) for i in range(2))
    follow(replica, primary)
    return primary, replica


def equal(primary, replica):
    until('the replica catches up', lambda: replica.info('replication')['slave_repl_offset'] == primary.info('replication')['master_repl_offset'])
    return contents(primary.link()) == contents(replica.link())


def end(*servers):
    for it in servers:
        it.kill()


def try_wait(folder):
    """WAIT says that a change is on the flash of replicas, not that it was sent."""
    primary, replica = pair(folder, 'wait', PORT)
    it = primary.link()
    for turn in range(5):
        check('WAIT with a replica', it.sure('SET', 'w', turn) == 'OK' and it.sure('WAIT', 1, 5000) == 1)
        time.sleep(1.2)  # all is acknowledged
        os.kill(replica.process.pid, signal.SIGSTOP)
        it.send('SET', 'w', 'x')
        it.send('WAIT', 1, 100)
        check('WAIT with a stopped replica says 0', [it.reply(), it.reply()] == ['OK', 0])
        os.kill(replica.process.pid, signal.SIGCONT)
    end(primary, replica)


def try_dump(folder):
    """A dump of Redis is older than the drive: a replica must not go on from it."""
    primary, replica = pair(folder, 'dump', PORT)
    it = primary.link()
    check('a key', it.sure('SET', 'k', 3) == 'OK' and it.sure('WAIT', 1, 5000) == 1)
    replica.kill()
    check('a dump', it.sure('SAVE') == 'OK')
    check('a change after it', it.sure('SET', 'k', 4) == 'OK')
    primary.kill()
    primary.start()
    check('the dump is not loaded over the drive', primary.link().sure('GET', 'k') == b'4')
    replica.start()
    follow(replica, primary)
    check('both have the change after the dump', equal(primary, replica) and replica.link().sure('GET', 'k') == b'4')
    end(primary, replica)


def try_smaller(folder):
    """A replica whose drive has less room than its primary's ends, says so, and does not begin again."""
    primary, replica = Server(folder, 'large', PORT), Server(folder, 'small', PORT + 1, shape=(4096, 64, 16))
    follow(replica, primary)
    it, last = primary.link(), 0
    for number in range(1000):
        check('the primary takes it', it.sure('SET', f'key:{number}', 'x' * 8000) == 'OK')
        last = it.sure('WAIT', 1, 10000)
        if not last:
            break
    check('WAIT no longer counts the replica', last == 0 and number > 20)
    check('it ends with 14', replica.process.wait(30) == 14)
    with open(replica.image + '.partial') as mark:
        check('the mark says why', 'refused: no space for the key' in mark.read())
    replica.start_only()
    check('it does not begin again', replica.process.wait(30) == 1)
    check('its log says what to do', "Put a drive with the primary's room in its place" in replica.last_lines(), replica.last_lines())
    end(primary, replica)


def try_hashed(folder):
    """A pair with names of any length; a replica whose names are plain ends."""
    primary, replica = pair(folder, 'hashed', PORT, ('names', 'hashed'))
    it = primary.link()
    for number in range(300):
        it.sure('SET', f'user:{number}@example.org' * (1 + number % 3), number)
    it.sure('DEL', 'user:7@example.org' * 2, 'none')
    third = Server(folder, 'third', PORT + 2, words=('names', 'hashed'))
    follow(third, primary)
    check('both replicas are equal', equal(primary, replica) and equal(primary, third) and it.sure('DBSIZE') == 299)
    third.kill()
    replica.link().sure('REPLICAOF', 'NO', 'ONE')
    primary.kill()
    check('a replica has the names', replica.link().sure('GET', 'user:8@example.org' * 3) == b'8')
    plain = Server(folder, 'plain', PORT + 3)
    plain.link().sure('SET', 'own', 'x')
    plain.link().sure('REPLICAOF', '127.0.0.1', replica.port)
    check('a replica with plain names ends with 14', plain.process.wait(60) == 14)
    plain.start()
    check('and its drive is as it was', plain.link().sure('GET', 'own') == b'x')
    end(plain, replica)


def fill(server, keys, length=1000):
    it = server.link()
    for first in range(0, keys, 200):
        it.sure('MSET', *(word for i in range(first, first + 200) for word in (f'{i}', f'{i}' * (length // 4))))


def try_broken_copies(folder):
    """A full synchronisation is broken off: on the replica, on the primary, and by the end of the child that saves."""
    primary, replica = Server(folder, 'copies0', PORT), Server(folder, 'copies1', PORT + 1)
    fill(primary, 8000)
    fill(replica, 400)
    partial = replica.image + '.partial'
    broken = 0
    for turn in range(6):
        replica.link().sure('REPLICAOF', '127.0.0.1', primary.port)
        last = time.monotonic() + 20
        while not os.path.exists(partial) and time.monotonic() < last:
            time.sleep(0.001)
        time.sleep(0.01 * turn)
        (primary if turn % 3 == 2 else replica).kill()
        broken += os.path.exists(partial)
        if turn % 3 == 2:
            replica.kill()
            primary.start()
        if os.path.exists(partial):
            replica.start()
            reply = replica.link().do('GET', '1')
            check('a part of a copy is not served', isinstance(reply, Error) and str(reply).startswith('MASTERDOWN'), reply)
            third = Server(folder, f'third{turn}', PORT + 2)
            third.link().sure('SET', 'own', 'x')
            follow(third, replica)
            reply = third.link().do('GET', 'own')
            check('nor copied: who follows it keeps its keys and serves none', isinstance(reply, Error) and str(reply).startswith('MASTERDOWN'), reply)
            third.kill()
            third.start()
            check('they are there', third.link().sure('GET', 'own') == b'x')
            third.kill()
        else:
            replica.start()
        follow(replica, primary)
        check('a whole copy ends it', not os.path.exists(partial) and equal(primary, replica) and primary.link().sure('DBSIZE') == 8000)
        replica.link().sure('REPLICAOF', 'NO', 'ONE')
        replica.link().sure('SET', f'more{turn}', 'x')  # so that the next one has to copy all
    check('copies were broken off', broken >= 2, broken)
    try_killed_children(primary, replica)
    end(primary, replica)


def child_of(process):
    """The process that Redis forked to save, if there is one; the program of the drive is another child."""
    with open(f'/proc/{process}/task/{process}/children') as file:
        for word in file.read().split():
            try:
                with open(f'/proc/{word}/cmdline') as line:
                    if line.read().startswith('redis'):
                        return int(word)
            except OSError:
                pass
    return None


def try_killed_children(primary, replica):
    killed = 0
    for turn in range(3):
        replica.link().sure('REPLICAOF', '127.0.0.1', primary.port)
        last, child = time.monotonic() + 20, None
        while child is None and time.monotonic() < last:
            child = child_of(primary.process.pid)
        if child:
            os.kill(child, signal.SIGKILL)
            killed += 1
        until('the replica has a link', lambda: replica.info('replication').get('master_link_status') == 'up')
        check('equal after a child was killed', equal(primary, replica))
        replica.link().sure('REPLICAOF', 'NO', 'ONE')
        replica.link().sure('SET', f'again{turn}', 'x')
    check('children were killed', killed)


# The cluster.


def pinkctl(*words, wanted=0, on=()):
    """What `pinkctl cluster` prints; `on` are the words before it, for another machine."""
    line = [*on, TOP + '/pinkctl', 'cluster', *map(str, words)]
    run = subprocess.run(line, capture_output=True, text=True, timeout=300, env={**os.environ, 'PINK_PROGRAM': PROGRAM})
    check(f'pinkctl cluster {" ".join(map(str, words[:1]))} ends with {wanted}', run.returncode == wanted, run.returncode, run.stdout[-1500:], run.stderr[-500:])
    return run.stdout + run.stderr


class Cluster:
    """Three primaries and their replicas; a server that is silent for `timeout` ms counts as failed."""

    on = ()
    count = 3

    def __init__(self, folder, port, timeout):
        self.folder = folder + '/cluster'
        pinkctl('make', self.folder, 3, 4096, 64, 512, '--port', port, '--timeout', timeout)
        self.ports = range(port, port + 6)
        pinkctl('start', self.folder)

    def node(self, port, seconds=60):
        return Node(port, seconds)

    def link(self, port, seconds=8):
        return Link(port, seconds)

    def start(self):
        pinkctl('start', self.folder)

    def stop(self):
        pinkctl('stop', self.folder)

    def seen(self, ports=None):
        """What a server that runs says of all."""
        for port in ports or self.ports:
            try:
                with self.node(port, 5) as node:
                    return node.seen()
            except (ToolError, OSError, StopIteration):
                pass
        return []

    def primaries(self, ports=None):
        return {it.port: it for it in self.seen(ports) if it.is_primary() and it.slots and 'fail' not in it.flags}

    def replicas(self):
        """The primary of each replica."""
        seen = self.seen()
        ports = {it.id: it.port for it in seen}
        return {it.port: ports.get(it.primary) for it in seen if it.primary}

    def process(self, port):
        with open(f'{self.folder}/{port}/pid') as file:
            return int(file.read())

    def is_whole(self):
        try:
            for port in self.ports:
                with self.node(port, 5) as node:
                    told = node.info('replication')
                    if not node.is_ok() or told['role'] == 'slave' and told['master_link_status'] != 'up':
                        return False
            return len(self.replicas()) == self.count
        except (ToolError, OSError):
            return False

    def check(self):
        until('the cluster is whole', self.is_whole)
        told = pinkctl('check', self.folder, on=self.on)
        check('all pairs were compared', told.count(', 0 differ') == self.count, told)
        return told


class Router:
    """A client that follows MOVED."""

    def __init__(self, cluster):
        self.cluster, self.ports, self.links, self.at = cluster, list(cluster.ports), {}, {}

    def link(self, port):
        if port not in self.links:
            self.links[port] = self.cluster.link(port)
        return self.links[port]

    def leave(self, port):
        it = self.links.pop(port, None)
        if it:
            it.abort()

    def do(self, key, *words, wait=0):
        """The reply of who has the key; with `wait` also how many replicas have it."""
        for _ in range(20):
            port = self.at.get(key, self.ports[0])
            try:
                it = self.link(port)
                it.send(*words)
                if wait:
                    it.send('WAIT', wait, 3000)
                reply, copies = it.reply(), it.reply() if wait else 0
                copies = 0 if isinstance(copies, Error) else copies  # the server has become a replica meanwhile
            except OSError:
                self.leave(port)
                self.at[key] = random.choice(self.ports)
                raise
            if not isinstance(reply, Error):
                return (reply, copies) if wait else reply
            if not str(reply).startswith('MOVED'):
                self.at[key] = random.choice(self.ports)
                raise reply
            self.at[key] = int(str(reply).rpartition(':')[2])
        raise Error('no server has the key')


class Writer(threading.Thread):
    """A client of the cluster that changes keys of its own, and notes what was answered, by the server and by WAIT 1."""

    acts = 0  # so that no act has the keys of another

    def __init__(self, cluster, number, wait):
        super().__init__(daemon=True)
        self.it, self.draw, self.wait = Router(cluster), random.Random(number), wait
        self.front = f'{Writer.acts}:{number}'
        self.held, self.doubt, self.answered, self.failed, self.wrong, self.stop = {}, {}, 0, 0, 0, False

    def step(self):
        draw = self.draw.randrange(60)
        key = f'{{{TAGS[draw % len(TAGS)]}}}{self.front}:{draw}'
        what = self.draw.random()
        if what < 0.2 and key not in self.doubt:
            self.wrong += self.it.do(key, 'GET', key) != self.held.get(key)
            return
        value = None if what < 0.35 else b'%d/%d' % (self.answered, self.failed)
        self.doubt.setdefault(key, []).append(value)
        words = ('DEL', key) if value is None else ('SET', key, value)
        if self.wait:
            _, copies = self.it.do(key, *words, wait=1)
            if not copies:
                return  # it stays in doubt
        else:
            self.it.do(key, *words)
        self.held[key] = value
        self.doubt.pop(key)
        self.answered += 1

    def run(self):
        while not self.stop:
            try:
                self.step()
            except (OSError, Error):
                self.failed += 1
                time.sleep(0.05)

    def lost(self):
        """The keys that do not hold what was answered, or a later change in doubt; all others are known now."""
        it = Router(self.it.cluster)  # the links of the writer may be to servers that were lost
        found = {key: it.do(key, 'GET', key) for key in {*self.held, *self.doubt}}
        lost = [(key, value, self.held.get(key)) for key, value in found.items() if value not in [self.held.get(key), *self.doubt.get(key, [])]]
        self.held, self.doubt = dict(found), {}
        return lost


def with_writers(cluster, count, wait, act):
    """Runs `act` under writers; then every answered change is looked for."""
    Writer.acts += 1
    writers = [Writer(cluster, number, wait) for number in range(count)]
    for it in writers:
        it.start()
    act()
    for it in writers:
        it.stop = True
    for it in writers:
        it.join(60)
    until('the cluster is whole', cluster.is_whole)
    lost = [it for writer in writers for it in writer.lost()]
    check('nothing that was answered is lost', not lost, lost[:5])
    check('no read was wrong', not sum(it.wrong for it in writers), [it.wrong for it in writers])
    return sum(it.answered for it in writers), sum(len(it.held) for it in writers)


def try_failures(cluster, kills):
    """Primaries are killed, and each is replaced by its replica; WAIT 1 after each change."""
    times = []

    def act():
        for turn in range(kills):
            until('the cluster is whole', cluster.is_whole)
            time.sleep(0.5)
            victim = random.choice(sorted(cluster.primaries()))
            with cluster.node(victim) as node:
                drive = int(node.info('pink_drive')['pink_program'])
            began = time.monotonic()
            os.kill((cluster.process(victim), drive)[turn % 2], signal.SIGKILL)
            until('another server takes over', lambda: victim not in cluster.primaries() and len(cluster.primaries()) == 3)
            times.append(time.monotonic() - began)
            cluster.start()
            print(f'\r{turn + 1} of {kills} primaries killed', end='', file=sys.stderr)
        print(file=sys.stderr)

    answered, keys = with_writers(cluster, 8, 1, act)
    cluster.check()
    return f'{kills} primaries killed, replaced in {min(times):.1f} to {max(times):.1f} s: {answered} changes answered with WAIT 1, {keys} keys looked at, none lost'


def fail_over(cluster, port):
    """CLUSTER FAILOVER at a replica."""
    with cluster.node(port) as node:
        for _ in range(20):  # a busy machine may be too slow for the votes: then Redis gives up
            node.do('CLUSTER', 'FAILOVER')
            last = time.monotonic() + 8
            while node.info('replication')['role'] != 'master' and time.monotonic() < last:
                time.sleep(0.02)
            if node.info('replication')['role'] == 'master':
                break
        check('the replica takes over', node.info('replication')['role'] == 'master')


def try_planned(cluster, turns):
    """Planned failovers under writers.

    Within four times the timeout after its last election Redis 7.0.15 lets a server take over by the votes of that election, with
    its old epoch, and takes that back at once. So no server takes over twice within that time.
    """
    pause = 4 * SHORT / 1000 + 1
    since = {}

    def act():
        for turn in range(turns):
            until('the cluster is whole', cluster.is_whole)
            rested = []
            while not rested:
                rested = [port for port in sorted(cluster.replicas()) if time.monotonic() - since.get(port, -pause) >= pause]
                time.sleep(0.1)
            replica = random.choice(rested)
            fail_over(cluster, replica)
            since[replica] = time.monotonic()
            print(f'\r{turn + 1} of {turns} planned failovers', end='', file=sys.stderr)
            time.sleep(0.5)
        print(file=sys.stderr)

    answered, keys = with_writers(cluster, 8, 1, act)
    cluster.check()
    return f'{turns} planned failovers: {answered} changes, {keys} keys looked at, none lost'


def a_move(cluster):
    """A slot with keys, who has it, and another primary."""
    slot = slot_of(random.choice(TAGS))
    source = owner(cluster.seen(), slot).port
    return slot, source, random.choice(sorted({*cluster.primaries()} - {source}))


def check_moved(cluster, source, first, last):
    """Another server than the source has the slots, and the source keeps no key of them."""
    until('the others see who has the slot', lambda: getattr(owner(cluster.seen(), first), 'port', source) != source)
    with cluster.node(source) as node:
        left = sum(node.do('CLUSTER', 'COUNTKEYSINSLOT', slot) for slot in range(first, last + 1))
    check('the source keeps no key', left == 0, left)


def end_move(cluster, kill):
    """Ends a move that a kill broke off; False if there was none. A busy machine may take too long for a pause: then it is run again."""
    if not os.path.exists(cluster.folder + '/move.json'):
        return False
    last = time.monotonic() + 300
    while True:
        until('the cluster is whole', cluster.is_whole)
        run = subprocess.run([*cluster.on, TOP + '/pinkctl', 'cluster', 'move-slots', cluster.folder], capture_output=True, text=True)
        if run.returncode == 0:
            return True
        is_slow = ('took more than' in run.stderr or 'CLUSTERDOWN' in run.stderr) and time.monotonic() < last
        check(f'a second run ends the move that was broken off by a kill {kill}', is_slow, run.stderr)


def try_moves(cluster, kills):
    """move-slots is killed at random moments under writers, and run again until it ends."""
    killed, moved = 0, 0

    def act():
        nonlocal killed, moved
        words = [*cluster.on, TOP + '/pinkctl', 'cluster', 'move-slots', cluster.folder]
        for turn in range(kills):
            first, source, target = a_move(cluster)
            last = min(first + 3, max(end for start, end in cluster.primaries()[source].slots if start <= first <= end))
            tool = subprocess.Popen([*words, str(source), str(target), f'{first}-{last}'], stdout=subprocess.DEVNULL)
            while tool.poll() is None and not os.path.exists(cluster.folder + '/move.json'):
                time.sleep(0.01)
            time.sleep(random.random() * random.choice([0.05, 0.2, 0.5]))
            tool.kill()
            killed += tool.wait() == -signal.SIGKILL
            end_move(cluster, 'at a moment')
            if owner(cluster.seen(), first).port == target:
                moved += last - first + 1
                check_moved(cluster, source, first, last)
            print(f'\r{turn + 1} of {kills} moves', end='', file=sys.stderr)
        print(file=sys.stderr)

    answered, keys = with_writers(cluster, 8, 0, act)
    cluster.check()
    check('moves were killed and slots moved', killed and moved, killed, moved)
    return f'move-slots killed {killed} of {kills} times, {moved} slots moved: {answered} changes, {keys} keys looked at, none lost, no read wrong'


def broken_move(cluster, step, victim, *words):
    """Its last line, if it came to its end; `victim` is the tool itself (0) or the port of a server."""
    process = cluster.process(victim) if victim else 0
    tool = [*cluster.on, sys.executable, os.path.join(TOP, 'bench', 'broken_move.py'), step, process, cluster.folder, *words]
    run = subprocess.run([str(it) for it in tool], capture_output=True, text=True, timeout=120)
    check('the tool ends by itself or is killed', run.returncode >= 0 or run.returncode == -signal.SIGKILL, run.returncode, run.stderr)
    return run.stdout.splitlines()[-1] if run.returncode == 0 else ''


def try_move_steps(cluster, kinds, stride):
    """The tool, the source or the target is killed before every step of a move, or every so many steps, and a second run ends it."""
    told = []
    for kind in kinds:

        def act(kind=kind):
            step, ends = random.randint(1, stride), 0
            while ends < 2:  # until a move came to its end before that step, twice
                until('the cluster is whole', cluster.is_whole)
                slot, source, target = a_move(cluster)
                said = broken_move(cluster, step, {'tool': 0, 'source': source, 'target': target}[kind], source, target, slot)
                if kind != 'tool':
                    cluster.start()
                if end_move(cluster, f'of its {kind} before step {step}'):
                    check_moved(cluster, source, slot, slot)
                ends += said.endswith(' steps')
                step += stride
                print(f'\r{step} steps, {kind}', end='', file=sys.stderr)
            told.append(f'{kind} before {(step - 1) // stride} steps')

        answered, keys = with_writers(cluster, 4, 1, act)
        told[-1] += f' ({answered} changes, {keys} keys looked at)'
        cluster.check()
    return 'a move that lost its ' + ', its '.join(told) + ': ended by a second run, nothing lost'


def try_changes_of_a_pause(cluster, turns):
    """A change that was begun when a pause came is refused if its slot was given away in the pause."""
    held = 0
    port, target = sorted(cluster.primaries())[:2]
    slot = 0
    while not cluster.primaries()[port].has(slot):
        slot += 100
    key = next(f'{{p{i}}}' for i in range(10**6) if slot_of(f'p{i}') == slot)
    with cluster.node(port) as source, cluster.node(target) as other:
        ids = source.id(), other.id()
        for turn in range(turns):
            links = [cluster.link(port, 60) for _ in range(8)]
            os.kill(cluster.process(port), signal.SIGSTOP)
            for number, it in enumerate(links):
                it.send(*(('SET', f'{key}{number}', turn) if number != turn % 8 else ('CLIENT', 'PAUSE', 5000, 'WRITE')))
            os.kill(cluster.process(port), signal.SIGCONT)
            check('the pause begins', links[turn % 8].reply() == 'OK')
            before = [source.do('PINK.VALUE', f'{key}{number}') for number in range(8)]
            source.do('CLUSTER', 'SETSLOT', slot, 'NODE', ids[1])
            source.do('CLIENT', 'UNPAUSE')
            for number, it in enumerate(links):
                if number == turn % 8:
                    continue
                reply = str(it.reply())
                held += reply.startswith('TRYAGAIN')
                done = before[number] == b'%d' % turn
                check('done before, or refused', done if reply == 'OK' else reply.startswith(('MOVED', 'TRYAGAIN')) and not done, reply, before)
                check('nothing was done after it', source.do('PINK.VALUE', f'{key}{number}') == before[number])
                it.close()
            source.do('CLUSTER', 'SETSLOT', slot, 'NODE', ids[0])
    check('changes were held', held)
    return f'{turns} pauses in which a slot was given away: {held} changes that had begun were refused'


def slot_of(name):
    return binascii.crc_hqx(name.encode(), 0) % 16384


def try_cluster(folder, port, timeout, *parts):
    """These parts, on a cluster of their own."""
    cluster = Cluster(folder, port, timeout)
    try:
        refused = subprocess.run(['redis-cli', '-p', str(port), 'CLUSTER', 'SETSLOT', '1', 'MIGRATING', '0' * 40], capture_output=True, text=True).stdout
        check('slots are not moved by redis-cli', 'unknown command' in refused, refused)
        for part in parts:
            print(part(cluster), flush=True)
    finally:
        cluster.stop()
    told_of = pinkctl('check', cluster.folder)
    check('each image is whole', told_of.count('whole') == 6, told_of)


def try_pairs(folder, kills):
    for part in (try_wait, try_dump, try_smaller, try_hashed, try_broken_copies):
        part(folder)
        print(f'{part.__name__}: {checks} checks so far', flush=True)
        for image in glob.glob(folder + '/*.img*'):
            os.unlink(image)


def all_moves(folder, kills):
    try_cluster(folder, PORT + 10, LONG, lambda it: try_changes_of_a_pause(it, kills), lambda it: try_moves(it, 2 * kills))


def all_steps(folder, kills):
    stride = max(1, 20 // kills)
    try_cluster(folder, PORT + 20, LONG, lambda it: try_move_steps(it, ['tool'], stride), lambda it: try_move_steps(it, ['source', 'target'], 8 * stride))


def all_planned(folder, kills):
    try_cluster(folder, PORT + 30, SHORT, lambda it: try_planned(it, kills))


def all_kills(folder, kills):
    try_cluster(folder, PORT + 40, SHORT, lambda it: try_failures(it, kills))


PARTS = {'pairs': try_pairs, 'moves': all_moves, 'steps': all_steps, 'planned': all_planned, 'kills': all_kills}
"""What is tried at once; each part has ports of its own."""


def try_part(kills, name):
    random.seed(kills)
    folder = tempfile.mkdtemp()
    try:
        PARTS[name](folder, kills)
    except BaseException:
        print(f'{name}: what the servers said is in {folder}', flush=True)
        raise
    shutil.rmtree(folder)
    print(f'{name}: {checks} checks passed', flush=True)


def main(kills, *names):
    skip_without('redis-server', 'redis-cli', 'gcc', 'make')
    module()
    if len(names) == 1:
        return try_part(kills, *names)
    names = names or tuple(PARTS)
    runs = [subprocess.Popen([sys.executable, __file__, str(kills), name]) for name in names]
    faults = [name for name, run in zip(names, runs) if run.wait()]
    sys.exit(f'cluster.sh: failed: {", ".join(faults)}' if faults else None)


if __name__ == '__main__':
    main(int(sys.argv[1]) if len(sys.argv) > 1 else 20, *sys.argv[2:])
