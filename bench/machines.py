"""Tries clusters over two and three machines: what bench/machines.sh says.

A machine is a network namespace with an address, a folder and a link to a switch, which is a bridge in a namespace of its own. The
writers are in one more.
"""

import atexit
import ctypes
import os
import random
import shutil
import signal
import subprocess
import sys
import tempfile
import threading
import time

import cluster as base
from cluster import CLIENTS, LONG, SHORT, Cluster, Link, Router, a_move, broken_move, check, check_moved, fail_over, pinkctl, slot_of, try_moves, until, with_writers
from servers import Error, module, skip_without

sys.path.insert(0, CLIENTS)
from pinkctl.nodes import Node  # noqa: E402

PORT, PASSWORD = 7400, 'a-password-of-these-tests'


def ip(*words, wanted=True):
    run = subprocess.run(['ip', *map(str, words)], capture_output=True, text=True)
    if wanted and run.returncode:
        sys.exit(f'ip {" ".join(map(str, words))}: {run.stderr}')
    return run.stdout


class Machine:
    """A network namespace that is linked to the switch."""

    def __init__(self, network, number):
        self.name, self.address = f'{network.name}-{number}', f'10.98.7.{number}'
        self.folder = f'{network.folder}/{number}'
        self.store = f'{self.folder}/store'
        os.mkdir(self.folder)
        ip('netns', 'add', self.name)
        ip('link', 'add', 'eth0', 'netns', self.name, 'type', 'veth', 'peer', 'name', f'to{number}', 'netns', network.switch)
        ip('-n', network.switch, 'link', 'set', f'to{number}', 'master', 'switch', 'up')
        ip('-n', self.name, 'address', 'add', f'{self.address}/24', 'dev', 'eth0')
        ip('-n', self.name, 'link', 'set', 'lo', 'up')
        self.link('up')
        self.on = ['ip', 'netns', 'exec', self.name]

    def link(self, state):
        ip('-n', self.name, 'link', 'set', 'eth0', state)

    def pinkctl(self, word, *words, wanted=0):
        return pinkctl(word, self.store, *words, wanted=wanted, on=self.on)

    def lose(self):
        """Its link is down, and all of its processes are killed."""
        self.link('down')
        for _ in range(50):
            processes = ip('netns', 'pids', self.name, wanted=False).split()
            for process in processes:
                try:
                    os.kill(int(process), signal.SIGKILL)
                except ProcessLookupError:
                    pass
            if not processes:
                return
            time.sleep(0.02)
        sys.exit(f'{self.name} has processes that do not end')

    def cut(self, others, state):
        """Nothing goes to the others, nor comes from them; clients still reach all."""
        for it, other in [(self, other) for other in others] + [(other, self) for other in others]:
            ip('-n', it.name, 'route', state, 'blackhole', f'{other.address}/32')


class Network:
    """A switch, machines, and a place for clients, in which this process is from then on."""

    def __init__(self, folder, name):
        self.folder, self.name, self.switch = folder, name, f'{name}-switch'
        atexit.register(self.remove)
        ip('netns', 'add', self.switch)
        ip('-n', self.switch, 'link', 'add', 'switch', 'type', 'bridge')
        ip('-n', self.switch, 'link', 'set', 'switch', 'up')
        self.client = Machine(self, 100)
        with open(f'/run/netns/{self.client.name}') as place:
            if ctypes.CDLL(None, use_errno=True).setns(place.fileno(), 0x40000000):  # CLONE_NEWNET
                sys.exit('this process cannot enter a network namespace')

    def machines(self, count):
        self.last = count
        return [Machine(self, number + 1) for number in range(count)]

    def another(self):
        """A machine with an address of its own."""
        self.last += 1
        return Machine(self, self.last)

    def remove(self):
        for name in (line.split()[0] for line in ip('netns').splitlines() if line.startswith(self.name + '-')):
            for process in ip('netns', 'pids', name, wanted=False).split():
                if int(process) != os.getpid():
                    try:
                        os.kill(int(process), signal.SIGKILL)
                    except ProcessLookupError:
                        pass
            ip('netns', 'del', name, wanted=False)


class Machines(Cluster):
    """A cluster over machines, made and started on each by the same words."""

    def __init__(self, folder, name, machines, count, *words, voter=False, timeout=SHORT):
        self.network = Network(folder, name)
        self.machines = self.network.machines(machines)
        self.secret = folder + '/secret'
        with open(self.secret, 'w') as file:
            file.write(PASSWORD + '\n')
        hosts = [it.address for it in self.machines]
        self.words = [count, 4096, 64, 512, '--timeout', timeout, '--password-file', self.secret, '--hosts', ','.join(hosts[: len(hosts) - voter])]
        self.words += [*(['--voter', hosts[-1]] if voter else []), *words]
        self.count = count + voter
        self.ports = range(PORT, PORT + 2 * self.count)
        self.folder, self.since = self.machines[0].store, {}
        self.rest = 4 * timeout / 1000 + 1  # no server takes over twice within this time: the reason is at `try_planned`
        said = [it.pinkctl('make', *self.words) for it in self.machines]
        self.homes = {int(word.split()[0]): line.split(':')[0] for line in said[0].splitlines()[1:] if line[:3] == '10.' for word in line.split(': ')[1].split(', ')}
        self.primary_homes = {int(word): line.split(':')[0] for line in said[0].splitlines() if line[:3] == '10.' for word in line.split(': ')[1].split(', ') if word.isdigit()}
        check('each server has a machine', sorted(self.homes) == list(self.ports), said[0])
        check('no pair shares a machine', len(self.primary_homes) == self.count, said[0])
        self.start()
        until('all are joined by the last start', lambda: self.is_whole() and len(self.primaries()) == self.count, 20)
        check('replicas are elsewhere', all(self.homes[port] != self.homes[of] for port, of in self.replicas().items()), self.replicas())

    @property
    def on(self):
        return self.machines[0].on

    def node(self, port, seconds=60):
        return Node(port, min(seconds, 8), self.homes[port], PASSWORD)

    def link(self, port, seconds=8):
        it = Link((self.homes[port], port), min(seconds, 4))
        it.sure('AUTH', PASSWORD)
        return it

    def start(self):
        for it in self.machines:
            it.pinkctl('start')

    def stop(self):
        for it in self.machines:
            it.pinkctl('stop')

    def process(self, port):
        machine = next(it for it in self.machines if it.address == self.homes[port])
        with open(f'{machine.store}/{port}/pid') as file:
            return int(file.read())

    def move(self, machine):
        """Another machine, with another address, in the place of one."""
        new, old = self.network.another(), machine.address
        self.machines[self.machines.index(machine)] = new
        self.words = [word.replace(old, new.address) if isinstance(word, str) else word for word in self.words]
        for homes in (self.homes, self.primary_homes):
            homes.update({port: new.address for port, home in homes.items() if home == old})
        self.folder = self.machines[0].store
        return new

    def ports_of(self, machine):
        return [port for port in self.ports if self.homes[port] == machine.address]

    def elsewhere(self, machine):
        return [port for port in self.ports if self.homes[port] != machine.address]

    def wait_for_rest(self, ports):
        """None of these servers took over a short time ago."""
        time.sleep(max([0, *(self.since.get(port, -self.rest) + self.rest - time.monotonic() for port in ports)]))

    def successors(self, machine):
        """The replicas of the primaries of a machine."""
        primaries = [port for port in self.primaries() if self.homes[port] == machine.address]
        return [port for port, of in self.replicas().items() if of in primaries]

    def taken_over(self, machine):
        """Whether all slots belong to servers of other machines, as these see it."""
        primaries = self.primaries(self.elsewhere(machine))
        return bool(primaries) and machine.address not in [self.homes[port] for port in primaries] and len(primaries) == self.count

    def wait_for_take_over(self, machine, replicas):
        until(f'the replicas of {machine.address} take over', lambda: self.taken_over(machine))
        self.since |= dict.fromkeys(replicas, time.monotonic())

    def go_home(self):
        """Each primary is again on the machine that it was made for, so that a majority survives the next loss."""
        until('the cluster is whole', self.is_whole, 150)
        for port in self.primary_homes:
            if port in self.replicas():
                self.wait_for_rest([port])
                fail_over(self, port)
                self.since[port] = time.monotonic()
        until('the cluster is whole', self.is_whole, 150)
        check('each primary is at home', sorted(self.primaries()) == sorted(self.primary_homes), self.primaries())


def progress(turn, turns, what):
    print(f'{turn + 1} of {turns} {what}', file=sys.stderr, flush=True)


# Losses.


COMEBACKS = ('new', 'same', 'other')


def come_back(cluster, machine, how):
    """A lost machine is there again, or a new one in its place, with its address or another one."""
    if how == 'other':
        machine = cluster.move(machine)
    else:
        machine.link('up')
    if how == 'new':
        shutil.rmtree(machine.store)
    if how != 'same':
        machine.pinkctl('make', *cluster.words)
    machine.pinkctl('start')
    until('the cluster is whole', cluster.is_whole, 150)
    return machine


def try_losses(cluster, turns):
    times = []

    def act():
        for turn in range(turns):
            until('the cluster is whole', cluster.is_whole, 150)
            time.sleep(0.5)
            machine = cluster.machines[turn % len(cluster.machines)]
            replicas = cluster.successors(machine)
            cluster.wait_for_rest(replicas)
            began = time.monotonic()
            machine.lose()
            cluster.wait_for_take_over(machine, replicas)
            times.append(time.monotonic() - began)
            time.sleep(1)
            machine = come_back(cluster, machine, COMEBACKS[turn // len(cluster.machines) % 3])
            told = machine.pinkctl('check')
            check('all pairs are equal, and compared over the network', told.count(', 0 differ') == cluster.count, told)
            check('the loss of another machine would leave no majority, and check says so', 'no majority' in told and 'CLUSTER FAILOVER at' in told, told)
            cluster.go_home()
            progress(turn, turns, 'machines lost')

    answered, keys = with_writers(cluster, 8, 1, act)
    cluster.check()
    count = [COMEBACKS[turn // len(cluster.machines) % 3] for turn in range(turns)].count
    told = f'{turns} machines lost; {count("same")} came back, {count("new")} and {count("other")} were replaced at the same and at another address'
    told += f'; replicas took over in {min(times):.1f} to {max(times):.1f} s'
    return f'{told}: {answered} changes answered with WAIT 1, {keys} keys looked at, none lost'


# Partitions.


class Careless(threading.Thread):
    """A client that changes keys at one server without WAIT until it is refused."""

    def __init__(self, cluster, port, name):
        super().__init__(daemon=True)
        slots = cluster.primaries()[port].slots
        tag = next(f'c{i}' for i in range(10**6) if any(first <= slot_of(f'c{i}') <= last for first, last in slots))
        self.cluster, self.port, self.front = cluster, port, f'{{{tag}}}{name}'
        self.answered, self.refusal, self.stop = {}, '', False

    def run(self):
        link = self.cluster.link(self.port)
        try:
            while not self.stop:
                key = f'{self.front}{len(self.answered)}'
                link.sure('SET', key, 'x')
                self.answered[key] = time.monotonic()
                time.sleep(0.005)
        except (OSError, Error) as fault:
            self.refusal = str(fault)

    def lost(self, began):
        """How many changes were answered after the cut, how many of all are gone, and how long it took changes."""
        router = Router(self.cluster)
        after = [it for it in self.answered.values() if it > began]
        return len(after), sum(router.do(key, 'GET', key) is None for key in self.answered), max([0, *(it - began for it in after)])


def cut_off(cluster, machine, turn):
    """The machine is cut off, from the other machines alone or from the clients as well; what heals it."""
    others = [it for it in cluster.machines if it is not machine]
    if turn % 2:
        machine.link('down')
        return lambda: machine.link('up')
    machine.cut(others, 'add')
    return lambda: machine.cut(others, 'del')


def try_partitions(cluster, turns):
    told, refusals = {'answered': [], 'lost': [], 'seconds': []}, set()

    def act():
        for turn in range(turns):
            until('the cluster is whole', cluster.is_whole, 150)
            time.sleep(0.5)
            machine = cluster.machines[turn // 2 % len(cluster.machines)]
            replicas = cluster.successors(machine)
            cluster.wait_for_rest(replicas)
            port = next(port for port in cluster.primaries() if cluster.homes[port] == machine.address)
            careless = Careless(cluster, port, f'{turn}:')
            careless.start()
            time.sleep(0.5)
            began = time.monotonic()
            heal = cut_off(cluster, machine, turn)
            cluster.wait_for_take_over(machine, replicas)
            time.sleep(random.random() * 4)
            heal()
            careless.stop = True
            careless.join(60)
            until('the cluster is whole', cluster.is_whole, 150)
            for name, it in zip(told, careless.lost(began)):
                told[name].append(it)
            if turn % 2 == 0:
                refusals.add(careless.refusal.split()[0])
            cluster.go_home()
            progress(turn, turns, 'partitions')

    answered, keys = with_writers(cluster, 8, 1, act)
    cluster.check()
    check('who is cut off refuses changes', refusals and '' not in refusals, refusals)
    without = f'of {sum(told["answered"])} without WAIT at a primary that was cut off {sum(told["lost"])} are gone'
    when = f'it took them for {max(told["seconds"]):.1f} s at most (then {", ".join(sorted(refusals))})'
    return f'{turns} partitions: {answered} changes answered with WAIT 1, {keys} keys looked at, none lost; {without}; {when}'


# Two machines.


def lose_both_ways(cluster):
    """Each of two machines is lost: the one without a majority of primaries needs hands, and so may the other."""

    def act():
        for machine in cluster.machines[:2]:
            until('the cluster is whole', cluster.is_whole, 150)
            replicas = cluster.successors(machine)
            cluster.wait_for_rest(replicas)
            machine.lose()
            time.sleep(4 * SHORT / 1000)
            check('no replica takes over by itself', not cluster.taken_over(machine))
            other = cluster.machines[1 - cluster.machines.index(machine)]
            told = other.pinkctl('check', wanted=14)
            check('check says where', all(f'{other.address}:{port} is a replica of one that does not answer' in told for port in replicas), told)
            for port in replicas:
                with cluster.node(port) as node:
                    check('a take-over by hand', node.do('CLUSTER', 'FAILOVER', 'TAKEOVER') == 'OK')
            cluster.wait_for_take_over(machine, replicas)
            told = other.pinkctl('check', wanted=14)
            check('check says what does not answer', f'{machine.address}:' in told and 'does not answer' in told, told)
            come_back(cluster, machine, 'new')
            cluster.go_home()

    answered, keys = with_writers(cluster, 4, 1, act)
    cluster.check()
    return f'two machines with equal halves, each lost, taken over by hand and replaced: {answered} changes with WAIT 1, {keys} keys looked at, none lost'


def try_early_replacement(cluster):
    """A new machine is refused while nobody has taken over from the one that it replaces."""
    machine, other = cluster.machines
    until('the cluster is whole', cluster.is_whole, 150)
    replicas = cluster.successors(machine)
    cluster.wait_for_rest(replicas)
    machine.lose()
    machine.link('up')
    shutil.rmtree(machine.store)
    machine.pinkctl('make', *cluster.words)
    told = machine.pinkctl('start', wanted=3)
    check('it is refused with the remedy', f'CLUSTER FAILOVER TAKEOVER at {other.address}:' in told, told)
    for port in replicas:
        with cluster.node(port) as node:
            node.do('CLUSTER', 'FAILOVER', 'TAKEOVER')
    cluster.wait_for_take_over(machine, replicas)
    machine.pinkctl('start')
    cluster.go_home()
    cluster.check()
    return 'a new machine was refused before the take-over, and let in after it'


# Planned failovers and moves.




def try_move_of_lost_machine(cluster, turns):
    """The machine on which a move runs is lost in its middle, with what it wrote; the same words on another machine end the move."""
    ended = 0

    def act():
        nonlocal ended
        for turn in range(turns):
            until('the cluster is whole', cluster.is_whole, 150)
            slot, source, target = a_move(cluster)
            broken_move(cluster, random.randint(15, 60), 0, source, target, slot)
            state = cluster.folder + '/move.json'
            if not os.path.exists(state):
                continue
            os.unlink(state)
            cluster.machines[1].pinkctl('move-slots', source, target, slot)
            check_moved(cluster, source, slot, slot)
            ended += 1
            progress(turn, turns, 'moves of a machine that was lost')

    answered, keys = with_writers(cluster, 4, 1, act)
    cluster.check()
    check('moves were broken off', ended)
    return f'{ended} moves whose machine was lost, ended on another one: {answered} changes with WAIT 1, {keys} keys looked at, none lost'


# Parts.


def run(cluster, *parts):
    for part in parts:
        print(part(cluster), flush=True)
    cluster.stop()
    for it in cluster.machines:
        told = it.pinkctl('check')
        check('each image is whole', told.count('whole') == len(cluster.ports_of(it)), told)


def losses(folder, name, turns):
    run(Machines(folder, name, 3, 3), lambda it: try_losses(it, turns))


def partitions(folder, name, turns):
    run(Machines(folder, name, 3, 3), lambda it: try_partitions(it, turns))


def least(folder, name, turns):
    """With --min-replicas 1, which refuses changes before the timeout of 15 s does."""
    cluster = Machines(folder, name, 3, 3, '--min-replicas', 1, timeout=LONG)
    run(cluster, lambda it: '--min-replicas 1: ' + try_partitions(it, max(2, turns // 3)))


def two(folder, name, turns):
    run(Machines(folder, name, 2, 2), lose_both_ways, try_early_replacement)


def voter(folder, name, turns):
    run(Machines(folder, name, 3, 2, voter=True), lambda it: 'a voter: ' + try_losses(it, 3))


def moves(folder, name, turns):
    run(Machines(folder, name, 3, 3), lambda it: base.try_planned(it, turns), lambda it: try_moves(it, turns), lambda it: try_move_of_lost_machine(it, turns))


PARTS = {it.__name__: it for it in (losses, partitions, least, two, voter, moves)}


def try_part(turns, name):
    random.seed(turns)
    folder = tempfile.mkdtemp()
    try:
        PARTS[name](folder, f'pink{os.getpid()}', turns)
    except BaseException:
        print(f'{name}: what the servers said is in {folder}', flush=True)
        raise
    shutil.rmtree(folder)
    print(f'{name}: {base.checks} checks passed', flush=True)


def main(turns, *names):
    skip_without('redis-server', 'redis-cli', 'gcc', 'make', 'ip')
    if os.geteuid():
        return print('skipped: network namespaces need root')
    module()
    if len(names) == 1:
        return try_part(turns, *names)
    names = names or tuple(PARTS)
    runs = [subprocess.Popen([sys.executable, __file__, str(turns), name]) for name in names]
    faults = [name for name, it in zip(names, runs) if it.wait()]
    sys.exit(f'machines.sh: failed: {", ".join(faults)}' if faults else None)


if __name__ == '__main__':
    main(int(sys.argv[1]) if len(sys.argv) > 1 else 10, *sys.argv[2:])
