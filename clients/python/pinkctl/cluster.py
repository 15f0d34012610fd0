"""cluster: many drives as one store, each behind a redis-server with the module pink.so, in Redis' own cluster.

A cluster has a folder on each of its machines: `cluster.json` says what it is made of, and each server of the machine has a folder named
by its port with the image, the configuration and the log.
"""

import argparse
import os
import shutil
import signal
import subprocess
import sys
import time
from typing import NamedTuple, Optional

from .join import join, join_machines, own_line
from .members import SECRET, Cluster, Member, addresses, is_here, members_of, new_password, own_address, spread
from .members import weak_machines, with_voter, write_facts, write_password
from .moves import add_move_parser
from .nodes import HOST, SLOTS, Node, Seen
from .program import TOP, make_image, pink
from .status import Exit, ToolError
from .waiting import START_SECONDS, follows, wait_until

DESCRIPTION = """\
Makes, runs and checks a cluster of drives on this machine, or on several: for each drive a redis-server (7.0)
with the module pink.so, for each primary so many replicas. Clients in cluster mode use it as one store. A primary
that ends is replaced by its replica within about 20 seconds if a majority of three primaries or more is left.

  pinkctl cluster make DIR COUNT P N M    the images and the configurations of COUNT primaries and their replicas
  pinkctl cluster start DIR               starts the servers that do not run, and joins them the first time
  pinkctl cluster check DIR               each drive, and each replica compared with its primary
  pinkctl cluster move-slots DIR FROM TO SLOT..   gives slots with their keys to another primary
  pinkctl cluster stop DIR                ends the servers

On several machines, with make .. --hosts 10.0.0.1,10.0.0.2,10.0.0.3 --password-file PATH: make and start are
called on each with the same words, and act on its own servers, as stop does; check and move-slots reach all.
docs/LIVING.md says how a lost machine is replaced."""

CONFIGURATION = """\
# Made by pinkctl cluster make. What is said to matter has to stay.
port {port}
bind {host}
dir "{folder}"
logfile "{folder}/log"
pidfile "{folder}/pid"
loadmodule "{module}" "{folder}/drive.img" program "{program}" frames {frames} names {names} sync {sync}
# The drive is newer than any dump and any log of Redis: neither is written (matters).
save ""
appendonly no
# The memory of Redis holds no keys, so none may be evicted (matters).
maxmemory 0
# A change is refused while fewer replicas than this follow. WAIT says that a change is on the flash of replicas.
min-replicas-to-write {least}
min-replicas-max-lag 10
# A copy begins at once, and a replica that was away for a short time gets what it lacks from here.
repl-diskless-sync yes
repl-diskless-sync-delay 0
repl-backlog-size 64mb
# The file that a copy came in is older than the drive at once, and goes away.
rdb-del-sync-files yes
cluster-enabled yes
cluster-config-file nodes.conf
# All of a server waits for its disk: a short time takes a slow disk for a failure (matters).
cluster-node-timeout {timeout}
# A slot without a server does not stop the others, and replicas stay with their primary.
cluster-require-full-coverage no
cluster-allow-replica-migration no
"""
ON_A_NETWORK = """\
# The servers of other machines find this one here (matters).
cluster-announce-ip {host}
"""
WITH_PASSWORD = """\
# The password that servers and clients need.
include "{secret}"
"""
PAUSE_SECONDS, TRIES = 10, 3
"""How long writes are paused for a comparison, and how often."""


# make


def pink_module() -> str:
    """The module, built or installed."""
    places = [os.environ.get("PINK_MODULE", ""), os.path.join(TOP, "redis", "pink.so"), os.path.join(TOP, "pink.so")]
    for place in places:
        if place and os.path.exists(place):
            return os.path.realpath(place)
    raise ToolError("there is no module pink.so: make -C redis builds it", Exit.MISSING)


class Plan(NamedTuple):
    """What is made: all servers of all machines, and which machine this is, if there are several."""

    members: list[Member]
    here: Optional[str]
    voter: Optional[int]
    password: Optional[str]

    def own(self) -> list[Member]:
        return [it for it in self.members if self.here in (None, it.host)]

    def facts(self) -> dict[str, object]:
        if self.here is None:
            return {"version": 1, "members": [(it.port, it.of) for it in self.members], "joined": False}
        return {"version": 2, "members": self.members, "joined": False, "here": self.here, "voter": self.voter}


def plan_of(args: argparse.Namespace) -> Plan:
    if not 1 <= args.count <= 200 or not 0 <= args.replicas <= 5:
        raise ToolError("a cluster has 1 to 200 primaries, and 0 to 5 replicas of each", Exit.USAGE)
    password = None if args.password_file is None else new_password(args.password_file)
    members, here, voter = members_of(args.count, args.replicas, args.port), None, None
    if args.hosts is None and (args.voter or args.here):
        raise ToolError("--voter and --here are for a cluster on several machines: --hosts names them", Exit.USAGE)
    if args.hosts is not None:
        hosts = addresses(args.hosts)
        if password is None:
            raise ToolError("servers on a network have a password: head -c 24 /dev/urandom | base64 >PATH, and --password-file PATH, the same file on each machine", Exit.USAGE)
        if not args.replicas < len(hosts):
            raise ToolError(f"{len(hosts)} machines have room for {len(hosts) - 1} replicas of a primary: each is on another machine", Exit.USAGE)
        members = spread(members, hosts)
        if args.voter:
            hosts = addresses(f"{args.hosts},{args.voter}")
            members = with_voter(members, hosts[-1])
            voter = members[-2].port
        here = own_address(hosts, args.here)
    if members[-1].port + 10000 > 65535:
        raise ToolError("the port of the cluster's bus is 10,000 above a server's: it has to be below 65,536", Exit.USAGE)
    return Plan(members, here, voter, password)


def make(args: argparse.Namespace) -> int:
    plan = plan_of(args)
    folder, module = os.path.realpath(args.folder), pink_module()
    if os.path.exists(folder) and os.listdir(folder):
        raise ToolError(f"{folder} is not empty", Exit.EXISTS)
    least = args.min_replicas if args.min_replicas is not None else int(args.replicas > 1)
    for it in plan.own():
        place = os.path.join(folder, str(it.port))
        os.makedirs(place)
        make_image(os.path.join(place, "drive.img"), (args.page_bytes, args.block_pages, args.blocks))
        words = {"folder": place, "module": module, "program": os.path.realpath(shutil.which(pink()) or pink()), "least": least}
        words |= {"frames": args.frames, "names": args.names, "sync": "yes" if args.sync else "no", "timeout": args.timeout}
        with open(os.path.join(place, "redis.conf"), "w") as file:
            file.write(configuration(plan, it).format(port=it.port, host=it.host, secret=os.path.join(folder, SECRET), **words))
    if plan.password is not None:
        write_password(folder, plan.password)
    write_facts(folder, plan.facts())
    print_made(args, plan, folder)
    return Exit.OK


def configuration(plan: Plan, member: Member) -> str:
    text = CONFIGURATION if member.host == HOST else CONFIGURATION.replace("{host}", "{host} " + HOST) + ON_A_NETWORK
    return text if plan.password is None else text + WITH_PASSWORD


def print_made(args: argparse.Namespace, plan: Plan, folder: str) -> None:
    if plan.here is None:
        print(f"{len(plan.members)} drives in {folder}: {args.count} primaries from port {args.port} on, {args.replicas} replicas of each")
        if args.count < 3 and args.replicas:
            print("with fewer than 3 primaries no replica takes over by itself: CLUSTER FAILOVER TAKEOVER at the replica does it")
        return
    hosts = list(dict.fromkeys(it.host for it in plan.members))
    others = ": make the others by the same words on the other machines" if len(hosts) > 1 else ""
    print(f"{len(plan.own())} of {len(plan.members)} drives in {folder}, those of {plan.here}{others}")
    for host in hosts:
        print(f"{host}: " + ", ".join(f"{it.port}" + (f" (replica of {it.of})" if it.of else "") for it in plan.members if it.host == host))
    print_weak({it.port: it.host for it in plan.members if it.of is None})


def print_weak(primaries: dict[int, str]) -> None:
    for host, count in sorted(weak_machines(primaries).items()):
        print(f"the loss of {host} leaves {count} of {len(primaries)} primaries, no majority: then no replica takes over by itself")


# start


def start(args: argparse.Namespace) -> int:
    it = Cluster(args.folder)
    if not shutil.which("redis-server"):
        raise ToolError("there is no redis-server (Debian: apt-get install redis-server)", Exit.PROGRAM)
    if it.here is not None and not is_here(it.here):
        raise ToolError(f"this machine does not have the address {it.here}, for which {args.folder} was made", Exit.USAGE)
    begun = {member.port: begin(it, member.port) for member in it.own if it.process(member.port) is None}
    nodes = {member.port: wait_up(it, member.port, begun.get(member.port)) for member in it.own}
    if it.here is not None:
        nodes |= others_joined(it, nodes)
    elif not it.facts["joined"]:
        join(it, nodes)
        it.write(joined=True)
    missing = [f"{it.hosts[member.port]}:{member.port}" for member in it.members if member.port not in nodes]
    if not missing:
        wait_until("the cluster is not whole", lambda: all(node.is_ok() for node in nodes.values()))
        wait_until("a replica does not follow its primary", lambda: all(follows(node) for node in nodes.values()))
    told = f"{len(begun)} servers started, {len(it.own) - len(begun)} ran; "
    if missing:
        print(told + "no answer yet from " + ", ".join(missing))
    else:
        print(told + "the cluster answers at " + ", ".join(f"{it.hosts[m.port]}:{m.port}" for m in it.members))
    return Exit.OK


def others_joined(it: Cluster, own: dict[int, Node]) -> dict[int, Node]:
    """The servers of other machines that answer, with which those of this one are joined."""
    others = answering_elsewhere(it, own)
    nodes = {member.port: (own.get(member.port) or others[member.port]) for member in it.members if member.port in own or member.port in others}
    if not join_machines(it, nodes):
        print("the start on the last machine joins all")
    return others


def begin(it: Cluster, port: int) -> "subprocess.Popen[bytes]":
    with open(it.path(port, "said"), "ab") as said:
        words = ["redis-server", it.path(port, "redis.conf")]
        return subprocess.Popen(words, stdin=subprocess.DEVNULL, stdout=said, stderr=said, start_new_session=True)


def wait_up(it: Cluster, port: int, process: "Optional[subprocess.Popen[bytes]]") -> Node:
    last = time.monotonic() + START_SECONDS
    while True:
        try:
            node = it.node(port)
            if node.do("PING") == "PONG" and int(node.info("server")["process_id"]) == it.process(port):
                return node
            node.close()
        except ToolError:
            pass
        ended = process is not None and process.poll() is not None
        if ended or time.monotonic() > last:
            raise ToolError(f"the server at port {port} does not start: {last_warning(it, port)}", Exit.PROGRAM)
        time.sleep(0.05)


def last_warning(it: Cluster, port: int) -> str:
    """The last line of its log with a warning."""
    try:
        with open(it.path(port, "log"), errors="replace") as log:
            lines = [line for line in log.read().splitlines() if " # " in line or "<pink>" in line]
        return lines[-1].split(" # ")[-1] if lines else "its log says nothing"
    except OSError:
        return "it has no log"


# stop


def stop(args: argparse.Namespace) -> int:
    """Replicas first, so that none of them takes over."""
    it, ended = Cluster(args.folder), 0
    roles = {member.port: role_of(it, member.port) for member in it.own}
    for port in sorted(roles, key=lambda port: roles[port] == "master"):
        process = it.process(port)
        if process is None:
            continue
        os.kill(process, signal.SIGTERM)
        wait_until(f"the server at port {port} does not end", lambda port=port: it.process(port) is None)  # type: ignore[misc]
        ended += 1
    print(f"{ended} servers ended")
    return Exit.OK


def role_of(it: Cluster, port: int) -> str:
    try:
        with it.node(port, 5) as node:
            return node.info("replication")["role"]
    except (ToolError, KeyError, OSError):
        return "none"


# check


def check(args: argparse.Namespace) -> int:
    it = Cluster(args.folder)
    running = [member.port for member in it.own if it.process(member.port) is not None]
    if not running:
        return check_images(it)
    faults = [f"the server at port {member.port} does not run" for member in it.own if member.port not in running]
    nodes = {port: it.node(port) for port in running}
    nodes |= answering_elsewhere(it, nodes)
    faults += [f"{it.hosts[member.port]}:{member.port} does not answer" for member in it.members if member not in it.own and member.port not in nodes]
    faults += [fault for node in nodes.values() for fault in faults_of(node)]
    for node in nodes.values():
        for primary in (seen for seen in node.seen() if "myself" in seen.flags and seen.primary):
            other = next((seen.port for seen in node.seen() if seen.id == primary.primary), None)
            if other in nodes:
                faults += compare(nodes[other], node)
            elif it.here is not None:
                faults.append(f"{node.place} is a replica of one that does not answer: unless it takes over, CLUSTER FAILOVER TAKEOVER there once that one is off")
    faults += unowned_slots(it, nodes)
    for fault in faults:
        print(fault)
    if it.here is not None:
        print_votes(it, nodes)
    print(f"{len(nodes)} of {len(it.members)} servers run; " + (f"{len(faults)} faults" if faults else "all drives answer, and each replica equals its primary"))
    print("the images themselves are checked when the cluster is stopped")
    return Exit.DISAGREES if faults else Exit.OK


def answering_elsewhere(it: Cluster, nodes: dict[int, Node]) -> dict[int, Node]:
    """The servers of the other machines."""
    for node in nodes.values():
        it.learn(node.seen())
    return it.answering([member for member in it.members if member not in it.own])


def unowned_slots(it: Cluster, nodes: dict[int, Node]) -> list[str]:
    missing = slots_without([own_line(node) for node in nodes.values()])
    if not missing:
        return []
    if len(nodes) < len(it.members):
        return [f"{missing} slots have no server that answers"]
    return [f"{missing} slots have no server: pinkctl cluster move-slots ends a move that was broken off"]


def print_votes(it: Cluster, nodes: dict[int, Node]) -> None:
    """Whether a majority of primaries survives the loss of any machine, and which failover helps."""
    primaries = {port: node.host for port, node in nodes.items() if own_line(node).slots}
    print_weak(primaries)
    moved = [member.port for member in it.members if member.of is None and member.port in nodes and own_line(nodes[member.port]).primary]
    if moved and weak_machines(primaries):
        print("primaries were on more machines at first: CLUSTER FAILOVER at " + ", ".join(nodes[port].place for port in moved))


def faults_of(node: Node) -> list[str]:
    told = node.info("pink_drive")
    faults = []
    if told.get("pink_partial") != "0":
        faults.append(f"{node.place}: the drive is no whole copy of its primary's")
    if not follows(node):
        faults.append(f"{node.place}: the replica has no link to its primary")
    print(f"{node.place}: {node.info('replication')['role']}, {told['pink_report_keys']} keys, {told['pink_report_live']} of {told['pink_report_limit']} pages")
    return faults


def compare(primary: Node, replica: Node) -> list[str]:
    """The keys whose values differ: those that differ while clients write are looked at again, while they are paused."""
    pair = f"ports {primary.port} and {replica.port}" if primary.host == replica.host == HOST else f"{primary.place} and {replica.place}"
    replica.do("READONLY")
    try:
        own, its = (node.digests(list(node.keys())) for node in (primary, replica))
        differ = differing(own, its)
        for _ in range(TRIES):
            if differ:
                differ, is_over = differing_paused(primary, replica, differ)
                if not is_over:
                    break
    except ToolError as fault:
        return [f"{pair} are not compared: {fault}"]
    print(f"{pair}: {len(own)} and {len(its)} keys, {len(differ)} differ")
    return [f"{pair} differ in {len(differ)} keys, first {differ[0]!r}"] if differ else []


Digests = dict[bytes, Optional[bytes]]


def differing(own: Digests, its: Digests) -> list[bytes]:
    return sorted(key for key in {*own, *its} if own.get(key) != its.get(key))


def differing_paused(primary: Node, replica: Node, keys: list[bytes]) -> tuple[list[bytes], bool]:
    """Which of these keys differ while the primary's clients that write are paused, and whether the pause ended too early."""
    began = time.monotonic()
    primary.do("CLIENT", "PAUSE", 1000 * PAUSE_SECONDS, "WRITE")
    try:
        wait_until(
            f"{replica.place}: the replica does not catch up",
            lambda: int(replica.info("replication")["slave_repl_offset"]) >= int(primary.info("replication")["master_repl_offset"]),
            5,
        )
        differ = differing(primary.digests(keys), replica.digests(keys))
    finally:
        primary.do("CLIENT", "UNPAUSE")
    return differ, bool(differ) and time.monotonic() - began > PAUSE_SECONDS


def slots_without(own: list[Seen]) -> int:
    """How many slots no server says that it has itself."""
    return SLOTS - len({slot for it in own if not it.primary for first, last in it.slots for slot in range(first, last + 1)})


def check_images(it: Cluster) -> int:
    """pinkctl check of each image of a cluster that is stopped."""
    worst = 0
    for member in it.own:
        words = [sys.executable, "-m", "pinkctl", "check", it.path(member.port, "drive.img")]
        done = subprocess.run(words, capture_output=True, text=True, cwd=os.path.dirname(os.path.dirname(os.path.realpath(__file__))))
        mark = it.path(member.port, "drive.img.partial")
        partial = "; no whole copy of its primary's" if os.path.exists(mark) else ""
        print(f"port {member.port}: {(done.stdout or done.stderr).splitlines()[0]}{partial}")
        worst = max(worst, done.returncode, Exit.DISAGREES if partial else 0)
    return worst


# The words.


def add_parser(subparsers: "argparse._SubParsersAction[argparse.ArgumentParser]") -> None:
    parser = subparsers.add_parser(
        "cluster",
        help="make and run many drives as one store, with Redis",
        description=DESCRIPTION,
        formatter_class=argparse.RawDescriptionHelpFormatter,
    )
    words = parser.add_subparsers(title="words", metavar="WORD", required=True)
    making = words.add_parser("make", help="make the drives and the configurations")
    making.add_argument("folder", metavar="DIR")
    for name, metavar in (("count", "COUNT"), ("page_bytes", "P"), ("block_pages", "N"), ("blocks", "M")):
        making.add_argument(name, metavar=metavar, type=int)
    making.add_argument("--replicas", type=int, default=1, metavar="N", help="replicas of each primary (%(default)s)")
    making.add_argument("--port", type=int, default=7400, metavar="N", help="the first port (%(default)s)")
    making.add_argument("--frames", type=int, default=520, metavar="N", help="page frames of each drive (%(default)s)")
    making.add_argument("--names", choices=("plain", "hashed"), default="plain", help="hashed: names of any length")
    making.add_argument("--sync", action="store_true", help="each change is on the disk when it is answered (PINK_SYNC=1)")
    making.add_argument("--min-replicas", type=int, metavar="N", help="refuse changes with fewer replicas (1 if there are two or more, else 0)")
    making.add_argument("--timeout", type=int, default=15000, metavar="MS", help="when a silent server counts as failed (%(default)s)")
    making.add_argument("--hosts", metavar="ADDRESS,..", help="the machines, by address: primaries in turn, each replica on another machine than its primary")
    making.add_argument("--password-file", metavar="PATH", help="clients and servers need the password in its first line (--hosts needs it)")
    making.add_argument("--voter", metavar="ADDRESS", help="a further machine, with the vote of a primary that has one slot")
    making.add_argument("--here", metavar="ADDRESS", help="which of the machines this is, if its addresses do not say it")
    making.set_defaults(run=make)
    for name, run, text in (("start", start, "start the servers"), ("stop", stop, "end the servers"), ("check", check, "check the drives, and compare replicas")):
        word = words.add_parser(name, help=text)
        word.add_argument("folder", metavar="DIR")
        word.set_defaults(run=run)
    add_move_parser(words)
