"""The servers of a cluster: its folder on a machine, which server is on which machine, and how each is reached.

Every server of a cluster has a port of its own, over all machines, and is named by it. On several machines each has a folder with
the same plan in `cluster.json`, and with the images of its own servers alone.
"""

import ipaddress
import json
import os
import re
import socket
from concurrent.futures import ThreadPoolExecutor
from typing import Any, NamedTuple, Optional

from .nodes import HOST, SLOTS, Node, Refused, Seen, place
from .status import Exit, ToolError
from .waiting import wait_until

SECRET = "password.conf"
"""The file in the folder that each server reads its password from."""


class Member(NamedTuple):
    """A server: the primary that it is a replica of at first has its port in `of`."""

    port: int
    of: Optional[int]
    host: str = HOST

    def family(self) -> int:
        """The port of the primary that it was made with."""
        return self.port if self.of is None else self.of

    def place(self) -> str:
        return place(self.port, self.host)


class Cluster:
    """The folder of a cluster."""

    def __init__(self, folder: str) -> None:
        self.folder = os.path.realpath(folder)
        try:
            with open(os.path.join(self.folder, "cluster.json")) as file:
                self.facts = json.load(file)
        except FileNotFoundError:
            raise ToolError(f"{folder} is no cluster: pinkctl cluster make {folder} COUNT P N M makes one", Exit.MISSING) from None
        self.members = [Member(*it) for it in self.facts["members"]]
        self.here: Optional[str] = self.facts.get("here")
        self.own = [it for it in self.members if self.here in (None, it.host)]
        self.hosts = {it.port: it.host for it in self.members}
        self.password = password_in(os.path.join(self.folder, SECRET))

    def path(self, port: int, name: str) -> str:
        return os.path.join(self.folder, str(port), name)

    def process(self, port: int) -> Optional[int]:
        """The process of a server of this machine that runs."""
        try:
            with open(self.path(port, "pid")) as file:
                process = int(file.read())
            with open(f"/proc/{process}/cmdline") as file:
                return process if "redis-server" in file.read() else None
        except (OSError, ValueError):
            return None

    def node(self, port: int, seconds: float = 60) -> Node:
        return Node(port, seconds, self.hosts.get(port, HOST), self.password)

    def learn(self, seen: list[Seen]) -> None:
        """Where the servers are now: a machine may have been replaced by one with another address."""
        for found in ([it for it in seen if "noaddr" not in it.flags], [it for it in seen if it.is_there()], self.own):
            self.hosts |= {it.port: it.host for it in found}

    def answering(self, members: list[Member]) -> dict[int, Node]:
        """Those of these servers that answer, all asked at once: each one that does not takes its time."""
        with ThreadPoolExecutor(len(members) or 1) as pool:
            nodes = list(pool.map(self.answer_of, members))
        for node in nodes:
            if node is not None:
                self.learn(node.seen())
        return {it.port: node for it, node in zip(members, nodes) if node is not None}

    def answer_of(self, member: Member) -> Optional[Node]:
        try:
            node = self.node(member.port)
            wait_until(f"{node.place} loads a copy of its primary's drive: try it later", lambda: not node.is_loading())
            return node
        except Refused as fault:
            raise refused_password(fault) from None
        except ToolError:
            return None

    def write(self, **facts: Any) -> None:
        self.facts |= facts
        write_facts(self.folder, self.facts)


class Loose(Cluster):
    """Servers of this machine that have no such folder."""

    def __init__(self, folder: str) -> None:
        self.folder, self.here, self.password = folder, None, None
        self.members, self.own, self.hosts = [], [], {}


def cluster_of(folder: str) -> Cluster:
    """The cluster of a folder, or else the servers of this machine."""
    path = os.path.realpath(folder)
    return Cluster(path) if os.path.exists(os.path.join(path, "cluster.json")) else Loose(path)


def refused_password(fault: ToolError) -> ToolError:
    if "NOAUTH" in str(fault) or "WRONGPASS" in str(fault):
        return ToolError(f"{fault} ({SECRET} has to be the same on each machine)", Exit.REFUSED)
    return fault


def write_facts(folder: str, facts: dict[str, Any]) -> None:
    path = os.path.join(folder, "cluster.json")
    with open(path + ".new", "w") as file:
        json.dump(facts, file, indent=1)
        file.flush()
        os.fsync(file.fileno())
    os.replace(path + ".new", path)


# The password.


def write_password(folder: str, password: str) -> None:
    """Only who made the cluster may read it."""
    with open(os.open(os.path.join(folder, SECRET), os.O_WRONLY | os.O_CREAT | os.O_EXCL, 0o600), "w") as file:
        file.write(f'requirepass "{password}"\nmasterauth "{password}"\n')


def password_in(path: str) -> Optional[str]:
    """The password of a cluster that has one."""
    try:
        with open(path) as file:
            found = re.search(r'^requirepass "(.*)"$', file.read(), re.MULTILINE)
    except FileNotFoundError:
        return None
    if not found:
        raise ToolError(f'{path} has no line: requirepass "PASSWORD"', Exit.FILE)
    return found[1]


def new_password(path: str) -> str:
    """A password from the first line of a file, as one makes it by  head -c 24 /dev/urandom | base64."""
    try:
        with open(path) as file:
            password = file.readline().rstrip("\n")
    except (OSError, UnicodeDecodeError) as fault:
        raise ToolError(f"{path} cannot be read: {getattr(fault, 'strerror', None) or fault}", Exit.FILE) from None
    if not re.fullmatch(r"[!#-\[\]-~]{16,}", password):
        raise ToolError(f"the first line of {path} is no password: it has 16 or more visible characters of ASCII, none of them \" or \\", Exit.USAGE)
    return password


# Which server is on which machine.


def members_of(count: int, replicas: int, port: int) -> list[Member]:
    """Primaries first, then the first replica of each, and so on."""
    primaries = [Member(port + i, None) for i in range(count)]
    return primaries + [Member(port + count * (1 + turn) + i, port + i) for turn in range(replicas) for i in range(count)]


def spread(members: list[Member], hosts: list[str]) -> list[Member]:
    """Primaries in turn over the machines, and the replicas of each on the others: no two drives with the same keys share a machine."""
    primaries = [it.port for it in members if it.of is None]
    found, turns = [], dict.fromkeys(primaries, 0)
    for it in members:
        number = primaries.index(it.family())
        offset = 0
        if it.of is not None:
            offset = 1 + (turns[it.of] + number // len(hosts)) % (len(hosts) - 1)
            turns[it.of] += 1
        found.append(it._replace(host=hosts[(number + offset) % len(hosts)]))
    return found


def with_voter(members: list[Member], host: str) -> list[Member]:
    """A primary with one slot more, for its vote, and its replica on the first machine."""
    port = max(it.port for it in members) + 1
    return [*members, Member(port, None, host), Member(port + 1, port, members[0].host)]


def shares(members: list[Member], voter: Optional[int]) -> dict[int, tuple[int, int]]:
    """The first and the last slot of each primary at first; a voter has the last one alone."""
    primaries = [it.port for it in members if it.of is None and it.port != voter]
    slots = SLOTS - (voter is not None)
    found = {port: (slots * i // len(primaries), slots * (i + 1) // len(primaries) - 1) for i, port in enumerate(primaries)}
    return found if voter is None else {**found, voter: (slots, slots)}


def addresses(words: str) -> list[str]:
    """Addresses with commas between them."""
    found = []
    for word in words.split(","):
        try:
            address = ipaddress.ip_address(word.strip())
        except ValueError:
            raise ToolError(f"{word or 'an empty word'} is no address of a machine, such as 10.0.0.1 (no name: servers know each other by address)", Exit.USAGE) from None
        if address.is_unspecified or address.is_multicast:
            raise ToolError(f"{word} is not the address of one machine", Exit.USAGE)
        found.append(str(address))
    if len(set(found)) < len(found):
        raise ToolError("an address is there twice: each machine has one", Exit.USAGE)
    return found


def is_here(host: str) -> bool:
    """Whether an address is one of this machine's."""
    with socket.socket(socket.AF_INET6 if ":" in host else socket.AF_INET) as it:
        try:
            it.bind((host, 0))
            return True
        except OSError:
            return False


def own_address(hosts: list[str], named: Optional[str]) -> str:
    """Which of the machines this one is."""
    found = [it for it in hosts if is_here(it)] if named is None else addresses(named)
    if len(found) == 1 and found[0] in hosts:
        return found[0]
    if named is not None:
        raise ToolError(f"--here {named} is none of {', '.join(hosts)}", Exit.USAGE)
    if found:
        raise ToolError(f"{' and '.join(found)} are addresses of this machine: name one for each machine, or --here ADDRESS", Exit.USAGE)
    raise ToolError(f"this machine has none of the addresses {', '.join(hosts)} (ip address prints those it has)", Exit.USAGE)


# Votes.


def weak_machines(primaries: dict[int, str]) -> dict[str, int]:
    """The machines whose loss leaves no majority of the primaries, with how many it leaves; a primary's port leads to its machine."""
    left = {host: sum(it != host for it in primaries.values()) for host in primaries.values()}
    return {host: count for host, count in left.items() if 2 * count <= len(primaries)}
