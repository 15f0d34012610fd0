"""Servers of a cluster: a client of Redis' protocol, and what a server says of itself and of the others."""

import socket
from hashlib import blake2b
from typing import Any, Iterator, NamedTuple, Optional

from .status import Exit, ToolError

SLOTS = 16384
HOST = "127.0.0.1"
CONNECT_SECONDS = 5.0
"""A machine that is not there answers nothing."""


class Refused(ToolError):
    """An error reply of a server."""

    def __init__(self, text: str) -> None:
        super().__init__(text, Exit.REFUSED)


def place(port: int, host: str) -> str:
    """Where a server is, for people."""
    return f"port {port}" if host == HOST else f"{host}:{port}"


class Node:
    """A connection to the server at a port, of this machine if no address is named."""

    def __init__(self, port: int, seconds: float = 60, host: str = HOST, password: Optional[str] = None) -> None:
        self.port, self.host, self.place = port, host, place(port, host)
        try:
            self.socket = socket.create_connection((host, port), min(seconds, CONNECT_SECONDS))
        except OSError as fault:
            raise ToolError(f"the server at {self.place} does not answer: {fault.strerror or fault}", Exit.PROGRAM) from None
        self.socket.settimeout(seconds)
        self.socket.setsockopt(socket.IPPROTO_TCP, socket.TCP_NODELAY, 1)
        self.file = self.socket.makefile("rb")
        if password is not None:
            try:
                self.do("AUTH", password)
            except ToolError:
                self.close()
                raise

    def close(self) -> None:
        self.file.close()
        self.socket.close()

    def __enter__(self) -> "Node":
        return self

    def __exit__(self, *_: object) -> None:
        self.close()

    def send(self, *words: Any) -> None:
        data = [it if isinstance(it, bytes) else str(it).encode() for it in words]
        self.socket.sendall(b"*%d\r\n" % len(data) + b"".join(b"$%d\r\n%b\r\n" % (len(it), it) for it in data))

    def reply(self) -> Any:
        """The next reply; an error is raised."""
        try:
            line = self.file.readline()
        except OSError:
            line = b""
        if not line.endswith(b"\r\n"):
            raise ToolError(f"the server at {self.place} has ended", Exit.PROGRAM)
        kind, rest = line[:1], line[1:-2]
        if kind == b"-":
            raise Refused(f"{self.place}: {rest.decode('utf-8', 'replace')}")
        if kind == b"+":
            return rest.decode()
        if kind == b":":
            return int(rest)
        if rest == b"-1":
            return None
        if kind == b"$":
            return self.file.read(int(rest) + 2)[:-2]
        return [self.reply() for _ in range(int(rest))]

    def do(self, *words: Any) -> Any:
        try:
            self.send(*words)
        except OSError:
            raise ToolError(f"the server at {self.place} has ended", Exit.PROGRAM) from None
        return self.reply()

    def many(self, requests: list[tuple[Any, ...]]) -> list[Any]:
        """The replies to these requests, in a pipeline."""
        found = []
        for at in range(0, len(requests), 100):
            part = requests[at : at + 100]
            for words in part:
                self.send(*words)
            found += [self.reply() for _ in part]
        return found

    # What it says.

    def info(self, section: str) -> dict[str, str]:
        text = self.do("INFO", section).decode()
        return dict(line.split(":", 1) for line in text.split("\r\n") if ":" in line)

    def id(self) -> str:
        return self.do("CLUSTER", "MYID").decode()

    def is_ok(self) -> bool:
        return not self.is_loading() and b"cluster_state:ok" in self.do("CLUSTER", "INFO")

    def is_loading(self) -> bool:
        """Whether a copy of its primary's drive comes in; then nothing else is answered."""
        return self.info("persistence").get("loading") == "1"

    def seen(self) -> "list[Seen]":
        """The servers that it knows, and their slots."""
        return [seen_of(line) for line in self.do("CLUSTER", "NODES").decode().splitlines()]

    def keys(self) -> Iterator[bytes]:
        cursor = b"0"
        while True:
            cursor, names = self.do("SCAN", cursor, "COUNT", 1000)
            yield from names
            if cursor == b"0":
                return

    def digests(self, names: list[bytes]) -> dict[bytes, Optional[bytes]]:
        """A digest of the value of each of these keys; None for one that is not there."""
        found: dict[bytes, Optional[bytes]] = {}
        for at in range(0, len(names), 100):
            part = names[at : at + 100]
            values = self.many([("PINK.VALUE", it) for it in part])
            found |= {key: None if value is None else blake2b(value, digest_size=16).digest() for key, value in zip(part, values)}
        return found


class Seen(NamedTuple):
    """A server as another one knows it."""

    id: str
    port: int
    flags: list[str]
    primary: Optional[str]
    is_linked: bool
    slots: list[tuple[int, int]]
    host: str = HOST

    def is_primary(self) -> bool:
        return "master" in self.flags

    def is_there(self) -> bool:
        """Whether it answers, as the other one knows. A link that is only being made counts as connected."""
        return "myself" in self.flags or self.is_linked and not {"fail", "fail?", "handshake", "noaddr"} & {*self.flags}

    def has(self, slot: int) -> bool:
        return any(first <= slot <= last for first, last in self.slots)


def seen_of(line: str) -> Seen:
    """A line of CLUSTER NODES."""
    words = line.split()
    host, _, port = words[1].split("@")[0].rpartition(":")
    ranges = [it.split("-") for it in words[8:] if not it.startswith("[")]
    slots = [(int(it[0]), int(it[-1])) for it in ranges]
    primary = None if words[3] == "-" else words[3]
    return Seen(words[0], int(port), words[2].split(","), primary, words[7] == "connected", slots, host or HOST)


def owner(nodes: list[Seen], slot: int) -> Optional[Seen]:
    """Who has the slot."""
    return next((it for it in nodes if it.has(slot)), None)
