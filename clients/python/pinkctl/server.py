"""pinkctl serve: the drive of an image at a socket, in the protocol of Redis (version 2).

One thread waits for all connections and for the pipes of one `pink IMAGE serve`. Commands go to the
drive in the order in which they were read, and what one round read of all connections is committed
as a group: a Flush goes out after the changes of a round. The drive answers a change when it is on
the flash, so no client hears of it before.

No connection can delay the others, or take memory without a bound. Connections take turns of
`TURN_COMMANDS` commands; no more than about `AHEAD_BYTES` of answers are asked of the drive at a time;
and a connection that has `CLIENT_BYTES` of replies to take is served again once it has taken some. A
value that was asked for counts as the longest that the drive has until it has come.
"""

import argparse
import collections
import errno
import functools
import gc
import hmac
import os
import select
import signal
import socket
import stat
import struct
import subprocess
import sys
import threading
import time
from typing import Callable, Deque, Dict, List, NamedTuple, Optional, Set, Tuple, Union

from . import resp
from .program import pink  # first: it puts the client on the path
from .image import FileBytes, load_shape
from .log import log_of, write_into
from .mv import log_beside
import pinkdrive
from pinkdrive import ENTRY, KEY_BYTES, RECORD, Opcode, Report, image_word
from .resp import NIL, NO_ITEMS, OK, PONG, array, bulk, error, integer
from .status import Exit, ToolError
STORE, RETRIEVE, LIST = int(Opcode.STORE), int(Opcode.RETRIEVE), int(Opcode.LIST)
DELETE, EXIST, FLUSH, REPORT = (
    int(it) for it in (Opcode.DELETE, Opcode.EXIST, Opcode.FLUSH, Opcode.REPORT)
)
CHANGING = frozenset((STORE, DELETE))
IF_EXISTS, IF_ABSENT = 1, 2
SUCCESS, NO_KEY, KEY_IS_THERE = 0x00, 0x87, 0x89
GREATEST = pinkdrive.GREATEST_VALUE
"""The size that a Retrieve asks for: all of the value."""
KEY_ROOM = 20
"""Bytes that a key takes in the answer of a List, at most."""
LIST_BYTES = 65536
PIPE_BYTES = 1 << 20
"""No more requests are read while this many bytes wait for the drive."""
CLIENT_BYTES = 1 << 20
"""No more commands of a connection are begun while its replies have this many bytes, those that have
not come counted at their most."""
CLIENT_REPLIES = 4096
"""The same for this many replies that have not come yet."""
REQUEST_BYTES = 4 << 20
"""No request is longer, in bytes."""
COMMAND_BYTES = 64
"""What a command counts as until it is answered, beside its value."""
TURN_COMMANDS = 32
"""Commands of one connection, before another one has its turn."""
AHEAD_BYTES = 1 << 20
"""About as many bytes of answers are asked of the drive before they have come,"""
AHEAD_COMMANDS = 16, 1024
"""in commands at least and at most this many."""
GROUP_COMMANDS = 1024
"""The most commands of the drive between MULTI and EXEC,"""
GROUP_BYTES = 4 << 20
"""the most bytes of their words, and of the values that they may read."""
ROOM_AGAIN = 1 << 20
"""After the disk of the image was full changes are done again when it has this many free bytes."""
RECEIVE_BYTES = 65536
MOST_FRAMES = 16384
"""The most page frames that the program takes."""
CURSORS = 10000
"""Cursors of SCAN that are kept; the oldest go first."""
SIGNALS = (signal.SIGTERM, signal.SIGINT, signal.SIGHUP)
"""The signals that end the server."""
LAST_SECONDS = 0.9
"""How long after the drive's last answer the end waits for connections to take their replies,"""
END_SECONDS = 5.0
"""and how long in all."""


class Slot:
    """The place of a reply in the order of its connection; empty until the reply has come."""

    __slots__ = ("client", "reply")

    def __init__(self, client: "Client") -> None:
        self.client = client
        self.reply: Optional[bytes] = None

    def fill(self, reply: bytes) -> None:
        self.reply = reply
        client = self.client
        slots = client.slots
        if slots and slots[0] is self:
            client.collect()


Then = Callable[[int, int, bytes], None]
"""Takes a record of the drive: the status, the result and the data."""
Command = Tuple[int, bytes, int, Optional[Then], int, bytes, int, int]
"""A command of a request that has begun: opcode, key, size, who takes the record, options, value, namespace and
the bytes that it counts as."""
Waiting = Tuple[Optional[Then], Optional["Client"], int]
"""Who takes the record of a command, whose command it is, and how many bytes it counts as."""


def write_all(out: bytearray, write: Callable[[bytes], int]) -> None:
    """Writes these bytes, and removes those that were taken."""
    while out:
        del out[: write(out if len(out) <= RECEIVE_BYTES else out[:RECEIVE_BYTES])]


class Link:
    """The program that serves the drive, and the commands whose records have not come."""

    def __init__(self, program: str, image: str, frames: int) -> None:
        self.image, self.program, self.frames = image, program, frames
        self.process = subprocess.Popen(
            [program, image_word(image), "serve", str(frames)],
            bufsize=0,
            stdin=subprocess.PIPE,
            stdout=subprocess.PIPE,
            start_new_session=True,
            env={**os.environ, "PINK_EXEC": "1"},
        )
        assert self.process.stdin and self.process.stdout
        self.input, self.output = self.process.stdin.fileno(), self.process.stdout.fileno()
        os.set_blocking(self.input, False)
        os.set_blocking(self.output, False)
        self.waiting: Deque[Waiting] = collections.deque()
        self.window = AHEAD_COMMANDS[0]
        self.last_change = 0
        self.out = bytearray()
        self.sent = 0
        self.changes = 0
        self.flushes = 0
        self.over = False
        self.received = 0
        self._open_changes = False
        self._write = functools.partial(os.write, self.input)
        self._data = b""
        self._mean = 4096.0
        self._waited = 0.0
        self._seen = time.monotonic()

    def send(
        self,
        opcode: int,
        key: bytes,
        size: int,
        then: Optional[Then],
        options: int = 0,
        value: bytes = b"",
        space: int = 1,
        client: Optional["Client"] = None,
        cost: int = 0,
    ) -> None:
        """Sends a command; `then` is called with its record."""
        number, length = self.sent & 0xFFFF, min(len(key), 255)
        self.out += ENTRY.pack(opcode, number, space, key[:8], size, length, options, key[8:KEY_BYTES])
        if value:
            self.out += value
        self.sent += 1
        self.waiting.append((then, client, cost))
        if opcode in CHANGING:
            self.changes += 1
            self.last_change = self.sent
            self._open_changes = True
        else:  # any other command commits what came before it
            self._open_changes = False

    def end_group(self) -> None:
        """Has the changes of this round committed."""
        if self._open_changes:
            self.flushes += 1
            self.send(FLUSH, b"", 0, None)

    def room(self) -> int:
        """How many commands may be asked of the drive before it has answered more."""
        return self.window - len(self.waiting)

    def is_ahead(self) -> bool:
        """Whether enough is asked of the drive for now."""
        return len(self.waiting) >= self.window or len(self.out) >= PIPE_BYTES

    def has_changes(self) -> bool:
        """Whether a change has not been answered."""
        return self.last_change > self.sent - len(self.waiting)

    def _set_window(self, bytes_: int, records: int) -> None:
        """How many commands are about `AHEAD_BYTES` of answers, by the length of those that came."""
        self._mean = (self._mean + bytes_ / records) / 2
        least, most = AHEAD_COMMANDS
        self.window = max(least, min(most, int(AHEAD_BYTES / self._mean)))

    def pass_time(self) -> None:
        """Counts the time since the last call for each command that waits."""
        now = time.monotonic()
        self._waited += len(self.waiting) * (now - self._seen)
        self._seen = now

    def mean_microseconds(self) -> int:
        """The mean time from the sending of a command to its record."""
        return int(1e6 * self._waited / max(1, self.sent - len(self.waiting)))

    def written_bytes(self) -> Optional[int]:
        """Bytes that the program wrote to the image; None if the system does not say."""
        try:
            with open(f"/proc/{self.process.pid}/io") as file:
                fields = dict(line.split(": ") for line in file.read().splitlines())
            return max(0, int(fields["wchar"]) - self.received)
        except (OSError, KeyError, ValueError):
            return None

    def write(self) -> None:
        """Writes what the pipe takes."""
        try:
            write_all(self.out, self._write)
        except BlockingIOError:
            pass
        except BrokenPipeError:
            self.over = True

    def read(self) -> None:
        """Takes the records that have come; `over` after the last."""
        try:
            data = os.read(self.output, 1 << 18)
        except BlockingIOError:
            return
        if not data:
            self.over = True
            return
        self.received += len(data)
        data, at = self._data + data if self._data else data, 0
        waiting, unpack, head = self.waiting, RECORD.unpack_from, RECORD.size
        before = self.sent - len(waiting)
        while len(data) - at >= head:
            result, _, _, marks, _, length = unpack(data, at)
            end = at + head + length
            if end > len(data):
                break
            then, client, cost = waiting.popleft()
            if client:
                client.owed -= cost
                if client.is_stopped:
                    client.server.to_write.add(client)
            if then:
                then(marks >> 17 & 0xFF, result, data[at + head : end])
            at = end
        self._data = data[at:]
        records = self.sent - len(waiting) - before
        if records:
            self._set_window(at, records)

    def reports_now(self) -> List[Report]:
        """The drive's numbers in each namespace, waited for; the first commands of a session."""
        os.set_blocking(self.output, True)
        answers: List[Tuple[int, bytes]] = []
        for space in range(1, pinkdrive.NAMESPACES + 1):
            self.send(REPORT, b"", 0, lambda status, _, data: answers.append((status, data)), space=space)
        self.write()
        while len(answers) < pinkdrive.NAMESPACES and not self.over:
            self.read()
        if self.over:
            raise pinkdrive.ended(self.process.wait(), self.image)
        os.set_blocking(self.output, False)
        found = [data for status, data in answers if status == SUCCESS]
        return [Report._make(struct.unpack("<16I", it)) for it in found]

    def end(self) -> int:
        """Ends the session, and returns the status of the program."""
        for pipe in (self.process.stdin, self.process.stdout):
            if pipe:
                pipe.close()
        return self.process.wait()


def open_link(program: str, image: str, frames: int, seconds: float) -> Tuple[Link, List[Report]]:
    """Opens the drive; waits up to this many seconds while another process has the image open."""
    last = time.monotonic() + seconds
    while True:
        link = Link(program, image, frames)
        try:
            return link, link.reports_now()
        except pinkdrive.ImageInUse:
            link.end()
            if time.monotonic() > last:
                raise
        except BaseException:
            link.end()
            raise
        time.sleep(0.05)


class Client:
    """A connection: its requests, and its replies in their order."""

    def __init__(self, server: "Server", connection: socket.socket, number: int) -> None:
        self.server = server
        self.socket = connection
        self.number = number
        self.name = b""
        self.space = 1
        self.asked = Asked(server, self, 1)
        self.is_known = server.password is None
        self.requests = resp.Requests()
        self.pending: Optional[List[bytes]] = None  # a request that has to wait
        self.group: Optional[Group] = None
        self.queue: Deque[Command] = collections.deque()  # of a request that has begun
        self.is_busy = False  # the request that has begun asks more after its answers
        self.slots: Deque[Slot] = collections.deque()
        self.out = bytearray()
        self.owed = 0  # bytes of the answers that have not come, at their most
        self.turn_end = 0  # in commands that were sent
        self.may_send = False  # there was room for a request, and none of its commands is sent
        self.is_held = False  # it waits for its turn
        self.is_stopped = False  # it goes on when its replies have been taken
        self.ending = False  # no more requests are taken, and it is closed after the last reply
        self.closed = False
        self.events = select.EPOLLIN
        self.may_read = True  # its next request is waited for, and nothing else

    def collect(self) -> None:
        """Moves the replies that have come, up to the first that has not."""
        slots, out = self.slots, self.out
        while slots and slots[0].reply is not None:
            out += slots.popleft().reply or b""
        self.server.to_write.add(self)

    def has_room(self) -> bool:
        """Whether it may begin one more command, or, if none is in the queue, one more request."""
        if len(self.out) + self.owed < CLIENT_BYTES and (self.queue or len(self.slots) < CLIENT_REPLIES):
            return True
        return self.is_changing()  # a connection that takes no replies does not keep the others from a copy

    def is_changing(self) -> bool:
        """Whether a request that changes has begun, and not all of its commands are sent."""
        return self.is_busy or bool(self.queue) and self.queue[0][0] in (STORE, DELETE)

    def take(self, events: int) -> None:
        """Goes on when the connection can be read or written."""
        if events & ~select.EPOLLIN:
            self.server.to_write.add(self)
        if events & ~select.EPOLLOUT:
            self._receive()

    def _receive(self) -> None:
        try:
            data = self.socket.recv(RECEIVE_BYTES)
        except (BlockingIOError, InterruptedError):
            return
        except OSError:
            data = b""
        if not data:
            self.ending = True
            self.server.to_write.add(self)
            return
        self.requests.feed(data)
        if self.server.held:
            self.server.hold(self)
        else:
            self.work()

    # Turns.

    def work(self) -> None:
        """Has a turn: goes on with the requests that have come."""
        self.is_held = self.is_stopped = False
        link, requests = self.server.link, self.requests
        self.turn_end = link.sent + min(TURN_COMMANDS, link.room())
        turns = TURN_COMMANDS
        while self.queue or not (self.is_busy or self.ending):
            if not turns or link.sent >= self.turn_end or len(link.out) >= PIPE_BYTES:
                self.server.hold(self)
                break
            if not self.has_room():
                self.is_stopped = True
                break
            turns -= 1
            if self.queue:
                self._send(*self.queue.popleft())
                continue
            self.may_send = True
            if not self._next_request() or requests.is_empty():
                break
        self.may_send = False
        if self.is_held or self.is_stopped or self.is_busy or self.pending or not self.may_read:
            self.may_read = False
            self.server.to_write.add(self)

    def _next_request(self) -> bool:
        """Does the next request; False if there is none yet, or it has to wait."""
        try:
            words = self.pending or self.requests.next()
            if words is None and self.requests.length() > REQUEST_BYTES:
                raise resp.ProtocolError(f"a request has at most {REQUEST_BYTES} bytes")
        except resp.ProtocolError as fault:
            self.say(error(f"ERR Protocol error: {fault}"))
            self.ending = True
            return False
        self.pending = None
        if words is None:
            return False
        if self.server.copy and words[0].upper() in CHANGES:
            self.pending = words
            self.server.paused.add(self)
            return False
        self.server.do(self, words)
        return True

    def ask(
        self,
        opcode: int,
        key: bytes,
        size: int,
        then: Optional[Then],
        options: int = 0,
        value: bytes = b"",
    ) -> None:
        """A command for the drive: sent now, or when it is the connection's turn again."""
        cost = COMMAND_BYTES + len(value)
        if opcode == RETRIEVE and size:
            cost += self.server.greatest
        elif opcode == LIST:
            cost += size
        if self.may_send or self.server.is_grouped or self._has_turn():
            self.may_send = False
            self.owed += cost
            send = self.server.link.send
            send(opcode, key, size, then, options, value, self.space, self, cost)
            return
        self.queue.append((opcode, key, size, then, options, value, self.space, cost))
        if not self.is_stopped:
            self.server.hold(self)

    def _has_turn(self) -> bool:
        """Whether one more command of the request that has begun may be sent now."""
        if self.queue or len(self.out) + self.owed >= CLIENT_BYTES:
            return False
        return self.server.link.sent < self.turn_end and not self.server.link.is_ahead()

    def _send(
        self,
        opcode: int,
        key: bytes,
        size: int,
        then: Optional[Then],
        options: int,
        value: bytes,
        space: int,
        cost: int,
    ) -> None:
        """Sends a command of the queue."""
        self.owed += cost
        self.server.link.send(opcode, key, size, then, options, value, space, self, cost)

    # Replies.

    def say(self, reply: bytes) -> None:
        """A reply that is known immediately."""
        if self.slots:
            slot = Slot(self)
            slot.reply = reply
            self.slots.append(slot)
        else:
            self.out += reply
            self.server.to_write.add(self)

    def slot(self) -> Slot:
        """The place of a reply that comes later."""
        slot = Slot(self)
        self.slots.append(slot)
        return slot

    def leave(self) -> None:
        """The connection is of no more use: what it has asked is not begun."""
        self.out.clear()
        self.slots.clear()
        self.queue.clear()
        self.is_busy = False
        self.ending = True

    def write(self) -> None:
        """Writes what the connection takes, and closes it after its last reply."""
        try:
            write_all(self.out, self.socket.send)
        except (BlockingIOError, InterruptedError):
            pass
        except OSError:
            self.leave()
        if self.may_read and not self.out and not (self.ending or self.is_held or self.is_stopped):
            return  # the most common case: nothing to wait for but its next request
        if self.ending and not self.out and not self.slots and not self.queue:
            self.server.drop(self)
            return
        if self.is_stopped and self.has_room():
            self.is_stopped = False
            self.server.hold(self)
        has_more = self.is_held or self.is_stopped or self.is_busy or self.pending is not None
        reads = not self.ending and not has_more
        events = select.EPOLLIN * reads | select.EPOLLOUT * bool(self.out)
        self.server.watch(self, events)
        self.may_read = events == select.EPOLLIN


class Group:
    """The requests after MULTI."""

    def __init__(self) -> None:
        self.requests: List[List[bytes]] = []
        self.commands = 0
        self.bytes = 0
        self.fault = b""  # the first refusal: nothing of the group is done


Handler = Callable[["Server", Client, List[bytes]], None]
COMMANDS: Dict[bytes, Tuple[Handler, int, Optional[int]]] = {}
"""By name in capitals: what does it, and how many words it has with the name, at least and at most."""


def command(name: str, least: int, most: Optional[int]) -> Callable[[Handler], Handler]:
    def add(handler: Handler) -> Handler:
        COMMANDS[name.encode()] = handler, least, most
        return handler

    return add


CHANGES = {b"SET", b"SETNX", b"MSET", b"DEL", b"UNLINK", b"FLUSHDB", b"EXEC"}
"""The requests that may change the drive."""


class Server:
    """The drive, its socket and its connections."""

    def __init__(
        self,
        link: Link,
        reports: List[Report],
        listener: socket.socket,
        password: Optional[bytes] = None,
        backups: Optional[str] = None,
    ) -> None:
        self.link = link
        self.listener = listener
        self.password = password
        self.backups = backups
        self.limits = [it.limit for it in reports]
        self.shape = pinkdrive.shape_of(link.image)
        self.greatest = self.shape.greatest_value if self.shape else pinkdrive.GREATEST_VALUE
        self.poll = select.epoll()
        self.takers: Dict[int, Callable[[int], None]] = {}  # by number of a file: what goes on when it is ready
        self.clients: Dict[int, Client] = {}
        self.to_write: Set[Client] = set()
        self.held: Deque[Client] = collections.deque()
        self.is_grouped = False  # the commands of a group go out without another client's between them
        self.copy: Optional[Copy] = None
        self.paused: Set[Client] = set()  # their changes wait for the end of a copy
        self.is_full_disk = False
        self.cursors: "collections.OrderedDict[int, bytes]" = collections.OrderedDict()
        self.last_cursor = 0
        self.connections = 0
        self.calls: "collections.Counter[bytes]" = collections.Counter()
        self.began = time.time()
        self.ending = False
        self._pipe_events = 0
        wakes, self._wake = socket.socketpair()
        wakes.setblocking(False)
        self._wake.setblocking(False)
        self._wakes = wakes

    # The loop.

    def end_on_signals(self) -> None:
        """From now on a signal ends the loop."""
        signal.set_wakeup_fd(self._wake.fileno())
        for number in SIGNALS:
            signal.signal(number, self._end_soon)

    def run(self) -> int:
        """Serves until a signal ends it, and returns the exit status."""
        self.listener.setblocking(False)
        self._wait_for(self.listener.fileno(), select.EPOLLIN, self._accept)
        self._wait_for(self._wakes.fileno(), select.EPOLLIN, self._woken)
        self._wait_for(self.link.output, select.EPOLLIN, self._read_link)
        while not self.ending and (not self.link.over or self._reopen()):
            self._round(None)
        status = self._last_replies() if self.link.over else self._finish()
        for client in list(self.clients.values()):
            self.drop(client)
        return status

    def _wait_for(self, number: int, events: int, taker: Callable[[int], None]) -> None:
        """Calls the function whenever one of these events of a file has come."""
        self.takers[number] = taker
        self.poll.register(number, events)

    def _forget(self, number: int) -> None:
        self.poll.unregister(number)
        del self.takers[number]

    def _read_link(self, events: int) -> None:
        self.link.read()

    def _write_link(self, events: int) -> None:
        """Each round writes."""

    def _round(self, seconds: Optional[float]) -> None:
        """Waits, reads what came, has its changes committed, and writes what can be written."""
        ready = self.poll.poll(0 if self.held and not self.link.is_ahead() else seconds)
        self.link.pass_time()
        for number, events in ready:
            self.takers[number](events)
        if self.copy:
            self._go_on_with_copy(self.copy)
        if self.held:
            self._take_turns()
        self.link.end_group()
        self.link.write()
        if self.link.out or self._pipe_events:
            self._watch_pipe()
        while self.to_write:
            self.to_write.pop().write()

    def hold(self, client: Client) -> None:
        """Its next turn comes after those of the others that wait."""
        if client.is_held or client.closed:
            return
        client.is_held = True
        client.may_read = False
        self.held.append(client)
        self.to_write.add(client)

    def _take_turns(self) -> None:
        """Goes on with the connections that were held, while there is room for more commands."""
        while self.held and not self.link.is_ahead():
            client = self.held.popleft()
            client.is_held = False
            if not client.closed:
                client.work()
                self.to_write.add(client)

    def watch(self, client: Client, events: int) -> None:
        """Waits for these events of a connection."""
        if client.closed or events == client.events:
            return
        number = client.socket.fileno()
        if client.events == 0:
            self._wait_for(number, events, client.take)
        elif events == 0:
            self._forget(number)
        else:
            self.poll.modify(number, events)
        client.events = events

    def _watch_pipe(self) -> None:
        events = select.EPOLLOUT if self.link.out and not self.link.over else 0
        if events and not self._pipe_events:
            self._wait_for(self.link.input, events, self._write_link)
        elif self._pipe_events and not events:
            self._forget(self.link.input)
        self._pipe_events = events

    def _accept(self, events: int) -> None:
        try:
            connection, _ = self.listener.accept()
        except OSError as fault:
            if fault.errno in (errno.EMFILE, errno.ENFILE):
                time.sleep(0.01)  # no descriptor is free until a connection ends
            return
        connection.setblocking(False)
        if connection.family != socket.AF_UNIX:
            connection.setsockopt(socket.IPPROTO_TCP, socket.TCP_NODELAY, 1)
        self.connections += 1
        client = Client(self, connection, self.connections)
        self.clients[client.number] = client
        self._wait_for(connection.fileno(), client.events, client.take)

    def drop(self, client: Client) -> None:
        if client.closed:
            return
        self.watch(client, 0)
        client.closed = True
        client.queue.clear()
        client.socket.close()
        self.clients.pop(client.number, None)
        self.paused.discard(client)

    def _woken(self, events: int) -> None:
        try:
            self._wakes.recv(4096)
        except BlockingIOError:
            pass

    def _end_soon(self, number: int, frame: object) -> None:
        self.ending = True

    # A copy of the image. Changes wait until it is made, and reads go on: they do not write to the image.

    def begin_copy(self, copy: "Copy") -> None:
        """From now on changes wait."""
        self.copy = copy

    def _go_on_with_copy(self, copy: "Copy") -> None:
        if copy.thread is None:
            others = (it for it in self.clients.values() if it is not copy.client)
            if not any(it.is_changing() for it in others) and not self.link.has_changes() and not self.link.out:
                copy.start(self.link.image, self._wake)
        elif copy.is_done:
            copy.thread.join()
            copy.client.is_busy = False
            copy.slot.fill(error(copy.fault) if copy.fault else OK)
            self.copy = None
            self.hold(copy.client)
            for client in self.paused:
                self.hold(client)
            self.paused.clear()

    # A full disk. The program ends when a write to the image fails; a new one reads what was answered.

    def _reopen(self) -> bool:
        """Goes on with a new program, for reading, if the disk of the image is full; False if it is not."""
        if not pinkdrive._no_space(self.link.image):
            return False
        old, frames = self.link, self.link.frames
        self._fail_waiting(f"ERR {pinkdrive._no_space(old.image)}: this command may have been done or not")
        self._forget(old.output)
        if self._pipe_events:
            self._forget(old.input)
            self._pipe_events = 0
        old.end()
        try:
            self.link, _ = open_link(old.program, old.image, frames, 5)
        except pinkdrive.DriveError:
            self.link = old
            return False
        self.is_full_disk = True
        self._wait_for(self.link.output, select.EPOLLIN, self._read_link)
        print(f"pinkctl serve: there is no space left on the disk of {old.image}: changes are refused", file=sys.stderr)
        return True

    def _fail_waiting(self, text: str) -> None:
        """All that has begun is answered with an error."""
        for client in list(self.clients.values()):
            client.queue.clear()
            client.owed = 0
            for slot in client.slots:
                slot.reply = slot.reply or error(text)
            if client.is_busy and not (self.copy and self.copy.client is client):
                client.is_busy = False
            client.collect()
            self.hold(client)

    def changes_fault(self) -> Optional[str]:
        """Why no change is done now."""
        if not self.is_full_disk:
            return None
        system = os.statvfs(self.link.image)
        self.is_full_disk = system.f_bavail * system.f_frsize < ROOM_AGAIN
        if not self.is_full_disk:
            return None
        return f"ERR there is no space left on the disk of {self.link.image}: until there is, the drive is only read"

    # The end.

    def _finish(self) -> int:
        """Answers what was read, and ends the session of the drive."""
        self._forget(self.listener.fileno())
        self.listener.close()
        for client in self.clients.values():
            client.ending = True
            self.to_write.add(client)
        end = time.monotonic() + END_SECONDS
        last = time.monotonic() + LAST_SECONDS
        while self.clients and not self.link.over and time.monotonic() < min(last, end):
            before = self.link.received
            self._round(0.05)
            if self.link.received != before or self.copy:
                last = time.monotonic() + LAST_SECONDS
        for client in self.clients.values():
            client.leave()
        while (self.link.waiting or self.copy) and not self.link.over:
            self._round(0.05)
        if self.link.over:
            return self._last_replies()
        self._forget(self.link.output)
        return Exit.PROGRAM if self.link.end() else Exit.OK

    def _last_replies(self) -> int:
        """The program ended by itself: what it answered was sent on, and the rest is an error."""
        self._forget(self.link.output)
        status = self.link.end()
        cause = pinkdrive.ended(status, self.link.image)
        self._fail_waiting(f"ERR the drive ended ({cause}); this command may have been done or not")
        for client in list(self.clients.values()):
            client.ending = True
            client.write()
        print(f"pinkctl serve: the drive ended: {cause}", file=sys.stderr)
        return Exit.PROGRAM

    # Commands.

    def do(self, client: Client, words: List[bytes]) -> None:
        """Does a request: its reply is known immediately, or a slot waits for it."""
        name = words[0].upper()
        known = COMMANDS.get(name)
        self.calls[name if known else b"UNKNOWN"] += 1
        fault = None if known and client.is_known and not self.is_full_disk else self._fault_of(client, name, words)
        if known and fault is None:
            handler, least, most = known
            if least <= len(words) and (most is None or len(words) <= most):
                if client.group and name not in (b"EXEC", b"DISCARD", b"MULTI", b"QUIT"):
                    queue_up(self, client, name, words)
                else:
                    handler(self, client, words)
                return
            text = name.decode().lower()
            fault = error(f"ERR wrong number of arguments for '{text}' command")
        assert fault
        client.say(fault)
        if client.group:
            client.group.fault = client.group.fault or fault

    def _fault_of(self, client: Client, name: bytes, words: List[bytes]) -> Optional[bytes]:
        """Why a request is refused whatever its words are."""
        if name not in COMMANDS:
            return self._unknown(client, name, words[0])
        if not client.is_known and name not in (b"AUTH", b"HELLO", b"QUIT"):
            return error("NOAUTH Authentication required.")
        if self.is_full_disk and name in CHANGES:
            fault = self.changes_fault()
            return error(fault) if fault else None
        return None

    def _unknown(self, client: Client, name: bytes, word: bytes) -> bytes:
        if name in (b"POST", b"HOST:"):  # a browser that was led here
            client.ending = True
        text = word[:64].decode("utf-8", "replace")
        names = " ".join(sorted(it.decode() for it in COMMANDS))
        return error(f"ERR unknown command '{text}'; the drive has {names}")

    def refusal(self, status: int, opcode: int, key: bytes, size: int, space: int = 1) -> bytes:
        """The reply of a status other than success."""
        limits = None
        if self.shape:
            live = self.limits[space - 1] if space <= len(self.limits) else 0
            limits = pinkdrive.Limits(self.shape, live)
        return error("ERR " + pinkdrive.refusal_text(status, opcode, key, size, limits, space))

    def next_cursor(self, start: bytes) -> int:
        """A cursor that goes on at this key."""
        self.last_cursor += 1
        self.cursors[self.last_cursor] = start
        if len(self.cursors) > CURSORS:
            self.cursors.popitem(last=False)
        return self.last_cursor


# Commands that ask the drive.


class Asked(NamedTuple):
    """Whose request asks the drive, and in which namespace."""

    server: Server
    client: Client
    space: int

    def refusal(self, status: int, opcode: int, key: bytes, size: int) -> bytes:
        return self.server.refusal(status, opcode, key, size, self.space)

    def value_or_nil(self, key: bytes, status: int, data: bytes) -> bytes:
        if status == SUCCESS:
            return bulk(data)
        return NIL if status == NO_KEY else self.refusal(status, RETRIEVE, key, GREATEST)


class Value(Slot):
    """The place of a value."""

    __slots__ = ("asked", "key")

    def __init__(self, asked: Asked, key: bytes) -> None:
        self.client, self.reply, self.asked, self.key = asked.client, None, asked, key
        self.client.slots.append(self)

    def take(self, status: int, result: int, data: bytes) -> None:
        self.fill(self.asked.value_or_nil(self.key, status, data))


@command("GET", 2, 2)
def get(server: Server, client: Client, words: List[bytes]) -> None:
    key = words[1]
    client.ask(RETRIEVE, key, GREATEST, Value(client.asked, key).take)


@command("MGET", 2, None)
def get_many(server: Server, client: Client, words: List[bytes]) -> None:
    """The values are sent as they come, so that they are not all in memory."""
    asked = client.asked
    for key in words[1:]:
        if not 1 <= len(key) <= KEY_BYTES:
            client.say(asked.refusal(0x86, RETRIEVE, key, 0))
            return
    client.say(b"*%d\r\n" % (len(words) - 1))
    for key in words[1:]:
        client.ask(RETRIEVE, key, GREATEST, Value(asked, key).take)


def set_options(words: List[bytes]) -> Union[Tuple[int, bool], str]:
    """The options of a Store and whether the value before is asked for; or what is wrong."""
    names = {it.upper() for it in words}
    for word in words:
        if word.upper() not in (b"NX", b"XX", b"GET"):
            text = word[:32].decode("utf-8", "replace")
            return f"ERR syntax error: SET has NX, XX and GET, not '{text}' (keys do not expire)"
    if {b"NX", b"XX"} <= names:
        return "ERR syntax error: NX and XX exclude each other"
    return IF_ABSENT * (b"NX" in names) + IF_EXISTS * (b"XX" in names), b"GET" in names


@command("SET", 3, None)
def set_value(server: Server, client: Client, words: List[bytes]) -> None:
    key, value = words[1], words[2]
    options, before = 0, False
    if len(words) > 3:
        parsed = set_options(words[3:])
        if isinstance(parsed, str):
            client.say(error(parsed))
            return
        options, before = parsed
    if before:
        store_and_get(client.asked, key, value, options)
    else:
        store(client, key, value, options, OK, NIL)


class Stored(Slot):
    """The place of the reply to a Store: `done`, or `not_done` if its options forbade it."""

    __slots__ = ("asked", "key", "size", "done", "not_done")

    def __init__(self, asked: Asked, key: bytes, size: int, done: bytes, not_done: Optional[bytes]) -> None:
        self.client, self.reply, self.asked, self.key = asked.client, None, asked, key
        self.size, self.done, self.not_done = size, done, not_done
        self.client.slots.append(self)

    def take(self, status: int, result: int, data: bytes) -> None:
        if status == SUCCESS:
            self.fill(self.done)
        elif self.not_done and status in (NO_KEY, KEY_IS_THERE):
            self.fill(self.not_done)
        else:
            self.fill(self.asked.refusal(status, STORE, self.key, self.size))


def store(client: Client, key: bytes, value: bytes, options: int, done: bytes, not_done: bytes) -> None:
    size = len(value)
    then = Stored(client.asked, key, size, done, not_done if options else None).take
    client.ask(STORE, key, size, then, options, value)


def store_and_get(asked: Asked, key: bytes, value: bytes, options: int) -> None:
    """SET with GET: the value before, or an error of either command."""
    slot = asked.client.slot()
    old: List[bytes] = []

    def found(status: int, result: int, data: bytes) -> None:
        old.append(asked.value_or_nil(key, status, data))

    def stored(status: int, result: int, data: bytes) -> None:
        fine = status in (SUCCESS, NO_KEY, KEY_IS_THERE)
        slot.fill(old[0] if fine else asked.refusal(status, STORE, key, len(value)))

    asked.client.ask(RETRIEVE, key, GREATEST, found)
    asked.client.ask(STORE, key, len(value), stored, options, value)


@command("SETNX", 3, 3)
def set_absent(server: Server, client: Client, words: List[bytes]) -> None:
    store(client, words[1], words[2], IF_ABSENT, integer(1), integer(0))


class Sum:
    """The replies of several commands of the drive as one: how many succeeded, or the first refusal."""

    def __init__(self, asked: Asked, opcode: int, count: int, done: Optional[bytes] = None) -> None:
        self.asked, self.slot = asked, asked.client.slot()
        self.opcode, self.count, self.done = opcode, count, done
        self.sum, self.fault = 0, b""

    def take(self, key: bytes, size: int, status: int, result: int, data: bytes) -> None:
        self.count -= 1
        self.sum += status == SUCCESS
        if status not in (SUCCESS, NO_KEY) and not self.fault:
            self.fault = self.asked.refusal(status, self.opcode, key, size)
        if not self.count:
            self.slot.fill(self.fault or self.done or integer(self.sum))


def count(server: Server, client: Client, opcode: int, keys: List[bytes]) -> None:
    """How many of these keys a command succeeds for."""
    total = Sum(client.asked, opcode, len(keys))
    for key in keys:
        client.ask(opcode, key, 0, functools.partial(total.take, key, 0))


@command("DEL", 2, None)
def delete(server: Server, client: Client, words: List[bytes]) -> None:
    count(server, client, DELETE, words[1:])


@command("UNLINK", 2, None)
def unlink(server: Server, client: Client, words: List[bytes]) -> None:
    count(server, client, DELETE, words[1:])


@command("EXISTS", 2, None)
def exists(server: Server, client: Client, words: List[bytes]) -> None:
    count(server, client, EXIST, words[1:])


@command("MSET", 3, None)
def set_many(server: Server, client: Client, words: List[bytes]) -> None:
    """The values in their order; after a refusal the others are stored all the same."""
    if len(words) % 2 == 0:
        client.say(error("ERR wrong number of arguments for 'mset' command"))
        return
    total = Sum(client.asked, STORE, len(words) // 2, OK)
    for key, value in zip(words[1::2], words[2::2]):
        then = functools.partial(total.take, key, len(value))
        client.ask(STORE, key, len(value), then, 0, value)


@command("FLUSHDB", 1, 2)
def delete_all(server: Server, client: Client, words: List[bytes]) -> None:
    """Deletes the keys of the namespace that are there when it comes to them, in their order."""
    if len(words) > 1 and words[1].upper() not in (b"SYNC", b"ASYNC"):
        client.say(error("ERR syntax error"))
        return
    slot, asked = client.slot(), client.asked

    def listed(status: int, result: int, data: bytes) -> None:
        keys = pinkdrive._keys_in(data) if status == SUCCESS else []
        for key in keys:
            client.ask(DELETE, key, 0, None)
        start = after(keys[-1]) if keys else None
        if start is not None:
            client.ask(LIST, start, LIST_BYTES, listed)
            return
        client.is_busy = False
        fine = status == SUCCESS
        slot.fill(OK if fine else asked.refusal(status, LIST, b"", LIST_BYTES))
        server.hold(client)

    client.is_busy = True
    client.ask(LIST, b"", LIST_BYTES, listed)


@command("TYPE", 2, 2)
def type_of(server: Server, client: Client, words: List[bytes]) -> None:
    slot, key, asked = client.slot(), words[1], client.asked
    replies = {SUCCESS: b"+string\r\n", NO_KEY: b"+none\r\n"}

    def found(status: int, result: int, data: bytes) -> None:
        slot.fill(replies.get(status) or asked.refusal(status, EXIST, key, 0))

    client.ask(EXIST, key, 0, found)


@command("STRLEN", 2, 2)
def length(server: Server, client: Client, words: List[bytes]) -> None:
    slot, key, asked = client.slot(), words[1], client.asked

    def found(status: int, result: int, data: bytes) -> None:
        if status in (SUCCESS, NO_KEY):
            slot.fill(integer(result if status == SUCCESS else 0))
        else:
            slot.fill(asked.refusal(status, RETRIEVE, key, 0))

    client.ask(RETRIEVE, key, 0, found)


def after(key: bytes) -> Optional[bytes]:
    """The next key that there can be; None after the last."""
    if len(key) < KEY_BYTES:
        return key + b"\0"
    front = key.rstrip(b"\xff")
    return front[:-1] + bytes([front[-1] + 1]) if front else None


class Scan(NamedTuple):
    """What a SCAN asks for: the key to go on at, a pattern, a count of keys, and a type."""

    start: bytes
    pattern: bytes
    most: int
    kind: bytes


def scan_of(server: Server, words: List[bytes]) -> Union[Scan, str]:
    """The options of a SCAN, or what is wrong with them."""
    if not words[1].isdigit():
        return "ERR invalid cursor"
    cursor = int(words[1])
    start = server.cursors.get(cursor)
    if cursor and start is None:
        return "ERR invalid cursor: it is too old, or of a server before this one; begin with 0"
    options = {b"MATCH": b"*", b"COUNT": b"10", b"TYPE": b"string"}
    if len(words) % 2:
        return "ERR syntax error"
    for name, value in zip(words[2::2], words[3::2]):
        if name.upper() not in options:
            return "ERR syntax error: SCAN has MATCH, COUNT and TYPE"
        options[name.upper()] = value
    number = options[b"COUNT"]
    if not number.isdigit() or int(number) < 1:
        return "ERR value is not an integer or out of range"
    pattern = options[b"MATCH"]
    first = max(start or b"", resp.fixed_prefix(pattern)[:KEY_BYTES])
    most = (LIST_BYTES - 4) // KEY_ROOM
    return Scan(first, pattern, min(int(number), most), options[b"TYPE"].lower())


@command("SCAN", 2, None)
def scan(server: Server, client: Client, words: List[bytes]) -> None:
    parsed = scan_of(server, words)
    if isinstance(parsed, str):
        client.say(error(parsed))
        return
    asked, by = parsed, client.asked
    slot, size = client.slot(), 4 + KEY_ROOM * asked.most
    prefix = resp.fixed_prefix(asked.pattern)

    def listed(status: int, result: int, data: bytes) -> None:
        if status != SUCCESS:
            slot.fill(by.refusal(status, LIST, asked.start, size))
            return
        keys = pinkdrive._keys_in(data)
        start = after(keys[-1]) if keys and size - len(data) < KEY_ROOM else None
        if start is not None and not start.startswith(prefix) and start > prefix:
            start = None  # all further keys are after those of the pattern
        cursor = server.next_cursor(start) if start is not None else 0
        fits = [it for it in keys if resp.glob_matches(asked.pattern, it)]
        found = array([bulk(it) for it in fits]) if asked.kind == b"string" else NO_ITEMS
        slot.fill(array([bulk(b"%d" % cursor), found]))

    client.ask(LIST, asked.start, size, listed)


def report(server: Server, client: Client, told: Callable[[Report], bytes]) -> None:
    """A reply from the drive's numbers in the namespace."""
    slot, asked = client.slot(), client.asked

    def found(status: int, result: int, data: bytes) -> None:
        if status == SUCCESS:
            slot.fill(told(Report._make(struct.unpack("<16I", data))))
        else:
            slot.fill(asked.refusal(status, REPORT, b"", 0))

    client.ask(REPORT, b"", 0, found)


@command("DBSIZE", 1, 1)
def count_keys(server: Server, client: Client, words: List[bytes]) -> None:
    report(server, client, lambda numbers: integer(numbers.keys))


@command("INFO", 1, None)
def info(server: Server, client: Client, words: List[bytes]) -> None:
    wanted = {it.decode("utf-8", "replace").lower() for it in words[1:]}
    database = client.space - 1
    report(server, client, lambda numbers: bulk(info_text(server, numbers, wanted, database)))


def resident_bytes(process: Union[int, str]) -> int:
    """The memory of a process that is in use; 0 if the system does not say."""
    try:
        with open(f"/proc/{process}/statm") as file:
            return int(file.read().split()[1]) * os.sysconf("SC_PAGE_SIZE")
    except (OSError, ValueError, IndexError):
        return 0


def info_text(server: Server, numbers: Report, wanted: Set[str], database: int) -> bytes:
    """The sections of INFO, all of them if none is named; the numbers are those of a namespace."""
    link, shape = server.link, server.shape
    memory = resident_bytes(link.process.pid) + resident_bytes("self")
    written = link.written_bytes()
    sections: Dict[str, Dict[str, object]] = {
        "Server": {
            "server_name": "pinkctl serve",
            "redis_version": "0.0.0",
            "process_id": os.getpid(),
            "drive_process_id": link.process.pid,
            "uptime_in_seconds": int(time.time() - server.began),
            "image": link.image,
        },
        "Clients": {"connected_clients": len(server.clients), "blocked_clients": 0},
        "Memory": {"used_memory": memory, "used_memory_rss": memory},
        "Stats": {
            "total_connections_received": server.connections,
            "total_commands_processed": sum(server.calls.values()),
            "drive_commands": link.sent,
            "drive_changes": link.changes,
            "drive_groups": link.flushes,
            "drive_waiting": len(link.waiting),
            "drive_mean_microseconds": link.mean_microseconds(),
            **({"drive_written_bytes": written} if written is not None else {}),
        },
        "Drive": {
            **(shape._asdict() if shape else {}),
            "greatest_key_bytes": KEY_BYTES,
            **({"greatest_value_bytes": shape.greatest_value} if shape else {}),
            **{f"report_{name}": number for name, number in numbers._asdict().items()},
        },
        "Commandstats": {
            f"cmdstat_{name.decode().lower()}": f"calls={calls}"
            for name, calls in server.calls.items()
        },
        "Keyspace": (
            {f"db{database}": f"keys={numbers.keys},expires=0,avg_ttl=0"} if numbers.keys else {}
        ),
    }
    parts = []
    for title, lines in sections.items():
        if not wanted or wanted & {title.lower(), "all", "everything", "default"}:
            parts.append(f"# {title}\r\n" + "".join(f"{k}:{v}\r\n" for k, v in lines.items()))
    return "\r\n".join(parts).encode()


# Commands that need no drive.


@command("PING", 1, 2)
def ping(server: Server, client: Client, words: List[bytes]) -> None:
    client.say(bulk(words[1]) if len(words) > 1 else PONG)


@command("ECHO", 2, 2)
def echo(server: Server, client: Client, words: List[bytes]) -> None:
    client.say(bulk(words[1]))


@command("SELECT", 2, 2)
def choose_space(server: Server, client: Client, words: List[bytes]) -> None:
    """Database N is namespace N + 1."""
    spaces = len(server.limits)
    if not words[1].isdigit() or int(words[1]) >= spaces:
        told = f"0 to {spaces - 1}" if spaces > 1 else "0 alone"
        client.say(error(f"ERR DB index is out of range: there is {told}"))
        return
    client.space = int(words[1]) + 1
    client.asked = Asked(server, client, client.space)
    client.say(OK)


@command("AUTH", 2, 3)
def authenticate(server: Server, client: Client, words: List[bytes]) -> None:
    client.say(checked(server, client, words[1:]))


def checked(server: Server, client: Client, words: List[bytes]) -> bytes:
    """The reply to a password, or to a name and a password."""
    if server.password is None:
        return error("ERR AUTH called without any password configured: see --password-file")
    named = words[0] if len(words) > 1 else b"default"
    if named != b"default" or not hmac.compare_digest(words[-1], server.password):
        return error("WRONGPASS invalid username-password pair or user is disabled.")
    client.is_known = True
    return OK


# Groups. Nothing between MULTI and EXEC is done before EXEC. Then all of it is sent to the drive in one piece, with no command of
# another connection between; if one of the requests was refused when it came, nothing is done. A kill may leave the first of
# its changes and not the others.


@command("MULTI", 1, 1)
def begin_group(server: Server, client: Client, words: List[bytes]) -> None:
    if client.group:
        client.say(error("ERR MULTI calls can not be nested"))
        return
    client.group = Group()
    client.say(OK)


NOT_IN_A_GROUP = {b"FLUSHDB", b"BGSAVE", b"AUTH", b"HELLO"}


def queue_up(server: Server, client: Client, name: bytes, words: List[bytes]) -> None:
    """A request of a group waits for EXEC."""
    group = client.group
    assert group
    keys = (len(words) - 1) // (2 if name == b"MSET" else 1)
    group.commands += keys if name in (b"MGET", b"MSET", b"DEL", b"UNLINK", b"EXISTS") else 2
    group.bytes += sum(map(len, words))
    if name in (b"GET", b"MGET", b"SET"):
        group.bytes += server.greatest * (keys if name == b"MGET" else len(words) != 3)
    if name == b"SCAN":
        group.bytes += LIST_BYTES
    if name in NOT_IN_A_GROUP:
        fault = error(f"ERR {name.decode()} cannot be between MULTI and EXEC")
    elif group.commands > GROUP_COMMANDS or group.bytes > GROUP_BYTES:
        fault = error(
            f"ERR a group has at most {GROUP_COMMANDS} commands and {GROUP_BYTES} bytes of words and of the values"
            f" that it may read, {server.greatest} each: send less of it between MULTI and EXEC"
        )
    else:
        group.requests.append(words)
        client.say(b"+QUEUED\r\n")
        return
    group.fault = group.fault or fault
    group.requests.clear()
    client.say(fault)


@command("EXEC", 1, 1)
def do_group(server: Server, client: Client, words: List[bytes]) -> None:
    group, client.group = client.group, None
    if not group:
        client.say(error("ERR EXEC without MULTI"))
        return
    if group.fault:
        text = group.fault[1:].decode("utf-8", "replace").strip()
        client.say(error(f"EXECABORT Transaction discarded because of previous errors: {text}"))
        return
    client.say(b"*%d\r\n" % len(group.requests))
    server.is_grouped = True
    for it in group.requests:
        COMMANDS[it[0].upper()][0](server, client, it)
    server.is_grouped = False


@command("DISCARD", 1, 1)
def drop_group(server: Server, client: Client, words: List[bytes]) -> None:
    client.say(OK if client.group else error("ERR DISCARD without MULTI"))
    client.group = None


# Copies of the image.


class Copy:
    """A copy of the image while nothing changes it, to a file that appears when it is whole."""

    def __init__(self, client: Client, slot: Slot, path: str) -> None:
        self.client, self.slot, self.path = client, slot, path
        self.thread: Optional[threading.Thread] = None
        self.is_done = False
        self.fault = ""

    def start(self, image: str, wake: socket.socket) -> None:
        """Copies in a thread, which wakes the server at its end."""
        self.thread = threading.Thread(target=self._run, args=(image, wake), daemon=True)
        self.thread.start()

    def _run(self, image: str, wake: socket.socket) -> None:
        part = self.path + ".part"
        try:
            copy_file(image, part)
            add_log(image, part)
            os.link(part, self.path)  # unlike a rename it replaces no file
        except (OSError, ToolError) as fault:
            self.fault = f"ERR no copy was made: {getattr(fault, 'strerror', fault)}"
        try:
            os.unlink(part)
        except OSError:
            pass
        self.is_done = True
        wake.send(b"\0")


def copy_file(source: str, target: str) -> None:
    """Copies what is not a hole, and syncs the copy."""
    with open(source, "rb") as old, open(target, "wb") as new:
        size, at = os.fstat(old.fileno()).st_size, 0
        os.truncate(new.fileno(), size)
        while at < size:
            try:
                at = os.lseek(old.fileno(), at, os.SEEK_DATA)
            except OSError as fault:
                if fault.errno == errno.ENXIO:  # the rest is a hole
                    break
                raise
            end = os.lseek(old.fileno(), at, os.SEEK_HOLE)
            os.lseek(new.fileno(), at, os.SEEK_SET)
            os.lseek(old.fileno(), at, os.SEEK_SET)
            while at < end:
                at += os.sendfile(new.fileno(), old.fileno(), None, min(end - at, 1 << 22))
        os.fsync(new.fileno())


def add_log(source: str, target: str) -> None:
    """Writes the steps of the image's log into its copy, so that the copy is one file."""
    log = log_of(source)
    if log and log.batches:
        with open(target, "r+b") as new:
            write_into(new.fileno(), log, load_shape(FileBytes(new), target))
            os.fsync(new.fileno())


@command("BGSAVE", 2, 2)
def save_copy(server: Server, client: Client, words: List[bytes]) -> None:
    """BGSAVE NAME: a copy of the image in the folder of --backups; answered when it is made. Changes wait for it, reads do not."""
    name = os.fsdecode(words[1])
    if not server.backups:
        client.say(error("ERR BGSAVE needs a folder: pinkctl serve IMAGE --backups FOLDER"))
    elif not name or "/" in name or "\0" in name or name.startswith("."):
        client.say(error("ERR BGSAVE NAME: a name of a file in the folder of --backups"))
    elif os.path.lexists(os.path.join(server.backups, name)):
        client.say(error(f"ERR there is a file {name} already"))
    elif os.path.lexists(log_beside(os.path.join(server.backups, name))):
        client.say(error(f"ERR there is a log of another image {name} already"))
    elif server.copy:
        client.say(error("ERR another copy is being made"))
    else:
        client.is_busy = True
        server.begin_copy(Copy(client, client.slot(), os.path.join(server.backups, name)))


@command("QUIT", 1, None)
def leave(server: Server, client: Client, words: List[bytes]) -> None:
    client.say(OK)
    client.ending = True


@command("COMMAND", 1, None)
def commands(server: Server, client: Client, words: List[bytes]) -> None:
    part = words[1].upper() if len(words) > 1 else b""
    if part == b"COUNT":
        client.say(integer(len(COMMANDS)))
    elif part in (b"", b"DOCS", b"INFO", b"LIST"):
        names: List[Union[bytes, int]] = [bulk(it.lower()) for it in sorted(COMMANDS)]
        client.say(array(names) if part == b"LIST" else NO_ITEMS)
    else:
        client.say(error("ERR COMMAND has COUNT, DOCS, INFO and LIST"))


@command("CLIENT", 2, None)
def client_command(server: Server, client: Client, words: List[bytes]) -> None:
    part = words[1].upper()
    if part == b"SETNAME" and len(words) == 3:
        client.name = words[2]
        client.say(OK)
    elif part == b"GETNAME":
        client.say(bulk(client.name) if client.name else NIL)
    elif part == b"ID":
        client.say(integer(client.number))
    elif part == b"SETINFO":
        client.say(OK)
    elif part == b"LIST":
        lines = [b"id=%d name=%b\n" % (it.number, it.name) for it in server.clients.values()]
        client.say(bulk(b"".join(lines)))
    else:
        client.say(error("ERR CLIENT has SETNAME, GETNAME, ID, SETINFO and LIST"))


@command("CONFIG", 2, None)
def config(server: Server, client: Client, words: List[bytes]) -> None:
    """What redis-benchmark asks for: there are no snapshots, and every change is appended."""
    settings = {b"save": b"", b"appendonly": b"yes"}
    if words[1].upper() != b"GET" or len(words) < 3:
        client.say(error("ERR CONFIG has GET save and GET appendonly"))
        return
    found: List[Union[bytes, int]] = []
    for name, value in settings.items():
        if any(resp.glob_matches(it.lower(), name) for it in words[2:]):
            found += [bulk(name), bulk(value)]
    client.say(array(found))


@command("HELLO", 1, None)
def hello(server: Server, client: Client, words: List[bytes]) -> None:
    if len(words) > 1 and words[1] != b"2":
        client.say(error("NOPROTO the drive speaks version 2 of the protocol"))
        return
    if len(words) == 5 and words[2].upper() == b"AUTH":
        said = checked(server, client, words[3:])
        if said != OK:
            client.say(said)
            return
    if not client.is_known:
        client.say(error("NOAUTH Authentication required: HELLO 2 AUTH default PASSWORD"))
        return
    told: List[Union[bytes, int]] = [bulk(b"server"), bulk(b"pinkctl"), bulk(b"proto"), 2]
    told += [bulk(b"id"), client.number, bulk(b"mode"), bulk(b"standalone")]
    client.say(array(told + [bulk(b"role"), bulk(b"master")]))


# The part of pinkctl.


def listen_at(path: str) -> socket.socket:
    """Listens at a socket that only this user may use; a socket at which nobody listens is removed."""
    if len(os.fsencode(path)) > 107:
        raise ToolError(f"{path}: the path of a socket has at most 107 bytes", Exit.USAGE)
    try:
        left = stat.S_ISSOCK(os.stat(path).st_mode)
    except FileNotFoundError:
        left = False
    if left:
        with socket.socket(socket.AF_UNIX) as probe:
            try:
                probe.connect(path)
            except ConnectionRefusedError:
                os.unlink(path)
            else:
                raise ToolError(f"{path}: another server listens at it", Exit.IN_USE)
    listener = socket.socket(socket.AF_UNIX)
    mask = os.umask(0o177)
    try:
        listener.bind(path)
    except OSError as fault:
        raise ToolError(f"{path}: {fault.strerror}", Exit.FILE) from None
    finally:
        os.umask(mask)
    return listener


def listen_on(port: int) -> socket.socket:
    """Listens at a port of this machine that no other machine can reach."""
    listener = socket.socket(socket.AF_INET)
    listener.setsockopt(socket.SOL_SOCKET, socket.SO_REUSEADDR, 1)
    try:
        listener.bind(("127.0.0.1", port))
    except (OSError, OverflowError) as fault:
        raise ToolError(f"port {port}: {getattr(fault, 'strerror', fault)}", Exit.FILE) from None
    return listener


DESCRIPTION = """\
Serves the drive of an image in the protocol of Redis, until a signal (TERM, INT or HUP) ends it.
Any client of Redis works, as redis-cli -s PATH. A change is answered when it is on the flash.
The commands: GET MGET SET (NX, XX, GET) SETNX MSET DEL UNLINK EXISTS TYPE STRLEN SCAN DBSIZE FLUSHDB
SELECT (N is namespace N + 1) MULTI EXEC DISCARD BGSAVE NAME AUTH INFO PING ECHO QUIT HELLO, and of
COMMAND, CLIENT and CONFIG what redis-cli and redis-benchmark ask. What is between MULTI and EXEC is
done in one piece or, if one of it is refused when it comes, not at all; a kill may leave a part."""


def frames_of(text: str) -> int:
    """A number of page frames."""
    if not text.isdecimal() or int(text) > MOST_FRAMES:
        raise argparse.ArgumentTypeError(f"frames are 0 to {MOST_FRAMES}, not {text}")
    return int(text)


def add_parser(subparsers: "argparse._SubParsersAction[argparse.ArgumentParser]") -> None:
    parser = subparsers.add_parser(
        "serve",
        help="serve a drive at a socket, in the protocol of Redis",
        description=DESCRIPTION,
        formatter_class=argparse.RawDescriptionHelpFormatter,
    )
    parser.add_argument("image", metavar="IMAGE", help="the image file of the drive")
    place = parser.add_mutually_exclusive_group(required=True)
    place.add_argument("--socket", metavar="PATH", help="a Unix socket, for this user alone")
    place.add_argument("--port", metavar="N", type=int, help="a port of 127.0.0.1; 0 takes a free one")
    parser.add_argument(
        "--frames",
        metavar="N",
        type=frames_of,
        default=520,
        help="page frames for the index (%(default)s; a frame has the bytes of a page)",
    )
    parser.add_argument(
        "--wait",
        metavar="SECONDS",
        type=float,
        default=0,
        help="how long to wait while another process has the image open (%(default)s)",
    )
    parser.add_argument(
        "--password-file", metavar="PATH", help="clients have to send AUTH with the first line of this file"
    )
    parser.add_argument(
        "--backups", metavar="FOLDER", help="where BGSAVE NAME puts copies of the image"
    )
    parser.set_defaults(run=run)


def password_of(path: Optional[str]) -> Optional[bytes]:
    """The first line of a file; None if no file is named."""
    if path is None:
        return None
    with open(path, "rb") as file:
        word = file.readline().rstrip(b"\r\n")
    if not word:
        raise ToolError(f"{path}: its first line is empty", Exit.USAGE)
    return word


def run(args: argparse.Namespace) -> int:
    """Serves until a signal comes; `Exit.PROGRAM` if the program ends by itself."""
    password = password_of(args.password_file)
    if args.backups and not os.path.isdir(args.backups):
        raise ToolError(f"{args.backups} is no folder", Exit.USAGE)
    link, numbers = open_link(pink(), args.image, args.frames, args.wait)
    try:
        listener = listen_at(args.socket) if args.socket else listen_on(args.port)
        listener.listen(512)
    except BaseException:
        link.end()
        raise
    place = args.socket or "127.0.0.1:%d" % listener.getsockname()[1]
    server = Server(link, numbers, listener, password, args.backups)
    gc.set_threshold(50000)  # replies are freed by their counts; cycles are rare
    try:
        server.end_on_signals()
        print(f"serving {args.image} at {place}: {sum(it.keys for it in numbers)} keys", flush=True)
        return server.run()
    finally:
        for number in SIGNALS:  # the end goes on, and Python's own end keeps what is ignored
            signal.signal(number, signal.SIG_IGN)
        if args.socket and os.path.exists(args.socket):
            os.unlink(args.socket)
