"""A client of the key-value drive that `./pink IMAGE serve` runs over an image file.

    from pinkdrive import Drive, make

    make("drive.img", 512, 16, 64)          # pages of 512 bytes, 16 in a block, 64 blocks
    with Drive("drive.img") as d:
        d[b"key"] = b"value"
        print(d[b"key"], b"other" in d, list(d))

A drive is a mapping from keys, of 1 to 16 bytes, to values, both bytes. It needs Python 3.9, Linux
and the standard library alone. Threads may share a `Drive`: each call gets its own answer, and the
commands of one thread are done in their order.

Sending and waiting. A command is sent as an entry of 64 bytes, and the records come back in the order
of the commands. `d[key] = value` does not wait: as with a buffered file, the value is on the flash
after `flush()` or `close()` (the end of the `with`), which raise a refusal of it. Every other call
waits, and raises the error that the drive reports. `send` sends any command without waiting, for a
pipeline of one's own. A drive may have up to eight namespaces, each with its own keys and its own limit
(`make(.., limits=(100, 392))`); a `Drive` uses the one that it was opened with, 1 unless said, and each
call may name another one. A drive that is not closed is closed when it is collected or the process ends;
a refusal that was not raised is then a `DriveWarning`.

What is atomic. Each command is done whole or not at all, also if the power fails in it: a key has its old
value or its new one. After a crash the drive holds what its commands made up to some point of their order,
at least up to the last that was answered. There is no transaction: of several commands, as in `update`,
`delete_many` and `clear`, a crash may leave the first ones done and the rest not. To change two values
together, keep them in one; to let one of several writers win, `store(.., if_absent=True)`.

Longer keys. A key of more than 16 bytes can be stored under `hashlib.blake2b(key, digest_size=16).digest()`
with the key before the value; such keys have no order.

Exceptions. A status of the drive other than success is an exception with the standard's name, such as
`KeyDoesNotExist` (a `KeyError` too) or `CapacityExceeded`, with the limit in its text. If the program
itself has ended, for example because there is no image or because it was killed, the call raises
`DriveEnded` with the cause in its text; whatever the drive had answered is on the flash, and a new
`Drive` finds it. A closed drive raises `DriveClosed` (a `ValueError` too).
"""

from __future__ import annotations

import atexit
import collections
import collections.abc
import enum
import os
import shutil
import signal
import struct
import subprocess
import threading
import time
import warnings
import weakref
from typing import (
    Any,
    Deque,
    Dict,
    ItemsView,
    Iterable,
    Iterator,
    List,
    MutableMapping,
    NamedTuple,
    Optional,
    Sequence,
    Tuple,
    Type,
    TypeVar,
    Union,
    ValuesView,
)

Path = Union[str, "os.PathLike[str]"]
Bytes = Union[bytes, bytearray, memoryview]
Default = TypeVar("Default")


def _launcher() -> str:
    """The launcher that the environment names, the repository's, or the one on the path."""
    named = os.environ.get("PINK_PROGRAM")
    here = os.path.dirname(os.path.realpath(__file__))
    own = os.path.normpath(os.path.join(here, "..", "..", "pink"))
    return named or (own if os.path.isfile(own) else shutil.which("pink") or own)


PROGRAM = _launcher()
"""The launcher of the program, unless a call names another."""

KEY_BYTES = 16
MOST_SPARES = 64
"""The most spare blocks of a drive."""
TABLE_BLOCKS = 2
"""The blocks of tables that a drive with spare blocks has."""
NAMESPACES = 8
"""The most namespaces of a drive."""
ENTRY = struct.Struct("<BxHI8s24xIBB10x8s")
"""A submission entry: opcode, identifier, namespace, key, size, key length, options, key."""
RECORD = struct.Struct("<I4xHHIII")
"""The head of an answer record: result, entries taken, queue, identifier, marks, reads, length."""
GREATEST_VALUE = 64 * 16384
"""No drive has a longer value, in bytes."""
LIST_BYTES = (512, 4096, 65536)
"""The buffers of the first Lists of an iteration, in bytes; the last is that of all others."""
OUT_BYTES = 65536
"""Bytes of entries that are gathered before they are written."""
READ_BYTES = 262144
"""Bytes of records that are read at once."""
AHEAD = 64
"""The most values that are requested ahead of an iteration,"""
AHEAD_BYTES = 1 << 20
"""and about how many bytes of them."""
ONE_KEY_BYTES = 24
"""The buffer of a List of one key, in bytes."""
DELETES_AHEAD = 2000
"""The most Deletes of `delete_many` that are under way."""
REFUSALS_KEPT = 1000
"""Refusals that nobody waited for are kept up to this number; more are counted."""


def image_word(image: Path) -> str:
    """The path of an image as a word of the program, which takes `mirror` as the word of a pair."""
    path = os.fspath(image)
    return os.path.join(".", path) if path == "mirror" else path


class Opcode(enum.IntEnum):
    """The commands of the drive."""

    FLUSH = 0x00
    STORE = 0x01
    RETRIEVE = 0x02
    LIST = 0x06
    DELETE = 0x10
    EXIST = 0x14
    TICK = 0xC0
    REPORT = 0xC2


STORE, DELETE = int(Opcode.STORE), int(Opcode.DELETE)


class Shape(NamedTuple):
    """The shape of a drive, and what follows from it (docs/FORMATS.md)."""

    page_bytes: int
    block_pages: int
    blocks: int

    @property
    def greatest_value(self) -> int:
        """The length of the longest value, in bytes."""
        return self.block_pages // 4 * self.page_bytes - 32

    @property
    def page_entries(self) -> int:
        """The entries of a page of the index or the journal."""
        return (self.page_bytes - 32) // 32

    @property
    def index_blocks(self) -> int:
        """The blocks of the four runs, and of the longer of the last two again."""
        last = -(-self.blocks * (3 * self.block_pages // 4) // self.page_entries) + 24
        blocks = [-(-pages // self.block_pages) for pages in (4, 16, 64, last)]
        return sum(blocks) + max(blocks[2:])

    @property
    def live_pages(self) -> int:
        """The pages that the values of all keys of all namespaces may take."""
        return (self.blocks - 7 - self.index_blocks) * (3 * self.block_pages // 4)

    @property
    def image_bytes(self) -> int:
        """The length of the image file."""
        return 32 + self.block_pages * self.blocks * (self.page_bytes + 1)

    def pages_of(self, length: int) -> int:
        """The pages that a value of this length takes: pairs of pages, as many as hold the value with its head."""
        return 2 * -(-(32 + length) // (2 * self.page_bytes))

    def fault(self) -> Optional[str]:
        """The first rule that the shape breaks, in words; None if it is allowed."""
        page, pages, blocks = self
        if page not in (512, 1024, 2048, 4096, 8192, 16384):
            return f"a page has 512, 1024, 2048, 4096, 8192 or 16384 bytes, not {page}"
        if pages not in (8, 16, 32, 64, 128, 256):
            return f"a block has 8, 16, 32, 64, 128 or 256 pages, not {pages}"
        if 3 * pages // 4 > self.page_entries:
            return f"with pages of {page} bytes a block has fewer than {pages} pages"
        if blocks > 4096:
            return f"a drive has at most 4096 blocks, not {blocks}"
        if page * pages * blocks > 1 << 28:
            return f"a drive has at most 256 MiB ({1 << 28} bytes), not {page * pages * blocks} bytes"
        index = self.index_blocks
        if 64 + 2 * (index + 4) > page:
            return f"a root with {index + 4} block numbers does not fit a page of {page} bytes"
        if blocks < 9 + index:
            return f"a drive of this page and block has at least {9 + index} blocks, not {blocks}"
        return None


def limits_fault(shape: Shape, limits: Sequence[int]) -> Optional[str]:
    """The first rule that the limits of namespaces break, in words; None if they are allowed."""
    if len(limits) > NAMESPACES:
        return f"a drive has at most {NAMESPACES} namespaces, not {len(limits)}"
    if 0 in limits:
        return "a namespace has a limit of at least one page"
    if sum(limits) > shape.live_pages:
        return f"the limits are together {sum(limits)} pages; this drive has {shape.live_pages}"
    if limits and 96 + 2 * (shape.index_blocks + 4) > shape.page_bytes:
        return f"a root with limits does not fit a page of {shape.page_bytes} bytes"
    return None


def shape_of(image: Path) -> Optional[Shape]:
    """The shape that the head of an image file has; None if it has none."""
    try:
        with open(image, "rb") as file:
            head = file.read(32)
    except OSError:
        return None
    if len(head) < 32 or head[:8] != b"PINKIMG1":
        return None
    shape = Shape(*struct.unpack_from("<III", head, 8))
    return None if shape.fault() else shape


def _causes() -> Any:
    """The module that tells what is the matter with an image; None where this file stands alone."""
    try:
        from pinkctl import causes
    except ImportError:
        return None
    return causes


def _no_space(image: Path) -> Optional[str]:
    """That the disk of an image is full, in words; None if it is not."""
    causes = _causes()
    found = causes.space_cause(os.fspath(image)) if causes else None
    return found.text if found else None


def process_using(image: Path) -> Optional[int]:
    """The process that has the image file locked; None if the system lists none."""
    causes = _causes()
    return causes.process_using(os.fspath(image)) if causes else None


# What is raised.


class DriveWarning(UserWarning):
    """A refusal that nobody waited for, or an end that nobody heard of."""


class DriveError(Exception):
    """What a drive or its program says that is no success."""

    others: Tuple["DriveError", ...] = ()
    """Further refusals that nobody had waited for, the first thousand at most."""


class DriveClosed(DriveError, ValueError):
    """The drive was closed, or belongs to the process that this one was forked from."""


class DriveEnded(DriveError):
    """The program has ended. `status` is its exit status, negative if a signal ended it."""

    NAMES = {
        0: "done",
        1: "not built",
        2: "words",
        3: "truncated",
        4: "input failed",
        5: "output failed",
        6: "flash failed",
        7: "want of memory",
        8: "no drive",
        9: "already made",
        10: "worn",
        12: "bad line",
        16: "first drive empty",
    }

    kind: str = ""
    """What is the matter with the image in a word, as `missing` or `damaged`; empty if nothing is seen."""
    hint: str = ""
    """What to do about the cause, in Python; empty if the cause says it."""
    shell_hint: str = ""
    """The same at a shell's prompt."""

    def __init__(self, status: int, cause: Optional[str] = None) -> None:
        self.status = status
        self.cause = cause
        killed = status < 0 or status > 128
        self.name = "killed" if killed else self.NAMES.get(status, "unknown")
        super().__init__(status, cause)

    def __str__(self) -> str:
        tail = f"; {self.hint}" if self.hint else ""
        return f"status {self.status}: {self.cause or self.name}{tail}"


class ImageInUse(DriveEnded):
    """Another process has the image open; `process` is its number."""

    process: Optional[int] = None


class StatusError(DriveError):
    """A command was refused. `key` is the key that it named; the map is as it was."""

    status = 0

    def __init__(self, key: bytes, text: str = "") -> None:
        self.key = key
        super().__init__(text or f"status {self.status:02X}h for the key {key!r}")

    def __str__(self) -> str:
        return str(self.args[0])


class InvalidCommandOpcode(StatusError):
    status = 0x01


class InvalidFieldInCommand(StatusError):
    status = 0x02


class InvalidNamespaceOrFormat(StatusError):
    status = 0x0B


class CapacityExceeded(StatusError):
    status = 0x81


class InvalidValueSize(StatusError, ValueError):
    status = 0x85


class InvalidKeySize(StatusError, ValueError):
    status = 0x86


class KeyDoesNotExist(StatusError, KeyError):
    status = 0x87


class UnrecoveredError(StatusError):
    status = 0x88


class KeyExists(StatusError):
    status = 0x89


STATUS_ERRORS: Dict[int, Type[StatusError]] = {it.status: it for it in StatusError.__subclasses__()}


class Limits(NamedTuple):
    """The shape of a drive, and the pages that the values of a namespace may take; 0 if not known."""

    shape: Shape
    live_pages: int


def refusal_text(
    status: int, opcode: int, key: bytes, size: int, limits: Optional[Limits], namespace: int = 1
) -> str:
    """What the status of a command means, in words, with the limit; `size` as in the command."""
    if status == 0x01:
        return f"the drive has no command {opcode:02X}h (status 01h)"
    if status == 0x02:
        return f"a List needs a buffer of at least 4 bytes, not {size} (status 02h)"
    if status == 0x0B:
        return f"the drive has no namespace {namespace} (status 0Bh)"
    if status == 0x81:
        tail = ""
        if limits and limits.live_pages:
            pages, all_pages = limits.shape.pages_of(size), limits.live_pages
            tail = f": its value takes {pages} pages, and the values of its namespace at most {all_pages}"
        return f"no space for the key {key!r}{tail} (status 81h)"
    if status == 0x85:
        most = str(limits.shape.greatest_value) if limits else "fewer"
        return f"the value of {key!r} has {size} bytes; the drive takes at most {most} (status 85h)"
    if status == 0x86:
        return f"a key has 1 to {KEY_BYTES} bytes; {key!r} has {len(key)} (status 86h)"
    if status == 0x87:
        return f"there is no key {key!r} (status 87h)"
    if status == 0x88:
        return f"reading the flash failed for {key!r}; pinkctl check prints the page (status 88h)"
    if status == 0x89:
        return f"the key {key!r} exists already (status 89h)"
    return f"status {status:02X}h for the key {key!r}"


def spared(spares: int, words: Sequence[str]) -> List[str]:
    """These words, over a drive with this many spare blocks; 0 for a drive that has none."""
    return ["spared", str(spares), *words] if spares else list(words)


def _spares_of(words: Sequence[str]) -> Tuple[int, Sequence[str]]:
    """The spare blocks that words name, and the words after them."""
    return (int(words[1]), words[2:]) if words[:1] == ["spared"] else (0, words)


def _shape_fault(spares: int, shape: Shape) -> Optional[str]:
    """Why no drive of this shape with this many spare blocks is made."""
    if not 0 <= spares <= MOST_SPARES:
        return f"spare blocks are 1 to {MOST_SPARES}"
    if spares and not shape.fault():
        shape = shape._replace(blocks=shape.blocks + spares + TABLE_BLOCKS)
    return shape.fault()


def cause_of(status: int, image: Path, words: Sequence[str] = ("serve",)) -> Optional[str]:
    """Why the program ended with this status on these words, as far as the image file shows."""
    spares, words = _spares_of(list(words))
    image, making = os.fspath(image), list(words[:1]) == ["make"]
    if status < 0 or status > 128:
        number = -status if status < 0 else status - 128
        try:
            name = signal.Signals(number).name
        except ValueError:
            name = "unknown"
        return f"ended by signal {number} ({name}); what was answered is on the flash"
    if status == 2 and os.environ.get("PINK_SYNC", "0") not in ("0", "1", "2"):
        return "PINK_SYNC is in the environment and none of 0, 1 and 2"
    if status == 2 and making:
        shape, limits = Shape(*map(int, words[1:4])), list(map(int, words[4:]))
        return _shape_fault(spares, shape) or limits_fault(shape, limits)
    if status == 2:
        several = f"frames are 0 to 16384, and spare blocks 1 to {MOST_SPARES}"
        return several if spares else "frames are 0 to 16384"
    if status in (6, 8):
        return ended(status, image, spared(spares, words)).cause
    plain = {
        1: "the program is not built, and building it failed (its kit, rt, has to be there)",
        3: "the input ended within a command; all before it was served",
        7: "there was not enough memory; nothing was served",
        9: f"there is an image already: remove {image}, or name another file",
        10: "the drive is worn, or 2^32-1 commands were taken",
        126: "the launcher may not be run",
        127: "the launcher was not found",
    }
    return plain.get(status)


def ended(status: int, image: Path, words: Sequence[str] = ("serve",)) -> DriveEnded:
    """The exception of a program that ended with this status, with the cause in words."""
    if status not in (6, 8):
        return DriveEnded(status, cause_of(status, image, words))
    path, (spares, words) = os.fspath(image), _spares_of(list(words))
    causes, making = _causes(), list(words[:1]) == ["make"]
    found = causes.cause_of(status, path, making, spares) if causes else None
    if found is None:
        return DriveEnded(status, f"{path} holds no drive that opens" if status == 8 else None)
    used = found.kind == causes.Kind.IN_USE
    error = (ImageInUse if used else DriveEnded)(status, found.text)
    if used:
        error.process = found.number
    error.kind = found.kind.name.lower()
    other = causes.making_hint(path, status) if making else ""
    error.hint = other or causes.python_hint(found, path, spares)
    error.shell_hint = other or causes.hint(found, path, spares)
    return error


# Commands and their answers.


class Report(NamedTuple):
    """The drive's numbers, as docs/COMMANDS.md has them."""

    live: int
    limit: int
    keys: int
    pinned: int
    frames: int
    leased: int
    active: int
    frozen: int
    run1: int
    run2: int
    run3: int
    run4: int
    epoch: int
    blocks: int
    ready: int
    merge: int


class Reply(NamedTuple):
    """An answer: the result, the pages that were read for it, and the data."""

    result: int
    reads: int
    data: bytes


class Pending:
    """A command that was sent. `result()` waits for its record."""

    __slots__ = (
        "_session",
        "_number",
        "_waiters",
        "opcode",
        "key",
        "size",
        "namespace",
        "status",
        "reply",
        "unheard",
    )

    def __init__(self, session: _Session, opcode: int, key: bytes, size: int, namespace: int = 1) -> None:
        self._session = session
        self._number = 0
        self._waiters: List[threading.Lock] = []
        self.opcode = opcode
        self.key = key
        self.size = size
        self.namespace = namespace
        self.status: Optional[int] = None
        self.reply = Reply(0, 0, b"")
        self.unheard = False  # if nobody waits for it, flush or close raises a refusal

    def done(self) -> bool:
        """Whether its record has come."""
        return self.status is not None

    def result(self) -> Reply:
        """Its `Reply`, or the exception of its status."""
        self._session.wait(self)
        if self.status == 0:
            return self.reply
        raise self.error()

    def error(self) -> DriveError:
        """The exception of its status."""
        status = self.status or 0
        limits = self._session.limits_in(self.namespace)
        text = refusal_text(status, self.opcode, self.key, self.size, limits, self.namespace)
        known = STATUS_ERRORS.get(status)
        return known(self.key, text) if known else DriveError(text)


class _Session:
    """The program that serves a drive, its two pipes and the commands under way, for any thread.

    `_sending` is held while commands get their numbers and their bytes are written, so they go out
    in the order in which they wait for their records. `_state` is held while records are taken. The
    thread that reads takes the second alone, and never waits for one that sends.
    """

    def __init__(
        self, program: str, image: str, frames: int, stderr: Any, spares: int, namespace: int
    ) -> None:
        self.image = image
        self.namespace = namespace
        self.words = spared(spares, ["serve", str(frames)])
        self.limits: Optional[Limits] = None
        self.pid = os.getpid()
        self.closed = False
        self._sending = threading.Lock()
        self._state = threading.Lock()
        self._waiting: Deque[Pending] = collections.deque()
        self._refused: List[Pending] = []
        self._refusals = 0
        self._fault: Optional[str] = None
        self._is_heard = False
        self._ended = False
        self._sent = 0
        self._released = 0
        self._out = bytearray()
        # The launcher gives its place to the program, so signals to the process reach the program.
        self.process = subprocess.Popen(
            [program, image_word(image), *self.words],
            bufsize=0,
            stdin=subprocess.PIPE,
            stdout=subprocess.PIPE,
            stderr=stderr,
            start_new_session=True,
            env={**os.environ, "PINK_EXEC": "1"},
        )
        assert self.process.stdin and self.process.stdout
        self._input, self._output = self.process.stdin, self.process.stdout
        self._reader = threading.Thread(target=self._read_records, daemon=True)
        self._reader.start()
        _open_sessions.add(self)

    def limits_in(self, namespace: int) -> Optional[Limits]:
        """The limits in a namespace; that of its pages is known of the session's own namespace alone."""
        if self.limits is None or namespace == self.namespace:
            return self.limits
        return self.limits._replace(live_pages=0)

    def send(
        self, opcode: int, key: bytes, size: int, options: int, value: bytes, unheard: bool, namespace: int
    ) -> Pending:
        pending = Pending(self, opcode, key, size, namespace)
        pending.unheard = unheard
        with self._sending:
            self._append(pending, options, value)
            if len(self._out) >= OUT_BYTES:
                self._write_out()
        return pending

    def _append(self, pending: Pending, options: int = 0, value: bytes = b"") -> None:
        """Gives a command its number and its place; `_sending` is held."""
        if self.closed or self.pid != os.getpid():
            raise DriveClosed(f"the drive {self.image} is closed")
        if self._ended or self._fault:
            raise self._end()
        number, key = self._sent, pending.key
        front = key[:KEY_BYTES].ljust(KEY_BYTES, b"\0")
        length = min(len(key), 255)
        space = pending.namespace
        try:
            entry = ENTRY.pack(
                pending.opcode, number % 65536, space, front[:8], pending.size, length, options, front[8:]
            )
        except struct.error:
            raise _number_fault(pending, options) from None
        pending._number = number
        try:
            self._waiting.append(pending)
            self._out += entry
            self._out += value
            self._sent = number + 1
        except BaseException:  # broken off between two of these, records would go to wrong commands
            self._spoil("a command was broken off while it was sent")
            raise
        if pending.opcode not in (STORE, DELETE):
            self._released = self._sent

    def _write_out(self) -> None:
        """Writes what was gathered; `_sending` is held."""
        out, self._out = memoryview(self._out), bytearray()
        try:
            while out:
                out = out[os.write(self._input.fileno(), out[:OUT_BYTES]) :]
        except BrokenPipeError:
            raise self._end() from None
        except BaseException:  # how much was written is not known, and the rest would be read as another command
            self._spoil("writing to the program was broken off")
            raise

    def _spoil(self, fault: str) -> None:
        """Sends no more: what was sent whole is served, and everything else is raised as an error."""
        self._fault = self._fault or fault
        self._out.clear()
        try:
            self._input.close()
        except OSError:
            pass

    def wait(self, pending: Pending) -> None:
        """Returns when the record of a command has come; raises if it never comes."""
        if pending.status is None and not self.closed:
            with self._sending:
                self._push(pending)
        waiter = threading.Lock()
        waiter.acquire()
        with self._state:
            coming = pending.status is None and not self._ended
            if coming:
                pending._waiters.append(waiter)
        if coming:
            waiter.acquire()
        if pending.status is None:
            raise self._end()

    def _push(self, pending: Pending) -> None:
        """Sends what a command's record needs to come; `_sending` is held."""
        if self.closed or pending.status is not None:
            return
        if pending._number >= self._released:
            # The drive gathers Stores and Deletes until something follows.
            self._append(Pending(self, Opcode.FLUSH, b"", 0))
        self._write_out()

    def _end(self) -> DriveError:
        """The program takes no more: what it had answered has come, and the rest never comes."""
        self._is_heard = True
        if self._fault:
            return DriveError(f"{self._fault}: the drive {self.image} has to be opened again")
        if threading.current_thread() is not self._reader:
            self._reader.join()
        return ended(self.process.wait(), self.image, self.words)

    def _read_records(self) -> None:
        data = bytearray()
        try:
            while True:
                piece = os.read(self._output.fileno(), READ_BYTES)
                if not piece:
                    break
                data += piece
                with self._state:
                    del data[: self._take_records(data)]
        except (OSError, ValueError):
            pass  # the pipe was closed
        with self._state:
            self._ended = True
        while self._waiting:  # others may still be sending, so the queue is not iterated over
            for waiter in self._waiting.popleft()._waiters:
                waiter.release()

    def _take_records(self, data: bytearray) -> int:
        """Hands each whole record to its command, and returns how many bytes they have."""
        at, size = 0, len(data)
        while size - at >= RECORD.size:
            result, _, _, marks, reads, length = RECORD.unpack_from(data, at)
            end = at + RECORD.size + length
            if end > size:
                break
            self._take(marks, Reply(result, reads, bytes(data[at + RECORD.size : end])))
            at = end
        return at

    def _take(self, marks: int, reply: Reply) -> None:
        if not self._waiting or marks & 0xFFFF != self._waiting[0]._number % 65536:
            self._fault = self._fault or "a record came that belongs to no command"
            raise ValueError
        pending = self._waiting.popleft()
        pending.reply = reply
        pending.status = status = marks >> 17 & 0xFF
        missing = status == KeyDoesNotExist.status and pending.opcode == DELETE
        if status and pending.unheard and not missing:
            self._refusals += 1
            if len(self._refused) < REFUSALS_KEPT:
                self._refused.append(pending)
        for waiter in pending._waiters:
            waiter.release()

    def refusal(self) -> Optional[DriveError]:
        """The refusals that nobody waited for, as one exception, once."""
        with self._state:
            refused, self._refused = self._refused, []
            count, self._refusals = self._refusals, 0
        if not refused:
            return None
        error, others = refused[0].error(), tuple(it.error() for it in refused[1:])
        if others:
            error.args = (f"{error}; {count - 1} more were refused, the next: {others[0]}",)
            error.others = others
        return error

    def close(self) -> None:
        """Ends the session: all that was sent is on the flash, or an exception says what is not."""
        if self.closed or self.pid != os.getpid():
            return
        with self._sending:
            if self.closed:
                return
            self.closed = True
            try:
                self._write_out()
            except DriveError:
                pass  # raised by the status below
            finally:
                if not self._fault:
                    self._input.close()
        self._reader.join()
        self._output.close()
        _open_sessions.discard(self)
        status = self.process.wait()
        if self._fault or status:
            raise self._end()
        refusal = self.refusal()
        if refusal:
            raise refusal

    def abandon(self) -> None:
        """Closes the pipes of a drive that did not open."""
        self.closed = True
        self._input.close()
        self.process.wait()
        self._reader.join()
        self._output.close()
        _open_sessions.discard(self)

    def close_and_warn(self) -> None:
        """Closes a session that nobody closed; what would be raised and nobody heard is a warning."""
        was_heard = self._is_heard
        try:
            self.close()
        except DriveError as error:
            if was_heard:
                return
            text = f"{self.image} was not closed, and nobody heard that: {error}"
            warnings.warn(DriveWarning(text), stacklevel=2)


_open_sessions: "weakref.WeakSet[_Session]" = weakref.WeakSet()


def _close_at_exit() -> None:
    for session in list(_open_sessions):
        session.close_and_warn()


def _close_in_child() -> None:
    """The drives of the parent are not the child's: it keeps no end of their pipes."""
    for session in list(_open_sessions):
        session.closed = True
        for pipe in (session._input, session._output):
            try:
                os.close(pipe.fileno())
            except (OSError, ValueError):
                pass
    _open_sessions.clear()


atexit.register(_close_at_exit)
os.register_at_fork(after_in_child=_close_in_child)


def _close_collected(session: _Session) -> None:
    """Closes the session of a drive that was collected, in a thread: any lock may be held here."""
    if not session.closed and session.pid == os.getpid():
        threading.Thread(target=session.close_and_warn).start()


class _Items(ItemsView[bytes, bytes]):
    _mapping: Drive

    def __iter__(self) -> Iterator[Tuple[bytes, bytes]]:
        return self._mapping.items_from()


class _Values(ValuesView[bytes]):
    _mapping: Drive

    def __iter__(self) -> Iterator[bytes]:
        return (value for _, value in self._mapping.items_from())


class Drive(MutableMapping[bytes, bytes]):
    """A session of the drive in an image file, with a number of page frames for the index."""

    def __init__(
        self,
        image: Path,
        frames: int = 36,
        program: Optional[str] = None,
        stderr: Any = None,
        timeout: float = 0,
        spares: int = 0,
        namespace: int = 1,
    ) -> None:
        """Opens the drive, for calls in a namespace of it.

        One that was made with spare blocks names their number again.

        It waits for at most `timeout` seconds while another process has the image open, and raises
        `ImageInUse` then. `stderr`, as subprocess takes it, gets what building the program says.
        """
        self.image = os.fspath(image)
        self.namespace = namespace
        last = time.monotonic() + timeout
        pause = 0.005
        while True:
            try:
                self._session = self._open(program or PROGRAM, frames, stderr, spares)
                break
            except DriveEnded as error:
                # Of another cause than the image in use there is a text.
                waits = isinstance(error, ImageInUse) or (error.status == 6 and not error.cause)
                if not waits or time.monotonic() + pause > last:
                    raise
            time.sleep(pause)
            pause = min(2 * pause, 0.1)
        weakref.finalize(self, _close_collected, self._session).atexit = False

    def _open(self, program: str, frames: int, stderr: Any, spares: int) -> _Session:
        session = _Session(program, self.image, frames, stderr, spares, self.namespace)
        try:
            report = session.send(Opcode.REPORT, b"", 0, 0, b"", False, self.namespace).result().data
        except BaseException:
            session.abandon()
            raise
        shape = shape_of(self.image)
        if shape:
            if spares:
                shape = shape._replace(blocks=shape.blocks - spares - TABLE_BLOCKS)
            session.limits = Limits(shape, struct.unpack_from("<I", report, 4)[0])
        return session

    @property
    def process(self) -> "subprocess.Popen[bytes]":
        """The program."""
        return self._session.process

    @property
    def limits(self) -> Optional[Limits]:
        """The limits of the drive, as `limits.shape.greatest_value`; None if the image was moved."""
        return self._session.limits

    @property
    def closed(self) -> bool:
        return self._session.closed

    def __repr__(self) -> str:
        return f"<Drive {self.image!r}{', closed' if self.closed else ''}>"

    def send(
        self,
        opcode: int,
        key: Bytes = b"",
        size: int = 0,
        options: int = 0,
        value: Bytes = b"",
        namespace: Optional[int] = None,
    ) -> Pending:
        """Sends a command and waits for nothing. Its `Pending` has the answer.

        `size` is the buffer of a Retrieve or a List and the steps of a Tick; of a Store it is the
        value's length, whatever is named. `namespace` is the drive's own unless it is named.
        """
        return self._send(opcode, key, size, options, value, False, namespace)

    def _send(
        self,
        opcode: int,
        key: Bytes,
        size: int,
        options: int,
        value: Bytes,
        unheard: bool,
        namespace: Optional[int] = None,
    ) -> Pending:
        key = _bytes(key)
        space = self.namespace if namespace is None else namespace
        if opcode != STORE:
            return self._session.send(opcode, key, size, options, b"", unheard, space)
        value = _bytes(value)
        if len(value) >= 2**32:
            text = refusal_text(InvalidValueSize.status, opcode, key, len(value), self.limits)
            raise InvalidValueSize(key, text)
        return self._session.send(opcode, key, len(value), options, value, unheard, space)

    # Commands that are waited for.

    def store(
        self,
        key: Bytes,
        value: Bytes,
        *,
        if_absent: bool = False,
        if_exists: bool = False,
        namespace: Optional[int] = None,
    ) -> None:
        """Stores a value, and returns when it is on the flash.

        With `if_absent` it raises `KeyExists` if the key is there, with `if_exists`
        `KeyDoesNotExist` if it is not.
        """
        options = bool(if_exists) + 2 * bool(if_absent)
        self.send(Opcode.STORE, key, options=options, value=value, namespace=namespace).result()

    def retrieve(
        self, key: Bytes, size: int = GREATEST_VALUE, *, namespace: Optional[int] = None
    ) -> bytes:
        """The first bytes of a value, at most `size`."""
        return self.send(Opcode.RETRIEVE, key, size, namespace=namespace).result().data

    def length(self, key: Bytes, *, namespace: Optional[int] = None) -> int:
        """The length of a value in bytes."""
        return self.send(Opcode.RETRIEVE, key, 0, namespace=namespace).result().result

    def delete(self, key: Bytes, *, namespace: Optional[int] = None) -> None:
        """Deletes a key, and returns when that is on the flash."""
        self.send(Opcode.DELETE, key, namespace=namespace).result()

    def exist(self, key: Bytes, *, namespace: Optional[int] = None) -> bool:
        """Whether a key exists."""
        try:
            self.send(Opcode.EXIST, key, namespace=namespace).result()
        except KeyDoesNotExist:
            return False
        return True

    def flush(self) -> None:
        """Returns when all that was sent is on the flash; raises refusals nobody waited for."""
        self.send(Opcode.FLUSH, namespace=1).result()
        refusal = self._session.refusal()
        if refusal:
            raise refusal

    def report(self, *, namespace: Optional[int] = None) -> Report:
        """The drive's numbers: `live`, `limit` and `keys` of the namespace, the others of the whole drive."""
        data = self.send(Opcode.REPORT, namespace=namespace).result().data
        return Report._make(struct.unpack("<16I", data))

    def tick(self, steps: int = 16, *, namespace: Optional[int] = None) -> None:
        """Lets the drive make this many steps of its background work, or fewer, for all namespaces."""
        self.send(Opcode.TICK, size=steps, namespace=namespace).result()

    def keys_from(
        self, start: Bytes = b"", *, prefix: Bytes = b"", namespace: Optional[int] = None
    ) -> Iterator[bytes]:
        """The keys in their order, from `start` on, of those that begin with `prefix`."""
        front = _bytes(prefix)
        for page in self._pages_of_keys(max(_bytes(start), front), namespace):
            for key in page:
                if not key.startswith(front):
                    return
                yield key

    def items_from(
        self, start: Bytes = b"", *, prefix: Bytes = b"", namespace: Optional[int] = None
    ) -> Iterator[Tuple[bytes, bytes]]:
        """The same keys as `keys_from`, each with its value."""
        keys = self.keys_from(start, prefix=prefix, namespace=namespace)
        for key, value in self._values_of(keys, namespace):
            if value is not None:  # else it was deleted meanwhile
                yield key, value

    def prefix(
        self, prefix: Bytes, *, namespace: Optional[int] = None
    ) -> Iterator[Tuple[bytes, bytes]]:
        """The keys that begin with these bytes, in their order, each with its value."""
        return self.items_from(prefix=prefix, namespace=namespace)

    def first(
        self, start: Bytes = b"", *, prefix: Bytes = b"", namespace: Optional[int] = None
    ) -> Optional[Tuple[bytes, bytes]]:
        """The first key of `keys_from`, with its value; None if there is none."""
        front = _bytes(prefix)
        at = max(_bytes(start), front)
        while True:
            keys = _keys_in(self.send(Opcode.LIST, at, ONE_KEY_BYTES, namespace=namespace).result().data)
            if not keys or not keys[0].startswith(front):
                return None
            key, value = _value_of(self.send(Opcode.RETRIEVE, keys[0], GREATEST_VALUE, namespace=namespace))
            if value is not None:
                return key, value
            at = key  # it was deleted meanwhile

    def delete_many(self, keys: Iterable[Bytes], *, namespace: Optional[int] = None) -> int:
        """Deletes these keys in a pipeline, and returns how many of them there were when that is on the flash."""
        count = 0
        sent: Deque[Pending] = collections.deque()
        for key in keys:
            sent.append(self.send(Opcode.DELETE, key, namespace=namespace))
            if len(sent) >= DELETES_AHEAD:
                count += _was_there(sent.popleft())
        return count + sum(map(_was_there, sent))

    def get_many(
        self,
        keys: Iterable[Bytes],
        default: Optional[Default] = None,
        *,
        namespace: Optional[int] = None,
    ) -> Iterator[Union[bytes, Optional[Default]]]:
        """The values of these keys, in their order, asked for in a pipeline."""
        for _, value in self._values_of(keys, namespace):
            yield default if value is None else value

    def _values_of(
        self, keys: Iterable[Bytes], namespace: Optional[int] = None
    ) -> Iterator[Tuple[bytes, Optional[bytes]]]:
        """Keys with their values: the first is asked for alone, the next further and further ahead."""
        ahead: Deque[Pending] = collections.deque()
        most, longest = 1, 1
        for key in keys:
            ahead.append(self.send(Opcode.RETRIEVE, key, GREATEST_VALUE, namespace=namespace))
            if len(ahead) >= most:
                found = _value_of(ahead.popleft())
                longest = max(longest, len(found[1] or b""))
                yield found
                most = max(1, min(2 * most, AHEAD, AHEAD_BYTES // longest))
        yield from map(_value_of, ahead)

    def _pages_of_keys(self, start: bytes, namespace: Optional[int] = None) -> Iterator[List[bytes]]:
        last: Optional[bytes] = None
        turn = 0
        while True:
            size = LIST_BYTES[min(turn, len(LIST_BYTES) - 1)]
            listed = _keys_in(self.send(Opcode.LIST, start, size, namespace=namespace).result().data)
            page = listed[1:] if listed and listed[0] == last else listed
            if not page:
                return
            yield page
            start = last = page[-1]
            turn += 1

    # The mapping.

    def __getitem__(self, key: Bytes) -> bytes:
        return self.retrieve(key)

    def __setitem__(self, key: Bytes, value: Bytes) -> None:
        self._send(Opcode.STORE, key, 0, 0, value, True)

    def __delitem__(self, key: Bytes) -> None:
        self.delete(key)

    def __contains__(self, key: object) -> bool:
        return self.exist(_bytes(key))

    def __iter__(self) -> Iterator[bytes]:
        return self.keys_from()

    def __len__(self) -> int:
        return self.report().keys

    def items(self) -> ItemsView[bytes, bytes]:
        return _Items(self)

    def values(self) -> ValuesView[bytes]:
        return _Values(self)

    def popitem(self) -> Tuple[bytes, bytes]:
        """Takes the first key away, and returns it with its value; `KeyError` if there is none."""
        while True:
            found = self.first()
            if found is None:
                raise KeyError("the drive is empty")
            try:
                del self[found[0]]
            except KeyDoesNotExist:
                continue  # another thread took it
            return found

    def setdefault(self, key: Bytes, default: Bytes = b"") -> bytes:
        """The value of a key, which gets this one if it has none."""
        try:
            self.store(key, default, if_absent=True)
        except KeyExists:
            return self[key]
        return _bytes(default)

    def update(self, other: Any = (), /, **named: Any) -> None:
        """Stores many values in a pipeline, and returns when they are on the flash."""
        super().update(other, **named)
        self.flush()

    def clear(self) -> None:
        """Takes all keys away in a pipeline, and returns when that is on the flash."""
        self.delete_many(self.keys_from())
        self.flush()

    # The end.

    def close(self) -> None:
        """Ends the session: all that was sent is on the flash. A second call does nothing."""
        self._session.close()

    def __enter__(self) -> Drive:
        return self

    def __exit__(self, kind: Any, error: Any, trace: Any) -> None:
        if kind is None:
            self.close()
        else:  # the error that ends the block is raised, and what the end says is a warning
            self._session.close_and_warn()


def make(
    image: Path,
    page_bytes: int,
    block_pages: int,
    blocks: int,
    program: Optional[str] = None,
    stderr: Any = None,
    spares: int = 0,
    limits: Sequence[int] = (),
) -> None:
    """Makes the image of a drive without keys; `DriveEnded` with status 9 if there is one.

    With spare blocks, 1 to 64, the drive goes on if a program or an erase of a block fails: the
    block moves to a spare one. `limits` are the pages that the values of namespaces 1, 2 and so on
    may take, of one to eight namespaces; without them there is one, whose values may take all pages.
    """
    words = spared(spares, ["make", *map(str, (page_bytes, block_pages, blocks, *limits))])
    run = subprocess.run(
        [program or PROGRAM, image_word(image), *words],
        stdin=subprocess.DEVNULL,
        stderr=stderr,
        env={**os.environ, "PINK_EXEC": "1"},
    )
    if run.returncode:
        raise ended(run.returncode, image, words)


def _bytes(value: object) -> bytes:
    if isinstance(value, bytes):
        return value
    if isinstance(value, (bytearray, memoryview)):
        return bytes(value)
    raise TypeError(f"keys and values are bytes, not {type(value).__name__}")


def _value_of(pending: Pending) -> Tuple[bytes, Optional[bytes]]:
    """The key of a Retrieve, and the value, or None if there is none."""
    try:
        return pending.key, pending.result().data
    except KeyDoesNotExist:
        return pending.key, None


def _was_there(pending: Pending) -> bool:
    """Whether a Delete found its key."""
    try:
        pending.result()
    except KeyDoesNotExist:
        return False
    return True


def _number_fault(pending: Pending, options: object) -> Exception:
    """What is wrong with the numbers of a command that has no entry."""
    numbers = [
        ("a command", pending.opcode, 0, 255),
        ("a namespace", pending.namespace, 0, 2**32 - 1),
        ("a size or a count of steps", pending.size, 0, 2**32 - 1),
        ("the options", options, 0, 255),
    ]
    for what, number, least, most in numbers:
        if not isinstance(number, int):
            return TypeError(f"{what} is a number from {least} to {most}, not {number!r}")
        if not least <= number <= most:
            return ValueError(f"{what} is a number from {least} to {most}, not {number}")
    return ValueError("a number of the command has no place in its entry")


def _keys_in(data: bytes) -> List[bytes]:
    """The keys of a List's data."""
    count, at, keys = struct.unpack_from("<I", data)[0], 4, []
    for _ in range(count):
        size = struct.unpack_from("<H", data, at)[0]
        keys.append(data[at + 2 : at + 2 + size])
        at += -(-(2 + size) // 4) * 4
    return keys
