"""The workload: phases, each a file of submission entries (docs/COMMANDS.md) that every engine is
fed. The same arguments give the same bytes. Nothing here knows an engine."""
from __future__ import annotations

import itertools
import random
import struct
from dataclasses import dataclass
from pathlib import Path
from typing import BinaryIO, Iterator

FLUSH, STORE, RETRIEVE, LIST, DELETE, EXIST = 0x00, 0x01, 0x02, 0x06, 0x10, 0x14

ENTRY_BYTES = 64
RETRIEVE_BUFFER = 4096
# 51 keys of 16 bytes.
LIST_BUFFER = 1024
ZIPF_EXPONENT = 0.99
POOL_BYTES = 1 << 20

# The key of the Retrieve that ends an opening: it is never deleted.
PROBE = 7


@dataclass(frozen=True)
class Size:
    """How much there is of each phase."""

    keys: int
    value_bytes: int
    overwrites: int
    retrieves: int
    missing: int
    lists: int
    deletes: int
    # Whether a Flush follows each change, so that it is committed by itself.
    alone: bool

    def folder_name(self) -> str:
        mode = "alone" if self.alone else "groups"
        counts = (self.overwrites, self.retrieves, self.missing, self.lists, self.deletes)
        return f"{self.keys}-{self.value_bytes}-{mode}-" + "-".join(map(str, counts))


def key_of(number: int) -> bytes:
    return b"key:%012d" % number


def missing_key_of(number: int) -> bytes:
    """A key that is never stored, between two that may be."""
    return key_of(number)[:-1] + b"x"


def entry(opcode: int, identifier: int, key: bytes = b"", size: int = 0) -> bytes:
    made = bytearray(ENTRY_BYTES)
    made[0] = opcode
    struct.pack_into("<HI", made, 2, identifier % 65536, 1)
    padded = key.ljust(16, b"\0")
    made[8:16], made[56:64] = padded[:8], padded[8:]
    struct.pack_into("<I", made, 40, size)
    made[44] = len(key)
    return bytes(made)


class Values:
    """Values that do not compress, no two of which are equal."""

    def __init__(self, value_bytes: int) -> None:
        self._bytes = value_bytes
        self._pool = random.Random(value_bytes).randbytes(POOL_BYTES)
        self._count = 0

    def next(self) -> bytes:
        self._count += 1
        at = self._count * 7919 % (POOL_BYTES - self._bytes)
        return (struct.pack("<Q", self._count) + self._pool[at : at + self._bytes])[: self._bytes]


class Script:
    """Writes the entries of a phase."""

    def __init__(self, file: BinaryIO, alone: bool) -> None:
        self._file = file
        self._alone = alone
        self._count = 0

    def add(self, opcode: int, key: bytes = b"", size: int = 0) -> None:
        self._file.write(entry(opcode, self._count, key, size))
        self._count += 1
        if opcode == DELETE and self._alone:
            self.add(FLUSH)

    def store(self, key: bytes, value: bytes) -> None:
        self.add(STORE, key, len(value))
        self._file.write(value)
        if self._alone:
            self.add(FLUSH)


def zipf(draw: random.Random, keys: int, count: int) -> Iterator[int]:
    """Keys of which the n-th most frequent comes as often as 1 / n ^ 0.99, in no order."""
    weights = list(itertools.accumulate((n + 1) ** -ZIPF_EXPONENT for n in range(keys)))
    places = list(range(keys))
    draw.shuffle(places)
    for rank in draw.choices(range(keys), cum_weights=weights, k=count):
        yield places[rank]


class Workload:
    """Writes the phases of a size into a folder."""

    def __init__(self, folder: Path, size: Size) -> None:
        self._folder = folder / size.folder_name()
        self._size = size
        self._draw = random.Random(size.keys * 31 + size.value_bytes)
        self._values = Values(size.value_bytes)

    def phases(self) -> list[Path]:
        """The files of the phases in order, which are written if they are not there."""
        done = self._folder / "done"
        names = ["store", "overwrite"]
        if self._size.retrieves > 0:
            names += ["retrieve", "zipf", "missing", "list", "delete"]
        paths = [self._folder / f"{name}.script" for name in names]
        if not done.exists():
            self._folder.mkdir(parents=True, exist_ok=True)
            for path in paths:
                with path.open("wb") as file:
                    script = Script(file, self._size.alone)
                    getattr(self, "_" + path.stem)(script)
                    script.add(FLUSH)
            done.touch()
        return paths

    def _any_key(self) -> int:
        return self._draw.randrange(self._size.keys)

    def _store(self, script: Script) -> None:
        order = list(range(self._size.keys))
        self._draw.shuffle(order)
        for number in order:
            script.store(key_of(number), self._values.next())

    def _overwrite(self, script: Script) -> None:
        for _ in range(self._size.overwrites):
            script.store(key_of(self._any_key()), self._values.next())

    def _retrieve(self, script: Script) -> None:
        for _ in range(self._size.retrieves):
            script.add(RETRIEVE, key_of(self._any_key()), RETRIEVE_BUFFER)

    def _zipf(self, script: Script) -> None:
        for number in zipf(self._draw, self._size.keys, self._size.retrieves):
            script.add(RETRIEVE, key_of(number), RETRIEVE_BUFFER)

    def _missing(self, script: Script) -> None:
        for _ in range(self._size.missing):
            script.add(EXIST, missing_key_of(self._any_key()))

    def _list(self, script: Script) -> None:
        for _ in range(self._size.lists):
            script.add(LIST, key_of(self._any_key()), LIST_BUFFER)

    def _delete(self, script: Script) -> None:
        others = [number for number in range(self._size.keys) if number != PROBE]
        for number in self._draw.sample(others, self._size.deletes):
            script.add(DELETE, key_of(number))
