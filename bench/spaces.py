#!/usr/bin/env python3
"""Random scripts over drives of none to eight limits, compared with plain maps:

    python3 bench/spaces.py [DRIVES [SEED]]        30 and 1 if not named

Each drive has one of three shapes, random limits, and one to three sessions with 0 to 300 frames.
The commands are of every opcode, now and then of none, in namespaces that the drive has and that it
does not have, with keys and sizes that are allowed and that are not. Every record is compared with
what docs/COMMANDS.md says of a map for each namespace: the identifiers, the status, the result, the
data, and the first five numbers of a Report. It is no part of the gate. It ends with the count of
commands, and with status 1 at the first record that differs.
"""

import os
import random
import struct
import subprocess
import sys
import tempfile
from typing import NamedTuple

TOP = os.path.join(os.path.dirname(os.path.abspath(__file__)), "..")
sys.path.insert(0, os.path.join(TOP, "clients", "python"))

import pinkdrive
from pinkdrive import Opcode, Shape

PINK = os.environ.get("PINK_PROGRAM", os.path.join(TOP, "pink"))
SHAPES = [Shape(512, 16, 64), Shape(512, 8, 33), Shape(1024, 8, 32)]
FRAMES = [0, 8, 36, 148, 300]
OPCODES = {
    Opcode.STORE: 40, Opcode.RETRIEVE: 12, Opcode.DELETE: 14, Opcode.EXIST: 8, Opcode.LIST: 8, Opcode.FLUSH: 3, Opcode.TICK: 4,
    Opcode.REPORT: 4, 0x03: 1, 0x7F: 1,
}  # fmt: skip
ALL = 0xFFFFFFFF
KEYED = (Opcode.STORE, Opcode.RETRIEVE, Opcode.DELETE, Opcode.EXIST)


class Command(NamedTuple):
    """A command; the key has the bytes that its length says, as far as there are 16."""

    opcode: int
    namespace: int
    key: bytes
    key_len: int
    size: int
    options: int
    value: bytes

    def entry(self, number):
        key = self.key.ljust(16, b"\0")
        fields = self.opcode, number % 65536, self.namespace, key[:8], self.size, self.key_len, self.options, key[8:]
        return pinkdrive.ENTRY.pack(*fields) + self.value


class Answer(NamedTuple):
    """A status, a result and data; of a Report the data of its first five numbers."""

    status: int
    result: int = 0
    data: bytes = b""


class Space:
    """A namespace: a map and a limit."""

    def __init__(self, shape, limit):
        self.shape, self.limit, self.map = shape, limit, {}

    def live(self, but=None):
        return sum(self.shape.pages_of(len(value)) for key, value in self.map.items() if key != but)

    def store(self, it):
        there = it.key in self.map
        if it.options & 1 and not there:
            return Answer(0x87)
        if it.options & 2 and there:
            return Answer(0x89)
        if self.live(it.key) + self.shape.pages_of(it.size) > self.limit:
            return Answer(0x81)
        self.map[it.key] = it.value
        return Answer(0)

    def listed(self, it):
        items, used = [], 4
        for key in sorted(key for key in self.map if key >= it.key):
            item = struct.pack("<H", len(key)) + key
            item += bytes(-len(item) % 4)
            used += len(item)
            if used > min(it.size, 65536):
                break
            items.append(item)
        return Answer(0, data=struct.pack("<I", len(items)) + b"".join(items))

    def answer(self, it, frames):
        """What a command that passed the checks before the map is answered."""
        if it.opcode == Opcode.STORE:
            return self.store(it)
        if it.opcode in KEYED:
            if it.key not in self.map:
                return Answer(0x87)
            if it.opcode == Opcode.DELETE:
                del self.map[it.key]
            if it.opcode == Opcode.RETRIEVE:
                value = self.map[it.key]
                return Answer(0, len(value), value[: it.size])
            return Answer(0)
        if it.opcode == Opcode.LIST:
            return self.listed(it)
        if it.opcode == Opcode.REPORT:
            numbers = self.live(), self.limit, len(self.map), pinned(self.shape, frames), frames
            return Answer(0, data=struct.pack("<5I", *numbers))
        return Answer(0)


def pinned(shape, frames):
    """The levels that this many frames pin."""
    quarters, entries = 3 * shape.block_pages // 4, (shape.page_bytes - 32) // 32
    last = -(-shape.blocks * quarters // entries) + 24
    need = [8, 36, 148, 84 + last + max(64, last)]
    return sum(it <= frames for it in need)


def answer(shape, spaces, it, frames):
    """What a command is answered, with the checks in their order."""
    if it.opcode not in OPCODES or it.opcode in (0x03, 0x7F):
        return Answer(0x01)
    if not 1 <= it.namespace <= len(spaces) and not (it.opcode == Opcode.FLUSH and it.namespace == ALL):
        return Answer(0x0B)
    if it.key_len > 16 and it.opcode in (*KEYED, Opcode.LIST) or it.key_len == 0 and it.opcode in KEYED:
        return Answer(0x86)
    if it.opcode == Opcode.STORE and it.size > shape.greatest_value:
        return Answer(0x85)
    if it.opcode == Opcode.LIST and it.size < 4:
        return Answer(0x02)
    return spaces[min(it.namespace, len(spaces)) - 1].answer(it, frames)


def size_of(draw, opcode, greatest):
    if opcode == Opcode.STORE:
        return draw.choice([0, 1, 100, draw.randrange(greatest + 1), greatest, greatest + (draw.random() < 0.2)])
    if opcode == Opcode.RETRIEVE:
        return draw.choice([0, 1, 50, 4096, draw.randrange(3000)])
    if opcode == Opcode.LIST:
        return draw.choice([0, 3, 4, 8, 20, 100, 1000, 70000])
    return draw.choice([0, 1, 3, 50])


def command(draw, shape, count):
    opcode = draw.choices(list(OPCODES), list(OPCODES.values()))[0]
    namespace = draw.randrange(1, count + 1)
    if draw.random() < 0.06:
        namespace = draw.choice([0, count + 1, 8, 9, 256, 256 + count, 65536 + count, 0x80000001, ALL])
    key = bytes([97 + draw.randrange(14)]) * draw.choice([1, 1, 2, 16])
    key_len = draw.choice([0, 17, 200, 255]) if draw.random() < 0.04 else len(key)
    if opcode == Opcode.LIST and draw.random() < 0.4:
        key_len = 0
    size = size_of(draw, opcode, shape.greatest_value)
    options = draw.choices([0, 1, 2, 3, 0xFC], [10, 1, 2, 1, 1])[0] if opcode == Opcode.STORE else 0
    value = draw.randbytes(size) if opcode == Opcode.STORE else b""
    return Command(opcode, namespace, key[: min(key_len, 16)], key_len, size, options, value)


def limits_of(draw, most):
    """Random limits, or none; now and then all pages."""
    count = draw.choice([0, 1, 2, 3, 5, 8])
    limits, rest = [1] * count, most - count
    while count and rest > 0 and (draw.random() < 0.999 or rest == most):
        part = draw.randrange(1, min(rest, 8) + 1)
        limits[draw.randrange(count)] += part
        rest -= part
    return limits


def differs(number, it, want, posted, at):
    """What differs in the record that begins here, if anything; and where the next one begins."""
    result, zero, head, mark, _, length = struct.unpack_from("<6I", posted, at)
    data = posted[at + 24 : at + 24 + length]
    if it.opcode == Opcode.REPORT and length == 64:
        data = data[:20]
    found = result, zero, head, mark, data
    wanted = want.result, 0, (number + 1) % 65536 | 1 << 16, number % 65536 | 1 << 16 | want.status << 17, want.data
    return None if found == wanted else f"command {number}, {it}: {found}, and not {wanted}", at + 24 + length


def session(draw, path, shape, spaces, limits):
    """One session: what differs in it, and how many commands it had."""
    frames = draw.choice(FRAMES)
    commands = [command(draw, shape, len(spaces)) for _ in range(draw.randrange(50, 500))]
    script = b"".join(it.entry(number) for number, it in enumerate(commands))
    done = subprocess.run([PINK, path, "serve", str(frames)], input=script, capture_output=True)
    if done.returncode:
        return f"status {done.returncode}", 0
    at = 0
    for number, it in enumerate(commands):
        fault, at = differs(number, it, answer(shape, spaces, it, frames), done.stdout, at)
        if fault:
            return fault, number
    return None if at == len(done.stdout) else "a longer output", len(commands)


def main():
    drives = int(sys.argv[1]) if len(sys.argv) > 1 else 30
    draw, commands = random.Random(int(sys.argv[2]) if len(sys.argv) > 2 else 1), 0
    with tempfile.TemporaryDirectory() as folder:
        for number in range(drives):
            shape, path = draw.choice(SHAPES), os.path.join(folder, f"{number}.img")
            limits = limits_of(draw, shape.live_pages)
            pinkdrive.make(path, *shape, program=PINK, limits=limits)
            spaces = [Space(shape, limit) for limit in limits or [shape.live_pages]]
            for _ in range(draw.randrange(1, 4)):
                fault, count = session(draw, path, shape, spaces, limits)
                if fault:
                    print(f"drive {number}, {shape}, limits {limits}: {fault}")
                    sys.exit(1)
                commands += count
    print(f"{commands} commands on {drives} drives")


if __name__ == "__main__":
    main()
