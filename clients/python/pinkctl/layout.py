"""Everything of the format that depends on the shape of a drive or on the version of its layout.

The root pages of a drive name the version. A layout that is not in `RULES` is refused by its number.
"""

import dataclasses
import struct
from functools import cached_property
from typing import Optional

import pinkdrive

HEADER_BYTES = 32
"""Bytes of the header of an image file, before the state bytes."""
HEAD_BYTES = 32
"""Bytes of the head of a value, and of a journal or meta page."""
ENTRY_BYTES = 32
KEY_BYTES = 16
ROOT_BLOCKS = 2
EPOCH_BLOCKS = 2
LEVELS = 4
NAMESPACES = 8
"""The most namespaces of a drive."""
CAPS = (4, 16, 64)
"""Most pages of runs 1 to 3."""
PAGE_BYTES = (512, 1024, 2048, 4096, 8192, 16384)
BLOCK_PAGES = (8, 16, 32, 64, 128, 256)
MOST_BLOCKS = 4096
MOST_FLASH_BYTES = 2**28
ROOT_LIST_FROM = 64
"""Where the list of blocks begins in a root page, or the limits before it."""
MOST_SPARES = 64
"""The most spare blocks of a drive."""
TABLE_BLOCKS = 2
"""The blocks of tables that a drive with spare blocks has."""
FAILED_SPARE = 0xFFFF
"""In a table: the spare block failed."""
IO_BYTES = 65536
"""Bytes of the buffers of the program for its input, its output and the data of a command."""
ROW_BYTES = 262144
"""The most bytes of pages that the program writes to the file at once."""
LIMIT_BYTES = 4 * NAMESPACES
"""Bytes of the limits in a root page that has them."""
ERASED, WHOLE, TORN = 0, 1, 2
"""The state bytes of pages."""

IMAGE_TEXT = b"PINKIMG1"
VALUE_TEXT = b"PINKDATA"
JOURNAL_TEXT = b"PINKJRNL"
META_TEXT = b"PINKMETA"
ROOT_TEXT = b"PINKROOT"
TABLE_TEXT = b"PINKSPAR"
VALUE_MARK = 0x44

IMAGE_HEADER = struct.Struct("<8sIII12s")
ENTRY = struct.Struct("<BBH16sIII")
"""Key length, kind, namespace less one, key, page, length, zeros."""
PUT, GONE = 1, 2
VALUE_HEAD = struct.Struct("<BBH16sI8s")
"""Key length, mark, namespace less one, key, length, text."""
JOURNAL_HEAD = struct.Struct("<8sQIH10s")
"""Text, epoch, index of the commit, count of entries, zeros."""
META_HEAD = struct.Struct("<8sBBHI16s")
"""Text, level, zero, count of entries, index of the page, zeros."""
ROOT_HEAD = struct.Struct("<8sHHIHHIQQ4I8s")
"""Text, version, N, P, M, journal blocks, namespaces, number, epoch, entries of runs 1 to 4, zeros."""

TABLE_HEAD = struct.Struct("<8sQIHHHHI")
"""Text, number, P, N, M of the drive, spare blocks, used ones, zero."""


@dataclasses.dataclass(frozen=True)
class Rules:
    """What a version of the layout says.

    `step` pages form a unit: a commit, a place of a root, and the pages of a value are whole units. A commit and a root have the
    same bytes in each page of theirs, and the first one that is Whole counts. If it `has_limits`, a root page has the limits of the
    namespaces before its list of blocks.
    """

    step: int
    has_limits: bool = False


RULES: dict[int, Rules] = {2: Rules(step=2), 3: Rules(step=2, has_limits=True)}
"""The versions that are known: those that the program opens."""


def units(count: int, size: int) -> int:
    """How many units of this size hold `count`."""
    return -(-count // size)


@dataclasses.dataclass(frozen=True)
class Shape:
    """Bytes of a page, pages of a block, blocks."""

    page_bytes: int
    block_pages: int
    blocks: int

    @property
    def pages(self) -> int:
        return self.block_pages * self.blocks

    @property
    def flash_bytes(self) -> int:
        return self.page_bytes * self.pages

    @property
    def file_bytes(self) -> int:
        """The exact length of an image file of this shape."""
        return HEADER_BYTES + self.pages * (self.page_bytes + 1)

    def __str__(self) -> str:
        return f"{self.page_bytes} {self.block_pages} {self.blocks}"


@dataclasses.dataclass(frozen=True)
class Layout:
    """The numbers of a shape under a version of the layout, as docs/FORMATS.md names them."""

    shape: Shape
    version: int = min(RULES)

    @property
    def step(self) -> int:
        return RULES[self.version].step

    @property
    def root_list_from(self) -> int:
        """Where the list of blocks begins in a root page."""
        return ROOT_LIST_FROM + (LIMIT_BYTES if RULES[self.version].has_limits else 0)

    @property
    def has_room(self) -> bool:
        """Whether a root page has room for what its version keeps in it, whatever blocks it lists."""
        return self.root_list_from + 2 * (self.meta_blocks + 2 * EPOCH_BLOCKS) <= self.shape.page_bytes

    @cached_property
    def page_entries(self) -> int:
        """Most entries of a journal or meta page."""
        return (self.shape.page_bytes - HEAD_BYTES) // ENTRY_BYTES

    @property
    def greatest(self) -> int:
        """Most bytes of a value."""
        return self.shape.block_pages // 4 * self.shape.page_bytes - HEAD_BYTES

    @property
    def buffer(self) -> int:
        """Most keys of an epoch."""
        return 2 * self.page_entries

    def charge(self, length: int) -> int:
        """The pages that a value of this length takes."""
        return self.step * units(HEAD_BYTES + length, self.step * self.shape.page_bytes)

    @property
    def commits(self) -> int:
        """Commits of an epoch."""
        return EPOCH_BLOCKS * self.shape.block_pages // self.step

    def commit_pages(self, blocks: tuple[int, ...], index: int) -> range:
        """The pages of a commit of an epoch, the first that counts first."""
        in_block = self.shape.block_pages // self.step
        first = blocks[index // in_block] * self.shape.block_pages + index % in_block * self.step
        return range(first, first + self.step)

    def run_page(self, blocks: tuple[int, ...], index: int) -> int:
        n = self.shape.block_pages
        return blocks[index // n] * n + index % n

    def run_pages(self, entries: int) -> int:
        return units(entries, self.page_entries)

    def run_blocks(self, entries: int) -> int:
        return units(self.run_pages(entries), self.shape.block_pages)

    @property
    def dense(self) -> int:
        """Three quarters of a block, in pages."""
        return 3 * self.shape.block_pages // 4

    @cached_property
    def caps(self) -> tuple[int, ...]:
        """Most pages of runs 1 to 4."""
        deepest = units(self.shape.blocks * self.dense, self.page_entries) + 24
        return (*CAPS, deepest)

    @cached_property
    def meta_blocks(self) -> int:
        blocks = [units(cap, self.shape.block_pages) for cap in self.caps]
        return sum(blocks) + max(blocks[2:])

    @cached_property
    def data_blocks(self) -> int:
        return self.shape.blocks - ROOT_BLOCKS - 2 * EPOCH_BLOCKS - self.meta_blocks

    @cached_property
    def limit(self) -> int:
        """Most pages of all values."""
        return (self.data_blocks - 1) * self.dense

    def memory(self, frames: int) -> int:
        """The bytes that the drive asks for when it is opened with so many frames, and keeps; docs/BOARDS.md says what for."""
        p, n, m = self.shape.page_bytes, self.shape.block_pages, self.shape.blocks
        runs = 72 * sum(self.caps) + 4 * sum(units(cap, n) for cap in self.caps)
        frame = p + 1 + 2 * min(p // 8 + 1, 65535)  # the page, whether it is taken, its table of homes
        return 2 * self.shape.pages + 7 * m + runs + 9 * p + 264 * self.page_entries + 72 * n + frames * frame

    def program_memory(self, frames: int) -> int:
        """The same of the program `pink` when it serves: its table of pages, the row of pages that wait for the file, and buffers besides.

        The bytes of written pages, without the zeros at their ends, come on top, and one or two KB that depend on no shape.
        """
        p, n = self.shape.page_bytes, self.shape.block_pages
        row = min(n * p, ROW_BYTES) + 8 * n
        buffers = 2 * IO_BYTES + max(IO_BYTES, self.greatest) + self.greatest + 24 * self.page_entries
        return self.memory(frames) + 40 * self.shape.pages + row + buffers

    @property
    def root_pages(self) -> range:
        return range(ROOT_BLOCKS * self.shape.block_pages)


def shape_fault(shape: Shape) -> Optional[str]:
    """Why a shape is not allowed, in the words of the client; None if it is."""
    return pinkdrive.Shape(shape.page_bytes, shape.block_pages, shape.blocks).fault()
