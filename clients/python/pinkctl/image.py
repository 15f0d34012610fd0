"""An exact reader of image files, independent of the program: docs/FORMATS.md in Python.

`open_image` reads the file's header and states, and what its log has. `read_flash` reads the flash as opening does and
gives the map, or the first page that is wrong, exactly as the program does.
"""

import dataclasses
import os
import struct
from collections.abc import Iterator, Sequence
from typing import Any, BinaryIO, NamedTuple, Optional, Union

from . import layout as it
from .layout import ERASED, GONE, PUT, TORN, WHOLE, Layout, Shape, shape_fault
from .log import Log, log_of, replayed
from .status import Exit, ToolError


class FileBytes:
    """The bytes of an open file, read when they are asked for: of a mapped file a page that the disk has no room for ends the process."""

    def __init__(self, file: BinaryIO) -> None:
        self.file = file
        self.size = os.fstat(file.fileno()).st_size

    def __len__(self) -> int:
        return self.size

    def __getitem__(self, part: slice) -> bytes:
        at, end, _ = part.indices(self.size)
        data = os.pread(self.file.fileno(), max(0, end - at), at)
        while len(data) < end - at:
            more = os.pread(self.file.fileno(), end - at - len(data), at + len(data))
            if not more:
                raise ToolError(f"{self.file.name}: it became shorter while it was read", Exit.FILE)
            data += more
        return data


Buffer = Union[bytes, bytearray, FileBytes]


class Place(NamedTuple):
    """Where the value of a key is: its first page, and its length in bytes."""

    page: int
    length: int


class Key(NamedTuple):
    """A key: its namespace and its bytes, in the order of the index."""

    space: int
    bytes: bytes


class Entry(NamedTuple):
    """An entry of the index; no place means that the key was deleted."""

    key: Key
    place: Optional[Place]


class Root(NamedTuple):
    """A root page: which blocks the epochs and the runs have."""

    page: int
    version: int
    number: int
    epoch: int
    newest: tuple[int, ...]
    older: tuple[int, ...]
    counts: tuple[int, ...]
    runs: tuple[tuple[int, ...], ...]
    limits: tuple[int, ...] = ()

    @property
    def named(self) -> tuple[int, ...]:
        """All blocks that it names."""
        return self.newest + self.older + tuple(b for run in self.runs for b in run)


@dataclasses.dataclass(frozen=True)
class Fault:
    """The first page at which reading a flash fails: what it should be, and why it is not."""

    page: int
    part: str
    why: str
    key: Optional[Key] = None
    keys: tuple[Key, ...] = ()


class Damaged(Exception):
    """Reading the flash fails."""

    def __init__(self, fault: Fault) -> None:
        super().__init__(fault.why)
        self.fault = fault


class NotAnImage(Exception):
    """The file is no image: the first wrong byte, what is wrong in words, and whether something else is in it or its making was broken off."""

    def __init__(self, at: int, why: str, foreign: bool = False, unmade: bool = False) -> None:
        super().__init__(why)
        self.at = at
        self.foreign = foreign
        self.unmade = unmade


class Table(NamedTuple):
    """The newest table of spare blocks: the block of the drive that each used one has."""

    page: int
    number: int
    spares: int
    used: tuple[int, ...]

    def homes(self, blocks: int) -> list[int]:
        """The block of the file that each of the drive's blocks has."""
        homes = list(range(blocks))
        for spare, block in enumerate(self.used):
            if block != it.FAILED_SPARE:
                homes[block] = blocks + spare
        return homes


@dataclasses.dataclass
class Image:
    """The bytes of an image file with the shape of its drive, the table of its spare blocks, if it has some, and the log that it had.

    `file_states` are the states of all pages of the file, where they are not those that it has.
    """

    shape: Shape
    data: Buffer
    table: Optional[Table] = None
    file_states: bytes = b""
    log: Optional[Log] = None

    def __post_init__(self) -> None:
        pages = self.file_shape.pages
        self.first = it.HEADER_BYTES + pages
        self.homes = self.table.homes(self.shape.blocks) if self.table else None
        self.file_states = self.file_states or bytes(self.data[it.HEADER_BYTES : self.first])
        self.states = self.file_states
        if self.homes is not None:
            n = self.shape.block_pages
            self.states = b"".join(self.file_states[home * n : home * n + n] for home in self.homes)

    @property
    def spares(self) -> int:
        """The number of spare blocks."""
        return self.table.spares if self.table else 0

    @property
    def file_shape(self) -> Shape:
        """The shape that the header of the file names: with the spare blocks and their tables."""
        more = self.table.spares + it.TABLE_BLOCKS if self.table else 0
        return dataclasses.replace(self.shape, blocks=self.shape.blocks + more)

    def pages(self, first: int, count: int) -> bytes:
        """The bytes of pages that follow each other in a block."""
        size = self.shape.page_bytes
        at = self.place_of(first)
        return self.data[at : at + count * size]

    def page(self, page: int) -> bytes:
        """The bytes of a page, whatever its state."""
        return self.pages(page, 1)

    def head(self, page: int, count: int) -> bytes:
        """The first bytes of a page."""
        at = self.place_of(page)
        return self.data[at : at + count]

    def place_of(self, page: int) -> int:
        """Where a page of the drive begins in the file."""
        if self.homes is not None:
            block, within = divmod(page, self.shape.block_pages)
            page = self.homes[block] * self.shape.block_pages + within
        return self.first + page * self.shape.page_bytes

    def whole(self, page: int) -> Optional[bytes]:
        """The bytes of a page that is Whole, else None."""
        return self.page(page) if self.states[page] == WHOLE else None


STATE_NAMES = {ERASED: "erased", WHOLE: "whole", TORN: "torn"}


def load_shape(data: Buffer, name: str) -> Shape:
    """The shape that the header of an image names, or `NotAnImage` at the byte that the program names."""
    if not len(data):
        raise NotAnImage(0, f"the making of {name} was broken off before it had a length", unmade=True)
    if len(data) < it.HEADER_BYTES:
        raise NotAnImage(len(data), f"{name} ({len(data)} bytes) is no image of a drive", foreign=True)
    text, page_bytes, block_pages, blocks, zeros = it.IMAGE_HEADER.unpack(data[: it.HEADER_BYTES])
    shape = Shape(page_bytes, block_pages, blocks)
    if text == bytes(8) and shape_fault(shape) is None and len(data) == shape.file_bytes:
        raise NotAnImage(0, f"the making of {name} was broken off before its head had its text", unmade=True)
    if text != it.IMAGE_TEXT:
        raise NotAnImage(0, f"{name} ({len(data)} bytes) is no image of a drive", foreign=True)
    fault = shape_fault(shape)
    if fault:
        raise NotAnImage(8, f"the head of {name} is damaged: {fault}")
    if zeros.strip(b"\0"):
        raise NotAnImage(20, f"the head of {name} is damaged: it has bytes other than 0 at its end")
    if len(data) != shape.file_bytes:
        raise NotAnImage(it.HEADER_BYTES, f"{name} has {len(data)} bytes, and by its head it should have {shape.file_bytes}")
    return shape


def load_image(data: Buffer, name: str = "the file", log: Optional[Log] = None) -> Image:
    """The image of these bytes of a file and of its log, or `NotAnImage` at the byte that the program names."""
    shape = load_shape(data, name)
    if log and log.batches:
        data = replayed(log, data[:], shape)
    image = Image(shape, data, log=log)
    wrong = image.states.strip(bytes((ERASED, WHOLE, TORN)))
    if wrong:
        at = next(i for i, state in enumerate(image.states) if state > TORN)
        raise NotAnImage(it.HEADER_BYTES + at, f"{name} is damaged: the state of page {at} is {image.states[at]}")
    return with_spares(image)


def open_image(file: BinaryIO) -> Image:
    """The image of an open file, which has a log only under its name."""
    return load_image(FileBytes(file), file.name, log_of(file.name) if isinstance(file.name, str) else None)


# Spare blocks.


def table_in(shape: Shape, page: int, data: bytes) -> Optional[Table]:
    """The table of spare blocks of a page, or None outside the grammar; the shape is the file's."""
    text, number, p, n, m, spares, used, zero = it.TABLE_HEAD.unpack_from(data)
    end = it.TABLE_HEAD.size + 2 * used
    drive = Shape(p, n, m)
    if text != it.TABLE_TEXT or zero or drive != dataclasses.replace(shape, blocks=shape.blocks - spares - it.TABLE_BLOCKS):
        return None
    if not 1 <= spares <= it.MOST_SPARES or not number - 1 <= used <= spares or not number:
        return None
    if shape_fault(drive) or end > len(data) or not zeros_from(data, end):
        return None
    homes = struct.unpack_from(f"<{used}H", data, it.TABLE_HEAD.size)
    return Table(page, number, spares, homes) if all(home < m or home == it.FAILED_SPARE for home in homes) else None


def newest_table(image: Image) -> Optional[Table]:
    """The newest table in the last two blocks of a file; None if it has none."""
    shape = image.shape
    first = max(0, shape.blocks - it.TABLE_BLOCKS) * shape.block_pages
    pages = ((page, image.whole(page)) for page in range(first, shape.pages))
    tables = [table_in(shape, page, data) for page, data in pages if data is not None]
    return max(filter(None, tables), key=lambda table: (table.number, -table.page), default=None)


def with_spares(image: Image) -> Image:
    """The drive of an image: one that has no root of the file's shape may have spare blocks, and is smaller than its file then."""
    table = None if roots_of(image) else newest_table(image)
    if table is None:
        return image
    shape = dataclasses.replace(image.shape, blocks=image.shape.blocks - table.spares - it.TABLE_BLOCKS)
    return Image(shape, image.data, table, image.file_states, image.log)


# Grammars of pages and entries.


def zeros_from(data: bytes, at: int) -> bool:
    return not data[at:].strip(b"\0")


def key_of(length: int, space: int, padded: bytes) -> Optional[Key]:
    """A key of its length, its namespace less one, and sixteen bytes."""
    if 1 <= length <= it.KEY_BYTES and space < it.NAMESPACES and zeros_from(padded, length):
        return Key(space + 1, padded[:length])
    return None


def is_place(layout: Layout, page: int, length: int) -> bool:
    """Whether a value of this length may begin at this page."""
    shape = layout.shape
    block, within = divmod(page, shape.block_pages)
    return (
        length <= layout.greatest
        and it.ROOT_BLOCKS <= block < shape.blocks
        and within % layout.step == 0
        and within + layout.charge(length) <= shape.block_pages
    )


def entry_of(layout: Layout, fields: tuple[Any, ...]) -> Optional[Entry]:
    """The entry of these fields of `ENTRY`, or None outside the grammar."""
    size, kind, space, padded, page, length, tail = fields
    key = key_of(size, space, padded)
    if key is None or tail:
        return None
    if kind == PUT and is_place(layout, page, length):
        return Entry(key, Place(page, length))
    if kind == GONE and not page and not length:
        return Entry(key, None)
    return None


def entries_in(layout: Layout, data: bytes, count: int) -> Optional[list[Entry]]:
    """This many entries of a journal or meta page, or None outside the grammar."""
    end = it.HEAD_BYTES + count * it.ENTRY_BYTES
    if not 1 <= count <= layout.page_entries or not zeros_from(data, end):
        return None
    found = []
    for fields in it.ENTRY.iter_unpack(data[it.HEAD_BYTES : end]):
        entry = entry_of(layout, fields)
        if entry is None:
            return None
        found.append(entry)
    return found


class Commit(NamedTuple):
    """A journal page: its epoch, its place in the epoch, and its entries."""

    epoch: int
    place: int
    entries: list[Entry]


def commit_in(layout: Layout, data: bytes) -> Optional[Commit]:
    """The commit of a journal page, or None outside the grammar."""
    text, epoch, index, count, zeros = it.JOURNAL_HEAD.unpack_from(data)
    if text != it.JOURNAL_TEXT or index >= layout.commits or zeros.strip(b"\0"):
        return None
    entries = entries_in(layout, data, count)
    return None if entries is None else Commit(epoch, index, entries)


class MetaPage(NamedTuple):
    """A page of a run: the level, its place in the run, and its entries."""

    level: int
    place: int
    entries: list[Entry]


def meta_in(layout: Layout, data: bytes) -> Optional[MetaPage]:
    """The meta page of these bytes, or None outside the grammar."""
    text, level, zero, count, index, zeros = it.META_HEAD.unpack_from(data)
    if text != it.META_TEXT or not 1 <= level <= it.LEVELS or zero or zeros.strip(b"\0"):
        return None
    entries = entries_in(layout, data, count)
    if entries is None or not rises(entries):
        return None
    return MetaPage(level, index, entries)


def rises(entries: Sequence[Entry]) -> bool:
    """Whether the keys strictly rise."""
    return all(a.key < b.key for a, b in zip(entries, entries[1:]))


def root_version(data: bytes) -> Optional[int]:
    """The version that a page with a root's text names, else None."""
    return struct.unpack_from("<H", data, 8)[0] if data.startswith(it.ROOT_TEXT) else None


def root_in(shape: Shape, page: int, data: bytes) -> Optional[Root]:
    """The root of a page's bytes, or None outside the grammar of a known version."""
    text, version, n, p, m, journal, spaces, number, epoch, *rest = it.ROOT_HEAD.unpack_from(data)
    counts, tail = tuple(rest[:4]), rest[4]
    if text != it.ROOT_TEXT or version not in it.RULES or (p, n, m) != dataclasses.astuple(shape):
        return None
    layout = Layout(shape, version)
    limits = limits_in(layout, spaces, data)
    if not layout.has_room or limits is None or journal not in (2, 4) or tail.strip(b"\0"):
        return None
    if not 1 <= epoch <= number or epoch < journal // 2:
        return None
    if any(count > cap * layout.page_entries for count, cap in zip(counts, layout.caps)):
        return None
    sizes = [journal, *map(layout.run_blocks, counts)]
    total = sum(sizes)
    end = layout.root_list_from + 2 * total
    if end > len(data) or not zeros_from(data, end):
        return None
    blocks = struct.unpack_from(f"<{total}H", data, layout.root_list_from)
    if len(set(blocks)) < total or not all(it.ROOT_BLOCKS <= b < m for b in blocks):
        return None
    parts = iter(blocks)
    journal_blocks, *runs = (tuple(next(parts) for _ in range(size)) for size in sizes)
    older = journal_blocks[2:]
    return Root(page, version, number, epoch, journal_blocks[:2], older, counts, tuple(runs), limits)


def limits_in(layout: Layout, spaces: int, data: bytes) -> Optional[tuple[int, ...]]:
    """The limits of a root page, none if its version has none; None outside the grammar."""
    if not it.RULES[layout.version].has_limits:
        return None if spaces else ()
    words = struct.unpack_from(f"<{it.NAMESPACES}I", data, it.ROOT_LIST_FROM)
    limits = words[:spaces]
    if not 1 <= spaces <= it.NAMESPACES or 0 in limits or any(words[spaces:]) or sum(limits) > layout.limit:
        return None
    return limits


def head_fault(data: bytes, key: Key, length: int) -> Optional[str]:
    """Why a value's first page has no head of this key and length, or None."""
    size, mark, space, padded, found, text = it.VALUE_HEAD.unpack_from(data)
    if text != it.VALUE_TEXT or mark != it.VALUE_MARK or space >= it.NAMESPACES:
        return "it does not begin with the head of a value"
    if key_of(size, space, padded) != key:
        return "its head names another key"
    if found != length:
        return f"its head names a length of {found}, and the index {length}"
    return None


# Reading a flash.


class Epoch(NamedTuple):
    """An epoch as it was read: its commits, and the page at which it ends (None: it is full)."""

    number: int
    blocks: tuple[int, ...]
    commits: list[Commit]
    pages: set[int]
    end: Optional[int]

    @property
    def entries(self) -> Iterator[Entry]:
        return (entry for commit in self.commits for entry in commit.entries)


@dataclasses.dataclass
class Flash:
    """What reading a flash found, up to its first fault."""

    roots: list[Root]
    layout: Layout
    root: Optional[Root] = None
    older: Optional[Epoch] = None
    newest: Optional[Epoch] = None
    runs: list[list[Entry]] = dataclasses.field(default_factory=list)
    first: dict[Key, Optional[Place]] = dataclasses.field(default_factory=dict)
    map: dict[Key, Place] = dataclasses.field(default_factory=dict)
    taken: set[int] = dataclasses.field(default_factory=set)
    fault: Optional[Fault] = None

    @property
    def opens(self) -> bool:
        return self.root is not None and self.fault is None

    @property
    def limits(self) -> tuple[int, ...]:
        """The limit of each namespace in pages."""
        return self.root.limits if self.root and self.root.limits else (self.layout.limit,)

    def pages_of(self, space: int) -> int:
        """The pages of the values of a namespace that were read."""
        return sum(self.layout.charge(place.length) for key, place in self.map.items() if key.space == space)


def roots_of(image: Image) -> list[Root]:
    """The roots of all pages of the root blocks, in their order."""
    found = []
    for page in Layout(image.shape).root_pages:
        data = image.whole(page)
        root = root_in(image.shape, page, data) if data is not None else None
        if root:
            found.append(root)
    return found


def newest_of(roots: Sequence[Root]) -> Optional[Root]:
    """The root with the greatest number, of equals the one of the lowest page."""
    return max(roots, key=lambda root: (root.number, -root.page)) if roots else None


def keys_named(layout: Layout, data: bytes) -> tuple[Key, ...]:
    """The keys of whatever entries a damaged page of the index still has."""
    return tuple(entry.key for entry in loose_entries(layout, data))


def loose_entries(layout: Layout, data: bytes) -> list[Entry]:
    """Each entry of a page of the index that is in the grammar by itself."""
    size = layout.page_entries * it.ENTRY_BYTES
    slots = it.ENTRY.iter_unpack(data[it.HEAD_BYTES : it.HEAD_BYTES + size])
    return [entry for entry in (entry_of(layout, fields) for fields in slots) if entry]


def page_of_commit(image: Image, pages: Sequence[int]) -> Optional[int]:
    """The page that counts of a commit: its first that is Whole."""
    return next((page for page in pages if image.states[page] == WHOLE), None)


def read_epoch(
    image: Image, layout: Layout, part: str, number: int, blocks: tuple[int, ...], spaces: int = it.NAMESPACES
) -> Epoch:
    """The commits of an epoch, up to the first that has no Whole page, of a drive with this many namespaces."""
    commits: list[Commit] = []
    keys: set[Key] = set()
    pages: set[int] = set()
    for index in range(layout.commits):
        own = layout.commit_pages(blocks, index)
        page = page_of_commit(image, own)
        if page is None:
            return Epoch(number, blocks, commits, pages, own[0])
        data = image.page(page)
        what = f"commit {index + 1} of {part} epoch of the journal (number {number})"
        commit = commit_in(layout, data)
        if commit is None or (commit.epoch, commit.place) != (number, index):
            raise Damaged(Fault(page, what, "it is not the journal page of this place", keys=keys_named(layout, data)))
        if any(entry.key.space > spaces for entry in commit.entries):
            raise Damaged(Fault(page, what, "it has a key of a namespace that the drive does not have", keys=keys_named(layout, data)))
        keys.update(entry.key for entry in commit.entries)
        if len(keys) > layout.buffer:
            raise Damaged(Fault(page, what, "the epoch has more keys than it may have", keys=keys_named(layout, data)))
        commits.append(commit)
        pages.update(own)
    return Epoch(number, blocks, commits, pages, None)


def read_older(image: Image, layout: Layout, root: Root) -> Optional[Epoch]:
    if not root.older:
        return None
    epoch = read_epoch(image, layout, "the older", root.epoch - 1, root.older, max(1, len(root.limits)))
    if not epoch.commits:
        page = root.older[0] * layout.shape.block_pages
        raise Damaged(Fault(page, "the first commit of the older epoch", "the epoch is named and has no commit"))
    return epoch


def read_run(image: Image, layout: Layout, root: Root, level: int) -> list[Entry]:
    """The entries of the run of a level."""
    count, blocks = root.counts[level - 1], root.runs[level - 1]
    found: list[Entry] = []
    for index in range(layout.run_pages(count)):
        page = layout.run_page(blocks, index)
        why, entries = run_page_fault(image, layout, page, level, index, count, found)
        if not why and any(entry.key.space > max(1, len(root.limits)) for entry in entries):
            why = "it has a key of a namespace that the drive does not have"
        if why:
            keys = keys_named(layout, image.page(page))
            raise Damaged(Fault(page, f"page {index} of run {level} of the index", why, keys=keys))
        found += entries
    return found


def run_page_fault(
    image: Image, layout: Layout, page: int, level: int, index: int, count: int, before: Sequence[Entry]
) -> tuple[Optional[str], list[Entry]]:
    """Why a page is not this page of a run, or None; and its entries."""
    data = image.whole(page)
    if data is None:
        return f"it is {STATE_NAMES[image.states[page]]}", []
    meta = meta_in(layout, data)
    wanted = min(layout.page_entries, count - index * layout.page_entries)
    if meta is None or (meta.level, meta.place, len(meta.entries)) != (level, index, wanted):
        return "it is not the meta page of this place", []
    if before and meta.entries[0].key <= before[-1].key:
        return "its keys do not follow those of the page before", []
    if level == it.LEVELS and any(entry.place is None for entry in meta.entries):
        return "it has a deleted key, which the last run never has", []
    return None, meta.entries


def first_entries(flash: Flash) -> dict[Key, Optional[Place]]:
    """The entry of each key that counts, in rising order of the keys."""
    first: dict[Key, Optional[Place]] = {}
    for entries in reversed(flash.runs):
        first.update(entries)
    for epoch in (flash.older, flash.newest):
        if epoch:
            first.update(epoch.entries)
    return dict(sorted(first.items()))


def read_values(image: Image, flash: Flash) -> None:
    """Checks the values of all keys, in rising order, and fills the map."""
    layout, n = flash.layout, flash.layout.shape.block_pages
    assert flash.root is not None
    named = set(flash.root.named)
    blocks: set[int] = set()
    used = [0] * len(flash.limits)
    for key, place in flash.first.items():
        if place is None:
            continue
        pages = range(place.page, place.page + layout.charge(place.length))
        blocks.add(place.page // n)
        used[key.space - 1] += len(pages)
        why = None
        if place.page // n in named:
            why = "the index says that a value is here, in a block of the index"
        elif not flash.taken.isdisjoint(pages):
            why = "the index says that two values are here"
        elif used[key.space - 1] > flash.limits[key.space - 1]:
            why = "the values take more pages than the limit"
        elif len(blocks) > layout.data_blocks - 1:
            why = "the values lie in more blocks than they may"
        if why:
            raise Damaged(Fault(place.page, "the first page of a value", why, key))
        flash.taken.update(pages)
        check_value(image, layout, key, place, pages)
        flash.map[key] = place


def check_value(image: Image, layout: Layout, key: Key, place: Place, pages: range) -> None:
    """Raises `Damaged` at the first page that is not the value's."""
    if image.states[pages.start : pages.stop] == b"\1" * len(pages):
        data = image.pages(pages.start, len(pages))
        if head_fault(data, key, place.length) is None and zeros_from(data, it.HEAD_BYTES + place.length):
            return
    size = layout.shape.page_bytes
    for number, page in enumerate(pages):
        part = f"page {number + 1} of the {len(pages)} of a value of {place.length} bytes"
        if image.states[page] != WHOLE:
            raise Damaged(Fault(page, part, f"it is {STATE_NAMES[image.states[page]]}", key))
        data = image.page(page)
        why = head_fault(data, key, place.length) if not number else None
        if not why and not zeros_from(data, max(0, it.HEAD_BYTES + place.length - number * size)):
            why = "it has bytes other than 0 after the value"
        if why:
            raise Damaged(Fault(page, part, why, key))


def value_of(image: Image, layout: Layout, place: Place) -> bytes:
    """The bytes of a value."""
    data = image.pages(place.page, layout.charge(place.length))
    return data[it.HEAD_BYTES : it.HEAD_BYTES + place.length]


def versions_named(image: Image) -> list[int]:
    """The versions of the layout that the Whole root pages name."""
    pages = (image.whole(page) for page in Layout(image.shape).root_pages)
    versions = (root_version(data) for data in pages if data is not None)
    return [version for version in versions if version is not None]


def unknown_versions(image: Image) -> set[int]:
    """The versions of the layout that Whole root pages name and this reader does not know."""
    return set(versions_named(image)) - set(it.RULES)


def is_of_one_version(image: Image) -> bool:
    """Whether several root pages agree on their version, so that it is not a damaged byte."""
    named = versions_named(image)
    return len(named) > 1 and len(set(named)) == 1


def read_flash(image: Image) -> Flash:
    """Reads a flash as opening does. `fault` has the first page that is wrong; without a root it has no `root`."""
    roots = roots_of(image)
    root = newest_of(roots)
    flash = Flash(roots, Layout(image.shape, root.version if root else min(it.RULES)), root)
    if root is None:
        return flash
    try:
        flash.older = read_older(image, flash.layout, root)
        flash.newest = read_epoch(image, flash.layout, "the newest", root.epoch, root.newest, len(flash.limits))
        for level in range(1, it.LEVELS + 1):
            flash.runs.append(read_run(image, flash.layout, root, level))
        flash.first = first_entries(flash)
        read_values(image, flash)
    except Damaged as damaged:
        flash.fault = damaged.fault
    return flash
