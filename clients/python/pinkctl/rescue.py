"""What can be read of a damaged image: what remains of its index, and the values that the index names.

Whatever is given was stored once under its key: a value is taken only if its head has the key and
the length that the index names. Whether it is the last one stored is another matter; `why` says so.
"""

import dataclasses
import os
from collections.abc import Iterator, Sequence
from typing import NamedTuple, Optional

from . import layout as it
from .doubts import root_doubts
from .image import (
    Buffer,
    Damaged,
    Entry,
    Flash,
    Image,
    Key,
    NotAnImage,
    Place,
    Root,
    check_value,
    commit_in,
    is_place,
    key_of,
    load_image,
    load_shape,
    loose_entries,
    meta_in,
    newest_of,
    root_in,
    roots_of,
    value_of,
    with_spares,
)
from .layout import TORN, WHOLE, Layout, Shape, shape_fault
from .log import Log, LogFault, replayed

LOST_ROOT = "the newest root is lost: it may be older, or deleted since"
DAMAGED_INDEX = "its entry is in a damaged page of the index"
BELOW_GAP = "a newer part of the index is damaged: it may be older, or deleted since"
MISNAMED = "an entry of another key leads to a value of this key: it may be older"
UNFINISHED = "its commit is marked as not finished"
COPIES_DIFFER = "the two pages of its commit differ: it may be older, or deleted since"
OLDER = "the newest entry of the key leads to no value: this is an older one"
DAMAGED_VALUE = "a page of the value was changed: the value may be, too"
BROKEN_LOG = "a batch of the log is damaged, and those after it are lost: it may be older, or deleted since"
LEFT_OUT = "the log that is there does not fit the image: it may be older, or deleted since"
NO_INDEX = "it is in no readable page of the index: it may be older, or deleted since"
SAME_BYTES = 5
"""This many of the eight bytes of a page's text have to be right."""


class Candidate(NamedTuple):
    """An entry that may count, and why it is doubtful, if it is."""

    place: Optional[Place]
    why: Optional[str]


class Saved(NamedTuple):
    """A pair that reads: the place of its value, and why it is doubtful, if it is."""

    key: Key
    place: Place
    why: Optional[str]


@dataclasses.dataclass
class Rescue:
    """What reads of an image."""

    image: Image
    layout: Layout
    limits: tuple[int, ...] = ()
    saved: list[Saved] = dataclasses.field(default_factory=list)
    lost: list[Key] = dataclasses.field(default_factory=list)
    notes: list[str] = dataclasses.field(default_factory=list)

    def value(self, saved: Saved) -> bytes:
        return value_of(self.image, self.layout, saved.place)


# The file.


def shapes_of(size: int) -> Iterator[Shape]:
    """The allowed shapes of a file of a length."""
    for p in it.PAGE_BYTES:
        for n in it.BLOCK_PAGES:
            blocks, rest = divmod(size - it.HEADER_BYTES, n * (p + 1))
            shape = Shape(p, n, blocks)
            if not rest and blocks > 0 and shape_fault(shape) is None:
                yield shape


def shape_in(data: Buffer) -> Optional[Shape]:
    """The shape of a damaged file: the header's if it is allowed, else the one whose roots are in it."""
    if len(data) >= it.HEADER_BYTES:
        _, p, n, m, _ = it.IMAGE_HEADER.unpack_from(data)
        shape = Shape(p, n, m)
        if shape_fault(shape) is None and (shape.file_bytes == len(data) or roots_of(forced(data, shape))):
            return shape
    return next((shape for shape in shapes_of(len(data)) if roots_of(forced(data, shape))), None)


def forced(data: Buffer, shape: Shape) -> Image:
    """A file as an image of a shape: cut or filled to its length, states that are none as Torn."""
    whole = data[: shape.file_bytes].ljust(shape.file_bytes, b"\0")
    states = whole[it.HEADER_BYTES : it.HEADER_BYTES + shape.pages].translate(bytes((0, 1)) + bytes([TORN]) * 254)
    return with_spares(Image(shape, whole, file_states=states))


def image_of(data: Buffer) -> tuple[Optional[Image], Optional[str]]:
    """The image of a file, also of a damaged one, and what is wrong with the file."""
    try:
        return load_image(data), None
    except NotAnImage as wrong:
        shape = shape_in(data)
        return (forced(data, shape) if shape else None), str(wrong)


# The log.


class Logged(NamedTuple):
    """The bytes of an image with the steps of its log, what is to be said of the log, and why all keys are doubtful, if they are."""

    data: Buffer
    notes: list[str]
    why: Optional[str] = None


def with_log(data: bytes, log: Log) -> Logged:
    """An image with the steps of its log, up to the first batch that is not whole. If the head of the image is damaged, the log has it."""
    if not log.batches:
        return Logged(data, [])
    faults: list[Exception] = []
    for head in (data[: it.HEADER_BYTES], log.batches[0][: it.HEADER_BYTES]):
        whole = head + data[it.HEADER_BYTES :]
        try:
            shape = load_shape(whole, "the file")
            new = replayed(log, whole, shape, even_damaged=True)
        except (LogFault, NotAnImage) as wrong:
            faults.append(wrong)
            continue
        rest = f"; {log.rest:,} bytes of a batch that is not whole" if log.rest else ""
        is_damaged = log.broken or not log.has_all(shape)
        count = len(log.batches) - 1
        return Logged(new, [f"the log: {count} batch{'es' * (count != 1)}{rest}"], BROKEN_LOG if is_damaged else None)
    return Logged(data, [f"the log is left out: {faults[0]}"], LEFT_OUT)


# The root.


def repaired(image: Image, page: int, data: bytes) -> Optional[Root]:
    """The root of a page if only bytes are wrong that are the same in every root of the drive."""
    shape = image.shape
    for version, rules in it.RULES.items():
        fields = list(it.ROOT_HEAD.unpack_from(data))
        fields[:5] = it.ROOT_TEXT, version, shape.block_pages, shape.page_bytes, shape.blocks
        fields[13] = bytes(8)
        if not rules.has_limits:
            fields[6] = 0
        layout = Layout(shape, version)
        blocks = min(fields[5], 4) + sum(layout.run_blocks(min(count, 1 << 20)) for count in fields[9:13])
        end = layout.root_list_from + 2 * blocks
        head = it.ROOT_HEAD.pack(*fields)
        root = root_in(shape, page, (head + data[len(head) : end]).ljust(shape.page_bytes, b"\0")[: shape.page_bytes])
        if root:
            return root
    return None


def hidden_roots(image: Image, newest: int) -> list[Root]:
    """Roots that only padding or a mark hides, if the newest of them follows the newest valid one."""
    found = []
    for page in Layout(image.shape).root_pages:
        data = image.page(page)
        root = root_in(image.shape, page, data) or (repaired(image, page, data) if image.states[page] == WHOLE else None)
        if root and image.states[page] != TORN and (not newest or root.number == newest + 1):
            found.append(root)
    return found


def choose_root(image: Image) -> tuple[Optional[Root], bool]:
    """The root to read by, and whether it is surely the newest."""
    roots = roots_of(image)
    newest = newest_of(roots)
    hidden = newest_of(hidden_roots(image, newest.number if newest else 0))
    if hidden and (newest is None or hidden.number > newest.number):
        return hidden, newest is not None
    if newest is None:
        return None, False
    flash = Flash(roots, Layout(image.shape, newest.version), newest)
    return newest, all(doubt.code == "former-root-wrong" for doubt in root_doubts(image, flash))


# The index.


def has_text(data: bytes, text: bytes) -> bool:
    """Whether a page begins with a text, a few bytes of which may be wrong."""
    return sum(a == b for a, b in zip(data, text)) >= SAME_BYTES


class Gap(NamedTuple):
    """Keys of which an entry may be missing: those between two keys, or beyond one."""

    after: Optional[Key] = None
    before: Optional[Key] = None

    def covers(self, key: Key) -> bool:
        return (self.after is None or self.after < key) and (self.before is None or key < self.before)


@dataclasses.dataclass
class Index:
    """The entries of each key, those that count more first, and which parts of the index are missing."""

    candidates: dict[Key, list[Candidate]] = dataclasses.field(default_factory=dict)
    damaged: list[str] = dataclasses.field(default_factory=list)
    gaps: list[Gap] = dataclasses.field(default_factory=list)

    def add(self, entries: Sequence[Entry], why: Optional[str] = None) -> None:
        """Adds entries after all that were added before; in a gap above them an entry that counts more may be missing."""
        for key, place in entries:
            hidden = key not in self.candidates and any(gap.covers(key) for gap in self.gaps)
            self.candidates.setdefault(key, []).append(Candidate(place, why or (BELOW_GAP if hidden else None)))

    def named(self) -> dict[int, set[tuple[Key, Place]]]:
        """The keys and places that entries name, by the first page."""
        found: dict[int, set[tuple[Key, Place]]] = {}
        for key, candidates in self.candidates.items():
            for place, _ in candidates:
                if place:
                    found.setdefault(place.page, set()).add((key, place))
        return found


def whole_entries(layout: Layout, data: bytes, count: int) -> bool:
    """Whether a damaged page of the index still has all of its entries, which are this many."""
    end = it.HEAD_BYTES + count * it.ENTRY_BYTES
    return 1 <= count <= layout.page_entries and len(loose_entries(layout, data)) == count and not data[end:].strip(b"\0")


def commits_by_number(image: Image, layout: Layout, root: Optional[Root], index: Index) -> None:
    """Adds all commits that are not older than the root's epochs, wherever they are, the last one first."""
    oldest = root.epoch - bool(root.older) if root else 0
    found: dict[tuple[int, int], tuple[list[Entry], Optional[str]]] = {}
    for page in range(it.ROOT_BLOCKS * image.shape.block_pages, image.shape.pages):
        data = image.page(page)
        commit = commit_in(layout, data) if data.startswith(it.JOURNAL_TEXT) else None
        if commit is None or commit.epoch < oldest or (root is None and image.states[page] != WHOLE):
            continue
        why = None if image.states[page] == WHOLE else UNFINISHED
        key = commit.epoch, commit.place
        if key not in found or (found[key][1] and not why):
            found[key] = commit.entries, why
    for key in sorted(found, reverse=True):
        entries, why = found[key]
        index.add(entries[::-1], why)


def add_epoch(image: Image, layout: Layout, number: int, blocks: tuple[int, ...], index: Index) -> None:
    """Adds the commits of an epoch by their places, the last one first."""
    for place in reversed(range(layout.commits if blocks else 0)):
        pages = layout.commit_pages(blocks, place)
        good = [page for page in pages if is_commit(layout, image.page(page), number, place)]
        page = next((page for page in good if image.states[page] == WHOLE), good[0] if good else None)
        if len({image.page(page) for page in good}) > 1:
            add_copies(image, layout, good, f"commit {place + 1} of epoch {number}", index)
        elif page is not None:
            commit = commit_in(layout, image.page(page))
            index.add(commit.entries[::-1] if commit else [], None if image.states[page] == WHOLE else UNFINISHED)
        elif any(image.states[page] == WHOLE for page in pages):
            add_damaged_commit(image, layout, pages, f"commit {place + 1} of epoch {number}", index)


def is_commit(layout: Layout, data: bytes, number: int, place: int) -> bool:
    commit = commit_in(layout, data)
    return commit is not None and (commit.epoch, commit.place) == (number, place)


def add_copies(image: Image, layout: Layout, pages: Sequence[int], what: str, index: Index) -> None:
    """Adds the entries of the two pages of a commit that differ: those that only one page has are doubtful."""
    first, second = (commit.entries if (commit := commit_in(layout, image.page(page))) else [] for page in pages)
    index.damaged.append(f"page {pages[0]} or {pages[1]}, {what}")
    for entry, other in zip(first[::-1], second[::-1]):
        if entry == other:
            index.add([entry])
        else:
            index.add([entry, other], COPIES_DIFFER)


def add_damaged_commit(image: Image, layout: Layout, pages: Sequence[int], what: str, index: Index) -> None:
    """Adds the entries that remain of a commit whose page is damaged."""
    page = next(page for page in pages if image.states[page] == WHOLE)
    data = image.page(page)
    index.damaged.append(f"page {page}, {what}")
    if has_text(data, it.JOURNAL_TEXT):
        index.add(loose_entries(layout, data)[::-1], DAMAGED_INDEX)
    if not whole_entries(layout, data, it.JOURNAL_HEAD.unpack_from(data)[3]):
        index.gaps.append(Gap())


def add_run(image: Image, layout: Layout, root: Root, level: int, index: Index) -> None:
    """Adds the entries of the run of a level, page by page."""
    count, blocks = root.counts[level - 1], root.runs[level - 1]
    pages = [layout.run_page(blocks, place) for place in range(layout.run_pages(count))]
    metas = [run_page(image, layout, page, level, place) for place, page in enumerate(pages)]
    gaps = []
    for place, (page, entries) in enumerate(zip(pages, metas)):
        if entries is not None:
            index.add(entries, None if image.states[page] == WHOLE else DAMAGED_INDEX)
            continue
        data = image.page(page)
        index.damaged.append(f"page {page}, page {place} of run {level}")
        if has_text(data, it.META_TEXT):
            index.add(loose_entries(layout, data), DAMAGED_INDEX)
        if not whole_entries(layout, data, min(layout.page_entries, count - place * layout.page_entries)):
            before = next((entries[-1].key for entries in metas[:place][::-1] if entries), None)
            after = next((entries[0].key for entries in metas[place + 1 :] if entries), None)
            gaps.append(Gap(before, after))
    index.gaps += gaps


def run_page(image: Image, layout: Layout, page: int, level: int, place: int) -> Optional[list[Entry]]:
    """The entries of a page of a run, whatever its state is; None if it is not this page."""
    meta = meta_in(layout, image.page(page))
    return meta.entries if meta and (meta.level, meta.place) == (level, place) else None


def former_entries(image: Image, layout: Layout) -> Index:
    """The entries of all pages of the index that are on the flash, also of former ones: newer epochs first, then upper runs."""
    index = Index()
    commits_by_number(image, layout, None, index)
    pages = []
    for page in range(it.ROOT_BLOCKS * image.shape.block_pages, image.shape.pages):
        data = image.whole(page)
        meta = meta_in(layout, data) if data is not None and data.startswith(it.META_TEXT) else None
        if meta:
            pages.append((meta.level, page, meta.entries))
    for _, _, entries in sorted(pages, key=lambda it: it[:2]):
        index.add(entries, NO_INDEX)
    return index


# Values.


def reads_exactly(image: Image, layout: Layout, key: Key, place: Place) -> bool:
    try:
        check_value(image, layout, key, place, range(place.page, place.page + layout.charge(place.length)))
    except Damaged:
        return False
    return True


def reads_somehow(image: Image, place: Place, key: Key) -> bool:
    """Whether the head of a value has the key and the length, whatever its other bytes and the states of its pages are."""
    size, _, space, padded, length, _ = it.VALUE_HEAD.unpack_from(image.page(place.page))
    return key_of(size, space, padded) == key and length == place.length


def loose_values(image: Image, layout: Layout) -> dict[Key, list[Place]]:
    """All values that lie whole on the flash, by their keys, those of later pages first."""
    found: dict[Key, list[Place]] = {}
    for page in range(image.shape.pages - 1, it.ROOT_BLOCKS * image.shape.block_pages - 1, -1):
        if image.states[page] != WHOLE:
            continue
        size, _, space, padded, length, text = it.VALUE_HEAD.unpack_from(image.page(page))
        key = key_of(size, space, padded) if text == it.VALUE_TEXT else None
        if key and is_place(layout, page, length) and reads_exactly(image, layout, key, Place(page, length)):
            found.setdefault(key, []).append(Place(page, length))
    return found


def agreed_values(image: Image, layout: Layout, index: Index) -> dict[Key, list[Place]]:
    """The values on the flash, without those whose entry has another key or length than their head: such a head was changed."""
    named = index.named()
    found: dict[Key, list[Place]] = {}
    for key, places in loose_values(image, layout).items():
        agreed = [place for place in places if (key, place) in named.get(place.page, {(key, place)})]
        if agreed:
            found[key] = agreed
    return found


def decide(rescue: Rescue, key: Key, candidates: Sequence[Candidate], trusted: bool) -> Optional[Saved]:
    """The value of a key by its entries: that of the first entry that reads, up to a deletion."""
    for number, (place, why) in enumerate(candidates):
        if place is None and why == COPIES_DIFFER:
            continue
        if place is None:
            return None
        if reads_exactly(rescue.image, rescue.layout, key, place):
            return Saved(key, place, why if not number else OLDER)
        if not number and trusted and reads_somehow(rescue.image, place, key):
            return Saved(key, place, why or DAMAGED_VALUE)
    return None


def misnamed(rescue: Rescue, candidates: dict[Key, list[Candidate]]) -> set[Key]:
    """The keys of values to which the first entry of another key leads: that entry, or the head, was changed."""
    found = set()
    for key, ((place, _), *_) in candidates.items():
        if place:
            size, _, space, padded, length, text = it.VALUE_HEAD.unpack_from(rescue.image.page(place.page))
            other = key_of(size, space, padded)
            if other and other != key and (length, text) == (place.length, it.VALUE_TEXT):
                found.add(other)
    return found


def is_deleted(candidates: Sequence[Candidate]) -> bool:
    return candidates[0].place is None


def without_index(rescue: Rescue, keys: Sequence[Key], index: Index) -> None:
    """Looks for values of lost keys, and of keys that no entry names, by what former pages of the index say, and by the values alone."""
    image, layout = rescue.image, rescue.layout
    values = agreed_values(image, layout, index)
    former = former_entries(image, layout).candidates
    unnamed = [key for key in values if key not in index.candidates] if index.damaged else []
    for key in sorted({*keys, *unnamed}):
        agreed: Sequence[Optional[Place]] = values.get(key, ())
        places = [c.place for c in former.get(key, ()) if c.place in agreed] or agreed
        if places and places[0] is not None:
            rescue.saved.append(Saved(key, places[0], NO_INDEX))
        elif key in keys:
            rescue.lost.append(key)


def rescue_image(data: Buffer, log: Optional[Log] = None) -> Optional[Rescue]:
    """All that reads of a file and its log; None if it cannot be an image of any drive."""
    logged = with_log(data[:], log) if log else Logged(data, [])
    image, wrong = image_of(logged.data)
    if image is None:
        return None
    root, trusted = choose_root(image)
    rescue = Rescue(image, Layout(image.shape, root.version if root else min(it.RULES)), root.limits if root else ())
    rescue.notes += logged.notes + ([f"the file: {wrong}"] if wrong else [])
    index = index_of(rescue, root, trusted)
    lost = []
    doubtful = dict.fromkeys(misnamed(rescue, index.candidates), MISNAMED) if trusted else dict.fromkeys(index.candidates, LOST_ROOT)
    if logged.why:
        doubtful = {**dict.fromkeys(index.candidates, logged.why), **doubtful}
    for key in sorted(index.candidates):
        candidates = index.candidates[key]
        saved = decide(rescue, key, candidates, trusted)
        if saved:
            rescue.saved.append(saved._replace(why=saved.why or doubtful.get(key)))
        elif not is_deleted(candidates):
            lost.append(key)
    if lost or index.damaged:
        without_index(rescue, lost, index)
    rescue.saved.sort()
    return rescue


def index_of(rescue: Rescue, root: Optional[Root], trusted: bool) -> Index:
    """The entries to read by, with notes on what is missing of them."""
    image, layout = rescue.image, rescue.layout
    if root is None:
        index = former_entries(image, layout)
        index.damaged.append("all roots")
    else:
        index = Index()
        if trusted:
            add_epoch(image, layout, root.epoch, root.newest, index)
            add_epoch(image, layout, root.epoch - 1, root.older, index)
        else:
            index.damaged.append("the newest root")
            commits_by_number(image, layout, root, index)
        for level in range(1, it.LEVELS + 1):
            add_run(image, layout, root, level, index)
    rescue.notes += [f"damaged: {part}" for part in index.damaged]
    return index


def read_all(handle: int) -> bytes:
    """The bytes of an open file."""
    size = os.fstat(handle).st_size
    data = bytearray()
    while len(data) < size:
        part = os.pread(handle, size - len(data), len(data))
        if not part:
            break
        data += part
    return bytes(data)
