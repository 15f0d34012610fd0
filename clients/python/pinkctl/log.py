"""The write-ahead log beside an image, `IMAGE-wal`, read as the program reads it: docs/FORMATS.md, "The log of an image"."""

import dataclasses
import os
import stat
import struct
from collections.abc import Iterable, Iterator
from typing import NamedTuple, Optional

from . import layout as it
from .layout import ERASED, TORN, WHOLE, Shape
from .status import Exit, ToolError

SUFFIX = "-wal"
OPEN = 0x50
FIRST_BATCH = 16
BEGUN = 1
MOST_BATCH = 1 << 30
ERASES = 1 << 31
"""The bit of a step's number that says that it is a block, which is erased."""
BATCH_HEAD = struct.Struct("<BII")
"""1, the length of the batch, its count."""
STEP_HEAD = struct.Struct("<II")
"""The page or the block, the length of the page's front."""
ROW_OF_ZEROS = bytes(4096)
SAID = bytes((ERASED, WHOLE)) + bytes((TORN,)) * 254
"""The state that each state byte says."""


class LogFault(ToolError):
    """A log that is not put over its image, and why."""

    def __init__(self, why: str) -> None:
        super().__init__(why, Exit.DAMAGED)


class Step(NamedTuple):
    """A page with its front, after which it has zeros; or a block that is erased, without a front."""

    number: int
    front: Optional[bytes]

    def pages(self, shape: Shape) -> range:
        count = shape.block_pages if self.front is None else 1
        return range(self.number * count, self.number * count + count)


@dataclasses.dataclass(frozen=True)
class Log:
    """The whole batches of a log, the first of which is the record.

    `rest` is the number of bytes directly after the last one that are no whole batch; `broken` says that a whole batch follows them, as
    no crash leaves it. After a row of zeros there may be batches from before the log was emptied, which nobody reads.
    """

    path: str
    batches: list[bytes]
    rest: int = 0
    broken: bool = False

    def steps(self, shape: Shape, even_damaged: bool = False) -> Iterator[Step]:
        """The steps of the batches. Bytes that are no step are a fault, or else the end."""
        for batch in self.batches[1:]:
            at = 0
            while at < len(batch):
                step = step_at(shape, batch, at)
                if step is None and even_damaged:
                    return
                if step is None:
                    raise LogFault(f"{self.path} is damaged: a batch of it has bytes that are no step")
                yield step
                at += STEP_HEAD.size + len(step.front or b"")


    def has_all(self, shape: Shape) -> bool:
        """Whether all bytes of the batches are steps."""
        try:
            return all(True for _ in self.steps(shape))
        except LogFault:
            return False


def path_of(image: str) -> str:
    """Where the log of an image is: links are followed, so that names of one file that are links have one log."""
    return os.path.realpath(image) + SUFFIX


def batch_at(log: bytes, at: int) -> Optional[bytes]:
    """The bytes of the batch at a place; None if none is whole there. Its count is right only if no byte was lost to a zero."""
    if len(log) < at + BATCH_HEAD.size:
        return None
    begun, length, count = BATCH_HEAD.unpack_from(log, at)
    body = log[at + BATCH_HEAD.size : at + BATCH_HEAD.size + length]
    is_whole = begun == BEGUN and len(body) == length <= MOST_BATCH
    return body if is_whole and count == body.count(0) + 2 * (MOST_BATCH - length) else None


def log_in(data: bytes, path: str) -> Log:
    """The log of these bytes of a file."""
    if data[:1] != bytes((OPEN,)):
        return Log(path, [])
    batches, at = [], FIRST_BATCH
    while (body := batch_at(data, at)) is not None:
        batches.append(body)
        at += BATCH_HEAD.size + len(body)
    rest = len(data[at:].partition(ROW_OF_ZEROS)[0].rstrip(b"\0"))
    named = BATCH_HEAD.unpack_from(data, at)[1] if rest and len(data) >= at + BATCH_HEAD.size else 0
    return Log(path, batches, rest, bool(named) and batch_at(data, at + BATCH_HEAD.size + named) is not None)


def log_of(image: str, even_linked: bool = False) -> Optional[Log]:
    """The log of an image; None if there is none. The program takes none of a file that has two names."""
    path = path_of(image)
    try:
        with open(path, "rb") as file:
            if not even_linked:
                refuse_links(image, path)
            return log_in(file.read(), path)
    except FileNotFoundError:
        return None
    except OSError as error:
        raise LogFault(f"{path}, the log of {image}, cannot be read: {error.strerror}") from None


def refuse_links(image: str, path: str) -> None:
    """Raises if the log or its image has a second name, under which it would have another log, or none."""
    if not stat.S_ISREG(os.lstat(path).st_mode):
        raise LogFault(f"{path}, the log of {image}, is no file of its own")
    for name in (image, path):
        names = os.stat(name).st_nlink
        if names > 1:
            raise LogFault(f"{name} has {names} names (hard links), and an image with a log may have one: remove the others")


def step_at(shape: Shape, batch: bytes, at: int) -> Optional[Step]:
    """The step at a place of a batch; None if none is there."""
    if len(batch) < at + STEP_HEAD.size:
        return None
    number, length = STEP_HEAD.unpack_from(batch, at)
    front = batch[at + STEP_HEAD.size : at + STEP_HEAD.size + length]
    if number < shape.pages and len(front) == length <= shape.page_bytes:
        return Step(number, front)
    return Step(number - ERASES, None) if ERASES <= number < ERASES + shape.blocks and not length else None


def is_record_of(record: bytes, image: bytes, shape: Shape, steps: Iterable[Step]) -> bool:
    """Whether a record is of this image: it has its header and the states of its pages, but for those that steps set."""
    if len(record) != it.HEADER_BYTES + shape.pages // 4 or record[: it.HEADER_BYTES] != image[: it.HEADER_BYTES]:
        return False
    changed = {page for step in steps for page in step.pages(shape)}
    states = image[it.HEADER_BYTES : it.HEADER_BYTES + shape.pages].translate(SAID)
    recorded = (byte >> shift & 3 for byte in record[it.HEADER_BYTES :] for shift in (0, 2, 4, 6))
    return all(one == other or page in changed for page, (one, other) in enumerate(zip(recorded, states)))


def pieces(shape: Shape, steps: Iterable[Step]) -> Iterator[tuple[int, bytes]]:
    """What steps write into an image, one piece after another, each with its place."""
    for step in steps:
        state = ERASED if step.front is None else WHOLE
        yield it.HEADER_BYTES + step.pages(shape).start, bytes((state,)) * len(step.pages(shape))
        if step.front is not None:
            place = it.HEADER_BYTES + shape.pages + step.number * shape.page_bytes
            yield place, step.front.ljust(shape.page_bytes, b"\0")


def write_into(handle: int, log: Log, shape: Shape) -> None:
    """Writes the steps of a log into an open copy of its image."""
    for place, piece in pieces(shape, log.steps(shape)):
        if os.pread(handle, len(piece), place) != piece:
            os.pwrite(handle, piece, place)


def replayed(log: Log, image: bytes, shape: Shape, even_damaged: bool = False) -> bytes:
    """The bytes of an image of this shape with the steps of its log."""
    steps = list(log.steps(shape, even_damaged))
    if log.batches and not is_record_of(log.batches[0], image, shape, steps):
        raise LogFault(f"{log.path} is not the log of this image: move the log away if the image is the one that you want")
    new = bytearray(image)
    for place, piece in pieces(shape, steps):
        new[place : place + len(piece)] = piece
    return bytes(new)
