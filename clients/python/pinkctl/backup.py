"""backup: a copy of an image that opens, taken while no program has the image open."""

import argparse
import dataclasses
import os
import stat
from collections.abc import Iterator
from typing import Any, BinaryIO

from . import progress
from .check import Verdict, check_open, counted, judge
from .files import NewFile, add_wait, file_error, locked, refuse_existing
from .log import path_of, write_into
from .mv import clear_log, refuse_log
from .status import Exit, ToolError

DESCRIPTION = """\
Copies an image while no program has it open; a copy of an image in use (cp) mostly does not open. The copy
is sparse as the image is, synced to the disk, compared with the image byte for byte, checked as
`pinkctl check` does, and gets its name when all of this is done. If the image has a log beside it
(IMAGE-wal), the copy is the image with the steps of the log: a backup is always one file. Other
readers may go on; `pink` on this image ends with 6 meanwhile. To restore, copy the copy:
pinkctl backup COPY IMAGE."""

CHUNK_BYTES = 1 << 20


def add_parser(subparsers: Any) -> None:
    parser = subparsers.add_parser(
        "backup", help="copy an image safely", description=DESCRIPTION, formatter_class=argparse.RawDescriptionHelpFormatter
    )
    parser.add_argument("image", metavar="IMAGE")
    parser.add_argument("copy", metavar="COPY", help="the new file; for a folder, a file of the same name in it")
    add_wait(parser)
    parser.add_argument("--force", "-f", action="store_true", help="replace COPY if it exists")
    parser.add_argument("--even-damaged", action="store_true", help="copy an image that check does not call whole, too")
    progress.add_arguments(parser)
    parser.set_defaults(run=run)


def extents(file: BinaryIO, size: int) -> Iterator[tuple[int, int]]:
    """The parts of a file that are not holes, each with its length, at most a chunk."""
    handle, at = file.fileno(), 0
    while at < size:
        try:
            at = os.lseek(handle, at, os.SEEK_DATA)
        except OSError:
            return  # there is nothing but a hole up to the end
        end = os.lseek(handle, at, os.SEEK_HOLE)
        while at < end:
            length = min(CHUNK_BYTES, end - at)
            yield at, length
            at += length


def read_at(file: BinaryIO, at: int, length: int) -> bytes:
    """This many bytes of a file from an offset on."""
    data = bytearray()
    while len(data) < length:
        part = os.pread(file.fileno(), length - len(data), at + len(data))
        if not part:
            raise ToolError(f"{file.name}: it became shorter while it was read", Exit.FILE)
        data += part
    return bytes(data)


def write_at(file: BinaryIO, at: int, data: bytes) -> None:
    while data:
        done = os.pwrite(file.fileno(), data, at)
        at, data = at + done, data[done:]


def copy_sparse(source: BinaryIO, into: BinaryIO, size: int, shown: progress.Progress) -> None:
    """Copies what is no hole and no chunk of zeros."""
    os.ftruncate(into.fileno(), size)
    for at, length in extents(source, size):
        data = read_at(source, at, length)
        if data.strip(b"\0"):
            write_at(into, at, data)
        shown.add(length)


def first_difference(one: BinaryIO, other: BinaryIO, size: int) -> bool:
    """Whether two files, which should have this length, differ."""
    if any(os.fstat(file.fileno()).st_size != size for file in (one, other)):
        return True
    return any(
        read_at(one, at, length) != read_at(other, at, length)
        for file in (one, other)
        for at, length in extents(file, size)
    )


def refuse_damaged(path: str, verdict: Verdict, even_damaged: bool) -> None:
    """Raises if the image is not whole, unless a copy of it was asked for all the same."""
    if verdict.status == Exit.OK or even_damaged:
        return
    raise ToolError(f"{path} is {verdict.name}: {verdict.text}; nothing was copied (--even-damaged copies it)", verdict.status)


def without_log(verdict: Verdict, name: str) -> Verdict:
    """What check says of an image once the steps of its log are in it."""
    if verdict.image is None or verdict.flash is None:
        return verdict
    return judge(dataclasses.replace(verdict.image, log=None), verdict.flash, name)


def copy_image(args: argparse.Namespace, source: BinaryIO, target: str) -> Verdict:
    """Copies an open image with the steps of its log; answers the verdict about the copy, which is that about the image."""
    found = os.fstat(source.fileno())
    verdict = check_open(source)
    refuse_damaged(args.image, verdict, args.even_damaged and not verdict.is_log)
    log = verdict.image.log if verdict.image else None
    with NewFile(target, args.force) as new:
        with progress.Progress("backup: bytes", found.st_blocks * 512, progress.shown(args)) as shown:
            copy_sparse(source, new.file, found.st_size, shown)
        new.sync()
        if first_difference(source, new.file, found.st_size):
            raise ToolError(f"{target}: the copy differs from the image", Exit.FILE)
        if log and verdict.image:
            write_into(new.file.fileno(), log, verdict.image.file_shape)
        again, wanted = check_open(new.file), without_log(verdict, new.file.name)
        if (again.status, again.text) != (wanted.status, wanted.text):
            raise ToolError(f"{target}: the copy is {again.name}: {again.text}", Exit.DISAGREES)
        clear_log(target)
        new.keep(stat.S_IMODE(found.st_mode))
    return verdict


def run(args: argparse.Namespace) -> int:
    target = args.copy
    if os.path.isdir(target):
        target = os.path.join(target, os.path.basename(args.image))
    if os.path.exists(target) and os.path.exists(args.image) and os.path.samefile(target, args.image):
        raise ToolError(f"{target}: it is the image itself", Exit.USAGE)
    refuse_existing(target, args.force)
    refuse_log(target, args.force)
    try:
        with locked(args.image, args.wait) as source:
            verdict = copy_image(args, source, target)
    except OSError as error:
        raise file_error(target, error) from None
    found = os.stat(target)
    size, on_disk = counted(found.st_size, "byte"), found.st_blocks * 512
    progress.say(args, f"backup: {target}: {verdict.name}, {size}, of which {on_disk:,} are taken on the disk{log_told(verdict)}")
    if verdict.image is None and os.path.exists(path_of(args.image)):
        progress.say(args, f"backup: {path_of(args.image)}, the log of the image, is not in the copy")
    return verdict.status


def log_told(verdict: Verdict) -> str:
    """That the steps of a log are in the copy."""
    batches = len(verdict.image.log.batches) - 1 if verdict.image and verdict.image.log else 0
    return f", with the {counted(batches, 'batch', 'es')} of its log" if batches > 0 else ""
