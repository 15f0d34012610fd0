"""salvage: what can be read of a damaged image, into a new one."""

import argparse
import collections
import json
import os
from typing import Any, Optional, TextIO

from . import progress
from .causes import Kind, root_cause
from .check import check_file, counted
from .files import add_wait, file_error, locked
from .image import Image, Key, is_of_one_version
from .keys import shown, shown_in
from .layout import Layout, Shape, shape_fault
from .log import log_of
from .program import make_image, open_drive, pinkdrive
from .rescue import Rescue, Saved, read_all, rescue_image
from .status import Exit, ToolError

DESCRIPTION = """\
Copies what can be read of a damaged image into a new one. The damaged image is only read.

Each value that is copied was stored once under its key, for its head has the key and the length;
there is no checksum, so a changed byte inside a value is copied. If a part of the index is lost,
deleted keys and older values may come back: such keys are counted as doubtful, with the reason, and
--list names each. Keys that have an entry but no value any more are counted as lost. Of keys whose
entry and value are both gone nothing is known, and they are not counted. Of a log beside the image
(IMAGE-wal) the batches count up to the first that is not whole.

The status is 0 if nothing is doubtful or lost, 10 if something is, 8 if nothing reads."""


def add_parser(subparsers: Any) -> None:
    parser = subparsers.add_parser(
        "salvage", help="copy what can be read of a damaged image", description=DESCRIPTION, formatter_class=argparse.RawDescriptionHelpFormatter
    )
    parser.add_argument("image", metavar="IMAGE")
    parser.add_argument("new", metavar="NEW", help="the image to make; it must not exist")
    add_wait(parser)
    parser.add_argument("--shape", type=int, nargs=3, metavar=("P", "N", "M"), help="the shape of NEW (default: that of IMAGE)")
    parser.add_argument("--sure-only", action="store_true", help="leave out what is doubtful")
    parser.add_argument("--list", metavar="FILE", help="write a line of JSON for each key that is doubtful, lost or refused")
    parser.add_argument("--dry-run", "-n", action="store_true", help="only count; NEW is not made")
    progress.add_arguments(parser)
    parser.set_defaults(run=run)


def read_image(path: str, wait: float) -> Rescue:
    """All that can be read of an image."""
    with locked(path, wait) as file:
        rescue = rescue_image(read_all(file.fileno()), log_of(path, even_linked=True))
    if rescue is None:
        raise ToolError(f"{path}: no shape of a drive fits this file: nothing can be read of it", Exit.DAMAGED)
    refuse_version(rescue.image, path)
    return rescue


def refuse_version(image: Image, path: str) -> None:
    """Raises if the image has another version of the format: what is no damage is not repaired."""
    cause = root_cause(image, path)
    if cause and cause.kind == Kind.VERSION and is_of_one_version(image):
        raise ToolError(f"{cause.text}; nothing was copied", Exit.VERSION)


def in_order(rescue: Rescue, sure_only: bool) -> list[Saved]:
    """What is to be copied: what is sure first."""
    sure = [saved for saved in rescue.saved if saved.why is None]
    return sure if sure_only else sure + [saved for saved in rescue.saved if saved.why]


def limits_for(shape: Shape, rescue: Rescue, wanted: list[Saved]) -> tuple[int, ...]:
    """The limits of the new drive: those of the damaged one, if the new one has room; else equal ones, for as many namespaces."""
    spaces = max([saved.key.space for saved in wanted] + [len(rescue.limits)])
    all_pages = Layout(shape).limit
    if sum(rescue.limits) <= all_pages and len(rescue.limits) == spaces:
        return rescue.limits
    return (all_pages // spaces,) * spaces if spaces > 1 else ()


def store_all(args: argparse.Namespace, rescue: Rescue, wanted: list[Saved]) -> dict[Key, str]:
    """Stores the pairs in the new image; answers the keys that were refused, and why."""
    shape = Shape(*args.shape) if args.shape else rescue.image.shape
    make_image(args.new, (shape.page_bytes, shape.block_pages, shape.blocks), limits_for(shape, rescue, wanted))
    refused: dict[Key, str] = {}
    with open_drive(args.new) as drive, progress.Progress("salvage: pairs", len(wanted), progress.shown(args)) as bar:
        for first in range(0, len(wanted), 500):
            part = wanted[first : first + 500]
            sent = [
                drive.send(pinkdrive.Opcode.STORE, saved.key.bytes, value=rescue.value(saved), namespace=saved.key.space)
                for saved in part
            ]
            drive.flush()
            for pending in sent:
                try:
                    pending.result()
                except pinkdrive.StatusError as error:
                    refused[Key(pending.namespace, pending.key)] = str(error)
                bar.add()
    return refused


def list_keys(file: TextIO, rescue: Rescue, refused: dict[Key, str]) -> None:
    """A line of JSON for each key that is doubtful, lost or was refused."""
    lines = [(saved.key, "doubtful", saved.why) for saved in rescue.saved if saved.why]
    lines += [(key, "lost", "its value does not read") for key in rescue.lost]
    lines += [(key, "refused", why) for key, why in refused.items()]
    for key, what, why in sorted(lines):
        line = {"namespace": key.space, "key_hex": key.bytes.hex(), "key": shown(key.bytes), "is": what, "why": why}
        print(json.dumps(line, ensure_ascii=False), file=file)


def report(args: argparse.Namespace, rescue: Rescue, copied: int, refused: dict[Key, str]) -> None:
    """What was found, for people."""
    doubtful = collections.Counter(saved.why for saved in rescue.saved if saved.why)
    sure = len(rescue.saved) - sum(doubtful.values())
    for note in rescue.notes[:20]:
        print(note)
    if len(rescue.notes) > 20:
        print(f"and {len(rescue.notes) - 20} more places")
    print(f"read: {counted(len(rescue.saved), 'key')}: {sure:,} sure, {len(rescue.saved) - sure:,} doubtful; {len(rescue.lost):,} lost")
    for why, count in doubtful.most_common():
        print(f"  {count:,} doubtful: {why}")
    for key in rescue.lost[:10]:
        print(f"  lost: {shown_in(*key)}")
    if refused:
        key = min(refused)
        print(f"refused by the new drive: {len(refused):,}, such as {shown_in(*key)}: {refused[key]}; take a larger --shape")
    if not args.dry_run:
        print(f"{args.new}: {counted(copied, 'key')}")


def verify(args: argparse.Namespace, rescue: Rescue, stored: list[Saved]) -> None:
    """Compares the new image with what was stored, by the reader."""
    verdict = check_file(args.new)
    if verdict.status != Exit.OK or verdict.flash is None or verdict.image is None:
        raise ToolError(f"{args.new} is {verdict.name}: {verdict.text}", verdict.status)
    places = {key: place.length for key, place in verdict.flash.map.items()}
    if places != {saved.key: saved.place.length for saved in stored}:
        raise ToolError(f"{args.new} does not hold what was stored in it", Exit.DISAGREES)


def check_arguments(args: argparse.Namespace) -> None:
    fault = shape_fault(Shape(*args.shape)) if args.shape else None
    if fault:
        raise ToolError(f"--shape: {fault}", Exit.USAGE)
    if os.path.lexists(args.new) and not args.dry_run:
        raise ToolError(f"{args.new}: it exists, and salvage replaces nothing", Exit.EXISTS)
    folder = os.path.dirname(os.path.abspath(args.new))
    if not os.path.isdir(folder):
        raise ToolError(f"{args.new}: there is no folder {folder}", Exit.FILE)


def write_list(path: Optional[str], rescue: Rescue, refused: dict[Key, str]) -> None:
    if path is None:
        return
    try:
        with open(path, "w", encoding="utf-8") as file:
            list_keys(file, rescue, refused)
    except OSError as error:
        raise file_error(path, error) from None


def run(args: argparse.Namespace) -> int:
    check_arguments(args)
    rescue = read_image(args.image, args.wait)
    wanted = in_order(rescue, args.sure_only)
    if not wanted:
        report(args, rescue, 0, {})
        raise ToolError(f"{args.image}: no key reads", Exit.DAMAGED)
    refused = {} if args.dry_run else store_all(args, rescue, wanted)
    stored = [saved for saved in wanted if saved.key not in refused]
    if not args.dry_run:
        verify(args, rescue, stored)
    write_list(args.list, rescue, refused)
    report(args, rescue, len(stored), refused)
    doubtful = refused or rescue.lost or any(saved.why for saved in rescue.saved)
    return Exit.DOUBTFUL if doubtful else Exit.OK
