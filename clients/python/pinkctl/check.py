"""check: whether an image is whole, what is wrong with it if not, and what it holds."""

import argparse
import dataclasses
import json
import os
from typing import Any, BinaryIO, Optional

from . import layout as it
from .causes import Cause, Kind, fault_text, flash_cause, root_cause
from .doubts import Doubt, doubts_of
from .files import add_wait, locked
from .image import Fault, Flash, Image, Key, NotAnImage, open_image, read_flash
from .keys import shown
from .log import Log, LogFault
from .program import dump_verdict
from .status import Exit, ToolError

DESCRIPTION = """\
Reads an image as opening does, byte for byte and without the program, and looks for traces of lost
changes. The first line is the verdict:

  whole      it opens, and nothing points to a lost change                    (status 0)
  doubtful   it opens, but changes may be lost: an older map may have opened  (status 10)
  refused    it does not open: the first page that is wrong, and its key      (status 8)
  no drive   it is no image, or no page of it is a root                       (status 8)
  unknown    its layout has a version that pinkctl does not know              (status 13)

An image that has a log beside it (IMAGE-wal) is read with the steps of the log.

There is no checksum in an image. A changed byte inside a value is not found; nor is one that makes
a deletion delete another key of the drive, or an entry lead to a former value of its key.
If pinkdump is built its verdict is compared (status 14 if they differ). Nothing is written."""


@dataclasses.dataclass
class Verdict:
    """What check found."""

    name: str
    status: Exit
    text: str
    fault: Optional[Fault] = None
    at: Optional[int] = None
    doubts: list[Doubt] = dataclasses.field(default_factory=list)
    image: Optional[Image] = None
    flash: Optional[Flash] = None
    compared: str = "no"
    unmade: bool = False
    is_log: bool = False
    """It is the log that does not fit the image."""


def add_parser(subparsers: Any) -> None:
    parser = subparsers.add_parser(
        "check",
        help="report whether an image is whole, and what it holds",
        description=DESCRIPTION,
        formatter_class=argparse.RawDescriptionHelpFormatter,
    )
    parser.add_argument("image", metavar="IMAGE")
    parser.add_argument("--json", action="store_true", help="print one object of JSON")
    add_wait(parser)
    parser.add_argument("--no-compare", action="store_true", help="do not run pinkdump")
    parser.set_defaults(run=run)


def run(args: argparse.Namespace) -> int:
    verdict = check_file(args.image, args.wait)
    if not args.no_compare:
        compare(args.image, verdict)
    size, on_disk = sizes_of(args.image)
    if args.json:
        print(json.dumps(as_json(args.image, verdict, size, on_disk), indent=2, ensure_ascii=False))
    else:
        print("\n".join(as_text(args.image, verdict, size, on_disk)))
    return verdict.status


def check_file(path: str, wait: float = 0) -> Verdict:
    """The verdict about the image of this path."""
    try:
        with locked(path, wait) as file:
            return check_open(file)
    except ToolError as error:
        if error.status != Exit.DAMAGED:
            raise
        return Verdict("no drive", Exit.DAMAGED, str(error))


def check_open(file: BinaryIO) -> Verdict:
    """The verdict about an open image."""
    try:
        image = open_image(file)
    except NotAnImage as wrong:
        # Of an empty file the program says that there is no image.
        at = wrong.at if os.fstat(file.fileno()).st_size else None
        place = "" if at is None else f" (byte {at})"
        return Verdict("no drive", Exit.DAMAGED, f"{wrong}{place}", at=at, unmade=wrong.unmade)
    except LogFault as fault:
        return Verdict("refused", Exit.DAMAGED, str(fault), is_log=True)
    return judge(image, read_flash(image), file.name)


def judge(image: Image, flash: Flash, name: str) -> Verdict:
    """The verdict about an image that was read."""
    doubts = doubts_of(image, flash)
    found: dict[str, Any] = {"image": image, "flash": flash, "doubts": doubts}
    cause = root_cause(image, name)
    if cause:
        return judge_without_root(image, cause, found)
    if flash.fault:
        return Verdict("refused", Exit.DAMAGED, fault_text(flash.fault), fault=flash.fault, **found)
    keys = counted(len(flash.map), "key")
    if doubts:
        return Verdict("doubtful", Exit.DOUBTFUL, f"it opens with {keys}, but {doubts[0].text}", **found)
    return Verdict("whole", Exit.OK, f"{keys}, {len(flash.taken):,} of {sum(flash.limits):,} pages for values", **found)


def judge_without_root(image: Image, cause: Cause, found: dict[str, Any]) -> Verdict:
    if cause.kind == Kind.VERSION:
        return Verdict("unknown", Exit.VERSION, cause.text, **found)
    return Verdict("no drive", Exit.DAMAGED, cause.text, unmade=cause.kind == Kind.UNMADE, **found)


def counted(count: int, what: str, ending: str = "s") -> str:
    return f"{count:,} {what}" + ending * (count != 1)


# The program's verdict.


def expected(verdict: Verdict) -> Optional[str]:
    """What pinkdump says last if it agrees; None if the two are not compared."""
    if verdict.at is not None:
        return f"pinkdump: no image: the first wrong byte is at {verdict.at}"
    if verdict.flash is None or verdict.name == "unknown":
        return None
    if verdict.flash.root is None:
        return "no-root"
    if verdict.fault:
        return f"fails page={verdict.fault.page}"
    return f"map keys={len(verdict.flash.map)}"


def compare(path: str, verdict: Verdict) -> None:
    """Compares with pinkdump; a difference is a verdict of its own."""
    line = expected(verdict)
    if line is None:
        return
    told_line = dump_verdict(path, verdict.image.spares if verdict.image else 0)
    if told_line is None:
        verdict.compared = "no: pinkdump is not built"
    elif told_line.status not in (0, 8):
        cause = flash_cause(path) if told_line.status == 6 else None
        verdict.compared = f"no: pinkdump ended with status {told_line.status}" + (f", {cause.text}" if cause else "")
    elif told_line.line == line:
        verdict.compared = "yes"
    else:
        verdict.compared = f"they differ: pinkdump says {told_line.line!r}"
        verdict.text += f"; but pinkdump says {told_line.line!r}"
        verdict.status = Exit.DISAGREES


# What is printed of the drive.


def sizes_of(path: str) -> tuple[int, int]:
    """The length of a file, and the bytes that it takes on the disk."""
    try:
        found = os.stat(path)
    except OSError:
        return 0, 0
    return found.st_size, found.st_blocks * 512


def limits_of(flash: Flash) -> dict[str, int]:
    layout = flash.layout
    return {
        "key_bytes": it.KEY_BYTES,
        "value_bytes": layout.greatest,
        "value_pages": sum(flash.limits),
        "page_bytes": layout.shape.page_bytes,
        "block_pages": layout.shape.block_pages,
        "blocks": layout.shape.blocks,
    }


def spares_json(image: Image) -> dict[str, Any]:
    """The spare blocks, and the block of the drive that each used one has."""
    table = image.table
    return {"spares": image.spares, "used": list(table.used) if table else []}


def use_of(image: Image, flash: Flash) -> dict[str, int]:
    """What the drive holds, as far as it was read."""
    assert flash.root is not None
    n = image.shape.block_pages
    value_bytes = sum(place.length for place in flash.map.values())
    return {
        "keys": len(flash.map),
        "value_pages": len(flash.taken),
        "value_bytes": value_bytes,
        "value_blocks": len({page // n for page in flash.taken}),
        "index_blocks": len(flash.root.named),
        "root": flash.root.number,
        "root_page": flash.root.page,
        "version": flash.root.version,
        "epoch": flash.root.epoch,
        "pages_written": image.states.count(it.WHOLE),
        "pages_torn": image.states.count(it.TORN),
    }


def as_text(path: str, verdict: Verdict, size: int, on_disk: int) -> list[str]:
    """The lines for people, the verdict first."""
    lines = [f"{verdict.name}: {verdict.text}"]
    lines += [f"  {'and' if n else 'because'}: {doubt.text}" for n, doubt in enumerate(doubts_told(verdict))]
    if verdict.unmade:
        lines.append(f"  it never held a key: remove {path}, and make it again")
    elif verdict.status in (Exit.DAMAGED, Exit.DOUBTFUL) and (verdict.flash or verdict.is_log):
        lines.append(f"  to copy what reads into a new image: pinkctl salvage {path} NEW")
    flash = verdict.flash
    if flash:
        limits = limits_of(flash)
        lines.append(
            f"limits: keys of 1 to {limits['key_bytes']} bytes, values of at most {limits['value_bytes']:,} bytes, "
            f"{limits['value_pages']:,} pages of {limits['page_bytes']:,} bytes for values "
            f"(shape {flash.layout.shape}{spares_text(verdict.image)})"
        )
    if flash and flash.root and verdict.image:
        lines += use_text(use_of(verdict.image, flash), flash)
    if verdict.image and verdict.image.log:
        lines.append(f"log: {log_text(verdict.image, verdict.image.log)}")
    if size:
        lines.append(f"sizes: the file has {size:,} bytes, of which {on_disk:,} are taken on the disk")
    lines.append(f"compared with pinkdump: {verdict.compared}")
    return lines


def spares_text(image: Optional[Image]) -> str:
    """The spare blocks of a drive that has some."""
    if image is None or image.table is None:
        return ""
    return f", with {counted(image.spares, 'spare block')}, {len(image.table.used)} of them used"


def log_use(image: Image, log: Log) -> dict[str, int]:
    """What a log has: its batches, without the record, what they do, and the bytes after them."""
    steps = list(log.steps(image.file_shape))
    programs = sum(step.front is not None for step in steps)
    return {"batches": max(0, len(log.batches) - 1), "programs": programs, "erases": len(steps) - programs, "rest": log.rest}


def log_text(image: Image, log: Log) -> str:
    use = log_use(image, log)
    text = f"{counted(use['batches'], 'batch', 'es')}, of {counted(use['programs'], 'page')} and {counted(use['erases'], 'erase')}"
    if use["rest"]:
        text += f"; {counted(use['rest'], 'byte')} of a batch that is not whole"
    return f"{text}; the next session brings them into the image, which is older by itself" if use["batches"] else text


def doubts_told(verdict: Verdict) -> list[Doubt]:
    """The doubts that are not in the first line."""
    return verdict.doubts[1:] if verdict.name == "doubtful" else verdict.doubts


def use_text(use: dict[str, int], flash: Flash) -> list[str]:
    percent = 100 * use["value_pages"] // sum(flash.limits)
    part = "" if flash.opens else ", as far as it was read"
    return [
        f"use: {counted(use['keys'], 'key')}, values of {use['value_bytes']:,} bytes in {counted(use['value_pages'], 'page')} "
        f"({percent} % of the limit) and {counted(use['value_blocks'], 'block')}{part}",
        *spaces_text(flash),
        f"layout: version {use['version']}, root {use['root']} in page {use['root_page']}, epoch {use['epoch']}, "
        f"{counted(use['index_blocks'], 'block')} of the index, {counted(use['pages_written'], 'page')} written, {use['pages_torn']} torn",
    ]


def spaces_of(flash: Flash) -> list[dict[str, int]]:
    """What each namespace holds, as far as it was read."""
    return [
        {"namespace": space, "limit": limit, "value_pages": flash.pages_of(space), "keys": sum(key.space == space for key in flash.map)}
        for space, limit in enumerate(flash.limits, 1)
    ]


def spaces_text(flash: Flash) -> list[str]:
    """A line for each namespace of a drive that has limits."""
    if not flash.root or not flash.root.limits:
        return []
    return [
        f"namespace {held['namespace']}: {counted(held['keys'], 'key')}, {held['value_pages']:,} of {held['limit']:,} pages for values"
        for held in spaces_of(flash)
    ]


def key_json(key: Optional[Key]) -> Optional[dict[str, Any]]:
    return None if key is None else {"namespace": key.space, "hex": key.bytes.hex(), "text": shown(key.bytes)}


def as_json(path: str, verdict: Verdict, size: int, on_disk: int) -> dict[str, Any]:
    """All that was found, for programs."""
    flash, fault = verdict.flash, verdict.fault
    found: dict[str, Any] = {
        "image": path,
        "verdict": verdict.name,
        "status": int(verdict.status),
        "text": verdict.text,
        "compared": verdict.compared,
        "doubts": [dataclasses.asdict(doubt) for doubt in verdict.doubts],
        "sizes": {"file_bytes": size, "disk_bytes": on_disk},
    }
    if verdict.at is not None:
        found["first_wrong_byte"] = verdict.at
    if fault:
        keys = [key_json(key) for key in fault.keys]
        found["fault"] = {"page": fault.page, "part": fault.part, "why": fault.why, "key": key_json(fault.key), "keys": keys}
    if flash:
        found["limits"] = limits_of(flash)
    if verdict.image:
        found["spare_blocks"] = spares_json(verdict.image)
    if verdict.image and verdict.image.log:
        found["log"] = log_use(verdict.image, verdict.image.log)
    if flash and flash.root and verdict.image:
        found["use"] = use_of(verdict.image, flash)
        found["namespaces"] = spaces_of(flash)
    return found
