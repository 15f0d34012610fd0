"""export: all pairs of a drive as lines that `pink IMAGE asm` reads, or as lines of JSON."""

import argparse
import base64
import contextlib
import json
import sys
from collections.abc import Iterator
from typing import Any, BinaryIO, NamedTuple, Optional

from . import progress
from .files import NewFile, add_wait, refuse_existing
from .keys import key_argument
from .program import open_drive, pinkdrive

DESCRIPTION = """\
Writes each pair of the drive as a line, in rising order of the keys:

  asm    store KEY VALUE, both in hexadecimal ('-' is the empty value): pink IMAGE asm reads it
  json   {"key": "..", "value": ".."} if the bytes are UTF-8, else "key_hex" or "value_base64"

pinkctl import reads both and gives the same bytes again. A line of asm that begins with # counts
the pairs at the end, so that import notices a file that was cut off."""

HEAD = "# pinkctl export"
END = "# pinkctl end"


class Pair(NamedTuple):
    key: bytes
    value: bytes


def add_parser(subparsers: Any) -> None:
    parser = subparsers.add_parser(
        "export",
        help="write all keys and values as text",
        description=DESCRIPTION,
        formatter_class=argparse.RawDescriptionHelpFormatter,
    )
    parser.add_argument("image", metavar="IMAGE")
    parser.add_argument("--output", "-o", metavar="FILE", help="a file, which appears when all is written (default: standard output)")
    parser.add_argument("--force", "-f", action="store_true", help="replace the file if it exists")
    parser.add_argument("--format", choices=("asm", "json"), default="asm")
    parser.add_argument("--from", dest="start", metavar="KEY", help="only keys from this one on")
    parser.add_argument("--prefix", metavar="KEY", help="only keys that begin with this (text; hexadecimal after 0x)")
    parser.add_argument("--namespace", type=int, default=1, metavar="N", help="the namespace of the keys (default 1)")
    add_wait(parser)
    progress.add_arguments(parser)
    parser.set_defaults(run=run)


def asm_line(pair: Pair) -> bytes:
    return b"store %s %s\n" % (pair.key.hex().encode(), pair.value.hex().encode() or b"-")


def json_field(name: str, data: bytes) -> dict[str, str]:
    """Bytes as a field: the text if they are UTF-8."""
    with contextlib.suppress(UnicodeDecodeError):
        return {name: data.decode("utf-8")}
    if name == "key":
        return {"key_hex": data.hex()}
    return {"value_base64": base64.b64encode(data).decode("ascii")}


def json_line(pair: Pair) -> bytes:
    return json.dumps({**json_field("key", pair.key), **json_field("value", pair.value)}, ensure_ascii=False).encode() + b"\n"


LINES = {"asm": asm_line, "json": json_line}


def pairs_of(drive: pinkdrive.Drive, start: bytes, prefix: bytes) -> Iterator[Pair]:
    """The pairs from a key on, as long as their keys have the prefix."""
    for key, value in drive.items_from(max(start, prefix)):
        if not key.startswith(prefix):
            return
        yield Pair(key, value)


def write_pairs(drive: pinkdrive.Drive, args: argparse.Namespace, out: BinaryIO) -> int:
    """Writes the lines of the pairs that are asked for, and answers how many."""
    line_of = LINES[args.format]
    start = key_argument(args.start) if args.start else b""
    prefix = key_argument(args.prefix) if args.prefix else b""
    if args.format == "asm":
        out.write(f"{HEAD} of {args.image!r}\n".encode("utf-8", "backslashreplace"))
    total: Optional[int] = None if start or prefix else len(drive)
    with progress.Progress("export: pairs", total, progress.shown(args)) as shown:
        for pair in pairs_of(drive, start, prefix):
            out.write(line_of(pair))
            shown.add()
    if args.format == "asm":
        out.write(f"{END} {shown.count}\n".encode())
    return shown.count


def run(args: argparse.Namespace) -> int:
    if args.output:
        refuse_existing(args.output, args.force)
    with open_drive(args.image, wait=args.wait, namespace=args.namespace) as drive:
        if args.output is None:
            count = write_pairs(drive, args, sys.stdout.buffer)
        else:
            with NewFile(args.output, args.force) as new:
                count = write_pairs(drive, args, new.file)
                new.keep()
    progress.say(args, f"export: {count:,} pair{'s' * (count != 1)}")
    return 0
