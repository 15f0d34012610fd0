"""import: stores the pairs of an export, or of lines that `asm` reads, in a drive."""

import argparse
import base64
import binascii
import collections
import json
import os
import shutil
import sys
import tempfile
from collections.abc import Iterator
from typing import Any, BinaryIO, NamedTuple, Optional

from . import progress
from .export import END, HEAD, Pair
from .files import add_wait
from .keys import shown as shown_key
from .layout import KEY_BYTES, Layout, Shape, shape_fault
from .program import make_image, open_drive, pinkdrive, refusal
from .status import Exit, ToolError

DESCRIPTION = """\
Stores the pairs of an export in a drive: lines `store KEY VALUE` as asm reads them, or lines of
JSON, also mixed. Empty lines and lines that begin with # are skipped. If a line of a FILE is wrong,
nothing is made or stored, nor with --make if a line of standard input is wrong; without it the lines
of standard input before the wrong one are stored.

A key that exists with the same value is not changed, so an import that was interrupted can be
repeated. A key that exists with another value is not changed either, and counts as refused (status
9), unless --overwrite is given."""

LINE_BYTES = 2_200_000
"""The limit of a line of asm."""
WINDOW_PAIRS = 2000
WINDOW_BYTES = 8 << 20
"""This much is sent before the answers are read."""
REFUSALS_TOLD = 10
"""Refusals that are printed, the first ones; the others are counted."""
IF_ABSENT = 2
"""The option of a Store that is to be refused if the key exists."""


class LineError(ToolError):
    """A line outside the grammar."""

    def __init__(self, number: int, why: str) -> None:
        super().__init__(f"line {number}: {why}", Exit.LINE)


class Sent(NamedTuple):
    """A Store that was sent, with the line that it came from."""

    line: int
    pair: Pair
    pending: pinkdrive.Pending


def limits_of(words: str) -> list[int]:
    """The limits that numbers between commas are."""
    return [int(word) for word in words.split(",")]


def add_parser(subparsers: Any) -> None:
    parser = subparsers.add_parser(
        "import",
        help="store the pairs of an export",
        description=DESCRIPTION,
        formatter_class=argparse.RawDescriptionHelpFormatter,
    )
    parser.add_argument("image", metavar="IMAGE")
    parser.add_argument("input", metavar="FILE", nargs="?", default="-", help="the lines (default: standard input)")
    parser.add_argument("--overwrite", action="store_true", help="replace the values of keys that exist")
    parser.add_argument("--make", nargs=3, type=int, metavar=("P", "N", "M"), help="make the image first, as pink IMAGE make P N M")
    parser.add_argument("--limits", type=limits_of, default=[], metavar="L1,L2,..", help="with --make: the limits of namespaces in pages")
    parser.add_argument("--dry-run", "-n", action="store_true", help="read the lines, and store nothing")
    parser.add_argument("--namespace", type=int, default=1, metavar="N", help="the namespace of the keys (default 1)")
    add_wait(parser)
    progress.add_arguments(parser)
    parser.set_defaults(run=run)


# Lines.


def hex_bytes(number: int, what: str, digits: str) -> bytes:
    try:
        return binascii.unhexlify(digits)
    except ValueError:
        raise LineError(number, f"the {what} is no even count of hexadecimal digits") from None


def asm_pair(number: int, line: str) -> Pair:
    """The pair of a line of a script."""
    words = line.split(" ")
    if words[0] != "store":
        raise LineError(number, f"{words[0][:20]!r} is no store: an import takes pairs alone; pink IMAGE asm takes all commands")
    if len(words) != 3:
        raise LineError(number, "store KEY VALUE is needed, divided by single blanks")
    value = b"" if words[2] == "-" else hex_bytes(number, "value", words[2])
    return Pair(hex_bytes(number, "key", words[1]), value)


def json_bytes(number: int, fields: dict[str, Any], name: str) -> bytes:
    """The bytes of a field that may be text, hexadecimal or base64."""
    found = [(kind, fields[kind]) for kind in (name, f"{name}_hex", f"{name}_base64") if kind in fields]
    if len(found) != 1 or not isinstance(found[0][1], str):
        raise LineError(number, f"one of {name}, {name}_hex, {name}_base64 is needed, and has to be text")
    kind, text = found[0]
    try:
        if kind.endswith("_hex"):
            return bytes.fromhex(text)
        return base64.b64decode(text, validate=True) if kind.endswith("_base64") else text.encode("utf-8")
    except ValueError:
        raise LineError(number, f"{kind} cannot be read") from None


def json_pair(number: int, line: str) -> Pair:
    """The pair of a line of JSON."""
    try:
        fields = json.loads(line)
    except ValueError as error:
        raise LineError(number, f"no JSON: {error}") from None
    return Pair(json_bytes(number, fields, "key"), json_bytes(number, fields, "value"))


def pair_of(number: int, data: bytes) -> Optional[Pair]:
    """The pair of a line, None if it has none."""
    if len(data) > LINE_BYTES and not data.startswith(b"{"):
        raise LineError(number, f"it is longer than {LINE_BYTES:,} bytes")
    try:
        line = data.decode("utf-8").rstrip("\r\n")
    except UnicodeDecodeError:
        raise LineError(number, "it is no text") from None
    if not line or line.startswith("#"):
        return None
    pair = json_pair(number, line) if line.startswith("{") else asm_pair(number, line)
    if not 1 <= len(pair.key) <= KEY_BYTES:
        raise LineError(number, f"a key of {len(pair.key)} bytes: 1 to {KEY_BYTES} are allowed")
    return pair


def pairs_in(lines: BinaryIO) -> Iterator[tuple[int, Pair]]:
    """The pairs with the numbers of their lines. An export of pinkctl has to have its end."""
    whole, count, number = True, 0, 0
    for number, data in enumerate(lines, 1):
        if data.startswith(HEAD.encode()):
            whole = False
        elif data.startswith(END.encode()):
            whole = data.split()[-1] == str(count).encode()
        pair = pair_of(number, data)
        if pair:
            count += 1
            yield number, pair
    if not whole:
        raise LineError(number, f"the export is cut off, or lines are missing: it has {count:,} pairs and no matching last line")


# Storing.


class Import:
    """An import that runs: what was sent, and what came of it."""

    def __init__(self, drive: pinkdrive.Drive, overwrite: bool) -> None:
        self.drive = drive
        self.options = 0 if overwrite else IF_ABSENT
        self.sent: collections.deque[Sent] = collections.deque()
        self.bytes = 0
        self.counts: collections.Counter[str] = collections.Counter()
        self.refusals: list[str] = []
        self.status = Exit.OK

    def store(self, line: int, pair: Pair) -> None:
        pending = self.drive.send(pinkdrive.Opcode.STORE, pair.key, options=self.options, value=pair.value)
        self.sent.append(Sent(line, pair, pending))
        self.bytes += len(pair.value)
        if len(self.sent) >= WINDOW_PAIRS or self.bytes >= WINDOW_BYTES:
            self.settle()

    def settle(self) -> None:
        """Waits until all that was sent is on the flash, and looks at each answer."""
        self.drive.flush()
        while self.sent:
            self.settle_one(self.sent.popleft())
        self.bytes = 0

    def settle_one(self, sent: Sent) -> None:
        try:
            sent.pending.result()
            self.counts["stored"] += 1
        except pinkdrive.KeyExists:
            if self.drive.retrieve(sent.pair.key) == sent.pair.value:
                self.counts["there already"] += 1
            else:
                self.refuse(sent, "the key exists with another value", Exit.EXISTS)
        except pinkdrive.StatusError as error:
            self.refuse(sent, refusal(error), Exit.REFUSED)

    def refuse(self, sent: Sent, why: str, status: Exit) -> None:
        self.counts["refused"] += 1
        self.status = max(self.status, status)
        if len(self.refusals) < REFUSALS_TOLD:
            self.refusals.append(f"line {sent.line}: key {shown_key(sent.pair.key)}: {why}")


def open_lines(path: str, seekable: bool) -> BinaryIO:
    """The lines; those of standard input in a file without a name if they are to be read twice."""
    if path == "-" and seekable:
        kept = tempfile.TemporaryFile()
        shutil.copyfileobj(sys.stdin.buffer, kept)
        kept.seek(0)
        return kept
    if path == "-":
        return sys.stdin.buffer
    try:
        return open(path, "rb")
    except OSError as error:
        raise ToolError(f"{path}: {error.strerror}", Exit.INPUT) from None


def rehearse(args: argparse.Namespace, lines: BinaryIO) -> Optional[int]:
    """Reads all lines of a file before anything is stored; answers how many pairs it has."""
    if args.input == "-" and not args.dry_run and not args.make:
        return None
    with progress.Progress("import: lines read", None, progress.shown(args)) as shown:
        for _ in pairs_in(lines):
            shown.add()
    if not args.dry_run:
        lines.seek(0)
    return shown.count


def make_first(args: argparse.Namespace) -> None:
    shape = Shape(*args.make)
    fault = shape_fault(shape) or pinkdrive.limits_fault(pinkdrive.Shape(*args.make), args.limits)
    if fault:
        raise ToolError(f"--make: {fault}", Exit.USAGE)
    make_image(args.image, args.make, args.limits)
    progress.say(args, f"import: made {args.image}, for values of at most {Layout(shape).greatest:,} bytes, {Layout(shape).limit:,} pages")


def store_all(args: argparse.Namespace, lines: BinaryIO, total: Optional[int]) -> Import:
    with open_drive(args.image, wait=args.wait, namespace=args.namespace) as drive:
        running = Import(drive, args.overwrite)
        with progress.Progress("import: pairs", total, progress.shown(args)) as shown:
            try:
                for number, pair in pairs_in(lines):
                    running.store(number, pair)
                    shown.add()
            finally:
                running.settle()
    return running


def run(args: argparse.Namespace) -> int:
    lines = open_lines(args.input, seekable=bool(args.make))
    total = rehearse(args, lines)
    if args.dry_run:
        print(f"{total:,} pairs")
        return Exit.OK
    if not args.make and not os.path.exists(args.image):
        raise ToolError(f"there is no file {args.image}; --make P N M makes a drive", Exit.DAMAGED)
    if args.make:
        make_first(args)
    running = store_all(args, lines, total)
    for line in running.refusals:
        print(f"import: {line}", file=sys.stderr)
    others = running.counts["refused"] - len(running.refusals)
    if others:
        print(f"import: {others:,} more were refused", file=sys.stderr)
    counts = ", ".join(f"{running.counts[name]:,} {name}" for name in ("stored", "there already", "refused"))
    progress.say(args, f"import: {counts}")
    return running.status
