"""shapes: which shapes hold a number of values of a length, and what a shape holds and takes."""

import argparse
import itertools
from collections.abc import Iterator
from typing import Any, NamedTuple

from .layout import BLOCK_PAGES, HEAD_BYTES, MOST_BLOCKS, MOST_FLASH_BYTES, PAGE_BYTES, Layout, Shape, shape_fault
from .status import Exit, ToolError

DESCRIPTION = """\
Prints the smallest images that hold COUNT values of BYTES bytes, smallest first, for `pink IMAGE
make P N M`. A value takes whole pairs of pages with a head of 32 bytes. With --shape it prints what
a shape holds, and the memory of its drive."""

GREATEST_VALUE = max(BLOCK_PAGES) // 4 * max(PAGE_BYTES) - HEAD_BYTES
"""The most bytes of a value, of any shape."""

FRAMES = (0, 36, 520)
"""The frames of which the memory is told: none, those of the words, and those of docs/SPEED.md."""


def add_parser(subparsers: Any) -> None:
    parser = subparsers.add_parser(
        "shapes", help="choose a shape for make", description=DESCRIPTION, formatter_class=argparse.RawDescriptionHelpFormatter
    )
    parser.add_argument("--values", type=int, metavar="COUNT", help="how many values")
    parser.add_argument("--bytes", type=int, metavar="BYTES", help="the length of each")
    parser.add_argument("--shape", type=int, nargs=3, metavar=("P", "N", "M"))
    parser.add_argument("--most", type=int, default=5, metavar="LINES", help="print at most this many lines (default 5)")
    parser.set_defaults(run=run)


class Fit(NamedTuple):
    """A shape, by the size of its image first."""

    file_bytes: int
    shape: Shape
    values: int


def held(layout: Layout, length: int) -> int:
    """How many values of a length fit."""
    return layout.limit // layout.charge(length) if length <= layout.greatest else 0


def least_blocks(page_bytes: int, block_pages: int, count: int, length: int) -> Iterator[Fit]:
    """The shape of these pages and blocks with the fewest blocks that holds the values, if there is one."""
    low, high = 1, MOST_BLOCKS + 1
    while low < high:
        middle = (low + high) // 2
        layout = Layout(Shape(page_bytes, block_pages, middle))
        if middle >= 9 + layout.meta_blocks and held(layout, length) >= count:
            high = middle
        else:
            low = middle + 1
    shape = Shape(page_bytes, block_pages, low)
    if low <= MOST_BLOCKS and shape_fault(shape) is None:
        yield Fit(shape.file_bytes, shape, held(Layout(shape), length))


def fits(count: int, length: int) -> list[Fit]:
    """The smallest shape of each page size and block size that holds the values, smallest first."""
    return sorted(fit for p in PAGE_BYTES for n in BLOCK_PAGES for fit in least_blocks(p, n, count, length))


def most_values(length: int) -> Fit:
    """The shape that holds the most values of a length."""
    shapes = (Shape(p, n, m) for p in PAGE_BYTES for n in BLOCK_PAGES for m in most_blocks(p, n))
    return max((Fit(it.file_bytes, it, held(Layout(it), length)) for it in shapes), key=lambda fit: (fit.values, -fit.file_bytes))


def most_blocks(page_bytes: int, block_pages: int) -> Iterator[int]:
    """The greatest number of blocks that these pages and blocks allow, if there is one."""
    most = min(MOST_BLOCKS, MOST_FLASH_BYTES // (page_bytes * block_pages))
    allowed = (m for m in range(most, 0, -1) if shape_fault(Shape(page_bytes, block_pages, m)) is None)
    yield from itertools.islice(allowed, 1)


def too_many(count: int, length: int) -> str:
    """Which limit keeps a drive from holding so many values of a length."""
    if length > GREATEST_VALUE:
        return f"a value has at most {GREATEST_VALUE:,} bytes, not {length:,}"
    best = most_values(length)
    return (
        f"at most {best.values:,} values of {length:,} bytes fit a drive (make {best.shape}), not {count:,}: "
        f"use several drives, each key on the one that a hash of it names, or put several records into a value"
    )


def run(args: argparse.Namespace) -> int:
    if args.shape:
        return tell_shape(Shape(*args.shape))
    if not args.values or args.values < 1 or args.bytes is None or args.bytes < 0:
        raise ToolError("--values COUNT and --bytes BYTES are needed, or --shape P N M", Exit.USAGE)
    found = fits(args.values, args.bytes)
    if not found:
        raise ToolError(too_many(args.values, args.bytes), Exit.MISSING)
    for fit in found[: args.most]:
        layout = Layout(fit.shape)
        print(f"make {fit.shape}  ({fit.file_bytes:,} bytes; {fit.values:,} such values; values of at most {layout.greatest:,} bytes)")
    return Exit.OK


def tell_shape(shape: Shape) -> int:
    fault = shape_fault(shape)
    if fault:
        raise ToolError(fault, Exit.USAGE)
    layout = Layout(shape)
    print(f"image: {shape.file_bytes:,} bytes")
    print(f"values: at most {layout.greatest:,} bytes each, {layout.limit:,} pages of {shape.page_bytes:,} bytes together")
    for length in (100, 1000, 10_000, 100_000, layout.greatest):
        if length <= layout.greatest:
            print(f"  values of {length:,} bytes: {held(layout, length):,}")
    print("memory of the drive; and of the program that serves it, without the bytes of written pages:")
    for frames in FRAMES:
        print(f"  {frames} frames: {layout.memory(frames):,} bytes; {layout.program_memory(frames):,}")
    return Exit.OK
