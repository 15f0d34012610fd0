#!/usr/bin/env python3
"""Draws the picture of a drive as an SVG, from the lines of `pinkdump IMAGE lines`: a page a cell, a block a row.

    ./pinkdump drive.img lines | docs/picture.py > drive.svg
    ./pinkdump drive.img lines | docs/picture.py -o drive.svg     writes no file if there is no picture
"""

import argparse
import html
import itertools
import sys

COLOURS = {
    "R": ("#7b3294", "a root"),
    "J": ("#d95f02", "the newest epoch of the journal"),
    "j": ("#fdae6b", "the older epoch"),
    "1": ("#08306b", "run 1"),
    "2": ("#2171b5", "run 2"),
    "3": ("#6baed6", "run 3"),
    "4": ("#c6dbef", "run 4"),
    "V": ("#1b7837", "a live value"),
    "v": ("#d9d9d9", "a dead page"),
    "?": ("#969696", "whole; whether it lives is not known"),
    ".": ("#ffffff", "erased"),
    "x": ("#e41a1c", "torn"),
}
CELL, LABEL, TOP = 14, 150, 58
EDGE = "#bdbdbd"


def items(lines):
    """The lines as pairs of a name and its fields."""
    for line in lines:
        words = line.split()
        if words:
            yield words[0], dict(word.split("=", 1) for word in words[1:])


def ending(name, fields):
    """How reading the flash ends, in a few words."""
    if name == "map":
        return f"{fields['keys']} keys"
    if name == "no-root":
        return "no root"
    return f"reading fails at page {fields['page']}"


def use(fields):
    """What a namespace uses, in a few words."""
    return f"namespace {fields['number']}: {fields['keys']} keys in {fields['live']} of {fields['limit']} pages"


def read(lines):
    """The heading, a line for each namespace if there are several, the blocks as pairs of a label and letters, and the page at which
    reading fails."""
    heading, spaces, blocks, failing, moved = "", [], [], None, {}
    for name, fields in items(lines):
        if name == "image":
            shape = fields["blocks"], fields["block_pages"], fields["page_bytes"]
            heading = "{} blocks of {} pages of {} bytes".format(*shape)
        elif name == "space":
            spaces.append(use(fields))
        elif name == "block":
            blocks.append((f"{fields['number']} {fields['use'].replace('-', ' ')}", fields["pages"]))
        elif name in ("map", "no-root", "fails"):
            heading += ": " + ending(name, fields)
            failing = int(fields["page"]) if name == "fails" else None
        elif name == "spares":
            heading += f", {fields['left']} of {fields['all']} spare blocks left"
        elif name == "table":
            heading += f", table {fields['number']} at page {fields['page']}"
        elif name == "spare":
            moved[fields["serves"]] = fields["number"]
    rows = [(with_spare(label, moved), letters) for label, letters in blocks]
    return heading, spaces if len(spaces) > 1 else [], rows, failing


def with_spare(label, moved):
    """The label of a block, with the spare block that it moved to, if it did."""
    spare = moved.get(label.split()[0])
    return label if spare is None else f"{label}, in spare {spare}"


def is_empty(label, letters):
    return set(letters) == {"."} and label.split()[1] in ("free", "unknown")


def folded(blocks, failing):
    """The blocks, with a row for each stretch of three or more erased ones that no root names, without the one at which reading fails."""
    rows, at = [], 0
    while at < len(blocks):
        end = at
        while end < len(blocks) and is_empty(*blocks[end]) and end != failing:
            end += 1
        if end - at > 2:
            first, last = blocks[at][0].split()[0], blocks[end - 1][0].split()[0]
            rows.append((None, f"{first} to {last} erased", ""))
            at = end
        else:
            rows.append((at, *blocks[at]))
            at += 1
    return rows


def text(x, y, words, size=11):
    return f'<text x="{x}" y="{y}" font-size="{size}">{html.escape(words)}</text>'


def cells(x, y, letter, count, title):
    """Equal cells side by side: one line with gaps."""
    colour, meaning = COLOURS[letter]
    return f'<path d="M{x} {y + CELL // 2 - 1}h{count * CELL - 2}" stroke="{colour}"><title>{title}: {meaning}</title></path>'


def row(y, letters, first):
    """The cells of a block, whose first page has this number, on a grey ground that shows as their edges."""
    ground = f'<rect x="{LABEL - 1}" y="{y - 1}" width="{len(letters) * CELL}" height="{CELL}" fill="{EDGE}"/>'
    parts, at = [ground], 0
    for letter, same in itertools.groupby(letters):
        count = len(list(same))
        pages = f"page {first + at}" if count == 1 else f"pages {first + at} to {first + at + count - 1}"
        parts.append(cells(LABEL + at * CELL, y, letter, count, pages))
        at += count
    return parts


def frame(x, y):
    """The edge of the page at which reading fails."""
    size = CELL - 2
    return f'<rect x="{x}" y="{y}" width="{size}" height="{size}" fill="none" stroke="#000000" stroke-width="3"/>'


def drawn(heading, spaces, blocks, failing):
    """The picture as text."""
    pages = max(len(letters) for _, letters in blocks)
    words, parts, frames, y = [text(10, 20, heading, 14), text(10, 40, "a row is a block, a cell a page")], [], [], TOP
    for line in spaces:
        words.append(text(10, y - 4, line))
        y += CELL + 2
    for number, label, letters in folded(blocks, None if failing is None else failing // pages):
        words.append(text(10, y + CELL - 4, label))
        if letters:
            parts += row(y, letters, number * pages)
        if failing is not None and letters and failing // pages == number:
            frames.append(frame(LABEL + failing % pages * CELL, y))
        y += CELL
    y += CELL
    for letter in COLOURS:
        if any(letter in letters for _, letters in blocks):
            parts += [f'<rect x="9" y="{y - 1}" width="{CELL}" height="{CELL}" fill="{EDGE}"/>', cells(10, y, letter, 1, "legend")]
            words.append(text(30, y + CELL - 4, COLOURS[letter][1]))
            y += CELL + 4
    width = max(LABEL + pages * CELL + 10, 9 * len(heading) + 20, *(7 * len(line) + 20 for line in spaces))
    head = f'<svg xmlns="http://www.w3.org/2000/svg" width="{width}" height="{y + 10}" font-family="sans-serif">'
    group = f'<g stroke-width="{CELL - 2}" stroke-dasharray="{CELL - 2} 2">'
    return "\n".join([head, '<rect width="100%" height="100%" fill="#ffffff"/>', *words, group, *parts, "</g>", *frames, "</svg>"])


def main():
    parser = argparse.ArgumentParser(description=__doc__, formatter_class=argparse.RawDescriptionHelpFormatter)
    parser.add_argument("-o", metavar="FILE", help="the file of the picture (standard output)")
    chosen = parser.parse_args()
    heading, spaces, blocks, failing = read(sys.stdin)
    if not blocks:
        sys.exit("picture.py: no line of a block; it reads what `pinkdump IMAGE lines` prints")
    picture = drawn(heading, spaces, blocks, failing)
    if chosen.o:
        with open(chosen.o, "w") as file:
            print(picture, file=file)
    else:
        print(picture)


if __name__ == "__main__":
    main()
