#!/usr/bin/env python3
"""Shows what each cut of the power leaves of one Store, from the lines of the program pinkcut: as text, or as one page with pictures.

    crates/pinkcut/out/pinkcut | docs/cuts.py
    crates/pinkcut/out/pinkcut | docs/cuts.py -o cut.html

It ends with 1 if a cut opens with another value than the drive's rule allows: the old or the new one before the answer, the new one
from the answer on.
"""

import argparse
import html
import sys
from typing import NamedTuple

FORMATS = {"root": "root", "commit": "commit of the journal", "value": "value", "data": "rest of the value's pair"}
WAYS = {
    "old": "nothing of it is done",
    "torn": "its page or block is torn",
    "whole": "it is done",
    "by-turns": "its pages are unchanged, erased or torn by turns",
    "old-even-torn": "nothing of it is done, and the first page of its pair is torn",
    "torn-even-torn": "both pages of its pair are torn",
    "whole-even-torn": "it is done, and the first page of its pair is torn",
}
LETTERS = {"erased": ".", "whole": "#", "torn": "x"}
COLOURS = {"erased": "#ffffff", "torn": "#e41a1c"}
WHOLE = {"root": "#7b3294", "commit": "#d95f02", "value": "#1b7837", "data": "#a6dba0"}


class Cut(NamedTuple):
    """A cut: the way in which it left the call of its mark, the states of the pages, and what opened."""

    way: str
    states: dict
    status: int
    answer: str


class Mark(NamedTuple):
    """A call of the Store that changes the flash or answers the host, and what its cuts left."""

    kind: str
    fields: dict
    cuts: list


class Table(NamedTuple):
    """All that pinkcut printed: the values, the formats of the pages, the marks."""

    drive: dict
    pages: dict
    marks: list


def fields_of(words):
    return dict(word.split("=", 1) for word in words)


def read(lines):
    """The lines as a table."""
    table = Table({}, {}, [])
    for line in lines:
        name, *words = line.rstrip("\n").split(" ")
        if name == "drive":
            table.drive.update(fields_of(words))
        elif name == "page":
            table.pages[int(words[0])] = fields_of(words[1:])["format"]
        elif name == "mark":
            table.marks.append(Mark(words[1], fields_of(words[2:]), []))
        elif name == "cut":
            head, tail = line.split(" status=", 1)
            status, answer = tail.rstrip("\n").split(" answer=", 1)
            states = {int(page): state for page, state in fields_of(head.split(" ")[3:]).items()}
            table.marks[int(words[0])].cuts.append(Cut(words[1], states, int(status), answer))
    return table


def as_text(digits):
    """Bytes in hexadecimal as text, if they are some."""
    return bytes.fromhex(digits).decode("ascii", "replace")


def opened(table, cut):
    """What opened after a cut, in words, and whether it is the old value, the new one, or neither."""
    value = cut.answer.removeprefix("ok ")
    for kind in ("old", "new"):
        if cut.status == 0 and cut.answer == f"ok {table.drive[kind]}":
            return f"{as_text(value)}, the {kind} value", kind
    return f"status {cut.status}, {cut.answer or 'no answer'}", "neither"


def call(table, mark):
    """What the call of a mark does, in words."""
    if mark.kind == "erase":
        return f"block {mark.fields['block']} is erased"
    if mark.kind == "program":
        page = int(mark.fields["page"])
        place = "second" if page % 2 else "first"
        return f"page {page} is programmed, the {place} of its pair: {FORMATS[mark.fields['format']]}"
    return "the host is answered: the Store is done" if mark.kind == "post" else "the session has ended"


def left_by(mark, cut):
    """How far the call of a mark came that a cut broke off, in words."""
    if mark.kind == "post":
        return "the answer goes out, whole or in part"
    return WAYS[cut.way] if mark.kind != "end" else "nothing was under way"


def answered_from(table):
    """The number of the mark that answers the host."""
    return next(number for number, mark in enumerate(table.marks) if mark.kind == "post")


def faults(table):
    """The cuts that open with what they may not."""
    first = answered_from(table)
    for number, mark in enumerate(table.marks):
        for cut in mark.cuts:
            kind = opened(table, cut)[1]
            if kind == "neither" or (kind == "old" and number >= first):
                yield f"mark {number}, {cut.way}: {opened(table, cut)[0]}"


def summary(table):
    """How many cuts there are, and with what they open."""
    kinds = [opened(table, cut)[1] for mark in table.marks for cut in mark.cuts]
    counts = ", ".join(f"{kinds.count(kind)} with the {kind} value" for kind in ("old", "new"))
    wrong = len(list(faults(table)))
    tail = "none lost what was answered, or opened with anything else" if not wrong else f"{wrong} OPENED WITH WHAT THEY MAY NOT"
    return f"{len(kinds)} cuts: {counts} open; {tail}"


def introduction(table):
    old, new = (as_text(table.drive[kind]) for kind in ("old", "new"))
    return f"A drive has {old} under the key {as_text(table.drive['key'])}. A session stores {new} there, and the power fails in it."


def text(table):
    """The lines for people."""
    yield introduction(table)
    yield ""
    yield "pages: # whole, . erased, x torn"
    for page, format in table.pages.items():
        yield f"  {page:>4}  {FORMATS[format]}"
    for number, mark in enumerate(table.marks):
        yield ""
        yield f"{number}. {call(table, mark)}"
        for cut in mark.cuts:
            letters = "".join(LETTERS[cut.states[page]] + (" " if page % 2 else "") for page in table.pages)
            yield f"   {letters} {left_by(mark, cut):<62} {opened(table, cut)[0]}"
    yield ""
    yield summary(table)


STYLE = """
body { font: 14px sans-serif; margin: 2em; max-width: 76em }
h2 { font-size: 15px; margin: 1.2em 0 0.3em }
table { border-collapse: collapse }
td, th { padding: 2px 8px; text-align: left; font-weight: normal; vertical-align: middle }
th { color: #555 }
.old { color: #08519c } .new { color: #1b7837 } .neither { color: #e41a1c; font-weight: bold }
"""
CELL, GAP, HEIGHT = 16, 8, 18


def places(table):
    """The left edge of each page's cell: pairs stand together."""
    left, found = 0, {}
    for page in table.pages:
        found[page] = left
        left += CELL + (GAP if page % 2 else 0)
    return found


def picture(table, states, changed=()):
    """The pages as cells; those that the call names have a thick edge."""
    parts = []
    for page, left in places(table).items():
        state = states[page]
        colour = WHOLE[table.pages[page]] if state == "whole" else COLOURS[state]
        edge = 'stroke="#000" stroke-width="2.5"' if page in changed else 'stroke="#999"'
        title = f"page {page}: {FORMATS[table.pages[page]]}, {state}"
        parts.append(f'<rect x="{left + 2}" y="2" width="{CELL - 3}" height="{HEIGHT - 4}" fill="{colour}" {edge}><title>{title}</title></rect>')
        if state == "torn":
            parts.append(f'<path d="M{left + 4} 4l{CELL - 7} {HEIGHT - 8}m0 -{HEIGHT - 8}l-{CELL - 7} {HEIGHT - 8}" stroke="#fff"/>')
    width = CELL * len(table.pages) + GAP * (len(table.pages) // 2)
    return f'<svg width="{width}" height="{HEIGHT}">{"".join(parts)}</svg>'


def changed_by(table, mark):
    """The pages that the call of a mark changes."""
    if mark.kind == "program":
        return {int(mark.fields["page"])}
    return set()


def legend(table):
    cells = [(colour, FORMATS[format]) for format, colour in WHOLE.items()] + [(COLOURS["erased"], "erased"), (COLOURS["torn"], "torn")]
    shown = "".join(f'<svg width="16" height="12"><rect x="1" y="1" width="12" height="10" fill="{colour}" stroke="#999"/></svg> {name} &nbsp; ' for colour, name in cells)
    return f"<p>{shown}</p>"


def rows(table, mark):
    """A row for each cut of a mark."""
    for cut in mark.cuts:
        words, kind = opened(table, cut)
        told = html.escape(left_by(mark, cut))
        yield f"<tr><td>{picture(table, cut.states, changed_by(table, mark))}</td><td>{told}</td><td class={kind}>{html.escape(words)}</td></tr>"


def page(table):
    """The page with pictures."""
    yield f'<!DOCTYPE html><html lang="en"><meta charset="utf-8"><title>Cuts of a Store</title><style>{STYLE}</style>'
    yield f"<h1>Cuts of a Store</h1><p>{html.escape(introduction(table))}"
    yield " Each row is one cut: the pages that it left, how far the call came, and what the program then found under the key."
    yield " A cell is a page, two cells a pair; the page that the call programs has a thick edge.</p>"
    yield legend(table)
    for number, mark in enumerate(table.marks):
        yield f"<h2>{number}. {html.escape(call(table, mark))}</h2><table>"
        yield from rows(table, mark)
        yield "</table>"
    yield f"<p><b>{html.escape(summary(table))}</b></p></html>"


def main():
    parser = argparse.ArgumentParser(description="Shows what each cut of the power leaves of one Store, from the lines of pinkcut.")
    parser.add_argument("-o", "--output", metavar="FILE", help="write a page with pictures to this file, too")
    args = parser.parse_args()
    table = read(sys.stdin)
    if not table.marks:
        sys.exit("cuts.py: the input has no lines of pinkcut")
    print("\n".join(text(table)))
    if args.output:
        with open(args.output, "w", encoding="utf-8") as file:
            file.write("\n".join(page(table)) + "\n")
    return 1 if any(faults(table)) else 0


if __name__ == "__main__":
    sys.exit(main())
