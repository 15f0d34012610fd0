#!/usr/bin/env python3
"""Lists the wrong bodies of the repository. docs/wrong-bodies.txt says of each edit what its body does: a line `CRATE NAME: ..`, which goes
on "a body that".

  docs/wrong_bodies.py            prints all: who tries it (the gate, or bench/wrong.sh by hand), its crate, its name, what it does
  docs/wrong_bodies.py --write    puts the names of those that the gate tries into docs/WRONG-BODIES.md, by their crates
  docs/wrong_bodies.py --check    fails if that list is another one, an edit has no line, or a line no edit
"""
from __future__ import annotations

import argparse
import pathlib
import sys
import textwrap
from dataclasses import dataclass

TOP = pathlib.Path(__file__).resolve().parent.parent
PAGE = TOP / "docs" / "WRONG-BODIES.md"
LINES = TOP / "docs" / "wrong-bodies.txt"
BEGIN, END = "<!-- gate -->", "<!-- end of gate -->"


@dataclass
class Edit:
    by: str
    crate: str
    name: str
    body: str


def order() -> dict[str, int]:
    """The place of each crate in crates.txt."""
    lines = (TOP / "crates.txt").read_text(encoding="utf-8").split("\n")
    return {line.split(":")[0].split()[0]: place for place, line in enumerate(lines) if line[:1].isalpha()}


def bodies() -> dict[tuple[str, str], str]:
    """What each wrong body does, by its crate and name."""
    found = {}
    for line in LINES.read_text(encoding="utf-8").split("\n"):
        place, _, body = line.partition(": ")
        if body:
            crate, name = place.split(" ")
            found[crate, name] = body
    return found


def edits() -> list[Edit]:
    found, said = [], bodies()
    for by, pattern in (("gate", "crates/*/must-fail/*.edit"), ("hand", "bench/wrong-bodies/*/*.edit")):
        for path in TOP.glob(pattern):
            crate = path.parent.parent.name if by == "gate" else path.parent.name
            found.append(Edit(by, crate, path.stem, said.pop((crate, path.stem), "")))
    found += [Edit("nobody", crate, name, body) for (crate, name), body in said.items()]
    places = order()
    return sorted(found, key=lambda edit: (edit.by, places.get(edit.crate, 0), edit.name))


def names(found: list[Edit]) -> str:
    """An item for each crate: the crate and its edits."""
    crates: dict[str, list[str]] = {}
    for edit in found:
        if edit.by == "gate":
            crates.setdefault(edit.crate, []).append(f"`{edit.name}`")
    items = [textwrap.fill(f"- `{crate}`: {', '.join(edits)}", 100, subsequent_indent="  ") for crate, edits in crates.items()]
    return "\n".join(items) + "\n"


def main() -> int:
    parser = argparse.ArgumentParser(description=__doc__, formatter_class=argparse.RawDescriptionHelpFormatter)
    choice = parser.add_mutually_exclusive_group()
    choice.add_argument("--write", action="store_true", help="put the names into docs/WRONG-BODIES.md")
    choice.add_argument("--check", action="store_true", help="fail if docs/WRONG-BODIES.md has other names")
    args = parser.parse_args()
    found = edits()
    if not (args.write or args.check):
        print("\n".join(f"{edit.by} {edit.crate} {edit.name}: {edit.body}" for edit in found))
        return 0
    page = PAGE.read_text(encoding="utf-8")
    before, _, rest = page.partition(BEGIN)
    new = f"{before}{BEGIN}\n\n{names(found)}\n{END}{rest.partition(END)[2]}"
    if args.write:
        PAGE.write_text(new, encoding="utf-8")
        return 0
    faults = [f"docs/wrong-bodies.txt: nothing says what the wrong body {edit.name} of {edit.crate} does" for edit in found if not edit.body]
    faults += [f"docs/wrong-bodies.txt: {edit.crate} has no wrong body {edit.name}" for edit in found if edit.by == "nobody"]
    if new != page:
        faults.append("docs/WRONG-BODIES.md: its list is not the one that docs/wrong_bodies.py --write makes")
    print("\n".join(faults), end="\n" if faults else "", file=sys.stderr)
    return 1 if faults else 0


if __name__ == "__main__":
    sys.exit(main())
