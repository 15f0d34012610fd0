#!/usr/bin/env python3
"""Writes the map of the crates: the groups and the order of crates.txt, with the first sentence of the header of each crate's root file.

  docs/crates.py            prints the map
  docs/crates.py --write    puts it into the page that has the line <!-- map -->, docs/CRATES.md or docs/ARCHITECTURE.md
  docs/crates.py --check    fails if that page has another one
  docs/crates.py --above    prints for each crate how many stand above it, which are proved again after a change of it, and their names
"""
from __future__ import annotations

import argparse
import pathlib
import re
import sys
from dataclasses import dataclass

TOP = pathlib.Path(__file__).resolve().parent.parent
PAGES = [TOP / "docs" / "CRATES.md", TOP / "docs" / "ARCHITECTURE.md"]
BEGIN, END = "<!-- map -->", "<!-- end of map -->"


@dataclass
class Crate:
    name: str
    needs: list[str]

    def promise(self) -> str:
        """The first sentence of the comment at the head of the crate's root file, up to a colon or a semicolon after three words."""
        root = next(p for f in ("lib", "main") if (p := TOP / "crates" / self.name / "src" / f"{f}.rt").exists())
        lines = []
        for line in root.read_text(encoding="utf-8").split("\n"):
            if not line.startswith("//!"):
                break
            lines.append(line[3:].strip())
        text = re.sub(r"\s+", " ", " ".join(lines)).strip()
        sentence = re.split(r"(?<=[.:]) (?=[A-Z`])", text)[0].rstrip(":")
        short = re.match(r"(\S+ \S+ \S+.*?)[:;] ", sentence)
        return f"{short.group(1)}." if short else sentence


@dataclass
class Group:
    title: str
    crates: list[Crate]


def groups() -> list[Group]:
    """The groups of crates.txt: a comment begins one, its crates follow."""
    found: list[Group] = []
    open_comment = False
    for line in (TOP / "crates.txt").read_text(encoding="utf-8").split("\n"):
        if line.startswith("#"):
            text = line.lstrip("# ").strip()
            if open_comment:
                found[-1].title += " " + text
            else:
                found.append(Group(text, []))
            open_comment = True
            continue
        open_comment = False
        match = re.match(r"(\w+)[^:]*: *(.*)", line)
        if match:
            found[-1].crates.append(Crate(match.group(1), match.group(2).split()))
    return [group for group in found if group.crates]


def text_of_map() -> str:
    out = []
    for group in groups():
        title, _, _ = group.title.partition(":")
        out.append(f"**{title.rstrip('.')}**\n")
        out += [f"- `{crate.name}`: {crate.promise()}" for crate in group.crates]
        out.append("")
    return "\n".join(out)


def text_of_above() -> str:
    crates = [crate for group in groups() for crate in group.crates]
    above: dict[str, set[str]] = {crate.name: set() for crate in crates}
    for crate in crates:  # each comes after those it needs
        for name, over in above.items():
            if name in crate.needs or over & set(crate.needs):
                over.add(crate.name)
    return "\n".join(f"{name} {len(over)}: {' '.join(c.name for c in crates if c.name in over)}" for name, over in above.items())


def page_of_map() -> pathlib.Path:
    for page in PAGES:
        if page.exists() and BEGIN in page.read_text(encoding="utf-8"):
            return page
    raise SystemExit(f"docs/crates.py: no page has the line {BEGIN}")


def main() -> int:
    parser = argparse.ArgumentParser(description=__doc__, formatter_class=argparse.RawDescriptionHelpFormatter)
    choice = parser.add_mutually_exclusive_group()
    choice.add_argument("--write", action="store_true", help="put the map into its page")
    choice.add_argument("--check", action="store_true", help="fail if its page has another map")
    choice.add_argument("--above", action="store_true", help="print the crates above each one")
    args = parser.parse_args()
    if args.above:
        print(text_of_above())
        return 0
    text = text_of_map()
    if not (args.write or args.check):
        print(text)
        return 0
    place = page_of_map()
    page = place.read_text(encoding="utf-8")
    before, _, rest = page.partition(BEGIN)
    new = f"{before}{BEGIN}\n\n{text}\n{END}{rest.partition(END)[2]}"
    if args.write:
        place.write_text(new, encoding="utf-8")
    elif new != page:
        print(f"{place.relative_to(TOP)}: its map is not the one that docs/crates.py --write makes", file=sys.stderr)
        return 1
    return 0


if __name__ == "__main__":
    sys.exit(main())
