#!/usr/bin/env python3
"""Lists the definitions that a claim names, directly or through other definitions, in an order in which they can be read.

  docs/definitions.py [CLAIM..]  prints the lists of these claims, of all by default; each list leaves out what the lists before it have
  docs/definitions.py --write    puts the number of lines and files of each claim into docs/DEFINITIONS.md
  docs/definitions.py --check    fails if docs/DEFINITIONS.md has other numbers, or a list lacks a definition that a listed text names

A claim is given by its number. A definition is an item of a file crates/*/specs/*.antt with the comment above it. A name in its text
is followed through the imports of its file. Types and constants of the code (imported from `declared`) are counted, not followed.
"""
from __future__ import annotations

import argparse
import pathlib
import re
import sys
from dataclasses import dataclass, field
from typing import Iterable

TOP = pathlib.Path(__file__).resolve().parent.parent
PAGE = TOP / "docs" / "DEFINITIONS.md"
BEGIN, END = "<!-- lists -->", "<!-- end of lists -->"

IMPORT = re.compile(r"^(?:ghost |pub )?use Rattle\.([\w.]+?)(?:\.\{(.*)\})?(?: as (\w+))?;?$")
HEAD = re.compile(r"^(?:  )*(?:abbrev|record(?! \{)|data|unfoldable|infix\w*|pub record|pub data|pub abbrev|pub unfoldable)\b")
TYPED = re.compile(r"^pub [\w']+ :")
TOKEN = re.compile(r"[^\s(){}\[\],;]+")
BIND = "◌>>=◌"  # a text in `do` form, with a line `name ← value`, uses it without naming it

Name = tuple[str, str]  # file as crate/specs/File, and the item's name


@dataclass
class Item:
    """One definition: the lines from its comment to its end."""

    file: str
    first: int
    last: int
    text: str


@dataclass
class Imports:
    """What names mean in a file: single names, and names that mean a whole file."""

    single: dict[str, Name] = field(default_factory=dict)
    whole: dict[str, str] = field(default_factory=dict)

    def read(self, line: str) -> None:
        match = IMPORT.match(line.strip())
        if not match:
            return
        path, names, alias = match.groups()
        if names is None:
            if alias and ".specs." in path:
                self.whole[alias] = path.replace(".", "/")
            return
        for part in names.split(","):
            name, _, short = part.strip().partition(" as ")
            file, _, item = f"{path}.{name}".rpartition(".")
            if ".specs." in file:
                self.single[short or item] = (file.replace(".", "/"), item)


class Definitions:
    """All definitions of the repository."""

    def __init__(self, crates: pathlib.Path) -> None:
        self.lines: dict[str, list[str]] = {}
        self.imports: dict[str, Imports] = {}
        self.items: dict[Name, Item] = {}
        for path in sorted(crates.glob("*/specs/*.antt")):
            if path.stem != "Lib":
                self.add(f"{path.parts[-3]}/specs/{path.stem}", path.read_text(encoding="utf-8").split("\n"))

    def add(self, file: str, lines: list[str]) -> None:
        imports = Imports()
        for line in lines:
            imports.read(line)
        starts = [i for i, line in enumerate(lines) if HEAD.match(line) or TYPED.match(line)]
        for start, end in zip(starts, starts[1:] + [len(lines)]):
            self.add_item(file, lines, start, end)
        self.lines[file], self.imports[file] = lines, imports

    def add_item(self, file: str, lines: list[str], start: int, end: int) -> None:
        first = start
        while first > 0 and lines[first - 1].strip().startswith("--"):
            first -= 1
        while end > start + 1 and (not lines[end - 1].strip() or lines[end - 1].lstrip().startswith(("--", "module"))):
            end -= 1
        text = "\n".join(lines[start:end])
        item = Item(file, first, end, text)
        head = re.sub(r"^(?:(?:abbrev|unfoldable|pub|record|data|infix\w* \d+)\s+)+", "", lines[start].strip())
        for name in re.split(r"\s[:(=]|\{|:", head)[0].split():
            self.items[(file, name)] = item
        if re.match(r"\s*(?:pub )?data\b", lines[start]) or " data " in f" {lines[start]} ":
            for name in re.findall(r"^\s+(?:pub )?([\w']+) :", text, re.M):
                self.items.setdefault((file, name), item)

    def named(self, text: str, imports: Imports, file: str | None = None) -> set[Name]:
        """The definitions that this text names."""
        found = set()
        text = re.sub(r"(?m)(--|//).*", "", text)
        for token in TOKEN.findall(text + (f" {BIND}" if " ← " in text else "")):
            first, _, rest = token.partition(".")
            if first in imports.whole:
                found.add((imports.whole[first], rest.split(".")[0]))
            elif first in imports.single:
                found.add(imports.single[first])
            elif file:
                found.add((file, first))
        return {name for name in found if name in self.items}

    def closure(self, names: Iterable[Name], leave: Iterable[Name] = ()) -> set[Name]:
        """These names, and all that their definitions lead to, without those that are left out."""
        left, seen, todo = set(leave), set(), list(names)
        while todo:
            name = todo.pop()
            if name in seen or name in left:
                continue
            seen.add(name)
            item = self.items[name]
            todo.extend(self.named(item.text, self.imports[item.file], item.file))
        return seen

    def named_by_contract(self, source: pathlib.Path, functions: Iterable[str] = ()) -> set[Name]:
        """What the contracts of these functions of a source file name; of all that stands in the file if none is given."""
        text = source.read_text(encoding="utf-8")
        imports = Imports()
        for line in text.split("\n"):
            imports.read(line)
        parts = [contract(text, name) for name in functions] or [text]
        body = "\n".join(line for part in parts for line in part.split("\n") if "use Rattle." not in line)
        return self.named(body, imports)


def contract(text: str, function: str) -> str:
    """The head and the clauses of a function: from its name to the line that opens its body."""
    match = re.search(rf"(?m)^( *)(?:pub )?fn {function}\b(?:.|\n)*?\n\1\{{$", text)
    if not match:
        raise SystemExit(f"docs/definitions.py: no function {function}")
    return match.group(0)


def crate_order() -> dict[str, int]:
    """The place of each crate in crates.txt."""
    names = re.findall(r"^(\w+)(?: .*)?:", (TOP / "crates.txt").read_text(encoding="utf-8"), re.M)
    return {name: place for place, name in enumerate(names)}


class Lists:
    """The lists of the page, each without what the earlier ones have."""

    def __init__(self, definitions: Definitions) -> None:
        self.definitions = definitions
        self.order = crate_order()
        self.told: set[Name] = set()
        self.places: dict[str, int] = {}

    def place(self, file: str) -> int:
        """How many files one has to read before this one at least."""
        if file not in self.places:
            self.places[file] = 0  # a circle of imports ends here
            imports = self.definitions.imports[file]
            below = {name[0] for name in imports.single.values()} | set(imports.whole.values())
            self.places[file] = 1 + max((self.place(f) for f in below if f in self.definitions.lines), default=0)
        return self.places[file]

    def lines_of(self, names: set[Name]) -> dict[str, set[int]]:
        """The lines of each file that these definitions have and no earlier list had."""
        lines: dict[str, set[int]] = {}
        for name in names - self.told:
            item = self.definitions.items[name]
            lines.setdefault(item.file, set()).update(range(item.first, item.last))
        for name in self.told:
            item = self.definitions.items[name]
            if item.file in lines:
                lines[item.file] -= set(range(item.first, item.last))
        return lines

    def rows(self, names: set[Name]) -> list[tuple[str, int, int, str]]:
        """For each file of which a line is new, in reading order: its name, the new lines, all its lines, what it is about."""
        lines = self.lines_of(names)
        found = []
        for file in sorted(lines, key=lambda f: (self.order[f.split("/")[0]], self.place(f), f)):
            source = self.definitions.lines[file]
            wanted = sum(1 for i in lines[file] if source[i].strip())
            if wanted:
                found.append((file, wanted, len(source) - 1, source[0].lstrip("- ")))
        self.told |= names
        return found


@dataclass
class Claim:
    """A list: what it is of, the definitions that it begins with, and those that a later list has."""

    title: str
    names: set[Name]
    leave: set[Name] = field(default_factory=set)


def claims(definitions: Definitions) -> list[Claim]:
    crates = TOP / "crates"
    sessions, tasks = "pk_top/specs/Sessions", "pk_wordrun/specs/Tasks"
    claim = {(sessions, "KeptThroughRuns")}
    clauses = {("pk_top/specs/Serves", "ServeRun"), ("pk_top/specs/Asks", "AskRun"), ("pk_top/specs/Resting", "Rests")}
    words = {(tasks, "Task"), (tasks, "KeptTask")}

    def of(source: str, *functions: str) -> set[Name]:
        return definitions.named_by_contract(crates / source, functions)

    ports = [("storing", "store"), ("deleting", "delete"), ("resync", "resync"), ("retrieving", "retrieve"), ("listing", "list_page")]
    spared = [("nand", ("load", "make", "read", "program", "erase")), ("board", ("fetch", "post")), ("remap", ("new", "into_inner", "spares_left")),
              ("steps", ("step",))]
    return [
        Claim("sessions of `serve`, each cut anywhere", claim, clauses | words),
        Claim("sessions of all words", claim, clauses),
        Claim("a run: `pk_top::run`", of("pk_top/src/running.rt", "run")),
        Claim("a drive: `pk_drive::Engine`", of("pk_drive/src/engine.rt")),
        Claim("a run over a mirrored pair: `pk_top::run_pair`", of("pk_top/src/pairing.rt", "run_pair")),
        Claim("a pair over two ports: `pk_mirror::Mirror`", set().union(*(of(f"pk_mirror/src/{file}.rt", name) for file, name in ports))),
        Claim("a run over spare blocks: `pk_top::run_spared`", of("pk_top/src/spared.rt", "run_spared")),
        Claim("a flash with spare blocks: `pk_remap::Remap`", set().union(*(of(f"pk_remap/src/{file}.rt", *names) for file, names in spared))),
        Claim("sessions over an image and its log: `pk_law_durable`",
              {("pk_law_durable/specs/DurableRuns", "KeptThroughDurableRuns")} | of("pk_law_durable/src/running.rt", "session") | of("pk_durable/src/flash.rt", "open")),
    ]


def listed(definitions: Definitions) -> list[tuple[str, list[tuple[str, int, int, str]]]]:
    pages = Lists(definitions)
    return [(claim.title, pages.rows(definitions.closure(claim.names, claim.leave))) for claim in claims(definitions)]


def table(definitions: Definitions) -> str:
    rows = [f"| {number} | {title} | {sum(row[1] for row in found)} | {len(found)} |"
            for number, (title, found) in enumerate(listed(definitions), 1)]
    return "| list | of | lines | files |\n|---|---|---|---|\n" + "\n".join(rows) + "\n"


def printed(definitions: Definitions, wanted: list[int]) -> str:
    text = ""
    for number, (title, found) in enumerate(listed(definitions), 1):
        if not wanted or number in wanted:
            text += f"{number}. {title}: {sum(row[1] for row in found)} lines in {len(found)} files\n\n"
            text += "".join(f"  {file:<36} {lines:>4} of {of:<4} {about}\n" for file, lines, of, about in found) + "\n"
    return text


def blocks(lines: list[str]) -> list[range]:
    """The runs of lines without a blank one."""
    found, start = [], 0
    for i in range(len(lines) + 1):
        if i == len(lines) or not lines[i].strip():
            if i > start:
                found.append(range(start, i))
            start = i + 1
    return found


def holes(definitions: Definitions) -> list[str]:
    """Where the lists lack something: a block of text of which only a part is listed, and a name in such a block that is not listed.

    Blocks are read without the rules by which definitions are told apart, so that a fault in these shows here.
    """
    names = set().union(*(definitions.closure(claim.names) for claim in claims(definitions)))
    covered: dict[str, set[int]] = {}
    for name in names:
        item = definitions.items[name]
        covered.setdefault(item.file, set()).update(range(item.first, item.last))
    faults = []
    for file, have in sorted(covered.items()):
        lines = definitions.lines[file]
        for block in blocks(lines):
            text = "\n".join(lines[i] for i in block if i in have)
            if not text:
                continue
            rest = [i + 1 for i in block if i not in have and not lines[i].lstrip().startswith(("--", "module", "use ", "infix"))]
            if rest and lines[rest[0] - 1][0] == " ":
                faults.append(f"crates/{file}.antt:{rest[0]}: goes on a definition that is listed, and is not listed")
            for crate_file, item in sorted(definitions.named(text, definitions.imports[file], file) - names):
                faults.append(f"crates/{file}.antt: names {item} of {crate_file}, which is not listed")
    return faults


def main() -> int:
    parser = argparse.ArgumentParser(description=__doc__, formatter_class=argparse.RawDescriptionHelpFormatter)
    parser.add_argument("claim", nargs="*", type=int, help="the number of a list")
    choice = parser.add_mutually_exclusive_group()
    choice.add_argument("--write", action="store_true", help="put the numbers into docs/DEFINITIONS.md")
    choice.add_argument("--check", action="store_true", help="fail if docs/DEFINITIONS.md has other numbers, or a list is not complete")
    args = parser.parse_args()
    definitions = Definitions(TOP / "crates")
    if not (args.write or args.check):
        print(printed(definitions, args.claim), end="")
        return 0
    page = PAGE.read_text(encoding="utf-8")
    before, _, rest = page.partition(BEGIN)
    new = f"{before}{BEGIN}\n\n{table(definitions)}\n{END}{rest.partition(END)[2]}"
    if args.write:
        PAGE.write_text(new, encoding="utf-8")
        return 0
    faults = holes(definitions)
    if new != page:
        faults.append("docs/DEFINITIONS.md: its table is not the one that docs/definitions.py --write makes")
    print("\n".join(faults), end="\n" if faults else "", file=sys.stderr)
    return 1 if faults else 0


if __name__ == "__main__":
    sys.exit(main())
