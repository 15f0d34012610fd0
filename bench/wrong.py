#!/usr/bin/env python3
"""Tries wrong bodies (must-fail edits): the prover has to refuse each. Run it in a checkout whose libraries `rt ci` has just built; nothing
that the gate proved is proved again. The edits of a crate that change different functions are tried together, by one check of the modules
that they change: a function is proved from the contracts of those that it calls, so the body of one says nothing of another. A refusal
counts for an edit only if the prover names a goal of the function that this edit changes; else the edit is tried alone.

  bench/wrong.sh [CRATE..]         the wrong bodies of bench/wrong-bodies, which the gate does not try; of all crates, or of these
  bench/wrong.sh --since COMMIT    of the crates that changed after this commit, or whose wrong bodies did
  bench/wrong.sh --gate            with those that the gate tries as well

  --jobs N            crates side by side (2)
  --results FILE      writes a line as each edit ends, and passes over those that the file has: a run that was ended goes on from there
  --minutes N         begins no check after so many minutes
  --libraries FOLDER  takes the libraries of another checkout, if the crates below have the same sources there

It prints a table (crate, edit, whether it was refused, a goal that stays open, its kind) and how many were tried, refused and accepted, and
ends with 0 only if each was refused. Of several goals it names the first that is a clause, or else the first. The kinds: `clause`, what the
function promises; `condition`, what a call in it asks for; `invariant`, of a loop or a type; `safety`, a range, a bound or an end; `lemma`, a
step of the proof of a clause; `names`, only names of its proof are gone; `limit`, the prover gave up.
"""
from __future__ import annotations

import argparse
import functools
import hashlib
import pathlib
import re
import shutil
import subprocess
import sys
import tempfile
import threading
import time
from concurrent.futures import ThreadPoolExecutor
from dataclasses import dataclass, field

TOP = pathlib.Path(__file__).resolve().parent.parent
PARTS = ("src", "specs", "proofs")
HEAD = re.compile(r"^\s*(?:pub(?:\(\w+\))? )?(?:const )?fn (\w+)")
NAMES = re.compile(r"(note: )?(\./)?proofs/.*(has no field|is not in scope|has no `|was not admitted)")


@dataclass
class Edit:
    crate: str
    name: str
    pairs: list[tuple[str, str, str]]
    places: set[tuple[str, int]] = field(default_factory=set)  # file, first line of the function
    functions: set[str] = field(default_factory=set)
    fault: str = ""


@dataclass
class Verdict:
    edit: Edit
    answer: str  # refused, ACCEPTED, BAD, untried
    kind: str
    goal: str

    def row(self) -> str:
        return "\t".join((self.edit.crate, self.edit.name, self.answer, self.kind, self.goal))


# ---- what there is


def crates() -> dict[str, list[str]]:
    lines = (TOP / "crates.txt").read_text(encoding="utf-8").split("\n")
    return {line.split(":")[0].split()[0]: line.partition(":")[2].split() for line in lines if line[:1].isalpha()}


def below(deps: dict[str, list[str]], crate: str, found: dict[str, None] | None = None) -> list[str]:
    found = {} if found is None else found
    for dep in deps[crate]:
        if dep in deps and dep not in found:
            below(deps, dep, found)
            found[dep] = None
    return list(found)


@functools.cache
def sum_of(folder: pathlib.Path) -> str:
    files = sorted(it for part in PARTS for it in (folder / part).rglob("*") if it.is_file())
    return hashlib.sha256(b"".join(str(it.relative_to(folder)).encode() + b"\0" + it.read_bytes() for it in files)).hexdigest()


def read_edit(path: pathlib.Path, crate: str) -> Edit:
    file, old, pairs = "", None, []
    for line in path.read_text(encoding="utf-8").split("\n"):
        if line.startswith("file: "):
            file = line[6:].strip()
        elif line.startswith("old: "):
            old = line[5:]
        elif line.startswith("new:"):
            pairs.append((file, old or "", line[4:].removeprefix(" ")))
    edit = Edit(crate, path.stem, pairs)
    texts: dict[str, str] = {}
    for file, old, new in pairs:
        text = texts.setdefault(file, (TOP / "crates" / crate / file).read_text(encoding="utf-8"))
        if text.count(old) != 1:
            edit.fault = f"its old text is in {file} {text.count(old)} times"
            return edit
        before = text[: text.index(old)].split("\n")
        at = next((i for i in range(len(before) - 1, -1, -1) if HEAD.match(before[i] if i < len(before) - 1 else before[i] + old)), 0)
        head = HEAD.match(text.split("\n")[at])
        edit.places.add((file, at + 1))
        edit.functions.add(head[1] if head else "")
        texts[file] = text.replace(old, new)
    return edit


# ---- a check


class Checker:
    def __init__(self, libraries: pathlib.Path) -> None:
        page = subprocess.run(["rt", "doc"], stdout=subprocess.PIPE, text=True, check=True).stdout.split()
        self.kit = next(pathlib.Path(it).parent for it in page if it.startswith("/") and pathlib.Path(it).is_file())
        self.deps = crates()
        self.libraries = libraries

    def lacking(self, crate: str) -> str:
        for dep in below(self.deps, crate):
            if not (self.library(dep) / "format").is_file():
                return f"{dep} is not built in {self.libraries}: run rt ci there first"
            if self.libraries != TOP and sum_of(TOP / "crates" / dep) != sum_of(self.libraries / "crates" / dep):
                return f"{dep} has other sources in {self.libraries}"
        return ""

    def library(self, crate: str) -> pathlib.Path:
        return self.libraries / "crates" / crate / "out" / "rlib" / f"{crate}.rlib"

    def words(self, crate: str) -> list[str]:
        words = [f"{self.kit}/bin/rattle", "check", "--crate-name", crate, "src/lib.rt"]
        for name in dict.fromkeys(["std", *(it for it in self.deps[crate] if it not in self.deps)]):
            words += ["--extern", f"{name}={self.kit}/rlibs/{name}.rlib"]
        words += ["-L", f"dependency={self.kit}/rlibs"]
        for name in self.deps[crate]:
            if name in self.deps:
                words += ["--extern", f"{name}={self.library(name)}"]
        for name in below(self.deps, crate):
            words += ["-L", f"dependency={self.library(name).parent}"]
        words += ["--antt-project", f"{self.kit}/rattle/logic/antt-project.json", "--logic-built", f"{self.kit}/logic_built"]
        return words + ["--jobs", "1"]

    def run(self, crate: str, room: pathlib.Path, files: set[str], functions: set[str]) -> tuple[int, list[str]]:
        """The status of a check of these files' modules, and its lines; of the whole crate, if not each function is reported."""
        modules = ["::".join(pathlib.Path(it).with_suffix("").parts[1:]) for it in sorted(files)]
        only = [] if "lib" in modules else [word for it in modules for word in ("--only", it)]
        while True:
            words = [*self.words(crate), "--incremental", str(room / "kept"), *only]
            both = {"stdout": subprocess.PIPE, "stderr": subprocess.STDOUT}
            ran = subprocess.run(words, cwd=room, stdin=subprocess.DEVNULL, **both, text=True, errors="replace")
            lines = ran.stdout.split("\n")
            reported = {it.split(": ")[0].split("::")[-1] for it in lines if re.match(r"fn \S+: ", it)}
            if not only or functions <= reported or any(re.search(r"\berror\[[\w-]+\]", it) for it in lines):
                return ran.returncode, lines
            only = []


# ---- what a check says of an edit


def kind_of(goal: str) -> str:
    if re.fullmatch("[a-z_]+", goal) and goal != "returns":
        return "lemma"
    if "-requires" in goal:
        return "condition"
    if "invariant" in goal or re.search(r"-(init|preserved)\b", goal):
        return "invariant"
    return "clause" if goal.startswith("returns") or "ensures" in goal else "safety"


def goal_of(line: str) -> str:
    found = re.search(r"\(`([^`]+)`\)", line) or re.search(r"error: `([^`]+)`", line)
    return found[1] if found else line[:120]


def lines_of(edit: Edit, told: list[str], starts: dict[str, list[int]]) -> list[str]:
    """The lines at one of the functions that the edit changes, or in a proof file of one."""
    found = []
    for line in told:
        at = re.match(r"(?:note: )?(?:\./)?(\S+?):(\d+):\d+:", line)
        if not at:
            continue
        if at[1].startswith("src/"):
            first = max((it for it in starts.get(at[1], [1]) if it <= int(at[2])), default=1)
            if (at[1], first) in edit.places:
                found.append(line)
        elif at[1].startswith("proofs/") and at[1].split("/")[-2] in edit.functions:
            found.append(line)
    return found


def judged(edit: Edit, status: int, lines: list[str], starts: dict[str, list[int]], alone: bool) -> Verdict | None:
    """What the check came to for this edit; nothing if it has to be tried alone."""
    if any(re.search(r"\berror\[[\w-]+\]", it) for it in lines):
        first = next(it for it in lines if re.search(r"\berror\[[\w-]+\]", it))
        return Verdict(edit, "BAD", "-", first[:120]) if alone else None
    told = [it for it in lines if re.match(r"(note: )?\S+:\d+:\d+:", it) and (": error" in it or it.startswith("note: "))]
    own = lines_of(edit, told, starts) or (told if alone else [])
    said = [it for it in lines if re.match(r"fn \S+: ", it) and it.split(": ")[0].split("::")[-1] in edit.functions]
    if alone and status == 0:
        return Verdict(edit, "ACCEPTED", "-", "the crate is proved with it")
    if not alone and said and all(it.endswith(": proved") for it in said):
        return None
    goals = [goal_of(it) for it in own if not NAMES.match(it) and "which was rejected" not in it]
    if goals:
        first = next((it for it in goals if kind_of(it) == "clause"), goals[0])
        return Verdict(edit, "refused", kind_of(first), first)
    if not alone:
        return None
    if status == 1 and own:
        return Verdict(edit, "refused", "names", own[0][:120])
    limit = next((it for it in lines if "ran out of" in it or "stopped at the step limit" in it), "")
    return Verdict(edit, "refused", "limit", limit[:120]) if limit else Verdict(edit, "untried", "-", (lines[-2:] or [""])[0][:120])


# ---- a crate


def batches(edits: list[Edit]) -> list[list[Edit]]:
    """Edits that change different functions, together."""
    found: list[list[Edit]] = []
    for edit in edits:
        for batch in found:
            if not any(edit.places & it.places or edit.functions & it.functions for it in batch):
                batch.append(edit)
                break
        else:
            found.append([edit])
    return found


def heads(file: pathlib.Path) -> list[int]:
    """The lines at which a function begins."""
    return [at + 1 for at, line in enumerate(file.read_text(encoding="utf-8").split("\n")) if HEAD.match(line)]


def tried(checker: Checker, crate: str, edits: list[Edit], is_late, tell) -> None:
    folder = TOP / "crates" / crate
    with tempfile.TemporaryDirectory(prefix="wrong-") as name:
        room = pathlib.Path(name)
        (room / "kept").mkdir()
        for part in PARTS:
            if (folder / part).is_dir():
                shutil.copytree(folder / part, room / part)
        starts = {f"src/{it.relative_to(folder / 'src')}": heads(it) for it in (folder / "src").rglob("*.rt")}
        waiting = batches([it for it in edits if not it.fault])
        for it in edits:
            if it.fault:
                tell(Verdict(it, "BAD", "-", it.fault))
        while waiting and not is_late():
            batch = waiting.pop(0)
            texts: dict[str, str] = {}
            for edit in batch:
                for file, old, new in edit.pairs:
                    texts[file] = texts.get(file, (folder / file).read_text(encoding="utf-8")).replace(old, new)
            for file, text in texts.items():
                (room / file).write_text(text, encoding="utf-8")
            functions = set().union(*(it.functions for it in batch))
            status, lines = checker.run(crate, room, {it for it in texts if it.startswith("src/")}, functions)
            for file in texts:
                shutil.copyfile(folder / file, room / file)
            for edit in batch:
                verdict = judged(edit, status, lines, starts, len(batch) == 1)
                if verdict:
                    tell(verdict)
                else:
                    waiting.append([edit])


# ---- all


def wanted(args: argparse.Namespace) -> dict[str, list[Edit]]:
    by_hand = {it.parent.name for it in TOP.glob("bench/wrong-bodies/*/*.edit")}
    by_gate = {it.parent.parent.name for it in TOP.glob("crates/*/must-fail/*.edit")} if args.gate else set()
    names = args.crates or by_hand | by_gate
    if args.since:
        diff = ["git", "-C", str(TOP), "diff", "--quiet", args.since, "HEAD", "--"]
        names = [it for it in names if subprocess.run([*diff, f"crates/{it}", f"bench/wrong-bodies/{it}"]).returncode]
    found = {}
    for crate in sorted(names, key=list(crates()).index):
        folders = [TOP / "bench" / "wrong-bodies" / crate, *([TOP / "crates" / crate / "must-fail"] if args.gate else [])]
        paths = [it for folder in folders for it in folder.glob("*.edit")]
        found[crate] = [read_edit(it, crate) for it in sorted(paths)]
    return found


def main() -> int:
    parser = argparse.ArgumentParser(description=__doc__, formatter_class=argparse.RawDescriptionHelpFormatter)
    parser.add_argument("crates", nargs="*", metavar="CRATE")
    parser.add_argument("--since", metavar="COMMIT")
    parser.add_argument("--gate", action="store_true")
    parser.add_argument("--jobs", type=int, default=2)
    parser.add_argument("--results", type=pathlib.Path)
    parser.add_argument("--minutes", type=float, default=1e9)
    parser.add_argument("--libraries", type=pathlib.Path, default=TOP)
    args = parser.parse_args()
    checker = Checker(args.libraries.resolve())
    all_edits = wanted(args)
    lacking = next((why for why in map(checker.lacking, all_edits) if why), "")
    if lacking:
        print(lacking, file=sys.stderr)
        return 2
    rows: dict[tuple[str, str], str] = {}
    if args.results and args.results.is_file():
        for row in args.results.read_text(encoding="utf-8").split("\n"):
            if row.count("\t") == 4 and row.split("\t")[2] != "untried":
                rows[tuple(row.split("\t")[:2])] = row
    end, printing = time.monotonic() + 60 * args.minutes, threading.Lock()

    def tell(verdict: Verdict) -> None:
        with printing:
            rows[verdict.edit.crate, verdict.edit.name] = verdict.row()
            print(verdict.row(), file=sys.stderr, flush=True)
            if args.results:
                with args.results.open("a", encoding="utf-8") as it:
                    it.write(verdict.row() + "\n")

    with ThreadPoolExecutor(args.jobs) as pool:
        left = {crate: [it for it in edits if (crate, it.name) not in rows] for crate, edits in all_edits.items()}
        size = lambda crate: sum(it.stat().st_size for part in PARTS for it in (TOP / "crates" / crate / part).rglob("*") if it.is_file())
        largest = sorted((it for it in left if left[it]), key=size, reverse=True)
        jobs = [pool.submit(tried, checker, it, left[it], lambda: time.monotonic() > end, tell) for it in largest]
        for job in jobs:
            job.result()
    print("| crate | edit | answer | kind | goal |\n|---|---|---|---|---|")
    told = [rows[crate, it.name].split("\t") for crate, edits in all_edits.items() for it in edits if (crate, it.name) in rows]
    for row in told:
        print(f"| `{row[0]}` | `{row[1]}` | {row[2]} | {row[3]} | `{row[4]}` |")
    total = sum(map(len, all_edits.values()))
    count = lambda answer: sum(row[2] == answer for row in told)
    untried = total - len(told) + count("untried")
    print(f"{count('refused')} of {total} wrong bodies refused; accepted {count('ACCEPTED')}, bad {count('BAD')}, not tried {untried}")
    return 0 if count("refused") == total else 1


if __name__ == "__main__":
    sys.exit(main())
