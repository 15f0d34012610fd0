#!/usr/bin/env python3
"""Shows where pink spends its time at 80 % of the space live: for Stores of new keys, Retrieves,
missing keys, Lists and overwrites, the processor time of the program and of the system for a
command, and the functions with the most instructions (callgrind, which counts none of the
system's). A session without commands on the same image is subtracted, so opening is not in the
figures; it has a table of its own. It proves nothing, and takes three minutes.

Wanted are valgrind and the program pink."""
from __future__ import annotations

import argparse
import dataclasses
import os
import re
import shutil
import subprocess
import sys
import tempfile
from collections import Counter
from dataclasses import dataclass
from pathlib import Path

import engines
from workload import Size, Workload

TOP = Path(__file__).resolve().parent.parent.parent
MISSING = 3
# The phases that run on the image that `store` and `overwrite` leave.
LATER = ("retrieve", "missing", "list", "overwrite")
TITLES = {
    "store": "a Store of a new key",
    "retrieve": "a Retrieve",
    "missing": "an Exist of a missing key",
    "list": "a List",
    "overwrite": "an overwrite",
}
# The commands whose time is taken; callgrind is given fewer.
TIMED = Size(0, 0, 40000, 100000, 100000, 5000, 0, False)
COST = re.compile(r"^\s*([\d,]+)\s+(?:\(\s*[\d.]+%\)\s+)?[^\s:]*:(.*?)(?: \[[^\]]*\])?$")


@dataclass(frozen=True)
class Time:
    """Seconds of the program, and of the system for it."""

    user: float
    system: float

    def __sub__(self, other: Time) -> Time:
        return Time(self.user - other.user, self.system - other.system)

    def of_each(self, count: int) -> str:
        user, system = (1e6 * seconds / count for seconds in (self.user, self.system))
        return f"{user:,.2f} microseconds of the program and {system:,.2f} of the system"


class Drive:
    """An image, of which each session gets a copy."""

    def __init__(self, program: Path, folder: Path) -> None:
        self._program = program
        self._image = folder / "drive.img"
        self._copy = folder / "copy.img"
        self._callgrind = folder / "callgrind.out"
        shape = [str(number) for number in engines.SHAPE]
        subprocess.run([str(program), str(self._image), "make", *shape], check=True)

    def _serve(self, image: Path, script: Path | None, before: list[str]) -> Time:
        words = [*before, str(self._program), str(image), "serve", str(engines.FRAMES)]
        with (script or Path(os.devnull)).open("rb") as entries:
            process = subprocess.Popen(
                words, stdin=entries, stdout=subprocess.DEVNULL,
                stderr=subprocess.DEVNULL if before else None,
            )
            _, status, used = os.wait4(process.pid, 0)
        process.returncode = os.waitstatus_to_exitcode(status)
        if process.returncode != 0:
            sys.exit(f"profile: pink ended with status {process.returncode}")
        return Time(used.ru_utime, used.ru_stime)

    def serve(self, script: Path) -> None:
        self._serve(self._image, script, [])

    def time(self, script: Path | None) -> Time:
        """What a session takes; none: one without commands."""
        shutil.copy(self._image, self._copy)
        return self._serve(self._copy, script, [])

    def costs(self, script: Path | None) -> Counter[str]:
        """Instructions of each function in a session."""
        shutil.copy(self._image, self._copy)
        valgrind = ["valgrind", "--tool=callgrind", f"--callgrind-out-file={self._callgrind}"]
        self._serve(self._copy, script, valgrind)
        annotated = subprocess.run(
            ["callgrind_annotate", "--threshold=100", "--auto=no", str(self._callgrind)],
            stdout=subprocess.PIPE, text=True, check=True,
        ).stdout
        found: Counter[str] = Counter()
        for matched in filter(None, map(COST.match, annotated.splitlines())):
            found[matched.group(2)] += int(matched.group(1).replace(",", ""))
        return found


def report(title: str, time: str, costs: Counter[str], count: int, most: int) -> None:
    total = sum(costs.values())
    print(f"**{title}**: {time}; {total / count:,.0f} instructions of the program\n")
    print("| function | instructions | share |\n| --- | --- | --- |")
    for name, cost in costs.most_common(most):
        print(f"| `{name}` | {cost / count:,.0f} | {cost / total:.1%} |")
    print(flush=True)


def arguments() -> argparse.Namespace:
    parser = argparse.ArgumentParser(
        description=__doc__, formatter_class=argparse.RawDescriptionHelpFormatter
    )
    add = parser.add_argument
    add("--pink", type=Path, default=TOP / "crates" / "pink" / "out" / "pink", metavar="FILE",
        help="the program (crates/pink/out/pink)")
    add("--live", type=int, default=80, metavar="PERCENT", help="(80)")
    add("--value", type=int, default=1000, metavar="BYTES", help="the size of the values (1000)")
    add("--commands", type=int, default=5000, metavar="N",
        help="commands of a phase under callgrind; Lists a tenth (5000)")
    add("--functions", type=int, default=10, metavar="N", help="the rows of a table (10)")
    return parser.parse_args()


def profile(program: Path, folder: Path, chosen: argparse.Namespace) -> None:
    keys, most = engines.keys_for(chosen.live, chosen.value), chosen.functions
    count = chosen.commands
    timed = dataclasses.replace(TIMED, keys=keys, value_bytes=chosen.value)
    counted = Size(keys, chosen.value, count, count, count, count // 10, 0, False)
    long = {path.stem: path for path in Workload(folder, timed).phases()}
    short = {path.stem: path for path in Workload(folder, counted).phases()}
    counts = {"list": (timed.lists, counted.lists), "overwrite": (timed.overwrites, count)}
    drive = Drive(program, folder)

    def phase(name: str) -> None:
        timed_count, counted_count = counts.get(name, (timed.retrieves, count))
        if name == "store":
            timed_count = counted_count = keys
        time = drive.time(long[name]) - drive.time(None)
        costs = drive.costs(short[name])
        costs.subtract(drive.costs(None))
        report(TITLES[name], time.of_each(timed_count), costs, counted_count, most)

    phase("store")
    for name in ("store", "overwrite"):
        drive.serve(long[name])
    for name in LATER:
        phase(name)
    report("an opening", drive.time(None).of_each(1), drive.costs(None), 1, most)


def main() -> int:
    chosen = arguments()
    tools = [tool for tool in ("valgrind", "callgrind_annotate") if shutil.which(tool) is None]
    if tools or not os.access(chosen.pink, os.X_OK):
        print(f"profile: missing: {', '.join(tools) or chosen.pink}", file=sys.stderr)
        return MISSING
    with tempfile.TemporaryDirectory() as folder:
        profile(chosen.pink.resolve(), Path(folder), chosen)
    return 0


if __name__ == "__main__":
    sys.exit(main())
