"""Results as Markdown tables: medians of the runs."""
from __future__ import annotations

import statistics
from dataclasses import dataclass
from typing import Any, Callable, Iterable

from engines import ENGINES
from sessions import DURABLE

PHASES = {
    "store": "Store of a new key",
    "overwrite": "overwrite",
    "retrieve": "Retrieve",
    "zipf": "Retrieve, zipf",
    "missing": "missing key",
    "list": "List",
    "delete": "Delete",
}
# The rows of README's table, its columns, and the case that it shows.
README_PHASES = ("retrieve", "missing", "list", "store", "overwrite")
README_ENGINES = ("pink", "leveldb", "rocksdb", "lmdb", "sqlite", "bdb")
README_CASE = (80, 1000, "groups")

MODES = {
    "groups": "changes in groups of at most 127",
    "alone": "each change committed alone",
    "durable": "changes in groups of at most 127, each on the disk before its answer",
    "waiting": "each change on the disk and answered before the next one is sent",
}

Run = dict[str, Any]
Figure = Callable[[Run], float]


@dataclass(frozen=True)
class Case:
    """Runs of one workload in one mode."""

    live: int
    value: int
    mode: str
    runs: list[Run]

    @property
    def keys(self) -> int:
        return self.runs[0]["phases"]["store"]["commands"]

    def engines(self) -> list[str]:
        present = {run["engine"] for run in self.runs}
        return [name for name in ENGINES if name in present]

    def figures(self, engine: str, figure: Figure) -> list[float]:
        found = []
        for run in self.runs:
            try:
                if run["engine"] == engine:
                    found.append(figure(run))
            except KeyError:
                continue
        return found

    def median(self, engine: str, figure: Figure) -> float | None:
        found = self.figures(engine, figure)
        return statistics.median(found) if found else None


def rate(phase: str) -> Figure:
    """Thousands of commands a second of processor time, with what went on after the last."""
    return lambda run: (
        run["phases"][phase]["commands"] / max(run["phases"][phase]["settled"], 1e-9) / 1000
    )


def clock_rate(phase: str) -> Figure:
    """Commands a second of the clock."""
    return lambda run: run["phases"][phase]["commands"] / run["phases"][phase]["clock"]


def written(phase: str) -> Figure:
    """Bytes written for a byte stored."""
    return lambda run: run["phases"][phase]["written"] / run["phases"][phase]["stored"]


def memory(run: Run) -> float:
    return max(phase.get("memory", 0) for phase in run["phases"].values()) / 1e6


def number(value: float | None) -> str:
    """Three digits that count; a dash for none."""
    if value is None:
        return "-"
    digits = 0 if value >= 100 else 1 if value >= 10 else 2
    return f"{value:,.{digits}f}"


def table(head: list[str], rows: Iterable[list[str]]) -> str:
    lines = [head, ["---"] * len(head), *rows]
    return "\n".join("| " + " | ".join(line) + " |" for line in lines) + "\n"


def cases_of(results: dict[str, Any]) -> list[Case]:
    found: dict[tuple[int, int, str], list[Run]] = {}
    for run in results["runs"]:
        found.setdefault((run["live"], run["value"], run["mode"]), []).append(run)
    return [Case(*key, runs) for key, runs in found.items()]


def title_of(engine: str) -> str:
    title = ENGINES[engine].title
    return f"**{title}**" if engine == "pink" else title


def heading(case: Case) -> str:
    keys = f"{case.keys:,} keys" if case.mode in DURABLE else f"{case.live} % of the space live"
    return f"{keys}, values of {case.value:,} bytes, {MODES[case.mode]}"


def speed_table(case: Case, phases: Iterable[str]) -> str:
    chosen = [phase for phase in phases if any(phase in run["phases"] for run in case.runs)]
    head = ["engine", *(PHASES[phase] for phase in chosen)]
    rows = [
        [title_of(name), *(number(case.median(name, rate(phase))) for phase in chosen)]
        for name in case.engines()
    ]
    return table(head, rows)


def cost_table(case: Case) -> str:
    """Bytes written for a byte stored; MB of memory and disk; ms of processor time to open the
    store and read a key, with its files in the page cache and not, and of a `cat` of its files."""
    head = ["engine", "written a byte: Store", "overwrite", "memory, MB", "disk, MB",
            "opening, ms", "not cached", "`cat`, ms"]
    milliseconds = {
        key: lambda run, key=key: run[key] * 1000 for key in ("opening", "opening_cold", "cat")
    }
    figures: list[Figure] = [written("store"), written("overwrite"), memory]
    figures += [lambda run: run["disk"] / 1e6, *milliseconds.values()]
    rows = [
        [title_of(name), *(number(case.median(name, figure)) for figure in figures)]
        for name in case.engines()
        if name != "map"
    ]
    return table(head, rows)


def durable_table(case: Case) -> str:
    phases = ("store", "overwrite")
    head = ["engine", *(f"{PHASES[phase]}, by the clock" for phase in phases)]
    rows = [
        [title_of(name), *(number(case.median(name, clock_rate(phase))) for phase in phases)]
        for name in case.engines()
        if name != "map"
    ]
    return table(head, rows)


def written_table(case: Case) -> str:
    head = ["engine", "written a byte: Store", "overwrite"]
    rows = [
        [title_of(name), *(number(case.median(name, written(p))) for p in ("store", "overwrite"))]
        for name in case.engines()
        if name != "map"
    ]
    return table(head, rows)


def readme_table(case: Case) -> str:
    names = [name for name in README_ENGINES if name in case.engines()]
    head = ["", *(ENGINES[name].title for name in names)]
    rows = [
        [PHASES[phase], *(number(case.median(name, rate(phase))) for name in names)]
        for phase in README_PHASES
    ]
    return table(head, rows)


def reads_line(case: Case) -> str:
    """Pages that a Retrieve of pink reads: its records have them."""
    phase = "retrieve"
    told = case.median(
        "pink", lambda run: run["phases"][phase]["reads"] / run["phases"][phase]["commands"]
    )
    return "" if told is None else f"A Retrieve of pink read {told:.2f} pages on average.\n"


def spread(cases: list[Case]) -> tuple[float, float] | None:
    """How far the runs of a rate are apart, relative to their median: the median, the most."""
    found = []
    for case in cases:
        for name in case.engines():
            for phase in PHASES:
                rates = case.figures(name, rate(phase))
                if len(rates) > 1:
                    found.append((max(rates) - min(rates)) / statistics.median(rates))
    return (statistics.median(found), max(found)) if found else None


def conditions(results: dict[str, Any], cases: list[Case]) -> str:
    load, load_end = (" ".join(f"{x:.1f}" for x in results[key]) for key in ("load", "load_end"))
    text = (
        f"Measured {results['when']} to {results['until']} on one of {results['processors']} "
        f"processors ({results['machine']}, Linux {results['kernel']}), load {load} at the start "
        f"and {load_end} at the end, {results['steal']:.1f} % of the machine taken by others; "
        f"medians of {results['repeats']} run(s). Program: {results['program']}."
    )
    if results["versions"]:
        names = (f"{name} {version}" for name, version in results["versions"].items())
        text += f" {', '.join(names)}."
    apart = spread(cases)
    if apart is not None:
        text += f" The runs of a rate are {apart[0]:.0%} apart, at most {apart[1]:.0%}."
    return text


def report(results: dict[str, Any]) -> str:
    """All tables."""
    cases = cases_of(results)
    parts = [conditions(results, cases) + "\n"]
    for case in cases:
        if (case.live, case.value, case.mode) == README_CASE:
            parts += [f"**README** ({heading(case)}; thousands a second)\n", readme_table(case)]
    for case in cases:
        if case.mode in DURABLE:
            parts += [f"**{heading(case)}**: commands a second\n", durable_table(case)]
            continue
        parts += [f"**{heading(case)}**: thousands of commands a second of processor time\n"]
        parts += [speed_table(case, PHASES)]
        if case.mode == "alone":
            parts += [written_table(case)]
        else:
            parts += [cost_table(case), reads_line(case)]
    return "\n".join(part for part in parts if part)
