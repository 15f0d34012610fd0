"""Sessions of an engine: a workload is fed to it, and its store is opened again."""
from __future__ import annotations

import json
import os
import shutil
import subprocess
from dataclasses import dataclass
from pathlib import Path

import engines
from engines import Engine
from workload import PROBE, key_of

# The launcher ./pink sets the same: what is in memory takes large pages of the system.
PINK_ENVIRONMENT = {
    "GLIBC_TUNABLES": "glibc.malloc.hugetlb=1:glibc.malloc.mmap_threshold=1073741824"
    ":glibc.malloc.trim_threshold=1073741824"
}
# Each change is on the disk before its answer, in the modes of DURABLE.
SYNC = "PINK_SYNC"
DURABLE = ("durable", "waiting")


class SessionFailed(Exception):
    """An answer differed from a map's, or a server failed."""


@dataclass(frozen=True)
class Bench:
    """Where everything is."""

    # The folder of the programs that the Makefile builds.
    programs: Path
    pink: Path | None
    # The folder of the stores.
    folder: Path
    # The processor that all run on.
    cpu: int
    # Seconds that a server may be silent.
    patience: int

    def command(self, engine: Engine, store: Path, mode: str) -> list[str]:
        """The command of a server."""
        if engine.program is None:
            return [str(self.pink), str(store), "serve", str(engines.FRAMES)]
        words = [*engine.words, "--group", str(1 if mode in ("alone", "waiting") else engines.GROUP)]
        if mode in DURABLE:
            words.append("--sync")
        return [str(self.programs / engine.program), *words, str(store)]

    def feed(
        self, command: list[str], phases: list[Path], before: list[Path], mode: str = "groups"
    ) -> dict[str, dict[str, float]]:
        """What the feeder reports of each phase of a session."""
        words = [str(self.programs / "feeder"), "--cpu", str(self.cpu)]
        if mode == "waiting":
            words.append("--waits")
        words += ["--patience", str(self.patience), "--probe", key_of(PROBE).decode()]
        for path in before:
            words += ["--before", str(path)]
        for path in phases:
            words += ["--phase", str(path)]
        environment = os.environ | PINK_ENVIRONMENT | {SYNC: "1" if mode in DURABLE else "0"}
        done = subprocess.run(
            [*words, "--", *command], stdout=subprocess.PIPE, text=True, env=environment
        )
        if done.returncode != 0:
            raise SessionFailed(" ".join(command))
        told = [json.loads(line) for line in done.stdout.splitlines()]
        return {phase["phase"]: phase for phase in told}

    def make(self, engine: Engine, store: Path) -> None:
        """Removes a store, and makes that of pink; the others are made when they are opened."""
        remove(store)
        if engine.program is not None:
            return
        shape = [str(number) for number in engines.SHAPE]
        subprocess.run([str(self.pink), str(store), "make", *shape], check=True)
        told = subprocess.run(
            [str(self.pink), str(store), "stat"], check=True, stdout=subprocess.PIPE, text=True
        ).stdout.splitlines()
        if f"limit {engines.LIMIT}" not in told:
            raise SessionFailed(f"the drive's limit is not {engines.LIMIT} pages")

    def cat_seconds(self, store: Path) -> float:
        """The processor time of reading the store's files by `cat`."""

        def stay() -> None:
            os.sched_setaffinity(0, {self.cpu})

        words = ["cat", *map(str, files_of(store))]
        process = subprocess.Popen(words, stdout=subprocess.DEVNULL, preexec_fn=stay)
        _, status, used = os.wait4(process.pid, 0)
        process.returncode = os.waitstatus_to_exitcode(status)
        return used.ru_utime + used.ru_stime


def files_of(store: Path) -> list[Path]:
    return [store] if store.is_file() else sorted(p for p in store.rglob("*") if p.is_file())


def remove(store: Path) -> None:
    if store.is_dir():
        shutil.rmtree(store)
    else:
        store.unlink(missing_ok=True)


def drop_from_cache(store: Path) -> None:
    """The system forgets the pages of the store's files; nothing else is touched."""
    for path in files_of(store):
        with path.open("rb") as file:
            os.fsync(file.fileno())
            os.posix_fadvise(file.fileno(), 0, 0, os.POSIX_FADV_DONTNEED)


def measure(bench: Bench, engine: Engine, phases: list[Path], mode: str) -> dict[str, object]:
    """Feeds the phases to an engine with an empty store; in groups, opens what they leave."""
    store = bench.folder / "store"
    bench.make(engine, store)
    command = bench.command(engine, store, mode)
    try:
        told = bench.feed(command, phases, [], mode)
        result: dict[str, object] = {"phases": told}
        if mode == "groups" and engine.name != "map":
            result["disk"] = sum(path.stat().st_blocks * 512 for path in files_of(store))
            result["opening"] = bench.feed(command, [], phases)["open"]["processor"]
            result["cat"] = bench.cat_seconds(store)
            drop_from_cache(store)
            result["opening_cold"] = bench.feed(command, [], phases)["open"]["processor"]
        return result
    finally:
        remove(store)
