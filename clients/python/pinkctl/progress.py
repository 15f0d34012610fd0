"""A line on standard error that shows the progress of long work, on a terminal or on request."""

import argparse
import sys
import time
from typing import Optional

EVERY_SECONDS = 0.25


class Progress:
    """Counts up to a total, or without one, and shows it a few times a second."""

    def __init__(self, label: str, total: Optional[int], shown: bool) -> None:
        self.label = label
        self.total = total
        self.shown = shown
        self.count = 0
        self.next = time.monotonic() + EVERY_SECONDS
        self.wrote = False

    def add(self, count: int = 1) -> None:
        self.count += count
        if self.shown and time.monotonic() >= self.next:
            self.next = time.monotonic() + EVERY_SECONDS
            self.show()

    def show(self) -> None:
        part = f" of {self.total:,} ({100 * self.count // max(1, self.total)} %)" if self.total else ""
        print(f"\r{self.label}: {self.count:,}{part}\033[K", end="", file=sys.stderr, flush=True)
        self.wrote = True

    def __enter__(self) -> "Progress":
        return self

    def __exit__(self, *_: object) -> None:
        if self.wrote:
            print("\r\033[K", end="", file=sys.stderr, flush=True)


def add_arguments(parser: argparse.ArgumentParser) -> None:
    """The choice of progress lines."""
    choice = parser.add_mutually_exclusive_group()
    choice.add_argument("--progress", action="store_true", default=None, help="show progress also if standard error is no terminal")
    choice.add_argument("--quiet", "-q", dest="progress", action="store_false", help="show no progress, and no summary of what was done")


def shown(args: argparse.Namespace) -> bool:
    """Whether progress is shown."""
    return sys.stderr.isatty() if args.progress is None else args.progress


def say(args: argparse.Namespace, text: str) -> None:
    """A summary on standard error, unless it is to be quiet."""
    if args.progress is not False:
        print(text, file=sys.stderr)
