"""Counts programs and erases of a drive in a trace of its program's writes (strace -e trace=pwrite64): a program ends with a write of 1 to
the state of its page, or of all pages of its row; an erase writes 0 to those of its block. So it counts without a log only.

  states.py TRACE PAGES BLOCK_PAGES     prints both numbers
"""
from __future__ import annotations

import re
import sys

HEADER = 32
WRITE = re.compile(r'\bpwrite64\(\d+, "\\([01])(?:\\[01])*"(?:\.\.\.)?, (\d+), (\d+)\) *= \2$')


def counted(line: str, pages: int, block_pages: int) -> tuple[int, int]:
    """The programs and the erases that end with this line."""
    found = WRITE.search(line.rstrip())
    if not found or not HEADER <= int(found[3]) < HEADER + pages:
        return 0, 0
    size = int(found[2])
    return (size, 0) if found[1] == "1" else (0, size // block_pages)


def main() -> None:
    path, pages, block_pages = sys.argv[1], int(sys.argv[2]), int(sys.argv[3])
    with open(path, errors="replace") as lines:
        both = [counted(line, pages, block_pages) for line in lines]
    print(f"programs {sum(it[0] for it in both)}, erases {sum(it[1] for it in both)}")


if __name__ == "__main__":
    main()
