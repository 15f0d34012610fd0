#!/usr/bin/env python3
"""Proves a crate of tests and builds it, over the libraries that `rt ci` left in a checkout.

    build_tests.py CRATE FOLDER LIBRARIES     FOLDER has the crate's src, specs and proofs, LIBRARIES is the checkout; the program is
                                              FOLDER/tests, and runs the tests whose names have the word that it is given

Ends with the status of the first step that fails, whose lines it prints."""
from __future__ import annotations

import pathlib
import subprocess
import sys

import wrong

TARGET = "x86_64-unknown-linux-gnu"


def run(words: list[str], folder: pathlib.Path) -> None:
    both = {"stdout": subprocess.PIPE, "stderr": subprocess.STDOUT}
    ran = subprocess.run(words, cwd=folder, stdin=subprocess.DEVNULL, **both, text=True, errors="replace")
    if ran.returncode:
        sys.stderr.write(ran.stdout)
        sys.exit(ran.returncode)


def main() -> None:
    if len(sys.argv) != 4:
        sys.exit(__doc__)
    crate, folder, libraries = sys.argv[1], pathlib.Path(sys.argv[2]), pathlib.Path(sys.argv[3]).resolve()
    checker = wrong.Checker(libraries)
    if lacking := checker.lacking(crate):
        sys.exit(f"build_tests: {lacking}")
    kit = checker.kit
    words = checker.words(crate)
    words[words.index("check")] = "build"
    run([*words, "--test", "--backend", "llvm", "--toolchain", f"{kit}/toolchain", "-o", "tests.o"], folder)
    link = [f"{kit}/bin/rattle-link", "--target", TARGET, "--toolchain", f"{kit}/toolchain", "-o", "tests", "tests.o"]
    run([*link, f"{kit}/c/libos_c.a", f"{kit}/c/liblibc_c.a"], folder)


if __name__ == "__main__":
    main()
