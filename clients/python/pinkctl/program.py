"""The programs beside the tools: the client of the drive, and pinkdump if it is built."""

import os
import shutil
import subprocess
import sys
from collections.abc import Sequence
from typing import NamedTuple, Optional

CLIENTS = os.path.dirname(os.path.dirname(os.path.realpath(__file__)))
TOP = os.path.dirname(os.path.dirname(CLIENTS))
if CLIENTS not in sys.path:
    sys.path.insert(0, CLIENTS)

import pinkdrive

from .causes import spares_of
from .files import cause, locked
from .keys import shown
from .status import Exit, ToolError


def pink() -> str:
    """The launcher of the program, as the client has it, or as the environment names it."""
    return os.environ.get("PINK_PROGRAM", pinkdrive.PROGRAM)


def open_drive(image: str, frames: int = 148, wait: float = 0, namespace: int = 1) -> pinkdrive.Drive:
    """A session of the drive in an image, with its spare blocks, for a namespace; what keeps it from opening is raised with its cause.

    What the launcher says is not shown: the exception says it.
    """
    with locked(image, wait):
        pass
    try:
        open(image, "r+b").close()
    except OSError as error:
        raise ToolError(f"{cause(image, error)} to write, which the program needs to open it", Exit.FILE) from None
    try:
        return pinkdrive.Drive(
            image, frames=frames, program=pink(), stderr=subprocess.DEVNULL, spares=spares_of(image), namespace=namespace
        )
    except OSError as error:
        raise not_started(error) from None


def refusal(error: pinkdrive.StatusError) -> str:
    """A refusal of the drive in words, with its key as people type it."""
    return str(error).replace(repr(error.key), shown(error.key))


def not_started(error: OSError) -> ToolError:
    return ToolError(f"the program {pink()} cannot be started: {error.strerror}", Exit.PROGRAM)


def make_image(image: str, shape: tuple[int, int, int], limits: Sequence[int] = ()) -> None:
    """Makes the image of a drive without keys, of namespaces with these limits."""
    try:
        pinkdrive.make(image, *shape, program=pink(), stderr=subprocess.DEVNULL, limits=limits)
    except OSError as error:
        raise not_started(error) from None


def pinkdump() -> Optional[str]:
    """The program pinkdump, only if it is built: a comparison builds nothing."""
    named = os.environ.get("PINKDUMP_PROGRAM")
    if named:
        return named
    built = os.path.join(TOP, "crates", "pinkdump", "out", "pinkdump")
    return built if os.access(built, os.X_OK) else shutil.which("pinkdump")


SPARE_LINES = ("spares ", "table ", "spare ")
"""How the lines begin that pinkdump prints of spare blocks, after the verdict."""


class Told(NamedTuple):
    """What pinkdump says of an image: its status, the last line, or the line of its refusal."""

    status: int
    line: str


def dump_verdict(image: str, spares: int = 0) -> Optional[Told]:
    """The verdict of pinkdump about an image with this many spare blocks; None if it is not built."""
    program = pinkdump()
    if program is None:
        return None
    words = [program, image, *pinkdrive.spared(spares, ["lines"])]
    done = subprocess.run(words, capture_output=True, text=True, stdin=subprocess.DEVNULL)
    lines = [line for line in (done.stdout or done.stderr).splitlines() if not line.startswith(SPARE_LINES)]
    return Told(done.returncode, lines[-1] if lines else "")
