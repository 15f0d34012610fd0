"""What keeps a program from opening an image, in words: the one source of them for the launchers, the clients and pinkctl.

For the launchers, as a program:  python3 -m pinkctl.causes STATUS IMAGE WORD [SPARES]
It prints the cause of status 6 or 8 of `pink IMAGE WORD` and what to do about it, and ends with 1 if nothing is seen. With `mirror`
as the word it prints the cause alone, of an image of a pair.
"""

import contextlib
import enum
import os
import sys
from typing import BinaryIO, NamedTuple, Optional

from . import layout as it
from .image import Fault, Image, NotAnImage, open_image, read_flash, roots_of, unknown_versions
from .keys import shown_in
from .layout import ERASED, WHOLE, Layout
from .log import LogFault, log_of, path_of
from .status import ToolError

LEAST_FREE_BYTES = 65536
"""With less space on its disk a write of an image may fail."""


class Kind(enum.Enum):
    """What is the matter with the file of an image."""

    MISSING = "there is no file"
    FILE = "the system does not let it be read and written"
    IN_USE = "another process has it open"
    SPACE = "its disk is full"
    LOG = "its log does not fit it"
    FOREIGN = "it is no image"
    UNMADE = "its making was broken off"
    VERSION = "it has a version of the format that is not known"
    SPARES = "it has another number of spare blocks"
    DAMAGED = "it is damaged"


class Cause(NamedTuple):
    """What is the matter, in words; the number is that of the process that uses it, or of its spare blocks."""

    kind: Kind
    text: str
    number: int = 0


# The file, as the system has it.


def process_using(path: str) -> Optional[int]:
    """The process that has the file locked; None if the system lists none."""
    try:
        found = os.stat(path)
    except OSError:
        return None
    # A list that is read in pieces while it changes may lack an entry, so it is read up to three times.
    processes = (_lock_of(found) for _ in range(3))
    return next((process for process in processes if process is not None), None)


def _lock_of(found: os.stat_result) -> Optional[int]:
    device = f"{os.major(found.st_dev):02x}:{os.minor(found.st_dev):02x}"
    try:
        with open("/proc/locks", encoding="ascii") as locks:
            lines = [line.split() for line in locks]
    except OSError:
        return None
    for words in lines:
        if len(words) < 6 or words[1] != "FLOCK" or not words[4].isdigit():
            continue
        place, _, inode = words[5].rpartition(":")
        # Some file systems list another device than a file says; then the process has to have this file open.
        if inode == str(found.st_ino) and (place == device or _has_open(words[4], found)):
            return int(words[4])
    return None


def _has_open(process: str, found: os.stat_result) -> bool:
    """Whether a process has this file open, as far as this one may see it."""
    folder = f"/proc/{process}/fd"
    with contextlib.suppress(OSError):
        for name in os.listdir(folder):
            with contextlib.suppress(OSError):
                if os.path.samestat(os.stat(os.path.join(folder, name)), found):
                    return True
    return False


def words_of(process: int) -> str:
    """The command of a process, up to 80 letters; nothing if it has ended."""
    try:
        with open(f"/proc/{process}/cmdline", "rb") as file:
            return file.read().replace(b"\0", b" ").decode("utf-8", "replace")[:80].strip()
    except OSError:
        return ""


def use_cause(path: str) -> Optional[Cause]:
    """Who has the image open; None if nobody is seen."""
    process = process_using(path)
    if process is None:
        return None
    words = words_of(process)
    return Cause(Kind.IN_USE, f"{path} is in use by process {process}" + (f" ({words})" if words else ""), process)


def file_cause(path: str, making: bool = False) -> Optional[Cause]:
    """Why the file cannot be opened; None if nothing is seen."""
    folder = os.path.dirname(os.path.abspath(path))
    if os.path.isdir(path):
        return Cause(Kind.FILE, f"{path} is a folder")
    if not os.path.isdir(folder):
        return Cause(Kind.FILE, f"there is no folder {os.path.dirname(path)}")
    if os.path.exists(path) and not os.access(path, os.R_OK | os.W_OK):
        return Cause(Kind.FILE, f"no permission to read and write {path}")
    if making and not os.path.exists(path) and not os.access(folder, os.W_OK):
        return Cause(Kind.FILE, f"no permission to make a file in {os.path.dirname(path) or '.'}")
    return None


def space_cause(path: str) -> Optional[Cause]:
    """Whether the disk of an image is full."""
    try:
        system = os.statvfs(path if os.path.exists(path) else os.path.dirname(path) or ".")
    except OSError:
        return None
    if system.f_bavail * system.f_frsize >= LEAST_FREE_BYTES:
        return None
    return Cause(Kind.SPACE, f"there is no space left on the disk of {path}")


def log_cause(path: str) -> Optional[Cause]:
    """Why the log of an image is not taken; None if it is, or there is none."""
    log = path_of(path)
    try:
        if log_of(path) is None:
            return None
        if not os.access(log, os.W_OK):
            return Cause(Kind.LOG, f"no permission to write {log}, the log of {path}")
        with open(path, "rb") as file:
            open_image(file)
    except LogFault as fault:
        return Cause(Kind.LOG, str(fault))
    except (OSError, NotAnImage, ToolError):
        pass
    return None


def flash_cause(path: str, making: bool = False) -> Optional[Cause]:
    """Why a program ended with 6; None if nothing is seen."""
    return use_cause(path) or file_cause(path, making) or log_cause(path) or space_cause(path)


# The image.


def image_cause(path: str, making: bool = False, spares: int = 0) -> Optional[Cause]:
    """Why a program that named this many spare blocks ended with 8; None if nothing is seen."""
    found = file_cause(path, making)
    if found:
        return found
    try:
        with open(path, "rb") as file:
            return drive_cause(file, spares)
    except FileNotFoundError:
        return missing_cause(path)
    except (OSError, ToolError) as error:
        return Cause(Kind.FILE, getattr(error, "strerror", None) or str(error))


def missing_cause(path: str) -> Cause:
    """There is no image, but there may be what an image that was moved without its log has left."""
    log = path_of(path)
    if not os.path.exists(log):
        return Cause(Kind.MISSING, f"there is no file {path}")
    text = f"there is no file {path}, but {log} is there, the log of an image that was moved or removed without it"
    return Cause(Kind.LOG, f"{text}: pinkctl mv moves both, and a make here would empty the log")


def drive_cause(file: BinaryIO, spares: int = 0) -> Optional[Cause]:
    """Why an open image has no drive with this many spare blocks; None if it has one."""
    try:
        image = open_image(file)
    except NotAnImage as wrong:
        return not_an_image(wrong)
    except LogFault as fault:
        return Cause(Kind.LOG, str(fault))
    found = root_cause(image, file.name) or spares_cause(image, file.name, spares)
    if found:
        return found
    fault = read_flash(image).fault
    return Cause(Kind.DAMAGED, f"{file.name} is damaged: {fault_text(fault)}") if fault else None


def not_an_image(wrong: NotAnImage) -> Cause:
    """What the file is instead of an image."""
    if wrong.unmade:
        return Cause(Kind.UNMADE, str(wrong))
    return Cause(Kind.FOREIGN if wrong.foreign else Kind.DAMAGED, str(wrong))


def spares_cause(image: Image, name: str, spares: int) -> Optional[Cause]:
    """Whether the drive has another number of spare blocks than was named."""
    if image.spares == spares:
        return None
    if not image.spares:
        return Cause(Kind.SPARES, f"{name} has no table of spare blocks: it was made without them")
    tail = f", not {spares}" if spares else ""
    return Cause(Kind.SPARES, f"{name} has {image.spares} spare blocks{tail}", image.spares)


def root_cause(image: Image, name: str) -> Optional[Cause]:
    """Why no page of the root blocks is a root; None if one is."""
    if roots_of(image):
        return None
    versions = sorted(unknown_versions(image))
    if versions:
        return Cause(Kind.VERSION, version_text(name, versions))
    pages = Layout(image.shape).root_pages
    written = [page for page in pages if image.states[page] != ERASED]
    others = image.file_states.count(ERASED) < len(image.file_states) - len(written)
    whole = [page for page in written if image.states[page] == WHOLE]
    if not written and not others:
        return Cause(Kind.UNMADE, f"the making of {name} was broken off before its root was written")
    if not whole and not others:
        return Cause(Kind.UNMADE, f"the making of {name} was broken off while its root was written")
    if not whole:
        return Cause(Kind.DAMAGED, f"{name} is damaged: its root blocks are {'torn' if written else 'erased'}, and other blocks are written")
    reason = f"page {whole[0]}: {root_fault(image, whole[0])}"
    return Cause(Kind.DAMAGED, f"{name} is damaged: no page of its root blocks is a root ({len(whole)} are written, the first is {reason})")


def root_fault(image: Image, page: int) -> str:
    """Why a Whole page of a root block is no root."""
    text, _, n, p, m, *_ = it.ROOT_HEAD.unpack_from(image.page(page))
    if text != it.ROOT_TEXT:
        return "it does not begin with PINKROOT"
    shape = it.Shape(p, n, m)
    spares = image.shape.blocks - it.TABLE_BLOCKS - m
    if shape == it.Shape(image.shape.page_bytes, image.shape.block_pages, m) and 1 <= spares <= it.MOST_SPARES:
        return f"it is of a drive with {spares} spare blocks, of which no table reads"
    if shape != image.shape:
        return f"it names the shape {shape}"
    return "what it names is not allowed"


def version_text(name: str, versions: list[int]) -> str:
    """Versions of the format that are not known, and where to read on."""
    named, known = (" and ".join(map(str, sorted(some))) for some in (versions, it.RULES))
    return f"{name} has version {named} of the format, and this program opens versions {known}; docs/LIVING.md says how to move it"


def fault_text(fault: Fault) -> str:
    """A fault in a line: the page, its key, what it is, what is wrong."""
    key = f" of the key {shown_in(*fault.key)}" if fault.key is not None else ""
    text = f"page {fault.page} is wrong: {fault.part}{key}: {fault.why}"
    if fault.keys:
        names = f"{shown_in(*min(fault.keys))} to {shown_in(*max(fault.keys))}"
        text += f"; it names {len(fault.keys):,} key{'s' * (len(fault.keys) != 1)}, {names}"
    return text


def spares_of(path: str) -> int:
    """The number of spare blocks of an image; 0 if it has none, or no drive."""
    try:
        with open(path, "rb") as file:
            return open_image(file).spares
    except (OSError, NotAnImage, ToolError):
        return 0


# What to do about it.


def hint(cause: Cause, path: str, spares: int = 0) -> str:
    """What to do about a cause, at a shell's prompt; nothing if the cause says it."""
    spared = f"spared {spares} " if spares else ""
    return {
        Kind.MISSING: f"pink {path} {spared}make 512 16 64 would make a small drive",
        Kind.SPARES: f"pink {path} spared {cause.number} WORDS.." if cause.number else f"pink {path} WORDS..",
        Kind.UNMADE: "remove it, and make it again",
        Kind.DAMAGED: f"see pinkctl check {path}",
    }.get(cause.kind, "")


def making_hint(path: str, status: int) -> str:
    """What to do where an image cannot be made, since something else is there."""
    return "remove it, or name another file" if status == 8 and os.path.exists(path) else ""


def python_hint(cause: Cause, path: str, spares: int = 0) -> str:
    """What to do about a cause, in Python; nothing if the cause says it."""
    if cause.kind == Kind.MISSING:
        named = f", spares={spares}" if spares else ""
        return f"make({path!r}, 512, 16, 64{named}) would make a small drive"
    if cause.kind == Kind.SPARES:
        return f"Drive({path!r}, spares={cause.number})" if cause.number else f"Drive({path!r})"
    return hint(cause, path)


def cause_of(status: int, path: str, making: bool = False, spares: int = 0) -> Optional[Cause]:
    """The cause of status 6 or 8 of a program; None if nothing is seen."""
    return flash_cause(path, making) if status == 6 else image_cause(path, making, spares)


def line_of(status: int, path: str, word: str, spares: int) -> Optional[str]:
    """The cause of a status with what to do about it; None if nothing is seen."""
    making = word == "make"
    found = cause_of(status, path, making, spares)
    if found is None or word == "mirror":
        return found.text if found else None
    more = (making and making_hint(path, status)) or hint(found, path, spares)
    return f"{found.text}; {more}" if more else found.text


def main(arguments: list[str]) -> int:
    status, path, word, *more = arguments
    line = line_of(int(status), path, word, int(more[0]) if more and more[0].isdigit() else 0)
    if line is None:
        return 1
    print(line)
    return 0


if __name__ == "__main__":
    sys.exit(main(sys.argv[1:]))
