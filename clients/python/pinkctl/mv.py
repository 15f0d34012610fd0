"""mv: an image under another name, with the steps of its log."""

import argparse
import contextlib
import errno
import os
from typing import Any, BinaryIO

from .files import add_wait, file_error, locked, sync_folder
from .image import NotAnImage, open_image
from .log import SUFFIX, LogFault, log_of, write_into
from .status import Exit, ToolError

DESCRIPTION = """\
Renames an image while no program has it open. An image that is moved without its log (IMAGE-wal) is
read as an older one, with no complaint. So the steps of the log are brought into the image first,
the image is synced, the log is shut, synced and removed, and then the one file gets its new name.
Wherever this is broken off, IMAGE or TO is read as IMAGE was before. Nothing is replaced."""


def add_parser(subparsers: Any) -> None:
    parser = subparsers.add_parser(
        "mv", help="rename an image that may have a log", description=DESCRIPTION, formatter_class=argparse.RawDescriptionHelpFormatter
    )
    parser.add_argument("image", metavar="IMAGE")
    parser.add_argument("to", metavar="TO", help="the new name; for a folder, the same name in it")
    add_wait(parser)
    parser.set_defaults(run=run)


def settle(file: BinaryIO) -> None:
    """Brings the steps of the log of a locked image into it, and removes the log.

    Until the image is synced the log has all steps, and doing them again changes nothing; after that it may be shut. It is synced
    before its name goes, as a name that a loss of power brings back has to be that of a shut log.
    """
    log = log_of(file.name)
    if log is None:
        return
    if log.batches:
        write_into(file.fileno(), log, open_image(file).file_shape)
        os.fsync(file.fileno())
    with open(log.path, "r+b") as own:
        os.pwrite(own.fileno(), b"\0", 0)
        os.fsync(own.fileno())
    os.unlink(log.path)
    sync_folder(log.path)


def log_beside(new: str) -> str:
    """Where the log of a new image of this name would be, which takes the place of a link."""
    return os.path.join(os.path.realpath(os.path.dirname(new)), os.path.basename(new)) + SUFFIX


def refuse_log(new: str, force: bool) -> None:
    """Raises if a log is beside the name of a new image, over which it would be put."""
    if os.path.lexists(log_beside(new)) and not force:
        raise ToolError(f"{log_beside(new)}: it exists, the log of another image, and would be put over this one: move it away", Exit.EXISTS)


def clear_log(new: str) -> None:
    """Removes the log beside a name that a new image gets. An image that is replaced has the steps of its log before, if they fit it."""
    log = log_beside(new)
    if not os.path.lexists(log):
        return
    if os.path.exists(new) and not os.path.islink(new):
        with locked(new, writing=True) as file:
            log_of(new)  # with two names of the file nothing is removed
            with contextlib.suppress(LogFault, NotAnImage):
                settle(file)
    with contextlib.suppress(FileNotFoundError):
        os.unlink(log)
        sync_folder(log)


def rename(image: str, target: str) -> None:
    try:
        os.rename(image, target)
    except OSError as error:
        if error.errno == errno.EXDEV:
            raise ToolError(f"{target}: it is on another disk: copy the image by pinkctl backup, then remove it", Exit.FILE) from None
        raise file_error(target, error) from None
    sync_folder(target)
    sync_folder(image)


def run(args: argparse.Namespace) -> int:
    target = os.path.join(args.to, os.path.basename(args.image)) if os.path.isdir(args.to) else args.to
    if os.path.islink(args.image):
        raise ToolError(f"{args.image}: it is a link to {os.path.realpath(args.image)}, so name that", Exit.USAGE)
    if os.path.lexists(target):
        raise ToolError(f"{target}: it exists, and mv replaces nothing", Exit.EXISTS)
    refuse_log(target, False)
    if not os.path.isdir(os.path.dirname(os.path.abspath(target))):
        raise ToolError(f"{target}: there is no folder {os.path.dirname(target)}", Exit.FILE)
    with locked(args.image, args.wait, writing=True) as file:
        try:
            settle(file)
        except NotAnImage as wrong:
            raise ToolError(f"{wrong}, so its log stays beside it; nothing was moved", Exit.DAMAGED) from None
        rename(args.image, target)
    return Exit.OK
