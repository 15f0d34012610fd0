"""Files: opening with the cause of a failure in words, the lock of an image, and new files that appear whole or not at all."""

import argparse
import contextlib
import fcntl
import os
import sys
import tempfile
import time
from collections.abc import Iterator
from typing import BinaryIO

from .causes import process_using, use_cause
from .status import Exit, ToolError

POLL_SECONDS = 0.1


def add_wait(parser: argparse.ArgumentParser) -> None:
    """The choice to wait for an image in use."""
    parser.add_argument("--wait", type=float, default=0, metavar="SECONDS", help="wait up to this long for an image in use")


def cause(path: str, error: OSError) -> str:
    """A failure of the system in words, with what to look at."""
    folder = os.path.dirname(os.path.abspath(path))
    if isinstance(error, FileNotFoundError):
        return f"there is no file {path}" if os.path.isdir(folder) else f"there is no folder {os.path.dirname(path)}"
    if isinstance(error, PermissionError):
        return f"no permission for {path}"
    if isinstance(error, IsADirectoryError):
        return f"{path} is a folder"
    return f"{path}: {error.strerror or error}"


def file_error(path: str, error: OSError) -> ToolError:
    return ToolError(cause(path, error), Exit.FILE)


def open_read(path: str, writing: bool = False) -> BinaryIO:
    """Opens a file for reading, or for writing too, or raises why it does not open."""
    try:
        return open(path, "r+b" if writing else "rb")
    except FileNotFoundError as error:
        raise ToolError(cause(path, error), Exit.DAMAGED) from None
    except OSError as error:
        raise file_error(path, error) from None


def in_use(path: str) -> ToolError:
    found = use_cause(path)
    return ToolError(f"{found.text if found else f'{path} is in use'}; --wait SECONDS waits for it", Exit.IN_USE)


@contextlib.contextmanager
def locked(path: str, wait: float = 0, writing: bool = False) -> Iterator[BinaryIO]:
    """The image, open for reading, while no program has it open: pink is refused meanwhile, and other readers if it is for writing."""
    kind = fcntl.LOCK_EX if writing else fcntl.LOCK_SH
    with open_read(path, writing) as file:
        end, said = time.monotonic() + wait, False
        while True:
            try:
                fcntl.flock(file, kind | fcntl.LOCK_NB)
                break
            except BlockingIOError:
                left = end - time.monotonic()
                if left <= 0:
                    raise in_use(path) from None
                if not said:
                    print(f"waiting for {path}, which is in use by process {process_using(path)}", file=sys.stderr)
                    said = True
                time.sleep(min(POLL_SECONDS, left))
            except OSError as error:
                raise file_error(path, error) from None
        try:
            yield file
        finally:
            fcntl.flock(file, fcntl.LOCK_UN)


def refuse_existing(path: str, force: bool) -> None:
    """Raises if the file exists and may not be replaced."""
    if os.path.isdir(path):
        raise ToolError(f"{path}: it is a folder", Exit.FILE)
    if os.path.lexists(path) and not force:
        raise ToolError(f"{path}: it exists; --force replaces it", Exit.EXISTS)


class NewFile:
    """A file under another name in the same folder, until `keep` gives it its own; it is removed if that is not called."""

    def __init__(self, path: str, force: bool) -> None:
        refuse_existing(path, force)
        self.path = path
        self.force = force
        folder = os.path.dirname(os.path.abspath(path))
        try:
            handle, self.temporary = tempfile.mkstemp(prefix=f".{os.path.basename(path)}.", suffix=".part", dir=folder)
        except OSError as error:
            raise file_error(path, error) from None
        self.file = os.fdopen(handle, "w+b")

    def __enter__(self) -> "NewFile":
        return self

    def __exit__(self, *_: object) -> None:
        self.file.close()
        with contextlib.suppress(FileNotFoundError):
            os.unlink(self.temporary)

    def sync(self) -> None:
        """The bytes are on the disk after this."""
        self.file.flush()
        os.fsync(self.file.fileno())

    def keep(self, mode: int = 0o666) -> None:
        """Gives the file its name, synced; one that exists by now is replaced only by force."""
        self.sync()
        os.fchmod(self.file.fileno(), mode & ~umask())
        try:
            if self.force:
                os.replace(self.temporary, self.path)
            else:
                os.link(self.temporary, self.path)
        except FileExistsError:
            raise ToolError(f"{self.path}: it exists; --force replaces it", Exit.EXISTS) from None
        except OSError as error:
            raise file_error(self.path, error) from None
        sync_folder(self.path)


def umask() -> int:
    """The process's mask for the modes of new files."""
    mask = os.umask(0)
    os.umask(mask)
    return mask


def sync_folder(path: str) -> None:
    """The name of a new file is on the disk after this."""
    folder = os.open(os.path.dirname(os.path.abspath(path)), os.O_RDONLY)
    try:
        os.fsync(folder)
    finally:
        os.close(folder)
