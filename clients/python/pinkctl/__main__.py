"""pinkctl: what people need to live with a drive.  pinkctl PART --help  explains each part."""

import argparse
import importlib
import importlib.metadata
import importlib.util
import os
import signal
import subprocess
import sys
from collections.abc import Sequence
from typing import Any, Optional

from .program import TOP, pinkdrive
from .status import Exit, ToolError, table

PARTS = ("check", "export", "load", "backup", "mv", "salvage", "shell", "shapes", "server", "cluster")
"""The modules of the parts, in the order of the help."""


class Version(argparse.Action):
    """Prints the commit and the kit of the sources, or the version of the package where pip installed it."""

    def __init__(self, **how: Any) -> None:
        super().__init__(nargs=0, help="print the commit and the kit of the sources", **how)

    def __call__(self, parser: argparse.ArgumentParser, *_: object) -> None:
        print(version_text())
        parser.exit()


def version_text() -> str:
    """The version, as the launchers of the same folder print it."""
    launchers = os.path.join(TOP, "launch", "run.sh")
    if os.path.isfile(launchers):
        shell = 'top=$1; . "$top/launch/run.sh"; sources'
        done = subprocess.run(["sh", "-c", shell, "sh", TOP], stdout=subprocess.PIPE, text=True, stdin=subprocess.DEVNULL)
        return f"pinkctl {done.stdout.strip()}"
    try:
        return f"pinkctl (Cezhandru), version {importlib.metadata.version('pinkdrive')}"
    except importlib.metadata.PackageNotFoundError:
        return "pinkctl (Cezhandru), version unknown"


def parser_of() -> argparse.ArgumentParser:
    parser = argparse.ArgumentParser(
        prog="pinkctl",
        description="Tools for the image file of a key-value drive.",
        epilog=f"exit statuses of all parts:\n{table()}",
        formatter_class=argparse.RawDescriptionHelpFormatter,
    )
    parser.add_argument("--version", action=Version)
    subparsers = parser.add_subparsers(title="parts", metavar="PART", dest="part", required=True)
    for name in PARTS:
        if importlib.util.find_spec(f"{__package__}.{name}"):
            importlib.import_module(f"{__package__}.{name}").add_parser(subparsers)
    return parser


def drive_error(error: pinkdrive.DriveError) -> Exit:
    """The exit status for an error of the drive or of its program."""
    if isinstance(error, pinkdrive.KeyDoesNotExist):
        return Exit.MISSING
    if isinstance(error, pinkdrive.DriveEnded) and error.kind == "log":
        return Exit.DAMAGED
    if isinstance(error, pinkdrive.DriveEnded):
        return {6: Exit.IN_USE, 8: Exit.DAMAGED, 9: Exit.EXISTS}.get(error.status, Exit.PROGRAM)
    return Exit.REFUSED


def guarded(args: argparse.Namespace) -> int:
    """Runs a part; if an error ends it, one line on standard error says which."""
    try:
        return args.run(args)
    except ToolError as error:
        message, status = str(error), error.status
    except pinkdrive.DriveError as error:
        message, status = told(error), drive_error(error)
    except KeyboardInterrupt:
        message, status = "interrupted", Exit.INTERRUPTED
    except BrokenPipeError:
        os.dup2(os.open(os.devnull, os.O_WRONLY), sys.stdout.fileno())  # so that the end of Python writes nothing
        return Exit.OUTPUT
    except OSError as error:
        message, status = str(error), Exit.FILE
    print(f"pinkctl {args.part}: {message}", file=sys.stderr)
    return status


def told(error: pinkdrive.DriveError) -> str:
    """The error in words, with a hint for a shell if there is one."""
    if not isinstance(error, pinkdrive.DriveEnded):
        return str(error)
    tail = f"; {error.shell_hint}" if error.shell_hint else ""
    return f"status {error.status}: {error.cause or error.name}{tail}"


def end_on(signals: Sequence[signal.Signals]) -> None:
    """These signals end a part as an exit does, so that unfinished files go away and the drive is closed."""
    for number in signals:
        signal.signal(number, lambda number, _: sys.exit(128 + number))


def main(arguments: Optional[Sequence[str]] = None) -> int:
    args = parser_of().parse_args(arguments)
    end_on([signal.SIGTERM, signal.SIGHUP])
    status = guarded(args)
    try:
        sys.stdout.flush()
    except BrokenPipeError:
        os.dup2(os.open(os.devnull, os.O_WRONLY), sys.stdout.fileno())
        return Exit.OUTPUT
    except OSError as error:
        print(f"pinkctl {args.part}: writing the output failed: {error.strerror}", file=sys.stderr)
        os.dup2(os.open(os.devnull, os.O_WRONLY), sys.stdout.fileno())
        return Exit.OUTPUT
    return status


if __name__ == "__main__":
    sys.exit(main())
