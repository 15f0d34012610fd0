"""The exit statuses of every part of pinkctl, and the error that carries one.

Statuses that `pink` has too mean the same as there (docs/COMMANDS.md).
"""

import enum


class Exit(enum.IntEnum):
    """The exit statuses. Each has one meaning in all parts."""

    OK = 0
    MISSING = 1
    USAGE = 2
    REFUSED = 3
    INPUT = 4
    OUTPUT = 5
    IN_USE = 6
    DAMAGED = 8
    EXISTS = 9
    DOUBTFUL = 10
    FILE = 11
    LINE = 12
    VERSION = 13
    DISAGREES = 14
    PROGRAM = 15
    INTERRUPTED = 130


MEANINGS: dict[Exit, str] = {
    Exit.OK: "done; of check: the image is whole",
    Exit.MISSING: "the key does not exist",
    Exit.USAGE: "the arguments are wrong, or a line of the shell",
    Exit.REFUSED: "the drive refused a command, such as a value that is too long or a full drive",
    Exit.INPUT: "reading the input failed",
    Exit.OUTPUT: "writing the output failed",
    Exit.IN_USE: "another process has the image open",
    Exit.DAMAGED: "there is no drive in the image: no image, a damaged one, or one without a root",
    Exit.EXISTS: "a file, or a key with another value, exists, and --force or --overwrite was not given",
    Exit.DOUBTFUL: "check: it opens, but it may have lost changes; salvage: something is lost or doubtful",
    Exit.FILE: "a file or folder cannot be opened, read or written; the message has the cause",
    Exit.LINE: "a line of the import is outside the grammar, or the file is cut off",
    Exit.VERSION: "the image has a layout of a version that this pinkctl does not know",
    Exit.DISAGREES: "pinkctl and pinkdump differ about the image: please report it",
    Exit.PROGRAM: "the program pink ended early or cannot be started",
    Exit.INTERRUPTED: "interrupted from the keyboard",
}


class ToolError(Exception):
    """What ends a part of pinkctl: one line for people, and the exit status."""

    def __init__(self, message: str, status: Exit) -> None:
        super().__init__(message)
        self.status = status


def table() -> str:
    """The exit statuses as text, a line each."""
    return "\n".join(f"  {status.value:>3}  {MEANINGS[status]}" for status in Exit)
