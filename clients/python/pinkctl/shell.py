"""shell: one session of a drive, with keys and values as text."""

import argparse
import contextlib
import itertools
import os
import sys
from collections.abc import Callable, Iterator, Sequence
from typing import Any, NamedTuple, Optional

from .files import add_wait
from .keys import Word, WordError, read_value, shown, words_of
from .program import open_drive, pinkdrive, refusal
from .status import Exit, ToolError

DESCRIPTION = """\
Opens a drive once and takes commands, from the keyboard, from standard input, or from --execute
(repeated: in order). `help` lists them. A change is on the flash when its `ok` is printed.

A key or value is the text itself (user:1), hexadecimal after 0x (0x00ff), or in quotes with escapes
("two words\\n", 'a\\x00b'). `set KEY < FILE` stores a file, `get KEY > FILE` writes one.

`get` prints a value as a word, which `set` reads again; with --raw its bytes alone. `namespace N` goes on
in another namespace of the drive.

Without a keyboard it ends at the first command that fails, with its status: 1 if a key does not
exist, 2 if a line is wrong, 3 if the drive refused a command."""

HISTORY_LINES = 1000
TICK_STEPS = 16


class Session:
    """The drive, and how values are printed: as words, or their bytes."""

    def __init__(self, drive: pinkdrive.Drive, raw: bool) -> None:
        self.drive = drive
        self.raw = raw

    def print(self, text: str) -> None:
        print(text, flush=True)

    def print_value(self, value: bytes) -> None:
        if not self.raw:
            self.print(shown(value))
            return
        sys.stdout.flush()
        sys.stdout.buffer.write(value)
        sys.stdout.buffer.flush()


class Command(NamedTuple):
    """A command of the shell: its arguments as people see them, what it does, and how many words it takes."""

    arguments: str
    about: str
    run: Callable[[Session, Sequence[Word]], int]
    least: int
    most: int


def get(session: Session, words: Sequence[Word]) -> int:
    value = session.drive.retrieve(words[0].bytes())
    if len(words) == 1:
        session.print_value(value)
        return Exit.OK
    name = file_name(words, ">")
    try:
        with open(name, "wb") as file:
            file.write(value)
    except OSError as error:
        raise ToolError(f"{name}: {error.strerror}", Exit.FILE) from None
    session.print(f"ok, {len(value):,} bytes to {name}")
    return Exit.OK


def file_name(words: Sequence[Word], mark: str) -> str:
    """The name in KEY > FILE, or KEY < FILE."""
    if len(words) == 3 and words[1].text == mark and words[1].quoted is None:
        word = words[2]
        return os.fsdecode(word.quoted) if word.quoted is not None else word.text
    raise WordError(f"KEY {mark} FILE is needed; quote a value of several words")


def set_(session: Session, words: Sequence[Word]) -> int:
    plain = len(words) == 2 and (words[1].quoted is not None or words[1].text != "<")
    value = words[1].bytes() if plain else read_value(file_name(words, "<"))
    session.drive.store(words[0].bytes(), value)
    session.print("ok")
    return Exit.OK


def add(session: Session, words: Sequence[Word]) -> int:
    session.drive.store(words[0].bytes(), words[1].bytes(), if_absent=True)
    session.print("ok")
    return Exit.OK


def delete(session: Session, words: Sequence[Word]) -> int:
    missing = 0
    for word in words:
        try:
            session.drive.delete(word.bytes())
        except pinkdrive.KeyDoesNotExist:
            missing += 1
            session.print(f"missing {shown(word.bytes())}")
    if not missing:
        session.print("ok")
    return Exit.MISSING if missing else Exit.OK


def has(session: Session, words: Sequence[Word]) -> int:
    there = session.drive.exist(words[0].bytes())
    session.print("yes" if there else "no")
    return Exit.OK if there else Exit.MISSING


def length(session: Session, words: Sequence[Word]) -> int:
    session.print(str(session.drive.length(words[0].bytes())))
    return Exit.OK


def count_in(words: Sequence[Word], at: int) -> Optional[int]:
    """The number at this place of the words, None if there is none."""
    if len(words) <= at:
        return None
    if not words[at].text.isdigit():
        raise WordError(f"{words[at].text}: a number is needed")
    return int(words[at].text)


def list_(session: Session, words: Sequence[Word]) -> int:
    start = words[0].bytes() if words else b""
    for key in itertools.islice(session.drive.keys_from(start), count_in(words, 1)):
        print(shown(key))
    sys.stdout.flush()
    return Exit.OK


def scan(session: Session, words: Sequence[Word]) -> int:
    prefix = words[0].bytes() if words else b""
    pairs = itertools.takewhile(lambda pair: pair[0].startswith(prefix), session.drive.items_from(prefix))
    for key, value in itertools.islice(pairs, count_in(words, 1)):
        print(shown(key), shown(value))
    sys.stdout.flush()
    return Exit.OK


def stat(session: Session, words: Sequence[Word]) -> int:
    report = session.drive.report()
    for name, value in zip(report._fields, report):
        session.print(f"{name} {value}")
    return Exit.OK


def namespace(session: Session, words: Sequence[Word]) -> int:
    if words:
        number = count_in(words, 0)
        session.drive.report(namespace=number)  # refused if the drive has no such namespace
        session.drive.namespace = number
    session.print(str(session.drive.namespace))
    return Exit.OK


def tick(session: Session, words: Sequence[Word]) -> int:
    session.drive.tick(count_in(words, 0) or TICK_STEPS)
    session.print("ok")
    return Exit.OK


def help_(session: Session, words: Sequence[Word]) -> int:
    for name, command in COMMANDS.items():
        session.print(f"  {name + ' ' + command.arguments:<24} {command.about}")
    return Exit.OK


class Quit(Exception):
    """The end of the shell was asked for."""


def quit_(session: Session, words: Sequence[Word]) -> int:
    raise Quit


COMMANDS: dict[str, Command] = {
    "get": Command("KEY [> FILE]", "prints a value, or writes it to a file", get, 1, 3),
    "set": Command("KEY VALUE | KEY < FILE", "stores a value", set_, 2, 3),
    "add": Command("KEY VALUE", "stores a value unless the key exists", add, 2, 2),
    "del": Command("KEY ..", "deletes keys", delete, 1, 1000),
    "has": Command("KEY", "prints whether a key exists", has, 1, 1),
    "length": Command("KEY", "prints the length of a value", length, 1, 1),
    "list": Command("[KEY [COUNT]]", "prints the keys in order, from KEY on", list_, 0, 2),
    "scan": Command("[PREFIX [COUNT]]", "prints keys that begin with PREFIX, and their values", scan, 0, 2),
    "namespace": Command("[N]", "prints the namespace, or goes on in another one", namespace, 0, 1),
    "stat": Command("", "prints the drive's numbers", stat, 0, 0),
    "tick": Command("[STEPS]", "lets the drive work in the background", tick, 0, 1),
    "help": Command("", "prints this table", help_, 0, 0),
    "quit": Command("", "ends the shell", quit_, 0, 0),
}


def add_parser(subparsers: Any) -> None:
    parser = subparsers.add_parser(
        "shell", help="use a drive by hand", description=DESCRIPTION, formatter_class=argparse.RawDescriptionHelpFormatter
    )
    parser.add_argument("image", metavar="IMAGE")
    parser.add_argument("--execute", "-e", action="append", metavar="LINE", help="run this line, and end")
    parser.add_argument("--namespace", type=int, default=1, metavar="N", help="begin in this namespace (default 1)")
    parser.add_argument("--raw", action="store_true", help="get prints the bytes of a value and nothing after them")
    parser.add_argument("--words", dest="raw", action="store_false", help="get prints a value as a word that set reads again (the default)")
    add_wait(parser)
    parser.set_defaults(run=run)


def run_line(session: Session, line: str) -> int:
    """Runs a line; an empty one does nothing."""
    words = words_of(line)
    if not words:
        return Exit.OK
    name = {"exit": "quit", "delete": "del", "exists": "has", "put": "set", "select": "namespace"}.get(words[0].text, words[0].text)
    command = COMMANDS.get(name) if words[0].quoted is None else None
    if command is None:
        raise WordError(f"{words[0].text}: there is no such command; help lists them")
    if not command.least <= len(words) - 1 <= command.most:
        raise WordError(f"{name} {command.arguments} is needed; quote a key or value of several words")
    return command.run(session, words[1:])


def status_of(error: pinkdrive.StatusError) -> tuple[str, Exit]:
    """A refusal of the drive in a word, and the status."""
    if isinstance(error, pinkdrive.KeyDoesNotExist):
        return f"missing {shown(error.key)}", Exit.MISSING
    return refusal(error), Exit.REFUSED


def attempt(session: Session, line: str, place: str) -> int:
    """Runs a line, and says what fails on standard error."""
    try:
        return run_line(session, line)
    except pinkdrive.StatusError as error:
        message, status = status_of(error)
    except ToolError as error:
        message, status = str(error), error.status
    print(f"{place}{message}", file=sys.stderr, flush=True)
    return status


def run_script(session: Session, lines: Iterator[tuple[str, str]]) -> int:
    """Runs lines, each with what to say before an error, up to the first that fails."""
    with contextlib.suppress(Quit):
        for place, line in lines:
            status = attempt(session, line, place)
            if status:
                return status
    return Exit.OK


def history_file() -> str:
    named = os.environ.get("PINKCTL_HISTORY")
    state = os.environ.get("XDG_STATE_HOME") or os.path.expanduser("~/.local/state")
    return named if named is not None else os.path.join(state, "pinkctl_history")


@contextlib.contextmanager
def history() -> Iterator[None]:
    """Lines of earlier shells come back by the arrow keys, and commands are completed, if Python has readline."""
    try:
        import readline
    except ImportError:
        yield
        return
    name = history_file()
    readline.set_history_length(HISTORY_LINES)
    readline.set_completer(lambda text, n: ([f"{it} " for it in COMMANDS if it.startswith(text)] + [None])[n])
    readline.parse_and_bind("tab: complete")
    with contextlib.suppress(OSError):
        readline.read_history_file(name)
    try:
        yield
    finally:
        with contextlib.suppress(OSError):
            if name:
                os.makedirs(os.path.dirname(os.path.abspath(name)), exist_ok=True)
                readline.write_history_file(name)


def interact(session: Session, image: str) -> int:
    """Takes lines from the keyboard up to quit or the end of the input."""
    print(f"{image}: {len(session.drive):,} keys; help lists the commands")
    with history(), contextlib.suppress(Quit, EOFError):
        while True:
            try:
                attempt(session, input("pink> "), "")
            except KeyboardInterrupt:
                print()
    return Exit.OK


def run(args: argparse.Namespace) -> int:
    with open_drive(args.image, wait=args.wait, namespace=args.namespace) as drive:
        session = Session(drive, args.raw)
        if args.execute:
            return run_script(session, (("", line) for line in args.execute))
        if sys.stdin.isatty():
            return interact(session, args.image)
        return run_script(session, ((f"line {n}: ", line) for n, line in enumerate(sys.stdin, 1)))
