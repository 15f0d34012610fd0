"""Keys and values as people type and read them.

A word is the text itself; a word that begins with 0x is hexadecimal; a word in quotes has Python's
escapes, such as "two words" or 'a\\x00b'. `@FILE` as a value is the bytes of a file, `@-` those of
standard input.
"""

import re
import sys
from typing import Optional

from .status import Exit, ToolError

HEX = re.compile(r"0[xX]((?:[0-9a-fA-F]{2})*)\Z")
PLAIN = re.compile(r"[!-~]+\Z")
QUOTED = str.maketrans({"\\": "\\\\", '"': '\\"', "\n": "\\n", "\t": "\\t", "\r": "\\r"})
ESCAPES = {"n": b"\n", "t": b"\t", "r": b"\r", "0": b"\0", "\\": b"\\", '"': b'"', "'": b"'"}


class WordError(ToolError):
    """A word that is neither a key nor a value."""

    def __init__(self, message: str) -> None:
        super().__init__(message, Exit.USAGE)


class Word:
    """A word of a line: its bytes, the text as it was typed, and whether it stood in quotes."""

    def __init__(self, text: str, quoted: Optional[bytes] = None) -> None:
        self.text = text
        self.quoted = quoted

    def bytes(self) -> bytes:
        """The key or the value that the word means."""
        if self.quoted is not None:
            return self.quoted
        found = HEX.match(self.text)
        if found:
            return bytes.fromhex(found[1])
        if self.text[:2].lower() == "0x":
            raise WordError(f"{self.text}: after 0x an even count of hexadecimal digits is needed; quote it if it is text")
        return self.text.encode("utf-8", "surrogateescape")


def words_of(line: str) -> list[Word]:
    """The words of a line, up to a # at the start of one."""
    words: list[Word] = []
    at = 0
    while True:
        while at < len(line) and line[at].isspace():
            at += 1
        if at == len(line) or line[at] == "#":
            return words
        word, at = quoted_word(line, at) if line[at] in "\"'" else plain_word(line, at)
        words.append(word)


def plain_word(line: str, at: int) -> tuple[Word, int]:
    end = at
    while end < len(line) and not line[end].isspace():
        end += 1
    return Word(line[at:end]), end


def quoted_word(line: str, at: int) -> tuple[Word, int]:
    """A word in quotes, and where it ends."""
    mark, end, found = line[at], at + 1, bytearray()
    while end < len(line):
        letter = line[end]
        if letter == mark:
            if end + 1 < len(line) and not line[end + 1].isspace():
                raise WordError("a blank is needed after the closing quote")
            return Word(line[at : end + 1], bytes(found)), end + 1
        if letter == "\\":
            part, end = escape(line, end)
            found += part
        else:
            found += letter.encode("utf-8", "surrogateescape")
            end += 1
    raise WordError(f"the quote {mark} is not closed")


def escape(line: str, at: int) -> tuple[bytes, int]:
    """The bytes of an escape, and where it ends."""
    letter = line[at + 1 : at + 2]
    if letter == "x":
        digits = line[at + 2 : at + 4]
        if re.fullmatch("[0-9a-fA-F]{2}", digits):
            return bytes.fromhex(digits), at + 4
        raise WordError("after \\x two hexadecimal digits are needed")
    if letter in ESCAPES:
        return ESCAPES[letter], at + 2
    raise WordError(f"there is no escape \\{letter}: \\n \\t \\r \\0 \\\\ \\\" \\' and \\xHH are known")


def key_argument(text: str) -> bytes:
    """A key of the command line: text, or hexadecimal after 0x, or in quotes."""
    words = words_of(text) if text[:1] in "\"'" else [Word(text)]
    if len(words) != 1:
        raise WordError(f"{text}: one key is needed")
    return words[0].bytes()


def shown(data: bytes) -> str:
    """Bytes as a word that gives them again: plain if that is possible, in quotes if they are text, else hexadecimal."""
    try:
        text = data.decode("utf-8")
    except UnicodeDecodeError:
        return "0x" + data.hex()
    if PLAIN.match(text) and text[0] not in "\"'#@<>" and text[:2].lower() != "0x":
        return text
    quoted = text.translate(QUOTED)
    return f'"{quoted}"' if quoted.isprintable() else "0x" + data.hex()


def shown_in(space: int, data: bytes) -> str:
    """A key with its namespace before it, unless that is the first."""
    return shown(data) if space == 1 else f"{space}:{shown(data)}"


def read_value(name: str) -> bytes:
    """The bytes of a file, or of standard input for `-`."""
    if name == "-":
        return sys.stdin.buffer.read()
    try:
        with open(name, "rb") as file:
            return file.read()
    except OSError as error:
        raise ToolError(f"{name}: {error.strerror}", Exit.FILE) from None
