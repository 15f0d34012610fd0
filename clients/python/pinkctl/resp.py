"""The protocol of Redis, version 2: requests from bytes, and replies to bytes.

A request is an array of bulk strings, or a line of words (an inline command). Nothing here knows of
a drive or a socket.
"""

import shlex
from typing import List, Optional, Union

LINE_BYTES = 65536
"""No line of a request is longer, in bytes."""
MOST_WORDS = 65536
"""No request has more words."""
BULK_BYTES = 8 << 20
"""No word is longer, in bytes; a drive takes at most 1,048,544."""

OK = b"+OK\r\n"
PONG = b"+PONG\r\n"
NIL = b"$-1\r\n"
NO_ITEMS = b"*0\r\n"


class ProtocolError(Exception):
    """The bytes are no request; the connection is of no more use."""


COUNTS = {b"*%d" % count: count for count in range(1, 64)}
"""The first lines of requests, with their numbers of words."""
HEADS = [b"$%d" % length for length in range(4096)]
"""The lines before words, by the lengths of the words."""
LINES_BYTES = 4096
"""So much of what has come is split at the ends of its lines at a time."""


class Requests:
    """The requests in the bytes that came so far.

    Bytes are split at the ends of their lines, as one step for many requests. A request whose words have the lengths
    that the lines before them say is read from its lines; any other one from its bytes: one that has not come as
    a whole, that has the end of a line in a word, that is long, that is a line of words, or that is none.
    """

    def __init__(self) -> None:
        self._data = b""
        self._at = 0  # where the bytes begin that are not split
        self._lines: List[bytes] = []  # those before, and what comes after their last end
        self._line_at = 0
        self._is_split = True  # whether lines are of use for what has come

    def feed(self, data: bytes) -> None:
        """Takes more bytes."""
        self._join()
        rest = len(self._data) - self._at
        self._data = self._data[self._at :] + data if rest else data
        self._at = 0
        self._is_split = rest < LINES_BYTES  # a long word is not looked through for each of its parts

    def is_empty(self) -> bool:
        lines, at = self._lines, self._line_at
        return self._at >= len(self._data) and (not lines or at + 1 == len(lines) and not lines[at])

    def length(self) -> int:
        """The bytes that are no whole request yet, or were not asked for."""
        self._join()
        return len(self._data) - self._at

    def next(self) -> Optional[List[bytes]]:
        """The words of the next request that is there as a whole, or None; no empty ones."""
        lines, at = self._lines, self._line_at
        if at + 1 >= len(lines):
            return self._next_after_lines()
        end = at + 1 + 2 * COUNTS.get(lines[at], MOST_WORDS)
        if end >= len(lines):
            return self._next_after_lines()
        words = []
        for place in range(at + 1, end, 2):
            word = lines[place + 1]
            if len(word) >= len(HEADS) or lines[place] != HEADS[len(word)]:
                return self._next_in_bytes()
            words.append(word)
        self._line_at = end
        return words

    def _next_after_lines(self) -> Optional[List[bytes]]:
        """The same where the lines have no whole request: more of the bytes are split, if that may help."""
        is_stuck = self._lines and not self._line_at
        self._join()
        if self._at >= len(self._data):
            return None
        if is_stuck or not self._is_split:
            return self._next_in_bytes()
        self._lines = self._data[self._at : self._at + LINES_BYTES].split(b"\r\n")
        self._at += LINES_BYTES
        return self.next()

    def _join(self) -> None:
        """From now on no byte that was not asked for is split."""
        if self._lines:
            end = min(self._at, len(self._data))
            self._at = end - len(b"\r\n".join(self._lines[self._line_at :]))
            self._lines, self._line_at = [], 0

    def _next_in_bytes(self) -> Optional[List[bytes]]:
        """The same without lines, as all further requests until more comes."""
        self._join()
        self._is_split = False
        while self._at < len(self._data):
            words = self._array() if self._data[self._at] == 0x2A else self._inline()
            if words is None or words:
                return words
        return None

    def _line(self, at: int) -> Optional[int]:
        """The end of the line that begins here, or None if it is not there yet."""
        end = self._data.find(b"\r\n", at)
        if end < 0 and len(self._data) - at > LINE_BYTES or end - at > LINE_BYTES:
            raise ProtocolError("too big inline request")
        return None if end < 0 else end

    def _array(self) -> Optional[List[bytes]]:
        data = self._data
        end = self._line(self._at)
        if end is None:
            return None
        count = data[self._at + 1 : end]
        if not count.lstrip(b"-").isdigit() or int(count) > MOST_WORDS:
            raise ProtocolError("invalid multibulk length")
        words: List[bytes] = []
        at = end + 2
        for _ in range(int(count)):
            if at >= len(data):
                return None
            if data[at] != 0x24:
                raise ProtocolError(f"expected '$', got '{chr(data[at])}'")
            end = data.find(b"\r\n", at, at + 32)
            if end < 0:
                if len(data) - at >= 32:
                    raise ProtocolError("invalid bulk length")
                return None
            digits = data[at + 1 : end]
            if not digits.isdigit() or int(digits) > BULK_BYTES:
                raise ProtocolError(f"invalid bulk length, at most {BULK_BYTES}")
            stop = end + 2 + int(digits)
            if len(data) < stop + 2:
                return None
            words.append(data[end + 2 : stop])
            at = stop + 2
        self._at = at
        return words

    def _inline(self) -> Optional[List[bytes]]:
        end = self._data.find(b"\n", self._at)
        if end < 0 and len(self._data) - self._at > LINE_BYTES or end - self._at > LINE_BYTES:
            raise ProtocolError("too big inline request")
        if end < 0:
            return None
        line = self._data[self._at : end].rstrip(b"\r")
        self._at = end + 1
        if b'"' not in line and b"'" not in line:
            return line.split()
        try:
            return [word.encode("latin-1") for word in shlex.split(line.decode("latin-1"))]
        except ValueError:
            raise ProtocolError("unbalanced quotes in request") from None


def bulk(data: bytes) -> bytes:
    return b"$%d\r\n%b\r\n" % (len(data), data)


def integer(number: int) -> bytes:
    return b":%d\r\n" % number


def error(text: str) -> bytes:
    """An error; its first word is the kind, as ERR."""
    return b"-" + text.replace("\r", " ").replace("\n", " ").encode("utf-8", "replace") + b"\r\n"


def array(items: List[Union[bytes, int]]) -> bytes:
    """An array of replies that are bytes already, or of numbers."""
    parts = [integer(it) if isinstance(it, int) else it for it in items]
    return b"*%d\r\n" % len(parts) + b"".join(parts)


def glob_matches(pattern: bytes, key: bytes) -> bool:
    """Whether a key is of a pattern with `*`, `?`, `[..]` and `\\`, as Redis has them."""
    at, place, star, back = 0, 0, -1, 0
    while place < len(key):
        step = _one(pattern, at, key[place]) if at < len(pattern) else 0
        if at < len(pattern) and pattern[at] == 0x2A:
            star, back = at, place
            at += 1
        elif step:
            at, place = at + step, place + 1
        elif star >= 0:
            back += 1
            at, place = star + 1, back
        else:
            return False
    return not pattern[at:].strip(b"*")


def _one(pattern: bytes, at: int, byte: int) -> int:
    """How many bytes of the pattern take this byte of the key; 0 if they do not."""
    kind = pattern[at]
    if kind == 0x3F:
        return 1
    if kind == 0x5C and at + 1 < len(pattern):
        return 2 if pattern[at + 1] == byte else 0
    if kind == 0x5B:
        return _class(pattern, at, byte)
    return 1 if kind == byte else 0


def _class(pattern: bytes, at: int, byte: int) -> int:
    """The same for `[..]`: bytes, ranges, and `^` for none of them."""
    place = at + 1
    inverted = pattern[place : place + 1] == b"^"
    place += inverted
    found = False
    while place < len(pattern) and pattern[place] != 0x5D:
        if pattern[place] == 0x5C and place + 1 < len(pattern):
            place += 1
        low = high = pattern[place]
        if pattern[place + 1 : place + 2] == b"-" and place + 2 < len(pattern):
            low, high = sorted((low, pattern[place + 2]))
            place += 2
        found = found or low <= byte <= high
        place += 1
    return place + 1 - at if found != inverted else 0


def fixed_prefix(pattern: bytes) -> bytes:
    """The bytes that every key of a pattern begins with."""
    for at, byte in enumerate(pattern):
        if byte in b"*?[\\":
            return pattern[:at]
    return pattern
