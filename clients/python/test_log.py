"""Tests of what pinkctl makes of a log beside an image:  python3 clients/python/test_log.py

They need no program: images and logs are written here by hand, byte by byte as docs/FORMATS.md has them, and not by the reader's code.
"""

import contextlib
import fcntl
import io
import json
import os
import re
import sys
import tempfile
import unittest
from contextlib import redirect_stderr, redirect_stdout
from unittest import mock

HERE = os.path.dirname(os.path.abspath(__file__))
sys.path.insert(0, HERE)

from pinkctl import causes, image, log, mv, server
from pinkctl.__main__ import main as pinkctl

PAGE, N, M = 512, 16, 64
PAGES = N * M
HEADER = b"PINKIMG1" + bytes.fromhex("00020000 10000000 40000000") + bytes(12)
ROOT = b"PINKROOT" + bytes.fromhex(
    "0200 1000 00020000 4000 0200 00000000 0100000000000000 0100000000000000" + "00000000" * 4 + "0000000000000000 02000300"
)
VALUE = bytes.fromhex("01440000 61000000 00000000 00000000 00000000 03000000") + b"PINKDATA" + b"abc"
COMMIT = b"PINKJRNL" + bytes.fromhex(
    "0100000000000000 00000000 0100" + "00" * 10 + "01010000 61000000 00000000 00000000 00000000 40000000 03000000 00000000"
)
SECOND = b"PINKJRNL" + bytes.fromhex(
    "0100000000000000 01000000 0100" + "00" * 10 + "01020000 61000000 00000000 00000000 00000000 00000000 00000000 00000000"
)
ROOM = bytes(4096)


def number(value: int) -> bytes:
    return value.to_bytes(4, "little")


def program(page: int, front: bytes) -> bytes:
    return number(page) + number(len(front)) + front


def erase(block: int) -> bytes:
    return number(2**31 + block) + number(0)


def batch(body: bytes) -> bytes:
    zeros = sum(1 for byte in body if byte == 0)
    return b"\1" + number(len(body)) + number(zeros + 2 * (2**30 - len(body))) + body


def record(states: bytes) -> bytes:
    packed = bytes(states[i] | states[i + 1] << 2 | states[i + 2] << 4 | states[i + 3] << 6 for i in range(0, len(states), 4))
    return batch(HEADER + packed)


def log_of(*batches: bytes) -> bytes:
    return b"\x50" + bytes(15) + b"".join(batches)


def made() -> bytearray:
    """The image of a drive without keys."""
    return bytearray(HEADER + b"\1\1" + bytes(PAGES - 2) + 2 * ROOT.ljust(PAGE, b"\0") + bytes((PAGES - 2) * PAGE))


STATES = b"\1\1" + bytes(PAGES - 2)
STORE = batch(erase(4) + program(64, VALUE) + program(65, b"") + program(32, COMMIT) + program(33, COMMIT))
DELETE = batch(program(34, SECOND) + program(35, SECOND))
LOG = log_of(record(STATES), STORE, DELETE)
ENDS = [16 + len(record(STATES)), 16 + len(record(STATES)) + len(STORE), len(LOG)]
A = (1, b"a")


def put(bytes_of: bytearray, at: int, what: bytes) -> None:
    bytes_of[at : at + len(what)] = what


def stored() -> bytearray:
    """The image of a drive with the key a, as the first batch makes it."""
    it = made()
    for page, front in ((64, VALUE), (65, b""), (32, COMMIT), (33, COMMIT)):
        put(it, 32 + page, b"\1")
        put(it, 32 + PAGES + page * PAGE, front)
    return it


class OnLog(unittest.TestCase):
    """A test with an image of a drive without keys, and pinkctl on it."""

    def setUp(self):
        folder = tempfile.TemporaryDirectory()
        self.addCleanup(folder.cleanup)
        self.folder = os.path.realpath(folder.name)
        self.image = self.path("drive.img")
        self.log = self.image + "-wal"
        self.write(made())

    def path(self, name):
        return os.path.join(self.folder, name)

    def write(self, data, path=None):
        with open(path or self.image, "wb") as file:
            file.write(data)

    def bytes(self, path=None):
        with open(path or self.image, "rb") as file:
            return file.read()

    def with_log(self, data):
        self.write(data, self.log)

    def keys(self, path=None):
        """The map of an image and its log, as the reader has it."""
        with open(path or self.image, "rb") as file:
            it = image.open_image(file)
            flash = image.read_flash(it)
            self.assertIsNone(flash.fault)
            return {key: image.value_of(it, flash.layout, place) for key, place in flash.map.items()}

    def ctl(self, *words, status=0):
        out, said = io.TextIOWrapper(io.BytesIO()), io.StringIO()
        with redirect_stdout(out), redirect_stderr(said):
            ended = pinkctl(list(words))
        out.flush()
        self.said, answered = said.getvalue(), out.buffer.getvalue().decode()
        self.assertEqual(ended, status, f"{words}: {answered[-400:]!r} {self.said}")
        return answered

    def check(self, status=0, path=None):
        return json.loads(self.ctl("check", "--json", "--no-compare", path or self.image, status=status))

    def cause(self, status, word="list"):
        out = io.StringIO()
        with redirect_stdout(out):
            ended = causes.main([str(status), self.image, word])
        return out.getvalue().strip() if ended == 0 else None


class Reading(OnLog):
    def test_without_a_log(self):
        self.assertEqual(self.keys(), {})
        self.assertNotIn("log", self.check())

    def test_steps_are_read_over_the_image(self):
        self.with_log(log_of(record(STATES), STORE) + ROOM)
        self.assertEqual(self.keys(), {A: b"abc"})
        found = self.check()
        self.assertEqual((found["verdict"], found["use"]["keys"]), ("whole", 1))
        self.assertEqual(found["log"], {"batches": 1, "programs": 4, "erases": 1, "rest": 0})
        lines = self.ctl("check", "--no-compare", self.image).splitlines()
        self.assertEqual(lines[0], "whole: 1 key, 2 of 492 pages for values")
        self.assertIn("log: 1 batch, of 4 pages and 1 erase; the next session brings them into the image, which is older by itself", lines)
        self.assertEqual((self.bytes(), self.bytes(self.log)), (bytes(made()), log_of(record(STATES), STORE) + ROOM))

    def test_a_later_batch_counts_more(self):
        self.with_log(LOG + ROOM)
        self.assertEqual(self.keys(), {})
        self.assertEqual(self.check()["log"]["batches"], 2)

    def test_what_a_step_sets_may_have_held_anything(self):
        base = made()
        for page in (64, 65, 32, 33, *range(66, 80)):
            put(base, 32 + page, b"\7")
            put(base, 32 + PAGES + page * PAGE, b"\xee" * PAGE)
        self.write(base)
        self.with_log(log_of(record(STATES), STORE))
        self.assertEqual(self.keys(), {A: b"abc"})
        with open(self.image, "rb") as file:
            it = image.open_image(file)
        self.assertEqual((it.page(65), it.states[64:80]), (bytes(PAGE), b"\1\1" + bytes(14)))

    def test_steps_are_done_in_their_order(self):
        it = log.replayed(
            log.log_in(log_of(record(STATES), batch(program(64, b"new") + erase(4) + program(64, b"x")), batch(erase(4) + program(65, b"y"))), ""),
            bytes(made()),
            image.Shape(PAGE, N, M),
        )
        self.assertEqual(it[32 + 64 : 32 + 66], b"\0\1")
        self.assertEqual(it[32 + PAGES + 65 * PAGE :][:PAGE], b"y".ljust(PAGE, b"\0"))

    def test_cut_at_each_byte(self):
        for cut in range(len(LOG) + 1):
            self.with_log(LOG[:cut])
            whole = sum(end <= cut for end in ENDS)
            found = log.log_of(self.image)
            self.assertEqual(len(found.batches), whole, cut)
            begins = ([16] + ENDS)[whole]
            self.assertEqual((found.rest, found.broken), (len(LOG[begins:cut].rstrip(b"\0")), False), cut)
            if cut % 16 == 0 or cut in ENDS:
                self.assertEqual(self.keys(), {A: b"abc"} if whole == 2 else {}, cut)
        self.assertEqual(self.check()["verdict"], "whole")

    def test_a_byte_lost_to_a_zero_takes_the_batch_away(self):
        data = LOG + ROOM
        begin = ENDS[1]
        for at in range(begin, ENDS[2]):
            if data[at]:
                found = log.log_in(data[:at] + b"\0" + data[at + 1 :], "")
                self.assertEqual(len(found.batches), 2, at)
                self.assertGreater(found.rest, 0)

    def test_all_changes_of_the_head_of_a_batch(self):
        data = LOG + ROOM
        for at in range(ENDS[1], ENDS[1] + 9):
            for value in set(range(256)) - {data[at]}:
                self.assertEqual(len(log.log_in(data[:at] + bytes((value,)) + data[at + 1 :], "").batches), 2, (at, value))

    def test_bytes_that_change_between_zero_and_not(self):
        data = LOG + ROOM
        for at in range(ENDS[1] + 9, ENDS[2]):
            for value in (0, 1, 255):
                changed = data[:at] + bytes((value,)) + data[at + 1 :]
                found = log.log_in(changed, "")
                # The count does not find a change to another byte that is not zero.
                self.assertEqual(len(found.batches), 3 if bool(value) == bool(data[at]) else 2, (at, value))

    def test_all_losses_of_a_short_batch(self):
        own = batch(program(3, b"\1\0"))
        places = [at for at, byte in enumerate(own) if byte]
        for chosen in range(1, 1 << len(places)):
            torn = bytearray(own)
            for bit, at in enumerate(places):
                if chosen >> bit & 1:
                    torn[at] = 0
            self.assertIsNone(log.batch_at(bytes(torn) + bytes(64), 0), bytes(torn))

    def test_a_whole_batch_after_one_that_is_not(self):
        data = bytearray(LOG + ROOM)
        data[ENDS[0] + 9 + 8 + 8] = 0  # the first byte of the value
        self.with_log(data)
        found = self.check(10)
        self.assertEqual(([it["code"] for it in found["doubts"]], found["log"]["batches"]), (["log-broken"], 0))
        self.assertIn("is not whole and one after it is", found["text"])

    def test_what_was_there_before_the_log_was_emptied(self):
        self.with_log(log_of(record(STATES), STORE) + ROOM + DELETE)
        self.assertEqual(self.keys(), {A: b"abc"})
        self.assertEqual((self.check()["log"]["rest"], self.check()["verdict"]), (0, "whole"))

    def test_logs_that_say_nothing(self):
        for data in (b"", b"\0", b"\0" + LOG[1:], LOG[:16], LOG[:16] + ROOM, b"\x51" + LOG[1:], log_of(record(STATES)) + ROOM):
            self.with_log(data)
            self.assertEqual(self.keys(), {})
            self.assertEqual(self.check()["log"], {"batches": 0, "programs": 0, "erases": 0, "rest": 0})

    def test_a_log_of_another_image(self):
        other = bytearray(STATES)
        other[500] = 1
        torn = bytearray(STATES)
        torn[501] = 2
        for states in (other, torn):
            self.with_log(log_of(record(states), STORE))
            found = self.check(8)
            self.assertEqual(found["verdict"], "refused")
            self.assertIn(f"{self.log} is not the log of this image", found["text"])
            self.assertIn("is not the log of this image", self.cause(6))
        for at in (64, 65, 32, 79):  # the steps set these
            other = bytearray(STATES)
            other[at] = 2
            self.with_log(log_of(record(other), STORE))
            self.assertEqual(self.keys(), {A: b"abc"})
        for wrong in (HEADER[:16] + number(65) + HEADER[20:], HEADER):
            self.with_log(log_of(batch(wrong + bytes(PAGES // 4 - 1)), STORE))
            self.check(8)

    def test_bytes_that_are_no_step(self):
        for body in (b"\0", program(1024, b""), program(0, bytes(513)), program(70, b"abc")[:-1], erase(64), erase(4)[:-1], number(2**31) + number(1) + b"x"):
            self.with_log(log_of(record(STATES), batch(body)))
            found = self.check(8)
            self.assertEqual(found["verdict"], "refused", body)
            self.assertIn("has bytes that are no step", found["text"])

    def test_names_that_are_links(self):
        os.mkdir(self.path("other"))
        os.symlink("../drive.img", self.path("other/name"))
        self.with_log(log_of(record(STATES), STORE))
        self.assertEqual(self.keys(self.path("other/name")), {A: b"abc"})
        os.link(self.image, self.path("second"))
        self.assertIn("has 2 names (hard links)", self.check(8)["text"])
        self.assertIn("has 2 names (hard links)", self.cause(6))
        os.unlink(self.path("second"))
        os.link(self.log, self.path("second"))
        self.assertIn(f"{self.log} has 2 names", self.cause(6))
        os.unlink(self.path("second"))
        os.rename(self.log, self.path("elsewhere"))
        os.symlink("elsewhere", self.log)
        self.assertIn("is no file of its own", self.cause(6))

    def test_what_the_launcher_says(self):
        self.assertIsNone(self.cause(6))
        self.with_log(LOG)
        self.assertIsNone(self.cause(6))
        os.unlink(self.image)
        self.assertIn(f"there is no file {self.image}, but {self.log} is there", self.cause(8))
        self.write(made())
        os.unlink(self.log)
        os.mkdir(self.log)
        self.assertIn("cannot be read", self.cause(6))


class TheDocument(OnLog):
    def test_the_log_of_formats(self):
        """The dump in FORMATS is the log that the text before it says."""
        path = os.path.join(HERE, "..", "..", "docs", "FORMATS.md")
        with open(path, encoding="utf-8") as file:
            text = file.read()
        part = text[text.index("## The log of an image") :].partition("\n## ")[0]
        wanted = log_of(record(STATES), batch(erase(4) + program(64, VALUE)))
        shown = bytearray(len(wanted) + 16)
        rows = re.findall(r"^([0-9a-f]{4})  ((?:[0-9a-f]{2} ){16}) ", part, re.MULTILINE)
        for place, row in rows:
            put(shown, int(place, 16), bytes.fromhex(row))
        self.assertEqual(len(rows), 9)
        self.assertEqual(bytes(shown).rstrip(b"\0"), wanted)


class Salvage(OnLog):
    def salvaged(self, status=0, *words):
        listed = self.path("list")
        told = self.ctl("salvage", "-q", "-n", self.image, self.path("new"), "--list", listed, *words, status=status)
        self.doubts = [json.loads(line) for line in self.bytes(listed).splitlines()] if os.path.exists(listed) else []
        return told

    def test_the_batches_count(self):
        self.with_log(log_of(record(STATES), STORE) + DELETE[:30] + ROOM)
        told = self.salvaged()
        self.assertIn(f"the log: 1 batch; {len(DELETE[:30].rstrip(bytes(1)))} bytes of a batch that is not whole", told)
        self.assertIn("read: 1 key: 1 sure, 0 doubtful; 0 lost", told)

    def test_a_damaged_head_is_in_the_log_too(self):
        base = made()
        base[3] = 0
        self.write(base)
        self.with_log(log_of(record(STATES), STORE))
        self.assertIn("read: 1 key: 1 sure", self.salvaged())

    def test_a_broken_log(self):
        self.write(stored())
        states = bytes(stored()[32 : 32 + PAGES])
        data = bytearray(log_of(record(states), batch(program(500, b"xyz")), DELETE))
        data[data.index(b"xyz")] = 0
        self.with_log(data)
        self.salvaged(10)
        self.assertEqual([it["why"].split(",")[0] for it in self.doubts], ["a batch of the log is damaged"])

    def test_a_log_of_another_image(self):
        self.write(stored())
        self.with_log(log_of(record(STATES), DELETE))
        self.assertIn("the log is left out", self.salvaged(10))
        self.assertEqual(len(self.doubts), 1)

    def test_bytes_that_are_no_step(self):
        self.with_log(log_of(record(STATES), STORE, batch(b"\0\0\0")))
        self.salvaged(10)
        self.assertEqual(len(self.doubts), 1)


class Backup(OnLog):
    def test_a_backup_is_one_file(self):
        self.with_log(log_of(record(STATES), STORE) + ROOM)
        self.ctl("backup", self.image, self.path("copy"))
        self.assertIn("with the 1 batch of its log", self.said)
        self.assertEqual(self.bytes(self.path("copy")), bytes(stored()))
        self.assertEqual((self.bytes(), sorted(os.listdir(self.folder))), (bytes(made()), ["copy", "drive.img", "drive.img-wal"]))
        self.assertEqual(self.keys(self.path("copy")), {A: b"abc"})

    def test_a_log_that_does_not_fit(self):
        other = bytearray(STATES)
        other[500] = 1
        self.with_log(log_of(record(other), STORE))
        for more in ((), ("--even-damaged",)):
            self.ctl("backup", *more, self.image, self.path("copy"), status=8)
            self.assertFalse(os.path.exists(self.path("copy")))

    def test_a_broken_log_is_copied_on_demand(self):
        self.write(stored())
        data = bytearray(log_of(record(bytes(stored()[32 : 32 + PAGES])), batch(program(500, b"xyz")), DELETE))
        data[data.index(b"xyz")] = 0
        self.with_log(data)
        self.ctl("backup", self.image, self.path("copy"), status=10)
        self.ctl("backup", "--even-damaged", self.image, self.path("copy"), status=10)
        self.assertEqual(self.bytes(self.path("copy")), bytes(stored()))

    def test_no_log_is_left_beside_a_copy(self):
        self.write(stored(), self.path("old"))
        self.with_log(log_of(record(STATES), STORE))
        self.ctl("backup", self.path("old"), self.image, status=9)
        os.unlink(self.image)
        self.ctl("backup", self.path("old"), self.image, status=9)
        self.assertIn(f"{self.log}: it exists, the log of another image", self.said)
        self.ctl("backup", "--force", self.path("old"), self.image)
        self.assertEqual((self.bytes(), os.path.exists(self.log)), (bytes(stored()), False))

    def test_an_image_that_is_replaced_is_never_older(self):
        """Broken off at each call, the name has the replaced image with its log's steps, or the new one."""
        new = stored()
        for page in (34, 35):
            put(new, 32 + page, b"\1")
            put(new, 32 + PAGES + page * PAGE, SECOND)
        self.write(new, self.path("new"))
        ended, count = False, 0
        while not ended:
            self.write(made())
            self.with_log(log_of(record(STATES), STORE))
            ended = stopped_after(count, lambda: self.ctl("backup", "-q", "--force", self.path("new"), self.image))
            is_new = self.bytes() == new
            self.assertEqual(self.keys(), {} if is_new else {A: b"abc"}, count)
            self.assertFalse(is_new and os.path.exists(self.log))
            count += 1
        self.assertTrue(is_new and count > 8)

    def test_bgsave(self):
        self.with_log(log_of(record(STATES), STORE))
        server.copy_file(self.image, self.path("copy.part"))
        server.add_log(self.image, self.path("copy.part"))
        self.assertEqual(self.bytes(self.path("copy.part")), bytes(stored()))


class Stopped(BaseException):
    """The process ends here."""


def stopped_after(count, what):
    """Does it, but ends before the call of the system with this number that changes a file; answers whether it came to its end."""
    left = [count]

    def counted(call):
        def stop_or_call(*given, **named):
            left[0] -= 1
            if left[0] < 0:
                raise Stopped
            return call(*given, **named)

        return stop_or_call

    names = ("pwrite", "fsync", "unlink", "rename", "replace", "link", "ftruncate")
    with contextlib.ExitStack() as patches:
        for name in names:
            patches.enter_context(mock.patch.object(os, name, counted(getattr(os, name))))
        try:
            what()
        except Stopped:
            return False
    return True


class Move(OnLog):
    def test_an_image_without_a_log(self):
        self.ctl("mv", self.image, self.path("to"))
        self.assertEqual((os.listdir(self.folder), self.bytes(self.path("to"))), (["to"], bytes(made())))

    def test_an_image_with_its_log(self):
        self.with_log(log_of(record(STATES), STORE) + DELETE[:30] + ROOM)
        os.mkdir(self.path("folder"))
        self.ctl("mv", self.image, self.path("folder"))
        self.assertEqual((os.listdir(self.folder), os.listdir(self.path("folder"))), (["folder"], ["drive.img"]))
        self.assertEqual(self.bytes(self.path("folder/drive.img")), bytes(stored()))

    def test_a_log_without_a_batch(self):
        for data in (b"", b"\0" + LOG[1:], log_of(record(STATES)) + ROOM):
            self.with_log(data)
            self.ctl("mv", self.image, self.path("to"))
            self.assertEqual((os.listdir(self.folder), self.bytes(self.path("to"))), (["to"], bytes(made())))
            os.rename(self.path("to"), self.image)

    def test_broken_off_at_each_call(self):
        count, ended = 0, False
        while not ended:
            self.write(made())
            self.with_log(log_of(record(STATES), STORE))
            ended = stopped_after(count, lambda: self.ctl("mv", self.image, self.path("to")))
            there = [path for path in (self.image, self.path("to")) if os.path.exists(path)]
            self.assertEqual(len(there), 1)
            self.assertEqual(self.keys(there[0]), {A: b"abc"}, count)
            if there == [self.path("to")]:
                self.assertFalse(os.path.exists(self.log))
                os.unlink(self.path("to"))
            count += 1
        self.assertGreater(count, 8)

    def test_what_is_refused(self):
        self.with_log(log_of(record(STATES), STORE))
        self.write(b"", self.path("to"))
        self.ctl("mv", self.image, self.path("to"), status=9)
        os.rename(self.path("to"), self.path("to-wal"))
        self.ctl("mv", self.image, self.path("to"), status=9)
        self.assertIn("move it away", self.said)
        os.unlink(self.path("to-wal"))
        self.ctl("mv", self.path("none"), self.path("to"), status=8)
        self.ctl("mv", self.image, self.path("none/to"), status=11)
        os.symlink(self.image, self.path("link"))
        self.ctl("mv", self.path("link"), self.path("to"), status=2)
        os.link(self.image, self.path("second"))
        self.ctl("mv", self.image, self.path("to"), status=8)
        os.unlink(self.path("second"))
        with open(self.image, "rb") as file:
            fcntl.flock(file, fcntl.LOCK_SH)
            self.ctl("mv", self.image, self.path("to"), status=6)
        other = bytearray(STATES)
        other[500] = 1
        self.with_log(log_of(record(other), STORE))
        self.ctl("mv", self.image, self.path("to"), status=8)
        self.write(bytes(made())[:5000])
        self.ctl("mv", self.image, self.path("to"), status=8)
        self.assertIn("nothing was moved", self.said)
        self.assertEqual(sorted(os.listdir(self.folder)), ["drive.img", "drive.img-wal", "link"])

    def test_the_lock_is_for_one(self):
        with mv.locked(self.image, writing=True):
            self.ctl("check", self.image, status=6)


if __name__ == "__main__":
    unittest.main()
