"""Tests of pinkctl against the real program:  python3 clients/python/test_pinkctl.py

The environment's PINK_PROGRAM names another program than ./pink.
"""

import errno
import fcntl
import io
import json
import os
import pty
import random
import re
import select
import shutil
import signal
import socketserver
import struct
import subprocess
import sys
import tempfile
import threading
import time
import unittest
from contextlib import redirect_stderr, redirect_stdout
from unittest import mock

HERE = os.path.dirname(os.path.abspath(__file__))
sys.path.insert(0, HERE)

import pinkdrive
from pinkctl import image, join, keys, layout, members, rescue
from pinkctl.__main__ import main as pinkctl
from pinkctl.nodes import Node, Refused, Seen, seen_of
from pinkctl.status import MEANINGS, Exit, ToolError
from pinkdrive import Drive, make

TOP = os.path.join(HERE, "..", "..")
PINKCTL = os.path.join(TOP, "pinkctl")
PROGRAM = os.environ.get("PINK_PROGRAM", pinkdrive.PROGRAM)
SMALL = (512, 16, 64)
GREATEST = 2016  # bytes of a value in this shape
PAGE, PAGES = 512, 1024
STATES, DATA = 32, 32 + 1024


class OnImage(unittest.TestCase):
    """A test with an image of its own, and pinkctl on it."""

    shape = SMALL

    def setUp(self):
        folder = tempfile.TemporaryDirectory()
        self.addCleanup(folder.cleanup)
        self.folder = folder.name
        self.image = self.path("drive.img")
        make(self.image, *self.shape, program=PROGRAM)

    def path(self, name):
        return os.path.join(self.folder, name)

    def ctl(self, *words, input=b"", status=0, env=None):
        """Runs pinkctl in this process; its status is as expected, and its standard output is answered."""
        out, said = io.TextIOWrapper(io.BytesIO()), io.StringIO()
        given = io.TextIOWrapper(io.BytesIO(input))
        with redirect_stdout(out), redirect_stderr(said), mock.patch("sys.stdin", given), mock.patch.dict(os.environ, env or {}):
            try:
                ended = pinkctl(list(words))
            except SystemExit as end:
                ended = end.code
        out.flush()
        self.said, answered = said.getvalue(), out.buffer.getvalue()
        self.assertEqual(ended, status, f"{words}: {answered[-400:]!r} {self.said}")
        return answered

    def check(self, status=0, path=None):
        return json.loads(self.ctl("check", "--json", path or self.image, status=status))

    def store(self, values, path=None):
        with Drive(path or self.image, program=PROGRAM) as d:
            for key, value in values.items():
                d.store(key, value)

    def held(self, path=None):
        with Drive(path or self.image, program=PROGRAM) as d:
            return dict(d.items_from())

    def bytes(self, path=None):
        with open(path or self.image, "rb") as file:
            return file.read()

    def change(self, at, what):
        with open(self.image, "r+b") as file:
            file.seek(at)
            file.write(what)

    def flash(self):
        with open(self.image, "rb") as file:
            it = image.load_image(file.read())
        return it, image.read_flash(it)

    def place(self, page, within=0):
        return DATA + page * PAGE + within

    def fill(self, count=246):
        """A drive with this many keys, each with a value of two pages."""
        with Drive(self.image, program=PROGRAM) as d:
            for i in range(count):
                d[b"key%03d" % i] = b"value %d" % i


class Check(OnImage):
    def test_whole(self):
        found = self.check()
        self.assertEqual((found["verdict"], found["use"]["keys"]), ("whole", 0))
        self.store({b"a": b"1", b"b": bytes(600)})
        found = self.check()
        self.assertEqual((found["verdict"], found["compared"], found["doubts"]), ("whole", "yes", []))
        self.assertEqual((found["use"]["keys"], found["use"]["value_pages"], found["use"]["value_bytes"]), (2, 4, 601))
        self.assertEqual((found["limits"]["value_bytes"], found["limits"]["value_pages"]), (GREATEST, 492))
        self.assertEqual(found["sizes"]["file_bytes"], 525344)
        self.assertLess(found["sizes"]["disk_bytes"], 200000)
        self.assertTrue(self.ctl("check", self.image).startswith(b"whole: 2 keys, 4 of 492 pages"))

    def test_it_changes_nothing_and_needs_no_program(self):
        self.store({b"a": b"1"})
        before, times = self.bytes(), os.stat(self.image).st_mtime_ns
        self.ctl("check", "--no-compare", self.image, env={"PINK_PROGRAM": "/nowhere", "PINKDUMP_PROGRAM": "/nowhere"})
        self.assertEqual((self.bytes(), os.stat(self.image).st_mtime_ns), (before, times))

    def test_damaged_pages_are_told_with_their_keys(self):
        self.store({b"a": b"1", b"b": bytes(600)})
        it, flash = self.flash()
        page = flash.map[1, b"b"].page
        whole = self.bytes()
        for at, part in (
            (self.place(page + 1, 500), "page 2 of the 2 of a value of 600 bytes"),
            (self.place(page, 4), "page 1 of the 2"),
            (STATES + page, "page 1 of the 2"),
        ):
            self.change(at, b"\2")
            found = self.check(status=8)
            self.assertEqual((found["verdict"], found["compared"]), ("refused", "yes"))
            self.assertEqual(found["fault"]["key"], {"namespace": 1, "hex": "62", "text": "b"})
            self.assertTrue(found["fault"]["part"].startswith(part), found["fault"])
            self.assertIn("pinkctl salvage", self.ctl("check", self.image, status=8).decode())
            self.change(0, whole)
        journal = min(flash.newest.pages)
        self.change(self.place(journal, 8), b"\xff")
        found = self.check(status=8)
        self.assertEqual(found["fault"]["page"], journal)
        self.assertTrue(found["fault"]["part"].startswith("commit 1 of the newest epoch"))

    def test_a_damaged_run(self):
        self.fill(200)
        it, flash = self.flash()
        page = flash.root.runs[0][0] * 16 if flash.root.counts[0] else flash.root.runs[1][0] * 16
        self.change(self.place(page, 100), b"\xee")
        found = self.check(status=8)
        self.assertEqual(found["fault"]["page"], page)
        self.assertIn("of the index", found["fault"]["part"])
        self.assertIn("key", found["fault"]["keys"][0]["text"])

    def test_a_damaged_newest_root(self):
        self.store({b"a": b"1"})
        self.store({b"b": b"2"})
        self.store({b"c": b"3"})
        it, flash = self.flash()
        self.change(self.place(flash.root.page, 500), b"\1")
        found = self.check(status=10)
        self.assertEqual([doubt["code"] for doubt in found["doubts"]], ["former-root-wrong"])
        self.assertEqual(found["use"]["keys"], 3)
        self.assertIn("so the map is the same", found["text"])
        self.change(self.place(flash.root.page + 1, 500), b"\1")
        found = self.check(status=10)
        self.assertEqual((found["verdict"], found["compared"]), ("doubtful", "yes"))
        self.assertEqual(found["doubts"][0]["code"], "root-wrong")
        self.assertEqual(found["use"]["keys"], 2)
        self.assertIn("an older map may have opened", found["text"])

    def test_a_hidden_commit_or_root(self):
        self.store({b"a": b"1"})
        self.store({b"b": b"2"})
        whole = self.bytes()
        it, flash = self.flash()
        commit = max(flash.newest.pages) - 1
        for state in (b"\2", b"\0"):
            self.change(STATES + commit, state)
            self.assertEqual(self.check()["use"]["keys"], 2)
        for state, code in ((b"\2", "commit-unfinished"), (b"\0", "commit-erased")):
            self.change(STATES + commit, state * 2)
            found = self.check(status=10)
            self.assertIn(code, [doubt["code"] for doubt in found["doubts"]])
        self.change(0, whole)
        self.change(STATES + flash.root.page, b"\0")
        self.assertEqual(self.check()["use"]["keys"], 2)
        self.change(STATES + flash.root.page, b"\0\0")
        codes = [doubt["code"] for doubt in self.check(status=10)["doubts"]]
        self.assertIn("root-erased", codes)
        self.assertIn("commit-elsewhere", codes)

    def test_pages_of_a_pair_that_differ(self):
        self.store({b"a": b"1", b"b": b"2"})
        it, flash = self.flash()
        page = min(flash.newest.pages)
        self.change(self.place(page + 1, 8), b"\7")
        self.assertEqual([doubt["code"] for doubt in self.check(status=10)["doubts"]], ["pair-differs"])
        self.assertEqual(self.held(), {b"a": b"1", b"b": b"2"})

    def test_a_former_version(self):
        self.store({b"a": b"1"})
        it, flash = self.flash()
        for root in flash.roots:
            self.change(self.place(root.page, 8), b"\1")
        before = self.bytes()
        self.assertIn("version 1", self.check(status=13)["text"])
        self.ctl("shell", self.image, "-e", "list", status=8)
        self.assertEqual(self.bytes(), before)

    def test_a_run_that_lost_its_end(self):
        self.fill(60)
        with Drive(self.image, program=PROGRAM) as d:
            d.tick(10000)
        it, flash = self.flash()
        level = next(i for i in range(4) if flash.root.counts[i] > 15)
        self.change(self.place(flash.root.page, 40 + 4 * level), (15).to_bytes(4, "little"))
        self.assertIn("run-after-end", [doubt["code"] for doubt in self.check(status=10)["doubts"]])

    def test_what_is_no_image(self):
        whole = self.bytes()
        for data, words in (
            (b"", "was broken off before it had a length"),
            (b"junk", "(4 bytes) is no image of a drive (byte 4)"),
            (b"x" * 600000, "(600000 bytes) is no image of a drive (byte 0)"),
            (bytes(8) + whole[8:], "was broken off before its head had its text (byte 0)"),
            (whole[:300000], "has 300000 bytes, and by its head it should have 525344 (byte 32)"),
            (whole[:8] + b"\1" + whole[9:], "a page has 512, 1024, 2048, 4096, 8192 or 16384 bytes, not 513"),
            (whole[:40] + b"\3" + whole[41:], "the state of page 8 is 3 (byte 40)"),
        ):
            with open(self.image, "wb") as file:
                file.write(data)
            found = self.check(status=8)
            self.assertEqual(found["verdict"], "no drive")
            self.assertIn(words, found["text"])
        os.remove(self.image)
        self.assertIn("there is no file", self.check(status=8)["text"])
        self.assertIn("there is no folder", self.check(status=8, path=self.path("none/x.img"))["text"])
        self.ctl("check", self.folder, status=11)
        self.assertIn("is a folder", self.said)

    def test_a_half_made_image(self):
        self.change(STATES, b"\0\0")
        self.assertIn("broken off before its root was written", self.check(status=8)["text"])
        self.change(STATES, b"\2")
        self.assertIn("broken off while its root was written", self.check(status=8)["text"])
        out = self.ctl("check", self.image, status=8).decode()
        self.assertIn("it never held a key", out)
        self.assertNotIn("salvage", out)
        self.change(STATES, b"\1")
        self.change(DATA, b"X")
        out = self.ctl("check", self.image, status=8).decode()
        self.assertIn("no page of its root blocks is a root (1 are written, the first is page 0: it does not begin with PINKROOT)", out)
        self.assertIn("salvage", out)

    def test_spare_blocks(self):
        spared = self.path("spared.img")
        make(spared, *self.shape, program=PROGRAM, spares=3, limits=(200, 292))
        pairs = {b"%03d" % i: b"x" * i for i in range(60)}
        with Drive(spared, program=PROGRAM, spares=3) as drive:
            drive.update(pairs)
            drive.store(b"a", b"1", namespace=2)
        found = self.check(path=spared)
        self.assertEqual((found["verdict"], found["compared"], found["use"]["keys"]), ("whole", "yes", 61))
        self.assertEqual(found["spare_blocks"], {"spares": 3, "used": []})
        text = self.ctl("check", spared).decode()
        self.assertIn("(shape 512 16 64, with 3 spare blocks, 0 of them used)", text)
        self.assertNotIn("salvage", text)
        lines = self.ctl("export", spared, "--namespace", "2")
        self.assertIn(b"store 61 31\n", lines)
        self.assertEqual(self.ctl("shell", spared, "--namespace", "2", "-e", "get a", "-e", "namespace 1", "-e", "get 001"), b"1\n1\nx\n")
        self.ctl("salvage", spared, self.path("new.img"))
        with Drive(self.path("new.img"), program=PROGRAM) as drive:
            self.assertEqual(dict(drive.items_from()), pairs)
        self.ctl("backup", spared, self.path("copy.img"))
        self.assertEqual(self.bytes(self.path("copy.img")), self.bytes(spared))

    def test_spare_blocks_that_are_used(self):
        shape = layout.Shape(512, 16, 71)
        blocks = layout.Shape(512, 16, 64)
        used = struct.pack("<3H", 5, layout.FAILED_SPARE, 5)
        head = layout.TABLE_HEAD.pack(layout.TABLE_TEXT, 2, 512, 16, 64, 5, 3, 0)
        table = image.table_in(shape, 0, (head + used).ljust(512, b"\0"))
        self.assertEqual((table.spares, table.used), (5, (5, layout.FAILED_SPARE, 5)))
        homes = table.homes(blocks.blocks)
        self.assertEqual((homes[4], homes[5], homes[6]), (4, 66, 6))
        for wrong in (
            layout.TABLE_HEAD.pack(layout.TABLE_TEXT, 5, 512, 16, 64, 5, 3, 0),  # more tables than blocks that were used
            layout.TABLE_HEAD.pack(layout.TABLE_TEXT, 2, 512, 16, 63, 5, 3, 0),
            layout.TABLE_HEAD.pack(layout.TABLE_TEXT, 2, 512, 16, 64, 5, 6, 0),
            layout.TABLE_HEAD.pack(layout.TABLE_TEXT, 2, 512, 16, 64, 5, 3, 1),
            layout.TABLE_HEAD.pack(b"PINKROOT", 2, 512, 16, 64, 5, 3, 0),
        ):
            self.assertIsNone(image.table_in(shape, 0, (wrong + used).ljust(512, b"\0")))
        self.assertIsNone(image.table_in(shape, 0, (head + struct.pack("<3H", 5, 64, 5)).ljust(512, b"\0")))
        self.assertIsNone(image.table_in(shape, 0, (head + used + b"\1").ljust(512, b"\0")))

    @unittest.skipIf(os.geteuid(), "only root mounts a small disk")
    def test_a_full_disk_of_memory(self):
        place = self.path("small")
        os.mkdir(place)
        if subprocess.run(["mount", "-t", "tmpfs", "-o", "size=3m", "none", place], capture_output=True).returncode:
            self.skipTest("a small disk cannot be mounted")
        try:
            make(os.path.join(place, "d.img"), 1024, 32, 256, program=PROGRAM)
            with open(os.path.join(place, "rest"), "wb", buffering=0) as file:
                with self.assertRaises(OSError):
                    while True:
                        file.write(bytes(4096))
            for words in (["check"], ["backup", self.path("copy.img")]):
                ran = subprocess.run([PINKCTL, words[0], os.path.join(place, "d.img"), *words[1:]], capture_output=True)
                self.assertEqual(ran.returncode, 0, ran.stderr)
        finally:
            subprocess.run(["umount", place])

    def test_a_file_that_becomes_shorter(self):
        with open(self.image, "rb") as file:
            data = image.FileBytes(file)
            os.truncate(self.image, 1000)
            self.assertEqual(len(data[:1000]), 1000)
            with self.assertRaisesRegex(ToolError, "became shorter while it was read"):
                data[900:1100]

    def test_a_version_that_is_not_known(self):
        self.store({b"a": b"1"})
        it, flash = self.flash()
        for root in flash.roots:
            self.change(self.place(root.page, 8), b"\x63")
        found = self.check(status=13)
        self.assertIn("version 99 of the format, and this program opens versions 2 and 3; docs/LIVING.md", found["text"])
        self.ctl("salvage", self.image, self.path("new.img"), status=13)
        self.assertIn("nothing was copied", self.said)

    def test_without_permission(self):
        os.chmod(self.folder, 0o755)
        own = os.geteuid()
        for mode, words, status in ((0, ["check"], 11), (0o444, ["shell", "-e", "list"], 11), (0o444, ["check"], 0)):
            os.chmod(self.image, mode)
            os.seteuid(own or 65534)  # root may read every file
            try:
                self.ctl(words[0], self.image, *words[1:], status=status)
            finally:
                os.seteuid(own)
            self.assertEqual("no permission" in self.said, status == 11)

    def test_in_use(self):
        with Drive(self.image, program=PROGRAM):
            self.ctl("check", self.image, status=6)
            self.assertRegex(self.said, r"in use by process \d+")
        self.check()

    def test_every_deletion_had_its_key(self):
        self.store({b"a": b"1", b"b": b"2"})
        with Drive(self.image, program=PROGRAM) as d:
            del d[b"a"]
        it, flash = self.flash()
        page = max(flash.newest.pages) - 1
        self.assertIsNone(flash.newest.commits[-1].entries[-1].place)
        self.change(self.place(page, 32 + 4), b"c")
        self.assertIn("deletion-of-nothing", [doubt["code"] for doubt in self.check(status=10)["doubts"]])


class ExportAndImport(OnImage):
    shape = (512, 16, 80)  # SMALL holds 246 values
    values = {bytes([i]): bytes([i]) * (i * 7) for i in range(256)} | {b"\xff" * 16: b"", "ключ".encode(): "значение\n".encode()}

    def other(self, name="other.img"):
        make(self.path(name), *self.shape, program=PROGRAM)
        return self.path(name)

    def small(self):
        self.values = {key: value[:400] for key, value in self.values.items()}
        self.store(self.values)

    def test_round_trip_of_both_formats(self):
        self.small()
        for form in ("asm", "json"):
            out = self.path(form)
            self.ctl("export", self.image, "-o", out, "--format", form)
            self.assertIn("258 pairs", self.said)
            other = self.other(form + ".img")
            self.ctl("import", other, out)
            self.assertEqual(self.held(other), self.values)
            again = self.ctl("export", other, "--format", form)
            strip = lambda data: [line for line in data.splitlines() if not line.startswith(b"#")]
            self.assertEqual(strip(again), strip(self.bytes(out)))
            self.assertEqual(self.ctl("import", self.path("none"), out, "--dry-run"), b"258 pairs\n")

    def test_the_program_reads_an_export(self):
        self.small()
        script, other = self.ctl("export", self.image), self.other()
        entries = subprocess.run([PROGRAM, other, "asm"], input=script, capture_output=True, check=True).stdout
        subprocess.run([PROGRAM, other, "serve", "36"], input=entries, capture_output=True, check=True)
        self.assertEqual(self.held(other), self.values)

    def test_parts(self):
        self.store({b"user:1": b"a", b"user:2": b"b", b"v": b"c"})
        keys_of = lambda *words: [json.loads(it)["key"] for it in self.ctl("export", self.image, "--format", "json", *words).splitlines()]
        self.assertEqual(keys_of("--prefix", "user:"), ["user:1", "user:2"])
        self.assertEqual(keys_of("--from", "user:2"), ["user:2", "v"])
        self.assertEqual(keys_of("--from", "0x757365723a32", "--prefix", "user:"), ["user:2"])
        self.assertEqual(keys_of("--prefix", "w"), [])

    def test_nothing_is_replaced_unasked(self):
        self.store({b"a": b"1"})
        out = self.path("out")
        self.ctl("export", self.image, "-o", out)
        self.store({b"a": b"2"})
        self.ctl("export", self.image, "-o", out, status=9)
        self.ctl("import", self.image, out, status=9)
        self.assertIn("line 2: key a: the key exists with another value", self.said)
        self.assertEqual(self.held(), {b"a": b"2"})
        self.ctl("import", self.image, out, "--overwrite")
        self.assertEqual(self.held(), {b"a": b"1"})
        self.ctl("import", self.image, out)
        self.assertIn("0 stored, 1 there already, 0 refused", self.said)
        self.ctl("export", self.image, "-o", out, "--force")
        self.assertEqual(sorted(os.listdir(self.folder)), ["drive.img", "out"])

    def test_a_wrong_line_stores_nothing(self):
        lines = self.path("lines")
        for line, words in (
            ("store 6 61", "line 2: the key is no even count"),
            ("store 61  61", "line 2: store KEY VALUE is needed"),
            ("delete 61", "line 2: 'delete' is no store"),
            ("store " + "61" * 17 + " 61", "line 2: a key of 17 bytes"),
            ('{"key": "a"}', "line 2: one of value"),
            ('{"key": "a", "value": 1}', "has to be text"),
            ('{"key": "a", "value_base64": "?"}', "cannot be read"),
            ("{", "line 2: no JSON"),
        ):
            with open(lines, "w") as file:
                file.write(f"store 62 62\n{line}\n")
            self.ctl("import", self.image, lines, status=12)
            self.assertIn(words, self.said)
        self.assertEqual(self.held(), {})

    def test_an_export_that_was_cut_off(self):
        self.store({b"a": b"1", b"b": b"2"})
        out = self.path("out")
        self.ctl("export", self.image, "-o", out)
        whole = self.bytes(out).splitlines(keepends=True)
        for part in (whole[:-1], whole[:2] + whole[3:], whole[:1]):
            with open(out, "wb") as file:
                file.writelines(part)
            self.ctl("import", self.other(f"{len(part)}{part[-1][2:5]}.img"), out, status=12)
            self.assertIn("cut off", self.said)

    def test_what_the_drive_refuses(self):
        lines = "store 61 61\nstore 62 %s\nstore 63 63\n" % ("00" * (GREATEST + 1))
        self.ctl("import", self.image, input=lines.encode(), status=3)
        self.assertIn("line 2: key b:", self.said)
        self.assertEqual(self.held(), {b"a": b"a", b"c": b"c"})
        many = b"".join(b"store %04x %s\n" % (i, b"00" * (GREATEST + 1)) for i in range(30))
        self.ctl("import", self.image, input=many, status=3)
        told = self.said.splitlines()
        self.assertEqual(sum("key 0x" in line for line in told), 10)
        self.assertIn("import: 20 more were refused", told)
        self.assertEqual(told[-1], "import: 0 stored, 0 there already, 30 refused")

    def test_making_the_image(self):
        new = self.path("new.img")
        self.ctl("import", new, "--make", "512", "16", "64", input=b"store 61 61\nstroe\n", status=12)
        self.assertFalse(os.path.exists(new))
        self.ctl("import", new, input=b"store 61 61\n", status=8)
        self.ctl("import", new, "--make", "512", "16", "21", input=b"store 61 61\n", status=2)
        self.assertIn("a drive of this page and block has at least 22 blocks, not 21", self.said)
        self.assertFalse(os.path.exists(new))
        self.ctl("import", new, "--make", "512", "16", "64", input=b"store 61 61\n")
        self.assertEqual(self.held(new), {b"a": b"a"})

    def test_namespaces(self):
        new, other = self.path("new.img"), self.path("other.img")
        self.ctl("import", new, "--make", "512", "16", "64", "--limits", "100,393", input=b"", status=2)
        self.assertIn("together 493 pages", self.said)
        self.ctl("import", new, "--make", "512", "16", "64", "--limits", "x", input=b"", status=2)
        self.assertFalse(os.path.exists(new))
        self.ctl("import", new, "--make", "512", "16", "64", "--limits", "100,392", input=b"store 61 61\n")
        self.ctl("import", new, "--namespace", "2", input=b"store 61 62\nstore 62 63\n")
        second = self.ctl("export", new, "--namespace", "2")
        self.assertEqual(self.ctl("export", new).count(b"store "), 1)
        self.ctl("import", other, "--make", "512", "16", "64", "--limits", "2,490", "--namespace", "2", input=second)
        moved = self.ctl("export", other, "--namespace", "2")
        self.assertEqual((self.held(other), moved.splitlines()[1:]), ({}, second.splitlines()[1:]))
        found = self.check(path=other)
        used = [(it["namespace"], it["limit"], it["keys"], it["value_pages"]) for it in found["namespaces"]]
        self.assertEqual(used, [(1, 2, 0, 0), (2, 490, 2, 4)])

    def test_a_closed_pipe(self):
        self.small()
        done = subprocess.run(f"'{PINKCTL}' export '{self.image}' | head -1", shell=True, capture_output=True)
        self.assertIn(b"pinkctl export", done.stdout)
        self.assertEqual(done.stderr.count(b"Traceback") + done.stderr.count(b"Broken"), 0)


class Backup(OnImage):
    def test_a_copy_opens(self):
        self.store({b"a": b"1"})
        copy = self.path("copy.img")
        os.chmod(self.image, 0o640)
        self.ctl("backup", self.image, copy)
        self.assertEqual(self.bytes(copy), self.bytes())
        self.assertEqual(os.stat(copy).st_mode & 0o777, 0o640)
        self.assertLess(os.stat(copy).st_blocks * 512, 200000)
        self.ctl("backup", self.image, copy, status=9)
        self.store({b"a": b"2"})
        self.ctl("backup", self.image, copy, "--force")
        self.assertEqual(self.held(copy), {b"a": b"2"})
        os.mkdir(self.path("folder"))
        self.ctl("backup", self.image, self.path("folder"))
        self.assertEqual(self.bytes(self.path("folder/drive.img")), self.bytes())
        self.assertEqual(sorted(os.listdir(self.folder)), ["copy.img", "drive.img", "folder"])

    def test_an_image_in_use(self):
        copy = self.path("copy.img")
        drive = Drive(self.image, program=PROGRAM)
        self.ctl("backup", self.image, copy, status=6)
        self.assertFalse(os.path.exists(copy))
        waiting = subprocess.Popen([PINKCTL, "backup", self.image, copy, "--wait", "300"], stderr=subprocess.PIPE)
        drive.store(b"a", b"1")
        time.sleep(0.5)
        self.assertIsNone(waiting.poll())
        drive.close()
        self.assertEqual((waiting.wait(300), waiting.stderr.close()), (0, None))
        self.assertEqual(self.held(copy), {b"a": b"1"})

    def test_copies_beside_a_writer(self):
        """Every copy that is made while sessions come and go opens, with a map that was there."""
        maps, stop = [{}], time.monotonic() + 4
        copies = []
        while time.monotonic() < stop or len(copies) < 8:
            with Drive(self.image, program=PROGRAM) as d:
                copy = self.path(f"copy{len(copies)}.img")
                running = subprocess.Popen([PINKCTL, "backup", "-q", self.image, copy, "--wait", "300"])
                for _ in range(20):
                    key = b"%d" % random.randrange(50)
                    d[key] = b"%d" % len(copies)
                    maps.append({**maps[-1], key: b"%d" % len(copies)})
            self.assertEqual(running.wait(300), 0)
            copies.append(copy)
        for copy in copies:
            self.check(path=copy)
            self.assertIn(self.held(copy), maps)

    def test_what_is_refused(self):
        copy = self.path("copy.img")
        self.ctl("backup", self.image, self.image, status=2)
        self.ctl("backup", self.path("none"), copy, status=8)
        self.ctl("backup", self.image, self.path("none/copy"), status=11)
        self.store({b"a": b"1"})
        it, flash = self.flash()
        self.change(self.place(flash.map[1, b"a"].page, 0), b"\0")
        self.ctl("backup", self.image, copy, status=8)
        self.assertFalse(os.path.exists(copy))
        self.ctl("backup", self.image, copy, "--even-damaged", status=8)
        self.assertEqual(self.bytes(copy), self.bytes())

    def test_a_full_disk(self):
        if os.geteuid() or not shutil.which("mount"):
            self.skipTest("a small file system needs root")
        small = self.path("small")
        os.mkdir(small)
        if subprocess.run(["mount", "-t", "tmpfs", "-o", "size=64k", "none", small], capture_output=True).returncode:
            self.skipTest("no file system can be mounted here")
        self.addCleanup(subprocess.run, ["umount", small])
        self.fill(240)
        self.ctl("backup", self.image, os.path.join(small, "copy"), status=11)
        self.assertIn(os.strerror(errno.ENOSPC), self.said)
        self.assertEqual(os.listdir(small), [])


class Salvage(OnImage):
    def salvage(self, *words, status=10):
        new = self.path("new.img")
        if os.path.exists(new):
            os.remove(new)
        before = self.bytes()
        self.out = self.ctl("salvage", self.image, new, *words, status=status).decode()
        self.assertEqual(self.bytes(), before)
        return self.held(new) if os.path.exists(new) else None

    def test_of_a_whole_drive(self):
        self.fill(100)
        self.assertEqual(self.salvage(status=0), self.held())
        self.assertIn("100 sure, 0 doubtful; 0 lost", self.out)

    def test_the_review_s_four(self):
        self.fill()
        held, whole = self.held(), self.bytes()
        it, flash = self.flash()
        page = flash.map[1, b"key100"].page
        journal = min(flash.newest.pages)
        meta = next(run[0] * 16 for run in flash.root.runs if run)
        for at, least in ((self.place(page, 500), 246), (self.place(page, 5), 245), (self.place(meta, 40), 244)):
            self.change(0, whole)
            self.change(at, bytes([whole[at] ^ 1]))
            self.check(status=8)
            found = self.salvage()
            self.assertGreaterEqual(len(found), least)
            self.assertEqual({key: held.get(key) for key in found}, found)
        self.change(0, whole)
        for page, status, least in ((journal, 0, 246), (journal + 1, 10, 232)):
            at = self.place(page, 8)
            self.change(at, bytes([whole[at] ^ 1]))
            self.check(status=8)
            found = self.salvage(status=status)
            self.assertGreaterEqual(len(found), least)
            self.assertEqual({key: held.get(key) for key in found}, found)

    def test_what_is_doubtful_is_told(self):
        self.store({b"a": b"old", b"b": b"gone"})
        with Drive(self.image, program=PROGRAM) as d:
            d[b"a"] = b"new"
            del d[b"b"]
            d[b"c"] = b"3"
        it, flash = self.flash()
        self.change(self.place(min(flash.newest.pages), 0), b"X" * 1024)
        found = self.salvage("--list", self.path("list"))
        listed = [json.loads(line) for line in self.bytes(self.path("list")).splitlines()]
        self.assertEqual(found, {b"a": b"old", b"b": b"gone", b"c": b"3"})
        self.assertEqual({it["key"]: it["is"] for it in listed}, {"a": "doubtful", "b": "doubtful"})
        self.assertIn("1 sure, 2 doubtful; 0 lost", self.out)
        self.assertIn("it may be older, or deleted since", self.out)
        self.assertEqual(self.salvage("--sure-only"), {b"c": b"3"})

    def test_a_commit_whose_pages_differ(self):
        self.store({b"a": b"1", b"b": b"2"})
        with Drive(self.image, program=PROGRAM) as d:
            del d[b"a"]
        it, flash = self.flash()
        page = max(flash.newest.pages) - 1
        self.change(self.place(page, 32 + 4), b"b")  # the deletion of a, as that of b
        self.assertEqual(self.salvage(), {b"a": b"1", b"b": b"2"})
        self.assertIn("0 sure, 2 doubtful; 0 lost", self.out)

    def test_a_lost_newest_root(self):
        self.store({b"a": b"1"})
        self.store({b"b": b"2"})
        self.store({b"c": b"3"})
        it, flash = self.flash()
        pages = flash.root.page, flash.root.page + 1
        for within, byte, statuses in ((500, b"\1", (0, 0)), (24, b"\xff", (0, 10))):
            for page, status in zip(pages, statuses):
                self.change(self.place(page, within), byte)
                self.assertEqual(self.salvage(status=status), {b"a": b"1", b"b": b"2", b"c": b"3"})

    def test_without_any_root(self):
        self.fill(60)
        held = self.held()
        for page in range(32):
            self.change(STATES + page, b"\0")
            self.change(self.place(page), bytes(PAGE))
        self.assertEqual(self.salvage(), held)

    def test_damaged_files(self):
        self.fill(60)
        held, whole = self.held(), self.bytes()
        for at, what in ((0, b"junk"), (8, b"\1\2\3"), (16, b"\0\0\0\0"), (20, b"\1"), (STATES + 1020, b"\7")):
            self.change(0, whole)
            self.change(at, what)
            self.check(status=8)
            self.assertEqual(self.salvage(status=0), held)
        self.change(0, whole)
        os.truncate(self.image, 525344 - 3000)
        self.assertEqual(self.salvage(status=0), held)

    def test_what_is_refused(self):
        self.store({b"a": b"1"})
        self.ctl("salvage", self.image, self.image, status=9)
        self.ctl("salvage", self.path("none"), self.path("new.img"), status=8)
        self.ctl("salvage", self.image, self.path("none/new.img"), status=11)
        self.ctl("salvage", self.image, self.path("new.img"), "--shape", "1", "2", "3", status=2)
        junk = self.path("junk")
        with open(junk, "wb") as file:
            file.write(b"junk" * 1000)
        self.ctl("salvage", junk, self.path("new.img"), status=8)
        self.assertFalse(os.path.exists(self.path("new.img")))
        self.ctl("salvage", self.image, self.path("new.img"), "--dry-run")
        self.assertFalse(os.path.exists(self.path("new.img")))

    def test_another_shape(self):
        self.fill(60)
        held = self.held()
        self.assertEqual(self.salvage("--shape", "512", "16", "30", status=0), held)
        self.assertIsNotNone(self.salvage("--shape", "512", "16", "22"))
        self.assertIn("refused by the new drive", self.out)


class Shell(OnImage):
    def shell(self, *lines, status=0, input=b"", words=()):
        given = [word for line in lines for word in ("-e", line)]
        return self.ctl("shell", self.image, *words, *given, input=input, status=status)

    def test_commands(self):
        out = self.shell('set user:1 "two words\\n"', "get user:1", "has user:1", "length user:1", "add b 2", "list", "scan user", "del b user:1")
        self.assertEqual(out, b'ok\n"two words\\n"\nyes\n10\nok\nb\nuser:1\nuser:1 "two words\\n"\nok\n')
        self.assertIn(b"limit 492\n", self.shell("stat"))
        self.assertIn(b"get KEY", self.shell("help"))
        self.shell("tick 3", "quit", "get nothing")

    def test_statuses(self):
        self.assertEqual(self.shell("has a", status=1), b"no\n")
        self.shell("get a", status=1)
        self.assertIn("missing a", self.said)
        self.shell("del a", status=1)
        self.shell("get a", "set a 1", status=1)
        self.assertEqual(self.held(), {})
        self.shell("set a 1", "add a 2", status=3)
        self.assertIn("the key a exists already (status 89h)", self.said)
        self.shell("set " + "k" * 17 + " 1", status=3)
        self.assertEqual(self.said, f"a key has 1 to 16 bytes; {'k' * 17} has 17 (status 86h)\n")
        for line in ("what", "get", "set a", "set a b c", "set 0x1 a", 'get "a', "get 'a'b", 'get "\\q"', "list a b", "set a < ", "namespace x"):
            self.shell(line, status=2)

    def test_a_script(self):
        self.assertEqual(self.shell(input=b"# a comment\n\nset a 1\nget a\nget b\nset c 3\n", status=1), b"ok\n1\n")
        self.assertIn("line 5: missing b", self.said)
        self.assertEqual(self.held(), {b"a": b"1"})

    def test_files_and_bytes(self):
        value = bytes(range(256)) * 4
        with open(self.path("a file"), "wb") as file:
            file.write(value)
        self.shell(f"set 0x00ff < '{self.path('a file')}'", f'get 0x00ff > "{self.path("out")}"')
        self.assertEqual(self.bytes(self.path("out")), value)
        self.assertEqual(self.shell("get 0x00ff", words=["--raw"]), value)
        self.assertEqual(self.shell("get 0x00ff").strip(), b"0x" + value.hex().encode())
        self.assertEqual(self.shell("set a 1", "get a", "get a", "del a"), b"ok\n1\n1\nok\n")
        self.shell("set a < /nowhere/file", status=11)
        self.assertEqual(self.held(), {b"\0\xff": value})

    def test_words_round_trip(self):
        draw = random.Random(1)
        for _ in range(2000):
            data = bytes(draw.choice(b'ab "\'\\#@<>0x\n\t\0\xc3\xa9') for _ in range(draw.randrange(12)))
            (word,) = keys.words_of(keys.shown(data))
            self.assertEqual(word.bytes(), data)

    def test_at_a_terminal(self):
        pid, terminal = pty.fork()
        if not pid:
            os.environ.update(TERM="dumb", PINKCTL_HISTORY=self.path("history"))
            os.execv(PINKCTL, [PINKCTL, "shell", self.image])
        said = b""
        for line, answer in ((b"set a 1\n", b"ok"), (b"get b\n", b"missing b"), (b"get a\n", b"1"), (b"quit\n", b"")):
            said = self.until(terminal, b"pink> ")
            os.write(terminal, line)
            said = self.until(terminal, answer)
            self.assertIn(answer, said)
        with self.subTest("the end"):
            self.assertEqual(os.waitpid(pid, 0)[1], 0)
        os.close(terminal)
        self.assertIn(b"get a", self.bytes(self.path("history")))

    def until(self, terminal, text):
        said, end = b"", time.monotonic() + 30
        while text not in said and time.monotonic() < end:
            if select.select([terminal], [], [], 1)[0]:
                said += os.read(terminal, 4096)
        return said

    def test_what_does_not_open(self):
        self.ctl("shell", self.path("none"), "-e", "list", status=8)
        with Drive(self.image, program=PROGRAM):
            self.shell("list", status=6)
        self.change(STATES, b"\0\0")
        self.shell("list", status=8)
        self.assertIn("broken off before its root was written; remove it, and make it again", self.said)
        self.assertNotIn("make(", self.said)
        self.change(STATES, b"\1\3")
        self.shell("list", status=8)
        self.assertIn(f"the state of page 1 is 3; see pinkctl check {self.image}", self.said)

    def test_namespaces(self):
        os.remove(self.image)
        make(self.image, *self.shape, program=PROGRAM, limits=(100, 392))
        self.assertEqual(self.shell("set a 1", "namespace 2", "set a 2", "get a", "select 1", "get a", "namespace"), b"ok\n2\nok\n2\n1\n1\n1\n")
        self.assertEqual(self.shell("get a", words=["--namespace", "2"]), b"2\n")
        self.shell("namespace 3", status=3)
        self.assertEqual(self.said, "the drive has no namespace 3 (status 0Bh)\n")


class Namespaces(unittest.TestCase):
    """Images by their bytes, as docs/FORMATS.md has them: roots with limits, and keys of several namespaces."""

    P, N, M = 512, 16, 64

    def image(self, limits, entries):
        """A drive of namespaces with these limits, whose first commit has these Puts; without limits of version 2."""
        pages, body, at = {}, b"", 64
        words = struct.pack("<8I", *limits, *[0] * (8 - len(limits))) if limits else b""
        version = 3 if limits else 2
        head = struct.pack("<8sHHIHHIQQ4I8s", b"PINKROOT", version, self.N, self.P, self.M, 2, len(limits), 1, 1, 0, 0, 0, 0, bytes(8))
        pages[0] = pages[1] = (head + words + struct.pack("<HH", 2, 3)).ljust(self.P, b"\0")
        for space, key, value in entries:
            count = 2 * -(-(32 + len(value)) // (2 * self.P))
            body += struct.pack("<BBBB16sIII", len(key), 1, space - 1, 0, key, at, len(value), 0)
            data = struct.pack("<BBBB16sI8s", len(key), 0x44, space - 1, 0, key, len(value), b"PINKDATA") + value
            data = data.ljust(count * self.P, b"\0")
            pages.update({at + i: data[i * self.P : (i + 1) * self.P] for i in range(count)})
            at += count
        commit = struct.pack("<8sQIH10s", b"PINKJRNL", 1, 0, len(entries), bytes(10)) + body
        pages[2 * self.N] = pages[2 * self.N + 1] = commit.ljust(self.P, b"\0")
        head = struct.pack("<8sIII12s", b"PINKIMG1", self.P, self.N, self.M, bytes(12))
        every = range(self.N * self.M)
        return head + bytes(page in pages for page in every) + b"".join(pages.get(page, bytes(self.P)) for page in every)

    def read(self, limits, entries):
        return image.read_flash(image.load_image(self.image(limits, entries)))

    def test_keys_of_two_namespaces(self):
        flash = self.read([100, 392], [(1, b"a", b"x" * 100), (2, b"a", b"y" * 600), (2, b"b", b"")])
        self.assertTrue(flash.opens)
        self.assertEqual(list(flash.map), [(1, b"a"), (2, b"a"), (2, b"b")])
        self.assertEqual((flash.limits, flash.pages_of(1), flash.pages_of(2)), ((100, 392), 2, 4))

    def test_without_limits(self):
        flash = self.read([], [(1, b"a", b"x")])
        self.assertEqual((flash.opens, flash.limits), (True, (492,)))

    def test_a_namespace_that_the_drive_does_not_have(self):
        for limits, space in ([100, 392], 3), ([492], 2), ([], 2):
            self.assertEqual(self.read(limits, [(space, b"a", b"x")]).fault.page, 32)

    def test_a_limit_that_is_passed(self):
        flash = self.read([2, 392], [(1, b"a", b"x"), (2, b"a", b"x"), (1, b"b", b"x")])
        self.assertEqual((flash.fault.page, flash.fault.key), (68, (1, b"b")))

    def test_limits_outside_the_grammar(self):
        for limits in [0], [493], [100, 393], [100, 0, 1]:
            self.assertIsNone(self.read(limits, [(1, b"a", b"x")]).root)

    def test_a_repaired_root_with_limits(self):
        for limits in [100, 392], []:
            whole = bytearray(self.image(limits, [(1, b"a", b"x")]))
            first = 32 + self.N * self.M
            whole[first + 8] = 7  # another version
            whole[first + 500] = 1  # padding that is not zeros
            root = rescue.repaired(image.load_image(whole), 0, bytes(whole[first : first + self.P]))
            self.assertEqual((root.limits, root.newest, root.number), (tuple(limits), (2, 3), 1))



class Shapes(OnImage):
    def test_a_shape_holds_what_it_promises(self):
        out = self.ctl("shapes", "--values", "30", "--bytes", "900").decode().splitlines()
        shape = tuple(map(int, out[0].split()[1:4]))
        count = int(re.search(r"([\d,]+) such", out[0])[1].replace(",", ""))
        self.assertGreaterEqual(count, 30)
        new = self.path("new.img")
        make(new, *shape, program=PROGRAM)
        self.assertEqual(os.path.getsize(new), layout.Shape(*shape).file_bytes)
        with Drive(new, program=PROGRAM) as d:
            for i in range(count):
                d.store(b"%d" % i, bytes(900))
            self.assertEqual(d.report().limit, layout.Layout(layout.Shape(*shape)).limit)
            with self.assertRaises(pinkdrive.CapacityExceeded):
                d.store(b"one more", bytes(900))

    def test_shapes_are_those_that_make_takes(self):
        for p in (256, 512, 1024, 16384):
            for n in (4, 8, 64, 256):
                for m in (21, 22, 30, 40, 4096, 4097):
                    allowed = layout.shape_fault(layout.Shape(p, n, m)) is None
                    new = self.path("new.img")
                    status = subprocess.run([PROGRAM, new, "make", str(p), str(n), str(m)], capture_output=True).returncode
                    self.assertEqual(status == 0, allowed, (p, n, m, status))
                    if allowed:
                        self.assertEqual(os.path.getsize(new), layout.Shape(p, n, m).file_bytes)
                        os.remove(new)

    def test_memory_is_that_of_the_page_on_boards(self):
        with open(os.path.join(TOP, "docs/BOARDS.md")) as file:
            text = file.read().split("\n## Memory\n")[1].split("\n## ")[0]
        rows = re.findall(r"^\| \((\d+), (\d+), (\d+)\) \| ([\d,]+) \| ([\d,]+) \| ([\d,]+) \|$", text, re.M)
        self.assertEqual(len(rows), 4)
        for *shape, none, some, many in rows:
            drive = layout.Layout(layout.Shape(*map(int, shape)))
            self.assertEqual([f"{drive.memory(frames):,}" for frames in (0, 36, 520)], [none, some, many])
        told = self.ctl("shapes", "--shape", *rows[0][:3]).decode()
        self.assertIn(f"  36 frames: {rows[0][4]} bytes; ", told)

    def test_one_wording(self):
        shapes = [(500, 16, 64), (512, 9, 64), (512, 32, 64), (512, 16, 4097), (16384, 256, 65), (512, 8, 3000), (512, 16, 21), (512, 16, 64)]
        for shape in shapes:
            fault = pinkdrive.Shape(*shape).fault()
            self.assertEqual(layout.shape_fault(layout.Shape(*shape)), fault)
            said = subprocess.run(
                ["sh", "-c", '. "$0"; shape_fault "$@"', os.path.join(TOP, "launch/why.sh"), *map(str, shape)], capture_output=True, text=True
            )
            self.assertEqual((said.stdout, said.stderr), (f"{fault}\n" if fault else "", ""), shape)
        self.assertEqual(len({pinkdrive.Shape(*shape).fault() for shape in shapes}), len(shapes))

    def test_words(self):
        self.ctl("shapes", status=2)
        self.ctl("shapes", "--values", "9", "--bytes", "2000000", status=1)
        self.assertIn("a value has at most 1,048,544 bytes, not 2,000,000", self.said)
        self.ctl("shapes", "--values", "48000", "--bytes", "10", status=1)
        self.assertIn("at most 47,820 values of 10 bytes fit a drive (make 2048 32 4096), not 48,000: use several drives", self.said)
        self.assertEqual(self.ctl("shapes", "--values", "47820", "--bytes", "10").split()[:4], [b"make", b"2048", b"32", b"4096"])
        self.assertIn(b"2,016 bytes", self.ctl("shapes", "--shape", "512", "16", "64"))
        self.ctl("shapes", "--shape", "500", "16", "64", status=2)


class OfACluster:
    """A server that a test makes up: what it says of the others, and what it was asked."""

    host = "127.0.0.2"

    def __init__(self, port, asked, seen, others=()):
        self.port, self.asked, self.lines, self.others = port, asked, seen, [self, *others]
        self.place = f"{self.host}:{port}"

    def id(self):
        return f"id{self.port}"

    def seen(self):
        return self.lines

    def do(self, *words):
        self.asked.append((self.port, *words))
        if words[1] == "MEET":
            for it in self.others:
                it.lines.append(Seen(f"id{words[3]}", words[3], ["master"], None, True, []))
        if words[1] == "FORGET":
            self.lines = [it for it in self.lines if it.id != words[2]]


def wait_once(fault, holds, seconds=0):
    """In the place of a wait: nothing changes by itself."""
    if not holds():
        raise ToolError(fault, Exit.PROGRAM)


class Cluster(OnImage):
    """What a cluster is made of; bench/cluster.sh and bench/machines.sh run some."""

    HOSTS = ("127.0.0.2", "127.0.0.3", "127.0.0.4")

    def setUp(self):
        super().setUp()
        self.module, self.secret = self.path("pink.so"), self.path("secret")
        for path, text in ((self.module, ""), (self.secret, "0123456789abcdef+/=\n")):
            with open(path, "w") as file:
                file.write(text)

    def make(self, folder, *words, status=0):
        told = self.ctl("cluster", "make", self.path(folder), "3", "512", "16", "64", *words, status=status, env={"PINK_MODULE": self.module})
        return told.decode()

    def read(self, *names):
        with open(self.path(os.path.join(*names))) as file:
            return file.read()

    def on_hosts(self, *words):
        return ["--hosts", ",".join(self.HOSTS), "--password-file", self.secret, *words]

    def test_one_machine(self):
        told = self.make("store")
        self.assertEqual(told, f"6 drives in {os.path.realpath(self.path('store'))}: 3 primaries from port 7400 on, 1 replicas of each\n")
        self.assertEqual(sorted(os.listdir(self.path("store"))), ["7400", "7401", "7402", "7403", "7404", "7405", "cluster.json"])
        facts = json.loads(self.read("store", "cluster.json"))
        self.assertEqual(facts, {"version": 1, "members": [[7400, None], [7401, None], [7402, None], [7403, 7400], [7404, 7401], [7405, 7402]], "joined": False})
        lines = self.read("store", "7403", "redis.conf").splitlines()
        self.assertEqual(lines[1:3], ["port 7403", "bind 127.0.0.1"])
        self.assertEqual(lines[-1], "cluster-allow-replica-migration no")
        self.assertEqual(members.Cluster(self.path("store")).own[3], (7403, 7400, "127.0.0.1"))

    def test_each_machine_has_its_part(self):
        for host in self.HOSTS:
            self.make(host, *self.on_hosts("--here", host))
        parts = {host: sorted(it for it in os.listdir(self.path(host)) if it.isdigit()) for host in self.HOSTS}
        self.assertEqual(parts, {"127.0.0.2": ["7400", "7405"], "127.0.0.3": ["7401", "7403"], "127.0.0.4": ["7402", "7404"]})
        plans = [{**json.loads(self.read(host, "cluster.json")), "here": ""} for host in self.HOSTS]
        self.assertEqual(plans, plans[:1] * 3)
        conf = self.read("127.0.0.4", "7404", "redis.conf")
        for line in ("bind 127.0.0.4 127.0.0.1", "cluster-announce-ip 127.0.0.4", f'include "{os.path.realpath(self.path("127.0.0.4"))}/password.conf"'):
            self.assertIn(line + "\n", conf)
        self.assertNotIn("0123456789", conf)
        secret = self.path("127.0.0.4/password.conf")
        self.assertEqual(self.read(secret), 'requirepass "0123456789abcdef+/="\nmasterauth "0123456789abcdef+/="\n')
        self.assertEqual(os.stat(secret).st_mode & 0o777, 0o600)
        it = members.Cluster(self.path("127.0.0.3"))
        self.assertEqual((it.password, [own.port for own in it.own], it.hosts[7405]), ("0123456789abcdef+/=", [7401, 7403], "127.0.0.2"))

    def test_a_password_on_one_machine(self):
        self.make("store", "--password-file", self.secret)
        self.assertIn("include ", self.read("store", "7400", "redis.conf"))
        self.assertEqual(members.Cluster(self.path("store")).password, "0123456789abcdef+/=")

    def test_no_pair_shares_a_machine(self):
        for count in range(1, 13):
            for machines in range(2, 6):
                hosts = [f"10.0.0.{number}" for number in range(machines)]
                for replicas in range(machines):
                    made = members.spread(members.members_of(count, replicas, 7400), hosts)
                    for port in range(7400, 7400 + count):
                        own = [it.host for it in made if it.family() == port]
                        self.assertEqual(len(set(own)), 1 + replicas)
                    for kind in (True, False):
                        loads = [sum(it.host == host and (it.of is None) == kind for it in made) for host in hosts]
                        self.assertLessEqual(max(loads) - min(loads), 1 if kind else replicas + 1, (count, machines, replicas))

    def test_which_loss_leaves_no_majority(self):
        def weak(*hosts):
            return members.weak_machines(dict(enumerate(hosts)))

        self.assertEqual(weak("a", "b", "c"), {})
        self.assertEqual(weak("a", "b"), {"a": 1, "b": 1})
        self.assertEqual(weak("a", "b", "a"), {"a": 1})
        self.assertEqual(weak("a", "b", "c", "a"), {"a": 2})
        self.assertEqual(weak("a", "a", "a"), {"a": 0})
        told = self.make("two", "--hosts", "127.0.0.2,127.0.0.3", "--password-file", self.secret, "--here", "127.0.0.3")
        self.assertIn("the loss of 127.0.0.2 leaves 1 of 3 primaries, no majority", told)
        self.assertNotIn("no majority", self.make("three", *self.on_hosts("--here", "127.0.0.3")))

    def test_a_voter(self):
        words = ["--hosts", "127.0.0.2,127.0.0.3", "--voter", "127.0.0.4", "--password-file", self.secret, "--here", "127.0.0.4"]
        self.ctl("cluster", "make", self.path("voter"), "2", "512", "16", "64", *words, env={"PINK_MODULE": self.module})
        it = members.Cluster(self.path("voter"))
        self.assertEqual([own.port for own in it.own], [7404])
        self.assertEqual(it.members[5], (7405, 7404, "127.0.0.2"))
        self.assertEqual(members.shares(it.members, it.facts["voter"]), {7400: (0, 8190), 7401: (8191, 16382), 7404: (16383, 16383)})
        self.assertEqual(members.weak_machines({own.port: own.host for own in it.members if own.of is None}), {})

    def test_what_make_refuses(self):
        short = self.path("short")
        with open(short, "w") as file:
            file.write("secret\n")
        rows = [
            (["--hosts", "127.0.0.2,127.0.0.3"], 2, "--password-file"),
            (["--hosts", "127.0.0.2,127.0.0.3", "--password-file", short], 2, "16 or more visible characters"),
            (["--hosts", "127.0.0.2,127.0.0.3", "--password-file", self.path("none")], 11, "No such file"),
            (self.on_hosts("--here", "127.0.0.9"), 2, "127.0.0.9 is none of 127.0.0.2, 127.0.0.3, 127.0.0.4"),
            (self.on_hosts(), 2, "--here ADDRESS"),
            (self.on_hosts("--replicas", "3"), 2, "3 machines have room for 2 replicas"),
            (["--hosts", "203.0.113.7,203.0.113.8", "--password-file", self.secret], 2, "this machine has none of the addresses"),
            (["--hosts", "db1,db2", "--password-file", self.secret], 2, "db1 is no address"),
            (["--hosts", "0.0.0.0,127.0.0.2", "--password-file", self.secret], 2, "not the address of one machine"),
            (["--hosts", "127.0.0.2,127.0.0.2", "--password-file", self.secret], 2, "there twice"),
            (["--hosts", "127.0.0.2,127.0.0.3", "--voter", "127.0.0.3", "--password-file", self.secret], 2, "there twice"),
            (["--voter", "127.0.0.3"], 2, "--hosts names them"),
            (["--port", "55600"], 2, "below 65,536"),
        ]
        for words, status, text in rows:
            with self.subTest(words=words):
                self.make("refused", *words, status=status)
                self.assertIn(text, self.said)
                self.assertFalse(os.path.exists(self.path("refused")))
        self.make("store")
        self.make("store", status=9)
        self.ctl("cluster", "start", self.path("nowhere"), status=1)

    def test_lines_of_the_servers(self):
        line = "07c3 10.0.0.2:7401@17401 slave,fail 67ed 1 2 3 disconnected"
        self.assertEqual(seen_of(line), Seen("07c3", 7401, ["slave", "fail"], "67ed", False, [], "10.0.0.2"))
        self.assertEqual(seen_of("07c3 :7401@17401 myself,master - 0 0 1 connected 0-5 7 [8->-x]").slots, [(0, 5), (7, 7)])
        self.assertEqual(seen_of("07c3 :7401@17401 myself,master - 0 0 1 connected").host, "127.0.0.1")
        self.assertEqual(seen_of("07c3 fd00::2:7401@17401 master - 0 0 1 connected").host, "fd00::2")

    def test_a_password_is_sent_first(self):
        asked = []

        class Answers(socketserver.StreamRequestHandler):
            def handle(it):
                while it.rfile.readline():
                    words = []
                    for _ in range(2 if not asked else 1):
                        words.append(it.rfile.read(int(it.rfile.readline()[1:]) + 2)[:-2])
                    asked.append(words)
                    it.wfile.write(b"+OK\r\n" if words == [b"AUTH", b"right"] else b"-WRONGPASS invalid\r\n" if words[0] == b"AUTH" else b"+PONG\r\n")

        with socketserver.ThreadingTCPServer(("127.0.0.1", 0), Answers) as server:
            threading.Thread(target=server.serve_forever, daemon=True).start()
            with Node(server.server_address[1], 5, password="right") as node:
                self.assertEqual(node.do("PING"), "PONG")
            self.assertEqual(asked, [[b"AUTH", b"right"], [b"PING"]])
            asked.clear()
            with self.assertRaisesRegex(Refused, "WRONGPASS") as caught:
                Node(server.server_address[1], 5, password="wrong")
            server.shutdown()
        told = members.refused_password(caught.exception)
        self.assertEqual(told.status, Exit.REFUSED)
        self.assertIn("password.conf has to be the same on each machine", str(told))

    LOST = Seen("lost", 7402, ["master", "fail"], None, True, [], "127.0.0.4")
    """A link that is only being made is connected, too."""

    def enter(self, *seen):
        """What is asked when a new server comes to port 7402, which another was at, as two servers see it."""
        asked = []
        second = OfACluster(7401, asked, list(seen))
        with mock.patch.object(join, "wait_until", wait_once):
            join.enter(OfACluster(7402, asked, []), [OfACluster(7400, asked, list(seen), [second]), second])
        return asked

    def test_a_new_machine_is_let_in_once_another_has_taken_over(self):
        asked = [(7400, "CLUSTER", "FORGET", "lost"), (7401, "CLUSTER", "FORGET", "lost"), (7400, "CLUSTER", "MEET", "127.0.0.2", 7402)]
        self.assertEqual(self.enter(self.LOST), asked)
        self.assertEqual(self.enter(self.LOST._replace(port=0, flags=["slave", "fail", "noaddr"])), asked)
        self.assertEqual(self.enter(self.LOST._replace(id="id7402")), asked[2:])

    def test_a_new_machine_is_refused_before_that(self):
        lost = self.LOST._replace(slots=[(0, 5)])
        replica = Seen("its", 7405, ["slave"], "lost", True, [], "127.0.0.2")
        with self.assertRaisesRegex(ToolError, "CLUSTER FAILOVER TAKEOVER at 127.0.0.2:7405 once") as caught:
            self.enter(lost, replica)
        self.assertEqual(caught.exception.status, Exit.REFUSED)
        with self.assertRaisesRegex(ToolError, "its keys are lost unless its old folder is found"):
            self.enter(lost)
        with self.assertRaisesRegex(ToolError, "is still there"):
            self.enter(self.LOST._replace(flags=["slave"]))

    def test_the_first_start_waits_for_the_others(self):
        self.make("127.0.0.2", *self.on_hosts("--here", "127.0.0.2"))
        it, asked = members.Cluster(self.path("127.0.0.2")), []
        own = [Seen("id7400", 7400, ["myself", "master"], None, True, [])]
        for ports in ([7400], [7400, 7405]):
            self.assertFalse(join.join_machines(it, {port: OfACluster(port, asked, own) for port in ports}))
        self.assertEqual(asked, [])

    def test_where_servers_are_now(self):
        self.make("127.0.0.2", *self.on_hosts("--here", "127.0.0.2"))
        it = members.Cluster(self.path("127.0.0.2"))
        elsewhere = self.LOST._replace(flags=["slave"])
        it.learn([self.LOST._replace(host="127.0.0.5"), elsewhere._replace(port=7401, host="127.0.0.9")])
        self.assertEqual((it.hosts[7402], it.hosts[7401]), ("127.0.0.5", "127.0.0.9"))
        it.learn([self.LOST, elsewhere._replace(host="127.0.0.8"), self.LOST._replace(host="127.0.0.7"), self.LOST._replace(port=7405)])
        self.assertEqual((it.hosts[7402], it.hosts[7405]), ("127.0.0.8", "127.0.0.2"))


class TheWhole(OnImage):
    def test_the_version(self):
        self.assertRegex(self.ctl("--version").decode(), r"^pinkctl \(Cezhandru\), commit \S+, kit .+\n$")

    def test_help(self):
        parts = ("check", "export", "import", "backup", "mv", "salvage", "shell", "shapes")
        text = self.ctl("--help").decode()
        for part in parts:
            self.assertIn(f"    {part} ", text)
            self.assertIn("usage: pinkctl " + part, self.ctl(part, "--help").decode())
        for status in Exit:
            self.assertIn(MEANINGS[status], text)
        self.ctl(status=2)
        self.ctl("what", status=2)

    def test_the_page_of_the_manual(self):
        with open(os.path.join(TOP, "docs", "pinkctl.1"), encoding="utf-8") as file:
            page = re.sub(r"[ \n]+", " ", file.read().replace("\\-", "-"))
        for status in Exit:
            self.assertIn(f".B {status.value} ", page)
        for part in ("check", "export", "import", "backup", "mv", "salvage", "shell", "shapes", "serve", "cluster make"):
            for option in re.findall(r"--[a-z-]+", self.ctl(*part.split(), "--help").decode()):
                if option != "--help":
                    self.assertIn(option, page, part)

    def test_through_a_link(self):
        os.symlink(os.path.abspath(PINKCTL), self.path("link"))
        done = subprocess.run([self.path("link"), "check", self.image], capture_output=True, cwd=self.folder)
        self.assertEqual((done.returncode, done.stdout[:6]), (0, b"whole:"))

    def test_an_end_by_a_signal_leaves_no_file(self):
        self.fill(240)
        with open(self.image, "rb") as held:
            fcntl.flock(held, fcntl.LOCK_EX)
            running = subprocess.Popen([PINKCTL, "backup", self.image, self.path("copy"), "--wait", "300"], stderr=subprocess.PIPE)
            self.assertIn(b"waiting", running.stderr.readline())
            running.stderr.close()
            running.send_signal(signal.SIGTERM)
            self.assertEqual(running.wait(300), 128 + signal.SIGTERM)
        self.assertEqual(os.listdir(self.folder), ["drive.img"])

    def test_a_program_that_is_not_there(self):
        self.ctl("shell", self.image, "-e", "list", status=15, env={"PINK_PROGRAM": "/nowhere/pink"})
        self.assertIn("/nowhere/pink", self.said)


if __name__ == "__main__":
    unittest.main()
