#!/usr/bin/env python3
"""Tests of pinkdump against the real programs, outside of the gate:  python3 bench/dump.py

What it prints of a drive that is made, in use, and cut is compared with what was stored; an image
that is none is refused with its first wrong byte; and no dump changes a byte of an image.
"""

import os
import re
import subprocess
import sys
import tempfile
import unittest

TOP = os.path.join(os.path.dirname(os.path.abspath(__file__)), "..")
sys.path.insert(0, os.path.join(TOP, "clients", "python"))

import pinkdrive

PINK = os.environ.get("PINK_PROGRAM", os.path.join(TOP, "pink"))
DUMP = os.environ.get("PINKDUMP_PROGRAM", os.path.join(TOP, "pinkdump"))
PAGE, STATES, PAGES = 512, 32, 1024  # in shape (512, 16, 64)


def fields(line):
    name, *rest = line.split()
    return name, dict(it.split("=", 1) for it in rest)


class Dump(unittest.TestCase):
    def setUp(self):
        folder = tempfile.TemporaryDirectory()
        self.addCleanup(folder.cleanup)
        self.image = os.path.join(folder.name, "drive.img")
        pinkdrive.make(self.image, PAGE, 16, 64, program=PINK)

    def run_dump(self, *words):
        before = self.bytes()
        done = subprocess.run([DUMP, self.image, *words], capture_output=True, text=True)
        self.assertEqual(self.bytes(), before)
        return done

    def lines(self):
        done = self.run_dump("lines")
        self.assertEqual((done.returncode, done.stderr), (0, ""))
        return [fields(line) for line in done.stdout.splitlines()]

    def of(self, name):
        return [it for found, it in self.lines() if found == name]

    def store(self, values):
        with pinkdrive.Drive(self.image, program=PINK) as d:
            d.update(values)

    def bytes(self):
        if not os.path.exists(self.image):
            return None
        with open(self.image, "rb") as it:
            return it.read()

    def change(self, at, what):
        with open(self.image, "r+b") as it:
            it.seek(at)
            it.write(what)

    def page(self, number):
        return STATES + PAGES + number * PAGE

    def test_a_made_drive(self):
        shape = {"page_bytes": "512", "block_pages": "16", "blocks": "64"}
        self.assertEqual(self.of("image"), [shape])
        root, again = self.of("root")
        self.assertEqual(again, {**root, "page": "1", "newest": "0"})
        numbers = root["page"], root["number"], root["epoch"], root["blocks"]
        self.assertEqual(numbers, ("0", "1", "1", "2,3"))
        self.assertEqual((root["newest"], root["older"], root["run1"]), ("1", "-", "0"))
        self.assertEqual((self.of("entry"), self.of("page"), self.of("map")), ([], [], [{"keys": "0"}]))
        blocks = self.of("block")
        self.assertEqual(len(blocks), 64)
        self.assertEqual(blocks[0]["pages"], "RR" + "." * 14)
        uses = ["roots", "roots", "newest-epoch", "newest-epoch", "free"]
        self.assertEqual([it["use"] for it in blocks[:5]], uses)

    def test_a_drive_in_use(self):
        self.store({b"a": b"1", b"b": bytes(600), b"c": b""})
        self.store({b"a": b"2"})
        numbers = [int(it["number"]) for it in self.of("epoch")]
        self.assertEqual(numbers, [numbers[0], numbers[0] - 1])
        entries = [(it["key"], int(it["len"]), int(it["page"])) for it in self.of("entry")]
        self.assertEqual([it[:2] for it in entries], [("61", 1), ("61", 1), ("62", 600), ("63", 0)])
        (_, _, newer), (_, _, older), (_, _, long), (_, _, empty) = entries
        row = "".join(it["pages"] for it in self.of("block"))
        live = {i for i, letter in enumerate(row) if letter == "V"}
        self.assertEqual(live, {page + i for page in (newer, long, empty) for i in range(2)})
        self.assertEqual(row[older : older + 2], "vv")
        self.assertEqual(sum(int(it["live"]) for it in self.of("block")), 6)
        self.assertEqual(self.of("map"), [{"keys": "3"}])

    def test_a_deleted_key(self):
        with pinkdrive.Drive(self.image, program=PINK) as d:
            d[b"a"] = b"1"
            del d[b"a"]
        self.assertEqual([it.get("deleted") for it in self.of("entry")], [None, "1"])
        self.assertIn("  61 deleted\n", self.run_dump().stdout)

    def test_a_torn_page_of_the_journal(self):
        self.store({b"a": b"1"})
        (page,) = self.of("page")
        number = int(page["number"])
        self.assertEqual(page, {"of": "epoch", "number": str(number), "entries": "1"})
        self.change(STATES + number, b"\2")
        self.assertEqual(self.of("page"), [{"of": "epoch", "number": str(number + 1), "entries": "1"}])
        self.assertEqual(self.of("map"), [{"keys": "1"}])
        self.change(STATES + number + 1, b"\2")
        self.assertEqual(self.of("page"), [{"of": "epoch", "number": str(number), "is": "torn"}])
        self.assertEqual((self.of("entry"), self.of("map")), ([], [{"keys": "0"}]))
        self.assertEqual(self.of("block")[number // 16]["pages"][number % 16], "x")

    def test_a_damaged_flash(self):
        self.store({b"a": b"1", b"b": b"2"})
        value = int(self.of("entry")[0]["page"])
        journal = int(self.of("page")[0]["number"])
        roots = [int(it["page"]) for it in self.of("root")]
        self.change(self.page(value), b"\0")
        self.assertEqual(self.of("fails"), [{"page": str(value)}])
        self.assertEqual(len(self.of("entry")), 2)
        self.assertIn(f"reading the flash fails at page {value}\n", self.run_dump().stdout)
        self.assertEqual(self.of("block")[value // 16]["use"], "unknown")
        self.change(self.page(journal), b"X")
        self.assertEqual(self.of("fails"), [{"page": str(journal)}])
        self.assertEqual(self.of("page"), [{"of": "epoch", "number": str(journal), "is": "wrong"}])
        for page in roots:
            self.change(self.page(page), b"X")
        self.assertEqual((self.of("root"), self.of("entry")), ([], []))
        self.assertIn(("no-root", {}), self.lines())

    def test_what_is_no_image(self):
        whole = self.bytes()
        for bad, at in (
            (b"no image", 8),
            (whole[:31], 31),
            (whole[:-1], 32),
            (b"X" + whole[1:], 0),
            (whole[:40] + b"\3" + whole[41:], 40),
        ):
            with open(self.image, "wb") as it:
                it.write(bad)
            done = self.run_dump()
            self.assertEqual((done.returncode, done.stdout), (8, ""))
            self.assertIn(f"no image: the first wrong byte is at {at}\n", done.stderr)
        os.remove(self.image)
        done = self.run_dump("lines")
        self.assertEqual((done.returncode, done.stdout), (8, ""))
        self.assertIn("there is no image\n", done.stderr)

    def with_two_namespaces(self):
        """A drive of two namespaces with the key `a` in both, and `b` in the second."""
        os.remove(self.image)
        pinkdrive.make(self.image, PAGE, 16, 64, program=PINK, limits=(100, 392))
        with pinkdrive.Drive(self.image, program=PINK) as d:
            d[b"a"] = b"1"
            d.store(b"b", bytes(1000), namespace=2)
            d.store(b"a", b"22", namespace=2)

    def test_two_namespaces(self):
        self.with_two_namespaces()
        self.assertEqual({it["limits"] for it in self.of("root")}, {"100,392"})
        entries = {(it["space"], it["key"], it["len"]) for it in self.of("entry")}
        self.assertEqual(entries, {("1", "61", "1"), ("2", "62", "1000"), ("2", "61", "2")})
        used = [
            {"number": "1", "keys": "1", "live": "2", "limit": "100"},
            {"number": "2", "keys": "2", "live": "6", "limit": "392"},
        ]
        self.assertEqual((self.of("space"), self.of("map")), (used, [{"keys": "3"}]))
        text = self.run_dump().stdout
        self.assertIn("limits of 100,392 pages", text)
        self.assertIn("namespace 2: 2 keys in 6 of 392 pages", text)
        self.assertIn("  2:61 ", text)

    def test_one_namespace(self):
        self.store({b"a": b"1"})
        self.assertEqual({it["limits"] for it in self.of("root")}, {"492"})
        self.assertEqual(self.of("space"), [{"number": "1", "keys": "1", "live": "2", "limit": "492"}])
        self.assertEqual([it["space"] for it in self.of("entry")], ["1"])
        self.assertNotIn("limits of", self.run_dump().stdout)

    def test_an_entry_of_another_namespace(self):
        self.with_two_namespaces()
        pages = [int(it["number"]) for it in self.of("page") if it["of"] == "epoch"]
        self.change(self.page(pages[0]) + 34, b"\2")
        done = self.run_dump("lines")
        self.assertIn(f"fails page={pages[0]}", done.stdout)

    def test_spare_blocks(self):
        os.remove(self.image)
        for words in (["make", "512", "16", "64"], ["put", "61", "616263"]):
            done = subprocess.run([PINK, self.image, "spared", "4", *words], capture_output=True)
            self.assertEqual(done.returncode, 0)
        done = self.run_dump("spared", "4", "lines")
        self.assertEqual((done.returncode, done.stderr), (0, ""))
        lines = [fields(line) for line in done.stdout.splitlines()]
        of = lambda name: [it for found, it in lines if found == name]
        self.assertEqual(of("spares"), [{"all": "4", "left": "4"}])
        self.assertEqual(of("table"), [{"number": "1", "page": str(68 * 16)}])
        self.assertEqual((of("spare"), of("map")), ([], [{"keys": "1"}]))
        self.assertEqual([(it["key"], it["len"]) for it in of("entry")], [("61", "3")])
        self.assertEqual(len(of("block")), 64)
        text = self.run_dump("spared", "4").stdout
        self.assertIn("4 spare blocks, 4 left\n", text)
        self.assertIn("table 1 in page 1088\n", text)
        for words in (["spared", "3", "lines"], ["spared", "5", "lines"]):
            self.assertEqual(self.run_dump(*words).returncode, 8)
        for words in (["spared"], ["spared", "0"], ["spared", "65"], ["spared", "4", "what"]):
            self.assertEqual(self.run_dump(*words).returncode, 2)

    def test_words(self):
        for words in (["what"], ["lines", "more"]):
            self.assertEqual(self.run_dump(*words).returncode, 2)

    def picture(self, lines, *words):
        words = [sys.executable, os.path.join(TOP, "docs", "picture.py"), *words]
        return subprocess.run(words, input=lines, capture_output=True, text=True)

    def test_the_picture(self):
        self.store({b"a": b"1"})
        lines = self.run_dump("lines").stdout
        done = self.picture(lines)
        self.assertEqual((done.returncode, done.stderr), (0, ""))
        self.assertTrue(done.stdout.startswith("<svg ") and done.stdout.endswith("</svg>\n"))
        self.assertIn(": the newest epoch of the journal</title>", done.stdout)
        # Each page of blocks 0 to 5 is there, as a part of a line, and one cell for each colour; the rest are 58 blocks in one row.
        drawn = "".join(it["pages"] for it in self.of("block")[:6])
        cells = sum((int(length) + 2) // 14 for length in re.findall(r'h(\d+)" stroke="#', done.stdout))
        self.assertEqual(cells, len(drawn) + len(set(drawn)))
        self.assertIn(">6 to 63 erased</text>", done.stdout)

    def test_the_picture_of_a_large_drive(self):
        os.remove(self.image)
        pinkdrive.make(self.image, 4096, 64, 512, program=PINK)
        self.store({b"%05d" % i: b"x" * 100 for i in range(3000)})
        done = self.picture(self.run_dump("lines").stdout)
        self.assertEqual(done.returncode, 0)
        self.assertLess(len(done.stdout), 50000)

    def test_the_picture_of_two_namespaces(self):
        self.store({b"a": b"1"})
        self.assertNotIn("namespace", self.picture(self.run_dump("lines").stdout).stdout)
        self.with_two_namespaces()
        drawn = self.picture(self.run_dump("lines").stdout).stdout
        self.assertIn(">namespace 1: 1 keys in 2 of 100 pages</text>", drawn)
        self.assertIn(">namespace 2: 2 keys in 6 of 392 pages</text>", drawn)

    def test_no_picture_is_no_file(self):
        place = self.image + ".svg"
        self.assertEqual(self.picture(self.run_dump("lines").stdout, "-o", place).returncode, 0)
        with open(place) as it:
            self.assertTrue(it.read().endswith("</svg>\n"))
        os.remove(place)
        done = self.picture("", "-o", place)
        self.assertEqual((done.returncode, os.path.exists(place)), (1, False))
        self.assertIn("no line of a block", done.stderr)
        self.assertIn("drive.svg", self.picture("", "--help").stdout)


if __name__ == "__main__":
    unittest.main()
