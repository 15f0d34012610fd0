"""Tests of the client of a pair against the real program:  python3 clients/python/test_pinkmirror.py

The environment's PINK_PROGRAM names another program than ./pink.
"""

import os
import sys
import tempfile
import unittest

sys.path.insert(0, os.path.dirname(os.path.abspath(__file__)))

import pinkdrive
from pinkdrive import (
    CapacityExceeded,
    Drive,
    DriveEnded,
    ImageInUse,
    InvalidValueSize,
    KeyDoesNotExist,
    make,
)
from pinkmirror import LONGEST_VALUE, FirstDriveEmpty, Mirror

PROGRAM = os.environ.get("PINK_PROGRAM", pinkdrive.PROGRAM)
SMALL = (512, 16, 64)
TIGHT = (512, 16, 22)  # 24 live pages, so 12 values of a pair of pages


class OnPair(unittest.TestCase):
    """A test with two images of its own."""

    shape = SMALL

    def setUp(self):
        folder = tempfile.TemporaryDirectory()
        self.addCleanup(folder.cleanup)
        self.first = os.path.join(folder.name, "a.img")
        self.second = os.path.join(folder.name, "b.img")
        make(self.first, *self.shape, program=PROGRAM)
        make(self.second, *self.shape, program=PROGRAM)
        self.pair = Mirror(self.first, self.second, program=PROGRAM)

    def alone(self, image):
        with Drive(image, program=PROGRAM) as drive:
            return dict(drive.items_from())


class Mapping(OnPair):
    def test_both_drives_hold_what_was_stored(self):
        self.pair[b"a"] = b"one"
        self.pair[b"b"] = b""
        self.assertEqual(self.pair[b"a"], b"one")
        self.assertEqual(self.pair[b"b"], b"")
        self.assertEqual(list(self.pair), [b"a", b"b"])
        self.assertEqual(len(self.pair), 2)
        for image in (self.first, self.second):
            self.assertEqual(self.alone(image), {b"a": b"one", b"b": b""})
        self.assertIsNone(self.pair.fallback)

    def test_a_key_that_is_taken_away_is_missing_on_both(self):
        self.pair[b"a"] = b"one"
        del self.pair[b"a"]
        self.assertNotIn(b"a", self.pair)
        for image in (self.first, self.second):
            self.assertEqual(self.alone(image), {})
        with self.assertRaises(KeyDoesNotExist):
            self.pair[b"a"]
        with self.assertRaises(KeyDoesNotExist):
            del self.pair[b"a"]

    def test_the_first_drive_decides(self):
        with Drive(self.first, program=PROGRAM) as drive:
            drive[b"same"], drive[b"new"] = b"first", b"1"
        with Drive(self.second, program=PROGRAM) as drive:
            drive[b"same"], drive[b"old"] = b"second", b"2"
        self.pair.resync()
        self.assertEqual(self.alone(self.second), {b"same": b"first", b"new": b"1"})
        self.assertEqual(self.alone(self.first), self.alone(self.second))

    def test_a_second_that_was_replaced(self):
        self.pair[b"a"] = b"one"
        os.remove(self.second)
        make(self.second, *self.shape, program=PROGRAM)
        self.pair[b"b"] = b"two"
        self.assertEqual(self.alone(self.second), {b"a": b"one", b"b": b"two"})

    def test_what_a_refusal_says(self):
        with self.assertRaises(InvalidValueSize) as caught:
            self.pair[b"a"] = bytes(2017)
        self.assertIn("has 2017 bytes", str(caught.exception))
        with self.assertRaises(KeyDoesNotExist) as missing:
            self.pair[b"a"]
        self.assertIn("there is no key b'a'", str(missing.exception))
        self.assertEqual(missing.exception.key, b"a")
        self.assertIsNone(self.pair.get(b"a"))
        self.assertEqual(self.alone(self.second), {})

    def test_an_image_named_mirror_and_one_image_twice(self):
        folder = os.getcwd()
        self.addCleanup(os.chdir, folder)
        os.chdir(os.path.dirname(self.first))
        make("mirror", *self.shape, program=PROGRAM)
        pair = Mirror("mirror", "b.img", program=PROGRAM)
        pair[b"a"] = b"one"
        self.assertEqual(self.alone("./mirror"), {b"a": b"one"})
        with self.assertRaises(DriveEnded) as caught:
            Mirror("b.img", "b.img", program=PROGRAM).resync()
        self.assertEqual(caught.exception.status, 2)
        with self.assertRaisesRegex(DriveEnded, "both images are one file: b.img and ./b.img"):
            Mirror("b.img", "./b.img", program=PROGRAM).resync()

    def test_a_value_too_long_for_a_word(self):
        with self.assertRaises(ValueError):
            self.pair[b"a"] = bytes(LONGEST_VALUE + 1)
        with self.assertRaises(ValueError):
            self.pair[b"k" * 17] = b""


class Full(OnPair):
    shape = TIGHT

    def test_a_full_pair_refuses_and_stays_in_step(self):
        for i in range(12):
            self.pair[b"%02d" % i] = b"x"
        with self.assertRaises(CapacityExceeded):
            self.pair[b"more"] = b"x"
        self.assertEqual(self.alone(self.first), self.alone(self.second))
        self.assertEqual(len(self.alone(self.first)), 12)


class Lost(OnPair):
    def test_a_lost_first_image_is_read_from_the_second(self):
        self.pair[b"a"] = b"one"
        os.remove(self.first)
        self.assertEqual(self.pair[b"a"], b"one")
        self.assertEqual(self.pair.fallback, self.second)
        self.assertEqual(list(self.pair), [b"a"])
        with self.assertRaises(DriveEnded) as caught:
            self.pair[b"b"] = b"two"
        self.assertEqual(caught.exception.status, 8)

    def test_what_is_left_of_a_pair_is_not_emptied_by_a_new_first_drive(self):
        self.pair[b"a"], self.pair[b"b"] = b"one", b"two"
        os.remove(self.first)
        with self.assertRaises(DriveEnded) as caught:
            self.pair.resync()
        text = str(caught.exception)
        self.assertIn(f"the drive that is left is {self.second}, so name it first: make({self.first!r}, 512, 16, 64)", text)
        self.assertIn(f"Mirror({self.second!r}, {self.first!r}).resync()", text)
        make(self.first, *SMALL, program=PROGRAM)
        calls = [
            lambda: self.pair[b"a"],
            lambda: list(self.pair),
            lambda: self.pair.update({b"c": b""}),
            lambda: self.pair.pop(b"a"),
            lambda: self.pair.resync(),
        ]
        for call in calls:
            with self.assertRaises(FirstDriveEmpty) as caught:
                call()
            self.assertEqual(caught.exception.status, 16)
            self.assertIn(f"{self.second} has 2", str(caught.exception))
        self.assertEqual(self.alone(self.second), {b"a": b"one", b"b": b"two"})
        Mirror(self.second, self.first, program=PROGRAM).resync()
        self.assertEqual(self.alone(self.first), {b"a": b"one", b"b": b"two"})
        self.assertEqual(self.pair[b"a"], b"one")

    def test_an_empty_first_drive_empties_the_second_on_purpose(self):
        with Drive(self.second, program=PROGRAM) as drive:
            drive[b"a"] = b"one"
        self.pair.resync(from_empty=True)
        self.assertEqual(self.alone(self.second), {})
        self.assertEqual(dict(self.pair), {})

    def test_a_lost_second_image_is_read_from_the_first(self):
        self.pair[b"a"] = b"one"
        os.remove(self.second)
        self.assertEqual(self.pair[b"a"], b"one")
        self.assertEqual(self.pair.fallback, self.first)
        make(self.second, *SMALL, program=PROGRAM)
        self.assertEqual(self.pair[b"a"], b"one")
        self.assertIsNone(self.pair.fallback)
        self.assertEqual(self.alone(self.second), {b"a": b"one"})

    def test_both_lost(self):
        os.remove(self.first)
        os.remove(self.second)
        with self.assertRaises(DriveEnded) as caught:
            self.pair[b"a"]
        self.assertIn("there is no file", str(caught.exception))
        self.assertIn(self.first, str(caught.exception))

    def test_a_damaged_image_is_not_written(self):
        self.pair[b"a"] = b"one"
        for image, other in ((self.first, self.second), (self.second, self.first)):
            with open(image, "r+b") as file:
                whole = file.read()
                file.seek(0)
                file.write(bytes(32))
            with self.assertRaises(DriveEnded) as caught:
                self.pair[b"b"] = b"two"
            self.assertEqual(caught.exception.status, 8)
            self.assertIn(f"{image} (525344 bytes) is no image of a drive", str(caught.exception))
            self.assertEqual(self.pair[b"a"], b"one")
            self.assertEqual(self.pair.fallback, other)
            with open(image, "r+b") as file:
                file.write(whole)
        self.assertEqual(dict(self.pair), {b"a": b"one"})
        self.assertIsNone(self.pair.fallback)

    def test_drives_of_two_shapes(self):
        self.pair[b"a"] = b"one"
        os.remove(self.second)
        make(self.second, *TIGHT, program=PROGRAM)
        with self.assertRaises(DriveEnded) as caught:
            self.pair[b"b"] = b"two"
        self.assertEqual(caught.exception.status, 8)
        self.assertIn("different shapes", str(caught.exception))
        self.assertEqual(self.pair[b"a"], b"one")
        self.assertEqual(self.pair.fallback, self.first)

    def test_an_image_that_another_process_has_open(self):
        self.pair[b"a"] = b"one"
        with Drive(self.second, program=PROGRAM):
            with self.assertRaises(ImageInUse) as caught:
                self.pair[b"b"] = b"two"
            self.assertEqual(caught.exception.status, 6)
            self.assertIn(f"{self.second} is in use by process", str(caught.exception))
            self.assertEqual(self.pair[b"a"], b"one")
            self.assertEqual(self.pair.fallback, self.first)


if __name__ == "__main__":
    unittest.main()
