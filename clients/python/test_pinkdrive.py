"""Tests of the client against the real program:  python3 clients/python/test_pinkdrive.py

The environment's PINK_PROGRAM names another program than ./pink.
"""

import gc
import os
import random
import signal
import struct
import subprocess
import sys
import tempfile
import threading
import time
import unittest
from unittest import mock
import warnings

HERE = os.path.dirname(os.path.abspath(__file__))
sys.path.insert(0, HERE)

import pinkdrive
from pinkdrive import Drive, DriveEnded, Opcode, Shape, make

PROGRAM = os.environ.get("PINK_PROGRAM", pinkdrive.PROGRAM)
SMALL = (512, 16, 64)
TIGHT = (512, 16, 22)  # 24 live pages
GREATEST = 2016  # bytes of a value in these shapes


class OnImage(unittest.TestCase):
    """A test with an image of its own."""

    shape = SMALL

    def setUp(self):
        folder = tempfile.TemporaryDirectory()
        self.addCleanup(folder.cleanup)
        self.image = os.path.join(folder.name, "drive.img")
        if self.shape:
            make(self.image, *self.shape, program=PROGRAM)

    def open(self):
        return Drive(self.image, program=PROGRAM, stderr=subprocess.DEVNULL)

    def bytes_of_image(self):
        with open(self.image, "rb") as it:
            return it.read()


class Namespaces(OnImage):
    """Drives of several namespaces."""

    shape = None

    def made(self, *limits):
        make(self.image, *SMALL, program=PROGRAM, limits=limits)

    def test_one_key_in_two(self):
        self.made(100, 392)
        with self.open() as d:
            d.store(b"k", b"first")
            self.assertFalse(d.exist(b"k", namespace=2))
            d.store(b"k", b"second", if_absent=True, namespace=2)
            d.store(b"l", b"other", namespace=2)
            self.assertEqual((d[b"k"], d.retrieve(b"k", namespace=2)), (b"first", b"second"))
            self.assertEqual(list(d.items_from(namespace=2)), [(b"k", b"second"), (b"l", b"other")])
            self.assertEqual((list(d), list(d.keys_from(b"l"))), ([b"k"], []))
            d.delete(b"k")
            self.assertEqual((b"k" in d, d.length(b"k", namespace=2)), (False, 6))
        with Drive(self.image, program=PROGRAM, namespace=2) as d:
            self.assertEqual(dict(d), {b"k": b"second", b"l": b"other"})
            self.assertEqual(d.limits.live_pages, 392)

    def test_reports(self):
        self.made(100, 92, 300)
        with self.open() as d:
            d.store(b"a", b"", namespace=3)
            d.store(b"b", bytes(1000), namespace=3)
            found = [d.report(namespace=it)[:3] for it in (1, 2, 3)]
            self.assertEqual(found, [(0, 100, 0), (0, 92, 0), (6, 300, 2)])

    def test_a_namespace_that_is_full(self):
        self.made(100, 392)
        with self.open() as d:
            for number in range(50):
                d.store(b"%d" % number, bytes(100))
            with self.assertRaisesRegex(pinkdrive.CapacityExceeded, "takes 2 pages, and .* at most 100"):
                d.store(b"50", bytes(100))
            d.store(b"50", bytes(100), namespace=2)
            self.assertEqual((d.report().live, d.report(namespace=2).live), (100, 2))

    def test_a_namespace_that_is_not_there(self):
        self.made(100, 392)
        with self.open() as d:
            for space in (0, 3, 8, 257, 2**32 - 1):
                with self.assertRaisesRegex(pinkdrive.InvalidNamespaceOrFormat, f"no namespace {space} "):
                    d.exist(b"k", namespace=space)
        with self.assertRaises(pinkdrive.InvalidNamespaceOrFormat):
            Drive(self.image, program=PROGRAM, namespace=3)

    def test_limits_that_are_refused(self):
        cases = [
            ((100, 393), "together 493 pages; this drive has 492"),
            ((0,), "a limit of at least one page"),
            ((1,) * 9, "at most 8 namespaces, not 9"),
        ]
        for limits, text in cases:
            with self.assertRaisesRegex(DriveEnded, text) as caught:
                make(self.image, *SMALL, program=PROGRAM, stderr=subprocess.DEVNULL, limits=limits)
            self.assertEqual((caught.exception.status, os.path.exists(self.image)), (2, False))

    def test_one_limit_of_all_pages(self):
        self.made(492)
        other = self.image + "2"
        make(other, *SMALL, program=PROGRAM)
        with open(other, "rb") as it:
            self.assertEqual(self.bytes_of_image(), it.read())

    def test_as_dictionaries(self):
        limits = (20, 60, 412)
        self.made(*limits)
        draw = random.Random(7)
        held = [{} for _ in limits]
        for _ in range(4):
            with self.open() as d:
                for _ in range(300):
                    self.change(d, draw, limits, held)
                for space, there in enumerate(held, 1):
                    self.assertEqual(dict(d.items_from(namespace=space)), there)

    def change(self, d, draw, limits, held):
        """A Store or a Delete in one of the namespaces, as of a dictionary with a limit."""
        space = draw.randrange(len(limits))
        there, key = held[space], b"%d" % draw.randrange(16)
        if draw.random() < 0.3:
            if key in there:
                d.delete(key, namespace=space + 1)
                del there[key]
            else:
                self.assertRaises(KeyError, d.delete, key, namespace=space + 1)
            return
        value = draw.randbytes(draw.randrange(GREATEST + 1))
        pages = sum(Shape(*SMALL).pages_of(len(it)) for name, it in there.items() if name != key)
        if pages + Shape(*SMALL).pages_of(len(value)) > limits[space]:
            self.assertRaises(pinkdrive.CapacityExceeded, d.store, key, value, namespace=space + 1)
        else:
            d.store(key, value, namespace=space + 1)
            there[key] = value


class WithSpareBlocks(OnImage):
    """A drive with four spare blocks, on which no block fails."""

    shape = None

    def setUp(self):
        super().setUp()
        make(self.image, *SMALL, program=PROGRAM, spares=4)

    def test_two_sessions(self):
        with Drive(self.image, program=PROGRAM, spares=4) as d:
            self.assertEqual(d.limits.shape, SMALL)
            d[b"key"] = b"value"
        with Drive(self.image, program=PROGRAM, spares=4) as d:
            self.assertEqual(dict(d), {b"key": b"value"})

    def test_another_number(self):
        for spares in (0, 3):
            with self.assertRaises(DriveEnded) as caught:
                Drive(self.image, program=PROGRAM, stderr=subprocess.DEVNULL, spares=spares)
            self.assertEqual(caught.exception.status, 8)

    def test_a_number_that_is_refused(self):
        with self.assertRaises(DriveEnded) as caught:
            make(self.image + "2", *SMALL, program=PROGRAM, stderr=subprocess.DEVNULL, spares=65)
        self.assertEqual((caught.exception.status, caught.exception.cause), (2, "spare blocks are 1 to 64"))


class AsAMapping(OnImage):
    def test_first_session(self):
        with self.open() as d:
            d[b"key"] = b"value"
            self.assertEqual(d[b"key"], b"value")
            self.assertEqual(d.get(b"other"), None)
            self.assertEqual(d.get(b"other", b"x"), b"x")
            self.assertIn(b"key", d)
            self.assertNotIn(b"other", d)
            self.assertEqual(len(d), 1)
            del d[b"key"]
            self.assertNotIn(b"key", d)
            self.assertEqual(dict(d), {})

    def test_a_second_session_finds_it(self):
        values = {b"key%02d" % i: bytes([i]) * (i * 67) for i in range(30)}
        with self.open() as d:
            d.update(values)
        with self.open() as d:
            self.assertEqual(dict(d.items()), values)
            self.assertEqual(list(d), sorted(values))

    def test_values_of_lengths_about_a_page(self):
        with self.open() as d:
            for size in (0, 1, 479, 480, 481, 992, GREATEST):
                value = bytes([1 + size % 251]) * size
                d[b"v"] = value
                self.assertEqual(d[b"v"], value)
                self.assertEqual(d.length(b"v"), size)
                self.assertEqual(d.retrieve(b"v", 3), value[:3])

    def test_keys_of_all_lengths_in_order(self):
        keys = [b"\0", b"a", b"a\0", b"b" * 15, b"b" * 16, b"\xff" * 16]
        random.Random(1).shuffle(keys)
        with self.open() as d:
            for key in keys:
                d[key] = key
            self.assertEqual(list(d), sorted(keys))
            self.assertEqual(list(d.keys_from(b"a\0")), sorted(k for k in keys if k >= b"a\0"))
            self.assertEqual(list(d.keys_from(b"\xff" * 16)), [b"\xff" * 16])
            self.assertEqual(list(d.items_from(b"b")), [(k, k) for k in sorted(keys) if k >= b"b"])
            self.assertEqual(list(d.get_many([b"a", b"c", b"\0"])), [b"a", None, b"\0"])

    def test_keys_over_several_lists(self):
        keys = [b"%02d" % i for i in range(40)]
        with self.open() as d:
            d.update(dict.fromkeys(keys, b""))
            size, pinkdrive.LIST_BYTES = pinkdrive.LIST_BYTES, (20,)
            try:
                self.assertEqual(list(d), keys)
            finally:
                pinkdrive.LIST_BYTES = size

    def test_text_is_refused(self):
        with self.open() as d:
            with self.assertRaises(TypeError):
                d["key"] = b"value"
            with self.assertRaises(TypeError):
                d[b"key"] = "value"
            self.assertEqual(list(d), [])


class Statuses(OnImage):
    def test_options(self):
        with self.open() as d:
            with self.assertRaises(pinkdrive.KeyDoesNotExist):
                d.store(b"a", b"1", if_exists=True)
            d.store(b"a", b"1", if_absent=True)
            with self.assertRaises(pinkdrive.KeyExists) as caught:
                d.store(b"a", b"2", if_absent=True)
            self.assertEqual((caught.exception.key, caught.exception.status), (b"a", 0x89))
            self.assertEqual(d[b"a"], b"1")
            d.store(b"a", b"2", if_exists=True)
            self.assertEqual(d[b"a"], b"2")

    def test_missing_keys(self):
        with self.open() as d:
            for call in (d.__getitem__, d.__delitem__, d.retrieve, d.length, d.delete):
                with self.assertRaises(pinkdrive.KeyDoesNotExist) as caught:
                    call(b"none")
                self.assertIsInstance(caught.exception, KeyError)
                self.assertEqual(caught.exception.status, 0x87)

    def test_sizes(self):
        with self.open() as d:
            for key in (b"", b"k" * 17, b"k" * 300):
                with self.assertRaises(pinkdrive.InvalidKeySize):
                    d.store(key, b"")
            with self.assertRaises(pinkdrive.InvalidValueSize):
                d.store(b"k", bytes(GREATEST + 1))
            self.assertEqual(list(d), [])

    def test_a_refusal_that_was_not_waited_for(self):
        with self.open() as d:
            d[b"k"] = bytes(GREATEST + 1)
            d[b"l"] = b"kept"
            with self.assertRaises(pinkdrive.InvalidValueSize):
                d.flush()
            d.flush()
            self.assertEqual(dict(d), {b"l": b"kept"})
        with self.assertRaises(pinkdrive.InvalidKeySize):
            with self.open() as d:
                d[b""] = b"x"

    def test_raw_commands(self):
        with self.open() as d:
            with self.assertRaises(pinkdrive.InvalidCommandOpcode):
                d.send(0x7F).result()
            with self.assertRaises(pinkdrive.InvalidFieldInCommand):
                d.send(Opcode.LIST, size=3).result()
            self.assertEqual(d.send(Opcode.FLUSH).result(), (0, 0, b""))

    def test_report(self):
        with self.open() as d:
            before = d.report()
            self.assertEqual((before.keys, before.live, before.frames), (0, 0, 36))
            d[b"a"] = bytes(600)
            after = d.report()
            self.assertEqual((after.keys, after.live), (1, 2))
            self.assertEqual(after.limit, before.limit)
            d.tick(4)


class Pipelines(OnImage):
    def test_many_commands_at_once(self):
        with self.open() as d:
            d.update({b"%d" % i: b"%d" % i * 50 for i in range(20)})
            sent = [d.send(Opcode.RETRIEVE, b"%d" % (i % 20), 4096) for i in range(20000)]
            for i, pending in enumerate(sent):
                self.assertEqual(pending.result().data, b"%d" % (i % 20) * 50)

    def test_a_store_that_is_waited_for_is_on_the_flash(self):
        d = self.open()
        d.store(b"a", b"1")
        os.killpg(d.process.pid, signal.SIGKILL)
        with self.assertRaises(DriveEnded):
            d.close()
        with self.open() as d:
            self.assertEqual(dict(d), {b"a": b"1"})


class Threads(OnImage):
    shape = (4096, 64, 128)

    def together(self, count, work):
        """Runs a function in this many threads, and raises what one of them raised."""
        faults = []

        def guarded(number):
            try:
                work(number)
            except BaseException as fault:
                faults.append(fault)

        threads = [threading.Thread(target=guarded, args=(number,)) for number in range(count)]
        for it in threads:
            it.start()
        for it in threads:
            it.join(300)
        self.assertFalse(any(it.is_alive() for it in threads))
        if faults:
            raise faults[0]

    def test_each_thread_gets_its_own_values(self):
        with self.open() as d:

            def work(number):
                for i in range(300):
                    key = b"t%d_%d" % (number, i)
                    d[key] = key
                    self.assertEqual(d[key], key)

            self.together(4, work)
            self.assertEqual(len(d), 1200)

    def test_four_threads_and_100000_calls(self):
        with self.open() as d:

            def work(number):
                draw, held = random.Random(number), {}
                for i in range(25000):
                    key, value = b"%d/%d" % (number, draw.randrange(200)), b"%d.%d" % (number, i)
                    kind = draw.randrange(10)
                    if kind < 4:
                        d[key] = held[key] = value
                    elif kind < 5:
                        held.pop(key, None)
                        d.pop(key, None)
                    elif kind < 6:
                        self.assertEqual(key in d, key in held)
                    elif kind < 7:
                        self.assertEqual(d.setdefault(key, value), held.setdefault(key, value))
                    else:
                        self.assertEqual(d.get(key), held.get(key))
                maps[number] = held

            maps = {}
            self.together(4, work)
            wanted = {key: value for held in maps.values() for key, value in held.items()}
            self.assertEqual(dict(d.items()), wanted)
        with self.open() as d:
            self.assertEqual(dict(d.items()), wanted)

    def test_pipelines_of_threads(self):
        with self.open() as d:

            def work(number):
                value = b"%d" % number * 900
                sent = [d.send(Opcode.STORE, b"%d/%d" % (number, i % 50), value=value) for i in range(3000)]
                sent += [d.send(Opcode.RETRIEVE, b"%d/%d" % (number, i % 50), 4096) for i in range(3000)]
                self.assertEqual({it.result().data for it in sent[3000:]}, {value})
                for it in sent[:3000]:
                    it.result()

            self.together(4, work)

    def test_one_answer_for_many_threads(self):
        with self.open() as d:
            pending = d.send(Opcode.STORE, b"a", value=b"1")
            self.together(8, lambda _: pending.result())

    def test_a_drive_that_is_killed_while_threads_wait(self):
        d = self.open()
        ended = []

        def work(number):
            with self.assertRaises(DriveEnded):
                while True:
                    d.store(b"%d" % number, b"x")
            ended.append(number)

        killer = threading.Timer(0.2, d.process.kill)
        killer.start()
        self.together(4, work)
        self.assertEqual(sorted(ended), [0, 1, 2, 3])
        with self.assertRaises(DriveEnded):
            d.close()


class AtTheEnd(OnImage):
    shape = (4096, 64, 64)

    def script(self, text, status=0):
        """Runs a program of Python that does not close its drive; what it wrote on standard error."""
        head = f"import os, sys; sys.path.insert(0, {HERE!r}); from pinkdrive import *; image = {self.image!r}\n"
        run = subprocess.run([sys.executable, "-c", head + text], capture_output=True, text=True, timeout=60)
        self.assertEqual(run.returncode, status, run.stderr)
        return run.stderr

    def test_a_forgotten_close(self):
        self.assertEqual(self.script("d = Drive(image); d[b'forgot'] = b'1'"), "")
        with self.open() as d:
            self.assertEqual(dict(d), {b"forgot": b"1"})

    def test_a_forgotten_refusal(self):
        told = self.script("d = Drive(image)\nfor i in range(5000): d[b'%d' % i] = b'x' * 20000\nd[b'last'] = b'1' * 70000")
        self.assertIn("nobody heard that: no space for the key", told)
        self.assertIn("more were refused", told)

    def test_an_exception_ends_the_program(self):
        told = self.script("d = Drive(image); d[b'a'] = b'1'; 1 / 0", 1)
        self.assertIn("ZeroDivisionError", told)
        with self.open() as d:
            self.assertEqual(dict(d), {b"a": b"1"})

    def test_a_refusal_beside_an_error_of_the_block(self):
        with warnings.catch_warnings(record=True) as caught:
            warnings.simplefilter("always")
            with self.assertRaises(ZeroDivisionError):
                with self.open() as d:
                    d[b"long"] = bytes(70000)
                    1 // 0
        self.assertEqual([it.category for it in caught], [pinkdrive.DriveWarning])
        self.assertIn("70000 bytes; the drive takes at most 65504", str(caught[0].message))

    def test_a_drive_that_is_collected(self):
        d = self.open()
        d[b"a"] = b"1"
        process = d.process
        del d
        gc.collect()
        process.wait(10)
        with Drive(self.image, program=PROGRAM, timeout=10) as d:
            self.assertEqual(dict(d), {b"a": b"1"})

    def test_a_forked_process(self):
        text = "d = Drive(image); d[b'a'] = b'1'\nif os.fork() == 0:\n"
        text += "    try: d[b'b'] = b'2'\n    except ValueError: sys.exit(0)\n    os._exit(1)\n"
        text += "status = os.wait()[1]; d[b'c'] = b'3'; d.close(); sys.exit(status)"
        self.script(text)
        with self.open() as d:
            self.assertEqual(dict(d), {b"a": b"1", b"c": b"3"})

    def test_a_write_that_is_broken_off(self):
        text = "import signal\nd = Drive(image)\nsignal.signal(signal.SIGALRM, lambda *_: 1 / 0)\n"
        text += "os.kill(d.process.pid, signal.SIGSTOP); signal.setitimer(signal.ITIMER_REAL, 0.3)\n"
        text += "try:\n    for i in range(100): d[b'%d' % i] = b'x' * 60000\nexcept ZeroDivisionError: pass\n"
        text += "os.kill(d.process.pid, signal.SIGCONT)\n"
        text += "try: d.get(b'0')\nexcept DriveError as error: print(error, file=sys.stderr)"
        self.assertIn("was broken off", self.script(text))
        with self.open() as d:
            self.assertEqual([set(value) for value in d.values()], [set(b"x")] * len(d))


class Pages(OnImage):
    shape = (4096, 64, 512)

    def test_many_keys(self):
        with self.open() as d:
            values = {b"%06d" % i: b"x%d" % i for i in range(2000)}
            d.update(values)
            self.assertEqual(dict(d.items()), values)
            self.assertEqual(list(d.values()), list(values.values()))
            began = time.monotonic()
            d.clear()
            self.assertLess(time.monotonic() - began, 5)
            self.assertEqual((len(d), list(d)), (0, []))

    def test_a_prefix(self):
        with self.open() as d:
            values = {b"%s:%04d" % (kind, i): b"%d" % i for kind in (b"job", b"user") for i in range(700)}
            d.update(values)
            users = {key: value for key, value in values.items() if key.startswith(b"user:")}
            self.assertEqual(list(d.prefix(b"user:")), list(users.items()))
            self.assertEqual(list(d.keys_from(b"user:0690", prefix=b"user:")), list(users)[690:])
            self.assertEqual(list(d.keys_from(b"z", prefix=b"user:")), [])
            self.assertEqual(list(d.keys_from(b"job:0698", prefix=b"job:")), [b"job:0698", b"job:0699"])
            self.assertEqual([list(d.prefix(it)) for it in (b"none", b"user:0001x", b"v")], [[], [], []])
            self.assertEqual(len(list(d.prefix(b""))), 1400)

    def test_the_first(self):
        with self.open() as d:
            self.assertIsNone(d.first())
            with self.assertRaises(KeyError):
                d.popitem()
            d.update({b"a" * 16: b"1", b"b": b"2", b"c": b""})
            self.assertEqual(d.first(), (b"a" * 16, b"1"))
            self.assertEqual(d.first(b"b"), (b"b", b"2"))
            self.assertEqual(d.first(b"b\0"), (b"c", b""))
            self.assertEqual(d.first(prefix=b"c"), (b"c", b""))
            self.assertIsNone(d.first(prefix=b"ba"))
            self.assertIsNone(d.first(b"d"))
            self.assertEqual([d.popitem() for _ in range(3)], [(b"a" * 16, b"1"), (b"b", b"2"), (b"c", b"")])
            self.assertEqual(len(d), 0)

    def test_delete_many(self):
        with self.open() as d:
            d.update({b"%05d" % i: b"x" for i in range(5000)})
            began = time.monotonic()
            self.assertEqual(d.delete_many(b"%05d" % i for i in range(4000, 6000)), 1000)
            self.assertEqual(d.delete_many(d.keys_from(b"00100")), 3900)
            self.assertLess(time.monotonic() - began, 10)
            self.assertEqual(list(d), [b"%05d" % i for i in range(100)])
            self.assertEqual(d.delete_many([]), 0)
            with self.assertRaises(pinkdrive.InvalidKeySize):
                d.delete_many([b"00000", b"x" * 17])
            self.assertNotIn(b"00000", d)

    def test_the_first_item_comes_alone(self):
        with self.open() as d:
            d.update({b"%04d" % i: bytes(60000) for i in range(1000)})
            asked = d.send(Opcode.FLUSH)._number
            items = d.items_from()
            self.assertEqual(next(items)[0], b"0000")
            self.assertLessEqual(d.send(Opcode.FLUSH)._number - asked, 3)  # a List, a Retrieve and the Flush
            for _ in range(50):
                next(items)
            self.assertLessEqual(d.send(Opcode.FLUSH)._number - asked, 4 + 51 + 18)  # about a megabyte ahead
            self.assertEqual(sum(1 for _ in items), 949)

    def test_update_tells_a_refusal(self):
        with self.open() as d:
            with self.assertRaises(pinkdrive.InvalidValueSize):
                d.update({b"a": b"1", b"b": bytes(70000), b"c": b"3"})
            self.assertEqual(dict(d), {b"a": b"1", b"c": b"3"})


class Messages(OnImage):
    def test_limits(self):
        with self.open() as d:
            self.assertEqual((d.limits.shape.greatest_value, d.limits.live_pages), (GREATEST, 492))
            cases = [
                (lambda: d.store(b"k", bytes(9000)), "has 9000 bytes; the drive takes at most 2016 (status 85h)"),
                (lambda: d.store(b"photos/2024/1.jpg", b""), "a key has 1 to 16 bytes; b'photos/2024/1.jpg' has 17"),
                (lambda: d.store(b"", b""), "has 0 (status 86h)"),
                (lambda: d[b"none"], "there is no key b'none' (status 87h)"),
                (lambda: d.send(0x7F).result(), "the drive has no command 7Fh"),
                (lambda: d.send(Opcode.LIST, size=3).result(), "at least 4 bytes, not 3"),
            ]
            for call, text in cases:
                with self.assertRaises(pinkdrive.StatusError) as caught:
                    call()
                self.assertIn(text, str(caught.exception))
            d.store(b"k", b"")
            with self.assertRaisesRegex(pinkdrive.KeyExists, "exists already"):
                d.store(b"k", b"", if_absent=True)

    def test_all_refusals_are_told(self):
        with self.open() as d:
            d[b"a"] = bytes(3000)
            d[b"b"] = bytes(4000)
            d[b""] = b""
            with self.assertRaises(pinkdrive.InvalidValueSize) as caught:
                d.flush()
            self.assertIn("2 more were refused", str(caught.exception))
            self.assertEqual([type(it) for it in caught.exception.others], [pinkdrive.InvalidValueSize, pinkdrive.InvalidKeySize])
            d.flush()

    def cause(self, call, kind=DriveEnded):
        with self.assertRaises(kind) as caught:
            call()
        return str(caught.exception)

    def test_causes(self):
        folder = os.path.dirname(self.image)
        junk = os.path.join(folder, "junk")
        with open(junk, "wb") as it:
            it.write(b"hello")
        cut = os.path.join(folder, "cut")
        with open(cut, "wb") as it:
            it.write(self.bytes_of_image()[:300000])
        sized = os.path.join(folder, "sized")
        whole = self.bytes_of_image()
        with open(sized, "wb") as it:
            it.write(whole[:32] + bytes(len(whole) - 32))
        cases = [
            (lambda: Drive(folder, program=PROGRAM), "is a folder"),
            (lambda: Drive(self.image + "/no", program=PROGRAM), "there is no folder"),
            (lambda: make(folder + "/no/image", *SMALL, program=PROGRAM), "there is no folder"),
            (lambda: Drive(folder + "/no", program=PROGRAM), "there is no file"),
            (lambda: Drive(junk, program=PROGRAM), "junk (5 bytes) is no image of a drive"),
            (lambda: make(junk, *SMALL, program=PROGRAM), "remove it, or name another file"),
            (lambda: make(self.image, *SMALL, program=PROGRAM), "there is an image already: remove"),
            (lambda: Drive(cut, program=PROGRAM), "has 300000 bytes, and by its head it should have 525344"),
            (lambda: Drive(sized, program=PROGRAM), "was broken off before its root was written; remove it, and make it again"),
            (lambda: Drive(self.image, frames=16385, program=PROGRAM), "frames are 0 to 16384"),
            (lambda: make(junk + "2", 500, 16, 64, program=PROGRAM), "a page has 512, 1024,"),
            (lambda: make(junk + "2", 512, 12, 64, program=PROGRAM), "a block has 8, 16,"),
            (lambda: make(junk + "2", 512, 32, 64, program=PROGRAM), "a block has fewer than 32 pages"),
            (lambda: make(junk + "2", 512, 16, 9, program=PROGRAM), "has at least 21 blocks"),
            (lambda: make(junk + "2", 16384, 256, 65, program=PROGRAM), "has at most 256 MiB"),
        ]  # fmt: skip
        for call, text in cases:
            self.assertIn(text, self.cause(call))

    def test_the_rules_of_shapes_are_the_program_s(self):
        place = self.image + "2"
        draw = random.Random(5)
        for _ in range(60):
            page, pages = draw.choice([512, 1024, 4096, 700]), draw.choice([8, 16, 32, 64, 9])
            shape = pinkdrive.Shape(page, pages, draw.randrange(10, 60))
            try:
                make(place, *shape, program=PROGRAM)
                made = True
                self.assertEqual(os.path.getsize(place), shape.image_bytes)
                os.remove(place)
            except DriveEnded as error:
                self.assertEqual(error.status, 2)
                made = False
            self.assertEqual(made, shape.fault() is None, shape)

    @unittest.skipIf(os.geteuid() == 0 and not os.path.exists("/usr/sbin/runuser"), "root may do anything")
    def test_no_permission(self):
        os.chmod(self.image, 0o400)
        if os.geteuid():
            self.assertIn("no permission", self.cause(self.open))
            return
        os.chmod(os.path.dirname(self.image), 0o755)
        os.chmod(self.image, 0o444)
        text = f"import sys; sys.path.insert(0, {HERE!r}); from pinkdrive import *\n"
        text += f"try: Drive({self.image!r}, program={os.path.realpath(PROGRAM)!r})\nexcept DriveEnded as error: print(error)"
        run = subprocess.run(["/usr/sbin/runuser", "-u", "nobody", "--", "/usr/bin/env", "python3", "-c", text], capture_output=True, text=True)
        if "Permission denied" in run.stderr:
            self.skipTest("nobody cannot read this folder")
        self.assertIn("no permission to read and write", run.stdout)

    def test_numbers_in_words(self):
        with self.open() as d:
            for call, text in [
                (lambda: d.retrieve(b"a", -1), "a size or a count of steps is a number from 0 to 4294967295, not -1"),
                (lambda: d.tick(-1), "not -1"),
                (lambda: d.tick(2**32), "not 4294967296"),
                (lambda: d.retrieve(b"a", namespace=-1), "a namespace is a number from 0 to 4294967295, not -1"),
                (lambda: d.send(256), "a command is a number from 0 to 255, not 256"),
            ]:
                with self.assertRaises(ValueError) as caught:
                    call()
                self.assertIn(text, str(caught.exception))
            with self.assertRaisesRegex(TypeError, "a namespace is a number from 0 to 4294967295, not 'x'"):
                d.report(namespace="x")
            d[b"a"] = b"1"  # the session goes on
            self.assertEqual(d[b"a"], b"1")
        with self.assertRaisesRegex(TypeError, "a namespace is a number"):
            Drive(self.image, program=PROGRAM, namespace="x")
        self.open().close()

    def test_a_wrong_variable(self):
        with mock.patch.dict(os.environ, {"PINK_SYNC": "yes"}):
            self.assertIn("PINK_SYNC is in the environment and none of 0, 1 and 2", self.cause(self.open))
            self.assertIn("PINK_SYNC", self.cause(lambda: make(self.image + "2", *SMALL, program=PROGRAM)))

    def test_spare_blocks_that_were_not_named(self):
        place = self.image + "3"
        make(place, *SMALL, program=PROGRAM, spares=3)
        self.assertEqual(
            self.cause(lambda: Drive(place, program=PROGRAM)), f"status 8: {place} has 3 spare blocks; Drive({place!r}, spares=3)"
        )
        self.assertIn("has 3 spare blocks, not 4; Drive(", self.cause(lambda: Drive(place, program=PROGRAM, spares=4)))
        self.assertIn("it was made without them", self.cause(lambda: Drive(self.image, program=PROGRAM, spares=3)))

    def test_the_same_inode_of_another_device(self):
        with self.open() as d:
            with open("/proc/locks") as locks:
                lines = locks.read()
            self.assertEqual(pinkdrive.process_using(self.image), d.process.pid)
            other = self.image + "4"
            with open(other, "wb"):
                pass
            inode = os.stat(other).st_ino
            line = f"9: FLOCK  ADVISORY  WRITE {os.getpid()} ff:ff:{inode} 0 EOF\n"
            with mock.patch("builtins.open", mock.mock_open(read_data=lines + line)):
                self.assertIsNone(pinkdrive.process_using(other))

    def test_an_end_that_was_heard_is_no_warning(self):
        with warnings.catch_warnings(record=True) as caught:
            warnings.simplefilter("always")
            d = self.open()
            d.process.kill()
            with self.assertRaises(DriveEnded):
                d[b"a"]
            session = d._session
            del d
            gc.collect()
            session.close_and_warn()
        self.assertEqual([str(it.message) for it in caught], [])

    def test_in_use(self):
        with self.open() as d:
            with self.assertRaises(pinkdrive.ImageInUse) as caught:
                self.open()
            self.assertEqual(caught.exception.process, d.process.pid)
            self.assertIn(f"is in use by process {d.process.pid}", str(caught.exception))
            began = time.monotonic()
            with self.assertRaises(pinkdrive.ImageInUse):
                Drive(self.image, program=PROGRAM, timeout=0.5)
            self.assertGreater(time.monotonic() - began, 0.3)
            threading.Timer(0.3, d.close).start()
            with Drive(self.image, program=PROGRAM, timeout=20) as other:
                self.assertEqual(list(other), [])

    def test_killed(self):
        d = self.open()
        d.process.kill()
        self.assertIn("ended by signal 9 (SIGKILL); what was answered is on the flash", self.cause(lambda: d[b"a"]))
        self.assertIn("SIGKILL", self.cause(d.close))
        self.open().close()  # the image is free at once

    def test_a_closed_drive(self):
        d = self.open()
        d.close()
        for call in (lambda: d[b"a"], d.flush, d.report, lambda: list(d), lambda: d.store(b"a", b"")):
            self.cause(call, ValueError)
        self.assertIn("closed", repr(d))

    def test_an_answer_of_another_command(self):
        """A program that answers with wrong identifiers: no value is given to the wrong call."""
        place = os.path.join(os.path.dirname(self.image), "wrong")
        record = struct.pack("<I4xHHIII", 0, 1, 1, 1 << 16 | 77, 0, 0)
        with open(place, "w") as it:
            it.write(f"#!{sys.executable}\nimport sys\nsys.stdin.buffer.read(64)\n")
            it.write(f"sys.stdout.buffer.write({record!r}); sys.stdout.flush(); sys.stdin.read()\n")
        os.chmod(place, 0o755)
        with self.assertRaisesRegex(pinkdrive.DriveError, "belongs to no command"):
            Drive(self.image, program=place)


class Ends(OnImage):
    def test_killed_in_mid_session(self):
        for trial in range(20):
            os.remove(self.image)
            make(self.image, *SMALL, program=PROGRAM)
            values = {b"%02d" % i: bytes([i]) * 300 for i in range(40)}
            d = self.open()
            sent = [d.send(Opcode.STORE, key, value=values[key]) for key in values]
            sent[0].result()
            time.sleep(random.Random(trial).random() * 0.01)
            os.killpg(d.process.pid, signal.SIGKILL)
            with self.assertRaises(DriveEnded) as caught:
                d.flush()
            self.assertEqual(caught.exception.name, "killed")
            with self.assertRaises(DriveEnded):
                d.get(b"00")
            with self.assertRaises(DriveEnded):
                d.close()
            answered = sum(pending.done() for pending in sent)
            with self.open() as d:
                found = list(d.items_from())
            self.assertGreaterEqual(len(found), answered)
            self.assertEqual(found, list(values.items())[: len(found)])

    def test_the_block_s_own_error_is_told(self):
        with self.assertRaises(ZeroDivisionError):
            with self.open() as d:
                os.killpg(d.process.pid, signal.SIGKILL)
                1 // 0

    def test_closed_twice(self):
        d = self.open()
        d[b"a"] = b"1"
        d.close()
        d.close()
        with self.assertRaises(ValueError):
            d[b"b"] = b"2"


class Images(OnImage):
    shape = None

    def ends_with(self, status):
        with self.assertRaises(DriveEnded) as caught:
            self.open()
        self.assertEqual(caught.exception.status, status)

    def test_missing(self):
        self.ends_with(8)
        self.assertFalse(os.path.exists(self.image))

    def test_no_image_and_a_cut_one(self):
        make(self.image, *SMALL, program=PROGRAM)
        whole = self.bytes_of_image()
        state = whole[:40] + b"\3" + whole[41:]
        for bad in (b"no image", whole[:31], whole[:-1], b"X" + whole[1:], state):
            with open(self.image, "wb") as it:
                it.write(bad)
            self.ends_with(8)
            self.assertEqual(self.bytes_of_image(), bad)

    def test_made_twice(self):
        make(self.image, *SMALL, program=PROGRAM)
        with self.assertRaises(DriveEnded) as caught:
            make(self.image, *SMALL, program=PROGRAM, stderr=subprocess.DEVNULL)
        self.assertEqual((caught.exception.status, caught.exception.name), (9, "already made"))

    def test_a_shape_that_is_none(self):
        with self.assertRaises(DriveEnded) as caught:
            make(self.image, 500, 16, 64, program=PROGRAM, stderr=subprocess.DEVNULL)
        self.assertEqual(caught.exception.status, 2)


class Full(OnImage):
    shape = TIGHT

    def test_a_full_drive(self):
        with self.open() as d:
            limit = d.report().limit
            self.assertEqual(limit, 24)
            keys = limit // 2  # a value takes two pages
            for i in range(keys):
                d.store(b"%02d" % i, b"x")
            with self.assertRaises(pinkdrive.CapacityExceeded):
                d.store(b"more", b"x")
            d[b"more"] = b"x"
            with self.assertRaises(pinkdrive.CapacityExceeded):
                d.flush()
            self.assertEqual(len(d), keys)


if __name__ == "__main__":
    unittest.main()
