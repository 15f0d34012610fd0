#!/usr/bin/env python3
"""Shows that the feeder finds what it is to find: a byte of any answer that is changed, an answer
that is left out or comes in addition, a server that ends early or is silent, and a store that
lost a change. It builds the feeder and the server over a map, and takes ten seconds.

    bench/peers/test_feeder.py"""
from __future__ import annotations

import subprocess
import sys
import tempfile
import unittest
from pathlib import Path

from workload import PROBE, Size, Workload, key_of

HERE = Path(__file__).resolve().parent
SIZE = Size(keys=40, value_bytes=100, overwrites=20, retrieves=30, missing=10, lists=5, deletes=4,
            alone=False)
# Seconds that a server may be silent: many, as the machine may be busy.
PATIENCE = 60
# Serves by the program of the first word and changes its output: the byte at a place is turned
# over, cut off from there, or followed by one more at the end.
CHANGER = """
import subprocess, sys
program, change, place = sys.argv[1], sys.argv[2], int(sys.argv[3])
server = subprocess.Popen([program, 'folder'], stdout=subprocess.PIPE)
at = 0
while piece := server.stdout.read1(65536):
    piece = bytearray(piece)
    here = place - at
    at += len(piece)
    if change == 'turn' and 0 <= here < len(piece):
        piece[here] ^= 1
    if change == 'cut' and here < len(piece):
        sys.exit(0)
    sys.stdout.buffer.write(piece)
    sys.stdout.buffer.flush()
if change == 'add':
    sys.stdout.buffer.write(b'x')
"""


class FeederTest(unittest.TestCase):
    folder: Path
    phases: list[Path]

    @classmethod
    def setUpClass(cls) -> None:
        cls._temporary = tempfile.TemporaryDirectory()
        cls.folder = Path(cls._temporary.name)
        words = ["make", "-C", str(HERE), f"OUT={cls.folder}", "feeder", "map"]
        subprocess.run(words, check=True, stdout=subprocess.DEVNULL)
        cls.phases = Workload(cls.folder, SIZE).phases()
        (cls.folder / "changer.py").write_text(CHANGER)

    @classmethod
    def tearDownClass(cls) -> None:
        cls._temporary.cleanup()

    def feed(
        self, *command: str, before: list[Path] = [], patience: int = PATIENCE
    ) -> tuple[int, str]:
        """The feeder's status, and what it says on standard error."""
        words = [str(self.folder / "bin" / "feeder"), "--patience", str(patience)]
        words += ["--probe", key_of(PROBE).decode()]
        for path in before:
            words += ["--before", str(path)]
        for path in self.phases:
            words += ["--phase", str(path)]
        done = subprocess.run([*words, "--", *command], capture_output=True, text=True)
        return done.returncode, done.stderr

    def changed(self, change: str, place: int, patience: int = PATIENCE) -> tuple[int, str]:
        changer = [sys.executable, str(self.folder / "changer.py")]
        words = [*changer, str(self.folder / "bin" / "map"), change, str(place)]
        return self.feed(*words, patience=patience)

    def answers(self) -> int:
        """The bytes of all answers: of those to the probe and to the phases."""
        words = [str(self.folder / "bin" / "map"), "folder"]
        script = b"".join(path.read_bytes() for path in self.phases)
        return 24 + len(subprocess.run(words, input=script, capture_output=True).stdout)

    def test_agrees(self) -> None:
        self.assertEqual(self.feed(str(self.folder / "bin" / "map"), "folder"), (0, ""))
        self.assertEqual(self.changed("turn", self.answers()), (0, ""))

    def test_changed_byte(self) -> None:
        # A record's bytes 4 to 7 are zeros, 8 to 11 count what was taken, 16 to 19 count reads,
        # and the lowest bit of byte 14 is a tag: none of them is a part of the answer.
        compared = [0, 12, 15]
        bytes_of_answers = self.answers()
        first_of_last_flush = bytes_of_answers - 24
        for base in (0, 24, first_of_last_flush):
            for place in compared:
                with self.subTest(byte=base + place):
                    status, said = self.changed("turn", base + place)
                    self.assertEqual(status, 1)
                    self.assertIn("feeder: ", said)

    def test_changed_length(self) -> None:
        # The first record is 65,536 bytes long, more than all others, so the feeder waits.
        status, said = self.changed("turn", 22, patience=1)
        self.assertEqual(status, 1)
        self.assertIn("feeder: the server is silent", said)

    def test_changed_value(self) -> None:
        stores = 24 * (1 + SIZE.keys + 1 + SIZE.overwrites + 1)
        for byte in (24, 73, 123):
            with self.subTest(byte=byte):
                status, said = self.changed("turn", stores + byte)
                self.assertEqual(status, 1)
                self.assertIn("entry 0, opcode 02h", said)

    def test_left_out(self) -> None:
        status, said = self.changed("cut", self.answers() // 2)
        self.assertEqual(status, 1)
        self.assertIn("the server ended at entry", said)

    def test_in_addition(self) -> None:
        status, said = self.changed("add", 0)
        self.assertEqual(status, 1)
        self.assertIn("1 bytes after the last answer", said)

    def test_ends_early(self) -> None:
        self.assertEqual(self.feed("true")[0], 1)
        self.assertEqual(self.feed("false")[0], 1)

    def test_silent(self) -> None:
        status, said = self.feed("sleep", "60", patience=1)
        self.assertEqual(status, 1)
        self.assertIn("silent", said)

    def test_lost_store(self) -> None:
        status, said = self.feed(
            str(self.folder / "bin" / "map"), "folder", before=self.phases[:1]
        )
        self.assertEqual(status, 1)
        self.assertIn("key:000000000007: identifier 0, status 87h", said)


if __name__ == "__main__":
    unittest.main()
