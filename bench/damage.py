#!/usr/bin/env python3
"""Changes bytes of images, and compares what pinkctl says with the program and with what was stored:

    python3 bench/damage.py [IMAGES [SALVAGES [SEED]]]        2000, 200 and 1 if not named

Each image is one of some drives with one to three changed bytes. Of each: `check` and pinkdump agree
on the map or on the first wrong page; and if `check` says whole, the map is that of the drive as
it was, but for values whose own bytes were changed (there is no checksum), and for images in which
an entry of a run was changed, which are counted. Of the refused ones each value that `salvage`
reads was once stored under its key, and each that it is sure of is the last one, except for values
whose own bytes were changed. It is no part of the gate. It ends with a count, and with status 1 at the first image that differs.
"""

import collections
import os
import random
import sys
import tempfile
from typing import NamedTuple

TOP = os.path.join(os.path.dirname(os.path.abspath(__file__)), "..")
sys.path.insert(0, os.path.join(TOP, "clients", "python"))

import pinkdrive
from pinkctl import check, image, layout, program, rescue
from pinkctl.__main__ import main as pinkctl

SHAPES = [(512, 16, 64), (512, 8, 33), (1024, 16, 40), (512, 16, 22), (4096, 8, 40)]
KEYS = [150, 5, 100, 10, 24]
SESSIONS = [1, 3, 12, 3, 6]
WHOLE_BY_RUN = "whole with another map: an entry of a run was changed"


class Drive(NamedTuple):
    """A drive as it was: its file, what was ever stored, what it holds, and the bytes of values in the file."""

    name: str
    data: bytes
    stored: dict
    map: dict
    body: dict


def in_first(key):
    """A key of the first namespace, as the reader has it."""
    return image.Key(1, key)


def session(path, draw, keys, longest, stored, held):
    with program.open_drive(path, 36) as d:
        for _ in range(draw.randrange(30, 200)):
            key = draw.choice(keys)
            chance = draw.random()
            if chance < 0.62:
                value = draw.randbytes(draw.randrange(longest))
                try:
                    d.store(key, value)
                except pinkdrive.CapacityExceeded:
                    continue
                stored[in_first(key)].add(value)
                held[in_first(key)] = value
            elif chance < 0.88:
                if held.pop(in_first(key), None) is not None:
                    d.delete(key)
            else:
                d.tick(draw.choice([1, 5, 30]))


def make_drive(folder, number, draw):
    """A drive after some sessions."""
    path = os.path.join(folder, f"drive{number}.img")
    program.make_image(path, SHAPES[number])
    layout_ = layout.Layout(layout.Shape(*SHAPES[number]))
    longest = min(layout_.greatest, layout_.limit * layout_.shape.page_bytes // KEYS[number] // 2)
    keys = [b"key%03d" % i for i in range(KEYS[number])]
    stored, held = collections.defaultdict(set), {}
    for _ in range(SESSIONS[number]):
        session(path, draw, keys, longest, stored, held)
    with open(path, "rb") as file:
        data = file.read()
    it = image.load_image(data)
    flash = image.read_flash(it)
    values = {key: image.value_of(it, flash.layout, place) for key, place in flash.map.items()}
    if values != held:
        sys.exit(f"{path}: the reader finds another map than was stored")
    return Drive(path, data, stored, values, body_of(it, flash))


def body_of(it, flash):
    """The key of each byte of the file that is a byte of a live value."""
    found = {}
    for key, place in flash.map.items():
        at = it.first + place.page * it.shape.page_bytes + layout.HEAD_BYTES
        found.update(dict.fromkeys(range(at, at + place.length), key))
    return found


def places(it, draw):
    """A place in the file, more often one whose bytes matter."""
    size, n = it.shape.page_bytes, it.shape.block_pages
    texts = {b"PINKROOT": [], b"PINKJRNL": [], b"PINKMETA": []}
    for page in range(it.shape.pages):
        pages = texts.get(it.page(page)[:8]) if it.states[page] == layout.WHOLE else None
        if pages is not None:
            pages.append(page)
    written = [page for page in range(it.shape.pages) if it.states[page]]

    def place():
        kind = draw.random()
        if kind < 0.03:
            return draw.randrange(layout.HEADER_BYTES)
        if kind < 0.2:
            return layout.HEADER_BYTES + draw.choice([draw.randrange(it.shape.pages), draw.choice(written)])
        named = texts[draw.choice(list(texts))] if kind < 0.75 else written
        page = draw.choice(named or written)
        within = draw.randrange(size if draw.random() < 0.4 else min(size, 160))
        return it.first + page * size + within

    return place


def changed(drive, place, draw):
    """The drive's bytes with one to three changed, and the offsets."""
    data = bytearray(drive.data)
    at = {place() for _ in range(draw.randrange(1, 4))}
    for it in at:
        old = data[it]
        near = [old ^ 1 << draw.randrange(8), (old + 1) % 256, (old - 1) % 256, draw.randrange(3), draw.randrange(256)]
        data[it] = draw.choice([byte for byte in near if byte != old])
    return bytes(data), at


def differs(drive, data, verdict, at):
    """Whether the map of an image differs from the drive's, but for values whose own bytes were changed."""
    own = {drive.body[it] for it in at if it in drive.body}
    it, flash = image.load_image(data), verdict.flash
    values = {key: image.value_of(it, flash.layout, place) for key, place in flash.map.items()}
    return {k: v for k, v in values.items() if k not in own} != {k: v for k, v in drive.map.items() if k not in own}


def touches_run(drive, at):
    """Whether one of these bytes is of a page of a run."""
    it = image.load_image(drive.data)
    pages = ((place - it.first) // it.shape.page_bytes for place in at if place >= it.first)
    return any(it.page(page).startswith(layout.META_TEXT) for page in pages)


def never_stored(drive, data, at):
    """What salvage reads that was never stored, but for values whose own bytes were changed; and all that it reads."""
    found = rescue.rescue_image(data)
    if found is None:
        return [], None
    wrong = []
    for saved in found.saved:
        first = found.image.first + saved.place.page * found.image.shape.page_bytes + layout.HEAD_BYTES
        touched = any(first <= it < first + saved.place.length for it in at)
        if not touched and found.value(saved) not in drive.stored.get(saved.key, ()):
            wrong.append(saved)
    return wrong, found


def say(at, it):
    return ", ".join(f"byte {place}, of page {(place - it.first) // it.shape.page_bytes}" for place in sorted(at))


class Trial:
    """The counts of a run."""

    def __init__(self, folder, salvages):
        self.folder = folder
        self.salvages = salvages
        self.counts = collections.Counter()
        self.kept = [0, 0]

    def fail(self, drive, data, at, why):
        name = os.path.join(tempfile.gettempdir(), "pinkctl-damage.img")
        with open(name, "wb") as file:
            file.write(data)
        sys.exit(f"{drive.name}: {why}\n  changed: {say(at, image.load_image(drive.data))}\n  the image is kept as {name}")

    def look(self, drive, data, at):
        path = os.path.join(self.folder, "changed.img")
        with open(path, "wb") as file:
            file.write(data)
        verdict = check.check_file(path)
        check.compare(path, verdict)
        self.counts[verdict.name] += 1
        if verdict.compared == "yes":
            self.counts["agree with pinkdump"] += 1
        elif "not built" not in verdict.compared and verdict.name != "unknown":
            self.fail(drive, data, at, f"compared: {verdict.compared}: {verdict.text}")
        if verdict.flash and verdict.flash.opens and differs(drive, data, verdict, at):
            self.counts["open with another map"] += 1
            if verdict.name == "whole" and not touches_run(drive, at):
                self.fail(drive, data, at, "check says whole, and the map differs")
            self.counts[WHOLE_BY_RUN] += verdict.name == "whole"
        if verdict.name in ("refused", "no drive", "unknown") and self.counts["salvaged"] < self.salvages:
            self.salvage(drive, data, at, path)

    def salvage(self, drive, data, at, path):
        wrong, found = never_stored(drive, data, at)
        if wrong:
            self.fail(drive, data, at, f"salvage reads a value that was never stored: {wrong[0]}")
        self.counts["salvaged"] += 1
        if found is None:
            self.counts["nothing to salvage"] += 1
            return
        held = {saved.key: found.value(saved) for saved in found.saved}
        own = {drive.body[it] for it in at if it in drive.body}
        sure = [saved.key for saved in found.saved if saved.why is None and saved.key not in own]
        if any(held[key] != drive.map.get(key) for key in sure):
            self.fail(drive, data, at, "salvage is sure of a value that is not the last one")
        self.counts["keys that salvage is sure of"] += len(sure)
        self.kept[0] += sum(held.get(key) == value for key, value in drive.map.items())
        self.kept[1] += len(drive.map)
        self.counts["keys that came back"] += len(held.keys() - drive.map.keys())
        if self.counts["salvaged"] % 10 == 0 and held:
            self.salvage_by_command(drive, data, at, path, held)

    def salvage_by_command(self, drive, data, at, path, held):
        """The command itself: the new drive holds what was read, by the program, and the old one is unchanged."""
        new = os.path.join(self.folder, "new.img")
        with open(os.devnull, "w") as nothing:
            out, sys.stdout = sys.stdout, nothing
            try:
                status = pinkctl(["salvage", path, new, "-q", "--shape", "4096", "16", "200"])
            finally:
                sys.stdout = out
        with program.open_drive(new) as d:
            got = {in_first(key): value for key, value in d.items_from()}
        with open(path, "rb") as file:
            same = file.read() == data
        os.remove(new)
        if status not in (0, 10) or got != held or not same:
            self.fail(drive, data, at, f"salvage: status {status}, {len(got)} keys of {len(held)}, the old image is the same: {same}")
        self.counts["salvaged by the command"] += 1


def main():
    images, salvages, seed = (int(word) for word in (sys.argv[1:] + ["2000", "200", "1"][len(sys.argv) - 1 :]))
    draw = random.Random(seed)
    with tempfile.TemporaryDirectory() as folder:
        drives = [make_drive(folder, number, draw) for number in range(len(SHAPES))]
        choices = [places(image.load_image(drive.data), draw) for drive in drives]
        trial = Trial(folder, salvages)
        for number in range(images):
            drive, place = drives[number % len(drives)], choices[number % len(drives)]
            data, at = changed(drive, place, draw)
            trial.look(drive, data, at)
    for name, count in sorted(trial.counts.items()):
        print(f"{count:6} {name}")
    print(f"{trial.kept[0]:6} of {trial.kept[1]} values that the salvaged drives held were read with their last value")
    print(f"{images} images of {len(drives)} drives: {trial.counts[WHOLE_BY_RUN]} that check calls whole have another map, no value was read that was never stored")


if __name__ == "__main__":
    main()
