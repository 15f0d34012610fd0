#!/usr/bin/env python3
"""Serves the generated workload, the commands of `gen START COUNT` as entries, on fresh images of shape (4096, 64, 512), and prints how
many pages a Retrieve that found its key read, on average and at most, with 520 frames, 36 and none. It proves nothing and is no part
of the gate.

    bench/reads.py [START [COUNT]]     1 and 50,000 if no number is named
    bench/reads.py held                the same after an opening and after a Tick to rest, with several numbers of frames and of keys,
                                       on shape (4096, 64, 1024); and how many pages that Tick read, and how long it took
"""
import math
import os
import struct
import subprocess
import sys
import tempfile
import time

PROGRAM = os.path.join(os.path.dirname(os.path.abspath(__file__)), "..", "crates", "pink", "out", "pink")
STORE, RETRIEVE, LIST, DELETE, EXIST, TICK = 0x01, 0x02, 0x06, 0x10, 0x14, 0xC0
LETTERS = bytes(97 + i % 26 for i in range(5000))


def entry(opcode, cid, key=b"", size=0):
    body = bytearray(64)
    body[0] = opcode
    struct.pack_into("<HI", body, 2, cid % 65536, 1)
    padded = key + bytes(16 - len(key))
    body[8:16], body[56:64] = padded[:8], padded[8:]
    struct.pack_into("<I", body, 40, size)
    body[44] = len(key)
    return bytes(body)


def draws(start):
    state = start % 2**31
    while True:
        state = (state * 1103515245 + 12345) % 2**31
        yield state // 65536


def value(number, letter, size):
    head = b'{"id":%d,"pad":"' % number
    return head + LETTERS[letter : letter + size - len(head) - 2] + b'"}'


def commands(start, count):
    """The opcode of each command, and its bytes."""
    draw = draws(start)
    for i in range(1, count + 1):
        kind, other = next(draw) % 10, next(draw)
        number = other % 5000
        key = b"key:%012d" % number
        if kind <= 4:
            third = next(draw)
            text = value(number, third % 26, 200 + third % 3801)
            yield STORE, entry(STORE, i, key, len(text)) + text
        elif kind <= 6:
            yield RETRIEVE, entry(RETRIEVE, i, key, 4096)
        elif kind == 7:
            yield DELETE, entry(DELETE, i, key)
        elif kind == 8:
            yield EXIST, entry(EXIST, i, key)
        elif other % 2:
            yield TICK, entry(TICK, i, b"", 16)
        else:
            yield LIST, entry(LIST, i, key, 1024)


def records(posted):
    """The status and the reads of each record."""
    at = 0
    while at < len(posted):
        status, reads, size = struct.unpack_from("<HII", posted, at + 14)
        yield status >> 1, reads
        at += 24 + size


def main(start=1, count=50000):
    made = list(commands(start, count))
    script = b"".join(it for _, it in made)
    with tempfile.TemporaryDirectory() as folder:
        for frames in (520, 36, 0):
            image = os.path.join(folder, f"{frames}.img")
            subprocess.run([PROGRAM, image, "make", "4096", "64", "512"], check=True)
            run = subprocess.run([PROGRAM, image, "serve", str(frames)], input=script, stdout=subprocess.PIPE, check=True)
            told = zip(made, records(run.stdout))
            found = [reads for (opcode, _), (status, reads) in told if opcode == RETRIEVE and status == 0]
            print(f"{frames} frames: {len(found)} Retrieves read {sum(found) / len(found):.2f} pages on average, {max(found)} at most")


def serve(image, frames, script):
    run = subprocess.run([PROGRAM, image, "serve", str(frames)], input=script, stdout=subprocess.PIPE, check=True)
    return list(records(run.stdout))


def timed(image, frames, script):
    begin = time.time()
    told = serve(image, frames, script)
    return told, time.time() - begin


def of(reads):
    return f"{sum(reads) / len(reads):.2f}, {max(reads)}"


def held(shape=("4096", "64", "1024")):
    """Each key is stored once, in an order that mixes them, and all merges end; then each is retrieved."""
    rest = entry(TICK, 1, b"", 1000000)
    print("keys | frames | after an opening, mean and greatest | after a Tick to rest | pages that it read | milliseconds")
    for count in (1000, 5000, 20000):
        step = next(n for n in range(count // 3, count) if math.gcd(n, count) == 1)
        keys = [b"key:%012d" % (i * step % count) for i in range(count)]
        ask = b"".join(entry(RETRIEVE, i, key, 4096) for i, key in enumerate(keys))
        with tempfile.TemporaryDirectory() as folder:
            image = os.path.join(folder, "it.img")
            subprocess.run([PROGRAM, image, "make", *shape], check=True)
            serve(image, 36, b"".join(entry(STORE, i, key, 100) + LETTERS[:100] for i, key in enumerate(keys)) + rest)
            for frames in (0, 35, 36, 52, 148, 260, 520, 1040):
                opened = [reads for _, reads in serve(image, frames, ask)]
                told, seconds = timed(image, frames, rest)
                _, without = timed(image, frames, b"")
                rested = [reads for _, reads in serve(image, frames, rest + ask)[1:]]
                print(f"{count} | {frames} | {of(opened)} | {of(rested)} | {told[0][1]} | {1000 * (seconds - without):.0f}")


if __name__ == "__main__":
    if sys.argv[1:] == ["held"]:
        held()
    else:
        main(*map(int, sys.argv[1:]))
