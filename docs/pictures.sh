#!/bin/sh
# Makes the three pictures of docs/IMAGES.md again: a made drive, one in use, and one after a cut.
set -eu

docs=$(CDPATH='' cd -- "$(dirname -- "$0")" && pwd)
top=$docs/..
image=$(mktemp -d)/drive.img
trap 'rm -rf "$(dirname -- "$image")"' EXIT

picture() { # name
    "$top/pinkdump" "$image" lines | "$docs/picture.py" -o "$docs/$1.svg"
}

"$top/pink" "$image" make 512 16 64
picture made

PYTHONPATH=$top/clients/python python3 - "$image" "$top/pink" <<'PY'
import sys
from pinkdrive import Drive

image, program = sys.argv[1:]
for session in range(2):
    with Drive(image, program=program) as d:
        for i in range(26):
            d[b"key%02d" % (i * 7 % (20 + 6 * session))] = bytes([i]) * (i * 97 * (session + 1) % 2000)
        for i in range(4):
            del d[b"key%02d" % (3 * i + session)]
PY
picture used

# Power is lost within the second program of the last commit: both pages are torn, and what it held is not there.
python3 - "$image" "$top/pinkdump" <<'PY'
import subprocess, sys

image, dump = sys.argv[1:]
told = subprocess.run([dump, image, "lines"], stdout=subprocess.PIPE, text=True, check=True).stdout
pages = "".join(line.split("pages=")[1] for line in told.splitlines() if line.startswith("block "))
with open(image, "r+b") as it:
    it.seek(32 + pages.rindex("JJ"))
    it.write(b"\2\2")
PY
picture cut
