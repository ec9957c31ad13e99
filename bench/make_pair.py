#!/usr/bin/env python3
"""Makes the image of one pair of blocks of 64 KiB, whose first block has a log of 1,000 files in 400 commits. It shows, too,
that a foreign log is read."""
import struct
import sys

from encoder import commit, tag

SIZE = 65_536


def pair():
    block = lead = struct.pack("<I", 1)
    previous = 0xFFFFFFFF
    files = iter(range(1_000))
    for number in range(400):
        tags = []
        for _ in range(2 + number % 2):
            entry = next(files)
            name = b"file%04d" % entry
            tags += [
                (tag(0x401, entry, 0), b""),
                (tag(0x001, entry, len(name)), name),
                (tag(0x201, entry, 8), b"contents"),
                (tag(0x374, entry, 2), b"ab"),
            ]
        written, previous = commit(lead, previous, tags)
        block += written
        lead = b""
    assert next(files, None) is None and len(block) <= SIZE
    return block + b"\xff" * (2 * SIZE - len(block))


with open(sys.argv[1], "wb") as image:
    image.write(pair())
