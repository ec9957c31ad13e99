#!/usr/bin/env python3
"""Makes two images of 64 MiB: one of 1,024 blocks with 900 files of one block each in the root, and one of blocks of 4,096 bytes
with a file of 60 MiB."""
import sys

from encoder import chain, linked, root, superblock


def many_files(size, count, files):
    tags = superblock(size, count)
    for number in range(files):
        tags += linked(1 + number, b"file%04d" % number, 2 + number, size)
    blocks = [bytes([number % 251]) * size for number in range(files)]
    return root(size, tags) + b"".join(blocks)


def one_file(size, count, length):
    blocks = chain(size, 2, bytes(number % 251 for number in range(65_536)) * (length // 65_536))
    return root(size, superblock(size, count) + linked(1, b"file", 1 + len(blocks), length)) + b"".join(blocks)


def write(name, size, count, image):
    with open(name, "wb") as out:
        out.write(image.ljust(size * count, b"\xff"))


write(sys.argv[1], 65_536, 1_024, many_files(65_536, 1_024, 900))
write(sys.argv[2], 4_096, 16_384, one_file(4_096, 16_384, 60 * 1_048_576))
