#!/usr/bin/env python3
"""Measures `check --device` of an image of 64 MiB in blocks of 4,096 bytes, as a device of disk version 2.1 writes it, beside `check` of the
one of version 2.0 with the same tree, and `adopt` of it beside that: by processor time, of each the least of fifteen runs. Ends with 1 if a
mark is missed."""
import pathlib
import struct
import subprocess
import tempfile

from measures import copy_anew, cost, end, mark, mixed_files
from support.folder import PROGRAM
from support.later import LATER, written
from support.littlefs import Log, Reader

SIZE, COUNT, ROUNDS, MOST, MOST_TO_ADOPT = 4_096, 16_384, 15, 1.5, 2
HEADER = 0x201


def packed(room):
    """An image of version 2.0 with 5,000 files of mixed sizes, 40 MiB together, in 300 folders."""
    mixed_files(room / "tree")
    subprocess.run([PROGRAM, "pack", "--block", str(SIZE), "--count", str(COUNT), room / "a.img", room / "tree"], check=True)
    return (room / "a.img").read_bytes()


def stated(item):
    """A tag of the root, which states version 2.1 where it is the superblock's struct."""
    kind, number, value = item
    is_header = (kind, number, len(value or b"")) == (HEADER, 0, 24)
    return (kind, number, struct.pack("<I", LATER) + value[4:]) if is_header else item


def raised(image):
    """The same image as a device writes it: each pair of the thread anew, with forward checksums."""
    blocks = bytearray(image)
    for first, _ in Reader(image, SIZE).thread():
        place = slice(first * SIZE, (first + 1) * SIZE)
        commits = Log(image[place]).commits
        blocks[place] = written(1, SIZE, *[[stated(item) if first == 0 else item for item in tags] for tags in commits])
    return bytes(blocks)


def adopted(image, copy):
    """The processor time that taking over a copy of an image takes."""
    copy_anew(image, copy)
    return cost([PROGRAM, "adopt", "--block", str(SIZE), copy]).processor


def main():
    with tempfile.TemporaryDirectory() as folder:
        room = pathlib.Path(folder)
        (room / "b.img").write_bytes(raised(packed(room)))
        words = ["check", "--block", str(SIZE), room / "a.img"], ["check", "--block", str(SIZE), "--device", room / "b.img"]
        plain, device = (min(cost([PROGRAM, *run]).processor for _ in range(ROUNDS)) for run in words)
        taken = min(adopted(room / "b.img", room / "c.img") for _ in range(ROUNDS))
    print(f"64 MiB: check {1_000 * plain:.1f} ms, check --device of version 2.1 {1_000 * device:.1f} ms, adopt {1_000 * taken:.1f} ms")
    mark("check --device by check", device / plain, MOST)
    mark("adopt by check --device", taken / device, MOST_TO_ADOPT)
    end()


main()
