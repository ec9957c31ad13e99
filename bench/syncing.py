#!/usr/bin/env python3
"""Measures `sync` of an image of 64 MiB in blocks of 4,096 bytes with a folder of 5,000 files, 40 MiB together, in 300 folders: one that is
equal, and one in which ten files differ. Beside them stand `check` of the image, a plain read of all files of the folder by Python, and
one `put`, by the time until each ends, synced files included; of each the least of nine runs, those that change an image each on a new
copy, which the disk has, without a journal. Then it compares the image with the old one, block by block: what differs belongs to the ten
files, or to the parts of their directories. Ends with 1 where a mark is missed."""
import os
import pathlib
import random
import tempfile
import time

from measures import copy_anew, cost, end, mark, mixed_files
from support.folder import PROGRAM, contents
from support.littlefs import Reader, blocks_for

SIZE, COUNT, ROUNDS, DIFFERENT = 4_096, 16_384, 9, 10


def read_all(place):
    """The seconds that it takes to read all files of a folder."""
    begin = time.perf_counter()
    for folder, _, names in os.walk(place):
        for name in names:
            with open(os.path.join(folder, name), "rb", buffering=0) as held:
                held.read()
    return time.perf_counter() - begin


def rewrite(place):
    """Gives ten files of ten folders other contents of their lengths; answers their lengths."""
    by_folder = {}
    for path in sorted(path for path in place.rglob("*") if path.is_file() and path.stat().st_size > SIZE):
        by_folder.setdefault(path.parent, path)
    chosen = random.Random(10).sample(sorted(by_folder.values()), DIFFERENT)
    for path in chosen:
        held = path.read_bytes()
        path.write_bytes(held[:-1] + bytes([held[-1] ^ 1]))
    return [path.stat().st_size for path in chosen]


class Images:
    """An image of a folder, and copies of it on which runs begin."""

    def __init__(self, room):
        self.place, self.image, self.copy, self.host = room / "src", room / "a.img", room / "copy.img", room / "host"
        mixed_files(self.place)
        cost([PROGRAM, "pack", "--block", str(SIZE), "--count", str(COUNT), self.image, self.place])
        self.host.write_bytes(contents(100))

    def least(self, command, *words):
        """The least time of some runs of a command on a copy of the image."""
        found = []
        for _ in range(ROUNDS):
            copy_anew(self.image, self.copy)
            found.append(cost([PROGRAM, command, "--block", str(SIZE), *words]).until_end)
        return min(found)

    def sync(self):
        """The least time of some runs that make a copy of the image like the folder."""
        return self.least("sync", self.copy, self.place)

    def compare(self, lengths):
        """Compares the copy, which ten files of these lengths have changed, with the image."""
        old, new = Reader(self.image.read_bytes(), SIZE), Reader(self.copy.read_bytes(), SIZE)
        differ = {number for number in range(COUNT) if old.block(number) != new.block(number)}
        of_files = differ & {*new.used_by_files()}
        pairs = [pair for pair in new.thread() if differ & {*pair}]
        of_parts = {number for pair in pairs for number in pair}
        print(f"blocks that differ: {len(differ)}, of files {len(of_files)}, of {len(pairs)} directory parts {len(differ & of_parts)}")
        mark("blocks of files by those of ten", len(of_files) / sum(blocks_for(SIZE, length) for length in lengths), 1)
        mark("directory parts", len(pairs), DIFFERENT + 1)
        mark("other blocks", len(differ - of_files - of_parts), 0)

    def measure(self):
        """Compares what runs on the image cost."""
        put = self.least("put", "--from", self.host, self.copy, "/new")
        check, read = self.least("check", self.copy), min(read_all(self.place) for _ in range(ROUNDS))
        equal = self.sync()
        mark_of_equal = self.copy.read_bytes() != self.image.read_bytes()
        lengths = rewrite(self.place)
        sync = self.sync()
        print(f"sync {1_000 * sync:.1f} ms, of an equal folder {1_000 * equal:.1f} ms; check {1_000 * check:.1f} ms, "
              f"the folder {1_000 * read:.1f} ms, put {1_000 * put:.1f} ms until they end")
        mark("sync less a put, by check and the folder", (sync - put) / (check + read), 1.5)
        mark("images that an equal folder changes", mark_of_equal, 0)
        self.compare(lengths)


def main():
    with tempfile.TemporaryDirectory() as folder:
        Images(pathlib.Path(folder)).measure()
    end()


main()
