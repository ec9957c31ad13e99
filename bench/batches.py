#!/usr/bin/env python3
"""Measures changes by the program on images of 1 MiB and of 64 MiB in blocks of 4,096 bytes: a script of 200 lines in one run, and on the
larger image one of 1,000, beside one `put`, by the time until it ends, synced files included; and one edit, an attribute of the root, beside `check` and `cp` of the image
together, by processor time. Each run begins with the same image, which the disk has, and no journal; of each the least of fifteen runs.
Ends with 1 where a mark is missed."""
import pathlib
import tempfile

from measures import copy_anew, cost, end, mark, mixed_files
from support.folder import PROGRAM, contents

SIZE, LINES, MANY, ROUNDS = 4_096, 200, 1_000, 15


def small(place):
    """200 files of 100 bytes in ten folders: what an image of 1 MiB gets."""
    for n in range(10):
        (place / f"d{n}").mkdir(parents=True)
        for file in range(20):
            (place / f"d{n}/f{file}").write_bytes(contents(100))


class Images:
    """An image of a folder, and copies of it on which runs begin."""

    def __init__(self, room, name, fill, count):
        self.name, self.place, self.image, self.copy = name, room / name, room / f"{name}.img", room / "copy.img"
        self.other, self.host, self.script = room / "other.img", room / "host", room / "steps"
        fill(self.place)
        cost([PROGRAM, "pack", "--block", str(SIZE), "--count", str(count), self.image, self.place])
        self.host.write_bytes(contents(100))
        self.paths = [f"/{path.relative_to(self.place)}" for path in sorted(self.place.rglob("*")) if path.is_file()]
        self.many = room / "many"
        self.write(self.script, LINES)
        self.write(self.many, MANY)

    def write(self, script, lines):
        """Writes a script of so many lines, where there are as many files: each puts a file in the place of another one."""
        if lines <= len(self.paths):
            script.write_text("".join(f"put {path} {self.host}\n" for path in self.paths[:: len(self.paths) // lines][:lines]))

    def least(self, command, *words):
        """The least times of some runs of a command on a copy of the image: until it ends, and of the processor."""
        found = []
        for _ in range(ROUNDS):
            copy_anew(self.image, self.copy)
            found.append(cost([PROGRAM, command, "--block", str(SIZE), *words])[:2])
        return [min(times) for times in zip(*found)]

    def measure(self):
        """Compares what runs on the image cost."""
        put = self.least("put", "--from", self.host, self.copy, self.paths[0])
        batch = self.least("batch", self.copy, self.script)
        edit, check = self.least("setattr", self.copy, "/", "74", "0102")[1], self.least("check", self.copy)[1]
        copied = min(cost(["cp", self.image, self.other]).processor for _ in range(ROUNDS))
        print(f"{self.name}: put {1_000 * put[0]:.1f} ms, {LINES} lines {1_000 * batch[0]:.1f} ms until they end; of the processor "
              f"{1_000 * put[1]:.1f} and {1_000 * batch[1]:.1f} ms, edit {1_000 * edit:.1f} ms, check {1_000 * check:.1f} ms, "
              f"cp {1_000 * copied:.1f} ms")
        mark(f"{LINES} lines by one put", batch[0] / put[0], 3)
        if self.many.exists():
            many = self.least("batch", self.copy, self.many)
            print(f"  {MANY} lines {1_000 * many[0]:.1f} ms until they end, {1_000 * many[1]:.1f} ms of the processor")
            mark(f"{MANY} lines by one put", many[0] / put[0], 1.6)
            self.many.unlink()
        mark("an edit by check and cp", edit / (check + copied), 1.3)


def main():
    with tempfile.TemporaryDirectory() as folder:
        for name, fill, count in ("1 MiB", small, 256), ("64 MiB", mixed_files, 16_384):
            Images(pathlib.Path(folder), name, fill, count).measure()
    end()


main()
