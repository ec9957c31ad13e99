#!/usr/bin/env python3
"""Measures what large or hostile images and folders cost: directories in each other, files of one directory, dumps that are made to slow
a reader down. Each row has the processor time at several sizes, and how it grows from the first to the last of them beside them: 1 is as
they do. The mark is the time at the last size. Ends with 1 if one is missed. With words only the rows are run whose names have one."""
import os
import pathlib
import resource
import shutil
import subprocess
import sys
import tempfile

from measures import MISSED, end, mark
from support.folder import PROGRAM
from support.logs import HARD, SOFT, Draft, chained, created, deleted, directory, file, image, log, superblock, tail

SMALLEST, SIZE, LARGEST, MOST_SECONDS = 256, 4_096, 65_536, 300


def spent(folder, command, *words, typed=None, statuses=(0,)):
    """The processor time and the peak memory in MiB of a run of the program in a folder; none if it takes too long."""
    how = {"cwd": folder, "stdin": typed or subprocess.DEVNULL, "stdout": subprocess.DEVNULL, "stderr": subprocess.DEVNULL}
    limit = lambda: resource.setrlimit(resource.RLIMIT_CPU, (MOST_SECONDS, MOST_SECONDS))
    child = subprocess.Popen([PROGRAM, command, *map(str, words)], preexec_fn=limit, **how)
    _, status, usage = os.wait4(child.pid, 0)
    code = os.waitstatus_to_exitcode(status)
    if code < 0:
        return None, None
    assert code in statuses, (command, words, code)
    return usage.ru_utime + usage.ru_stime, usage.ru_maxrss / 1_024


# ---- what is measured


def nested(count):
    """A path of so many directories in each other."""
    return "/d" * count


def nested_folder(place, count):
    """A folder of the host with so many in each other."""
    place.mkdir()
    at = os.open(place, os.O_RDONLY)
    for _ in range(count):
        os.mkdir("d", dir_fd=at)
        below = os.open("d", os.O_RDONLY, dir_fd=at)
        os.close(at)
        at = below
    os.close(at)


def nested_image(room, count, size=SIZE):
    """An image with so many directories in each other."""
    blocks = {0: log(1, superblock(size, 2 * count + 2) + (directory(1, b"d", (2, 3)) + tail(SOFT, (2, 3)) if count else []))}
    for n in range(1, count + 1):
        pair = (2 * n + 2, 2 * n + 3)
        blocks[2 * n] = log(1, directory(0, b"d", pair) + tail(SOFT, pair) if n < count else [])
    (room / "a.img").write_bytes(image(size, 2 * count + 2, blocks))


def wide_image(room, count, spare=2):
    """An image of which one directory, /w, has so many empty files."""
    many = 200
    parts = [range(at, min(at + many, count)) for at in range(0, count, many)]
    blocks = {0: log(1, superblock(SIZE, 2 * len(parts) + 2 + spare) + directory(1, b"w", (2, 3)) + tail(SOFT, (2, 3)))}
    for at, names in enumerate(parts, 1):
        items = [item for number, name in enumerate(names) for item in file(number, b"%07d" % name)]
        blocks[2 * at] = log(1, items + (tail(HARD, (2 * at + 2, 2 * at + 3)) if at < len(parts) else []))
    (room / "a.img").write_bytes(image(SIZE, 2 * len(parts) + 2 + spare, blocks))


def of_nested(command, *words, from_folder=False):
    """The cost of a command on directories in each other."""
    def run(room, count):
        if from_folder:
            nested_folder(room / "src", count)
        else:
            nested_image(room, count)
        return spent(room, command, *(word.replace("PATH", nested(count)).replace("COUNT", str(2 * count + 4)) for word in words))
    return run


def synced_nested(room, count):
    """The cost of making an empty image like a folder of nested ones."""
    nested_folder(room / "src", count)
    spent(room, "format", "--block", SIZE, "--count", 2 * count + 8, "a.img")
    return spent(room, "sync", "--block", SIZE, "a.img", "src")


def made_nested(room, count):
    """The cost of making so many in each other."""
    spent(room, "format", "--block", SIZE, "--count", 2 * count + 8, "a.img")
    return spent(room, "mkdir", "-p", "--block", SIZE, "a.img", nested(count))


def removed_wide(room, count):
    """The cost of removing a directory's files."""
    wide_image(room, count)
    return spent(room, "rm", "-r", "--block", SIZE, "a.img", "/w")


def emptied_wide(room, count):
    """The cost of making a wide image like an empty folder."""
    wide_image(room, count)
    (room / "src").mkdir()
    return spent(room, "sync", "--block", SIZE, "a.img", "src")


def put_in_one(room, count):
    """The cost of putting so many files into one directory, as one change."""
    (room / "f").write_bytes(b"x")
    spent(room, "format", "--block", SIZE, "--count", count // 16, "a.img")
    (room / "steps").write_text("".join(f"put /{n:07} f\n" for n in range(count)))
    return spent(room, "batch", "--one", "--block", SIZE, "a.img", "steps")


def repacked_wide(room, count):
    """The cost of packing a wide image anew."""
    wide_image(room, count)
    return spent(room, "repack", "--block", SIZE, "b.img", "a.img")


def compared_nested(room, count):
    """The cost of comparing two equal trees."""
    nested_image(room, count)
    shutil.copyfile(room / "a.img", room / "b.img")
    return spent(room, "diff", "--block", SIZE, "a.img", "b.img")


def mapped_nested(room, count):
    """The cost of printing which block holds what of directories in each other."""
    nested_image(room, count, SMALLEST)
    return spent(room, "blocks", "--block", SMALLEST, "a.img")


def superblocks(room, count):
    """The cost of looking for images in so many bytes of superblocks after each other."""
    one = log(1, superblock(SMALLEST, 2))
    (room / "a.img").write_bytes((one * (count // len(one) + 1))[:count])
    return spent(room, "find", "a.img")


def shifting(items, first, following):
    """A block of many entries, before which others are made and deleted again and again."""
    draft = Draft(1).add(items)
    for n in range(1_000):
        draft.add(file(first + n, b"%04d" % n))
    while len(draft.bytes) < LARGEST - 96:
        draft.add(created(first) + file(first, b"a")[:1] + deleted(first))
    return draft.add(following).close_at(16).bytes


def rewritten(room, count):
    """The cost of checking so many bytes of blocks full of entries that are made and deleted at one index."""
    last = count // LARGEST - 2
    blocks = {0: shifting(superblock(LARGEST, count // LARGEST), 1, tail(HARD, (2, 3)))}
    for n in range(2, last + 1, 2):
        blocks[n] = shifting([], 0, tail(HARD, (n + 2, n + 3)) if n < last else [])
    (room / "a.img").write_bytes(image(LARGEST, count // LARGEST, blocks))
    return spent(room, "check", "--block", LARGEST, "a.img", statuses=(0, 3))


def one_broken_chain(room, count):
    """The cost of saving an image of 16 MiB in which so many files name one chain that is broken, each with another length."""
    many, blocks = 150, {}
    parts = [range(at, min(at + many, count)) for at in range(0, count, many)]
    blocks[0] = log(1, superblock(SIZE, 4_096) + tail(HARD, (2, 3)))
    for at, names in enumerate(parts, 1):
        items = [item for number, name in enumerate(names) for item in chained(number, b"%07d" % name, 4_000, 7_900_000 - name)]
        blocks[2 * at] = log(1, items + (tail(HARD, (2 * at + 2, 2 * at + 3)) if at < len(parts) else []))
    for block in range(2_050, 4_001):
        blocks[block] = (block - 1 if block > 2_050 else 0xFFFF_FFFF).to_bytes(4, "little") * 12
    (room / "a.img").write_bytes(image(SIZE, 4_096, blocks))
    return spent(room, "salvage", "--block", SIZE, "a.img", "made", statuses=(0, 3))


MIB = 2**20
DEEP, WIDE = (250, 500, 1_000, 2_000), (5_000, 10_000, 20_000)
# What is measured, at which sizes, with which mark in seconds at the last one, and in MiB if memory has one.
ROWS = (
    ("mkdir -p of nested directories", made_nested, DEEP, 1.0),
    ("pack of nested directories", of_nested("pack", "--block", "4096", "--count", "COUNT", "a.img", "src", from_folder=True), DEEP, 1.0),
    ("sync of nested directories", synced_nested, DEEP, 1.0),
    ("rm -r of nested directories", of_nested("rm", "-r", "--block", "4096", "a.img", "/d"), DEEP, 1.0),
    ("repack of nested directories", of_nested("repack", "--block", "4096", "b.img", "a.img"), DEEP, 1.0),
    ("rm -r of one directory's files", removed_wide, WIDE, 0.5),
    ("sync of one directory's files with an empty folder", emptied_wide, WIDE, 0.5),
    ("batch --one of puts into one directory", put_in_one, WIDE, 2.5),
    ("repack of one directory's files", repacked_wide, (128_000, 256_000, 512_000), 3.2),
    ("diff of two equal trees of nested directories", compared_nested, (2_000, 4_000, 8_000), 0.5),
    ("find in superblocks after each other", superblocks, (MIB, 2 * MIB, 4 * MIB, 16 * MIB), 2),
    ("check of entries made and deleted at one index", rewritten, (4 * MIB, 8 * MIB, 16 * MIB), 1),
    ("salvage of files that name one broken chain", one_broken_chain, (2_048, 4_096, 8_192), 2),
    ("blocks of nested directories", mapped_nested, (8_192, 16_384, 32_767), None, 64),
)


def in_a_folder(run, size):
    """What a run costs in a folder of its own. `rm` takes it away, since Python's own way recurses into folders in each other."""
    folder = tempfile.mkdtemp()
    try:
        return run(pathlib.Path(folder), size)
    finally:
        subprocess.run(["rm", "-rf", folder], check=True)


def measure(name, run, sizes, most, most_memory=None):
    """One row: the times at its sizes, how they grow beside them, and the marks."""
    found = []
    for size in sizes:
        found.append(in_a_folder(run, size))
        if found[-1][0] is None:
            print(f"{name}: {size}: more than {MOST_SECONDS} s")
            MISSED.append(name)
            return
    growth = (found[-1][0] / found[0][0]) / (sizes[-1] / sizes[0])
    times = ", ".join(f"{size}: {time:.2f} s {memory:.0f} MiB" for size, (time, memory) in zip(sizes, found))
    print(f"{name}: {times}; grows {growth:.1f} times as its size does", flush=True)
    if most is not None:
        mark(f"{name}: seconds", found[-1][0], most)
    if most_memory is not None:
        mark(f"{name}: MiB", found[-1][1], most_memory)


def main():
    for row in ROWS:
        if len(sys.argv) == 1 or any(word in row[0] for word in sys.argv[1:]):
            measure(*row)
    end()


main()
