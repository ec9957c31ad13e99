#!/usr/bin/env python3
"""Prints which blocks of images hold what, and how many each path takes, and compares both with what a reader apart from the program finds
in images that are packed, or come from a writer apart from it."""
import random
import sys

from support.folder import contents, run_scenes
from support.later import LATER, DeviceReader, stated, written
from support.littlefs import DIRECTORY, ROOT, Reader
from support.logs import chained, directory, file, image, log, superblock, tail, SOFT
from support.scattering import Scattered, laid
from support.texts import shown

SIZE = 512


def rows_of(reader):
    """What stands at each path, in order: whether it is a directory, and the blocks of its parts or of its contents."""
    rows, waiting = [], [(b"/", ROOT, None)]
    while waiting:
        path, pair, entry = waiting.pop()
        blocks = [block for part in reader.parts_of(pair) for block in part.pair] if pair else reader.blocks_of(entry)
        rows.append((path, pair is not None, blocks))
        for below in reversed(reader.entries(pair) if pair else []):
            leads = below.kind == DIRECTORY
            waiting.append((path.rstrip(b"/") + b"/" + below.name, below.pair() if leads else None, below))
    return rows


def used_by(path, is_directory):
    """The words for what uses blocks."""
    return f"{'d' if is_directory else 'f'} {shown(path)}"


def map_of(reader):
    """A line for each run of blocks that one path has, or none."""
    users = ["-"] * (len(reader.image) // reader.size)
    for path, is_directory, blocks in rows_of(reader):
        for block in blocks:
            users[block] = used_by(path, is_directory)
    text, first = "", 0
    for block in range(1, len(users) + 1):
        if block == len(users) or users[block] != users[first]:
            numbers = f"{first}" if block == first + 1 else f"{first}-{block - 1}"
            text, first = text + f"{numbers} {users[first]}\n", block
    return text


def is_within(path, other):
    """Whether a path is another one, or below it."""
    return other == b"/" or path == other or path.startswith(other + b"/")


def sums_of(reader):
    """A line for each path: how many blocks it has, with all that is below it; and how many none has."""
    rows = rows_of(reader)
    sums = [(sum(len(blocks) for below, _, blocks in rows if is_within(below, path)), used_by(path, leads)) for path, leads, _ in rows]
    return "".join(f"{many} {user}\n" for many, user in [*sums, (reader.free(), "-")])


def is_said(folder, what, reader, words="a.img", size=SIZE):
    """Compares both texts of an image with what the reader finds; image and journal stay as they were."""
    before = folder.old(), folder.saved()
    for option, wanted in ("", map_of(reader)), ("--sum ", sums_of(reader)):
        ended = folder.run(f"blocks -b {size} {option}{words}")
        folder.check(f"{what}: blocks {option}", ended == (0, "", wanted.encode()), (ended, wanted))
    folder.check(f"{what}: files", (folder.old(), folder.saved()) == before)


def worked_image(folder):
    """An image whose texts were written by hand."""
    folder.play([
        ("format -b 512 --count 8 a.img", 0, 0, "", ""),
        ("blocks -b 512 a.img", 0, 0, "", "0-1 d /\n2-7 -\n"),
        ("blocks -b 512 --sum a.img", 0, 0, "", "2 d /\n6 -\n"),
        ("mkdir -b 512 a.img /d", 0, 0, "", ""),
        ("put -b 512 a.img /d/f", 600, 0, "", ""),
        ("put -b 512 a.img /small", 9, 0, "", ""),
        ("blocks -b 512 a.img", 0, 0, "", "0-1 d /\n2-3 d /d\n4-5 f /d/f\n6-7 -\n"),
        ("blocks -b 512 --sum a.img", 0, 0, "", "6 d /\n4 d /d\n2 f /d/f\n0 f /small\n2 -\n"),
        ("rm -b 512 a.img /d/f", 0, 0, "", ""),
        ("blocks -b 512 a.img", 0, 0, "", "0-1 d /\n2-3 d /d\n4-7 -\n"),
    ])
    is_said(folder, "worked", Reader(folder.old(), SIZE))


def many_names(place):
    """Folders in folders, some of several parts, names that are alike in front, and odd ones."""
    for path, many, length in ("", 3, 40), ("a", 40, 30), ("a/b", 3, 1_300), ("ab", 2, 700), ("a-b", 1, 3_000), ("d/e/f", 4, 700), ("none", 0, 0):
        (place / path).mkdir(parents=True, exist_ok=True)
        for n in range(many):
            (place / path / f"{n}{path[-1:]}").write_bytes(contents(length + n))
    (place / "a\\\n").write_bytes(contents(2_000))
    (place / "é").write_bytes(contents(600))


def packed_images(folder):
    place = folder.image.with_name("src")
    place.mkdir()
    many_names(place)
    for size, count in (512, 256), (256, 1_024), (4_096, 128):
        folder.run(f"pack -b {size} --count {count} a.img src")
        is_said(folder, f"packed in blocks of {size}", Reader(folder.old(), size), size=size)


def scattered_images(folder):
    """Images of another writer, whose directories and files stand anywhere."""
    chance = random.Random(17)
    for n in range(60):
        size = chance.choice([256, 512])
        data = Scattered(chance, size, chance.choice([16, 32, 64])).image
        folder.be(data, len(data))
        is_said(folder, f"scattered {n}", Reader(data, size), size=size)


def other_names(folder):
    """Names that no host has, as a listing shows them; the same runs of one user apart, and blocks out of their order."""
    held = contents(1_200)
    blocks = {0: log(1, superblock(SIZE, 16) + directory(1, b"d\\", (12, 3)) + chained(2, b"\xff\0", 9, 1_200) + tail(SOFT, (12, 3))),
              12: log(1, file(0, b"in", b"in")), **laid(SIZE, [10, 6, 9], held)}
    folder.be(image(SIZE, 16, blocks), 0)
    wanted = ("0-1 d /\n2 -\n3 d /d\\x5c\n4-5 -\n6 f /\\xff\\x00\n7-8 -\n9-10 f /\\xff\\x00\n11 -\n12 d /d\\x5c\n13-15 -\n")
    ended = folder.run("blocks -b 512 a.img")
    folder.check("other names", ended == (0, "", wanted.encode()), ended)
    is_said(folder, "other names", Reader(folder.old(), SIZE))


def images_of_devices(folder):
    """Images of version 2.1, at their place in a larger file too; the state before what a device changed."""
    root = [*stated(LATER, SIZE, 16), *directory(1, b"d", (2, 3)), *chained(2, b"f", 5, 900), *tail(SOFT, (2, 3))]
    blocks = {0: written(1, SIZE, root), 2: written(1, SIZE, [*file(0, b"in", b"in")]), **laid(SIZE, [4, 5], contents(900))}
    data = image(SIZE, 16, blocks)
    folder.be(data, len(data))
    reader = DeviceReader(data, SIZE)
    is_said(folder, "of a device", reader, "--device a.img")
    ended = folder.run("blocks -b 512 a.img")
    folder.check("of a device, as it is", ended[0] == 3 and ended[1].startswith("lfsed: 3 NoValidCommit\n") and not ended[2], ended)
    folder.be(b"boot" + data + b"more", len(data) + 8)
    is_said(folder, "of a device at its place", reader, "--device --offset 4 a.img")


def what_is_refused(folder):
    for words in "blocks -b 512 a.img", "blocks -b 512 --sum a.img":
        same = folder.run(words)
        folder.check(f"{words}: no image", same == folder.run("ls -b 512 a.img") and same[0] == 4, same)
    for front, length in (b"", 4_095), (b"", 4_096), (image(SIZE, 8, {0: log(1, superblock(SIZE, 9))}), 4_096):
        folder.be(front, length)
        for words in "blocks -b 512 a.img", "blocks -b 512 --sum a.img":
            ended = folder.run(words)
            folder.check(f"{words}: {length}", ended == folder.run("ls -b 512 a.img") and ended[0] == 3, ended)


def output_that_fails(folder):
    folder.run("format -b 512 --count 64 a.img")
    with open("/dev/full", "wb") as output:
        for words in "blocks -b 512 a.img", "blocks -b 512 --sum a.img":
            ended = folder.run_into(output, words)
            folder.check(words, ended[0] == 4 and ended[1].startswith("lfsed: 61 CannotWrite\n"), ended)


SCENES = [worked_image, packed_images, scattered_images, other_names, images_of_devices, what_is_refused, output_that_fails]

if __name__ == "__main__":
    sys.exit(run_scenes(SCENES))
