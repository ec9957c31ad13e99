#!/usr/bin/env python3
"""Images that a device left unfinished, read with `--device`: as the device's next change leaves them.

Seven were made by a real littlefs that lost its power, and stand in tests/images/unfinished with what the device listed. The others come
from a writer apart from the program: what is in them was written by hand, and some can't be ended."""
import json
import lzma
import pathlib
import sys
from typing import NamedTuple

from support.folder import run_scenes
from support.later import LATER, stated, written
from support.logs import HARD, SOFT, directory, file, image, moved, tail

STORED = pathlib.Path(__file__).resolve().parent / "images/unfinished"
IMAGES = json.loads((STORED / "rows.json").read_text())
SIZE, COUNT = 512, 10
MOVED, OTHER_TYPE, ORPHANS = 0x4FF << 20, 0x3FF << 20, 1 << 31


def root(*items):
    """The items of a superblock of version 2.1, and others after it."""
    return [*stated(LATER, SIZE, COUNT), *(item for group in items for item in group)]


def state(word, pair=(0, 0), entry=0):
    """The item of a part's share in the global state."""
    return moved(b"".join(number.to_bytes(4, "little") for number in (word | entry << 10, *pair)))


def pair_of(first, second, old, new):
    """Both blocks of a pair, the second of which is the later one."""
    return {first: written(1, SIZE, old), second: written(2, SIZE, new)}


class Row(NamedTuple):
    """The logs of an image's blocks; what is read, each path with its contents, of a directory None, or the fault for which it's refused."""
    blocks: dict
    wanted: dict | str


TWO = file(1, b"a", b"one") + file(2, b"b", b"two")
BOTH, ONE = {"/a": b"one", "/b": b"two"}, {"/a": b"one"}
IN = file(0, b"f", b"in")
# A directory of two parts, /d and another one in the thread after it.
LONG = {2: written(1, SIZE, file(0, b"f", b"in") + tail(HARD, (4, 5))), 4: written(1, SIZE, file(0, b"g", b"more") + tail(SOFT, (6, 7)))}
HAS_LONG = {"/d": None, "/d/f": b"in", "/d/g": b"more"}
ROWS = {
    # A move: the entry with the number goes, which counts the superblock.
    "the last entry was moved": Row({0: written(1, SIZE, root(TWO, state(MOVED, (0, 1), 2)))}, ONE),
    "the pair's blocks the other way round": Row({0: written(1, SIZE, root(TWO, state(MOVED, (1, 0), 2)))}, ONE),
    "half of the pair is named": Row({0: written(1, SIZE, root(TWO, state(MOVED, (7, 0), 2)))}, ONE),
    "an entry before another": Row({0: written(1, SIZE, root(TWO, state(MOVED, (0, 1), 1)))}, {"/b": b"two"}),
    "an entry of a directory": Row(
        {0: written(1, SIZE, root(directory(1, b"d", (2, 3)), tail(SOFT, (2, 3)), state(MOVED, (2, 3), 0))), 2: written(1, SIZE, IN)}, {"/d": None}),
    "a directory at both places": Row(
        {0: written(1, SIZE, root(directory(1, b"d", (2, 3)), directory(2, b"e", (4, 5)), tail(SOFT, (2, 3)), state(MOVED, (0, 1), 2))),
         2: written(1, SIZE, directory(0, b"e", (4, 5)) + tail(SOFT, (4, 5))), 4: written(1, SIZE, IN)}, {"/d": None, "/d/e": None, "/d/e/f": b"in"}),
    "shares of two parts": Row(
        {0: written(1, SIZE, root(TWO, directory(3, b"d", (2, 3)), tail(SOFT, (2, 3)), state(MOVED ^ 5, (0, 1), 2))),
         2: written(1, SIZE, IN + state(5))}, {"/a": b"one", "/d": None, "/d/f": b"in"}),
    "shares that cancel each other": Row(
        {0: written(1, SIZE, root(TWO, directory(3, b"d", (2, 3)), tail(SOFT, (2, 3)), state(MOVED, (0, 1), 2))),
         2: written(1, SIZE, IN + state(MOVED, (0, 1), 2))}, {**BOTH, "/d": None, "/d/f": b"in"}),
    "an entry past the last": Row({0: written(1, SIZE, root(TWO, state(MOVED, (0, 1), 3)))}, "18 UnfinishedMove"),
    "a pair that isn't there": Row({0: written(1, SIZE, root(TWO, state(MOVED, (2, 3), 0)))}, "18 UnfinishedMove"),
    "another kind of state": Row({0: written(1, SIZE, root(TWO, state(OTHER_TYPE, (0, 1), 2)))}, "18 UnfinishedMove"),
    # Directories that no path leads to.
    "a directory without an entry": Row({0: written(1, SIZE, root(TWO, tail(SOFT, (2, 3)), state(ORPHANS))), 2: written(1, SIZE, IN)}, BOTH),
    "without a state": Row({0: written(1, SIZE, root(TWO, tail(SOFT, (2, 3)))), 2: written(1, SIZE, IN)}, BOTH),
    "between others": Row(
        {0: written(1, SIZE, root(directory(1, b"d", (6, 7)), tail(SOFT, (2, 3)))), **LONG, 6: written(1, SIZE, IN)}, {"/d": None, "/d/f": b"in"}),
    "after others": Row(
        {0: written(1, SIZE, root(directory(1, b"d", (2, 3)), tail(SOFT, (2, 3)))), **LONG, 6: written(1, SIZE, IN)}, HAS_LONG),
    "directories that name each other": Row(
        {0: written(1, SIZE, root(TWO, tail(SOFT, (2, 3)))), 2: written(1, SIZE, directory(0, b"e", (4, 5)) + tail(SOFT, (4, 5))),
         4: written(1, SIZE, directory(0, b"d", (2, 3)))}, BOTH),
    "a share of a directory that goes": Row(
        {0: written(1, SIZE, root(TWO, tail(SOFT, (2, 3)), state(ORPHANS | 3))), 2: written(1, SIZE, IN + state(3))}, BOTH),
    "a part that isn't read": Row({0: written(1, SIZE, root(TWO, tail(SOFT, (2, 3)), state(ORPHANS)))}, "3 NoValidCommit"),
    "a block of it in a file": Row(
        {0: written(1, SIZE, root([(1, 1, b"a"), (0x202, 1, b"\x03\0\0\0\x05\0\0\0")], tail(SOFT, (2, 3)))), 2: written(1, SIZE, IN),
         3: b"chain"}, {"/a": b"chain"}),
    # A pair that was moved: the thread names the old one, or an old part of it.
    "the entry names the new pair": Row(
        {0: written(1, SIZE, root(directory(1, b"d", (3, 4)), tail(SOFT, (2, 3)), state(ORPHANS))), 2: written(1, SIZE, IN),
         3: written(2, SIZE, IN), 4: written(3, SIZE, file(0, b"new", b"one"))}, {"/d": None, "/d/new": b"one"}),
    "the new pair goes on": Row(
        {0: written(1, SIZE, root(directory(1, b"d", (4, 3)), directory(2, b"e", (6, 7)), tail(SOFT, (2, 3)), state(ORPHANS))),
         2: written(1, SIZE, tail(SOFT, (6, 7))), 4: written(3, SIZE, IN + tail(SOFT, (6, 7))), 6: written(1, SIZE, [])},
        {"/d": None, "/d/f": b"in", "/e": None}),
    # What is damaged is refused as before.
    "two names of one directory": Row(
        {0: written(1, SIZE, root(directory(1, b"d", (2, 3)), directory(2, b"e", (2, 3)), tail(SOFT, (2, 3)))), 2: written(1, SIZE, IN)},
        "15 BlockTwice"),
    "a file in a directory's pair": Row(
        {0: written(1, SIZE, root([(1, 1, b"a"), (0x202, 1, b"\x03\0\0\0\x05\0\0\0")], directory(2, b"d", (2, 3)), tail(SOFT, (2, 3)))),
         2: written(1, SIZE, IN)}, "15 BlockTwice"),
    "the thread comes back": Row({0: written(1, SIZE, root(TWO, tail(SOFT, (1, 0))))}, "15 BlockTwice"),
    "a block past the end": Row({0: written(1, SIZE, root(TWO, tail(SOFT, (2, COUNT)), state(ORPHANS)))}, "14 BlockRange"),
}

# What `check --device` says of the stored images and of some of the others. Of a directory without an entry nothing is said.
LEFT_OUT = "that no path leads to is left out; salvage saves it"
TOLD = {
    "move": ["/a/f was being moved; it is read at its new place"],
    "move-directory": ["/a/d was being moved; it is read at its new place"],
    "lost": [f"blocks 10 and 11: a directory with 2 entries {LEFT_OUT}", f"blocks 14 and 15: a directory with 2 entries {LEFT_OUT}"],
    "out-of-step": ["/d1 stands in blocks 16 and 20, not in blocks 19 and 20, which the thread names"],
    "the last entry was moved": ["/b was being moved; it is read at its new place"],
    "a directory without an entry": [f"blocks 2 and 3: a directory with 1 entry {LEFT_OUT}"],
    "between others": [f"blocks 2 and 3: a directory with 2 entries {LEFT_OUT}"],
    "the entry names the new pair": ["/d stands in blocks 3 and 4, not in blocks 2 and 3, which the thread names"],
    "shares that cancel each other": [],
}


def told_of(name):
    """What `check --device` says of an image on standard error."""
    return "".join(f"lfsed: a.img: {line}\n" for line in TOLD.get(name, []))


def rows_of(printed):
    """The paths of what `ls --json` prints, each with its length, or None for a directory."""
    rows = [json.loads(line) for line in printed.decode().splitlines()]
    return {row["path"]: row["size"] if row["kind"] == "file" else None for row in rows if row["kind"] in ("file", "directory")}


def stored_images_are_read(folder):
    for name, about in IMAGES.items():
        folder.be(lzma.decompress((STORED / f"{name}.img.xz").read_bytes()), 0)
        status, told, _ = folder.run(f"check -b {about['block']} a.img")
        folder.check(f"{name}: without --device", status == 3 and int(told.split(" ")[1]) in (3, 10), told)
        ended = folder.run("check -b auto --device a.img")
        folder.check(f"{name}: checked", ended[:2] == (0, told_of(name)), ended)
        status, told, printed = folder.run("ls -b auto --json --device a.img")
        wanted = {"/": None, **{path: length for path, length in about["tree"]}}
        folder.check(f"{name}: the device's tree", status == 0 and rows_of(printed) == wanted, (told, rows_of(printed)))
        is_repacked(folder, name, wanted)


def is_repacked(folder, name, wanted):
    """`repack --device` makes an image of version 2.0 with the same tree; the image that is read stays."""
    before = folder.old()
    ended = folder.run("repack --device -b 512 --from-block auto --count 200 b.img a.img")
    folder.check(f"{name}: repacked", ended == (0, "", b"") and folder.old() == before, ended)
    _, _, printed = folder.run("ls -b 512 --json b.img")
    folder.check(f"{name}: the same tree", rows_of(printed) == wanted, rows_of(printed))
    folder.image.with_name("b.img").unlink(missing_ok=True)


def written_images_are_read(folder):
    for name, row in ROWS.items():
        bytes_ = image(SIZE, COUNT, row.blocks)
        folder.be(bytes_, 0)
        status, told, printed = folder.run(f"ls -b {SIZE} --json --device a.img")
        if isinstance(row.wanted, str):
            folder.check(name, status == 3 and told.startswith(f"lfsed: {row.wanted}\n"), (status, told))
            continue
        wanted = {"/": None, **{path: held and len(held) for path, held in row.wanted.items()}}
        folder.check(name, (status, told) == (0, "") and rows_of(printed) == wanted, (status, told, printed))
        for path, held in row.wanted.items():
            if held is not None:
                ended = folder.run(f"cat -b {SIZE} --device a.img {path}")
                folder.check(f"{name}: {path}", ended == (0, "", held), ended)
        if name in TOLD:
            ended = folder.run(f"check -b {SIZE} --device a.img")
            folder.check(f"{name}: checked", ended[:2] == (0, told_of(name)), ended)
        folder.check(f"{name}: what is read stays", folder.old() == bytes_)


if __name__ == "__main__":
    sys.exit(run_scenes([stored_images_are_read, written_images_are_read]))
