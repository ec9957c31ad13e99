#!/usr/bin/env python3
"""Saves what is in damaged images, and compares what is made with what was written by hand, or with what a reader apart from the program
finds in the image as it was."""
import pathlib
import random
import re
import struct
import sys
import tempfile
import time
from errno import EILSEQ, EINVAL, EIO

from support.folder import contents, run_scenes
from support.later import LATER, stated, written
from support.littlefs import Reader
from support.logs import HARD, SOFT, chained, directory, file, image, log, moved, superblock, tail
from support.refusing import Refusing
from support.salvage import Salvaged, Unharmed
from support.scattering import Scattered

SIZE = 512
# With these errors a system refuses a name.
OF_NAMES = EILSEQ, EINVAL


def made_in(place):
    """The files below a folder, by the names on their way; None where nothing is there."""
    if not place.exists():
        return None
    return {tuple(str(name).encode() for name in path.relative_to(place).parts): path.read_bytes()
            for path in place.rglob("*") if path.is_file()}


def without_numbers(names):
    """The names on a file's way, without the numbers that stand behind what was refused."""
    return tuple(re.sub(rb"~[0-9]+\.[0-9]+\Z", b"", name) for name in names)


def cleared(place):
    """Takes a folder away, with all that is in it."""
    for path in sorted(place.rglob("*"), reverse=True):
        path.rmdir() if path.is_dir() else path.unlink()
    if place.exists():
        place.rmdir()


def saved(folder, what, data, words="salvage -b 512 a.img made"):
    """Saves what is in an image; answers how it ended, and what was made, which is taken away. Nothing is written outside the folder, and
    nothing is printed; it takes two seconds at most."""
    folder.be(data, len(data))
    place, begun = folder.image.with_name("made"), time.monotonic()
    status, told, printed = folder.run(words)
    took = time.monotonic() - begun
    folder.check(f"{what}: ends in good time", status in (0, 3) and took < 2, (status, told, took))
    there = {*folder.image.parent.iterdir()} - {folder.image, place}
    folder.check(f"{what}: nothing else", folder.old() == data and not there and not printed, there)
    made = made_in(place)
    cleared(place)
    return status, told, made


# ---- damage of each kind

SHARE = moved(bytes.fromhex("0000f04f0200000003000000"))
ETC = directory(1, b"etc", (2, 3)) + tail(SOFT, (2, 3))
UNREAD = "neither holds a whole commit"
# Files that take each name that entry 4 might get, if it is one of name `a`.
TAKEN = file(1, b"a", b"one") + file(2, b"a~0.4", b"two") + file(3, b"~0.4", b"three")


def pointing(pointers, held):
    """A block of a file with pointers to those before it."""
    return struct.pack(f"<{len(pointers)}I", *pointers) + held


# What stands behind the superblock of an image of 8 blocks of 512 bytes, and in other blocks, items or bytes; the fault for which it
# doesn't mount, read as a device does, if any; whether something is lost; what is told; and the files that are made.
DAMAGED = [
    ("a pair that isn't read", ETC + file(2, b"key", b"one"), {}, "3 NoValidCommit", True,
     [f"blocks 2 and 3 (/etc): {UNREAD}"], {"key": b"one"}),
    ("what is below one", ETC, {4: log(1, file(0, b"f", b"old")), 5: log(2, file(0, b"f", b"new"))}, "3 NoValidCommit", True,
     [f"blocks 2 and 3 (/etc): {UNREAD}", "block 4: no path leads there: saved as lost+found/4",
      "block 5: no path leads there: saved as lost+found/5"], {"lost+found/4/f": b"old", "lost+found/5/f": b"new"}),
    ("what a block by itself leads to", ETC, {4: log(1, directory(0, b"net", (6, 7))), 6: log(1, file(0, b"f", b"old")),
     7: log(2, file(0, b"f", b"new"))}, "3 NoValidCommit", True,
     [f"blocks 2 and 3 (/etc): {UNREAD}", "block 4: no path leads there: saved as lost+found/4"], {"lost+found/4/net/f": b"new"}),
    ("a hard tail to one", file(1, b"a", b"one") + tail(HARD, (2, 3)), {}, "3 NoValidCommit", True,
     [f"blocks 2 and 3 (/): {UNREAD}"], {"a": b"one"}),
    ("a wrong pointer", chained(1, b"c", 6, 1_400) + file(2, b"d", b"one"), {4: contents(512), 5: pointing([4], contents(508)),
     6: pointing([5, 7], contents(504))}, "8 BadSkipList", True, ["/c: block 6 names block 7 and not 4"], {"d": b"one"}),
    ("a chain past the end", ETC, {2: chained(0, b"c", 9, 100)}, "8 BadSkipList", True,
     ["/etc/c: no chain of 100 bytes ends in block 9"], {}),
    ("a chain through a pair", chained(1, b"c", 3, 100) + directory(2, b"d", (2, 3)) + tail(SOFT, (2, 3)), {2: []}, "15 BlockTwice", True,
     ["/c: block 3 is in use already"], {}),
    ("two files of one chain", chained(1, b"a", 5, 100) + chained(2, b"b", 5, 100), {5: contents(512)}, "15 BlockTwice", False,
     ["/b: is saved as /a"], {"a": contents(100)}),
    ("a front of a chain", chained(1, b"a", 5, 900) + chained(2, b"b", 4, 512), {4: contents(512), 5: pointing([4], contents(508))},
     "15 BlockTwice", True, ["/b: block 4 is in use already"], {"a": contents(512) + contents(388)}),
    ("two names of a directory", directory(1, b"new", (2, 3)) + directory(2, b"old", (2, 3)) + tail(SOFT, (2, 3)),
     {2: file(0, b"f", b"one")}, "15 BlockTwice", False, ["/old: is saved as /new"], {"new/f": b"one"}),
    ("a name of the root", directory(1, b"d", (0, 1)) + file(2, b"f", b"one"), {}, "15 BlockTwice", False, ["/d: is saved as /"],
     {"f": b"one"}),
    ("half of another pair", directory(1, b"a", (2, 3)) + directory(2, b"b", (4, 3)) + tail(SOFT, (2, 3)),
     {2: file(0, b"x", b"one") + tail(SOFT, (4, 3)), 4: file(0, b"y", b"two")}, "15 BlockTwice", True, ["block 3: /a and /b use it"],
     {"a/x": b"one"}),
    ("one block twice", directory(1, b"a", (4, 4)) + tail(SOFT, (4, 4)), {4: file(0, b"f", b"one")}, "15 BlockTwice", False, [],
     {"a/f": b"one"}),
    ("tails in a circle", ETC, {2: file(0, b"f", b"one") + tail(HARD, (2, 3))}, "15 BlockTwice", False,
     ["/etc: goes on in blocks 2 and 3, which are saved as /etc"], {"etc/f": b"one"}),
    ("superblocks one behind another", tail(HARD, (2, 3)), {2: superblock(512, 8) + tail(HARD, (4, 5)), 4: superblock(512, 8)
     + file(1, b"f", b"one")}, "", False, [], {"f": b"one"}),
    ("an unfinished move", directory(1, b"d", (2, 3)) + file(2, b"to", b"one") + tail(SOFT, (2, 3)) + SHARE, {2: file(0, b"from", b"one")},
     "", False, [], {"to": b"one"}),
    ("an orphan", tail(SOFT, (2, 3)), {2: file(0, b"f", b"one")}, "17 Orphan", False,
     ["blocks 2 and 3: no path leads there: saved as lost+found/2"], {"lost+found/2/f": b"one"}),
    ("a directory past the end", directory(1, b"etc", (900, 901)) + file(2, b"f", b"one"), {}, "14 BlockRange", True,
     ["/etc: blocks 900 and 901, of 8"], {"f": b"one"}),
    ("names that don't rise", file(1, b"c.cfg", b"one") + file(2, b"b.cfg", b"two"), {}, "13 OrderFault", False, [],
     {"c.cfg": b"one", "b.cfg": b"two"}),
    ("names that no host takes",
     file(1, b"\0", b"two") + directory(2, b"etc", (2, 3)) + file(3, b"\xff\\", b"one") + tail(SOFT, (2, 3)), {},
     "3 NoValidCommit", True, [f"blocks 2 and 3 (/etc): {UNREAD}"], {"\\xff\\x5c": b"one", "\\x00": b"two"}),
    ("a name twice", file(1, b"a", b"one") + file(2, b"a", b"two") + file(3, b"a", b"three"), {}, "13 OrderFault", False, [],
     {"a": b"one", "a~0.2": b"two", "a~0.3": b"three"}),
    ("a name of a file and of directories", file(1, b"a", b"one") + directory(2, b"a", (2, 3)) + directory(3, b"a", (5, 4)) + tail(SOFT, (2, 3)),
     {2: file(0, b"f", b"two") + file(1, b"f", b"three") + tail(SOFT, (5, 4)), 5: file(0, b"g", b"four")}, "13 OrderFault", False, [],
     {"a": b"one", "a~0.2/f": b"two", "a~0.2/f~2.1": b"three", "a~0.3/g": b"four"}),
    ("a word that is too long", directory(1, b"etc", (2, 3)) + file(2, 64 * b"\xff", b"one") + tail(SOFT, (2, 3)), {}, "3 NoValidCommit", True,
     [f"blocks 2 and 3 (/etc): {UNREAD}"], {"~0.2": b"one"}),
    ("a name with numbers that is another's", file(1, b"a", b"one") + file(2, b"a~0.3", b"two") + file(3, b"a", b"three"), {},
     "13 OrderFault", False, [], {"a": b"one", "a~0.3": b"two", "~0.3": b"three"}),
    ("names that are all another's", TAKEN + file(4, b"a", b"four") + file(5, b"z", b"five"), {}, "13 OrderFault", True,
     ["/a: the host refuses each name for it"], {"a": b"one", "a~0.4": b"two", "~0.4": b"three", "z": b"five"}),
    ("names of a directory that are all another's", TAKEN + directory(4, b"a", (2, 3)) + tail(SOFT, (2, 3)),
     {2: file(0, b"a", b"four") + file(1, b"f", b"five")}, "13 OrderFault", True, ["/a: the host refuses each name for it"],
     {"a": b"one", "a~0.4": b"two", "~0.4": b"three", "a~2.0": b"four", "f": b"five"}),
    ("an empty directory whose names are all another's", TAKEN + directory(4, b"a", (2, 3)) + tail(SOFT, (2, 3)), {2: []}, "13 OrderFault",
     True, ["/a: the host refuses each name for it"], {"a": b"one", "a~0.4": b"two", "~0.4": b"three"}),
    ("a chain under names that are all another's", TAKEN + chained(4, b"a", 5, 100) + chained(5, b"b", 5, 100), {5: contents(512)},
     "13 OrderFault", True, ["/a: the host refuses each name for it", "/b: is the same file as /a, which isn't saved"],
     {"a": b"one", "a~0.4": b"two", "~0.4": b"three"}),
    ("a word that is another's name", file(1, b"\\xff", b"one") + directory(2, b"etc", (2, 3)) + file(3, b"\xff", b"two") + tail(SOFT, (2, 3)),
     {}, "3 NoValidCommit", True, [f"blocks 2 and 3 (/etc): {UNREAD}"], {"\\xff": b"one", "\\xff~0.3": b"two"}),
    ("a name that is taken", file(1, b"lost+found", b"one") + tail(SOFT, (2, 3)), {2: file(0, b"f", b"two")}, "17 Orphan", False,
     ["blocks 2 and 3: no path leads there: saved as lost+found~/2"], {"lost+found": b"one", "lost+found~/2/f": b"two"}),
]


def damaged_image(items, others):
    """An image of 8 blocks."""
    blocks = {number: held if isinstance(held, bytes) else log(1, held) for number, held in others.items()}
    return image(SIZE, 8, {0: log(1, superblock(SIZE, 8) + items), **blocks})


def each_kind_of_damage(folder):
    for what, items, others, fault, is_lossy, lines, files in DAMAGED:
        status, told, made = saved(folder, what, damaged_image(items, others))
        front = f"lfsed: a.img: doesn't mount ({fault}); nothing is lost\n" if fault else ""
        front = f"lfsed: {fault}\n" if is_lossy else front
        wanted = front + "".join(f"lfsed: a.img: {line}\n" for line in lines)
        folder.check(f"{what}: is told", (status, told) == (3 if is_lossy else 0, wanted), (status, told))
        found = {b"/".join(names).decode(): held for names, held in (made or {}).items()}
        folder.check(f"{what}: is made", found == files, found)


def a_dump_of_a_device(folder):
    """An image of disk version 2.1 is read as a device does, with the option and without it, also where it stands in a larger file."""
    items = stated(LATER, SIZE, 16) + directory(1, b"etc", (2, 3)) + file(2, b"key", b"one") + tail(SOFT, (2, 3))
    held = image(SIZE, 16, {0: written(1, SIZE, items), 4: written(1, SIZE, file(0, b"f", b"two"))})
    told = [f"blocks 2 and 3 (/etc): {UNREAD}", "block 4: no path leads there: saved as lost+found/4"]
    wanted = "lfsed: 3 NoValidCommit\n" + "".join(f"lfsed: a.img: {line}\n" for line in told)
    for what, data, option in (("a dump", held, " --device"), ("a dump in a file", bytes(700) + held + bytes(99), " --device --offset 700"),
                               ("a dump without the option", held, "")):
        ended = saved(folder, what, data, f"salvage -b 512{option} a.img made")
        folder.check(f"{what}: ended", ended == (3, wanted, {(b"key",): b"one", (b"lost+found", b"4", b"f"): b"two"}), ended)


def noise(folder):
    for what, data in ("noise", random.Random(5).randbytes(4_096)), ("no bytes but 0xff", 4_096 * b"\xff"), ("no image", 4_095 * b"x"):
        ended = saved(folder, what, data)
        wanted = "lfsed: 3 NoValidCommit\nlfsed: a.img: blocks 0 and 1 (/): neither holds a whole commit\n"
        if what == "no image":
            wanted = "lfsed: 1 ImageLength\nlfsed: a.img: 4095 bytes are no multiple of 512\n"
        folder.check(f"{what}: nothing is made", ended == (3, wanted, None), ended)


def many_names_of_one_file(folder):
    """Of 60,000 entries that name one chain one is made, and a hundred others are told."""
    size, many = 32_768, 1_000
    blocks, parts = {}, 60
    for part in range(parts):
        items = [] if part else superblock(size, 128)
        first = 0 if part else 1
        for n in range(many):
            items += chained(n + first, f"{part:02}{n:04}".encode(), 126, 100)
        blocks[2 * part] = log(1, items + (tail(HARD, (2 * part + 2, 2 * part + 3)) if part + 1 < parts else []))
    blocks[126] = contents(size)
    status, told, made = saved(folder, "60,000 names", image(size, 128, blocks), f"salvage -b {size} a.img made")
    lines = told.splitlines()
    first = "lfsed: a.img: doesn't mount (15 BlockTwice); nothing is lost"
    folder.check("60,000 names: status", (status, lines[0]) == (0, first), lines[:3])
    folder.check("60,000 names: others", lines[1] == "lfsed: a.img: /000001: is saved as /000000" and len(lines) == 102, lines[1:3])
    folder.check("60,000 names: how many", lines[-1] == f"lfsed: a.img: {parts * many - 1 - 100} more are saved elsewhere", lines[-1])
    folder.check("60,000 names: made", made == {(b"000000",): contents(100)}, [*made][:3])


def calls_that_fail(folder):
    """Each call by which what is saved is written is refused in turn: what was made is a beginning of the whole."""
    what, items, others, *_, files = DAMAGED[2]
    folder.be(damaged_image(items + file(2, b"key", contents(90)), others), 0)
    place = folder.image.with_name("made")
    whole = {**{tuple(name.encode().split(b"/")): held for name, held in files.items()}, (b"key",): contents(90)}
    with tempfile.TemporaryDirectory() as library:
        refusing = Refusing(pathlib.Path(library))
        all_numbered = []
        for call, error in ("open", EIO), ("write", EIO), ("statx", EIO), ("read", EIO), *(("open", error) for error in OF_NAMES):
            for at in range(1, 60):
                status, told, printed = folder.run("salvage -b 512 a.img made", env=refusing.env(at, call, error))
                found = made_in(place) or {}
                cleared(place)
                if not refusing.was_hit():
                    break
                what = f"{call} {at} ({error})"
                is_told = status == 4 and told.startswith(("lfsed: 60 CannotRead\n", "lfsed: 61 CannotWrite\n"))
                folder.check(what, (is_told or status == 3) and not printed, (status, told))
                numbered = [names for names in found if names not in whole]
                folder.check(f"{what}: one name has its numbers", len(numbered) <= (error in OF_NAMES and status == 3), numbered)
                all_numbered += numbered
                found = {without_numbers(names): held for names, held in found.items()}
                is_front = all(whole.get(names, b"-").startswith(held) for names, held in found.items())
                folder.check(f"{what}: a beginning", is_front and (status == 4 or found == whole), found)
    folder.check("names have their numbers", {without_numbers(names) for names in all_numbered} == {*whole}, all_numbered)


def names_that_are_too_long(folder):
    """A name that is too long for the host, or with its numbers, gives way to the numbers alone, and the others are saved."""
    size, long = 4_096, 255 * b"n"
    items = file(1, b"a", b"one") + file(2, long, b"two") + file(3, long, b"three") + file(4, 256 * b"o", b"four")
    items += directory(5, 1_000 * b"p", (2, 3)) + file(6, b"z", b"five") + tail(SOFT, (2, 3))
    held = image(size, 8, {0: log(1, superblock(size, 8, 1_022) + items), 2: log(1, file(0, b"f", b"six"))})
    ended = saved(folder, "long names", held, f"salvage -b {size} a.img made")
    files = {(b"a",): b"one", (long,): b"two", (b"~0.3",): b"three", (b"~0.4",): b"four", (b"~0.5", b"f"): b"six", (b"z",): b"five"}
    folder.check("long names", ended == (0, "lfsed: a.img: doesn't mount (13 OrderFault); nothing is lost\n", files), ended)


def names_of_an_image_that_mounts(folder):
    """An image that mounts is saved though a host can't have one of its names, or may not."""
    size = 4_096
    items = file(1, b"a", b"one") + directory(2, b"d", (2, 3)) + file(3, 300 * b"n", b"two") + tail(SOFT, (2, 3))
    held = image(size, 8, {0: log(1, superblock(size, 8, 1_022) + items), 2: log(1, file(0, b"\0", b"three") + file(1, b"\xff", b"four"))})
    ended = saved(folder, "names", held, f"salvage -b {size} a.img made")
    files = {(b"a",): b"one", (b"d", b"\\x00"): b"three", (b"d", b"\\xff"): b"four", (b"~0.3",): b"two"}
    folder.check("names", ended == (0, "", files), ended)
    items = file(1, b"\\xff~0.5", b"two") + file(2, b"\\xff", b"one") + file(3, b"~0.5", b"three") + file(4, b"\xff\xff", b"five")
    items += file(5, b"\xff", b"four")
    folder.be(damaged_image(items, {}), 0)
    place = folder.image.with_name("made")
    ended = folder.run("salvage -b 512 a.img made")
    refused = "lfsed: made/~0.5: File exists (os error 17)\n"
    told = f"lfsed: 63 HostName\n{refused}lfsed: a.img: /\\xff: the host refuses each name for it\n"
    folder.check("a name is lost", ended == (4, told, b""), ended)
    files = {(b"\\xff",): b"one", (b"\\xff~0.5",): b"two", (b"~0.5",): b"three", (b"\\xff\\xff",): b"five"}
    folder.check("a name is lost: the others", made_in(place) == files, made_in(place))
    cleared(place)


def what_is_there_stays(folder):
    data = damaged_image(ETC, {})
    folder.be(data, len(data))
    place = folder.image.with_name("made")
    place.mkdir()
    ended = folder.run("salvage -b 512 a.img made")
    folder.check("a folder is there", ended == (4, "lfsed: 62 HostEntry\nlfsed: made: is there already\n", b""), ended)
    folder.check("nothing is in it", not [*place.iterdir()] and folder.old() == data)
    place.rmdir()


# ---- one block is lost


def packed(folder, spread):
    """A packed image of a folder, as it is and by what its blocks hold."""
    place = folder.image.with_name("src")
    spread(place)
    folder.run(f"pack -b {SIZE} --count 128 a.img src")
    cleared(place)
    data = folder.old()
    return data, Unharmed(Reader(data, SIZE))


def some_files(place):
    """Folders in folders, some of several parts, with files of several lengths."""
    folders = ("", 3, 40), ("a", 24, 50), ("a/b", 2, 1_300), ("a/b/c", 30, 30), ("d", 2, 3_000), ("d/e", 0, 0), ("d/e/f", 4, 700)
    for path, many, length in folders:
        (place / path).mkdir(parents=True, exist_ok=True)
        for n in range(many):
            (place / path / f"{n}{path[-1:]}").write_bytes(contents(length + n)[n:])


def one_block_is_lost(folder):
    data, unharmed = packed(folder, some_files)
    whole = {tuple(path.split(b"/")[1:]): held for path, (_, held, _) in unharmed.files.items()}
    chance = random.Random(3)
    for block in range(len(data) // SIZE):
        for fill, name in (SIZE * b"\xff", "erased"), (chance.randbytes(SIZE), "noise"):
            harmed = data[:block * SIZE] + fill + data[(block + 1) * SIZE:]
            what = f"block {block}: {name}"
            status, told, made = saved(folder, what, harmed)
            owner, pair = unharmed.owner(block), unharmed.pair_of(block)
            if pair is None and owner is None:
                folder.check(f"{what}: nothing is lost", (status, told, made) == (0, "", whole), (status, told))
                continue
            found = {unharmed.origin(names): held for names, held in (made or {}).items()}
            folder.check(f"{what}: each file once", len(found) == len(made or {}))
            left = unharmed.left_behind(block)
            more = {path for path in found if path not in left}
            folder.check(f"{what}: all else is saved", {path: found.get(path) for path in left} == left,
                         [path for path in left if found.get(path) != left[path]][:5])
            folder.check(f"{what}: nothing more", more <= {owner}, more)
            lost = "3 NoValidCommit" if pair else "8 BadSkipList"
            is_told = status == 3 and told.startswith(f"lfsed: {lost}\nlfsed: a.img: ") or owner in found and (status, told) == (0, "")
            folder.check(f"{what}: is told", is_told, told)


# ---- chance


def harms(chance, data):
    """A damaged image."""
    data, many = bytearray(data), len(data) // SIZE
    for _ in range(chance.choice([1, 1, 2, 5])):
        block, other = SIZE * chance.randrange(many), SIZE * chance.randrange(many)
        kind = chance.choice(["turn", "turn", "erase", "noise", "swap", "cut", "copy"])
        if kind == "turn":
            for _ in range(chance.choice([1, 3, 20])):
                data[chance.choice([block, other]) + chance.randrange(SIZE)] ^= 1 << chance.randrange(8)
        elif kind == "swap":
            data[block:block + SIZE], data[other:other + SIZE] = data[other:other + SIZE], data[block:block + SIZE]
        elif kind == "copy":
            data[block:block + SIZE] = data[other:other + SIZE]
        else:
            start = block + (chance.randrange(SIZE) if kind == "cut" else 0)
            data[start:block + SIZE] = (chance.randbytes(SIZE) if kind == "noise" else SIZE * b"\xff")[:block + SIZE - start]
    return bytes(data)


def damaged_images(folder, many=100, seed=11):
    """Images as chance has them, damaged as chance has it."""
    chance = random.Random(seed)
    for n in range(many):
        data = Scattered(chance, SIZE, chance.choice([16, 32, 64])).image
        harmed = harms(chance, data)
        status, told, made = saved(folder, f"image {n}", harmed)
        judge = Salvaged(data, harmed, SIZE)
        wrong = [names for names, held in (made or {}).items() if not judge.allows(without_numbers(names)[-1], held)]
        folder.check(f"image {n}: nothing but what was there", not wrong, (wrong[:3], told))


SCENES = [
    each_kind_of_damage, a_dump_of_a_device, noise, many_names_of_one_file, calls_that_fail, names_that_are_too_long,
    names_of_an_image_that_mounts, what_is_there_stays,
    one_block_is_lost, damaged_images,
]

if __name__ == "__main__":
    if len(sys.argv) > 1:
        SCENES = [lambda folder: damaged_images(folder, int(sys.argv[1]), int(sys.argv[2]))]
    sys.exit(run_scenes(SCENES))
