#!/usr/bin/env python3
"""Makes new images of the trees of others by `repack`: of other sizes and numbers of blocks, and with other limits. A reader apart from
the program compares each with the image that it was made of, which comes from a writer apart from it, of disk version 2.0 or 2.1."""
import random
import struct
import sys

from support.folder import contents, run_scenes
from support.journal import journal
from support.later import LATER, DeviceReader, LaterScattered, expanded, stated, written
from support.littlefs import ROOT, Reader
from support.logs import SOFT, attribute, chained, directory, file, image, log, superblock, tail
from support.scattering import Scattered, laid
from support.texts import said

NOT_READ, NOT_WRITTEN, NO_SPACE, TOO_LARGE = "60 CannotRead", "61 CannotWrite", "43 NoSpace", "42 EntryTooLarge"
LEFT_BEHIND = b"what an earlier state left behind"
LIMITS = 100, 65_536, 200

# An image of 32 blocks of 512 bytes with limits of its own: attributes, a file in its entry, one in blocks, and a directory.
WORKED = image(512, 32, {
    0: log(1, superblock(512, 32, *LIMITS) + attribute(0, 1, b"root") + file(1, b"a", b"inline") + attribute(1, 0x74, b"\1\2")
           + chained(2, b"c", 9, 700) + directory(3, b"d", (4, 5)) + attribute(3, 7, b"") + tail(SOFT, (4, 5))),
    4: log(1, file(0, b"empty") + file(1, b"in", bytes(64))),
    **laid(512, [11, 9], contents(700)),
    20: LEFT_BEHIND,
})

# The least number of its blocks by their size: of two pairs, of the file c, and of the file in, where that doesn't stand in its entry.
LEAST = {256: 4 + 3 + 1, 512: 4 + 2, 1_024: 4 + 1, 4_096: 4 + 1, 8_192: 4}


def source(folder):
    """Where the image stands of which a new one is made."""
    return folder.image.with_name("b.img")


def limits_of(reader):
    """The limits that a superblock states."""
    return struct.unpack("<6I", reader.parts[0].entries[0].value)[3:]


def is_made(folder, what, reader, size, count, limits):
    """Compares the image that was made with the tree that is read in another, and looks whether it is written as a new one."""
    made = Reader(folder.old(), size)
    words = struct.pack("<6I", 0x0002_0000, size, count, *limits)
    folder.check(f"{what}: length", len(made.image) == size * count, len(made.image))
    folder.check(f"{what}: superblock", made.parts[0].entries[0].value == words, made.parts[0].entries[0].value)
    folder.check(f"{what}: tree", made.tree() == reader.tree(), (made.tree(), reader.tree()) if len(made.parts) < 5 else "")
    empty = {*range(count)} - {*made.used()} | {second for _, second in made.thread()}
    folder.check(f"{what}: what isn't used is erased", all(made.block(number) == size * b"\xff" for number in empty))
    revisions = {made.read(made.block(first)).revision() for first, _ in made.thread()}
    folder.check(f"{what}: revisions", revisions == {1}, revisions)
    folder.check(f"{what}: journal", folder.saved() == journal(size, count, [], []), folder.saved())
    ended = folder.run(f"check -b {size} a.img")
    folder.check(f"{what}: check", ended == (0, "", said(made)), ended)
    return made


def is_repacked(folder, words, reader, size, count=None, limits=None, what=""):
    """Makes a new image of the source by these words, and compares it with what is read there. Where no number of blocks is said, it is
    to be the least one."""
    what = f"{what} repack {words}".strip()
    source(folder).write_bytes(reader.image)
    ended = folder.run(f"repack {words} a.img b.img")
    folder.check(what, ended == (0, "", b""), ended)
    folder.check(f"{what}: its source stays", source(folder).read_bytes() == reader.image)
    if ended[0] == 0:
        made = is_made(folder, what, reader, size, count or len(folder.old()) // size, limits or limits_of(reader))
        folder.check(f"{what}: none is free", count is not None or made.free() == 0, made.free())


def is_refused(folder, words, status, first, second, names="a.img b.img", what=""):
    """Makes no new image: two lines are told, of which the second may be known by its beginning alone, and no file changes."""
    place = folder.image.parent
    before = {path: path.read_bytes() for path in place.iterdir() if path.is_file()}
    ended = folder.run(" ".join(["repack", *words.split(), names]))
    lines = ended[1].splitlines()
    is_told = len(lines) == 2 and lines[0].startswith(f"lfsed: {first}") and lines[1].startswith(f"lfsed: {second}")
    what = f"{what} repack {words}".strip()
    folder.check(f"{what}: refused", (ended[0], ended[2]) == (status, b"") and is_told, ended)
    after = {path: path.read_bytes() for path in place.iterdir() if path.is_file()}
    folder.check(f"{what}: files", after == before)


def has_no_room(folder, words, least, size, what=""):
    """There are fewer blocks than the source needs, which are told of the source."""
    is_refused(folder, words, 1, f"{NO_SPACE} need ", f"b.img: needs {least} blocks of {size} bytes in all", what=what)


def other_sizes_of_blocks(folder):
    reader = Reader(WORKED, 512)
    for size, count in (512, 32), (256, 64), (1_024, 16), (2_048, 8):
        is_repacked(folder, f"-b {size}", reader, size, count)
    for words, size, count in (
        ("-b 256 --count 9", 256, 9), ("-b 1024 --count 33", 1_024, 33), ("--count 5", 4_096, 5), ("--size 32k", 4_096, 8),
        ("--block 1024 --size 0x4000", 1_024, 16), ("-b 512 --count 65536", 512, 65_536),
    ):
        is_repacked(folder, words, reader, size, count)
    for words in "", "-b 4096", "-b 4096 --size 16384":
        has_no_room(folder, words, LEAST[4_096], 4_096)


def the_least_number_of_blocks(folder):
    reader = Reader(WORKED, 512)
    source(folder).write_bytes(WORKED)
    for size, least in LEAST.items():
        has_no_room(folder, f"-b {size} --count {least - 1}", least, size)
        is_repacked(folder, f"-b {size} --least", reader, size)
        folder.check(f"blocks of {size}: the least number", len(folder.old()) == least * size, len(folder.old()) // size)
        is_repacked(folder, f"-b {size} --count {least}", reader, size, least)
        has_no_room(folder, f"-b {size} --count {least - 1}", least, size, "behind another:")


def long_names_and_attributes(folder):
    name, value = 255 * b"n", contents(1_022)
    held = image(8_192, 8, {
        0: log(1, superblock(8_192, 8) + attribute(0, 1, value) + directory(1, 255 * b"d", (2, 3)) + attribute(1, 2, value)
               + file(2, name, b"held") + attribute(2, 3, value) + attribute(2, 0xFF, value[::-1]) + tail(SOFT, (2, 3))),
        2: log(1, file(0, name, contents(1_022)) + attribute(0, 0, value) + chained(1, 254 * b"o", 5, 9_000)),
        **laid(8_192, [7, 5], contents(9_000)),
    })
    reader = Reader(held, 8_192)
    for size, count in (4_096, 16), (8_192, 8):
        is_repacked(folder, f"-b {size}", reader, size, count, what="long names:")
    for words, size, count in ("-b 16384 --count 8", 16_384, 8), ("-b 4096 --least", 4_096, None), ("-b 65536 --least", 65_536, None):
        is_repacked(folder, words, reader, size, count, what="long names:")
    # An entry of the file n takes 4 bytes and its name, 4 and its contents, and 1,026 for each attribute.
    is_refused(folder, "-b 2048 --count 64", 1, TOO_LARGE, f"a.img: /{name.decode()}: takes more than a block has room for")


def hundreds(size, count):
    """An image of 300 directories, each below one of the first, and at the path of some a file or an attribute."""
    blocks = {}
    for number in range(301):
        first = [] if number else superblock(size, count)
        items, at = [], 0 if number else 1
        for below in range(7 * number + 1, min(7 * number + 8, 301)):
            items += directory(at, b"%03d" % below, (2 * below, 2 * below + 1))
            items += attribute(at, 0x74, b"%d" % below) if below % 3 == 0 else []
            at += 1
        items += file(at, b"f", b"of %d" % number) if number % 5 == 0 else []
        next_pair = 2 * number + 2, 2 * number + 3
        blocks[2 * number] = log(1, first + items + (tail(SOFT, next_pair) if number < 300 else []))
    return image(size, count, blocks)


def three_hundred_directories(folder):
    reader = Reader(hundreds(512, 1_300), 512)
    for size, count in (512, 1_300), (256, 2_600), (1_024, 650):
        is_repacked(folder, f"-b {size}", reader, size, count, what="300 directories:")
    is_repacked(folder, "-b 512 --least", reader, 512, what="300 directories:")
    folder.check("300 directories: the least number", len(folder.old()) == 602 * 512, len(folder.old()) // 512)
    has_no_room(folder, "-b 512 --count 601", 602, 512, "300 directories:")


# Limits that are asked for, and those that the new image states.
ASKED = [
    ("", LIMITS),
    ("--name-max 255", (255, *LIMITS[1:])),
    ("--attr-max 1022 --file-max 2147483647", (LIMITS[0], 2_147_483_647, 1_022)),
    ("--name-max 5 --file-max 700 --attr-max 4", (5, 700, 4)),
]

# Limits that are less than the tree asks, and what is told of it.
TOO_SMALL = [
    ("--name-max 4", "36 NameTooLong", "/d/empty: its name is longer than 4 bytes"),
    ("--file-max 699", "37 FileTooLarge", "/c: its contents are longer than 699 bytes"),
    ("--file-max 63 --name-max 1022", "37 FileTooLarge", "/c: its contents are longer than 63 bytes"),
    ("--attr-max 3", "38 AttrTooLarge", "/: its attribute is longer than 3 bytes"),
]


def other_limits(folder):
    reader = Reader(WORKED, 512)
    for words, limits in ASKED:
        is_repacked(folder, f"-b 512 {words}".rstrip(), reader, 512, 32, limits)
    for words, first, second in TOO_SMALL:
        for least in "", " --least":
            is_refused(folder, f"-b 512 {words}{least}", 1, first, f"a.img: {second}")
    source(folder).write_bytes(image(512, 8, {0: log(1, superblock(512, 8) + file(1, b"f") + attribute(1, 7, b"abc"))}))
    is_refused(folder, "-b 512 --attr-max 2", 1, "38 AttrTooLarge", "a.img: /f: its attribute is longer than 2 bytes")


def an_image_in_its_own_place(folder):
    for size, count in (512, 32), (1_024, 16), (256, 64):
        folder.be(WORKED, 0)
        for line, length in ("put -b 512 a.img /z", 300), ("setattr -b 512 a.img /z 74 0102", 0), ("rm -b 512 a.img /c", 0):
            ended = folder.run(line, length)
            folder.check(line, ended == (0, "", b""), ended)
        reader, what = Reader(folder.old(), 512), f"in its own place, in blocks of {size}"
        before = folder.old(), folder.saved()
        ended = folder.run(f"repack -b {size} --count 3 a.img a.img")
        is_told = ended[0] == 1 and ended[1].startswith(f"lfsed: {NO_SPACE} need ") and "\nlfsed: a.img: needs " in ended[1]
        folder.check(f"{what}: refused", is_told and (folder.old(), folder.saved()) == before, ended)
        ended = folder.run(f"repack -b {size} a.img a.img")
        folder.check(what, ended == (0, "", b""), ended)
        is_made(folder, what, reader, size, count, LIMITS)
        folder.check(f"{what}: what was left behind", LEFT_BEHIND in before[0] and LEFT_BEHIND not in folder.old())
        folder.check(f"{what}: what was removed", contents(700)[:500] in before[0] and contents(700)[:500] not in folder.old())
        ended = folder.run(f"undo -b {size} a.img")
        folder.check(f"{what}: nothing is undone", ended[:2] == (1, "lfsed: 53 NothingToUndo\n"), ended)
        packed = folder.old()
        ended = folder.run(f"repack -b {size} a.img a.img")
        folder.check(f"{what}: once more", ended == (0, "", b"") and folder.old() == packed, ended)


def images_that_are_new(folder):
    reader = Reader(WORKED, 512)
    is_repacked(folder, "-b 512 --new", reader, 512, 32)
    there = "a.img: something is there already"
    is_refused(folder, "-b 512 --new", 4, NOT_WRITTEN, there)
    is_refused(folder, "-b 512 --new", 4, NOT_WRITTEN, there, "a.img a.img")
    is_repacked(folder, "-b 1024", reader, 1_024, 16, what="in place of another:")
    folder.image.chmod(0o444)
    is_refused(folder, "-b 512", 4, NOT_WRITTEN, "a.img: ", what="a file that nobody writes:")


def sources_that_are_no_image(folder):
    folder.be(WORKED, 0)
    folder.journal.write_bytes(journal(512, 32, [], []))
    other = image(512, 8, {0: log(1, superblock(512, 8) + tail(SOFT, (2, 8)))})
    sources = [
        (4_097 * b"x", "1 ImageLength", "b.img: 4097 bytes are no multiple of 4096"),
        (WORKED[:-1], "1 ImageLength", "b.img: its first block states 32 blocks of 512 bytes"),
        (WORKED[:512], "1 ImageLength", "b.img: its first block states 32 blocks of 512 bytes"),
        (bytes(8_192), "3 NoValidCommit", "b.img: blocks 0 and 1 (/): neither holds a whole commit"),
        (image(512, 8, {0: log(1, superblock(512, 8) + file(1, b"f")[:1])}), "6 IncompleteEntry",
         "b.img: blocks 0 and 1 (/): an entry that isn't whole"),
        (other, "14 BlockRange", "b.img: blocks 0 and 1 (/): go on in blocks 2 and 8, of 8"),
        (WORKED[:-512], "11 Geometry", "b.img: its superblock states 32 blocks of 512 bytes"),
        (image(512, 8, {0: log(1, stated(0x0002_0002, 512, 8))}), "10 Version", "b.img: its superblock states disk version 2.2"),
    ]
    for held, first, second in sources:
        source(folder).write_bytes(held)
        for words in "-b 512", "-b 256 --least", "--count 9":
            place = {path: path.read_bytes() for path in folder.image.parent.iterdir()}
            ended = folder.run(f"repack {words} a.img b.img")
            lines = ended[1].splitlines()
            is_told = ended[0] == 3 and lines[:2] == [f"lfsed: {first}", f"lfsed: {second}"] and all(
                line.startswith("lfsed: b.img: ") for line in lines[1:])
            folder.check(f"repack {words}: {first}", is_told, ended)
            folder.check(f"repack {words}: {first}: files", {path: path.read_bytes() for path in folder.image.parent.iterdir()} == place)
    source(folder).unlink()
    is_refused(folder, "-b 512", 4, NOT_READ, "b.img: No such file or directory (os error 2)")
    source(folder).mkdir()
    is_refused(folder, "-b 512", 4, NOT_READ, "b.img: ", what="a folder:")


def the_size_of_its_blocks(folder):
    reader = Reader(WORKED, 512)
    for words in "-b 512 --from-block 512", "--from-block 512 -b 512", "-b 512 --from-block=0512":
        is_repacked(folder, words, reader, 512, 32)
    is_repacked(folder, "-b 1024 --from-block 512 --least", reader, 1_024)
    for size in 256, 1_024, 4_096:
        states = "b.img: its superblock states 32 blocks of 512 bytes"
        is_refused(folder, f"-b 512 --from-block {size}", 3, "11 Geometry", states)
    ended = folder.run("repack -b 512 --from-block 520 a.img b.img")
    folder.check("no multiple of 16", ended[0] == 3 and ended[1].startswith("lfsed: 2 BadGeometry\n"), ended)
    # Of a superblock that was expanded nothing may be left in the first two blocks.
    parts = expanded([ROOT, (2, 3)], [[], stated(LATER, 512, 16) + file(1, b"f", b"held")])
    device = DeviceReader(image(512, 16, {number: written(1, 512, items) for number, items in parts.items()}), 512)
    is_repacked(folder, "-b 256 --from-block 512 --device", device, 256, 32, what="a tail alone:")


def words_that_are_refused(folder):
    folder.be(WORKED, 0)
    source(folder).write_bytes(WORKED)
    before = {path: path.read_bytes() for path in folder.image.parent.iterdir()}
    for words in (
        "a.img", "-b 512 a.img b.img c.img", "--count 8 --least a.img b.img", "--count 8 --size 4096 a.img b.img",
        "--size 4096 --least a.img b.img", "--keep 1 a.img b.img", "--older=1 a.img b.img", "-b auto a.img b.img",
        "--from-block x a.img b.img", "--name-max 0 a.img b.img", "--count 1 a.img b.img",
    ):
        folder.begins(f"repack {words}", "error: ")
    is_refused(folder, "-b 260 --count 8", 3, "2 BadGeometry", "--block 260: a block is a multiple of 16 bytes")
    is_refused(folder, "-b 65536 --count 1025", 3, "2 BadGeometry", "a.img: an image has at most 67108864 bytes, this one 1025 blocks of 65536")
    folder.check("nothing is made", {path: path.read_bytes() for path in folder.image.parent.iterdir()} == before)


def a_new_image_is_the_one_that_pack_makes(folder):
    """Of a tree without attributes it is byte for byte what a folder is packed into."""
    place = folder.image.with_name("src")
    (place / "d/e").mkdir(parents=True)
    for name, length in ("a", 0), ("b", 70), ("ab", 600), ("d/f", 5_000), ("d/e/g", 30), ("d/e/" + 60 * "h", 129):
        (place / name).write_bytes(contents(length))
    geometries = [(256, 200), (512, 64), (1_024, 40), (4_096, 12)]
    for size, count in geometries:
        ended = folder.run(f"pack -b {size} --count {count} {size}.img src")
        folder.check(f"pack {size}", ended == (0, "", b""), ended)
    for line in "put -b 512 512.img /more", "mkdir -b 512 512.img /d/made", "rm -b 512 512.img /more", "rm -b 512 512.img /d/made":
        ended = folder.run(line, 900)
        folder.check(line, ended == (0, "", b""), ended)
    for old, _ in geometries:
        for size, count in geometries:
            ended = folder.run(f"repack -b {size} --count {count} a.img {old}.img")
            wanted = folder.image.with_name(f"{size}.img").read_bytes() if size != 512 else None
            folder.check(f"{old} to {size}", ended == (0, "", b"") and wanted in (None, folder.old()), ended)
        ended = folder.run(f"repack -b 512 --count 64 a.img {old}.img")
        again = folder.run("pack -b 512 --count 64 p.img src")
        is_same = folder.old() == folder.image.with_name("p.img").read_bytes()
        folder.check(f"{old} to 512 again", ended == again == (0, "", b"") and is_same, ended)


def random_trees(folder):
    """200 trees in each version, into blocks of other sizes, with more blocks or the least number of them, and with other limits."""
    chance = random.Random(56)
    for number in range(200):
        for write, read, device in (Scattered, Reader, " --from-block {}"), (LaterScattered, DeviceReader, " --device --from-block {}"):
            old_size, old_count = chance.choice([(256, 40), (256, 90), (512, 24), (1_024, 16)])
            reader = read(write(chance, old_size, old_count).image, old_size)
            size, limits = chance.choice([256, 512, 1_024, 4_096]), limits_of(reader)
            count = chance.choice([None, 2 * old_count * max(1, old_size // size)])
            words = f"-b {size}" + (f" --count {count}" if count else " --least")
            if chance.random() < 0.3:
                limits = chance.choice([255, 30]), chance.choice([2_147_483_647, 9_999]), chance.choice([1_022, 50])
                words += " --name-max {} --file-max {} --attr-max {}".format(*limits)
            is_repacked(folder, words + device.format(old_size), reader, size, count, limits, what=f"tree {number}:")


if __name__ == "__main__":
    sys.exit(run_scenes([
        other_sizes_of_blocks, the_least_number_of_blocks, long_names_and_attributes, three_hundred_directories, other_limits,
        an_image_in_its_own_place, images_that_are_new, sources_that_are_no_image, the_size_of_its_blocks, words_that_are_refused,
        a_new_image_is_the_one_that_pack_makes, random_trees,
    ]))
