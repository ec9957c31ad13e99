#!/usr/bin/env python3
"""Carries out commands on images, and compares byte for byte what is written: a commit that is appended to the live block of each
pair that changes, where all behind its log is erased and the commit fits, and else the other block, which is rewritten. The bytes
come from a writer of logs that is apart from the program. Each command is taken back and made again."""
import sys
import zlib

from support.blocks import Changes
from support.folder import contents, run_scenes
from support.littlefs import NULL, ROOT, Log
from support.logs import (
    HARD, SOFT, Draft, appended, attribute, chained, created, deleted, directory, file, filled, log, moved, superblock, tail,
)

NOWHERE = NULL, NULL
SIZES = 256, 512, 4_096


def summed(covered, shown=0):
    """Bytes of a commit from a place on, and the checksum of all of them."""
    return covered[shown:] + (zlib.crc32(covered) ^ 0xFFFF_FFFF).to_bytes(4, "little")


def values_of_the_root_byte_for_byte(folder):
    blocks = Changes(folder, 512)
    blocks.new(8)
    new = blocks.block(0)
    blocks.leaves("setattr / 74 0102", {0: new[:64] + summed(bytes.fromhex("674ffc120102674ffc04"))})
    odd = summed(new[:44] + bytes.fromhex("700ffc08")) + 12 * b"\xff"
    blocks.be(8, {0: odd})
    blocks.leaves("setattr / 74 0102", {0: odd + summed(bytes.fromhex("e75ffc120102674ffc04"))})
    folder.play([("ls -b 512 a.img", 0, 0, "", "d          - /\n@ 74 0102\n")])
    blocks.be(8, {0: new[:100] + b"\0"})
    anew = b"\2\0\0\0" + new[4:44] + bytes.fromhex("1750001a0102674ffc08")
    blocks.leaves("setattr / 74 0102", {1: summed(anew)})


def full_blocks_are_left(folder):
    blocks = Changes(folder, 256)
    blocks.new(4)
    fresh = folder.old()
    value = attribute(0, 0x74, b"\1\2")
    for _ in range(12):
        blocks.appends("setattr / 74 0102", {0: value})
    ends = Log(blocks.block(0)).end, blocks.block(1)
    folder.check("block 0 is full, and block 1 erased", ends == (256, 256 * b"\xff"), ends)
    blocks.leaves("setattr / 74 0102", {1: log(2, superblock(256, 4) + value, 16)})
    blocks.appends("setattr / 74 0102", {1: value})
    for _ in range(14):
        blocks.do("undo")
    folder.check("all is taken back", folder.old() == fresh)


# How many bytes are left behind a log, where a value of two bytes takes 14 with its checksum, and whether they are enough. A block
# is a multiple of 16, so a commit that fits without its padding fits with it.
LEFT = (0, False), (4, False), (13, False), (14, True), (15, True), (29, True), (30, True)


def commits_fit_to_the_last_byte(folder):
    for size in SIZES:
        blocks = Changes(folder, size)
        items, value = superblock(size, 4), attribute(0, 0x74, b"\1\2")
        for left, is_enough in LEFT:
            blocks.be(4, {0: filled(Draft(1).add(items), size - left)})
            if is_enough:
                blocks.appends("setattr / 74 0102", {0: value})
            else:
                blocks.leaves("setattr / 74 0102", {1: log(2, items + value, 16)})


# A command, the length of what is put, what it appends to the root, and which other blocks it leaves.
FILES = (
    ("put /f", 0, created(1) + file(1, b"f"), {}),
    ("put /f", 0, [(0x201, 1, b"")], {}),
    ("setattr /f 74 01", 0, attribute(1, 0x74, b"\1"), {}),
    ("setattr /f 74 01", 0, attribute(1, 0x74, b"\1"), {}),
    ("setattr / 74 ", 0, attribute(0, 0x74, b""), {}),
    ("setattr / 74 ", 0, attribute(0, 0x74, b""), {}),
    ("put /f", 7, [(0x201, 1, contents(7))], {}),
    ("put /f", 7, [(0x201, 1, contents(7))], {}),
    ("put /f", 200, chained(1, b"", 2, 200)[1:], {2: contents(200)}),
    ("put /f", 200, chained(1, b"", 3, 200)[1:], {3: contents(200)}),
    ("put /f", 5, [(0x201, 1, contents(5))], {}),
)


def what_is_put_or_set_again_is_written(folder):
    for size in 512, 1_024:
        blocks = Changes(folder, size)
        blocks.new(8)
        for line, length, items, others in FILES:
            blocks.appends(line, {0: items}, others, length)
        blocks.holds({b"/f": (contents(5), {0x74: b"\1"})})


# A command, and what it appends to the root, where a superblock, a file f, and a file g behind it stand.
VALUES = (
    ("setattr /f 74 01", attribute(1, 0x74, b"\1")),
    ("setattr /f 7a 02", attribute(1, 0x7A, b"\2")),
    ("setattr /f 70 0304", attribute(1, 0x70, b"\3\4")),
    ("setattr /f 74 05", attribute(1, 0x74, b"\5")),
    ("rmattr /f 74", attribute(1, 0x74, None)),
    ("setattr / 10 06", attribute(0, 0x10, b"\6")),
    ("setattr /g 74 07", attribute(2, 0x74, b"\7")),
    ("rmattr / 10", attribute(0, 0x10, None)),
    ("rmattr /f 70", attribute(1, 0x70, None)),
    ("mv /f /h", deleted(1) + created(2) + file(2, b"h", contents(3)) + attribute(2, 0x7A, b"\2")),
)


def values_are_set_and_taken_out(folder):
    for size in 512, 4_096:
        blocks = Changes(folder, size)
        blocks.new(8)
        blocks.do("put /f", 3)
        blocks.do("put /g")
        for line, items in VALUES:
            blocks.appends(line, {0: items})
        blocks.holds({b"/g": (b"", {0x74: b"\7"}), b"/h": (contents(3), {0x7A: b"\2"})})


# A command on directories, what it appends to the root, and which other blocks it leaves.
DIRECTORIES = (
    ("mkdir /a", created(1) + directory(1, b"a", (2, 3)) + tail(SOFT, (2, 3)), {2: log(1, [], 16), 3: b""}),
    ("mkdir /b", created(2) + directory(2, b"b", (4, 5)) + tail(SOFT, (4, 5)), {4: log(1, tail(SOFT, (2, 3)), 16), 5: b""}),
    ("mv /a /z", deleted(1) + created(2) + directory(2, b"z", (2, 3)), {}),
    ("rm /b", deleted(1) + tail(SOFT, (2, 3)), {}),
    ("rm /z", deleted(1) + tail(SOFT, NOWHERE), {}),
)


def directories_come_move_and_go(folder):
    for size in SIZES:
        blocks = Changes(folder, size)
        blocks.new(8)
        for line, items, others in DIRECTORIES[:-1]:
            blocks.appends(line, {0: items}, others)
        if size == 256:
            blocks.leaves("rm /z", {1: log(2, superblock(256, 8), 16)})
        else:
            blocks.appends("rm /z", {0: DIRECTORIES[-1][1]})
        blocks.stand("what is left", [ROOT], [ROOT], 6)


def two_directories(folder, size):
    """Directories a and b, of which b comes first in the thread, and a file f in a, with attributes."""
    blocks = Changes(folder, size)
    blocks.new(8)
    for line, length in ("mkdir /a", 0), ("mkdir /b", 0), ("put /a/f", 5), ("setattr /a/f 74 01", 0), ("setattr /a/f 70 0203", 0):
        blocks.do(line, length)
    return blocks


# The attributes of that file.
VALUES_OF_F = {0x70: b"\2\3", 0x74: b"\1"}


def moved_file(number, name):
    """The items of the file f under another name."""
    values = [item for kind, value in VALUES_OF_F.items() for item in attribute(number, kind, value)]
    return created(number) + file(number, name, contents(5)) + values


def entries_move_between_directories(folder):
    for size in SIZES:
        blocks = two_directories(folder, size)
        blocks.appends("mv /a/f /b/g", {2: deleted(0), 4: moved_file(0, b"g")})
        blocks.appends("mv /b/g /b/h", {4: deleted(0) + moved_file(0, b"h")})
        blocks.holds({b"/a": (None, {}), b"/b": (None, {}), b"/b/h": (contents(5), VALUES_OF_F)})
    for size in 512, 4_096:
        blocks = two_directories(folder, size)
        blocks.appends("mv /a/f /ab", {2: deleted(0), 0: moved_file(1, b"ab")})
        blocks.appends("mv /b /a/c", {0: deleted(3), 2: created(0) + directory(0, b"c", (4, 5))})
        blocks.holds({b"/a": (None, {}), b"/a/c": (None, {}), b"/ab": (contents(5), VALUES_OF_F)})


def a_directory_that_goes_hands_on_its_tail(folder):
    """The directory before it in the thread is another than the one that has its entry."""
    for size in SIZES:
        blocks = Changes(folder, size)
        blocks.new(10)
        for line in "mkdir /a", "mkdir /a/d", "mkdir /b":
            blocks.do(line)
        blocks.stand("three", [ROOT, (6, 7), (2, 3), (4, 5)], [ROOT, (2, 3), (4, 5), (6, 7)], 2)
        blocks.appends("rm /a/d", {2: deleted(0) + tail(SOFT, NOWHERE)})
        blocks.appends("rm /a", {0: deleted(1), 6: tail(SOFT, NOWHERE)})


# A root of three parts in blocks of 512 bytes, with the files b and d, f, and h.
THREE_PARTS = {
    0: log(1, superblock(512, 8) + file(1, b"b") + file(2, b"d") + tail(HARD, (2, 3))),
    2: log(1, file(0, b"f") + tail(HARD, (4, 5))),
    4: log(1, file(0, b"h")),
}


def a_directory_that_is_made_gets_its_tail_from_the_last_part(folder):
    blocks = Changes(folder, 512)
    blocks.be(8, THREE_PARTS)
    empty = {6: log(1, [], 16), 7: b""}
    blocks.appends("mkdir /a", {0: created(1) + directory(1, b"a", (6, 7)), 4: tail(SOFT, (6, 7))}, empty)
    blocks.appends("mv /a /e", {0: deleted(1), 2: created(0) + directory(0, b"e", (6, 7))})
    blocks.appends("rm /e", {2: deleted(0), 4: tail(SOFT, NOWHERE)})


def parts_that_are_cut_are_rewritten(folder):
    """A tail would be all that is left to append, and there is room for it."""
    for size, length in (256, 172), (512, 255):
        blocks = Changes(folder, size)
        root, long, short = superblock(size, 8), length * b"a", b"b"
        blocks.new(8)
        if size == 512:
            blocks.do(f"put /{255 * 'A'}")
            root += file(1, 255 * b"A")
        new = {2: log(1, file(0, long), 16), 3: b""}
        blocks.leaves(f"put /{long.decode()}", {1: log(2, root + tail(HARD, (2, 3)), 16), **new})
        blocks.appends(f"put /{short.decode()}", {2: created(1) + file(1, short)})


def a_directory_goes_on_in_a_new_pair(folder):
    blocks = Changes(folder, 256)
    first, second = 150 * b"a", 60 * b"b"
    blocks.new(8)
    blocks.do("mkdir /d")
    blocks.appends(f"put /d/{first.decode()}", {2: created(0) + file(0, first)})
    new = {4: log(1, file(0, second), 16), 5: b""}
    blocks.leaves(f"put /d/{second.decode()}", {3: log(2, file(0, first) + tail(HARD, (4, 5)), 16), **new})
    blocks.appends(f"rm /d/{first.decode()}", {3: deleted(0)})
    blocks.appends("put /d/c", {4: created(1) + file(1, b"c")})


def a_root_goes_on_in_two_new_pairs_and_gets_a_directory(folder):
    """The new directory has the first new blocks, and its tail comes from the root's last part, which is new."""
    blocks = Changes(folder, 256)
    first, second, third = 80 * b"a", 130 * b"b", 80 * b"c"
    root = superblock(256, 8) + file(1, first)
    blocks.new(8)
    blocks.appends(f"put /{first.decode()}", {0: created(1) + file(1, first)})
    blocks.leaves(f"put /{third.decode()}", {1: log(2, root + file(2, third), 16)})
    new = {
        2: log(1, [], 16), 3: b"",
        4: log(1, directory(0, second, (2, 3)) + tail(HARD, (6, 7)), 16), 5: b"",
        6: log(1, file(0, third) + tail(SOFT, (2, 3)), 16), 7: b"",
    }
    blocks.leaves(f"mkdir /{second.decode()}", {0: log(3, root + tail(HARD, (4, 5)), 16), **new})


# A directory d with a file f in blocks of 256 bytes, and a root that has no room for a further entry.
HEAVY_ROOT = superblock(256, 8) + directory(1, b"d", (2, 3)) + file(2, 150 * b"m") + tail(SOFT, (2, 3))


def one_part_is_cut_beside_another_that_is_not(folder):
    blocks = Changes(folder, 256)
    blocks.be(8, {0: log(1, HEAVY_ROOT), 2: log(1, file(0, b"f"))})
    root = superblock(256, 8) + directory(1, b"d", (2, 3)) + file(2, b"f") + tail(HARD, (4, 5))
    new = {4: log(1, file(0, 150 * b"m") + tail(SOFT, (2, 3)), 16), 5: b""}
    blocks.leaves("mv /d/f /f", {1: log(2, root, 16), 2: appended(blocks.block(2), deleted(0)), **new})


def numbered(numbers, first=1):
    """The items of files that are named by numbers."""
    return [item for at, number in enumerate(numbers) for item in file(at + first, b"%04d" % number)]


def many_entries(folder, count):
    """A superblock and so many files in blocks of 65,536 bytes, each put before the one that was put last."""
    blocks = Changes(folder, 65_536)
    made = [item for number in reversed(range(count)) for item in created(1) + file(1, b"%04d" % number)]
    blocks.be(6, {0: log(1, superblock(65_536, 6) + made)})
    return blocks


def parts_of_many_entries(folder):
    """Parts whose entries tags can't all name are rewritten, and so is every other that is cut."""
    root = superblock(65_536, 6)
    blocks = many_entries(folder, 1_000)
    blocks.appends("rm /0000", {0: deleted(1)})
    blocks.appends("put /0999", {0: [(0x201, 999, b"")]})
    for count in 1_022, 1_023, 1_100:
        blocks = many_entries(folder, count)
        left = root + numbered(range(1, 1_000)) + tail(HARD, (2, 3))
        new = {2: log(1, numbered(range(1_000, count), 0), 16), 3: b""}
        blocks.leaves("rm /0000", {1: log(2, left, 16), **new})


def whole_log(revision, items):
    """A log of a few commits: items, nothing at all, and an attribute of the first entry that is set and taken out."""
    draft = Draft(revision).add(items).close(0x5FF).close(0x501, 3)
    return draft.add(attribute(0, 0x75, b"gone")).close(padding=7).add(attribute(0, 0x75, None)).close().bytes


def torn(block):
    """A log whose checksum is wrong."""
    return block[:-1] + bytes([block[-1] ^ 1])


# The blocks of a directory's pair in the order in which the thread names it, of which the first one or the second is live, and
# the revision behind that of the live one.
F, OLD = file(0, b"f", b"hi"), file(0, b"old")
OLDER_READ = "a commit with a wrong checksum stands after the last one; an older state is read"
PAIRS = {
    "a second block that is erased": ((whole_log(5, F), b""), 0, 6),
    "a second block that is older": ((whole_log(5, F), log(4, OLD)), 0, 6),
    "a second block that is newer, and torn": ((whole_log(5, F), torn(log(6, OLD))), 0, 6),
    "a second block of the same revision": ((whole_log(5, F), log(5, OLD)), 0, 6),
    "a second block that is live": ((log(4, OLD), whole_log(5, F)), 1, 6),
    "a first block that is newer, and torn": ((torn(log(6, OLD)), whole_log(5, F)), 1, 6),
    "a first block that is erased": ((b"", whole_log(5, F)), 1, 6),
    "a greatest revision": ((whole_log(0xFFFF_FFFF, F), log(0xFFFF_FFFE, OLD)), 0, 0),
    "a revision of 0 behind the greatest one": ((log(0xFFFF_FFFF, OLD), whole_log(0, F)), 1, 1),
}


def pair_of(size, pair, held, rest=b""):
    """The blocks of an image with a directory d at a pair that has these blocks, where something may stand behind the live one."""
    root = superblock(size, 8) + directory(1, b"d", pair) + tail(SOFT, pair)
    (first, second), live, _ = held
    parts = {pair[0]: first, pair[1]: second}
    parts[pair[live]] += rest
    return {0: whole_log(3, root), **parts}


def other_writers_pairs(folder):
    for size in SIZES:
        for pair in (2, 3), (5, 2):
            for name, held in PAIRS.items():
                blocks = Changes(folder, size)
                live, other, following = pair[held[1]], pair[1 - held[1]], held[2]
                if "torn" in name:
                    blocks.reported = f"lfsed: a.img: /d: blocks {pair[0]} and {pair[1]}: {OLDER_READ}\n"
                blocks.be(8, pair_of(size, pair, held))
                blocks.appends("setattr /d/f 74 01", {live: attribute(0, 0x74, b"\1")})
                blocks.appends("put /d/g", {live: created(1) + file(1, b"g", contents(3))}, length=3)
                blocks.appends("rm /d/f", {live: deleted(0)})
                blocks.holds({b"/d": (None, {}), b"/d/g": (contents(3), {})})
                blocks.reported = ""
                blocks.be(8, pair_of(size, pair, held, b"\xff\xff\xfe"))
                blocks.leaves("setattr /d/f 74 01", {other: log(following, F + attribute(0, 0x74, b"\1"), 16)})
                blocks.appends("rmattr /d/f 74", {other: attribute(0, 0x74, None)})
                blocks.holds({b"/d": (None, {}), b"/d/f": (b"hi", {})})


def a_root_whose_second_block_is_live(folder):
    for size in SIZES:
        blocks = Changes(folder, size)
        items = superblock(size, 8) + file(1, b"f")
        blocks.be(8, {0: log(1, items), 1: whole_log(2, items)})
        blocks.appends("setattr / 74 01", {1: attribute(0, 0x74, b"\1")})
        blocks.appends("put /f", {1: [(0x201, 1, contents(3))]}, length=3)
        blocks.holds({b"/f": (contents(3), {})})


# Directories a and b, each with the same share in the global state.
SHARE = bytes.fromhex("0000f04f0200000003000000")


def shares_in_the_global_state(folder):
    for size in SIZES:
        blocks = Changes(folder, size)
        root = superblock(size, 8) + directory(1, b"a", (2, 3)) + directory(2, b"b", (4, 5)) + tail(SOFT, (2, 3))
        blocks.be(8, {0: log(1, root), 2: whole_share(tail(SOFT, (4, 5))), 4: whole_share([])})
        blocks.appends("put /a/x", {2: created(0) + file(0, b"x")})
        blocks.appends("mv /a/x /b/y", {2: deleted(0), 4: created(0) + file(0, b"y")})
        blocks.holds({b"/a": (None, {}), b"/b": (None, {}), b"/b/y": (b"", {})})
        blocks.appends("rm /a", {0: deleted(1) + tail(SOFT, (4, 5)) + moved(SHARE)})
        blocks.appends("rm /b/y", {4: deleted(0)})
        blocks.appends("rm /b", {0: deleted(1) + tail(SOFT, NOWHERE) + moved(bytes(12))})
        blocks.holds({})


def whole_share(items):
    """A log with the share, and an empty commit behind it."""
    return Draft(1).add(items + moved(SHARE)).close(padding=2).close(0x503).bytes


def an_empty_file_gets_the_head_0(folder):
    """The head of a file without blocks says nothing, and is 0 where its part is written."""
    for size in SIZES:
        blocks = Changes(folder, size)
        blocks.be(8, {0: log(1, superblock(size, 8) + chained(1, b"f", 9, 0))})
        blocks.appends("setattr / 74 01", {0: attribute(0, 0x74, b"\1") + [(0x202, 1, bytes(8))]})
        blocks.appends("setattr /f 74 01", {0: attribute(1, 0x74, b"\1")})


def a_file_of_the_superblocks_name(folder):
    """What is forced of the root isn't forced of the file, nor the other way round."""
    blocks = Changes(folder, 512)
    blocks.new(8)
    blocks.appends("put /littlefs", {0: created(1) + file(1, b"littlefs")})
    for path, number in ("/", 0), ("/littlefs", 1):
        for _ in range(2):
            blocks.appends(f"setattr {path} 74 01", {0: attribute(number, 0x74, b"\1")})
    blocks.appends("put /littlefs", {0: [(0x201, 1, b"")]})


if __name__ == "__main__":
    sys.exit(run_scenes([
        values_of_the_root_byte_for_byte,
        full_blocks_are_left,
        commits_fit_to_the_last_byte,
        what_is_put_or_set_again_is_written,
        values_are_set_and_taken_out,
        directories_come_move_and_go,
        entries_move_between_directories,
        a_directory_that_goes_hands_on_its_tail,
        a_directory_that_is_made_gets_its_tail_from_the_last_part,
        parts_that_are_cut_are_rewritten,
        a_directory_goes_on_in_a_new_pair,
        a_root_goes_on_in_two_new_pairs_and_gets_a_directory,
        one_part_is_cut_beside_another_that_is_not,
        parts_of_many_entries,
        other_writers_pairs,
        a_root_whose_second_block_is_live,
        shares_in_the_global_state,
        an_empty_file_gets_the_head_0,
        a_file_of_the_superblocks_name,
    ]))
