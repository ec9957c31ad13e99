#!/usr/bin/env python3
"""Runs commands on images, of which some come from a writer apart from the program, and reads with a reader apart from it
where everything stands then: directories and their parts, entries, contents, and how many blocks are free."""
import struct
import sys

from support.blocks import Blocks
from support.folder import contents, run_scenes
from support.littlefs import ROOT
from support.logs import HARD, SOFT, appended, attribute, created, directory, file, log, moved, superblock, tail

BAD_PATH, TOO_LARGE = "lfsed: 35 BadPath\n", "lfsed: 42 EntryTooLarge\n"


def directories_take_blocks_and_give_them_back(folder):
    blocks = Blocks(folder, 512)
    blocks.new(8)
    for line, length, free in ("mkdir /a", 0, 4), ("put /a/x", 65, 3), ("rm /a/x", 0, 4), ("rm /a", 0, 6):
        blocks.do(line, length)
        folder.check(f"free blocks after {line}", blocks.read().free() == free, blocks.read().free())


def three_directories(folder):
    """Directories /a, /b and /a/c."""
    blocks = Blocks(folder, 512)
    blocks.new(8)
    for path in "/a", "/b", "/a/c":
        blocks.do(f"mkdir {path}")
    blocks.stand("three", [ROOT, (4, 5), (2, 3), (6, 7)], [ROOT, (2, 3), (6, 7), (4, 5)], 0)
    return blocks


def directories_go_with_what_is_below(folder):
    blocks = three_directories(folder)
    blocks.do("mv /a /z")
    blocks.stand("what is moved", [ROOT, (4, 5), (2, 3), (6, 7)], [ROOT, (4, 5), (2, 3), (6, 7)], 0)
    blocks.lists("/", "/b", "/z", "/z/c")
    blocks = three_directories(folder)
    blocks.do("rm /a", 0, "lfsed: 34 NotEmpty\n")
    blocks.do("rm /a/c")
    blocks.do("rm /a")
    blocks.stand("what is left", [ROOT, (4, 5)], [ROOT, (4, 5)], 4)


def entries_move_in_their_part(folder):
    blocks = Blocks(folder, 512)
    blocks.new(8)
    for line in "mkdir /a", "mkdir /c", "mv /a /b":
        blocks.do(line)
    blocks.stand("what is moved", [ROOT, (4, 5), (2, 3)], [ROOT, (2, 3), (4, 5)], 2)


def directories_are_found_before_their_parents(folder):
    """A directory that moves keeps its place in the thread, which may be before that of its new parent."""
    blocks = three_directories(folder)
    for line, length in ("mv /b /a/c/b", 0), ("put /a/c/b/x", 5):
        blocks.do(line, length)
    blocks.stand("what is below", [ROOT, (4, 5), (2, 3), (6, 7)], [ROOT, (2, 3), (6, 7), (4, 5)], 0)
    blocks.lists("/", "/a", "/a/c", "/a/c/b", "/a/c/b/x")
    for line in "rm /a/c/b/x", "rm /a/c/b":
        blocks.do(line)
    blocks.stand("what is left", [ROOT, (2, 3), (6, 7)], [ROOT, (2, 3), (6, 7)], 2)


# A command on an image of so many blocks of 256 bytes with long names, what is complained, and where all stands then.
LONG = (
    ("put", 4, "lfsed: 43 NoSpace need 4 free 2\n", [ROOT], [ROOT], 2),
    ("put", 6, "", [ROOT, (2, 3), (4, 5)], [ROOT], 0),
    ("mkdir", 7, "lfsed: 43 NoSpace need 6 free 5\n", [ROOT], [ROOT], 5),
    ("mkdir", 8, "", [ROOT, (4, 5), (6, 7), (2, 3)], [ROOT, (2, 3)], 0),
)


def parts_are_cut(folder):
    for command, count, complaint, *standing in LONG:
        blocks = Blocks(folder, 256)
        blocks.new(count)
        for letter in "ac":
            blocks.do(f"put /{80 * letter}")
        blocks.do(f"{command} /{130 * 'b'}", 0, complaint)
        blocks.stand(f"{command} in {count}", *standing)


def new_pairs_hold_a_part_beside_an_erased_block(folder):
    blocks = Blocks(folder, 512)
    blocks.new(8)
    blocks.do("mkdir /a")
    folder.holds("a directory", 2 * 512, log(1, [], 16).ljust(2 * 512, b"\xff"))
    blocks = Blocks(folder, 256)
    blocks.new(6)
    for letter, length in ("a", 80), ("c", 80), ("b", 130):
        blocks.do(f"put /{length * letter}")
    parts = file(0, 130 * b"b") + tail(HARD, (4, 5)), file(0, 80 * b"c")
    folder.holds("parts that were cut", 2 * 256, b"".join(log(1, part, 16).ljust(2 * 256, b"\xff") for part in parts))


def directories_of_three_parts_come_and_go(folder):
    blocks = Blocks(folder, 256)
    blocks.new(16)
    blocks.do("mkdir /d")
    for command, later, free in ("put", [(4, 5), (6, 7)], 8), ("rm", [], 12):
        for letter in "abcdef":
            blocks.do(f"{command} /d/{80 * letter}")
        blocks.stand(f"six times {command}", [ROOT, (2, 3), *later], [ROOT, (2, 3)], free)
    blocks.do("rm /d")
    blocks.stand("what is left", [ROOT], [ROOT], 14)


# The lengths of two names in a directory whose parts have a room of 216 bytes, and how many entries each part has.
FITTING = (((100, 100), [2]), ((100, 101), [1, 1]))


def parts_are_filled_to_the_last_byte(folder):
    for lengths, counts in FITTING:
        blocks = Blocks(folder, 256)
        blocks.new(8)
        blocks.do("mkdir /d")
        for letter, length in zip("ab", lengths):
            blocks.do(f"put /d/{length * letter}")
        found = [len(part.entries) for part in blocks.read().parts_of((2, 3))]
        folder.check(f"entries with names of {lengths} bytes", found == counts, found)


# A root of three parts in blocks of 512 bytes, with the files b and d, f, and h.
THREE_PARTS = {
    0: log(1, superblock(512, 8) + file(1, b"b") + file(2, b"d") + tail(HARD, (2, 3))),
    2: log(1, file(0, b"f") + tail(HARD, (4, 5))),
    4: log(1, file(0, b"h")),
}

# A command on it, the files of each part then, and which parts were written.
SPREAD = (
    ("put /a", ["abd", "f", "h"], [0]),
    ("put /e", ["bd", "ef", "h"], [1]),
    ("put /g", ["bd", "f", "gh"], [2]),
    ("put /z", ["bd", "f", "hz"], [2]),
    ("rm /b", ["d", "f", "h"], [0]),
)


def entries_go_where_their_names_belong(folder):
    for line, files, written in SPREAD:
        blocks = Blocks(folder, 512)
        blocks.be(8, THREE_PARTS)
        old = blocks.read()
        blocks.do(line)
        new = blocks.read()
        names = ["".join(entry.name.decode() for entry in part.entries).removeprefix("littlefs") for part in new.parts]
        folder.check(f"files after {line}", names == files, names)
        changed = [at for at, part in enumerate(new.parts) if any(old.block(n) != new.block(n) for n in part.pair)]
        folder.check(f"parts written by {line}", changed == written and new.thread() == old.thread(), changed)


# Directories a and b, each with the same share in the global state.
SHARE = bytes.fromhex("0000f04f0200000003000000")
SHARED = {
    0: log(1, superblock(512, 8) + directory(1, b"a", (2, 3)) + directory(2, b"b", (4, 5)) + tail(SOFT, (2, 3))),
    2: log(1, tail(SOFT, (4, 5)) + moved(SHARE)),
    4: log(1, moved(SHARE)),
}


def what_others_have_written(folder):
    blocks = Blocks(folder, 512)
    blocks.be(8, {0: log(1, superblock(512, 8)), 3: log(9, file(0, b"old"))})
    blocks.do("mkdir /a")
    blocks.stand("a directory where a log stood", [ROOT, (2, 3)], [ROOT, (2, 3)], 4)
    blocks.lists("/", "/a")
    blocks.be(8, SHARED)
    blocks.do("rm /a")
    blocks.stand("a directory with its share", [ROOT, (4, 5)], [ROOT, (4, 5)], 4)


def heavy_parts(count):
    """A root of two parts in blocks of 256 bytes, whose second part weighs 226, where 216 is the room of a block."""
    return {
        0: log(1, superblock(256, count) + file(1, b"a") + file(2, b"c") + tail(HARD, (2, 3))),
        2: log(1, file(0, 105 * b"m") + file(1, 105 * b"n")),
    }


def heavy_parts_are_cut_where_they_get_a_tail(folder):
    blocks = Blocks(folder, 256)
    blocks.be(8, heavy_parts(8))
    blocks.do("mkdir /b")
    blocks.stand("a heavy part", [ROOT, (2, 3), (6, 7), (4, 5)], [ROOT, (4, 5)], 0)
    blocks.be(7, heavy_parts(7))
    blocks.do("mkdir /b", 0, "lfsed: 43 NoSpace need 4 free 3\n")


# Two directories in blocks of 256 bytes, b before a in the thread. The part of a weighs 232, and 223 without its file f; that of
# b weighs 216, which is the room of a block, and 225 with it.
TWO_HEAVY_PARTS = {
    0: log(1, superblock(256, 10) + directory(1, b"a", (2, 3)) + directory(2, b"b", (4, 5)) + tail(SOFT, (4, 5))),
    2: log(1, file(0, b"f") + file(1, 103 * b"m") + file(2, 104 * b"n")),
    4: log(1, file(0, 105 * b"m") + file(1, 95 * b"n") + tail(SOFT, (2, 3))),
}

# Directories b, a/r and a, in this order in the thread. The part of a weighs 234, and 217 without its directory r; that of b, which
# goes on with another tail once r is removed, weighs 225.
HEAVY_BEFORE_A_DIRECTORY = {
    0: log(1, superblock(256, 12) + directory(1, b"a", (6, 7)) + directory(2, b"b", (2, 3)) + tail(SOFT, (2, 3))),
    2: log(1, file(0, 105 * b"m") + file(1, 104 * b"n") + tail(SOFT, (4, 5))),
    4: log(1, tail(SOFT, (6, 7))),
    6: log(1, file(0, 100 * b"m") + file(1, 101 * b"n") + directory(2, b"r", (4, 5))),
}

# What takes an entry out of a part, on which blocks of how many, the pairs then, those of the directories, how many blocks are free,
# and how many entries each part has: the part that the entry leaves gets the first new blocks.
LED = (
    ("mv /a/f /b/f", TWO_HEAVY_PARTS, 10, [ROOT, (4, 5), (8, 9), (2, 3), (6, 7)], [ROOT, (2, 3), (4, 5)], 0, [3, 2, 1, 1, 1]),
    ("rm /a/r", HEAVY_BEFORE_A_DIRECTORY, 12, [ROOT, (2, 3), (10, 11), (6, 7), (8, 9)], [ROOT, (6, 7), (2, 3)], 2, [3, 1, 1, 1, 1]),
)


def the_part_that_an_entry_leaves_is_cut_first(folder):
    for line, begun, count, thread, directories, free, counts in LED:
        blocks = Blocks(folder, 256)
        blocks.be(count, begun)
        blocks.do(line)
        blocks.stand(line, thread, directories, free)
        found = [len(part.entries) for part in blocks.read().parts]
        folder.check(f"entries behind {line}", found == counts, found)


def a_thousand_files_take_two_parts(folder):
    blocks = Blocks(folder, 65_536)
    named = [item for number in range(999) for item in file(number + 1, b"%04d" % number)]
    blocks.be(4, {0: log(1, superblock(65_536, 4) + named)})
    blocks.do("put /0999")
    blocks.stand("a thousand files", [ROOT, (2, 3)], [ROOT], 0)
    found = [len(part.entries) for part in blocks.read().parts]
    folder.check("a thousand entries", found == [1_000, 1], found)


def a_thousand_files_of_a_directory_take_one_part(folder):
    blocks = Blocks(folder, 65_536)
    named = [item for number in range(999) for item in file(number, b"%04d" % number)]
    root = superblock(65_536, 6) + directory(1, b"d", (2, 3)) + tail(SOFT, (2, 3))
    blocks.be(6, {0: log(1, root), 2: log(1, named)})
    for name, counts in ("0999", [1_000]), ("1000", [1_000, 1]):
        blocks.do(f"put /d/{name}")
        found = [len(part.entries) for part in blocks.read().parts_of((2, 3))]
        folder.check(f"entries behind {name}", found == counts, found)


# Files on an image of four blocks of 256 bytes: the path, the length, what is complained, and how many blocks are free then.
# The blocks that a file has are free only behind the command.
FILES = (
    ("/", 1, "lfsed: 41 IsRoot\n", 2),
    ("a", 1, BAD_PATH, 2),
    ("/x/y", 1, "lfsed: 30 NotFound\n", 2),
    ("/a", 32, "", 2),
    ("/a/b", 1, "lfsed: 32 NotADirectory\n", 2),
    ("/a", 600, "lfsed: 43 NoSpace need 3 free 2\n", 2),
    ("/a", 508, "", 0),
    ("/a", 100, "lfsed: 43 NoSpace need 1 free 0\n", 0),
    ("/b", 0, "", 0),
    ("/a", 0, "", 2),
    ("/b", 33, "", 1),
)

# The length of a directory's name, and what is complained on four blocks of 256 bytes: its pair isn't all that it takes there.
NAMES = ((200, "lfsed: 43 NoSpace need 4 free 2\n"), (201, TOO_LARGE))

# The length of a name, that of a file, and what is complained.
LENGTHS = (
    (256, 0, "lfsed: 36 NameTooLong\n"),
    (209, 0, TOO_LARGE),
    (208, 0, ""),
    (200, 600, "lfsed: 43 NoSpace need 5 free 2\n"),
    (168, 0, ""),
)


def files_have_to_fit(folder):
    blocks = Blocks(folder, 256)
    blocks.new(4)
    for path, length, complaint, free in FILES:
        blocks.do(f"put {path}", length, complaint)
        folder.check(f"free blocks behind {length} bytes at {path}", blocks.read().free() == free)
    for name, length, complaint in LENGTHS:
        blocks.new(4)
        blocks.do(f"put /{name * 'a'}", length, complaint)


def names_of_directories_have_to_fit(folder):
    blocks = Blocks(folder, 256)
    blocks.new(4)
    for name, complaint in NAMES:
        blocks.do(f"mkdir /{name * 'a'}", 0, complaint)


def commits_end_at_multiples_of_sixteen(folder):
    blocks = Blocks(folder, 512)
    for length in range(1, 17):
        blocks.new(8)
        blocks.do(f"put /{length * 'a'}")
        wanted = appended(log(1, superblock(512, 8), 16).ljust(512, b"\xff"), created(1) + file(1, length * b"a"))
        folder.holds(f"a name of {length} bytes", 0, wanted + 512 * b"\xff")


def pointers_have_more_than_one_byte(folder):
    """A file of the blocks 2 to 257, and one of 257 bytes behind it: block 259 names block 258, and has one byte more."""
    blocks = Blocks(folder, 256)
    blocks.new(260)
    blocks.do("put /a", 63_528)
    blocks.do("put /b", 257)
    folder.holds("the first block", 258 * 256, contents(256))
    folder.holds("the last block", 259 * 256, b"\x02\x01\x00\x00" + contents(257)[256:] + 251 * b"\xff")


def values_have_to_fit(folder):
    blocks = Blocks(folder, 256)
    too_long = "lfsed: 38 AttrTooLarge\n"
    for length, complaint in (172, ""), (173, TOO_LARGE), (1_022, TOO_LARGE), (1_023, too_long):
        blocks.new(4)
        blocks.do(f"setattr / 01 {length * '07'}", 0, complaint)
    blocks.new(4)
    for line, length, complaint in (
        ("put /a", 1, ""),
        ("setattr /a 74 02", 0, ""),
        ("put /a", 33, ""),
        ("rmattr /a 74", 0, ""),
        ("rmattr /a 74", 0, "lfsed: 39 NoAttr\n"),
    ):
        blocks.do(line, length, complaint)


# An image with limits of its own, and a directory d at {2,5}.
LIMITS = superblock(512, 8, 100, 65_536, 16)
LIMITED = {0: log(1, LIMITS + directory(1, b"d", (2, 5)) + tail(SOFT, (2, 5))), 2: log(1, [])}


def is_stored(folder, blocks, entry):
    """A file of 1,200 bytes in the blocks 3, 4 and 6."""
    reader = blocks.read()
    held = reader.blocks_of(entry) == [6, 4, 3] and struct.unpack("<2I", entry.value) == (6, 1_200)
    folder.check("a file's blocks", held and entry.name == b"a", (entry.name, entry.kind, entry.value))


def the_superblock_stands_in_front_of_the_root_alone(folder):
    blocks = Blocks(folder, 512)
    blocks.be(8, LIMITED)
    blocks.do("put /a", 1_200)
    blocks.do("rm /d")
    (first,) = blocks.read().parts
    folder.check("the superblock", (first.entries[0].name, first.entries[0].value) == (b"littlefs", LIMITS[1][2]))
    is_stored(folder, blocks, first.entries[1])
    blocks.be(8, LIMITED)
    blocks.do("put /d/a", 1_200)
    (entry,) = blocks.read().entries((2, 5))
    is_stored(folder, blocks, entry)


# An image whose names have up to 3 bytes, its files 4 and its attributes 2: a directory a with an empty file f, an empty
# directory e, and an attribute of the root of the kind 7.
SMALL = {
    0: log(1, superblock(512, 16, 3, 4, 2) + attribute(0, 7, b"")
           + directory(1, b"a", (2, 3)) + directory(2, b"e", (4, 5)) + tail(SOFT, (2, 3))),
    2: log(1, file(0, b"f") + tail(SOFT, (4, 5))),
    4: log(1, []),
}

# What commands on it are refused for, and the length of what is put.
JUDGED = {
    "lfsed: 30 NotFound\n": (
        ("mkdir /x/y", 0), ("mkdir /x/long", 0), ("put /x/y", 0), ("rm /x", 0), ("mv /x /x/y", 0),
        ("setattr /x 07 010203", 0), ("rmattr /x 07", 0),
    ),
    "lfsed: 31 Exists\n": (("mkdir /a", 0), ("mv /a /a", 0), ("mv /a /e", 0)),
    "lfsed: 32 NotADirectory\n": (
        ("mkdir /a/f/g", 0), ("put /a/f/g", 0), ("rm /a/f/g", 0), ("mv /e /a/f/g", 0), ("setattr /a/f/g 07 ", 0),
    ),
    "lfsed: 33 IsADirectory\n": (("put /a", 5),),
    "lfsed: 34 NotEmpty\n": (("rm /a", 0),),
    "lfsed: 35 BadPath\n": (
        ("mkdir a", 0), ("mkdir /a/", 0), ("mkdir //", 0), ("mkdir /.", 0), ("mkdir /..", 0), ("mkdir /a//b", 0), ("mkdir /a/../b", 0),
        ("mkdir //a", 0), ("mv /a /a/../b", 0),
    ),
    "lfsed: 36 NameTooLong\n": (("mkdir /e/long", 0), ("put /long", 5), ("mv /e /a/long", 0)),
    "lfsed: 37 FileTooLarge\n": (("put /a/f", 5),),
    "lfsed: 38 AttrTooLarge\n": (("setattr /a/f 07 010203", 0),),
    "lfsed: 39 NoAttr\n": (("rmattr /a/f 07", 0), ("rmattr / 08", 0)),
    "lfsed: 40 IntoItself\n": (("mv /a /a/b", 0), ("mv /a /a/x/y", 0)),
    "lfsed: 41 IsRoot\n": (("mkdir /", 0), ("put /", 0), ("rm /", 0), ("mv / /a/b", 0), ("mv /x /", 0)),
    "": (
        ("mkdir /e/new", 0), ("put /a/f", 4), ("put /new", 4), ("rm /a/f", 0), ("rm /e", 0), ("mv /a /e/a", 0),
        ("mv /a/f /f", 0), ("mkdir /..a", 0), ("mkdir /...", 0), ("mkdir /a/a.", 0), ("setattr /a/f 07 0102", 0), ("setattr / 07 0102", 0), ("rmattr / 07", 0),
    ),
}


def commands_are_judged(folder):
    blocks = Blocks(folder, 512)
    for complaint, lines in JUDGED.items():
        for line, length in lines:
            blocks.be(16, SMALL)
            blocks.do(line, length, complaint)


sys.exit(run_scenes([
    directories_take_blocks_and_give_them_back,
    directories_go_with_what_is_below,
    entries_move_in_their_part,
    directories_are_found_before_their_parents,
    parts_are_cut,
    parts_are_filled_to_the_last_byte,
    new_pairs_hold_a_part_beside_an_erased_block,
    directories_of_three_parts_come_and_go,
    entries_go_where_their_names_belong,
    what_others_have_written,
    heavy_parts_are_cut_where_they_get_a_tail,
    the_part_that_an_entry_leaves_is_cut_first,
    a_thousand_files_take_two_parts,
    a_thousand_files_of_a_directory_take_one_part,
    files_have_to_fit,
    names_of_directories_have_to_fit,
    commits_end_at_multiples_of_sixteen,
    pointers_have_more_than_one_byte,
    values_have_to_fit,
    the_superblock_stands_in_front_of_the_root_alone,
    commands_are_judged,
]))
