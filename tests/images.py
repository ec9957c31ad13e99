#!/usr/bin/env python3
"""Checks images of a writer apart from the program: which of them mount, with how many free blocks and entries, and why the
others don't."""
import re
import struct
import sys

from support.folder import is_told, run_scenes
from support.logs import (
    DELETED, Draft, HARD, NO_ENTRY, SOFT, attribute, chained, created, deleted, directory, file, image, log, moved, superblock, tail,
)

VERSION_2_1, NULL = bytes.fromhex("01000200"), 0xFFFF_FFFF


def padded(items, revision=1):
    """A log whose commit ends at a multiple of 16."""
    return log(revision, items, 16)


def behind(*items, **limits):
    """A log of the superblock of 8 blocks of 512 bytes, and items behind its two."""
    return padded(superblock(512, 8, **limits) + [item for group in items for item in group])


def delta(words):
    """A share in the global state, of three words of hexadecimal digits."""
    return moved(bytes.fromhex(words))


NAME, STRUCT = superblock(512, 8)
MAGIC = NAME[2]

# The superblocks of new images, and what stands behind them.
FORMATTED = behind()
DIRECTORY = behind(created(1), directory(1, b"d", (2, 3)), tail(SOFT, (2, 3)))
SOFT_TAIL = behind(tail(SOFT, (2, 3)))
TWO_PARTS = behind(
    created(1), file(1, b"a", b"hi"), attribute(1, 7, b"!"), created(2), directory(2, b"d", (2, 3)), tail(HARD, (4, 5)),
)
MIXED = "000000000000000000000001"

# Parts behind a root.
FILE_C, FILE_X = padded(file(0, b"c")), padded(file(0, b"x"))
GOES_ON = padded(file(0, b"x") + tail(SOFT, (4, 5)))



def words(*numbers):
    """The bytes of words."""
    return struct.pack(f"<{len(numbers)}I", *numbers)


def chain(size=3_040, **others):
    """The blocks of a file whose contents stand in the blocks 2 to 7, with their pointers, of which others may stand there."""
    pointers = {3: (2,), 4: (3, 2), 5: (4,), 6: (5, 4, 2), 7: (6,)}
    pointers.update({int(block[1:]): there for block, there in others.items()})
    return {0: behind(created(1), chained(1, b"f", 7, size)), **{block: words(*there) for block, there in pointers.items()}}


# An image by its case and what stands in its blocks, and how many blocks are free and how many entries it has, with the root.
MOUNTED = (
    ("formatted", {0: FORMATTED}, 6, 1),
    ("an attribute within the limit", {0: behind([(0x374, 0, b"hi")], attribute=2)}, 6, 1),
    (
        "two entries deleted",
        {0: behind(created(1), file(1, b"b"), created(1), file(1, b"a"), deleted(2), deleted(1))},
        6, 1,
    ),
    ("a null tail", {0: behind(tail(SOFT, (NULL, NULL)))}, 6, 1),
    ("a delta of zeros", {0: behind(moved(bytes(12)))}, 6, 1),
    ("a second entry", {0: behind(created(1), file(1, b"b"))}, 6, 2),
    ("a chain of six blocks", chain(), 0, 2),
    ("a chain whose last block has one byte", chain(2_533), 0, 2),
)

# Images by what is complained of them: the case, and what stands in their blocks.
REFUSED = {
    "3 NoValidCommit": (
        ("erased", {}),
        ("a soft tail to an erased pair", {0: SOFT_TAIL}),
        ("a hard tail to an erased pair", {0: behind(tail(HARD, (2, 3)))}),
    ),
    "4 UnknownTag": (("an unknown type", {0: behind([(0x100, NO_ENTRY, b"")])}),),
    "5 BadTag": (
        ("the struct first", {0: padded([STRUCT, NAME])}),
        ("create past the end", {0: behind(created(3))}),
        ("a hard tail of two nulls", {0: behind(tail(HARD, (NULL, NULL)))}),
    ),
    "6 IncompleteEntry": (
        ("no struct", {0: padded([NAME])}),
        ("a file without a struct", {0: behind([(0x001, 1, b"a")])}),
    ),
    "7 BadName": (("a file named `..`", {0: behind(file(1, b".."))}),),
    "8 BadSkipList": (
        ("no chain", {0: behind(created(1), chained(1, b"f", 9, 5))}),
        ("a block that names itself", {0: behind(created(1), chained(1, b"f", 3, 600)), 3: words(3)}),
        ("a wrong second pointer", chain(_6=(5, 3, 2))),
        ("a pointer past the count", chain(_3=(8,))),
        ("a byte more than 8 blocks hold", chain(4_053)),
        ("the longest file", chain(2_147_483_647)),
    ),
    "9 NoSuperblock": (
        ("no entry", {0: padded([])}),
        ("a file in its place", {0: padded(file(0, b"a"))}),
        ("another name", {0: padded([(0x0FF, 0, b"littlefx"), STRUCT])}),
        ("a short struct", {0: padded([NAME, (0x201, 0, STRUCT[2][:20])])}),
    ),
    "10 Version": (("another version", {0: padded([NAME, (0x201, 0, VERSION_2_1 + STRUCT[2][4:])])}),),
    "11 Geometry": (("another count", {0: padded(superblock(512, 7))}),),
    "12 Limits": (("a largest name of 0", {0: behind(name=0)}),),
    "13 OrderFault": (
        ("two names that fall", {0: behind(created(1), file(1, b"b"), created(2), file(2, b"a"))}),
        ("two names that fall across parts", {0: TWO_PARTS, 4: FILE_C}),
    ),
    "14 BlockRange": (
        ("a tail past the count", {0: behind(tail(SOFT, (2, 8)))}),
        ("a soft tail whose first number is null", {0: behind(tail(SOFT, (NULL, 4)))}),
        ("a soft tail whose second number is null", {0: behind(tail(SOFT, (4, NULL)))}),
        ("a hard tail whose first number is null", {0: behind(tail(HARD, (NULL, 4)))}),
        ("a hard tail whose second number is null", {0: behind(tail(HARD, (4, NULL)))}),
        ("a directory past the count", {0: behind(created(1), directory(1, b"d", (8, 2)))}),
    ),
    "15 BlockTwice": (
        ("a tail back", {0: behind(tail(SOFT, (2, 1)))}),
        ("a tail to the root itself", {0: behind(tail(SOFT, (1, 0)))}),
        ("a chain with a block of the root", {0: behind(created(1), chained(1, b"f", 1, 5))}),
        ("a directory below itself", {0: DIRECTORY, 2: padded(directory(0, b"x", (2, 3)))}),
        ("the root below itself", {0: DIRECTORY, 2: padded(directory(0, b"x", (1, 0)))}),
    ),
    "16 MissingDirectory": (
        ("no directory for a name", {0: behind(created(1), directory(1, b"d", (2, 3)))}),
        ("no directory for a name below", {0: DIRECTORY, 2: padded(directory(0, b"x", (4, 5)))}),
        ("no directory with both blocks", {0: DIRECTORY, 2: padded(directory(0, b"x", (2, 5)))}),
    ),
    "17 Orphan": (
        ("no name for a directory", {0: SOFT_TAIL, 2: FILE_X}),
        ("no name for a third directory", {0: DIRECTORY, 2: GOES_ON, 4: FILE_X}),
        ("deltas that cancel, and no name", {0: behind(tail(SOFT, (2, 3)), delta(MIXED)), 2: padded(delta(MIXED))}),
        ("an orphan with an empty commit", {0: SOFT_TAIL, 2: padded([])}),
        (
            "orphans that name each other",
            {
                0: SOFT_TAIL,
                2: padded(directory(0, b"x", (4, 5)) + tail(SOFT, (4, 5))),
                4: padded(directory(0, b"y", (2, 3))),
            },
        ),
        ("orphans", {0: behind(delta("000000800000000000000000"))}),
    ),
    "18 UnfinishedMove": (("a move", {0: behind(delta("0000f04f0200000003000000"))}),),
    "19 SuperblockElsewhere": (
        ("a second superblock", {0: behind(created(1), [(0x0FF, 1, MAGIC), (0x201, 1, b"")])}),
        ("a second superblock of another name", {0: behind(created(1), [(0x0FF, 1, b"../"), (0x201, 1, b"hi")])}),
    ),
    "20 BadSize": (
        ("a long attribute of the root", {0: behind([(0x374, 0, b"hi")], attribute=1)}),
        ("a long name", {0: behind(created(1), file(1, b"ab"), name=1)}),
        ("a long file", {0: behind(created(1), chained(1, b"f", 2, 5), file=4)}),
        ("a long attribute", {0: behind(created(1), file(1, b"f"), attribute(1, 1, b"hi"), attribute=1)}),
    ),
    "21 UnknownState": (("another state", {0: behind(delta(MIXED))}),),
}


def images_that_mount(folder):
    for case, blocks, free, entries in MOUNTED:
        folder.be(image(512, 8, blocks), 0)
        status, complained, printed = folder.run("check -b 512 a.img")
        found = [int(number) for number in re.findall(rb"(?:free|directories|files) (\d+)", printed)]
        is_right = not complained and status == 0 and (found[0], sum(found[1:])) == (free, entries)
        folder.check(case, is_right, (complained, printed))


def is_refused(folder, what, size, complaint):
    """Compares what is complained of the folder's image."""
    ended = folder.run(f"check -b {size} a.img")
    is_right = (ended[0], ended[2]) == (3, b"") and is_told(ended[1], f"lfsed: {complaint}\n")
    folder.check(what, is_right, ended)


def images_that_do_not_mount(folder):
    for complaint, rows in REFUSED.items():
        for case, blocks in rows:
            states = "\nlfsed: a.img: its superblock states 7 blocks of 512 bytes" if complaint == "11 Geometry" else ""
            folder.be(image(512, 8, blocks), 0)
            is_refused(folder, case, 512, complaint + states)
    folder.be(image(512, 7, {0: FORMATTED}), 0)
    is_refused(folder, "a block less", 512, "11 Geometry\nlfsed: a.img: its superblock states 8 blocks of 512 bytes")


# What stands behind the superblock of an image of 8 blocks of 512 bytes, and the listing.
LEFT = (
    ("a later entry that is named first", file(2, b"b") + file(1, b"a"), "f          0 /a\nf          0 /b\n"),
    (
        "entries that move up and down",
        created(1) + file(1, b"b", b"later") + created(1) + file(1, b"a", b"hi") + deleted(2),
        "f          2 /a\n",
    ),
    (
        "attributes that move up and down",
        created(1) + file(1, b"f", b"hi") + attribute(1, 0x74, b"\1\2") + attribute(1, 0x75, b"x") + attribute(1, 0x73, b"y")
        + attribute(1, 0x75, None) + created(1) + deleted(1),
        "f          2 /f\n@ 73 79\n@ 74 0102\n",
    ),
    (
        "names of dots and of high bytes",
        directory(1, b"...", (2, 3)) + file(2, b"..a") + file(3, b"\xff\x80") + tail(SOFT, (2, 3)),
        "d          - /...\nf          0 /..a\nf          0 /\\xff\\x80\n",
    ),
)


# What is reported of an image whose root goes on in blocks 2 and 3, of which an older state is read.
OLDER_READ = "lfsed: a.img: /: blocks 2 and 3: a commit with a wrong checksum stands after the last one; an older state is read\n"


def is_listed(folder, what, size, listing, told=""):
    """Compares the listing of the folder's image, but for the root's line."""
    ended = folder.run(f"ls -b {size} a.img")
    folder.check(what, ended == (0, told, f"d          - /\n{listing}".encode()), ended)


def entries_that_are_left(folder):
    for case, items, listing in LEFT:
        folder.be(image(512, 8, {0: behind(items), 2: padded([])}), 0)
        is_listed(folder, case, 512, listing)


def later_entries_that_are_named_first(folder):
    """One entry is named first, and then all up to it, each with its struct: with the superblock as many as tags can number."""
    for first in 1, 999, 1_000, 1_022:
        named = [item for number in range(1, first + 1) for item in file(number, b"%04d" % number)]
        items = superblock(32_768, 2) + [(0x001, first, b"f")] + named
        folder.be(image(32_768, 2, {0: log(1, items)}), 0)
        ended = folder.run("check -b 32768 a.img")
        said = f"block 32768, count 2, free 0, directories 1, files {first}, version 2.0\n"
        folder.check(f"entry {first} that is named first", ended == (0, "", said.encode()), ended)


def nested_directories(folder):
    """2,000 directories in each other."""
    blocks = {0: log(1, superblock(256, 4_002) + directory(1, b"d", (2, 3)) + tail(SOFT, (2, 3)))}
    for first in range(2, 4_000, 2):
        pair = first + 2, first + 3
        blocks[first] = log(1, directory(0, b"d", pair) + tail(SOFT, pair))
    blocks[4_000] = log(1, [])
    folder.be(image(256, 4_002, blocks), 0)
    ended = folder.run("check -b 256 a.img")
    folder.check("nested directories", ended == (0, "", b"block 256, count 4002, free 0, directories 2001, files 0, version 2.0\n"), ended)


def be_second(folder, first, second=b"", pair=(2, 3)):
    """Makes the folder's image one of 8 blocks of 256 bytes, whose root goes on in a pair of these two blocks, named so."""
    root = log(1, superblock(256, 8) + tail(HARD, pair))
    folder.be(image(256, 8, {0: root, 2: first, 3: second}), 0)


EIGHT = bytes(range(8))

# The items of a pair, by what is complained of it.
PARTS = {
    "4 UnknownTag": (("an unknown type", [(0x100, NO_ENTRY, b"")]),),
    "5 BadTag": (
        ("a skip list of seven bytes", [(0x001, 0, b"a"), (0x202, 0, EIGHT[:7])]),
        ("a directory's struct of nine bytes", [(0x002, 0, b"a"), (0x200, 0, EIGHT + b"\x08")]),
        ("create past the end", [(0x401, 3, b"")]),
    ),
    "6 IncompleteEntry": (
        ("an entry before the first that was named", file(2, b"b")),
        ("a name without a struct", [(0x001, 0, b"a")]),
        ("a struct without a name", [(0x401, 0, b""), (0x201, 0, b"")]),
        ("a file that leads to a pair", [(0x001, 0, b"a"), (0x200, 0, EIGHT)]),
        ("a directory with contents", [(0x002, 0, b"a"), (0x201, 0, b"")]),
        ("a directory with a skip list", [(0x002, 0, b"a"), (0x202, 0, EIGHT)]),
        ("a superblock that leads to a pair", [(0x0FF, 0, b"a"), (0x200, 0, EIGHT)]),
        ("a superblock with a skip list", [(0x0FF, 0, b"a"), (0x202, 0, EIGHT)]),
    ),
    "7 BadName": (
        ("an empty name", [(0x002, 0, b""), (0x200, 0, EIGHT)]),
        ("one dot", [(0x002, 0, b"."), (0x200, 0, EIGHT)]),
        ("two dots", file(0, b"..")),
        ("a slash", file(0, b"a/b")),
    ),
}


def pairs_that_are_not_read(folder):
    for complaint, rows in PARTS.items():
        for case, items in rows:
            be_second(folder, log(1, items))
            is_refused(folder, case, 256, complaint)


def pairs_without_a_live_block_that_is_read(folder):
    whole, unknown = padded(file(0, b"a")), log(1, [(0x100, NO_ENTRY, b"")])
    torn = bytearray(padded(file(0, b"z"), 2))
    torn[17] ^= 1
    be_second(folder, unknown, whole)
    is_refused(folder, "equal revisions", 256, "4 UnknownTag")
    be_second(folder, b"", bytes(torn))
    is_refused(folder, "no commit", 256, "3 NoValidCommit")


def letter(name, revision):
    """A log of an empty file."""
    return padded(file(0, name), revision)


# The revisions of two blocks of a pair, of which the first has the file a and the second z, and the file that is there, where the
# pair is named in this order and where it is named in the other one.
REVISIONS = (
    (1, 2, "zz"), (2, 1, "aa"), (1, 1, "az"),
    (0xFFFF_FFFF, 0, "zz"), (0, 0xFFFF_FFFF, "aa"),
    (0, 0x7FFF_FFFF, "zz"), (1, 0x8000_0000, "zz"), (0x8000_0001, 2, "aa"),
    (0, 0x8000_0000, "az"), (1, 0x8000_0001, "az"), (0x8000_0000, 0, "az"),
)


def pairs_with_a_live_block(folder):
    for first, second, names in REVISIONS:
        for pair, name in zip([(2, 3), (3, 2)], names):
            be_second(folder, letter(b"a", first), letter(b"z", second), pair)
            is_listed(folder, f"revisions {first} and {second} of {pair}", 256, f"f          0 /{name}\n")
    older, torn, unknown = letter(b"a", 1), bytearray(letter(b"z", 2)), log(1, [(0x100, NO_ENTRY, b"")])
    torn[17] ^= 1
    for first, second in (older, bytes(torn)), (bytes(torn), older), (older, unknown):
        be_second(folder, first, second)
        told = OLDER_READ if bytes(torn) in (first, second) else ""
        is_listed(folder, "a block that is not live", 256, "f          0 /a\n", told)


def begun(*items):
    """A log with the file a that isn't closed yet."""
    return Draft(1).add(file(0, b"a") + list(items))


def closed_with(byte):
    """A closed commit with the file a, and a second one with the file b, of whose closing tag another bit is expected."""
    draft = begun().close()
    draft.before ^= byte
    return draft.add(file(1, b"b")).close()


FIRST, BOTH = "f          0 /a\n", "f          0 /a\nf          0 /b\n"
WITH_B = file(1, b"b")

# Logs in a block of 256 bytes, and the listing of what they hold; none where no commit is closed.
ENDS = (
    ("a closing tag with no padding", begun().close(), FIRST),
    ("a closing tag of no bytes", begun().close(length=0), None),
    ("a closing tag of three bytes", begun().close(length=3), None),
    ("a deleted closing tag", begun().close(length=DELETED), None),
    ("a closing tag of type 0x5fe", begun().close(0x5FE).add(WITH_B).close(), BOTH),
    ("a closing tag of type 0x5ff", begun().close(0x5FF).add(WITH_B).close(), BOTH),
    ("padding up to the end of the block", begun().close(padding=256 - 21), FIRST),
    ("padding one byte past the end", begun().close(length=4 + 256 - 20), None),
    ("a second commit", begun().close(padding=11).add(WITH_B).close(padding=7), BOTH),
    ("a second commit's tag that runs one byte past the end", begun().close().tag(0x500, NO_ENTRY, 256 - 24), FIRST),
    ("a second commit that isn't closed", begun().close().add(WITH_B), FIRST),
    ("a second commit with another word before it", closed_with(1 << 31), FIRST),
)


def where_logs_end(folder):
    for case, draft, listing in ENDS:
        be_second(folder, draft.bytes)
        if listing is None:
            is_refused(folder, case, 256, "3 NoValidCommit")
        else:
            is_listed(folder, case, 256, listing)
    torn = begun().close().add(WITH_B).close().bytes
    be_second(folder, torn[:-1] + bytes([torn[-1] ^ 1]))
    is_listed(folder, "a second commit with a wrong checksum", 256, FIRST, OLDER_READ)


# Commits of three files with attributes, with the type that closes each and its padding.
COMMITS = (
    (0x500, 0, file(0, b"a") + attribute(0, 0x74, b"x") + attribute(0, 0x75, b"") + file(1, b"b") + attribute(1, 0x11, b"one")
     + attribute(1, 0x75, b"\1\2")),
    (0x501, 60, file(2, b"c") + attribute(2, 0, b"low") + attribute(0, 0x75, b"yz")),
    (0x501, 0, attribute(1, 0x75, None) + attribute(1, 0x11, b"two") + attribute(2, 0x80, b"mid")),
    (0x500, 7, attribute(0, 0x74, None) + attribute(0, 0x73, b"first") + attribute(1, 0x10, b"again") + attribute(2, 0x77, None)),
)
GATHERED = """f          0 /a
@ 73 6669727374
@ 75 797a
f          0 /b
@ 10 616761696e
@ 11 74776f
f          0 /c
@ 00 6c6f77
@ 80 6d6964
"""


def attributes_over_several_commits(folder):
    draft = Draft(7)
    for kind, padding, items in COMMITS:
        draft.add(items).close(kind, padding)
    be_second(folder, draft.bytes)
    is_listed(folder, "attributes", 256, GATHERED)


# A tag behind those of two empty files, by its kind, its entry and its value, and whether its entry or its length is refused.
TAGS = (
    (0x401, 2, b"", False),
    (0x401, 3, b"", True),
    (0x401, 0, b"\xff", True),
    (0x4FF, 1, b"", False),
    (0x4FF, 2, b"", True),
    (0x4FF, 0, b"\xff", True),
    (0x001, 9, 3 * b"\xff", False),
    (0x001, NO_ENTRY, 3 * b"\xff", True),
    (0x002, 0, None, True),
    (0x201, 1, 3 * b"\xff", False),
    (0x201, 2, 3 * b"\xff", True),
    (0x201, 0, None, True),
    (0x200, 0, 8 * b"\xff", False),
    (0x200, 0, 9 * b"\xff", True),
    (0x202, 0, 7 * b"\xff", True),
    (0x300, 1, None, False),
    (0x300, 2, b"\xff", True),
    (0x600, NO_ENTRY, 8 * b"\xff", False),
    (0x600, NO_ENTRY, 7 * b"\xff", True),
    (0x601, 0, None, True),
    (0x601, 0, 8 * b"\xff", True),
    (0x7FF, 0, 12 * b"\xff", False),
    (0x7FF, 0, None, True),
)


def tags_that_are_refused(folder):
    for kind, number, value, wanted in TAGS:
        be_second(folder, log(1, file(0, b"a") + file(1, b"b") + [(kind, number, value)]))
        complained = folder.run("check -b 256 a.img")[1]
        found = complained.startswith("lfsed: 5 BadTag\n")
        folder.check(f"a tag {kind:x} of entry {number} with {value}", found == wanted, complained)


sys.exit(run_scenes([
    images_that_mount,
    images_that_do_not_mount,
    entries_that_are_left,
    later_entries_that_are_named_first,
    nested_directories,
    pairs_that_are_not_read,
    pairs_without_a_live_block_that_is_read,
    pairs_with_a_live_block,
    where_logs_end,
    attributes_over_several_commits,
    tags_that_are_refused,
]))
