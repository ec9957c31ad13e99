#!/usr/bin/env python3
"""Images as devices write them, of disk version 2.1 and with superblocks that were expanded: what `--device` reads of each, and what is
told of it without that. The images come from a writer apart from the program. What is in them was written by hand, and a reader apart
from the program finds the same."""
import json
import shutil
import struct
import sys
from typing import NamedTuple

from support.folder import run_scenes
from support.later import (
    FIRST, FORWARD, LATER, DeviceReader, LaterDraft, appended, expanded, forward, stated, written,
)
from support.littlefs import ROOT, Reader
from support.logs import (
    HARD, NO_ENTRY, SOFT, SUPERBLOCK, Draft, attribute, chained, directory, file, image, log, moved, tail,
)
from support.scattering import laid
from support.texts import compared, ended_by, listed, said

SIZE, COUNT, LONGER = 512, 8, 16

# What is told of an image that isn't read without `--device`: the fault, and the second line. In it `{}` is what helps: the option, or
# `adopt` if the command changes an image.
UNREAD = {
    "changed": ("10 Version", "a device has changed it with disk version 2.1, which is not read: {}, --older goes on with the state before that"),
    "states": ("10 Version", "its superblock states disk version 2.1: {}"),
    "first": ("3 NoValidCommit", "its first block states disk version 2.1: {}"),
    "second": ("3 NoValidCommit", "its second block states disk version 2.1: {}"),
    "expanded": ("19 SuperblockElsewhere", "if a device has expanded its superblock, {}"),
    "tail": ("9 NoSuperblock", "if a device has expanded its superblock, {}"),
}
OLDER = "lfsed: a.img: a later commit of disk version 2.1 stands in it, which is not read\n"


class Row(NamedTuple):
    """An image; its tree, or a fault with what its second line says; without `--device` a row of `UNREAD`, or the first lines that may
    be told, or the tree. The new image has blocks of the same size, or of another."""
    image: bytes
    wanted: dict | str
    without: dict | str | tuple
    size: int = SIZE
    new_size: int = 0


def tree(files=(), attributes=()):
    """What stands at each path, where a directory has None: its contents and its attributes."""
    held = {"/": None, **dict(files)}
    return {path.encode(): (bytes_, dict(attributes).get(path, {})) for path, bytes_ in held.items()}


def root(*items, version=LATER, count=COUNT, size=SIZE, limits=()):
    """The items of a superblock that states a version, and others behind it."""
    return [*stated(version, size, count, *limits), *(item for group in items for item in group)]


def raised(version=LATER, count=COUNT):
    """The item by which a device states another version, or another count."""
    return stated(version, SIZE, count)[1:]


def eight(blocks):
    """An image of 8 blocks of 512 bytes."""
    return image(SIZE, COUNT, blocks)


def spelled(*commits, size=SIZE):
    """A block of commits of these items, of which none gets a forward checksum but those that they have."""
    draft = Draft(1)
    for items in commits:
        draft.add(items).close_at(16)
    return draft.bytes.ljust(size, b"\xff")


def closed(kind, *commits, revision=1):
    """A block of commits that tags of a kind close."""
    draft = Draft(revision)
    for items in commits:
        draft.add(items).close(kind, 4)
    return draft.bytes.ljust(SIZE, b"\xff")


def cut(block):
    """A block whose log ends within its last commit's closing tag."""
    return block.rstrip(b"\xff")[:-6]


EARLY, LATE = file(1, b"early", b"old"), file(2, b"late", b"new")
LATE_ALONE = file(1, b"late", b"new")
HAS_EARLY, HAS_LATE = tree({"/early": b"old"}), tree({"/late": b"new"})
HAS_BOTH = tree({"/early": b"old", "/late": b"new"})
PLAIN = log(1, root(EARLY, version=FIRST), 16).ljust(SIZE, b"\xff")
ERASED = 16 * b"\xff"
TO_DIRECTORY = directory(1, b"d", (2, 3)) + tail(SOFT, (2, 3))
HAS_FILE = tree({"/d": None, "/d/f": b"in"})

# The first block as version 2.1 formats it, and as version 2.0 does.
FORMATTED = bytes.fromhex(
    "01000000f00ffff76c6974746c6566732fe00010010002000002000008000000ff000000ffffff7ffe0300007feffc10"
    "10000000e5394cc00ff0000c0d1c5555"
)
LOWERED = bytes.fromhex(
    "01000000f00ffff76c6974746c6566732fe00010000002000002000008000000ff000000ffffff7ffe030000701ffc08"
    "c895baf9ffffffffffffffffffffffff"
)

# A file's contents that read as a superblock's of version 2.1.
ALIKE = struct.pack("<6I", LATER, SIZE, COUNT, 255, 1_000, 100)

WRITTEN = {
    "a file of the root that reads as a superblock": Row(eight({0: written(1, SIZE, root(file(1, b"a", ALIKE)))}), tree({"/a": ALIKE}), "first"),
    "the first file of a directory that reads as one": Row(
        eight({0: written(1, SIZE, root(TO_DIRECTORY)), 2: written(1, SIZE, file(0, b"f", ALIKE))}), tree({"/d": None, "/d/f": ALIKE}), "first"),
    "by version 2.0": Row(eight({0: PLAIN}), HAS_EARLY, HAS_EARLY),
    "by version 2.0, in several commits": Row(
        eight({0: spelled(root(TO_DIRECTORY, version=FIRST), attribute(0, 1, b"of the root"), attribute(0, 1, None)), 2: spelled(file(0, b"f", b"in"))}),
        HAS_FILE, HAS_FILE),
    "formatted": Row(eight({0: FORMATTED}), tree(), "first"),
    "formatted, with a file": Row(eight({0: written(1, SIZE, root(EARLY))}), HAS_EARLY, "first"),
    "formatted in its second block": Row(eight({1: written(1, SIZE, root(EARLY))}), HAS_EARLY, "second"),
    "written anew": Row(eight({0: FORMATTED, 1: written(2, SIZE, root(LATE_ALONE))}), HAS_LATE, "second"),
    "appended to": Row(eight({0: appended(PLAIN, raised(), LATE)}), HAS_BOTH, "changed"),
    "appended to in its second block": Row(
        eight({0: spelled(root(version=FIRST)), 1: appended(log(2, root(EARLY, version=FIRST), 16).ljust(SIZE, b"\xff"), raised(), LATE)}),
        HAS_BOTH, "changed"),
    "rewritten": Row(eight({0: PLAIN, 1: written(2, SIZE, root(LATE_ALONE))}), HAS_LATE, "changed"),
    "a directory behind a root of version 2.0": Row(
        eight({0: log(1, root(TO_DIRECTORY, version=FIRST)), 2: written(1, SIZE, file(0, b"f", b"in"))}), HAS_FILE, ("3 NoValidCommit",)),
    "a changed directory behind a root of version 2.0": Row(
        eight({0: log(1, root(TO_DIRECTORY, version=FIRST)), 2: appended(spelled(file(0, b"f", b"in")), file(0, b"f", b"more"))}),
        tree({"/d": None, "/d/f": b"more"}), HAS_FILE),
    "a directory of version 2.0 behind another root": Row(
        eight({0: written(1, SIZE, root(TO_DIRECTORY)), 2: spelled(file(0, b"f", b"in"))}), HAS_FILE, "first"),
    "a directory with attributes": Row(
        eight({0: written(1, SIZE, root(TO_DIRECTORY, attribute(1, 0x74, b"\1"))), 2: written(1, SIZE, file(0, b"f", b"in"), attribute(0, 0x75, b""))}),
        tree({"/d": None, "/d/f": b"in"}, {"/d": {0x74: b"\1"}, "/d/f": {0x75: b""}}), "first"),
    "a file in blocks": Row(
        eight({0: written(1, SIZE, root(chained(1, b"c", 5, 700))), **laid(SIZE, [2, 5], 700 * b"c")}), tree({"/c": 700 * b"c"}), "first"),
}

LIVE = {
    "the first block is the later one": Row(
        eight({0: written(3, SIZE, root(LATE_ALONE)), 1: log(2, root(EARLY, version=FIRST))}), HAS_LATE, "changed"),
    "the later one is of version 2.0": Row(
        eight({0: written(1, SIZE, root(LATE_ALONE)), 1: log(2, root(EARLY, version=FIRST))}), HAS_EARLY, HAS_EARLY),
    "the later one is unfinished": Row(
        eight({0: written(1, SIZE, root(EARLY)), 1: cut(written(2, SIZE, root(LATE_ALONE)))}), HAS_EARLY, "first"),
    "the later one is unfinished behind one of version 2.0": Row(
        eight({0: PLAIN, 1: cut(written(2, SIZE, root(LATE_ALONE)))}), HAS_EARLY, HAS_EARLY),
    "the later one has another checksum": Row(
        eight({0: written(1, SIZE, root(EARLY)), 1: written(2, SIZE, root(LATE_ALONE)).replace(b"new", b"mew")}), HAS_EARLY, "first"),
    "the later one has no commit": Row(eight({0: written(1, SIZE, root(EARLY)), 1: struct.pack("<I", 2)}), HAS_EARLY, "first"),
    "revisions that wrap": Row(
        eight({0: written(0xFFFF_FFFF, SIZE, root(EARLY)), 1: written(0, SIZE, root(LATE_ALONE))}), HAS_LATE, "second"),
    "revisions of which neither is later": Row(
        eight({0: written(0, SIZE, root(EARLY)), 1: written(2**31, SIZE, root(LATE_ALONE))}), HAS_EARLY, "first"),
    "one revision": Row(eight({0: written(5, SIZE, root(EARLY)), 1: written(5, SIZE, root(LATE_ALONE))}), HAS_EARLY, "first"),
    "an unfinished commit behind others": Row(eight({0: cut(written(1, SIZE, root(EARLY), LATE))}), HAS_EARLY, "first"),
}

# Erased bytes are 0, so the closing tag is 0x501, and the first bit of the tag behind it is set.
TURNED = LaterDraft(1, SIZE, 16, 0).commit(root()).commit(file(1, b"abc", b"held"))
CLOSED = {
    "erased bytes that are 0": Row(eight({0: TURNED.block()}), tree({"/abc": b"held"}), "first"),
    **{f"closed by {kind:#x}": Row(eight({0: closed(kind, *(items + forward(ERASED) for items in (root(), EARLY, LATE)))}), HAS_BOTH, "first")
       for kind in (0x500, 0x501, 0x502, 0x57E, 0x57F)},
}

# Tags 0x5ff, in a commit with the file early, or in others; a commit with the file late may come behind them.
LONG_TAG = [(FORWARD, NO_ENTRY, bytes(1_022))]
SUMS = {
    "deleted": [root(EARLY, [(FORWARD, NO_ENTRY, None)]), LATE],
    **{f"of {length} bytes": [root(EARLY, [(FORWARD, NO_ENTRY, bytes(length))]), LATE] for length in (0, 4, 12, 200)},
    "of entry 0": [root(EARLY, [(FORWARD, 0, bytes(8))]), LATE],
    "two in one commit": [root(EARLY, forward(ERASED), forward(ERASED)), LATE],
    "one in each of three commits": [root() + forward(ERASED), EARLY + forward(ERASED), LATE + forward(ERASED)],
    "in front of others": [forward(ERASED) + root(EARLY), forward(ERASED) + LATE],
    "alone in a commit": [root(EARLY) + forward(ERASED), forward(ERASED), LATE],
    "a wrong checksum": [root(EARLY, [(FORWARD, NO_ENTRY, struct.pack("<2I", 16, 7))]), LATE],
    "a great size": [root(EARLY, [(FORWARD, NO_ENTRY, struct.pack("<2I", 0xFFFF_FFFF, 7))]), LATE],
}
FORWARDS = {
    **{f"forward checksum: {name}": Row(eight({0: spelled(*commits)}), HAS_BOTH, "first") for name, commits in SUMS.items()},
    "forward checksum: of 1022 bytes": Row(
        image(2_048, COUNT, {0: spelled(root(EARLY, LONG_TAG, size=2_048), LATE, size=2_048)}), HAS_BOTH, "first", 2_048),
    "forward checksum: past the block": Row(
        eight({0: Draft(1).add(root(EARLY) + forward(ERASED)).close_at(16).tag(FORWARD, NO_ENTRY, 1_000).add(LATE).close_at(16).bytes}),
        HAS_EARLY, "first"),
    "forward checksum: none in the last commit": Row(eight({0: spelled(root(EARLY) + forward(ERASED), LATE)}), HAS_BOTH, "first"),
}

# Types that close a commit for version 2.0 alone.
TYPES = {
    **{f"{kind:#x} of entry {number} in its place": Row(eight({0: spelled(root(EARLY, [(kind, number, bytes(8))]), LATE)}), HAS_BOTH, "first")
       for kind in (0x580, 0x581, 0x5FE) for number in (0, NO_ENTRY)},
    "0x580 closes no commit": Row(eight({0: closed(0x580, root(EARLY, version=FIRST))}), "3 NoValidCommit", HAS_EARLY),
    "0x5ff closes no commit": Row(eight({0: closed(FORWARD, root(EARLY, version=FIRST))}), "3 NoValidCommit", HAS_EARLY),
    "0x5ff closes no further commit": Row(
        eight({0: Draft(1).add(root(EARLY, version=FIRST)).close_at(16).add(LATE).close(FORWARD, 4).bytes}), HAS_EARLY, HAS_BOTH),
    "0x5ff closes none of the later block": Row(
        eight({0: PLAIN, 1: closed(FORWARD, root(LATE_ALONE, version=FIRST), revision=2)}), HAS_EARLY, HAS_LATE),
}

OTHER, NEXT = 0x0002_0002, 0x0003_0001
STATES_OTHER = "10 Version\nits superblock states disk version 2.2"
VERSIONS = {
    "2.0 beside commits of 2.1": Row(eight({0: written(1, SIZE, root(EARLY, version=FIRST))}), HAS_EARLY, ("3 NoValidCommit",)),
    "no version beside commits of 2.1": Row(eight({0: appended(PLAIN, LATE)}), HAS_BOTH, HAS_EARLY),
    "2.0 once more beside commits of 2.1": Row(eight({0: appended(PLAIN, raised(FIRST), LATE)}), HAS_BOTH, HAS_EARLY),
    "2.1 in commits of 2.0": Row(eight({0: log(1, root(EARLY))}), HAS_EARLY, "states"),
    "2.2": Row(eight({0: written(1, SIZE, root(EARLY, version=OTHER))}), STATES_OTHER, ("3 NoValidCommit",)),
    "2.2 in commits of 2.0": Row(eight({0: log(1, root(EARLY, version=OTHER))}), STATES_OTHER, ("10 Version",)),
    "3.1": Row(eight({0: written(1, SIZE, root(EARLY, version=NEXT))}), "10 Version\nits superblock states disk version 3.1", ("3 NoValidCommit",)),
    "2.2 and then 2.1": Row(eight({0: written(1, SIZE, root(raised(), EARLY, version=OTHER))}), HAS_EARLY, "first"),
    "2.1 and then 2.2": Row(eight({0: written(1, SIZE, root(raised(OTHER), EARLY))}), STATES_OTHER, ("3 NoValidCommit",)),
    "2.2 and then 2.1 in another commit": Row(eight({0: written(1, SIZE, root(EARLY, version=OTHER), raised())}), HAS_EARLY, "first"),
    "2.1 and then 2.2 in another commit": Row(eight({0: written(1, SIZE, root(EARLY), raised(OTHER))}), STATES_OTHER, ("3 NoValidCommit",)),
    "a count that grew": Row(image(SIZE, LONGER, {0: written(1, SIZE, root(EARLY), raised(count=LONGER))}), HAS_EARLY, "first"),
    "a count that the image hasn't": Row(
        eight({0: written(1, SIZE, root(EARLY), raised(count=LONGER))}), "11 Geometry\nits superblock states 16 blocks of 512 bytes", "first"),
}

WORDS = raised()[0][2]
INNER = image(SIZE, 2, {0: written(1, SIZE, root(count=2))})
CONTENTS = {
    "words of a superblock in a directory": Row(
        eight({0: written(1, SIZE, root(TO_DIRECTORY)), 2: written(1, SIZE, file(0, b"f", WORDS))}), tree({"/d": None, "/d/f": WORDS}), "first"),
    "words of a superblock in the root": Row(eight({0: written(1, SIZE, root(file(1, b"f", WORDS)))}), tree({"/f": WORDS}), "first"),
    "words of a superblock in the root's second part": Row(
        eight({0: written(1, SIZE, root(tail(HARD, (2, 3)))), 2: written(1, SIZE, file(0, b"f", WORDS))}), tree({"/f": WORDS}), "first"),
    "an image in a file": Row(
        eight({0: written(1, SIZE, root(chained(1, b"f", 5, len(INNER)))), **laid(SIZE, [7, 2, 5], INNER)}), tree({"/f": INNER}), "first"),
}


def programmed(program):
    """An image of blocks of 512 bytes by a device of a program size, in as many commits as it has room for."""
    commits = [root(), EARLY, LATE] if program < 256 else [root(), EARLY + LATE] if program < 512 else [root(EARLY, LATE)]
    return eight({0: written(1, SIZE, *commits, program=program)})


NARROW = Draft(1).add(root()).close()
for number in range(35):
    NARROW.add(attribute(0, number, bytes([number]))).close()
FULL = Draft(1).add(root(attribute(0, 1, bytes(456)))).close()
FULL_FORWARD = Draft(1).add(root(attribute(0, 1, bytes(444)), forward(ERASED))).close()
ROOM = {
    **{f"program size {2**power}": Row(programmed(2**power), HAS_BOTH, "first" if power < 9 else "states") for power in range(10)},
    "program size 12": Row(eight({0: written(1, SIZE, root(), EARLY, LATE, program=12)}), HAS_BOTH, "first"),
    "several closing tags": Row(
        image(8_192, COUNT, {0: written(1, 8_192, root(EARLY, size=8_192), LATE, program=4_096)}), HAS_BOTH, "states", 8_192),
    "35 commits of 13 bytes": Row(eight({0: NARROW.bytes}), tree(attributes={"/": {number: bytes([number]) for number in range(35)}}), "states"),
    "full to the last byte": Row(eight({0: FULL.bytes}), tree(attributes={"/": {1: bytes(456)}}), "states", new_size=1_024),
    "full to the last byte with a forward checksum": Row(
        eight({0: FULL_FORWARD.bytes}), tree(attributes={"/": {1: bytes(444)}}), "first", new_size=1_024),
}

REFUSED = {
    **{f"a tail {pair}": Row(eight({0: written(1, SIZE, root(tail(SOFT, pair))), 2: written(1, SIZE, [])}), "15 BlockTwice", "first")
       for pair in ((0, 1), (1, 0), (2, 1), (2, 2))},
    "a tail past the end": Row(eight({0: written(1, SIZE, root(tail(SOFT, (2, 8))))}), "14 BlockRange", "first"),
    "a chain that meets a pair": Row(
        eight({0: written(1, SIZE, root(chained(1, b"c", 2, 100), directory(2, b"d", (2, 3)), tail(SOFT, (2, 3)))), 2: written(1, SIZE, [])}),
        "15 BlockTwice", "first"),
    "a chain that meets the root": Row(eight({0: written(1, SIZE, root(chained(1, b"c", 1, 100)))}), "15 BlockTwice", "first"),
    "a soft tail to a pair that isn't read": Row(eight({0: written(1, SIZE, root(TO_DIRECTORY))}), "3 NoValidCommit", "first"),
    "a hard tail to a pair that isn't read": Row(eight({0: written(1, SIZE, root(tail(HARD, (2, 3))))}), "3 NoValidCommit", "first"),
    "a tail to a pair that version 2.0 alone reads": Row(
        eight({0: written(1, SIZE, root(TO_DIRECTORY)), 2: closed(FORWARD, file(0, b"f", b"in"))}), "3 NoValidCommit", "first"),
    "an unknown type": Row(eight({0: written(1, SIZE, root([(0x100, NO_ENTRY, b"")]))}), "4 UnknownTag", "first"),
    "names out of order": Row(eight({0: written(1, SIZE, root(file(1, b"b"), file(2, b"a")))}), "13 OrderFault", "first"),
    "a move that isn't finished": Row(
        eight({0: written(1, SIZE, root(moved(bytes.fromhex("0000f04f0200000003000000"))))}), "18 UnfinishedMove", "first"),
    "no superblock": Row(eight({0: written(1, SIZE, file(0, b"early", b"old"))}), "9 NoSuperblock", ("3 NoValidCommit",)),
}


def joined(pairs, parts, others=None, is_later=False, count=LONGER):
    """An image with an expanded superblock: the items of its parts, of either version, and other blocks."""
    blocks = {number: written(1, SIZE, items) if is_later else log(1, items, 16) for number, items in expanded(pairs, parts).items()}
    return image(SIZE, count, {**blocks, **(others or {})})


def former(*items, version=FIRST, count=LONGER, limits=()):
    """The items of a superblock that may be one of several, and others behind it."""
    return root(*items, version=version, count=count, limits=limits)


TWO, THREE = [ROOT, (2, 3)], [ROOT, (2, 3), (4, 5)]
# Blocks 0 and 2 of an image whose superblock was expanded: of the last one the attributes and the limit on names are others than of the
# first; and the blocks 1 and 3 that make one superblock of both.
COPY = bytes.fromhex(
    "05000000f00ffff76c6974746c6566732fe00010000002000002000010000000ff000000ffffff7ffe0300001000001b"
    "6f6c6400300007676f6e65503ffc0c02000000030000003010000d359d4788"
)
LAST = bytes.fromhex(
    "01000000f00ffff76c6974746c6566732fe0001000000200000200001000000064000000ffffff7ffe0300001000001b"
    "6e65773000040261200000026f6e6520000c02622000000274776f701ff412774c1992"
)
ONE = {
    1: bytes.fromhex("06000000") + LAST[4:51] + bytes.fromhex("500ffc0b020000000300000030100005e734c319"),
    3: bytes.fromhex("02000000ffeffffe61200000026f6e6520000402622000000274776f701ff813281e19c5"),
}
COPIED = tree({"/a": b"one", "/b": b"two"}, {"/": {1: b"new"}})
FILES = file(1, b"a", b"one") + file(2, b"b", b"two")
HAS_FILES = tree({"/a": b"one", "/b": b"two"})
SHARE = moved(bytes.fromhex("0000f04f0200000003000000"))
EITHER = ("3 NoValidCommit", "10 Version", "15 BlockTwice", "19 SuperblockElsewhere")
ELSEWHERE = "19 SuperblockElsewhere"
TEN = [(2 * number, 2 * number + 1) for number in range(10)]

EXPANDED = {
    "a copy with other attributes": Row(image(SIZE, LONGER, {0: COPY, 2: LAST}), COPIED, "expanded"),
    "the two made one": Row(image(SIZE, LONGER, {0: COPY, 2: LAST, **ONE}), COPIED, COPIED),
    "a tail alone": Row(joined(TWO, [[], former(FILES)]), HAS_FILES, "tail"),
    "a tail alone, twice": Row(joined(THREE, [[], [], former(FILES)]), HAS_FILES, "tail"),
    "commits of 2.1": Row(
        joined(TWO, [former(attribute(0, 1, b"old"), version=LATER), former(FILES, version=LATER)], is_later=True), HAS_FILES, "first"),
    "a tail alone in commits of 2.1": Row(joined(TWO, [[], former(FILES, version=LATER)], is_later=True), HAS_FILES, ("3 NoValidCommit",)),
    "three, of which the last states 2.1": Row(
        joined(THREE, [former(), former(), []], {4: written(1, SIZE, former(FILES, attribute(0, 1, b"old"), version=LATER), attribute(0, 3, b"later"))}),
        tree({"/a": b"one", "/b": b"two"}, {"/": {1: b"old", 3: b"later"}}), EITHER),
    "three, the last appended to by a device": Row(
        joined(THREE, [former(), former(), []], {4: appended(log(1, former(FILES), 16).ljust(SIZE, b"\xff"), raised(LATER, LONGER), attribute(0, 3, b"later"))}),
        tree({"/a": b"one", "/b": b"two"}, {"/": {3: b"later"}}), EITHER),
    "a superblock, an empty part, a superblock": Row(joined(THREE, [former(), [], former(FILES)]), HAS_FILES, "expanded"),
    "two superblocks, and entries behind": Row(
        joined(THREE, [former(), former(attribute(0, 1, b"new")), file(0, b"a", b"one") + file(1, b"b", b"two")]),
        tree({"/a": b"one", "/b": b"two"}, {"/": {1: b"new"}}), "expanded"),
    "a root of two parts, and a directory": Row(
        joined(TWO, [former(), former(file(1, b"a", b"one"), directory(2, b"d", (6, 7)), tail(HARD, (4, 5)))],
               {4: log(1, file(0, b"m", b"two") + tail(SOFT, (6, 7))), 6: log(1, file(0, b"f", b"in"))}),
        tree({"/a": b"one", "/d": None, "/d/f": b"in", "/m": b"two"}), "expanded"),
    "shares that cancel each other": Row(joined(TWO, [former(SHARE), former(FILES, SHARE)]), HAS_FILES, "expanded"),
    "one superblock, and more entries behind": Row(
        joined(TWO, [former(file(1, b"a", b"one")), file(0, b"b", b"two")]), HAS_FILES, HAS_FILES),
    "one superblock, and all entries behind": Row(
        joined(TWO, [former(), file(0, b"a", b"one") + file(1, b"b", b"two")]), HAS_FILES, HAS_FILES),
    "ten in a row": Row(
        joined(TEN, [former(attribute(0, 1, b"%d" % number), count=24) for number in range(9)] + [former(FILES, count=24)], count=24),
        HAS_FILES, "expanded"),
    "words in a second commit": Row(
        joined(TWO, [former(), []], {2: spelled(former(count=8), FILES, raised(FIRST, LONGER))}), HAS_FILES, "expanded"),
    "a count that grew": Row(joined(TWO, [former(count=8), former(FILES)]), HAS_FILES, EITHER + ("11 Geometry",)),
    "a limit that is larger in the last": Row(joined(TWO, [former(limits=(1, 1, 1)), former(FILES)]), HAS_FILES, EITHER + ("20 BadSize",)),
    "2.2 and then 2.1": Row(joined(TWO, [former(version=OTHER), former(FILES, version=LATER)]), HAS_FILES, EITHER),
    "as many attributes as a new image takes": Row(
        joined(TWO, [former(), former(attribute(0, 1, bytes(428)))]), tree(attributes={"/": {1: bytes(428)}}), "expanded"),
}

# Superblocks that aren't read as one, or whose last one is refused.
APART = {
    "one attribute too many": Row(joined(TWO, [former(), former(attribute(0, 1, bytes(445)))]), ELSEWHERE, (ELSEWHERE,)),
    "in a directory": Row(
        joined([ROOT], [former(directory(1, b"d", (2, 3)), tail(SOFT, (2, 3)))], {2: log(1, former(FILES))}), ELSEWHERE, (ELSEWHERE,)),
    "behind a part with entries": Row(joined(TWO, [former(file(1, b"a")), former(file(1, b"b"))]), ELSEWHERE, (ELSEWHERE,)),
    "behind another entry": Row(
        joined(TWO, [former(), file(0, b"a") + [(kind, 1, held) for kind, _, held in former()]]), ELSEWHERE, (ELSEWHERE,)),
    "another name": Row(joined(TWO, [former(), [(SUPERBLOCK, 0, b"littlefx"), *former(FILES)[1:]]]), ELSEWHERE, (ELSEWHERE,)),
    "words of 20 bytes": Row(joined(TWO, [former(), [former()[0], (0x201, 0, WORDS[:20]), *FILES]]), ELSEWHERE, (ELSEWHERE,)),
    "a hard tail back": Row(joined([ROOT], [former(tail(HARD, ROOT))]), "15 BlockTwice", ("15 BlockTwice",)),
    "a hard tail back from the second": Row(joined(TWO, [former(), former(tail(HARD, (1, 0)))]), "15 BlockTwice", EITHER),
    "a tail with a block of theirs": Row(
        joined(TWO, [former(), former(directory(1, b"d", (2, 5)), tail(SOFT, (2, 5)))], {5: log(2, [])}), "15 BlockTwice", EITHER),
    "a count that the image hasn't": Row(
        joined(TWO, [former(), former(FILES, count=8)]), "11 Geometry\nits superblock states 8 blocks of 512 bytes", EITHER + ("11 Geometry",)),
    "2.1 and then 2.2": Row(joined(TWO, [former(version=LATER), former(FILES, version=OTHER)]), STATES_OTHER, EITHER),
    "a limit that is smaller in the last": Row(
        joined(TWO, [former(), former(file(1, b"ab"), limits=(1, 1, 1))]), "20 BadSize", EITHER + ("20 BadSize",)),
    "no superblock in a row": Row(joined(TWO, [[], file(0, b"a", b"one")]), "9 NoSuperblock", ("9 NoSuperblock",)),
}

GROUPS = {
    "written": WRITTEN, "live": LIVE, "closed": CLOSED, "forward": FORWARDS, "types": TYPES, "versions": VERSIONS, "contents": CONTENTS,
    "room": ROOM, "refused": REFUSED, "expanded": EXPANDED, "apart": APART,
}
ROWS = {f"{group}: {name}": row for group, rows in GROUPS.items() for name, row in rows.items()}

# What `check` and `ls` report of some of these images beside what they read.
OLDER_READ = "lfsed: a.img: /: blocks 0 and 1: a commit with a wrong checksum stands after the last one; an older state is read\n"
EMPTY_PART = "lfsed: a.img: /: blocks 2 and 3 have no entry; littlefs lists this directory without end; repack mends it\n"
REPORTED = {
    ("live: the later one has another checksum", " --device"): OLDER_READ,
    **{(f"expanded: {name}", device): EMPTY_PART for name in ("a tail alone, twice", "a superblock, an empty part, a superblock")
       for device in ("", " --device")},
}

# Commands that take `--device`, each with the words behind it.
ASKED = ["check -b {size}{device} a.img", "ls -b {size}{device} a.img", "cat -b {size}{device} a.img /early", "diff -b {size}{device} a.img b.img",
         "extract -b {size}{device} a.img made", "repack -b {size} --from-block {size}{device} c.img a.img"]
# Commands that change an image, and take it not.
CHANGING = ["put {} -b 512 a.img /more", "mkdir {} -b 512 a.img /made", "mv {} -b 512 a.img /early /moved", "rm {} -b 512 a.img /early",
            "setattr {} -b 512 a.img /early 74 01", "rmattr {} -b 512 a.img /early 74", "grow {} -b 512 a.img 9", "undo {} -b 512 a.img",
            "redo {} -b 512 a.img", "forget {} -b 512 a.img", "batch {} -b 512 a.img"]
MAKING = ["format {} -b 512 --count 8 a.img", "pack {} -b 512 --count 8 a.img made", "log {} -b 512 a.img", "adopt {} -b 512 a.img", "explain {} 3"]


def beside(folder, name):
    """A file beside the image."""
    return folder.image.with_name(name)


def plain(size):
    """An image of version 2.0 that others are compared with, and its tree."""
    return image(size, COUNT, {0: log(1, root(EARLY, version=FIRST, size=size))}), HAS_EARLY


def extracted(place):
    """What stands at the paths of a folder."""
    below = {f"/{path.relative_to(place)}": path.read_bytes() if path.is_file() else None for path in place.rglob("*")}
    return {path.encode(): held for path, held in {"/": None, **below}.items()}


def is_read(folder, name, row, reader, device):
    """Compares what each command makes of the image with its tree."""
    found, words = reader.tree(), f"-b {row.size}{device}"
    folder.check(f"{name}: read apart", found == row.wanted, found)
    other = Reader(plain(row.size)[0], row.size)
    folder.be(row.image, 0)
    beside(folder, "b.img").write_bytes(other.image)
    printed = {
        f"check {words} a.img": said(reader),
        f"ls {words} a.img": listed(found),
        f"diff {words} a.img b.img": compared(reader, other).encode(),
        f"diff {words} b.img a.img": compared(other, reader).encode(),
        **{f"cat {words} a.img {path.decode()}": held for path, (held, _) in found.items() if held is not None},
        f"extract {words} a.img made": b"",
    }
    ended = folder.run(f"check --json {words} a.img")
    record = json.loads(ended[2] or b"{}")
    is_right = (record.get("version"), record.get("inline_longest")) == (reader.version(), reader.longest())
    folder.check(f"{name}: check --json", ended[0] == 0 and is_right, ended)
    for line, wanted in printed.items():
        ended, status = folder.run(line), int(line.startswith("diff ") and wanted != b"")
        folder.check(f"{name}: {line}", ended == (status, reported(name, device, line), wanted), ended)
    is_made(folder, name, "made", found)


def reported(name, device, line):
    """What a command reports of an image beside what it reads."""
    return REPORTED.get((name, device), "") if line.startswith(("check ", "ls ")) else ""


def is_made(folder, name, what, found):
    """A folder has what stands at the paths of a tree."""
    made = extracted(beside(folder, what)) if beside(folder, what).exists() else {}
    folder.check(f"{name}: {what}", made == {path: held for path, (held, _) in found.items()}, made)
    shutil.rmtree(beside(folder, what), ignore_errors=True)


def is_repacked(folder, name, row, reader, device):
    """Compares the new image that `repack` makes with the tree, as version 2.0 reads it. The image that is read stays."""
    size = row.new_size or row.size
    folder.be(row.image, 0)
    line = f"repack -b {size} --from-block {row.size}{device} b.img a.img"
    beside(folder, "b.img").unlink(missing_ok=True)
    ended = folder.run(line)
    folder.check(f"{name}: {line}", ended == (0, "", b""), ended)
    if ended[0] == 0:
        new = Reader(beside(folder, "b.img").read_bytes(), size)
        words = struct.pack("<3I", FIRST, size, len(row.image) // size) + reader.parts[0].entries[0].value[12:]
        folder.check(f"{name}: its superblock", new.parts[0].entries[0].value == words, new.parts[0].entries[0].value)
        folder.check(f"{name}: its tree", new.tree() == row.wanted, new.tree())
        ended = folder.run(f"check -b {size} b.img")
        folder.check(f"{name}: check of the new image", ended == (0, "", said(new)), ended)
    folder.check(f"{name}: what is read stays", (folder.old(), folder.saved()) == (row.image, None))
    beside(folder, "b.img").unlink(missing_ok=True)
    beside(folder, "b.img.lfsj").unlink(missing_ok=True)


def is_told(ended, faults, second):
    """Whether a run was refused with one of these faults, of the image by its name, and with this second line where it is known."""
    lines = ended[1].splitlines()
    is_of_image = all(line.startswith("lfsed: a.img: ") for line in lines[1:])
    is_second = second is None or lines[1:] == [f"lfsed: a.img: {second}"]
    return ended[0] == 3 and not ended[2] and lines[:1] in [[f"lfsed: {fault}"] for fault in faults] and is_of_image and is_second


def is_refused(folder, name, row, device, faults, second):
    """Each command refuses the image, and makes nothing."""
    folder.be(row.image, 0)
    beside(folder, "b.img").write_bytes(plain(row.size)[0])
    before = {*folder.image.parent.iterdir()}
    for words in ASKED:
        line = words.format(size=row.size, device=device)
        status, told, printed = folder.run(line)
        more = reported(name, device, line)
        is_named = not device or device not in told
        is_right = told.endswith(more) and is_told((status, told.removesuffix(more), printed), faults, second) and is_named
        folder.check(f"{name}: {line}", is_right, told)
    folder.check(f"{name}: nothing is made", {*folder.image.parent.iterdir()} == before and folder.old() == row.image)
    beside(folder, "b.img").unlink()


def what_a_device_reads(folder):
    for name, row in ROWS.items():
        if isinstance(row.wanted, dict):
            reader = DeviceReader(row.image, row.size)
            is_read(folder, name, row, reader, " --device")
            is_repacked(folder, name, row, reader, " --device")
        else:
            fault, _, second = row.wanted.partition("\n")
            is_refused(folder, name, row, " --device", [fault], second or None)


def salvage_reads_as_a_device(folder):
    """With `--device` or without it."""
    for name, row in ROWS.items():
        if isinstance(row.wanted, dict):
            folder.be(row.image, 0)
            more = REPORTED.get((name, " --device"))
            wanted = (3, f"lfsed: 22 DamagedCommit\n{OLDER_READ}", b"") if more == OLDER_READ else (0, "", b"")
            for device in "", " --device":
                ended = folder.run(f"salvage -b {row.size}{device} a.img saved")
                folder.check(f"{name}: salvage{device}", ended == wanted, ended)
                is_made(folder, name, "saved", row.wanted)


def what_is_told_without_it(folder):
    for name, row in ROWS.items():
        if isinstance(row.without, dict):
            is_read(folder, name, row._replace(wanted=row.without), Reader(row.image, row.size), "")
        elif isinstance(row.without, str):
            fault, second = UNREAD[row.without]
            is_refused(folder, name, row, "", [fault], second.format("--device reads it"))
        else:
            is_refused(folder, name, row, "", row.without, None)


def the_state_before_is_read_where_that_is_asked_for(folder):
    for name, row in ROWS.items():
        if row.without == "changed":
            found = Reader(row.image, row.size).tree()
            folder.check(f"{name}: the state before", found == HAS_EARLY, found)
            folder.be(row.image, 0)
            for line, printed in ("ls -b 512 --older a.img", listed(HAS_EARLY)), ("cat -b 512 --older a.img /early", b"old"):
                ended = folder.run(line)
                folder.check(f"{name}: {line}", ended == (0, OLDER, printed), ended)


def both_images_are_compared(folder):
    """Each of two images is read as a device reads it; where one isn't read, its fault is told by its name."""
    names = "written: appended to", "written: rewritten", "written: formatted", "expanded: a copy with other attributes"
    for old, new in [(ROWS[old], ROWS[new]) for old in names for new in names]:
        folder.be(old.image, 0)
        beside(folder, "b.img").write_bytes(new.image)
        ended = folder.run("diff -b 512 --device a.img b.img")
        folder.check("compared", ended == ended_by(compared(DeviceReader(old.image, SIZE), DeviceReader(new.image, SIZE))), ended)
        folder.be(eight({0: PLAIN}), 0)
        fault, second = UNREAD[new.without]
        ended = folder.run("diff -b 512 a.img b.img")
        folder.check("the second isn't read", ended == (3, f"lfsed: {fault}\nlfsed: b.img: {second.format('--device reads it')}\n", b""), ended)
        fault, second = UNREAD[old.without]
        folder.be(old.image, 0)
        beside(folder, "b.img").write_bytes(eight({0: PLAIN}))
        ended = folder.run("diff -b 512 a.img b.img")
        folder.check("the first isn't read", ended == (3, f"lfsed: {fault}\nlfsed: a.img: {second.format('--device reads it')}\n", b""), ended)


def commands_that_change_an_image_name_adopt(folder):
    for name in "written: appended to", "written: rewritten", "written: formatted", "versions: 2.1 in commits of 2.0", "expanded: a tail alone":
        row = ROWS[name]
        fault, second = UNREAD[row.without]
        folder.be(row.image, 0)
        for words in CHANGING:
            line = words.replace(" {}", "")
            if line.startswith("forget") and row.without != "changed":
                continue
            ended = folder.run(line)
            told = second.format("adopt takes it over")
            if not line.startswith(("undo", "redo", "forget")):
                told = told.replace(", --older goes on with the state before that", "")
            folder.check(f"{name}: {line}", is_told(ended, [fault], told), ended)
        folder.check(f"{name}: it stands", (folder.old(), folder.saved()) == (row.image, None))


def only_what_reads_takes_it(folder):
    folder.be(PLAIN, SIZE * COUNT)
    for words in CHANGING + MAKING:
        folder.begins(words.format("--device"), "error: unexpected argument '--device' found\n")
    folder.begins("check --device=2.1 a.img", "error: unexpected value '2.1' for '--device' found; no more were expected\n")
    folder.check("what isn't taken", (folder.old(), folder.saved()) == (eight({0: PLAIN}), None))


def blocks_are_as_devices_write_them(folder):
    """Bytes that were written down apart from the writer and the reader of the tests."""
    folder.check("formatted", written(1, SIZE, root()) == FORMATTED.ljust(SIZE, b"\xff"))
    folder.check("made one of version 2.0", log(1, root(version=FIRST), 16) == LOWERED)
    folder.check("a closing tag 0x501", (TURNED.bytes[56:60], TURNED.bytes[64:68]) == (bytes.fromhex("0fe0000c"), bytes.fromhex("d00ff807")))
    folder.check("where logs end", (len(NARROW.bytes), len(FULL.bytes), len(FULL_FORWARD.bytes)) == (507, 512, 512))
    items = expanded(TWO, [former(attribute(0, 1, b"old"), attribute(0, 2, b"gone")), former(attribute(0, 1, b"new"), FILES, limits=(100,))])
    blocks = log(5, items[0], 16).ljust(SIZE, b"\xff"), log(1, items[2], 16).ljust(SIZE, b"\xff")
    folder.check("expanded", blocks == (COPY.ljust(SIZE, b"\xff"), LAST.ljust(SIZE, b"\xff")))


def a_new_image_is_the_one_that_version_2_0_formats(folder):
    folder.be(FORMATTED, SIZE * COUNT)
    ended = folder.run("repack -b 512 --device b.img a.img")
    made = beside(folder, "b.img")
    folder.check("what a device formatted", ended == (0, "", b"") and made.read_bytes() == LOWERED.ljust(SIZE * COUNT, b"\xff"), ended)


def the_size_of_a_block_is_found(folder):
    for name in "written: formatted", "written: rewritten", "forward: forward checksum: of 1022 bytes", "room: several closing tags":
        row = ROWS[name]
        folder.be(row.image, 0)
        ended = folder.run("check -b auto --device a.img")
        folder.check(f"{name}: block size", ended == (0, "", said(DeviceReader(row.image, row.size))), ended)


if __name__ == "__main__":
    sys.exit(run_scenes([
        blocks_are_as_devices_write_them, what_a_device_reads, salvage_reads_as_a_device, what_is_told_without_it, the_state_before_is_read_where_that_is_asked_for,
        both_images_are_compared, commands_that_change_an_image_name_adopt, only_what_reads_takes_it, a_new_image_is_the_one_that_version_2_0_formats,
        the_size_of_a_block_is_found,
    ]))
