#!/usr/bin/env python3
"""Runs the program on rows: what each command line prints, complains and ends with, and what it leaves of the image.

A row is the words behind the program's name, how many bytes of contents come from standard input, the status, what is
complained, and what is printed: a text, or so many bytes of contents."""
import sys

from support.folder import run_scenes
from support.littlefs import IN_BLOCKS, ROOT, Reader
from support.logs import created, file, image, log, superblock

# The first bytes of a new image of 8 blocks of 512 bytes, computed by another program, as those below.
NEW = bytes.fromhex(
    "01000000f00ffff76c6974746c6566732fe00010000002000002000008000000ff000000ffffff7ffe030000701ffc08"
    "c895baf9ffffffffffffffffffffffff"
)

# The same with the name littlefx.
OTHER_NAME = bytes.fromhex(
    "01000000f00ffff76c6974746c6566782fe00010000002000002000008000000ff000000ffffff7ffe030000701ffc08"
    "04a548ceffffffffffffffffffffffff"
)

# The same with the version 0x00020001.
OTHER_VERSION = bytes.fromhex(
    "01000000f00ffff76c6974746c6566732fe00010010002000002000008000000ff000000ffffff7ffe030000701ffc08"
    "d5680ff8ffffffffffffffffffffffff"
)

# The same with a greatest name of 0.
NO_NAMES = bytes.fromhex(
    "01000000f00ffff76c6974746c6566732fe0001000000200000200000800000000000000ffffff7ffe030000701ffc08"
    "1faccbf4ffffffffffffffffffffffff"
)

# The same with a greatest name of 3.
SHORT_NAMES = bytes.fromhex(
    "01000000f00ffff76c6974746c6566732fe0001000000200000200000800000003000000ffffff7ffe030000701ffc08"
    "ed1803ddffffffffffffffffffffffff"
)

# The same with a soft tail to the pair {2,3}.
WITH_TAIL = bytes.fromhex(
    "01000000f00ffff76c6974746c6566732fe00010000002000002000008000000ff000000ffffff7ffe030000401ffc10"
    "02000000030000003000000c6b805cd9"
)

# The same, where the files b and a were created behind the superblock and deleted again.
WITH_DELETED = bytes.fromhex(
    "01000000f00ffff76c6974746c6566732fe00010000002000002000008000000ff000000ffffff7ffe03000060000418"
    "400000016220000001600000004000000161200000016fe00c0000000c001ffff80e66e23f73ffffffffffffffffffff"
)

# The superblock and a file f of 600 bytes whose last block is 3.
TO_ITSELF = bytes.fromhex(
    "01000000f00ffff76c6974746c6566732fe00010000002000002000008000000ff000000ffffff7ffe03000020000419"
    "66203000090300000058020000702ff807d92ede1effffffffffffffffffffff"
)

# The superblock and a file f of 100 bytes whose last block is 8.
HEAD_PAST = bytes.fromhex(
    "01000000f00ffff76c6974746c6566732fe00010000002000002000008000000ff000000ffffff7ffe03000020000419"
    "66203000090800000064000000702ff807ccddb12affffffffffffffffffffff"
)

# The superblock and files a and b of 100 bytes, the last block of both 2.
SHARED = bytes.fromhex(
    "01000000f00ffff76c6974746c6566732fe00010000002000002000008000000ff000000ffffff7ffe03000020000419"
    "6120300009020000006400000020300c0962203000090200000064000000702ff406a7acfdefffffffffffffffffffff"
)

# The superblock and a file f of no bytes whose last block is said to be 9.
EMPTY_WITH_HEAD = bytes.fromhex(
    "01000000f00ffff76c6974746c6566732fe00010000002000002000008000000ff000000ffffff7ffe03000020000419"
    "66203000090900000000000000702ff807e23fb5e5ffffffffffffffffffffff"
)

# The superblock and empty files a and ab, in this order.
SHORT_FIRST = bytes.fromhex(
    "01000000f00ffff76c6974746c6566732fe00010000002000002000008000000ff000000ffffff7ffe03000020000419"
    "612000000120000c02616220000002701ff40d23b033ebffffffffffffffffff"
)

# How block 0 begins after `setattr / 74 0102` on a new image of 8 blocks of 512 bytes: with a second commit.
WITH_ATTRIBUTE = NEW + bytes.fromhex("674ffc120102674ffc049e272fa5ffff")

# How it begins after `rmattr / 74` on that image: with a third one.
WITHOUT_ATTRIBUTE = WITH_ATTRIBUTE + bytes.fromhex("674ffff9674ffff7ce8a9a3effffffff")

# How block 1 begins after `setattr / 74 0102` on such an image in whose block 0 something stands behind the log.
REWRITTEN = bytes.fromhex(
    "02000000f00ffff76c6974746c6566732fe00010000002000002000008000000ff000000ffffff7ffe0300001750001a"
    "0102674ffc08fed4859e"
)

# What stands behind the log of a block to which no commit is appended, since its rest isn't erased.
BEHIND = b"\xff\0"

# What is said of blocks of 260 bytes.
OFF_GRAIN = "lfsed: 2 BadGeometry\nlfsed: --block 260: a block is a multiple of 16 bytes\n"

# Images, which are these bytes with 0xff behind them up to a length, and what is said of each.
JUDGED = [
    (NEW, 4_095, ("check --block 512 a.img", 0, 3, "lfsed: 1 ImageLength\n", "")),
    (NEW, 512, ("check --block 512 a.img", 0, 3, "lfsed: 2 BadGeometry\n", "")),
    (b"", 4_096, ("check --block 512 a.img", 0, 3, "lfsed: 3 NoValidCommit\n", "")),
    (OTHER_NAME, 4_096, ("check --block 512 a.img", 0, 3, "lfsed: 9 NoSuperblock\n", "")),
    (OTHER_VERSION, 4_096, ("check --block 512 a.img", 0, 3, "lfsed: 10 Version\n", "")),
    (NEW, 3_584, ("check --block 512 a.img", 0, 3, "lfsed: 11 Geometry\nlfsed: a.img: its superblock states 8 blocks of 512 bytes\n", "")),
    (NO_NAMES, 4_096, ("check --block 512 a.img", 0, 3, "lfsed: 12 Limits\n", "")),
    (WITH_TAIL, 4_096, ("check --block 512 a.img", 0, 3, "lfsed: 3 NoValidCommit\n", "")),
    (HEAD_PAST, 4_096, ("check --block 512 a.img", 0, 3, "lfsed: 8 BadSkipList\n", "")),
    (SHARED, 4_096, ("check --block 512 a.img", 0, 3, "lfsed: 15 BlockTwice\n", "")),
    (SHORT_FIRST, 4_096, ("check --block 512 a.img", 0, 3, "lfsed: 13 OrderFault\n", "")),
    (b"", 0, ("check a.img", 0, 3, "lfsed: 2 BadGeometry\n", "")),
    (NEW, 4_096, ("check -b 260 a.img", 0, 3, OFF_GRAIN, "")),
    (NEW, 4_096, ("mkdir -b 260 a.img /a", 0, 3, OFF_GRAIN, "")),
    (NEW, 4_096, ("forget -b 260 a.img", 0, 3, OFF_GRAIN, "")),
    (NEW, 4_096, ("extract -b 260 a.img made", 0, 3, OFF_GRAIN, "")),
    (NEW, 4_096, ("format -b 260 --count 8 a.img", 0, 3, OFF_GRAIN, "")),
    (NEW, 4_096, ("cat a.img -b512 /a", 0, 1, "lfsed: 30 NotFound\n", "")),
    (WITH_DELETED, 4_096, ("check --block 512 a.img", 0, 0, "", "block 512, count 8, free 6, directories 1, files 0, version 2.0\n")),
    (NEW, 4_095, ("setattr --block=512 a.img / 74 01", 0, 3, "lfsed: 1 ImageLength\n", "")),
    (b"", 4_096, ("setattr --block=512 a.img / 74 01", 0, 3, "lfsed: 3 NoValidCommit\n", "")),
    (NEW, 3_584, ("setattr --block=512 a.img / 74 01", 0, 3, "lfsed: 11 Geometry\nlfsed: a.img: its superblock states 8 blocks of 512 bytes\n", "")),
]

# A new image of 8 blocks.
EIGHT = [
    ("format --block 512 --count 8 a.img", 0, 0, "", ""),
    ("check --block 512 a.img", 0, 0, "", "block 512, count 8, free 6, directories 1, files 0, version 2.0\n"),
]

# A new image of 2 blocks.
TWO = [
    ("format --block 512 --count 2 a.img", 0, 0, "", ""),
    ("check --block 512 a.img", 0, 0, "", "block 512, count 2, free 0, directories 1, files 0, version 2.0\n"),
]

# Files at the limit up to which their contents stand in the entry, each on an image of its own.
INLINE = [
    [
        ("put --block=512 a.img /f", 0, 0, "", ""),
        ("check --block=512 a.img", 0, 0, "", "block 512, count 8, free 6, directories 1, files 1, version 2.0\n"),
        ("cat --block=512 a.img /f", 0, 0, "", 0),
    ],
    [
        ("put --block=512 a.img /f", 64, 0, "", ""),
        ("check --block=512 a.img", 0, 0, "", "block 512, count 8, free 6, directories 1, files 1, version 2.0\n"),
        ("cat --block=512 a.img /f", 0, 0, "", 64),
        ("check --inline-max 63 --block=512 a.img", 0, 1, "", "block 512, count 8, free 6, directories 1, files 1, version 2.0\n/f\n"),
        ("check --inline-max=64 --block=512 a.img", 0, 0, "", "block 512, count 8, free 6, directories 1, files 1, version 2.0\n"),
    ],
    [
        ("put --block=512 a.img /f", 65, 0, "", ""),
        ("check --block=512 a.img", 0, 0, "", "block 512, count 8, free 5, directories 1, files 1, version 2.0\n"),
        ("cat --block=512 a.img /f", 0, 0, "", 65),
        ("check --inline-max 0 --block=512 a.img", 0, 0, "", "block 512, count 8, free 5, directories 1, files 1, version 2.0\n"),
    ],
]

# How many of 64 blocks are free beside a file of so many bytes, by the size of a block.
TAKEN = {
    512: [(0, 62), (64, 62), (65, 61), (512, 61), (513, 60), (1_020, 60), (1_021, 59), (3_040, 56), (3_041, 55)],
    16_384: [(1_022, 62), (1_023, 61), (16_384, 61), (16_385, 60)],
}

# The least and the greatest images, by the size of a block and their number, and one that is too great.
GEOMETRIES = [(256, 2), (512, 65_536), (65_536, 1_024)]
TOO_GREAT = [("format --block 65536 --count 1025 a.img", 0, 3, "lfsed: 2 BadGeometry\n", "")]

# A file that takes all blocks.
FULL = [
    ("put --block=512 a.img /f", 3_041, 1, "lfsed: 43 NoSpace need 7 free 6\n", ""),
    ("put --block=512 a.img /f", 3_040, 0, "", ""),
    ("check --block=512 a.img", 0, 0, "", "block 512, count 8, free 0, directories 1, files 1, version 2.0\n"),
    ("cat --block=512 a.img /f", 0, 0, "", 3_040),
    ("put --block=512 a.img /f", 3_040, 1, "lfsed: 43 NoSpace need 6 free 0\n", ""),
    ("cat --block=512 a.img /f", 0, 0, "", 3_040),
]

# A replaced file keeps its attributes.
REPLACED = [
    ("put --block=512 a.img /f", 513, 0, "", ""),
    ("setattr --block=512 a.img /f 74 01", 0, 0, "", ""),
    ("check --block=512 a.img", 0, 0, "", "block 512, count 8, free 4, directories 1, files 1, version 2.0\n"),
    ("cat --block=512 a.img /f", 0, 0, "", 513),
    ("put --block=512 a.img /f", 3, 0, "", ""),
    ("check --block=512 a.img", 0, 0, "", "block 512, count 8, free 6, directories 1, files 1, version 2.0\n"),
    ("cat --block=512 a.img /f", 0, 0, "", 3),
    ("rmattr --block=512 a.img /f 74", 0, 0, "", ""),
    ("rmattr --block=512 a.img /f 74", 0, 1, "lfsed: 39 NoAttr\n", ""),
]

# What is no file is not read.
NOT_READ = [
    ("put --block=512 a.img /g", 3, 0, "", ""),
    ("cat --block=512 a.img /", 0, 1, "lfsed: 33 IsADirectory\n", ""),
    ("cat --block=512 a.img /f", 0, 1, "lfsed: 30 NotFound\n", ""),
    ("cat --block=512 a.img /f/g", 0, 1, "lfsed: 30 NotFound\n", ""),
    ("cat --block=512 a.img /g/f", 0, 1, "lfsed: 32 NotADirectory\n", ""),
    ("cat --block=512 a.img g", 0, 1, "lfsed: 35 BadPath\n", ""),
]

# What can be no file is not put.
NOT_PUT = [
    ("put --block=512 a.img /g", 3, 0, "", ""),
    ("put --block=512 a.img /", 3, 1, "lfsed: 41 IsRoot\n", ""),
    ("put --block=512 a.img /f/g", 3, 1, "lfsed: 30 NotFound\n", ""),
    ("put --block=512 a.img /g/f", 3, 1, "lfsed: 32 NotADirectory\n", ""),
    ("put --block=512 a.img f/", 3, 1, "lfsed: 35 BadPath\n", ""),
]

# Files whose names stand in order, a name before its beginnings.
NAMES = [
    ("put --block=512 a.img /ab", 0, 0, "", ""),
    ("put --block=512 a.img /a", 0, 0, "", ""),
    ("put --block=512 a.img /b", 0, 0, "", ""),
    ("check --block=512 a.img", 0, 0, "", "block 512, count 8, free 6, directories 1, files 3, version 2.0\n"),
]

# An image that keeps names up to 3 bytes.
LIMITED = [
    ("put --block=512 a.img /abc", 0, 0, "", ""),
    ("put --block=512 a.img /abcd", 0, 1, "lfsed: 36 NameTooLong\n", ""),
]

# A chain that comes back.
CIRCLE = [
    ("check --block 512 a.img", 0, 3, "lfsed: 8 BadSkipList\n", ""),
]

# More bytes than an image may have.
TOO_MANY = [
    ("format --block 65536 --count 65536 a.img", 0, 3, "lfsed: 2 BadGeometry\n", ""),
]

# An empty file whose entry names a block.
EMPTY = [
    ("cat --block=512 a.img /f", 0, 0, "", ""),
    ("setattr --block=512 a.img /f 74 01", 0, 0, "", ""),
]

# Commands that a new image refuses.
REFUSED = [
    ("rmattr --block=512 a.img / 74", 0, 1, "lfsed: 39 NoAttr\n", ""),
    ("setattr --block=512 a.img /x 74 01", 0, 1, "lfsed: 30 NotFound\n", ""),
    ("rmattr --block=512 a.img /x 74", 0, 1, "lfsed: 30 NotFound\n", ""),
    ("setattr --block=512 a.img /x/y 74 01", 0, 1, "lfsed: 30 NotFound\n", ""),
    ("rmattr --block=512 a.img /x/y 74", 0, 1, "lfsed: 30 NotFound\n", ""),
    ("setattr --block=512 a.img  74 01", 0, 1, "lfsed: 35 BadPath\n", ""),
    ("rmattr --block=512 a.img  74", 0, 1, "lfsed: 35 BadPath\n", ""),
    ("setattr --block=512 a.img a 74 01", 0, 1, "lfsed: 35 BadPath\n", ""),
    ("rmattr --block=512 a.img a 74", 0, 1, "lfsed: 35 BadPath\n", ""),
    ("setattr --block=512 a.img -a 74 01", 0, 1, "lfsed: 35 BadPath\n", ""),
    ("rmattr --block=512 a.img -a 74", 0, 1, "lfsed: 35 BadPath\n", ""),
    ("setattr --block=512 a.img /a/ 74 01", 0, 1, "lfsed: 35 BadPath\n", ""),
    ("rmattr --block=512 a.img /a/ 74", 0, 1, "lfsed: 35 BadPath\n", ""),
    ("setattr --block=512 a.img // 74 01", 0, 1, "lfsed: 35 BadPath\n", ""),
    ("rmattr --block=512 a.img // 74", 0, 1, "lfsed: 35 BadPath\n", ""),
    ("setattr --block=512 a.img /. 74 01", 0, 1, "lfsed: 35 BadPath\n", ""),
    ("rmattr --block=512 a.img /. 74", 0, 1, "lfsed: 35 BadPath\n", ""),
    ("setattr --block=512 a.img /.. 74 01", 0, 1, "lfsed: 35 BadPath\n", ""),
    ("rmattr --block=512 a.img /.. 74", 0, 1, "lfsed: 35 BadPath\n", ""),
    ("mkdir --block=512 a.img /a//b", 0, 1, "lfsed: 35 BadPath\n", ""),
    ("mkdir --block=512 a.img /a/../b", 0, 1, "lfsed: 35 BadPath\n", ""),
    ("mkdir --block=512 a.img //a", 0, 1, "lfsed: 35 BadPath\n", ""),
    ("grow --block=512 a.img 8", 0, 1, "lfsed: 46 BadCount\n", ""),
    ("grow --block=512 a.img 2", 0, 1, "lfsed: 46 BadCount\n", ""),
]

# An attribute of the root is set.
SET = [
    ("setattr --block=512 a.img / 74 0102", 0, 0, "", ""),
]

# It is removed.
REMOVE = [
    ("rmattr --block=512 a.img / 74", 0, 0, "", ""),
]

# What is said of it then.
REMOVED = [
    ("rmattr --block=512 a.img / 74", 0, 1, "lfsed: 39 NoAttr\n", ""),
    ("check --block=512 a.img", 0, 0, "", "block 512, count 8, free 6, directories 1, files 0, version 2.0\n"),
]

# What is moved goes with what is below.
MOVED = [
    ("mkdir --block=512 a.img /a", 0, 0, "", ""),
    ("put --block=512 a.img /a/x", 65, 0, "", ""),
    ("check --block=512 a.img", 0, 0, "", "block 512, count 8, free 3, directories 2, files 1, version 2.0\n"),
    ("mv --block=512 a.img /a /z", 0, 0, "", ""),
    ("cat --block=512 a.img /z/x", 0, 0, "", 65),
    ("cat --block=512 a.img /a/x", 0, 1, "lfsed: 30 NotFound\n", ""),
    ("mv --block=512 a.img /z/x /-x", 0, 0, "", ""),
    ("cat --block=512 a.img /-x", 0, 0, "", 65),
    ("check --block=512 a.img", 0, 0, "", "block 512, count 8, free 3, directories 2, files 1, version 2.0\n"),
    ("rm --block=512 a.img /z", 0, 0, "", ""),
    ("rm --block=512 a.img /-x", 0, 0, "", ""),
    ("cat --block=512 a.img /-x", 0, 1, "lfsed: 30 NotFound\n", ""),
    ("check --block=512 a.img", 0, 0, "", "block 512, count 8, free 6, directories 1, files 0, version 2.0\n"),
]

# What is refused of directories.
NOT_MOVED = [
    ("mkdir --block=512 a.img /a", 0, 0, "", ""),
    ("mkdir --block=512 a.img /a", 0, 1, "lfsed: 31 Exists\n", ""),
    ("mkdir --block=512 a.img /", 0, 1, "lfsed: 41 IsRoot\n", ""),
    ("mkdir --block=512 a.img a", 0, 1, "lfsed: 35 BadPath\n", ""),
    ("mkdir --block=512 a.img /b/c", 0, 1, "lfsed: 30 NotFound\n", ""),
    ("put --block=512 a.img /a/x", 3, 0, "", ""),
    ("rm --block=512 a.img /a", 0, 1, "lfsed: 34 NotEmpty\n", ""),
    ("rm --block=512 a.img /", 0, 1, "lfsed: 41 IsRoot\n", ""),
    ("mv --block=512 a.img /a /a/b", 0, 1, "lfsed: 40 IntoItself\n", ""),
    ("mv --block=512 a.img /a/x /a", 0, 1, "lfsed: 31 Exists\n", ""),
    ("mv --block=512 a.img /a/x /a/x/y", 0, 1, "lfsed: 40 IntoItself\n", ""),
    ("mv --block=512 a.img /b /c", 0, 1, "lfsed: 30 NotFound\n", ""),
]

# Digits that are none are refused before files are read.
BAD_DIGITS = [
    ("setattr a.img / 74 0", 0, 2, "lfsed: 64 BadHex\nlfsed: setattr: HEX isn't two digits for each byte, 0 to 9 or a to f: 0\n", ""),
    ("setattr a.img / 74 0g", 0, 2, "lfsed: 64 BadHex\nlfsed: setattr: HEX isn't two digits for each byte, 0 to 9 or a to f: 0g\n", ""),
    ("setattr a.img / 74 -1", 0, 2, "lfsed: 64 BadHex\nlfsed: setattr: HEX isn't two digits for each byte, 0 to 9 or a to f: -1\n", ""),
    ("setattr a.img / 7 00", 0, 2, "lfsed: 64 BadHex\nlfsed: setattr: KIND isn't two digits, 0 to 9 or a to f: 7\n", ""),
    ("setattr a.img / 7x 00", 0, 2, "lfsed: 64 BadHex\nlfsed: setattr: KIND isn't two digits, 0 to 9 or a to f: 7x\n", ""),
    ("setattr a.img /  ", 0, 2, "lfsed: 64 BadHex\nlfsed: setattr: KIND isn't two digits, 0 to 9 or a to f: \n", ""),
    ("rmattr a.img / 7", 0, 2, "lfsed: 64 BadHex\nlfsed: rmattr: KIND isn't two digits, 0 to 9 or a to f: 7\n", ""),
    ("rmattr a.img / x7", 0, 2, "lfsed: 64 BadHex\nlfsed: rmattr: KIND isn't two digits, 0 to 9 or a to f: x7\n", ""),
    ("rmattr a.img / 0x74", 0, 2, "lfsed: 64 BadHex\nlfsed: rmattr: KIND isn't two digits, 0 to 9 or a to f: 0x74\n", ""),
    ("rmattr a.img / -7", 0, 2, "lfsed: 64 BadHex\nlfsed: rmattr: KIND isn't two digits, 0 to 9 or a to f: -7\n", ""),
]

# Good digits and any path, where there is no image.
NO_IMAGE = [
    ("setattr a.img / 7F ", 0, 4, "lfsed: 60 CannotRead\n", ""),
    ("setattr a.img -a 7f 0Aff", 0, 4, "lfsed: 60 CannotRead\n", ""),
    ("setattr a.img  00 00", 0, 4, "lfsed: 60 CannotRead\n", ""),
    ("rmattr a.img -a Ff", 0, 4, "lfsed: 60 CannotRead\n", ""),
    ("grow a.img 16", 0, 4, "lfsed: 60 CannotRead\n", ""),
    ("grow a.img 65536", 0, 4, "lfsed: 60 CannotRead\n", ""),
    ("sync a.img .", 0, 4, "lfsed: 60 CannotRead\n", ""),
    ("rm -r a.img /a", 0, 4, "lfsed: 60 CannotRead\n", ""),
    ("mkdir -p a.img /a", 0, 4, "lfsed: 60 CannotRead\n", ""),
    ("put -p a.img /a", 0, 4, "lfsed: 60 CannotRead\n", ""),
    ("undo a.img", 0, 4, "lfsed: 60 CannotRead\n", ""),
    ("forget a.img", 0, 4, "lfsed: 60 CannotRead\n", ""),
    ("adopt a.img", 0, 4, "lfsed: 60 CannotRead\n", ""),
]

# The size of an image of 8 blocks of 512 bytes in each way that it is said, and of one that grew to 16.
SIZES = ["--count 8", "--size 4096", "--size=4k", "--size 0x1000", "--size 0x00001000"]
GROWN = ["16", "--size 8192", "--size=8k", "--size 0x2000"]
GROWN_CHECK = ("check -b 512 a.img", 0, 0, "", "block 512, count 16, free 14, directories 1, files 0, version 2.0\n")

# The block size that the first block states, said in each way.
AUTO = [
    ("check --block auto a.img", 0, 0, "", "block 512, count 8, free 6, directories 1, files 0, version 2.0\n"),
    ("mkdir --block=auto a.img /d", 0, 0, "", ""),
    ("ls -b auto a.img", 0, 0, "", "d          - /\nd          - /d\n"),
    ("undo -bauto a.img", 0, 0, "", ""),
    ("grow -b auto a.img --size 8k", 0, 0, "", ""),
    ("check --older -b auto a.img", 0, 0, "", "block 512, count 16, free 14, directories 1, files 0, version 2.0\n"),
    ("check a.img", 0, 3, "lfsed: 11 Geometry\nlfsed: a.img: its superblock states 16 blocks of 512 bytes\n", ""),
]

# Images that state their block size elsewhere than in front of block 0, each with one file: in block 1 alone, with blocks of several
# sizes, and behind a tag that creates the superblock's entry; and how `check` describes them.
def stated_elsewhere():
    """Images and what `check --block auto` prints of them."""
    for size in 256, 272, 4_080, 8_192, 65_536:
        second = image(size, 4, {0: bytes(4), 1: log(1, superblock(size, 4) + file(1, b"f"))})
        yield second, f"block {size}, count 4, free 2, directories 1, files 1, version 2.0\n"
    made = [*created(0), *superblock(512, 4), *created(1), *file(1, b"f")]
    yield image(512, 4, {0: log(1, made)}), "block 512, count 4, free 2, directories 1, files 1, version 2.0\n"
    yield image(512, 4, {0: bytes(512), 1: log(1, made)}), "block 512, count 4, free 2, directories 1, files 1, version 2.0\n"


MORE = "\n\nFor more information, try '--help'.\n"
NOT_SAID = "error: the following required arguments were not provided:\n"
NO_SIZE = "error: invalid value '%s' for '--size <BYTES>': "
NO_PLACE = "error: invalid value '%s' for '--offset <BYTES>': "
NO_NUMBER = "it is no number of bytes: decimal, hexadecimal behind 0x, or decimal with k or M behind it"
CONTENTS_TIP = "  tip: the contents are read from standard input, or from a file with '--from FILE'"
FORMAT_USAGE = "Usage: lfsed format [OPTIONS] <--count <N>|--size <BYTES>> <IMAGE>"
PACK_USAGE = "Usage: lfsed pack [OPTIONS] <--count <N>|--size <BYTES>|--least> <IMAGE> <DIR>"
REPACK_USAGE = "Usage: lfsed repack [OPTIONS] <IMAGE> <SOURCE>"
GROW_USAGE = "Usage: lfsed grow [OPTIONS] <IMAGE> <COUNT|--size <BYTES>>"

# Command lines that are refused, and how what is complained begins.
USAGE = [
    ("explain 23", "error: invalid value '23' for '[FAULT]...': no fault has this number or name\n\nFor more information, try '--help'.\n"),
    ("explain 41 nospaces", "error: invalid value 'nospaces' for '[FAULT]...': no fault has this number or name\n\nFor more information, try '--help'.\n"),
    ("chekc a.img", "error: unrecognized subcommand 'chekc'\n\n  tip: a similar subcommand exists: 'check'\n\nUsage: lfsed <COMMAND>\n\nFor more information, try '--help'.\n"),
    ("check --xml a.img", "error: unexpected argument '--xml' found\n\nUsage: lfsed check [OPTIONS] <IMAGE>\n\nFor more information, try '--help'.\n"),
    ("", "error: 'lfsed' requires a subcommand but one was not provided\n"),
    ("frob", "error: unrecognized subcommand 'frob'\n"),
    ("create a.img", "error: unrecognized subcommand 'create'\n\n  tip: a similar subcommand exists: 'cat'\n\nUsage: lfsed <COMMAND>\n\nFor more information, try '--help'.\n"),
    ("format a.img", f"{NOT_SAID}  <--count <N>|--size <BYTES>>\n\n{FORMAT_USAGE}{MORE}"),
    ("format --count 8 --size 32k a.img", f"error: the argument '--count <N>' cannot be used with '--size <BYTES>'\n\n{FORMAT_USAGE}{MORE}"),
    ("format --size 100 a.img", f"{NO_SIZE % '100'}100 is no multiple of the block size, 4096{MORE}"),
    ("format --size 0x64 -b 512 a.img", f"{NO_SIZE % '0x64'}100 is no multiple of the block size, 512{MORE}"),
    ("format --size 4096 a.img", f"{NO_SIZE % '4096'}4096 is not in 8192..=268435456{MORE}"),
    ("format --size 257M a.img", f"{NO_SIZE % '257M'}269484032 is not in 8192..=268435456{MORE}"),
    ("format --size 0 a.img", f"{NO_SIZE % '0'}0 is not in 8192..=268435456{MORE}"),
    ("format --size 1G a.img", f"{NO_SIZE % '1G'}{NO_NUMBER}{MORE}"),
    ("format --size 4K a.img", f"{NO_SIZE % '4K'}{NO_NUMBER}{MORE}"),
    ("format --size k a.img", f"{NO_SIZE % 'k'}{NO_NUMBER}{MORE}"),
    ("format --size 0x10k a.img", f"{NO_SIZE % '0x10k'}{NO_NUMBER}{MORE}"),
    ("format --size 0X8000 a.img", f"{NO_SIZE % '0X8000'}{NO_NUMBER}{MORE}"),
    ("format --size= a.img", f"{NO_SIZE % ''}{NO_NUMBER}{MORE}"),
    ("format --size 18446744073709551616 a.img", f"{NO_SIZE % '18446744073709551616'}{NO_NUMBER}{MORE}"),
    ("format --size 17592186044416M a.img", f"{NO_SIZE % '17592186044416M'}{NO_NUMBER}{MORE}"),
    ("format --least a.img", "error: unexpected argument '--least' found\n"),
    ("format --count 8 --name-max 1023 a.img", "error: invalid value '1023' for '--name-max <N>': 1023 is not in 1..=1022\n"),
    ("format --count 8 --name-max 0 a.img", "error: invalid value '0' for '--name-max <N>': 0 is not in 1..=1022\n"),
    ("format --count 8 --file-max 2147483648 a.img", "error: invalid value '2147483648' for '--file-max <N>': 2147483648 is not in 1..=2147483647\n"),
    ("format --count 8 --attr-max 1023 a.img", "error: invalid value '1023' for '--attr-max <N>': 1023 is not in 1..=1022\n"),
    ("format --count 8 --block auto a.img", "error: invalid value 'auto' for '--block <BYTES>': invalid digit found in string\n"),
    ("format --count 8 --older a.img", "error: unexpected argument '--older' found\n"),
    ("mkdir --older a.img /d", "error: unexpected argument '--older' found\n"),
    ("put --older a.img /f", "error: unexpected argument '--older' found\n"),
    ("rm --older a.img /f", "error: unexpected argument '--older' found\n"),
    ("mv --older a.img /f /g", "error: unexpected argument '--older' found\n"),
    ("setattr --older a.img /f 74 00", "error: unexpected argument '--older' found\n"),
    ("rmattr --older a.img /f 74", "error: unexpected argument '--older' found\n"),
    ("grow --older a.img 9", "error: unexpected argument '--older' found\n"),
    ("sync --older a.img src", "error: unexpected argument '--older' found\n"),
    ("batch --older a.img steps", "error: unexpected argument '--older' found\n"),
    ("format --count 8 --new=1 a.img", "error: unexpected value '1' for '--new' found; no more were expected\n"),
    ("pack a.img src", f"{NOT_SAID}  <--count <N>|--size <BYTES>|--least>\n\n{PACK_USAGE}{MORE}"),
    ("pack --least --count 8 a.img src", f"error: the argument '--count <N>' cannot be used with '--least'\n\n{PACK_USAGE}{MORE}"),
    ("pack --least --size 32k a.img src", f"error: the argument '--size <BYTES>' cannot be used with '--least'\n\n{PACK_USAGE}{MORE}"),
    ("pack --count 8 --size 32k a.img src", f"error: the argument '--count <N>' cannot be used with '--size <BYTES>'\n\n{PACK_USAGE}{MORE}"),
    ("pack --least --least a.img src", "error: the argument '--least' cannot be used multiple times\n"),
    ("pack --least --block auto a.img src", "error: invalid value 'auto' for '--block <BYTES>': invalid digit found in string\n"),
    ("pack --least a.img -src", "error: unexpected argument '-s' found\n"),
    ("repack a.img", f"{NOT_SAID}  <SOURCE>\n\nUsage: lfsed repack <IMAGE> <SOURCE>{MORE}"),
    ("repack --least --count 8 a.img b.img", f"error: the argument '--count <N>' cannot be used with '--least'\n\n{REPACK_USAGE}{MORE}"),
    ("repack --least --size 32k a.img b.img", f"error: the argument '--size <BYTES>' cannot be used with '--least'\n\n{REPACK_USAGE}{MORE}"),
    ("repack --count 8 --size 32k a.img b.img", f"error: the argument '--count <N>' cannot be used with '--size <BYTES>'\n\n{REPACK_USAGE}{MORE}"),
    ("repack --size 100 a.img b.img", f"{NO_SIZE % '100'}100 is no multiple of the block size, 4096{MORE}"),
    ("repack --size 1G a.img b.img", f"{NO_SIZE % '1G'}{NO_NUMBER}{MORE}"),
    ("repack --block auto a.img b.img", "error: invalid value 'auto' for '--block <BYTES>': invalid digit found in string\n"),
    ("repack --from-block x a.img b.img", f"error: invalid value 'x' for '--from-block <BYTES>': invalid digit found in string{MORE}"),
    ("repack --from-block 255 a.img b.img", "error: invalid value '255' for '--from-block <BYTES>': 255 is not in 256..=65536\n"),
    ("repack --from-block 65537 a.img b.img", "error: invalid value '65537' for '--from-block <BYTES>': 65537 is not in 256..=65536\n"),
    ("repack --from-block= a.img b.img", "error: invalid value '' for '--from-block <BYTES>': cannot parse integer from empty string\n"),
    ("repack --name-max 0 a.img b.img", "error: invalid value '0' for '--name-max <N>': 0 is not in 1..=1022\n"),
    ("repack --file-max 2147483648 a.img b.img", "error: invalid value '2147483648' for '--file-max <N>': 2147483648 is not in 1..=2147483647\n"),
    ("repack --keep 1 a.img b.img", "error: unexpected argument '--keep' found\n"),
    ("repack a.img -b.img", "error: invalid value '.img' for '--block <BYTES>'"),
    ("repack a.img -x", "error: unexpected argument '-x' found\n"),
    ("check --from-block 512 a.img", "error: unexpected argument '--from-block' found\n"),
    ("find", "error: the following required arguments were not provided:\n  <FLASH>\n"),
    ("find a.img b.img", "error: unexpected argument 'b.img' found\n"),
    ("find --block 512 a.img", "error: unexpected argument '--block' found\n"),
    ("find -x", "error: unexpected argument '-x' found\n"),
    ("check --offset a.img", "error: the following required arguments were not provided:\n  <IMAGE>\n"),
    ("check --offset 1G a.img", f"{NO_PLACE % '1G'}{NO_NUMBER}{MORE}"),
    ("check --offset= a.img", f"{NO_PLACE % ''}{NO_NUMBER}{MORE}"),
    ("repack --offset 0x a.img b.img", f"{NO_PLACE % '0x'}{NO_NUMBER}{MORE}"),
    ("log --offset 4k a.img", "error: unexpected argument '--offset' found\n"),
    ("check --offse 4k a.img", "error: unexpected argument '--offse' found\n\n  tip: a similar argument exists: '--offset'\n\nUsage: lfsed check "),
    ("pack --device --least a.img src", "error: unexpected argument '--device' found\n"),
    ("log --device a.img", "error: unexpected argument '--device' found\n"),
    ("check --devic a.img", "error: unexpected argument '--devic' found\n\n  tip: a similar argument exists: '--device'\n\nUsage: lfsed check "),
    ("check --device=2.1 a.img", "error: unexpected value '2.1' for '--device' found; no more were expected\n"),
    ("format --count 8", "error: the following required arguments were not provided:\n  <IMAGE>\n"),
    ("format --count 1 a.img", "error: invalid value '1' for '--count <N>': 1 is not in 2..=65536\n"),
    ("format --count eight a.img", "error: invalid value 'eight' for '--count <N>': invalid digit found in string\n"),
    ("format --block 255 --count 8 a.img", "error: invalid value '255' for '--block <BYTES>': 255 is not in 256..=65536\n"),
    ("check --block 65537 a.img", "error: invalid value '65537' for '--block <BYTES>': 65537 is not in 256..=65536\n"),
    ("check --block x a.img", "error: invalid value 'x' for '--block <BYTES>': invalid digit found in string\n\nFor more information, try '--help'.\n"),
    ("check --block= a.img", "error: invalid value '' for '--block <BYTES>': cannot parse integer from empty string\n"),
    ("check --block=-512 a.img", "error: invalid value '-512' for '--block <BYTES>': -512 is not in 256..=65536\n"),
    ("check --block 70000000000 a.img", "error: invalid value '70000000000' for '--block <BYTES>': 70000000000 is not in 256..=65536\n"),
    ("check --block Auto a.img", "error: invalid value 'Auto' for '--block <BYTES>': invalid digit found in string\n"),
    ("check --new a.img", "error: unexpected argument '--new' found\n"),
    ("check --inline-max x a.img", "error: invalid value 'x' for '--inline-max <N>': invalid digit found in string\n"),
    ("check --inline-max= a.img", "error: invalid value '' for '--inline-max <N>': cannot parse integer from empty string\n"),
    ("check --inline-max 2147483648 a.img", "error: invalid value '2147483648' for '--inline-max <N>': 2147483648 is not in 0..=2147483647\n"),
    ("check --inline-max 8", "error: the following required arguments were not provided:\n  <IMAGE>\n"),
    ("check a.img --inline-max", "error: a value is required for '--inline-max <N>' but none was supplied\n"),
    ("ls --inline-max 8 a.img", "error: unexpected argument '--inline-max' found\n"),
    ("check --olde a.img", "error: unexpected argument '--olde' found\n\n  tip: a similar argument exists: '--older'\n\nUsage: lfsed check "),
    ("put a.img /x notes", f"error: unexpected argument 'notes' found\n\n{CONTENTS_TIP}\n\nUsage: lfsed put [OPTIONS] <IMAGE> <PATH>{MORE}"),
    ("put a.img /x --from", "error: a value is required for '--from <FILE>' but none was supplied\n"),
    ("put a.img /x --from -x", "error: unexpected argument '-x' found\n"),
    ("cat --from notes a.img /x", "error: unexpected argument '--from' found\n"),
    ("check a.img b.img", "error: unexpected argument 'b.img' found\n"),
    ("mkdir a.img", "error: the following required arguments were not provided:\n  <PATH>\n"),
    ("rm a.img /a /b", "error: unexpected argument '/b' found\n"),
    ("rm -x a.img", "error: unexpected argument '-x' found\n"),
    ("check a.img -x", "error: unexpected argument '-x' found\n"),
    ("extract a.img -x", "error: unexpected argument '-x' found\n"),
    ("extract a.img made /a more", "error: unexpected argument 'more' found\n"),
    ("ls a.img /a more", "error: unexpected argument 'more' found\n"),
    ("salvage a.img -x", "error: unexpected argument '-x' found\n"),
    ("batch a.img -x", "error: unexpected argument '-x' found\n"),
    ("batch a.img steps more", "error: unexpected argument 'more' found\n"),
    ("batch --keep 0 a.img steps", "error: invalid value '0' for '--keep <K>': 0 is not in 1..=1000\n"),
    ("batch --size 32k a.img steps", "error: unexpected argument '--size' found\n"),
    ("batch", "error: the following required arguments were not provided:\n  <IMAGE>\n"),
    ("explain -5", "error: invalid value '-5' for '[FAULT]...': no fault has this number or name\n"),
    ("mv a.img /a", "error: the following required arguments were not provided:\n  <TO>\n"),
    ("setattr a.img / 74", "error: the following required arguments were not provided:\n  <HEX>\n"),
    ("rmattr a.img /", "error: the following required arguments were not provided:\n  <KIND>\n"),
    ("rmattr a.img / 74 00", "error: unexpected argument '00' found\n"),
    ("grow", f"{NOT_SAID}  <IMAGE>\n\n{GROW_USAGE}{MORE}"),
    ("grow a.img", f"{NOT_SAID}  <COUNT|--size <BYTES>>\n\n{GROW_USAGE}{MORE}"),
    ("grow a.img 0", "error: invalid value '0' for '[COUNT]': 0 is not in 2..=65536\n"),
    ("grow a.img 1", "error: invalid value '1' for '[COUNT]': 1 is not in 2..=65536\n"),
    ("grow a.img 65537", "error: invalid value '65537' for '[COUNT]': 65537 is not in 2..=65536\n"),
    ("grow a.img x", "error: invalid value 'x' for '[COUNT]': invalid digit found in string\n"),
    ("grow a.img 16 --size 64k", f"error: the argument '[COUNT]' cannot be used with '--size <BYTES>'\n\n{GROW_USAGE}{MORE}"),
    ("grow a.img --size 4097", f"{NO_SIZE % '4097'}4097 is no multiple of the block size, 4096{MORE}"),
    ("grow -b 512 a.img --size 0x200", f"{NO_SIZE % '0x200'}512 is not in 1024..=33554432{MORE}"),
    ("grow a.img -1", "error: unexpected argument '-1' found\n"),
    ("grow a.img 16 17", "error: unexpected argument '17' found\n"),
    ("grow --count 16 a.img", "error: unexpected argument '--count' found\n"),
    ("setattr --block 255 a.img / 7 0", "error: invalid value '255' for '--block <BYTES>': 255 is not in 256..=65536\n"),
    ("sync a.img", "error: the following required arguments were not provided:\n  <DIR>\n"),
    ("sync a.img src / more", "error: unexpected argument 'more' found\n"),
    ("sync a.img -src", "error: unexpected argument '-s' found\n"),
    ("sync --count 8 a.img src", "error: unexpected argument '--count' found\n"),
    ("sync --keep 0 a.img src", "error: invalid value '0' for '--keep <K>': 0 is not in 1..=1000\n"),
    ("rm a.img -r", "error: the following required arguments were not provided:\n  <PATH>\n"),
    ("rm a.img --recursive", "error: the following required arguments were not provided:\n  <PATH>\n"),
    ("mkdir a.img -p", "error: the following required arguments were not provided:\n  <PATH>\n"),
    ("put a.img --parents", "error: the following required arguments were not provided:\n  <PATH>\n"),
    ("sync -r a.img src", "error: unexpected argument '-r' found\n"),
    ("rm -p a.img /a", "error: unexpected argument '-p' found\n"),
    ("mkdir -r a.img /a", "error: unexpected argument '-r' found\n"),
    ("rm -rr a.img /a", "error: the argument '--recursive' cannot be used multiple times\n"),
    ("mkdir --parents=1 a.img /a", "error: unexpected value '1' for '--parents' found; no more were expected\n"),
    ("mv -p a.img /a /b", "error: unexpected argument '-p' found\n"),
    ("undo", "error: the following required arguments were not provided:\n  <IMAGE>\n"),
    ("redo a.img /a", "error: unexpected argument '/a' found\n"),
    ("mkdir --keep 0 a.img /a", "error: invalid value '0' for '--keep <K>': 0 is not in 1..=1000\n"),
    ("grow a.img 16 --keep 1001", "error: invalid value '1001' for '--keep <K>': 1001 is not in 1..=1000\n"),
    ("rm --keep x a.img /a", "error: invalid value 'x' for '--keep <K>': invalid digit found in string\n"),
    ("check --keep 1 a.img", "error: unexpected argument '--keep' found\n"),
    ("undo a.img --keep 1", "error: unexpected argument '--keep' found\n"),
    ("adopt a.img --keep 1", "error: unexpected argument '--keep' found\n"),
    ("adopt --older a.img", "error: unexpected argument '--older' found\n"),
    ("adopt --replace a.img /a", "error: unexpected argument '/a' found\n"),
    ("forget -b 250 a.img", "error: invalid value '250' for '--block <BYTES>': 250 is not in 256..=65536\n"),
]

# Help, the version and an explanation.
HELPS = [
    ("explain 41", 0, 0, "", "41 IsRoot\nThe root can't be made, put, moved or removed.\n"),
    ("explain IsRoot", 0, 0, "", "41 IsRoot\nThe root can't be made, put, moved or removed.\n"),
    ("explain isROOT", 0, 0, "", "41 IsRoot\nThe root can't be made, put, moved or removed.\n"),
    ("explain 41 IsRoot", 0, 0, "", "41 IsRoot\nThe root can't be made, put, moved or removed.\n"),
    ("explain noattr 41", 0, 0, "", "39 NoAttr\nThere is no attribute of that kind to be removed.\n\n41 IsRoot\nThe root can't be made, put, moved or removed.\n"),
    ("--help", 0, 0, "", "Edit littlefs images of disk version 2.0\n\nUsage: lfsed <COMMAND>\n\nCommands:\n  format   Write a new image, in place of a file of this name\n  pack     Write a new image with what is in a folder, in place of a file of this name\n  repack   Write a new image with all that another one holds, in place of a file of this name\n  find     List where in a file images begin, with what they state and whether they mount\n  extract  Make a new folder with what is in an image; attributes are left behind\n  salvage  Make a new folder with all that can still be read of an image, also of one that doesn't mount\n  check    Judge an image; print its geometry, free blocks, directories and files\n  ls       List what stands at each path, with sizes and attributes\n  blocks   Print which blocks hold what, and which are free\n  cat      Print the contents of a file\n  diff     List what another image has otherwise, row by row, as ls prints it\n  log      List the changes that the journal keeps, and what each of them changed\n  mkdir    Make a directory\n  put      Put a file, in place of one of this path; its contents are read from standard input\n  rm       Remove a file or an empty directory\n  mv       Move a file, or a directory with all that is below it\n  setattr  Set an attribute of a file or a directory\n  rmattr   Remove an attribute of a file or a directory\n  grow     Lengthen an image by erased blocks; what it holds stays\n  sync     Make an image like a folder, as one change: what is equal stays as it is\n  undo     Take the latest change back, byte for byte\n  redo     Make the latest change again that was taken back\n  forget   Keep the image alone: its changes can no longer be taken back\n  adopt    Take over an image that a device wrote, in place\n  batch    Carry out the steps of a script, a line each: all of them or none\n  explain  Say what faults mean, and what to do\n  help     Print this message or the help of the given subcommand(s)\n\nOptions:\n  -h, --help     Print help\n  -V, --version  Print version\n\nStatus: 0 done; 1 the change is refused, images differ, or files in entries\nare too long; 2 the command line is refused; 3 the image or its journal is\nrefused; 4 out of memory, or a file is not read or written.\n\nWith --json in front of the command all is told as JSON, an object a line.\n"),
    ("help", 0, 0, "", "Edit littlefs images of disk version 2.0\n\nUsage: lfsed <COMMAND>\n\nCommands:\n  format   Write a new image, in place of a file of this name\n  pack     Write a new image with what is in a folder, in place of a file of this name\n  repack   Write a new image with all that another one holds, in place of a file of this name\n  find     List where in a file images begin, with what they state and whether they mount\n  extract  Make a new folder with what is in an image; attributes are left behind\n  salvage  Make a new folder with all that can still be read of an image, also of one that doesn't mount\n  check    Judge an image; print its geometry, free blocks, directories and files\n  ls       List what stands at each path, with sizes and attributes\n  blocks   Print which blocks hold what, and which are free\n  cat      Print the contents of a file\n  diff     List what another image has otherwise, row by row, as ls prints it\n  log      List the changes that the journal keeps, and what each of them changed\n  mkdir    Make a directory\n  put      Put a file, in place of one of this path; its contents are read from standard input\n  rm       Remove a file or an empty directory\n  mv       Move a file, or a directory with all that is below it\n  setattr  Set an attribute of a file or a directory\n  rmattr   Remove an attribute of a file or a directory\n  grow     Lengthen an image by erased blocks; what it holds stays\n  sync     Make an image like a folder, as one change: what is equal stays as it is\n  undo     Take the latest change back, byte for byte\n  redo     Make the latest change again that was taken back\n  forget   Keep the image alone: its changes can no longer be taken back\n  adopt    Take over an image that a device wrote, in place\n  batch    Carry out the steps of a script, a line each: all of them or none\n  explain  Say what faults mean, and what to do\n  help     Print this message or the help of the given subcommand(s)\n\nOptions:\n  -h, --help     Print help\n  -V, --version  Print version\n\nStatus: 0 done; 1 the change is refused, images differ, or files in entries\nare too long; 2 the command line is refused; 3 the image or its journal is\nrefused; 4 out of memory, or a file is not read or written.\n\nWith --json in front of the command all is told as JSON, an object a line.\n"),
    ("help mv", 0, 0, "", "Move a file, or a directory with all that is below it\n\nUsage: lfsed mv [OPTIONS] <IMAGE> <FROM> <TO>\n\nArguments:\n  <IMAGE>  File of the image\n  <FROM>   Path of what is moved, from / on\n  <TO>     Path that it gets, from / on; nothing may be there\n\nOptions:\n  -b, --block <BYTES>  Size of a block, a multiple of 16 from 256 to 65536, or auto [default: 4096]\n      --keep <K>       Number of the latest changes that are kept, from 1 to 1000; all where it is not said\n  -h, --help           Print help\n"),
    ("--version", 0, 0, "", "lfsed 0.2.0\n"),
    ("-V", 0, 0, "", "lfsed 0.2.0\n"),
    ("format --help", 0, 0, "", "Write a new image, in place of a file of this name\n\nUsage: lfsed format [OPTIONS] <--count <N>|--size <BYTES>> <IMAGE>\n\nArguments:\n  <IMAGE>  File of the image\n\nOptions:\n  -b, --block <BYTES>  Size of a block, a multiple of 16 from 256 to 65536 [default: 4096]\n      --count <N>      Number of blocks, from 2 to 65536; at most 67108864 bytes in all\n      --size <BYTES>   Size of the image, in place of the number of blocks: 1048576, 0x100000, 1024k or 1M\n      --name-max <N>   Greatest length of a name in bytes, from 1 to 1022 [default: 255]\n      --file-max <N>   Greatest length of a file in bytes, from 1 to 2147483647 [default: 2147483647]\n      --attr-max <N>   Greatest length of an attribute in bytes, from 1 to 1022 [default: 1022]\n      --new            Refuse to replace a file that is there\n  -h, --help           Print help\n"),
    ("pack --help", 0, 0, "", "Write a new image with what is in a folder, in place of a file of this name\n\nUsage: lfsed pack [OPTIONS] <--count <N>|--size <BYTES>|--least> <IMAGE> <DIR>\n\nArguments:\n  <IMAGE>  File of the image\n  <DIR>    Folder, of whose files and folders the image is made\n\nOptions:\n  -b, --block <BYTES>   Size of a block, a multiple of 16 from 256 to 65536 [default: 4096]\n      --count <N>       Number of blocks, from 2 to 65536; at most 67108864 bytes in all\n      --size <BYTES>    Size of the image, in place of the number of blocks: 1048576, 0x100000, 1024k or 1M\n      --least           Give it the least number of blocks that holds the folder\n      --inline-max <N>  Greatest length in bytes of a file that stands in its entry; never more than 1022 or an eighth of a block\n      --name-max <N>    Greatest length of a name in bytes, from 1 to 1022 [default: 255]\n      --file-max <N>    Greatest length of a file in bytes, from 1 to 2147483647 [default: 2147483647]\n      --attr-max <N>    Greatest length of an attribute in bytes, from 1 to 1022 [default: 1022]\n      --new             Refuse to replace a file that is there\n  -h, --help            Print help\n"),
    ("repack --help", 0, 0, "", "Write a new image with all that another one holds, in place of a file of this name\n\nUsage: lfsed repack [OPTIONS] <IMAGE> <SOURCE>\n\nArguments:\n  <IMAGE>   File of the image\n  <SOURCE>  File of the image that it is made of; it may be IMAGE itself\n\nOptions:\n  -b, --block <BYTES>       Size of a block, a multiple of 16 from 256 to 65536 [default: 4096]\n      --from-block <BYTES>  Size of a block of SOURCE, a multiple of 16 from 256 to 65536, or auto [default: auto]\n      --count <N>           Number of blocks, from 2 to 65536; at most 67108864 bytes in all\n      --size <BYTES>        Size of the image, in place of the number of blocks: 1048576, 0x100000, 1024k or 1M\n      --least               Give it the least number of blocks that holds all of it\n      --inline-max <N>      Greatest length in bytes of a file that stands in its entry; never more than 1022 or an eighth of a block\n      --name-max <N>        Greatest length of a name in bytes, from 1 to 1022; that of SOURCE where it is not said\n      --file-max <N>        Greatest length of a file in bytes, from 1 to 2147483647; that of SOURCE where it is not said\n      --attr-max <N>        Greatest length of an attribute in bytes, from 1 to 1022; that of SOURCE where it is not said\n      --new                 Refuse to replace a file that is there\n      --device              Read the image as a device does: also disk version 2.1, and a superblock that was expanded\n      --offset <BYTES>      Place in SOURCE at which the image begins: 1114112, 0x110000, 1088k or 1M\n      --older               Go on with the state before commits of a later disk version, which are not read\n  -h, --help                Print help\n"),
    ("find --help", 0, 0, "", "List where in a file images begin, with what they state and whether they mount\n\nUsage: lfsed find [OPTIONS] <FLASH>\n\nArguments:\n  <FLASH>  File that images are looked for in\n\nOptions:\n      --device  Read the image as a device does: also disk version 2.1, and a superblock that was expanded\n      --json    Print an object of JSON a line\n  -h, --help    Print help\n"),
    ("extract --help", 0, 0, "", "Make a new folder with what is in an image; attributes are left behind\n\nUsage: lfsed extract [OPTIONS] <IMAGE> <DIR> [PATH]\n\nArguments:\n  <IMAGE>  File of the image\n  <DIR>    Folder that is made; nothing may be there\n  [PATH]   Path in the image that the folder is made of, from / on, with all below it; all of the image where none is said\n\nOptions:\n  -b, --block <BYTES>   Size of a block, a multiple of 16 from 256 to 65536, or auto [default: 4096]\n      --device          Read the image as a device does: also disk version 2.1, and a superblock that was expanded\n      --offset <BYTES>  Place in the file at which the image begins: 1114112, 0x110000, 1088k or 1M\n      --older           Go on with the state before commits of a later disk version, which are not read\n  -h, --help            Print help\n"),
    ("salvage --help", 0, 0, "", "Make a new folder with all that can still be read of an image, also of one that doesn't mount\n\nUsage: lfsed salvage [OPTIONS] <IMAGE> <DIR>\n\nArguments:\n  <IMAGE>  File of the image\n  <DIR>    Folder that is made; nothing may be there\n\nOptions:\n  -b, --block <BYTES>   Size of a block, a multiple of 16 from 256 to 65536, or auto [default: 4096]\n      --device          Read the image as a device does: also disk version 2.1, and a superblock that was expanded\n      --offset <BYTES>  Place in the file at which the image begins: 1114112, 0x110000, 1088k or 1M\n      --older           Go on with the state before commits of a later disk version, which are not read\n  -h, --help            Print help\n"),
    ("check --help", 0, 0, "", "Judge an image; print its geometry, free blocks, directories and files\n\nUsage: lfsed check [OPTIONS] <IMAGE>\n\nArguments:\n  <IMAGE>  File of the image\n\nOptions:\n  -b, --block <BYTES>   Size of a block, a multiple of 16 from 256 to 65536, or auto [default: 4096]\n      --inline-max <N>  List the files that stand in their entries and are longer than this, in bytes; status 1 if there are some\n      --json            Print an object of JSON a line\n      --device          Read the image as a device does: also disk version 2.1, and a superblock that was expanded\n      --offset <BYTES>  Place in the file at which the image begins: 1114112, 0x110000, 1088k or 1M\n      --older           Go on with the state before commits of a later disk version, which are not read\n  -h, --help            Print help\n"),
    ("ls --help", 0, 0, "", "List what stands at each path, with sizes and attributes\n\nUsage: lfsed ls [OPTIONS] <IMAGE> [PATH]\n\nArguments:\n  <IMAGE>  File of the image\n  [PATH]   Path in the image that is listed, from / on, with all below it; all of the image where none is said\n\nOptions:\n  -b, --block <BYTES>   Size of a block, a multiple of 16 from 256 to 65536, or auto [default: 4096]\n      --sha256          Print the SHA-256 of each file's contents too\n      --json            Print an object of JSON a line\n      --device          Read the image as a device does: also disk version 2.1, and a superblock that was expanded\n      --offset <BYTES>  Place in the file at which the image begins: 1114112, 0x110000, 1088k or 1M\n      --older           Go on with the state before commits of a later disk version, which are not read\n  -h, --help            Print help\n"),
    ("blocks --help", 0, 0, "", "Print which blocks hold what, and which are free\n\nUsage: lfsed blocks [OPTIONS] <IMAGE>\n\nArguments:\n  <IMAGE>  File of the image\n\nOptions:\n  -b, --block <BYTES>   Size of a block, a multiple of 16 from 256 to 65536, or auto [default: 4096]\n      --sum             Print how many blocks each path takes, with all that is below it\n      --json            Print an object of JSON a line\n      --device          Read the image as a device does: also disk version 2.1, and a superblock that was expanded\n      --offset <BYTES>  Place in the file at which the image begins: 1114112, 0x110000, 1088k or 1M\n      --older           Go on with the state before commits of a later disk version, which are not read\n  -h, --help            Print help\n"),
    ("cat --help", 0, 0, "", "Print the contents of a file\n\nUsage: lfsed cat [OPTIONS] <IMAGE> <PATH>\n\nArguments:\n  <IMAGE>  File of the image\n  <PATH>   Path of a file or a directory in the image, from / on\n\nOptions:\n  -b, --block <BYTES>   Size of a block, a multiple of 16 from 256 to 65536, or auto [default: 4096]\n      --device          Read the image as a device does: also disk version 2.1, and a superblock that was expanded\n      --offset <BYTES>  Place in the file at which the image begins: 1114112, 0x110000, 1088k or 1M\n      --older           Go on with the state before commits of a later disk version, which are not read\n  -h, --help            Print help\n"),
    ("diff --help", 0, 0, "", "List what another image has otherwise, row by row, as ls prints it\n\nUsage: lfsed diff [OPTIONS] <IMAGE> <OTHER>\n\nArguments:\n  <IMAGE>  File of the image\n  <OTHER>  File of the image that it is compared with\n\nOptions:\n  -b, --block <BYTES>   Size of a block, a multiple of 16 from 256 to 65536, or auto [default: 4096]\n      --quiet           Print nothing; the status says whether the images differ\n      --json            Print an object of JSON a line\n      --device          Read the image as a device does: also disk version 2.1, and a superblock that was expanded\n      --offset <BYTES>  Place in the file at which the image begins: 1114112, 0x110000, 1088k or 1M\n      --older           Go on with the state before commits of a later disk version, which are not read\n  -h, --help            Print help\n"),
    ("log --help", 0, 0, "", "List the changes that the journal keeps, and what each of them changed\n\nUsage: lfsed log [OPTIONS] <IMAGE>\n\nArguments:\n  <IMAGE>  File of the image\n\nOptions:\n  -b, --block <BYTES>  Size of a block, a multiple of 16 from 256 to 65536, or auto [default: 4096]\n      --json           Print an object of JSON a line\n      --older          Go on with the state before commits of a later disk version, which are not read\n  -h, --help           Print help\n"),
    ("mkdir --help", 0, 0, "", "Make a directory\n\nUsage: lfsed mkdir [OPTIONS] <IMAGE> <PATH>\n\nArguments:\n  <IMAGE>  File of the image\n  <PATH>   Path of a file or a directory in the image, from / on\n\nOptions:\n  -b, --block <BYTES>  Size of a block, a multiple of 16 from 256 to 65536, or auto [default: 4096]\n  -p, --parents        Make the directories above it too where they lack, as one change\n      --keep <K>       Number of the latest changes that are kept, from 1 to 1000; all where it is not said\n  -h, --help           Print help\n"),
    ("put --help", 0, 0, "", "Put a file, in place of one of this path; its contents are read from standard input\n\nUsage: lfsed put [OPTIONS] <IMAGE> <PATH>\n\nArguments:\n  <IMAGE>  File of the image\n  <PATH>   Path of a file or a directory in the image, from / on\n\nOptions:\n  -b, --block <BYTES>   Size of a block, a multiple of 16 from 256 to 65536, or auto [default: 4096]\n      --from <FILE>     File that the contents are read from, in place of standard input\n  -p, --parents         Make the directories above it too where they lack, as one change\n      --inline-max <N>  Greatest length in bytes of a file that stands in its entry; never more than 1022 or an eighth of a block\n      --keep <K>        Number of the latest changes that are kept, from 1 to 1000; all where it is not said\n  -h, --help            Print help\n"),
    ("rm --help", 0, 0, "", "Remove a file or an empty directory\n\nUsage: lfsed rm [OPTIONS] <IMAGE> <PATH>\n\nArguments:\n  <IMAGE>  File of the image\n  <PATH>   Path of a file or a directory in the image, from / on\n\nOptions:\n  -b, --block <BYTES>  Size of a block, a multiple of 16 from 256 to 65536, or auto [default: 4096]\n  -r, --recursive      Remove a directory with all that is below it, as one change\n      --keep <K>       Number of the latest changes that are kept, from 1 to 1000; all where it is not said\n  -h, --help           Print help\n"),
    ("mv --help", 0, 0, "", "Move a file, or a directory with all that is below it\n\nUsage: lfsed mv [OPTIONS] <IMAGE> <FROM> <TO>\n\nArguments:\n  <IMAGE>  File of the image\n  <FROM>   Path of what is moved, from / on\n  <TO>     Path that it gets, from / on; nothing may be there\n\nOptions:\n  -b, --block <BYTES>  Size of a block, a multiple of 16 from 256 to 65536, or auto [default: 4096]\n      --keep <K>       Number of the latest changes that are kept, from 1 to 1000; all where it is not said\n  -h, --help           Print help\n"),
    ("setattr --help", 0, 0, "", "Set an attribute of a file or a directory\n\nUsage: lfsed setattr [OPTIONS] <IMAGE> <PATH> <KIND> <HEX>\n\nArguments:\n  <IMAGE>  File of the image\n  <PATH>   Path of a file or a directory in the image, from / on\n  <KIND>   Kind of the attribute, in two hexadecimal digits\n  <HEX>    Value of the attribute, in two hexadecimal digits for each byte; may be empty\n\nOptions:\n  -b, --block <BYTES>  Size of a block, a multiple of 16 from 256 to 65536, or auto [default: 4096]\n      --keep <K>       Number of the latest changes that are kept, from 1 to 1000; all where it is not said\n  -h, --help           Print help\n"),
    ("rmattr --help", 0, 0, "", "Remove an attribute of a file or a directory\n\nUsage: lfsed rmattr [OPTIONS] <IMAGE> <PATH> <KIND>\n\nArguments:\n  <IMAGE>  File of the image\n  <PATH>   Path of a file or a directory in the image, from / on\n  <KIND>   Kind of the attribute, in two hexadecimal digits\n\nOptions:\n  -b, --block <BYTES>  Size of a block, a multiple of 16 from 256 to 65536, or auto [default: 4096]\n      --keep <K>       Number of the latest changes that are kept, from 1 to 1000; all where it is not said\n  -h, --help           Print help\n"),
    ("grow --help", 0, 0, "", "Lengthen an image by erased blocks; what it holds stays\n\nUsage: lfsed grow [OPTIONS] <IMAGE> <COUNT|--size <BYTES>>\n\nArguments:\n  <IMAGE>  File of the image\n  [COUNT]  Number of blocks that it gets, more than it has; at most 65536, and 67108864 bytes in all\n\nOptions:\n  -b, --block <BYTES>  Size of a block, a multiple of 16 from 256 to 65536, or auto [default: 4096]\n      --size <BYTES>   Size of the image, in place of the number of blocks: 1048576, 0x100000, 1024k or 1M\n      --keep <K>       Number of the latest changes that are kept, from 1 to 1000; all where it is not said\n  -h, --help           Print help\n"),
    ("sync --help", 0, 0, "", "Make an image like a folder, as one change: what is equal stays as it is\n\nUsage: lfsed sync [OPTIONS] <IMAGE> <DIR> [PATH]\n\nArguments:\n  <IMAGE>  File of the image\n  <DIR>    Folder, whose files and folders the image gets\n  [PATH]   Path in the image that is made like the folder, from / on; all of it where none is said\n\nOptions:\n  -b, --block <BYTES>   Size of a block, a multiple of 16 from 256 to 65536, or auto [default: 4096]\n      --inline-max <N>  Greatest length in bytes of a file that stands in its entry; never more than 1022 or an eighth of a block\n      --keep <K>        Number of the latest changes that are kept, from 1 to 1000; all where it is not said\n  -h, --help            Print help\n"),
    ("undo --help", 0, 0, "", "Take the latest change back, byte for byte\n\nUsage: lfsed undo [OPTIONS] <IMAGE>\n\nArguments:\n  <IMAGE>  File of the image\n\nOptions:\n  -b, --block <BYTES>  Size of a block, a multiple of 16 from 256 to 65536, or auto [default: 4096]\n      --steps <N>      Number of changes, from 1 to 1000: all of them, or none where there are fewer [default: 1]\n      --older          Go on with the state before commits of a later disk version, which are not read\n  -h, --help           Print help\n"),
    ("redo --help", 0, 0, "", "Make the latest change again that was taken back\n\nUsage: lfsed redo [OPTIONS] <IMAGE>\n\nArguments:\n  <IMAGE>  File of the image\n\nOptions:\n  -b, --block <BYTES>  Size of a block, a multiple of 16 from 256 to 65536, or auto [default: 4096]\n      --steps <N>      Number of changes, from 1 to 1000: all of them, or none where there are fewer [default: 1]\n      --older          Go on with the state before commits of a later disk version, which are not read\n  -h, --help           Print help\n"),
    ("forget --help", 0, 0, "", "Keep the image alone: its changes can no longer be taken back\n\nUsage: lfsed forget [OPTIONS] <IMAGE>\n\nArguments:\n  <IMAGE>  File of the image\n\nOptions:\n  -b, --block <BYTES>  Size of a block, a multiple of 16 from 256 to 65536, or auto [default: 4096]\n      --older          Go on with the state before commits of a later disk version, which are not read\n  -h, --help           Print help\n"),
    ("adopt --help", 0, 0, "", "Take over an image that a device wrote, in place\n\nUsage: lfsed adopt [OPTIONS] <IMAGE>\n\nArguments:\n  <IMAGE>  File of the image\n\nOptions:\n  -b, --block <BYTES>  Size of a block, a multiple of 16 from 256 to 65536, or auto [default: 4096]\n      --replace        Replace a journal that has changes, which adopt refuses else\n      --json           Print an object of JSON a line\n  -h, --help           Print help\n"),
    ("batch --help", 0, 0, "", "Carry out the steps of a script, a line each: all of them or none\n\nUsage: lfsed batch [OPTIONS] <IMAGE> [FILE]\n\nArguments:\n  <IMAGE>  File of the image\n  [FILE]   File of the script, in place of standard input\n\nOptions:\n  -b, --block <BYTES>   Size of a block, a multiple of 16 from 256 to 65536, or auto [default: 4096]\n      --one             Make one change of all steps, which one undo takes back; undo, redo and forget are none of them\n      --inline-max <N>  Greatest length in bytes of a file that stands in its entry; never more than 1022 or an eighth of a block\n      --keep <K>        Number of the latest changes that are kept, from 1 to 1000; all where it is not said\n  -h, --help            Print help\n"),
]


def verdicts(folder):
    for front, length, row in JUDGED:
        folder.be(front, length)
        folder.play([row])
    for rows, length in (EIGHT, 4_096), (TWO, 1_024):
        folder.image.unlink()
        folder.play(rows)
        folder.check("length", len(folder.old()) == length)
    folder.be(b"old", 3)
    folder.play([("format --block=512 --count=8 a.img", 0, 0, "", "")])
    folder.check("an old image is replaced", folder.old() == NEW.ljust(4_096, b"\xff"))
    folder.be(TO_ITSELF.ljust(1_536, b"\xff") + b"\3\0\0\0", 4_096)
    folder.play(CIRCLE)
    folder.be(EMPTY_WITH_HEAD, 4_096)
    folder.play(EMPTY)
    (entry,) = Reader(folder.old(), 512).entries(ROOT)
    folder.check("a head of 0", (entry.kind, entry.value, entry.attributes) == (IN_BLOCKS, bytes(8), {0x74: b"\1"}), entry.value)
    folder.image.unlink()
    folder.play([*TOO_MANY, *TOO_GREAT])
    for size, count in GEOMETRIES:
        free = f"block {size}, count {count}, free {count - 2}, directories 1, files 0, version 2.0\n"
        folder.play([(f"format -b {size} --count {count} a.img", 0, 0, "", ""), (f"check -b {size} a.img", 0, 0, "", free)])
        folder.check(f"length of {count} blocks", len(folder.old()) == size * count)
        folder.image.unlink()


def files(folder):
    for size, rows in TAKEN.items():
        for length, free in rows:
            said = f"block {size}, count 64, free {free}, directories 1, files 1, version 2.0\n"
            folder.play([
                (f"format -b {size} --count 64 a.img", 0, 0, "", ""),
                (f"put -b {size} a.img /f", length, 0, "", ""),
                (f"check -b {size} a.img", 0, 0, "", said),
            ])
    for rows in [*INLINE, REPLACED, NOT_READ, NOT_PUT]:
        folder.be(NEW, 4_096)
        folder.play(rows)
    folder.be(NEW, 4_096)
    folder.play(FULL)
    folder.check("head and size", bytes([7, 0, 0, 0, 0xE0, 0x0B, 0, 0]) in folder.old()[:512])
    folder.holds("pointers", 3_072, bytes([5, 0, 0, 0, 4, 0, 0, 0, 2, 0, 0, 0]))
    folder.holds("pointers", 3_584, bytes([6, 0, 0, 0]))
    folder.be(NEW, 4_096)
    folder.play(NAMES)
    for at, part in (0, NEW), (72, b"ab"), (104, b"a"), (136, b"b"):
        folder.holds("names as they came", at, part)
    names = [entry.name for entry in Reader(folder.old(), 512).entries(ROOT)]
    folder.check("names in order", names == [b"ab", b"a", b"b"], names)
    folder.be(SHORT_NAMES + BEHIND, 4_096)
    folder.play(LIMITED)
    folder.holds("names are limited", 544, bytes([3, 0, 0, 0]))
    folder.image.unlink()
    folder.play([("format --block=256 --count=4 a.img", 0, 0, "", "")])
    for name, status, said in (80 * "a", 0, ""), (80 * "c", 0, ""), (130 * "b", 1, "lfsed: 43 NoSpace need 4 free 2\n"):
        folder.play([(f"put --block=256 a.img /{name}", 0, status, said, "")])


def changes(folder):
    folder.be(NEW, 4_096)
    folder.play(REFUSED)
    folder.play(SET)
    folder.check("set", folder.old() == WITH_ATTRIBUTE.ljust(4_096, b"\xff"))
    folder.play(REMOVE)
    folder.check("removed", folder.old() == WITHOUT_ATTRIBUTE.ljust(4_096, b"\xff"))
    folder.play(REMOVED)
    folder.be(NEW + BEHIND, 4_096)
    folder.play(SET)
    folder.holds("block 0", 0, NEW + BEHIND)
    folder.holds("block 1", 512, REWRITTEN)
    for rows in MOVED, NOT_MOVED, BAD_DIGITS:
        folder.be(NEW, 4_096)
        folder.play(rows)


def sizes(folder):
    for said in SIZES:
        folder.play([(f"format -b 512 {said} a.img", 0, 0, "", "")])
        folder.check(said, folder.old() == NEW.ljust(4_096, b"\xff"))
        folder.image.unlink()
    folder.play([("format --size 1M a.img", 0, 0, "", ""), ("check a.img", 0, 0, "", "block 4096, count 256, free 254, directories 1, files 0, version 2.0\n")])
    for said in GROWN:
        folder.be(NEW, 4_096)
        folder.play([(f"grow -b 512 a.img {said}", 0, 0, "", ""), GROWN_CHECK])
    folder.be(NEW, 4_096)
    folder.play(AUTO)
    for bytes_of_image, printed in stated_elsewhere():
        folder.be(bytes_of_image, 0)
        folder.play([("check -b auto a.img", 0, 0, "", printed)])
    folder.image.unlink()
    ended = folder.run("check -b auto a.img")
    folder.check("no image", ended[0] == 4 and ended[1].startswith("lfsed: 60 CannotRead\n"), ended)


def command_lines(folder):
    folder.play([*BAD_DIGITS, *HELPS])
    for words, length, status, complaint, printed in NO_IMAGE:
        ended = folder.run(words, length)
        folder.check(words, ended[0] == status and ended[1].startswith(complaint) and ended[2] == printed.encode(), ended)
    for words, front in USAGE:
        folder.begins(words, front)


sys.exit(run_scenes([verdicts, files, changes, sizes, command_lines]))
