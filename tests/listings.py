#!/usr/bin/env python3
"""Lists images, of which some come from a writer apart from the program, and compares each listing with the one that a reader
apart from it makes: every path in its order, with sizes and attributes."""
import random
import struct
import sys

from support.folder import run_scenes
from support.littlefs import DIRECTORY, IN_BLOCKS, ROOT, Reader
from support.logs import HARD, SOFT, attribute, directory, file, image, log, superblock, tail
from support.texts import lines_of

WORKED = """d          - /
d          - /a
@ 74 0102
f          5 /a/x
"""
IN_ORDER = """d          - /
f          0 /ab
f          0 /a
f          0 /b
"""
OF_ODD_NAMES = """d          - /
f          0 /a\\x0a\\x5c
f          0 /\\x7f
f          0 /\\xc3\\xa9
"""


def size_of(entry):
    """The size of a file."""
    return struct.unpack("<2I", entry.value)[1] if entry.kind == IN_BLOCKS else len(entry.value)


def listing_of(data, size):
    """The listing of an image of blocks of a size."""
    reader = Reader(data, size)
    root = reader.parts_of(ROOT)[0].entries[0].attributes
    text, waiting = [], [(b"/", None, root, ROOT)]
    while waiting:
        path, length, attributes, pair = waiting.pop()
        text.append(lines_of(path, length, attributes))
        for entry in reversed(reader.entries(pair) if pair else []):
            leads = entry.kind == DIRECTORY
            name = path.rstrip(b"/") + b"/" + entry.name
            waiting.append((name, None if leads else size_of(entry), entry.attributes, entry.pair() if leads else None))
    return "".join(text)


def listed(folder, what, size, wanted=None):
    """Lists the image, and compares with what is wanted, or with what the reader makes of it."""
    wanted = listing_of(folder.old(), size) if wanted is None else wanted
    ended = folder.run(f"ls -b {size} a.img")
    folder.check(what, ended == (0, "", wanted.encode()), ended)


def worked_listings(folder):
    folder.play([
        ("format --block 512 --count 8 a.img", 0, 0, "", ""),
        ("ls --block 512 a.img", 0, 0, "", "d          - /\n"),
        ("mkdir --block 512 a.img /a", 0, 0, "", ""),
        ("put --block 512 a.img /a/x", 5, 0, "", ""),
        ("setattr --block 512 a.img /a 74 0102", 0, 0, "", ""),
        ("ls --block 512 a.img", 0, 0, "", WORKED),
        ("format --block 512 --count 8 a.img", 0, 0, "", ""),
        ("put --block 512 a.img /ab", 0, 0, "", ""),
        ("put --block 512 a.img /a", 0, 0, "", ""),
        ("put --block 512 a.img /b", 0, 0, "", ""),
        ("ls --block 512 a.img", 0, 0, "", IN_ORDER),
        ("setattr --block 512 a.img / 00 ", 0, 0, "", ""),
        ("setattr --block 512 a.img / FF 0aF0", 0, 0, "", ""),
        ("ls --block 512 a.img", 0, 0, "", IN_ORDER.replace("/\n", "/\n@ 00 \n@ ff 0af0\n", 1)),
    ])


def odd_names(folder):
    entries = superblock(512, 8) + file(1, b"a\n\\") + file(2, b"\x7f") + file(3, "é".encode())
    folder.be(image(512, 8, {0: log(1, entries)}), 0)
    listed(folder, "odd names", 512, OF_ODD_NAMES)


def what_is_no_image(folder):
    folder.be(b"", 4_096)
    folder.play([("ls --block 512 a.img", 0, 3, "lfsed: 3 NoValidCommit\n", "")])
    folder.be(b"", 4_095)
    folder.play([("ls --block 512 a.img", 0, 3, "lfsed: 1 ImageLength\n", "")])


def nested(folder):
    """Directories named d in each other, of which the deepest has a file and attributes."""
    count = 300
    blocks = {0: log(1, superblock(256, 2 * count + 2) + directory(1, b"d", (2, 3)) + tail(SOFT, (2, 3)))}
    for n in range(1, count):
        pair = 2 * n + 2, 2 * n + 3
        blocks[2 * n] = log(1, directory(0, b"d", pair) + attribute(0, n % 256, b"%d" % n) + tail(SOFT, pair))
    blocks[2 * count] = log(1, file(0, b"f", b"deep") + attribute(0, 1, b"") + attribute(0, 2, bytes(100)))
    folder.be(image(256, 2 * count + 2, blocks), 0)
    listed(folder, "nested directories", 256)


def parts(folder):
    """A directory of two parts."""
    blocks = {
        0: log(1, superblock(512, 8) + directory(1, b"e", (2, 3)) + file(2, b"f", b"12") + tail(SOFT, (2, 3))),
        2: log(1, file(0, b"a", bytes(10)) + file(1, b"b") + tail(HARD, (4, 5))),
        4: log(1, file(0, b"c", bytes(64)) + attribute(0, 0x30, b"\xde\xad")),
    }
    folder.be(image(512, 8, blocks), 0)
    listed(folder, "a directory of two parts", 512)


def random_trees(folder):
    """Images on which random commands were carried out."""
    chance = random.Random(7)
    for _ in range(8):
        folder.play([("format -b 256 --count 200 a.img", 0, 0, "", "")])
        directories = [""]
        for n in range(40):
            path = f"{chance.choice(directories)}/{chance.choice('abcdef')}{n}{chance.choice(['', 'x' * 60])}"
            if chance.random() < 0.3:
                folder.run(f"mkdir -b 256 a.img {path}")
                directories.append(path)
            else:
                folder.run(f"put -b 256 a.img {path}", chance.choice([0, 1, 32, 33, 700]))
            if chance.random() < 0.3:
                folder.run(f"setattr -b 256 a.img {path} {chance.randrange(256):02x} {chance.randbytes(3).hex()}")
        listed(folder, "a random tree", 256)


sys.exit(run_scenes([worked_listings, odd_names, what_is_no_image, nested, parts, random_trees]))
