#!/usr/bin/env python3
"""Makes images with limits that are asked for: `format` and `pack` state them as a writer apart from the program does, and what is
longer than they say is refused."""
import sys

from support.folder import contents, run_scenes
from support.littlefs import ROOT, Reader
from support.logs import image, log, superblock

# The limits that an image may have at least and at most, in the order of their options.
OPTIONS = ("--name-max", "name"), ("--file-max", "file"), ("--attr-max", "attribute")
LEAST, MOST = (1, 1, 1), (1_022, 2_147_483_647, 1_022)

# The first bytes of a new image of 8 blocks of 512 bytes with the limits 3, 100 and 5, computed by another program.
LIMITED = bytes.fromhex(
    "01000000f00ffff76c6974746c6566732fe00010000002000002000008000000030000006400000005000000701ffc08"
    "c464c187ffffffffffffffffffffffff"
)

# Limits that are asked for, by their names in the superblock.
ASKED = [
    {},
    {"name": 3},
    {"file": 100},
    {"attribute": 5},
    {"attribute": 5, "name": 6, "file": 7},
    {"name": 3, "file": 100, "attribute": 5},
    *(dict(zip(("name", "file", "attribute"), limits)) for limits in (LEAST, MOST)),
]

# What is put on an image of 16 blocks of 512 bytes with these limits: each time as much as there may be, and a byte more.
SHORT = {"name": 3, "file": 100, "attribute": 5}
PUT = [
    ("mkdir -b 512 a.img /abc", 0, 0, ""),
    ("mkdir -b 512 a.img /abcd", 0, 1, "lfsed: 36 NameTooLong\n"),
    ("mv -b 512 a.img /abc /abcd", 0, 1, "lfsed: 36 NameTooLong\n"),
    ("put -b 512 a.img /abc/f", 100, 0, ""),
    ("put -b 512 a.img /abc/f", 101, 1, "lfsed: 37 FileTooLarge\n"),
    ("setattr -b 512 a.img /abc 74 0102030405", 0, 0, ""),
    ("setattr -b 512 a.img /abc 74 010203040506", 0, 1, "lfsed: 38 AttrTooLarge\n"),
]


def said(limits):
    """The words that ask for limits."""
    return "".join(f" {option} {limits[name]}" for option, name in OPTIONS if name in limits)


def ends(folder, words, length, status, complaint):
    """Runs the program, and compares its status and how what it complains begins; where it is refused, no file changes."""
    before = folder.old(), folder.saved()
    ended = folder.run(words, length)
    folder.check(words, ended[0] == status and ended[1].startswith(complaint) and bool(ended[1]) == bool(status), ended)
    folder.check(f"{words}: files", status == 0 or (folder.old(), folder.saved()) == before)


def formatted(folder):
    for limits in ASKED:
        for size, count in (256, 2), (512, 8), (4_096, 64):
            words = f"format -b {size} --count {count}{said(limits)} a.img"
            folder.check(words, folder.run(words) == (0, "", b""))
            wanted = image(size, count, {0: log(1, superblock(size, count, **limits), 16)})
            folder.check(f"{words}: bytes", folder.old() == wanted, folder.old()[:64].hex())
            ended = folder.run(f"check -b {size} a.img")
            folder.check(f"{words}: check", ended[:2] == (0, ""), ended)


def bytes_with_limits(folder):
    """The superblock alone, and the image is erased behind it."""
    words = "format -b 512 --count 8 --name-max 3 --file-max 100 --attr-max 5 a.img"
    folder.check(words, folder.run(words) == (0, "", b""))
    folder.check(f"{words}: bytes", folder.old() == LIMITED.ljust(4_096, b"\xff"), folder.old()[:64].hex())


def put(folder):
    folder.check("format", folder.run(f"format -b 512 --count 16{said(SHORT)} a.img") == (0, "", b""))
    for row in PUT:
        ends(folder, *row)


def packed(folder):
    place = folder.image.with_name("src")
    (place / "abc").mkdir(parents=True)
    (place / "abc/f").write_bytes(contents(100))
    words = f"pack -b 512 --count 16{said(SHORT)} a.img src"
    ends(folder, words, 0, 0, "")
    reader = Reader(folder.old(), 512)
    folder.check("rows", [path for path, _ in reader.rows()] == [b"/", b"/abc", b"/abc/f"])
    stated = reader.part(ROOT).entries[0].value
    folder.check("what is stated", stated == superblock(512, 16, **SHORT)[1][2], stated.hex())
    for row in PUT[1:]:
        ends(folder, *row)
    for name, length, complaint in ("abcd", 1, "lfsed: 36 NameTooLong\n"), ("g", 101, "lfsed: 37 FileTooLarge\n"):
        (place / name).write_bytes(contents(length))
        ends(folder, words, 0, 1, complaint)
        ends(folder, f"pack -b 512 --least{said(SHORT)} a.img src", 0, 1, complaint)
        ends(folder, "pack -b 512 --count 16 b.img src", 0, 0, "")
        (place / name).unlink()


if __name__ == "__main__":
    sys.exit(run_scenes([formatted, bytes_with_limits, put, packed]))
