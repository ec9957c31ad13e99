#!/usr/bin/env python3
"""What is told behind a fault, in a second line: the path that it is of, the limit that isn't kept, what the first block states, how
many blocks a folder needs, and what stands where it may not. Each row was written by hand."""
import struct
import sys

from support.folder import contents, run_scenes
from later import version
from support.logs import HARD, NO_ENTRY, SOFT, attribute, chained, directory, file, image, log, superblock, tail

MADE = [
    ("mkdir -b 512 a.img /a", 0),
    ("put -b 512 a.img /a/f", 3),
    ("mkdir -b 512 a.img /d", 0),
    ("setattr -b 512 a.img /a/f 75 01", 0),
]

# Commands on that image, and what is told: the first line, and the second one behind the image's name.
PATHS = [
    ("cat -b 512 a.img /x", "30 NotFound", "/x: nothing is there"),
    ("cat -b 512 a.img /a/x", "30 NotFound", "/a/x: nothing is there"),
    ("mkdir -b 512 a.img /x/y/z", "30 NotFound", "/x: nothing is there"),
    ("put -b 512 a.img /a/x/y", "30 NotFound", "/a/x: nothing is there"),
    ("rm -b 512 a.img /x", "30 NotFound", "/x: nothing is there"),
    ("ls -b 512 a.img /a/x", "30 NotFound", "/a/x: nothing is there"),
    ("extract -b 512 a.img made /x/y", "30 NotFound", "/x: nothing is there"),
    ("mv -b 512 a.img /x /y", "30 NotFound", "/x: nothing is there"),
    ("mv -b 512 a.img /a/f /x/y", "30 NotFound", "/x: nothing is there"),
    ("setattr -b 512 a.img /x 74 01", "30 NotFound", "/x: nothing is there"),
    ("rmattr -b 512 a.img /x/y 74", "30 NotFound", "/x: nothing is there"),
    ("mkdir -b 512 a.img /a", "31 Exists", "/a: something is there"),
    ("mkdir -b 512 a.img /a/f", "31 Exists", "/a/f: something is there"),
    ("mv -b 512 a.img /a /d", "31 Exists", "/d: is a directory: say /d/a"),
    ("mv -b 512 a.img /a/f /d", "31 Exists", "/d: is a directory: say /d/f"),
    ("mv -b 512 a.img /a/f /a", "31 Exists", "/a: is a directory: say /a/f"),
    ("mv -b 512 a.img /a /a", "31 Exists", "/a: something is there"),
    ("mv -b 512 a.img /d /a/f", "31 Exists", "/a/f: something is there"),
    ("mkdir -b 512 a.img /a/f/x", "32 NotADirectory", "/a/f: is a file"),
    ("cat -b 512 a.img /a/f/x/y", "32 NotADirectory", "/a/f: is a file"),
    ("ls -b 512 a.img /a/f/x", "32 NotADirectory", "/a/f: is a file"),
    ("extract -b 512 a.img made /a/f", "32 NotADirectory", "/a/f: is a file"),
    ("extract -b 512 a.img made /a/f/x/y", "32 NotADirectory", "/a/f: is a file"),
    ("mv -b 512 a.img /a/f/x /y", "32 NotADirectory", "/a/f: is a file"),
    ("mv -b 512 a.img /d /a/f/x", "32 NotADirectory", "/a/f: is a file"),
    ("cat -b 512 a.img /a", "33 IsADirectory", "/a: is a directory"),
    ("put -b 512 a.img /a", "33 IsADirectory", "/a: is a directory"),
    ("rm -b 512 a.img /a", "34 NotEmpty", "/a: is not empty"),
    ("cat -b 512 a.img x", "35 BadPath", "x: a path begins with /: try /x"),
    ("ls -b 512 a.img /a/", "35 BadPath", "/a/: a path has no slash at its end: try /a"),
    ("extract -b 512 a.img made a", "35 BadPath", "a: a path begins with /: try /a"),
    ("mkdir -b 512 a.img a/x/", "35 BadPath", "a/x/: a path begins with /: try /a/x/"),
    ("mkdir -b 512 a.img /a/x/", "35 BadPath", "/a/x/: a path has no slash at its end: try /a/x"),
    ("put -b 512 a.img /a/", "35 BadPath", "/a/: a path has no slash at its end: try /a"),
    ("mkdir -b 512 a.img /a//x", "35 BadPath", "/a//x: two slashes stand together"),
    ("mkdir -b 512 a.img /a/../x", "35 BadPath", "/a/../x: no name of a path is . or .."),
    ("mkdir -b 512 a.img /./x", "35 BadPath", "/./x: no name of a path is . or .."),
    ("mv -b 512 a.img x /y", "35 BadPath", "x: a path begins with /: try /x"),
    ("mv -b 512 a.img /a y", "35 BadPath", "y: a path begins with /: try /y"),
    (f"mkdir -b 512 a.img /{256 * 'n'}", "36 NameTooLong", f"/{256 * 'n'}: its name is longer than 255 bytes"),
    (f"mv -b 512 a.img /d /{256 * 'n'}", "36 NameTooLong", f"/{256 * 'n'}: its name is longer than 255 bytes"),
    (f"setattr -b 512 a.img / 74 {1_023 * '00'}", "38 AttrTooLarge", "/: its attribute is longer than 1022 bytes"),
    ("rmattr -b 512 a.img /a/f 74", "39 NoAttr", "/a/f: has no attribute of kind 74"),
    ("rmattr -b 512 a.img / 0B", "39 NoAttr", "/: has no attribute of kind 0b"),
    ("mv -b 512 a.img /a /a/x", "40 IntoItself", "/a: can't be moved to /a/x, which is below it"),
    ("rm -b 512 a.img /", "41 IsRoot", "/: is the root"),
    ("mv -b 512 a.img / /x", "41 IsRoot", "/: is the root"),
    ("mv -b 512 a.img /a /", "41 IsRoot", "/: is the root"),
    (f"setattr -b 512 a.img /a/f 74 {600 * '00'}", "42 EntryTooLarge", "/a/f: takes more than a block has room for"),
    ("grow -b 512 a.img 32", "46 BadCount", "has 32 blocks; grow only lengthens"),
    ("grow -b 512 a.img 2", "46 BadCount", "has 32 blocks; grow only lengthens"),
    ("undo -b 512 --steps 333 a.img", "53 NothingToUndo", "changes that are done: 4, fewer than 333"),
    ("redo -b 512 --steps 2 a.img", "54 NothingToRedo", "changes that are undone: 0, fewer than 2"),
    ("mkdir -b 512 a.img /\\/x", "30 NotFound", "/\\x5c: nothing is there"),
    ("mkdir -b 512 a.img /\xe4/x", "30 NotFound", "/\\xc3\\xa4: nothing is there"),
]

# A small image of three bytes for a name, and two for contents and attributes.
SMALL = image(512, 8, {0: log(1, superblock(512, 8, 3, 2, 2))})

LIMITS = [
    ("mkdir -b 512 a.img /four", 0, "36 NameTooLong", "/four: its name is longer than 3 bytes"),
    ("put -b 512 a.img /f", 3, "37 FileTooLarge", "/f: its contents are longer than 2 bytes"),
    ("setattr -b 512 a.img / 74 010203", 0, "38 AttrTooLarge", "/: its attribute is longer than 2 bytes"),
]


def pointing(pointers):
    """A block of a file with pointers to those before it."""
    return struct.pack(f"<{len(pointers)}I", *pointers).ljust(512, b"x")


# A directory below the root, and one below that, each by its entry and by the thread.
TO_ETC, TO_NET = directory(1, b"etc", (2, 3)) + tail(SOFT, (2, 3)), directory(0, b"net", (4, 5)) + tail(SOFT, (4, 5))
# What stands behind the superblock of an image of 8 blocks, and in other blocks; the fault for which it doesn't mount, and its first place.
PLACES = [
    (TO_ETC, {}, "3 NoValidCommit", "blocks 2 and 3 (/etc): neither holds a whole commit"),
    (TO_ETC, {2: TO_NET}, "3 NoValidCommit", "blocks 4 and 5 (/etc/net): neither holds a whole commit"),
    (tail(HARD, (4, 6)), {}, "3 NoValidCommit", "blocks 4 and 6 (/): neither holds a whole commit"),
    (tail(SOFT, (2, 3)), {}, "3 NoValidCommit", "blocks 2 and 3: neither holds a whole commit"),
    (TO_ETC, {2: [(0x100, NO_ENTRY, b"")]}, "4 UnknownTag", "blocks 2 and 3 (/etc): a tag of an unknown type"),
    (TO_ETC, {3: [(0x600, NO_ENTRY, 7 * b"\xff")]}, "5 BadTag", "blocks 2 and 3 (/etc): a tag that doesn't fit"),
    (file(1, b"f")[:1], {}, "6 IncompleteEntry", "blocks 0 and 1 (/): an entry that isn't whole"),
    (TO_ETC, {2: file(0, b"..")}, "7 BadName", "blocks 2 and 3 (/etc): a name that none may have"),
    (TO_ETC, {2: chained(0, b"a\xff", 9, 100)}, "8 BadSkipList", "/etc/a\\xff: no chain of 100 bytes ends in block 9"),
    (chained(1, b"c", 4, 5_000), {}, "8 BadSkipList", "/c: no chain of 5000 bytes ends in block 4"),
    (chained(1, b"c", 6, 1_400), {4: contents(512), 5: pointing([4]), 6: pointing([5, 7])}, "8 BadSkipList",
     "/c: block 6 names block 7 and not 4"),
    (file(1, b"c.cfg") + file(2, b"b.cfg"), {}, "13 OrderFault", "blocks 0 and 1 (/): b.cfg stands behind c.cfg"),
    (TO_ETC, {2: file(0, b"b") + tail(HARD, (4, 5)), 4: file(0, b"a")}, "13 OrderFault", "blocks 4 and 5 (/etc): a stands behind b"),
    (directory(1, b"etc", (900, 901)), {}, "14 BlockRange", "/etc: blocks 900 and 901, of 8"),
    (TO_ETC, {2: tail(HARD, (7, 8))}, "14 BlockRange", "blocks 2 and 3 (/etc): go on in blocks 7 and 8, of 8"),
    (TO_ETC, {2: tail(SOFT, (8, 7))}, "14 BlockRange", "blocks 2 and 3 (/etc): go on in blocks 8 and 7, of 8"),
    (directory(1, b"new", (2, 3)) + directory(2, b"old", (2, 3)) + tail(SOFT, (2, 3)), {2: []}, "15 BlockTwice",
     "/old: blocks 2 and 3 are those of /new"),
    (directory(1, b"a", (2, 3)) + directory(2, b"b", (4, 3)) + tail(SOFT, (2, 3)), {2: tail(SOFT, (4, 3)), 4: []}, "15 BlockTwice",
     "block 3: /a and /b use it"),
    (chained(1, b"a", 5, 100) + chained(2, b"b", 5, 90), {}, "15 BlockTwice", "block 5: /a and /b use it"),
    (chained(1, b"c", 3, 100) + directory(2, b"etc", (2, 3)) + tail(SOFT, (2, 3)), {2: []}, "15 BlockTwice", "block 3: /etc and /c use it"),
    (directory(1, b"a", (4, 4)) + tail(SOFT, (4, 4)), {4: []}, "15 BlockTwice", "block 4: /a uses it twice"),
    (TO_ETC, {2: tail(HARD, (2, 3))}, "15 BlockTwice", "blocks 2 and 3 (/etc): go on in blocks 2 and 3, which are in use already"),
    (TO_ETC, {2: tail(SOFT, (2, 3))}, "15 BlockTwice", "blocks 2 and 3 (/etc): go on in blocks 2 and 3, which are in use already"),
    (TO_ETC, {2: tail(SOFT, (1, 0))}, "15 BlockTwice", "blocks 2 and 3 (/etc): go on in blocks 1 and 0, which are in use already"),
    (directory(1, b"etc", (2, 3)), {2: []}, "16 MissingDirectory", "/etc: blocks 2 and 3 begin no directory of the thread"),
    (tail(SOFT, (2, 3)), {2: []}, "17 Orphan", "blocks 2 and 3: no path leads there"),
    (tail(SOFT, (2, 3)), {2: chained(0, b"c", 9, 100)}, "8 BadSkipList", "blocks 2 and 3: /c: no chain of 100 bytes ends in block 9"),
]
# Limits of an image, an entry that isn't within them, and what is told.
OVER = [
    ((3,), file(1, b"four"), "/four: its name is longer than 3 bytes"),
    ((3,), directory(1, b"four", (2, 3)) + tail(SOFT, (2, 3)), "/four: its name is longer than 3 bytes"),
    ((9, 2), file(1, b"f", b"123"), "/f: its contents are longer than 2 bytes"),
    ((9, 99), chained(1, b"f", 4, 100), "/f: its contents are longer than 99 bytes"),
    ((9, 99, 2), file(1, b"f") + attribute(1, 0x74, b"123"), "/f: its attribute is longer than 2 bytes"),
    ((9, 99, 2), attribute(0, 0x74, b"123"), "/: its attribute is longer than 2 bytes"),
]
# Commands that mount an image: of the first of two, of one that is read, and of one that is changed.
MOUNTING = ["check -b 512 a.img", "ls -b 512 a.img", "cat -b 512 a.img /f", "diff -b 512 a.img b.img", "log -b 512 a.img", "extract -b 512 a.img made",
            "extract -b 512 a.img made /f", "repack -b 512 c.img a.img", "mkdir -b 512 a.img /d", "undo -b 512 a.img"]

# What a folder has below a folder `d`, the name and how many bytes a file has, each packed into an image of 32 blocks; and what is told of
# it. A block of 256 bytes has room for an entry of 216: 8 of them for tags, and 8 more where the contents don't stand in it.
PACKED = [
    ("pack -b 512 --name-max 3", "four", None, "36 NameTooLong", "its name is longer than 3 bytes"),
    ("pack -b 512 --name-max 3", "four", 9, "36 NameTooLong", "its name is longer than 3 bytes"),
    ("pack -b 512 --file-max 99", "f", 100, "37 FileTooLarge", "its contents are longer than 99 bytes"),
    ("pack -b 512 --name-max 3 --file-max 99", "four", 100, "36 NameTooLong", "its name is longer than 3 bytes"),
    ("pack -b 512 --file-max 2", "a\\\xe4", 3, "37 FileTooLarge", "its contents are longer than 2 bytes"),
    ("pack -b 256", 201 * "n", None, "42 EntryTooLarge", "takes more than a block has room for"),
    ("pack -b 256", 201 * "n", 33, "42 EntryTooLarge", "takes more than a block has room for"),
    ("pack -b 256", 177 * "n", 32, "42 EntryTooLarge", "takes more than a block has room for"),
    ("pack -b 256", 209 * "n", 0, "42 EntryTooLarge", "takes more than a block has room for"),
    ("pack -b 256", 200 * "n", None, "", ""),
    ("pack -b 256", 200 * "n", 33, "", ""),
    ("pack -b 256", 176 * "n", 32, "", ""),
    ("pack -b 256", 208 * "n", 0, "", ""),
]

# Geometries that no image has.
GEOMETRIES = [
    ("format -b 65536 --count 1025 b.img", "lfsed: b.img: an image has at most 67108864 bytes, this one 1025 blocks of 65536\n"),
    ("format -b 4096 --count 65536 b.img", "lfsed: b.img: an image has at most 67108864 bytes, this one 65536 blocks of 4096\n"),
    ("format -b 260 --count 8 b.img", "lfsed: --block 260: a block is a multiple of 16 bytes\n"),
]


def is_refused(folder, words, length, first, second):
    """A run that tells these two lines, and nothing else."""
    ended = folder.run(words, length)
    status = 3 if first.split(" ")[0] in ("1", "2", "3", "9", "10", "11", "51") else 1
    folder.check(words[:80], ended == (status, f"lfsed: {first}\n{second}", b""), ended)


def paths_are_named(folder):
    folder.play([("format -b 512 --count 32 a.img", 0, 0, "", "")])
    folder.play([(words, length, 0, "", "") for words, length in MADE])
    held = folder.old()
    for words, first, second in PATHS:
        is_refused(folder, words, 0, first, f"lfsed: a.img: {second}\n")
    folder.check("the image stands", folder.old() == held)


def what_takes_the_space_is_named(folder):
    folder.play([("format -b 512 --count 8 a.img", 0, 0, "", "")])
    second = "lfsed: a.img: lfsed blocks --sum a.img says what each path takes\n"
    is_refused(folder, "put -b 512 a.img /f", 3_041, "43 NoSpace need 7 free 6", second)


def limits_are_those_of_the_image(folder):
    folder.be(SMALL, 0)
    for words, length, first, second in LIMITS:
        is_refused(folder, words, length, first, f"lfsed: a.img: {second}\n")


def geometries_are_named(folder):
    for words, second in GEOMETRIES:
        is_refused(folder, words, 0, "2 BadGeometry", second)
    folder.be(b"", 512)
    is_refused(folder, "check -b 512 a.img", 0, "2 BadGeometry", "lfsed: a.img: an image has 2 to 65536 blocks, this one 1 of 512 bytes\n")
    folder.be(b"", 65_537 * 256)
    is_refused(folder, "check -b 256 a.img", 0, "2 BadGeometry", "lfsed: a.img: an image has 2 to 65536 blocks, this one 65537 of 256 bytes\n")


def numbers_of_bytes_are_told(folder):
    folder.play([("format -b 512 --count 8 a.img", 0, 0, "", "")])
    folder.image.with_name("config.json").write_bytes(39 * b"x")
    is_refused(folder, "check config.json", 0, "1 ImageLength", "lfsed: config.json: 39 bytes are no multiple of 4096\n")
    is_refused(folder, "put -b 512 config.json /x", 3, "1 ImageLength", "lfsed: config.json: 39 bytes are no multiple of 512\n")
    is_refused(folder, "diff -b 512 a.img config.json", 0, "1 ImageLength", "lfsed: config.json: 39 bytes are no multiple of 512\n")
    folder.image.with_name("config.json").unlink()


def helping(words, first):
    """What helps if a device left an image without an entry for a directory, and a command without `--device` refuses it."""
    command = words.split(" ")[0]
    if first != "17 Orphan" or command == "repack":
        return ""
    return f"lfsed: a.img: {'adopt takes it over' if command in ('log', 'mkdir', 'undo') else '--device reads it'}\n"


def is_placed(folder, held, first, second, mounting=MOUNTING):
    """Each command that mounts an image tells its fault, where it is, and what helps."""
    folder.be(held, 0)
    for words in mounting:
        ended = folder.run(words)
        wanted = f"lfsed: {first}\nlfsed: a.img: {second}\n{helping(words, first)}"
        folder.check(f"{second}: {words}", ended == (3, wanted, b""), ended)


def places_of_faults_are_told(folder):
    folder.image.with_name("b.img").write_bytes(image(512, 8, {0: log(1, superblock(512, 8))}))
    for items, others, first, second in PLACES:
        blocks = {number: more if isinstance(more, bytes) else log(1, more) for number, more in others.items()}
        is_placed(folder, image(512, 8, {0: log(1, superblock(512, 8) + items), **blocks}), first, second)
    for limits, items, second in OVER:
        blocks = {2: log(1, []), 4: bytes(512)}
        is_placed(folder, image(512, 8, {0: log(1, superblock(512, 8, *limits) + items), **blocks}), "20 BadSize", second)
    # Where no superblock stands in front, `repack` finds no block size by itself.
    sized = [words.replace("repack -b 512", "repack -b 512 --from-block 512") for words in MOUNTING]
    is_placed(folder, bytes(4_096), "3 NoValidCommit", "blocks 0 and 1 (/): neither holds a whole commit", sized)


def versions_are_told(folder):
    states = "lfsed: a.img: its superblock states disk version 2.1: "
    folder.be(image(512, 8, {0: log(1, superblock(512, 8)[:1] + version(0x2_0001))}), 0)
    is_refused(folder, "check -b 512 a.img", 0, "10 Version", states + "--device reads it\n")
    is_refused(folder, "mkdir -b 512 a.img /d", 0, "10 Version", states + "adopt takes it over\n")
    folder.be(image(512, 8, {0: log(1, superblock(512, 8)[:1] + version(0x3_0002))}), 0)
    is_refused(folder, "ls -b 512 a.img", 0, "10 Version", "lfsed: a.img: its superblock states disk version 3.2\n")


def journals_of_other_images_are_told(folder):
    folder.play([("format -b 512 --count 8 a.img", 0, 0, "", ""), ("mkdir -b 512 a.img /d", 0, 0, "", "")])
    held = folder.old()
    folder.play([("mkdir -b 512 a.img /e", 0, 0, "", "")])
    folder.image.write_bytes(held)
    told = "lfsed: a.img.lfsj: belongs to another image; lfsed forget a.img drops it\n"
    for words in "mkdir -b 512 a.img /f", "undo -b 512 a.img", "log -b 512 a.img":
        is_refused(folder, words, 0, "51 JournalMismatch", told)
    folder.play([("forget -b 512 a.img", 0, 0, "", ""), ("mkdir -b 512 a.img /f", 0, 0, "", "")])


def undone_changes_are_counted(folder):
    folder.play([("format -b 512 --count 8 a.img", 0, 0, "", "")])
    folder.play([(f"mkdir -b 512 a.img /{name}", 0, 0, "", "") for name in "abc"])
    folder.play([("undo -b 512 --steps 2 a.img", 0, 0, "", "")])
    is_refused(folder, "undo -b 512 --steps 2 a.img", 0, "53 NothingToUndo", "lfsed: a.img: changes that are done: 1, fewer than 2\n")
    is_refused(folder, "redo -b 512 --steps 3 a.img", 0, "54 NothingToRedo", "lfsed: a.img: changes that are undone: 2, fewer than 3\n")
    folder.play([("undo -b 512 a.img", 0, 0, "", ""), ("undo -b 512 a.img", 0, 1, "lfsed: 53 NothingToUndo\n", "")])


def the_first_block_is_told(folder):
    states = "lfsed: a.img: its first block states 8 blocks of 512 bytes\n"
    new = image(512, 8, {0: log(1, superblock(512, 8))})
    folder.be(new[:4_095], 0)
    is_refused(folder, "check -b 512 a.img", 0, "1 ImageLength", states)
    folder.be(new[:512], 0)
    is_refused(folder, "check -b 512 a.img", 0, "2 BadGeometry",
               "lfsed: a.img: an image has 2 to 65536 blocks, this one 1 of 512 bytes\n" + states)
    folder.be(new[:40] + b"\0" + new[41:], 0)
    is_refused(folder, "check -b 512 a.img", 0, "3 NoValidCommit", states)
    folder.be(new, 0)
    is_refused(folder, "check -b 1024 a.img", 0, "11 Geometry", "lfsed: a.img: its superblock states 8 blocks of 512 bytes\n")
    folder.play([("grow -b 512 a.img 16", 0, 0, "", "")])
    is_refused(folder, "check -b 1024 a.img", 0, "11 Geometry", "lfsed: a.img: its superblock states 16 blocks of 512 bytes\n")


def folders_are_named(folder):
    there = folder.image.with_name("made")
    there.mkdir()
    ended = folder.run("format -b 512 --count 8 a.img")
    folder.check("made", ended == (0, "", b""), ended)
    ended = folder.run("extract -b 512 a.img made")
    folder.check("a folder that is there", ended == (4, "lfsed: 62 HostEntry\nlfsed: made: is there already\n", b""), ended)
    (there / "f").write_bytes(bytes(5_000))
    ended = folder.run("pack -b 512 --count 4 a.img made")
    lines = ended[1].splitlines()
    folder.check("a folder without room", ended[0] == 1 and lines[0].startswith("lfsed: 43 NoSpace need ")
                 and lines[1:] == ["lfsed: made: needs 12 blocks of 512 bytes in all"], ended)
    ended = folder.run("pack -b 512 --count 32 made/a.img made")
    folder.check("an image in its folder", ended == (0, "lfsed: made/a.img: stands in the folder that is packed\n", b""), ended)


def shown(name):
    """A name as it is shown: bytes that are no printable letters, and a backslash, by their digits."""
    return "".join(chr(byte) if 0x20 <= byte < 0x7f and byte != 0x5c else f"\\x{byte:02x}" for byte in name.encode())


def rows_of_folders_are_named(folder):
    place = folder.image.with_name("src")
    (place / "d").mkdir(parents=True)
    (place / "d/a").write_bytes(b"a")
    (place / "d/z").mkdir()
    for words, name, length, first, second in PACKED:
        row = place / "d" / name
        row.mkdir() if length is None else row.write_bytes(contents(length))
        told = f"lfsed: {first}\nlfsed: a.img: /d/{shown(name)}: {second}\n" if first else ""
        for extent in "--count 32", "--least":
            ended = folder.run(f"{words} {extent} a.img src")
            folder.check(f"{words} {name} {length}", ended == (int(bool(first)), told, b""), ended)
        row.rmdir() if length is None else row.unlink()


def the_image_of_a_journal_is_told(folder):
    folder.play([("format -b 512 --count 8 a.img", 0, 0, "", "")])
    old = folder.old()
    folder.play([("mkdir -b 512 a.img /d", 0, 0, "", "")])
    new, beside = folder.old(), folder.image.with_name("a.img.new")
    folder.image.write_bytes(old)
    first = "lfsed: 51 JournalMismatch\n"
    second = "lfsed: a.img.new: is the image of the journal: renamed to a.img it mends both, which forget would lose\n"
    other = "lfsed: a.img.lfsj: belongs to another image; lfsed forget a.img drops it\n"
    for bytes_beside, told in (None, other), (old, other), (new[:-512], other), (new, second):
        if bytes_beside is not None:
            beside.write_bytes(bytes_beside)
        for words in "undo -b 512 a.img", "log -b 512 a.img":
            ended = folder.run(words)
            folder.check(f"{words}: {told}", ended == (3, first + told, b""), ended)
    beside.rename(folder.image)
    folder.play([("undo -b 512 a.img", 0, 0, "", "")])
    folder.check("what is mended is taken back", folder.old() == old)


if __name__ == "__main__":
    sys.exit(run_scenes([
        paths_are_named, what_takes_the_space_is_named, limits_are_those_of_the_image, geometries_are_named, numbers_of_bytes_are_told, places_of_faults_are_told,
        versions_are_told,
        journals_of_other_images_are_told, undone_changes_are_counted, the_first_block_is_told, folders_are_named,
        rows_of_folders_are_named, the_image_of_a_journal_is_told,
    ]))
