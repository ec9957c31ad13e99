#!/usr/bin/env python3
"""Makes images longer, and compares image and journal byte for byte: what is added is erased, the superblock gets the new number of
blocks, and what stands in the image stays. Each change is taken back and made again. The bytes come from a writer of logs and of
journals that is apart from the program."""
import sys

from support.blocks import Changes
from support.folder import contents, run_scenes
from support.journal import in_first_version, journal, read, word
from support.littlefs import Log
from support.logs import (
    HARD, SOFT, Draft, appended, attribute, chained, created, directory, file, filled, log, moved, superblock, tail,
)
from support.scattering import laid

BAD_COUNT, TOO_LARGE = "lfsed: 46 BadCount\n", "lfsed: 42 EntryTooLarge\n"
NO_FORMAT, NO_IMAGE = "lfsed: 50 JournalFormat\n", "lfsed: 52 JournalImage\n"
NO_MATCH = "lfsed: 51 JournalMismatch\nlfsed: a.img.lfsj: belongs to another image; lfsed forget a.img drops it\n"
NO_UNDO, NO_REDO, FULL = "lfsed: 53 NothingToUndo\n", "lfsed: 54 NothingToRedo\n", "lfsed: 55 JournalFull\n"
ERASED = b"\xff" * 512
SIZES = 256, 512, 4_096

# What `grow 16` appends to a new image of 8 blocks of 512 bytes, from byte 64 on: the struct's tag, its six words, of which the
# third is the count, the closing tag, which says 12 bytes of padding, and the checksum of these bytes, computed by another program.
COMMIT = bytes.fromhex("701ffc08 00000200 00020000 10000000 ff000000 ffffff7f fe030000 701ffc08 20b7583c")


def counted(size, count, *limits):
    """The item of a superblock's struct."""
    return superblock(size, count, *limits)[1:]


def changed(data, at, part):
    """Bytes with others at a place."""
    return data[:at] + part + data[at + len(part):]


class Growing(Changes):
    """An image that is made longer, and its journal."""

    def grows(self, count, live=0, more=()):
        """Appends the struct with so many blocks to the root's live block, and other items, and adds erased blocks."""
        self.appends(f"grow {count}", {live: counted(self.size, count) + [*more]}, count=count)

    def is_left(self, what, wanted, saved):
        """Compares the bytes of image and journal."""
        found = self.folder.old(), self.folder.saved()
        self.folder.check(what, found == (wanted, saved), [(len(each), each[:40]) for each in found])

    def refuses(self, line, complaint, what=""):
        """Runs a command that is refused for the image or its journal, and compares both with what they were."""
        before = self.folder.old(), self.folder.saved()
        name, *words = line.split(" ")
        ended = self.folder.run(" ".join([name, "-b", str(self.size), "a.img", *words]))
        self.folder.check(f"{line}: {what}", ended == (3, complaint, b""), ended)
        self.folder.check(f"{line}: {what}: files", (self.folder.old(), self.folder.saved()) == before)

    def is_said(self, free, directories=1, files=0):
        """Compares the line that is said of the image."""
        count = len(self.folder.old()) // self.size
        wanted = f"block {self.size}, count {count}, free {free}, directories {directories}, files {files}, version 2.0\n"
        self.folder.play([(f"check -b {self.size} a.img", 0, 0, "", wanted)])

    def shown(self, *files):
        """What is listed, and what is printed of files."""
        words = [f"ls -b {self.size} a.img", *(f"cat -b {self.size} a.img {path}" for path in files)]
        return [self.folder.run(each) for each in words]


def new_image(folder):
    """A new image of 8 blocks of 512 bytes, its bytes, those that `grow 16` makes of them, and the change between them."""
    blocks = Growing(folder, 512)
    blocks.new(8)
    first = folder.old()
    long = changed(first, 64, COMMIT).ljust(16 * 512, b"\xff")
    return blocks, first, long, (8, 16, [(0, first[:512], long[:512])])


def a_new_image_byte_for_byte(folder):
    blocks, first, long, change = new_image(folder)
    blocks.do("grow 16")
    for at, part in (64, "701ffc08"), (76, "10000000"), (92, "701ffc08"):
        folder.holds("grow 16", at, bytes.fromhex(part))
    folder.check("where the log ends", Log(folder.old()[:512]).end == 112)
    blocks.is_said(14)
    made, undone = journal(512, 16, [change], []), journal(512, 8, [], [change])
    folder.check("the journals", (len(made), made[12:16], undone[12:16]) == (1_064, word(16), word(8)))
    blocks.is_left("grow 16", long, made)
    for step, *left in ("undo", first, undone), ("redo", long, made):
        blocks.do(step)
        blocks.is_left(step, *left)
    blocks.do("redo", 0, NO_REDO)
    blocks.do("forget")
    blocks.is_left("forget", long, journal(512, 16, [], []))
    blocks.do("undo", 0, NO_UNDO)


def counts_that_are_not_greater(folder):
    blocks = new_image(folder)[0]
    for count in 8, 7, 2:
        blocks.do(f"grow {count}", 0, BAD_COUNT)
    blocks.do("grow 9")
    for count in 9, 8:
        blocks.do(f"grow {count}", 0, BAD_COUNT)


# A block size, the greatest number of its blocks that an image has, and a number of blocks that is too great.
GREATEST = (256, 65_536, 65_536), (1_040, 64_527, 64_528), (4_096, 16_384, 16_385), (65_536, 1_024, 1_025)


def images_of_the_greatest_length(folder):
    for size, greatest, greater in GREATEST:
        blocks = Growing(folder, size)
        blocks.new(2)
        first = folder.old()
        if greater > greatest:
            blocks.do(f"grow {greater}", 0, BAD_COUNT)
        blocks.do(f"grow {greatest}")
        blocks.is_said(greatest - 2)
        blocks.do(f"grow {greater}", 0, BAD_COUNT)
        blocks.do(f"grow {greatest}", 0, BAD_COUNT)
        blocks.do("undo")
        folder.check(f"blocks of {size}: undo", folder.old() == first)


def a_full_image_has_room_again(folder):
    blocks = new_image(folder)[0]
    blocks.do("put /f", 3_040)
    full = folder.old()
    blocks.is_said(0, files=1)
    blocks.do("put /g", 65, "lfsed: 43 NoSpace need 1 free 0\n")
    blocks.grows(9)
    blocks.is_said(1, files=1)
    blocks.appends("put /g", {0: created(2) + chained(2, b"g", 8, 65)}, {8: contents(65)}, 65)
    blocks.is_said(0, files=2)
    blocks.holds({b"/f": (contents(3_040), {}), b"/g": (contents(65), {})})
    later = folder.old()
    for _ in range(2):
        blocks.do("undo")
    folder.check("the full image", folder.old() == full)
    folder.play([("cat -b 512 a.img /f", 0, 0, "", 3_040)])
    for _ in range(2):
        blocks.do("redo")
    folder.check("the later image", folder.old() == later)


def images_that_grow_again(folder):
    for size in SIZES:
        blocks = Growing(folder, size)
        blocks.new(8)
        images = [folder.old()]
        for count in 9, 10, 40:
            blocks.grows(count)
            images.append(folder.old())
        for wanted in reversed(images[:-1]):
            blocks.do("undo")
            folder.check(f"blocks of {size}: undo to {len(wanted)} bytes", folder.old() == wanted)
        blocks.do("redo")
        blocks.grows(12)
        blocks.do("redo", 0, NO_REDO)
        folder.check(f"blocks of {size}: the shorter one", len(folder.old()) == 12 * size)


def a_command_takes_added_blocks(folder):
    """Blocks that were added and written to are erased again where that is taken back, so that the image can be cut."""
    blocks, first, long, change = new_image(folder)
    blocks.do("grow 16")
    laid_there = laid(512, [*range(2, 10)], contents(4_052))
    blocks.appends("put /f", {0: created(1) + chained(1, b"f", 9, 4_052)}, laid_there, 4_052)
    blocks.do("mkdir /d")
    blocks.is_said(4, 2, 1)
    for _ in range(3):
        blocks.do("undo")
    saved = read(folder.saved())
    folder.check("all is taken back", folder.old() == first and saved[:3] == (512, 8, []) and saved[3][0] == change)
    blocks.do("redo")
    folder.check("the grown image", folder.old() == long)


def images_that_others_changed(folder):
    """A grown image whose added blocks were written to is no longer the one that the journal speaks of."""
    blocks, first, long, change = new_image(folder)
    other = changed(long, 12 * 512 + 7, b"\0")
    saved = journal(512, 16, [change], [])
    folder.be(other, 0)
    folder.journal.write_bytes(saved)
    for line in "undo", "redo", "mkdir /a", "grow 17", "grow 16":
        blocks.refuses(line, NO_MATCH, "a byte of block 12")
    blocks.is_said(14)
    folder.be(long, 0)
    folder.journal.write_bytes(saved)
    blocks.do("undo")
    folder.image.write_bytes(long)
    blocks.refuses("redo", NO_MATCH, "the longer image")
    blocks.refuses("grow 16", NO_MATCH, "the longer image")
    folder.image.write_bytes(first.ljust(16 * 512, b"\xff"))
    geometry = "lfsed: 11 Geometry\nlfsed: a.img: its superblock states 8 blocks of 512 bytes\n"
    blocks.refuses("grow 16", geometry, "a file that is only longer")


def journals_that_say_other_counts(folder):
    """Journals of the grown image, of which one change has other counts."""
    blocks, first, long, change = new_image(folder)
    named = change[2]
    rows = [
        ("a count that falls", [(16, 8, named)], NO_FORMAT),
        ("a count of 1", [(1, 16, named)], NO_FORMAT),
        ("a number at the count after", [(8, 16, [*named, (16, ERASED, ERASED)])], NO_FORMAT),
        ("an added block that wasn't erased", [(8, 16, [*named, (8, bytes(512), ERASED)])], NO_FORMAT),
        ("a later count than the image's", [(8, 17, named)], NO_MATCH),
        ("an earlier count than the image's", [(8, 15, named)], NO_MATCH),
        ("counts that don't join", [(8, 12, named), (13, 16, [(0, long[:512], long[:512])])], NO_MATCH),
        ("a count that the superblock doesn't say", [(9, 16, named)], NO_IMAGE),
        ("a change that keeps the count", [(16, 16, named)], NO_IMAGE),
    ]
    folder.be(long, 0)
    for what, done, complaint in rows:
        folder.journal.write_bytes(journal(512, 16, done, []))
        for line in "undo", "redo", "grow 17":
            blocks.refuses(line, complaint, what)
    folder.be(first, 0)
    folder.journal.write_bytes(journal(512, 8, [], [(8, 16, [*named, (9, ERASED, bytes(512))])]))
    blocks.do("redo")
    folder.holds("an added block that a change names", 9 * 512, bytes(512))
    blocks.do("undo")
    folder.check("it is taken back", folder.old() == first)


def journals_cut_at_every_length(folder):
    blocks, _, long, change = new_image(folder)
    folder.be(long, 0)
    whole = journal(512, 16, [change], [])
    for length in range(1, len(whole)):
        folder.journal.write_bytes(whole[:length])
        ended = folder.run("undo -b 512 a.img")
        folder.check(f"the first {length} bytes", ended == (3, NO_FORMAT, b"") and folder.saved() == whole[:length], ended)
    folder.journal.write_bytes(whole + b"\0")
    blocks.refuses("undo", NO_FORMAT, "a byte more")


def journals_of_the_first_version(folder):
    """Each change that is kept gets 8 bytes more; a step that is refused leaves the journal."""
    blocks, first, _, _ = new_image(folder)
    blocks.do("mkdir /a")
    blocks.do("put /a/x", 5)
    short, (_, _, done, _) = folder.old(), read(folder.saved())
    older = in_first_version(folder.saved())
    folder.journal.write_bytes(older)
    blocks.do("grow 8", 0, BAD_COUNT)
    folder.check("a refused step", folder.saved() == older)
    blocks.do("grow 16")
    long = changed(short, 0, appended(short[:512], counted(512, 16))).ljust(16 * 512, b"\xff")
    saved = journal(512, 16, [*done, (8, 16, [(0, short[:512], long[:512])])], [])
    folder.check("its length", len(saved) == len(older) + 2 * 8 + 12 + 1_028)
    blocks.is_left("grow 16", long, saved)
    for _ in range(3):
        blocks.do("undo")
    folder.check("all is taken back", folder.old() == first)


def a_thousand_changes_are_kept(folder):
    """No further one is made, whatever its count."""
    blocks, first, _, _ = new_image(folder)
    same = 8, 8, [(0, first[:512], first[:512])]
    folder.journal.write_bytes(journal(512, 8, 1_000 * [same], []))
    for count in 16, 8:
        blocks.do(f"grow {count}", 0, FULL)
    folder.journal.write_bytes(journal(512, 8, 999 * [same], []))
    blocks.do("grow 16")
    blocks.do("undo")
    folder.check("one is taken back", folder.old() == first)


def a_tree_stays(folder):
    for size in SIZES:
        blocks = Growing(folder, size)
        blocks.new(24)
        for line, length in (
            ("mkdir /a", 0), ("mkdir /a/b", 0), ("put /a/b/f", 2 * size), ("put /a/g", 3), ("setattr / 74 0102", 0),
            ("setattr /a/g 01 ", 0), ("mkdir /z", 0), ("mv /a/b /z/c", 0),
        ):
            blocks.do(line, length)
        shown, tree = blocks.shown("/z/c/f", "/a/g"), blocks.read().tree()
        live = blocks.read().live((0, 1))[0]
        blocks.grows(40, live)
        folder.check(f"blocks of {size}: what is shown", blocks.shown("/z/c/f", "/a/g") == shown, shown)
        folder.check(f"blocks of {size}: the tree", blocks.read().tree() == tree)


# A root of three parts in blocks of 512 bytes, and directories with shares in the global state.
SHARE = bytes.fromhex("0000f04f0200000003000000")
THREE_PARTS = {
    0: log(1, superblock(512, 8) + file(1, b"b") + file(2, b"d") + tail(HARD, (2, 3))),
    2: log(1, file(0, b"f") + tail(HARD, (4, 5))),
    4: log(1, file(0, b"h")),
}
SHARED = {
    0: log(1, superblock(512, 8) + directory(1, b"a", (2, 3)) + directory(2, b"b", (4, 5)) + tail(SOFT, (2, 3))),
    2: log(1, tail(SOFT, (4, 5)) + moved(SHARE)),
    4: log(1, moved(SHARE)),
}


def images_of_others(folder):
    blocks = Growing(folder, 512)
    for parts in THREE_PARTS, SHARED:
        blocks.be(8, parts)
        rows = blocks.read().rows()
        blocks.grows(9)
        folder.check("what stands there", blocks.read().rows() == rows)
    limits = 100, 65_536, 16
    blocks.be(8, {0: log(1, superblock(512, 8, *limits) + attribute(0, 0x74, b"\1"))})
    blocks.appends("grow 9", {0: counted(512, 9, *limits)}, count=9)
    blocks.do(f"mkdir /{101 * 'a'}", 0, "lfsed: 36 NameTooLong\n")
    older, newer = log(4, superblock(512, 8) + file(1, b"old")), log(5, superblock(512, 8) + file(1, b"new"))
    blocks.be(8, {0: older, 1: newer})
    blocks.grows(9, 1)
    blocks.be(8, {0: newer, 1: older})
    blocks.grows(9)
    blocks.be(8, {0: log(1, superblock(512, 8) + chained(1, b"f", 9, 0))})
    blocks.grows(9, more=[(0x202, 1, bytes(8))])


# How many bytes are left behind a log, where a superblock's struct takes 36 with its checksum, and whether they are enough.
LEFT = (0, False), (14, False), (35, False), (36, True), (37, True), (60, True)


def roots_without_room_are_rewritten(folder):
    for size in SIZES:
        blocks = Growing(folder, size)
        items, more = superblock(size, 4), attribute(0, 0x74, b"\1\2")
        for left, is_enough in LEFT:
            blocks.be(4, {0: filled(Draft(0xFFFF_FFFF).add(items + more), size - left)})
            if is_enough:
                blocks.grows(5)
            else:
                blocks.leaves("grow 5", {1: log(0, superblock(size, 5) + more, 16)}, count=5)
        blocks.be(4, {0: log(1, items + more) + b"\xff\0"})
        blocks.leaves("grow 5", {1: log(2, superblock(size, 5) + more, 16)}, count=5)


# A root in a block of 256 bytes that weighs 230, where 216 is the room of a block: a superblock with an attribute, two files, and
# one of two blocks where so many are in use.
VALUE = attribute(0, 0x74, 60 * b"\7")
FIRST, SECOND = 50 * b"m", 60 * b"n"
USED = {0: log(1, superblock(256, 4) + VALUE + chained(1, b"a", 3, 500) + file(2, 30 * b"m") + file(3, SECOND)),
        **laid(256, [2, 3], contents(500))}


def heavy(count):
    """The root's block in an image of so many blocks."""
    return {0: log(1, superblock(256, count) + VALUE + file(1, FIRST) + file(2, SECOND))}


def heavy_roots_are_cut(folder):
    """The struct doesn't fit beside what is there, so that two blocks more are needed; those that are added are free."""
    blocks = Growing(folder, 256)
    new = {2: log(1, file(0, SECOND), 16), 3: b""}
    for before, after in (4, 5), (2, 4):
        blocks.be(before, heavy(before))
        root = superblock(256, after) + VALUE + file(1, FIRST) + tail(HARD, (2, 3))
        blocks.leaves(f"grow {after}", {1: log(2, root, 16), **new}, count=after)
        blocks.stand(f"{after} blocks", [(0, 1), (2, 3)], [(0, 1)], after - 4)
    blocks.be(2, heavy(2))
    blocks.do("grow 3", 0, "lfsed: 43 NoSpace need 2 free 1\n")
    blocks.do("grow 2", 0, BAD_COUNT)
    blocks.be(4, USED)
    tree = blocks.read().tree()
    blocks.do("grow 5", 0, "lfsed: 43 NoSpace need 2 free 1\n")
    root = superblock(256, 6) + VALUE + chained(1, b"a", 3, 500) + file(2, 30 * b"m") + tail(HARD, (4, 5))
    blocks.leaves("grow 6", {1: log(2, root, 16), 4: log(1, file(0, SECOND), 16), 5: b""}, count=6)
    blocks.is_said(0, files=3)
    folder.check("the tree", blocks.read().tree() == tree)


def superblocks_have_to_fit(folder):
    """A superblock whose attributes leave it no room of its own isn't written; the count is judged first."""
    blocks = Growing(folder, 256)
    for length, complaint in (172, ""), (173, TOO_LARGE):
        blocks.be(4, {0: log(1, superblock(256, 4) + attribute(0, 0x74, length * b"\7"))})
        blocks.do("grow 4", 0, BAD_COUNT)
        blocks.do("grow 5", 0, complaint)


def numbered(numbers, first):
    """The items of files that are named by numbers, from an entry of a part on."""
    return [item for at, number in enumerate(numbers, first) for item in file(at, b"%04d" % number)]


def roots_of_many_entries(folder):
    """A part has a thousand entries at most once it is set."""
    blocks = Growing(folder, 65_536)
    made = [item for number in reversed(range(1_100)) for item in created(1) + file(1, b"%04d" % number)]
    blocks.be(4, {0: log(1, superblock(65_536, 4) + made)})
    left, more = numbered(range(999), 1), numbered(range(999, 1_100), 0)
    new = {2: log(1, more, 16), 3: b""}
    blocks.leaves("grow 5", {1: log(2, superblock(65_536, 5) + left + tail(HARD, (2, 3)), 16), **new}, count=5)


if __name__ == "__main__":
    sys.exit(run_scenes([
        a_new_image_byte_for_byte,
        counts_that_are_not_greater,
        images_of_the_greatest_length,
        a_full_image_has_room_again,
        images_that_grow_again,
        a_command_takes_added_blocks,
        images_that_others_changed,
        journals_that_say_other_counts,
        journals_cut_at_every_length,
        journals_of_the_first_version,
        a_thousand_changes_are_kept,
        a_tree_stays,
        images_of_others,
        roots_without_room_are_rewritten,
        heavy_roots_are_cut,
        superblocks_have_to_fit,
        roots_of_many_entries,
    ]))
