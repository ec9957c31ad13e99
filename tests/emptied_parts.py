#!/usr/bin/env python3
"""Empties later parts of directories by commands. A reader apart from the program finds that such a part leaves its directory: its blocks
are free, and the part before it names the next one and takes up its share in the global state. Undo and redo are byte for byte, also once
another command has taken those blocks."""
import pathlib
import subprocess
import sys

from support.blocks import Blocks, Changes
from support.folder import PROGRAM, contents, run_scenes
from support.littlefs import NULL, ROOT
from support.logs import HARD, SOFT, created, directory, file, log, moved, superblock, tail
from support.scripts import script

LAST = tail(SOFT, (NULL, NULL))
SHARE = bytes.fromhex("0000f04f0200000003000000")


def has_no_empty_part(blocks, what):
    """Checks that each later part of a directory has an entry."""
    reader = blocks.read()
    pairs = [pair for _, pair in reader.rows() if pair]
    empty = [part.pair for pair in pairs for part in reader.parts_of(pair)[1:] if not part.entries]
    blocks.folder.check(f"{what}: parts without entries", not empty, empty)


def run(blocks, *words, given=b""):
    """Runs the program on words, which it takes without complaint."""
    ended = subprocess.run([PROGRAM, *words], cwd=blocks.folder.room.name, input=given, capture_output=True, timeout=60)
    blocks.folder.check(" ".join(words), (ended.returncode, ended.stderr) == (0, b""), ended)


def eighteen_files(folder):
    """Eighteen files, of which the last one is alone in a later part of the root."""
    blocks = Blocks(folder, 512)
    blocks.new(16)
    for number in range(18):
        blocks.do(f"put /file{number:02}", 11)
    blocks.stand("18 files", [ROOT, (2, 3)], [ROOT], 12)
    return blocks


def names(count):
    """The paths of an image of so many of these files."""
    return ["/"] + [f"/file{number:02}" for number in range(count)]


def the_last_of_eighteen_files_goes(folder):
    blocks = eighteen_files(folder)
    images = [folder.old()]
    blocks.do("rm /file17")
    blocks.stand("17 files", [ROOT], [ROOT], 14)
    blocks.lists(*names(17))
    images.append(folder.old())
    for step, image in ("undo", images[0]), ("redo", images[1]):
        blocks.do(step)
        folder.check(f"{step} of a part that left", folder.old() == image)
    # The root is full, so it is cut once more.
    blocks.do("mkdir /a")
    blocks.stand("a directory in the blocks of that part", [ROOT, (4, 5), (2, 3)], [ROOT, (2, 3)], 10)
    images.append(folder.old())
    for step, image in ("undo", images[1]), ("undo", images[0]), ("redo", images[1]), ("redo", images[2]):
        blocks.do(step)
        folder.check(f"{step} where the blocks were taken", folder.old() == image)
    for step, image in ("undo", images[0]), ("redo", images[2]):
        run(blocks, step, "-b", "512", "--steps", "2", "a.img")
        folder.check(f"{step} of both in one step", folder.old() == image)


def the_last_of_eighteen_files_moves(folder):
    blocks = eighteen_files(folder)
    blocks.do("mkdir /zz")
    blocks.stand("a directory beside them", [ROOT, (2, 3), (4, 5)], [ROOT, (4, 5)], 10)
    blocks.do("mv /file17 /zz/f")
    blocks.stand("the directory stays in that part", [ROOT, (2, 3), (4, 5)], [ROOT, (4, 5)], 10)
    blocks.do("mv /zz/f /file17")
    blocks.do("mv /file00 /zz/f")
    blocks.do("mv /zz /file00")
    blocks.stand("two files alone", [ROOT, (2, 3), (4, 5)], [ROOT, (4, 5)], 10)
    blocks.do("mv /file17 /file00/g")
    blocks.stand("a part that left by a move", [ROOT, (4, 5)], [ROOT, (4, 5)], 12)
    blocks.lists("/", "/file00", "/file00/f", "/file00/g", *names(17)[2:])


def a_moved_entry_may_need_a_part_again(folder):
    """The file's part leaves, and its new name belongs into the part before, which then is cut. Blocks that a command frees aren't taken by
    it."""
    blocks = eighteen_files(folder)
    blocks.do("mv /file17 /file18")
    blocks.stand("a file under another name", [ROOT, (4, 5)], [ROOT], 12)
    has_no_empty_part(blocks, "a file under another name")


# A root of three parts in blocks of 512 bytes, with the files b and d, f, and h.
THREE_PARTS = {
    0: log(1, superblock(512, 8) + file(1, b"b") + file(2, b"d") + tail(HARD, (2, 3))),
    2: log(1, file(0, b"f") + tail(HARD, (4, 5))),
    4: log(1, file(0, b"h")),
}

# The same with shares in the global state: in the first part and the second one, and in the second and the third.
SHARES = (
    {**THREE_PARTS,
     0: log(1, superblock(512, 8) + file(1, b"b") + tail(HARD, (2, 3)) + moved(SHARE)),
     2: log(1, file(0, b"f") + tail(HARD, (4, 5)) + moved(SHARE))},
    {**THREE_PARTS,
     2: log(1, file(0, b"f") + tail(HARD, (4, 5)) + moved(SHARE)),
     4: log(1, file(0, b"h") + moved(SHARE))},
)

# A root of two parts, the later of which has the directory d alone; another directory comes after that.
DIRECTORY_ALONE = {
    0: log(1, superblock(512, 10) + directory(1, b"a", (6, 7)) + tail(HARD, (2, 3))),
    2: log(1, directory(0, b"d", (4, 5)) + tail(SOFT, (4, 5)) + moved(SHARE)),
    4: log(1, tail(SOFT, (6, 7)) + moved(SHARE)),
    6: log(1, []),
}

# A directory of two parts, of one file each.
TWO_OF_A_DIRECTORY = {
    0: log(1, superblock(512, 8) + directory(1, b"d", (2, 3)) + tail(SOFT, (2, 3))),
    2: log(1, file(0, b"x") + tail(HARD, (4, 5))),
    4: log(1, file(0, b"y")),
}

# A command, the blocks of the image, what is appended to which of them, the thread then, and how many blocks are free.
EMPTIED = (
    ("rm /h", THREE_PARTS, {2: LAST}, [ROOT, (2, 3)], 4),
    ("rm /f", THREE_PARTS, {0: tail(HARD, (4, 5))}, [ROOT, (4, 5)], 4),
    ("mv /h /a", THREE_PARTS, {0: created(1) + file(1, b"a"), 2: LAST}, [ROOT, (2, 3)], 4),
    ("mv /h /z", THREE_PARTS, {2: created(1) + file(1, b"z") + LAST}, [ROOT, (2, 3)], 4),
    ("mv /f /e", THREE_PARTS, {0: tail(HARD, (4, 5)), 4: created(0) + file(0, b"e")}, [ROOT, (4, 5)], 4),
    ("mv /f /c", THREE_PARTS, {0: created(2) + file(2, b"c") + tail(HARD, (4, 5))}, [ROOT, (4, 5)], 4),
    ("rm /f", SHARES[0], {0: tail(HARD, (4, 5)) + moved(bytes(12))}, [ROOT, (4, 5)], 4),
    ("rm /f", SHARES[1], {0: tail(HARD, (4, 5)) + moved(SHARE)}, [ROOT, (4, 5)], 4),
    ("rm /h", SHARES[1], {2: LAST + moved(bytes(12))}, [ROOT, (2, 3)], 4),
    ("mv /h /z", SHARES[1], {2: created(1) + file(1, b"z") + LAST + moved(bytes(12))}, [ROOT, (2, 3)], 4),
    ("rm /d", DIRECTORY_ALONE, {0: tail(SOFT, (6, 7))}, [ROOT, (6, 7)], 6),
    ("rm /d/y", TWO_OF_A_DIRECTORY, {2: LAST}, [ROOT, (2, 3)], 4),
    ("rm /d/x", TWO_OF_A_DIRECTORY, {2: [(0x4FF, 0, b"")]}, [ROOT, (2, 3), (4, 5)], 2),
)


def emptied_parts_leave(folder):
    for line, begun, appended, thread, free in EMPTIED:
        blocks = Changes(folder, 512)
        blocks.be(10 if begun is DIRECTORY_ALONE else 8, begun)
        blocks.appends(line, appended)
        reader = blocks.read()
        folder.check(f"after {line}", (reader.thread(), reader.free()) == (thread, free), (reader.thread(), reader.free()))
        has_no_empty_part(blocks, line)


def a_first_part_stays_without_entries(folder):
    blocks = Blocks(folder, 512)
    blocks.be(8, TWO_OF_A_DIRECTORY)
    for line, pairs, free in (
        ("rm /d/x", [(2, 3), (4, 5)], 2), ("rm /d/y", [(2, 3)], 4), ("put /d/z", [(2, 3)], 4), ("rm /d/z", [(2, 3)], 4), ("rm /d", [], 6),
    ):
        blocks.do(line)
        blocks.stand(line, [ROOT, *pairs], [ROOT, *pairs[:1]], free)


def each_part_leaves_in_its_turn(folder):
    """Directories of three parts, emptied from their ends and from their middle."""
    for order in "fedcba", "cdefab", "abcdef", "cfdeab":
        blocks = Blocks(folder, 256)
        blocks.new(16)
        blocks.do("mkdir /d")
        for letter in "abcdef":
            blocks.do(f"put /d/{80 * letter}")
        blocks.stand("three parts", [ROOT, (2, 3), (4, 5), (6, 7)], [ROOT, (2, 3)], 8)
        for letter in order:
            blocks.do(f"rm /d/{80 * letter}")
            has_no_empty_part(blocks, f"{letter} of {order}")
        blocks.stand(f"after {order}", [ROOT, (2, 3)], [ROOT, (2, 3)], 12)
        for _ in order:
            blocks.do("undo")
        blocks.stand(f"{order} undone", [ROOT, (2, 3), (4, 5), (6, 7)], [ROOT, (2, 3)], 8)


def scripts_and_folders_empty_parts(folder):
    source = pathlib.Path(folder.room.name) / "src"
    lines = [f"rm /file{number:02}" for number in range(17, 5, -1)] + ["mkdir /a", "mv /file00 /a/f"]
    for options in [], ["--one"]:
        blocks = eighteen_files(folder)
        begun = folder.old()
        run(blocks, "batch", "-b", "512", *options, "a.img", given=script(lines))
        blocks.stand(f"a script {options}", [ROOT, (2, 3)], [ROOT, (2, 3)], 12)
        has_no_empty_part(blocks, f"a script {options}")
        run(blocks, "undo", "-b", "512", "--steps", "1" if options else str(len(lines)), "a.img")
        folder.check(f"a script {options}: undone", folder.old() == begun)
    blocks = eighteen_files(folder)
    begun = folder.old()
    source.mkdir()
    for number in range(17):
        (source / f"file{number:02}").write_bytes(contents(11))
    run(blocks, "sync", "-b", "512", "a.img", "src")
    blocks.stand("a folder of 17 files", [ROOT], [ROOT], 14)
    blocks.lists(*names(17))
    run(blocks, "undo", "-b", "512", "a.img")
    folder.check("a folder of 17 files: undone", folder.old() == begun)
    run(blocks, "rm", "-b", "512", "-r", "a.img", "/file17")
    blocks.stand("a file that is removed with all below", [ROOT], [ROOT], 14)


sys.exit(run_scenes([
    the_last_of_eighteen_files_goes,
    the_last_of_eighteen_files_moves,
    a_moved_entry_may_need_a_part_again,
    emptied_parts_leave,
    a_first_part_stays_without_entries,
    each_part_leaves_in_its_turn,
    scripts_and_folders_empty_parts,
]))
