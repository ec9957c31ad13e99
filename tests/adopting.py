#!/usr/bin/env python3
"""Images that a device wrote, taken over in place by `adopt`.

Seven were made by a real littlefs, six of them when it lost its power or ran long, and stand in tests/images/unfinished with what the device
listed and with the bytes that they have once they are taken over."""
import json
import lzma
import pathlib
import sys

import unfinished
from support.folder import run_scenes
from support.later import stated, written
from support.logs import image
from unfinished import COUNT, IMAGES, ROWS, SIZE, STORED

DROPPED = "that no path led to is dropped; salvage saves it from a copy made before"
# What is told of them.
TOLD = {
    "move": ["/a/f was being moved; its old place is cleared"],
    "move-directory": ["/a/d was being moved; its old place is cleared"],
    "lost": [f"blocks 10 and 11: a directory with 2 entries {DROPPED}", f"blocks 14 and 15: a directory with 2 entries {DROPPED}"],
    "out-of-step": ["/d1 stands in blocks 16 and 20, not in blocks 19 and 20, which the thread named"],
}
NOTHING = b"no block changed\n"


def stored(name):
    """The bytes of a stored image."""
    return lzma.decompress((STORED / f"{name}.img.xz").read_bytes())


def listed(numbers):
    """What is said of the blocks with these numbers that change."""
    *before, last = map(str, numbers)
    return f"blocks {', '.join(before)} and {last} changed\n".encode()


def told_of(name):
    """What is told of a stored image on standard error."""
    return "".join(f"lfsed: a.img: {line}\n" for line in TOLD.get(name, []))


def tree(folder):
    """What the program lists of the image, as it is."""
    status, told, printed = folder.run("ls -b auto --json a.img")
    return unfinished.rows_of(printed) if (status, told) == (0, "") else (status, told)


def stored_images_are_taken_over(folder):
    for name, about in IMAGES.items():
        folder.be(stored(name), 0)
        wanted = {"/": None, **{path: length for path, length in about["tree"]}}
        folder.check(f"{name}: checked as a device reads it", folder.run("check -b auto --device a.img")[0] == 0)
        ended = folder.run("adopt -b auto a.img")
        folder.check(f"{name}: taken over", ended == (0, told_of(name), listed(about["changed"])), ended)
        folder.check(f"{name}: its bytes", folder.old() == stored(f"{name}.adopted"))
        left = folder.old(), folder.saved()
        folder.check(f"{name}: a journal without changes", left[1] is not None and len(left[1]) == 24, left[1])
        ended = folder.run("check -b auto a.img")
        folder.check(f"{name}: checked", ended[:2] == (0, "") and ended[2].endswith(b", version 2.0\n"), ended)
        folder.check(f"{name}: the device's tree", tree(folder) == wanted, tree(folder))
        ended = folder.run("adopt -b auto a.img")
        folder.check(f"{name}: taken over twice", ended == (0, "", NOTHING) and (folder.old(), folder.saved()) == left, ended)
        is_changed(folder, name, wanted)


def is_changed(folder, name, wanted):
    """A file is put into an image that was taken over, and taken back; the history is kept if it is taken over again."""
    first = folder.old()
    ended = folder.run("put -b auto a.img /new", 5)
    folder.check(f"{name}: put", ended == (0, "", b"") and tree(folder) == {**wanted, "/new": 5}, ended)
    left = folder.old(), folder.saved()
    ended = folder.run("adopt -b auto a.img")
    folder.check(f"{name}: changed and taken over", ended == (0, "", NOTHING) and (folder.old(), folder.saved()) == left, ended)
    ended = folder.run("undo -b auto a.img")
    folder.check(f"{name}: taken back", ended == (0, "", b"") and folder.old() == first, ended)


def blocks_are_said_in_json(folder):
    for name, about in IMAGES.items():
        folder.be(stored(name), 0)
        status, told, printed = folder.run(f"adopt -b {about['block']} --json a.img")
        rows = [json.loads(line) for line in printed.splitlines()]
        folder.check(f"{name}: in JSON", status == 0 and rows == [{"changed": number} for number in about["changed"]], (told, printed))
    ended = folder.run("adopt -b auto --json a.img")
    folder.check("no block in JSON", ended == (0, "", b""), ended)


def one_block_changes(folder):
    # The second block of each pair has no commit: it stays as it is, whatever its bytes are.
    blocks = {0: written(1, SIZE, stated(unfinished.LATER, SIZE, COUNT)), 1: b"no commit"}
    folder.be(image(SIZE, COUNT, blocks), 0)
    ended = folder.run(f"adopt -b {SIZE} a.img")
    folder.check("one block changes", ended == (0, "", b"block 0 changed\n"), ended)
    folder.check("the block beside it stays", folder.old()[SIZE:2 * SIZE] == b"no commit".ljust(SIZE, b"\xff"))


def what_cannot_be_ended_is_refused(folder):
    for name, row in ROWS.items():
        if isinstance(row.wanted, str):
            before = image(SIZE, COUNT, row.blocks)
            folder.be(before, 0)
            ended = folder.run(f"adopt -b {SIZE} a.img")
            is_named = ended[0] == 3 and ended[1].startswith(f"lfsed: {row.wanted}\n") and not ended[2]
            folder.check(f"{name}: refused", is_named and folder.old() == before and folder.saved() is None, ended)
    folder.be(b"no image", 512)
    ended = folder.run("adopt -b 512 a.img")
    folder.check("no image", ended[0] == 3 and folder.saved() is None, ended)


def a_history_is_kept(folder):
    folder.play([("format --block 256 --count 24 a.img", 0, 0, "", ""), ("put --block 256 a.img /f", 9, 0, "", "")])
    journal = folder.saved()
    for name in IMAGES:
        folder.image.write_bytes(stored(name))
        folder.journal.write_bytes(journal)
        ended = folder.run("adopt -b auto a.img")
        is_kept = folder.old() == stored(name) and folder.saved() == journal
        folder.check(f"{name}: a journal with changes", ended[0] == 1 and ended[1].startswith("lfsed: 56 JournalHasChanges\n") and not ended[2] and is_kept, ended)
        ended = folder.run("adopt -b auto --replace a.img")
        is_new = folder.old() == stored(f"{name}.adopted") and len(folder.saved()) == 24
        folder.check(f"{name}: it is replaced", ended == (0, told_of(name), listed(IMAGES[name]["changed"])) and is_new, ended)


def output_that_fails_changes_nothing(folder):
    folder.be(stored("move"), 0)
    with open("/dev/full", "wb") as full:
        ended = folder.run_into(full, "adopt -b auto a.img")
    folder.check("no room for what is said", ended[0] == 4 and ended[1].startswith("lfsed: 61 CannotWrite\n"), ended)
    folder.check("no room: files", folder.old() == stored("move") and folder.saved() is None)


if __name__ == "__main__":
    sys.exit(run_scenes([
        stored_images_are_taken_over, blocks_are_said_in_json, one_block_changes, what_cannot_be_ended_is_refused, a_history_is_kept,
        output_that_fails_changes_nothing]))
