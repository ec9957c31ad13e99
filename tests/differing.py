#!/usr/bin/env python3
"""Compares what `diff` and `log` print with what a reader apart from the program makes of the images: over images of which some come
from a writer apart from it, over 200 pairs of images, and over histories of which each image was kept."""
import random
import sys

from support.folder import run_scenes
from support.journal import journal
from support.littlefs import Reader
from support.logs import chained, directory, file, image, log, superblock, tail, SOFT
from support.texts import difference_of, ended_by

NO_FORMAT, NO_MATCH, NO_IMAGE = "lfsed: 50 JournalFormat\n", "lfsed: 51 JournalMismatch\n", "lfsed: 52 JournalImage\n"
NO_UNDO, NO_REDO = "lfsed: 53 NothingToUndo\n", "lfsed: 54 NothingToRedo\n"
IN_ORDER = """~ f          1 /ab
- f          0 /a
- d          - /b
- @ 74 01
+ f          3 /b
+ d          - /c
+ @ 74 01
+ @ 75 
+ f          2 /c/x
"""
TOLD = """change 1, done
+ d          - /a
change 2, done
+ f          5 /a/x
change 3, done
- f          5 /a/x
+ f          5 /a/x
+ @ 74 0102
change 4, undone
- f          5 /a/x
- @ 74 0102
change 5, undone
- d          - /a
"""


def other(folder):
    """Where the second image stands."""
    return folder.image.with_name("b.img")


def differs(folder, what, size, old, new):
    """Compares the difference of two images with the one that the reader makes of them."""
    folder.be(old, 0)
    other(folder).write_bytes(new)
    wanted = difference_of(Reader(old, size).tree(), Reader(new, size).tree())
    ended = folder.run(f"diff -b {size} a.img b.img")
    folder.check(what, ended == ended_by(wanted), (ended, wanted))
    status, told, _ = ended_by(wanted)
    ended = folder.run(f"diff --quiet -b {size} a.img b.img")
    folder.check(f"{what}, quietly", ended == (status, told, b""), (ended, wanted))
    folder.check(f"{what}: files", (folder.old(), other(folder).read_bytes(), folder.saved()) == (old, new, None))


def worked_differences(folder):
    b = "--block 512"
    for words, length in [("format --count 16", 0), ("put /a", 0), ("put /ab", 0), ("mkdir /b", 0), ("setattr /b 74 01", 0), ("put /same", 70)]:
        name, *rest = words.split(" ")
        folder.check(words, folder.run(" ".join([name, b, "a.img", *rest]), length)[0] == 0)
    folder.image.rename(other(folder))
    folder.journal.unlink()
    steps = [
        ("format --count 32", 0), ("put /ab", 1), ("put /b", 3), ("mkdir /c", 0), ("put /c/x", 2), ("setattr /c 75", 0), ("setattr /c 74 01", 0),
        ("put /same", 70),
    ]
    for words, length in steps:
        name, *rest = words.split(" ")
        rest += [""] * (name == "setattr" and len(rest) == 2)
        folder.check(words, folder.run(" ".join([name, b, "a.img", *rest]), length)[0] == 0)
    there = other(folder).read_bytes(), folder.old()
    ended = folder.run(f"diff {b} b.img a.img")
    folder.check("in the order of paths", ended == ended_by(IN_ORDER), ended)
    ended = folder.run(f"diff {b} a.img a.img")
    folder.check("an image and itself", ended == (0, "", b""), ended)
    folder.check("both images stay", (other(folder).read_bytes(), folder.old()) == there)
    differs(folder, "read apart", 512, *there)


def held_elsewhere(folder):
    """A file's bytes stand in its entry in one image and in a block in the other; of one size, with others, and with the same ones."""
    def root(items, blocks):
        return image(512, 8, {0: log(1, superblock(512, 8) + items), **blocks})

    inline = root(file(1, b"f", b"bytes"), {})
    same, differ = (root(chained(1, b"f", 4, 5), {4: held}) for held in (b"bytes", b"bytez"))
    long = bytes(700)
    chains = [root(chained(1, b"f", 5, 700), {4: long[:512], 5: b"\4\0\0\0" + tail_of}) for tail_of in (long[:188], long[:187] + b"x")]
    differs(folder, "the same bytes in a block", 512, inline, same)
    differs(folder, "other bytes in a block", 512, inline, differ)
    differs(folder, "other bytes in one entry", 512, inline, root(file(1, b"f", b"Bytes"), {}))
    differs(folder, "the last byte of a chain", 512, *chains)
    differs(folder, "the last byte of a chain, back", 512, *reversed(chains))
    differs(folder, "a file and a directory", 512, inline, image(512, 8, {
        0: log(1, superblock(512, 8) + directory(1, b"f", (2, 3)) + tail(SOFT, (2, 3))), 2: log(1, file(0, b"g"))}))


def refused(folder):
    """Each fault names the image that it is of."""
    good = image(512, 8, {0: log(1, superblock(512, 8))})
    small = image(256, 16, {0: log(1, superblock(256, 16))})
    refusals = [
        (good[:-1], good, "lfsed: 1 ImageLength\nlfsed: a.img: its first block states 8 blocks of 512 bytes\n"),
        (good, good[:-1], "lfsed: 1 ImageLength\nlfsed: b.img: its first block states 8 blocks of 512 bytes\n"),
        (good[:-1], small[:-1], "lfsed: 1 ImageLength\nlfsed: a.img: its first block states 8 blocks of 512 bytes\n"),
        (bytes(4_096), good, "lfsed: 3 NoValidCommit\nlfsed: a.img: blocks 0 and 1 (/): neither holds a whole commit\n"),
        (good, bytes(4_096), "lfsed: 3 NoValidCommit\nlfsed: b.img: this image is refused\n"),
        (bytes(4_096), bytes(4_096), "lfsed: 3 NoValidCommit\nlfsed: a.img: blocks 0 and 1 (/): neither holds a whole commit\n"),
        (good, small, "lfsed: 11 Geometry\nlfsed: b.img: its superblock states 16 blocks of 256 bytes\n"),
        (small, good, "lfsed: 11 Geometry\nlfsed: a.img: its superblock states 16 blocks of 256 bytes\n"),
    ]
    for old, new, complaint in refusals:
        folder.be(old, 0)
        other(folder).write_bytes(new)
        ended = folder.run("diff -b 512 a.img b.img")
        folder.check(complaint, ended == (3, complaint, b""), ended)
    missing = "lfsed: 60 CannotRead\nlfsed: {}: No such file or directory (os error 2)\n"
    for name in "a.img", "b.img":
        folder.be(good, 0)
        other(folder).write_bytes(good)
        (folder.image if name == "a.img" else other(folder)).unlink()
        ended = folder.run("diff -b 512 a.img b.img")
        folder.check(f"{name} is missing", ended == (4, missing.format(name), b""), ended)


def block_sizes(folder):
    """Each of two images is read with the block size that it states itself, where that is asked for."""
    def of(size, items):
        return image(size, 16, {0: log(1, superblock(size, 16) + items)})

    small, large, differing = of(256, file(1, b"f", b"abc")), of(1_024, file(1, b"f", b"abc")), of(512, file(1, b"e") + file(2, b"f", b"xyz"))
    for old, new, printed in (
        (small, large, ""), (large, small, ""), (small, differing, "+ f          0 /e\n~ f          3 /f\n"),
        (differing, large, "- f          0 /e\n~ f          3 /f\n"),
    ):
        folder.be(old, 0)
        other(folder).write_bytes(new)
        ended = folder.run("diff -b auto a.img b.img")
        folder.check(f"block sizes: {printed}", ended == ended_by(printed), ended)
    other(folder).write_bytes(large[:-1])
    ended = folder.run("diff -b auto a.img b.img")
    told = "lfsed: 1 ImageLength\nlfsed: b.img: its first block states 16 blocks of 1024 bytes\n"
    folder.check("block sizes: another length", ended == (3, told, b""), ended)
    other(folder).write_bytes(4_097 * b"x")
    ended = folder.run("diff -b auto a.img b.img")
    told = "lfsed: 1 ImageLength\nlfsed: b.img: 4097 bytes are no multiple of 4096\n"
    folder.check("block sizes: none is stated", ended == (3, told, b""), ended)


def limits(folder):
    """Limits that differ stand in front of what else does, those of the second image."""
    for words, row in (
        ("--name-max 12", "~ limits 12 2147483647 1022\n"), ("--file-max 900", "~ limits 255 900 1022\n"),
        ("--attr-max 30", "~ limits 255 2147483647 30\n"), ("--name-max 255 --attr-max 1022", ""),
    ):
        for line in f"format -b 512 --count 8 {words} b.img", "format -b 512 --count 8 a.img":
            folder.check(line, folder.run(line)[0] == 0)
        ended = folder.run("diff -b 512 a.img b.img")
        folder.check(f"limits: {words}", ended == ended_by(row), ended)
        folder.run("mkdir -b 512 b.img /d")
        ended = folder.run("diff -b 512 a.img b.img")
        folder.check(f"limits: {words}, and a directory", ended == ended_by(f"{row}+ d          - /d\n"), ended)
        ended = folder.run("diff -b 512 --quiet b.img a.img")
        folder.check(f"limits: {words}, quietly", ended == (1, "", b""), ended)
    for left in "b.img", "b.img.lfsj":
        folder.image.with_name(left).unlink()


def told(folder):
    """A history, some of whose changes are undone; its image without a journal; and what is no journal."""
    b = "-b 512"
    folder.play([
        (f"format {b} --count 8 a.img", 0, 0, "", ""),
        (f"log {b} a.img", 0, 0, "", ""),
        (f"mkdir {b} a.img /a", 0, 0, "", ""),
        (f"put {b} a.img /a/x", 5, 0, "", ""),
        (f"setattr {b} a.img /a/x 74 0102", 0, 0, "", ""),
        (f"rm {b} a.img /a/x", 0, 0, "", ""),
        (f"rm {b} a.img /a", 0, 0, "", ""),
        (f"undo {b} --steps 6 a.img", 0, 1, NO_UNDO, ""),
        (f"undo {b} --steps 2 a.img", 0, 0, "", ""),
        (f"log {b} a.img", 0, 0, "", TOLD),
        (f"redo {b} --steps 3 a.img", 0, 1, NO_REDO, ""),
        (f"redo {b} --steps=2 a.img", 0, 0, "", ""),
        (f"log {b} a.img", 0, 0, "", TOLD.replace("undone", "done")),
        (f"undo {b} --steps 5 a.img", 0, 0, "", ""),
        (f"log {b} a.img", 0, 0, "", TOLD.replace(", done", ", undone")),
        (f"undo {b} a.img", 0, 1, NO_UNDO, ""),
    ])
    folder.journal.write_bytes(b"lfsj")
    folder.play([(f"log {b} a.img", 0, 3, NO_FORMAT, "")])
    old, new = image(512, 8, {0: log(1, superblock(512, 8))}), image(512, 8, {0: log(1, superblock(512, 8) + file(1, b"f"))})
    folder.be(new, 0)
    folder.journal.write_bytes(journal(512, 8, [(8, 8, [(0, new[:512], old[:512])])], []))
    folder.play([(f"log {b} a.img", 0, 3, NO_MATCH, "")])
    folder.journal.write_bytes(journal(512, 8, [(8, 8, [(0, old[:512], new[:512])])], []))
    folder.play([(f"log {b} a.img", 0, 0, "", "change 1, done\n+ f          0 /f\n")])
    folder.journal.write_bytes(journal(512, 8, [(8, 8, [(0, bytes(512), new[:512])])], []))
    folder.play([(f"log {b} a.img", 0, 3, NO_IMAGE, "")])
    folder.be(old, 0)
    folder.journal.write_bytes(journal(512, 8, [], [(8, 8, [(0, old[:512], new[:512])]), (8, 8, [(0, new[:512], bytes(512))])]))
    folder.play([(f"log {b} a.img", 0, 3, NO_IMAGE, "")])
    folder.journal.unlink()
    folder.play([(f"log {b} a.img", 0, 0, "", "")])


def not_taken(folder):
    """Words that are refused, and output that fails."""
    folder.play([("format -b 512 --count 8 a.img", 0, 0, "", ""), ("put -b 512 a.img /f", 3, 0, "", "")])
    for words in "undo --steps 0 a.img", "redo --steps 1001 a.img", "undo --steps x a.img":
        folder.begins(words, "error: invalid value")
    for words in "check --steps 1 a.img", "diff a.img", "diff a.img b.img c.img", "log a.img b.img", "log --keep 1 a.img":
        folder.begins(words, "error: ")
    folder.image.rename(other(folder))
    folder.check("format", folder.run("format -b 512 --count 8 a.img")[0] == 0)
    folder.journal.write_bytes(folder.journal.read_bytes())
    with open("/dev/full", "wb") as full:
        ended = folder.run_into(full, "diff -b 512 a.img b.img")
    folder.check("a full disk", ended == (4, "lfsed: 61 CannotWrite\nlfsed: standard output: No space left on device (os error 28)\n"), ended)


def one_step(chance, n, directories, files):
    """Some command on a tree, as words and the length of what is read."""
    at = chance.random()
    if files and at < 0.2:
        return f"rm -b 256 a.img {files.pop(chance.randrange(len(files)))}", 0
    if files and at < 0.4:
        return f"put -b 256 a.img {chance.choice(files)}", chance.choice([0, 1, 32, 33, 700, 701])
    if at < 0.55:
        kind, value = chance.randrange(4), chance.randbytes(chance.randrange(3))
        return f"setattr -b 256 a.img {chance.choice(directories + files) or '/'} {kind:02x} {value.hex()}", 0
    path = f"{chance.choice(directories)}/{chance.choice('abc')}{n}{chance.choice(['', 'x' * 40])}"
    if at < 0.7:
        directories.append(path)
        return f"mkdir -b 256 a.img {path}", 0
    files.append(path)
    return f"put -b 256 a.img {path}", chance.choice([0, 1, 32, 33, 700])


def grown(folder, chance):
    """The images of a history of random commands, the first one first; the folder has the last one, with its journal."""
    folder.be(b"", 0)
    folder.check("format", folder.run("format -b 256 --count 300 a.img")[0] == 0)
    images, directories, files = [folder.old()], [""], []
    for n in range(40):
        words, length = one_step(chance, n, directories, files)
        if folder.run(words, length)[0] == 0:
            images.append(folder.old())
    return images


def random_histories(folder):
    """The changes of histories, and 200 pairs of their images."""
    chance = random.Random(11)
    histories = []
    for _ in range(5):
        images = grown(folder, chance)
        trees = [Reader(data, 256).tree() for data in images]
        back = chance.randrange(1, 20)
        folder.check("undo", folder.run(f"undo -b 256 --steps {back} a.img") == (0, "", b""))
        folder.check("undo: image", folder.old() == images[-1 - back])
        done = len(images) - 1 - back
        told_of = [f"change {n + 1}, {'done' if n < done else 'undone'}\n" + difference_of(*trees[n:n + 2]) for n in range(len(images) - 1)]
        ended = folder.run("log -b 256 a.img")
        folder.check("log", ended == (0, "", "".join(told_of).encode()), ended)
        histories.append(images)
    for n in range(200):
        old, new = (chance.choice(chance.choice(histories)) for _ in range(2))
        differs(folder, f"pair {n}", 256, old, new)


SCENES = [worked_differences, held_elsewhere, refused, block_sizes, limits, told, not_taken, random_histories]

sys.exit(run_scenes(SCENES))
