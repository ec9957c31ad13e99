#!/usr/bin/env python3
"""Compares what `ls` prints of a path, and what `extract` makes of it, with what a reader apart from the program finds there and below,
over images of a writer apart from it. A path that is refused is refused as by `cat`."""
import random
import shutil
import subprocess
import sys

from support.folder import PROGRAM, run_scenes
from support.littlefs import Reader
from support.logs import SOFT, attribute, directory, file, image, log, superblock, tail
from support.scattering import Scattered
from support.texts import listed


def run(folder, *words):
    """Runs the program on the image; answers its status, what it complained and what it printed."""
    ended = subprocess.run([PROGRAM, *words], cwd=folder.room.name, stdin=subprocess.DEVNULL, capture_output=True, timeout=60)
    return ended.returncode, ended.stderr, ended.stdout


def below(tree, path):
    """What stands at a path of a tree and below it."""
    return {at: row for at, row in tree.items() if at == path or at.startswith(path.rstrip(b"/") + b"/")}


def each_path_is_listed(folder, what, held, size):
    """Lists each path of an image, and the image without a path."""
    folder.be(held, 0)
    tree = Reader(held, size).tree()
    for path in tree:
        ended = run(folder, "ls", "-b", str(size), "--", "a.img", path)
        folder.check(f"{what}: {path}", ended == (0, b"", listed(below(tree, path))), ended)
    folder.check(f"{what}: all", run(folder, "ls", "-b", str(size), "a.img") == (0, b"", listed(tree)))


def made_of(tree, path):
    """What a folder holds that is made of what stands at a path of a tree: paths from the folder on, with the bytes of files."""
    front = path.rstrip(b"/") + b"/"
    return {at.removeprefix(front): held for at, (held, _) in tree.items() if at.startswith(front) and at != front}


def held_by(place):
    """What a folder of the host holds, in the same way."""
    return {bytes(path.relative_to(place)): path.read_bytes() if path.is_file() else None for path in place.rglob("*")}


def is_made(folder, what, words, wanted):
    """Makes a folder by these words, compares what it holds, and takes it away."""
    place = folder.image.with_name("made")
    ended = run(folder, "extract", *words)
    folder.check(what, ended == (0, b"", b"") and place.is_dir() and held_by(place) == wanted, (ended, held_by(place)))
    shutil.rmtree(place, ignore_errors=True)


def each_path_is_extracted(folder, what, held, size):
    """Makes a folder of each directory of an image, and of the image without a path. Of a file none is made."""
    folder.be(held, 0)
    tree, place = Reader(held, size).tree(), folder.image.with_name("made")
    for path, (contents, _) in tree.items():
        words = ["-b", str(size), "--", "a.img", "made", path]
        if contents is None:
            is_made(folder, f"{what}: {path} is made", words, made_of(tree, path))
            continue
        ended = run(folder, "extract", *words)
        told = b"lfsed: 32 NotADirectory\nlfsed: a.img: " + path + b": is a file\n"
        folder.check(f"{what}: {path} is refused", ended == (1, told, b"") and not place.exists(), ended)
    is_made(folder, f"{what}: all is made", ["-b", str(size), "a.img", "made"], made_of(tree, b"/"))
    folder.check(f"{what}: the image stands", folder.old() == held)


def worked_paths(folder):
    """A directory between others of which each begins with the name of another one."""
    root = directory(1, b"ab", (4, 5)) + directory(2, b"a", (2, 3)) + attribute(2, 0x74, b"\1") + file(3, b"b") + tail(SOFT, (2, 3))
    blocks = {0: log(1, superblock(512, 16) + root), 2: log(1, file(0, b"x", b"in a") + directory(1, b"y", (6, 7)) + tail(SOFT, (6, 7))),
              6: log(1, file(0, b"z", b"deep") + tail(SOFT, (4, 5))), 4: log(1, file(0, b"x", b"in ab"))}
    held, there = image(512, 16, blocks), folder.image.with_name("there")
    there.mkdir()
    each_path_is_listed(folder, "worked", held, 512)
    ended = run(folder, "ls", "-b", "512", "a.img", "/a")
    wanted = b"d          - /a\n@ 74 01\nf          4 /a/x\nd          - /a/y\nf          4 /a/y/z\n"
    folder.check("worked by hand", ended == (0, b"", wanted), ended)
    each_path_is_extracted(folder, "worked", held, 512)
    is_made(folder, "made by hand", ["-b", "512", "a.img", "made", "/a"], {b"x": b"in a", b"y": None, b"y/z": b"deep"})
    for path in "/none", "/none/x", "/b/x", "/a/x/y", "a", "/a/", "//", "/a//x", "/./a", "":
        as_cat = run(folder, "cat", "-b", "512", "a.img", path)
        for command, *words in ["ls"], ["extract", "made"], ["extract", "there"]:
            ended = run(folder, command, "-b", "512", "a.img", *words, path)
            folder.check(f"{command} {words}: refused: {path}", ended == as_cat and ended[0] == 1, (ended, as_cat))
    folder.check("nothing is made", not folder.image.with_name("made").exists() and not [*there.iterdir()])


def random_images(folder):
    """Images of random trees."""
    chance = random.Random(17)
    for number in range(20):
        size = chance.choice([256, 512, 1_024])
        held = Scattered(chance, size, 64).image
        each_path_is_listed(folder, f"image {number}", held, size)
        each_path_is_extracted(folder, f"image {number}", held, size)


sys.exit(run_scenes([worked_paths, random_images]))
