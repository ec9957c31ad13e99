#!/usr/bin/env python3
"""Tries the module for Python: the examples in its doc strings, faults of each kind, batches that aren't carried out or that threads share,
and 10,000 random paths, names and contents, which have to come back as they went in. What it answers of places, blocks and paths is compared
with images laid out by hand, with a reader apart from the program, and with trees that are followed here. Its files are read as Python 3.9
reads them, and judged by mypy with a script of uses, where that is there."""
import ast
import concurrent.futures
import contextlib
import doctest
import functools
import hashlib
import importlib
import os
import pathlib
import pickle
import random
import shutil
import subprocess
import sys
import tempfile
import unittest.mock

from support.counts import Counts
from support.folder import HOME, PROGRAM
from support.littlefs import Reader
from support.logs import SOFT, directory, file, image as laid_out, log, superblock, tail
from support.texts import in_order

sys.path.insert(0, str(HOME / "python"))
os.environ["LFSED"] = str(PROGRAM)

import lfsed  # noqa: E402

FILES = sorted((HOME / "python/lfsed").glob("*.py"))
# Pythons that may have what pip needs to install the module, and what that is.
PYTHONS = sys.executable, "/usr/bin/python3"
WANTED = "import setuptools, wheel, pip; assert int(setuptools.__version__.split('.')[0]) >= 61"
# A script that uses the module, with types.
USES = HOME / "tests/support/uses.py"
# What a name is made of, where the host takes it too, and what it may be made of besides.
LETTERS = [*map(chr, range(1, 127)), *"äß€→😀"]
LETTERS.remove("/")
ODD = [os.fsdecode(bytes([byte])) for byte in (0, *range(128, 256))]
SIZES = 0, 1, 60, 64, 65, 500, 512, 513, 3_000
# How many images are made by batches, how many entries each has, and how many one has that is made change by change.
BATCHES, ENTRIES, SINGLE = 11, 900, 100
READ = 20
# How many files threads put by one batch.
SHARED = 600
# How many batches make and remove whole trees, and how many steps each has.
TREES, STEPS = 6, 60


def name(chance, letters):
    """A name of these letters."""
    length = chance.choice([1, 2, 5, 12, 12, 12, 60])
    made = "".join(chance.choice(letters) for _ in range(length))
    # Odd bytes beside each other may be a letter.
    return os.fsdecode(os.fsencode(made)) if made not in (".", "..") else "dots"


def sown(chance, many, letters):
    """What stands at so many paths of an image: the contents of a file or None, and the attributes."""
    tree, directories = {}, [""]
    while len(tree) < many:
        path = f"{chance.choice(directories[-9:])}/{name(chance, letters)}"
        if path in tree:
            continue
        held = None if chance.random() < 0.1 else chance.randbytes(chance.choice(SIZES))
        tree[path] = held, {chance.randrange(256): chance.randbytes(chance.randrange(9))} if chance.random() < 0.2 else {}
        directories += [path] * (held is None)
    return tree


def put(target, tree):
    """Puts what stands at paths into an image, or into a batch of one."""
    for path, (held, attributes) in tree.items():
        if held is None:
            target.mkdir(path)
        else:
            target.write(path, held)
        for kind, value in attributes.items():
            target.set_attribute(path, kind, value)


def is_listed(counts, what, image, tree):
    """What the image lists is the tree, in the order of its paths."""
    wanted = [(path, None if held is None else len(held), attributes) for path, (held, attributes) in tree.items()]
    wanted = sorted([("/", None, {}), *wanted], key=lambda row: in_order(os.fsencode(row[0])))
    found = [(row.path, row.size, row.attributes) for row in image.rows()]
    counts.check(f"{what}: rows", found == wanted, [pair for pair in zip(found, wanted) if pair[0] != pair[1]][:1])


def parts_are_listed(counts, what, image, paths):
    """What is listed of a path is what all of the image has there and below it."""
    rows = image.rows()
    for path in paths:
        wanted = [row for row in rows if row.path == path or row.path.startswith(f"{path}/")]
        counts.check(f"{what}: rows of {path!r}", image.rows(path) == wanted)


def are_digested(counts, what, tree, rows):
    """The digests of rows are those of the tree's contents."""
    wanted = {path: None if held is None else hashlib.sha256(held).hexdigest() for path, (held, _) in tree.items()}
    counts.check(f"{what}: digests", {row.path: row.sha256 for row in rows} == {"/": None, **wanted})


def are_held(counts, what, tree, read):
    """The contents of the tree are what is read."""
    wrong = [path for path, (held, _) in tree.items() if held is not None and read(path) != held]
    counts.check(f"{what}: contents", not wrong, wrong[:1])


def renamed(image, tree):
    """Gives all files names that the host takes, and takes the directories away; answers what stands where then."""
    files = {f"/file{number}": path for number, path in enumerate(tree) if tree[path][0] is not None}
    with image.batch() as batch:
        for plain, path in files.items():
            batch.rename(path, plain)
        for path in reversed([path for path in tree if tree[path][0] is None]):
            batch.remove(path)
    return {plain: tree[path] for plain, path in files.items()}


def comes_back_from_batches(counts, chance, at):
    """What goes in by one batch or two, as one change or as many, comes back, under other names where the host doesn't take all."""
    is_odd = at % 7 == 0
    tree = sown(chance, ENTRIES, LETTERS + ODD if is_odd else LETTERS)
    image = lfsed.format(f"batch{at}.img", block=1_024, count=2_500)
    image.keep, paths, cut = 500, [*tree], ENTRIES // (1 + at % 2)
    for part in filter(None, (paths[:cut], paths[cut:])):
        with image.batch(one=at != 3) as batch:
            put(batch, {path: tree[path] for path in part})
    is_listed(counts, f"batch {at}", image, tree)
    are_digested(counts, f"batch {at}", tree, image.rows(digests=True))
    parts_are_listed(counts, f"batch {at}", image, paths[:3] + [path for path in paths if tree[path][0] is None][:5])
    tree = renamed(image, tree) if is_odd else tree
    image.extract(f"held{at}")
    are_held(counts, f"batch {at}", tree, lambda path: pathlib.Path(f"held{at}{path}").read_bytes())
    are_held(counts, f"batch {at}: read", dict(chance.sample([*tree.items()], READ)), image.read)


def comes_back_from_changes(counts, chance):
    """What goes in change by change comes back, and is taken back."""
    tree = sown(chance, SINGLE, LETTERS)
    image = lfsed.format("single.img", block=512, count=1_000)
    before = pathlib.Path("single.img").read_bytes()
    put(image, tree)
    is_listed(counts, "changes", image, tree)
    are_held(counts, "changes", tree, image.read)
    image.undo(len(image.log()))
    counts.check("changes: undone", pathlib.Path("single.img").read_bytes() == before)


def raises(counts, what, kind, number, named, lines, act):
    """An act ends with a fault."""
    try:
        act()
        found = None
    except lfsed.Fault as fault:
        found = fault
    wanted = kind, number, named, lines
    is_found = found is not None and (type(found), found.number, found.name, found.lines) == wanted
    counts.check(what, is_found, found and (type(found), vars(found)))
    counts.check(f"{what}: pickled", is_found and vars(pickle.loads(pickle.dumps(found))) == vars(found))


def raises_value(counts, what, said, act):
    """An act is refused here, before the program is run."""
    try:
        act()
        counts.check(what, False)
    except ValueError as why:
        counts.check(what, said in str(why), why)


def faults(counts):
    """Faults of each status, with what is said of them."""
    image = lfsed.format("a.img", block=512, count=8)
    pathlib.Path("zeros.img").write_bytes(bytes(4_096))
    nothing = "a.img: /x: nothing is there"
    raises(counts, "no such path", lfsed.Refusal, 30, "NotFound", [nothing], lambda: image.remove("/x"))
    raises(counts, "no such rows", lfsed.Refusal, 30, "NotFound", [nothing], lambda: image.rows("/x"))
    odd = "a.img: /\udcff: nothing is there"
    raises(counts, "no such odd rows", lfsed.Refusal, 30, "NotFound", [odd], lambda: image.rows("/\udcff"))
    no_path = ["a.img: x: a path begins with /: try /x"]
    raises(counts, "rows of no path", lfsed.Refusal, 35, "BadPath", no_path, lambda: image.rows("x"))
    raises(counts, "no such part", lfsed.Refusal, 30, "NotFound", [nothing], lambda: image.extract("part", "/x"))
    full = ["need 7 free 6", "a.img: lfsed blocks --sum a.img says what each path takes"]
    raises(counts, "no space", lfsed.Refusal, 43, "NoSpace", full, lambda: image.write("/z", bytes(3_041)))
    no_image = ["zeros.img: blocks 0 and 1 (/): neither holds a whole commit"]
    raises(counts, "no image", lfsed.ImageFault, 3, "NoValidCommit", no_image, lfsed.Image("zeros.img", 512).check)
    no_file = ["none.img: No such file or directory (os error 2)"]
    raises(counts, "no file", lfsed.HostFault, 60, "CannotRead", no_file, lfsed.Image("none.img").check)
    raises(counts, "no batch", lfsed.Refusal, 30, "NotFound", ["standard input: line 2: rm /x"], lambda: refused_batch(image))
    counts.check("no batch: nothing is done", len(image.rows()) == 1)
    with contextlib.suppress(lfsed.UsageError):
        lfsed.Image("a.img", "many").check()
        counts.check("a word that is none", False)


def refused_batch(image):
    """A batch whose second change is refused."""
    with image.batch() as batch:
        batch.mkdir("/a")
        batch.remove("/x")


def broken_off(counts):
    """A batch whose block raises something does nothing, and one that has ended takes nothing."""
    image = lfsed.format("b.img", block=512, count=8)
    with contextlib.suppress(ZeroDivisionError):
        with image.batch() as batch:
            batch.write("/a", b"a" if 1 / 0 else b"")
    counts.check("broken off", len(image.rows()) == 1)
    raises_value(counts, "an ended batch", "within its `with` block", lambda: batch.mkdir("/b"))


def is_shared(counts):
    """Threads put files by one batch: each path gets its own contents."""
    image = lfsed.format("shared.img", block=1_024, count=1_000)
    wanted = {f"/{number}": f"{number} ".encode() * (number % 40) for number in range(SHARED)}
    with image.batch() as batch, concurrent.futures.ThreadPoolExecutor(16) as threads:
        for _ in threads.map(batch.write, wanted.keys(), wanted.values()):
            pass
    image.extract("shared")
    tree = {path: (held, {}) for path, held in wanted.items()}
    are_held(counts, "threads", tree, lambda path: pathlib.Path(f"shared{path}").read_bytes())


def is_entered_once(counts):
    """A batch is entered once: not within its block, which does nothing then, and not behind it."""
    image = lfsed.format("once.img", block=512, count=16)
    said = "a batch is entered once"
    with contextlib.suppress(ValueError):
        with image.batch() as batch:
            batch.mkdir("/a")
            raises_value(counts, "a batch in itself", said, batch.__enter__)
            with batch:
                batch.mkdir("/b")
    counts.check("a batch in itself: nothing is done", [row.path for row in image.rows()] == ["/"])
    with image.batch() as other:
        other.mkdir("/c")
    raises_value(counts, "a batch again", said, other.__enter__)
    counts.check("a batch again: it's done once", [row.path for row in image.rows()] == ["/", "/c"])


def putting(image, act):
    """A batch that puts two files, between which something happens."""
    with image.batch() as batch:
        batch.write("/a b", b"hello")
        act()
        batch.write("/c", bytes(4_000))


def names_no_file_of_its_own(counts):
    """What is told of a batch has the paths of the image, and not the files that the batch makes."""
    image = lfsed.format("told.img", block=512, count=8)
    room = pathlib.Path("room of\\batches").resolve()
    room.mkdir()
    with unittest.mock.patch.object(tempfile, "tempdir", str(room)):
        full = ["need 8 free 6", "standard input: line 2: put /c"]
        raises(counts, "a batch without space", lfsed.Refusal, 43, "NoSpace", full, lambda: putting(image, lambda: None))
        gone = ["/a b: No such file or directory (os error 2)", "standard input: line 1: put /a\\x20b"]
        less = functools.partial(putting, image, lambda: next(room.rglob("0")).unlink())
        raises(counts, "a batch less a file", lfsed.HostFault, 60, "CannotRead", gone, less)
        refused(counts, "/c", lambda: putting(image, lambda: shutil.rmtree(next(room.iterdir()))))
        room.rmdir()
        refused(counts, "told.img", image.batch().__enter__)


def refused(counts, path, act):
    """The system refuses something, which is told of a path."""
    try:
        act()
        counts.check(f"refused of {path}", False)
    except OSError as why:
        counts.check(f"refused of {path}", why.filename == path and "room of" not in str(why), why)


def other_calls(counts):
    """What the examples don't show."""
    image = lfsed.format("c.img", block=512, count=64, name_max=20)
    with image.batch(one=False) as batch:
        batch.mkdir("/d")
        batch.write(b"/d/a", b"one")
        batch.set_attribute("/d", 1, b"")
        batch.set_attribute("/d", 2, b"two")
        batch.remove_attribute("/d", 2)
        batch.rename("/d", "/e")
        batch.grow(65)
    counts.check("changes", [change.number for change in image.log()] == [*range(1, 8)])
    counts.check("attributes", image.attributes("/e") == {1: b""}, image.attributes("/e"))
    image.extract("only", "/e")
    counts.check("extract", [path.name for path in pathlib.Path("only").iterdir()] == ["a"])
    there, file = ["only: is there already"], ["c.img: /e/a: is a file"]
    raises(counts, "extract again", lfsed.HostFault, 62, "HostEntry", there, lambda: image.extract("only", "/e"))
    raises(counts, "extract of a file", lfsed.Refusal, 32, "NotADirectory", file, lambda: image.extract("part", "/e/a"))
    counts.check("extract of nothing", not pathlib.Path("part").exists())
    image.rename("/e/a", "/e/b")
    image.undo(2)
    image.redo()
    counts.check("redo", [change.is_done for change in image.log()] == [True] * 7 + [False])
    image.forget()
    counts.check("forget", image.log() == [])
    other = lfsed.repack("e.img", image, block=256, size="32k", name_max=30)
    limits = [lfsed.Difference("~", lfsed.Row("/", None), lfsed.Limits(20, 2_147_483_647, 1_022))]
    counts.check("repack", (other.check().count, other.diff(image)) == (128, limits), other.diff(image))
    image.write("/e/a", b"two")
    counts.check("diff", [(each.mark, each.row.path) for each in image.diff("e.img")] == [("~", "/"), ("~", "/e/a")])
    image.remove("/e", recursive=True)
    counts.check("removed", [row.path for row in image.rows()] == ["/"])


def bounds(counts):
    """How long a file may be that stands in its entry: five bytes, or four, by each call that puts files."""
    for most, taken in (5, 0), (4, 1):
        image = lfsed.format("i.img", block=512, count=64)
        image.inline_max = most
        free = image.check().free
        image.write("/a", b"hello")
        with image.batch() as batch:
            batch.write("/b", b"hello")
        pathlib.Path("held").mkdir(exist_ok=True)
        pathlib.Path("held/c").write_bytes(b"hello")
        image.sync("held", "/d")
        counts.check(f"inline_max {most}", free - image.check().free == 3 * taken + 2, image.check())
        counts.check(f"inline_max {most}: the longest", image.check().inline_longest == 5 * (1 - taken), image.check())
        packed = lfsed.pack("j.img", "held", block=512, count=64, inline_max=most)
        counts.check(f"pack, inline_max {most}", (62 - packed.check().free, packed.inline_max) == (taken, most), packed.check())
        again = lfsed.repack("k.img", lfsed.pack("l.img", "held", block=512, count=64), block=512, inline_max=most)
        counts.check(f"repack, inline_max {most}", 62 - again.check().free == taken, again.check())


def views(counts):
    """An image in a larger file, as a device reads it; blocks of a size that is said or read."""
    image = lfsed.format("v.img", block=512, count=16)
    image.write("/a", b"hello")
    pathlib.Path("flash.bin").write_bytes(bytes(1_000) + pathlib.Path("v.img").read_bytes() + bytes(700))
    for block in 512, "auto":
        inside = lfsed.Image("flash.bin", block, device=True, offset=1_000)
        counts.check(f"blocks of {block}", (inside.read("/a"), inside.check().count) == (b"hello", 16))
        lfsed.repack("out.img", inside, block=512)
        counts.check(f"blocks of {block}: repacked", lfsed.Image("out.img").rows() == image.rows())
    raises_value(counts, "a change within a file", "is only read", lambda: inside.mkdir("/b"))
    image.keep = 1
    image.remove("/a")
    image.mkdir("/b")
    counts.check("one change is kept", [change.differences[0].row.path for change in image.log()] == ["/b"], image.log())


def small(*items, others=()):
    """An image of 8 blocks of 512 bytes, with these items of its root and other blocks."""
    return laid_out(512, 8, {0: log(1, superblock(512, 8) + sum(items, [])), **dict(others)})


# A directory of two blocks that aren't there, and a file beside it; a pair that no directory leads to.
LOST = small(directory(1, b"etc", (2, 3)), tail(SOFT, (2, 3)), file(2, b"key", b"one"))
ORPHAN = small(file(1, b"key", b"one"), tail(SOFT, (2, 3)), others={2: log(1, file(0, b"f", b"two"))}.items())


def are_found(counts):
    """Where images begin in a file, those that mount and others."""
    sound = small(file(1, b"key", b"one"))
    pathlib.Path("finds.bin").write_bytes(bytes(1_000) + sound + LOST + bytes(700) + ORPHAN)
    wanted = [
        lfsed.Place(1_000, "2.0", 512, 8, 4_096), lfsed.Place(5_096, "2.0", 512, 8, 4_096, "3 NoValidCommit"),
        lfsed.Place(9_892, "2.0", 512, 8, 4_096),
    ]
    found = lfsed.find("finds.bin")
    counts.check("find", found == wanted, found)
    counts.check("find: mounts", [place.mounts for place in found] == [True, False, True], found)
    inside = lfsed.Image("finds.bin", found[0].block, offset=found[0].offset, device=True)
    counts.check("find: read", inside.read("/key") == b"one")
    pathlib.Path("nothing.bin").write_bytes(bytes(3_000))
    counts.check("find: nothing", lfsed.find("nothing.bin") == [])
    no_file = ["none.bin: No such file or directory (os error 2)"]
    raises(counts, "find: no file", lfsed.HostFault, 60, "CannotRead", no_file, lambda: lfsed.find("none.bin"))


def made_in(folder):
    """The files below a folder, with their contents."""
    return {str(path.relative_to(folder)): path.read_bytes() for path in pathlib.Path(folder).rglob("*") if path.is_file()}


def are_salvaged(counts):
    """What can be read of images is saved, and what is told of it; also if something is lost, and of an image within a file."""
    pathlib.Path("lost.img").write_bytes(LOST)
    pathlib.Path("orphan.img").write_bytes(ORPHAN)
    pathlib.Path("lost.bin").write_bytes(bytes(300) + LOST)
    lost = ["blocks 2 and 3 (/etc): neither holds a whole commit"]
    for name, offset in ("lost.img", None), ("lost.bin", 300):
        damaged = lfsed.Image(name, 512, offset=offset)
        lines = [f"{name}: {line}" for line in lost]
        made = f"of {name}"
        raises(counts, f"salvage {name}", lfsed.ImageFault, 3, "NoValidCommit", lines, lambda: damaged.salvage(made))  # noqa: B023
        counts.check(f"salvage {name}: saved", made_in(made) == {"key": b"one"}, made_in(made))
    told = ["doesn't mount (17 Orphan); nothing is lost", "blocks 2 and 3: no path leads there: saved as lost+found/2"]
    found = lfsed.Image("orphan.img", 512).salvage("of an orphan")
    counts.check("salvage: told", found == [f"orphan.img: {line}" for line in told], found)
    counts.check("salvage: an orphan", made_in("of an orphan") == {"key": b"one", "lost+found/2/f": b"two"}, made_in("of an orphan"))
    there = ["of an orphan: is there already"]
    again = lfsed.Image("orphan.img", 512)
    raises(counts, "salvage again", lfsed.HostFault, 62, "HostEntry", there, lambda: again.salvage("of an orphan"))


def ranges_of(numbers):
    """The first and the last of each run of numbers."""
    runs = []
    for number in sorted(numbers):
        if runs and runs[-1][1] + 1 == number:
            runs[-1][1] = number
        else:
            runs.append([number, number])
    return runs


def blocks_by_path(reader):
    """The kind and the blocks of each path of an image, and the free ones, by a reader apart from the program."""
    held, files = {}, reader.files()
    for path, pair in reader.rows():
        pairs = [part.pair for part in reader.parts_of(pair)] if pair else []
        blocks = [number for pair in pairs for number in pair] if pair else reader.blocks_of(files[path])
        held[os.fsdecode(path)] = "directory" if pair else "file", blocks
    return held, {*range(len(reader.image) // reader.size)} - {*reader.used()}


def blocks_are_told(counts, chance):
    """Which blocks hold what, and how many each path takes with what is below it, as a reader apart from the program has it."""
    image = lfsed.format("blocks.img", block=512, count=400)
    with image.batch() as batch:
        put(batch, sown(chance, 60, LETTERS + ODD))
    held, free = blocks_by_path(Reader(pathlib.Path("blocks.img").read_bytes(), 512))
    wanted = {(kind, path, number) for path, (kind, blocks) in held.items() for number in blocks}
    wanted |= {("free", None, number) for number in free}
    found = image.blocks()
    numbers = [(each.kind, each.path, number) for each in found for number in range(each.first, each.last + 1)]
    counts.check("blocks", {*numbers} == wanted and len(numbers) == 400, {*numbers} ^ wanted)
    counts.check("blocks: in order", [number for _, _, number in numbers] == [*range(400)])
    counts.check("blocks: count", sum(each.count for each in found) == 400)
    sums = {}
    for path, (_, blocks) in held.items():
        for above in {path[:at] or "/" for at, letter in enumerate(path) if letter == "/"} | {path}:
            sums[above] = sums.get(above, 0) + len(blocks)
    summed = [(held[path][0], path, sums[path]) for path in sorted(held, key=lambda path: in_order(os.fsencode(path)))]
    found = [(each.kind, each.path, each.count) for each in image.blocks(sums=True)]
    counts.check("blocks: sums", found == [*summed, ("free", None, len(free))], [*zip(found, summed)][:3])


def walked(tree, at):
    """What `os.walk` would give of a directory of a tree, by hand."""
    below = [path for path in tree if path.rpartition("/")[0] == at.rstrip("/")]
    below.sort(key=lambda path: in_order(os.fsencode(path)))
    directories = [path for path in below if tree[path][0] is None]
    rows = [(at, [path.rpartition("/")[2] for path in directories], [path.rpartition("/")[2] for path in below if path not in directories])]
    for path in directories:
        rows += walked(tree, path)
    return rows


def answers_of_paths(counts, what, image, tree, paths):
    """What stands at some paths, by each way to ask."""
    counts.check(f"{what}: walk", [*image.walk()] == walked(tree, "/"), [*zip(image.walk(), walked(tree, "/"))][:2])
    for path in paths:
        held, attributes = {"/": (None, {}), **tree}[path]
        stat = image.stat(path)
        found = stat.size, stat.is_directory, stat.attributes, image.is_dir(path), image.exists(path)
        size = None if held is None else len(held)
        counts.check(f"{what}: {path!r}", found == (size, held is None, attributes, held is None, True), found)
        if held is None:
            _, directories, files = walked(tree, path)[0]
            counts.check(f"{what}: listdir {path!r}", sorted(image.listdir(path)) == sorted(directories + files))
            counts.check(f"{what}: nothing in {path!r}", not image.exists(f"{path.rstrip('/')}/no such name"))


def paths_are_asked(counts, chance):
    """What stands where in an image, in one within a file and in one of a device."""
    tree = {"/d": (None, {}), "/d/b": (b"one", {}), "/d/a": (b"", {7: b"x"}), "/d/\udcff": (b"odd", {}), "/d/e": (None, {}),
            "/c": (bytes(600), {}), **{f"/z{path}": row for path, row in sown(chance, 3, LETTERS + ODD).items()}}
    tree["/z"] = None, {0: b""}
    image = lfsed.format("asked.img", block=512, count=200)
    with image.batch() as batch:
        put(batch, dict(sorted(tree.items())))
    pathlib.Path("asked.bin").write_bytes(bytes(40) + pathlib.Path("asked.img").read_bytes())
    inside = lfsed.Image("asked.bin", offset=40)
    device = lfsed.Image("asked.bin", 512, offset=40, device=True)
    answers_of_paths(counts, "asked", image, tree, ["/", *tree])
    for what, each in ("asked within a file", inside), ("asked as a device", device):
        answers_of_paths(counts, what, each, tree, ["/", "/d", "/d/b"])
    counts.check("listdir in order", image.listdir("/d") == ["a", "b", "e", "\udcff"], image.listdir("/d"))
    pruned = []
    for path, directories, _ in image.walk():
        pruned.append(path)
        directories[:] = [name for name in directories if name != "z"]
    counts.check("walk that leaves out", pruned == ["/", "/d", "/d/e"], pruned)
    counts.check("below a file", (image.exists("/c/x"), image.is_dir("/c/x")) == (False, False))
    file_at = ["asked.img: /c: is a file"]
    raises(counts, "listdir of a file", lfsed.Refusal, 32, "NotADirectory", file_at, lambda: image.listdir("/c"))
    raises(counts, "walk of a file", lfsed.Refusal, 32, "NotADirectory", file_at, lambda: image.walk("/c"))
    nothing = ["asked.img: /x: nothing is there"]
    raises(counts, "walk of nothing", lfsed.Refusal, 30, "NotFound", nothing, lambda: image.walk("/x"))
    bad = ["asked.img: c: a path begins with /: try /c"]
    raises(counts, "exists of no path", lfsed.Refusal, 35, "BadPath", bad, lambda: image.exists("c"))


def broken_writing(image, mode, held):
    """Opens a file, writes and raises something."""
    with contextlib.suppress(ZeroDivisionError), image.open("/a", mode) as opened:
        opened.write(held)
        print(1 / 0)


def files_are_opened(counts):
    """File objects read, and put when they are closed; nothing is put if something is raised, or the object is dropped."""
    image = lfsed.format("opened.img", block=512, count=64)
    with image.open("/a", "w") as opened:
        print("one\nzwei ä", file=opened)
        counts.check("open: not put before it is closed", not image.exists("/a"))
    counts.check("open w", image.read("/a") == "one\nzwei ä\n".encode())
    with image.open("/a") as opened:
        counts.check("open r", [*opened] == ["one\n", "zwei ä\n"])
    with image.open("/b", "wb") as opened:
        opened.write(b"0123456789")
        opened.seek(2)
        opened.write(b"xy")
    with image.open("/b", "rb") as opened:
        counts.check("open wb, rb", (opened.read(4), opened.seek(8), opened.read()) == (b"01xy", 8, b"89"))
    with image.open("/a", "w", encoding="latin-1", newline="\r\n") as opened:
        opened.write("ä\n")
    counts.check("open: encoding, newline", image.read("/a") == b"\xe4\r\n")
    changes = len(image.log())
    for mode, held in ("w", "x" * 20_000), ("wb", b"x" * 20_000):
        broken_writing(image, mode, held)
        dropped = image.open("/a", mode)
        dropped.write(held)
        del dropped
        kept = image.open("/b", mode)
        kept.close()
        kept.close()
        counts.check(f"open {mode}: what isn't put", image.read("/a") == b"\xe4\r\n")
        changes += 1
        counts.check(f"open {mode}: closed twice", (image.read("/b"), len(image.log())) == (b"", changes), image.log())
    for mode, held in ("r", "x"), ("rb", b"x"):
        with image.open("/a", mode) as opened, contextlib.suppress(OSError):
            opened.write(held)
            counts.check(f"open {mode}: written", False)
    full = ["opened.img: /a: is a file"]
    raises(counts, "open below a file", lfsed.Refusal, 32, "NotADirectory", full, lambda: image.open("/a/b", "w").close())
    raises(counts, "open nothing", lfsed.Refusal, 30, "NotFound", ["opened.img: /x: nothing is there"], lambda: image.open("/x"))
    raises_value(counts, "open to append", "not by a", lambda: image.open("/a", "a"))
    pathlib.Path("opened.bin").write_bytes(bytes(8) + pathlib.Path("opened.img").read_bytes())
    inside = lfsed.Image("opened.bin", 512, offset=8)
    with inside.open("/a", "rb") as opened:
        counts.check("open within a file", opened.read() == b"\xe4\r\n")
    raises_value(counts, "open to write within a file", "is only read", lambda: inside.open("/a", "w"))
    older = lfsed.Image("opened.img", 512, older=True)
    raises_value(counts, "open to write an older state", "is only read", lambda: older.open("/a", "wb"))


def below(tree, path):
    """The paths of a tree at a path and below it."""
    return [each for each in tree if each == path or each.startswith(f"{path}/")]


def made_above(tree, path):
    """Puts the directories above a path into a tree; whether no file is in the way."""
    for at in [at for at, letter in enumerate(path) if letter == "/"][1:]:
        if tree.setdefault(path[:at], None) is not None:
            return False
    return True


def step_of_tree(chance, batch, tree):
    """A step of a batch, which is one of a tree too where it is possible."""
    kind, path = chance.randrange(5), "".join(f"/{chance.choice('abc')}" for _ in range(chance.randrange(1, 5)))
    after = dict(tree)
    if kind == 0 and made_above(after, path) and after.setdefault(path, None) is None:
        batch.mkdir(path, parents=True)
    elif kind == 1 and made_above(after, path) and after.get(path, b"") is not None:
        after[path] = chance.randbytes(chance.choice([0, 5, 700]))
        batch.write(path, after[path], parents=True)
    elif kind == 2 and path in tree:
        for each in below(tree, path):
            del after[each]
        batch.remove(path, recursive=True)
    elif kind == 3 and path in tree and f"/m{path[1]}" not in tree:
        for each in below(tree, path):
            after[f"/m{path[1]}{each[len(path):]}"] = after.pop(each)
        batch.rename(path, f"/m{path[1]}")
    elif kind == 4 and path in tree and not below(tree, path)[1:]:
        del after[path]
        batch.remove(path)
    else:
        return
    tree.clear()
    tree.update(after)


def whole_trees(counts, chance):
    """Batches make directories above, and remove whole trees: what stands there then is a tree that is followed here."""
    image, tree = lfsed.format("trees.img", block=512, count=400), {}
    for number in range(TREES):
        with image.batch(one=number % 2 == 0) as batch:
            for _ in range(STEPS):
                step_of_tree(chance, batch, tree)
        held = Reader(pathlib.Path("trees.img").read_bytes(), 512).tree()
        found = {os.fsdecode(path): contents for path, (contents, _) in held.items() if path != b"/"}
        counts.check(f"whole trees {number}", found == tree, {*found} ^ {*tree})


def trees_are_refused(counts):
    """Directories that a batch would make in place of a file, and what isn't there, are refused at the call, and the batch goes on."""
    image = lfsed.format("less.img", block=512, count=64)
    image.write("/f", b"one")
    image.mkdir("/d")
    is_file, there = ["less.img: /f: is a file"], ["less.img: /f: something is there"]
    own, nothing = ["less.img: /d/g: is a file"], ["less.img: /d/x: nothing is there"]
    with image.batch() as batch:
        batch.write("/d/g", b"two")
        for what, kind, number, name, lines, act in [
            ("mkdir below a file", lfsed.Refusal, 32, "NotADirectory", is_file, lambda: batch.mkdir("/f/a/b", parents=True)),
            ("mkdir of a file", lfsed.Refusal, 31, "Exists", there, lambda: batch.mkdir("/f", parents=True)),
            ("write below a file", lfsed.Refusal, 32, "NotADirectory", is_file, lambda: batch.write("/f/a", b"", parents=True)),
            ("write below its own file", lfsed.Refusal, 32, "NotADirectory", own, lambda: batch.write("/d/g/a", b"", parents=True)),
            ("remove below a file", lfsed.Refusal, 32, "NotADirectory", is_file, lambda: batch.remove("/f/a", recursive=True)),
            ("remove nothing", lfsed.Refusal, 30, "NotFound", nothing, lambda: batch.remove("/d/x/y", recursive=True)),
        ]:
            raises(counts, f"a batch: {what}", kind, number, name, lines, act)
        batch.mkdir("/", parents=True)
        batch.mkdir("/d", parents=True)
        batch.remove("/d", recursive=True)
        raises(counts, "a batch: remove again", lfsed.Refusal, 30, "NotFound", ["less.img: /d: nothing is there"],
               lambda: batch.remove("/d", recursive=True))
        batch.write(b"/\xff/h", b"three", parents=True)
    found = [(row.path, row.size) for row in image.rows()]
    counts.check("a batch goes on", found == [("/", None), ("/f", 3), ("/\udcff", None), ("/\udcff/h", 5)], found)
    for path, number, name in ("x", 35, "BadPath"), ("/a//b", 35, "BadPath"), ("/", 41, "IsRoot"):
        line = [f"standard input: line 1: rm {path}"]
        raises(counts, f"a batch: rm {path}", lfsed.Refusal, number, name, line, lambda: removed_whole(image, path))  # noqa: B023
    raises_value(counts, "an ended batch, parents", "within its `with` block", lambda: batch.mkdir("/b", parents=True))


def removed_whole(image, path):
    """Removes what is at a path by a batch of its own."""
    with image.batch() as batch:
        batch.remove(path, recursive=True)


def is_read_by(path, version):
    """Whether a version of Python reads a file."""
    try:
        ast.parse(path.read_text(), feature_version=version)
    except SyntaxError:
        return False
    return True


def sources(counts):
    """Python 3.9 reads the files, and the module's version is the program's."""
    for path in FILES:
        counts.check(path.name, is_read_by(path, (3, 9)))
    version = subprocess.run([PROGRAM, "--version"], stdout=subprocess.PIPE, text=True, check=True).stdout.split()[1]
    counts.check("version", lfsed.__version__ == version, lfsed.__version__)
    if not shutil.which("mypy"):
        print("mypy isn't there")
        return
    command = ["mypy", "--strict", "--cache-dir", os.devnull, HOME / "python/lfsed", USES]
    env = dict(os.environ, MYPYPATH=str(HOME / "python"))
    judged = subprocess.run(command, stdout=subprocess.PIPE, text=True, check=False, env=env)
    counts.check("mypy", judged.returncode == 0, judged.stdout)


def is_used(counts):
    """The script of uses does what it says."""
    os.mkdir("uses")
    env = dict(os.environ, PYTHONPATH=str(HOME / "python"))
    ended = subprocess.run([sys.executable, USES], cwd="uses", capture_output=True, text=True, check=False, env=env)
    counts.check("uses", (ended.returncode, ended.stderr) == (0, ""), ended.stderr)


def has_pip(python):
    """Whether a Python has what pip needs."""
    return pathlib.Path(python).exists() and not subprocess.run([python, "-c", WANTED], capture_output=True, check=False).returncode


def is_installed(counts):
    """Without a network, pip installs the folder: the module's files, with its version."""
    python = next(filter(has_pip, PYTHONS), None)
    if not python:
        print("pip, setuptools of 61 or later, or wheel isn't there")
        return
    shutil.copytree(HOME / "python", "python", ignore=shutil.ignore_patterns("build", "*.egg-info", "__pycache__"))
    command = [python, "-m", "pip", "install", "--no-build-isolation", "--no-index", "--no-deps", "--no-compile", "--target", "installed"]
    ended = subprocess.run([*command, "python/"], stdout=subprocess.PIPE, stderr=subprocess.STDOUT, text=True, check=False)
    counts.check("pip install", ended.returncode == 0, ended.stdout)
    found = sorted(path.name for path in pathlib.Path("installed/lfsed").glob("*"))
    counts.check("pip install: files", found == sorted(path.name for path in [*FILES, HOME / "python/lfsed/py.typed"]), found)
    metadata = pathlib.Path(f"installed/lfsed-{lfsed.__version__}.dist-info/METADATA")
    counts.check("pip install: version", metadata.is_file() and f"\nVersion: {lfsed.__version__}\n" in metadata.read_text())


def examples(counts):
    """The examples in doc strings."""
    for path in FILES:
        module = importlib.import_module("lfsed" if path.stem == "__init__" else f"lfsed.{path.stem}")
        wrong, tried = doctest.testmod(module)
        counts.right, counts.wrong = counts.right + tried - wrong, counts.wrong + wrong


def main():
    subprocess.run([HOME / "bin/lfsed", "--help"], stdout=subprocess.DEVNULL, check=True)
    counts, chance = Counts(), random.Random(4)
    sources(counts)
    with tempfile.TemporaryDirectory() as room:
        os.chdir(room)
        examples(counts)
        is_used(counts)
        is_installed(counts)
        faults(counts)
        broken_off(counts)
        is_shared(counts)
        is_entered_once(counts)
        names_no_file_of_its_own(counts)
        other_calls(counts)
        bounds(counts)
        views(counts)
        are_found(counts)
        are_salvaged(counts)
        blocks_are_told(counts, random.Random(5))
        paths_are_asked(counts, random.Random(6))
        files_are_opened(counts)
        whole_trees(counts, random.Random(7))
        trees_are_refused(counts)
        for at in range(BATCHES):
            comes_back_from_batches(counts, chance, at)
        comes_back_from_changes(counts, chance)
        os.chdir(HOME)
    return counts.end()


sys.exit(main())
