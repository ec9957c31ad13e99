#!/usr/bin/env python3
"""Runs what changes whole trees of an image as one change: `sync` with a folder of the host, `rm -r`, `mkdir -p` and `put -p`. What each
of them leaves is compared with rows by hand, or with a plain model of the tree; with the script of the same commands as one change, byte
for byte with its journal; with what a reader apart from the program finds; and with `pack` of the same folder. One `undo` takes all of it
back, and `redo` makes it again. What is refused leaves image, journal and undone changes."""
import os
import pathlib
import random
import shutil
import subprocess
import sys
import tempfile

from batch import NOTHING_THERE, put_back
from later import APPENDED, REFUSED_CHANGE
from support.folder import PROGRAM, contents, run_scenes, spread
from support.journal import in_first_version, read
from support.littlefs import DIRECTORY, ROOT, Reader
from support.logs import SOFT, attribute, chained, directory, file, image, log, superblock, tail
from support.refusing import Refusing
from support.scattering import Scattered, laid
from support.scripts import script, spelled
from support.texts import difference_of, ended_by, in_order, said

NOT_FOUND, EXISTS, NO_DIRECTORY, IS_DIRECTORY = "30 NotFound", "31 Exists", "32 NotADirectory", "33 IsADirectory"
BAD_PATH, LONG_NAME, LARGE_FILE, IS_ROOT = "35 BadPath", "36 NameTooLong", "37 FileTooLarge", "41 IsRoot"
LARGE_ENTRY, NO_SPACE, JOURNAL_FULL = "42 EntryTooLarge", "43 NoSpace need {} free {}", "55 JournalFull"
NO_COMMIT, NO_JOURNAL, NOT_READ, NO_ENTRY, NO_NAME = "3 NoValidCommit", "50 JournalFormat", "60 CannotRead", "62 HostEntry", "63 HostName"


# ---- the model: what stands at each path is the bytes of a file or None, and its attributes; what a folder holds, by what is left of the
# paths, is the bytes of a file or None.

def joined(at, rest):
    """The path that a path and what is left behind it make."""
    return at.rstrip(b"/") + rest or b"/"


def rest_of(at, path):
    """What is left of a path behind one that is it or leads to it; None of a path elsewhere."""
    front = at.rstrip(b"/")
    return b"" if path == at else path[len(front):] if path.startswith(front + b"/") else None


def held_at(tree, at):
    """What stands at a path and below it, without attributes."""
    return {rest_of(at, path): held for path, (held, _) in tree.items() if rest_of(at, path) is not None}


def bare(rows):
    """The tree of what a folder holds, without attributes."""
    return {joined(b"/", rest): (held, {}) for rest, held in {b"": None, **rows}.items()}


def synced(tree, at, rows):
    """The tree in which all at a path and below is what a folder holds. Attributes stay where the same kind of thing stays."""
    made = without(tree, at)
    for rest, held in rows.items():
        there, values = tree.get(joined(at, rest), (None, {}))
        made[joined(at, rest)] = held, values if (there is None) == (held is None) else {}
    return made


def without(tree, at):
    """The tree without a path and what is below it."""
    return {path: row for path, row in tree.items() if rest_of(at, path) is None}


def with_parents(tree, path):
    """The tree with a path and those in front of it as directories, where nothing was."""
    return {**{front: (None, {}) for front in fronts(path)}, **tree}


def fronts(path):
    """The paths from behind the root to a path."""
    names = path.split(b"/")
    return [b"/".join(names[:at]) for at in range(2, len(names) + 1)] if path != b"/" else []


def last_first(paths):
    """Lines that remove paths, the last one first."""
    return [f"rm {spelled(path)}" for path in sorted(paths, key=in_order, reverse=True)]


def sync_lines(tree, at, rows):
    """The lines that make what stands at a path what the folder `src` holds: what it lacks goes, then directories come, then files."""
    held = held_at(tree, at)
    goes = [joined(at, rest) for rest in held if rest not in rows or (rows[rest] is None) != (held[rest] is None)]
    comes = [rest for rest in sorted(rows, key=in_order) if rest not in held or rows[rest] != held[rest]]
    made = [f"mkdir {spelled(joined(at, rest))}" for rest in comes if rows[rest] is None]
    return last_first(goes) + made + [
        f"put {spelled(joined(at, rest))} {spelled(b'src' + rest)}" for rest in comes if rows[rest] is not None]


# ---- images

def chains(reader):
    """The blocks of each file, by its path."""
    found, waiting = {}, [(b"/", ROOT)]
    while waiting:
        path, pair = waiting.pop()
        for entry in reader.entries(pair):
            name = joined(path, b"/" + entry.name)
            if entry.kind == DIRECTORY:
                waiting.append((name, entry.pair()))
            else:
                found[name] = reader.blocks_of(entry)
    return found


def history(saved):
    """The changes of a journal, or of none: those that are done, and those that are undone."""
    return read(saved)[2:] if saved else ([], [])


class Trees:
    """A folder with an image of blocks of a size, and in it the folder `src` that the image is made like."""

    def __init__(self, folder, size=512):
        self.folder, self.size, self.room = folder, size, folder.image.parent
        self.source = self.room / "src"

    def new(self, count, *limits):
        """Makes the image a new one, without a journal."""
        self.does("a new image", ["format", "--count", str(count), *limits, "a.img"])
        self.folder.journal.unlink()

    def holds(self, rows):
        """Makes the folder hold these files and folders."""
        if self.source.exists():
            shutil.rmtree(self.source)
        self.source.mkdir()
        for rest, held in sorted(rows.items()):
            place = self.source / os.fsdecode(rest[1:])
            if held is not None:
                place.write_bytes(held)
            elif rest:
                place.mkdir()

    def run(self, words, given=b"", **how):
        """Runs the program; answers its status, what it complained and what it printed."""
        command = [PROGRAM, words[0], "-b", str(self.size), *words[1:]]
        ended = subprocess.run(command, cwd=self.room, input=given, capture_output=True, timeout=60, **how)
        return ended.returncode, ended.stderr.decode(), ended.stdout

    def does(self, what, words, given=b"", told=""):
        """Runs words that are taken, and of which nothing is told, or this."""
        ended = self.run(words, given)
        self.folder.check(what, ended == (0, told, b""), ended)

    def files(self):
        """The image and its journal; no file of a run is left."""
        left = [name for name in os.listdir(self.room) if name.endswith(".new")]
        return self.folder.old(), self.folder.saved(), left

    def tree(self):
        """What stands at each path."""
        return Reader(self.folder.old(), self.size).tree()

    def stands(self, what, wanted):
        """Compares what stands at each path, and what `check` says of the image."""
        reader = Reader(self.folder.old(), self.size)
        found = reader.tree()
        self.folder.check(f"{what}: tree", found == wanted, {path: (found.get(path), wanted.get(path))
                          for path in {*found, *wanted} if found.get(path) != wanted.get(path)})
        ended = self.run(["check", "a.img"])
        self.folder.check(f"{what}: check", ended == (0, "", said(reader)), ended)

    def keeps(self, what, words, given=b"", told=""):
        """Runs words that are taken and change nothing: the image is as it was, and so is its journal. Where there is none, one without
        changes may come."""
        image_of, saved, _ = self.files()
        self.does(what, words, given, told)
        after = self.files()
        self.folder.check(f"{what}: image", after[0] == image_of)
        self.folder.check(f"{what}: history", (history(after[1]), after[2]) == (history(saved), []))
        self.folder.check(f"{what}: journal", after[1] == saved or not saved)

    def makes(self, what, words, lines, given=b""):
        """Runs words that do as one change what a script of these lines does, with its undo and redo."""
        if not lines:
            self.keeps(what, words, given)
            return
        begin = self.files()
        (self.room / "steps").write_bytes(script(lines))
        self.does(f"{what}: {lines}", ["batch", "--one", "a.img", "steps"])
        wanted = self.files()
        put_back(self, begin)
        self.does(what, words, given)
        left = self.files()
        self.folder.check(f"{what}: image", left[0] == wanted[0], lines)
        self.folder.check(f"{what}: journal", left[1:] == wanted[1:], lines)
        self.is_one_change(what, begin, left)
        for step, image_of in ("undo", begin[0]), ("redo", left[0]):
            self.does(f"{what}: {step}", [step, "a.img"])
            self.folder.check(f"{what}: image behind {step}", self.folder.old() == image_of)

    def is_one_change(self, what, before, after):
        """Behind what was done there is one change more, with each block that differs, as it was and as it is. Nothing is undone."""
        done, undone = history(after[1])
        is_one = (done[:-1], undone) == (history(before[1])[0], []) and done != []
        self.folder.check(f"{what}: one change more", is_one, (len(done), len(undone)))
        old, new = (Reader(held, self.size) for held in (before[0], after[0]))
        blocks = done[-1][2] if done else []
        numbers = [number for number, *_ in blocks]
        self.folder.check(f"{what}: blocks rise", numbers == sorted({*numbers}), numbers)
        self.folder.check(f"{what}: its blocks", all((was, now) == (old.block(n), new.block(n)) for n, was, now in blocks))
        others = {*range(len(before[0]) // self.size)} - {*numbers}
        self.folder.check(f"{what}: other blocks", all(old.block(n) == new.block(n) for n in others))

    def syncs(self, what, at, rows, *options):
        """Makes what stands at a path what the folder holds, which is made to hold these rows, and compares all that is left of the image.
        Equal files keep their blocks. Once more nothing changes."""
        old = Reader(self.folder.old(), self.size)
        tree, rows = old.tree(), {b"": None, **rows}
        self.holds(rows)
        words = ["sync", *options, "a.img", "src", *([] if at == b"/" else [os.fsdecode(at)])]
        self.makes(what, words, sync_lines(tree, at, rows))
        wanted = synced(tree, at, rows)
        self.stands(what, wanted)
        before, after = chains(old), chains(Reader(self.folder.old(), self.size))
        moved = [path for path in before if wanted.get(path, (None, {}))[0] == tree[path][0] and after.get(path) != before[path]]
        self.folder.check(f"{what}: equal files keep their blocks", not moved, moved)
        self.keeps(f"{what}: again", words)

    def is_packed_alike(self, what, rows):
        """Packs the folder, which holds these rows, beside the image, in as many blocks: they differ in attributes alone."""
        self.does(f"{what}: pack", ["pack", "--count", str(len(self.folder.old()) // self.size), "b.img", "src"])
        wanted = ended_by(difference_of(bare(rows), self.tree()))
        ended = self.run(["diff", "b.img", "a.img"])
        self.folder.check(f"{what}: beside pack", ended == wanted, ended)
        ended = self.run(["diff", "--quiet", "b.img", "a.img"])
        self.folder.check(f"{what}: beside pack, quiet", ended == (wanted[0], "", b""), ended)

    def refuses(self, what, words, first, second="", status=1, given=b""):
        """Runs words that are refused: how what is told begins, and image and journal as they were."""
        before = self.files()
        ended = self.run(words, given)
        lines = ended[1].splitlines()
        is_told = lines[:1] == [f"lfsed: {first}"] and all(line.startswith("lfsed: ") for line in lines)
        is_second = not second or lines[1:] and lines[1].startswith(f"lfsed: {second}")
        self.folder.check(what, (ended[0], ended[2]) == (status, b"") and is_told and bool(is_second), ended)
        self.folder.check(f"{what}: files", self.files() == before)


# ---- rows by hand

SAME, LONG = bytes(700), contents(1_200)
# What an image of a writer apart from the program holds; and a folder of the same.
BEGUN = {
    b"/": (None, {1: b"root"}),
    b"/d": (None, {2: b"dir"}),
    b"/d/e": (None, {5: b"e"}),
    b"/d/e/x": (b"deep", {}),
    b"/d/g": (LONG, {6: b"g"}),
    b"/f": (b"old", {3: b"file"}),
    b"/same": (SAME, {4: b""}),
}
EQUAL = {path: held for path, (held, _) in BEGUN.items() if path != b"/"}


def begun(trees):
    """Makes the image that one, without a journal."""
    root = superblock(512, 40) + attribute(0, 1, b"root") + directory(1, b"d", (2, 3)) + attribute(1, 2, b"dir")
    root += file(2, b"f", b"old") + attribute(2, 3, b"file") + chained(3, b"same", 5, 700) + attribute(3, 4, b"") + tail(SOFT, (2, 3))
    middle = directory(0, b"e", (8, 9)) + attribute(0, 5, b"e") + chained(1, b"g", 12, 1_200) + attribute(1, 6, b"g") + tail(SOFT, (8, 9))
    blocks = {0: log(1, root), 2: log(1, middle), 8: log(1, file(0, b"x", b"deep")), **laid(512, [7, 5], SAME), **laid(512, [10, 11, 12], LONG)}
    trees.folder.be(image(512, 40, blocks), 0)


def begun_with_history(trees):
    """The same with a journal: two changes are done, which leave the same tree, and one is undone."""
    begun(trees)
    for value in "aa", b"root".hex(), "bb":
        trees.does("a change before", ["setattr", "a.img", "/", "01", value])
    trees.does("one is undone", ["undo", "a.img"])


BELOW_D = ["rm /d/g", "rm /d/e/x", "rm /d/e", "rm /d"]
GONE_D = dict.fromkeys([b"/d", b"/d/e", b"/d/e/x", b"/d/g"])
# What is synced: a path of that image, what the folder holds, the commands as a script says them, and what stands otherwise then, where
# None is nothing.
SYNCED = (
    ("/", {**EQUAL, b"/f": b"new"}, ["put /f src/f"], {b"/f": (b"new", {3: b"file"})}),
    ("/", {**EQUAL, b"/d/g": LONG[:-1] + b"x"}, ["put /d/g src/d/g"], {b"/d/g": (LONG[:-1] + b"x", {6: b"g"})}),
    ("/", {**EQUAL, b"/same": b""}, ["put /same src/same"], {b"/same": (b"", {4: b""})}),
    ("/", {b"/same": SAME}, ["rm /f", *BELOW_D], {**GONE_D, b"/f": None}),
    ("/", {}, ["rm /same", "rm /f", *BELOW_D], {**GONE_D, b"/f": None, b"/same": None}),
    ("/", {b"/d": b"flat", b"/f": b"old", b"/same": SAME}, [*BELOW_D, "put /d src/d"], {**GONE_D, b"/d": (b"flat", {})}),
    ("/", {**EQUAL, b"/f": None, b"/f/y": b"y"}, ["rm /f", "mkdir /f", "put /f/y src/f/y"], {b"/f": (None, {}), b"/f/y": (b"y", {})}),
    ("/", {b"/d": SAME, b"/f": None, b"/same": SAME}, ["rm /f", *BELOW_D, "mkdir /f", "put /d src/d"],
     {**GONE_D, b"/d": (SAME, {}), b"/f": (None, {})}),
    ("/", {**EQUAL, b"/a": b"a", b"/b": None, b"/b/c": None, b"/b/c/z": LONG, b"/h": None},
     ["mkdir /b", "mkdir /b/c", "mkdir /h", "put /a src/a", "put /b/c/z src/b/c/z"],
     {b"/a": (b"a", {}), b"/b": (None, {}), b"/b/c": (None, {}), b"/b/c/z": (LONG, {}), b"/h": (None, {})}),
    ("/", {**EQUAL, b"/s": b"", b"/sa": b"", b"/same2": b"2"}, ["put /same2 src/same2", "put /sa src/sa", "put /s src/s"],
     {b"/s": (b"", {}), b"/sa": (b"", {}), b"/same2": (b"2", {})}),
    ("/d", {b"/g": LONG, b"/n": b"n"}, ["rm /d/e/x", "rm /d/e", "put /d/n src/n"],
     {b"/d/e": None, b"/d/e/x": None, b"/d/n": (b"n", {})}),
    ("/d", {b"/e": None, b"/e/x": b"DEEP", b"/g": LONG}, ["put /d/e/x src/e/x"], {b"/d/e/x": (b"DEEP", {})}),
    ("/d/e", {}, ["rm /d/e/x"], {b"/d/e/x": None}),
    ("/n", {b"/x": b"x"}, ["mkdir /n", "put /n/x src/x"], {b"/n": (None, {}), b"/n/x": (b"x", {})}),
    ("/d/e/n", {}, ["mkdir /d/e/n"], {b"/d/e/n": (None, {})}),
    ("/f", {b"/x": b"x"}, ["rm /f", "mkdir /f", "put /f/x src/x"], {b"/f": (None, {}), b"/f/x": (b"x", {})}),
    ("/d/g", {}, ["rm /d/g", "mkdir /d/g"], {b"/d/g": (None, {})}),
)


def behind(changes):
    """The tree of that image with changes, where None is nothing."""
    return {path: row for path, row in {**BEGUN, **changes}.items() if row}


def worked_syncs(folder):
    trees = Trees(folder)
    for begin in begun, begun_with_history:
        for at, rows, lines, changes in SYNCED:
            begin(trees)
            what = f"{at}: {lines}"
            trees.stands(f"{what}: before", BEGUN)
            folder.check(f"{what}: the model", sync_lines(BEGUN, at.encode(), {b"": None, **rows}) == lines)
            folder.check(f"{what}: its tree", synced(BEGUN, at.encode(), {b"": None, **rows}) == behind(changes))
            trees.syncs(what, at.encode(), rows)
            trees.stands(what, behind(changes))
            if at == "/":
                trees.is_packed_alike(what, rows)


def equal_folders(folder):
    """Nothing is changed: what was undone can still be made again, and a journal of the first version has the same changes."""
    trees = Trees(folder)
    for at, rows in ("/", EQUAL), ("/d", {b"/e": None, b"/e/x": b"deep", b"/g": LONG}), ("/d/e", {b"/x": b"deep"}):
        trees.holds(rows)
        words = ["sync", "a.img", "src", at]
        begun(trees)
        trees.keeps(f"equal at {at}", words)
        begun_with_history(trees)
        trees.keeps(f"equal at {at}, with a history", words)
        trees.keeps(f"equal at {at}, one kept", ["sync", "--keep", "1000", *words[1:]])
        trees.does("what was undone", ["redo", "a.img"])
        folder.check("what was undone is made again", trees.tree()[b"/"] == (None, {1: b"\xbb"}), trees.tree()[b"/"])
    begun_with_history(trees)
    image_of, saved, _ = trees.files()
    for words in ["sync", "a.img", "src", "/d/e"], ["mkdir", "-p", "a.img", "/d/e"]:
        put_back(trees, (image_of, in_first_version(saved)))
        trees.does(f"{words[0]}: a journal of the first version", words)
        is_kept = folder.old() == image_of and folder.saved() in (saved, in_first_version(saved))
        folder.check(f"{words[0]}: a journal of the first version: files", is_kept)


def odd_names(folder):
    """Names of any bytes that the host may have; and those of an image that none of its files may have."""
    names = b"ab", b"a", b"b", "\xe9".encode(), b" ", b"\\", b"a\nb", b"-", 255 * b"x"
    rows = {b"/" + name: name for name in names}
    trees = Trees(folder, 1_024)
    trees.new(32)
    trees.syncs("odd names", b"/", rows)
    trees.is_packed_alike("odd names", rows)
    trees.syncs("odd names of folders", b"/", {rest: None for rest in rows})
    trees.syncs("in a folder of an odd name", b"/a\nb", {b"/ \xe2\x82\xac": b"euro"})
    trees = Trees(folder)
    root = superblock(512, 16) + file(1, b"a\0b", b"nul") + file(2, b"a", b"a") + directory(3, b"d", (2, 3)) + file(4, b"\xff")
    root += tail(SOFT, (2, 3))
    folder.be(image(512, 16, {0: log(1, root), 2: log(1, file(0, b"\xfe\xff", b"below"))}), 0)
    trees.syncs("names that the host can't have", b"/", {b"/a": b"a", b"/d": None})
    trees.stands("names that the host can't have", {b"/": (None, {}), b"/a": (b"a", {}), b"/d": (None, {})})


def nested(folder):
    """Folders in each other, 60 of them, with a file in the deepest: they come and go."""
    trees, deepest = Trees(folder), 60 * b"/d"
    rows = {deepest[:2 * at]: None for at in range(1, 61)}
    trees.new(200)
    trees.syncs("nested folders", b"/", {**rows, deepest + b"/f": b"deep"})
    trees.syncs("the deepest", b"/", {**rows, deepest + b"/f": LONG, deepest + b"/g": b""})
    trees.syncs("the deepest alone", deepest, {b"/f": LONG})
    trees.makes("all of them", ["rm", "-r", "a.img", "/d"], last_first([*rows, deepest + b"/f"]))
    trees.stands("all of them", {b"/": (None, {})})
    trees.makes("all again", ["mkdir", "-p", "a.img", os.fsdecode(deepest)], [f"mkdir {os.fsdecode(path)}" for path in fronts(deepest)])
    trees.stands("all again", with_parents({b"/": (None, {})}, deepest))


def many_files(folder):
    """A thousand files in 300 folders, onto a new image; then some of them change."""
    trees, chance = Trees(folder, 4_096), random.Random(8)
    if trees.source.exists():
        shutil.rmtree(trees.source)
    spread(trees.source, chance, [chance.choice([0, 60, 512, 513, 3_000, chance.randrange(9_000)]) for _ in range(1_000)])
    trees.new(4_096)
    rows = {b"/" + os.fsencode(path.relative_to(trees.source)): path.read_bytes() if path.is_file() else None
            for path in trees.source.rglob("*")}
    trees.syncs("many files", b"/", rows)
    trees.is_packed_alike("many files", rows)
    for n, rest in enumerate(chance.sample([rest for rest in rows if rows[rest] is not None], 30)):
        if n % 3:
            rows[rest] = chance.randbytes(chance.choice([60, len(rows[rest])]))
        else:
            del rows[rest]
    trees.syncs("some of many files", b"/", rows)
    trees.is_packed_alike("some of many files", rows)


# ---- by chance

# Block sizes and numbers of blocks, so many that all has room.
GEOMETRIES = (256, 160), (512, 160), (1_024, 128), (4_096, 128)


def some_bytes(chance, size):
    """Contents for an entry, or for blocks of a size."""
    return chance.randbytes(chance.choice([0, 3, size // 8, size // 8 + 1, size, 2 * size]))


def lay(rows, rest, held):
    """Puts a file or an empty folder in the place of all that is there."""
    cut(rows, rest)
    rows[rest] = held


def cut(rows, rest):
    """Takes away what is there, and what is below it."""
    for other in [other for other in rows if rest_of(rest, other) is not None]:
        del rows[other]


def changed(chance, held, size):
    """What a folder holds that is like what is held, but for what chance adds, takes away, turns and rewrites."""
    rows = dict(held) if held.get(b"", b"") is None else {b"": None}
    for _ in range(chance.randrange(9)):
        others, kind = [rest for rest in rows if rest], chance.randrange(5)
        if kind < 2 or not others:
            place = chance.choice([rest for rest in rows if rows[rest] is None])
            name = b"/%c%d" % (chance.choice(b"abc"), chance.randrange(9)) + b"n" * chance.choice([0, 9])
            lay(rows, place + name, None if chance.random() < 0.4 else some_bytes(chance, size))
            continue
        rest = chance.choice(others)
        if kind == 2:
            cut(rows, rest)
        elif kind == 3:
            is_folder = rows[rest] is None
            lay(rows, rest, some_bytes(chance, size) if is_folder else None)
            if not is_folder and chance.random() < 0.5:
                rows[rest + b"/a"] = some_bytes(chance, size)
        elif rows[rest]:
            rows[rest] = chance.choice([rows[rest][:-1] + bytes([rows[rest][-1] ^ 1]), some_bytes(chance, size)])
    return rows


def some_path(chance, tree):
    """The root, the path of a directory or a file, or one in a directory where nothing is."""
    path = b"/" if chance.random() < 0.5 else chance.choice([*tree])
    return joined(path, b"/new") if path != b"/" and tree[path][0] is None and chance.random() < 0.3 else path


def scattered(folder, chance):
    """An image of a writer apart from the program, whose logs have many commits; some have a change that was undone."""
    size, count = chance.choice(GEOMETRIES)
    trees = Trees(folder, size)
    folder.be(Scattered(chance, size, count).image, 0)
    if chance.random() < 0.3:
        trees.does("a change", ["setattr", "a.img", "/", "7e", "01"])
        trees.does("undone", ["undo", "a.img"])
    return trees


def random_pairs(folder):
    """200 images, each beside a folder."""
    chance = random.Random(7)
    for number in range(200):
        trees = scattered(folder, chance)
        tree = trees.tree()
        at = some_path(chance, tree)
        rows, what = changed(chance, held_at(tree, at), trees.size), f"pair {number}, blocks of {trees.size}, {at.decode()}"
        trees.syncs(what, at, rows)
        if at == b"/":
            trees.is_packed_alike(what, rows)


# The same of images that are packed, on which two of the folders below have room.
PACKED = (256, 400), (512, 300)


def grown(chance, size, like, more):
    """What a folder holds: most of what another one holds, of which some is rewritten or turned into the other kind, and more besides."""
    rows = {b"": None}
    for rest, held in like.items():
        act = chance.randrange(8)
        if not rest or act == 0 or rows.get(rest.rpartition(b"/")[0], b"") is not None:
            continue
        if act == 1:
            rows[rest] = some_contents(chance, size) if held is None else None
        elif act == 2 and held is not None:
            rows[rest] = chance.randbytes(len(held))
        elif act == 3 and held is not None:
            rows[rest] = some_contents(chance, size)
        else:
            rows[rest] = held
    for _ in range(more):
        places = [rest for rest in rows if rows[rest] is None]
        name = b"/%c%d" % (chance.choice(b"abc"), chance.randrange(4)) + b"n" * chance.choice([0, 0, 9])
        held = None if chance.random() < 0.4 else some_contents(chance, size)
        rows.setdefault(chance.choice(places[-chance.choice([2, 20]):]) + name, held)
    return rows


def some_contents(chance, size):
    """Contents for an entry, or for up to seven blocks of a size."""
    return some_bytes(chance, size) * chance.choice([1, 3])


def packed(trees, what, chance, count, rows, share):
    """Packs a folder of these rows into the image, and sets attributes of such a share of them; answers what stands there then."""
    trees.holds(rows)
    trees.does(f"{what}: packed", ["pack", "--count", str(count), "a.img", "src"])
    tree, lines = bare(rows), []
    for path, (_, values) in tree.items():
        if chance.random() < share:
            values[chance.choice(b"prt")] = chance.randbytes(2)
            lines += [f"setattr {spelled(path)} {kind:02x} {value.hex()}" for kind, value in values.items()]
    if lines:
        trees.does(f"{what}: attributes", ["batch", "a.img"], script(lines))
    trees.stands(f"{what}: before", tree)
    return tree


def packed_pairs(folder):
    """200 images that are packed of a folder, half of them with attributes. Each of them, or in every third pair one of its directories,
    becomes like another folder, which has much of what is there; in every fifth pair all but its names is apart."""
    for seed in range(200):
        chance = random.Random(seed)
        size, count = chance.choice(PACKED)
        trees, what = Trees(folder, size), f"packed pair {seed}, blocks of {size}"
        tree = packed(trees, what, chance, count, grown(chance, size, {}, chance.randrange(25)), chance.choice([0, 0.5]))
        below = [path for path in tree if tree[path][0] is None and path != b"/"]
        at = chance.choice(below) if below and seed % 3 == 0 else b"/"
        rows = grown(chance, size, held_at(tree, at) if seed % 5 else {}, chance.randrange(9))
        trees.syncs(f"{what}, {at.decode()}", at, rows)
        if at == b"/":
            trees.is_packed_alike(what, rows)


def random_removals(folder):
    """100 images, of each something goes with all that is below it."""
    chance = random.Random(9)
    for number in range(100):
        trees = scattered(folder, chance)
        tree = trees.tree()
        if len(tree) > 1:
            path = chance.choice([path for path in tree if path != b"/"])
            what = f"removal {number}, blocks of {trees.size}, {path.decode()}"
            words = ["rm", chance.choice(["-r", "--recursive"]), "a.img", path.decode()]
            trees.makes(what, words, last_first(other for other in tree if rest_of(path, other) is not None))
            trees.stands(what, without(tree, path))


def random_parents(folder):
    """100 images, on each something is made with the directories above it that lack."""
    chance = random.Random(10)
    for number in range(100):
        trees = scattered(folder, chance)
        tree = trees.tree()
        path = chance.choice([path for path in tree if tree[path][0] is None])
        path = joined(path, chance.choice([b"/new", b"/new/x", b"/x/y/z"]))
        held, option = some_bytes(chance, trees.size), chance.choice(["-p", "--parents"])
        (trees.room / "host").write_bytes(held)
        for words, lines, wanted in (
            (["mkdir", option, "a.img", path.decode()], [f"mkdir {spelled(front)}" for front in fronts(path) if front not in tree],
             with_parents(tree, path)),
            (["put", option, "a.img", path.decode()],
             [f"mkdir {spelled(front)}" for front in fronts(path)[:-1] if front not in tree] + [f"put {spelled(path)} host"],
             {**with_parents(tree, path), path: (held, {})}),
        ):
            what = f"{words[0]} {number}, blocks of {trees.size}, {path.decode()}"
            trees.makes(what, words, lines, held)
            trees.stands(what, wanted)
            trees.does(f"{what}: undone", ["undo", "a.img"])


# ---- rm -r, mkdir -p and put -p by hand

# Words on the image of rows by hand, the commands as a script says them, and what stands otherwise then.
MADE = (
    (["rm", "-r", "a.img", "/d"], BELOW_D, GONE_D),
    (["rm", "-r", "a.img", "/d/e"], ["rm /d/e/x", "rm /d/e"], {b"/d/e": None, b"/d/e/x": None}),
    (["rm", "--recursive", "a.img", "/f"], ["rm /f"], {b"/f": None}),
    (["rm", "a.img", "-r", "/d/g"], ["rm /d/g"], {b"/d/g": None}),
    (["mkdir", "-p", "a.img", "/n"], ["mkdir /n"], {b"/n": (None, {})}),
    (["mkdir", "-p", "a.img", "/n/m/o"], ["mkdir /n", "mkdir /n/m", "mkdir /n/m/o"],
     {b"/n": (None, {}), b"/n/m": (None, {}), b"/n/m/o": (None, {})}),
    (["mkdir", "--parents", "a.img", "/d/e/n"], ["mkdir /d/e/n"], {b"/d/e/n": (None, {})}),
    (["mkdir", "-p", "a.img", "/d/e"], [], {}),
    (["mkdir", "-p", "a.img", "/"], [], {}),
    (["put", "-p", "a.img", "/n/m"], ["mkdir /n", "put /n/m host"], {b"/n": (None, {}), b"/n/m": (contents(900), {})}),
    (["put", "--parents", "--from", "host", "a.img", "/d/n/m"], ["mkdir /d/n", "put /d/n/m host"],
     {b"/d/n": (None, {}), b"/d/n/m": (contents(900), {})}),
    (["put", "-p", "a.img", "/d/g"], ["put /d/g host"], {b"/d/g": (contents(900), {6: b"g"})}),
    (["put", "a.img", "/n", "-p", "--from=host"], ["put /n host"], {b"/n": (contents(900), {})}),
)

# Words that are refused on that image, and the first line that is told.
REFUSED = (
    (["sync", "a.img", "src", "d"], BAD_PATH),
    (["sync", "a.img", "src", ""], BAD_PATH),
    (["sync", "a.img", "src", "-x"], BAD_PATH),
    (["sync", "a.img", "src", "/d/"], BAD_PATH),
    (["sync", "a.img", "src", "/d/../f"], BAD_PATH),
    (["sync", "a.img", "src", "/none/x"], NOT_FOUND),
    (["sync", "a.img", "src", "/d/none/x/y"], NOT_FOUND),
    (["sync", "a.img", "src", "/f/x"], NO_DIRECTORY),
    (["sync", "a.img", "src", "/d/g/x/y"], NO_DIRECTORY),
    (["sync", "a.img", "src", f"/{256 * 'n'}"], LONG_NAME),
    (["rm", "-r", "a.img", "/"], IS_ROOT),
    (["rm", "-r", "a.img", "/none"], NOT_FOUND),
    (["rm", "-r", "a.img", "/none/x"], NOT_FOUND),
    (["rm", "-r", "a.img", "/d/e/x/y"], NO_DIRECTORY),
    (["rm", "-r", "a.img", "d"], BAD_PATH),
    (["rm", "-r", "a.img", "/d/"], BAD_PATH),
    (["rm", "-r", "a.img", "-x"], BAD_PATH),
    (["rm", "a.img", "/d"], "34 NotEmpty"),
    (["mkdir", "-p", "a.img", "/f"], EXISTS),
    (["mkdir", "-p", "a.img", "/f/x"], NO_DIRECTORY),
    (["mkdir", "-p", "a.img", "/d/g/x/y"], NO_DIRECTORY),
    (["mkdir", "-p", "a.img", "n/m"], BAD_PATH),
    (["mkdir", "-p", "a.img", "-x"], BAD_PATH),
    (["mkdir", "-p", "a.img", f"/n/{256 * 'n'}/m"], LONG_NAME),
    (["put", "-p", "a.img", "/"], IS_ROOT),
    (["put", "-p", "a.img", "/d"], IS_DIRECTORY),
    (["put", "-p", "a.img", "/f/x"], NO_DIRECTORY),
    (["put", "-p", "a.img", "/d/e/x/y/z"], NO_DIRECTORY),
    (["put", "-p", "a.img", "n"], BAD_PATH),
    (["put", "-p", "a.img", "/n/m/"], BAD_PATH),
    (["put", "-p", "a.img", f"/n/{256 * 'n'}"], LONG_NAME),
)


def worked_commands(folder):
    trees = Trees(folder)
    (trees.room / "host").write_bytes(contents(900))
    trees.holds({b"/x": b"x"})
    for begin in begun, begun_with_history:
        for words, lines, changes in MADE:
            begin(trees)
            trees.makes(f"{words}", words, lines, contents(900))
            trees.stands(f"{words}", behind(changes))
        for words, first in REFUSED:
            begin(trees)
            trees.refuses(f"{words}", words, first, given=contents(900))
        trees.stands("what is refused", BEGUN)


# ---- what is refused in the middle

# The options of a new image of so many blocks of 512 bytes, files that it has, the folder, and the first line that is told.
IN_THE_MIDDLE = (
    (16, ["--name-max", "3"], {}, {b"/four": None, b"/a": b""}, LONG_NAME),
    (16, ["--name-max", "3"], {b"/old": b""}, {b"/a": None, b"/a/four": b"", b"/b": b""}, LONG_NAME),
    (16, ["--name-max", "3"], {b"/old": b"", b"/z": b"z"}, {b"/a": b"a", b"/b": None, b"/z": b"y", b"/zzzz": b""}, LONG_NAME),
    (16, ["--file-max", "4"], {b"/b": b"1234"}, {b"/a": b"1234", b"/b": b"12345", b"/c": b""}, LARGE_FILE),
    (8, [], {}, {b"/a": contents(3_041), b"/b": b""}, NO_SPACE.format(7, 6)),
    (8, [], {}, {b"/a": contents(300), b"/b": contents(3_041)}, NO_SPACE.format(7, 5)),
    (8, [], {b"/old": b"old"}, {b"/a": None, b"/a/z": contents(3_040)}, NO_SPACE.format(6, 4)),
    (8, [], {}, {b"/a": None, b"/b": None, b"/c": None, b"/d": None}, NO_SPACE.format(2, 0)),
    (8, [], {b"/a": contents(3_040)}, {b"/a": contents(3_040)[::-1]}, NO_SPACE.format(6, 0)),
    (8, [], {b"/a": contents(3_040), b"/b": b"old"}, {b"/a": contents(3_040), b"/c": contents(65)}, NO_SPACE.format(1, 0)),
    (8, [], {}, {b"/a": b"a", b"/b": contents(60), b"/" + 255 * b"c": contents(64), b"/d": contents(3_041)}, NO_SPACE.format(7, 6)),
)


def refused_in_the_middle(folder):
    """Each of these leaves image, journal and undone changes; what was undone can still be made again."""
    trees = Trees(folder)
    for count, limits, there, rows, first in IN_THE_MIDDLE:
        trees.new(count, *limits)
        for path, held in there.items():
            trees.does("a file", ["put", "a.img", os.fsdecode(path)], held)
        for kind in "01", "02":
            trees.does("an attribute", ["setattr", "a.img", "/", kind, "aa"])
        trees.does("undo", ["undo", "a.img"])
        trees.holds(rows)
        what = f"{first} of {[*rows]}"[:120]
        for options in [], ["--keep", "1"]:
            trees.refuses(what, ["sync", *options, "a.img", "src"], first)
        trees.does(f"{what}: redo", ["redo", "a.img"])
        folder.check(f"{what}: what was undone", trees.tree()[b"/"] == (None, {1: b"\xaa", 2: b"\xaa"}))
    trees = Trees(folder, 256)
    for rows in {b"/" + 209 * b"a": b""}, {b"/a": None, b"/a/x": b"x", b"/" + 201 * b"b": None}:
        trees.new(16)
        trees.holds(rows)
        trees.refuses(f"an entry of {max(map(len, rows))} bytes", ["sync", "a.img", "src"], LARGE_ENTRY)
    trees = Trees(folder)
    for words, first in (
        (["mkdir", "-p", "a.img", "/a/b/c/d"], NO_SPACE.format(2, 0)),
        (["put", "-p", "a.img", "/a/b/c"], NO_SPACE.format(6, 2)),
    ):
        trees.new(8)
        trees.refuses(f"{words}", words, first, given=contents(3_040))


def removals_that_have_no_room(folder):
    """A directory that goes leaves the part before its own with another tail, and its own part is cut too: that takes four blocks."""
    trees = Trees(folder, 256)
    blocks = {
        0: log(1, superblock(256, 10) + directory(1, b"a", (6, 7)) + directory(2, b"b", (2, 3)) + file(3, b"z") + tail(SOFT, (2, 3))),
        2: log(1, file(0, 105 * b"m") + file(1, 104 * b"n") + tail(SOFT, (4, 5))),
        4: log(1, tail(SOFT, (6, 7))),
        6: log(1, file(0, 100 * b"m") + file(1, 101 * b"n") + directory(2, b"r", (4, 5))),
    }
    folder.be(image(256, 10, blocks), 0)
    rows = {rest: held for rest, held in held_at(trees.tree(), b"/").items() if rest not in (b"", b"/a/r", b"/z")}
    for words in ["rm", "a.img", "/a/r"], ["rm", "-r", "a.img", "/a/r"], ["sync", "a.img", "src"]:
        trees.holds(rows)
        trees.refuses(f"{words}: no room for a removal", words, NO_SPACE.format(4, 2))


# ---- faults of the folder and of the image

def a_file(place):
    place.write_bytes(b"a file")


def a_link(place):
    (place / "d").mkdir(parents=True)
    (place / "d/odd").symlink_to("missing")


def a_pipe(place):
    (place / "d").mkdir(parents=True)
    os.mkfifo(place / "d/odd")


def a_bad_name(place):
    (place / "d").mkdir(parents=True)
    pathlib.Path(os.fsdecode(os.fsencode(place / "d") + b"/\xff")).write_bytes(b"")


# What is made in the folder's place, and what is told: the first line, and how the second one begins.
FOLDERS = (
    (lambda place: None, NOT_READ, f"src: {NOTHING_THERE}"),
    (a_file, NOT_READ, "src: "),
    (a_link, NO_ENTRY, "src/d/odd: "),
    (a_pipe, NO_ENTRY, "src/d/odd: "),
    (a_bad_name, NO_NAME, "src/d: "),
)


def cleared(place):
    """Takes a file or a folder away."""
    if place.is_dir():
        shutil.rmtree(os.fsencode(place))
    else:
        place.unlink(missing_ok=True)


def faults_of_the_folder_come_first(folder):
    trees = Trees(folder)
    for make, first, second in FOLDERS:
        cleared(trees.source)
        make(trees.source)
        for path in [], ["/"], ["bad"], ["/none/x"]:
            words, what = ["sync", "a.img", "src", *path], f"{first}, {second}, {path}"
            cleared(folder.image)
            folder.journal.unlink(missing_ok=True)
            trees.refuses(f"{what}: no image", words, first, second, 4)
            folder.be(bytes(4_096), 0)
            trees.refuses(f"{what}: an image that doesn't mount", words, first, second, 4)
            begun_with_history(trees)
            trees.refuses(f"{what}: an image", words, first, second, 4)
            folder.journal.write_bytes(b"lfsx")
            trees.refuses(f"{what}: no journal", words, first, second, 4)
    cleared(trees.source)


def faults_of_the_image(folder):
    """They come before those of the change: the image, then its journal."""
    trees = Trees(folder)
    trees.holds({b"/x": b"x"})
    for words in (["sync", "a.img", "src", "bad"], ["sync", "a.img", "src"], ["rm", "-r", "a.img", "/none"], ["mkdir", "-p", "a.img", "bad"],
                  ["put", "-p", "a.img", "/"]):
        cleared(folder.image)
        folder.journal.unlink(missing_ok=True)
        trees.refuses(f"{words}: no image", words, NOT_READ, f"a.img: {NOTHING_THERE}", 4)
        folder.be(bytes(4_096), 0)
        trees.refuses(f"{words}: an image that doesn't mount", words, NO_COMMIT, "a.img: ", 3)
        begun_with_history(trees)
        folder.journal.write_bytes(b"lfsx")
        trees.refuses(f"{words}: no journal", words, NO_JOURNAL, "", 3)
        folder.be(APPENDED, 0)
        ended = trees.run(words)
        folder.check(f"{words}: a later version", ended == (3, REFUSED_CHANGE, b"") and trees.files() == (APPENDED, None, []), ended)


def what_is_not_read(folder):
    """Each call by which the folder and the image are read is refused in turn."""
    trees = Trees(folder)
    trees.holds({b"/d": None, b"/d/f": b"contents", b"/e": LONG})
    begun_with_history(trees)
    begin = trees.files()
    with tempfile.TemporaryDirectory() as library:
        refusing = Refusing(pathlib.Path(library))
        for call in "open", "statx", "read":
            for at in range(1, 100):
                put_back(trees, begin)
                status, told, _ = trees.run(["sync", "a.img", "src"], env=refusing.env(at, call))
                if not refusing.was_hit():
                    break
                is_told = status == 4 and told.startswith(("lfsed: 60 CannotRead\n", "lfsed: 61 CannotWrite\n"))
                folder.check(f"{call} {at}", status == 0 or is_told and folder.old() == begin[0], (status, told))


# ---- the history

def the_latest_changes_are_kept(folder):
    """One of these runs counts as one change: 1,000 are kept, or as many as are said."""
    trees = Trees(folder)
    trees.new(64)
    (trees.room / "steps").write_bytes(script(1_000 * ["setattr / 74 01"]))
    trees.does("a thousand changes", ["batch", "a.img", "steps"])
    trees.holds({b"/a": None, b"/a/x": LONG, b"/b": b"b"})
    full = trees.files()
    for words in (["sync", "a.img", "src"], ["mkdir", "-p", "a.img", "/n/m"], ["put", "-p", "a.img", "/n/m"]):
        put_back(trees, full)
        trees.refuses(f"{words} behind a thousand changes", words, JOURNAL_FULL)
    trees.keeps("no change behind a thousand", ["mkdir", "-p", "a.img", "/"])
    for keep in 1_000, 2, 1:
        put_back(trees, full)
        trees.does(f"{keep} are kept", ["sync", "--keep", str(keep), "a.img", "src"])
        folder.check(f"{keep} are kept: changes", len(history(folder.saved())[0]) == keep, len(history(folder.saved())[0]))
        trees.keeps(f"{keep} are kept: again", ["sync", "--keep", str(keep), "a.img", "src"])
        trees.does("undo", ["undo", "a.img"])
        folder.check(f"{keep} are kept: undone", folder.old() == full[0])
    trees.does("redo", ["redo", "a.img"])
    trees.does("one is kept of a removal", ["rm", "-r", "--keep", "1", "a.img", "/a"])
    folder.check("one is kept of a removal: changes", len(history(folder.saved())[0]) == 1)


def several_are_undone_in_turn(folder):
    """Each of several runs is one change."""
    trees = Trees(folder)
    trees.new(64)
    images = [folder.old()]
    for n, (words, rows) in enumerate((
        (["sync", "a.img", "src"], {b"/a": None, b"/a/x": LONG, b"/b": b"b"}),
        (["put", "-p", "a.img", "/n/m/o"], {}),
        (["sync", "a.img", "src", "/n"], {b"/m": b"flat", b"/q": None}),
        (["mkdir", "-p", "a.img", "/a/y/z"], {}),
        (["rm", "-r", "a.img", "/a"], {}),
        (["sync", "a.img", "src"], {}),
    )):
        trees.holds(rows)
        trees.does(f"{n}: {words}", words, SAME)
        images.append(folder.old())
    trees.stands("an empty folder", {b"/": (None, {})})
    for held in reversed(images[:-1]):
        trees.does("undo", ["undo", "a.img"])
        folder.check("the run before", folder.old() == held)
    trees.refuses("nothing more", ["undo", "a.img"], "53 NothingToUndo")
    trees.does("redo", ["redo", "--steps", str(len(images) - 1), "a.img"])
    folder.check("all runs", folder.old() == images[-1])


def links_and_block_sizes(folder):
    """A link to the folder and one to the image, the block size that the image states, and names behind `--`."""
    trees = Trees(folder)
    trees.holds({b"/x": b"x"})
    (trees.room / "link").symlink_to("src")
    (trees.room / "link.img").symlink_to("a.img")
    (trees.room / "-src").mkdir()
    for words in (["sync", "a.img", "link"], ["sync", "link.img", "src"], ["sync", "--block", "auto", "a.img", "src"],
                  ["sync", "a.img", "./src/"], ["sync", "a.img", "src", "/"]):
        trees.new(16)
        command = [PROGRAM, words[0], *([] if "auto" in words else ["-b", "512"]), *words[1:]]
        ended = subprocess.run(command, cwd=trees.room, capture_output=True, timeout=60)
        folder.check(f"{words}", (ended.returncode, ended.stderr, ended.stdout) == (0, b"", b""), ended)
        trees.stands(f"{words}", {b"/": (None, {}), b"/x": (b"x", {})})
        trees.does(f"{words}: undo", ["undo", "a.img"])
    folder.check("a link stays", (trees.room / "link.img").is_symlink())
    trees.does("redo", ["redo", "a.img"])
    trees.does("behind hyphens", ["sync", "--", "a.img", "-src"])
    trees.stands("behind hyphens", {b"/": (None, {})})


if __name__ == "__main__":
    sys.exit(run_scenes([
        worked_syncs,
        equal_folders,
        odd_names,
        nested,
        many_files,
        random_pairs,
        packed_pairs,
        random_removals,
        random_parents,
        worked_commands,
        refused_in_the_middle,
        removals_that_have_no_room,
        faults_of_the_folder_come_first,
        faults_of_the_image,
        what_is_not_read,
        the_latest_changes_are_kept,
        several_are_undone_in_turn,
        links_and_block_sizes,
    ]))
