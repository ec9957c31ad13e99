#!/usr/bin/env python3
"""Takes 10,000 random steps by a program, `random_steps.py PROGRAM [STEPS [SEED]]`, over new images and images of another writer
whose logs have many commits, and compares after each: how it ends and what stands at each path, with a plain model; which blocks
have changed, with the rule by which pairs change; how many blocks there are, of which added ones are erased; and the image byte for
byte where changes are taken back or made again, of which some runs keep the latest alone. At times the steps that were done are taken
once more by one script, which leaves the same image and journal, and with one that is refused behind them leaves what was there.
Ends with 0 where nothing differs. It is run by hand."""
import pathlib
import random
import re
import struct
import subprocess
import sys
import tempfile

sys.path.insert(0, str(pathlib.Path(__file__).resolve().parent.parent))

from support.changing import carried, whole
from support.littlefs import Reader, blocks_for
from support.logs import log
from support.scattering import Scattered, key
from support.scripts import MOVES, script, spelled

STEPS_OF_AN_IMAGE = 250
GEOMETRIES = (256, 16), (256, 40), (256, 200), (512, 24), (512, 64), (1_024, 16), (4_096, 12), (4_096, 40), (16_384, 10)
NO_SPACE, TOO_LARGE, BAD_COUNT = 43, 42, 46
# How often a step of a kind is taken.
KINDS = {"mkdir": 12, "put": 32, "rm": 14, "mv": 12, "setattr": 18, "rmattr": 6, "grow": 5, "undo": 9, "redo": 6}
# What keeps the latest changes alone where that is asked for.
CHANGES = {*KINDS, "batch"} - {*MOVES}
# The limits of images.
MOST_BLOCKS, MOST_BYTES = 65_536, 67_108_864
# How many blocks a command takes at most beside those of contents and of a directory: two parts, each cut into three.
MOST_OF_PARTS = 8


def fronts(path):
    """The paths in front of a path."""
    names = path.split("/")
    return ["/".join(names[:at]) or "/" for at in range(1, len(names))] if path != "/" else []


def last(path):
    """The last name of a path."""
    return path.rsplit("/", 1)[1]


def forced_by(kind, what):
    """What a command writes even where it stays the same: of the entry of a name the attribute of a kind, or the struct."""
    if kind not in ("put", "setattr"):
        return []
    name = None if what[0] == "/" else last(what[0]).encode()
    return [(name, what[1] if kind == "setattr" else None)]


def most_blocks(size):
    """The most blocks of an image."""
    return min(MOST_BLOCKS, MOST_BYTES // size)


def most_inline(size):
    """The most bytes of a file that stand in its entry."""
    return min(size // 8, 1_022)


class Model:
    """What stands at each path: the bytes of a file or None, and the attributes by kind."""

    def __init__(self, tree, size):
        self.tree, self.size = tree, size

    def walk(self, path):
        """Why a path isn't reached."""
        for front in fronts(path):
            if front not in self.tree:
                return 30
            if self.tree[front][0] is not None:
                return 32
        return 0

    def below(self, path):
        """The paths below a path."""
        return [other for other in self.tree if other.startswith(path.rstrip("/") + "/") and other != path]

    def moves(self, path, to):
        """Why something isn't moved."""
        if "/" in (path, to):
            return 41
        there = self.walk(path) or (30 if path not in self.tree else 0)
        return there or (40 if to.startswith(path + "/") else 0) or self.walk(to) or (31 if to in self.tree else 0)

    def refuses(self, kind, path, *more):
        """The number of the refusal of a command on paths, the checks on room aside; 0 where there is none."""
        if kind == "mv":
            return self.moves(path, *more)
        if path == "/" and kind in ("mkdir", "put", "rm"):
            return 41
        there = self.tree.get(path)
        if self.walk(path) or kind in ("rm", "setattr", "rmattr") and not there:
            return self.walk(path) or 30
        if kind == "rmattr":
            return 0 if more[0] in there[1] else 39
        if kind == "rm":
            return 34 if self.below(path) else 0
        return 31 if kind == "mkdir" and there else 33 if kind == "put" and there and there[0] is None else 0

    def after(self, kind, path, *more):
        """The tree behind a command on paths that isn't refused."""
        tree = dict(self.tree)
        held, values = tree.get(path, (None, {}))
        if kind == "rm":
            del tree[path]
        elif kind == "mv":
            for moved in [path, *self.below(path)]:
                tree[more[0] + moved[len(path):]] = tree.pop(moved)
        elif kind == "setattr":
            tree[path] = held, {**values, more[0]: more[1]}
        elif kind == "rmattr":
            tree[path] = held, {each: value for each, value in values.items() if each != more[0]}
        else:
            tree[path] = more[0] if kind == "put" else None, values
        return tree

    def weighs(self, path):
        """What the entry of a path takes of a block; that of the root is the superblock."""
        held, values = self.tree[path]
        inline = held is not None and len(held) <= most_inline(self.size)
        entry = 40 if path == "/" else 4 + len(last(path)) + (4 + len(held) if inline else 12)
        return entry + sum(4 + len(value) for value in values.values())


class Run:
    """Steps on one image by a program, in a folder."""

    def __init__(self, program, folder, chance, size):
        self.program, self.folder, self.chance, self.size = program, folder, chance, size
        self.image = folder / "a.img"
        self.counts = {"done": 0, "refused": 0, "appended": 0, "rewritten": 0, "scripts": 0}
        self.past, self.future = [], []
        self.keep, self.lines, self.number = None, [], 0

    def begin(self, count, is_scattered):
        """Makes the image."""
        for name in "a.img", "a.img.lfsj":
            (self.folder / name).unlink(missing_ok=True)
        if is_scattered:
            self.image.write_bytes(Scattered(self.chance, self.size, count).image)
        else:
            self.ends("format", count=count)
        self.now = self.read()
        return self.is_said()

    def ends(self, name, *words, held=b"", count=None):
        """Runs the program; answers the number of its refusal or 0, and all that it complained of and printed."""
        options = ["-b", str(self.size), *(["--count", str(count)] if count else [])]
        options += ["--keep", str(self.keep)] if self.keep and name in CHANGES else []
        command = [self.program, name, *options, "a.img", *words]
        ended = subprocess.run(command, cwd=self.folder, input=held, capture_output=True, timeout=60)
        told = re.match(rb"lfsed: (\d+) ", ended.stderr)
        return int(told[1]) if told else ended.returncode, ended.stderr.decode(), ended.stdout.decode()

    def files(self):
        """The bytes of image and journal, where they are there."""
        return [path.read_bytes() if path.exists() else None for path in (self.image, self.image.with_name("a.img.lfsj"))]

    def put_back(self, files):
        """Makes image and journal what they were."""
        for path, held in zip((self.image, self.image.with_name("a.img.lfsj")), files):
            path.unlink(missing_ok=True)
            if held is not None:
                path.write_bytes(held)

    def read(self):
        """The image as it is read, and its tree."""
        reader = Reader(self.image.read_bytes(), self.size)
        return reader, {path.decode(): found for path, found in reader.tree().items()}

    def is_said(self):
        """Whether the program says of the image what the reader finds."""
        reader, tree = self.now
        files = sum(held is not None for held, _ in tree.values())
        said = f"block {self.size}, count {len(reader.image) // self.size}, free {reader.free()}, "
        said += f"directories {len(tree) - files}, files {files}, version 2.0\n"
        ended = self.ends("check")
        return "" if ended == (0, "", said) else f"check: {ended}, not {said}"

    def path(self, tree, is_new):
        """A path, mostly one that is there or one that isn't."""
        directories = [path for path, (held, _) in tree.items() if held is None]
        if self.chance.random() < (0.1 if is_new else 0.9):
            return self.chance.choice([*tree])
        parent = self.chance.choice(directories if self.chance.random() < 0.95 else [*tree, "/none"]).rstrip("/")
        name = self.chance.choice("abcdefg") * self.chance.choice([1, 1, 2, 30, self.size // 4 % 200])
        return f"{parent}/{'littlefs' if self.chance.random() < 0.02 else name}"

    def count(self):
        """How many blocks the image has."""
        return len(self.now[0].image) // self.size

    def new_count(self):
        """A number of blocks, mostly a few more than there are, else one that is refused."""
        count, most = self.count(), most_blocks(self.size)
        refused = [2, count - 1, count] + [most + 1] * (most < MOST_BLOCKS)
        return count + self.chance.randrange(1, 9) if self.chance.random() < 0.8 else self.chance.choice(refused)

    def command(self):
        """A step: its kind, and what it takes."""
        tree, chance = self.now[1], self.chance
        kind = chance.choices([*KINDS], [*KINDS.values()])[0]
        if kind == "grow":
            return kind, self.new_count()
        path = self.path(tree, kind == "mkdir" or kind == "put" and chance.random() < 0.5)
        if kind == "put":
            lengths = [0, 0, 3, self.size // 8, self.size // 8 + 1, self.size, 2 * self.size + 7]
            held = tree.get(path, (None,))[0]
            return kind, path, held if held and chance.random() < 0.3 else chance.randbytes(chance.choice(lengths))
        if kind == "mv":
            return kind, path, self.path(tree, True)
        if kind in ("setattr", "rmattr"):
            number = chance.choice([*tree.get(path, (None, {}))[1], *b"qrst"])
            value = chance.randbytes(chance.choice([0, 1, 4, min(self.size // 5, 1_022)]))
            return (kind, path, number, value) if kind == "setattr" else (kind, path, number)
        return (kind,) if kind in ("undo", "redo") else (kind, path)

    def step(self):
        """Takes one step, and at times those since the last time once more in one run; answers what differs."""
        if not self.lines:
            self.before, self.keep = self.files(), self.chance.choice([None, None, 1, 2, 3, 20])
        done, (kind, *what) = self.counts["done"], self.command()
        line, wrong = self.line(kind, what), self.takes(kind, what)
        is_done = self.counts["done"] > done
        if not wrong and self.chance.random() < (0.05 if is_done else 0.1):
            wrong = self.in_one_run([*self.lines, line], is_done)
            self.lines = [] if is_done else self.lines
        elif is_done:
            self.lines.append(line)
        return wrong

    def line(self, kind, what):
        """The line of a script that says a step. What a file gets is put into a file of the host."""
        words = [spelled(word.encode()) if isinstance(word, str) else word for word in what]
        if kind == "put":
            host = f"host{len(self.lines)}"
            (self.folder / host).write_bytes(words.pop())
            words.append(host)
        elif kind in ("setattr", "rmattr"):
            words = [words[0], f"{words[1]:02x}", *(value.hex() for value in words[2:] if value)]
        return " ".join([kind, *map(str, words)])

    def in_one_run(self, lines, is_done):
        """Takes steps by a script, of which the last was done or refused, from what image and journal were before them; answers what
        differs from what the steps left one by one, or, where the script is refused, from what was there."""
        after, number = self.files(), self.number
        self.put_back(self.before)
        (self.folder / "steps").write_bytes(script(lines))
        ended = self.ends("batch", "steps")
        told = f"\nlfsed: steps: line {len(lines)}: {lines[-1]}\n"
        is_right = ended == (0, "", "") if is_done else ended[0] == number and ended[1].endswith(told)
        is_same = self.files() == (after if is_done else self.before)
        self.put_back(after)
        self.counts["scripts"] += 1
        return "" if is_right and is_same else f"a script of {lines} ended with {ended}, files as wanted: {is_same}"

    def takes(self, kind, what):
        """Takes one step; answers what differs."""
        if kind in ("undo", "redo"):
            wrong = self.moves_in_history(kind)
            return wrong and f"{kind}: {wrong}"
        words = [str(word) if kind == "grow" else f"{word:02x}" if isinstance(word, int) else word for word in what]
        held = words.pop() if kind == "put" else b""
        ended = self.ends(kind, *[word.hex() if isinstance(word, bytes) else word for word in words], held=held)
        wrong = self.carries_out(kind, what, ended)
        return wrong and f"{kind} {' '.join(map(repr, what))[:300]}: {wrong}"

    def moves_in_history(self, kind):
        """Takes a change back, or makes it again."""
        source, target, number = (self.past, self.future, 53) if kind == "undo" else (self.future, self.past, 54)
        wanted = 0 if source else number
        ended = self.ends(kind)
        self.number = ended[0]
        if ended[0] != wanted:
            return f"it ended with {ended}"
        if not wanted:
            target.append(self.now)
            self.now = source.pop()
        self.counts["refused" if wanted else "done"] += 1
        return "" if self.image.read_bytes() == self.now[0].image else "another image"

    def room(self, model, kind, what):
        """The number of the refusal of a command for want of room, or 0, as far as weights tell."""
        path = {"mv": what[-1], "grow": "/"}.get(kind, what[0])
        is_heavy = kind not in ("rm", "rmattr") and model.weighs(path) > self.size - 40
        return TOO_LARGE if is_heavy else 0

    def has_no_space(self, kind, what, complaint):
        """Whether a command is rightly refused for want of free blocks, as far as the count of these tells."""
        free = self.now[0].free() + (what[0] - self.count() if kind == "grow" else 0)
        need = int(re.search(r"need (\d+) ", complaint)[1])
        inline = kind != "put" or len(what[1]) <= most_inline(self.size)
        taken = 2 * (kind == "mkdir") + (0 if inline else blocks_for(self.size, len(what[1])))
        is_said = complaint.splitlines()[0] == f"lfsed: 43 NoSpace need {need} free {free}"
        return is_said and free < need <= taken + MOST_OF_PARTS

    def meant(self, kind, what):
        """The number of the refusal of a command, the checks on room aside, or 0; and what then stands at each path."""
        model = Model(self.now[1], self.size)
        if kind == "grow":
            return 0 if self.count() < what[0] <= most_blocks(self.size) else BAD_COUNT, model
        number = model.refuses(kind, *what)
        return number, model if number else Model(model.after(kind, *what), self.size)

    def carries_out(self, kind, what, ended):
        """Compares how a command ended, and what it left."""
        reader, tree = self.now
        wanted, after = self.meant(kind, what)
        wanted = wanted or self.room(after, kind, what)
        count = what[0] if kind == "grow" else self.count()
        self.number = ended[0]
        self.counts["refused" if ended[0] else "done"] += 1
        if ended[0]:
            is_right = ended[0] == wanted or ended[0] == NO_SPACE and not wanted and self.has_no_space(kind, what, ended[1])
            is_kept = self.image.read_bytes() == reader.image
            return "" if is_right and is_kept else f"it ended with {ended}, not with {wanted}, image kept: {is_kept}"
        if wanted:
            return f"it was done, and not refused with {wanted}"
        self.past, self.future = [*self.past, self.now][-self.keep if self.keep else 0:], []
        self.now = self.read()
        if self.now[1] != after.tree:
            return f"the tree is {self.now[1]}"
        return self.has_count(reader, count) or self.has_changed(reader, forced_by(kind, what)) or self.is_said()

    def has_count(self, old, count):
        """Compares the number of blocks, and the superblock's struct, which says it."""
        held = [reader.parts[0].entries[0].value for reader in (old, self.now[0])]
        wanted = held[0][:8] + struct.pack("<I", count) + held[0][12:]
        return "" if self.count() == count and held[1] == wanted else f"{self.count()} blocks, not {count}; {held[1]}"

    def has_changed(self, old, forced):
        """Compares which blocks have changed, and to what: those of pairs as the rule says, and of others only free ones."""
        new, known = self.now[0], old.thread()
        wanted = {number: old.block(number).ljust(self.size, b"\xff") for number in range(self.count())}
        for number in new.used_by_files():
            wanted[number] = new.block(number) if number not in old.used() else wanted[number]
        for part in new.parts:
            first, second = part.pair
            if part.pair not in known:
                wanted[first], wanted[second] = log(1, whole(part), 16).ljust(self.size, b"\xff"), self.size * b"\xff"
            elif any(old.block(number) != new.block(number) for number in part.pair):
                number, wanted[number] = carried(old, part, forced, part.is_hard and part.tail not in known)
                self.counts["appended" if number == old.live(part.pair)[0] else "rewritten"] += 1
        if len(new.used()) != len({*new.used()}):
            return f"blocks are used twice: {sorted(new.used())}"
        directories = [pair for _, pair in new.rows() if pair]
        reached = [part.pair for pair in directories for part in new.parts_of(pair)]
        empty = [part.pair for pair in directories for part in new.parts_of(pair)[1:] if not part.entries]
        if empty:
            return f"later parts of directories without entries: {empty}"
        names = [[entry.name for entry in new.entries(pair)] for pair in directories]
        if sorted(reached) != sorted(new.thread()) or names != [sorted(each, key=key) for each in names]:
            return f"the thread is {new.thread()}, {reached} are reached, and names are {names}"
        wrong = [number for number in wanted if wanted[number] != new.block(number)]
        return f"other blocks: {wrong}" if wrong else "" if new.image != old.image else "no block has changed"


def main(program, steps=10_000, seed=1):
    chance, total, wrong = random.Random(seed), {}, 0
    with tempfile.TemporaryDirectory() as folder:
        for number in range(-(-steps // STEPS_OF_AN_IMAGE)):
            size, count = GEOMETRIES[number % len(GEOMETRIES)]
            run = Run(pathlib.Path(program).resolve(), pathlib.Path(folder), chance, size)
            found = run.begin(count, chance.random() < 0.7)
            for at in range(min(STEPS_OF_AN_IMAGE, steps - number * STEPS_OF_AN_IMAGE)):
                found = found or run.step()
                if found:
                    wrong += 1
                    print(f"seed {seed}, image {number} of {count} blocks of {size} bytes, step {at}: {found}")
                    break
            total = {what: total.get(what, 0) + many for what, many in run.counts.items()}
    taken = total["done"] + total["refused"]
    print(f"{taken} steps: {total['done']} done, {total['refused']} refused, {total['scripts']} scripts; pairs: "
          f"{total['appended']} appended to, {total['rewritten']} rewritten; {wrong} images differ")
    return 1 if wrong or taken < steps else 0


if __name__ == "__main__":
    sys.exit(main(sys.argv[1], *map(int, sys.argv[2:])))
