#!/usr/bin/env python3
"""Lives of images between a real littlefs and the program, `real.py [LIVES [SEED]]`, 40 lives by default.

In each life littlefs formats a flash and changes it by random calls: over several sizes of blocks and caches, with and without times, with
thousands of writes, so that pairs move and the superblock is expanded, or until the flash is full. In half of them the power fails at last,
at one of the writes of a call. The program finds that image in a dump, reads and salvages it. It takes a copy over in place and repacks
another, and littlefs mounts both. Of each the program changes what it made, takes changes back and makes them again; littlefs mounts each
image that it leaves. At last littlefs changes the image, and the program reads that and takes it over once more. All listings, contents,
times and attributes are compared."""
import multiprocessing
import pathlib
import random
import re
import shutil
import subprocess
import sys
import tempfile

from support.counts import Counts
from support.folder import HOME, PROGRAM
from support.later import DeviceReader
from support.random_steps import Model
from support.real import NO_POWER, TIME, Device, Refused, fronts, pattern, real_littlefs, rows_of, sha256, shown, times_of

LIVES = 40
BLOCKS = 256, 512, 512, 1024, 4096
TWICE, ROOM = 15, 43


class Life:
    """An image in a folder, a device and the program, which change it by turns."""

    def __init__(self, folder, counts, seed):
        self.folder, self.counts, self.seed = folder, counts, seed
        self.chance = random.Random(seed)
        self.block = self.chance.choice(BLOCKS)
        self.count = self.chance.choice([24, 64, 200] if self.block > 256 else [64, 200])
        unit = self.chance.choice([it for it in (16, 32, 64, 256) if it < self.block])
        self.device = Device(folder, read=unit, prog=unit, lookahead=self.chance.choice([16, 32]), mtime=self.chance.random() < 0.5)
        self.name, self.paths = "a.img", {"/": None}

    def check(self, what, is_right, found=""):
        """Counts one thing that is to be so."""
        self.counts.check(f"life {self.seed}, blocks of {self.block}: {what}", is_right, found)

    # ---- the device

    def a_name(self):
        """A name; most are short."""
        return "".join(self.chance.choice("abcdefgh") for _ in range(self.chance.choice([1, 1, 2, 2, 3, 20, 60])))

    def a_path(self, is_new):
        """A path that is there, or the path of a new name."""
        directories = [path for path, held in self.paths.items() if held is None]
        if not is_new:
            return self.chance.choice([*self.paths])
        return f"{self.chance.choice(directories).rstrip('/')}/{self.a_name()}"

    def a_size(self):
        """The length of a file: in its entry, in one block or in several."""
        return self.chance.choice([0, 5, self.block // 8, self.block // 8 + 1, self.block // 2, self.block + 9, 4 * self.block])

    def call(self):
        """Has the device carry out one random call; answers the number of its error. No directory is moved below itself: littlefs allows
        that, and shows the directory no more."""
        op = self.chance.choices(["write", "append", "mkdir", "rename", "remove", "again"], [10, 4, 4, 3, 4, 1])[0]
        path = self.a_path(op == "mkdir" or op == "write" and self.chance.random() < 0.6)
        more = {}
        if op in ("write", "append", "again"):
            more = {"seed": self.chance.randrange(1 << 20), "size": self.a_size(), "times": self.chance.choice([5, 50])}
        elif op == "rename":
            more = {"to": self.a_path(self.chance.random() < 0.8)}
            if more["to"].startswith(path + "/"):
                return 0
        failed = self.device.tries(op, path=path, **more)
        if not failed:
            self.follow(op, path, more)
        return failed

    def follow(self, op, path, more):
        """Takes in which paths there are after a call."""
        if op == "remove":
            self.paths.pop(path, None)
        elif op == "rename":
            moved = {to: held for to, held in self.paths.items() if to == path or to.startswith(path + "/")}
            for each in moved:
                del self.paths[each]
            self.paths.update({more["to"] + each[len(path):]: held for each, held in moved.items()})
        else:
            self.paths[path] = None if op == "mkdir" else b""

    def wear(self):
        """Has the device write a few files thousands of times, so that pairs move and the superblock is expanded."""
        for _ in range(self.chance.choice([2, 6])):
            place = self.chance.choice([path for path, held in self.paths.items() if held is None])
            path = f"{place.rstrip('/')}/worn{self.a_name()}"
            if not self.device.tries("again", path=path, seed=self.seed, size=self.chance.choice([8, 20]), times=self.chance.choice([300, 1500])):
                self.paths[path] = b""

    def live(self, calls):
        """Has the device carry out random calls."""
        for _ in range(calls):
            self.call()

    def begin(self):
        """Has the device format a flash and change it, so that it is new, used, worn or full."""
        self.device.new(self.name, self.block, self.count)
        age = self.chance.choice(["new", "used", "worn", "full"])
        self.live({"new": 8, "used": 150, "worn": 40, "full": 400}[age])
        if age == "worn":
            self.wear()
            self.live(20)
        self.device("save")

    def lose_power(self):
        """Has the power fail at one of the next writes and erases; of a write a part is still done."""
        self.device("cut", after=self.chance.randrange(1, 60), torn=self.chance.random())
        for _ in range(200):
            if self.call() == NO_POWER:
                break
        self.device("save")

    # ---- the program

    def run(self, *words, given=b""):
        """Runs the program; answers its status, the number of its fault or 0, and what it printed."""
        ended = subprocess.run([PROGRAM, *words], cwd=self.folder, input=given, capture_output=True, timeout=60, check=False)
        first = ended.stderr.split(b"\n")[0].split(b" ")
        fault = int(first[1]) if ended.returncode and first[0] == b"lfsed:" and first[1].isdigit() else 0
        return ended.returncode, fault, ended.stdout, ended.stderr

    def is_read(self, what, *options):
        """Compares what the program reads of the image with what the device lists of it."""
        listed = self.listed()
        ended = self.run("ls", "--json", "--sha256", *options, self.name)
        if ended[1] == TWICE:
            self.is_used_twice(what, ended)
            return None
        self.check(f"{what}: listed", ended[0] == 0 and not ended[3], ended)
        if ended[0]:
            return None
        rows, attributes = rows_of(ended[2])
        wanted = {path: row[:3] for path, row in listed.items()} | {"/": ("d", 0, "")}
        unlike = {path for path in {*rows, *wanted} if rows.get(path) != wanted.get(path)}
        self.check(f"{what}: the same tree", not unlike, [(path, rows.get(path), wanted.get(path)) for path in sorted(unlike)][:3])
        if self.device.how["mtime"]:
            late = {path for path, time in times_of(attributes).items() if path in listed and time != listed[path][3]}
            self.check(f"{what}: the same times", not late, late)
        return rows, attributes

    def used(self):
        """The blocks of the thread and of all files, as a plain reader finds them in the image."""
        return DeviceReader((self.folder / self.name).read_bytes(), self.block).used()

    def is_used_twice(self, what, ended):
        """The program refuses the device's image for a block that two things use: so it has to be by a plain reader. littlefs gives a block
        away twice at times, where calls ended for want of room; it reads both still, and its next changes of one destroy the other."""
        used = self.used()
        told = re.findall(rb"block (\d+): /\S* and /\S* use it\n", ended[3])
        self.check(f"{what}: a block is used twice", told and all(used.count(int(number)) == 2 for number in told), ended)

    def listed(self):
        """What the device lists. If the power failed while the last entry of a part was moved, the device lists a name that it can't open;
        after its next change it lists what is there."""
        listed = self.device.tree()
        if any(row[0] == "lost" for row in listed.values()):
            self.device.tries("mkdir", path="/a-new-directory")
            self.device.tries("remove", path="/a-new-directory")
            listed = self.device.tree()
        return listed

    def is_mounted(self, what, rows):
        """Compares what the device lists of the program's image with what it has to hold."""
        try:
            self.device.opens(self.name, self.block)
            listed = {path: row[:3] for path, row in self.device.tree().items()} | {"/": ("d", 0, "")}
        except Refused as refused:
            self.check(f"{what}: mounted and listed", False, refused)
            return
        unlike = {path for path in {*rows, *listed} if rows.get(path) != listed.get(path)}
        self.check(f"{what}: what the device lists", not unlike, [(path, rows.get(path), listed.get(path)) for path in sorted(unlike)][:3])

    def read(self):
        """Reads the device's image as the device does, and salvages it; answers what it holds."""
        self.device.opens(self.name, self.block)
        found = self.is_read("the device's image", "--device", "-b", "auto")
        if found:
            self.salvage(found[0])
        return found

    def take_over(self, name, found):
        """Takes an image over in place: the blocks that are told change, and no others; littlefs mounts it. The second time none changes."""
        self.name, image = name, self.folder / name
        self.device.opens(self.name, self.block)
        before = image.read_bytes()
        ended = self.run("adopt", "-b", "auto", self.name)
        self.check("taken over", ended[0] == 0, ended)
        if ended[0]:
            return
        after = image.read_bytes()
        unlike = [at for at in range(len(before) // self.block) if before[at * self.block:][:self.block] != after[at * self.block:][:self.block]]
        self.check("taken over: the blocks that change", unlike == [int(it) for it in re.findall(rb"\d+", ended[2])], (unlike, ended))
        self.is_mounted("taken over", found[0])
        again = self.is_read("taken over", "-b", "auto")
        self.check("taken over: attributes", again and again[1] == found[1])
        ended = self.run("adopt", "-b", "auto", self.name)
        self.check("taken over twice", ended[:3] == (0, 0, b"no block changed\n") and image.read_bytes() == after, ended)

    def repack(self, found):
        """Makes an image of version 2.0 of the device's, which the device mounts; answers whether there is one."""
        self.device.opens(self.name, self.block)
        more = self.count + self.chance.choice([0, 8])
        ended = self.run("repack", "--device", "-b", str(self.block), "--count", str(more), "b.img", self.name)
        self.check("repacked", ended[0] == 0 or ended[1] == ROOM, ended)
        if ended[0]:
            return False
        self.name, self.count = "b.img", more
        self.is_mounted("repacked", found[0])
        again = self.is_read("repacked", "-b", "auto")
        self.check("repacked: attributes", again and again[1] == found[1])
        return True

    def salvage(self, rows):
        """Compares what is saved of the device's image with what it holds. What no path leads to is saved besides."""
        ended, saved = self.run("salvage", "-b", "auto", self.name, "saved"), self.folder / "saved"
        held = {"/": ("d", 0, "")}
        for path in saved.rglob("*"):
            row = ("d", 0, "") if path.is_dir() else ("f", path.stat().st_size, sha256(path.read_bytes()))
            held[f"/{path.relative_to(saved)}"] = row
        is_whole = ended[0] == 0 and not ended[3] and held == rows
        has_more = b"17 Orphan" in ended[3] and rows.items() <= held.items()
        self.check("salvaged", is_whole or has_more, ended)
        shutil.rmtree(saved, ignore_errors=True)

    def noise(self, length):
        """Bytes that stand around an image in a dump: erased, zero or random ones, or text."""
        text = b"littlefs is a file system. " * (length // 27 + 1)
        return self.chance.choice([b"\xff" * length, bytes(length), self.chance.randbytes(length), text[:length]])

    def in_a_dump(self):
        """Looks for the device's image in a dump, alone or with another copy of it after some bytes."""
        image = (self.folder / self.name).read_bytes()
        dump, places = b"", []
        for _ in range(self.chance.choice([1, 1, 2])):
            dump += self.noise(self.chance.choice([0, 16, 1_000, 4_096, 10_000]))
            places.append(len(dump))
            dump += image
        dump += self.noise(self.chance.choice([0, 5, self.block, 9_999]))
        (self.folder / "dump.bin").write_bytes(dump)
        ended = self.run("find", "dump.bin")
        rows = [row.split("  ") for row in ended[2].decode().splitlines() if row.endswith(("  mounts", "  15 BlockTwice"))]
        found = [(int(row[0], 16), row[2], row[3]) for row in rows]
        wanted = [(place, f"block {self.block}", f"count {self.count}") for place in places]
        mounts = all(row[-1] == "mounts" for row in rows) or max(map(self.used().count, self.used())) == 2
        self.check("found in a dump", ended[0] == 0 and found == wanted and mounts, (found, wanted, ended))
        (self.folder / "dump.bin").unlink()

    def a_command(self, model):
        """A random command: its kind and what it takes, and its words."""
        files = [path for path, (held, _) in model.tree.items() if held is not None]
        kind = self.chance.choices(["put", "mkdir", "rm", "mv", "setattr", "rmattr"], [10, 4, 9, 4, 2, 1])[0]
        path = self.chance.choice([*model.tree])
        if kind == "mkdir" or kind == "put" and (not files or self.chance.random() < 0.6):
            path = self.a_new(model)
        elif kind == "put":
            path = self.chance.choice(files)
        what = {
            "put": lambda: (pattern(self.chance.randrange(1 << 20), self.a_size()),), "mv": lambda: (self.a_new(model),),
            "setattr": lambda: (self.chance.choice([TIME, 0x74]), self.chance.randbytes(8)), "rmattr": lambda: (TIME,),
        }.get(kind, tuple)()
        return kind, path, what

    def a_new(self, model):
        """The path of a new name, mostly."""
        place = self.chance.choice([path for path, (held, _) in model.tree.items() if held is None])
        return f"{place.rstrip('/')}/{self.a_name()}"

    def change(self, model):
        """Has the program carry out a random command, and the device mount what it leaves; answers the model of that."""
        return self.carry_out(model, *self.a_command(model))

    def clear(self, model):
        """Has the program remove what stands in the directory of most entries, the last one first, so that each of its parts but the first
        is emptied; answers the model of that."""
        below = {path: [it for it in model.tree if fronts(it)[-1:] == [path]] for path in model.tree}
        place = max(below, key=lambda path: len(below[path]))
        for path in sorted(below[place], reverse=True):
            if not below[path]:
                model = self.carry_out(model, "rm", path, ())
        return model

    def carry_out(self, model, kind, path, what):
        """Has the program carry out a command, and the device mount what it leaves; answers the model of that."""
        words = {"setattr": lambda: [f"{what[0]:02x}", what[1].hex()], "rmattr": lambda: [f"{what[0]:02x}"], "mv": lambda: [what[0]]}
        ended = self.run(kind, "-b", "auto", self.name, path, *words.get(kind, list)(), given=what[0] if kind == "put" else b"")
        refused = model.refuses(kind, path, *what)
        told = f"{kind} {path}"
        if ended[1] == ROOM and not refused:
            return model
        self.check(f"{told}: ends", ended[1] == refused and (ended[0] != 0) == (refused != 0), ended)
        if refused or ended[0]:
            return model
        model = Model(model.after(kind, path, *what), self.block)
        self.is_mounted(told, shown(model))
        return model

    def edit(self, found):
        """Has the program change the image by random commands, take all back, and make them again."""
        rows, attributes = found
        contents = {path: self.run("cat", "-b", "auto", self.name, path)[2] if row[0] == "f" else None for path, row in rows.items()}
        model = Model({path: (contents[path], attributes[path]) for path in rows}, self.block)
        first, done = (self.folder / self.name).read_bytes(), model
        for _ in range(self.chance.choice([6, 15])):
            model = self.change(model)
        if self.chance.random() < 0.5:
            model = self.clear(model)
        last = (self.folder / self.name).read_bytes()
        steps = len(self.run("log", "-b", "auto", "--json", self.name)[2].splitlines())
        while self.run("undo", "-b", "auto", self.name)[0] == 0:
            steps += 1
        self.check("all taken back", (self.folder / self.name).read_bytes() == first)
        self.is_mounted("all taken back", shown(done))
        while self.run("redo", "-b", "auto", self.name)[0] == 0:
            steps += 1
        self.check("all made again", (self.folder / self.name).read_bytes() == last)
        return model

    def grow_and_sync(self, model):
        """Has the program lengthen the image, and make it like a folder."""
        self.count += 8
        self.check("grown", self.run("grow", "-b", "auto", self.name, str(self.count))[0] == 0)
        self.is_mounted("grown", shown(model))
        source = self.folder / "src"
        tree = {path: held for path, (held, _) in model.tree.items() if self.chance.random() < 0.7 or path == "/"}
        tree = {path: held for path, held in tree.items() if all(front in tree and tree[front] is None for front in fronts(path))}
        for path, held in sorted(tree.items()):
            at = source / path.lstrip("/")
            if held is None:
                at.mkdir()
            else:
                at.write_bytes(held)
        ended = self.run("sync", "-b", "auto", self.name, "src")
        self.check("synced", ended[0] == 0 or ended[1] == ROOM, ended)
        if not ended[0]:
            self.is_mounted("synced", {path: ("d", 0, "") if held is None else ("f", len(held), sha256(held)) for path, held in tree.items()})

    def go_on(self):
        """Has the device change the image that the program left, and the program read that; answers what it holds."""
        self.device.opens(self.name, self.block)
        listed = self.device.tree()
        self.paths = {"/": None} | {path: None if row[0] == "d" else b"" for path, row in listed.items()}
        self.live(30)
        self.device("save")
        return self.is_read("the device goes on", "--device", "-b", "auto")

    def whole(self):
        """The whole life."""
        self.begin()
        if self.chance.random() < 0.5:
            self.lose_power()
        self.in_a_dump()
        found = self.read()
        if not found:
            return
        first = self.name
        shutil.copy(self.folder / first, self.folder / "taken.img")
        self.take_over("taken.img", found)
        self.edit(found)
        self.take_over_again()
        self.name = first
        if self.repack(found):
            model = self.edit(found)
            self.grow_and_sync(model)
            self.go_on()

    def take_over_again(self):
        """Has the device change the image that was taken over and edited, and the program take over a copy of that: the history of the edits
        isn't that of the new image, which has another name."""
        found = self.go_on()
        if found:
            shutil.copy(self.folder / self.name, self.folder / "again.img")
            self.take_over("again.img", found)


def live(seed):
    """Lives one life; answers how many things were right and wrong."""
    counts = Counts()
    with tempfile.TemporaryDirectory() as folder:
        life = Life(pathlib.Path(folder), counts, seed)
        with life.device:
            life.whole()
    return counts.right, counts.wrong


def main(lives=LIVES, seed=1):
    subprocess.run([HOME / "bin/lfsed", "--help"], stdout=subprocess.DEVNULL, check=True)
    counts = Counts()
    if real_littlefs():
        with multiprocessing.Pool() as pool:
            for right, wrong in pool.imap_unordered(live, range(seed, seed + lives)):
                counts.right, counts.wrong = counts.right + right, counts.wrong + wrong
    return counts.end()


if __name__ == "__main__":
    sys.exit(main(*map(int, sys.argv[1:])))
