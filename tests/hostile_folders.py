#!/usr/bin/env python3
"""Packs, syncs, extracts and salvages while another thread puts links in the place of folders: nothing outside is read or written. Does
the same with folders that are deep and paths that are longer than the system takes at once."""
import ctypes
import os
import pathlib
import random
import resource
import subprocess
import sys
import threading
import time

from support.folder import contents, run_scenes
from support.littlefs import Reader
from support.logs import SOFT, directory, file, image, log, superblock, tail

# Of renameat2: where names begin, and that two of them are exchanged.
AT_FDCWD, RENAME_EXCHANGE = -100, 2

# How many seconds each command is run for while folders are swapped.
SECONDS = 6

# What stands in the folder that nothing leads to, and in the one that is read.
OUTSIDE, INSIDE = b"what stands outside " * 9, b"what stands inside " * 9


class Swapping:
    """A thread that puts a link in a folder's place and back, time and again, as long as the folder is there: in one step each, or if the
    system has none, in two."""

    def __init__(self, place, aside, link):
        self.place, self.aside, self.link = place, aside, link
        self.exchange = getattr(ctypes.CDLL(None, use_errno=True), "renameat2", None)
        self.has_ended, self.turns, self.chance = False, 0, random.Random(7)
        self.thread = threading.Thread(target=self.swap)

    def __enter__(self):
        self.thread.start()
        return self

    def __exit__(self, *_):
        self.has_ended = True
        self.thread.join()

    def swap(self):
        while not self.has_ended:
            if self.exchanges():
                self.waits()
                self.exchanges()
                self.turns += 1
            else:
                self.turns += self.moves_both()
            self.waits()

    def waits(self):
        """Leaves a little time."""
        time.sleep(self.chance.choice([0, 0.0001, 0.0005]))

    def exchanges(self):
        """Exchanges the names of link and folder; answers whether it did."""
        names = os.fsencode(self.place), os.fsencode(self.link)
        return bool(self.exchange) and self.exchange(AT_FDCWD, names[0], AT_FDCWD, names[1], RENAME_EXCHANGE) == 0

    def moves_both(self):
        """Moves the folder away and the link in its place, and both back; answers whether the folder was there."""
        try:
            os.rename(self.place, self.aside)
        except OSError:
            return False
        for old, new in (self.link, self.place), (self.place, self.link), (self.aside, self.place):
            try:
                os.rename(old, new)
            except OSError:
                pass
        return True


def cleared(*places):
    """Takes folders away, however deep they are."""
    subprocess.run(["rm", "-rf", *map(str, places)], check=True)


def filled(place, held):
    """Makes a folder of many files with these bytes, some of them in a folder."""
    (place / "e").mkdir(parents=True)
    for n in range(60):
        for name in f"f{n:02}", f"e/f{n:02}":
            (place / name).write_bytes(held)
    return place


def outside_of(folder):
    """A folder that nothing is to lead to, with the names of the one that is read."""
    return filled(folder.image.with_name("outside"), OUTSIDE)


def until(seconds):
    """Counts as long as the time goes on."""
    end, count = time.monotonic() + seconds, 0
    while time.monotonic() < end:
        yield count
        count += 1


def swapped_while_read(folder):
    """What is packed and synced is read of the folder alone."""
    outside, room = outside_of(folder), folder.image.parent
    place = filled(room / "src/d", INSIDE).parent
    for name in "d", "d/e":
        link, aside = room / "link", room / "aside"
        link.symlink_to(outside / "e" if name == "d/e" else outside)
        ended = folder.run("format -b 512 --count 256 a.img")
        folder.check("format", ended == (0, "", b""), ended)
        for words in "pack -b 512 --count 256 b.img src", "sync -b 512 a.img src":
            statuses, escapes = set(), 0
            with Swapping(place / name, aside, link) as swapping:
                for _ in until(SECONDS / 4):
                    statuses.add(folder.run(words)[0])
                    made = room / words.split()[-2]
                    escapes += made.exists() and OUTSIDE[:20] in made.read_bytes()
            folder.check(f"{words}: {name} is swapped", swapping.turns > 100 and statuses <= {0, 4}, (swapping.turns, statuses))
            folder.check(f"{words}: nothing outside is read", not escapes, escapes)
        link.unlink()


def image_to_make(damaged):
    """An image of a folder /d with many files and a folder, and, if it is to be damaged, a directory that can't be read."""
    files = [file(n, b"f%03d" % n, INSIDE[:20]) for n in range(100)]
    root = superblock(8_192, 16) + directory(1, b"d", (2, 3))
    items = sum(files, []) + directory(100, b"g", (4, 5)) + tail(SOFT, (4, 5))
    blocks = {2: log(1, items), 4: log(1, sum(files, []))}
    if damaged:
        root, blocks[4] = root + directory(2, b"z", (6, 7)), log(1, sum(files, []) + tail(SOFT, (6, 7)))
    return image(8_192, 16, {0: log(1, root + tail(SOFT, (2, 3))), **blocks})


def found_in(place):
    """All that stands in a folder, with the bytes of files."""
    return {path: path.read_bytes() if path.is_file() else None for path in sorted(place.rglob("*"))}


def swapped_while_made(folder):
    """What is extracted and salvaged is made in the folder alone."""
    outside, room = outside_of(folder), folder.image.parent
    before = found_in(outside)
    for command, damaged in ("extract", False), ("salvage", False), ("salvage", True):
        folder.be(image_to_make(damaged), 0)
        for name in "d", "d/g":
            statuses, turns, escapes = set(), 0, 0
            for count in until(SECONDS / 6):
                made, aside, link = (room / f"{word}{count}" for word in ("made", "aside", "link"))
                link.symlink_to(outside)
                with Swapping(made / name, aside, link) as swapping:
                    statuses.add(folder.run(f"{command} -b 8192 a.img {made.name}")[0])
                turns += swapping.turns
                if found_in(outside) != before:
                    escapes += 1
                    cleared(outside)
                    outside_of(folder)
                cleared(made, aside, link)
            what = f"{command}{' of a damaged image' if damaged else ''}: {name} is swapped"
            folder.check(what, turns > 10 and statuses <= {0, 3, 4}, (turns, statuses))
            folder.check(f"{what}: nothing outside is written", not escapes, escapes)


def gone_down(place, names, makes=False):
    """The number under which the folder at the end of a way is open, and what each folder on the way holds; it is made if that is asked."""
    here, found = os.open(place, os.O_RDONLY), []
    for name in names:
        found.append(os.listdir(here))
        if makes:
            os.mkdir(name, dir_fd=here)
        above, here = here, os.open(name, os.O_RDONLY | os.O_NOFOLLOW, dir_fd=here)
        os.close(above)
    return here, found


def is_way(folder, what, place, names, held):
    """Whether a folder holds exactly these folders, one in the other, and a file `f` in the last."""
    here, found = gone_down(place, names)
    last = os.listdir(here)
    with os.fdopen(os.open("f", os.O_RDONLY, dir_fd=here), "rb") as opened:
        folder.check(what, (found, last, opened.read()) == ([[name] for name in names], ["f"], held), last)
    os.close(here)


def held_by(held, size, path):
    """The contents of the file at a path of an image."""
    reader = Reader(held, size)
    return reader.contents(reader.files()[path])


def few_files():
    """Lets a process open few files."""
    resource.setrlimit(resource.RLIMIT_NOFILE, (100, 100))


def is_deep(folder, what, names, size, count):
    """Packs, syncs, extracts and salvages folders that are one in the other, and compares them."""
    room, held = folder.image.parent, contents(700)
    place, made, saved = (room / word for word in ("src", "made", "saved"))
    place.mkdir()
    here, _ = gone_down(place, names, makes=True)
    with os.fdopen(os.open("f", os.O_WRONLY | os.O_CREAT, dir_fd=here), "wb") as file_made:
        file_made.write(held)
    os.close(here)
    path = "".join(f"/{name}" for name in [*names, "f"]).encode()
    ended = folder.run(f"pack -b {size} --count {count} a.img src", preexec_fn=few_files)
    folder.check(f"{what}: pack", ended == (0, "", b"") and held_by(folder.old(), size, path) == held, ended)
    packed = folder.old()
    ended = folder.run(f"sync -b {size} a.img src", preexec_fn=few_files)
    folder.check(f"{what}: sync", ended == (0, "", b"") and folder.old() == packed, ended)
    for command, where in ("extract", made), ("salvage", saved):
        ended = folder.run(f"{command} -b {size} a.img {where.name}", preexec_fn=few_files)
        folder.check(f"{what}: {command}", ended == (0, "", b""), ended)
        is_way(folder, f"{what}: {command}: what is made", where, names, held)
    cleared(place, made, saved)


def long_paths(folder):
    """Paths of more than 8,000 bytes, of which the system takes 4,095 at once, and folders that are 600 deep."""
    is_deep(folder, "40 names of 200 letters", [chr(97 + n % 26) * 200 for n in range(40)], 512, 128)
    is_deep(folder, "600 names of 8 letters", ["somewhat"] * 600, 256, 2_048)


def deep_and_wide(folder):
    """Folders that are gone to time and again from others: two deep ones beside each other, with files at each level of them."""
    room = folder.image.parent
    place, made = room / "src", room / "made"
    for side in "ab":
        below = place
        for n in range(150):
            below = below / f"{side}{n % 10}"
            below.mkdir(parents=True)
            for name in "0", "z":
                (below / name).write_bytes(f"{side}{n}{name}".encode())
    ended = folder.run("pack -b 512 --count 1024 a.img src", preexec_fn=few_files)
    folder.check("deep and wide: pack", ended == (0, "", b""), ended)
    wanted = {path.relative_to(place): held for path, held in found_in(place).items()}
    for what, harm in ("whole", b""), ("damaged", b"\xff" * 512):
        damaged = Reader(folder.old(), 512)
        if harm:
            pair = dict(damaged.rows())[b"/b0"]
            folder.be(b"".join(harm if block in pair else damaged.block(block) for block in range(1_024)), 0)
        ended = folder.run("salvage -b 512 a.img made", preexec_fn=few_files)
        found = {path.relative_to(made): held for path, held in found_in(made).items()}
        is_right = ended[0] == 0 and found == wanted if not harm else ended[0] == 3 and found.items() > {
            path: held for path, held in wanted.items() if path.parts[0] == "a0"}.items()
        folder.check(f"deep and wide: {what}: salvage", is_right, (ended, len(found)))
        cleared(made)


if __name__ == "__main__":
    sys.exit(run_scenes([swapped_while_read, swapped_while_made, long_paths, deep_and_wide]))
