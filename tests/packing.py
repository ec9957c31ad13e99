#!/usr/bin/env python3
"""Packs real folders into images, and compares each image with its folder: by the listing that the folder makes, and by the
contents that a reader apart from the program finds in the image."""
import os
import pathlib
import random
import shutil
import socket
import sys
import tempfile

from support.folder import contents, fill, run_scenes
from support.littlefs import Reader
from support.refusing import Refusing

# The journal of 8 blocks of 512 bytes without changes.
FRESH = bytes.fromhex("6c66736a 02000000 00020000 08000000 00000000 00000000")


def source(folder):
    """The folder that is packed."""
    return folder.image.with_name("src")


def in_order(names):
    """Names in an image's order: bytes rise, and a name comes behind those that it begins."""
    return sorted(names, key=lambda name: [*os.fsencode(name), 256])


def paths_of(place):
    """The paths below a folder as an image has them, each with its place."""
    found, waiting = [], [("/", place)]
    while waiting:
        path, here = waiting.pop()
        found.append((path, here))
        names = in_order(os.listdir(here)) if here.is_dir() else []
        waiting += [(f"{path.rstrip('/')}/{name}", here / name) for name in reversed(names)]
    return found


def shown(path):
    """A path with its odd bytes in hexadecimal digits."""
    return "".join(chr(b) if 0x20 <= b <= 0x7E and b != 0x5C else f"\\x{b:02x}" for b in os.fsencode(path))


def listing_of(place):
    """The listing of the image of a folder."""
    rows = [(path, "-" if here.is_dir() else here.stat().st_size, here.is_dir()) for path, here in paths_of(place)]
    return "".join(f"{'d' if is_folder else 'f'} {size:>10} {shown(path)}\n" for path, size, is_folder in rows)


def files_in(image, size):
    """The files of an image by their paths, with their contents."""
    reader = Reader(image, size)
    return {path: reader.contents(entry) for path, entry in reader.files().items()}


def is_packed(folder, what, size, count):
    """Packs the folder, and compares the image, its listing and its check with the folder."""
    place = source(folder)
    folder.check(f"{what}: pack", folder.run(f"pack -b {size} --count {count} a.img src") == (0, "", b""))
    folder.check(f"{what}: length", len(folder.old()) == size * count)
    wanted = {os.fsencode(path): here.read_bytes() for path, here in paths_of(place) if here.is_file()}
    folder.check(f"{what}: contents", files_in(folder.old(), size) == wanted)
    reader = Reader(folder.old(), size)
    once = all(reader.block(second) == b"\xff" * size for _, second in reader.thread())
    folder.check(f"{what}: each pair is written once", once)
    ended = folder.run(f"ls -b {size} a.img")
    folder.check(f"{what}: ls", ended == (0, "", listing_of(place).encode()), ended[:2])
    paths = paths_of(place)
    folders = sum(here.is_dir() for _, here in paths)
    said = f"block {size}, count {count}, free {reader.free()}, directories {folders}, files {len(paths) - folders}, version 2.0\n"
    ended = folder.run(f"check -b {size} a.img")
    folder.check(f"{what}: check", ended == (0, "", said.encode()), ended)


def is_refused(folder, what, status, complaint, second, words="pack -b 512 --count 8 a.img src", **how):
    """Packs the folder, which is refused: the fault is told, on its second line what was meant, and no file changes."""
    before = folder.old(), folder.saved(), {*folder.image.parent.iterdir()}
    ended = folder.run(words, **how)
    wanted = f"{complaint}\n{second}\n" if second else f"{complaint}\n"
    folder.check(what, ended == (status, wanted, b""), ended)
    folder.check(f"{what}: files", (folder.old(), folder.saved(), {*folder.image.parent.iterdir()}) == before)


def worked_folder(folder):
    place = source(folder)
    (place / "d").mkdir(parents=True)
    (place / "d/f").write_bytes(contents(65))
    is_refused(folder, "too few blocks", 1, "lfsed: 43 NoSpace need 1 free 0", "lfsed: src: needs 5 blocks of 512 bytes in all", "pack -b 512 --count 4 a.img src")
    is_packed(folder, "a file in a folder", 512, 8)
    ended = folder.run("ls -b 512 a.img")
    folder.check("listing", ended[2] == b"d          - /\nd          - /d\nf         65 /d/f\n", ended)
    ended = folder.run("check -b 512 a.img")
    folder.check("free", ended[2] == b"block 512, count 8, free 3, directories 2, files 1, version 2.0\n", ended)
    folder.check("journal", folder.saved() == FRESH, folder.saved())
    first = folder.old()
    folder.check("mkdir", folder.run("mkdir -b 512 a.img /e") == (0, "", b""))
    folder.check("undo", folder.run("undo -b 512 a.img") == (0, "", b""))
    folder.check("undone", folder.old() == first)
    folder.check("packed again", folder.run("pack -b 512 --count 8 a.img src") == (0, "", b"") and folder.old() == first)
    folder.check("journal again", folder.saved() == FRESH, folder.saved())


def odd_folders(folder):
    place = source(folder)
    place.mkdir()
    is_packed(folder, "an empty folder", 512, 8)
    for name in "ab", "a", "b", "é", " ", "\\", "a\nb", "-", "x" * 255:
        (place / name).write_bytes(name.encode())
    is_packed(folder, "odd names", 1_024, 16)
    deep = place
    for _ in range(60):
        deep = deep / "d"
        deep.mkdir()
    (deep / "f").write_bytes(b"deep")
    is_packed(folder, "nested folders", 1_024, 200)
    folder.check("a link to the folder", not os.symlink("src", folder.image.with_name("link")))
    packed = folder.old()
    ended = folder.run("pack -b 1024 --count 200 a.img link")
    folder.check("a link to the folder: pack", ended == (0, "", b"") and folder.old() == packed, ended)


def many_files_in_one_folder(folder):
    """A part has at most a thousand entries."""
    place = source(folder)
    (place / "d").mkdir(parents=True)
    for number in range(2_001):
        (place / f"d/{number:04}").write_bytes(b"")
    is_packed(folder, "2,001 files", 65_536, 8)
    reader = Reader(folder.old(), 65_536)
    ((_, pair),) = [row for row in reader.rows() if row[0] == b"/d"]
    found = [len(part.entries) for part in reader.parts_of(pair)]
    folder.check("2,001 files: parts", found == [1_000, 1_000, 1], found)


def what_is_refused(folder):
    place = source(folder)
    is_refused(folder, "no folder", 4, "lfsed: 60 CannotRead", "lfsed: src: No such file or directory (os error 2)")
    place.write_bytes(b"a file")
    is_refused(folder, "a file", 4, "lfsed: 60 CannotRead", "lfsed: src: Not a directory (os error 20)")
    place.unlink()
    place.mkdir()
    folder.check("pack", folder.run("pack -b 512 --count 8 a.img src") == (0, "", b""))
    folder.check("mkdir", folder.run("mkdir -b 512 a.img /kept") == (0, "", b""))
    (place / "d").mkdir()
    odd = place / "d/odd"
    odd.symlink_to("missing")
    other = "lfsed: src/d/odd: neither a regular file nor a folder"
    is_refused(folder, "a link", 4, "lfsed: 62 HostEntry", other)
    odd.unlink()
    os.mkfifo(odd)
    is_refused(folder, "a pipe", 4, "lfsed: 62 HostEntry", other)
    odd.unlink()
    with socket.socket(socket.AF_UNIX) as bound:
        bound.bind(str(odd))
        is_refused(folder, "a socket", 4, "lfsed: 62 HostEntry", other)
    odd.unlink()
    name = os.fsencode(place / "d") + b"/\xff"
    pathlib.Path(os.fsdecode(name)).write_bytes(b"")
    is_refused(folder, "a name that isn't UTF-8", 4, "lfsed: 63 HostName", "lfsed: src/d: invalid filename")
    os.unlink(name)
    (place / "d/long").write_bytes(contents(4_000))
    is_refused(folder, "more than fits", 1, "lfsed: 43 NoSpace need 8 free 4", "lfsed: src: needs 12 blocks of 512 bytes in all")


def what_is_not_read(folder):
    """Each call by which a folder is read is refused in turn."""
    place = source(folder)
    (place / "d").mkdir(parents=True)
    (place / "d/f").write_bytes(b"contents")
    with tempfile.TemporaryDirectory() as library:
        refusing = Refusing(pathlib.Path(library))
        for call in "open", "statx", "read":
            for at in range(1, 100):
                before = folder.old(), folder.saved()
                status, complained, _ = folder.run("pack -b 512 --count 8 a.img src", env=refusing.env(at, call))
                if not refusing.was_hit():
                    break
                is_told = status == 4 and complained.startswith(("lfsed: 60 CannotRead\n", "lfsed: 61 CannotWrite\n"))
                is_kept = (folder.old(), folder.saved()) == before
                folder.check(f"{call} {at}", status == 0 or is_told and is_kept, (status, complained))


def scatter(place, chance, size):
    """Makes a folder of a few files and folders, as chance has it, that fit into parts of blocks of a size."""
    places = [place]
    place.mkdir()
    for number in range(chance.randrange(16)):
        here = chance.choice(places) / (chance.choice("abc") * chance.choice([1, 1, 20, 80]) + str(number))
        if chance.random() < 0.3:
            here.mkdir()
            places.append(here)
        else:
            here.write_bytes(contents(chance.choice([0, 3, size // 8, size // 8 + 1, size, 3 * size, chance.randrange(9 * size)])))


def least_images(folder):
    """The least number of blocks that holds a folder, of 200 of them: all of these are taken, and one fewer are too few."""
    place, chance = source(folder), random.Random(6)
    for number in range(200):
        size = chance.choice([256, 512, 1_024, 4_096])
        scatter(place, chance, size)
        what = f"folder {number}, blocks of {size}"
        folder.check(what, folder.run(f"pack -b {size} --least a.img src") == (0, "", b""))
        least = folder.old()
        wanted = {os.fsencode(path): here.read_bytes() for path, here in paths_of(place) if here.is_file()}
        folder.check(f"{what}: contents", files_in(least, size) == wanted)
        folder.check(f"{what}: none is free", Reader(least, size).free() == 0)
        count = len(least) // size
        folder.check(f"{what}: as many", folder.run(f"pack -b {size} --count {count} a.img src") == (0, "", b"") and folder.old() == least)
        if count > 2:
            status, complained, _ = folder.run(f"pack -b {size} --count {count - 1} a.img src")
            is_refused_so = status == 1 and complained.startswith("lfsed: 43 NoSpace need ")
            folder.check(f"{what}: one fewer", is_refused_so and folder.old() == least, (status, complained))
        shutil.rmtree(place)


def many_files(folder):
    """5,000 files of mixed sizes in 300 folders, packed twice."""
    fill(source(folder))
    is_packed(folder, "many files", 4_096, 16_384)
    first = folder.old()
    folder.check("packed twice", folder.run("pack --count 16384 a.img src") == (0, "", b"") and folder.old() == first)
    status, complained, _ = folder.run("pack --count 2048 a.img src")
    folder.check("more than fits", status == 1 and complained.startswith("lfsed: 43 NoSpace need ") and folder.old() == first)


if __name__ == "__main__":
    scenes = [worked_folder, odd_folders, many_files_in_one_folder, what_is_refused, what_is_not_read, least_images, many_files]
    sys.exit(run_scenes(scenes))
