#!/usr/bin/env python3
"""Images that stand in a larger file, as in a dump of a flash: what `--offset` reads of them, and what `find` lists. Each image is cut
out by hand too, into a file of its own: what a command says and makes of that is what it says and makes with `--offset`. The images
come from a writer apart from the program, and a reader apart from it finds what they hold."""
import random
import re
import shutil
import sys
import time
from typing import NamedTuple

from devices import (
    COUNT, EARLY, EMPTY_PART, FILES, HAS_EARLY, LATE_ALONE, LONGER, OLDER, PLAIN, REFUSED, REPORTED, ROWS, SIZE, THREE, TWO, beside, cut, eight,
    former, joined, plain, raised, root, spelled,
)
from repacking import is_made, limits_of
from support.beginnings import found, live, logs_of, place_of
from support.folder import contents, run_scenes
from support.later import FIRST, LATER, DeviceReader, LaterScattered, appended, written
from support.littlefs import Reader
from support.logs import HARD, SOFT, chained, created, directory, file, image, log, superblock, tail
from support.scattering import Scattered, laid
from support.texts import compared, difference_of, ended_by, listed, said

FLASH = "flash.bin"
MIB = 1 << 20
MORE = "\n\nFor more information, try '--help'.\n"
# What is told of the one of two images that is refused, where nothing else is known.
OF_TWO = "lfsed: a.img: this image is refused\n"
UNREAD = "lfsed: a.img: blocks 0 and 1 (/): neither holds a whole commit\n"
NO_NUMBER = "it is no number of bytes: decimal, hexadecimal behind 0x, or decimal with k or M behind it"


class Flash(NamedTuple):
    """A file, the place in it at which an image begins, and the image as it is cut out by hand."""
    held: bytes
    at: int
    image: bytes


def damaged(held):
    """An image whose first commit has another checksum than its bytes."""
    return held[:40] + b"\0" + held[41:]


def noise(length):
    """Bytes as chance has them, always the same ones."""
    return random.Random(length).randbytes(length)


def erased(length):
    """Erased bytes."""
    return length * b"\xff"


def inside(held, before, behind):
    """A file with an image, and other bytes before it and behind it."""
    return Flash(before + held + behind, len(before), held)


def lines(size, options, name, block=None, new_size=0):
    """The command lines that read an image in a file of this name, with options."""
    words, new = f"-b {block or size}{options} {name}", f"repack -b {new_size or size}"
    asked = [f"check {words}", f"ls {words}", f"cat {words} /early", f"diff {words} b.img", f"extract {words} made"]
    shorter = [f"{new}{options} c.img {name}"] if block == "auto" else []
    return [*asked, *shorter, f"{new} --from-block {block or size}{options} c.img {name}"]


def files(folder):
    """What stands below the folder: the bytes of each file, and None of a folder."""
    return {path: path.read_bytes() if path.is_file() else None for path in folder.image.parent.rglob("*")}


def outcome(folder, line):
    """How a run ends, and what it makes, which is taken away again. The image's file is called a.img in it, whatever its name is."""
    before = files(folder)
    status, told, printed = folder.run(line)
    after = files(folder)
    folder.check(f"{line}: what is there stays", {path: after.get(path, "gone") for path in before} == before)
    shutil.rmtree(beside(folder, "made"), ignore_errors=True)
    for name in "c.img", "c.img.lfsj":
        beside(folder, name).unlink(missing_ok=True)
    return status, told.replace(FLASH, "a.img"), printed, {path: after[path] for path in after if path not in before}


def are_alike(folder, what, flash, size, options="", offset="", **how):
    """Each command says and makes of the image in the file what it does of the one that is cut out; answers that by the command."""
    beside(folder, FLASH).write_bytes(flash.held)
    folder.be(flash.image, 0)
    beside(folder, "b.img").write_bytes(plain(size)[0])
    ends, offset = {}, offset or f" --offset {flash.at}"
    for line, line_of_cut in zip(lines(size, options + offset, FLASH, **how), lines(size, options, "a.img", **how), strict=True):
        found, wanted = outcome(folder, line), outcome(folder, line_of_cut)
        folder.check(f"{what}: {line}", found == wanted, (found[:3], wanted[:3]))
        ends[line.split(" ")[0]] = found
    return ends


def is_read(folder, what, flash, reader, options="", told="", report="", **how):
    """What each command says and makes of the image is also what a reader apart from the program finds in it."""
    ends = are_alike(folder, what, flash, reader.size, options, **how)
    found, place = reader.tree(), beside(folder, "made")
    printed = {"check": said(reader), "ls": listed(found), "diff": compared(reader, Reader(plain(reader.size)[0], reader.size)).encode(),
               "extract": b"", "repack": b""}
    printed.update({"cat": found[b"/early"][0]} if b"/early" in found else {})
    for name, wanted in printed.items():
        status = int(name == "diff" and wanted != b"")
        more = (report or REPORTED.get((what, options), "")) if name in ("check", "ls") else ""
        folder.check(f"{what}{options}: {name}", ends[name][:3] == (status, told + more, wanted), ends[name][:3])
    made = {f"/{path.relative_to(place)}".replace("/.", "/").encode(): held for path, held in ends["extract"][3].items()}
    folder.check(f"{what}{options}: extracted", made == {path: held for path, (held, _) in found.items()}, made)
    new = ends["repack"][3].get(beside(folder, "c.img"))
    is_same = new is not None and Reader(new, how.get("new_size") or reader.size).tree() == found
    folder.check(f"{what}{options}: repacked", is_same)


def is_refused(folder, what, flash, first, second, options=""):
    """Each command refuses the image with this fault, and says of the file what is known; nothing is made."""
    for name, (status, told, printed, made) in are_alike(folder, what, flash, SIZE, options).items():
        is_right = (status, printed, made) == (3, b"", {}) and told == f"lfsed: {first}\n{second}"
        folder.check(f"{what}{options}: {name}: refused", is_right, (status, told, made))


def images_of_devices(folder):
    """The images of tests/devices.py, but for those that state more blocks or fewer than they have."""
    for number, (name, row) in enumerate(ROWS.items()):
        if name.endswith("a count that the image hasn't"):
            continue
        around = (noise, erased) if number % 2 else (erased, noise)
        flash = inside(row.image, around[0](7 * number), around[1](11 * number))
        for wanted, read, options in (row.wanted, DeviceReader, " --device"), (row.without, Reader, ""):
            if isinstance(wanted, dict):
                is_read(folder, name, flash, read(row.image, row.size), options, new_size=row.new_size)
            elif isinstance(wanted, str):
                are_alike(folder, name, flash, row.size, options)


# Places of an image, and how each may be said.
SPELLED = {
    1_114_112: ["1114112", "+1114112", "001114112", "0x110000", "0x00110000", "0x+110000", "1088k", "01088k", "+1088k"],
    1_048_576: ["1048576", "0x100000", "1024k", "1M", "01M"],
    2_748: ["2748", "0xabc", "0xABC"],
    0: ["0", "0x0", "0k", "0M", "00"],
}


def places_are_said(folder):
    held = eight({0: PLAIN})
    for at, texts in SPELLED.items():
        flash = inside(held, noise(at), noise(600))
        for text in texts:
            for offset in f" --offset {text}", f" --offset={text}":
                is_read(folder, text, flash, Reader(held, SIZE), offset=offset)
    for line in f"check --offset 2748 -b 512 {FLASH}", f"check {FLASH} -b 512 --offset 0xabc", f"check --device --offset 2748 --older -b512 {FLASH}":
        beside(folder, FLASH).write_bytes(noise(2_748) + held + noise(600))
        ended = folder.run(line)
        folder.check(line, ended == (0, "", said(Reader(held, SIZE))), ended)


def packed_images(folder):
    """What `pack` makes stands in a file, and comes out of it byte for byte."""
    place = beside(folder, "src")
    (place / "d/e").mkdir(parents=True)
    for name, length in ("early", 0), ("b", 70), ("d/f", 5_000), ("d/e/" + 60 * "h", 129):
        (place / name).write_bytes(contents(length))
    for size, count in (256, 120), (512, 64), (4_096, 12):
        ended = folder.run(f"pack -b {size} --count {count} a.img src")
        folder.check(f"pack {size}", ended == (0, "", b""), ended)
        packed = folder.old()
        for before, behind in (noise(3 * size + 1), noise(5_000)), (erased(4 * size), erased(9)), (b"", noise(size)):
            beside(folder, FLASH).write_bytes(before + packed + behind)
            for options in "", " --device":
                line = f"repack -b {size}{options} --offset {len(before)} a.img {FLASH}"
                folder.be(b"", 0)
                ended = folder.run(line)
                folder.check(line, ended == (0, "", b"") and folder.old() == packed, ended)
            is_read(folder, f"packed {size}", inside(packed, before, behind), Reader(packed, size))


GROWN, SHRUNK = raised(FIRST, LONGER), raised(FIRST, COUNT)
AS_LONG = root(EARLY, version=FIRST, count=LONGER)
AS_SHORT = root(EARLY, version=FIRST)


def sixteen(blocks):
    """An image of 16 blocks of 512 bytes."""
    return image(SIZE, LONGER, blocks)


# Images whose superblock states their length elsewhere than in its first struct in block 0, or states it there beside others that don't
# count; and how each is read.
LENGTHS = {
    "a second commit states more": (sixteen({0: spelled(AS_SHORT, GROWN)}), ""),
    "a second commit states less": (eight({0: spelled(AS_LONG, SHRUNK)}), ""),
    "a second struct in one commit": (sixteen({0: spelled(AS_SHORT + GROWN)}), ""),
    "a third commit states what the first does": (eight({0: spelled(AS_SHORT, GROWN, SHRUNK)}), ""),
    "a commit that isn't finished": (eight({0: cut(spelled(AS_SHORT, GROWN))}), ""),
    "the second block states more": (sixteen({0: log(1, AS_SHORT), 1: log(2, AS_LONG)}), ""),
    "the second block states less": (eight({0: log(1, AS_LONG), 1: log(2, AS_SHORT)}), ""),
    "the second block alone": (sixteen({1: log(7, AS_LONG)}), ""),
    "a second commit of the second block": (sixteen({0: log(0, AS_SHORT), 1: spelled(AS_SHORT, GROWN)}), ""),
    "the second block is older": (eight({0: log(5, AS_SHORT), 1: log(4, AS_LONG)}), ""),
    "the second block isn't finished": (eight({0: log(1, AS_SHORT), 1: cut(log(2, AS_LONG))}), ""),
    "a commit of a device": (sixteen({0: appended(PLAIN, raised(LATER, LONGER))}), " --device"),
    "the second block by a device": (sixteen({0: PLAIN, 1: written(2, SIZE, root(EARLY, count=LONGER))}), " --device"),
    "a commit of a device that isn't finished": (eight({0: cut(appended(PLAIN, raised(LATER, LONGER)))}), " --device"),
    "the last superblock states more": (joined(TWO, [former(count=COUNT), former(EARLY)]), " --device"),
    "the last superblock states less": (joined(TWO, [former(), former(EARLY, count=COUNT)], count=COUNT), " --device"),
    "the last of three": (joined(THREE, [former(count=9), former(count=10), former(EARLY)]), " --device"),
    "the last one of a device": (
        joined(TWO, [former(version=LATER, count=COUNT), former(EARLY, version=LATER)], is_later=True), " --device"),
    "a second commit of the last superblock": (
        joined(TWO, [former(count=9), []], {2: spelled(former(EARLY, count=COUNT), GROWN)}), " --device"),
    "a superblock behind a tail alone": (joined(TWO, [[], former(EARLY)]), " --device"),
}
BEFORE = [b"", noise(1), erased(777), noise(4_096), 9 * b"\0"]
BEHIND = [b"", noise(SIZE - 1), erased(20 * SIZE), noise(20 * SIZE + 3), eight({0: log(1, root(LATE_ALONE, version=FIRST))})]


def lengths_are_those_that_are_stated(folder):
    for name, (held, options) in LENGTHS.items():
        reader = (DeviceReader if options else Reader)(held, SIZE)
        folder.check(f"{name}: read apart", reader.tree() == HAS_EARLY, reader.tree())
        for number, behind in enumerate(BEHIND):
            is_read(folder, name, inside(held, BEFORE[(number + len(name)) % len(BEFORE)], behind), reader, options)


def without_device_other_superblocks_count(folder):
    """What a device added, and a superblock behind the first one, say nothing of the length then."""
    grown = sixteen({0: appended(PLAIN, raised(LATER, LONGER))})
    expanded = joined(TWO, [former(count=COUNT), former(EARLY)])
    for before, behind in (noise(5), noise(900)), (b"", erased(30 * SIZE)):
        flash = Flash(before + grown + behind, len(before), grown[:COUNT * SIZE])
        is_read(folder, "the state before", flash, Reader(flash.image, SIZE), " --older", OLDER)
        changed = "lfsed: a.img: a device has changed it with disk version 2.1, which is not read: "
        is_refused(folder, "a device's change", flash, "10 Version", f"{changed}--device reads it, --older goes on with the state before that\n")
        flash = Flash(before + expanded + behind, len(before), expanded[:COUNT * SIZE])
        is_refused(folder, "several superblocks", flash, "19 SuperblockElsewhere",
                   "lfsed: a.img: if a device has expanded its superblock, --device reads it\n")


def sizes_of_blocks_are_found(folder):
    """By `auto`, which looks at the file from the place on; of `repack` it stands where it isn't said."""
    for size in 256, 272, 512, 4_096, 65_536:
        front, made = superblock(size, 4) + EARLY, [*created(0), *superblock(size, 4), *created(1), *EARLY]
        name, words = superblock(size, 4)
        for held, options in (
            (image(size, 4, {0: log(1, front)}), ""), (image(size, 4, {0: bytes(4), 1: log(1, front)}), ""),
            (image(size, 4, {0: log(1, [name, *EARLY, words])}), ""), (image(size, 4, {0: log(2, front), 1: log(1, front[:2])}), ""),
            (image(size, 4, {0: log(1, made)}), ""), (image(size, 4, {0: written(1, size, root(EARLY, size=size, count=4))}), " --device"),
        ):
            reader = (DeviceReader if options else Reader)(held, size)
            for before, behind in (noise(size + 3), noise(700)), (plain(512)[0], erased(2 * size)):
                is_read(folder, f"auto {size}", inside(held, before, behind), reader, options, block="auto")
    for held, report in (joined(TWO, [[], former(EARLY)]), ""), (joined(THREE, [former(), [], former(EARLY)]), EMPTY_PART):
        reader = DeviceReader(held, SIZE)
        is_read(folder, "auto, expanded", inside(held, noise(99), noise(700)), reader, " --device", block="auto", report=report)
    for held in bytes(9_000), noise(9_000):
        flash = inside(held[:8_192], PLAIN, held[8_192:])
        ends = are_alike(folder, "no size", flash, 4_096, block="auto")
        folder.check("no size", {end[1].splitlines()[0] for end in ends.values()} == {"lfsed: 3 NoValidCommit"}, ends)


def geometry(count):
    """What is said of a number of blocks that no image has."""
    return f"lfsed: a.img: an image has 2 to 65536 blocks, this one {count} of 512 bytes\n"


def nothing_is_read(folder):
    held = eight({0: PLAIN})
    states = "lfsed: a.img: its first block states 8 blocks of 512 bytes\n"
    for before in b"", noise(99), held:
        for options in "", " --device":
            whole, at = before + held, len(before)
            for name, flash, first, second in (
                ("at the end", Flash(whole, len(whole), b""), "2 BadGeometry", None),
                ("past the end", Flash(whole, len(whole) + 1, b""), "2 BadGeometry", None),
                ("far past the end", Flash(whole, 1 << 40, b""), "2 BadGeometry", None),
                ("2^63 - 1", Flash(whole, (1 << 63) - 1, b""), "2 BadGeometry", None),
                ("2^63", Flash(whole, 1 << 63, b""), "2 BadGeometry", None),
                ("2^64 - 1", Flash(whole, (1 << 64) - 1, b""), "2 BadGeometry", None),
                ("less than a block", Flash(before + bytes(SIZE - 1), at, b""), "2 BadGeometry", None),
                ("a block", Flash(before + bytes(2 * SIZE - 1), at, bytes(SIZE)), "2 BadGeometry", geometry(1)),
                ("an image's first block", Flash(before + held[:2 * SIZE - 1], at, held[:SIZE]), "2 BadGeometry", geometry(1) + states),
                ("zeros", inside(bytes(3 * SIZE), before, bytes(9)), "3 NoValidCommit", UNREAD),
                ("noise", inside(noise(40 * SIZE), before, noise(9)), "3 NoValidCommit", UNREAD),
                ("erased", inside(erased(2 * SIZE), before, erased(SIZE - 1)), "3 NoValidCommit", UNREAD),
                ("a byte late", Flash(whole + held, at + 1, (whole + held)[at + 1:][:15 * SIZE]), "3 NoValidCommit", UNREAD),
                ("no checksum", Flash(before + damaged(held) + noise(700), at, damaged(held) + noise(700)[:SIZE]), "3 NoValidCommit",
                 states),
            ):
                ends = are_alike(folder, name, flash, SIZE, options)
                for command, (status, told, printed, made) in ends.items():
                    first_line, _, more = told.replace(OF_TWO, "").partition("\n")
                    is_right = (status, first_line, printed, made) == (3, f"lfsed: {first}", b"", {}) and second in (None, more)
                    folder.check(f"{name}{options}: {command}", is_right, (status, told))


def lengths_that_the_file_hasnt(folder):
    """A superblock states more blocks than there are: then all whole blocks up to the file's end are looked at."""
    for options, states in ("", FIRST), (" --device", LATER):
        spell = log if states == FIRST else lambda revision, items: written(revision, SIZE, items)
        for count in 9, LONGER, 65_536, 65_537:
            held = eight({0: spell(1, root(EARLY, version=states, count=count))})
            for before, behind in (b"", b""), (noise(3_000), noise(SIZE - 1)):
                flash = inside(held, before, behind)
                states_count = f"lfsed: a.img: its superblock states {count} blocks of 512 bytes\n"
                is_refused(folder, f"{count} blocks", flash, "11 Geometry", states_count, options)
        held = eight({0: spell(1, root(EARLY, version=states))})
        for size in 256, 1_024:
            flash = inside(held, noise(40), noise(4_096))
            ends = are_alike(folder, "another size", flash, SIZE, options, block=size)
            told = {end[:2] for name, end in ends.items()}
            folder.check("another size", told == {(3, "lfsed: 11 Geometry\nlfsed: a.img: its superblock states 8 blocks of 512 bytes\n")}, told)
    flash = inside(eight({0: PLAIN}), noise(40), noise(40))
    ends = are_alike(folder, "no multiple of 16", flash, SIZE, block=260)
    folder.check("no multiple of 16", all(end[1].startswith("lfsed: 2 BadGeometry\n") for end in ends.values()), ends)


def images_are_compared(folder):
    """The second image of `diff` is a file of its own."""
    old, new = eight({0: PLAIN}), eight({0: log(1, root(LATE_ALONE, version=FIRST))})
    folder.be(new, 0)
    beside(folder, FLASH).write_bytes(noise(100) + old + noise(50))
    both = Reader(old, SIZE).tree(), Reader(new, SIZE).tree()
    for line, wanted in (
        (f"diff -b 512 --offset 100 {FLASH} a.img", ended_by(difference_of(*both))),
        (f"diff -b auto --device --offset 100 {FLASH} a.img", ended_by(difference_of(*both))),
        ("diff -b 512 --offset 0 a.img a.img", (0, "", b"")),
        ("diff -b 512 --offset 4096 a.img a.img", (3, "lfsed: 2 BadGeometry\n", b"")),
        (f"diff -b 512 --offset 100 {FLASH} {FLASH}", (3, f"lfsed: 1 ImageLength\nlfsed: {FLASH}: ", b"")),
        (f"diff -b 512 --offset 0 a.img {FLASH}", (3, f"lfsed: 1 ImageLength\nlfsed: {FLASH}: ", b"")),
    ):
        status, told, printed = folder.run(line)
        is_right = (status, printed) == (wanted[0], wanted[2]) and (told.startswith(wanted[1]) if wanted[0] else told == "")
        folder.check(line, is_right, (status, told, printed))


def an_image_in_the_files_place(folder):
    """The new image may take the place of the file that it is made of."""
    for held, options, read in (eight({0: PLAIN}), "", Reader), (joined(TWO, [former(), former(FILES)]), " --device", DeviceReader):
        folder.be(noise(1_234) + held + noise(567), 0)
        ended = folder.run(f"repack -b 512{options} --offset 1234 a.img a.img")
        folder.check("in the file's place", ended == (0, "", b""), ended)
        is_made(folder, "in the file's place", read(held, SIZE), SIZE, len(held) // SIZE, limits_of(read(held, SIZE)))


def sparse(folder, length, at, front):
    """A file of a length that is a hole but for some bytes at a place; answers what tells whether it was changed."""
    with open(beside(folder, FLASH), "wb") as made:
        made.truncate(length)
        made.seek(at)
        made.write(front)
    found = beside(folder, FLASH).stat()
    return found.st_size, found.st_mtime_ns, found.st_ino


def files_larger_than_an_image(folder):
    """Holes, of which a front no longer than an image is looked at. Blocks of an image that are free may have any bytes."""
    empty = "block {}, count {}, free {}, directories 1, files 0, version {}\n"
    for size, count, length, at in (
        (512, 8, 200 * MIB, 100 * MIB + 12_345), (512, 8, 5 << 30, (4 << 30) + 1), (4_096, 16_384, 65 * MIB, MIB),
        (65_536, 1_024, 65 * MIB, MIB - 3), (65_536, 1_024, 64 * MIB, 0), (256, 65_536, 80 * MIB, 7), (1_024, 65_536, 64 * MIB + 1, 1),
    ):
        spelled_front = log(1, superblock(size, count))
        later_front = written(1, size, root(size=size, count=count))
        for front, options, version in (spelled_front, "", "2.0"), (spelled_front, " --device", "2.0"), (later_front, " --device", "2.1"):
            before = sparse(folder, length, at, front)
            line = f"check -b {size}{options} --offset {at} {FLASH}"
            ended = folder.run(line)
            folder.check(line, ended == (0, "", empty.format(size, count, count - 2, version).encode()), ended)
            found = beside(folder, FLASH).stat()
            folder.check(f"{line}: the file", (found.st_size, found.st_mtime_ns, found.st_ino) == before)
    ended = folder.run(f"check -b 1024 {FLASH}")
    folder.check("without a place", ended[0] == 3 and ended[1].startswith("lfsed: 1 ImageLength\n"), ended)


def places_in_large_files_at_which_nothing_is(folder):
    for size, count in (65_536, 1_025), (65_536, 2_000), (4_096, 16_385), (256, 65_537):
        sparse(folder, 200 * MIB, MIB + 5, log(1, superblock(size, count)))
        for options in "", " --device":
            line = f"check -b {size}{options} --offset {MIB + 5} {FLASH}"
            ended = folder.run(line)
            told = f"lfsed: 11 Geometry\nlfsed: {FLASH}: its superblock states {count} blocks of {size} bytes\n"
            folder.check(f"{count} blocks: {line}", ended == (3, told, b""), ended)
            line = f"check -b {size}{options} --offset {MIB + 6} {FLASH}"
            ended = folder.run(line)
            folder.check(f"a hole: {line}", ended == (3, f"lfsed: 3 NoValidCommit\n{UNREAD.replace('a.img', FLASH)}", b""), ended)


# Texts that are no numbers of bytes.
NO_NUMBERS = ["x", "", "0x", "1G", "4K", "k", "M", "0x10k", "0X10", "-1", "-0", "1.5k", "1kk", "0x-1", "0xg", "12a", "1e3", "auto",
              "18446744073709551616", "0x10000000000000000", "17592186044416M", "18014398509481984k"]
# Commands that take no `--offset`.
NOT_TAKING = [
    "put {} -b 512 a.img /more", "mkdir {} -b 512 a.img /made", "mv {} -b 512 a.img /early /moved", "rm {} -b 512 a.img /early",
    "setattr {} -b 512 a.img /early 74 01", "rmattr {} -b 512 a.img /early 74", "grow {} -b 512 a.img 9", "undo {} -b 512 a.img",
    "redo {} -b 512 a.img", "forget {} -b 512 a.img", "batch {} -b 512 a.img", "log {} -b 512 a.img", "format {} -b 512 --count 8 a.img",
    "pack {} -b 512 --count 8 a.img made", "adopt {} -b 512 a.img", "explain {} 3", "find {} a.img",
]


def words_that_are_refused(folder):
    folder.be(eight({0: PLAIN}), 0)
    before = files(folder)
    for text in NO_NUMBERS:
        for line in lines(SIZE, f" --offset={text}", "a.img"):
            ended = folder.run(line)
            told = f"error: invalid value '{text}' for '--offset <BYTES>': {NO_NUMBER}{MORE}"
            folder.check(line, ended == (2, told, b""), ended)
    for text in NO_NUMBERS[2:9]:
        folder.begins(f"check -b 512 --offset {text} a.img", f"error: invalid value '{text}' for '--offset <BYTES>': {NO_NUMBER}{MORE}")
    folder.begins("check -b 512 --offset -1 a.img", "error: ")
    folder.begins("check -b 512 a.img --offset", "error: a value is required for '--offset <BYTES>' but none was supplied\n")
    folder.begins("check --offset 1 --offset 2 a.img", "error: the argument '--offset <BYTES>' cannot be used multiple times\n")
    for words in NOT_TAKING:
        for offset in "--offset 4096", "--offset=0":
            folder.begins(words.format(offset), "error: unexpected argument '--offset' found\n")
    for words in "find --block 512 a.img", "find --older a.img":
        folder.begins(words, f"error: unexpected argument '{words.split(' ')[1]}' found\n")
    folder.begins("find", "error: the following required arguments were not provided:\n  <FLASH>\n")
    folder.begins("find a.img b.img", "error: unexpected argument 'b.img' found\n")
    folder.check("nothing is made", files(folder) == before)


def files_that_are_not_read(folder):
    beside(folder, "made").mkdir()
    for line in [*lines(SIZE, " --offset 512", "a.img")[:4], "repack -b 512 --offset 512 c.img a.img", "find a.img"]:
        ended = folder.run(line)
        folder.check(line, ended == (4, "lfsed: 60 CannotRead\nlfsed: a.img: No such file or directory (os error 2)\n", b""), ended)
    for line in "check -b 512 --offset 512 made", "repack -b 512 --device --offset 512 c.img made", "find made":
        ended = folder.run(line)
        folder.check(line, (ended[0], ended[2]) == (4, b"") and ended[1].startswith("lfsed: 60 CannotRead\nlfsed: made: "), ended)


def is_reported(told):
    """Whether no more is told than of damaged blocks, of which some stand beside live ones."""
    return all(row.endswith("; an older state is read") for row in told.splitlines())


def random_trees(folder):
    """50 trees in each version, at places as chance has them, which new images are made of."""
    chance = random.Random(58)
    for number in range(50):
        for write, read, options in (Scattered, Reader, ""), (LaterScattered, DeviceReader, " --device"):
            size, count = chance.choice([(256, 40), (256, 90), (512, 24), (1_024, 16)])
            reader = read(write(chance, size, count).image, size)
            before, behind = (chance.choice([noise, erased])(chance.choice([0, chance.randrange(9_000)])) for _ in range(2))
            beside(folder, FLASH).write_bytes(before + reader.image + behind)
            new_size = chance.choice([256, 512, 1_024, 4_096])
            new_count = chance.choice([None, 2 * count * max(1, size // new_size)])
            words = f"--count {new_count}" if new_count else "--least"
            line = f"repack -b {new_size} {words}{options} --from-block {size} --offset {len(before):#x} a.img {FLASH}"
            ended = folder.run(line)
            folder.check(f"tree {number}: {line}", ended == (0, "", b""), ended)
            if ended[0] == 0:
                is_made(folder, f"tree {number}", reader, new_size, new_count or len(folder.old()) // new_size, limits_of(reader))
            folder.check(f"tree {number}: the file stays", beside(folder, FLASH).read_bytes() == before + reader.image + behind)
            ended = folder.run(f"ls -b {size}{options} --offset {len(before)} {FLASH}")
            is_right = (ended[0], ended[2]) == (0, listed(reader.tree())) and is_reported(ended[1])
            folder.check(f"tree {number}: ls", is_right, ended)


def begins(held, size=SIZE):
    """Whether an image begins with the bytes, in whose block 0 a commit stands."""
    return place_of(held, 0, size) is not None and 0 in logs_of(held) and live(held, 0, size, (0, 0)) is not None


def find_line(at, size, count, verdict="mounts", version="2.0"):
    """The line of an image that is found."""
    return f"{at:#x}  version {version}  block {size}  count {count}  {size * count} bytes  {verdict}\n"


def finds(folder, what, held, wanted):
    """Compares what is found in a file with these lines; the file stays, and nothing is made."""
    beside(folder, FLASH).write_bytes(held)
    before = files(folder)
    ended = folder.run(f"find {FLASH}")
    folder.check(f"find: {what}", ended == (0, "", "".join(wanted).encode()), (ended, wanted))
    folder.check(f"find: {what}: files", files(folder) == before)


def each_says_what_check_does(folder, what):
    """Each line of what is found in the file says what `check` does there, as a device reads it; answers places and verdicts."""
    found = folder.run(f"find {FLASH}")
    folder.check(f"find: {what}: --device changes nothing", folder.run(f"find --device {FLASH}") == found)
    lines_found = found[2].decode().splitlines()
    places = []
    for line in lines_found:
        words = re.fullmatch(r"(?P<place>0x[0-9a-f]+)  version (?P<version>\d+\.\d+)  block (?P<block>\d+)  count (?P<count>\d+)  "
                             r"(?P<bytes>\d+) bytes  (?P<verdict>mounts|\d+ \w+)", line)
        is_line = words is not None and int(words["block"]) * int(words["count"]) == int(words["bytes"])
        folder.check(f"find: {what}: {line}", is_line)
        if is_line:
            ended = folder.run(f"check --device --offset {words['place']} --block {words['block']} {FLASH}")
            is_same = ended[0] == 3 and ended[1].startswith(f"lfsed: {words['verdict']}\n")
            if words["verdict"] == "mounts":
                is_same = ended[0] == 0 and ended[2].decode().endswith(f", version {words['version']}\n")
            folder.check(f"find: {what}: {line}: check", is_same, ended)
            places.append((int(words["place"], 16), words["verdict"]))
    folder.check(f"find: {what}: places rise", places == sorted(places), places)
    return places


# Images of several block sizes and versions, and what is said of each.
SEVERAL = [
    (image(256, 9, {0: log(1, superblock(256, 9) + EARLY)}), 256, 9, "2.0"),
    (eight({0: written(1, SIZE, root(EARLY)), 1: written(2, SIZE, root(LATE_ALONE))}), 512, 8, "2.1"),
    (image(272, 4, {0: log(1, [*created(0), *superblock(272, 4)])}), 272, 4, "2.0"),
    (joined(TWO, [former(version=LATER), former(FILES, version=LATER)], is_later=True), 512, 16, "2.1"),
    (joined(THREE, [former(), former(), former(FILES)]), 512, 16, "2.0"),
    (image(4_096, 5, {0: log(1, superblock(4_096, 5) + chained(1, b"c", 4, 9_000)), **laid(4_096, [2, 3, 4], contents(9_000))}), 4_096, 5, "2.0"),
    (image(65_536, 2, {0: log(1, superblock(65_536, 2))}), 65_536, 2, "2.0"),
    (image(512, 2, {0: log(1, superblock(512, 2)), 1: log(2, superblock(512, 2))}), 512, 2, "2.0"),
]


def several_images_are_found(folder):
    chance = random.Random(59)
    for _ in range(6):
        held, wanted = b"", []
        for each, size, count, version in chance.sample(SEVERAL, len(SEVERAL)):
            held += chance.choice([noise, erased])(chance.choice([0, 1, 511, 512, 3_001]))
            wanted.append(find_line(len(held), size, count, version=version))
            held += each
        for behind in b"", noise(100), bytes(7_000):
            finds(folder, "several", held + behind, wanted)
        each_says_what_check_does(folder, "several")
    for each, size, count, version in SEVERAL:
        finds(folder, f"one alone, of {size}", each, [find_line(0, size, count, version=version)])


# An image of two blocks, and one in whose file's blocks it stands, at the front of block 7.
SMALL = image(SIZE, 2, {0: log(1, superblock(SIZE, 2))})
OUTER = eight({0: log(1, superblock(SIZE, COUNT) + chained(1, b"f", 5, len(SMALL))), **laid(SIZE, [7, 2, 5], SMALL)})


# The same, where the file has another head than its first block.
UNMOUNTED = eight({0: log(1, superblock(SIZE, COUNT) + chained(1, b"f", 8, len(SMALL))), **laid(SIZE, [7, 2, 5], SMALL)})


def images_within_others(folder):
    """What stands in an image that mounts is passed over, and what stands in one that doesn't isn't."""
    for before in b"", noise(333):
        at = len(before)
        small, behind = find_line(at + 7 * SIZE, SIZE, 2), at + COUNT * SIZE
        finds(folder, "within another", before + OUTER + noise(2 * SIZE), [find_line(at, SIZE, COUNT)])
        finds(folder, "within one without a commit", before + damaged(OUTER) + erased(2 * SIZE), [small])
        finds(folder, "within one that doesn't mount", before + UNMOUNTED + erased(2 * SIZE), [find_line(at, SIZE, COUNT, "8 BadSkipList"), small])
        finds(folder, "behind another", before + OUTER + SMALL + OUTER, [
            find_line(at, SIZE, COUNT), find_line(behind, SIZE, 2), find_line(behind + 2 * SIZE, SIZE, COUNT)])
        finds(folder, "behind one without a commit", before + damaged(SMALL) + OUTER, [find_line(at + 2 * SIZE, SIZE, COUNT)])
        finds(folder, "behind one that doesn't mount", before + UNMOUNTED + erased(SIZE) + OUTER, [
            find_line(at, SIZE, COUNT, "8 BadSkipList"), find_line(at + 7 * SIZE, SIZE, 2), find_line(behind + SIZE, SIZE, COUNT)])


def a_superblock_in_each_block_of_a_pair(folder):
    """The second one is passed over with an image that mounts. Where it stands alone, the image begins a block before it: its directories
    say so, and else the revision of what stands there."""
    both = eight({0: log(1, AS_SHORT), 1: log(2, AS_SHORT)})
    with_directory = eight({1: log(2, superblock(SIZE, COUNT) + directory(1, b"d", (2, 3)) + tail(SOFT, (2, 3))), 2: log(1, [])})
    for before in b"", noise(511), erased(9), noise(3 * SIZE):
        at = len(before)
        finds(folder, "both", before + both + erased(SIZE), [find_line(at, SIZE, COUNT)])
        for behind in b"", erased(SIZE - 1), erased(SIZE):
            finds(folder, "neither", before + damaged(both[:SIZE]) + damaged(both[SIZE:]) + behind, [])
            finds(folder, "the first one", before + both[:SIZE] + damaged(both[SIZE:]) + behind, [find_line(at, SIZE, COUNT)])
            finds(folder, "the second one", before + damaged(both[:SIZE]) + both[SIZE:] + behind, [find_line(at, SIZE, COUNT)])
            finds(folder, "behind an erased one", before + with_directory + behind, [find_line(at, SIZE, COUNT)])


def images_that_are_refused(folder):
    """Each with its fault, as a device reads it. Where no commits lead to a superblock nothing is listed."""
    held, wanted = b"", []
    for name, row in REFUSED.items():
        held += noise(len(name))
        wanted += [find_line(len(held), SIZE, COUNT, row.wanted, "2.1")] if begins(row.image) else []
        held += row.image
    others = [
        (eight({0: log(1, root(version=0x0002_0002))}), "10 Version", "2.2"), (eight({0: log(1, root(version=0x0003_0000))}), "10 Version", "3.0"),
        (eight({0: log(1, superblock(SIZE, COUNT, 0))}), "12 Limits", "2.0"),
        (eight({0: log(1, superblock(SIZE, COUNT, 3) + EARLY)}), "20 BadSize", "2.0"),
        (eight({0: log(1, superblock(SIZE, COUNT) + chained(1, b"c", 8, 100))}), "8 BadSkipList", "2.0"),
        (eight({0: log(1, superblock(SIZE, COUNT) + file(1, b"f")[:1])}), "6 IncompleteEntry", "2.0"),
    ]
    for each, verdict, version in others:
        wanted.append(find_line(len(held), SIZE, COUNT, verdict, version))
        held += each + erased(5)
    held += damaged(eight({0: written(1, SIZE, root(EARLY))})) + erased(5)
    finds(folder, "refused ones", held, wanted)
    places = each_says_what_check_does(folder, "refused ones")
    folder.check("find: refused ones: as many", len(places) == len(wanted), places)


def geometries_that_dont_fit(folder):
    held = eight({0: PLAIN})
    for count in 9, 10, 65_536, 65_537, 0xFFFF_FFFF:
        for before, behind in (b"", b""), (noise(40), noise(SIZE - 1)):
            finds(folder, f"{count} blocks", before + eight({0: log(1, superblock(SIZE, count))}) + behind, [])
    for size, count in (0xFFFF_FFFF, 2), (0x8000_0000, 2), (65_536, 65_536), (131_072, 2), (4_096, 2):
        finds(folder, f"{count} blocks of {size}", noise(9) + eight({0: log(1, superblock(size, count))}), [])
    for before in b"", noise(40):
        finds(folder, "a byte less", before + held[:-1], [])
        finds(folder, "all of it", before + held, [find_line(len(before), SIZE, COUNT)])
        finds(folder, "one in front of another that fits", before + held[:2 * SIZE] + SMALL, [find_line(len(before) + 2 * SIZE, SIZE, 2)])
    other = held.replace(b"littlefs", b"littlefx")
    finds(folder, "another name", other + noise(40), [])
    finds(folder, "another name in front", other + held, [find_line(len(other), SIZE, COUNT)])


def files_without_an_image(folder):
    for name, held in {
        "no bytes": b"", "a byte": b"\0", "a name": b"littlefs", "a front without words": log(1, superblock(SIZE, 2))[:31],
        "noise": noise(70_000), "erased": erased(70_000), "names": 9_000 * b"littlefs",
    }.items():
        finds(folder, name, held, [])
    beside(folder, FLASH).write_bytes(noise(1_000))
    (beside(folder, "link")).symlink_to(FLASH)
    ended = folder.run("find link")
    folder.check("find: a link", ended == (0, "", b""), ended)


def lengths_that_images_go_on_to(folder):
    """What stands behind an image's first struct may state another length: the last one counts, and the search goes on where it ends."""
    for name, held in [(name, held) for name, (held, _) in LENGTHS.items() if begins(held)]:
        for before in b"", noise(700):
            beside(folder, FLASH).write_bytes(before + held + OUTER + noise(9 * SIZE))
            places = each_says_what_check_does(folder, name)
            folder.check(f"find: {name}", places == [(len(before), "mounts"), (len(before + held), "mounts")], places)


def images_of_devices_are_found(folder):
    """The images of tests/devices.py: what is found of each, and behind it, is what `check` says there."""
    for number, (name, row) in enumerate(ROWS.items()):
        before = (noise if number % 2 else erased)(13 * number)
        beside(folder, FLASH).write_bytes(before + row.image + noise(number))
        places = each_says_what_check_does(folder, name)
        if isinstance(row.wanted, dict) and begins(row.image, row.size):
            folder.check(f"find: {name}: mounts", places == [(len(before), "mounts")], places)


def images_at_offsets(folder):
    """Images as devices leave them, as chance has them, in dumps: `find` lists each at its first block and nothing else, and `auto` finds the
    size of its blocks. Where block 0 was erased, nothing may say that the image begins there."""
    chance = random.Random(60)
    for number in range(80):
        size, count = chance.choice([(256, 40), (256, 90), (512, 24), (1_024, 16), (4_096, 9)])
        held = LaterScattered(chance, size, count).image
        before, behind = (chance.choice([noise, erased, bytes])(chance.choice([0, chance.randrange(9_000)])) for _ in range(2))
        beside(folder, FLASH).write_bytes(before + held + behind)
        ended = folder.run(f"check -b auto --device --offset {len(before)} {FLASH}")
        is_right = (ended[0], ended[2]) == (0, said(DeviceReader(held, size))) and is_reported(ended[1])
        folder.check(f"at an offset {number}: auto", is_right, ended)
        if begins(held, size):
            wanted = [(place.at, "mounts") for place, _ in found(before + held + behind, lambda place: place.at == len(before))]
            places = each_says_what_check_does(folder, f"at an offset {number}")
            folder.check(f"at an offset {number}: find", places == wanted == [(len(before), "mounts")], (places, wanted))


# What a device may write in front of a first pair, again and again: names, logs that state nothing, logs that state an image, and images
# that don't mount.
HOSTILE = {
    "names": 9_000 * log(1, superblock(256, 4_000))[:16],
    "tails": 9_000 * log(1, tail(HARD, (1, 2))),
    "superblocks": 9_000 * log(1, superblock(256, 4_000) + tail(SOFT, (2, 3))),
    "superblocks of many sizes": b"".join(log(1, superblock(16 * size, 2) + tail(SOFT, (0, 1))) for size in range(16, 4_097)),
}


def files_made_to_slow_it_down(folder):
    for name, held in HOSTILE.items():
        beside(folder, FLASH).write_bytes(held)
        began = time.monotonic()
        ended = folder.run(f"find {FLASH}")
        folder.check(f"find: {name}: status", ended[:2] == (0, ""), ended[:2])
        folder.check(f"find: {name}: time", time.monotonic() - began < 20, time.monotonic() - began)


def images_in_large_files(folder):
    small = log(1, superblock(512, 8) + EARLY), log(1, superblock(256, 3))
    sparse(folder, 80 * MIB, 3, small[0])
    with open(beside(folder, FLASH), "r+b") as made:
        made.seek(66 * MIB + 1)
        made.write(small[1])
        made.seek(80 * MIB - 4_096)
        made.write(small[0])
    before = beside(folder, FLASH).stat()
    ended = folder.run(f"find {FLASH}")
    wanted = find_line(3, 512, 8) + find_line(66 * MIB + 1, 256, 3) + find_line(80 * MIB - 4_096, 512, 8)
    folder.check("find: a large file", ended == (0, "", wanted.encode()), ended)
    after = beside(folder, FLASH).stat()
    folder.check("find: a large file stays", (before.st_mtime_ns, before.st_size) == (after.st_mtime_ns, after.st_size))
    sparse(folder, 66 * MIB, MIB, log(1, superblock(65_536, 1_024)))
    ended = folder.run(f"find {FLASH}")
    folder.check("find: a largest image", ended == (0, "", find_line(MIB, 65_536, 1_024).encode()), ended)


if __name__ == "__main__":
    sys.exit(run_scenes([
        images_of_devices, places_are_said, packed_images, lengths_are_those_that_are_stated, without_device_other_superblocks_count,
        sizes_of_blocks_are_found, nothing_is_read, lengths_that_the_file_hasnt, images_are_compared, an_image_in_the_files_place,
        files_larger_than_an_image, places_in_large_files_at_which_nothing_is, words_that_are_refused, files_that_are_not_read, random_trees,
        several_images_are_found, images_within_others, a_superblock_in_each_block_of_a_pair, images_that_are_refused, geometries_that_dont_fit,
        files_without_an_image, lengths_that_images_go_on_to, images_of_devices_are_found, images_at_offsets, files_made_to_slow_it_down,
        images_in_large_files,
    ]))
