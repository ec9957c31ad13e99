#!/usr/bin/env python3
"""`--inline-max`: how long a file may be that stands in its directory entry. A longer one gets blocks, by each command that puts files; a
file that isn't put stays as it stands. A real littlefs then changes every file in place with a cache of that length. `check` lists the
files that stand in their entries and are longer, in any image, as a reader apart from the program finds them."""
import json
import pathlib
import random
import subprocess
import sys
import tempfile

from support.counts import Counts
from support.folder import HOME, PROGRAM
from support.later import MOST_DATA, DeviceReader, LaterScattered
from support.littlefs import Reader
from support.logs import file, image, log, superblock
from support.real import Device, pattern, real_littlefs, sha256
from support.scattering import Scattered
from support.scripts import script, spelled
from support.texts import longer, said

BLOCK, COUNT = 4096, 64
LENGTHS = 0, 1, 127, 128, 129, 511, 512, 513, 1022, 1023
# A bound, and the length up to which files stand in their entries in blocks of 4096 bytes.
BOUNDS = [(None, 512), (0, 0), (1, 1), (128, 128), (511, 511), (512, 512), (513, 512), (4096, 512), (2147483647, 512)]
CACHES = 64, 128, 256
# Bounds that `check` is asked about, and those for files of another writer, which are of 0, 3 or 20 bytes where they stand in entries.
ASKED = sorted({*LENGTHS, *(length - 1 for length in LENGTHS[1:]), 2147483647})
ASKED_OF_OTHERS = 0, 2, 3, 19, 20
# Directories, and names in each of them: some aren't printed as themselves, and some begin with others.
PLACES = b"", b"/d", b"/d/ab", b"/d/a", b"/\xff"
NAMES = b"x", b"xy", b"two words", b"back\\slash", b"\n\xc3"


def words_of(bound):
    """The words that state a bound."""
    return [] if bound is None else ["--inline-max", str(bound)]


class Room:
    """A folder in which the program is run."""

    def __init__(self, counts, place):
        self.counts, self.place = counts, place
        (place / "fw").mkdir()
        for length in LENGTHS:
            (place / "fw" / f"of-{length}").write_bytes(pattern(length, length))

    def run(self, *words, given=b""):
        """Runs the program; answers its status, and what it prints and reports."""
        ended = subprocess.run([PROGRAM, *map(str, words)], cwd=self.place, input=given, capture_output=True, check=False)
        return ended.returncode, ended.stdout, ended.stderr.decode()

    def does(self, *words, given=b""):
        """Runs a command that is accepted; answers what it prints."""
        status, printed, told = self.run(*words, given=given)
        self.counts.check(" ".join(map(str, words)), (status, told) == (0, ""), (status, printed, told))
        return printed.decode()

    def with_blocks(self, block=BLOCK):
        """The paths of the files that have blocks of their own."""
        lines = self.does("--json", "blocks", "-b", block, "a.img").splitlines()
        return {row["path"] for row in map(json.loads, lines) if row.get("path", "").startswith("/of-")}

    def stands(self, what, most, block=BLOCK, lengths=LENGTHS):
        """Compares which files have blocks: those that are longer than this."""
        found, wanted = self.with_blocks(block), {f"/of-{length}" for length in lengths if length > most}
        self.counts.check(f"{what}: longer than {most}", found == wanted, sorted(found ^ wanted))
        read = {length: self.run("cat", "-b", block, "a.img", f"/of-{length}") for length in lengths}
        wrong = [length for length in lengths if read[length] != (0, pattern(length, length), "")]
        self.counts.check(f"{what}: contents", not wrong, wrong)

    def reader(self, block=BLOCK, kind=Reader):
        """What a reader apart from the program finds in the image."""
        return kind((self.place / "a.img").read_bytes(), block)

    def lists(self, what, reader, words=(), asked=ASKED, name="a.img"):
        """Compares what `check` says of the image, which stands in a file of this name, for each bound with what a reader finds."""
        check = ["check", "-b", reader.size, *words, name]
        status, printed, told = self.run(*check)
        self.counts.check(f"{what}: check", (status, printed) == (0, said(reader)), (status, printed, told))
        record = self.run(*check, "--json")[1]
        found = json.loads(record or b"{}").get("inline_longest")
        self.counts.check(f"{what}: the longest one", found == reader.longest(), (found, reader.longest()))
        for most in asked:
            lines = longer(reader, most)
            status = int(lines != b"")
            ended = self.run(*check, "--inline-max", most)
            self.counts.check(f"{what}: longer than {most}", ended == (status, printed + lines, told), (ended, lines))
            ended = self.run(*check, "--json", "--inline-max", most)
            self.counts.check(f"{what}: longer than {most}, as JSON", ended == (status, record, told), ended)


def puts(room):
    """Each command that puts files, with each bound."""
    script = "".join(f"put /of-{length} fw/of-{length}\n" for length in LENGTHS)
    (room.place / "script").write_text(script)
    for bound, most in BOUNDS:
        words = words_of(bound)
        room.does("pack", "-b", BLOCK, "--count", COUNT, *words, "a.img", "fw")
        room.stands(f"pack {words}", most)
        room.does("format", "-b", BLOCK, "--count", COUNT, "a.img")
        room.does("batch", "-b", BLOCK, *words, "a.img", "script")
        room.stands(f"batch {words}", most)
        room.does("format", "-b", BLOCK, "--count", COUNT, "a.img")
        room.does("sync", "-b", BLOCK, *words, "a.img", "fw")
        room.stands(f"sync {words}", most)
        for parents in [], ["-p"]:
            room.does("format", "-b", BLOCK, "--count", COUNT, "a.img")
            for length in LENGTHS:
                room.does("put", "-b", BLOCK, *parents, *words, "a.img", f"/of-{length}", given=pattern(length, length))
            room.stands(f"put {parents} {words}", most)


def repacks(room):
    """Another image, with files in their entries that get blocks, and the other way."""
    for first, _ in BOUNDS:
        for bound, most in BOUNDS:
            room.does("pack", "-b", BLOCK, "--count", COUNT, *words_of(first), "old.img", "fw")
            room.does("repack", "-b", BLOCK, *words_of(bound), "a.img", "old.img")
            room.stands(f"repack {first} {bound}", most)
    room.does("repack", "-b", 512, "--count", 64, "--inline-max", 128, "a.img", "old.img")
    room.stands("repack into blocks of 512 bytes", 64, 512)


def keeps(room):
    """What isn't put stays as it stands; a change is taken back byte for byte; a bound that bounds nothing changes nothing."""
    room.does("pack", "-b", BLOCK, "--count", COUNT, "a.img", "fw")
    plain = (room.place / "a.img").read_bytes()
    room.does("pack", "-b", BLOCK, "--count", COUNT, "--inline-max", 512, "a.img", "fw")
    room.counts.check("a bound of an eighth of a block", (room.place / "a.img").read_bytes() == plain)
    room.does("put", "-b", BLOCK, "--inline-max", 128, "a.img", "/of-129", given=pattern(5, 200))
    room.counts.check("put of a file in an entry", room.with_blocks() == {"/of-129", "/of-513", "/of-1022", "/of-1023"})
    room.does("undo", "-b", BLOCK, "a.img")
    room.counts.check("undo", (room.place / "a.img").read_bytes() == plain)
    room.does("mv", "-b", BLOCK, "a.img", "/of-512", "/moved")
    room.does("setattr", "-b", BLOCK, "a.img", "/moved", "74", "01")
    room.does("sync", "-b", BLOCK, "--inline-max", 0, "a.img", "fw")
    room.counts.check("sync puts what is missing", room.with_blocks() == {"/of-512", "/of-513", "/of-1022", "/of-1023"}, room.with_blocks())


def lists_packed(room):
    """What `check` lists of images of a folder, in blocks of several sizes."""
    for block in 512, BLOCK, 4 * BLOCK:
        for bound in None, 0, 128:
            room.does("pack", "-b", block, "--count", COUNT, *words_of(bound), "a.img", "fw")
            room.lists(f"packed {words_of(bound)} in blocks of {block}", room.reader(block))


def lists_in_order(room):
    """What it lists of directories in each other, also as a device reads them, and within a larger file."""
    paths = [place + b"/" + name for place in PLACES for name in NAMES]
    lines = [f"mkdir {spelled(place)}" for place in PLACES if place]
    lines += [f"put {spelled(path)} fw/of-{LENGTHS[at % len(LENGTHS)]}" for at, path in enumerate(paths)]
    room.does("format", "-b", BLOCK, "--count", COUNT, "a.img")
    room.does("batch", "-b", BLOCK, "a.img", given=script(lines))
    reader = room.reader()
    room.lists("directories", reader)
    room.lists("directories, as a device reads them", reader, ["--device"])
    (room.place / "flash.bin").write_bytes(pattern(1, 700) + reader.image + pattern(2, 900))
    room.lists("directories, within a larger file", reader, ["--offset", 700], name="flash.bin")
    ended = room.run("--json", "check", "-b", BLOCK, "--inline-max", 1, "a.img")
    room.counts.check("--json in front", ended == (1, room.run("--json", "check", "-b", BLOCK, "a.img")[1], ""), ended)


def lists_of_others(room):
    """What it lists of images that another writer put together, and of one that doesn't mount."""
    chance = random.Random(65)
    for number in range(20):
        for write, kind, words in (Scattered, Reader, []), (LaterScattered, DeviceReader, ["--device"]):
            size, count = chance.choice([(256, 40), (512, 24), (1_024, 16)])
            (room.place / "a.img").write_bytes(write(chance, size, count).image)
            room.lists(f"another writer {number} {words}", room.reader(size, kind), words, ASKED_OF_OTHERS)
    held = superblock(BLOCK, 8) + file(1, b"f", bytes(MOST_DATA))
    (room.place / "a.img").write_bytes(image(BLOCK, 8, {0: log(1, held)}))
    room.lists("more than an eighth of a block", room.reader())
    (room.place / "a.img").write_bytes(bytes(8 * BLOCK))
    status, printed, told = room.run("check", "-b", BLOCK, "--inline-max", 0, "a.img")
    room.counts.check("no image", (status, printed) == (3, b"") and told.startswith("lfsed: 3 NoValidCommit\n"), (status, printed, told))


def refuses(room):
    """Words that are no length, and commands that neither put files nor judge them."""
    for word in "x", "-1", "2147483648", "":
        for command, *words in ("put", "a.img", "/a"), ("check", "a.img"), ("check", "--json", "a.img"):
            status, printed, told = room.run(command, "-b", BLOCK, "--inline-max", word, *words)
            is_refused = status == 2 and printed == b"" and told.startswith("error: ")
            room.counts.check(f"{command} --inline-max {word!r}", is_refused, (status, told))
    for command in (
        "format a.img --count 16", "mkdir a.img /a", "rm a.img /a", "mv a.img /a /b", "grow a.img 70", "undo a.img", "ls a.img", "blocks a.img",
    ):
        status, printed, told = room.run(*command.split(" "), "--inline-max", "8")
        room.counts.check(f"{command} --inline-max", status == 2 and "--inline-max" in told, (status, told))


def devices_change(room):
    """A device changes each file in place, if no longer one than its cache stands in its entry."""
    for cache in CACHES:
        room.does("pack", "-b", BLOCK, "--count", COUNT, "--inline-max", cache, "a.img", "fw")
        for length in cache, cache + 1:
            room.does("put", "-b", BLOCK, "--inline-max", cache, "a.img", f"/of-{length}", given=pattern(length, length))
        with Device(room.place, read=cache // 4, prog=cache // 4) as device:
            device.opens("a.img", BLOCK)
            for length in sorted({*LENGTHS[1:], cache, cache + 1}):
                answered = device.tries("change", path=f"/of-{length}", at=length // 2, seed=9, size=1)
                held = pattern(length, length)
                held = held[:length // 2] + pattern(9, 1) + held[length // 2 + 1:]
                room.counts.check(f"cache {cache}: a file of {length} bytes is changed", answered == 0, answered)
                room.counts.check(f"cache {cache}: a file of {length} bytes is as changed", device.tree()[f"/of-{length}"][2] == sha256(held))


def devices_refuse(room):
    """The files that `check` lists for a cache are just those that a device with this cache refuses to change in place."""
    room.does("pack", "-b", BLOCK, "--count", COUNT, "a.img", "fw")
    for cache in CACHES:
        listed = room.run("check", "-b", BLOCK, "--inline-max", cache, "a.img")[1].decode().splitlines()[1:]
        refused = set()
        with Device(room.place, read=cache // 4, prog=cache // 4) as device:
            for length in LENGTHS[1:]:
                device.opens("a.img", BLOCK)
                if device.tries("change", path=f"/of-{length}", at=length // 2, seed=9, size=1):
                    refused.add(f"/of-{length}")
        room.counts.check(f"cache {cache}: what is refused", {*listed} == refused, (listed, refused))


def main():
    subprocess.run([HOME / "bin/lfsed", "--help"], stdout=subprocess.DEVNULL, check=True)
    counts = Counts()
    with tempfile.TemporaryDirectory() as place:
        room = Room(counts, pathlib.Path(place))
        puts(room)
        repacks(room)
        keeps(room)
        refuses(room)
        lists_packed(room)
        lists_in_order(room)
        lists_of_others(room)
        if real_littlefs():
            devices_change(room)
            devices_refuse(room)
    return counts.end()


if __name__ == "__main__":
    sys.exit(main())
