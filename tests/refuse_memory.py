#!/usr/bin/env python3
"""Refuses each request for memory of some runs of lfsed in turn. Each run has to end as it does with ample memory, or with
`44 Memory` and the image and its journal as they were; what went out of it is a beginning of what goes out with ample memory."""
import concurrent.futures
import contextlib
import io
import lzma
import os
import pathlib
import shutil
import subprocess
import sys
import tempfile

from support.journal import journal
from support.later import FIRST, LATER, appended, expanded, stated, written
from support.littlefs import ROOT
from support.logs import SOFT, attribute, chained, directory, file, image, log, superblock, tail
from support.scattering import laid
from support.refusing import Refusing

HOME = pathlib.Path(__file__).resolve().parent.parent
PROGRAM = HOME / "crates/lfsed/out/lfsed"
# No file, and no journal.
NOTHING = None, None
# What is told of another image of which there is no memory to find out more.
REFUSED = b"lfsed: b.img: this image is refused\n"


class Spawned:
    """Runs of programs in the folder at hand, whose input and output are files there: a pipe for each takes half as long again."""

    def __init__(self, folder):
        self.files = [os.open(folder / name, os.O_RDWR | os.O_CREAT) for name in ("input", "printed", "complained")]

    def run(self, command, contents, env):
        """How a run ends on this input: its status, what it prints and what it complains."""
        for file in self.files:
            os.ftruncate(file, 0)
            os.lseek(file, 0, os.SEEK_SET)
        os.pwrite(self.files[0], contents, 0)
        actions = [(os.POSIX_SPAWN_DUP2, file, to) for to, file in enumerate(self.files)]
        _, status = os.waitpid(os.posix_spawn(command[0], command, env, file_actions=actions), 0)
        printed, complained = (os.pread(file, os.fstat(file).st_size, 0) for file in self.files[1:])
        return os.waitstatus_to_exitcode(status), printed, complained

    def close(self):
        for file in self.files:
            os.close(file)


class Runs:
    """Runs in a folder, the one at hand, on the file a.img of it and its journal, with blocks of one size at a time."""

    def __init__(self, folder, spawned):
        self.size, self.spawned = 512, spawned
        self.files = folder / "a.img", folder / "a.img.lfsj"
        self.refusing = Refusing(folder)
        self.ran = self.wrong = 0

    def run(self, words, state, contents, at):
        """How a run ends whose request number `at` is refused: its status, what it prints and complains, and the files."""
        shutil.rmtree(self.files[0].with_name("made"), ignore_errors=True)
        for file, data in zip(self.files, state):
            file.unlink(missing_ok=True)
            if data is not None:
                file.write_bytes(data)
        env = self.refusing.env(at) if at else os.environ
        sized = [] if words[0] == "find" else [f"--block={self.size}"]
        ended = self.spawned.run([PROGRAM, words[0], *sized, *words[1:]], contents, env)
        after = tuple(file.read_bytes() if file.exists() else None for file in self.files)
        return *ended, after

    def row(self, words, state, contents=b""):
        """Refuses each request of a run in turn; answers the files that the run leaves with ample memory. A refused run may leave out
        the lines behind that of its fault, where there is no memory to find out what they say, or say of another image which one it is."""
        ample = self.run(words, state, contents, 0)
        lines = ample[2].splitlines(keepends=True)
        told = [(*ample[:2], b"".join(lines[:n]), ample[3]) for n in range(1, len(lines))] + [ample]
        if lines[1:] and lines[1].startswith(b"lfsed: b.img: its superblock states "):
            told.append((*ample[:2], lines[0] + REFUSED, ample[3]))
        at, memory, is_right = 0, 0, True
        while at == 0 or self.refusing.was_hit():
            at += 1
            status, printed, complained, after = ended = self.run(words, state, contents, at)
            if ended in told:
                continue
            memory += 1
            if (status, complained, after) != (4, b"lfsed: 44 Memory\n", state) or not ample[1].startswith(printed):
                print(f"{' '.join(words)}: request {at} refused: status {status}, {complained!r}")
                is_right = False
        self.ran, self.wrong = self.ran + 1, self.wrong + (not is_right)
        said = ample[2].decode().strip() or f"status {ample[0]}"
        print(f"{' '.join(words)}, {len(contents)} bytes: {said}; {at - 1} requests, {memory} end with 44")
        return ample[3]


def rows(runs):
    new = runs.row(["format", "--count=8", "a.img"], NOTHING)
    runs.row(["check", "a.img"], new)
    runs.row(["rmattr", "a.img", "/", "74"], new)
    runs.row(["setattr", "a.img", "/x", "74", "01"], new)
    attribute = runs.row(["setattr", "a.img", "/", "74", "0102"], new)
    runs.row(["rmattr", "a.img", "/", "74"], attribute)
    for length in 64, 65, 3_041:
        runs.row(["put", "a.img", "/f"], new, bytes(length))
    full = runs.row(["put", "a.img", "/f"], new, bytes(3_040))
    runs.row(["put", "a.img", "/f"], full, bytes(3_040))
    runs.row(["cat", "a.img", "/f"], full)
    file = runs.row(["put", "a.img", "/f"], new, bytes(513))
    file = runs.row(["setattr", "a.img", "/f", "74", "01"], file)
    runs.row(["put", "a.img", "/f"], file, bytes(3))


def directory_rows(runs):
    new = runs.row(["format", "--count=8", "a.img"], NOTHING)
    made = runs.row(["mkdir", "a.img", "/d"], new)
    filled = runs.row(["put", "a.img", "/d/x"], made, bytes(65))
    runs.row(["rm", "a.img", "/d"], filled)
    runs.row(["rm", "a.img", "/d/x"], filled)
    runs.row(["rm", "a.img", "/d"], made)
    runs.row(["mv", "a.img", "/d", "/d/e"], filled)
    runs.row(["mv", "a.img", "/d/x", "/y"], filled)
    runs.row(["mv", "a.img", "/d", "/e"], filled)
    for path in [], ["/d"], ["/d/x"], ["/none"], ["/d/x/y"], ["d"]:
        runs.row(["ls", "a.img", *path], filled)
    runs.row(["blocks", "a.img"], filled)
    runs.row(["blocks", "--sum", "a.img"], filled)
    parted = new
    for letter in "ac":
        parted = runs.row(["put", "a.img", "/" + 200 * letter], parted)
    runs.row(["mkdir", "a.img", "/" + 200 * "b"], parted)
    runs.row(["mkdir", "a.img", "/" + 200 * "b"], runs.row(["put", "a.img", "/a"], parted, bytes(513)))


def small_block_rows(runs):
    """Blocks of 256 bytes: a file of two, and a part that is cut into two and three."""
    runs.size = 256
    new = runs.row(["format", "--count=16", "a.img"], NOTHING)
    runs.row(["cat", "a.img", "/f"], runs.row(["put", "a.img", "/f"], new, bytes(257)))
    parted = runs.row(["mkdir", "a.img", "/d"], new)
    for letter in "ace":
        parted = runs.row(["put", "a.img", "/d/" + 80 * letter], parted)
    runs.row(["put", "a.img", "/d/" + 130 * "b"], parted)
    runs.row(["mv", "a.img", "/d/" + 80 * "a", "/" + 180 * "a"], parted)
    runs.row(["ls", "a.img"], parted)
    runs.row(["blocks", "a.img"], parted)
    runs.row(["blocks", "--sum", "a.img"], parted)
    runs.size = 512


def folder_rows(runs):
    """A folder that is packed, in the place of nothing and of an image; a link in it; and one that isn't there."""
    place = runs.files[0].with_name("src")
    (place / "d").mkdir(parents=True)
    (place / "d/f").write_bytes(bytes(65))
    runs.row(["pack", "--count=4", "a.img", "src"], NOTHING)
    packed = runs.row(["pack", "--count=8", "a.img", "src"], NOTHING)
    (place / "d/a").write_bytes(b"more")
    runs.row(["pack", "--count=8", "a.img", "src"], packed)
    (place / "d/link").symlink_to("f")
    runs.row(["pack", "--count=8", "a.img", "src"], packed)
    runs.row(["pack", "--count=8", "a.img", "none"], packed)
    for path in [], ["/"], ["/d"], ["/d/f"], ["/none"], ["/d/f/x"], ["d"]:
        runs.row(["extract", "a.img", "made", *path], packed)
        runs.row(["extract", "a.img", "src", *path], packed)


def tree_rows(runs):
    """Changes of whole trees: a folder that an image is made like, also below a path, and where it is so already; directories that go with
    all below them and come with those above them; and each where it is refused, in the middle of the folder too."""
    place, host = runs.files[0].with_name("src"), runs.files[0].with_name("host")
    (place / "d").mkdir(parents=True)
    (place / "d/f").write_bytes(bytes(600))
    (place / "new").write_bytes(b"new")
    host.write_bytes(bytes(600))
    new = runs.row(["format", "--count=24", "--name-max=9", "a.img"], NOTHING)
    made = runs.row(["sync", "a.img", "src"], new)
    runs.row(["sync", "a.img", "src", "/"], made)
    (place / "new").unlink()
    (place / "d/f").write_bytes(bytes(599))
    for path in [], ["/d"], ["/d/f"], ["/e"], ["/none/e"], ["/new/e"], ["bad"]:
        runs.row(["sync", "--keep=2", "a.img", "src", *path], made)
    other = runs.row(["mkdir", "a.img", "/d/e"], runs.row(["setattr", "a.img", "/d", "74", "01"], made))
    undone = runs.row(["undo", "a.img"], other)
    for path in "/d", "/d/f", "/", "/none", "/d/f/x":
        runs.row(["rm", "-r", "a.img", path], other)
    for path in "/d", "/d/x/y", "/x/y/z", "/new", "/new/x/y", "/x/ten-bytes-":
        runs.row(["mkdir", "-p", "a.img", path], undone)
    for path in "/d/f", "/d/x/y", "/d", "/", "/new/x/y":
        runs.row(["put", "-p", "a.img", path], undone, bytes(600))
    runs.row(["put", "--parents", "--from=host", "--keep=1", "a.img", "/x/y"], undone)
    runs.row(["put", "-p", "--from=none", "a.img", "/x/y"], undone)
    (place / "a").mkdir()
    for name, held in ("a/long-names-", b""), ("a/large", bytes(9_000)):
        (place / name).write_bytes(held)
        runs.row(["sync", "a.img", "src"], undone)
        (place / name).unlink()
    (place / "d/link").symlink_to("f")
    runs.row(["sync", "a.img", "src"], undone)
    runs.row(["sync", "a.img", "none"], undone)


def history_rows(runs):
    """Changes that are taken back, made again, dropped and forgotten, and histories that lead to images that don't mount."""
    new = runs.row(["format", "--count=8", "a.img"], NOTHING)
    made = runs.row(["mkdir", "a.img", "/a"], new)
    filled = runs.row(["put", "a.img", "/a/x"], made, b"hello")
    emptied = runs.row(["undo", "a.img"], filled)
    undone = runs.row(["undo", "a.img"], emptied)
    runs.row(["redo", "a.img"], runs.row(["redo", "a.img"], undone))
    runs.row(["redo", "a.img"], runs.row(["mkdir", "a.img", "/b"], undone))
    runs.row(["undo", "a.img"], runs.row(["forget", "a.img"], filled))
    runs.row(["redo", "--steps=2", "a.img"], runs.row(["undo", "--steps=2", "a.img"], filled))
    runs.row(["log", "a.img"], filled)
    runs.row(["log", "a.img"], emptied)
    runs.row(["log", "a.img"], (new[0], None))
    erased, zeroed, first = b"\xff" * 512, bytes(512), new[0][:512]
    for changes in [(erased, first)], [(erased, zeroed), (erased, first)], [(zeroed, erased), (erased, first)]:
        done = [(8, 8, [(0, old, now)]) for old, now in changes]
        runs.row(["undo", "a.img"], (new[0], journal(512, 8, done, [])))
        runs.row(["log", "a.img"], (new[0], journal(512, 8, done, [])))


def script_rows(runs):
    """Scripts from a file, and one from standard input: steps that are taken, steps that are refused, none at all, a file that isn't
    there, and lines that say no step."""
    new = runs.row(["format", "--count=16", "a.img"], NOTHING)
    made = runs.row(["mkdir", "a.img", "/a"], new)
    steps, host = runs.files[0].with_name("steps"), runs.files[0].with_name("host file")
    host.write_bytes(bytes(600))
    taken = b"# steps\nmkdir /d\nput /d/x host\\x20file\nsetattr /d/x 74 0102\nundo\nredo\nmv /d /e\ngrow 18\n"
    for text in taken, taken + b"forget\nrm /a\n", b"", b"undo\nrm /a\n", b"put /y none\n", b"rm /a\nsetattr / 7\n", b"rm /a\nmake /b\n":
        steps.write_bytes(text)
        runs.row(["batch", "--keep=2", "a.img", "steps"], made)
    runs.row(["batch", "a.img"], made, taken)
    one = b"# steps\nmkdir /d\nput /d/x host\\x20file\nput /d/x host\\x20file\nsetattr /d/x 74 0102\nmv /d /e\ngrow 18\n"
    for text in one, one + b"rm /none\n", b"", one + b"undo\n":
        steps.write_bytes(text)
        runs.row(["batch", "--one", "--keep=2", "a.img", "steps"], made)


def comparing_rows(runs):
    """Two images that are compared, of which one may be none."""
    new = runs.row(["format", "--count=8", "a.img"], NOTHING)
    made = runs.row(["mkdir", "a.img", "/a"], new)
    filled = runs.row(["put", "a.img", "/a/x"], made, bytes(700))
    other = runs.files[0].with_name("b.img")
    for held in filled[0], new[0], bytes(4_096):
        other.write_bytes(held)
        runs.row(["diff", "a.img", "b.img"], (filled[0], None))
        runs.row(["diff", "a.img", "b.img"], (made[0], None))
        runs.row(["diff", "--quiet", "a.img", "b.img"], (made[0], None))
        runs.row(["diff", "--json", "a.img", "b.img"], (made[0], None))
    runs.size = "auto"
    other.write_bytes(image(256, 16, {0: log(1, superblock(256, 16))}))
    runs.row(["check", "a.img"], filled)
    runs.row(["mkdir", "a.img", "/b"], filled)
    runs.row(["diff", "a.img", "b.img"], (filled[0], None))
    runs.row(["check", "a.img"], (bytes(300), None))
    runs.size = 512


def told_rows(runs):
    """What is printed as JSON, digests, and files that stand in their entries."""
    new = runs.row(["format", "--count=16", "a.img"], NOTHING)
    made = runs.row(["put", "-p", "a.img", "/a/x"], new, bytes(700))
    made = runs.row(["setattr", "a.img", "/a", "74", "0102"], made)
    for command in ["check"], ["ls"], ["ls", "--sha256"], ["blocks"], ["blocks", "--sum"], ["log"]:
        runs.row([*command, "--json", "a.img"], made)
    runs.row(["ls", "--sha256", "a.img"], made)
    made = runs.row(["put", "a.img", "/a/y"], made, bytes(9))
    for most in "8", "9":
        runs.row(["check", "--inline-max", most, "a.img"], made)
    runs.row(["check", "--json", "--inline-max", "8", "a.img"], made)


def growing_rows(runs):
    """An image that is made longer, also a full one and one whose root is cut, with what is taken back and made again."""
    new = runs.row(["format", "--count=8", "a.img"], NOTHING)
    runs.row(["grow", "a.img", "8"], new)
    grown = runs.row(["grow", "a.img", "16"], new)
    undone = runs.row(["undo", "a.img"], grown)
    runs.row(["redo", "a.img"], undone)
    runs.row(["mkdir", "a.img", "/a"], undone)
    filled = runs.row(["put", "a.img", "/f"], grown, bytes(4_052))
    runs.row(["undo", "a.img"], runs.row(["undo", "a.img"], filled))
    runs.size = 256
    heavy = superblock(256, 2) + [item for number in (1, 2) for item in file(number, 90 * b"ab"[number - 1:number])]
    root = image(256, 2, {0: log(1, heavy)}), None
    runs.row(["grow", "a.img", "3"], root)
    runs.row(["undo", "a.img"], runs.row(["grow", "a.img", "4"], root))
    runs.size = 512


def device_images():
    """Images that devices left: one of version 2.0 that a device appended to, one that it formatted, with a directory, one whose superblock
    was expanded, and one of these that states another version."""
    plain = log(1, stated(FIRST, 512, 16) + file(1, b"early", b"old"), 16).ljust(512, b"\xff")
    root = stated(LATER, 512, 16) + directory(1, b"d", (2, 3)) + attribute(1, 0x74, b"\1") + tail(SOFT, (2, 3))
    blocks = laid(512, [7, 5], bytes(700))
    parts = expanded([ROOT, (2, 3)], [stated(FIRST, 512, 16), stated(LATER, 512, 16) + file(1, b"early", b"new")])
    other = expanded([ROOT, (2, 3)], [stated(FIRST, 512, 16), stated(0x0002_0002, 512, 16)])
    return [
        image(512, 16, {0: appended(plain, stated(LATER, 512, 16)[1:], file(2, b"late", b"new"))}),
        image(512, 16, {0: written(1, 512, root), 2: written(1, 512, file(0, b"f", b"in") + chained(1, b"g", 5, 700)), **blocks}),
        image(512, 16, {number: written(1, 512, items) for number, items in parts.items()}),
        image(512, 16, {number: log(1, items, 16) for number, items in other.items()}),
    ]


def device_rows(runs):
    """Images that devices left, read as a device does, and without that."""
    other = runs.files[0].with_name("b.img")
    for held in device_images():
        state = held, None
        other.write_bytes(held)
        for words in ["check"], ["ls"], ["ls", "/d"], ["extract", "made"], ["extract", "made", "/d"]:
            runs.row([words[0], "--device", "a.img", *words[1:]], state)
        runs.row(["cat", "--device", "a.img", "/early"], state)
        runs.row(["diff", "--device", "a.img", "b.img"], (device_images()[0], None))
        for words in ["check", "a.img"], ["mkdir", "a.img", "/a"], ["repack", "a.img", "b.img"]:
            runs.row(words, state)


def adopting_rows(runs):
    """Images that devices wrote, of which nothing is told but the blocks that change."""
    runs.size = 256
    for name in "expanded", "orphan":
        held = lzma.decompress((HOME / f"tests/images/unfinished/{name}.img.xz").read_bytes())
        for words in ["adopt", "a.img"], ["adopt", "--json", "a.img"]:
            taken = runs.row(words, (held, None))
        runs.row(["adopt", "a.img"], taken)
    changed = runs.row(["put", "a.img", "/new"], taken, bytes(3))
    runs.row(["adopt", "a.img"], (held, changed[1]))
    runs.row(["adopt", "--replace", "a.img"], (held, changed[1]))
    runs.size = 512


def repacking_rows(runs):
    """Images that are made of others: in the place of nothing, of another and of their own, of fewer blocks and other sizes of them, with
    limits, of images that aren't read, and where there is no room."""
    other = runs.files[0].with_name("b.img")
    held = image(512, 16, {
        0: log(1, superblock(512, 16) + attribute(0, 1, b"root") + directory(1, b"d", (2, 3)) + attribute(1, 2, b"")
               + file(2, b"f", b"in") + tail(SOFT, (2, 3))),
        2: log(1, chained(0, b"g", 5, 700) + attribute(0, 3, bytes(9))), **laid(512, [7, 5], bytes(700)),
    })
    made = runs.row(["repack", "a.img", "a.img"], (held, None))
    for held in [held, *device_images()]:
        other.write_bytes(held)
        runs.row(["repack", "--device", "a.img", "b.img"], NOTHING)
        runs.row(["repack", "--device", "--least", "a.img", "b.img"], made)
    other.write_bytes(made[0])
    for words in (
        ["--count=5"], ["--size=2k"], ["--name-max=1", "--attr-max=8"], ["--from-block=512", "--least", "--name-max=9"],
        ["--from-block=1024"], ["--new"],
    ):
        runs.row(["repack", *words, "a.img", "b.img"], made)
    for size in 256, 1_024:
        runs.size = size
        runs.row(["repack", "a.img", "b.img"], NOTHING)
    runs.size = 512
    for held in bytes(4_096), bytes(700), made[0][:-512]:
        other.write_bytes(held)
        runs.row(["repack", "a.img", "b.img"], made)
    other.unlink()
    runs.row(["repack", "a.img", "b.img"], made)


def flash_rows(runs):
    """Images that stand in a larger file: they are read at their place in it, made anew and found; and places at which nothing is."""
    other, images = runs.files[0].with_name("b.img"), device_images()
    for held in images:
        state = bytes(700) + held + bytes(300), None
        other.write_bytes(state[0])
        runs.row(["check", "--device", "--offset=700", "a.img"], state)
        runs.row(["repack", "--device", "--offset=700", "a.img", "b.img"], NOTHING)
        runs.row(["find", "a.img"], state)
    state = bytes(700) + images[0] + bytes(300), None
    other.write_bytes(images[0])
    for words in ["ls", "a.img"], ["cat", "a.img", "/early"], ["extract", "a.img", "made"], ["diff", "a.img", "b.img"]:
        runs.row([words[0], "--device", "--offset=700", *words[1:]], state)
    for words in ["--offset=700"], ["--device", "--offset=99"], ["--device", "--offset=1M"]:
        runs.row(["check", *words, "a.img"], state)
    runs.size = "auto"
    runs.row(["check", "--device", "--offset=700", "a.img"], state)
    runs.size = 512
    for held in b"", bytes(5_000), b"".join(held + bytes(9) for held in images):
        runs.row(["find", "a.img"], (held, None))


def salvage_rows(runs):
    """Images that don't mount: of one much is lost, of one nothing, of one all; and what devices left, which mounts."""
    blocks = laid(512, [6, 7], bytes(700))
    root = superblock(512, 16) + directory(1, b"d", (2, 3)) + chained(2, b"f", 7, 700) + chained(3, b"g", 7, 700) + chained(4, b"h", 9, 5)
    lossy = {0: log(1, root + tail(SOFT, (2, 3))), 4: log(1, directory(0, b"e", (10, 11))), 10: log(1, file(0, b"x", b"in")), **blocks}
    whole = {0: log(1, root[:-2] + tail(SOFT, (2, 3))), 2: log(1, tail(SOFT, (4, 5))), 4: log(1, file(0, b"x", b"in")), **blocks}
    for held in image(512, 16, lossy), image(512, 16, whole), bytes(4_096):
        runs.row(["salvage", "a.img", "made"], (held, None))
    for held in [*device_images(), image(512, 16, lossy)]:
        runs.row(["salvage", "--device", "a.img", "made"], (held, None))
    runs.row(["salvage", "--device", "--offset=700", "a.img", "made"], (bytes(700) + image(512, 16, lossy) + bytes(9), None))


def tried(group):
    """Tries a group of rows in a folder of its own: what is said of them, how many there are, and of how many a run went wrong."""
    said = io.StringIO()
    with tempfile.TemporaryDirectory() as folder, tempfile.TemporaryDirectory() as beside, contextlib.redirect_stdout(said):
        os.chdir(folder)
        with contextlib.closing(Spawned(pathlib.Path(beside))) as spawned:
            runs = Runs(pathlib.Path(folder), spawned)
            group(runs)
        os.chdir(HOME)
    return said.getvalue(), runs.ran, runs.wrong


GROUPS = [
    history_rows, script_rows, tree_rows, repacking_rows, adopting_rows, device_rows, flash_rows, rows, directory_rows, small_block_rows, folder_rows, comparing_rows,
    told_rows,
    growing_rows, salvage_rows,
]

subprocess.run([HOME / "bin/lfsed", "--help"], stdout=subprocess.DEVNULL, check=True)
ran = wrong = 0
with concurrent.futures.ProcessPoolExecutor() as pool:
    for said, tries, faults in pool.map(tried, GROUPS):
        print(said, end="")
        ran, wrong = ran + tries, wrong + faults
print(f"{ran - wrong} passed, {wrong} failed")
sys.exit(1 if wrong else 0)
