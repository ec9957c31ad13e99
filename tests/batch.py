#!/usr/bin/env python3
"""Runs scripts of steps by the program: all of their steps are taken or none, image and journal are byte for byte those that a run for
each line leaves, and what is refused is told with its line. The scripts and what they leave were written by hand; a reader apart from
the program says what stands in an image."""
import os
import resource
import subprocess
import sys

from later import APPENDED, REFUSED_CHANGE
from support.folder import PROGRAM, contents, run_scenes
from support.journal import journal, word
from support.littlefs import Reader
from support.scripts import alone, script
from support.texts import typed

NOT_FOUND, NO_UNDO, NO_REDO = "30 NotFound", "53 NothingToUndo", "54 NothingToRedo"
BAD_HEX, BAD_LINE, NOT_READ = "64 BadHex", "65 BadLine", "60 CannotRead"
NOTHING_THERE = "No such file or directory (os error 2)"
# The files of the host, by their names and their lengths: contents in an entry, in a block, and in two.
HOST = {"h0": 5, "h1": 300, "h2": 900, "large": 3_040, "two words": 7, "two\nlines": 8, "\xe4": 9}


class Batch:
    """A folder with a new image of blocks of 512 bytes, files of the host, and scripts that are run on the image."""

    def __init__(self, folder, count=64):
        self.folder, self.room = folder, folder.image.parent
        for name, length in HOST.items():
            (self.room / name).write_bytes(contents(length))
        self.new(count)

    def new(self, count):
        """Makes the image a new one, without a journal."""
        self.folder.journal.unlink(missing_ok=True)
        self.does("a new image", ["format", "-b", "512", "--count", str(count), "a.img"])
        self.folder.journal.unlink()

    def run(self, words, given=b"", **how):
        """Runs the program; answers its status, what it complained and what it printed."""
        ended = subprocess.run([PROGRAM, *words], cwd=self.room, input=given, capture_output=True, timeout=60, **how)
        return ended.returncode, ended.stderr.decode(), ended.stdout

    def does(self, what, words, given=b""):
        """Runs words that are taken, and of which nothing is told."""
        ended = self.run(words, given)
        self.folder.check(what, ended == (0, "", b""), ended)

    def batch(self, text, *options, is_typed=False):
        """Runs a script from a file, or from standard input."""
        words = ["batch", "-b", "512", *options, "a.img"]
        if is_typed:
            return self.run(words, text)
        (self.room / "steps").write_bytes(text)
        return self.run([*words, "steps"])

    def takes(self, what, lines, *options, is_typed=False):
        """Runs a script whose steps are taken."""
        ended = self.batch(lines if isinstance(lines, bytes) else script(lines), *options, is_typed=is_typed)
        self.folder.check(what, ended == (0, "", b""), ended)

    def files(self):
        """The image and its journal; no file of a run is left."""
        left = [name for name in os.listdir(self.room) if name.endswith(".new")]
        return self.folder.old(), self.folder.saved(), left

    def refuses(self, lines, number, status, first, *more, options=(), flaw=""):
        """Runs a script that is refused at a line, from a file and from standard input, and compares both files with what they were.
        What more is told stands in front of the line, and what is wrong in it behind its number."""
        text = lines if isinstance(lines, bytes) else script(lines)
        line = text.split(b"\n")[number - 1].removesuffix(b"\r")
        for name, is_typed in ("steps", False), ("standard input", True):
            before, what = self.files(), f"{typed(line)[:60]}, line {number} of {name}"
            ended = self.batch(text, *options, is_typed=is_typed)
            told = "".join(f"lfsed: {each}\n" for each in [first, *more, f"{name}: line {number}{flaw}: {typed(line)}"])
            self.folder.check(what, ended == (status, told, b""), ended)
            self.folder.check(f"{what}: files", self.files() == before)

    def tree(self):
        """What stands at each path."""
        return Reader(self.folder.old(), 512).tree()

    def stands(self, what, wanted):
        """Compares what stands at each path, by the text of the path: a file of the host, by its name, or None, and the attributes."""
        tree = {path.encode(): (None if name is None else contents(HOST[name]), values) for path, (name, values) in wanted.items()}
        self.folder.check(what, self.tree() == tree, self.tree())


def two_hundred_lines():
    """Forty directories: in each a file is put, gets an attribute, is moved, and is removed or the directory gets an attribute."""
    lines = []
    for n in range(40):
        lines += [f"mkdir /d{n}", f"put /d{n}/f h{n % 3}", f"setattr /d{n}/f 74 {n:02x}", f"mv /d{n}/f /d{n}/g"]
        lines += [f"rm /d{n}/g" if n % 4 == 0 else f"setattr /d{n} 75"]
    return lines


def all_of_a_script(folder):
    batch = Batch(folder, 256)
    lines = two_hundred_lines()
    folder.check("lines", len(lines) == 200, len(lines))
    batch.takes("200 lines", lines)
    wanted = {"/": (None, {})}
    for n in range(40):
        wanted[f"/d{n}"] = None, {} if n % 4 == 0 else {0x75: b""}
        if n % 4:
            wanted[f"/d{n}/g"] = f"h{n % 3}", {0x74: bytes([n])}
    batch.stands("200 lines", wanted)
    ended = batch.run(["log", "-b", "512", "a.img"])
    said = [line for line in ended[2].decode().splitlines() if line.startswith("change ")]
    folder.check("200 changes", said == [f"change {n}, done" for n in range(1, 201)], said[-1:])
    batch.does("200 undone", ["undo", "-b", "512", "--steps", "200", "a.img"])
    batch.stands("200 undone", {"/": (None, {})})


def none_of_a_script(folder):
    """A refused line leaves both files, with a journal beside the image or without one."""
    batch = Batch(folder, 256)
    for at in 150, 1, 200:
        lines = two_hundred_lines()
        lines[at - 1] = "rm /none"
        batch.refuses(lines, at, 1, NOT_FOUND)
    batch.does("a journal", ["mkdir", "-b", "512", "a.img", "/old"])
    folder.check("a journal", folder.saved() is not None)
    lines = two_hundred_lines()
    lines[149] = "mkdir /d3"
    batch.refuses(lines, 150, 1, "31 Exists")
    batch.refuses(lines, 150, 1, "31 Exists", options=["--keep", "2"])


# What is done before a script, and steps that move through the history too: the first ones want three images of the past.
MOVING = (
    ["mkdir /a", "put /a/x h1", "undo", "redo", "setattr / 74 0102", "undo", "undo", "mkdir /b", "undo", "redo", "grow 80", "put /b/y h2",
     "mv /b /c", "undo", "undo", "undo", "redo", "rm /b", "undo"],
    ["undo", "undo", "redo", "mkdir /a", "forget", "put /z h0", "undo", "redo", "setattr /z 7F", "rmattr /z 7f", "forget", "mkdir /d"],
)
BEFORE = ["mkdir /p", "put /p/q h2", "setattr /p 00 ff"]


def one_by_one(batch, lines, keep=None):
    """Runs the lines one by one; answers image and journal behind each."""
    found = []
    for line in lines:
        batch.does(f"{line} alone", alone(line, "-b", "512", keep=keep))
        found.append(batch.files())
    return found


def batches_are_runs_line_by_line(folder):
    """A script leaves byte for byte what the same steps leave that are taken one by one, whatever was done before."""
    batch = Batch(folder)
    for before, lines, least in ([], MOVING[0], 3), (BEFORE, MOVING[0], 3), (BEFORE, MOVING[1], 1):
        for keep in None, least, 1_000:
            batch.new(64)
            one_by_one(batch, before)
            begin = batch.files()
            wanted = one_by_one(batch, lines, keep)
            options = ["--keep", str(keep)] if keep else []
            for n in range(1, len(lines) + 1):
                put_back(batch, begin)
                batch.takes(f"the first {n} of {lines}", lines[:n], *options, is_typed=n % 2 == 1)
                folder.check(f"behind {lines[n - 1]}, {n} with {keep} kept", batch.files() == wanted[n - 1])


def put_back(batch, files):
    """Makes image and journal what they were."""
    batch.folder.image.write_bytes(files[0])
    batch.folder.journal.unlink(missing_ok=True)
    if files[1] is not None:
        batch.folder.journal.write_bytes(files[1])


def a_line_that_says_nothing_takes_no_step(folder):
    """A directory and a file in it, behind a line that says nothing, on an image of 8 blocks that has a journal: image and journal are
    those that the two steps leave, and where a third step is refused they are those that were there."""
    batch = Batch(folder, 8)
    folder.journal.write_bytes(journal(512, 8, [], []))
    (batch.room / "f").write_bytes(b"hello")
    begin = batch.files()
    batch.refuses(b"mkdir /a\n\nput /a/x f\nmkdir /a\n", 4, 1, "31 Exists")
    wanted = one_by_one(batch, ["mkdir /a", "put /a/x f"])[-1]
    put_back(batch, begin)
    batch.takes("a directory and a file", b"# new\nmkdir /a\nput /a/x f\n")
    folder.check("a directory and a file: files", batch.files() == wanted)


def two_hundred_lines_one_by_one(folder):
    batch = Batch(folder, 256)
    begin = batch.files()
    for keep in None, 3:
        put_back(batch, begin)
        wanted = one_by_one(batch, two_hundred_lines(), keep)[-1]
        put_back(batch, begin)
        batch.takes("200 lines", two_hundred_lines(), *(["--keep", str(keep)] if keep else []))
        folder.check(f"200 lines with {keep} kept", batch.files() == wanted)


def the_last_line_is_taken_back_alone(folder):
    batch = Batch(folder)
    lines = ["mkdir /a", "put /a/x h1", "setattr /a/x 74 0102"]
    images = [folder.old()] + [files[0] for files in one_by_one(batch, lines)]
    batch.new(64)
    batch.takes("three lines", lines)
    for image in reversed(images[:-1]):
        batch.does("undo", ["undo", "-b", "512", "a.img"])
        folder.check("the line before", folder.old() == image)
    ended = batch.run(["undo", "-b", "512", "a.img"])
    folder.check("nothing more", ended == (1, f"lfsed: {NO_UNDO}\n", b""), ended)
    batch.does("redo", ["redo", "-b", "512", "--steps", "3", "a.img"])
    folder.check("all of them", folder.old() == images[-1])


def the_history_moves_in_a_script(folder):
    """What was done before a script is taken back by it; what it forgets can't be."""
    batch = Batch(folder)
    one_by_one(batch, ["mkdir /a", "mkdir /b"])
    batch.takes("undo, undo, redo", ["undo", "undo", "redo"])
    batch.stands("undo, undo, redo", {"/": (None, {}), "/a": (None, {})})
    folder.check("one done, one undone", folder.saved()[16:24] == word(1) + word(1))
    batch.takes("forget", ["mkdir /c", "forget", "mkdir /d"])
    batch.stands("forget", {"/": (None, {}), "/a": (None, {}), "/c": (None, {}), "/d": (None, {})})
    folder.check("one done behind forget", folder.saved()[16:24] == word(1) + word(0))
    batch.takes("forget alone", ["forget"])
    folder.check("none behind forget", folder.saved() == journal(512, 64, [], []))
    batch.refuses(["mkdir /e", "forget", "undo"], 3, 1, NO_UNDO)
    batch.refuses(["undo"], 1, 1, NO_UNDO)
    batch.refuses(["mkdir /e", "undo", "undo"], 3, 1, NO_UNDO)
    batch.refuses(["redo"], 1, 1, NO_REDO)
    batch.refuses(["mkdir /e", "undo", "mkdir /f", "redo"], 4, 1, NO_REDO)


def the_latest_changes_are_kept(folder):
    batch = Batch(folder)
    batch.takes("five directories", [f"mkdir /{name}" for name in "abcde"], "--keep", "3")
    folder.check("three done", folder.saved()[16:24] == word(3) + word(0))
    batch.does("undo", ["undo", "-b", "512", "--steps", "3", "a.img"])
    batch.stands("undo", {"/": (None, {}), "/a": (None, {}), "/b": (None, {})})
    batch.new(64)
    lines = 1_001 * ["setattr / 74 01"]
    batch.refuses(lines, 1_001, 1, "55 JournalFull")
    batch.takes("a thousand lines", lines[1:])
    folder.check("a thousand done", folder.saved()[16:24] == word(1_000) + word(0))
    batch.refuses(lines[:1], 1, 1, "55 JournalFull")
    batch.takes("a thousand and one lines", lines, "--keep", "1000")
    folder.check("a thousand are kept", folder.saved()[16:24] == word(1_000) + word(0))


# What a script's step is refused with, on a new image of 8 blocks of 512 bytes: lines, the first line that is told, and the number of
# the line that is refused, which is the last.
REFUSALS = (
    (["rm /none"], NOT_FOUND),
    (["mkdir /a", "mkdir /a"], "31 Exists"),
    (["put /f h0", "mkdir /f/a"], "32 NotADirectory"),
    (["mkdir /a", "put /a h0"], "33 IsADirectory"),
    (["mkdir /a", "put /a/f h0", "rm /a"], "34 NotEmpty"),
    (["mkdir a"], "35 BadPath"),
    (["mkdir /\\x2fa"], "35 BadPath"),
    ([f"mkdir /{256 * 'n'}"], "36 NameTooLong"),
    ([f"setattr / 74 {1_023 * '00'}"], "38 AttrTooLarge"),
    (["setattr / 74 00", "rmattr / 75"], "39 NoAttr"),
    (["mkdir /a", "mv /a /a/b"], "40 IntoItself"),
    (["rm /"], "41 IsRoot"),
    ([f"setattr / 74 {600 * '00'}"], "42 EntryTooLarge"),
    (["mkdir /a", "put /z large"], "43 NoSpace need 6 free 4"),
    (["grow 8"], "46 BadCount"),
    (["grow 1"], "46 BadCount"),
    (["grow 4294967295"], "46 BadCount"),
    (["grow 9", "grow 9"], "46 BadCount"),
)


def steps_are_refused(folder):
    batch = Batch(folder, 8)
    for lines, first in REFUSALS:
        batch.refuses(lines, len(lines), 1, first)
        batch.refuses(["# steps", "", *lines, "mkdir /more"], len(lines) + 2, 1, first)


def what_is_made_in_a_script_counts(folder):
    """A step finds what those before it have made: a directory, room, and blocks."""
    batch = Batch(folder, 8)
    batch.takes("room for a file", ["grow 10", "mkdir /a", "put /z large", "rm /a", "put /more h1"])
    batch.stands("room for a file", {"/": (None, {}), "/z": ("large", {}), "/more": ("h1", {})})
    folder.check("ten blocks", len(folder.old()) == 10 * 512)


def paths_of_any_bytes(folder):
    batch = Batch(folder)
    lines = rb"""mkdir /a\x20b
put /a\x20b/new\x0aline h0
put /a\x20b/back\x5cslash two\x20words
mkdir /\xFE\xff
put /\xFE\xff/tab\x09 two\x0Alines
setattr /a\x20b 2f 0aFF
mv /a\x20b/new\x0aline /\x6coud
""" + b"mkdir /raw\xff\t\x7f\nput /\xc3\xa4 \xc3\xa4\nput /twice \\xc3\\xa4\n"
    batch.takes("odd paths", lines)
    wanted = {
        b"/": (None, {}),
        b"/a b": (None, {0x2F: b"\n\xff"}),
        b"/a b/back\\slash": (contents(7), {}),
        b"/\xfe\xff": (None, {}),
        b"/\xfe\xff/tab\t": (contents(8), {}),
        b"/loud": (contents(5), {}),
        b"/raw\xff\t\x7f": (None, {}),
        "/\xe4".encode(): (contents(9), {}),
        b"/twice": (contents(9), {}),
    }
    folder.check("what odd paths lead to", batch.tree() == wanted, batch.tree())
    ended = batch.run(["ls", "-b", "512", "a.img"])
    folder.check("as they are listed", b" /a b/back\\x5cslash\n" in ended[2] and b" /\\xfe\\xff/tab\\x09\n" in ended[2], ended)
    batch.refuses(b"mkdir /ok\nrm /a\\x20b/n\\x0a\n", 2, 1, NOT_FOUND)
    batch.refuses(b"mkdir /raw\xff\t\x7f\n", 1, 1, "31 Exists")


def files_of_the_host(folder):
    """Each line puts the contents of its file; one that can't be read is told before the image is looked at."""
    batch = Batch(folder)
    batch.takes("files in turn", ["put /a h1", "put /b h2", "put /c h1", "put /a h0"])
    batch.stands("files in turn", {"/": (None, {}), "/a": ("h0", {}), "/b": ("h2", {}), "/c": ("h1", {})})
    text = script(["put /steps steps"])
    batch.takes("a script that puts itself", text)
    folder.check("a script that puts itself", batch.tree()[b"/steps"] == (text, {}), batch.tree())
    (batch.room / "place").mkdir()
    lines = ["put /d h1", "mkdir /x", "put /y none", "put /z place"]
    batch.refuses(lines, 3, 4, NOT_READ, f"none: {NOTHING_THERE}")
    batch.refuses(lines[3:], 1, 4, NOT_READ, "place: it is a folder")
    folder.be(b"", 4_096)
    batch.refuses(lines, 3, 4, NOT_READ, f"none: {NOTHING_THERE}")
    folder.image.unlink()
    batch.refuses(lines, 3, 4, NOT_READ, f"none: {NOTHING_THERE}")
    ended = batch.batch(script(["put /d h1"]))
    folder.check("no image", ended == (4, f"lfsed: {NOT_READ}\nlfsed: a.img: {NOTHING_THERE}\n", b""), ended)


def limit_memory():
    """No more than 160 MB of addresses."""
    resource.setrlimit(resource.RLIMIT_AS, (160_000_000, 160_000_000))


def a_file_is_read_once(folder):
    """A script that puts a file of 4 MB a hundred times keeps its contents once."""
    folder.image.with_name("big").write_bytes(contents(4_000_000))
    folder.image.with_name("script").write_text("put /f big\n" * 100)
    folder.check("format", folder.run("format --block 4096 --count 4096 a.img") == (0, "", b""))
    ended = folder.run("batch --block 4096 --keep 1 a.img script", preexec_fn=limit_memory)
    folder.check("one file for a hundred lines", ended == (0, "", b""), ended)
    held = folder.run("cat --block 4096 a.img /f")[2]
    folder.check("its contents", held == contents(4_000_000), len(held))


def scripts_that_are_not_read(folder):
    batch = Batch(folder)
    before = batch.files()
    for name, said in ("none", NOTHING_THERE), (".", "it is a folder"):
        ended = batch.run(["batch", "-b", "512", "a.img", name])
        folder.check(f"script {name}", ended == (4, f"lfsed: {NOT_READ}\nlfsed: {name}: {said}\n", b""), ended)
    words = [PROGRAM, "batch", "-b", "512", "a.img"]
    ended = subprocess.run(words, cwd=batch.room, stderr=subprocess.PIPE, preexec_fn=lambda: os.close(0), timeout=60)
    told = f"lfsed: {NOT_READ}\nlfsed: standard input: it is closed\n".encode()
    folder.check("closed input", (ended.returncode, ended.stderr) == (4, told), ended)
    folder.check("files", batch.files() == before)


# Scripts that say no step.
EMPTY = b"", b"\n", b"\r\n\n", b"#", b"# mkdir /a\n\n#\r\n#undo\n"


def scripts_without_steps(folder):
    """Nothing is written, and no journal is read; the image has to mount."""
    batch = Batch(folder)
    for saved in None, b"no journal", journal(512, 64, [], []):
        put_back(batch, (folder.old(), saved))
        before, seen = batch.files(), folder.image.stat()
        for text in EMPTY:
            for is_typed in False, True:
                batch.takes(f"no steps: {text}", text, is_typed=is_typed)
        after = folder.image.stat()
        folder.check("nothing is written", batch.files() == before and (after.st_ino, after.st_mtime_ns) == (seen.st_ino, seen.st_mtime_ns))
    held = folder.old()
    for text in EMPTY:
        folder.be(held[:-512], 0)
        ended = batch.batch(text)
        said = "lfsed: 11 Geometry\nlfsed: a.img: its superblock states 64 blocks of 512 bytes\n"
        folder.check(f"an image that doesn't mount: {text}", ended == (3, said, b""), ended)
        folder.image.unlink()
        ended = batch.batch(text)
        folder.check(f"no image: {text}", ended == (4, f"lfsed: {NOT_READ}\nlfsed: a.img: {NOTHING_THERE}\n", b""), ended)


# What may be wrong in a line.
FRONT = "a space stands in front of the first word"
TWO = "two spaces stand between words, not one"
BEHIND = "a space stands behind the last word"
ESCAPE = "no x and two hexadecimal digits stand behind a backslash"
TAB = "a tab parts no words, one space does"
QUOTE = "quotes hold no words together, \\x20 is a space in a word"
UNKNOWN = "no step begins so, 'lfsed explain 65' says which there are"
FEW, MANY = "too few words for ", "too many words for "
NUMBER = "COUNT is no number from 0 to 4294967295"
FILE = "FILE is no UTF-8"
KIND = "KIND isn't two digits, 0 to 9 or a to f"
HEX = "HEX isn't two digits for each byte, 0 to 9 or a to f"

# Lines that say no step: the column at which something is wrong, and what.
BAD_LINES = (
    *((line, BAD_LINE, 1, UNKNOWN) for line in (
        b"make /a", b"MKDIR /a", b"ls", b"check", b"format 8", b"cat /a", b"batch steps", b"lfsed mkdir /a", b"mk\\x64", b"/a",
        b"sync src", b"sync src /a",
    )),
    *((line, BAD_LINE, 8, ESCAPE) for line in (
        b"mkdir /\\", b"mkdir /\\x", b"mkdir /\\x2", b"mkdir /\\x2g", b"mkdir /\\n", b"mkdir /\\\\", b"mkdir /\\X20",
        b"mkdir /\\x2 0", b"mkdir /\\ /b",
    )),
    *((line, BAD_LINE, 6, NUMBER) for line in (b"grow x", b"grow -1", b"grow 4294967296", b"grow 0x10", b"grow 9\t", b"grow \"9\"")),
    *((line, BAD_LINE, column, wrong) for line, column, wrong in (
        (b" mkdir /a", 1, FRONT), (b" ", 1, FRONT), (b" # a", 1, FRONT), (b"  ", 1, FRONT),
        (b"mkdir  /a", 7, TWO), (b"mkdir /a  ", 10, TWO), (b"mv /a  /\\", 7, TWO),
        (b"mkdir /a ", 9, BEHIND), (b"undo ", 5, BEHIND), (b"mkdir\t/a ", 9, BEHIND),
        (b"mkdir\t/a", 6, TAB), (b"undo\t", 5, TAB), (b"put /a\th0", 7, TAB), (b"mkdir /a\tb /c", 9, TAB),
        (b"put \"/a b\" h0", 5, QUOTE), (b"'mkdir' /a", 1, QUOTE), (b"rm '/a b' /c", 4, QUOTE),
        (b"mkdir", 6, FEW + "mkdir PATH"), (b"put /a", 7, FEW + "put PATH FILE"), (b"rm", 3, FEW + "rm PATH"),
        (b"mv /a", 6, FEW + "mv FROM TO"), (b"setattr /", 10, FEW + "setattr PATH KIND HEX"),
        (b"rmattr /", 9, FEW + "rmattr PATH KIND"), (b"grow", 5, FEW + "grow COUNT"), (b"\\x72m", 6, FEW + "rm PATH"),
        (b"mk\\x64ir", 9, FEW + "mkdir PATH"),
        (b"mkdir /a /b", 10, MANY + "mkdir PATH"), (b"mkdir a.img /a", 13, MANY + "mkdir PATH"),
        (b"put /a h0 h1", 11, MANY + "put PATH FILE"), (b"put /a --from h0", 15, MANY + "put PATH FILE"),
        (b"rm /a /b", 7, MANY + "rm PATH"), (b"rm -r /a", 7, MANY + "rm PATH"), (b"mkdir -p /a", 10, MANY + "mkdir PATH"),
        (b"put -p /a h0", 11, MANY + "put PATH FILE"), (b"mv /it's /b /c", 13, MANY + "mv FROM TO"),
        (b"setattr / 74 01 02", 17, MANY + "setattr PATH KIND HEX"), (b"rmattr / 74 01", 13, MANY + "rmattr PATH KIND"),
        (b"grow 9 10", 8, MANY + "grow COUNT"), (b"grow --size 8k", 13, MANY + "grow COUNT"),
        (b"undo 2", 6, MANY + "undo"), (b"redo 2", 6, MANY + "redo"), (b"forget /", 8, MANY + "forget"),
        (b"put /a \\xff", 8, FILE), (b"put /a \xff", 8, FILE),
    )),
    *((line, BAD_HEX, 11, KIND) for line in (
        b"setattr / 7 01", b"setattr / 744 01", b"setattr / 7g 01", b"setattr / kind", b"setattr / \"7 01", b"setattr / x zz",
    )),
    *((line, BAD_HEX, 14, HEX) for line in (b"setattr / 74 0", b"setattr / 74 0g", b"setattr / 74 0x01")),
    *((line, BAD_HEX, 10, KIND) for line in (b"rmattr / 7", b"rmattr / zz")),
)


def lines_that_say_no_step(folder):
    """The first such line is told, before a file of the host or the image is looked at; no step is taken."""
    batch = Batch(folder)
    for line, first, column, wrong in BAD_LINES:
        flaw = f", column {column}: {wrong}"
        batch.refuses(line + b"\n", 1, 2, first, flaw=flaw)
        batch.refuses(b"mkdir /ok\r\n# more\n\nput /none none\n" + line + b"\nmake /b\nsetattr / 7\n", 5, 2, first, flaw=flaw)
    folder.image.unlink()
    for line, first, column, wrong in BAD_LINES:
        batch.refuses(b"mkdir /ok\n" + line, 2, 2, first, flaw=f", column {column}: {wrong}")


def ends_of_lines(folder):
    batch = Batch(folder)
    batch.takes("ends of lines", b"mkdir /a\r\n\r\n# none\r\nput /a/x h0\n\nmkdir /b\n#\nsetattr /b 74\r\nmkdir /c")
    batch.stands("ends of lines", {"/": (None, {}), "/a": (None, {}), "/a/x": ("h0", {}), "/b": (None, {0x74: b""}), "/c": (None, {})})
    batch.refuses(b"# one\r\n\r\nmkdir /d\r\nrm /none\r\nmkdir /e", 4, 1, NOT_FOUND)
    batch.takes("a number with a sign and zeros", b"grow +0080")
    folder.check("80 blocks", len(folder.old()) == 80 * 512)


def images_that_are_refused(folder):
    """A fault of the image or of its journal is told without a line."""
    batch = Batch(folder)
    one_by_one(batch, ["mkdir /a"])
    image, saved, _ = batch.files()
    rows = (
        ("another image", (image[:-512], saved), "lfsed: 11 Geometry\nlfsed: a.img: its superblock states 64 blocks of 512 bytes\n"),
        ("another journal", (image, saved[:-1] + b"\0"),
         "lfsed: 51 JournalMismatch\nlfsed: a.img.lfsj: belongs to another image; lfsed forget a.img drops it\n"),
        ("no journal", (image, b"lfsx"), "lfsed: 50 JournalFormat\n"),
    )
    for what, files, told in rows:
        for lines in ["rm /none"], ["mkdir /b"], ["forget"], ["undo"]:
            put_back(batch, files)
            ended = batch.batch(script(lines))
            folder.check(f"{what}: {lines}", ended == (3, told, b""), ended)
            folder.check(f"{what}: {lines}: files", batch.files() == (*files, []))


def later_commits(folder):
    """Commits of a later version are refused, as with other commands."""
    batch = Batch(folder)
    for text in b"mkdir /made\n", b"# none\n", b"mkdir /made\nmkdir /old\n":
        folder.be(APPENDED, 0)
        ended = batch.batch(text)
        folder.check(f"later: {text}", ended == (3, REFUSED_CHANGE, b""), ended)
        folder.check(f"later: {text}: files", batch.files() == (APPENDED, None, []))


def options_of_a_batch(folder):
    """The block size that the image states, names behind `--`, and links."""
    batch = Batch(folder)
    (batch.room / "-steps").write_bytes(b"mkdir /a\n")
    (batch.room / "-more").write_bytes(b"mkdir /b\n")
    batch.does("auto", ["batch", "--block", "auto", "--", "a.img", "-steps"])
    batch.does("a path with a dot", ["batch", "-b512", "a.img", "./-more"])
    (batch.room / "link.img").symlink_to("a.img")
    batch.does("a link", ["batch", "-b", "512", "link.img", "/dev/stdin"], b"mkdir /c\nput /c/x h0\n")
    batch.stands("three batches", {"/": (None, {}), "/a": (None, {}), "/b": (None, {}), "/c": (None, {}), "/c/x": ("h0", {})})
    folder.check("four changes", folder.saved()[16:24] == word(4) + word(0))


if __name__ == "__main__":
    sys.exit(run_scenes([
        all_of_a_script,
        none_of_a_script,
        batches_are_runs_line_by_line,
        a_line_that_says_nothing_takes_no_step,
        two_hundred_lines_one_by_one,
        the_last_line_is_taken_back_alone,
        the_history_moves_in_a_script,
        the_latest_changes_are_kept,
        steps_are_refused,
        what_is_made_in_a_script_counts,
        paths_of_any_bytes,
        files_of_the_host,
        a_file_is_read_once,
        scripts_that_are_not_read,
        scripts_without_steps,
        lines_that_say_no_step,
        ends_of_lines,
        images_that_are_refused,
        later_commits,
        options_of_a_batch,
    ]))
