#!/usr/bin/env python3
"""Runs the program on real files: faults of files, calls that fail, links, rights, leftovers, and pairs of runs on one image."""
import fcntl
import os
import pathlib
import pty
import resource
import shutil
import signal
import subprocess
import sys
import tempfile
import threading
import time

from support.later import LATER, stated, written
from support.logs import image
from support.refusing import Refusing

HOME = pathlib.Path(__file__).resolve().parent.parent
NOT_READ, NOT_WRITTEN = "lfsed: 60 CannotRead", "lfsed: 61 CannotWrite"
NOBODY = 65_534


class Files:
    """A folder with an image, and what was found wrong in it."""

    def __init__(self, program, folder):
        self.program, self.folder, self.ran, self.wrong = program, folder, 0, 0
        self.image = folder / "a.img"
        self.must(["format", "--block", "512", "--count", "64", "a.img"])

    def start(self, words, **how):
        """Starts the program in the folder."""
        pipes = {"stdin": subprocess.PIPE, "stdout": subprocess.PIPE, "stderr": subprocess.PIPE}
        return subprocess.Popen([self.program, *words], cwd=self.folder, **{**pipes, **how})

    def run(self, words, bytes_in=b"", **how):
        """Runs the program; answers its status and the lines of standard error."""
        started = self.start(words, **how)
        _, said = started.communicate(bytes_in, timeout=60)
        return started.returncode, said.decode().splitlines()

    def must(self, words, bytes_in=b""):
        """Runs what sets the scene."""
        status, said = self.run(words, bytes_in)
        assert status == 0, (words, status, said)

    def check(self, what, is_right, found=""):
        """Counts one thing that is to be so."""
        self.ran += 1
        if not is_right:
            self.wrong += 1
            print(f"wrong: {what}: {found}")

    def put(self, name, **how):
        """Puts a small file."""
        return self.run(["put", "--block", "512", "a.img", name], b"contents", **how)

    def holds(self, name, image="a.img"):
        """Whether an image has a file."""
        return self.run(["cat", "--block", "512", image, name])[0] == 0

    def refused(self, what, words, first, second, **how):
        """A run that ends with 4, these lines and unchanged files."""
        before = self.listing()
        status, said = self.run(words, b"contents", **how)
        self.check(f"{what}: status", status == 4, status)
        self.check(f"{what}: first line", said[:1] == [first], said)
        self.check(f"{what}: second line", second in "".join(said[1:]), said)
        self.check(f"{what}: files", self.listing() == before, self.listing())

    def put_back(self, listing):
        """Makes the folder what a listing says."""
        for file, found in self.listing().items():
            if file not in listing:
                file.unlink()
            elif found != listing[file]:
                file.write_bytes(listing[file])

    def listing(self):
        """Each file of the folder with its bytes."""
        files = sorted(self.folder.rglob("*"))
        return {file: file.read_bytes() if file.is_file() else None for file in files}


def what_is_no_image(files):
    check = ["check", "--block", "512"]
    put = ["put", "--block", "512"]
    (files.folder / "folder").mkdir()
    os.mkfifo(files.folder / "pipe")
    for name, said in ("none.img", "none.img: No such file"), ("folder", "folder: not a regular file"):
        files.refused(f"check {name}", [*check, name], NOT_READ, said)
        files.refused(f"put {name}", [*put, name, "/x"], NOT_READ, said)
        files.refused(f"check --offset {name}", [*check, "--offset", "512", name], NOT_READ, said)
        files.refused(f"find {name}", ["find", name], NOT_READ, said)
    for name in "pipe", "/dev/zero":
        for words in check, [*check, "--offset", "512"], ["find"]:
            files.refused(f"{words} {name}", [*words, name], NOT_READ, "not a regular file")
    files.refused("format folder", ["format", "--block", "512", "--count", "8", "folder"], NOT_WRITTEN, "folder: ")
    with open("/dev/full", "wb") as full:
        files.refused("full output", [*check, "a.img"], NOT_WRITTEN, "lfsed: standard output: No space left", stdout=full)
        files.refused("full output of what is found", ["find", "a.img"], NOT_WRITTEN, "lfsed: standard output: No space left", stdout=full)
        files.refused("full help", ["--help"], NOT_WRITTEN, "lfsed: standard output: No space left", stdout=full)
        files.refused("full explanation", ["explain", "41"], NOT_WRITTEN, "lfsed: standard output: No space left", stdout=full)
    status, said = files.run([*check[:2], "1024", "a.img"])
    files.check("another block size", said[1:] == ["lfsed: a.img: its superblock states 64 blocks of 512 bytes"], (status, said))


def output_that_nobody_reads(files):
    ours, theirs = os.pipe()
    os.close(ours)
    with os.fdopen(theirs, "wb") as pipe:
        files.refused("a broken pipe", ["check", "--block", "512", "a.img"], NOT_WRITTEN, "lfsed: standard output: Broken pipe", stdout=pipe)
        status, said = files.run(["mkdir", "--block", "512", "a.img", "/piped"], stdout=pipe)
        files.check("a change prints nothing", status == 0 and not said, (status, said))


# How many bytes standard output takes, and a run that prints them.
CUT = (
    (9, ["check", "--block", "512", "a.img"], b"block 512"),
    (52, ["check", "--block", "512", "a.img"], b"block 512, count 64, free 54, directories 1, files 1"),
    (20, ["--help"], b"Edit littlefs images"),
    (8, ["find", "a.img"], b"0x0  ver"),
    (7, ["explain", "41"], b"41 IsRo"),
    (1_000, ["cat", "--block", "512", "a.img", "/large"], 1_000 * b"7"),
    (20, ["ls", "--block", "512", "a.img"], b"d          - /\nf    "),
    (11, ["blocks", "--block", "512", "a.img"], b"0-1 d /\n2-9"),
    (9, ["blocks", "--sum", "--block", "512", "a.img"], b"10 d /\n8 "),
)


def input_that_is_typed(files):
    """Who types contents or a script is told that they are read, and nobody else."""
    told = ["lfsed: reads from standard input, up to its end (Ctrl-D)"]
    for words, typed in (["put", "--block", "512", "a.img", "/typed"], b"typed\n"), (["batch", "--block", "512", "a.img"], b"mkdir /new\n"):
        ours, theirs = pty.openpty()
        os.write(ours, typed + b"\x04")
        ended = files.run(words, stdin=theirs)
        files.check(f"{words[0]} on a terminal", ended == (0, told), ended)
        for name in ours, theirs:
            os.close(name)
    listed = subprocess.run([files.program, "ls", "--block", "512", "a.img"], cwd=files.folder, capture_output=True, timeout=60).stdout
    files.check("what was typed", listed == b"d          - /\nd          - /new\nf          6 /typed\n", listed)
    (files.folder / "small").write_bytes(b"small")
    ours, theirs = pty.openpty()
    ended = files.run(["put", "--block", "512", "--from", "small", "a.img", "/from"], stdin=theirs)
    files.check("a file on a terminal", ended == (0, []), ended)
    for name in ours, theirs:
        os.close(name)
    files.check("a pipe", files.put("/piped") == (0, []))


def output_that_is_cut(files):
    """Standard output takes so many bytes, and refuses the rest: it has got the beginning of what is printed."""
    files.must(["put", "--block", "512", "a.img", "/large"], 4_000 * b"7")
    for room, words, beginning in CUT:
        with tempfile.TemporaryFile() as out:
            before = files.listing()
            status, said = files.run(words, stdout=out, preexec_fn=lambda: limit_files(room))
            out.seek(0)
            printed = out.read()
        is_told = status == 4 and said[0] == NOT_WRITTEN and said[1].startswith("lfsed: standard output: File too large")
        files.check(f"{room} bytes of {words}", is_told and printed == beginning, (status, said, printed[:80]))
        files.check(f"files behind {words}", files.listing() == before)


def an_image_that_another_keeps(files):
    """A run that changes an image which another program keeps ends with 61, and one that reads it reads it."""
    make_source(files)
    with open(files.image, "rb") as kept:
        fcntl.flock(kept, fcntl.LOCK_EX)
        for words in (
            ["mkdir", "--block", "512", "a.img", "/d"], ["format", "--block", "512", "--count", "8", "a.img"],
            ["repack", "--block", "512", "a.img", "a.img"], ["sync", "--block", "512", "a.img", "src"],
            ["mkdir", "--block", "512", "-p", "a.img", "/d/e"],
        ):
            files.refused(f"{words[0]} of an image that is kept", words, NOT_WRITTEN, "")
        for words in (
            ["check", "--block", "512", "a.img"], ["check", "--block", "512", "--device", "a.img"],
            ["repack", "--block", "512", "b.img", "a.img"], ["check", "--block", "512", "--offset", "0", "a.img"], ["find", "a.img"],
        ):
            status, said = files.run(words)
            files.check(f"an image that is kept is read: {words}", status == 0 and not said, (status, said))
    files.must(["mkdir", "--block", "512", "a.img", "/d"])
    with tempfile.TemporaryDirectory() as folder:
        os.chmod(folder, 0o755)
        locked_first(files, Refusing(pathlib.Path(folder)))


def locked_first(files, refusing):
    """A run that changes an image asks for its lock before it reads anything: its first read would fail, and there is none."""
    with open(files.image, "rb") as kept:
        fcntl.flock(kept, fcntl.LOCK_EX)
        for command, *words in (
            ["mkdir", "a.img", "/e"], ["put", "a.img", "/f"], ["rm", "a.img", "/d"], ["undo", "a.img"], ["forget", "a.img"],
            ["adopt", "a.img"], ["grow", "a.img", "70"], ["repack", "--from-block", "512", "a.img", "a.img"],
        ):
            status, said = files.run([command, "--block", "512", *words], b"contents", env=refusing.env(1, "read"))
            files.check(f"{command} reads nothing of an image that is kept", status == 4 and not refusing.was_hit(), (status, said))


def make_source(files):
    """A folder that an image is made like."""
    (files.folder / "src/d").mkdir(parents=True)
    (files.folder / "src/d/f").write_bytes(b"contents")


# Runs, and for each the calls of the C library that it makes. What a folder is read by is tried in tests/syncing.py too, where a file
# whose length isn't known may be read all the same.
RUNS_THAT_CALL = (
    (["check", "a.img"], "open read write statx"),
    (["check", "--device", "a.img"], "open read write statx"),
    (["put", "a.img", "/f"], "open read write statx flock fchmod fsync rename"),
    (["put", "link.img", "/f"], "open read write statx flock fchmod fsync rename realpath"),
    (["batch", "a.img", "steps"], "open read write statx flock fchmod fsync rename"),
    (["batch", "--one", "a.img", "steps"], "open read write statx flock fchmod fsync rename"),
    (["sync", "a.img", "src"], "open read write flock fchmod fsync rename"),
    (["sync", "link.img", "src", "/synced"], "open read write flock fchmod fsync rename realpath"),
    (["rm", "-r", "a.img", "/old"], "open read write statx flock fchmod fsync rename"),
    (["mkdir", "-p", "a.img", "/x/y"], "open read write statx flock fchmod fsync rename"),
    (["put", "-p", "a.img", "/x/y"], "open read write statx flock fchmod fsync rename"),
    (["undo", "a.img"], "open read write statx flock fchmod fsync rename"),
    (["forget", "a.img"], "open read write statx flock fchmod fsync rename"),
    (["format", "--count", "8", "a.img"], "open write statx flock fchmod fsync rename"),
    (["format", "--count", "8", "new.img"], "open write statx flock fsync link"),
    (["repack", "--from-block", "512", "--device", "a.img", "b.img"], "open read write statx flock fchmod fsync rename"),
    (["repack", "--from-block", "512", "new.img", "b.img"], "open read write statx flock fsync link"),
    (["repack", "--from-block", "512", "a.img", "a.img"], "open read write statx flock fchmod fsync rename"),
    (["check", "--offset", "700", "flash.bin"], "open lseek read write statx"),
    (["check", "--device", "--offset", "700", "flash.bin"], "open lseek read write statx"),
    (["repack", "--from-block", "512", "--offset", "700", "b.img", "flash.bin"], "open lseek read write statx flock fchmod fsync rename"),
    (["find", "flash.bin"], "open read write statx"),
    (["adopt", "device.img"], "open read write statx flock fchmod fsync rename"),
)


def calls_that_fail(files):
    """Each call of each run fails in turn: the run ends with 60 or 61 and a second line, and no file has changed, or the
    journal alone where the image didn't get its place behind it."""
    files.must(["put", "--block", "512", "a.img", "/old"], b"contents")
    (files.folder / "link.img").symlink_to("a.img")
    files.must(["format", "--block", "512", "--count", "16", "b.img"])
    (files.folder / "steps").write_bytes(b"mkdir /made\nsetattr /old 74 01\n")
    make_source(files)
    (files.folder / "flash.bin").write_bytes(bytes(700) + files.image.read_bytes() + bytes(99))
    (files.folder / "device.img").write_bytes(image(512, 8, {0: written(1, 512, stated(LATER, 512, 8))}))
    with tempfile.TemporaryDirectory() as folder:
        os.chmod(folder, 0o755)
        refusing = Refusing(pathlib.Path(folder))
        for (command, *words), calls in RUNS_THAT_CALL:
            sized = [command] if command == "find" else [command, "--block", "512"]
            for call in calls.split():
                fail_in_turn(files, [*sized, *words], call, refusing)


def with_the_journal_of(before, after):
    """Files as they were but for the one journal that a run leaves."""
    return {**before, **{file: data for file, data in after.items() if file.suffix == ".lfsj"}}


def fail_in_turn(files, words, call, refusing):
    """Each call of a name fails in turn in a run, which ends with a fault, or is done as without it, where the call only kept a
    descriptor free or waited for the folder's names. What the run leaves is put back behind each."""
    before = files.listing()
    status, said = files.run(words, b"contents")
    done = files.listing()
    between = with_the_journal_of(before, done)
    files.check(f"{words} without a fault", status == 0, (status, said))
    files.put_back(before)
    at, is_hit = 0, True
    while is_hit:
        at += 1
        status, said = files.run(words, b"contents", env=refusing.env(at, call))
        is_hit, left = refusing.was_hit(), files.listing()
        is_told = status == 4 and said[:1] in ([NOT_READ], [NOT_WRITTEN]) and len(said) == 2
        is_spared = left in (before, between if call in ("statx", "rename", "link") else before)
        is_done = status == 0 and not said and left == done and (not is_hit or call in ("open", "fsync"))
        files.check(f"{call} {at} in {words}", is_told and is_spared if is_hit and not is_done else is_done, (status, said, [*left]))
        files.put_back(before)
    files.check(f"{call} in {words}", at > 1)
    if call == "fsync":
        files.check(f"files and folder that {words} wait for", at - 1 == (2 if words[0] == "forget" else 3), at - 1)


def links_and_rights(files):
    link = files.folder / "link.img"
    link.symlink_to("a.img")
    files.must(["put", "--block", "512", "link.img", "/by-link"], b"contents")
    files.check("a link stays", link.is_symlink())
    files.check("a link's target is changed", files.holds("/by-link"))
    files.image.chmod(0o600)
    files.must(["put", "--block", "512", "a.img", "/mode"], b"contents")
    journal = files.image.with_name("a.img.lfsj")
    files.check("a journal has its image's rights", journal.stat().st_mode & 0o777 == 0o600, oct(journal.stat().st_mode))
    files.check("a link has no journal of its own", not (files.folder / "link.img.lfsj").exists())
    files.check("rights stay", files.image.stat().st_mode & 0o777 == 0o600, oct(files.image.stat().st_mode))
    files.run(["format", "--block", "512", "--count", "8", "new.img"], preexec_fn=lambda: os.umask(0o027))
    made = files.folder / "new.img"
    files.check("a new image has the umask's rights", made.stat().st_mode & 0o777 == 0o640, oct(made.stat().st_mode))


def write_protected(files):
    """A file that nobody has the right to write isn't replaced, whoever runs the program; nor is its journal."""
    files.must(["mkdir", "--block", "512", "a.img", "/kept"])
    make_source(files)
    files.image.chmod(0o444)
    for words in (
        ["put", "--block", "512", "a.img", "/f"], ["undo", "--block", "512", "a.img"], ["forget", "--block", "512", "a.img"],
        ["format", "--block", "512", "--count", "8", "a.img"], ["repack", "--block", "512", "a.img", "a.img"],
        ["sync", "--block", "512", "a.img", "src"], ["rm", "--block", "512", "-r", "a.img", "/kept"],
    ):
        files.refused(f"write-protected: {words[0]}", words, NOT_WRITTEN, "a.img: is write-protected")
    files.must(["ls", "--block", "512", "a.img"])
    files.image.chmod(0o644)
    files.must(["undo", "--block", "512", "a.img"])


def owners(files):
    """Who may give files away keeps the owner and the group of an image, and its journal gets them."""
    if os.geteuid() != 0:
        return
    os.chown(files.image, NOBODY, NOBODY - 1)
    files.image.chmod(0o640)
    files.must(["mkdir", "--block", "512", "a.img", "/owned"])
    for name in "a.img", "a.img.lfsj":
        found = (files.folder / name).stat()
        files.check(f"the owner of {name}", (found.st_uid, found.st_gid, found.st_mode & 0o777) == (NOBODY, NOBODY - 1, 0o640), found)


def close(numbers):
    """Closes standard files."""
    for number in numbers:
        os.close(number)


def standard_files_that_are_closed(files):
    """Standard input, output and error may be closed, each of them: no file of the program takes their place."""
    put = ["put", "--block", "512", "a.img", "/x"]
    said = "lfsed: standard input: it is closed"
    files.refused("closed input", put, NOT_READ, said, preexec_fn=lambda: close([0]))
    files.refused("closed input, with parents", [*put[:3], "-p", "a.img", "/n/x"], NOT_READ, said, preexec_fn=lambda: close([0]))
    check = ["check", "--block", "512", "a.img"]
    files.refused("closed output", check, NOT_WRITTEN, "lfsed: standard output: ", preexec_fn=lambda: close([1]))
    for set_of in range(8):
        closed = [number for number in range(3) if set_of >> number & 1]
        status, _ = files.run(["mkdir", "--block", "512", "a.img", f"/closed{set_of}"], preexec_fn=lambda: close(closed))
        files.check(f"a change without {closed}", status == 0, status)
        status, _ = files.run(["mkdir", "-p", "--block", "512", "a.img", f"/closed{set_of}/n/m"], preexec_fn=lambda: close(closed))
        files.check(f"directories without {closed}", status == 0, status)
        status, _ = files.run(put, b"contents", preexec_fn=lambda: close(closed))
        files.check(f"contents without {closed}", status == (4 if 0 in closed else 0), status)
    printed = subprocess.run([files.program, "ls", "--block", "512", "a.img"], cwd=files.folder, stdout=subprocess.PIPE, text=True).stdout
    files.check("what they left", all(f"/closed{set_of}\n" in printed for set_of in range(8)), printed)


def images_that_are_new(files):
    """With `--new` nothing is replaced that is there."""
    words = ["--block", "512", "--count", "8", "--new"]
    (files.folder / "gone.img").symlink_to("nowhere.img")
    (files.folder / "full").mkdir()
    for name in "a.img", "gone.img", "full":
        there = f"lfsed: {name}: something is there already"
        files.refused(f"a new image: {name}", ["format", *words, name], NOT_WRITTEN, there)
        files.refused(f"a new image of a folder: {name}", ["pack", *words, name, "full"], NOT_WRITTEN, there)
        files.refused(f"a new image of another: {name}", ["repack", *words, name, "a.img"], NOT_WRITTEN, there)
    for command in ["format", *words, "one.img"], ["pack", *words, "two.img", "full"], ["repack", *words, "three.img", "a.img"]:
        files.must(command)
        files.refused(f"{command[0]} again", command, NOT_WRITTEN, f"lfsed: {command[6]}: something is there already")


def contents_of_a_file(files):
    """`--from` reads the contents from a file, of which a second line tells where it can't be read."""
    (files.folder / "some").write_bytes(b"some contents")
    (files.folder / "room").mkdir()
    put = ["put", "--block", "512", "a.img", "/from", "--from"]
    files.must([*put, "some"], b"not these")
    cat = [files.program, "cat", "--block", "512", "a.img", "/from"]
    printed = subprocess.run(cat, cwd=files.folder, stdout=subprocess.PIPE).stdout
    files.check("contents of a file", printed == b"some contents", printed)
    files.refused("a file that isn't there", [*put, "none"], NOT_READ, "lfsed: none: No such file")
    files.refused("a folder", [*put, "room"], NOT_READ, "lfsed: room: it is a folder")
    files.must([*put, "/dev/stdin"], b"typed")
    printed = subprocess.run(cat, cwd=files.folder, stdout=subprocess.PIPE).stdout
    files.check("contents of a pipe", printed == b"typed", printed)


def leftovers(files):
    left = files.folder / "a.img.new"
    left.write_bytes(b"left over")
    files.check("a leftover is replaced", files.put("/leftover")[0] == 0 and files.holds("/leftover"))
    files.check("nothing is left over", not left.exists())
    other = files.folder / "other"
    other.write_bytes(b"other")
    left.symlink_to("other")
    files.refused("a link in the way", ["mkdir", "--block", "512", "a.img", "/d"], NOT_WRITTEN, "a.img: not a regular file")
    left.unlink()
    left.mkdir()
    files.refused("a folder in the way", ["mkdir", "--block", "512", "a.img", "/d"], NOT_WRITTEN, "a.img: not a regular file")
    left.rmdir()
    left = files.folder / "a.img.lfsj.new"
    left.write_bytes(b"left over")
    files.check("a journal's leftover is replaced", files.put("/again")[0] == 0 and not left.exists())


def journals_that_are_no_files(files):
    """What has the journal's name and is no regular file is neither read nor written."""
    journal, mkdir = files.folder / "a.img.lfsj", ["mkdir", "--block", "512", "a.img", "/d"]
    journal.unlink()
    journal.mkdir()
    said = "the journal of a.img: not a regular file"
    files.refused("a folder as a journal", mkdir, NOT_READ, said)
    for words in ["forget", "--block", "512", "a.img"], ["format", "--block", "512", "--count", "8", "a.img"]:
        files.refused(f"a folder in the journal's place: {words[0]}", words, NOT_WRITTEN, said)
    journal.rmdir()
    files.must(mkdir)


def limit_files(length):
    """No file grows past a length."""
    signal.signal(signal.SIGXFSZ, signal.SIG_IGN)
    resource.setrlimit(resource.RLIMIT_FSIZE, (length, length))


def disks_that_refuse(files):
    mkdir = ["mkdir", "--block", "512", "a.img", "/d"]
    files.refused("a full disk", mkdir, NOT_WRITTEN, "a.img: ", preexec_fn=lambda: limit_files(8_192))
    repack = ["repack", "--block", "512", "a.img", "a.img"]
    files.refused("a full disk for a new image", repack, NOT_WRITTEN, "a.img: ", preexec_fn=lambda: limit_files(8_192))
    for number in range(40):
        files.must(["put", "--block", "512", "a.img", "/f"], bytes([number]))
    journal = "the journal of a.img: File too large"
    files.refused("no room for the journal", mkdir, NOT_WRITTEN, journal, preexec_fn=lambda: limit_files(33_000))
    if os.geteuid() == 0:
        files.folder.chmod(0o555)
        files.image.chmod(0o644)
        files.refused("a read-only folder", mkdir, NOT_WRITTEN, "a.img: Permission denied", user=NOBODY)
        files.image.chmod(0o600)
        files.refused("an unreadable image", mkdir, NOT_READ, "a.img: Permission denied", user=NOBODY)
        files.refused("an unreadable file", ["find", "a.img"], NOT_READ, "a.img: Permission denied", user=NOBODY)
        files.image.chmod(0o644)
        files.image.with_name("a.img.lfsj").chmod(0o600)
        files.refused("an unreadable journal", mkdir, NOT_READ, "the journal of a.img: Permission denied", user=NOBODY)
        files.folder.chmod(0o755)


def pairs_of_runs(files):
    """Two runs on one image at a time: each change is in the image, or was refused with 61."""
    files.must(["format", "--block", "512", "--count", "1024", "a.img"])
    for pair in range(100):
        names = [f"/{pair}{letter}" for letter in "ab"]
        runs = [files.start(["put", "--block", "512", "a.img", name]) for name in names]
        said = [run.communicate(b"contents", timeout=60)[1].decode() for run in runs]
        for name, run, text in zip(names, runs, said):
            accepted = run.returncode == 0
            told = accepted or run.returncode == 4 and text.startswith(NOT_WRITTEN)
            files.check(f"pair {pair}", told and files.holds(name) == accepted, (run.returncode, text))
    files.check("the image of all pairs", files.run(["check", "--block", "512", "a.img"])[0] == 0)
    files.check("nothing is left of pairs", not (files.folder / "a.img.new").exists())


def a_reader_beside_a_writer(files):
    """A run that lists an image's changes beside runs that make some reads both files of one state."""
    files.must(["format", "--block", "512", "--count", "64", "a.img"])
    until = time.monotonic() + 10
    writer = threading.Thread(target=lambda: change_until(files, until))
    writer.start()
    ended = []
    while time.monotonic() < until:
        ended.append(files.run(["log", "--block", "512", "a.img"]))
    writer.join()
    wrong = [it for it in ended if it != (0, [])]
    files.check(f"log beside a writer, {len(ended)} times", ended and not wrong, wrong[:3])


def change_until(files, until):
    """Puts a file again and again up to a time."""
    while time.monotonic() < until:
        files.must(["put", "--block", "512", "--keep", "3", "a.img", "/f"], os.urandom(300))


SCENES = (
    what_is_no_image,
    output_that_nobody_reads,
    input_that_is_typed,
    output_that_is_cut,
    an_image_that_another_keeps,
    calls_that_fail,
    links_and_rights,
    write_protected,
    owners,
    standard_files_that_are_closed,
    images_that_are_new,
    contents_of_a_file,
    leftovers,
    journals_that_are_no_files,
    disks_that_refuse,
    pairs_of_runs,
    a_reader_beside_a_writer,
)


def main():
    subprocess.run([HOME / "bin/lfsed", "--help"], stdout=subprocess.DEVNULL, check=True)
    ran = wrong = 0
    with tempfile.TemporaryDirectory() as programs:
        os.chmod(programs, 0o755)
        program = shutil.copy(HOME / "crates/lfsed/out/lfsed", programs)
        for scene in SCENES:
            with tempfile.TemporaryDirectory() as folder:
                os.chmod(folder, 0o755)
                files = Files(program, pathlib.Path(folder))
                scene(files)
                ran, wrong = ran + files.ran, wrong + files.wrong
    print(f"{ran - wrong} passed, {wrong} failed")
    return 1 if wrong else 0


sys.exit(main())
