#!/usr/bin/env python3
"""Calls share/lfsed/mklittlefs with the words of builds for PlatformIO and Arduino, and compares what it makes with what lfsed does; tries
what it leaves out, ignores and refuses, what it copies, and what an interrupted run leaves."""
import os
import pathlib
import shutil
import signal
import subprocess
import sys
import tempfile

from support.counts import Counts
from support.folder import HOME, PROGRAM

SCRIPT = HOME / "share/lfsed/mklittlefs"
SAID = "mklittlefs (lfsed): "
NEEDED = "a device needs block_size {} and name_max {} or more; with cache_size {} or more it changes each file in place"
# Words by which an image of the folder `data` is made, and what lfsed takes for them.
CALLS = [
    ("-c data -s 131072 -p 256 -b 4096 a.img", "--block 4096 --size 131072 --inline-max 256"),
    ("-c data -p 2048 -b 8192 -s 0x40000 a.img", "--block 8192 --size 0x40000 --inline-max 2048"),
    ("-c data a.img", "--block 4096 --size 65536"),
    ("-d 5 a.img -b 512 -c data -s 64k", "--block 512 --size 64k"),
    ("-c data -b 0512 a.img", "--block 512 --size 65536"),
    ("-c data -b +04096 -p 0256 a.img", "--block 4096 --size 65536 --inline-max 256"),
    ("-c -d a.img", "--block 4096 --size 65536"),
    ("--create data --page 256 --block 4096 --size 131072 a.img", "--block 4096 --size 131072 --inline-max 256"),
    ("--create=data a.img --page=2048 --block=8192 --size=0x40000", "--block 8192 --size 0x40000 --inline-max 2048"),
    ("--debug 5 a.img -b 512 --create data -s 64k", "--block 512 --size 64k"),
    ("--size 64k -cdata -b512 --debug=5 --all-files -- a.img", "--block 512 --size 64k"),
    ("--create -d --block 512 a.img", "--block 512 --size 65536"),
]
# Words that are refused, and what is said of them.
REFUSED = [
    ("", "one of -c, -u and -l has to be said"),
    ("-c data", "IMAGE has to be said"),
    ("-c data -l a.img", "exactly one of -c, -u and -l is needed"),
    ("-c data a.img b.img", "a second IMAGE: b.img"),
    ("-c data a.img -s", "no value follows -s"),
    ("-T list -c data a.img", "-T isn't taken"),
    ("-c none a.img", "none: no folder is there"),
    ("-c -s 64k data a.img", "no DIR follows -c, but -s; a folder of that name is ./-s"),
    ("-u -b data a.img", "no DIR follows -u, but -b; a folder of that name is ./-b"),
    ("--create data --list a.img", "exactly one of -c, -u and -l is needed"),
    ("--create data a.img --size", "no value follows --size"),
    ("--create", "no value follows --create"),
    ("--create --list a.img", "no DIR follows --create, but --list; a folder of that name is ./--list"),
    ("--from-file list -c data a.img", "--from-file isn't taken"),
    ("--sizes=64 -c data a.img", "--sizes isn't taken"),
    ("--list=yes a.img", "--list takes no value"),
    ("-V", "-V isn't taken"),
]


class Room:
    """A folder in which the script is called."""

    def __init__(self, counts, place):
        self.counts, self.place = counts, place
        (place / "data/www").mkdir(parents=True)
        (place / "data/config").write_text("wifi=on\n")
        (place / "data/www/two words").write_text("hello" * 60)
        shutil.copytree(place / "data", place / "-d")
        (place / "copies").mkdir()

    def run(self, program, words, **env):
        """Runs a program, which copies into the folder `copies`; answers its status, what it prints and what it complains."""
        command = [program, *(words.split(" ") if isinstance(words, str) else words)]
        env = {**os.environ, "TMPDIR": str(self.place / "copies"), **env}
        ended = subprocess.run([word for word in command if word], cwd=self.place, capture_output=True, text=True, check=False, env=env)
        return ended.returncode, ended.stdout, ended.stderr

    def makes(self, words, as_lfsed, name_max=32, **env):
        """An image is made as lfsed makes it, without a journal; answers what is said."""
        status, printed, said = self.run(SCRIPT, words, **env)
        self.counts.check(words, (status, printed) == (0, ""), (status, printed, said))
        packed = self.run(PROGRAM, f"pack --name-max {name_max} {as_lfsed} wanted.img data")
        self.counts.check(f"{words}: lfsed", packed == (0, "", ""), packed)
        same = (self.place / "a.img").read_bytes() == (self.place / "wanted.img").read_bytes()
        self.counts.check(f"{words}: image", same and not (self.place / "a.img.lfsj").exists())
        return said


def creates(room):
    """The words of builds, and what is said of them."""
    for words, as_lfsed in CALLS:
        said = room.makes(words, as_lfsed).splitlines()
        block = int(as_lfsed.split(" ")[1])
        most = int(as_lfsed.partition("--inline-max ")[2] or 1_022)
        ignored = [f"{SAID}ignored: {word}5" for word in ("-d ", "--debug ", "--debug=") if f"{word}5" in words]
        ignored = [line.replace("=", " ") for line in ignored]
        room.counts.check(f"{words}: said", said == [*ignored, SAID + NEEDED.format(block, 32, min(most, block // 8, 1_022))], said)
    said = room.makes("-c data a.img", "--size 65536", 64, LFSED_NAME_MAX="64")
    room.counts.check("LFSED_NAME_MAX", "name_max 64" in said, said)
    (room.place / "link.img").symlink_to("a.img")
    ended = room.run(SCRIPT, "-c data link.img")
    room.counts.check("IMAGE is a link", ended[0] == 0 and not [*room.place.glob("[al]*.lfsj")], ended)


def unpacks_and_lists(room):
    """What an image holds, in a new folder and in one that is there; rows."""
    room.run(SCRIPT, "-c data a.img")
    (room.place / "there").mkdir()
    (room.place / "there/kept").write_text("kept")
    (room.place / "there/config").write_text("old")
    os.link(room.place / "there/config", room.place / "other name")
    for folder, more in ("new", set()), ("there", {"kept"}):
        ended = room.run(SCRIPT, f"-u {folder} a.img")
        found = {str(path.relative_to(room.place / folder)) for path in (room.place / folder).rglob("*")}
        room.counts.check(f"-u {folder}", ended == (0, "", "") and found == {"config", "www", "www/two words"} | more, (ended, found))
        room.counts.check(f"-u {folder}: contents", (room.place / folder / "config").read_text() == "wifi=on\n")
    room.counts.check("-u: a file of two names", (room.place / "other name").read_text() == "old")
    for words in "-l a.img", "--list a.img", "a.img --block=4096 --list":
        room.counts.check(words, room.run(SCRIPT, words) == room.run(PROGRAM, "ls a.img"))
    ended = room.run(SCRIPT, "--unpack=longer a.img")
    room.counts.check("--unpack", ended == (0, "", "") and (room.place / "longer/config").read_text() == "wifi=on\n", ended)


def tells_of_itself(room):
    """Which lfsed is run, and the words that are taken."""
    version = room.run(PROGRAM, "--version")[1].strip()
    room.counts.check("--version", room.run(SCRIPT, "--version") == (0, f"mklittlefs ({version})\n", ""))
    short, long = room.run(SCRIPT, "-h"), room.run(SCRIPT, "--help")
    room.counts.check("--help", short == long and short[1].startswith("Usage: mklittlefs ") and short[0] == 0, long)


def writes_through_no_link(room):
    """Links in a folder stop what is put into it, before anything is written; one to the folder itself doesn't."""
    room.run(SCRIPT, "-c data a.img")
    (room.place / "away").mkdir()
    for name, to in ("config", "away/file"), ("www", "away"), ("www/two words", "away/nowhere"):
        folder = room.place / f"to {name.replace('/', ' ')}"
        (folder / name).parent.mkdir(parents=True)
        (room.place / "away/file").write_text("mine")
        (folder / name).symlink_to(room.place / to)
        before = sorted(folder.rglob("*"))
        status, _, said = room.run(SCRIPT, ["-u", folder.name, "a.img"])
        wanted = f"{SAID}{folder.name}: links are in the way, and nothing is written: ./{name} \n"
        room.counts.check(f"-u, a link {name}", (status, said) == (1, wanted), (status, said))
        left = (room.place / "away/file").read_text(), [path.name for path in (room.place / "away").iterdir()], sorted(folder.rglob("*"))
        room.counts.check(f"-u, a link {name}: left", left == ("mine", ["file"], before), left)
    (room.place / "in").symlink_to("away")
    ended = room.run(SCRIPT, "-u in a.img")
    room.counts.check("-u, DIR is a link", ended == (0, "", "") and (room.place / "away/config").exists(), ended)


def copies(room):
    """What is packed is copied only where links are followed or something is left out, and no copy is left, whatever rights it has."""
    (room.place / "data/www").chmod(0o555)
    ended = room.run(SCRIPT, "-c data a.img", TMPDIR="/nowhere")
    room.counts.check("nothing is copied", ended[0] == 0, ended)
    (room.place / "data/link").symlink_to("www")
    ended = room.run(SCRIPT, "-c data a.img")
    room.counts.check("rights of a copy", ended[0] == 0, ended)
    room.run(SCRIPT, "-u new a.img")
    left = [*(room.place / "copies").iterdir()]
    room.counts.check("no copy is left", not left, left)
    (room.place / "data/www").chmod(0o755)


def is_interrupted(room):
    """A run that a signal ends leaves no copy."""
    copies, seen, script = room.place / "copies", room.place / "seen", room.place / "share/lfsed/mklittlefs"
    (room.place / "data/link").symlink_to("www")
    (room.place / "bin").mkdir()
    script.parent.mkdir(parents=True)
    script.write_bytes(SCRIPT.read_bytes())
    for number in signal.SIGHUP, signal.SIGINT, signal.SIGTERM:
        # In place of lfsed, what sends the signal to all that this run has started.
        (room.place / "bin/lfsed").write_text(f"#!/bin/sh\nls '{copies}' > '{seen}'\nkill -{int(number)} 0\nsleep 60\n")
        (room.place / "bin/lfsed").chmod(0o755)

        def heed(number=number):
            """Undoes that a run in the background is deaf to some signals."""
            signal.signal(number, signal.SIG_DFL)
        ended = subprocess.run(
            ["sh", script, "-c", "data", "a.img"], cwd=room.place, env=dict(os.environ, TMPDIR=str(copies)), capture_output=True,
            check=False, start_new_session=True, preexec_fn=heed)
        found = ended.returncode, bool(seen.read_text()), [*copies.iterdir()]
        room.counts.check(number.name, found == (128 + number, True, []), found)


def leaves_out(room):
    """Links are followed; what belongs to git or to a desktop is left out, but for -a."""
    data = room.place / "data"
    (data / ".git").mkdir()
    (data / ".git/config").write_text("git")
    (data / "www/.DS_Store").write_text("store")
    (data / "link").symlink_to("www")
    (room.place / "away").symlink_to("data")
    all_else = {"/.git", "/.git/config", "/link/.DS_Store", "/www/.DS_Store"}
    for words, more in ("-c data", set()), ("-c data -a", all_else), ("-c data --all-files", all_else), ("-c away", set()):
        said = room.run(SCRIPT, f"{words} a.img")[2]
        found = {line[13:] for line in room.run(PROGRAM, "ls a.img")[1].splitlines()}
        plain = {"/", "/config", "/link", "/link/two words", "/www", "/www/two words"}
        room.counts.check(words, found == plain | more, found ^ plain)
        left = "" if more else f"{SAID}left out without -a: ./.git ./link/.DS_Store ./www/.DS_Store \n"
        room.counts.check(f"{words}: said", said.startswith(left + SAID) if left else "left out" not in said, said)


def refuses(room):
    """Words that aren't taken, and what lfsed refuses: its fault is told, and its status is that of the script."""
    for words, said in REFUSED:
        ended = room.run(SCRIPT, words)
        room.counts.check(words or "no words", ended[0] == 2 and ended[2].startswith(f"{SAID}{said}\nUsage: "), ended)
    (room.place / "long").mkdir()
    (room.place / "long" / ("n" * 33)).write_text("")
    ended = room.run(SCRIPT, "-c long b.img")
    room.counts.check("a long name", ended[0] == 1 and ended[2].startswith("lfsed: 36 NameTooLong\n"), ended)
    room.counts.check("a long name: no image", not (room.place / "b.img").exists())
    ended = room.run(SCRIPT, "-l none.img")
    room.counts.check("no image", ended[0] == 4 and ended[2].startswith("lfsed: 60 CannotRead\n"), ended)


def is_found_elsewhere(room):
    """A link to the script finds lfsed beside the script itself; a copy of it, on the path."""
    (room.place / "tool").symlink_to(SCRIPT)
    (room.place / "copy").write_bytes(SCRIPT.read_bytes())
    (room.place / "copy").chmod(0o755)
    (room.place / "bin").mkdir()
    (room.place / "bin/lfsed").symlink_to(PROGRAM)
    room.counts.check("a link", room.run("./tool", "-c data a.img")[0] == 0)
    path = f"{room.place / 'bin'}:{os.environ['PATH']}"
    room.counts.check("a copy", room.run("./copy", "-c data a.img", PATH=path)[0] == 0)


def main():
    subprocess.run([HOME / "bin/lfsed", "--help"], stdout=subprocess.DEVNULL, check=True)
    counts = Counts()
    for scene in creates, unpacks_and_lists, tells_of_itself, writes_through_no_link, refuses, is_found_elsewhere, leaves_out, copies, is_interrupted:
        with tempfile.TemporaryDirectory() as name:
            scene(Room(counts, pathlib.Path(name)))
    return counts.end()


sys.exit(main())
