"""A folder in which the program is run, and counts of what was right and wrong."""
import pathlib
import random
import subprocess
import tempfile

HOME = pathlib.Path(__file__).resolve().parent.parent.parent
PROGRAM = HOME / "crates/lfsed/out/lfsed"


def contents(length):
    """The contents of a file, as they come from standard input."""
    return bytes(n % 251 for n in range(length))


def is_told(complained, complaint):
    """Whether this is what was complained, or its first lines: what more is known of a fault of the image may stand behind them, which
    tests/told.py has."""
    more = complained.removeprefix(complaint)
    return complained == complaint or bool(complaint) and complained != more and all(
        line.startswith(("lfsed: a.img: ", "lfsed: a.img.lfsj: ")) for line in more.splitlines())


def spread(place, chance, sizes):
    """Makes a folder of files of these sizes in 300 folders, as chance has it."""
    places = [place]
    place.mkdir()
    for n in range(299):
        places.append(chance.choice(places[-40:]) / f"folder{n}")
        places[-1].mkdir()
    for n, size in enumerate(sizes):
        (chance.choice(places) / f"{chance.choice('abc')}{n}").write_bytes(chance.randbytes(size))


def fill(place):
    """Makes a folder of 5,000 files of mixed sizes in 300 folders, always the same."""
    chance = random.Random(5)
    spread(place, chance, [chance.choice([0, 1, 60, 511, 512, 513, 3_000, chance.randrange(40_000)]) for _ in range(5_000)])


class Folder:
    """A folder with an image, in which rows are run, and how many of them were right and wrong."""

    def __init__(self):
        self.room = tempfile.TemporaryDirectory()
        self.image = pathlib.Path(self.room.name) / "a.img"
        self.journal = self.image.with_name("a.img.lfsj")
        self.right = self.wrong = 0

    def be(self, front, length):
        """Makes the image these bytes, with 0xff behind them up to a length, and takes its journal away."""
        self.journal.unlink(missing_ok=True)
        self.image.write_bytes(front.ljust(length, b"\xff"))

    def run(self, words, length=0, **how):
        """Runs the program; answers its status, what it complained and what it printed."""
        command = [PROGRAM, *words.split(" ")] if words else [PROGRAM]
        ended = subprocess.run(command, cwd=self.room.name, input=contents(length), capture_output=True, timeout=60, **how)
        return ended.returncode, ended.stderr.decode(), ended.stdout

    def run_into(self, output, words):
        """Runs the program with a file as its standard output; answers its status and what it complained."""
        ended = subprocess.run([PROGRAM, *words.split(" ")], cwd=self.room.name, stdout=output, stderr=subprocess.PIPE, timeout=60)
        return ended.returncode, ended.stderr.decode()

    def check(self, what, is_right, found=""):
        """Counts one thing that is to be so."""
        self.right, self.wrong = self.right + is_right, self.wrong + (not is_right)
        if not is_right:
            print(f"wrong: {what}: {found}")

    def old(self):
        """The image's bytes, where there is one."""
        return self.image.read_bytes() if self.image.exists() else None

    def saved(self):
        """The journal's bytes, where there is one."""
        return self.journal.read_bytes() if self.journal.exists() else None

    def play(self, rows):
        """Runs rows one after another. Where one is refused image and journal stay as they were, and no other file is there."""
        for words, length, status, complaint, printed in rows:
            before = self.old(), self.saved()
            ended = self.run(words, length)
            wanted = printed.encode() if isinstance(printed, str) else contents(printed)
            is_right = (ended[0], ended[2]) == (status, wanted) and is_told(ended[1], complaint)
            self.check(words, is_right, ended)
            is_kept = status == 0 or (self.old(), self.saved()) == before
            self.check(f"{words}: files", is_kept and {*self.image.parent.iterdir()} <= {self.image, self.journal})

    def begins(self, words, front):
        """Runs words that are refused, and compares how what is complained begins."""
        status, complained, printed = self.run(words)
        self.check(words or "no words", status == 2 and complained.startswith(front) and not printed, complained)

    def holds(self, what, at, part):
        """Whether bytes stand at a place of the image."""
        self.check(f"{what}: at {at}", self.old()[at:].startswith(part), self.old()[at:][:len(part)])


def run_scenes(scenes):
    """Builds the program, runs each scene in a folder of its own, and prints what was right and wrong."""
    subprocess.run([HOME / "bin/lfsed", "--help"], stdout=subprocess.DEVNULL, check=True)
    right = wrong = 0
    for scene in scenes:
        folder = Folder()
        scene(folder)
        right, wrong = right + folder.right, wrong + folder.wrong
    print(f"{right} passed, {wrong} failed")
    return 1 if wrong else 0
