"""Images of blocks of one size, on which commands are carried out, and what a reader apart from the program finds in them."""
from support.littlefs import Log, Reader
from support.logs import appended, image


class Blocks:
    """An image of blocks of one size in a folder."""

    def __init__(self, folder, size):
        self.folder, self.size = folder, size

    def new(self, count):
        """A new image of so many blocks."""
        if self.folder.image.exists():
            self.folder.image.unlink()
        self.folder.play([(f"format --block {self.size} --count {count} a.img", 0, 0, "", "")])

    def be(self, count, blocks):
        """An image of so many blocks that begin so."""
        self.folder.be(image(self.size, count, blocks), 0)

    def do(self, line, length=0, complaint=""):
        """Carries out a command, by its name and the words behind the image, or is refused."""
        name, *words = line.split(" ")
        words = " ".join([name, "-b", str(self.size), "a.img", *words])
        self.folder.play([(words, length, 1 if complaint else 0, complaint, "")])

    def read(self):
        """What the image holds."""
        return Reader(self.folder.old(), self.size)

    def stand(self, what, thread, directories, free):
        """Compares the pairs of the thread, those of the directories in the order of paths, and how many blocks are free."""
        reader = self.read()
        pairs = [pair for _, pair in reader.rows() if pair]
        found = (reader.thread(), pairs, reader.free())
        self.folder.check(f"where {what} stands", found == (thread, directories, free), found)
        said = f"block {self.size}, count {len(reader.image) // self.size}, free {free}, directories {len(directories)}, "
        printed = self.folder.run(f"check -b {self.size} a.img")[2].decode()
        self.folder.check(f"what is said of {what}", printed.startswith(said), printed)

    def lists(self, *paths):
        """Compares the paths in their order."""
        found = [path.decode() for path, _ in self.read().rows()]
        self.folder.check("paths", found == list(paths), found)


class Changes(Blocks):
    """An image of which it is known which blocks each command leaves, and what `check` reports of it."""

    reported = ""

    def block(self, number):
        """The bytes of a block."""
        return self.read().block(number)

    def become(self, line, wanted):
        """Compares the image, block by block."""
        found = self.folder.old()
        numbers = range(len(wanted) // self.size)
        wrong = [n for n in numbers if self.sliced(found, n) != self.sliced(wanted, n)]
        logs = [(n, Log(self.sliced(found, n)).commits[-1:], Log(self.sliced(wanted, n)).commits[-1:]) for n in wrong]
        self.folder.check(f"blocks of {self.size}: {line}", found == wanted, logs)

    def sliced(self, image, number):
        """A block of an image's bytes."""
        return image[number * self.size:(number + 1) * self.size]

    def leaves(self, line, blocks, length=0, count=0):
        """Carries out a command that leaves these blocks, erased behind these bytes, and all others as they were. Where it leaves
        more blocks than there were, `count` says how many; what it adds is erased."""
        old = self.folder.old()
        wanted = bytearray(old.ljust(count * self.size, b"\xff"))
        for number, block in blocks.items():
            wanted[number * self.size:(number + 1) * self.size] = block.ljust(self.size, b"\xff")
        self.do(line, length)
        self.become(line, wanted)
        for step, image in ("undo", old), ("redo", wanted):
            self.do(step)
            self.become(f"{line}, {step}", image)
        said = self.folder.run(f"check -b {self.size} a.img")
        self.folder.check(f"blocks of {self.size}: {line}: it mounts", said[:2] == (0, self.reported), said)

    def appends(self, line, commits, others=None, length=0, count=0):
        """Carries out a command that appends these items to these blocks, which are live then, and leaves these others."""
        longer = {number: appended(self.block(number), items) for number, items in commits.items()}
        self.leaves(line, {**longer, **(others or {})}, length, count)
        reader = self.read()
        live = {reader.live(pair)[0] for pair in reader.thread()}
        last = [Log(reader.block(number)).commits[-1:] for number in commits]
        is_right = live >= {*commits} and last == [[items] for items in commits.values()]
        self.folder.check(f"blocks of {self.size}: {line}: live blocks", is_right, (live, last))

    def holds(self, tree):
        """Compares what stands at each path, but for the root."""
        found = self.read().tree()
        del found[b"/"]
        self.folder.check(f"blocks of {self.size}: the tree", found == tree, found)
