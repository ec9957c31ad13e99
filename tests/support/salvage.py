"""What may be saved of a damaged image, by a reader apart from the program: files that the unharmed image has, or that an older state of a
block had, with the contents that their blocks still give; and what must be, where one block is lost."""
import itertools
import struct

from support.littlefs import DIRECTORY, IN_BLOCKS, ROOT, Log, Part, blocks_for, pointers

INLINE = 0x201


def states_of(block, number):
    """The parts that a block had behind each of its commits."""
    log = Log(block)
    whole = log.commits
    for many in range(1, len(whole) + 1):
        log.commits = whole[:many]
        try:
            yield Part((number, number), log)
        except IndexError:
            pass


class Salvaged:
    """A damaged image, of which it is known how it was."""

    def __init__(self, unharmed, damaged, size):
        self.damaged, self.size = damaged, size
        self.stored = {}
        for image in unharmed, damaged:
            for number in range(len(image) // size):
                for part in states_of(image[number * size:(number + 1) * size], number):
                    self.take(part)

    def take(self, part):
        """Takes the files of a part."""
        for entry in part.entries:
            if entry.named == 0x001:
                self.stored.setdefault(entry.name, set()).add((entry.kind, entry.value))

    def chain(self, head, length):
        """The contents that the blocks of a file give as they are; None where they name one that isn't there."""
        many, held, number = blocks_for(self.size, length), b"", head
        for at in reversed(range(many)):
            block = self.damaged[number * self.size:(number + 1) * self.size]
            if len(block) < self.size:
                return None
            held = block[4 * pointers(at):] + held
            number = int.from_bytes(block[:4], "little")
        return held[:length]

    def gives(self, kind, value):
        """The contents of what is stored."""
        if kind == IN_BLOCKS and len(value) == 8:
            head, length = struct.unpack("<2I", value)
            return self.chain(head, length) if length <= len(self.damaged) else None
        return value if kind == INLINE else None

    def allows(self, name, held):
        """Whether a file of this name may be made with these contents: of any name, if it has numbers alone."""
        stored = self.stored.get(name, ()) if name else itertools.chain(*self.stored.values())
        return any(self.gives(kind, value) == held for kind, value in stored)


class Unharmed:
    """An image as it was, with what each of its blocks holds."""

    def __init__(self, reader):
        self.reader, self.size = reader, reader.size
        self.files, self.directories, self.homes = {}, {}, {}
        waiting = [(b"", ROOT)]
        while waiting:
            path, pair = waiting.pop()
            self.directories[path] = pair
            for part in reader.parts_of(pair):
                for block in part.pair:
                    self.homes[block] = path
                for entry in part.entries:
                    self.enter(path, part, entry, waiting)

    def enter(self, path, part, entry, waiting):
        """Takes an entry of a part."""
        below = path + b"/" + entry.name
        if entry.kind == DIRECTORY:
            waiting.append((below, entry.pair()))
        elif entry.named == 0x001:
            self.files[below] = part.pair, self.reader.contents(entry), self.reader.blocks_of(entry)

    def owner(self, block):
        """The path whose contents stand in a block, where there is one."""
        return next((path for path, (_, _, blocks) in self.files.items() if block in blocks), None)

    def pair_of(self, block):
        """The pair whose live block it is, where it is one."""
        pairs = [part.pair for part in self.reader.parts if self.reader.live(part.pair)[0] == block]
        return pairs[0] if pairs else None

    def origin(self, made):
        """The path that a file had, by the names below the folder that was made: in it, or below the block of a pair in `lost+found`."""
        if made[:1] != (b"lost+found",):
            return b"".join(b"/" + name for name in made)
        return self.homes[int(made[1])] + b"".join(b"/" + name for name in made[2:])

    def left_behind(self, block):
        """The files that are left where a block is lost: those that don't stand in it."""
        pair = self.pair_of(block)
        return {path: held for path, (at, held, blocks) in self.files.items() if at != pair and block not in blocks}
