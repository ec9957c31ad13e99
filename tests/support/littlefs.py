"""A plain reader of littlefs images, apart from the program: what stands in which blocks."""
import struct
import zlib

ROOT = (0, 1)
DELETED, NULL = 0x3FF, 0xFFFF_FFFF
DIRECTORY, CONTENTS, IN_BLOCKS = 0x200, 0x201, 0x202


class Log:
    """The log of a block: the tags of each commit whose checksum is right, in order, each its kind, entry and value, where None
    is the value of one that is marked deleted; where the last commit ends, and the word that the next tag is stored behind."""

    def __init__(self, block):
        self.block, self.commits, self.end, self.word = block, [], 4, NULL
        while self.reads_one():
            pass

    def reads_one(self):
        """Reads one more commit, where there is one."""
        at, word, tags = self.end, self.word, []
        while at + 4 <= len(self.block):
            word ^= int.from_bytes(self.block[at:at + 4], "big")
            kind, number, length = word >> 20 & 0x7FF, word >> 10 & 0x3FF, word & 0x3FF
            value = None if length == DELETED else self.block[at + 4:at + 4 + length]
            at += 4
            if word >> 31 or value is not None and len(value) < length:
                return False
            if self.closes(kind):
                return self.ends_one(tags, kind, at, word, value)
            at += len(value or b"")
            tags.append((kind, number, value))
        return False

    def closes(self, kind):
        """Whether tags of a kind end a commit."""
        return kind >> 8 == 5

    def ends_one(self, tags, kind, at, word, value):
        """Takes a commit, whose closing word ends at a place, where its checksum is right."""
        checksum = zlib.crc32(self.block[self.end if self.commits else 0:at]) ^ 0xFFFF_FFFF
        if value is None or value[:4] != struct.pack("<I", checksum):
            return False
        self.commits.append(tags)
        self.end, self.word = at + len(value), word ^ (kind & 1) << 31
        return True

    def revision(self):
        """The block's revision."""
        return int.from_bytes(self.block[:4], "little")

    def is_erased(self):
        """Whether all behind the log is erased."""
        return not self.block[self.end:].strip(b"\xff")


class Entry:
    """What stands under a name: the kind of the name, the structure's kind and value, and the attributes by kind."""

    def __init__(self):
        self.named, self.name, self.kind, self.value, self.attributes = 0, b"", 0, b"", {}

    def pair(self):
        """The pair of a directory."""
        return struct.unpack("<2I", self.value)


class Part:
    """A pair's entries, the pair behind it, whether that is of the same directory, and its share in the global state."""

    def __init__(self, pair, log):
        self.pair, self.tail, self.is_hard, self.delta, self.entries = pair, None, False, bytes(12), []
        for commit in log.commits:
            for kind, number, value in commit:
                self.take(kind, number, value)

    def take(self, kind, number, value):
        """Takes one tag of the log."""
        if kind == 0x4FF:
            del self.entries[number]
        elif kind == 0x401:
            self.entries.insert(number, Entry())
        if kind >> 8 == 0:
            # A name makes room for all entries up to its own: those before it may follow.
            self.entries += [Entry() for _ in range(len(self.entries), number + 1)]
            self.entries[number].named, self.entries[number].name = kind, value
        elif kind >> 8 == 2:
            self.entries[number].kind, self.entries[number].value = kind, value
        elif kind >> 8 == 3 and value is None:
            self.entries[number].attributes.pop(kind & 0xFF, None)
        elif kind >> 8 == 3:
            self.entries[number].attributes[kind & 0xFF] = value
        elif kind >> 8 == 6:
            pair = struct.unpack("<2I", value)
            self.tail, self.is_hard = None if pair == (NULL, NULL) else pair, bool(kind & 1)
        elif kind == 0x7FF:
            self.delta = value


class Reader:
    """An image of blocks of one size: its parts in the order of the thread."""

    read = Log

    def __init__(self, image, size):
        self.image, self.size = image, size
        self.parts = [self.part(ROOT)]
        while self.parts[-1].tail:
            self.parts.append(self.part(self.parts[-1].tail))

    def block(self, number):
        """The bytes of a block."""
        return self.image[number * self.size:(number + 1) * self.size]

    def live(self, pair):
        """The numbers of a pair's live block, the one of later revision of those that have a commit, and of the other one."""
        first, second = (self.read(self.block(number)) for number in pair)
        is_later = 0 < (second.revision() - first.revision()) % 2**32 < 2**31
        return pair[::-1] if second.commits and (is_later or not first.commits) else pair

    def part(self, pair):
        """What a pair holds."""
        return Part(pair, self.read(self.block(self.live(pair)[0])))

    def limits(self):
        """The greatest lengths of a name, a file and an attribute that the superblock states."""
        words = self.parts[0].entries[0].value
        return tuple(int.from_bytes(words[at:at + 4], "little") for at in (12, 16, 20))

    def version(self):
        """The disk version that the superblock states."""
        words = self.parts[0].entries[0].value
        return f"{int.from_bytes(words[2:4], 'little')}.{int.from_bytes(words[:2], 'little')}"

    def thread(self):
        """The pairs of the thread."""
        return [part.pair for part in self.parts]

    def parts_of(self, pair):
        """The parts of the directory that begins at a pair."""
        at = self.thread().index(pair)
        parts = [self.parts[at]]
        while parts[-1].is_hard:
            at += 1
            parts.append(self.parts[at])
        return parts

    def entries(self, pair):
        """The entries of a directory, without the superblock."""
        entries = [entry for part in self.parts_of(pair) for entry in part.entries]
        return entries[1:] if pair == ROOT else entries

    def rows(self):
        """The paths of all entries, each directory followed by what is below, with the pairs of directories."""
        rows, waiting = [], [(b"/", ROOT)]
        while waiting:
            path, pair = waiting.pop()
            rows.append((path, pair))
            below = self.entries(pair) if pair else []
            named = [(path.rstrip(b"/") + b"/" + entry.name, entry) for entry in below]
            waiting += [(name, entry.pair() if entry.kind == DIRECTORY else None) for name, entry in reversed(named)]
        return rows

    def blocks_of(self, entry):
        """The blocks of a file's contents, from the last one back to the first."""
        if entry.kind != IN_BLOCKS:
            return []
        head, length = struct.unpack("<2I", entry.value)
        blocks = [head] if length else []
        for _ in range(1, blocks_for(self.size, length)):
            blocks.append(int.from_bytes(self.block(blocks[-1])[:4], "little"))
        return blocks

    def contents(self, entry):
        """The bytes of a file."""
        if entry.kind != IN_BLOCKS:
            return entry.value
        blocks = reversed(self.blocks_of(entry))
        held = b"".join(self.block(block)[4 * pointers(number):] for number, block in enumerate(blocks))
        return held[:struct.unpack("<2I", entry.value)[1]]

    def tree(self):
        """What stands at each path: the bytes of a file or None, and the attributes by kind."""
        tree, waiting = {}, [(b"/", ROOT, self.parts[0].entries[0])]
        while waiting:
            path, pair, entry = waiting.pop()
            tree[path] = None if pair else self.contents(entry), entry.attributes
            for below in self.entries(pair) if pair else []:
                name = path.rstrip(b"/") + b"/" + below.name
                waiting.append((name, below.pair() if below.kind == DIRECTORY else None, below))
        return tree

    def files(self):
        """The entries of all files, by their paths."""
        files, waiting = {}, [(b"", ROOT)]
        while waiting:
            path, pair = waiting.pop()
            for entry in self.entries(pair):
                name = path + b"/" + entry.name
                if entry.kind == DIRECTORY:
                    waiting.append((name, entry.pair()))
                else:
                    files[name] = entry
        return files

    def in_entries(self):
        """The lengths of the files that stand in their entries, by their paths."""
        return {path: len(entry.value) for path, entry in self.files().items() if entry.kind == CONTENTS}

    def longest(self):
        """The length of the longest file that stands in its entry; 0 if none does."""
        return max(self.in_entries().values(), default=0)

    def used_by_files(self):
        """The blocks of all files."""
        return [number for part in self.parts for entry in part.entries for number in self.blocks_of(entry)]

    def used(self):
        """The blocks of the thread, and those of all files."""
        return [number for pair in self.thread() for number in pair] + self.used_by_files()

    def free(self):
        """How many blocks neither the thread nor a file takes."""
        return len(self.image) // self.size - len({*self.used()})


def pointers(number):
    """With how many pointers a file's block begins: as many as its number has factors 2, and one more; the first one with none."""
    return (number & -number).bit_length()


def blocks_for(size, length):
    """How many blocks contents take."""
    count = 0
    while length > 0:
        length -= size - 4 * pointers(count)
        count += 1
    return count
