"""A plain writer of littlefs logs, apart from the program."""
import struct
import zlib

from support.littlefs import DELETED, Log

NO_ENTRY = 0x3FF
FILE, DIRECTORY, SUPERBLOCK = 0x001, 0x002, 0x0FF
SOFT, HARD = 0x600, 0x601


class Draft:
    """A log that is put together commit by commit: a revision, and what is added to it."""

    def __init__(self, revision):
        self.bytes, self.begin, self.before = struct.pack("<I", revision), 0, 0xFFFF_FFFF

    @classmethod
    def behind(cls, block):
        """The log of a block, to which something is added."""
        draft, log = cls(0), Log(block)
        draft.bytes, draft.begin, draft.before = block[:log.end], log.end, log.word
        return draft

    def tag(self, kind, number, length, value=b""):
        """Adds a tag and its bytes."""
        word = kind << 20 | number << 10 | length
        self.bytes, self.before = self.bytes + struct.pack(">I", word ^ self.before) + value, word
        return self

    def add(self, items):
        """Adds items of kind, entry and value. A value of None is a deleted one."""
        for kind, number, value in items:
            self.tag(kind, number, DELETED if value is None else len(value), value or b"")
        return self

    def close(self, kind=0x500, padding=0, length=None):
        """Closes a commit by the checksum and padding, or by a tag that says another length."""
        self.tag(kind, NO_ENTRY, 4 + padding if length is None else length)
        checksum = zlib.crc32(self.bytes[self.begin:]) ^ 0xFFFF_FFFF
        self.bytes += struct.pack("<I", checksum) + padding * b"\xff"
        self.begin, self.before = len(self.bytes), self.before ^ (kind & 1) << 31
        return self

    def close_at(self, step):
        """Closes a commit by padding so that it ends at a multiple of a step."""
        return self.close(padding=-(len(self.bytes) + 8) % step)


def log(revision, items, step=1):
    """A log of one commit: items of kind, entry and value, and their checksum. A value of None is a deleted one. The commit
    is padded so that it ends at a multiple of a step."""
    return Draft(revision).add(items).close_at(step).bytes


def filled(draft, end):
    """A log that empty commits fill up to a place."""
    while end - len(draft.bytes) > 1_000:
        draft.close(padding=500)
    draft.close(padding=end - len(draft.bytes) - 8)
    return draft.bytes


def appended(block, items):
    """A block with one more commit of items behind its log, which ends at a multiple of 16; longer than the block where there is
    no room for it."""
    draft = Draft.behind(block).add(items).close_at(16)
    return draft.bytes + block[len(draft.bytes):]


def superblock(size, count, name=255, file=2_147_483_647, attribute=1_022):
    """The items of a superblock with its limits."""
    held = struct.pack("<6I", 0x0002_0000, size, count, name, file, attribute)
    return [(SUPERBLOCK, 0, b"littlefs"), (0x201, 0, held)]


def file(number, name, held=b""):
    """The items of a file whose contents stand in its entry."""
    return [(FILE, number, name), (0x201, number, held)]


def created(number):
    """The item of an entry that is created before the one that has its number."""
    return [(0x401, number, b"")]


def deleted(number):
    """The item of an entry that is deleted."""
    return [(0x4FF, number, b"")]


def chained(number, name, last, size):
    """The items of a file whose contents stand in blocks, by the last one and their length."""
    return [(FILE, number, name), (0x202, number, struct.pack("<2I", last, size))]


def directory(number, name, pair):
    """The items of an entry that leads to a directory."""
    return [(DIRECTORY, number, name), (0x200, number, struct.pack("<2I", *pair))]


def tail(kind, pair):
    """The item of a pair that comes behind a part."""
    return [(kind, NO_ENTRY, struct.pack("<2I", *pair))]


def attribute(number, kind, value):
    """The item of an attribute."""
    return [(0x300 | kind, number, value)]


def moved(value):
    """The item of a part's share in the global state."""
    return [(0x7FF, NO_ENTRY, value)]


def image(size, count, blocks):
    """An image whose blocks begin so, by their numbers, and are erased elsewhere."""
    return b"".join(blocks.get(number, b"").ljust(size, b"\xff") for number in range(count))
