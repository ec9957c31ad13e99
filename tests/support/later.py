"""A plain writer of blocks and images of disk version 2.1, as devices write them since littlefs 2.6, apart from the program, and a
plain reader of them. A commit has a checksum of what is erased behind it, and a superblock may have been expanded: then it stands in
several pairs, of which the last one's counts."""
import struct
import zlib

from support.littlefs import CONTENTS, NULL, ROOT, Log, Reader
from support.logs import HARD, NO_ENTRY, SUPERBLOCK, Draft, attribute, file, superblock, tail
from support.scattering import Scattered

FIRST, LATER = 0x0002_0000, 0x0002_0001
CLOSING, FORWARD = 0x500, 0x5FF
# A tag has at most so many bytes of data. A closing tag takes 8 bytes with its checksum, and 20 with a forward one.
MOST_DATA, CLOSED, CLOSED_FORWARD = 1_022, 8, 20


def stated(version, size, count, *limits):
    """The items of a superblock that states a version."""
    name, (kind, number, held) = superblock(size, count, *limits)
    return [name, (kind, number, struct.pack("<I", version) + held[4:])]


def forward(behind):
    """The item of a forward checksum of the bytes that stand behind a commit."""
    return [(FORWARD, NO_ENTRY, struct.pack("<2I", len(behind), zlib.crc32(behind) ^ NULL))]


class LaterDraft(Draft):
    """A log of a block of a size, to which a device adds commits in units of a program size; erased bytes are 0xff, or others."""

    def __init__(self, revision, size, program=16, erased=0xFF):
        super().__init__(revision)
        self.size, self.program, self.erased = size, program, bytes([erased])

    @classmethod
    def behind(cls, block, program=16):
        """The log of a block, to which a device adds something."""
        draft, log = cls(0, len(block), program), LaterLog(block)
        draft.bytes, draft.begin, draft.before = block[:log.end], log.end, log.word
        return draft

    def commit(self, items):
        """Adds a commit of items, which is longer than the block where there is no room for it. It ends at the next unit; where that is
        further than a closing tag says, several of them follow each other. A forward checksum stands before the last one, unless the
        block ends there."""
        self.add(items)
        end = max(min(len(self.bytes) + CLOSED_FORWARD, self.size), len(self.bytes) + CLOSED)
        end += -end % self.program
        while len(self.bytes) < end:
            until = min(len(self.bytes) + 4 + MOST_DATA, end)
            until = end if until == end else min(until, end - CLOSED_FORWARD)
            if until == end and end + self.program <= self.size:
                self.add(forward(self.program * self.erased))
            # The first bit of the tag that comes next differs from that of an erased byte.
            self.close(CLOSING | self.erased[0] >> 7 ^ 1, until - len(self.bytes) - CLOSED)
        return self

    def block(self):
        """The bytes of the block."""
        return self.bytes.ljust(self.size, self.erased)


def written(revision, size, *commits, program=16):
    """A block that a device wrote anew, a commit of items after another."""
    draft = LaterDraft(revision, size, program)
    for items in commits:
        draft.commit(items)
    return draft.block()


def appended(block, *commits, program=16):
    """A block of either version behind whose log a device wrote commits of items."""
    draft = LaterDraft.behind(block, program)
    for items in commits:
        draft.commit(items)
    return draft.bytes + block[len(draft.bytes):]


def expanded(pairs, parts):
    """The items of parts by the first block of their pairs. Each but the last one has a hard tail to the next pair."""
    tails = [tail(HARD, pair) for pair in pairs[1:]] + [[]]
    return {pair[0]: items + behind for pair, items, behind in zip(pairs, parts, tails, strict=True)}


class LaterLog(Log):
    """The log of a block as version 2.1 has it: of the tags of main type 5 those alone end a commit whose chunk is below 0x80."""

    def closes(self, kind):
        """Whether tags of a kind end a commit."""
        return kind >> 7 == CLOSING >> 7


def is_superblock(entry):
    """Whether an entry is a superblock with its six words."""
    return (entry.named, entry.name, entry.kind, len(entry.value)) == (SUPERBLOCK, b"littlefs", CONTENTS, 24)


class DeviceReader(Reader):
    """An image of version 2.0 or 2.1 as a device reads it. Where its superblock was expanded the last one stands before the root's
    entries, and those in front of it don't count."""

    read = LaterLog

    def __init__(self, image, size):
        super().__init__(image, size)
        found = [entries.pop(0) for entries in self.leading() if entries and is_superblock(entries[0])]
        self.parts[0].entries[:0] = found[-1:]

    def leading(self):
        """The entries of the first part, and of each that follows by a hard tail on one with nothing but a superblock."""
        leading = []
        for part in self.parts:
            leading.append(part.entries)
            if not part.is_hard or [entry for at, entry in enumerate(part.entries) if at or not is_superblock(entry)]:
                break
        return leading


class LaterScattered(Scattered):
    """An image as devices leave it that is put together. At times its superblock was expanded, a pair stays as version 2.0 wrote it, or
    a device added to what version 2.0 had written."""

    def superblock(self):
        """The items of the superblock, with an attribute of the root."""
        return stated(LATER, self.size, self.count) + attribute(0, 0x72, self.chance.randbytes(3))

    def spell(self, pair, behind, revision):
        """A log of these commits, of which version 2.0 wrote the first ones at times; or of one commit where they don't fit."""
        program = self.chance.choice([1, 2, 4, 8, 16, 32, 64, 128, 256])
        draft = LaterDraft(revision, self.size, program, self.chance.choice([0xFF, 0xFF, 0]))
        earlier = self.chance.choice([0, 0, 1, 9])
        for at, items in enumerate(self.commits(pair, behind, 0.3)):
            draft.add(items).close_at(16) if at < earlier else draft.commit(items)
        if len(draft.bytes) <= self.size:
            return draft.block()
        return written(revision, self.size, [item for items in self.commits(pair, behind, 0) for item in items])

    def beside(self, revision, is_first):
        """What stands beside a live block of a revision, the first one or the second of its pair."""
        torn = LaterDraft((revision + 1) % 2**32, self.size).commit(file(0, b"torn")).bytes
        return self.chance.choice([super().beside(revision, is_first), torn[:30], torn[:9] + b"\0" + torn[10:]])

    def write(self, pair, behind):
        """Writes a part into a block of its pair, and that of the root behind another superblock at times, or behind a tail alone."""
        if pair == ROOT and len(self.left) > 1 and self.chance.random() < 0.4:
            self.root = self.left.pop(), self.left.pop()
            self.entries[self.root] = self.entries[ROOT]
            former = stated(self.chance.choice([FIRST, LATER]), self.size, self.count, 99) + attribute(0, 0x70, b"former")
            leading = expanded([ROOT, self.root], [self.chance.choice([former, []]), []])
            self.blocks[0] = written(self.chance.randrange(2**32), self.size, leading[0])
            pair = self.root
        super().write(pair, behind)
