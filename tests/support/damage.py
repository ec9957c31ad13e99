"""A plain reader, apart from the program, that says in which pairs a commit with a wrong checksum stands after the last good one."""
import struct
import zlib

ALL = 0xFFFF_FFFF
# For a device the types 0x500 to 0x57f close a commit.
CLOSING, UNCLOSING = 0x500, 0x80


def added(checksum, held):
    """A checksum after more bytes."""
    return zlib.crc32(held, checksum ^ ALL) ^ ALL


class Closing:
    """The tag that closes what stands at a place of a block as a commit, and the checksum that the commit is to have: one of the types
    0x500 to 0x57f, or for version 2.0 of any type 0x5xx."""

    def __init__(self, block, at, checksum, before, chunks=UNCLOSING):
        self.found = False
        while at + 4 <= len(block):
            word = struct.unpack_from(">I", block, at)[0] ^ before
            length = 0 if word & 0x3FF == 0x3FF else word & 0x3FF
            if word >> 31 or at + 4 + length > len(block):
                return
            checksum = added(checksum, block[at:at + 4])
            if 0 <= (word >> 20) - CLOSING < chunks:
                self.found, self.right, self.word, self.end = True, checksum, word, at + 4 + length
                self.held = block[at + 4:at + 4 + length]
                return
            checksum, before, at = added(checksum, block[at + 4:at + 4 + length]), word, at + 4 + length

    def stored(self):
        """The checksum that it has."""
        return struct.unpack_from("<I", self.held)[0]

    def is_good(self):
        """Whether it is the right one."""
        return self.found and len(self.held) >= 4 and self.stored() == self.right

    def is_damaged(self):
        """Whether it is a wrong one that was written as a whole, in a tag as littlefs writes it."""
        if not self.found or self.word >> 10 & 0x3FF != 0x3FF or len(self.held) < 4:
            return False
        stored, wrong = self.stored(), self.stored() ^ self.right
        is_begun = stored & 0xFF == self.right & 0xFF and bin(wrong).count("1") > 1
        return wrong != 0 and stored != ALL and not is_begun

    def next_word(self):
        """The word that the tag after it is XORed with."""
        return self.word ^ (self.word >> 20 & 1) << 31


class Ended:
    """How far commits go from a place of a block on."""

    def __init__(self, block, at, checksum, before, chunks=UNCLOSING):
        self.block, self.at, self.checksum, self.before, self.many = block, at, checksum, before, 0
        while (closing := self.closing(chunks)).is_good():
            self.at, self.checksum, self.before, self.many = closing.end, ALL, closing.next_word(), self.many + 1

    def closing(self, chunks=UNCLOSING):
        """What closes what stands after them as a commit."""
        return Closing(self.block, self.at, self.checksum, self.before, chunks)

    def fills(self):
        """Whether there are any, and less than an eighth of the block is erased after them."""
        rest = self.block[self.at:]
        return self.many > 0 and (rest.strip(b"\xff") != b"" or len(rest) < len(self.block) // 8)


def log_of(block, by_device=True):
    """How far the log of a block goes, as a device reads it or as version 2.0 does."""
    return Ended(block, 4, added(ALL, block[:4]), ALL, UNCLOSING if by_device else 0x100)


def ends_damaged(block, by_device=True):
    """Whether a damaged commit stands after the log of a block, and isn't what a device that doesn't erase left."""
    closing = log_of(block, by_device).closing()
    return closing.is_damaged() and not Ended(block, closing.end, ALL, closing.next_word()).fills()


def is_damaged(first, second, by_device=True):
    """Whether an older state of a pair of blocks is read."""
    ahead = int.from_bytes(second[:4], "little") - int.from_bytes(first[:4], "little") & ALL
    later, earlier = (second, first) if 1 <= ahead < 1 << 31 else (first, second)
    return ends_damaged(later, by_device) or log_of(later, by_device).many == 0 and ends_damaged(earlier, by_device)
