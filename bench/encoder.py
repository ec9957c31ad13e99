"""Encodes tags, commits and files of littlefs images, apart from the crates."""
import struct


def checksum(start, data):
    for byte in data:
        start ^= byte
        for _ in range(8):
            start = (start >> 1) ^ (0xEDB88320 if start & 1 else 0)
    return start


def tag(kind, entry, length):
    return kind << 20 | entry << 10 | length


def commit(lead, previous, tags):
    """The bytes of a commit, and the word that the next one's first tag is stored XORed with."""
    out = b""
    for word, data in tags:
        out += struct.pack(">I", word ^ previous) + data
        previous = word
    closing = tag(0x500, 0x3FF, 4)
    out += struct.pack(">I", closing ^ previous)
    return out + struct.pack("<I", checksum(0xFFFFFFFF, lead + out)), closing


def superblock(size, count):
    """The tags of the superblock."""
    words = struct.pack("<6I", 0x20000, size, count, 255, 0x7FFFFFFF, 1022)
    return [(tag(0x0FF, 0, 8), b"littlefs"), (tag(0x201, 0, 24), words)]


def linked(entry, name, head, length):
    """The tags of a file in a chain of blocks."""
    return [
        (tag(0x001, entry, len(name)), name),
        (tag(0x202, entry, 8), struct.pack("<II", head, length)),
    ]


def root(size, tags):
    """The root's pair, written once."""
    lead = struct.pack("<I", 1)
    block = lead + commit(lead, 0xFFFFFFFF, tags)[0]
    assert len(block) <= size
    return block + b"\xff" * (2 * size - len(block))


def chain(size, first, contents):
    """The blocks of a file, from block `first` of the image on."""
    blocks, number, at = [], 0, 0
    while at < len(contents):
        pointers = (number & -number).bit_length() if number else 0
        lead = b"".join(struct.pack("<I", first + number - 2**i) for i in range(pointers))
        part = contents[at : at + size - len(lead)]
        blocks.append((lead + part).ljust(size, b"\xff"))
        number, at = number + 1, at + len(part)
    return blocks
