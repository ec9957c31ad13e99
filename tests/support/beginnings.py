"""What `find` and `--block auto` are to say of a file, by a reader apart from the program. An image begins where the commits of its first
pair lead along hard tails to a superblock that states the size of its blocks and a number of blocks that are there."""
import struct
from functools import lru_cache
from typing import NamedTuple

from support.later import LaterLog
from support.littlefs import ROOT

SIZES = range(256, 65_537, 16)
MOST_IMAGE, MOST_BLOCKS = 67_108_864, 65_536
# Which words a first pair's log begins with, as they are stored: the name of a superblock, its creation, a hard tail.
WORDS = [struct.pack(">I", word ^ 0xFFFF_FFFF) for word in (0x0FF0_0008, 0x4010_0000, 0x601F_FC08)]
# Pairs that are looked at for a superblock, and sizes that logs state.
MOST_PAIRS, MOST_SIZES = 16, 16


class Told(NamedTuple):
    """What a log tells: what its superblock states, if it has one; the pair that a hard tail names; and whether nothing else is in it."""
    superblock: tuple
    tail: tuple
    is_alone: bool


class Place(NamedTuple):
    """Where an image begins: the first byte, and what its superblock states."""
    at: int
    version: int
    size: int
    count: int

    def end(self):
        return self.at + self.size * self.count


@lru_cache(4_096)
def told(block):
    """What the log of a block tells, as version 2.1 reads its commits; None where it has none."""
    log = LaterLog(block)
    name, struct_of, tail, is_alone = b"", None, None, True
    for kind, number, value in (tag for commit in log.commits for tag in commit):
        if (kind, number, len(value or b"")) == (0x201, 0, 24):
            struct_of = struct.unpack("<3I", value[:12])
        elif (kind, number, len(value or b"")) == (0x0FF, 0, 8):
            name = value
        elif kind >> 8 == 6:
            tail = struct.unpack("<2I", value) if (kind, number, len(value)) == (0x601, 0x3FF, 8) else None
        elif number not in (0, 0x3FF) or kind >> 8 == 0:
            is_alone = False
    return Told(struct_of if name == b"littlefs" else None, tail, is_alone) if log.commits else None


def live(held, at, size, pair):
    """What the live block of a pair tells, of an image that begins at a byte; None where neither block has a commit."""
    starts = [at + number * size for number in pair]
    if max(starts) + size > len(held):
        return None
    first, second = (held[start:start + size] for start in starts)
    is_later = 0 < (revision(second, 0) - revision(first, 0)) % 2**32 < 2**31
    for block in (second, first) if is_later else (first, second):
        if told(block):
            return told(block)
    return None


def revision(held, at):
    return int.from_bytes(held[at:at + 4], "little")


def superblock(held, at, size):
    """What the last superblock of an image of a size states, which begins at a byte."""
    pair, last = ROOT, None
    for _ in range(MOST_PAIRS):
        found = live(held, at, size, pair) if pair else None
        if found is None:
            break
        last = found.superblock or last
        pair = found.tail if found.is_alone else None
    return last


def size_of(held, at=0):
    """The least size in which an image begins at a byte; None where none does."""
    return next((size for size in SIZES if (superblock(held, at, size) or (0, 0))[1] == size), None)


def place_of(held, at, size):
    """The image of a size that begins at a byte; None where none does."""
    version, stated, count = superblock(held, at, size) or (0, 0, 0)
    fits = stated == size and 2 <= count <= MOST_BLOCKS and size * count <= min(MOST_IMAGE, len(held) - at)
    return Place(at, version, size, count) if fits else None


def logs_of(held):
    """The bytes at which a first pair's log may begin."""
    found = set()
    for word in WORDS:
        at = held.find(word, 4)
        while at >= 0:
            found.add(at - 4)
            at = held.find(word, at + 1)
    return sorted(found)


def sizes_of(held, logs):
    """The sizes that logs state, in their order."""
    sizes = []
    for at in logs:
        found = told(held[at:at + 65_536])
        size = found.superblock[1] if found and found.superblock else 0
        if size in SIZES and size not in sizes and len(sizes) < MOST_SIZES:
            sizes.append(size)
    return sizes


def places_at(held, sizes, floor, at):
    """The images whose block 0 stands at a byte, or whose block 1 does; block 0 first."""
    places = []
    for size in sizes:
        before = at - size
        here, other = place_of(held, at, size), place_of(held, before, size) if before >= floor else None
        places += [place for place in (here, other) if place]
    return places


def found(held, mounts):
    """The places that are listed, each with whether it mounts, which `mounts` says of one."""
    logs = logs_of(held)
    sizes, listed, floor, until = sizes_of(held, logs), [], 0, 0
    for at in logs:
        places = places_at(held, sizes, floor, at) if at >= floor else []
        best = next((place for place in places if mounts(place)), None)
        if best:
            listed.append((best, True))
            floor = best.end()
        elif places and places[0].at >= until:
            listed.append((places[0], False))
            until = places[0].end()
    return listed
