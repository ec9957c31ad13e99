"""Images of a writer apart from the program whose logs have many commits, as chance has it: what is put there comes entry by entry,
some of it for a while only, and other blocks of pairs are erased, older or torn."""
import struct

from support.littlefs import ROOT, blocks_for, pointers
from support.logs import (
    SOFT, Draft, attribute, chained, created, deleted, directory, file, image, log, moved, superblock, tail,
)

SHARE = bytes.fromhex("0000f04f0200000003000000")


def key(name):
    """Names are ordered by it: the longer one of two comes first where it begins with the other."""
    return [*name, 256]


def laid(size, numbers, held):
    """The blocks of contents, by the numbers that they get."""
    blocks = {}
    for at, number in enumerate(numbers):
        front = b"".join(struct.pack("<I", numbers[at - 2**power]) for power in range(pointers(at)))
        blocks[number] = (front + held)[:size]
        held = held[size - len(front):]
    return blocks


class Scattered:
    """An image of blocks of a size that is put together. What stands in front of the root's entries stands at the pair `root`."""

    def __init__(self, chance, size, count):
        self.chance, self.size, self.count, self.blocks, self.root = chance, size, count, {}, ROOT
        self.left = [*range(2, count)]
        chance.shuffle(self.left)
        pairs = [ROOT] + [(self.left.pop(), self.left.pop()) for _ in range(chance.randrange(4))]
        self.entries = {pair: {} for pair in pairs}
        for at, pair in enumerate(pairs[1:]):
            self.entries[chance.choice(pairs[:at + 1])][self.name()] = directory, pair
        self.fill()
        thread = pairs[:1] + chance.sample(pairs[1:], len(pairs) - 1)
        has_shares = len(pairs) > 2 and chance.random() < 0.4
        for at, pair in enumerate(thread):
            behind = tail(SOFT, thread[at + 1]) if at + 1 < len(thread) else []
            self.write(pair, behind + (moved(SHARE) if has_shares and at in (1, 2) else []))
        self.image = image(size, count, self.blocks)

    def name(self):
        """A name that no other entry has."""
        taken = sum(map(len, self.entries.values()))
        return b"%c%d" % (self.chance.choice(b"abc"), taken) + b"n" * self.chance.choice([0, 0, 9])

    def fill(self):
        """Puts some files into the directories."""
        for entries in self.entries.values():
            for _ in range(self.chance.randrange(2 if self.size == 256 else 5)):
                held = self.chance.randbytes(self.chance.choice([0, 3, 20, self.size // 2, 2 * self.size]))
                many = blocks_for(self.size, len(held))
                if len(held) <= self.size // 8:
                    entries[self.name()] = file, held
                elif many < len(self.left) // 2:
                    numbers = [self.left.pop() for _ in range(many)]
                    self.blocks.update(laid(self.size, numbers, held))
                    entries[self.name()] = chained, numbers[-1], len(held)

    def superblock(self):
        """The items of the superblock."""
        return superblock(self.size, self.count)

    def commits(self, pair, behind, likely):
        """The items of a part's commits, one after another; it is so likely that something comes for a while only."""
        first = pair == self.root
        commits, there = [self.superblock() if first else []], []
        for name, (spell, *held) in self.chance.sample([*self.entries[pair].items()], len(self.entries[pair])):
            there = sorted([*there, name], key=key)
            number = there.index(name) + first
            commits.append(created(number) + spell(number, name, *held))
            commits.append(attribute(number, self.chance.choice(b"prt"), self.chance.randbytes(2)))
            if self.chance.random() < likely:
                commits[-1] += attribute(number, 0x78, b"gone")
                commits.append(attribute(number, 0x78, None) + created(number) + file(number, b"a") + deleted(number))
        return commits + [behind, []]

    def spell(self, pair, behind, revision):
        """A log of these commits, or of one commit where they don't fit."""
        draft = Draft(revision)
        for items in self.commits(pair, behind, 0.3):
            draft.add(items).close(0x500 | self.chance.randrange(256), self.chance.randrange(16))
        if len(draft.bytes) <= self.size:
            return draft.bytes
        return log(revision, [item for items in self.commits(pair, behind, 0) for item in items])

    def beside(self, revision, is_first):
        """What stands beside a live block of a revision, the first one or the second of its pair. A torn log ends within its checksum."""
        newer, older = ((revision + step) % 2**32 for step in (1, -1))
        torn = log(newer, file(0, b"torn"))
        logs = [log(older, file(0, b"old")), torn[:-2], b""]
        return self.chance.choice([*logs, log(revision, file(0, b"same"))] if is_first else logs)

    def write(self, pair, behind):
        """Writes a part into a block of its pair, and beside it one that isn't live. Something may stand behind the live log."""
        revision = self.chance.choice([1, 0xFFFF_FFFF, self.chance.randrange(2**32)])
        live = self.spell(pair, behind, revision)
        if self.chance.random() < 0.15 and len(live) < self.size - 8:
            live += b"\xff\xff\xff\xff\0"
        at = self.chance.randrange(2)
        self.blocks[pair[at]], self.blocks[pair[1 - at]] = live, self.beside(revision, at == 0)
