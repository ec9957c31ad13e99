"""How pairs change, apart from the program: the tags that carry a part to another, and the block that they are written into."""
from support.littlefs import NULL, Log, Part
from support.logs import HARD, SOFT, SUPERBLOCK, appended, attribute, created, deleted, log, moved, tail

# The most entries of a part that tags can name.
MOST_ENTRIES = 1_023


def body(number, entry):
    """The item of an entry's struct."""
    return [(entry.kind, number, entry.value)]


def spelled(number, entry):
    """The items of an entry: its name, its struct, its attributes as they rise by kind."""
    values = [item for kind, value in sorted(entry.attributes.items()) for item in attribute(number, kind, value)]
    return [(entry.named, number, entry.name)] + body(number, entry) + values


def tail_of(part):
    """The item of a part's tail; the end of a thread is a soft one of two null pointers."""
    return tail(HARD if part.is_hard else SOFT, part.tail or (NULL, NULL))


def whole(part):
    """The items of a whole part: its entries, its tail unless the thread ends, its delta unless that is zero."""
    entries = [item for number, entry in enumerate(part.entries) for item in spelled(number, entry)]
    return entries + (tail_of(part) if part.tail else []) + (moved(part.delta) if any(part.delta) else [])


def are_alike(entry, other):
    """Whether two entries have one name, of one kind."""
    return (entry.named, entry.name) == (other.named, other.name)


def fates(old, new):
    """The old and the new entries in pairs: an old one alone goes, a new one alone comes, and one of the same name stays."""
    old, new, pairs = list(old), list(new), []
    while old or new:
        if old and new and are_alike(old[0], new[0]):
            pairs.append((old.pop(0), new.pop(0)))
        elif new and (not old or any(are_alike(old[0], other) for other in new)):
            pairs.append((None, new.pop(0)))
        else:
            pairs.append((old.pop(0), None))
    return pairs


def is_called(entry, name):
    """Whether an entry has a name, where None is the superblock's."""
    return entry.named == SUPERBLOCK if name is None else entry.named != SUPERBLOCK and entry.name == name


def stays(number, old, new, forced):
    """The items of what changes of an entry that stays. What is forced is written also where it stays the same: of the entry of a
    name the attribute of a kind, where None is the struct."""
    kinds = [kind for name, kind in forced if is_called(new, name)]
    items = body(number, new) if (old.kind, old.value) != (new.kind, new.value) or None in kinds else []
    for kind in sorted({*old.attributes, *new.attributes}):
        value = new.attributes.get(kind)
        if value != old.attributes.get(kind) or kind in kinds:
            items += attribute(number, kind, value)
    return items


def between(old, new, forced=()):
    """The items that carry a part to another: what goes, what comes or changes, the tail and the delta where they differ."""
    gone, items, number, left = [], [], 0, 0
    for before, after in fates(old.entries, new.entries):
        if after is None:
            gone += deleted(left)
            continue
        if before is None:
            items += created(number) + spelled(number, after)
        else:
            items += stays(number, before, after, forced)
        number, left = number + 1, left + (before is not None)
    items += tail_of(new) if (old.tail, old.is_hard) != (new.tail, new.is_hard) else []
    return gone + items + (moved(new.delta) if old.delta != new.delta else [])


def carried(reader, new, forced=(), is_cut=False):
    """The number and the bytes of the block that carries a pair to a part: the live one with a commit appended, where all behind
    its log is erased and the commit fits; else, and where the part was cut or tags can't name its entries, the other one."""
    live, other = reader.live(new.pair)
    read = Log(reader.block(live))
    old = Part(new.pair, read)
    if not is_cut and len(old.entries) <= MOST_ENTRIES and read.is_erased():
        longer = appended(reader.block(live), between(old, new, forced))
        if len(longer) == reader.size:
            return live, longer
    return other, log((read.revision() + 1) % 2**32, whole(new), 16).ljust(reader.size, b"\xff")
