"""Journals as the format has them, in both of its versions: their bytes are spelled and read."""
import struct


def word(number):
    return number.to_bytes(4, "little")


def change(before, after, blocks, version=2):
    """A change of an image that has so many blocks before and after: each block's number, its bytes before and its bytes after."""
    counts = word(before) + word(after) if version == 2 else b""
    return word(len(blocks)) + counts + b"".join(word(number) + old + new for number, old, new in blocks)


def journal(size, count, done, undone, version=2):
    """The journal of an image that has so many blocks now, with changes as `change` takes them."""
    head = b"lfsj" + b"".join(map(word, (version, size, count, len(done), len(undone))))
    return head + b"".join(change(*each, version) for each in [*done, *undone])


def read(data):
    """What the second version's bytes say, as `journal` takes it."""
    letters, version, size, count, *many = struct.unpack_from("<4s5I", data)
    assert (letters, version) == (b"lfsj", 2)
    at, changes = 24, []
    for _ in range(sum(many)):
        length, before, after = struct.unpack_from("<3I", data, at)
        places = range(at + 12, at + 12 + length * (2 * size + 4), 2 * size + 4)
        changes.append((before, after, [struct.unpack_from(f"<I{size}s{size}s", data, place) for place in places]))
        at = places.stop
    assert at == len(data)
    return size, count, changes[:many[0]], changes[many[0]:]


def in_first_version(data):
    """The same changes in the first version, which has one count for all."""
    return journal(*read(data), version=1)
