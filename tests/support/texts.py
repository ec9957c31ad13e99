"""What the program prints of trees, as it should: rows, and what differs between two trees."""
from support.scattering import key


def shown(path):
    """A path with its odd bytes in hexadecimal digits."""
    return "".join(chr(b) if 0x20 <= b <= 0x7E and b != 0x5C else f"\\x{b:02x}" for b in path)


def typed(line):
    """A line of a script as it was typed, but for control bytes and those that aren't ASCII."""
    return "".join(chr(b) if 0x20 <= b <= 0x7E else f"\\x{b:02x}" for b in line)


def lines_of(path, size, attributes):
    """The lines of what stands at a path; a directory has no size."""
    first = f"{'d' if size is None else 'f'} {'-' if size is None else size:>10} {shown(path)}\n"
    return first + "".join(f"@ {kind:02x} {value.hex()}\n" for kind, value in sorted(attributes.items()))


def in_order(path):
    """What paths are sorted by: a path comes before those below it, and names as in their directory."""
    return [key(name) for name in path.split(b"/")[1:] if name]


def listed(tree):
    """What `ls` prints of a tree."""
    rows = [(path, *tree[path]) for path in sorted(tree, key=in_order)]
    return "".join(lines_of(path, None if held is None else len(held), attributes) for path, held, attributes in rows).encode()


def said(reader):
    """What `check` prints of an image that was read."""
    paths, count = reader.rows(), len(reader.image) // reader.size
    directories = sum(pair is not None for _, pair in paths)
    counts = f"free {reader.free()}, directories {directories}, files {len(paths) - directories}, version {reader.version()}"
    return f"block {reader.size}, count {count}, {counts}\n".encode()


def longer(reader, most):
    """The lines of the files that stand in their entries and are longer than this, as `check --inline-max` prints them."""
    lengths = reader.in_entries()
    return "".join(f"{shown(path)}\n" for path in sorted(lengths, key=in_order) if lengths[path] > most).encode()


def marked(mark, path, row):
    """The lines of a path's bytes and attributes with a mark in front of each."""
    held, attributes = row
    return "".join(f"{mark} {line}\n" for line in lines_of(path, None if held is None else len(held), attributes).splitlines())


def is_rewritten(node, other):
    """Whether two nodes are files with the same attributes and other contents."""
    return node is not None and other is not None and node != other and None not in (node[0], other[0]) and node[1] == other[1]


def difference_of(old, new):
    """What differs between two trees, each of which has the bytes, or None, and the attributes at each path."""
    text = ""
    for path in sorted({*old, *new}, key=in_order):
        if is_rewritten(old.get(path), new.get(path)):
            text += marked("~", path, (new[path][0], {}))
        elif old.get(path) != new.get(path):
            text += marked("-", path, old[path]) if path in old else ""
            text += marked("+", path, new[path]) if path in new else ""
    return text


def compared(old, new):
    """What differs between two images that were read, their limits in front."""
    limits = "~ limits {} {} {}\n".format(*new.limits()) if old.limits() != new.limits() else ""
    return limits + difference_of(old.tree(), new.tree())


def ended_by(text):
    """How `diff` ends that says this: with 1 where it says that anything differs."""
    return int(text != ""), "", text.encode()
