#!/usr/bin/env python3
"""Makes the images of tests/images anew with a real littlefs: of each its bytes, compressed, and in images.json what the device lists of it.
It is run by hand; the images that are stored are those of one such run."""
import functools
import json
import lzma
import pathlib
import random
import sys
import tempfile

sys.path.insert(0, str(pathlib.Path(__file__).resolve().parent.parent))

from support.later import DeviceReader
from support.littlefs import DIRECTORY
from support.real import NO_SPACE, Device

STORED = pathlib.Path(__file__).resolve().parent.parent / "images"


def reader(image, block):
    """The image as a device reads it; None where its thread can't be followed."""
    try:
        return DeviceReader(image, block)
    except (IndexError, TypeError, RecursionError):
        return None


def is_moving(image, block):
    """Whether a move is pending: the shares in the global state don't cancel."""
    read = reader(image, block)
    return read is not None and functools.reduce(lambda state, part: state ^ int.from_bytes(part.delta, "little"), read.parts, 0) & 0x7FF00000 != 0


def has_orphan(image, block):
    """Whether a directory of the thread stands in no entry."""
    read = reader(image, block)
    if read is None:
        return False
    named = {entry.pair() for part in read.parts for entry in part.entries if entry.kind == DIRECTORY}
    first = [part.pair for before, part in zip(read.parts, read.parts[1:]) if not before.is_hard]
    return any(pair not in named and pair[::-1] not in named for pair in first)


def is_expanded(image, block):
    """Whether the superblock was expanded."""
    return len(DeviceReader(image, block).leading()) > 1


class Making:
    """Images made in a folder, and stored."""

    def __init__(self, folder):
        self.folder, self.described = pathlib.Path(folder), {}

    def store(self, name, about, device, block, offset=0, around=None):
        """Stores what the device's flash holds, in a dump where `around` makes what stands around it, and what the device lists of it."""
        device("save")
        held = (self.folder / "a.img").read_bytes()
        device("go")
        device("mount")
        rows = sorted(device("rows"))
        assert not [row for row in rows if row[0] not in "df"], name
        dump = around(offset) + held + around(5 * block + 7) if around else held
        (STORED / f"{name}.img.xz").write_bytes(lzma.compress(dump, preset=9 | lzma.PRESET_EXTREME))
        unfinished = is_moving(held, block) or has_orphan(held, block)
        self.described[name] = {
            "about": about, "block": block, "count": len(held) // block, "offset": offset, "unfinished": unfinished,
            "times": device.how["mtime"], "rows": rows,
        }

    def described_rows(self):
        """What images.json says: an object for each image, in which each row of the listing has a line."""
        lines = []
        for name, about in sorted(self.described.items()):
            rows = ",\n  ".join(json.dumps(row) for row in about["rows"])
            head = json.dumps({what: held for what, held in about.items() if what != "rows"})[:-1]
            lines.append(f' "{name}": {head}, "rows": [\n  {rows}]}}' if rows else f' "{name}": {head}, "rows": []}}')
        return "{\n" + ",\n".join(lines) + "\n}\n"

    def device(self, block, count, **how):
        """A device with a new file system."""
        device = Device(self.folder, **how)
        device.new("a.img", block, count)
        return device


def fill(device, chance, block, files, directories=3):
    """Has a device make directories and files of all kinds of lengths; whether it was never full."""
    places = [""]
    failed = []
    for number in range(directories):
        place = f"{chance.choice(places)}/dir{number}"
        failed.append(device.tries("mkdir", path=place))
        places.append(place)
    for number in range(files):
        size = chance.choice([0, 3, block // 8, block // 8 + 1, block, 3 * block + 5])
        failed.append(device.tries("write", path=f"{chance.choice(places)}/file{number}", seed=number, size=size))
    return NO_SPACE not in failed


def wear(device, paths, block, times):
    """Has a device write files many times."""
    for path in paths:
        device("again", path=path, seed=7, size=block // 16, times=times)


def ages(making):
    """Images of all ages."""
    for block, count in (256, 64), (512, 64), (1024, 32), (4096, 16):
        chance = random.Random(block)
        with making.device(block, count) as device:
            making.store(f"empty-{block}", "formatted", device, block)
        with making.device(block, count, mtime=block == 512) as device:
            fill(device, chance, block, 6)
            making.store(f"fresh-{block}", "a few files", device, block)
        with making.device(block, count, read=32, prog=32) as device:
            fill(device, chance, block, 9)
            for number in range(8):
                device.tries("rename" if number % 2 else "remove", path=f"/dir0/file{number}", to=f"/moved{number}")
            making.store(f"used-{block}", "files renamed and removed", device, block)
    for block, count, times in (256, 200, 300), (512, 64, 700), (512, 200, 2_500), (1024, 64, 2_500), (4096, 24, 9_000):
        chance = random.Random(times)
        with making.device(block, count, mtime=times == 700) as device:
            fill(device, chance, block, 8)
            wear(device, ["/dir0/worn", "/worn"], block, times)
            making.store(f"worn-{block}-{times}", "two files written many times, so that pairs moved", device, block)
    for block, times in (256, 3_000), (512, 6_000), (1024, 9_000):
        with making.device(block, 128) as device:
            fill(device, random.Random(block), block, 5)
            wear(device, ["/worn"], block, times)
            device("save")
            assert is_expanded((making.folder / "a.img").read_bytes(), block), block
            making.store(f"expanded-{block}", "the superblock was expanded", device, block)
    for block, count in (256, 48), (512, 32), (4096, 12):
        with making.device(block, count, mtime=block == 512) as device:
            assert not fill(device, random.Random(block), block, 60), block
            making.store(f"full-{block}", "written until the flash was full", device, block)


def cut_off(making):
    """Images whose device lost its power in the middle of a call."""
    calls = {
        "rename": ("rename", {"path": "/dir0/file0", "to": "/dir1/moved"}, is_moving),
        "mkdir": ("mkdir", {"path": "/dir1/a"}, has_orphan),
        "write": ("write", {"path": "/dir0/file0", "seed": 9, "size": 900}, lambda image, block: True),
    }
    for name, (op, call, is_wanted) in calls.items():
        for block in (256, 512):
            for after in range(1 if name != "write" else 4, 40):
                with making.device(block, 64) as device:
                    for place in "/dir0", "/dir1", "/dir2":
                        device("mkdir", path=place)
                        for number in range(12):
                            device("write", path=f"{place}/file{number}", seed=number, size=block // 10)
                    device("cut", after=after, torn=0.5)
                    device.tries(op, **call)
                    device("save")
                    if is_wanted((making.folder / "a.img").read_bytes(), block):
                        making.store(f"cut-{name}-{block}", f"the power failed in the middle of a {name}", device, block)
                        break
            else:
                raise AssertionError(name)


def in_dumps(making):
    """Images in dumps: among random bytes, and among erased ones and text."""
    text = b"\xff" * 100 + b"littlefs is a file system. "
    around = {"noise": (1_000, random.Random(3).randbytes), "text": (4_096, lambda length: (text * (length // len(text) + 1))[:length])}
    for name, (offset, held) in around.items():
        with making.device(512, 64) as device:
            fill(device, random.Random(offset), 512, 8)
            wear(device, ["/worn"], 512, 900)
            making.store(f"dump-{name}", f"in a dump, with {name} around it", device, 512, offset, held)


def main():
    STORED.mkdir(exist_ok=True)
    with tempfile.TemporaryDirectory() as folder:
        making = Making(folder)
        ages(making)
        cut_off(making)
        in_dumps(making)
    (STORED / "images.json").write_text(making.described_rows())
    print(f"{len(making.described)} images")


if __name__ == "__main__":
    main()
