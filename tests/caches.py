#!/usr/bin/env python3
"""A real littlefs with caches of several lengths, on images that the program packs: it reads, extends and writes anew each file that stands
in its entry, whatever its cache. It changes such a file in place exactly if the file is no longer than the cache."""
import pathlib
import subprocess
import sys
import tempfile

from support.counts import Counts
from support.folder import HOME, PROGRAM
from support.real import Device, pattern, real_littlefs, sha256

BLOCK, COUNT = 4096, 64
# littlefs's error for a log that can't be right, by which it refuses such a change.
CORRUPT = 84
# The module that runs littlefs gives it a cache of four units of reading.
CACHES = 64, 128, 256, 512, 1024
LENGTHS = 64, 65, 128, 129, 256, 257, BLOCK // 8


def pack(folder):
    """Packs a file of each length."""
    (folder / "fw").mkdir()
    for length in LENGTHS:
        (folder / "fw" / f"of-{length}").write_bytes(pattern(length, length))
    subprocess.run([PROGRAM, "pack", "--block", str(BLOCK), "--count", str(COUNT), folder / "a.img", folder / "fw"], check=True)


def check_file(counts, device, cache, length):
    """What a device with this cache does with a file of this length."""
    path, what = f"/of-{length}", f"a file of {length} bytes, a cache of {cache}"
    held = pattern(length, length)

    def reads(done):
        found = device.tree()[path][2]
        counts.check(f"{what}: {done}", found == sha256(held), found)

    device.opens("a.img", BLOCK)
    reads("it is read")
    wanted = 0 if length <= cache else CORRUPT
    answered = device.tries("change", path=path, at=5, seed=9, size=3)
    counts.check(f"{what}: it is changed in place, or refused", answered == wanted, answered)
    held = held if wanted else held[:5] + pattern(9, 3) + held[8:]
    reads("it is as the change left it")
    device("append", path=path, seed=2, size=1)
    held += pattern(2, 1)
    reads("it is extended")
    device("write", path=path, seed=3, size=length)
    held = pattern(3, length)
    reads("it is written anew")


def main():
    subprocess.run([HOME / "bin/lfsed", "--help"], stdout=subprocess.DEVNULL, check=True)
    counts = Counts()
    if real_littlefs():
        with tempfile.TemporaryDirectory() as room:
            folder = pathlib.Path(room)
            pack(folder)
            for cache in CACHES:
                with Device(folder, read=cache // 4, prog=cache // 4) as device:
                    for length in LENGTHS:
                        check_file(counts, device, cache, length)
    return counts.end()


if __name__ == "__main__":
    sys.exit(main())
