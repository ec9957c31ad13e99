"""A device with a real littlefs, run by MicroPython: a flash in memory, and VfsLfs2 on it. Calls come on standard input, a JSON object a line;
each is answered by one. The answer has `errno` where littlefs refused the call."""
import errno
import hashlib
import json
import os
import sys

# More rows than any image of a test has: a listing that is longer never ends.
MOST_ROWS = 2000


class Flash:
    """A flash. An erase makes a block 0xff throughout, unless the flash has none. The power can fail at a write, which is then cut."""

    def __init__(self, data, block, erases):
        self.data, self.block, self.erases = data, block, erases
        self.left = self.torn = None

    def readblocks(self, number, into, at=0):
        at += number * self.block
        into[:] = memoryview(self.data)[at:at + len(into)]

    def writeblocks(self, number, held, at=0):
        if not self.has_power():
            held = held[:int(len(held) * self.torn)] if self.left == 0 else b""
        at += number * self.block
        self.data[at:at + len(held)] = held
        return 0 if self.is_up() else -errno.EIO

    def ioctl(self, question, number):
        if question == 4:
            return len(self.data) // self.block
        if question == 5:
            return self.block
        if question == 6 and self.erases and self.has_power():
            at = number * self.block
            self.data[at:at + self.block] = b"\xff" * self.block
        return 0 if self.is_up() else -errno.EIO

    def is_up(self):
        """Whether the power hasn't failed."""
        return self.left is None or self.left > 0

    def has_power(self):
        """Counts a write or an erase; whether the power lasts for it."""
        if self.left is not None:
            self.left -= 1
        return self.is_up()


def pattern(seed, size):
    """The same bytes as `pattern` of real.py."""
    held, state = bytearray(size), seed
    for at in range(size):
        state = (state * 1103515245 + 12345) & 0x7FFFFFFF
        held[at] = state >> 16 & 0xFF
    return held


def digest(fs, path):
    """The length and the SHA-256 of a file."""
    total, summed = 0, hashlib.sha256()
    with fs.open(path, "rb") as opened:
        while True:
            held = opened.read(4096)
            if not held:
                break
            total += len(held)
            summed.update(held)
    return total, "".join("%02x" % byte for byte in summed.digest())


def rows(fs):
    """All that the device lists: of each path what it is, its length and digest, and when it was changed. A directory that is listed without
    end, or a name that can't be opened, has a row of another kind."""
    listed, waiting = [], ["/"]
    while waiting:
        place = waiting.pop()
        for row in fs.ilistdir(place):
            name, kind = row[0], row[1]
            if len(listed) > MOST_ROWS:
                listed.append(["endless", place, 0, "", 0])
                return listed
            path = place.rstrip("/") + "/" + name
            try:
                changed = fs.stat(path)[8]
            except OSError:
                listed.append(["lost", path, 0, "", 0])
                continue
            if kind == 0x4000:
                waiting.append(path)
                listed.append(["d", path, 0, "", changed])
            else:
                total, summed = digest(fs, path)
                listed.append(["f", path, total, summed, changed])
    return listed


class Device:
    """What is done with the flash."""

    def open(self, call):
        """Takes up a flash: the bytes of a file, or so many erased blocks."""
        self.how = {"readsize": call["read"], "progsize": call["prog"], "lookahead": call["lookahead"], "mtime": call["mtime"]}
        self.name, self.fs = call["image"], None
        if call["count"]:
            data = bytearray(b"\xff" * (call["block"] * call["count"]))
        else:
            with open(self.name, "rb") as opened:
                data = bytearray(opened.read())
        self.flash = Flash(data, call["block"], call["erases"])

    def save(self, call):
        """Writes the flash to its file."""
        with open(self.name, "wb") as opened:
            opened.write(self.flash.data)

    def mkfs(self, call):
        os.VfsLfs2.mkfs(self.flash, **self.how)

    def mount(self, call):
        self.fs = os.VfsLfs2(self.flash, **self.how)

    def rows(self, call):
        return rows(self.fs)

    def mkdir(self, call):
        self.fs.mkdir(call["path"])

    def remove(self, call):
        self.fs.remove(call["path"])

    def rename(self, call):
        self.fs.rename(call["path"], call["to"])

    def write(self, call):
        with self.fs.open(call["path"], "wb") as opened:
            opened.write(pattern(call["seed"], call["size"]))

    def append(self, call):
        with self.fs.open(call["path"], "ab") as opened:
            opened.write(pattern(call["seed"], call["size"]))

    def change(self, call):
        """Writes over a part of a file."""
        with self.fs.open(call["path"], "r+b") as opened:
            opened.seek(call["at"])
            opened.write(pattern(call["seed"], call["size"]))

    def again(self, call):
        """Writes a file so many times."""
        for turn in range(call["times"]):
            with self.fs.open(call["path"], "wb") as opened:
                opened.write(pattern(call["seed"] + turn, call["size"]))

    def cut(self, call):
        """Lets the power fail at one of the writes to come, of which this share is still written."""
        self.flash.left, self.flash.torn = call["after"], call["torn"]

    def go(self, call):
        """Switches the device on again."""
        self.flash.left = None
        self.fs = None


def main():
    device = Device()
    for line in sys.stdin:
        call = json.loads(line)
        answer = {}
        try:
            answer["value"] = getattr(device, call["op"])(call)
        except OSError as error:
            answer["errno"] = error.args[0] if error.args else -1
        print(json.dumps(answer))


main()
