"""A device with a real littlefs, which runs in MicroPython (`real-littlefs` fetches it), and what the program says of its images."""
import functools
import hashlib
import json
import pathlib
import subprocess

HERE = pathlib.Path(__file__).resolve().parent
NO_POWER, NO_SPACE = 5, 28
# The kind of the attribute that has the time of a change, in billionths of a second.
TIME = 1


@functools.cache
def real_littlefs():
    """The command that runs a real littlefs; None where there is none, with a note."""
    fetched = subprocess.run([HERE / "real-littlefs"], capture_output=True, text=True, check=False)
    if fetched.returncode:
        print(f"skipped: no real littlefs: {(fetched.stderr.strip().splitlines() or ['?'])[-1]}")
        return None
    return fetched.stdout.strip()


def pattern(seed, size):
    """The same bytes as `pattern` of device.py."""
    held, state = bytearray(size), seed
    for at in range(size):
        state = (state * 1103515245 + 12345) & 0x7FFFFFFF
        held[at] = state >> 16 & 0xFF
    return bytes(held)


def sha256(held):
    """The SHA-256 of bytes, as the program prints it."""
    return hashlib.sha256(held).hexdigest()


def rows_of(printed):
    """What `ls --json --sha256` prints, as a device's tree has it: of each path its kind, length and digest; and its attributes."""
    rows, attributes = {}, {}
    for row in map(json.loads, printed.splitlines()):
        path = row["path"]
        rows[path] = (row["kind"][0], row.get("size", 0), row.get("sha256", ""))
        attributes[path] = {it["kind"]: bytes.fromhex(it["value"]) for it in row.get("attributes", [])}
    return rows, attributes


def times_of(attributes):
    """The times that attributes say, in seconds, by path."""
    held = {path: kinds[TIME] for path, kinds in attributes.items() if len(kinds.get(TIME, b"")) == 8}
    return {path: int.from_bytes(value, "little") // 10**9 for path, value in held.items()}


def fronts(path):
    """The paths above a path."""
    names = path.split("/")
    return ["/".join(names[:at]) or "/" for at in range(1, len(names))] if path != "/" else []


def shown(model):
    """What a device lists of a model's tree."""
    return {path: ("d", 0, "") if held is None else ("f", len(held), sha256(held)) for path, (held, _) in model.tree.items()}


class Refused(Exception):
    """A call that littlefs refused, by the number of its error."""


class Device:
    """A device: a process that holds a flash and a littlefs on it."""

    def __init__(self, folder, **how):
        self.folder = folder
        self.how = {"read": 16, "prog": 16, "lookahead": 32, "mtime": False, "erases": True, **how}
        self.process = subprocess.Popen(
            [real_littlefs(), HERE / "device.py"], stdin=subprocess.PIPE, stdout=subprocess.PIPE, text=True, bufsize=1)

    def __enter__(self):
        return self

    def __exit__(self, *_):
        self.process.stdin.close()
        self.process.stdout.close()
        self.process.wait()

    def __call__(self, op, **call):
        """Calls the device; answers what it answers, and raises Refused where littlefs refuses it."""
        self.process.stdin.write(json.dumps({"op": op, **call}) + "\n")
        line = self.process.stdout.readline()
        answer = json.loads(line) if line else {"errno": "the device has ended"}
        if "errno" in answer:
            raise Refused(answer["errno"])
        return answer["value"]

    def tries(self, op, **call):
        """Calls the device; answers the number of littlefs's error, 0 where the call is done."""
        try:
            self(op, **call)
        except Refused as refused:
            return refused.args[0]
        return 0

    def new(self, name, block, count):
        """Makes a file system on an erased flash, and mounts it."""
        self("open", image=str(self.folder / name), block=block, count=count, **self.how)
        self("mkfs")
        self("mount")

    def opens(self, name, block):
        """Takes up an image, and mounts it."""
        self("open", image=str(self.folder / name), block=block, count=0, **self.how)
        self("mount")

    def tree(self):
        """What the device lists: of each path its kind, length and digest, and when it was changed. A path that is listed twice, or a
        directory that is listed without end, is named."""
        listed = self("rows")
        tree = {path: (kind, length, digest, changed) for kind, path, length, digest, changed in listed}
        twice = [path for path in tree if sum(row[1] == path for row in listed) > 1] if len(tree) < len(listed) else []
        for path in twice:
            tree[path] = ("twice", 0, "", 0)
        return tree
