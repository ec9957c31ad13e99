"""What measures of the program share: marks, the costs of commands, the folder of mixed files, and copies of an image. It
puts tests/ on the path."""
import collections
import os
import pathlib
import random
import shutil
import subprocess
import sys
import time

sys.path.insert(0, str(pathlib.Path(__file__).resolve().parent.parent / "tests"))

from support.folder import spread

# Seconds until a command ends, those of processor time that it takes, and its peak memory in MiB.
Cost = collections.namedtuple("Cost", "until_end processor peak")
MISSED = []


def mark(what, value, most):
    """Says whether a value is at most its mark."""
    if value > most:
        MISSED.append(what)
    print(f"  {what} {value:.2f}, to be at most {most}{' MISSED' if value > most else ''}")


def end():
    """Ends with 1 where a mark was missed."""
    sys.exit(1 if MISSED else 0)


def cost(command):
    """What a command costs, which has to succeed."""
    begin = time.perf_counter()
    child = subprocess.Popen(command, stdin=subprocess.DEVNULL, stdout=subprocess.DEVNULL)
    _, status, usage = os.wait4(child.pid, 0)
    if status:
        sys.exit(f"{command} failed")
    return Cost(time.perf_counter() - begin, usage.ru_utime + usage.ru_stime, usage.ru_maxrss / 1024)


def mixed_files(place):
    """Makes a folder of 5,000 files of mixed sizes, 40 MiB together, in 300 folders."""
    chance = random.Random(9)
    sizes = [chance.choice([0, 100, 2_000, chance.randrange(40_000)]) for _ in range(5_000)]
    rate = 40 * 2**20 / sum(sizes)
    spread(place, chance, [round(size * rate) for size in sizes])


def copy_anew(image, copy):
    """Makes a new copy of an image, without a journal, and waits until the disk has it: else a run would wait for what was written before
    it, once it replaces the copy."""
    for left in copy, copy.with_name(f"{copy.name}.lfsj"):
        left.unlink(missing_ok=True)
    shutil.copyfile(image, copy)
    with copy.open("rb+") as held:
        os.fsync(held.fileno())
