#!/usr/bin/env python3
"""Measures the packing and the making of folders by the program: one of 5,000 files of 40 MiB in 300 folders beside `cp -r` of the
folder and `cp` of the image; and, in rising numbers, empty files in one folder, empty folders in one, and empty files in folders of
their own. Of the first the least processor time of five runs, each into a folder of its own: where another one was taken away just
before, file systems look for places that are free again, which costs more than the copy. Ends with 1 where a mark is missed."""
import pathlib
import tempfile

from measures import cost, end, mark, mixed_files
from support.folder import PROGRAM

ROUNDS = 5


def measure(*commands):
    """The seconds of processor time that commands take together, and the peak memory of the first in MiB."""
    costs = [cost(command) for command in commands]
    return sum(one.processor for one in costs), costs[0].peak


def least(*commands):
    """The least of some runs."""
    return min(measure(*commands) for _ in range(ROUNDS))


def pack(image, folder, size, count):
    return [PROGRAM, "pack", "--block", str(size), "--count", str(count), image, folder]


def mixed(room):
    """A folder of mixed files beside the copies."""
    folder, image = room / "mixed", room / "mixed.img"
    mixed_files(folder)
    spent, peak = least(pack(image, folder, 4_096, 16_384))
    copies = []
    for n in range(ROUNDS):
        copies.append(measure(["cp", "-r", folder, room / f"copied{n}"], ["cp", image, room / "copy.img"])[0])
    print(f"mixed: pack {spent:.2f} s, copies {min(copies):.2f} s, {peak:.0f} MiB")
    mark("pack by the copies", spent / min(copies), 1.5)
    held = (image.stat().st_size + sum(place.stat().st_size for place in folder.rglob("*") if place.is_file())) / 2**20
    mark("peak memory of pack by image and contents", peak / held, 1.25)
    made = []
    for n in range(ROUNDS):
        extracted = measure([PROGRAM, "extract", image, room / f"made{n}"])
        made.append((extracted[0], measure(["cp", "-r", folder, room / f"again{n}"])[0], extracted[1]))
    spent, copy, peak = min(made)[0], min(row[1] for row in made), made[0][2]
    print(f"mixed: extract {spent:.2f} s, copy {copy:.2f} s, {peak:.0f} MiB")
    mark("extract by the copy", spent / copy, 1.3)
    judged, _ = least([PROGRAM, "check", image])
    listed, _ = least([PROGRAM, "ls", image])
    print(f"mixed: check {judged:.3f} s, ls {listed:.3f} s")
    mark("ls by check", listed / judged, 1.5)


def empty(room, kind, count):
    """So many empty files or folders in one folder, or empty files in folders of their own."""
    folder = room / f"{kind}{count}"
    folder.mkdir()
    for n in range(count):
        place = folder / f"entry{n}"
        place.touch() if kind == "files" else place.mkdir()
        if kind == "files in folders":
            (place / "file").touch()
    spent, peak = measure(pack(room / "empty.img", folder, 512, 65_536))
    print(f"{count} empty {kind}: pack {spent:.2f} s, {peak:.0f} MiB")
    return spent


def main():
    with tempfile.TemporaryDirectory() as folder:
        room = pathlib.Path(folder)
        mixed(room)
        for kind in "files", "folders", "files in folders":
            few, _, many = [empty(room, kind, count) for count in (7_500, 15_000, 30_000)]
            mark(f"packing four times as many {kind}, by four", many / few / 4, 1.5)
    end()


main()
