#!/usr/bin/env python3
"""Images that a real littlefs wrote, in tests/images: the program finds each, reads it as the device that wrote it lists it, and repacks it.
`support/store_images.py` made them, with MicroPython 1.25 of Debian 13, which writes disk version 2.1."""
import json
import lzma
import pathlib
import sys

from support.folder import run_scenes
from support.real import rows_of, times_of

STORED = pathlib.Path(__file__).resolve().parent / "images"
IMAGES = json.loads((STORED / "images.json").read_text())


def taken(folder, name):
    """Makes the folder's image the dump of a stored one."""
    folder.be(lzma.decompress((STORED / f"{name}.img.xz").read_bytes()), 0)


def listed(folder, about, what, options):
    """Compares what the program lists with what the device listed."""
    status, told, printed = folder.run(f"ls --json --sha256 {options}")
    folder.check(f"{what}: listed", (status, told) == (0, ""), (status, told))
    rows, attributes = rows_of(printed)
    wanted = {path: (kind, length, digest) for kind, path, length, digest, _ in about["rows"]} | {"/": ("d", 0, "")}
    folder.check(f"{what}: the device's tree", rows == wanted, rows)
    changed = {path: time for kind, path, _, _, time in about["rows"] if about["times"] and kind == "f" and time}
    times = {path: time for path, time in times_of(attributes).items() if path in changed}
    folder.check(f"{what}: the device's times", times == {path: changed[path] for path in times} and len(times) == len(changed), times)


def images_are_read(folder):
    for name, about in IMAGES.items():
        taken(folder, name)
        at = f"--offset {about['offset']} a.img"
        status, told, printed = folder.run(f"check --device -b auto {at}")
        said = f"block {about['block']}, count {about['count']}, free "
        is_said = printed.decode().startswith(said) and printed.decode().endswith(", version 2.1\n")
        is_told = not told or name.startswith("cut") and " was being moved; it is read at its new place\n" in told
        folder.check(f"{name}: checked", status == 0 and is_told and is_said, (status, told, printed))
        listed(folder, about, name, f"--device -b auto {at}")


def images_are_found(folder):
    for name, about in IMAGES.items():
        taken(folder, name)
        status, told, printed = folder.run("find a.img")
        block, count = about["block"], about["count"]
        wanted = f"0x{about['offset']:x}  version 2.1  block {block}  count {count}  {block * count} bytes  mounts\n"
        folder.check(f"{name}: found", (status, told, printed.decode()) == (0, "", wanted), (status, told, printed))


def images_are_repacked(folder):
    for name, about in IMAGES.items():
        taken(folder, name)
        more = about["count"] + 4
        ended = folder.run(f"repack --device --offset {about['offset']} -b {about['block']} --count {more} b.img a.img")
        folder.check(f"{name}: repacked", ended == (0, "", b""), ended)
        listed(folder, about, f"{name}, repacked", "-b auto b.img")
        folder.image.with_name("b.img").unlink()


if __name__ == "__main__":
    sys.exit(run_scenes([images_are_read, images_are_found, images_are_repacked]))
