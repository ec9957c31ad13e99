#!/usr/bin/env python3
"""Measures an edit of an image of 64 MiB in blocks of 4,096 bytes behind a thousand changes, an attribute of the root, beside `check` of the
image, by processor time, for histories of several kinds: files that get other contents and attributes, new files, new directories, and all
kinds of changes mixed. Of each the least of five runs, each on a new copy of image and journal. Ends with 1 where a mark is missed."""
import pathlib
import random
import shutil
import tempfile

from measures import cost, end, mark, mixed_files
from support.folder import PROGRAM, contents

SIZE, COUNT, CHANGES, ROUNDS, MOST = 4_096, 16_384, 1_000, 5, 20


def spent(*words):
    """The processor time of a run of the program, in seconds."""
    return cost([PROGRAM, *words]).processor


def many_folders(place):
    """14,710 small files in 1,639 folders."""
    chance = random.Random(10)
    places = [place]
    place.mkdir()
    for n in range(1_638):
        places.append(chance.choice(places[-40:]) / f"folder{n}")
        places[-1].mkdir()
    for n in range(14_710):
        (chance.choice(places) / f"file{n}").write_bytes(chance.randbytes(chance.choice([0, 10, 60, 200])))


def contents_lines(files, folders, host):
    """Files that get other contents, and others an attribute."""
    return [f"put {files[n % len(files)]} {host}" if n % 2 else f"setattr {files[7 * n % len(files)]} 74 {n:08x}" for n in range(CHANGES)]


def file_lines(files, folders, host):
    """New files."""
    return [f"put {folders[n % len(folders)]}/new{n} {host}" for n in range(CHANGES)]


def folder_lines(files, folders, host):
    """New directories."""
    return [f"mkdir {folders[n % len(folders)]}/new{n}" for n in range(CHANGES)]


def mixed_lines(files, folders, host):
    """Of a hundred lines forty other contents, twenty new files, fifteen removed, ten attributes, five moves, five directories made, and
    those removed."""
    lines = []
    for n in range(CHANGES):
        kind, file, folder = n % 100, files[n], folders[n % len(folders)]
        if kind < 40:
            lines.append(f"put {file} {host}")
        elif kind < 60:
            lines.append(f"put {folder}/new{n} {host}")
        elif kind < 75:
            lines.append(f"rm {file}")
        elif kind < 85:
            lines.append(f"setattr {file} 74 {n:08x}")
        elif kind < 90:
            lines.append(f"mv {file} {folder}/moved{n}")
        elif kind < 95:
            lines.append(f"mkdir {folder}/made{n}")
        else:
            lines.append(f"rm {folders[(n - 5) % len(folders)]}/made{n - 5}")
    return lines


def path_of(place, path):
    """The path in the image of a path of the host's folder."""
    return f"/{path.relative_to(place)}"


def measure(room, name, fill):
    """Compares an edit behind each history with a check of an image of a folder."""
    place, image, copy, script, host = (room / it for it in (name, "a.img", "copy.img", "steps", "host"))
    fill(place)
    host.write_bytes(contents(100))
    files = [path_of(place, path) for path in sorted(place.rglob("*")) if path.is_file()]
    folders = [path_of(place, path) for path in sorted(place.rglob("*")) if path.is_dir()]
    random.Random(11).shuffle(files)
    random.Random(12).shuffle(folders)
    for lines in contents_lines, file_lines, folder_lines, mixed_lines:
        for left in image, image.with_name("a.img.lfsj"):
            left.unlink(missing_ok=True)
        spent("pack", "--block", str(SIZE), "--count", str(COUNT), image, place)
        script.write_text("".join(f"{line}\n" for line in lines(files, folders, host)))
        spent("batch", "--block", str(SIZE), image, script)
        check = min(spent("check", "--block", str(SIZE), image) for _ in range(ROUNDS))
        edits = []
        for _ in range(ROUNDS):
            shutil.copyfile(image, copy)
            shutil.copyfile(image.with_name("a.img.lfsj"), copy.with_name("copy.img.lfsj"))
            edits.append(spent("setattr", "--keep", str(CHANGES), "--block", str(SIZE), copy, "/", "74", "0102"))
        kind = " ".join(lines.__doc__.split()).rstrip(".")
        print(f"{name}. {kind}: an edit {1_000 * min(edits):.0f} ms, check {1_000 * check:.0f} ms")
        mark("an edit by check", min(edits) / check, MOST)
    shutil.rmtree(place)


def main():
    with tempfile.TemporaryDirectory() as folder:
        for name, fill in ("5,000 files", mixed_files), ("14,710 files", many_folders):
            measure(pathlib.Path(folder), name, fill)
    end()


main()
