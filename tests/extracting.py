#!/usr/bin/env python3
"""Makes folders of images and of directories in them, packed ones among them, and compares them with what the images hold."""
import pathlib
import shutil
import sys
import tempfile

from support.folder import contents, fill, run_scenes
from support.logs import directory, file, image, log, superblock, tail, SOFT
from support.refusing import Refusing

# What is told of an image of which a host can't have a name.
NO_NAME = "lfsed: 63 HostName\nlfsed: a.img: a name isn't UTF-8 or holds a zero byte; salvage saves it under another name\n"


def holds(place):
    """What a folder holds: its paths, with the bytes of files."""
    return {path.relative_to(place): path.read_bytes() if path.is_file() else None for path in place.rglob("*")}


def is_extracted(folder, what, size, wanted):
    """Makes a folder of the image, and compares it, and so does `salvage`; image and journal stay as they were."""
    before, place = (folder.old(), folder.saved()), folder.image.with_name("made")
    ended = folder.run(f"extract -b {size} a.img made")
    folder.check(what, ended == (0, "", b""), ended)
    found = holds(place)
    folder.check(f"{what}: contents", found == wanted, [*found][:9])
    folder.check(f"{what}: image", (folder.old(), folder.saved()) == before)
    saved = folder.image.with_name("saved")
    ended = folder.run(f"salvage -b {size} a.img saved")
    folder.check(f"{what}: is saved alike", ended == (0, "", b"") and holds(saved) == found, ended)
    again = folder.run(f"extract -b {size} a.img made")
    folder.check(f"{what}: again", again == (4, "lfsed: 62 HostEntry\nlfsed: made: is there already\n", b"") and holds(place) == found, again)


def is_refused(folder, what, status, complaint, words="extract -b 512 a.img made", **how):
    """Makes no folder; answers what was made all the same."""
    ended = folder.run(words, **how)
    folder.check(what, ended == (status, complaint, b""), ended)
    place = folder.image.with_name("made")
    folder.check(f"{what}: nothing is made", not place.exists())


def worked_folder(folder):
    for words, length in ("format --count 8", 0), ("mkdir", 0), ("put", 65), ("setattr", 0):
        command, *more = words.split(" ")
        path = {"mkdir": ["/d"], "put": ["/d/f"], "setattr": ["/d/f", "74", "01"]}.get(command, [])
        ended = folder.run(" ".join([command, "-b 512", *more, "a.img", *path]), length)
        folder.check(words, ended == (0, "", b""), ended)
    is_extracted(folder, "a file in a folder", 512, {pathlib.Path("d"): None, pathlib.Path("d/f"): contents(65)})


def what_is_refused(folder):
    is_refused(folder, "no image", 4, "lfsed: 60 CannotRead\nlfsed: a.img: No such file or directory (os error 2)\n")
    folder.be(b"", 4_095)
    is_refused(folder, "another length", 3, "lfsed: 1 ImageLength\nlfsed: a.img: 4095 bytes are no multiple of 512\n")
    folder.be(b"", 4_096)
    is_refused(folder, "no superblock", 3, "lfsed: 3 NoValidCommit\nlfsed: a.img: blocks 0 and 1 (/): neither holds a whole commit\n")
    for name in b"\xff", b"a\0b":
        folder.be(image(512, 8, {0: log(1, superblock(512, 8) + file(1, b"A", b"first") + file(2, name))}), 0)
        is_refused(folder, f"the name {name}", 4, NO_NAME)
    folder.run("format -b 512 --count 8 a.img")
    is_refused(folder, "another geometry", 3, "lfsed: 11 Geometry\nlfsed: a.img: its superblock states 8 blocks of 512 bytes\n",
               "extract -b 256 a.img made")
    is_refused(folder, "no folder above", 4, "lfsed: 61 CannotWrite\nlfsed: none/made: No such file or directory (os error 2)\n",
               "extract -b 512 a.img none/made")
    for there in "file", "folder", "link":
        place = folder.image.with_name(there)
        if there == "file":
            place.write_bytes(b"kept")
        elif there == "folder":
            place.mkdir()
        else:
            place.symlink_to("missing")
        second = "lfsed: link: neither a regular file nor a folder\n" if there == "link" else ""
        is_refused(folder, f"a {there}", 4, f"lfsed: 62 HostEntry\n{second}lfsed: {there}: is there already\n", f"extract -b 512 a.img {there}")
    folder.check("the file is kept", folder.image.with_name("file").read_bytes() == b"kept")


def is_part(folder, words, wanted):
    """Makes a folder by these words, compares it, and takes it away; image and journal stay as they were."""
    before, place = (folder.old(), folder.saved()), folder.image.with_name("made")
    ended = folder.run(f"extract {words}")
    found = holds(place)
    folder.check(words, ended == (0, "", b"") and place.is_dir() and found == wanted, (ended, [*found][:9]))
    folder.check(f"{words}: image", (folder.old(), folder.saved()) == before)
    shutil.rmtree(place, ignore_errors=True)


def parts_of_images(folder):
    """Each directory of a packed folder is made as a folder of its own, also the root, an empty one, a deep one, and those whose names
    begin as another one's; in each way in which an image is looked at."""
    source = folder.image.with_name("src")
    for name in "a/empty", "a/n", "ab/n", "a0/n", "deep/d/d/d/d/d":
        (source / name).mkdir(parents=True)
    for name, length in (("a/f", 70), ("a/n/f", 0), ("ab/n/f", 1_500), ("a0/f", 3), ("deep/d/d/d/d/d/f", 600), ("z", 9)):
        (source / name).write_bytes(contents(length))
    ended = folder.run("pack -b 512 --count 48 a.img src")
    folder.check("parts: packed", ended == (0, "", b""), ended)
    folder.image.with_name("flash.bin").write_bytes(bytes(700) + folder.old() + bytes(9))
    for place in [source, *filter(pathlib.Path.is_dir, source.rglob("*"))]:
        path = f"/{place.relative_to(source)}".replace("/.", "/")
        for options in "-b 512 a.img", "-b auto a.img", "-b 512 --device a.img", "-b 512 --older a.img", "-b 512 --offset 700 flash.bin":
            is_part(folder, f"{options} made {path}", holds(place))
    is_part(folder, "-b 512 a.img made", holds(source))


# Paths of an image of which no folder is made.
NO_PARTS = [
    ("/a/f", "32 NotADirectory", "/a/f: is a file"),
    ("/a/f/x", "32 NotADirectory", "/a/f: is a file"),
    ("/none", "30 NotFound", "/none: nothing is there"),
    ("/a/none/x", "30 NotFound", "/a/none: nothing is there"),
    ("a", "35 BadPath", "a: a path begins with /: try /a"),
    ("/a/", "35 BadPath", "/a/: a path has no slash at its end: try /a"),
    ("/a//f", "35 BadPath", "/a//f: two slashes stand together"),
    ("/a/..", "35 BadPath", "/a/..: no name of a path is . or .."),
]


def parts_that_are_refused(folder):
    """The path is judged before what is under the folder's name. Only the names below it have to be such as a host has."""
    for words, length in ("format -b 512 --count 8 a.img", 0), ("mkdir -b 512 a.img /a", 0), ("put -b 512 a.img /a/f", 65):
        ended = folder.run(words, length)
        folder.check(words, ended == (0, "", b""), ended)
    there = folder.image.with_name("there")
    there.write_bytes(b"kept")
    for path, first, second in NO_PARTS:
        for name in "made", "there":
            is_refused(folder, f"{name} of {path}", 1, f"lfsed: {first}\nlfsed: a.img: {second}\n", f"extract -b 512 a.img {name} {path}")
    is_refused(folder, "a part under a name that is there", 4, "lfsed: 62 HostEntry\nlfsed: there: is there already\n",
               "extract -b 512 a.img there /a")
    folder.check("what is there is kept", there.read_bytes() == b"kept")
    for name in b"\xff", b"z\0b":
        root = superblock(512, 8) + directory(1, b"d", (2, 3)) + directory(2, b"e", (4, 5)) + file(3, name) + tail(SOFT, (2, 3))
        blocks = {0: log(1, root), 2: log(1, file(0, b"f", b"in d") + tail(SOFT, (4, 5))), 4: log(1, file(0, name))}
        folder.be(image(512, 8, blocks), 0)
        is_part(folder, "-b 512 a.img made /d", {pathlib.Path("f"): b"in d"})
        for path in "", " /", " /e":
            is_refused(folder, f"the name {name} at{path}", 4, NO_NAME, f"extract -b 512 a.img made{path}")


def what_is_not_written(folder):
    """Each call by which a folder is made, of an image or of a directory in it, is refused in turn: what was made is a beginning of the
    whole."""
    source = folder.image.with_name("src")
    (source / "d").mkdir(parents=True)
    (source / "d/f").write_bytes(contents(1_000))
    (source / "e").write_bytes(b"small")
    folder.run("pack -b 512 --count 16 a.img src")
    with tempfile.TemporaryDirectory() as library:
        refusing = Refusing(pathlib.Path(library))
        for path, whole in ("/", holds(source)), ("/d", holds(source / "d")):
            for call in "open", "write", "statx", "read":
                calls_are_refused(folder, refusing, path, whole, call)


def calls_are_refused(folder, refusing, path, whole, call):
    """Each call of a name is refused in turn where a folder is made of what stands at a path, which is this whole."""
    for at in range(1, 60):
        name = f"{call}{at}{path.replace('/', '_')}"
        ended = folder.run(f"extract -b 512 a.img {name} {path}", env=refusing.env(at, call))
        if not refusing.was_hit():
            break
        is_told = ended[0] == 4 and ended[1].startswith(("lfsed: 60 CannotRead\n", "lfsed: 61 CannotWrite\n"))
        folder.check(f"{call} {at} of {path}", is_told or ended[0] == 0, ended)
        place = folder.image.with_name(name)
        found = holds(place) if place.exists() else {}
        is_front = all(below in whole and (bytes_ is None or whole[below].startswith(bytes_)) for below, bytes_ in found.items())
        folder.check(f"{call} {at} of {path}: a beginning", is_front, found)
        folder.check(f"{call} {at} of {path}: done", ended[0] != 0 or found == whole, found)


def nested(folder):
    """Folders in each other, and a file in the deepest."""
    count, size = 60, 512
    blocks = {0: log(1, superblock(size, 2 * count + 2) + directory(1, b"d", (2, 3)) + tail(SOFT, (2, 3)))}
    for n in range(1, count):
        pair = 2 * n + 2, 2 * n + 3
        blocks[2 * n] = log(1, directory(0, b"d", pair) + tail(SOFT, pair))
    blocks[2 * count] = log(1, file(0, b"f", b"deep"))
    folder.be(image(size, 2 * count + 2, blocks), 0)
    wanted = {pathlib.Path(*["d"] * n): None for n in range(1, count + 1)}
    is_extracted(folder, "nested folders", size, {**wanted, pathlib.Path(*["d"] * count, "f"): b"deep"})


def large_files(folder):
    """Files about as long as what is written at once, and longer ones."""
    source = folder.image.with_name("src")
    source.mkdir()
    for length in 65_535, 65_536, 65_537, 131_071, 131_072, 131_073, 200_000, 1_000_003:
        source.joinpath(f"file{length}").write_bytes(contents(length))
    ended = folder.run("pack -b 512 --count 8192 a.img src")
    folder.check("large files: packed", ended == (0, "", b""), ended)
    is_extracted(folder, "large files", 512, holds(source))


def many_files(folder):
    """5,000 files of mixed sizes in 300 folders, packed and extracted."""
    place = folder.image.with_name("src")
    fill(place)
    folder.check("pack", folder.run("pack --count 16384 a.img src") == (0, "", b""))
    is_extracted(folder, "many files", 4_096, holds(place))


if __name__ == "__main__":
    sys.exit(run_scenes([
        worked_folder, what_is_refused, parts_of_images, parts_that_are_refused, what_is_not_written, nested, large_files, many_files,
    ]))
