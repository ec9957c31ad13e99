#!/usr/bin/env python3
"""Has the program tell as JSON what it tells as text, and compares each line, byte for byte, with the one that Python's own writer makes
of what a reader apart from the program finds: rows, an image in numbers, blocks, differences, changes of a history, digests, and faults."""
import hashlib
import json
import random
import subprocess
import sys

from support.folder import PROGRAM, contents, run_scenes
from support.littlefs import Reader
from support.logs import attribute, directory, file, image, log, superblock, tail, SOFT
from support.scattering import Scattered, key
from support.texts import in_order, is_rewritten, lines_of

SIZE = 512


def line_of(**said):
    """An object as one line, as Python writes it."""
    return json.dumps(said, ensure_ascii=False, separators=(",", ":")) + "\n"


def path_said(path):
    """How an object says a path."""
    try:
        return {"path": path.decode()}
    except UnicodeDecodeError:
        return {"path_hex": path.hex()}


def row_said(path, held, attributes):
    """What an object says of a row: of a directory `held` is None, else the contents."""
    kind = {"kind": "directory"} if held is None else {"kind": "file", "size": len(held)}
    listed = [{"kind": at, "value": value.hex()} for at, value in sorted(attributes.items())]
    return {**kind, **path_said(path), **({"attributes": listed} if listed else {})}


def rows_of(tree):
    """The lines of `ls`."""
    return "".join(line_of(**row_said(path, *tree[path])) for path in sorted(tree, key=in_order))


def summary_of(reader):
    """The line of `check`."""
    tree, free = reader.tree(), reader.free()
    files = sum(held is not None for held, _ in tree.values())
    name, most, attr = reader.limits()
    return line_of(
        block=reader.size, count=len(reader.image) // reader.size, free=free, free_bytes=free * reader.size,
        directories=len(tree) - files, files=files, version="2.0", name_max=name, file_max=most, attr_max=attr,
        inline_longest=reader.longest(),
    )


def difference_of(old, new):
    """The lines of `diff` of two trees."""
    text = ""
    for path in sorted({*old, *new}, key=in_order):
        if is_rewritten(old.get(path), new.get(path)):
            text += line_of(change="contents", **row_said(path, new[path][0], {}))
        elif old.get(path) != new.get(path):
            text += line_of(change="removed", **row_said(path, *old[path])) if path in old else ""
            text += line_of(change="added", **row_said(path, *new[path])) if path in new else ""
    return text


def blocks_of(texts, is_sum):
    """The lines of `blocks`, by those of its text, in which no path has an odd byte."""
    lines = []
    for numbers, kind, *path in (line.split(" ", 2) for line in texts.splitlines()):
        named = {"kind": "free"} if kind == "-" else {"kind": {"d": "directory", "f": "file"}[kind], "path": path[0]}
        first, _, last = numbers.partition("-")
        of = {"blocks": int(numbers)} if is_sum else {"first": int(first), "last": int(last or first)}
        lines.append(line_of(**named, **of))
    return "".join(lines)


def tells(folder, what, words, wanted, status=0):
    """Compares what is printed, with the word behind the command and in front of it."""
    command, rest = words.split(" ", 1)
    for line in f"{command} --json {rest}", f"--json {words}":
        ended = folder.run(line)
        folder.check(f"{what}: {line}", ended == (status, "", wanted.encode()), (ended, wanted))


def is_said(folder, what, data, size=SIZE):
    """Compares what is said of an image with what the reader finds."""
    folder.be(data, 0)
    reader = Reader(data, size)
    tells(folder, what, f"ls -b {size} a.img", rows_of(reader.tree()))
    tells(folder, what, f"check -b {size} a.img", summary_of(reader))


def digests(folder):
    """The digests of contents, as hashlib has them, behind the lines of files and in their objects."""
    chance = random.Random(64)
    for n in range(20):
        size = chance.choice([256, 512])
        data = Scattered(chance, size, chance.choice([16, 64])).image
        folder.be(data, 0)
        tree = Reader(data, size).tree()
        hashed = {path: None if held is None else hashlib.sha256(held).hexdigest() for path, (held, _) in tree.items()}
        text = objects = ""
        for path in sorted(tree, key=in_order):
            held, attributes = tree[path]
            text += lines_of(path, None if held is None else len(held), attributes) + (f"# {hashed[path]}\n" if held is not None else "")
            objects += line_of(**row_said(path, held, attributes), **({} if held is None else {"sha256": hashed[path]}))
        ended = folder.run(f"ls --sha256 -b {size} a.img")
        folder.check(f"digests {n}", ended == (0, "", text.encode()), (ended, text))
        tells(folder, f"digests {n}", f"ls --sha256 -b {size} a.img", objects)
    path = next(path for path in sorted(tree, key=in_order) if tree[path][0])
    ended = folder.run(f"ls --sha256 -b {size} a.img {path.decode()}")
    folder.check("digest of one file", ended[2].decode().endswith(f"# {hashed[path]}\n") and ended[2].count(b"#") == 1, ended)


def worked_lines(folder):
    """Lines that were written by hand."""
    folder.play([
        ("format -b 512 --count 8 --name-max 40 a.img", 0, 0, "", ""),
        ("mkdir -b 512 a.img /a", 0, 0, "", ""),
        ("put -b 512 a.img /a/x", 5, 0, "", ""),
        ("setattr -b 512 a.img /a 74 0102", 0, 0, "", ""),
        ("ls --json -b 512 a.img", 0, 0, "", '{"kind":"directory","path":"/"}\n'
         '{"kind":"directory","path":"/a","attributes":[{"kind":116,"value":"0102"}]}\n{"kind":"file","size":5,"path":"/a/x"}\n'),
        ("ls -b 512 --json a.img /a/x", 0, 0, "", '{"kind":"file","size":5,"path":"/a/x"}\n'),
        ("check --json -b 512 a.img", 0, 0, "", '{"block":512,"count":8,"free":4,"free_bytes":2048,"directories":2,"files":1,'
         '"version":"2.0","name_max":40,"file_max":2147483647,"attr_max":1022,"inline_longest":5}\n'),
        ("blocks --json -b 512 a.img", 0, 0, "", '{"kind":"directory","path":"/","first":0,"last":1}\n'
         '{"kind":"directory","path":"/a","first":2,"last":3}\n{"kind":"free","first":4,"last":7}\n'),
        ("blocks --json --sum -b 512 a.img", 0, 0, "", '{"kind":"directory","path":"/","blocks":4}\n'
         '{"kind":"directory","path":"/a","blocks":2}\n{"kind":"file","path":"/a/x","blocks":0}\n{"kind":"free","blocks":4}\n'),
        ("undo -b 512 a.img", 0, 0, "", ""),
        ("log --json -b 512 a.img", 0, 0, "", '{"number":1,"state":"done"}\n{"change":"added","kind":"directory","path":"/a"}\n'
         '{"number":2,"state":"done"}\n{"change":"added","kind":"file","size":5,"path":"/a/x"}\n{"number":3,"state":"undone"}\n'
         '{"change":"removed","kind":"directory","path":"/a"}\n'
         '{"change":"added","kind":"directory","path":"/a","attributes":[{"kind":116,"value":"0102"}]}\n'),
        ("--json cat -b 512 a.img /a/x", 0, 0, "", contents(5).decode("latin-1")),
    ])


def odd_paths(folder):
    """Names with bytes that JSON escapes, and such that are no UTF-8; directories in each other."""
    names = [bytes([byte]) for byte in range(1, 128) if byte not in b"/."] + ["é€😀".encode(), b"\xff\xfe", b"a\xc3", b'\\"', b"x" * 255]
    entries = [item for n, name in enumerate(sorted(names[:60], key=key), 1) for item in file(n, name, bytes(n % 40))]
    is_said(folder, "odd names", image(4_096, 8, {0: log(1, superblock(4_096, 8) + entries)}), 4_096)
    rest = [item for n, name in enumerate(sorted(names[60:], key=key), 1) for item in file(n, name)]
    is_said(folder, "more odd names", image(4_096, 8, {0: log(1, superblock(4_096, 8) + rest)}), 4_096)
    inner = directory(1, b"\xff", (2, 3)) + attribute(1, 9, b"") + attribute(1, 200, b"\0\xff") + tail(SOFT, (2, 3))
    blocks = {0: log(1, superblock(SIZE, 8) + inner), 2: log(1, file(0, b"in", b"in"))}
    is_said(folder, "a directory whose name is no UTF-8", image(SIZE, 8, blocks))


def scattered_images(folder):
    """Images of another writer."""
    chance = random.Random(61)
    for n in range(40):
        size = chance.choice([256, 512])
        is_said(folder, f"scattered {n}", Scattered(chance, size, chance.choice([16, 32, 64])).image, size)


def differing_images(folder):
    """Pairs of images of another writer; limits that differ stand in front."""
    chance = random.Random(62)
    for n in range(40):
        old, new = (Scattered(chance, SIZE, 32).image for _ in range(2))
        folder.be(old, 0)
        folder.image.with_name("b.img").write_bytes(new)
        wanted = difference_of(Reader(old, SIZE).tree(), Reader(new, SIZE).tree())
        tells(folder, f"pair {n}", "diff -b 512 a.img b.img", wanted, int(wanted != ""))
        tells(folder, f"pair {n}, quietly", "diff -b 512 --quiet a.img b.img", "", int(wanted != ""))
    for line in "format -b 512 --count 8 --attr-max 30 b.img", "format -b 512 --count 8 a.img":
        folder.check(line, folder.run(line)[0] == 0)
    wanted = line_of(change="limits", name_max=255, file_max=2_147_483_647, attr_max=30)
    tells(folder, "limits", "diff -b 512 a.img b.img", wanted, 1)


def blocks_held(folder):
    """Blocks, as the text has them."""
    chance = random.Random(63)
    folder.play([("format -b 256 --count 200 a.img", 0, 0, "", "")])
    for n in range(30):
        folder.run(f"mkdir -p -b 256 a.img /d{n % 4}/e{n % 7}" if n % 3 else f"put -p -b 256 a.img /d{n % 5}/f{n}", chance.choice([0, 40, 700]))
        for option in "", "--sum ":
            text = folder.run(f"blocks -b 256 {option}a.img")[2].decode()
            tells(folder, f"blocks {n}", f"blocks -b 256 {option}a.img", blocks_of(text, bool(option)))


def faults(folder):
    """Faults and what more is known of them are told as objects where the word stands in front of the command, and as text else."""
    folder.be(image(SIZE, 8, {0: log(1, superblock(SIZE, 8))}), 0)
    fault = '{"fault":%s,"name":"%s","status":%s}\n'
    rows = [
        ("ls -b 512 a.img /x", 0, 1, fault % (30, "NotFound", 1) + '{"of":"a.img","text":"/x: nothing is there"}\n'),
        ("mkdir -b 512 a.img /é\"\n", 0, 0, ""),
        ("rm -b 512 a.img /é\"\n/x", 0, 1, fault % (30, "NotFound", 1)
         + '{"of":"a.img","text":"/\\\\xc3\\\\xa9\\"\\\\x0a/x: nothing is there"}\n'),
        ("put -b 512 a.img /long", 9_000, 1, '{"fault":43,"name":"NoSpace","status":1,"need":18,"free":4}\n'
         '{"of":"a.img","text":"lfsed blocks --sum a.img says what each path takes"}\n'),
        ("check -b 512 none.img", 0, 4, fault % (60, "CannotRead", 4) + '{"of":"none.img","text":"No such file or directory (os error 2)"}\n'),
        ("batch -b 512 a.img", 0, 0, ""),
        ("setattr -b 512 a.img / 7 00", 0, 1, None),
        ("undo -b 512 --steps 9 a.img", 0, 1, fault % (53, "NothingToUndo", 1)
         + '{"of":"a.img","text":"changes that are done: 1, fewer than 9"}\n'),
    ]
    for words, length, status, told in rows:
        ended = folder.run(f"--json {words}", length)
        if told is None:
            objects = [json.loads(line) for line in ended[1].splitlines()]
            folder.check(words, ended[0] == objects[0]["status"] and objects[0]["name"] == "BadHex", ended)
        else:
            folder.check(words, ended == (status, told, b""), ended)
    plain = folder.run("ls --json -b 512 a.img /x")
    folder.check("behind the command", plain == (1, "lfsed: 30 NotFound\nlfsed: a.img: /x: nothing is there\n", b""), plain)


def found_images(folder):
    """What `find` lists: an image that mounts, and one with another in it that doesn't."""
    sound = image(SIZE, 8, {0: log(1, superblock(SIZE, 8))})
    broken = image(1_024, 4, {0: log(1, superblock(1_024, 4) + directory(1, b"d", (2, 3)) + tail(SOFT, (2, 3)))})
    folder.be(b"\0" * 768 + sound + broken, 0)
    tells(folder, "found", "find a.img", line_of(at=768, version="2.0", block=512, count=8, bytes=4_096)
          + line_of(at=768 + 4_096, version="2.0", block=1_024, count=4, bytes=4_096, fault=3, name="NoValidCommit"))
    folder.be(b"", 512)
    tells(folder, "nothing found", "find a.img", "")


def explained(folder):
    """What `explain` says of faults: a page each, and the list of all."""
    root, attribute_ = "The root can't be made, put, moved or removed.", "There is no attribute of that kind to be removed."
    tells(folder, "a page", "explain 41", line_of(fault=41, name="IsRoot", text=root))
    tells(folder, "two pages", "explain noattr 41 IsRoot",
          line_of(fault=39, name="NoAttr", text=attribute_) + line_of(fault=41, name="IsRoot", text=root))
    plain = [line.split(" ", 2) for line in folder.run("explain")[2].decode().splitlines()]
    listed = "".join(line_of(fault=int(number), name=name.removesuffix(":"), text=gist) for number, name, gist in plain)
    for words in "explain --json", "--json explain":
        ended = folder.run(words)
        folder.check(words, ended == (0, "", listed.encode()), ended)


def words_that_are_no_text(folder):
    """A word that isn't UTF-8 is refused in an object too."""
    for front, wanted in ([], b"lfsed: an argument is not UTF-8\n"), (["--json"], b'{"status":2,"text":"lfsed: an argument is not UTF-8\\n"}\n'):
        ended = subprocess.run([PROGRAM, *front, "ls", b"\xff"], cwd=folder.room.name, capture_output=True, timeout=60)
        folder.check(f"a word that isn't UTF-8, {front}", (ended.returncode, ended.stderr) == (2, wanted), ended)


def refused_words(folder):
    """Words that are refused are told in one object."""
    for words in "--json", "--json rm", "--json nothing", "--json cat --json a.img /x", "--json explain 99":
        status, told, printed = folder.run(words)
        plain = folder.run(words.removeprefix("--json").strip())
        objects = [json.loads(line) for line in told.splitlines()]
        wanted = [{"status": 2, "text": plain[1]}]
        folder.check(words, (status, printed, objects) == (2, b"", wanted), (told, plain))
    ended = folder.run("--json --help")
    folder.check("help", ended == folder.run("--help"), ended)


sys.exit(run_scenes([
    worked_lines, odd_paths, scattered_images, differing_images, blocks_held, digests, faults, found_images, explained, refused_words,
    words_that_are_no_text,
]))
