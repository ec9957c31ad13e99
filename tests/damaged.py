#!/usr/bin/env python3
"""Commits with a wrong checksum after the last good one, and later parts of directories without an entry: what `check`, `ls`, `blocks` and
`salvage` tell of them, and of what they tell nothing. The images come from a writer apart from the program, and which pairs are to be told
was written by hand, or is found by a reader apart from it."""
import random
import struct
import sys

from salvaging import cleared, made_in
from support.damage import is_damaged
from support.folder import contents, run_scenes
from support.later import LATER, LaterDraft, expanded, stated
from support.logs import HARD, SOFT, Draft, deleted, directory, file, image, log, superblock, tail

SIZE, COUNT = 512, 8
OLDER = "a commit with a wrong checksum stands after the last one; an older state is read"
WITHOUT_END = "littlefs lists this directory without end; repack mends it"
TO_WWW = directory(1, b"www", (2, 3)) + tail(SOFT, (2, 3))
FIRST, SECOND, THIRD = file(0, b"a", b"one"), file(1, b"b", b"two"), file(2, b"c", b"three")


def spelled(revision, *commits, is_later=False):
    """A block of commits of these items, in either version, and where each begins and ends."""
    draft, ends = LaterDraft(revision, SIZE) if is_later else Draft(revision), []
    for items in commits:
        begin = len(draft.bytes)
        draft.commit(items) if is_later else draft.add(items).close_at(16)
        ends.append((begin, len(draft.bytes)))
    return draft.bytes.ljust(SIZE, b"\xff"), ends


def whole(www, other=SIZE * b"\xff", is_later=False):
    """An image with a directory /www in blocks 2 and 3."""
    items = (stated(LATER, SIZE, COUNT) if is_later else superblock(SIZE, COUNT)) + TO_WWW
    return image(SIZE, COUNT, {0: spelled(1, items, is_later=is_later)[0], 2: www, 3: other})


def flipped(block, bit):
    """A block with one bit turned."""
    held = bytearray(block)
    held[bit // 8] ^= 1 << bit % 8
    return bytes(held)


def told_of(folder, data, words):
    """The lines that a command tells of an image; it is to end with 0."""
    folder.be(data, len(data))
    status, told, _ = folder.run(words)
    folder.check(f"{words}: status", status == 0, (status, told))
    return told.splitlines()


LINE = f"lfsed: a.img: /www: blocks 2 and 3: {OLDER}"


def is_told(folder, what, data, option, is_older):
    """Compares what each command tells with whether an older state of /www is read, also if `check` ends with 1."""
    wanted = [LINE] if is_older else []
    for command in "check", "ls", "blocks":
        told = told_of(folder, data, f"{command} -b {SIZE}{option} a.img")
        folder.check(f"{what}: {command}", told == wanted, told)
    status, told, _ = folder.run(f"check -b {SIZE}{option} --inline-max 0 a.img")
    folder.check(f"{what}: check --inline-max", (status, told.splitlines()) == (1, wanted), (status, told))


def each_bit_of_the_last_commit(folder):
    """Each bit of the last commit of a pair is turned. It is told where the commit can be read up to its closing tag."""
    for is_later, option in (False, ""), (True, " --device"):
        block, ends = spelled(1, FIRST, SECOND, is_later=is_later)
        many = 0
        for bit in range(8 * ends[-1][0], 8 * ends[-1][1], 3):
            turned = flipped(block, bit)
            is_older = is_damaged(turned, SIZE * b"\xff")
            many += is_older
            told = told_of(folder, whole(turned, is_later=is_later), f"check -b {SIZE}{option} a.img")
            folder.check(f"bit {bit}{option}", told == ([LINE] if is_older else []), told)
        folder.check(f"many bits are told{option}", many > 25, many)


# What stands in blocks 2 and 3, and whether that is told.
def pairs(is_later):
    """Pairs of blocks by what they are, and whether an older state of them is read."""
    block, ends = spelled(1, FIRST, SECOND, THIRD, is_later=is_later)
    at = 8 * block.index(b"two")
    other = spelled(2, file(0, b"n", b"new"), is_later=is_later)[0]
    empty = SIZE * b"\xff"
    last = 8 * block.index(b"three")
    yield "no damage", block, empty, False
    yield "the last commit", flipped(block, last), empty, True
    yield "several bytes of it", block.replace(b"three", b"other"), empty, True
    yield "its checksum", flipped(block, last + 8 * (block[last // 8:].index(b"three") + 5 + 7)), empty, is_damaged(
        flipped(block, last + 8 * (block[last // 8:].index(b"three") + 5 + 7)), empty)
    yield "one before others", flipped(block, at), empty, True
    yield "the first commit of the block with the later revision", block, flipped(other, 8 * other.index(b"new")), True
    yield "the same in the other order", flipped(other, 8 * other.index(b"new")), block, True
    yield "an old block", flipped(block, last), other, False
    yield "the block that is read, beside one that was cut off", flipped(block, last), other[:20].ljust(SIZE, b"\xff"), True


def each_kind_of_damage(folder):
    for is_later, option in (False, ""), (False, " --device"), (True, " --device"):
        for what, first, second, is_older in pairs(is_later):
            is_told(folder, f"{what}{option}", whole(first, second, is_later), option, is_older)


def what_was_cut_off(folder):
    """Of a commit that the power cut off nothing is told, wherever it ends, on a device that erases and on one that doesn't."""
    for is_later, option in (False, ""), (True, " --device"):
        block, ends = spelled(1, FIRST, SECOND, is_later=is_later)
        before, draft = [FIRST], LaterDraft(1, SIZE) if is_later else Draft(1)
        # An earlier use of the block: a log that fills it, whose items are as long.
        while len(draft.bytes) + ends[-1][1] - ends[-1][0] <= SIZE:
            items = file(0, b"o", b"old") if not before[1:] else file(1, b"b", b"too")
            before.append(items)
            draft.commit(items) if is_later else draft.add(items).close_at(16)
        for cut in range(4, ends[-1][1]):
            for rest in SIZE * b"\xff", draft.bytes.ljust(SIZE, b"\xff"):
                if rest[0] != 0xFF and cut % 16:
                    continue
                data = whole(block[:cut] + rest[cut:], spelled(0, FIRST, is_later=is_later)[0], is_later)
                told = told_of(folder, data, f"check -b {SIZE}{option} a.img")
                folder.check(f"cut off at {cut}{option}, {rest[0]}", not told, told)


def many_pairs(folder):
    """Of a hundred and more pairs a hundred are told, and how many more there are."""
    many, blocks = 120, {}
    block = flipped(spelled(1, FIRST, SECOND)[0], 8 * spelled(1, FIRST, SECOND)[0].index(b"two"))
    for n in range(many):
        at = (10 + 2 * n, 11 + 2 * n)
        draft = Draft(1).add(FIRST + (tail(SOFT, (at[0] + 2, at[1] + 2)) if n + 1 < many else [])).close_at(16).add(SECOND).close_at(16)
        blocks[at[0]] = flipped(draft.bytes, 8 * draft.bytes.index(b"two"))
    items = superblock(8_192, 300)
    for n in range(many):
        items += directory(n + 1, f"d{n:03}".encode(), (10 + 2 * n, 11 + 2 * n))
    blocks[0] = log(1, items + tail(SOFT, (10, 11)))
    told = told_of(folder, image(8_192, 300, blocks), "check -b 8192 a.img")
    first = f"lfsed: a.img: /d000: blocks 10 and 11: {OLDER}"
    folder.check("many pairs", (told[0], len(told), told[-1]) == (
        first, 101, "lfsed: a.img: 20 more pairs are read in an older state"), (told[:1], len(told), told[-1:]))
    folder.check("a pair among them is damaged", is_damaged(block, SIZE * b"\xff"))


def parts_without_an_entry(folder):
    """A directory that goes on in a part without an entry is told by `check` and `ls`, and `repack` mends it."""
    gone = spelled(1, file(0, b"z", b"one"), deleted(0))[0]
    parts = {0: spelled(1, superblock(SIZE, COUNT) + TO_WWW)[0], 2: spelled(1, FIRST + tail(HARD, (4, 5)))[0], 4: gone}
    line = f"lfsed: a.img: /www: blocks 4 and 5 have no entry; {WITHOUT_END}"
    data = image(SIZE, COUNT, parts)
    for words, wanted in ("check", [line]), ("ls", [line]), ("blocks", []), ("check --device", [line]), ("ls --json", [line]):
        command, *option = words.split(" ")
        told = told_of(folder, data, " ".join([command, "-b", str(SIZE), *option, "a.img"]))
        folder.check(f"a part without an entry: {words}", told == wanted, told)
    folder.check("repack", told_of(folder, data, f"repack -b {SIZE} --from-block {SIZE} a.img a.img") == [])
    folder.check("it is mended", folder.run(f"check -b {SIZE} a.img")[1] == "")
    for what, block in ("written anew", spelled(1, [])[0]), ("with a tail of its own", spelled(1, tail(SOFT, (6, 7)))[0]):
        told = told_of(folder, image(SIZE, COUNT, {**parts, 4: block, 6: spelled(1, FIRST)[0]}), f"salvage -b {SIZE} a.img made") \
            if what.startswith("with") else told_of(folder, image(SIZE, COUNT, {**parts, 4: block}), f"check -b {SIZE} a.img")
        folder.check(f"an empty part: {what}", (told == [line]) == (what == "written anew"), told)
        cleared(folder.image.with_name("made"))


def no_part_without_an_entry(folder):
    """Nothing is told of an empty directory, of one whose first part has no entry, and of superblocks that were expanded."""
    root = superblock(SIZE, COUNT) + TO_WWW
    for what, first in ("an empty directory", []), ("an empty first part", tail(HARD, (4, 5))):
        data = image(SIZE, COUNT, {0: spelled(1, root)[0], 2: spelled(1, first)[0], 4: spelled(1, FIRST)[0]})
        told = told_of(folder, data, f"check -b {SIZE} a.img")
        folder.check(what, not told, told)
    parts = [stated(LATER, SIZE, COUNT), stated(LATER, SIZE, COUNT), stated(LATER, SIZE, COUNT) + file(1, b"f", b"one")]
    blocks = {n: spelled(1, items, is_later=True)[0] for n, items in expanded([(0, 1), (2, 3), (4, 5)], parts).items()}
    told = told_of(folder, image(SIZE, COUNT, blocks), f"check -b {SIZE} --device a.img")
    folder.check("expanded superblocks", not told, told)


def what_is_saved(folder):
    """`salvage` ends with 3 where an older state is saved, whether the image mounts or not, and whatever the options say."""
    block = spelled(1, FIRST, SECOND)[0]
    harmed = flipped(block, 8 * block.index(b"two"))
    place = folder.image.with_name("made")
    for option in "", " --device":
        for what, data, wanted in (
                ("one that mounts", whole(harmed), (3, f"lfsed: 22 DamagedCommit\n{LINE}\n")),
                ("no damage", whole(block), (0, "")),
                ("an orphan", image(SIZE, COUNT, {0: spelled(1, superblock(SIZE, COUNT) + tail(SOFT, (2, 3)))[0], 2: harmed}),
                 (3, f"lfsed: 17 Orphan\nlfsed: a.img: blocks 2 and 3: {OLDER}\n"
                  "lfsed: a.img: blocks 2 and 3: no path leads there: saved as lost+found/2\n"))):
            folder.be(data, len(data))
            ended = folder.run(f"salvage -b {SIZE}{option} a.img made")
            folder.check(f"saved: {what}{option}", ended[:2] == wanted, ended)
            found = sorted(b"/".join(names) for names in made_in(place) or {})
            folder.check(f"saved: {what}{option}: files", found and found[0].endswith(b"/a"), found)
            cleared(place)


def what_a_device_wrote(folder):
    """`salvage` saves what a device reads: also commits of version 2.1 after those of 2.0, without an option."""
    draft = Draft(1).add(superblock(SIZE, COUNT) + file(1, b"f", b"old")).close_at(16)
    device = LaterDraft.behind(draft.bytes.ljust(SIZE, b"\xff")).commit(stated(LATER, SIZE, COUNT)[1:] + [(0x201, 1, b"new")])
    data = image(SIZE, COUNT, {0: device.block()})
    place = folder.image.with_name("made")
    for option in "", " --device", " --older":
        folder.be(data, len(data))
        ended = folder.run(f"salvage -b {SIZE}{option} a.img made")
        folder.check(f"as a device reads it{option}", (ended, made_in(place)) == ((0, "", b""), {(b"f",): b"new"}), (ended, made_in(place)))
        cleared(place)


def by_chance(folder, many=60, seed=3):
    """Logs as chance has them, harmed as chance has it: what is told is what a reader apart from the program finds."""
    chance = random.Random(seed)
    for n in range(many):
        is_later, commits = chance.random() < 0.5, [FIRST]
        for _ in range(chance.randrange(5)):
            commits.append([(0x201, 0, chance.randbytes(chance.randrange(1, 40)))])
        block = bytearray(spelled(1, *commits, is_later=is_later)[0])
        for _ in range(chance.choice([0, 1, 1, 2, 8])):
            block[chance.randrange(SIZE)] ^= 1 << chance.randrange(8)
        is_older = is_damaged(bytes(block), spelled(0, FIRST, is_later=is_later)[0])
        folder.be(whole(bytes(block), spelled(0, FIRST, is_later=is_later)[0], is_later), 0)
        status, told, _ = folder.run(f"check -b {SIZE}{' --device' if is_later else ''} a.img")
        folder.check(f"chance {n}", status == 3 or told == (f"{LINE}\n" if is_older else ""), (status, told, is_older))


SCENES = [
    each_bit_of_the_last_commit, each_kind_of_damage, what_was_cut_off, many_pairs, parts_without_an_entry, no_part_without_an_entry,
    what_is_saved, what_a_device_wrote, by_chance,
]

if __name__ == "__main__":
    sys.exit(run_scenes(SCENES))
