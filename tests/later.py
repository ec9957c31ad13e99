#!/usr/bin/env python3
"""Images that a later littlefs has written: commits of disk version 2.1, from a writer apart from the program. If such commits stand after
what version 2.0 reads, or in the block that a device takes for the live one, each command refuses the image. With `--older` a command that
reads the image takes the state before them, and reports it; a command that changes it has no such option, since what it writes would drop
what the device wrote. If they are unfinished, stale or of version 2.0 nothing is reported."""
import struct
import sys

from support.folder import run_scenes
from support.later import FIRST, LATER, LaterDraft
from support.logs import Draft, attribute, file, image, superblock

SIZE, COUNT = 512, 8
TOLD = "lfsed: a.img: a later commit of disk version 2.1 stands in it, which is not read\n"
TOLD_OTHER = TOLD.replace("a.img", "b.img")
CHANGED_BY_DEVICE = (
    "lfsed: a.img: a device has changed it with disk version 2.1, which is not read: "
    "--device reads it, --older goes on with the state before that\n"
)
REFUSED = "lfsed: 10 Version\n" + CHANGED_BY_DEVICE
REFUSED_OTHER = REFUSED.replace("a.img", "b.img")
REFUSED_MOVE = REFUSED.replace("--device reads it", "adopt takes it over")
REFUSED_CHANGE = REFUSED_MOVE.replace(", --older goes on with the state before that", "")
SAID = "block 512, count 8, free 6, directories 1, files 1, version 2.0\n"


def version(number, name=()):
    """The items of a superblock that states a version; those of its name are left out where it has one already."""
    return [*name, (0x201, 0, struct.pack("<6I", number, SIZE, COUNT, 255, 2_147_483_647, 1_022))]


def first(*more):
    """A block that version 2.0 wrote: a superblock and a file, and further commits."""
    draft = Draft(1).add(superblock(SIZE, COUNT) + file(1, b"old", b"old")).close_at(16)
    for items in more:
        draft.add(items).close_at(16)
    return draft.bytes


def written(block, *commits):
    """A block of version 2.0 behind which a device of version 2.1 wrote these commits."""
    draft = LaterDraft.behind(block.ljust(SIZE, b"\xff"))
    for items in commits:
        draft.commit(items)
    return draft.bytes


def anew(revision, number=LATER):
    """A block that a device of version 2.1 wrote anew."""
    return LaterDraft(revision, SIZE).commit(superblock(SIZE, COUNT)[:1] + version(number) + file(1, b"new", b"new")).bytes


# What a device of version 2.1 leaves of an image of version 2.0: its first write states its version.
APPENDED = image(SIZE, COUNT, {0: written(first(), version(LATER), file(2, b"new", b"new"))})
BEHIND_SEVERAL = image(SIZE, COUNT, {0: written(first(attribute(0, 0x74, b"\1"), attribute(0, 0x75, b"\2")), version(LATER))})
REWRITTEN = image(SIZE, COUNT, {0: first(), 1: anew(2)})
APPENDED_IN_ONE = image(SIZE, COUNT, {0: Draft(0).add(superblock(SIZE, COUNT)).close_at(16).bytes, 1: written(first(), version(LATER))})
LATEST = {"appended": APPENDED, "behind several": BEHIND_SEVERAL, "rewritten": REWRITTEN, "in block 1": APPENDED_IN_ONE}

# Images that version 2.1 formatted, of which version 2.0 reads no commit; the entry of the second one has a create tag in front.
CREATED = [(0x401, 0, b""), *superblock(SIZE, COUNT)[:1]]
FORMATTED = {
    "formatted": (image(SIZE, COUNT, {0: anew(1)}), "first"),
    "created": (image(SIZE, COUNT, {0: LaterDraft(1, SIZE).commit(version(LATER, CREATED)).bytes}), "first"),
    "in block 1": (image(SIZE, COUNT, {0: anew(1), 1: anew(2)}), "second"),
}

# What is read of the state before is what version 2.0 wrote.
ASKED = [
    ("check -b 512 a.img", SAID),
    ("cat -b 512 a.img /old", "old"),
    ("log -b 512 a.img", ""),
]

# Commands that change the image: none goes on with an older state.
CHANGES = [
    "put -b 512 a.img /more", "put -p -b 512 a.img /n/more", "mkdir -b 512 a.img /made", "mkdir -p -b 512 a.img /n/m", "mv -b 512 a.img /old /moved",
    "rm -b 512 a.img /old", "rm -r -b 512 a.img /old", "setattr -b 512 a.img /old 74 01", "rmattr -b 512 a.img /old 74", "grow -b 512 a.img 9",
    "sync -b 512 a.img .", "batch -b 512 a.img",
]

# What moves along a history, or drops it.
MOVES = [
    ("forget -b 512 a.img", 0, ""),
    ("undo -b 512 a.img", 1, "lfsed: 53 NothingToUndo\n"),
    ("redo -b 512 a.img", 1, "lfsed: 54 NothingToRedo\n"),
]

STALE = Draft(1).add(superblock(SIZE, COUNT)).close_at(16).bytes
CUT_OFF = written(first(), version(LATER))[:-9]
PLAIN = image(SIZE, COUNT, {0: first()})

# Images of which nothing is said, and how many files they have.
UNSAID = {
    "as version 2.0 wrote it": PLAIN,
    "an unfinished commit": image(SIZE, COUNT, {0: CUT_OFF}),
    "a commit whose checksum is wrong": image(SIZE, COUNT, {0: written(first(), version(LATER))[:-12] + 12 * b"\0"}),
    "an unfinished block": image(SIZE, COUNT, {0: first(), 1: anew(2)[:-9]}),
    "a block of an earlier revision": image(SIZE, COUNT, {0: Draft(3).add(superblock(SIZE, COUNT) + file(1, b"old", b"old")).close_at(16).bytes, 1: anew(2)}),
    "a stale block with later commits": image(SIZE, COUNT, {0: written(STALE, version(LATER)), 1: Draft(2).add(
        superblock(SIZE, COUNT) + file(1, b"old", b"old")).close_at(16).bytes}),
    "commits of version 2.0 with such a tag": image(SIZE, COUNT, {0: written(first(), version(FIRST))}),
    "commits that state no version": image(SIZE, COUNT, {0: written(first(), attribute(0, 0x74, b"\1"))}),
}


def older_states_are_read(folder):
    for name, latest in LATEST.items():
        for words, printed in ASKED:
            folder.be(latest, 0)
            folder.play([(f"{words} --older", 0, 0, TOLD, printed)])
            folder.check(f"{name}: {words}", folder.old() == latest)
        for words, status, complaint in MOVES:
            folder.be(latest, 0)
            folder.play([(f"{words} --older", 4, status, complaint + TOLD, "")])
            folder.check(f"{name}: {words}", folder.old() == latest)


def no_older_state_is_changed(folder):
    for name, latest in LATEST.items():
        for words in CHANGES:
            folder.be(latest, 0)
            status, told, printed = folder.run(f"{words} --older")
            folder.check(f"{name}: {words}", (status, printed) == (2, b"") and told.startswith("error: unexpected argument '--older' found\n"), told)
            folder.check(f"{name}: {words}: the files", (folder.old(), folder.saved()) == (latest, None))


def a_change_of_an_older_state_is_taken_back(folder):
    """What earlier releases made of an image whose device had rewritten the other block: `undo --older` leads back."""
    folder.be(PLAIN, 0)
    folder.play([("put -b 512 a.img /more", 4, 0, "", "")])
    folder.image.write_bytes(folder.old()[:SIZE] + REWRITTEN[SIZE:])
    changed = folder.old()
    folder.play([("undo -b 512 a.img", 0, 3, REFUSED_MOVE, "")])
    folder.check("refused", folder.old() == changed)
    folder.play([("undo -b 512 --older a.img", 0, 0, TOLD, ""), ("cat -b 512 --device a.img /new", 0, 0, "", "new")])
    folder.check("taken back", folder.old() == REWRITTEN)


def each_command_refuses_them(folder):
    for name, latest in LATEST.items():
        rows = [(words, REFUSED) for words in ("check -b 512 a.img", "cat -b 512 a.img /old", "ls -b 512 a.img")]
        rows += [(words, REFUSED_MOVE) for words in ("log -b 512 a.img", *(words for words, *_ in MOVES))]
        rows += [(words, REFUSED_CHANGE) for words in CHANGES]
        for words, refused in rows:
            folder.be(latest, 0)
            folder.play([(words, 0, 3, refused, "")])
            folder.check(f"{name}: refused: {words}", (folder.old(), folder.saved()) == (latest, None))
        folder.be(latest, 0)
        folder.play([("extract -b 512 a.img made", 0, 3, REFUSED, "")])
        folder.play([("format -b 512 --count 8 a.img", 0, 0, "", "")])


def nothing_is_said_of_others(folder):
    for name, quiet in UNSAID.items():
        for older in "", " --older":
            folder.be(quiet, 0)
            folder.play([(f"check -b 512 a.img{older}", 0, 0, "", SAID), (f"cat -b 512 a.img /old{older}", 0, 0, "", "old")])
            folder.check(f"{name}{older}", folder.old() == quiet)


def a_later_image_states_its_version(folder):
    for name, (formatted, place) in FORMATTED.items():
        states = f"lfsed: 3 NoValidCommit\nlfsed: a.img: its {place} block states disk version 2.1: "
        asked, changed = states + "--device reads it\n", states + "adopt takes it over\n"
        folder.be(formatted, 0)
        folder.play([(f"check -b 512 a.img{older}", 0, 3, asked, "") for older in ("", " --older")])
        folder.play([("put -b 512 a.img /more", 4, 3, changed, ""), ("undo --older -b 512 a.img", 0, 3, changed, "")])
        folder.check(name, folder.old() == formatted)


def images_are_compared(folder):
    other = folder.image.with_name("b.img")
    for left, right, told, refused in [
        (APPENDED, PLAIN, TOLD, REFUSED), (PLAIN, REWRITTEN, TOLD_OTHER, REFUSED_OTHER),
        (APPENDED, REWRITTEN, TOLD + TOLD_OTHER, REFUSED), (PLAIN, PLAIN, "", ""),
    ]:
        folder.image.write_bytes(left)
        other.write_bytes(right)
        ended = folder.run("diff -b 512 --older a.img b.img")
        folder.check("compared", ended == (0, told, b""), ended)
        ended = folder.run("diff -b 512 a.img b.img")
        wanted = (3, refused, b"") if refused else (0, "", b"")
        folder.check("refused", ended == wanted, ended)
        folder.check("both stand", (folder.old(), other.read_bytes()) == (left, right))
    other.unlink()


def an_image_is_extracted(folder):
    folder.be(APPENDED, 0)
    ended = folder.run("extract -b 512 --older a.img made")
    made = folder.image.with_name("made")
    folder.check("extracted", ended == (0, TOLD, b""), ended)
    folder.check("what is made", [path.name for path in made.iterdir()] == ["old"])


if __name__ == "__main__":
    sys.exit(run_scenes([
        older_states_are_read, no_older_state_is_changed, a_change_of_an_older_state_is_taken_back, each_command_refuses_them,
        nothing_is_said_of_others, a_later_image_states_its_version, images_are_compared, an_image_is_extracted,
    ]))
