#!/usr/bin/env python3
"""Undo and redo over runs of the program: images and journals byte for byte, in both versions of a journal, and journals that are
refused."""
import pathlib
import sys
import tempfile

from support.folder import is_told, run_scenes
from support.journal import in_first_version, journal as journal_of, read, word
from support.refusing import Refusing

NO_FORMAT = "lfsed: 50 JournalFormat\n"
NO_MATCH = "lfsed: 51 JournalMismatch\n"
NO_IMAGE = "lfsed: 52 JournalImage\n"
NO_UNDO = "lfsed: 53 NothingToUndo\n"
NO_REDO = "lfsed: 54 NothingToRedo\n"
FULL = "lfsed: 55 JournalFull\n"
ROOT = "lfsed: 41 IsRoot\n"
# Without changes, for 8 blocks of 512 bytes.
FRESH = bytes.fromhex("6c66736a 02000000 00020000 08000000 00000000 00000000")
# The same in the first version.
FIRST_FRESH = bytes.fromhex("6c66736a 01000000 00020000 08000000 00000000 00000000")


def changed(data, at, part):
    """Bytes with others at a place."""
    return data[:at] + part + data[at + len(part):]


class Journal:
    """A folder with an image of 8 blocks of 512 bytes and its journal."""

    def __init__(self, folder):
        self.folder = folder
        self.does("format --count 8", FRESH)
        self.first = folder.old()

    def now(self):
        """The journal's bytes, where there is one."""
        return self.folder.saved()

    def be(self, data):
        """Makes the journal these bytes."""
        self.folder.journal.write_bytes(data)

    def ended(self, words, length=0, **how):
        """Runs a command on the image; answers how it ended."""
        command, *others = words.split(" ")
        return self.folder.run(" ".join([command, "-b 512 a.img", *others]), length, **how)

    def does(self, words, journal=None, length=0):
        """Runs words that are taken, and compares the journal, or its length."""
        ended = self.ended(words, length)
        self.folder.check(words, ended == (0, "", b""), ended)
        right = journal is None or journal in (self.now(), len(self.now()))
        self.folder.check(f"{words}: journal", right, self.now()[:32])

    def refuses(self, words, status, complaint, what=""):
        """Runs words that are refused, and compares both files with what they were."""
        before = self.folder.old(), self.now()
        ended = self.ended(words)
        is_right = (ended[0], ended[2]) == (status, b"") and is_told(ended[1], complaint)
        self.folder.check(f"{words}: {what}", is_right, ended)
        self.folder.check(f"{words}: {what}: files", (self.folder.old(), self.now()) == before)

    def is_image(self, what, wanted):
        self.folder.check(what, self.folder.old() == wanted)

    def two_commands(self):
        """A directory, and a file of 5 bytes in it."""
        self.does("mkdir /a", 3_120)
        self.middle, self.early = self.folder.old(), self.now()
        self.does("put /a/x", 4_160, 5)
        self.later = self.folder.old()

    def middle_again(self):
        """The image and the journal as they were between these two commands."""
        self.folder.be(self.middle, 0)
        self.be(self.early)


def changes_are_taken_back_and_made_again(folder):
    journal = Journal(folder)
    journal.two_commands()
    whole = journal.now()
    journal.does("undo", changed(whole, 16, word(1) + word(1)))
    journal.is_image("undo", journal.middle)
    journal.does("undo", changed(whole, 16, word(0) + word(2)))
    journal.is_image("undo twice", journal.first)
    journal.refuses("undo", 1, NO_UNDO)
    journal.does("redo", changed(whole, 16, word(1) + word(1)))
    journal.is_image("redo", journal.middle)
    journal.does("redo", whole)
    journal.is_image("redo twice", journal.later)
    journal.refuses("redo", 1, NO_REDO)


def what_is_undone_stays_in_the_journal(folder):
    """The latest of two changes is taken back, made again and taken back; then the first."""
    journal = Journal(folder)
    journal.two_commands()
    for step, image in ("undo", journal.middle), ("redo", journal.later), ("undo", journal.middle), ("undo", journal.first):
        journal.does(step)
        journal.is_image(step, image)


def several_changes_are_taken_back_and_made_again(folder):
    """All of so many changes, or none where there are fewer."""
    journal = Journal(folder)
    for value in "01", "02", "03":
        journal.does(f"setattr / 74 {value}")
        if value == "01":
            first = folder.old()
    journal.refuses("undo --steps 4", 1, NO_UNDO)
    journal.does("undo --steps 3")
    journal.does("redo --steps 2")
    journal.refuses("redo --steps 2", 1, NO_REDO)
    journal.does("undo --steps 1")
    journal.is_image("undo", first)


def nothing_is_there_without_a_journal(folder):
    journal = Journal(folder)
    folder.journal.unlink()
    journal.refuses("undo", 1, NO_UNDO)
    journal.refuses("redo", 1, NO_REDO)
    journal.be(b"")
    journal.refuses("undo", 1, NO_UNDO)
    journal.does("mkdir /a", 3_120)
    journal.does("undo")
    journal.is_image("undo", journal.first)


def a_command_drops_what_was_undone(folder):
    journal = Journal(folder)
    journal.does("mkdir /a", 3_120)
    journal.does("undo")
    journal.does("mkdir /b", 3_120)
    journal.refuses("redo", 1, NO_REDO)
    journal.does("undo")
    journal.is_image("undo", journal.first)


def what_was_forgotten_is_gone(folder):
    journal = Journal(folder)
    journal.two_commands()
    journal.does("forget", FRESH)
    journal.is_image("forget", journal.later)
    journal.refuses("undo", 1, NO_UNDO)


def wrong_journals(whole, fresh, first):
    """Journals that are refused, made of one with two changes and of one with none; `first` is where the first block's number is."""
    second, start = first + 1_028, whole[first:first + 4]
    return [
        ("a new byte of the later change", changed(whole, len(whole) - 1, b"\0"), NO_MATCH),
        ("a new byte of the older change", changed(whole, second - 1, b"\0"), NO_MATCH),
        ("nine blocks", changed(whole, 12, word(9)), NO_MATCH),
        ("a byte more", whole + b"\0", NO_FORMAT),
        ("another letter", b"L" + whole[1:], NO_FORMAT),
        ("version 7", changed(whole, 4, word(7)), NO_FORMAT),
        ("no block in a change", changed(whole, 24, word(0)), NO_FORMAT),
        ("a number twice", changed(whole, second, start), NO_FORMAT),
        ("block 8", changed(whole, first, word(8)), NO_FORMAT),
        ("1,001 changes", changed(whole, 16, word(600) + word(401)), NO_FORMAT),
        ("1,000 changes", changed(fresh, 16, word(1_000) + word(0)), NO_FORMAT),
        ("more changes than a word", changed(whole, 16, word(2**32 - 1) + word(3)), NO_FORMAT),
        ("one change more than there are", changed(whole, 16, word(3)), NO_FORMAT),
        ("one change less than there are", changed(whole, 16, word(1)), NO_FORMAT),
        ("numbers that fall", changed(changed(whole, first, word(3)), second, word(0)), NO_FORMAT),
        ("greater blocks", changed(whole, 8, word(528)), NO_FORMAT),
        ("blocks of 255 bytes", changed(fresh, 8, word(255)), NO_FORMAT),
        ("one block", changed(fresh, 12, word(1)), NO_FORMAT),
        ("blocks of another size", changed(fresh, 8, word(256)), NO_MATCH),
    ]


def other_journals_are_refused(folder):
    journal = Journal(folder)
    journal.two_commands()
    whole = journal.now()
    older = in_first_version(whole)
    rows = [*wrong_journals(whole, FRESH, 36), *wrong_journals(older, FIRST_FRESH, 28)]
    for what, data, complaint in rows:
        what = f"{what}, version {data[4]}"
        folder.check(f"{what}: is another", data not in (whole, older))
        journal.be(data)
        for step in "undo", "redo", "mkdir /b":
            journal.refuses(step, 3, complaint, what)


def counts_that_are_refused(folder):
    """Changes of a journal whose counts break its form, or don't join."""
    journal = Journal(folder)
    journal.two_commands()
    size, count, (made, filled), none = read(journal.now())
    number, old, new = made[2][0]
    erased = b"\xff" * 512
    rows = [
        ("a count that falls", [made, (9, 8, filled[2])], NO_FORMAT),
        ("a count of 1", [(1, 8, made[2]), filled], NO_FORMAT),
        ("a count of no image", [made, (8, 65_537, filled[2])], NO_FORMAT),
        ("too many bytes", [made, (8, 131_073, filled[2])], NO_FORMAT),
        ("the number at the count after", [made, (8, 8, [(8, erased, new)])], NO_FORMAT),
        ("an added block that wasn't erased", [(7, 8, [(7, bytes(512), erased)]), filled], NO_FORMAT),
        ("counts that don't join", [(7, 7, made[2]), filled], NO_MATCH),
        ("counts that join too late", [made, (7, 8, filled[2])], NO_MATCH),
        ("a later count than the image's", [made, (8, 9, filled[2])], NO_MATCH),
    ]
    for what, done, complaint in rows:
        journal.be(journal_of(size, count, done, none))
        for step in "undo", "redo", "mkdir /b":
            journal.refuses(step, 3, complaint, what)
    whole = journal_of(size, count, [made, filled], none)
    journal.be(changed(whole, 4, word(1)))
    journal.refuses("undo", 3, NO_FORMAT, "version 1 with counts")
    journal.be(journal_of(size, count, [(2, 8, made[2]), filled], none))
    journal.refuses("undo", 3, NO_IMAGE, "an image of two blocks that doesn't mount")


def first_version_is_read(folder):
    """A journal of the first version is read, and the next step that is done writes the second."""
    journal = Journal(folder)
    journal.two_commands()
    whole = journal.now()
    older = in_first_version(whole)
    folder.check("its length", len(older) == 4_144, len(older))
    for step in "redo", "rm /none":
        journal.be(older)
        ended = journal.ended(step)
        folder.check(f"{step}: the journal stays", ended[0] == 1 and journal.now() == older, ended)
    journal.does("undo", changed(whole, 16, word(1) + word(1)))
    journal.is_image("undo", journal.middle)
    journal.be(in_first_version(journal.now()))
    journal.does("redo", whole)
    journal.is_image("redo", journal.later)
    journal.be(older)
    journal.does("rm /a/x")
    journal.does("undo", changed(journal.now(), 16, word(2) + word(1)))
    folder.check("its changes are kept", read(journal.now())[2] == read(whole)[2])
    journal.be(FIRST_FRESH)
    journal.refuses("undo", 1, NO_UNDO)
    journal.does("rm /a/x", len(FRESH) + 12 + 1_028)


def lengthened(journal, count):
    """Makes the image a new one of so many blocks; answers its bytes, and the blocks of the short one that are others in it."""
    short = journal.first
    journal.does(f"format --count {count}", journal_of(512, count, [], []))
    long = journal.folder.old()
    both = [(number, short[at:at + 512], long[at:at + 512]) for number, at in enumerate((0, 512))]
    blocks = [(number, old, new) for number, old, new in both if old != new]
    journal.folder.check("block 0 says the count", [number for number, *_ in blocks] == [0])
    return long, blocks


def an_added_block_comes_and_goes(folder):
    """A change that adds one block, handed in as done and as undone: the journal is the same behind steps that lead back to it."""
    journal = Journal(folder)
    short = journal.first
    long, blocks = lengthened(journal, 9)
    done, undone = journal_of(512, 9, [(8, 9, blocks)], []), journal_of(512, 8, [], [(8, 9, blocks)])
    for now, files, steps in ("done", (long, done), ["undo", "redo"]), ("undone", (short, undone), ["redo", "undo", "redo", "undo"]):
        folder.be(files[0], 0)
        journal.be(files[1])
        for step in steps:
            journal.does(step, undone if step == "undo" else done)
            journal.is_image(f"{now}: {step}", short if step == "undo" else long)
    folder.be(short, 0)
    journal.be(journal_of(512, 8, [(8, 9, blocks)], []))
    journal.refuses("undo", 3, NO_MATCH, "an added block that isn't there")


def added_blocks_are_taken_back(folder):
    """A change that lengthens the image, handed in: it is taken back and made again, where the added blocks are as it says."""
    journal = Journal(folder)
    short = journal.first
    long, blocks = lengthened(journal, 12)
    grown = journal_of(512, 12, [(8, 12, blocks)], [])
    journal.be(grown)
    journal.does("undo", journal_of(512, 8, [], [(8, 12, blocks)]))
    journal.is_image("undo", short)
    journal.does("redo", grown)
    journal.is_image("redo", long)
    journal.does("setattr / 74 01")
    journal.does("undo")
    journal.does("undo")
    journal.is_image("undo twice", short)
    folder.be(changed(long, 10 * 512 + 7, b"\0"), 0)
    journal.be(grown)
    journal.refuses("undo", 3, NO_MATCH, "a byte of an added block")
    folder.be(long, 0)
    journal.be(journal_of(512, 12, [(12, 12, blocks)], []))
    journal.refuses("undo", 3, NO_IMAGE, "a change that keeps the count")
    folder.be(changed(long, 10 * 512 + 7, b"\0"), 0)
    named = blocks + [(10, b"\xff" * 512, long[10 * 512:10 * 512 + 7] + b"\0" + b"\xff" * 504)]
    journal.be(journal_of(512, 12, [(8, 12, named)], []))
    journal.does("undo", journal_of(512, 8, [], [(8, 12, named)]))
    journal.is_image("undo of a named block", short)


def journals_cut_at_every_length(folder):
    journal = Journal(folder)
    for value in "01", "02":
        journal.does(f"setattr / 74 {value}")
    whole = journal.now()
    folder.check("the journal's length", len(whole) == 24 + 2 * 1_040, len(whole))
    for spelled in whole, in_first_version(whole):
        for length in range(1, len(spelled)):
            journal.be(spelled[:length])
            ended = journal.ended("undo")
            is_kept = journal.now() == spelled[:length]
            folder.check(f"the first {length} bytes of version {spelled[4]}", ended == (3, NO_FORMAT, b"") and is_kept, ended)
    journal.be(whole)
    for _ in range(2):
        journal.does("undo")
    journal.is_image("undo twice", journal.first)


def block_zero(old, new):
    """A change of block 0."""
    return 8, 8, [(0, old, new)]


def images_of_a_history_mount(folder):
    journal = Journal(folder)
    last = block_zero(b"\xff" * 512, journal.first[:512])
    rows = [
        ("erased before", [last], NO_IMAGE),
        ("a change that doesn't lead there", [block_zero(b"\xff" * 512, bytes(512)), last], NO_MATCH),
        ("a change that leads there", [block_zero(bytes(512), b"\xff" * 512), last], NO_IMAGE),
    ]
    for what, changes, complaint in rows:
        for version in 2, 1:
            journal.be(journal_of(512, 8, changes, [], version))
            journal.refuses("undo", 3, complaint, f"{what}, version {version}")
    journal.does("forget", FRESH)
    journal.is_image("forget", journal.first)


def a_thousand_changes_are_kept(folder):
    journal = Journal(folder)
    for _ in range(1_000):
        folder.run("setattr -b 512 a.img / 74 01")
    journal.refuses("setattr / 74 01", 1, FULL)
    journal.does("undo")
    journal.does("setattr / 74 01")


def the_latest_changes_are_kept(folder):
    journal = Journal(folder)
    journal.does("mkdir /a --keep 2", 3_120)
    first = folder.old()
    for path in "/b", "/c":
        journal.does(f"mkdir {path} --keep 2", 6_216)
    for _ in range(2):
        journal.does("undo", 6_216)
    journal.is_image("what is kept", first)
    journal.refuses("undo", 1, NO_UNDO)
    journal.does("mkdir /d --keep 1", 3_120)
    journal.does("undo")
    journal.is_image("one that is kept", first)


def the_latest_attributes_are_kept(folder):
    """Of three values of an attribute two can be taken back."""
    journal = Journal(folder)
    journal.does("setattr / 74 01")
    first = folder.old()
    journal.does("undo")
    journal.does("forget", FRESH)
    for value in "01", "02", "03":
        journal.does(f"setattr / 74 {value} --keep 2")
    for _ in range(2):
        journal.does("undo")
    journal.refuses("undo", 1, NO_UNDO)
    journal.is_image("what is kept", first)


def full_journals_are_cut(folder):
    journal = Journal(folder)
    for _ in range(1_000):
        folder.run("setattr -b 512 a.img / 74 01")
    journal.refuses("rm / --keep 1", 1, ROOT)
    journal.refuses("setattr / 74 02", 1, FULL)
    for words, left in ("setattr / 74 02 --keep 1000", 1_000), ("grow 9 --keep 999", 999), ("rmattr / 74 --keep 1", 1):
        journal.does(words)
        folder.check(f"{words}: changes", journal.now()[16:24] == word(left) + word(0), journal.now()[16:24])
    journal.does("undo")
    journal.refuses("undo", 1, NO_UNDO)


def a_call_fails(journal, call, at, library, words="put /a/x"):
    """Puts a file of 5 bytes into the directory, or runs other words, where the call of a name with this number fails, which the run
    tells."""
    refusing = Refusing(pathlib.Path(library))
    status, complained, _ = journal.ended(words, 5, env=refusing.env(at, call))
    journal.folder.check(f"{call} {at} fails", refusing.was_hit())
    is_told_so = status == 4 and complained.startswith("lfsed: 61 CannotWrite\n")
    journal.folder.check(f"{call} {at}: {words}", is_told_so, (status, complained))


def files_stay_until_the_journal_has_its_name(folder):
    """The new image isn't written, or the new journal, or that one doesn't get its place: both files are as they were."""
    journal = Journal(folder)
    journal.does("mkdir /a", 3_120)
    files = folder.old(), journal.now()
    with tempfile.TemporaryDirectory() as library:
        for call, at in ("write", 1), ("write", 2), ("rename", 1):
            a_call_fails(journal, call, at, library)
            folder.check(f"{call} {at}: files", (folder.old(), journal.now()) == files)


def leftovers_are_replaced(folder):
    """What an earlier run has left of both files is replaced, and is left no longer."""
    journal = Journal(folder)
    journal.two_commands()
    new = journal.now()
    journal.middle_again()
    for name in "a.img.new", "a.img.lfsj.new":
        folder.image.with_name(name).write_bytes(b"left")
    journal.does("put /a/x", new, 5)
    journal.is_image("put", journal.later)
    folder.check("no other file", {*folder.image.parent.iterdir()} == {folder.image, folder.journal})


def a_run_that_stopped_between_the_files(folder):
    """The image doesn't get its place behind the new journal: the image is old, and the two don't match."""
    journal = Journal(folder)
    journal.two_commands()
    new, middle = journal.now(), journal.middle
    journal.middle_again()
    with tempfile.TemporaryDirectory() as library:
        a_call_fails(journal, "rename", 2, library)
    journal.is_image("put", middle)
    folder.check("the new journal", journal.now() == new)
    journal.refuses("undo", 3, NO_MATCH)
    ended = journal.ended("check")
    folder.check("check", ended == (0, "", b"block 512, count 8, free 4, directories 2, files 0, version 2.0\n"), ended)
    journal.does("forget", FRESH)
    journal.is_image("forget", middle)


def a_new_image_that_gets_no_place(folder):
    """The old image stands beside the journal of the new one, which has no changes: it fits where both have as many blocks."""
    journal = Journal(folder)
    journal.two_commands()
    for count, status, complaint in (8, 1, NO_UNDO), (16, 3, NO_MATCH):
        with tempfile.TemporaryDirectory() as library:
            a_call_fails(journal, "rename", 2, library, f"format --count {count}")
        journal.is_image("format", journal.later)
        folder.check("the new journal", journal.now() == changed(FRESH, 12, word(count)))
        journal.refuses("undo", status, complaint)


if __name__ == "__main__":
    sys.exit(run_scenes([
        changes_are_taken_back_and_made_again,
        what_is_undone_stays_in_the_journal,
        several_changes_are_taken_back_and_made_again,
        nothing_is_there_without_a_journal,
        a_command_drops_what_was_undone,
        what_was_forgotten_is_gone,
        other_journals_are_refused,
        counts_that_are_refused,
        first_version_is_read,
        an_added_block_comes_and_goes,
        added_blocks_are_taken_back,
        journals_cut_at_every_length,
        images_of_a_history_mount,
        a_thousand_changes_are_kept,
        the_latest_changes_are_kept,
        the_latest_attributes_are_kept,
        full_journals_are_cut,
        files_stay_until_the_journal_has_its_name,
        leftovers_are_replaced,
        a_run_that_stopped_between_the_files,
        a_new_image_that_gets_no_place,
    ]))
