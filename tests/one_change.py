#!/usr/bin/env python3
"""Runs scripts whose steps are one change: the image is byte for byte that of the same script without `--one`, one `undo` takes all of it
back, and the journal's change is the composition of those that the steps alone leave, which is worked out here. What is refused leaves
both files."""
import sys

from batch import BAD_HEX, BAD_LINE, BEFORE, NOT_FOUND, NOT_READ, NOTHING_THERE, REFUSALS, Batch, one_by_one, put_back, two_hundred_lines
from support.folder import run_scenes
from support.journal import journal, read
from support.scripts import script

OTHER = "undo, redo and forget are no part of one change"
# Scripts of commands, some of which write a block twice, remove what was made, or lengthen the image in between.
SCRIPTS = (
    ["mkdir /a"],
    ["mkdir /a", "put /a/x h1", "setattr /a/x 74 0102", "mv /a/x /y", "rm /a"],
    ["put /z h2", "grow 70", "put /z large", "grow 80", "mkdir /d", "put /d/z large", "rm /z"],
    ["put /p/q h0", "put /p/q h1", "put /p/q h2", "rm /p/q", "mkdir /p/q"],
    two_hundred_lines(),
)


def composed(changes):
    """The one change that changes made one after another are: of each block the old bytes of the first that names it, and the new ones of
    the last."""
    blocks = {}
    for _, _, each in changes:
        for number, old, new in each:
            blocks[number] = (blocks.get(number, (old, new))[0], new)
    return changes[0][0], changes[-1][1], [(number, *both) for number, both in sorted(blocks.items())]


def scripts_are_one_change(folder):
    """Whatever was done before, also where some of that was undone."""
    batch = Batch(folder, 256)
    for lines in SCRIPTS:
        for before in ["mkdir /p"], BEFORE + ["undo"]:
            batch.new(64 if len(lines) < 200 else 256)
            one_by_one(batch, before)
            begin, what = batch.files(), f"{lines[:3]} behind {before}"
            wanted = one_by_one(batch, lines)[-1]
            size, count, done, _ = read(wanted[1])
            kept = done[:-len(lines)]
            put_back(batch, begin)
            batch.takes(what, lines, "--one", is_typed=len(lines) % 2 == 1)
            folder.check(f"{what}: image", folder.old() == wanted[0])
            one = composed(done[-len(lines):])
            folder.check(f"{what}: journal", folder.saved() == journal(size, count, [*kept, one], []))
            batch.does(f"{what}: undone", ["undo", "-b", "512", "a.img"])
            folder.check(f"{what}: the image before", folder.old() == begin[0])
            batch.does(f"{what}: done again", ["redo", "-b", "512", "a.img"])
            folder.check(f"{what}: the image behind", folder.old() == wanted[0])


def one_change_keeps_what_is_said(folder):
    batch = Batch(folder)
    one_by_one(batch, ["mkdir /a", "mkdir /b", "mkdir /c"])
    batch.takes("two are kept", ["mkdir /d", "rm /a"], "--one", "--keep", "2")
    folder.check("two are kept: changes", len(read(folder.saved())[2]) == 2)
    batch.does("both undone", ["undo", "-b", "512", "--steps", "2", "a.img"])
    batch.stands("both undone", {"/": (None, {}), "/a": (None, {}), "/b": (None, {})})


def a_full_history_takes_no_change_more(folder):
    batch = Batch(folder)
    batch.takes("a thousand lines", 1_000 * ["setattr / 74 01"])
    batch.refuses(["mkdir /a", "mkdir /b"], 1, 1, "55 JournalFull", options=["--one"])
    batch.takes("all but one are dropped", ["mkdir /a", "mkdir /b"], "--one", "--keep", "1")
    folder.check("one is left", len(read(folder.saved())[2]) == 1)
    batch.takes("2,000 lines are one change", 2_000 * ["setattr / 74 01"], "--one")
    folder.check("two are left", len(read(folder.saved())[2]) == 2)


def refused_steps_leave_all(folder):
    """The first command that is refused is told with its line; image, journal and what was undone are as they were."""
    batch = Batch(folder, 8)
    for undone in [], ["undo"]:
        batch.new(8)
        one_by_one(batch, ["setattr / 01 aa", *undone])
        for lines, first in REFUSALS:
            batch.refuses(lines, len(lines), 1, first, options=["--one"])
            batch.refuses(["# steps", "setattr / 02", "", *lines, "mkdir /more"], len(lines) + 3, 1, first, options=["--one", "--keep", "1"])
    batch = Batch(folder, 256)
    for at in 150, 1, 200:
        lines = two_hundred_lines()
        lines[at - 1] = "rm /none"
        batch.refuses(lines, at, 1, NOT_FOUND, options=["--one"])


def other_steps_are_no_part(folder):
    """They are told before a file is read, behind lines that say no step at all."""
    batch = Batch(folder)
    batch.does("a change", ["mkdir", "-b", "512", "a.img", "/a"])
    for step in "undo", "redo", "forget":
        for lines in ([step], ["mkdir /b", step, "put /c none"], ["put /c none", "", step, "undo"]):
            at = lines.index(step) + 1
            batch.refuses(lines, at, 2, BAD_LINE, options=["--one"], flaw=f", column 1: {OTHER}")
    batch.refuses(["undo", "setattr / 74 0"], 2, 2, BAD_HEX, options=["--one"],
                  flaw=", column 14: HEX isn't two digits for each byte, 0 to 9 or a to f")
    batch.refuses(["mkdir /b", "put /c none"], 2, 4, NOT_READ, f"none: {NOTHING_THERE}", options=["--one"])


def no_steps_are_no_change(folder):
    """Nothing is written where no line says a step; the image has to mount."""
    batch = Batch(folder)
    for saved in None, b"no journal":
        put_back(batch, (folder.old(), saved))
        before, seen = batch.files(), folder.image.stat()
        batch.takes("no steps", b"# none\n\n", "--one")
        after = folder.image.stat()
        folder.check("nothing is written", batch.files() == before and (after.st_ino, after.st_mtime_ns) == (seen.st_ino, seen.st_mtime_ns))


def the_last_of_several_ones_is_undone(folder):
    """Several such runs are as many changes."""
    batch = Batch(folder)
    images = [folder.old()]
    for lines in ["mkdir /a", "put /a/x h1"], ["put /a/x h2", "mkdir /b"], ["rm /a/x", "rm /a"]:
        batch.takes(f"{lines}", script(lines), "--one")
        images.append(folder.old())
    for image in reversed(images[:-1]):
        batch.does("undo", ["undo", "-b", "512", "a.img"])
        folder.check("the run before", folder.old() == image)
    batch.does("redo", ["redo", "-b", "512", "--steps", "3", "a.img"])
    folder.check("all runs", folder.old() == images[-1])


if __name__ == "__main__":
    sys.exit(run_scenes([
        scripts_are_one_change,
        one_change_keeps_what_is_said,
        a_full_history_takes_no_change_more,
        refused_steps_leave_all,
        other_steps_are_no_part,
        no_steps_are_no_change,
        the_last_of_several_ones_is_undone,
    ]))
