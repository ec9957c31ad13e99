#!/usr/bin/env python3
"""Tries the runner of edits over one small crate: an edit that turns a meaning is refused, and one that keeps it is not, whether they are
tried together or alone, and whether or not the written proof fits it; one that the prover cannot read, or whose text isn't there, is told as
bad and counts as failed. What the runner makes of lines of the prover's is tried without it."""
import importlib.machinery
import importlib.util
import os
import pathlib
import shutil
import subprocess
import sys
import tempfile

from support.counts import Counts

HOME = pathlib.Path(__file__).resolve().parent.parent
CRATE = "lfs_sink"
SEND = "        send(out, self)"
WRITE = "match self.bytes.extend_from_slice(bytes) {"
# Of each edit the file, what stands there, what is to stand there, and how its line is to begin.
TOGETHER = {
    "all_is_sent": ("src/text.rt", SEND, "        let text: &[u8] = self; send(out, text)", "NOT REFUSED (a proof that fits: with "),
    "nothing_is_kept": (
        "src/memory_sink.rt",
        WRITE,
        WRITE.replace("bytes)", "&bytes[..0])"),
        "refused, as it must be: `returns-in-Ok-clause-sent` isn't proved at src/memory_sink.rt:",
    ),
}
ALONE = {
    "a_name_is_wrong": ("src/text.rt", SEND, "        send(out, this)", "BAD EDIT"),
    "nothing_is_sent": (
        "src/text.rt",
        SEND,
        "        send(out, &self[..0])",
        "refused, as it must be: `returns-clause-sent` isn't proved at src/text.rt:",
    ),
    "the_text_is_elsewhere": ("src/text.rt", "send(out, that)", "send(out, self)", "BAD EDIT"),
}
# What the file of an edit says that doesn't fit.
SAID = {"nothing_is_sent": "# without: returns-clause-sent\n"}
# Lines of the prover's about a function in lines 3 to 9 of src/a.rt.
PROMISED = "note: src/a.rt:4:1: it is not proved that what the function ensures holds when it returns (`returns-clause-sent`); `search` gave up"
DEMANDED = "note: src/a.rt:5:1: it is not proved that the call's `requires` holds (`send-requires`)"
SAFE = "note: src/a.rt:6:1: it is not proved that the sum fits (`overflow_add-at`)"
HOLLOW = "note: src/a.rt:7:1: it is not proved that control never comes here (at a `prove!`) (`unreachable-requires`)"
ELSEWHERE = "note: src/a.rt:12:1: it is not proved that what the function ensures holds when it returns (`returns`)"
MISFIT = "./proofs/a/f/Answers.antt:5:9: error: `returns`: the two types differ"
# Lines of the prover's, and the goal that refuses the function's edit.
REFUSALS = {
    "a_promise": ([ELSEWHERE, DEMANDED, PROMISED], "`returns-clause-sent`"),
    "what_a_call_requires": ([SAFE, DEMANDED], "`send-requires`"),
    "what_a_call_requires_beside_a_proof_that_does_not_fit": ([DEMANDED, MISFIT], None),
    "a_promise_beside_a_proof_that_does_not_fit": ([MISFIT, PROMISED], "`returns-clause-sent`"),
    "neither": ([SAFE, HOLLOW, ELSEWHERE, MISFIT], None),
}
PROOF = """use A.{b}

pub send-requires : goal.send-requires
send-requires c = c.deref.ensures

pub returns : goal.returns
returns c =
    c.send.ensures
"""
MISSED = "proofs/a/f/Answers.antt:4:9: error: `send-requires`: record `R` has no field `deref` (nearest: .deref-2)"
# What the prover says of that proof, a line of it, and what the line is then.
FITS = {
    "a_name": ([MISSED, PROMISED], 4, "send-requires c = c.deref-2.ensures"),
    "a_type": (["proofs/a/f/Answers.antt:8:9: error: `returns`: the two types differ"], 6, ""),
}
# What an edit's file says of that proof, and how the proof is tried then.
HINTS = ["# with: deref-2 for deref", "# without: returns"]
HINTED = """use A.{b}

pub send-requires : goal.send-requires
send-requires c = c.deref-2.ensures




"""


def runner():
    """The runner as a module."""
    loader = importlib.machinery.SourceFileLoader("try_edits", str(HOME / "bin/try-edits"))
    module = importlib.util.module_from_spec(importlib.util.spec_from_loader("try_edits", loader))
    sys.modules["try_edits"] = module
    loader.exec_module(module)
    return module


def edit_in(module, place):
    """An edit of the function that the lines are about."""
    edit = object.__new__(module.Edit)
    edit.place, edit.function, edit.hints = place, module.Function("src/a.rt", (), "f", 3, 9), []
    return edit


def check_lines(counts, module):
    """Which goal refuses an edit, and how its proof is made to fit."""
    with tempfile.TemporaryDirectory() as place:
        edit = edit_in(module, pathlib.Path(place))
        for name, (lines, goal) in REFUSALS.items():
            refusal = module.refusal_of(edit, lines)
            counts.check(name, (refusal or "").partition(" ")[0] == (goal or ""), [refusal])
        file = edit.place / "proofs/a/f/Answers.antt"
        file.parent.mkdir(parents=True)
        file.write_text(PROOF)
        for name, (said, number, wanted) in FITS.items():
            trial = module.Trial(edit)
            moved = trial.hear(said)
            lines = trial.text("proofs/a/f/Answers.antt").split("\n")
            counts.check(name, moved and not trial.refusal and lines[number - 1] == wanted and len(lines) == PROOF.count("\n") + 1, lines)
        edit.hints = HINTS
        trial = module.Trial(edit)
        counts.check("hints", trial.text("proofs/a/f/Answers.antt") == HINTED and trial.found_hints() == HINTS, trial.texts)


def lines_of(edits, room):
    """What the runner says of these edits, which stand alone in a copy of the crate."""
    shutil.copytree(HOME / "crates" / CRATE, room / "crates" / CRATE, ignore=shutil.ignore_patterns("out", "must-fail", "more-edits"))
    (room / "crates.txt").write_text(f"{CRATE}:\n")
    (room / "bin").mkdir()
    shutil.copy(HOME / "bin/try-edits", room / "bin")
    (room / "log").write_text("1 passed, 0 failed\n")
    folder = room / "crates" / CRATE / "must-fail"
    folder.mkdir()
    for name, (file, old, new, _) in edits.items():
        (folder / f"{name}.edit").write_text(f"file: {file}\nold: {old}\nnew: {new}\n{SAID.get(name, '')}")
    words = [room / "bin/try-edits", room, room / "log"]
    how = {"stdin": subprocess.DEVNULL, "stdout": subprocess.PIPE, "text": True, "env": {**os.environ, "XDG_CACHE_HOME": str(room / "kept")}}
    return subprocess.run(words, **how).stdout.splitlines()


def check(counts, edits):
    with tempfile.TemporaryDirectory() as room:
        lines = lines_of(edits, pathlib.Path(room))
    for name, (*_, wanted) in edits.items():
        front = f"must-fail {CRATE}/{name}.edit: {wanted}"
        counts.check(name, any(line.startswith(front) for line in lines), lines)
    refused = sum(wanted.startswith("refused") for *_, wanted in edits.values())
    counts.check("how many were refused", lines[-1:] == [f"{refused} passed, {len(edits) - refused} failed"], lines)


def main():
    counts = Counts()
    check_lines(counts, runner())
    for edits in TOGETHER, ALONE:
        check(counts, edits)
    return counts.end()


sys.exit(main())
