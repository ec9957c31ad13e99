#!/usr/bin/env python3
"""Runs the README's ten lines and the tour word for word, each in a folder of its own, and compares what they print."""
import pathlib
import sys
import tempfile

from support.transcript import HOME, blocks, run_block


def run_page(name):
    """Runs the blocks of a page; answers how many commands were run, and how many printed something else."""
    ran = wrong = 0
    with tempfile.TemporaryDirectory() as folder:
        programs = pathlib.Path(folder) / "bin"
        programs.mkdir()
        (programs / "lfsed").symlink_to(HOME / "bin/lfsed")
        for _, block in blocks((HOME / name).read_text()):
            if block.startswith("$ "):
                more, more_wrong = run_block(block, cwd=folder)
                ran, wrong = ran + more, wrong + more_wrong
    return ran, wrong


def main():
    ran = wrong = 0
    for name in "README.md", "docs/TOUR.md":
        more, more_wrong = run_page(name)
        ran, wrong = ran + more, wrong + more_wrong
    print(f"{ran - wrong} passed, {wrong} failed")
    return 1 if wrong else 0


sys.exit(main())
