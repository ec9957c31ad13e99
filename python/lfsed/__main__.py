"""The command line of the module: `python3 -m lfsed report IMAGE`."""
from __future__ import annotations

import argparse
import os
import sys
from typing import List, Optional

from . import Fault, __version__
from ._report import report
from ._survey import survey

STATUSES = """Status: 0 all went well; 2 the words are refused; 3 an image or its
journal is refused, which the report tells too; 4 memory or a file failed."""


def parser() -> argparse.ArgumentParser:
    """What the command line takes."""
    found = argparse.ArgumentParser(prog="python3 -m lfsed", description="What the module does by itself with images of littlefs.")
    found.add_argument("--version", action="version", version=f"lfsed {__version__}")
    commands = found.add_subparsers(dest="command", required=True, metavar="COMMAND")
    about = "write a report of an image: one page of HTML that needs nothing from outside"
    made = commands.add_parser("report", help=about, description=f"{about[0].upper()}{about[1:]}.", epilog=STATUSES)
    made.add_argument("image", metavar="IMAGE", help="file of the image")
    made.add_argument("--other", metavar="OLD", help="file of an older image: what changed since, and which blocks an update sends")
    made.add_argument("--block", "-b", metavar="BYTES", help="size of a block; it is read from the image if it isn't said")
    made.add_argument("--device", action="store_true", help="read the images as a device does: also disk version 2.1")
    written = "file that is written, in place of one of this name; by default standard output"
    made.add_argument("-o", "--output", metavar="FILE", help=written)
    return found


def tell(lines: List[str]) -> None:
    """Tells lines on standard error."""
    for line in filter(None, lines):
        print(f"lfsed: {line}", file=sys.stderr)


def lines_of(fault: Fault) -> List[str]:
    """The lines of a fault, as the program tells them."""
    return ([f"{fault.number} {fault.name}"] if fault.number is not None else []) + fault.lines


def is_one_of(path: str, others: List[Optional[str]]) -> bool:
    """Whether a file is one of others, or the journal of one, which may not be there yet."""
    files = [name for other in others if other is not None for name in (other, f"{other}.lfsj", f"{os.path.realpath(other)}.lfsj")]
    if any(os.path.realpath(path) == os.path.realpath(name) for name in files):
        return True
    return os.path.exists(path) and any(os.path.exists(name) and os.path.samefile(path, name) for name in files)


def write(path: Optional[str], page: bytes) -> None:
    """Writes a page."""
    if path is None:
        sys.stdout.buffer.write(page)
        sys.stdout.buffer.flush()
        return
    with open(path, "wb") as opened:
        opened.write(page)


def run(words: argparse.Namespace) -> int:
    """Writes the report; answers the status."""
    if words.output is not None and is_one_of(words.output, [words.image, words.other]):
        tell([f"{words.output}: is an image that is read, or its journal"])
        return 2
    found = survey(words.image, block=words.block, other=words.other, is_device=words.device)
    write(words.output, report(found, __version__))
    for fault in found.faults():
        tell(lines_of(fault))
    return max((fault.status for fault in found.faults()), default=0)


def main(words: Optional[List[str]] = None) -> int:
    """Carries out a command line; answers the status."""
    taken = parser().parse_args(words)
    try:
        return run(taken)
    except Fault as fault:
        tell(lines_of(fault))
        return fault.status
    except BrokenPipeError:
        # Nothing is left to be flushed where Python ends.
        os.dup2(os.open(os.devnull, os.O_WRONLY), sys.stdout.fileno())
        tell(["standard output: nobody reads it"])
        return 4
    except OSError as why:
        tell([f"{why.filename or 'standard output'}: {why.strerror}" if why.strerror else str(why)])
        return 4


if __name__ == "__main__":
    sys.exit(main())
