"""Runs of the program."""
from __future__ import annotations

import os
import pathlib
import shutil
import subprocess
from typing import List, Optional, Tuple, Union

from . import _faults, _texts

# A file or a folder of the host.
File = Union[str, "os.PathLike[str]"]
# A path in an image.
ImagePath = Union[str, bytes]
Word = Union[str, bytes, int, "os.PathLike[str]"]


def beside() -> Optional[str]:
    """The program below the prefix that this module is installed in, where it is there."""
    place = pathlib.Path(__file__).resolve().parent
    found = place.parents[3] / "bin/lfsed" if place.parts[-4:] == ("share", "lfsed", "python", "lfsed") else None
    return str(found) if found and found.is_file() else None


def program() -> str:
    """The name of the program."""
    found = os.environ.get("LFSED") or beside() or shutil.which("lfsed")
    if not found:
        raise FileNotFoundError("the program lfsed isn't there: put it on the path, or set the variable LFSED to its name")
    return found


def bytes_of(word: Word) -> bytes:
    """A word of the command line."""
    if isinstance(word, bytes):
        return word
    return str(word).encode("utf-8", "surrogateescape") if isinstance(word, (str, int)) else os.fsencode(word)


def is_taken(word: bytes) -> bool:
    """Whether the command line takes a word: UTF-8 without a zero byte."""
    try:
        word.decode("utf-8")
    except UnicodeDecodeError:
        return False
    return b"\0" not in word


def ended(
    command: str, options: List[Word], words: List[Word], given: bytes = b"", statuses: Tuple[int, ...] = (0,),
) -> subprocess.CompletedProcess[bytes]:
    """A run that has ended; raises its fault if it doesn't end well."""
    line = [os.fsencode(program()), b"--json", command.encode(), *map(bytes_of, options), b"--", *map(bytes_of, words)]
    run_of = subprocess.run(line, input=memoryview(given), capture_output=True, check=False)
    if run_of.returncode and not (run_of.returncode in statuses and not run_of.stderr):
        raise _faults.fault(run_of.returncode, *_texts.fault(run_of.stderr))
    return run_of


def run(command: str, options: List[Word], words: List[Word], given: bytes = b"", statuses: Tuple[int, ...] = (0,)) -> bytes:
    """What a run prints; raises its fault if it doesn't end well."""
    return ended(command, options, words, given, statuses).stdout


def notes(command: str, options: List[Word], words: List[Word]) -> List[str]:
    """What a run says that ends well; raises its fault if it doesn't."""
    return _texts.fault(ended(command, options, words).stderr)[2]
