"""What a report tells of an image: gathered by runs of the program, and of the bytes of its file."""
from __future__ import annotations

import hashlib
import os
import pathlib
import re
import struct
import subprocess
import tempfile
from dataclasses import dataclass, field
from typing import Dict, Iterable, Iterator, List, Optional, Tuple

from . import _faults, _texts
from ._program import File, Word, bytes_of, program
from ._records import Change, Difference, Row, Summary

# The most blocks that an image has, the sizes that they have, and the size if none is stated.
MOST_BLOCKS, SMALLEST, LARGEST, USUAL = 65_536, 256, 65_536, 4_096


@dataclass(frozen=True)
class Extent:
    """Blocks after each other that hold one thing: what kind it is of, and its path, if it has one."""

    kind: str
    path: Optional[str]
    first: int
    last: int


@dataclass(frozen=True)
class Saved:
    """What can be saved of an image that doesn't mount: files with their sizes, and lines of what is lost or saved elsewhere."""

    files: List[Tuple[str, int]]
    lines: List[str]


@dataclass(frozen=True)
class Against:
    """What an image has otherwise than an older one: rows, if both mount, and the blocks whose bytes differ."""

    name: str
    differences: Optional[List[Difference]]
    fault: Optional[_faults.Fault]
    sent: List[int]


@dataclass
class Survey:
    """All that is told of an image. If it doesn't mount there is a fault in place of a summary, and nothing is known of its tree."""

    name: str
    length: int
    sha256: str
    block: int
    count: int
    is_device: bool
    summary: Optional[Summary] = None
    fault: Optional[_faults.Fault] = None
    notes: List[str] = field(default_factory=list)
    extents: List[Extent] = field(default_factory=list)
    rows: List[Row] = field(default_factory=list)
    costs: Dict[str, int] = field(default_factory=dict)
    changes: List[Change] = field(default_factory=list)
    journal_fault: Optional[_faults.Fault] = None
    saved: Optional[Saved] = None
    against: Optional[Against] = None

    def faults(self) -> List[_faults.Fault]:
        """The faults that are told, each once."""
        against = self.against.fault if self.against else None
        # A journal doesn't belong to what a device has written.
        journal = None if self.is_device else self.journal_fault
        found: Dict[Tuple[Optional[int], Tuple[str, ...]], _faults.Fault] = {}
        for fault in filter(None, (self.fault, journal, against)):
            found.setdefault((fault.number, tuple(fault.lines)), fault)
        return [*found.values()]

    def named(self) -> List[int]:
        """The blocks that its fault and its notes name."""
        lost = [line for line in self.saved.lines if " saved as " not in line] if self.saved else []
        return blocks_named([*(self.fault.lines if self.fault else []), *self.notes, *lost], self.name, self.count)


@dataclass(frozen=True)
class Ended:
    """How a run ended: what it printed, its fault, if it had one, and what it told besides."""

    printed: bytes
    fault: Optional[_faults.Fault]
    notes: List[str]


def run(command: str, options: List[Word], words: List[Word]) -> Ended:
    """A run of the program; raises its fault unless that is one of the image or its journal."""
    line = [os.fsencode(program()), b"--json", command.encode(), *map(bytes_of, options), b"--", *map(bytes_of, words)]
    ended = subprocess.run(line, stdin=subprocess.DEVNULL, capture_output=True, check=False)
    number, name, lines = _texts.fault(ended.stderr)
    if ended.returncode == 0 or command == "diff" and ended.returncode == 1 and number is None:
        return Ended(ended.stdout, None, lines)
    fault = _faults.fault(ended.returncode, number, name, lines)
    if not isinstance(fault, _faults.ImageFault):
        raise fault
    return Ended(ended.stdout, fault, lines)


def runs(numbers: Iterable[int]) -> Iterator[Tuple[int, int]]:
    """The runs of numbers: the first and the last of each."""
    first = last = -1
    for number in sorted(set(numbers)):
        if first >= 0 and number != last + 1:
            yield first, last
            first = -1
        first, last = (number if first < 0 else first), number
    if first >= 0:
        yield first, last


def blocks_named(lines: List[str], name: str, count: int) -> List[int]:
    """The blocks below a count that lines of the program name. Paths name none."""
    found = set()
    for line in lines:
        said = re.sub(r"/\S*", " ", line[len(name) + 2:] if line.startswith(f"{name}: ") else line)
        for numbers in re.findall(r"\bblocks? ([0-9]+(?:, [0-9]+)*(?: and [0-9]+)?)", said):
            found |= {int(number) for number in re.findall("[0-9]+", numbers) if len(number) < 9}
    return sorted(number for number in found if number < count)


def digest(path: File) -> str:
    """The SHA-256 of a file."""
    found = hashlib.sha256()
    with open(path, "rb") as opened:
        while held := opened.read(1 << 20):
            found.update(held)
    return found.hexdigest()


def stated(path: File) -> int:
    """The size of a block that the first superblock of a file states, or the usual one."""
    with open(path, "rb") as opened:
        front = opened.read(2 * LARGEST)
    at = front.find(b"littlefs")
    if at < 0 or at + 20 > len(front):
        return USUAL
    size = int(struct.unpack_from("<I", front, at + 16)[0])
    return size if is_size(size) else USUAL


def is_size(size: int) -> bool:
    """Whether blocks may have a size."""
    return SMALLEST <= size <= LARGEST and size % 16 == 0


def size_of(path: File, block: Optional[str]) -> int:
    """The size of the blocks of an image that doesn't mount: what the program was told, or else what is stated."""
    return stated(path) if block is None or block == "auto" else int(block)


def blocks_of(path: File, block: int, count: int) -> Iterator[bytes]:
    """The blocks of a file, as many as are asked for and there."""
    with open(path, "rb") as opened:
        for _ in range(count):
            held = opened.read(block)
            if not held:
                return
            yield held


def unread(path: File, block: int, count: int) -> List[Extent]:
    """The blocks of an image that doesn't mount: those that are erased, and others."""
    erased = bytes([0xFF]) * block
    is_erased = {number for number, held in enumerate(blocks_of(path, block, count)) if held == erased}
    found = [Extent("erased", None, *run) for run in runs(is_erased)]
    found += [Extent("unknown", None, *run) for run in runs({*range(count)} - is_erased)]
    return sorted(found, key=lambda extent: extent.first)


def extent(said: Dict[str, object]) -> Extent:
    """The extent that an object says."""
    is_named = "path" in said or "path_hex" in said
    return Extent(str(said["kind"]), _texts.path_of(said) if is_named else None, int(str(said["first"])), int(str(said["last"])))


def read_tree(survey: Survey, path: File, options: List[Word]) -> None:
    """Reads the tree of an image that mounts, and what its blocks hold."""
    survey.extents = [extent(said) for said in _texts.objects(_must(run("blocks", options, [path])))]
    survey.rows = _texts.rows(_must(run("ls", options, [path])))
    sums = _texts.objects(_must(run("blocks", [*options, "--sum"], [path])))
    survey.costs = {_texts.path_of(said): said["blocks"] for said in sums if said["kind"] != "free"}


def _must(ended: Ended) -> bytes:
    """What a run printed; raises its fault."""
    if ended.fault:
        raise ended.fault
    return ended.printed


def read_journal(survey: Survey, path: File) -> None:
    """Reads the history of an image, if a journal is beside it."""
    journal = os.fsdecode(os.path.realpath(path)) + ".lfsj"
    if os.path.exists(journal):
        ended = run("log", ["--block", survey.block], [path])
        survey.journal_fault = ended.fault
        survey.changes = [] if ended.fault else _texts.changes(ended.printed)


def saved(path: File, block: int) -> Saved:
    """What can be saved of an image."""
    with tempfile.TemporaryDirectory(prefix="lfsed-") as room:
        folder = pathlib.Path(room) / "saved"
        ended = run("salvage", ["--block", block], [path, folder])
        files = [
            (f"/{made.relative_to(folder)}", made.stat().st_size)
            for made in sorted(folder.rglob("*")) if made.is_file() and not made.is_symlink()
        ]
        return Saved(files, [line for line in ended.notes if not ended.fault or line not in ended.fault.lines])


def against(survey: Survey, path: File, other: File, options: List[Word]) -> Against:
    """What an image has otherwise than an older one."""
    ended = None if survey.fault else run("diff", options, [other, path])
    old = blocks_of(other, survey.block, survey.count)
    sent = [number for number, held in enumerate(blocks_of(path, survey.block, survey.count)) if held != next(old, None)]
    differences = _texts.differences(ended.printed) if ended and not ended.fault else None
    return Against(os.fspath(other), differences, ended.fault if ended else None, sent)


def survey(path: str, *, block: Optional[str] = None, other: Optional[str] = None, is_device: bool = False) -> Survey:
    """All that is told of an image. A fault of the image or its journal is told; others are raised."""
    view: List[Word] = ["--device"] if is_device else []
    checked = run("check", [*view, "--block", block or "auto"], [path])
    size = _texts.summary(checked.printed).block if not checked.fault else size_of(path, block)
    if checked.fault and not is_size(size):
        raise checked.fault
    options = [*view, "--block", size]
    checked = run("check", options, [path])
    length, sha256 = os.path.getsize(path), digest(path)
    found = Survey(path, length, sha256, size, min(length // size, MOST_BLOCKS), is_device, fault=checked.fault)
    if checked.fault:
        found.extents, found.saved = unread(path, size, found.count), saved(path, size)
    else:
        found.summary, found.notes = _texts.summary(checked.printed), checked.notes
        read_tree(found, path, options)
    read_journal(found, path)
    if other is not None:
        found.against = against(found, path, other, [*view, "--block", block or "auto"])
    if digest(path) != sha256:
        raise _faults.fault(4, None, None, [f"{path}: was changed while it was read"])
    return found
