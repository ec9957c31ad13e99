"""What is said of images: rows, differences, changes."""
from __future__ import annotations

from dataclasses import dataclass, field
from typing import Dict, List, Optional


@dataclass(frozen=True)
class Limits:
    """The greatest lengths of a name, a file and an attribute, in bytes."""

    name: int
    file: int
    attribute: int


@dataclass(frozen=True)
class Summary:
    """The size of an image's blocks, how many it has and how many of them are free; how many directories and files it holds; how many
    bytes are free; the disk version that it is read as, and its limits. `inline_longest` is the length in bytes of the longest file that
    stands in its directory entry, 0 if none does: a device with a cache of that length changes each file in place."""

    block: int
    count: int
    free: int
    directories: int
    files: int
    free_bytes: int
    version: str
    limits: Limits
    inline_longest: int


@dataclass(frozen=True)
class Row:
    """What stands at a path: the size of a file, None for a directory, and the attributes, which are values by their kinds. Where
    digests were asked for, a file has the SHA-256 of its contents, in hexadecimal digits."""

    path: str
    size: Optional[int]
    attributes: Dict[int, bytes] = field(default_factory=dict, hash=False)
    sha256: Optional[str] = field(default=None, repr=False)

    @property
    def is_directory(self) -> bool:
        """Whether a directory stands there."""
        return self.size is None


@dataclass(frozen=True)
class Place:
    """An image in a larger file: its first byte, the disk version, the size and number of blocks and the size in bytes that it states,
    and the number and name of the fault for which it doesn't mount, None if it does."""

    offset: int
    version: str
    block: int
    count: int
    size: int
    fault: Optional[str] = None

    @property
    def mounts(self) -> bool:
        """Whether the image mounts."""
        return self.fault is None


@dataclass(frozen=True)
class BlockRange:
    """What blocks hold, from the first number to the last: a part of a "directory" or of a "file" at a path, or nothing if "free"."""

    kind: str
    path: Optional[str]
    first: int
    last: int

    @property
    def count(self) -> int:
        """How many blocks these are."""
        return self.last - self.first + 1


@dataclass(frozen=True)
class BlockSum:
    """How many blocks the "directory" or "file" at a path takes, with all that is below it; or how many are "free"."""

    kind: str
    path: Optional[str]
    count: int


@dataclass(frozen=True)
class Difference:
    """A row that went ("-"), that came ("+"), or that is a file of other contents ("~"), as it is now. Where an image's limits are
    others, they stand with the root."""

    mark: str
    row: Row
    limits: Optional[Limits] = None


@dataclass(frozen=True)
class Change:
    """A change of the journal: its number, from 1 on, whether it is done or taken back, and what it changed."""

    number: int
    is_done: bool
    differences: List[Difference] = field(hash=False)
