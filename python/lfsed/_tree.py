"""What stands where in an image, as the steps of a batch change it."""
from __future__ import annotations

import os
from typing import Dict, Iterable, List, Sequence

from . import _faults
from ._program import File


def is_plain(path: bytes) -> bool:
    """Whether a path is one that the program takes, and not the root.

    >>> [is_plain(path) for path in (b"/a/b", b"/", b"/a/", b"a", b"/a/../b")]
    [True, False, False, False, False]
    """
    return path.startswith(b"/") and not {b"", b".", b".."} & {*path[1:].split(b"/")}


def above(path: bytes) -> List[bytes]:
    """The paths of the directories above, from the root's on, which isn't among them.

    >>> above(b"/a/b/c")
    [b'/a', b'/a/b']
    """
    names = path.split(b"/")
    return [b"/".join(names[:many]) for many in range(2, len(names))]


class Tree:
    """The paths of an image, but for the root's, each with whether a directory stands there. A step that the program will refuse may
    leave anything: nothing is done then.

    >>> tree = Tree("a.img", {b"/a": True, b"/a/b": False})
    >>> tree.follow("mv", [b"/a", b"/c"])
    >>> tree.whole(b"/c")
    [b'/c', b'/c/b']
    >>> tree.missing_above(b"/c/d/e/f")
    [b'/c/d', b'/c/d/e']
    """

    def __init__(self, image: File, directories: Dict[bytes, bool]):
        self._image, self._directories = image, directories

    def follow(self, step: str, words: Sequence[bytes]) -> None:
        """Follows a step of a script."""
        if step in ("mkdir", "put"):
            self._directories[words[0]] = step == "mkdir"
        elif step == "rm":
            self._directories.pop(words[0], None)
        elif step == "mv":
            for path in self._at_and_below(words[0]):
                self._directories[words[1] + path[len(words[0]):]] = self._directories.pop(path)

    def _at_and_below(self, path: bytes) -> List[bytes]:
        """What stands at a path and below it, each directory before what is in it."""
        return sorted(each for each in self._directories if each == path or each.startswith(path + b"/"))

    def _fault(self, number: int, name: str, path: bytes, why: str) -> _faults.Fault:
        """The fault of a path."""
        return _faults.fault(1, number, name, [f"{os.fspath(self._image)}: {path.decode('utf-8', 'surrogateescape')}: {why}"])

    def _must_be_no_files(self, paths: Iterable[bytes]) -> None:
        """Refuses a file in place of a directory."""
        for path in paths:
            if self._directories.get(path) is False:
                raise self._fault(32, "NotADirectory", path, "is a file")

    def is_directory(self, path: bytes) -> bool:
        """Whether a directory stands at a path; a file there is refused."""
        if self._directories.get(path) is False:
            raise self._fault(31, "Exists", path, "something is there")
        return path in self._directories

    def missing_above(self, path: bytes) -> List[bytes]:
        """The directories above a path that aren't there; a file in place of one is refused."""
        self._must_be_no_files(above(path))
        return [each for each in above(path) if each not in self._directories]

    def whole(self, path: bytes) -> List[bytes]:
        """What stands at a path and below it, each directory before what is in it; it is refused if nothing is there."""
        self._must_be_no_files(above(path))
        for each in [*above(path), path]:
            if each not in self._directories:
                raise self._fault(30, "NotFound", each, "nothing is there")
        return self._at_and_below(path)
