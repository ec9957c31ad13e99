"""Images and their changes."""
from __future__ import annotations

import contextlib
import os
import pathlib
import tempfile
import threading
from types import TracebackType
from typing import IO, Any, BinaryIO, Dict, Iterator, List, Literal, Optional, Sequence, TextIO, Tuple, Type, Union, overload

from . import _faults, _files, _texts
from ._program import File, ImagePath, Word, bytes_of, is_taken, notes, run
from ._records import BlockRange, BlockSum, Change, Difference, Place, Row, Summary
from ._tree import Tree, is_plain

Number = Union[int, str]


def options(**values: Union[None, bool, Word]) -> List[Word]:
    """The options of a command line: none for what isn't said, a name alone for what is true."""
    words: List[Word] = []
    for name, value in values.items():
        if value is not None and value is not False:
            words += [f"--{name.replace('_', '-')}"] + ([] if value is True else [value])
    return words


class Image:
    """An image in a file. `block` is the size of its blocks, which is read from the image where it isn't said.

    With `device` it is read as a device reads it, so disk version 2.1 too; with `offset` it begins at that byte of the file, and is only
    read; with `older` the state before changes of a later version is read, and no command changes it. Changes keep the latest `keep` of
    them, by default all. At most `inline_max` bytes of a file that is put stand in its directory entry, by default, and at most, an
    eighth of a block and 1022: a device changes such a file in place only if its cache has at least the file's length.

    >>> image = format("a.img", block=512, count=16)
    >>> image.check().free
    14
    """

    def __init__(
        self, path: File, block: Number = "auto", *,
        device: bool = False, offset: Optional[Number] = None, older: bool = False, keep: Optional[int] = None,
        inline_max: Optional[int] = None,
    ):
        self.path, self.block = path, block
        self.device, self.offset, self.older, self.keep, self.inline_max = device, offset, older, keep, inline_max

    def __repr__(self) -> str:
        return f"Image({os.fspath(self.path)!r}, block={self.block!r})"

    def _ask(self, command: str, *words: Word, block: Optional[Number] = None, **more: bool) -> bytes:
        """What a command prints that only reads the image."""
        taken = options(block=block or self.block, device=self.device, offset=self.offset, older=self.older, **more)
        return run(command, taken, [self.path, *words], statuses=(0, 1) if command == "diff" else (0,))

    def _must_be_a_file(self) -> None:
        """Refuses to change an image within a file."""
        if self.offset is not None:
            raise ValueError("an image within a file is only read: repack makes a file of it alone, and that is changed")

    def _past(self, command: str, *words: Word, given: bytes = b"", **more: Union[None, bool, Word]) -> bytes:
        """What a command prints that goes by the journal."""
        self._must_be_a_file()
        return run(command, options(block=self.block, older=self.older, **more), [self.path, *words], given)

    def _must_be_latest(self) -> None:
        """Refuses to change an older state."""
        if self.older:
            raise ValueError("an older state is only read, since a change would drop what the device wrote: repack makes an image of it")

    def _change(self, command: str, *words: Word, given: bytes = b"", **more: Union[None, bool, Word]) -> None:
        """Changes the image by a command."""
        self._must_be_latest()
        self._past(command, *words, given=given, keep=self.keep, **more)

    def check(self) -> Summary:
        """Judges the image, and answers what it has; raises ImageFault where it doesn't mount.

        >>> image = format("h.img", block=512, count=16)
        >>> image.write("/a", b"hello")
        >>> image.check().inline_longest
        5
        """
        return _texts.summary(self._ask("check"))

    def rows(self, path: ImagePath = "/", *, digests: bool = False) -> List[Row]:
        """What stands at a path and below it, in the order of paths; with `digests` each file has that of its contents.

        >>> image = format("r.img", block=512, count=16)
        >>> image.write("/a", b"hello")
        >>> image.rows()
        [Row(path='/', size=None, attributes={}), Row(path='/a', size=5, attributes={})]
        >>> [row.is_directory for row in image.rows("/a")]
        [False]
        """
        word = bytes_of(path)
        return _texts.rows(self._ask("ls", word, sha256=digests)) if is_taken(word) else self._rows_of_all(word, digests)

    def _rows_of_all(self, path: bytes, digests: bool) -> List[Row]:
        """The same of a path that the command line doesn't take."""
        at = path.decode("utf-8", "surrogateescape")
        found = [row for row in _texts.rows(self._ask("ls", sha256=digests)) if row.path == at or row.path.startswith(f"{at}/")]
        if not found:
            raise _faults.fault(1, 30, "NotFound", [f"{os.fspath(self.path)}: {at}: nothing is there"])
        return found

    def stat(self, path: ImagePath) -> Row:
        """What stands at a path, with its size, attributes and whether it is a directory.

        >>> image = format("st.img", block=512, count=16)
        >>> image.write("/a", b"hello")
        >>> image.stat("/a").size, image.stat("/").is_directory
        (5, True)
        """
        return self.rows(path)[0]

    def exists(self, path: ImagePath) -> bool:
        """Whether something stands at a path.

        >>> image = format("ex.img", block=512, count=16)
        >>> image.exists("/"), image.exists("/a")
        (True, False)
        """
        return self._stat_if_any(path) is not None

    def is_dir(self, path: ImagePath) -> bool:
        """Whether a directory stands at a path."""
        found = self._stat_if_any(path)
        return found is not None and found.is_directory

    def _stat_if_any(self, path: ImagePath) -> Optional[Row]:
        """What stands at a path, None if nothing does."""
        try:
            return self.stat(path)
        except _faults.Refusal as fault:
            if fault.name in ("NotFound", "NotADirectory"):
                return None
            raise

    def _rows_of_directory(self, path: ImagePath) -> List[Row]:
        """What stands at the path of a directory and below it."""
        rows = self.rows(path)
        if not rows[0].is_directory:
            raise _faults.fault(1, 32, "NotADirectory", [f"{os.fspath(self.path)}: {rows[0].path}: is a file"])
        return rows

    def listdir(self, path: ImagePath = "/") -> List[str]:
        """The names in a directory, in its order.

        >>> image = format("li.img", block=512, count=16)
        >>> image.write("/etc/id", b"7", parents=True)
        >>> image.listdir(), image.listdir("/etc")
        (['etc'], ['id'])
        """
        at, *below = self._rows_of_directory(path)
        return [_name(row.path) for row in below if _parent(row.path) == at.path]

    def walk(self, path: ImagePath = "/") -> Iterator[Tuple[str, List[str], List[str]]]:
        """Each directory from a path on, before those in it: its path, the names of its directories and those of its files. As with
        `os.walk` a directory isn't entered whose name is taken out of the list.

        >>> image = format("wa.img", block=512, count=16)
        >>> image.write("/etc/id", b"7", parents=True)
        >>> list(image.walk())
        [('/', ['etc'], []), ('/etc', [], ['id'])]
        """
        at, *below = self._rows_of_directory(path)
        held: Dict[str, List[Row]] = {}
        for row in below:
            held.setdefault(_parent(row.path), []).append(row)
        return _walked(at.path, held)

    def read(self, path: ImagePath) -> bytes:
        """The contents of a file."""
        return self._ask("cat", path)

    @overload
    def open(self, path: ImagePath, mode: Literal["r", "w"] = "r", *, encoding: str = "utf-8", newline: Optional[str] = None) -> TextIO: ...

    @overload
    def open(self, path: ImagePath, mode: Literal["rb", "wb"], *, encoding: str = "utf-8", newline: Optional[str] = None) -> BinaryIO: ...

    @overload
    def open(self, path: ImagePath, mode: str, *, encoding: str = "utf-8", newline: Optional[str] = None) -> IO[Any]: ...

    def open(self, path: ImagePath, mode: str = "r", *, encoding: str = "utf-8", newline: Optional[str] = None) -> IO[Any]:
        """A file object, to read ("r" text, "rb" bytes) or to put the file anew ("w", "wb"). All is read at once; the file is put when
        the object is closed. Nothing is put if the `with` block raises something, or the object is dropped and never closed.

        >>> image = format("op.img", block=512, count=16)
        >>> with image.open("/a", "w") as file:
        ...     _ = file.write("hello")
        >>> with image.open("/a") as file:
        ...     file.read()
        'hello'
        """
        if mode in _files.READS:
            return _files.reading(self.read(path), mode, encoding, newline)
        if mode not in _files.WRITES:
            raise ValueError(f"a file is opened by r, rb, w or wb, and not by {mode}")
        self._must_be_latest()
        self._must_be_a_file()
        return _files.writing(lambda contents: self.write(path, contents), mode, encoding, newline)

    @overload
    def blocks(self, *, sums: Literal[False] = False) -> List[BlockRange]: ...

    @overload
    def blocks(self, *, sums: Literal[True]) -> List[BlockSum]: ...

    @overload
    def blocks(self, *, sums: bool) -> Union[List[BlockRange], List[BlockSum]]: ...

    def blocks(self, *, sums: bool = False) -> Union[List[BlockRange], List[BlockSum]]:
        """What the blocks hold, in their order; with `sums` how many each path takes, in the order of paths.

        >>> image = format("bl.img", block=512, count=16)
        >>> image.blocks()
        [BlockRange(kind='directory', path='/', first=0, last=1), BlockRange(kind='free', path=None, first=2, last=15)]
        >>> image.blocks(sums=True)
        [BlockSum(kind='directory', path='/', count=2), BlockSum(kind='free', path=None, count=14)]
        """
        return _texts.sums(self._ask("blocks", sum=True)) if sums else _texts.ranges(self._ask("blocks"))

    def salvage(self, folder: File) -> List[str]:
        """Makes a new folder with all that can still be read, also if the image doesn't mount. Answers what is told of an image that
        lost nothing, in most cases no line; raises ImageFault if something is lost, and what was saved stays.

        >>> image = format("sa.img", block=512, count=16)
        >>> image.write("/a", b"hello")
        >>> image.salvage("saved")
        []
        >>> pathlib.Path("saved/a").read_bytes()
        b'hello'
        """
        return notes("salvage", options(block=self.block, offset=self.offset), [self.path, folder])

    def attributes(self, path: ImagePath) -> Dict[int, bytes]:
        """The attributes of what stands at a path: values by their kinds.

        >>> image = format("t.img", block=512, count=16)
        >>> image.set_attribute("/", 0x74, b"later")
        >>> image.attributes("/")
        {116: b'later'}
        >>> image.remove_attribute("/", 0x74)
        >>> image.attributes("/")
        {}
        """
        return self.rows(path)[0].attributes

    def write(self, path: ImagePath, contents: bytes, *, parents: bool = False) -> None:
        """Puts a file, in place of one of this path; with `parents` the directories above it too."""
        self._change("put", path, given=contents, parents=parents, inline_max=self.inline_max)

    def mkdir(self, path: ImagePath, *, parents: bool = False) -> None:
        """Makes a directory; with `parents` those above it too, and one that is there is no fault."""
        self._change("mkdir", path, parents=parents)

    def remove(self, path: ImagePath, *, recursive: bool = False) -> None:
        """Removes a file or an empty directory; with `recursive` a directory with all that is below it."""
        self._change("rm", path, recursive=recursive)

    def rename(self, old: ImagePath, new: ImagePath) -> None:
        """Moves a file, or a directory with all that is below it; nothing is replaced."""
        self._change("mv", old, new)

    def set_attribute(self, path: ImagePath, kind: int, value: bytes) -> None:
        """Sets an attribute of a file or a directory; kinds are 0 to 255."""
        self._change("setattr", path, f"{kind:02x}", value.hex())

    def remove_attribute(self, path: ImagePath, kind: int) -> None:
        """Removes an attribute of a file or a directory."""
        self._change("rmattr", path, f"{kind:02x}")

    def grow(self, count: Optional[int] = None, *, size: Optional[Number] = None) -> None:
        """Lengthens the image to so many blocks, or bytes, as in `size="32k"`.

        >>> image = format("g.img", block=512, count=16)
        >>> image.grow(20)
        >>> image.check().count
        20
        """
        self._change("grow", *([] if count is None else [count]), size=size)

    def batch(self, *, one: bool = True) -> Batch:
        """Changes that are made in one run where a `with` block ends, all of them or none, and none where it raises something. They
        are one change of the journal, or one each without `one`.

        >>> image = format("b.img", block=512, count=16)
        >>> with image.batch() as batch:
        ...     batch.mkdir("/etc")
        ...     batch.write("/etc/id", b"7")
        >>> len(image.log())
        1
        >>> image.undo()
        >>> [row.path for row in image.rows()]
        ['/']
        """
        return Batch(self, one)

    def undo(self, steps: int = 1) -> None:
        """Takes the latest changes back, byte for byte: all of so many, or none."""
        self._past("undo", steps=steps)

    def redo(self, steps: int = 1) -> None:
        """Makes changes again that were taken back: all of so many, or none."""
        self._past("redo", steps=steps)

    def forget(self) -> None:
        """Keeps the image alone: its changes can no longer be taken back."""
        self._past("forget")

    def adopt(self, *, replace: bool = False) -> List[int]:
        """Takes over an image that a device wrote, in place, and answers the numbers of the blocks that changed. Where blocks change, a
        journal that has changes is replaced with `replace` alone, and else refused.

        >>> image = format("f.img", block=512, count=16)
        >>> image.adopt()
        []
        """
        self._must_be_latest()
        return _texts.changed(self._past("adopt", replace=replace))

    def log(self) -> List[Change]:
        """The changes that the journal keeps, and what each of them changed.

        >>> image = format("l.img", block=512, count=16)
        >>> image.mkdir("/a")
        >>> image.log()
        [Change(number=1, is_done=True, differences=[Difference(mark='+', row=Row(path='/a', size=None, attributes={}), limits=None)])]
        """
        return _texts.changes(self._past("log"))

    def diff(self, other: Union[Image, File]) -> List[Difference]:
        """What another image has otherwise, which may have blocks of another size.

        >>> image, other = format("d.img", block=512, count=16), format("o.img", block=512, count=16)
        >>> other.write("/a", b"hello")
        >>> [(difference.mark, difference.row.path) for difference in image.diff(other)]
        [('+', '/a')]
        """
        of = other if isinstance(other, Image) else Image(other)
        return _texts.differences(self._ask("diff", of.path, block=self.block if of.block == self.block else "auto"))

    def extract(self, folder: File, path: ImagePath = "/") -> None:
        """Makes a new folder with what is in a directory of the image; attributes are left behind.

        >>> image = format("x.img", block=512, count=16)
        >>> image.write("/etc/id", b"7", parents=True)
        >>> image.extract("etc", "/etc")
        >>> [path.name for path in pathlib.Path("etc").iterdir()]
        ['id']
        """
        self._ask("extract", folder, path)

    def sync(self, folder: File, path: ImagePath = "/") -> None:
        """Makes what stands at a path like a folder, as one change: what is equal stays as it is.

        >>> _ = pathlib.Path("www").mkdir(), pathlib.Path("www/index").write_text("hello")
        >>> image = format("s.img", block=512, count=16)
        >>> image.sync("www", "/www")
        >>> image.read("/www/index")
        b'hello'
        """
        self._change("sync", folder, path, inline_max=self.inline_max)


def _name(path: str) -> str:
    """The last name of a path."""
    return path.rpartition("/")[2]


def _parent(path: str) -> str:
    """The path of the directory above."""
    return path.rpartition("/")[0] or "/"


def _walked(path: str, held: Dict[str, List[Row]]) -> Iterator[Tuple[str, List[str], List[str]]]:
    """What `walk` gives of a directory, by what each directory holds."""
    rows = held.get(path, [])
    directories = [_name(row.path) for row in rows if row.is_directory]
    yield path, directories, [_name(row.path) for row in rows if not row.is_directory]
    for name in directories:
        yield from _walked(f"{path.rstrip('/')}/{name}", held)


@contextlib.contextmanager
def _told_of(path: str) -> Iterator[None]:
    """What the system refuses within is told of this path."""
    try:
        yield
    except OSError as why:
        raise OSError(why.errno, why.strerror, path) from None


class Batch:
    """Changes of an image that are gathered, and made in one run where the `with` block ends. A batch is entered once. Within its block
    threads may share it: the changes have the order of the calls.

    What `parents` and `recursive` add goes by what the image and the batch hold at that call, and is a change for each path: one
    change of all needs a batch with `one`, which is the default.

    >>> image = format("p.img", block=512, count=32)
    >>> with image.batch() as batch:
    ...     batch.write("/etc/net/id", b"7", parents=True)
    ...     batch.mkdir("/etc/net", parents=True)
    ...     batch.rename("/etc/net", "/net")
    ...     batch.remove("/etc", recursive=True)
    >>> [row.path for row in image.rows()]
    ['/', '/net', '/net/id']
    """

    def __init__(self, image: Image, one: bool):
        self._image, self._one = image, one
        self._lock, self._is_entered = threading.Lock(), False
        self._steps: List[Tuple[str, List[bytes]]] = []
        # What stands where after these steps, from the first call on that asks for it.
        self._tree: Optional[Tree] = None
        # The paths that are put, each by the number that names the file with its contents.
        self._paths: List[str] = []
        self._room: Optional[tempfile.TemporaryDirectory[str]] = None

    def __enter__(self) -> Batch:
        with self._lock:
            if self._is_entered:
                raise ValueError("a batch is entered once: the image's batch() begins another one")
            with _told_of(os.fspath(self._image.path)):
                self._room = tempfile.TemporaryDirectory(prefix="lfsed-")
            self._is_entered = True
        return self

    def __exit__(self, kind: Optional[Type[BaseException]], value: Optional[BaseException], trace: Optional[TracebackType]) -> None:
        with self._lock:
            room, self._room = self._room, None
        assert room is not None
        with room:
            if kind is None:
                self._carry_out(room.name)

    def _carry_out(self, folder: str) -> None:
        """Makes the changes, whose contents are in a folder."""
        script = "".join(f"{_texts.line_of_script(step, words)}\n" for step, words in self._steps)
        try:
            self._image._change("batch", given=script.encode("ascii"), one=self._one, inline_max=self._image.inline_max)
        except _faults.Fault as fault:
            lines = [_texts.with_paths(line, folder, self._paths) for line in fault.lines]
            raise _faults.fault(fault.status, fault.number, fault.name, lines) from None

    def _add(self, step: str, *words: Word) -> None:
        """Adds a step."""
        with self._lock:
            self._folder()
            self._append(step, [bytes_of(word) for word in words])

    def _append(self, step: str, words: List[bytes]) -> None:
        """Adds a step, and follows it in the tree."""
        self._steps.append((step, words))
        if self._tree:
            self._tree.follow(step, words)

    def _append_each(self, step: str, paths: Sequence[bytes]) -> None:
        """Adds a step for each path."""
        for path in paths:
            self._append(step, [path])

    def _read_tree(self) -> Tree:
        """What stands where after the steps so far."""
        if not self._tree:
            rows = self._image.rows()[1:]
            self._tree = Tree(self._image.path, {bytes_of(row.path): row.is_directory for row in rows})
            for step, words in self._steps:
                self._tree.follow(step, words)
        return self._tree

    def _folder(self) -> pathlib.Path:
        """The folder of contents that are to be put."""
        if self._room is None:
            raise ValueError("a batch takes changes within its `with` block alone")
        return pathlib.Path(self._room.name)

    def write(self, path: ImagePath, contents: bytes, *, parents: bool = False) -> None:
        """Puts a file, in place of one of this path; with `parents` the directories above it too."""
        word = bytes_of(path)
        with self._lock:
            self._folder()
            missing = self._read_tree().missing_above(word) if parents and is_plain(word) else []
            held, told = self._folder() / str(len(self._paths)), word.decode("utf-8", "surrogateescape")
            self._paths.append(told)
            with _told_of(told):
                held.write_bytes(contents)
            self._append_each("mkdir", missing)
            self._append("put", [word, bytes_of(held)])

    def mkdir(self, path: ImagePath, *, parents: bool = False) -> None:
        """Makes a directory; with `parents` those above it too, and one that is there is no fault."""
        word = bytes_of(path)
        with self._lock:
            self._folder()
            if not parents or word != b"/" and not is_plain(word):
                self._append("mkdir", [word])
            elif word != b"/":
                tree = self._read_tree()
                self._append_each("mkdir", tree.missing_above(word) + ([] if tree.is_directory(word) else [word]))

    def remove(self, path: ImagePath, *, recursive: bool = False) -> None:
        """Removes a file or an empty directory; with `recursive` a directory with all that is below it."""
        word = bytes_of(path)
        with self._lock:
            self._folder()
            self._append_each("rm", self._read_tree().whole(word)[::-1] if recursive and is_plain(word) else [word])

    def rename(self, old: ImagePath, new: ImagePath) -> None:
        """Moves a file, or a directory with all that is below it; nothing is replaced."""
        self._add("mv", old, new)

    def set_attribute(self, path: ImagePath, kind: int, value: bytes) -> None:
        """Sets an attribute of a file or a directory."""
        self._add("setattr", path, f"{kind:02x}", *([value.hex()] if value else []))

    def remove_attribute(self, path: ImagePath, kind: int) -> None:
        """Removes an attribute of a file or a directory."""
        self._add("rmattr", path, f"{kind:02x}")

    def grow(self, count: int) -> None:
        """Lengthens the image to so many blocks."""
        self._add("grow", count)


def format(
    path: File, *, block: int = 4096, count: Optional[int] = None, size: Optional[Number] = None,
    name_max: Optional[int] = None, file_max: Optional[int] = None, attr_max: Optional[int] = None, new: bool = False,
) -> Image:
    """Writes a new image of `count` blocks, or of `size` bytes, in place of a file of this name but for `new`; answers it."""
    limits = options(name_max=name_max, file_max=file_max, attr_max=attr_max, new=new)
    run("format", options(block=block, count=count, size=size) + limits, [path])
    return Image(path, block)


def pack(
    path: File, folder: File, *, block: int = 4096, count: Optional[int] = None, size: Optional[Number] = None, least: bool = False,
    name_max: Optional[int] = None, file_max: Optional[int] = None, attr_max: Optional[int] = None, inline_max: Optional[int] = None,
    new: bool = False,
) -> Image:
    """Writes a new image of a folder, of `count` blocks, of `size` bytes or with `least` of as few as hold it; answers it."""
    limits = options(name_max=name_max, file_max=file_max, attr_max=attr_max, inline_max=inline_max, new=new)
    run("pack", options(block=block, count=count, size=size, least=least) + limits, [path, folder])
    return Image(path, block, inline_max=inline_max)


def find(path: File) -> List[Place]:
    """Where in a file images begin, as in a dump of a flash.

    >>> image = format("fi.img", block=512, count=16)
    >>> image.write("/a", b"hello")
    >>> _ = pathlib.Path("flash.bin").write_bytes(bytes(1_024) + pathlib.Path("fi.img").read_bytes())
    >>> find("flash.bin")
    [Place(offset=1024, version='2.0', block=512, count=16, size=8192, fault=None)]
    >>> Image("flash.bin", 512, offset=1_024, device=True).read("/a")
    b'hello'
    """
    return _texts.places(run("find", [], [path]))


def repack(
    path: File, source: Union[Image, File], *, block: int = 4096, count: Optional[int] = None, size: Optional[Number] = None,
    least: bool = False, name_max: Optional[int] = None, file_max: Optional[int] = None, attr_max: Optional[int] = None,
    inline_max: Optional[int] = None, new: bool = False,
) -> Image:
    """Writes a new image with all that another one holds, by default of as many bytes; answers it.

    >>> image = format("old.img", block=512, count=64)
    >>> image.write("/a", b"hello")
    >>> repack("less.img", image, block=512, least=True).check().count
    2
    """
    of = source if isinstance(source, Image) else Image(source)
    limits = options(name_max=name_max, file_max=file_max, attr_max=attr_max, inline_max=inline_max, new=new)
    view = options(from_block=of.block, device=of.device, offset=of.offset, older=of.older)
    run("repack", options(block=block, count=count, size=size, least=least) + limits + view, [path, of.path])
    return Image(path, block, inline_max=inline_max)
