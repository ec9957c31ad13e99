"""Uses of the module for Python, with the types that they have, for mypy; it is run too, in a folder of its own. Uses of wrong types have
to be refused: a comment that lets one pass is itself refused if there is nothing to let pass."""
import os
import pathlib
from typing import IO, Any, BinaryIO, Dict, Iterator, List, Optional, TextIO, Tuple, Union

import lfsed


def makes(folder: pathlib.Path) -> lfsed.Image:
    """Makes images."""
    image: lfsed.Image = lfsed.format(folder / "a.img", block=512, count=64)
    lfsed.format("b.img", block=512, size="32k", name_max=64, file_max=4_000, attr_max=100, new=True)
    os.mkdir("fw")
    packed: lfsed.Image = lfsed.pack("c.img", "fw", block=512, least=True, inline_max=60)
    again: lfsed.Image = lfsed.repack("d.img", packed, block=512, size=8_192)
    lfsed.repack("e.img", again.path, block=512)
    return image


def changes(image: lfsed.Image) -> None:
    """Changes one."""
    image.write("/a", b"one")
    image.write(b"/b/c", b"two", parents=True)
    image.mkdir("/d/e", parents=True)
    image.remove("/d", recursive=True)
    image.rename("/a", "/f")
    image.set_attribute("/f", 7, b"x")
    image.remove_attribute("/f", 7)
    image.grow(70)
    image.grow(size="36k")
    image.sync(pathlib.Path("fw"), "/g")
    image.undo(2)
    image.redo()
    image.undo(steps=1)
    adopted: List[int] = image.adopt(replace=True)
    assert adopted == []
    image.forget()


def asks(image: lfsed.Image) -> None:
    """Asks what one holds."""
    summary: lfsed.Summary = image.check()
    free: int = summary.free
    version: str = summary.version
    limits: lfsed.Limits = summary.limits
    rows: List[lfsed.Row] = image.rows("/", digests=True)
    digest: Optional[str] = rows[-1].sha256
    size: Optional[int] = image.stat("/f").size
    directory: bool = image.stat("/").is_directory
    held: Dict[int, bytes] = image.attributes("/f")
    there: bool = image.exists(b"/f")
    names: List[str] = image.listdir()
    walked: Iterator[Tuple[str, List[str], List[str]]] = image.walk("/")
    contents: bytes = image.read("/f")
    log: List[lfsed.Change] = image.log()
    differences: List[lfsed.Difference] = image.diff("b.img")
    row: lfsed.Row = differences[0].row
    path: str = row.path
    image.diff(lfsed.Image("b.img", 512))
    image.extract("held", "/")
    assert free and version and limits.name == 255 and digest and size == 3 and directory and there and path and not log
    assert (held, names, [*walked][0][2], contents) == ({}, ["b", "f"], ["f"], b"one") and not image.is_dir("/f")


def asks_of_blocks(image: lfsed.Image) -> None:
    """Asks what blocks hold, and saves what can be read."""
    ranges: List[lfsed.BlockRange] = image.blocks()
    first: int = ranges[0].first
    sums: List[lfsed.BlockSum] = image.blocks(sums=True)
    count: int = sums[0].count + ranges[-1].count
    of: Optional[str] = sums[0].path
    either: Union[List[lfsed.BlockRange], List[lfsed.BlockSum]] = image.blocks(sums=bool(first))
    notes: List[str] = image.salvage("saved")
    places: List[lfsed.Place] = lfsed.find(image.path)
    at: int = places[0].offset
    fault: Optional[str] = places[0].fault
    inside = lfsed.Image(image.path, places[0].block, offset=at, device=True)
    assert count and of == "/" and either and notes == [] and fault is None and places[0].mounts and inside.exists("/f")


def opens(image: lfsed.Image) -> None:
    """Opens files."""
    text: TextIO = image.open("/t", "w", encoding="utf-8", newline="")
    text.write("hello")
    text.close()
    with image.open("/t") as read:
        line: str = read.readline()
    with image.open("/b/c", "rb") as held:
        part: bytes = held.read(1)
    data: BinaryIO = image.open("/u", "wb")
    data.write(b"x")
    data.close()
    mode: str = "rb"
    either: IO[Any] = image.open("/u", mode)
    assert (line, part, either.read()) == ("hello", b"t", b"x")


def gathers(image: lfsed.Image) -> None:
    """Gathers changes, and meets faults."""
    with image.batch(one=True) as batch:
        batch.mkdir("/x/y", parents=True)
        batch.write("/x/y/z", b"1", parents=True)
        batch.set_attribute("/x", 1, b"")
        batch.remove_attribute("/x", 1)
        batch.rename("/x/y", "/y")
        batch.remove("/x", recursive=True)
        batch.grow(80)
    try:
        image.remove("/y")
    except lfsed.Refusal as fault:
        number: Optional[int] = fault.number
        name: Optional[str] = fault.name
        lines: List[str] = fault.lines
        status: int = fault.status
    assert (number, name, lines, status) == (34, "NotEmpty", ["a.img: /y: is not empty"], 1)
    kinds: List[type] = [lfsed.HostFault, lfsed.ImageFault, lfsed.UsageError]
    assert all(issubclass(kind, lfsed.Fault) for kind in kinds)


def are_refused(image: lfsed.Image) -> None:
    """Uses of wrong types, which nothing runs."""
    image.write("/a", "text")  # type: ignore[arg-type]
    image.open("/a", "w").write(b"bytes")  # type: ignore[arg-type]
    image.open("/a", "rb").read().encode()  # type: ignore[attr-defined]
    image.blocks(sums=True)[0].first  # type: ignore[attr-defined]
    image.stat("/a").size + 1  # type: ignore[operator]
    lfsed.find("a.img")[0].name  # type: ignore[attr-defined]
    with image.batch() as batch:
        batch.mkdir("/a", recursive=True)  # type: ignore[call-arg]


def main() -> None:
    image = makes(pathlib.Path("."))
    for act in changes, asks, asks_of_blocks, opens, gathers:
        act(image)


if __name__ == "__main__":
    main()
