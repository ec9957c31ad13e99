"""A picture of the flash: each block a cell, which has the colour of what it holds."""
from __future__ import annotations

import itertools
from typing import Dict, Iterable, Iterator, List, Tuple

from ._page import Markup, join, listed, path_shown, tag
from ._survey import Extent, runs

# What blocks hold: how it is told of one thing, of more, and of how many blocks.
KINDS = {
    "directory": ("directory", "directories", "of directories (metadata pairs)"), "file": ("file", "files", "of files"),
    "free": ("free", "free", "free"), "erased": ("erased", "erased", "erased"), "unknown": ("not known", "not known", "not known"),
}
# How many pieces are drawn, of how many things of one piece the paths are said, and how long one of them may be.
MOST_PIECES, MOST_NAMED, LONGEST_PATH = 6_000, 3, 200
# Up to how many columns the cells are set apart by lines, and how far from a block its ring is beyond.
MOST_LINED, RADIUS = 64, 5


def columns_for(count: int) -> int:
    """How many cells stand in a row: 16 to 256, so that the picture isn't higher than wide."""
    columns = 16
    while columns * columns < count and columns < 256:
        columns *= 2
    return columns


def pieces_of(first: int, last: int, columns: int) -> Iterator[Tuple[int, int, int, int]]:
    """The rectangles of a run of blocks: the rest of a row, complete rows, and the front of a row. Each has its column, its row, its width
    and its height."""
    while first <= last:
        row, column = divmod(first, columns)
        rows = 1 if column else (last + 1 - first) // columns
        width = min(columns - column, last + 1 - first)
        yield column, row, width, max(rows, 1)
        first += width * max(rows, 1)


def outline(first: int, last: int, columns: int) -> str:
    """The outline of a run of blocks."""
    return "".join(f"M{x} {y}h{width}v{height}h-{width}z" for x, y, width, height in pieces_of(first, last, columns))


def span(first: int, last: int) -> str:
    """A run of blocks in words."""
    return f"block {first}" if first == last else f"blocks {first} to {last}"


def shortened(path: str) -> str:
    """A path, without its middle if it is long."""
    found = path_shown(path)
    half = LONGEST_PATH // 2
    return found if len(found) <= LONGEST_PATH else f"{found[:half]} … {found[-half:]}"


def neighbours(extents: List[Extent]) -> List[List[Extent]]:
    """The extents, those of one kind together that follow each other."""
    return [[*group] for _, group in itertools.groupby(extents, lambda extent: extent.kind)]


def of_rows(extents: List[Extent], columns: int) -> List[List[Extent]]:
    """The extents, those of one kind together that begin in one row."""
    found: Dict[Tuple[int, str], List[Extent]] = {}
    for extent in extents:
        found.setdefault((extent.first // columns, extent.kind), []).append(extent)
    return [*found.values()]


def groups(extents: List[Extent], columns: int) -> List[List[Extent]]:
    """The extents in the pieces that are drawn: each by itself, or if there are too many, neighbours together, or those of a row."""
    if len(extents) <= MOST_PIECES:
        return [[extent] for extent in extents]
    found = neighbours(extents)
    return found if len(found) <= MOST_PIECES else of_rows(extents, columns)


def spans(group: List[Extent]) -> List[Tuple[int, int]]:
    """The runs of blocks of a group."""
    found: List[Tuple[int, int]] = []
    for extent in group:
        is_next = found and found[-1][1] + 1 == extent.first
        first = found.pop()[0] if is_next else extent.first
        found.append((first, extent.last))
    return found


def title_of(group: List[Extent]) -> str:
    """What is told of a group where the pointer rests on it."""
    one, more, _ = KINDS[group[0].kind]
    among = "among " if len(spans(group)) > 1 else ""
    where, paths = among + span(group[0].first, group[-1].last), [shortened(extent.path) for extent in group if extent.path is not None]
    if len(paths) < 2:
        return f"{where}: {' '.join([one, *paths])}"
    rest = [f"{len(paths) - MOST_NAMED} more"] if len(paths) > MOST_NAMED else []
    return f"{where}: {more}: {', '.join([*paths[:MOST_NAMED], *rest])}"


def cells(extents: List[Extent], columns: int) -> Markup:
    """The cells of all blocks."""
    pieces = [(group, "".join(outline(*each, columns) for each in spans(group))) for group in groups(extents, columns)]
    return tag("g", *(tag("path", tag("title", title_of(group)), class_=group[0].kind, d=drawn) for group, drawn in pieces), class_="cells")


def grid(count: int, columns: int) -> Markup:
    """The lines between the cells, if there are few of them."""
    rows = -(-count // columns)
    down = "".join(f"M{column} 0v{rows}" for column in range(1, columns))
    across = "".join(f"M0 {row}h{columns}" for row in range(1, rows))
    return tag("path", class_="grid", d=down + across) if columns <= MOST_LINED else Markup("")


def bars(blocks: Iterable[int], columns: int) -> str:
    """A bar at the foot of each of these blocks, which is higher in small cells; neighbours of a row have one together."""
    top, height = (".68", ".2") if columns <= MOST_LINED else (".3", ".7")
    found = []
    for first, last in runs(blocks):
        for x, y, width, rows in pieces_of(first, last, columns):
            found += [f"M{x}.15 {row}{top}h{width - 0.3:g}v{height}h-{width - 0.3:g}z" for row in range(y, y + rows)]
    return "".join(found)


def frames(blocks: Iterable[int], columns: int) -> str:
    """A frame in each of these blocks."""
    return "".join(f"M{block % columns}.2 {block // columns}.2h.6v.6h-.6z" for block in sorted(blocks))


def rings(blocks: Iterable[int], columns: int) -> str:
    """A ring around each of these blocks, if the cells are small."""
    if columns <= MOST_LINED:
        return ""
    half = f"a{RADIUS} {RADIUS} 0 1 0"
    around = f"{half} {2 * RADIUS} 0{half} -{2 * RADIUS} 0z"
    return "".join(f"M{block % columns + 0.5 - RADIUS} {block // columns}.5{around}" for block in sorted(blocks))


def marks(named: Iterable[int], sent: Iterable[int], columns: int) -> Markup:
    """The marks of blocks that faults and notes name, and of those that an update sends."""
    drawn = [
        ("sent", "the bytes of this block differ: an update sends it", bars(sent, columns)),
        ("named", "a fault or a note names this block", frames(named, columns)), ("ring", "", rings(named, columns)),
    ]
    return join(tag("path", tag("title", said), class_=class_, d=outlined) for class_, said, outlined in drawn if outlined)


def totals(extents: List[Extent]) -> Dict[str, int]:
    """How many blocks hold what."""
    found: Dict[str, int] = {}
    for extent in extents:
        found[extent.kind] = found.get(extent.kind, 0) + extent.last + 1 - extent.first
    return {kind: found[kind] for kind in KINDS if kind in found}


def swatch(class_: str, outlined: str) -> Markup:
    """A cell of the legend."""
    return tag("svg", tag("path", class_=class_, d=outlined), class_="swatch", viewBox="0 0 1 1", aria_hidden="true")


def legend(extents: List[Extent], named: Iterable[int], sent: Iterable[int]) -> Markup:
    """What the colours and marks mean, and of how many blocks each is."""
    counted = [(kind, KINDS[kind][2].replace("of ", ""), many) for kind, many in totals(extents).items()]
    lines = [join([swatch(kind, "M0 0h1v1h-1z"), f"{said}: {many}"]) for kind, said, many in counted]
    for class_, outlined, said, blocks in [
        ("named", frames([0], 1), "named by a fault or a note", named), ("sent", bars([0], 1), "sent by an update", sent),
    ]:
        lines += [join([swatch(class_, outlined), f"{said}: {len(set(blocks))}"])] if blocks else []
    return listed(lines, "legend")


def summary(extents: List[Extent], count: int) -> str:
    """What the picture shows, in words."""
    held = ", ".join(f"{many} {KINDS[kind][2]}" for kind, many in totals(extents).items())
    return f"{count} blocks: {held}"


def picture(extents: List[Extent], count: int, named: Iterable[int], sent: Iterable[int]) -> Markup:
    """The picture with its legend."""
    columns = columns_for(count)
    drawn = tag(
        "svg", cells(extents, columns), grid(count, columns), marks(named, sent, columns), class_="flash", role="img",
        aria_label=f"The flash: {summary(extents, count)}", viewBox=f"-.1 -.1 {columns + 0.2:g} {-(-count // columns) + 0.2:g}")
    said = f"Each cell is a block, and each row has {columns}, from block 0 at the top left on; where the pointer rests, its path is told."
    return join([legend(extents, named, sent), drawn, tag("p", said, class_="dim")])


def bar(extents: List[Extent], count: int) -> Markup:
    """How much of the flash holds what, as one bar."""
    at, found = 0, []
    for kind, many in totals(extents).items():
        found.append(tag("rect", x=at, y=0, width=many, height=1, class_=kind))
        at += many
    return tag("svg", *found, class_="bar", viewBox=f"0 0 {count} 1", preserveAspectRatio="none", aria_hidden="true")
