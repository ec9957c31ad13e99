"""A report of an image: one page of HTML."""
from __future__ import annotations

import os
from typing import Dict, Iterable, List, Optional, Tuple

from . import _faults
from ._page import Cell, Markup, Part, code, join, listed, page, section, table, tag
from ._picture import bar, picture, span, summary
from ._records import Difference, Row, Summary
from ._survey import Extent, Survey, runs

# How many runs of blocks a row tells, and how many bytes of an attribute.
MOST_RUNS, MOST_BYTES = 6, 32
WORDS = {"-": "removed", "+": "added", "~": "contents changed"}


def number(many: int) -> str:
    """A number with its thousands set apart."""
    return f"{many:,}"


def counted(many: int, one: str, more: Optional[str] = None) -> str:
    """So many of something."""
    return f"{number(many)} {one if many == 1 else more or f'{one}s'}"


def number_cell(many: Optional[int]) -> Cell:
    """A cell of a number, or of none."""
    return Cell("", -1) if many is None else Cell(number(many), many)


def runs_told(found: Iterable[Tuple[int, int]]) -> str:
    """Runs of blocks in words."""
    said = [span(*each).split(" ", 1)[1] for each in found]
    rest = [f"{len(said) - MOST_RUNS} more"] if len(said) > MOST_RUNS else []
    return ", ".join([*said[:MOST_RUNS], *rest])


def value_told(kind: int, value: bytes) -> str:
    """An attribute: its kind and its value in digits, and as a text if it is one."""
    digits, rest = value[:MOST_BYTES].hex(), " …" if len(value) > MOST_BYTES else ""
    is_text = value != b"" and all(0x20 <= byte < 0x7F for byte in value)
    text = f" “{value[:MOST_BYTES].decode('ascii')}{rest}”" if is_text else ""
    return f"{kind:02x}: {digits}{rest}{text} ({counted(len(value), 'byte')})"


def attributes_told(row: Row) -> Markup:
    """The attributes of a row."""
    return join(tag("div", value_told(kind, value)) for kind, value in sorted(row.attributes.items()))


def fault_title(fault: _faults.Fault) -> str:
    """The number and the name of a fault."""
    return f"{fault.number} {fault.name}" if fault.number is not None else f"status {fault.status}"


def told(fault: _faults.Fault, said: str) -> Markup:
    """A fault with its lines."""
    return tag("div", tag("p", tag("strong", f"{said}: {fault_title(fault)}")), listed(fault.lines), class_="bad")


def verdict(survey: Survey) -> Markup:
    """Whether the image mounts, and the notes of the program."""
    view = " as a device reads it" if survey.is_device else ""
    if survey.fault:
        return told(survey.fault, f"Doesn’t mount{view}")
    notes = tag("div", tag("p", tag("strong", "Notes")), listed(survey.notes), class_="bad") if survey.notes else Markup("")
    return join([tag("p", f"Mounts{view}."), notes])


def fullness(found: Summary) -> str:
    """How full the image is."""
    used = found.count - found.free
    share = f"{100 * used / found.count:.1f} %"
    return f"{share}: {number(used)} of {counted(found.count, 'block')}; {counted(found.free_bytes, 'byte')} are free"


def facts(survey: Survey) -> Markup:
    """The summary: what the file and the image have."""
    found = survey.summary
    lines: List[Tuple[str, Part]] = [
        ("File", f"{survey.name}, {counted(survey.length, 'byte')}"), ("SHA-256", tag("code", survey.sha256)),
        ("Blocks", f"{number(survey.count)} of {counted(survey.block, 'byte')}"),
    ]
    if found:
        held = f"{counted(found.directories, 'directory', 'directories')}, {counted(found.files, 'file')}"
        lines += [
            ("Full", fullness(found)), ("Holds", held), ("Disk version", found.version),
            ("Limit on names", counted(found.limits.name, "byte")), ("Limit on files", counted(found.limits.file, "byte")),
            ("Limit on attributes", counted(found.limits.attribute, "byte")),
        ]
    filled = bar(survey.extents, survey.count) if survey.count else Markup("")
    rows = [[Cell(name), Cell(held)] for name, held in lines]
    return section("Summary", table("The file and its image", ["What", "Value"], rows), filled)


def device(found: Summary) -> Markup:
    """The settings with which a device mounts the image."""
    longest = found.inline_longest
    cache = f"{longest} or more" if longest else "any"
    why = f"the longest file that stands in its entry has {counted(longest, 'byte')}" if longest else "no file stands in its entry"
    rows = [
        ("block_size", str(found.block), "the size of a block"), ("block_count", str(found.count), "how many blocks the image has"),
        ("name_max", f"{found.limits.name} or more", "the image’s limit on names; 0 stands for 255"),
        ("file_max", f"{found.limits.file} or more", "the image’s limit on files; 0 stands for 2147483647"),
        ("attr_max", f"{found.limits.attribute} or more", "the image’s limit on attributes; 0 stands for 1022"),
        ("cache_size", cache, f"{why}: with a smaller cache a device changes no part of it in place, and still reads and rewrites it"),
        ("disk version", found.version, "what littlefs on the device has to read"),
    ]
    cells = [[Cell(tag("code", name)), Cell(value), Cell(reason)] for name, value, reason in rows]
    return section("What a device needs", table("Settings of lfs_config", ["Field", "Value", "Why"], cells))


def flash(survey: Survey) -> Markup:
    """The picture of the flash, and what it shows in words."""
    if not survey.count:
        return Markup("")
    sent = survey.against.sent if survey.against else []
    named = survey.named()
    free = [(extent.first, extent.last) for extent in survey.extents if extent.kind == "free"]
    longest = max(free, key=lambda run: run[1] - run[0], default=None)
    lines = [f"{summary(survey.extents, survey.count)}."]
    lines += [f"The longest run of free blocks: {span(*longest)}."] if longest else []
    lines += [f"Faults and notes name blocks {runs_told(runs(named))}."] if named else []
    return section("The flash", tag("p", " ".join(lines)), picture(survey.extents, survey.count, named, sent))


def above(path: str) -> str:
    """The directory that a path stands in."""
    return path.rsplit("/", 1)[0] or "/"


def bytes_below(rows: List[Row]) -> Dict[str, int]:
    """How many bytes each file has, and the files below each directory."""
    found = {row.path: row.size or 0 for row in rows}
    for row in reversed(rows):
        if row.path != "/":
            found[above(row.path)] += found[row.path]
    return found


def places(extents: List[Extent]) -> Dict[str, List[Tuple[int, int]]]:
    """The runs of blocks that paths have by themselves."""
    found: Dict[str, List[Tuple[int, int]]] = {}
    for extent in extents:
        if extent.path is not None:
            found.setdefault(extent.path, []).append((extent.first, extent.last))
    return found


def tree(survey: Survey) -> Markup:
    """The tree with what each path costs."""
    sizes, at = bytes_below(survey.rows), places(survey.extents)
    rows = []
    for place, row in enumerate(survey.rows):
        held = at.get(row.path, [])
        own = sum(last + 1 - first for first, last in held)
        where = f"blocks {runs_told(held)}" if held else "its entry"
        rows.append([
            Cell(code(row.path), place), Cell("directory" if row.is_directory else "file"), number_cell(sizes[row.path]),
            number_cell(survey.costs.get(row.path, 0)), number_cell(own), Cell(where, held[0][0] if held else -1),
            Cell(attributes_told(row), len(row.attributes)),
        ])
    columns = ["Path", "Kind", "Bytes", "Blocks", "Own blocks", "Stands in", "Attributes"]
    said = "Bytes and blocks of a directory are those of all below it too; its own blocks are its metadata pairs"
    return section("The tree", table(said, columns, rows, numbers=columns[2:5], is_sortable=True))


def change_told(difference: Difference) -> List[Cell]:
    """The cells of a difference."""
    row, limits = difference.row, difference.limits
    if limits:
        said = f"now: names {limits.name}, files {limits.file}, attributes {limits.attribute} bytes"
        return [Cell("limits changed"), Cell(code(row.path)), Cell(""), Cell(""), Cell(said)]
    kind = "directory" if row.is_directory else "file"
    return [Cell(WORDS[difference.mark]), Cell(code(row.path)), Cell(kind), number_cell(row.size), Cell(attributes_told(row))]


CHANGED = ["What", "Path", "Kind", "Bytes", "Attributes"]


def history(survey: Survey) -> Markup:
    """The changes that the journal keeps."""
    if survey.journal_fault:
        return section("History", told(survey.journal_fault, "The journal is refused"))
    if not survey.changes:
        return section("History", tag("p", "No journal with changes stands beside the image."))
    rows = []
    for change in survey.changes:
        front = [Cell(change.number, change.number), Cell("done" if change.is_done else "taken back")]
        rows += [[*front, *change_told(each)] for each in change.differences] or [[*front, Cell("nothing"), *[Cell("")] * 4]]
    said = f"{counted(len(survey.changes), 'change')} of the journal, the earliest first"
    return section("History", table(said, ["Change", "State", *CHANGED], rows, numbers=["Bytes"]))


def since(survey: Survey) -> Markup:
    """What changed since an older image, and what an update sends."""
    found = survey.against
    if not found:
        return Markup("")
    share = f"{counted(len(found.sent), 'block')} of {number(survey.count)}, {counted(len(found.sent) * survey.block, 'byte')}"
    where = f": blocks {runs_told(runs(found.sent))}" if found.sent else ""
    parts: List[Part] = [tag("p", f"An update that sends the blocks whose bytes differ sends {share}{where}.")]
    if found.fault:
        parts.append(told(found.fault, "The trees aren’t compared"))
    elif found.differences is None:
        parts.append(tag("p", "The trees aren’t compared, since the image doesn’t mount."))
    elif not found.differences:
        parts.append(tag("p", "Both hold the same tree, attributes and limits."))
    else:
        # What changed heads a row by its number.
        rows = [[Cell(at, at), *change_told(each)] for at, each in enumerate(found.differences, 1)]
        said = f"{counted(len(rows), 'row')} changed; a directory or a file with other attributes is removed and added"
        parts.append(table(said, ["Row", *CHANGED], rows, numbers=["Bytes"]))
    return section(f"Since {os.path.basename(found.name)}", *parts)


def salvaged(survey: Survey) -> Markup:
    """What can be saved of an image that doesn't mount."""
    found = survey.saved
    if not found:
        return Markup("")
    rows = [[Cell(code(path), at), Cell(number(size), size)] for at, (path, size) in enumerate(found.files)]
    said = f"salvage saves {counted(len(rows), 'file')}, {counted(sum(size for _, size in found.files), 'byte')}"
    parts = [table(said, ["Path", "Bytes"], rows, numbers=["Bytes"], is_sortable=True)] if rows else [tag("p", "salvage saves no file.")]
    return section("What can be saved", *parts, listed(found.lines) if found.lines else Markup(""))


def report(survey: Survey, version: str) -> bytes:
    """The page of an image."""
    name = os.path.basename(survey.name)
    parts: List[Part] = [tag("h1", name), verdict(survey), facts(survey)]
    parts += [device(survey.summary)] if survey.summary else []
    parts += [flash(survey), salvaged(survey), since(survey)]
    parts += [tree(survey)] if survey.summary else []
    return page(f"{name}: lfsed", tag("main", *parts, history(survey)), tag("footer", tag("p", f"Made by lfsed {version}.")))
