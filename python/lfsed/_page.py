"""Pages of HTML that need nothing from outside, and in which every text is a text: markup is made by `tag` alone."""
from __future__ import annotations

import base64
import hashlib
import html
from dataclasses import dataclass
from typing import Iterable, List, Optional, Union

STYLE = """
:root { color-scheme: light dark; --page: #fff; --ink: #1b1f24; --dim: #57606a; --line: #d0d7de; --directory: #2f6fb7; --file: #e0a33a;
  --free: #e3e7eb; --unknown: #9aa3ad; --fault: #c4262e; --link: #0a58ca }
@media (prefers-color-scheme: dark) {
  :root { --page: #14171b; --ink: #eceff2; --dim: #9aa3ad; --line: #353c44; --directory: #3f7fd0; --file: #b07c1c; --free: #2b3138;
    --unknown: #6b7480; --fault: #ff6b66; --link: #7db3ff }
}
* { box-sizing: border-box }
body { margin: 0 auto; padding: 1rem; max-width: 72rem; background: var(--page); color: var(--ink); font: 1rem/1.45 system-ui, sans-serif }
h1, h2 { line-height: 1.2; overflow-wrap: anywhere }
h1 { margin: 0 0 .5rem; font-size: 1.6rem }
h2 { margin: 2rem 0 .5rem; font-size: 1.2rem }
p, ul, li { overflow-wrap: anywhere }
.dim, footer { color: var(--dim) }
.bad { border-left: .4rem solid var(--fault); padding: .1rem .8rem }
code { font: .9em/1.4 ui-monospace, monospace; unicode-bidi: isolate; overflow-wrap: anywhere }
.wide { overflow-x: auto; max-width: 100% }
.wide:focus-visible, button:focus-visible { outline: .15rem solid var(--link); outline-offset: .1rem }
table { min-width: min(100%, 22rem); border-collapse: collapse; font-variant-numeric: tabular-nums }
caption { text-align: left; color: var(--dim); padding-bottom: .3rem }
th, td { border-bottom: 1px solid var(--line); padding: .25rem .75rem .25rem 0; text-align: left; vertical-align: top; font-weight: normal }
thead th { font-weight: 600; white-space: nowrap; vertical-align: bottom }
td code, th code { display: inline-block; min-width: 7rem; max-width: 42rem }
.number { text-align: right }
button { font: inherit; color: inherit; background: none; border: 0; padding: 0; cursor: pointer; text-decoration: underline dotted }
th[aria-sort="ascending"] button::after { content: " \\25b2" }
th[aria-sort="descending"] button::after { content: " \\25bc" }
svg { display: block }
.flash { width: 100%; max-width: 48rem; height: auto }
.bar { width: 100%; max-width: 48rem; height: .8rem; margin-top: .8rem }
.swatch { display: inline-block; width: 1em; height: 1em; vertical-align: -.12em; margin-right: .4em }
.legend { list-style: none; margin: .5rem 0; padding: 0; display: flex; flex-wrap: wrap; gap: .2rem 1.2rem }
.directory { fill: var(--directory) } .file { fill: var(--file) } .free, .erased { fill: var(--free) } .unknown { fill: var(--unknown) }
.cells path { stroke: var(--page); stroke-width: .12 } .cells path:hover { stroke: var(--ink) }
.grid { fill: none; stroke: var(--page); stroke-width: .06; pointer-events: none }
.sent { fill: var(--ink) }
.named { fill: var(--page); stroke: var(--fault); stroke-width: .22 }
.ring { fill: none; stroke: var(--fault); stroke-width: 1; pointer-events: none }
"""

# Sorts a table by the column whose button is pressed, by its other direction if it is sorted by that.
SCRIPT = """
"use strict";
const keyOf = (row, at) => {
  const key = row.cells[at].dataset.key;
  return key === undefined ? row.cells[at].textContent : Number(key);
};
for (const button of document.querySelectorAll("th button")) {
  button.addEventListener("click", () => {
    const head = button.closest("th"), at = head.cellIndex, body = head.closest("table").tBodies[0];
    const sign = head.getAttribute("aria-sort") === "ascending" ? -1 : 1;
    for (const other of head.parentNode.cells) other.removeAttribute("aria-sort");
    head.setAttribute("aria-sort", sign === 1 ? "ascending" : "descending");
    const rows = Array.from(body.rows, row => [keyOf(row, at), row]);
    rows.sort(([one], [other]) => one < other ? -sign : one > other ? sign : 0);
    for (const [, row] of rows) body.appendChild(row);
  });
}
"""

VOID = ("meta",)


class Markup(str):
    """A text that is markup already."""


# What stands in an element: a text, which is escaped, or markup.
Part = Union[str, int]


def shown(text: str) -> str:
    """A text in which each character that isn't printed, or that changes how others are, stands as its bytes in digits."""
    return "".join(each if each.isprintable() else spelled_bytes(each) for each in text)


def spelled_bytes(text: str) -> str:
    """The bytes of a text in digits."""
    return "".join(f"\\x{byte:02x}" for byte in text.encode("utf-8", "surrogateescape"))


def path_shown(path: str) -> str:
    """A path as it is shown: a backslash stands as its byte too, so that no two paths look alike by their bytes in digits."""
    return shown(path.replace("\\", "\\x5c"))


def escaped(part: Part) -> Markup:
    """What stands in an element for a text, which is itself if it is markup."""
    return part if isinstance(part, Markup) else Markup(html.escape(shown(str(part))))


def join(parts: Iterable[Part]) -> Markup:
    """Parts after each other."""
    return Markup("".join(map(escaped, parts)))


def tag(name: str, /, *parts: Part, **attributes: Union[None, Part]) -> Markup:
    """An element. In the names of attributes a _ stands for a hyphen, and the last one is left out; None leaves an attribute out."""
    said = "".join(
        f' {key.rstrip("_").replace("_", "-")}="{escaped(value)}"' for key, value in attributes.items() if value is not None)
    return Markup(f"<{name}{said}>" if name in VOID else f"<{name}{said}>{join(parts)}</{name}>")


def code(path: str) -> Markup:
    """A path of an image."""
    return tag("code", path_shown(path))


def listed(lines: Iterable[Part], class_: Optional[str] = None) -> Markup:
    """A list."""
    return tag("ul", *(tag("li", line) for line in lines), class_=class_)


@dataclass(frozen=True)
class Cell:
    """A cell of a table: what it shows, and the number that it is sorted by, if that isn't its text."""

    part: Part
    key: Optional[int] = None


def head(name: str, is_number: bool, is_sortable: bool, is_first: bool) -> Markup:
    """The head of a column. The first one of a table that can be sorted tells its order, in which the rows stand."""
    held = tag("button", name, type="button") if is_sortable else name
    return tag("th", held, scope="col", class_="number" if is_number else None, aria_sort="ascending" if is_sortable and is_first else None)


def table(caption: str, columns: List[str], rows: List[List[Cell]], *, numbers: Iterable[str] = (), is_sortable: bool = False) -> Markup:
    """A table. The first cell of a row is its head; columns of numbers stand at the right."""
    right = {*numbers}
    classes = ["number" if name in right else None for name in columns]
    heads = [head(name, name in right, is_sortable, not at) for at, name in enumerate(columns)]
    lines = [
        tag("tr", *(
            tag("td" if at else "th", cell.part, scope=None if at else "row", class_=class_, data_key=cell.key)
            for at, (cell, class_) in enumerate(zip(row, classes))))
        for row in rows
    ]
    held = tag("table", tag("caption", caption), tag("thead", tag("tr", *heads)), tag("tbody", Markup("\n"), Markup("\n".join(lines))))
    return tag("div", held, class_="wide", role="region", aria_label=caption, tabindex=0)


def section(title: str, *parts: Part) -> Markup:
    """A section with its heading."""
    return tag("section", tag("h2", title), *parts)


def digest(text: str) -> str:
    """What a policy says of a style or a script."""
    return f"'sha256-{base64.b64encode(hashlib.sha256(text.encode()).digest()).decode()}'"


def policy() -> str:
    """What the page may do: it has its style and its script, and nothing else."""
    return f"default-src 'none'; style-src {digest(STYLE)}; script-src {digest(SCRIPT)}; base-uri 'none'; form-action 'none'"


def page(title: str, *parts: Part) -> bytes:
    """A page."""
    front = [
        tag("meta", charset="utf-8"), tag("meta", http_equiv="Content-Security-Policy", content=policy()),
        tag("meta", name="viewport", content="width=device-width, initial-scale=1"), tag("title", title), tag("style", Markup(STYLE)),
    ]
    held = tag("body", *(Markup(f"\n{escaped(part)}") for part in parts), Markup("\n"), tag("script", Markup(SCRIPT)))
    return f'<!DOCTYPE html>\n{tag("html", tag("head", *front), Markup(chr(10)), held, lang="en")}\n'.encode("utf-8")
