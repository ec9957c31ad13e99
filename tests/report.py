#!/usr/bin/env python3
"""Reports of images, as the module for Python writes them: of used ones, of one with hostile names, of damaged ones and of one that a
device wrote. Python's parser reads each page; its rows are compared with a tree that is known, and its picture with what a reader apart
from the program finds. If Chromium is there it shows pages, sorts their tables, and says whether they are too wide."""
import hashlib
import html
import json
import lzma
import os
import pathlib
import re
import shutil
import subprocess
import sys
import tempfile

from blocks import rows_of
from support.counts import Counts
from support.folder import HOME, PROGRAM
from support.littlefs import Reader
from support.pages import Page, cells, digest, is_plain

sys.path.insert(0, str(HOME / "python"))
os.environ["LFSED"] = str(PROGRAM)
sys.dont_write_bytecode = True

import lfsed  # noqa: E402
from lfsed._page import tag  # noqa: E402
from lfsed._picture import picture  # noqa: E402
from lfsed._survey import Extent, blocks_named, runs  # noqa: E402

SIZE, COUNT = 512, 64
TREE = {"/config": b"wifi=on", "/empty": b"", "/logs/boot": bytes(range(200)) * 7, "/logs/old/one": b"x" * 600, "/zero": bytes(64)}
DIRECTORIES = ["/", "/logs", "/logs/old"]
# Names that would be markup, or change how others are shown, and how they are shown.
HOSTILE = {
    "<img src=x onerror=alert(1)>": "<img src=x onerror=alert(1)>", "\"&'": "\"&'", "</script><script>alert(2)<": None,
    "]]>--><svg onload=alert(3)>": None, "&lt;b&gt;": "&lt;b&gt;", "a\u202eb": "a\\xe2\\x80\\xaeb", "\x1b[2J\n": "\\x1b[2J\\x0a",
    "\udcff": "\\xff", "a\\xff": "a\\x5cxff", "block 5 and blocks 6": "block 5 and blocks 6", "日本": "日本",
}
CHROMIUM = next(filter(None, map(shutil.which, ("chromium", "chromium-browser"))), None)
WIDTHS = 360, 1_100
ENVIRONMENT = dict(os.environ, PYTHONPATH=str(HOME / "python"), PYTHONDONTWRITEBYTECODE="1")


def run(*words):
    """Runs the module; answers its status, what it told, and what it printed."""
    ended = subprocess.run([sys.executable, "-m", "lfsed", *words], env=ENVIRONMENT, capture_output=True, check=False)
    return ended.returncode, ended.stderr.decode(), ended.stdout


def reported(counts, what, *words, status=0, told=""):
    """The page of a report, which is plain; compares the status and what was told."""
    ended = run("report", *words)
    counts.check(f"{what}: status", ended[:2] == (status, told), ended[:2])
    pathlib.Path(f"{what}.html").write_bytes(ended[2])
    page = Page(ended[2].decode("utf-8"))
    is_plain(counts, what, page)
    return page


def told_by_program(*words):
    """What the program tells of the same."""
    return subprocess.run([PROGRAM, *words], capture_output=True, check=False).stderr.decode()


def packed(name, tree=None, **more):
    """An image of a tree."""
    with tempfile.TemporaryDirectory() as folder:
        for path, held in (TREE if tree is None else tree).items():
            file = pathlib.Path(folder + path)
            file.parent.mkdir(parents=True, exist_ok=True)
            file.write_bytes(held)
        return lfsed.pack(name, folder, block=SIZE, count=COUNT, **more)


def is_drawn(counts, what, page, reader):
    """The picture is what a reader apart from the program finds: each block of each path, and the free ones."""
    count, held = len(reader.image) // reader.size, {}
    for path, is_directory, blocks in rows_of(reader):
        held.update({block: ("directory" if is_directory else "file", path.decode()) for block in blocks})
    for kind in "directory", "file":
        found = {block: title.split(f": {kind} ")[1] for block, title in page.drawn(kind).items()}
        wanted = {block: path for block, (of, path) in held.items() if of == kind}
        counts.check(f"{what}: blocks of kind {kind}", found == wanted, (found, wanted))
    counts.check(f"{what}: free blocks", {*page.drawn("free")} == {*range(count)} - {*held})
    many = [sum(of == kind for of, _ in held.values()) for kind in ("directory", "file")]
    wanted = f"The flash: {count} blocks: {many[0]} of directories (metadata pairs), {many[1]} of files, {count - sum(many)} free"
    counts.check(f"{what}: the picture in words", page.flash().attributes["aria-label"] == wanted, page.flash().attributes["aria-label"])


def is_listed(counts, what, page, reader):
    """The rows of the tree: sizes and blocks with all below, blocks by themselves, and where they stand."""
    rows = [(path.decode(), is_directory, blocks) for path, is_directory, blocks in rows_of(reader)]
    wanted = []
    for path, is_directory, blocks in rows:
        below = [other for other, _, _ in rows if other == path or path == "/" or other.startswith(f"{path}/")]
        size = sum(len(TREE.get(other, b"")) for other in below)
        many = sum(len(held) for other, _, held in rows if other in below)
        spans = [f"{first} to {last}" if first < last else str(first) for first, last in runs(blocks)]
        wanted.append([
            path, "directory" if is_directory else "file", f"{size:,}", str(many), str(len(blocks)),
            f"blocks {', '.join(spans)}" if blocks else "its entry", "74: 6c61746572 “later” (5 bytes)" if path == "/config" else ""])
    found = page.rows("The tree")
    counts.check(f"{what}: rows", found == wanted, [pair for pair in zip(found, wanted) if pair[0] != pair[1]])
    counts.check(f"{what}: paths", sorted(row[0] for row in wanted) == sorted([*TREE, *DIRECTORIES]))


def plain(counts):
    """An image with all kinds of things, without and with a history."""
    image = packed("plain.img", name_max=40)
    image.set_attribute("/config", 0x74, b"later")
    image.forget()
    page, held = reported(counts, "plain", "plain.img"), pathlib.Path("plain.img").read_bytes()
    reader = Reader(held, SIZE)
    is_drawn(counts, "plain", page, reader)
    is_listed(counts, "plain", page, reader)
    used = COUNT - reader.free()
    wanted = [
        ["File", "plain.img, 32,768 bytes"], ["SHA-256", hashlib.sha256(held).hexdigest()], ["Blocks", "64 of 512 bytes"],
        ["Full", f"{100 * used / COUNT:.1f} %: {used} of 64 blocks; {SIZE * reader.free():,} bytes are free"],
        ["Holds", "3 directories, 5 files"], ["Disk version", "2.0"], ["Limit on names", "40 bytes"],
        ["Limit on files", "2,147,483,647 bytes"], ["Limit on attributes", "1,022 bytes"],
    ]
    counts.check("plain: summary", page.rows("Summary") == wanted, page.rows("Summary"))
    settings = dict(row[:2] for row in page.rows("What a device needs"))
    needed = {
        "block_size": "512", "block_count": "64", "name_max": "40 or more", "file_max": "2147483647 or more", "attr_max": "1022 or more",
        "cache_size": "64 or more", "disk version": "2.0",
    }
    counts.check("plain: settings", settings == needed, settings)
    counts.check("plain: no history", "No journal" in page.section("History").text() and page.section("Since plain.img") is None)
    sorted_by = [each.attributes.get("aria-sort") for each in page.section("The tree").all("thead")[0].all("th")]
    counts.check("plain: sorted by path", sorted_by == ["ascending"] + [None] * 6, sorted_by)
    counts.check("plain: the same again", run("report", "plain.img", "-b", "512")[2].decode() == page.held)


def history(counts):
    """An image with a journal, beside an older one; what changed, and which blocks."""
    image = packed("new.img")
    shutil.copy("new.img", "old.img")
    image.write("/config", b"wifi=off")
    image.write("/new/file", bytes(1_500), parents=True)
    image.mkdir("/gone")
    image.undo()
    page = reported(counts, "history", "new.img", "--other", "old.img", "-b", "auto")
    wanted = [
        ["1", "done", "contents changed", "/config", "file", "8", ""], ["2", "done", "added", "/new", "directory", "", ""],
        ["2", "done", "added", "/new/file", "file", "1,500", ""], ["3", "taken back", "added", "/gone", "directory", "", ""],
    ]
    found = [[row[0], row[1], *row[2:]] for row in page.rows("History")]
    counts.check("history: rows", found == wanted, found)
    found = [row[1:] for row in page.rows("Since old.img")]
    counts.check("history: since", found == [row[2:] for row in wanted[:3]], found)
    new, old = (pathlib.Path(name).read_bytes() for name in ("new.img", "old.img"))
    sent = {at for at in range(COUNT) if new[at * SIZE:(at + 1) * SIZE] != old[at * SIZE:(at + 1) * SIZE]}
    counts.check("history: sent", {*page.drawn("sent")} == sent and len(sent) > 3, (page.drawn("sent"), sent))
    said = f"sends {len(sent)} blocks of 64, {len(sent) * SIZE:,} bytes"
    counts.check("history: sent in words", said in page.section("Since old.img").text(), page.section("Since old.img").text())
    is_drawn(counts, "history", page, Reader(new, SIZE))
    page = reported(counts, "same", "old.img", "--other", "old.img")
    counts.check("same", "sends 0 blocks of 64, 0 bytes." in page.section("Since old.img").text() and not page.drawn("sent"))
    shutil.copy("old.img", "new.img")
    told = told_by_program("log", "-b", "512", "new.img")
    page = reported(counts, "other journal", "new.img", status=3, told=told)
    counts.check("other journal: is told", "The journal is refused: 51 " in page.section("History").text(), page.section("History").text())


def hostile(counts):
    """Names, values and a name of a file that would be markup are texts."""
    tree = {f"/{name}": b"" for name in HOSTILE if "/" not in name}
    name = "<b onclick=alert(4)>&.img"
    image = lfsed.format(name, block=SIZE, count=COUNT)
    with image.batch() as batch:
        for path in tree:
            batch.write(path, b"")
        batch.mkdir("/<")
        batch.write("/</script><script>alert(2)<", b"</script>")
        batch.set_attribute("/\"&'", 1, b"<script>alert(5)</script>")
        batch.set_attribute("/\"&'", 2, b"\x00\"'>")
    shutil.copy(name, "<i>\x1bold")
    image.remove("/\"&'")
    lfsed.Image("<i>\x1bold", SIZE).remove("/日本")
    page = reported(counts, "hostile", name, "--other", "<i>\x1bold")
    wanted = {"/" + (as_shown or of) for of, as_shown in HOSTILE.items() if of != "\"&'"} | {"/", "/<", "/</script>"[:2]}
    found = {row[0] for row in page.rows("The tree")}
    counts.check("hostile: paths", found == wanted | {"/</script><script>alert(2)<"}, found ^ wanted)
    counts.check("hostile: title", page.all("h1")[0].text() == name and page.all("title")[0].text().startswith(name))
    removed = [row for row in page.rows("Since <i>\\x1bold") if row[1:3] == ["removed", "/\"&'"]]
    values = "01: 3c7363726970743e616c6572742835293c2f7363726970743e “<script>alert(5)</script>” (25 bytes)02: 0022273e (4 bytes)"
    counts.check("hostile: values", [row[-1] for row in removed] == [values], removed)
    made = tag("p", "<\x07", x="\"'<>&")
    counts.check("hostile: an attribute", made == "<p x=\"&quot;&#x27;&lt;&gt;&amp;\">&lt;\\x07</p>", made)
    damage(name, SIZE)
    page = reported(counts, "hostile and damaged", name, status=3, told=told_by_program("check", "-b", "512", name))
    counts.check("hostile and damaged: lines", name in page.all("li")[0].text(), page.all("li")[0].text())
    said = ["a: /block 5 and x: block 43 names block 44 and not 42", "a: blocks 0, 1 and 10 changed", "a: its first block states 64 blocks"]
    counts.check("blocks of lines", blocks_named(said, "a", 44) == [0, 1, 10, 43], blocks_named(said, "a", 44))


def damage(name, size):
    """Zeroes the last pair of an image that has more than one, or else the first one; answers its blocks."""
    held = bytearray(pathlib.Path(name).read_bytes())
    pair = Reader(bytes(held), size).thread()[-1]
    for block in pair:
        held[block * size:(block + 1) * size] = bytes(size)
    pathlib.Path(name).write_bytes(held)
    return {*pair}


def damaged(counts):
    """An image that doesn't mount: its fault, marked in the picture, and what can be saved; and one that is read in an older state."""
    packed("bad.img")
    shutil.copy("bad.img", "whole.img")
    pair = damage("bad.img", SIZE)
    told = told_by_program("check", "-b", "512", "bad.img")
    page = reported(counts, "damaged", "bad.img", "--other", "whole.img", status=3, told=told)
    counts.check("damaged: marked", {*page.drawn("named")} == pair, (page.drawn("named"), pair))
    counts.check("damaged: sent", {*page.drawn("sent")} == pair, page.drawn("sent"))
    held = pathlib.Path("bad.img").read_bytes()
    erased = {at for at in range(COUNT) if not held[at * SIZE:(at + 1) * SIZE].strip(b"\xff")}
    counts.check("damaged: erased", {*page.drawn("erased")} == erased and {*page.drawn("unknown")} == {*range(COUNT)} - erased)
    is_shown = told.splitlines()[1].removeprefix("lfsed: ") in [each.text() for each in page.all("li")]
    counts.check("damaged: fault", "Doesn’t mount: 3 NoValidCommit" in page.all("main")[0].text() and is_shown)
    saved = {path: size for path, size in page.rows("What can be saved")}
    is_kept = all(saved.get(path) == f"{len(TREE[path]):,}" for path in TREE if not path.startswith("/logs/old"))
    counts.check("damaged: saved", is_kept and page.section("The tree") is None, saved)
    told = told_by_program("diff", "-b", "auto", "bad.img", "whole.img")
    page = reported(counts, "of a damaged one", "whole.img", "--other", "bad.img", status=3, told=told)
    counts.check("of a damaged one: told", "aren’t compared: 3 NoValidCommit" in page.section("Since bad.img").text())
    lfsed.Image("whole.img", SIZE).write("/config", b"wifi=never")
    older = pathlib.Path("whole.img").read_bytes()
    at = older.rindex(b"wifi=never")
    pathlib.Path("older.img").write_bytes(older[:at] + b"W" + older[at + 1:])
    page = reported(counts, "older", "older.img")
    counts.check("older: a note", "an older state is read" in page.all("li")[0].text(), page.all("li")[0].text())
    counts.check("older: marked", {*page.drawn("named")} == {0, 1}, page.drawn("named"))


def of_a_device(counts):
    """An image of disk version 2.1, which is read as a device reads it, and else refused."""
    pathlib.Path("used.img").write_bytes(lzma.decompress((HOME / "tests/images/used-512.img.xz").read_bytes()))
    page = reported(counts, "device", "used.img", "--device", "--other", "used.img")
    counts.check("device: version", ["Disk version", "2.1"] in page.rows("Summary"), page.rows("Summary"))
    many = json.loads(subprocess.run([PROGRAM, "check", "--json", "--device", "-b", "512", "used.img"], capture_output=True).stdout)
    counts.check("device: rows", len(page.rows("The tree")) == many["directories"] + many["files"], many)
    page = reported(counts, "refused", "used.img", status=3, told=told_by_program("check", "-b", "512", "used.img"))
    counts.check("refused: helps", "--device" in page.all("main")[0].text())


def pictures(counts):
    """Pictures of 16 to 65,536 blocks: each block once, and never too many bytes."""
    for count in 16, 17, 300, 1_000, 4_097, 65_536:
        extents = [Extent("directory", "/", 0, 1)]
        while (first := extents[-1].last + 1) < count:
            many = 1 + first * 7 % 23 if count < 65_536 else 1
            kind = ("file", "directory", "free")[first % 3]
            extents.append(Extent(kind, None if kind == "free" else f"/{first}" * 9, first, min(first + many, count) - 1))
        sent, named = range(0, count, 2), [3, count - 1]
        drawn = str(picture(extents, count, named, sent))
        page = Page(drawn)
        columns, paths = page.columns(), page.flash().all("path")
        held = {kind: {block for extent in extents if extent.kind == kind for block in range(extent.first, extent.last + 1)}
                for kind in ("directory", "file", "free")}
        for kind, blocks in held.items():
            outlines = [each.attributes["d"] for each in paths if each.attributes["class"] == kind]
            found = [cell for outline in outlines for cell in cells(outline, columns)]
            counts.check(f"{count} blocks: {kind}", {*found} == blocks and len(found) == len(blocks), (len(found), len(blocks)))
        counts.check(f"{count} blocks: sent", {*page.drawn("sent")} == {*sent})
        counts.check(f"{count} blocks: named", {*page.drawn("named")} == {*named}, page.drawn("named"))
        counts.check(f"{count} blocks: bytes", len(drawn) < 4_000_000, len(drawn))


def command_line(counts):
    """What the command line takes and refuses; nothing that is read is written over."""
    for words in ["--help"], ["report", "--help"]:
        ended = run(*words)
        counts.check(" ".join(words), ended[:2] == (0, "") and b"report" in ended[2], ended)
    counts.check("no command", run()[0] == 2)
    packed("line.img").mkdir("/a")
    for name in "line.img", "line.img.lfsj":
        before = pathlib.Path(name).read_bytes()
        ended = run("report", "line.img", "-o", name)
        counts.check(f"into {name}", ended == (2, f"lfsed: {name}: is an image that is read, or its journal\n", b""), ended)
        counts.check(f"into {name}: is kept", pathlib.Path(name).read_bytes() == before)
    os.link("line.img", "other name")
    lfsed.format("bare.img", block=SIZE, count=16)
    pathlib.Path("bare.img.lfsj").unlink()
    for name, *words in ["other name", "line.img"], ["bare.img.lfsj", "bare.img"], ["./line.img", "bare.img", "--other", "line.img"]:
        words += ["-o", name]
        ended = run("report", *words)
        counts.check(" ".join(words), ended == (2, f"lfsed: {words[-1]}: is an image that is read, or its journal\n", b""), ended)
    counts.check("no journal is made", not pathlib.Path("bare.img.lfsj").exists())
    ended = run("report", "line.img", "-o", "line.html")
    counts.check("into a file", ended == (0, "", b"") and pathlib.Path("line.html").read_bytes() == run("report", "line.img")[2], ended)
    for words in ["none.img"], ["line.img", "--other", "none.img"]:
        ended = run("report", *words)
        counts.check(" ".join(words), ended[0] == 4 and "none.img: No such file" in ended[1] and not ended[2], ended)
    ended = run("report", "line.img", "-o", "none/line.html")
    counts.check("into no folder", ended == (4, "lfsed: none/line.html: No such file or directory\n", b""), ended)
    with open("/dev/full", "wb") as full:
        command = [sys.executable, "-m", "lfsed", "report", "line.img"]
        ended = subprocess.run(command, stdout=full, stderr=subprocess.PIPE, env=ENVIRONMENT, check=False)
        wanted = 4, b"lfsed: standard output: No space left on device\n"
        counts.check("into a full device", (ended.returncode, ended.stderr) == wanted, ended)
    ended = run("report", "line.img", "--block", "many")
    counts.check("no size", ended[0] == 2 and "invalid value 'many'" in ended[1] and not ended[2], ended)
    wanted = 3, told_by_program("check", "-b", "300", "line.img"), b""
    counts.check("no such size", run("report", "line.img", "--block", "300") == wanted)
    pathlib.Path("short.img").write_bytes(b"")
    counts.check("an empty file", run("report", "short.img")[0] == 3)


# What is done in a page that is shown: each column of its last table that can be sorted is sorted both ways.
DRIVER = """
"use strict";
const refused = [];
document.addEventListener("securitypolicyviolation", event => refused.push(event.violatedDirective));
window.addEventListener("load", () => {
  const tables = Array.from(document.querySelectorAll("table")).filter(table => table.querySelector("button"));
  const table = tables[tables.length - 1], sorted = [];
  for (const button of table ? table.querySelectorAll("button") : [])
    for (let turn = 0; turn < 2; turn += 1) {
      button.focus();
      button.click();
      const rows = Array.from(table.tBodies[0].rows, row => row.cells[button.closest("th").cellIndex].textContent);
      sorted.push([button.textContent, button.closest("th").getAttribute("aria-sort"), rows]);
    }
  parent.postMessage({
    width: innerWidth, wide: document.documentElement.scrollWidth, sorted, refused, styled: getComputedStyle(document.body).maxWidth,
    title: document.title, scripts: document.scripts.length,
  }, "*");
});
"""
FRAMES = """<!DOCTYPE html><title>frames</title><body><pre></pre><script>
const found = {};
addEventListener("message", event => {
  const at = Array.from(document.querySelectorAll("iframe")).findIndex(frame => frame.contentWindow === event.source);
  found[at] = event.data;
  document.querySelector("pre").textContent = JSON.stringify(found);
});
</script>%s"""


def shows(*words):
    """What Chromium prints and tells of a page."""
    with tempfile.TemporaryDirectory() as room:
        command = [
            CHROMIUM, "--headless", "--no-sandbox", "--disable-gpu", "--disable-dev-shm-usage", "--no-first-run", f"--user-data-dir={room}",
            "--enable-logging=stderr", "--virtual-time-budget=20000", *words]
        return subprocess.run(command, capture_output=True, timeout=120, check=False)


def driven(name):
    """A page with the driver in front, which its policy then allows too."""
    held = pathlib.Path(f"{name}.html").read_text()
    held = re.sub("script-src ('|&#x27;)", lambda found: f"script-src {digest(DRIVER)} {found[1]}", held, count=1)
    return held.replace("<title>", f"<script>{DRIVER}</script><title>", 1)


def in_order(paths, column, order, rows):
    """Whether rows have an order: of numbers, of kinds, or of paths as the page lists them; others are numbers that no row shows."""
    if column not in ("Bytes", "Blocks", "Own blocks", "Kind", "Path"):
        return True
    keys = rows if column == "Kind" else [paths.index(row) if column == "Path" else int(row.replace(",", "")) for row in rows]
    return keys == sorted(keys, reverse=order == "descending")


def browser(counts):
    """Chromium shows pages without an error, sorts them, and none is wider than its window."""
    if not CHROMIUM:
        print("not shown, since chromium isn't there")
        return
    names = "plain", "history", "hostile", "damaged"
    frames = [(name, width) for name in names for width in WIDTHS]
    held = "".join(f'<iframe width="{width}" height="800" srcdoc="{html.escape(driven(name))}"></iframe>' for name, width in frames)
    pathlib.Path("frames.html").write_text(FRAMES % held)
    shown = shows("--dump-dom", pathlib.Path("frames.html").resolve().as_uri())
    printed = re.search(r"<pre>(.*?)</pre>", shown.stdout.decode(), re.DOTALL)
    found = json.loads(html.unescape(printed[1]) or "{}") if printed else {}
    counts.check("chromium: all frames", len(found) == len(frames), (len(found), shown.stderr[-500:]))
    for at, (name, width) in enumerate(frames):
        said, what = found.get(str(at)), f"chromium: {name}, {width} wide"
        if not said:
            continue
        inner = said["width"]
        counts.check(f"{what}: no wider", inner - 20 <= said["wide"] <= inner <= width + 4, (said["wide"], inner))
        is_right = (said["styled"], said["refused"], said["scripts"]) == ("1152px", [], 2)
        counts.check(f"{what}: styled, and nothing is refused", is_right, said)
        page = Page(pathlib.Path(f"{name}.html").read_text())
        paths = [row[0] for row in page.rows("The tree" if page.section("The tree") else "What can be saved")]
        is_sorted = all(in_order(paths, *each) and len(each[2]) == len(paths) for each in said["sorted"])
        counts.check(f"{what}: sorts", len(said["sorted"]) >= 4 and is_sorted, said["sorted"])
        ways = [order for _, order, _ in said["sorted"]]
        wanted = ["descending", "ascending"] + ["ascending", "descending"] * (len(ways) // 2 - 1)
        counts.check(f"{what}: says its order", ways == wanted, ways)
    for name in names[1:3]:
        shown = shows("--dump-dom", pathlib.Path(f"{name}.html").resolve().as_uri())
        errors = [line for line in shown.stderr.decode(errors="replace").splitlines() if "CONSOLE" in line]
        counts.check(f"chromium: {name}: no error", shown.returncode == 0 and not errors and b"<h1>" in shown.stdout, errors)


def main():
    subprocess.run([HOME / "bin/lfsed", "--help"], stdout=subprocess.DEVNULL, check=True)
    counts = Counts()
    with tempfile.TemporaryDirectory() as room:
        os.chdir(room)
        for scene in plain, history, hostile, damaged, of_a_device, pictures, command_line, browser:
            scene(counts)
        os.chdir(HOME)
    return counts.end()


if __name__ == "__main__":
    sys.exit(main())
