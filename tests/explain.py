#!/usr/bin/env python3
"""Compares what the program explains of each fault with docs/FAULTS.md, and the faults of docs/FORMAT.md with both."""
import pathlib
import re
import subprocess
import sys

HOME = pathlib.Path(__file__).resolve().parent.parent


def table(name):
    """The rows of a document's tables that begin with a number: number, name, text."""
    rows = re.findall(r"^\| (\d+) \| (\w+) \| (.*) \|$", (HOME / name).read_text(), re.MULTILINE)
    return {int(number): (fault, text) for number, fault, text in rows}


def explained(*faults):
    """What the program prints for numbers and names, and its status."""
    ended = subprocess.run([HOME / "bin/lfsed", "explain", *faults], stdout=subprocess.PIPE, stderr=subprocess.PIPE, text=True)
    return ended.returncode, ended.stdout


def gist(text):
    """The first thing that a text says, without a stop behind it."""
    return re.split(r"[.;:] ", text)[0].removesuffix(".")


def together(faults, pages):
    """Explanations of several faults: what is asked for, and what is wanted."""
    number, name = next((number, name) for number, (name, _) in faults.items() if name == "NoSpace")
    page = pages[str(number)]
    yield [], (0, "".join(f"{number} {name}: {gist(text)}\n" for number, (name, text) in faults.items()))
    for same in [f"{number} {name}"], [str(number), name], [f"{number} {name.lower()}"], [str(number)] * 2, [name.upper()]:
        yield same, (0, page)
    yield ["1", "nospace", "65"], (0, "\n".join([pages["1"], page, pages["65"]]))
    yield [str(number), "1", name], (0, "\n".join([page, pages["1"], page]))
    for none in [f"{number} Exists"], [name, "Exist"], [f"{name} {number}"], [f"{number}  {name}"], [f"{number} "], ["1", ""]:
        yield none, (2, "")


def main():
    faults, ran, wrong = table("docs/FAULTS.md"), 0, 0
    pages = {}
    for number, (name, text) in faults.items():
        pages[str(number)] = pages[name] = f"{number} {name}\n{text}\n"
    others = ["", "0", "256", "-1", "IsRoot ", "Memor", "é"]
    for words, wanted in together(faults, pages):
        ran, is_wrong = ran + 1, explained(*words) != wanted
        wrong += is_wrong
        if is_wrong:
            print(f"{words}: wanted {wanted}, found {explained(*words)}")
    for fault in [*map(str, range(1, 256)), *(name for name, _ in faults.values()), *others]:
        wanted = (0, pages[fault]) if fault in pages else (2, "")
        ran, is_wrong = ran + 1, explained(fault) != wanted
        wrong += is_wrong
        if is_wrong:
            print(f"{fault}: wanted {wanted}, found {explained(fault)}")
    for number, (name, _) in table("docs/FORMAT.md").items():
        ran, is_wrong = ran + 1, faults.get(number, ("", ""))[0] != name
        wrong += is_wrong
        if is_wrong:
            print(f"docs/FORMAT.md: {number} {name}")
    print(f"{ran - wrong} passed, {wrong} failed")
    return 1 if wrong else 0


sys.exit(main())
