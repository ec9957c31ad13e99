#!/usr/bin/env python3
"""Compares the documents with the repository: each path that they name is there, each function of a crate with each clause that stands
behind it, each definition that is named with its file; what programs make of the sources is current; crates.txt, the crates and what
is listed of them agree and have one order; the kit that PROOFS.md names is the one at hand, or one with the same logic; the documents
together, and each of their sentences, aren't too long."""
import pathlib
import re
import subprocess
import sys

from support.counts import Counts

HOME = pathlib.Path(__file__).resolve().parent.parent
DOCUMENTS = sorted([*HOME.glob("*.md"), *HOME.glob("docs/*.md")])
# What makes files of the sources.
GENERATORS = "bin/contracts", "bin/map", "bin/pictures"
# How many words all documents may have, and one sentence outside tables and blocks.
MOST_WORDS, MOST_WORDS_OF_A_SENTENCE = 28_000, 40
# Folders below which a path that is named stands.
FOLDERS = "bench", "bin", "completions", "crates", "docs", "man", "python", "share", "tests"


class Crate:
    """What a crate has: its functions with their clauses, its types, and the definitions of its specifications."""

    def __init__(self, place):
        self.functions, self.types, self.definitions, self.fields = {}, set(), set(), set()
        for path in place.glob("src/**/*.rt"):
            self.read_code(path.read_text())
        for path in place.glob("specs/**/*.antt"):
            text = path.read_text()
            names = re.findall(r"^(?:abbrev |unfoldable )?pub (?:record |data )?(\w+)", text, re.MULTILINE)
            self.definitions |= {*names, path.name}
            self.fields |= {*re.findall(r"^  pub (\w+) :", text, re.MULTILINE)}

    def read_code(self, text):
        """Adds what a file of code has. A function ends where the next one begins."""
        self.types |= {*re.findall(r"^\s*pub (?:struct|enum|trait) (\w+)", text, re.MULTILINE)}
        parts = re.split(r"\bfn (\w+)", text)
        for name, rest in zip(parts[1::2], parts[2::2]):
            self.functions.setdefault(name, set()).update(re.findall(r"(?:ensures|requires) (\w+) \{", rest))

    def has(self, name):
        """Whether there is a function, a type or a definition of this name, or a type's function."""
        return all(part in self.functions or part in self.types | self.definitions for part in name.split("::"))


def crates():
    """The crates by their names."""
    return {place.name: Crate(place) for place in sorted((HOME / "crates").iterdir()) if (place / "src").is_dir()}


def check_paths(counts, document, text):
    """Each path that is named is there: from here on, from the document on, or from the crates on."""
    for path in re.findall(r"`((?:[\w.-]+/)+[\w.-]*)`|\]\(([\w./-]+)(?:#[\w-]*)?\)", text):
        path = path[0] or path[1]
        front = path.split("/")[0]
        if front in FOLDERS or front.startswith("lfs") or path.endswith(".md"):
            bases = HOME, document.parent, HOME / "crates"
            counts.check(f"{document.name}: {path}", any((base / path).exists() for base in bases))


def check_links(counts, document, text):
    """Each file that a document links to, or shows, is there."""
    for path in re.findall(r"\]\(([\w./-]+)(?:#[\w-]*)?\)", text):
        counts.check(f"{document.name}: {path}", (document.parent / path).exists())


def check_functions(counts, document, text, all_crates):
    """Each name of a crate is there, and each clause, or field of a record, in the brackets behind it."""
    fields = {field for crate in all_crates.values() for field in crate.fields}
    for names, crate, clauses in re.findall(r"((?:`[\w:]+`(?:, | and )?)+) of (lfs\w*)(?: \(([^()]*)\))?", text):
        of = all_crates.get(crate)
        counts.check(f"{document.name}: {crate}", of is not None)
        names = re.findall(r"`([\w:]+)`", names)
        for name in names if of else []:
            counts.check(f"{document.name}: {name} of {crate}", of.has(name))
        known = {clause for name in names if of for clause in of.functions.get(name.split("::")[-1], ())}
        for clause in re.findall(r"`([a-z]\w*)`", clauses) if of and known else []:
            counts.check(f"{document.name}: {clause} of {names} of {crate}", clause in known | fields or of.has(clause))


def check_definitions(counts, document, text, all_crates):
    """Each definition that is named with its file stands in a file of that name."""
    for name, file in re.findall(r"`(\w+)` of (?:specs/)?`?(\w+\.antt)`?", text):
        texts = [path.read_text() for path in HOME.glob(f"crates/*/specs/{file}")]
        counts.check(f"{document.name}: {name} of {file}", any(re.search(rf"\b{name}\b", each) for each in texts))


def check_order(counts, all_crates):
    """crates.txt, the crates and what is listed of them agree, in one order; so do the headings of crates.txt and of what is proved."""
    text = (HOME / "crates.txt").read_text()
    listed = re.findall(r"^(\w+):", text, re.MULTILINE)
    counts.check("crates.txt has the crates", sorted(listed) == sorted(all_crates), {*listed} ^ {*all_crates})
    architecture = (HOME / "docs/ARCHITECTURE.md").read_text()
    table = re.findall(r"^\| `(\w+)` \| [^|]* \|$", architecture[:architecture.index("## How a layer")], re.MULTILINE)
    counts.check("ARCHITECTURE.md has the order of crates.txt", table == listed, [pair for pair in zip(table, listed) if pair[0] != pair[1]][:1])
    groups = [each.capitalize() for each in re.findall(r"^# ([\w ]+)$", text, re.MULTILINE)]
    proved = (HOME / "docs/PROOFS.md").read_text()
    headings = re.findall(r"^### (.*)$", proved[proved.index("## Crate by crate"):], re.MULTILINE)
    counts.check("PROOFS.md has the headings of crates.txt", headings == groups, {*headings} ^ {*groups})


def check_generated(counts):
    """What programs make of the sources is current."""
    for program in GENERATORS:
        made = subprocess.run([HOME / program, "--check"], stdout=subprocess.PIPE, text=True, check=False)
        counts.check(f"{program} --check", made.returncode == 0, made.stdout.strip())


def paragraphs(text):
    """The paragraphs of a document, without its blocks, tables, headings and marks; each point of a list is one."""
    text = re.sub(r"^```.*?^```$|^(?:\||#|<!--).*?$", "", text, flags=re.MULTILINE | re.DOTALL)
    text = re.sub(r"^\s*(?:[-*]|\d+\.) ", "\n\n", text, flags=re.MULTILINE)
    return [" ".join(each.split()) for each in re.split(r"\n\s*\n", text) if each.strip()]


def sentences(text):
    """The sentences of a document."""
    return [each for paragraph in paragraphs(text) for each in re.split(r"(?<=[.?!])[*)\"]*\s+", paragraph)]


def check_length(counts, texts):
    """The documents together, and each of their sentences, have at most so many words."""
    words = sum(len(text.split()) for text in texts.values())
    counts.check(f"the documents have at most {MOST_WORDS} words", words <= MOST_WORDS, words)
    for document, text in texts.items():
        long = [each for each in sentences(text) if len(each.split()) > MOST_WORDS_OF_A_SENTENCE]
        counts.check(f"{document.name}: sentences have at most {MOST_WORDS_OF_A_SENTENCE} words", not long, long[:1])


def check_kit(counts):
    """The kit that PROOFS.md names has the logic of the one at hand."""
    version = subprocess.run(["rt", "version"], stdout=subprocess.PIPE, text=True, check=True).stdout
    logic = re.search(r"logic (\w+)", version).group(1)
    counts.check("PROOFS.md names the kit", f"logic {logic}" in (HOME / "docs/PROOFS.md").read_text(), version)


def main():
    counts, all_crates = Counts(), crates()
    texts = {document: document.read_text() for document in DOCUMENTS}
    for document, text in texts.items():
        check_paths(counts, document, text)
        check_links(counts, document, text)
        check_functions(counts, document, text, all_crates)
        check_definitions(counts, document, text, all_crates)
    check_length(counts, texts)
    check_generated(counts)
    check_order(counts, all_crates)
    check_kit(counts)
    return counts.end()


sys.exit(main())
