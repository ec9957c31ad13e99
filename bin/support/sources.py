"""Reads the sources: the crates in the order of crates.txt, what they say of themselves, their functions with clauses, and the
definitions of their specifications."""
import pathlib
import re

HOME = pathlib.Path(__file__).resolve().parent.parent.parent
# A sentence that is longer is cut behind a word.
LONGEST = 180


def groups():
    """The headings of crates.txt, each with its crates and the libraries that each of them uses."""
    found = []
    for line in (HOME / "crates.txt").read_text().splitlines():
        if line.startswith("# ") and ":" not in line and "," not in line:
            found.append((line[2:].capitalize(), []))
        elif re.match(r"\w+:", line):
            crate, libraries = line.split(":")
            found[-1][1].append((crate, libraries.split()))
    return found


def crate_names():
    """The crates in the order of crates.txt."""
    return [crate for _, crates in groups() for crate, _ in crates]


def first_sentence(lines):
    """The first sentence of the lines of a comment, which is cut where it is long."""
    text = " ".join(" ".join(lines).split())
    text = re.sub(r" ?\(own\)", "", text)
    sentence = re.split(r"(?<=[.:])\s+(?=Source)|\.\s+(?=[A-Z`])", text, maxsplit=1)[0].rstrip(".")
    if len(sentence) <= LONGEST:
        return sentence
    return sentence[:LONGEST].rsplit(" ", 1)[0].rstrip(",;:") + " .."


def leading_comment(text, mark):
    """The first sentence of the comment with which a file begins."""
    lines = []
    for line in text.splitlines():
        if not line.startswith(mark):
            break
        lines.append(line[len(mark):])
    return first_sentence(lines)


def source_files(crate):
    """The files of code and of specifications of a crate, each in the order of names."""
    place = HOME / "crates" / crate
    return sorted(place.glob("src/**/*.rt")), sorted(place.glob("specs/**/*.antt"))


def about_crate(crate):
    """What a crate says of itself: the first sentence of its first file."""
    place = HOME / "crates" / crate / "src"
    root = place / "lib.rt" if (place / "lib.rt").exists() else place / "main.rt"
    return leading_comment(root.read_text(), "//!")


# ---- definitions

DEFINITION = re.compile(r"^(?:abbrev |unfoldable )*pub (?:record |data )?(\S+)(?= |$)")


class Definition:
    """A public definition: its name and the first sentence of its comment."""

    def __init__(self, name, about):
        self.name, self.about = name, about


def definitions(path):
    """The public definitions of a file of specifications, in their order."""
    found, comment = [], []
    for line in path.read_text().splitlines():
        named = DEFINITION.match(line)
        if line.startswith("--"):
            comment.append(line[2:])
            continue
        if named and named.group(1) not in ("use", "mod"):
            found.append(Definition(named.group(1), first_sentence(comment)))
        comment = []
    return found


def module(crate, path):
    """The name of a file of specifications as code uses it."""
    below = path.relative_to(HOME / "crates" / crate / "specs").with_suffix("")
    return f"{crate}.specs.{'.'.join(below.parts)}"


def all_definitions():
    """What each public definition says, by the name of its file and its own."""
    return {
        (module(crate, path), each.name): each.about
        for crate in crate_names() for path in source_files(crate)[1] for each in definitions(path)
    }


# ---- functions

FUNCTION = re.compile(r"^( *)(pub |pub\(\w+\) )?(?:const )?fn (\w+)")
CLAUSE = re.compile(r"^ +(requires|ensures)(?: (\w+))? \{", re.MULTILINE)
OWNER = re.compile(r"^(?:pub )?(impl|trait)\b(?:<[^{]*?>)? ?(\w+(?:::\w+)*)(.*)$")


class Clause:
    """A clause: whether it is required or ensured, its name, and what it says."""

    def __init__(self, kind, name, says):
        self.kind, self.name, self.says = kind, name, says


class Function:
    """A public function: its name, with that of its type, the first sentence of its comment, and its clauses."""

    def __init__(self, name, about, clauses):
        self.name, self.about, self.clauses = name, about, clauses


def exported(crate):
    """The names that a library makes public, or none where all that is public is, as in a program."""
    root = HOME / "crates" / crate / "src/lib.rt"
    if not root.exists():
        return None
    text, names = root.read_text(), set()
    for few, one in re.findall(r"^pub use (?:\w+::)+(?:\{([^}]*)\}|(\w+));", text, re.MULTILINE):
        names |= {*re.findall(r"\w+", few)} | {one} - {""}
    for name in re.findall(r"^pub mod (\w+);", text, re.MULTILINE):
        names |= {*re.findall(r"^pub fn (\w+)", (root.parent / f"{name}.rt").read_text(), re.MULTILINE)}
    return names


def used_names(text):
    """What a file of code calls the definitions that it uses: each name with the file that it is from."""
    found = {}
    for file, names in re.findall(r"^\s*ghost use Rattle\.([\w.]+)\.\{([^}]*)\}", text, re.MULTILINE):
        found.update({name.strip(): file for name in names.split(",")})
    return found


def inside_braces(text, start):
    """What stands between the brace before a place and the one that closes it."""
    depth, at = 1, start
    while depth and at < len(text):
        depth += {"{": 1, "}": -1}.get(text[at], 0)
        at += 1
    return " ".join(text[start:at - 1].split())


def said_by(expression, used, known):
    """What a clause says: the sentence of the first of its definitions that has one, or else its expression."""
    names = re.findall(r"\w+", expression)
    for name in sorted(names, key=lambda each: not each[0].isupper()):
        about = known.get((used.get(name), name))
        if about:
            return f"{name}: {about}"
    return expression if len(expression) <= LONGEST else expression[:LONGEST].rsplit(" ", 1)[0] + " .."


def clauses_in(text, used, known):
    """The clauses in the text of a function."""
    return [
        Clause(match.group(1), match.group(2) or "", said_by(inside_braces(text, match.end()), used, known))
        for match in CLAUSE.finditer(text)
    ]


def comment_before(lines, at):
    """The lines of the comment before a line, with attributes between them passed over."""
    comment = []
    while at and re.match(r"\s*(///|#\[)", lines[at - 1]):
        at -= 1
        if "///" in lines[at]:
            comment.insert(0, lines[at].strip()[3:])
    return comment


def owner_of(line):
    """The type or the trait whose functions begin behind a line, and whether they are said to be public one by one."""
    match = OWNER.match(line)
    if not match or not line.rstrip().endswith("{"):
        return None
    kind, name, rest = match.groups()
    of_trait = kind == "impl" and " for " in rest
    return ("" if of_trait else name), kind == "trait"


def functions_of_file(text, public, known):
    """The public functions of a file of code, in their order."""
    lines, used, found, owner = text.splitlines(), used_names(text), [], ("", False)
    begun = [at for at, line in enumerate(lines) if FUNCTION.match(line)] + [len(lines)]
    for at, end in zip(begun, begun[1:]):
        indent, is_public, name = FUNCTION.match(lines[at]).groups()
        for line in reversed(lines[:at]):
            if indent and line[:1] not in ("", " ", "}", "/", "#", ")"):
                owner = owner_of(line) or ("", False)
                break
        of, by_trait = owner if indent else (name, False)
        if of and (is_public == "pub " or by_trait) and (public is None or of in public):
            full = f"{of}::{name}" if indent else name
            clauses = clauses_in("\n".join(lines[at:end]), used, known)
            found.append(Function(full, first_sentence(comment_before(lines, at)), clauses))
    return found


def functions(crate, known):
    """The public functions of a crate, in the order of its files."""
    public = exported(crate)
    return [each for path in source_files(crate)[0] for each in functions_of_file(path.read_text(), public, known)]
