"""Files that a program makes from the sources: written, or compared with what they would be."""
import sys

from support.sources import HOME


def write_or_check(texts, command):
    """Writes each file of the repository with its text, or, with --check, says which of them aren't current; answers a status."""
    if sys.argv[1:] not in ([], ["--check"]):
        print(f"usage: {command} [--check]", file=sys.stderr)
        return 2
    stale = 0
    for name, text in texts.items():
        path = HOME / name
        if path.exists() and path.read_text() == text:
            continue
        if sys.argv[1:]:
            print(f"{name} isn't current: run {command}")
            stale = 1
        else:
            path.write_text(text)
    return stale
