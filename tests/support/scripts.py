"""Scripts of steps, a line each: how their words are spelled, and the command line that takes the step of a line alone."""
import re

# What the history is moved by: these keep nothing.
MOVES = "undo", "redo", "forget"


def spelled(word):
    """The bytes of a word as a script spells them."""
    return "".join(chr(b) if 0x21 <= b <= 0x7E and b != 0x5C else f"\\x{b:02x}" for b in word)


def meant(word):
    """The bytes that a word of a script stands for."""
    return re.sub(rb"\\x([0-9A-Fa-f]{2})", lambda found: bytes([int(found[1], 16)]), word)


def alone(line, *options, keep=None):
    """The words of a command line that takes the step of a script's line alone, on the image a.img."""
    name, *words = line.encode().split(b" ")
    name, words = name.decode(), [meant(word) for word in words]
    kept = ["--keep", str(keep)] if keep and name not in MOVES else []
    if name == "put":
        return [name, *options, *kept, "--from", words[1], "a.img", words[0]]
    return [name, *options, *kept, "a.img", *words, *([""] if name == "setattr" and len(words) == 2 else [])]


def script(lines):
    """The bytes of a script of these lines."""
    return "".join(f"{line}\n" for line in lines).encode()
