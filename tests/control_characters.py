#!/usr/bin/env python3
"""Names of the host and words of the command line that have control characters: they end no line on standard error, and no terminal obeys
them. In JSON they are as they are."""
import json
import os
import re
import subprocess
import sys

from support.folder import PROGRAM, run_scenes

# A name with a line feed, an escape of a terminal and others, and how it is shown: what prints stays, also a backslash.
ODD = "a\nlfsed: b\x1b[2Jc\rd\x7fe\x80f\x9fg\xa0h\xe9\u20ac\\x"
SHOWN = "a\\x0alfsed: b\\x1b[2Jc\\x0dd\\x7fe\\xc2\\x80f\\xc2\\x9fg\xa0h\xe9\u20ac\\x"


def run(folder, *words):
    """Runs the program; answers its status and what it complained."""
    ended = subprocess.run([PROGRAM, *words], cwd=folder.room.name, input=b"", capture_output=True, timeout=60)
    return ended.returncode, ended.stderr.decode()


def is_told(folder, status, first, name, text, *words):
    """Runs words that are refused: the second line tells a text of a name, shown as it is to be, and as it is in JSON."""
    ended = run(folder, *words)
    shown = name.replace(ODD, SHOWN)
    folder.check(f"{words}", ended == (status, f"lfsed: {first}\nlfsed: {shown}: {text}\n"), ended)
    ended = run(folder, "--json", *words)
    lines = [json.loads(line) for line in ended[1].splitlines()]
    folder.check(f"{words} in JSON", ended[0] == status and lines[1:] == [{"of": name, "text": text}], ended)


def names_of_the_host(folder):
    source = folder.image.with_name("src")
    (source / ODD).mkdir(parents=True)
    (source / ODD / "link").symlink_to("nowhere")
    other, missing = "neither a regular file nor a folder", "No such file or directory (os error 2)"
    for words in ["pack", "-b", "512", "--count", "8", "a.img", "src"], ["pack", "-b", "512", "--least", "a.img", "src"]:
        is_told(folder, 4, "62 HostEntry", f"src/{ODD}/link", other, *words)
    (source / ODD / "link").unlink()
    is_told(folder, 4, "60 CannotRead", f"{ODD}.d", missing, "pack", "-b", "512", "--count", "8", "a.img", f"{ODD}.d")
    folder.check("format", run(folder, "format", "-b", "512", "--count", "8", "a.img") == (0, ""))
    is_told(folder, 4, "60 CannotRead", f"{ODD}.f", missing, "put", "-b", "512", "--from", f"{ODD}.f", "a.img", "/f")
    is_told(folder, 4, "60 CannotRead", f"{ODD}.s", missing, "batch", "-b", "512", "a.img", f"{ODD}.s")
    is_told(folder, 4, "60 CannotRead", f"{ODD}.img", missing, "check", "-b", "512", f"{ODD}.img")
    is_told(folder, 4, "60 CannotRead", f"{ODD}.img", missing, "find", f"{ODD}.img")
    is_told(folder, 4, "62 HostEntry", f"src/{ODD}", "is there already", "extract", "-b", "512", "a.img", f"src/{ODD}")
    is_told(folder, 4, "61 CannotWrite", f"none/{ODD}", missing, "extract", "-b", "512", "a.img", f"none/{ODD}")
    os.rename(folder.image, folder.image.with_name(ODD))
    is_told(folder, 1, "30 NotFound", ODD, "/x: nothing is there", "ls", "-b", "512", ODD, "/x")
    is_told(folder, 3, "11 Geometry", ODD, "its superblock states 8 blocks of 512 bytes", "check", "-b", "256", ODD)


# Words that are refused, with such a name in them.
WORDS = [
    [ODD], [f"--{ODD}"], ["check", f"--{ODD}", "a.img"], ["check", f"--block={ODD}", "a.img"], ["check", "-b", ODD, "a.img"],
    ["check", "a.img", ODD], ["format", "--count", ODD, "a.img"], ["format", "--size", ODD, "a.img"], ["format", f"--size={ODD}", "a.img"],
    ["explain", ODD], ["explain", "41", ODD], ["put", "a.img", "/f", ODD], ["check", f"--offset={ODD}", "a.img"], ["grow", "a.img", ODD],
    ["undo", "--steps", ODD, "a.img"], ["format", "--name-max", ODD, "a.img"],
]


def words_of_the_command_line(folder):
    """What is told of words with such a name is what is told of words that have in its place what is shown of it."""
    for words in WORDS:
        ended = run(folder, *words)
        wanted = run(folder, *(word.replace(ODD, SHOWN) for word in words))
        folder.check(f"{words}", ended == wanted and ended[0] == 2 and SHOWN in ended[1], (ended, wanted))
        folder.check(f"{words}: what is told", not re.search("[\0-\x09\x0b-\x1f\x7f-\x9f]", ended[1]), ended)
        ended = run(folder, "--json", *words)
        folder.check(f"{words} in JSON", ended[0] == 2 and all(json.loads(line) for line in ended[1].splitlines()), ended)


if __name__ == "__main__":
    sys.exit(run_scenes([names_of_the_host, words_of_the_command_line]))
