#!/usr/bin/env python3
"""Types lines into bash, zsh and fish, each of them where it is installed, with a tab behind them, and compares the words that a program
of lfsed's name is then called with."""
import concurrent.futures
import os
import pathlib
import pty
import re
import select
import shutil
import signal
import subprocess
import sys
import tempfile
import time

HOME = pathlib.Path(__file__).resolve().parent.parent
PROGRAM = HOME / "crates/lfsed/out/lfsed"
# Says the words that it is called with; what is in an image is said by the real program.
SPEAKER = f"""#!/bin/sh
if [ "$1" = ls ]; then exec {PROGRAM} "$@"; fi
printf 'called:'
for word; do printf '<%s>' "$word"; done
echo .
"""
CALLED = r"called:((?:<[^>]*>)*)\."
# How many seconds a shell may take for a line, on a machine with much to do.
PATIENCE = 60
SHELLS = {
    "bash": (["bash", "--norc", "--noprofile", "-i"], [
        "bind 'set enable-bracketed-paste off'", f"source {HOME}/completions/lfsed.bash",
    ]),
    "zsh": (["zsh", "-f", "-i"], [
        "unset zle_bracketed_paste", f"fpath=({HOME}/completions $fpath)", "autoload -U compinit", "compinit -u -D",
    ]),
    "fish": (["fish", "--no-config", "-i"], [f"source {HOME}/completions/lfsed.fish"]),
}
# What is typed before the tab, and the words that the program is called with then.
LINES = [
    ("lfsed unde", ["unde"]),
    ("lfsed und", ["undo"]),
    ("lfsed check fw", ["check", "fw.img"]),
    ("lfsed check --block=512 fw", ["check", "--block=512", "fw.img"]),
    ("lfsed check -b 512 fw", ["check", "-b", "512", "fw.img"]),
    ("lfsed diff fw.img oth", ["diff", "fw.img", "other.img"]),
    ("lfsed pack fw.img fol", ["pack", "fw.img", "folder/"]),
    ("lfsed repack --device --from-block 512 fw.img oth", ["repack", "--device", "--from-block", "512", "fw.img", "other.img"]),
    ("lfsed check --dev", ["check", "--device"]),
    ("lfsed check --inl", ["check", "--inline-max"]),
    ("lfsed check --inline-max 64 oth", ["check", "--inline-max", "64", "other.img"]),
    ("lfsed blocks --su", ["blocks", "--sum"]),
    ("lfsed blo", ["blocks"]),
    ("lfsed check --off", ["check", "--offset"]),
    ("lfsed check --device --offset 1088k oth", ["check", "--device", "--offset", "1088k", "other.img"]),
    ("lfsed find oth", ["find", "other.img"]),
    ("lfsed cat -b 512 fw.img /con", ["cat", "-b", "512", "fw.img", "/config"]),
    ("lfsed cat --block=512 fw.img /dir/t", ["cat", "--block=512", "fw.img", "/dir/two words"]),
    ("lfsed cat -b 512 fw.img /oth", ["cat", "-b", "512", "fw.img", "/oth"]),
    ("lfsed mv -b 512 fw.img /config /di", ["mv", "-b", "512", "fw.img", "/config", "/dir"]),
    ("lfsed put -b 512 fw.img /config < hos", ["put", "-b", "512", "fw.img", "/config"]),
    ("lfsed batch fw.img hos", ["batch", "fw.img", "host.txt"]),
    ("lfsed sy", ["sync"]),
    ("lfsed sync fw.img fol", ["sync", "fw.img", "folder/"]),
    ("lfsed sync --keep 3 fw.img fol", ["sync", "--keep", "3", "fw.img", "folder/"]),
    ("lfsed sync -b 512 fw.img folder /di", ["sync", "-b", "512", "fw.img", "folder", "/dir"]),
    ("lfsed extract -b 512 fw.img made /di", ["extract", "-b", "512", "fw.img", "made", "/dir"]),
    ("lfsed rm --rec", ["rm", "--recursive"]),
    ("lfsed rm -r -b 512 fw.img /con", ["rm", "-r", "-b", "512", "fw.img", "/config"]),
    ("lfsed mkdir --par", ["mkdir", "--parents"]),
    ("lfsed put -p -b 512 fw.img /con", ["put", "-p", "-b", "512", "fw.img", "/config"]),
    ("lfsed batch --keep 3 -b 512 oth", ["batch", "--keep", "3", "-b", "512", "other.img"]),
    ("lfsed undo --ste", ["undo", "--steps"]),
    ("lfsed ado", ["adopt"]),
    ("lfsed adopt --rep", ["adopt", "--replace"]),
    ("lfsed adopt --replace -b 512 oth", ["adopt", "--replace", "-b", "512", "other.img"]),
    ("lfsed help expl", ["help", "explain"]),
    ("lfsed explain 6", ["explain", "6"]),
    ("lfsed explain 46", ["explain", "46"]),
]


class Shell:
    """A shell that reads from a terminal of its own."""

    def __init__(self, name, folder):
        command, first = SHELLS[name]
        self.process, self.terminal = pty.fork()
        if self.process == 0:
            os.chdir(folder)
            paths = f"{folder}/programs:{os.environ['PATH']}"
            os.execvpe(command[0], command, dict(os.environ, PATH=paths, PS1="> ", TERM="xterm", HOME=str(folder), ZDOTDIR=str(folder)))
        self.asked = 0
        for line in first:
            self.type(line + "\r")
        self.catch_up()

    def type(self, text):
        """Types a text."""
        os.write(self.terminal, text.encode())

    def shown_until(self, pattern, patience):
        """What is shown until a text of this pattern stands there, or for so many seconds."""
        shown, end = "", time.monotonic() + patience
        while not re.search(pattern, shown) and select.select([self.terminal], [], [], max(0, end - time.monotonic()))[0]:
            try:
                shown += os.read(self.terminal, 65_536).decode(errors="replace")
            except OSError:
                break
        return shown

    def catch_up(self):
        """Waits until it has read all that was typed: until it answers a question of its own."""
        self.asked += 1
        self.type(f"expr {self.asked} + 7000\r")
        self.shown_until(rf"\D{self.asked + 7000}\D", PATIENCE)

    def called(self, line):
        """The words that the program is called with where a tab ends a line; none where it isn't called."""
        self.type(f"{line}\t\r")
        found = re.findall(CALLED, self.shown_until(CALLED, PATIENCE))
        if not found:
            self.type("\x03")
        self.catch_up()
        return re.findall(r"<([^>]*)>", found[-1]) if found else []

    def end(self):
        """Ends it, whatever it does."""
        os.close(self.terminal)
        os.kill(self.process, signal.SIGKILL)
        os.waitpid(self.process, 0)


def are_same(words, wanted):
    """Whether the words are those that are wanted; a shell may take the slash behind a folder away again."""
    return [word.rstrip("/") or word for word in words] == [word.rstrip("/") or word for word in wanted]


def run_shell(name, folder):
    """Types all lines into a shell; answers how many were right and wrong."""
    shell, right, wrong = Shell(name, folder), 0, 0
    for line, wanted in LINES:
        words = shell.called(line)
        right, wrong = right + are_same(words, wanted), wrong + (not are_same(words, wanted))
        if not are_same(words, wanted):
            print(f"wrong: {name}: {line}: {words}")
    shell.end()
    return right, wrong


def fill(folder):
    """Makes the files that lines name."""
    (folder / "programs").mkdir()
    (folder / "programs/lfsed").write_text(SPEAKER)
    (folder / "programs/lfsed").chmod(0o755)
    (folder / "folder").mkdir()
    (folder / "other.img").write_bytes(b"")
    (folder / "host.txt").write_bytes(b"")
    for words in ["format --count 16 fw.img", "put fw.img /config", "mkdir fw.img /dir"]:
        name, *rest = words.split(" ")
        subprocess.run([PROGRAM, name, "-b", "512", *rest], cwd=folder, input=b"", check=True)
    subprocess.run([PROGRAM, "put", "-b", "512", "fw.img", "/dir/two words"], cwd=folder, input=b"", check=True)
    (folder / "fw.img.lfsj").unlink()


def try_shell(name):
    """Types all lines into a shell in a folder of its own, where it is installed; answers how many were right and wrong."""
    if not shutil.which(name):
        print(f"{name} isn't there")
        return 0, 0
    with tempfile.TemporaryDirectory() as room:
        fill(pathlib.Path(room))
        return run_shell(name, pathlib.Path(room))


def main():
    subprocess.run([HOME / "bin/lfsed", "--help"], stdout=subprocess.DEVNULL, check=True)
    with concurrent.futures.ThreadPoolExecutor() as pool:
        counts = list(pool.map(try_shell, SHELLS))
    right, wrong = (sum(count) for count in zip(*counts))
    print(f"{right} passed, {wrong} failed")
    return 1 if wrong else 0


sys.exit(main())
