#!/usr/bin/env python3
"""Installs the program into a folder of its own; compares the manual page and the completions with what bin/manual makes of the
program's commands now, tries words that aren't taken, and asks the completions of bash what they complete."""
import pathlib
import subprocess
import sys
import tempfile

from support.counts import Counts

HOME = pathlib.Path(__file__).resolve().parent.parent
MADE = ["man/lfsed.1", "completions/lfsed.bash", "completions/_lfsed", "completions/lfsed.fish"]
INSTALLED = {
    "bin/lfsed": "crates/lfsed/out/lfsed",
    "share/man/man1/lfsed.1": "man/lfsed.1",
    "share/bash-completion/completions/lfsed": "completions/lfsed.bash",
    "share/zsh/site-functions/_lfsed": "completions/_lfsed",
    "share/fish/vendor_completions.d/lfsed.fish": "completions/lfsed.fish",
    "share/lfsed/mklittlefs": "share/lfsed/mklittlefs",
    "share/lfsed/python/pyproject.toml": "python/pyproject.toml",
    **{f"share/doc/lfsed/{name}": name for name in ("README.md", "CONTRIBUTING.md", "CHANGELOG.md")},
}
# Folders that are installed with all that is in them.
FOLDERS = {"share/cmake/lfsed": "share/cmake/lfsed", "share/lfsed/python/lfsed": "python/lfsed", "share/doc/lfsed/docs": "docs"}
COMMANDS = "adopt batch blocks cat check diff explain extract find forget format grow log ls mkdir mv pack put redo repack rm rmattr salvage setattr sync undo"
# Words that bin/install doesn't take, and what is said of them.
REFUSED = [
    ("--remove", "--remove isn't taken"), ("new there", "a second word: there"), ("new --uninstall", "a second word: --uninstall"),
    ("--uninstall there new", "a second word: new"), ("--uninstall --help", "--help isn't taken"),
]
# The words of a command line, of which the last one is completed, and what it may become.
COMPLETED = [
    ("lfsed ", f"--help --version {COMMANDS} help"),
    ("lfsed p", "pack put"),
    ("lfsed help und", "undo"),
    ("lfsed check -", "--block --device --help --inline-max --json --offset --older -b -h"),
    ("lfsed check --inline-max ", ""),
    ("lfsed check --inline-max 64 f", "fw.img"),
    ("lfsed pack --c", "--count"),
    ("lfsed check ", "fw.img src"),
    ("lfsed check fw", "fw.img"),
    ("lfsed check fw.img ", ""),
    ("lfsed check --older f", "fw.img"),
    ("lfsed pack --l", "--least"),
    ("lfsed format --n", "--name-max --new"),
    ("lfsed put --from f", "fw.img"),
    ("lfsed put --from = f", "fw.img"),
    ("lfsed put --from notes.txt f", "fw.img"),
    ("lfsed explain NoS", "NoSpace NoSuperblock"),
    ("lfsed check -b ", ""),
    ("lfsed check -b 512 f", "fw.img"),
    ("lfsed pack --count 8 fw.img ", "src"),
    ("lfsed pack --block=512 fw.img s", "src"),
    ("lfsed cat fw.img /", ""),
    ("lfsed g", "grow"),
    ("lfsed grow fw", "fw.img"),
    ("lfsed grow fw.img ", ""),
    ("lfsed diff fw.img f", "fw.img"),
    ("lfsed diff fw.img fw.img ", ""),
    ("lfsed undo --o", "--older"),
    ("lfsed cat --o", "--offset --older"),
    ("lfsed fi", "find"),
    ("lfsed find f", "fw.img"),
    ("lfsed find fw.img ", ""),
    ("lfsed find --", "--device --help --json"),
    ("lfsed blocks --", "--block --device --help --json --offset --older --sum"),
    ("lfsed blocks --sum f", "fw.img"),
    ("lfsed blocks fw.img ", ""),
    ("lfsed ls --offset ", ""),
    ("lfsed ls --device --offset 1088k f", "fw.img"),
    ("lfsed undo --steps 3 f", "fw.img"),
    ("lfsed explain 5", "5 50 51 52 53 54 55 56"),
    ("lfsed check --block = 512 f", "fw.img"),
    ("lfsed check --block = ", ""),
    ("lfsed put fw.img /x < f", "fw.img"),
    ("lfsed a", "adopt"),
    ("lfsed adopt -", "--block --help --json --replace -b -h"),
    ("lfsed adopt --replace f", "fw.img"),
    ("lfsed adopt fw.img ", ""),
    ("lfsed b", "batch blocks"),
    ("lfsed batch --", "--block --help --inline-max --keep --one"),
    ("lfsed batch --keep 3 f", "fw.img"),
    ("lfsed batch fw.img ", "fw.img src"),
    ("lfsed batch fw.img fw.img ", ""),
    ("lfsed re", "redo repack"),
    ("lfsed extract --d", "--device"),
    ("lfsed extract fw.img ", "src"),
    ("lfsed extract fw.img src ", ""),
    ("lfsed extract fw.img src / ", ""),
    ("lfsed s", "salvage setattr sync"),
    ("lfsed salvage -", "--block --device --help --offset --older -b -h"),
    ("lfsed salvage fw.img ", "src"),
    ("lfsed sync -", "--block --help --inline-max --keep -b -h"),
    ("lfsed sync f", "fw.img"),
    ("lfsed sync fw.img ", "src"),
    ("lfsed sync fw.img src ", ""),
    ("lfsed sync fw.img src / ", ""),
    ("lfsed rm -", "--block --help --keep --recursive -b -h -r"),
    ("lfsed rm -r f", "fw.img"),
    ("lfsed mkdir -", "--block --help --keep --parents -b -h -p"),
    ("lfsed put --p", "--parents"),
    ("lfsed undo --d", ""),
    ("lfsed repack --", "--attr-max --block --count --device --file-max --from-block --help --inline-max --least --name-max --new --offset --older --size"),
    ("lfsed repack f", "fw.img"),
    ("lfsed repack fw.img f", "fw.img"),
    ("lfsed repack fw.img fw.img ", ""),
    ("lfsed repack --from-block ", ""),
    ("lfsed repack --from-block 512 --device fw.img f", "fw.img"),
]


def completed(folder, line):
    """What bash completes the last word of a line to."""
    words = line.split(" ")
    script = 'source "$1"; shift; COMP_WORDS=("$@"); COMP_CWORD=$(($# - 1)); _lfsed; printf "%s\\n" "${COMPREPLY[@]}"'
    command = ["bash", "-c", script, "bash", HOME / "completions/lfsed.bash", *words]
    return sorted(subprocess.run(command, cwd=folder, stdout=subprocess.PIPE, check=True, text=True).stdout.split())


def all_installed():
    """What is installed: places below a prefix, each with the file of this repository that it is made of."""
    found = dict(INSTALLED)
    for place, folder in FOLDERS.items():
        paths = [path for path in (HOME / folder).rglob("*") if path.is_file() and path.suffix != ".pyc"]
        found.update({f"{place}/{path.relative_to(HOME / folder)}": path for path in paths})
    return found


def files_below(prefix):
    """The files below a prefix, by their places."""
    return {str(path.relative_to(prefix)) for path in prefix.rglob("*") if path.is_file()}


def is_installed(counts, prefix):
    """All is put below a prefix and taken away from there, but for what others put there."""
    ended = subprocess.run([HOME / "bin/install", prefix], stdout=subprocess.PIPE, text=True)
    counts.check("install", (ended.returncode, ended.stdout) == (0, "lfsed 0.2.0\n"), ended)
    wanted = all_installed()
    counts.check("what is installed", files_below(prefix) == {*wanted}, files_below(prefix) ^ {*wanted})
    for name, source in wanted.items():
        counts.check(name, (prefix / name).read_bytes() == (HOME / source).read_bytes())
    ended = subprocess.run([prefix / "bin/lfsed", "--version"], stdout=subprocess.PIPE, text=True)
    counts.check("installed", ended.stdout == "lfsed 0.2.0\n", ended)
    (prefix / "share/man/man1/other.1").write_bytes(b"")
    for place in "lfsed/__pycache__", "build", "lfsed.egg-info":
        kept = prefix / "share/lfsed/python" / place
        kept.mkdir()
        (kept / "file").write_bytes(b"")
    ended = subprocess.run([HOME / "bin/install", "--uninstall", prefix], capture_output=True)
    counts.check("uninstall", (ended.returncode, ended.stdout, ended.stderr) == (0, b"", b""), ended)
    counts.check("uninstalled", files_below(prefix) == {"share/man/man1/other.1"}, files_below(prefix))
    left = [place for place in ("share/lfsed", "share/cmake/lfsed", "share/doc/lfsed") if (prefix / place).exists()]
    counts.check("uninstalled: folders", not left, left)


def is_refused(counts, folder):
    """Words that bin/install doesn't take are named, and nothing is installed or taken away."""
    (folder / "there/share/man/man1").mkdir(parents=True)
    (folder / "there/share/man/man1/lfsed.1").write_bytes(b"")
    for words, said in REFUSED:
        ended = subprocess.run([HOME / "bin/install", *words.split(" ")], cwd=folder, capture_output=True, text=True)
        is_said = ended.stderr.startswith(f"bin/install: {said}\nUsage: bin/install")
        counts.check(f"install {words}", (ended.returncode, ended.stdout) == (2, "") and is_said, ended)
        counts.check(f"install {words}: files", files_below(folder / "there") == {"share/man/man1/lfsed.1"} and not (folder / "new").exists())


def main():
    counts = Counts()
    with tempfile.TemporaryDirectory() as room:
        folder = pathlib.Path(room)
        subprocess.run([HOME / "bin/manual", folder / "made"], check=True)
        for name in MADE:
            is_same = (folder / "made" / name).read_bytes() == (HOME / name).read_bytes()
            counts.check(name, is_same, "bin/manual makes another one")
        is_installed(counts, folder / "prefix")
        for words in "--help", "-h":
            ended = subprocess.run([HOME / "bin/install", words], capture_output=True, text=True)
            counts.check(f"install {words}", (ended.returncode, ended.stderr) == (0, "") and ended.stdout.startswith("Usage: bin/install"), ended)
        is_refused(counts, folder)
        place = folder / "place"
        (place / "src").mkdir(parents=True)
        (place / "fw.img").write_bytes(b"")
        for line, wanted in COMPLETED:
            counts.check(line, completed(place, line) == sorted(wanted.split()), completed(place, line))
    return counts.end()


sys.exit(main())
