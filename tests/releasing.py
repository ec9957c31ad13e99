#!/usr/bin/env python3
"""Makes a release twice, of copies of the repository in folders of other names, and compares their bytes. The archive is unpacked in a root
that has nothing but the libraries that the program names, and its program is run there; the package is installed in a scratch root, looked
at and taken away again. What is released holds together: links of documents, versions, the module for Python, the package for CMake."""
import concurrent.futures
import hashlib
import os
import pathlib
import re
import shutil
import subprocess
import sys
import tarfile
import tempfile

from support.counts import Counts
from support.folder import HOME, PROGRAM

WANTED = "git", "objdump", "dpkg-deb", "dpkg-shlibdeps"
# What a release is made of, and when it was committed.
SOURCES = "bin", "man", "completions", "share", "python", "docs", "README.md", "CONTRIBUTING.md", "CHANGELOG.md", "crates.txt", ".gitignore"
TIME = 1_700_000_000
# Where the package has what the archive has elsewhere, and what it has besides.
MOVED = {
    "share/lfsed/python/lfsed/": "lib/python3/dist-packages/lfsed/",
    "share/zsh/site-functions/": "share/zsh/vendor-completions/",
    "share/man/man1/lfsed.1": "share/man/man1/lfsed.1.gz",
}
# What is run in a bare root, and what is printed then.
RUNS = [
    (["pack", "--block", "512", "--count", "16", "a.img", "fw"], ""),
    (["check", "--block", "512", "a.img"], "block 512, count 16, free 14, directories 1, files 1, version 2.0\n"),
    (["mkdir", "--block", "512", "a.img", "/logs"], ""),
    (["undo", "--block", "512", "a.img"], ""),
    (["cat", "--block", "512", "a.img", "/config"], "wifi=on\n"),
]


def run(*command, **how):
    """Runs a command; answers its status, and all that it prints."""
    ended = subprocess.run(command, stdout=subprocess.PIPE, stderr=subprocess.STDOUT, text=True, errors="replace", check=False, **how)
    return ended.returncode, ended.stdout


def is_right(counts, what, wanted, *command, **how):
    """A command ends well, and prints this."""
    ended = run(*command, **how)
    counts.check(what, ended == (0, wanted), ended)


def repository(place):
    """A repository of its own with what a release is made of, in one commit."""
    subprocess.run(["cp", "-r", *SOURCES, place], cwd=HOME, check=True)
    program = place / "crates/lfsed/out/lfsed"
    program.parent.mkdir(parents=True)
    shutil.copy(PROGRAM, program)
    when = f"{TIME} +0000"
    env = dict(os.environ, GIT_AUTHOR_DATE=when, GIT_COMMITTER_DATE=when)
    for words in ["init", "-q"], ["add", "-A"], ["-c", "user.name=a", "-c", "user.email=a@example.invalid", "commit", "-q", "-m", "All"]:
        subprocess.run(["git", *words], cwd=place, env=env, check=True)


def made(place, umask, zone):
    """What bin/release says, and makes in the folder `out` beside a repository, run so."""
    place.mkdir()
    repository(place)
    return run(place / "bin/release", place / "made", umask=umask, env=dict(os.environ, TZ=zone))


def names_below(folder):
    """The files below a folder, by their names from there on."""
    return sorted(str(path.relative_to(folder)) for path in folder.rglob("*") if not path.is_dir())


def is_the_same_twice(counts, first, second):
    """Both releases have the same bytes, and sums that are right."""
    files = names_below(first)
    counts.check("the same files", files == names_below(second) and len(files) == 3, files)
    for name in files:
        counts.check(f"{name}: the same bytes", (first / name).read_bytes() == (second / name).read_bytes())
    sums = {name: hashlib.sha256((first / name).read_bytes()).hexdigest() for name in files if name != "SHA256SUMS"}
    lines = [f"{sums[name]}  {name}" for name in sorted(sums)]
    counts.check("SHA256SUMS", (first / "SHA256SUMS").read_text().splitlines() == lines)


def members_are_plain(counts, archive):
    """The archive's members are sorted, belong to nobody, and have the commit's time and no more rights than they need."""
    with tarfile.open(archive) as opened:
        members = opened.getmembers()
    paths = [member.name.split("/") for member in members]
    counts.check("sorted", paths == sorted(paths))
    for member in members:
        rights = 0o755 if member.isdir() or member.name.endswith(("/bin/lfsed", "/mklittlefs")) else 0o644
        plain = member.uid, member.gid, member.uname, member.gname, member.mtime, member.mode
        counts.check(member.name, plain == (0, 0, "", "", TIME, rights), plain)


def runs_in_bare_root(counts, root, program):
    """The program, by its name in a root, works in that with nothing but the libraries that it names."""
    libraries = re.findall(r"(/\S+) \(0x", run("ldd", PROGRAM)[1])
    subprocess.run(["cp", "--parents", "--dereference", *libraries, root], check=True)
    (root / "fw").mkdir()
    (root / "fw/config").write_text("wifi=on\n")
    chroot = shutil.which("chroot", path=f"{os.environ['PATH']}:/usr/sbin:/sbin") or "chroot"
    enter = [chroot] if os.geteuid() == 0 else ["unshare", "--map-root-user", chroot]
    if not (shutil.which(enter[0]) and shutil.which(chroot)) or run(*enter, "/", "/bin/true")[0]:
        print("not run in a bare root, since chroot isn't allowed here")
        return
    for words, wanted in RUNS:
        is_right(counts, f"in a bare root: {words[0]}", wanted, *enter, root, program, *words)


def documents_hold(counts, documents):
    """Each file that a released document links to is released."""
    texts = [(document, document.read_text()) for document in documents.rglob("*.md")]
    links = [(document, name) for document, text in texts for name in re.findall(r"\]\(([\w./-]+)(?:#[\w-]*)?\)", text)]
    for document, name in links:
        counts.check(f"{document.name}: {name}", (document.parent / name).is_file())


def versions_agree(counts, root, version):
    """The package for CMake and the module for Python have the program's version."""
    found = re.search(r"PACKAGE_VERSION ([\d.]+)\)", (root / "share/cmake/lfsed/lfsed-config-version.cmake").read_text())[1]
    counts.check("version for CMake", found == version, found)
    command = [sys.executable, "-c", "import lfsed; print(lfsed.__version__)"]
    env = dict(os.environ, PYTHONPATH=str(root / "share/lfsed/python"), PYTHONDONTWRITEBYTECODE="1")
    is_right(counts, "version for Python", f"{version}\n", *command, env=env)


def is_found_by_cmake(counts, root, room):
    """CMake finds the package beside the program that is on the path."""
    if not (shutil.which("cmake") and shutil.which("make")):
        print("not tried with CMake, since cmake or make isn't there")
        return
    text = "cmake_minimum_required(VERSION 3.16)\nproject(a NONE)\nfind_package(lfsed REQUIRED)\nmessage(\"found ${LFSED_PROGRAM}\")\n"
    (room / "a").mkdir()
    (room / "a/CMakeLists.txt").write_text(text)
    env = dict(os.environ, PATH=f"{root / 'bin'}:{os.environ['PATH']}")
    printed = run("cmake", "-G", "Unix Makefiles", "-S", room / "a", "-B", room / "a/build", env=env)
    counts.check("found by CMake", f"found {root / 'bin/lfsed'}" in printed[1], printed)


def is_unpacked(counts, archive, room, version):
    """The archive's program works, and what stands beside it is found; answers the files of the archive."""
    root = room / "root"
    root.mkdir()
    is_right(counts, "unpacked", "", "tar", "-xzf", archive, "-C", root)
    installed = next(root.iterdir())
    runs_in_bare_root(counts, root, f"/{installed.name}/bin/lfsed")
    documents_hold(counts, installed / "share/doc/lfsed")
    versions_agree(counts, installed, version)
    is_found_by_cmake(counts, installed, room)
    return names_below(installed)


def scratch_root(room, depends):
    """A root in which packages can be installed, and which has those that this one depends on, as this machine has them."""
    root = room / "scratch"
    (root / "var/lib/dpkg/info").mkdir(parents=True)
    (root / "var/lib/dpkg/updates").mkdir()
    states = [run("dpkg-query", "-s", name.split(" ")[0])[1] for name in depends.split(", ")]
    (root / "var/lib/dpkg/status").write_text("\n".join(states))
    return root


def package_is_installed(counts, package, room, version, wanted):
    """The package has what the archive has, its program and page are shown, and nothing of it is left once it is removed."""
    root = scratch_root(room, run("dpkg-deb", "-f", package, "Depends")[1].strip())
    installs = ["dpkg", f"--root={root}", "--force-script-chrootless", "--log=/dev/null"]
    if os.geteuid() != 0:
        print("the package is unpacked and not installed, since the user isn't root")
        installs = None
    ended = run(*installs, "-i", package) if installs else run("dpkg-deb", "-x", package, root)
    counts.check("installed", ended[0] == 0, ended)
    found = [name for name in names_below(root / "usr") if name != "share/doc/lfsed/copyright"]
    counts.check("the package's files", found == sorted(wanted), {*found} ^ {*wanted})
    is_right(counts, "installed: its program", f"lfsed {version}\n", root / "usr/bin/lfsed", "--version")
    page_is_shown(counts, root / "usr/share/man/man1/lfsed.1.gz")
    env = dict(os.environ, PYTHONPATH=str(root / "usr/lib/python3/dist-packages"), PYTHONPYCACHEPREFIX="", PATH=f"{root}/usr/bin")
    is_right(counts, "installed: its module", f"{version}\n", sys.executable, "-c", "import lfsed; print(lfsed.__version__)", env=env)
    if installs:
        ended = run(*installs, "-P", "lfsed")
        left = names_below(root / "usr") if (root / "usr").is_dir() else []
        counts.check("removed", (ended[0], left, "not empty" in ended[1]) == (0, [], False), (ended, left))


def page_is_shown(counts, page):
    """The manual page is shown."""
    if not shutil.which("man"):
        print("the manual page isn't shown, since man isn't there")
        return
    shown = run("man", "-P", "cat", "-l", page, env=dict(os.environ, MANWIDTH="80", LC_ALL="C"))
    counts.check("the manual page", shown[0] == 0 and "edit littlefs images of disk version 2.0" in shown[1], shown[1][:200])


def in_package(name):
    """Where the package has a file of the archive."""
    for front, there in MOVED.items():
        if name.startswith(front):
            return there + name[len(front):]
    return name


def is_in_readme(counts, texts):
    """README.md has the names of what is released, and the least C library."""
    for text in texts:
        counts.check(f"README.md: {text}", text in (HOME / "README.md").read_text())


def is_refused(counts, place):
    """A tree that isn't the commit's gives no release."""
    (place / "README.md").write_text("changed")
    status, said = run(place / "bin/release", place / "other")
    counts.check("a changed tree", (status, "README.md" in said, (place / "other").exists()) == (1, True, False), said)


def main():
    subprocess.run([HOME / "bin/lfsed", "--help"], stdout=subprocess.DEVNULL, check=True)
    counts, lacking = Counts(), [name for name in WANTED if not shutil.which(name)]
    if lacking:
        print(f"not run: {', '.join(lacking)} isn't there")
        return counts.end()
    with tempfile.TemporaryDirectory() as name, concurrent.futures.ThreadPoolExecutor() as pool:
        room = pathlib.Path(name)
        ways = [(room / "first", 0o022, "UTC"), (room / "the second one", 0o077, "Asia/Tokyo")]
        said = list(pool.map(lambda way: made(*way), ways))
        counts.check("made", [status for status, _ in said] == [0, 0], said)
        release = room / "first/made"
        is_the_same_twice(counts, release, room / "the second one/made")
        archive, package = next(release.glob("*.tar.gz")), next(release.glob("*.deb"))
        is_in_readme(counts, [archive.name, package.name, said[0][1].splitlines()[-1].removeprefix("needs ")])
        members_are_plain(counts, archive)
        version = run(PROGRAM, "--version")[1].split()[1]
        files = is_unpacked(counts, archive, room, version)
        package_is_installed(counts, package, room, version, [in_package(file) for file in files if not file.endswith("pyproject.toml")])
        is_refused(counts, room / "first")
    return counts.end()


sys.exit(main())
