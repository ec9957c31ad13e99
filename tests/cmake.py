#!/usr/bin/env python3
"""Builds images with CMake, by Make and by Ninja, each where it is there. The folder's files are added, renamed, deleted and changed, its
folders made and taken away, and each build has to see it; one behind which nothing changed leaves the image and what depends on it. Calls
that say too little or too much are refused."""
import os
import pathlib
import shutil
import subprocess
import sys
import tempfile

from support.counts import Counts
from support.folder import HOME, PROGRAM

GENERATORS = {"Unix Makefiles": "make", "Ninja": "ninja"}
PROJECT = """cmake_minimum_required(VERSION 3.16)
project(firmware NONE)
find_package(lfsed 0.1 REQUIRED CONFIG NO_CMAKE_FIND_ROOT_PATH)
lfsed_image(image ALL FOLDER fw OUTPUT images/fw.img BLOCK 512 COUNT 64)
add_custom_target(pages COMMAND ${CMAKE_COMMAND} -E copy_if_different ${CMAKE_SOURCE_DIR}/page ${CMAKE_BINARY_DIR}/www/page)
lfsed_image(www FOLDER ${CMAKE_BINARY_DIR}/www OUTPUT www.img BLOCK 256 LEAST NAME_MAX 30 CHANGES changes DEPENDS pages)
lfsed_image(out FOLDER ${CMAKE_BINARY_DIR}/www OUTPUT out.img BLOCK 256 COUNT 16 INLINE_MAX 4 CHANGES changes DEPENDS pages)
get_target_property(IMAGE image LFSED_IMAGE)
add_custom_command(
  OUTPUT flash.bin
  COMMAND ${CMAKE_COMMAND} -E copy ${IMAGE} flash.bin
  DEPENDS image ${IMAGE}
  VERBATIM)
add_custom_target(flash ALL DEPENDS flash.bin)
"""
# What a toolchain for a device says of the host's packages and programs.
TOOLCHAIN = """set(CMAKE_SYSTEM_NAME Generic)
set(CMAKE_FIND_ROOT_PATH /nowhere)
set(CMAKE_FIND_ROOT_PATH_MODE_PROGRAM NEVER)
set(CMAKE_FIND_ROOT_PATH_MODE_PACKAGE ONLY)
"""
# What is said of a semicolon.
CUT = "has a semicolon, which stands between words in CMake"
# Calls that are refused, and what is said of them.
REFUSED = {
    "lfsed_image(a OUTPUT a.img COUNT 8)": "lfsed_image(a): FOLDER has to be said",
    "lfsed_image(a FOLDER fw COUNT 8)": "lfsed_image(a): OUTPUT has to be said",
    "lfsed_image(a FOLDER fw OUTPUT a.img)": "lfsed_image(a): exactly one of COUNT, SIZE and LEAST",
    "lfsed_image(a FOLDER fw OUTPUT a.img COUNT 8 LEAST)": "lfsed_image(a): exactly one of COUNT, SIZE and LEAST",
    "lfsed_image(a FOLDER fw OUTPUT a.img COUNT 8 SISE 4)": "lfsed_image(a): words that it doesn't take: SISE;4",
    "lfsed_image(a FOLDER fw OUTPUT a.img LEAST BLOCK)": "lfsed_image(a): no value follows BLOCK",
    'lfsed_image(a FOLDER "f;w" OUTPUT a.img COUNT 8)': f"lfsed_image(a): FOLDER {CUT}: f;w",
    "lfsed_image(a FOLDER fw OUTPUT x\\;y/a.img COUNT 8)": f"lfsed_image(a): OUTPUT {CUT}: x;y/a.img",
    'lfsed_image(a FOLDER fw OUTPUT a.img COUNT 8 CHANGES "c;")': f"lfsed_image(a): CHANGES {CUT}: c;",
    "find_package(lfsed 99 REQUIRED)": "lfsed-config.cmake, version: ",
}


def run(*command, **how):
    """Runs a command; answers its status and all that it prints."""
    ended = subprocess.run(command, stdout=subprocess.PIPE, stderr=subprocess.STDOUT, text=True, check=False, **how)
    return ended.returncode, ended.stdout


class Project:
    """A project for a generator, and the paths that its image is to have."""

    def __init__(self, counts, place, generator):
        self.counts, self.place, self.what = counts, place, generator
        self.env = dict(os.environ, CMAKE_GENERATOR=generator, CMAKE_PREFIX_PATH=str(HOME))
        self.folder, self.image = place / "fw", place / "build/images/fw.img"
        (self.folder / "logs").mkdir(parents=True)
        (self.folder / "config").write_text("wifi=on\n")
        (place / "CMakeLists.txt").write_text(PROJECT)
        (place / "toolchain").write_text(TOOLCHAIN)
        (place / "page").write_text("hello")
        (place / "changes").write_text("put /id page\n")

    def ends_well(self, what, *command):
        """Runs a command in the project, which has to end well."""
        status, printed = run(*command, cwd=self.place, env=self.env)
        self.counts.check(f"{self.what}: {what}", status == 0, printed)

    def builds(self, what, *targets):
        """Builds, and looks whether the image is that of the folder."""
        self.ends_well(what, "cmake", "--build", "build", *(["--target", *targets] if targets else []))
        wanted = {"/"} | {f"/{path.relative_to(self.folder)}" for path in self.folder.rglob("*")}
        found = {line[13:] for line in run(PROGRAM, "ls", "--block", "512", self.image)[1].splitlines()}
        self.counts.check(f"{self.what}: {what}: paths", found == wanted, found ^ wanted)
        flash = self.place / "build/flash.bin"
        self.counts.check(f"{self.what}: {what}: what depends on it", flash.read_bytes() == self.image.read_bytes())

    def stays(self, what):
        """Builds, and looks whether the image and what depends on it are left as they were."""
        files = self.image, self.image.with_name("fw.img.lfsj"), self.place / "build/flash.bin"
        before = [path.stat().st_mtime_ns for path in files]
        self.builds(what)
        self.counts.check(f"{self.what}: {what}: left", [path.stat().st_mtime_ns for path in files] == before)


def sees_all(project):
    """Each change of the folder is seen by the next build, whatever times its files have."""
    folder, long_ago = project.folder, (1_000_000_000, 1_000_000_000)
    project.builds("first")
    project.stays("again")
    (folder / "two words;[x] $(a) #").write_text("added")
    os.utime(folder / "two words;[x] $(a) #", long_ago)
    project.builds("added")
    (folder / "two words;[x] $(a) #").rename(folder / "renamed")
    project.builds("renamed")
    (folder / "empty/below").mkdir(parents=True)
    project.builds("empty folders")
    (folder / "empty/below").rmdir()
    project.builds("an empty folder less")
    (folder / "config").write_text("wifi=no\n")
    os.utime(folder / "config", long_ago)
    project.builds("changed")
    held = run(PROGRAM, "cat", "--block", "512", project.image, "/config")
    project.counts.check(f"{project.what}: changed: contents", held == (0, "wifi=no\n"), held)
    (folder / "config").unlink()
    shutil.rmtree(folder / "logs")
    project.builds("deleted")
    project.stays("at last")


def has_generated_files(project):
    """An image of files that another target makes, on which a script is carried out."""
    image = project.place / "build/www.img"
    for text in "hello", "hello again":
        (project.place / "page").write_text(text)
        project.ends_well("www", "cmake", "--build", "build", "--target", "www")
        held = [run(PROGRAM, "cat", "--block", "256", image, path) for path in ("/page", "/id")]
        project.counts.check(f"{project.what}: www: {text}", held == [(0, text)] * 2, held)
    limit = image.read_bytes()[32:36]
    project.counts.check(f"{project.what}: www: name_max", limit == (30).to_bytes(4, "little"), limit)
    project.ends_well("out", "cmake", "--build", "build", "--target", "out")
    blocks = run(PROGRAM, "blocks", "--block", "256", project.place / "build/out.img")[1]
    project.counts.check(f"{project.what}: INLINE_MAX", "/page" in blocks and "/id" in blocks, blocks)


def is_refused(project):
    """A folder that can't be packed ends the build, and leaves the image."""
    before = project.image.read_bytes()
    (project.folder / "link").symlink_to("nowhere")
    status, printed = run("cmake", "--build", "build", cwd=project.place, env=project.env)
    project.counts.check(f"{project.what}: a link", status != 0 and "62 HostEntry" in printed, printed)
    project.counts.check(f"{project.what}: a link: image", project.image.read_bytes() == before)
    (project.folder / "link").unlink()


def build(counts, place, generator):
    """Builds a project by a generator."""
    project = Project(counts, place, generator)
    project.ends_well("configured", "cmake", "-S", ".", "-B", "build", "-DCMAKE_TOOLCHAIN_FILE=toolchain")
    sees_all(project)
    has_generated_files(project)
    is_refused(project)
    project.ends_well("clean", "cmake", "--build", "build", "--target", "clean")
    left = [path.name for path in project.image.parent.iterdir()]
    counts.check(f"{generator}: clean", not left, left)


def refuses_calls(counts, place, generator):
    """Calls that say too little or too much are refused, with what is wrong."""
    for at, (call, said) in enumerate(REFUSED.items()):
        folder = place / f"call{at}"
        folder.mkdir()
        package = "" if call.startswith("find_package") else "find_package(lfsed REQUIRED)\n"
        (folder / "CMakeLists.txt").write_text(f"cmake_minimum_required(VERSION 3.16)\nproject(a NONE)\n{package}{call}\n")
        status, printed = run("cmake", "-G", generator, f"-DCMAKE_PREFIX_PATH={HOME}", "-S", folder, "-B", folder / "build")
        counts.check(call, status != 0 and said in " ".join(printed.split()), printed)


def main():
    subprocess.run([HOME / "bin/lfsed", "--help"], stdout=subprocess.DEVNULL, check=True)
    counts = Counts()
    generators = [name for name, program in GENERATORS.items() if shutil.which("cmake") and shutil.which(program)]
    for name in GENERATORS.keys() - generators:
        print(f"not run: cmake or {GENERATORS[name]} isn't there")
    with tempfile.TemporaryDirectory() as room:
        for generator in generators:
            place = pathlib.Path(room) / f"of {GENERATORS[generator]}"
            place.mkdir()
            build(counts, place, generator)
        if generators:
            refuses_calls(counts, pathlib.Path(room), generators[0])
    return counts.end()


sys.exit(main())
