#!/usr/bin/env python3
"""Runs the recipes of docs/RECIPES.md, each in a folder of its own with the files that it shows, and compares what they print."""
import os
import pathlib
import re
import shutil
import subprocess
import sys
import tempfile

from support.transcript import HOME, blocks, run_block

# Where a block of a language is written to, and the program that reads it.
FILES = {"make": "Makefile", "cmake": "CMakeLists.txt", "python": "build.py"}
PROGRAMS = {"make": "make", "cmake": "cmake", "python": "python3"}
# What recipes call that show no file for it.
CALLED = ("git",)
# What CMake writes build files for, and the program that reads them.
GENERATORS = {"Unix Makefiles": "make", "Ninja": "ninja"}


def can_run(recipe):
    """Whether the programs are there that a recipe writes files for or calls; says which one isn't."""
    wanted = [PROGRAMS[language] for language, _ in blocks(recipe) if language in FILES]
    wanted += [program for program in CALLED if re.search(rf"^\$ (?:.*[;|] )?{program} ", recipe, re.MULTILINE)]
    missing = [program for program in wanted if not shutil.which(program)]
    for program in missing:
        print(f"{recipe.splitlines()[0]}: not run, since {program} isn't there")
    return not missing


def environments(recipe):
    """What a recipe is run in: one where `lfsed` and its module are found, and one for each generator where it writes a file for CMake."""
    found = dict(os.environ, PATH=f"{HOME / 'bin'}:{os.environ['PATH']}", PYTHONPATH=str(HOME / "python"), PYTHONDONTWRITEBYTECODE="1")
    if not any(language == "cmake" for language, _ in blocks(recipe)):
        return [found]
    return [dict(found, CMAKE_GENERATOR=generator) for generator, program in GENERATORS.items() if shutil.which(program)]


def run_recipe(recipe, environment):
    """Runs a recipe in a folder of its own; answers how many commands ran, and how many of them printed something else."""
    ran = wrong = 0
    with tempfile.TemporaryDirectory() as folder:
        for language, block in blocks(recipe):
            if language in FILES:
                (pathlib.Path(folder) / FILES[language]).write_text(block)
                continue
            more, more_wrong = run_block(block, cwd=folder, env=environment)
            ran, wrong = ran + more, wrong + more_wrong
    return ran, wrong


def main():
    subprocess.run([HOME / "bin/lfsed", "--help"], stdout=subprocess.DEVNULL, check=True)
    ran = wrong = 0
    recipes = (HOME / "docs/RECIPES.md").read_text().split("\n## ")[1:]
    for recipe in filter(can_run, recipes):
        for environment in environments(recipe):
            more, more_wrong = run_recipe(recipe, environment)
            ran, wrong = ran + more, wrong + more_wrong
    print(f"{ran - wrong} passed, {wrong} failed")
    return 1 if wrong else 0


sys.exit(main())
