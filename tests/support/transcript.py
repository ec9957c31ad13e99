"""Blocks of commands in a document, each command with what it prints."""
import pathlib
import re
import subprocess

HOME = pathlib.Path(__file__).resolve().parent.parent.parent


def blocks(text):
    """A document's blocks in their order: their language, and their text."""
    return re.findall(r"^```(\w*)\n(.*?)^```$", text, re.MULTILINE | re.DOTALL)


def steps(block):
    """The commands of a block, each with the lines that it prints."""
    found = []
    for line in block.splitlines():
        if line.startswith("$ "):
            found.append((line[2:], []))
        else:
            found[-1][1].append(line)
    return found


def run_block(block, **how):
    """Runs a block of commands; answers how many there were, and how many printed something else."""
    ran = wrong = 0
    for command, wanted in steps(block):
        ended = subprocess.run(["bash", "-c", command], stdout=subprocess.PIPE, stderr=subprocess.STDOUT, text=True, **how)
        ran += 1
        if ended.stdout.splitlines() != wanted:
            wrong += 1
            print(f"$ {command}\nwanted:\n" + "\n".join(wanted) + f"\nprinted:\n{ended.stdout}")
    return ran, wrong
