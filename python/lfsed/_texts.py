"""The texts of the program: how a script spells words, and what is printed, an object of JSON a line. No other file knows of them."""
from __future__ import annotations

import json
import os
import re
from typing import Any, Dict, Iterable, List, Optional, Tuple

from ._records import BlockRange, BlockSum, Change, Difference, Limits, Place, Row, Summary

MARKS = {"removed": "-", "added": "+", "contents": "~", "limits": "~"}


def word_of_script(word: bytes) -> str:
    """A word as a script spells it."""
    return "".join(chr(byte) if 0x21 <= byte <= 0x7E and byte != 0x5C else f"\\x{byte:02x}" for byte in word)


def line_of_script(step: str, words: Iterable[bytes]) -> str:
    """A step as a line of a script."""
    return " ".join([step, *map(word_of_script, words)])


def with_paths(line: str, folder: str, paths: List[str]) -> str:
    """A line of a fault of a script. Files in a folder are put at these paths, by their numbers: the line that puts one loses its name,
    and elsewhere the path stands for it."""
    spelled = word_of_script(os.fsencode(folder))
    line = re.sub(rf" {re.escape(spelled)}/[0-9]+\Z", "", line)
    return re.sub(rf"{re.escape(folder)}/([0-9]+)", lambda found: paths[int(found[1])], line)


def objects(printed: bytes) -> List[Dict[str, Any]]:
    """The objects that are printed, one a line."""
    return [json.loads(line) for line in printed.decode("utf-8").split("\n") if line]


def path_of(said: Dict[str, Any]) -> str:
    """The path that an object says."""
    if "path" in said:
        return str(said["path"])
    return bytes.fromhex(said["path_hex"]).decode("utf-8", "surrogateescape")


def path_if_any(said: Dict[str, Any]) -> Optional[str]:
    """The path that an object says, None if it says none."""
    return path_of(said) if "path" in said or "path_hex" in said else None


def row(said: Dict[str, Any]) -> Row:
    """The row that an object says."""
    attributes = {attribute["kind"]: bytes.fromhex(attribute["value"]) for attribute in said.get("attributes", [])}
    return Row(path_of(said), said.get("size"), attributes, said.get("sha256"))


def rows(printed: bytes) -> List[Row]:
    """The rows that `ls` prints."""
    return [row(said) for said in objects(printed)]


def limits(said: Dict[str, Any]) -> Limits:
    """The limits that an object says."""
    return Limits(said["name_max"], said["file_max"], said["attr_max"])


def difference(said: Dict[str, Any]) -> Difference:
    """The difference that an object says."""
    if said["change"] == "limits":
        return Difference("~", Row("/", None), limits(said))
    return Difference(MARKS[said["change"]], row(said))


def differences(printed: bytes) -> List[Difference]:
    """What `diff` prints."""
    return [difference(said) for said in objects(printed)]


def changes(printed: bytes) -> List[Change]:
    """The changes that `log` prints, each in front of what it changed."""
    found: List[Change] = []
    for said in objects(printed):
        if "number" in said:
            found.append(Change(said["number"], said["state"] == "done", []))
        else:
            found[-1].differences.append(difference(said))
    return found


def changed(printed: bytes) -> List[int]:
    """The numbers of blocks that `adopt` prints."""
    return [said["changed"] for said in objects(printed)]


def ranges(printed: bytes) -> List[BlockRange]:
    """The blocks that `blocks` prints."""
    return [BlockRange(said["kind"], path_if_any(said), said["first"], said["last"]) for said in objects(printed)]


def sums(printed: bytes) -> List[BlockSum]:
    """The sums that `blocks --sum` prints."""
    return [BlockSum(said["kind"], path_if_any(said), said["blocks"]) for said in objects(printed)]


def place(said: Dict[str, Any]) -> Place:
    """The place that an object says."""
    fault = f"{said['fault']} {said['name']}" if "fault" in said else None
    return Place(said["at"], said["version"], said["block"], said["count"], said["bytes"], fault)


def places(printed: bytes) -> List[Place]:
    """The places that `find` prints."""
    return [place(said) for said in objects(printed)]


def summary(printed: bytes) -> Summary:
    """What `check` prints."""
    said = objects(printed)[0]
    return Summary(
        said["block"], said["count"], said["free"], said["directories"], said["files"], said["free_bytes"], said["version"], limits(said),
        said["inline_longest"],
    )


def line(said: Dict[str, Any]) -> str:
    """What an object says of a fault."""
    return f"{said['of']}: {said['text']}" if "of" in said else str(said["text"])


def fault(complained: bytes) -> Tuple[Optional[int], Optional[str], List[str]]:
    """The number and the name of the fault that is told, where one is, and the lines that say more."""
    number, name, lines = None, None, []
    for said in objects(complained):
        if "fault" in said:
            number, name = said["fault"], said["name"]
            lines += [f"need {said['need']} free {said['free']}"] if "need" in said else []
        else:
            lines += line(said).splitlines()
    return number, name, lines
