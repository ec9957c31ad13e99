"""How a run ends early."""
from __future__ import annotations

from typing import Any, List, Optional, Tuple, Type


class Fault(Exception):
    """Why lfsed did nothing: the fault's number and name, as `lfsed explain` lists them, the status that the run ended with, and the
    lines that say more.

    Where the words of a run were refused there is neither number nor name.
    """

    def __init__(self, status: int, number: Optional[int], name: Optional[str], lines: List[str]):
        self.status, self.number, self.name, self.lines = status, number, name, lines
        named = [f"{number} {name}"] if number is not None else []
        super().__init__(": ".join([*named, "\n".join(lines)]) if lines else "".join(named))

    def __reduce__(self) -> Tuple[Any, ...]:
        return type(self), (self.status, self.number, self.name, self.lines)


class Refusal(Fault):
    """A change is refused: status 1."""


class UsageError(Fault):
    """The words of a run are refused: status 2."""


class ImageFault(Fault):
    """The image is none or doesn't mount, or its journal is refused: status 3."""


class HostFault(Fault):
    """Memory, a file or a folder failed: status 4."""


KINDS = {1: Refusal, 2: UsageError, 3: ImageFault, 4: HostFault}


def fault(status: int, number: Optional[int], name: Optional[str], lines: List[str]) -> Fault:
    """The fault of a run that ended with a status."""
    kind: Type[Fault] = KINDS.get(status, Fault)
    return kind(status, number, name, lines)
