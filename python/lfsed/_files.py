"""Files of an image as file objects."""
from __future__ import annotations

import contextlib
import io
from types import TracebackType
from typing import IO, Any, Callable, Optional, Type, cast

READS, WRITES = ("r", "rb"), ("w", "wb")


class Writing(io.BufferedWriter):
    """A file of bytes that is put when it is closed. If its `with` block raises something, or it is dropped and never closed, nothing is
    put.

    >>> found = []
    >>> with Writing(found.append) as file:
    ...     _ = file.write(b"hello")
    >>> found
    [b'hello']
    """

    def __init__(self, put: Callable[[bytes], None]):
        self._put: Optional[Callable[[bytes], None]] = put
        self._held = io.BytesIO()
        super().__init__(cast(Any, self._held))

    def drop(self) -> None:
        """From now on nothing is put when it is closed."""
        self._put = None

    def close(self) -> None:
        """Puts the file, the first time."""
        if self.closed:
            return
        self.flush()
        contents, put = self._held.getvalue(), self._put
        super().close()
        if put:
            put(contents)

    def __exit__(self, kind: Optional[Type[BaseException]], value: Optional[BaseException], trace: Optional[TracebackType]) -> None:
        if kind is not None:
            self.drop()
        self.close()

    def __del__(self) -> None:
        self.drop()
        self.close()


class WritingText(io.TextIOWrapper):
    """The same of a file of text."""

    def __init__(self, held: Writing, encoding: str, newline: Optional[str]):
        self._held = held
        super().__init__(held, encoding=encoding, newline=newline)

    def __exit__(self, kind: Optional[Type[BaseException]], value: Optional[BaseException], trace: Optional[TracebackType]) -> None:
        if kind is not None:
            self._held.drop()
        self.close()

    def __del__(self) -> None:
        self._held.drop()
        # What was refused when it was made can't be closed.
        with contextlib.suppress(ValueError):
            self.close()


def reading(contents: bytes, mode: str, encoding: str, newline: Optional[str]) -> IO[Any]:
    """A file that these contents are read from."""
    held = io.BufferedReader(cast(Any, io.BytesIO(contents)))
    if mode == "rb":
        return held
    return io.TextIOWrapper(held, encoding=encoding, newline=newline)


def writing(put: Callable[[bytes], None], mode: str, encoding: str, newline: Optional[str]) -> IO[Any]:
    """A file whose contents are put when it is closed."""
    held = Writing(put)
    if mode == "wb":
        return held
    return WritingText(held, encoding, newline)
