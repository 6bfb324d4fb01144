"""A file that is read: its path and its bytes, and faults that say where in it something is wrong.

Unproved.
"""

from __future__ import annotations

import mmap
import os
from typing import Optional

from xdr import Data


class FileFault(Exception):
    """Something wrong with a file: its path, what, and the offset in bytes where there is one."""

    def __init__(self, path: str, what: str, offset: Optional[int] = None) -> None:
        super().__init__(path, what, offset)
        self.path, self.what, self.offset = path, what, offset

    def __str__(self) -> str:
        place = "" if self.offset is None else f"offset {self.offset}: "
        return f"{self.path}: {place}{self.what}"


class Source:
    """A file's path and its bytes, which slices answer as bytes."""

    def __init__(self, path: str, data: Data) -> None:
        self.path, self.data, self.size = path, data, len(data)

    def fault(self, offset: int, what: str) -> FileFault:
        return FileFault(self.path, what, offset)


def opened(path: str) -> Source:
    """The bytes of a file, mapped where they can be, so that they take no memory of their own. Raises OSError."""
    with open(path, "rb") as file:
        if os.fstat(file.fileno()).st_size == 0:
            # a pipe or a file without bytes
            return Source(path, file.read())
        try:
            return Source(path, mmap.mmap(file.fileno(), 0, access=mmap.ACCESS_READ))
        except (OSError, ValueError):
            return Source(path, file.read())
