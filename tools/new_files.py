"""Files that are written whole or not at all: under another name first, which is then changed to theirs.

Unproved.
"""

from __future__ import annotations

import os
from contextlib import contextmanager
from typing import Dict, Iterable, Iterator

from file_source import FileFault


@contextmanager
def faults_at(path: str) -> Iterator[None]:
    """Says of a failed call on files that it was about this one."""
    try:
        yield
    except OSError as why:
        raise FileFault(path, why.strerror or str(why)) from None


def refuse_old(path: str, may_replace: bool) -> None:
    """Refuses what is there already, unless it may be replaced: never a device or a pipe, whose name would be lost."""
    if os.path.isdir(path):
        raise FileFault(path, "is a folder")
    if os.path.lexists(path) and not os.path.isfile(path):
        raise FileFault(path, "is no file of bytes")
    if os.path.lexists(path) and not may_replace:
        raise FileFault(path, "is there already; --force replaces it")


def write_synced(path: str, parts: Iterable[bytes]) -> None:
    """Writes a file that isn't there yet, and waits until it is on the disk."""
    with open(path, "xb") as file:
        for part in parts:
            file.write(part)
        file.flush()
        os.fsync(file.fileno())


def write_files(contents: Dict[str, Iterable[bytes]], may_replace: bool) -> None:
    """Writes some files, each of parts. No name is changed before all of them are written. Raises FileFault."""
    for path in contents:
        refuse_old(path, may_replace)
    parts_of = {path: f"{path}.{os.getpid()}.part" for path in contents}
    try:
        for path, parts in contents.items():
            with faults_at(path):
                write_synced(parts_of[path], parts)
        for path, part in parts_of.items():
            refuse_old(path, may_replace)
            with faults_at(path):
                os.replace(part, path)
    finally:
        for part in parts_of.values():
            if os.path.exists(part):
                os.remove(part)
