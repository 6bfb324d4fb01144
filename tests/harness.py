"""What the tests of the built program share: its runs, in a folder of their own, the files of its store, and counts.

Python 3.9 or later and its standard library; Linux.
"""

from __future__ import annotations

import collections
import os
import shutil
import struct
import subprocess
import tempfile
from dataclasses import dataclass
from typing import Dict, Iterable, Iterator, List, Optional, Sequence, Tuple, Union

TESTS = os.path.dirname(os.path.abspath(__file__))
NETWORK = "Test SDF Network ; September 2015"
FILES = ("image0", "image1", "journal0", "journal1")
# the file of the store's lock, which has no bytes
LOCK = "lock"
# more seconds than any run here takes
LIMIT = 120

# the bytes of a store's files, by their names; one that isn't there has none
Store = Dict[str, bytes]
Word = Union[str, bytes]


@dataclass
class Ran:
    """What a run answered, and what it left."""

    status: int
    out: bytes
    err: bytes
    store: Store
    # what the shim noted
    notes: bytes
    # names beside `ledger-store` in the folder of the run
    strays: List[str]


class Program:
    """A built program, and the shim between it and the C library."""

    def __init__(self, path: str, shim: str, label: str):
        self.path, self.shim, self.label = path, shim, label

    def run(self, words: Sequence[Word], given: bytes, store: Optional[Store] = None, **faults: int) -> Ran:
        """Runs the program on words and an input, over a store. Each of `faults` is a word of the shim."""
        folder = tempfile.mkdtemp(prefix="ledger-", dir="/dev/shm" if os.path.isdir("/dev/shm") else None)
        notes = folder + ".notes"
        try:
            lay_out(folder, store or {})
            environment = {name: str(number) for name, number in faults.items()}
            if faults:
                environment.update(LD_PRELOAD=self.shim, NOTES=notes)
            ran = subprocess.run([self.path, *words], cwd=folder, input=given, capture_output=True, env=environment, timeout=LIMIT)
            strays = sorted(set(os.listdir(folder)) - {"ledger-store"})
            return Ran(ran.returncode, ran.stdout, ran.stderr, files_in(folder), read_if_any(notes), strays)
        finally:
            shutil.rmtree(folder)
            if os.path.exists(notes):
                os.remove(notes)


def read_if_any(path: str) -> bytes:
    try:
        with open(path, "rb") as file:
            return file.read()
    except FileNotFoundError:
        return b""


def read(*path: str) -> bytes:
    """The bytes of a file below this folder."""
    with open(os.path.join(TESTS, *path), "rb") as file:
        return file.read()


def lay_out(folder: str, store: Store) -> None:
    """Writes the files of a store that have bytes; a store without bytes isn't there."""
    if any(store.values()):
        os.mkdir(f"{folder}/ledger-store")
    for name, data in store.items():
        if data:
            with open(f"{folder}/ledger-store/{name}", "wb") as file:
                file.write(data)


def files_in(folder: str) -> Store:
    """The files of the store that have bytes, and any other file beside them."""
    if not os.path.isdir(f"{folder}/ledger-store"):
        return {}
    found = {name: read_if_any(f"{folder}/ledger-store/{name}") for name in os.listdir(f"{folder}/ledger-store")}
    return {name: data for name, data in found.items() if data or name not in (*FILES, LOCK)}


Note = Tuple[str, int, int, bytes]


def notes_of(notes: bytes) -> Iterator[Note]:
    """The shim's notes: kind, number of the file (0 to 3), offset, and the bytes that were written."""
    at = 0
    while at < len(notes):
        kind, file, (offset, count) = chr(notes[at]), notes[at + 1] - 1, struct.unpack_from("=QQ", notes, at + 2)
        at += 18
        data = notes[at:at + count] if kind in "wm" else b""
        at += len(data)
        yield kind, file, offset, data


def written_out(notes: bytes) -> Iterator[Tuple[int, bytes]]:
    """Of each write to standard output the bytes of memory that the first thread had taken by then, and what was written."""
    return ((taken, data) for kind, _, taken, data in notes_of(notes) if kind == "m")


def threads_started(notes: bytes) -> int:
    return sum(kind == "p" for kind, _, _, _ in notes_of(notes))


def unsynced(notes: bytes) -> List[str]:
    """The files with something that was written or cut since their last sync."""
    pending = set()
    for kind, file, _, _ in notes_of(notes):
        if kind in "wt" and file < len(FILES):
            pending.add(file)
        elif kind == "s":
            pending.discard(file)
    return [FILES[file] for file in sorted(pending)]


def after_power_loss(begun: Store, notes: bytes, fill: int) -> Store:
    """A store that loses power after what was noted: each byte that was written, cut or added since the last sync of its
    file is `fill`, also by a call that failed."""
    now = {name: bytearray(begun.get(name, b"")) for name in FILES}
    pending: Dict[str, set] = collections.defaultdict(set)
    for kind, file, offset, data in notes_of(notes):
        if file >= len(FILES) or kind == "p":
            continue
        name = FILES[file]
        held = now[name]
        if kind == "w":
            held.extend(bytes(max(0, offset + len(data) - len(held))))
            held[offset:offset + len(data)] = data
            pending[name].update(range(offset, offset + len(data)))
        elif kind == "t":
            pending[name].update(range(min(offset, len(held)), max(offset, len(held))))
            del held[offset:]
            held.extend(bytes(offset - len(held)))
        elif kind == "u":
            pending[name].update(range(offset, len(held)))
        else:
            pending[name].clear()
    for name, offsets in pending.items():
        for offset in offsets:
            if offset < len(now[name]):
                now[name][offset] = fill
    return {name: bytes(data) for name, data in now.items() if data}


class Tally:
    """What was checked: how often each thing was as expected, and how often otherwise."""

    def __init__(self) -> None:
        self.passed: collections.Counter = collections.Counter()
        self.failed: collections.Counter = collections.Counter()
        self.shown = 0

    def check(self, what: str, holds: bool, detail: object = "") -> bool:
        """Counts a check under what it shows; prints the first that fail."""
        (self.passed if holds else self.failed)[what] += 1
        if not holds and self.shown < 20:
            self.shown += 1
            print(f"FAILED: {what}{': ' if detail else ''}{detail}")
        return bool(holds)

    def add(self, other: "Tally") -> None:
        self.passed.update(other.passed)
        self.failed.update(other.failed)

    def lines(self) -> Iterable[str]:
        for what in sorted({*self.passed, *self.failed}):
            ill = f", {self.failed[what]} otherwise" if self.failed[what] else ""
            yield f"{what}: {self.passed[what]}{ill}"
