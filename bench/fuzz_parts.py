"""What an input of `catchup` is made of: encoded values, without the marks and lengths between them.

Python 3.9 or later and its standard library.
"""

from __future__ import annotations

import struct
from dataclasses import dataclass, field
from typing import Iterator, List, NamedTuple, Optional, Tuple

import fuzz_paths  # noqa: F401
from image_bytes import image_bytes, marked
from record_stream import MOST_RECORD, TOP_BIT
from start_image import LENGTH_SIZE, LEVELS, MAGIC
from stellar_xdr import BUCKET_ENTRY, LEDGER_HEADER, RECORD
from xdr import Type

# an offset and a size in bytes
Field = Tuple[int, int]


class BadForm(Exception):
    """Bytes that aren't the parts of an input."""


def take_marked(data: bytes, at: int, most: int) -> Tuple[bytes, int]:
    """What follows a mark, and the offset after it. Raises BadForm."""
    if len(data) - at < 4:
        raise BadForm
    mark = struct.unpack_from(">I", data, at)[0]
    end = at + 4 + (mark & ~TOP_BIT)
    if not mark & TOP_BIT or end > len(data) or mark & ~TOP_BIT > most:
        raise BadForm
    return data[at + 4:end], end


def marked_pieces(data: bytes, most: int = TOP_BIT) -> Tuple[List[bytes], bytes]:
    """The pieces after marks, and the bytes after the last that is all there."""
    found: List[bytes] = []
    at = 0
    while at < len(data):
        try:
            piece, at = take_marked(data, at, most)
        except BadForm:
            break
        found.append(piece)
    return found, data[at:]


@dataclass
class File:
    """A bucket's file: its items after their marks, and bytes that no mark says the length of."""

    items: List[bytes] = field(default_factory=list)
    rest: bytes = b""

    @property
    def data(self) -> bytes:
        return b"".join(map(marked, self.items)) + self.rest


class Piece(NamedTuple):
    """A place of an encoded value: its type, and the list that it is in."""

    type: Type
    of: List[bytes]
    index: int

    @property
    def data(self) -> bytes:
        return self.of[self.index]


@dataclass
class Parts:
    """An image and records. `header` is a list of one, `rest` what follows the last record that is all there."""

    header: List[bytes]
    files: List[File]
    records: List[bytes] = field(default_factory=list)
    rest: bytes = b""

    @property
    def image(self) -> bytes:
        return image_bytes(self.header[0], [file.data for file in self.files])

    @property
    def stream(self) -> bytes:
        return b"".join(map(marked, self.records)) + self.rest

    def copy(self) -> "Parts":
        files = [File(list(file.items), file.rest) for file in self.files]
        return Parts(list(self.header), files, list(self.records), self.rest)

    def pieces(self) -> Iterator[Piece]:
        yield Piece(LEDGER_HEADER, self.header, 0)
        for file in self.files:
            for index in range(len(file.items)):
                yield Piece(BUCKET_ENTRY, file.items, index)
        yield from self.record_pieces()

    def record_pieces(self) -> Iterator[Piece]:
        for index in range(len(self.records)):
            yield Piece(RECORD, self.records, index)


def cut_image(data: bytes) -> Tuple[Parts, int]:
    """The parts of the image at the start of an input, and its length. Raises BadForm."""
    if data[:len(MAGIC)] != MAGIC:
        raise BadForm
    header, at = take_marked(data, len(MAGIC), MOST_RECORD)
    files = []
    for _ in range(2 * LEVELS):
        start = at + LENGTH_SIZE
        at = start + int.from_bytes(data[at:start], "big")
        if max(start, at) > len(data):
            raise BadForm
        files.append(File(*marked_pieces(data[start:at])))
    return Parts([header], files), at


def cut(data: bytes) -> Optional[Parts]:
    """The parts of an input; None where it doesn't begin with an image that is all there."""
    try:
        parts, at = cut_image(data)
    except BadForm:
        return None
    parts.records, parts.rest = marked_pieces(data[at:], MOST_RECORD)
    return parts


def image_length(data: bytes) -> int:
    """The length of the image at the start of an input, or that of the input where none is all there."""
    try:
        return cut_image(data)[1]
    except BadForm:
        return len(data)


def lengths(data: bytes) -> List[Field]:
    """Where the marks and lengths of an input are."""
    parts = cut(data)
    if parts is None:
        return [(offset, 4) for offset in range(0, min(len(data) - 3, 64), 4)]
    at = len(MAGIC)
    found = [(at, 4)]
    at += 4 + len(parts.header[0])
    for file in parts.files:
        found.append((at, LENGTH_SIZE))
        inside = at = at + LENGTH_SIZE
        for item in file.items:
            found.append((inside, 4))
            inside += 4 + len(item)
        at += len(file.data)
    for record in parts.records:
        found.append((at, 4))
        at += 4 + len(record)
    return found
