"""Start images (docs/FORMATS.md, "Headers, records and images"): a header, and the 22 bucket files of eleven levels.

Unproved.
"""

from __future__ import annotations

import hashlib
import struct
from typing import NamedTuple, Optional, Tuple

from bucket_file import BucketFile
from file_source import Source
from record_stream import MOST_RECORD, Piece, marked_piece, said
from stellar_xdr import LEDGER_HEADER
from xdr import Value, XdrFault, read_entire

MAGIC = b"SLI1"
LEVELS = 11
NAMES = ("curr", "snap")
# the most bytes of the 22 files together
MOST_FILES = 536870912
LENGTH_SIZE = 8
unpack_length = struct.Struct(">Q").unpack_from


class StartImage(NamedTuple):
    """An image in a source: the bytes from `start` to `end`, its LedgerHeader and that one's hash, and its files from
    level 0 on, the curr of each before its snap."""

    source: Source
    start: int
    end: int
    header: Value
    hash: bytes
    files: Tuple[BucketFile, ...]


def is_image(source: Source) -> bool:
    """Whether a source begins as an image does; no record does, since the top bit of a record mark is set."""
    return source.data[:len(MAGIC)] == MAGIC


def header_of(source: Source, piece: Piece) -> Tuple[Value, bytes]:
    data = source.data[piece.start:piece.end]
    try:
        return read_entire(LEDGER_HEADER, data), hashlib.sha256(data).digest()
    except XdrFault as fault:
        raise source.fault(piece.start + fault.offset, str(fault)) from None


def bucket_files(source: Source, at: int, end: int) -> Tuple[BucketFile, ...]:
    """The 22 files that begin at an offset, by their lengths alone. Raises FileFault."""
    room, files = MOST_FILES, []
    for index in range(2 * LEVELS):
        if end - at < LENGTH_SIZE:
            raise source.fault(end, said("Short"))
        size = unpack_length(source.data, at)[0]
        if size > room:
            raise source.fault(at, said("TooLong"))
        start = at + LENGTH_SIZE
        if end - start < size:
            raise source.fault(end, said("Short"))
        room, at = room - size, start + size
        files.append(BucketFile(index // 2, NAMES[index % 2], start, at))
    return tuple(files)


def read_image(source: Source, start: int = 0, end: Optional[int] = None) -> StartImage:
    """The image at an offset, before an end; bytes may follow it. Raises FileFault.

    What is in its files isn't read here, and of the rules of a start image only the first is judged: the header reads.
    """
    end = source.size if end is None else end
    magic = source.data[start:min(end, start + len(MAGIC))]
    if len(magic) < len(MAGIC):
        raise source.fault(end, said("Short"))
    if magic != MAGIC:
        raise source.fault(start, f"no start image, which begins with {MAGIC.decode()}")
    piece = marked_piece(source, start + len(MAGIC), end, MOST_RECORD)
    files = bucket_files(source, piece.end, end)
    header, digest = header_of(source, piece)
    return StartImage(source, start, files[-1].end, header, digest, files)
