"""Streams of records, each after a record mark (RFC 5531, section 11): the records of closes that `run` reads.

Unproved.
"""

from __future__ import annotations

import struct
from typing import Iterator, NamedTuple, Optional

from file_source import Source
from stellar_xdr import RECORD, VOUCHED_FORM
from xdr import MEANINGS, Type, Value, XdrFault, read_entire

MARK_SIZE = 4
TOP_BIT = 0x80000000
# the most bytes of a record of a close, or of a header in an image
MOST_RECORD = 16777216
unpack_mark = struct.Struct(">I").unpack_from


class Piece(NamedTuple):
    """Bytes of a source: those from `start` to `end`, with the mark or gate before them at `at`."""

    at: int
    start: int
    end: int


def said(kind: str) -> str:
    """A kind of fault and what it means."""
    return f"{kind}, {MEANINGS[kind]}"


def marked_piece(source: Source, at: int, end: int, most: int) -> Piece:
    """What follows a mark at an offset, before an end. Raises FileFault for a mark or a piece that isn't all there."""
    if end - at < MARK_SIZE:
        raise source.fault(end, said("Short"))
    mark = unpack_mark(source.data, at)[0]
    start, size = at + MARK_SIZE, mark & ~TOP_BIT
    if not mark & TOP_BIT:
        raise source.fault(at, said("BadMark"))
    if size > most:
        raise source.fault(at, said("TooLong"))
    if end - start < size:
        raise source.fault(end, said("Short"))
    return Piece(at, start, start + size)


def pieces(source: Source, at: int = 0, end: Optional[int] = None, most: int = MOST_RECORD) -> Iterator[Piece]:
    """The records of a stream from an offset to an end, which is that of the source unless it is said. Raises
    FileFault."""
    end = source.size if end is None else end
    while at < end:
        piece = marked_piece(source, at, end, most)
        yield piece
        at = piece.end


def word_at(source: Source, piece: Piece, at: int) -> int:
    """The word at an offset in a piece. Raises FileFault."""
    if piece.end - piece.start < at + 4:
        raise source.fault(piece.end, said("Short"))
    return unpack_mark(source.data, piece.start + at)[0]


def is_vouched(source: Source, piece: Piece) -> bool:
    """Whether a record is of form 2. Raises FileFault."""
    return word_at(source, piece, 0) == VOUCHED_FORM


def ledger_of(source: Source, piece: Piece) -> int:
    """The ledger of a record, which is its first field, or its second one in form 2. Raises FileFault."""
    return word_at(source, piece, 4 if is_vouched(source, piece) else 0)


def entire(source: Source, piece: Piece, kind: Type) -> Value:
    """The value that a piece encodes. Raises FileFault."""
    try:
        return read_entire(kind, source.data[piece.start:piece.end])
    except XdrFault as fault:
        raise source.fault(piece.start + fault.offset, str(fault)) from None


def close_record(source: Source, piece: Piece) -> Value:
    """The CloseRecord of a piece. Raises FileFault."""
    return entire(source, piece, RECORD)
