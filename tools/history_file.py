"""Files of a ledger's history: streams of headers, of sets or of results, as history archives have them, or all three
in one file.

In such a stream each value stands after a record mark. The file of all three is the bytes `SLH1`, the hash of the
header before the first one, the number of the first ledger as a u32, and the three streams in this order, each after
its length as a u64. A ledger without transactions may be left out of the sets and of the results. Unproved.
"""

from __future__ import annotations

import struct
from typing import Iterator, List, NamedTuple, Optional, Tuple

from file_source import FileFault, Source
from packed_file import MOST_HISTORY
from record_stream import TOP_BIT, Piece, entire, pieces, said
from stellar_xdr import (
    LEDGER_HEADER_HISTORY_ENTRY, TRANSACTION_HISTORY_ENTRY, TRANSACTION_HISTORY_RESULT_ENTRY, Type,
)
from xdr import Value

MAGIC = b"SLH1"
HEADERS, SETS, RESULTS = range(3)
KINDS: Tuple[Type, ...] = (LEDGER_HEADER_HISTORY_ENTRY, TRANSACTION_HISTORY_ENTRY, TRANSACTION_HISTORY_RESULT_ENTRY)
MOST_ENTRY = TOP_BIT - 1
unpack_start, unpack_length = struct.Struct(">32sI").unpack_from, struct.Struct(">Q").unpack_from
START_SIZE, LENGTH_SIZE = 36, 8


class Part(NamedTuple):
    """The bytes of a source from `start` to `end`, which are a stream of one kind: HEADERS, SETS or RESULTS."""

    source: Source
    kind: int
    start: int
    end: int


class Entry(NamedTuple):
    """A value of a stream, and where it stands."""

    piece: Piece
    value: Value


class History(NamedTuple):
    """The file of all three streams: the hash of the header before the first one, the first ledger, and the parts."""

    before: bytes
    first: int
    parts: Tuple[Part, ...]


def is_history(source: Source) -> bool:
    """Whether a source begins as a file of all three streams does."""
    return source.data[:len(MAGIC)] == MAGIC


def read_history(source: Source) -> History:
    """The file of all three streams, by its lengths alone. Raises FileFault."""
    at = len(MAGIC) + START_SIZE
    if not is_history(source) and source.size >= len(MAGIC):
        raise source.fault(0, f"no file of history, which begins with {MAGIC.decode()}")
    if source.size < at:
        raise source.fault(source.size, said("Short"))
    before, first = unpack_start(source.data, len(MAGIC))
    parts: List[Part] = []
    for kind in range(len(KINDS)):
        if source.size - at < LENGTH_SIZE:
            raise source.fault(source.size, said("Short"))
        size = unpack_length(source.data, at)[0]
        if size > MOST_HISTORY:
            raise source.fault(at, said("TooLong"))
        start, at = at + LENGTH_SIZE, at + LENGTH_SIZE + size
        if at > source.size:
            raise source.fault(source.size, said("Short"))
        parts.append(Part(source, kind, start, at))
    if at < source.size:
        raise source.fault(at, said("Trailing"))
    return History(before, first, tuple(parts))


def entries(part: Part) -> Iterator[Entry]:
    """The values of a stream. Raises FileFault."""
    for piece in pieces(part.source, part.start, part.end, MOST_ENTRY):
        yield Entry(piece, entire(part.source, piece, KINDS[part.kind]))


def kind_of(source: Source) -> int:
    """The kind of a stream, which is that of its first value. Raises FileFault where that is of none."""
    first: Optional[Piece] = next(pieces(source, 0, source.size, MOST_ENTRY), None)
    for kind, type_of_kind in enumerate(KINDS):
        try:
            if first is None or entire(source, first, type_of_kind) is not None:
                return kind
        except FileFault:
            pass
    raise source.fault(first.start if first else 0, "the first value is no header, set or results of a ledger")


def stream(source: Source, kind: int) -> Part:
    """All of a source as a stream."""
    return Part(source, kind, 0, source.size)


def ledger_of_entry(kind: int, value: Value) -> int:
    return value["header"]["ledgerSeq"] if kind == HEADERS else value["ledgerSeq"]
