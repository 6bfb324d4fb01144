"""Files that are taken out of others: the records after a ledger, and the image and the records of a store.

Unproved.
"""

from __future__ import annotations

import os
import struct
from typing import Iterator

from file_source import FileFault, Source, opened
from ledger_store import Store, open_store
from new_files import write_files
from progress import Progress
from record_stream import TOP_BIT, ledger_of, pieces
from start_image import is_image, read_image

CHUNK = 1048576
pack_mark = struct.Struct(">I").pack


def chunks(source: Source, start: int, end: int) -> Iterator[bytes]:
    with Progress(end - start) as progress:
        for at in range(start, end, CHUNK):
            yield source.data[at:min(at + CHUNK, end)]
            progress.add(CHUNK)


def later_records(source: Source, ledger: int) -> Iterator[bytes]:
    """The records of ledgers after one, with their marks, in their order. Raises FileFault."""
    start = read_image(source).end if is_image(source) else 0
    for piece in pieces(source, start):
        if ledger_of(source, piece) > ledger:
            yield source.data[piece.at:piece.end]


def take_records(path: str, ledger: int, out: str, may_replace: bool) -> None:
    """Writes the records of a file that are of ledgers after one. Raises FileFault and OSError."""
    write_files({out: later_records(opened(path), ledger)}, may_replace)


def stream_of(store: Store) -> Iterator[bytes]:
    """The records of a store as a stream of records."""
    for piece in store.records:
        yield pack_mark(TOP_BIT | piece.end - piece.start) + store.journal.data[piece.start:piece.end]


def export_store(folder: str, image: str, records: str, may_replace: bool) -> None:
    """Writes the image of a store that counts, and the records after it. Raises FileFault and OSError."""
    store = open_store(folder)
    paths = [os.path.realpath(path) for path in (image, records)]
    if paths[0] == paths[1]:
        raise FileFault(records, "is the file of the image, too")
    for path, given in zip(paths, (image, records)):
        if os.path.dirname(path) == os.path.realpath(folder):
            raise FileFault(given, "is in the folder of the store")
    source = store.image.source
    write_files({image: chunks(source, store.image.start, store.image.end), records: stream_of(store)}, may_replace)
