"""A store's four files (docs/FORMATS.md, "Stores" and "Journals"), as they open: an image that counts, and the records
after it.

In format 2 the top bit of the epoch's word is set, and the SHA-256 of the image stands between its length and itself;
without that bit the format is 1. Records of form 2 stand in a store of format 2 alone.

The faults are those of FORMATS, at their offsets, and one more that the program finds when it closes the records: a
journal's record that isn't of the next ledger, at its gate. Neither the other rules of records nor those of images are
judged here. Nothing is written. Unproved.
"""

from __future__ import annotations

import hashlib
import os
import struct
from typing import List, NamedTuple, Optional, Tuple

from file_source import FileFault, Source, opened
from record_stream import MOST_RECORD, Piece, close_record, is_vouched, ledger_of
from start_image import StartImage, read_image

IMAGES, JOURNALS = ("image0", "image1"), ("journal0", "journal1")
OPEN = 1
EPOCH_AT, NETWORK_AT, LENGTH_AT, HASH_AT = 1, 9, 41, 49
# the bytes before an image in each format
HEAD_SIZES = {1: 49, 2: 81}
LEAST_SIZE = 49
FORMAT_BIT = 2**63
# the first epoch that a store of format 1 doesn't have
EPOCHS_END = 2**63 - 1
unpack_u32, unpack_u64 = struct.Struct(">I").unpack_from, struct.Struct(">Q").unpack_from


class Store(NamedTuple):
    """What a store opens to: the format (1 or 2) and epoch of its image, and that one. `journal` is the file of its
    records, and `records` are its pieces in their order."""

    format: int
    epoch: int
    network_id: bytes
    image: StartImage
    journal: Source
    records: Tuple[Piece, ...]

    @property
    def last_ledger(self) -> int:
        return self.image.header["ledgerSeq"] + len(self.records)


def bad(source: Source, offset: int, why: str) -> FileFault:
    return source.fault(offset, f"BadStore, {why}")


def file_of(folder: str, name: str) -> Source:
    """A file of a store; one that is missing has no bytes."""
    path = os.path.join(folder, name)
    try:
        return opened(path)
    except FileNotFoundError:
        return Source(path, b"")


class Head(NamedTuple):
    """What stands before an image."""

    epoch: int
    format: int


def is_open(image: Source) -> bool:
    return image.size >= LEAST_SIZE and image.data[0] == OPEN


def head_of(index: int, image: Source) -> Head:
    """The head of an open image. Raises FileFault where it doesn't fit its file, or its hash the image."""
    word, length = unpack_u64(image.data, EPOCH_AT)[0], unpack_u64(image.data, LENGTH_AT)[0]
    epoch, number = word % FORMAT_BIT, 1 + word // FORMAT_BIT
    start = HEAD_SIZES[number]
    if epoch % 2 != index:
        raise bad(image, EPOCH_AT, f"epoch {epoch} is in the file of others")
    if number == 1 and epoch == EPOCHS_END:
        raise bad(image, EPOCH_AT, f"no store of format 1 has epoch {epoch}")
    if length != image.size - start:
        raise bad(image, LENGTH_AT, f"the image has {image.size - start} bytes and not {length}")
    stated = image.data[HASH_AT:start]
    if number == 2 and hashlib.sha256(memoryview(image.data)[start:]).digest() != stated:
        raise bad(image, HASH_AT, "the image has another hash")
    return Head(epoch, number)


def stored_image(source: Source, start: int) -> StartImage:
    """The image after an open head. Raises FileFault where that isn't one, or isn't all."""
    try:
        image = read_image(source, start)
    except FileFault as fault:
        raise bad(source, start, f"no start image: at {fault.offset}, {fault.what}") from None
    if image.end != source.size:
        raise bad(source, start, f"bytes after the start image, at {image.end}")
    return image


def journal_piece(journal: Source, gate: int) -> Optional[Piece]:
    """The record after a gate, or None where that is closed. Raises FileFault."""
    if gate >= journal.size:
        raise bad(journal, gate, "a gate is missing")
    if journal.data[gate] != OPEN:
        return None
    start = gate + 5
    if start > journal.size:
        raise bad(journal, gate, "the record after an open gate is cut")
    length = unpack_u32(journal.data, gate + 1)[0]
    if length > MOST_RECORD:
        raise bad(journal, gate, "the record after an open gate is too long")
    if start + length > journal.size:
        raise bad(journal, gate, "the record after an open gate is cut")
    return Piece(gate, start, start + length)


def journal_pieces(journal: Source) -> List[Piece]:
    """The records of a journal. Raises FileFault."""
    found: List[Piece] = []
    piece = journal_piece(journal, 0)
    while piece is not None:
        found.append(piece)
        piece = journal_piece(journal, piece.end)
    return found


def is_of_ledger(journal: Source, piece: Piece, ledger: int) -> bool:
    try:
        return ledger_of(journal, piece) == ledger
    except FileFault:
        return False


def following_pieces(journal: Source, ledger: int, number: int) -> List[Piece]:
    """The records of a journal in a format, which must be of the ledgers after one. Raises FileFault."""
    found = journal_pieces(journal)
    for expected, piece in enumerate(found, ledger + 1):
        if not is_of_ledger(journal, piece, expected):
            raise bad(journal, piece.at, f"the record isn't of ledger {expected}")
        if number == 1 and is_vouched(journal, piece):
            raise bad(journal, piece.at, "a record of form 2 in a store of format 1")
    return found


def open_store(folder: str) -> Store:
    """What the files of a folder open to. Raises FileFault, and OSError where a file can't be read."""
    os.listdir(folder)
    images = [file_of(folder, name) for name in IMAGES]
    heads = {index: head_of(index, image) for index, image in enumerate(images) if is_open(image)}
    if not heads:
        raise FileFault(folder, "Missing, no image is open")
    index = max(heads, key=lambda index: heads[index].epoch)
    head, source, journal = heads[index], images[index], file_of(folder, JOURNALS[index])
    image = stored_image(source, HEAD_SIZES[head.format])
    records = following_pieces(journal, image.header["ledgerSeq"], head.format)
    network_id = source.data[NETWORK_AT:LENGTH_AT]
    return Store(head.format, head.epoch, network_id, image, journal, tuple(records))


def stored_record(store: Store, piece: Piece) -> object:
    """The CloseRecord of a record of a store. Raises FileFault, at its gate."""
    try:
        return close_record(store.journal, piece)
    except FileFault as fault:
        raise bad(store.journal, piece.at, f"the record doesn't read: at {fault.offset}, {fault.what}") from None
