"""The headers of an archive's checkpoint, each judged: its hash, its ledger, and the hash of the one before it.

Unproved.
"""

from __future__ import annotations

import hashlib
from typing import Iterator, List, NamedTuple, Optional

from file_source import Source
from history_archive import first_of, stream_source
from history_file import HEADERS, entries, stream
from stellar_xdr import LEDGER_HEADER
from xdr import Value, write


class Header(NamedTuple):
    """A header, its encoding and hash, and the offset of its record mark in its file."""

    value: Value
    data: bytes
    hash: bytes
    at: int


def judged_headers(source: Source, first: int, before: Optional[bytes]) -> Iterator[Header]:
    """The headers of a file, which must be of the ledgers from one on, and follow the header of a hash where that is
    known. Raises FileFault."""
    for ledger, entry in enumerate(entries(stream(source, HEADERS)), first):
        header, at = entry.value["header"], entry.piece.at
        data = write(LEDGER_HEADER, header)
        digest = hashlib.sha256(data).digest()
        if header["ledgerSeq"] != ledger:
            raise source.fault(at, f"a header of ledger {header['ledgerSeq']} in place of {ledger}")
        if digest != entry.value["hash"]:
            raise source.fault(at, f"the header of ledger {ledger} has another hash than is stated, {digest.hex()}")
        if before is not None and header["previousLedgerHash"] != before:
            raise source.fault(at, f"the header of ledger {ledger} doesn't follow the one before it, {before.hex()}")
        yield Header(header, data, digest, at)
        before = digest


def checkpoint_headers(folder: str, checkpoint: int, before: Optional[bytes] = None) -> List[Header]:
    """All headers of a checkpoint. Raises FileFault and OSError."""
    source, first = stream_source(folder, HEADERS, checkpoint), first_of(checkpoint)
    found = list(judged_headers(source, first, before))
    if len(found) != checkpoint - first + 1:
        raise source.fault(source.size, f"the headers end before ledger {first + len(found)}, not behind {checkpoint}")
    return found
