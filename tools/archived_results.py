"""Results of an archive by their ledgers, and the hashes of their headers where those are known.

Unproved.
"""

from __future__ import annotations

import hashlib
from typing import Dict, List, NamedTuple, Optional

from file_source import Source
from history_file import HEADERS, KINDS, MOST_ENTRY, RESULTS, Part, entries, is_history, read_history, stream
from packed_file import opened_or_unpacked
from record_stream import Piece, entire, pieces, word_at
from stellar_xdr import LEDGER_HEADER
from xdr import Value, write


class ArchivedResults(NamedTuple):
    """A file's results, as the pieces of their ledgers, and the hashes of headers, or None where it has no headers."""

    source: Source
    results: Dict[int, Piece]
    hashes: Optional[Dict[int, str]]

    @property
    def ledgers(self) -> List[int]:
        """The ledgers that are there, in rising order."""
        return sorted(self.results if self.hashes is None else self.hashes)

    def has(self, ledger: int) -> bool:
        """Whether a ledger's results are known. A file of results may leave out those without transactions between its
        first and its last one."""
        if self.hashes is not None:
            return ledger in self.hashes
        return bool(self.results) and min(self.results) <= ledger <= max(self.results)

    def hash_of(self, ledger: int) -> Optional[str]:
        return None if self.hashes is None else self.hashes[ledger]

    def of(self, ledger: int) -> List[Value]:
        """The results of a ledger; none where it has no transactions. Raises FileFault."""
        piece = self.results.get(ledger)
        if piece is None:
            return []
        return entire(self.source, piece, KINDS[RESULTS])["txResultSet"]["results"]


def pieces_of(part: Part) -> Dict[int, Piece]:
    """The values of a stream of results by their ledgers, which are their first fields. Raises FileFault."""
    found: Dict[int, Piece] = {}
    for piece in pieces(part.source, part.start, part.end, MOST_ENTRY):
        ledger = word_at(part.source, piece, 0)
        if ledger in found:
            raise part.source.fault(piece.at, f"the results of ledger {ledger} are there twice")
        found[ledger] = piece
    return found


def hashes_of(part: Part) -> Dict[int, str]:
    """The hashes of headers by their ledgers. Raises FileFault."""
    headers = (entry.value["header"] for entry in entries(part))
    return {header["ledgerSeq"]: hashlib.sha256(write(LEDGER_HEADER, header)).hexdigest() for header in headers}


def read_results(path: str) -> ArchivedResults:
    """The results of an SLH1 file, which has headers, or of a results file of an archive. Raises FileFault and
    OSError."""
    source = opened_or_unpacked(path)
    if not is_history(source):
        return ArchivedResults(source, pieces_of(stream(source, RESULTS)), None)
    parts = read_history(source).parts
    return ArchivedResults(source, pieces_of(parts[RESULTS]), hashes_of(parts[HEADERS]))
