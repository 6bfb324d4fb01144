"""Records of closes from the ledgers of a history archive, and a file of their headers, sets and results.

Judged are the chain of the headers, and of each ledger the hashes of its set and of its results by its header.
Unproved.
"""

from __future__ import annotations

from tempfile import TemporaryFile
from typing import IO, Dict, Iterator, List, NamedTuple, Optional

from file_source import FileFault, Source
from header_chain import Header, checkpoint_headers
from history_archive import CHECKPOINT, checkpoint_of, first_of, stream_source
from history_file import HEADERS, KINDS, MAGIC, MOST_ENTRY, RESULTS, SETS
from image_bytes import marked, pack_length, sha256
from new_files import write_files
from packed_file import CHUNK, MOST_HISTORY
from progress import Note
from record_stream import MOST_RECORD, Piece, entire, pieces, word_at
from stellar_xdr import CLOSE_RECORD, TRANSACTION_ENVELOPE, TRANSACTION_RESULT_SET
from xdr import U32, Value, write

# the first ledger that was closed; the one before it was made
FIRST_CLOSED = 2


class Ledger(NamedTuple):
    """A closed ledger."""

    header: Header
    set: Value
    results: Value


def by_ledger(source: Source, first: int, last: int) -> Dict[int, Piece]:
    """The values of a checkpoint's sets or results by their ledgers, which are their first fields and rise. Raises
    FileFault."""
    found: Dict[int, Piece] = {}
    before = first - 1
    for piece in pieces(source, 0, source.size, MOST_ENTRY):
        ledger = word_at(source, piece, 0)
        if not before < ledger <= last:
            raise source.fault(piece.at, f"a value of ledger {ledger} after that of {before}, up to {last}")
        found[ledger] = piece
        before = ledger
    return found


def set_hash(value: Value) -> bytes:
    """The hash of a TransactionSet, whose envelopes are hashed in the order of their own hashes."""
    envelopes = sorted((write(TRANSACTION_ENVELOPE, envelope) for envelope in value["txs"]), key=sha256)
    return sha256(value["previousLedgerHash"] + b"".join(envelopes))


def set_of(source: Source, header: Header, piece: Optional[Piece]) -> Value:
    """The set of a ledger, which has none in its file where it is empty. Raises FileFault."""
    found = {"previousLedgerHash": header.value["previousLedgerHash"], "txs": []}
    if piece is not None:
        found = entire(source, piece, KINDS[SETS])["txSet"]
    if set_hash(found) != header.value["scpValue"]["txSetHash"]:
        raise wrong(source, header, piece, "set")
    return found


def results_of(source: Source, header: Header, piece: Optional[Piece]) -> Value:
    """The results of a ledger, which has none in its file where they are empty. Raises FileFault."""
    found = {"results": []} if piece is None else entire(source, piece, KINDS[RESULTS])["txResultSet"]
    if sha256(write(TRANSACTION_RESULT_SET, found)) != header.value["txSetResultHash"]:
        raise wrong(source, header, piece, "list of results")
    return found


def wrong(source: Source, header: Header, piece: Optional[Piece], what: str) -> FileFault:
    """The fault of a set or of results that have another hash than their header says."""
    where, missing = (source.size, ", which is missing,") if piece is None else (piece.at, "")
    return source.fault(where, f"the {what} of ledger {header.value['ledgerSeq']}{missing} isn't that of its header")


def checkpoint_ledgers(folder: str, checkpoint: int, before: Optional[bytes]) -> Iterator[Ledger]:
    """The closed ledgers of a checkpoint. Raises FileFault and OSError."""
    headers = checkpoint_headers(folder, checkpoint, before)
    first = first_of(checkpoint)
    sets, results = (stream_source(folder, kind, checkpoint) for kind in (SETS, RESULTS))
    set_pieces, result_pieces = (by_ledger(source, first, checkpoint) for source in (sets, results))
    for ledger, header in enumerate(headers, first):
        if ledger >= FIRST_CLOSED:
            found = set_of(sets, header, set_pieces.get(ledger))
            yield Ledger(header, found, results_of(results, header, result_pieces.get(ledger)))


def ledgers_between(folder: str, first: int, last: int) -> Iterator[Ledger]:
    """The ledgers from one to another. Raises FileFault and OSError."""
    before: Optional[bytes] = None
    with Note() as note:
        for checkpoint in range(checkpoint_of(first), checkpoint_of(last) + 1, CHECKPOINT):
            note.say(f"checkpoint {checkpoint} of {checkpoint_of(last)}")
            for ledger in checkpoint_ledgers(folder, checkpoint, before):
                before = ledger.header.hash
                if first <= ledger.header.value["ledgerSeq"] <= last:
                    yield ledger


class Kept:
    """The three streams of some ledgers as they are met, in files that have no name, and what stands before them."""

    def __init__(self) -> None:
        self.start = b""
        self.files: List[IO[bytes]] = [TemporaryFile() for _ in KINDS]

    def add(self, kind: int, value: Value) -> None:
        self.files[kind].write(marked(write(KINDS[kind], value)))

    def keep(self, ledger: Ledger) -> None:
        """Adds a ledger; one without transactions has no value in the sets and in the results."""
        header = ledger.header.value
        if not self.start:
            self.start = MAGIC + header["previousLedgerHash"] + write(U32, header["ledgerSeq"])
        self.add(HEADERS, {"hash": ledger.header.hash, "header": header, "ext": {"v": 0}})
        if ledger.set["txs"]:
            self.add(SETS, {"ledgerSeq": header["ledgerSeq"], "txSet": ledger.set, "ext": {"v": 0}})
            self.add(RESULTS, {"ledgerSeq": header["ledgerSeq"], "txResultSet": ledger.results, "ext": {"v": 0}})

    def chunks(self, path: str) -> Iterator[bytes]:
        """The file of all three. Raises FileFault where a stream is too long."""
        yield self.start
        for file in self.files:
            size = file.tell()
            if size > MOST_HISTORY:
                raise FileFault(path, f"{size} bytes of a stream are above {MOST_HISTORY}; fewer ledgers fit")
            yield pack_length(size)
            file.seek(0)
            while chunk := file.read(CHUNK):
                yield chunk


def record_of(ledger: Ledger, folder: str) -> bytes:
    """The record of a close after its mark. Raises FileFault where it is too long."""
    header = ledger.header.value
    number = header["ledgerSeq"]
    data = write(CLOSE_RECORD, {"ledgerSeq": number, "txSet": ledger.set, "scpValue": header["scpValue"]})
    if len(data) > MOST_RECORD:
        raise FileFault(folder, f"the record of ledger {number} has {len(data)} bytes, above {MOST_RECORD}")
    return marked(data)


def records(folder: str, first: int, last: int, kept: Kept) -> Iterator[bytes]:
    for ledger in ledgers_between(folder, first, last):
        kept.keep(ledger)
        yield record_of(ledger, folder)


def write_records(folder: str, first: int, last: int, out: str, results: Optional[str], may_replace: bool) -> None:
    """Writes the records of ledgers, and where that is asked a file of their history. Raises FileFault and OSError."""
    kept = Kept()
    contents = {out: records(folder, first, last, kept)}
    if results is not None:
        # written after the records, as they are in this order
        contents[results] = kept.chunks(results)
    write_files(contents, may_replace)
