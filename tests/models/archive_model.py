"""What `history`, `changes` and `verify` write, worked out here: the three files of an archive (headers, transaction sets
and results, each entry after a record mark), the changes of entries, and whether such files form a chain
(docs/FORMATS.md; Stellar-ledger.x). It shares nothing with the program. Python 3.9 or later and its standard library.
"""

from codec import xdr
from entry_model import (
    ENTRY, HEADER, RECORD, U64, Kind, Text, Wrong, many, marked, read_entire, sha, u32, u64,
)
from ledger_model import BadImage, BadRecord, cut_image, ledger_of, take_mark

MAGIC = b"SLH1"
MOST_FILE = 268435456
MOST_RECORD = 2147483647
NO_EXT = u32(0)
FILES = Kind(xdr.LEDGER_HEADER_HISTORY_ENTRY), Kind(xdr.TRANSACTION_HISTORY_ENTRY), Kind(xdr.TRANSACTION_HISTORY_RESULT_ENTRY)
ENVELOPE = Kind(xdr.TRANSACTION_ENVELOPE)


# ---- closes of an input


def closes(passphrase, data):
    """Closes the records after an image. It yields the ledger as the image has it, and for each close its record, the
    entries before it and the ledger after it."""
    text = Text(data)
    ledger = ledger_of(sha(passphrase.encode()), *cut_image(text))
    yield None, None, ledger
    while text.at < len(data):
        record, before = text.take(take_mark(text, 16777216)), dict(ledger.entries)
        try:
            ledger.close(record)
        except BadRecord as wrong:
            raise BadRecord(f"refused {ledger.header['seq'] + 1} {wrong}") from None
        yield read_entire(RECORD, record), before, ledger


def written(passphrase, data, begin, add, end):
    """What a command writes that adds to a text at each close, and writes it at the end of the input alone."""
    try:
        runs = closes(passphrase, data)
        gathered = begin(next(runs)[2])
        for record, before, ledger in runs:
            add(gathered, record, before, ledger)
    except Wrong as wrong:
        return b"", f"bad input at {wrong.at}\n", 9
    except BadImage as wrong:
        return b"", f"bad image {wrong}\n", 10
    except BadRecord as wrong:
        return b"", f"{wrong}\n", 3
    return end(gathered), "", 0


# ---- history


def set_bytes(record):
    """The encoding of a record's set."""
    return record["set"]["previous"] + many([encoding for _, encoding in record["set"]["txs"]])


def records_of(seq, header, listed, results):
    """The records of a close for the three files, from its header, set and results as they are encoded; none for the
    last two where the set is empty."""
    first = marked(sha(header) + header + NO_EXT)
    if listed[32:] == u32(0):
        return first, b"", b""
    return first, marked(u32(seq) + listed + NO_EXT), marked(u32(seq) + results + NO_EXT)


def begin_history(ledger):
    return [MAGIC + ledger.hash + u32(ledger.header["seq"] + 1), b"", b"", b""]


def add_history(gathered, record, before, ledger):
    header, results = HEADER.write(ledger.header), many(ledger.results)
    for index, part in enumerate(records_of(ledger.header["seq"], header, set_bytes(record), results), 1):
        gathered[index] += part


def history_text(head, *files):
    return head + b"".join(u64(len(file)) + file for file in files)


def history(passphrase, data):
    """What `history` writes to its output and to standard error, and its status."""
    return written(passphrase, data, begin_history, add_history, lambda gathered: history_text(*gathered))


# ---- changes


def change(old, new):
    """A change of an entry: 0 and what was made, 1 and both, or 2 and what was removed."""
    if old is None:
        return u32(0) + ENTRY.write(new)
    return u32(2) + ENTRY.write(old) if new is None else u32(1) + ENTRY.write(old) + ENTRY.write(new)


def add_changes(gathered, record, before, ledger):
    after = ledger.entries
    for rank in sorted({*before, *after}):
        old, new = before.get(rank), after.get(rank)
        if old != new:
            gathered.append(marked(change(old, new)))


def changes(passphrase, data):
    """What `changes` writes to its output and to standard error, and its status."""
    return written(passphrase, data, lambda ledger: [], add_changes, b"".join)


# ---- verify


class Unverified(Exception):
    """The first fault of a history."""


def records(number, data):
    """The records of a file: the offset of each one's mark, and its value with the bytes of it that are hashed."""
    text, found, kind = Text(data), [], FILES[number]
    while text.at < len(data):
        mark = text.at
        try:
            size = take_mark(text, MOST_RECORD)
            if size > len(data) - text.at:
                raise Wrong(len(data), "Short")
            start, piece = text.at, Text(data[:text.at + size])
            piece.at = start
            value = kind.read(piece)
            if piece.at < start + size:
                raise Wrong(piece.at, "Trailing")
        except Wrong as wrong:
            fault = "BadMark" if wrong.at == mark and wrong.kind == "a mark" else wrong.kind
            raise Unverified(f"Xdr {number} {wrong.at} {fault}") from None
        skipped = 32 if number == 0 else 4
        found.append((mark, value, data[start + skipped:start + size - 4]))
        text.at = start + size
    return found


def find_stray(number, rows, numbers):
    """The hash of each ledger's record. None may stand after one of a greater number, or be of no header."""
    last, found = None, {}
    for mark, value, hashed in rows:
        seq = value["ledgerSeq"]
        if last is not None and seq <= last or seq not in numbers:
            raise Unverified(f"Stray {number} {mark}")
        last, found[seq] = seq, hashed
    return found


def set_bytes_hash(encoding):
    """The hash of a set by its encoding: envelopes are hashed as they stand, in the order of their hashes."""
    text = Text(encoding)
    previous, envelopes = text.take(32), []
    for _ in range(int.from_bytes(text.take(4), "big")):
        start = text.at
        ENVELOPE.read(text)
        envelopes.append(encoding[start:text.at])
    return sha(previous + b"".join(sorted(envelopes, key=sha)))


def verify_files(before, first, files):
    """How many ledgers files have and the hash of the last, where they form a chain. Raises Unverified."""
    headers, sets, results = (records(number, file) for number, file in enumerate(files))
    numbers = {value["header"]["ledgerSeq"] for _, value, _ in headers}
    sets, results = find_stray(1, sets, numbers), find_stray(2, results, numbers)
    last = before
    for count, (mark, value, encoding) in enumerate(headers):
        header = value["header"]
        seq, previous = header["ledgerSeq"], header["previousLedgerHash"]
        given_set = set_bytes_hash(sets[seq]) if seq in sets else sha(previous)
        given_results = sha(results[seq]) if seq in results else sha(u32(0))
        for holds, fault in [
            (seq != first + count, f"Seq {mark} {first + count} {seq}"),
            (value["hash"] != sha(encoding), f"HeaderHash {mark}"), (previous != last, f"Link {mark}"),
            (header["scpValue"]["txSetHash"] != given_set, f"SetHash {mark}"),
            (header["txSetResultHash"] != given_results, f"ResultHash {mark}"),
        ]:
            if holds:
                raise Unverified(fault)
        last = value["hash"]
    return len(headers), last


def cut_history(data):
    """The parts of a text as `history` writes it."""
    text = Text(data)
    magic = text.take(4)
    if magic != MAGIC:
        raise Wrong(0, "BadEnum")
    before, first, files = text.take(32), int.from_bytes(text.take(4), "big"), []
    for _ in range(3):
        at = text.at
        size = U64.read(text)
        if size > MOST_FILE:
            raise Wrong(at, "TooLong")
        files.append(text.take(size))
    if text.at < len(data):
        raise Wrong(text.at, "Trailing")
    return before, first, files


def verify(data):
    """What `verify` writes to its output and to standard error, and its status."""
    try:
        count, last = verify_files(*cut_history(data))
    except Wrong as wrong:
        return "", f"bad input at {wrong.at}\n", 9
    except Unverified as fault:
        return f"refused {fault}\n", "", 3
    return f"verified {count} {last.hex()}\n", "", 0
