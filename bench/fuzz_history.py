"""What a history of `verify` is made of, and its mutations: streams of headers, sets and results, with the hash and the
number before them (docs/FORMATS.md, "History").

After a mutation marks and lengths are those of what is there. Numbers, links and hashes are repaired, all or all but
one kind, since a chain that breaks at its first header says nothing of those after it. Python 3.9 or later and its
standard library.
"""

from __future__ import annotations

from dataclasses import dataclass
from random import Random
from typing import AbstractSet, Callable, Dict, FrozenSet, Iterator, List, Optional, Tuple

import fuzz_paths  # noqa: F401
import archive_model as archive
import fuzz_bytes
import ledger_model as model
from fuzz_parts import BadForm, Field, Piece, marked_pieces
from fuzz_repair import set_hash, sha256
from fuzz_sequences import reordered
from fuzz_values import Pool, mutated
from history_file import HEADERS, KINDS, LENGTH_SIZE, MAGIC, RESULTS, SETS, START_SIZE, ledger_of_entry
from image_bytes import marked
from stellar_xdr import LEDGER_HEADER, TRANSACTION_RESULT_SET
from xdr import Value, XdrFault, read_entire, write

U32_END = 2**32
HEAD = len(MAGIC) + START_SIZE
NO_RESULTS = write(TRANSACTION_RESULT_SET, {"results": []})
# what is repaired: records of no header, and of each header what its name says
STRAYS, NUMBER, LINK, SET, RESULT, OWN = "strays", "numbers", "links", "sets", "results", "hashes"
REPAIRS = (STRAYS, NUMBER, LINK, SET, RESULT, OWN)
Repairs = FrozenSet[str]


@dataclass
class History:
    """A history: the hash before it, its first ledger, and the records of its three streams, each with the bytes after
    the last that is all there."""

    before: bytes
    first: int
    streams: List[List[bytes]]
    rests: List[bytes]

    @property
    def data(self) -> bytes:
        files = [b"".join(map(marked, listed)) + rest for listed, rest in zip(self.streams, self.rests)]
        lengths = (len(file).to_bytes(LENGTH_SIZE, "big") for file in files)
        body = b"".join(part for pair in zip(lengths, files) for part in pair)
        return MAGIC + self.before + self.first.to_bytes(4, "big") + body

    def copy(self) -> "History":
        return History(self.before, self.first, [list(listed) for listed in self.streams], list(self.rests))

    def pieces(self) -> List[Piece]:
        return [Piece(KINDS[kind], listed, index)
                for kind, listed in enumerate(self.streams) for index in range(len(listed))]

    def values(self, kind: int) -> List[Value]:
        """The values of a stream. Raises XdrFault."""
        return [read_entire(KINDS[kind], data) for data in self.streams[kind]]

    def set_values(self, kind: int, values: List[Value]) -> None:
        self.streams[kind] = [write(KINDS[kind], value) for value in values]


def cut_history(data: bytes) -> Optional[History]:
    """The parts of a history; None where it isn't all there, or something is left over."""
    if data[:len(MAGIC)] != MAGIC or len(data) < HEAD:
        return None
    at, streams, rests = HEAD, [], []
    for _ in KINDS:
        start = at + LENGTH_SIZE
        at = start + int.from_bytes(data[at:start], "big")
        if max(start, at) > len(data):
            return None
        listed, rest = marked_pieces(data[start:at])
        streams.append(listed)
        rests.append(rest)
    if at < len(data):
        return None
    return History(data[len(MAGIC):HEAD - 4], int.from_bytes(data[HEAD - 4:HEAD], "big"), streams, rests)


def history_lengths(data: bytes) -> List[Field]:
    """Where the lengths and marks of a history are, with the number of its first ledger."""
    found: List[Field] = [(HEAD - 4, 4)]
    at = HEAD
    while at + LENGTH_SIZE <= len(data) and len(found) < 1000:
        found.append((at, LENGTH_SIZE))
        size = int.from_bytes(data[at:at + LENGTH_SIZE], "big")
        inside, at = at + LENGTH_SIZE, at + LENGTH_SIZE + size
        for piece in marked_pieces(data[inside:at])[0]:
            found.append((inside, 4))
            inside += 4 + len(piece)
    return found


def history_of(passphrase: bytes, data: bytes) -> Optional[bytes]:
    """The history of what an input closes up to a record that is refused; None where its image is refused."""
    gathered: List[bytes] = []
    try:
        for record, before, ledger in archive.closes(passphrase.decode(), data):
            if before is None:
                gathered = archive.begin_history(ledger)
            else:
                archive.add_history(gathered, record, before, ledger)
    except (model.Wrong, model.BadImage, model.BadRecord):
        pass
    return archive.history_text(*gathered) if gathered else None


# ---- repairs


def drawn_repairs(rng: Random) -> Repairs:
    """All repairs mostly, or all but one or two, or none."""
    drawn = rng.random()
    if drawn < 0.1:
        return frozenset()
    dropped = rng.sample(REPAIRS, 0 if drawn < 0.5 else 1 if drawn < 0.85 else 2)
    return frozenset(REPAIRS) - frozenset(dropped)


def name_of(repairs: Repairs) -> str:
    if not repairs:
        return "nothing repaired"
    return "all repaired" if len(repairs) == len(REPAIRS) else "repaired in part"


def renumber(history: History, headers: List[Value]) -> None:
    """Has headers be of one ledger after the other, and the records of the other streams of their headers' ledgers."""
    renumbered: Dict[int, int] = {}
    for count, value in enumerate(headers):
        header = value["header"]
        renumbered.setdefault(header["ledgerSeq"], (history.first + count) % U32_END)
        header["ledgerSeq"] = (history.first + count) % U32_END
    for kind in (SETS, RESULTS):
        values = history.values(kind)
        for value in values:
            value["ledgerSeq"] = renumbered.get(value["ledgerSeq"], value["ledgerSeq"])
        history.set_values(kind, values)


def drop_strays(history: History, numbers: List[int]) -> None:
    """Has the records of the other streams be of a header each, and in their order."""
    for kind in (SETS, RESULTS):
        by_number = {value["ledgerSeq"]: value for value in history.values(kind) if value["ledgerSeq"] in numbers}
        history.set_values(kind, [by_number[number] for number in sorted(by_number)])


def repair_chain(history: History, headers: List[Value], repairs: AbstractSet[str]) -> None:
    """Repairs what headers say of their sets, of their results and of the header before."""
    sets = {value["ledgerSeq"]: value["txSet"] for value in history.values(SETS)}
    results = {value["ledgerSeq"]: value["txResultSet"] for value in history.values(RESULTS)}
    last = history.before
    for value in headers:
        header = value["header"]
        seq = header["ledgerSeq"]
        if LINK in repairs:
            header["previousLedgerHash"] = last
        if SET in repairs:
            held = sets.get(seq, {"previousLedgerHash": header["previousLedgerHash"], "txs": []})
            header["scpValue"]["txSetHash"] = set_hash(held["previousLedgerHash"], held["txs"])
        if RESULT in repairs:
            encoded = write(TRANSACTION_RESULT_SET, results[seq]) if seq in results else NO_RESULTS
            header["txSetResultHash"] = sha256(encoded)
        if OWN in repairs:
            value["hash"] = sha256(write(LEDGER_HEADER, header))
        last = value["hash"]


def repair_history(history: History, repairs: AbstractSet[str]) -> None:
    """Repairs a history in place, where its records read."""
    try:
        headers = history.values(HEADERS)
        if NUMBER in repairs:
            renumber(history, headers)
        if STRAYS in repairs:
            drop_strays(history, [ledger_of_entry(HEADERS, value) for value in headers])
        repair_chain(history, headers, repairs)
        history.set_values(HEADERS, headers)
    except (XdrFault, ValueError):
        pass


# ---- mutations


def change_head(rng: Random, history: History) -> None:
    """Another hash before the first header, or another number of it."""
    if rng.random() < 0.3:
        history.before = fuzz_bytes.flip(rng, history.before)
    else:
        near = history.first + rng.choice((-1, 1, -2, 64))
        history.first = rng.choice((near, near, 0, 1, 2**31 - 1, 2**31, U32_END - 1, U32_END - 2)) % U32_END


def change_tested(rng: Random, history: History) -> None:
    """Another value of a field that is tested, in one record of a stream."""
    kind = rng.choice((HEADERS, HEADERS, SETS, RESULTS))
    values = history.values(kind)
    if not values:
        return
    value = rng.choice(values)
    if kind == HEADERS and rng.random() < 0.8:
        header = value["header"]
        of, name = rng.choice((
            (value, "hash"), (header, "previousLedgerHash"), (header["scpValue"], "txSetHash"),
            (header, "txSetResultHash"),
        ))
        other = rng.choice(values)["hash"]
        of[name] = rng.choice((fuzz_bytes.flip(rng, of[name]), other, bytes(32)))
    else:
        of = value["header"] if kind == HEADERS else value
        of["ledgerSeq"] = (of["ledgerSeq"] + rng.choice((-1, 1, 1, 2, 2**31))) % U32_END
    history.set_values(kind, values)


def add_empty(rng: Random, history: History) -> None:
    """Adds the record of a ledger without transactions to the sets or to the results, mostly where it belongs."""
    headers = history.values(HEADERS)
    if not headers:
        return
    header = rng.choice(headers)["header"]
    kind, seq = rng.choice((SETS, RESULTS)), header["ledgerSeq"]
    values = history.values(kind)
    body = ({"txSet": {"previousLedgerHash": header["previousLedgerHash"], "txs": []}} if kind == SETS
            else {"txResultSet": {"results": []}})
    numbers = [value["ledgerSeq"] for value in values]
    at = sum(number < seq for number in numbers) if rng.random() < 0.8 else rng.randint(0, len(values))
    values.insert(at, {"ledgerSeq": seq, **body, "ext": {"v": 0}})
    history.set_values(kind, values)


def change_records(rng: Random, history: History, donor: Optional[History]) -> None:
    """Drops, doubles or moves records of a stream, or takes one of another history's, or exchanges streams."""
    kind = rng.randrange(len(KINDS))
    if rng.random() < 0.05:
        other = rng.randrange(len(KINDS))
        streams = history.streams
        streams[kind], streams[other] = streams[other], streams[kind]
        return
    history.streams[kind] = reordered(rng, history.streams[kind], donor.streams[kind] if donor else [])


def change_pieces(rng: Random, history: History, pool: Pool) -> None:
    """One to some changes of values."""
    for _ in range(rng.choice((1, 1, 1, 2, 3))):
        pieces = history.pieces()
        if not pieces:
            return
        piece = rng.choice(pieces)
        try:
            piece.of[piece.index] = mutated(rng, piece.type, piece.data, pool, rng.choice((1, 1, 2, 4)))
        except XdrFault:
            piece.of[piece.index] = fuzz_bytes.changed(rng, piece.data)


def change_piece_bytes(rng: Random, history: History) -> None:
    """Other bytes of a record, or after the last one of a stream."""
    pieces = history.pieces()
    if pieces and rng.random() < 0.8:
        piece = rng.choice(pieces)
        piece.of[piece.index] = fuzz_bytes.changed(rng, piece.data)
    else:
        kind = rng.randrange(len(KINDS))
        history.rests[kind] = fuzz_bytes.changed(rng, history.rests[kind] or b"\x80\0\0\4")


def change_history(rng: Random, history: History, donor: Optional[History]) -> str:
    """Mutates a history and repairs it in part, or spoils it after that; answers what was done."""
    pool = Pool([])
    for each in (history, donor or history):
        for piece in rng.sample(each.pieces(), min(len(each.pieces()), 20)):
            pool.add_piece(piece)
    ways: Tuple[Tuple[str, Callable[[], None]], ...] = (
        ("bytes", lambda: change_piece_bytes(rng, history)),
        ("values", lambda: change_pieces(rng, history, pool)),
        ("sequences", lambda: change_records(rng, history, donor)),
        ("sequences", lambda: add_empty(rng, history)),
        ("head", lambda: change_head(rng, history)),
        ("tested fields", lambda: change_tested(rng, history)),
    )
    chosen = rng.choices(ways, (2, 4, 3, 1, 1, 2), k=rng.choice((1, 1, 1, 2)))
    repairs, is_after = drawn_repairs(rng), rng.random() < 0.3
    try:
        if is_after:
            repair_history(history, repairs)
        for _, change in chosen:
            change()
        if is_after and rng.random() < 0.5:
            repair_history(history, frozenset((OWN, LINK)))
        elif not is_after:
            repair_history(history, repairs)
    except (XdrFault, ValueError):
        pass
    return f"history, {chosen[0][0]}, {'spoiled after repairs' if is_after else name_of(repairs)}"


def changed_history(rng: Random, data: bytes, donor: Optional[bytes]) -> Tuple[bytes, str]:
    """A mutation of a history, and what was done to it."""
    history = cut_history(data)
    if history is None or rng.random() < 0.15:
        if rng.random() < 0.4:
            return fuzz_bytes.with_length(rng, data, history_lengths(data)), "history, lengths"
        return fuzz_bytes.changed(rng, data), "history, bytes, nothing repaired"
    level = change_history(rng, history, cut_history(donor) if donor else None)
    return history.data, level
