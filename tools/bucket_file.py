"""Bucket files (CAP-0020; docs/FORMATS.md, "Bucket files"): their items, and the newest of each key of several files.

Unproved.
"""

from __future__ import annotations

from heapq import merge
from typing import Any, Dict, Iterable, Iterator, NamedTuple, Sequence, Tuple

from file_source import Source
from record_stream import TOP_BIT, entire, marked_piece
from stellar_xdr import BUCKET_ENTRY
from xdr import Value

MOST_ITEM = TOP_BIT - 1
# the faults of a file whose items read
NO_META = "NoMeta, the first item isn't META"
SECOND_META = "SecondMeta, a later item is META"
ORDER = "Order, a key isn't above the one before it"

Rank = Tuple[Any, ...]


class BucketFile(NamedTuple):
    """A bucket's file in a source: its level, `curr` or `snap`, and its bytes from `start` to `end`."""

    level: int
    name: str
    start: int
    end: int


class Item(NamedTuple):
    """An item of a bucket's file: the offset of its mark, its bytes, its BucketEntry, and its key as what orders it."""

    file: BucketFile
    at: int
    data: bytes
    value: Value
    rank: Rank


def asset_rank(asset: Dict) -> Rank:
    kind = asset["type"]
    if kind == "ASSET_TYPE_CREDIT_ALPHANUM4":
        return 1, asset["alphaNum4"]["assetCode"], asset["alphaNum4"]["issuer"]["ed25519"]
    if kind == "ASSET_TYPE_CREDIT_ALPHANUM12":
        return 2, asset["alphaNum12"]["assetCode"], asset["alphaNum12"]["issuer"]["ed25519"]
    return (0,) if kind == "ASSET_TYPE_NATIVE" else (3, asset["liquidityPoolID"])


# what orders the keys of each type, from the fields of an entry or of a key
RANKS = {
    "ACCOUNT": lambda key: (0, key["accountID"]["ed25519"]),
    "TRUSTLINE": lambda key: (1, key["accountID"]["ed25519"], *asset_rank(key["asset"])),
    "OFFER": lambda key: (2, key["sellerID"]["ed25519"], key["offerID"]),
    "DATA": lambda key: (3, key["accountID"]["ed25519"], key["dataName"]),
    "CLAIMABLE_BALANCE": lambda key: (4, key["balanceID"]["v0"]),
    "LIQUIDITY_POOL": lambda key: (5, key["liquidityPoolID"]),
}


def rank_of(value: Value) -> Rank:
    """What orders the key of LIVE, INIT or DEAD among the keys of a file."""
    name, body = value.values()
    kind, fields = body.values() if name == "DEADENTRY" else body["data"].values()
    return RANKS[kind](fields)


def items(source: Source, file: BucketFile) -> Iterator[Item]:
    """The items of a file; META first, whose rank is (). Raises FileFault for the first fault of the file."""
    at, last = file.start, None
    while at < file.end:
        piece = marked_piece(source, at, file.end, MOST_ITEM)
        data, value = source.data[piece.start:piece.end], entire(source, piece, BUCKET_ENTRY)
        is_meta = value["type"] == "METAENTRY"
        if is_meta is not (last is None):
            raise source.fault(at, SECOND_META if is_meta else NO_META)
        rank = () if is_meta else rank_of(value)
        if last is not None and rank <= last:
            raise source.fault(at, ORDER)
        yield Item(file, at, data, value, rank)
        at, last = piece.end, rank


def newest(source: Source, files: Sequence[BucketFile]) -> Iterator[Item]:
    """The items of entries that are in the ledger, in the order of their keys.

    Of each key that is the newest item, which is in the first file that has the key, unless it is DEAD. Raises
    FileFault for the first fault that is met.
    """

    def ranked(index: int, file: BucketFile) -> Iterable[Tuple[Rank, int, Item]]:
        return ((item.rank, index, item) for item in items(source, file) if item.rank)

    last: Rank = ()
    for rank, _, item in merge(*(ranked(index, file) for index, file in enumerate(files))):
        if rank != last and item.value["type"] != "DEADENTRY":
            yield item
        last = rank
