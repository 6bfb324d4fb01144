"""Numbers at which the rules of an input's own ledger change: balances, what is left of them and of limits, numbers of
accounts and their ages, close times.

Mutations take them, and their neighbours, for numbers of 64 bits, since a bound that is compared exactly is hardly met
by chance. Python 3.9 or later and its standard library.
"""

from __future__ import annotations

from random import Random
from typing import Any, Dict, Iterator, List

import fuzz_paths  # noqa: F401
import entry_model as entries
from fuzz_parts import Parts
from stellar_xdr import LEDGER_HEADER, RECORD
from xdr import XdrFault, read_entire, write


def of_entry(entry: Dict[str, Any], reserve: int, seq: int, closes: List[int]) -> Iterator[int]:
    """Such numbers of an entry, in a ledger after which records close at some times."""
    kind, body = entry["body"]
    if kind == 0:
        said = entries.third(body)
        yield from (body["balance"], body["seq"] + 1, seq + 1 - said["ledger"])
        yield from (time - said["time"] for time in closes)
        yield from (entries.available(body, reserve) - count * reserve for count in (0, 1, 2))
    elif kind == 1:
        owed = entries.liabilities(body)
        yield from (body["balance"], body["balance"] - owed["selling"], body["limit"], body["limit"] - body["balance"])
        yield body["limit"] - body["balance"] - owed["buying"]
    elif kind == 2:
        yield from (body["amount"], body["offer"], body["price"]["n"] * body["amount"] // max(1, body["price"]["d"]))
    elif kind == 4:
        yield body["amount"]
    elif kind == 5:
        pool = body["body"][1]
        yield from (pool["reserve_a"], pool["reserve_b"], pool["shares"])


def times(parts: Parts) -> List[int]:
    """The close times of the image and of the records that read."""
    found = []
    for kind, data in [(LEDGER_HEADER, parts.header[0]), *((RECORD, record) for record in parts.records)]:
        try:
            found.append(read_entire(kind, data)["scpValue"]["closeTime"])
        except XdrFault:
            pass
    return found


def edges(rng: Random, parts: Parts, most: int) -> List[int]:
    """Such numbers, of some entries of an image."""
    closes = times(parts)
    found = list(closes)
    try:
        header = entries.read_entire(entries.HEADER, parts.header[0])
    except entries.Wrong:
        return found
    reserve = header["reserve"]
    found += [header["seq"] << 32, header["seq"] + 1 << 32, header["ids"], reserve, 2 * reserve, header["base_fee"]]
    items = [item for file in parts.files for item in file.items]
    for item in rng.sample(items, min(len(items), most)):
        try:
            arm, value = entries.read_entire(entries.ITEM, item)
        except entries.Wrong:
            continue
        if arm in (entries.LIVE, entries.INIT):
            found += of_entry(value, reserve, header["seq"], closes)
    return found


def set_turn(rng: Random, parts: Parts) -> None:
    """Sets the ledger or the close time of a record near those before it."""
    if not parts.records:
        return
    index = rng.randrange(len(parts.records))
    try:
        record = read_entire(RECORD, parts.records[index])
    except XdrFault:
        return
    if rng.random() < 0.3:
        record["ledgerSeq"] = max(0, min(2**32 - 1, record["ledgerSeq"] + rng.choice((-2, -1, 1))))
    else:
        before = times(Parts(parts.header, [], parts.records[:index])) or [0]
        record["scpValue"]["closeTime"] = max(0, min(2**64 - 1, before[-1] + rng.choice((-1, 0, 0, 1))))
    parts.records[index] = write(RECORD, record)
