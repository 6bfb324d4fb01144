"""Queries of `path` and their mutations: what is sent and what arrives, amounts and candidates are those of the ledger
in a store. Stores that are made of an input.

Python 3.9 or later and its standard library.
"""

from __future__ import annotations

from random import Random
from typing import Dict, List, NamedTuple

import fuzz_paths  # noqa: F401
import fuzz_bytes
from fuzz_edges import edges
from fuzz_parts import Parts
from fuzz_trials import NO_FILES, Trial
from fuzz_values import Pool, mutated, places
from image_bytes import marked
from stellar_xdr import ACCOUNT_ID, ASSET, BUCKET_ENTRY
from store_model import image_file, journal_file
from xdr import I64, Items, Struct, Value, XdrFault, read_entire, write

MOST_BYTES, MOST_CANDIDATES, MOST_LISTED = 8192, 12, 64
QUERY = Struct(source=ACCOUNT_ID, send=ASSET, dest=ASSET, amount=I64, candidates=Items(ASSET, MOST_LISTED))
NATIVE: Value = {"type": "ASSET_TYPE_NATIVE"}
AMOUNTS = (1, 2, 7, 10, 99, 100, 101, 996, 1000, 10**6, 10**9, 2**62, 2**63 - 1)
# so many entries of an image are looked at
MOST_ENTRIES = 60
GREATEST = 2**63 - 1


class Traded(NamedTuple):
    """What queries are made of: accounts, assets and amounts of a ledger."""

    accounts: List[Value]
    assets: List[Value]
    amounts: List[int]


def traded_in(rng: Random, parts: Parts) -> Traded:
    """Those of an image, of whose entries offers and pools come first."""
    items = [item for file in parts.files for item in file.items]
    chosen = rng.sample(items, min(len(items), MOST_ENTRIES))
    accounts: List[Value] = []
    assets: Dict[bytes, Value] = {write(ASSET, NATIVE): NATIVE}
    for item in chosen:
        try:
            root = [read_entire(BUCKET_ENTRY, item)]
        except XdrFault:
            continue
        for place in places(BUCKET_ENTRY, root, 0):
            if place.type is ASSET:
                assets[write(ASSET, place.value)] = place.value
            elif place.type is ACCOUNT_ID:
                accounts.append(place.value)
    ends = [amount for amount in edges(rng, parts, MOST_ENTRIES) if 0 < amount <= GREATEST]
    return Traded(accounts, list(assets.values()), ends or list(AMOUNTS))


def amount_of(rng: Random, traded: Traded) -> int:
    near = rng.choice(traded.amounts) + rng.choice((-1, 0, 0, 1))
    part = rng.choice(traded.amounts) // rng.choice((1, 2, 3, 10, 100))
    return max(-1, min(GREATEST, rng.choice((near, part, part, rng.choice(AMOUNTS)))))


def candidates_of(rng: Random, traded: Traded) -> List[Value]:
    """Candidates, some of them again."""
    count = rng.choice((0, 0, 1, 2, 3, 4, 5, 8, MOST_CANDIDATES, MOST_CANDIDATES + 1))
    listed = rng.sample(traded.assets, min(len(traded.assets), count))
    while listed and rng.random() < 0.2 and len(listed) < MOST_LISTED:
        listed.insert(rng.randint(0, len(listed)), rng.choice(listed))
    return listed


def made_query(rng: Random, traded: Traded) -> Value:
    """A query among some assets of the ledger."""
    return {
        "source": rng.choice(traded.accounts or [{"type": "PUBLIC_KEY_TYPE_ED25519", "ed25519": bytes(32)}]),
        "send": rng.choice(traded.assets), "dest": rng.choice(traded.assets), "amount": amount_of(rng, traded),
        "candidates": candidates_of(rng, traded),
    }


def many_candidates(rng: Random, query: Value) -> None:
    """As many distinct candidates as there may be, or one more, or as many in all."""
    def numbered(number: int) -> Value:
        return {"type": "ASSET_TYPE_CREDIT_ALPHANUM4", "alphaNum4": {
            "assetCode": b"X%d" % number + bytes(3 - len(str(number))), "issuer": query["source"]}}

    count = rng.choice((MOST_CANDIDATES - 1, MOST_CANDIDATES, MOST_CANDIDATES + 1, MOST_CANDIDATES + 2))
    new = [numbered(number) for number in range(count - len(query["candidates"]))]
    listed = query["candidates"] + new
    if rng.random() < 0.3:
        listed = (listed * MOST_LISTED)[:MOST_LISTED]
    query["candidates"] = listed[:MOST_LISTED]


def changed_query(rng: Random, query: bytes, traded: Traded) -> bytes:
    """A query with one or some changes of its values or its bytes, or that goes on behind its end."""
    drawn = rng.random()
    if drawn < 0.1:
        return fuzz_bytes.changed(rng, query)
    if drawn < 0.15:
        rest = MOST_BYTES - len(query)
        return query + bytes(max(0, rng.choice((1, 4, rest, rest + 1, 20000))))
    pool = Pool(traded.amounts)
    for asset in traded.assets[:20]:
        pool.add(ASSET, asset)
    try:
        value = read_entire(QUERY, query)
        if drawn < 0.3:
            many_candidates(rng, value)
        elif drawn < 0.6:
            value["amount"] = amount_of(rng, traded)
            rng.shuffle(value["candidates"])
        new = write(QUERY, value)
        return mutated(rng, QUERY, new, pool, rng.choice((1, 1, 2, 3))) if drawn > 0.55 else new
    except (XdrFault, ValueError):
        return fuzz_bytes.changed(rng, query)


def drawn_query(rng: Random, parts: Parts, given: bytes) -> bytes:
    """A query for the ledger of some parts: one that is made, or one that is given, as it is or mutated."""
    traded = traded_in(rng, parts)
    query = write(QUERY, made_query(rng, traded)) if not given or rng.random() < 0.3 else given
    return changed_query(rng, query, traded) if rng.random() < 0.6 else query


def store_of(rng: Random, trial: Trial, parts: Parts, network_id: bytes) -> Trial:
    """A store of an input's image, of either format, with some of its records in the journal."""
    kept = rng.randint(0, len(parts.records))
    image = image_file(0, network_id, parts.image, form=rng.choice((1, 2, 2)))
    files = (image, NO_FILES[1], journal_file(parts.records[:kept]), NO_FILES[3])
    rest = b"".join(map(marked, parts.records[kept:])) + parts.rest
    return trial._replace(kind="stored", files=files, data=rest)
