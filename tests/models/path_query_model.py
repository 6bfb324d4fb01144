"""Queries for the cheapest path, beside `store_model.py`: what `path` prints over the files of a volume.

Each path of at most two distinct candidates is tried by the hops of a payment that receives an amount
(`path_model.py`), on changes of its own of the ledger's entries. The least cost, then the shortest path, and then the
candidates' positions decide.
"""

from itertools import permutations

from codec import xdr
from entry_model import ASSET, Frame, Layer, Refused, Wrong, is_asset, kind_of, read_entire
from path_model import Chain, hops_of
from store_model import BadStore, Missing, Store
from xdr import Items, Struct

MOST_BYTES, MOST_CANDIDATES = 8192, 12
QUERY = kind_of(Struct(
    source=xdr.ACCOUNT_ID, send=xdr.ASSET, dest=xdr.ASSET, amount=xdr.I64, candidates=Items(xdr.ASSET, 64)))


class Unanswered(Exception):
    """A query that isn't answered: the fault's name and its value."""


def cost_of(ledger, query, path):
    """How much of what is sent a path takes, or None."""
    source = query["source"][1]
    frame = Frame(ledger.header, ledger.header["value"]["time"], source, 0)
    chain, layer, needed = Chain(frame, source), Layer(ledger.entries), query["amount"]
    try:
        for sheep, wheat in reversed(hops_of({"asset": query["send"], "path": path, "to_asset": query["dest"]})):
            needed, _, _ = chain.hop(layer, sheep, wheat, receive=needed)
    except Refused:
        return None
    return needed


def candidates_of(query):
    """The distinct candidates, if the query is valid."""
    parts = [query["send"], query["dest"], None, *query["candidates"]]
    for index, asset in enumerate(parts):
        if query["amount"] <= 0 if asset is None else not is_asset(asset):
            raise Unanswered(f"BadQuery {index}")
    distinct = []
    for asset in query["candidates"]:
        if asset not in distinct:
            distinct.append(asset)
    if len(distinct) > MOST_CANDIDATES:
        raise Unanswered(f"TooMany {len(distinct)}")
    return distinct


def cheapest(ledger, query):
    """The least cost and its path, or None."""
    distinct = candidates_of(query)
    found = []
    for length in range(3):
        # by the positions of the first asset, and then of the second
        for positions in permutations(range(len(distinct)), length):
            path = [distinct[position] for position in positions]
            cost = cost_of(ledger, query, path)
            if cost is not None:
                found.append((cost, length, positions, path))
    return min(found, key=lambda row: row[:3], default=None)


def lines_of(found):
    if found is None:
        return "none\n"
    cost, _, _, path = found
    return f"cost {cost}\n" + "".join(f"via {ASSET.write(asset).hex()}\n" for asset in path)


def path(data, files):
    """What `path` yields over the files of a volume, which stay."""
    try:
        ledger = Store(files).ledger
    except Missing:
        return "", "missing\n", 11
    except BadStore as wrong:
        return "", f"bad store at {wrong.args[0]} {wrong.args[1]}\n", 7
    if len(data) > MOST_BYTES:
        return "", f"bad input at {MOST_BYTES}\n", 9
    try:
        return lines_of(cheapest(ledger, read_entire(QUERY, data))), "", 0
    except Wrong as wrong:
        return "", f"bad input at {wrong.at}\n", 9
    except Unanswered as fault:
        return f"refused {fault}\n", "", 3
