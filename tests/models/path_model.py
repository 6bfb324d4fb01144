"""Path payments of the ledger in Python, beside `ledger_model.py`: chains of hops, each entirely through a pool or a book. After
CAP-0038, PathPaymentOpFrameBase and convertWithOffersAndPools of stellar-core.
"""

from asset_model import credit, debit
from entry_model import ASSET, GREATEST, Layer, Refused, asset_rank, i32, i64, is_asset, issuer_of, many, muxed_key, refuse, u32
from offer_model import STRICT_RECEIVE, STRICT_SEND
from pool_model import FEE, change_pool, pool_id, pool_of
from trade_model import MOST_CROSSINGS, Trade, book, pair

# flag of a header
NO_TRADING = 1


def swapped(pool, sheep, send, receive):
    """What a pool takes and gives for sheep, where it can: of all that is sent, or for all that is wanted."""
    one, other = ("reserve_a", "reserve_b") if pool["a"] == sheep else ("reserve_b", "reserve_a")
    x, y = pool[one], pool[other]
    if not x or not y:
        return None
    if receive is None:
        out = (10_000 - FEE) * y * send // (10_000 * x + (10_000 - FEE) * send)
        return None if x + send > GREATEST or not out else (send, out, one, other)
    if receive >= y:
        return None
    put = -(-10_000 * x * receive // ((y - receive) * (10_000 - FEE)))
    return None if x + put > GREATEST else (put, receive, one, other)


class Chain:
    """The hops of a payment, which may cross so many offers together."""

    def __init__(self, frame, source):
        self.frame, self.source, self.left = frame, source, MOST_CROSSINGS

    def by_book(self, layer, sheep, wheat, send, receive):
        """What a book gives for what is sent, or takes for what is wanted; or why it can't."""
        rounding = STRICT_RECEIVE if send is None else STRICT_SEND
        trade = Trade(GREATEST if send is None else send, GREATEST if receive is None else receive, rounding, self.left, -11)
        try:
            trade.cross(self.frame, layer, self.source, book(layer, pair(wheat, sheep)))
        except Refused as fault:
            return fault
        served = trade.wheat == receive if send is None else trade.sheep == send
        return trade if served else Refused(-10)

    def hop(self, layer, sheep, wheat, send=None, receive=None):
        """The sheep that is sent, the wheat that comes, and the atoms, of one hop."""
        child = Layer(layer)
        found = self.by_book(child, sheep, wheat, send, receive)
        low, high = sorted((sheep, wheat), key=asset_rank)
        pool = None if self.frame.flags & NO_TRADING else pool_of(layer, pool_id(low, high))
        swap = pool and swapped(pool, sheep, send, receive)
        if swap and (isinstance(found, Refused) or not (found.sheep < swap[0] or found.wheat > swap[1])):
            put, out, one, other = swap
            digest = pool_id(low, high)
            change_pool(layer, digest, **{one: put, other: -out})
            atom = i32(2) + digest + ASSET.write(wheat) + i64(out) + ASSET.write(sheep) + i64(put)
            return put, out, [atom]
        if isinstance(found, Refused):
            raise found
        child.commit()
        self.left -= len(found.atoms)
        return found.sheep, found.wheat, found.atoms


def hops_of(op):
    """The pairs of a chain; equal neighbours are no hop."""
    chain = [op["asset"], *op["path"], op["to_asset"]]
    return [(one, other) for one, other in zip(chain, chain[1:]) if one != other]


def test(layer, op):
    refuse(min(op["amount"], op["to_amount"]) <= 0 or not all(map(is_asset, [op["asset"], op["to_asset"], *op["path"]])), -1)
    name = muxed_key(op["destination"])
    is_direct = op["asset"] == op["to_asset"] and not op["path"]
    refuse(layer.account(name) is None and not (is_direct and issuer_of(op["to_asset"]) == name), -5)
    return name


def success(atoms, name, asset, amount):
    return many(atoms) + u32(0) + name + ASSET.write(asset) + i64(amount)


def pay_exactly(frame, layer, source, op):
    """PATH_PAYMENT_STRICT_RECEIVE."""
    name = test(layer, op)
    credit(layer, name, op["to_asset"], op["to_amount"], -6, -7, -8)
    needed, atoms, chain = op["to_amount"], [], Chain(frame, source)
    for sheep, wheat in reversed(hops_of(op)):
        needed, _, more = chain.hop(layer, sheep, wheat, receive=needed)
        atoms = more + atoms
    refuse(needed > op["amount"], -12)
    debit(frame, layer, source, op["asset"], needed, -3, -4, -2)
    return success(atoms, name, op["to_asset"], op["to_amount"])


def send_exactly(frame, layer, source, op):
    """PATH_PAYMENT_STRICT_SEND."""
    name = test(layer, op)
    debit(frame, layer, source, op["asset"], op["amount"], -3, -4, -2)
    amount, atoms, chain = op["amount"], [], Chain(frame, source)
    for sheep, wheat in hops_of(op):
        _, amount, more = chain.hop(layer, sheep, wheat, send=amount)
        atoms += more
    refuse(amount < op["to_amount"], -12)
    credit(layer, name, op["to_asset"], amount, -6, -7, -8)
    return success(atoms, name, op["to_asset"], amount)


OPERATIONS = {2: pay_exactly, 13: send_exactly}
