"""A market for `closes.py`: an image with offers, and transactions that trade over it.

Ten assets of one issuer are traded for lumens both ways: 20 books. Each seller has a line in each asset and an offer in each book. 500
takers, with lines too, sell and buy across the books, offer at prices that nobody takes, change and remove what they offered, and pay
one another.
"""

import sys

from measuring import TOP, i32, i64

sys.path.insert(0, f"{TOP}/tests/models")
import ledger_model as model  # noqa: E402
import set_cases as sets  # noqa: E402
from entry_model import ASSET, OFFER  # noqa: E402
from offer_model import bound  # noqa: E402

TAKERS, ISSUER, FIRST_SELLER = 500, 999, 1_000
ASSETS = [sets.asset(f"A{number}", ISSUER) for number in range(10)]
BOOKS = [pair for asset in ASSETS for pair in ((asset, sets.LUMENS), (sets.LUMENS, asset))]
AMOUNT, LUMENS, HELD, LIMIT = 1_000, 10_000_000_000, 1_000_000, 10**15
SELL, PASSIVE, BUY = 3, 4, 12


def spelled_offer(seller, number, pair, price):
    fields = b"".join(pair) + i64(AMOUNT) + i32(price[0]) + i32(price[1])
    return sets.u32(0) + sets.key(seller) + i64(number) + fields + sets.u32(0) + sets.u32(0)


def offers_by(seller, first, count):
    """So many offers of a seller, one book after the other, with ids from `first` on; and what they sell and buy in each asset."""
    rows, owed = [], {}
    for number in range(count):
        pair, price = BOOKS[number % 20], (10_100 + (7 * seller + number) % 97, 10_000)
        text = spelled_offer(seller, first + number, pair, price)
        rows.append(sets.u32(2) + sets.u32(2) + text + sets.u32(0))
        for asset, side, amount in zip(pair, (1, 0), bound(OFFER.read(model.Text(text)))):
            owed.setdefault(asset, [0, 0])[side] += amount
    return rows, owed


def holder(name, offers, owed):
    """An account with lines in all assets, beside so many offers."""
    account = sets.Account(name, LUMENS, data=len(ASSETS) + offers, bound=owed.get(sets.LUMENS))
    return [account.xdr(), *(sets.Line(name, HELD, LIMIT, asset, bound=owed.get(asset)).xdr() for asset in ASSETS)]


def market(sellers, each, takers):
    """The entries of so many takers, of the issuer, and of so many sellers with so many offers each; and all lumens."""
    entries = [sets.Account(ISSUER, LUMENS).xdr()]
    for taker in range(takers):
        entries += holder(taker, 0, {})
    for number in range(sellers):
        rows, owed = offers_by(FIRST_SELLER + number, 1 + number * each, each)
        entries += holder(FIRST_SELLER + number, each, owed) + rows
    return [model.ENTRY.read(model.Text(text)) for text in entries], LUMENS * (1 + takers + sellers)


def offered(kind, pair, amount, price, number=0):
    fields = b"".join(pair) + i64(amount) + i32(price[0]) + i32(price[1])
    return sets.operation(kind, fields if kind == PASSIVE else fields + i64(number))


class Taker:
    """Makes transactions of takers in turn, and keeps their sequence numbers."""

    def __init__(self, others):
        self.index, self.numbers, self.own, self.others = 0, {}, {}, others

    def look(self, ledger):
        """Finds what the takers offer: the ids after those of the image."""
        self.own = {}
        for rank, entry in ledger.entries.items():
            if rank[0] == 2 and entry["body"][1]["offer"] > self.others:
                self.own.setdefault(rank[1], []).append(entry["body"][1])

    def operation(self, kind, source, seq):
        asset = ASSETS[(source + seq) % 10]
        own = self.own.get(sets.key(source))
        if kind < 5:
            return offered(SELL, (asset, sets.LUMENS) if kind % 2 else (sets.LUMENS, asset), 700, (1, 2))
        if kind == 5:
            return offered(BUY, (sets.LUMENS, asset), 700, (2, 1))
        if kind == 10:
            return sets.payment((source + 1) % TAKERS, 10, asset=asset)
        if kind > 7 and own:
            it = own.pop()
            pair = [ASSET.write(it[side]) for side in ("selling", "buying")]
            return offered(SELL, pair, 60 if kind == 8 else 0, (3, 1), it["offer"])
        return offered(PASSIVE if kind == 6 else SELL, (sets.LUMENS, asset), 50, (3, 1))

    def transaction(self, kind):
        self.index = (self.index + 7) % TAKERS
        self.numbers[self.index] = seq = self.numbers.get(self.index, 0) + 1
        return sets.sent(self.index, seq, self.operation(kind, self.index, seq))
