"""Trades of the ledger in Python: the operations on offers, beside those of `ledger_model.py`, and the offers that go where a line
loses its authorisation. After CAP-0003 and CAP-0006, and OfferExchange, ManageOfferOpFrameBase and SponsorshipUtils of stellar-core.
"""

import bisect
import heapq

from entry_model import (
    ASSET, EXCEEDED_WORK_LIMIT, GREATEST, OFFER, available, change, count, i32, i64, is_asset, liabilities, many, pay, rank_of_key, refuse,
    remove_subentry, sponsor_of, test_subentry, u32, with_sponsor,
)
from offer_model import NORMAL, adjusted, bound, exchange, holder, holders, table

# how many offers an operation may cross
MOST_CROSSINGS = 1000

AUTHORIZED = 1

# what becomes of an offer
CREATED, UPDATED, DELETED = 0, 1, 2

# ---- what an account has of an asset


def has(frame, layer, rank):
    """What is available under the key of an account or a line, which may be below 0; an issuer has as much as it likes."""
    if rank is None:
        return GREATEST
    kind, body = layer.get(rank)["body"]
    return available(body, frame.reserve) if kind == 0 else body["balance"] - liabilities(body)["selling"]


def room(layer, rank):
    """How much more fits under a key."""
    if rank is None:
        return GREATEST
    kind, body = layer.get(rank)["body"]
    return (GREATEST if kind == 0 else body["limit"]) - body["balance"] - liabilities(body)["buying"]


def pay_at(layer, rank, delta):
    if rank is not None:
        change(layer, rank, balance=layer.get(rank)["body"][1]["balance"] + delta)


def bind(layer, offer, sign):
    """Adds what an offer binds to its seller's entries, or takes it away."""
    for side, rank, amount in zip(("selling", "buying"), holders(offer), bound(offer)):
        if rank is not None:
            body = layer.get(rank)["body"][1]
            owed, more = liabilities(body), body["ext"][1]["ext"] if body["ext"][0] else (0, None)
            change(layer, rank, ext=(1, {"liabilities": {**owed, side: owed[side] + sign * amount}, "ext": more}))


# ---- existing offers


def rank_of(offer):
    return rank_of_key((2, {"seller": offer["seller"], "offer": offer["offer"]}))


def pair(selling, buying):
    """What names an order book."""
    return ASSET.write(selling) + ASSET.write(buying)


def pair_of(offer):
    return pair(offer["selling"], offer["buying"])


def dearness(price):
    """A whole number that orders prices as fractions do: of parts of 31 bits, two that differ are 2**-62 apart at least."""
    return (price["n"] << 64) // price["d"]


def position_of(rank, offer):
    """What orders an order book."""
    return dearness(offer["price"]), offer["offer"], rank


class Entries(dict):
    """Entries by the ranks of their keys, and the order books of the offers among them."""

    def __init__(self, entries):
        super().__init__()
        self.books = {}
        for rank, entry in entries.items():
            self[rank] = entry

    def __setitem__(self, rank, entry):
        self.drop(rank)
        super().__setitem__(rank, entry)
        if rank[0] == 2:
            offer = entry["body"][1]
            bisect.insort(self.books.setdefault(pair_of(offer), []), position_of(rank, offer))

    def __delitem__(self, rank):
        self.drop(rank)
        super().__delitem__(rank)

    def drop(self, rank):
        """Takes an existing offer out of its order book."""
        if rank[0] == 2 and rank in self:
            offer = self[rank]["body"][1]
            listed = self.books[pair_of(offer)]
            del listed[bisect.bisect_left(listed, position_of(rank, offer))]


def changes_over(layer):
    """The entries below all layers, and the offers that layers changed, by the ranks of their keys; None for one that is gone."""
    if isinstance(layer, Entries):
        return layer, {}
    entries, changed = changes_over(layer.below)
    changed.update((rank, entry and entry["body"][1]) for rank, entry in layer.changes.items() if rank[0] == 2)
    return entries, changed


def cancel(layer, offer):
    """Removes an offer, and what it binds."""
    bind(layer, offer, -1)
    remove_subentry(layer, offer["seller"][1], rank_of(offer))


def revoke_offers(layer, name, asset):
    """Removes the offers of an account that sell an asset or buy it."""
    entries, changed = changes_over(layer)
    existing = {rank: entry["body"][1] for rank, entry in entries.items() if rank[:2] == (2, name)}
    for _, offer in sorted((existing | changed).items()):
        if offer is not None and offer["seller"][1] == name and asset in (offer["selling"], offer["buying"]):
            cancel(layer, offer)


# ---- trades


def book(layer, wanted):
    """The offers of a pair, from the best on, as they are before any of them is crossed."""
    entries, changed = changes_over(layer)
    own = sorted(position_of(rank, offer) for rank, offer in changed.items() if offer is not None and pair_of(offer) == wanted)
    others = [position for position in entries.books.get(wanted, []) if position[2] not in changed]
    for _, _, rank in heapq.merge(own, others):
        yield changed[rank] if rank in changed else entries[rank]["body"][1]


def encoded_atom(offer, wheat, sheep):
    sold, bought = ASSET.write(offer["selling"]), ASSET.write(offer["buying"])
    return i32(1) + u32(0) + offer["seller"][1] + i64(offer["offer"]) + sold + i64(wheat) + bought + i64(sheep)


def what_offer_gives(frame, layer, offer, amount):
    gives, takes = holders(offer)
    return adjusted(offer["price"], min(amount, max(0, has(frame, layer, gives))), room(layer, takes))


class Trade:
    """A taker sends sheep and receives wheat, up to a bound of each, and may cross so many offers; `own` is the code for an own one."""

    def __init__(self, sheep_send, wheat_receive, rounding=NORMAL, crossings=MOST_CROSSINGS, own=-8):
        self.sheep_send, self.wheat_receive, self.sheep, self.wheat, self.atoms = sheep_send, wheat_receive, 0, 0, []
        self.rounding, self.crossings, self.own = rounding, crossings, own

    @property
    def is_done(self):
        return self.sheep == self.sheep_send or self.wheat == self.wheat_receive

    def meet(self, frame, layer, offer):
        """Crosses an offer; answers whether it stays."""
        bind(layer, offer, -1)
        gives, takes = holders(offer)
        amount = what_offer_gives(frame, layer, offer, offer["amount"])
        left = self.wheat_receive - self.wheat, self.sheep_send - self.sheep
        wheat, sheep, stays = exchange(offer["price"], amount, *left, room(layer, takes), rounding=self.rounding)
        pay_at(layer, takes, sheep)
        pay_at(layer, gives, -wheat)
        self.atoms.append(encoded_atom(offer, wheat, sheep))
        self.wheat += wheat
        self.sheep += sheep
        rest = what_offer_gives(frame, layer, offer, amount - wheat) if stays else 0
        if rest:
            change(layer, rank_of(offer), amount=rest)
            bind(layer, {**offer, "amount": rest}, 1)
        else:
            remove_subentry(layer, offer["seller"][1], rank_of(offer))
        return stays

    def cross(self, frame, layer, taker, offers, greatest=None, is_passive=False):
        """Crosses the offers of a book that aren't too dear; answers whether the taker has what it asked for."""
        for index, offer in enumerate(offers):
            if self.is_done:
                return True
            if greatest is not None:
                price, most = dearness(offer["price"]), dearness(greatest)
                if most < price or is_passive and not price < most:
                    return False
            refuse(offer["seller"][1] == taker, self.own)
            if index == self.crossings:
                raise EXCEEDED_WORK_LIMIT
            if self.meet(frame, layer, offer):
                return True
        return self.is_done


# ---- operations


def test_lines(layer, gives, takes):
    if gives is not None and gives[0] == 1:
        line = layer.get(gives)
        refuse(line is None, -2)
        refuse(line["body"][1]["balance"] == 0, -7)
        refuse(not line["body"][1]["flags"] & AUTHORIZED, -4)
    if takes is not None and takes[0] == 1:
        line = layer.get(takes)
        refuse(line is None, -3)
        refuse(not line["body"][1]["flags"] & AUTHORIZED, -5)


def manage(frame, layer, source, offer, sells, buys):
    """Makes, changes or removes an offer, which sells so much at most, or buys so much where a number is given for that."""
    price, amount, number = offer["price"], sells if buys is None else buys, offer["offer"]
    pair = offer["selling"], offer["buying"]
    refuse(not all(map(is_asset, pair)) or pair[0] == pair[1] or amount < 0 or min(price.values()) <= 0, -1)
    refuse(number < 0 or amount == number == 0, -1)
    old = layer.get(rank_of(offer)) if number else None
    if number:
        refuse(old is None, -11)
        if amount == 0:
            cancel(layer, old["body"][1])
            return many([]) + i32(DELETED)
    gives, takes = (holder(source, asset) for asset in pair)
    test_lines(layer, gives, takes)
    if old is not None:
        payer, offer = sponsor_of(old), {**offer, "flags": old["body"][1]["flags"]}
        bind(layer, old["body"][1], -1)
        layer.erase(rank_of(offer))
    else:
        payer, offer = frame.open.get(source), {**offer, "offer": frame.ids + 1}
        test_subentry(frame, layer, source, -12)
        count(layer, source, subs=1)
        pay(layer, source, payer, 1)
    trade = cross_for(frame, layer, offer, sells, buys)
    rest = rest_of(frame, layer, offer, trade, sells, buys)
    result = many(trade.atoms)
    if not rest:
        count(layer, source, subs=-1)
        pay(layer, source, payer, -1)
        return result + i32(DELETED)
    kept = {**offer, "amount": rest}
    base = {"modified": frame.seq, "ext": (0, None)} if old is None else old
    layer.put(with_sponsor({**base, "body": (2, kept)}, payer))
    bind(layer, kept, 1)
    if old is None:
        frame.ids += 1
    return result + i32(CREATED if old is None else UPDATED) + OFFER.write(kept)


def least(limit, there):
    return there if limit is None else min(limit, there)


def cross_for(frame, layer, offer, sells, buys):
    """Crosses the other side's offers for an offer that is out of the book, and pays its owner."""
    source, price, (gives, takes) = offer["seller"][1], offer["price"], holders(offer)
    wheat, sheep, _ = table(price, least(sells, GREATEST), GREATEST, GREATEST, least(buys, GREATEST))
    refuse(not room(layer, takes) or room(layer, takes) < sheep, -6)
    refuse(has(frame, layer, gives) < wheat, -7)
    trade = Trade(least(sells, max(0, has(frame, layer, gives))), least(buys, room(layer, takes)))
    offers = book(layer, pair(offer["buying"], offer["selling"]))
    trade.has_all = trade.cross(frame, layer, source, offers, {"n": price["d"], "d": price["n"]}, offer["flags"] == 1)
    pay_at(layer, gives, -trade.sheep)
    pay_at(layer, takes, trade.wheat)
    return trade


def rest_of(frame, layer, offer, trade, sells, buys):
    """What is still offered after a trade."""
    if trade.has_all:
        return 0
    gives, takes = holders(offer)
    send = max(0, has(frame, layer, gives))
    most = send if sells is None else min(sells - trade.sheep, send)
    receive = room(layer, takes) if buys is None else min(buys - trade.wheat, room(layer, takes))
    return adjusted(offer["price"], most, receive)


def asked(source, op, number, price, flags=0):
    return dict(
        seller=(0, source), offer=number, selling=op["selling"], buying=op["buying"], amount=0, price=price, flags=flags, ext=(0, None),
    )


def sell(frame, layer, source, op):
    return manage(frame, layer, source, asked(source, op, op["offer"], op["price"]), op["amount"], None)


def sell_passively(frame, layer, source, op):
    return manage(frame, layer, source, asked(source, op, 0, op["price"], 1), op["amount"], None)


def buy(frame, layer, source, op):
    price = {"n": op["price"]["d"], "d": op["price"]["n"]}
    return manage(frame, layer, source, asked(source, op, op["offer"], price), None, op["amount"])


OPERATIONS = {3: sell, 4: sell_passively, 12: buy}
