"""Cases of maps of entries with undo, of the order books of their offers, and of sums.

They are answered by a plain list of entries, which shares nothing with the program; the order of each book, the offers after all layers
and the sums are compared with what was worked out by hand, from prices as fractions.
"""

from fractions import Fraction
from typing import Dict, List, Optional, Sequence, Tuple

from level_cases import DATA_KEY, INIT, INIT_V, meta, record
from operation_cases import Rank, rank_of_entry
from sponsor_cases import THINGS, Account
from xdr_words import i32, i64, many, u32, u64, var


def account_id(byte: int) -> bytes:
    return u32(0) + bytes([byte] * 32)


def usd(issuer: int) -> bytes:
    return u32(1) + b"USD\0" + account_id(issuer)


NATIVE = u32(0)
SELLER, OTHER = 7, 3
# what an offer sells and buys
DOLLARS, LUMENS, NOTHING = usd(SELLER) + NATIVE, NATIVE + usd(SELLER), NATIVE + NATIVE


def offer_body(seller: int, number: int, amount: int = 5, price: Tuple[int, int] = (1, 1), pair: bytes = NOTHING) -> bytes:
    return account_id(seller) + i64(number) + pair + i64(amount) + i32(price[0]) + i32(price[1]) + u32(0) + u32(0)


def entry(kind: int, body: bytes, seq: int = 1) -> bytes:
    return u32(seq) + u32(kind) + body + u32(0)


def offer(seller: int, number: int, amount: int = 5, price: Tuple[int, int] = (1, 1), pair: bytes = NOTHING, seq: int = 1) -> bytes:
    return entry(2, offer_body(seller, number, amount, price, pair), seq)


def key(seller: int, number: int) -> bytes:
    return u32(2) + account_id(seller) + i64(number)


class Sheet:
    """Entries as a plain dictionary by the ranks of their keys, and the lines of a case with what is expected of them."""

    def __init__(self, *entries: bytes):
        self.base: Dict[Rank, bytes] = {rank_of_entry(it): it for it in entries}
        self.now, self.kept = dict(self.base), []
        file = meta(18) + b"".join(record(INIT, self.base[it]) for it in sorted(self.base)) if entries else b""
        self.lines = [f"maps {(var(file) + var(b'') * 21).hex()}"]
        self.expected: List[str] = []

    def step(
        self, name: str, erased: Sequence[bytes] = (), put: Sequence[bytes] = (), asked: Sequence[bytes] = (), pair: bytes = NOTHING,
        seller: int = SELLER, book: Sequence[int] = (), own: Optional[Sequence[int]] = None, sums: Optional[Tuple[int, int]] = None,
    ) -> None:
        """Takes a step. Where an order book, an account's own offers or sums are given, they were worked out by hand."""
        if name == "child":
            self.kept.append(dict(self.now))
        elif name in ("keep", "undo"):
            last = self.kept.pop()
            self.now = last if name == "undo" else self.now
        for it in erased:
            self.now.pop(rank_of_key(it), None)
        for it in put:
            self.now[rank_of_entry(it)] = it
        found = [number for _, number in self.book(pair)]
        assert not book or found == [*book], found
        # (offers are numbered from 1 on; one of number 0 is none of its account's)
        owned = [rank[2] for rank in sorted(self.now) if rank[:2] == (2, bytes([seller] * 32)) and rank[2] > 0]
        assert own is None or owned == [*own], owned
        held = sums or (self.held(pair[: len(pair) - 4] if pair[:4] != NATIVE else NATIVE), self.held(NATIVE))
        words = [f"{self.shown(rank if rank in self.now else None)} {self.next(rank)}" for rank in map(rank_of_key, asked)]
        words += ["best", *found[:1], "book", *found, "own", *owned, *held, self.changes()]
        arguments = many(erased) + many(put) + many(asked) + offer_body(seller, 0, 0, (1, 1), pair)
        self.lines.append(f"{name} {arguments.hex()}")
        self.expected.append(f"{name}: {' '.join(map(str, words))}")

    def shown(self, rank: Optional[Rank]) -> str:
        """An entry by the ledger that changed it, and an offer by its number and amount too."""
        if rank is None:
            return "none"
        entry = self.now[rank]
        numbers = [entry[:4]]
        if rank[0] == 2:
            # (an offer ends with its amount, the two parts of its price, its flags and two empty extensions)
            numbers += [entry[44:52], entry[-28:-20]]
        return " ".join(str(int.from_bytes(it, "big")) for it in numbers)

    def next(self, rank: Rank) -> str:
        return self.shown(min((it for it in self.now if it > rank), default=None))

    def book(self, pair: bytes) -> List[Tuple[Fraction, int]]:
        offers = [it[8:-4] for rank, it in self.now.items() if rank[0] == 2 and it[52 : 52 + len(pair)] == pair]
        return sorted(position_of(it) for it in offers)

    def held(self, asset: bytes) -> int:
        """What all entries hold of an asset, where it is none that is given by hand."""
        assert not any(rank[0] != 2 for rank in self.now) or asset == NATIVE
        return sum(int.from_bytes(it[44:52], "big") for rank, it in self.now.items() if rank[0] == 0)

    def changes(self) -> str:
        new = [it for it in sorted(self.now) if it not in self.base]
        changed = [it for it in sorted(self.now) if it in self.base and self.now[it][4:] != self.base[it][4:]]
        gone = [it for it in sorted(self.base) if it not in self.now]
        numbers = (str(it[2]) for it in gone if it[0] == 2)
        return " ".join(["new", *map(self.shown, new), "changed", *map(self.shown, changed), "gone", *numbers])


def rank_of_key(encoded: bytes) -> Rank:
    return rank_of_entry(bytes(4) + encoded + bytes(60))


def position_of(body: bytes) -> Tuple[Fraction, int]:
    """The position of an offer in its order book: its price as a fraction, and its number."""
    parts = [int.from_bytes(body[at : at + 4], "big") for at in (len(body) - 16, len(body) - 12)]
    return Fraction(*parts), int.from_bytes(body[36:44], "big")


# ---- layers, of offers 0 and on, each of a hundred times its number

LISTED = [(0, 0), (2, 200), (3, 33), (4, 400), (5, 500), (6, 600), (7, 700), (8, 800), (9, 900), (11, 1100)]


def first_offers(count: int) -> List[bytes]:
    return [offer(SELLER, number, 100 * number) for number in range(count)]


def three_layers() -> Sheet:
    """The lowest layer erases, changes and puts an offer; the next erases the changed one, puts the erased one otherwise, and puts
    one; the last puts one back as it was, and erases two, one of which no base has."""
    sheet = Sheet(*first_offers(10))
    sheet.step("stay", [key(SELLER, 3)], [offer(SELLER, 5, 55, seq=2), offer(SELLER, 11, 1100, seq=2)])
    sheet.step("child", [key(SELLER, 5)], [offer(SELLER, 3, 33, seq=3), offer(SELLER, 12, 1200, seq=3)])
    all_keys = [key(SELLER, number) for number in range(16)]
    numbers = [number for number, _ in LISTED]
    sheet.step("child", [key(SELLER, 12), key(SELLER, 1)], [offer(SELLER, 5, 500, seq=4)], all_keys, book=numbers, own=numbers[1:])
    assert [sheet.shown(it).split()[1:] for it in sorted(sheet.now)] == [[str(number), str(amount)] for number, amount in LISTED]
    return sheet


def dropped_child() -> Sheet:
    """A child that is given up leaves no trace."""
    sheet = Sheet(*first_offers(3))
    sheet.step("child", [key(SELLER, 1)])
    sheet.step("undo", asked=[key(SELLER, 1)], own=[1, 2])
    return sheet


def kept_child() -> Sheet:
    sheet = Sheet(*first_offers(1))
    sheet.step("child", put=[offer(SELLER, 1, 100)])
    sheet.step("keep", asked=[key(SELLER, 0), key(SELLER, 1)], own=[1])
    return sheet


# ---- order books: offer 5 at a half, 3 at two quarters, 9 at a third, and one of the other pair that is cheaper

BOOK = [
    offer(seller, number, 5, price, pair) for seller, number, price, pair in [
        (SELLER, 5, (1, 2), DOLLARS), (OTHER, 3, (2, 4), DOLLARS), (SELLER, 9, (1, 3), DOLLARS), (SELLER, 1, (1, 100), LUMENS),
    ]
]


def ranked_book() -> Sheet:
    """By price and number; a child that is given up puts the best offer back."""
    sheet = Sheet()
    sheet.step("stay", put=BOOK, pair=DOLLARS, book=[9, 3, 5])
    sheet.step("child", [key(SELLER, 9)], pair=DOLLARS, book=[3, 5])
    sheet.step("undo", pair=DOLLARS, book=[9, 3, 5])
    sheet.step("stay", pair=LUMENS, book=[1])
    return sheet


def new_price() -> Sheet:
    """A new price is a new position, and an account's offers are in the order of their numbers."""
    sheet = Sheet()
    sheet.step("stay", put=BOOK, seller=SELLER, own=[1, 5, 9])
    sheet.step("stay", seller=OTHER, own=[3])
    sheet.step("stay", seller=5, own=[])
    sheet.step("child", put=[offer(OTHER, 3, 5, (1, 1), DOLLARS)])
    sheet.step("keep", pair=DOLLARS, book=[9, 5, 3])
    return sheet


def close_prices() -> Sheet:
    """Prices that differ by less than a float of 64 bits has."""
    prices = [(1, (2147483646, 2147483647)), (2, (2147483645, 2147483646)), (3, (2147483647, 2147483646))]
    sheet = Sheet()
    sheet.step("stay", put=[offer(SELLER, number, 5, price, DOLLARS) for number, price in prices], pair=DOLLARS, book=[2, 1, 3])
    return sheet


def changed_base() -> Sheet:
    """A base in which offer 9 is erased, offer 3 has another price, and offer 7 is new."""
    sheet = Sheet(*BOOK[:3])
    sheet.step("stay", pair=DOLLARS, book=[9, 3, 5])
    new = [offer(SELLER, 7, 5, (1, 4), DOLLARS), offer(OTHER, 3, 5, (1, 1), DOLLARS)]
    sheet.step("stay", [key(SELLER, 9)], new, pair=DOLLARS, book=[7, 5, 3])
    return sheet


def each_kind() -> Sheet:
    """An entry of each kind is put, and erased by the call of its kind."""
    things = {
        name: u32(1) + (Account(20_000_000).body("new") if name == "Account" else thing.body) + u32(0) for name, thing in THINGS.items()
    }
    keys = [thing.key for thing in THINGS.values()]
    sheet = Sheet()
    sheet.step("stay", put=[*things.values()], asked=keys, sums=(HELD, HELD))
    sheet.step("stay", keys, asked=keys, sums=(0, 0))
    return sheet


# the account's lumens and those of the claimable balance
HELD = 20_000_001


# ---- levels


def made_once() -> Sheet:
    """One entry that a level says to be made is in the base."""
    sheet = Sheet()
    entry_made = INIT_V[24:]
    sheet.lines = [f"maps {(var(INIT_V) + var(b'') * 21).hex()}"]
    sheet.base = {rank_of_entry(entry_made): entry_made}
    sheet.now = dict(sheet.base)
    sheet.step("stay", asked=[DATA_KEY], sums=(0, 0))
    return sheet


def made_twice() -> Sheet:
    """There is no base where two levels say that an entry is made."""
    sheet = Sheet()
    sheet.lines = [f"maps {((var(INIT_V) + var(b'') * 7) + var(INIT_V) + var(b'') * 13).hex()}"]
    sheet.expected = ["case: BAD"]
    return sheet


# ---- sums


def account(byte: int, balance: int) -> bytes:
    counts = i64(balance) + i64(0) + u32(0) + u32(0) + u32(0)
    return entry(0, account_id(byte) + counts + var(b"") + bytes([1, 0, 0, 0]) + many([]) + u32(0))


def line(asset: bytes, balance: int) -> bytes:
    return entry(1, account_id(SELLER) + asset + i64(balance) + i64(2**63 - 1) + u32(1) + u32(0))


def claimable(byte: int, asset: bytes, amount: int) -> bytes:
    return entry(4, u32(0) + bytes([byte] * 32) + many([]) + asset + i64(amount) + u32(0))


POOL = bytes([9] * 32)
SHARES = u32(3) + POOL
POOL_ENTRY = entry(5, POOL + u32(0) + NATIVE + usd(OTHER) + i32(30) + i64(100) + i64(30) + i64(50_000) + i64(1))


def sums() -> Sheet:
    """Accounts of which one has the first of all keys, lines in USD, in the other USD and in shares, claimable balances in lumens and
    in USD, and the pool of both: each entry counts for its asset, and shares for none."""
    sheet = Sheet()
    sheet.step("stay", sums=(0, 0))
    entries = [
        account(0, 1_000), account(SELLER, 20), line(usd(OTHER), 300), line(usd(SELLER), 4_000), line(SHARES, 50_000),
        claimable(1, NATIVE, 5), claimable(2, usd(OTHER), 7), POOL_ENTRY,
    ]
    sheet.step("stay", put=entries, sums=(1_125, 1_125))
    for asset, held in [(usd(OTHER), 337), (usd(SELLER), 4_000)]:
        sheet.step("stay", pair=asset + NATIVE, sums=(held, 1_125))
    return sheet


def greatest_sum() -> Sheet:
    """A sum may pass 64 bits."""
    sheet = Sheet()
    sheet.step("stay", put=[account(byte, 2**63 - 1) for byte in (OTHER, SELLER)], sums=(2**64 - 2, 2**64 - 2))
    return sheet


def sheets() -> List[Sheet]:
    made = [three_layers, dropped_child, kept_child, ranked_book, new_price, close_prices, changed_base, each_kind]
    return [it() for it in [*made, made_once, made_twice, sums, greatest_sum]]
