"""A world for `closes.py`: an image with offers and pools, and transactions of all 24 operations over it.

The market of `trading.py`, whose issuer can take authorisations back and claw back, and ten pools of lumens and an asset with 10**9 of
both. The takers do one operation after the other: they pay, directly and along paths of two hops, offer and buy, put into pools and take
out, make accounts, lines, data and claimable balances, sponsor and revoke that, and are flagged and clawed back by the issuer.
"""

import sys

from measuring import TOP

sys.path.insert(0, f"{TOP}/tests/models")
import ledger_model as model  # noqa: E402
import pool_tools as pools  # noqa: E402
import set_cases as sets  # noqa: E402
from case_tools import entry, line  # noqa: E402
from trading import ASSETS, BUY, FIRST_SELLER, ISSUER, LIMIT, LUMENS, PASSIVE, SELL, TAKERS, market, offered  # noqa: E402

POOLER, RESERVE = 998, 10**9
# AUTH_REVOCABLE and AUTH_CLAWBACK_ENABLED; of a line, AUTHORIZED and TRUSTLINE_CLAWBACK_ENABLED
CLAWING, CLAWED = 10, 5
POOLS = [pools.pool_of(sets.LUMENS, asset) for asset in ASSETS]


def flagged(value):
    """An entry of the market, where the issuer can take back what it allows."""
    kind, body = value["body"]
    if kind == 0 and body["id"] == (0, sets.key(ISSUER)):
        return {**value, "body": (kind, {**body, "flags": CLAWING})}
    return {**value, "body": (kind, {**body, "flags": CLAWED})} if kind == 1 else value


def world(sellers, each, takers):
    """The entries of a market with pools, and all lumens."""
    entries, coins = market(sellers, each, takers)
    pooled = [pools.pool(sets.LUMENS, asset, RESERVE, RESERVE, RESERVE, 1) for asset in ASSETS]
    lines = [line(POOLER, asset, 0, LIMIT, uses=1) for asset in ASSETS]
    shares = [pools.share(POOLER, digest, RESERVE) for digest in POOLS]
    holder = entry(sets.Account(POOLER, LUMENS, data=3 * len(ASSETS)))
    return [*map(flagged, entries), holder, *lines, *shares, *pooled], coins + LUMENS + pools.lumens_in(pooled)


def along(kind, to, first, path, last, one, other):
    return sets.operation(kind, first + sets.i64(one) + sets.muxed(to) + last + sets.i64(other) + sets.many(path))


class Doer:
    """Makes transactions of takers in turn, and keeps their sequence numbers."""

    def __init__(self):
        self.index, self.numbers, self.made = 0, {}, 0

    def look(self, ledger):
        pass

    def operations(self, kind, source, seq):
        """The operations of a transaction, and who signs beside its source."""
        asset, next_asset, other = ASSETS[source % 10], ASSETS[(source + 1) % 10], (source + 1) % TAKERS
        digest, balance, name = POOLS[source % 10], sets.balance_id(source, seq - 1), b"name %d" % (seq % 3)
        code = f"A{source % 10}"
        self.made += 1
        return [
            ([sets.create_account(10**6 + self.made, 20_000_000)], []),
            ([sets.payment(other, 10, asset=asset)], []),
            ([along(2, other, asset, [sets.LUMENS], next_asset, 10**6, 50)], []),
            ([offered(SELL, (asset, sets.LUMENS), 700, (1, 2))], []),
            ([offered(PASSIVE, (sets.LUMENS, asset), 50, (3, 1))], []),
            ([sets.set_options(domain=b"example.org")], []),
            ([sets.change_trust(asset, LIMIT - seq)], []),
            ([sets.allow_trust(source, 1, code, source=ISSUER)], [ISSUER]),
            ([sets.account_merge(other)], []),
            ([sets.inflation()], []),
            ([sets.manage_data(name, b"value %d" % seq)], []),
            ([sets.bump_sequence(seq)], []),
            ([offered(BUY, (sets.LUMENS, asset), 700, (2, 1))], []),
            ([along(13, other, asset, [sets.LUMENS], next_asset, 50, 1)], []),
            ([sets.create_claimable(100, [source, ISSUER], asset=asset)], []),
            ([sets.claim(balance)], []),
            ([sets.begin_sponsoring(other), sets.manage_data(b"paid", b"value", source=other), sets.end_sponsoring(source=other)], [other]),
            ([sets.revoke(sets.u32(3) + sets.u32(0) + sets.key(other) + sets.var(b"paid"))], []),
            ([sets.clawback(source, 5, asset=asset, source=ISSUER)], [ISSUER]),
            ([sets.create_claimable(100, [(source, sets.within(60))], asset=asset)], []),
            ([sets.clawback_claimable(balance, source=ISSUER)], [ISSUER]),
            ([sets.set_line_flags(source, sets=1, asset=asset, source=ISSUER)], [ISSUER]),
            ([pools.trust(sets.LUMENS, asset)], []),
            ([pools.deposit(digest, 1_000, 1_000)], []),
            ([pools.withdraw(digest, 500)], []),
        ][kind]

    def transaction(self, kind):
        self.index = (self.index + 7) % TAKERS
        self.numbers[self.index] = seq = self.numbers.get(self.index, 0) + 1
        listed, others = self.operations((self.index // 7 + seq) % 25, self.index, seq)
        return sets.sent(self.index, seq, *listed, fee=300, signers=[self.index, *others])
