"""Images of pools, operations on them, and what is left of them: what the cases of `share_line_cases.py`, `pool_cases.py`,
`revocation_cases.py`, `pool_image_cases.py` and `path_cases.py` are made with.
"""

import ledger_model as model
import pool_model as pools
import set_cases as sets  # ledger_model puts its folder first
from asset_cases import EUR
from case_tools import LUMEN, USD, Account, Story, entry, image, key, line
from entry_model import ASSET, key_of, rank_of_key
from ledger_model import GREATEST, Text, i32, i64, u32
from offer_cases import counted, owed_by

LUMENS = sets.LUMENS
DEPOSIT, WITHDRAW, TRUST = 22, 23, 6
REFUSED = i32(-3)
EXACT, ANY = (1, 1), ((1, 2**31 - 1), (2**31 - 1, 1))


def read(asset):
    return ASSET.read(Text(asset))


def pool_of(one, other):
    """The id of the pool of two assets in their order."""
    return pools.pool_id(read(one), read(other))


NATIVE_USD, EUR_USD = pool_of(LUMENS, USD), pool_of(EUR, USD)

# ---- images


def pool(one, other, reserve_a=0, reserve_b=0, shares=0, lines=0):
    """The entry of a pool."""
    body = dict(a=read(one), b=read(other), fee=30, reserve_a=reserve_a, reserve_b=reserve_b, shares=shares, lines=lines)
    return {"modified": 1, "body": (5, {"pool": pool_of(one, other), "body": (0, body)}), "ext": (0, None)}


def share(name, digest, balance=0, limit=GREATEST, payer=None):
    """The entry of a line of a pool's shares."""
    return line(name, u32(3) + digest, balance, limit, 0, payer=payer)


def held(lines, shares=(), pooled=(), lumens=None, payers=None):
    """Entries of an issuer z, of accounts by their names, each with lines of assets (balance, limit and flags) and of pool shares (name,
    assets, balance and limit), and of pools."""
    entries = []
    for name, assets in {"z": {}, **lines}.items():
        mine = [row for row in shares if row[0] == name]
        balance, flags = (lumens or {}).get(name, 100 * LUMEN), 10 if name == "z" else 0
        account = entry(Account(name, balance, data=len(assets) + 2 * len(mine), flags=flags))
        if payers and name in payers:
            account = counted(account, *payers[name])
        entries.append(account)
        for asset, (balance, limit, flags) in assets.items():
            uses = sum(asset in row[1] for row in mine)
            entries.append(line(name, asset, balance, limit, flags, uses=uses or None))
        for _, pair, balance, limit, payer in mine:
            entries.append(share(name, pool_of(*pair), balance, limit, payer))
    return [*entries, *pooled]


def with_account(entries, name, change):
    """Entries, of which an account's is changed."""
    return [change(value) if value["body"][0] == 0 and value["body"][1]["id"] == (0, key(name)) else value for value in entries]


def with_offers(entries, offers):
    """Entries with offers besides, which their sellers count, and which they and their lines owe."""
    owed, changed = owed_by(offers), []
    for value in entries:
        rank, (kind, body) = rank_of_key(key_of(value)), value["body"]
        if rank in owed:
            buying, selling = owed[rank]
            more = body["ext"][1]["ext"] if body["ext"][0] else (0, None)
            body = {**body, "ext": (1, {"liabilities": {"buying": buying, "selling": selling}, "ext": more})}
        if kind == 0:
            body = {**body, "subs": body["subs"] + sum(offer["body"][1]["seller"] == body["id"] for offer in offers)}
        changed.append({**value, "body": (kind, body)})
    return [*changed, *offers]


def lumens_in(entries):
    reserves = [body["body"][1] for kind, body in (value["body"] for value in entries) if kind == 5]
    return sum(reserve[f"reserve_{side}"] for reserve in reserves for side in "ab" if reserve[side] == (0, None))


def pooled_image(entries, **fields):
    coins = sum(value["body"][1]["balance"] for value in entries if value["body"][0] == 0) + lumens_in(entries)
    return image(entries, coins=coins, **fields)


def story_of(lines, shares=(), pooled=(), header=None, offers=(), **more):
    """A story of what is held, with offers, which have the ids from 1 on."""
    return Story(pooled_image(with_offers(held(lines, shares, pooled, **more), offers), ids=len(offers), **(header or {})))


def flagged(flags):
    return {"ext": (1, {"flags": flags, "ext": (0, None)})}


# ---- operations and what is left


def trust(one, other, limit=GREATEST, fee=30, source=None):
    return sets.operation(TRUST, u32(3) + u32(0) + one + other + i32(fee) + i64(limit), source)


def deposit(digest, a, b, prices=ANY, source=None):
    least, most = prices
    return sets.operation(DEPOSIT, digest + i64(a) + i64(b) + i32(least[0]) + i32(least[1]) + i32(most[0]) + i32(most[1]), source)


def withdraw(digest, shares, a=0, b=0, source=None):
    return sets.operation(WITHDRAW, digest + i64(shares) + i64(a) + i64(b), source)


def left_in(story, digest):
    """The reserves, the shares and the lines of a pool, or None."""
    value = story.ledger.entries.get((5, digest))
    body = value and value["body"][1]["body"][1]
    return value and tuple(body[name] for name in ("reserve_a", "reserve_b", "shares", "lines"))


def shares_of(story, name, digest):
    return story.line(name, u32(3) + digest)


def uses(story, name, asset):
    value = story.ledger.entries[rank_of_key(key_of(line(name, asset)))]
    return model.assets.uses_of(value["body"][1])


PAIR = (LUMENS, USD)
OWN = {"a": {USD: (1000, 10_000, 1)}}


def first(**header):
    """A story in which a has an empty line of shares."""
    return story_of(OWN, [("a", PAIR, 0, GREATEST, None)], [pool(*PAIR, lines=1)], header)


def filled(a=400, b=100, shares=200, limit=GREATEST, lines=OWN, header=None, **more):
    """A story in which a has all shares of a pool."""
    return story_of(lines, [("a", PAIR, shares, limit, None)], [pool(*PAIR, a, b, shares, 1)], header, **more)
