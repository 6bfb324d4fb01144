"""Liquidity pools of the ledger in Python, and the shares that accounts have of them, beside `ledger_model.py`. After CAP-0038 and
LiquidityPoolDepositOpFrame, LiquidityPoolWithdrawOpFrame and ChangeTrustOpFrame of stellar-core.
"""

from math import isqrt

from entry_model import (
    ASSET, GREATEST, NATIVE, NOT_SUPPORTED, POOL_PARAMS, add_subentry, asset_rank, change, count, i32, i64, is_asset, issuer_of,
    liabilities, line_rank, refuse, remove_subentry, sha, sponsor_of, test_payer, u32, uses_of, with_sponsor,
)
from offer_model import holder
from trade_model import has, pay_at, room

FEE = 30
AUTHORIZED, CAN_BE_CLAWED = 1, 4
# flags of a header
NO_DEPOSITS, NO_WITHDRAWALS = 2, 4

# ---- pools and their shares


def pool_id(a, b):
    return sha(POOL_PARAMS.write((0, {"a": a, "b": b, "fee": FEE})))


def pool_rank(digest):
    return 5, digest


def share_of(digest):
    return 3, digest


def share_rank(name, digest):
    return line_rank(name, share_of(digest))


def pool_of(layer, digest):
    """What a pool has, if it exists."""
    entry = layer.get(pool_rank(digest))
    return None if entry is None else entry["body"][1]["body"][1]


def change_pool(layer, digest, **more):
    """Adds to what a pool has."""
    pool = pool_of(layer, digest)
    body = {**pool, **{name: pool[name] + amount for name, amount in more.items()}}
    change(layer, pool_rank(digest), body=(0, body))


def part(pool, side, shares):
    """What so many shares give of a reserve."""
    return shares * pool[side] // pool["shares"] if shares else 0


def add_use(layer, name, asset, more):
    """Counts a line of pool shares at the line that it needs for an asset, if it needs one."""
    rank = holder(name, asset)
    if rank is None or rank[0] == 0:
        return
    body = layer.get(rank)["body"][1]
    arm, ext = body["ext"]
    owed = ext["liabilities"] if arm else {"buying": 0, "selling": 0}
    uses = uses_of(body) + more
    change(layer, rank, ext=(1, {"liabilities": owed, "ext": (2, {"uses": uses, "ext": (0, None)})}))


def count_share(layer, name, digest, more):
    pool = pool_of(layer, digest)
    add_use(layer, name, pool["a"], more)
    add_use(layer, name, pool["b"], more)
    change_pool(layer, digest, lines=more)


def remove_share(layer, name, digest):
    """Removes a line of pool shares, and the pool with its last one."""
    remove_subentry(layer, name, share_rank(name, digest), 2)
    count_share(layer, name, digest, -1)
    if pool_of(layer, digest)["lines"] == 0:
        layer.erase(pool_rank(digest))


# ---- CHANGE_TRUST


def test_needed(layer, name, asset):
    rank = holder(name, asset)
    if rank is not None and rank[0] == 1:
        line = layer.get(rank)
        refuse(line is None, -6)
        refuse(not line["body"][1]["flags"] & 3, -8)


def change_share_trust(frame, layer, source, params, limit):
    a, b, fee = params["a"], params["b"], params["fee"]
    is_bad = not is_asset(a) or not is_asset(b) or asset_rank(a) >= asset_rank(b) or fee != FEE
    refuse(limit < 0 or is_bad, -1)
    digest = pool_id(a, b)
    pool, line, rank = pool_of(layer, digest), layer.get(share_rank(source, digest)), share_rank(source, digest)
    if pool is not None and (pool["a"], pool["b"], pool["fee"]) != (a, b, fee):
        raise NOT_SUPPORTED
    if line is None:
        refuse(limit == 0, -3)
        test_needed(layer, source, a)
        test_needed(layer, source, b)
        if pool is None:
            body = {"a": a, "b": b, "fee": fee, "reserve_a": 0, "reserve_b": 0, "shares": 0, "lines": 0}
            layer.put({"modified": frame.seq, "body": (5, {"pool": digest, "body": (0, body)}), "ext": (0, None)})
        body = dict(id=(0, source), asset=share_of(digest), balance=0, limit=limit, flags=0, ext=(0, None))
        add_subentry(frame, layer, source, 1, body, -4, 2)
        count_share(layer, source, digest, 1)
        return
    body = line["body"][1]
    refuse(limit < body["balance"] + liabilities(body)["buying"], -3)
    if limit == 0:
        refuse(uses_of(body), -7)
        remove_share(layer, source, digest)
    else:
        change(layer, rank, limit=limit)


# ---- deposits and withdrawals


def is_unusable(layer, name, asset):
    rank = holder(name, asset)
    return rank is not None and rank[0] == 1 and not layer.get(rank)["body"][1]["flags"] & AUTHORIZED


def deposit(frame, layer, source, op):
    if frame.flags & NO_DEPOSITS:
        raise NOT_SUPPORTED
    least, most = op["least"], op["most"]
    refuse(min(op["a"], op["b"], *least.values(), *most.values()) <= 0 or least["n"] * most["d"] > most["n"] * least["d"], -1)
    digest = op["pool"]
    line = layer.get(share_rank(source, digest))
    refuse(line is None, -2)
    pool = pool_of(layer, digest)
    a, b = pool["a"], pool["b"]
    refuse(is_unusable(layer, source, a) or is_unusable(layer, source, b), -3)
    if pool["shares"] == 0:
        amount_a, amount_b, shares = op["a"], op["b"], isqrt(op["a"] * op["b"])
    else:
        by_a, by_b = pool["shares"] * op["a"] // pool["reserve_a"], pool["shares"] * op["b"] // pool["reserve_b"]
        refuse(min(by_a, by_b) > GREATEST, -7)
        shares = min(by_a, by_b)
        amount_a, amount_b = (-(-shares * pool[side] // pool["shares"]) for side in ("reserve_a", "reserve_b"))
    refuse(has(frame, layer, holder(source, a)) < amount_a or has(frame, layer, holder(source, b)) < amount_b, -4)
    is_outside = amount_a * least["d"] < amount_b * least["n"] or amount_a * most["d"] > amount_b * most["n"]
    refuse(not amount_a or not amount_b or is_outside, -6)
    body = line["body"][1]
    refuse(body["limit"] - body["balance"] - liabilities(body)["buying"] < shares, -5)
    refuse(max(pool["reserve_a"] + amount_a, pool["reserve_b"] + amount_b, pool["shares"] + shares) > GREATEST, -7)
    pay_at(layer, holder(source, a), -amount_a)
    pay_at(layer, holder(source, b), -amount_b)
    change(layer, share_rank(source, digest), balance=body["balance"] + shares)
    change_pool(layer, digest, reserve_a=amount_a, reserve_b=amount_b, shares=shares)


def take_out(layer, name, digest, shares):
    """Gives shares back to their pool, and answers what they give."""
    pool, rank = pool_of(layer, digest), share_rank(name, digest)
    a, b = (part(pool, side, shares) for side in ("reserve_a", "reserve_b"))
    change(layer, rank, balance=layer.get(rank)["body"][1]["balance"] - shares)
    change_pool(layer, digest, reserve_a=-a, reserve_b=-b, shares=-shares)
    return a, b


def withdraw(frame, layer, source, op):
    if frame.flags & NO_WITHDRAWALS:
        raise NOT_SUPPORTED
    refuse(op["amount"] <= 0 or min(op["a"], op["b"]) < 0, -1)
    digest = op["pool"]
    line = layer.get(share_rank(source, digest))
    refuse(line is None, -2)
    refuse(line["body"][1]["balance"] < op["amount"], -3)
    pool = pool_of(layer, digest)
    a, b = take_out(layer, source, digest, op["amount"])
    refuse(a < op["a"] or b < op["b"], -5)
    ranks = holder(source, pool["a"]), holder(source, pool["b"])
    refuse(room(layer, ranks[0]) < a or room(layer, ranks[1]) < b, -4)
    pay_at(layer, ranks[0], a)
    pay_at(layer, ranks[1], b)


# ---- what goes with an authorisation


def shares_by(layer, name):
    """The ranks of the keys of an account's lines of pool shares."""
    def is_own(rank):
        return rank[:3] == (1, name, 3)

    if isinstance(layer, dict):
        return {rank for rank in layer if is_own(rank)}
    ranks = shares_by(layer.below, name)
    for rank, entry in layer.changes.items():
        if is_own(rank):
            (ranks.discard if entry is None else ranks.add)(rank)
    return ranks


def revoke_shares(frame, layer, name, asset, low):
    """Withdraws an account's shares of pools that have an asset; what they give waits in claimable balances."""
    for rank in sorted(shares_by(layer, name)):
        digest = rank[3]
        pool = pool_of(layer, digest)
        if asset not in (pool["a"], pool["b"]):
            continue
        line = layer.get(rank)
        payer = sponsor_of(line) or name
        amounts = take_out(layer, name, digest, line["body"][1]["balance"])
        remove_share(layer, name, digest)
        for held, amount in zip((pool["a"], pool["b"]), amounts):
            if amount and issuer_of(held) != name:
                set_aside(frame, layer, name, payer, digest, held, amount, low)


def set_aside(frame, layer, name, payer, digest, held, amount, low):
    number = sha(u32(7) + i32(0) + frame.source + i64(frame.number) + u32(frame.index) + digest + ASSET.write(held))
    if layer.get((4, number)) is not None:
        raise NOT_SUPPORTED
    test_payer(frame, layer.account(payer), 1, low)
    count(layer, payer, sponsoring=1)
    line = None if held == NATIVE else layer.get(line_rank(name, held))
    is_clawed = line is not None and line["body"][1]["flags"] & CAN_BE_CLAWED
    ext = (1, {"ext": (0, None), "flags": 1}) if is_clawed else (0, None)
    claimants = [(0, {"destination": (0, name), "predicate": (0, None)})]
    body = dict(balance=(0, number), claimants=claimants, asset=held, amount=amount, ext=ext)
    layer.put(with_sponsor({"modified": frame.seq, "body": (4, body), "ext": (0, None)}, payer))


# ---- ranges


def is_pool_in_range(entry):
    body = entry["body"][1]
    pool = body["body"][1]
    return (
        sponsor_of(entry) is None and pool["fee"] == FEE and asset_rank(pool["a"]) < asset_rank(pool["b"])
        and body["pool"] == pool_id(pool["a"], pool["b"]) and min(pool["reserve_a"], pool["reserve_b"], pool["shares"], pool["lines"]) >= 0
    )


def is_share_in_range(line):
    owed = liabilities(line)
    return (
        min(owed["buying"], owed["selling"], line["balance"], uses_of(line)) >= 0 and line["limit"] >= 1
        and owed["selling"] <= line["balance"] <= line["limit"] - owed["buying"] and line["flags"] == 0
    )


OPERATIONS = {22: deposit, 23: withdraw}
