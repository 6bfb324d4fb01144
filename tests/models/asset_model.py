"""Issued assets of the ledger in Python: trust lines and claimable balances, their ranges, and the operations on them, beside those
of `ledger_model.py`. After CAP-0018, CAP-0023, CAP-0033, CAP-0035 and stellar-core.
"""

from entry_model import (  # noqa: F401  (some names are for the scripts that use this model)
    GREATEST, NATIVE, NOT_SUPPORTED, available, add_subentry, change, count, i32, i64, is_asset, issuer_of, liabilities, line_rank,
    muxed_key, refuse, remove_subentry, sha, sponsor_of, test_payer, u32, uses_of, with_sponsor,
)
from pool_model import change_share_trust, is_share_in_range, revoke_shares
from trade_model import revoke_offers

# flags of accounts, and of lines
REQUIRED, REVOCABLE, CLAWBACK = 1, 2, 8
AUTHORIZED, MAINTAIN, CAN_BE_CLAWED = 1, 2, 4

# ---- assets


def can_have_line(account_id, asset):
    """Whether an account may have a line of an asset that isn't a pool's share."""
    return asset[0] != 0 and is_asset(asset) and asset[1]["issuer"] != account_id


def line_of(layer, name, asset):
    """The body of a line, if there is one."""
    entry = layer.get(line_rank(name, asset))
    return None if entry is None else entry["body"][1]


def credit(layer, name, asset, amount, no_line, not_authorized, full):
    """Adds an amount. The last three are the codes where there is no line, no authorisation, and no room."""
    if asset == NATIVE:
        account = layer.account(name)
        refuse(GREATEST - account["balance"] - liabilities(account)["buying"] < amount, full)
        layer.set_account(name, balance=account["balance"] + amount)
    elif issuer_of(asset) != name:
        line = line_of(layer, name, asset)
        refuse(line is None, no_line)
        refuse(not line["flags"] & AUTHORIZED, not_authorized)
        refuse(line["limit"] - line["balance"] - liabilities(line)["buying"] < amount, full)
        change(layer, line_rank(name, asset), balance=line["balance"] + amount)


def debit(frame, layer, name, asset, amount, no_line, not_authorized, short):
    """Takes an amount; the codes as those of a credit."""
    if asset == NATIVE:
        account = layer.account(name)
        refuse(available(account, frame.reserve) < amount, short)
        layer.set_account(name, balance=account["balance"] - amount)
    elif issuer_of(asset) != name:
        line = line_of(layer, name, asset)
        refuse(line is None, no_line)
        refuse(not line["flags"] & AUTHORIZED, not_authorized)
        refuse(line["balance"] - liabilities(line)["selling"] < amount, short)
        change(layer, line_rank(name, asset), balance=line["balance"] - amount)


# ---- predicates


def is_predicate(predicate, levels=4, takes_relative=False):
    """Whether a predicate has at most so many levels, all parts that it needs, and no time below 0."""
    arm, body = predicate
    if levels == 0:
        return False
    if arm in (1, 2):
        return len(body) == 2 and all(is_predicate(part, levels - 1, takes_relative) for part in body)
    if arm == 3:
        return body is not None and is_predicate(body, levels - 1, takes_relative)
    return arm == 0 or body >= 0 and (arm == 4 or takes_relative)


def fixed(predicate, time):
    """A predicate as it is stored: relative times count from the close."""
    arm, body = predicate
    if arm in (1, 2):
        return arm, [fixed(part, time) for part in body]
    if arm == 3:
        return arm, fixed(body, time)
    return (4, min(time + body, GREATEST)) if arm == 5 else (arm, body)


def holds(predicate, time):
    arm, body = predicate
    if arm == 1:
        return all(holds(part, time) for part in body)
    if arm == 2:
        return any(holds(part, time) for part in body)
    if arm == 3:
        return not holds(body, time)
    return arm == 0 or time < body


# ---- ranges


def is_line_in_range(line):
    """Whether a line is in its ranges."""
    if line["asset"][0] == 3:
        return is_share_in_range(line)
    owed = liabilities(line)
    return (
        min(owed["buying"], owed["selling"], line["balance"], uses_of(line)) >= 0 and line["limit"] >= 1
        and owed["selling"] <= line["balance"] <= line["limit"] - owed["buying"] and can_have_line(line["id"], line["asset"])
        and line["flags"] <= 7 and line["flags"] & 3 != 3
    )


def claim_flags(claimable):
    arm, ext = claimable["ext"]
    return ext["flags"] if arm else 0


def are_distinct(claimants):
    return len({claimant[1]["destination"] for claimant in claimants}) == len(claimants)


def is_claimable_in_range(entry):
    claimable = entry["body"][1]
    claimants = claimable["claimants"]
    return (
        sponsor_of(entry) is not None and claimable["amount"] >= 1 and is_asset(claimable["asset"]) and claim_flags(claimable) <= 1
        and len(claimants) >= 1 and are_distinct(claimants) and all(is_predicate(claimant[1]["predicate"]) for claimant in claimants)
    )


# ---- payments and lines


def payment(frame, layer, source, op):
    name, asset, amount = muxed_key(op["destination"]), op["asset"], op["amount"]
    refuse(amount <= 0 or not is_asset(asset), -1)
    if asset == NATIVE and name == source:
        return
    refuse(layer.account(name) is None and issuer_of(asset) != name, -5)
    credit(layer, name, asset, amount, -6, -7, -8)
    debit(frame, layer, source, asset, amount, -3, -4, -2)


def change_trust(frame, layer, source, op):
    asset, limit = op["line"], op["limit"]
    if asset[0] == 3:
        change_share_trust(frame, layer, source, asset[1][1], limit)
        return
    refuse(limit < 0 or not can_have_line((0, source), asset), -1)
    line, issuer, rank = line_of(layer, source, asset), layer.account(issuer_of(asset)), line_rank(source, asset)
    if line is None:
        refuse(limit == 0, -3)
        refuse(issuer is None, -2)
        flags = (0 if issuer["flags"] & REQUIRED else AUTHORIZED) | (CAN_BE_CLAWED if issuer["flags"] & CLAWBACK else 0)
        body = dict(id=(0, source), asset=asset, balance=0, limit=limit, flags=flags, ext=(0, None))
        add_subentry(frame, layer, source, 1, body, -4)
        return
    refuse(limit < line["balance"] + liabilities(line)["buying"], -3)
    if limit == 0:
        refuse(uses_of(line), -7)
        remove_subentry(layer, source, rank)
    else:
        refuse(issuer is None, -2)
        change(layer, rank, limit=limit)


def set_authorisation(frame, layer, name, asset, flags, low):
    """Sets a line's flags. Where it loses its authorisation entirely, the account's offers in the asset go, and its shares of pools."""
    rank = line_rank(name, asset)
    was = layer.get(rank)["body"][1]["flags"]
    change(layer, rank, flags=flags)
    if was & 3 and not flags & 3:
        revoke_offers(layer, name, asset)
        revoke_shares(frame, layer, name, asset, low)


def allow_trust(frame, layer, source, op):
    trustor, wanted = op["trustor"][1], op["authorize"]
    asset = (op["asset"][0], {"code": op["asset"][1], "issuer": (0, source)})
    refuse(wanted > 2 or not is_asset(asset) or trustor == source, -1)
    line = line_of(layer, trustor, asset)
    refuse(line is None, -2)
    is_less = wanted == 0 or wanted == MAINTAIN and line["flags"] & AUTHORIZED
    refuse(is_less and not layer.account(source)["flags"] & REVOCABLE, -4)
    set_authorisation(frame, layer, trustor, asset, line["flags"] & ~3 | wanted, -6)


def set_line_flags(frame, layer, source, op):
    trustor, asset, clears, sets = op["trustor"][1], op["asset"], op["clear"], op["set"]
    is_foreign = not is_asset(asset) or issuer_of(asset) != source
    refuse(is_foreign or trustor == source or (sets | clears) > 7 or sets & clears or sets & CAN_BE_CLAWED or sets & 3 == 3, -1)
    line = line_of(layer, trustor, asset)
    refuse(line is None, -2)
    old, new = line["flags"], line["flags"] & ~clears | sets
    is_less = old & AUTHORIZED and not new & AUTHORIZED or old & MAINTAIN and not new & 3
    refuse(is_less and not layer.account(source)["flags"] & REVOCABLE, -3)
    refuse(new & 3 == 3, -4)
    set_authorisation(frame, layer, trustor, asset, new, -5)


def clawback(frame, layer, source, op):
    name, asset = muxed_key(op["source"]), op["asset"]
    refuse(op["amount"] <= 0 or not is_asset(asset) or issuer_of(asset) != source or name == source, -1)
    line = line_of(layer, name, asset)
    refuse(line is None, -3)
    refuse(not line["flags"] & CAN_BE_CLAWED, -2)
    refuse(line["balance"] - liabilities(line)["selling"] < op["amount"], -4)
    change(layer, line_rank(name, asset), balance=line["balance"] - op["amount"])


# ---- claimable balances


def balance_id(source, number, index):
    """The id of the balance that an operation of a transaction makes."""
    return sha(u32(6) + i32(0) + source + i64(number) + u32(index))


def is_clawed(layer, source, asset):
    """Whether what an account sets aside can be clawed back."""
    if asset == NATIVE:
        return False
    if issuer_of(asset) == source:
        return bool(layer.account(source)["flags"] & CLAWBACK)
    return bool(line_of(layer, source, asset)["flags"] & CAN_BE_CLAWED)


def create_claimable(frame, layer, source, op):
    asset, amount, claimants = op["asset"], op["amount"], op["claimants"]
    are_valid = all(is_predicate(claimant[1]["predicate"], takes_relative=True) for claimant in claimants)
    refuse(amount <= 0 or not is_asset(asset) or not claimants or not are_distinct(claimants) or not are_valid, -1)
    digest = balance_id(frame.source, frame.number, frame.index)
    if layer.get((4, digest)) is not None:
        raise NOT_SUPPORTED
    debit(frame, layer, source, asset, amount, -3, -4, -5)
    payer = frame.open.get(source, source)
    test_payer(frame, layer.account(payer), len(claimants), -2)
    count(layer, payer, sponsoring=len(claimants))
    stored = [(0, {**claimant[1], "predicate": fixed(claimant[1]["predicate"], frame.time)}) for claimant in claimants]
    ext = (1, {"ext": (0, None), "flags": 1}) if is_clawed(layer, source, asset) else (0, None)
    body = dict(balance=(0, digest), claimants=stored, asset=asset, amount=amount, ext=ext)
    layer.put(with_sponsor({"modified": frame.seq, "body": (4, body), "ext": (0, None)}, payer))
    return i32(0) + digest


def remove_claimable(layer, entry):
    count(layer, sponsor_of(entry), sponsoring=-len(entry["body"][1]["claimants"]))
    layer.erase((4, entry["body"][1]["balance"][1]))


def claim(frame, layer, source, op):
    entry = layer.get((4, op[1]))
    refuse(entry is None, -1)
    claimable = entry["body"][1]
    mine = [claimant[1]["predicate"] for claimant in claimable["claimants"] if claimant[1]["destination"] == (0, source)]
    refuse(not mine or not holds(mine[0], frame.time), -2)
    remove_claimable(layer, entry)
    credit(layer, source, claimable["asset"], claimable["amount"], -4, -5, -3)


def clawback_claimable(frame, layer, source, op):
    entry = layer.get((4, op[1]))
    refuse(entry is None, -1)
    refuse(issuer_of(entry["body"][1]["asset"]) != source, -2)
    refuse(not claim_flags(entry["body"][1]), -3)
    remove_claimable(layer, entry)


def revoke_claimable(frame, layer, source, entry):
    """Hands a claimable balance to the sponsor that is open for who pays for it."""
    k, payer = len(entry["body"][1]["claimants"]), frame.open.get(source)
    refuse(sponsor_of(entry) != source, -2)
    refuse(payer is None, -4)
    test_payer(frame, layer.account(payer), k, -3)
    count(layer, source, sponsoring=-k)
    count(layer, payer, sponsoring=k)
    layer.put(with_sponsor(entry, payer))


OPERATIONS = {
    1: payment, 6: change_trust, 7: allow_trust, 14: create_claimable, 15: claim, 19: clawback, 20: clawback_claimable, 21: set_line_flags,
}
