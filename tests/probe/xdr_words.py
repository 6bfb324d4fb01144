"""Entries and operations in words, encoded as XDR.

Accounts and keys are named by a letter, which represents 32 times that letter, and ids of claimable balances by a letter or by 64
hexadecimal digits; `_` is the empty text, and `#NUMBER` the text of one byte.

    account ID BALANCE [seq= subentries= flags= sponsoring= sponsored= buying= selling= by=NUMBER] [signer= key= preauth=X[,SPONSOR]]
    line ID ASSET [by SPONSOR]              a line without a balance
    held ID ASSET BALANCE LIMIT FLAGS [buying AMOUNT selling AMOUNT | uses COUNT]
    offer ID NUMBER [by SPONSOR]            of a stroop, for one of an asset of the seller's own
    data ID NAME VALUE [by SPONSOR]
    balance ID ASSET AMOUNT [flags= by=] CLAIMANT..
    op SOURCE NAME WORDS..                  as in OPERATIONS below

An asset is `native`, `pool` or an issuer, of USD; after `long:` the issuer's code has five letters; after `bad:` and `bad_long:`
its code isn't valid, with a sign that is no letter or with three letters in twelve bytes. A claimant is `X:PREDICATE`; a predicate is
`always`, `before=TIME`, `within=SECONDS`, or `not`, `and` or `or` and its parts, each after a comma; `not0`, `and0`,
`and1`, `or0` and `or1` have so many parts.

Stellar-ledger-entries.x and Stellar-transaction.x of protocol 18, over RFC 4506. Python 3.9 or later and its standard library.
"""

import struct


def pack(form):
    return lambda n: struct.pack(form, int(n))


u32, i32, u64, i64 = pack(">I"), pack(">i"), pack(">Q"), pack(">q")


def var(data):
    return u32(len(data)) + data + bytes(-len(data) % 4)


def many(items):
    return u32(len(items)) + b"".join(items)


def maybe(item):
    return u32(0) if item is None else u32(1) + item


def key(word):
    assert len(word) == 1, word
    return word.encode() * 32


def account_id(word):
    return u32(0) + key(word)


def muxed(word):
    name, _, number = word.partition("#")
    return u32(0x100) + u64(number) + key(name) if number else u32(0) + key(name)


def balance_id(word):
    return u32(0) + (key(word) if len(word) == 1 else bytes.fromhex(word))


def text(word):
    if word == "_":
        return var(b"")
    return var(bytes([int(word[1:])])) if word.startswith("#") and word[1:].isdigit() else var(word.encode())


def signer_key(kind, word):
    return u32(["key", "preauth", "signer"].index(kind)) + key(word)


SHORT = {"": b"USD\0", "bad": b"U-D\0"}
LONG = {"long": b"EUROS\0\0\0\0\0\0\0", "bad_long": b"USD\0\0\0\0\0\0\0\0\0"}


def line_asset(word):
    """Of a line, or of anything else but a share of a pool."""
    if word in ("native", "pool"):
        return u32(0) if word == "native" else u32(3) + bytes([7] * 32)
    kind, _, issuer = word.rpartition(":")
    return (u32(1) + SHORT[kind] if kind in SHORT else u32(2) + LONG[kind]) + account_id(issuer)


def predicate(words):
    """The predicate that words begin with, which it takes from there."""
    word = words.pop(0)
    name, _, number = word.partition("=")
    parts = {"and": 2, "and0": 0, "and1": 1, "or": 2, "or0": 0, "or1": 1}
    if word in parts:
        return u32(1 if word[0] == "a" else 2) + many([predicate(words) for _ in range(parts[word])])
    if word in ("not", "not0"):
        return u32(3) + maybe(predicate(words) if word == "not" else None)
    return u32(0) if word == "always" else u32({"before": 4, "within": 5}[name]) + i64(number)


def claimant(word):
    name, _, words = word.partition(":")
    words = words.split(",")
    encoded = u32(0) + account_id(name) + predicate(words)
    assert not words, word
    return encoded


# ---- entries


def payer(words):
    assert words in ([], ["by", *words[1:2]]), words
    return words[1] if words else None


def entry(kind, body, sponsor, fixed=b""):
    return u32(1) + u32(kind) + body + (u32(1) + maybe(account_id(sponsor)) + u32(0) if sponsor else u32(0))


def account(name, balance, *words):
    fields, signers, sponsors = {}, [], []
    for it in words:
        word, _, value = it.partition("=")
        if word in ("signer", "key", "preauth"):
            letter, _, sponsor = value.partition(",")
            signers.append(signer_key(word, letter) + u32(1))
            sponsors.append(maybe(account_id(sponsor) if sponsor else None))
        else:
            assert word in ("seq", "subentries", "flags", "sponsoring", "sponsored", "buying", "selling", "by"), it
            fields[word] = value
    number = lambda it: int(fields.get(it, 0))
    ext = u32(0)
    if any(number(it) for it in ("sponsoring", "sponsored", "buying", "selling")):
        counts = u32(number("sponsored")) + u32(number("sponsoring")) + many(sponsors)
        ext = u32(1) + i64(number("buying")) + i64(number("selling")) + u32(2) + counts + u32(0)
    body = account_id(name) + i64(balance) + i64(number("seq")) + u32(number("subentries")) + maybe(None) + u32(number("flags"))
    return entry(0, body + var(b"") + bytes([1, 0, 0, 0]) + many(signers) + ext, fields.get("by"))


def line_of(name, asset, balance, limit, flags, ext, sponsor):
    return entry(1, account_id(name) + line_asset(asset) + i64(balance) + i64(limit) + u32(flags) + ext, sponsor)


def line(name, asset, *words):
    return line_of(name, asset, 0, 1, 0, u32(0), payer([*words]))


def held(name, asset, balance, limit, flags, *words):
    ext = u32(0)
    if words and words[0] == "uses":
        ext = u32(1) + i64(0) + i64(0) + u32(2) + i32(words[1]) + u32(0)
    elif words and (int(words[1]) or int(words[3])):
        assert words[0] == "buying" and words[2] == "selling", words
        ext = u32(1) + i64(words[1]) + i64(words[3]) + u32(0)
    return line_of(name, asset, balance, limit, flags, ext, None)


def offer(name, number, *words):
    body = account_id(name) + i64(number) + line_asset("native") + line_asset(name) + i64(1) + i32(1) + i32(1) + u32(0) + u32(0)
    return entry(2, body, payer([*words]))


def data(name, of, value, *words):
    return entry(3, account_id(name) + text(of) + text(value) + u32(0), payer([*words]))


def balance(name, asset, amount, *words):
    fields = dict(it.split("=") for it in words if ":" not in it)
    ext = u32(1) + u32(0) + u32(fields["flags"]) if "flags" in fields else u32(0)
    claimants = many([claimant(it) for it in words if ":" in it])
    return entry(4, balance_id(name) + claimants + line_asset(asset) + i64(amount) + ext, fields.get("by"))


ENTRIES = {"account": account, "line": line, "held": held, "offer": offer, "data": data, "balance": balance}

# ---- operations


def ledger_key(kind, *words):
    if kind == "line":
        return u32(1) + account_id(words[0]) + line_asset(":".join(words[1:]))
    return {
        "account": lambda name: u32(0) + account_id(name),
        "offer": lambda name, number: u32(2) + account_id(name) + i64(number),
        "data": lambda name, of: u32(3) + account_id(name) + text(of),
        "balance": lambda name: u32(4) + balance_id(name),
        "pool": lambda name: u32(5) + key(name),
    }[kind](*words)


def revoke(kind, *words):
    if kind in ("signer", "key", "preauth"):
        return u32(18) + u32(1) + account_id(words[0]) + signer_key(kind, words[1])
    return u32(18) + u32(0) + ledger_key(kind, *words)


def set_options(*words):
    fields, signer = {}, None
    for it in words:
        word, _, value = it.partition("=")
        if word in ("signer", "key", "preauth"):
            letter, _, weight = value.partition(":")
            signer = signer_key(word, letter) + u32(weight)
        else:
            fields[word] = value
    optional = lambda word, form: maybe(form(fields.pop(word)) if word in fields else None)
    numbers = [optional(it, u32) for it in ("clear", "set", "master", "low", "med", "high")]
    encoded = u32(5) + optional("inflation", account_id) + b"".join(numbers) + optional("domain", text) + maybe(signer)
    assert not fields, words
    return encoded


def manage_data(name, value=None):
    return u32(10) + text(name) + maybe(None if value is None else text(value))


def pool_line(issuer, limit):
    return u32(6) + u32(3) + u32(0) + line_asset("native") + line_asset(issuer) + i32(30) + i64(limit)


OPERATIONS = {
    "create_account": lambda name, amount: u32(0) + account_id(name) + i64(amount),
    "payment": lambda name, amount: u32(1) + muxed(name) + line_asset("native") + i64(amount),
    "payment_in": lambda issuer, name, amount: u32(1) + muxed(name) + line_asset(issuer) + i64(amount),
    "set_options": set_options,
    "change_trust": lambda asset, limit: u32(6) + line_asset(asset) + i64(limit),
    "change_trust_pool": pool_line,
    "account_merge": lambda name: u32(8) + muxed(name),
    "inflation": lambda: u32(9),
    "manage_data": manage_data,
    "bump_sequence": lambda to: u32(11) + i64(to),
    "create_balance": lambda asset, amount, *of: u32(14) + line_asset(asset) + i64(amount) + many([claimant(it) for it in of]),
    "claim_balance": lambda of: u32(15) + balance_id(of),
    "begin_sponsoring": lambda name: u32(16) + account_id(name),
    "end_sponsoring": lambda: u32(17),
    "revoke": revoke,
    "clawback": lambda asset, name, amount: u32(19) + line_asset(asset) + muxed(name) + i64(amount),
    "clawback_balance": lambda of: u32(20) + balance_id(of),
}
