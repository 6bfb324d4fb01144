#!/usr/bin/env python3
"""Works out samples: the image of a seed and the records after it, encoded here as XDR (RFC 4506; the .x files of protocol 18).

    sample.py TABLE      closes the samples of a table by the ledger of `ledger_model.py`, and prints whether each line is what comes out

A line of the table has a seed, a number of ledgers and, after a last tab, `sample SEED LEDGERS HASH TRANSACTIONS SUCCESSES`. It shares
nothing with the program. Python 3.9 or later and its standard library.
"""

import hashlib
import os
import struct
import sys

PASSPHRASE = b"sample"


def sha(data):
    return hashlib.sha256(data).digest()


def u32(n):
    return struct.pack(">I", n)


def u64(n):
    return struct.pack(">Q", n)


def i64(n):
    return struct.pack(">q", n)


def var(data):
    return u32(len(data)) + data + bytes(-len(data) % 4)


def many(items):
    return u32(len(items)) + b"".join(items)


def maybe(item):
    return u32(0) if item is None else u32(1) + item


def marked(data):
    return u32(0x80000000 | len(data)) + data


# ---- accounts


def text(kind, *numbers):
    return " ".join(["sample", kind, *map(str, numbers)]).encode()


def key(seed, account):
    return sha(text("account", seed, account))[:31] + bytes([account])


def secret(seed, account):
    return text("secret", seed, account)


def id_of(seed, account):
    """An AccountID, and a MuxedAccount without a number."""
    return u32(0) + key(seed, account)


def entry(seed, account):
    signer = u32(2) + sha(secret(seed, account)) + u32(1)
    flags = 10 if account == 0 else 0
    head = id_of(seed, account) + i64(1_000_000_000_000) + i64(0) + u32(1) + maybe(None) + u32(flags)
    tail = var(b"") + bytes([0, 1, 1, 1]) + many([signer]) + u32(0)
    return u32(1) + u32(0) + head + tail + u32(0)


# ---- the image


def first_file(seed):
    meta = b"\xff\xff\xff\xff" + u32(18) + u32(0)
    accounts = sorted(range(9), key=lambda account: key(seed, account))
    return marked(meta) + b"".join(marked(u32(2) + entry(seed, account)) for account in accounts)


def first_header(seed):
    empty = sha(bytes(64))
    levels = sha(sha(sha(first_file(seed)) + bytes(32)) + 10 * empty)
    value = bytes(32) + u64(1000) + many([]) + u32(0)
    numbers = u32(1) + i64(9_000_000_000_000) + i64(0) + u32(0) + u64(0) + u32(100) + u32(5_000_000) + u32(1000)
    return u32(18) + bytes(32) + value + bytes(32) + levels + numbers + bytes(4 * 32) + u32(0)


# ---- operations

NATIVE = u32(0)


def usd(seed):
    return u32(1) + b"USD\0" + id_of(seed, 0)


def pool(seed):
    return sha(u32(0) + NATIVE + usd(seed) + u32(30))


def own(body):
    return u32(0) + body


def by(seed, account, body):
    return u32(1) + id_of(seed, account) + body


def payment(seed, to, asset, amount):
    return u32(1) + id_of(seed, to) + asset + i64(amount)


def data(name, value):
    return u32(10) + var(name) + maybe(var(value))


def note(k):
    return data(b"note", u32(k))


def trust(line):
    return u32(6) + line + i64(1_000_000_000_000_000)


def trust_pool(seed):
    return trust(u32(3) + u32(0) + NATIVE + usd(seed) + u32(30))


def set_domain(domain):
    return u32(5) + 7 * u32(0) + maybe(var(domain)) + u32(0)


def deposit(seed):
    return u32(22) + pool(seed) + i64(100_000_000) + i64(100_000_000) + u32(1) + u32(2) + u32(2) + u32(1)


def gift(seed):
    begin, end = u32(16) + id_of(seed, 8), u32(17)
    return [own(begin), by(seed, 8, data(b"gift", b"\x01")), by(seed, 8, end)]


def claw_back(seed, account):
    return u32(19) + usd(seed) + id_of(seed, account) + i64(5)


def claimable(seed):
    return u32(14) + usd(seed) + i64(10) + many([u32(0) + id_of(seed, 7) + u32(0)])


def claim(seed, k):
    """Of what account 0 made in the first operation of its transaction k."""
    return u32(15) + u32(0) + sha(u32(6) + id_of(seed, 0) + i64(k) + u32(0))


def sell(selling, buying, amount, n):
    return u32(3) + selling + buying + i64(amount) + u32(n) + u32(1000) + i64(0)


def send_path(seed, to, amount):
    return u32(13) + NATIVE + i64(amount) + id_of(seed, to) + usd(seed) + i64(1) + many([])


# ---- transactions


def issuer_turn(seed, k):
    if k % 10 == 0:
        return own(claw_back(seed, 1 + k // 10 % 8))
    if k % 10 == 5:
        return own(claimable(seed))
    if k % 10 == 7 and k >= 17:
        return by(seed, 7, claim(seed, k - 2))
    return own(payment(seed, 1 + k % 8, usd(seed), 1000))


def drawn_turn(seed, k, account):
    v = int.from_bytes(sha(text("draw", seed, k, account))[:8], "big")
    x, j, p = 1 + v // 8 % 1000, 1 + v // 8192 % 8, 900 + v // 65536 % 200
    return [
        payment(seed, j, NATIVE, 1000 * x), payment(seed, j, usd(seed), x), sell(usd(seed), NATIVE, x, p),
        sell(NATIVE, usd(seed), x, p), send_path(seed, j, x),
    ][v % 5]


def operations(seed, k, account):
    """The operations of an account's transaction in a record, and the accounts that sign it."""
    first = {
        1: [own(set_domain(b"example.org"))],
        2: [own(payment(seed, to, usd(seed), 1_000_000_000)) for to in range(1, 9)],
        3: [own(note(3))], 4: [own(note(4))], 5: gift(seed),
    }
    fourth = deposit(seed) if account == 1 else note(4)
    others = {1: trust(usd(seed)), 2: note(2), 3: trust_pool(seed), 4: fourth, 5: note(5)}
    if account > 0:
        return [own(others[k] if k < 6 else drawn_turn(seed, k, account))], [account]
    signers = [0, 8] if k == 5 else [0, 7] if k >= 17 and k % 10 == 7 else [0]
    return first[k] if k < 6 else [issuer_turn(seed, k)], signers


def envelope(seed, k, account):
    listed, signers = operations(seed, k, account)
    tx = id_of(seed, account) + u32(100 * len(listed)) + i64(k) + u32(0) + u32(0) + many(listed) + u32(0)
    signatures = [sha(secret(seed, signer))[-4:] + var(secret(seed, signer)) for signer in signers]
    return u32(2) + tx + many(signatures)


def record(seed, k, previous):
    """The record after the ledger whose header has the hash `previous`."""
    envelopes = [envelope(seed, k, account) for account in range(9)]
    digest = sha(previous + b"".join(sorted(envelopes, key=sha)))
    return u32(k + 1) + previous + many(envelopes) + digest + u64(1000 + 5 * k) + many([]) + u32(0)


# ---- what comes out


def closed(seed, ledgers):
    """The line of a sample, whose records are closed by the other ledger."""
    import ledger_model

    ledger = ledger_model.ledger_of(sha(PASSPHRASE), first_header(seed), [first_file(seed)] + 21 * [b""])
    count = done = 0
    for k in range(1, ledgers + 1):
        last = ledger.close(record(seed, k, ledger.hash)).splitlines()[-1].split()
        count, done = count + int(last[3]), done + int(last[4])
    return f"sample {seed} {ledgers} {ledger.hash.hex()} {count} {done}"


def compare(path):
    with open(path) as table:
        for line in table:
            seed, ledgers, expected = line.rstrip("\n").split("\t")
            got = closed(int(seed), int(ledgers))
            print("as in the table:" if got == expected else "another line:", got)


if __name__ == "__main__":
    compare(sys.argv[1])
