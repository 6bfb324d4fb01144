#!/usr/bin/env python3
"""Counts the instructions of closing one ledger whose signatures are vouched for, by valgrind's callgrind.

    bench/vouches.py [PROGRAM]

PROGRAM is the built program, crates/ledger/out/ledger of this repository where none is given.

A ledger has one payment of each of its accounts, all signed by hash-x signers or all by own keys with one vouch each:
1,000 payments in both ways; and 20,000 vouches, which are as many as a record may have, beside as many payments as one
can hold then, of which those without a vouch are signed by hash-x. What is printed is compared with what the ledger in
Python in tests/models says. Closing is the run with the record less the run of the image alone; the script prints
instructions a payment, and what vouches take of what hash-x takes, and many of what few take.

Exit status: 0 where all is well, 1 where 1,000 vouches take more than 1.3 times the instructions of hash-x, or 20,000
more than twice those of 1,000 a payment, 2 where a run fails or prints another text. Python 3.9 or later, its standard
library, and valgrind.
"""

import os
import sys

from measuring import TOP, built
from versions import instructions

sys.path.insert(0, f"{TOP}/tests/models")
import case_tools  # noqa: E402
import set_cases as sets  # noqa: E402
from ledger_model import catchup, marked  # noqa: E402
from vouch_cases import shown, vouch  # noqa: E402

# bounds of the format of records
MOST_BYTES, MOST_VOUCHES = 16_777_216, 20_000
FEW = 1_000
MOST_OF_HASH_X, MOST_OF_FEW = 1.3, 2.0
SIGNATURE = 64


def payment(index, is_vouched):
    """The payment of an account to itself, and its vouches. Accounts have numbers for names (set_cases.py)."""
    tx = sets.Tx(index, 1, [sets.payment(index, 1)], 100)
    text = sets.sha(tx.hash) + sets.sha(sets.sha(tx.hash))
    if is_vouched:
        return sets.Signed(tx, [shown(index, text)]), [vouch(index, tx.hash, text)]
    return sets.Signed(tx, [sets.by_secret(secret(index))]), []


def secret(index):
    return f"secret of account {index}".encode().ljust(SIGNATURE, b".")


def account(index):
    """An account that its own key or its hash-x signer signs for."""
    return sets.Account(index, 100 * sets.LUMEN, signers=[sets.hash_x(secret(index))], thresholds=(1, 1, 1, 1))


def closing(program, count, vouched):
    """The instructions of closing a ledger of so many payments, of which the first ones are vouched for."""
    start = sets.Start([account(index) for index in range(count)], max_size=count, vouches=[] if vouched else None)
    envelopes = []
    for index in range(count):
        envelope, vouches = payment(index, index < vouched)
        envelopes.append(envelope)
        if vouched:
            start.vouches += vouches
    record = start.record(envelopes, sets.TIME)
    assert len(record) <= MOST_BYTES
    data = start.image + marked(record)
    opened, closed = (catchup(case_tools.NETWORK, it)[0] for it in (start.image, data))
    assert closed.count(" 0\n") == count
    return instructions(program, data, closed) - instructions(program, start.image, opened)


def most_payments():
    """How many payments a record with the most vouches can hold."""
    by_vouch, said = payment(0, True)
    by_hash_x, _ = payment(0, False)
    left = MOST_BYTES - 200 - MOST_VOUCHES * (len(said[0]) + len(by_vouch.xdr()))
    return MOST_VOUCHES + left // len(by_hash_x.xdr())


def main():
    program = os.path.abspath(sys.argv[1]) if sys.argv[1:] else built("ledger")
    hash_x, few = closing(program, FEW, 0), closing(program, FEW, FEW)
    print(f"{FEW} payments: by hash-x {hash_x / FEW:,.0f}, vouched for {few / FEW:,.0f}, {few / hash_x:.3f}", flush=True)
    count = most_payments()
    many = closing(program, count, MOST_VOUCHES) / count
    print(f"{count} payments beside {MOST_VOUCHES} vouches: {many:,.0f}, {many / (few / FEW):.3f}")
    sys.exit(few > MOST_OF_HASH_X * hash_x or many > MOST_OF_FEW * few / FEW)


if __name__ == "__main__":
    main()
