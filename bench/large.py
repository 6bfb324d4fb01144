#!/usr/bin/env python3
"""Measures what opening large images takes, of accounts, and of offers in 20 books; and what closing the longest record takes.

    bench/large.py [--accounts NUMBER] [--offers NUMBER] [PROGRAM]

PROGRAM is the built program, crates/ledger/out/ledger of this repository where none is given. `catchup` opens an image of 1,000,000
accounts, and one of 1,000,000 offers of 5,000 sellers, each of which has a line in ten assets: 1,055,000 entries. The entries of one
account and of one seller are encoded; those of the others are the same bytes with another key and other numbers of offers, so that an
image takes seconds and not minutes. The hash that is printed has to be that of the image's header. The record has as many payments among
11 accounts as fit into it; each has to succeed.

It prints the size of each input, the processor time and the peak memory of a run.

Exit status: 0, or 2 where a run fails or prints another hash. Python 3.9 or later and its standard library; an image of a million offers
has 234 MB, of which it holds three copies.
"""

import argparse
import os
import sys
import tempfile

from measuring import TOP, built, i64, run, stop

sys.path.insert(0, f"{TOP}/tests/models")
import deep_levels as deep  # noqa: E402
import ledger_model as model  # noqa: E402
import set_cases as sets  # noqa: E402
from closes import CATCHUP, SEQ, image_of  # noqa: E402
from trading import FIRST_SELLER, ISSUER, LUMENS, holder, offers_by  # noqa: E402

BALANCE, EACH = 1_000_000_000, 200
# the most bytes of a record, and the ledger before it
LONGEST, FIRST = 1 << 24, 1020


def items_of(texts):
    """The items of entries in their order, each a mark and the encoding after it."""
    rows = sorted(model.row(model.INIT, model.ENTRY.read(model.Text(text))) for text in texts)
    return [model.marked(row[3]) for row in rows]


def halves(items):
    """Two files, each with every second one of the items."""
    both = [model.Bucket(18, []).file, model.Bucket(18, []).file]
    listed = list(items)
    return [file + b"".join(listed[half::2]) for half, file in enumerate(both)]


def accounts(count):
    """Two files of so many accounts, and all lumens."""
    (item,) = items_of([sets.Account(1, BALANCE).xdr()])
    return halves(renamed(item, sets.key(1), sets.key(name)) for name in range(count)), count * BALANCE


def renamed(item, old, new):
    """An item in which some bytes stand once, with others of that number instead."""
    before, after = item.split(old, 1)
    return before + new + after


def offers(count):
    """Two files of so many offers with their sellers, and all lumens. Entries go by type, seller and number."""
    names = range(FIRST_SELLER, FIRST_SELLER + count // EACH)
    rows, owed = offers_by(FIRST_SELLER, 1, EACH)
    account, *lines = items_of(holder(FIRST_SELLER, EACH, owed))
    made = items_of([sets.Account(ISSUER, LUMENS).xdr()])
    made += [renamed(account, sets.key(FIRST_SELLER), sets.key(name)) for name in names]
    made += [renamed(line, sets.key(FIRST_SELLER), sets.key(name)) for name in names for line in lines]
    listed = list(enumerate(items_of(rows), 1))
    for place, name in enumerate(names):
        for number, item in listed:
            old, new = (sets.key(seller) + i64(first + number) for seller, first in ((FIRST_SELLER, 0), (name, place * EACH)))
            made.append(renamed(item, old, new))
    return halves(made), LUMENS * (1 + len(names))


def opened(program, folder, what, files, coins, ids):
    """Opens an image of two files, and prints what that took."""
    data, digest = image_of([b""] * 8 + files + [b""] * 12, coins, ids)
    path = f"{folder}/image"
    with open(path, "wb") as file:
        file.write(data)
    size = len(data)
    del data, files[:]
    seconds, memory, _ = run([program, *CATCHUP], 3, folder, path, f"end {SEQ} {digest.hex()}\n")
    print(f"{what}: {size / 1e6:.1f} MB, {seconds:.2f} s, {memory / 1e3:.0f} MB, {memory * 1024 / size:.1f} times the image", flush=True)


# ---- a record


def small():
    """An image of accounts that send payments, and the hash of its header."""
    return deep.image_of(FIRST, {}, 0)


def record_of(listed, previous):
    """The record of a set after the image."""
    digest = model.sha(previous + b"".join(sorted(listed, key=model.sha)))
    value = digest + model.u64(1005) + model.u32(0) + model.u32(0)
    return model.marked(model.u32(FIRST + 1) + previous + model.many(listed) + value)


def sent(number, *operations):
    source, turn = number % deep.SENDERS, 1 + number // deep.SENDERS
    return sets.sent(source, turn, *operations, fee=100 * len(operations)).xdr()


def payments():
    """As many payments as fit into a record."""
    size = len(sent(0, sets.payment(deep.SENDERS, 1)))
    return [sent(number, sets.payment(deep.SENDERS, 1)) for number in range((LONGEST - 1000) // size)]


def after_small(listed):
    data, previous = small()
    return data + record_of(listed, previous)


def closed(program, folder):
    """Closes the longest record, and prints what that took."""
    listed = payments()
    path = f"{folder}/input"
    with open(path, "wb") as file:
        file.write(after_small(listed))
    seconds, memory, output = run([program, *CATCHUP], 3, folder, path)
    if output.splitlines()[-2].split()[-2:] != [b"%d" % len(listed)] * 2:
        stop(f"not all payments succeed: {output.splitlines()[-2]!r}")
    print(f"{len(listed):,} payments: {os.path.getsize(path) / 1e6:.1f} MB, {seconds:.2f} s, {memory / 1e3:.0f} MB", flush=True)


def main():
    parser = argparse.ArgumentParser(description="Measures what opening large images takes.")
    parser.add_argument("program", nargs="?", default=built("ledger"))
    parser.add_argument("--accounts", type=int, default=1_000_000)
    parser.add_argument("--offers", type=int, default=1_000_000)
    given = parser.parse_args()
    program = os.path.abspath(given.program)
    with tempfile.TemporaryDirectory() as folder:
        opened(program, folder, f"{given.accounts:,} accounts", *accounts(given.accounts), 0)
        opened(program, folder, f"{given.offers:,} offers", *offers(given.offers), given.offers)
        closed(program, folder)


if __name__ == "__main__":
    main()
