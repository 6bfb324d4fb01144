#!/usr/bin/env python3
"""Measures the application of complete sets of transactions.

    bench/sets.py [PROGRAM]

PROGRAM is the built program, crates/ledger/out/ledger of this repository where none is given.

The ledger has 10,000 accounts. `catchup` opens its image and closes one record, whose set has 1,000 or 10,000 payments, each of another
source and signed by one hash-x signer. The time of the same run with an empty set is taken off, so that opening the image doesn't count;
reading the set, merging what it changed and printing its lines do. The lines of the transactions are compared with what is known of
payments.

The script prints processor time, microseconds a transaction, the share that sha256sum takes to hash every envelope twice, and how
much longer ten times the transactions take.

Exit status: 0 where all is well, 1 where ten times the transactions take more than 13 times as long, 2 where a run fails or prints
another line. Python 3.9 or later, its standard library, and sha256sum.
"""

import sys
import tempfile

from measuring import TOP, built, run, stop

sys.path.insert(0, f"{TOP}/tests/models")
import set_cases as made  # noqa: E402

ACCOUNTS = 10_000
GREATEST_RATIO = 13
BALANCE = 1_000_000_000
WORDS = ["catchup", "--network", "Test SDF Network ; September 2015"]


def payments(count):
    """The input of a run over so many accounts, of which the first ones pay the next one 1 stroop each; and the envelopes."""
    accounts = [made.Account(number, BALANCE) for number in range(ACCOUNTS)]
    start = made.Start(accounts, max_size=1_000_000)
    listed = [made.sent(number, 1, made.payment((number + 1) % ACCOUNTS, 1)) for number in range(count)]
    return start.image + made.marked(start.record(listed, made.TIME)), listed


def measure(program, folder, count, runs):
    """The time in which so many transactions are applied, and that in which their envelopes are hashed twice."""
    data, listed = payments(count)
    for name, content in (("input", data), ("envelopes", b"".join(envelope.xdr() for envelope in listed) * 2)):
        with open(f"{folder}/{name}", "wb") as out:
            out.write(content)
    seconds, _, text = run([program, *WORDS], runs, folder, source=f"{folder}/input")
    lines = {line for line in text.decode().splitlines() if line.startswith("tx ")}
    if lines != {f"tx {envelope.hash.hex()} 100 0" for envelope in listed}:
        stop(f"{count} payments: another line of a transaction")
    hashed, _, _ = run(["sha256sum", f"{folder}/envelopes"], runs, folder)
    return seconds, hashed


def main():
    program = sys.argv[1] if len(sys.argv) > 1 else built("ledger")
    with tempfile.TemporaryDirectory() as folder:
        none, _ = measure(program, folder, 0, 5)
        times = {}
        for count in (1_000, 10_000):
            whole, hashed = measure(program, folder, count, 5)
            times[count] = max(whole - none, 1e-9)
            print(
                f"{count:6} transactions: {times[count] * 1e3:7.1f} ms, {times[count] / count * 1e6:6.1f} us each,"
                f" sha256sum {hashed / times[count]:5.2f} of it"
            )
    ratio = times[10_000] / times[1_000]
    print(f"ten times the transactions take {ratio:.1f} times as long")
    if ratio > GREATEST_RATIO:
        sys.exit(1)


if __name__ == "__main__":
    main()
