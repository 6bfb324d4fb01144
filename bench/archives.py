#!/usr/bin/env python3
"""Counts the instructions of `history` beside those of `catchup` over the same input, and of `verify` beside those of
what it has to compute, by valgrind's callgrind.

    bench/archives.py [--ledgers N] [LEDGER [SPEED]]

LEDGER and SPEED are the built programs, crates/ledger/out/ledger and crates/speed/out/speed of this repository where
none are given.

The input is an image of 100 accounts and so many records, 100 where none are said, in each of which every account pays
another one. What is written is compared with what the archive and the ledger in Python in tests/models say, and
`verify` has to accept it. What it has to compute is what `speed` does: it decodes the three files, and hashes each
envelope twice, apart and with its set, and all else once.

Exit status: 0 where all is well, 1 where `history` takes more than 1.3 times the instructions of `catchup`, or `verify`
more than 1.3 times those of `speed`, 2 where a run fails or writes another text. Python 3.9 or later, its standard
library, and valgrind.
"""

import argparse
import os
import re
import subprocess
import sys
import tempfile

from measuring import TOP, built, stop

sys.path.insert(0, f"{TOP}/tests/models")
import archive_model as archive  # noqa: E402
import case_tools  # noqa: E402
import set_cases as sets  # noqa: E402
from ledger_model import catchup  # noqa: E402

ACCOUNTS = 100
MOST_OF_CATCHUP = MOST_OF_PARTS = 1.3
COUNTED = ["valgrind", "--tool=callgrind", "--callgrind-out-file=/dev/null"]


def secret(index):
    return f"secret of account {index}".encode()


def given(ledgers):
    """The image and the records of so many ledgers."""
    accounts = [sets.Account(index, 100 * sets.LUMEN, signers=[sets.hash_x(secret(index))], thresholds=(0, 1, 1, 1))
                for index in range(ACCOUNTS)]
    story = case_tools.Story(case_tools.image([case_tools.entry(account) for account in accounts]))
    for ledger in range(ledgers):
        story.close(*(sets.Signed(sets.Tx(index, ledger + 1, [sets.payment((index + 1) % ACCOUNTS, 1)], 100),
                                  [sets.by_secret(secret(index))]) for index in range(ACCOUNTS)))
    return story.data


def instructions(command, data, expected=None):
    """The instructions of a run, which has to write what is expected, if anything is."""
    ran = subprocess.run([*COUNTED, *command], input=data, capture_output=True, check=False)
    found = re.search(rb"Collected : (\d+)", ran.stderr)
    if not found or ran.returncode or expected not in (None, ran.stdout):
        stop(f"{command[1]} ended with {ran.returncode} and wrote {ran.stdout[-200:]!r}")
    return int(found[1])


def parts_of(speed, history):
    """The instructions of what verifying a history has to compute."""
    with tempfile.NamedTemporaryFile() as file:
        file.write(history)
        file.flush()
        return instructions([speed, "history", file.name], b"")


def words():
    parser = argparse.ArgumentParser(description="Counts the instructions of history and verify.")
    parser.add_argument("--ledgers", type=int, default=100)
    parser.add_argument("ledger", nargs="?", default=built("ledger"))
    parser.add_argument("speed", nargs="?", default=built("speed"))
    return parser.parse_args()


def main():
    asked = words()
    program, speed = os.path.abspath(asked.ledger), os.path.abspath(asked.speed)
    data, network = given(asked.ledgers), case_tools.NETWORK
    history, _, _ = archive.history(network, data)
    line, _, _ = archive.verify(history)
    closed = instructions([program, "catchup", "--network", network], data, catchup(network, data)[0].encode())
    kept = instructions([program, "history", "--network", network], data, history)
    judged, parts = instructions([program, "verify"], history, line.encode()), parts_of(speed, history)
    print(f"{asked.ledgers} ledgers of {ACCOUNTS} payments: catchup {closed:,}, history {kept:,}: {kept / closed:.3f}")
    print(f"verify {judged:,}, {judged / len(history):.1f} for each of {len(history):,} bytes, its parts {parts:,}: "
          f"{judged / parts:.3f}")
    sys.exit(kept > MOST_OF_CATCHUP * closed or judged > MOST_OF_PARTS * parts)


if __name__ == "__main__":
    main()
