#!/usr/bin/env python3
"""Counts the instructions of closing the same ledgers under protocol 18 and under 19, by valgrind's callgrind.

    bench/versions.py [PROGRAM [OTHER]]

PROGRAM is the built program, crates/ledger/out/ledger of this repository where none is given. OTHER is another build,
of an earlier state say, which may know protocol 18 alone.

The ledgers are those of the four mixes of `closes.py`: 50 of 100 transactions each, over 1,000 accounts or 10,000
offers, of which the image and so its header are of either version. What is printed is compared with what the ledger in
Python in tests/models says. Closing is the run with the records less the run of the image alone; the script prints it in
millions, what it takes under 18 of what it takes by OTHER, and what it takes under 19 of what it takes under 18.

Exit status: 0 where all is well, 1 where closing under 18 takes more than 1.02 times the instructions of OTHER, or
under 19 more than 1.25 times those under 18, 2 where a run fails or prints another text. Python 3.9 or later, its
standard library, and valgrind.
"""

import os
import re
import subprocess
import sys

from closes import ACCOUNT_MIX, ASSET_MIX, CATCHUP, NETWORK, OFFER_MIX, SEQ, WHOLE_MIX, given, story
from measuring import TOP, built, stop

sys.path.insert(0, f"{TOP}/tests/models")
import ledger_model as model  # noqa: E402

MIXES = ((1_000, ACCOUNT_MIX), (1_000, ASSET_MIX), (10_000, OFFER_MIX), (10_000, WHOLE_MIX))
MOST_OF_OTHER, MOST_OF_18 = 1.02, 1.25
COUNTED = ["valgrind", "--tool=callgrind", "--callgrind-out-file=/dev/null"]


def instructions(program, data, expected):
    """The instructions of a run, which has to print what is expected."""
    ran = subprocess.run([*COUNTED, program, *CATCHUP], input=data, capture_output=True, check=False)
    found = re.search(rb"Collected : (\d+)", ran.stderr)
    if not found or ran.returncode or ran.stdout.decode() != expected:
        stop(f"{program} ended with {ran.returncode} and printed {ran.stdout[-200:]!r}")
    return int(found[1])


def closing(programs, count, mix, version):
    """The instructions of closing the ledgers of a mix under a version, by each program."""
    data, sender = given(count, mix, version)
    ledger = model.ledger_of(model.sha(NETWORK.encode()), *model.cut_image(model.Text(data)))
    opened = f"end {SEQ} {ledger.hash.hex()}\n"
    records, expected = story(data, sender)
    whole = data + b"".join(records)
    return [instructions(it, whole, expected) - instructions(it, data, opened) for it in programs]


def main():
    programs = [os.path.abspath(program) for program in sys.argv[1:] or [built("ledger")]]
    fine = True
    for count, mix in MIXES:
        under_18, *others = closing(programs, count, mix, 18)
        under_19, = closing(programs[:1], count, mix, 19)
        growth = under_19 / under_18
        line = f"{count:7} {mix}: under 18 {under_18 / 1e6:,.0f} million, under 19 {under_19 / 1e6:,.0f}, {growth:.3f}"
        fine = fine and growth <= MOST_OF_18
        for other in others:
            line += f"; the other build {other / 1e6:,.0f}, of which under 18 {under_18 / other:.3f}"
            fine = fine and under_18 / other <= MOST_OF_OTHER
        print(line, flush=True)
    sys.exit(not fine)


if __name__ == "__main__":
    main()
