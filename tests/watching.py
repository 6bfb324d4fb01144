"""The program `watch`: its cases, and readers beside 400 ledgers of one account.

The cases are in `watch_cases`, in the form that `cases.py` says; the records of the long run are those of `beside.py`. What readers print does
not depend on how their threads are scheduled: each reads once more when it was told of the last ledger.
"""

from __future__ import annotations

import os
import sys
from typing import List

from cases import difference, names, read_case
from harness import NETWORK, TESTS, Program, Tally, read

sys.path.insert(0, os.path.join(TESTS, "models"))
from case_tools import key  # noqa: E402

CASES = "watch_cases"
# the account of the long run, its last ledger, and what it has there: a fee of 100 stroops for each of 400 ledgers
ACCOUNT, LAST, BALANCE = "a", 401, 100 * 10 ** 7 - 400 * 100
READERS = (1, 2, 3, 4)
# the long run is repeated so often, so that its threads meet in other ways
ROUNDS = 3


def long_words(readers: int) -> List[str]:
    return ["--network", NETWORK, "--account", key(ACCOUNT).hex(), "--readers", str(readers)]


def lines(readers: int) -> bytes:
    return b"".join(b"reader %d %d %d\n" % (number, LAST, BALANCE) for number in range(1, readers + 1))


def check_long(program: Program, tally: Tally) -> None:
    given = read("stories", "beside", "image") + read("stories", "beside", "records")
    for readers in READERS:
        for turn in range(ROUNDS):
            ran = program.run(long_words(readers), given)
            holds = (ran.status, ran.out, ran.err) == (0, lines(readers), b"")
            tally.check("readers beside 400 ledgers read the last one", holds, (readers, turn, ran.status, ran.out, ran.err))


PARTS = (check_long,)


def check(program: Program, part) -> Tally:
    tally = Tally()
    part(program, tally)
    return tally


def check_case(program: Program, name: str) -> Tally:
    """Runs a case, plainly and at one byte a read and a write."""
    tally, case = Tally(), read_case(name, CASES)
    for way, faults in (("as it is", {}), ("at one byte a read and a write", {"ONE_BYTE": 1})):
        why = difference(case, program.run(case.words, case.given, case.before, **faults))
        tally.check(f"a case of `watch`, {way}", why is None, f"{name}: {why}")
    return tally
