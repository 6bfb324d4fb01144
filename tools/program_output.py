"""What the program's `run` and `catchup` print (docs/FORMATS.md, "The output of `run` and `catchup`"), line by line.

Unproved.
"""

from __future__ import annotations

import re
from typing import Iterator, List, NamedTuple, Optional, Union

from file_source import FileFault

HASH, NUMBER = "([0-9a-f]{64})", "([0-9]{1,20})"
TX = re.compile(f"tx {HASH} {NUMBER} (-?[0-9]{{1,10}})")
CLOSED = re.compile(f"closed {NUMBER} {HASH} {NUMBER} {NUMBER}")
END = re.compile(f"end {NUMBER} {HASH}")
REFUSED = re.compile(f"refused {NUMBER} (.+)")


class Ended(NamedTuple):
    """What a transaction ended with: its hash, the fee that it was charged in stroops, and the number of its code."""

    hash: str
    fee: int
    code: int


class ClosedLedger(NamedTuple):
    """A ledger that was closed, with the hash of its header."""

    seq: int
    hash: str
    transactions: List[Ended]


class RefusedLedger(NamedTuple):
    """A ledger that was not closed, and why."""

    seq: int
    fault: str


Outcome = Union[ClosedLedger, RefusedLedger]


def outcome_of(line: str, transactions: List[Ended]) -> Optional[Outcome]:
    """What a line other than those of transactions says of a ledger; None where it is the last one of all."""
    closed, refused = CLOSED.fullmatch(line), REFUSED.fullmatch(line)
    if closed and int(closed[3]) == len(transactions):
        return ClosedLedger(int(closed[1]), closed[2], transactions)
    if refused and not transactions:
        return RefusedLedger(int(refused[1]), refused[2])
    if END.fullmatch(line) and not transactions:
        return None
    raise ValueError(line)


def outcomes(path: str) -> Iterator[Outcome]:
    """The ledgers of an output in their order. A last line that has no end was cut, and isn't looked at. Raises
    FileFault and OSError."""
    transactions: List[Ended] = []
    with open(path, encoding="ascii", errors="backslashreplace", newline="\n") as file:
        for number, line in enumerate(file, 1):
            if not line.endswith("\n"):
                return
            ended = TX.fullmatch(line[:-1])
            if ended:
                transactions.append(Ended(ended[1], int(ended[2]), int(ended[3])))
                continue
            try:
                outcome = outcome_of(line[:-1], transactions)
            except ValueError:
                raise FileFault(path, f"line {number} is none that the program prints there: {line[:80]!r}") from None
            transactions = []
            if outcome is not None:
                yield outcome
