"""Cases of lists of changes that are applied one after another to a map that has no entries at first.

What is expected was worked out by hand: a list is made as a whole or not at all, and the first change that doesn't fit is named by
its index from 0. Entries are offers of one seller, shown by the ledger that changed them, their number and their amount.
"""

from typing import List

from map_cases import offer
from xdr_words import many, u32

SELLER = 7
FIRST, CHANGED, SECOND = offer(SELLER, 1, 5, seq=3), offer(SELLER, 1, 9, seq=4), offer(SELLER, 2, 6, seq=4)
# of another ledger
LATER = offer(SELLER, 1, 5, seq=5)


def created(after: bytes) -> bytes:
    return u32(0) + after


def updated(before: bytes, after: bytes) -> bytes:
    return u32(1) + before + after


def removed(before: bytes) -> bytes:
    return u32(2) + before


class Changes:
    """The lines of a case, and what is expected of them."""

    def __init__(self) -> None:
        self.lines = ["changes"]
        self.expected: List[str] = []

    def apply(self, answer: str, entries: str, *changes: bytes) -> None:
        """Applies a list: the answer, and what the map has then."""
        self.lines.append(f"apply {many(changes).hex()}")
        self.expected.append(f"apply: {answer} {' '.join(['new', *entries.split(), 'changed', 'gone'])}")


def cases() -> Changes:
    case = Changes()
    case.apply("applied", "")
    case.apply("applied", "3 1 5", created(FIRST))
    # the same again
    case.apply("mismatch 0", "3 1 5", created(FIRST))
    # one that fits before one that doesn't: the number of the ledger, and the amount
    case.apply("mismatch 1", "3 1 5", created(SECOND), updated(LATER, CHANGED))
    case.apply("mismatch 2", "3 1 5", created(SECOND), removed(SECOND), removed(CHANGED))
    # of two keys, also where each would fit alone
    case.apply("mismatch 0", "3 1 5", updated(FIRST, SECOND))
    # a list and its reverse
    case.apply("applied", "4 1 9 4 2 6", updated(FIRST, CHANGED), created(SECOND))
    case.apply("applied", "3 1 5", removed(SECOND), updated(CHANGED, FIRST))
    # each change is judged on what those before it left
    case.apply("applied", "4 1 9", updated(FIRST, LATER), updated(LATER, CHANGED))
    case.apply("applied", "3 1 5", removed(CHANGED), created(FIRST))
    case.apply("mismatch 0", "3 1 5", removed(SECOND))
    case.apply("applied", "", removed(FIRST))
    case.apply("mismatch 0", "", removed(FIRST))
    case.apply("mismatch 0", "", updated(FIRST, FIRST))
    return case
