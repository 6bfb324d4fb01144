"""Cases of single calls: what a file of a bucket says of a key (CAP-0020), and upgrades that are read and written again.

The file has META of version 18 and the accounts of 32 bytes A and 32 bytes B, which are gone; it was laid out by hand after
Stellar-ledger.x, and so were the upgrades.
"""

from typing import List

from xdr_words import u32, var

META = bytes.fromhex("8000000cffffffff0000001200000000")
FILE = META + b"".join(bytes.fromhex("8000002c000000010000000000000000") + letter * 32 for letter in (b"A", b"B"))


class Calls:
    """The lines of cases, and what is expected of them."""

    def __init__(self) -> None:
        self.lines = ["calls"]
        self.expected: List[str] = []

    def find(self, file: bytes, letter: bytes, answer: str) -> None:
        """What a file says of the account of 32 equal letters."""
        self.lines.append(f"find {(var(file) + bytes(8) + letter * 32).hex()}")
        self.expected.append(f"find: {answer}")

    def upgrade(self, kind: int, value: int) -> None:
        data = (u32(kind) + u32(value)).hex()
        self.lines.append(f"upgrade {data}")
        self.expected.append(f"upgrade: {data}")


def cases() -> Calls:
    calls = Calls()
    for letter, answer in ((b"@", "nothing"), (b"A", "gone"), (b"B", "gone"), (b"C", "nothing")):
        calls.find(FILE, letter, answer)
    calls.find(b"", b"A", "nothing")
    for kind, value in ((1, 19), (2, 100), (3, 2**32 - 1), (4, 5_000_000), (5, 7)):
        calls.upgrade(kind, value)
    return calls
