"""Cases of pages of files that are kept decoded.

A file of 130 accounts has three pages, of 64, 64 and 2: which one an account is in follows from its place. The ledger
has accounts in the first level's newer file and in the fourth level's older one, where one is that the first level says is gone.
"""

import os
import sys
from typing import List

from level_cases import INIT, LIVE, meta, record
from xdr_words import many, u32, var

sys.path.append(os.path.join(os.path.dirname(os.path.abspath(__file__)), "..", "models"))
import case_tools as models  # noqa: E402
from entry_model import LIVE as LIVE_MARK  # noqa: E402

PAGE = 64


def key(number: int) -> bytes:
    """The encoding of an account's key."""
    return u32(0) + u32(0) + bytes(28) + u32(number)


def account(number: int) -> bytes:
    """An account with 100 lumens and nothing else."""
    fields = u32(10**9 >> 32) + u32(10**9 & 0xFFFFFFFF) + bytes(8) + u32(0) + u32(0) + u32(0) + u32(0) + bytes([1, 0, 0, 0])
    return u32(1) + u32(0) + u32(0) + bytes(28) + u32(number) + fields + u32(0) + u32(0) + u32(0)


class Pages:
    """The lines of a case, and what is expected of them."""

    def __init__(self, head: str) -> None:
        self.lines = [head]
        self.expected: List[str] = []

    def step(self, name: str, arguments: bytes, answer: str) -> None:
        self.lines.append(f"{name} {arguments.hex()}")
        self.expected.append(f"{name}: {answer}")


def file_pages() -> Pages:
    """Entries 1, 130, 65 and 2 of 130, and one that isn't there."""
    file = meta(18) + b"".join(record(INIT, account(number)) for number in range(1, 131))
    case = Pages(f"pages {var(file).hex()}")
    for number, answer in (
        (1, "true 0"), (130, "true 2 0"), (65, "true 1 2 0"), (2, "true 0 1 2"), (131, "false 0 1 2"), (0, "false 0 1 2"),
        (128, "true 1 0 2"), (64, "true 0 1 2"), (129, "true 2 0 1"),
    ):
        case.step("warm", key(number), answer)
    return case


def many_pages() -> Pages:
    """Of 66 pages the 64 used last are kept."""
    file = meta(18) + b"".join(record(LIVE, account(number)) for number in range(65 * PAGE + 1))
    case = Pages(f"pages {var(file).hex()}")
    used: List[int] = []
    for page in [*range(66), 2, 0, 65]:
        used = [page, *(it for it in used if it != page)][:64]
        case.step("warm", key(page * PAGE), " ".join(map(str, ["true", *used])))
    return case


def warming() -> Pages:
    """An account that the newest file says is gone, one that exists, and one that no file names."""
    here, gone = (models.entry(models.Account(number, 10**9)) for number in (1, 2))
    files = {0: models.bucket((models.INIT, here), (models.DEAD, gone)), 7: models.bucket((LIVE_MARK, gone))}
    case = Pages(f"warming {models.image([here], files).hex()}")
    case.step("get", key(2), "nothing")
    case.step("get", key(1), "there")
    case.step("warm", many([key(2), key(9), key(2)]), "2")
    case.step("warm", many([key(1), key(2), key(3), key(1)]), "3")
    case.step("warm", many([]), "0")
    case.step("get", key(2), "nothing")
    return case


def cases() -> List[Pages]:
    return [file_pages(), many_pages(), warming()]
