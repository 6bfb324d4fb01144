"""The Python ledger of the tests, as the tools use it: it opens an image and closes records as the program has to.

It is in tests/models, and is put on the path of modules here, so that there is one Python ledger and not two: the tests
compare it with the program in each run. It shares no code with the program; its types are those of these tools' codec,
but for vouches. Unproved.
"""

from __future__ import annotations

import hashlib
import os
import sys
from typing import Optional, Tuple

from xdr import Value

MODELS = os.path.join(os.path.dirname(os.path.dirname(os.path.abspath(__file__))), "tests", "models")
if MODELS not in sys.path:
    # after the folders of the tools, whose modules come first
    sys.path.append(MODELS)

import ledger_model as model  # noqa: E402
import offer_model  # noqa: E402
import sample  # noqa: E402,F401  (for sample_files.py)


class Refusal(Exception):
    """An image or a record that is refused, and why: `rule N`, or a fault of docs/FORMATS.md, "The output of `run`"."""


class PythonLedger:
    """The ledger after the last record that closed."""

    def __init__(self, passphrase: bytes, image: bytes) -> None:
        """The ledger of a start image. Raises Refusal where that breaks a rule of images."""
        self.network_id = hashlib.sha256(passphrase).digest()
        try:
            self.ledger = model.ledger_of(self.network_id, *model.cut_image(model.Text(image)))
        except model.BadImage as why:
            raise Refusal(str(why)) from None
        except model.Wrong:
            # the 22 files have too many bytes
            raise Refusal("rule 4") from None

    @property
    def hash(self) -> bytes:
        """The hash of the last header."""
        return self.ledger.hash

    @property
    def ledger_seq(self) -> int:
        return self.ledger.header["seq"]

    @property
    def close_time(self) -> int:
        """Seconds since 1970."""
        return self.ledger.header["value"]["time"]

    def seq_num(self, key: bytes) -> Optional[int]:
        """The sequence number of an account, by its key; None where there is no account."""
        entry = self.ledger.entries.get((0, key))
        return None if entry is None else entry["body"][1]["seq"]

    def close(self, record: bytes) -> str:
        """Closes the ledger by a record, and answers the lines that the program prints for it. Raises Refusal."""
        try:
            return self.ledger.close(record)
        except model.BadRecord as why:
            raise Refusal(str(why)) from None

    def result(self, transaction_hash: bytes) -> bytes:
        """The result of a transaction of the last record, without the fee before it and the extension after it."""
        return self.ledger.outcomes[transaction_hash]

    def last_line(self) -> str:
        """The line that `catchup` ends with."""
        return f"end {self.ledger_seq} {self.hash.hex()}\n"


def liabilities_of(price: Value, amount: int) -> Tuple[int, int]:
    """What an offer may have to give and what it may take in, in units of 10^-7."""
    return offer_model.bound({"price": price, "amount": amount})
