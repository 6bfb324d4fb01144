"""The image and the records of the program's command `sample`, as files that `init`, `run` and `catchup` take.

The network's passphrase of a sample is `sample`. What a sample has is worked out by tests/models/sample.py, and closed
by the Python ledger of the tests, since each record names the header before it. Unproved.
"""

from __future__ import annotations

from typing import Iterator

from image_bytes import image_bytes, marked
from python_ledger import PythonLedger, sample

GREATEST_SEED = 2**32 - 1
MOST_LEDGERS = 20000


class Sample:
    """The ledgers that are made from a seed: 0 to 4294967295, and 1 to 20000 of them."""

    def __init__(self, seed: int, ledgers: int) -> None:
        self.seed, self.ledgers = seed, ledgers
        self.image = image_bytes(sample.first_header(seed), [sample.first_file(seed)])
        self.ledger = PythonLedger(sample.PASSPHRASE, self.image)
        self.transactions = self.succeeded = 0

    def records(self) -> Iterator[bytes]:
        """The records after their marks, each of which is closed before the next one. They can be taken once."""
        for number in range(1, self.ledgers + 1):
            record = sample.record(self.seed, number, self.ledger.hash)
            transactions, succeeded = self.ledger.close(record).splitlines()[-1].split()[3:]
            self.transactions += int(transactions)
            self.succeeded += int(succeeded)
            yield marked(record)

    def line(self) -> str:
        """What the program's `sample` prints, after all records were taken."""
        return f"sample {self.seed} {self.ledgers} {self.ledger.hash.hex()} {self.transactions} {self.succeeded}\n"
