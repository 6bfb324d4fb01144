"""The command `compare`, which compares what the program printed with an archive.

Unproved.
"""

from __future__ import annotations

import argparse

from command_words import Groups, command, put
from comparing import compare

# where a ledger differs
DIFFERENT = 1
COMPARE = "compares what `run` or `catchup` printed with the results and headers of an archive"
MORE_OF_COMPARE = """RESULTS is an SLH1 file, as `records from-archive --results` writes it, or a results file of an
archive, which has no headers. Printed are the ledgers that are equal, or the first one that
isn't: each of its transactions with its code and fee on both sides. The exit status is 0, or
1 where a ledger differs."""
EXAMPLE = "compare archived.history output"


def run_compare(asked: argparse.Namespace) -> int:
    return 0 if compare(asked.results, asked.output, put) else DIFFERENT


def register(groups: Groups) -> None:
    """Adds the command to those of a program."""
    words = command(groups, "compare", run_compare, COMPARE, EXAMPLE, MORE_OF_COMPARE)
    words.add_argument("results", metavar="RESULTS")
    words.add_argument("output", metavar="OUTPUT", help="what the program printed")
