"""Whether the pages say what the sources are: the index of functions, references to contracts and wrong bodies, paths and counts."""

from __future__ import annotations

import os
import sys
from typing import List

from harness import TESTS, Tally

sys.path.insert(0, os.path.join(os.path.dirname(TESTS), "docs"))
import claims  # noqa: E402
import index  # noqa: E402
import pages  # noqa: E402


def check(top: str) -> Tally:
    tally = Tally()

    def none(what: str, faults: List[str], script: str) -> None:
        tally.check(what, not faults)
        for fault in faults:
            tally.check(what, False, f"{fault} ({script})")

    tally.check("docs/INDEX.md is up to date", index.is_written(), "docs/index.py writes it")
    none("references to contracts are right", list(claims.faults()), "docs/claims.py --write mends lines")
    none("paths, headings and counts of pages are right", list(pages.faults()), "docs/pages.py --counts prints counts")
    return tally
