"""Whether what scripts write is what they would write now: the cases of the probe, and the counts of docs/TESTING.md."""

from __future__ import annotations

import os
import sys

import counts
from harness import TESTS, Tally

sys.path.insert(0, os.path.join(TESTS, "probe"))
import probe_cases  # noqa: E402


def check(top: str) -> Tally:
    tally = Tally()
    for name, text in probe_cases.files().items():
        is_written = probe_cases.is_written(name, text)
        tally.check("the probe's cases are those of the tables", is_written, f"tests/probe/probe_cases.py writes {name}")
    with open(f"{top}/docs/TESTING.md", encoding="utf-8") as file:
        tally.check("docs/TESTING.md has the counts", "\n".join(counts.table()) in file.read(), "tests/counts.py prints them")
    return tally
