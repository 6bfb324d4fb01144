#!/usr/bin/env python3
"""Counts what is tested, from the data: prints the table of docs/TESTING.md, or with --write puts it there.

Python 3.9 or later and its standard library.
"""

from __future__ import annotations

import collections
import glob
import os
import re
import sys
from typing import Iterator

from cases import names, read_case
from words import CATCHUPS, INITS, NO_COMMAND, RUNS, SAMPLES

TESTS = os.path.dirname(os.path.abspath(__file__))
TOP = os.path.dirname(TESTS)
# files of rows that have what rows are made of, and none
HELPERS = {"Computed", "Readings", "BucketReadings", "Rows", "Opened"}


def text_of(path: str) -> str:
    with open(path, encoding="utf-8") as file:
        return file.read()


def cases_by_command() -> collections.Counter:
    """How many cases there are of each command, and of words that are none."""
    counts: collections.Counter = collections.Counter()
    for name in names():
        words = read_case(name).words
        word = words[0].decode(errors="replace") if words else ""
        counts[word if word in ("catchup", "init", "path", "run", "show", "sample") else "other words"] += 1
    return counts


def rows_of(path: str) -> int:
    """How many rows a file has: of each lemma that states rows, the terms that it joins."""
    text, count = re.sub(r"(?m)^--.*\n", "", text_of(path)), 0
    for block in re.split(r"\n\n+", text):
        head = re.match(r"(\w+) :", block.strip())
        if head and re.search(rf"(?m)^{head[1]}\b.* =", block):
            count += 1 + block.count("&&")
    return count


def table() -> Iterator[str]:
    yield "| what | where | count |"
    yield "|---|---|---|"
    paths = glob.glob(f"{TOP}/crates/definition_rows/proofs/*.antt")
    count = sum(rows_of(path) for path in paths if os.path.basename(path)[:-len(".antt")] not in HELPERS)
    yield f"| rows that the checker evaluates | `definition_rows/proofs` | {count} |"
    lines = text_of(f"{TOP}/crates/probe/stdout").splitlines()
    yield f"| lines that the probe has to answer | `probe/stdout` | {len(lines)} |"
    for command, count in sorted(cases_by_command().items()):
        yield f"| cases of runs: {command} | `tests/cases` | {count} |"
    yield f"| cases of runs of `watch` | `tests/watch_cases` | {len(names('watch_cases'))} |"
    commands = sum(map(len, (INITS, CATCHUPS, RUNS, SAMPLES)))
    yield f"| command lines that are a command | `tests/words.py` | {commands} |"
    yield f"| command lines that are none | `tests/words.py` | {sum(map(len, NO_COMMAND.values()))} |"
    tests = sum(text_of(path).count("#[test]") for path in glob.glob(f"{TOP}/crates/board_tests/src/*.rt"))
    yield f"| tests with threads | `board_tests` | {tests} |"
    edits = len(glob.glob(f"{TOP}/crates/*/must-fail/*.edit"))
    yield f"| wrong bodies that the gate tries | `crates/*/must-fail` | {edits} |"
    yield f"| wrong bodies beside it | `wrong_bodies/` | {len(glob.glob(f'{TOP}/wrong_bodies/*/*.edit'))} |"


def write() -> None:
    """Puts the table into docs/TESTING.md."""
    path = f"{TOP}/docs/TESTING.md"
    before, head, after = text_of(path).partition("| what | where | count |")
    rest = after[after.index("\n\n"):]
    with open(path, "w", encoding="utf-8") as file:
        file.write(before + "\n".join(table()) + rest)


if __name__ == "__main__":
    if "--write" in sys.argv[1:]:
        write()
    else:
        print("\n".join(table()))
