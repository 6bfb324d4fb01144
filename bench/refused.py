#!/usr/bin/env python3
"""Measures whether what is refused stays cheap: the heap of refused inputs, beside accepted ones of as many bytes.

    bench/refused.py [--runs NUMBER] [--seed NUMBER] [--megabytes NUMBER] [--only PART] [PROGRAM]

PROGRAM is the built program, crates/ledger/out/ledger of this repository where none is given. A library that is loaded
before the C library (heap.c) notes the greatest number of bytes of the heap that a run had at once. Measured are

    cases    the cases of tests/cases, and mutations of them and of stores, made as in fuzz.py (--runs, 2000, --seed, 0)
    words    three cases, a store, a history and a query in which one word of four bytes after another is 2^32 - 1, or
             the longest length that a record or a file may have, or a little one: false lengths among them
    large    records, images and histories of some MB (--megabytes, 4) that are accepted, and the same cut, with another
             byte at their end, with another hash, or with lumens that aren't there; and a long record that is no record

A refused input of the cases is compared with the accepted ones that have at most as many bytes, of commands that read
an image, of those that open a store, of `history` and `changes`, of `verify` and of `path`; those of words with the
case as it was, and large ones with what they were made of.

It prints what takes most, and ends with 1 where a large refused input takes more than the accepted one, or another
more than 2 MB above it. Exit status: 0 where that holds, 2 where the script can't be run. Linux, Python 3.9 or later
and its standard library, and a C compiler (cc).
"""

from __future__ import annotations

import argparse
import os
import subprocess
import sys
import tempfile
from bisect import bisect_right
from itertools import accumulate
from typing import Callable, Dict, Iterator, List, NamedTuple, Sequence, Tuple

from measuring import TOP, built, stop

sys.path.insert(0, f"{TOP}/tests/models")
import fuzz_paths  # noqa: E402, F401
import large  # noqa: E402
import set_cases as sets  # noqa: E402
from case_tools import predicate  # noqa: E402
from closes import CATCHUP, image_of  # noqa: E402
from fuzz_answers import Late, Limit  # noqa: E402
from fuzz_bytes import with_bytes  # noqa: E402
from fuzz_making import by_kind, made  # noqa: E402
from fuzz_parts import image_length  # noqa: E402
from fuzz_queries import MOST_BYTES as MOST_QUERY  # noqa: E402
from fuzz_trials import NO_FILES, Four, Trial, case_seeds, seeds, with_file  # noqa: E402
from harness import FILES, lay_out  # noqa: E402

MOST_ABOVE = 2_000_000
# what a word is set to
WORDS = (2**32 - 1, 2**24, 0x81000000, 0x20000000, 100)
SWEPT = (
    "all-kinds-of-changes", "protocol-19-a-record-with-all-preconditions", "assets-each-operation-in-one-transaction",
)
# a store, a history and a query
SWEPT_OTHERS = (
    "stores-show-a-store-with-three-records", "archives-verify-five-ledgers", "queries-equal-direct-by-one-by-two",
)
# so many bytes of a store's file are swept
SWEPT_HEAD = 600
COMMANDS = (("catchup", "init"), ("run", "show"), ("history", "changes"), ("verify",), ("path",))
HISTORY, VERIFY = ["history", *CATCHUP[1:]], ["verify"]
TO_MAKE = 30


class Ran(NamedTuple):
    name: str
    command: str
    size: int
    status: int
    peak: int

    def __str__(self) -> str:
        return f"{self.name}, `{self.command}` of {self.size:,} bytes, status {self.status}: {self.peak:,} bytes"


class Meter:
    """Runs a program, and notes the greatest heap of each run."""

    def __init__(self, program: str, folder: str) -> None:
        self.program, self.folder, self.library = program, folder, f"{folder}/heap.so"
        words = ["cc", "-shared", "-fPIC", "-O1", "-o", self.library, f"{TOP}/bench/heap.c", "-ldl"]
        if subprocess.run(words, check=False).returncode:
            stop("bench/heap.c could not be compiled")

    def ran(self, name: str, words: Sequence, data: bytes, files: Four = NO_FILES) -> Ran:
        peak = f"{self.folder}/peak"
        with tempfile.TemporaryDirectory(dir=self.folder) as at:
            lay_out(at, dict(zip(FILES, files)))
            how = {"input": data, "capture_output": True, "check": False, "cwd": at}
            environment = {"LD_PRELOAD": self.library, "PEAK": peak}
            end = subprocess.run([self.program, *words], env=environment, **how)
        if end.returncode < 0:
            stop(f"{name} was ended by signal {-end.returncode}")
        with open(peak, encoding="ascii") as file:
            taken = int(file.read())
        word = words[0] if isinstance(words[0], str) else words[0].decode()
        return Ran(name, word, len(data) + sum(map(len, files)), end.returncode, taken)

    def first_step(self, name: str, trial: Trial) -> Ran:
        """The first command of a trial."""
        words, data = trial.steps[0]
        return self.ran(name, words, data, trial.files)


# ---- cases, and mutations of them


def mutated(seed: int, runs: int) -> Iterator[Tuple[str, Trial]]:
    listed = by_kind(seeds())
    for number in range(runs):
        try:
            with Limit(TO_MAKE):
                run = made(listed, seed, number)
        except Late:
            continue
        yield f"mutation {number} of {run.seed}", run.trial._replace(workers=0)


def measure_cases(meter: Meter, seed: int, runs: int) -> List[Ran]:
    listed = list(case_seeds())
    found = [meter.first_step(each.name, each.trial) for each in listed]
    inputs = [each for each in listed if each.trial.kind == "catchup"]
    for kind, listed in (("made", inputs[::5]), ("history", inputs[1::5])):
        found += [meter.first_step(each.name, each.trial._replace(kind=kind)) for each in listed]
    return found + [meter.first_step(name, trial) for name, trial in mutated(seed, runs)]


def above_accepted(found: List[Ran]) -> List[Tuple[int, Ran]]:
    """Of each refused input how many bytes it takes above accepted ones of such commands with at most as many bytes."""
    above = []
    for commands in COMMANDS:
        listed = [ran for ran in found if ran.command in commands]
        accepted = sorted((ran.size, ran.peak) for ran in listed if ran.status == 0)
        sizes, most = [size for size, _ in accepted], list(accumulate((peak for _, peak in accepted), max))
        refused = [ran for ran in listed if ran.status and sizes]
        above += [(ran.peak - most[max(0, bisect_right(sizes, ran.size) - 1)], ran) for ran in refused]
    return above


# ---- words


def other_words(data: bytes, start: int, end: int) -> Iterator[Tuple[str, bytes]]:
    """Bytes with another word at each offset of one from a start to an end, and what was done to them."""
    for at in range(start, min(len(data), end) - 3, 4):
        for word in WORDS:
            yield f"{word} at {at}", with_bytes(data, at, word.to_bytes(4, "big"))


def swept(trial: Trial) -> Iterator[Tuple[str, Trial]]:
    """A trial with other words in its input, its files and its query."""
    for what, data in other_words(trial.data, 0, len(trial.data)):
        yield what, trial._replace(data=data)
    for index, file in enumerate(trial.files):
        # the fields of these files stand after a gate of one byte
        for what, data in other_words(file, 1, SWEPT_HEAD):
            yield f"{what} of {FILES[index]}", with_file(trial, index, data)
    for what, data in other_words(trial.query or b"", 0, MOST_QUERY):
        yield f"{what} of the query", trial._replace(query=data)


def measure_words(meter: Meter) -> List[Tuple[int, Ran]]:
    """Of each input with another word how many bytes it takes above what it was before."""
    by_name = {each.name: each.trial for each in case_seeds()}
    above = []
    for name in (*SWEPT, *SWEPT_OTHERS):
        start = meter.first_step(name, by_name[name])
        for what, trial in swept(by_name[name]):
            ran = meter.first_step(f"{name} with {what}", trial)
            above.append((ran.peak - start.peak, ran))
    return above


# ---- large inputs


def records(size: int) -> Iterator[Tuple[str, List[bytes]]]:
    """Sets of about so many bytes."""
    one = sets.payment(1, 1)
    claim = sets.create_claimable(1, [(number, predicate(32)) for number in range(10)])
    bare = [sets.operation(9)] * 100
    for name, operations in (("payments", [one]), ("bare operations", bare), ("deep predicates", [claim] * 100)):
        each = len(large.sent(0, *operations))
        yield name, [large.sent(number, *operations) for number in range(size // each)]


def refused_records(data: bytes) -> Dict[str, bytes]:
    """What is refused in place of a record after an image."""
    start = image_length(data)
    middle = (start + len(data)) // 2
    return {
        "cut": data[:-1], "another byte at its end": data[:-1] + b"\7",
        "other bytes in its middle": with_bytes(data, middle, b"\xff" * 8),
        "another ledger before": with_bytes(data, start + 8, bytes(32)),
        "another number": with_bytes(data, start + 4, bytes(4)),
        "zeros": with_bytes(data, start + 4, bytes(len(data) - start - 4)),
        "as many envelopes as can be said": with_bytes(data, start + 40, b"\xff" * 4),
    }


def image(size: int, lumens: int = 0) -> bytes:
    files, coins = large.accounts(size // 140)
    return image_of([b""] * 8 + files + [b""] * 12, coins + lumens, 0)[0]


def refused_images(data: bytes, size: int) -> Dict[str, bytes]:
    """What is refused in place of an image of so many bytes."""
    first = 8 + (int.from_bytes(data[4:8], "big") & 0x7FFFFFFF)
    return {
        "the greatest length of the first file": with_bytes(data, first, (2**29).to_bytes(8, "big")),
        "cut": data[:-1], "another byte at their end": data[:-1] + b"\7", "a lumen too many": image(size, 1),
        "another hash of the levels": with_bytes(data, 4 + 4 + 4 + 32 + 32 + 8 + 4 + 4 + 32, bytes(32)),
        "other bytes in their middle": with_bytes(data, len(data) // 2, b"\xff" * 8),
        "the greatest length of the last file": with_bytes(data, len(data) - 8, b"\xff" * 8),
    }


def refused_histories(data: bytes) -> Dict[str, bytes]:
    """What is refused in place of a history."""
    return {
        "cut": data[:-1], "a byte after it": data + b"\7", "another byte at its end": data[:-1] + b"\7",
        "other bytes in its middle": with_bytes(data, len(data) // 2, b"\xff" * 8),
        "another hash before": with_bytes(data, 4, bytes(32)), "another number": with_bytes(data, 36, bytes(4)),
        "the greatest length of the headers": with_bytes(data, 40, (2**28).to_bytes(8, "big")),
        "another hash of the header": with_bytes(data, 52, bytes(32)), "zeros": data[:48] + bytes(len(data) - 48),
    }


Refused = Callable[[bytes], Dict[str, bytes]]


def compared(meter: Meter, name: str, words: List[str], data: bytes, refused: Refused) -> List[Tuple[float, Ran]]:
    """Of each refused input its heap as a part of that of the accepted one which it is made of."""
    start = meter.ran(name, words, data)
    if start.status:
        stop(f"{start} isn't accepted")
    print(start, flush=True)
    found = ((meter.ran(f"{name}, {what}", words, other), start) for what, other in refused(data).items())
    return [(ran.peak / start.peak, ran) for ran, start in found]


def measure_large(meter: Meter, size: int) -> List[Tuple[float, Ran]]:
    parts = []
    for name, listed in records(size):
        data = large.after_small(listed)
        for words in (CATCHUP, HISTORY):
            parts += compared(meter, name, words, data, refused_records)
        history = subprocess.run([meter.program, *HISTORY], input=data, capture_output=True, check=True).stdout
        parts += compared(meter, name, VERIFY, history, refused_histories)
    return parts + compared(meter, "accounts", CATCHUP, image(size), lambda data: refused_images(data, size))


# ---- the runs


def main() -> None:
    parser = argparse.ArgumentParser(description="Measures the heap that refused inputs take.")
    parser.add_argument("program", nargs="?", default=built("ledger"))
    parser.add_argument("--runs", type=int, default=2000)
    parser.add_argument("--seed", type=int, default=0)
    parser.add_argument("--megabytes", type=float, default=4)
    parser.add_argument("--only", choices=("cases", "words", "large"))
    given = parser.parse_args()
    wrong = False
    with tempfile.TemporaryDirectory() as folder:
        meter = Meter(os.path.abspath(given.program), folder)
        if given.only in (None, "large"):
            parts = [(part, ran) for part, ran in measure_large(meter, int(given.megabytes * 1e6)) if ran.status]
            worst, ran = max(parts)
            print(f"large: {len(parts)} refused, at most {worst:.3f} times the heap of an accepted one: {ran}")
            wrong |= worst > 1
        if given.only in (None, "words"):
            above = measure_words(meter)
            worst, ran = max(above)
            refused = sum(ran.status != 0 for _, ran in above)
            print(f"words: {len(above)}, {refused} refused, at most {worst:,} bytes above what it was: {ran}")
            wrong |= worst > MOST_ABOVE
        if given.only in (None, "cases"):
            above = above_accepted(measure_cases(meter, given.seed, given.runs))
            worst, ran = max(above)
            print(f"cases: {len(above)} refused, at most {worst:,} bytes above an accepted one: {ran}")
            wrong |= worst > MOST_ABOVE
    sys.exit(1 if wrong else 0)


if __name__ == "__main__":
    main()
