#!/usr/bin/env python3
"""Compares the built programs with the Python ledger of tests/models over mutated inputs and stores.

    bench/fuzz.py [--seconds N | --runs N] [--seed S] [--only NUMBER] [--keep FOLDER] PROGRAM [OTHER]

PROGRAM and OTHER are built programs, crates/ledger/out/ledger and crates/ledger/out/ledger.by-rattle of this
repository. Each run takes an image with records, or a store with records, of the tests or made by the tools, and
mutates it: its bytes, its values by the table of types of tools/, or its sequences of records and items. After most
mutations hashes are repaired, and sums of the image, the numbers of ledgers and transactions, and signatures
(`fuzz_repair.py`), so that a mutation gets past the first tests. Then `catchup`, or `history`, `changes` and `verify`,
or `init`, `run` and `show`, or `run` and `show` over the mutated store, are run by each program and by the Python
ledger, and statuses, outputs, standard errors and files of the store compared. Histories for `verify` are mutated
likewise (`fuzz_history.py`), and queries of `path` with the stores that they are for (`fuzz_queries.py`). A tenth of
the runs are at one byte a read, half of those that close into stores beside workers.

A run is made from the seed (0 where none is given) and its number alone: `--seed S --only NUMBER` makes it again.
Where answers differ, a command is ended by a signal or takes longer than 10 seconds, or the Python ledger fails, a line
is printed, and the input and what each answered are kept in a folder, as they were and reduced. At the end it is
printed what runs reached. Runs for 60 seconds where nothing else is said.

Exit status: 0 where nothing differed, 1 where something did, 2 where a word is wrong. Python 3.9 or later and its
standard library; Linux.
"""

from __future__ import annotations

import argparse
import os
import sys
import tempfile
import time
from collections import Counter
from typing import Counter as Count
from typing import Dict, Iterator, List, Optional

from fuzz_answers import Answer, Difference, Late, Limit, Program, WatchedLedger, difference, model_answers
from fuzz_making import Made, Seeds, by_kind, made
from fuzz_reduce import reduced
from fuzz_tally import Tally, first_said
from fuzz_trials import Trial, seeds
from harness import FILES

MODEL = "the Python ledger"
SECONDS, TO_REDUCE, TO_MAKE = 60, 40, 30
# so many differences of one kind are kept and reduced
MOST_KEPT = 3


def parsed() -> argparse.Namespace:
    parser = argparse.ArgumentParser(description="Compares built programs with the Python ledger over mutated inputs.")
    length = parser.add_mutually_exclusive_group()
    length.add_argument("--seconds", type=float)
    length.add_argument("--runs", type=int)
    length.add_argument("--only", type=int, metavar="NUMBER")
    parser.add_argument("--seed", type=int, default=0)
    parser.add_argument("--keep", metavar="FOLDER")
    parser.add_argument("programs", nargs="+", metavar="PROGRAM")
    words = parser.parse_args()
    if len(words.programs) > 2 or not all(os.access(path, os.X_OK) for path in words.programs):
        parser.error("one or two built programs are asked for")
    return words


def numbers(words: argparse.Namespace) -> Iterator[int]:
    """The numbers of the runs."""
    if words.only is not None:
        yield words.only
    elif words.runs is not None:
        yield from range(words.runs)
    else:
        number, end = 0, time.monotonic() + (SECONDS if words.seconds is None else words.seconds)
        while time.monotonic() < end:
            yield number
            number += 1


def write(folder: str, trial: Trial, by: Dict[str, Optional[List[Answer]]]) -> None:
    """Writes a trial and what each answered into a folder."""
    os.makedirs(folder, exist_ok=True)
    contents = {"input": trial.data, "query": trial.query or b"", **dict(zip(FILES, trial.files))}
    for name, data in contents.items():
        if data:
            with open(f"{folder}/{name}", "wb") as file:
                file.write(data)
    with open(f"{folder}/answers", "wb") as file:
        way = f"{trial.workers} workers, one byte a read: {trial.by_bytes}, passphrase {trial.passphrase!r}"
        file.write(f"{trial.kind}, {way}\n".encode())
        for label, found in by.items():
            for (words, _), answer in zip(trial.steps, found or []):
                lengths = ", ".join(f"{name} {len(data)}" for name, data in zip(FILES, answer.files))
                file.write(f"\n{label}: {b' '.join(words).decode()}: status {answer.status}; {lengths}\n".encode())
                file.write(answer.out + answer.err)


def is_alike(one: Optional[Difference], other: Difference) -> bool:
    """Whether one differs in the same way, whatever the command is."""
    return one is not None and one._replace(word=other.word) == other


class Fuzzer:
    """The programs that are compared, what was reached, and what differed."""

    def __init__(self, words: argparse.Namespace) -> None:
        self.seed, self.keep = words.seed, words.keep
        self.programs = [Program(path) for path in words.programs]
        self.seeds: Seeds = by_kind(seeds())
        self.tally, self.late = Tally(), 0
        self.found: Count[Difference] = Counter()

    def answers(self, trial: Trial) -> Dict[str, Optional[List[Answer]]]:
        by: Dict[str, Optional[List[Answer]]] = {MODEL: model_answers(trial)}
        by.update((program.name, program.answers(trial)) for program in self.programs)
        return by

    def folder(self) -> str:
        if self.keep is None:
            self.keep = tempfile.mkdtemp(prefix="fuzz-kept-")
        return self.keep

    def differs(self, number: int, run: Made, differs: Difference, by: Dict[str, Optional[List[Answer]]]) -> None:
        """Prints, keeps and reduces a difference."""
        self.found[differs] += 1
        print(f"--seed {self.seed} --only {number}: {run.trial.kind} of {run.seed}, {run.level}: {differs}", flush=True)
        if self.found[differs] > MOST_KEPT:
            return
        folder = f"{self.folder()}/{self.seed}-{number}"
        write(folder, run.trial, by)
        less = reduced(run.trial, lambda trial: is_alike(difference(trial, self.answers(trial)), differs), TO_REDUCE)
        write(f"{folder}/reduced", less, self.answers(less))
        print(f"    {folder}: {run.trial.size} bytes, reduced to {less.size}", flush=True)

    def run(self, number: int) -> None:
        try:
            with Limit(TO_MAKE):
                run = made(self.seeds, self.seed, number)
        except Late:
            self.late += 1
            return
        by = self.answers(run.trial)
        is_silent = by[MODEL] is None
        self.tally.add(run, first_said(list(by.values())), is_silent, [] if is_silent else WatchedLedger.noted)
        differs = difference(run.trial, by)
        if differs is not None:
            self.differs(number, run, differs, by)

    def lines(self, seconds: float) -> Iterator[str]:
        runs = self.tally.runs
        yield f"seed {self.seed}: {runs} runs in {seconds:.0f} s, {runs / max(seconds, 0.001):.1f} a second"
        if self.late:
            yield f"{self.late} inputs weren't made, since the Python ledger took too long to repair them"
        yield from self.tally.lines()
        yield f"{sum(self.found.values())} runs differed" + (", by what differed:" if self.found else "")
        yield from (f"{count:8} {differs}" for differs, count in self.found.most_common())
        if self.found:
            yield f"kept in {self.folder()}"


def main() -> None:
    words = parsed()
    fuzzer, begun = Fuzzer(words), time.monotonic()
    try:
        for number in numbers(words):
            fuzzer.run(number)
    except KeyboardInterrupt:
        pass
    print("\n".join(fuzzer.lines(time.monotonic() - begun)))
    sys.exit(1 if fuzzer.found else 0)


if __name__ == "__main__":
    main()
