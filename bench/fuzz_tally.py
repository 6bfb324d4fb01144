"""What runs of the fuzzer reached, as lines: commands by their outcomes, with the faults of histories and of queries
that never came, and results of transactions and operations.

Python 3.9 or later and its standard library.
"""

from __future__ import annotations

from collections import Counter
from typing import Counter as Count
from typing import Iterator, List, Optional

import fuzz_paths  # noqa: F401
from fuzz_answers import Answer
from fuzz_making import Made
from stellar_xdr import OPERATION_RAN, OPERATION_RESULT, TRANSACTION_RESULT, Choice
from xdr import Value, XdrFault, read_entire


# kinds of results that never came are listed where there are at most so many
MOST_LISTED = 30


# what `verify` and `path` can answer to a history and to a query that read, as `Answer.outcome` says it
IN_ANY = ("Short", "BadEnum", "BadMark", "Trailing")
IN_FILES = ((*IN_ANY, "Padding", "TooLong"), (*IN_ANY, "Padding", "TooLong", "BadFlag", "TooDeep"), IN_ANY)
FAULTS = {
    "verify": (
        *(f"3 refused Xdr {file} {kind}" for file, kinds in enumerate(IN_FILES) for kind in kinds), "3 refused Stray 1",
        "3 refused Stray 2", "3 refused Seq", "3 refused HeaderHash", "3 refused Link", "3 refused SetHash",
        "3 refused ResultHash", "9 bad input", "0 done",
    ),
    "path": (
        *(f"3 refused BadQuery {index}" for index in range(4)), "3 refused TooMany", "9 bad input", "0 none",
        *(f"0 cost, by {count} assets" for count in range(3)), "11 missing",
    ),
}


def names_of_results() -> List[str]:
    """All results that an operation can have."""
    names = [str(name) for name, *_ in OPERATION_RESULT.arms.values() if name != "opINNER"]
    for operation, _, codes in OPERATION_RAN.arms.values():
        assert isinstance(codes, Choice)
        names += [f"{operation} {name}" for name, *_ in codes.arms.values()]
    return names


def result_names(result: Value) -> Iterator[str]:
    """The names of the results of a transaction's operations."""
    inner = result["innerResultPair"]["result"]["result"] if "innerResultPair" in result else result
    for ran in inner.get("results", []):
        if ran["code"] != "opINNER":
            yield ran["code"]
            continue
        operation, = (value for name, value in ran["tr"].items() if name != "type")
        yield f"{ran['tr']['type']} {operation['code']}"


class Tally:
    """Counts of runs."""

    def __init__(self) -> None:
        self.kinds: Count[str] = Counter()
        self.levels: Count[str] = Counter()
        self.outcomes: Count[str] = Counter()
        self.ends: Count[str] = Counter()
        self.results: Count[str] = Counter()
        self.silent: Count[str] = Counter()
        self.runs = self.closing = self.closed = self.rolls = self.by_bytes = 0

    def add(self, made: Made, answers: List[Answer], is_silent: bool, results: List[bytes]) -> None:
        """Counts a run by the answers of the Python ledger, or of the first program where that says nothing."""
        self.runs += 1
        self.kinds[made.trial.kind] += 1
        self.levels[made.level] += 1
        self.silent[made.trial.kind] += is_silent
        self.by_bytes += made.trial.by_bytes
        files = made.trial.files
        for (words, _), answer in zip(made.trial.steps, answers):
            self.outcomes[f"{words[0].decode():8}{answer.outcome}"] += 1
            self.rolls += words[0] == b"run" and answer.files[:2] != files[:2]
            files = answer.files
        closed = sum(answer.out.count(b"closed ") for answer in answers)
        self.closed += closed
        self.closing += closed > 0
        for outcome in results:
            self.add_result(outcome)

    def add_result(self, outcome: bytes) -> None:
        try:
            result = read_entire(TRANSACTION_RESULT, bytes(8) + outcome + bytes(4))["result"]
        except XdrFault:
            self.ends["a result that doesn't read"] += 1
            return
        self.ends[result["code"]] += 1
        self.results.update(result_names(result))

    def lines(self) -> Iterator[str]:
        yield "runs by what was mutated and repaired:"
        yield from rows(self.levels)
        yield f"runs by their commands, {self.by_bytes} of them at one byte a read:"
        for kind, count in sorted(self.kinds.items()):
            late = self.silent[kind]
            note = f", of which the Python ledger says nothing of {late}, since it took too long" if late else ""
            yield f"{count:8} {kind}{note}"
        yield "commands by their outcomes:"
        yield from rows(self.outcomes)
        for word, possible in FAULTS.items():
            never = [name for name in possible if not self.outcomes[f"{word:8}{name}"]]
            came = len(possible) - len(never)
            yield f"{word}: {came} of {len(possible)} answers; never: {', '.join(never) or 'none'}"
        yield f"{self.closing} runs closed ledgers, {self.closed} of them, and {self.rolls} went on to another epoch"
        yield "transactions by their ends, with those in stores:"
        yield from rows(self.ends)
        yield from self.lines_of_results()

    def lines_of_results(self) -> Iterator[str]:
        possible = names_of_results()
        never = [name for name in possible if name not in self.results]
        count = sum(self.results.values())
        yield f"results of operations: {count}, of {len(possible) - len(never)} kinds of {len(possible)}"
        if len(never) <= MOST_LISTED:
            yield f"never a result: {', '.join(never) or 'none'}"


def rows(counts: Count[str]) -> Iterator[str]:
    for name, count in sorted(counts.items(), key=lambda row: (row[0][:8], -row[1])):
        yield f"{count:8} {name}"


def first_said(answers: List[Optional[List[Answer]]]) -> List[Answer]:
    return next((found for found in answers if found is not None), [])
