#!/usr/bin/env python3
"""Finds the least stack with which the program still closes deep and long inputs.

    bench/stack.py [--offers NUMBER] [--megabytes NUMBER] [PROGRAM]

PROGRAM is the built program, crates/ledger/out/ledger of this repository where none is given. `catchup` is run over each input with the
limit of the stack that a system sets, 8 MB, and then with smaller ones, as `ulimit -s` sets them, until the least one is found with which
it prints the same text with the same status three times, in steps of 4 kB. The environment is empty, since it lies on the stack too. What the
system puts there moves by up to 8 kB from run to run. The inputs:

    payment      one payment after a small image
    operations   a transaction of 100 payments, the most that it may have
    four levels  a claimable balance for ten claimants with predicates of four levels, the deepest that may be created
    32 levels    the same with predicates of 32 levels, the deepest that is read; the operation fails
    both         50 transactions of 100 operations with ten predicates of 32 levels each
    33 levels    the same with predicates of 33 levels: the record is refused
    2 million    the same with a predicate of two million levels
    balance      an image of a claimable balance with a predicate of 32 levels, which breaks a rule
    of 2 million the same with a predicate of two million levels
    payments     the longest record: as many payments as fit into 16 MB
    deep levels  ten records of payments that commit merges of the levels, of 20 MB (--megabytes)
    beside       the same by `run --workers 2`
    offers       an image of 100,000 offers in 20 books (--offers)
    history      "operations" and then "both" by `history` and `changes`, and what is written by `verify`
    33 levels    a history of a predicate of 33 levels by `verify`: it is refused
    2 million    the same of a predicate of two million levels
    path         a query of twelve candidates over a small store

Exit status: 0, or 2 where a run with 8 MB ends otherwise than it should. Linux, Python 3.9 or later and its standard library.
"""

import argparse
import os
import resource
import shutil
import subprocess
import sys
import tempfile

from measuring import TOP, built, stop

sys.path.insert(0, f"{TOP}/tests/models")
import deep_levels as deep  # noqa: E402
import set_cases as sets  # noqa: E402
import fuzz_paths  # noqa: E402, F401
from cases import read_case  # noqa: E402
from case_tools import META_18, claimable, image, key, raw  # noqa: E402
from closes import CATCHUP, NETWORK, image_of  # noqa: E402
from fuzz_bytes import NOT  # noqa: E402
from fuzz_history import cut_history  # noqa: E402
from harness import lay_out  # noqa: E402
from large import FIRST, after_small, offers, payments, sent  # noqa: E402
from ledger_model import ENTRY, INIT, i32, sha, u32  # noqa: E402

USUAL, STEP, TIMES = 8192, 4, 3
# levels of a predicate that isn't read
DEEP = 2_000_000
PARTS = {(3, 0): 0.05, (3, 1): 0.05, (4, 0): 0.15, (4, 1): 0.15, (5, 0): 0.35, (5, 1): 0.25}


class Trial:
    """A command over an input, in a folder that is made anew where there is a store."""

    def __init__(self, program, words, source, store=None, status=0):
        self.program, self.words, self.source, self.store, self.status = program, words, source, store, status

    def run(self, limit):
        """The status and the text with so many kB of stack."""
        with tempfile.TemporaryDirectory() as folder, open(self.source, "rb") as given:
            if self.store:
                shutil.copytree(self.store, f"{folder}/ledger-store")
            size = limit * 1024
            ran = subprocess.run(
                [self.program, *self.words], stdin=given, capture_output=True, env={}, cwd=folder, check=False,
                preexec_fn=lambda: resource.setrlimit(resource.RLIMIT_STACK, (size, size)),
            )
            return ran.returncode, ran.stdout

    def least(self):
        """The least stack in kB."""
        expected = self.run(USUAL)
        if expected[0] != self.status:
            stop(f"status {expected[0]} after {expected[1][-200:]!r}")
        low, high = 0, USUAL // STEP
        while high - low > 1:
            middle = (low + high) // 2
            low, high = (low, middle) if self.run(middle * STEP) == expected else (middle, high)
        while not all(self.run(high * STEP) == expected for _ in range(TIMES)):
            high += 1
        return high * STEP


# ---- inputs


def predicate(levels):
    return (u32(3) + u32(1)) * (levels - 1) + u32(0)


def balance(levels):
    """An image of a claimable balance whose predicate has so many levels."""
    encoded = ENTRY.write(claimable(sha(b"id"))).replace(key("b") + u32(0), key("b") + predicate(levels))
    return image(files={0: raw(META_18, i32(INIT) + encoded)})


def claims(transactions, each, levels, claimants=10):
    """So many transactions, in turn by the accounts, with so many operations for ten claimants or fewer each."""
    claimants = [(number, predicate(levels)) for number in range(claimants)]
    operations = [sets.create_claimable(1, claimants)] * each
    return [sent(number, *operations) for number in range(transactions)]


def deep_records(program, data, previous):
    """Ten records after an image, each after the hash that the program prints for the one before."""
    records = b""
    for number in range(1, 11):
        records += deep.record(FIRST, number, previous)
        ran = subprocess.run([program, *CATCHUP], input=data + records, capture_output=True, check=False)
        if ran.returncode:
            stop(f"status {ran.returncode} after {ran.stdout[-200:]!r}")
        previous = bytes.fromhex(ran.stdout.split()[-1].decode())
    return records


def offered(count):
    files, coins = offers(count)
    return image_of([b""] * 8 + files + [b""] * 12, coins, count)[0]


def written(program, words, data):
    return subprocess.run([program, *words], input=data, capture_output=True, check=True).stdout


def deepened(history, levels):
    """A history of a set with a predicate, which gets so many levels more."""
    parts = cut_history(history)
    parts.streams[1][0] = parts.streams[1][0].replace(NOT, NOT * (1 + levels), 1)
    return parts.data


# ---- the runs


def row(name, trial):
    print(f"{name:20}{os.path.getsize(trial.source) / 1e6:8.1f} MB{trial.least():8} kB", flush=True)


def history_rows(program, kept):
    """Commands on histories."""
    for name, listed in [("operations", [sent(0, *[sets.payment(1, 1)] * 100)]), ("both", claims(50, 100, 32))]:
        data = after_small(listed)
        for word in ("history", "changes"):
            row(f"{name}, {word}", Trial(program, [word, *CATCHUP[1:]], kept(data)))
        row(f"{name}, verify", Trial(program, ["verify"], kept(written(program, ["history", *CATCHUP[1:]], data))))
    one = written(program, ["history", *CATCHUP[1:]], after_small(claims(1, 1, 32, 1)))
    for name, more in (("33 levels", 1), ("2 million", DEEP)):
        row(f"{name}, verify", Trial(program, ["verify"], kept(deepened(one, more)), status=3))


def main():
    parser = argparse.ArgumentParser(description="Finds the least stack with which inputs are closed.")
    parser.add_argument("program", nargs="?", default=built("ledger"))
    parser.add_argument("--offers", type=int, default=100_000)
    parser.add_argument("--megabytes", type=int, default=20)
    given = parser.parse_args()
    program = os.path.abspath(given.program)
    with tempfile.TemporaryDirectory() as folder:

        def kept(data):
            with open(f"{folder}/input", "wb") as file:
                file.write(data)
            return f"{folder}/input"

        one = sets.payment(1, 1)
        for name, listed in [
            ("payment", [sent(0, one)]), ("operations", [sent(0, *[one] * 100)]), ("four levels", claims(1, 1, 4)),
            ("32 levels", claims(1, 1, 32)), ("both", claims(50, 100, 32)), ("payments", payments()),
        ]:
            row(name, Trial(program, CATCHUP, kept(after_small(listed))))
        for name, refused, status in [
            ("33 levels", after_small(claims(1, 1, 33)), 3), ("2 million", after_small(claims(1, 1, DEEP, 1)), 3),
            ("balance", balance(32), 10), ("of 2 million", balance(DEEP), 10),
        ]:
            row(name, Trial(program, CATCHUP, kept(refused), status=status))
        data, previous = deep.image_of(FIRST, PARTS, given.megabytes * 1_000_000)
        records = deep_records(program, data, previous)
        row("deep levels", Trial(program, CATCHUP, kept(data + records)))
        subprocess.run([program, "init", "--network", NETWORK], input=data, check=True, cwd=folder)
        row("beside", Trial(program, ["run", "--workers", "2"], kept(records), f"{folder}/ledger-store"))
        row("offers", Trial(program, CATCHUP, kept(offered(given.offers))))
        history_rows(program, kept)
        query = read_case("queries-twelve-candidates")
        os.mkdir(f"{folder}/asked")
        lay_out(f"{folder}/asked", query.before)
        row("path", Trial(program, ["path"], kept(query.given), f"{folder}/asked/ledger-store"))


if __name__ == "__main__":
    main()
