#!/usr/bin/env python3
"""Counts the instructions of a search for the cheapest path beside those of its hops, by valgrind's callgrind.

    bench/paths.py [LEDGER [SPEED]]

LEDGER and SPEED are the built programs, crates/ledger/out/ledger and crates/speed/out/speed of this repository where
none are given.

The ledger has 25 books of 1,000 offers each, from what is sent to each of 12 candidates, from each of these to what
arrives, and without a candidate between; and ten pools, each of one candidate and the next. A query with the 12
candidates tries 145 paths. What `path` writes is compared with what the search in Python in tests/models says, and
`speed`, which makes the same hops one after the other, has to find the same least cost. Opening is taken off on both
sides: of `path` by a query that is refused, of `speed` by a run that opens the ledger alone.

Exit status: 0 where all is well, 1 where `path` takes more than 1.2 times the instructions of the hops, 2 where a run
fails or writes another text. Python 3.9 or later, its standard library, and valgrind.
"""

import os
import re
import resource
import subprocess
import sys
import tempfile

from heavy import FIRST, offers_of, price_of
from measuring import TOP, built, stop

sys.path.insert(0, f"{TOP}/tests/models")
import pool_tools as pools  # noqa: E402
import set_cases as sets  # noqa: E402
from case_tools import NETWORK, key  # noqa: E402
from ledger_model import i64, many, u32  # noqa: E402
from path_query_model import path as path_model  # noqa: E402
from store_cases import FILES  # noqa: E402

MOST_OF_HOPS = 1.2
HELD, LIMIT, LUMENS_HELD, SHARES, RESERVE = 10**10, 10**12, 10**12, 10**6, 10**8
SELLERS, OFFERS, AMOUNT = 27, 1_000, 250_000
SENT, ARRIVES = sets.LUMENS, sets.asset("USD", "z")
CANDIDATES = [sets.asset(f"C{number:02}", "z") for number in range(12)]
COUNTED = ["valgrind", "--tool=callgrind", "--callgrind-out-file=/dev/null"]
SEARCHES = 20


def image():
    """The books and the pools."""
    assets = {asset: (HELD, LIMIT, 1) for asset in (ARRIVES, *CANDIDATES)}
    pairs = list(zip(CANDIDATES, CANDIDATES[1:]))[:10]
    names = [*range(FIRST, FIRST + SELLERS), "p"]
    entries = pools.held(
        {name: assets for name in names}, [("p", pair, SHARES, LIMIT, None) for pair in pairs],
        [pools.pool(*pair, RESERVE, RESERVE, SHARES, 1) for pair in pairs], {name: LUMENS_HELD for name in names})
    books = [(ARRIVES, SENT), *((asset, SENT) for asset in CANDIDATES), *((ARRIVES, asset) for asset in CANDIDATES)]
    offers = offers_of(OFFERS * len(books), SELLERS, books, price_of)
    return pools.pooled_image(pools.with_offers(entries, offers), ids=len(offers))


def query(amount):
    return u32(0) + key("a") + SENT + ARRIVES + i64(amount) + many(CANDIDATES)


def files_in(folder):
    """The files of the store in a folder. One that isn't there is empty."""
    found = []
    for name in FILES:
        path = f"{folder}/ledger-store/{name}"
        found.append(b"")
        if os.path.exists(path):
            with open(path, "rb") as file:
                found[-1] = file.read()
    return found


def instructions(command, folder, data, expected, status=0):
    """The instructions of a run, which has to write what is expected."""
    ran = subprocess.run([*COUNTED, *command], input=data, cwd=folder, capture_output=True, check=False)
    found = re.search(rb"Collected : (\d+)", ran.stderr)
    if not found or ran.returncode != status or ran.stdout.decode() != expected:
        stop(f"{command[1]} ended with {ran.returncode} and wrote {ran.stdout[-200:]!r}, not {expected!r}")
    return int(found[1])


def used():
    """The processor time of all runs so far."""
    children = resource.getrusage(resource.RUSAGE_CHILDREN)
    return children.ru_utime + children.ru_stime


def seconds(command, folder, data):
    """The least processor time of some runs."""
    taken = []
    for _run in range(SEARCHES):
        before = used()
        subprocess.run(command, input=data, cwd=folder, capture_output=True, check=False)
        taken.append(used() - before)
    return min(taken)


def main():
    words = sys.argv[1:] + [built(name) for name in ("ledger", "speed")][len(sys.argv) - 1:]
    program, speed = map(os.path.abspath, words)
    data, asked, refused = image(), query(AMOUNT), query(0)
    with tempfile.TemporaryDirectory() as folder:
        for name, text in (("image", data), ("query", asked)):
            with open(f"{folder}/{name}", "wb") as file:
                file.write(text)
        subprocess.run([program, "init", "--network", NETWORK], input=data, cwd=folder, check=True)
        expected, fault, _ = path_model(asked, files_in(folder))
        if not expected.startswith("cost"):
            stop(f"the search in Python found no path: {expected or fault}")
        least = expected.split()[1]
        opened = instructions([program, "path"], folder, refused, "refused BadQuery 2\n", 3)
        searched = instructions([program, "path"], folder, asked, expected) - opened
        nothing = f"paths-base: 0 paths, 0 served, least {2**63 - 1}\n"
        based = instructions([speed, "paths-base", "image", "query"], folder, b"", nothing)
        made = [speed, "paths", "image", "query"]
        ran = subprocess.run(made, cwd=folder, capture_output=True, text=True, check=True).stdout
        if not re.fullmatch(rf"paths: 145 paths, \d+ served, least {least}\n", ran):
            stop(f"speed paths wrote {ran!r}, and the least cost is {least}")
        hops = instructions(made, folder, b"", ran) - based
        spent = seconds([program, "path"], folder, asked) - seconds([program, "path"], folder, refused)
    print(ran.strip())
    print(f"path {searched:,} beyond opening ({opened:,}), the hops {hops:,}: {searched / hops:.3f}")
    print(f"{spent * 1000:.1f} ms of processor time beyond opening")
    sys.exit(searched > MOST_OF_HOPS * hops)


if __name__ == "__main__":
    main()
