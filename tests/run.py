#!/usr/bin/env python3
"""Tests of the built programs: drives both builds that `rt ci` leaves of crates/ledger and of crates/watch, and compares what each run
writes, answers and leaves in its store with what it has to be.

    tests/run.py [--jobs N] [--only WORD] [--watch PROGRAM] [PROGRAM ..]

Where no program is named, these are crates/ledger/out/ledger, built by LLVM, and crates/ledger/out/ledger.by-rattle, built by
Rattle's own compiler, and the same of crates/watch; one that is missing is proved and built by `rt run`. A C compiler (cc) makes the shim that has calls of the C
library fail. Before the runs it looks whether each wrong body of `wrong_bodies/` and each must-fail edit still applies, whether
crates.txt lists just what each crate names, whether what scripts write is up to date, whether the pages of docs/ agree with the
sources, and whether the tool in `tools/` reads and copies files as they are. The last line is `N passed, M failed`, and the exit status is 1 where anything failed, 2 where the tests
can't be run.

Python 3.9 or later and its standard library; Linux.
"""

from __future__ import annotations

import argparse
import os
import shutil
import subprocess
import sys
import tempfile
from concurrent.futures import ProcessPoolExecutor
from typing import Callable, List, Tuple

import adopting
import applies
import archives
import beside
import bridge
import bridge_archive
import bridge_compare
import bridge_forms
import bridge_made
import bridge_vouch
import bridge_whole
import cases
import crate_list
import documents
import generated
import hostile
import locks
import stops
import store_bytes
import watching
import words
from harness import TESTS, Program, Tally

TOP = os.path.dirname(TESTS)
# the end of a build's name, and the words that `rt run` makes it with
BUILDS = (("", []), (".by-rattle", ["--backend", "rattle"]))

Job = Tuple[Callable, tuple]


def stop(why: str) -> None:
    print(why, file=sys.stderr)
    sys.exit(2)


def compiled_shim(folder: str) -> str:
    """Compiles the shim, and answers its path."""
    if shutil.which("cc") is None:
        stop("tests/shim.c needs a C compiler: install one that answers to cc, as Debian's package gcc with libc6-dev")
    path = f"{folder}/shim.so"
    made = subprocess.run(["cc", "-shared", "-fPIC", "-O2", "-o", path, f"{TESTS}/shim.c", "-ldl", "-lpthread"])
    if made.returncode:
        stop("tests/shim.c could not be compiled: install the C library's headers, as Debian's package libc6-dev")
    return path


def built(crate: str, end: str, words: List[str]) -> str:
    """The path of a build of a program, which is proved and built where it is missing; the other build stays."""
    folder = f"{TOP}/crates/{crate}/out"
    path, first = f"{folder}/{crate}{end}", f"{folder}/{crate}"
    if not os.path.isfile(path):
        print(f"{os.path.relpath(path, TOP)} is missing: proving and building it", flush=True)
        with tempfile.TemporaryDirectory(prefix="ledger-build-") as aside:
            if path != first and os.path.isfile(first):
                shutil.move(first, f"{aside}/{crate}")
            # `rt run` leaves what it built as the first build, whichever compiler made it
            rt = ["rt", "run", *words, "--", "show"]
            log = subprocess.run(rt, cwd=f"{TOP}/crates/{crate}", stdout=subprocess.PIPE, stderr=subprocess.STDOUT, text=True)
            if not os.path.isfile(first):
                stop(f"{log.stdout[-2000:]}\n{os.path.relpath(path, TOP)} could not be built")
            if path != first:
                os.rename(first, path)
                if os.path.isfile(f"{aside}/{crate}"):
                    shutil.move(f"{aside}/{crate}", first)
    return path


def jobs_of(program: Program) -> List[Job]:
    """What is to be tried of the ledger's program, longest first."""
    modules = (beside, archives, stops, store_bytes, locks, adopting, hostile, words)
    parts = [(module.check, (program, part)) for module in modules for part in module.PARTS]
    for module in (bridge_made, bridge_whole):
        parts += [(module.check_program, (program, part)) for part in module.PARTS]
    return parts + [(cases.check, (program, name)) for name in cases.names()]


def watch_jobs_of(program: Program) -> List[Job]:
    """What is to be tried of the program `watch`, longest first."""
    parts = [(watching.check, (program, part)) for part in watching.PARTS]
    return parts + [(watching.check_case, (program, name)) for name in cases.names(watching.CASES)]


def is_asked_for(job: Job, only: str) -> bool:
    call, (_, what) = job
    return only in f"{call.__module__} {what if isinstance(what, str) else what.__name__}"


def try_program(program: Program, parts: List[Job], jobs: int, only: str) -> Tally:
    """Tries these parts of a program, so many runs at once."""
    tally = Tally()
    with ProcessPoolExecutor(jobs) as pool:
        asked = [job for job in parts if is_asked_for(job, only)]
        for done in [pool.submit(call, *given) for call, given in asked]:
            tally.add(done.result())
    print(f"\n{program.label}:")
    for line in tally.lines():
        print(f"  {line}")
    return tally


def main() -> None:
    reader = argparse.ArgumentParser(description="Tests of the built program.")
    reader.add_argument("--jobs", type=int, default=len(os.sched_getaffinity(0)), help="how many runs at once")
    reader.add_argument("--only", default="", help="only the parts and cases whose names have this text")
    reader.add_argument("--watch", action="append", default=[], metavar="PROGRAM", help="a build of `watch`")
    reader.add_argument("program", nargs="*")
    asked = reader.parse_args()
    total = Tally()
    if not asked.only:
        tools = (bridge, bridge_forms, bridge_archive, bridge_vouch, bridge_compare, bridge_whole, bridge_made)
        for module in (applies, crate_list, generated, documents, *tools):
            total.add(module.check(TOP))
    with tempfile.TemporaryDirectory(prefix="ledger-shim-") as folder:
        shim = compiled_shim(folder)
        ledgers, watches = asked.program, asked.watch
        if not ledgers and not watches:
            ledgers, watches = ([built(crate, *build) for build in BUILDS] for crate in ("ledger", "watch"))
        for parts_of, paths in ((jobs_of, ledgers), (watch_jobs_of, watches)):
            for path in paths:
                program = Program(os.path.realpath(path), shim, os.path.relpath(path))
                total.add(try_program(program, parts_of(program), asked.jobs, asked.only))
    passed, failed = sum(total.passed.values()), sum(total.failed.values())
    print(f"{passed} passed, {failed} failed")
    sys.exit(1 if failed or not passed else 0)


if __name__ == "__main__":
    main()
