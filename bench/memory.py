#!/usr/bin/env python3
"""Refuses each call of a run for memory in turn.

    bench/memory.py [PROGRAM]

PROGRAM is the built program, crates/ledger/out/ledger of this repository where none is given.

It runs `catchup`, `init`, `run`, `run` beside one and beside two workers, `show`, `history` and `changes` over an image
and three records, those in examples/; `run` over a store of format 1 too, which it brings over first; `verify` of that
history; `path` over a store of offers; and `sample`. Each runs once for each call for memory that it makes of the C
library. A library that is loaded before that one counts the calls and refuses one of them. Each run has to answer 8,
report `no memory`, and write a prefix of the text that the ledger and the archive in Python in tests/models give; or,
where the directory of the store is refused memory, 6 with `disk fault`; or it passes over the refusal, as where pages
are taken after a close, and answers 0 with all of the text. After `init`, `run`, `show` and `path` the store is opened again, by a `run` without input: after
8 and 0 at the last ledger whose `closed` line was written, after 6 there or one further on. An `init` that answered 8
has made no store, and one that answered 6 may have.

Beside workers the calls of all threads count, so which of them is refused differs from run to run. Then the calls of the workers alone
count: a job whose merge is refused memory is given back, so each of these runs has to answer 0 with all of the text.

The script prints how many calls each command makes, and what the runs answered.

Exit status: 0 where all is well, 1 where a run answers otherwise, 2 where the script can't be run. Python 3.9 or later, its standard
library, and a C compiler (cc).
"""

import os
import shutil
import subprocess
import sys
import tempfile

from measuring import TOP, built, stop

sys.path[:0] = [f"{TOP}/tests", f"{TOP}/tests/models"]
import archive_model as archive  # noqa: E402
from cases import read_case  # noqa: E402
from harness import FILES, NETWORK, files_in, lay_out  # noqa: E402
from ledger_model import catchup  # noqa: E402
from stops import in_format_1  # noqa: E402
from store_model import run, show  # noqa: E402


def content(path):
    with open(path, "rb") as file:
        return file.read()


def compiled(folder):
    """The library that counts and refuses calls for memory."""
    words = ["cc", "-shared", "-fPIC", "-O1", "-o", f"{folder}/shim.so", f"{TOP}/tests/shim.c", "-ldl", "-lpthread"]
    if subprocess.run(words, check=False).returncode:
        stop("tests/shim.c could not be compiled")
    return f"{folder}/shim.so"


class Command:
    """A command that is run over a store, and what it has to yield."""

    def __init__(self, program, words, data, text, store, ends, of_workers=False):
        # `ends` are the `end` lines of the ledgers that a `run` without input may open to, by how many were closed; None is no store
        self.words, self.data, self.text, self.store, self.ends = [program, *words], data, text, store, ends
        # whether the calls of the workers alone are refused
        self.of_workers = of_workers

    def ran(self, folder, **environment):
        """One run in a folder of its own."""
        at = tempfile.mkdtemp(dir=folder)
        if self.store:
            shutil.copytree(self.store, f"{at}/ledger-store")
        how = {"input": self.data, "capture_output": True, "check": False, "cwd": at}
        if self.of_workers:
            environment["WORKERS_ALONE"] = "1"
        return at, subprocess.run(self.words, env={**os.environ, **environment}, **how)

    def is_opened(self, at, end):
        """Whether the store after a run opens where it has to."""
        if self.ends is None:
            return True
        closed = sum(line.startswith(b"closed ") for line in end.stdout.splitlines(True) if line.endswith(b"\n"))
        if self.store is None:
            may = {0: [1], 8: [0], 6: [0, 1]}[end.returncode]
        else:
            may = [closed, closed + 1] if end.returncode == 6 else [closed]
        again = subprocess.run([self.words[0], "run"], input=b"", capture_output=True, check=False, cwd=at)
        return again.stdout in [self.ends[number] for number in may if number < len(self.ends)]

    def judged(self, at, end):
        """What a run yielded whose call for memory was refused: `passed`, `prefix`, `nothing`, `device`, or None where it is wrong."""
        said = {0: b"", 8: b"no memory\n", 6: b"disk fault\n"}.get(end.returncode)
        whole = end.returncode != 0 or end.stdout == self.text
        if end.stderr != said or not whole or not self.text.startswith(end.stdout) or not self.is_opened(at, end):
            return None
        if self.of_workers and end.returncode != 0:
            return None
        if end.returncode == 8:
            return "prefix" if end.stdout else "nothing"
        return {0: "passed", 6: "device"}[end.returncode]


def tried(command, library, folder):
    """Refuses each call for memory of a command in turn, and prints what came of it; gives how many runs were wrong."""
    counted = f"{folder}/counted"
    at, end = command.ran(folder, LD_PRELOAD=library, REFUSED="0", COUNTED=counted)
    if command.judged(at, end) != "passed":
        stop(f"{' '.join(command.words[1:])} without a refusal does something else")
    calls, found = int(content(counted)), dict.fromkeys(["passed", "prefix", "nothing", "device", None], 0)
    for number in range(1, calls + 1):
        at, end = command.ran(folder, LD_PRELOAD=library, REFUSED=str(number), COUNTED=counted)
        came = command.judged(at, end)
        found[came] += 1
        if came is None:
            print(f"{' '.join(command.words[1:])}, call {number}: status {end.returncode}, {end.stderr!r}, {end.stdout[:80]!r}")
        shutil.rmtree(at)
    by = " by its workers" if command.of_workers else ""
    print(f"{' '.join(command.words[1:])}: {calls} calls for memory{by}, each refused in turn; {found['prefix'] + found['nothing']} runs answer 8,"
          f" {found['prefix']} of them after some of the text, {found['device']} answer 6, {found['passed']} pass it over, and"
          f" {found[None]} do otherwise")
    return found[None]


def commands(program, folder):
    """The commands that are tried, with a store that `init` made."""
    image, records = content(f"{TOP}/examples/accounts.image"), content(f"{TOP}/examples/accounts.records")
    text = catchup(NETWORK, image + records)[0]
    closed = [line.split()[1:3] for line in text.splitlines() if line.startswith("closed ")]
    start = catchup(NETWORK, image)[0]
    ends = [start.encode(), *(f"end {seq} {digest}\n".encode() for seq, digest in closed)]
    made, old = f"{folder}/made", f"{folder}/old"
    os.mkdir(made)
    os.mkdir(old)
    subprocess.run([program, "init", "--network", NETWORK], input=image, check=True, cwd=made)
    store = files_in(made)
    lay_out(old, in_format_1(store))
    sample = read_case("samples-3-ledgers-of-seed-1")
    shown = show([store.get(name, b"") for name in FILES])[0].encode()
    return [
        Command(program, ["catchup", "--network", NETWORK], image + records, text.encode(), None, None),
        Command(program, ["init", "--network", NETWORK], image, b"", None, [b"", ends[0]]),
        Command(program, ["run"], records, text.encode(), f"{made}/ledger-store", ends),
        Command(program, ["run"], records, text.encode(), f"{old}/ledger-store", ends),
        Command(program, ["run", "--workers", "1"], records, text.encode(), f"{made}/ledger-store", ends),
        Command(program, ["run", "--workers", "2"], records, text.encode(), f"{made}/ledger-store", ends),
        Command(program, ["run", "--workers", "2"], records, text.encode(), f"{made}/ledger-store", ends, True),
        Command(program, ["show"], b"", shown, f"{made}/ledger-store", ends[:1]),
        Command(program, [word.decode() for word in sample.words], b"", sample.output, None, None),
    ]


def other_commands(program, folder):
    """Commands on histories, and a query over a store of its own."""
    given = content(f"{TOP}/examples/accounts.image") + content(f"{TOP}/examples/accounts.records")
    history, _, _ = archive.history(NETWORK, given)
    query = read_case("queries-by-two-costs-less")
    asked = f"{folder}/asked"
    os.mkdir(asked)
    lay_out(asked, query.before)
    opened = run(b"", [query.before.get(name, b"") for name in FILES])[0][0].encode()
    return [
        Command(program, ["history", "--network", NETWORK], given, history, None, None),
        Command(program, ["changes", "--network", NETWORK], given, archive.changes(NETWORK, given)[0], None, None),
        Command(program, ["verify"], history, archive.verify(history)[0].encode(), None, None),
        Command(program, ["path"], query.given, query.output, f"{asked}/ledger-store", [opened]),
    ]


def main():
    program = os.path.abspath(sys.argv[1]) if len(sys.argv) > 1 else built("ledger")
    with tempfile.TemporaryDirectory() as folder:
        library = compiled(folder)
        listed = commands(program, folder) + other_commands(program, folder)
        wrong = sum([tried(command, library, folder) for command in listed])
    sys.exit(1 if wrong else 0)


if __name__ == "__main__":
    main()
