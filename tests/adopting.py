"""What workers spare the closing thread: merges of a large file, which it takes from them and doesn't make itself.

No count of steps can be read in a built program, so the bytes of memory are counted that the closing thread takes for a close. The
image's third level has a large file. Each eighth ledger commits a merge onto it, which began eight ledgers before. A record is read
only once all workers have found nothing to do, so that each such merge was made in time: then the closing thread takes less than the
file's length for that close. Without workers it takes as much and more, since it makes the merge.
"""

from __future__ import annotations

import os
import subprocess
import sys
import tempfile
from typing import IO, Dict, Iterator, List, Tuple

from harness import NETWORK, TESTS, Program, Tally, lay_out, written_out
from stops import DONE, ended

sys.path.insert(0, os.path.join(TESTS, "models"))
import deep_levels as deep  # noqa: E402

# the third level spills at each 32nd ledger, of which the image's is one, and the second at each eighth: so these are committed onto it
FIRST, LEDGERS = 576, 26
ONTO_LARGE = (584, 592, 600)
LARGE = 1_000_000
WORKERS = (1, 2, 4)


def closed(line: bytes) -> Tuple[int, bytes]:
    """The ledger and the hash that a `closed` line has."""
    words = line.split()
    return int(words[1]), bytes.fromhex(words[2].decode())


def lines_of(text: bytes) -> List[Tuple[int, bytes]]:
    return [closed(line) for line in text.splitlines() if line.startswith(b"closed ")]


def read_line(stream: IO[bytes]) -> Tuple[int, bytes]:
    """The next `closed` line of a run."""
    for line in stream:
        if line.startswith(b"closed "):
            return closed(line)
    raise AssertionError("the run ended before its last record")


class LargeLevel:
    def __init__(self, program: Program):
        self.program = program
        image, first = deep.image_of(FIRST, {(2, 0): 1.0}, LARGE)
        self.begun = program.run(["init", "--network", NETWORK], image).store
        self.records = b"".join(self.made_records(first))

    def made_records(self, previous: bytes) -> Iterator[bytes]:
        """The records, each of which has the hash that the run before it printed."""
        with tempfile.TemporaryDirectory(prefix="ledger-") as folder:
            lay_out(folder, self.begun)
            with subprocess.Popen([self.program.path, "run"], cwd=folder, stdin=subprocess.PIPE, stdout=subprocess.PIPE) as process:
                for number in range(1, LEDGERS + 1):
                    record = deep.record(FIRST, number, previous)
                    yield record
                    process.stdin.write(record)
                    process.stdin.flush()
                    _, previous = read_line(process.stdout)
                process.stdin.close()
                process.stdout.read()

    def taken(self, workers: int) -> Dict[int, int]:
        """The bytes of memory that the closing thread takes for each ledger, beside so many workers."""
        words = ["run", *(["--workers", str(workers)] if workers else [])]
        ran = self.program.run(words, self.records, self.begun, AWAIT=1, TAKEN=1)
        if ended(ran) != DONE:
            raise AssertionError(f"a run beside {workers} workers ends with {ended(ran)}")
        found, before = {}, 0
        for taken, data in written_out(ran.notes):
            for ledger, _ in lines_of(data):
                found[ledger] = taken - before
                before = taken
        return found


def check_adopting(level: LargeLevel, tally: Tally) -> None:
    alone = level.taken(0)
    for ledger in ONTO_LARGE:
        what = "the closing thread alone takes the memory of a large merge"
        tally.check(what, alone[ledger] >= LARGE, (ledger, alone[ledger]))
    for workers in WORKERS:
        beside = level.taken(workers)
        for ledger in ONTO_LARGE:
            what = "a large merge that a worker has made costs the closing thread no memory"
            tally.check(what, beside[ledger] < LARGE // 2, (workers, ledger, beside[ledger]))


PARTS = (check_adopting,)


def check(program: Program, part) -> Tally:
    tally = Tally()
    part(LargeLevel(program), tally)
    return tally
