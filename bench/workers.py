#!/usr/bin/env python3
"""Measures `run` over a store with deep levels, without workers and with 1, 2 and 4 of them.

    bench/workers.py [PROGRAM [MEGABYTES [PAUSE]]]

PROGRAM is the built program, crates/ledger/out/ledger of this repository where none is given. The levels of the image have MEGABYTES in
all, 200 where nothing is said, in accounts whose files go three levels deep; 520 ledgers of ten payments are closed after it, and the
merges of these levels are committed in that time. A record is handed in PAUSE seconds, 0.02 where nothing is said, after the program
began to wait for it; a real ledger closes each five seconds. All runs have to print the same text.

The script prints for each number of workers the time on the clock of all closes, each from when its record is handed in until its
`closed` line is read, the longest of them, and the processor time of the closing thread in all closes and what is done after them, from
the first record on.

Exit status: 0 where the longest close with two workers is at most a third of the longest without, 1 where it is longer, 2 where a run
fails or prints another text. Linux (it reads /proc), Python 3.9 or later and its standard library; 2 GB of memory and 2 GB of disk.
"""

import os
import shutil
import subprocess
import sys
import tempfile
import time

from measuring import TOP, built, stop

sys.path.insert(0, f"{TOP}/tests/models")
import deep_levels as deep  # noqa: E402

LEDGERS, FIRST = 520, 600
NETWORK = "Test SDF Network ; September 2015"
# how much of the levels' bytes each file has: a merge into the fifth level is committed at 1024, and of the fourth at each 128th ledger
PARTS = {(3, 0): 0.05, (3, 1): 0.05, (4, 0): 0.15, (4, 1): 0.15, (5, 0): 0.35, (5, 1): 0.25}


class Closing:
    """A run that is handed one record after another."""

    def __init__(self, program, workers, folder):
        words = ["run", *(["--workers", str(workers)] if workers else [])]
        self.process = subprocess.Popen([program, *words], stdin=subprocess.PIPE, stdout=subprocess.PIPE, bufsize=0, cwd=folder)
        # the closing thread is the first one
        self.thread, self.text = f"/proc/{self.process.pid}/task/{self.process.pid}", b""

    def used(self):
        """The processor time of the closing thread in seconds, once it waits for input."""
        before = None
        while True:
            with open(f"{self.thread}/stat") as file:
                waits = file.read().rsplit(")", 1)[1].split()[0] == "S"
            with open(f"{self.thread}/schedstat") as file:
                now = int(file.read().split()[0])
            if waits and now == before:
                return now / 1e9
            before = now
            time.sleep(0.001)

    def close(self, data):
        """How long a record takes until its `closed` line is read, and the hash in that line."""
        begun, self.line = time.perf_counter(), b""
        self.process.stdin.write(data)
        while b"closed " not in self.line or not self.line.endswith(b"\n"):
            more = os.read(self.process.stdout.fileno(), 1 << 16)
            if not more:
                stop(f"the run ended after {self.line[-200:]!r}")
            self.line += more
        took = time.perf_counter() - begun
        self.text += self.line
        return took, bytes.fromhex(self.line.rsplit(b"closed ", 1)[1].split()[1].decode())

    def end(self):
        self.process.stdin.close()
        self.text += self.process.stdout.read()
        if self.process.wait():
            stop(f"the run ended with status {self.process.returncode}")


def measured(program, workers, store, previous, pause):
    """The times of all closes, the processor time of the closing thread, and what was printed."""
    with tempfile.TemporaryDirectory() as folder:
        shutil.copytree(store, f"{folder}/ledger-store")
        closing, times = Closing(program, workers, folder), []
        first = closing.used()
        for number in range(LEDGERS):
            data = deep.record(FIRST, number + 1, previous)
            time.sleep(pause)
            took, previous = closing.close(data)
            times.append(took)
            last = closing.used()
        closing.end()
        return times, last - first, closing.text


def main():
    program = os.path.abspath(sys.argv[1]) if len(sys.argv) > 1 else built("ledger")
    size = int(sys.argv[2] if len(sys.argv) > 2 else 200) * 1_000_000
    pause = float(sys.argv[3]) if len(sys.argv) > 3 else 0.02
    longest, text = {}, None
    with tempfile.TemporaryDirectory() as folder:
        data, previous = deep.image_of(FIRST, PARTS, size)
        with open(f"{folder}/image", "wb") as file:
            file.write(data)
        made = subprocess.run([program, "init", "--network", NETWORK], stdin=open(f"{folder}/image", "rb"), cwd=folder, check=False)
        if made.returncode:
            stop(f"init ended with status {made.returncode}")
        for workers in (0, 1, 2, 4):
            times, own, printed = measured(program, workers, f"{folder}/ledger-store", previous, pause)
            if text not in (None, printed):
                stop(f"{workers} workers print another text")
            text, longest[workers] = printed, max(times)
            print(
                f"{workers} workers: {sum(times):.2f} s on the clock in {LEDGERS} closes, the longest {1000 * max(times):.1f} ms "
                f"(ledger {FIRST + 1 + times.index(max(times))}), {own:.2f} s of the closing thread",
                flush=True,
            )
    ratio = longest[2] / longest[0]
    print(f"the longest close with two workers is {ratio:.2f} of the longest without")
    sys.exit(0 if ratio <= 1 / 3 else 1)


if __name__ == "__main__":
    main()
