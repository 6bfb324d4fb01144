#!/usr/bin/env python3
"""Measures what readers cost the thread that closes, and what a read takes.

    bench/readers.py [PROGRAM]

PROGRAM is the built program, crates/speed/out/speed of this repository where none is given. Over an image of 10,000 accounts it closes
records of 100 transactions, by turns alone and beside three readers that read an account all the time; and it reads that account a million
times by one reader, and a million times from the ledger.

The script prints the processor time of the closing thread, without that of opening the image, and that of a read and of a look-up; each is
the least of several runs.

Exit status: 0 where the closing thread takes at most 1.15 times as long beside the readers as alone, and a read at most twice as long as a
look-up; 1 where one of them takes longer; 2 where a run fails or does less. Linux (it reads /proc), Python 3.9 or later and its standard
library.
"""

import os
import subprocess
import sys
import tempfile
import time

from measuring import TOP, built, stop

sys.path.insert(0, f"{TOP}/tests/models")
import ledger_model as model  # noqa: E402
import set_cases as sets  # noqa: E402
from closes import BALANCE, LEDGERS, Sender, image, story  # noqa: E402

ACCOUNTS, READS, RUNS = 10_000, 1_000_000, 7
MOST_OF_CLOSING, MOST_OF_A_LOOK = 1.15, 2
# the account that the program reads
READ = "\x07"


def used(program, *words):
    """The processor time of the first thread of a run in seconds, and what the run printed."""
    process = subprocess.Popen([program, *words], stdout=subprocess.PIPE)
    printed = process.stdout.read().decode()
    # what its threads used can be read until the process is waited for
    while open(f"/proc/{process.pid}/stat").read().rsplit(")", 1)[1].split()[0] != "Z":
        time.sleep(0.001)
    with open(f"/proc/{process.pid}/task/{process.pid}/schedstat") as file:
        took = int(file.read().split()[0]) / 1e9
    if process.wait():
        stop(f"{' '.join(words)} ended with status {process.returncode}")
    return took, printed


def least(program, folder, *commands):
    """The least time of each command, which are run by turns, and what it printed last."""
    times, printed = {words: [] for words in commands}, {}
    for _ in range(RUNS):
        for words in commands:
            took, printed[words] = used(program, *words)
            times[words].append(took)
    return [(min(times[words]), printed[words]) for words in commands]


def closing(program, folder):
    """The time of the closing thread alone and beside readers, without opening, and how often these read."""
    data, none, records = (os.path.join(folder, name) for name in ("image", "none", "records"))
    beside, alone, opened = least(
        program, folder, ("readers", data, records), ("readers-base", data, records), ("readers-base", data, none)
    )
    if not (beside[1].startswith(f"readers: {LEDGERS} ledgers") and alone[1] == f"readers-base: {LEDGERS} ledgers, 0 reads\n"):
        stop(f"the program printed {beside[1]!r} and {alone[1]!r}")
    return alone[0] - opened[0], beside[0] - opened[0], int(beside[1].split()[-2])


def reading(program, folder):
    """The time of a read and of a look-up, without opening."""
    data, times = os.path.join(folder, "image"), str(READS)
    reads, looks, opened = least(program, folder, ("reads", data, times), ("reads-base", data, times), ("reads-base", data, "0"))
    if (reads[1], looks[1]) != (f"reads: 0 ledgers, {READS} reads\n", f"reads-base: 0 ledgers, {READS} reads\n"):
        stop(f"the program printed {reads[1]!r} and {looks[1]!r}")
    return (reads[0] - opened[0]) / READS, (looks[0] - opened[0]) / READS


def main():
    program = os.path.abspath(sys.argv[1]) if len(sys.argv) > 1 else built("speed")
    entries = [sets.Account(name, BALANCE) for name in (*range(ACCOUNTS), READ)]
    data = image([model.ENTRY.read(model.Text(it.xdr())) for it in entries], len(entries) * BALANCE)
    records, _ = story(data, Sender(ACCOUNTS, ACCOUNTS // 2))
    with tempfile.TemporaryDirectory() as folder:
        for name, text in (("image", data), ("none", b""), ("records", b"".join(records))):
            with open(os.path.join(folder, name), "wb") as file:
                file.write(text)
        alone, beside, reads = closing(program, folder)
        read, look = reading(program, folder)
    print(f"{LEDGERS} ledgers closed in {alone * 1e3:.1f} ms alone, in {beside * 1e3:.1f} ms beside readers: {beside / alone:.3f} times;"
          f" they read {reads} times")
    print(f"a read takes {read * 1e9:.0f} ns, a look-up {look * 1e9:.0f} ns: {read / look:.2f} times")
    sys.exit(0 if beside <= MOST_OF_CLOSING * alone and read <= MOST_OF_A_LOOK * look else 1)


if __name__ == "__main__":
    main()
