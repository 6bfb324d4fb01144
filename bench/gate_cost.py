#!/usr/bin/env python3
"""What the gate checks and what that takes, by crate.

    bench/gate_cost.py report [NOTES]
    bench/gate_cost.py watch NOTES

`report` prints a row a crate, in the order of crates.txt, in the form of docs/GATE.md: lines of code, of definitions and of proofs, and how
many edits are in must-fail/. Where NOTES are given, two columns follow: seconds of processor time, of the crate's proof, its tests and
all its builds, but not of its edits; and MB of checked files (*.oantt) that its proof wrote. The last row adds up, and a line after it
says what all edits took.

`watch` makes NOTES. It runs beside the gate, in the checkout that the gate runs in, until it is killed: every two seconds it looks which
provers and compilers run, and keeps what each used so far. So it misses up to two seconds of each, and what a machine kept from an
earlier run, which is not proved again.

MB show what a proof costs, and no load of the machine changes them; the seconds rise with what else the machine does.

Linux (it reads /proc, and the folders that provers keep their checked files in), Python 3.10 or later, its standard library.
"""

import glob
import json
import os
import sys
import tempfile
import time

from measuring import TOP, stop

TICKS = os.sysconf("SC_CLK_TCK")


def crates():
    """The names in crates.txt, in their order."""
    with open(f"{TOP}/crates.txt") as file:
        lines = [line.split("#")[0] for line in file]
    return [line.split(":")[0].split()[0] for line in lines if ":" in line]


def lines(pattern):
    """How many lines the files have that a pattern names."""
    total = 0
    for path in glob.glob(pattern, recursive=True):
        with open(path, "rb") as file:
            total += sum(1 for _ in file)
    return total


def purpose(words, folder):
    """What a prover or compiler runs for: an edit is tried on a copy of its crate, elsewhere."""
    if not f"{folder}/".startswith(f"{TOP}/crates/"):
        return "edit"
    if "--test" in words:
        return "tests"
    return "build" if "--crate-checked" in words else "proof"


def checked(process):
    """How many bytes of checked files a prover wrote so far."""
    total = 0
    for path in glob.glob(f"{tempfile.gettempdir()}/rattle-logic-built-locked-{process}-*/*.oantt"):
        try:
            total += os.path.getsize(path)
        except OSError:
            pass
    return total


def command(process):
    """The words of a process that is a prover or compiler."""
    with open(f"/proc/{process}/cmdline") as file:
        words = file.read().split("\0")
    return words if words[0].endswith("/rattle") and "--crate-name" in words else None


def used(process):
    """What a process is, if it is a prover or compiler: when it started, its crate, what for, seconds and bytes so far."""
    words = command(process)
    if words is None:
        return None
    with open(f"/proc/{process}/stat") as file:
        state = file.read().rsplit(")", 1)[1].split()
    if command(state[1]):
        # a part of another one, which has its time as soon as it waited for it
        return None
    # its own time and that of the children that it waited for, of the program and of the system
    seconds = sum(map(int, state[11:15])) / TICKS
    name = words[words.index("--crate-name") + 1]
    return state[19], name, purpose(words, os.readlink(f"/proc/{process}/cwd")), seconds, checked(process)


def watch(path):
    notes = {}
    while True:
        for process in filter(str.isdigit, os.listdir("/proc")):
            try:
                found = used(process)
            except (OSError, ValueError):
                # it ended meanwhile
                continue
            if found:
                start, name, what, seconds, size = found
                known = notes.get((process, start), (name, what, 0, 0))
                notes[process, start] = (name, what, seconds, max(size, known[3]))
        with open(f"{path}.new", "w") as file:
            json.dump(list(notes.values()), file)
        os.replace(f"{path}.new", path)
        time.sleep(2)


def figures(notes, name):
    """The seconds of a crate without its edits, and the bytes of its proof; none where it wasn't proved."""
    seconds = [it[2] for it in notes if it[0] == name and it[1] != "edit"]
    sizes = [it[3] for it in notes if it[0] == name and it[1] == "proof"]
    return (sum(seconds), max(sizes, default=0)) if seconds else (None, None)


def row(name, notes):
    folder = f"{TOP}/crates/{name}"
    counts = [lines(f"{folder}/src/**/*.rt"), lines(f"{folder}/specs/**/*.antt"), lines(f"{folder}/proofs/**/*.antt")]
    return [*counts, len(glob.glob(f"{folder}/must-fail/*.edit")), *figures(notes, name)]


def say(name, counts):
    *numbers, edits, seconds, size = counts
    seconds = "" if seconds is None else f"{seconds:.0f}"
    size = "" if size is None else f"{size / 1e6:.0f}"
    print(f"    {name:<16}{''.join(f'{number:>13}' for number in numbers)}{edits:>7}{seconds:>9}{size:>6}")


def report(notes):
    print(f"    {'crate':<16}{'code':>13}{'definitions':>13}{'proofs':>13}{'edits':>7}{'seconds':>9}{'MB':>6}")
    rows = [(name, row(name, notes)) for name in crates()]
    for name, counts in rows:
        say(name, counts)
    say("all", [sum(it or 0 for it in column) for column in zip(*(counts for _, counts in rows))])
    print(f"\nedits: {sum(it[2] for it in notes if it[1] == 'edit'):.0f} seconds")


def main():
    match sys.argv[1:]:
        case ["watch", path]:
            watch(path)
        case ["report"]:
            report([])
        case ["report", path]:
            with open(path) as file:
                report(json.load(file))
        case _:
            stop("expected `report [NOTES]` or `watch NOTES`")


if __name__ == "__main__":
    main()
