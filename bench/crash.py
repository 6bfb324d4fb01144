#!/usr/bin/env python3
"""Kills runs over a store at random moments, and looks at what each leaves.

    bench/crash.py [PROGRAM [WORKERS [old]]]

PROGRAM is the built program, crates/ledger/out/ledger of this repository where none is given. The runs that are killed have so many WORKERS
beside their closing threads, none where nothing is said. `init` makes a store at ledger 1 in a folder of
TMPDIR. Over a copy of it `run` closes 300 ledgers, and goes on to another epoch four times. Such runs, over a fresh copy each, are killed
(SIGKILL) at random moments, until 200 were killed before their end. About half of the moments are on the clock, within the time that a
complete run takes. The others follow from the output: a little after the moment at which so many of its bytes have come.

What a killed run printed must be a prefix of the complete run's text. Its files must open, by the store in Python in tests/models, to the
ledger of the last complete `closed` line that came, or to the next one; a run without records must end at that ledger, and a run over the
records that follow print what the complete run printed from there on.

With `old` the store is of format 1, which a run brings over first, and three quarters of the moments lie in the first twentieth of a run,
where it does so.

Such a crash is one of the process alone: what it wrote stays in the memory of the system. That power is lost is what the contracts of the
store speak of, and what `tests/stops.py` tries.

Exit status: 0 where all is well, 1 where a run left anything else, 2 where a run fails. Python 3.9 or later and its standard library.
"""

import collections
import os
import random
import shutil
import subprocess
import sys
import tempfile
import threading
import time

from measuring import TOP, built, stop

sys.path.insert(0, f"{TOP}/tests/models")
import ledger_model as model  # noqa: E402
import set_cases as sets  # noqa: E402
import store_model as stores  # noqa: E402
from case_tools import NETWORK, A, B, C, Story, image, sent  # noqa: E402

FIRST, RECORDS, KILLS, SEED = 1, 300, 200, 15


def story():
    """An image, records after it one by one, and the lines of each: lumens are paid, and data comes and goes."""
    made, records, lines, numbers = Story(image([A, B, C], seq=FIRST)), [], [], dict.fromkeys("abc", 0)
    for index in range(RECORDS):
        listed = []
        for name, other in zip("abc", "bca"):
            numbers[name] += 1
            value = None if index % 5 == 4 else b"%d" % index
            listed.append(sent(name, numbers[name], sets.payment(other, 1 + index), sets.manage_data(b"%d" % (index // 5 % 7), value), fee=200))
        record = made.record(*listed)
        lines.append(made.ledger.close(record))
        records.append(model.marked(record))
    return made.data, records, lines


class Expected:
    """What a complete run has to print, and where its lines end."""

    def __init__(self, start, lines):
        self.lines, self.start = lines, start
        # the hash of each ledger, from the image's on
        self.hashes = [start] + [line.splitlines()[-1].split()[2] for line in lines]

    def end(self, count):
        return f"end {FIRST + count} {self.hashes[count]}\n"

    def text(self, count):
        """What a run after so many records prints."""
        return "".join(self.lines[count:]) + self.end(RECORDS)

    def closed(self, out):
        """Of how many closes a text has the last line, complete."""
        return sum(line.startswith("closed ") for line in out.split("\n")[:-1])


def run(program, words, folder, data):
    """What a command prints in a folder, with its status where it doesn't end well."""
    ran = subprocess.run([program, *words], cwd=folder, input=data, stdout=subprocess.PIPE, check=False)
    return ran.stdout.decode() + (f"status {ran.returncode}\n" if ran.returncode else "")


class Watched:
    """A run whose output is taken as it comes."""

    def __init__(self, command, folder, source):
        with open(source, "rb") as file:
            self.process = subprocess.Popen(command, cwd=folder, stdin=file, stdout=subprocess.PIPE, bufsize=0)
        self.out, self.reader = bytearray(), threading.Thread(target=self.take)
        self.reader.start()

    def take(self):
        while True:
            more = os.read(self.process.stdout.fileno(), 1 << 16)
            if not more:
                return
            self.out += more

    def wait_for(self, count, most):
        """Waits until so many bytes have come, or the run has ended, for so many seconds at most."""
        begun = time.perf_counter()
        while len(self.out) < count and self.reader.is_alive() and time.perf_counter() - begun < most:
            time.sleep(0.0002)

    def kill(self):
        """Ends the run at once. What it printed by then, and whether it had ended by itself."""
        self.process.kill()
        self.reader.join()
        self.process.stdout.close()
        return self.out.decode(), self.process.wait() == 0


def killed(command, folder, source, moments, length, took, is_old):
    """What a run printed until a random moment, and whether it had ended by itself."""
    it = Watched(command, folder, source)
    if is_old and moments.random() < 0.75:
        time.sleep(moments.uniform(0, 0.05 * took))
    elif moments.random() < 0.5:
        time.sleep(moments.uniform(0, 1.1 * took))
    else:
        it.wait_for(moments.randrange(length), 10 * took)
        time.sleep(moments.uniform(0, 4 * took / RECORDS))
    return it.kill()


def content(path):
    """The bytes of a file, which has none where it isn't there."""
    if not os.path.exists(path):
        return b""
    with open(path, "rb") as file:
        return file.read()


def judged(program, folder, expected, records, out):
    """How many ledgers a store opens to beyond those that a killed run printed, in which epoch, and in which format; or what is wrong."""
    if not expected.text(0).startswith(out):
        return "what was printed is no prefix of the entire text"
    try:
        store = stores.Store([content(f"{folder}/ledger-store/{name}") for name in stores.FILES])
    except (stores.Missing, stores.BadStore) as wrong:
        return f"the files are no store: {wrong!r}"
    closed, opened = expected.closed(out), store.ledger.header["seq"] - FIRST
    if not closed <= opened <= closed + 1:
        return f"after {closed} closes the files open after {opened}"
    if run(program, ["run"], folder, b"") != expected.end(opened):
        return f"after {opened} closes a run ends elsewhere"
    if run(program, ["run"], folder, b"".join(records[opened:])) != expected.text(opened):
        return f"after {opened} closes other lines follow"
    return opened - closed, store.epoch, store.form


def report(seen, whole):
    """Prints what the stores of the killed runs opened to."""
    ends, epochs, forms = (collections.Counter(column) for column in zip(*seen))
    print(f"{len(seen)} runs over {RECORDS} records, {len(seen) - whole} of them killed before their end:"
          f" {ends[0]} stores open to the last ledger that was printed, {ends[1]} to the next one")
    print("    " + ", ".join(f"{epochs[epoch]} of them in epoch {epoch}" for epoch in sorted(epochs)))
    print("    " + ", ".join(f"{forms[form]} of them in format {form}" for form in sorted(forms)))


def main():
    program = os.path.abspath(sys.argv[1] if len(sys.argv) > 1 else built("ledger"))
    command = [program, "run", *(["--workers", sys.argv[2]] if len(sys.argv) > 2 else [])]
    is_old = sys.argv[3:] == ["old"]
    data, records, lines = story()
    expected = Expected(model.ledger_of(model.sha(NETWORK.encode()), *model.cut_image(model.Text(data))).hash.hex(), lines)
    moments, seen, whole, wrong = random.Random(SEED), [], 0, 0
    with tempfile.TemporaryDirectory() as folder:
        source, made, fresh = (f"{folder}/{name}" for name in ("records", "made", "fresh"))
        with open(source, "wb") as file:
            file.write(b"".join(records))
        os.mkdir(made)
        if run(program, ["init", "--network", NETWORK], made, data):
            stop("init made no store")
        if is_old:
            with open(f"{made}/ledger-store/image0", "r+b") as file:
                kept = stores.in_format_1(file.read())
                file.seek(0)
                file.write(kept)
                file.truncate()
        shutil.copytree(made, fresh)
        begun = time.perf_counter()
        if run(program, ["run"], fresh, b"".join(records)) != expected.text(0):
            stop("run printed another text")
        took = time.perf_counter() - begun
        while len(seen) - whole + wrong < KILLS:
            shutil.rmtree(fresh)
            shutil.copytree(made, fresh)
            out, ended = killed(command, fresh, source, moments, len(expected.text(0)), took, is_old)
            found = judged(program, fresh, expected, records, out)
            if isinstance(found, str):
                print(found)
                wrong += 1
                continue
            seen.append(found)
            whole += ended
    if seen:
        report(seen, whole)
    sys.exit(1 if wrong else 0)


if __name__ == "__main__":
    main()
