#!/usr/bin/env python3
"""Measures a store in a directory: appends a second, going on to the next epoch, and opening a large image.

    bench/store.py [SPEED [LEDGER [SPEED_BEFORE LEDGER_BEFORE]]]

SPEED and LEDGER are the built programs of this repository where none are given; the other two are builds from before images had their
hash (format 1), to compare with. The stores are made in folders of TMPDIR: what is measured is the file system that it is on.

`SPEED store-append COUNT SIZE` appends COUNT records of SIZE bytes. Beside it the same writes and syncs are made by this script, with
nothing else: that is the part of the system. `SPEED store-roll BYTES 0` opens a store and goes on to an image of BYTES bytes, and
`SPEED store-open BYTES 0` does all but that; both write over a file of that length. `SPEED store-hash BYTES TIMES` hashes an image so
many times. `LEDGER show` opens stores of real accounts: with one open image, and with two, of which both hashes are judged. All times
are those on the clock, the best of several runs in turn.

Exit status: 0 where all is well, 1 where a bound is passed, 2 where a run fails or prints another line. The bounds: a roll takes at most
its time before and 1.2 times the hash of the image, and at most 1.1 times the image in memory beyond what opening takes; `show` takes at
most 1.4 times as long as before with one open image, and 1.7 times with two. Python 3.9 or later and its standard library.
"""

import os
import subprocess
import sys
import tempfile
import time

from measuring import TOP, built, run, stop

sys.path.insert(0, f"{TOP}/tests/models")
import ledger_model as model  # noqa: E402
import set_cases as sets  # noqa: E402
import store_model as stores  # noqa: E402
from closes import BALANCE, NETWORK, SEQ, accounts  # noqa: E402

RECORDS, SIZE = 500, 20_000
IMAGE = 100_000_000
RUNS = 10
# the bytes of an account in a bucket's file
ITEM = 140


def clocked(words, folder, line):
    """The seconds on the clock that a command takes in a folder."""
    begun = time.perf_counter()
    ran = subprocess.run(words, cwd=folder, stdout=subprocess.PIPE, check=False)
    took = time.perf_counter() - begun
    if ran.returncode or (line is not None and ran.stdout.decode() != line):
        stop(f"{' '.join(words)} printed {ran.stdout!r}")
    return took


def best(*calls):
    """The least seconds of each of some calls, which are made in turn, so that what else the machine does meets all of them."""
    rounds = [[call() for call in calls] for _ in range(RUNS)]
    return [min(times) for times in zip(*rounds)]


def system_part(folder):
    """The seconds of the writes and syncs of as many appends, by this script."""
    head, piece = open(f"{folder}/image0", "wb"), b"\x07" * (SIZE + 5)
    with head, open(f"{folder}/journal0", "wb", buffering=0) as journal:
        begun = time.perf_counter()
        for number in range(RECORDS):
            at = number * (SIZE + 5)
            for offset, text in ((at + 1, piece), (at, b"\x01")):
                os.pwrite(journal.fileno(), text, offset)
                os.fsync(head.fileno())
                os.fsync(journal.fileno())
        return time.perf_counter() - begun


def measure_appends(speed):
    with tempfile.TemporaryDirectory() as folder:
        clocked([speed, "store-make", "1000", "0"], folder, None)
        append = [speed, "store-append", str(RECORDS), str(SIZE)]
        appends, system = best(lambda: clocked(append, folder, f"store-append: {RECORDS}\n"), lambda: system_part(folder))
        print(f"{RECORDS} records of {SIZE} bytes: {RECORDS / appends:.0f} appends a second; the same writes and syncs alone"
              f" take {100 * system / appends:.0f} % of the time")


def roll_seconds(*programs):
    """What a roll takes by each program, and then what the hash of its image takes by the first."""
    with tempfile.TemporaryDirectory() as top:
        calls = []
        for number, speed in enumerate(programs):
            folder = f"{top}/{number}"
            os.mkdir(folder)
            for command in ("store-make", "store-roll", "store-roll"):
                subprocess.run([speed, command, str(IMAGE), "0"], cwd=folder, stdout=subprocess.PIPE, check=True)
            for command in ("store-open", "store-roll"):
                words = [speed, command, str(IMAGE), "0"]
                calls.append(lambda words=words, folder=folder: clocked(words, folder, f"{words[1]}: 0\n"))
        for times in ("1", "2"):
            calls.append(lambda times=times: clocked([programs[0], "store-hash", str(IMAGE), times], top, None))
        taken = best(*calls)
        return [later - earlier for earlier, later in zip(taken[::2], taken[1::2])]


def measure_roll(speed, before):
    """Whether a roll is within its bounds."""
    rolled, *others, hashed = roll_seconds(speed, *before)
    print(f"a roll of an image of {IMAGE} bytes: {rolled:.3f} seconds; SHA-256 of the image: {hashed:.3f}")
    well = True
    if others:
        most = others[0] + 1.2 * hashed
        print(f"a roll before: {others[0]:.3f} seconds; at most {most:.3f} now")
        well = rolled <= most
    with tempfile.TemporaryDirectory() as folder:
        for command in ("store-make", "store-roll", "store-roll"):
            subprocess.run([speed, command, str(IMAGE), "0"], cwd=folder, stdout=subprocess.PIPE, check=True)
        _, opened, _ = run([speed, "store-open", str(IMAGE), "0"], 1, folder)
        _, rolling, _ = run([speed, "store-roll", str(IMAGE), "0"], 1, folder)
    more = (rolling - opened) * 1024 / IMAGE
    print(f"memory of a roll beyond that of opening: {more:.2f} times the image (at most 1.1)")
    return well and more <= 1.1


def image_of_accounts(count):
    """An image of so many accounts, as `closes.accounts` makes it of few."""
    rows = []
    for number in range(count):
        entry = sets.Account(number, BALANCE).xdr()
        rows.append((entry[8:40], model.marked(model.u32(2) + entry)))
    rows.sort()
    meta = model.Bucket(18, []).file
    halves = [meta + b"".join(item for _, item in rows[half::2]) for half in (0, 1)]
    buckets = [model.EMPTY] * 22
    buckets[8], buckets[9] = (model.Bucket(18, [None], file) for file in halves)
    small = accounts(1, 0)
    header = {**model.HEADER.read(model.Text(model.cut_image(model.Text(small))[0])), "levels": model.Levels(buckets, SEQ).hash, "coins": count * BALANCE}
    files = b"".join(model.u64(len(bucket.file)) + bucket.file for bucket in buckets)
    return b"SLI1" + model.marked(model.HEADER.write(header)) + files


def lay_store(folder, image, form, both):
    """A store of an image in its first file, with the same image in an older epoch in its second file where there are to be two."""
    network = model.sha(NETWORK.encode())
    files = {"image0": stores.image_file(2, network, image, form=form), "journal0": b"\0"}
    if both:
        files["image1"] = stores.image_file(1, network, image, form=form)
    os.makedirs(f"{folder}/ledger-store")
    for name, data in files.items():
        with open(f"{folder}/ledger-store/{name}", "wb") as file:
            file.write(data)


def measure_shows(ledger, before):
    """Whether `show` is within its bounds."""
    assert image_of_accounts(3) == accounts(3, 0)
    image, well = image_of_accounts(IMAGE // ITEM), True
    for both, bound in ((False, 1.4), (True, 1.7)):
        with tempfile.TemporaryDirectory() as top:
            for number, (program, form) in enumerate([(ledger, 2), *((program, 1) for program in before)]):
                lay_store(f"{top}/{number}", image, form, both)
            calls = [lambda words=[program, "show"], number=number: clocked(words, f"{top}/{number}", None)
                     for number, program in enumerate([ledger, *before])]
            taken = best(*calls)
        images = "two open images" if both else "one open image"
        print(f"show of a store with {images} of {len(image)} bytes: {taken[0]:.3f} seconds")
        if before:
            print(f"  {taken[0] / taken[1]:.2f} times as long as before (at most {bound})")
            well = well and taken[0] <= bound * taken[1]
    return well


def main():
    speed, ledger, *before = [*sys.argv[1:], *[built(name) for name in ("speed", "ledger")][len(sys.argv) - 1:]]
    measure_appends(speed)
    is_roll_well = measure_roll(speed, before[:1])
    is_show_well = measure_shows(ledger, before[1:])
    sys.exit(0 if is_roll_well and is_show_well else 1)


if __name__ == "__main__":
    main()
