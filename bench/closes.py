#!/usr/bin/env python3
"""Measures `catchup`: opening an image, and closing ledgers after it; and `run` over a store beside it.

    bench/closes.py [PROGRAM [OTHER]]

PROGRAM is the built program, crates/ledger/out/ledger of this repository where none is given. OTHER is another build, of an earlier
state say: both are then run in turn, and the last lines say what PROGRAM takes of OTHER's times.

Images of 1,000, 10,000 and 100,000 accounts are opened, and then 50 records of 100 transactions are handed in one by one, of two mixes.
One is of accounts: payments, new accounts, options, data, sequence numbers, data that another account pays for, and merges. The other is
of assets: lines that are made and changed, what is issued, paid and redeemed in them, authorisations taken back and given, claimable
balances made, claimed and clawed back, and clawback. A third mix, of offers (`trading.py`), and a fourth, of all 24 operations
(`everything.py`), are run over images of 10,000 and 100,000 offers in 20 books, the fourth with ten pools. What the program prints is
compared with what the ledger in Python in tests/models says. Images of 98 and 980 offers of one account are opened too; it can't
have more than 1,000 subentries. So are images of pools (`pooling.py`): of 1,000 and 10,000 pools with a line of shares each, and of one
pool with 1,000 and 10,000 lines.

Over 1,000 and 10,000 accounts the records of the mix of accounts are closed by `run` too, over a store of the same image in a directory,
and the ratio of both is printed: processor time of all closes but the longest, where the syncs of `run` do nothing.

The script prints processor time and peak memory of opening; then the processor time of closing without the longest close, ledgers and
transactions a second of it, and the longest close by itself, which is the one in which a deep level is merged; each close by the least
of several runs. A close is measured from when its record is handed in until the program waits for the next one. Last it prints how much
longer closing takes over 100,000 accounts than over 1,000, with the mix of offers than with that of accounts, and over ten times
the offers, and all of a run than sha256sum of the same input.

Exit status: 0 where all is well, 1 where ten times the accounts, offers, pools or lines of one pool take more than 15 times as long to
open, closing takes more than twice as long over 100,000 accounts as over 1,000, ten times the offers change the time of closing by
more than a fifth, or `run` takes more than 1.15 times what `catchup` takes, 2 where a run fails or prints another text. Linux (it reads
/proc), Python 3.9 or later, its standard library, sha256sum, and a C compiler (cc).
"""

import os
import subprocess
import sys
import tempfile
import time

from measuring import TOP, built, run, stop

sys.path.insert(0, f"{TOP}/tests/models")
import ledger_model as model  # noqa: E402
import set_cases as sets  # noqa: E402
from everything import Doer, world  # noqa: E402
from pooling import many_pools, one_pool, pooled  # noqa: E402
from trading import TAKERS, Taker, market  # noqa: E402

LEDGERS, SIZE = 50, 100
# how many accounts send, of a mix of assets
SENDERS = 500
# AUTH_REVOCABLE and AUTH_CLAWBACK_ENABLED
CLAWING = 10
GREATEST_RATIO, GREATEST_GROWTH, GREATEST_CHANGE, GREATEST_KEEPING = 15, 2, 1.2, 1.15
BALANCE = 1_000_000_000
NETWORK = "Test SDF Network ; September 2015"
SEQ = 630


def image_of(files, coins, ids, version=18):
    """An image of 22 files, and the hash of its header."""
    hashes = [model.sha(file) if file else bytes(32) for file in files]
    levels = model.sha(b"".join(model.sha(hashes[i] + hashes[i + 1]) for i in range(0, 22, 2)))
    header = dict(
        version=version, previous=bytes(32), value={"set": bytes(32), "time": 1000, "upgrades": [], "ext": (0, None)},
        results=bytes(32), levels=levels, seq=SEQ, coins=coins, pool=0, inflation=0, ids=ids, base_fee=100,
        reserve=5_000_000, most=1000, skips={name: bytes(32) for name in "abcd"}, ext=(0, None),
    )
    encoded = model.HEADER.write(header)
    return b"SLI1" + model.marked(encoded) + b"".join(model.u64(len(file)) + file for file in files), model.sha(encoded)


def image(entries, coins, ids=0, version=18):
    """An image of entries, half of them in the curr of the fifth level and half in its snap."""
    rows = sorted((model.row(model.INIT, entry) for entry in entries), key=lambda item: item[0])
    halves = [model.Bucket(version, rows[half::2]).file for half in (0, 1)]
    return image_of([b""] * 8 + halves + [b""] * 12, coins, ids, version)[0]


def accounts(count, flags, version=18):
    """An image of so many accounts with these flags."""
    entries = [model.ENTRY.read(model.Text(sets.Account(number, BALANCE, flags=flags).xdr())) for number in range(count)]
    return image(entries, count * BALANCE, version=version)


def offers(sellers, each, takers, version=18):
    """An image of so many sellers with so many offers each, and of so many who have none."""
    entries, coins = market(sellers, each, takers)
    return image(entries, coins, sellers * each, version)


def everything(sellers, each, takers, version=18):
    """An image of so many sellers with so many offers each, of takers, and of ten pools."""
    entries, coins = world(sellers, each, takers)
    return image(entries, coins, sellers * each, version)


def pools(made):
    """An image of pools."""
    return image(*pooled(made))


class Sender:
    """Makes transactions of accounts in turn, and keeps their sequence numbers."""

    def __init__(self, count, senders):
        self.count, self.senders, self.index, self.numbers, self.made = count, senders, 0, {}, count

    def look(self, ledger):
        pass

    def turn(self):
        self.index = (self.index + 7) % self.senders
        self.numbers[self.index] = self.numbers.get(self.index, 0) + 1
        return self.index, self.numbers[self.index]

    def transaction(self, kind):
        source, seq = self.turn()
        other = self.count // 2 + source
        if kind == 0:
            self.made += 1
            return sets.sent(source, seq, sets.create_account(1_000_000 + self.made, 20_000_000))
        if kind == 1:
            return sets.sent(source, seq, sets.set_options(domain=b"example.org"))
        if kind == 2:
            return sets.sent(source, seq, sets.manage_data(b"name %d" % (seq % 3), b"value %d" % seq))
        if kind == 3:
            return sets.sent(source, seq, sets.bump_sequence(seq))
        if kind == 4:
            data = sets.manage_data(b"paid by %d" % source, b"value", source=other)
            sandwich = [sets.begin_sponsoring(other), data, sets.end_sponsoring(source=other)]
            return sets.sent(source, seq, *sandwich, fee=300, signers=[source, other])
        if kind == 5:
            # an account without subentries but its signer goes, where it was not touched; else the operation fails
            return sets.sent(source, seq, sets.account_merge(source, source=other), signers=[source, other])
        return sets.sent(source, seq, sets.payment(other, 1_000))


class Holder(Sender):
    """Makes transactions of accounts that each hold the asset of another account, step by step."""

    def transaction(self, kind):
        source, seq = self.turn()
        issuer = self.count // 2 + source
        held, balance = sets.asset("USD", issuer), sets.balance_id(source, max(1, seq - 1))
        both = [source, issuer]
        steps = [
            ([source], [sets.change_trust(held, 1_000_000)]),
            (both, [sets.payment(source, 1_000, asset=held, source=issuer)]),
            ([source], [sets.create_claimable(100, both, asset=held)]),
            ([source], [sets.claim(balance)]),
            (both, [sets.allow_trust(source, 0, source=issuer)]),
            (both, [sets.set_line_flags(source, sets=1, asset=held, source=issuer), sets.payment(issuer, 10, asset=held)]),
            ([source], [sets.create_claimable(50, [(source, sets.within(60))], asset=held)]),
            (both, [sets.clawback_claimable(balance, source=issuer), sets.clawback(source, 5, asset=held, source=issuer)]),
            ([source], [sets.change_trust(held, 2_000_000)]),
        ]
        signers, listed = steps[(seq - 1) % len(steps)]
        return sets.sent(source, seq, *listed, fee=200, signers=signers)


def story(data, sender):
    """The records after an image, one by one, and what `catchup` prints for all."""
    ledger = model.ledger_of(model.sha(NETWORK.encode()), *model.cut_image(model.Text(data)))
    records, lines = [], []
    for number in range(LEDGERS):
        sender.look(ledger)
        listed = [sender.transaction((number + index) % 11).xdr() for index in range(SIZE)]
        digest = model.sha(ledger.hash + b"".join(sorted(listed, key=model.sha)))
        value = digest + model.u64(1005 + 5 * number) + model.u32(0) + model.u32(0)
        record = model.u32(ledger.header["seq"] + 1) + ledger.hash + model.many(listed) + value
        lines.append(ledger.close(record))
        records.append(model.marked(record))
    return records, "".join(lines) + f"end {ledger.header['seq']} {ledger.hash.hex()}\n"


class Watched:
    """A program that is run in a folder, and what it has used so far."""

    def __init__(self, program, words, folder, environment):
        how = {"stdin": subprocess.PIPE, "stdout": subprocess.PIPE, "bufsize": 0, "cwd": folder, "env": {**os.environ, **environment}}
        self.process = subprocess.Popen([program, *words], **how)
        self.folder, self.text = f"/proc/{self.process.pid}", b""

    def used(self):
        """The processor time so far, in seconds, once the program waits for input."""
        before = None
        while True:
            with open(f"{self.folder}/stat") as file:
                waits = file.read().rsplit(")", 1)[1].split()[0] == "S"
            with open(f"{self.folder}/schedstat") as file:
                now = int(file.read().split()[0])
            if waits and now == before:
                return now / 1e9
            before = now
            time.sleep(0.0005)

    def peak(self):
        """The peak of memory so far, in kB."""
        with open(f"{self.folder}/status") as file:
            return next(int(line.split()[1]) for line in file if line.startswith("VmHWM"))

    def hand_in(self, data):
        self.process.stdin.write(data)

    def read_close(self):
        """Reads what is printed for one close."""
        at = len(self.text)
        while b"closed " not in self.text[at:] or not self.text.endswith(b"\n"):
            more = self.process.stdout.read(1 << 16)
            if not more:
                stop("the program ended before its input did")
            self.text += more

    def end(self):
        """Ends the input, and gives all that was printed."""
        self.process.stdin.close()
        self.text += self.process.stdout.read()
        if self.process.wait():
            stop(f"the program ended with status {self.process.returncode}")
        return self.text.decode()


CATCHUP = ["catchup", "--network", NETWORK]


def watched(program, data, records, expected, words=CATCHUP, folder=None, environment={}):
    """The processor time of opening, its peak of memory, and the processor time of each close, of one run."""
    it = Watched(program, words, folder, environment)
    it.hand_in(data)
    opening, peak, closes = it.used(), it.peak(), []
    last = opening
    for record in records:
        it.hand_in(record)
        it.read_close()
        now = it.used()
        closes.append(now - last)
        last = now
    if it.end() != expected:
        stop(f"{words[0]} printed another text")
    return opening, peak, closes


def least(runs):
    """The least of several runs: opening, its peak of memory, closing without the longest close, and that one."""
    closes = [min(times) for times in zip(*(it[2] for it in runs))]
    return min(it[0] for it in runs), max(it[1] for it in runs), sum(closes) - max(closes), max(closes)


def report(name, count, what, size, done, opening, peak, closing, longest):
    print(
        f"{name}{count:7} {what}: image of {size / 1e6:.2f} MB opened in {opening * 1e3:.1f} ms"
        f" ({size / opening / 1e6:.1f} MB/s), {peak / 1e3:.1f} MB of memory, {peak * 1e3 / size:.1f} times the image;"
        f" {LEDGERS - 1} ledgers of {SIZE} transactions in {closing * 1e3:.1f} ms: {(LEDGERS - 1) / closing:.0f} ledgers and"
        f" {(LEDGERS - 1) * SIZE / closing:.0f} transactions a second ({done} of {LEDGERS * SIZE} succeed); the longest close"
        f" {longest * 1e3:.1f} ms",
        flush=True,
    )


def given(count, mix, version=18):
    """The image of a mix, and who makes its transactions."""
    if mix == OFFER_MIX:
        return offers(count // 20, 20, TAKERS, version), Taker(count)
    if mix == WHOLE_MIX:
        return everything(count // 20, 20, TAKERS, version), Doer()
    if mix == "accounts, assets":
        return accounts(count, CLAWING, version), Holder(count, SENDERS)
    return accounts(count, 0, version), Sender(count, count // 2)


ASSET_MIX, ACCOUNT_MIX, OFFER_MIX, WHOLE_MIX = "accounts, assets", "accounts, accounts", "offers", "offers, all operations"
RUNS = [(count, mix) for count in (1_000, 10_000, 100_000) for mix in (ASSET_MIX, ACCOUNT_MIX)] + [
    (count, mix) for mix in (OFFER_MIX, WHOLE_MIX) for count in (10_000, 100_000)
]


def measured(programs, count, mix, folder):
    """What each program takes of one mix."""
    data, sender = given(count, mix)
    records, expected = story(data, sender)
    source = os.path.join(folder, "input")
    with open(source, "wb") as file:
        file.write(data + b"".join(records))
    hashed, _, _ = run(["sha256sum", source], 3, folder)
    done = sum(line.startswith("tx ") and line.split()[-1] in "01" for line in expected.splitlines())
    runs = {program: [] for program in programs}
    for _ in range(3 if count == 100_000 else 7):
        for program in programs:
            runs[program].append(watched(program, data, records, expected))
    results = {program: least(runs[program]) for program in programs}
    for program, found in results.items():
        report(f"{program}: " if len(programs) > 1 else "", count, mix, len(data), done, *found)
        whole = found[0] + found[2] + found[3]
        print(f"    all of it takes {whole / max(hashed, 1e-9):.1f} times as long as sha256sum of the input", flush=True)
    return results


def opened(program, data):
    """The least processor time of opening an image, of several runs."""
    ledger = model.ledger_of(model.sha(NETWORK.encode()), *model.cut_image(model.Text(data)))
    expected = f"end {SEQ} {ledger.hash.hex()}\n"
    return min(watched(program, data, [], expected)[0] for _ in range(15))


def watch_accounts(results):
    """Whether more accounts cost little enough."""
    fine = True
    for mix in (ASSET_MIX, ACCOUNT_MIX):
        small, middle, large = [results[count, mix] for count in (1_000, 10_000, 100_000)]
        ratios, growth = (middle[0] / small[0], large[0] / middle[0]), large[2] / small[2]
        print(f"{mix}: ten times the accounts take {ratios[0]:.1f} and {ratios[1]:.1f} times as long to open;"
              f" closing takes {growth:.2f} times as long over 100,000 accounts as over 1,000")
        fine = fine and max(ratios) <= GREATEST_RATIO and growth <= GREATEST_GROWTH
    return fine


def watch_offers(program, results):
    """Whether more offers cost little enough."""
    small, large, plain = results[10_000, OFFER_MIX], results[100_000, OFFER_MIX], results[10_000, ACCOUNT_MIX]
    few, many = [opened(program, offers(1, each, 0)) for each in (98, 980)]
    opening, change = (large[0] / small[0], many / few), large[2] / small[2]
    print(f"offers: closing takes {small[2] / plain[2]:.2f} times as long as with the mix of accounts; ten times the offers take"
          f" {change:.2f} times as long to close over and {opening[0]:.1f} times as long to open, those of one account {opening[1]:.1f} times")
    return max(opening) <= GREATEST_RATIO and 1 / GREATEST_CHANGE <= change <= GREATEST_CHANGE


def watch_pools(program):
    """Whether more pools, and more lines of one pool, cost little enough to open."""
    ratios = []
    for made in (many_pools, one_pool):
        few, many = [opened(program, pools(made(count))) for count in (1_000, 10_000)]
        ratios.append(many / few)
    print(f"pools: ten times the pools take {ratios[0]:.1f} times as long to open, ten times the lines of one pool {ratios[1]:.1f} times")
    return max(ratios) <= GREATEST_RATIO


# Syncs that do nothing, to show what the syncs of a run take.
NO_SYNCS = "int fsync(int file) { return 0; }\nint fdatasync(int file) { return 0; }\n"


def without_syncs(folder):
    """A library that is loaded before the C library, and whose syncs do nothing."""
    with open(f"{folder}/syncs.c", "w", encoding="ascii") as file:
        file.write(NO_SYNCS)
    words = ["cc", "-shared", "-fPIC", "-o", f"{folder}/syncs.so", f"{folder}/syncs.c"]
    if subprocess.run(words, check=False).returncode:
        stop("the library without syncs could not be compiled")
    return f"{folder}/syncs.so"


def kept(program, data, records, expected, library):
    """What one `run` over a store of an image takes, before which a library is loaded where one is given."""
    with tempfile.TemporaryDirectory(dir=".") as folder:
        subprocess.run([program, "init", "--network", NETWORK], input=data, cwd=folder, check=True)
        return watched(program, b"", records, expected, ["run"], folder, {"LD_PRELOAD": library} if library else {})


def watch_runs(program):
    """Whether keeping the records costs little enough beside closing their ledgers, the syncs apart."""
    program, fine = os.path.abspath(program), True
    with tempfile.TemporaryDirectory() as folder:
        library = without_syncs(folder)
        for count in (1_000, 10_000):
            data, sender = given(count, ACCOUNT_MIX)
            records, expected = story(data, sender)
            alone, stored, unsynced = [], [], []
            for _ in range(7):
                alone.append(watched(program, data, records, expected))
                stored.append(kept(program, data, records, expected, None))
                unsynced.append(kept(program, data, records, expected, library))
            closing, keeping, rest = [least(it)[2] for it in (alone, stored, unsynced)]
            print(f"{count:7} accounts: {LEDGERS - 1} ledgers take catchup {closing * 1e3:.1f} ms and run {keeping * 1e3:.1f} ms, of which"
                  f" the syncs {(keeping - rest) * 1e3:.1f} ms; the rest is {rest / closing:.2f} times catchup", flush=True)
            fine = fine and rest / closing <= GREATEST_KEEPING
    return fine


def main():
    programs = sys.argv[1:] or [built("ledger")]
    with tempfile.TemporaryDirectory() as folder:
        found = {(count, mix): measured(programs, count, mix, folder) for count, mix in RUNS}
    results = {program: {key: value[program] for key, value in found.items()} for program in programs}
    fine = watch_accounts(results[programs[0]])
    fine = watch_offers(programs[0], results[programs[0]]) and fine
    fine = watch_pools(programs[0]) and fine
    fine = watch_runs(programs[0]) and fine
    for other in programs[1:]:
        for count, mix in RUNS:
            new, old = results[programs[0]][count, mix], results[other][count, mix]
            print(f"{count:7} {mix}, of {other}: opening {new[0] / old[0]:.2f}, its memory {new[1] / old[1]:.2f}, closing"
                  f" {new[2] / old[2]:.2f}, the longest close {new[3] / old[3]:.2f}")
    sys.exit(not fine)


if __name__ == "__main__":
    main()
