#!/usr/bin/env python3
"""Counts the instructions of `catchup` over inputs that ask for much: of opening an image, and of closing a record.

    bench/heavy.py [--small] [--version 19] [--keep FOLDER] [--only NAME]... [--make] [--times] [--SIZE NUMBER]...
        [PROGRAM [OTHER]]

PROGRAM is the built program, crates/ledger/out/ledger of this repository where none is given. OTHER is another build,
of an earlier state say, which is run over the same inputs. These are the inputs, with their sizes where no `--SIZE`,
one of the names in parentheses, says otherwise:

    offers        an image of 20,000 offers in 20 books, opened (--offers)
    revoked       20,000 offers of 23 accounts, all erased since their lines lose the authorisation, by
                  SET_TRUST_LINE_FLAGS and ALLOW_TRUST in turn (--offers, --accounts)
    taken         200 takers cross 16,000 offers of a book of 20,000, at 9,973 prices (--offers, --takers, --crossed)
    paths         60 path payments, of both types in turn, each along two books of 6,000 offers, of which it crosses
                  90, half of them in each book (--paths, --crossings, --book)
    payments      5,000 payments of lumens and of an asset in turn (--payments)
    pools         3,000 deposits, swaps by path payments, and withdrawals, over ten pools (--pooled)
    sponsorships  3,000 sandwiches around data, a line or a signer (--sandwiches)
    signatures    1,000 payments with 20 signatures by hash-x each, in the order opposite to that of the signers
                  (--signed)

The ledger in Python in tests/models makes them, and works out what the program has to print. Making tests that each
transaction succeeds, and that as many offers are left as there should be. `--small` divides the sizes by 20, but not
how many offers a path payment crosses. `--keep` has the inputs and what they print in a folder, and takes them from
there as long as the sizes, this script, and the scripts and models that it uses are the same. `--only` is for some
inputs, `--make` for making them and no more.

`--version 19` has the same inputs under protocol 19: the images' headers and files are of that version.

`--times` prints processor time and peak memory instead, for sizes over which counting takes too long: the least time and
the greatest memory of three runs of one build. The ledger in Python, which takes hours there, then works out nothing: what
is printed has to say that each transaction succeeds.

The script prints how long making took. Then it prints a row for each input: its transactions, the instructions of
opening and of closing in millions, by valgrind's callgrind, those of OTHER, and what PROGRAM takes of them. Closing is
the run with the record less the run of the image alone.

Exit status: 0 where all is well, 1 where a build prints another text or ends with another status than it should, 2
where nothing can be measured. Python 3.9 or later, its standard library, and valgrind; 300 MB of memory.
"""

import argparse
import hashlib
import json
import os
import re
import shutil
import subprocess
import sys
import tempfile
import time
from typing import Any, Callable, NamedTuple, Optional

from measuring import TOP, built, run, stop

sys.path.insert(0, f"{TOP}/tests/models")
import ledger_model as model  # noqa: E402
import pool_tools as pools  # noqa: E402
import set_cases as sets  # noqa: E402
from case_tools import entry, line, lumens_of, offer  # noqa: E402
from closes import CATCHUP, NETWORK, SEQ, image  # noqa: E402
from everything import POOLS, along  # noqa: E402
from trading import ASSETS, BUY, ISSUER, LIMIT, LUMENS, market, offered  # noqa: E402

Entry = dict[str, Any]
# what an offer sells and buys
Pair = tuple[bytes, bytes]
# the first names of sellers and of all others; the issuer of trading.py is below both
FIRST, SENDER = 1_000_000, 2_000
AMOUNT, HELD, SHARES = 10_000, 10**10, 10**6
# how many offers a seller may have beside its lines and its signer, of at most 1,000 subentries, and has in 20 books
MOST_OFFERS, EACH = 990, 200
REVOCABLE, RECEIVE, SEND = 2, 2, 13
USD, EUR = (sets.asset(code, ISSUER) for code in ("USD", "EUR"))
SIGNERS = 20
SMALL, RUNS = 20, 3


class Sizes(NamedTuple):
    offers: int = 20_000
    accounts: int = 23
    takers: int = 200
    crossed: int = 16_000
    paths: int = 60
    crossings: int = 90
    book: int = 6_000
    payments: int = 5_000
    pooled: int = 3_000
    sandwiches: int = 3_000
    signed: int = 1_000

    def small(self) -> "Sizes":
        divided = Sizes(*(-(-number // SMALL) for number in self))
        return divided._replace(crossings=self.crossings)

    def fault(self) -> Optional[str]:
        """Why inputs of these sizes can't be made, if they can't."""
        if min(self) < 1:
            return "a size is at least 1"
        if self.offers > EACH and self.offers % EACH:
            return f"offers are in steps of {EACH}, as many as each seller of the 20 books has"
        if self.offers > self.accounts * MOST_OFFERS:
            return f"{self.accounts} accounts have at most {self.accounts * MOST_OFFERS} offers"
        if self.crossed > self.offers or self.crossed % self.takers or self.crossed // self.takers > 1000:
            return "takers cross equally many offers, at most 1,000 each, and together no more than there are"
        if self.crossings % 2 or self.crossings > 1000 or self.paths * self.crossings > 2 * self.book:
            return "path payments cross an even number of offers, at most 1,000, and no more than the books have"
        return None


class Recipe(NamedTuple):
    """Entries, the transactions of a record, if there is one, how many offers there are, and how many are left."""

    entries: list[Entry]
    listed: list[Any]
    ids: int = 0
    left: int = 0


# ---- entries


def account(name: int, subentries: int = 0, **fields: Any) -> Entry:
    made: Entry = entry(sets.Account(name, LUMENS, data=subentries, **fields))
    return made


def holder(name: int, *assets: bytes) -> list[Entry]:
    """An account with lines of assets."""
    return [account(name, len(assets)), *(line(name, asset, HELD, LIMIT) for asset in assets)]


def sellers(count: int, *assets: bytes) -> list[Entry]:
    return [value for name in range(FIRST, FIRST + count) for value in holder(name, *assets)]


def offers_of(count: int, names: int, pairs: list[Pair], price: Callable[[int], tuple[int, int]]) -> list[Entry]:
    """So many offers, of so many sellers in turn, and in the pairs by rounds of the sellers."""
    return [
        offer(FIRST + number % names, 1 + number, *pairs[number // names % len(pairs)], AMOUNT, price(number))
        for number in range(count)
    ]


def price_of(number: int) -> tuple[int, int]:
    """One of 9,973 prices between 1 and 2. An entire offer at it costs a whole number."""
    return 10_000 + 7919 * number % 9_973, 10_000


def price_of_one(number: int) -> tuple[int, int]:
    """A price of 1, of one of many fractions."""
    parts, _ = price_of(number)
    return parts, parts


# ---- inputs


def opened(sizes: Sizes) -> Recipe:
    each = min(EACH, sizes.offers)
    names = sizes.offers // each
    entries, _ = market(names, each, 0)
    return Recipe(entries, [], names * each, names * each)


def revoked(sizes: Sizes) -> Recipe:
    count, names = sizes.offers, sizes.accounts
    offers = offers_of(count, names, [(USD, sets.LUMENS), (sets.LUMENS, USD)], price_of)
    entries = [account(ISSUER, flags=REVOCABLE), *sellers(names, USD)]
    listed: list[Any] = []
    for index in range(names):
        name = FIRST + index
        taken_back = sets.allow_trust(name, 0) if index % 2 else sets.set_line_flags(name, clears=1, asset=USD)
        listed.append(sets.sent(ISSUER, 1 + index, taken_back))
    return Recipe(pools.with_offers(entries, offers), listed, count)


def taken(sizes: Sizes) -> Recipe:
    count, each = sizes.offers, sizes.crossed // sizes.takers
    names = -(-count // MOST_OFFERS)
    takers = range(SENDER, SENDER + sizes.takers)
    entries = [account(ISSUER), *sellers(names, USD), *(value for name in takers for value in holder(name, USD))]
    offers = offers_of(count, names, [(USD, sets.LUMENS)], price_of)
    listed = [sets.sent(name, 1, offered(BUY, (sets.LUMENS, USD), each * AMOUNT, (2, 1))) for name in takers]
    return Recipe(pools.with_offers(entries, offers), listed, count, count - sizes.crossed)


def paths(sizes: Sizes) -> Recipe:
    """Lumens are sent, over the book of USD for lumens and that of EUR for USD."""
    count, moved = 2 * sizes.book, sizes.crossings // 2 * AMOUNT
    names = -(-count // MOST_OFFERS)
    senders = range(SENDER, SENDER + sizes.paths)
    entries = [account(ISSUER), *sellers(names, USD, EUR), *(value for name in senders for value in holder(name, EUR))]
    offers = offers_of(count, names, [(USD, sets.LUMENS), (EUR, USD)], price_of_one)
    listed: list[Any] = []
    for index, name in enumerate(senders):
        to = SENDER + (index + 1) % sizes.paths
        kind, first, last = (SEND, moved, 1) if index % 2 else (RECEIVE, 2 * moved, moved)
        listed.append(sets.sent(name, 1, along(kind, to, sets.LUMENS, [USD], EUR, first, last)))
    return Recipe(pools.with_offers(entries, offers), listed, count, count - sizes.paths * sizes.crossings)


def payments(sizes: Sizes) -> Recipe:
    count = sizes.payments
    entries = [account(ISSUER), *(value for index in range(count) for value in holder(SENDER + index, USD))]
    listed: list[Any] = []
    for index in range(count):
        asset = USD if index % 2 else sets.LUMENS
        listed.append(sets.sent(SENDER + index, 1, sets.payment(SENDER + (index + 1) % count, 1_000, asset=asset)))
    return Recipe(entries, listed)


def pooled(sizes: Sizes) -> Recipe:
    """Each account deposits, swaps and withdraws at the same pool."""
    count, entries = -(-sizes.pooled // 3), [account(ISSUER)]
    listed: list[Any] = []
    for number, asset in enumerate(ASSETS[:count]):
        lines = len(range(number, count, len(POOLS)))
        entries.append(pools.pool(sets.LUMENS, asset, *(3 * [SHARES * lines]), lines))
    for index in range(count):
        name, asset, digest = SENDER + index, ASSETS[index % len(POOLS)], POOLS[index % len(POOLS)]
        entries += [account(name, 3), line(name, asset, HELD, LIMIT, uses=1), pools.share(name, digest, SHARES)]
        ends = (asset, sets.LUMENS) if index % 2 else (sets.LUMENS, asset)
        kind, first, last = (SEND, 500, 1) if index // 2 % 2 else (RECEIVE, 10**6, 500)
        swap = along(kind, name, ends[0], [], ends[1], first, last)
        done = [pools.deposit(digest, 1_000, 1_000), swap, pools.withdraw(digest, 500)]
        listed += [sets.sent(name, 1 + turn, operation) for turn, operation in enumerate(done)]
    return Recipe(entries, listed[:sizes.pooled])


def sponsorships(sizes: Sizes) -> Recipe:
    """Each account pays for data, a line and a signer of another one."""
    count = -(-sizes.sandwiches // 3)
    listed: list[Any] = []
    entries = [account(ISSUER), *(account(SENDER + index) for index in range(2 * count))]
    for name in range(SENDER, SENDER + count):
        other = name + count
        paid = [
            sets.manage_data(b"paid by %d" % name, b"value", source=other),
            sets.change_trust(USD, LIMIT, source=other),
            sets.set_options(source=other, signer=sets.hash_x(b"paid by %d" % name)),
        ]
        for turn, operation in enumerate(paid):
            sandwich = [sets.begin_sponsoring(other), operation, sets.end_sponsoring(source=other)]
            listed.append(sets.sent(name, 1 + turn, *sandwich, fee=300, signers=[name, other]))
    return Recipe(entries, listed[:sizes.sandwiches])


def signatures(sizes: Sizes) -> Recipe:
    entries: list[Entry] = []
    listed: list[Any] = []
    for index in range(sizes.signed):
        name, to = SENDER + index, SENDER + (index + 1) % sizes.signed
        secrets = sorted((b"secret %d of %d" % (number, name) for number in range(SIGNERS)), key=model.sha)
        entries.append(account(name, signers=list(map(sets.hash_x, secrets)), thresholds=(0, *3 * [SIGNERS])))
        listed.append(sets.sent(name, 1, sets.payment(to, 1_000), signatures=list(map(sets.by_secret, secrets[::-1]))))
    return Recipe(entries, listed)


INPUTS: dict[str, Callable[[Sizes], Recipe]] = {
    "offers": opened, "revoked": revoked, "taken": taken, "paths": paths, "payments": payments, "pools": pooled,
    "sponsorships": sponsorships, "signatures": signatures,
}


# ---- making and keeping


class Made(NamedTuple):
    """The files of an image, and of it with its record, what they have to print, and how many transactions it has."""

    image: str
    input: str
    opening: str
    closing: str
    transactions: int


def record_of(previous: bytes, listed: list[Any]) -> bytes:
    """The record after an image, of whose header this is the hash."""
    envelopes = [envelope.xdr() for envelope in listed]
    digest = model.sha(previous + b"".join(sorted(envelopes, key=model.sha)))
    value = digest + model.u64(1005) + model.u32(0) + model.u32(0)
    data: bytes = model.u32(SEQ + 1) + previous + model.many(envelopes) + value
    return data


def end_of(ledger: Any) -> str:
    return f"end {ledger.header['seq']} {ledger.hash.hex()}\n"


def image_for(recipe: Recipe, version: int) -> bytes:
    coins = sum(map(lumens_of, recipe.entries)) + pools.lumens_in(recipe.entries)
    data: bytes = image(recipe.entries, coins, recipe.ids, version)
    return data


def worked_out(name: str, recipe: Recipe, version: int) -> tuple[bytes, bytes, str, str]:
    """An image, its record, and what they have to print, by the ledger in Python."""
    data, record, lines = image_for(recipe, version), b"", ""
    ledger = model.ledger_of(model.sha(NETWORK.encode()), *model.cut_image(model.Text(data)))
    opening = end_of(ledger)
    if recipe.listed:
        record = record_of(ledger.hash, recipe.listed)
        lines = ledger.close(record)
        record = model.marked(record)
    failed = [outcome.hex(" ", 4) for outcome in ledger.outcomes.values() if outcome[:4] != bytes(4)]
    left = sum(map(len, ledger.entries.books.values()))
    if failed or left != recipe.left:
        stop(f"{name}: {len(failed)} transactions fail, {left} offers are left and not {recipe.left}: {failed[:1]}")
    return data, record, opening, lines + end_of(ledger)


def put_together(recipe: Recipe, version: int) -> tuple[bytes, bytes]:
    """An image and its record."""
    data = image_for(recipe, version)
    size = int.from_bytes(data[4:8], "big") & 0x7FFFFFFF
    previous = model.sha(data[8:8 + size])
    return data, model.marked(record_of(previous, recipe.listed)) if recipe.listed else b""


def key_of(name: str, sizes: Sizes, version: int) -> str:
    """What an input is made from: its name, sizes and version, this script, and the scripts and models that it uses."""
    files = (getattr(module, "__file__", None) for module in sys.modules.values())
    sources = {os.path.abspath(path) for path in files if path}
    digest = hashlib.sha256(json.dumps([name, sizes, version]).encode())
    for path in sorted(path for path in sources if path.startswith(f"{TOP}/")):
        with open(path, "rb") as file:
            digest.update(hashlib.sha256(file.read()).digest())
    return digest.hexdigest()


def write(path: str, data: bytes) -> None:
    with open(path, "wb") as file:
        file.write(data)


def made(name: str, sizes: Sizes, version: int, folder: str) -> Made:
    """An input from the folder, or a new one."""
    key, notes, begun = key_of(name, sizes, version), f"{folder}/{name}.json", time.perf_counter()
    files = f"{folder}/{name}.image", f"{folder}/{name}.input"
    if os.path.exists(notes):
        with open(notes, encoding="ascii") as file:
            kept = json.load(file)
        if kept["key"] == key:
            return Made(*files, kept["opening"], kept["closing"], kept["transactions"])
        os.remove(notes)
    recipe = INPUTS[name](sizes)
    data, record, opening, closing = worked_out(name, recipe, version)
    it = Made(*files, opening, closing, len(recipe.listed))
    write(it.image, data)
    write(it.input, data + record)
    rest = {"key": key, "opening": opening, "closing": closing, "transactions": it.transactions}
    # the notes are written last and at once, so that an input whose making was stopped isn't taken for one
    write(f"{notes}.new", json.dumps(rest).encode())
    os.replace(f"{notes}.new", notes)
    sizes_in_mb = f"{len(data) / 1e6:.1f} MB and a record of {len(record) / 1e6:.2f} MB"
    print(f"made {name}: an image of {sizes_in_mb}, in {time.perf_counter() - begun:.1f} s", flush=True)
    return it


# ---- measuring


class Build:
    """A built program, and whether all that it printed was as expected."""

    def __init__(self, program: str) -> None:
        self.program, self.is_right = program, True

    def instructions(self, source: str, expected: str) -> int:
        """The instructions of a run over a file."""
        words = ["valgrind", "--tool=callgrind", "--callgrind-out-file=/dev/null", self.program, *CATCHUP]
        with open(source, "rb") as file:
            ran = subprocess.run(words, stdin=file, capture_output=True, check=False)
        found = re.search(rb"Collected : (\d+)", ran.stderr)
        if not found:
            stop(f"{' '.join(words[:4])} counted nothing: {ran.stderr[-200:]!r}")
            raise AssertionError
        text = ran.stdout.decode(errors="replace")
        if text != expected or ran.returncode:
            self.is_right = False
            pairs = zip(text.splitlines() + ["nothing"], expected.splitlines() + ["nothing"])
            one, other = next((pair for pair in pairs if pair[0] != pair[1]), ("that", "that"))
            print(f"{self.program}, {source}: status {ran.returncode}; printed {one!r}, expected {other!r}", flush=True)
        return int(found[1])

    def measured(self, it: Made) -> tuple[int, Optional[int]]:
        """The instructions of opening, and of closing where there is a record."""
        opening = self.instructions(it.image, it.opening)
        return opening, self.instructions(it.input, it.closing) - opening if it.transactions else None


def cells(counts: list[tuple[int, Optional[int]]]) -> list[str]:
    """Millions of opening and closing of each build, and what the first one takes of the second."""
    listed = ["-" if count is None else f"{count / 1e6:,.1f}" for pair in counts for count in pair]
    if len(counts) == 2:
        listed += ["-" if one is None or not other else f"{one / other:.3f}" for one, other in zip(*counts)]
    return listed


def row(name: str, number: str, rest: list[str]) -> None:
    print(f"{name:13}{number:>13}" + "".join(f"{cell:>15}" for cell in rest), flush=True)


def table(builds: list[Build], inputs: dict[str, Made]) -> None:
    heads = ["opening", "closing", "other opening", "other closing", "opening ratio", "closing ratio"]
    row("input", "transactions", heads[:6 if len(builds) == 2 else 2])
    for name, it in inputs.items():
        row(name, str(it.transactions), cells([build.measured(it) for build in builds]))


def times(program: str, sizes: Sizes, version: int, names: list[str], folder: str) -> None:
    """Processor time and peak memory of a build, of each image alone and with its record."""
    row("input", "transactions", ["image", "opening", "memory", "record", "closing", "memory"])
    source = f"{folder}/source"
    for name in names:
        recipe = INPUTS[name](sizes)
        data, record = put_together(recipe, version)
        write(source, data)
        opening, peak, _ = run([program, *CATCHUP], RUNS, folder, source)
        listed = [f"{len(data) / 1e6:.1f} MB", f"{opening:.2f} s", f"{peak / 1e3:.0f} MB"]
        count = len(recipe.listed)
        if count:
            write(source, data + record)
            seconds, peak, output = run([program, *CATCHUP], RUNS, folder, source)
            if output.splitlines()[-2].split()[-2:] != [b"%d" % count] * 2:
                stop(f"{name}: {output.splitlines()[-2]!r}")
            listed += [f"{len(record) / 1e6:.3f} MB", f"{seconds - opening:.2f} s", f"{peak / 1e3:.0f} MB"]
        row(name, str(count), listed)


# ---- the words


def words() -> argparse.Namespace:
    parser = argparse.ArgumentParser(description="Counts the instructions of opening images and of closing records.")
    parser.add_argument("programs", nargs="*", metavar="PROGRAM", help="the built program, and another build")
    parser.add_argument("--small", action="store_true", help=f"sizes divided by {SMALL}")
    parser.add_argument("--version", type=int, choices=model.VERSIONS, default=model.VERSIONS[0], help="of the images")
    parser.add_argument("--keep", metavar="FOLDER", help="where inputs are kept")
    parser.add_argument("--only", action="append", choices=list(INPUTS), help="an input; all where none is named")
    parser.add_argument("--make", action="store_true", help="makes the inputs, and runs nothing")
    parser.add_argument("--times", action="store_true", help="processor time and peak memory, of one build")
    for name, number in Sizes()._asdict().items():
        parser.add_argument(f"--{name}", type=int, metavar="NUMBER", help=f"{number:,} where nothing is said")
    given = parser.parse_args()
    if len(given.programs) > 2:
        parser.error("there are at most two builds")
    if given.times and len(given.programs) > 1:
        parser.error("--times is of one build")
    base = Sizes().small() if given.small else Sizes()
    said = {name: number for name, number in vars(given).items() if name in Sizes._fields and number is not None}
    given.sizes = base._replace(**said)
    fault = given.sizes.fault()
    if fault:
        parser.error(fault)
    return given


def main() -> None:
    given = words()
    builds = [Build(os.path.abspath(program)) for program in given.programs or [built("ledger")]]
    needed = ([] if given.times else ["valgrind"]) + [build.program for build in builds]
    for word in [] if given.make else needed:
        if not shutil.which(word):
            stop(f"there is no program {word}")
    with tempfile.TemporaryDirectory() as passing:
        folder = given.keep or passing
        os.makedirs(folder, exist_ok=True)
        if given.times:
            times(builds[0].program, given.sizes, given.version, given.only or list(INPUTS), passing)
            return
        begun = time.perf_counter()
        names = [name for name in INPUTS if not given.only or name in given.only]
        inputs = {name: made(name, given.sizes, given.version, folder) for name in names}
        print(f"inputs after {time.perf_counter() - begun:.1f} s", flush=True)
        if not given.make:
            table(builds, inputs)
    sys.exit(not all(build.is_right for build in builds))


if __name__ == "__main__":
    main()
