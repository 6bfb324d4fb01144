"""Images, records after them, and cases: what the cases of accounts, in `run_cases.py`, and those of `asset_cases.py` are made with."""

import os
import re

import ledger_model as model
import set_cases as sets
from asset_model import line_rank
from entry_model import ASSET, CLAIMANT, LINE_ASSET, rows_of
from ledger_model import (
    DEAD, EMPTY, ENTRY, HEADER, INIT, ITEM, META, NO_HASH, Bucket, Text, catchup, cut_image, key_of, ledger_of, many, marked, row, sha,
    u32, u64,
)
from store_model import FILES

LUMEN, Account, Data, key, sent, var = sets.LUMEN, sets.Account, sets.Data, sets.key, sets.sent, sets.var

NETWORK = "Test SDF Network ; September 2015"
# SHA-256 of four zero bytes
NO_RESULTS = "df3f619804a92fdb4057192dc43dd748ea778adc52bc498ce80524c014b81119"

# the files of a volume without bytes
NO_FILES = (b"",) * len(FILES)

# each a name, words, an input, what they yield (output, text on standard error, status), and a volume's files before and after
CASES = []

# ---- images


def entry(made, **fields):
    """The entry of an account or of data, with other fields of its body."""
    value = ENTRY.read(Text(made.xdr()))
    return {**value, "body": (value["body"][0], {**value["body"][1], **fields})}


def sponsored(value, name):
    return model.with_sponsor(value, key(name))


def with_counts(value, sponsored=0, sponsoring=0, sponsors=None, third=None):
    """An account's entry with these counts, sponsors of its signers, and, as `third`, a ledger and a time of its sequence number."""
    account = value["body"][1]
    rows = [None] * len(account["signers"]) if sponsors is None else [name and (0, key(name)) for name in sponsors]
    ext = (0, None) if third is None else (3, {"ext": (0, None), "ledger": third[0], "time": third[1]})
    said = {"sponsored": sponsored, "sponsoring": sponsoring, "sponsors": rows, "ext": ext}
    return {**value, "body": (0, model.with_second(account, said))}


def with_liabilities(value, buying=0, selling=0):
    owed = {"buying": buying, "selling": selling}
    return {**value, "body": (0, {**value["body"][1], "ext": (1, {"liabilities": owed, "ext": (0, None)})})}


# an asset of z's
USD = sets.asset("USD", "z")


def line(name, asset=USD, balance=0, limit=100, flags=1, owed=None, uses=None, payer=None):
    """The entry of a line. `owed` are its liabilities of buying and of selling, for an extension; `uses` asks for the second one."""
    ext = (0, None)
    if owed is not None or uses is not None:
        buying, selling = owed or (0, 0)
        more = (0, None) if uses is None else (2, {"uses": uses, "ext": (0, None)})
        ext = (1, {"liabilities": {"buying": buying, "selling": selling}, "ext": more})
    body = dict(id=(0, key(name)), asset=LINE_ASSET.read(Text(asset)), balance=balance, limit=limit, flags=flags, ext=ext)
    return model.with_sponsor({"modified": 1, "body": (1, body), "ext": (0, None)}, payer and key(payer))


def claimable(digest, claimants="b", amount=1, asset=sets.LUMENS, payer="a", flags=None):
    """The entry of a claimable balance; where flags are given, with an extension."""
    listed = rows_of(CLAIMANT).read(Text(sets.encoded_claimants(claimants)))
    ext = (0, None) if flags is None else (1, {"ext": (0, None), "flags": flags})
    body = dict(balance=(0, digest), claimants=listed, asset=ASSET.read(Text(asset)), amount=amount, ext=ext)
    return model.with_sponsor({"modified": 1, "body": (4, body), "ext": (0, None)}, payer and key(payer))


def pool(digest):
    """An empty pool of lumens and USD under an id, without lines."""
    body = (0, {"a": (0, None), "b": ASSET.read(Text(USD)), "fee": 30, "reserve_a": 0, "reserve_b": 0, "shares": 0, "lines": 0})
    return {"modified": 1, "body": (5, {"pool": digest, "body": body}), "ext": (0, None)}


def offer(name, number=1, selling=sets.LUMENS, buying=USD, amount=1, price=(1, 1), flags=0, payer=None):
    """An offer, of lumens for USD where nothing else is said."""
    sold, bought = (ASSET.read(Text(asset)) for asset in (selling, buying))
    body = dict(
        seller=(0, key(name)), offer=number, selling=sold, buying=bought, amount=amount, price={"n": price[0], "d": price[1]},
        flags=flags, ext=(0, None),
    )
    return model.with_sponsor({"modified": 1, "body": (2, body), "ext": (0, None)}, payer and key(payer))


def bucket(*rows, version=18):
    """A bucket of rows (mark, entry), or (DEAD, entry), in the order of their keys."""
    encoded = [row(arm, key_of(value) if arm == DEAD else value) for arm, value in rows]
    return Bucket(version, sorted(encoded, key=lambda item: item[0]))


def raw(*items):
    """A file of items as they are."""
    return b"".join(map(marked, items))


def items(*rows):
    return [ITEM.write((arm, key_of(value) if arm == DEAD else value)) for arm, value in rows]


META_18 = ITEM.write((META, {"version": 18, "ext": (0, None)}))
assert marked(META_18).hex() == "8000000cffffffff0000001200000000"
assert model.Levels([EMPTY] * 22, 1).hash == sha(11 * sha(bytes(64)))
assert sha(bytes(64)).hex() == "f5a5fd42d16a20302798ef6ed309979b43003d2320d9f0e8ea9831a92759fb4b"


def header_of(**fields):
    header = dict(
        seq=5, version=18, previous=sha(b"before"), value={"set": NO_HASH, "time": 1000, "upgrades": [], "ext": (0, None)},
        results=bytes.fromhex(NO_RESULTS), coins=0, pool=0, inflation=0, ids=0, base_fee=100, reserve=5_000_000, most=1000,
        skips={name: sha(name.encode()) for name in "abcd"}, ext=(0, None),
    )
    return {**header, **fields}


def image_bytes(header, files):
    return b"SLI1" + marked(header) + b"".join(u64(len(file)) + file for file in files)


def lumens_of(value):
    kind, body = value["body"]
    if kind == 4:
        return body["amount"] if body["asset"][0] == 0 else 0
    return body["balance"] if kind == 0 else 0


def image(entries=(), files=None, at=0, **fields):
    """An image. Its entries are in the file `at`, unless `files` has files or buckets by their indices; each field of its header may
    be another. Its lumens are those of the accounts and of claimable balances."""
    if files is None:
        files = {at: bucket(*((INIT, value) for value in entries))} if entries else {}
    hashes = [files.get(index, b"") for index in range(22)]
    files = [file if isinstance(file, bytes) else file.file for file in hashes]
    digests = [sha(file) if file else NO_HASH for file in files]
    levels = sha(b"".join(sha(curr + snap) for curr, snap in zip(digests[0::2], digests[1::2])))
    coins = sum(map(lumens_of, entries))
    header = header_of(**{"levels": levels, "coins": max(0, coins + fields.get("pool", 0)), **fields})
    return image_bytes(HEADER.write(header), files)


class Story:
    """An image and records after it."""

    def __init__(self, data):
        self.data, self.length = data, len(data)
        self.ledger = ledger_of(sha(NETWORK.encode()), *cut_image(Text(data)))

    def record(self, *listed, time=None, upgrades=(), **changes):
        """The bytes of the next record, or of one with another number, previous hash or hash of its set; of form 2
        where there are vouches."""
        header = self.ledger.header
        time = header["value"]["time"] + 5 if time is None else time
        previous = changes.get("previous", self.ledger.hash)
        envelopes = [envelope.xdr() for envelope in listed]
        digest = changes.get("digest", sha(previous + b"".join(sorted(envelopes, key=sha))))
        value = digest + u64(time) + many([var(upgrade) for upgrade in upgrades]) + u32(0)
        close = u32(changes.get("seq", header["seq"] + 1)) + previous + many(envelopes) + value
        vouches = changes.get("vouches")
        return close if vouches is None else u32(sets.FORM_2) + close + many(vouches)

    def add(self, record):
        self.data += marked(record)
        return self

    def close(self, *listed, expected=(), **changes):
        """A record that closes the ledger. `expected` are the outcomes of its transactions, by hand."""
        record = self.record(*listed, **changes)
        self.ledger.close(record)
        for envelope, end in zip(listed, expected):
            got = self.ledger.outcomes[envelope.hash]
            assert got == end, (got.hex(" ", 4), end.hex(" ", 4))
        return self.add(record)

    def run(self, source, *pairs, signers=None, time=None):
        """A close over one transaction of its source's next number: pairs of an operation and its result by hand."""
        operations, results = [op for op, _ in pairs], [result for _, result in pairs]
        seq = self.account(source)["seq"] + 1
        succeeds = all(result[:4] == bytes(4) and result[8:12] == bytes(4) for result in results)
        envelope = sent(source, seq, *operations, fee=100 * len(pairs), signers=signers)
        return self.close(envelope, time=time, expected=[(sets.ok if succeeds else sets.failed)(*results)])

    def account(self, name):
        return self.ledger.entries[0, key(name)]["body"][1]

    def counts(self, name):
        """The subentries of an account, the reserves that others pay for it, and those that it pays for others."""
        said = model.second(self.account(name))
        return self.account(name)["subs"], said["sponsored"], said["sponsoring"]

    def line(self, name, asset=USD):
        """The balance, limit and flags of a line, or None."""
        value = self.ledger.entries.get(line_rank(key(name), LINE_ASSET.read(Text(asset))))
        return value and tuple(value["body"][1][field] for field in ("balance", "limit", "flags"))

    def claimables(self):
        """The claimable balances that exist, by their ids."""
        return {rank[1]: value for rank, value in self.ledger.entries.items() if rank[0] == 4}

    def refused(self, *listed, **changes):
        """A record that is to be refused."""
        return self.add(self.record(*listed, **changes))


def upgrade(kind, value):
    return u32(kind) + u32(value)


# ---- cases


def test_end(name, yielded, end, closes=None):
    """Compares what a run yielded with what is said by hand. `end` is the last line of the output, or that on standard error where a number
    of its status precedes; `end LEDGER` alone leaves the hash to the model. `closes` is how many ledgers close."""
    out, err, status = yielded
    last = (out.splitlines() or [""])[-1]
    reported = f"{status} {err.strip()}" if err else last.rsplit(" ", 1)[0] if last.startswith("end ") else last
    assert reported == end, (name, reported, end)
    assert closes is None or sum(line.startswith("closed ") for line in out.splitlines()) == closes, name


def case(name, data, end, closes=None):
    """A case of `catchup`, with its end by hand (`test_end`)."""
    data = data.data if isinstance(data, Story) else data
    yielded = catchup(NETWORK, data)
    test_end(name, yielded, end, closes)
    CASES.append((name, ["catchup", "--network", NETWORK], data, yielded, NO_FILES, NO_FILES))


def slug(name):
    """The name of a case's file: its letters and digits, with a dash for each other stretch, and a number below 0 as `minus-N`."""
    name = re.sub(r"(?<!\w)-(?=\d)", "minus ", name)
    return "-".join("".join(letter if letter.isalnum() else " " for letter in name.replace("'", "").lower()).split())


def encoded(words, data, yielded, before, after):
    """The file of a case: a head of lines, the bytes that it counts, and the input."""
    out, err, status = yielded
    files = [(f"{when} {name}", file) for when, files in (("before", before), ("after", after)) for name, file in zip(FILES, files) if file]
    parts = [("output", out if isinstance(out, bytes) else out.encode()), *files]
    head = [f"word {word}" for word in words] + [f"status {status}"] + [f"error {line}" for line in err.splitlines()]
    head += [f"{kind} {len(part)}" for kind, part in parts]
    return "\n".join([*head, "", ""]).encode() + b"".join(part for _, part in parts) + data


def write(path, data):
    with open(path, "wb") as file:
        file.write(data if isinstance(data, bytes) else data.encode())


CASES_FOLDER = os.path.join(os.path.dirname(os.path.dirname(os.path.abspath(__file__))), "cases")


def write_names(names):
    """The list of the cases."""
    write(f"{CASES_FOLDER}/names", "".join(f"{name}\n" for name in names))


A, B, C = (entry(Account(name, 100 * LUMEN)) for name in "abc")
D = entry(Data("a", b"name", b"value"))
A_WITH_D = entry(Account("a", 100 * LUMEN, data=1))


def predicate(levels):
    """A predicate of so many levels."""
    return u32(0) if levels == 1 else u32(3) + u32(1) + predicate(levels - 1)
