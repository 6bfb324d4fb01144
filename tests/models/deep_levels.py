"""An image whose deeper levels have large files, and records of payments that close ledgers after it."""

import hashlib

import ledger_model as model
import set_cases as sets

BALANCE = 1_000_000_000
# how many accounts send payments, and one more takes them
SENDERS = 10


def names(first, count):
    """The keys of so many accounts, in order."""
    return sorted(hashlib.sha256(b"account %d" % number).digest() for number in range(first, first + count))


def image_of(seq, parts, size):
    """An image of ledger `seq` and the hash of its header. Its levels have so many bytes of accounts, and `parts` says how much of them
    each file has, by its level and whether it is the snap."""
    domain = b"a.domain.of.32.bytes.example.org"
    sample = sets.Account("a", BALANCE, domain=domain)
    encoded = model.row(model.INIT, model.ENTRY.read(model.Text(sample.xdr())))[3]
    before, after = encoded.split(sets.key("a"), 1)
    mark, meta = model.u32(0x80000000 | len(encoded)), model.marked(model.i32(model.META) + model.u32(18) + model.u32(0))
    files, made = [b""] * 22, 0
    # the accounts that send are in the first level
    senders = sorted(model.row(model.INIT, model.ENTRY.read(model.Text(sets.Account(n, BALANCE).xdr()))) for n in range(SENDERS + 1))
    files[0] = meta + b"".join(model.marked(row[3]) for row in senders)
    for (level, is_snap), part in parts.items():
        count = int(size * part) // (len(encoded) + 4)
        files[2 * level + is_snap] = meta + b"".join(mark + before + name + after for name in names(made, count))
        made += count
    hashes = [hashlib.sha256(file).digest() if file else bytes(32) for file in files]
    levels = [hashlib.sha256(hashes[i] + hashes[i + 1]).digest() for i in range(0, 22, 2)]
    header = dict(
        version=18, previous=bytes(32), value={"set": bytes(32), "time": 1000, "upgrades": [], "ext": (0, None)}, results=bytes(32),
        levels=hashlib.sha256(b"".join(levels)).digest(), seq=seq, coins=(made + SENDERS + 1) * BALANCE, pool=0, inflation=0, ids=0,
        base_fee=100, reserve=5_000_000, most=1000, skips={name: bytes(32) for name in "abcd"}, ext=(0, None),
    )
    encoded = model.HEADER.write(header)
    bytes_of_files = b"".join(model.u64(len(file)) + file for file in files)
    return b"SLI1" + model.marked(encoded) + bytes_of_files, model.sha(encoded)


def record(seq, number, previous):
    """The record of payments of the ledger `number` after that of the image, after the ledger of this hash."""
    listed = [sets.sent(name, number, sets.payment(SENDERS, 1_000)).xdr() for name in range(SENDERS)]
    digest = model.sha(previous + b"".join(sorted(listed, key=model.sha)))
    value = digest + model.u64(1000 + 5 * number) + model.u32(0) + model.u32(0)
    return model.marked(model.u32(seq + number) + previous + model.many(listed) + value)
