"""Runs of `catchup` that close one ledger over the table of cases of sets in `set_cases.py`,
`precondition_cases.py` and `vouch_cases.py`, which `run_cases.py` writes.

What is printed is worked out from what the table says by hand: the lines of transactions from their charges and outcomes, and the header
after the close from the results, what the fee pool gets, and the entries that exist then.
"""

import precondition_cases
import set_cases as sets
import vouch_cases
from case_tools import CASES, NETWORK, NO_FILES
from entry_model import DEAD, ENTRY, HEADER, INIT, LIVE, Text, i64, key_of, many, rank_of_key, sha
from ledger_model import Bucket, Levels, catchup, read_bucket, row


def by_rank(entries):
    values = [ENTRY.read(Text(e.xdr())) for e in entries]
    return {rank_of_key(key_of(value)): value for value in values}


def changed(before, after, seq, version):
    """The bucket of what a ledger changed: its new entries, its changed ones, and the keys of those that are gone."""
    rows = []
    for rank in sorted({*before, *after}):
        old, new = before.get(rank), after.get(rank)
        if new is None:
            rows.append(row(DEAD, key_of(old)))
        elif old is None or {**new, "modified": old["modified"]} != old:
            rows.append(row(INIT if old is None else LIVE, {**new, "modified": seq}))
    return Bucket(version, rows)


def header_after(start, before, after, in_order, ends, made, value):
    """The header after a close."""
    header, seq = HEADER.read(Text(start.header)), start.seq + 1
    levels = Levels([read_bucket(start.file), *21 * [read_bucket(b"")]], start.seq)
    levels.add(seq, changed(by_rank(before), by_rank(after), seq, start.version))
    results = many([e.hash + i64(fee) + outcome + bytes(4) for e, (fee, outcome) in zip(in_order, ends)])
    return {
        **header, "previous": start.hash, "value": value, "seq": seq, "results": sha(results), "ids": header["ids"] + made,
        "pool": header["pool"] + sum(fee for fee, _ in ends), "levels": levels.hash,
    }


def lines_of(start, before, listed, in_order, ends, after, made, time):
    """What is printed where the set is applied."""
    lines, done = [], 0
    for e, (fee, outcome) in zip(in_order, ends):
        number = int.from_bytes(outcome[:4], "big", signed=True)
        done += number in (0, 1)
        lines.append(f"tx {e.hash.hex()} {fee} {number}\n")
    value = {"set": start.set_hash(listed), "time": time, "upgrades": [], "ext": (0, None)}
    digest = sha(HEADER.write(header_after(start, before, after, in_order, ends, made, value))).hex()
    seq = start.seq + 1
    return "".join(lines) + f"closed {seq} {digest} {len(lines)} {done}\nend {seq} {digest}\n"


def tables():
    sets.TABLE.clear()
    for part in sets.PARTS + precondition_cases.PARTS + vouch_cases.PARTS:
        part()
    for name, start, before, listed, in_order, ends, after, made, missing, time in sets.TABLE:
        data = start.image + sets.marked(start.record(listed, time))
        if ends is None:
            yielded = f"refused {start.seq + 1} FeeSourceMissing {missing}\n", "", 3
        else:
            yielded = lines_of(start, before, listed, in_order, ends, after, made, time), "", 0
        # the ledger in Python, which shares nothing with the table, must say the same
        assert catchup(NETWORK, data) == yielded, (name, catchup(NETWORK, data), yielded)
        CASES.append((name, ["catchup", "--network", NETWORK], data, yielded, NO_FILES, NO_FILES))


PARTS = [tables]
