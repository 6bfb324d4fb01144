"""Cases of operations: operations.txt beside this script, with each case encoded as XDR, and what is expected of it.

A case of operations.txt is a small ledger in words, as in xdr_words.py, and an operation. What is expected follows `=`, worked out by
hand from the protocol: what the operation answers, each entry that is new, changed or gone, and the open sponsorships where their
number changed. Of an entry all is stated that isn't 0 or none:

    account ID [balance seq subentries inflation flags domain thresholds] [signer key preauth X:WEIGHT [by SPONSOR]]
            [sponsored COUNT sponsoring COUNT] [buying selling] [by SPONSOR]
    line ID [ASSET] [balance limit flags buying selling] [by SPONSOR]
    offer ID NUMBER, data ID NAME VALUE, balance ID ASSET AMOUNT [flags] CLAIMANT.. [by SPONSOR]

An account has the extension for counts of sponsorship where they are stated. `by nobody` is an extension without a sponsor. What isn't
stated, as the code of an asset or the pools that use a line, is as it was; of what is new it is as xdr_words.py has it.
"""

import os
import re
from typing import Dict, List, NamedTuple, Optional, Tuple

from xdr_words import (
    ENTRIES, OPERATIONS, account_id, balance_id, claimant, i64, line_asset, many, maybe, signer_key, u32, u64, var,
)

HERE = os.path.dirname(os.path.abspath(__file__))

# the rank of an entry's key
Rank = Tuple[object, ...]


class Case(NamedTuple):
    """A line of the cases: its name, what is made, and what it says; and what is expected of it."""

    name: str
    made: str
    encoded: bytes
    expected: str


# ---- entries


def rank_of_entry(encoded: bytes) -> Rank:
    """The rank of an entry's key: numbers of offers have a sign, and names are compared without their lengths."""
    kind = int.from_bytes(encoded[4:8], "big")
    if kind in (0, 1, 2, 3):
        owner, rest = encoded[12:44], encoded[44:]
    if kind == 0:
        return (kind, owner)
    if kind == 1:
        asset_type = int.from_bytes(rest[:4], "big")
        length = {0: 4, 1: 44, 2: 52, 3: 36}[asset_type]
        return (kind, owner, rest[:length])
    if kind == 2:
        return (kind, owner, int.from_bytes(rest[:8], "big", signed=True))
    if kind == 3:
        length = int.from_bytes(rest[:4], "big")
        return (kind, owner, rest[4 : 4 + length])
    return (kind, encoded[12:44] if kind == 4 else encoded[8:40])


def by(words: str) -> bytes:
    """The extension for a sponsor, from what is stated of it."""
    if not words:
        return u32(0)
    name = words.split()[-1]
    return u32(1) + maybe(None if name == "nobody" else account_id(name)) + u32(0)


def fields_of(words: List[str]) -> Dict[str, str]:
    assert len(words) % 2 == 0, words
    return dict(zip(words[::2], words[1::2]))


SIGNER = r" (key|preauth|signer) (.):(\d+)( by .)?"
ACCOUNT = re.compile(
    r"account (?P<id>.)(?P<numbers>(?: (?:balance|seq|subentries) -?\d+)*)(?: inflation (?P<inflation>.))?(?: flags (?P<flags>\d+))?"
    r"(?: domain (?P<domain>.+?))?(?: thresholds (?P<thresholds>[\d,]+))?(?P<signers>(?: (?:key|preauth|signer) .:\d+(?: by .(?= ))?)*)"
    r"(?: sponsored (?P<sponsored>\d+) sponsoring (?P<sponsoring>\d+))?(?P<liable>(?: (?:buying|selling) -?\d+)*)(?P<by> by \w+)?"
)


def account(stated: str) -> bytes:
    found = ACCOUNT.fullmatch(stated)
    assert found, stated
    numbers = fields_of(found["numbers"].split())
    liable = fields_of(found["liable"].split())
    signers = re.findall(SIGNER, found["signers"])
    body = account_id(found["id"]) + i64(numbers.get("balance", 0)) + i64(numbers.get("seq", 0)) + u32(numbers.get("subentries", 0))
    body += maybe(account_id(found["inflation"]) if found["inflation"] else None) + u32(found["flags"] or 0)
    body += var((found["domain"] or "").encode()) + bytes(map(int, (found["thresholds"] or "1,0,0,0").split(",")))
    body += many([signer_key(kind, letter) + u32(weight) for kind, letter, weight, _ in signers])
    if found["sponsored"]:
        sponsors = many([maybe(account_id(payer.split()[1]) if payer else None) for *_, payer in signers])
        counts = u32(2) + u32(found["sponsored"]) + u32(found["sponsoring"]) + sponsors + u32(0)
    else:
        assert not any(payer for *_, payer in signers), stated
        counts = u32(0)
    if found["sponsored"] or liable:
        body += u32(1) + i64(liable.get("buying", 0)) + i64(liable.get("selling", 0)) + counts
    else:
        body += u32(0)
    return u32(1) + u32(0) + body + by(found["by"])


LINE = re.compile(
    r"line (?P<id>.)(?: (?P<asset>pool|long:.|[A-Z]))?(?P<numbers>(?: (?:balance|limit|flags|buying|selling) -?\d+)*)(?P<by> by \w+)?"
)


def line(stated: str, old: Optional[bytes]) -> bytes:
    """A line keeps its extension where its liabilities stay, which is so in all cases."""
    found = LINE.fullmatch(stated)
    assert found, stated
    fields = fields_of(found["numbers"].split())
    body = account_id(found["id"]) + line_asset(found["asset"] or "native")
    ext, liable = u32(0), i64(fields.get("buying", 0)) + i64(fields.get("selling", 0))
    if old is not None:
        at = 8 + len(body) + 20
        ext = extension_at(old, at)
    if ext != u32(0):
        assert ext[4:20] == liable, stated
    elif liable != bytes(16):
        ext = u32(1) + liable + u32(0)
    numbers = i64(fields.get("balance", 0)) + i64(fields.get("limit", 0)) + u32(fields.get("flags", 0))
    return u32(1) + u32(1) + body + numbers + ext + by(found["by"])


def extension_at(encoded: bytes, at: int) -> bytes:
    """The extension of a line: none, liabilities, or liabilities and a count of uses."""
    if encoded[at : at + 4] == u32(0):
        return u32(0)
    return encoded[at : at + (24 if encoded[at + 20 : at + 24] == u32(0) else 32)]


def offer(stated: str, old: Optional[bytes]) -> bytes:
    found = re.fullmatch(r"offer (.) (\d+)( by \w+)?", stated)
    assert found and old is not None, stated
    payer = 4 if old[-4:] == u32(0) and len(old) == OFFER_LENGTH else len(old) - OFFER_LENGTH + 4
    return old[:-payer] + by(found[3])


# of an offer without a sponsor, whose assets are native and of a code of four bytes
OFFER_LENGTH = 8 + 36 + 8 + 4 + 44 + 8 + 8 + 4 + 4 + 4


def data(stated: str) -> bytes:
    found = re.fullmatch(r"data (.) ( |\S+) (\S*?)( by \w+)?", stated)
    assert found, stated
    return u32(1) + u32(3) + account_id(found[1]) + var(found[2].encode()) + var(found[3].encode()) + u32(0) + by(found[4])


def balance(stated: str) -> bytes:
    found = re.fullmatch(r"balance (\S+) (\S+) (\d+)(?: flags (\d+))?((?: .:\S+)*)( by \w+)?", stated)
    assert found, stated
    ext = u32(1) + u32(0) + u32(found[4]) if found[4] else u32(0)
    claimants = many([claimant(it) for it in found[5].split()])
    return u32(1) + u32(4) + balance_id(found[1]) + claimants + line_asset(found[2]) + i64(found[3]) + ext + by(found[6])


def stated_entry(stated: str, before: Dict[Rank, bytes]) -> bytes:
    """The entry that is stated, where these exist before it."""
    kind = stated.split()[0]
    if kind in ("line", "offer"):
        plain = line(stated, None) if kind == "line" else ENTRIES["offer"](*stated.split()[1:3])
        return (line if kind == "line" else offer)(stated, before.get(rank_of_entry(plain)))
    return {"account": account, "data": data, "balance": balance}[kind](stated)


# ---- cases


def answer_of(stated: str) -> str:
    """What an operation answers, as the program says it."""
    found = re.fullmatch(r"op[A-Z_]+ (-\d+)", stated)
    if found:
        return f"operation {found[1]}"
    name, code, *rest = stated.split()
    if not rest:
        return f"{name} {code}"
    return f"{name} {code} {rest[1] if rest[0] == 'moved' else balance_id(rest[1])[4:].hex()}"


class Ledger:
    """What a case says before what is expected."""

    def __init__(self) -> None:
        self.base_reserve, self.seq, self.close = 5_000_000, 2, 0
        self.source, self.tx_seq, self.index = bytes(36), 0, 0
        self.open: List[Tuple[str, str]] = []
        self.entries: Dict[Rank, bytes] = {}

    def take(self, words: List[str]) -> None:
        if words[0] == "ledger":
            self.base_reserve, self.seq = int(words[1]), int(words[2])
        elif words[0] == "close":
            self.close = int(words[1])
        elif words[0] == "transaction":
            self.source, self.tx_seq, self.index = account_id(words[1]), int(words[2]), int(words[3])
        elif words[0] == "open":
            assert words[2] == "by", words
            self.open.append((words[1], words[3]))
        else:
            encoded = ENTRIES[words[0]](*words[1:])
            assert rank_of_entry(encoded) not in self.entries, words
            self.entries[rank_of_entry(encoded)] = encoded

    def encoded(self, source: bytes) -> bytes:
        ctx = u32(self.seq) + u32(self.base_reserve) + u64(self.close) + self.source + i64(self.tx_seq) + u32(self.index) + source
        return ctx + u32(len(self.open)) + encoded_open(self.open) + many([*self.entries.values()])


def encoded_open(sponsorships: List[Tuple[str, str]]) -> bytes:
    return b"".join(account_id(sponsored) + account_id(sponsor) for sponsored, sponsor in sponsorships)


def left_by(ledger: Ledger, expected: List[str]) -> bytes:
    """The open sponsorships and the entries that are left, by what is stated to have changed."""
    entries, sponsorships = dict(ledger.entries), ledger.open
    opened = [(it.split()[1], it.split()[3]) for it in expected if it.startswith("open ")]
    for it in expected:
        word, stated = it.split(" ", 1)
        if it == "none open" or word == "open":
            sponsorships = opened
            continue
        encoded = stated_entry(stated, ledger.entries)
        rank = rank_of_entry(encoded)
        assert (rank in ledger.entries) == (word != "new"), it
        if word == "gone":
            assert entries.pop(rank) == encoded, it
        else:
            assert word in ("new", "changed") and entries.get(rank) != encoded, it
            entries[rank] = encoded
    return encoded_open(sponsorships) + b"".join(entries[it] for it in sorted(entries))


def case_of(block: str) -> Case:
    lines = block.split("\n")
    expected = [it[2:] for it in lines if it.startswith("= ")]
    words = [it.split() for it in lines if not it.startswith("= ")]
    assert words[0][0] == "case" and words[-1][0] == "op", block
    ledger = Ledger()
    for it in words[1:-1]:
        ledger.take(it)
    _, source, name, *rest = words[-1]
    # (an operation without a source of its own)
    encoded = ledger.encoded(account_id(source)) + maybe(None) + OPERATIONS[name](*rest) + left_by(ledger, expected[1:])
    return Case(words[0][1], "operation", encoded, answer_of(expected[0]))


def cases() -> List[Case]:
    with open(f"{HERE}/operations.txt", encoding="utf-8") as file:
        return [case_of(block) for block in file.read().rstrip("\n").split("\n\n")]
