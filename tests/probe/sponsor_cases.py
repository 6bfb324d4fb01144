"""Cases of entries and signers that are added, moved to other payers and removed, each step a case of its own.

What is expected is in sponsorships.txt beside this script, worked out by hand from CAP-0033: after the name of a step what it
answers, and in stories what is counted then for the owner, the sponsor and the other payer: subentries, reserves that the
account pays as a sponsor, and its own reserves that others pay; and a line each signer with its payer. The ledgers here follow from
it: what each step counts is compared with the table as they are written.

Stellar-ledger-entries.x of protocol 18, over RFC 4506. Python 3.9 or later and its standard library.
"""

import os
import re
from typing import Dict, List, NamedTuple, Optional, Tuple

from operation_cases import Case, rank_of_entry
from xdr_words import i32, i64, many, maybe, u32, u64, var

HERE = os.path.dirname(os.path.abspath(__file__))
NAMES = {"owner": 1, "sponsor": 2, "other": 3, "new": 4}
MOST = 2**32 - 1


def account_id(name: str) -> bytes:
    return u32(0) + bytes([NAMES[name]] * 32)


# ---- things: an entry between its ledger and its extension, its key, who adds it, and how often it counts: as subentries
# of its owner, and as reserves

DOLLARS = u32(1) + b"USD\0" + account_id("other")
SHARES = u32(3) + bytes([8] * 32)
NATIVE = u32(0)


class Thing(NamedTuple):
    body: bytes
    key: bytes
    owner: str
    subentries: int
    reserves: int


def line(asset: bytes, count: int) -> Thing:
    body = u32(1) + account_id("owner") + asset + i64(0) + i64(1) + u32(1) + u32(0)
    return Thing(body, u32(1) + account_id("owner") + asset, "owner", count, count)


def claimant(name: str) -> bytes:
    return u32(0) + account_id(name) + u32(0)


OFFER = u32(2) + account_id("owner") + i64(1) + NATIVE + DOLLARS + i64(1) + i32(1) + i32(1) + u32(0) + u32(0)
DATA = u32(3) + account_id("owner") + var(b"name") + var(b"") + u32(0)
CLAIMANTS = many([claimant("other"), claimant("new")])
BALANCE = u32(4) + u32(0) + bytes([9] * 32) + CLAIMANTS + NATIVE + i64(1) + u32(0)
POOL = u32(5) + bytes([8] * 32) + u32(0) + NATIVE + DOLLARS + i32(30) + i64(0) + i64(0) + i64(0) + i64(0)

THINGS = {
    "Line": line(DOLLARS, 1),
    "ShareLine": line(SHARES, 2),
    "Offer": Thing(OFFER, u32(2) + account_id("owner") + i64(1), "owner", 1, 1),
    "Data": Thing(DATA, u32(3) + account_id("owner") + var(b"name"), "owner", 1, 1),
    "Account": Thing(b"", u32(0) + account_id("new"), "new", 0, 2),
    "Balance": Thing(BALANCE, u32(4) + u32(0) + bytes([9] * 32), "owner", 0, 2),
    "Pool": Thing(POOL, u32(5) + bytes([8] * 32), "owner", 0, 0),
}


# ---- ledgers


class Account:
    """What an account has; its extension for counts exists from its first count of sponsorship on."""

    def __init__(self, balance: int, subentries: int = 0, sponsoring: int = 0):
        self.balance, self.subentries, self.sponsoring, self.sponsored = balance, subentries, sponsoring, 0
        self.is_extended = sponsoring > 0
        self.signers: List[Tuple[bytes, Optional[str]]] = []

    def counts(self) -> Tuple[int, int, int]:
        return self.subentries, self.sponsoring, self.sponsored

    def sponsor(self, more: int) -> None:
        self.sponsoring += more
        self.is_extended = True

    def be_sponsored(self, more: int) -> None:
        self.sponsored += more
        self.is_extended = True

    def body(self, name: str) -> bytes:
        signers = many([signer + u32(1) for signer, _ in self.signers])
        core = i64(self.balance) + i64(0) + u32(self.subentries) + u32(0) + u32(0) + var(b"") + bytes([1, 0, 0, 0]) + signers
        if not self.is_extended:
            return u32(0) + account_id(name) + core + u32(0)
        sponsors = many([maybe(account_id(sponsor) if sponsor else None) for _, sponsor in self.signers])
        counts = u32(self.sponsored) + u32(self.sponsoring) + sponsors
        return u32(0) + account_id(name) + core + u32(1) + i64(0) + i64(0) + u32(2) + counts + u32(0)


class Ledger:
    """Accounts and things, each with the extension for its sponsor, and the open sponsorships."""

    def __init__(self, **accounts: Account):
        self.accounts: Dict[str, Account] = accounts
        self.payers: Dict[str, Optional[str]] = {}
        self.open: List[Tuple[str, str]] = []
        self.things: Dict[str, Optional[str]] = {}
        self.is_recorded: Dict[str, bool] = {}

    def entry(self, name: str, body: bytes) -> bytes:
        payer = self.things.get(name)
        ext = u32(1) + maybe(account_id(payer) if payer else None) + u32(0) if self.is_recorded.get(name) else u32(0)
        return u32(1) + body + ext

    def entries(self) -> List[bytes]:
        found = [self.entry("Account" if it == "new" else "", self.accounts[it].body(it)) for it in self.accounts]
        found += [self.entry(it, THINGS[it].body) for it in self.things if it != "Account"]
        return sorted(found, key=rank_of_entry)

    def encoded_open(self) -> bytes:
        return b"".join(account_id(sponsored) + account_id(sponsor) for sponsored, sponsor in self.open)

    def encoded(self) -> bytes:
        """What is applied in, half a lumen for each reserve, and the entries."""
        ctx = u32(3) + u32(5_000_000) + u64(0) + account_id("owner") + i64(0) + u32(0) + account_id("owner")
        return ctx + u32(len(self.open)) + self.encoded_open() + many(self.entries())

    def left(self) -> bytes:
        return self.encoded_open() + b"".join(self.entries())

    def payer_of(self, owner: str) -> Optional[str]:
        return dict(self.open).get(owner)

    def pay(self, owner: Optional[str], old: Optional[str], new: Optional[str], count: int) -> None:
        """Another one pays; an owner, where there is one, counts what others pay for it."""
        if old:
            self.accounts[old].sponsor(-count)
        if new:
            self.accounts[new].sponsor(count)
        if owner and bool(old) != bool(new):
            self.accounts[owner].be_sponsored(count if new else -count)

    def add(self, name: str, balance: int = 20_000_000) -> None:
        thing = THINGS[name]
        if name == "Account":
            self.accounts["new"] = Account(balance)
        payer = self.payer_of(thing.owner) if thing.reserves else None
        self.accounts[thing.owner].subentries += thing.subentries
        if name == "Balance":
            self.pay(None, None, payer or thing.owner, thing.reserves)
        elif thing.reserves:
            self.pay(thing.owner, None, payer, thing.reserves)
        self.things[name] = (payer or thing.owner) if name == "Balance" else payer
        self.is_recorded[name] = self.things[name] is not None

    def move(self, name: str, payer: Optional[str]) -> None:
        thing, old = THINGS[name], self.things[name]
        if name == "Pool" or (name == "Balance" and payer is None) or (old is None and payer is None):
            return
        self.pay(None if name == "Balance" else thing.owner, old, payer, thing.reserves)
        self.things[name] = payer
        self.is_recorded[name] = True

    def remove(self, name: str) -> None:
        thing, payer = THINGS[name], self.things.pop(name)
        del self.is_recorded[name]
        self.accounts[thing.owner].subentries -= thing.subentries
        self.pay(None if name == "Balance" else thing.owner, payer, None, thing.reserves)
        if name == "Account":
            del self.accounts["new"]

    def index_of(self, signer: bytes) -> Optional[int]:
        return next((at for at, it in enumerate(self.accounts["owner"].signers) if it[0] == signer), None)

    def add_signer(self, signer: bytes) -> None:
        owner, payer = self.accounts["owner"], self.payer_of("owner")
        owner.subentries += 1
        self.pay("owner", None, payer, 1)
        owner.signers = sorted(owner.signers + [(signer, payer)])

    def move_signer(self, signer: bytes, payer: Optional[str]) -> None:
        owner, at = self.accounts["owner"], self.index_of(signer)
        assert at is not None
        if owner.signers[at][1] or payer:
            self.pay("owner", owner.signers[at][1], payer, 1)
            owner.signers[at] = (signer, payer)

    def remove_signer(self, signer: bytes) -> None:
        owner, at = self.accounts["owner"], self.index_of(signer)
        if at is not None:
            self.pay("owner", owner.signers[at][1], None, 1)
            owner.signers.pop(at)
            owner.subentries -= 1


# ---- the table that was worked out by hand


class Row(NamedTuple):
    name: str
    answer: str
    counts: List[Tuple[int, ...]]
    signers: List[str]


ROW = re.compile(r"(.*): (?:Ok\(\(\)\)|Err\((\w+)\))((?: \(\d+, \d+, \d+\))*)")


def table() -> List[Row]:
    rows: List[Row] = []
    with open(f"{HERE}/sponsorships.txt", encoding="utf-8") as file:
        for text in file.read().splitlines():
            if text.startswith("  "):
                rows[-1].signers.append(text.split(": ")[1])
                continue
            found = ROW.fullmatch(text)
            assert found, text
            counts = [tuple(map(int, it.split(", "))) for it in re.findall(r"\((.*?)\)", found[3])]
            rows.append(Row(found[1], found[2] or "done", counts, []))
    return rows


class Story:
    """Cases with the rows of the table that are expected of them, in its order."""

    def __init__(self) -> None:
        self.rows = table()
        self.cases: List[Case] = []

    def step(self, name: str, ledger: Ledger, made: str, arguments: bytes, change, owner: str = "owner") -> None:
        """A step from a ledger, which it changes where the table says that it is made."""
        row = self.rows[len(self.cases)]
        assert row.name == name, (row.name, name)
        before = ledger.encoded()
        if row.answer == "done":
            change()
        if row.counts:
            accounts = [ledger.accounts.get(it) for it in (owner, "sponsor", "other")]
            assert [it.counts() if it else (0, 0, 0) for it in accounts] == row.counts, (name, row)
        found = [f"{SIGNERS[signer]}, paid by {PAYERS[payer]}" for signer, payer in ledger.accounts["owner"].signers]
        assert not row.counts or owner == "new" or found == row.signers, (name, found)
        words = re.findall(r"[a-z_]+|[A-Z][a-z]+|\d+", name)
        word = "_".join(it.lower() for it in words)
        self.cases.append(Case(f"{word}_{len(self.cases)}", made, before + arguments + ledger.left(), row.answer))

    def add(self, text: str, ledger: Ledger, name: str, balance: int = 20_000_000) -> None:
        entry = u32(1) + (Account(balance).body("new") if name == "Account" else THINGS[name].body) + u32(0)
        owner = THINGS[name].owner
        self.step(text, ledger, "add", terms(owner) + entry, lambda: ledger.add(name, balance), owner)

    def move(self, text: str, ledger: Ledger, name: str, payer: Optional[str]) -> None:
        encoded = terms("owner", payer) + THINGS[name].key
        self.step(text, ledger, "move", encoded, lambda: ledger.move(name, payer), THINGS[name].owner)

    def remove(self, text: str, ledger: Ledger, name: str) -> None:
        encoded = terms("owner") + THINGS[name].key
        self.step(text, ledger, "remove", encoded, lambda: ledger.remove(name), THINGS[name].owner)

    def signer(self, text: str, ledger: Ledger, made: str, signer: bytes, payer: Optional[str] = None) -> None:
        """A signer is added, moved or removed."""
        change = {"add_signer": ledger.add_signer, "move_signer": lambda it: ledger.move_signer(it, payer)}
        encoded = terms("owner", payer, signer)
        self.step(text, ledger, made, encoded, lambda: change.get(made, ledger.remove_signer)(signer))


def terms(account: str, payer: Optional[str] = None, signer: bytes = u32(0) + bytes(32)) -> bytes:
    """What all changes say: whose thing is added or whose signer changes, who pays then, and the signer."""
    return account_id(account) + maybe(account_id(payer) if payer else None) + signer


# what is open where the sponsor pays: for the owner and for the new account
OPEN = [("new", "sponsor"), ("owner", "sponsor")]


def three() -> Ledger:
    """Three accounts with ten lumens each."""
    return Ledger(**{name: Account(100_000_000) for name in ("owner", "sponsor", "other")})


def things(story: Story) -> None:
    """Each thing is added alone, and added where the sponsor pays, moved and removed."""
    for name in THINGS:
        ledger = three()
        story.add(f"{name} AddedAlone", ledger, name)
        story.remove(f"{name} Removed", ledger, name)
        ledger.open = OPEN
        story.add(f"{name} AddedSponsored", ledger, name)
        story.move(f"{name} MovedToOther", ledger, name, "other")
        story.move(f"{name} MovedToOwner", ledger, name, None)
        ledger.open = []
        story.remove(f"{name} Removed", ledger, name)


# ---- faults: which is answered, and which comes first where several tests hold

NONE, ENOUGH = (0,), (1_000_000_000,)


def fields(of: Tuple[int, ...]) -> str:
    balance, subentries, sponsoring = (*of, 0, 0)[:3]
    return f"{{ balance: {balance}, sub_entries: {subentries}, sponsoring: {sponsoring} }}"


def owners(story: Story) -> None:
    """An owner pays for its data and its share lines. 1000 subentries are the most, whatever else is short."""
    data = [
        (0, 1000, MOST), (10_000_000_000, 1000), (5_010_000_000, 999), (0, 999, 4_294_966_296), (0, 999, 4_294_966_295),
        (15_000_000, 1), (19_999_999, 1), (20_000_000, 1),
    ]
    shares = [(0, 999), (5_010_000_000, 998), (19_999_999,), (20_000_000,)]
    for name, of in [*(("Data", it) for it in data), *(("ShareLine", it) for it in shares)]:
        story.add(f"{name} of {fields(of)}", Ledger(owner=Account(*of), sponsor=Account(*NONE)), name)


def paid(story: Story, name: str, owner: Tuple[int, ...], sponsor: Tuple[int, ...]) -> None:
    ledger = Ledger(owner=Account(*owner), sponsor=Account(*sponsor))
    ledger.open = OPEN
    story.add(f"{name} of {fields(owner)}, paid by {fields(sponsor)}", ledger, name)


def sponsors(story: Story) -> None:
    """A sponsor pays for its owner's data, and for each kind of thing as often as that counts."""
    for owner, sponsor in [
        ((0, 1000), ENOUGH), ((0, 0, MOST), ENOUGH), (NONE, (0, 0, MOST)), (NONE, (0, 0, MOST - 1)),
        (NONE, (14_999_999,)), (NONE, (15_000_000,)), (NONE, (24_999_999, 1, 1)), (NONE, (25_000_000, 1, 1)),
    ]:
        paid(story, "Data", owner, sponsor)
    for name, enough in [
        ("Account", 20_000_000), ("Line", 15_000_000), ("ShareLine", 20_000_000), ("Offer", 15_000_000), ("Balance", 20_000_000),
    ]:
        paid(story, name, NONE, (enough,))
        paid(story, name, NONE, (enough - 1,))


def new_accounts(story: Story) -> None:
    """A new account without sponsor pays out of its own balance."""
    for balance in (9_999_999, 10_000_000):
        story.add(f"a new account with {balance}", Ledger(owner=Account(0)), "Account", balance)


def new_signers(story: Story) -> None:
    """A signer is a subentry and takes a reserve."""
    for of in [(10_000_000_000, 1000), (5_010_000_000, 999), (14_999_999,), (15_000_000,)]:
        story.signer(f"a signer of {fields(of)}", Ledger(owner=Account(*of)), "add_signer", LOW)


def moved(story: Story, text: str, owner: Tuple[int, ...], other: Tuple[int, ...], payer: Optional[str]) -> None:
    """The owner's data, for which the sponsor pays, is moved."""
    ledger = Ledger(owner=Account(*owner), sponsor=Account(*ENOUGH), other=Account(*other))
    ledger.open = OPEN
    ledger.add("Data")
    story.move(text, ledger, "Data", payer)


def moves(story: Story) -> None:
    """The new payer alone is tested where something moves. The sponsor pays for the data, so the owner keeps 10,000,000 until it
    moves."""
    for of in [(14_999_999,), (0, 0, MOST), (0, 0, MOST - 1), (15_000_000,)]:
        moved(story, f"data moved to {fields(of)}", NONE, of, "other")
    for of in [(14_999_999,), (15_000_000,)]:
        moved(story, f"data moved to its owner with {fields(of)}", of, of, None)
    # (the owner's count of subentries isn't asked for)
    stays = Ledger(owner=Account(*NONE))
    stays.things["Data"] = None
    story.move(f"data that its owner pays for, moved to its owner with {fields(NONE)}", stays, "Data", None)


# ---- signers: they are in the order of their keys with their sponsors, one moves to other payers and back, and a pre-authorised
# one goes with its transaction

LOW, HIGH = (u32(2) + bytes([it] * 32) for it in (5, 6))
PREAUTH, ANOTHER = (u32(1) + bytes([it] * 32) for it in (7, 8))
SIGNERS = {LOW: "low", HIGH: "high", PREAUTH: "preauth"}
PAYERS = {None: "nobody", "sponsor": "the sponsor", "other": "the other payer"}


def signers(story: Story) -> None:
    ledger = three()
    story.signer("HighAddedAlone", ledger, "add_signer", HIGH)
    ledger.open = OPEN
    story.signer("LowAddedSponsored", ledger, "add_signer", LOW)
    ledger.open = []
    story.signer("LowRemoved", ledger, "remove_signer", LOW)
    story.signer("HighRemoved", ledger, "remove_signer", HIGH)
    story.signer("LowAddedAlone", ledger, "add_signer", LOW)
    story.signer("LowMovedToOther", ledger, "move_signer", LOW, "other")
    story.signer("LowMovedToSponsor", ledger, "move_signer", LOW, "sponsor")
    story.signer("LowMovedToOwner", ledger, "move_signer", LOW)
    story.signer("LowMovedToOwner", ledger, "move_signer", LOW)
    story.signer("LowRemoved", ledger, "remove_signer", LOW)
    ledger.open = OPEN
    story.signer("PreauthAddedSponsored", ledger, "add_signer", PREAUTH)
    ledger.open = []
    story.signer("PreauthOfAnotherRemoved", ledger, "remove_preauth", ANOTHER)
    story.signer("PreauthRemoved", ledger, "remove_preauth", PREAUTH)


def cases() -> List[Case]:
    story = Story()
    for part in (things, owners, sponsors, new_accounts, new_signers, moves, signers):
        part(story)
    assert len(story.cases) == len(story.rows)
    return story.cases
