"""Repairs the sums of an image after a mutation: the order of items, owners, counts, liabilities, pools and lumens.

Without it nearly each change of an entry breaks one of the rules 4 to 13 of images (docs/FORMATS.md), and no record
after it is looked at. Works by the values and functions of the Python ledger of the tests. Python 3.9 or later and its
standard library.
"""

from __future__ import annotations

from typing import Any, Dict, List, Optional, Tuple

import fuzz_paths  # noqa: F401
import entry_model as entries
import ledger_model as model
import offer_model as offers
from fuzz_parts import File, Parts

Rank = Tuple[Any, ...]
Entry = Dict[str, Any]
META_18 = model.ITEM.write((model.META, {"version": 18, "ext": (0, None)}))


class Entries:
    """The entries that the files of an image represent, with the arm and the file of each."""

    def __init__(self, files: List[File]) -> None:
        self.seen: Dict[Rank, Entry] = {}
        self.rows: List[Dict[Rank, Tuple[int, Any]]] = []
        newest: Dict[Rank, int] = {}
        for file in files:
            rows: Dict[Rank, Tuple[int, Any]] = {}
            for item in file.items:
                arm, value = model.read_entire(model.ITEM, item)
                if arm == model.META:
                    continue
                rank = model.rank_of_key(value if arm == model.DEAD else model.key_of(value))
                newer, is_dead = newest.get(rank), arm == model.DEAD
                if rank in rows or newer is not None and is_dead != (newer == model.INIT):
                    continue
                if newer is None and arm != model.DEAD:
                    self.seen[rank] = value
                rows[rank] = arm, value
            newest.update((rank, arm) for rank, (arm, _) in rows.items())
            self.rows.append(rows)

    def drop(self, rank: Rank) -> None:
        del self.seen[rank]
        for rows in self.rows:
            rows.pop(rank, None)

    def body(self, rank: Rank) -> Entry:
        return self.seen[rank]["body"][1]

    def set_body(self, rank: Rank, body: Entry) -> None:
        self.seen[rank] = {**self.seen[rank], "body": (rank[0], body)}

    def ranks(self, kind: int) -> List[Rank]:
        return sorted(rank for rank in self.seen if rank[0] == kind)

    def files(self, old: List[File]) -> List[File]:
        """The files again, in order, of these entries."""
        made, placed = [], set()
        for file, rows in zip(old, self.rows):
            items = [item for item in file.items[:1] if item[:4] == META_18[:4]] or [META_18]
            for rank in sorted(rows):
                arm, value = rows[rank]
                if arm != model.DEAD and rank not in placed:
                    value = self.seen.get(rank, value)
                placed.add(rank)
                items.append(model.ITEM.write((arm, value)))
            made.append(File(items if rows or file.items else [], file.rest))
        return made


def owner_of(entry: Entry) -> Optional[bytes]:
    kind, body = entry["body"]
    return None if kind in (4, 5) else body["seller" if kind == 2 else "id"][1]


def needed_by(kept: Entries, entry: Entry) -> List[Rank]:
    """The entries without which an entry can't exist."""
    (kind, body), name = entry["body"], owner_of(entry)
    needed: List[Rank] = [] if name is None else [entries.account_key(name)]
    if kind == 2:
        needed += [rank for rank in offers.holders(body) if rank is not None]
    if kind == 1 and body["asset"][0] == 3:
        pool = (5, body["asset"][1])
        needed.append(pool)
        if pool in kept.seen:
            sides = kept.body(pool)["body"][1]
            needed += [rank for rank in (offers.holder(name, sides[side]) for side in "ab") if rank is not None]
    return needed


def drop_orphans(kept: Entries) -> None:
    """Drops what has no owner, and sponsors that don't exist."""
    is_changed = True
    while is_changed:
        is_changed = False
        for rank, entry in sorted(kept.seen.items(), key=lambda pair: pair[0]):
            is_bare = rank[0] == 2 and min(entry["body"][1]["amount"], *entry["body"][1]["price"].values()) < 1
            if is_bare or any(other not in kept.seen for other in needed_by(kept, entry)):
                kept.drop(rank)
                is_changed = True
    for rank, entry in kept.seen.items():
        payer = model.sponsor_of(entry)
        if payer is not None and (entries.account_key(payer) not in kept.seen or payer == owner_of(entry)):
            kept.seen[rank] = model.with_sponsor(entry, None)
    for rank in kept.ranks(0):
        account = kept.body(rank)
        said = model.second(account)
        rows = (said["sponsors"] + [None] * 20)[:len(account["signers"])]
        payers = [row for row in rows if row and entries.account_key(row[1]) in kept.seen and row != account["id"]]
        rows = [row if row in payers else None for row in rows]
        if rows != said["sponsors"]:
            kept.set_body(rank, model.with_second(account, {**said, "sponsors": rows}))


def with_owed(body: Entry, owed: List[int]) -> Entry:
    """An account or a line with these liabilities, of selling and of buying."""
    arm, ext = body["ext"]
    if not arm and not any(owed):
        return body
    said = {"buying": owed[1], "selling": owed[0]}
    return {**body, "ext": (1, {"liabilities": said, "ext": ext["ext"] if arm else (0, None)})}


def set_liabilities(kept: Entries) -> None:
    owed: Dict[Rank, List[int]] = {}
    for rank in kept.ranks(2):
        offer = kept.body(rank)
        for side, (holder, amount) in enumerate(zip(offers.holders(offer), offers.bound(offer))):
            if holder is not None:
                owed.setdefault(holder, [0, 0])[side] += amount
    for rank in kept.ranks(0) + kept.ranks(1):
        kept.set_body(rank, with_owed(kept.body(rank), owed.get(rank, [0, 0])))


def set_pools(kept: Entries) -> None:
    """Sets the shares and lines of pools, and the uses of lines, by the lines of shares."""
    shares, lines, uses = {}, {}, {}
    for rank in kept.ranks(1):
        line = kept.body(rank)
        if line["asset"][0] == 3:
            name = line["asset"][1]
            shares[name], lines[name] = shares.get(name, 0) + line["balance"], lines.get(name, 0) + 1
            sides = kept.body((5, name))["body"][1]
            for holder in (offers.holder(rank[1], sides[side]) for side in "ab"):
                if holder is not None:
                    uses[holder] = uses.get(holder, 0) + 1
    for rank in kept.ranks(5):
        pool = kept.body(rank)
        sums = {"shares": shares.get(rank[1], 0), "lines": lines.get(rank[1], 0)}
        kept.set_body(rank, {**pool, "body": (0, {**pool["body"][1], **sums})})
    for rank in kept.ranks(1):
        line = kept.body(rank)
        if uses.get(rank, 0) != model.assets.uses_of(line):
            more = {"liabilities": model.liabilities(line), "ext": (2, {"uses": uses.get(rank, 0), "ext": (0, None)})}
            kept.set_body(rank, {**line, "ext": (1, more)})


def set_counts(kept: Entries) -> None:
    """Sets the numbers of subentries and of reserves of accounts."""
    accounts = {rank[1]: kept.body(rank) for rank in kept.ranks(0)}
    counts = model.Counts(accounts)
    for entry in kept.seen.values():
        counts.add_entry(entry)
    for name, account in accounts.items():
        said = model.second(account)
        new = {**said, "sponsored": counts.sponsored[name], "sponsoring": counts.sponsoring[name]}
        account = {**account, "subs": counts.subs[name]}
        kept.set_body(entries.account_key(name), account if new == said else model.with_second(account, new))


def set_dates(kept: Entries, header: Entry) -> None:
    """Has accounts say nothing of their sequence numbers that is later than the header, or under protocol 18."""
    latest = {"ledger": header["seq"], "time": header["value"]["time"]}
    for rank in kept.ranks(0):
        account = kept.body(rank)
        said = model.second(account)
        arm, dated = said["ext"]
        if arm:
            dated = {**dated, **{name: min(dated[name], latest[name]) for name in latest}}
            new = (3, dated) if header["version"] >= 19 else (0, None)
            kept.set_body(rank, model.with_second(account, {**said, "ext": new}))


def lumens(kept: Entries) -> int:
    total = sum(kept.body(rank)["balance"] for rank in kept.ranks(0))
    total += sum(kept.body(rank)["amount"] for rank in kept.ranks(4) if kept.body(rank)["asset"] == model.assets.NATIVE)
    pools = [kept.body(rank)["body"][1] for rank in kept.ranks(5)]
    return total + sum(pool[f"reserve_{side}"] for pool in pools for side in "ab" if pool[side] == model.assets.NATIVE)


def repair_sums(parts: Parts) -> None:
    """Repairs the sums of an image, in its files and its header, where its values allow it; nothing else."""
    try:
        header = model.read_entire(model.HEADER, parts.header[0])
        kept = Entries(parts.files)
        drop_orphans(kept)
        set_liabilities(kept)
        set_pools(kept)
        set_counts(kept)
        set_dates(kept, header)
        ids = max([header["ids"], *(kept.body(rank)["offer"] for rank in kept.ranks(2))])
        header.update(coins=lumens(kept) + header["pool"], ids=ids)
        files, data = kept.files(parts.files), model.HEADER.write(header)
    except (model.Wrong, model.BadImage, ValueError, IndexError, KeyError):
        # an item that doesn't read, or a sum that its field can't hold
        return
    parts.files, parts.header[0] = files, data
