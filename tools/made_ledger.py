"""A start image made from the start of a description: all that the rules of images ask for is worked out here.

These are liabilities, numbers of subentries, ids of offers, all lumens, the hash of the bucket list, and the header.
The entries are in the curr of level 0, as the start's ledger made them. No entry has a sponsor. Unproved.
"""

from __future__ import annotations

from collections import Counter
from typing import Any, Dict, List, Optional, Tuple

from bucket_file import asset_rank, rank_of
from description import Node
from description_names import NATIVE, account_id, issuer_of
from description_values import GREATEST, amount_text
from hash_x import hash_x_signer
from image_bytes import NO_HASH, bucket_list_hash, image_bytes, marked
from python_ledger import liabilities_of
from start_description import Account, Offer, Start, TrustLine
from stellar_xdr import BUCKET_ENTRY, LEDGER_HEADER
from xdr import Value, write

VERSION, MOST_SUBENTRIES = 18, 1000
NO_EXT: Value = {"v": 0}
# where an account has an asset: its key, and the asset as what orders it
Holding = Tuple[bytes, Tuple[Any, ...]]


class Liabilities:
    """What the offers of the start may have to give and may take in, by where their sellers have it; in units of
    10^-7."""

    def __init__(self, start: Start) -> None:
        self.selling: Counter = Counter()
        self.buying: Counter = Counter()
        lines = {(line.key, asset_rank(line.asset)): line for line in start.trust_lines}
        accounts = {account.key for account in start.accounts}
        for offer in start.offers:
            if offer.seller not in accounts:
                raise offer.node.fault_at("seller", "there is no such account")
            selling, buying = liabilities_of(offer.price, offer.amount)
            if min(selling, buying) < 1:
                raise offer.node.fault("so small an amount yields nothing at this price")
            for side, asset, amount, sums in (
                ("selling", offer.selling, selling, self.selling), ("buying", offer.buying, buying, self.buying),
            ):
                held = self.holding(offer, side, asset, lines)
                if held is not None:
                    sums[held] += amount

    @staticmethod
    def holding(offer: Offer, side: str, asset: Value, lines: Dict[Holding, TrustLine]) -> Optional[Holding]:
        """Where the seller has an asset; nowhere where it issues it. Raises FileFault where it has no line, or one that
        isn't authorised."""
        if issuer_of(asset) == offer.seller:
            return None
        held = offer.seller, asset_rank(asset)
        if asset != NATIVE and held not in lines:
            raise offer.node.fault_at(side, "the seller has no trust line in this asset")
        if asset != NATIVE and not lines[held].flags & 3:
            raise offer.node.fault_at(side, "the seller's trust line isn't authorised")
        return held

    def extension(self, node: Node, held: Holding, balance: int, limit: int) -> Value:
        """The extension of an account or a line, which has none where no offer binds it. Raises FileFault where offers
        sell more than there is, or buy more than fits."""
        selling, buying = self.selling[held], self.buying[held]
        if selling > balance:
            raise node.fault(f"its offers sell {amount_text(selling)}, above its balance of {amount_text(balance)}")
        if balance + buying > limit:
            bought = amount_text(buying)
            raise node.fault(f"its balance and what its offers buy, {bought}, are above {amount_text(limit)}")
        if not (selling or buying):
            return NO_EXT
        return {"v": 1, "v1": {"liabilities": {"buying": buying, "selling": selling}, "ext": NO_EXT}}


def account_body(account: Account, subentries: int, owed: Liabilities) -> Value:
    """An account's body. `subentries` are its trust lines and offers. Raises FileFault."""
    signers = [] if account.secret is None else [hash_x_signer(account.secret, 1)]
    subentries += len(signers)
    if subentries > MOST_SUBENTRIES:
        raise account.node.fault(f"{subentries} trust lines, offers and signers, above {MOST_SUBENTRIES}")
    return {"type": "ACCOUNT", "account": {
        "accountID": account_id(account.key), "balance": account.balance, "seqNum": account.seq_num,
        "numSubEntries": subentries, "inflationDest": None, "flags": account.flags,
        "homeDomain": account.home_domain, "thresholds": account.thresholds, "signers": signers,
        "ext": owed.extension(account.node, (account.key, asset_rank(NATIVE)), account.balance, GREATEST),
    }}


def trust_line_body(line: TrustLine, owed: Liabilities) -> Value:
    return {"type": "TRUSTLINE", "trustLine": {
        "accountID": account_id(line.key), "asset": line.asset, "balance": line.balance, "limit": line.limit,
        "flags": line.flags,
        "ext": owed.extension(line.node, (line.key, asset_rank(line.asset)), line.balance, line.limit),
    }}


def offer_body(offer: Offer, number: int) -> Value:
    return {"type": "OFFER", "offer": {
        "sellerID": account_id(offer.seller), "offerID": number, "selling": offer.selling, "buying": offer.buying,
        "amount": offer.amount, "price": offer.price, "flags": offer.flags, "ext": NO_EXT,
    }}


def bodies_of(start: Start) -> List[Value]:
    """The bodies of all entries. Raises FileFault for a line that is there twice or whose account isn't there, and for
    offers that bind what their sellers don't have."""
    accounts = {account.key for account in start.accounts}
    lines: Counter = Counter()
    for line in start.trust_lines:
        lines[line.key, asset_rank(line.asset)] += 1
        if line.key not in accounts:
            raise line.node.fault_at("account", "there is no such account")
        if lines[line.key, asset_rank(line.asset)] > 1:
            raise line.node.fault("the account has another trust line in this asset")
    owed = Liabilities(start)
    subentries = Counter([line.key for line in start.trust_lines] + [offer.seller for offer in start.offers])
    return [
        *(account_body(account, subentries[account.key], owed) for account in start.accounts),
        *(trust_line_body(line, owed) for line in start.trust_lines),
        *(offer_body(offer, index + 1) for index, offer in enumerate(start.offers)),
    ]


def bucket_of(start: Start) -> bytes:
    """The file of a bucket that has all entries, in the order of their keys."""
    items = [
        {"type": "INITENTRY", "liveEntry": {"lastModifiedLedgerSeq": start.ledger_seq, "data": body, "ext": NO_EXT}}
        for body in bodies_of(start)
    ]
    meta = {"type": "METAENTRY", "metaEntry": {"ledgerVersion": VERSION, "ext": NO_EXT}}
    return b"".join(marked(write(BUCKET_ENTRY, item)) for item in [meta, *sorted(items, key=rank_of)])


def header_of(start: Start, bucket: bytes) -> Value:
    """The header. Raises FileFault where all lumens don't fit 63 bits."""
    coins = start.fee_pool + sum(account.balance for account in start.accounts)
    if coins > GREATEST:
        raise start.node.fault_at("accounts", f"all lumens, {amount_text(coins)}, are above {amount_text(GREATEST)}")
    value = {"txSetHash": NO_HASH, "closeTime": start.close_time, "upgrades": [], "ext": {"v": "STELLAR_VALUE_BASIC"}}
    return {
        "ledgerVersion": VERSION, "previousLedgerHash": NO_HASH, "scpValue": value, "txSetResultHash": NO_HASH,
        "bucketListHash": bucket_list_hash(bucket), "ledgerSeq": start.ledger_seq, "totalCoins": coins,
        "feePool": start.fee_pool, "inflationSeq": 0, "idPool": len(start.offers), "baseFee": start.base_fee,
        "baseReserve": start.base_reserve, "maxTxSetSize": start.max_tx_set_size, "skipList": [NO_HASH] * 4,
        "ext": NO_EXT,
    }


def made_image(start: Start) -> bytes:
    """The start image. Raises FileFault for what no ledger can have."""
    bucket = bucket_of(start)
    return image_bytes(write(LEDGER_HEADER, header_of(start, bucket)), [bucket])
