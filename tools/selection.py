"""Which entries and transactions are asked for: those of an account, of a ledger, of a type. Unproved."""

from __future__ import annotations

from typing import Any, Dict, List, NamedTuple, Optional

from bucket_file import Item
from xdr import Value

# the fields that are the bare key of an account; muxed ones and signers have such fields, too
KEY_FIELDS = ("ed25519", "sourceAccountEd25519", "sellerEd25519")


def names_key(value: Any, key: bytes) -> bool:
    """Whether a value names an account other than as the issuer of an asset."""
    if isinstance(value, dict):
        return any(name != "issuer" and is_or_names_key(name, field, key) for name, field in value.items())
    return isinstance(value, list) and any(names_key(item, key) for item in value)


def is_or_names_key(name: str, field: Any, key: bytes) -> bool:
    return field == key if name in KEY_FIELDS else names_key(field, key)


def inner_transaction(envelope: Value) -> Dict:
    """The transaction of an envelope that has operations: that inside of a fee bump, where it is one."""
    _, signed = envelope.values()
    tx = signed["tx"]
    return tx["innerTx"]["v1"]["tx"] if "innerTx" in tx else tx


def signatures_of(envelope: Value) -> List[Value]:
    """The signatures of an envelope, and those inside of a fee bump."""
    _, signed = envelope.values()
    inner = signed["tx"]["innerTx"]["v1"]["signatures"] if "innerTx" in signed["tx"] else []
    return signed["signatures"] + inner


def results_of(result: Value) -> List[Value]:
    """The results of the operations of a transaction, or of that inside of a fee bump; none where they didn't run."""
    _, *ran = result["result"].values()
    if ran and isinstance(ran[0], dict):
        return results_of(ran[0]["result"])
    return ran[0] if ran else []


class Selection(NamedTuple):
    """What is asked for; None where it may be any."""

    # the 32 bytes of an account's key
    account: Optional[bytes] = None
    ledger: Optional[int] = None
    # of an entry, or of an operation
    type: Optional[str] = None

    def has_item(self, item: Item) -> bool:
        """Whether an item of a bucket is asked for. META is where nothing is selected; DEAD is of no ledger."""
        if self == (None, None, None):
            return True
        name, body = item.value.values()
        if name == "METAENTRY":
            return False
        kind = body["type"] if name == "DEADENTRY" else body["data"]["type"]
        if self.type is not None and kind != self.type:
            return False
        if self.ledger is not None and body.get("lastModifiedLedgerSeq") != self.ledger:
            return False
        return self.account is None or self.account in item.data and names_key(body, self.account)

    def transactions(self, record: Value) -> Optional[List[Value]]:
        """The transactions of a record that are asked for; None where the record isn't."""
        if self.ledger is not None and record["ledgerSeq"] != self.ledger:
            return None
        txs = record["txSet"]["txs"]
        if self.account is None and self.type is None:
            return txs
        return [tx for tx in txs if self.has_transaction(tx)] or None

    def has_transaction(self, envelope: Value) -> bool:
        operations = inner_transaction(envelope)["operations"]
        if self.type is not None and all(operation["body"]["type"] != self.type for operation in operations):
            return False
        return self.account is None or names_key(envelope, self.account)

    def has_result(self, result: Value) -> bool:
        """Whether a transaction's result is asked for. One whose operations didn't run is of no type."""
        kinds = [list(ran["tr"].values())[0] for ran in results_of(result) if "tr" in ran]
        return (self.type is None or self.type in kinds) and (self.account is None or names_key(result, self.account))
