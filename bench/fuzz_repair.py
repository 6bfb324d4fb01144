"""Repairs the hashes and the chain of an input after a mutation, so that the mutation gets past the first tests.

The hash of the levels is that of the files; each record's set follows the header before it, as the Python ledger of the
tests closes it, and its value has the set's hash. Where it is asked for, a record is of the next ledger and of a later
time, and transactions have the next numbers of their sources, enough fee, and the signatures whose pre-images are
known, or that are vouched for in a record of form 2. Records after one that is refused stay as they are. Python 3.9 or
later and its standard library.
"""

from __future__ import annotations

import hashlib
from dataclasses import dataclass, field
from random import Random
from typing import Any, Dict, List, Optional, Tuple

import fuzz_paths  # noqa: F401
import ledger_model as model
from fuzz_parts import Parts
from fuzz_sums import repair_sums
from fuzz_values import places
from fuzz_vouches import Signer, repair_vouches, signer_of
from image_bytes import NO_HASH
from set_cases import secret_of
from stellar_xdr import RECORD, SIGNATURES, TRANSACTION_ENVELOPE
from xdr import Value, XdrFault, read_entire, write


# operations that need the high threshold, and that need but the low one
HIGH = {"ACCOUNT_MERGE", "SET_OPTIONS"}
LOW = {"ALLOW_TRUST", "INFLATION", "BUMP_SEQUENCE", "CLAIM_CLAIMABLE_BALANCE", "SET_TRUST_LINE_FLAGS"}


def sha256(data: bytes) -> bytes:
    return hashlib.sha256(data).digest()


@dataclass
class Extent:
    """What is repaired: hashes at all, sums of the image, numbers of ledgers and times, and of transactions their
    numbers and signatures."""

    hashes: bool = True
    sums: bool = True
    turns: bool = True
    numbers: bool = True
    signatures: bool = True
    # pre-images by their hashes
    known: Dict[bytes, bytes] = field(default_factory=dict)

    @property
    def name(self) -> str:
        if not self.hashes:
            return "nothing repaired"
        return "hashes and sums repaired" if self.sums else "hashes repaired"


def drawn_extent(rng: Random) -> Extent:
    """About a sixth of the runs repair nothing."""
    chances = (0.85, 0.7, 0.85, 0.7, 0.8)
    return Extent(*(rng.random() < chance for chance in chances))


def learn(known: Dict[bytes, bytes], records: List[bytes]) -> None:
    """Notes the signatures of records as pre-images, beside the secrets that the tests' accounts sign with."""
    if not known:
        known.update((sha256(secret_of(name)), secret_of(name)) for name in "abcdefghijklmnopqrstuvwxyz")
    for record in records:
        try:
            root = [read_entire(RECORD, record)]
        except XdrFault:
            continue
        for place in places(RECORD, root, 0):
            if place.type is SIGNATURES:
                known.update((sha256(row["signature"]), row["signature"]) for row in place.value)


def levels_hash(files: List[bytes]) -> bytes:
    digests = [sha256(file) if file else NO_HASH for file in files]
    return sha256(b"".join(sha256(curr + snap) for curr, snap in zip(digests[0::2], digests[1::2])))


def repair_image(parts: Parts) -> None:
    """Sets the hash of the levels in the header, where that reads."""
    try:
        header = model.read_entire(model.HEADER, parts.header[0])
    except model.Wrong:
        return
    parts.header[0] = model.HEADER.write({**header, "levels": levels_hash([file.data for file in parts.files])})


def set_hash(previous: bytes, envelopes: List[Value]) -> bytes:
    encoded = [write(TRANSACTION_ENVELOPE, envelope) for envelope in envelopes]
    return sha256(previous + b"".join(sorted(encoded, key=sha256)))


def key_of(account: Value) -> bytes:
    """The key of a muxed account."""
    return account["ed25519"] if "ed25519" in account else account["med25519"]["ed25519"]


def thresholds_of(types: List[str]) -> slice:
    """Which thresholds of an account such operations may have to reach; SET_OPTIONS may need less."""
    if HIGH & set(types):
        return slice(1, 4)
    return slice(1, 2) if LOW.issuperset(types) else slice(1, 3)


def body_of(envelope: Value) -> Tuple[Value, bytes]:
    """The signed transaction of an envelope that isn't a fee bump, or that in one, and the key of its source."""
    if envelope["type"] == "ENVELOPE_TYPE_TX_V0":
        return envelope["v0"], envelope["v0"]["tx"]["sourceAccountEd25519"]
    bump = envelope.get("feeBump")
    body = bump["tx"]["innerTx"]["v1"] if bump else envelope["v1"]
    return body, key_of(body["tx"]["sourceAccount"])


class Chain:
    """The ledger that an input's records are repaired after. `vouched` are the signers that sign in a record of form 2
    and are vouched for; in one of form 1 there are none."""

    def __init__(self, ledger: "model.Ledger", network_id: bytes, extent: Extent) -> None:
        self.ledger, self.network_id, self.extent = ledger, network_id, extent
        self.vouched: Optional[List[Signer]] = None

    def account(self, key: bytes) -> Optional[Dict]:
        entry = self.ledger.entries.get((0, key))
        return None if entry is None else entry["body"][1]

    def signatures(self, keys: List[bytes], types: List[str]) -> Optional[List[Value]]:
        """Signatures by known pre-images or that are vouched for, as many as thresholds need; None where an account has
        none."""
        rows: List[Value] = []
        for key in dict.fromkeys(keys):
            account = self.account(key)
            if account is None:
                continue
            reached, needed = 0, max(1, *account["thresholds"][thresholds_of(types)])
            own = {"key": (0, key), "weight": account["thresholds"][0]}
            for signer in [*account["signers"], *([own] if own["weight"] else [])]:
                row = self.signature(signer["key"]) if reached < needed else None
                if row is not None:
                    rows.append(row)
                    reached += signer["weight"]
            if not reached:
                return None
        unique = {row["signature"]: row for row in rows}
        return list(unique.values())[:20]

    def signature(self, key: Tuple[int, Any]) -> Optional[Dict[str, bytes]]:
        """The signature of a signer, if it can be made."""
        arm, digest = key
        if arm == 2 and digest in self.extent.known:
            return {"hint": digest[-4:], "signature": self.extent.known[digest]}
        signer = None if self.vouched is None else signer_of(key)
        if self.vouched is None or signer is None:
            return None
        self.vouched.append(signer)
        return signer.row

    def repair_envelope(self, envelope: Value, turns: Dict[bytes, int]) -> None:
        body, source = body_of(envelope)
        tx, account = body["tx"], self.account(source)
        turns[source] = turns.get(source, 0) + 1
        if self.extent.numbers and account is not None and account["seq"] + turns[source] < 2**63:
            tx["seqNum"] = account["seq"] + turns[source]
            fee = self.ledger.header["base_fee"] * len(tx["operations"])
            tx["fee"] = max(tx["fee"], min(fee, 2**32 - 1))
        if not self.extent.signatures:
            return
        others = [key_of(op["sourceAccount"]) for op in tx["operations"] if op["sourceAccount"] is not None]
        types = [op["body"]["type"] for op in tx["operations"]]
        body["signatures"] = self.signatures([source, *others], types) or body["signatures"]
        if "feeBump" in envelope:
            outer = envelope["feeBump"]
            outer["signatures"] = self.signatures([key_of(outer["tx"]["feeSource"])], []) or outer["signatures"]

    def repaired(self, data: bytes) -> bytes:
        """A record that follows the ledger. Raises XdrFault where it doesn't read."""
        record, header = read_entire(RECORD, data), self.ledger.header
        if self.extent.turns:
            record["ledgerSeq"] = min(header["seq"] + 1, 2**32 - 1)
            if record["scpValue"]["closeTime"] <= header["value"]["time"]:
                record["scpValue"]["closeTime"] = min(header["value"]["time"] + 5, 2**64 - 1)
        turns: Dict[bytes, int] = {}
        self.vouched = [] if "vouches" in record else None
        for envelope in record["txSet"]["txs"]:
            self.repair_envelope(envelope, turns)
        if self.vouched is not None and self.extent.signatures:
            repair_vouches(self.network_id, record, self.vouched)
        record["txSet"]["previousLedgerHash"] = self.ledger.hash
        record["scpValue"]["txSetHash"] = set_hash(self.ledger.hash, record["txSet"]["txs"])
        return write(RECORD, record)

    def repair(self, records: List[bytes]) -> List[bytes]:
        made: List[bytes] = []
        for record in records:
            try:
                made.append(self.repaired(record))
                self.ledger.close(made[-1])
            except Exception:  # a fault of the Python ledger comes again when the trial is run
                return made + records[len(made):]
        return made


def repair(parts: Parts, network_id: bytes, extent: Extent) -> None:
    """Repairs an input in place."""
    if not extent.hashes:
        return
    if extent.sums:
        repair_sums(parts)
    repair_image(parts)
    try:
        ledger = model.ledger_of(network_id, *model.cut_image(model.Text(parts.image)))
    except (model.Wrong, model.BadImage):
        return
    parts.records = Chain(ledger, network_id, extent).repair(parts.records)

