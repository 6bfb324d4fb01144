"""Vouches of records of form 2: those for signatures that a repair makes, and records of the other form.

No signature here is one: the ledger believes what a record says of it. Python 3.9 or later and its standard library.
"""

from __future__ import annotations

from random import Random
from typing import Any, Dict, Iterator, List, NamedTuple, Optional, Tuple

import fuzz_paths  # noqa: F401
from fuzz_parts import Parts
from ledger_model import payload_hint
from stellar_xdr import MOST_VOUCHES, RECORD
from transaction_hash import transaction_hash
from xdr import Value, XdrFault, read_entire, write

Row = Dict[str, bytes]


class Signer(NamedTuple):
    """A signer whose signature is vouched for: its key, and the payload of a signed payload."""

    key: bytes
    payload: Optional[bytes]

    @property
    def row(self) -> Row:
        """A signature that stands for its own."""
        hint = self.key[-4:] if self.payload is None else payload_hint(self.key, self.payload)
        return {"hint": hint, "signature": b"by " + self.key[-8:]}


def signer_of(key: Tuple[int, Any]) -> Optional[Signer]:
    """The signer of a key of the Python ledger; None where nobody can vouch for it."""
    arm, held = key
    if arm == 0:
        return Signer(held, None)
    return Signer(held["key"], held["payload"]) if arm == 3 else None


def over_hash(key: bytes, digest: bytes, signature: bytes) -> Value:
    return {"type": "SIGNER_KEY_TYPE_ED25519", "ofHash": {"ed25519": key, "hash": digest, "signature": signature}}


def over_payload(key: bytes, payload: bytes, signature: bytes) -> Value:
    body = {"ed25519": key, "payload": payload, "signature": signature}
    return {"type": "SIGNER_KEY_TYPE_ED25519_SIGNED_PAYLOAD", "ofPayload": body}


def vouches_for(signer: Signer, digest: bytes) -> Value:
    """A vouch for what stands for a signer's signature of a transaction."""
    signature = signer.row["signature"]
    if signer.payload is None:
        return over_hash(signer.key, digest, signature)
    return over_payload(signer.key, signer.payload, signature)


def signed_parts(network_id: bytes, envelope: Value) -> Iterator[Tuple[bytes, List[Row]]]:
    """The hashes of an envelope, that of an inner transaction too, each with the signatures over it."""
    name, signed = envelope.values()
    yield transaction_hash(network_id, envelope), signed["signatures"]
    if name == "ENVELOPE_TYPE_TX_FEE_BUMP":
        yield from signed_parts(network_id, signed["tx"]["innerTx"])


def repair_vouches(network_id: bytes, record: Value, signers: List[Signer]) -> None:
    """Has the vouches of a record be over the hashes of its transactions whose signatures they are for, and adds those
    for the signers that a repair had sign."""
    over: Dict[bytes, bytes] = {}
    known, made = {signer.row["signature"]: signer for signer in signers}, []
    for envelope in record["txSet"]["txs"]:
        for digest, rows in signed_parts(network_id, envelope):
            over.update((row["signature"], digest) for row in rows)
            made += [vouches_for(known[row["signature"]], digest) for row in rows if row["signature"] in known]
    for vouch in record["vouches"]:
        body = vouch.get("ofHash")
        if body is not None:
            body["hash"] = over.get(body["signature"], body["hash"])
    record["vouches"] += [vouch for vouch in made if vouch not in record["vouches"]]
    del record["vouches"][MOST_VOUCHES:]


def change_form(rng: Random, parts: Parts) -> None:
    """Has a record be of the other form: without its vouches, or with none yet."""
    if not parts.records:
        return
    index = rng.randrange(len(parts.records))
    try:
        record = read_entire(RECORD, parts.records[index])
        if "vouches" in record:
            del record["vouches"]
        else:
            record["vouches"] = []
        parts.records[index] = write(RECORD, record)
    except (XdrFault, ValueError):
        pass
