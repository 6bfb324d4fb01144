"""The hash of a transaction on a network, which is what is signed. Unproved."""

from __future__ import annotations

import hashlib
from typing import Dict, Tuple

from stellar_xdr import FEE_BUMP_TRANSACTION, TRANSACTION, TRANSACTION_V0, Type
from xdr import Value, write

# what is hashed after the network's id, by the type of an envelope: a tag, and the transaction of this type
HASHED: Dict[str, Tuple[bytes, Type]] = {
    "ENVELOPE_TYPE_TX_V0": (bytes([0, 0, 0, 2, 0, 0, 0, 0]), TRANSACTION_V0),
    "ENVELOPE_TYPE_TX": (bytes([0, 0, 0, 2]), TRANSACTION),
    "ENVELOPE_TYPE_TX_FEE_BUMP": (bytes([0, 0, 0, 5]), FEE_BUMP_TRANSACTION),
}


def network_id_of(passphrase: str) -> bytes:
    """The id of a network, whose passphrase may have bytes of the command line that are no text."""
    return hashlib.sha256(passphrase.encode("utf-8", "surrogateescape")).digest()


def transaction_hash(network_id: bytes, envelope: Value) -> bytes:
    """The hash of an envelope's transaction; that of a fee bump is of the whole."""
    name, signed = envelope.values()
    tag, kind = HASHED[name]
    return hashlib.sha256(network_id + tag + write(kind, signed["tx"])).digest()
