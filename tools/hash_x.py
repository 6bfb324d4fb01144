"""Hash-x signers, by which transactions are authorised here: the key is the SHA-256 of a secret, and the signature the
secret itself. Who sees a transaction has the secret from then on. Unproved.
"""

from __future__ import annotations

from image_bytes import sha256
from xdr import Value


def hash_x_signer(secret: bytes, weight: int) -> Value:
    """The Signer of a secret, with a weight."""
    return {"key": {"type": "SIGNER_KEY_TYPE_HASH_X", "hashX": sha256(secret)}, "weight": weight}


def hash_x_signature(secret: bytes) -> Value:
    """The DecoratedSignature of a secret."""
    return {"hint": sha256(secret)[-4:], "signature": secret}
