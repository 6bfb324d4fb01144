"""Whether an Ed25519 signature (RFC 8032) is that of a key over a message, as Stellar's own software judges it.

The Python package cryptography verifies; nothing else of these tools needs it. Keys and points of small order, and keys
that aren't written in the shortest way, are refused before, as libsodium does by which stellar-core verifies. Unproved.
"""

from __future__ import annotations

from typing import Callable

KEY_SIZE, SIGNATURE_SIZE = 32, 64
# the order of the field of coordinates
PRIME = 2**255 - 19
HOW_TO_INSTALL = (
    "vouching needs the Python package cryptography: install it by `apt install python3-cryptography`, or by "
    "`python3 -m pip install cryptography`"
)
# the second coordinates of the eight points whose order divides 8, below the prime and above it
SMALL_ORDER = frozenset([
    0, 1, PRIME - 1, PRIME, PRIME + 1,
    int.from_bytes(bytes.fromhex("26e8958fc2b227b045c3f489f2ef98f0d5dfac05d3c63339b13802886d53fc05"), "little"),
    int.from_bytes(bytes.fromhex("c7176a703d4dd84fba3c0b760d10670f2a2053fa2c39ccc64ec7fd7792ac037a"), "little"),
])

# key, message, signature
Verify = Callable[[bytes, bytes, bytes], bool]


class NoVerifier(Exception):
    """The package that verifies isn't there; says how to install it."""


def coordinate_of(point: bytes) -> int:
    """The second coordinate of an encoded point, whose top bit is the sign of the first one."""
    return int.from_bytes(point, "little") % 2**255


def is_usual_key(key: bytes) -> bool:
    return coordinate_of(key) < PRIME and coordinate_of(key) not in SMALL_ORDER


def verifier() -> Verify:
    """What verifies. Raises NoVerifier."""
    try:
        from cryptography.exceptions import InvalidSignature
        from cryptography.hazmat.primitives.asymmetric.ed25519 import Ed25519PublicKey
    except ImportError:
        raise NoVerifier(HOW_TO_INSTALL) from None

    def is_signed(key: bytes, message: bytes, signature: bytes) -> bool:
        if len(signature) != SIGNATURE_SIZE or not is_usual_key(key):
            return False
        if coordinate_of(signature[:KEY_SIZE]) in SMALL_ORDER:
            return False
        try:
            Ed25519PublicKey.from_public_bytes(key).verify(signature, message)
        except (InvalidSignature, ValueError):
            return False
        return True

    return is_signed
