"""StrKey, the text of keys (SEP-23): G accounts, M muxed accounts, T pre-authorised transactions, X hash-x, P signed
payloads.

A text is base 32 (RFC 4648) without padding: a byte of the version, the key and what follows it, and CRC-16/XMODEM of
all this with its low byte first. After the key of M comes its id, and after that of P the payload as XDR has it. Secret
seeds (S) are neither read nor written. Unproved.
"""

from __future__ import annotations

import base64
import binascii
from typing import NamedTuple

# the version bytes, each the place of its letter in base 32 above three zero bits
VERSIONS = {"G": 6 << 3, "M": 12 << 3, "P": 15 << 3, "T": 19 << 3, "X": 23 << 3}
KEY_SIZE, ID_SIZE, MOST_PAYLOAD = 32, 8, 64
NAMES = {
    "G": "an account", "M": "a muxed account", "P": "a signed payload", "T": "a pre-authorised transaction",
    "X": "a hash-x",
}


class Key(NamedTuple):
    """What a text names: its letter, 32 bytes of a key or hash, the id (0 to 2^64 - 1) of M, else 0, and the payload of
    P (0 to 64 bytes), else none."""

    letter: str
    key: bytes
    number: int = 0
    payload: bytes = b""


def checksum(data: bytes) -> bytes:
    return binascii.crc_hqx(data, 0).to_bytes(2, "little")


def after_key(letter: str, number: int, payload: bytes) -> bytes:
    """What follows the key in a text."""
    if letter == "P":
        return len(payload).to_bytes(4, "big") + payload + bytes(-len(payload) % 4)
    return number.to_bytes(ID_SIZE, "big") if letter == "M" else b""


def encoded(letter: str, key: bytes, number: int = 0, payload: bytes = b"") -> str:
    """The text of a key of 32 bytes; `number` is the id of M, `payload` that of P. Raises ValueError where there is
    none."""
    if letter not in VERSIONS or len(key) != KEY_SIZE:
        raise ValueError(f"no key {letter} of {len(key)} bytes")
    if number and letter != "M":
        raise ValueError(f"a key {letter} has no id")
    if payload and letter != "P" or len(payload) > MOST_PAYLOAD:
        raise ValueError(f"a key {letter} has no payload of {len(payload)} bytes")
    data = bytes([VERSIONS[letter]]) + key + after_key(letter, number, payload)
    return base64.b32encode(data + checksum(data)).rstrip(b"=").decode("ascii")


def characters(size: int) -> int:
    """How many characters so many bytes after the key have, with the version, the key and the checksum."""
    return -(-(1 + KEY_SIZE + size + 2) * 8 // 5)


def test_length(text: str) -> None:
    """Raises ValueError where a text has a length that no key of its letter has."""
    letter = text[:1]
    sizes = {"M": (ID_SIZE,), "P": range(4, 4 + MOST_PAYLOAD + 1, 4)}.get(letter, (0,))
    lengths = [characters(size) for size in sizes]
    if len(text) not in lengths:
        wanted = f"{lengths[0]}" if len(lengths) == 1 else f"{lengths[0]} to {lengths[-1]}"
        raise ValueError(f"the text of {NAMES[letter]} has {wanted} characters, not {len(text)}")


def payload_of(data: bytes) -> bytes:
    """The payload of what follows a key. Raises ValueError."""
    payload = data[4:4 + int.from_bytes(data[:4], "big")]
    if after_key("P", 0, payload) != data:
        raise ValueError("a payload of another length, or not filled up with zero bytes")
    return payload


def decoded(text: str) -> Key:
    """The key that a text names. Raises ValueError, which says what is wrong."""
    letter = text[:1]
    if letter not in VERSIONS:
        raise ValueError(f"a key begins with {', '.join(VERSIONS)}")
    test_length(text)
    try:
        data = base64.b32decode(text + "=" * (-len(text) % 8))
    except (binascii.Error, ValueError):
        raise ValueError("a character that isn't of base 32") from None
    if base64.b32encode(data).rstrip(b"=").decode("ascii") != text:
        raise ValueError("bits after the last byte that aren't zero")
    if data[0] != VERSIONS[letter]:
        raise ValueError("another version byte")
    if checksum(data[:-2]) != data[-2:]:
        raise ValueError("a wrong checksum")
    key, rest = data[1:1 + KEY_SIZE], data[1 + KEY_SIZE:-2]
    if letter == "P":
        return Key(letter, key, 0, payload_of(rest))
    return Key(letter, key, int.from_bytes(rest, "big"))
