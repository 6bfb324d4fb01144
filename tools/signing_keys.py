"""Ed25519 keys that may have signed a transaction, by the hints of their signatures.

A signature carries the last four bytes of its key and no key, and that of a signed payload those of the key xor those
of the payload. So keys are gathered from all that can give an account a signer: the accounts of an image, and what the
transactions of records name. A key too many does no harm, since what it signed is verified. Unproved.
"""

from __future__ import annotations

from typing import Any, Dict, Iterator, Optional, Set, Tuple

from bucket_file import MOST_ITEM, BucketFile
from file_source import Source
from progress import Progress
from record_stream import Piece, entire, pieces
from start_image import StartImage
from stellar_xdr import BUCKET_ENTRY

HINT_SIZE = 4
# the fields that are the bare key of an account or of a signer
KEY_FIELDS = ("ed25519", "sourceAccountEd25519")
PAYLOAD_FIELD = "ed25519SignedPayload"
# how LIVE and INIT begin, and what an account has at its type
LIVING, ACCOUNT, TYPE_AT = (b"\0\0\0\0", b"\0\0\0\2"), b"\0\0\0\0", 8

# a key and what it signs
Payload = Tuple[bytes, bytes]


def payload_hint(key: bytes, payload: bytes) -> bytes:
    """The hint of a signed payload; a shorter payload is filled with zero bytes behind."""
    last = payload[-HINT_SIZE:].ljust(HINT_SIZE, b"\0")
    return bytes(one ^ other for one, other in zip(key[-HINT_SIZE:], last))


def account_pieces(source: Source, file: BucketFile) -> Iterator[Piece]:
    """The items of a bucket's file that are accounts in the ledger, or were. Raises FileFault."""
    for piece in pieces(source, file.start, file.end, MOST_ITEM):
        head = source.data[piece.start:piece.start + TYPE_AT + 4]
        if head[:4] in LIVING and head[TYPE_AT:] == ACCOUNT:
            yield piece


class SigningKeys:
    """Keys, and keys with payloads, by their hints."""

    def __init__(self) -> None:
        self.keys: Dict[bytes, Set[bytes]] = {}
        self.payloads: Dict[bytes, Set[Payload]] = {}
        # the hints of those that are still to be added; None where it may be any
        self.hints: Optional[Set[bytes]] = None

    def is_asked_for(self, hint: bytes) -> bool:
        return self.hints is None or hint in self.hints

    def add_key(self, key: bytes) -> None:
        if self.is_asked_for(key[-HINT_SIZE:]):
            self.keys.setdefault(key[-HINT_SIZE:], set()).add(key)

    def add_payload(self, key: bytes, payload: bytes) -> None:
        hint = payload_hint(key, payload)
        if self.is_asked_for(hint):
            self.payloads.setdefault(hint, set()).add((key, payload))

    def add_named(self, value: Any) -> None:
        """Adds each key and signed payload that a value names."""
        if isinstance(value, list):
            for item in value:
                self.add_named(item)
        elif isinstance(value, dict):
            for name, field in value.items():
                if name in KEY_FIELDS:
                    self.add_key(field)
                elif name == PAYLOAD_FIELD:
                    self.add_payload(field["ed25519"], field["payload"])
                elif isinstance(field, (dict, list)):
                    self.add_named(field)

    def add_image(self, image: StartImage, hints: Set[bytes]) -> None:
        """Adds those of the accounts of an image that have one of some hints. Raises FileFault."""
        self.hints = hints
        with Progress(image.end - image.start) as progress:
            for file in image.files:
                for piece in account_pieces(image.source, file):
                    self.add_named(entire(image.source, piece, BUCKET_ENTRY))
                    progress.add(piece.end - piece.at)
