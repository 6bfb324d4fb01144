"""Records of form 2 (docs/BRIDGE.md): records of closes with the Ed25519 signatures of their transactions that verify.

Unproved.
"""

from __future__ import annotations

from typing import Dict, Iterator, List, NamedTuple, Set, Tuple

from ed25519_check import SIGNATURE_SIZE, Verify, verifier
from file_source import Source, opened
from image_bytes import marked
from new_files import write_files
from progress import Progress
from record_stream import MOST_RECORD, Piece, close_record, pieces
from selection import signatures_of
from signing_keys import SigningKeys
from start_image import is_image, read_image
from stellar_xdr import MOST_VOUCHES, VOUCHED_FORM, VOUCHED_RECORD, write
from transaction_hash import network_id_of, transaction_hash
from xdr import U32, Value


class Signed(NamedTuple):
    """A signature, and the hash of the transaction that it stands at."""

    hash: bytes
    hint: bytes
    signature: bytes


class Count:
    """How many records there are, signatures of the length that Ed25519's have, and vouches."""

    def __init__(self) -> None:
        self.records = self.signatures = self.vouches = 0

    def line(self) -> str:
        return f"records {self.records}  signatures {self.signatures}  vouches {self.vouches}\n"


def signed_by(digest: bytes, signatures: List[Value]) -> Iterator[Signed]:
    for signature in signatures:
        if len(signature["signature"]) == SIGNATURE_SIZE:
            yield Signed(digest, signature["hint"], signature["signature"])


def signed_in(network_id: bytes, envelope: Value) -> Iterator[Signed]:
    """The signatures of an envelope, and those inside of a fee bump, which are of another hash."""
    _, signed = envelope.values()
    yield from signed_by(transaction_hash(network_id, envelope), signed["signatures"])
    if "innerTx" in signed["tx"]:
        inner = signed["tx"]["innerTx"]
        yield from signed_by(transaction_hash(network_id, inner), inner["v1"]["signatures"])


def of_hash(key: bytes, signed: Signed) -> Value:
    fields = {"ed25519": key, "hash": signed.hash, "signature": signed.signature}
    return {"type": "SIGNER_KEY_TYPE_ED25519", "ofHash": fields}


def of_payload(key: bytes, payload: bytes, signed: Signed) -> Value:
    fields = {"ed25519": key, "payload": payload, "signature": signed.signature}
    return {"type": "SIGNER_KEY_TYPE_ED25519_SIGNED_PAYLOAD", "ofPayload": fields}


class Voucher:
    """What vouches for the signatures of a network's transactions by some keys."""

    def __init__(self, network_id: bytes, keys: SigningKeys, verify: Verify, count: Count) -> None:
        self.network_id, self.keys, self.verify, self.count = network_id, keys, verify, count

    def vouches_for(self, signed: Signed) -> Iterator[Value]:
        for key in sorted(self.keys.keys.get(signed.hint, ())):
            if self.verify(key, signed.hash, signed.signature):
                yield of_hash(key, signed)
        for key, payload in sorted(self.keys.payloads.get(signed.hint, ())):
            if self.verify(key, payload, signed.signature):
                yield of_payload(key, payload, signed)

    def vouches_of(self, record: Value) -> List[Value]:
        """The vouches of a record, each once."""
        seen: Set[Signed] = set()
        found: Dict[Tuple, Value] = {}
        for envelope in record["txSet"]["txs"]:
            for signed in signed_in(self.network_id, envelope):
                self.count.signatures += 1
                if signed not in seen:
                    seen.add(signed)
                    found.update((tuple(list(vouch.values())[1].items()), vouch) for vouch in self.vouches_for(signed))
        return list(found.values())

    def vouched(self, source: Source, piece: Piece) -> bytes:
        """A record in form 2, after its mark. Raises FileFault where it has too many vouches or bytes."""
        record = close_record(source, piece)
        vouches = self.vouches_of(record)
        if len(vouches) > MOST_VOUCHES:
            raise source.fault(piece.at, f"{len(vouches)} vouches for a record, above {MOST_VOUCHES}")
        data = write(U32, VOUCHED_FORM) + write(VOUCHED_RECORD, {**record, "vouches": vouches})
        if len(data) > MOST_RECORD:
            raise source.fault(piece.at, f"a record of {len(data)} bytes with its vouches, above {MOST_RECORD}")
        self.count.records += 1
        self.count.vouches += len(vouches)
        return marked(data)


def record_pieces(source: Source) -> Iterator[Piece]:
    """The records of a file, which may follow an image there. Raises FileFault."""
    start = read_image(source).end if is_image(source) else 0
    with Progress(source.size - start) as progress:
        for piece in pieces(source, start):
            yield piece
            progress.add(piece.end - piece.at)


def keys_for(image: Source, records: Source) -> SigningKeys:
    """The keys that may have signed records after an image. Raises FileFault."""
    keys, hints = SigningKeys(), set()
    for piece in record_pieces(records):
        for envelope in close_record(records, piece)["txSet"]["txs"]:
            hints.update(signature["hint"] for signature in signatures_of(envelope))
            keys.add_named(envelope)
    keys.add_image(read_image(image), hints)
    return keys


def write_vouched(image: str, records: str, network: str, out: str, may_replace: bool) -> Count:
    """Writes records in form 2. Raises NoVerifier, FileFault and OSError."""
    verify, count, source = verifier(), Count(), opened(records)
    voucher = Voucher(network_id_of(network), keys_for(opened(image), source), verify, count)
    write_files({out: (voucher.vouched(source, piece) for piece in record_pieces(source))}, may_replace)
    return count
