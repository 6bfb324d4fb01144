"""Whether `vouch` of tools/stellar_files.py vouches for the signatures that verify, and for no other.

- the vectors of RFC 8032 verify, and don't with another bit; points of small order and numbers that are written longer
  are refused;
- transactions that are signed here, by keys of every place that can give one: the accounts of an image, their signers
  and signed payloads, what records name; each wrong signature, hint, network or key has no vouch.

Where the Python package cryptography isn't installed, it is tried alone that the command says how to install it.
"""

from __future__ import annotations

import contextlib
import hashlib
import os
import sys
from typing import Any, Dict, Iterator, List, Optional, Set, Tuple

import bridge
import bridge_forms
from harness import TESTS, Tally

import ed25519_check  # noqa: E402
import signing_keys  # noqa: E402
import stellar_xdr as xdr  # noqa: E402
from file_source import Source  # noqa: E402
from image_bytes import image_bytes, marked  # noqa: E402
from record_stream import close_record, pieces  # noqa: E402
from transaction_hash import network_id_of, transaction_hash  # noqa: E402

try:
    from cryptography.hazmat.primitives.asymmetric.ed25519 import Ed25519PrivateKey
    from cryptography.hazmat.primitives.serialization import Encoding, PublicFormat
except ImportError:
    Ed25519PrivateKey = None

Value = Any
# RFC 8032, section 7.1: secret key, public key, message, signature
VECTORS = tuple(tuple(map(bytes.fromhex, row)) for row in (
    ("9d61b19deffd5a60ba844af492ec2cc44449c5697b326919703bac031cae7f60",
     "d75a980182b10ab7d54bfed3c964073a0ee172f3daa62325af021a68f707511a", "",
     "e5564300c360ac729086e2cc806e828a84877f1eb8e5d974d873e065224901555fb8821590a33bacc61e39701cf9b46bd25bf5f0595bbe24"
     "655141438e7a100b"),
    ("4ccd089b28ff96da9db6c346ec114e0f5b8a319f35aba624da8cf6ed4fb8a6fb",
     "3d4017c3e843895a92b70aa74d1b7ebc9c982ccf2ec4968cc0cd55f12af4660c", "72",
     "92a009a9f0d4cab8720e820b5f642540a2b27b5416503f8fb3762223ebdb69da085ac1e43e15996e458f3613d0f11d8c387b2eaeb4302aee"
     "b00d291612bb0c00"),
    ("c5aa8df43f9f837bedb7442f31dcb7b166d38535076f094b85ce3a2e0b4458f7",
     "fc51cd8e6218a1a38da47ed00230f0580816ed13ba3303ac5deb911548908025", "af82",
     "6291d657deec24024827e69c3abe01a30ce548a284743a445e3680d7db5ac3ac18ff9b538d16f290ae67f760984dc6594a7c15e9716ed28d"
     "c027beceea1ec40a"),
    ("833fe62409237b9d62ec77587520911e9a759cec1d19755b7da901b96dca3d42",
     "ec172b93ad5e563bf4932c70e1245034c35467ef2efd4d64ebf819683467e2bf",
     "ddaf35a193617abacc417349ae20413112e6fa4e89a97ea20a9eeee64b55d39a2192992a274fc1a836ba3c23a3feebbd454d4423643ce80e"
     "2a9ac94fa54ca49f",
     "dc2a4459e7369633a52b1bf277839a00201009a3efbf3ecb69bea2186c26b58909351fc9ac90b3ecfdfbc7c66431e0303dca179c138ac17a"
     "d9bef1177331a704"),
))
# the order of the points that signatures are made of
GROUP = 2**252 + 27742317777372353535851937790883648493
NETWORK = "A network that nobody has"
PAYLOADS = ((VECTORS[1][1], VECTORS[1][2]), (VECTORS[2][1], VECTORS[2][2]))

# ---- signatures alone


def changed(data: bytes, at: int) -> bytes:
    return data[:at] + bytes([data[at] ^ 4]) + data[at + 1:]


def try_vectors(tally: Tally, verify: ed25519_check.Verify) -> None:
    for _, key, message, signature in VECTORS:
        tally.check("a vector of RFC 8032 verifies", verify(key, message, signature), key.hex())
        wrong = [
            (changed(key, 3), message, signature), (key, message + b"\0", signature), (key, message, signature[:63]),
            *((key, message, changed(signature, at)) for at in (0, 31, 32, 63)), (key, message, signature + b"\0"),
            (key, message, b""),
        ]
        long = int.from_bytes(signature[32:], "little") + GROUP
        wrong.append((key, message, signature[:32] + long.to_bytes(32, "little")))
        for given in wrong:
            tally.check("a wrong signature doesn't verify", not verify(*given), given)
    one = (1).to_bytes(32, "little")
    for number in ed25519_check.SMALL_ORDER:
        for sign in (0, 2**255):
            point = (number + sign).to_bytes(32, "little")
            # with such a key any message has such a signature, where only the equation is asked
            is_refused = not verify(point, b"", one + bytes(32)) and not verify(VECTORS[0][1], b"", point + bytes(32))
            tally.check("a point of small order doesn't verify", is_refused, point.hex())


# ---- signed records


class Signer:
    """A secret key of Ed25519."""

    def __init__(self, secret: bytes) -> None:
        self.secret = Ed25519PrivateKey.from_private_bytes(secret)
        self.key = self.secret.public_key().public_bytes(Encoding.Raw, PublicFormat.Raw)

    @property
    def account(self) -> Value:
        return {"type": "KEY_TYPE_ED25519", "ed25519": self.key}

    @property
    def account_id(self) -> Value:
        return {"type": "PUBLIC_KEY_TYPE_ED25519", "ed25519": self.key}

    @property
    def signer_key(self) -> Value:
        return {"type": "SIGNER_KEY_TYPE_ED25519", "ed25519": self.key}

    def sign(self, digest: bytes, hint: Optional[bytes] = None) -> Value:
        return {"hint": hint or self.key[-4:], "signature": self.secret.sign(digest)}


def named(name: str) -> Signer:
    return Signer(hashlib.sha256(name.encode()).digest())


def payload_signer(key: bytes, payload: bytes) -> Value:
    signed = {"ed25519": key, "payload": payload}
    return {"type": "SIGNER_KEY_TYPE_ED25519_SIGNED_PAYLOAD", "ed25519SignedPayload": signed}


def payload_signature(index: int) -> Value:
    """The signature of a vector, over its message as a payload."""
    _, key, message, signature = VECTORS[index]
    return {"hint": signing_keys.payload_hint(key, message), "signature": signature}


def operation(name: str, field: str, body: Value) -> Value:
    return {"sourceAccount": None, "body": {"type": name, field: body}}


def set_signer(key: Value) -> Value:
    fields = ("inflationDest", "clearFlags", "setFlags", "masterWeight", "lowThreshold", "medThreshold",
              "highThreshold", "homeDomain")
    return operation("SET_OPTIONS", "setOptionsOp", {
        **{name: None for name in fields}, "signer": {"key": key, "weight": 1}})


BUMP = operation("BUMP_SEQUENCE", "bumpSequenceOp", {"bumpTo": 9})
PLAIN = {"type": "PRECOND_NONE"}


def transaction(source: Signer, operations: List[Value], cond: Value = PLAIN) -> Value:
    return {"sourceAccount": source.account, "fee": 100, "seqNum": 1, "cond": cond, "memo": {"type": "MEMO_NONE"},
            "operations": operations, "ext": {"v": 0}}


def enveloped(tx: Value, *signers: Signer) -> Value:
    """An envelope of a transaction, signed by some keys."""
    envelope = {"type": "ENVELOPE_TYPE_TX", "v1": {"tx": tx, "signatures": []}}
    digest = transaction_hash(network_id_of(NETWORK), envelope)
    envelope["v1"]["signatures"] += [signer.sign(digest) for signer in signers]
    return envelope


def with_signatures(envelope: Value, *signatures: Value) -> Value:
    name, signed = envelope.values()
    field = list(envelope)[1]
    return {"type": name, field: {**signed, "signatures": signed["signatures"] + list(signatures)}}


def account_entry(signer: Signer, keys: List[Value]) -> Value:
    account = {
        "accountID": signer.account_id, "balance": 1, "seqNum": 1, "numSubEntries": len(keys), "inflationDest": None,
        "flags": 0, "homeDomain": b"", "thresholds": b"\1\0\0\0",
        "signers": [{"key": key, "weight": 1} for key in keys], "ext": {"v": 0},
    }
    data = {"type": "ACCOUNT", "account": account}
    return {"type": "LIVEENTRY", "liveEntry": {"lastModifiedLedgerSeq": 1, "data": data, "ext": {"v": 0}}}


def image_of(entries: List[Value]) -> bytes:
    """An image of some accounts, whose header is another one's."""
    source = bridge.read_input(bridge.bytes_at(f"{bridge.EXAMPLES}/accounts.image"), True).image
    header = xdr.write(xdr.LEDGER_HEADER, source.header)
    meta = {"type": "METAENTRY", "metaEntry": {"ledgerVersion": 19, "ext": {"v": 0}}}
    rows = sorted(entries, key=lambda entry: entry["liveEntry"]["data"]["account"]["accountID"]["ed25519"])
    return image_bytes(header, [b"".join(marked(xdr.write(xdr.BUCKET_ENTRY, item)) for item in (meta, *rows))])


def record(seq: int, envelopes: List[Value]) -> bytes:
    return marked(xdr.write(xdr.RECORD, {
        "ledgerSeq": seq, "txSet": {"previousLedgerHash": bytes(32), "txs": envelopes},
        "scpValue": {"txSetHash": bytes(32), "closeTime": 5, "upgrades": [], "ext": {"v": "STELLAR_VALUE_BASIC"}},
    }))


# what a vouch says: a key, what it signed, and the signature
Vouch = Tuple[bytes, bytes, bytes]


class Story:
    """Signed records after an image, and the vouches that each of them must have."""

    def __init__(self) -> None:
        self.keys: Dict[str, Signer] = {name: named(name) for name in ("a", "b", "c", "d", "e", "f", "g", "s", "x")}
        self.records: List[List[Value]] = []
        self.expected: List[Set[Vouch]] = []

    def hash(self, envelope: Value) -> bytes:
        return transaction_hash(network_id_of(NETWORK), envelope)

    def image(self) -> bytes:
        a, b, c, s = (self.keys[name] for name in "abcs")
        return image_of([
            account_entry(a, [s.signer_key, payload_signer(*PAYLOADS[0])]), account_entry(b, []), account_entry(c, []),
        ])

    def good(self, envelope: Value, *names: str) -> Value:
        """An envelope that these keys sign, all of which have vouches."""
        digest = self.hash(envelope)
        signatures = [self.keys[name].sign(digest) for name in names]
        self.expected[-1] |= {
            (self.keys[name].key, digest, signature["signature"]) for name, signature in zip(names, signatures)}
        return with_signatures(envelope, *signatures)

    def plain(self, source: str, *operations: Value, cond: Value = PLAIN) -> Value:
        return enveloped(transaction(self.keys[source], list(operations), cond))

    def bump(self) -> Value:
        """A fee bump, signed outside and inside; inside also by a signature over the outer hash."""
        inner = self.good(self.plain("a", BUMP), "a")
        tx = {"feeSource": self.keys["c"].account, "fee": 400, "innerTx": inner, "ext": {"v": 0}}
        outer = {"type": "ENVELOPE_TYPE_TX_FEE_BUMP", "feeBump": {"tx": tx, "signatures": []}}
        misplaced = self.keys["b"].sign(self.hash(outer))
        tx["innerTx"] = with_signatures(inner, misplaced)
        return self.good(outer, "c")

    def first_version(self) -> Value:
        tx = transaction(self.keys["b"], [BUMP])
        old = {"sourceAccountEd25519": self.keys["b"].key, "fee": tx["fee"], "seqNum": 1, "timeBounds": None,
               "memo": tx["memo"], "operations": tx["operations"], "ext": tx["ext"]}
        return self.good({"type": "ENVELOPE_TYPE_TX_V0", "v0": {"tx": old, "signatures": []}}, "b")

    def first_record(self) -> List[Value]:
        """By accounts of the image and their signers; and what isn't vouched for."""
        self.expected.append(set())
        a, b, x = (self.keys[name] for name in "abx")
        created = operation("CREATE_ACCOUNT", "createAccountOp", {
            "destination": self.keys["f"].account_id, "startingBalance": 5})
        wrong = self.plain("a", set_signer(self.keys["d"].signer_key))
        digest = self.hash(wrong)
        twice = self.good(self.plain("c", BUMP, BUMP), "c")
        payload = self.good(self.plain("a", BUMP, BUMP), "s")
        self.expected[-1].add((*PAYLOADS[0], VECTORS[1][3]))
        return [
            self.good(self.plain("a", BUMP), "a"),
            with_signatures(
                self.good(wrong, "a"), {"hint": b.key[-4:], "signature": changed(b.sign(digest)["signature"], 9)},
                a.sign(digest, hint=b"\1\2\3\4"), {"hint": b.key[-4:], "signature": b"a text"}),
            with_signatures(self.good(self.plain("b", created), "b"), x.sign(self.hash(self.plain("b", created)))),
            self.bump(), self.first_version(), twice, twice, with_signatures(payload, payload_signature(1)),
        ]

    def second_record(self) -> List[Value]:
        """By what records name: accounts and signers that they make, extra signers, and a source without account."""
        self.expected.append({(*PAYLOADS[1], VECTORS[2][3])})
        extra = {"type": "PRECOND_V2", "v2": {
            "timeBounds": None, "ledgerBounds": None, "minSeqNum": None, "minSeqAge": 0, "minSeqLedgerGap": 0,
            "extraSigners": [self.keys["e"].signer_key, payload_signer(*PAYLOADS[1])]}}
        return [
            self.good(self.plain("f", BUMP), "f"), self.good(self.plain("a", BUMP, BUMP), "d", "s", "a"),
            with_signatures(self.good(self.plain("b", BUMP, cond=extra), "b", "e"), payload_signature(2)),
            self.good(self.plain("g", BUMP), "g"),
        ]

    def stream(self) -> bytes:
        self.records = [self.first_record(), self.second_record()]
        return b"".join(record(seq, envelopes) for seq, envelopes in enumerate(self.records, 62))


def read_records(data: bytes) -> List[Value]:
    source = Source("records", data)
    return [close_record(source, piece) for piece in pieces(source)]


def vouches_in(value: Value) -> List[Vouch]:
    return [tuple(list(vouch.values())[1].values()) for vouch in value["vouches"]]


def try_story(tally: Tally, folder: str) -> None:
    story = Story()
    image, stream = story.image(), story.stream()
    words = ("vouch", bridge.write_file(f"{folder}/image", image), bridge.write_file(f"{folder}/records", stream))
    answer = bridge.run(*words, "--network", NETWORK, "--out", f"{folder}/vouched")
    count = sum(map(len, story.expected))
    is_so = answer.status == 0 and answer.out.startswith("records 2  ") and answer.out.endswith(f"vouches {count}\n")
    if not tally.check("records are vouched for", is_so, answer):
        return
    before, after = read_records(stream), read_records(bridge.bytes_at(f"{folder}/vouched"))
    for old, new, expected in zip(before, after, story.expected):
        found = vouches_in(new)
        tally.check("each signature that verifies has its vouch, once", len(found) == len(expected) == len(set(found)))
        tally.check("no other signature has a vouch", set(found) == expected, (set(found) ^ expected))
        tally.check("a vouched record has its close", {**new, "vouches": 0} == {**old, "vouches": 0}, new["ledgerSeq"])
    again = ("vouch", f"{folder}/image", f"{folder}/vouched", "--network", NETWORK, "--out", f"{folder}/again")
    is_same = bridge.run(*again).status == 0 and (
        bridge.bytes_at(f"{folder}/again") == bridge.bytes_at(f"{folder}/vouched"))
    tally.check("records that are vouched for can be vouched for again", is_same)
    try_other_network(tally, folder)


def try_other_network(tally: Tally, folder: str) -> None:
    """On another network signed payloads alone have vouches."""
    words = ("vouch", f"{folder}/image", f"{folder}/records", "--network", "another", "--out", f"{folder}/other")
    answer = bridge.run(*words)
    found = [set(vouches_in(value)) for value in read_records(bridge.bytes_at(f"{folder}/other"))]
    is_so = answer.status == 0 and found == [{(*PAYLOADS[0], VECTORS[1][3])}, {(*PAYLOADS[1], VECTORS[2][3])}]
    tally.check("on another network no transaction has a vouch", is_so, answer)


def try_damaged(tally: Tally, folder: str) -> None:
    story = Story()
    files = {"image": story.image(), "records": story.stream()}
    for name, data in files.items():
        for end in (0, 3, 9, 300, len(data) - 1):
            given = {**files, name: data[:end]}
            paths = [bridge.write_file(f"{folder}/{kind}", given[kind]) for kind in ("image", "records")]
            answer = bridge.run("vouch", *paths, "--network", NETWORK, "--out", f"{folder}/out", "--force")
            is_so = bridge.is_refused(answer) or (name, end) == ("records", 0) and answer.status == 0
            tally.check("what is cut isn't vouched for", is_so, (name, end, answer))
    for text in (
        "vouch {image} {records} --out {out}", "vouch {image} {records} --network x",
        "vouch {image} --network x --out {out}",
        "vouch {image} {records} --network= --out {out}", "vouch {image} {records} --network x --out {image} --force",
        "vouch {image} {none} --network x --out {out} --force",
    ):
        paths = {name: f"{folder}/{name}" for name in ("image", "records", "out", "none")}
        answer = bridge.run(*(word.format(**paths) for word in text.split()))
        tally.check("what can't be vouched for is refused in one line", bridge.is_refused(answer), (text, answer))


# ---- without the package


@contextlib.contextmanager
def without_package() -> Iterator[None]:
    """As if the package weren't installed."""
    kept = {name: sys.modules.pop(name) for name in list(sys.modules) if name.split(".")[0] == "cryptography"}
    sys.modules["cryptography"] = None  # type: ignore[assignment]
    try:
        yield
    finally:
        del sys.modules["cryptography"]
        sys.modules.update(kept)


def try_without(tally: Tally, folder: str) -> None:
    words = ("vouch", f"{bridge.EXAMPLES}/accounts.image", f"{bridge.EXAMPLES}/accounts.records", "--network", "x")
    with without_package():
        answer = bridge.run(*words, "--out", f"{folder}/out")
    is_so = bridge.is_refused(answer) and "apt install python3-cryptography" in answer.err and not os.listdir(folder)
    tally.check("without its package the command says how to install it", is_so, answer)


def check(top: str) -> Tally:
    tally = Tally()
    parts = [try_without]
    if Ed25519PrivateKey is None:
        print("the Python package cryptography isn't installed, so it isn't tried what `vouch` vouches for")
    else:
        try_vectors(tally, ed25519_check.verifier())
        parts += [try_story, try_damaged]
    for part in parts:
        with bridge_forms.scratch() as folder:
            part(tally, folder)
    return tally


if __name__ == "__main__":
    result = check(os.path.dirname(TESTS))
    print("\n".join(result.lines()))
    sys.exit(1 if result.failed else 0)
