"""An archive from end to end: keys of Ed25519 and secrets of hash-x sign, the ledger of `models/` closes records with
vouches, what it closed is packed into the usual layout, and tools/stellar_files.py takes an image and records out of
it, vouches for what the keys signed, and compares an output with it.

An archive has no vouches: without new ones the records close to other headers, and with those that `vouch` finds to the
same ones. The built program does the same: its `history` writes what the archive is packed from, and its `catchup`
closes what was taken out of the archive to equal headers. It needs the Python package cryptography; bridge_vouch.py says
where that is missing.
"""

from __future__ import annotations

import json
import os
import sys
from typing import Any, Callable, Dict, List, Set, Tuple

import bridge
import bridge_forms
import bridge_vouch
import made_archive
from bridge_vouch import BUMP, Signer, enveloped, named, operation, set_signer, transaction
from harness import TESTS, Program, Tally

import ledger_model  # noqa: E402
import stellar_xdr as xdr  # noqa: E402
import strkey  # noqa: E402
from hash_x import hash_x_signature  # noqa: E402
from image_bytes import marked, sha256  # noqa: E402
from python_ledger import PythonLedger  # noqa: E402
from transaction_hash import network_id_of, transaction_hash  # noqa: E402

Value = Any
NETWORK, LAST, IMAGE_AT = bridge_vouch.NETWORK, 128, 63
SECRET = "a secret of everybody"
NAMES = ("a", "b", "c")
EQUAL = (0, "equal  ledgers 64 to 127  transactions 6\n", "")


class Closing:
    """Closes ledgers of signed transactions, and keeps the records and what Ed25519 signed in each."""

    def __init__(self, image: bytes) -> None:
        # the records that close, and those of form 1 that an archive has in their place
        self.image, self.records, self.plain = image, [], []
        self.ledger = PythonLedger(NETWORK.encode(), image)
        self.keys: Dict[str, Signer] = {name: named(name) for name in ("a", "b", "c", "d", "f", "x")}
        self.numbers: Dict[str, int] = {}
        self.signed: Dict[int, Set[Tuple[bytes, bytes, bytes]]] = {}
        self.codes: List[int] = []

    @property
    def input(self) -> bytes:
        return self.image + b"".join(map(marked, self.records))

    def sent(self, source: str, op: Value, *signers: str) -> Value:
        """A transaction, signed by these keys, or by the secret where there is none."""
        number = self.numbers.get(source) or (self.ledger.seq_num(self.keys[source].key) or 0) + 1
        self.numbers[source] = number + 1
        envelope = enveloped({**transaction(self.keys[source], [op]), "seqNum": number},
                             *(self.keys[name] for name in signers))
        digest = transaction_hash(network_id_of(NETWORK), envelope)
        if not signers:
            envelope["v1"]["signatures"].append(hash_x_signature(SECRET.encode()))
        self.signed.setdefault(self.ledger.ledger_seq + 1, set()).update(
            (self.keys[name].key, digest, signature["signature"])
            for name, signature in zip(signers, envelope["v1"]["signatures"]) if name != "x")
        return envelope

    def close(self, envelopes: List[Value]) -> None:
        data = [xdr.write(xdr.TRANSACTION_ENVELOPE, envelope) for envelope in envelopes]
        digest = sha256(self.ledger.hash + b"".join(sorted(data, key=sha256)))
        value = {"txSetHash": digest, "closeTime": self.ledger.close_time + 5, "upgrades": [],
                 "ext": {"v": "STELLAR_VALUE_BASIC"}}
        txs = {"previousLedgerHash": self.ledger.hash, "txs": envelopes}
        seq = self.ledger.ledger_seq + 1
        record = {"ledgerSeq": seq, "txSet": txs, "scpValue": value}
        self.plain.append(xdr.write(xdr.CLOSE_RECORD, record))
        vouches = [{"type": "SIGNER_KEY_TYPE_ED25519", "ofHash": {"ed25519": key, "hash": digest, "signature": signature}}
                   for key, digest, signature in sorted(self.signed.get(seq, ()))]
        self.records.append(xdr.write(xdr.RECORD, {**record, "vouches": vouches}) if vouches else self.plain[-1])
        lines = self.ledger.close(self.records[-1]).splitlines()
        self.codes += [int(line.split()[3]) for line in lines if line.startswith("tx ")]

    def transactions(self, seq: int) -> List[Value]:
        """Those of a ledger: signers and accounts are made before and after the image, and sign later."""
        created = operation("CREATE_ACCOUNT", "createAccountOp", {
            "destination": self.keys["f"].account_id, "startingBalance": 50_000_000})
        return {
            5: lambda: [self.sent("a", set_signer(self.keys["d"].signer_key)), self.sent("b", BUMP, "b")],
            63: lambda: [self.sent("c", BUMP, "c"), self.sent("b", BUMP)],
            64: lambda: [self.sent("a", BUMP, "a", "d"), self.sent("c", BUMP, "c", "x"), self.sent("b", created)],
            70: lambda: [self.sent("f", BUMP, "f"), self.sent("c", BUMP)],
            127: lambda: [self.sent("c", BUMP, "x")],
        }.get(seq, list)()


def made_image(folder: str) -> bytes:
    accounts = [
        {"name": name, "balance": "1000", "accountID": strkey.encoded("G", named(name).key), "secret": SECRET}
        for name in NAMES]
    description = json.dumps({"network": NETWORK, "accounts": accounts}).encode()
    path = bridge.write_file(f"{folder}/description", description)
    answer = bridge.run("make", path, "--image", f"{folder}/made", "--records", f"{folder}/none")
    assert answer.status == 0, answer
    return bridge.bytes_at(f"{folder}/made")


def closed_by(folder: str) -> Closing:
    closing = Closing(made_image(folder))
    for seq in range(2, LAST + 1):
        closing.numbers.clear()
        closing.close(closing.transactions(seq))
    return closing


def compared(folder: str, output: bytes) -> bridge.Answer:
    """What `compare` says of an output beside the archive's history."""
    return bridge.run("compare", f"{folder}/history", bridge.write_file(f"{folder}/output", output))


def closed_again(image: bytes, records: bytes) -> bytes:
    """What the ledger in Python prints."""
    output, _, status = ledger_model.catchup(NETWORK, image + records)
    assert status in (0, 3), status
    return output.encode()


def try_compared(tally: Tally, folder: str, image: bytes, records: bytes) -> None:
    """Without vouches the first ledger that keys signed differs; with those that are found all are equal."""
    answer = compared(folder, closed_again(image, records))
    differs = answer.status == 1 and f"ledger {IMAGE_AT + 1}" in answer.out
    tally.check("an archive's records without vouches close to another header", differs, answer)
    answer = compared(folder, closed_again(image, bridge.bytes_at(f"{folder}/vouched")))
    tally.check("an archive's records with vouches close to equal headers", answer == EQUAL, answer)


def try_vouched(tally: Tally, folder: str, closing: Closing) -> None:
    words = ("vouch", f"{folder}/image", f"{folder}/records", "--network", NETWORK, "--out", f"{folder}/vouched")
    answer = bridge.run(*words)
    found = {
        value["ledgerSeq"]: set(bridge_vouch.vouches_in(value))
        for value in bridge_vouch.read_records(bridge.bytes_at(f"{folder}/vouched"))}
    expected = {seq: closing.signed.get(seq, set()) for seq in range(IMAGE_AT + 1, LAST)}
    tally.check("an archive's signatures have their vouches", answer.status == 0 and found == expected, answer)
    count = sum(map(len, expected.values()))
    tally.check("some signatures of an archive are of Ed25519", count == 4 and answer.out.endswith(" 4\n"), answer)


def take_out(tally: Tally, folder: str, made: made_archive.Made) -> None:
    """Packs an archive, and takes an image and records out of it."""
    made_archive.write_archive(f"{folder}/archive", made)
    answers = [
        bridge.run("image", "from-archive", f"{folder}/archive", str(IMAGE_AT), "--out", f"{folder}/image"),
        bridge.run("records", "from-archive", f"{folder}/archive", str(IMAGE_AT + 1), str(LAST - 1),
                   "--out", f"{folder}/records", "--results", f"{folder}/history")]
    tally.check("an image and records are taken out of an archive", answers == [(0, "", "")] * 2, answers)


def try_whole(tally: Tally, folder: str) -> None:
    closing = closed_by(folder)
    codes = set(closing.codes)
    tally.check("transactions succeed by a secret and by a key, and don't by another key", codes == {0, -6, -10}, codes)
    take_out(tally, folder, made_archive.closed(NETWORK.encode(), closing.input))
    image, records = bridge.bytes_at(f"{folder}/image"), bridge.bytes_at(f"{folder}/records")
    is_same = records == b"".join(map(marked, closing.plain[IMAGE_AT - 1:LAST - 2]))
    tally.check("an archive's records are those that closed, without vouches", is_same)
    try_vouched(tally, folder, closing)
    try_compared(tally, folder, image, records)


def check(top: str) -> Tally:
    tally = Tally()
    if bridge_vouch.Ed25519PrivateKey is not None:
        with bridge_forms.scratch() as folder:
            try_whole(tally, folder)
    return tally


def try_program(program: Program, tally: Tally, folder: str) -> None:
    closing = closed_by(folder)
    made = made_archive.closed(NETWORK.encode(), closing.input)
    ran = program.run(["history", "--network", NETWORK], closing.input)
    is_same = (ran.status, ran.out) == (0, made_archive.history_of(made))
    tally.check("the program's history is what the archive is packed from", is_same, (ran.status, ran.err))
    take_out(tally, folder, made)
    bridge.run("vouch", f"{folder}/image", f"{folder}/records", "--network", NETWORK, "--out", f"{folder}/vouched")
    given = bridge.bytes_at(f"{folder}/image") + bridge.bytes_at(f"{folder}/vouched")
    ran = program.run(["catchup", "--network", NETWORK], given)
    answer = compared(folder, ran.out)
    tally.check("the program closes what an archive has to equal headers", (ran.status, answer) == (0, EQUAL), answer)


PARTS = (try_program,)


def check_program(program: Program, part: Callable[[Program, Tally, str], None]) -> Tally:
    """What `run.py` has a process try of a built program."""
    tally = Tally()
    if bridge_vouch.Ed25519PrivateKey is not None:
        with bridge_forms.scratch() as folder:
            part(program, tally, folder)
    return tally
