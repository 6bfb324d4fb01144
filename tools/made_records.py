"""The records of a description's closes, each of which the Python ledger closes, since the next one names its header.

What the description expects of a transaction is compared with what it ended with there. Unproved.
"""

from __future__ import annotations

from collections import Counter
from typing import Iterator, List, NamedTuple

from close_description import SUCCESS, Close, Transaction, close_of
from description import Node
from description_names import muxed_account
from description_values import GREATEST
from hash_x import hash_x_signature
from image_bytes import marked, sha256
from made_ledger import NO_EXT, made_image
from python_ledger import PythonLedger, Refusal
from record_stream import MOST_RECORD
from start_description import start_of
from stellar_xdr import CLOSE_RECORD, TRANSACTION, TRANSACTION_ENVELOPE, TRANSACTION_RESULT
from xdr import I64, U32, Value, read_entire, write

ENVELOPE_TYPE_TX = write(U32, 2)


class Made(NamedTuple):
    """What a description makes: an image, the records after their marks, what `catchup` has to print for them, and a
    line for each transaction that ended otherwise than the description expects."""

    image: bytes
    records: List[bytes]
    output: str
    differences: List[str]


class Sent(NamedTuple):
    """A transaction of a record: its hash and its envelope."""

    transaction: Transaction
    hash: bytes
    envelope: Value


def signed(transaction: Transaction, seq_num: int, network_id: bytes) -> Sent:
    tx = {
        "sourceAccount": muxed_account(transaction.source), "fee": transaction.fee, "seqNum": seq_num,
        "cond": {"type": "PRECOND_NONE"}, "memo": transaction.memo, "operations": transaction.operations, "ext": NO_EXT,
    }
    signatures = [hash_x_signature(secret) for secret in transaction.secrets]
    digest = sha256(network_id + ENVELOPE_TYPE_TX + write(TRANSACTION, tx))
    return Sent(transaction, digest, {"type": "ENVELOPE_TYPE_TX", "v1": {"tx": tx, "signatures": signatures}})


def sent_of(ledger: PythonLedger, close: Close) -> Iterator[Sent]:
    """The transactions of a close. Where its sequence number isn't said, a transaction has the one after those of its
    source before it in the list. Raises FileFault where a source doesn't exist when the ledger begins."""
    sent_before: Counter = Counter()
    for transaction in close.transactions:
        last = ledger.seq_num(transaction.source)
        if last is None:
            raise transaction.node.fault_at("sourceAccount", "this account doesn't exist when the ledger begins")
        sent_before[transaction.source] += 1
        following = min(last + sent_before[transaction.source], GREATEST)
        seq_num = following if transaction.seq_num is None else transaction.seq_num
        yield signed(transaction, seq_num, ledger.network_id)


def record_of(ledger: PythonLedger, close: Close, sent: List[Sent]) -> bytes:
    """The CloseRecord of the next ledger. Raises FileFault where it is too long."""
    envelopes = [write(TRANSACTION_ENVELOPE, one.envelope) for one in sent]
    set_hash = sha256(ledger.hash + b"".join(sorted(envelopes, key=sha256)))
    time = ledger.close_time + close.close_time_step
    record = write(CLOSE_RECORD, {
        "ledgerSeq": ledger.ledger_seq + 1,
        "txSet": {"previousLedgerHash": ledger.hash, "txs": [one.envelope for one in sent]},
        "scpValue": {"txSetHash": set_hash, "closeTime": time, "upgrades": [], "ext": {"v": "STELLAR_VALUE_BASIC"}},
    })
    if len(record) > MOST_RECORD:
        raise close.node.fault(f"its record has {len(record)} bytes, above {MOST_RECORD}")
    return record


def operation_code(result: Value) -> str:
    """The code of an OperationResult, that of its type where it ran."""
    if result["code"] != "opINNER":
        return result["code"]
    return list(result["tr"].values())[1]["code"]


def result_text(ledger: PythonLedger, sent: Sent) -> str:
    """What a transaction ended with: its code, and those of its operations where it failed by one."""
    encoded = write(I64, 0) + ledger.result(sent.hash) + write(U32, 0)
    result = read_entire(TRANSACTION_RESULT, encoded)["result"]
    codes = [operation_code(one) for one in result.get("results", ())]
    return result["code"] if result["code"] == SUCCESS or not codes else f"{result['code']} of {', '.join(codes)}"


def differences(ledger: PythonLedger, sent: List[Sent]) -> Iterator[str]:
    """A line for each transaction of the last record that ended otherwise than expected."""
    for one in sent:
        ended = result_text(ledger, one)
        if ended.split()[0] != one.transaction.expect:
            yield str(one.transaction.node.fault(f"expected {one.transaction.expect}, but it ends with {ended}"))


def opened_ledger(network: bytes, image: bytes, node: Node) -> PythonLedger:
    try:
        return PythonLedger(network, image)
    except Refusal as why:
        raise node.fault(f"the start image would break {why} of docs/FORMATS.md") from None


def made_from(node: Node) -> Made:
    """All that a description makes. Raises FileFault where it is none, or asks for what no ledger can have."""
    start = start_of(node)
    image = made_image(start)
    ledger = opened_ledger(start.network, image, node)
    made = Made(image, [], "", [])
    output = []
    for close_node in start.ledgers:
        close = close_of(close_node, start)
        sent = list(sent_of(ledger, close))
        record = record_of(ledger, close, sent)
        try:
            output.append(ledger.close(record))
        except Refusal as why:
            raise close_node.fault(f"the record would be refused: {why}") from None
        made.records.append(marked(record))
        made.differences.extend(differences(ledger, sent))
    return made._replace(output="".join([*output, ledger.last_line()]))
