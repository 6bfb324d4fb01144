"""What a description says of the ledgers after the start: closes, and the transactions of each.

Unproved.
"""

from __future__ import annotations

from dataclasses import dataclass
from typing import List, Optional

import description_values as values
from description import Fields, Node, quoted
from description_names import Names
from operation_description import operation_of
from start_description import Start
from stellar_xdr import ENDS
from xdr import Value

CLOSE_TIME_STEP = 5
MOST_OPERATIONS, MOST_SIGNATURES, MOST_MEMO = 100, 20, 28
SUCCESS = "txSUCCESS"
CODES = tuple(name for name, *_ in ENDS.values())


@dataclass(frozen=True)
class Transaction:
    """A transaction. `secrets` sign it; `seq_num` is None where it is the next one of its source."""

    node: Node
    source: bytes
    # in stroops
    fee: int
    seq_num: Optional[int]
    memo: Value
    operations: List[Value]
    secrets: List[bytes]
    # the name of the code that it has to end with
    expect: str


@dataclass(frozen=True)
class Close:
    """A ledger. `close_time_step` are the seconds after the ledger before it."""

    node: Node
    close_time_step: int
    transactions: List[Transaction]


def memo_of(node: Node) -> Value:
    return {"type": "MEMO_TEXT", "text": values.data(node, 0, MOST_MEMO)}


def code_of(node: Node) -> str:
    if node.text() not in CODES:
        raise node.fault(f"no code of a transaction; these are {', '.join(CODES)}")
    return node.value


def secret_of(node: Node, names: Names) -> bytes:
    """The secret of an item of signedBy: an account with a secret of its own, or another secret."""
    if not isinstance(node.value, str):
        return values.secret(node.fields(("secret",))["secret"])
    key = names.key(node)
    if key not in names.secrets:
        raise node.fault(f"the account {quoted(node.value)} has no secret in the description")
    return names.secrets[key]


def usual_secrets(node: Node, sources: List[bytes], names: Names) -> List[bytes]:
    """The secrets of the source accounts of a transaction and of its operations, each once."""
    for key in sources:
        if key not in names.secrets:
            raise node.fault("a source account has no secret in the description; signedBy says who signs")
    secrets = list(dict.fromkeys(names.secrets[key] for key in sources))
    if len(secrets) > MOST_SIGNATURES:
        raise node.fault(f"{len(secrets)} source accounts would sign, above {MOST_SIGNATURES}")
    return secrets


def fee_of(fields: Fields, node: Node, usual: int) -> int:
    """The fee that is said, or the usual one, in stroops."""
    fee = fields.read("fee", values.u32, usual)
    if fee > values.GREATEST_U32:
        raise node.fault(f"the usual fee, {fee}, is above {values.GREATEST_U32}")
    return fee


def transaction_of(node: Node, start: Start) -> Transaction:
    fields = node.fields(("sourceAccount", "operations"), ("fee", "seqNum", "memo", "signedBy", "expect"))
    names = start.names
    source = names.key(fields["sourceAccount"])
    operations = [operation_of(item, names) for item in fields["operations"].items(MOST_OPERATIONS)]
    if "signedBy" in fields:
        secrets = [secret_of(item, names) for item in fields["signedBy"].items(MOST_SIGNATURES)]
    else:
        others = [operation["sourceAccount"]["ed25519"] for operation in operations if operation["sourceAccount"]]
        secrets = usual_secrets(node, [source, *others], names)
    return Transaction(
        node=node, source=source, fee=fee_of(fields, node, start.base_fee * max(1, len(operations))),
        seq_num=fields.read("seqNum", values.i64, None), memo=fields.read("memo", memo_of, {"type": "MEMO_NONE"}),
        operations=operations, secrets=secrets, expect=fields.read("expect", code_of, SUCCESS),
    )


def close_of(node: Node, start: Start) -> Close:
    """A close. The names of accounts that it makes count from there on. Raises FileFault."""
    fields = node.fields((), ("closeTimeStep", "transactions"))
    step = fields.read("closeTimeStep", values.whole(1, values.GREATEST_U32), CLOSE_TIME_STEP)
    return Close(node, step, [transaction_of(item, start) for item in fields.read("transactions", Node.items, [])])
