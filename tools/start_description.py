"""What a description says of the start: the network, the numbers of the header, accounts, trust lines and offers.

Amounts are in units of 10^-7, fees and reserves in stroops, times in seconds since 1970. Readers raise FileFault.
Unproved.
"""

from __future__ import annotations

from dataclasses import dataclass
from typing import Dict, List, Optional

import description_values as values
from description import Fields, Node
from description_names import Names, issuer_of, strkey_account
from xdr import Value

GREATEST_LEDGER = 2**31 - 1
MOST_PASSPHRASE = 65536
positive = values.whole(1, values.GREATEST_U32)
# as the public network has them at protocol 18
BASE_FEE, BASE_RESERVE, MAX_TX_SET_SIZE = 100, 5_000_000, 1000
# a new account's: the weight of its master key, and its low, medium and high threshold
THRESHOLDS = {"masterWeight": 1, "lowThreshold": 0, "medThreshold": 0, "highThreshold": 0}
START_FIELDS = (
    "ledgerSeq", "closeTime", "baseFee", "baseReserve", "maxTxSetSize", "feePool", "trustLines", "offers", "ledgers",
)


@dataclass(frozen=True)
class Account:
    node: Node
    key: bytes
    balance: int
    seq_num: int
    secret: Optional[bytes]
    thresholds: bytes
    flags: int
    home_domain: bytes


@dataclass(frozen=True)
class TrustLine:
    node: Node
    key: bytes
    asset: Value
    balance: int
    limit: int
    flags: int


@dataclass(frozen=True)
class Offer:
    node: Node
    seller: bytes
    selling: Value
    buying: Value
    amount: int
    price: Value
    flags: int


@dataclass(frozen=True)
class Start:
    """What the start image is made of. `ledgers` is the description's list of closes, as it is."""

    node: Node
    names: Names
    network: bytes
    ledger_seq: int
    close_time: int
    base_fee: int
    base_reserve: int
    max_tx_set_size: int
    fee_pool: int
    accounts: List[Account]
    trust_lines: List[TrustLine]
    offers: List[Offer]
    ledgers: List[Node]


def network_of(node: Node) -> bytes:
    """The bytes of a passphrase that can be a word of a command line."""
    if not node.text() or not node.text().isprintable():
        raise node.fault("a passphrase is a text of one or more printable characters")
    return values.data(node, 1, MOST_PASSPHRASE)


def thresholds_of(node: Node) -> bytes:
    fields = node.fields((), tuple(THRESHOLDS))
    return bytes(fields.read(name, lambda said: said.whole(0, 255), usual) for name, usual in THRESHOLDS.items())


def account_flags(node: Node) -> int:
    said = values.flags(values.ACCOUNT_FLAGS)(node)
    if said & 8 and not said & 2:
        raise node.fault("AUTH_CLAWBACK_ENABLED_FLAG asks for AUTH_REVOCABLE_FLAG")
    return said


def account_of(node: Node, names: Names) -> Account:
    """An account, whose name counts from here on."""
    fields = node.fields(
        ("name", "balance"), ("accountID", "secret", "seqNum", "thresholds", "flags", "homeDomain"))
    key = names.add(fields["name"], fields.read("accountID", strkey_account, None))
    secret = fields.read("secret", values.secret, None)
    if secret is not None:
        names.secrets[key] = secret
    return Account(
        node=node, key=key, balance=values.amount(fields["balance"]), seq_num=fields.read("seqNum", values.i64, 0),
        secret=secret, thresholds=fields.read("thresholds", thresholds_of, bytes(THRESHOLDS.values())),
        flags=fields.read("flags", account_flags, 0),
        home_domain=fields.read("homeDomain", lambda said: values.printable(said, 0, 32), b""),
    )


def line_flags(node: Node) -> int:
    said = values.flags(values.TRUST_LINE_FLAGS)(node)
    if said & 3 == 3:
        raise node.fault("AUTHORIZED_FLAG and AUTHORIZED_TO_MAINTAIN_LIABILITIES_FLAG exclude each other")
    return said


def trust_line_of(node: Node, names: Names, issuers: Dict[bytes, int]) -> TrustLine:
    """A trust line. `issuers` are the flags of each account. Where the line's own flags aren't said, they are those
    that CHANGE_TRUST gives: authorised where the issuer doesn't ask for that, with clawback where the issuer has it."""
    fields = node.fields(("account", "asset"), ("balance", "limit", "flags"))
    key, asset = names.key(fields["account"]), names.credit_asset(fields["asset"])
    if issuer_of(asset) == key:
        raise fields["asset"].fault("an issuer has no line in its own asset")
    limit = fields.read("limit", values.positive_amount, values.GREATEST)
    balance = fields.read("balance", values.amount, 0)
    if balance > limit:
        raise fields["balance"].fault(f"above the limit of {values.amount_text(limit)}")
    issuer = issuers.get(issuer_of(asset), 0)
    usual = (0 if issuer & 1 else 1) | (4 if issuer & 8 else 0)
    return TrustLine(
        node=node, key=key, asset=asset, balance=balance, limit=limit, flags=fields.read("flags", line_flags, usual))


def offer_of(node: Node, names: Names) -> Offer:
    fields = node.fields(("seller", "selling", "buying", "amount", "price"), ("flags",))
    selling, buying = names.asset(fields["selling"]), names.asset(fields["buying"])
    if selling == buying:
        raise fields["buying"].fault("the same asset is sold")
    return Offer(
        node=node, seller=names.key(fields["seller"]), selling=selling, buying=buying,
        amount=values.positive_amount(fields["amount"]), price=values.price(fields["price"]),
        flags=fields.read("flags", values.flags(values.OFFER_FLAGS), 0),
    )


def closes_of(fields: Fields, ledger_seq: int) -> List[Node]:
    ledgers = fields.read("ledgers", Node.items, [])
    if ledger_seq + len(ledgers) > GREATEST_LEDGER:
        raise fields["ledgers"].fault(f"the last of them would be above ledger {GREATEST_LEDGER}")
    return ledgers


def start_of(node: Node) -> Start:
    """The start of a description."""
    fields = node.fields(("network", "accounts"), START_FIELDS)
    names, ledger_seq = Names(), fields.read("ledgerSeq", values.whole(1, GREATEST_LEDGER), 1)
    accounts = [account_of(item, names) for item in fields["accounts"].items()]
    flags = {account.key: account.flags for account in accounts}
    lines = [trust_line_of(item, names, flags) for item in fields.read("trustLines", Node.items, [])]
    offers = [offer_of(item, names) for item in fields.read("offers", Node.items, [])]
    return Start(
        node=node, names=names, network=network_of(fields["network"]), ledger_seq=ledger_seq,
        close_time=fields.read("closeTime", values.i64, 0), base_fee=fields.read("baseFee", positive, BASE_FEE),
        base_reserve=fields.read("baseReserve", positive, BASE_RESERVE),
        max_tx_set_size=fields.read("maxTxSetSize", values.u32, MAX_TX_SET_SIZE),
        fee_pool=fields.read("feePool", values.amount, 0), accounts=accounts, trust_lines=lines, offers=offers,
        ledgers=closes_of(fields, ledger_seq),
    )
