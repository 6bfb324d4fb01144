"""The operations of a description: the types that it may have, and the fields of each, by Stellar's names.

A type is a line of OPERATIONS; with one more line a description may have one more type. Accounts are named, assets,
amounts and prices are texts (description_values.py), other numbers are numbers. Readers raise FileFault. Unproved.
"""

from __future__ import annotations

from typing import Any, Callable, Dict, NamedTuple, Tuple

import description_values as values
from description import Node
from description_names import Names, account_id, muxed_account
from hash_x import hash_x_signer
from stellar_xdr import OPERATIONS as TYPES
from xdr import Struct, Value

Reader = Callable[[Node, Names], Value]
REQUIRED: Any = object()


class Field(NamedTuple):
    """A field of an operation: its name, how it is read, and its value where it isn't said."""

    name: str
    read: Reader
    default: Value = REQUIRED


def account(node: Node, names: Names) -> Value:
    return account_id(names.key(node))


def new_account(node: Node, names: Names) -> Value:
    return account_id(names.new_key(node))


def muxed(node: Node, names: Names) -> Value:
    return muxed_account(names.key(node))


def asset(node: Node, names: Names) -> Value:
    return names.asset(node)


def path(node: Node, names: Names) -> Value:
    return [names.asset(item) for item in node.items(5)]


def plain(read: Callable[[Node], Value]) -> Reader:
    """A reader that needs no names."""
    return lambda node, names: read(node)


def printable(least: int, most: int) -> Reader:
    return lambda node, names: values.printable(node, least, most)


def data_value(node: Node, names: Names) -> Value:
    return None if node.value is None else values.data(node, 0, 64)


def signer(node: Node, names: Names) -> Value:
    """A hash-x signer of a secret; weight 0 takes it away."""
    fields = node.fields(("secret",), ("weight",))
    return hash_x_signer(values.secret(fields["secret"]), fields.read("weight", values.u32, 1))


amount, price, u32, i64 = plain(values.amount), plain(values.price), plain(values.u32), plain(values.i64)
account_flags, line_flags = plain(values.flags(values.ACCOUNT_FLAGS)), plain(values.flags(values.TRUST_LINE_FLAGS))
SELL = (Field("selling", asset), Field("buying", asset), Field("amount", amount), Field("price", price))
OPERATIONS: Dict[str, Tuple[Field, ...]] = {
    "CREATE_ACCOUNT": (Field("destination", new_account), Field("startingBalance", amount)),
    "PAYMENT": (Field("destination", muxed), Field("asset", asset), Field("amount", amount)),
    "PATH_PAYMENT_STRICT_RECEIVE": (
        Field("sendAsset", asset), Field("sendMax", amount), Field("destination", muxed), Field("destAsset", asset),
        Field("destAmount", amount), Field("path", path, [])),
    "MANAGE_SELL_OFFER": (*SELL, Field("offerID", i64, 0)),
    "CREATE_PASSIVE_SELL_OFFER": SELL,
    "SET_OPTIONS": (
        Field("inflationDest", account, None), Field("clearFlags", account_flags, None),
        Field("setFlags", account_flags, None), Field("masterWeight", u32, None), Field("lowThreshold", u32, None),
        Field("medThreshold", u32, None), Field("highThreshold", u32, None),
        Field("homeDomain", printable(0, 32), None), Field("signer", signer, None)),
    "CHANGE_TRUST": (Field("line", asset), Field("limit", amount, values.GREATEST)),
    "ACCOUNT_MERGE": (Field("destination", muxed),),
    "MANAGE_DATA": (Field("dataName", printable(1, 64)), Field("dataValue", data_value)),
    "BUMP_SEQUENCE": (Field("bumpTo", i64),),
    "MANAGE_BUY_OFFER": (
        Field("selling", asset), Field("buying", asset), Field("buyAmount", amount), Field("price", price),
        Field("offerID", i64, 0)),
    "PATH_PAYMENT_STRICT_SEND": (
        Field("sendAsset", asset), Field("sendAmount", amount), Field("destination", muxed), Field("destAsset", asset),
        Field("destMin", amount), Field("path", path, [])),
    "SET_TRUST_LINE_FLAGS": (
        Field("trustor", account), Field("asset", asset), Field("clearFlags", line_flags, 0),
        Field("setFlags", line_flags, 0)),
}
# the name of the field that has what an operation is about, and whether that is a struct
BODIES = {name: (field, isinstance(kind, Struct)) for name, field, kind in TYPES}


def operation_of(node: Node, names: Names) -> Value:
    """An Operation."""
    # the type says which other fields there are
    kind = node.field("type")
    if kind.text() not in OPERATIONS:
        raise kind.fault(f"no operation of a description; these are {', '.join(OPERATIONS)}")
    known = OPERATIONS[kind.value]
    required = [field.name for field in known if field.default is REQUIRED]
    optional = [field.name for field in known if field.default is not REQUIRED]
    fields = node.fields(("type", *required), (*optional, "sourceAccount"))
    source = muxed(fields["sourceAccount"], names) if "sourceAccount" in fields else None
    said = {one.name: one.read(fields[one.name], names) if one.name in fields else one.default for one in known}
    arm, is_struct = BODIES[kind.value]
    return {"sourceAccount": source, "body": {"type": kind.value, arm: said if is_struct else said[known[0].name]}}
