"""The values that a description writes as texts: amounts, prices, flags, and texts of so many bytes.

An amount is a decimal number in units of its asset, as "12.5", with at most seven digits after the point; what is read
is that in units of 10^-7, which are stroops for lumens. Each reader raises FileFault for a value of another form.
Unproved.
"""

from __future__ import annotations

import re
from typing import Callable, Dict

from description import Node, quoted
from xdr import Value

# units of 10^-7 in one unit of an asset
UNIT = 10_000_000
GREATEST, GREATEST_U32 = 2**63 - 1, 2**32 - 1
GREATEST_PRICE = 2**31 - 1
AMOUNT = re.compile(r"(0|[1-9][0-9]*)(?:\.([0-9]{1,7}))?")
PRICE = re.compile(r"([1-9][0-9]{0,9})/([1-9][0-9]{0,9})")

ACCOUNT_FLAGS = {
    "AUTH_REQUIRED_FLAG": 1, "AUTH_REVOCABLE_FLAG": 2, "AUTH_IMMUTABLE_FLAG": 4, "AUTH_CLAWBACK_ENABLED_FLAG": 8,
}
TRUST_LINE_FLAGS = {
    "AUTHORIZED_FLAG": 1, "AUTHORIZED_TO_MAINTAIN_LIABILITIES_FLAG": 2, "TRUSTLINE_CLAWBACK_ENABLED_FLAG": 4,
}
OFFER_FLAGS = {"PASSIVE_FLAG": 1}


def whole(least: int, most: int) -> Callable[[Node], int]:
    """The reader of a whole number between bounds."""
    return lambda node: node.whole(least, most)


u32, i64 = whole(0, GREATEST_U32), whole(0, GREATEST)


def amount(node: Node) -> int:
    """An amount of 0 or more, in units of 10^-7."""
    found = AMOUNT.fullmatch(node.text())
    if not found or len(found[1]) > 12:
        raise node.fault(f'{quoted(node.value)} is no amount, as "12.5", of at most 7 digits after the point')
    units = int(found[1]) * UNIT + int((found[2] or "").ljust(7, "0"))
    if units > GREATEST:
        raise node.fault(f"{quoted(node.value)} is above 922337203685.4775807")
    return units


def positive_amount(node: Node) -> int:
    """An amount above 0, in units of 10^-7."""
    units = amount(node)
    if units == 0:
        raise node.fault("an amount above 0 is asked for")
    return units


def amount_text(units: int) -> str:
    """Units of 10^-7 as an amount."""
    whole, rest = divmod(units, UNIT)
    return f"{whole}.{rest:07}".rstrip("0").rstrip(".")


def price(node: Node) -> Value:
    """A Price, which a description has as "n/d": n units of what is bought for d of what is sold."""
    found = PRICE.fullmatch(node.text())
    if not found or max(int(found[1]), int(found[2])) > GREATEST_PRICE:
        raise node.fault(f'{quoted(node.value)} is no price, as "3/2", of numbers from 1 to {GREATEST_PRICE}')
    return {"n": int(found[1]), "d": int(found[2])}


def flags(names: Dict[str, int]) -> Callable[[Node], int]:
    """The reader of a list of flags by their names; what it answers is their sum."""
    def read_flags(node: Node) -> int:
        said = 0
        for item in node.items():
            if item.text() not in names:
                raise item.fault(f"no flag {quoted(item.value)}; the flags are {', '.join(names)}")
            said |= names[item.text()]
        return said

    return read_flags


def data(node: Node, least: int, most: int) -> bytes:
    """The UTF-8 bytes of a text, so many of them."""
    try:
        found = node.text().encode("utf-8")
    except UnicodeEncodeError:
        raise node.fault("half a character") from None
    if not least <= len(found) <= most:
        raise node.fault(f"a text of {len(found)} bytes, not of {least} to {most}")
    return found


def printable(node: Node, least: int, most: int) -> bytes:
    """The bytes of a text of printable ASCII, so many of them."""
    found = data(node, least, most)
    if not all(0x20 <= byte <= 0x7E for byte in found):
        raise node.fault("a character that isn't of printable ASCII")
    return found


def secret(node: Node) -> bytes:
    """The secret of a hash-x signer: a text of 1 to 64 bytes."""
    return data(node, 1, 64)
