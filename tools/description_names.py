"""The accounts that a description names, each by a short name or by its StrKey, and the assets that they issue.

The public key of a name is the SHA-256 of the name's bytes, unless the description gives a StrKey. Nobody holds the
secret key of such a public key; a ledger whose Ed25519 signatures match nothing needs none. Unproved.
"""

from __future__ import annotations

import hashlib
import re
from typing import Dict, Optional

import strkey
from description import Node, quoted
from xdr import Value

NAME = re.compile(r"[A-Za-z][A-Za-z0-9_-]{0,31}")
CODE = re.compile(r"[A-Za-z0-9]{1,12}")
STRKEY_LENGTH = 56
NATIVE: Value = {"type": "ASSET_TYPE_NATIVE"}


def strkey_account(node: Node) -> bytes:
    """The key of an account's StrKey (G). Raises FileFault."""
    try:
        key = strkey.decoded(node.text())
    except ValueError as why:
        raise node.fault(f"{quoted(node.value)} is no account: {why}") from None
    if key.letter != "G":
        raise node.fault(f"{quoted(node.value)} is no account, but {strkey.NAMES[key.letter]}")
    return key.key


def account_id(key: bytes) -> Value:
    """The AccountID of a key."""
    return {"type": "PUBLIC_KEY_TYPE_ED25519", "ed25519": key}


def muxed_account(key: bytes) -> Value:
    """The MuxedAccount of a key, without an id."""
    return {"type": "KEY_TYPE_ED25519", "ed25519": key}


def credit(code: str, issuer: bytes) -> Value:
    """An issued asset, of a code of 1 to 12 letters and digits."""
    size = 4 if len(code) <= 4 else 12
    body = {"assetCode": code.encode("ascii").ljust(size, b"\0"), "issuer": account_id(issuer)}
    return {"type": f"ASSET_TYPE_CREDIT_ALPHANUM{size}", f"alphaNum{size}": body}


def issuer_of(asset: Value) -> bytes:
    """The key of an asset's issuer; no bytes for lumens."""
    body = asset.get("alphaNum4") or asset.get("alphaNum12")
    return body["issuer"]["ed25519"] if body else b""


class Names:
    """The keys of the names so far, and by their keys the secrets of the accounts that have one."""

    def __init__(self) -> None:
        self.keys: Dict[str, bytes] = {}
        self.names: Dict[bytes, str] = {}
        self.secrets: Dict[bytes, bytes] = {}

    def add(self, node: Node, key: Optional[bytes] = None) -> bytes:
        """The key of a name that hasn't been used: the one that is given, or that of the name. Raises FileFault."""
        name = node.text()
        if not NAME.fullmatch(name):
            raise node.fault(f"{quoted(name)} is no name: a letter, and at most 31 letters, digits, - or _ after it")
        if name in self.keys:
            raise node.fault(f"{quoted(name)} is the name of another account, too")
        key = hashlib.sha256(name.encode("ascii")).digest() if key is None else key
        if key in self.names:
            raise node.fault(f"{quoted(name)} has the key of {quoted(self.names[key])}")
        self.keys[name], self.names[key] = key, name
        return key

    def key(self, node: Node) -> bytes:
        """The key of an account, by its name or StrKey. Raises FileFault."""
        name = node.text()
        if name in self.keys:
            return self.keys[name]
        if len(name) == STRKEY_LENGTH and name.startswith("G"):
            return strkey_account(node)
        raise node.fault(f"no account has the name {quoted(name)} here")

    def new_key(self, node: Node) -> bytes:
        """The key of an account that may be a new one, whose name counts from here on. Raises FileFault."""
        name = node.text()
        return self.key(node) if name in self.keys or len(name) == STRKEY_LENGTH else self.add(node)

    def asset(self, node: Node) -> Value:
        """An Asset, which a description has as "native" or "CODE:issuer". Raises FileFault."""
        text = node.text()
        if text == "native":
            return NATIVE
        code, colon, issuer = text.partition(":")
        if not colon or not CODE.fullmatch(code):
            raise node.fault(f'{quoted(text)} is no asset, as "native" or "USD:issuer", with 1 to 12 letters or digits')
        return credit(code, self.key(Node(node.file, node.place, issuer)))

    def credit_asset(self, node: Node) -> Value:
        """An Asset that isn't lumens. Raises FileFault."""
        asset = self.asset(node)
        if asset == NATIVE:
            raise node.fault("there are no lines of lumens")
        return asset
