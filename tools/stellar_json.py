"""The JSON form of values of Stellar's types: field names as in its XDR files, enums by their names.

Numbers of 64 bits are strings, since readers of JSON lose digits above 2^53; bytes are lower-case hexadecimal;
accounts, muxed accounts and keys of signers are StrKeys; codes of assets and texts are text, in which a byte that isn't
printable ASCII is `\\xNN` and a backslash `\\\\`. A form is made once for each type, as closures. Unproved.
"""

from __future__ import annotations

import json
from functools import lru_cache
from typing import Any, Callable, Dict, Optional

import strkey
from stellar_xdr import ACCOUNT_ID, ED25519, MUXED_ACCOUNT, SIGNER_KEY, Type
from xdr import Array, Choice, Code, Fixed, Formed, Items, Number, Opaque, Option, Struct, Text

# what json.dumps takes
Json = Any
Form = Callable[[Any], Json]

# as many accounts are kept as are met again and again, as issuers are: some 10 MB
KEPT_KEYS = 65536
ESCAPES = {**{byte: f"\\x{byte:02x}" for byte in range(256) if not 0x20 <= byte <= 0x7E}, 0x5C: "\\\\"}
SIGNER_LETTERS = {"SIGNER_KEY_TYPE_ED25519": "G", "SIGNER_KEY_TYPE_PRE_AUTH_TX": "T", "SIGNER_KEY_TYPE_HASH_X": "X"}

account_text = lru_cache(maxsize=KEPT_KEYS)(lambda key: strkey.encoded("G", key))


def text_of(data: bytes) -> str:
    """A text or a code, printable."""
    return data.decode("latin-1").translate(ESCAPES)


def code_text(data: bytes) -> str:
    return text_of(data.rstrip(b"\0"))


def account_id(value: Dict) -> str:
    return account_text(value["ed25519"])


def muxed_account(value: Dict) -> str:
    if "ed25519" in value:
        return account_text(value["ed25519"])
    return strkey.encoded("M", value["med25519"]["ed25519"], value["med25519"]["id"])


def signer_key(value: Dict) -> str:
    name, key = value.values()
    if name == "SIGNER_KEY_TYPE_ED25519_SIGNED_PAYLOAD":
        return strkey.encoded("P", key["ed25519"], payload=key["payload"])
    return strkey.encoded(SIGNER_LETTERS[name], key)


STRKEYS: Dict[int, Form] = {
    id(ACCOUNT_ID): account_id, id(ED25519): account_text, id(MUXED_ACCOUNT): muxed_account, id(SIGNER_KEY): signer_key,
}
forms: Dict[int, Optional[Form]] = {}


def form_of(kind: Type) -> Optional[Form]:
    """What makes the JSON form of a type's values; None where they are their own form."""
    if id(kind) not in forms:
        forms[id(kind)] = STRKEYS[id(kind)] if id(kind) in STRKEYS else made_form(kind)
    return forms[id(kind)]


def made_form(kind: Type) -> Optional[Form]:
    if isinstance(kind, Number):
        return str if kind.has_64_bits else None
    if isinstance(kind, Struct):
        return struct_form(kind.fields)
    if isinstance(kind, Formed):
        # fields of one name have one type in both forms
        return struct_form({**kind.plain.fields, **kind.other.fields})
    if isinstance(kind, Choice):
        return choice_form(kind)
    if isinstance(kind, Option):
        form = form_of(kind.item)
        return form and (lambda value: None if value is None else form(value))
    if isinstance(kind, (Items, Array)):
        form = form_of(kind.item)
        return form and (lambda value: [form(item) for item in value])
    if isinstance(kind, (Code, Text)):
        return code_text if isinstance(kind, Code) else text_of
    return bytes.hex if isinstance(kind, (Fixed, Opaque)) else None


def struct_form(kinds: Dict[str, Type]) -> Form:
    fields = {name: form_of(kind) for name, kind in kinds.items()}

    def form(value: Dict) -> Json:
        made = {}
        for name, field in value.items():
            form_field = fields[name]
            made[name] = field if form_field is None else form_field(field)
        return made

    return form


def choice_form(kind: Choice) -> Form:
    switch = kind.switch
    arms = {name: (field, arm and form_of(arm)) for name, field, arm in kind.arms.values()}

    def form(value: Dict) -> Json:
        field, form_arm = arms[value[switch]]
        return value if form_arm is None else {switch: value[switch], field: form_arm(value[field])}

    return form


def json_of(kind: Type, value: Any) -> Json:
    """The JSON form of a value, as json.dumps takes it. It may share parts with the value."""
    form = form_of(kind)
    return value if form is None else form(value)


encode = json.JSONEncoder(separators=(",", ":")).encode
