"""Values of Stellar's types as lines for people, made from their JSON form (stellar_json.py).

Fields are `name value` with Stellar's names, two spaces apart; fields that are absent or empty are left out, and an
amount has its asset after it, in place of that one's own field. Amounts are in units of 10^-7, prices n/d. Unproved.
"""

from __future__ import annotations

from datetime import datetime, timezone
from typing import Dict, Iterator, List, Optional, Tuple

from stellar_json import Json
from stellar_xdr import LEDGER_UPGRADE
from xdr import XdrFault, read_entire

GAP = "  "
# of which of the other fields an amount is; of lumens where none of them is there and the last name is ""
AMOUNTS = {
    "balance": ("asset", ""), "limit": ("asset", "line"), "amount": ("asset", "selling"), "buyAmount": ("buying",),
    "startingBalance": ("",), "sendMax": ("sendAsset",), "sendAmount": ("sendAsset",), "destAmount": ("destAsset",),
    "destMin": ("destAsset",), "reserveA": ("assetA",), "reserveB": ("assetB",), "totalCoins": ("",), "feePool": ("",),
    "liabilities.buying": ("asset", ""), "liabilities.selling": ("asset", ""), "amountSold": ("assetSold",),
    "amountBought": ("assetBought",), "sourceAccountBalance": ("",),
}
# structs and unions whose name is kept before those of their fields
PREFIXES = ("liabilities", "signer")
# discriminants that say no more than the field after them
PLAIN = ("CLAIMANT_TYPE_V0", "LIQUIDITY_POOL_CONSTANT_PRODUCT", "PRECOND_NONE", "PRECOND_TIME", "PRECOND_V2")
# how discriminants begin of unions that are written in one word
WORDS = ("ASSET_TYPE_", "CLAIM_PREDICATE_", "CLAIMABLE_BALANCE_ID_")
TYPE_WIDTH = 17
# the first second of the year 10000, which no date reaches
NO_DATE = 253402300800


def asset_text(asset: Dict) -> str:
    """`native`, CODE:ISSUER, or `pool` and the id or terms of a pool."""
    kind, *arm = asset.values()
    if kind == "ASSET_TYPE_NATIVE":
        return "native"
    if kind == "ASSET_TYPE_POOL_SHARE":
        return f"pool:{arm[0]}" if isinstance(arm[0], str) else f"pool({GAP.join(fields_of(arm[0]))})"
    return f"{arm[0]['assetCode']}:{arm[0]['issuer']}" if isinstance(arm[0], dict) else arm[0]


def predicate_text(predicate: Dict) -> str:
    kind, *arm = predicate.values()
    name = kind[len("CLAIM_PREDICATE_"):].lower()
    if not arm:
        return name
    if isinstance(arm[0], str):
        return f"{name}({arm[0]})"
    parts = arm[0] if isinstance(arm[0], list) else [arm[0]]
    return f"{name}({', '.join('-' if part is None else predicate_text(part) for part in parts)})"


def brief(value: Json) -> str:
    """A value in one word or a few."""
    if isinstance(value, list):
        return "[" + ", ".join("-" if item is None else brief(item) for item in value) + "]"
    if not isinstance(value, dict):
        return str(value)
    kind = str(value.get("type", ""))
    if kind.startswith("ASSET_TYPE_"):
        return asset_text(value)
    if kind.startswith("CLAIM_PREDICATE_"):
        return predicate_text(value)
    if kind.startswith("CLAIMABLE_BALANCE_ID_"):
        return value["v0"]
    return f"{value['n']}/{value['d']}" if list(value) == ["n", "d"] else " ".join(fields_of(value))


def is_leaf(value: Json) -> bool:
    if not isinstance(value, dict):
        return True
    return str(value.get("type", "")).startswith(WORDS) or list(value) == ["n", "d"]


def flat(value: Dict, prefix: str = "") -> Iterator[Tuple[str, Json]]:
    """The fields of a value and of those inside it by their names, in their order; no absent or empty ones."""
    for name, field in value.items():
        if name == "v" or field in (None, "", []) or name == "type" and field in PLAIN:
            continue
        if is_leaf(field):
            yield prefix + name, field
        else:
            yield from flat(field, f"{name}." if name in PREFIXES else prefix)


def asset_field(name: str, fields: Dict[str, Json]) -> Optional[str]:
    """The name of the field that has an amount's asset; "" where that is lumens, and None where nothing says it."""
    return next((asset for asset in AMOUNTS.get(name, ()) if asset == "" or asset in fields), None)


def fields_of(value: Dict) -> List[str]:
    """Each field of a value as `name value`; a discriminant without its name."""
    pairs = list(flat(value))
    fields = dict(pairs)
    assets = {name: asset_field(name, fields) for name in fields}
    shown = {None: "", "": " native", **{name: f" {brief(fields[name])}" for name in assets.values() if name}}
    return [
        brief(field) if name == "type" else f"{name} {brief(field)}{shown[assets[name]]}"
        for name, field in pairs if name not in shown
    ]


def entry_text(entry: Dict) -> str:
    """A line of a LedgerEntry."""
    kind, body = entry["data"].values()
    rest = {name: field for name, field in entry.items() if name != "data"}
    return GAP.join([f"{kind:{TYPE_WIDTH}}", *fields_of(body), *fields_of(rest)])


def bucket_entry_text(value: Dict) -> str:
    """A line of a BucketEntry."""
    name, body = value.values()
    if name in ("LIVEENTRY", "INITENTRY"):
        return f"{name:9}{GAP}{entry_text(body)}"
    kind, key = body.values() if name == "DEADENTRY" else ("", body)
    return GAP.join([f"{name:9}", f"{kind:{TYPE_WIDTH}}", *fields_of(key)])


def upgrade_text(data: str) -> str:
    """An upgrade by its name, or its bytes where it doesn't read."""
    try:
        kind, value = read_entire(LEDGER_UPGRADE, bytes.fromhex(data)).values()
        return f"{kind} {value}"
    except XdrFault:
        return data


def time_text(seconds: str) -> str:
    """Seconds since 1970, and the date in UTC where there is one."""
    if int(seconds) >= NO_DATE:
        return seconds
    return f"{seconds} ({datetime.fromtimestamp(int(seconds), timezone.utc):%Y-%m-%d %H:%M:%S} UTC)"


def header_lines(header: Dict, digest: str) -> List[str]:
    """The lines of a LedgerHeader, one for each field, after one of its ledger and hash."""
    value = dict(header["scpValue"])
    fields = {**header, "scpValue": {**value, "closeTime": time_text(value["closeTime"]), "upgrades": upgrades(value)}}
    fields["skipList"] = {f"skipList[{index}]": skipped for index, skipped in enumerate(header["skipList"])}
    rows = [field.partition(" ") for field in fields_of(fields)]
    width = max(len(name) for name, _, _ in rows)
    return [f"ledger {header['ledgerSeq']}{GAP}{digest}", *(f"{name:{width}}{GAP}{text}" for name, _, text in rows)]


def upgrades(value: Dict) -> List[str]:
    return [upgrade_text(upgrade) for upgrade in value["upgrades"]]


def record_lines(record: Dict, count: int) -> List[str]:
    """The lines of a CloseRecord: one of its ledger, one a transaction, one an operation, one a vouch.

    `count` is how many transactions the record has; it may list fewer.
    """
    value, txs = record["scpValue"], record["txSet"]["txs"]
    asked = [f"upgrades {brief(upgrades(value))}"] if value["upgrades"] else []
    shown = [] if count == len(txs) else [f"shown {len(txs)}"]
    head = [f"ledger {record['ledgerSeq']}", f"closeTime {time_text(value['closeTime'])}", f"transactions {count}"]
    form = [f"vouches {len(record['vouches'])}"] if "vouches" in record else []
    lines = [GAP.join([*head, *shown, *asked, *form]), *(line for tx in txs for line in transaction_lines(tx))]
    return lines + [GAP.join(["  VOUCH", *fields_of(vouch)]) for vouch in record.get("vouches", ())]


def transaction_lines(envelope: Dict) -> List[str]:
    """The lines of a TransactionEnvelope; that of a fee bump is before those of what it pays for."""
    kind, signed = envelope.values()
    tx = signed["tx"]
    hints = " ".join(signature["hint"] for signature in signed["signatures"]) or "none"
    head = {name: field for name, field in tx.items() if name not in ("operations", "innerTx", "fee", "memo")}
    memo = [f"memo {brief(list(tx['memo'].values()))}"] if len(tx.get("memo", ())) > 1 else []
    source, *rest = fields_of(head)
    line = GAP.join([f"  {kind}", source, f"fee {tx['fee']} native", *rest, *memo, f"hints {hints}"])
    if "innerTx" in tx:
        return [line, *(f"  {inner}" for inner in transaction_lines(tx["innerTx"]))]
    return [line, *(f"    {operation_text(operation)}" for operation in tx["operations"])]


def operation_text(operation: Dict) -> str:
    """A line of an Operation."""
    kind, *arm = operation["body"].values()
    source = [] if operation["sourceAccount"] is None else [f"sourceAccount {operation['sourceAccount']}"]
    if arm and isinstance(arm[0], str):
        # the account that ACCOUNT_MERGE is made into
        return GAP.join([kind, *source, f"destination {arm[0]}"])
    return GAP.join([kind, *source, *(fields_of(arm[0]) if arm else [])])
