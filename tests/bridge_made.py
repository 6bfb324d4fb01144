"""Whether the ledgers that tools/stellar_files.py makes are those that are asked for. The tool isn't proved, so it is
tried:

- samples: the files are those of `cases/`, and close to the lines that the program's `sample` prints there;
- a description with every type of operation, and examples/first-ledger.json: what is made closes with the text that is
  printed, by the ledger of `models/` over the files; each transaction ends as it says, and one that doesn't is a line
  and status 1;
- wrong descriptions, each with its one line; a description with each of its values replaced by others; files that are
  kept.

With the built program (`check_program`): `catchup`, and `init` and `run`, print that text for the files, and `sample`
that line.
"""

from __future__ import annotations

import contextlib
import copy
import io
import json
import os
import re
import sys
import tempfile
from typing import Any, Callable, Dict, Iterator, List, NamedTuple, Tuple

import cases
from harness import TESTS, Program, Tally

TOP = os.path.dirname(TESTS)
sys.path[:0] = [os.path.join(TOP, "tools"), os.path.join(TESTS, "models")]
from description import read_description  # noqa: E402
from file_source import FileFault  # noqa: E402
from made_records import made_from  # noqa: E402
import stellar_files  # noqa: E402
from operation_description import OPERATIONS  # noqa: E402

import ledger_model  # noqa: E402

Json = Any
EXAMPLE = os.path.join(TOP, "examples", "first-ledger.json")
EXAMPLE_NETWORK = "My first ledger"
# as the ledger of `models/` closes it
EXAMPLE_END = "end 4 834976267db5887a8bd9b6545d47daead1c7c262e4b37fdbdc9a7891c1b980a0\n"
# cases of `sample`, each with its seed and its number of ledgers
SAMPLES = (
    ("samples-5-ledgers-of-seed-1", 1, 5), ("samples-25-ledgers-of-seed-0", 0, 25),
    ("samples-18-ledgers-of-seed-4294967295", 4294967295, 18),
)
# those that the program is tried with
SEEDS = (0, 1, 4294967295)
LEDGERS = 5
REMOVED = object()


def pays(amount: str, destination: str = "bob", asset: str = "native") -> Json:
    return {"type": "PAYMENT", "destination": destination, "asset": asset, "amount": amount}


def sends(source: str, *operations: Json, **fields: Json) -> Json:
    return {"sourceAccount": source, "operations": list(operations), **fields}


# a description that has a field of each kind, which the wrong ones are made of
BASE: Json = {
    "network": "a network", "ledgerSeq": 40, "closeTime": 1000, "baseFee": 100, "baseReserve": 5000000,
    "maxTxSetSize": 50, "feePool": "3.5",
    "accounts": [
        {"name": "bank", "balance": "500", "secret": "of the bank",
         "flags": ["AUTH_REVOCABLE_FLAG", "AUTH_CLAWBACK_ENABLED_FLAG"]},
        {"name": "alice", "balance": "100.0000001", "secret": "of alice", "seqNum": 7, "homeDomain": "alice.example",
         "thresholds": {"masterWeight": 0, "lowThreshold": 1, "medThreshold": 1, "highThreshold": 1}},
        {"name": "bob", "balance": "100", "accountID": "GA7QYNF7SOWQ3GLR2BGMZEHXAVIRZA4KVWLTJJFC7MGXUA74P7UJVSGZ"},
    ],
    "trustLines": [
        {"account": "alice", "asset": "USD:bank", "balance": "40", "limit": "90", "flags": ["AUTHORIZED_FLAG"]},
        {"account": "bob", "asset": "LONGCODE:bank"},
    ],
    "offers": [
        {"seller": "alice", "selling": "USD:bank", "buying": "native", "amount": "30", "price": "3/2",
         "flags": ["PASSIVE_FLAG"]},
        {"seller": "alice", "selling": "native", "buying": "USD:bank", "amount": "5", "price": "1/2"},
    ],
    "ledgers": [
        {"closeTimeStep": 9, "transactions": [
            sends("alice", pays("1"), fee=200, seqNum=8, memo="lunch", signedBy=["alice"])]},
    ],
}

# a place in that description, what is there, and the line that says what is wrong, after the name of the file
WRONG: Tuple[Tuple[str, Json, str], ...] = (
    ("network", "", "network: a passphrase is a text of one or more printable characters"),
    ("network", "a\nb", "network: a passphrase is a text of one or more printable characters"),
    ("network", REMOVED, "the field network is missing"),
    ("networks", "x",
     "networks: no such field; the fields are network, accounts, ledgerSeq, closeTime, baseFee, baseReserve, "
     "maxTxSetSize, feePool, trustLines, offers, ledgers"),
    ("ledgerSeq", 2147483647, "ledgers: the last of them would be above ledger 2147483647"),
    ("closeTime", True, "closeTime: true in place of a whole number"),
    ("baseFee", 0, "baseFee: 0 isn't from 1 to 4294967295"),
    ("baseReserve", 2.5, "baseReserve: 2.5 in place of a whole number"),
    ("feePool", "922337203685.4775807", "accounts: all lumens, 922337204385.4775808, are above 922337203685.4775807"),
    ("accounts[1]", "alice", 'accounts[1]: the text "alice" in place of an object {..}'),
    ("accounts[1].name", "2alice",
     'accounts[1].name: "2alice" is no name: a letter, and at most 31 letters, digits, - or _ after it'),
    ("accounts[1].name", "bank", 'accounts[1].name: "bank" is the name of another account, too'),
    ("accounts[1].accountID", "GA7QYNF7SOWQ3GLR2BGMZEHXAVIRZA4KVWLTJJFC7MGXUA74P7UJVSGZ",
     'accounts[2].name: "bob" has the key of "alice"'),
    ("accounts[1].accountID", "GA7QYNF7SOWQ3GLR2BGMZEHXAVIRZA4KVWLTJJFC7MGXUA74P7UJVSGA",
     'accounts[1].accountID: "GA7QYNF7SOWQ3GLR2BGMZEHXAVIRZA4KVWLTJJFC7MGXUA74P7UJVSGA" is no account: a wrong '
     "checksum"),
    ("accounts[1].balance", "1.23456789",
     'accounts[1].balance: "1.23456789" is no amount, as "12.5", of at most 7 digits after the point'),
    ("accounts[1].balance", "922337203685.4775808",
     'accounts[1].balance: "922337203685.4775808" is above 922337203685.4775807'),
    ("accounts[1].balance", REMOVED, "accounts[1]: the field balance is missing"),
    ("accounts[1].balance", "4", "accounts[1]: its offers sell 5, above its balance of 4"),
    ("accounts[1].secret", "é" * 33, "accounts[1].secret: a text of 66 bytes, not of 1 to 64"),
    ("accounts[1].seqNum", 9223372036854775808,
     "accounts[1].seqNum: 9223372036854775808 isn't from 0 to 9223372036854775807"),
    ("accounts[1].homeDomain", "é", "accounts[1].homeDomain: a character that isn't of printable ASCII"),
    ("accounts[1].homeDomain", "\ud800", "accounts[1].homeDomain: half a character"),
    ("accounts[1].thresholds.mediumThreshold", 1,
     "accounts[1].thresholds.mediumThreshold: no such field; the fields are masterWeight, lowThreshold, "
     "medThreshold, highThreshold"),
    ("accounts[1].flags", ["AUTH_CLAWBACK_ENABLED_FLAG"],
     "accounts[1].flags: AUTH_CLAWBACK_ENABLED_FLAG asks for AUTH_REVOCABLE_FLAG"),
    ("accounts[1].flags", ["AUTHORIZED_FLAG"],
     'accounts[1].flags[0]: no flag "AUTHORIZED_FLAG"; the flags are AUTH_REQUIRED_FLAG, AUTH_REVOCABLE_FLAG, '
     "AUTH_IMMUTABLE_FLAG, AUTH_CLAWBACK_ENABLED_FLAG"),
    ("trustLines[0].account", "carol", 'trustLines[0].account: no account has the name "carol" here'),
    ("trustLines[0].account", "bank", "trustLines[0].asset: an issuer has no line in its own asset"),
    ("trustLines[0].account", "GBU5WMMXN2WTPOC4YQVETSK72BXOZGOP3G376IM2EXAPLHFUASJUGFKC",
     "trustLines[0].account: there is no such account"),
    ("trustLines[0].asset", "native", "trustLines[0].asset: there are no lines of lumens"),
    ("trustLines[0].asset", "USD",
     'trustLines[0].asset: "USD" is no asset, as "native" or "USD:issuer", with 1 to 12 letters or digits'),
    ("trustLines[0].asset", "EURO:bank", "offers[0].selling: the seller has no trust line in this asset"),
    ("trustLines[0].balance", "90.0000001", "trustLines[0].balance: above the limit of 90"),
    ("trustLines[0].balance", "29", "trustLines[0]: its offers sell 30, above its balance of 29"),
    ("trustLines[0].limit", "42", "trustLines[0]: its balance and what its offers buy, 2.5, are above 42"),
    ("trustLines[0].limit", "0", "trustLines[0].limit: an amount above 0 is asked for"),
    ("trustLines[0].flags", [], "offers[0].selling: the seller's trust line isn't authorised"),
    ("trustLines[0].flags", ["AUTHORIZED_FLAG", "AUTHORIZED_TO_MAINTAIN_LIABILITIES_FLAG"],
     "trustLines[0].flags: AUTHORIZED_FLAG and AUTHORIZED_TO_MAINTAIN_LIABILITIES_FLAG exclude each other"),
    ("trustLines[1]", {"account": "alice", "asset": "USD:bank"},
     "trustLines[1]: the account has another trust line in this asset"),
    ("offers[0].buying", "USD:bank", "offers[0].buying: the same asset is sold"),
    ("offers[0].buying", "LONGCODE:bank", "offers[0].buying: the seller has no trust line in this asset"),
    ("offers[1].amount", "0.0000001", "offers[1]: so small an amount yields nothing at this price"),
    ("offers[0].price", "1/0", 'offers[0].price: "1/0" is no price, as "3/2", of numbers from 1 to 2147483647'),
    ("offers[0].price", "2147483648/1",
     'offers[0].price: "2147483648/1" is no price, as "3/2", of numbers from 1 to 2147483647'),
    ("ledgers[0].transaction", [], "ledgers[0].transaction: no such field; the fields are closeTimeStep, transactions"),
    ("ledgers[0].transactions[0]", sends("bob", pays("1")),
     "ledgers[0].transactions[0]: a source account has no secret in the description; signedBy says who signs"),
    ("ledgers[0].transactions[0].sourceAccount", "carol",
     'ledgers[0].transactions[0].sourceAccount: no account has the name "carol" here'),
    ("ledgers[0].transactions[0].sourceAccount", "GBU5WMMXN2WTPOC4YQVETSK72BXOZGOP3G376IM2EXAPLHFUASJUGFKC",
     "ledgers[0].transactions[0].sourceAccount: this account doesn't exist when the ledger begins"),
    ("ledgers[0].transactions[0].memo", "a" * 29,
     "ledgers[0].transactions[0].memo: a text of 29 bytes, not of 0 to 28"),
    ("ledgers[0].transactions[0].signedBy", ["bob"],
     'ledgers[0].transactions[0].signedBy[0]: the account "bob" has no secret in the description'),
    ("ledgers[0].transactions[0].signedBy", [{"secret": "x", "name": "y"}],
     "ledgers[0].transactions[0].signedBy[0].name: no such field; the fields are secret"),
    ("ledgers[0].transactions[0].operations", [pays("1")] * 101,
     "ledgers[0].transactions[0].operations: 101 items, above 100"),
    ("ledgers[0].transactions[0].operations[0]", {},
     "ledgers[0].transactions[0].operations[0]: the field type is missing"),
    ("ledgers[0].transactions[0].operations[0].to", "bob",
     "ledgers[0].transactions[0].operations[0].to: no such field; the fields are type, destination, asset, "
     "amount, sourceAccount"),
    ("ledgers[0].transactions[0].operations[0].destination", "carol",
     'ledgers[0].transactions[0].operations[0].destination: no account has the name "carol" here'),
    ("ledgers[0].transactions[0].operations[0]", {"type": "MANAGE_DATA", "dataName": "", "dataValue": None},
     "ledgers[0].transactions[0].operations[0].dataName: a text of 0 bytes, not of 1 to 64"),
    ("ledgers[0].transactions[0].operations[0]", {"type": "SET_OPTIONS", "signer": {"weight": 1}},
     "ledgers[0].transactions[0].operations[0].signer: the field secret is missing"),
)


# every type of operation, and each kind of end that a made transaction can have
BY_BOTH = ["alice", {"secret": "spare"}]
FOR_USD = {"selling": "native", "buying": "USD:bank"}
LONG_LINE = {"type": "CHANGE_TRUST", "line": "LONGCODE:bank"}
EVERY: Json = {
    "network": "every operation",
    "accounts": [
        {"name": "bank", "balance": "1000", "secret": "of the bank",
         "flags": ["AUTH_REQUIRED_FLAG", "AUTH_REVOCABLE_FLAG"]},
        *({"name": name, "balance": "200", "secret": f"of {name}"} for name in ("alice", "bob", "dora")),
    ],
    "trustLines": [
        {"account": "alice", "asset": "USD:bank", "balance": "100", "flags": ["AUTHORIZED_FLAG"]},
        {"account": "bob", "asset": "USD:bank"},
    ],
    "offers": [{"seller": "alice", "selling": "USD:bank", "buying": "native", "amount": "50", "price": "2/1"}],
    "ledgers": [
        {"transactions": [
            sends("bob", pays("1", "alice", "USD:bank"), expect="txFAILED"),
            sends("bank", {"type": "SET_TRUST_LINE_FLAGS", "trustor": "bob", "asset": "USD:bank",
                           "setFlags": ["AUTHORIZED_FLAG"]}),
            sends("dora", {"type": "BUMP_SEQUENCE", "bumpTo": 7}),
            sends(
                "alice", {"type": "MANAGE_DATA", "dataName": "colour", "dataValue": "grün"},
                {"type": "SET_OPTIONS", "homeDomain": "alice.example", "medThreshold": 2, "highThreshold": 2,
                 "signer": {"secret": "spare", "weight": 1}, "setFlags": ["AUTH_REQUIRED_FLAG"],
                 "inflationDest": "bob"}),
        ]},
        {"closeTimeStep": 60, "transactions": [
            sends("alice", pays("10", asset="USD:bank"), signedBy=BY_BOTH),
            sends("alice", pays("10", asset="USD:bank"), signedBy=["alice"], expect="txFAILED"),
            sends("alice", pays("10", asset="USD:bank"), signedBy=[], expect="txBAD_AUTH"),
            sends("bank", {"type": "CREATE_ACCOUNT", "destination": "carol", "startingBalance": "5"},
                  pays("1", "carol"), {**pays("2", "carol"), "sourceAccount": "bob"}, memo="for carol", fee=1000),
            sends("dora", pays("1"), seqNum=9, expect="txBAD_SEQ"),
        ]},
        {"transactions": [
            sends("bob", {"type": "MANAGE_SELL_OFFER", **FOR_USD, "amount": "4", "price": "1/2"},
                  {"type": "CREATE_PASSIVE_SELL_OFFER", **FOR_USD, "amount": "4", "price": "1/3"},
                  {"type": "MANAGE_BUY_OFFER", **FOR_USD, "buyAmount": "3", "price": "5/2"}),
            sends("bob", {"type": "PATH_PAYMENT_STRICT_RECEIVE", "sendAsset": "native", "sendMax": "9",
                          "destination": "alice", "destAsset": "USD:bank", "destAmount": "2"},
                  {"type": "PATH_PAYMENT_STRICT_SEND", "sendAsset": "native", "sendAmount": "6", "destination": "bob",
                   "destAsset": "USD:bank", "destMin": "1", "path": []}),
            sends("bob", {**LONG_LINE, "limit": "12"}, fee=1, expect="txINSUFFICIENT_FEE"),
            sends("dora", {"type": "ACCOUNT_MERGE", "destination": "bank"}),
        ]},
        {"transactions": [
            sends("bob", LONG_LINE, {**LONG_LINE, "limit": "0"}),
            sends("bank", pays("1"), signedBy=["bank", "bob"], expect="txBAD_AUTH_EXTRA"),
            sends("bank", signedBy=["bank"], expect="txMISSING_OPERATION"),
            sends("alice", {"type": "MANAGE_DATA", "dataName": "colour", "dataValue": None}, signedBy=BY_BOTH),
        ]},
        {},
    ],
}

# texts that are no description, and the line that says why, after the name of the file
NO_JSON: Tuple[Tuple[bytes, str], ...] = (
    (b"", "line 1, column 1: no JSON: Expecting value"),
    (b'{"network": "a",\n "accounts": [}', "line 2, column 15: no JSON: Expecting value"),
    (b'{"network": "\xff"}', "offset 13: the text isn't UTF-8"),
    (b'{"network": "a", "network": "b"}', "network: the field is there twice"),
    (b"[" * 100_000, "values inside of values, too many levels of them"),
    (b"[]", "a list in place of an object {..}"),
    (b'{"network": "a", "accounts": [], "feePool": NaN}', "feePool: NaN in place of a text"),
    (b'{"network": "a", "accounts": [], "a.b\xc3\xa9": 1}',
     '"a.b\\u00e9": no such field; the fields are network, accounts, ledgerSeq, closeTime, baseFee, baseReserve, '
     "maxTxSetSize, feePool, trustLines, offers, ledgers"),
)
# what each value of a description is replaced by
ODD: Tuple[Json, ...] = (None, True, -1, 2**64, "", "bob", "é\n\ud800", [], {}, REMOVED)


class Answer(NamedTuple):
    status: int
    out: str
    err: str


class Made(NamedTuple):
    """What a command answered, and the bytes of the files that it made; no bytes where there is none."""

    answer: Answer
    image: bytes
    records: bytes


def run(*words: str) -> Answer:
    """What the tool answers to a command, in this process."""
    out, err = io.StringIO(), io.StringIO()
    with contextlib.redirect_stdout(out), contextlib.redirect_stderr(err):
        status = stellar_files.main(list(words))
    return Answer(status, out.getvalue(), err.getvalue())


def write_file(path: str, data: bytes) -> str:
    with open(path, "wb") as file:
        file.write(data)
    return path


def bytes_of(path: str) -> bytes:
    if not os.path.exists(path):
        return b""
    with open(path, "rb") as file:
        return file.read()


def made(*words: str) -> Made:
    """What a command makes in a folder of its own."""
    with tempfile.TemporaryDirectory(prefix="ledger-made-") as folder:
        image, records = f"{folder}/image", f"{folder}/records"
        answer = run(*words, "--image", image, "--records", records)
        return Made(answer, bytes_of(image), bytes_of(records))


def made_from_text(text: bytes) -> Made:
    """What `make` makes of a text. The name of its file is taken from what it says."""
    with tempfile.TemporaryDirectory(prefix="ledger-description-") as folder:
        path = write_file(f"{folder}/description.json", text)
        found = made("make", path)
        said = found.answer.err.replace(f"{path}: ", "")
        return found._replace(answer=found.answer._replace(err=said))


def made_from_json(description: Json) -> Made:
    return made_from_text(json.dumps(description).encode())


def steps(place: str) -> List[Any]:
    """The fields and indices of a place, as `accounts[2].balance`."""
    return [int(step) if step.isdigit() else step for step in re.findall(r"\w+", place)]


def changed(description: Json, way: List[Any], value: Json) -> Json:
    """A description with another value at a place, or with none."""
    description = copy.deepcopy(description)
    inner = description
    for step in way[:-1]:
        inner = inner[step]
    if value is REMOVED:
        del inner[way[-1]]
    else:
        inner[way[-1]] = value
    return description


def places(value: Json, way: Tuple[Any, ...] = ()) -> Iterator[Tuple[Any, ...]]:
    """The places of a description, but for the whole."""
    if way:
        yield way
    if isinstance(value, (dict, list)):
        for step, inner in value.items() if isinstance(value, dict) else enumerate(value):
            yield from places(inner, (*way, step))


# ---- samples


def try_samples(tally: Tally) -> None:
    for name, seed, ledgers in SAMPLES:
        line = cases.read_case(name).output.decode()
        found = made("sample", str(seed), str(ledgers))
        is_so = found.answer == Answer(0, line, "")
        tally.check("a sample's line is as the program prints it", is_so, (name, found.answer))
        out, _, status = ledger_model.catchup("sample", found.image + found.records)
        expected = f"end {ledgers + 1} {line.split()[3]}\n"
        is_so = status == 0 and out.endswith(expected)
        tally.check("a sample's files close to its last header", is_so, (name, out[-90:]))
    found = made("sample", "1", "3")
    image, records = (
        cases.read_case(f"samples-{name}-of-a-sample").given for name in ("init-the-image", "run-three-records"))
    tally.check("a sample's image and records are those of the cases", (found.image, found.records) == (image, records))
    for words in (("-1", "5"), ("4294967296", "5"), ("1", "0"), ("1", "20001"), ("1", "x"), ("00000000001", "5")):
        answer = made("sample", *words).answer
        is_so = (answer.status, answer.err.count("\n")) == (2, 1)
        tally.check("a number of a sample that isn't one is status 2 and a line", is_so, answer)


# ---- descriptions


def catchup_agrees(tally: Tally, what: str, network: str, found: Made) -> None:
    """Whether the ledger of `models/`, with its own codec, prints what `make` printed for its files."""
    ran = ledger_model.catchup(network, found.image + found.records)
    is_so = ran == (found.answer.out, "", 0) and bool(found.image)
    tally.check("what is made closes as it is printed", is_so, (what, ran))


def try_example(tally: Tally) -> None:
    found = made("make", EXAMPLE)
    is_so = found.answer.status == 0 and found.answer.err == "" and found.answer.out.endswith(EXAMPLE_END)
    tally.check("the example is made, and each transaction ends as it says", is_so, found.answer)
    catchup_agrees(tally, "the example", EXAMPLE_NETWORK, found)


def try_least(tally: Tally) -> None:
    found = made_from_json({"network": "a", "accounts": []})
    is_so = found.answer.status == 0 and found.answer.out.startswith("end 1 ") and found.records == b""
    tally.check("a ledger without entries and closes is made", is_so, found.answer)
    catchup_agrees(tally, "no entries", "a", found)


def try_every(tally: Tally) -> None:
    found = made_from_json(EVERY)
    is_so = found.answer.status == 0 and found.answer.err == ""
    tally.check("each transaction ends as its description says", is_so, found.answer)
    catchup_agrees(tally, "every operation", EVERY["network"], found)
    transactions = [sent for ledger in EVERY["ledgers"] for sent in ledger.get("transactions", [])]
    types = {operation["type"] for sent in transactions if "expect" not in sent for operation in sent["operations"]}
    tally.check("each type of operation succeeds once", types == set(OPERATIONS), set(OPERATIONS) - types)
    sent = EVERY["ledgers"][0]["transactions"][0]
    found = made_from_json(changed(EVERY, ["ledgers", 0, "transactions", 0], {**sent, "expect": "txSUCCESS"}))
    line = "ledgers[0].transactions[0]: expected txSUCCESS, but it ends with txFAILED of PAYMENT_SRC_NOT_AUTHORIZED\n"
    is_so = (found.answer.status, found.answer.err) == (1, line) and bool(found.image and found.records)
    tally.check("an end that isn't expected is a line and status 1, and the files are there", is_so, found.answer)


def fields_in(found: Made) -> Iterator[Tuple[str, Json]]:
    """The fields of the header and of the entries of an image, each after the type of its entry."""
    with tempfile.TemporaryDirectory(prefix="ledger-made-") as folder:
        answer = run("show", "image", write_file(f"{folder}/image", found.image), "--json")
    for line in answer.out.splitlines():
        value = json.loads(line)
        entry = value.get("ledgerEntry", {}).get("data", {})
        body = list(entry.values())[1] if entry else value["ledgerHeader"]
        for name, field in body.items():
            yield f"{entry.get('type', 'HEADER')}.{name}", field


def try_computed(tally: Tally) -> None:
    """What an image has to have, by hand."""
    found = made_from_json(BASE)
    if not tally.check("a description of each kind of field is made", found.answer.status == 0, found.answer):
        return
    catchup_agrees(tally, "each kind of field", BASE["network"], found)
    fields: Dict[str, List[Json]] = {}
    for name, value in fields_in(found):
        fields.setdefault(name, []).append(value)
    by_balance = dict(zip(fields["ACCOUNT.balance"], zip(fields["ACCOUNT.numSubEntries"], fields["ACCOUNT.ext"])))
    # alice sells 5 lumens, and buys 45 for 30 USD; bob has a line alone; the bank a signer alone
    owed = {"v": 1, "v1": {"liabilities": {"buying": "450000000", "selling": "50000000"}, "ext": {"v": 0}}}
    tally.check("an account's numbers are worked out", by_balance == {
        "1000000001": (4, owed), "5000000000": (1, {"v": 0}), "1000000000": (1, {"v": 0})}, by_balance)
    line = {"v": 1, "v1": {"liabilities": {"buying": "25000000", "selling": "300000000"}, "ext": {"v": 0}}}
    by_balance = dict(zip(fields["TRUSTLINE.balance"], zip(fields["TRUSTLINE.flags"], fields["TRUSTLINE.ext"])))
    is_so = by_balance == {"400000000": (1, line), "0": (5, {"v": 0})}
    tally.check("a line's liabilities and usual flags are worked out", is_so, by_balance)
    expected = {
        "ledgerSeq": [40], "totalCoins": ["7035000001"], "feePool": ["35000000"], "idPool": ["2"], "baseFee": [100],
        "baseReserve": [5000000], "maxTxSetSize": [50],
    }
    header = {name: fields[f"HEADER.{name}"] for name in expected}
    tally.check("a header's numbers are worked out", header == expected, header)


# ---- what is wrong


def check_wrong(tally: Tally, what: str, found: Made, line: str) -> None:
    is_so = found == Made(Answer(2, "", f"{line}\n"), b"", b"")
    tally.check(f"{what} is status 2, its line and no file", is_so, (found.answer, line))


def try_wrong(tally: Tally) -> None:
    for place, value, line in WRONG:
        check_wrong(tally, "a wrong description", made_from_json(changed(BASE, steps(place), value)), line)
    for text, line in NO_JSON:
        check_wrong(tally, "a text that is no description", made_from_text(text), line)
    two = sends("alice", pays("1"), pays("1"))
    dear = {**BASE, "baseFee": 2**32 - 1, "ledgers": [{"transactions": [two]}]}
    offers = {**BASE, "offers": [{**BASE["offers"][1], "amount": "0.01"}] * 999}
    sources = [f"account{index}" for index in range(21)]
    together = sends("account0", *({**pays("1"), "sourceAccount": name} for name in sources))
    signers = {
        "network": "a", "accounts": [{"name": name, "balance": "9", "secret": name} for name in [*sources, "bob"]],
        "ledgers": [{"transactions": [together]}],
    }
    for description, line in (
        (dear, "ledgers[0].transactions[0]: the usual fee, 8589934590, is above 4294967295"),
        (offers, "accounts[1]: 1001 trust lines, offers and signers, above 1000"),
        (signers, "ledgers[0].transactions[0]: 21 source accounts would sign, above 20"),
    ):
        check_wrong(tally, "a wrong description", made_from_json(description), line)


def try_odd_values(tally: Tally) -> None:
    """A description with each of its values replaced: it is made, or there is the fault of a file, of one line, and no
    other exception."""
    with tempfile.TemporaryDirectory(prefix="ledger-description-") as folder:
        for way in places(BASE):
            for value in ODD:
                path = write_file(f"{folder}/description.json", json.dumps(changed(BASE, list(way), value)).encode())
                try:
                    ended = "end " in made_from(read_description(path)).output
                except FileFault as why:
                    ended = "\n" not in str(why) and str(why).startswith(path)
                tally.check("a description with another value is made, or is a line", ended, (way, value))


# ---- files


def try_files(tally: Tally) -> None:
    with tempfile.TemporaryDirectory(prefix="ledger-made-") as folder:
        image, records, taken = f"{folder}/image", f"{folder}/records", write_file(f"{folder}/taken", b"kept")
        given = write_file(f"{folder}/given", json.dumps(BASE).encode())
        is_taken = f"{taken}: is there already; --force replaces it"
        for what, image_path, records_path, more, line in (
            (("make", given), taken, records, (), is_taken),
            (("sample", "1", "1"), image, taken, (), is_taken),
            (("make", given), image, image, (), f"{image}: is named twice"),
            (("make", given), image, given, ("--force",), f"{given}: is named twice"),
            (("make", given), "/dev/null", records, ("--force",), "/dev/null: is no file of bytes"),
            (("make", given), folder, records, ("--force",), f"{folder}: is a folder"),
            (("make", given), f"{folder}/none/image", records, (), f"{folder}/none/image: No such file or directory"),
            (("make", f"{folder}/none"), image, records, (), f"{folder}/none: No such file or directory"),
            (("make", folder), image, records, (), f"{folder}: Is a directory"),
        ):
            answer = run(*what, "--image", image_path, "--records", records_path, *more)
            is_so = answer == Answer(2, "", f"{line}\n") and sorted(os.listdir(folder)) == ["given", "taken"]
            tally.check("a file that can't be read or written is a line, and all files stay", is_so, answer)
        answer = run("make", given, "--image", taken, "--records", records, "--force")
        is_so = answer.status == 0 and bytes_of(taken)[:4] == b"SLI1"
        tally.check("a file is replaced with --force", is_so, answer)
        tally.check("no other file is left", sorted(os.listdir(folder)) == ["given", "records", "taken"])
    for words in (("make", "--help"), ("sample", "--help")):
        answer = run(*words)
        is_so = answer.status == 0 and "example:" in answer.out and answer.err == ""
        tally.check("the help has an example", is_so, answer)


PARTS_WITHOUT_PROGRAM = (
    try_samples, try_example, try_least, try_every, try_computed, try_wrong, try_odd_values, try_files,
)


def check(top: str) -> Tally:
    """Tries the commands alone."""
    tally = Tally()
    for part in PARTS_WITHOUT_PROGRAM:
        part(tally)
    return tally


# ---- with the program


def try_program_samples(program: Program, tally: Tally) -> None:
    for seed in SEEDS:
        found = made("sample", str(seed), str(LEDGERS))
        ran = program.run(["sample", "--seed", str(seed), "--ledgers", str(LEDGERS)], b"")
        is_so = (ran.status, ran.out.decode()) == (0, found.answer.out)
        tally.check("the program prints a made sample's line", is_so, (seed, ran.out))
        ran = program.run(["catchup", "--network", "sample"], found.image + found.records)
        expected = f"end {LEDGERS + 1} {found.answer.out.split()[3]}\n"
        is_so = ran.status == 0 and ran.out.decode().endswith(expected)
        tally.check("the program closes a made sample", is_so, (seed, ran.out[-90:], ran.err))


def program_agrees(program: Program, tally: Tally, network: str, found: Made) -> None:
    """Whether `catchup`, and `init` and then `run`, print what `make` printed."""
    caught = program.run(["catchup", "--network", network], found.image + found.records)
    begun = program.run(["init", "--network", network], found.image)
    ran = program.run(["run"], found.records, begun.store)
    for what, done in (("catchup", caught), ("init and run", ran)):
        is_so = (done.status, done.out.decode(), done.err) == (0, found.answer.out, b"")
        tally.check(f"{what} closes a made ledger as make prints it", is_so, (network, done.out[-90:], done.err))


def try_program_example(program: Program, tally: Tally) -> None:
    program_agrees(program, tally, EXAMPLE_NETWORK, made("make", EXAMPLE))


def try_program_every(program: Program, tally: Tally) -> None:
    for description in (EVERY, BASE):
        program_agrees(program, tally, description["network"], made_from_json(description))


PARTS: Tuple[Callable[[Program, Tally], None], ...] = (try_program_samples, try_program_example, try_program_every)


def check_program(program: Program, part: Callable[[Program, Tally], None]) -> Tally:
    """Tries what is made with the built program."""
    tally = Tally()
    part(program, tally)
    return tally
