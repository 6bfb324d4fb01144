"""Whether tools/stellar_files.py reads the forms that the program of this version doesn't write or read yet: values of
protocol 19, records with vouches, stores of format 2, and files of history.

`bridge_cases/` has runs of such a program, in the form of `cases/` (cases.py), which two programs worked out that share
nothing with this one and nothing with each other. What reads of their inputs, outputs and stores is written as it was,
hashes are those that they print, and faults are where they say. Values of each new form, laid out by hand, have their
bytes, their JSON and their lines; so have keys of SEP-23.
"""

from __future__ import annotations

import contextlib
import glob
import gzip
import json
import os
import random
import sys
import tempfile
from typing import Any, Iterable, Iterator, List, Tuple

import bridge
import cases
from harness import TESTS, Tally, lay_out

import bucket_file  # noqa: E402
import history_file  # noqa: E402
import record_stream  # noqa: E402
import start_image  # noqa: E402
import stellar_json  # noqa: E402
import stellar_text  # noqa: E402
import stellar_xdr as xdr  # noqa: E402
import strkey  # noqa: E402
from file_source import FileFault, Source  # noqa: E402
from history_file import HEADERS, KINDS, Part  # noqa: E402

Json = Any
FOLDER = "bridge_cases"
START = "PA7QYNF7SOWQ3GLR2BGMZEHXAVIRZA4KVWLTJJFC7MGXUA74P7UJU"
# SEP-23's vectors of signed payloads: a text, and the payload that it names beside the key of the other vectors
PAYLOADS = (
    (f"{START}AAAAAQACAQDAQCQMBYIBEFAWDANBYHRAEISCMKBKFQXDAMRUGY4DUPB6IBZGM",
     bytes(range(1, 33))),
    (f"{START}AAAAAOQCAQDAQCQMBYIBEFAWDANBYHRAEISCMKBKFQXDAMRUGY4DUAAAAFGBU",
     bytes(range(1, 30))),
)
# a length below and one above that of the payload, and bytes after it that aren't zero
NO_PAYLOADS = (
    f"{START}AAAAAQACAQDAQCQMBYIBEFAWDANBYHRAEISCMKBKFQXDAMRUGY4DUPB6IAAAAAAAAPM",
    f"{START}AAAAAOQCAQDAQCQMBYIBEFAWDANBYHRAEISCMKBKFQXDAMRUGY4Z2PQ",
    f"{START}AAAAAOQCAQDAQCQMBYIBEFAWDANBYHRAEISCMKBKFQXDAMRUGY4DXFH6",
)
SIGNED_BY = f"00000003 {bridge.KEY} 0000001d {bytes(range(1, 30)).hex()} 000000"
A, P = bridge.STRKEYS[0][0], PAYLOADS[1][0]
MUXED, ZEROS, ONES = f"00000000 {bridge.KEY}", "00" * 32, "11" * 32
EMPTY_CLOSE = f"00000009 {ZEROS} 00000000 {ONES} 000000000000000a 00000000 00000000"

# types, encodings laid out by hand from the protocol's XDR files, forms in JSON, and lines where a value has some
FORMS: Tuple[Tuple[xdr.Type, str, Json], ...] = (
    (xdr.SIGNER_KEY, SIGNED_BY, P),
    (xdr.PRECONDITIONS, "00000000", {"type": "PRECOND_NONE"}),
    (xdr.PRECONDITIONS, "00000001 0000000000000005 0000000000000009",
     {"type": "PRECOND_TIME", "timeBounds": {"minTime": "5", "maxTime": "9"}}),
    (xdr.PRECONDITIONS,
     "00000002 00000001 0000000000000005 0000000000000009 00000001 00000007 00000008 00000001 000000000000000b"
     f" 000000000000003c 00000002 00000001 {SIGNED_BY}",
     {"type": "PRECOND_V2", "v2": {
         "timeBounds": {"minTime": "5", "maxTime": "9"}, "ledgerBounds": {"minLedger": 7, "maxLedger": 8},
         "minSeqNum": "11", "minSeqAge": "60", "minSeqLedgerGap": 2, "extraSigners": [P]}}),
    (xdr.PRECONDITIONS, "00000002 00000000 00000000 00000000 0000000000000000 00000000 00000000",
     {"type": "PRECOND_V2", "v2": {"timeBounds": None, "ledgerBounds": None, "minSeqNum": None, "minSeqAge": "0",
                                   "minSeqLedgerGap": 0, "extraSigners": []}}),
    (xdr.ACCOUNT_EXT_2, "00000001 00000002 00000001 00000000 00000003 00000000 00000005 00000000000003e8",
     {"numSponsored": 1, "numSponsoring": 2, "signerSponsoringIDs": [None],
      "ext": {"v": 3, "v3": {"ext": {"v": 0}, "seqLedger": 5, "seqTime": "1000"}}}),
    (xdr.TRANSACTION_RESULT, "0000000000000064 fffffff1 00000000",
     {"feeCharged": "100", "result": {"code": "txBAD_MIN_SEQ_AGE_OR_GAP"}, "ext": {"v": 0}}),
    (xdr.INNER_RESULT, "0000000000000000 fffffff0 00000000",
     {"feeCharged": "0", "result": {"code": "txMALFORMED"}, "ext": {"v": 0}}),
    (xdr.VOUCH, f"00000000 {bridge.KEY} {ONES} 00000003 aabbcc00",
     {"type": "SIGNER_KEY_TYPE_ED25519", "ofHash": {"ed25519": A, "hash": ONES, "signature": "aabbcc"}}),
    (xdr.VOUCH, f"00000003 {bridge.KEY} 00000001 dd000000 00000000",
     {"type": "SIGNER_KEY_TYPE_ED25519_SIGNED_PAYLOAD",
      "ofPayload": {"ed25519": A, "payload": "dd", "signature": ""}}),
    (xdr.RECORD, f"80000002 {EMPTY_CLOSE} 00000000",
     {"ledgerSeq": 9, "txSet": {"previousLedgerHash": ZEROS, "txs": []},
      "scpValue": {"txSetHash": ONES, "closeTime": "10", "upgrades": [], "ext": {"v": "STELLAR_VALUE_BASIC"}},
      "vouches": []}),
    (xdr.TRANSACTION_HISTORY_ENTRY, f"00000009 {ONES} 00000000 00000000",
     {"ledgerSeq": 9, "txSet": {"previousLedgerHash": ONES, "txs": []}, "ext": {"v": 0}}),
    (xdr.TRANSACTION_HISTORY_RESULT_ENTRY, f"00000009 00000001 {ONES} 0000000000000064 fffffffa 00000000 00000000",
     {"ledgerSeq": 9, "txResultSet": {"results": [{
         "transactionHash": ONES, "result": {"feeCharged": "100", "result": {"code": "txBAD_AUTH"}, "ext": {"v": 0}}}]},
      "ext": {"v": 0}}),
)
# encodings that are none, with the kind and offset of the fault
NO_FORMS: Tuple[Tuple[xdr.Type, str, str, int], ...] = (
    (xdr.SIGNER_KEY, f"00000003 {bridge.KEY} 00000041", "TooLong", 36),
    (xdr.SIGNER_KEY, f"00000003 {bridge.KEY} 00000001 dd000100", "Padding", 42),
    (xdr.SIGNER_KEY, "00000004", "BadEnum", 0),
    (xdr.PRECONDITIONS, "00000003", "BadEnum", 0),
    (xdr.PRECONDITIONS, "00000002 00000002", "BadFlag", 4),
    (xdr.PRECONDITIONS, "00000002 00000000 00000000 00000000 0000000000000000 00000000 00000003", "TooLong", 28),
    (xdr.ACCOUNT_EXT_2, "00000001 00000002 00000000 00000001", "BadEnum", 12),
    (xdr.VOUCH, "00000001", "BadEnum", 0),
    (xdr.RECORD, f"80000002 {EMPTY_CLOSE} 00004e21", "TooLong", 92),
    (xdr.RECORD, f"80000002 {EMPTY_CLOSE}", "Short", 92),
)
Named = Iterable[Tuple[str, cases.Case]]
INPUTS = (b"catchup", b"init", b"history", b"changes", b"--network")

# ---- values by hand


def bytes_of(text: str) -> bytes:
    return bytes.fromhex(text.replace(" ", ""))


def try_payloads(tally: Tally) -> None:
    for text, payload in PAYLOADS:
        named = strkey.Key("P", bytes.fromhex(bridge.KEY), 0, payload)
        is_same = strkey.decoded(text) == named and strkey.encoded(*named) == text
        tally.check("a signed payload's text is read and written", is_same, text)
    for text in NO_PAYLOADS:
        try:
            found = strkey.decoded(text)
        except ValueError:
            found = None
        tally.check("a text is no signed payload", found is None, text)


def try_forms(tally: Tally) -> None:
    for kind, text, shown in FORMS:
        data = bytes_of(text)
        value = xdr.read_entire(kind, data)
        is_same = xdr.write(kind, value) == data and stellar_json.json_of(kind, value) == shown
        tally.check("a value of a new form is read, written and shown", is_same, (text, value))
    for kind, text, fault, offset in NO_FORMS:
        got = bridge.fault_of(kind, bytes_of(text))
        tally.check("bytes that are no new form have their fault", got == (fault, offset), (text, got))


# ---- runs


def named_cases() -> Iterator[Tuple[str, cases.Case]]:
    for path in sorted(glob.glob(os.path.join(TESTS, FOLDER, "*.case"))):
        name = os.path.basename(path)[:-len(".case")]
        yield name, cases.read_case(name, FOLDER)


def try_items(tally: Tally, name: str, image: start_image.StartImage) -> None:
    """Tries that each item of an image is written as it was, and has a line and a form in JSON."""
    try:
        for file in image.files:
            for item in bucket_file.items(image.source, file):
                shown = stellar_json.json_of(xdr.BUCKET_ENTRY, item.value)
                is_same = xdr.write(xdr.BUCKET_ENTRY, item.value) == item.data
                is_told = stellar_text.bucket_entry_text(shown).isprintable() and json.loads(json.dumps(shown)) == shown
                tally.check("an item of an image is written as it was, and told", is_same and is_told, name)
    except FileFault as fault:
        tally.check("an item of an image reads", False, f"{name}: {fault}")


def try_inputs(tally: Tally, named: Named) -> None:
    """Tries the inputs of runs: images and records, or records alone."""
    for name, case in named:
        word = case.words[0] if case.words else b""
        if word not in (*INPUTS, b"run") or case.status not in (0, 3, 9, 10):
            continue
        seen = bridge.read_input(case.given, word != b"run")
        if word in (b"catchup", b"run"):
            bridge.try_output(tally, name, case, seen)
        if word in (b"catchup", b"init", b"run"):
            bridge.try_faults(tally, name, case, seen)
        bridge.try_text(tally, seen)
        if seen.image is not None and case.status in (0, 3):
            try_items(tally, name, seen.image)


# ---- files of history


def written(part: Part) -> bytes:
    """A stream as it is written from its values."""
    found = [xdr.write(KINDS[part.kind], entry.value) for entry in history_file.entries(part)]
    return b"".join((record_stream.TOP_BIT | len(data)).to_bytes(4, "big") + data for data in found)


def try_entries(tally: Tally, name: str, part: Part) -> None:
    is_same = written(part) == part.source.data[part.start:part.end]
    tally.check("a stream of history is written as it was", is_same, name)


def try_good_history(tally: Tally, name: str, data: bytes, closes: int, last: str) -> None:
    """Tries a file of all three streams, of so many headers, of which the last has this hash."""
    history = history_file.read_history(Source(name, data))
    for part in history.parts:
        try_entries(tally, name, part)
    stated = [entry.value["hash"] for entry in history_file.entries(history.parts[HEADERS])]
    is_same = len(stated) == closes and [history.before, *stated][-1].hex() == last
    tally.check("a history has the headers that a verifier counts", is_same, name)


def xdr_fault(data: bytes) -> List[str]:
    """The first fault of the values of a file of history: file, offset in it, kind; or none."""
    for part in history_file.read_history(Source("history", data)).parts:
        try:
            for _ in history_file.entries(part):
                pass
        except FileFault as fault:
            return [str(part.kind), str((fault.offset or 0) - part.start), fault.what.split(",")[0]]
    return []


def try_verified(tally: Tally, name: str, case: cases.Case) -> None:
    """Compares a file of history with what a verifier said of it."""
    line = case.output.decode().split()
    if case.status == bridge.BAD_INPUT:
        try:
            history_file.read_history(Source(name, case.given))
            offset = None
        except FileFault as fault:
            offset = fault.offset
        is_same = offset == int(case.error.split()[-1])
        tally.check("a bad file of history has its fault at its offset", is_same, (name, offset))
    elif line and line[0] == "verified":
        try_good_history(tally, name, case.given, int(line[1]), line[2])
    elif line and line[:2] == ["refused", "Xdr"]:
        got = xdr_fault(case.given)
        tally.check("a value of a history has its fault", got == line[2:], (name, got, line))
    elif line:
        got = xdr_fault(case.given)
        tally.check("a value of a history that is refused for a later rule reads", got == [], (name, got))


def try_histories(tally: Tally, named: Named) -> None:
    for name, case in named:
        word = case.words[0] if case.words else b""
        if word == b"history" and case.status == 0:
            history = history_file.read_history(Source(name, case.output))
            closes = len(list(history_file.entries(history.parts[HEADERS])))
            digests = [history.before, *(e.value["hash"] for e in history_file.entries(history.parts[HEADERS]))]
            try_good_history(tally, name, case.output, closes, digests[-1].hex())
        elif case.words == [b"verify"]:
            try_verified(tally, name, case)


@contextlib.contextmanager
def scratch() -> Iterator[str]:
    """A folder in memory, where there is such."""
    memory = "/dev/shm" if os.path.isdir("/dev/shm") else None
    with tempfile.TemporaryDirectory(prefix="ledger-bridge-", dir=memory) as folder:
        yield folder


def try_stores(tally: Tally, named: Named) -> None:
    with scratch() as folder:
        bridge.try_stores(tally, named, folder)


# ---- what is shown

HEADER_LINES = (
    "ledger 10  8b6c40f65f36024c79db742dbb323ebdf245d7174d499fd21386a5c3e6643fad", "ledgerVersion       18",
    "previousLedgerHash  e43851c01bf582559ddbdf6628defdc32ff2eea138e419bcac419cae5be88a05",
    "closeTime           1005 (1970-01-01 00:16:45 UTC)", "feePool             200 native",
)
BUMP, TX = ("GAA43UXTYEZUVKGTKX62G6HMJ5GSWG4YADHMSTRMCNTXTODFENM3QX4N",
            "GDD7MBW2E2VJ2B73W6JRRPQ3X3SC4DNKYW665LWMSCLVFQHKAE3STRBU")
SET_LINES = (
    "ledger 10  transactions 1", f"  ENVELOPE_TYPE_TX_FEE_BUMP  feeSource {BUMP}  fee 400 native  hints 850958e7",
    f"    ENVELOPE_TYPE_TX  sourceAccount {TX}  fee 100 native  seqNum 1  hints 98fc7fb2",
    "      MANAGE_DATA  dataName x  dataValue 31",
)
RESULT_LINES = (
    "ledger 10  results 1",
    "  ea4f7663451fb9b7f55e472b1463676339366cac60901198eae7674d2b87b27d  txFEE_BUMP_INNER_SUCCESS"
    "  feeCharged 200 native",
    "    dc4ab3516b90cd952ab82103c6b1702d63dd653f7306afe712d2168ec29157cb  txSUCCESS  feeCharged 0 native",
    "      MANAGE_DATA  MANAGE_DATA_SUCCESS",
)
RESULTS_OF_THREE = """\
ledger 10  results 3
  632b83d15b0603bb43adcb7d7f23314b8438095134b73e07df795fb0d545ef5a  txSUCCESS  feeCharged 100 native
    ACCOUNT_MERGE  ACCOUNT_MERGE_SUCCESS  sourceAccountBalance 9999999900 native
  003907ac002a95a03458517c7a15b4998ef6a23179230521f82973b70f0fac07  txSUCCESS  feeCharged 100 native
    CREATE_CLAIMABLE_BALANCE  CREATE_CLAIMABLE_BALANCE_SUCCESS  balanceID \
0908ce494e21d97fa80bf93c1698fed69ea3de6f60d933eb11b060c5857ed440
  9afb54f503c71714cbfdb4d5231d82c8598fce21a16bb66423c3b17f4d005f74  txFAILED  feeCharged 100 native
    MANAGE_SELL_OFFER  MANAGE_SELL_OFFER_BUY_NO_TRUST
"""
# a record of form 2 with a transaction of each new condition, and its lines
CONDITIONS = FORMS[3][1]
VOUCHED = (
    f"80000002 00000009 {ZEROS} 00000001 00000002 {MUXED} 00000064 0000000000000007 {CONDITIONS} 00000000 00000001"
    f" 00000000 0000000b 0000000000000008 00000000 00000001 3fe89a00 00000003 aabbcc00 {ONES} 000000000000000a"
    f" 00000000 00000000 00000002 {FORMS[8][1]} {FORMS[9][1]}"
)
VOUCHED_LINES = f"""\
ledger 9  closeTime 10 (1970-01-01 00:00:10 UTC)  transactions 1  vouches 2
  ENVELOPE_TYPE_TX  sourceAccount {A}  fee 100 native  seqNum 7  minTime 5  maxTime 9  minLedger 7  maxLedger 8\
  minSeqNum 11  minSeqAge 60  minSeqLedgerGap 2  extraSigners [{P}]  hints 3fe89a00
    BUMP_SEQUENCE  bumpTo 8
  VOUCH  SIGNER_KEY_TYPE_ED25519  ed25519 {A}  hash {ONES}  signature aabbcc
  VOUCH  SIGNER_KEY_TYPE_ED25519_SIGNED_PAYLOAD  ed25519 {A}  payload dd
"""


def try_shown(tally: Tally, folder: str) -> None:
    """Compares what is shown with lines that were laid out by hand, and what is selected with its number."""
    vouched = bytes_of(VOUCHED)
    records = bridge.write_file(f"{folder}/records", (0x80000000 + len(vouched)).to_bytes(4, "big") + vouched)
    got = bridge.run("show", "records", records)
    tally.check("a record with vouches is shown", got == (0, VOUCHED_LINES, ""), got.out + got.err)
    bump = bridge.write_file(f"{folder}/bump", cases.read_case("history-fee-bump", FOLDER).output)
    lines = bridge.run("show", "history", bump).out.splitlines()
    is_so = all(line in lines for line in HEADER_LINES) and lines[-8:] == [*SET_LINES, *RESULT_LINES]
    tally.check("a file of history is shown", is_so, lines)
    three = bridge.write_file(f"{folder}/three", cases.read_case("history-results-with-payloads", FOLDER).output)
    got = bridge.run("show", "results", three)
    tally.check("results are shown", got == (0, RESULTS_OF_THREE, ""), got.out + got.err)
    for words, count in (
        (f"records {records}", 1), (f"records {records} --account {A}", 1), (f"records {records} --account {BUMP}", 0),
        (f"history {bump}", 4), (f"history {bump} --ledger 10", 4), (f"history {bump} --ledger 11", 1),
        (f"history {bump} --type MANAGE_DATA", 3), (f"history {bump} --account {TX}", 2),
        (f"history {bump} --type PAYMENT", 1), (f"results {bump}", 1), (f"results {three} --type ACCOUNT_MERGE", 1),
        (f"results {three} --type PAYMENT", 0), (f"results {three} --ledger 9", 0),
    ):
        answer = bridge.run("show", *words.split(), "--json")
        is_so = answer.status == 0 and len([json.loads(line) for line in answer.out.splitlines()]) == count
        tally.check("so many lines of history are shown", is_so, (words, answer))


# the first header of the public network, laid out by its published fields, and the hash that the network publishes
FIRST_HASH = "63d98f536ee68d1b27b5b89f23af5311b7569a24faf1403ad0b52b633b07be99"
FIRST_HEADER = (
    f"00000000 {ZEROS} {ZEROS} 0000000000000000 00000000 00000000 {ZEROS}"
    " 572a2e32ff248a07b0e70fd1f6d318c1facd20b6cc08c33d5775259868125a16 00000001 0de0b6b3a7640000 0000000000000000"
    f" 00000000 0000000000000000 00000064 05f5e100 00000064 {ZEROS} {ZEROS} {ZEROS} {ZEROS} 00000000"
)


def try_first_header(tally: Tally, folder: str) -> None:
    """Tries a header with its published hash, and with another one, which is said."""
    for digest, is_its_own in ((FIRST_HASH, True), (ONES, False)):
        entry = bytes_of(f"{digest} {FIRST_HEADER} 00000000")
        path = bridge.write_file(f"{folder}/first", (0x80000000 + len(entry)).to_bytes(4, "big") + entry)
        lines = bridge.run("show", "history", path).out.splitlines()
        is_so = lines[0] == f"ledger 1  {digest}" and "totalCoins          1000000000000000000 native" in lines
        is_said = f"this header has the hash {FIRST_HASH}" in lines
        tally.check("the public network's first header has its hash", is_so and is_said is not is_its_own, lines)


def parts_of(data: bytes) -> Iterator[bytes]:
    """The three streams of a file of history."""
    for part in history_file.read_history(Source("history", data)).parts:
        yield data[part.start:part.end]


def try_streams(tally: Tally, folder: str) -> None:
    """Tries the streams alone, packed too, as archives have them, and damaged ones."""
    data = cases.read_case("history-results-of-every-kind", FOLDER).output
    whole = bridge.run("show", "history", bridge.write_file(f"{folder}/whole", data)).out.split("\n", 1)[1]
    shown = []
    for kind, stream in enumerate(parts_of(data)):
        plain = bridge.run("show", "history", bridge.write_file(f"{folder}/{kind}", stream))
        packed = bridge.run("show", "history", bridge.write_file(f"{folder}/{kind}.gz", gzip.compress(stream)))
        tally.check("a packed stream is shown as it is without", plain == packed and plain.status == 0, packed)
        shown.append(plain.out)
    tally.check("the streams of a file of history are shown as it is", "".join(shown) == whole, shown)
    chance = random.Random(bridge.SEED)
    for index, whole_data in enumerate((data, gzip.compress(data, mtime=0), gzip.compress(stream, mtime=0), stream)):
        for part in bridge.damaged(whole_data, chance):
            what = chance.choice(("history", "results"))
            answer = bridge.run("show", what, bridge.write_file(f"{folder}/damaged", part))
            is_so = bridge.is_shown_or_refused(answer)
            tally.check("a damaged file of history is shown or refused in one line", is_so, (index, answer.err[-300:]))


def try_export_format_2(tally: Tally, folder: str) -> None:
    """Exports stores of format 2: their images, and their records, of which some are of form 2."""
    for name, case in named_cases():
        files = case.after if case.words[:1] in ([b"run"], [b"init"]) else case.before
        if case.status not in (0, 3) or not bridge.is_of_format_2(files, 0):
            continue
        store = f"{folder}/{name}"
        os.mkdir(store)
        lay_out(store, files)
        at = f"{store}/ledger-store"
        answer = bridge.run("store", "export", at, "--image", f"{store}/image", "--records", f"{store}/records")
        is_same = answer.status == 0 and bridge.bytes_at(f"{store}/image") == files["image0"][81:]
        tally.check("an exported image of format 2 is that of the store", is_same, (name, answer))
        source = Source("records", bridge.bytes_at(f"{store}/records"))
        records = [source.data[piece.start:piece.end] for piece in record_stream.pieces(source)]
        journal = b"".join(b"\1" + len(record).to_bytes(4, "big") + record for record in records) + b"\0"
        is_same = journal == files["journal0"][:len(journal)]
        tally.check("exported records of format 2 are those of the store", is_same, name)
        shown = json.loads(bridge.run("show", "store", at, "--json").out.splitlines()[0])["store"]
        is_said = (shown["format"], shown["records"]) == (2, len(records))
        tally.check("a store says that it is of format 2", is_said, shown)


def try_damaged_format_2(tally: Tally, folder: str) -> None:
    """Tries stores of format 2 of which a part of the head, or of the image, is another."""
    files = cases.read_case("vouches-store-102-04", FOLDER).before
    image = files["image0"]
    for at, offset in ((8, 1), (45, 41), (48, 41), (49, 49), (80, 49), (81, 49), (500, 49), (len(image) - 1, 49)):
        changed = image[:at] + bytes([image[at] ^ 1]) + image[at + 1:]
        store = f"{folder}/{at}"
        os.mkdir(store)
        lay_out(store, {**files, "image0": changed})
        answer = bridge.run("show", "store", f"{store}/ledger-store")
        is_so = bridge.is_refused(answer) and f"image0: offset {offset}: BadStore" in answer.err
        tally.check("a changed byte of a store of format 2 is found", is_so, (at, answer))
    os.mkdir(f"{folder}/cut")
    lay_out(f"{folder}/cut", {**files, "image0": image[:60]})
    answer = bridge.run("show", "store", f"{folder}/cut/ledger-store")
    tally.check("a changed byte of a store of format 2 is found", "image0: offset 41: BadStore" in answer.err, answer)


def try_vouched_in_format_1(tally: Tally, folder: str) -> None:
    """Tries a record of form 2 in a store of format 1."""
    _, files, _ = list(bridge.made_stores())[2]
    record = bridge.read("stories", "stopped", "record.62")[4:]
    vouched = (xdr.VOUCHED_FORM).to_bytes(4, "big") + record + bytes(4)
    length, at = len(record), files["journal0"].rindex(record)
    changed = files["journal0"][:at - 4] + len(vouched).to_bytes(4, "big") + vouched + files["journal0"][at + length:]
    lay_out(folder, {**files, "image0": bridge.store_model.in_format_1(files["image0"]), "journal0": changed})
    answer = bridge.run("show", "store", f"{folder}/ledger-store")
    is_so = bridge.is_refused(answer) and f"journal0: offset {at - 5}: BadStore, a record of form 2" in answer.err
    tally.check("a record of form 2 in a store of format 1 is found at its gate", is_so, answer)


def try_cases(tally: Tally, named: Named) -> None:
    """Tries all of some runs."""
    kept = list(named)
    for part in (try_inputs, try_histories, try_stores):
        part(tally, kept)


def check(top: str) -> Tally:
    tally = Tally()
    try_payloads(tally)
    try_forms(tally)
    try_cases(tally, named_cases())
    for part in (
        try_shown, try_first_header, try_streams, try_export_format_2, try_damaged_format_2, try_vouched_in_format_1,
    ):
        with scratch() as folder:
            part(tally, folder)
    return tally


if __name__ == "__main__":
    made = check(os.path.dirname(TESTS))
    print("\n".join(made.lines()))
    sys.exit(1 if made.failed else 0)
