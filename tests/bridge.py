"""Whether tools/stellar_files.py reads and copies the formats of docs/FORMATS.md as they are.

The tool isn't proved, so it is tried on all that the other tests have:

- the rows of crates/definition_rows that say where a value ends, or which fault is where: the same end, bytes, fault;
- the inputs and stores of `cases/` and `stories/`, the files of buckets of `probe/`, and `examples/`: what reads is
  written as it was, the hashes are those that the program prints, and bad inputs and stores have their faults at the
  offsets that it prints;
- the entries of images, as the ledger of `models/` has them;
- files that are cut or have another byte: an answer, or status 2 and one line;
- copies of stores and records, which close to what the store has; StrKeys of SEP-23; and the words of the command.
"""

from __future__ import annotations

import contextlib
import glob
import hashlib
import io
import json
import os
import random
import re
import stat
import subprocess
import sys
import tempfile
from typing import Dict, Iterable, Iterator, List, NamedTuple, Optional, Tuple

import cases
from harness import FILES, NETWORK, TESTS, Store, Tally, lay_out, read

TOOLS = os.path.join(os.path.dirname(TESTS), "tools")
sys.path[:0] = [TOOLS, os.path.join(TESTS, "models")]
import bucket_file  # noqa: E402
import ledger_store  # noqa: E402
import record_stream  # noqa: E402
import start_image  # noqa: E402
import stellar_files  # noqa: E402
import stellar_json  # noqa: E402
import stellar_text  # noqa: E402
import stellar_xdr as xdr  # noqa: E402
import strkey  # noqa: E402
from file_source import FileFault, Source  # noqa: E402
from start_image import StartImage  # noqa: E402
from transaction_hash import transaction_hash  # noqa: E402

import ledger_model  # noqa: E402
import store_model  # noqa: E402

BAD, MISSING, BAD_INPUT, BAD_IMAGE, REFUSED, DONE = 7, 11, 9, 10, 3, 0
IMAGE_COMMANDS = (b"init", b"catchup")
EXAMPLES = os.path.join(os.path.dirname(TESTS), "examples")
SEED = 18
CUTS, CHANGES = 50, 40

# SEP-23's vectors and those of its first implementation: a text, and the letter, key and id that it names
KEY = "3f0c34bf93ad0d9971d04ccc90f705511c838aad9734a4a2fb0d7a03fc7fe89a"
HASH = "69a8c4cbb9f64e8a0798f6e1ac65d06c3162929056bcf4cdb7d3738d1855f363"
STRKEYS = (
    ("GA7QYNF7SOWQ3GLR2BGMZEHXAVIRZA4KVWLTJJFC7MGXUA74P7UJVSGZ", "G", KEY, 0),
    ("MA7QYNF7SOWQ3GLR2BGMZEHXAVIRZA4KVWLTJJFC7MGXUA74P7UJUAAAAAAAAAAAACJUQ", "M", KEY, 0),
    ("MA7QYNF7SOWQ3GLR2BGMZEHXAVIRZA4KVWLTJJFC7MGXUA74P7UJVAAAAAAAAAAAAAJLK", "M", KEY, 2**63),
    ("TBU2RRGLXH3E5CQHTD3ODLDF2BWDCYUSSBLLZ5GNW7JXHDIYKXZWHXL7", "T", HASH, 0),
    ("XBU2RRGLXH3E5CQHTD3ODLDF2BWDCYUSSBLLZ5GNW7JXHDIYKXZWGTOG", "X", HASH, 0),
)
NO_STRKEYS = (
    "", "G", "GAAAAAAAACGC6", "MA7QYNF7SOWQ3GLR2BGMZEHXAVIRZA4KVWLTJJFC7MGXUA74P7UJUAAAAAAAAAAAACJUR",
    "GA7QYNF7SOWQ3GLR2BGMZEHXAVIRZA4KVWLTJJFC7MGXUA74P7UJVSGZA",
    "GA7QYNF7SOWQ3GLR2BGMZEHXAVIRZA4KVWLTJJFC7MGXUA74P7UJUACUSI",
    "G47QYNF7SOWQ3GLR2BGMZEHXAVIRZA4KVWLTJJFC7MGXUA74P7UJVP2I",
    "MA7QYNF7SOWQ3GLR2BGMZEHXAVIRZA4KVWLTJJFC7MGXUA74P7UJVAAAAAAAAAAAAAJLKA",
    "MA7QYNF7SOWQ3GLR2BGMZEHXAVIRZA4KVWLTJJFC7MGXUA74P7UJUAAAAAAAAAAAACJUK===",
    "ga7qynf7sowq3glr2bgmzehxavirza4kvwltjjfc7mgxua74p7ujvsgz",
    "M47QYNF7SOWQ3GLR2BGMZEHXAVIRZA4KVWLTJJFC7MGXUA74P7UJUAAAAAAAAAAAACJUQ",
    "GA7QYNF7SOWQ3GLR2BGMZEHXAVIRZA4KVWLTJJFC7MGXUA74P7UJVSGZ\n",
    "MA7QYNF7SOWQ3GLR2BGMZEHXAVIRZA4KVWLTJJFC7MGXUA74P7UJUAAAAAAAAAAAACJUO",
)


class Answer(NamedTuple):
    status: int
    out: str
    err: str


def run(*words: str) -> Answer:
    """What the tool answers to a command, in this process."""
    out, err = io.StringIO(), io.StringIO()
    with contextlib.redirect_stdout(out), contextlib.redirect_stderr(err):
        status = stellar_files.main(list(words))
    return Answer(status, out.getvalue(), err.getvalue())


def is_refused(answer: Answer) -> bool:
    """Whether an answer is status 2 and one line."""
    err = answer.err
    return answer.status == 2 and err.count("\n") == 1 and err.endswith("\n") and "Traceback" not in err


def is_shown_or_refused(answer: Answer) -> bool:
    return is_refused(answer) or (answer.status, answer.err) == (0, "")


def bytes_at(path: str) -> bytes:
    with open(path, "rb") as file:
        return file.read()


def write_file(path: str, data: bytes) -> str:
    with open(path, "wb") as file:
        file.write(data)
    return path


# ---- StrKeys


def try_strkeys(tally: Tally) -> None:
    for text, letter, key, number in STRKEYS:
        named = strkey.Key(letter, bytes.fromhex(key), number)
        is_same = strkey.decoded(text) == named and strkey.encoded(*named) == text
        tally.check("a StrKey is read and written", is_same, text)
    for text in NO_STRKEYS:
        try:
            named = strkey.decoded(text)
        except ValueError:
            named = None
        tally.check("a text is no StrKey", named is None, text)


# ---- rows of definitions

ROW = re.compile(r'\b(has_value|has_fault) (\w+) (?:(\w+) )?(\d+)\s+(\([^()]*\)|\[\])')
FILE_ROW = re.compile(
    r'\b(?:is_file \(Some (\d+)\) (\d+)|has_first_fault \(Some \((\w+) (\d+)(?: (\w+))?\)\))\s+(\(hex[^()]*\))',
)


def bytes_of(text: str) -> bytes:
    return bytes.fromhex("".join(re.findall(r'hex "([0-9a-f]*)"', text)))


def type_of_row(name: str) -> xdr.Type:
    return xdr.TYPES["".join(part.capitalize() for part in name.split("_"))]


def fault_of(kind: xdr.Type, data: bytes) -> Tuple[Optional[str], int]:
    """The kind and offset of the fault of some bytes; or None and the end of their value, which is to have a form in
    JSON and to be written as it was."""
    try:
        value, end = xdr.read(kind, data)
    except xdr.XdrFault as fault:
        return fault.kind, fault.offset
    stellar_json.encode(stellar_json.json_of(kind, value))
    return (None, end) if xdr.write(kind, value) == data[:end] else ("written otherwise", end)


def read_row(name: str, data: bytes) -> Tuple[Optional[str], int]:
    return read_image_row(data) if name == "start_image" else fault_of(type_of_row(name), data)


def read_image_row(data: bytes) -> Tuple[Optional[str], int]:
    try:
        return None, start_image.read_image(Source("image", data)).end
    except FileFault as fault:
        return fault.what.split(",")[0], fault.offset or 0


def try_rows(top: str, tally: Tally) -> None:
    for path in sorted(glob.glob(f"{top}/crates/definition_rows/proofs/*Vectors.antt")):
        with open(path, encoding="utf-8") as file:
            rows = ROW.findall(file.read())
        for _, name, kind, number, text in rows:
            data, expected = bytes_of(text), (kind or None, int(number))
            got = read_row(name, data)
            # what docs/FORMATS.md calls a wrong magic has no kind of its own
            is_so = got == expected or name == "start_image" and kind == "BadEnum" and got[1] == expected[1]
            detail = f"{os.path.basename(path)} {name}: {got}, not {expected}"
            tally.check("a row of a value or fault is as it says", is_so, detail)


def read_bucket(data: bytes) -> Tuple[str, int, str]:
    """The kind and offset of the first fault of a bucket's file; or its version and the number of its items."""
    source, found = Source("bucket", data), []
    try:
        found.extend(bucket_file.items(source, bucket_file.BucketFile(0, "curr", 0, len(data))))
    except FileFault as fault:
        return fault.what.split(",")[0], fault.offset or 0, ""
    written = b"".join(ledger_model.marked(xdr.write(xdr.BUCKET_ENTRY, item.value)) for item in found)
    version = str(found[0].value["metaEntry"]["ledgerVersion"]) if found else ""
    return version, len(found), "" if written == data else "written otherwise"


def try_bucket_rows(top: str, tally: Tally) -> None:
    for path in sorted(glob.glob(f"{top}/crates/definition_rows/proofs/*F*s.antt")):
        with open(path, encoding="utf-8") as file:
            rows = FILE_ROW.findall(file.read())
        for version, count, kind, offset, inner, text in rows:
            expected = (version, int(count), "") if version else (inner or kind, int(offset), "")
            got = read_bucket(bytes_of(text))
            detail = f"{os.path.basename(path)}: {got}, not {expected}"
            tally.check("a row of a bucket's file is as it says", got == expected, detail)
    for name in ("merges.tsv", "levels.tsv"):
        for line in read("probe", name).decode().splitlines():
            for text in line.split("\t")[1:]:
                if text != "-" and text.startswith("8"):
                    is_same = read_bucket(bytes.fromhex(text))[2] == ""
                    tally.check("a bucket's file of the probe is written as it was", is_same, name)


# ---- images and records


class Read(NamedTuple):
    """What an input has: its image, the values of its records, and its first fault."""

    image: Optional[StartImage]
    records: List[dict]
    fault: Optional[FileFault]
    # where the record begins that doesn't read
    record_at: int


def read_input(data: bytes, has_image: bool) -> Read:
    """Reads an input of `init` or `catchup`, which has an image, or of `run`; but for the entries of its image."""
    source, image, records, record_at = Source("input", data), None, [], -1
    try:
        if has_image:
            image = start_image.read_image(source)
        for piece in record_stream.pieces(source, image.end if image else 0):
            record_at = piece.start
            value = record_stream.close_record(source, piece)
            records.append(value)
            if xdr.write(xdr.RECORD, value) != data[piece.start:piece.end]:
                raise FileFault("input", "written otherwise", piece.start)
            record_at = -1
    except FileFault as fault:
        return Read(image, records, fault, record_at)
    return Read(image, records, None, -1)


def entries_fault(image: StartImage) -> str:
    """What is wrong with the files of an image, or that an item is written otherwise, or that there are other entries
    than the model's levels have; else nothing."""
    try:
        for file in image.files:
            for item in bucket_file.items(image.source, file):
                if xdr.write(xdr.BUCKET_ENTRY, item.value) != item.data:
                    return f"written otherwise at {item.at}"
        newest = bucket_file.newest(image.source, image.files)
        found = [xdr.write(xdr.LEDGER_ENTRY, item.value["liveEntry"]) for item in newest]
    except FileFault as fault:
        return str(fault)
    buckets = [ledger_model.read_bucket(image.source.data[file.start:file.end]) for file in image.files]
    try:
        held = ledger_model.existing(buckets)
    except ledger_model.BadImage:
        return ""
    expected = [ledger_model.ENTRY.write(entry) for _, entry in sorted(held.items(), key=lambda row: row[0])]
    return "" if found == expected else f"{len(found)} entries, not the {len(expected)} of the model"


def network_of(case: cases.Case) -> bytes:
    """The network id of a run: that of its store, or of its passphrase."""
    if case.words[0] == b"run":
        return next(case.before[name][9:41] for name in FILES[:2] if case.before.get(name, b"")[:1] == b"\1")
    return hashlib.sha256(case.words[-1].rpartition(b"=")[2]).digest()


def hashes_of(record: dict, network: bytes) -> List[str]:
    """The hashes of a record's transactions."""
    return sorted(transaction_hash(network, envelope).hex() for envelope in record["txSet"]["txs"])


def try_text(tally: Tally, seen: Read) -> None:
    """Tries that each record has lines for people and in JSON."""
    for value in seen.records:
        made = stellar_json.json_of(xdr.RECORD, value)
        lines = stellar_text.record_lines(made, len(value["txSet"]["txs"]))
        is_told = all(line.isprintable() for line in lines) and json.loads(stellar_json.encode(made)) == made
        tally.check("a record has lines", is_told, lines[0])


def try_output(tally: Tally, name: str, case: cases.Case, seen: Read) -> None:
    """Compares what a run printed with what is read of its input."""
    closed, txs = [], []
    for line in case.output.decode().splitlines():
        word, *rest = line.split()
        if word == "tx":
            txs.append(rest[0])
        elif word == "closed":
            closed.append((int(rest[0]), sorted(txs)))
            txs = []
        elif word == "end" and not closed and seen.image is not None:
            is_same = rest == [str(seen.image.header["ledgerSeq"]), seen.image.hash.hex()]
            tally.check("a header has the hash that the program prints", is_same, name)
    network = network_of(case) if closed else b""
    for (ledger, hashes), record in zip(closed, seen.records):
        is_same = (ledger, hashes) == (record["ledgerSeq"], hashes_of(record, network))
        tally.check("transactions have the hashes that the program prints", is_same, f"{name} {ledger}")
    tally.check("records that closed are read", len(closed) <= len(seen.records), name)


def try_faults(tally: Tally, name: str, case: cases.Case, seen: Read) -> None:
    """Compares the fault of an input with what the program says of it."""
    offset = seen.fault.offset if seen.fault else None
    if case.status == BAD_INPUT:
        expected = int(case.error.split()[-1])
        if case.words[0] == b"init" and seen.image is not None and expected == seen.image.end:
            return
        detail = f"{name}: {seen.fault}, not at {expected}"
        tally.check("a bad input has its fault at its offset", offset == expected, detail)
    elif case.status == BAD_IMAGE:
        rule = int(case.error.split()[-1])
        if rule == 1:
            tally.check("a header that doesn't read is refused", seen.image is None, name)
        elif rule > 4:
            tally.check("an image that breaks a later rule is read", seen.image is not None, f"{name}: {seen.fault}")
    elif case.status == REFUSED:
        last = case.output.decode().splitlines()[-1].split()
        if last[2] == "BadXdr":
            got = seen.fault and (seen.fault.what.split(",")[0], (offset or 0) - seen.record_at)
            expected = (last[4], int(last[3]))
            tally.check("a record that doesn't read has its fault", got == expected, f"{name}: {got}, not {last}")
    elif case.status == DONE:
        tally.check("an input that is read has no fault", seen.fault is None, f"{name}: {seen.fault}")


def try_image(tally: Tally, name: str, case: cases.Case, image: StartImage) -> None:
    """Tries the files of an image. Rule 4 is that they read, but for rules before it."""
    rule = int(case.error.split()[-1]) if case.status == BAD_IMAGE else 0
    why = entries_fault(image)
    if rule == 4:
        tally.check("an image with a bad file is refused", bool(why), name)
    elif rule not in (2, 3):
        what = "an image's entries are written as they were, and those of the model"
        tally.check(what, not why, f"{name}: {why}")


def try_cases(tally: Tally) -> None:
    seen_images, seen_inputs = set(), set()
    for name in cases.names():
        case = cases.read_case(name)
        if not case.words or case.words[0] not in (*IMAGE_COMMANDS, b"run") or case.status not in (0, 3, 9, 10):
            continue
        seen = read_input(case.given, case.words[0] in IMAGE_COMMANDS)
        try_faults(tally, name, case, seen)
        try_output(tally, name, case, seen)
        if case.given not in seen_inputs:
            seen_inputs.add(case.given)
            try_text(tally, seen)
        image = seen.image and case.given[:seen.image.end]
        if seen.image is not None and image not in seen_images:
            seen_images.add(image)
            try_image(tally, name, case, seen.image)


# ---- stores


def store_fault(folder: str) -> Tuple[Optional[ledger_store.Store], Optional[FileFault]]:
    try:
        return ledger_store.open_store(f"{folder}/ledger-store"), None
    except FileFault as fault:
        return None, fault


def is_of_format_2(files: Store, index: int) -> bool:
    return files.get(FILES[index], b"")[1:2] >= b"\x80"


def try_bad_store(tally: Tally, name: str, case: cases.Case, fault: Optional[FileFault]) -> None:
    """Compares a store's fault with that of the program. Where that is of a rule which isn't judged here, the store
    opens or has a later fault, in its journal."""
    if case.status == MISSING:
        tally.check("a store that is missing is refused", fault is not None and fault.what.startswith("Missing"), name)
        return
    file, offset = map(int, case.error.split()[-2:])
    # an image that isn't legal, and a record that is refused
    is_judged = offset != (81 if is_of_format_2(case.before, file) else 49) if file < 2 else offset == 0
    is_same = fault is not None and (os.path.basename(fault.path), fault.offset) == (FILES[file], offset)
    if is_same or is_judged:
        tally.check("a bad store has its fault at its offset", is_same, f"{name}: {fault}, not {case.error!r}")
    else:
        is_later = fault is None or file < 2 and os.path.basename(fault.path) in FILES[2:]
        tally.check("a store with a rule that isn't judged here opens", is_later, f"{name}: {fault}")


def try_good_store(tally: Tally, name: str, case: cases.Case, store: ledger_store.Store) -> None:
    """Compares what a store opens to with what the program prints of it."""
    rows = [line.split() for line in case.output.decode().splitlines()]
    if case.words[0] == b"show":
        (_, ledger, _), (_, epoch, _, records), _, (_, entries) = rows
        is_same = (store.last_ledger, store.epoch, len(store.records)) == (int(ledger), int(epoch), int(records))
        if is_same and not store.records:
            is_same = int(entries) == sum(1 for _ in bucket_file.newest(store.image.source, store.image.files))
    else:
        is_same = rows[-1][0] != "end" or store.last_ledger == int(rows[-1][1])
    tally.check("a store opens to the ledger that the program prints", is_same, name)


def has_great_epoch(files: Store) -> bool:
    """Whether an image of format 1 has an epoch of 2^63 - 1 or more, which later formats take for something else."""
    opened = [files[name] for name in FILES[:2] if files.get(name, b"")[:1] == b"\1"]
    return any(
        data[1:9] >= b"\x7f" + b"\xff" * 7 and int.from_bytes(data[41:49], "big") == len(data) - 49 for data in opened)


def try_stores(tally: Tally, named: Iterable[Tuple[str, cases.Case]], folder: str) -> None:
    for index, (name, case) in enumerate(named):
        command = case.words[0] if case.words else b""
        if command not in (b"run", b"show", b"init") or case.status not in (DONE, BAD, MISSING):
            continue
        at = f"{folder}/{index}"
        os.mkdir(at)
        lay_out(at, case.before if command == b"show" or case.status != DONE else case.after)
        os.makedirs(f"{at}/ledger-store", exist_ok=True)
        store, fault = store_fault(at)
        if case.status == DONE:
            if tally.check("a store opens", store is not None, f"{name}: {fault}") and store and case.output:
                try_good_store(tally, name, case, store)
        else:
            try_bad_store(tally, name, case, fault)


def try_stores_of_cases(tally: Tally, folder: str) -> None:
    named = ((name, cases.read_case(name)) for name in cases.names())
    try_stores(tally, (row for row in named if not has_great_epoch({**row[1].after, **row[1].before})), folder)


# ---- copies


def catchup(image: bytes, records: bytes) -> str:
    """The last line of `catchup` over an image and records."""
    return ledger_model.catchup(NETWORK, image + records)[0].splitlines()[-1]


def made_stores() -> Iterator[Tuple[str, Store, str]]:
    """Stores, each with what it is called and the line of its last ledger."""
    beside = {name: read("stories", "beside", name) for name in FILES}
    yield "400 ledgers", beside, read("stories", "beside", "text").decode().splitlines()[-1]
    image = read("stories", "stopped", "image")
    records = [read("stories", "stopped", f"record.{seq}") for seq in range(62, 67)]
    _, files = store_model.init(NETWORK, image, [b""] * 4)
    for count in range(len(records) + 1):
        (text, _, _), files = store_model.run(records[count - 1] if count else b"", files)
        yield f"{count} ledgers", dict(zip(FILES, files)), text.splitlines()[-1]


def try_exports(tally: Tally, folder: str) -> None:
    for name, files, end in made_stores():
        at = f"{folder}/{name.replace(' ', '-')}"
        os.mkdir(at)
        lay_out(at, files)
        words = ("store", "export", f"{at}/ledger-store", "--image", f"{at}/image", "--records", f"{at}/records")
        answer = run(*words)
        if not tally.check("a store is exported", answer == (0, "", ""), f"{name}: {answer}"):
            continue
        answer = run("show", "store", f"{at}/ledger-store", "--json")
        first, *rest = [json.loads(line) for line in answer.out.splitlines()]
        is_same = str(first["store"]["lastLedgerSeq"]) == end.split()[1] and len(rest) == first["store"]["records"]
        tally.check("a store is shown with its last ledger and its records", is_same, answer.out[:300])
        image, records = bytes_at(f"{at}/image"), bytes_at(f"{at}/records")
        tally.check("what is exported closes to the ledger of the store", catchup(image, records) == end, name)
        index = max((0, 1), key=lambda index: int.from_bytes(files[FILES[index]][:9], "big"))
        start = 81 if is_of_format_2(files, index) else 49
        tally.check("an exported image is that of the store", image == files[FILES[index]][start:], name)
        kept = store_model.records_of(2 + index, files[FILES[2 + index]])[0]
        is_same = records == b"".join(ledger_model.marked(record) for _, record in kept)
        tally.check("exported records are those of the store", is_same, name)
        try_old_files(tally, at, words)


def try_old_files(tally: Tally, at: str, words: Tuple[str, ...]) -> None:
    """Tries that files stay unless they are to be replaced, and that nothing else is left or written into the store."""
    image, records = bytes_at(f"{at}/image"), bytes_at(f"{at}/records")
    write_file(f"{at}/records", b"old")
    answer = run(*words)
    is_kept = is_refused(answer) and bytes_at(f"{at}/records") == b"old"
    tally.check("a file that is there isn't overwritten", is_kept, answer)
    answer = run(*words, "--force")
    is_replaced = answer.status == 0 and (bytes_at(f"{at}/image"), bytes_at(f"{at}/records")) == (image, records)
    tally.check("a file that is there is replaced where that is asked", is_replaced, answer)
    for first, second in ((f"{at}/ledger-store/image0", f"{at}/r"), (f"{at}/i", f"{at}/i")):
        answer = run("store", "export", f"{at}/ledger-store", "--image", first, "--records", second, "--force")
        tally.check("nothing is written into the store, or twice into a file", is_refused(answer), answer)
    os.mkfifo(f"{at}/pipe")
    answer = run("store", "export", f"{at}/ledger-store", "--image", f"{at}/i", "--records", f"{at}/pipe", "--force")
    is_kept = is_refused(answer) and stat.S_ISFIFO(os.stat(f"{at}/pipe").st_mode)
    tally.check("what is no file, as a pipe or a device, isn't replaced", is_kept, answer)
    os.remove(f"{at}/pipe")
    answer = run("store", "export", f"{at}/ledger-store", "--image", f"{at}/i", "--records", f"{at}/none/r")
    tally.check("no file is left where one can't be written", is_refused(answer), answer)
    tally.check("nothing else is left", sorted(os.listdir(at)) == ["image", "ledger-store", "records"], os.listdir(at))


def try_later_records(tally: Tally, folder: str) -> None:
    data = b"".join(read("stories", "stopped", f"record.{seq}") for seq in range(62, 67))
    both = write_file(f"{folder}/input", read("stories", "stopped", "image") + data)
    alone = write_file(f"{folder}/stream", data)
    for after in (0, 61, 62, 64, 65, 66, 4294967295):
        expected = b"".join(read("stories", "stopped", f"record.{seq}") for seq in range(max(62, after + 1), 67))
        for given in (both, alone):
            answer = run("records", "after", str(after), given, "--out", f"{folder}/later", "--force")
            is_same = answer == (0, "", "") and bytes_at(f"{folder}/later") == expected
            tally.check("later records are byte for byte as they were", is_same, f"after {after}: {answer}")


# ---- files that are cut or have another byte


def damaged(data: bytes, chance: random.Random) -> Iterator[bytes]:
    for _ in range(CUTS):
        yield data[:chance.randrange(len(data) + 1)]
    for _ in range(CHANGES):
        at = chance.randrange(len(data))
        yield data[:at] + bytes([data[at] ^ chance.randrange(1, 256)]) + data[at + 1:]


def chosen_inputs() -> Dict[str, bytes]:
    """Inputs of each kind of entry and operation, and of each length up to some 30 kB."""
    records = bytes_at(f"{EXAMPLES}/accounts.records")
    found = {"records": records, "examples": bytes_at(f"{EXAMPLES}/accounts.image") + records}
    expected = [name for name in cases.names() if cases.read_case(name).words[:1] == [b"catchup"]]
    for name in expected[::24]:
        given = cases.read_case(name).given
        if 100 < len(given) < 30000:
            found[name] = given
    return found


def try_damaged_inputs(tally: Tally, folder: str) -> None:
    chance = random.Random(SEED)
    for name, data in chosen_inputs().items():
        for part in damaged(data, chance):
            path = write_file(f"{folder}/damaged", part)
            what = ["records"] if name == "records" else chance.choice((["image"], ["image", "--all"], ["records"]))
            answer = run("show", *what, path, *chance.choice(([], ["--json"])))
            detail = f"{name}: {answer.status} {answer.err[-300:]}"
            tally.check("a damaged file is shown or refused in one line", is_shown_or_refused(answer), detail)


def try_damaged_stores(tally: Tally, folder: str) -> None:
    chance = random.Random(SEED)
    _, files, _ = list(made_stores())[3]
    for name, data in files.items():
        for index, part in enumerate(damaged(data, chance) if data else ()):
            at = f"{folder}/damaged-{name}-{index}"
            os.mkdir(at)
            lay_out(at, {**files, name: part})
            answer = run("show", "store", f"{at}/ledger-store")
            detail = f"{name}: {answer.status} {answer.err[-300:]}"
            tally.check("a damaged store is shown or refused in one line", is_shown_or_refused(answer), detail)


# ---- the command

A = "GBQWCYLBMFQWCYLBMFQWCYLBMFQWCYLBMFQWCYLBMFQWCYLBMFQWDRY7"
B = "GBRGEYTCMJRGEYTCMJRGEYTCMJRGEYTCMJRGEYTCMJRGEYTCMJRGEBQY"
E = "GBSWKZLFMVSWKZLFMVSWKZLFMVSWKZLFMVSWKZLFMVSWKZLFMVSWKOYV"
LEDGER_63 = f"""\
ledger 63  closeTime 1005 (1970-01-01 00:16:45 UTC)  transactions 2
  ENVELOPE_TYPE_TX  sourceAccount {A}  fee 100 native  seqNum 1  hints b8ab8551
    PAYMENT  destination {B}  amount 250000000 native
  ENVELOPE_TYPE_TX  sourceAccount {B}  fee 100 native  seqNum 1  hints b35f899b
    CREATE_ACCOUNT  destination {E}  startingBalance 50000000 native
"""
PAID = "GB5HU6T2PJ5HU6T2PJ5HU6T2PJ5HU6T2PJ5HU6T2PJ5HU6T2PJ5HUDRG"


# operations and entries laid out by hand, each with its line
NATIVE = {"type": "ASSET_TYPE_NATIVE"}
USD = {"type": "ASSET_TYPE_CREDIT_ALPHANUM4", "alphaNum4": {"assetCode": "USD", "issuer": B}}
NO_EXT = {"v": 0}
TEXTS = (
    ({"type": "MANAGE_SELL_OFFER", "manageSellOfferOp": {
        "selling": USD, "buying": NATIVE, "amount": "7", "price": {"n": 3, "d": 2}, "offerID": "0"}},
     f"MANAGE_SELL_OFFER  buying native  amount 7 USD:{B}  price 3/2  offerID 0"),
    ({"type": "PATH_PAYMENT_STRICT_SEND", "pathPaymentStrictSendOp": {
        "sendAsset": NATIVE, "sendAmount": "5", "destination": A, "destAsset": USD, "destMin": "4",
        "path": [NATIVE, USD]}},
     f"PATH_PAYMENT_STRICT_SEND  sendAmount 5 native  destination {A}  destMin 4 USD:{B}  path [native, USD:{B}]"),
    ({"type": "REVOKE_SPONSORSHIP", "revokeSponsorshipOp": {"type": "REVOKE_SPONSORSHIP_LEDGER_ENTRY", "ledgerKey": {
        "type": "DATA", "data": {"accountID": A, "dataName": "CLAIMANT_TYPE_V0"}}}},
     f"REVOKE_SPONSORSHIP  REVOKE_SPONSORSHIP_LEDGER_ENTRY  DATA  accountID {A}  dataName CLAIMANT_TYPE_V0"),
    ({"type": "CREATE_CLAIMABLE_BALANCE", "createClaimableBalanceOp": {"asset": USD, "amount": "1", "claimants": [
        {"type": "CLAIMANT_TYPE_V0", "v0": {"destination": A, "predicate": {
            "type": "CLAIM_PREDICATE_NOT",
            "notPredicate": {"type": "CLAIM_PREDICATE_BEFORE_ABSOLUTE_TIME", "absBefore": "9"}}}}]}},
     f"CREATE_CLAIMABLE_BALANCE  amount 1 USD:{B}  claimants [destination {A} predicate not(before_absolute_time(9))]"),
    ({"type": "INFLATION"}, "INFLATION"),
    ({"type": "ACCOUNT_MERGE", "destination": B}, f"ACCOUNT_MERGE  destination {B}"),
)
LINE = {"lastModifiedLedgerSeq": 3, "data": {"type": "TRUSTLINE", "trustLine": {
    "accountID": A, "asset": USD, "balance": "1", "limit": "9", "flags": 1,
    "ext": {"v": 1, "v1": {"liabilities": {"buying": "2", "selling": "0"}, "ext": NO_EXT}}}},
    "ext": {"v": 1, "v1": {"sponsoringID": B, "ext": NO_EXT}}}
LINE_TEXT = (
    f"TRUSTLINE          accountID {A}  balance 1 USD:{B}  limit 9 USD:{B}  flags 1  liabilities.buying 2 USD:{B}"
    f"  liabilities.selling 0 USD:{B}  lastModifiedLedgerSeq 3  sponsoringID {B}"
)


def try_texts(tally: Tally) -> None:
    for body, line in TEXTS:
        got = stellar_text.operation_text({"sourceAccount": None, "body": body})
        tally.check("an operation or entry has the line that was laid out", got == line, got)
    got = stellar_text.entry_text(LINE)
    tally.check("an operation or entry has the line that was laid out", got == LINE_TEXT, got)


def try_shown(tally: Tally) -> None:
    """Compares what is shown of the examples with what was laid out by hand, and what is selected with its number."""
    image, records = f"{EXAMPLES}/accounts.image", f"{EXAMPLES}/accounts.records"
    tally.check("a record is shown", run("show", "records", records, "--ledger", "63") == (0, LEDGER_63, ""))
    for what, path, words, count in (
        ("image", image, "", 5), ("image", image, "--all", 6), ("image", image, f"--account {A}", 2),
        ("image", image, f"--account {E}", 1), ("image", image, "--type ACCOUNT", 5),
        ("image", image, "--type OFFER", 1), ("image", image, "--ledger 2", 5), ("image", image, "--ledger 3", 1),
        ("records", records, "", 3),
        ("records", records, f"--account {E}", 1), ("records", records, f"--account {PAID}", 1),
        ("records", records, "--type PAYMENT", 2), ("records", records, "--type INFLATION", 0),
        ("records", records, "--ledger 64", 1), ("records", records, "--ledger 62", 0), ("records", image, "", 0),
    ):
        answer = run("show", what, path, *words.split(), "--json")
        is_so = answer.status == 0 and len([json.loads(line) for line in answer.out.splitlines()]) == count
        tally.check("so many lines of JSON are shown", is_so, f"{what} {words}: {answer}")
    first = json.loads(run("show", "image", image, "--json").out.splitlines()[1])["ledgerEntry"]
    account = first["data"]["account"]
    got = [first["lastModifiedLedgerSeq"], first["data"]["type"], account["accountID"], account["balance"]]
    tally.check("numbers of 64 bits are strings, and accounts StrKeys", got == [2, "ACCOUNT", A, "1000000000"], got)


def try_words(tally: Tally, folder: str) -> None:
    named = {"image": f"{EXAMPLES}/accounts.image", "none": f"{folder}/none", "folder": folder, "hash": STRKEYS[3][0]}
    for text in (
        "", "show", "show image", "show nothing {image}", "show image {folder}", "show image {none}",
        "show store {image}", "show store {folder}", "show store {none}", "show image {image} --account G",
        "show image {image} --ledger -1", "show image {image} --account {hash}", "show image {image} --type PAYMENT",
        "show records {image} --all",
        "records after x {image} --out {none}", "records after 1 {image}", "records after 1 {none} --out {folder}/o",
        "records after 1 {image} --out {folder}", "records after 1 {image} --out {none}/o", "store export {folder}",
        "store export {folder} --image {folder}/i --records {folder}/r", "--version",
    ):
        answer = run(*(word.format(**named) for word in text.split()))
        is_so = is_refused(answer) and not answer.out
        tally.check("what can't be done is refused in one line", is_so, f"{text}: {answer}")
    shows = [("show", what) for what in ("image", "records", "store", "results", "history")]
    for words in (*shows, ("records", "after"), ("store", "export")):
        answer = run(*words, "--help")
        is_told = answer.status == 0 and "example:" in answer.out and "not proved" in answer.out
        tally.check("the help of a command has an example", is_told, words)


def try_process(tally: Tally) -> None:
    """Tries the command as a process: one that isn't read any more, and one that fails."""
    command = [sys.executable, f"{TOOLS}/stellar_files.py"]
    words = ["show", "records", f"{TESTS}/stories/beside/records", "--json"]
    with subprocess.Popen([*command, *words], stdout=subprocess.PIPE, stderr=subprocess.PIPE) as ran:
        first = ran.stdout.readline()
        ran.stdout.close()
        said = ran.stderr.read()
    is_quiet = ran.wait() == 141 and not said and json.loads(first)["ledgerSeq"] == 2
    tally.check("an output that isn't read any more ends quietly", is_quiet, (ran.returncode, said))
    failed = subprocess.run([*command, "show", "image", f"{TESTS}/run.py"], capture_output=True)
    is_so = (failed.returncode, failed.stdout) == (2, b"") and failed.stderr.decode() == (
        f"{TESTS}/run.py: offset 0: no start image, which begins with SLI1\n")
    tally.check("a file of another kind is refused", is_so, failed)
    with open("/dev/full", "w") as full:
        words = ["show", "image", f"{EXAMPLES}/accounts.image"]
        failed = subprocess.run([*command, *words], stdout=full, stderr=subprocess.PIPE)
    is_so = failed.returncode == 2 and failed.stderr == b"standard output: No space left on device\n"
    tally.check("a full output is reported", is_so, failed)


def check(top: str) -> Tally:
    tally = Tally()
    try_strkeys(tally)
    try_rows(top, tally)
    try_bucket_rows(top, tally)
    try_cases(tally)
    try_texts(tally)
    try_shown(tally)
    try_process(tally)
    memory = "/dev/shm" if os.path.isdir("/dev/shm") else None
    parts = (try_stores_of_cases, try_exports, try_later_records, try_damaged_inputs, try_damaged_stores, try_words)
    for part in parts:
        with tempfile.TemporaryDirectory(prefix="ledger-bridge-", dir=memory) as folder:
            part(tally, folder)
    return tally


if __name__ == "__main__":
    made = check(os.path.dirname(TESTS))
    print("\n".join(made.lines()))
    sys.exit(1 if made.failed else 0)
