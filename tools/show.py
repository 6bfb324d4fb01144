"""What `show` prints of an image, of records and of a store: lines for people, or JSON lines. Unproved."""

from __future__ import annotations

from typing import Callable, Dict, List

from bucket_file import Item, items, newest
from file_source import opened
from ledger_store import Store, open_store, stored_record
from progress import Progress
from record_stream import close_record, pieces
from selection import Selection, signatures_of
from start_image import StartImage, is_image, read_image
from stellar_json import Json, encode, json_of
from stellar_text import bucket_entry_text, entry_text, header_lines, record_lines
from stellar_xdr import BUCKET_ENTRY, LEDGER_ENTRY, LEDGER_HEADER, RECORD
from xdr import Value

Put = Callable[[str], object]


def put_header(image: StartImage, is_json: bool, put: Put) -> None:
    header = json_of(LEDGER_HEADER, image.header)
    if is_json:
        put(encode({"ledgerHeader": header, "hash": image.hash.hex()}) + "\n")
    else:
        put("\n".join(header_lines(header, image.hash.hex())) + "\n")


def item_line(item: Item, is_json: bool, with_level: bool) -> str:
    if not with_level:
        entry = json_of(LEDGER_ENTRY, item.value["liveEntry"])
        return encode({"ledgerEntry": entry}) if is_json else entry_text(entry)
    value = json_of(BUCKET_ENTRY, item.value)
    if is_json:
        return encode({"level": item.file.level, "bucket": item.file.name, "bucketEntry": value})
    return f"level {item.file.level:2} {item.file.name}  {bucket_entry_text(value)}"


def show_image(path: str, selection: Selection, is_json: bool, has_all: bool, put: Put) -> None:
    """Prints the header of an image and its entries: those of the ledger, or every item of each bucket.

    Records may follow the image; only their marks are looked at. Raises FileFault and OSError.
    """
    source = opened(path)
    image = read_image(source)
    for _ in pieces(source, image.end):
        pass
    put_header(image, is_json, put)
    every = (item for file in image.files for item in items(source, file))
    with Progress(image.end) as progress:
        for item in every if has_all else newest(source, image.files):
            progress.add(len(item.data))
            if selection.has_item(item):
                put(item_line(item, is_json, has_all) + "\n")


def vouches_of(record: Value, txs: List[Value]) -> Dict[str, List[Value]]:
    """The vouches of a record of form 2, as its field: all, or those for signatures of the transactions that are asked
    for."""
    if "vouches" not in record or len(txs) == len(record["txSet"]["txs"]):
        return {}
    signed = {signature["signature"] for tx in txs for signature in signatures_of(tx)}
    return {"vouches": [vouch for vouch in record["vouches"] if list(vouch.values())[1]["signature"] in signed]}


def put_record(record: Value, selection: Selection, is_json: bool, put: Put) -> None:
    txs = selection.transactions(record)
    if txs is None:
        return
    count = len(record["txSet"]["txs"])
    shown = json_of(RECORD, {**record, **vouches_of(record, txs), "txSet": {**record["txSet"], "txs": txs}})
    put(encode(shown) + "\n" if is_json else "\n".join(record_lines(shown, count)) + "\n")


def show_records(path: str, selection: Selection, is_json: bool, put: Put) -> None:
    """Prints the records of a file, which may follow an image there. Raises FileFault and OSError."""
    source = opened(path)
    start = read_image(source).end if is_image(source) else 0
    with Progress(source.size - start) as progress:
        for piece in pieces(source, start):
            put_record(close_record(source, piece), selection, is_json, put)
            progress.add(piece.end - piece.at)


def store_fields(store: Store) -> Dict[str, Json]:
    """What is said of a store as a whole; the size of its image is in bytes."""
    image = store.image
    return {
        "format": store.format, "epoch": str(store.epoch), "networkID": store.network_id.hex(),
        "imageLedgerSeq": image.header["ledgerSeq"], "imageHash": image.hash.hex(),
        "imageBytes": image.end - image.start, "records": len(store.records), "lastLedgerSeq": store.last_ledger,
    }


def show_store(folder: str, selection: Selection, is_json: bool, put: Put) -> None:
    """Prints what a store opens to, and the records after its image. Raises FileFault and OSError."""
    store = open_store(folder)
    fields = store_fields(store)
    put(encode({"store": fields}) + "\n" if is_json else "".join(f"{name:16}{fields[name]}\n" for name in fields))
    for piece in store.records:
        put_record(stored_record(store, piece), selection, is_json, put)
