"""What `show` prints of the files of a ledger's history: lines for people, or JSON lines. Unproved."""

from __future__ import annotations

import hashlib
from typing import Callable, List, Optional

from history_file import (
    HEADERS, KINDS, RESULTS, SETS, Entry, Part, entries, is_history, kind_of, ledger_of_entry, read_history, stream,
)
from packed_file import opened_or_unpacked
from progress import Progress
from result_text import results_lines
from selection import Selection
from stellar_json import Json, encode, json_of
from stellar_text import GAP, header_lines, transaction_lines
from stellar_xdr import LEDGER_HEADER
from xdr import Value, write

Put = Callable[[str], object]
NAMES = ("ledgerHeaderHistoryEntry", "transactionHistoryEntry", "transactionHistoryResultEntry")


def selected(kind: int, value: Value, selection: Selection) -> Optional[Value]:
    """What is asked for of a value: of a set or of results, those of some transactions; None where it is nothing."""
    if selection.ledger is not None and ledger_of_entry(kind, value) != selection.ledger:
        return None
    if selection.account is None and selection.type is None:
        return value
    if kind == SETS:
        txs = [tx for tx in value["txSet"]["txs"] if selection.has_transaction(tx)]
        return {**value, "txSet": {**value["txSet"], "txs": txs}} if txs else None
    if kind == RESULTS:
        results = [pair for pair in value["txResultSet"]["results"] if selection.has_result(pair["result"])]
        return {**value, "txResultSet": {"results": results}} if results else None
    return None


def header_entry_lines(value: Value, shown: Json) -> List[str]:
    """The lines of a header, and one more where it has another hash than is stated."""
    digest = hashlib.sha256(write(LEDGER_HEADER, value["header"])).digest()
    lines = header_lines(shown["header"], shown["hash"])
    return lines if digest == value["hash"] else [*lines, f"this header has the hash {digest.hex()}"]


def set_lines(shown: Json, count: int) -> List[str]:
    txs = shown["txSet"]["txs"]
    some = [] if count == len(txs) else [f"shown {len(txs)}"]
    head = GAP.join([f"ledger {shown['ledgerSeq']}", f"transactions {count}", *some])
    return [head, *(line for tx in txs for line in transaction_lines(tx))]


def entry_lines(kind: int, whole: Value, value: Value) -> List[str]:
    """The lines of a value, of which `whole` has all that isn't asked for, too."""
    shown = json_of(KINDS[kind], value)
    if kind == HEADERS:
        return header_entry_lines(value, shown)
    if kind == SETS:
        return set_lines(shown, len(whole["txSet"]["txs"]))
    return results_lines(shown["ledgerSeq"], shown["txResultSet"]["results"], len(whole["txResultSet"]["results"]))


def put_entry(kind: int, entry: Entry, selection: Selection, is_json: bool, put: Put) -> None:
    value = selected(kind, entry.value, selection)
    if value is None:
        return
    if is_json:
        put(encode({NAMES[kind]: json_of(KINDS[kind], value)}) + "\n")
    else:
        put("\n".join(entry_lines(kind, entry.value, value)) + "\n")


def put_parts(parts: List[Part], selection: Selection, is_json: bool, put: Put) -> None:
    with Progress(sum(part.end - part.start for part in parts)) as progress:
        for part in parts:
            for entry in entries(part):
                put_entry(part.kind, entry, selection, is_json, put)
                progress.add(entry.piece.end - entry.piece.at)


def show_results(path: str, selection: Selection, is_json: bool, put: Put) -> None:
    """Prints the results of a file of them, or of one of all history. Raises FileFault and OSError."""
    source = opened_or_unpacked(path)
    part = read_history(source).parts[RESULTS] if is_history(source) else stream(source, RESULTS)
    put_parts([part], selection, is_json, put)


def show_history(path: str, selection: Selection, is_json: bool, put: Put) -> None:
    """Prints a file of headers, sets or results, or of all three. Raises FileFault and OSError."""
    source = opened_or_unpacked(path)
    if not is_history(source):
        put_parts([stream(source, kind_of(source))], selection, is_json, put)
        return
    history = read_history(source)
    fields = {"hash": history.before.hex(), "ledgerSeq": history.first}
    line = encode({"history": fields}) if is_json else f"history from ledger {history.first}{GAP}{history.before.hex()}"
    put(line + "\n")
    put_parts(list(history.parts), selection, is_json, put)
