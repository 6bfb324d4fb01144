"""A history archive in the usual layout, in a folder: which files it has for a ledger, and the state of its buckets.

Each 64 ledgers there is a checkpoint, at ledgers 63, 127 and so on. A checkpoint C in eight hexadecimal digits wwxxyyzz
has the state `history/ww/xx/yy/history-C.json`, and the streams of its 64 ledgers in `ledger/`, `transactions/` and
`results/`, as `ledger/ww/xx/yy/ledger-C.xdr.gz`; a bucket is `bucket/aa/bb/cc/bucket-HASH.xdr.gz` by the first bytes of
its hash. `.well-known/stellar-history.json` is the state of the last checkpoint. Unproved.
"""

from __future__ import annotations

import json
import os
import re
from typing import Any, NamedTuple, Tuple

from file_source import FileFault, Source
from packed_file import unpacked
from start_image import LEVELS, NAMES

CHECKPOINT = 64
STATE_VERSION = 1
HASH = re.compile(r"[0-9a-f]{64}")
WELL_KNOWN = os.path.join(".well-known", "stellar-history.json")
# the folders of the streams, by the kinds of history_file.py
STREAMS = ("ledger", "transactions", "results")


class State(NamedTuple):
    """The state of a checkpoint: its file, its ledger, and the hashes of its 22 buckets, curr and snap of each
    level."""

    path: str
    ledger: int
    buckets: Tuple[bytes, ...]


def checkpoint_of(ledger: int) -> int:
    """The checkpoint that has a ledger."""
    return ledger // CHECKPOINT * CHECKPOINT + CHECKPOINT - 1


def first_of(checkpoint: int) -> int:
    """The first ledger of a checkpoint; the first checkpoint has no ledger 0."""
    return max(1, checkpoint - CHECKPOINT + 1)


def place_of(folder: str, category: str, name: str, ending: str) -> str:
    """The path of a file of an archive, whose name is hexadecimal."""
    return os.path.join(folder, category, name[0:2], name[2:4], name[4:6], f"{category}-{name}{ending}")


def stream_path(folder: str, kind: int, checkpoint: int) -> str:
    return place_of(folder, STREAMS[kind], f"{checkpoint:08x}", ".xdr.gz")


def bucket_path(folder: str, digest: bytes) -> str:
    return place_of(folder, "bucket", digest.hex(), ".xdr.gz")


def state_path(folder: str, checkpoint: int) -> str:
    return place_of(folder, "history", f"{checkpoint:08x}", ".json")


def json_at(path: str) -> Any:
    """The JSON of a file. Raises FileFault and OSError."""
    with open(path, "rb") as file:
        data = file.read()
    try:
        return json.loads(data)
    except (ValueError, RecursionError) as why:
        raise FileFault(path, f"no JSON: {why}") from None


def end_of(folder: str) -> str:
    """What the archive's own state says of its end."""
    try:
        last = json_at(os.path.join(folder, WELL_KNOWN))["currentLedger"]
    except (OSError, FileFault, KeyError, TypeError):
        return f"and there is no {WELL_KNOWN} that says where the archive ends"
    return f"and {WELL_KNOWN} says that the archive ends at ledger {last}"


def test_there(folder: str, path: str) -> None:
    """Raises FileFault where a file of an archive isn't there."""
    if not os.path.isfile(path):
        raise FileFault(path, f"is no file, {end_of(folder)}")


def stream_source(folder: str, kind: int, checkpoint: int) -> Source:
    """The unpacked bytes of a checkpoint's stream. Raises FileFault and OSError."""
    path = stream_path(folder, kind, checkpoint)
    test_there(folder, path)
    return unpacked(path)


def bucket_hash(path: str, levels: Any, index: int) -> bytes:
    """The hash of a bucket in a state's list of levels. Raises FileFault."""
    name = NAMES[index % len(NAMES)]
    level = levels[index // len(NAMES)]
    text = level.get(name) if isinstance(level, dict) else None
    if not isinstance(text, str) or not HASH.fullmatch(text):
        raise FileFault(path, f"currentBuckets[{index // len(NAMES)}].{name} is no hash of 64 hexadecimal digits")
    return bytes.fromhex(text)


def read_state(folder: str, ledger: int) -> State:
    """The state of the checkpoint that ends at a ledger. Raises FileFault and OSError."""
    if checkpoint_of(ledger) != ledger:
        below, above = checkpoint_of(ledger) - CHECKPOINT, checkpoint_of(ledger)
        near = f"{below} and {above}" if below > 0 else f"{above}"
        raise FileFault(folder, f"an archive has buckets at checkpoints alone, as at {near}, and not at {ledger}")
    path = state_path(folder, ledger)
    test_there(folder, path)
    state = json_at(path)
    if not isinstance(state, dict) or state.get("version") != STATE_VERSION:
        raise FileFault(path, f"no state of version {STATE_VERSION}")
    if state.get("currentLedger") != ledger:
        raise FileFault(path, f"its currentLedger isn't {ledger}")
    levels = state.get("currentBuckets")
    if not isinstance(levels, list) or len(levels) != LEVELS:
        raise FileFault(path, f"its currentBuckets isn't a list of {LEVELS} levels")
    return State(path, ledger, tuple(bucket_hash(path, levels, index) for index in range(LEVELS * len(NAMES))))
