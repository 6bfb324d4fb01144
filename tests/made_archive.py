"""A history archive that is made here, in the usual layout (history_archive.py), and files of history: the ledger of
`models/` closes records, and its headers, sets, results and buckets are written as an archive has them.
"""

from __future__ import annotations

import gzip
import json
import os
import sys
from typing import Any, Dict, List, NamedTuple, Tuple

from harness import TESTS

sys.path.insert(0, os.path.join(TESTS, "models"))
import archive_model as archive  # noqa: E402
import ledger_model as model  # noqa: E402
from entry_model import HEADER, RECORD, many, marked, sha, u32  # noqa: E402

CHECKPOINT = 64
FOLDERS = ("ledger", "transactions", "results")


class Closed(NamedTuple):
    """A ledger: its number, and its header, set and results as they are encoded; those of the first ledger of an image
    are None."""

    seq: int
    header: bytes
    set: Any
    results: Any

    def values(self) -> Tuple[bytes, bytes, bytes]:
        """The values of the three streams; no bytes where a stream has none of this ledger."""
        if self.set is None:
            return marked(sha(self.header) + self.header + u32(0)), b"", b""
        return archive.records_of(self.seq, self.header, self.set, self.results)


class Made(NamedTuple):
    """What the closes of an input yield: the image's ledger and those after it, the lines that are printed, and the
    buckets of each checkpoint with those that its levels take next."""

    ledgers: List[Closed]
    output: str
    buckets: Dict[int, Tuple[List[model.Bucket], List[model.Bucket]]]


def next_buckets(levels: model.Levels) -> List[model.Bucket]:
    """What each level but the first takes next, merged."""
    return [model.merged(*levels.next[level], level == 10) for level in range(1, 11)]


def closed(passphrase: bytes, data: bytes) -> Made:
    """Closes the records after an image."""
    text = model.Text(data)
    ledger = model.ledger_of(sha(passphrase), *model.cut_image(text))
    ledgers, lines, buckets = [Closed(ledger.header["seq"], HEADER.write(ledger.header), None, None)], [], {}
    while True:
        seq = ledger.header["seq"]
        if (seq + 1) % CHECKPOINT == 0:
            buckets[seq] = (ledger.levels.files, next_buckets(ledger.levels))
        if text.at == len(data):
            break
        record = text.take(model.take_mark(text, 16777216))
        lines.append(ledger.close(record))
        ledgers.append(Closed(seq + 1, HEADER.write(ledger.header), archive.set_bytes(model.read_entire(RECORD, record)), many(ledger.results)))
    lines.append(f"end {ledger.header['seq']} {ledger.hash.hex()}\n")
    return Made(ledgers, "".join(lines), buckets)


def history_of(made: Made) -> bytes:
    """The file of all three streams, of the ledgers after that of the image."""
    first, *rest = made.ledgers
    streams = [b"".join(parts) for parts in zip(*(ledger.values() for ledger in rest))] or [b""] * 3
    return archive.history_text(archive.MAGIC + sha(first.header) + u32(first.seq + 1), *streams)


def write_packed(folder: str, category: str, name: str, data: bytes) -> None:
    at = os.path.join(folder, category, name[0:2], name[2:4], name[4:6])
    os.makedirs(at, exist_ok=True)
    with open(os.path.join(at, f"{category}-{name}.xdr.gz"), "wb") as file:
        file.write(gzip.compress(data, mtime=0))


def write_bucket(folder: str, bucket: model.Bucket) -> str:
    """Writes a bucket unless it is the empty one, and answers its hash."""
    if bucket.file:
        write_packed(folder, "bucket", bucket.hash.hex(), bucket.file)
    return bucket.hash.hex()


def write_state(folder: str, seq: int, made: Made) -> None:
    """Writes the state of a checkpoint, as the last one too, and its buckets."""
    files, following = made.buckets[seq]
    names = [write_bucket(folder, bucket) for bucket in files]
    ahead = [{"state": 0}, *({"state": 1, "output": write_bucket(folder, bucket)} for bucket in following)]
    levels = [{"curr": curr, "next": then, "snap": snap} for curr, then, snap in zip(names[0::2], ahead, names[1::2])]
    state = {"version": 1, "server": "made by tests", "currentLedger": seq, "currentBuckets": levels}
    name = f"{seq:08x}"
    place = f"history/{name[0:2]}/{name[2:4]}/{name[4:6]}/history-{name}.json"
    for path in (place, ".well-known/stellar-history.json"):
        os.makedirs(os.path.dirname(os.path.join(folder, path)), exist_ok=True)
        with open(os.path.join(folder, path), "w", encoding="utf-8") as file:
            json.dump(state, file, indent=4)


def write_archive(folder: str, made: Made) -> None:
    """Writes the archive of all checkpoints whose ledgers are there."""
    for seq in sorted(made.buckets):
        of_checkpoint = [ledger for ledger in made.ledgers if max(1, seq - CHECKPOINT + 1) <= ledger.seq <= seq]
        for category, parts in zip(FOLDERS, zip(*(ledger.values() for ledger in of_checkpoint))):
            write_packed(folder, category, f"{seq:08x}", b"".join(parts))
        write_state(folder, seq, made)
