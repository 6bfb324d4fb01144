"""Whether tools/stellar_files.py reads history archives. No network is at hand, so the archive is made here
(made_archive.py): a sample is closed by the ledger of `models/`, and its headers, sets, results and buckets are packed
into the usual layout.

- files of history that are made so are byte for byte those that other programs wrote for the same inputs;
- an image of a checkpoint and the records after it close to the lines of the sample, and are its own bytes;
- a byte that is changed anywhere in the files of an archive, packed or not, is found by the name of the file;
- archives that are cut, have no such ledger, or whose buckets don't fit are refused in one line.
"""

from __future__ import annotations

import gzip
import os
import random
import sys
from typing import Dict, Iterator, List, NamedTuple, Tuple

import bridge
import bridge_forms
import made_archive
from harness import TESTS, Tally

import ledger_model  # noqa: E402
import sample_files  # noqa: E402

LEDGERS, NETWORK = 135, b"sample"
FIRST, SECOND = 63, 127
CHANGES = 6
STREAMS = ("ledger", "transactions", "results")


class Archive(NamedTuple):
    """An archive in a folder, what was closed, and the input of it."""

    folder: str
    made: made_archive.Made
    image: bytes
    records: List[bytes]

    def place(self, category: str, seq: int, ending: str = ".xdr.gz") -> str:
        return f"{self.folder}/{category}/00/00/00/{category}-{seq:08x}{ending}"

    def bucket(self, digest: str) -> str:
        return f"{self.folder}/bucket/{digest[0:2]}/{digest[2:4]}/{digest[4:6]}/bucket-{digest}.xdr.gz"


def make_archive(folder: str) -> Archive:
    """An archive of two checkpoints, and ledgers after them."""
    sample = sample_files.Sample(1, LEDGERS)
    records = list(sample.records())
    made = made_archive.closed(NETWORK, sample.image + b"".join(records))
    made_archive.write_archive(f"{folder}/archive", made)
    return Archive(f"{folder}/archive", made, sample.image, records)


def try_histories(tally: Tally) -> None:
    """Compares files of history that are made here with those of other programs."""
    for name, case in bridge_forms.named_cases():
        if case.words[0] == b"history":
            made = made_archive.closed(case.words[-1].rpartition(b"=")[2], case.given)
            is_same = made_archive.history_of(made) == case.output
            tally.check("a file of history is made as others make it", is_same, name)


# ---- what is taken out


def lines_after(made: made_archive.Made, seq: int) -> str:
    """The lines of the closes after a ledger."""
    head, _, rest = made.output.partition(f"closed {seq} ")
    return rest.split("\n", 1)[1]


def image_of(archive: Archive, seq: int) -> bytes:
    """The image of a checkpoint, as the ledger of `models/` has it."""
    header = archive.made.ledgers[seq - 1].header
    files = [bucket.file for bucket in archive.made.buckets[seq][0]]
    return b"SLI1" + ledger_model.marked(header) + b"".join(ledger_model.u64(len(file)) + file for file in files)


def try_images(tally: Tally, archive: Archive, folder: str) -> None:
    for seq in (FIRST, SECOND):
        answer = bridge.run("image", "from-archive", archive.folder, str(seq), "--out", f"{folder}/image-{seq}")
        if tally.check("an image is made from an archive", answer == (0, "", ""), answer):
            image = bridge.bytes_at(f"{folder}/image-{seq}")
            tally.check("an archive's image is that of the ledger", image == image_of(archive, seq), seq)
            text = ledger_model.catchup(NETWORK.decode(), image + b"".join(archive.records[seq - 1:]))[0]
            tally.check("an archive's image closes to the same lines", text == lines_after(archive.made, seq), seq)


def try_records(tally: Tally, archive: Archive, folder: str) -> None:
    for first, last in ((2, SECOND), (2, 2), (FIRST, FIRST + 1), (64, 100), (SECOND, SECOND)):
        out, kept = f"{folder}/records-{first}-{last}", f"{folder}/kept-{first}-{last}"
        words = ("records", "from-archive", archive.folder, str(first), str(last), "--out", out, "--results", kept)
        answer = bridge.run(*words)
        if tally.check("records are made from an archive", answer == (0, "", ""), answer):
            is_same = bridge.bytes_at(out) == b"".join(archive.records[first - 2:last - 1])
            tally.check("an archive's records are those that closed", is_same, (first, last))
            part = archive.made._replace(ledgers=archive.made.ledgers[first - 2:last])
            is_same = bridge.bytes_at(kept) == made_archive.history_of(part)
            tally.check("what is kept for comparing is the history of these ledgers", is_same, (first, last))
        tally.check("a file that is there isn't overwritten", bridge.is_refused(bridge.run(*words)), words)


# ---- changed bytes


def changed_at(data: bytes, at: int, chance: random.Random) -> bytes:
    return data[:at] + bytes([data[at] ^ chance.randrange(1, 256)]) + data[at + 1:]


def changes(path: str, chance: random.Random) -> Iterator[bytes]:
    """A packed file with a changed byte among its packed ones, or among its unpacked ones; and cut."""
    packed = bridge.bytes_at(path)
    data = gzip.decompress(packed)
    for _ in range(CHANGES):
        # the first ten bytes are a head that says nothing of the content
        yield changed_at(packed, chance.randrange(10, len(packed)), chance)
        yield gzip.compress(changed_at(data, chance.randrange(len(data)), chance), mtime=0)
    for end in (0, 5, len(packed) - 9, len(packed) - 1):
        yield packed[:end]
    yield gzip.compress(data[:chance.randrange(len(data))], mtime=0)
    yield gzip.compress(data + data[:4], mtime=0)


def try_changed(tally: Tally, path: str, parts: Iterator[bytes], words: Tuple[str, ...]) -> None:
    """Tries that a command finds each change of a file by its name."""
    whole = bridge.bytes_at(path)
    for part in parts:
        bridge.write_file(path, part)
        answer = bridge.run(*words, "--force")
        is_so = bridge.is_refused(answer) and answer.err.startswith(f"{path}: ")
        tally.check("a change of a file of an archive is found by its name", is_so, f"{path}: {answer}")
    bridge.write_file(path, whole)


def changed_states(path: str, chance: random.Random) -> Iterator[bytes]:
    """A state with another digit in each hash, or with another field."""
    data = bridge.bytes_at(path)
    for name in (b'"curr": "', b'"snap": "'):
        at = data.find(name)
        while at >= 0:
            digit = at + len(name) + chance.randrange(64)
            yield data[:digit] + (b"0" if data[digit:digit + 1] != b"0" else b"1") + data[digit + 1:]
            at = data.find(name, digit)
    for old, new in (
        (b'"version": 1', b'"version": 2'), (b'"currentLedger": 63', b'"currentLedger": 127'), (b"{", b"["),
        (b'"snap": "', b'"snap": 1, "x": "'), (b'"currentBuckets": [', b'"currentBuckets": [{},'), (data, b""),
        (b'"curr": "', b'"curr": "g'),
    ):
        yield data.replace(old, new, 1)


def try_changes(tally: Tally, archive: Archive, folder: str) -> None:
    chance = random.Random(bridge.SEED)
    take_image = ("image", "from-archive", archive.folder, str(FIRST), "--out", f"{folder}/changed")
    take_records = ("records", "from-archive", archive.folder, "2", str(FIRST), "--out", f"{folder}/changed")
    for category in STREAMS:
        path = archive.place(category, FIRST)
        try_changed(tally, path, changes(path, chance), take_records)
    path = archive.place("ledger", FIRST)
    try_changed(tally, path, changes(path, chance), take_image)
    for bucket in archive.made.buckets[FIRST][0]:
        if bucket.file:
            path = archive.bucket(bucket.hash.hex())
            try_changed(tally, path, changes(path, chance), take_image)
    path = archive.place("history", FIRST, ".json")
    try_changed_states(tally, archive, path, changed_states(path, chance), take_image)
    tally.check("nothing is left of what was refused", not os.path.exists(f"{folder}/changed"), os.listdir(folder))
    tally.check("an archive that is mended is read", bridge.run(*take_image).status == 0)


def try_changed_states(
    tally: Tally, archive: Archive, path: str, parts: Iterator[bytes], words: Tuple[str, ...],
) -> None:
    """Tries that a state with another hash or field is found: by its own name, or by that of a bucket which it would
    have and which isn't there."""
    whole = bridge.bytes_at(path)
    for part in parts:
        bridge.write_file(path, part)
        answer = bridge.run(*words)
        is_so = bridge.is_refused(answer) and answer.err.startswith((f"{path}: ", f"{archive.folder}/bucket/"))
        tally.check("a change of a state of an archive is found", is_so, answer)
    bridge.write_file(path, whole)


# ---- what can't be taken out


def try_sizes(tally: Tally, archive: Archive, folder: str) -> None:
    """Tries buckets that don't fit into an image, by what their files state."""
    files = [bucket for bucket in archive.made.buckets[FIRST][0] if bucket.file]
    path, size = archive.bucket(files[0].hash.hex()), sum(len(bucket.file) for bucket in files)
    whole = bridge.bytes_at(path)
    stated = 536870912 - (size - len(files[0].file)) + 1
    # as many packed bytes as could have so many
    whole, packed = whole[:-4] + bytes(stated // 1000), whole
    bridge.write_file(path, whole + stated.to_bytes(4, "little"))
    answer = bridge.run("image", "from-archive", archive.folder, str(FIRST), "--out", f"{folder}/great")
    is_so = bridge.is_refused(answer) and "have 536870913 bytes together, above the 536870912 of an image" in answer.err
    tally.check("buckets that don't fit are refused with their size", is_so, answer)
    bridge.write_file(path, whole + (stated - 1).to_bytes(4, "little"))
    answer = bridge.run("image", "from-archive", archive.folder, str(FIRST), "--out", f"{folder}/great")
    is_so = bridge.is_refused(answer) and answer.err.startswith(path)
    tally.check("a size that isn't so is found", is_so, answer)
    bridge.write_file(path, packed)


def try_words(tally: Tally, archive: Archive, folder: str) -> None:
    named: Dict[str, str] = {"archive": archive.folder, "out": f"{folder}/words", "folder": folder}
    for text in (
        "image from-archive {archive} 64 --out {out}", "image from-archive {archive} 191 --out {out}",
        "image from-archive {folder} 63 --out {out}", "image from-archive {archive} x --out {out}",
        "image from-archive {archive} 63", "image from-archive {archive} 63 --out {folder}", "image", "records",
        "image from-archive {archive} 0 --out {out}", "records from-archive {archive} 1 63 --out {out}",
        "records from-archive {archive} 9 8 --out {out}", "records from-archive {archive} 2 128 --out {out}",
        "records from-archive {archive} 2 3", "records from-archive {archive} 2 3 --out {out} --results {out}",
        "records from-archive {folder} 2 3 --out {out}", "records from-archive {archive} 2 3 --out {folder}/no/out",
    ):
        answer = bridge.run(*(word.format(**named) for word in text.split()))
        is_so = bridge.is_refused(answer) and not answer.out and not os.path.exists(named["out"])
        tally.check("what an archive doesn't have is refused in one line", is_so, f"{text}: {answer}")
    for words in (("image", "from-archive"), ("records", "from-archive")):
        answer = bridge.run(*words, "--help")
        tally.check("the help of a command has an example", answer.status == 0 and "example:" in answer.out, words)


def check(top: str) -> Tally:
    tally = Tally()
    try_histories(tally)
    with bridge_forms.scratch() as folder:
        archive = make_archive(folder)
        for part in (try_images, try_records, try_sizes, try_words, try_changes):
            at = f"{folder}/{part.__name__}"
            os.mkdir(at)
            part(tally, archive, at)
    return tally


if __name__ == "__main__":
    result = check(os.path.dirname(TESTS))
    print("\n".join(result.lines()))
    sys.exit(1 if result.failed else 0)
