"""What a store's files are made of, and mutations of what is said around their images and records: gates, epochs,
network ids and lengths (docs/FORMATS.md, "Journals" and "Stores").

Python 3.9 or later and its standard library.
"""

from __future__ import annotations

from random import Random
from typing import List, Optional, Tuple

import fuzz_paths  # noqa: F401
from fuzz_bytes import LONG_BOUNDS, with_bytes
from fuzz_parts import Parts, cut
from fuzz_trials import Four, Trial, with_file
from image_bytes import marked
from ledger_store import EPOCH_AT, HASH_AT, HEAD_SIZES, LEAST_SIZE, LENGTH_AT, NETWORK_AT, OPEN
from store_model import epoch_of, form_of, image_file, in_format_1, is_open, journal_file


def open_image(files: Four) -> Optional[int]:
    """The file of the image that counts."""
    epochs = [(epoch_of(file), index) for index, file in enumerate(files[:2]) if is_open(file)]
    return max(epochs)[1] if epochs else None


def journal_records(file: bytes) -> Tuple[List[bytes], bytes]:
    """The records of a journal that are all there, and the bytes from the gate after them on."""
    at, found = 0, []
    while at < len(file) and file[at] == OPEN:
        end = at + 5 + int.from_bytes(file[at + 1:at + 5], "big")
        if end > len(file):
            break
        found.append(file[at + 5:end])
        at = end
    return found, file[at:]


class Stored:
    """The parts of a store: those of its image, with the records of its journal and then those that are given."""

    def __init__(self, trial: Trial, index: int, parts: Parts) -> None:
        self.trial, self.index, image = trial, index, trial.files[index]
        self.network_id = image[NETWORK_AT:LENGTH_AT]
        self.epoch, self.format = epoch_of(image), form_of(image)
        kept, self.rest = journal_records(trial.files[2 + index])
        self.kept, self.parts = len(kept), parts
        parts.records = kept + parts.records

    def joined(self, kept: int) -> Trial:
        """The store again, with so many records in the journal."""
        image = image_file(self.epoch, self.network_id, self.parts.image, form=self.format)
        journal = journal_file(self.parts.records[:kept], self.rest)
        given = b"".join(map(marked, self.parts.records[kept:])) + self.parts.rest
        made = with_file(with_file(self.trial, self.index, image), 2 + self.index, journal)
        return made._replace(data=given)


def stored(trial: Trial) -> Optional[Stored]:
    """The parts of a trial's store; None where no image is open, or that isn't all there."""
    index = open_image(trial.files)
    if index is None:
        return None
    image = trial.files[index]
    parts = cut(image[HEAD_SIZES[form_of(image)]:] + trial.data)
    return None if parts is None else Stored(trial, index, parts)


def changed_head(rng: Random, file: bytes) -> bytes:
    """An image file with another gate, epoch, network id, length or hash, or of the other format."""
    if not file:
        return image_file(rng.choice((0, 1)), bytes(32), b"")
    epoch, length = (int.from_bytes(file[at:at + 8], "big") for at in (EPOCH_AT, LENGTH_AT))
    which = rng.randrange(6)
    if which == 0:
        return with_bytes(file, 0, bytes([rng.choice((0, 1, 1, 2, 255))]))
    if which == 1:
        new = rng.choice((epoch + 1, epoch + 2, epoch - 1, *LONG_BOUNDS))
        return with_bytes(file, EPOCH_AT, (new % 2**64).to_bytes(8, "big"))
    if which == 2:
        return with_bytes(file, NETWORK_AT + rng.randrange(32), bytes([rng.randrange(256)]))
    if which == 3:
        return with_bytes(file, HASH_AT + rng.randrange(32), bytes([rng.randrange(256)]))
    if which == 4:
        return in_other_format(file)
    new = rng.choice((length + 1, length - 1, *LONG_BOUNDS))
    return with_bytes(file, LENGTH_AT, (new % 2**64).to_bytes(8, "big"))


def in_other_format(file: bytes) -> bytes:
    """An image file in format 1 where it is in format 2, and in format 2 where it is in format 1."""
    if form_of(file) == 2:
        return in_format_1(file)
    return image_file(epoch_of(file), file[NETWORK_AT:LENGTH_AT], file[HEAD_SIZES[1]:], file[0])


def changed_journal(rng: Random, file: bytes) -> bytes:
    """A journal with another gate or length, or that ends elsewhere."""
    records, rest = journal_records(file)
    ends = [0]
    for record in records:
        ends.append(ends[-1] + 5 + len(record))
    at = rng.choice(ends)
    which = rng.randrange(4)
    if which == 0:
        return file[:at] + bytes([rng.choice((0, 1, 2, 255))]) + file[at + 1:]
    if which == 1 and len(file) >= at + 5:
        length = int.from_bytes(file[at + 1:at + 5], "big")
        new = rng.choice((0, 1, length + 1, length - 1, 16777216, 16777217, 2**32 - 1)) % 2**32
        return with_bytes(file, at + 1, new.to_bytes(4, "big"))
    if which == 2:
        return file[:at + rng.choice((0, 0, 1, 4, 5, 6))]
    return file[:at] + rng.choice((b"\0", b"\2", b"\1", rest)) + bytes(rng.choice((0, 4, 100)))


def changed_files(rng: Random, files: Four) -> Four:
    """Files that are exchanged, dropped, copied or cut."""
    new = list(files)
    one, other = rng.choice(((0, 1), (2, 3), (rng.randrange(4), rng.randrange(4))))
    which = rng.randrange(4)
    if which == 0:
        new[one], new[other] = new[other], new[one]
    elif which == 1:
        new[one] = b""
    elif which == 2:
        new[one] = new[other]
    else:
        new[one] = new[one][:rng.choice((0, 1, 41, LEAST_SIZE - 1, LEAST_SIZE, 80, 81, len(new[one]) // 2))]
    return tuple(new)


def changed_layout(rng: Random, trial: Trial) -> Trial:
    """A trial over a store that has one of these mutations."""
    which = rng.randrange(5)
    if which < 2:
        index = rng.randrange(2)
        return with_file(trial, index, changed_head(rng, trial.files[index]))
    if which < 4:
        index = 2 + rng.randrange(2)
        return with_file(trial, index, changed_journal(rng, trial.files[index]))
    return trial._replace(files=changed_files(rng, trial.files))
