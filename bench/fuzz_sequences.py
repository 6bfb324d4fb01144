"""Mutations of sequences: records dropped, doubled, exchanged, or taken from another input; items of files likewise.

Python 3.9 or later and its standard library.
"""

from __future__ import annotations

from random import Random
from typing import List, Optional, TypeVar

from fuzz_parts import File, Parts

T = TypeVar("T")


def reordered(rng: Random, listed: List[T], others: List[T]) -> List[T]:
    """A list with one of its members dropped, doubled or moved, or with one of another list."""
    new, count = list(listed), len(listed)
    at = rng.randint(0, count)
    if others and (not count or rng.random() < 0.4):
        return new[:at] + [rng.choice(others)] + new[at:]
    if not count:
        return new
    one, other = rng.randrange(count), rng.randrange(count)
    change = rng.randrange(4)
    if change == 0:
        return new[:one] + new[one + 1:]
    if change == 1:
        return new[:at] + [new[one]] + new[at:]
    if change == 2:
        return new[:one]
    new[one], new[other] = new[other], new[one]
    return new


def change_files(rng: Random, parts: Parts, donor: Optional[Parts]) -> None:
    """Drops, doubles or moves items of files, or exchanges files, or puts items of another image among these."""
    full = [index for index, file in enumerate(parts.files) if file.items]
    if not full or rng.random() < 0.15:
        one, other = (rng.randrange(len(parts.files)) for _ in range(2))
        parts.files[one], parts.files[other] = parts.files[other], parts.files[one]
        return
    file = parts.files[rng.choice(full)]
    others = [item for other in donor.files for item in other.items] if donor else []
    if rng.random() < 0.3:
        # the same item, or a part of them, in an older or newer file
        target = parts.files[rng.choice((0, 1, 2, 3, 4, 5, rng.randrange(20)))]
        if target is not file:
            chosen = [item for item in file.items[1:] if rng.random() < 0.5]
            merged = [*(target.items or file.items[:1]), *chosen]
            parts.files[parts.files.index(target)] = File(merged, target.rest)
        return
    file.items = reordered(rng, file.items, others)


def change_sequence(rng: Random, parts: Parts, donor: Optional[Parts]) -> None:
    """One mutation of the records, or of the items of the image's files."""
    if rng.random() < 0.25:
        change_files(rng, parts, donor)
    else:
        parts.records = reordered(rng, parts.records, donor.records if donor else [])
