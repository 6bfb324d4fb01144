"""Stores in which one byte is another: what `show` answers to each, at every offset of an image's file and of its journal.

The store is the one of the stopped story (`stops.py`) with one record, in each format. What must be answered comes from the store in
Python (`models/store_model.py`), and for bytes of an image in format 2 it is said here too: a fault of its hash, wherever it is.
"""

from __future__ import annotations

import os
import sys
from typing import Iterator, Tuple

from harness import FILES, TESTS, Program, Store, Tally
from stops import RUN, Story, in_format_1

sys.path.insert(0, os.path.join(TESTS, "models"))
import store_model  # noqa: E402

# every bit of a head's bytes, whose fields have bounds, and one of the bytes after it
HEAD, BITS, ONE = 81, tuple(1 << bit for bit in range(8)), (1,)


def changes(store: Store, name: str) -> Iterator[Tuple[int, Store]]:
    """The stores with another byte in a file, each with its offset."""
    file = store[name]
    for offset in range(len(file)):
        for bits in BITS if offset < HEAD and name == "image0" else ONE:
            yield offset, {**store, name: file[:offset] + bytes([file[offset] ^ bits]) + file[offset + 1:]}


def compare(program: Program, tally: Tally, store: Store, name: str, what: str) -> None:
    """Compares what the program answers to each change with what the store in Python does."""
    for offset, changed in changes(store, name):
        ran = program.run(["show"], b"", changed)
        text, end, status = store_model.show([changed.get(file, b"") for file in FILES])
        is_same = (ran.out, ran.err, ran.status) == (text.encode(), end.encode(), status)
        tally.check(f"another byte of {what} is judged as the store in Python judges it", is_same, (offset, ran.err, end))
        tally.check(f"`show` leaves a store with another byte of {what}", ran.store == changed, offset)
        if "format 2" in what and name == "image0" and offset >= 49:
            tally.check("another byte of an image, or of its hash, is a fault of the hash", ran.err == b"bad store at 0 49\n", offset)


def store_of(program: Program) -> Store:
    """The store after one close."""
    story = Story(program)
    return program.run(RUN, story.given(0, 1), story.store).store


def image_of_format_2(program: Program, tally: Tally) -> None:
    compare(program, tally, store_of(program), "image0", "an image of format 2")


def image_of_format_1(program: Program, tally: Tally) -> None:
    compare(program, tally, in_format_1(store_of(program)), "image0", "an image of format 1")


def journal(program: Program, tally: Tally) -> None:
    compare(program, tally, store_of(program), "journal0", "a journal")


PARTS = (image_of_format_2, image_of_format_1, journal)


def check(program: Program, part) -> Tally:
    tally = Tally()
    part(program, tally)
    return tally
