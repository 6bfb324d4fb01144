"""Reduces a trial whose answers differ: records, transactions, operations, items of files, records of histories and
candidates of queries are dropped, and then bytes, while it still differs in the same way.

Python 3.9 or later and its standard library.
"""

from __future__ import annotations

import copy
import hashlib
import time
from typing import Callable, Iterator, List, NamedTuple, Optional

import fuzz_paths  # noqa: F401
from fuzz_history import REPAIRS, cut_history, repair_history
from fuzz_parts import Parts, cut
from fuzz_queries import QUERY
from fuzz_repair import Extent, body_of, repair
from fuzz_stores import stored
from fuzz_trials import Trial, with_data, with_file
from stellar_xdr import RECORD
from xdr import Value, XdrFault, read_entire, write

# ways to repair what is left of an input; the last leaves it as it is
EXTENTS = (
    Extent(sums=False, numbers=False, signatures=False),
    Extent(sums=True, numbers=True, signatures=False),
    Extent(hashes=False),
)


class View(NamedTuple):
    """The parts of a trial, and how it is made of parts again."""

    parts: Parts
    network_id: bytes
    joined: Callable[[Parts, int], Trial]
    # how many records are in the journal of a store
    kept: int


def view_of(trial: Trial) -> Optional[View]:
    if trial.kind in ("stored", "path"):
        found = stored(trial)
        if found is None:
            return None

        def joined_store(parts: Parts, kept: int) -> Trial:
            found.parts = parts
            return found.joined(kept)

        return View(found.parts, found.network_id, joined_store, found.kept)
    parts = cut(trial.data)
    network_id = hashlib.sha256(trial.passphrase).digest()
    return parts and View(parts, network_id, lambda new, _: with_data(trial, new.image + new.stream), 0)


def without_parts(record: Value) -> Iterator[Value]:
    """A record without one of its transactions, operations, upgrades or vouches."""
    count = len(record["txSet"]["txs"])
    for index in reversed(range(count)):
        new = copy.deepcopy(record)
        del new["txSet"]["txs"][index]
        yield new
    for index in range(count):
        operations = body_of(record["txSet"]["txs"][index])[0]["tx"]["operations"]
        for place in reversed(range(len(operations))):
            new = copy.deepcopy(record)
            del body_of(new["txSet"]["txs"][index])[0]["tx"]["operations"][place]
            yield new
    for listed in (lambda value: value["scpValue"]["upgrades"], lambda value: value.get("vouches", [])):
        for index in range(len(listed(record))):
            new = copy.deepcopy(record)
            del listed(new)[index]
            yield new


def smaller_records(parts: Parts) -> Iterator[Parts]:
    for index in reversed(range(len(parts.records))):
        new = parts.copy()
        del new.records[index]
        yield new
    for index, record in enumerate(parts.records):
        try:
            value = read_entire(RECORD, record)
        except XdrFault:
            continue
        for less in without_parts(value):
            new = parts.copy()
            new.records[index] = write(RECORD, less)
            yield new


def smaller_files(parts: Parts) -> Iterator[Parts]:
    for index, file in enumerate(parts.files):
        if file.items:
            new = parts.copy()
            new.files[index].items = []
            yield new
        for place in reversed(range(1, len(file.items))):
            new = parts.copy()
            del new.files[index].items[place]
            yield new


def smaller_histories(data: bytes) -> Iterator[bytes]:
    """A history without some records of a stream, half of them or one, as it is and repaired."""
    history = cut_history(data)
    for kind, listed in enumerate(history.streams if history else []):
        halves = [(0, len(listed) // 2), (len(listed) // 2, len(listed))]
        for start, end in halves + [(index, index + 1) for index in range(len(listed))]:
            for repairs in (frozenset(REPAIRS), frozenset()):
                new = history.copy()
                del new.streams[kind][start:end]
                repair_history(new, repairs)
                yield new.data


def smaller_queries(query: bytes) -> Iterator[bytes]:
    """A query without one of its candidates."""
    try:
        value = read_entire(QUERY, query)
    except XdrFault:
        return
    for index in range(len(value["candidates"])):
        listed = value["candidates"][:index] + value["candidates"][index + 1:]
        yield write(QUERY, {**value, "candidates": listed})


def smaller(trial: Trial) -> Iterator[Trial]:
    """Trials with a part less than one."""
    if trial.kind in ("made", "history"):
        yield trial._replace(kind="catchup")
    if trial.kind == "verify":
        yield from (with_data(trial, data) for data in smaller_histories(trial.data))
        return
    if trial.query is not None:
        if trial.kind != "path":
            yield from (trial._replace(query=None), trial._replace(kind="path"))
        yield from (trial._replace(query=query) for query in smaller_queries(trial.query))
    for field, plain in (("by_bytes", False), ("workers", 0)):
        if getattr(trial, field) != plain:
            yield trial._replace(**{field: plain})
    for index, file in enumerate(trial.files):
        if file:
            yield with_file(trial, index, b"")
    view = view_of(trial)
    if view is None:
        return
    for way in (smaller_records, smaller_files):
        for parts in way(view.parts):
            dropped = len(view.parts.records) - len(parts.records)
            for extent in EXTENTS:
                new = parts.copy()
                repair(new, view.network_id, extent)
                for kept in {view.kept, max(0, view.kept - dropped)}:
                    yield view.joined(new, kept)


def shorter(data: bytes) -> Iterator[bytes]:
    """Bytes without a stretch: first long ones, then shorter ones."""
    size = len(data)
    while size >= 1:
        for start in range(0, len(data), size):
            yield data[:start] + data[start + size:]
        size //= 2


def shorter_trials(trial: Trial) -> Iterator[Trial]:
    yield from (with_data(trial, data) for data in shorter(trial.data))
    yield from (trial._replace(query=query) for query in shorter(trial.query or b""))
    for index, file in enumerate(trial.files):
        yield from (with_file(trial, index, data) for data in shorter(file))


Holds = Callable[[Trial], bool]


def reduced(trial: Trial, holds: Holds, seconds: float) -> Trial:
    """The smallest trial that was found in so many seconds, of those of which the same is said."""
    end = time.monotonic() + seconds
    ways: List[Callable[[Trial], Iterator[Trial]]] = [smaller, shorter_trials]
    for way in ways:
        is_smaller = True
        while is_smaller and time.monotonic() < end:
            is_smaller = False
            for candidate in way(trial):
                if time.monotonic() >= end:
                    break
                if candidate != trial and candidate.size <= trial.size and holds(candidate):
                    trial, is_smaller = candidate, True
                    break
    return trial
