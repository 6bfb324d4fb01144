"""Makes the trial of a run from a seed and the run's number alone.

Python 3.9 or later and its standard library.
"""

from __future__ import annotations

import hashlib
from random import Random
from typing import Dict, List, NamedTuple, Optional, Tuple

import fuzz_bytes
from fuzz_edges import edges, set_turn
from fuzz_history import changed_history, history_of
from fuzz_parts import Parts, cut, lengths
from fuzz_queries import drawn_query, store_of
from fuzz_repair import drawn_extent, learn, repair
from fuzz_sequences import change_sequence
from fuzz_stores import changed_layout, stored
from fuzz_trials import NO_FILES, Seed, Trial, with_data, with_file
from fuzz_values import Pool, exchanged, mutated
from fuzz_vouches import change_form
from stellar_xdr import LEDGER_HEADER
from xdr import XdrFault, read_entire, write

# larger seeds are taken seldom, since a run of one takes as long as a hundred others
LARGE = 30000
# up to so many values are changed
MOST_PIECES = 40
LEVELS = ("bytes", "values", "sequences")
# the kinds of trials of an input, and how often inputs, stores, histories and queries are taken
INPUT_KINDS, WEIGHTS = ("catchup", "made", "history"), (35, 20, 25, 20)
# seeds by their kinds
Seeds = Dict[str, List[Seed]]


class Made(NamedTuple):
    """A trial, the name of the seed that it was made from, and what was done to that."""

    trial: Trial
    seed: str
    level: str


def by_kind(listed: List[Seed]) -> Seeds:
    found: Seeds = {}
    for seed in listed:
        found.setdefault(seed.kind, []).append(seed)
    return found


def drawn(rng: Random, seeds: List[Seed]) -> Seed:
    """A seed, which is seldom a large one."""
    for _ in range(9):
        seed = rng.choice(seeds)
        if seed.trial.size <= LARGE:
            break
    return seed


def parts_of(seed: Seed) -> Optional[Parts]:
    found = stored(seed.trial) if seed.kind == "stored" else None
    return found.parts if found else cut(seed.trial.data)


def pool_of(rng: Random, both: List[Parts]) -> Pool:
    """Values of some places of some inputs."""
    pool = Pool(edges(rng, both[0], MOST_PIECES))
    for parts in both:
        pieces = list(parts.pieces())
        for piece in rng.sample(pieces, min(len(pieces), MOST_PIECES)):
            pool.add_piece(piece)
    return pool


def change_values(rng: Random, parts: Parts, pool: Pool) -> None:
    """One to some changes of values, in one piece or in some."""
    for _ in range(rng.choice((1, 1, 1, 2, 3))):
        records, pieces = list(parts.record_pieces()), list(parts.pieces())
        if records and rng.random() < 0.25:
            exchanged(rng, rng.sample(records, min(len(records), 3)))
            continue
        piece = rng.choice(records if records and rng.random() < 0.6 else pieces)
        try:
            piece.of[piece.index] = mutated(rng, piece.type, piece.data, pool, rng.choice((1, 1, 2, 4)))
        except XdrFault:
            piece.of[piece.index] = fuzz_bytes.changed(rng, piece.data)


def change_ledger(rng: Random, parts: Parts) -> None:
    """Sets the image's ledger near one at which levels spill, epochs end or hashes of headers are kept."""
    try:
        header = read_entire(LEDGER_HEADER, parts.header[0])
    except XdrFault:
        return
    at = rng.choice((64 * rng.randint(1, 40), 2 * 4**rng.randint(0, 10), 50, 100, 5050, 55050, 555050, 2**31))
    header["ledgerSeq"] = max(1, at - rng.randint(1, 4))
    parts.header[0] = write(LEDGER_HEADER, header)


def change_piece(rng: Random, parts: Parts) -> None:
    """A mutation of the bytes of one piece, after which hashes can be repaired."""
    records, pieces = list(parts.record_pieces()), list(parts.pieces())
    piece = rng.choice(records if records and rng.random() < 0.6 else pieces)
    piece.of[piece.index] = fuzz_bytes.changed(rng, piece.data)


def change_parts(rng: Random, parts: Parts, donor: Optional[Parts], network_id: bytes) -> str:
    """Mutates the parts of an input and repairs them; answers what was done."""
    level, extent = rng.choices(LEVELS, (2, 6, 2))[0], drawn_extent(rng)
    both = [parts, donor] if donor else [parts]
    pool = pool_of(rng, both)
    for other in both:
        learn(extent.known, other.records)
    if level == "bytes":
        change_piece(rng, parts)
    else:
        if level == "sequences":
            for _ in range(rng.choice((1, 1, 2, 3))):
                change_sequence(rng, parts, donor)
        if level == "values" or rng.random() < 0.3:
            change_values(rng, parts, pool)
    if rng.random() < 0.12:
        change_form(rng, parts)
    if rng.random() < 0.15:
        change_ledger(rng, parts)
    if rng.random() < 0.07:
        set_turn(rng, parts)
        extent.turns = False
    repair(parts, network_id, extent)
    return f"{level}, {extent.name}"


def changed_bytes(rng: Random, trial: Trial) -> Trial:
    """A mutation of the bytes of an input, or of a file of a store."""
    full = [index for index, file in enumerate(trial.files) if file]
    if full and (not trial.data or rng.random() < 0.6):
        index = rng.choice(full)
        return with_file(trial, index, fuzz_bytes.changed(rng, trial.files[index]))
    if rng.random() < 0.4:
        return with_data(trial, fuzz_bytes.with_length(rng, trial.data, lengths(trial.data)))
    return with_data(trial, fuzz_bytes.changed(rng, trial.data))


def store_made(rng: Random, seed: Seed, donor: Optional[Parts]) -> Made:
    found = stored(seed.trial)
    if found is None or rng.random() < 0.35:
        is_layout = rng.random() < 0.6
        trial = (changed_layout if is_layout else changed_bytes)(rng, seed.trial)
        return Made(trial, seed.name, "layout of a store" if is_layout else "bytes, nothing repaired")
    level = change_parts(rng, found.parts, donor, found.network_id)
    kept = min(len(found.parts.records), found.kept + rng.choice((0, 0, 0, -1, 1)))
    return Made(found.joined(max(0, kept)), seed.name, level)


def input_made(rng: Random, seed: Seed, donor: Optional[Parts]) -> Made:
    trial, parts = seed.trial, cut(seed.trial.data)
    trial = trial._replace(kind=rng.choices(INPUT_KINDS, (4, 3, 3))[0])
    if parts is None or rng.random() < 0.12:
        return Made(changed_bytes(rng, trial), seed.name, "bytes, nothing repaired")
    level = change_parts(rng, parts, donor, network_id_of(trial))
    return Made(with_data(trial, parts.image + parts.stream), seed.name, level)


def network_id_of(trial: Trial) -> bytes:
    return hashlib.sha256(trial.passphrase).digest()


def history_made(rng: Random, seeds: Seeds) -> Made:
    """A history that a case has, or that an input or a mutation of it closes."""
    def history() -> Tuple[bytes, str]:
        if rng.random() < 0.4:
            chosen = rng.choice(seeds["verify"])
            return chosen.trial.data, chosen.name
        chosen = drawn(rng, seeds["catchup"])
        data, parts = chosen.trial.data, cut(chosen.trial.data)
        if parts is not None and rng.random() < 0.3:
            change_parts(rng, parts, None, network_id_of(chosen.trial))
            data = parts.image + parts.stream
        return history_of(chosen.trial.passphrase, data) or b"SLH1" + bytes(60), chosen.name

    data, name = history()
    donor = history()[0] if rng.random() < 0.6 else None
    changed, level = changed_history(rng, data, donor)
    return Made(Trial("verify", b"", NO_FILES, changed), name, level)


def query_made(rng: Random, seeds: Seeds) -> Made:
    """A query, and a store or a mutation of it, which is a case of queries or made of an input."""
    chosen = drawn(rng, seeds["path" if rng.random() < 0.5 else "catchup"])
    trial, given = chosen.trial, chosen.trial.query or b""
    if chosen.kind == "catchup":
        parts = cut(trial.data)
        if parts is not None:
            trial = store_of(rng, trial, parts, network_id_of(trial))
    is_closing = rng.random() < 0.25
    level = "a store as it was"
    if rng.random() < 0.4:
        trial, _, level = store_made(rng, Seed(chosen.name, trial._replace(kind="stored")), None)
    found = stored(trial)
    query = drawn_query(rng, found.parts, given) if found else given
    kind = "stored" if is_closing else "path"
    return Made(trial._replace(kind=kind, query=query), chosen.name, f"query, {level}")


def made(seeds: Seeds, seed: int, number: int) -> Made:
    """The trial of a run."""
    rng = Random(f"{seed} {number}")
    way = rng.choices(("catchup", "stored", "verify", "path"), WEIGHTS)[0]
    if way == "verify":
        trial, name, level = history_made(rng, seeds)
    elif way == "path":
        trial, name, level = query_made(rng, seeds)
    else:
        chosen = drawn(rng, seeds[way])
        donor = parts_of(drawn(rng, seeds["catchup"] + seeds["stored"])) if rng.random() < 0.7 else None
        trial, name, level = (store_made if way == "stored" else input_made)(rng, chosen, donor)
    workers = rng.choice((0, 0, 0, 1, 2, 8)) if trial.kind in ("made", "stored") else 0
    by_bytes = rng.random() < 0.1 and len(trial.data) < 20000
    return Made(trial._replace(workers=workers, by_bytes=by_bytes), name, level)
