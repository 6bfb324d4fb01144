"""Mutations of values by the codec's table of types: each place of a value gets another value of its type.

Python 3.9 or later and its standard library.
"""

from __future__ import annotations

import copy
from random import Random
from typing import Any, Dict, Iterator, List, NamedTuple, Optional, Tuple, Union

import fuzz_paths  # noqa: F401
from fuzz_parts import Piece
from stellar_xdr import OPERATION, TRANSACTION_ENVELOPE
from xdr import (
    Array, Choice, Code, Fixed, Formed, Items, Number, Opaque, Option, Refused, Struct, Type, Value, XdrFault,
    read_entire, write,
)

# numbers at which rules change: ledgers of rolls and spills, bounds of counts, and bounds of numbers
NUMBERS = (
    0, 1, 2, 3, 4, 5, 7, 8, 15, 16, 20, 21, 30, 62, 63, 64, 99, 100, 101, 126, 127, 128, 255, 256, 999, 1000, 1001,
    5_000_000, 10_000_000, 2**31 - 2, 2**31 - 1, 2**31, 2**32 - 1, 2**32, 2**62, 2**63 - 2, 2**63 - 1, 2**64 - 1,
)
# so many values of a type are remembered
MOST_KEPT = 60
DEEPEST = 7


class Place(NamedTuple):
    """A place of a value: its type, and the dict or list that it is in."""

    type: Type
    of: Any
    key: Union[str, int]

    @property
    def value(self) -> Value:
        return self.of[self.key]


def arms_of(kind: Choice) -> Dict[Any, Tuple[Optional[str], Optional[Type]]]:
    """The field and type of each arm, by the discriminant's name."""
    return {name: (field, arm) for name, field, arm in kind.arms.values()}


def form_of(kind: Formed, value: Value) -> Struct:
    """The struct that a value of one of two forms is of."""
    return kind.other if value.keys() == kind.other.fields.keys() else kind.plain


def places(kind: Type, of: Any, key: Union[str, int]) -> Iterator[Place]:
    """All places of a value, from the outermost on."""
    yield Place(kind, of, key)
    value = of[key]
    if isinstance(kind, Formed):
        kind = form_of(kind, value)
    if isinstance(kind, Struct):
        for name, part in kind.fields.items():
            yield from places(part, value, name)
    elif isinstance(kind, Choice):
        field, arm = arms_of(kind)[value[kind.switch]]
        if field is not None and arm is not None:
            yield from places(arm, value, field)
    elif isinstance(kind, (Items, Array)):
        for index in range(len(value)):
            yield from places(kind.item, value, index)
    elif isinstance(kind, Option) and value is not None:
        yield from places(kind.item, of, key)


class Pool:
    """Values that were seen, by their types."""

    def __init__(self, edges: List[int]) -> None:
        """A pool without values, and numbers of 64 bits at which rules change."""
        self.values: Dict[Any, List[Value]] = {}
        self.edges = edges or [0]

    def label(self, kind: Type) -> Any:
        return ("fixed", kind.size) if isinstance(kind, Fixed) else id(kind)

    def add(self, kind: Type, value: Value) -> None:
        for place in places(kind, [value], 0):
            kept = self.values.setdefault(self.label(place.type), [])
            if len(kept) < MOST_KEPT and place.value is not None:
                kept.append(place.value)

    def add_piece(self, piece: Piece) -> None:
        try:
            self.add(piece.type, read_entire(piece.type, piece.data))
        except XdrFault:
            pass

    def drawn(self, rng: Random, kind: Type) -> Optional[Value]:
        kept = self.values.get(self.label(kind))
        return copy.deepcopy(rng.choice(kept)) if kept else None


class Maker:
    """Makes values of types, from those of a pool or anew."""

    def __init__(self, rng: Random, pool: Pool) -> None:
        self.rng, self.pool = rng, pool

    def made(self, kind: Type, depth: int = 0) -> Value:
        """Some value of a type."""
        seen = self.pool.drawn(self.rng, kind) if self.rng.random() < 0.7 else None
        if seen is not None:
            return seen
        if isinstance(kind, Formed):
            return self.made(self.rng.choice((kind.plain, kind.other)), depth)
        if isinstance(kind, Struct):
            return {name: self.made(part, depth + 1) for name, part in kind.fields.items()}
        if isinstance(kind, Choice):
            return self.made_choice(kind, depth)
        if isinstance(kind, Option):
            return self.made(kind.item, depth + 1) if depth < DEEPEST and self.rng.random() < 0.5 else None
        if isinstance(kind, (Items, Array)):
            count = kind.count if isinstance(kind, Array) else self.rng.choice((0, 1, 2)) if depth < DEEPEST else 0
            return [self.made(kind.item, depth + 1) for _ in range(count)]
        if isinstance(kind, Number):
            return self.number(kind, 0)
        if isinstance(kind, Fixed):
            return self.fixed(kind, bytes(kind.size))
        if isinstance(kind, Opaque):
            return self.opaque(kind, b"")
        raise XdrFault(kind.kind if isinstance(kind, Refused) else "BadEnum", 0)

    def made_choice(self, kind: Choice, depth: int) -> Value:
        arms = arms_of(kind)
        plain = [name for name, (field, arm) in arms.items() if field is None or isinstance(arm, (Number, Fixed))]
        name = self.rng.choice(plain if depth >= DEEPEST and plain else list(arms))
        field, arm = arms[name]
        return {kind.switch: name, **({} if field is None or arm is None else {field: self.made(arm, depth + 1)})}

    def number(self, kind: Number, old: Value) -> Value:
        bits, signed = 64 if kind.has_64_bits else 32, kind.packed.format[-1].islower()
        low, high = (-(2**(bits - 1)), 2**(bits - 1) - 1) if signed else (0, 2**bits - 1)
        near = (old - 1, old + 1, old * 2, old // 2, old ^ 1 << self.rng.randrange(bits - 1))
        seen = self.pool.values.get(id(kind), [0])
        choice = self.rng.choice
        if kind.has_64_bits and self.rng.random() < 0.35:
            return min(high, max(low, choice(self.pool.edges) + choice((-1, 0, 0, 1))))
        drawn = choice((
            choice(near), choice(near), choice(NUMBERS), choice((low, high, high - 1, 0, 1, -1)), choice(seen),
            choice(seen) + choice((-1, 1)), self.rng.randrange(1 << self.rng.randint(1, bits - 1)),
        ))
        return min(high, max(low, drawn))

    def fixed(self, kind: Fixed, old: Value) -> Value:
        if isinstance(kind, Code) and self.rng.random() < 0.7:
            texts = (b"", b"A", b"USD", b"ABCD", b"ABCDE", b"ABCDEFGHIJKL", b"A\0B", b"a_b", b"\0A", b"1")
            return self.rng.choice(texts)[:kind.size].ljust(kind.size, b"\0")
        seen = self.pool.drawn(self.rng, kind)
        one = self.rng.randrange(kind.size)
        flipped = old[:one] + bytes([old[one] ^ 1 << self.rng.randrange(8)]) + old[one + 1:]
        return self.rng.choice((seen or old, seen or old, seen or old, flipped, bytes(kind.size), b"\xff" * kind.size))

    def opaque(self, kind: Opaque, old: Value) -> Value:
        count = self.rng.randint(0, min(9, kind.most))
        some = bytes(self.rng.choice((0, 31, 32, 65, 122, 126, 127, 255)) for _ in range(count))
        full, seen = b"x" * kind.most, self.pool.drawn(self.rng, kind)
        return self.rng.choice((b"", some, full, full[1:], old[:-1], (old + b"x")[:kind.most], seen or old))

    def items(self, kind: Items, old: Value) -> Value:
        """A list with items dropped, doubled, exchanged or added."""
        new, count = list(old), len(old)
        if count:
            one, other = self.rng.randrange(count), self.rng.randrange(count)
            drop, double = new[:one] + new[one + 1:], new[:one] + [copy.deepcopy(new[one])] + new[one:]
            moved = list(new)
            moved[one], moved[other] = moved[other], moved[one]
            changes = [drop, double, moved, new[:one]]
        else:
            changes = []
        at = self.rng.randint(0, count)
        changes += [new[:at] + [self.made(kind.item)] + new[at:]] * 2
        if self.rng.random() < 0.05 and kind.most <= 100:
            item = new[0] if new else self.made(kind.item)
            changes = [[copy.deepcopy(item) for _ in range(kind.most)]]
        return self.rng.choice(changes)[:kind.most]

    def changed(self, place: Place) -> Value:
        """Another value for a place; it may be equal by chance."""
        kind, old = place.type, place.value
        if isinstance(kind, Number):
            return self.number(kind, old)
        if isinstance(kind, Fixed):
            return self.fixed(kind, old)
        if isinstance(kind, Opaque):
            return self.opaque(kind, old)
        if isinstance(kind, Items):
            return self.items(kind, old)
        if isinstance(kind, Option):
            return self.made(kind.item) if old is None else None
        if isinstance(kind, Choice) and self.rng.random() < 0.7:
            return self.made_choice(kind, 1)
        return self.made(kind)


def weight(place: Place, rng: Random) -> float:
    """How likely a place is to be changed: entire structs seldom, since few of their values fit the rest."""
    kind = place.type
    if isinstance(kind, Option):
        return 1 if place.value is None else 2
    for of, value in ((Number, 4), (Items, 3), (Code, 3), (Fixed, 1.5), (Opaque, 2), (Choice, 1.5)):
        if isinstance(kind, of):
            return 0 if isinstance(kind, Choice) and len(kind.arms) == 1 else value
    return 0.5


def mutated(rng: Random, kind: Type, data: bytes, pool: Pool, times: int) -> bytes:
    """A value's encoding after so many changes of places. Raises XdrFault where the bytes encode none."""
    root = [read_entire(kind, data)]
    maker = Maker(rng, pool)
    for _ in range(times):
        found = list(places(kind, root, 0))
        place = rng.choices(found, [weight(place, rng) for place in found])[0]
        try:
            new = maker.changed(place)
        except XdrFault:
            continue
        place.of[place.key] = new
    try:
        return write(kind, root[0])
    except (XdrFault, ValueError):
        return data


def exchanged(rng: Random, pieces: List[Piece]) -> None:
    """Exchanges two values of one type among those of some pieces: operations mostly, or transactions."""
    roots = []
    by_type: Dict[int, List[Place]] = {}
    for piece in pieces:
        try:
            root = [read_entire(piece.type, piece.data)]
        except XdrFault:
            continue
        roots.append((piece, root))
        for place in places(piece.type, root, 0):
            if place.of is not root:
                by_type.setdefault(id(place.type), []).append(place)
    any_type = [rng.choice(list(by_type))] if by_type else []
    found = by_type.get(rng.choice([id(OPERATION)] * 3 + [id(TRANSACTION_ENVELOPE)] + any_type), [])
    if len(found) < 2:
        return
    one, other = rng.sample(found, 2)
    first, second = copy.deepcopy(one.value), copy.deepcopy(other.value)
    one.of[one.key], other.of[other.key] = second, first
    write_back(roots)


def write_back(roots: List[Tuple[Piece, List[Value]]]) -> None:
    for piece, root in roots:
        try:
            piece.of[piece.index] = write(piece.type, root[0])
        except (XdrFault, ValueError):
            pass
