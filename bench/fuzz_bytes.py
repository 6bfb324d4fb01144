"""Mutations of bytes: flipped, cut, inserted, repeated, exchanged, set to bounds of numbers, and predicates deepened.

Each takes the source of chance and the bytes, of which there is at least one. Python 3.9 or later and its standard
library.
"""

from __future__ import annotations

from random import Random
from typing import Callable, Sequence, Tuple

from fuzz_parts import Field

BOUNDS = (0, 1, 2, 5, 18, 20, 21, 32, 64, 100, 101, 127, 128, 255, 256, 2**31 - 1, 2**31, 2**32 - 1, 2**32 - 4)
LONG_BOUNDS = (*BOUNDS, 2**32, 2**63 - 1, 2**63, 2**64 - 1, 536870912, 536870913)
TOP = 0x80000000
MOST = 16777216
# the negation of a predicate, which then follows
NOT = bytes.fromhex("0000000300000001")
MARKS = (0, 1, MOST, MOST + 1, TOP, TOP | 1, TOP | MOST, TOP | (MOST + 1), 2**32 - 1, 2**31 - 1)


def stretch(rng: Random, data: bytes, most: int = 64) -> Tuple[int, int]:
    """The start and the end of some bytes, at least one."""
    start = rng.randrange(len(data))
    return start, min(len(data), start + rng.choice((1, 2, 4, 4, 8, 32, rng.randint(1, most))))


def word_at(rng: Random, data: bytes, size: int = 4) -> int:
    """The offset of a field, mostly at a multiple of four."""
    at = rng.randrange(max(1, len(data) - size + 1))
    return at - at % 4 if rng.random() < 0.9 else at


def with_bytes(data: bytes, at: int, new: bytes) -> bytes:
    return data[:at] + new + data[at + len(new):]


def flip(rng: Random, data: bytes) -> bytes:
    at = rng.randrange(len(data))
    return with_bytes(data, at, bytes([data[at] ^ 1 << rng.randrange(8)]))


def set_byte(rng: Random, data: bytes) -> bytes:
    return with_bytes(data, rng.randrange(len(data)), bytes([rng.choice((0, 1, 0x7F, 0x80, 0xFF, rng.randrange(256)))]))


def cut_out(rng: Random, data: bytes) -> bytes:
    start, end = stretch(rng, data)
    return data[:start] + data[end:]


def cut_end(rng: Random, data: bytes) -> bytes:
    return data[:-rng.choice((1, 2, 3, 4, 8, rng.randint(1, len(data))))]


def insert(rng: Random, data: bytes) -> bytes:
    at, count = word_at(rng, data), rng.choice((1, 3, 4, 4, 8, 32))
    new = bytes(count) if rng.random() < 0.5 else bytes(rng.randrange(256) for _ in range(count))
    return data[:at] + new + data[at:]


def append(rng: Random, data: bytes) -> bytes:
    return data + bytes(rng.choice((0, 1, 128, 255)) for _ in range(rng.choice((1, 2, 3, 4, 5, 8))))


def repeat(rng: Random, data: bytes) -> bytes:
    start, end = stretch(rng, data, 400)
    return data[:end] + data[start:end] * rng.choice((1, 1, 1, 2, 5)) + data[end:]


def copy_over(rng: Random, data: bytes) -> bytes:
    start, end = stretch(rng, data)
    return with_bytes(data, word_at(rng, data, end - start), data[start:end])


def set_word(rng: Random, data: bytes) -> bytes:
    at = word_at(rng, data)
    old = int.from_bytes(data[at:at + 4], "big")
    new = rng.choice((*BOUNDS, old + 1, old - 1, old ^ TOP))
    return with_bytes(data, at, (new % 2**32).to_bytes(4, "big"))


def set_long(rng: Random, data: bytes) -> bytes:
    at = word_at(rng, data, 8)
    old = int.from_bytes(data[at:at + 8], "big")
    new = rng.choice((*LONG_BOUNDS, old + 1, old - 1))
    return with_bytes(data, at, (new % 2**64).to_bytes(8, "big"))


def deepen(rng: Random, data: bytes) -> bytes:
    """Some negations more before one of a predicate; other bytes where there is none."""
    at = data.find(NOT, rng.randrange(len(data)))
    at = data.find(NOT) if at < 0 else at
    return data[:at] + NOT * rng.choice((1, 2, 29, 30, 31, 32, 33)) + data[at:] if at >= 0 else set_word(rng, data)


CHANGES: Sequence[Callable[[Random, bytes], bytes]] = (
    flip, set_byte, cut_out, cut_end, insert, append, repeat, copy_over, set_word, set_word, set_long, deepen,
)


def changed(rng: Random, data: bytes) -> bytes:
    """Bytes after one mutation."""
    return rng.choice(CHANGES)(rng, data) if data else append(rng, data)


def with_length(rng: Random, data: bytes, fields: Sequence[Field]) -> bytes:
    """Bytes with one of these marks and lengths at a bound, or near what it was."""
    if not fields:
        return changed(rng, data)
    at, size = rng.choice(fields)
    old = int.from_bytes(data[at:at + size], "big")
    near = (old + 1, old - 1, old + 4, old - 4, old ^ TOP)
    new = rng.choice((*near, *(MARKS if size == 4 else LONG_BOUNDS)))
    return with_bytes(data, at, (new % 256**size).to_bytes(size, "big"))
