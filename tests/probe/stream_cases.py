"""Cases of streams: texts that are read to a limit and written, with reads and writes that give and take little, or fail.

What is expected follows from what each call gives: six bytes at two a read are four reads, of which the last one finds the end, and at
two a write three writes.
"""

from typing import List

from xdr_words import u32, var

TEXT = b"seven bytes are not enough"
SIX = b"abcdef"


def hexadecimal(data: bytes) -> str:
    return data.hex() or "-"


class Streams:
    """The lines of cases, and what is expected of them."""

    def __init__(self) -> None:
        self.lines = ["streams"]
        self.expected: List[str] = []

    def read(self, text: bytes, limit: int, most: int, failing: int = 0, is_read: bool = True) -> None:
        """From a source in memory, and from three that don't fail."""
        entire = hexadecimal(text) if len(text) <= limit else "TooLong"
        self.lines.append(f"read {(var(text) + u32(limit) + u32(most) + u32(failing)).hex()}")
        self.expected.append(f"read: {entire + ' 0' if is_read else 'Failed 1'} {entire} {entire} {entire}")

    def write(self, text: bytes, most: int, failing: int, left: bytes, faults: int) -> None:
        """To a sink in memory, and then nothing, which never fails; to one that takes all; twice to a vector; and to two bytes."""
        in_memory = f"{'Failed' if faults else 'done'} done {faults} {hexadecimal(left)}"
        room = "done" if len(text) <= 2 else "Failed"
        others = f"done done done {hexadecimal(text * 2)} {room} {(text + bytes(2))[:2].hex()}"
        self.lines.append(f"write {(var(text) + u32(0) + u32(most) + u32(failing)).hex()}")
        self.expected.append(f"write: {in_memory} {others}")


def cases() -> Streams:
    streams = Streams()
    # a source that gives few bytes a read is read completely, with a fault at none of its reads
    for most in (1, 2, 7, 100):
        streams.read(TEXT, 26, most)
    for failing in (1, 2, 3, 4):
        streams.read(SIX, 100, 2, failing, is_read=False)
    streams.read(SIX, 100, 2, 5)
    # a source is held to its limit
    for text, limit in [(b"", 0), (b"a", 0), (SIX, 6), (SIX, 5), (SIX, 7), (b"abc", 2)]:
        for more in range(5):
            streams.read(text, limit, 1 + 25 * more)
    # what came before a write that fails is left
    for failing, left in [(1, b""), (2, b"ab"), (3, b"abcd")]:
        streams.write(SIX, 2, failing, left, 1)
    streams.write(SIX, 2, 4, SIX, 0)
    streams.write(b"abc", 2, 0, b"abc", 0)
    # a sink that takes nothing fails at a byte, and not at none
    streams.write(b"a", 0, 0, b"", 1)
    streams.write(b"", 0, 0, b"", 0)
    return streams
