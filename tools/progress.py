"""How much of a long input is done, or what is done at present, on standard error where that is a terminal.

Unproved.
"""

from __future__ import annotations

import sys
import time

LONG_INPUT = 16777216
BETWEEN_LINES = 0.5


class Note:
    """Shows what is done at present, twice a second at most, and takes it away at the end."""

    def __init__(self) -> None:
        self.is_shown, self.width, self.last = sys.stderr.isatty(), 0, time.monotonic()

    def put(self, text: str) -> None:
        print(f"\r{text:{self.width}}", end="", file=sys.stderr, flush=True)
        self.width = len(text)

    def say(self, text: str) -> None:
        if self.is_shown and time.monotonic() - self.last >= BETWEEN_LINES:
            self.last = time.monotonic()
            self.put(text)

    def __enter__(self) -> "Note":
        return self

    def __exit__(self, *fault: object) -> None:
        if self.width:
            self.put("")
            print("\r", end="", file=sys.stderr, flush=True)


class Progress:
    """Shows the share of bytes that are done, twice a second at most, where they are many; takes it away at the end."""

    def __init__(self, total: int) -> None:
        self.total, self.done, self.last = total, 0, time.monotonic()
        self.is_shown = total > LONG_INPUT and sys.stderr.isatty()

    def add(self, count: int) -> None:
        self.done += count
        if self.is_shown and time.monotonic() - self.last >= BETWEEN_LINES:
            self.last = time.monotonic()
            print(f"\r{100 * self.done // self.total} %", end="", file=sys.stderr, flush=True)

    def __enter__(self) -> "Progress":
        return self

    def __exit__(self, *fault: object) -> None:
        if self.is_shown:
            print("\r     \r", end="", file=sys.stderr, flush=True)
