"""Files that gzip packed (RFC 1952), as those of history archives: read piece by piece, so that one that grows without
end takes no memory. Offsets of faults in them are those of the unpacked bytes.

Unproved.
"""

from __future__ import annotations

import gzip
import os
import zlib
from typing import Iterator

from file_source import FileFault, Source, opened

MAGIC = b"\x1f\x8b"
CHUNK = 1048576
# the last bytes of a packed file, which have the number of the unpacked ones
SIZE_FIELD = 4
# the most bytes of a file of headers, of sets or of results
MOST_HISTORY = 268435456


def unpacked_chunks(path: str) -> Iterator[bytes]:
    """The unpacked bytes of a file, in pieces. Raises FileFault, also where it can't be read, since it may be read
    while another file is written."""
    try:
        with gzip.open(path, "rb") as file:
            while chunk := file.read(CHUNK):
                yield chunk
    except (EOFError, zlib.error, gzip.BadGzipFile) as why:
        raise FileFault(path, f"isn't what gzip packs, or is cut: {why}") from None
    except OSError as why:
        raise FileFault(path, why.strerror or str(why)) from None


def stated_size(path: str) -> int:
    """The number of unpacked bytes as a packed file states it, modulo 2^32; it may be wrong. Raises OSError."""
    with open(path, "rb") as file:
        file.seek(max(0, os.fstat(file.fileno()).st_size - SIZE_FIELD))
        return int.from_bytes(file.read(SIZE_FIELD), "little")


def unpacked(path: str, most: int = MOST_HISTORY) -> Source:
    """The unpacked bytes of a file, at most so many. Raises FileFault and OSError."""
    parts, room = [], most
    for chunk in unpacked_chunks(path):
        room -= len(chunk)
        if room < 0:
            raise FileFault(path, f"has more than {most} bytes when it is unpacked")
        parts.append(chunk)
    return Source(path, b"".join(parts))


def opened_or_unpacked(path: str) -> Source:
    """The bytes of a file, unpacked where gzip packed it. Raises FileFault and OSError."""
    source = opened(path)
    return unpacked(path) if source.data[:len(MAGIC)] == MAGIC else source
