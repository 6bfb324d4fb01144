"""How start images and streams of records are written (docs/FORMATS.md, "Headers, records and images").

Unproved.
"""

from __future__ import annotations

import hashlib
import struct
from typing import Sequence

from record_stream import TOP_BIT
from start_image import LEVELS, MAGIC

NO_HASH = bytes(32)
pack_mark, pack_length = struct.Struct(">I").pack, struct.Struct(">Q").pack


def sha256(data: bytes) -> bytes:
    return hashlib.sha256(data).digest()


def marked(data: bytes) -> bytes:
    """Bytes after their record mark."""
    return pack_mark(TOP_BIT | len(data)) + data


def bucket_list_hash(first: bytes) -> bytes:
    """The hash of the levels whose first file, the curr of level 0, is this one, and whose other files are empty."""
    curr = sha256(first) if first else NO_HASH
    return sha256(sha256(curr + NO_HASH) + (LEVELS - 1) * sha256(NO_HASH + NO_HASH))


def image_bytes(header: bytes, files: Sequence[bytes]) -> bytes:
    """The image of a header's bytes and of its first bucket files, curr and snap of each level; others are empty."""
    every = [*files, *([b""] * (2 * LEVELS - len(files)))]
    return MAGIC + marked(header) + b"".join(pack_length(len(file)) + file for file in every)
