"""A start image from a checkpoint of a history archive: the header of its ledger and its 22 buckets.

Judged are the chain of the checkpoint's headers, the hash of the list of buckets that the last of them has, and each
bucket's bytes by the hash that is its name. Whether the image breaks a later rule is judged by the program alone.
Unproved.
"""

from __future__ import annotations

import hashlib
import os
from typing import Iterator, List, Optional

from file_source import FileFault
from header_chain import Header, checkpoint_headers
from history_archive import State, bucket_path, read_state, test_there
from image_bytes import NO_HASH, marked, pack_length, sha256
from new_files import write_files
from packed_file import stated_size, unpacked_chunks
from progress import Progress
from start_image import MAGIC, MOST_FILES

VERSIONS = (18, 19)
STATED_RANGE = 2**32
# gzip makes at most so many bytes of one (RFC 1951 codes 258 bytes in two bits)
GREATEST_RATIO = 1032


def bucket_size(folder: str, digest: bytes) -> int:
    """The number of bytes that a bucket has, by what its packed file states. Raises FileFault and OSError."""
    if digest == NO_HASH:
        return 0
    path = bucket_path(folder, digest)
    test_there(folder, path)
    # gzip states the size modulo 2^32, and makes hardly more bytes than it takes
    packed, size = os.path.getsize(path), stated_size(path)
    least = packed - packed // 100 - 1000
    size += max(0, -(-(least - size) // STATED_RANGE)) * STATED_RANGE
    if size > packed * GREATEST_RATIO:
        raise FileFault(path, f"states {size} bytes at its end, more than its {packed} bytes can unpack to")
    return size


def sizes_of(folder: str, state: State) -> List[int]:
    """The sizes of a state's buckets. Raises FileFault where they are above those of an image together."""
    sizes = [bucket_size(folder, digest) for digest in state.buckets]
    if sum(sizes) > MOST_FILES:
        greatest = max(range(len(sizes)), key=lambda index: sizes[index])
        raise FileFault(
            state.path, f"its buckets have {sum(sizes)} bytes together, above the {MOST_FILES} of an image; "
            f"{os.path.basename(bucket_path(folder, state.buckets[greatest]))} states {sizes[greatest]}")
    return sizes


def list_hash(buckets: List[bytes]) -> bytes:
    """The hash of a list of buckets by theirs, curr and snap of each level."""
    levels = zip(buckets[0::2], buckets[1::2])
    return sha256(b"".join(sha256(curr + snap) for curr, snap in levels))


def header_of_state(folder: str, state: State) -> Header:
    """The header of a state's ledger, which has its buckets. Raises FileFault and OSError."""
    header = checkpoint_headers(folder, state.ledger)[-1]
    version, wanted = header.value["ledgerVersion"], header.value["bucketListHash"]
    if version not in VERSIONS:
        raise FileFault(state.path, f"ledger {state.ledger} is of protocol {version}, and an image of 18 or 19")
    if list_hash(list(state.buckets)) != wanted:
        digest = list_hash(list(state.buckets)).hex()
        raise FileFault(state.path, f"its buckets have the hash {digest} together, and the header {wanted.hex()}")
    return header


def bucket_chunks(path: str, digest: bytes, size: int) -> Iterator[bytes]:
    """The bytes of a bucket, which must be as many as its packed file states, and have its hash. Raises FileFault."""
    found, count = hashlib.sha256(), 0
    for chunk in unpacked_chunks(path):
        count += len(chunk)
        if count > size:
            raise FileFault(path, f"has more than the {size} bytes that it states")
        found.update(chunk)
        yield chunk
    if count < size:
        raise FileFault(path, f"has {count} bytes and not the {size} that it states")
    if found.digest() != digest:
        raise FileFault(path, f"has the hash {found.hexdigest()}, which isn't its name")


def image_chunks(folder: str, state: State, header: Header, sizes: List[int]) -> Iterator[bytes]:
    yield MAGIC + marked(header.data)
    with Progress(sum(sizes)) as progress:
        for digest, size in zip(state.buckets, sizes):
            yield pack_length(size)
            path: Optional[str] = None if digest == NO_HASH else bucket_path(folder, digest)
            for chunk in bucket_chunks(path, digest, size) if path else ():
                progress.add(len(chunk))
                yield chunk


def write_image(folder: str, ledger: int, out: str, may_replace: bool) -> None:
    """Writes the start image of a checkpoint's ledger. Raises FileFault and OSError."""
    state = read_state(folder, ledger)
    sizes = sizes_of(folder, state)
    header = header_of_state(folder, state)
    write_files({out: image_chunks(folder, state, header, sizes)}, may_replace)
