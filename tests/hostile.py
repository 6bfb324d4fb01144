"""Malformed and malicious input: where each case of it stands, and what `init` and `run` answer to it.

Each input is a case of `catchup` in `cases/`, which `cases.py` runs as it is and at one byte a read. Here its end is
said once more by hand; then `init` reads its image, and `run` the records after it, over a store of the image before
them: as they are, at one byte a read, and `run` beside workers. What is refused leaves no store, or the store as it
was.

What no input of a command shows stands elsewhere, in `ELSEWHERE`: offsets and kinds of faults inside a file, of which
an image is refused by rule 4 alone, in rows that the checker computes; and merges that are handed in, in the probe's
cases.
"""

from __future__ import annotations

from typing import Dict, Iterator, List, NamedTuple, Tuple

from cases import read_case
from harness import NETWORK, TESTS, Program, Store, Tally

HEADER_AT, FILES_IN_IMAGE = 4, 22
INIT, RUN = ["init", "--network", NETWORK], ["run"]


class Hostile(NamedTuple):
    """A case, with the status and the line that a command ends with, by hand."""

    name: str
    status: int
    end: str


# what is no image, or none of a ledger
IMAGES = [
    Hostile("no-bytes", 9, "bad input at 0"),
    Hostile("another-magic", 9, "bad input at 0"),
    Hostile("a-clear-mark-of-the-header", 9, "bad input at 4"),
    Hostile("a-header-that-is-too-long", 9, "bad input at 4"),
    Hostile("a-header-that-is-cut", 9, "bad input at 11"),
    Hostile("a-header-of-four-bytes", 10, "bad image rule 1"),
    Hostile("a-file-that-is-too-long", 9, "bad input at 12"),
    Hostile("a-file-meta-twice", 10, "bad image rule 4"),
    Hostile("a-file-a-byte-after-meta", 10, "bad image rule 4"),
    Hostile("a-file-three-bytes", 10, "bad image rule 4"),
    Hostile("a-file-no-meta", 10, "bad image rule 4"),
    Hostile("a-file-two-equal-keys", 10, "bad image rule 4"),
    Hostile("assets-a-file-a-predicate-of-33-levels", 10, "bad image rule 4"),
    Hostile("marks-live-over-dead", 10, "bad image rule 5"),
    Hostile("an-account-too-few-sponsors-of-signers", 10, "bad image rule 7"),
]

# what is no record, after an image of ledger 5; a place of `bad input` is counted from the first record
RECORDS = [
    Hostile("a-record-that-is-too-long", 9, "bad input at 0"),
    Hostile("a-clear-mark-of-a-record", 9, "bad input at 0"),
    Hostile("a-record-that-is-cut-at-its-tenth-byte", 9, "bad input at 10"),
    Hostile("a-record-of-one-byte", 3, "refused 6 BadXdr 1 Short"),
    Hostile("a-record-four-bytes-after-it", 3, "refused 6 BadXdr 88 Trailing"),
    Hostile("a-record-101-operations", 3, "refused 6 BadXdr 100 TooLong"),
    Hostile("a-record-a-predicate-of-33-levels", 3, "refused 6 BadXdr 424 TooDeep"),
    Hostile("a-record-a-count-of-4294967295-envelopes-and-8-bytes", 3, "refused 6 BadXdr 48 Short"),
]

# a predicate of as many levels as can be read: its ledger closes, with a transaction that fails
DEEPEST = "a-record-a-predicate-of-32-levels-of-which-the-operation-is-malformed"

ROWS = "crates/definition_rows/proofs/BucketFiles.antt"
# what a file has that shows a case
ELSEWHERE = [
    ("a file has META twice", ROWS, "has_first_fault (Some (SecondMeta 16)) (meta ++ meta)"),
    ("four bytes after META", ROWS, '(Some (Xdr 16 Trailing)) (hex "80000010ffffffff000000120000000000000000")'),
    ("a file of three bytes", ROWS, '(Some (Xdr 3 Short)) (hex "800000")'),
    ("a file without META", ROWS, "has_first_fault (Some (NoMeta 0)) (gone 65)"),
    ("two equal keys", ROWS, "has_first_fault (Some (Order 64)) (meta ++ gone 65 ++ gone 65)"),
    ("a merge that is handed in two ledgers late", "crates/probe/stdout", "hand_in: stale 1 4 6 1 4 64 64"),
    # 64 bytes are due, and 112 are given: the same and one item after them
    ("a merge whose newer file has an item more at its end", "crates/probe/stdout", "hand_in: newer 2 64 2 16 112 112"),
]


def image_length(data: bytes) -> int:
    """The length of the image that an input begins with."""
    at = HEADER_AT + 4 + (int.from_bytes(data[HEADER_AT:HEADER_AT + 4], "big") & 0x7FFFFFFF)
    for _ in range(FILES_IN_IMAGE):
        at += 8 + int.from_bytes(data[at:at + 8], "big")
    return at


def ways(words: List[str]) -> Iterator[Tuple[List[str], Dict[str, int]]]:
    yield words, {}
    yield words, {"ONE_BYTE": 1}
    if words == RUN:
        yield ["run", "--workers", "1"], {}
        yield ["run", "--workers", "2"], {"ONE_BYTE": 1}


def ends_as(status: int, out: bytes, err: bytes, hostile: Hostile) -> bool:
    """Whether a run ends as is said, and prints nothing else."""
    line = f"{hostile.end}\n".encode()
    return status == hostile.status and (out, err) == ((line, b"") if status == 3 else (b"", line))


def check_images(program: Program, tally: Tally) -> None:
    """`init` refuses what `catchup` refuses, and makes no store."""
    for hostile in IMAGES:
        case = read_case(hostile.name)
        holds = ends_as(case.status, case.output, case.error, hostile)
        tally.check("an image that is refused: the case says so", holds, hostile)
        refuses(program, tally, INIT, case.given, {}, hostile)


def check_records(program: Program, tally: Tally) -> None:
    """`run` refuses the records that `catchup` refuses, over a store that stays as it was; `init` takes no records."""
    for hostile in RECORDS:
        case = read_case(hostile.name)
        length = image_length(case.given)
        after = hostile
        if hostile.status == 9:
            after = hostile._replace(end=f"bad input at {length + int(hostile.end.split()[-1])}")
        holds = ends_as(case.status, case.output, case.error, after)
        tally.check("a record that is refused: the case says so", holds, hostile)
        store = program.run(INIT, case.given[:length]).store
        refuses(program, tally, RUN, case.given[length:], store, hostile)
        refuses(program, tally, INIT, case.given, {}, Hostile(hostile.name, 9, f"bad input at {length}"))


def refuses(program: Program, tally: Tally, words: List[str], given: bytes, begun: Store, hostile: Hostile) -> None:
    for way, faults in ways(words):
        ran = program.run(way, given, begun, **faults)
        holds = ends_as(ran.status, ran.out, ran.err, hostile) and ran.store == begun
        detail = (way, faults, hostile, ran.status, ran.err, ran.out)
        tally.check(f"{words[0]}: input that is refused changes nothing", holds, detail)


def check_deepest(program: Program, tally: Tally) -> None:
    """The deepest predicate that is read: `run` closes its ledger as `catchup` does."""
    case = read_case(DEEPEST)
    lines = case.output.decode().splitlines()
    fails = case.status == 0 and lines[0].split()[0::3] == ["tx", "-1"] and lines[1].split()[:2] == ["closed", "6"]
    tally.check("the deepest predicate: the case says that its transaction fails", fails, lines)
    length = image_length(case.given)
    store = program.run(INIT, case.given[:length]).store
    for way, faults in ways(RUN):
        ran = program.run(way, case.given[length:], store, **faults)
        closes = (ran.status, ran.out) == (0, case.output)
        tally.check("run: the deepest predicate", closes, (way, faults, ran.status, ran.out))


def check_elsewhere(program: Program, tally: Tally) -> None:
    """Whether what stands elsewhere stands there."""
    for what, path, text in ELSEWHERE:
        with open(f"{TESTS}/../{path}", encoding="utf-8") as file:
            tally.check("a case of malicious input that stands elsewhere", text in file.read(), (what, path))


PARTS = (check_images, check_records, check_deepest, check_elsewhere)


def check(program: Program, part) -> Tally:
    tally = Tally()
    part(program, tally)
    return tally
