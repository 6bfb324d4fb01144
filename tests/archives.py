"""The commands `history`, `changes` and `verify` of the built program, over streams that end, fail or have another byte.

The input of `history` and `changes` is a case of five ledgers, of which two are without transactions
(`cases/archives-history-five-ledgers.case`). What `verify` must answer to each change of its history comes from the
archive in Python (`models/archive_model.py`), which shares nothing with the program.
"""

from __future__ import annotations

import os
import sys
from typing import List

from cases import Case, read_case
from harness import TESTS, Program, Tally

sys.path.insert(0, os.path.join(TESTS, "models"))
import archive_model as archive  # noqa: E402

VERIFY = ["verify"]
# the offsets at which a byte is changed are dealt to so many parts
DEALT = 4
# where there are more reads or writes than that, a part of them fails
MANY = 500


def written(name: str) -> Case:
    """A case of five ledgers."""
    return read_case(f"archives-{name}-five-ledgers")


def judged(program: Program, tally: Tally, what: str, data: bytes, place: int) -> None:
    """Compares what `verify` answers with what the archive in Python does."""
    ran = program.run(VERIFY, data)
    out, err, status = archive.verify(data)
    tally.check(what, (ran.out, ran.err, ran.status) == (out.encode(), err.encode(), status), (place, ran.out, ran.err, out, err))


def change_bytes(program: Program, tally: Tally, part: int) -> None:
    data = written("history").output
    for place in range(part, len(data), DEALT):
        changed = data[:place] + bytes([data[place] ^ 1]) + data[place + 1:]
        judged(program, tally, "a history with another byte is judged as the archive in Python judges it", changed, place)


def first_bytes(program: Program, tally: Tally) -> None:
    change_bytes(program, tally, 0)


def second_bytes(program: Program, tally: Tally) -> None:
    change_bytes(program, tally, 1)


def third_bytes(program: Program, tally: Tally) -> None:
    change_bytes(program, tally, 2)


def fourth_bytes(program: Program, tally: Tally) -> None:
    change_bytes(program, tally, 3)


def cuts(program: Program, tally: Tally) -> None:
    """A history that ends after each of its bytes: bad input where it ends, before anything is said of the chain."""
    data = written("history").output
    for place in range(len(data)):
        ran = program.run(VERIFY, data[:place])
        is_so = (ran.out, ran.err, ran.status) == (b"", b"bad input at %d\n" % place, 9)
        tally.check("a history that is cut is bad input at its end", is_so, (place, ran.out, ran.err))


def verified(program: Program, tally: Tally) -> None:
    """What `history` writes verifies, with the hash and the number of ledgers of `catchup`."""
    for name in ["archives-history-five-ledgers", "archives-history-the-last-ledger", "archives-history-no-records"]:
        case = read_case(name)
        history = program.run(case.words, case.given)
        last = program.run([b"catchup", *case.words[1:]], case.given).out.splitlines()
        closes, digest = sum(line.startswith(b"closed ") for line in last), last[-1].split()[2]
        ran = program.run(VERIFY, history.out)
        is_so = (ran.out, ran.status) == (b"verified %d %s\n" % (closes, digest), 0)
        tally.check("what `history` writes verifies with the last hash of `catchup`", is_so, (name, ran.out, ran.err))


def places(count: int) -> List[int]:
    """The numbers below a count, of which there are some thousands at most: each, or each seventh and the last ones."""
    return [number for number in range(count) if count < MANY or number % 7 == 0 or number >= count - 7]


def failed_reads(program: Program, tally: Tally, words: List[bytes], given: bytes) -> None:
    """Reads of one byte fail, up to the one that finds the end, and the first reads of more: nothing is written."""
    long = ({"IN_FAIL": number} for number in (1, 2))
    short = ({"IN_FAIL": number + 1, "ONE_BYTE": 1} for number in places(len(given) + 1))
    for faults in (*long, *short):
        ran = program.run(words, given, **faults)
        is_so = (ran.status, ran.out, ran.err) == (4, b"", b"read fault\n")
        detail = (faults, ran.status, ran.out, ran.err)
        tally.check(f"`{words[0].decode()}` writes nothing where a read fails", is_so, detail)


def failed_writes(program: Program, tally: Tally, words: List[bytes], given: bytes, entire: bytes, status: int) -> None:
    """A write that fails, or takes a part, leaves a beginning of the text."""
    word = words[0].decode()
    for room in places(len(entire)):
        for faults in ({"OUT_ROOM": room}, {"OUT_FAIL": room + 1, "ONE_BYTE": 1}):
            ran = program.run(words, given, **faults)
            is_so = (ran.status, ran.out, ran.err) == (5, entire[:room], b"write fault\n")
            detail = (faults, ran.status, ran.err)
            tally.check(f"`{word}` ends with a write fault where the output has no room", is_so, detail)
    ran = program.run(words, given, ERR_ROOM=0)
    is_so = (ran.status, ran.out) == (status, entire)
    tally.check(f"`{word}` needs no room on standard error where all is done", is_so, (ran.status, ran.err))


def failing_histories(program: Program, tally: Tally) -> None:
    case = written("history")
    failed_reads(program, tally, case.words, case.given)
    failed_writes(program, tally, case.words, case.given, case.output, 0)


def failing_changes(program: Program, tally: Tally) -> None:
    case = written("changes")
    failed_reads(program, tally, case.words, case.given)
    failed_writes(program, tally, case.words, case.given, case.output, 0)


def failing_verifications(program: Program, tally: Tally) -> None:
    data = written("history").output
    line, _, status = archive.verify(data)
    failed_reads(program, tally, [b"verify"], data)
    failed_writes(program, tally, [b"verify"], data, line.encode(), status)


def refusals_unsaid(program: Program, tally: Tally) -> None:
    """The line of a record that is refused stands on standard error: where that has no room, a write failed."""
    for name in ("history", "changes"):
        case = read_case(f"archives-{name}-a-record-that-is-refused-after-a-close")
        for room in (0, 1, len(case.error) - 1):
            ran = program.run(case.words, case.given, ERR_ROOM=room)
            is_so = (ran.status, ran.out, ran.err) == (5, b"", case.error[:room])
            tally.check(f"`{name}` ends with a write fault where a refusal can't be said", is_so, (room, ran.status, ran.err))


PARTS = [
    first_bytes, second_bytes, third_bytes, fourth_bytes, cuts, verified, failing_histories, failing_changes,
    failing_verifications, refusals_unsaid,
]


def check(program: Program, part) -> Tally:
    tally = Tally()
    part(program, tally)
    return tally
