"""Runs of the built program, each with its words, input, output, status and the files of its store before and after.

`cases/names` has the names of the cases, each of which says what the case shows; `cases/NAME.case` has a head of lines, an empty
line, and the bytes of which the head has the numbers. A line of the head is one of

- `word WORD`, a word of the command line;
- `status N`, the exit status that it must answer;
- `error LINE`, a line that it must write to standard error;
- `output N`, the number of bytes that it must write to standard output;
- `before FILE N`, the number of bytes that a file of the store has when the program begins;
- `after FILE N`, the number of bytes that it must have when the program has ended.

FILE is `image0`, `image1`, `journal0` or `journal1`; a file without a line has no bytes. After the empty line follow the bytes of the
last three kinds, in the order of their lines, and then the input.

Each is run twice, plainly and at one byte a read and a write; a case of `run` alone is also run beside 1, 2, 4 and 8 workers. No file
may have a write or a cut after its last sync when the program has ended, and nothing may be left beside the store.
"""

from __future__ import annotations

from dataclasses import dataclass, field
from typing import Iterator, List, Optional, Tuple

from harness import Program, Ran, Store, Tally, read, unsynced

WORKERS = (1, 2, 4, 8)


@dataclass
class Case:
    words: List[bytes] = field(default_factory=list)
    status: int = -1
    error: bytes = b""
    output: bytes = b""
    before: Store = field(default_factory=dict)
    after: Store = field(default_factory=dict)
    given: bytes = b""


def names(folder: str = "cases") -> List[str]:
    return read(folder, "names").decode().split()


def read_case(name: str, folder: str = "cases") -> Case:
    head, _, rest = read(folder, f"{name}.case").partition(b"\n\n")
    case = Case()
    for line in head.split(b"\n"):
        kind, _, value = line.partition(b" ")
        if kind == b"word":
            case.words.append(value)
        elif kind == b"status":
            case.status = int(value)
        elif kind == b"error":
            case.error += value + b"\n"
        else:
            count = int(value.rpartition(b" ")[2])
            data, rest = rest[:count], rest[count:]
            if kind == b"output":
                case.output = data
            else:
                (case.before if kind == b"before" else case.after)[value.split()[0].decode()] = data
    case.given = rest
    return case


def difference(case: Case, ran: Ran) -> Optional[str]:
    """What a run answered or left otherwise than the case expects, if anything."""
    left = {name: data for name, data in case.after.items() if data}
    for what, got, expected in (
        ("status", ran.status, case.status), ("output", ran.out, case.output), ("standard error", ran.err, case.error),
        ("names of files", sorted(ran.store), sorted(left)), ("files", ran.store, left), ("strays", ran.strays, []),
        ("files that aren't synced", unsynced(ran.notes), []),
    ):
        if got != expected:
            return f"{what}: {str(got)[-200:]}, not {str(expected)[-200:]}"
    return None


def ways(case: Case) -> Iterator[Tuple[str, List[bytes], dict]]:
    """The ways to run a case: what each is called, its words and the shim's."""
    yield "as it is", case.words, {}
    yield "at one byte a read and a write", case.words, {"ONE_BYTE": 1}
    if case.words == [b"run"]:
        for workers in WORKERS:
            yield f"beside {workers} workers", [b"run", b"--workers", str(workers).encode()], {}


def check(program: Program, name: str) -> Tally:
    """Runs a case in each way."""
    tally, case = Tally(), read_case(name)
    for way, words, faults in ways(case):
        why = difference(case, program.run(words, case.given, case.before, **faults))
        tally.check(f"a case of a run, {way}", why is None, f"{name}: {why}")
    return tally
