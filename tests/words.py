"""Command lines of the built program: those that are a command, with the values that they give, and those that are none.

A line that is none is answered by 2 and `usage`, and leaves the input and the store as they are. The passphrase of a line is seen in the
hash of a transaction; the number of workers in the threads that are started; the numbers of `sample` in its line.
"""

from __future__ import annotations

import os
import sys
from typing import List, Tuple

from harness import Program, Tally, TESTS, threads_started
from stops import DONE, Story, ended

sys.path.insert(0, os.path.join(TESTS, "models"))
import case_tools as tools  # noqa: E402
import ledger_model as model  # noqa: E402
import set_cases as sets  # noqa: E402

Line = List[str]

# each with its passphrase
INITS: List[Tuple[Line, str]] = [
    (["init", "--network", "a"], "a"),
    (["init", "--network=a"], "a"),
    (["init", "--network=-a"], "-a"),
    (["init", "--network=--"], "--"),
    (["init", "--network=a=b"], "a=b"),
    (["init", "--network", "a=b"], "a=b"),
    (["init", "--network=="], "="),
    (["init", "--network", "run"], "run"),
    (["init", "--network", "Standalone Network ; é"], "Standalone Network ; é"),
]

CATCHUPS: List[Tuple[Line, str]] = [
    (["catchup", "--network", "a b"], "a b"),
    (["catchup", "--network=a b"], "a b"),
    (["catchup", "--network=-a"], "-a"),
    (["catchup", "--network=--help"], "--help"),
    (["catchup", "--network", "help"], "help"),
]

# each with its number of workers
RUNS: List[Tuple[Line, int]] = [
    (["run"], 0),
    (["run", "--workers", "8"], 8),
    (["run", "--workers=8"], 8),
    (["run", "--workers=0"], 0),
    (["run", "--workers", "0"], 0),
    (["run", "--workers", "0000000003"], 3),
    (["run", "--workers=07"], 7),
]

# each with its seed and its number of ledgers
SAMPLES: List[Tuple[Line, int, int]] = [
    (["sample", "--seed", "7", "--ledgers", "9"], 7, 9),
    (["sample", "--ledgers", "9", "--seed", "7"], 7, 9),
    (["sample", "--seed=7", "--ledgers", "9"], 7, 9),
    (["sample", "--ledgers", "9", "--seed=7"], 7, 9),
    (["sample", "--seed", "7", "--ledgers=9"], 7, 9),
    (["sample", "--ledgers=9", "--seed", "7"], 7, 9),
    (["sample", "--seed=7", "--ledgers=9"], 7, 9),
    (["sample", "--ledgers=9", "--seed=7"], 7, 9),
    (["sample", "--seed=4294967295", "--ledgers=20000"], 4294967295, 20000),
    (["sample", "--ledgers", "0000000001", "--seed", "0000000000"], 0, 1),
]

# what the longest of them prints after its numbers: `models/sample.py` closed it by the ledger in Python, in a quarter of an hour
LONGEST = b"412a4604851ddacae3bcfc07484d1c7a3c0fd8959ed9506745842f2c836bbbbf 180000 157591\n"

NO_COMMAND = {
    "an option twice": [
        ["init", "--network", "a", "--network", "a"],
        ["init", "--network=a", "--network=a"],
        ["catchup", "--network", "a", "--network=b"],
        ["run", "--workers", "2", "--workers", "2"],
        ["run", "--workers=2", "--workers", "3"],
        ["sample", "--seed", "1", "--seed", "1", "--ledgers", "2"],
        ["sample", "--seed=1", "--ledgers=2", "--ledgers=2"],
        ["sample", "--seed=1", "--seed=2"],
    ],
    "a missing option or value": [
        ["init"],
        ["init", "--network"],
        ["catchup"],
        ["run", "--workers"],
        ["sample"],
        ["sample", "--seed", "1"],
        ["sample", "--ledgers=2"],
        ["sample", "--seed", "--ledgers", "2"],
        ["sample", "--seed=1", "--ledgers"],
    ],
    "an empty value": [
        ["init", "--network", ""],
        ["init", "--network="],
        ["catchup", "--network="],
        ["run", "--workers", ""],
        ["run", "--workers="],
        ["sample", "--seed=", "--ledgers=2"],
        ["sample", "--seed", "1", "--ledgers", ""],
    ],
    "a value of its own that begins with a hyphen": [
        ["init", "--network", "-a"],
        ["init", "--network", "-"],
        ["catchup", "--network", "--"],
        ["catchup", "--network", "--network"],
        ["run", "--workers", "-1"],
        ["run", "--workers=-1"],
        ["sample", "--seed", "-0", "--ledgers", "2"],
    ],
    "a number that isn't one to ten digits within its bounds": [
        ["run", "--workers", "9"],
        ["run", "--workers=10"],
        ["run", "--workers", "+1"],
        ["run", "--workers", " 1"],
        ["run", "--workers=1 "],
        ["run", "--workers", "1a"],
        ["run", "--workers", "0x1"],
        ["run", "--workers=00000000001"],
        ["sample", "--seed", "4294967296", "--ledgers", "2"],
        ["sample", "--seed=9999999999", "--ledgers=2"],
        ["sample", "--seed=00000000001", "--ledgers=2"],
        ["sample", "--seed=18446744073709551617", "--ledgers=2"],
        ["sample", "--seed=1", "--ledgers=0"],
        ["sample", "--seed", "1", "--ledgers", "20001"],
        ["sample", "--ledgers=00000020000", "--seed=1"],
        ["sample", "--seed=1", "--ledgers=1.5"],
    ],
    "a request for help or a version": [
        ["--help"],
        ["-h"],
        ["help"],
        ["help", "run"],
        ["run", "--help"],
        ["run", "-h"],
        ["init", "--network=a", "--help"],
        ["--version"],
        ["-V"],
        ["version"],
        ["show", "--version"],
    ],
    "other words": [
        [],
        [""],
        ["-"],
        ["--"],
        ["close"],
        ["Run"],
        ["runs"],
        ["ru"],
        ["ledger", "run"],
        ["--network=a", "init"],
        ["--", "show"],
        ["run", "--"],
        ["run", ""],
        ["show", "run"],
        ["init", "a"],
        ["init", "--network=a", "b"],
    ],
    "an option that the command lacks": [
        ["init", "--workers=1"],
        ["init", "--network=a", "--workers=1"],
        ["catchup", "--seed=1"],
        ["run", "--network=a"],
        ["run", "--ledgers", "2"],
        ["show", "--network=a"],
        ["sample", "--seed=1", "--ledgers=2", "--workers=1"],
        ["init", "-network=a"],
        ["init", "--net=a"],
        ["init", "--networks=a"],
        ["init", "--Network=a"],
        ["run", "workers=1"],
    ],
}


def one_payment(passphrase: str) -> Tuple[bytes, bytes, bytes]:
    """An image, a record with a transaction for it, and what is printed first: the hash of the transaction, of which the SHA-256 of the
    passphrase is the first part."""
    story = tools.Story(tools.image([tools.A]))
    envelope = tools.sent("a", 1, sets.payment("b", 5))
    signed = model.sha(passphrase.encode()) + model.u32(2) + envelope.tx.xdr()
    return story.data, model.marked(story.record(envelope)), b"tx " + model.sha(signed).hex().encode()


def check_passphrases(program: Program, tally: Tally) -> None:
    for words, passphrase in INITS:
        image, record, expected = one_payment(passphrase)
        made = program.run(words, image)
        ran = program.run(["run"], record, made.store)
        tally.check("init has the passphrase as it is written", ended(made) == DONE and ran.out.startswith(expected), (words, ran.out[:70]))
    for words, passphrase in CATCHUPS:
        image, record, expected = one_payment(passphrase)
        ran = program.run(words, image + record)
        holds = ended(ran) == DONE and ran.out.startswith(expected)
        tally.check("catchup has the passphrase as it is written", holds, (words, ran.out[:70]))


def check_numbers(program: Program, tally: Tally) -> None:
    story = Story(program)
    for words, workers in RUNS:
        ran = program.run(words, story.given(0, 1), story.store, FAIL_AT=0)
        holds = ended(ran) == DONE and ran.out == story.text(0, 1) and threads_started(ran.notes) == workers
        tally.check("run has as many workers as it is asked for or none", holds, (words, threads_started(ran.notes)))
    ran = program.run(["show"], b"", story.store)
    tally.check("show has no option", ended(ran) == DONE and ran.out != b"", ran)
    for words, seed, ledgers in SAMPLES:
        ran = program.run(words, b"")
        expected = b"sample %d %d " % (seed, ledgers) + (LONGEST if ledgers == 20000 else b"")
        tally.check("sample has its numbers in either order", ended(ran) == DONE and ran.out.startswith(expected), (words, ran.out))


def check_no_command(program: Program, tally: Tally) -> None:
    story = Story(program)
    for what, lines in NO_COMMAND.items():
        for words in lines:
            ran = program.run(words, story.image, story.store)
            holds = (ran.status, ran.out, ran.err, ran.store) == (2, b"", b"usage\n", story.store)
            tally.check(f"{what} is no command", holds, (words, ran.status, ran.err))


def check_not_utf8(program: Program, tally: Tally) -> None:
    for words in ([b"\xff"], [b"init", b"--network", b"\xff"], [b"init", b"--network=a\xff"]):
        ran = program.run(words, b"")
        tally.check("a word that isn't UTF-8 is no command", (ran.status, ran.out, ran.err) == (2, b"", b"usage\n"), (words, ran.status))


def check_memory(program: Program, tally: Tally) -> None:
    """Where memory is refused before the words are read. bench/memory.py refuses each call of entire runs."""
    for faults, expected in (({"REFUSED": 1}, (8, b"no memory\n")), ({"REFUSED": 1, "ERR_ROOM": 0}, (5, b""))):
        ran = program.run(["show"], b"", **faults)
        tally.check("no memory for the words is reported, where standard error takes it", ended(ran) == expected, (faults, ended(ran)))


PARTS = (check_passphrases, check_numbers, check_no_command, check_not_utf8, check_memory)


def check(program: Program, part) -> Tally:
    tally = Tally()
    part(program, tally)
    return tally
