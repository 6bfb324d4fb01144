"""What a trial yields: by a built program, and by the Python ledger of tests/models.

Python 3.9 or later and its standard library; Linux.
"""

from __future__ import annotations

import itertools
import os
import shutil
import signal
import subprocess
import tempfile
import threading
import traceback
from typing import Dict, List, NamedTuple, Optional, Sequence, Tuple

import fuzz_paths  # noqa: F401
import archive_model as archive
import ledger_model as model
import path_query_model
import store_model
from fuzz_trials import Four, Trial, four_of
from harness import FILES, files_in, lay_out

# more seconds than any command here takes
LIMIT = 10
# what an answer's status begins with where the command didn't end by itself, or the Python ledger failed
SIGNAL, LATE, TRACEBACK = "signal", "timeout", "traceback"


class Answer(NamedTuple):
    """What a command answered, and the files after it. The status is a number's digits, or what came instead."""

    status: str
    out: bytes
    err: bytes
    files: Four

    @property
    def ended(self) -> bool:
        return self.status.isdigit()

    @property
    def outcome(self) -> str:
        """The status, with the fault's name where there is one, and without hashes, offsets and numbers of ledgers."""
        if self.status == "3":
            return f"3 refused {refusal((self.out or self.err).decode(errors='replace'))}"
        if self.status == "0" and self.out[:5] in (b"cost ", b"none\n"):
            return f"0 {'none' if self.out[:4] == b'none' else 'cost, by %d assets' % self.out.count(b'via ')}"
        if self.status == "10":
            return f"10 {self.err.decode(errors='replace').strip()}"
        if self.status == "7":
            words = self.err.decode(errors="replace").split()
            return "7 bad store, " + (FILES[int(words[3])][:-1] if words[3:4] and words[3] in tuple("0123") else "?")
        names = {"0": "0 done", "9": "9 bad input", "11": "11 missing", "12": "12 already there"}
        return names.get(self.status, self.status)


class Late(BaseException):
    """The Python ledger took too long. Nothing that takes an Exception for an answer catches it."""


def refusal(text: str) -> str:
    """What a line says that refuses a record, a history or a query: the fault's name, and what tells it from others."""
    words = (text.splitlines() or [""])[-1].split()[1:]
    if words and words[0].isdigit():
        # a record, of which the ledger stands first
        return " ".join(words[1:2] + words[3:] if words[1:2] == ["BadXdr"] else words[1:2])
    if words[:1] == ["Xdr"]:
        return " ".join(words[:2] + words[3:])
    if words[:1] == ["BadQuery"]:
        return f"BadQuery {min(int(words[1]), 3)}"
    return " ".join(words[:2] if words[:1] == ["Stray"] else words[:1])


def too_late(*_: object) -> None:
    raise Late


class Limit:
    """Raises Late in what it is around after so many seconds."""

    def __init__(self, seconds: float) -> None:
        self.seconds = seconds

    def __enter__(self) -> None:
        signal.signal(signal.SIGALRM, too_late)
        signal.setitimer(signal.ITIMER_REAL, self.seconds)

    def __exit__(self, *_: object) -> None:
        signal.setitimer(signal.ITIMER_REAL, 0)


# ---- a built program


def feed(write_end: int, data: bytes) -> None:
    """Writes single bytes into a pipe of packets, of which a read takes one."""
    try:
        for index in range(len(data)):
            os.write(write_end, data[index:index + 1])
    except BrokenPipeError:
        pass
    finally:
        os.close(write_end)


def one_byte_a_read(data: bytes) -> Tuple[int, threading.Thread]:
    """The end of a pipe whose reads yield one byte each, and the thread that writes them."""
    read_end, write_end = os.pipe2(os.O_CLOEXEC | os.O_DIRECT)
    return read_end, threading.Thread(target=feed, args=(write_end, data))


def ran(command: List[bytes], data: bytes, folder: str, by_bytes: bool) -> Tuple[str, bytes, bytes]:
    """The status, output and standard error of a command."""
    source, thread = one_byte_a_read(data) if by_bytes else (subprocess.PIPE, None)
    process = subprocess.Popen(
        command, cwd=folder, env={}, stdin=source, stdout=subprocess.PIPE, stderr=subprocess.PIPE)
    if thread is not None:
        os.close(source)
        thread.start()
    try:
        out, err = process.communicate(None if by_bytes else data, timeout=LIMIT)
        status = str(process.returncode) if process.returncode >= 0 else f"{SIGNAL} {-process.returncode}"
    except subprocess.TimeoutExpired:
        process.kill()
        out, err = process.communicate()
        status = LATE
    if thread is not None:
        thread.join()
    return status, out, err


class Program:
    """A built program."""

    def __init__(self, path: str) -> None:
        self.path = os.path.abspath(path)
        self.name = os.path.basename(path)

    def answers(self, trial: Trial) -> List[Answer]:
        found: List[Answer] = []
        folder = tempfile.mkdtemp(prefix="fuzz-", dir="/dev/shm" if os.path.isdir("/dev/shm") else None)
        try:
            lay_out(folder, dict(zip(FILES, trial.files)))
            for words, data in trial.steps:
                given = found[0].out if data is None else data
                ended = ran([os.fsencode(self.path), *words], given, folder, trial.by_bytes)
                found.append(Answer(*ended, four_of(files_in(folder))))
                if not found[-1].ended:
                    break
        finally:
            shutil.rmtree(folder)
        return found


# ---- the Python ledger


class WatchedLedger(model.Ledger):
    """The Python ledger, of which the results of transactions are noted."""

    noted: List[bytes] = []

    def close(self, data: bytes) -> str:
        lines = super().close(data)
        self.noted.extend(self.outcomes.values())
        return lines


model.Ledger = WatchedLedger


def by_model(words: List[bytes], data: bytes, files: Four) -> Answer:
    """What the Python ledger answers to a command."""
    after: Sequence[bytes] = files
    if words[0] == b"init":
        (out, err, status), after = store_model.init(words[2].decode(), data, files)
    elif words[0] == b"run":
        (out, err, status), after = store_model.run(data, files)
    elif words[0] == b"show":
        out, err, status = store_model.show(files)
    elif words[0] == b"path":
        out, err, status = path_query_model.path(data, files)
    elif words[0] == b"verify":
        out, err, status = archive.verify(data)
    else:
        close = {b"catchup": model.catchup, b"history": archive.history, b"changes": archive.changes}[words[0]]
        out, err, status = close(words[2].decode(), data)
    return Answer(str(status), out if isinstance(out, bytes) else out.encode(), err.encode(), tuple(after))


def place_of(error: BaseException) -> str:
    frames = traceback.extract_tb(error.__traceback__)
    return f"{type(error).__name__} in {frames[-1].name}" if frames else type(error).__name__


def model_answers(trial: Trial) -> Optional[List[Answer]]:
    """What the Python ledger answers to a trial; None where it takes too long, so that it says nothing."""
    found: List[Answer] = []
    files = trial.files
    WatchedLedger.noted.clear()
    try:
        with Limit(LIMIT):
            for words, data in trial.steps:
                found.append(by_model(words, found[0].out if data is None else data, files))
                files = found[-1].files
    except Late:
        return None
    except Exception as error:  # any traceback is what is looked for
        text = "".join(traceback.format_exception(type(error), error, error.__traceback__))
        found.append(Answer(f"{TRACEBACK} {place_of(error)}", b"", text.encode(), files))
    return found


# ---- what differs


class Difference(NamedTuple):
    """Where answers differ: whose, of which command, what of it, and the two outcomes."""

    whose: str
    word: str
    what: str
    expected: str
    found: str

    def __str__(self) -> str:
        return f"{self.whose}, {self.word}: {self.what}, {self.found} and not {self.expected}"


def detail(what: str, one: Answer, other: Answer) -> str:
    """How an answer begins to differ from another: its outcome, and the first line that is another, without hashes."""
    if what not in ("out", "err"):
        return one.outcome
    if b"\0" in getattr(one, what) + getattr(other, what):
        # a history or changes, which are no lines
        return f"{one.outcome}: {'more' if len(getattr(one, what)) > len(getattr(other, what)) else 'other'} bytes"
    lines = (getattr(answer, what).splitlines() for answer in (one, other))
    pairs = itertools.zip_longest(*lines, fillvalue=b"nothing")
    words = next((mine for mine, others in pairs if mine != others), b"").split()
    return f"{one.outcome}: {b' '.join(words[:1] + words[3:4]).decode(errors='replace')}"


def first_difference(trial: Trial, label: str, expected: List[Answer], found: List[Answer]) -> Optional[Difference]:
    for (words, _), one, other in zip(trial.steps, expected, found):
        for what in ("status", "out", "err", "files"):
            if getattr(one, what) != getattr(other, what):
                return Difference(label, words[0].decode(), what, detail(what, one, other), detail(what, other, one))
    return None


def difference(trial: Trial, by: Dict[str, Optional[List[Answer]]]) -> Optional[Difference]:
    """The first difference among the answers of several, of which the first one's are what is expected.

    None is of one that says nothing. A command that a signal ended, or that took too long, always differs.
    """
    said = {label: found for label, found in by.items() if found is not None}
    for label, found in said.items():
        if found and not found[-1].ended:
            word = trial.steps[len(found) - 1][0][0].decode()
            return Difference(label, word, "status", "an end", found[-1].status)
    labels = list(said)
    for label in labels[1:]:
        differs = first_difference(trial, label, said[labels[0]], said[label])
        if differs is not None:
            return differs
    return None
