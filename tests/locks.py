"""A store belongs to one writer: runs of the program beside others that hold its lock.

The store is the one of the stopped story (`stops.py`), at ledger 61. A run that waits for its input holds the lock, and so does this
script, where it locks the file as another process would.
"""

from __future__ import annotations

import contextlib
import fcntl
import os
import shutil
import subprocess
import tempfile
from typing import Iterator, List

from harness import LOCK, Program, Store, Tally, files_in, lay_out
from stops import DISK_FAULT, DONE, INIT, MISSING, RUN, Story

SHOW = ["show"]


@contextlib.contextmanager
def folder_of(store: Store) -> Iterator[str]:
    folder = tempfile.mkdtemp(prefix="ledger-")
    try:
        lay_out(folder, store)
        yield folder
    finally:
        shutil.rmtree(folder)


def run_in(program: Program, folder: str, words: List[str], given: bytes = b"") -> subprocess.CompletedProcess:
    return subprocess.run([program.path, *words], cwd=folder, input=given, capture_output=True)


@contextlib.contextmanager
def locked(folder: str, how: int) -> Iterator[None]:
    """The lock, held by this process."""
    with open(f"{folder}/ledger-store/{LOCK}", "w", encoding="ascii") as file:
        fcntl.flock(file, how)
        yield


def is_refused(ran: subprocess.CompletedProcess) -> bool:
    return (ran.returncode, ran.stderr, ran.stdout) == (*DISK_FAULT, b"")


def beside_a_run(program: Program, story: Story, tally: Tally) -> None:
    """Every command fails beside a run, and changes nothing; the run goes on."""
    with folder_of(story.store) as folder:
        first = subprocess.Popen([program.path, *RUN], cwd=folder, stdin=subprocess.PIPE, stdout=subprocess.PIPE, stderr=subprocess.PIPE)
        first.stdin.write(story.records[0])
        first.stdin.flush()
        printed = first.stdout.read(len(story.lines[0]))
        held = files_in(folder)
        for words, given in ((RUN, story.records[1]), (SHOW, b""), (INIT, story.image)):
            tally.check("a command beside a run is refused", is_refused(run_in(program, folder, words, given)), words)
            tally.check("a command that is refused changes nothing", files_in(folder) == held, words)
        out, err = first.communicate(b"".join(story.records[1:]))
        tally.check("a run goes on beside commands that are refused", (first.returncode, err) == DONE and printed + out == story.text(0, 5))
        ran = run_in(program, folder, RUN)
        tally.check("the lock ends with the run", (ran.returncode, ran.stderr) == DONE and ran.stdout == story.ends[5])


def killed(program: Program, story: Story, tally: Tally) -> None:
    """The lock of a run that was killed is gone with it."""
    with folder_of(story.store) as folder:
        first = subprocess.Popen([program.path, *RUN], cwd=folder, stdin=subprocess.PIPE, stdout=subprocess.PIPE)
        first.stdin.write(story.records[0])
        first.stdin.flush()
        first.stdout.read(len(story.lines[0]))
        first.kill()
        first.wait()
        ran = run_in(program, folder, RUN)
        tally.check("a killed run leaves no lock", (ran.returncode, ran.stderr) == DONE and ran.stdout == story.ends[1])


def beside_locks(program: Program, story: Story, tally: Tally) -> None:
    """Readers share the lock, and a writer has it alone."""
    with folder_of(story.store) as folder:
        with locked(folder, fcntl.LOCK_SH):
            ran = run_in(program, folder, SHOW)
            tally.check("two readers share the lock", (ran.returncode, ran.stderr) == DONE and ran.stdout != b"", ran)
            tally.check("a writer is refused beside a reader", is_refused(run_in(program, folder, RUN, story.records[0])))
        with locked(folder, fcntl.LOCK_EX):
            tally.check("a reader is refused beside a writer", is_refused(run_in(program, folder, SHOW)))
        tally.check("what was refused changed nothing", files_in(folder) == story.store)


def made_meanwhile(program: Program, story: Story, tally: Tally) -> None:
    """A store that another process makes between the look and the first write is left to it."""
    ran = program.run(INIT, story.image, OTHER_MAKER=1)
    tally.check("a making beside another is refused", (ran.status, ran.err) == DISK_FAULT, (ran.status, ran.err))
    tally.check("a making beside another writes nothing", ran.store == {"image0": b"\0"}, sorted(ran.store))


def made_between_looks(program: Program, story: Story, tally: Tally) -> None:
    """A store that another process makes between two looks is left to it: what was seen before is out of date."""
    for words, given in ((INIT, story.image), (RUN, story.records[0]), (SHOW, b"")):
        # made before the first look, it is a volume with a byte and no image
        allowed = (DISK_FAULT,) if words == INIT else (DISK_FAULT, MISSING)
        for look in range(2, 99):
            ran = program.run(words, given, OTHER_LOOK=look)
            if ran.store != {"image0": b"\0"}:
                break
            tally.check("a command beside another maker is refused, or finds no store", (ran.status, ran.err) in allowed, (words, look, ran.status))
        was_alone = ran.status == 0 and len(ran.store) == 2 if words == INIT else (ran.status, ran.store) == (11, {})
        tally.check("a store is made at each look but those after the last", was_alone and 3 < look < 98, (words, look, ran.status))


def nothing_made(program: Program, story: Story, tally: Tally) -> None:
    """A command that finds no store makes none."""
    with folder_of({}) as folder:
        for words in (RUN, SHOW):
            ran = run_in(program, folder, words)
            tally.check("a command that finds no store makes none", (ran.returncode, ran.stderr) == MISSING and not os.listdir(folder), words)


PARTS = (beside_a_run, killed, beside_locks, made_meanwhile, made_between_looks, nothing_made)


def check(program: Program, part) -> Tally:
    tally = Tally()
    part(program, Story(program), tally)
    return tally
