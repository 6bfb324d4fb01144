"""Runs beside workers, which merge the files of deeper levels in threads of their own: 400 ledgers of one account.

The text and the four files must be those of a run without workers: whatever the number of workers; where each worker is held back
until most ledgers are closed; and where such a run is stopped at a call on its store, what a loss of power leaves must open at the
last ledger that was printed, or at the next. The records, and what is printed and left for them, are in `stories/beside`;
`models/beside_story.py` writes them.
"""

from __future__ import annotations

import itertools

from harness import FILES, NETWORK, Program, Tally, after_power_loss, read, threads_started
from stops import DISK_FAULT, DONE, FILLS, ended

WORKERS = (0, 1, 2, 4, 8)
# the first call on the store that is stopped, how far apart they are, and the least number of them before the run's end: 241 leaves 1
# when divided by 4 and by 8, so that each call of a close comes
FIRST_STOP, BETWEEN_STOPS, LEAST_STOPS = 101, 241, 30
# workers start to work once the lines of this ledger are printed
HELD_UNTIL = 300


def of_story(name: str) -> bytes:
    return read("stories", "beside", name)


class LongStory:
    def __init__(self, program: Program):
        self.program, self.records, self.text = program, of_story("records"), of_story("text")
        self.left = {name: data for name, data in ((name, of_story(name)) for name in FILES) if data}
        self.begun = program.run(["init", "--network", NETWORK], of_story("image")).store
        # "LEDGER HASH" of each close
        self.closed = [line.split()[1:3] for line in self.text.splitlines() if line.startswith(b"closed ")]


def check_workers(story: LongStory, tally: Tally) -> None:
    for workers in WORKERS:
        ran = story.program.run(["run", "--workers", str(workers)], story.records, story.begun, FAIL_AT=0)
        holds = ended(ran) == DONE and ran.out == story.text and ran.store == story.left
        tally.check("400 ledgers beside workers: the text and the files", holds, (workers, ended(ran)))
        started = threads_started(ran.notes)
        tally.check("as many threads are started as workers are asked for", started == workers, (workers, started))


def check_held(story: LongStory, tally: Tally) -> None:
    """The closing thread waits for no worker: workers that are held until most ledgers are closed change nothing."""
    held = story.text.index(b"closed %d " % HELD_UNTIL)
    ran = story.program.run(["run", "--workers", "2"], story.records, story.begun, HOLD=held)
    holds = ended(ran) == DONE and ran.out == story.text and ran.store == story.left
    tally.check("workers that are held until ledger 300 is closed: the text and the files", holds, (ended(ran), len(ran.out)))


def check_stops(story: LongStory, tally: Tally) -> None:
    for turn in itertools.count():
        call = FIRST_STOP + turn * BETWEEN_STOPS
        ran = story.program.run(["run", "--workers", "2"], story.records, story.begun, FAIL_FROM=call)
        if ended(ran) == DONE:
            tally.check("runs beside workers are stopped all the way to their end", turn >= LEAST_STOPS, turn)
            break
        count = ran.out.count(b"\nclosed ") + ran.out.startswith(b"closed ")
        is_prefix = ended(ran) == DISK_FAULT and story.text.startswith(ran.out)
        tally.check("a run beside workers that is stopped prints a prefix", is_prefix, (call, ended(ran)))
        for fill in FILLS:
            opened = story.program.run(["run"], b"", after_power_loss(story.begun, ran.notes, fill))
            end = opened.out.split()[1:3]
            holds = ended(opened) == DONE and count > 0 and end in story.closed[count - 1:count + 1]
            what = "a run beside workers that is stopped opens where it was printed or at the next close"
            tally.check(what, holds, (call, fill, end, count))


PARTS = (check_workers, check_held, check_stops)


def check(program: Program, part) -> Tally:
    tally = Tally()
    part(LongStory(program), tally)
    return tally
