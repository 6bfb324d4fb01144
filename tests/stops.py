"""Runs that are stopped, lose power, or whose calls fail.

A run closes the ledgers 62, 63 and 64 over a store that `init` made at ledger 61, and the store goes on to its next
epoch after ledger 63. It is stopped at each of its calls on the files of the store, and each call fails alone. What a
loss of power leaves is worked out from what was written, cut and synced: each byte that is pending is 0, 1, which opens
a gate, or 7. After it the records that follow are run, up to ledger 66, and must give the text of a run that was never
stopped. All this also beside workers.

Of its 21 writes, cuts and syncs, all from some number on fail: then the ledger at which the store opens is said by
hand, in `REOPENED`. A run over a store of format 1, which it brings over first, is stopped at each call likewise.

Then each read of an input and each write of an output fails, for all commands that have them. The records, and what is
printed for them, are in `stories/stopped`; `models/stopped_story.py` writes them.
"""

from __future__ import annotations

from typing import Dict, Iterator, List, NamedTuple, Optional, Tuple

from cases import read_case
from harness import NETWORK, Program, Ran, Store, Tally, after_power_loss, notes_of, read

FIRST, CLOSES, ALL = 61, 3, 5
FILLS = (0, 1, 7)
# more calls than any of these runs makes
ENOUGH = 400
INIT = ["init", "--network", NETWORK]
CATCHUP = ["catchup", "--network", NETWORK]
RUN = ["run"]
BESIDE = [["run", "--workers", "1"], ["run", "--workers", "2"]]
# For so many writes, cuts and syncs that were done before all others failed, and more: the ledger at which the store
# opens where the bytes that were pending are 0 or 7, and where they are 1. An append writes the record and a closed
# gate, syncs, opens the gate before the record and syncs: the first four calls, the next four, and the last four. After
# the second one the move to the next epoch closes the gate of its image and syncs; cuts that file, writes it, cuts its
# journal, writes a closed gate there and syncs; and opens the image's gate and syncs.
REOPENED = {0: (61, 61), 2: (61, 62), 4: (62, 62), 6: (62, 63), 8: (63, 63), 19: (63, 64), 21: (64, 64)}
CHANGES = 21
# cases of commands that take nothing of the story: without an input, and a query over a store
OTHERS = ("stores-show-a-store-with-three-records", "samples-3-ledgers-of-seed-1")
QUERY = "queries-by-two-costs-less"
READ_FAULT, WRITE_FAULT, DISK_FAULT, MISSING = (4, b"read fault\n"), (5, b"write fault\n"), (6, b"disk fault\n"), (11, b"missing\n")
DONE = (0, b"")


def of_story(name: str) -> bytes:
    return read("stories", "stopped", name)


class Story:
    """A run of five closes: what is read and what is printed."""

    def __init__(self, program: Program):
        self.image = of_story("image")
        self.records = [of_story(f"record.{seq}") for seq in range(FIRST + 1, FIRST + ALL + 1)]
        self.lines = [of_story(f"lines.{seq}") for seq in range(FIRST + 1, FIRST + ALL + 1)]
        self.ends = [of_story(f"end.{seq}") for seq in range(FIRST, FIRST + ALL + 1)]
        self.store = program.run(INIT, self.image).store
        # by the files of a store that was tried: after how many closes it opens, and after how many it also goes on
        self.opened: Dict[tuple, Optional[int]] = {}
        self.resumed: Dict[tuple, Optional[int]] = {}
        self.program = program

    def given(self, first: int, last: int) -> bytes:
        return b"".join(self.records[first:last])

    def text(self, first: int, last: int) -> bytes:
        """What a run prints that closes these ledgers."""
        return b"".join(self.lines[first:last]) + self.ends[last]

    def printed(self, out: bytes, kept: int = 0) -> Optional[int]:
        """Up to which close a text goes that begins after some, with its end or without; None where it is none of the run's."""
        counts = range(kept, ALL + 1)
        return next((count for count in counts if out in (b"".join(self.lines[kept:count]), self.text(kept, count))), None)

    def opens_at(self, store: Store) -> Optional[int]:
        """After how many closes a store opens, or None where it doesn't."""
        key = tuple(sorted(store.items()))
        if key not in self.opened:
            ran = self.program.run(RUN, b"", store)
            is_open = ended(ran) == DONE and ran.out in self.ends
            self.opened[key] = self.ends.index(ran.out) if is_open else None
        return self.opened[key]

    def goes_on(self, store: Store, count: int) -> bool:
        """Whether the remaining records give what they give in a run that was never stopped."""
        ran = self.program.run(RUN, self.given(count, ALL), store)
        return (ran.status, ran.err, ran.out) == (*DONE, self.text(count, ALL))

    def resumes_at(self, store: Store) -> Optional[int]:
        """After how many closes a store opens and goes on as if never stopped, or None where it doesn't."""
        key = tuple(sorted(store.items()))
        if key not in self.resumed:
            at = self.opens_at(store)
            self.resumed[key] = at if at is not None and self.goes_on(store, at) else None
        return self.resumed[key]


def ended(ran: Ran) -> Tuple[int, bytes]:
    return ran.status, ran.err


def image_file(gate: int, epoch: int, image: bytes) -> bytes:
    """The file of an image after a gate, in an epoch of some network."""
    return bytes([gate]) + epoch.to_bytes(8, "big") + bytes(32) + len(image).to_bytes(8, "big") + image


def in_format_1(store: Store) -> Store:
    """A store whose image is in format 1, as an older program left it: without its hash, and without the top bit of its epoch's word."""
    file = store["image0"]
    return {**store, "image0": file[:1] + bytes([file[1] & 0x7F]) + file[2:49] + file[81:]}


def check_runs(story: Story, tally: Tally) -> None:
    """Stops the run at each call on its store, and fails each call alone."""
    for fault, what in (("FAIL_FROM", "a run that is stopped"), ("FAIL_AT", "a run of which a call fails")):
        check_stops(story, tally, story.store, fault, what)


def check_runs_beside(story: Story, tally: Tally) -> None:
    """The same of a run beside workers."""
    for words in BESIDE:
        for fault, what in (("FAIL_FROM", "that is stopped"), ("FAIL_AT", "of which a call fails")):
            check_stops(story, tally, story.store, fault, f"a run beside workers {what}", words=words)


def changes(notes: bytes) -> Iterator[int]:
    """The numbers of the C library's calls with which each write, cut or sync begins. A sync has one of each file."""
    before = ""
    for number, (kind, _, _, _) in enumerate((note for note in notes_of(notes) if note[0] in "wts"), 1):
        if (before, kind) != ("s", "s"):
            yield number
        before = kind


def check_reopened(story: Story, tally: Tally) -> None:
    """Lets so many writes, cuts and syncs of a run be done, and all others fail."""
    opening = story.program.run(RUN, b"", story.store, FAIL_AT=0).notes
    for words in (RUN, *BESIDE):
        notes = story.program.run(words, story.given(0, CLOSES), story.store, FAIL_AT=0).notes
        first = sum(kind in "wts" for kind, _, _, _ in notes_of(opening))
        calls = [call for call in changes(notes) if call > first]
        tally.check("a run of three closes makes 21 writes, cuts and syncs", len(calls) == CHANGES, (words, len(calls)))
        for done, call in enumerate([*calls, ENOUGH]):
            ran = story.program.run(words, story.given(0, CLOSES), story.store, FAIL_FROM=call, CHANGES_ALONE=1)
            check_reopened_after(story, tally, ran, done)


def check_reopened_after(story: Story, tally: Tally, ran: Ran, done: int) -> None:
    """Compares the ledger at which a store opens after a run of which so many writes, cuts and syncs were done."""
    expected = REOPENED[max(bound for bound in REOPENED if bound <= done)]
    count, status = story.printed(ran.out), DONE if done == CHANGES else DISK_FAULT
    for fill in FILLS:
        at = story.resumes_at(after_power_loss(story.store, ran.notes, fill))
        holds = ended(ran) == status and at is not None and FIRST + at == expected[fill == 1]
        what = "a run of which so many writes, cuts and syncs were done opens at the ledger that is said"
        tally.check(what, holds and count is not None and count <= at, (done, fill, ended(ran), at, count))


def check_runs_over(story: Story, tally: Tally) -> None:
    """The same where the file of the next epoch holds a shut image of long ago, or a short or a long rest, and its journal too."""
    for file in (image_file(0, 9, story.image), image_file(7, 1, story.image * 3), b"\1" * 48, b"\1"):
        begun = {**story.store, "image1": file, "journal1": b"\1\0\0\0\2ab" * 40}
        check_stops(story, tally, begun, "FAIL_FROM", "a run over other files that is stopped")


def check_migrations(story: Story, tally: Tally) -> None:
    """The same of a run that first brings a store of format 1 over, without records and with one; a file of long ago stands where the next
    epoch's goes."""
    old = in_format_1(story.store)
    record = story.records[0][4:]
    kept = {**old, "journal0": b"\1" + len(record).to_bytes(4, "big") + record + b"\0"}
    for fault, what in (("FAIL_FROM", "a run that migrates and is stopped"), ("FAIL_AT", "a run that migrates and of which a call fails")):
        check_stops(story, tally, old, fault, what)
        check_stops(story, tally, {**old, "image1": image_file(7, 1, story.image * 3), "journal1": b"\1\0\0\0\2ab" * 40}, fault, what)
        check_stops(story, tally, kept, fault, what, 1)


def check_old_shows(story: Story, tally: Tally) -> None:
    """`show` leaves a store of format 1 as it is, and so does a run that finds it broken."""
    old = in_format_1(story.store)
    ran = story.program.run(["show"], b"", old)
    tally.check("a store of format 1 that is shown stays as it was", ended(ran) == DONE and ran.store == old, ended(ran))
    broken = {**old, "journal0": b"\1"}
    ran = story.program.run(RUN, story.given(0, CLOSES), broken)
    tally.check("a broken store of format 1 stays as it was", ran.status == 7 and ran.store == broken, ended(ran))


def check_stops(
    story: Story, tally: Tally, begun: Store, fault: str, what: str, kept: int = 0, words: List[str] = RUN,
) -> None:
    """Stops a run at each of its calls on the store, which begins with so many records kept."""
    for call in range(1, ENOUGH):
        ran = story.program.run(words, story.given(kept, CLOSES), begun, **{fault: call})
        count, done = story.printed(ran.out, kept), ended(ran) == DONE
        tally.check(f"{what} ends with a disk fault, or is done", done or ended(ran) == DISK_FAULT, ended(ran))
        tally.check(f"{what} prints complete closes", count is not None, ran.out)
        for fill in FILLS:
            at = story.resumes_at(after_power_loss(begun, ran.notes, fill))
            last = count if done else None if count is None else count + 1
            holds = at is not None and count is not None and count <= at <= last
            resumes = f"{what} opens where it was printed or at the next close, and goes on as if never stopped"
            tally.check(resumes, holds, (call, fill, at, count))
        if not done and fault == "FAIL_AT":
            at = story.resumes_at(ran.store)
            holds = at is not None and at in (count, (count or 0) + 1)
            tally.check(f"{what} is taken up without a loss of power", holds, (call, at, count))
        if done:
            break
    tally.check(f"{what} is stopped at each call up to the last", call < ENOUGH - 1)


def check_makings(story: Story, tally: Tally) -> None:
    """Stops `init` at each call on its store, where there are no files, and over shut images of long ago."""
    shut = [
        {"image0": image_file(gate, 4, story.image), "image1": image_file(gate, 7, story.image * 2), "journal0": b"\1" * 99}
        for gate in (0, 7, 255)
    ]
    for begun in ({}, *shut):
        for fault, what in (("FAIL_FROM", "a making that is stopped"), ("FAIL_AT", "a making of which a call fails")):
            check_making(story, tally, begun, fault, what)


def check_making(story: Story, tally: Tally, begun: Store, fault: str, what: str) -> None:
    """Stops a making at each of its calls: a loss of power leaves no store, or the complete one, and never an image of long ago."""
    for call in range(1, ENOUGH):
        ran = story.program.run(INIT, story.image, begun, **{fault: call})
        done = ended(ran) == DONE
        tally.check(f"{what} ends with a disk fault, or is done", done or ended(ran) == DISK_FAULT, ended(ran))
        for fill in FILLS:
            left = after_power_loss(begun, ran.notes, fill)
            opened = story.program.run(RUN, b"", left)
            is_missing = not done and (ended(opened), opened.out) == (MISSING, b"")
            holds = is_missing or (ended(opened), opened.out) == (DONE, story.ends[0])
            tally.check(f"{what} leaves no store, or the complete one", holds, (call, fill, opened.status, opened.err))
        if done:
            break
    tally.check(f"{what} is stopped at each call up to the last", call < ENOUGH - 1)


def check_openings(story: Story, tally: Tally) -> None:
    """Fails each call that opens the store; the input isn't read where the opening failed, nor anything written."""
    stores = [("", story.store), (" of format 1", in_format_1(story.store))]
    query = read_case(QUERY).given
    for words in (RUN, *BESIDE, ["show"], ["path"]):
        given = query if words == ["path"] else story.given(0, 1)
        for form, begun in stores:
            # where a store of format 1 has opened, a run goes on to the next epoch: that is no opening
            opening = story.program.run(["show"], b"", begun, FAIL_AT=0).notes
            for call in range(1, ENOUGH):
                ran = story.program.run(words, given, begun, FAIL_AT=call)
                if len(ran.notes) > len(opening) or ended(ran) == DONE:
                    break
                holds = ended(ran) == DISK_FAULT and ran.store == begun and not ran.out
                what = f"an opening{form} of which a call fails leaves the store as it was, and prints nothing"
                tally.check(what, holds, (words, call, ended(ran), ran.out))


class Command(NamedTuple):
    """What is run over streams that fail. Its records come after so many bytes of the input."""

    name: str
    words: List[str]
    begun: Store
    given: bytes
    ahead: int = 0

    @property
    def keeps(self) -> bool:
        return self.words[0] == "run"


def commands(story: Story) -> List[Command]:
    records = story.given(0, CLOSES)
    return [
        Command("init", INIT, {}, story.image), Command("run", RUN, story.store, records),
        *(Command("run beside workers", words, story.store, records) for words in BESIDE),
        Command("catchup", CATCHUP, {}, story.image + records, len(story.image)),
    ]


def check_reads(story: Story, tally: Tally) -> None:
    """Fails each read of an input of one byte a read, up to the one that finds its end."""
    for command in commands(story):
        bounds = [command.ahead + len(story.given(0, count)) for count in range(CLOSES + 1)]
        for number in range(1, len(command.given) + 2):
            ran = story.program.run(command.words, command.given, command.begun, IN_FAIL=number, ONE_BYTE=1)
            is_init = command.words == INIT
            count = 0 if is_init else max((index for index, bound in enumerate(bounds) if bound < number), default=0)
            check_read(story, tally, command, ran, count, number)


def check_read(story: Story, tally: Tally, command: Command, ran: Ran, count: int, number: int) -> None:
    """What is left where a read failed after so many complete records."""
    holds = ended(ran) == READ_FAULT and ran.out == b"".join(story.lines[:count])
    holds = holds and (not ran.store or command.keeps) and (not command.keeps or story.opens_at(ran.store) == count)
    what = f"{command.name}: a read that fails leaves the lines of the complete records before it"
    tally.check(what, holds, (number, ended(ran)))


def check_long_reads(story: Story, tally: Tally) -> None:
    """Fails each read of an input whose reads take what they ask for."""
    for command in commands(story):
        for number in range(1, ENOUGH):
            ran = story.program.run(command.words, command.given, command.begun, IN_FAIL=number)
            if ended(ran) == DONE:
                break
            count = story.printed(ran.out)
            is_whole = count is not None and ran.out == b"".join(story.lines[:count])
            what = f"{command.name}: a long read that fails leaves complete closes"
            if tally.check(what, is_whole, (number, ended(ran))):
                check_read(story, tally, command, ran, count, number)


def check_writes(story: Story, tally: Tally) -> None:
    """Fails each write of an output of one byte a write; and has the output take so many bytes and then none."""
    entire = story.text(0, CLOSES)
    starts = [len(b"".join(story.lines[:count])) for count in range(CLOSES + 1)]
    for command in commands(story)[1:]:
        for length in range(len(entire)):
            # the close whose lines are being written is kept by then
            kept = min(sum(start <= length for start in starts), CLOSES)
            for faults in ({"OUT_FAIL": length + 1, "ONE_BYTE": 1}, {"OUT_ROOM": length}):
                ran = story.program.run(command.words, command.given, command.begun, **faults)
                holds = ended(ran) == WRITE_FAULT and ran.out == entire[:length]
                if command.keeps:
                    holds = holds and story.opens_at(ran.store) == kept
                what = f"{command.name}: a write that fails or takes nothing leaves a prefix of the text"
                tally.check(what, holds, (length, ended(ran), faults))


def check_long_writes(story: Story, tally: Tally) -> None:
    """Fails each write of an output whose writes take what they are given, those of `show`, `sample` and `path` too."""
    text = story.text(0, CLOSES)
    listed = [(command.name, command.words, command.begun, command.given, text) for command in commands(story)[1:]]
    for name in (*OTHERS, QUERY):
        case = read_case(name)
        listed.append((case.words[0].decode(), case.words, case.before, case.given, case.output))
    for name, words, begun, given, entire in listed:
        what = f"{name}: a long write that fails leaves a prefix of the text"
        for number in range(1, ENOUGH):
            ran = story.program.run(words, given, begun, OUT_FAIL=number)
            if ended(ran) == DONE:
                break
            is_prefix = entire.startswith(ran.out) and ran.out != entire
            tally.check(what, ended(ran) == WRITE_FAULT and is_prefix, (number, ended(ran), ran.out))
        tally.check(what, number > 1 and ran.out == entire, number)


def check_other_writes(story: Story, tally: Tally) -> None:
    """The same of `show`, `sample` and `path` at one byte a write, and where the output takes so many and then none."""
    for name in (*OTHERS, QUERY):
        case = read_case(name)
        for length in range(len(case.output)):
            for faults in ({"OUT_FAIL": length + 1, "ONE_BYTE": 1}, {"OUT_ROOM": length}):
                ran = story.program.run(case.words, case.given, case.before, **faults)
                holds = ended(ran) == WRITE_FAULT and ran.out == case.output[:length]
                what = f"{case.words[0].decode()}: a write that fails or takes nothing leaves a prefix of the text"
                tally.check(what, holds and ran.store == case.before, (length, ended(ran), faults))


def check_queries(story: Story, tally: Tally) -> None:
    """Fails each read of a query, of one byte or of all that is asked for: nothing is printed, and the store stays."""
    case = read_case(QUERY)
    for faults in ({"ONE_BYTE": 1}, {}):
        for number in range(1, ENOUGH):
            ran = story.program.run(case.words, case.given, case.before, IN_FAIL=number, **faults)
            if ended(ran) == DONE:
                break
            holds = ended(ran) == READ_FAULT and not ran.out and ran.store == case.before
            tally.check("path: a read that fails leaves the store as it was", holds, (number, ended(ran)))
        # the last read finds the end of the input
        expected = len(case.given) + 2 if faults else 3
        is_whole = number == expected and ran.out == case.output
        tally.check("path: each read up to the end of the query fails", is_whole, number)


def check_ends(story: Story, tally: Tally) -> None:
    """An end that standard error doesn't take is reported by the status alone, as a write fault."""
    for words, given, begun in ((["nothing"], b"", {}), (RUN, b"", {}), (CATCHUP, b"", {}), (INIT, story.image, story.store)):
        ran = story.program.run(words, given, begun, ERR_ROOM=3)
        holds = ran.status == 5 and len(ran.err) == 3
        tally.check("an end that standard error doesn't take is a write fault", holds, (words, ran.status, ran.err))


PARTS = (
    check_runs, check_runs_beside, check_reopened, check_runs_over, check_migrations, check_old_shows, check_makings,
    check_openings, check_reads, check_long_reads, check_writes, check_long_writes, check_other_writes, check_queries,
    check_ends,
)


def check(program: Program, part) -> Tally:
    tally = Tally()
    part(Story(program), tally)
    return tally
