"""Cases of merges of buckets, and of levels that take closes while merges are handed in.

merges.tsv beside this script has a level, an older and a newer file, and their merge; `-` is the empty file. levels.tsv has the number
of a ledger, the file of what it changed, and the hash of the levels after it, which are empty before the first line. The levels here
follow CAP-0020 and stellar-core, and share nothing with the program; their merges and hashes are compared with both tables, and what
becomes of merges with what was worked out by hand. Python 3.9 or later and its standard library.
"""

import hashlib
import os
from typing import Dict, List, NamedTuple, Optional, Tuple

from operation_cases import rank_of_entry
from xdr_words import u32, var

HERE = os.path.dirname(os.path.abspath(__file__))

# ---- files of buckets: a record each, after its mark

LIVE, DEAD, INIT, META = 0, 1, 2, 2**32 - 1

Rows = Dict[Tuple, Tuple[int, bytes]]


def record(arm: int, body: bytes) -> bytes:
    return u32(0x80000000 + 4 + len(body)) + u32(arm) + body


def meta(version: int) -> bytes:
    return record(META, u32(version) + u32(0))


def read(file: bytes) -> Tuple[Optional[int], Rows]:
    """The version of a bucket, if it has one, and what it says under each key."""
    version, rows, at = None, {}, 0
    while at < len(file):
        length = int.from_bytes(file[at : at + 4], "big") - 0x80000000
        arm, body = int.from_bytes(file[at + 4 : at + 8], "big"), file[at + 8 : at + 4 + length]
        at += 4 + length
        if arm == META:
            version = int.from_bytes(body[:4], "big")
        else:
            rows[rank_of_entry(bytes(4) + body + bytes(60) if arm == DEAD else body)] = (arm, body)
    return version, rows


def merged_item(old: Tuple[int, bytes], new: Tuple[int, bytes]) -> Optional[Tuple[int, bytes]]:
    """What two items of one key merge into, or nothing."""
    if (old[0], new[0]) == (INIT, DEAD):
        return None
    return ({DEAD: {INIT: LIVE}, INIT: {LIVE: INIT}}.get(old[0], {}).get(new[0], new[0]), new[1])


def merged(level: int, older: bytes, newer: bytes) -> bytes:
    """The merge of two files into a level; the deepest has no items of what is gone."""
    (old_version, rows), (new_version, new) = read(older), read(newer)
    versions = [it for it in (old_version, new_version) if it is not None]
    if not versions:
        return b""
    found = {**rows, **{key: merged_item(rows[key], item) if key in rows else item for key, item in new.items()}}
    items = [found[key] for key in sorted(found) if found[key] is not None]
    return meta(max(versions)) + b"".join(record(*it) for it in items if level < 10 or it[0] != DEAD)


# ---- levels


def half(level: int) -> int:
    return 4 ** (level + 1) // 2


def sha(data: bytes) -> bytes:
    return hashlib.sha256(data).digest()


class Merge(NamedTuple):
    level: int
    start: int
    older: bytes
    newer: bytes


class Levels:
    """The curr and the snap of eleven levels after a ledger, and the merges that are pending."""

    def __init__(self, files: List[bytes], seq: int):
        self.curr, self.snap, self.seq = files[0::2], files[1::2], seq
        self.pending = {level: self.begun(level, seq - seq % half(level - 1)) for level in range(1, 11)}
        self.undrawn = list(range(1, 11))

    def begun(self, level: int, start: int) -> Merge:
        spills = level < 10 and (start + half(level - 1)) % half(level) == 0
        return Merge(level, start, b"" if spills else self.curr[level], self.snap[level - 1])

    def close(self, fresh: bytes) -> None:
        self.seq += 1
        for level in range(10, 0, -1):
            if self.seq % half(level - 1) == 0:
                self.snap[level - 1], self.curr[level - 1] = self.curr[level - 1], b""
                _, _, older, newer = self.pending[level]
                self.curr[level] = merged(level, older, newer)
                self.pending[level] = self.begun(level, self.seq)
                self.undrawn = sorted({*self.undrawn, level})
        self.curr[0] = merged(0, self.curr[0], fresh)

    def files(self) -> List[bytes]:
        return [it for pair in zip(self.curr, self.snap) for it in pair]

    def hash(self) -> bytes:
        hashes = [sha(it) if it else bytes(32) for it in self.files()]
        return sha(b"".join(sha(curr + snap) for curr, snap in zip(hashes[0::2], hashes[1::2])))

    def answer(self, out: Merge) -> str:
        """What becomes of a merge that is handed in: one that comes back is as it was."""
        level, start, older, newer = out
        due = self.pending[level]
        back = f"{level} {start} {len(older)} {len(newer)}"
        if start != due.start:
            return f"stale {level} {start} {due.start} {back}"
        for word, expected, given in [("older", due.older, older), ("newer", due.newer, newer)]:
            if expected != given:
                pairs = zip(expected, given)
                at = next((at for at, (a, b) in enumerate(pairs) if a != b), min(len(expected), len(given)))
                return f"{word} {level} {at} {back}"
        return "taken"


# ---- cases


class Board:
    """Levels and the merges that are kept, and the lines of a case with what is expected of them."""

    def __init__(self) -> None:
        self.levels = Levels([b""] * 22, 0)
        self.earlier = Levels([b""] * 22, 0)
        self.kept: List[Merge] = []
        self.lines = ["levels"]
        self.expected: List[str] = []
        self.answers: List[str] = []

    def line(self, word: str, arguments: bytes = b"", answer: str = "") -> None:
        self.lines.append(f"{word} {arguments.hex()}".strip())
        self.expected.append(f"{word}: {answer}".strip())

    def set_level(self, seq: int, level: int, curr: bytes, snap: bytes) -> None:
        """One level has a file as its curr, and the one above it another as its snap. The others have META alone."""
        files = [meta(18)] * 22
        files[2 * level], files[2 * level - 1] = curr, snap
        self.set(files, seq)

    def set(self, files: List[bytes], seq: int) -> None:
        self.levels = Levels(files, seq)
        self.line("levels", u32(seq) + b"".join(map(var, files)), self.state())

    def state(self) -> str:
        """The hash of the levels, and how long their files are."""
        return " ".join([self.levels.hash().hex(), *(str(len(it)) for it in self.levels.files())])

    def restart(self) -> None:
        """The levels are made anew of their files."""
        self.set(self.levels.files(), self.levels.seq)

    def close(self, fresh: bytes, expected: Optional[bytes] = None) -> None:
        self.levels.close(fresh)
        assert expected in (None, self.levels.hash())
        self.line("close", var(fresh), self.state())

    def draw(self) -> List[int]:
        """Draws the merges that began. Answers their indices in the row."""
        drawn = [self.levels.pending[level] for level in self.levels.undrawn]
        self.levels.undrawn = []
        self.line("draw", b"", " ".join(f"{it.level} {it.start}" for it in drawn))
        self.kept += drawn
        return list(range(len(self.kept) - len(drawn), len(self.kept)))

    def make(self, level: int, start: int, older: bytes, newer: bytes, expected: bytes) -> None:
        """A merge is made, or as a close where it is into the first level."""
        assert merged(level, older, newer) == expected
        if level == 0:
            self.set([older] + [b""] * 21, 2)
            self.close(newer)
            assert self.levels.files()[0] == expected
            return
        self.line("make", u32(level) + u32(start) + var(older) + var(newer), expected.hex() or "-")
        self.kept.append(Merge(level, start, older, newer))

    def again(self, index: int, later: int = 0, more_older: bytes = b"", more_newer: bytes = b"") -> int:
        """A merge once more, in another form. Answers its index in the row."""
        level, start, older, newer = self.kept[index]
        self.kept.append(Merge(level, start + later, older + more_older, newer + more_newer))
        self.line("again", u32(index) + u32(later) + var(more_older) + var(more_newer))
        return len(self.kept) - 1

    def hand_in(self, index: int, expected: Optional[str] = None) -> None:
        answer = self.levels.answer(self.kept.pop(index))
        assert expected is None or answer.startswith(expected), answer
        self.answers.append(answer.split()[0])
        self.line("hand_in", u32(index), answer)

    def others(self, is_new: bool) -> None:
        """Hands in the merges of levels with the files of an earlier ledger, by turns as they were after it and as if they were after
        the same one."""
        if is_new:
            self.earlier = Levels(self.levels.files(), self.levels.seq)
        seq = self.levels.seq if self.levels.seq % 2 == 0 else self.earlier.seq
        answers = [self.levels.answer(it) for it in Levels(self.earlier.files(), seq).pending.values()]
        self.answers += [it.split()[0] for it in answers]
        self.line("others", u32(is_new) + u32(seq), " ".join(answers))

    def lengths(self, *expected: int) -> None:
        """The lengths of the first files were worked out by hand."""
        assert [len(it) for it in self.levels.files()][: len(expected)] == [*expected]


# ---- merges

GONE, DATA_KEY = u32(1), u32(3) + u32(0) + b"A" * 32 + var(b"aa")


def data(arm: int, value: bytes) -> bytes:
    return meta(18) + record(arm, u32(7) + DATA_KEY + var(value) + u32(0) + u32(0))


# data of the account of 32 bytes A under the name "aa": made with "v", made with "w", changed to "w", and gone
INIT_V, INIT_W, LIVE_W, DEAD_DATA = data(INIT, b"v"), data(INIT, b"w"), data(LIVE, b"w"), meta(18) + record(DEAD, DATA_KEY)

MERGES = [
    (5, meta(17), meta(18), meta(18)), (5, meta(18), meta(17), meta(18)), (10, b"", b"", b""), (10, b"", meta(17), meta(17)),
    (5, DEAD_DATA, INIT_W, LIVE_W), (5, INIT_V, LIVE_W, INIT_W), (5, INIT_V, DEAD_DATA, meta(18)), (5, LIVE_W, DEAD_DATA, DEAD_DATA),
    (10, LIVE_W, DEAD_DATA, meta(18)), (10, DEAD_DATA, meta(18), meta(18)), (9, DEAD_DATA, b"", DEAD_DATA), (9, LIVE_W, INIT_V, INIT_V),
]


def rows_of(name: str) -> List[List[str]]:
    with open(f"{HERE}/{name}.tsv", encoding="ascii") as file:
        return [line.split("\t") for line in file.read().splitlines()]


def merges() -> Board:
    board = Board()
    for level, *files in rows_of("merges"):
        older, newer, expected = (bytes.fromhex(it.lstrip("-")) for it in files)
        board.make(int(level), 0, older, newer, expected)
    for level, older, newer, expected in MERGES:
        board.make(level, 64, older, newer, expected)
    return board


# ---- schedules: which merges are handed in while levels take closes, and when

RESTARTED = 70
# a pool that is gone, whose key comes after those of all other entries
LAST = record(DEAD, u32(5) + b"\xff" * 32)
# how many merges are taken in and come back
COUNTED = {
    "at_once": (110, 0), "one_later": (110, 0), "before_commit": (92, 0), "too_late": (0, 91), "twice": (220, 0), "of_others": (1254, 146),
    "changed": (0, 330),
}


class Schedule:
    """Keeps at most one merge of a level until it is due, where it isn't handed in as it begins."""

    def __init__(self, board: Board):
        self.board = board
        self.waiting: List[Merge] = []

    def by(self, name: str) -> None:
        if name == "of_others":
            return self.board.others(self.board.levels.seq % 5 == 0)
        self.hand_in_waiting(name)
        drawn = self.board.draw()
        if name == "at_once":
            for _ in drawn:
                self.board.hand_in(drawn[0])
        elif name in ("twice", "changed"):
            for index in drawn:
                (self.twice if name == "twice" else self.changed)(index)
        else:
            for index in drawn:
                if all(it.level != self.board.kept[index].level for it in self.waiting):
                    self.waiting.append(self.board.kept[index])

    def twice(self, index: int) -> None:
        self.board.hand_in(self.board.again(index))
        # (it stays in the row, and another one is handed in)
        self.board.hand_in(self.board.again(index))

    def changed(self, index: int) -> None:
        """With one entry more in the older input, then in the newer one, with a later start, and with one byte more."""
        _, _, older, newer = self.board.kept[index]
        self.board.hand_in(self.board.again(index, 0, LAST if older else meta(18) + LAST))
        self.board.hand_in(self.board.again(index, 0, b"", LAST if newer else meta(18) + LAST))
        self.board.hand_in(self.board.again(index, 1))
        # (a file with one byte more is no bucket)
        self.board.line("again", u32(index) + u32(0) + var(b"") + var(b"\0"), "BAD")

    def hand_in_waiting(self, name: str) -> None:
        seq = self.board.levels.seq
        for it in list(self.waiting):
            commit = it.start + half(it.level - 1)
            if {"before_commit": commit == seq + 1, "too_late": commit <= seq}.get(name, True):
                self.waiting.remove(it)
                self.board.hand_in(self.board.kept.index(it))


def scheduled(name: str) -> Board:
    board = Board()
    schedule = Schedule(board)
    schedule.by(name)
    for seq, fresh, expected in rows_of("levels"):
        board.close(bytes.fromhex(fresh), bytes.fromhex(expected))
        if int(seq) == RESTARTED:
            board.restart()
        schedule.by(name)
    taken = board.answers.count("taken")
    assert (taken, len(board.answers) - taken) == COUNTED[name], (name, taken, len(board.answers))
    if name == "changed":
        further(board, schedule)
    return board


def further(board: Board, schedule: Schedule) -> None:
    """Further closes, of the buckets of the table by turns, while merges are handed in by the schedules by turns."""
    rows, names = rows_of("levels"), [*COUNTED]
    for at in range(300):
        board.close(bytes.fromhex(rows[at * 7 % len(rows)][1]))
        schedule.by(names[at % 7])


# ---- hand-ins of levels whose files are laid out by hand


def gone(*names: bytes) -> bytes:
    return meta(18) + b"".join(record(DEAD, u32(0) + u32(0) + name * 32) for name in names)


A, B, A_AND_B, B_AND_C = gone(b"A"), gone(b"B"), gone(b"A", b"B"), gone(b"B", b"C")


def drawn_once() -> Board:
    """A job is drawn once, and again as its level begins the next merge."""
    board = Board()
    board.set_level(1, 1, A, B)
    for expected in [[(1, 2), *((level, 0) for level in range(2, 11))], [], [(1, 4)]]:
        board.close(meta(18))
        assert [board.kept[it][:2] for it in board.draw()] == expected
    return board


def taken_twice() -> Board:
    """What an outcome leaves that is handed in twice is what levels have that were handed nothing."""
    board = Board()
    board.set_level(17, 2, A, DEAD_DATA)
    second = board.draw()[1]
    assert board.kept[second].level == 2
    board.hand_in(board.again(second), "taken")
    board.hand_in(second, "taken")
    for _ in range(18, 25):
        board.close(meta(18))
    return board


def handed_in_late() -> Board:
    """A merge whose commit has passed comes back."""
    board = Board()
    board.set_level(4, 1, A, B)
    board.draw()
    board.close(meta(18))
    board.close(meta(18))
    board.hand_in(0, "stale 1 4 6")
    board.close(meta(18))
    return board


def other_inputs() -> Board:
    """The records of the files differ in their lengths, in the last byte of the first mark after META, or in the first byte of the
    account."""
    board = Board()
    for older, at in [(DEAD_DATA, 19), (B, 32), (meta(18), 16), (b"", 0)]:
        board.set_level(5, 1, A_AND_B, B)
        board.make(1, 4, older, B, merged(1, older, B))
        board.hand_in(0, f"older 1 {at} ")
        board.close(meta(18))
    for older, newer, word, at in [
        (A, B, "older", len(A)), (A_AND_B, A, "newer", 32), (A_AND_B, meta(18), "newer", 16), (A_AND_B, B_AND_C, "newer", len(B)),
    ]:
        board.set_level(19, 2, older, newer)
        board.draw()
        board.set_level(19, 2, A_AND_B, B)
        board.hand_in(1, f"{word} 2 {at} ")
        board.close(meta(18))
        while board.kept:
            board.hand_in(0)
    return board


def ready_outcome() -> Board:
    """A close has the hash that it has without the outcome which it commits."""
    board = Board()
    board.set_level(5, 1, A, DEAD_DATA)
    board.draw()
    board.hand_in(0, "taken")
    board.close(meta(18))
    return board


# ---- levels from nothing

# SHA-256 of eleven times f5a5fd42d16a20302798ef6ed309979b43003d2320d9f0e8ea9831a92759fb4b, itself that of 64 zero bytes
EMPTY_LEVELS = "fe05118472ded163eec364dac2e960ba8ac910689c88cead24b394962b13a1e6"


def made_and_removed() -> Board:
    """A key that is made and removed is in no file once both were merged. The file that it is made in has 92 bytes, that in which it is
    gone 72, and META alone has 16. Levels that are made anew go on alike."""
    board = Board()
    board.set([b""] * 22, 2)
    assert board.levels.hash().hex() == EMPTY_LEVELS
    lengths = {6: (16, 72, 92, 0), 8: (16, 16, 72, 92)}
    for seq in range(3, 25):
        board.close({3: INIT_V, 5: DEAD_DATA}.get(seq, meta(18)))
        if seq in (6, 8, 23, 24):
            board.lengths(*lengths.get(seq, ()))
            assert seq < 23 or (max(map(len, board.levels.files())) > 16) == (seq == 23)
        if seq == 15:
            board.restart()
    return board


def boards() -> List[Board]:
    made = [merges, drawn_once, taken_twice, handed_in_late, other_inputs, ready_outcome, made_and_removed]
    return [it() for it in made] + [scheduled(name) for name in COUNTED]
