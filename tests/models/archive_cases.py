"""Cases of `history`, `changes` and `verify`, which `run_cases.py` writes. `archive_model.py` works out what is written;
how each ends, and what is told apart of a file, is said by hand here.
"""

import archive_model as archive
import sample
import set_cases as sets
from archive_model import changes, cut_history, history, history_text, verify
from case_tools import A, A_WITH_D, B, C, CASES, D, LUMEN, NETWORK, NO_FILES, Account, Story, entry, image, image_bytes, sent, upgrade
from entry_model import marked, sha, u32
from sample_cases import records_of

NOTHING = sets.NOTHING
HEADER_LEN, MARK_LEN = 364, 4


def arch_case(name, words, data, yielded, status, line=""):
    """A case of a command without a store, with its status and its line on standard error, or of `verify` on the output, by hand."""
    out, err, answered = yielded
    told = out if words == ["verify"] and status in (0, 3) else err
    assert (answered, told) == (status, f"{line}\n" if line else ""), (name, answered, told[:200])
    CASES.append((name, words, data, yielded, NO_FILES, NO_FILES))


def both(name, data, status=0, line=""):
    """What `history` and `changes` write of an input."""
    data = data.data if isinstance(data, Story) else data
    arch_case(f"history: {name}", ["history", "--network", NETWORK], data, history(NETWORK, data), status, line)
    arch_case(f"changes: {name}", ["changes", f"--network={NETWORK}"], data, changes(NETWORK, data), status, line)


def verified(name, data, status, line):
    arch_case(f"verify: {name}", ["verify"], data, verify(data), status, line)


def five():
    """Five ledgers, of which the second and the fourth are without transactions."""
    story = Story(image([A, B, C])).close(sent("a", 1, sets.payment("b", 5)), sent("b", 1, NOTHING))
    story.close().close(sent("c", 1, sets.manage_data(b"k", b"v"))).close(upgrades=[upgrade(2, 200)])
    return story.close(sent("a", 2, sets.payment("c", LUMEN), fee=200))


def written():
    """Inputs that are read to their end."""
    both("no records", image([A]))
    both("an empty ledger and no records", image())
    both("five ledgers", five())
    both("a set without transactions", Story(image([A])).close())
    made = [sets.manage_data(b"name", b"value"), sets.manage_data(b"name", None)]
    story = Story(image([A])).close(sent("a", 1, *made, fee=200))
    assert b"name" not in changes(NETWORK, story.data)[0]
    both("data that is made and removed in one ledger", story)
    again = [sets.manage_data(b"name", None), sets.manage_data(b"name", b"value")]
    story = Story(image([A_WITH_D, D])).close(sent("a", 1, *again, fee=200))
    assert b"name" not in changes(NETWORK, story.data)[0]
    both("data that is removed and put back", story)
    story = Story(image([A, B])).close(sent("a", 1, sets.account_merge("b")))
    assert changes(NETWORK, story.data)[0][4:8] == u32(2)
    both("an account that goes", story)
    both("the last ledger", Story(image([A], seq=2147483646)).close())
    vouched = Story(image([A])).close(sent("a", 1, NOTHING), vouches=[])
    both("a record of form 2", vouched)
    plain = Story(image([A])).close(sent("a", 1, NOTHING))
    assert history(NETWORK, vouched.data) == history(NETWORK, plain.data)


def ended():
    """Inputs that end otherwise: nothing is on the output then."""
    both("no bytes", b"", 9, "bad input at 0")
    both("an image that is cut", image([A])[:-1], 9, f"bad input at {len(image([A])) - 1}")
    both("a broken rule", image([A], coins=1), 10, "bad image rule 13")
    story = Story(image([A])).close()
    size = len(story.data)
    both("a mark that is cut after a close", story.data + b"\x80", 9, f"bad input at {size + 1}")
    both("a record that is cut", story.data + u32(0x80000004) + b"ab", 9, f"bad input at {size + 6}")
    both("a record that is refused after a close", Story(image([A])).close().refused(seq=9), 3, "refused 7 WrongSeq 7 9")
    both("a refused record before a mark that is cut", Story(image([A])).refused(seq=9).data + b"\x80", 3, "refused 6 WrongSeq 6 9")


def line_of(story):
    """What `verify` says of a story that closed."""
    seq = story.ledger.header["seq"]
    return f"verified {seq - 5} {story.ledger.hash.hex()}"


def chains():
    """Histories that form a chain."""
    story = five()
    good = history(NETWORK, story.data)[0]
    verified("five ledgers", good, 0, line_of(story))
    before, first, files = cut_history(good)
    start = Story(image([A, B, C])).ledger.hash
    assert (before, first) == (start, 6)
    verified("no headers", history_text(archive.MAGIC + before + u32(6), b"", b"", b""), 0, f"verified 0 {before.hex()}")
    verified("no headers from number 0", history_text(archive.MAGIC + before + u32(0), b"", b"", b""), 0, f"verified 0 {before.hex()}")
    # the second ledger is without transactions: its record may be there, in either file
    empty = marked(u32(7) + cut_history(good)[2][0][HEADER_LEN + 4 + 32 + 4:][:32] + u32(0) + u32(0))
    sets_of, results_of = rows(files[1]), rows(files[2])
    for name, where in (("the set", (1,)), ("the results", (2,)), ("both", (1, 2))):
        parts = list(files)
        if 1 in where:
            parts[1] = b"".join([sets_of[0], empty, *sets_of[1:]])
        if 2 in where:
            parts[2] = b"".join([results_of[0], marked(u32(7) + u32(0) + u32(0)), *results_of[1:]])
        verified(f"a record of an empty set in {name}", history_text(good[:40], *parts), 0, line_of(story))
    records, _ = records_of(1, 64)
    start = image_bytes(sample.first_header(1), [sample.first_file(1)] + 21 * [b""])
    written = history("sample", start + b"".join(map(marked, records)))[0]
    # row of the samples
    ledgers = cut_history(written)[2][0]
    last = sha(rows(ledgers)[-1][MARK_LEN + 32:-4])
    verified("64 ledgers of a sample", written, 0, f"verified 64 {last.hex()}")


def rows(file):
    """The records of a file, each with its mark."""
    found = []
    while file:
        size = 4 + int.from_bytes(file[:4], "big") - 0x80000000
        found.append(file[:size])
        file = file[size:]
    return found


def changed(data, at, by=1):
    return data[:at] + bytes([data[at] ^ by]) + data[at + 1:]


def broken():
    """Histories that form none, and what is wrong with them first."""
    story = five()
    good = history(NETWORK, story.data)[0]
    head, (_, _, files) = good[:40], cut_history(good)
    headers, sets_of, results_of = map(rows, files)
    text = lambda *parts: history_text(head, *(b"".join(part) for part in parts))  # noqa: E731
    assert text(headers, sets_of, results_of) == good
    second = len(headers[0])
    verified("a byte of the second hash", text([headers[0], changed(headers[1], 4), *headers[2:]], sets_of, results_of), 3, f"refused HeaderHash {second}")
    verified("a byte of the second header's previous hash",
             text([headers[0], relinked(headers[1], 4 + 32 + 4), *headers[2:]], sets_of, results_of), 3, f"refused Link {second}")
    verified("a byte of the hash before", changed(good, 4), 3, "refused Link 0")
    verified("a byte of the first number", changed(good, 39), 3, f"refused Seq 0 {6 ^ 1} 6")
    verified("the second header is missing", text([headers[0], *headers[2:]], sets_of, results_of), 3, f"refused Seq {second} 7 8")
    verified("a byte of a set", text(headers, [changed(sets_of[0], 20), *sets_of[1:]], results_of), 3, "refused SetHash 0")
    verified("a set is missing", text(headers, sets_of[1:], results_of), 3, "refused SetHash 0")
    fee = 4 + 4 + 4 + 32 + 7
    verified("a byte of a result", text(headers, sets_of, [changed(results_of[0], fee), *results_of[1:]]), 3, "refused ResultHash 0")
    verified("results are missing", text(headers, sets_of, results_of[1:]), 3, "refused ResultHash 0")
    verified("a set of no header", text(headers[:-1], sets_of, results_of), 3, f"refused Stray 1 {len(b''.join(sets_of[:2]))}")
    verified("results of no header", text(headers[:-1], sets_of[:-1], results_of), 3, f"refused Stray 2 {len(b''.join(results_of[:2]))}")
    verified("a set twice", text(headers, [sets_of[0], *sets_of], results_of), 3, f"refused Stray 1 {len(sets_of[0])}")
    verified("a header that is cut", text([*headers[:-1], headers[-1][:-1]], sets_of, results_of), 3,
             f"refused Xdr 0 {len(files[0]) - 1} Short")
    verified("a clear mark of a set", text(headers, [changed(sets_of[0], 0, 0x80), *sets_of[1:]], results_of), 3, "refused Xdr 1 0 BadMark")
    verified("results with a byte after them", text(headers, sets_of, [longer(results_of[0]), *results_of[1:]]), 3,
             f"refused Xdr 2 {len(results_of[0])} Trailing")


def relinked(record, at):
    """A header with another previous hash, and its own hash after that."""
    header = changed(record, at)[4 + 32:-4]
    return marked(sha(header) + header + u32(0))


def longer(record):
    """A record with a byte behind its value."""
    return marked(record[4:] + b"\0")


def no_form():
    """What is no history at all."""
    good = history(NETWORK, five().data)[0]
    size = len(good)
    for name, data, at in [
        ("no bytes", b"", 0), ("half a magic", b"SL", 2), ("another magic", b"SLH2" + good[4:], 0), ("a cut hash", good[:20], 20), ("a cut number", good[:38], 38),
        ("a cut length", good[:47], 47), ("a file that is cut", good[:-1], size - 1), ("a byte after it", good + b"\0", size),
        ("a file that is too long", good[:40] + (archive.MOST_FILE + 1).to_bytes(8, "big"), 40),
        ("the longest file, of which nothing is there", good[:40] + archive.MOST_FILE.to_bytes(8, "big"), 48),
    ]:
        arch_case(f"verify: {name}", ["verify"], data, verify(data), 9, f"bad input at {at}")


def words():
    """Words that are none of the commands."""
    for name, listed in [
        ("history alone", ["history"]), ("changes alone", ["changes"]), ("history of no network", ["history", "--network="]),
        ("changes of two networks", ["changes", "--network", "a", "--network", "b"]), ("verify of a network", ["verify", "--network", "a"]),
        ("history with a word more", ["history", "--network", "a", "b"]), ("verify with a word more", ["verify", "x"]),
    ]:
        CASES.append((f"words: {name}", listed, b"", ("", "usage\n", 2), NO_FILES, NO_FILES))


PARTS = [written, ended, chains, broken, no_form, words]
