"""Cases of protocol 19 beside those of sets (`precondition_cases.py`), which `run_cases.py` writes: the upgrade from
18, accounts and stores that go on after it, images of both versions, and records with what protocol 19 brought. Each
says by hand how it ends, and what is left where that isn't printed.
"""

from ledger_model import INIT, i32, marked, u32
import set_cases as sets
import store_cases as stores
from case_tools import (
    A, LUMEN, Account, B, Story, bucket, case, entry, image, key, sent, sponsored, upgrade, with_counts,
    with_liabilities,
)
from entry_model import META, second, third
from precondition_cases import asking
from set_cases import NOTHING, bumped, ran, signed_payload

TO_19, FEE, SIZE, FLAGS = upgrade(1, 19), upgrade(2, 200), upgrade(3, 50), upgrade(5, 7)
# a meta of each version, as a bucket's file begins
METAS = {version: marked(i32(META) + u32(version) + u32(0)) for version in (18, 19)}


def said(story, name):
    """The ledger and the time that an account says of its sequence number, or None where it says nothing."""
    account = story.account(name)
    return tuple(third(account)[field] for field in ("ledger", "time")) if second(account)["ext"][0] else None


def version_of(story):
    """The versions of the last header and of the first bucket."""
    first = story.ledger.levels.curr[0]
    assert first.file.startswith(METAS[first.version])
    return story.ledger.header["version"], first.version


# ---- the upgrade


def upgrades():
    """VERSION alone and among others, from each version."""
    legal, later = image([A, B]), image([A, B], version=19)
    story = Story(legal).close(upgrades=[TO_19])
    assert version_of(story) == (19, 19)
    # what the set asks for is judged by the version before it, and the next set by the version after it
    asked = asking(least=0)
    story = Story(legal).close(sent("a", 20, NOTHING, asked=asked), sent("b", 1, NOTHING), upgrades=[TO_19],
                               expected=[sets.NOT_SUPPORTED, sets.ok(sets.BUMPED)])
    assert (said(story, "a"), said(story, "b"), version_of(story)) == (None, None, (19, 19))
    story.close(sent("a", 20, NOTHING, asked=asked), expected=[sets.ok(sets.BUMPED)])
    assert (story.account("a")["seq"], said(story, "a"), said(story, "b")) == (20, (7, 1010), None)
    case("an upgrade after the first set, and one set more", story, "end 7", 2)
    case("an upgrade alone", Story(legal).close(upgrades=[TO_19]).close(), "end 7", 2)
    story = Story(legal).close(upgrades=[TO_19, FEE, SIZE, upgrade(4, 4_999_999), FLAGS])
    header = story.ledger.header
    assert [header[name] for name in ("version", "base_fee", "most", "reserve")] == [19, 200, 50, 4_999_999]
    assert header["ext"] == (1, {"flags": 7, "ext": (0, None)})
    # the fee of the set after it is that of the upgrade
    story.close(sent("a", 1, NOTHING, fee=199), sent("b", 1, NOTHING, fee=200),
                expected=[sets.INSUFFICIENT_FEE, sets.ok(sets.BUMPED)])
    assert (said(story, "a"), said(story, "b")) == (None, (7, 1010))
    case("an upgrade with all others", story, "end 7", 2)
    story = Story(later).close(upgrades=[FEE, SIZE, upgrade(4, 5_000_000), FLAGS])
    assert version_of(story) == (19, 19)
    case("all other upgrades after it", story.close(sent("a", 1, NOTHING, fee=200)), "end 7", 2)
    case("an empty set after it", Story(later).close(), "end 6", 1)
    for name, start, asked, end in [
        ("after the fee", legal, [FEE, TO_19], "BadUpgrade 1"), ("twice", legal, [TO_19, TO_19], "BadUpgrade 1"),
        ("after the fee, from 19", later, [FEE, TO_19], "BadUpgrade 1"),
        ("twice, from 19", later, [TO_19, TO_19], "BadUpgrade 1"),
        ("before the fee, from 19", later, [TO_19, FEE], "UpgradeOutOfProfile 0"),
        ("from 19", later, [TO_19], "UpgradeOutOfProfile 0"),
        ("before a greater reserve", legal, [TO_19, upgrade(4, 5_000_001)], "UpgradeOutOfProfile 1"),
        ("before flags 8", legal, [TO_19, upgrade(5, 8)], "BadUpgrade 1"),
        ("four bytes after it", legal, [TO_19 + bytes(4)], "BadUpgrade 0"),
    ]:
        case(f"an upgrade {name}", Story(start).refused(upgrades=asked), f"refused 6 {end}")
    case("an upgrade and once more", Story(legal).close(upgrades=[TO_19]).refused(upgrades=[TO_19]),
         "refused 7 UpgradeOutOfProfile 0", 1)
    for version in (0, 17, 18, 20, 2**32 - 1):
        for name, start in [("18", legal), ("19", later)]:
            story = Story(start).refused(upgrades=[upgrade(1, version)])
            case(f"an upgrade from {name} to {version}", story, "refused 6 UpgradeOutOfProfile 0")
    case("an upgrade to 20, and a greater reserve",
         Story(legal).refused(upgrades=[upgrade(1, 20), upgrade(4, 5_000_001)]), "refused 6 UpgradeOutOfProfile 0")


def levels():
    """The versions of buckets: the fresh one has that after the upgrade, and a merge the greater one of its two."""
    story = Story(image([A, B], {0: bucket((INIT, A)), 2: bucket((INIT, B))}, seq=4))
    story.close().close(sent("a", 1, NOTHING), upgrades=[TO_19])
    curr, snap = story.ledger.levels.curr, story.ledger.levels.snap
    assert [curr[0].version, snap[0].version, curr[1].version] == [19, 18, 18]
    for _ in range(4):
        story.close()
    assert [curr[0].version, snap[0].version, curr[1].version] == [19, 19, 19]
    case("an upgrade whose version goes down the levels", story, "end 10", 6)
    # a bucket of version 19 before the upgrade, and one of 18 after it
    pay = sent("a", 1, NOTHING)
    early = Story(image([A, B], {0: bucket((INIT, A), version=19), 1: bucket((INIT, B))}, seq=4)).close(pay)
    case("buckets of version 19 before it", early.close(upgrades=[TO_19]).close(), "end 7", 3)
    files = {0: bucket((INIT, A)), 1: bucket((INIT, B), version=17)}
    late = Story(image([A, B], files, seq=4, version=19)).close(pay)
    case("buckets of versions 17 and 18 after it", late.close().close(), "end 7", 3)


# ---- accounts that go on


def going_on():
    """Accounts of protocol 18 under 19: each says something of its sequence number once that is set."""
    plain, bound = A, with_liabilities(B)
    counted = with_counts(entry(Account("c", 100 * LUMEN)), sponsored=1, sponsors="d")
    payer = with_counts(entry(Account("d", 100 * LUMEN)), sponsoring=1)
    start = image([plain, bound, counted, payer])
    story = Story(start).close(sent("c", 1, NOTHING), upgrades=[TO_19])
    assert said(story, "c") is None
    # each age and gap counts from 0: ledger 7 closes at 1010
    story.close(
        sent("a", 1, NOTHING, asked=asking(gap=7)), sent("b", 1, NOTHING, asked=asking(gap=8)),
        sent("c", 2, NOTHING, asked=asking(age=1_010)),
        sent("d", 1, NOTHING, asked=asking(age=1_011)),
        expected=[sets.ok(sets.BUMPED), sets.BAD_MIN_SEQ_AGE_OR_GAP, sets.ok(sets.BUMPED), sets.BAD_MIN_SEQ_AGE_OR_GAP],
    )
    assert [said(story, name) for name in "abcd"] == [(7, 1010)] * 4
    # extensions that were there keep what they say
    assert [story.counts(name)[1:] for name in "abcd"] == [(0, 0), (0, 0), (1, 0), (0, 1)]
    assert [second(story.account(name))["sponsors"] for name in "ac"] == [[None], [(0, key("d"))]]
    # from now on from that ledger and time: ledger 8 closes at 1015
    story.close(
        sent("a", 2, NOTHING, asked=asking(gap=1)), sent("b", 2, NOTHING, asked=asking(gap=2)),
        sent("c", 3, NOTHING, asked=asking(age=5)),
        sent("d", 2, NOTHING, asked=asking(age=6)),
        expected=[sets.ok(sets.BUMPED), sets.BAD_MIN_SEQ_AGE_OR_GAP, sets.ok(sets.BUMPED), sets.BAD_MIN_SEQ_AGE_OR_GAP],
    )
    case("accounts that go on after the upgrade", story, "end 8", 3)
    # a fee that is paid and a payment that comes say nothing, and a payer of a fee bump uses no number
    story = Story(start).close(upgrades=[TO_19])
    story.close(sent("a", 1, sets.payment("b", 5)), bumped("c", 200, sent("d", 1, NOTHING)))
    assert [said(story, name) for name in "abcd"] == [(7, 1010), None, None, (7, 1010)]
    case("accounts that say nothing yet after the upgrade", story, "end 7", 2)
    signer_changes()


def signer_changes():
    """Signers come and go beside what an account says of its sequence number, with sponsors and without."""
    payload, other = signed_payload("k", b"x"), signed_payload("k", b"\0\0")
    begin, end = (sets.begin_sponsoring("a", source="b"), ran(16, 0)), (sets.end_sponsoring(), ran(17, 0))

    def sets_signer(signer, number=0):
        return sets.set_options(signer=signer), ran(5, number)

    story = Story(image([A, B])).run("a", sets_signer(payload, -8)).close(upgrades=[TO_19])
    story.run("a", begin, sets_signer(payload), end, sets_signer(other), signers="ab")
    account = story.account("a")
    assert [signer["key"][1]["payload"] for signer in account["signers"][1:]] == [b"\0\0", b"x"]
    assert second(account)["sponsors"] == [None, None, (0, key("b"))] and said(story, "a") == (8, 1015)
    assert story.counts("a") == (3, 1, 0) and story.counts("b") == (1, 0, 1) and said(story, "b") is None
    # its sponsor takes it off, and it is removed
    revoked = sets.operation(18, u32(1) + u32(0) + key("a") + sets.encoded_key(payload))
    story.run("b", (revoked, ran(18, 0)))
    assert story.counts("a") == (3, 0, 0) and said(story, "b") == (9, 1020)
    story.run("a", sets_signer(payload[:2] + (0,)))
    assert story.counts("a") == (2, 0, 0) and said(story, "a") == (10, 1025)
    case("signed payloads of an account, with a sponsor and without", story, "end 10", 5)
    # the twentieth signer may be one, and the next may not
    rows = [signed_payload("k", bytes([number])) for number in range(21)]
    story = Story(image([A], version=19))
    story.run("a", *(sets_signer(row) for row in rows[:19]), sets_signer(rows[19], -2))
    story.run("a", *(sets_signer(row) for row in rows[:19])).run("a", sets_signer(rows[20], -2))
    case("twenty signers, of whom nineteen are payloads", story, "end 8", 3)


# ---- images


def images():
    """Images of each version: rule 2, and rule 7 by the version."""
    pay = sent("a", 1, NOTHING)
    for version, end in [(0, 2), (17, 2), (20, 2), (2**32 - 1, 2)]:
        case(f"an image of version {version}", image([A], version=version), f"10 bad image rule {end}")
    for version in (18, 19):
        case(f"an image of version {version}", Story(image([A], version=version)).close(pay), "end 6", 1)
    # its header is of ledger 5, which closed at 1000
    for name, dated, is_legal in [
        ("ledger 5 at 1000", (5, 1000), True), ("ledger 6", (6, 1000), False),
        ("ledger 5 at 1001", (5, 1001), False), ("ledger 0 at 0", (0, 0), True),
        ("the greatest ledger", (2**32 - 1, 0), False), ("the greatest time", (0, 2**64 - 1), False),
    ]:
        value = with_counts(A, third=dated)
        case(f"an account whose number is of {name}, before it", image([value]), "10 bad image rule 7")
        later = image([value], version=19)
        ended = (Story(later).close(pay), "end 6", 1) if is_legal else (later, "10 bad image rule 7")
        case(f"an account whose number is of {name}", *ended)
    own = {"key": (2, key("a")), "weight": 1}

    def payloads(*rows):
        return entry(Account("a", 0), subs=len(rows),
                     signers=[{"key": (3, {"key": key(name), "payload": text}), "weight": 1} for name, text in rows])

    for name, rows, is_legal in [
        ("a payload of one byte", [("b", b"x")], True), ("a payload of 64 bytes", [("b", b"y" * 64)], True),
        ("an empty payload", [("b", b"")], False),
        ("an empty payload and another", [("b", b""), ("b", b"x")], False),
        ("a payload of its own key", [("a", b"x")], True),
        ("payloads in the order of their bytes", [("b", b"\0\0"), ("b", b"\1")], True),
        ("payloads in the order of their lengths", [("b", b"\1"), ("b", b"\0\0")], False),
        ("a payload and it with a zero", [("b", b"x"), ("b", b"x\0")], True),
        ("a payload with a zero and without", [("b", b"x\0"), ("b", b"x")], False),
        ("a payload twice", [("b", b"x"), ("b", b"x")], False),
        ("payloads in the order of their keys", [("b", b"z"), ("c", b"x")], True),
        ("payloads out of the order of their keys", [("c", b"x"), ("b", b"z")], False),
    ]:
        value = payloads(*rows)
        case(f"an account with {name}, before it", image([value]), "10 bad image rule 7")
        case(f"an account with {name}", image([value], version=19),
             *(("end 5", 0) if is_legal else ("10 bad image rule 7",)))
    behind = payloads(("b", b"x"))
    signers = behind["body"][1]["signers"]
    first, last = (entry(Account("a", 0), subs=2, signers=rows) for rows in ([own, *signers], [*signers, own]))
    case("an account with a payload behind a hash", image([first], version=19), "end 5", 0)
    case("an account with a payload before a hash", image([last], version=19), "10 bad image rule 7")
    # what an older bucket has, which is changed by a newer one, is not judged
    old = with_counts(A, third=(6, 1001))
    case("an account whose number was of ledger 6 in an older bucket",
         image([A], {0: bucket((0, A)), 2: bucket((INIT, old))}), "end 5", 0)
    # rule 2 comes before rule 3, and rule 7 before rule 8
    case("version 20 and no base fee", image([A], version=20, base_fee=0), "10 bad image rule 2")
    case("version 19 and no base fee", image([A], version=19, base_fee=0), "10 bad image rule 3")
    case("an account whose number is of ledger 6, and whose sponsor isn't there",
         image([sponsored(with_counts(A, third=(6, 0)), "z")], version=19), "10 bad image rule 7")
    case("an account that says of its number, and whose sponsor isn't there",
         image([sponsored(with_counts(A, third=(5, 0)), "z")], version=19), "10 bad image rule 8")


# ---- records


def records():
    """Preconditions of the second form that don't read. They begin at 92 of the record."""
    legal = image([A, B], version=19)

    def bad(name, at, data, end, envelope):
        story = Story(legal)
        record = story.record(envelope)
        case(f"a record: {name}", story.add(record[:at] + data + record[at + len(data):]), f"refused 6 BadXdr {end}")

    bare = sent("a", 1, NOTHING, asked=asking())
    signers = [sets.encoded_key(sets.hash_x(bytes([number]))) for number in range(3)]
    loaded = sent("a", 1, NOTHING, asked=asking(signers=[sets.encoded_key(signed_payload("k", b"x"))]))
    bad("preconditions 3", 92, u32(3), "92 BadEnum", bare)
    bad("preconditions below 0", 92, i32(-1), "92 BadEnum", bare)
    bad("bounds of the time with a flag of 2", 96, u32(2), "96 BadFlag", bare)
    bad("bounds of the ledger with a flag of 2", 100, u32(2), "100 BadFlag", bare)
    bad("a least number with a flag of 2", 104, u32(2), "104 BadFlag", bare)
    bad("three extra signers", 120, u32(3), "120 TooLong", sent("a", 1, NOTHING, asked=asking(signers=signers)))
    bad("an extra signer of type 4", 124, u32(4), "124 BadEnum", loaded)
    bad("a payload of 65 bytes", 160, u32(65), "160 TooLong", loaded)
    bad("a payload that isn't filled up with zeros", 165, b"\1", "165 Padding", loaded)
    everything = asking((1, 2**64 - 1), (1, 2**32 - 1), 0, 5, 5,
                        [sets.encoded_key(signed_payload("k", b"y" * 64)), signers[0]])
    story = Story(legal).close(sent("a", 1, NOTHING, asked=everything), expected=[sets.BAD_AUTH])
    case("a record with all preconditions", story, "end 6", 1)
    cut = Story(legal)
    record = cut.record(loaded)
    case("a record: a payload that is cut", cut.add(record[:163]), "refused 6 BadXdr 163 Short")
    # the first version has no second form
    old = sets.First(sets.Tx("a", 1, [NOTHING]), sets.by("a"))
    bad("the first version with bounds of form 2", 88, u32(2), "88 BadFlag", old)


# ---- stores


def kept_stores():
    """A store of version 18 goes on under 19: it is upgraded, opened again, shown, and rolls."""
    ask = asking(least=0, gap=0)
    story = Story(image([A, B], seq=60))
    story.close(sent("a", 1, NOTHING)).close(sent("a", 2, NOTHING), upgrades=[TO_19])
    assert said(story, "a") is None
    story.close(sent("a", 20, NOTHING, asked=ask)).close(sent("a", 30, NOTHING, asked=asking(least=20, gap=1)))
    assert said(story, "a") == (64, 1020)
    lines = stores.records_in(stores.input_of(story))
    part = lambda first, last: b"".join(map(marked, lines[first:last]))  # noqa: E731
    made = stores.makes("an image of version 18", stores.start_of(story), stores.files(), "", (0, 0))
    upgraded = stores.runs("an upgrade", part(0, 2), made, "end 62", (0, 2), 2)
    again = stores.runs("a store after an upgrade in its journal", b"", upgraded, "end 62", closes=0)
    stores.shows("a store after an upgrade in its journal", again, ["0 records 2", f"{200 * LUMEN} 200", "2"])
    rolled = stores.runs("a store after an upgrade, up to ledger 63", part(2, 3), again, "end 63", (1, 0), 1)
    stores.shows("an image of version 19", rolled, ["1 records 0", f"{200 * LUMEN} 300", "2"])
    stores.runs("an image of version 19 that the store made", part(3, 4), rolled, "end 64", (1, 1), 1)
    stores.runs("an upgrade and all that follows it", part(0, 4), made, "end 64", (1, 1), 4)
    # one of format 1 goes on to the next epoch before its first record, and to another one after ledger 63
    former = stores.file_of_image(0, stores.ON_TEST, stores.start_of(story), form=1)
    older = stores.files(image0=former, journal0=stores.journal_file(lines[:2]))
    stores.runs("a store of format 1 after an upgrade in its journal", part(2, 4), older, "end 64", (2, 1), 2)
    stores.shows("a store of format 1 after an upgrade in its journal", older, ["0 records 2", f"{200 * LUMEN} 200", "2"])
    stores.runs("a second upgrade", input_after(upgraded, upgrades=[TO_19]), upgraded,
                "refused 63 UpgradeOutOfProfile 0", closes=0)
    later = stores.makes("an image of version 19", image([with_counts(A, third=(5, 1000))], version=19), stores.files(),
                         "", (0, 0))
    stores.runs("an image of version 19", b"", later, "end 5", closes=0)
    stores.makes("an image of version 20", image([A], version=20), stores.files(), "10 bad image rule 2")
    stores.makes("an account that says of its number, of version 18", image([with_counts(A, third=(5, 1000))]),
                 stores.files(), "10 bad image rule 7")


def input_after(volume, **changes):
    """The input of one record that follows a store, and that is to be refused."""
    ledger = stores.Store(volume).ledger
    story = Story.__new__(Story)
    story.ledger, story.data = ledger, b""
    return marked(story.record(**changes))


PARTS = [upgrades, levels, going_on, images, records, kept_stores]
