#!/usr/bin/env python3
"""Writes cases of the program's commands, with what it has to answer: of accounts and data, of assets, of stores, of
samples, and of queries; and the image and records in examples/. The cases whose names begin with `apart` came from
elsewhere (`apart_cases.py`), and stay as they are.

What is expected comes from `ledger_model.py`, `store_model.py` and `path_query_model.py`, and each case says its end by
hand as well, so that the models are held to it. Prints the name of each case. Python 3.9 or later and its standard
library.

    run_cases.py [FOLDER]      FOLDER has cases from elsewhere, a folder each: they are compared alone
"""

import os
import sys

from ledger_model import DEAD, GREATEST, HEADER, INIT, LIVE, NO_HASH, catchup, i32, marked, sha, u32, u64
import set_cases as sets
from apart_cases import read_apart
from archive_cases import PARTS as ARCHIVE_PARTS
from archive_model import changes, history, verify
from asset_cases import PARTS as ASSET_PARTS
from colliding_cases import PARTS as COLLIDING_PARTS
from offer_cases import PARTS as OFFER_PARTS
from path_bound_cases import PARTS as PATH_BOUND_PARTS
from path_cases import PARTS as PATH_PARTS
from path_query_cases import PARTS as PATH_QUERY_PARTS
from path_query_model import path
from pool_cases import PARTS as POOL_PARTS
from pool_image_cases import PARTS as POOL_IMAGE_PARTS
from protocol_19_cases import PARTS as PROTOCOL_19_PARTS
from revocation_cases import PARTS as REVOCATION_PARTS
from sample_cases import PARTS as SAMPLE_PARTS
from share_line_cases import PARTS as SHARE_LINE_PARTS
from store_cases import PARTS as STORE_PARTS
from store_cases import input_of, start_of
from table_cases import PARTS as TABLE_PARTS
from vouched_record_cases import PARTS as VOUCHED_PARTS
from store_model import init, run, show
from case_tools import (
    A_WITH_D, CASES, LUMEN, META_18, NETWORK, NO_RESULTS, A, Account, B, C, D, Data, Story, bucket, case, encoded, entry, header_of,
    image, image_bytes, items, key, offer, pool, predicate, raw, sent, slug, sponsored, upgrade, var, with_counts, with_liabilities,
    write, write_names,
)

NOTHING = sets.NOTHING

TESTS = os.path.dirname(os.path.dirname(os.path.abspath(__file__)))
TOP = os.path.dirname(TESTS)

# ---- cases of accounts and data


def forms():
    """Inputs that end too early or have a wrong magic, mark or length."""
    legal = image([A])
    zeros = bytes(8 * 22)
    case("no bytes", b"", "9 bad input at 0")
    case("three bytes of a magic", b"SLI", "9 bad input at 3")
    case("another magic", b"SLI2", "9 bad input at 0")
    case("no magic, and an end", bytes.fromhex("80000040") + bytes(6), "9 bad input at 0")
    case("a clear mark of the header", b"SLI1" + u32(4), "9 bad input at 4")
    case("a header that is too long", b"SLI1" + u32(0x81000001), "9 bad input at 4")
    case("the longest header, which is cut", b"SLI1" + u32(0x81000000), "9 bad input at 8")
    case("a header that is cut", b"SLI1" + u32(0x80000004) + bytes(3), "9 bad input at 11")
    case("a header of four bytes", b"SLI1" + u32(0x80000004) + u32(18) + zeros, "10 bad image rule 1")
    case("a file that is too long", b"SLI1" + u32(0x80000004) + u32(18) + b"\xff" * 8, "9 bad input at 12")
    case("a file that is one byte too long", b"SLI1" + u32(0x80000000) + u64(536_870_913), "9 bad input at 8")
    case("the longest file, which is cut", b"SLI1" + u32(0x80000000) + u64(536_870_912), "9 bad input at 16")
    case("files that are too long together", b"SLI1" + u32(0x80000000) + u64(1) + b"\0" + u64(536_870_912), "9 bad input at 17")
    case("an image without its last byte", legal[:-1], f"9 bad input at {len(legal) - 1}")
    case("an image alone", legal, "end 5", 0)
    case("a record that is too long", legal + u32(0x81000001), f"9 bad input at {len(legal)}")
    case("the longest record, which is cut", legal + u32(0x81000000), f"9 bad input at {len(legal) + 4}")
    case("a clear mark of a record", legal + u32(4) + bytes(4), f"9 bad input at {len(legal)}")
    case("two bytes of a mark", legal + b"\x80\0", f"9 bad input at {len(legal) + 2}")
    case("a record that is cut at its tenth byte", legal + u32(0x80000040) + bytes(6), f"9 bad input at {len(legal) + 10}")
    closed = Story(legal).close()
    length = len(closed.data)
    closed.data += b"\x80"
    case("a mark that is cut after a close", closed, f"9 bad input at {length + 1}", 1)
    case("a broken rule before a wrong mark", image([A], version=17) + u32(4), "10 bad image rule 2")


def header_rules():
    """Rules 1 to 3, each alone."""
    files = [b""] * 22
    good = HEADER.write(header_of(levels=sha(11 * sha(bytes(64)))))
    case("a byte after the header", image_bytes(good + b"\0", files), "10 bad image rule 1")
    case("a header without its end", image_bytes(good[:-4], files), "10 bad image rule 1")
    case("version 17", image([A], version=17), "10 bad image rule 2")
    case("version 19", Story(image([A], version=19)).close(sent("a", 1, NOTHING)), "end 6", 1)
    case("version 20", image([A], version=20), "10 bad image rule 2")
    flags_8, flags_7 = ((1, {"flags": flags, "ext": (0, None)}) for flags in (8, 7))
    for name, fields in [
        ("ledger 0", dict(seq=0)), ("ledger 2147483648", dict(seq=2**31)), ("no base fee", dict(base_fee=0)),
        ("no base reserve", dict(reserve=0)), ("lumens below 0", dict(coins=-1)), ("a fee pool below 0", dict(pool=-1)),
        ("more ids than there can be", dict(ids=5 * 2**32 + 1)), ("flags 8", dict(ext=flags_8)),
    ]:
        case(name, image([A], **fields), "10 bad image rule 3")
    least = image([A], seq=1, base_fee=1, reserve=1, pool=0, ids=2**32, ext=flags_7)
    case("each field at its bound", Story(least).close(sent("a", 1, NOTHING)), "end 2", 1)


def file_rules():
    """Rules 4 to 6, and an offer that no rule before the seventh refuses."""
    two = items((DEAD, D), (DEAD, D))
    for name, file in [
        ("META twice", raw(META_18, META_18)), ("a byte after META", marked(META_18 + bytes(4))), ("three bytes", b"\x80\0\0"),
        ("no META", raw(*items((DEAD, A)))), ("two equal keys", raw(META_18, *two)),
        ("falling keys", raw(META_18, *items((INIT, B), (INIT, A)))), ("a clear mark of an item", META_18),
        ("an item of another type", raw(META_18, i32(3))), ("an item that is cut", raw(META_18, *items((INIT, A)))[:-1]),
    ]:
        case(f"a file: {name}", image(files={0: file}), "10 bad image rule 4")
    case("the last file is no bucket's", image(files={0: bucket((INIT, A)), 21: b"\0"}), "10 bad image rule 4")
    for name, newer, older in [
        ("LIVE over DEAD", LIVE, DEAD), ("INIT over LIVE", INIT, LIVE), ("INIT over INIT", INIT, INIT), ("DEAD over DEAD", DEAD, DEAD),
    ]:
        case(f"marks: {name}", image([A], {0: bucket((newer, A)), 3: bucket((older, A))}), "10 bad image rule 5")
    case("marks: DEAD over DEAD, below LIVE", image([A], {0: bucket((LIVE, A)), 1: bucket((DEAD, A)), 2: bucket((DEAD, A))}),
         "10 bad image rule 5")
    case("the deepest snap is META alone", image([A], {0: bucket((INIT, A)), 21: bucket()}), "10 bad image rule 5")
    e, f = (entry(Account(name, 100 * LUMEN)) for name in "ef")
    old = [entry(Account(name, 7)) for name in "ab"]
    fits = {
        0: bucket((INIT, A), (LIVE, B), (DEAD, e), (LIVE, C)), 1: bucket((DEAD, A), (INIT, old[1]), (LIVE, e)),
        4: bucket((LIVE, old[0]), (LIVE, f)), 20: bucket((DEAD, B)),
    }
    case("marks that fit", Story(image([A, B, C, f], fits)).close(sent("a", 1, NOTHING)), "end 6", 1)
    case("another hash of the levels", image([A], levels=sha(b"other")), "10 bad image rule 6")
    case("an offer", image([A, offer("a")]), "10 bad image rule 7")
    gone = {0: bucket((LIVE, A), (DEAD, offer("a"))), 2: bucket((INIT, offer("a")))}
    case("an offer that is gone", Story(image([A], gone)).close(), "end 6", 1)


def entry_rules():
    """Rules 7 to 13, each alone."""
    rising = sorted([sets.hash_x(b"one"), sets.hash_x(b"two")], key=lambda signer: signer[1])
    signers = [{"key": (arm, digest), "weight": weight} for arm, digest, weight in rising]
    own = {"key": (0, key("a")), "weight": 1}
    payloads = [[{"key": (3, {"key": key("b"), "payload": payload}), "weight": 1}] for payload in (b"x", b"y" * 64, b"")]
    for name, value in [
        ("a balance below 0", entry(Account("a", -1))), ("a sequence number below 0", entry(Account("a", 0, seq=-1))),
        ("flag 16", entry(Account("a", 0, flags=16))), ("clawback alone", entry(Account("a", 0, flags=8))),
        ("falling signers", entry(Account("a", 0), signers=signers[::-1], subs=2)),
        ("a signer twice", entry(Account("a", 0), signers=[signers[0]] * 2, subs=2)),
        ("a weight of 0", entry(Account("a", 0, signers=[sets.hash_x(b"one", 0)]))),
        ("a weight of 256", entry(Account("a", 0, signers=[sets.hash_x(b"one", 256)]))),
        ("the own key as a signer", entry(Account("a", 0), signers=[own])),
        ("a domain with a control character", entry(Account("a", 0, domain=b"\x1f"))),
        ("a domain with a byte above 126", entry(Account("a", 0, domain=b"\x7f"))),
        ("liabilities below 0", with_liabilities(A, buying=-1)),
        ("more bought than fits", with_liabilities(entry(Account("a", GREATEST)), buying=1)),
        ("too few sponsors of signers", with_counts(A, sponsors=[])), ("an account that pays for itself", sponsored(A, "a")),
        ("a signer that its account pays for", with_counts(A, sponsors="a")),
        # before protocol 19 no signer is a signed payload, and no account says when its sequence number was set
        ("a signed payload as a signer", entry(Account("a", 0), signers=payloads[0], subs=1)),
        ("a payload of 64 bytes", entry(Account("a", 0), signers=payloads[1], subs=1)),
        ("an empty payload", entry(Account("a", 0), signers=payloads[2], subs=1)),
        ("the ledger and the time of its sequence number", with_counts(A, third=(5, 1))),
        ("no ledger and no time of its sequence number", with_counts(A, third=(0, 0))),
    ]:
        case(f"an account: {name}", image([value]), "10 bad image rule 7")
    case("data without a name", image([A_WITH_D, entry(Data("a", b"", b""))]), "10 bad image rule 7")
    case("data with an unprintable name", image([A_WITH_D, entry(Data("a", b"\n", b""))]), "10 bad image rule 7")
    case("data that its owner pays for", image([A_WITH_D, sponsored(D, "a")]), "10 bad image rule 7")
    case("data of nobody", image([B, D]), "10 bad image rule 8")
    case("an account whose sponsor isn't there", image([sponsored(A, "b")]), "10 bad image rule 8")
    case("data whose sponsor isn't there", image([A_WITH_D, sponsored(D, "b")]), "10 bad image rule 8")
    case("a signer whose sponsor isn't there", image([with_counts(A, sponsored=1, sponsors="b")]), "10 bad image rule 8")
    case("liabilities of selling", image([with_liabilities(A, selling=1)]), "10 bad image rule 9")
    case("liabilities of buying", image([with_liabilities(A, buying=1)]), "10 bad image rule 9")
    case("a subentry too many", image([A_WITH_D]), "10 bad image rule 10")
    case("a subentry too few", image([A, D]), "10 bad image rule 10")
    payer = [with_counts(B, sponsoring=4), sponsored(D, "b")]
    payee = with_counts(A_WITH_D, sponsored=4, sponsors="b")
    fits = [sponsored(payee, "b"), *payer]
    case("an account, its data and its signer with a sponsor", Story(image(fits)).close(sent("a", 1, NOTHING)), "end 6", 1)
    for name, entries in [
        ("a sponsored reserve too many", [sponsored(with_counts(payee, sponsored=5, sponsors="b"), "b"), *payer]),
        ("a sponsored reserve too few", [sponsored(with_counts(payee, sponsored=3, sponsors="b"), "b"), *payer]),
        ("a paid reserve too many", [sponsored(payee, "b"), with_counts(B, sponsoring=5), payer[1]]),
        ("a paid reserve too few", [sponsored(payee, "b"), with_counts(B, sponsoring=3), payer[1]]),
    ]:
        case(name, image(entries), "10 bad image rule 11")
    case("a lumen too many", image([A], coins=100 * LUMEN - 1), "10 bad image rule 13")
    case("a lumen too few", image([A], coins=100 * LUMEN + 1), "10 bad image rule 13")
    case("a fee pool that isn't counted", image([A], pool=1, coins=100 * LUMEN), "10 bad image rule 13")
    case("a fee pool that is", image([A], pool=1), "end 5", 0)
    # a hash-x signer may have the bytes of the account's key, and each weight up to 255 is one
    odd = [{"key": (1, key("a")), "weight": 255}, {"key": (2, key("a")), "weight": 1}]
    case("signers of the account's bytes", image([entry(Account("a", 0, flags=15), signers=odd, subs=2)]), "end 5", 0)


def rules_at_once():
    """Two rules that are broken at once: the lower number is reported."""
    wrong = entry(Account("a", 0, flags=16))
    over = {0: bucket((LIVE, A)), 3: bucket((DEAD, A))}
    counted = with_counts(A_WITH_D, sponsored=1)
    for name, data, rule in [
        ("2 and 3", image([A], version=17, base_fee=0), 2), ("3 and 4", image(files={0: b"\0"}, base_fee=0), 3),
        ("4 and 5", image([A], {**over, 21: b"\0"}), 4), ("5 and 6", image([A], over, levels=NO_HASH), 5),
        ("6 and 7", image([wrong], levels=NO_HASH), 6), ("7 and 8", image([wrong, entry(Data("b", b"x", b""))]), 7),
        ("8 and 9", image([with_liabilities(A, selling=1), entry(Data("b", b"x", b""))]), 8),
        ("9 and 10", image([with_liabilities(A_WITH_D, selling=1)]), 9), ("10 and 11", image([counted]), 10),
        ("11 and 13", image([with_counts(A, sponsored=1)], coins=1), 11),
    ]:
        case(f"rules {name}", data, f"10 bad image rule {rule}")
    case("rule 6 and an offer", image([A, offer("a")], levels=NO_HASH), "10 bad image rule 6")
    case("rule 7 and a pool", image([wrong, pool(sha(b"an id"))]), "10 bad image rule 7")


def bad_records():
    """Records that don't read."""
    legal = image([A, B])

    def bad(name, change, end):
        story = Story(legal)
        story.add(change(story))
        case(f"a record: {name}", story, f"refused 6 {end}")

    case("a record of one byte", legal + u32(0x80000001) + b"\0", "refused 6 BadXdr 1 Short")
    case("a record of no byte", legal + u32(0x80000000), "refused 6 BadXdr 0 Short")
    # without envelopes: the number, the ledger before, their count at 36, the hash of the set, the time, the upgrades' count at 80, the
    # extension at 84
    bad("a byte short", lambda story: story.record()[:-1], "BadXdr 87 Short")
    bad("four bytes after it", lambda story: story.record() + bytes(4), "BadXdr 88 Trailing")
    bad("an extension 2", lambda story: story.record()[:-4] + u32(2), "BadXdr 84 BadEnum")
    bad("seven upgrades", lambda story: story.record(upgrades=[b""] * 7), "BadXdr 80 TooLong")
    # with one: its type at 40, the source, the fee, the number, the preconditions at 92, the memo at 96, and where it is empty the
    # count of operations at 100

    def with_bytes(at, data, envelope):
        return lambda story: (lambda it: it[:at] + data + it[at + len(data):])(story.record(envelope))

    plain, noted = sent("a", 1, NOTHING), sent("a", 1, NOTHING, memo=u32(1) + var(b"x"))
    bad("an envelope of type 1", with_bytes(40, u32(1), plain), "BadXdr 40 BadEnum")
    bad("preconditions 3", with_bytes(92, u32(3), plain), "BadXdr 92 BadEnum")
    # the first version has no type of its source: there the low half of the number is the flag
    bad("a flag of 2", with_bytes(40, u32(0), sent("a", 2, NOTHING)), "BadXdr 88 BadFlag")
    bad("a memo that isn't filled up with zeros", with_bytes(105, b"\1", noted), "BadXdr 105 Padding")
    # a count far above what follows takes no more room than what follows asks for: the bytes run out at once, and not the memory
    bad("a count of 4294967295 envelopes and 8 bytes", lambda story: story.record()[:36] + u32(2**32 - 1) + u32(2) + u32(0), "BadXdr 48 Short")
    bad("101 operations", lambda story: story.record(sent("a", 1, *[NOTHING] * 101)), "BadXdr 100 TooLong")
    # the first predicate of an operation begins at 168, and each level of it has 8 bytes
    deepest, deeper = (sets.create_claimable(1, [("b", predicate(levels))]) for levels in (32, 33))
    bad("a predicate of 33 levels", lambda story: story.record(sent("a", 1, deeper)), "BadXdr 424 TooDeep")
    bad("a predicate of 32 levels", lambda story: story.record(sent("z", 1, deepest)), "FeeSourceMissing 0")
    # such a predicate reads, and no balance may have it
    story = Story(legal).run("a", (deepest, sets.ran(14, -1)))
    case("a record: a predicate of 32 levels, of which the operation is malformed", story, "end 6", 1)


def terms():
    """What a record is refused for by its terms, at both sides of each bound."""
    legal = image([A, B])
    last = image([A], seq=2**31 - 2)
    case("the last ledger and one record", Story(image([A], seq=2**31 - 1)).refused(seq=2**31 - 1), "refused 2147483648 SeqEnd")
    case("a record to the last ledger, and one more", Story(last).close().refused(), "refused 2147483648 SeqEnd", 1)
    case("two ledgers ahead", Story(legal).refused(seq=7), "refused 6 WrongSeq 6 7")
    case("the ledger that is there", Story(legal).refused(seq=5), "refused 6 WrongSeq 6 5")
    case("the greatest number", Story(legal).refused(seq=2**32 - 1), "refused 6 WrongSeq 6 4294967295")
    twice = Story(legal)
    record = twice.record()
    case("a record twice", twice.close().add(record), "refused 7 WrongSeq 7 6", 1)
    here = Story(legal).ledger.hash
    case("a set after another ledger", Story(legal).refused(previous=NO_HASH), f"refused 6 WrongPrevious {here.hex()} {'00' * 32}")
    alone = sha(here)
    case("another hash of the set", Story(legal).refused(digest=NO_HASH), f"refused 6 WrongSetHash {alone.hex()} {'00' * 32}")
    case("the same time", Story(legal).refused(time=1000), "refused 6 StaleTime 1000 1000")
    case("a second before", Story(legal).refused(time=999), "refused 6 StaleTime 1000 999")
    case("a second later, and the greatest time", Story(legal).close(time=1001).close(time=2**64 - 1).refused(time=2**64 - 1),
         f"refused 8 StaleTime {2**64 - 1} {2**64 - 1}", 2)


def upgrades():
    legal = image([A])
    fee, most, reserve = upgrade(2, 200), upgrade(3, 50), upgrade(4, 4_999_999)
    for name, asked, end in [
        ("no bytes", [b""], "BadUpgrade 0"), ("four bytes after it", [fee + bytes(4)], "BadUpgrade 0"),
        ("type 0", [upgrade(0, 1)], "BadUpgrade 0"), ("type 6", [fee, upgrade(6, 1)], "BadUpgrade 1"),
        ("a base fee of 0", [upgrade(2, 0)], "BadUpgrade 0"),
        ("a base reserve of 0", [fee, most, upgrade(4, 0)], "BadUpgrade 2"), ("flags 8", [upgrade(5, 8)], "BadUpgrade 0"),
        ("the fee and then the version", [fee, upgrade(1, 19)], "BadUpgrade 1"), ("the size and then the fee", [most, fee], "BadUpgrade 1"),
        ("the fee twice", [fee, fee], "BadUpgrade 1"), ("the version that is there", [upgrade(1, 18)], "UpgradeOutOfProfile 0"),
        ("a greater reserve", [fee, upgrade(4, 5_000_001)], "UpgradeOutOfProfile 1"),
    ]:
        case(f"upgrades: {name}", Story(legal).refused(upgrades=asked), f"refused 6 {end}")
    story = Story(legal).close(upgrades=[upgrade(1, 19), fee])
    assert (story.ledger.header["version"], story.ledger.header["base_fee"]) == (19, 200)
    case("upgrades: the version and then the fee", story, "end 6", 1)
    # the fee that is asked for is that of the ledgers after it
    story = Story(legal).close(sent("a", 1, NOTHING, fee=150), upgrades=[fee, most, reserve, upgrade(5, 7)])
    assert story.ledger.header["ext"] == (1, {"flags": 7, "ext": (0, None)})
    story.close(sent("a", 2, NOTHING, fee=199)).close(sent("a", 3, NOTHING, fee=200))
    case("upgrades: all that can be asked for", story, "end 8", 3)
    least = [upgrade(2, 1), upgrade(3, 0), upgrade(4, 5_000_000), upgrade(5, 0)]
    case("upgrades: each at its bound", Story(legal).close(upgrades=least).close(sent("a", 1, NOTHING, fee=1)), "end 7", 2)
    flags = Story(legal).close(upgrades=[upgrade(5, 7)])
    assert flags.ledger.header["ext"] == (1, {"flags": 7, "ext": (0, None)})
    case("upgrades: flags 7", flags, "end 6", 1)


def set_faults():
    legal = image([A, B])
    story = Story(legal)
    strangers = [sent("a", 1, NOTHING), *(sent(name, 1, NOTHING) for name in "wxyz")]
    encoded = [envelope.xdr() for envelope in strangers]
    mask = int.from_bytes(sha(story.ledger.hash + b"".join(sorted(encoded, key=sha))), "big")
    first = min(range(1, 5), key=lambda index: int.from_bytes(sha(encoded[index]), "big") ^ mask)
    case("four sources that aren't there", story.refused(*strangers), f"refused 6 FeeSourceMissing {first}")
    # y's first transaction is applied first, and listed last
    case("a source that isn't there, twice", Story(legal).refused(sent("y", 2, NOTHING), sent("a", 1, NOTHING), sent("y", 1, NOTHING)),
         "refused 6 FeeSourceMissing 2")
    bump = sets.bumped("z", 200, sent("a", 1, NOTHING))
    case("a payer of a fee bump that isn't there", Story(legal).refused(bump), "refused 6 FeeSourceMissing 0")
    case("an inner source that isn't there", Story(legal).close(sets.bumped("a", 200, sent("z", 1, NOTHING))), "end 6", 1)
    # path payments in transactions that end before them
    exact, least = sets.path_payment("b", 1), sets.path_payment("b", 1, kind=13)
    early, old = sent("a", 2, exact, least, fee=200), sets.First(sets.Tx("b", 1, [exact]), [])
    story = Story(legal).close(early, old, sets.bumped("b", 200, sent("z", 1, least)))
    case("path payments that aren't reached", story, "end 6", 1)


def faults_at_once():
    """Two faults at once: the earlier one is reported."""
    legal = image([A])
    here = Story(legal).ledger.hash.hex()
    zero, version, fee = "00" * 32, [upgrade(1, 20)], [upgrade(2, 0)]
    last = Story(image([A], seq=2**31 - 1))
    case("faults: no record, after the last ledger", Story(last.data).add(last.record() + b"\0"), "refused 2147483648 BadXdr 88 Trailing")
    case("faults: another number after the last ledger", Story(last.data).refused(seq=3), "refused 2147483648 SeqEnd")
    for name, fault, end in [
        ("number, ledger before", dict(seq=9, previous=NO_HASH), "WrongSeq 6 9"),
        ("ledger before, hash of the set", dict(previous=NO_HASH, digest=NO_HASH), f"WrongPrevious {here} {zero}"),
        ("hash of the set, time", dict(digest=NO_HASH, time=0), f"WrongSetHash {sha(bytes.fromhex(here)).hex()} {zero}"),
        ("time, upgrade", dict(time=0, upgrades=fee), "StaleTime 1000 0"),
        ("upgrade, one that isn't made", dict(upgrades=[*version, *fee]), "BadUpgrade 1"),
        ("upgrade that isn't made, source", dict(listed=[sent("z", 1, NOTHING)], upgrades=version), "UpgradeOutOfProfile 0"),
    ]:
        listed = fault.pop("listed", [])
        case(f"faults: {name}", Story(legal).refused(*listed, **fault), f"refused 6 {end}")


def closes():
    """Closes: headers, levels, entries."""
    empty = Story(image([A])).close()
    assert empty.ledger.header["results"].hex() == NO_RESULTS
    assert empty.ledger.levels.curr[0].file[:16] == marked(META_18)
    case("an empty set", empty, "end 6", 1)
    case("an empty ledger", Story(image()).close().close(), "end 7", 2)
    for seq in (48, 4998, 5048, 55048, 555048):
        story = Story(image([A], seq=seq)).close()
        old = story.ledger.header["skips"]
        assert old == {name: sha(name.encode()) for name in "abcd"}
        new = story.close().ledger.header
        moved = {50: "", 5000: "", 5050: "b", 55050: "bc", 555050: "bcd"}[seq + 2]
        for name, before in zip("bcd", "abc"):
            assert new["skips"][name] == old[before if name in moved else name]
        assert new["skips"]["a"] == new["levels"]
        case(f"skip list at {seq + 1} and {seq + 2}", story, f"end {seq + 2}", 2)
    pay = sent("a", 1, sets.payment("b", 5))
    for version in (17, 19):
        story = Story(image([A, B], {0: bucket((INIT, A), version=version), 1: bucket((INIT, B), version=20 - version)}, seq=4)).close(pay)
        assert story.ledger.levels.curr[0].version == max(version, 18)
        case(f"a bucket of version {version}", story.close().close(), "end 7", 3)
    deep = Story(image([A], {19: bucket((DEAD, B)), 20: bucket((LIVE, B)), 0: bucket((INIT, A))}, seq=524_287)).close()
    assert deep.ledger.levels.curr[10].file == marked(META_18)
    case("the deepest level drops what is gone", deep, "end 524288", 1)
    # b gives back what it got, and c gets another signer and loses it: both keep their numbers
    same = sent("a", 1, sets.payment("b", 5), sets.payment("a", 5, source="b"), sets.set_options(source="c", signer=sets.hash_x(b"new")),
                sets.set_options(source="c", signer=sets.hash_x(b"new", 0)), fee=400, signers="abc")
    story = Story(image([A, B, C])).close(same)
    assert [item[0][1] for item in story.ledger.levels.curr[0].rows if item[2]["modified"] == 6] == [key("a")]
    case("entries that are as they were", story, "end 6", 1)
    gone = [sets.manage_data(b"name", None), sets.manage_data(b"name", b"value")]
    story = Story(image([A_WITH_D, D])).close(sent("a", 1, *gone, fee=200))
    assert story.ledger.entries[3, key("a"), b"name"]["modified"] == 2
    case("data that is removed and made again", story, "end 6", 1)
    two, one = sent("a", 1, NOTHING, NOTHING, fee=300), sent("b", 1, NOTHING, fee=120)
    case("a set in surge pricing", Story(image([A, B], most=100)).close(two, one), "end 6", 1)
    mixed = [
        sent("a", 1, sets.create_account("n", 3 * LUMEN), sets.manage_data(b"x", b"1"), fee=200),
        sent("b", 1, sets.begin_sponsoring("a"), sets.manage_data(b"y", b"2", source="a"), sets.end_sponsoring(source="a"),
             fee=300, signers="ab"),
        sent("c", 1, sets.account_merge("a")),
    ]
    story = Story(image([A, B, C])).close(*mixed).close(sent("a", 2, sets.manage_data(b"x", None), sets.manage_data(b"y", None), fee=200))
    case("all kinds of changes", story, "end 7", 2)
    # a key that is made at 3 and removed at 5 is in no file once both marks meet; the levels take and spill up to the third
    story, seq = Story(image([A, B], seq=1)), 0
    for number in range(2, 68):
        listed = []
        if number in (3, 5):
            listed = [sent("a", seq + 1, sets.manage_data(b"key", b"v" if number == 3 else None))]
        elif number % 3 == 0:
            listed = [sent("a", seq + 1, sets.manage_data(b"key%d" % (number % 9), b"%d" % number))]
        seq += len(listed)
        story.close(*listed)
    rank = (3, key("a"), b"key")
    assert not any(item[0] == rank for file in story.ledger.levels.files for item in file.rows)
    case("66 ledgers in a row", story, "end 67", 66)


# ---- examples


def bumped():
    """One account, an empty set and a bump of its sequence number."""
    signer = sets.hash_x(b"secret")
    assert signer[1].hex() == "2bb80d537b1da3e38bd30361aa855686bde0eacd7162fef6a25fe97bf527a25b"
    account = entry(Account("a", 1_000_000_000, seq=7, signers=[signer]))
    story = Story(image([account], seq=2)).close().close(sent("a", 8, sets.bump_sequence(9), signatures=[sets.by_secret(b"secret")]))
    case("an empty set, and a bump of a sequence number", story.data, "end 4", 2)


def example():
    """Four accounts: lumens are paid, an account and data are made, one account sponsors another, and one is merged."""
    story = Story(image([A, B, C, entry(Account("d", 20 * LUMEN))], seq=62))
    story.close(sent("a", 1, sets.payment("b", 25 * LUMEN)), sent("b", 1, sets.create_account("e", 5 * LUMEN)))
    story.close(
        sent("c", 1, sets.begin_sponsoring("d"), sets.manage_data(b"note", b"kept", source="d"), sets.end_sponsoring(source="d"),
             fee=300, signers="cd"),
        sent("a", 2, sets.payment("z", 1)), upgrades=[upgrade(2, 200)],
    )
    return story.close(sent("b", 2, sets.account_merge("a"), fee=200))


# ---- files

# the commands that take an image and records in memory alone
INPUTS = {"catchup": catchup, "history": history, "changes": changes}


def yielded_by(words, data, before):
    """What a command yields by the model, and the files after it."""
    if words[0] in INPUTS:
        return INPUTS[words[0]](words[-1].split("=", 1)[-1], data), before
    if words[0] == "verify":
        return verify(data), before
    if words[0] == "show":
        return show(before), before
    if words[0] == "path":
        return path(data, before), before
    return init(words[2], data, before) if words[0] == "init" else run(data, before)


def compare(folder):
    """Compares the model with cases from elsewhere."""
    wrong = 0
    for name in sorted(os.listdir(folder)):
        words, data, yielded, before, after = read_apart(f"{folder}/{name}")
        if words[0] not in (*INPUTS, "verify", "init", "path", "run", "show"):
            print(f"{name}: passed by, since the model has no {words[0]}")
            continue
        (out, *ends), left = yielded_by(words, data, before)
        if ((out if isinstance(out, bytes) else out.encode(), *ends), left) != (yielded, after):
            print(f"{name}: the model answers otherwise")
            wrong = 1
    sys.exit(wrong)


# what makes cases, with what their names begin with
PARTS = [
    ("", [forms, header_rules, file_rules, entry_rules, rules_at_once, bad_records, terms, upgrades, set_faults, faults_at_once, closes, bumped]),
    ("assets ", ASSET_PARTS), ("trades ", OFFER_PARTS), ("pools ", POOL_IMAGE_PARTS + SHARE_LINE_PARTS + POOL_PARTS + REVOCATION_PARTS),
    ("paths ", PATH_PARTS + PATH_BOUND_PARTS), ("stores ", STORE_PARTS), ("samples ", SAMPLE_PARTS),
    ("sets ", TABLE_PARTS), ("protocol 19 ", PROTOCOL_19_PARTS), ("vouches ", VOUCHED_PARTS),
    ("archives ", ARCHIVE_PARTS),
    ("queries ", PATH_QUERY_PARTS), ("fingerprints ", COLLIDING_PARTS),
]


def main():
    if len(sys.argv) > 1:
        compare(sys.argv[1])
    folder = f"{TESTS}/cases"
    names = [name for name in open(f"{folder}/names").read().split() if name.startswith("apart-")]
    for prefix, parts in PARTS:
        CASES.clear()
        for part in parts:
            part()
        for name, *made in CASES:
            name = slug(prefix + name)
            assert name not in names, name
            names.append(name)
            write(f"{folder}/{name}.case", encoded(*made))
            print(name)
    write_names(names)
    write(f"{TOP}/examples/accounts.image", start_of(example()))
    write(f"{TOP}/examples/accounts.records", input_of(example()))
    print(catchup(NETWORK, example().data)[0], end="")


if __name__ == "__main__":
    main()
