"""The cases of trust lines and of claimable balances, which `run_cases.py` writes. Each says by hand how it ends, what each operation
answers, and what is left.
"""

import ledger_model as model
import set_cases as sets  # ledger_model puts its folder first
from asset_model import issuer_of, line_rank
from case_tools import (
    A, META_18, USD, Account, B, C, Story, bucket, case, claimable, entry, image, items, key, line, offer, pool, predicate, raw,
    sent, with_counts, with_liabilities,
)
from entry_model import ASSET
from ledger_model import DEAD, ENTRY, GREATEST, INIT, LIVE, NO_HASH, Text, i32, i64, many, sha, u32

LUMEN, NOTHING = sets.LUMEN, sets.NOTHING

# ---- images

ISSUER = entry(Account("z", 100 * LUMEN, flags=10))
HOLDER = entry(Account("a", 100 * LUMEN, data=1))
EUR, LONG = sets.asset("EUR", "z"), sets.asset("LONGCODE", "z")
ID = sha(b"an id")
# a pays for one balance of one claimant
PAYER = with_counts(A, sponsoring=1)


def code(data):
    """An asset of z's whose code has these bytes, 4 or 12."""
    return u32(len(data) // 8 + 1) + data + u32(0) + key("z")


BAD_CODES = [
    bytes(4), b"US D", b"U\0SD", b"US-\0", b"US\xe9\0", b"\0USD", b"/09:", b"0/\0\0", b"9:\0\0", b"@A\0\0", b"Z[\0\0", b"`a\0\0",
    b"z{\0\0", bytes(12), b"USDT" + bytes(8), b"LONGCODE 123", b"LONG\0CODE\0\0\0",
]


def line_ranges():
    """Rule 7 by lines, and the lines at the bounds of it."""
    for name, value in [
        ("a balance below 0", line("a", balance=-1)), ("a balance above the limit", line("a", balance=101)),
        ("a limit of 0", line("a", limit=0)), ("a limit below 0", line("a", limit=-1, balance=-1)),
        ("buying below 0", line("a", owed=(-1, 0))), ("selling below 0", line("a", owed=(0, -1))),
        ("selling above the balance", line("a", balance=5, owed=(0, 6))),
        ("balance and buying above the limit", line("a", balance=60, owed=(41, 0))),
        ("balance and buying above each number", line("a", balance=GREATEST, limit=GREATEST, owed=(1, 0))),
        ("lumens", line("a", sets.LUMENS)), ("its own asset", line("a", sets.asset("USD", "a"))), ("flags 3", line("a", flags=3)),
        ("flags 7", line("a", flags=7)), ("flags 8", line("a", flags=8)), ("a use below 0", line("a", uses=-1)),
        ("its owner pays for it", line("a", payer="a")),
    ]:
        case(f"a line: {name}", image([HOLDER, value]), "10 bad image rule 7")
    for data in BAD_CODES:
        case(f"a line: the code {data.hex()}", image([HOLDER, line("a", code(data))]), "10 bad image rule 7")
    # issuers needn't exist
    fine = [
        line("a", USD, balance=GREATEST, limit=GREATEST), line("a", EUR, limit=1, flags=0), line("a", LONG, 100, 100, 2),
        line("a", code(b"1\0\0\0"), flags=4), line("a", code(b"az09"), flags=5), line("a", code(b"AZ5AZ" + bytes(7)), flags=6),
        line("a", code(b"TWELVEtwelve"), owed=(0, 0)), line("a", sets.asset("USD", "y"), uses=0),
        line("a", sets.asset("USD", "x"), payer="b"),
    ]
    owner = with_counts(entry(Account("a", 100 * LUMEN, data=9)), sponsored=1)
    story = Story(image([owner, with_counts(B, sponsoring=1), *fine]))
    case("lines at their bounds", story.close(sent("a", 1, NOTHING)), "end 6", 1)


def claimable_ranges():
    """Rule 7 by claimable balances, and those at the bounds of it."""
    part, deep = sets.before(5), predicate(4)
    wrong = [
        ("nobody pays for it", claimable(ID, payer=None)), ("an amount of 0", claimable(ID, amount=0)),
        ("an amount below 0", claimable(ID, amount=-1)), ("flags 2", claimable(ID, flags=2)), ("flags 3", claimable(ID, flags=3)),
        ("no claimant", claimable(ID, "")), ("a claimant twice", claimable(ID, "bb")),
        ("a claimant twice, at other times", claimable(ID, [("b", part), "c", "b"])),
        ("an extension that names nobody", model.with_sponsor(claimable(ID, payer="a"), None)),
    ]
    for name, held in [
        ("five levels", predicate(5)), ("five levels after an and", sets.both(part, deep)), ("a relative time", sets.within(5)),
        ("a relative time in a not", sets.opposite(sets.within(0))), ("a time below 0", sets.before(-1)),
        ("an and of one", u32(1) + many([part])), ("an and of none", u32(1) + many([])), ("an or of one", u32(2) + many([part])),
        ("a not of nothing", sets.opposite(None)), ("a time below 0 in the second part of an or", sets.either(part, sets.before(-1))),
    ]:
        wrong.append((name, claimable(ID, [("c", part), ("b", held)])))
    wrong += [(f"the code {data.hex()}", claimable(ID, asset=code(data))) for data in BAD_CODES[::4]]
    for name, value in wrong:
        case(f"a claimable balance: {name}", image([PAYER, value]), "10 bad image rule 7")
    # claimants needn't exist, nor issuers
    deepest = sets.both(sets.either(sets.opposite(sets.before(0)), part), sets.opposite(sets.both(part, sets.before(GREATEST))))
    fine = [
        claimable(sha(b"1"), "bcdefghijk", amount=1), claimable(sha(b"2"), [("n", deepest)], amount=GREATEST, asset=USD, flags=1),
        claimable(sha(b"3"), [("a", deep)], amount=7, asset=LONG, flags=0), claimable(sha(b"4"), "z", asset=USD),
    ]
    story = Story(image([with_counts(A, sponsoring=13), *fine]))
    case("claimable balances at their bounds", story.close(sent("a", 1, NOTHING)), "end 6", 1)


def asset_rules():
    """Rules 8 to 13 by lines and claimable balances."""
    lined, claim = line("a"), claimable(ID)
    for rule, name, entries in [
        (8, "a line of nobody", [B, lined]), (8, "a line whose sponsor isn't there", [with_counts(HOLDER, 1), line("a", payer="b")]),
        (8, "a claimable balance whose sponsor isn't there", [B, claim]),
        (9, "a line that buys", [HOLDER, line("a", balance=60, owed=(40, 0))]), (9, "a line that buys 1", [HOLDER, line("a", owed=(1, 0))]),
        (9, "a line that sells", [HOLDER, line("a", balance=5, owed=(0, 5))]),
        (10, "a line that isn't counted", [A, lined]), (10, "a line of two that is counted", [entry(Account("a", 0, data=2)), lined]),
        (10, "a claimable balance counted as a subentry", [with_counts(HOLDER, sponsoring=1), claim]),
        (11, "a line whose sponsor counts none", [with_counts(HOLDER, sponsored=1), B, line("a", payer="b")]),
        (11, "a line whose owner counts none", [HOLDER, with_counts(B, sponsoring=1), line("a", payer="b")]),
        (11, "a line that is counted twice", [with_counts(HOLDER, sponsored=2), with_counts(B, sponsoring=2), line("a", payer="b")]),
        (11, "a line without sponsor that is counted", [with_counts(HOLDER, sponsored=1), with_counts(B, sponsoring=1), lined]),
        (11, "a claimable balance that isn't counted", [A, claim]),
        (11, "a claimable balance of two, counted as one", [PAYER, claimable(ID, "bc")]),
        (11, "a claimable balance of one, counted as two", [with_counts(A, sponsoring=2), claim]),
        (11, "a claimable balance that its maker counts as sponsored", [with_counts(A, sponsored=1, sponsoring=1), claim]),
        (12, "a use without pools", [HOLDER, line("a", uses=1)]), (12, "many uses without pools", [HOLDER, line("a", uses=2**31 - 1)]),
    ]:
        case(f"an image: {name}", image(entries), f"10 bad image rule {rule}")
    lumens, issued = [PAYER, claimable(ID, amount=5)], [PAYER, claimable(ID, amount=5, asset=USD)]
    case("an image: lumens set aside that aren't counted", image(lumens, coins=100 * LUMEN), "10 bad image rule 13")
    case("an image: lumens set aside that are", image(lumens, coins=100 * LUMEN + 5), "end 5", 0)
    case("an image: USD set aside that is counted", image(issued, coins=100 * LUMEN + 5), "10 bad image rule 13")
    case("an image: USD set aside that isn't", image(issued, coins=100 * LUMEN), "end 5", 0)
    case("an image: USD held that is counted", image([HOLDER, line("a", balance=5)], coins=100 * LUMEN + 5), "10 bad image rule 13")
    rich = [with_counts(entry(Account("a", GREATEST - 7)), sponsoring=1), claimable(ID, amount=8)]
    case("an image: more lumens than there can be", image(rich, coins=GREATEST), "10 bad image rule 13")
    # 2^64 lumens more, which 64 bits don't show
    huge = [with_counts(A, sponsoring=4), *(claimable(sha(b"%d" % number), amount=2**62) for number in range(4))]
    case("an image: far more lumens than there can be", image(huge, coins=100 * LUMEN), "10 bad image rule 13")
    most = 2**32 - 1
    case("an image: the most reserves that can be paid", image([with_counts(HOLDER, sponsoring=most), lined]), "10 bad image rule 11")
    case("an image: the most reserves that others can pay", image([with_counts(HOLDER, sponsored=most), lined]), "10 bad image rule 11")
    case("an image: all lumens in one account", image([entry(Account("a", GREATEST, signers=[]))]), "end 5", 0)
    weights = [sets.hash_x(b"one", 0), sets.hash_x(b"two", 1)]
    case("an image: one weight of two that is 0", image([entry(Account("a", 0, signers=weights))]), "10 bad image rule 7")
    case("an image: clawback beside another flag", image([entry(Account("a", 0, flags=9))]), "10 bad image rule 7")
    case("an image: a line and a balance with a sponsor",
         image([with_counts(HOLDER, 1), with_counts(B, 0, 3), line("a", payer="b"), claimable(ID, "ab", payer="b")]), "end 5", 0)


def asset_rules_at_once():
    """Two rules that lines and claimable balances break at once, with pools beside them."""
    shares, wrong = line("a", u32(3) + ID, flags=0), line("a", limit=0)
    for name, entries, rule in [
        ("7 by a balance, 8 by a line", [PAYER, line("b"), claimable(ID, amount=0)], 7),
        ("8 by a balance, 9 by a line", [HOLDER, line("a", owed=(1, 0)), claimable(ID, payer="b")], 8),
        ("9 and 10 by a line", [A, line("a", owed=(1, 0))], 9), ("10 by a line, 11 by a balance", [A, line("a"), claimable(ID)], 10),
        ("11 by a balance, 12 by a line", [HOLDER, line("a", uses=1), claimable(ID)], 11),
        ("7 by a sponsor, 8 by the same line", [B, line("a", payer="a")], 7),
    ]:
        case(f"rules {name}", image(entries), f"10 bad image rule {rule}")
    case("rules 12 and 13", image([HOLDER, line("a", uses=1)], coins=1), "10 bad image rule 12")
    case("rule 6 and shares", image([HOLDER, shares], levels=NO_HASH), "10 bad image rule 6")
    case("rule 5 and a pool", image([A, pool(ID)], {0: bucket((LIVE, A), (LIVE, pool(ID))), 3: bucket((DEAD, A))}), "10 bad image rule 5")
    for name, value, rule in [
        ("a line of shares of no pool", shares, 8), ("a line of shares out of its ranges", line("a", u32(3) + ID, balance=-1), 7),
        ("a pool of another id", pool(ID), 7),
    ]:
        case(name, image([HOLDER, value]), f"10 bad image rule {rule}")
        case(f"{name}, and rule 7", image([HOLDER, wrong, value]), "10 bad image rule 7")
    gone = {0: bucket((LIVE, A), (DEAD, shares), (DEAD, pool(ID))), 2: bucket((INIT, shares), (LIVE, pool(ID)))}
    case("shares and a pool that are gone", Story(image([A], gone)).close(), "end 6", 1)


# a sells a stroop for one of USD, which binds 1 of its lumens and 1 of the room of its line
SELLER = with_liabilities(entry(Account("a", 100 * LUMEN, data=2)), selling=1)
BUYING = line("a", owed=(1, 0))


def offer_ranges():
    """Rule 7 by offers and by their lines, and offers at the bounds of it."""
    for name, value in [
        ("an amount of 0", offer("a", amount=0)), ("an amount below 0", offer("a", amount=-1)), ("a price of 0", offer("a", price=(0, 1))),
        ("a price of no part", offer("a", price=(1, 0))), ("a price below 0", offer("a", price=(-1, 1))),
        ("a price by parts below 0", offer("a", price=(-1, -1))), ("nothing is bound", offer("a", amount=2, price=(1, 3))),
        ("an id of 0", offer("a", 0)), ("an id below 0", offer("a", -1)), ("an id that wasn't drawn", offer("a", 2)),
        ("flags 2", offer("a", flags=2)),
        ("lumens for lumens", offer("a", buying=sets.LUMENS)), ("USD for USD", offer("a", selling=USD)),
        ("the code US D is sold", offer("a", selling=code(b"US D"))), ("the code US D is bought", offer("a", buying=code(b"US D"))),
        ("its seller pays for it", offer("a", payer="a")),
    ]:
        case(f"an offer: {name}", image([SELLER, BUYING, value], ids=1), "10 bad image rule 7")
    case("an offer: no id was drawn", image([SELLER, BUYING, offer("a")]), "10 bad image rule 7")
    for flags in (0, 4):
        unauthorised = [SELLER, line("a", owed=(1, 0), flags=flags), offer("a")]
        case(f"an offer: a line of flags {flags} buys", image(unauthorised, ids=1), "10 bad image rule 7")
        held = line("a", balance=1, owed=(0, 1), flags=flags)
        sells = [with_liabilities(entry(Account("a", 0, data=2)), buying=1), held, offer("a", selling=USD, buying=sets.LUMENS)]
        case(f"an offer: a line of flags {flags} sells", image(sells, ids=1), "10 bad image rule 7")
    for flags in (1, 2, 5, 6):
        case(f"an offer: a line of flags {flags}", image([SELLER, line("a", owed=(1, 0), flags=flags), offer("a")], ids=1), "end 5", 0)
    # a line that no offer trades in needs no authorisation
    three = with_liabilities(entry(Account("a", 0, data=3)), selling=1)
    case("an offer: another line of flags 0", image([three, BUYING, line("a", EUR, flags=0), offer("a")], ids=1), "end 5", 0)
    case("an offer: the last id, passive", image([SELLER, BUYING, offer("a", 2**32, flags=1)], ids=2**32), "end 5", 0)


def offer_rules():
    """Rules 8 to 11 by offers, and legal ones."""
    sale, issuing = offer("a"), offer("z", 2, selling=USD, buying=sets.LUMENS, amount=7, price=(2, 3))
    twins = [with_liabilities(entry(Account("b", 0, data=2)), selling=1), line("b", owed=(1, 0))]
    for rule, name, entries in [
        (8, "of nobody", [B, sale]), (8, "without a line to buy", [SELLER, sale]),
        (8, "without a line to sell", [SELLER, offer("a", selling=USD, buying=sets.LUMENS)]),
        (8, "whose sponsor isn't there", [SELLER, BUYING, offer("a", payer="b")]),
        (8, "two of one id", [SELLER, BUYING, sale, *twins, offer("b")]),
        (9, "sells what no account owes", [entry(Account("a", 0, data=2)), BUYING, sale]),
        (9, "buys what no line owes", [SELLER, line("a"), sale]), (9, "buys less than the line owes", [SELLER, line("a", owed=(2, 0)), sale]),
        (9, "sells less than the account owes", [with_liabilities(entry(Account("a", 0, data=2)), selling=2), BUYING, sale]),
        (9, "its line owes by selling", [SELLER, line("a", balance=1, owed=(1, 1)), sale]),
        (9, "another account owes", [with_liabilities(B, selling=1), SELLER, BUYING, sale]),
        (9, "an issuer that owes for what it issues", [with_liabilities(entry(Account("z", 0, data=1)), selling=6, buying=4), issuing]),
        (10, "that isn't counted", [with_liabilities(HOLDER, selling=1), BUYING, sale]),
        (11, "whose sponsor counts none", [SELLER, BUYING, B, offer("a", payer="b")]),
    ]:
        case(f"an offer: {name}", image(entries, ids=2), f"10 bad image rule {rule}")
    # 7 at 2/3 binds 6 and 4, and an issuer has no line of its own asset
    case("an offer: of its own asset", image([with_liabilities(entry(Account("z", 0, data=1)), buying=4), issuing], ids=2), "end 5", 0)
    both = [with_liabilities(entry(Account("a", 100, data=3)), buying=4, selling=1), line("a", balance=9, owed=(1, 6)), sale]
    case("two offers of one seller", image([*both, offer("a", 2, USD, sets.LUMENS, 7, (2, 3))], ids=2), "end 5", 0)
    paid = model.with_second(SELLER["body"][1], {"sponsored": 1, "sponsoring": 0, "sponsors": [None], "ext": (0, None)})
    case("an offer with a sponsor",
         image([{**SELLER, "body": (0, paid)}, BUYING, with_counts(B, sponsoring=1), offer("a", payer="b")], ids=1), "end 5", 0)
    story = Story(image([SELLER, BUYING, sale, B], ids=1))
    case("a close after offers", story.close(sent("b", 1, NOTHING)), "end 6", 1)


def asset_files():
    """Rules 4 and 5 by the files of lines and claimable balances: their forms, the order of their keys, their marks."""
    one, other = line("a"), line("a", LONG)
    encoded = ENTRY.write(claimable(ID, "bc"))
    for name, file in [
        ("eleven claimants", raw(META_18, i32(INIT) + ENTRY.write(claimable(ID, "bcdefghijkl")))),
        ("a predicate of 33 levels", raw(META_18, i32(INIT) + ENTRY.write(claimable(ID, [("b", sets.ANY_TIME)])).replace(
            key("b") + u32(0), key("b") + predicate(33)))),
        ("an asset of type 4", raw(META_18, i32(DEAD) + u32(1) + u32(0) + key("a") + u32(4))),
        ("three parts of an and", raw(META_18, i32(INIT) + encoded.replace(key("b") + u32(0), key("b") + u32(1) + many([u32(0)] * 3)))),
        ("falling kinds of assets", raw(META_18, *items((INIT, other), (INIT, one)))),
        ("falling codes", raw(META_18, *items((INIT, line("a", USD)), (INIT, line("a", EUR))))),
        ("falling issuers", raw(META_18, *items((INIT, line("a", USD)), (INIT, line("a", sets.asset("USD", "y")))))),
        ("a balance before a line", raw(META_18, *items((INIT, claimable(ID)), (INIT, one)))),
        ("a balance twice", raw(META_18, *items((INIT, claimable(ID)), (DEAD, claimable(ID))))),
        ("an extension 2 of a balance", raw(META_18, i32(INIT) + ENTRY.write(claimable(ID, payer=None))[:-8] + u32(2) + u32(0))),
    ]:
        case(f"a file: {name}", image(files={0: file}), "10 bad image rule 4")
    twice = {0: bucket((INIT, one), (LIVE, HOLDER)), 1: bucket((LIVE, one))}
    case("marks: INIT over LIVE of a line", image([HOLDER, one], twice), "10 bad image rule 5")
    dead = {0: bucket((DEAD, claimable(ID)), (LIVE, A)), 2: bucket((DEAD, claimable(ID)))}
    case("marks: DEAD over DEAD of a balance", image([A], dead), "10 bad image rule 5")
    # what lies below is older, and may be out of its ranges
    owner = with_counts(entry(Account("a", 100 * LUMEN, data=2)), sponsoring=2)
    two = line("a", EUR)
    files = {
        0: bucket((LIVE, owner), (INIT, one), (DEAD, claimable(sha(b"gone")))),
        1: bucket((DEAD, one), (LIVE, two), (LIVE, claimable(ID, "bc"))),
        4: bucket((INIT, claimable(sha(b"gone"), amount=0)), (LIVE, line("a", USD, limit=0))), 20: bucket((LIVE, claimable(ID, "b"))),
    }
    story = Story(image([owner, one, two, claimable(ID, "bc")], files))
    case("marks of lines and balances that fit", story.close(sent("a", 1, NOTHING)).close().close(), "end 8", 3)


# ---- operations

R = sets.ran


def holders(**lines):
    """An issuer z, and accounts by their names, each with lines: balance, limit and flags of USD, or None for no line."""
    entries = [ISSUER]
    for name, held in lines.items():
        entries.append(entry(Account(name, 100 * LUMEN, data=0 if held is None else 1)))
        if held is not None:
            entries.append(line(name, USD, *held))
    return entries


def pay(to, amount, source=None, asset=USD):
    return sets.payment(to, amount, source, asset)


def payments():
    """What payments of an issued asset answer, and what they move."""
    gone = sets.asset("OLD", "n")
    entries = holders(a=(60, 100, 1), b=(0, 10, 1), c=None, d=(5, 10, 0), e=(5, 10, 2))
    entries[1] = entry(Account("a", 100 * LUMEN, data=2))
    story = Story(image([*entries, line("a", gone, 7)]))
    codes = [
        (pay("b", 0), -1), (pay("b", -1), -1), (pay("b", 1, asset=code(b"US D")), -1), (pay("n", 0), -1), (pay("n", 5), -5),
        (pay("n", 5, "c", gone), -3), (pay("c", 5), -6), (pay("d", 5), -7), (pay("e", 5), -7), (pay("b", 11), -8), (pay("b", 11, "c"), -8),
        (pay("b", 10, "c"), -3), (pay("b", 10, "d"), -4), (pay("b", 10, "e"), -4), (pay("z", 61), -2), (pay("c", 5, "c"), -6),
        (pay("n", 5, "c"), -5), (pay("d", 6), -7), (pay("z", 6, "d"), -4), (pay("a", 41), -8), (pay("a", 41, "z"), -8),
        (pay("b", 10), 0), (pay("b", 1), -8), (pay("z", 51), -2), (pay("z", 50), 0),
        (pay("a", 1), 0), (pay("a", 100, "z"), 0), (pay("a", 1, "z"), -8), (pay("n", 7, asset=gone), 0), (pay("n", 1, asset=gone), -2),
    ]
    story.run("a", *((op, R(1, number)) for op, number in codes), signers="acdez")
    assert story.line("a") == (60, 100, 1) and story.line("b") == (0, 10, 1)
    case("payments: their codes", story, "end 6", 1)
    # to oneself: room is asked for first, and nothing changes
    self_paid = Story(image(holders(a=(60, 100, 1)))).run("a", (pay("a", 40), R(1, 0)), (pay("a", 1, "z"), R(1, 0)), signers="az")
    assert self_paid.line("a") == (61, 100, 1)
    case("payments: to oneself", self_paid, "end 6", 1)
    moved = Story(image(holders(a=(60, 100, 1), b=(0, GREATEST, 5))))
    moved.run("z", (pay("b", GREATEST), R(1, 0)), (pay((7, "z"), 5), R(1, 0)), (pay("n", 5, asset=sets.asset("NEW", "n")), R(1, -3)))
    moved.run("z", (pay("b", GREATEST - 5), R(1, 0)), (pay((7, "z"), 5), R(1, 0))).run("a", (pay((8, "b"), 5, (9, "a")), R(1, 0)))
    moved.run("b", (pay("a", 46), R(1, -8)))
    moved.run("b", (pay("a", 45), R(1, 0)), (pay("z", GREATEST - 45), R(1, 0)))
    assert moved.line("a") == (100, 100, 1) and moved.line("b") == (0, GREATEST, 5)
    case("payments: issued, handed on and redeemed", moved, "end 10", 5)
    # each holder pays by the threshold in the middle
    weak = entry(Account("b", 100 * LUMEN, data=1, thresholds=(0, 1, 2, 2)))
    story = Story(image([*holders(a=(60, 100, 1)), weak, line("b", balance=5)]))
    story.close(sent("a", 1, pay("b", 1), pay("a", 1, "b"), fee=200, signers="ab"), expected=[sets.failed(R(1, 0), i32(-1))])
    case("payments: a holder that is too weak", story, "end 6", 1)


def lines():
    """What CHANGE_TRUST answers and leaves."""
    mine, gone = sets.asset("USD", "a"), sets.asset("OLD", "n")
    trust = sets.change_trust
    entries = holders(a=(60, 100, 1), p=None)
    entries[1] = entry(Account("a", 100 * LUMEN, data=2))
    # p has 3 reserves, and 1 stroop less than 4 after its fee
    entries[3] = entry(Account("p", 19_999_999))
    story = Story(image([*entries, line("a", gone, 0)]))
    codes = [
        (trust(limit=-1), -1), (trust(sets.LUMENS), -1), (trust(code(b"US D")), -1), (trust(mine), -1), (trust(EUR, 0), -3),
        (trust(sets.asset("NEW", "n")), -2), (trust(sets.asset("NEW", "n"), 0), -3), (trust(limit=59), -3), (trust(limit=0), -3),
        (trust(limit=60), 0), (trust(limit=GREATEST), 0), (trust(gone, 7), -2), (trust(gone, 0), 0), (trust(gone, 0), -3),
        (trust(gone, 7), -2), (trust(sets.asset("NEW", "n"), source="p"), -2), (trust(LONG, 1), 0), (trust(LONG, 2), 0),
        (trust(EUR, source="p"), -4),
    ]
    story.run("a", *((op, R(6, number)) for op, number in codes), signers="ap")
    assert story.line("a", gone) == (0, 100, 1) and story.counts("a") == (3, 0, 0)
    case("lines: their codes", story, "end 6", 1)
    exact = Story(image([ISSUER, entry(Account("p", 20_000_100))])).run("p", (trust(EUR, 5), R(6, 0)))
    assert exact.line("p", EUR) == (0, 5, 5) and exact.counts("p") == (2, 0, 0)
    case("lines: the last reserve", exact, "end 6", 1)
    case("lines: a stroop less", Story(image([ISSUER, entry(Account("p", 20_000_099))])).run("p", (trust(EUR, 5), R(6, -4))), "end 6", 1)
    # the issuer's flags when the line is made count; those of existing lines stay
    issuers = [entry(Account(name, 100 * LUMEN, flags=flags)) for name, flags in zip("vwxyz", (0, 1, 2, 10, 15))]
    story = Story(image([A, *issuers]))
    story.run("a", *((trust(sets.asset("USD", name), 5), R(6, 0)) for name in "vwxyz"))
    story.run("v", (sets.set_options(sets=11), R(5, 0))).run("a", (trust(sets.asset("USD", "v"), 6), R(6, 0)))
    got = [story.line("a", sets.asset("USD", name))[1:] for name in "vwxyz"]
    assert got == [(6, 1), (5, 0), (5, 1), (5, 5), (5, 4)]
    case("lines: the flags of issuers", story, "end 8", 3)
    # an issuer may go while others hold what it issued: no line of it is made or raised, and each can be paid and closed
    story = Story(image([*holders(a=(60, 100, 1), b=(0, 100, 1)), C]))
    story.run("z", (sets.account_merge("c"), R(8, 0, 100 * LUMEN - 100)))
    story.run("a", (trust(limit=200), R(6, -2)), (pay("b", 5), R(1, 0)))
    story.run("a", (pay("b", 5), R(1, 0)), (pay("z", 55), R(1, 0)), (trust(limit=0), R(6, 0)))
    story.run("b", (trust(USD, 0), R(6, -3)), (trust(USD, 4), R(6, -3)), (trust(USD, 5), R(6, -2)), (sets.account_merge("c"), R(8, -4)))
    assert story.line("a") is None and story.line("b") == (5, 100, 1) and story.counts("a") == (1, 0, 0)
    case("lines: of an issuer that is gone", story, "end 9", 4)


def many_lines():
    """Lines up to the last of 1,000 subentries."""
    assets = [sets.asset(f"A{number:03}", "z") for number in range(1000)]

    def owned(count):
        return [ISSUER, entry(Account("a", 501 * LUMEN + 5_000, data=count)), *(line("a", asset) for asset in assets[:count])]

    trust = sets.change_trust
    story = Story(image(owned(999), at=3)).run("a", (trust(USD), sets.OP_TOO_MANY_SUBENTRIES), (trust(assets[0], 7), R(6, 0)))
    story.run("a", (trust(assets[0], 0), R(6, 0)), (trust(USD), R(6, 0)))
    story.run("a", (trust(EUR), sets.OP_TOO_MANY_SUBENTRIES), (sets.manage_data(b"x", b"y"), sets.OP_TOO_MANY_SUBENTRIES))
    assert story.counts("a") == (1000, 0, 0)
    case("lines: the thousandth subentry", story, "end 8", 3)
    case("lines: a thousand and a signer", image(owned(1000), at=3), "10 bad image rule 10")


def authorisation():
    """What ALLOW_TRUST and SET_TRUST_LINE_FLAGS answer and leave."""
    allow, flags = sets.allow_trust, sets.set_line_flags
    # z may revoke and y may not
    usd = sets.asset("USD", "y")
    held = {"a": 5, "b": 0, "c": 2, "d": 5}
    entries = [ISSUER, entry(Account("y", 100 * LUMEN, flags=1)), entry(Account("e", 100 * LUMEN))]
    for name, number in held.items():
        entries += [entry(Account(name, 100 * LUMEN, data=2)), line(name, USD, 5, 10, number), line(name, usd, 5, 10, number)]
    legal = image(entries)
    codes = [
        (allow("a", 3), -1), (allow("a", 2**32 - 1), -1), (allow("a", 1, ""), -1), (allow("a", 1, "U D"), -1),
        (allow("a", 1, "LONG CODE"), -1), (allow("z", 1), -1), (allow("e", 1), -2), (allow("n", 1), -2),
        (allow("a", 1, "EUR"), -2), (allow("a", 0), 0), (allow("a", 2), 0),
        (allow("a", 1), 0), (allow("e", 0, source="y"), -2), (allow("a", 0, source="y"), -4), (allow("a", 2, source="y"), -4),
        (allow("b", 0, source="y"), -4),
        (allow("b", 2, source="y"), 0), (allow("c", 2, source="y"), 0), (allow("c", 1, source="y"), 0), (allow("c", 2, source="y"), -4),
    ]
    story = Story(legal).run("z", *((op, R(7, number)) for op, number in codes), signers="zy")
    case("ALLOW_TRUST: its codes", story, "end 6", 1)
    story = Story(legal).run("z", *((allow(name, wanted), R(7, 0)) for name, wanted in zip("abcd", (2, 1, 0, 0))))
    assert [story.line(name)[2] for name in "abcd"] == [6, 1, 0, 4]
    story.run("a", (pay("b", 1), R(1, -4)), (pay("z", 1), R(1, -4)), (pay("a", 1, "b"), R(1, -7)), (pay("z", 1, "d"), R(1, -4)),
              signers="abd")
    story.run("z", (allow("a", 1), R(7, 0)), (pay("b", 1, "a"), R(1, 0)), (allow("a", 0), R(7, 0)), signers="za")
    assert story.line("a") == (4, 10, 4) and story.line("b") == (6, 10, 1)
    case("ALLOW_TRUST: a line is frozen, and others aren't", story, "end 8", 3)
    codes = [
        (flags("a", 1, asset=sets.LUMENS), -1), (flags("a", 1, asset=code(b"US D")), -1), (flags("a", 1, asset=usd), -1),
        (flags("z", 1), -1), (flags("a", 8), -1), (flags("a", 0, 8), -1), (flags("a", 1, 1), -1), (flags("a", 0, 4), -1),
        (flags("a", 4, 3), -1),
        (flags("e", 1), -2), (flags("e", 1, 0, usd, "y"), -2), (flags("n", 0, 1), -2), (flags("a", asset=EUR), -2), (flags("a", 0, 2), -4),
        (flags("c", 0, 1), -4),
        (flags("a"), 0), (flags("a", 1), 0), (flags("a", 7), 0), (flags("a", 0, 1), 0), (flags("a", 1, 2), 0), (flags("a", 2, 1), 0),
        (flags("a", 1, 0, usd, "y"), -3), (flags("a", 1, 2, usd, "y"), -3), (flags("a", 7, 0, usd, "y"), -3),
        (flags("c", 2, 0, usd, "y"), -3), (flags("a", 0, 2, usd, "y"), -4), (flags("a", 2, 0, usd, "y"), 0),
        (flags("c", 2, 1, usd, "y"), 0), (flags("b", 3, 0, usd, "y"), 0),
        (flags("d", 4, 1, usd, "y"), 0), (flags("b", 0, 2, usd, "y"), 0), (flags("b", 2, 1, usd, "y"), 0),
    ]
    story = Story(legal).run("z", *((op, R(21, number)) for op, number in codes), signers="zy")
    case("SET_TRUST_LINE_FLAGS: its codes", story, "end 6", 1)
    story = Story(legal).run("z", (flags("a", 5, 2), R(21, 0)), (flags("b", 0, 1), R(21, 0)), (flags("c", 2), R(21, 0)))
    assert [story.line(name)[2] for name in "abcd"] == [2, 1, 0, 5]
    # a flag of clawback that was cleared never comes back
    story.run("z", (sets.clawback("a", 1), R(19, -2)), (flags("a", 2, 1), R(21, 0)), (sets.clawback("d", 1), R(19, 0)))
    story.run("z", (flags("a", 2, 1), R(21, 0)), (flags("d", 4), R(21, 0)))
    assert [story.line(name)[2] for name in "abcd"] == [1, 1, 0, 1]
    case("SET_TRUST_LINE_FLAGS: flags that are set and cleared", story, "end 8", 3)
    # both need the low threshold alone, and CLAWBACK that in the middle
    weak = entry(Account("z", 100 * LUMEN, flags=10, thresholds=(0, 1, 2, 2)))
    story = Story(image([weak, *entries[1:]]))
    story.run("z", (flags("a", 1), R(21, 0)), (allow("a", 1), R(7, 0)))
    story.close(sent("z", 2, allow("a", 0), sets.clawback("a", 1), flags("a"), fee=300), expected=[sets.failed(R(7, 0), i32(-1), R(21, 0))])
    case("flags: the thresholds of an issuer", story, "end 7", 2)


def clawbacks():
    """What CLAWBACK answers and leaves."""
    claw = sets.clawback
    story = Story(image(holders(a=(60, 100, 5), b=(60, 100, 1), c=None, d=(5, 10, 4), e=(5, 10, 6))))
    codes = [
        (claw("a", 0), -1), (claw("a", -1), -1), (claw("a", 1, sets.LUMENS), -1), (claw("a", 1, code(b"US D")), -1), (claw("z", 1), -1),
        (claw("a", 1, source="b"), -1), (claw("b", 1, source="b"), -1), (claw("c", 1), -3), (claw("n", 1), -3), (claw("a", 1, EUR), -3),
        (claw("b", 1), -2), (claw("b", 61), -2), (claw("a", 61), -4), (claw((5, "a"), 60), 0), (claw("a", 1), -4), (claw("d", 5), 0),
        (claw("e", 5), 0),
    ]
    story.run("z", *((op, R(19, number)) for op, number in codes), signers="zb")
    case("clawback: its codes", story, "end 6", 1)
    # it needs no authorisation, and leaves the line
    story.run("z", (claw("a", 60), R(19, 0)), (claw("d", 4), R(19, 0)), (claw("e", 5), R(19, 0)))
    assert [story.line(name)[0] for name in "abde"] == [0, 60, 1, 0]
    case("clawback: of lines that are frozen", story.run("a", (sets.change_trust(limit=0), R(6, 0))), "end 8", 3)


ALWAYS = sets.ANY_TIME


def set_aside_codes():
    """What CREATE_CLAIMABLE_BALANCE answers."""
    create = sets.create_claimable
    # p has 3 reserves and 2 more after its fees; d is frozen
    entries = [*holders(a=(60, 100, 1), c=None, d=(5, 10, 0), e=(5, 10, 2)), entry(Account("p", 25_000_000))]
    story = Story(image(entries))
    time, deep = sets.within(5), predicate(4)
    wrong = [
        create(0, "b"), create(-1, "b"), create(1, "b", code(b"US D")), create(1, ""), create(1, "bb"), create(1, [("b", time), "c", "b"]),
        create(1, [("b", predicate(5))]), create(1, [("b", sets.both(time, deep))]), create(1, [("b", sets.before(-1))]),
        create(1, [("b", sets.within(-1))]), create(1, [("b", u32(1) + many([time]))]), create(1, [("b", u32(2) + many([]))]),
        create(1, [("b", sets.opposite(None))]), create(1, ["c", ("b", sets.opposite(sets.before(-1)))]),
    ]
    pairs = [(op, R(14, -1)) for op in wrong] + [(op, R(14, number)) for op, number in [
        (create(1, "b", USD, "c"), -3), (create(1, "b", USD, "d"), -4), (create(1, "b", USD, "e"), -4), (create(6, "b", USD, "d"), -4),
        (create(61, "b", USD), -5),
        (create(61, "bcd", USD), -5), (create(985 * LUMEN // 10, "b"), -5), (create(10_000_001, "b", source="p"), -5),
        (create(10_000_000, "b", source="p"), -2),
        (create(5_000_001, "b", source="p"), -2), (create(1, "bcd", source="p"), -2), (create(1, "bcdefghijk", USD, "p"), -3),
    ]]
    story.run("a", *pairs, signers="acdep")
    case("balances set aside: their codes", story, "end 6", 1)
    # what is set aside is taken first, and then the reserve is looked at
    exact = Story(image(entries)).run("a", (create(5_000_000, "b", source="p"), sets.set_aside(sets.balance_id("a", 1))), signers="ap")
    assert exact.account("p")["balance"] == 20_000_000 and exact.counts("p") == (1, 0, 1)
    case("balances set aside: the last reserve", exact, "end 6", 1)
    # an issuer needs no line, and ten claimants are ten reserves
    ten = Story(image(entries)).run("z", (create(GREATEST, "bcdefghijk", USD), sets.set_aside(sets.balance_id("z", 1))))
    assert ten.counts("z") == (1, 0, 10)
    case("balances set aside: ten claimants", ten, "end 6", 1)
    # the result of one that isn't run, as another one's source is too weak
    idle = Story(image(entries)).close(
        sent("a", 1, create(1, "b"), pay("a", 1, "z"), sets.claim(ID), fee=300),
        expected=[sets.failed(sets.set_aside(bytes(32)), i32(-1), R(15, 0))])
    case("balances set aside: none without a signature", idle, "end 6", 1)


def set_aside():
    """Balances that are set aside: what is stored, and under which ids."""
    create = sets.create_claimable
    legal = image(holders(a=(60, 100, 1), b=(0, 100, 5), c=None))
    story = Story(legal)
    made = [sets.balance_id("a", 1, index) for index in range(4)]
    story.run("a", (create(10, "bc", USD), sets.set_aside(made[0])), (create(10, "b", source="z", asset=USD), sets.set_aside(made[1])),
              (pay("b", 10), R(1, 0)), (create(10, ["c"], USD, "b"), sets.set_aside(made[3])), signers="abz")
    assert story.line("a")[0] == 40 and story.line("b")[0] == 0
    kept = {digest: (value["body"][1]["ext"], model.sponsor_of(value)) for digest, value in story.claimables().items()}
    clawed = (1, {"ext": (0, None), "flags": 1})
    assert kept == {made[0]: ((0, None), key("a")), made[1]: (clawed, key("z")), made[3]: (clawed, key("b"))}
    assert [story.counts(name) for name in "abz"] == [(2, 0, 2), (2, 0, 1), (1, 0, 1)]
    case("balances set aside: by holders and by an issuer", story, "end 6", 1)
    # a fee bump's balance has the id of its inner transaction
    inner = sent((4, "a"), 1, NOTHING, create(5, "b"), fee=200)
    story = Story(legal).close(sets.bumped("c", 300, inner), expected=[sets.inner(1, inner, sets.ok(sets.BUMPED, sets.set_aside(made[1])))])
    case("balances set aside: by a fee bump", story, "end 6", 1)
    # an image may have the id that an operation will make: that is reported after its form, and before what its source has
    taken = claimable(made[1], "b", payer="c")
    entries = [entry_ for entry_ in holders(a=(60, 100, 1), b=(0, 100, 5), c=None) if entry_["body"][1].get("id") != (0, key("c"))]
    story = Story(image([*entries, with_counts(C, sponsoring=1), taken])).run(
        "a", (create(0, "b"), R(14, -1)), (create(1, "b"), sets.OP_NOT_SUPPORTED), (create(1, "b"), sets.set_aside(made[2])))
    assert list(story.claimables()) == [made[1]]
    case("balances set aside: an id that is taken", story, "end 6", 1)
    story = Story(image([*entries, with_counts(C, sponsoring=1), taken])).run(
        "a", (NOTHING, sets.BUMPED), (create(61, "b", USD), sets.OP_NOT_SUPPORTED), (sets.claim(made[1], "b"), R(15, 0)), signers="ab")
    case("balances set aside: an id that is taken, and no funds", story, "end 6", 1)
    freed = Story(image([*entries, with_counts(C, sponsoring=1), taken])).run(
        "a", (sets.claim(made[1], "b"), R(15, 0)), (create(1, "b"), sets.set_aside(made[1])), signers="ab")
    assert freed.counts("a") == (2, 0, 1) and freed.counts("c") == (1, 0, 0)
    case("balances set aside: an id that is free again", freed, "end 6", 1)


def claims():
    """What CLAIM_CLAIMABLE_BALANCE answers, and what it leaves."""
    digests = [sha(b"%d" % number) for number in range(8)]
    entries = holders(a=(60, 100, 1), b=(0, 100, 5), c=None, d=(5, 10, 0), e=(5, 10, 2))
    entries[0] = with_counts(ISSUER, sponsoring=16)
    held = [claimable(digest, "abcdez"[:size], amount, asset, "z") for digest, size, amount, asset in zip(
        digests, (1, 1, 5, 2), (40, 41, 6, 9), (USD, USD, USD, sets.LUMENS))]
    held.append(claimable(digests[4], ["z", ("n", ALWAYS)], 7, USD, "z"))
    held.append(claimable(digests[5], [("a", sets.opposite(ALWAYS)), "c", "b", "d", "e"], 7, sets.LUMENS, "z", flags=1))
    entries[0] = with_counts(ISSUER, sponsoring=sum(len(value["body"][1]["claimants"]) for value in held))
    legal = image([*entries, *held])
    claim = sets.claim
    codes = [
        (claim(ID), -1), (claim(digests[0], "b"), -2), (claim(digests[0], "c"), -2), (claim(digests[0], "z"), -2), (claim(digests[5]), -2),
        (claim(digests[2], "c"), -4), (claim(digests[2], "d"), -5), (claim(digests[2], "e"), -5), (claim(digests[1]), -3),
        (claim(digests[0]), 0), (claim(digests[0]), -1), (claim(digests[2]), -3), (claim(digests[2], "b"), 0), (claim(digests[4], "z"), 0),
    ]
    story = Story(legal).run("a", *((op, R(15, number)) for op, number in codes), signers="abcdez")
    case("claims: their codes", story, "end 6", 1)
    story = Story(legal).run("a", (claim(digests[0]), R(15, 0)), (claim(digests[3]), R(15, 0)))
    story.run("b", (claim(digests[2]), R(15, 0)), (claim(digests[4], "z"), R(15, 0)), (claim(digests[5], "c"), R(15, 0)), signers="bcz")
    assert story.line("a")[0] == 100 and story.line("b")[0] == 6 and story.account("c")["balance"] == 100 * LUMEN + 7
    assert list(story.claimables()) == [digests[1]] and story.counts("z") == (1, 0, 1)
    case("claims: of lines, lumens and an issuer's own", story, "end 7", 2)
    # the low threshold is enough for a claim
    weak = entry(Account("a", 100 * LUMEN, data=1, thresholds=(0, 1, 2, 2)))
    others = [entry_ for entry_ in entries if entry_["body"][0] == 1 or entry_["body"][1]["id"] != (0, key("a"))]
    story = Story(image([weak, *others, *held])).run("a", (claim(digests[0]), R(15, 0)))
    case("claims: by the low threshold", story, "end 6", 1)
    # one transaction makes a balance and claims it: nothing of it is in the levels
    made = sets.balance_id("a", 1)
    story = Story(image(holders(a=(60, 100, 1), b=(0, 100, 5)))).run(
        "a", (sets.create_claimable(10, "b", USD), sets.set_aside(made)), (claim(made, "b"), R(15, 0)), signers="ab")
    assert {item[0][0] for item in story.ledger.levels.curr[0].rows} == {0, 1}
    case("claims: at once", story, "end 6", 1)


def times():
    """Claims at the times of their predicates."""
    both, either, opposite, before, within = sets.both, sets.either, sets.opposite, sets.before, sets.within
    made, legal = sets.balance_id("a", 1), image(holders(a=(60, 100, 1), b=(0, 100, 1)))
    for name, held, time in [
        ("an absolute time", before(1100), 1005), ("a relative time", within(95), 1005), ("a relative time", within(0), 1100),
    ]:
        for when, number in ((1099, 0), (1100, -2)) if time < 1099 else ((1101, -2), ):
            story = Story(legal).run("a", (sets.create_claimable(10, [("b", held)], USD), sets.set_aside(made)), time=time)
            stored = story.claimables()[made]["body"][1]["claimants"][0][1]["predicate"]
            assert stored == (4, 1100)
            story.run("b", (sets.claim(made), R(15, number)), time=when)
            case(f"times: {name} from {time}, at {when}", story, "end 7", 2)
    # past the greatest time, and in times that no predicate reaches
    for last, held, stored, when, number in [
        (GREATEST - 20, within(30), GREATEST, GREATEST - 1, 0), (GREATEST - 20, within(30), GREATEST, GREATEST, -2),
        (GREATEST - 20, within(14), GREATEST - 1, GREATEST - 1, -2), (GREATEST - 20, within(15), GREATEST, GREATEST - 1, 0),
        (2**64 - 20, within(0), GREATEST, 2**64 - 1, -2), (1000, within(GREATEST), GREATEST, 2000, 0),
    ]:
        value = {"set": NO_HASH, "time": last, "upgrades": [], "ext": (0, None)}
        story = Story(image(holders(a=(60, 100, 1), b=(0, 100, 1)), value=value))
        story.run("a", (sets.create_claimable(10, [("b", held)], USD), sets.set_aside(made)))
        assert story.claimables()[made]["body"][1]["claimants"][0][1]["predicate"] == (4, stored)
        story.run("b", (sets.claim(made), R(15, number)), time=when)
        ahead = int.from_bytes(held[4:], "big")
        case(f"times: {ahead} seconds after {last} stored as {stored}, at {when}", story, "end 7", 2)
    # predicates of parts; each time they are judged at 2000, and the relative ones count from 1005
    early, late = before(2000), before(2001)
    table = [
        (early, -2), (late, 0), (opposite(early), 0), (opposite(late), -2), (both(late, late), 0), (both(late, early), -2),
        (both(early, late), -2), (either(early, early), -2), (either(early, late), 0), (either(late, early), 0),
        (both(opposite(early), late), 0), (opposite(both(late, opposite(early))), -2), (opposite(either(early, late)), -2),
        (opposite(opposite(opposite(early))), 0), (within(995), -2), (within(996), 0), (both(within(996), opposite(within(995))), 0),
        (either(opposite(ALWAYS), within(996)), 0), (opposite(ALWAYS), -2), (both(ALWAYS, ALWAYS), 0),
    ]
    created = [(sets.create_claimable(1, [("n", ALWAYS), ("b", held)]), sets.set_aside(sets.balance_id("a", 1, index)))
               for index, (held, _) in enumerate(table)]
    story = Story(legal).run("a", *created)
    claimed = [(sets.claim(sets.balance_id("a", 1, index)), R(15, number)) for index, (_, number) in enumerate(table)]
    story.run("b", *claimed, time=2000)
    case("times: predicates of parts", story, "end 7", 2)
    story = Story(legal).run("a", *created).run("b", *(pair for pair in claimed if pair[1] == R(15, 0)), time=2000)
    assert len(story.claimables()) == sum(number != 0 for _, number in table)
    case("times: predicates that hold", story, "end 7", 2)


def clawed_balances():
    """What CLAWBACK_CLAIMABLE_BALANCE answers and leaves."""
    claw = sets.clawback_claimable
    digests = [sha(b"%d" % number) for number in range(5)]
    held = [
        claimable(digests[0], "ab", 10, USD, "a", 1), claimable(digests[1], "a", 10, USD, "a", 0), claimable(digests[2], "b", 10, USD, "a"),
        claimable(digests[3], "b", 10, payer="a", flags=1), claimable(digests[4], "b", 10, sets.asset("USD", "y"), "a", 1),
    ]
    story = Story(image([ISSUER, with_counts(A, sponsoring=6), B, *held]))
    codes = [
        (claw(ID), -1), (claw(digests[0], "a"), -2), (claw(digests[3]), -2), (claw(digests[4]), -2), (claw(digests[1], "a"), -2),
        (claw(digests[1]), -3), (claw(digests[2]), -3), (claw(digests[0]), 0), (claw(digests[0]), -1),
    ]
    story.run("z", *((op, R(20, number)) for op, number in codes), signers="za")
    case("balances clawed back: their codes", story, "end 6", 1)
    story.run("z", (claw(digests[0]), R(20, 0)))
    assert story.counts("a") == (1, 0, 4) and digests[0] not in story.claimables()
    case("balances clawed back", story, "end 7", 2)


BEGAN, ENDED = R(16, 0), R(17, 0)


def sponsored_by(name, who, *pairs):
    """Operations and results between the beginning and the end of a sponsorship."""
    return [(sets.begin_sponsoring(who, name), BEGAN), *pairs, (sets.end_sponsoring(who), ENDED)]


def sponsored_lines():
    """Lines that others pay for."""
    trust, revoke, of_line = sets.change_trust, sets.revoke, sets.line_key("a", USD)
    legal = image([*holders(a=None, b=None, c=None), entry(Account("p", 15_000_000 + 400))])
    story = Story(legal).run("b", *sponsored_by("b", "a", (trust(USD, 7, "a"), R(6, 0))), signers="ab")
    assert story.counts("a") == (2, 1, 0) and story.counts("b") == (1, 0, 1)
    # the line goes from b to c, then to a itself, and then again to b
    story.run("c", *sponsored_by("c", "b", (revoke(of_line, "b"), R(18, 0))), signers="bc")
    assert story.counts("a") == (2, 1, 0) and story.counts("b") == (1, 0, 0) and story.counts("c") == (1, 0, 1)
    story.run("b", (revoke(of_line), R(18, -2)), (revoke(of_line, "a"), R(18, -2)), signers="ab")
    story.run("c", (revoke(of_line), R(18, 0)))
    assert story.counts("a") == (2, 0, 0) and story.counts("c") == (1, 0, 0)
    story.run("a", (revoke(of_line), R(18, 0)), *sponsored_by("b", "a", (revoke(of_line, "a"), R(18, 0))), signers="ab")
    assert story.counts("a") == (2, 1, 0) and story.counts("b") == (1, 0, 1)
    # whoever opens a sponsorship for the sponsor and owns the line takes it back
    story.run("a", *sponsored_by("a", "b", (revoke(of_line, "b"), R(18, 0))), signers="ab")
    assert story.counts("a") == (2, 0, 0) and story.counts("b") == (1, 0, 0)
    case("lines with sponsors: from hand to hand", story, "end 11", 6)
    story = Story(legal).run("b", *sponsored_by("b", "a", (trust(USD, 7, "a"), R(6, 0)), (trust(USD, 8, "a"), R(6, 0))), signers="ab")
    story.run("b", (sets.account_merge("c"), R(8, -7)), (sets.account_merge("c", "a"), R(8, -4)), signers="ab")
    story.run("a", (trust(USD, 0), R(6, 0))).run("b", (sets.account_merge("c"), R(8, 0, 100 * LUMEN - 700)))
    case("lines with sponsors: removed", story, "end 9", 4)
    # p can't pay for more
    story = Story(legal).run("p", *sponsored_by("p", "a", (trust(USD, 7, "a"), R(6, -4))), signers="ap")
    story.run("a", *sponsored_by("b", "p", (trust(USD, 7, "p"), R(6, 0))), signers="abp")
    assert story.counts("p") == (2, 1, 0)
    story.run("b", (revoke(sets.line_key("p", USD)), R(18, -3)))
    case("lines with sponsors: no reserve for one", story, "end 8", 3)
    codes = [
        (sets.line_key("a", sets.LUMENS), -5), (sets.line_key("a", code(b"US D")), -5), (sets.line_key("a", sets.asset("USD", "a")), -5),
        (sets.line_key("a", EUR), -1), (sets.line_key("n", USD), -1), (of_line, -1), (sets.line_key("a", u32(3) + ID), -1),
        (sets.claimable_key(ID), -1), (sets.pool_key(ID), -5), (sets.offer_key("a", 0), -5), (sets.offer_key("a", 1), -1),
        (sets.account_key("n"), -1),
    ]
    story = Story(legal).run("a", *((revoke(it), R(18, number)) for it, number in codes))
    case("REVOKE_SPONSORSHIP: of what isn't there", story, "end 6", 1)


def sponsored_balances():
    """Claimable balances and who pays for them."""
    create, revoke = sets.create_claimable, sets.revoke
    legal = image([*holders(a=(60, 100, 5), b=(0, 100, 1), c=None), entry(Account("p", 20_000_000 + 300))])
    made = sets.balance_id("b", 1, 1)
    story = Story(legal).run("b", *sponsored_by("b", "a", (create(10, "bc", USD, "a"), sets.set_aside(made))), signers="ab")
    assert story.counts("a") == (2, 0, 0) and story.counts("b") == (2, 0, 2)
    it = sets.claimable_key(made)
    story.run("b", (revoke(it, "a"), R(18, -2)), (revoke(it, "c"), R(18, -2)), (revoke(it), R(18, -4)), signers="abc")
    story.run("c", *sponsored_by("c", "b", (revoke(it, "b"), R(18, 0))), signers="bc")
    assert story.counts("b") == (2, 0, 0) and story.counts("c") == (1, 0, 2)
    # p has reserve for one alone
    story.run("p", *sponsored_by("p", "c", (revoke(it, "c"), R(18, -3))), signers="cp")
    story.run("c", (revoke(it), R(18, -4)), (sets.account_merge("b"), R(8, -7)))
    story.run("b", (sets.claim(made), R(15, 0)))
    assert story.counts("c") == (1, 0, 0)
    case("balances with sponsors: from hand to hand", story, "end 11", 6)
    # the sponsor of a maker needs the reserve, and the maker what it sets aside
    poor = Story(legal).run("p", (create(100, "b"), sets.set_aside(sets.balance_id("p", 1))))
    assert poor.counts("p") == (1, 0, 1) and poor.account("p")["balance"] == 20_000_100
    poor.run("b", (create(100, "b", source="p"), R(14, -2)), (create(101, "b", source="p"), R(14, -5)),
             *sponsored_by("b", "p", (create(101, "b", source="p"), R(14, -5))), signers="bp")
    poor.run("b", *sponsored_by("b", "p", (create(100, "b", source="p"), sets.set_aside(sets.balance_id("b", 2, 1)))), signers="bp")
    assert poor.counts("p") == (1, 0, 1) and poor.counts("b") == (2, 0, 1)
    case("balances with sponsors: a maker without funds", poor, "end 8", 3)
    rich = Story(legal).run("b", *sponsored_by("b", "p", (create(5_000_000, "abcz", source="p"), sets.set_aside(made))), signers="bp")
    assert rich.counts("p") == (1, 0, 0) and rich.counts("b") == (2, 0, 4) and rich.account("p")["balance"] == 15_000_300
    case("balances with sponsors: a maker without reserve", rich, "end 6", 1)
    short = Story(legal).run("p", *sponsored_by("p", "a", (create(5, "bcz", USD, "a"), R(14, -2))), signers="ap")
    case("balances with sponsors: a sponsor without reserve", short, "end 6", 1)


def all_sponsored():
    """An account without lumens for reserves: another one pays for it, its signer, its line and its data, and for a claimable balance."""
    revoke = sets.revoke
    owner = entry(Account("a", 7, data=2))
    signer = u32(2) + sets.hash_x(sets.secret_of("a"))[1]
    data = model.with_sponsor(entry(sets.Data("a", b"x", b"y")), key("b"))
    entries = [
        ISSUER, model.with_sponsor(with_counts(owner, sponsored=5, sponsors="b"), key("b")), with_counts(B, sponsoring=7), C, data,
        line("a", balance=5, payer="b"), claimable(ID, "ac", 3, payer="b"),
    ]
    things = [
        sets.account_key("a"), sets.line_key("a"), u32(3) + u32(0) + key("a") + sets.var(b"x"), None, sets.claimable_key(ID),
    ]

    def revoked(source, *numbers):
        """REVOKE_SPONSORSHIP of each of them."""
        of_signer = sets.operation(18, u32(1) + u32(0) + key("a") + signer, source)
        return [(of_signer if thing is None else revoke(thing, source), R(18, number)) for thing, number in zip(things, numbers)]

    story = Story(image(entries))
    story.run("b", *revoked("b", -3, -3, -3, -3, -4)).run("c", *revoked("c", *[-2] * 5)).run("c", *revoked("a", *[-2] * 5), signers="ac")
    story.run("c", *sponsored_by("c", "b", *revoked("b", *[0] * 5)), signers="bc")
    assert [story.counts(name) for name in "abc"] == [(3, 5, 0), (1, 0, 0), (1, 0, 7)]
    gone = [
        (sets.account_merge("b", "a"), R(8, -4)), (sets.manage_data(b"x", None, "a"), R(10, 0)), (pay("z", 5, "a"), R(1, 0)),
        (sets.change_trust(limit=0, source="a"), R(6, 0)), (sets.claim(ID, "a"), R(15, 0)), (sets.account_merge("b", "a"), R(8, 0, 10)),
    ]
    story.run("c", *gone, signers="ac").run("c", *gone[1:], signers="ac")
    assert story.counts("c") == (1, 0, 0) and len(story.ledger.entries) == 3
    case("an account that others pay for altogether", story, "end 11", 6)


def sponsored_reserves():
    """Reserves at their bounds, where others pay for some of them."""
    of_line = sets.revoke(sets.line_key("a"))
    for name, balance, number in [("just", 20_000_000, 0), ("a stroop less than", 19_999_999, -3)]:
        owner = with_counts(entry(Account("a", balance, data=1)), sponsored=1)
        story = Story(image([ISSUER, owner, with_counts(B, sponsoring=1), line("a", payer="b")])).run("b", (of_line, R(18, number)))
        case(f"reserves: an owner with {name} what its line needs", story, "end 6", 1)
    # two reserves, and one for a signer: the line is b's
    owner = with_counts(entry(Account("a", 15_001_000, data=1)), sponsored=1)
    legal = image([ISSUER, owner, with_counts(B, sponsoring=1), line("a", payer="b")])
    spends = [(sets.payment("b", 1_001, "a"), R(1, -2)), (sets.payment("b", 1_000, "a"), R(1, 0)), (sets.payment("b", 1, "a"), R(1, -2))]
    story = Story(legal).run("b", *spends, signers="ab").run("b", spends[1], signers="ab")
    assert story.account("a")["balance"] == 15_000_000
    case("reserves: what is left to spend", story, "end 7", 2)
    # b sets aside what it has, but for the fee and 5 reserves, of which one is that of the balance
    story = Story(legal)
    rest = 100 * LUMEN - 200 - 5 * 5_000_000
    made = sets.balance_id("b", 1, 1)
    story.run("b", (sets.create_claimable(rest + 1, "a"), R(14, -2)), (sets.create_claimable(rest, "a"), sets.set_aside(made)))
    case("reserves: a sponsor that sets all aside", story, "end 6", 1)


def sponsored_signers():
    """Signers that others pay for, between those of an account's own."""
    secrets = sorted([b"one", b"two", b"three", b"four"], key=lambda secret: sha(secret))
    story = Story(image([ISSUER, HOLDER, B, C, line("a")]))

    def put(index, weight=1):
        return sets.set_options("a", signer=sets.hash_x(secrets[index], weight)), R(5, 0)

    def payers():
        account = story.account("a")
        rows = {signer["key"][1]: payer and payer[1] for signer, payer in zip(account["signers"], model.second(account)["sponsors"])}
        assert list(rows) == sorted(rows)
        return [rows.get(sha(secret), 0) for secret in secrets]

    story.run("b", *sponsored_by("b", "a", put(2)), signers="ab").run("c", *sponsored_by("c", "a", put(0)), signers="ac")
    story.run("a", put(1), put(3))
    assert payers() == [key("c"), None, key("b"), None]
    assert [story.counts(name) for name in "abc"] == [(6, 2, 0), (1, 0, 1), (1, 0, 1)]
    story.run("a", put(1, 0)).run("a", put(2, 7), put(0, 0), signers="a")
    assert payers() == [0, 0, key("b"), None]
    story.run("b", *sponsored_by("b", "a", put(0), put(3, 2)), signers="ab").run("a", put(2, 0))
    assert payers() == [key("b"), 0, 0, None]
    assert [story.counts(name) for name in "abc"] == [(4, 1, 0), (1, 0, 1), (1, 0, 0)]
    case("signers that others pay for", story, "end 12", 7)


def rewritten():
    """Entries that are changed, as they were, or made anew within a ledger."""
    trust, create = sets.change_trust, sets.create_claimable
    old, kept = line("a", flags=5, uses=0), {**line("a", EUR, 5), "ext": (1, {"sponsor": None, "ext": (0, None)})}
    legal = image([ISSUER, entry(Account("a", 100 * LUMEN, data=2)), B, old, kept])

    def changed(story):
        return [(item[0][0], item[1]) for item in story.ledger.levels.curr[0].rows]

    # extensions stay; a line that is made anew has none, so it isn't as before
    story = Story(legal).run("a", (trust(limit=7), R(6, 0)), (trust(EUR, 8), R(6, 0)))
    entries = story.ledger.entries
    ranks = [line_rank(key("a"), ASSET.read(Text(asset))) for asset in (USD, EUR)]
    assert [entries[rank]["body"][1]["ext"][0] for rank in ranks] == [1, 0] and entries[ranks[1]]["ext"][0] == 1
    case("rewritten: lines with extensions", story, "end 6", 1)
    plain = image([ISSUER, HOLDER, B, line("a", flags=5)])
    for name, limit, rows in [("as it was", 100, [(0, LIVE)]), ("with another limit", 99, [(0, LIVE), (1, LIVE)])]:
        story = Story(plain).run("a", (trust(limit=0), R(6, 0)), (trust(limit=limit), R(6, 0)))
        assert changed(story) == rows
        case(f"rewritten: a line made anew, {name}", story, "end 6", 1)
    story = Story(legal).run("a", (trust(limit=0), R(6, 0)), (trust(limit=100), R(6, 0)))
    assert changed(story) == [(0, LIVE), (1, LIVE)]
    case("rewritten: a line made anew, without its extension", story, "end 6", 1)
    story = Story(image([ISSUER, A, B]))
    story.close(sent("a", 1, trust(limit=9)), sent("a", 2, trust(limit=8)), sent("a", 3, trust(limit=0)), expected=[sets.ok(R(6, 0))] * 3)
    assert story.line("a") is None and changed(story) == [(0, LIVE)]
    case("rewritten: a line made and removed in one ledger", story, "end 6", 1)
    story = Story(image([ISSUER, A, B])).run("a", (trust(limit=9), R(6, 0)), (trust(limit=0), R(6, 0)), (trust(limit=8), R(6, 0)))
    assert (1, INIT) in changed(story)
    story.run("a", (trust(limit=0), R(6, 0)))
    case("rewritten: a line made, removed and made, and removed", story, "end 7", 2)
    made = sets.balance_id("a", 1)
    story = Story(image([ISSUER, A, B])).run("a", (create(5, "b"), sets.set_aside(made)))
    story.run("b", (sets.claim(made), R(15, 0)), (create(5, "a"), sets.set_aside(sets.balance_id("b", 1, 1))))
    assert changed(story) == [(0, LIVE), (0, LIVE), (4, INIT)]
    case("rewritten: a balance claimed and another made", story, "end 7", 2)
    # limits change and change back
    story = Story(plain).run("a", (trust(limit=7), R(6, 0)), (trust(limit=100), R(6, 0)), (sets.allow_trust("a", 2, source="z"), R(7, 0)),
                             (sets.allow_trust("a", 1, source="z"), R(7, 0)), signers="az")
    assert changed(story) == [(0, LIVE)]
    case("rewritten: a line changed and changed back", story, "end 6", 1)


def all_at_once():
    """Each operation on assets in one transaction."""
    operations = [
        pay("a", 1), sets.change_trust(), sets.allow_trust("b", 1), sets.create_claimable(1, "b"), sets.claim(ID),
        sets.revoke(sets.pool_key(ID)), sets.clawback("b", 1), sets.clawback_claimable(ID), sets.set_line_flags("b"),
    ]
    codes = [(1, 0), (6, 0), (7, -2), (14, 0), (15, -1), (18, -5), (19, -1), (20, -1), (21, -1)]
    results = [sets.set_aside(sets.balance_id("a", 1, 3)) if kind == 14 else R(kind, number) for kind, number in codes]
    story = Story(image([*holders(a=(60, 100, 5)), B])).close(sent("a", 1, *operations, fee=900), expected=[sets.failed(*results)])
    case("each operation in one transaction", story, "end 6", 1)


def asset_records():
    """Records with operations of assets that don't read."""
    legal = image([A, B])

    def bad(name, op, end):
        story = Story(legal)
        case(f"a record: {name}", story.add(story.record(sent("a", 1, op))), f"refused 6 {end}")

    # the type of the first operation is at 108, after the flag of its source, and its fields begin at 112
    bad("a payment of shares", pay("b", 1, asset=u32(3) + ID), "BadXdr 148 BadEnum")
    bad("a line of another type", sets.change_trust(u32(4)), "BadXdr 112 BadEnum")
    bad("ALLOW_TRUST of lumens", sets.operation(7, u32(0) + key("b") + u32(0) + u32(1)), "BadXdr 148 BadEnum")
    bad("eleven claimants", sets.create_claimable(1, "bcdefghijkl"), "BadXdr 124 TooLong")
    bad("a claimant of type 1", sets.operation(14, u32(0) + i64(1) + many([u32(1)])), "BadXdr 128 BadEnum")
    bad("three parts of an or", sets.create_claimable(1, [("b", u32(2) + many([u32(0)] * 3))]), "BadXdr 172 TooLong")
    bad("an id of type 1", sets.operation(15, u32(1) + ID), "BadXdr 112 BadEnum")
    bad("a key of type 6", sets.revoke(u32(6)), "BadXdr 116 BadEnum")
    bad("a sponsored thing of type 2", sets.operation(18, u32(2)), "BadXdr 112 BadEnum")


def consequences():
    """What lines and balances mean for other operations, later ones, and fees."""
    create, claim, trust = sets.create_claimable, sets.claim, sets.change_trust
    # after the fee p has just the reserve that its balance set aside needs, and can't bid again until that is claimed
    story = Story(image([ISSUER, A, B, entry(Account("p", 20_000_200))]))
    made = sets.balance_id("p", 1)
    story.run("p", (create(100, "a"), sets.set_aside(made)))
    story.close(sent("p", 2, NOTHING), expected=[i32(-7)])
    story.run("a", (claim(made), R(15, 0))).run("p", (NOTHING, sets.BUMPED))
    case("consequences: no reserve for a bid", story, "end 9", 4)
    # whose maker had a sponsor exists when the maker is gone
    made = sets.balance_id("b", 1, 1)
    story = Story(image(holders(a=(60, 100, 1), b=None, c=None)))
    story.run("b", *sponsored_by("b", "c", (create(7, "a", source="c"), sets.set_aside(made))), signers="bc")
    story.run("b", (sets.account_merge("b", "c"), R(8, 0, 100 * LUMEN - 7)), (sets.create_account("c", 2 * LUMEN), R(0, 0)), signers="bc")
    story.run("b", (sets.account_merge("a"), R(8, -7))).run("a", (claim(made), R(15, 0)))
    story.run("b", (sets.account_merge("a"), R(8, 0, 198 * LUMEN - 7 - 700)))
    case("consequences: a maker that is gone", story, "end 10", 5)
    # a line's flag of clawback stays when its issuer gives up its own, and what is set aside follows the one that counts for its maker
    story = Story(image(holders(a=(60, 100, 5), b=(60, 100, 1))))
    story.run("z", (sets.set_options(clears=8), R(5, 0)), (sets.clawback("a", 1), R(19, 0)))
    made = [sets.balance_id("a", 1, index) for index in range(3)]
    story.run("a", (create(5, "b", USD), sets.set_aside(made[0])), (create(5, "b", USD, "z"), sets.set_aside(made[1])),
              (create(5, "b", USD, "b"), sets.set_aside(made[2])), signers="abz")
    claw = sets.clawback_claimable
    story.run("z", *((claw(digest), R(20, number)) for digest, number in zip(made, (0, -3, -3)))).run("z", (claw(made[0]), R(20, 0)))
    assert set(story.claimables()) == set(made[1:])
    case("consequences: an issuer that gives up clawback", story, "end 9", 4)
    # a balance waits for a line, for its authorisation and for its limit
    story = Story(image([entry(Account("z", 100 * LUMEN, flags=1)), A, B]))
    made = sets.balance_id("z", 1)
    story.run("z", (create(50, "ab", USD), sets.set_aside(made)))
    story.run("a", (claim(made), R(15, -4)), (trust(USD, 49), R(6, 0))).run("a", (trust(USD, 49), R(6, 0)))
    story.run("a", (claim(made), R(15, -5))).run("z", (sets.allow_trust("a", 1), R(7, 0)))
    story.run("a", (claim(made), R(15, -3)), (trust(USD, 50), R(6, 0))).run("a", (trust(USD, 50), R(6, 0)), (claim(made), R(15, 0)))
    assert story.line("a") == (50, 50, 1) and not story.claimables()
    case("consequences: a balance that waits", story, "end 12", 7)
    # lines are ordered by account, form of code, code and issuer, however they are made; ids come as they come
    codes = ["B", "AB", "ABCDE", "A", "ABCDEFGHIJKL", "a", "ABCD", "9", "ABCDF"]
    assets = [sets.asset(name, issuer) for name in codes for issuer in "zyz"[:2]]
    story = Story(image([ISSUER, entry(Account("y", 100 * LUMEN)), A, B]))
    story.run("a", *((trust(asset, source=name), R(6, 0)) for asset in assets for name in "ba"), signers="ab")
    ranks = [item[0] for item in story.ledger.levels.curr[0].rows if item[0][0] == 1]
    assert ranks == sorted(ranks) and len(ranks) == 36
    story.run("b", *((create(1, "a"), sets.set_aside(sets.balance_id("b", 1, index))) for index in range(12)))
    story.run("a", *((trust(asset, 0, name), R(6, 0)) for asset in assets[::3] for name in "ab"), signers="ab")
    story.run("a", *((claim(sets.balance_id("b", 1, index)), R(15, 0)) for index in range(0, 12, 2))).close().close()
    case("consequences: many keys in order", story, "end 11", 6)
    story = Story(image([A, B])).run("a", *((create(1, "b"), sets.set_aside(sets.balance_id("a", 1, index))) for index in range(100)))
    story.run("b", *((claim(sets.balance_id("a", 1, index)), R(15, 0)) for index in range(1, 100)))
    assert list(story.claimables()) == [sets.balance_id("a", 1, 0)]
    case("consequences: a hundred balances", story, "end 7", 2)


def asset_story():
    """Ledgers in a row in which all kinds of entries are made, changed and removed, so that they go down the levels."""
    create, names = sets.create_claimable, "abcdefgh"
    story = Story(image([ISSUER, *(entry(Account(name, 100 * LUMEN)) for name in names)], seq=30))
    seqs, made = dict.fromkeys([*names, "z"], 0), []

    def tx(source, *operations, **more):
        seqs[source] += 1
        return sent(source, seqs[source], *operations, fee=100 * len(operations), **more)

    story.close(*(tx(name, sets.change_trust(USD, 1000)) for name in names), expected=[sets.ok(R(6, 0))] * 8)
    story.close(tx("z", *(pay(name, 500) for name in names)), expected=[sets.ok(*[R(1, 0)] * 8)])
    for number in range(40):
        one, two, three = (names[(number + step) % 8] for step in (0, 1, 3))
        listed = [tx(one, pay(two, 10 + number))]
        if number % 3 == 0:
            made.append(sets.balance_id(two, seqs[two] + 1))
            listed.append(tx(two, create(5, [three, (one, sets.within(20))], USD if number % 2 else sets.LUMENS)))
        if number % 3 == 2 and number > 8:
            # its first claimant claims it two turns later
            index = number // 3 - 2
            listed.append(tx(names[(3 * index + 3) % 8], sets.claim(made[index])))
        if number % 5 == 4:
            listed.append(tx("z", sets.set_line_flags(three, 1, 2), sets.set_line_flags(three, 2, 1), sets.clawback(three, 1)))
        if number % 7 == 6:
            sandwich = sponsored_by(one, two, (sets.change_trust(EUR, 5, two), R(6, 0)), (sets.change_trust(EUR, 0, two), R(6, 0)))
            listed.append(tx(one, *(op for op, _ in sandwich), signers=one + two))
        story.close(*listed, expected=[sets.ok(R(1, 0))])
        assert all(outcome[:4] == bytes(4) for outcome in story.ledger.outcomes.values()), number
    left = sum(story.line(name)[0] for name in names)
    aside = sum(value["body"][1]["amount"] for value in story.claimables().values() if issuer_of(value["body"][1]["asset"]))
    assert left + aside == 8 * 500 - 8
    case("42 ledgers with all kinds of entries", story, "end 72", 42)


PARTS = [
    line_ranges, claimable_ranges, asset_rules, asset_rules_at_once, offer_ranges, offer_rules, asset_files, payments, lines, many_lines, authorisation, clawbacks,
    set_aside_codes, set_aside, claims, times, clawed_balances, sponsored_lines, sponsored_balances, all_sponsored,
    sponsored_reserves, sponsored_signers, rewritten, all_at_once, asset_records, consequences, asset_story,
]
