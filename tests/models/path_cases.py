"""The cases of payments along paths, which `run_cases.py` writes. Each says by hand how it ends, what each operation answers, and what is
left.
"""

from ledger_model import GREATEST, i32, i64, many, u32
import set_cases as sets  # ledger_model puts its folder first
from asset_cases import EUR, R
from case_tools import USD, case, key, offer
from pool_tools import LUMENS, PAIR, flagged, left_in, pool, pool_of, story_of

RECEIVE, SEND = 2, 13
EXCEEDED_WORK_LIMIT = i32(-5)
NATIVE_USD, EUR_USD = pool_of(*PAIR), pool_of(EUR, USD)
MILLION = 1_000_000


def along(kind, to, amount, limit, sent=LUMENS, got=USD, path=(), source=None):
    """A payment of an amount that is fixed: what arrives, for at most the limit, or what is sent, for at least the limit."""
    first, last = (limit, amount) if kind == RECEIVE else (amount, limit)
    return sets.operation(kind, sent + i64(first) + sets.muxed(to) + got + i64(last) + many(list(path)), source)


def arrived(kind, atoms, to, got, amount):
    return R(kind, 0) + many(list(atoms)) + u32(0) + key(to) + got + i64(amount)


def by_pool(digest, sold, amount, bought, cost):
    """What a pool gave and took."""
    return i32(2) + digest + sold + i64(amount) + bought + i64(cost)


# a pays, b is paid, c offers, h has all shares of the pools
HELD = {
    "a": {USD: (10_000, GREATEST, 1), EUR: (10_000, GREATEST, 1)}, "b": {USD: (0, GREATEST, 1), EUR: (0, GREATEST, 1)},
    "c": {USD: (10_000, GREATEST, 1), EUR: (10_000, GREATEST, 1)}, "h": {USD: (0, GREATEST, 1), EUR: (0, GREATEST, 1)},
}


def market(*offers, pools=(PAIR,), lines=HELD, header=None, **more):
    """A story with pools that have a million of both assets, and offers."""
    shares = [("h", pair, MILLION, GREATEST, None) for pair in pools]
    return story_of(lines, shares, [pool(*pair, MILLION, MILLION, MILLION, 1) for pair in pools], header, offers, **more)


def selling(amount, price, sold=USD, bought=LUMENS, number=1, name="c"):
    return offer(name, number, sold, bought, amount, price)


def hops():
    """One hop, by the pool and by the book."""
    # 996 of a million for 1000, of which 3 are the fee
    by = by_pool(NATIVE_USD, USD, 996, LUMENS, 1000)
    story = market().run("a", (along(RECEIVE, "b", 996, 1000), arrived(RECEIVE, [by], "b", USD, 996)))
    assert left_in(story, NATIVE_USD) == (1_001_000, 999_004, MILLION, 1) and story.line("b")[0] == 996
    story.run("a", (along(RECEIVE, "b", 1, 1), R(RECEIVE, -12)))
    case("hops: a pool serves", story, "end 7", 2)
    # a stroop less than the pool, and as much
    taken = sets.taken("c", 1, USD, 996, LUMENS, 999)
    story = market(selling(996, (999, 996))).run("a", (along(RECEIVE, "b", 996, 1000), arrived(RECEIVE, [taken], "b", USD, 996)))
    assert left_in(story, NATIVE_USD) == (MILLION, MILLION, MILLION, 1)
    case("hops: the book is cheaper", story, "end 6", 1)
    story = market(selling(996, (1000, 996))).run("a", (along(RECEIVE, "b", 996, 1000), arrived(RECEIVE, [by], "b", USD, 996)))
    case("hops: a pool that costs as much as the book", story, "end 6", 1)
    # what is sent, and what comes of it
    story = market().run("a", (along(SEND, "b", 1000, 997), R(SEND, -12)), (along(SEND, "b", 1, 1), R(SEND, -10)))
    story.run("a", (along(SEND, "b", 1000, 996), arrived(SEND, [by], "b", USD, 996)))
    case("hops: a pool gives what it can for what is sent", story, "end 7", 2)
    story = market(selling(1010, (99, 100))).run(
        "a", (along(SEND, "b", 1000, 1), arrived(SEND, [by], "b", USD, 996)),
        (along(SEND, "b", 99, 1), arrived(SEND, [sets.taken("c", 1, USD, 100, LUMENS, 99)], "b", USD, 100)))
    case("hops: a book that can't take all that is sent", story, "end 6", 1)
    # a pool of 1000 and 1000 hasn't more than 999 to give
    small = story_of(HELD, [("h", PAIR, 1, GREATEST, None)], [pool(*PAIR, 1000, 1000, 1, 1)])
    most = by_pool(NATIVE_USD, USD, 999, LUMENS, 1_002_007)
    small.run("a", (along(RECEIVE, "b", 1000, GREATEST), R(RECEIVE, -10)))
    small.run("a", (along(RECEIVE, "b", 999, GREATEST), arrived(RECEIVE, [most], "b", USD, 999)))
    case("hops: all but one unit of a pool", small, "end 7", 2)
    case("hops: neither a pool nor a book", market(pools=()).run("a", (along(RECEIVE, "b", 1, 10), R(RECEIVE, -10)),
                                                             (along(SEND, "b", 1, 1), R(SEND, -10))), "end 6", 1)
    off = market(header=flagged(1)).run("a", (along(RECEIVE, "b", 996, 1000), R(RECEIVE, -10)))
    case("hops: trading with pools is disabled", off, "end 6", 1)


def own_offers():
    """Offers of the payer, and of whom it pays."""
    own = selling(996, (1, 1), name="a")
    for kind in (RECEIVE, SEND):
        story = market(own, pools=()).run("a", (along(kind, "b", 100, 100), R(kind, -11)))
        case(f"own offers: no pool, {kind}", story, "end 6", 1)
    by = by_pool(NATIVE_USD, USD, 996, LUMENS, 1000)
    for kind, amount, limit in [(RECEIVE, 996, 1000), (SEND, 1000, 996)]:
        story = market(own).run("a", (along(kind, "b", amount, limit), arrived(kind, [by], "b", USD, 996)))
        case(f"own offers: the pool serves, {kind}", story, "end 6", 1)
    # b is paid the USD that its own offer sells, of which it had none before the payment but what is bound
    lines = {**HELD, "b": {USD: (10, GREATEST, 1)}}
    story = market(selling(10, (1, 1), name="b"), pools=(), lines=lines)
    story.run("a", (along(RECEIVE, "b", 10, 10), arrived(RECEIVE, [sets.taken("b", 1, USD, 10, LUMENS, 10)], "b", USD, 10)))
    assert story.line("b")[0] == 10
    case("own offers: of whom is paid", story, "end 6", 1)


def chains():
    """Chains of hops, in the order of the payment."""
    both = (PAIR, (EUR, USD))
    # 100 EUR cost 101 USD, and these cost 102 lumens
    atoms = [by_pool(NATIVE_USD, USD, 101, LUMENS, 102), by_pool(EUR_USD, EUR, 100, USD, 101)]
    for name, path in [("two hops", [USD]), ("equal neighbours are no hop", [LUMENS, USD, USD, EUR])]:
        story = market(pools=both).run("a", (along(RECEIVE, "b", 100, 102, got=EUR, path=path), arrived(RECEIVE, atoms, "b", EUR, 100)))
        assert left_in(story, NATIVE_USD)[:2] == (1_000_102, 999_899) and left_in(story, EUR_USD)[:2] == (999_900, 1_000_101)
        case(f"chains: {name}", story, "end 6", 1)
    # 102 lumens give 101 USD, and these 100 EUR
    story = market(pools=both).run("a", (along(SEND, "b", 102, 100, got=EUR, path=[USD]), arrived(SEND, atoms, "b", EUR, 100)))
    case("chains: what is sent goes on", story, "end 6", 1)
    # one pair three times: each hop finds the pool as the others left it
    thrice = [by_pool(NATIVE_USD, USD, 102, LUMENS, 103), by_pool(NATIVE_USD, LUMENS, 101, USD, 102),
              by_pool(NATIVE_USD, USD, 100, LUMENS, 101)]
    story = market().run("a", (along(RECEIVE, "b", 100, 103, path=[USD, LUMENS]), arrived(RECEIVE, thrice, "b", USD, 100)))
    case("chains: one pair three times", story, "end 6", 1)
    # nothing is traded
    for kind in (RECEIVE, SEND):
        story = market().run("a", (along(kind, "b", 7, 7, USD, USD, [USD]), arrived(kind, [], "b", USD, 7)))
        assert story.line("a")[0] == 9993 and story.line("b")[0] == 7
        case(f"chains: one asset alone, {kind}", story, "end 6", 1)
    story = market().run("a", (along(RECEIVE, "a", 100, 101), arrived(RECEIVE, [by_pool(NATIVE_USD, USD, 100, LUMENS, 101)], "a", USD, 100)))
    case("chains: to oneself", story, "end 6", 1)


def crossings():
    """A thousand crossings of all hops together, and two more."""
    for number in (500, 501):
        dollars = [selling(1, (1, 1), USD, LUMENS, 1 + index, "c") for index in range(number)]
        euros = [selling(1, (1, 1), EUR, USD, 1 + number + index, "d") for index in range(number)]
        lines = {**HELD, "d": {USD: (0, GREATEST, 1), EUR: (10_000, GREATEST, 1)}}
        more = {"c": 10**10, "d": 10**10}
        story = market(*dollars, *euros, pools=(), lines=lines, lumens=more)
        atoms = [sets.taken("c", 1 + index, USD, 1, LUMENS, 1) for index in range(number)]
        atoms += [sets.taken("d", 1 + number + index, EUR, 1, USD, 1) for index in range(number)]
        answer = arrived(RECEIVE, atoms, "b", EUR, number) if number == 500 else EXCEEDED_WORK_LIMIT
        story.run("a", (along(RECEIVE, "b", number, number, got=EUR, path=[USD]), answer))
        case(f"crossings: {2 * number} on two hops", story, "end 6", 1)


def codes():
    """What both payments answer, at both sides of their bounds."""
    bad = u32(1) + b"US D" + u32(0) + key("z")
    strange = sets.asset("USD", "y")
    lines = {
        **HELD, "d": {}, "e": {USD: (0, GREATEST, 2), EUR: (5, GREATEST, 2)}, "f": {USD: (95, 100, 1)}, "g": {USD: (5, 100, 1)},
        "i": {strange: (5, 100, 1)},
    }
    for kind in (RECEIVE, SEND):
        forms = [
            along(kind, "b", 0, 1), along(kind, "b", 1, 0), along(kind, "b", -1, 1), along(kind, "b", 1, 1, bad), along(kind, "b", 1, 1, got=bad),
            along(kind, "b", 1, 1, path=[bad]),
        ]
        case(f"codes: malformed, {kind}", market().run("a", *[(op, R(kind, -1)) for op in forms]), "end 6", 1)
        story = market(lines=lines).run("i", (along(kind, "y", 5, 5, strange, strange), arrived(kind, [], "y", strange, 5)))
        story.run("i", (along(kind, "y", 1, 1, strange, strange, [strange]), R(kind, -5)), (along(kind, "y", 1, 1, LUMENS, strange), R(kind, -5)),
                  (along(kind, "y", 1, 1, LUMENS, LUMENS), R(kind, -5)))
        case(f"codes: no account of the destination, {kind}", story, "end 7", 2)
        rows = [
            ("d", along(kind, "d", 1, 1, USD, USD, source="a"), -6), ("e", along(kind, "e", 1, 1, USD, USD, source="a"), -7),
            ("f", along(kind, "f", 6, 6, USD, USD, source="a"), -8), ("d", along(kind, "b", 1, 1, USD, USD, source="d"), -3),
            ("e", along(kind, "b", 1, 1, EUR, EUR, source="e"), -4), ("g", along(kind, "b", 6, 6, USD, USD, source="g"), -2),
        ]
        story = market(lines=lines).run("a", *[(op, R(kind, number)) for _, op, number in rows], signers="adeg")
        case(f"codes: lines, {kind}", story, "end 6", 1)
        story = market(lines=lines).run("a", (along(kind, "f", 5, 5, USD, USD), arrived(kind, [], "f", USD, 5)),
                                        (along(kind, "b", 5, 5, USD, USD, source="g"), arrived(kind, [], "b", USD, 5)), signers="ag")
        case(f"codes: all room, and all there is, {kind}", story, "end 6", 1)
    # where both would fail: the destination comes first where an amount is received, and the source where one is sent
    story = market(lines=lines).run("d", (along(RECEIVE, "e", 1, 1, USD, USD), R(RECEIVE, -7)), (along(SEND, "e", 1, 1, USD, USD), R(SEND, -3)))
    case("codes: which comes first", story, "end 6", 1)
    # the hops come before the limit, and the limit before what the source has
    story = market(lines=lines).run(
        "g", (along(RECEIVE, "b", 10, 9, USD, LUMENS), R(RECEIVE, -12)), (along(RECEIVE, "b", 10, 11, USD, LUMENS), R(RECEIVE, -2)),
        (along(RECEIVE, "b", MILLION, 9, USD, LUMENS), R(RECEIVE, -10)))
    case("codes: hops, limit and funds", story, "end 6", 1)


PARTS = [hops, own_offers, chains, crossings, codes]
