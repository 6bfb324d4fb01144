"""The cases of payments along paths at the bounds of what they rest on: how many offers are crossed, what pools can give, lumens, and
what yields nothing. Each says by hand how it ends, and what each operation answers.
"""

from ledger_model import GREATEST, u32
import set_cases as sets  # ledger_model puts its folder first
from asset_cases import EUR, R
from case_tools import USD, case, key
from path_cases import (
    EUR_USD, EXCEEDED_WORK_LIMIT, HELD, MILLION, NATIVE_USD, RECEIVE, SEND, along, arrived, by_pool, market, selling,
)
from pool_tools import LUMENS, PAIR, flagged, pool, pool_of, story_of

BY_POOL = by_pool(NATIVE_USD, USD, 996, LUMENS, 1000)
TWO_POOLS = (PAIR, (EUR, USD))
# 102 lumens are 101 USD, and these are 100 EUR
TWO_HOPS = [by_pool(NATIVE_USD, USD, 101, LUMENS, 102), by_pool(EUR_USD, EUR, 100, USD, 101)]

# ---- many offers

RICH = {"c": 10**10, "d": 10**10}
SELLERS = {**HELD, "d": {USD: (10_000, GREATEST, 1), EUR: (10_000, GREATEST, 1)}}


def seller(index):
    """600 offers are c's and the others d's, since an account has no more than 1000 subentries."""
    return "c" if index < 600 else "d"


def small_offers(number, sold=USD, bought=LUMENS):
    return [selling(1, (1, 1), sold, bought, 1 + index, seller(index)) for index in range(number)]


def small_atoms(number, sold=USD, bought=LUMENS):
    return [sets.taken(seller(index), 1 + index, sold, 1, bought, 1) for index in range(number)]


def crowd(*offers, pools=(), lines=SELLERS):
    return market(*offers, pools=pools, lines=lines, lumens=RICH)


def all_crossings():
    """A thousand crossings, with and without pools beside them."""
    atoms = small_atoms(1000) + [by_pool(EUR_USD, EUR, 996, USD, 1000)]
    for kind, amount, limit in [(RECEIVE, 996, 1000), (SEND, 1000, 996)]:
        story = crowd(*small_offers(1000), pools=((EUR, USD),))
        story.run("a", (along(kind, "b", amount, limit, got=EUR, path=[USD]), arrived(kind, atoms, "b", EUR, 996)))
        case(f"all crossings: a pool's trade is none, {kind}", story, "end 6", 1)
    for kind, amount, limit, got, cost in [(RECEIVE, 1001, 1006, 1001, 1006), (SEND, 1001, 997, 997, 1001)]:
        story = crowd(*small_offers(1001), pools=(PAIR,))
        story.run("a", (along(kind, "b", amount, limit), arrived(kind, [by_pool(NATIVE_USD, USD, got, LUMENS, cost)], "b", USD, got)))
        case(f"all crossings: the pool serves instead, {kind}", story, "end 6", 1)
        story = crowd(*small_offers(1001)).run("a", (along(kind, "b", 1001, 1001), EXCEEDED_WORK_LIMIT))
        story.run("a", (along(kind, "b", 1000, 1000), arrived(kind, small_atoms(1000), "b", USD, 1000)))
        case(f"all crossings: one offer too many, {kind}", story, "end 7", 2)
    own = selling(1, (1, 1), USD, LUMENS, 1001, "a")
    story = crowd(*small_offers(1000), own).run("a", (along(RECEIVE, "b", 1001, 1001), R(RECEIVE, -11)), (along(SEND, "b", 1001, 1001), R(SEND, -11)))
    case("all crossings: an offer of one's own comes first", story, "end 6", 1)


def unused_books():
    """Books that are tried and not used count no crossing."""
    dear = selling(996, (3, 1), EUR, USD, 1001, "e")
    lines = {**SELLERS, "e": {EUR: (1000, GREATEST, 1), USD: (0, GREATEST, 1)}}
    atoms = small_atoms(1000) + [by_pool(EUR_USD, EUR, 996, USD, 1000)]
    story = crowd(*small_offers(1000), dear, pools=((EUR, USD),), lines=lines)
    story.run("a", (along(RECEIVE, "b", 996, 1000, got=EUR, path=[USD]), arrived(RECEIVE, atoms, "b", EUR, 996)))
    case("unused books: what is received", story, "end 6", 1)
    pair = (LUMENS, EUR)
    dear = selling(1, (1000, 1), EUR, LUMENS, 1001, "e")
    atoms = [by_pool(pool_of(*pair), EUR, 1000, LUMENS, 1005)] + small_atoms(1000, USD, EUR)
    story = crowd(*small_offers(1000, USD, EUR), dear, pools=(pair,), lines=lines)
    story.run("a", (along(SEND, "b", 1005, 1000, path=[EUR]), arrived(SEND, atoms, "b", USD, 1000)))
    case("unused books: what is sent", story, "end 6", 1)


def none_left():
    """No crossing is left for the first hop of what is received."""
    euros = small_offers(1000, EUR, USD)
    atoms = [by_pool(NATIVE_USD, USD, 1000, LUMENS, 1005)] + small_atoms(1000, EUR, USD)
    op = along(RECEIVE, "b", 1000, 1005, got=EUR, path=[USD])
    case("none left: a pool", crowd(*euros, pools=(PAIR,)).run("a", (op, arrived(RECEIVE, atoms, "b", EUR, 1000))), "end 6", 1)
    cheap = selling(2000, (1, 1), USD, LUMENS, 1001, "c")
    case("none left: a pool and a book", crowd(*euros, cheap, pools=(PAIR,)).run("a", (op, arrived(RECEIVE, atoms, "b", EUR, 1000))), "end 6", 1)
    case("none left: a book", crowd(*euros, cheap).run("a", (op, EXCEEDED_WORK_LIMIT)), "end 6", 1)
    case("none left: nothing", crowd(*euros).run("a", (op, R(RECEIVE, -10))), "end 6", 1)


def sent_crossings():
    """A thousand crossings on both hops of what is sent, and two more."""
    for number in (500, 501):
        euros = [selling(1, (1, 1), EUR, USD, 1 + number + index, "d") for index in range(number)]
        atoms = small_atoms(number) + [sets.taken("d", 1 + number + index, EUR, 1, USD, 1) for index in range(number)]
        answer = arrived(SEND, atoms, "b", EUR, number) if number == 500 else EXCEEDED_WORK_LIMIT
        story = crowd(*small_offers(number), *euros).run("a", (along(SEND, "b", number, number, got=EUR, path=[USD]), answer))
        case(f"sent crossings: {2 * number} on two hops", story, "end 6", 1)


# ---- pools and books


def pools_or_books():
    """Which of the two serves."""
    story = market(header=flagged(6)).run("a", (along(RECEIVE, "b", 996, 1000), arrived(RECEIVE, [BY_POOL], "b", USD, 996)))
    case("pools or books: other flags", story, "end 6", 1)
    story = market(header=flagged(7)).run("a", (along(RECEIVE, "b", 996, 1000), R(RECEIVE, -10)), (along(SEND, "b", 1000, 996), R(SEND, -10)))
    case("pools or books: all flags", story, "end 6", 1)
    dear = sets.taken("c", 1, USD, 996, LUMENS, 1992)
    story = market(selling(996, (2, 1)), header=flagged(1)).run("a", (along(RECEIVE, "b", 996, 1992), arrived(RECEIVE, [dear], "b", USD, 996)))
    case("pools or books: a dear book where pools are disabled", story, "end 6", 1)
    story = market(selling(996, (1000, 996))).run("a", (along(SEND, "b", 1000, 996), arrived(SEND, [BY_POOL], "b", USD, 996)))
    case("pools or books: a pool that gives as much as the book", story, "end 6", 1)
    more = sets.taken("c", 1, USD, 997, LUMENS, 1000)
    story = market(selling(997, (1000, 997))).run("a", (along(SEND, "b", 1000, 996), arrived(SEND, [more], "b", USD, 997)))
    case("pools or books: the book gives one more", story, "end 6", 1)
    # 994 for 497 are all that a cheap offer has
    all_of_it = arrived(RECEIVE, [sets.taken("c", 1, USD, 994, LUMENS, 497)], "b", USD, 994)
    story = market(selling(994, (1, 2)), pools=()).run("a", (along(RECEIVE, "b", 995, 1000), R(RECEIVE, -10)))
    case("pools or books: a book that is one short", story.run("a", (along(RECEIVE, "b", 994, 497), all_of_it)), "end 7", 2)
    by = by_pool(NATIVE_USD, USD, 995, LUMENS, 999)
    story = market(selling(994, (1, 2))).run("a", (along(RECEIVE, "b", 995, 999), arrived(RECEIVE, [by], "b", USD, 995)))
    case("pools or books: a cheap book that is one short", story.run("a", (along(RECEIVE, "b", 994, 497), all_of_it)), "end 7", 2)


def reserves():
    """Pools without reserves, and with reserves that are nearly full."""
    empty = story_of(HELD, [("h", PAIR, 0, GREATEST, None)], [pool(*PAIR, lines=1)])
    empty.run("a", (along(RECEIVE, "b", 1, 10), R(RECEIVE, -10)), (along(SEND, "b", 1000, 1), R(SEND, -10)))
    case("reserves: none", empty, "end 6", 1)
    by = by_pool(EUR_USD, USD, 99, EUR, 100)
    for kind, over, amount, limit in [(SEND, 101, 100, 99), (RECEIVE, 100, 99, 100)]:
        most = GREATEST - 100
        story = story_of(HELD, [("h", (EUR, USD), 1, GREATEST, None)], [pool(EUR, USD, most, most, 1, 1)])
        story.run("a", (along(kind, "b", over, 1 if kind == SEND else 200, EUR, USD), R(kind, -10)))
        story.run("a", (along(kind, "b", amount, limit, EUR, USD), arrived(kind, [by], "b", USD, 99)))
        case(f"reserves: up to what 64 bits hold, {kind}", story, "end 7", 2)


def nothing_flows():
    """What yields nothing is served by each later book, which isn't looked at."""
    over = along(SEND, "b", 1, 1, got=EUR, path=[USD])
    story = market(selling(10, (3, 1)), pools=()).run("a", (along(SEND, "b", 1, 1), R(SEND, -12)), (over, R(SEND, -12)))
    case("nothing flows: no later offer", story, "end 6", 1)
    case("nothing flows: a pool beside", market(selling(10, (3, 1))).run("a", (along(SEND, "b", 1, 1), R(SEND, -12))), "end 6", 1)
    own = selling(10, (1, 1), EUR, USD, 2, "a")
    story = market(selling(10, (3, 1)), own, pools=()).run("a", (over, R(SEND, -12)))
    story.run("a", (along(SEND, "b", 3, 1, got=EUR, path=[USD]), R(SEND, -11)))
    case("nothing flows: an offer of one's own after it", story, "end 7", 2)
    own = selling(10, (1, 1), name="a")
    story = market(own, pools=()).run("a", (along(RECEIVE, "b", 1, 1, got=EUR, path=[USD]), R(RECEIVE, -10)),
                                      (along(SEND, "b", 1, 1, got=EUR, path=[USD]), R(SEND, -11)))
    case("nothing flows: which hop decides", story, "end 6", 1)


# ---- who pays and is paid


def own_and_others():
    """Offers of one's own after others, and of whom is paid."""
    offers = [selling(100, (1, 1)), selling(996, (1, 1), number=2, name="a")]
    for kind in (RECEIVE, SEND):
        story = market(*offers, pools=()).run("a", (along(kind, "b", 101, 101), R(kind, -11)))
        story.run("a", (along(kind, "b", 100, 100), arrived(kind, [sets.taken("c", 1, USD, 100, LUMENS, 100)], "b", USD, 100)))
        case(f"own and others: up to one's own, {kind}", story, "end 7", 2)
    # b's line is full before its offer is taken
    story = market(selling(10, (1, 1), name="b"), pools=(), lines={**HELD, "b": {USD: (10, 10, 1)}})
    story.run("a", (along(RECEIVE, "b", 10, 10), R(RECEIVE, -8)))
    story.run("a", (along(SEND, "b", 10, 10), arrived(SEND, [sets.taken("b", 1, USD, 10, LUMENS, 10)], "b", USD, 10)))
    assert story.line("b")[0] == 10
    case("own and others: a full line of whom is paid", story, "end 7", 2)
    offers = [selling(10, (1, 1)), selling(10, (2, 1), number=2)]
    atoms = [sets.taken("c", 1, USD, 10, LUMENS, 10), sets.taken("c", 2, USD, 5, LUMENS, 10)]
    for kind, amount, limit in [(RECEIVE, 15, 20), (SEND, 20, 15)]:
        story = market(*offers, pools=()).run("a", (along(kind, "b", amount, limit), arrived(kind, atoms, "b", USD, 15)))
        case(f"own and others: two offers in one hop, {kind}", story, "end 6", 1)


def lumens():
    """Lumens that are short, and that have no room; and to oneself."""
    for kind in (RECEIVE, SEND):
        # the minimum of an account with three subentries, its signer among them, a fee and 50
        few = {"a": 25_000_000 + 100 + 50}
        story = market(lumens=few).run("a", (along(kind, "b", 51, 51, LUMENS, LUMENS), R(kind, -2)))
        case(f"lumens: a stroop short, {kind}", story, "end 6", 1)
        story = market(lumens=few).run("a", (along(kind, "b", 50, 50, LUMENS, LUMENS), arrived(kind, [], "b", LUMENS, 50)))
        case(f"lumens: to the last stroop, {kind}", story, "end 6", 1)
        # an offer whose buying side leaves b this room
        room, big = 2**31 - 10**9, selling(4294967297, (2147483647, 1), name="b")
        lines = {**HELD, "b": {USD: (4294967297, GREATEST, 1), EUR: (0, GREATEST, 1)}}
        story = market(big, pools=(), lines=lines, lumens={"a": 10**10})
        story.run("a", (along(kind, "b", room + 1, room + 1, LUMENS, LUMENS), R(kind, -8)))
        story.run("a", (along(kind, "b", room, room, LUMENS, LUMENS), arrived(kind, [], "b", LUMENS, room)))
        case(f"lumens: full, {kind}", story, "end 7", 2)
    story = market().run("a", (along(RECEIVE, "a", 20_000, 20_000, USD, USD), arrived(RECEIVE, [], "a", USD, 20_000)))
    story.run("a", (along(SEND, "a", 10_000, 10_000, USD, USD), arrived(SEND, [], "a", USD, 10_000)))
    story.run("a", (along(SEND, "a", 10_001, 10_001, USD, USD), R(SEND, -2)))
    case("lumens: USD to oneself, more than there is", story, "end 8", 3)
    story = market().run("a", (along(RECEIVE, "a", 10**12, 10**12, LUMENS, LUMENS), arrived(RECEIVE, [], "a", LUMENS, 10**12)))
    story.run("a", (along(SEND, "a", 10**12, 10**12, LUMENS, LUMENS), R(SEND, -2)))
    case("lumens: to oneself, more than there is", story, "end 7", 2)


def issuers():
    """An issuer pays and is paid in what it issues, and nothing is asked of lines between."""
    for kind in (RECEIVE, SEND):
        story = market().run("z", (along(kind, "b", 7, 7, USD, USD), arrived(kind, [], "b", USD, 7)))
        case(f"issuers: {kind}", story.run("a", (along(kind, "z", 7, 7, USD, USD), arrived(kind, [], "z", USD, 7))), "end 7", 2)
    by = by_pool(NATIVE_USD, LUMENS, 100, USD, 101)
    story = market().run("z", (along(RECEIVE, "b", 100, 101, USD, LUMENS), arrived(RECEIVE, [by], "b", LUMENS, 100)))
    case("issuers: pays in what it issues, by a pool", story, "end 6", 1)
    back = by_pool(NATIVE_USD, USD, 100, LUMENS, 101)
    story = market().run("a", (along(SEND, "z", 101, 100), arrived(SEND, [back], "z", USD, 100)))
    case("issuers: is paid in what it issues, by a pool", story, "end 6", 1)
    lines = {**HELD, "a": {}, "b": {EUR: (0, GREATEST, 1)}}
    for kind, amount, limit in [(RECEIVE, 100, 102), (SEND, 102, 100)]:
        op = along(kind, "b", amount, limit, got=EUR, path=[USD])
        story = market(pools=TWO_POOLS, lines=lines).run("a", (op, arrived(kind, TWO_HOPS, "b", EUR, 100)))
        case(f"issuers: no line in what is between, {kind}", story, "end 6", 1)
    both = [(along(RECEIVE, "b", 100, 101, USD, LUMENS), arrived(RECEIVE, [by], "b", LUMENS, 100)),
            (along(SEND, "b", 101, 100, USD, LUMENS), arrived(SEND, [by], "b", LUMENS, 100))]
    case("issuers: USD for lumens", market().run("a", *both), "end 6", 1)


def orders():
    """Which test comes first, and what a failed payment leaves to the next one."""
    lines = {**HELD, "d": {}, "e": {USD: (0, GREATEST, 2)}, "f": {USD: (95, 100, 1)}}
    rows = [
        (along(SEND, "d", 1000, 997), R(SEND, -12)), (along(SEND, "d", 1000, 996), R(SEND, -6)), (along(SEND, "d", 1, 1), R(SEND, -10)),
        (along(SEND, "e", 1000, 996), R(SEND, -7)), (along(SEND, "f", 7, 5), R(SEND, -8)),
        (along(SEND, "f", 6, 5), arrived(SEND, [by_pool(NATIVE_USD, USD, 5, LUMENS, 6)], "f", USD, 5)),
    ]
    case("orders: the credit comes last of what is sent", market(lines=lines).run("a", *rows), "end 6", 1)
    bad = u32(1) + b"US D" + u32(0) + key("z")
    for kind in (RECEIVE, SEND):
        rows = [
            (along(kind, "q", 0, 1), R(kind, -1)), (along(kind, "q", 1, 1, USD, USD), R(kind, -5)),
            (along(kind, "q", 1, 1, USD, USD, [bad]), R(kind, -1)),
        ]
        case(f"orders: form, account, line, {kind}", market(lines=lines).run("d", *rows), "end 6", 1)
    strange = sets.asset("GBP", "z")
    rows = [
        (along(RECEIVE, "b", 100, 101, got=EUR, path=[USD]), R(RECEIVE, -12)), (along(SEND, "b", 102, 101, got=EUR, path=[USD]), R(SEND, -12)),
        (along(SEND, "b", 5000, 1, got=EUR, path=[USD, strange]), R(SEND, -10)),
        (along(RECEIVE, "b", 100, 102, got=EUR, path=[USD]), arrived(RECEIVE, TWO_HOPS, "b", EUR, 100)),
    ]
    case("orders: payments that fail leave books and pools", market(pools=TWO_POOLS).run("a", *rows), "end 6", 1)


def six_hops():
    """The longest path, through one pool in turns: of 1000 lumens 982 come back."""
    amounts = [1000, 996, 994, 990, 988, 984, 982]
    sides = [LUMENS, USD] * 3 + [LUMENS]
    atoms = [by_pool(NATIVE_USD, got, come, sent, gone) for sent, got, gone, come in zip(sides, sides[1:], amounts, amounts[1:])]
    story = market().run("a", (along(SEND, "b", 1000, 982, got=LUMENS, path=sides[1:6]), arrived(SEND, atoms, "b", LUMENS, 982)))
    case("six hops: back and forth", story, "end 6", 1)


PARTS = [
    all_crossings, unused_books, none_left, sent_crossings, pools_or_books, reserves, nothing_flows, own_and_others, lumens, issuers, orders,
    six_hops,
]
