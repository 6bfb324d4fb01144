"""The cases of deposits into pools and of withdrawals, which `run_cases.py` writes. Each says by hand how it ends, what each operation
answers, and what is left.
"""

from ledger_model import GREATEST
import set_cases as sets  # ledger_model puts its folder first
from asset_cases import EUR, R
from case_tools import LUMEN, USD, case, offer, sent, upgrade
from pool_tools import (
    DEPOSIT, EUR_USD, EXACT, LUMENS, NATIVE_USD, OWN, PAIR, REFUSED, TRUST, WITHDRAW, deposit, filled, first, flagged, left_in, pool,
    shares_of, story_of, trust, withdraw,
)


def issued(eur, usd=(1000, 10_000, 1)):
    """A story in which a has all 30 shares of a pool of 30 EUR and 30 USD, and lines with a balance, a limit and flags."""
    return story_of({"a": {EUR: eur, USD: usd}}, [("a", (EUR, USD), 30, GREATEST, None)], [pool(EUR, USD, 30, 30, 30, 1)])


# ---- deposits


def deposits():
    """What goes into a pool, and the shares for it."""
    story = first().run("a", (deposit(NATIVE_USD, 400, 100), R(DEPOSIT, 0)))
    assert left_in(story, NATIVE_USD) == (400, 100, 200, 1) and shares_of(story, "a", NATIVE_USD)[0] == 200
    assert story.line("a")[0] == 900 and story.account("a")["balance"] == 100 * LUMEN - 400 - 100
    # one share gives 2 and 0
    story.run("a", (withdraw(NATIVE_USD, 1), R(WITHDRAW, 0)))
    assert left_in(story, NATIVE_USD) == (398, 100, 199, 1) and story.line("a")[0] == 900
    # amounts are rounded up, shares down
    story.run("a", (deposit(NATIVE_USD, 100, 5), R(DEPOSIT, 0)))
    assert left_in(story, NATIVE_USD) == (416, 105, 208, 1)
    story.run("a", (withdraw(NATIVE_USD, 208), R(WITHDRAW, 0)))
    assert left_in(story, NATIVE_USD) == (0, 0, 0, 1) and story.line("a")[0] == 1000
    case("deposits: the first, another one, and all taken out", story, "end 9", 4)
    # an issuer gives what it issues
    story = story_of({"a": {USD: (0, 10, 1)}}).run("z", (trust(*PAIR), R(TRUST, 0)), (deposit(NATIVE_USD, 9, 4), R(DEPOSIT, 0)))
    assert left_in(story, NATIVE_USD) == (9, 4, 6, 1) and shares_of(story, "z", NATIVE_USD)[0] == 6
    story.run("z", (withdraw(NATIVE_USD, 3), R(WITHDRAW, 0)))
    assert left_in(story, NATIVE_USD) == (5, 2, 3, 1)
    case("deposits: of an issuer", story, "end 7", 2)
    # two assets, of which the second bounds the shares
    lines = {"a": {USD: (1000, 10_000, 1), EUR: (1000, 10_000, 1)}}
    story = story_of(lines).run("a", (trust(EUR, USD), R(TRUST, 0)), (deposit(EUR_USD, 300, 300), R(DEPOSIT, 0)))
    story.run("a", (deposit(EUR_USD, 300, 7), R(DEPOSIT, 0)))
    assert left_in(story, EUR_USD) == (307, 307, 307, 1)
    case("deposits: two issued assets", story, "end 7", 2)


def deposit_codes():
    """What LIQUIDITY_POOL_DEPOSIT answers, on both sides of each bound."""
    own = filled()
    wrong = [
        deposit(NATIVE_USD, 0, 1), deposit(NATIVE_USD, 1, 0), deposit(NATIVE_USD, -1, 1), deposit(NATIVE_USD, 1, 1, ((0, 1), EXACT)),
        deposit(NATIVE_USD, 1, 1, ((1, 0), EXACT)), deposit(NATIVE_USD, 1, 1, (EXACT, (0, 1))), deposit(NATIVE_USD, 1, 1, (EXACT, (1, 0))),
        deposit(NATIVE_USD, 1, 1, ((-1, 1), EXACT)), deposit(NATIVE_USD, 1, 1, ((2, 1), (199, 100))),
    ]
    case("deposits: malformed", own.run("a", *[(op, R(DEPOSIT, -1)) for op in wrong]), "end 6", 1)
    lines = {**OWN, "b": {}}
    none = filled(lines=lines).run("b", (deposit(NATIVE_USD, 1, 1), R(DEPOSIT, -2)), (deposit(bytes(32), 1, 1), R(DEPOSIT, -2)))
    case("deposits: no line of shares", none, "end 6", 1)
    # authorised to maintain liabilities isn't enough
    for flags in (0, 2):
        story = filled(lines={"a": {USD: (1000, 10_000, flags)}}).run("a", (deposit(NATIVE_USD, 40, 10), R(DEPOSIT, -3)))
        case(f"deposits: a line with flag {flags}", story, "end 6", 1)
    # a price of 4, which belongs to the bounds
    for name, prices, number in [
        ("the least price", ((4, 1), (9, 2)), 0), ("the greatest price", ((1, 2), (4, 1)), 0),
        ("below the least", ((401, 100), (9, 1)), -6), ("above the greatest", ((1, 1), (399, 100)), -6),
    ]:
        story = filled().run("a", (deposit(NATIVE_USD, 40, 10, prices), R(DEPOSIT, number)))
        case(f"deposits: {name}", story, "end 6", 1)


def deposit_bounds():
    """The least share, all that is available, and room."""
    # no share for what is little
    story = filled(4000, 1000, 2)
    story.run("a", (deposit(NATIVE_USD, 1999, 499), R(DEPOSIT, -6)), (deposit(NATIVE_USD, 2000, 499), R(DEPOSIT, -6)))
    story.run("a", (deposit(NATIVE_USD, 2000, 500), R(DEPOSIT, 0)))
    assert left_in(story, NATIVE_USD) == (6000, 1500, 3, 1)
    case("deposits: less than a share", story, "end 7", 2)
    # what is available of both
    story = filled(lines={"a": {USD: (10, 100, 1)}})
    story.run("a", (deposit(NATIVE_USD, 44, 11), R(DEPOSIT, -4)))
    story.run("a", (deposit(NATIVE_USD, 40, 10), R(DEPOSIT, 0)))
    case("deposits: all of a line", story, "end 7", 2)
    for name, lumens, number in [("all lumens but the reserves", 30_000_140, 0), ("a stroop less", 30_000_139, -4)]:
        story = filled(lumens={"a": lumens}).run("a", (deposit(NATIVE_USD, 40, 10), R(DEPOSIT, number)))
        case(f"deposits: {name}", story, "end 6", 1)
    # room for the shares
    story = filled(limit=219).run("a", (deposit(NATIVE_USD, 40, 10), R(DEPOSIT, -5)))
    story.run("a", (deposit(NATIVE_USD, 38, 10), R(DEPOSIT, 0)))
    assert shares_of(story, "a", NATIVE_USD)[0] == 219
    case("deposits: room for shares", story, "end 7", 2)


def deposit_prices():
    """Prices of what goes into an empty pool, which are compared exactly."""
    for name, prices, number in [
        ("at its price", ((4, 1), (4, 1)), 0), ("at its price in two forms", ((4, 1), (8, 2)), 0),
        ("below the least price", ((401, 100), (9, 1)), -6), ("above the greatest price", ((1, 1), (399, 100)), -6),
    ]:
        story = first().run("a", (deposit(NATIVE_USD, 400, 100, prices), R(DEPOSIT, number)))
        assert left_in(story, NATIVE_USD) == ((0, 0, 0, 1) if number else (400, 100, 200, 1))
        case(f"deposits: the first one {name}", story, "end 6", 1)
    # a price that is off by a part of 10^18
    much = 10**18
    lines = {"a": {EUR: (2 * much, GREATEST, 1), USD: (2 * much, GREATEST, 1)}}
    story = story_of(lines, [("a", (EUR, USD), 0, GREATEST, None)], [pool(EUR, USD, lines=1)])
    for a, b, number in [(much + 1, much, -6), (much, much + 1, -6), (much, much, 0)]:
        story.run("a", (deposit(EUR_USD, a, b, (EXACT, EXACT)), R(DEPOSIT, number)))
    assert left_in(story, EUR_USD) == (much, much, much, 1)
    case("deposits: a price that has to be exact", story, "end 8", 3)


def deposits_of_some():
    """What is available to depositors, and what their lines allow."""
    for flags, number in [(2, -3), (1, 0)]:
        story = issued((1000, 10_000, flags)).run("a", (deposit(EUR_USD, 10, 10), R(DEPOSIT, number)))
        assert left_in(story, EUR_USD) == ((30, 30, 30, 1) if number else (40, 40, 40, 1))
        case(f"deposits: a line in A with flag {flags}", story, "end 6", 1)
    # ten of 1000 USD aren't offered
    story = filled(offers=[offer("a", 1, USD, LUMENS, 990)])
    story.run("a", (deposit(NATIVE_USD, 44, 11), R(DEPOSIT, -4)))
    story.run("a", (deposit(NATIVE_USD, 40, 10), R(DEPOSIT, 0)))
    assert story.line("a")[0] == 990 and left_in(story, NATIVE_USD) == (440, 110, 220, 1)
    case("deposits: all that isn't offered", story, "end 7", 2)
    # nothing is more than an account has that is below its reserves
    for name, lumens, number in [("just its reserves", 30_000_000, -6), ("less than its reserves", 29_999_999, -4)]:
        story = filled(4000, 1000, 2, lines={**OWN, "b": {}}, lumens={"a": lumens})
        story.run("b", (deposit(NATIVE_USD, 1999, 499, source="a"), R(DEPOSIT, number)), signers="ab")
        case(f"deposits: no share, by who has {name}", story, "end 6", 1)
    story = filled().run("a", (withdraw(NATIVE_USD, 200), R(WITHDRAW, 0)), (deposit(NATIVE_USD, 9, 4), R(DEPOSIT, 0)))
    assert left_in(story, NATIVE_USD) == (9, 4, 6, 1) and story.line("a")[0] == 1096
    case("deposits: into a pool that was just emptied", story, "end 6", 1)
    # an issuer has as much as it likes
    story = story_of({}).run("z", (trust(EUR, USD), R(TRUST, 0)), (deposit(EUR_USD, GREATEST, GREATEST), R(DEPOSIT, 0)))
    assert left_in(story, EUR_USD) == (GREATEST, GREATEST, GREATEST, 1) and shares_of(story, "z", EUR_USD)[0] == GREATEST
    story.run("z", (deposit(EUR_USD, 1, 1), R(DEPOSIT, -5)))
    story.run("z", (withdraw(EUR_USD, GREATEST), R(WITHDRAW, 0)), (trust(EUR, USD, 0), R(TRUST, 0)))
    assert left_in(story, EUR_USD) is None and story.counts("z") == (1, 0, 0)
    case("deposits: the greatest, of an issuer", story, "end 8", 3)


def full_pools():
    """Pools that hold as much as their 64 bits can."""
    one = {USD: (1, 100, 1)}
    # by both assets there would be too many shares
    full = story_of({"a": one}, [("a", PAIR, GREATEST, GREATEST, None)], [pool(*PAIR, 1, 1, GREATEST, 1)])
    full.run("a", (deposit(NATIVE_USD, 2, 2), R(DEPOSIT, -7)))
    case("deposits: shares that pass 64 bits", full, "end 6", 1)
    # their sum would be too great, after the room for them and what is available
    rows = [("a", PAIR, GREATEST - 1, GREATEST, None), ("b", PAIR, 1, GREATEST, None), ("c", PAIR, 0, GREATEST, None)]
    for name, usd, code in [("b", 1, -5), ("c", 1, -7), ("c", 0, -4)]:
        lines = {"a": one, "b": one, "c": {USD: (usd, 100, 1)}}
        story = story_of(lines, rows, [pool(*PAIR, 1, 1, GREATEST, 3)]).run(name, (deposit(NATIVE_USD, 1, 1), R(DEPOSIT, code)))
        case(f"deposits: a sum of shares that passes 64 bits, {-code}", story, "end 6", 1)
    # a reserve would be too great
    most = GREATEST - 6 * 10**18
    lines = {"a": {USD: (0, 1, 1), EUR: (0, 1, 1)}, "b": {USD: (4 * 10**18, GREATEST, 1), EUR: (4 * 10**18, GREATEST, 1)}}
    rows = [("a", (EUR, USD), 6 * 10**18, GREATEST, None), ("b", (EUR, USD), 0, GREATEST, None)]
    story = story_of(lines, rows, [pool(EUR, USD, 6 * 10**18, 6 * 10**18, 6 * 10**18, 2)])
    story.run("b", (deposit(EUR_USD, most + 1, most + 1), R(DEPOSIT, -7)))
    story.run("b", (deposit(EUR_USD, most, most), R(DEPOSIT, 0)))
    assert left_in(story, EUR_USD) == (GREATEST, GREATEST, GREATEST, 2)
    case("deposits: a reserve that is full", story, "end 7", 2)


def full_sides():
    """Shares and reserves that pass 64 bits by one asset alone."""
    rows = [("a", PAIR, GREATEST - 1, GREATEST, None), ("b", PAIR, 1, GREATEST, None)]
    one, full = {USD: (1, 100, 1)}, [pool(*PAIR, 1, 1, GREATEST, 2)]
    story = story_of({"a": one, "b": one}, rows, full)
    story.run("b", (deposit(NATIVE_USD, 2, 1), R(DEPOSIT, -5)), (deposit(NATIVE_USD, 1, 2), R(DEPOSIT, -5)))
    story.run("b", (deposit(NATIVE_USD, 2, 2), R(DEPOSIT, -7)))
    case("deposits: shares that pass 64 bits by A, by B, by both", story, "end 7", 2)
    story = story_of({"a": one, "b": {USD: (0, 100, 1)}}, rows, full).run("b", (deposit(NATIVE_USD, 2, 2), R(DEPOSIT, -7)))
    case("deposits: shares that pass 64 bits, by who has no USD", story, "end 6", 1)
    # a share is 2^30 of one asset, and 1 of the other
    many, none, some = 2**33, {EUR: (0, 1, 1), USD: (0, 1, 1)}, {EUR: (2**30, 2**30, 1), USD: (2**30, 2**30, 1)}
    rows = [("a", (EUR, USD), many, GREATEST, None), ("b", (EUR, USD), 0, GREATEST, None)]
    for side, turn in [("A", 1), ("B", -1)]:
        for name, reserve, number in [("is full", GREATEST - 2**30, 0), ("would pass 64 bits", GREATEST - 5, -7)]:
            story = story_of({"a": none, "b": some}, rows, [pool(EUR, USD, *(reserve, many)[::turn], many, 2)])
            story.run("b", (deposit(EUR_USD, *(2**30, 1)[::turn]), R(DEPOSIT, number)))
            left = (reserve, many, many, 2) if number else (GREATEST, many + 1, many + 1, 2)
            assert left_in(story, EUR_USD) == (*left[:2][::turn], *left[2:])
            case(f"deposits: a reserve of {side} that {name}", story, "end 6", 1)


def disabled():
    """Flags of the header that disable operations, tested before all else."""
    for flags, codes in [(1, (-1, -1)), (2, (REFUSED, -1)), (4, (-1, REFUSED)), (7, (REFUSED, REFUSED))]:
        story = filled(header=flagged(flags))
        pairs = [(deposit(NATIVE_USD, 0, 0), codes[0]), (withdraw(NATIVE_USD, 0), codes[1])]
        story.run("a", *[(op, code if code is REFUSED else R(kind, code)) for (op, code), kind in zip(pairs, (DEPOSIT, WITHDRAW))])
        case(f"disabled: flags {flags}", story, "end 6", 1)
    # an upgrade counts from the next ledger on
    story = first().close(sent("a", 1, deposit(NATIVE_USD, 400, 100)), upgrades=[upgrade(5, 6)], expected=[sets.ok(R(DEPOSIT, 0))])
    story.run("a", (deposit(NATIVE_USD, 400, 100), REFUSED), (withdraw(NATIVE_USD, 1), REFUSED))
    case("disabled: by an upgrade", story, "end 7", 2)
    # an account that is gone is reported first
    story = story_of({"a": {}, "c": {}}, header=flagged(2))
    merged = sets.account_merge("a", "c"), R(8, 0, 100 * LUMEN)
    story.run("a", merged, (deposit(NATIVE_USD, 1, 1, source="c"), sets.OP_NO_ACCOUNT), signers="ac")
    case("disabled: an account that is gone", story, "end 6", 1)


# ---- withdrawals


def withdrawals():
    """What LIQUIDITY_POOL_WITHDRAW answers, on both sides of each bound."""
    wrong = [withdraw(NATIVE_USD, 0), withdraw(NATIVE_USD, -1), withdraw(NATIVE_USD, 1, -1), withdraw(NATIVE_USD, 1, 0, -1)]
    case("withdrawals: malformed", filled().run("a", *[(op, R(WITHDRAW, -1)) for op in wrong]), "end 6", 1)
    none = filled(lines={**OWN, "b": {}}).run("b", (withdraw(NATIVE_USD, 1), R(WITHDRAW, -2)), (withdraw(bytes(32), 1), R(WITHDRAW, -2)))
    case("withdrawals: no line of shares", none, "end 6", 1)
    story = filled().run("a", (withdraw(NATIVE_USD, 201), R(WITHDRAW, -3)), (withdraw(NATIVE_USD, 3, 7), R(WITHDRAW, -5)),
                         (withdraw(NATIVE_USD, 3, 6, 2), R(WITHDRAW, -5)))
    story.run("a", (withdraw(NATIVE_USD, 3, 6, 1), R(WITHDRAW, 0)), (withdraw(NATIVE_USD, 197), R(WITHDRAW, 0)))
    assert left_in(story, NATIVE_USD) == (0, 0, 0, 1) and story.line("a")[0] == 1100
    case("withdrawals: to the last share", story, "end 7", 2)
    # room, and no authorisation
    for flags in (0, 1, 2):
        story = filled(lines={"a": {USD: (10, 19, flags)}})
        story.run("a", (withdraw(NATIVE_USD, 20), R(WITHDRAW, -4)))
        story.run("a", (withdraw(NATIVE_USD, 19), R(WITHDRAW, 0)))
        assert story.line("a")[0] == 19
        case(f"withdrawals: into a line with flag {flags}", story, "end 7", 2)


def rooms():
    """Room of an account and of a line in A for what comes out of a pool."""
    for room, number in [(14, -4), (15, 0)]:
        story = issued((100, 100 + room, 1)).run("a", (withdraw(EUR_USD, 15), R(WITHDRAW, number)))
        assert left_in(story, EUR_USD) == ((30, 30, 30, 1) if number else (15, 15, 15, 1))
        case(f"withdrawals: room for {room} of 15 in A", story, "end 6", 1)
    story = issued((100, 100, 1))
    story.run("a", (withdraw(EUR_USD, 15, 0, 16), R(WITHDRAW, -5)), (withdraw(EUR_USD, 15, 0, 15), R(WITHDRAW, -4)))
    case("withdrawals: a minimum of B, and no room in A", story, "end 6", 1)
    # an offer buys 2^63 - 2^32 lumens, which leaves room for 3294967395 beside 10^9 less a fee of 100
    for name, lumens, number in [("all room for lumens", 3_294_967_395, 0), ("a stroop more than room", 3_294_967_396, -4)]:
        story = filled(lumens, lines={"a": {USD: (2**32, 2**33, 1)}}, offers=[offer("a", 1, USD, LUMENS, 2**32, (2**31 - 1, 1))])
        story.run("a", (withdraw(NATIVE_USD, 200), R(WITHDRAW, number)))
        assert left_in(story, NATIVE_USD) == ((lumens, 100, 200, 1) if number else (0, 0, 0, 1))
        case(f"withdrawals: {name}", story, "end 6", 1)
    # nine shares of ten give less than one
    story = filled(1, 1, 10).run("a", (withdraw(NATIVE_USD, 9), R(WITHDRAW, 0)))
    assert left_in(story, NATIVE_USD) == (1, 1, 1, 1) and story.line("a")[0] == 1000 and shares_of(story, "a", NATIVE_USD)[0] == 1
    assert story.account("a")["balance"] == 100 * LUMEN - 100
    case("withdrawals: shares that give nothing", story, "end 6", 1)


PARTS = [
    deposits, deposit_codes, deposit_bounds, deposit_prices, deposits_of_some, full_pools, full_sides, disabled, withdrawals, rooms,
]
