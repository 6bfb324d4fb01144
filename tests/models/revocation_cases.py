"""The cases of pool shares that go where a line loses its authorisation, which `run_cases.py` writes. Each says by hand how it ends, what
each operation answers, and what is left.
"""

import ledger_model as model
import pool_model as pools
import set_cases as sets  # ledger_model puts its folder first
from asset_cases import EUR, R, sponsored_by
from case_tools import USD, Story, case, claimable, key, offer, with_counts
from entry_model import ASSET
from ledger_model import GREATEST, i64, u32
from offer_cases import offers_of, owes
from pool_tools import (
    EUR_USD, LUMENS, NATIVE_USD, OWN, PAIR, REFUSED, filled, held, left_in, pool, pool_of, pooled_image, read, shares_of, story_of, uses,
    with_account,
)

ALLOW, FLAGS = 7, 21
FREEZE, CLEAR = sets.allow_trust("a", 0), sets.set_line_flags("a", 1)
BOTH = {"a": {USD: (1000, 10_000, 1), EUR: (1000, 10_000, 1)}}


def made(story):
    """The claimable balances that exist: the asset, the amount, who pays, and whether it can be clawed back."""
    rows = [(value["body"][1], model.sponsor_of(value)) for value in story.claimables().values()]
    return {(ASSET.write(body["asset"]), body["amount"], payer[:1].decode(), body["ext"][0]) for body, payer in rows}


def made_id(digest, asset, source="z", number=1, index=0):
    """The id of what a pool's shares give of an asset, by the transaction that revokes and the operation's index in it."""
    return model.sha(u32(7) + u32(0) + key(source) + i64(number) + u32(index) + digest + asset)


def taken(entries, payer, *digests):
    """A story of entries in which balances exist under these ids, for which an account pays."""
    entries = with_account(entries, payer, lambda value: with_counts(value, 0, len(digests)))
    return Story(pooled_image([*entries, *(claimable(digest, payer, 5, USD, payer) for digest in digests)]))


def two_pools(lumens=None, others=()):
    """What a has: all shares of two pools, of the second by a line that b pays for. Others have no lines."""
    shares = [("a", PAIR, 200, GREATEST, None), ("a", (EUR, USD), 30, GREATEST, "b")]
    full = [pool(*PAIR, 401, 100, 200, 1), pool(EUR, USD, 31, 32, 30, 1)]
    return held({**BOTH, "b": {}, **{name: {} for name in others}}, shares, full, lumens, {"a": (2, 0), "b": (0, 2)})


# ---- which shares go


def entire_pools():
    """Shares that go, and their pools with them."""
    for name, op in [("by ALLOW_TRUST", FREEZE), ("by its flags", CLEAR)]:
        story = Story(pooled_image(two_pools())).run("z", (op, R(op[7], 0)))
        assert made(story) == {(LUMENS, 401, "a", 0), (USD, 100, "a", 0), (EUR, 31, "b", 0), (USD, 32, "b", 0)}
        assert left_in(story, NATIVE_USD) is None and left_in(story, EUR_USD) is None
        assert story.counts("a") == (3, 0, 2) and story.counts("b") == (1, 0, 2) and uses(story, "a", USD) == 0
        case(f"revocation: two pools, {name}", story, "end 6", 1)
    # the issuer of one side gets back what it issues; nothing is made of nothing
    story = story_of({"a": {USD: (10, 100, 1)}, "b": {}}, [("a", PAIR, 1, GREATEST, None)], [pool(*PAIR, 1, 1, 1, 1)])
    story.run("z", (FREEZE, R(ALLOW, 0)))
    assert len(story.claimables()) == 2
    case("revocation: one unit of each", story, "end 6", 1)
    own = sets.asset("OWN", "a")
    pair = tuple(sorted((USD, own), key=lambda asset: pools.asset_rank(read(asset))))
    amounts = (7, 9) if pair[0] == USD else (9, 7)
    story = story_of({"a": {USD: (10, 100, 1)}}, [("a", pair, 5, GREATEST, None)], [pool(*pair, *amounts, 5, 1)])
    story.run("z", (FREEZE, R(ALLOW, 0)))
    assert made(story) == {(USD, 7, "a", 0)}
    case("revocation: an issuer of the other side", story, "end 6", 1)
    story = story_of({"a": {USD: (10, 100, 1)}}, [("a", PAIR, 0, GREATEST, None)], [pool(*PAIR, lines=1)])
    story.run("z", (FREEZE, R(ALLOW, 0)))
    assert not story.claimables() and left_in(story, NATIVE_USD) is None
    case("revocation: an empty line of shares", story, "end 6", 1)


def pools_that_stay():
    """Pools that others have shares of, and pools of other assets."""
    lines = {"a": {USD: (1000, 10_000, 1)}, "b": {USD: (1000, 10_000, 1)}, "c": {}}
    shares = [("a", PAIR, 1, GREATEST, None), ("b", PAIR, 199, GREATEST, None)]
    entries = held(lines, shares, [pool(*PAIR, 401, 100, 200, 2)])
    # one share of 200 gives 2 lumens and no USD, so the id of USD isn't asked for
    story = Story(pooled_image(entries)).run("z", (FREEZE, R(ALLOW, 0)))
    assert made(story) == {(LUMENS, 2, "a", 0)} and set(story.claimables()) == {made_id(NATIVE_USD, LUMENS)}
    assert left_in(story, NATIVE_USD) == (399, 100, 199, 1) and shares_of(story, "a", NATIVE_USD) is None
    assert shares_of(story, "b", NATIVE_USD)[0] == 199 and story.counts("a") == (2, 0, 1)
    case("revocation: a pool that others have shares of", story, "end 6", 1)
    story = taken(entries, "c", made_id(NATIVE_USD, USD)).run("z", (FREEZE, R(ALLOW, 0)))
    assert made(story) == {(LUMENS, 2, "a", 0), (USD, 5, "c", 0)} and left_in(story, NATIVE_USD) == (399, 100, 199, 1)
    case("revocation: an id that exists and isn't needed", story, "end 6", 1)
    other, digest = (LUMENS, EUR), pool_of(LUMENS, EUR)
    shares = [("a", PAIR, 200, GREATEST, None), ("a", other, 30, GREATEST, None)]
    story = story_of(BOTH, shares, [pool(*PAIR, 400, 100, 200, 1), pool(*other, 31, 32, 30, 1)]).run("z", (FREEZE, R(ALLOW, 0)))
    assert left_in(story, NATIVE_USD) is None and left_in(story, digest) == (31, 32, 30, 1) and shares_of(story, "a", digest)[0] == 30
    assert story.counts("a") == (5, 0, 2) and uses(story, "a", USD) == 0 and uses(story, "a", EUR) == 1
    case("revocation: a pool of other assets", story, "end 6", 1)


def first_asset():
    """The first asset of a pool is revoked, and offers in it go too."""
    offers = [offer("a", 1, EUR, LUMENS, 7), offer("a", 2, LUMENS, EUR, 5)]
    story = story_of(BOTH, [("a", (EUR, USD), 30, GREATEST, None)], [pool(EUR, USD, 31, 32, 30, 1)], offers=offers)
    story.run("z", (sets.allow_trust("a", 0, "EUR"), R(ALLOW, 0)))
    assert made(story) == {(EUR, 31, "a", 0), (USD, 32, "a", 0)} and not offers_of(story)
    assert left_in(story, EUR_USD) is None and shares_of(story, "a", EUR_USD) is None and story.counts("a") == (3, 0, 2)
    assert owes(story, "a") == owes(story, "a", EUR) == (0, 0)
    case("revocation: a first asset, and offers", story, "end 6", 1)


# ---- flags


def authorisations():
    """Lines that lose all of their authorisation, or that keep what they have."""
    # what maintains liabilities keeps its shares
    for name, op in [
        ("but for its liabilities", sets.allow_trust("a", 2)), ("but for its liabilities, by its flags", sets.set_line_flags("a", 1, 2)),
    ]:
        story = filled().run("z", (op, R(op[7], 0)))
        assert shares_of(story, "a", NATIVE_USD)[0] == 200 and story.line("a")[2] == 2
        case(f"revocation: {name}", story, "end 6", 1)
    for flags in (0, 2, 4, 6):
        story = filled(lines={"a": {USD: (1000, 10_000, flags)}}).run("z", (FREEZE, R(ALLOW, 0)))
        if flags & 2:
            assert made(story) == {(LUMENS, 400, "a", 0), (USD, 100, "a", flags // 4)} and left_in(story, NATIVE_USD) is None
        else:
            assert not story.claimables() and left_in(story, NATIVE_USD) == (400, 100, 200, 1)
        case(f"revocation: a line with flag {flags}", story, "end 6", 1)


def clawbacks():
    """Balances can be clawed back where the line in their asset could, by the flags after the operation."""
    for name, flags, op, clawed in [
        ("can be clawed back", 5, FREEZE, 1), ("can't be clawed back any more", 5, sets.set_line_flags("a", 5), 0),
    ]:
        story = filled(lines={"a": {USD: (10, 100, flags)}}).run("z", (op, R(op[7], 0)))
        assert made(story) == {(LUMENS, 400, "a", 0), (USD, 100, "a", clawed)}
        case(f"revocation: a line that {name}", story, "end 6", 1)
    for name, eur, usd in [("EUR", 5, 1), ("USD", 1, 5)]:
        lines = {"a": {EUR: (1000, 10_000, eur), USD: (1000, 10_000, usd)}}
        story = story_of(lines, [("a", (EUR, USD), 30, GREATEST, None)], [pool(EUR, USD, 31, 32, 30, 1)]).run("z", (FREEZE, R(ALLOW, 0)))
        assert made(story) == {(EUR, 31, "a", eur // 4), (USD, 32, "a", usd // 4)}
        case(f"revocation: USD goes, and {name} can be clawed back", story, "end 6", 1)


# ---- who pays, and ids


def payers():
    """A payer that can't pay for the balances fails the operation, and no open sponsorship is asked."""
    for way, op, low in [("", FREEZE, -6), ("by its flags, ", CLEAR, -5)]:
        for name, lumens, number in [("can just pay", 25_000_000, 0), ("is a stroop short", 24_999_999, low)]:
            story = Story(pooled_image(two_pools({"b": lumens}))).run("z", (op, R(op[7], number)))
            assert (left_in(story, EUR_USD) is None) == (number == 0)
            case(f"revocation: {way}a payer that {name}", story, "end 6", 1)
    # the line of shares goes first, which frees two of six reserves
    for name, lumens, number in [
        ("both balances", 30_000_000, 0), ("the first balance alone", 29_999_999, -6), ("no balance", 24_999_999, -6),
    ]:
        story = filled(lumens={"a": lumens}).run("z", (FREEZE, R(ALLOW, number)))
        assert len(story.claimables()) == (0 if number else 2)
        case(f"revocation: an owner that can pay for {name}", story, "end 6", 1)
    story = filled(lines={**OWN, "c": {}})
    story.run("c", *sponsored_by("c", "a", (sets.allow_trust("a", 0, source="z"), R(ALLOW, 0))), signers="caz")
    assert made(story) == {(LUMENS, 400, "a", 0), (USD, 100, "a", 0)} and story.counts("c") == (1, 0, 0) and story.counts("a") == (2, 0, 2)
    case("revocation: in an open sponsorship", story, "end 6", 1)


def ids():
    """Ids are those of the transaction's source, number and index, and none exists when its balance is made."""
    # the number is the transaction's, also where its source's is another one by now
    story = filled(lines={**OWN, "c": {}})
    story.run("c", (sets.bump_sequence(77), R(11, 0)), (sets.allow_trust("a", 0, source="z"), R(ALLOW, 0)), signers="cz")
    assert set(story.claimables()) == {made_id(NATIVE_USD, asset, "c", 1, 1) for asset in PAIR} and story.account("c")["seq"] == 77
    case("revocation: the second operation of another one's transaction", story, "end 6", 1)
    # A comes before B, and of each its id before its payer
    for name, asset, lumens, result in [
        ("an id that exists", USD, 10**9, REFUSED), ("an id of lumens that exists", LUMENS, 10**9, REFUSED),
        ("an id of USD that exists, no reserve for lumens", USD, 24_999_999, R(ALLOW, -6)),
        ("an id of lumens that exists, no reserve for them", LUMENS, 24_999_999, REFUSED),
        ("an id of USD that exists, no reserve for it", USD, 29_999_999, REFUSED),
    ]:
        rows = held({**OWN, "b": {}}, [("a", PAIR, 200, GREATEST, None)], [pool(*PAIR, 400, 100, 200, 1)], {"a": lumens})
        story = taken(rows, "b", made_id(NATIVE_USD, asset)).run("z", (FREEZE, result))
        assert shares_of(story, "a", NATIVE_USD)[0] == 200 and len(story.claimables()) == 1
        case(f"revocation: {name}", story, "end 6", 1)
    # pools come by their ids, each with its two balances
    assert NATIVE_USD < EUR_USD
    for name, lumens, digest, asset, result in [
        ("no reserve in the first pool, an id of the second", {"a": 34_999_999}, EUR_USD, EUR, R(ALLOW, -6)),
        ("an id of the first pool, no reserve in the second", {"b": 24_999_999}, NATIVE_USD, USD, REFUSED),
    ]:
        story = taken(two_pools(lumens, "c"), "c", made_id(digest, asset)).run("z", (FREEZE, result))
        assert left_in(story, NATIVE_USD) == (401, 100, 200, 1) and left_in(story, EUR_USD) == (31, 32, 30, 1)
        case(f"revocation: {name}", story, "end 6", 1)


PARTS = [entire_pools, pools_that_stay, first_asset, authorisations, clawbacks, payers, ids]
