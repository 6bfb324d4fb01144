"""The cases of operations on offers, which `run_cases.py` writes. Each says by hand how it ends, what each operation answers, and what
is left.
"""

import ledger_model as model
import set_cases as sets  # ledger_model puts its folder first
from asset_cases import EUR, ISSUER, R, code, sponsored_by
from case_tools import A, LUMEN, USD, Account, B, Story, case, entry, image, key, line, offer, sent, with_counts, with_liabilities
from entry_model import OFFER, key_of, rank_of_key
from ledger_model import GREATEST, i32, i64, many, u32
from offer_model import bound, holders

LUMENS = sets.LUMENS
SELL, PASSIVE, BUY = 3, 4, 12
ONE = (1, 1)

# ---- images


def owed_by(offers):
    """What offers sell and buy, by the ranks of the keys under which it is bound."""
    owed = {}
    for value in offers:
        for side, rank, amount in zip((1, 0), holders(value["body"][1]), bound(value["body"][1])):
            owed.setdefault(rank, [0, 0])[side] += amount
    return owed


def market(lines, offers=(), lumens=None, payers=None):
    """Entries of an issuer z, of accounts by their names, each with lines of assets (balance, limit and flags), and of their offers.
    `lumens` has what accounts have that isn't 100 lumens, `payers` how many reserves an account pays for another one's."""
    owed, entries = owed_by(offers), []
    for name, held in {"z": {}, **lines}.items():
        mine = [value for value in offers if value["body"][1]["seller"] == (0, key(name))]
        flags = 10 if name == "z" else 0
        account = entry(Account(name, (lumens or {}).get(name, 100 * LUMEN), data=len(held) + len(mine), flags=flags))
        if (0, key(name)) in owed:
            account = with_liabilities(account, *owed[0, key(name)])
        paid = sum(model.sponsor_of(value) is not None for value in mine)
        if paid or name in (payers or {}):
            account = counted(account, paid, (payers or {}).get(name, 0))
        entries.append(account)
        for asset, (balance, limit, of_line) in held.items():
            plain = line(name, asset, balance, limit, of_line)
            entries.append(line(name, asset, balance, limit, of_line, owed.get(rank_of_key(key_of(plain)))))
    return [*entries, *offers]


def counted(value, sponsored, sponsoring):
    """An account's entry with counts of reserves, which keeps what it owes."""
    said = {"sponsored": sponsored, "sponsoring": sponsoring, "sponsors": [None] * len(value["body"][1]["signers"]), "ext": (0, None)}
    return {**value, "body": (0, model.with_second(value["body"][1], said))}


def books(lines, offers=(), ids=9, **more):
    return Story(image(market(lines, offers, **more), ids=ids))


# ---- operations and results


def sell(amount, price=ONE, selling=LUMENS, buying=USD, number=0, source=None, kind=SELL):
    fields = selling + buying + i64(amount) + i32(price[0]) + i32(price[1])
    return sets.operation(kind, fields if kind == PASSIVE else fields + i64(number), source)


def passive(amount, price=ONE, selling=LUMENS, buying=USD, source=None):
    return sell(amount, price, selling, buying, 0, source, PASSIVE)


def buy(amount, price=ONE, selling=LUMENS, buying=USD, number=0, source=None):
    return sell(amount, price, selling, buying, number, source, BUY)


def atom(name, number, sold, sold_amount, bought, bought_amount):
    return i32(1) + u32(0) + key(name) + i64(number) + sold + i64(sold_amount) + bought + i64(bought_amount)


def made(kind, kept, *atoms):
    """The result of an operation that made an offer, which is kept."""
    return R(kind, 0) + many(list(atoms)) + i32(0) + OFFER.write(kept["body"][1])


def changed(kind, kept, *atoms):
    return R(kind, 0) + many(list(atoms)) + i32(1) + OFFER.write(kept["body"][1])


def gone(kind, *atoms):
    """The result of an operation whose offer isn't kept, or is removed."""
    return R(kind, 0) + many(list(atoms)) + i32(2)


EXCEEDED = i32(-5)


def offers_of(story):
    """The offers that exist, by their ids: the seller, the amount, the price and the flags."""
    bodies = [value["body"][1] for rank, value in story.ledger.entries.items() if rank[0] == 2]
    return {body["offer"]: (body["amount"], (body["price"]["n"], body["price"]["d"]), body["flags"]) for body in bodies}


def owes(story, name, asset=None):
    """What an account or one of its lines owes: what it buys and sells."""
    rank = (0, key(name)) if asset is None else rank_of_key(key_of(line(name, asset)))
    said = model.liabilities(story.ledger.entries[rank]["body"][1])
    return said["buying"], said["selling"]


# ---- crossing


def crossings():
    """What an offer crosses, and what is left of it."""
    # the best price first, and the least id of equal prices
    resting = [offer("b", number, USD, LUMENS, 12, price) for number, price in [(5, (1, 2)), (3, (2, 4)), (9, (1, 3))]]
    story = books({"a": {USD: (0, 100, 1)}, "b": {USD: (36, 100, 1)}}, resting)
    atoms = [atom("b", 9, USD, 12, LUMENS, 4), atom("b", 3, USD, 12, LUMENS, 6), atom("b", 5, USD, 12, LUMENS, 6)]
    story.run("a", (sell(100), made(SELL, offer("a", 10, LUMENS, USD, 64), *atoms)))
    assert story.line("a") == (36, 100, 1) and story.line("b") == (0, 100, 1) and story.counts("b") == (2, 0, 0)
    assert offers_of(story) == {10: (64, ONE, 0)} and owes(story, "a") == (0, 64) and owes(story, "a", USD) == (64, 0)
    case("crossing: by price and by id", story, "end 6", 1)
    # a passive offer doesn't cross its own price, and others do
    resting = [offer("b", 1, USD, LUMENS, 10, (2, 1))]
    both = {"a": {USD: (0, 100, 1)}, "b": {USD: (10, 100, 1)}}
    story = books(both, resting).run("a", (passive(10, (1, 2)), made(PASSIVE, offer("a", 10, amount=10, price=(1, 2), flags=1))))
    assert offers_of(story) == {1: (10, (2, 1), 0), 10: (10, (1, 2), 1)}
    case("crossing: a passive offer at the inverse of the best price", story, "end 6", 1)
    # it stays passive where it is changed, also by another type of operation
    story.run("a", (sell(8, (1, 2), number=10), changed(SELL, offer("a", 10, amount=8, price=(1, 2), flags=1))),
              (passive(9, (1, 3)), gone(PASSIVE, atom("b", 1, USD, 4, LUMENS, 8))))
    case("crossing: a passive offer that is changed", story, "end 7", 2)
    story = books(both, resting).run("a", (sell(10, (1, 2)), gone(SELL, atom("b", 1, USD, 5, LUMENS, 10))))
    assert offers_of(story) == {1: (5, (2, 1), 0)} and story.line("a")[0] == 5 and story.ledger.header["ids"] == 9
    case("crossing: the same price", story, "end 6", 1)
    passively = [offer("b", 1, USD, LUMENS, 10, (2, 1), 1)]
    story = books(both, passively).run("a", (sell(10, (1, 2)), gone(SELL, atom("b", 1, USD, 5, LUMENS, 10))))
    case("crossing: a passive offer that rests", story, "end 6", 1)
    story = books(both, resting).run("a", (sell(10, (100, 199)), made(SELL, offer("a", 10, amount=10, price=(100, 199)))))
    case("crossing: a price that is just too dear", story, "end 6", 1)
    # a part is crossed, and the rest is kept
    story = books(both, [offer("b", 1, USD, LUMENS, 4)])
    story.run("a", (sell(10), made(SELL, offer("a", 10, amount=6), atom("b", 1, USD, 4, LUMENS, 4))))
    assert offers_of(story) == {10: (6, ONE, 0)} and story.counts("b") == (2, 0, 0) and story.counts("a") == (3, 0, 0)
    case("crossing: a part", story, "end 6", 1)
    # nobody crosses its own offer, also after another one's
    rows = [offer("b", 1, USD, LUMENS, 4), offer("a", 2, USD, LUMENS, 4)]
    story = books({"a": {USD: (9, 100, 1)}, "b": {USD: (10, 100, 1)}}, rows)
    story.run("a", (sell(5), R(SELL, -8)), (buy(5), R(BUY, -8)), (passive(5, (1, 2)), R(PASSIVE, -8)),
              (sell(4), gone(SELL, atom("b", 1, USD, 4, LUMENS, 4))))
    assert sorted(offers_of(story)) == [1, 2]
    case("crossing: its own offer", story, "end 6", 1)


def exchange_rows():
    """A crossing for each row of the table of exchanges, and the rules of zero."""
    for name, (amount, price), wanted, (wheat, sheep), rest in [
        ("wheat stays above a price of 1", (1000, (3, 2)), sell(701, (1, 2)), (467, 701), 533),
        ("wheat stays at a price below 1", (999, (2, 3)), sell(501), (751, 501), 248),
        ("none stays above a price of 1", (501, (3, 2)), sell(10_000, (1, 2)), (501, 751), None),
        ("none stays at a price below 1", (501, (2, 3)), sell(10_000), (501, 334), None),
        ("one side would get nothing", (10, (3, 2)), sell(1, (1, 2)), (0, 0), 10),
        ("a price would be off by more than a hundredth", (9, (2, 3)), sell(5), (0, 0), 9),
    ]:
        story = books({"a": {USD: (0, 20_000, 1)}, "b": {USD: (1000, 1000, 1)}}, [offer("b", 1, USD, LUMENS, amount, price)])
        story.close(sent("a", 1, wanted))
        met = atom("b", 1, USD, wheat, LUMENS, sheep)
        assert many([met]) in next(iter(story.ledger.outcomes.values())), name
        assert story.line("a")[0] == wheat and story.account("b")["balance"] == 100 * LUMEN + sheep, name
        assert offers_of(story).get(1, (None,))[0] == rest, (name, offers_of(story))
        case(f"exchange: {name}", story, "end 6", 1)


def too_little():
    """Owners that have too little left for their offers."""
    # b may give 3 stroops more than its reserves, which are 5, and offers 10
    resting = [offer("b", 1, LUMENS, USD, 10)]
    lines = {"a": {USD: (50, 100, 1)}, "b": {USD: (0, 100, 1)}}
    for name, lumens, wheat in [("a part", 25_000_003, 3), ("nothing", 25_000_000, 0), ("less than nothing", 10, 0)]:
        story = books(lines, resting, lumens={"b": lumens})
        story.run("a", (sell(10, ONE, USD, LUMENS), made(
            SELL, offer("a", 10, USD, LUMENS, 10 - wheat), atom("b", 1, LUMENS, wheat, USD, wheat))))
        assert story.account("b")["balance"] == lumens - wheat and story.counts("b") == (2, 0, 0) and owes(story, "b") == (0, 0)
        case(f"owners: {name} is left", story, "end 6", 1)
    # a line that is authorised to maintain liabilities alone is crossed
    story = books({"a": {USD: (0, 100, 1)}, "b": {USD: (10, 100, 2)}}, [offer("b", 1, USD, LUMENS, 10)])
    story.run("a", (sell(4), gone(SELL, atom("b", 1, USD, 4, LUMENS, 4))))
    assert offers_of(story) == {1: (6, ONE, 0)} and owes(story, "b", USD) == (0, 6)
    case("owners: one that maintains its liabilities", story, "end 6", 1)
    # issuers have as much as they like, as takers and as owners
    story = books({"a": {USD: (0, GREATEST, 1)}}, [offer("z", 1, USD, LUMENS, 500)])
    story.run("a", (sell(200), gone(SELL, atom("z", 1, USD, 200, LUMENS, 200))))
    assert offers_of(story) == {1: (300, ONE, 0)} and owes(story, "z") == (300, 0)
    case("owners: an issuer", story, "end 6", 1)
    story = books({"a": {USD: (0, GREATEST, 1)}}, [offer("a", 1, LUMENS, USD, 500)])
    story.run("z", (sell(200, ONE, USD, LUMENS), gone(SELL, atom("a", 1, LUMENS, 200, USD, 200))))
    story.run("z", (sell(GREATEST, (1, 100), USD, LUMENS), made(
        SELL, offer("z", 10, USD, LUMENS, GREATEST - 307, (1, 100)), atom("a", 1, LUMENS, 300, USD, 300))))
    assert story.line("a")[0] == 500
    case("takers: an issuer", story, "end 7", 2)


def many_crossings():
    """A thousand crossings of an operation, and one more."""
    assets = {USD: (501, 1000, 1)}
    for count in (1000, 1001):
        names = ["b"] * 500 + ["c"] * (count - 500)
        resting = [offer(name, number + 1, USD, LUMENS, 1) for number, name in enumerate(names)]
        lumens = {"b": 10**11, "c": 10**11}
        story = books({"a": {USD: (0, 2000, 1)}, "b": assets, "c": assets}, resting, ids=count, lumens=lumens)
        atoms = [atom(name, number + 1, USD, 1, LUMENS, 1) for number, name in enumerate(names)]
        if count == 1000:
            story.run("a", (sell(1000), gone(SELL, *atoms)))
            assert story.line("a")[0] == 1000 and not offers_of(story) and story.counts("b") == (2, 0, 0)
        else:
            story.run("a", (sell(1001), EXCEEDED), (buy(1001), EXCEEDED), (passive(1001, (1, 2)), EXCEEDED))
            assert story.line("a")[0] == 0 and len(offers_of(story)) == 1001
        case(f"crossing: {count} offers", story, "end 6", 1)


# ---- codes


def forms():
    """What is malformed."""
    bad = code(b"US D")
    wrong = [
        dict(amount=1, selling=bad), dict(amount=1, buying=bad), dict(amount=1, buying=LUMENS), dict(amount=1, selling=USD),
        dict(amount=-1), dict(amount=1, price=(0, 1)), dict(amount=1, price=(1, 0)), dict(amount=1, price=(-1, 1)),
        dict(amount=1, price=(1, -1)), dict(amount=1, price=(-1, -1)), dict(amount=0),
    ]
    numbered = [dict(amount=1, number=-1), dict(amount=0, number=-1), dict(amount=-1, number=1)]
    story = books({"a": {USD: (60, 100, 1)}})
    pairs = [(sell(**fields, kind=kind), R(kind, -1)) for kind in (SELL, PASSIVE, BUY) for fields in wrong]
    pairs += [(sell(**fields, kind=kind), R(kind, -1)) for kind in (SELL, BUY) for fields in numbered]
    case("offers: malformed", story.run("a", *pairs), "end 6", 1)


def codes():
    """What operations on offers answer, on both sides of each bound."""
    lines = {
        "a": {USD: (60, 100, 1), EUR: (0, 100, 1)}, "c": {}, "d": {USD: (5, 10, 0)}, "e": {USD: (5, 10, 2)}, "f": {USD: (0, 10, 0)},
        "g": {USD: (10, 10, 1)}, "h": {USD: (0, GREATEST, 1)},
    }
    selling = dict(selling=USD, buying=LUMENS)
    rows = [
        (dict(amount=1, number=5), -11), (dict(amount=0, number=5), -11), (dict(amount=1, source="c", **selling), -2),
        (dict(amount=1, source="c", selling=USD, buying=EUR), -2), (dict(amount=1, source="f", **selling), -7),
        (dict(amount=1, source="d", **selling), -4), (dict(amount=1, source="e", **selling), -4),
        (dict(amount=1, source="d", selling=USD, buying=EUR), -4), (dict(amount=1, source="c"), -3), (dict(amount=1, source="d"), -5),
        (dict(amount=1, source="e"), -5), (dict(amount=1, source="f"), -5), (dict(amount=1, source="g"), -6),
        (dict(amount=41), -6), (dict(amount=61, **selling), -7), (dict(amount=101, selling=USD, buying=EUR), -6),
        (dict(amount=61, selling=USD, buying=EUR), -7), (dict(amount=975_000_001, source="h"), -7),
    ]
    pairs = [(sell(**fields, kind=kind), R(kind, number)) for kind in (SELL, BUY) for fields, number in rows]
    pairs += [(sell(**fields, kind=PASSIVE), R(PASSIVE, number)) for fields, number in rows if "number" not in fields]
    case("offers: their codes", books(lines).run("a", *pairs, signers="acdefgh"), "end 6", 1)
    fine = [
        (sell(40), made(SELL, offer("a", 10, amount=40))),
        (sell(60, (2, 1), **selling), made(SELL, offer("a", 11, USD, LUMENS, 60, (2, 1)))),
        (sell(975_000_000, (2, 1), source="h"), made(SELL, offer("h", 12, amount=975_000_000, price=(2, 1)))),
        (sell(1), R(SELL, -6)), (sell(1, **selling), R(SELL, -7)), (sell(1, source="h"), R(SELL, -12)),
    ]
    story = books(lines).run("a", *fine[:3], signers="ah").run("a", *fine[3:], signers="ah")
    story.run("a", (sell(0, number=10), gone(SELL)), (buy(40), made(BUY, offer("a", 13, amount=40))),
              (buy(6, (1, 2), number=11, **selling), changed(BUY, offer("a", 11, USD, LUMENS, 3, (2, 1)))))
    story.run("a", (sell(0, number=10), R(SELL, -11)), (buy(1), R(BUY, -6)), (buy(122, (1, 2), number=11, **selling), R(BUY, -7)))
    assert story.ledger.header["ids"] == 13 and owes(story, "a") == (6, 40) and owes(story, "a", USD) == (40, 3)
    case("offers: the most that an account can give and take", story, "end 9", 4)


def reserves():
    """The reserve of an offer, and what may be sold beside it."""
    lines = {"p": {USD: (5, 10, 1)}, "a": {}}
    selling = dict(selling=USD, buying=LUMENS, source="p")
    exact = books(lines, lumens={"p": 25_000_000}).run("a", (sell(1, source="p"), R(SELL, -7)), signers="ap")
    exact.run("a", (sell(5, **selling), made(SELL, offer("p", 10, USD, LUMENS, 5))), signers="ap")
    assert exact.counts("p") == (3, 0, 0)
    case("offers: the last reserve", exact, "end 7", 2)
    less = books(lines, lumens={"p": 24_999_999})
    less.run("a", (sell(5, **selling), R(SELL, -12)), (buy(5, **selling), R(BUY, -12)), (passive(5, **selling), R(PASSIVE, -12)),
             signers="ap")
    case("offers: a stroop less", less, "end 6", 1)
    one = books(lines, lumens={"p": 25_000_001}).run("a", (sell(1, source="p"), made(SELL, offer("p", 10))), signers="ap")
    case("offers: a stroop more", one, "end 6", 1)
    # others pay for an offer, and go on as it changes, until it is crossed away or removed
    story = books({"a": {USD: (0, 100, 1)}, "b": {USD: (50, 100, 1)}, "c": {}})
    own = dict(selling=USD, buying=LUMENS, source="b")
    story.run("c", *sponsored_by("c", "b", (sell(8, **own), made(SELL, offer("b", 10, USD, LUMENS, 8))),
                                 (sell(9, **own), made(SELL, offer("b", 11, USD, LUMENS, 9)))), signers="cb")
    assert story.counts("b") == (4, 2, 0) and story.counts("c") == (1, 0, 2)
    story.run("b", (sell(8, (1, 2), USD, LUMENS, 10), changed(SELL, offer("b", 10, USD, LUMENS, 8, (1, 2)))))
    assert story.counts("b") == (4, 2, 0)
    story.run("a", (sell(3), gone(SELL, atom("b", 10, USD, 6, LUMENS, 3))))
    assert story.counts("b") == (4, 2, 0) and offers_of(story) == {10: (2, (1, 2), 0), 11: (9, ONE, 0)}
    story.run("b", (sell(0, ONE, USD, LUMENS, 11), gone(SELL)))
    assert story.counts("b") == (3, 1, 0) and story.counts("c") == (1, 0, 1)
    case("offers: with a sponsor", story, "end 9", 4)


# ---- lines that lose their authorisation


def revocations():
    """Offers that go where a line loses its authorisation."""
    lines = {"a": {USD: (20, 100, 1), EUR: (20, 100, 1)}, "b": {USD: (20, 100, 1)}}
    rows = [
        offer("a", 4, USD, LUMENS, 5), offer("a", 2, LUMENS, USD, 5, (9, 1)), offer("a", 3, EUR, LUMENS, 5), offer("a", 7, EUR, USD, 5),
        offer("b", 1, USD, LUMENS, 5, (3, 1)),
    ]
    for name, frozen, kept in [
        ("by ALLOW_TRUST", sets.allow_trust("a", 0), {}), ("by its flags", sets.set_line_flags("a", 1), {}),
        ("but for its liabilities", sets.allow_trust("a", 2), {2, 4, 7}),
        ("but for its liabilities, by its flags", sets.set_line_flags("a", 1, 2), {2, 4, 7}),
    ]:
        story = books(lines, rows)
        story.close(sent("z", 1, frozen), expected=[sets.ok(R(frozen[7], 0))])
        assert set(offers_of(story)) == {1, 3} | set(kept)
        if not kept:
            assert owes(story, "a") == (5, 0) and owes(story, "a", USD) == (0, 0) and owes(story, "a", EUR) == (0, 5)
            assert story.counts("a") == (4, 0, 0)
        case(f"revocation: {name}", story, "end 6", 1)
    # what a line maintains goes with the rest of its authorisation
    story = books({"a": {USD: (20, 100, 2)}, "b": {}}, [offer("a", 4, USD, LUMENS, 5)])
    story.run("z", (sets.set_line_flags("a", 2), R(21, 0)))
    assert not offers_of(story) and story.line("a") == (20, 100, 0)
    case("revocation: of liabilities that were maintained", story, "end 6", 1)
    # in one transaction an offer is made, goes, and can't be made again; its id isn't drawn again
    story = books({"a": {USD: (20, 100, 1)}})
    op = sell(5, ONE, USD, LUMENS, source="a")
    story.run("z", (op, made(SELL, offer("a", 10, USD, LUMENS, 5))), (sets.allow_trust("a", 0), R(7, 0)),
              (sets.allow_trust("a", 1), R(7, 0)), (op, made(SELL, offer("a", 11, USD, LUMENS, 5))), signers="za")
    assert list(offers_of(story)) == [11] and story.ledger.header["ids"] == 11
    case("revocation: of an offer that is new", story, "end 6", 1)
    # none of a transaction that fails is drawn
    story = books({"a": {USD: (20, 100, 1)}}).run("a", (sell(5), made(SELL, offer("a", 10, amount=5))), (sell(0), R(SELL, -1)))
    assert story.ledger.header["ids"] == 9 and not offers_of(story)
    story.run("a", (sell(5), made(SELL, offer("a", 10, amount=5))))
    case("offers: ids of a transaction that fails", story, "end 7", 2)
    # operations that aren't run
    idle = books({"a": {USD: (20, 100, 1)}}).close(
        sent("a", 1, sell(5), passive(5), buy(5), sets.payment("a", 1, "z"), fee=400),
        expected=[sets.failed(gone(SELL), gone(PASSIVE), gone(BUY), i32(-1))])
    case("offers: none without a signature", idle, "end 6", 1)


PARTS = [crossings, exchange_rows, too_little, many_crossings, forms, codes, reserves, revocations]
