"""The cases of images with pools and lines of their shares, which `run_cases.py` writes: legal ones, and those that break a rule of
entries, at both sides of its bounds.
"""

import ledger_model as model
from asset_cases import EUR, code
from case_tools import LUMEN, USD, case, image, key, line
from entry_model import POOL_PARAMS
from ledger_model import GREATEST, u32
from pool_tools import EUR_USD, LUMENS, NATIVE_USD, OWN, PAIR, held, pool, pooled_image, read, share, with_account

SHARES = u32(3) + NATIVE_USD
MINE = [("a", PAIR, 200, GREATEST, None)]


def breaks(rule, name, entries):
    case(f"an image: rule {rule}, {name}", pooled_image(entries), f"10 bad image rule {rule}")


def changed_pool(**fields):
    """The pool of lumens and USD with 400 and 100 in it, 200 shares and one line, with other fields."""
    value = pool(*PAIR, 400, 100, 200, 1)
    kind, content = value["body"]
    return {**value, "body": (kind, {**content, "body": (0, {**content["body"][1], **fields})})}


def under(digest, value):
    """A pool under another id."""
    return {**value, "body": (5, {**value["body"][1], "pool": digest})}


LEGAL = held(OWN, MINE, [changed_pool()])
OTHERS, BESIDE = LEGAL[:-1], LEGAL[:-2]
assert LEGAL[-2] == share("a", NATIVE_USD, 200)


def legal_images():
    """Images of pools that break no rule."""
    def fits(name, entries):
        case(f"an image: {name}", pooled_image(entries), "end 5", 0)

    fits("a pool, and all its shares", LEGAL)
    fits("an empty pool", held(OWN, [("a", PAIR, 0, 1, None)], [pool(*PAIR, lines=1)]))
    two = {"a": {USD: (0, 1, 1), EUR: (0, 1, 1)}, "b": {USD: (0, 1, 0)}}
    both = [("a", PAIR, 150, GREATEST, None), ("a", (EUR, USD), 1, 1, None), ("b", PAIR, 50, GREATEST, None)]
    fits("two pools of three lines", held(two, both, [pool(*PAIR, 400, 100, 200, 2), pool(EUR, USD, 3, 2, 1, 1)]))
    fits("shares of an issuer", held({}, [("z", PAIR, 1, 1, None)], [pool(*PAIR, 1, 1, 1, 1)]))
    # the codes of a pool's assets aren't judged, and an issuer needs no line of such a one
    bad = code(b"US D")
    fits("a pool of an asset that is none", held({}, (), [pool(LUMENS, bad)]))
    shares = [("z", (LUMENS, bad), 200, GREATEST, None)]
    fits("an issuer's shares of an asset that is none", held({}, shares, [pool(LUMENS, bad, 400, 100, 200, 1)]))


def pool_ranges():
    """Rule 7 by pools."""
    # shares of another fee, or of the other order, fit their pools but for that
    parts = {"a": read(LUMENS), "b": read(USD), "fee": 29}
    digest = model.sha(POOL_PARAMS.write((0, parts)))
    of_29 = [*BESIDE, share("a", digest, 200), under(digest, changed_pool(fee=29))]
    breaks(7, "a fee of 29", of_29)
    turned = held(OWN, [("a", (USD, LUMENS), 200, GREATEST, None)], [pool(USD, LUMENS, 100, 400, 200, 1)])
    breaks(7, "the assets in the other order", turned)
    breaks(7, "one asset twice", held(OWN, (), [pool(USD, USD)]))
    for name, value in [
        ("a fee of 31", changed_pool(fee=31)), ("a reserve of A below 0", changed_pool(reserve_a=-1)),
        ("a reserve of B below 0", changed_pool(reserve_b=-1)), ("shares below 0", changed_pool(shares=-1)),
        ("a count of lines below 0", changed_pool(lines=-1)), ("the id of another pool", under(EUR_USD, changed_pool())),
        ("a pool with a sponsor", model.with_sponsor(changed_pool(), key("a"))),
    ]:
        breaks(7, name, [*OTHERS, value])


def share_rules():
    """Rules 7 to 12 by lines of shares."""
    for name, value in [
        ("shares in a line below 0", share("a", NATIVE_USD, -1)), ("a line of shares of limit 0", share("a", NATIVE_USD, 0, 0)),
        ("shares above their limit", share("a", NATIVE_USD, 200, 199)),
        ("a line of shares with flag 1", line("a", SHARES, 200, GREATEST, 1)),
        ("a line of shares with flag 4", line("a", SHARES, 200, GREATEST, 4)),
        ("a line of shares with a use below 0", line("a", SHARES, 200, GREATEST, 0, uses=-1)),
    ]:
        breaks(7, name, [*BESIDE, value, changed_pool()])
    # what exists beside each
    breaks(8, "shares of no pool", OTHERS)
    breaks(8, "shares without the line in USD", held({"a": {}}, MINE, [changed_pool()]))
    half = held({"a": {USD: (0, 1, 1)}}, [("a", (EUR, USD), 1, 1, None)], [pool(EUR, USD, 3, 2, 1, 1)])
    breaks(8, "shares without the line in EUR", half)
    breaks(9, "shares that are sold", [*BESIDE, line("a", SHARES, 200, GREATEST, 0, owed=(0, 1)), changed_pool()])
    breaks(12, "a line of shares with a use", [*BESIDE, line("a", SHARES, 200, GREATEST, 0, uses=1), changed_pool()])
    # a signer, a line of USD and a line of shares are four subentries
    once = with_account(LEGAL, "a", lambda value: {**value, "body": (0, {**value["body"][1], "subs": 3})})
    breaks(10, "a line of shares counted as one subentry", once)
    shares, lines = [("a", PAIR, 200, GREATEST, "b")], {**OWN, "b": {}}
    for paid, pays in [(2, 2), (1, 1), (2, 1), (1, 2)]:
        entries = held(lines, shares, [changed_pool()], payers={"a": (paid, 0), "b": (0, pays)})
        if paid == pays == 2:
            case("an image: a sponsored line of shares", pooled_image(entries), "end 5", 0)
        else:
            breaks(11, f"a sponsored line of shares, counted as {paid} and {pays}", entries)


def pool_counts():
    """Rule 12 by pools and by the lines of their assets."""
    for name, fields in [
        ("a share more", dict(shares=201)), ("a share less", dict(shares=199)), ("no line", dict(lines=0)), ("two lines", dict(lines=2)),
        ("shares and no A", dict(reserve_a=0)), ("shares and no B", dict(reserve_b=0)),
        ("shares and no reserves", dict(reserve_a=0, reserve_b=0)),
    ]:
        breaks(12, name, [*OTHERS, changed_pool(**fields)])
    used = line("a", USD, 1000, 10_000, 1, uses=1)
    assert used in LEGAL
    for uses_of_line, name in [(None, "a use that isn't counted"), (2, "a use too many")]:
        breaks(12, name, [line("a", USD, 1000, 10_000, 1, uses=uses_of_line) if value == used else value for value in LEGAL])
    for name, reserves in [("reserves without shares", (1, 1)), ("A alone without shares", (1, 0)), ("B alone without shares", (0, 1))]:
        breaks(12, name, held(OWN, [("a", PAIR, 0, 1, None)], [pool(*PAIR, *reserves, 0, 1)]))
    case("an image: rule 12, a pool without lines", pooled_image(held({}, (), [pool(*PAIR)])), "end 5", 0)
    breaks(12, "a pool without lines that counts one", held({}, (), [pool(*PAIR, lines=1)]))
    breaks(12, "a line that no shares need", [*held(OWN)[:-1], used])


def pool_lumens():
    """Lumens in pools are lumens; and two rules that are broken at once."""
    coins = 200 * LUMEN
    case("an image: rule 13, lumens of a pool left out", image(LEGAL, coins=coins), "10 bad image rule 13")
    case("an image: rule 13, lumens of a pool", image(LEGAL, coins=coins + 400), "end 5", 0)
    uncounted = [*held({"a": {USD: (1000, 10_000, 1)}}), share("a", NATIVE_USD, 200), changed_pool()]
    case("an image: rules 10 and 12", pooled_image(uncounted), "10 bad image rule 10")


PARTS = [legal_images, pool_ranges, share_rules, pool_counts, pool_lumens]
