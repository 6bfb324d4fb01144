"""The cases of lines of pool shares, and of the pools that come and go with them, which `run_cases.py` writes. Each says by hand how it
ends, what each operation answers, and what is left.
"""

from ledger_model import GREATEST, u32
import set_cases as sets  # ledger_model puts its folder first
from asset_cases import EUR, R, sponsored_by
from case_tools import LUMEN, USD, Account, Data, Story, case, entry, key, line
from pool_tools import (
    EUR_USD, LUMENS, NATIVE_USD, OWN, PAIR, TRUST, filled, held, left_in, pool_of, pooled_image, shares_of, story_of, trust, uses,
    with_account,
)


def share_lines():
    """Lines of shares that come, change and go, and their pools."""
    story = story_of(OWN).run("a", (trust(*PAIR), R(TRUST, 0)))
    assert left_in(story, NATIVE_USD) == (0, 0, 0, 1) and shares_of(story, "a", NATIVE_USD) == (0, GREATEST, 0)
    assert story.counts("a") == (4, 0, 0) and uses(story, "a", USD) == 1
    story.run("a", (trust(*PAIR, 7), R(TRUST, 0)), (sets.change_trust(USD, 0), R(TRUST, -3)))
    story.run("a", (trust(*PAIR, 7), R(TRUST, 0)))
    assert shares_of(story, "a", NATIVE_USD) == (0, 7, 0)
    story.run("a", (trust(*PAIR, 0), R(TRUST, 0)))
    assert left_in(story, NATIVE_USD) is None and shares_of(story, "a", NATIVE_USD) is None
    assert story.counts("a") == (2, 0, 0) and uses(story, "a", USD) == 0
    case("lines: of shares that come and go", story, "end 9", 4)
    # the pool stays while somebody has a line, and a line that is used can't go
    both = {"a": {USD: (0, 10, 1)}, "b": {USD: (0, 10, 2)}}
    story = story_of(both).run("a", (trust(*PAIR), R(TRUST, 0)), (trust(*PAIR, source="b"), R(TRUST, 0)), signers="ab")
    assert left_in(story, NATIVE_USD) == (0, 0, 0, 2)
    story.run("a", (sets.change_trust(USD, 0), R(TRUST, -7)))
    story.run("a", (trust(*PAIR, 0), R(TRUST, 0)), (sets.change_trust(USD, 0), R(TRUST, 0)))
    assert left_in(story, NATIVE_USD) == (0, 0, 0, 1)
    case("lines: a pool that others have shares of", story, "end 8", 3)
    # an issuer needs no line in its own asset
    story = story_of({"a": {USD: (0, 10, 1)}}).run("z", (trust(*PAIR), R(TRUST, 0)))
    assert story.counts("z") == (3, 0, 0) and left_in(story, NATIVE_USD) == (0, 0, 0, 1)
    case("lines: of an issuer", story, "end 6", 1)
    # two pools use one line
    story = story_of({"a": {USD: (0, 10, 1), EUR: (0, 10, 1)}}).run("a", (trust(*PAIR), R(TRUST, 0)), (trust(EUR, USD), R(TRUST, 0)))
    assert uses(story, "a", USD) == 2 and uses(story, "a", EUR) == 1 and story.counts("a") == (7, 0, 0)
    story.run("a", (trust(EUR, USD, 0), R(TRUST, 0)))
    assert uses(story, "a", USD) == 1 and uses(story, "a", EUR) == 0
    case("lines: two pools", story, "end 7", 2)


def share_codes():
    """What CHANGE_TRUST answers for shares."""
    bad = u32(1) + b"US D" + u32(0) + key("z")
    malformed = [
        trust(USD, LUMENS), trust(USD, USD), trust(LUMENS, LUMENS), trust(LUMENS, bad), trust(*PAIR, fee=29), trust(*PAIR, fee=31),
        trust(*PAIR, -1), trust(USD, EUR),
    ]
    story = story_of(OWN).run("a", *[(op, R(TRUST, -1)) for op in malformed])
    case("lines: malformed", story, "end 6", 1)
    lines = {"a": {USD: (0, 10, 0)}, "b": {USD: (0, 10, 2)}, "c": {}}
    rows = [
        (trust(*PAIR, 0), -3), (trust(*PAIR), -8), (trust(*PAIR, source="c"), -6), (trust(EUR, USD, source="b"), -6),
        (trust(EUR, USD), -6),
    ]
    story = story_of(lines).run("a", *[(op, R(TRUST, number)) for op, number in rows], signers="abc")
    assert left_in(story, NATIVE_USD) is None
    case("lines: codes of what is missing", story, "end 6", 1)
    # the limit holds what is there, and no less
    story = filled(limit=500)
    story.run("a", (trust(*PAIR, 199), R(TRUST, -3)), (trust(*PAIR, 0), R(TRUST, -3)))
    story.run("a", (trust(*PAIR, 200), R(TRUST, 0)))
    assert shares_of(story, "a", NATIVE_USD) == (200, 200, 0)
    case("lines: the least limit", story, "end 7", 2)
    # two reserves
    for name, lumens, code, done in [("the last two reserves", 30_000_100, 0, 4), ("a stroop less", 30_000_099, -4, 2)]:
        story = story_of(OWN, lumens={"a": lumens}).run("a", (trust(*PAIR), R(TRUST, code)))
        assert story.counts("a") == (done, 0, 0)
        case(f"lines: {name}", story, "end 6", 1)
    # others pay for a line of shares
    story = story_of({**OWN, "b": {}})
    story.run("b", *sponsored_by("b", "a", (trust(*PAIR, source="a"), R(TRUST, 0))), signers="ab")
    assert story.counts("a") == (4, 2, 0) and story.counts("b") == (1, 0, 2)
    of_line = u32(1) + u32(0) + key("a") + u32(3) + NATIVE_USD
    story.run("b", (sets.revoke(of_line), R(18, 0)))
    assert story.counts("a") == (4, 0, 0) and story.counts("b") == (1, 0, 0)
    case("lines: with a sponsor", story, "end 7", 2)


def lines_of_assets():
    """What shares need of the lines of their assets: all of A's is tested before B's."""
    bad = u32(1) + b"US D" + u32(0) + key("z")
    case("lines: a first asset that is none", story_of(OWN).run("a", (trust(bad, USD), R(TRUST, -1))), "end 6", 1)
    for name, lines in [
        ("a line in A without authorisation, none in B", {EUR: (0, 10, 0)}),
        ("a line in A that can be clawed back alone", {EUR: (0, 10, 4), USD: (0, 10, 1)}),
    ]:
        story = story_of({"a": lines}).run("a", (trust(EUR, USD), R(TRUST, -8)))
        assert left_in(story, EUR_USD) is None
        case(f"lines: {name}", story, "end 6", 1)
    # the issuer of an asset needn't be there
    lost = sets.asset("USD", "y")
    story = story_of({"a": {lost: (0, 10, 1)}}).run("a", (trust(LUMENS, lost), R(TRUST, 0)))
    story.run("a", (trust(LUMENS, lost, 5), R(TRUST, 0)))
    assert shares_of(story, "a", pool_of(LUMENS, lost)) == (0, 5, 0) and left_in(story, pool_of(LUMENS, lost)) == (0, 0, 0, 1)
    assert story.counts("a") == (4, 0, 0) and uses(story, "a", lost) == 1
    case("lines: an issuer without an account", story, "end 7", 2)
    # the line of an asset keeps its extension
    story = story_of(OWN).run("a", (trust(*PAIR), R(TRUST, 0)), (trust(*PAIR, 0), R(TRUST, 0)))
    assert left_in(story, NATIVE_USD) is None and shares_of(story, "a", NATIVE_USD) is None and story.counts("a") == (2, 0, 0)
    changed = [value for rank, value in story.ledger.entries.items() if rank[0] == 1]
    assert changed == [{**line("a", USD, 1000, 10_000, 1, uses=0), "modified": 6}]
    case("lines: of shares that come and go in one transaction", story, "end 6", 1)


def reserves_of_shares():
    """A line of shares counts as two subentries, and asks for two reserves of who pays for it."""
    rows = [entry(Data("a", b"%d" % number, b"")) for number in range(996)]
    entries = with_account(held(OWN), "a", lambda account: entry(Account("a", 510 * LUMEN, data=997)))
    story = Story(pooled_image([*entries, *rows], at=3)).run("a", (trust(*PAIR), R(TRUST, 0)))
    assert story.counts("a") == (1000, 0, 0)
    story.run("a", (trust(*PAIR, 0), R(TRUST, 0)), (sets.manage_data(b"more", b""), R(10, 0)))
    story.run("a", (trust(*PAIR), sets.OP_TOO_MANY_SUBENTRIES))
    assert story.counts("a") == (999, 0, 0) and left_in(story, NATIVE_USD) is None
    case("lines: the last two subentries, and one alone", story, "end 8", 3)
    for name, lumens, code, paid in [("has just two reserves", 25_000_300, 0, 2), ("is a stroop short", 25_000_299, -4, 0)]:
        story = story_of({**OWN, "b": {}}, lumens={"b": lumens})
        story.run("b", *sponsored_by("b", "a", (trust(*PAIR, source="a"), R(TRUST, code))), signers="ab")
        assert story.counts("a") == (2 + paid, paid, 0) and story.counts("b") == (1, 0, paid)
        case(f"lines: a sponsor that {name}", story, "end 6", 1)


PARTS = [share_lines, share_codes, lines_of_assets, reserves_of_shares]
