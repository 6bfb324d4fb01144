"""The cases of queries for the cheapest path, which `run_cases.py` writes. Each says by hand what is answered."""

from ledger_model import GREATEST, i32, i64, many, u32
import set_cases as sets  # ledger_model puts its folder first
from asset_cases import EUR, R
from case_tools import CASES, USD, image, key
from offer_cases import SELL
from path_cases import HELD, MILLION, market, selling
from path_query_model import path
from pool_tools import LUMENS, PAIR, flagged
from store_cases import files, image_file, journal_file, kept, records_in, input_of, start_of, ON_TEST
from store_model import image_file as file_of_image

# assets of z, by numbers
X = [sets.asset(f"X{number}", "z") for number in range(1, 15)]
BAD = u32(1) + b"US D" + u32(0) + key("z")
# who offers, with lines in all assets and lumens for the reserves of many offers
SELLERS = {name: {asset: (10_000, GREATEST, 1) for asset in (USD, EUR, *X)} for name in "cd"}
RICH = {"c": 10**10, "d": 10**10}


def query(amount, *candidates, send=LUMENS, dest=USD, source="a"):
    return u32(0) + key(source) + send + dest + i64(amount) + many(list(candidates))


def offers(*rows):
    """Offers of c, or of somebody else, from rows of what is sold, what is bought, an amount and a price."""
    return [
        selling(amount, price, sold, bought, number, *seller)
        for number, (sold, bought, amount, price, *seller) in enumerate(rows, 1)
    ]


def traded(*rows, pools=(), **more):
    """A store of a market, whose sellers have lines in all assets."""
    return files(**kept(market(*offers(*rows), pools=pools, lines={**HELD, **SELLERS}, **more)))


def asks(name, volume, data, end):
    """A case of `path`. `end` is by hand: the cost and the assets on the way, or the line that is written."""
    yielded = path(data, volume)
    out, err, status = yielded
    said = end
    if not isinstance(end, str):
        said = f"cost {end[0]}\n" + "".join(f"via {asset.hex()}\n" for asset in end[1:])
    assert said == (f"{status} {err.strip()}" if err else out), (name, yielded)
    CASES.append((name, ["path"], data, yielded, volume, volume))


def way(*assets, amount=100, price=(1, 1)):
    """Offers along a path, each of which has as much as is asked for."""
    return [(got, given, amount, price) for given, got in zip(assets, assets[1:])]


# ---- answers


def answers():
    """A pool, a book, and neither."""
    pooled = files(**kept(market()))
    asks("by a pool", pooled, query(996), (1000,))
    both = market(*offers((USD, EUR, 100, (1, 2)), (EUR, LUMENS, 50, (1, 1))), pools=(PAIR,))
    asks("by one asset", files(**kept(both)), query(100, EUR), (50, EUR))
    asks("an asset that is no candidate", files(**kept(both)), query(100), (101,))
    asks("what is sent and what arrives are one", pooled, query(7, send=USD), (7,))
    asks("the greatest amount of the same", pooled, query(GREATEST, send=USD), (GREATEST,))
    asks("neither a pool nor a book", traded(), query(10, EUR, X[0]), "none\n")
    asks("a book that has too little", traded(*way(LUMENS, USD, amount=9)), query(10), "none\n")
    asks("all that a book has", traded(*way(LUMENS, USD, amount=10)), query(10), (10,))
    asks("all but one unit of a pool", pooled, query(MILLION - 1), (1_003_008_024_073,))
    asks("all of a pool", pooled, query(MILLION), "none\n")
    asks("trading with pools is disabled", files(**kept(market(header=flagged(1)))), query(996), "none\n")
    asks("a price that rounds up", traded(*way(LUMENS, USD, price=(2, 3))), query(10), (7,))
    asks("an amount of one", traded(*way(LUMENS, USD, price=(1, 3))), query(1), (1,))


def costs():
    """Costs that differ by little, and equal ones: the shorter path, then the earlier candidates, are taken."""
    direct, by_one, by_two = way(LUMENS, USD), way(LUMENS, X[0], USD), way(LUMENS, X[1], X[2], USD)
    asks("equal: direct, by one, by two", traded(*direct, *by_one, *by_two), query(100, *X[:3]), (100,))
    asks("equal: by one, by two", traded(*by_two, *by_one), query(100, X[1], X[2], X[0]), (100, X[0]))
    cheap = way(LUMENS, X[1], X[2], USD, price=(99, 100))
    asks("by two costs less", traded(*direct, *by_one, *cheap), query(100, *X[:3]), (99, X[1], X[2]))
    one = way(LUMENS, X[1], USD, price=(99, 100))
    asks("by the second costs less", traded(*direct, *by_one, *one), query(100, *X[:3]), (99, X[1]))
    two = traded(*by_one, *way(LUMENS, X[1], USD))
    asks("equal: by one of two", two, query(100, X[0], X[1]), (100, X[0]))
    asks("equal: by one of two, in the other order", two, query(100, X[1], X[0]), (100, X[1]))
    asks("equal: a candidate that comes again", two, query(100, X[1], X[0], X[1], X[0], X[0]), (100, X[1]))
    pairs = traded(*by_two, *way(LUMENS, X[3], X[4], USD))
    asks("equal: the earlier first asset decides", pairs, query(100, X[1], X[4], X[3], X[2]), (100, X[1], X[2]))
    asks("equal: and not the earlier second one", pairs, query(100, X[3], X[2], X[1], X[4]), (100, X[3], X[4]))
    fork = traded(*by_two, (X[3], X[1], 100, (1, 1)), (USD, X[3], 100, (1, 1)))
    asks("equal: the earlier second asset decides", fork, query(100, X[1], X[3], X[2]), (100, X[1], X[3]))
    asks("equal: the second asset, in the other order", fork, query(100, X[2], X[1], X[3]), (100, X[1], X[2]))
    asks("equal: after a candidate that serves nothing", two, query(100, EUR, X[7], X[1], EUR, X[0]), (100, X[1]))


def circles():
    """What is sent and what arrives are one, or are candidates."""
    earns = traded((X[0], LUMENS, 100, (1, 2)), (LUMENS, X[0], 100, (1, 1)))
    asks("a circle that earns", earns, query(100, X[0], dest=LUMENS), (50, X[0]))
    even = traded(*way(LUMENS, X[0], LUMENS))
    asks("a circle that costs as much", even, query(100, X[0], dest=LUMENS), (100,))
    around = traded(*way(LUMENS, X[0], X[1], LUMENS, price=(1, 2)))
    asks("a circle by two", around, query(80, X[1], X[0], dest=LUMENS), (10, X[0], X[1]))
    asks("what is sent and what arrives as candidates", traded(*way(LUMENS, USD)), query(100, USD, LUMENS), (100,))
    lumens = traded(*way(X[0], LUMENS, USD))
    asks("the lumens as a candidate on the way", lumens, query(100, USD, X[0], LUMENS, send=X[0]), (100, LUMENS))
    twice = traded(*way(LUMENS, USD, price=(1, 1), amount=100), (LUMENS, USD, 100, (1, 100)))
    # 100 USD for 100 lumens and these for 1 USD, for which there are no lumens any more
    asks("a book that the first hop empties", twice, query(100, USD, LUMENS), (100,))
    pooled = files(**kept(market(pools=(PAIR, (EUR, USD)))))
    asks("a pool that hops pass twice", pooled, query(100, USD, LUMENS, EUR), (101,))
    asks("two pools", pooled, query(100, USD, dest=EUR), (102, USD))


def own_offers():
    """Offers of the source aren't crossed, wherever they stand in the book."""
    mine = (USD, LUMENS, 100, (1, 2), "a")
    asks("the best offer is the source's", traded(mine, *way(LUMENS, USD)), query(10), "none\n")
    asks("the best offer is another one's", traded(mine, *way(LUMENS, USD)), query(10, source="b"), (5,))
    asks("the source has no account", traded(mine, *way(LUMENS, USD)), query(10, source="q"), (5,))
    behind = (USD, LUMENS, 100, (2, 1), "a")
    asks("the source's offer isn't reached", traded(behind, *way(LUMENS, USD)), query(100), (100,))
    asks("the source's offer is reached", traded(behind, *way(LUMENS, USD)), query(101), "none\n")
    around = traded(mine, *way(LUMENS, X[0], USD))
    asks("a path past the source's offer", around, query(10, X[0]), (10, X[0]))
    asks("a pool past the source's offer", traded(mine, pools=(PAIR,)), query(996), (1000,))


def crossings():
    """A thousand crossings of all hops together, and one more. Where that is too many, a dearer path is taken."""
    ones = [(USD, X[0], 1, (1, 1), "c")] * 600 + [(X[0], LUMENS, 1, (1, 1), "d")] * 400
    others = [(X[0], LUMENS, 200, (2, 1), "d"), (USD, X[1], 1000, (1, 1), "d"), (X[1], LUMENS, 1000, (5, 1), "d")]
    two_hops = traded(*ones, *others, lumens=RICH)
    asks("crossings: 599 and 401", two_hops, query(599, X[0], X[1]), (400 + 2 * 199, X[0]))
    asks("crossings: 600 and 401", two_hops, query(600, X[0], X[1]), (3000, X[1]))
    one_hop = traded(*ones[:600], *[(USD, X[0], 1, (1, 1), "d")] * 401, lumens=RICH)
    asks("crossings: 1000 of one book", one_hop, query(1000, send=X[0]), (1000,))
    asks("crossings: 1001 of one book", one_hop, query(1001, send=X[0]), "none\n")


# ---- queries that aren't answered


def candidates():
    """How many candidates there may be, and parts of a query that aren't valid, in their order."""
    volume = traded(*way(LUMENS, X[11], USD))
    asks("twelve candidates", volume, query(100, *X[:12]), (100, X[11]))
    asks("thirteen candidates", volume, query(100, *X[:13]), "refused TooMany 13\n")
    asks("fourteen candidates, of which some come again", volume, query(100, *X[:14], *X[:5]), "refused TooMany 14\n")
    asks("twelve candidates in sixty-four", volume, query(100, *(X[:12] * 6)[:64]), (100, X[11]))
    asks("sixty-five candidates", volume, query(100, *(X[:12] * 6)[:65]), f"9 bad input at {len(query(100)) - 4}")
    asks("one candidate sixty-four times", volume, query(100, *[X[11]] * 64), (100, X[11]))
    asks("thirteen, of which one isn't valid", volume, query(100, *X[:12], BAD), "refused BadQuery 15\n")
    asks("the first of two that aren't valid", volume, query(100, X[0], BAD, X[0], BAD), "refused BadQuery 4\n")
    asks("a repeat before one that isn't valid", volume, query(100, X[0], X[0], X[0], BAD), "refused BadQuery 6\n")
    asks("the last of sixty-four isn't valid", volume, query(100, *[X[0]] * 63, BAD), "refused BadQuery 66\n")
    for name, index, fields in [
        ("what is sent", 0, dict(send=BAD, dest=BAD)), ("what arrives", 1, dict(dest=BAD)), ("the amount", 2, {}),
    ]:
        asks(f"{name} before all after it", volume, query(0, BAD, **fields), f"refused BadQuery {index}\n")
    asks("an amount below 0", volume, query(-1), "refused BadQuery 2\n")
    asks("an amount of 0 of the same", volume, query(0, send=USD), "refused BadQuery 2\n")


def inputs():
    """Inputs that are cut, malformed, or go on after the query."""
    volume, good = traded(*way(LUMENS, USD)), query(10, X[0], X[1])
    for length in (0, 1, 4, 35, 36, 40, 41, len(query(10)) - 1, len(good) - 1):
        asks(f"{length} bytes of a query", volume, good[:length], f"9 bad input at {length}")
    asks("a byte after a query", volume, good + b"\0", f"9 bad input at {len(good)}")
    asks("a query twice", volume, good + good, f"9 bad input at {len(good)}")
    asks("as many bytes as there may be", volume, good + bytes(8192 - len(good)), f"9 bad input at {len(good)}")
    asks("one byte more", volume, good + bytes(8193 - len(good)), "9 bad input at 8192")
    asks("many bytes more", volume, good + bytes(50_000), "9 bad input at 8192")
    asks("a long input that is no query", volume, b"\xff" * 9000, "9 bad input at 8192")
    asks("a source of another type", volume, u32(1) + good[4:], "9 bad input at 0")
    asks("an asset of another type", volume, query(10, send=i32(3)), "9 bad input at 36")
    asks("pool shares as a candidate", volume, query(10, u32(3) + bytes(32)), f"9 bad input at {len(query(10))}")
    asks("bytes after a query that is refused", volume, query(0) + b"\0", f"9 bad input at {len(query(0))}")


# ---- stores


def stores():
    """What a store opens to is asked, and it stays as it is, in either format. One that doesn't open is answered before
    the input is read."""
    story = market(*offers(*way(LUMENS, USD)), pools=(PAIR,))
    gone = sets.operation(SELL, USD + LUMENS + i64(0) + i32(1) + i32(1) + i64(1))
    story.run("c", (gone, R(SELL, 0) + many([]) + i32(2)))
    asks("an offer of the image", files(**kept(story)), query(100), (100,))
    asks("an offer that a record removes", files(**kept(story, 1)), query(100), (101,))
    record = journal_file(records_in(input_of(story)))
    closed = files(**{**kept(story), "journal0": b"\0" + record})
    asks("a record after a closed gate", closed, query(100), (100,))
    odd = files(**kept(story, 1, epoch=7))
    asks("a store of an odd epoch", odd, query(100), (101,))
    old = files(image0=file_of_image(0, ON_TEST, start_of(story), form=1), journal0=record)
    asks("a store of format 1", old, query(100), (101,))
    asks("a store of format 1, and a query that is cut", old, query(100)[:-1], f"9 bad input at {len(query(100)) - 1}")
    bad = files(image0=image_file(1, ON_TEST, image()), journal0=b"\0")
    for name, data in [("a query", query(100)), ("no bytes", b""), ("too many bytes", bytes(8193))]:
        asks(f"missing, and {name}", files(), data, "11 missing")
        asks(f"a bad store, and {name}", bad, data, "7 bad store at 0 1")
    asks("an empty ledger", files(image0=image_file(0, ON_TEST, image()), journal0=b"\0"), query(1, X[0]), "none\n")


PARTS = [answers, costs, circles, own_offers, crossings, candidates, inputs, stores]
