"""Images of pools for `closes.py`: pools with a line of shares each, and one pool of which each of many accounts has shares."""

import sys

from measuring import TOP

sys.path.insert(0, f"{TOP}/tests/models")
import pool_tools as pools  # noqa: E402
import set_cases as sets  # noqa: E402
from case_tools import entry, line  # noqa: E402

LUMENS, ISSUER, FIRST_HOLDER = 10_000_000_000, 999, 1_000
RESERVE, LIMIT = 5_000, 10**15
# how many pools each holder has shares of, where each pool has one line
EACH = 10


def account(name, subentries):
    return entry(sets.Account(name, LUMENS, data=subentries))


def holding(name, asset):
    """A line of an asset, which one pool uses, and a line of shares of the pool of lumens and that asset."""
    digest = pools.pool_of(sets.LUMENS, asset)
    return [line(name, asset, RESERVE, LIMIT, uses=1), pools.share(name, digest, RESERVE)]


def pool(asset, lines):
    """A pool of lumens and an asset with equal reserves and so many lines, each with as many shares."""
    held = RESERVE * lines
    return pools.pool(sets.LUMENS, asset, held, held, held, lines)


def many_pools(count):
    """So many pools, of assets of one issuer, each with one line, and how many accounts they need."""
    entries, names = [], [FIRST_HOLDER + number for number in range(count // EACH)]
    for index, name in enumerate(names):
        entries.append(account(name, 3 * EACH))
        for number in range(index * EACH, (index + 1) * EACH):
            asset = sets.asset(f"P{number}", ISSUER)
            entries += [*holding(name, asset), pool(asset, 1)]
    return entries, len(names)


def one_pool(count):
    """One pool with so many lines, each of another account."""
    asset, names = sets.asset("USD", ISSUER), [FIRST_HOLDER + number for number in range(count)]
    entries = [pool(asset, count)]
    for name in names:
        entries += [account(name, 3), *holding(name, asset)]
    return entries, count


def pooled(made):
    """The entries, with their issuer, and all lumens of an image of pools."""
    entries, holders = made
    held = pools.lumens_in(entries)
    return [account(ISSUER, 0), *entries], LUMENS * (1 + holders) + held
