"""Cases of accounts whose keys a bucket can't tell apart by their fingerprints (crates/bucket_core/specs/Filter.antt),
which `run_cases.py` writes: its filter lets each of them pass, and its hints point at another item for all but one.
"""

import set_cases as sets
from case_tools import LUMEN, Account, Story, case, entry, image, sent

# what the fingerprint of an account's key multiplies the last eight bytes of its id by
FACTOR = 0xBF58476D1CE4E5B9
COUNT = 150


def colliding(number):
    """One of many ids whose keys have the same fingerprint."""
    return ((1 << 63) - FACTOR * number).to_bytes(72, "big", signed=True)[-8:] + bytes(16) + number.to_bytes(8, "big")


def collided():
    """A ledger of so many accounts whose keys have one fingerprint."""
    return Story(image([entry(Account(colliding(number), 100 * LUMEN)) for number in range(COUNT)]))


def found():
    """Each account is found and pays the next one; one that isn't there is not found, although its key may be in a file."""
    story = collided()
    for first in range(0, COUNT, 50):
        story.close(*[sent(colliding(n), 1, sets.payment(colliding((n + 1) % COUNT), LUMEN + n)) for n in range(first, first + 50)])
    missing = sent(colliding(0), 2, sets.payment(colliding(COUNT), LUMEN))
    made = sent(colliding(1), 2, sets.create_account(colliding(COUNT), 50 * LUMEN))
    story.close(missing, made)
    assert story.account(colliding(COUNT))["balance"] == 50 * LUMEN
    # each of these paid one unit more than it was paid, and a fee
    assert all(story.account(colliding(n))["balance"] == 100 * LUMEN - 101 for n in range(2, COUNT))
    case("accounts whose keys have one fingerprint", story, "end 9", 4)


def gone():
    """Accounts are merged and stay gone, beside others of the same fingerprint in older files."""
    story = collided()
    story.close(*[sent(colliding(n), 1, sets.account_merge(colliding(n + 1))) for n in range(0, 60, 2)])
    story.close(*[sent(colliding(n), 1, sets.payment(colliding(n - 1), 1)) for n in range(1, 61, 2)])
    story.close(*[sent(colliding(n), 2, sets.create_account(colliding(n - 1), 9 * LUMEN)) for n in range(1, 31, 2)])
    assert story.account(colliding(0))["balance"] == 9 * LUMEN
    case("accounts that are gone beside others whose keys have their fingerprint", story, "end 8", 3)


PARTS = [found, gone]
