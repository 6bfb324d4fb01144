"""Cases of sets whose signatures an outside verifier vouches for, for the table of `set_cases.py`. What is expected is
written out case by case, as there. No signature here is one: the ledger believes what a record says of it.
"""

import set_cases as sets
from precondition_cases import asking
from set_cases import (
    BAD_AUTH, BAD_AUTH_EXTRA, CREATE, LUMEN, NO_ACCOUNT, NOTHING, OP_BAD_AUTH, OP_NO_ACCOUNT, PAYMENT, Account, Signed,
    Tx, by_secret, create_account, encoded_key, failed, hash_x, inner, key, ok, payment, preauth, ran, sha, signature,
    signed_payload, u32, var,
)

PAY, PAID = payment("b", 1), ok(ran(PAYMENT, 0))
# accounts whose own keys sign, with the weight 1, and a text that stands for a's signature
A = Account("a", 100 * LUMEN, signers=[], thresholds=(1, 1, 1, 1))
B = Account("b", 100 * LUMEN, signers=[], thresholds=(1, 1, 1, 1))
TEXT = b"signature of a"
# a key that has the hint of a's
TWIN = int.from_bytes(b"aaaa", "big")


def vouch(name, digest, text=TEXT):
    """That a key made a signature over a hash."""
    return u32(0) + key(name) + digest + var(text)


def payload_vouch(name, payload, text=TEXT):
    """That a key made a signature over a payload."""
    return u32(3) + key(name) + var(payload) + var(text)


def shown(name, text=TEXT):
    """A signature with the hint of a key."""
    return signature(key(name)[-4:], text)


def payload_shown(hint, text=TEXT):
    return signature(bytes.fromhex(hint), text)


def case(name, before, listed, expected, after, vouches, **fields):
    charged = sum(fee for fee, _ in expected)
    sets.case(f"vouches_{name}", before, listed, expected, charged, after, vouches=vouches, **fields)


def after_fee(account, used=True):
    paid = account.but(balance=account.balance - 100)
    return paid.but(seq=1) if used else paid


def paid_from(account):
    paid = after_fee(account)
    return [paid.but(balance=paid.balance - 1), B.but(balance=B.balance + 1)]


def one(name, end, vouches, signatures=None, account=A, **fields):
    """A case of one payment of a's to b. What vouches for it is made of the transaction's hash."""
    tx = Tx("a", 1, [PAY], 100)
    signed = Signed(tx, [shown("a")] if signatures is None else signatures)
    after = paid_from(account) if end == PAID else [after_fee(account), B]
    case(name, [account, B], [signed], [(100, end)], after, vouches(tx.hash), **fields)


def keys():
    """An own key signs by a vouch of it, of the transaction's hash and of the signature, and by no other."""
    one("of_the_own_key", PAID, lambda digest: [vouch("a", digest)])
    one("of_another_hash", BAD_AUTH, lambda digest: [vouch("a", sha(digest))])
    one("of_another_key", BAD_AUTH, lambda digest: [vouch("b", digest)])
    one("of_a_key_with_the_same_hint", BAD_AUTH, lambda digest: [vouch(TWIN, digest)])
    one("of_another_signature", BAD_AUTH, lambda digest: [vouch("a", digest, b"signature of b")])
    one("of_a_shorter_signature", BAD_AUTH, lambda digest: [vouch("a", digest, TEXT[:-1])])
    one("of_the_hash_as_a_payload", BAD_AUTH, lambda digest: [payload_vouch("a", digest)])
    one("of_another_hint", BAD_AUTH, lambda digest: [vouch("a", digest)], [signature(b"aaab", TEXT)])
    one("none", BAD_AUTH, lambda digest: [])
    one("of_no_bytes", PAID, lambda digest: [vouch("a", digest, b"")], [shown("a", b"")])
    one("of_64_bytes", PAID, lambda digest: [vouch("a", digest, 64 * b"s")], [shown("a", 64 * b"s")])
    one("repeated_and_unused", PAID,
        lambda digest: [vouch("b", digest), vouch("a", sha(digest)), vouch("a", digest), vouch("a", digest)])
    one("for_a_signature_too_many", BAD_AUTH_EXTRA, lambda digest: [vouch("a", digest)], [shown("a"), shown("a")])
    one("of_an_own_key_of_weight_0", BAD_AUTH, lambda digest: [vouch("a", digest)],
        account=A.but(thresholds=(0, 1, 1, 1)))
    one("too_light", BAD_AUTH, lambda digest: [vouch("a", digest)], account=A.but(thresholds=(1, 2, 2, 2)))


def listed():
    """Signers of an account: keys by their hints, one signer for a signature of each kind, listed ones first."""
    twin, light = (0, key(TWIN), 2), A.but(thresholds=(1, 2, 2, 2))
    both_say = lambda digest: [vouch("a", digest), vouch(TWIN, digest)]
    one("a_listed_key_before_the_own_one", PAID, both_say, account=light.but(signers=[twin]))
    one("one_signature_of_two_keys_counts_one", BAD_AUTH, both_say,
        account=A.but(signers=[(0, key(TWIN), 1)], thresholds=(1, 2, 2, 2)))
    one("two_signatures_of_two_keys", PAID, both_say, [shown("a"), shown("a")],
        account=A.but(signers=[(0, key(TWIN), 1)], thresholds=(1, 2, 2, 2)))
    one("a_listed_key_alone", PAID, lambda digest: [vouch(TWIN, digest)],
        account=A.but(signers=[twin], thresholds=(0, 1, 1, 1)))
    secret = hash_x(b"secret")
    mixed = A.but(signers=[secret])
    say = lambda digest: [vouch("a", digest)]
    # hash-x signers count before keys, whatever the order of the signatures
    one("hash_x_and_a_key_that_isnt_needed", BAD_AUTH_EXTRA, say, [shown("a"), by_secret(b"secret")], account=mixed)
    one("a_key_that_isnt_needed_behind_hash_x", BAD_AUTH_EXTRA, say, [by_secret(b"secret"), shown("a")], account=mixed)
    one("hash_x_and_a_key", PAID, say, [shown("a"), by_secret(b"secret")], account=mixed.but(thresholds=(1, 2, 2, 2)))
    # a vouch is for no hash-x signer
    of_hash = A.but(signers=[(2, key("a"), 1)], thresholds=(1, 2, 2, 2))
    one("none_of_hash_x", BAD_AUTH, say, account=of_hash)
    # one signature that is a preimage and a key's
    twofold = int.from_bytes(sha(TEXT)[-4:], "big")
    one("a_signature_of_two_kinds", PAID, lambda digest: [vouch(twofold, digest)], [by_secret(TEXT)],
        account=A.but(signers=[(0, key(twofold), 1), hash_x(TEXT)], thresholds=(0, 2, 2, 2)))


def payloads():
    """Signed payloads, under protocol 19: their hint is the key's last bytes xor the payload's, zeros behind a short one."""
    for name, payload, hint, end in [
        ("of_three_bytes", b"pay", "11001861", PAID), ("of_seven_bytes", b"payload", "0d0e0005", PAID),
        ("of_one_byte", b"\1", "60616161", PAID), ("without_the_keys_hint", b"pay", "70617900", BAD_AUTH),
        ("with_the_keys_hint_alone", b"pay", "61616161", BAD_AUTH),
    ]:
        payload_case(name, payload, hint, end, [payload_vouch("a", payload)])
    payload_case("of_another_payload", b"pay", "11001861", BAD_AUTH, [payload_vouch("a", b"pax")])
    payload_case("of_a_payload_and_a_zero", b"pay", "11001861", BAD_AUTH, [payload_vouch("a", b"pay\0")])
    payload_case("of_another_key", b"pay", "11001861", BAD_AUTH, [payload_vouch("b", b"pay")])
    payload_case("of_another_signature", b"pay", "11001861", BAD_AUTH, [payload_vouch("a", b"pay", b"")])
    payload_case("as_a_hash", b"pay", "11001861", BAD_AUTH, [vouch("a", sha(b"pay"))])


def payload_case(name, payload, hint, end, vouches):
    """One payment of an account with a signed payload as its signer."""
    account = A.but(signers=[signed_payload("a", payload)], thresholds=(0, 1, 1, 1))
    tx = Tx("a", 1, [PAY], 100)
    after = paid_from(account) if end == PAID else [after_fee(account), B]
    after = [after[0].but(dated=NOW), after[1]]
    case(f"payload_{name}", [account, B], [Signed(tx, [payload_shown(hint)])], [(100, end)], after, vouches, version=19)


# ledger 3 closes at 1000
NOW = (3, 1_000)


def extra_signers():
    """Extra signers, each of which has to count."""
    payload, twin = encoded_key(signed_payload("a", b"pay")), encoded_key((0, key(TWIN), 1))
    own, other = shown("a"), payload_shown("11001861")
    for name, signers, signatures, end in [
        ("a_payload", [payload], [own, other], PAID), ("a_payload_without_its_signature", [payload], [own], BAD_AUTH),
        ("a_payload_and_a_key_by_two_signatures", [twin, payload], [own, other], PAID),
        ("a_payload_and_a_key_of_which_one_signed", [twin, payload], [own], BAD_AUTH),
    ]:
        tx = Tx("a", 1, [PAY], 100, asked=asking(signers=signers))
        said = [vouch("a", tx.hash), vouch(TWIN, tx.hash), payload_vouch("a", b"pay")]
        after = paid_from(A) if end == PAID else [after_fee(A), B]
        case(f"extra_signers_{name}", [A, B], [Signed(tx, signatures)], [(100, end)], [after[0].but(dated=NOW), after[1]],
             said, version=19)


def several():
    """Vouches for several transactions, for fee bumps, and for sources without accounts."""
    first, second = Tx("a", 1, [PAY], 100), Tx("a", 2, [PAY], 100)
    case("of_one_of_two_transactions", [A, B], [Signed(first, [shown("a")]), Signed(second, [shown("a")])],
         [(100, PAID), (100, BAD_AUTH)], [A.but(balance=999_999_799, seq=2), B.but(balance=1_000_000_001)],
         [vouch("a", first.hash)])
    # a payload's vouch names no hash
    payer = A.but(signers=[signed_payload("a", b"pay")], thresholds=(0, 1, 1, 1))
    both = [Signed(tx, [payload_shown("11001861")]) for tx in (first, second)]
    case("of_a_payload_for_two_transactions", [payer, B], both, [(100, PAID), (100, PAID)],
         [payer.but(balance=999_999_798, seq=2, dated=NOW), B.but(balance=1_000_000_002)], [payload_vouch("a", b"pay")],
         version=19)
    # the payer signs the hash of the fee bump, the source that of its own transaction
    tx = Signed(Tx("a", 1, [PAY], 100), [shown("a")])
    bump = sets.Bump("b", 200, tx, [shown("b")])
    of_inner, of_bump = vouch("a", tx.hash), vouch("b", bump.hash)
    payer_left = B.but(balance=999_999_800)
    case("of_a_fee_bump", [A, B], [bump], [(200, inner(1, tx, PAID))],
         [A.but(balance=999_999_999, seq=1), B.but(balance=999_999_801)], [of_inner, of_bump])
    case("of_a_fee_bump_alone", [A, B], [bump], [(200, inner(-13, tx, BAD_AUTH))], [A.but(seq=1), payer_left], [of_bump])
    case("of_an_inner_transaction_alone", [A, B], [bump], [(200, BAD_AUTH)], [A, payer_left], [of_inner])
    case("of_a_fee_bump_for_the_inner_hash", [A, B], [bump], [(200, BAD_AUTH)], [A, payer_left],
         [of_inner, vouch("b", tx.hash)])


def missing():
    """The source of an operation may have no account: its key is its one signer."""
    pays = payment("b", 1, source="z")
    make = create_account("z", 20_000_000)
    for name, operations, vouched, end, left in [
        ("without_an_account", [pays], "az", failed(OP_NO_ACCOUNT), [A.but(balance=999_999_900, seq=1), B]),
        ("without_an_account_or_a_vouch", [pays], "a", failed(OP_BAD_AUTH), [A.but(balance=999_999_900, seq=1), B]),
        ("whose_account_is_made", [make, pays], "az", ok(ran(CREATE, 0), ran(PAYMENT, 0)),
         [A.but(balance=979_999_800, seq=1), B.but(balance=1_000_000_001),
          Account("z", 19_999_999, seq=3 << 32, signers=[], thresholds=(1, 0, 0, 0))]),
    ]:
        tx = Tx("a", 1, operations, 100 * len(operations))
        signatures = [shown("a"), *([shown("z")] if "z" in vouched else [])]
        case(f"of_a_source_{name}", [A, B], [Signed(tx, signatures)], [(100 * len(operations), end)], left,
             [vouch(name_, tx.hash) for name_ in vouched])
    # a transaction's own source has to have an account
    other = Signed(Tx("z", 1, [PAY], 100), [shown("z")])
    bump = sets.Bump("b", 200, other, [shown("b")])
    case("of_a_transaction_without_an_account", [A, B], [bump], [(200, inner(-13, other, NO_ACCOUNT))],
         [A, B.but(balance=999_999_800)], [vouch("z", other.hash), vouch("b", bump.hash)])
    # pre-authorised signers count first
    tx = Tx("a", 1, [NOTHING], 100)
    account = A.but(signers=[preauth(tx.hash)])
    case("beside_a_preauthorised_signer", [account], [Signed(tx, [shown("a")])], [(100, BAD_AUTH_EXTRA)],
         [A.but(balance=999_999_900, seq=1)], [vouch("a", tx.hash)])


PARTS = (keys, listed, payloads, extra_signers, several, missing)
