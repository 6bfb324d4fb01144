"""Cases of sets under protocol 19, for the table of `set_cases.py`: what transactions ask for before they are applied
(CAP-0021), what accounts say of their sequence numbers, and signed payloads (CAP-0040). What is expected is written out
case by case, as there. Each bound is tried at both of its sides, and each check before the next one.
"""

import set_cases as sets
from set_cases import (
    BAD_AUTH, BAD_AUTH_EXTRA, BAD_MIN_SEQ_AGE_OR_GAP, BAD_SEQ, BEGIN, BUMP, BUMPED, END, GREATEST, INSUFFICIENT_BALANCE,
    INSUFFICIENT_FEE, LEAST, LUMEN, MALFORMED, MERGE, MISSING_OPERATION, NO_ACCOUNT, NOT_SUPPORTED, NOTHING,
    OP_BAD_AUTH, OPTIONS, PAYMENT, REVOKE, TOO_EARLY, TOO_LATE, Account, First, Signed, Tx, bump_sequence, bumped, by,
    by_secret, encoded_key, failed, hash_x, inner, ok, operation, payment, preauth, ran, second_form, secret_of, sent,
    set_options, signed_payload, u32, u64,
)

# ledger 10 closes at 1060
SEQ, CLOSING, TIME = 9, 10, 1_060
NOW = (CLOSING, TIME)
FEE = 100
# an account whose sequence number became 7 in ledger 5, at 1000, and one that says nothing of its number
OLD = Account("a", 100 * LUMEN, seq=7, dated=(5, 1_000))
SILENT = Account("a", 100 * LUMEN, seq=7)
B = Account("b", 100 * LUMEN)
# an operation that changes nothing, at the medium threshold, and the end of a transaction of it
PAY, PAID = payment("a", 1), ok(ran(PAYMENT, 0))
ONE, TWO = hash_x(b"one"), hash_x(b"two")


def asking(bounds=None, ledgers=None, least=None, age=0, gap=0, signers=()):
    """Preconditions of the second form. `least` is the least number from which the account's may rise."""
    return second_form(bounds, ledgers, least, age, gap, signers)


def case(name, before, listed, expected, after, time=TIME, version=19, seq=SEQ, **fields):
    """A case under protocol 19, unless another version is given. What is charged is the sum."""
    charged = sum(fee for fee, _ in expected)
    sets.case(f"protocol_19_{name}", before, listed, expected, charged, after, time=time, version=version, seq=seq,
              **fields)


def after_fee(account, number=None, now=NOW, fee=FEE):
    """An account after a fee. `number` is its sequence number where the transaction used one up, with the ledger and
    the time that the account then says, or None before protocol 19."""
    paid = account.but(balance=account.balance - fee)
    return paid if number is None else paid.but(seq=number, dated=now)


def one(name, end, *operations, number=8, used=True, account=OLD, signatures=None, times=None, time=TIME, seq=SEQ,
        fee=FEE, **asked):
    """A case of one transaction of a's. `asked` are preconditions of the second form, `times` those of the first."""
    tx = Tx("a", number, list(operations or [PAY]), fee, times, asked=asking(**asked) if asked else None)
    signed = Signed(tx, by("a") if signatures is None else signatures)
    left = after_fee(account, number if used else None, (seq + 1, time), min(fee, FEE * max(1, len(tx.operations))))
    case(name, [account], [signed], [(account.balance - left.balance, end)], [left], time=time, seq=seq)


def times_and_ledgers():
    """Bounds of the time and of the ledger. A greatest time is the last one that passes, a greatest ledger the first
    that doesn't."""
    for bounds, end in [((1_060, 0), PAID), ((1_061, 0), TOO_EARLY), ((0, 1_060), PAID), ((0, 1_059), TOO_LATE),
                        ((1_060, 1_060), PAID), ((1_061, 1_059), TOO_EARLY), ((0, 0), PAID), ((0, 2**64 - 1), PAID),
                        ((2**64 - 1, 0), TOO_EARLY)]:
        name = f"from_time_{bounds[0]}_to_{bounds[1]}"
        one(f"{name}_in_the_first_form", end, used=end == PAID, times=bounds)
        one(f"{name}_in_the_second_form", end, used=end == PAID, bounds=bounds)
    for ledgers, end in [((10, 0), PAID), ((11, 0), TOO_EARLY), ((0, 10), TOO_LATE), ((0, 11), PAID), ((10, 11), PAID),
                         ((11, 10), TOO_EARLY), ((0, 0), PAID), ((0, 1), TOO_LATE), ((0, 2**32 - 1), PAID),
                         ((2**32 - 1, 0), TOO_EARLY)]:
        one(f"from_ledger_{ledgers[0]}_to_{ledgers[1]}", end, used=end == PAID, ledgers=ledgers)
    one("late_by_its_time_and_early_by_its_ledger", TOO_EARLY, used=False, bounds=(0, 1_059), ledgers=(11, 0))
    one("early_by_its_time_and_late_by_its_ledger", TOO_EARLY, used=False, bounds=(1_061, 0), ledgers=(0, 10))
    one("in_time_and_late_by_its_ledger", TOO_LATE, used=False, bounds=(1_060, 1_060), ledgers=(0, 10))
    one("late_by_its_time_and_in_its_ledgers", TOO_LATE, used=False, bounds=(0, 1_059), ledgers=(10, 11))


def numbers():
    """Which sequence numbers follow that of the account, with a least one and without."""
    for name, number, least, end in [
        ("the_next_number", 8, None, PAID), ("a_number_left_out", 9, None, BAD_SEQ),
        ("the_same_number", 7, None, BAD_SEQ), ("a_greater_number_from_a_lower_one", 20, 5, PAID),
        ("a_greater_number_from_the_accounts", 20, 7, PAID),
        ("a_greater_number_from_one_above_the_accounts", 20, 8, BAD_SEQ),
        ("the_next_number_from_the_accounts", 8, 7, PAID),
        ("the_same_number_from_a_lower_one", 7, 5, BAD_SEQ), ("a_lower_number_from_a_lower_one", 6, 5, BAD_SEQ),
        ("a_number_from_0", 8, 0, PAID), ("a_number_from_below_0", 8, -1, PAID),
        ("a_number_from_the_least", 8, LEAST, PAID),
        ("a_number_from_the_greatest", 20, GREATEST, BAD_SEQ), ("the_greatest_number_from_0", GREATEST, 0, PAID),
        ("a_number_below_0_from_the_least", -1, LEAST, BAD_SEQ),
    ]:
        one(name, end, number=number, used=end == PAID, **({"gap": 0} if least is None else {"least": least}))
    last = OLD.but(seq=GREATEST)
    one("no_number_after_the_greatest", BAD_SEQ, number=GREATEST, used=False, account=last, least=0)
    # a new account's number is ledger 10's times 2^32; under protocol 19 no transaction has it, and there is one before
    # it and after it
    first = CLOSING << 32
    before, at = OLD.but(seq=first - 1), OLD.but(seq=first)
    one("the_number_of_a_new_account", BAD_SEQ, number=first, used=False, account=before)
    one("the_number_of_a_new_account_from_0", BAD_SEQ, number=first, used=False, least=0)
    one("the_number_before_that_of_a_new_account", PAID, number=first - 1, account=OLD.but(seq=first - 2))
    one("the_number_after_that_of_a_new_account", PAID, number=first + 1, account=at)
    one("past_the_number_of_a_new_account", PAID, number=first + 1, account=before, least=0)
    for name, ledger in [("before", 9), ("after", 11)]:
        one(f"the_number_of_a_new_account_of_the_ledger_{name}", PAID, number=ledger << 32,
            account=OLD.but(seq=(ledger << 32) - 1))
    # before protocol 19 it is a number as any other
    former = before.but(dated=None)
    case("the_number_of_a_new_account_before_it", [former], [sent("a", first, PAY)], [(100, PAID)],
         [after_fee(former, first, None)], version=18)


def ages():
    """How old the account's number has to be, in seconds and in ledgers. The number is used up all the same."""
    for age, time, end in [(60, 1_059, BAD_MIN_SEQ_AGE_OR_GAP), (60, 1_060, PAID),
                           (2**64 - 1, 1_060, BAD_MIN_SEQ_AGE_OR_GAP)]:
        one(f"an_age_of_{age}_at_{time}", end, time=time, age=age)
    for gap, end in [(5, PAID), (6, BAD_MIN_SEQ_AGE_OR_GAP), (2**32 - 1, BAD_MIN_SEQ_AGE_OR_GAP)]:
        one(f"a_gap_of_{gap}_after_ledger_5", end, gap=gap)
    one("an_age_that_is_reached_and_a_gap_that_isnt", BAD_MIN_SEQ_AGE_OR_GAP, age=60, gap=6)
    one("a_gap_that_is_reached_and_an_age_that_isnt", BAD_MIN_SEQ_AGE_OR_GAP, age=61, gap=5)
    one("an_age_and_a_gap_that_are_reached", PAID, age=60, gap=5)
    # an account that says nothing counts from 0, whatever else it says
    for name, account in [("nothing", SILENT), ("its_liabilities_alone", SILENT.but(bound=(0, 0))),
                          ("its_sponsorships_alone", SILENT.but(counts=(0, 0)))]:
        for asked, end in [({"age": 1_060}, PAID), ({"age": 1_061}, BAD_MIN_SEQ_AGE_OR_GAP), ({"gap": 10}, PAID),
                           ({"gap": 11}, BAD_MIN_SEQ_AGE_OR_GAP)]:
            (kind, value), = asked.items()
            one(f"an_account_that_says_{name}_and_{kind}_{value}", end, account=account, **asked)
    # the first transaction of the set makes the number as young as can be
    first = sent("a", 8, PAY)
    for name, asked, end in [("no_gap", {"gap": 0}, PAID), ("a_gap_of_1", {"gap": 1}, BAD_MIN_SEQ_AGE_OR_GAP),
                             ("an_age_of_1", {"age": 1}, BAD_MIN_SEQ_AGE_OR_GAP)]:
        case(f"a_second_transaction_with_{name}", [OLD], [first, sent("a", 9, PAY, asked=asking(**asked))],
             [(100, PAID), (100, end)], [after_fee(OLD, 9, fee=200)], order=[0, 1])
    # also where it failed for its age, after which the next number follows
    young = sent("a", 8, PAY, asked=asking(age=61))
    case("the_number_after_one_that_was_too_young", [OLD], [young, sent("a", 9, PAY)],
         [(100, BAD_MIN_SEQ_AGE_OR_GAP), (100, PAID)], [after_fee(OLD, 9, fee=200)], order=[0, 1])
    # a transaction that used no number up leaves what the account says
    case("the_age_after_a_bad_number", [OLD], [sent("a", 8, PAY, asked=asking(gap=5)), sent("a", 7, PAY)],
         [(100, PAID), (100, BAD_SEQ)], [after_fee(OLD, 8, fee=200)], order=[1, 0])


def extra_signers():
    """Signers that a transaction asks for beside those of its source."""
    own = hash_x(secret_of("a"))
    wanted = {name: encoded_key(signer) for name, signer in [("one", ONE), ("two", TWO), ("own", own)]}
    a, first, second = by("a")[0], by_secret(b"one"), by_secret(b"two")

    def asks(name, keys, signatures, end, **fields):
        one(name, end, signers=keys, signatures=signatures, **fields)

    asks("no_extra_signer", [], [a], PAID)
    asks("an_extra_signer_that_signs", [wanted["one"]], [a, first], PAID)
    asks("an_extra_signer_that_signs_first", [wanted["one"]], [first, a], PAID)
    asks("an_extra_signer_that_doesnt_sign", [wanted["one"]], [a], BAD_AUTH)
    asks("an_extra_signer_without_the_accounts", [wanted["one"]], [first], BAD_AUTH)
    asks("two_extra_signers_that_sign", [wanted["one"], wanted["two"]], [a, first, second], PAID)
    asks("two_extra_signers_that_sign_the_other_way_round", [wanted["one"], wanted["two"]], [second, first, a], PAID)
    for name, signature in [("first", first), ("second", second)]:
        asks(f"two_extra_signers_of_whom_the_{name}_signs", [wanted["one"], wanted["two"]], [a, signature], BAD_AUTH)
    asks("two_extra_signers_and_one_signature_twice", [wanted["one"], wanted["two"]], [a, first, first], BAD_AUTH)
    # one signature serves the account and the list, and isn't used for more than that
    asks("the_accounts_signer_as_an_extra_one", [wanted["own"]], [a], PAID)
    asks("the_accounts_signer_and_another_as_extra_ones", [wanted["own"], wanted["one"]], [a, first], PAID)
    asks("a_signature_that_nobody_asks_for", [wanted["one"]], [a, first, second], BAD_AUTH_EXTRA)
    asks("an_extra_signer_that_signs_twice", [wanted["one"]], [a, first, first], BAD_AUTH_EXTRA)
    # a weight of 1 each, whatever the account's thresholds are
    heavy = OLD.but(signers=[hash_x(secret_of("a"), 200), hash_x(b"one", 55)], thresholds=(0, 255, 255, 255))
    asks("an_extra_signer_beside_great_thresholds", [wanted["one"]], [a, first], PAID, account=heavy)
    asks("an_extra_signer_that_the_account_has_too", [wanted["one"]], [a], BAD_AUTH,
         account=heavy.but(thresholds=(0, 0, 0, 0)))
    # keys and signed payloads never sign, nor does the hash of another transaction
    for name, key_, signature in [
        ("an_ed25519_key", encoded_key((0, sets.key("k"), 1)), sets.signature(sets.key("k")[-4:], b"\x5a" * 64)),
        ("a_signed_payload", encoded_key(signed_payload("k", b"load")),
         sets.signature(bytes(x ^ y for x, y in zip(b"kkkk", b"load")), b"\x5a" * 64)),
        ("a_signed_payload_of_one_byte", encoded_key(signed_payload("k", b"x")),
         sets.signature(b"\x13kkk", b"\x5a" * 64)),
        ("another_transactions_hash", encoded_key(preauth(sent("b", 1, NOTHING).hash)), first),
    ]:
        asks(f"{name}_as_an_extra_signer", [key_], [a, signature], BAD_AUTH)
    # where an operation's signatures fail, that they were all used isn't asked
    tx = sent("a", 8, payment("a", 1, source="b"), signatures=[a, first], asked=asking(signers=[wanted["one"]]))
    case("an_extra_signer_and_an_operation_without_a_signature", [OLD, B], [tx], [(100, failed(OP_BAD_AUTH))],
         [after_fee(OLD, 8), B])
    # the list is of the transaction: an operation's source has to sign by itself
    b = B.but(signers=[ONE])
    case("an_extra_signer_that_signs_for_an_operation", [OLD, b], [tx], [(100, PAID)],
         [after_fee(OLD, 8).but(balance=999_999_901), b.but(balance=999_999_999)])


def malformed():
    """Extra signers of whom two are equal, or a payload is empty. No number is used up."""
    other = encoded_key(preauth(ONE[1]))
    one_, two = encoded_key(ONE), encoded_key(TWO)
    empty, *payloads = (encoded_key(signed_payload("k", text)) for text in (b"", b"x", b"x\0", b"y" * 64))
    signed = [*by("a"), by_secret(b"one")]
    for name, keys in [
        ("two_equal_extra_signers", [one_, one_]), ("two_equal_payloads", [payloads[0], payloads[0]]),
        ("an_empty_payload", [empty]), ("an_empty_payload_first", [empty, one_]),
        ("an_empty_payload_last", [one_, empty]),
        ("two_empty_payloads", [empty, empty]), ("two_equal_payloads_of_64_bytes", [payloads[2]] * 2),
    ]:
        one(f"{name}", MALFORMED, used=False, signers=keys, signatures=signed)
    for name, keys in [
        ("a_hash_of_both_kinds", [other, one_]), ("a_payload_and_it_with_a_zero", payloads[:2]),
        ("payloads_of_two_keys", [payloads[0], encoded_key(signed_payload("l", b"x"))]),
        ("a_payload_and_its_key", [payloads[0], encoded_key((0, sets.key("k"), 1))]),
    ]:
        one(f"{name}_as_extra_signers", BAD_AUTH, signers=keys, signatures=signed)
    one("two_extra_signers_that_differ", PAID, signers=[one_, two], signatures=[*signed, by_secret(b"two")])


def in_order():
    """Two checks that fail at once: the earlier one is the answer."""
    same, late = [encoded_key(ONE)] * 2, dict(ledgers=(0, 10))
    a, poor = by("a"), OLD.but(balance=15_000_099)
    tx = sent("a", 8, signatures=[], asked=asking(signers=same))
    former = SILENT
    case("not_supported_before_malformed", [former], [tx], [(100, NOT_SUPPORTED)], [after_fee(former)], version=18)
    case("malformed_before_missing_operation", [OLD], [tx], [(100, MALFORMED)], [after_fee(OLD)])
    one("malformed_before_early", MALFORMED, used=False, signers=same, bounds=(1_061, 0))
    one("malformed_before_the_fee", MALFORMED, used=False, signers=same, fee=99)
    missing = sent("a", 8, asked=asking(ledgers=(11, 0)))
    case("missing_operation_before_early", [OLD], [missing], [(100, MISSING_OPERATION)], [after_fee(OLD)])
    one("late_before_the_fee", TOO_LATE, used=False, fee=99, **late)
    one("the_fee_before_the_number", INSUFFICIENT_FEE, number=7, used=False, fee=99, least=0)
    one("the_number_before_the_age", BAD_SEQ, number=7, used=False, least=0, age=61)
    one("the_age_before_signatures", BAD_MIN_SEQ_AGE_OR_GAP, age=61, signatures=[])
    one("the_age_before_the_balance", BAD_MIN_SEQ_AGE_OR_GAP, account=poor, age=61)
    one("extra_signers_before_the_balance", BAD_AUTH, account=poor, signers=[encoded_key(ONE)], signatures=a)
    one("the_balance_before_signatures_that_arent_used", INSUFFICIENT_BALANCE, account=poor,
        signatures=[*a, by_secret(b"one")], gap=5)
    # three reserves are enough: what the account says of its number takes none
    one("three_reserves", PAID, account=SILENT.but(balance=15_000_100))
    # the first version is not supported still, and preconditions of the second form are not before protocol 19
    first = First(Tx("a", 8, [PAY]), by("a"))
    case("the_first_version", [OLD], [first], [(100, NOT_SUPPORTED)], [after_fee(OLD)])
    greater = sent("a", 20, PAY, asked=asking(least=5))
    case("a_greater_number_before_it", [SILENT], [greater], [(100, NOT_SUPPORTED)], [after_fee(SILENT)], version=18)
    # the accounts of the set say nothing of their numbers before protocol 19
    plain = sent("a", 8, NOTHING)
    case("a_bump_before_it", [SILENT], [plain], [(100, ok(BUMPED))], [after_fee(SILENT, 8, None)], version=18)


def preauthorised():
    """The signers of a transaction's hash are removed whatever its checks answer."""
    bump = bump_sequence(0, source="b")

    def run(name, end, used=True, version=19, number=8, signatures=(), **asked):
        tx = Tx("a", number, [PAY, bump], 200, asked=asking(**asked))
        account = OLD if version == 19 else SILENT
        a, b = (e.but(signers=e.fields["signers"] + [preauth(tx.hash)]) for e in (account, B))
        case(name, [a, b], [Signed(tx, list(signatures))], [(200, end)],
             [after_fee(account, number if used else None, fee=200), B], version=version)

    same = [encoded_key(ONE)] * 2
    run("preauthorised_and_not_supported", NOT_SUPPORTED, used=False, version=18)
    run("preauthorised_and_malformed", MALFORMED, used=False, signers=same)
    run("preauthorised_and_early", TOO_EARLY, used=False, ledgers=(11, 0))
    run("preauthorised_and_late", TOO_LATE, used=False, ledgers=(0, 10))
    run("preauthorised_and_a_bad_number", BAD_SEQ, used=False, least=8, number=20)
    run("preauthorised_and_too_young", BAD_MIN_SEQ_AGE_OR_GAP, gap=6)
    run("preauthorised_without_an_extra_signer", BAD_AUTH, signers=same[:1])
    # it counts for both accounts, and the extra signer has to sign beside it
    tx = Tx("a", 8, [PAY, bump], 200, asked=asking(signers=same[:1]))
    a, b = (e.but(signers=e.fields["signers"] + [preauth(tx.hash)]) for e in (OLD, B))
    case("preauthorised_with_an_extra_signer", [a, b], [Signed(tx, [by_secret(b"one")])],
         [(200, ok(ran(PAYMENT, 0), BUMPED))], [after_fee(OLD, 8, fee=200), B.but(dated=NOW)])


def bumps():
    """BUMP_SEQUENCE says in which ledger and when, also where the number stays."""
    b = B.but(seq=7)
    for name, account, to, left in [
        ("of_an_account_without_extensions", b, 9, b.but(seq=9, dated=NOW)),
        ("to_a_lower_number", b, 3, b.but(dated=NOW)),
        ("to_the_same_number", b, 7, b.but(dated=NOW)),
        ("of_an_account_with_liabilities_alone", b.but(bound=(0, 0)), 9, b.but(seq=9, dated=NOW)),
        ("of_an_account_with_sponsorships", b.but(counts=(0, 0)), 9, b.but(seq=9, dated=NOW)),
        ("of_an_account_that_said_so_before", b.but(dated=(5, 1_000)), 0, b.but(dated=NOW)),
        ("of_an_account_without_signers", b.but(signers=[]), 9, None),
        ("to_the_greatest_number", b, GREATEST, b.but(seq=GREATEST, dated=NOW)),
    ]:
        tx = sent("a", 8, bump_sequence(to, source="b"), signers="ab")
        end, kept = (failed(OP_BAD_AUTH), account) if left is None else (ok(BUMPED), left)
        case(f"a_bump_{name}", [OLD, account], [tx], [(100, end)], [after_fee(OLD, 8), kept])
    # below 0, and beside an operation that fails, the account says what it said
    below = sent("a", 8, bump_sequence(-1, source="b"), signers="ab")
    case("a_bump_below_0", [OLD, b], [below], [(100, failed(ran(BUMP, -1)))], [after_fee(OLD, 8), b])
    undone = sent("a", 8, bump_sequence(9, source="b"), payment("z", 5), fee=200, signers="ab")
    case("a_bump_that_is_undone", [OLD, b], [undone], [(200, failed(BUMPED, ran(PAYMENT, -5)))],
         [after_fee(OLD, 8, fee=200), b])
    # a's number is bumped by its own transaction, and the next one has to wait
    own = [sent("a", 8, bump_sequence(20)), sent("a", 21, PAY, asked=asking(gap=1)),
           sent("a", 22, PAY, asked=asking(gap=0))]
    case("a_number_after_a_bump", [OLD], own, [(100, ok(BUMPED)), (100, BAD_MIN_SEQ_AGE_OR_GAP), (100, PAID)],
         [after_fee(OLD, 22, fee=300)], order=[0, 1, 2])
    # an operation of a's transaction makes b's number young where it comes before b's own transaction
    other = sent("a", 8, bump_sequence(0, source="b"), signers="ab")
    start = sets.Start([OLD, b], seq=SEQ, time=TIME, version=19)
    waiting = [sent("b", 8, payment("b", 1), asked=asking(gap=1), memo=u32(2) + u64(number)) for number in range(20)]
    for name, end, order in [("before_its_transaction", BAD_MIN_SEQ_AGE_OR_GAP, [1, 0]),
                             ("after_its_transaction", PAID, [0, 1])]:
        tx = next(tx for tx in waiting if start.apply_order([tx, other])[0] is (tx, other)[order[0]])
        case(f"a_bump_by_another_{name}", [OLD, b], [tx, other], [(100, end), (100, ok(BUMPED))],
             [after_fee(OLD, 8), after_fee(b, 8)], order=order)


def payload_signers():
    """SET_OPTIONS of signed payloads, which are legal from protocol 19 on, and never sign."""
    paid = after_fee(OLD, 8)
    own = OLD.fields["signers"][0]

    def sets_signer(name, signer, number, *left, account=OLD):
        end = ok(ran(OPTIONS, 0)) if number == 0 else failed(ran(OPTIONS, number))
        signers = list(left) if number == 0 else account.fields["signers"]
        case(name, [account], [sent("a", 8, set_options(signer=signer))], [(100, end)],
             [after_fee(account, 8).but(signers=signers)])

    for name, text in [("a_payload_of_one_byte", b"x"), ("a_payload_of_64_bytes", b"y" * 64),
                       ("a_payload_of_zeros", bytes(4))]:
        sets_signer(f"{name}_as_a_signer", signed_payload("k", text), 0, own, signed_payload("k", text))
    sets_signer("a_payload_of_the_own_key_as_a_signer", signed_payload("a", b"x"), 0, own, signed_payload("a", b"x"))
    sets_signer("the_own_key_as_a_signer", (0, sets.key("a"), 1), -8)
    sets_signer("a_hash_of_the_own_keys_bytes_as_a_signer", (2, sets.key("a"), 1), 0, own, (2, sets.key("a"), 1))
    sets_signer("an_empty_payload_as_a_signer", signed_payload("k", b""), -8)
    sets_signer("an_empty_payload_of_weight_0", signed_payload("k", b"", 0), -8)
    sets_signer("a_payload_of_weight_255", signed_payload("k", b"x", 255), 0, own, signed_payload("k", b"x", 255))
    sets_signer("a_payload_of_weight_256", signed_payload("k", b"x", 256), -8)
    sets_signer("a_payload_of_weight_0_that_isnt_there", signed_payload("k", b"x", 0), 0, own)
    with_payload = OLD.but(signers=[own, signed_payload("k", b"x", 3)])
    sets_signer("a_payload_that_is_removed", signed_payload("k", b"x", 0), 0, own, account=with_payload)
    sets_signer("a_payload_that_gets_another_weight", signed_payload("k", b"x", 9), 0, own,
                signed_payload("k", b"x", 9), account=with_payload)
    # by the kind of the key first, then by the key, then by the payload's bytes and not by its length
    others = [signed_payload("k", text) for text in (b"\0\0", b"\1", b"\1\0", b"\2")]
    for index, signer in enumerate(others):
        rest = others[:index] + others[index + 1:]
        sets_signer(f"payload_{index}_of_four_in_order", signer, 0, own, *others, account=OLD.but(signers=[own, *rest]))
    sets_signer("a_payload_of_a_lower_key", signed_payload("j", b"\3"), 0, own, signed_payload("j", b"\3"), *others,
                account=OLD.but(signers=[own, *others]))
    # before protocol 19 SET_OPTIONS has no such signer, and REVOKE_SPONSORSHIP finds none
    revoked = operation(18, u32(1) + u32(0) + sets.key("a") + encoded_key(signed_payload("k", b"x")))
    former = sent("a", 8, revoked)
    case("a_payload_whose_sponsorship_is_revoked_before_it", [SILENT], [former], [(100, failed(ran(REVOKE, -1)))],
         [after_fee(SILENT, 8, None)], version=18)
    case("a_payload_whose_sponsorship_is_revoked", [with_payload], [former], [(100, ok(ran(REVOKE, 0)))],
         [after_fee(with_payload, 8)])
    empty = sent("a", 8, operation(18, u32(1) + u32(0) + sets.key("a") + encoded_key(signed_payload("k", b""))))
    case("an_empty_payload_whose_sponsorship_is_revoked", [OLD], [empty], [(100, failed(ran(REVOKE, -1)))], [paid])
    # a payload never signs, whatever its weight, and its hint is that of its key and of the payload's last bytes
    alone = OLD.but(signers=[signed_payload("k", b"load", 255)])
    hint = bytes(x ^ y for x, y in zip(b"kkkk", b"load"))
    case("a_payload_alone_as_a_signer", [alone], [sent("a", 8, PAY, signatures=[sets.signature(hint, b"\x5a" * 64)])],
         [(100, BAD_AUTH)], [after_fee(alone, 8)])
    # it counts as a subentry, and goes with its account
    case("a_merge_of_an_account_with_a_payload", [with_payload, B], [sent("a", 8, sets.account_merge("b"))],
         [(100, ok(ran(MERGE, 0, 999_999_900)))], [B.but(balance=1_999_999_900)])


def fee_bumps():
    """Fee bumps of transactions with preconditions: the inner one is checked as any but for its fee and balance."""
    one_ = encoded_key(ONE)
    signed = [*by("a"), by_secret(b"one")]
    for name, end, used, number, signatures, asked in [
        ("that_passes", PAID, True, 20, signed,
         dict(bounds=(1_060, 1_060), ledgers=(10, 11), least=7, age=60, gap=5, signers=[one_])),
        ("that_is_too_young", BAD_MIN_SEQ_AGE_OR_GAP, True, 8, signed[:1], dict(age=61)),
        ("that_is_malformed", MALFORMED, False, 8, signed[:1], dict(signers=[one_, one_])),
        ("that_is_late", TOO_LATE, False, 8, signed[:1], dict(ledgers=(0, 10))),
        ("of_a_bad_number", BAD_SEQ, False, 20, signed[:1], dict(least=8)),
        ("without_its_extra_signer", BAD_AUTH, True, 8, signed[:1], dict(signers=[one_])),
        ("with_a_signature_too_many", BAD_AUTH_EXTRA, True, 8, signed, dict(gap=5)),
    ]:
        tx = sent("a", number, PAY, fee=0, signatures=signatures, asked=asking(**asked))
        left = OLD.but(seq=number, dated=NOW) if used else OLD
        case(f"a_fee_bump_{name}", [OLD, B], [bumped("b", 200, tx)], [(200, inner(1 if end == PAID else -13, tx, end))],
             [left, B.but(balance=999_999_800)])
    # an extra signer doesn't sign for the fee bump, and a signature of the fee bump not for the extra signer
    tx = sent("a", 8, PAY, signatures=by("a"), asked=asking(signers=[one_]))
    case("a_fee_bump_with_the_extra_signers_signature", [OLD, B],
         [bumped("b", 200, tx, signatures=[*by("b"), by_secret(b"one")])],
         [(200, BAD_AUTH_EXTRA)], [OLD, B.but(balance=999_999_800)])
    gone = sent("z", 8, PAY, asked=asking(least=0))
    case("a_fee_bump_of_an_account_that_isnt_there", [B], [bumped("b", 200, gone)],
         [(200, inner(-13, gone, NO_ACCOUNT))], [B.but(balance=999_999_800)])
    former = sent("a", 8, PAY, asked=asking())
    case("a_fee_bump_before_it", [SILENT, B], [bumped("b", 200, former)], [(200, inner(-13, former, NOT_SUPPORTED))],
         [SILENT, B.but(balance=999_999_800)], version=18)
    # the payer says nothing of its number, which isn't used
    plain = sent("a", 8, PAY)
    case("a_fee_bump_of_the_first_form", [OLD, B], [bumped("b", 200, plain)], [(200, inner(1, plain, PAID))],
         [OLD.but(seq=8, dated=NOW), B.but(balance=999_999_800)])
    own = bumped("a", 200, sent("a", 20, PAY, asked=asking(least=7)))
    case("a_fee_bump_of_its_own", [OLD], [own], [(200, inner(1, own.inner, PAID))], [after_fee(OLD, 20, fee=200)])


def accounts():
    """What accounts say after a set of all kinds of transactions."""
    # a queue is in the order of numbers, with those left out
    far = sent("a", 20, PAY, asked=asking(least=0))
    near = sent("a", 9, PAY, asked=asking(least=0))
    case("a_queue_with_numbers_left_out", [OLD], [far, near], [(100, PAID), (100, PAID)], [after_fee(OLD, 20, fee=200)],
         order=[1, 0])
    next_one = sent("a", 10, PAY)
    case("a_queue_after_a_number_left_out", [OLD], [next_one, near], [(100, PAID), (100, PAID)],
         [after_fee(OLD, 10, fee=200)], order=[1, 0])
    # a failed transaction uses its number up, and so does one with an open sponsorship
    fails = sent("a", 8, payment("z", 5))
    case("a_failed_transaction", [OLD], [fails], [(100, failed(ran(PAYMENT, -5)))], [after_fee(OLD, 8)])
    opens = sent("a", 8, sets.begin_sponsoring("b"))
    case("an_open_sponsorship", [OLD, B], [opens], [(100, sets.BAD_SPONSORSHIP)], [after_fee(OLD, 8), B])
    unsigned = sent("a", 8, PAY, signatures=[])
    case("no_signature", [OLD], [unsigned], [(100, BAD_AUTH)], [after_fee(OLD, 8)])
    case("a_signature_too_many", [OLD], [sent("a", 8, PAY, signers="ab")], [(100, BAD_AUTH_EXTRA)], [after_fee(OLD, 8)])
    # who is paid says nothing, and an account that is merged and made again says nothing either
    case("a_payment", [OLD, B], [sent("a", 8, payment("b", 5))], [(100, ok(ran(PAYMENT, 0)))],
         [after_fee(OLD, 8).but(balance=999_999_895), B.but(balance=1_000_000_005)])
    make = sent("a", 8, sets.account_merge("a", source="b"), sets.create_account("b", 20_000_000), fee=200,
                signers="ab")
    case("an_account_that_is_merged_and_made_again", [OLD, B.but(dated=(5, 1_000))], [make],
         [(200, ok(ran(MERGE, 0, 1_000_000_000), ran(sets.CREATE, 0)))],
         [after_fee(OLD, 8, fee=200).but(balance=1_979_999_800),
          Account("b", 20_000_000, seq=CLOSING << 32, signers=[], thresholds=(1, 0, 0, 0))])
    # counts of sponsorships stay beside it
    put = sets.manage_data(b"x", b"yes", source="b")
    sandwich = [sets.begin_sponsoring("b"), put, sets.end_sponsoring(source="b")]
    case("a_sponsorship", [OLD, B], [sent("a", 8, *sandwich, fee=300, signers="ab")],
         [(300, ok(ran(BEGIN, 0), ran(sets.DATA, 0), ran(END, 0)))],
         [after_fee(OLD, 8, fee=300).but(counts=(0, 1)), B.but(data=1, counts=(1, 0)),
          sets.Data("b", b"x", b"yes", sponsor="a")])
    # a set of the first form alone, at the greatest time
    case("the_greatest_time", [OLD], [sent("a", 8, PAY, asked=asking(age=2**64 - 1_001,
                                                                     bounds=(2**64 - 1, 2**64 - 1)))],
         [(100, PAID)], [after_fee(OLD, 8, (CLOSING, 2**64 - 1))], time=2**64 - 1)


PARTS = (
    times_and_ledgers, numbers, ages, extra_signers, malformed, in_order, preauthorised, bumps, payload_signers,
    fee_bumps, accounts,
)
