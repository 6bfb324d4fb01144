"""Transactions, operations and sets, put together by their fields as XDR, and a table of cases of sets, each with what it has to leave.

Everything is encoded here, as XDR (RFC 4506; Stellar-transaction.x, Stellar-ledger.x and Stellar-ledger-entries.x of
protocol 19), with SHA-256 of the standard library. What is expected of each case (codes, charges, balances, sequence
numbers) is written out case by case, here for protocol 18 and in `precondition_cases.py` for protocol 19. The order of
application is worked out from the hashes: the k-th transactions of all sources before the next ones, and among them by
rising full hash, bit by bit xor the hash of the set. `table_cases.py` makes runs of the program of the table.

No Ed25519 signature matches in this ledger, so accounts sign by hash-x signers, whose signature is the text that their
key is the SHA-256 of, or by pre-authorised signers. Python 3.9 or later and its standard library.
"""

import hashlib
import struct

# ---- encoding


def sha(data):
    return hashlib.sha256(data).digest()


def u32(n):
    return struct.pack(">I", n)


def i32(n):
    return struct.pack(">i", n)


def u64(n):
    return struct.pack(">Q", n)


def i64(n):
    return struct.pack(">q", n)


def var(data):
    return u32(len(data)) + data + bytes(-len(data) % 4)


def many(items):
    return u32(len(items)) + b"".join(items)


def maybe(item):
    return u32(0) if item is None else u32(1) + item


NETWORK = sha(b"Test SDF Network ; September 2015")
assert NETWORK.hex() == "cee0302d59844d32bdca915c8203dd44b33fbb7edc19051ea37abedf28ecd472"

GREATEST = 2**63 - 1
LEAST = -(2**63)
LUMEN = 10_000_000


def key(name):
    """The key of an account: of a letter 32 times that letter, of a number 28 zero bytes and that number; bytes are
    the key itself."""
    if isinstance(name, bytes):
        return name
    return name.encode() * 32 if isinstance(name, str) else bytes(28) + u32(name)


def secret_of(name):
    said = name[-8:].hex() if isinstance(name, bytes) else name
    return f"secret of {said}".encode()


# ---- signers and signatures


def hash_x(secret, weight=1):
    return (2, sha(secret), weight)


def preauth(tx_hash, weight=1):
    return (1, tx_hash, weight)


def signed_payload(name, payload, weight=1):
    """A signed payload (CAP-0040) of a key."""
    return (3, key(name) + var(payload), weight)


def signer_order(signer):
    """What an account's signers are in the order of: the kind of their key, its bytes, and a payload's."""
    arm, data, _ = signer
    return arm, data[:32], data[36:36 + int.from_bytes(data[32:36], "big")]


def encoded_key(signer):
    arm, data, _ = signer
    return u32(arm) + data


def encoded_signer(signer):
    return encoded_key(signer) + u32(signer[2])


def signature(hint, text):
    return hint + var(text)


def by_secret(secret):
    return signature(sha(secret)[-4:], secret)


def by(*names):
    """The signatures of accounts with their own secrets."""
    return [by_secret(secret_of(name)) for name in names]


# ---- entries


class Account:
    """An account. It has one hash-x signer of its own secret, weight 1, unless signers are given. `dated` are the
    ledger and the time in which its sequence number was set, where it says so."""

    def __init__(self, name, balance, seq=0, signers=None, thresholds=(0, 1, 1, 1), domain=b"", data=0, counts=None,
                 flags=0, bound=None, dated=None):
        self.fields = dict(name=name, balance=balance, seq=seq, thresholds=thresholds, domain=domain, data=data, counts=counts, flags=flags)
        self.fields.update(bound=bound, dated=dated)
        self.fields["signers"] = [hash_x(secret_of(name))] if signers is None else signers

    def but(self, **changes):
        return Account(**{**self.fields, **changes})

    @property
    def name(self):
        return self.fields["name"]

    @property
    def balance(self):
        return self.fields["balance"]

    @property
    def key(self):
        return (0, key(self.name))

    def xdr(self):
        f = self.fields
        signers = sorted(f["signers"], key=signer_order)
        if f["counts"] is None and f["dated"] is None:
            ext = bound_by(f["bound"])
        else:
            sponsored, sponsoring = f["counts"] or (0, 0)
            buying, selling = f["bound"] or (0, 0)
            nobody = many([u32(0) for _ in signers])
            dated = u32(0) if f["dated"] is None else u32(3) + u32(0) + u32(f["dated"][0]) + u64(f["dated"][1])
            ext = u32(1) + i64(buying) + i64(selling) + u32(2) + u32(sponsored) + u32(sponsoring) + nobody + dated
        account = u32(0) + key(self.name) + i64(f["balance"]) + i64(f["seq"]) + u32(len(signers) + f["data"]) + u32(0)
        account += u32(f["flags"]) + var(f["domain"]) + bytes(f["thresholds"]) + many([encoded_signer(s) for s in signers]) + ext
        return u32(2) + u32(0) + account + u32(0)


def bound_by(amounts):
    """The extension of an account or a line whose offers buy and sell so much, or of one that never had an offer."""
    return u32(0) if amounts is None else u32(1) + i64(amounts[0]) + i64(amounts[1]) + u32(0)


class Data:
    def __init__(self, name, data_name, value, sponsor=None):
        self.name, self.data_name, self.value, self.sponsor = name, data_name, value, sponsor

    @property
    def key(self):
        return (3, key(self.name), self.data_name)

    def xdr(self):
        body = u32(0) + key(self.name) + var(self.data_name) + var(self.value) + u32(0)
        return u32(2) + u32(3) + body + with_sponsor(self.sponsor)


def asset(code, issuer):
    """An issued asset, by a code of up to 12 characters."""
    size = 4 if len(code) <= 4 else 12
    return u32(1 if size == 4 else 2) + code.encode().ljust(size, b"\0") + u32(0) + key(issuer)


LUMENS, USD = u32(0), asset("USD", "z")


class Line:
    """A trust line, which is authorised unless other flags are given."""

    def __init__(self, name, balance, limit=GREATEST, line=USD, flags=1, sponsor=None, bound=None):
        self.name, self.balance, self.limit, self.line, self.flags, self.sponsor = name, balance, limit, line, flags, sponsor
        self.bound = bound

    @property
    def key(self):
        return (1, key(self.name), self.line)

    def xdr(self):
        body = u32(0) + key(self.name) + self.line + i64(self.balance) + i64(self.limit) + u32(self.flags) + bound_by(self.bound)
        return u32(2) + u32(1) + body + with_sponsor(self.sponsor)


class Offer:
    """An offer at a price of 1."""

    def __init__(self, name, number, amount, selling=LUMENS, buying=USD, flags=0):
        self.name, self.number, self.amount, self.selling, self.buying, self.flags = name, number, amount, selling, buying, flags

    @property
    def key(self):
        return (2, key(self.name), self.number)

    @property
    def body(self):
        amounts = self.selling + self.buying + i64(self.amount) + u32(1) + u32(1)
        return u32(0) + key(self.name) + i64(self.number) + amounts + u32(self.flags) + u32(0)

    def xdr(self):
        return u32(2) + u32(2) + self.body + u32(0)


class Claimable:
    """A claimable balance, under the id that an operation of a transaction gives it."""

    def __init__(self, digest, claimants, amount, sponsor, line=LUMENS, flags=0):
        self.digest, self.claimants, self.amount, self.sponsor = digest, claimants, amount, sponsor
        self.line, self.flags = line, flags

    @property
    def key(self):
        return (4, self.digest)

    def xdr(self):
        ext = u32(1) + u32(0) + u32(self.flags) if self.flags else u32(0)
        body = u32(0) + self.digest + encoded_claimants(self.claimants) + self.line + i64(self.amount) + ext
        return u32(2) + u32(4) + body + with_sponsor(self.sponsor)


def with_sponsor(name):
    """The extension of an entry whose sponsor has that name, or of one that has none."""
    return u32(0) if name is None else u32(1) + u32(1) + u32(0) + key(name) + u32(0)


# predicates
ANY_TIME = u32(0)


def both(one, other):
    return u32(1) + many([one, other])


def either(one, other):
    return u32(2) + many([one, other])


def opposite(part):
    return u32(3) + maybe(part)


def before(time):
    return u32(4) + i64(time)


def within(seconds):
    return u32(5) + i64(seconds)


def encoded_claimants(claimants):
    """Claimants: names, or pairs of a name and a predicate."""
    pairs = [claimant if isinstance(claimant, tuple) else (claimant, ANY_TIME) for claimant in claimants]
    return many([u32(0) + u32(0) + key(name) + predicate for name, predicate in pairs])


def balance_id(source, seq, index=0):
    """The id of the balance that the operation at an index of a transaction makes."""
    return sha(u32(6) + u32(0) + key(source) + i64(seq) + u32(index))


# ---- operations


def muxed(name):
    """A name, or a pair of a number and a name."""
    if isinstance(name, tuple):
        return u32(256) + u64(name[0]) + key(name[1])
    return u32(0) + key(name)


def operation(kind, fields=b"", source=None):
    return maybe(None if source is None else muxed(source)) + u32(kind) + fields


def create_account(to, balance, source=None):
    return operation(0, u32(0) + key(to) + i64(balance), source)


def payment(to, amount, source=None, asset=LUMENS):
    return operation(1, muxed(to) + asset + i64(amount), source)


def path_payment(to, amount, source=None, sent_asset=LUMENS, asset=LUMENS, kind=2):
    """PATH_PAYMENT_STRICT_RECEIVE without a path, or of kind 13 PATH_PAYMENT_STRICT_SEND, which has the same fields."""
    return operation(kind, sent_asset + i64(amount) + muxed(to) + asset + i64(amount) + many([]), source)


def sell_offer(amount, selling=LUMENS, buying=USD, source=None, kind=3):
    """A new offer at a price of 1: to sell, or of kind 12 to buy."""
    return operation(kind, selling + buying + i64(amount) + u32(1) + u32(1) + i64(0), source)


def passive_offer(amount, selling=LUMENS, buying=USD, source=None):
    return operation(4, selling + buying + i64(amount) + u32(1) + u32(1), source)


def set_options(source=None, master=None, low=None, med=None, high=None, domain=None, signer=None, clears=None, sets=None):
    numbers = [maybe(None if n is None else u32(n)) for n in (clears, sets, master, low, med, high)]
    text = maybe(None if domain is None else var(domain))
    who = maybe(None if signer is None else encoded_signer(signer))
    return operation(5, u32(0) + b"".join(numbers) + text + who, source)


def change_trust(line=USD, limit=GREATEST, source=None):
    return operation(6, line + i64(limit), source)


def trust_pool(one, other, fee=30, source=None):
    """CHANGE_TRUST for the shares of a pool of two assets."""
    return operation(6, u32(3) + u32(0) + one + other + i32(fee) + i64(GREATEST), source)


def allow_trust(who, authorize, code="USD", source=None):
    size = 4 if len(code) <= 4 else 12
    return operation(7, u32(0) + key(who) + u32(size // 8 + 1) + code.encode().ljust(size, b"\0") + u32(authorize), source)


def account_merge(to, source=None):
    return operation(8, muxed(to), source)


def inflation(source=None):
    return operation(9, b"", source)


def manage_data(name, value, source=None):
    return operation(10, var(name) + maybe(None if value is None else var(value)), source)


def bump_sequence(to, source=None):
    return operation(11, i64(to), source)


def begin_sponsoring(who, source=None):
    return operation(16, u32(0) + key(who), source)


def end_sponsoring(source=None):
    return operation(17, b"", source)


def create_claimable(amount, claimants, asset=LUMENS, source=None):
    """CREATE_CLAIMABLE_BALANCE for claimants: names, or pairs of a name and a predicate."""
    return operation(14, asset + i64(amount) + encoded_claimants(claimants), source)


def claim(digest, source=None):
    return operation(15, u32(0) + digest, source)


def revoke(ledger_key, source=None):
    """REVOKE_SPONSORSHIP of what has a key."""
    return operation(18, u32(0) + ledger_key, source)


def account_key(name):
    return u32(0) + u32(0) + key(name)


def line_key(name, line=USD):
    return u32(1) + u32(0) + key(name) + line


def offer_key(name, number):
    return u32(2) + u32(0) + key(name) + i64(number)


def claimable_key(digest):
    return u32(4) + u32(0) + digest


def pool_key(digest):
    return u32(5) + digest


def clawback(who, amount, asset=USD, source=None):
    return operation(19, asset + muxed(who) + i64(amount), source)


def clawback_claimable(digest, source=None):
    return operation(20, u32(0) + digest, source)


def set_line_flags(who, clears=0, sets=0, asset=USD, source=None):
    return operation(21, u32(0) + key(who) + asset + u32(clears) + u32(sets), source)


def deposit(pool, amount, source=None):
    """LIQUIDITY_POOL_DEPOSIT of as much of both at a price of 1."""
    return operation(22, pool + i64(amount) + i64(amount) + 4 * u32(1), source)


def withdraw(pool, amount, source=None):
    return operation(23, pool + i64(amount) + i64(0) + i64(0), source)


# an operation that succeeds and changes nothing, at the low threshold
NOTHING = bump_sequence(0)

# ---- transactions


class Tx:
    def __init__(self, source, seq, operations, fee=100, bounds=None, memo=u32(0), asked=None):
        """`asked` has preconditions as bytes, in place of bounds."""
        self.source, self.seq, self.operations, self.fee, self.bounds, self.memo = source, seq, operations, fee, bounds, memo
        self.asked = asked

    def tail(self):
        asked = self.asked or maybe(None if self.bounds is None else u64(self.bounds[0]) + u64(self.bounds[1]))
        return u32(self.fee) + i64(self.seq) + asked + self.memo + many(self.operations) + u32(0)

    def xdr(self):
        return muxed(self.source) + self.tail()

    @property
    def hash(self):
        return sha(NETWORK + u32(2) + self.xdr())


def account_name(source):
    return source[1] if isinstance(source, tuple) else source


class Signed:
    """An envelope: a transaction with signatures."""

    def __init__(self, tx, signatures):
        self.tx, self.signatures = tx, signatures
        self.hash = tx.hash
        self.source, self.seq = account_name(tx.source), tx.seq

    def xdr(self):
        return u32(2) + self.tx.xdr() + many(self.signatures)


class First:
    """An envelope of the first version. Its hash is that of the same transaction of the second."""

    def __init__(self, tx, signatures):
        self.tx, self.signatures = tx, signatures
        self.hash = tx.hash
        self.source, self.seq = tx.source, tx.seq

    def xdr(self):
        return u32(0) + key(self.tx.source) + self.tx.tail() + many(self.signatures)


class Bump:
    """The envelope of a fee bump."""

    def __init__(self, payer, fee, inner, signatures):
        self.payer, self.fee, self.inner, self.signatures = payer, fee, inner, signatures
        self.bump = muxed(payer) + i64(fee) + inner.xdr() + u32(0)
        self.hash = sha(NETWORK + u32(5) + self.bump)
        self.source, self.seq = inner.source, inner.seq

    def xdr(self):
        return u32(5) + self.bump + many(self.signatures)


def second_form(bounds=None, ledgers=None, seq=None, age=0, gap=0, signers=()):
    """Preconditions of the second form."""
    return (
        u32(2) + maybe(None if bounds is None else u64(bounds[0]) + u64(bounds[1]))
        + maybe(None if ledgers is None else u32(ledgers[0]) + u32(ledgers[1])) + maybe(None if seq is None else i64(seq))
        + u64(age) + u32(gap) + many(signers)
    )


def sent(source, seq, *operations, fee=100, signers=None, signatures=None, bounds=None, memo=u32(0), asked=None):
    """A transaction that its source signs, or that `signers` sign."""
    if signatures is None:
        signatures = by(*([account_name(source)] if signers is None else signers))
    return Signed(Tx(source, seq, list(operations), fee, bounds, memo, asked), signatures)


def bumped(payer, fee, inner, signers=None, signatures=None):
    """A fee bump that its fee source signs, or that `signers` sign."""
    if signatures is None:
        signatures = by(*([account_name(payer)] if signers is None else signers))
    return Bump(payer, fee, inner, signatures)


# ---- results


def ran(kind, code, moved=None):
    return u32(0) + u32(kind) + i32(code) + (b"" if moved is None else i64(moved))


def offered(kind, atoms=(), left=None):
    """The result of an operation on an offer: what it took of other offers, and the offer that it made, if one is left."""
    return ran(kind, 0) + many(list(atoms)) + (u32(2) if left is None else u32(0) + left.body)


def taken(name, number, sold, amount, bought, cost):
    """What was taken of another account's offer."""
    return u32(1) + u32(0) + key(name) + i64(number) + sold + i64(amount) + bought + i64(cost)


def set_aside(digest):
    """The result of a CREATE_CLAIMABLE_BALANCE that made a balance under an id."""
    return ran(14, 0) + u32(0) + digest


CREATE, PAYMENT, OPTIONS, TRUST, ALLOW, MERGE, DATA, BUMP, SET_ASIDE, CLAIM, BEGIN, END, REVOKE, CLAW, CLAW_CLAIMABLE, FLAGS = (
    0, 1, 5, 6, 7, 8, 10, 11, 14, 15, 16, 17, 18, 19, 20, 21,
)
SELL, PASSIVE, BUY = 3, 4, 12
DEPOSIT, WITHDRAW = 22, 23

OP_BAD_AUTH = i32(-1)
OP_NO_ACCOUNT = i32(-2)
OP_NOT_SUPPORTED = i32(-3)
OP_TOO_MANY_SUBENTRIES = i32(-4)

BUMPED = ran(BUMP, 0)


def ok(*results):
    return i32(0) + many(list(results))


def failed(*results):
    return i32(-1) + many(list(results))


def code(number):
    return i32(number)


def inner(number, envelope, outcome):
    """What a fee bump answers whose inner transaction was run: 1 or -13, and the inner result, which charges 0."""
    return i32(number) + envelope.hash + i64(0) + outcome + u32(0)


TOO_EARLY, TOO_LATE, MISSING_OPERATION, BAD_SEQ, BAD_AUTH, INSUFFICIENT_BALANCE, NO_ACCOUNT = map(code, range(-2, -9, -1))
INSUFFICIENT_FEE, BAD_AUTH_EXTRA, INTERNAL_ERROR, NOT_SUPPORTED, FEE_BUMP_INNER_FAILED, BAD_SPONSORSHIP = map(code, range(-9, -15, -1))
BAD_MIN_SEQ_AGE_OR_GAP, MALFORMED = code(-15), code(-16)


# ---- images and sets

# what a header has unless a case says otherwise
BASE_FEE, RESERVE, MAX_SIZE, SEQ, TIME = 100, 5_000_000, 1_000, 2, 1_000
# the first word of a record with vouches
FORM_2 = 0x80000002


def marked(data):
    return u32(0x80000000 | len(data)) + data


class Start:
    """The ledger that a case begins with, as an image: its entries are in the first file of the levels (CAP-0020)."""

    def __init__(self, before, base_fee=BASE_FEE, max_size=MAX_SIZE, seq=SEQ, pool=0, time=TIME, version=18, vouches=None):
        self.version, self.vouches = version, vouches
        coins = pool + sum(e.balance for e in before if isinstance(e, Account))
        items = [i32(-1) + u32(version) + u32(0), *(i32(2) + e.xdr() for e in sorted(before, key=lambda e: e.key))]
        self.file = b"".join(map(marked, items)) if before else b""
        digest = sha(sha(sha(self.file) + bytes(32) if before else bytes(64)) + 10 * sha(bytes(64)))
        value = bytes(32) + u64(time - 5) + u32(0) + u32(0)
        self.header = u32(version) + sha(b"the ledger before") + value + bytes(32) + digest
        self.header += u32(seq) + i64(coins) + i64(pool) + u32(0)
        self.header += u64(0) + u32(base_fee) + u32(RESERVE) + u32(max_size) + bytes(128) + u32(0)
        self.hash, self.seq = sha(self.header), seq
        self.image = b"SLI1" + marked(self.header) + u64(len(self.file)) + self.file + 21 * u64(0)

    def set_hash(self, envelopes):
        return sha(self.hash + b"".join(sorted((e.xdr() for e in envelopes), key=sha)))

    def apply_order(self, envelopes):
        """By rank in the source's queue, and then by full hash xor set hash."""
        mask = int.from_bytes(self.set_hash(envelopes), "big")
        queues = {}
        for e in sorted(envelopes, key=lambda e: (e.seq, sha(e.xdr()))):
            queues.setdefault(e.source, []).append(e)
        rank = {id(e): index for queue in queues.values() for index, e in enumerate(queue)}
        return sorted(envelopes, key=lambda e: (rank[id(e)], int.from_bytes(sha(e.xdr()), "big") ^ mask))

    def record(self, envelopes, time):
        """The close record of a set: of form 2 where vouches are given."""
        value = self.set_hash(envelopes) + u64(time) + u32(0) + u32(0)
        close = u32(self.seq + 1) + self.hash + many([e.xdr() for e in envelopes]) + value
        return close if self.vouches is None else u32(FORM_2) + close + many(self.vouches)


# ---- cases

# a case each: name, start, entries before, envelopes in the order of application, the charge and the outcome of each or None where the set
# has to be refused, the entries after, how many offers were made, the index of the transaction for which it is refused, and the close time
TABLE = []


def case(name, before, listed, expected=None, charged=None, after=None, missing=None, order=None, made=0, time=TIME, **fields):
    """A case. `listed` are the envelopes as the set lists them; `expected` has the charge and the outcome of each, in the same order;
    `charged` is what the fee pool gets altogether; `after` are the entries that exist then; `order`, where it is given, has the indices
    in the list in the order of application; `made` is how many offers were made. Of a set that has to be refused, `missing` is the index
    of the first transaction whose fee source there isn't."""
    start = Start(before, time=time, **fields)
    in_order = start.apply_order(listed)
    if order is not None:
        assert in_order == [listed[index] for index in order], name
    ends = None
    if missing is None:
        assert len(expected) == len(listed), name
        assert charged == sum(fee for fee, _ in expected), name
        by_envelope = {id(e): end for e, end in zip(listed, expected)}
        ends = [by_envelope[id(e)] for e in in_order]
    TABLE.append((name, start, before, listed, in_order, ends, after, made, missing, time))


# accounts with 100 lumens each, of which each case says what is left
A = Account("a", 100 * LUMEN)
B = Account("b", 100 * LUMEN)
C = Account("c", 100 * LUMEN)
# the issuer of USD
Z = Account("z", 100 * LUMEN)


def one_transaction():
    """Sets of one transaction that no rule stops."""
    secret = b"secret"
    signer = hash_x(secret)
    assert signer[1].hex() == "2bb80d537b1da3e38bd30361aa855686bde0eacd7162fef6a25fe97bf527a25b"
    a = Account("a", 1_000_000_000, seq=7, signers=[signer])
    bump = sent("a", 8, bump_sequence(9), signatures=[signature(bytes.fromhex("f527a25b"), secret)])
    case("bump_by_secret", [a], [bump], [(100, ok(BUMPED))], 100, [a.but(balance=999_999_900, seq=9)])

    case("no_transactions", [A, B], [], [], 0, [A, B], pool=7)
    pay = sent("a", 1, payment("b", 300_000_000), fee=1_000)
    case("payment", [A, B], [pay], [(100, ok(ran(PAYMENT, 0)))], 100,
         [A.but(balance=699_999_900, seq=1), B.but(balance=1_300_000_000)], pool=50)
    # what names an account in a muxed form is the account
    case("muxed_accounts", [A, B], [sent((77, "a"), 1, payment((78, "b"), 1, source=(79, "a")))],
         [(100, ok(ran(PAYMENT, 0)))], 100, [A.but(balance=999_999_899, seq=1), B.but(balance=1_000_000_001)])
    # the new account's sequence number is 3 * 2^32, and it has its own key's weight alone
    make = sent("a", 1, create_account("n", 20_000_000), create_account("o", 9_999_999), fee=200)
    case("two_new_accounts", [A], [make], [(200, failed(ran(CREATE, 0), ran(CREATE, -3)))], 200, [A.but(balance=999_999_800, seq=1)])
    made = sent("a", 1, create_account("n", 20_000_000))
    case("new_account", [A], [made], [(100, ok(ran(CREATE, 0)))], 100,
         [A.but(balance=979_999_900, seq=1), Account("n", 20_000_000, seq=12_884_901_888, signers=[], thresholds=(1, 0, 0, 0))])
    case("inflation", [A], [sent("a", 1, inflation())], [(100, failed(OP_NOT_SUPPORTED))], 100, [A.but(balance=999_999_900, seq=1)])
    memos = [u32(1) + var(b"\xff memo"), u32(2) + u64(2**64 - 1), u32(3) + bytes(32), u32(4) + bytes(32)]
    case("memos", [A], [sent("a", seq, NOTHING, memo=memo) for seq, memo in enumerate(memos, 1)],
         [(100, ok(BUMPED))] * 4, 400, [A.but(balance=999_999_600, seq=4)], order=[0, 1, 2, 3])


def fees():
    """The base fee of a set, and what is charged."""
    two, one = sent("a", 1, NOTHING, NOTHING, fee=300), sent("b", 1, NOTHING, fee=120)
    done_two, done_one = ok(BUMPED, BUMPED), ok(BUMPED)
    for name, size, of_two, of_one in [
        ("surge", 100, 240, 120), ("surge_below_100", 50, 240, 120), ("one_above_capacity", 102, 240, 120),
        ("at_capacity", 103, 200, 100), ("no_surge", 1000, 200, 100), ("greatest_size", 2**32 - 1, 200, 100),
    ]:
        case(name, [A, B], [two, one], [(of_two, done_two), (of_one, done_one)], of_two + of_one,
             [A.but(balance=1_000_000_000 - of_two, seq=1), B.but(balance=1_000_000_000 - of_one, seq=1)], max_size=size)
    # the base of a set in surge pricing may be below the header's, by which each transaction is judged
    case("surge_below_base_fee", [A, B], [two, one], [(240, INSUFFICIENT_FEE), (120, INSUFFICIENT_FEE)], 360,
         [A.but(balance=999_999_760), B.but(balance=999_999_880)], max_size=100, base_fee=200)
    # 301 / 2 is rounded up to 151
    rounded, other = sent("a", 1, NOTHING, NOTHING, fee=301), sent("b", 1, NOTHING, fee=400)
    case("surge_rounded", [A, B], [rounded, other], [(301, done_two), (151, done_one)], 452,
         [A.but(balance=999_999_699, seq=1), B.but(balance=999_999_849, seq=1)], max_size=100)
    # a transaction without operations has no bid an operation, and is charged as one of one operation
    none, some = sent("a", 1, fee=400), sent("b", 1, NOTHING, fee=150)
    case("surge_without_operations", [A, B], [none, some], [(150, MISSING_OPERATION), (150, done_one)], 300,
         [A.but(balance=999_999_850), B.but(balance=999_999_850, seq=1)], max_size=100)
    case("only_without_operations", [A], [none], [(100, MISSING_OPERATION)], 100, [A.but(balance=999_999_900)], max_size=100)
    # a fee bump counts as one operation more, also for the set's size
    bump = bumped("b", 400, sent("a", 1, NOTHING))
    for name, size, fee in [("fee_bump_surge", 101, 400), ("fee_bump_at_capacity", 102, 200)]:
        case(name, [A, B], [bump], [(fee, inner(1, bump.inner, done_one))], fee,
             [A.but(seq=1), B.but(balance=1_000_000_000 - fee)], max_size=size)
    # a transaction of the first version counts too: 120 each
    first = First(Tx("a", 1, [NOTHING], 120), [])
    case("first_version_surge", [A, B], [first, other], [(120, NOT_SUPPORTED), (120, done_one)], 240,
         [A.but(balance=999_999_880), B.but(balance=999_999_880, seq=1)], max_size=101)
    # the entire balance where the fee is larger
    poor = A.but(balance=60)
    case("fee_above_balance", [poor], [sent("a", 1, NOTHING)], [(60, INSUFFICIENT_BALANCE)], 60, [poor.but(balance=0, seq=1)])
    less = A.but(balance=150)
    case("fees_above_balance", [less], [sent("a", 2, NOTHING), sent("a", 1, NOTHING), sent("a", 3, NOTHING)],
         [(50, INSUFFICIENT_BALANCE), (100, INSUFFICIENT_BALANCE), (0, INSUFFICIENT_BALANCE)], 150,
         [less.but(balance=0, seq=3)], order=[1, 0, 2])
    # all fees are charged before any transaction is applied: a has 60 then, though b pays it before its second transaction
    case("fees_first", [poor, B], [sent("a", 0, NOTHING, fee=0), sent("a", 1, NOTHING), sent("b", 1, payment("a", 20_000_000))],
         [(0, INSUFFICIENT_FEE), (60, done_one), (100, ok(ran(PAYMENT, 0)))], 160,
         [poor.but(balance=20_000_000, seq=1), B.but(balance=979_999_900, seq=1)])


def early_checks():
    """The checks before the signatures, each alone and before those after it."""
    for name, bounds, end in [
        ("too_early", (1_001, 0), TOO_EARLY), ("early_and_late", (1_001, 999), TOO_EARLY), ("too_late", (0, 999), TOO_LATE),
        ("too_late_by_one", (999, 999), TOO_LATE),
    ]:
        case(name, [A], [sent("a", 1, NOTHING, bounds=bounds)], [(100, end)], 100, [A.but(balance=999_999_900)])
    for name, bounds in [("at_least_time", (1_000, 0)), ("at_greatest_time", (0, 1_000)), ("at_both_times", (1_000, 1_000)),
                         ("no_times", (0, 0))]:
        case(name, [A], [sent("a", 1, NOTHING, bounds=bounds)], [(100, ok(BUMPED))], 100, [A.but(balance=999_999_900, seq=1)])
    case("missing_operation", [A], [sent("a", 1)], [(100, MISSING_OPERATION)], 100, [A.but(balance=999_999_900)])
    case("missing_operation_first", [A], [sent("a", 5, bounds=(1_001, 999), fee=99, signatures=[])], [(99, MISSING_OPERATION)], 99,
         [A.but(balance=999_999_901)])
    case("time_before_fee", [A], [sent("a", 5, NOTHING, bounds=(0, 999), fee=99, signatures=[])], [(99, TOO_LATE)], 99,
         [A.but(balance=999_999_901)])
    case("fee_before_sequence", [A], [sent("a", 5, NOTHING, fee=99, signatures=[])], [(99, INSUFFICIENT_FEE)], 99,
         [A.but(balance=999_999_901)])
    case("sequence_before_signatures", [A], [sent("a", 2, NOTHING, signatures=[])], [(100, BAD_SEQ)], 100, [A.but(balance=999_999_900)])
    case("low_bid", [A], [sent("a", 1, NOTHING, fee=99)], [(99, INSUFFICIENT_FEE)], 99, [A.but(balance=999_999_901)])
    case("low_bid_for_two", [A], [sent("a", 1, NOTHING, NOTHING, fee=199)], [(199, INSUFFICIENT_FEE)], 199, [A.but(balance=999_999_801)])
    case("no_bid", [A], [sent("a", 1, NOTHING, fee=0)], [(0, INSUFFICIENT_FEE)], 0, [A])
    # the same number, one too many, none after the greatest, and a number below 0
    same, next_one, last, below = [Account(name, 100 * LUMEN, seq=seq) for name, seq in
                                   [("a", 5), ("b", 5), ("c", GREATEST), ("d", GREATEST)]]
    case("bad_sequence", [same, next_one, last, below],
         [sent("a", 5, NOTHING), sent("b", 7, NOTHING), sent("c", GREATEST, NOTHING), sent("d", LEAST, NOTHING)],
         [(100, BAD_SEQ)] * 4, 400, [e.but(balance=999_999_900) for e in [same, next_one, last, below]])
    near = A.but(seq=GREATEST - 1)
    case("greatest_sequence", [near], [sent("a", GREATEST, NOTHING)], [(100, ok(BUMPED))], 100, [near.but(balance=999_999_900, seq=GREATEST)])
    # after a bump to 10 the number 2 is bad, and 11 is the next
    case("sequence_after_bump", [A], [sent("a", 11, NOTHING), sent("a", 2, NOTHING), sent("a", 1, bump_sequence(10))],
         [(100, ok(BUMPED)), (100, BAD_SEQ), (100, ok(BUMPED))], 300, [A.but(balance=999_999_700, seq=11)], order=[2, 1, 0])


def signatures():
    """The signatures of transactions and operations."""
    paid = A.but(balance=999_999_900, seq=1)

    def refused(name, account, sigs, end, *operations):
        case(name, [account], [sent("a", 1, *(operations or [NOTHING]), signatures=sigs)], [(100, end)], 100,
             [account.but(balance=999_999_900, seq=1)])

    own = secret_of("a")
    zero = A.but(thresholds=(0, 0, 0, 0))
    refused("no_signature", A, [], BAD_AUTH)
    refused("no_signature_for_0", zero, [], BAD_AUTH)
    refused("signature_for_0", zero, by("a"), ok(BUMPED))
    keyed = A.but(signers=[], thresholds=(1, 0, 0, 0))
    refused("ed25519_alone", keyed, [signature(key("a")[-4:], b"\x5a" * 64)], BAD_AUTH)
    other_key = (0, key("k"), 255)
    refused("ed25519_signer", A.but(signers=[other_key]), [signature(key("k")[-4:], b"\x5a" * 64)], BAD_AUTH)
    refused("other_text", A, [signature(sha(own)[-4:], b"another")], BAD_AUTH)
    refused("other_hint", A, [signature(bytes(4), own)], BAD_AUTH)
    refused("signature_of_another", A, by("b"), BAD_AUTH)
    refused("weight_below", A.but(thresholds=(0, 2, 2, 2)), by("a"), BAD_AUTH)
    refused("one_signer_twice", A.but(thresholds=(0, 2, 2, 2)), by("a", "a"), BAD_AUTH)
    refused("one_signer_twice_above", A, by("a", "a"), BAD_AUTH_EXTRA)
    refused("unused_signature", A, by("a", "b"), BAD_AUTH_EXTRA)
    refused("unused_signature_first", A, by("b", "a"), BAD_AUTH_EXTRA)
    pair = A.but(signers=[hash_x(b"one", 100), hash_x(b"two", 155)], thresholds=(0, 255, 255, 255))
    both = [by_secret(b"one"), by_secret(b"two")]
    refused("two_weights", pair, both, ok(BUMPED))
    refused("two_weights_turned", pair, both[::-1], ok(BUMPED))
    refused("one_weight_of_two", pair, both[:1], BAD_AUTH)
    refused("second_weight_unneeded", pair.but(thresholds=(0, 100, 255, 255)), both, BAD_AUTH_EXTRA)
    # an operation at the medium threshold needs the second signature, which the transaction's own check leaves
    refused("second_weight_for_medium", pair.but(thresholds=(0, 100, 255, 255)), both, ok(ran(PAYMENT, 0)), payment("a", 5))
    refused("medium_missed", pair.but(thresholds=(0, 100, 255, 255)), both[:1], failed(OP_BAD_AUTH), payment("a", 5))
    # home domains are at the medium threshold, signers and weights at the high one
    steps = A.but(signers=[hash_x(b"one", 2)], thresholds=(0, 1, 2, 3))
    case("set_options_medium", [steps], [sent("a", 1, set_options(domain=b"new"), signatures=both[:1])],
         [(100, ok(ran(OPTIONS, 0)))], 100, [steps.but(balance=999_999_900, seq=1, domain=b"new")])
    refused("set_options_high", steps, both[:1], failed(OP_BAD_AUTH), set_options(signer=hash_x(b"new")))
    refused("set_options_weight", steps, both[:1], failed(OP_BAD_AUTH), set_options(low=0))
    refused("merge_high", steps, both[:1], failed(OP_BAD_AUTH), account_merge("a"))
    # only what failed has its code; the others have the default results of their types
    many_kinds = [payment("b", 5), account_merge("b"), manage_data(b"x", b"y"), begin_sponsoring("b"), end_sponsoring(), inflation(),
                  create_account("n", 5), bump_sequence(7, source="z")]
    defaults = [ran(PAYMENT, 0), ran(MERGE, 0, 0), ran(DATA, 0), ran(BEGIN, 0), ran(END, 0), u32(0) + u32(9) + i32(0) + u32(0),
                ran(CREATE, 0), OP_BAD_AUTH]
    case("source_without_account", [A, B], [sent("a", 1, *many_kinds, fee=800)], [(800, failed(*defaults))], 800,
         [A.but(balance=999_999_200, seq=1), B])
    case("source_without_signature", [A, B], [sent("a", 1, NOTHING, payment("a", 5, source="b"), fee=200)],
         [(200, failed(BUMPED, OP_BAD_AUTH))], 200, [A.but(balance=999_999_800, seq=1), B])
    case("source_with_signature", [A, B], [sent("a", 1, payment("a", 5, source="b"), signers="ab")], [(100, ok(ran(PAYMENT, 0)))], 100,
         [A.but(balance=999_999_905, seq=1), B.but(balance=999_999_995)])
    # where an operation's check failed, unused signatures aren't looked at
    case("bad_auth_before_extra", [A, B], [sent("a", 1, payment("a", 5, source="b"), signers="ac")], [(100, failed(OP_BAD_AUTH))], 100,
         [paid, B])
    shared = B.but(signers=A.fields["signers"])
    case("signature_for_two", [A, shared], [sent("a", 1, payment("a", 5, source="b"))], [(100, ok(ran(PAYMENT, 0)))], 100,
         [A.but(balance=999_999_905, seq=1), shared.but(balance=999_999_995)])
    # a signer that the first transaction removes can't sign the second
    case("signer_removed_before", [A], [sent("a", 1, set_options(signer=hash_x(own, 0))), sent("a", 2, NOTHING)],
         [(100, ok(ran(OPTIONS, 0))), (100, BAD_AUTH)], 200, [A.but(balance=999_999_800, seq=2, signers=[])])
    # and one that it adds can
    case("signer_added_before", [A], [sent("a", 1, set_options(signer=hash_x(b"new"))), sent("a", 2, NOTHING, signatures=[by_secret(b"new")])],
         [(100, ok(ran(OPTIONS, 0))), (100, ok(BUMPED))], 200,
         [A.but(balance=999_999_800, seq=2, signers=[hash_x(own), hash_x(b"new")])])


def balances():
    """The reserve after the fee: three reserves of half a lumen."""
    enough, short = A.but(balance=15_000_100), A.but(balance=15_000_099)
    case("at_reserve", [enough], [sent("a", 1, NOTHING)], [(100, ok(BUMPED))], 100, [enough.but(balance=15_000_000, seq=1)])
    case("below_reserve", [short], [sent("a", 1, NOTHING)], [(100, INSUFFICIENT_BALANCE)], 100, [short.but(balance=14_999_999, seq=1)])
    case("signatures_before_balance", [short], [sent("a", 1, NOTHING, signatures=[])], [(100, BAD_AUTH)], 100,
         [short.but(balance=14_999_999, seq=1)])
    case("balance_before_operations", [short, B], [sent("a", 1, payment("a", 5, source="b"), signers="ac")],
         [(100, INSUFFICIENT_BALANCE)], 100, [short.but(balance=14_999_999, seq=1), B])


def operations():
    """How operations of a transaction go together."""
    old = A.but(domain=b"old")
    three = [set_options(domain=b"new"), payment("z", 5), bump_sequence(-1)]
    case("all_undone", [old], [sent("a", 1, *three, fee=300)], [(300, failed(ran(OPTIONS, 0), ran(PAYMENT, -5), ran(BUMP, -1)))], 300,
         [old.but(balance=999_999_700, seq=1)])
    # operations see what those before them did, also where the transaction fails in the end
    case("undone_after_success", [A, B], [sent("a", 1, payment("b", 5), payment("b", 999_999_999), fee=200)],
         [(200, failed(ran(PAYMENT, 0), ran(PAYMENT, -2)))], 200, [A.but(balance=999_999_800, seq=1), B])
    # signers alone are no subentries that stop a merge
    merge = sent("a", 1, account_merge("b"))
    case("merge", [A, B], [merge], [(100, ok(ran(MERGE, 0, 999_999_900)))], 100, [B.but(balance=1_999_999_900)])
    case("merged_before", [A, B], [sent("a", 2, NOTHING), merge], [(100, NO_ACCOUNT), (100, ok(ran(MERGE, 0, 999_999_800)))], 200,
         [B.but(balance=1_999_999_800)], order=[1, 0])
    # the account exists when its signatures are checked, and is gone when its operation's turn comes
    case("source_merged_before", [A, B], [sent("a", 1, account_merge("a", source="b"), bump_sequence(5, source="b"), fee=200, signers="ab")],
         [(200, failed(ran(MERGE, 0, 1_000_000_000), OP_NO_ACCOUNT))], 200, [A.but(balance=999_999_800, seq=1), B])
    case("source_merged_away", [A, B], [sent("a", 1, bump_sequence(5, source="b"), account_merge("a", source="b"), fee=200, signers="ab")],
         [(200, ok(BUMPED, ran(MERGE, 0, 1_000_000_000)))], 200, [A.but(balance=1_999_999_800, seq=1)])
    # a transaction's own source may be gone for its later operations
    case("own_source_merged", [A, B], [sent("a", 1, account_merge("b"), NOTHING, fee=200)],
         [(200, failed(ran(MERGE, 0, 999_999_800), OP_NO_ACCOUNT))], 200, [A.but(balance=999_999_800, seq=1), B])
    case("missing_data", [A], [sent("a", 1, manage_data(b"x", None))], [(100, failed(ran(DATA, -2)))], 100, [A.but(balance=999_999_900, seq=1)])
    case("data", [A], [sent("a", 1, manage_data(b"x", b"yes"))], [(100, ok(ran(DATA, 0)))], 100,
         [A.but(balance=999_999_900, seq=1, data=1), Data("a", b"x", b"yes")])
    # a sponsorship that is open in the end
    begin, put, end = begin_sponsoring("b"), manage_data(b"x", b"yes", source="b"), end_sponsoring(source="b")
    case("begin_without_end", [A, B], [sent("a", 1, begin, put, fee=200, signers="ab")], [(200, BAD_SPONSORSHIP)], 200,
         [A.but(balance=999_999_800, seq=1), B])
    case("begin_alone", [A, B], [sent("a", 1, begin)], [(100, BAD_SPONSORSHIP)], 100, [A.but(balance=999_999_900, seq=1), B])
    # a failure is reported before an open sponsorship
    case("begin_and_failure", [A, B], [sent("a", 1, begin, payment("z", 5), fee=200)], [(200, failed(ran(BEGIN, 0), ran(PAYMENT, -5)))], 200,
         [A.but(balance=999_999_800, seq=1), B])
    case("begin_and_end", [A, B], [sent("a", 1, begin, put, end, fee=300, signers="ab")],
         [(300, ok(ran(BEGIN, 0), ran(DATA, 0), ran(END, 0)))], 300,
         [A.but(balance=999_999_700, seq=1, counts=(0, 1)), B.but(data=1, counts=(1, 0)), Data("b", b"x", b"yes", sponsor="a")])
    case("end_alone", [A], [sent("a", 1, end_sponsoring())], [(100, failed(ran(END, -1)))], 100, [A.but(balance=999_999_900, seq=1)])
    # open sponsorships end with their transaction
    case("sponsorships_of_two", [A, B], [sent("a", 1, begin), sent("b", 1, manage_data(b"x", b"yes"))],
         [(100, BAD_SPONSORSHIP), (100, ok(ran(DATA, 0)))], 200,
         [A.but(balance=999_999_900, seq=1), B.but(balance=999_999_900, seq=1, data=1), Data("b", b"x", b"yes")])


def first_version():
    """Transactions of the first version, and those with preconditions of the second form."""
    case("not_supported", [A], [First(Tx("a", 1, [NOTHING]), by("a"))], [(100, NOT_SUPPORTED)], 100, [A.but(balance=999_999_900)])
    # preconditions of the second form, whatever they ask, before all other checks; the fee is kept, and no number is used up
    signed_payload = u32(3) + bytes([7] * 32) + u32(1) + b"x\0\0\0"
    for name, asked in [
        ("second_form_of_nothing", second_form()), ("second_form_of_times", second_form(bounds=(1_001, 999))),
        ("second_form_of_all", second_form((0, 0), (6, 7), 0, 1, 1, [signed_payload, u32(2) + bytes(32)])),
    ]:
        case(name, [A], [sent("a", 1, NOTHING, asked=asked)], [(100, NOT_SUPPORTED)], 100, [A.but(balance=999_999_900)])
        case(f"{name}_first", [A], [sent("a", 9, fee=50, signatures=[], asked=asked)], [(50, NOT_SUPPORTED)], 50,
             [A.but(balance=999_999_950)])
    case("not_supported_first", [A], [First(Tx("a", 9, [], 50, (1_001, 999)), [])], [(50, NOT_SUPPORTED)], 50, [A.but(balance=999_999_950)])
    # a signed payload is no signer, whatever it weighs
    for name, payload in [("payload_signer", b"x"), ("payload_signer_of_64", b"y" * 64), ("payload_signer_of_nothing", b"")]:
        for weight in (0, 1):
            case(f"{name}_of_weight_{weight}", [A], [sent("a", 1, set_options(signer=(3, bytes([7] * 32) + var(payload), weight)))],
                 [(100, failed(ran(OPTIONS, -8)))], 100, [A.but(balance=999_999_900, seq=1)])
    # its pre-authorised signers are used up all the same
    tx = Tx("a", 1, [NOTHING, bump_sequence(0, source="b")], 200)
    a, b = [e.but(signers=e.fields["signers"] + [preauth(tx.hash)]) for e in (A, B)]
    case("not_supported_preauthorised", [a, b], [First(tx, [])], [(200, NOT_SUPPORTED)], 200, [A.but(balance=999_999_800), B])


def fee_bumps():
    """Fee bumps."""
    plain = sent("a", 1, NOTHING)
    done = ok(BUMPED)
    paid = A.but(seq=1)

    bump = bumped("b", 200, plain)
    case("fee_bump_200", [A, B], [bump], [(200, inner(1, plain, done))], 200, [paid, B.but(balance=999_999_800)])
    case("fee_bump_199", [A, B], [bumped("b", 199, plain)], [(199, INSUFFICIENT_FEE)], 199, [A, B.but(balance=999_999_801)])
    # a bid for each operation at least the inner one's: 150 for one, and so 300 for two
    dear = sent("a", 1, NOTHING, fee=150)
    case("fee_bump_300", [A, B], [bumped("b", 300, dear)], [(200, inner(1, dear, done))], 200, [paid, B.but(balance=999_999_800)])
    case("fee_bump_299", [A, B], [bumped("b", 299, dear)], [(200, INSUFFICIENT_FEE)], 200, [A, B.but(balance=999_999_800)])
    # the inner fee and balance aren't looked at
    free = sent("a", 1, NOTHING, fee=0)
    case("fee_bump_of_free", [A.but(balance=0), B], [bumped("b", 200, free)], [(200, inner(1, free, done))], 200,
         [paid.but(balance=0), B.but(balance=999_999_800)])
    case("fee_bump_below_0", [A, B], [bumped("b", -1, free)], [(0, INSUFFICIENT_FEE)], 0, [A, B])
    case("fee_bump_least", [A, B], [bumped("b", LEAST, free)], [(0, INSUFFICIENT_FEE)], 0, [A, B])
    case("fee_bump_greatest", [A, B], [bumped("b", GREATEST, plain)], [(200, inner(1, plain, done))], 200, [paid, B.but(balance=999_999_800)])
    two = sent("a", 1, NOTHING, NOTHING, fee=0)
    case("fee_bump_of_two", [A, B], [bumped("b", 300, two)], [(300, inner(1, two, ok(BUMPED, BUMPED)))], 300,
         [paid, B.but(balance=999_999_700)])
    own = bumped("a", 200, plain)
    case("fee_bump_of_own", [A], [own], [(200, inner(1, plain, done))], 200, [paid.but(balance=999_999_800)])
    case("fee_bump_muxed", [A, B], [bumped((5, "b"), 200, plain)], [(200, inner(1, plain, done))], 200, [paid, B.but(balance=999_999_800)])

    # what the inner transaction answers
    for name, failing, outcome, left in [
        ("fee_bump_inner_fails", sent("a", 1, payment("z", 5)), failed(ran(PAYMENT, -5)), paid),
        ("fee_bump_inner_sequence", sent("a", 2, NOTHING), BAD_SEQ, A),
        ("fee_bump_inner_signatures", sent("a", 1, NOTHING, signatures=[]), BAD_AUTH, paid),
        ("fee_bump_inner_extra", sent("a", 1, NOTHING, signers="ab"), BAD_AUTH_EXTRA, paid),
        ("fee_bump_inner_early", sent("a", 1, NOTHING, bounds=(1_001, 0)), TOO_EARLY, A),
        ("fee_bump_inner_late", sent("a", 1, NOTHING, bounds=(0, 999)), TOO_LATE, A),
        ("fee_bump_inner_open", sent("a", 1, begin_sponsoring("b")), BAD_SPONSORSHIP, paid),
        ("fee_bump_inner_account", sent("z", 1, NOTHING), NO_ACCOUNT, A),
    ]:
        case(name, [A, B], [bumped("b", 200, failing)], [(200, inner(-13, failing, outcome))], 200, [left, B.but(balance=999_999_800)])
    none = sent("a", 1, fee=100)
    case("fee_bump_inner_missing", [A, B], [bumped("b", 100, none)], [(100, inner(-13, none, MISSING_OPERATION))], 100,
         [A, B.but(balance=999_999_900)])

    # the fee bump's own checks; where one fails, nothing else happens
    spent = [A, B.but(balance=999_999_800)]
    case("fee_bump_signatures", [A, B], [bumped("b", 200, plain, signers="a")], [(200, BAD_AUTH)], 200, spent)
    case("fee_bump_extra", [A, B], [bumped("b", 200, plain, signers="ba")], [(200, BAD_AUTH_EXTRA)], 200, spent)
    at, below = B.but(balance=15_000_200), B.but(balance=15_000_199)
    case("fee_bump_at_reserve", [A, at], [bumped("b", 200, plain)], [(200, inner(1, plain, done))], 200, [paid, at.but(balance=15_000_000)])
    case("fee_bump_below_reserve", [A, below], [bumped("b", 200, plain)], [(200, INSUFFICIENT_BALANCE)], 200,
         [A, below.but(balance=14_999_999)])
    case("fee_bump_balance_before_extra", [A, below], [bumped("b", 200, plain, signers="ba")], [(200, INSUFFICIENT_BALANCE)], 200,
         [A, below.but(balance=14_999_999)])
    case("fee_bump_above_balance", [A, B.but(balance=150)], [bumped("b", 200, plain)], [(150, INSUFFICIENT_BALANCE)], 150,
         [A, B.but(balance=0)])
    # b merges into c among the first transactions of all, and pays for a's second
    second = sent("a", 2, NOTHING)
    case("fee_bump_payer_merged", [A, B, C], [bumped("b", 200, second), sent("a", 1, NOTHING), sent("b", 1, account_merge("c"))],
         [(200, NO_ACCOUNT), (100, done), (100, ok(ran(MERGE, 0, 999_999_700)))], 400,
         [A.but(balance=999_999_900, seq=1), C.but(balance=1_999_999_700)])

    # a pre-authorised signer of the payer goes once the signatures have passed, and before the balance is looked at:
    # without it two reserves are left, which the balance after the fee just has
    inner_signed = sent("a", 1, NOTHING)
    unsigned = bumped("b", 200, inner_signed, signatures=[])
    payer = Account("b", 10_000_200, signers=[preauth(unsigned.hash)])
    case("fee_bump_preauthorised", [A, payer], [unsigned], [(200, inner(1, inner_signed, done))], 200,
         [paid, payer.but(balance=10_000_000, signers=[])])
    poorer = payer.but(balance=10_000_199)
    case("fee_bump_preauthorised_poor", [A, poorer], [unsigned], [(200, INSUFFICIENT_BALANCE)], 200,
         [A, poorer.but(balance=9_999_999, signers=[])])
    extra = bumped("b", 200, inner_signed, signers="a")
    case("fee_bump_preauthorised_extra", [A, payer], [extra], [(200, BAD_AUTH_EXTRA)], 200,
         [A, payer.but(balance=10_000_000, signers=[])])
    # it stays where the signatures don't pass, or are never looked at
    weak = B.but(signers=[preauth(unsigned.hash)], thresholds=(0, 2, 2, 2))
    case("fee_bump_preauthorised_weak", [A, weak], [unsigned], [(200, BAD_AUTH)], 200, [A, weak.but(balance=999_999_800)])
    low = bumped("b", 199, inner_signed, signatures=[])
    kept = B.but(signers=[preauth(low.hash)])
    case("fee_bump_preauthorised_low", [A, kept], [low], [(199, INSUFFICIENT_FEE)], 199, [A, kept.but(balance=999_999_801)])
    # the inner transaction's pre-authorised signer has the inner hash
    alone = sent("a", 1, NOTHING, signatures=[])
    named = A.but(signers=[preauth(alone.hash)])
    case("fee_bump_inner_preauthorised", [named, B], [bumped("b", 200, alone)], [(200, inner(1, alone, done))], 200,
         [named.but(seq=1, signers=[]), B.but(balance=999_999_800)])


def preauthorised():
    """Pre-authorised transactions: whatever they answer, their signers are used up."""

    def run(name, end, *operations, seq=1, used=1, bounds=None, balance=1_000_000_000, more=(), sigs=(), fee=100, thresholds=(0, 1, 1, 1)):
        tx = Tx("a", seq, list(operations), fee, bounds)
        a = Account("a", balance, signers=[preauth(tx.hash), *more], thresholds=thresholds)
        case(name, [a], [Signed(tx, list(sigs))], [(fee, end)], fee, [a.but(balance=balance - fee, seq=used, signers=list(more))])

    run("preauthorised", ok(BUMPED), NOTHING)
    run("preauthorised_failed", failed(ran(PAYMENT, -5)), payment("z", 5))
    run("preauthorised_twice", ok(ran(PAYMENT, 0), ran(PAYMENT, 0)), payment("a", 5), payment("a", 5), fee=200)
    run("preauthorised_late", TOO_LATE, NOTHING, bounds=(0, 999), used=0)
    run("preauthorised_early", TOO_EARLY, NOTHING, bounds=(1_001, 0), used=0)
    run("preauthorised_without_operations", MISSING_OPERATION, used=0)
    run("preauthorised_low_bid", INSUFFICIENT_FEE, NOTHING, fee=99, used=0)
    run("preauthorised_sequence", BAD_SEQ, NOTHING, seq=2, used=0)
    run("preauthorised_weak", BAD_AUTH, NOTHING, thresholds=(0, 2, 2, 2))
    run("preauthorised_weak_for_medium", failed(OP_BAD_AUTH), payment("a", 5), thresholds=(0, 1, 2, 2))
    # it counts before any signature, which is then unused
    run("preauthorised_and_signature", BAD_AUTH_EXTRA, NOTHING, more=[hash_x(b"one")], sigs=[by_secret(b"one")])
    run("preauthorised_with_signature", ok(BUMPED), NOTHING, more=[hash_x(b"one")], sigs=[by_secret(b"one")], thresholds=(0, 2, 2, 2))
    # the balance is looked at while the signer still needs its reserve: 4 of them, and 3 afterwards
    run("preauthorised_poor", INSUFFICIENT_BALANCE, NOTHING, more=[hash_x(b"one")], balance=20_000_099)
    run("preauthorised_not_poor", ok(BUMPED), NOTHING, more=[hash_x(b"one")], balance=20_000_100)
    # and operations run without it
    run("preauthorised_freed", ok(ran(PAYMENT, 0)), payment("a", 5), balance=15_000_100)

    # the signer of an operation's source goes too
    tx = Tx("a", 1, [payment("z", 5, source="b")])
    b = B.but(signers=[hash_x(secret_of("b")), preauth(tx.hash)])
    case("preauthorised_source", [A, b], [Signed(tx, by("a"))], [(100, failed(ran(PAYMENT, -5)))], 100, [A.but(balance=999_999_900, seq=1), B])
    case("preauthorised_source_only", [A, b], [Signed(tx, [])], [(100, BAD_AUTH)], 100, [A.but(balance=999_999_900, seq=1), B])
    late = Tx("a", 1, [payment("z", 5, source="b")], bounds=(0, 999))
    b_late = B.but(signers=[hash_x(secret_of("b")), preauth(late.hash)])
    case("preauthorised_source_late", [A, b_late], [Signed(late, by("a"))], [(100, TOO_LATE)], 100, [A.but(balance=999_999_900), B])
    # one that isn't a source of the transaction keeps its signer
    to_b = Tx("a", 1, [payment("b", 5)])
    b_kept = B.but(signers=[hash_x(secret_of("b")), preauth(to_b.hash)])
    case("preauthorised_destination", [A, b_kept], [Signed(to_b, by("a"))], [(100, ok(ran(PAYMENT, 0)))], 100,
         [A.but(balance=999_999_895, seq=1), b_kept.but(balance=1_000_000_005)])
    # another transaction's signer stays
    a_kept = A.but(signers=[hash_x(secret_of("a")), preauth(to_b.hash)])
    case("preauthorised_other", [a_kept], [sent("a", 1, NOTHING)], [(100, ok(BUMPED))], 100, [a_kept.but(balance=999_999_900, seq=1)])


def order():
    """The order of application."""
    third, first, second = [sent("a", seq, bump_sequence(seq)) for seq in (3, 1, 2)]
    case("sequence_order", [A], [third, first, second], [(100, ok(BUMPED))] * 3, 300, [A.but(balance=999_999_700, seq=3)], order=[1, 2, 0])
    # a fee bump is in the queue of its inner source
    bump = bumped("b", 200, sent("a", 2, NOTHING))
    case("fee_bump_order", [A, B], [sent("a", 3, NOTHING), bump, sent("a", 1, NOTHING)],
         [(100, ok(BUMPED)), (200, inner(1, bump.inner, ok(BUMPED))), (100, ok(BUMPED))], 400,
         [A.but(balance=999_999_800, seq=3), B.but(balance=999_999_800)], order=[2, 1, 0])
    # eight sources with up to three transactions each
    names = "abcdefgh"
    counts = dict(zip(names, [1, 2, 3, 1, 2, 3, 1, 2]))
    accounts = [Account(name, 100 * LUMEN) for name in names]
    listed = [sent(name, seq, NOTHING) for seq in (2, 3, 1) for name in names if seq <= counts[name]]
    case("batches", accounts, listed, [(100, ok(BUMPED))] * 15, 1_500,
         [e.but(balance=1_000_000_000 - 100 * counts[e.name], seq=counts[e.name]) for e in accounts])
    assert [e.seq for e in Start(accounts).apply_order(listed)] == [1] * 8 + [2] * 5 + [3] * 2
    case("batches_turned", accounts, listed[::-1], [(100, ok(BUMPED))] * 15, 1_500,
         [e.but(balance=1_000_000_000 - 100 * counts[e.name], seq=counts[e.name]) for e in accounts])
    # both make the same account, and the one that is applied first succeeds
    one, two = sent("a", 1, create_account("n", 20_000_000)), sent("b", 1, create_account("n", 30_000_000))
    winner = Start([A, B]).apply_order([one, two])[0]
    made = 20_000_000 if winner is one else 30_000_000
    wins, loses = (100, ok(ran(CREATE, 0))), (100, failed(ran(CREATE, -4)))
    case("one_of_two", [A, B], [one, two], [wins, loses] if winner is one else [loses, wins], 200,
         [A.but(balance=979_999_900 if winner is one else 999_999_900, seq=1),
          B.but(balance=999_999_900 if winner is one else 969_999_900, seq=1),
          Account("n", made, seq=12_884_901_888, signers=[], thresholds=(1, 0, 0, 0))])


def lines():
    """Sets that begin with accounts alone and leave lines."""
    paid, held = A.but(balance=999_999_900, seq=1), A.but(balance=999_999_900, seq=1, data=1)
    case("line", [A, Z], [sent("a", 1, change_trust())], [(100, ok(ran(TRUST, 0)))], 100, [held, Z, Line("a", 0)])
    case("line_of_nobody", [A], [sent("a", 1, change_trust())], [(100, failed(ran(TRUST, -2)))], 100, [paid])
    # the issuer's flags: 1 asks for its consent, and 8 lets it claw back
    for flags, of_line in [(1, 0), (2, 1), (3, 0), (10, 5), (15, 4)]:
        issuer = Z.but(flags=flags)
        case(f"line_of_issuer_{flags}", [A, issuer], [sent("a", 1, change_trust(limit=7))], [(100, ok(ran(TRUST, 0)))], 100,
             [held, issuer, Line("a", 0, 7, flags=of_line)])
    issued = sent("a", 2, payment("a", 60, "z", USD), signers="az")
    three = [sent("a", 1, change_trust(limit=100)), issued, sent("a", 3, payment("z", 25, asset=USD))]
    case("issued_and_redeemed", [A, Z], three, [(100, ok(ran(TRUST, 0))), (100, ok(ran(PAYMENT, 0))), (100, ok(ran(PAYMENT, 0)))], 300,
         [A.but(balance=999_999_700, seq=3, data=1), Z, Line("a", 35, 100)], order=[0, 1, 2])
    # a sponsors the line of c
    sandwich = [begin_sponsoring("c"), change_trust(source="c"), end_sponsoring("c")]
    case("line_with_sponsor", [A, C, Z], [sent("a", 1, *sandwich, fee=300, signers="ac")],
         [(300, ok(ran(BEGIN, 0), ran(TRUST, 0), ran(END, 0)))], 300,
         [A.but(balance=999_999_700, seq=1, counts=(0, 1)), C.but(data=1, counts=(1, 0)), Z, Line("c", 0, sponsor="a")])
    codes = [
        (payment("z", 5, asset=USD), ran(PAYMENT, -3)), (payment("a", 5, "z", USD), ran(PAYMENT, -6)),
        (allow_trust("z", 1), ran(ALLOW, -2)), (set_line_flags("a", 1, source="z"), ran(FLAGS, -2)), (clawback("a", 1, source="z"), ran(CLAW, -3)),
        (claim(balance_id("a", 1)), ran(CLAIM, -1)), (clawback_claimable(balance_id("a", 1)), ran(CLAW_CLAIMABLE, -1)),
        (create_claimable(5, "c", USD), ran(SET_ASIDE, -3)), (revoke(line_key("a")), ran(REVOKE, -1)),
    ]
    case("nothing_there", [A, Z], [sent("a", 1, *(op for op, _ in codes), fee=900, signers="az")],
         [(900, failed(*(end for _, end in codes)))], 900, [A.but(balance=999_999_100, seq=1), Z])


def claimables():
    """Sets that begin with accounts alone and leave claimable balances."""
    made = balance_id("a", 1, 0)
    create = sent("a", 1, create_claimable(500, ["b", ("c", within(10))]))
    counted = A.but(balance=999_999_400, seq=1, counts=(0, 2))
    case("claimable", [A, B], [create], [(100, ok(set_aside(made)))], 100,
         [counted, B, Claimable(made, ["b", ("c", before(1_010))], 500, "a")])
    # its maker's counts go back to 0, and its extension stays
    claimed = sent("a", 2, claim(made, "b"), signers="ab")
    case("claimed", [A, B], [create, claimed], [(100, ok(set_aside(made))), (100, ok(ran(CLAIM, 0)))], 200,
         [A.but(balance=999_999_300, seq=2, counts=(0, 0)), B.but(balance=1_000_000_500)])
    # the issuer makes a balance that it can claw back, and does
    issuer = Z.but(flags=10)
    create = sent("z", 1, create_claimable(500, "a", USD))
    made = balance_id("z", 1, 0)
    left = issuer.but(balance=999_999_900, seq=1, counts=(0, 1))
    case("claimable_of_issuer", [A, issuer], [create], [(100, ok(set_aside(made)))], 100,
         [A, left, Claimable(made, "a", 500, "z", USD, 1)])
    clawed = sent("z", 2, clawback_claimable(made))
    case("clawed_claimable", [A, issuer], [create, clawed], [(100, ok(set_aside(made))), (100, ok(ran(CLAW_CLAIMABLE, 0)))], 200,
         [A, left.but(balance=999_999_800, seq=2, counts=(0, 0))])


def offers():
    """Sets with operations on offers."""
    paid = A.but(balance=999_999_900, seq=1)
    codes = [
        ("sell", SELL, sell_offer(1), -3), ("sell_below_0", SELL, sell_offer(-1), -1), ("sell_for_itself", SELL, sell_offer(1, USD, USD), -1),
        ("sell_without_line", SELL, sell_offer(1, USD, LUMENS), -2), ("passive", PASSIVE, passive_offer(1), -3),
        ("passive_of_nothing", PASSIVE, passive_offer(0), -1), ("passive_without_line", PASSIVE, passive_offer(1, USD, LUMENS), -2),
        ("buy", BUY, sell_offer(1, kind=12), -3), ("buy_below_0", BUY, sell_offer(-1, kind=12), -1),
        ("buy_without_line", BUY, sell_offer(1, USD, LUMENS, kind=12), -2),
    ]
    for name, kind, op, number in codes:
        case(f"offer_{name}", [A], [sent("a", 1, op)], [(100, failed(ran(kind, number)))], 100, [paid])
    # lumens for USD, and nobody has USD to give
    for name, kind, op, flags in [("sell", SELL, sell_offer(700), 0), ("passive", PASSIVE, passive_offer(700), 1),
                                  ("buy", BUY, sell_offer(700, kind=12), 0)]:
        offer = Offer("a", 1, 700, flags=flags)
        case(f"offer_made_{name}", [A, Z], [sent("a", 1, change_trust(), op, fee=200)],
             [(200, ok(ran(TRUST, 0), offered(kind, left=offer)))], 200,
             [A.but(balance=999_999_800, seq=1, data=2, bound=(0, 700)), Line("a", 0, bound=(700, 0)), offer, Z], made=1)
    # b gets 60 USD from their issuer, and sells them to a
    issued = [change_trust(source="b"), payment("b", 60, "z", USD)]
    atom = taken("a", 1, LUMENS, 60, USD, 60)
    for name, kind, op in [("sell", SELL, sell_offer(60, USD, LUMENS, source="b")), ("buy", BUY, sell_offer(60, USD, LUMENS, source="b", kind=12))]:
        case(f"offer_taken_by_{name}", [A, B, Z], [sent("a", 1, change_trust(), sell_offer(700), *issued, op, fee=500, signers="abz")],
             [(500, ok(ran(TRUST, 0), offered(SELL, left=Offer("a", 1, 700)), ran(TRUST, 0), ran(PAYMENT, 0), offered(kind, [atom])))], 500,
             [A.but(balance=999_999_440, seq=1, data=2, bound=(0, 640)), Line("a", 60, bound=(640, 0)), Offer("a", 1, 640),
              B.but(balance=1_000_000_060, data=1), Line("b", 0), Z], made=1)


def pools():
    """Sets with operations on pools."""
    paid, pool = A.but(balance=999_999_900, seq=1), sha(b"a pool")
    codes = [
        ("deposit_nothing", DEPOSIT, deposit(pool, 0), -1), ("deposit_without_shares", DEPOSIT, deposit(pool, 1), -2),
        ("withdraw_nothing", WITHDRAW, withdraw(pool, 0), -1), ("withdraw_without_shares", WITHDRAW, withdraw(pool, 1), -2),
        ("shares_of_assets_out_of_order", TRUST, trust_pool(USD, LUMENS), -1),
        ("shares_without_line", TRUST, trust_pool(LUMENS, USD), -6),
    ]
    for name, kind, op, number in codes:
        case(f"pools_{name}", [A], [sent("a", 1, op)], [(100, failed(ran(kind, number)))], 100, [paid])


def paths():
    """Path payments in transactions that end before them."""
    out_of_turn, old = sent("a", 2, path_payment("b", 1)), First(Tx("a", 1, [path_payment("b", 1)]), [])
    spent = [A.but(balance=999_999_900), B]
    case("path_payment_sequence", [A, B], [out_of_turn], [(100, BAD_SEQ)], 100, spent)
    case("path_payment_not_supported", [A, B], [old], [(100, NOT_SUPPORTED)], 100, spent)
    unsigned = sent("a", 1, path_payment("b", 1, kind=13), signatures=[])
    case("path_payment_fee_bump", [A, B], [bumped("b", 200, unsigned)], [(200, inner(-13, unsigned, BAD_AUTH))], 200,
         [A.but(seq=1), B.but(balance=999_999_800)])


def refusals():
    """Sets that are refused: a fee source isn't there."""
    fine = sent("a", 1, NOTHING)
    case("no_fee_source", [A], [fine, sent("z", 1, NOTHING)], missing=1)
    # the first in the order of application: y's first transaction, which is listed last
    case("no_fee_source_first_applied", [A], [sent("y", 2, NOTHING), fine, sent("y", 1, NOTHING)], missing=2)
    strangers = [fine, *[sent(name, 1, NOTHING) for name in "tuvwxyz"]]
    first = next(e for e in Start([A]).apply_order(strangers) if e is not fine)
    case("no_fee_source_of_many", [A], strangers, missing=strangers.index(first))
    case("no_fee_source_of_bump", [A], [bumped("z", 200, fine)], missing=0)


def thousand():
    """A set of 1,000 transactions of 100 sources: of each ten payments of the source's number and one to the next source."""
    accounts = [Account(number, 100 * LUMEN) for number in range(100)]
    listed = [sent(number, seq, payment((number + 1) % 100, number + 1), fee=100 + number) for seq in range(1, 11) for number in range(100)]
    # 7 and 1,000 have no common factor, so every index comes once
    turned = [listed[7 * index % 1_000] for index in range(1_000)]
    after = []
    for number, account in enumerate(accounts):
        received = 10 * ((number - 1) % 100 + 1)
        after.append(account.but(balance=1_000_000_000 - 10 * 100 - 10 * (number + 1) + received, seq=10))
    case("thousand", accounts, turned, [(100, ok(ran(PAYMENT, 0)))] * 1_000, 100_000, after, max_size=1_100)


PARTS = (
    one_transaction, fees, early_checks, signatures, balances, operations, lines, claimables, offers, pools, first_version, fee_bumps,
    preauthorised, order, paths, refusals, thousand,
)
