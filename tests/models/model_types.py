"""The types of the ledger of these models: the codec's table (tools/stellar_xdr.py) with the short names of these models.

A value of a struct is a dict by the names below; of a union the number of its arm and what the arm holds, or None; of
what is hashed as it stands, which are transactions and envelopes, the value and its encoding.
"""

from codec import xdr
from xdr import Array, Choice, Formed, Items, Option, Struct, Type, XdrFault

# ---- how values are read and written here


class Arms(Choice):
    """A union whose values are the number of an arm and what it holds."""

    def make_reader(self):
        read_number = xdr.I32.reader
        arms = {number: kind and kind.reader for number, (_, _, kind) in self.arms.items()}

        def read_arms(data, offset):
            number, after = read_number(data, offset)
            if number not in arms:
                raise XdrFault("BadEnum", offset)
            read_arm = arms[number]
            if read_arm is None:
                return (number, None), after
            value, after = read_arm(data, after)
            return (number, value), after

        return read_arms

    def make_writer(self):
        write_number = xdr.I32.writer
        arms = {number: kind and kind.writer for number, (_, _, kind) in self.arms.items()}

        def write_arms(value, out):
            number, held = value
            write_arm = arms[number]
            write_number(number, out)
            if write_arm is not None:
                write_arm(held, out)

        return write_arms


class Rows(Items):
    """A list. More items than it may have are written, since cases have such lists."""

    def make_writer(self):
        write_count, write_item = xdr.U32.writer, self.item.writer

        def write_rows(value, out):
            write_count(len(value), out)
            for item in value:
                write_item(item, out)

        return write_rows


class Encoded(Type):
    """A value with its own encoding. It is only read."""

    def __init__(self, kind):
        self.kind = kind

    def make_reader(self):
        read_value = self.kind.reader

        def read_encoded(data, offset):
            value, after = read_value(data, offset)
            return (value, data[offset:after]), after

        return read_encoded


# ---- names

OPERATIONS = [kind for _, _, kind in xdr.OPERATIONS]
PATH = "asset amount destination to_asset to_amount path"
AFTER_SEQ = "memo operations ext"
SIGNED = "tx signatures"
SIDES = "a b fee reserve_a reserve_b shares lines"
OFFERED = "selling buying amount price"
# the names of a struct's fields, in their order
NAMES = {id(kind): names.split() for kind, names in [
    (xdr.MUXED_ACCOUNT.arms[256][2], "id key"), (xdr.SIGNER, "key weight"), (xdr.CREDITS[1][2], "code issuer"),
    (xdr.CREDITS[2][2], "code issuer"), (xdr.POOL_TERMS, "a b fee"), (xdr.PRICE, "n d"),
    (xdr.LIABILITIES, "buying selling"), (xdr.CLAIMANT.arms[0][2], "destination predicate"),
    (xdr.SIGNED_PAYLOAD, "key payload"), (xdr.ACCOUNT_EXT_3, "ext ledger time"),
    (xdr.PRECONDITIONS_V2, "bounds ledgers seq age gap signers"),
    (xdr.PRECONDITIONS_V2.fields["ledgerBounds"].item, "least most"),
    (xdr.ACCOUNT_EXT_2, "sponsored sponsoring sponsors ext"), (xdr.ACCOUNT_EXT_1, "liabilities ext"),
    (xdr.ACCOUNT, "id balance seq subs inflation flags domain thresholds signers ext"),
    (xdr.TRUST_LINE_EXT_2, "uses ext"), (xdr.TRUST_LINE_EXT_1, "liabilities ext"),
    (xdr.TRUST_LINE, "id asset balance limit flags ext"), (xdr.OFFER, f"seller offer {OFFERED} flags ext"),
    (xdr.DATA, "id name value ext"), (xdr.CLAIMABLE_BALANCE, "balance claimants asset amount ext"),
    (xdr.CLAIMABLE_BALANCE.fields["ext"].arms[1][2], "ext flags"), (xdr.LIQUIDITY_POOL, "pool body"),
    (xdr.CONSTANT_PRODUCT, SIDES), (xdr.SPONSORSHIP, "sponsor ext"), (xdr.LEDGER_ENTRY, "modified body ext"),
    *zip(xdr.KEY_BODIES, ("id", "id asset", "seller offer", "id name", "balance", "pool")),
    (xdr.BUCKET_ENTRY.arms[-1][2], "version ext"),
    (OPERATIONS[0], "destination balance"), (OPERATIONS[1], "destination asset amount"), (OPERATIONS[2], PATH),
    (OPERATIONS[3], f"{OFFERED} offer"), (OPERATIONS[4], OFFERED),
    (OPERATIONS[5], "inflation clear set master low medium high domain signer"), (OPERATIONS[6], "line limit"),
    (OPERATIONS[7], "trustor asset authorize"), (OPERATIONS[10], "name value"), (OPERATIONS[12], f"{OFFERED} offer"),
    (OPERATIONS[13], PATH), (OPERATIONS[14], "asset amount claimants"), (xdr.REVOKE_SPONSORSHIP.arms[1][2], "id key"),
    (OPERATIONS[19], "asset source amount"), (OPERATIONS[21], "trustor asset clear set"),
    (OPERATIONS[22], "pool a b least most"), (OPERATIONS[23], "pool amount a b"), (xdr.OPERATION, "source body"),
    (xdr.TIME_BOUNDS, "least most"), (xdr.SIGNATURES.item, "hint signature"),
    (xdr.TRANSACTION_V0, f"source fee seq bounds {AFTER_SEQ}"), (xdr.TRANSACTION, f"source fee seq asked {AFTER_SEQ}"),
    (xdr.FEE_BUMP_TRANSACTION, "source fee inner ext"),
    *((kind, SIGNED) for _, _, kind in xdr.TRANSACTION_ENVELOPE.arms.values()), (xdr.TRANSACTION_SET, "previous txs"),
    (xdr.STELLAR_VALUE, "set time upgrades ext"), (xdr.STELLAR_VALUE.fields["ext"].arms[1][2], "node signature"),
    (xdr.LEDGER_HEADER,
     "version previous value results levels seq coins pool inflation ids base_fee reserve most skips ext"),
    (xdr.LEDGER_HEADER.fields["ext"].arms[1][2], "flags ext"), (xdr.CLOSE_RECORD, "seq set value"),
    (xdr.VOUCHED_RECORD, "seq set value vouches"), (xdr.VOUCH.arms[0][2], "key digest signature"),
    (xdr.VOUCH.arms[3][2], "key payload signature"),
]}
# structs of one field that are that field here
BARE = {id(OPERATIONS[index]) for index in (11, 15, 16, 20)}
HASHED = {id(kind) for kind in (
    xdr.TRANSACTION, xdr.TRANSACTION_V0, xdr.FEE_BUMP_TRANSACTION, xdr.TRANSACTION_ENVELOPE)}
# what has other parts here: the same bytes
PARTED = {
    id(xdr.CONSTANT_PRODUCT): Struct(**xdr.POOL_TERMS.fields, **{
        name: kind for name, kind in xdr.CONSTANT_PRODUCT.fields.items() if name != "params"}),
    id(xdr.LEDGER_HEADER.fields["skipList"]): Struct(a=xdr.HASH, b=xdr.HASH, c=xdr.HASH, d=xdr.HASH),
}

# ---- the types

shapes = {}


def shape(kind):
    """A type of the table as it is here, made once."""
    if id(kind) not in shapes:
        shapes[id(kind)] = shaped(kind, PARTED.get(id(kind), kind))
    return shapes[id(kind)]


def shaped(kind, parted):
    made = shaped_struct(kind, parted) if isinstance(parted, Struct) else shaped_other(parted)
    return Encoded(made) if id(kind) in HASHED else made


def shaped_struct(kind, parted):
    fields = [shape(field) for field in parted.fields.values()]
    if id(kind) in BARE:
        return fields[0]
    names = NAMES.get(id(kind), list(parted.fields))
    assert len(names) == len(fields), (names, list(parted.fields))
    return Struct(**dict(zip(names, fields)))


def shaped_other(kind):
    if isinstance(kind, Choice):
        return Arms(kind.switch, {
            number: (name, field, arm and shape(arm)) for number, (name, field, arm) in kind.arms.items()})
    if isinstance(kind, Items):
        return Rows(shape(kind.item), kind.most)
    if isinstance(kind, Array):
        return Array(shape(kind.item), kind.count)
    if isinstance(kind, Formed):
        return Formed(kind.word, shape(kind.plain), shape(kind.other))
    return Option(shape(kind.item)) if isinstance(kind, Option) else kind
