"""The values of the ledger, as the two models beside this one use them: XDR both ways, by the codec of the tool for files
(`model_types.py`), entries by the ranks of their keys, changes with undo, and who pays for reserves (CAP-0033).
"""

from codec import xdr
from model_types import Rows, shape
from xdr import XdrFault

from set_cases import GREATEST, i32, i64, many, sha, u32, u64  # noqa: F401

# ---- XDR, both ways


class Wrong(Exception):
    """A text that doesn't encode a value: the offset and the kind of its first fault."""

    def __init__(self, at, kind):
        super().__init__(at, kind)
        self.at, self.kind = at, kind


class Text:
    """A text that is read from its start."""

    def __init__(self, data):
        self.data, self.at = data, 0

    def take(self, count):
        if len(self.data) - self.at < count:
            raise Wrong(len(self.data), "Short")
        self.at += count
        return self.data[self.at - count:self.at]


class Kind:
    """A type: reads a value at the place of a text, and writes one."""

    def __init__(self, kind):
        self.kind = kind

    def read(self, text):
        try:
            value, text.at = self.kind.reader(text.data, text.at)
        except XdrFault as fault:
            raise Wrong(fault.offset, fault.kind) from None
        return value

    def write(self, value):
        out = bytearray()
        self.kind.writer(value, out)
        return bytes(out)


def kind_of(kind):
    return Kind(shape(kind))


def rows_of(kind):
    """The type of lists of a type, without a bound."""
    return Kind(Rows(kind.kind))


U32, U64 = Kind(xdr.U32), Kind(xdr.U64)
ASSET, LINE_ASSET, POOL_PARAMS = kind_of(xdr.ASSET), kind_of(xdr.TRUST_LINE_ASSET), kind_of(xdr.POOL_PARAMETERS)
CLAIMANT, OFFER, ENTRY, KEY = (kind_of(kind) for kind in (xdr.CLAIMANT, xdr.OFFER, xdr.LEDGER_ENTRY, xdr.LEDGER_KEY))
ITEM, RECORD = kind_of(xdr.BUCKET_ENTRY), kind_of(xdr.RECORD)
VALUE, UPGRADE, HEADER = kind_of(xdr.STELLAR_VALUE), kind_of(xdr.LEDGER_UPGRADE), kind_of(xdr.LEDGER_HEADER)
# the names of a key's fields, by its type
KEY_NAMES = [list(arm.fields) for _, _, arm in KEY.kind.arms.values()]
META, LIVE, DEAD, INIT = -1, 0, 1, 2


def read_entire(kind, data):
    """The value that a text encodes, and no more."""
    text = Text(data)
    value = kind.read(text)
    if text.at < len(data):
        raise Wrong(text.at, "Trailing")
    return value


def marked(data):
    return u32(0x80000000 | len(data)) + data


# ---- entries and their keys

# an asset as what orders it
def asset_rank(asset):
    arm, body = asset
    return (arm, body["code"], body["issuer"][1]) if arm in (1, 2) else (arm, body or b"", b"")


def rank_of_key(key):
    """A key as what orders it: its type, and then its fields."""
    kind, body = key
    if kind == 0:
        return kind, body["id"][1]
    if kind == 1:
        return kind, body["id"][1], *asset_rank(body["asset"])
    if kind == 2:
        return kind, body["seller"][1], body["offer"]
    if kind == 3:
        return kind, body["id"][1], body["name"]
    return kind, body["balance"][1] if kind == 4 else body["pool"]


def key_of(entry):
    kind, body = entry["body"]
    return kind, {name: body[name] for name in KEY_NAMES[kind]}


def account_key(name):
    """The rank of an account's key."""
    return 0, name


def sponsor_of(entry):
    """Who pays for an entry, where somebody else does."""
    arm, ext = entry["ext"]
    return ext["sponsor"][1] if arm and ext["sponsor"] else None


def is_text(data):
    return all(0x20 <= byte <= 0x7E for byte in data)


def muxed_key(muxed):
    return muxed[1] if muxed[0] == 0 else muxed[1]["key"]


# ---- changes with undo


class Layer:
    """Changes over entries by the ranks of their keys."""

    def __init__(self, below):
        self.below, self.changes = below, {}

    def get(self, rank):
        return self.changes[rank] if rank in self.changes else self.below.get(rank)

    def put(self, entry):
        self.changes[rank_of_key(key_of(entry))] = entry

    def erase(self, rank):
        self.changes[rank] = None

    def commit(self):
        self.below.changes.update(self.changes)

    def account(self, name):
        entry = self.get(account_key(name))
        return None if entry is None else entry["body"][1]

    def set_account(self, name, **fields):
        entry = self.get(account_key(name))
        self.put({**entry, "body": (0, {**entry["body"][1], **fields})})


def liabilities(body):
    """What an account or a line owes by its offers."""
    arm, ext = body["ext"]
    return ext["liabilities"] if arm else {"buying": 0, "selling": 0}


def second(account):
    """What an account says of sponsorship; zeros where it says nothing."""
    arm, ext = account["ext"]
    if arm and ext["ext"][0]:
        return ext["ext"][1]
    return {"sponsored": 0, "sponsoring": 0, "sponsors": [None] * len(account["signers"]), "ext": (0, None)}


def third(account):
    """What an account says of its sequence number: the ledger and the time of its last change; zeros where it says
    nothing (CAP-0021)."""
    arm, said = second(account)["ext"]
    return said if arm else {"ledger": 0, "time": 0}


def with_second(account, said):
    return {**account, "ext": (1, {"liabilities": liabilities(account), "ext": (2, said)})}


def sponsor_of_signer(account, index):
    payer = second(account)["sponsors"][index]
    return None if payer is None else payer[1]


def available(account, reserve):
    said = second(account)
    kept = (2 + account["subs"] + said["sponsoring"] - said["sponsored"]) * reserve
    return account["balance"] - kept - liabilities(account)["selling"]


# ---- assets

NATIVE = (0, None)


def issuer_of(asset):
    """Who issues an asset; nobody issues lumens."""
    return asset[1]["issuer"][1] if asset[0] in (1, 2) else None


def is_asset(asset):
    """Whether an asset is lumens, or has a code of letters and digits: 1 to 4 of them, or 5 to 12, and zeros after them."""
    if asset[0] == 0:
        return True
    code = asset[1]["code"].rstrip(b"\0")
    return len(code) >= {1: 1, 2: 5}[asset[0]] and code.isalnum() and code.isascii()


def line_rank(name, asset):
    return rank_of_key((1, {"id": (0, name), "asset": asset}))


def uses_of(line):
    """How often a line is used by lines of pool shares."""
    arm, ext = line["ext"]
    return ext["ext"][1]["uses"] if arm and ext["ext"][0] else 0


def change(layer, rank, **fields):
    """Puts an entry again, with other fields of its body."""
    entry = layer.get(rank)
    layer.put({**entry, "body": (entry["body"][0], {**entry["body"][1], **fields})})


# ---- sponsorship


class Refused(Exception):
    """An operation that fails: the number of its code, and whether it is one of its type."""

    def __init__(self, code, is_own=True):
        super().__init__(code)
        self.code, self.is_own = code, is_own


NOT_SUPPORTED, TOO_MANY_SUBENTRIES, EXCEEDED_WORK_LIMIT, TOO_MANY_SPONSORING = (Refused(code, False) for code in (-3, -4, -5, -6))


def refuse(holds, code):
    if holds:
        raise Refused(code)


class Frame:
    """What the operations of a transaction share: the closing ledger, open sponsorships from the sponsored to the sponsor, the greatest
    id of offers so far, and what other ids are made from: the transaction's source and number, and the operation's index."""

    def __init__(self, header, time, source, number):
        self.reserve, self.seq, self.time, self.open = header["reserve"], header["seq"] + 1, time, {}
        self.version = header["version"]
        self.source, self.number, self.index, self.ids = source, number, 0, header["ids"]
        self.flags = header["ext"][1]["flags"] if header["ext"][0] else 0


def count(layer, name, subs=0, sponsored=0, sponsoring=0):
    """Adds to the counts of an account. An extension is added for a count that changes."""
    account = layer.account(name)
    if sponsored or sponsoring:
        said = second(account)
        account = with_second(account, {**said, "sponsored": said["sponsored"] + sponsored, "sponsoring": said["sponsoring"] + sponsoring})
    layer.set_account(name, **{**account, "subs": account["subs"] + subs})


def is_over(account, k):
    return account["subs"] + second(account)["sponsoring"] + k > 4294967295


def test_payer(frame, payer, k, low):
    if is_over(payer, k):
        raise TOO_MANY_SPONSORING
    if available(payer, frame.reserve) < k * frame.reserve:
        raise Refused(low)


def test_subentry(frame, layer, owner, low, k=1):
    account, payer = layer.account(owner), layer.account(frame.open.get(owner, owner))
    if account["subs"] + k > 1000:
        raise TOO_MANY_SUBENTRIES
    if is_over(payer, k) or is_over(account, k):
        raise TOO_MANY_SPONSORING
    if available(payer, frame.reserve) < k * frame.reserve:
        raise Refused(low)


def pay(layer, owner, payer, k):
    """A sponsor, if there is one, pays k reserves more of an owner's, or k less where that is below 0."""
    if payer is not None:
        count(layer, payer, sponsoring=k)
        count(layer, owner, sponsored=k)


def with_sponsor(entry, payer):
    if payer is None and entry["ext"][0] == 0:
        return entry
    return {**entry, "ext": (1, {"sponsor": None if payer is None else (0, payer), "ext": (0, None)})}


def add_subentry(frame, layer, owner, kind, body, low, k=1):
    """Adds a line or data of an owner, which counts k times."""
    test_subentry(frame, layer, owner, low, k)
    count(layer, owner, subs=k)
    pay(layer, owner, frame.open.get(owner), k)
    layer.put(with_sponsor({"modified": frame.seq, "body": (kind, body), "ext": (0, None)}, frame.open.get(owner)))


def remove_subentry(layer, owner, rank, k=1):
    count(layer, owner, subs=-k)
    pay(layer, owner, sponsor_of(layer.get(rank)), -k)
    layer.erase(rank)


def add_signer(frame, layer, owner, signer, low):
    test_subentry(frame, layer, owner, low)
    payer = frame.open.get(owner)
    count(layer, owner, subs=1)
    pay(layer, owner, payer, 1)
    account = layer.account(owner)
    index = sum(rank_of_signer(other) < rank_of_signer(signer) for other in account["signers"])
    set_signers(layer, owner, lambda rows, own: rows[:index] + [own] + rows[index:], signer, None if payer is None else (0, payer))


def set_signers(layer, owner, change, signer, payer):
    """Changes the list of an account's signers, and with it that of their sponsors, where there is one."""
    account = layer.account(owner)
    arm, ext = account["ext"]
    changed = {**account, "signers": change(account["signers"], signer)}
    if arm and ext["ext"][0]:
        said = ext["ext"][1]
        changed = with_second(changed, {**said, "sponsors": change(said["sponsors"], payer)})
    layer.set_account(owner, **changed)


def rank_of_signer(signer):
    """What signers are ordered by: the kind of their key, its bytes, and a payload's."""
    arm, held = signer["key"]
    return (arm, held["key"], held["payload"]) if arm == 3 else (arm, held)


def index_of(account, key):
    found = [index for index, signer in enumerate(account["signers"]) if signer["key"] == key]
    return found[0] if found else None


def remove_signer(layer, owner, key):
    account = layer.account(owner)
    index = None if account is None else index_of(account, key)
    if index is None:
        return
    payer = sponsor_of_signer(account, index)
    count(layer, owner, subs=-1)
    pay(layer, owner, payer, -1)
    set_signers(layer, owner, lambda rows, own: rows[:index] + rows[index + 1:], None, None)


def move(frame, layer, owner, k, old, new, low):
    """Tests and moves k reserves of an owner from one payer to another; answers whether anything changes."""
    new = None if new == owner else new
    if old is None and new is None:
        return False, None
    if new is None:
        if available(layer.account(owner), frame.reserve) < k * frame.reserve:
            raise Refused(low)
    else:
        test_payer(frame, layer.account(new), k, low)
    pay(layer, owner, old, -k)
    pay(layer, owner, new, k)
    return True, new
