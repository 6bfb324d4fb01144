"""A ledger of protocols 18 and 19: what `catchup` prints for an input, worked out here.

It shares nothing with the program. It follows the protocol's XDR (RFC 4506; the .x files of stellar-core), CAP-0003 for
offers, CAP-0015 for fee bumps, CAP-0018 for authorisation, CAP-0020 for buckets, CAP-0021 for preconditions, CAP-0023
for claimable balances, CAP-0033 for sponsorship, CAP-0035 for clawback, CAP-0038 for pools, CAP-0040 for signed
payloads, and stellar-core for the rest. Types are those of the codec of `tools/` (`model_types.py`), values and
reserves are in `entry_model.py`, the operations of assets in `asset_model.py`, what offers bind in `offer_model.py`,
trades in `trade_model.py`, pools in `pool_model.py`, paths in `path_model.py`. `run_cases.py` makes cases with it,
`bench/` inputs. Python 3.9 or later and its standard library.
"""

import asset_model as assets
import offer_model as offers
import path_model as paths
import pool_model as pools
import trade_model as trades
from entry_model import (  # noqa: F401  (some names are for the scripts that use this ledger)
    DEAD, ENTRY, GREATEST, HEADER, INIT, ITEM, LIVE, META, RECORD, U32, U64, UPGRADE, Frame, Layer, Refused, Text,
    Wrong, account_key, add_signer, add_subentry, available, count, i32, i64, index_of, is_text, key_of, liabilities,
    many, marked, move, muxed_key, rank_of_key, rank_of_signer, read_entire, refuse, remove_signer, remove_subentry,
    second, sha, sponsor_of, sponsor_of_signer, test_payer, third, u32, u64, with_second, with_sponsor,
)

# the versions of a ledger, and the one upgrade from one to another
VERSIONS = 18, 19

# ---- buckets and levels

NO_HASH = bytes(32)


class Bucket:
    """What a bucket's file holds: a version, or None for the empty file, and rows of rank, mark, value and encoding in order."""

    def __init__(self, version, rows, file=None):
        self.version, self.rows, self.kept = version, rows, file

    @property
    def file(self):
        if self.kept is None:
            meta = b"" if self.version is None else marked(i32(META) + u32(self.version) + u32(0))
            self.kept = meta + b"".join(marked(row[3]) for row in self.rows)
        return self.kept

    @property
    def hash(self):
        return sha(self.file) if self.file else NO_HASH


EMPTY = Bucket(None, [], b"")


def read_bucket(file):
    """The bucket of a file, or the first fault as an exception."""
    text, version, rows = Text(file), None, []
    while text.at < len(file):
        at = text.at
        mark = U32.read(text)
        if not mark & 0x80000000:
            raise Wrong(at, "BadMark")
        piece = text.take(mark & 0x7FFFFFFF)
        arm, value = read_entire(ITEM, piece)
        if (arm == META) != (version is None):
            raise Wrong(at, "SecondMeta" if arm == META else "NoMeta")
        if arm == META:
            version = value["version"]
            continue
        rank = rank_of_key(value if arm == DEAD else key_of(value))
        if rows and rank <= rows[-1][0]:
            raise Wrong(at, "Order")
        rows.append((rank, arm, value, piece))
    return Bucket(version, rows, file)


def row(arm, value):
    """A row of a bucket: of an entry, or of a key where it is DEAD."""
    return rank_of_key(value if arm == DEAD else key_of(value)), arm, value, ITEM.write((arm, value))


def joined(old, new):
    """What two rows of one key yield, or nothing (CAP-0020)."""
    pair = old[1], new[1]
    if pair == (DEAD, INIT):
        return row(LIVE, new[2])
    if pair == (INIT, LIVE):
        return row(INIT, new[2])
    return None if pair == (INIT, DEAD) else new


def merged(old, new, is_deepest=False):
    if old.version is None and new.version is None:
        return EMPTY
    rows = {item[0]: item for item in old.rows}
    for item in new.rows:
        rows[item[0]] = joined(rows[item[0]], item) if item[0] in rows else item
    kept = sorted((item for item in rows.values() if item is not None), key=lambda item: item[0])
    if is_deepest:
        kept = [item for item in kept if item[1] != DEAD]
    return Bucket(max(b.version for b in (old, new) if b.version is not None), kept)


def half(level):
    return 4 ** (level + 1) // 2


def spills(level, seq):
    return level < 10 and seq % half(level) == 0


class Levels:
    """The curr and snap of eleven levels after a ledger. What a level takes next is merged only when it is taken."""

    def __init__(self, files, seq):
        self.curr, self.snap, self.next = list(files[0::2]), list(files[1::2]), [None] * 11
        for level in range(1, 11):
            self.prepare(level, seq // half(level - 1) * half(level - 1))

    def prepare(self, level, seq):
        onto = EMPTY if spills(level, seq + half(level - 1)) else self.curr[level]
        self.next[level] = (onto, self.snap[level - 1])

    def add(self, seq, fresh):
        for level in range(10, 0, -1):
            if spills(level - 1, seq):
                self.snap[level - 1], self.curr[level - 1] = self.curr[level - 1], EMPTY
                self.curr[level] = merged(*self.next[level], level == 10)
                self.prepare(level, seq)
        self.curr[0] = merged(self.curr[0], fresh)

    @property
    def files(self):
        return [bucket for pair in zip(self.curr, self.snap) for bucket in pair]

    @property
    def hash(self):
        return sha(b"".join(sha(curr.hash + snap.hash) for curr, snap in zip(self.curr, self.snap)))


# ---- operations, each over a layer of its own, which it may leave changed where it is refused


def create_account(frame, layer, source, op):
    name = op["destination"][1]
    refuse(op["balance"] < 0 or name == source, -1)
    refuse(layer.account(name) is not None, -4)
    payer = frame.open.get(name)
    account = dict(
        id=(0, name), balance=op["balance"], seq=frame.seq << 32, subs=0, inflation=None, flags=0, domain=b"",
        thresholds=bytes([1, 0, 0, 0]), signers=[], ext=(0, None),
    )
    if payer is None:
        refuse(op["balance"] < 2 * frame.reserve, -3)
    else:
        test_payer(frame, layer.account(payer), 2, -3)
        count(layer, payer, sponsoring=2)
        account = with_second(account, {**second(account), "sponsored": 2})
    layer.put(with_sponsor({"modified": frame.seq, "body": (0, account), "ext": (0, None)}, payer))
    assets.debit(frame, layer, source, assets.NATIVE, op["balance"], None, None, -2)


def is_bad_signer(frame, source, signer):
    """Whether SET_OPTIONS can't have a signer, also to remove it: the account's own key, a weight above 255, or a
    signed payload that is empty or came before protocol 19."""
    arm, held = signer["key"]
    is_bad_payload = arm == 3 and (frame.version < 19 or not held["payload"])
    return signer["key"] == (0, source) or signer["weight"] > 255 or is_bad_payload


def set_options(frame, layer, source, op):
    sets, clears, signer = op["set"] or 0, op["clear"] or 0, op["signer"]
    refuse(sets > 15 or clears > 15, -6)
    refuse(sets & clears, -3)
    weights = [op[name] for name in ("master", "low", "medium", "high")]
    refuse(any((weight or 0) > 255 for weight in weights), -7)
    refuse(signer is not None and is_bad_signer(frame, source, signer), -8)
    refuse(op["domain"] is not None and not is_text(op["domain"]), -9)
    refuse(op["inflation"] is not None and layer.account(op["inflation"][1]) is None, -4)
    account = layer.account(source)
    refuse(account["flags"] & 4 and (sets or clears), -5)
    flags = account["flags"] & ~clears | sets
    refuse(flags & 8 and not flags & 2, -10)
    if signer is not None:
        index = index_of(account, signer["key"])
        if signer["weight"] == 0:
            remove_signer(layer, source, signer["key"])
        elif index is not None:
            layer.set_account(source, signers=account["signers"][:index] + [signer] + account["signers"][index + 1:])
        else:
            refuse(len(account["signers"]) >= 20, -2)
            add_signer(frame, layer, source, signer, -1)
    thresholds = bytes(old if new is None else new for old, new in zip(account["thresholds"], weights))
    given = {name: op[name] for name in ("inflation", "domain") if op[name] is not None}
    layer.set_account(source, flags=flags, thresholds=thresholds, **given)


def merge(frame, layer, source, op):
    name, account = muxed_key(op), layer.account(source)
    refuse(name == source, -1)
    refuse(layer.account(name) is None, -2)
    refuse(account["flags"] & 4, -3)
    refuse(account["subs"] != len(account["signers"]), -4)
    refuse(account["seq"] >= frame.seq << 32, -5)
    refuse(second(account)["sponsoring"] or source in frame.open.values(), -7)
    assets.credit(layer, name, assets.NATIVE, account["balance"], None, None, -6)
    for signer in account["signers"]:
        remove_signer(layer, source, signer["key"])
    payer = sponsor_of(layer.get(account_key(source)))
    if payer is not None:
        count(layer, payer, sponsoring=-2)
    layer.erase(account_key(source))
    return i64(account["balance"])


def manage_data(frame, layer, source, op):
    rank = (3, source, op["name"])
    refuse(not op["name"] or not is_text(op["name"]), -4)
    entry = layer.get(rank)
    if op["value"] is None:
        refuse(entry is None, -2)
        remove_subentry(layer, source, rank)
    elif entry is not None:
        layer.put({**entry, "body": (3, {**entry["body"][1], "value": op["value"]})})
    else:
        data = dict(id=(0, source), name=op["name"], value=op["value"], ext=(0, None))
        add_subentry(frame, layer, source, 3, data, -3)


def set_seq(frame, layer, name, seq):
    """Sets an account's sequence number. From protocol 19 on the account says in which ledger, and when (CAP-0021)."""
    account = {**layer.account(name), "seq": seq}
    if frame.version >= 19:
        said = {"ext": (0, None), "ledger": frame.seq, "time": frame.time}
        account = with_second(account, {**second(account), "ext": (3, said)})
    layer.set_account(name, **account)


def bump_sequence(frame, layer, source, op):
    refuse(op < 0, -1)
    set_seq(frame, layer, source, max(op, layer.account(source)["seq"]))


def begin_sponsoring(frame, layer, source, op):
    refuse(op[1] == source, -1)
    refuse(op[1] in frame.open, -2)
    refuse(source in frame.open or op[1] in frame.open.values(), -3)
    frame.open[op[1]] = source


def end_sponsoring(frame, layer, source, op):
    refuse(source not in frame.open, -1)
    del frame.open[source]


def revoke_signer(frame, layer, source, body):
    name = body["id"][1]
    account = layer.account(name)
    index = None if account is None else index_of(account, body["key"])
    refuse(index is None, -1)
    payer = sponsor_of_signer(account, index)
    refuse((name if payer is None else payer) != source, -2)
    is_moved, payer = move(frame, layer, name, 1, payer, frame.open.get(source), -3)
    if is_moved:
        account = layer.account(name)
        said = second(account)
        new = None if payer is None else (0, payer)
        sponsors = said["sponsors"][:index] + [new] + said["sponsors"][index + 1:]
        layer.set_account(name, **with_second(account, {**said, "sponsors": sponsors}))


def revoke(frame, layer, source, op):
    arm, body = op
    if arm == 1:
        return revoke_signer(frame, layer, source, body)
    kind, key = body
    refuse(kind == 1 and key["asset"][0] != 3 and not assets.can_have_line(key["id"], key["asset"]), -5)
    refuse(kind == 5 or kind == 2 and key["offer"] <= 0 or kind == 3 and not (key["name"] and is_text(key["name"])), -5)
    rank = rank_of_key(body)
    entry = layer.get(rank)
    refuse(entry is None, -1)
    if kind == 4:
        return assets.revoke_claimable(frame, layer, source, entry)
    name, payer = key["seller" if kind == 2 else "id"][1], sponsor_of(entry)
    refuse((name if payer is None else payer) != source, -2)
    k = 2 if kind == 0 or kind == 1 and key["asset"][0] == 3 else 1
    is_moved, payer = move(frame, layer, name, k, payer, frame.open.get(source), -3)
    if is_moved:
        layer.put(with_sponsor(layer.get(rank), payer))


OPERATIONS = {
    0: create_account, 5: set_options, 8: merge, 10: manage_data, 11: bump_sequence, 16: begin_sponsoring, 17: end_sponsoring, 18: revoke,
    **assets.OPERATIONS, **trades.OPERATIONS, **pools.OPERATIONS, **paths.OPERATIONS,
}


def level_of(op):
    """The index of the threshold that an operation's signatures have to reach."""
    kind, body = op["body"]
    if kind in (7, 9, 11, 15, 21):
        return 1
    is_guarded = kind == 5 and any(body[name] is not None for name in ("master", "low", "medium", "high", "signer"))
    return 3 if kind == 8 or is_guarded else 2


def run_operation(frame, layer, source, op):
    """The result of an operation, and whether it succeeded. What it did is kept where it did."""
    kind, body = op["body"]
    if layer.account(source) is None:
        return i32(-2), False
    if kind == 9:
        return i32(-3), False
    child, before = Layer(layer), (dict(frame.open), frame.ids)
    try:
        payload = OPERATIONS[kind](frame, child, source, body) or b""
    except Refused as fault:
        frame.open, frame.ids = before
        return (i32(0) + i32(kind) if fault.is_own else b"") + i32(fault.code), False
    child.commit()
    return i32(0) + i32(kind) + i32(0) + payload, True


def default_result(op):
    """The result of an operation that isn't run: an offer that is deleted and met none, no lumens moved by ACCOUNT_MERGE, no payouts of
    INFLATION, an id of zeros."""
    kind, deleted = op["body"][0], many([]) + i32(trades.DELETED)
    paid = many([]) + i32(0) + NO_HASH + i32(0) + i64(0)
    zeros = {2: paid, 13: paid, 3: deleted, 4: deleted, 12: deleted, 8: i64(0), 9: u32(0), 14: i32(0) + NO_HASH}
    return i32(0) + i32(kind) + i32(0) + zeros.get(kind, b"")


# ---- signatures


def payload_hint(key, payload):
    """The hint of a signed payload: that of its key, with the last bytes of the payload, which zeros fill up to four."""
    return bytes(x ^ y for x, y in zip(key[-4:], payload[-4:].ljust(4, bytes(1))))


class Vouches:
    """What an outside verifier says of signatures: whose they are, over which hash or payload."""

    def __init__(self, listed):
        self.said = {(arm, vouch["key"], vouch.get("digest", vouch.get("payload")), vouch["signature"]) for arm, vouch in listed}

    def are_for(self, arm, key, over, signature):
        return (arm, key, over, signature) in self.said


# the kinds of signers for which signatures count, in their order: hash-x, Ed25519, signed payloads
SIGNING = 2, 0, 3


class Signatures:
    """The signatures of a transaction, and which of them some check used."""

    def __init__(self, rows, digest, vouches):
        self.rows, self.digest, self.vouches, self.used = rows, digest, vouches, set()

    def check(self, account, key, level):
        """Whether an account's signers have signed. Without an account its key is the one signer, and any weight will do."""
        if account is None:
            return self.reach([{"key": (0, key), "weight": 1}], 0)
        weight = account["thresholds"][0]
        own = [{"key": (0, key), "weight": weight}] if weight else []
        return self.reach([*account["signers"], *own], account["thresholds"][level])

    def signs(self, row_, key):
        """Whether a signature is by a key: its preimage, or by a vouch."""
        (arm, held), hint, signature = key, row_["hint"], row_["signature"]
        if arm == 2:
            return held[-4:] == hint and held == sha(signature)
        if arm == 0:
            return held[-4:] == hint and self.vouches.are_for(0, held, self.digest, signature)
        of, payload = held["key"], held["payload"]
        return payload_hint(of, payload) == hint and self.vouches.are_for(3, of, payload, signature)

    def check_extra(self, keys):
        """Whether the signers that a transaction asks for beside those of its source have all signed."""
        return not keys or self.reach([{"key": key, "weight": 1} for key in keys], len(keys))

    def reach(self, signers, threshold):
        """Whether those of some signers that signed have enough weight together, one of them at least."""
        reached = 0
        for signer in signers:
            if signer["key"] == (1, self.digest):
                reached += min(signer["weight"], 255)
                if reached >= threshold:
                    return True
        for kind in SIGNING:
            left = [signer for signer in signers if signer["key"][0] == kind]
            for index, row_ in enumerate(self.rows):
                found = next((at for at, signer in enumerate(left) if self.signs(row_, signer["key"])), None)
                if found is not None:
                    self.used.add(index)
                    reached += min(left.pop(found)["weight"], 255)
                    if reached >= threshold:
                        return True
        return False

    @property
    def are_used(self):
        return len(self.used) == len(self.rows)


# ---- transactions


class Sent:
    """A transaction of a set."""

    def __init__(self, network, encoded):
        (self.arm, body), raw = encoded
        self.tx, tx_raw = body["tx"]
        self.signatures, self.full = body["signatures"], sha(raw)
        if self.arm == 0:
            self.hash = sha(network + u32(2) + u32(0) + tx_raw)
        else:
            self.hash = sha(network + u32(self.arm) + tx_raw)
        self.inner = self.tx
        if self.arm == 5:
            self.inner, inner_raw = self.tx["inner"][1]["tx"]
            self.inner_signatures, self.inner_hash = self.tx["inner"][1]["signatures"], sha(network + u32(2) + inner_raw)
        self.source = self.inner["source"] if self.arm == 0 else muxed_key(self.inner["source"])
        self.payer = muxed_key(self.tx["source"]) if self.arm == 5 else self.source
        self.operations = self.inner["operations"]
        self.size = len(self.operations) + (self.arm == 5)
        self.bid = max(0, self.tx["fee"])


def source_of(tx_source, op):
    return tx_source if op["source"] is None else muxed_key(op["source"])


NO_LIMITS = {"least": 0, "most": 0}


class Asked:
    """What a transaction asks for before it is applied (CAP-0021)."""

    def __init__(self, preconditions):
        form, given = preconditions
        self.is_second = form == 2
        more = given if self.is_second else {}
        times = more.get("bounds") if self.is_second else given
        self.times, self.ledgers = times or NO_LIMITS, more.get("ledgers") or NO_LIMITS
        self.seq, self.age, self.gap = more.get("seq"), more.get("age", 0), more.get("gap", 0)
        self.signers = more.get("signers", [])

    @property
    def is_malformed(self):
        payloads = [held["payload"] for arm, held in self.signers if arm == 3]
        return any(self.signers.count(key) > 1 for key in self.signers) or not all(payloads)

    def is_early(self, frame):
        return self.times["least"] > frame.time or self.ledgers["least"] > frame.seq

    def is_late(self, frame):
        """Whether it is past: a greatest time is the last one, a greatest ledger the first that is too late."""
        time, ledger = self.times["most"], self.ledgers["most"]
        return bool(time and time < frame.time or ledger and ledger <= frame.seq)

    def is_bad_seq(self, frame, account, seq):
        """Whether a transaction's sequence number doesn't follow its account's. That of a new account is none from
        protocol 19 on."""
        if account["seq"] == GREATEST or frame.version >= 19 and seq == frame.seq << 32:
            return True
        if self.seq is None:
            return account["seq"] + 1 != seq
        return not self.seq <= account["seq"] < seq

    def is_too_soon(self, frame, account):
        """Whether the account's sequence number is too young, by what the account said before the transaction."""
        said = third(account)
        return frame.time - said["time"] < self.age or frame.seq - said["ledger"] < self.gap


def checked(header, frame, layer, tx, source, signatures, pays):
    """What a transaction ends with before its operations, if it does. Its sequence number is used up on the way."""
    operations, asked = tx["operations"], Asked(tx["asked"])
    if asked.is_second and frame.version < 19:
        return i32(-12)
    if asked.is_malformed:
        return i32(-16)
    if not operations:
        return i32(-4)
    if asked.is_early(frame):
        return i32(-2)
    if asked.is_late(frame):
        return i32(-3)
    if pays and tx["fee"] < header["base_fee"] * len(operations):
        return i32(-9)
    account = layer.account(source)
    if account is None:
        return i32(-8)
    if asked.is_bad_seq(frame, account, tx["seq"]):
        return i32(-5)
    set_seq(frame, layer, source, tx["seq"])
    if asked.is_too_soon(frame, account):
        return i32(-15)
    if not signatures.check(account, source, 1) or not signatures.check_extra(asked.signers):
        return i32(-6)
    if pays and available(account, frame.reserve) < 0:
        return i32(-7)
    sources = [source_of(source, op) for op in operations]
    passes = [signatures.check(layer.account(of), of, level_of(op)) for of, op in zip(sources, operations)]
    if not all(passes):
        return i32(-1) + many([default_result(op) if passed else i32(-1) for op, passed in zip(operations, passes)])
    return None if signatures.are_used else i32(-10)


def run_transaction(header, time, layer, tx, source, signatures, pays=True, is_first=False):
    """The outcome of a transaction, by its number and what follows it."""
    frame = Frame(header, time, source, tx["seq"])
    end = i32(-12) if is_first else checked(header, frame, layer, tx, source, signatures, pays)
    for name in [source, *(source_of(source, op) for op in tx["operations"])]:
        remove_signer(layer, name, (1, signatures.digest))
    if end is not None:
        return end
    child = Layer(layer)
    ran = []
    for index, op in enumerate(tx["operations"]):
        frame.index = index
        ran.append(run_operation(frame, child, source_of(source, op), op))
    results = many([result for result, _ in ran])
    if not all(succeeds for _, succeeds in ran):
        return i32(-1) + results
    if frame.open:
        return i32(-14)
    child.commit()
    header["ids"] = frame.ids
    return i32(0) + results


def run_bump(header, time, layer, sent, vouches):
    signatures, base_fee = Signatures(sent.signatures, sent.hash, vouches), header["base_fee"]
    outer, inner = base_fee * sent.size, base_fee * max(1, len(sent.operations))
    if sent.bid < outer or sent.bid * inner < sent.inner["fee"] * outer:
        return i32(-9)
    if layer.account(sent.payer) is None:
        return i32(-8)
    if not signatures.check(layer.account(sent.payer), sent.payer, 1):
        return i32(-6)
    remove_signer(layer, sent.payer, (1, sent.hash))
    if available(layer.account(sent.payer), header["reserve"]) < 0:
        return i32(-7)
    if not signatures.are_used:
        return i32(-10)
    held = Signatures(sent.inner_signatures, sent.inner_hash, vouches)
    outcome = run_transaction(header, time, layer, sent.inner, sent.source, held, pays=False)
    is_done = int.from_bytes(outcome[:4], "big", signed=True) == 0
    return i32(1 if is_done else -13) + sent.inner_hash + i64(0) + outcome + u32(0)


def run_envelope(header, time, layer, sent, vouches):
    if sent.arm == 5:
        return run_bump(header, time, layer, sent, vouches)
    signatures = Signatures(sent.signatures, sent.hash, vouches)
    return run_transaction(header, time, layer, sent.tx, sent.source, signatures, is_first=sent.arm == 0)


# ---- sets


def set_hash(record):
    return sha(record["set"]["previous"] + b"".join(sorted((raw for _, raw in record["set"]["txs"]), key=sha)))


def in_order(listed, digest):
    """The order of application: queues of each source by their numbers, in turn, and then by full hash xor the set's."""
    mask, queues, turns = int.from_bytes(digest, "big"), {}, {}
    for sent in sorted(listed, key=lambda sent: (sent.inner["seq"], sent.full)):
        turns[id(sent)] = queues[sent.source] = queues.get(sent.source, -1) + 1
    return sorted(listed, key=lambda sent: (turns[id(sent)], int.from_bytes(sent.full, "big") ^ mask))


def set_fee(header, listed):
    if sum(sent.size for sent in listed) > max(0, header["most"] - 100):
        return min((-(-sent.bid // sent.size) for sent in listed if sent.size), default=header["base_fee"])
    return header["base_fee"]


# ---- the ledger


class BadRecord(Exception):
    """What a record is refused for."""


class BadImage(Exception):
    """What an image is refused for."""


def upgraded(header, upgrades):
    """The header with all that is asked for."""
    asked, before = [], 0
    for index, data in enumerate(upgrades):
        try:
            kind, value = read_entire(UPGRADE, data)
        except Wrong:
            raise BadRecord(f"BadUpgrade {index}") from None
        if kind <= before or kind in (2, 4) and value == 0 or kind == 5 and value > 7:
            raise BadRecord(f"BadUpgrade {index}")
        before = kind
        asked.append((kind, value))
    for index, (kind, value) in enumerate(asked):
        is_other_version = kind == 1 and (header["version"], value) != VERSIONS
        if is_other_version or kind == 4 and value > header["reserve"]:
            raise BadRecord(f"UpgradeOutOfProfile {index}")
    for kind, value in asked:
        if kind == 5:
            header = {**header, "ext": (1, {"flags": value, "ext": (0, None)})}
        else:
            header = {**header, {1: "version", 2: "base_fee", 3: "most", 4: "reserve"}[kind]: value}
    return header


def with_skips(header):
    seq, levels, skips = header["seq"], header["levels"], dict(header["skips"])
    first = seq % 50 == 0
    second_ = first and seq > 50 and (seq - 50) % 5000 == 0
    third = second_ and seq > 5050 and (seq - 5050) % 50000 == 0
    if third and seq > 55050 and (seq - 55050) % 500000 == 0:
        skips["d"] = skips["c"]
    if third:
        skips["c"] = skips["b"]
    if second_:
        skips["b"] = skips["a"]
    if first:
        skips["a"] = levels
    return {**header, "skips": skips}


class Ledger:
    """A ledger after its last close."""

    def __init__(self, network, header, levels, entries):
        self.network, self.header, self.levels, self.outcomes, self.results = network, header, levels, {}, []
        self.entries = trades.Entries(entries)
        self.hash = sha(HEADER.write(header))

    def close(self, data):
        """Closes the ledger by a record's bytes, and answers the lines of its transactions and of the close."""
        try:
            record = read_entire(RECORD, data)
        except Wrong as wrong:
            raise BadRecord(f"BadXdr {wrong.at} {wrong.kind}") from None
        header, value, digest = self.header, record["value"], set_hash(record)
        seq = header["seq"] + 1
        last = header["value"]["time"]
        for holds, fault in [
            (seq > 2147483647, "SeqEnd"),
            (record["seq"] != seq, f"WrongSeq {seq} {record['seq']}"),
            (record["set"]["previous"] != self.hash, f"WrongPrevious {self.hash.hex()} {record['set']['previous'].hex()}"),
            (value["set"] != digest, f"WrongSetHash {digest.hex()} {value['set'].hex()}"),
            (value["time"] <= last, f"StaleTime {last} {value['time']}"),
        ]:
            if holds:
                raise BadRecord(fault)
        upgrade = upgraded(header, value["upgrades"])
        listed = [Sent(self.network, encoded) for encoded in record["set"]["txs"]]
        order = in_order(listed, digest)
        top = Layer(self.entries)
        for sent in order:
            if top.account(sent.payer) is None:
                raise BadRecord(f"FeeSourceMissing {listed.index(sent)}")
        lines, fees, base, self.outcomes = [], [], set_fee(header, listed), {}
        results, vouches = [], Vouches(record.get("vouches", ()))
        self.results = results
        # the header of the transactions, in which ids are drawn
        header = dict(header)
        for sent in order:
            balance = top.account(sent.payer)["balance"]
            fees.append(min(balance, sent.bid, base * max(1, sent.size)))
            top.set_account(sent.payer, balance=balance - fees[-1])
        for sent, fee in zip(order, fees):
            outcome = self.outcomes[sent.hash] = run_envelope(header, value["time"], top, sent, vouches)
            results.append(sent.hash + i64(fee) + outcome + u32(0))
            number = int.from_bytes(outcome[:4], "big", signed=True)
            lines.append(f"tx {sent.hash.hex()} {fee} {number}\n")
        done = sum(line.rsplit(" ", 1)[1].strip() in ("0", "1") for line in lines)
        self.levels.add(seq, self.fresh(top, seq, upgrade["version"]))
        self.header = with_skips({
            **upgrade, "previous": self.hash, "value": value, "seq": seq, "results": sha(many(results)), "pool": header["pool"] + sum(fees),
            "ids": header["ids"], "levels": self.levels.hash,
        })
        self.hash = sha(HEADER.write(self.header))
        return "".join(lines) + f"closed {seq} {self.hash.hex()} {len(lines)} {done}\n"

    def fresh(self, top, seq, version):
        """Takes what a set changed, and answers its bucket."""
        rows = []
        for rank, entry in sorted(top.changes.items()):
            old = self.entries.get(rank)
            if entry is not None and old is not None and {**entry, "modified": old["modified"]} == old:
                continue
            if entry is None:
                if old is not None:
                    rows.append(row(DEAD, key_of(old)))
                    del self.entries[rank]
                continue
            self.entries[rank] = {**entry, "modified": seq}
            rows.append(row(INIT if old is None else LIVE, self.entries[rank]))
        return Bucket(version, rows)


# ---- images


def existing(files):
    """The entries that levels represent, where their marks fit."""
    entries, above = {}, {}
    if files[21].version is not None:
        raise BadImage("rule 5")
    for bucket in files:
        for rank, arm, value, _ in bucket.rows:
            newer = above.get(rank)
            if newer == INIT and arm != DEAD or newer in (LIVE, DEAD) and arm == DEAD:
                raise BadImage("rule 5")
            if newer is None and arm != DEAD:
                entries[rank] = value
            above[rank] = arm
    return entries


def is_in_range(entry, ids):
    kind, body = entry["body"]
    if kind == 4:
        return assets.is_claimable_in_range(entry)
    if kind == 5:
        return pools.is_pool_in_range(entry)
    if kind == 2:
        return sponsor_of(entry) != body["seller"][1] and offers.is_offer_in_range(body, ids)
    if sponsor_of(entry) == body["id"][1]:
        return False
    if kind == 1:
        return assets.is_line_in_range(body)
    if kind == 3:
        return bool(body["name"]) and is_text(body["name"])
    keys, flags, owed, said = [signer["key"] for signer in body["signers"]], body["flags"], liabilities(body), second(body)
    ranks = [rank_of_signer(signer) for signer in body["signers"]]
    return (
        min(body["balance"], body["seq"], owed["buying"], owed["selling"]) >= 0 and flags <= 15 and not (flags & 8 and not flags & 2)
        and all(a < b for a, b in zip(ranks, ranks[1:])) and all(1 <= signer["weight"] <= 255 for signer in body["signers"])
        and (0, body["id"][1]) not in keys and is_text(body["domain"]) and body["balance"] + owed["buying"] <= GREATEST
        and len(said["sponsors"]) == len(keys) and body["id"] not in said["sponsors"]
    )


def is_dated(entry, header):
    """Whether an account has what protocol 19 brought under that version alone, no payload is empty, and what it says
    of its sequence number isn't later than the header."""
    kind, body = entry["body"]
    if kind != 0:
        return True
    payloads = [signer["key"][1]["payload"] for signer in body["signers"] if signer["key"][0] == 3]
    if header["version"] < 19:
        return not second(body)["ext"][0] and not payloads
    said = third(body)
    return all(payloads) and said["ledger"] <= header["seq"] and said["time"] <= header["value"]["time"]


class Counts:
    """The sums of an image: how many subentries and reserves its entries ask of each account. Who isn't there breaks rule 8."""

    def __init__(self, accounts):
        self.accounts = accounts
        self.subs, self.sponsored, self.sponsoring = ({name: 0 for name in accounts} for _ in range(3))

    def add(self, owner, payer, k, subs=0):
        """Counts k reserves of an owner, if there is one, that somebody else pays for, where a payer is given."""
        for name in (owner, payer):
            if name is not None and name not in self.accounts:
                raise BadImage("rule 8")
        if owner is not None:
            self.subs[owner] += subs
        if payer is not None:
            self.sponsoring[payer] += k
            if owner is not None:
                self.sponsored[owner] += k

    def add_entry(self, entry):
        kind, body = entry["body"]
        if kind == 4:
            self.add(None, sponsor_of(entry), len(body["claimants"]))
            return
        if kind == 5:
            return
        name = body["seller" if kind == 2 else "id"][1]
        k = 2 if kind == 0 or kind == 1 and body["asset"][0] == 3 else 1
        self.add(name, sponsor_of(entry), k, 0 if kind == 0 else k)
        for index in range(len(body["signers"]) if kind == 0 else 0):
            self.add(name, sponsor_of_signer(body, index), 1, 1)

    def has(self, name, account):
        said = second(account)
        is_paid = said["sponsored"] == self.sponsored[name] and said["sponsoring"] == self.sponsoring[name]
        return is_paid and account["subs"] + said["sponsoring"] <= 4294967295


class Shares:
    """The sums of an image's lines of pool shares. A pool or a line that one needs and that isn't there breaks rule 8."""

    def __init__(self, entries, bodies):
        self.pools = {body["pool"]: body["body"][1] for body in bodies[5]}
        self.shares, self.lines, self.uses = {name: 0 for name in self.pools}, {name: 0 for name in self.pools}, {}
        for line in bodies[1]:
            if line["asset"][0] == 3:
                self.add(entries, line)
        ranks = {assets.line_rank(line["id"][1], line["asset"]): assets.uses_of(line) for line in bodies[1]}
        self.are_counted = all(self.uses.get(rank, 0) == uses for rank, uses in ranks.items()) and all(map(self.is_consistent, self.pools))
        self.lumens = [pool[f"reserve_{side}"] for pool in self.pools.values() for side in "ab" if pool[side] == assets.NATIVE]

    def add(self, entries, line):
        name = line["asset"][1]
        if name not in self.pools:
            raise BadImage("rule 8")
        self.shares[name] += line["balance"]
        self.lines[name] += 1
        for side in "ab":
            rank = offers.holder(line["id"][1], self.pools[name][side])
            if rank is not None and rank[0] == 1:
                if rank not in entries:
                    raise BadImage("rule 8")
                self.uses[rank] = self.uses.get(rank, 0) + 1

    def is_consistent(self, name):
        pool = self.pools[name]
        kept = {pool["reserve_a"] > 0, pool["reserve_b"] > 0, pool["shares"] > 0}
        return len(kept) == 1 and pool["shares"] == self.shares[name] and pool["lines"] == self.lines[name]


def owes(body):
    """What an account or a line says that its offers sell and buy."""
    said = liabilities(body)
    return [said["selling"], said["buying"]]


def judge_entries(header, entries):
    """The rules of entries."""
    bodies = {kind: [entry["body"][1] for entry in entries.values() if entry["body"][0] == kind] for kind in range(6)}
    accounts = {account["id"][1]: account for account in bodies[0]}
    lines = [entries[rank]["body"][1] for offer in bodies[2] for rank in offers.holders(offer) if rank in entries and rank[0] == 1]
    fits = all(is_in_range(entry, header["ids"]) and is_dated(entry, header) for entry in entries.values())
    if not fits or not all(line["flags"] & 3 for line in lines):
        raise BadImage("rule 7")
    counts = Counts(accounts)
    for entry in entries.values():
        counts.add_entry(entry)
    owed = {rank: [0, 0] for rank in [None, *entries]}
    for offer in bodies[2]:
        for side, (rank, amount) in enumerate(zip(offers.holders(offer), offers.bound(offer))):
            if rank not in owed:
                raise BadImage("rule 8")
            owed[rank][side] += amount
    if len({offer["offer"] for offer in bodies[2]}) < len(bodies[2]):
        raise BadImage("rule 8")
    shares = Shares(entries, bodies)
    lumens = [account["balance"] for account in bodies[0]] + shares.lumens + [claim["amount"] for claim in bodies[4] if claim["asset"] == assets.NATIVE]
    for number, is_kept in [
        (9, all(owed[account_key(name)] == owes(account) for name, account in accounts.items())
         and all(owed[assets.line_rank(line["id"][1], line["asset"])] == owes(line) for line in bodies[1])),
        (10, all(account["subs"] == counts.subs[name] <= 1000 for name, account in accounts.items())),
        (11, all(counts.has(name, account) for name, account in accounts.items())),
        (12, shares.are_counted),
        (13, sum(lumens) + header["pool"] == header["coins"]),
    ]:
        if not is_kept:
            raise BadImage(f"rule {number}")


def ledger_of(network, header_bytes, files):
    """The ledger of an image."""
    try:
        header = read_entire(HEADER, header_bytes)
    except Wrong:
        raise BadImage("rule 1") from None
    if header["version"] not in VERSIONS:
        raise BadImage("rule 2")
    flags = header["ext"][1]["flags"] if header["ext"][0] else 0
    least = min(header["seq"], header["base_fee"], header["reserve"]) - 1
    is_low = min(least, header["coins"], header["pool"]) < 0
    if is_low or header["seq"] > 2147483647 or flags > 7 or header["ids"] > header["seq"] << 32:
        raise BadImage("rule 3")
    try:
        buckets = [read_bucket(file) for file in files]
    except Wrong:
        raise BadImage("rule 4") from None
    entries, levels = existing(buckets), Levels(buckets, header["seq"])
    if levels.hash != header["levels"]:
        raise BadImage("rule 6")
    judge_entries(header, entries)
    return Ledger(network, header, levels, entries)


# ---- a run


def take_mark(text, most):
    """Passes by a record mark, and answers how many bytes follow it."""
    at = text.at
    mark = U32.read(text)
    if not mark & 0x80000000 or mark & 0x7FFFFFFF > most:
        raise Wrong(at, "a mark")
    return mark & 0x7FFFFFFF


def cut_image(text):
    """The header and the files of the image at the start of a text."""
    if text.take(4) != b"SLI1":
        raise Wrong(0, "a magic")
    header, files, room = text.take(take_mark(text, 16777216)), [], 536870912
    for _ in range(22):
        at = text.at
        size = U64.read(text)
        if size > room:
            raise Wrong(at, "a length")
        room -= size
        files.append(text.take(size))
    return header, files


def catchup(passphrase, data):
    """What `catchup` writes to its output and to standard error, and its status."""
    text, out = Text(data), []
    try:
        ledger = ledger_of(sha(passphrase.encode()), *cut_image(text))
        while text.at < len(data):
            out.append(ledger.close(text.take(take_mark(text, 16777216))))
    except Wrong as wrong:
        return "".join(out), f"bad input at {wrong.at}\n", 9
    except BadImage as wrong:
        return "", f"bad image {wrong}\n", 10
    except BadRecord as wrong:
        return "".join(out) + f"refused {ledger.header['seq'] + 1} {wrong}\n", "", 3
    return "".join(out) + f"end {ledger.header['seq']} {ledger.hash.hex()}\n", "", 0
