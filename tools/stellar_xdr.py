"""The types of protocols 18 and 19 (docs/FORMATS.md; CAP-0021 and CAP-0040) as a table, by the names of Stellar's own
XDR files. What protocol 18 writes is read and written as it was.

`read(TYPES["LedgerEntry"], data, offset)` answers a value and the offset after it, `write(TYPES["LedgerEntry"], value)`
its bytes; the module xdr says what values are and which faults come. Amounts are in units of 10^-7, fees and reserves
in stroops, which are units of 10^-7 lumens, times in seconds since 1970. Unproved.
"""

from __future__ import annotations

from typing import Dict, Optional, Tuple

from xdr import (  # noqa: F401  (some names are for those who use this codec)
    I32, I64, U32, U64, Array, Choice, Code, Fixed, Formed, Items, Number, Opaque, Option, Refused, Struct, Text, Type,
    XdrFault, read, read_entire, write,
)

PREDICATE_LEVELS = 32
MOST_VOUCHES = 20000

# ---- basic values

HASH = Fixed(32)
# the bare key of an account
ED25519 = Fixed(32)
# the extension that has nothing yet
NO_EXT = Choice("v", {0: (0,)})
ACCOUNT_ID = Choice("type", {0: ("PUBLIC_KEY_TYPE_ED25519", "ed25519", ED25519)})
MUXED_ACCOUNT = Choice("type", {
    0: ("KEY_TYPE_ED25519", "ed25519", ED25519),
    256: ("KEY_TYPE_MUXED_ED25519", "med25519", Struct(id=U64, ed25519=ED25519)),
})
SIGNED_PAYLOAD = Struct(ed25519=ED25519, payload=Opaque(64))
SIGNER_KEY = Choice("type", {
    0: ("SIGNER_KEY_TYPE_ED25519", "ed25519", ED25519),
    1: ("SIGNER_KEY_TYPE_PRE_AUTH_TX", "preAuthTx", HASH),
    2: ("SIGNER_KEY_TYPE_HASH_X", "hashX", HASH),
    3: ("SIGNER_KEY_TYPE_ED25519_SIGNED_PAYLOAD", "ed25519SignedPayload", SIGNED_PAYLOAD),
})
SIGNER = Struct(key=SIGNER_KEY, weight=U32)
CREDITS = {
    1: ("ASSET_TYPE_CREDIT_ALPHANUM4", "alphaNum4", Struct(assetCode=Code(4), issuer=ACCOUNT_ID)),
    2: ("ASSET_TYPE_CREDIT_ALPHANUM12", "alphaNum12", Struct(assetCode=Code(12), issuer=ACCOUNT_ID)),
}
ASSET = Choice("type", {0: ("ASSET_TYPE_NATIVE",), **CREDITS})
TRUST_LINE_ASSET = Choice("type", {**ASSET.arms, 3: ("ASSET_TYPE_POOL_SHARE", "liquidityPoolID", HASH)})
POOL_TERMS = Struct(assetA=ASSET, assetB=ASSET, fee=I32)
POOL_PARAMETERS = Choice("type", {0: ("LIQUIDITY_POOL_CONSTANT_PRODUCT", "constantProduct", POOL_TERMS)})
CHANGE_TRUST_ASSET = Choice("type", {**ASSET.arms, 3: ("ASSET_TYPE_POOL_SHARE", "liquidityPool", POOL_PARAMETERS)})
PRICE = Struct(n=I32, d=I32)
LIABILITIES = Struct(buying=I64, selling=I64)
BALANCE_ID = Choice("type", {0: ("CLAIMABLE_BALANCE_ID_TYPE_V0", "v0", HASH)})


def claim_predicate(levels: int) -> Type:
    """A predicate of at most so many levels."""
    if levels == 0:
        return Refused("TooDeep")
    below = claim_predicate(levels - 1)
    return Choice("type", {
        0: ("CLAIM_PREDICATE_UNCONDITIONAL",),
        1: ("CLAIM_PREDICATE_AND", "andPredicates", Items(below, 2)),
        2: ("CLAIM_PREDICATE_OR", "orPredicates", Items(below, 2)),
        3: ("CLAIM_PREDICATE_NOT", "notPredicate", Option(below)),
        4: ("CLAIM_PREDICATE_BEFORE_ABSOLUTE_TIME", "absBefore", I64),
        5: ("CLAIM_PREDICATE_BEFORE_RELATIVE_TIME", "relBefore", I64),
    })


CLAIM_PREDICATE = claim_predicate(PREDICATE_LEVELS)
CLAIMANT = Choice("type", {0: ("CLAIMANT_TYPE_V0", "v0", Struct(destination=ACCOUNT_ID, predicate=CLAIM_PREDICATE))})

# ---- ledger entries

# the ledger that a sequence number was used in last, and the close time of that
ACCOUNT_EXT_3 = Struct(ext=NO_EXT, seqLedger=U32, seqTime=U64)
ACCOUNT_EXT_2 = Struct(
    numSponsored=U32, numSponsoring=U32, signerSponsoringIDs=Items(Option(ACCOUNT_ID), 20),
    ext=Choice("v", {0: (0,), 3: (3, "v3", ACCOUNT_EXT_3)}),
)
ACCOUNT_EXT_1 = Struct(liabilities=LIABILITIES, ext=Choice("v", {0: (0,), 2: (2, "v2", ACCOUNT_EXT_2)}))
ACCOUNT = Struct(
    accountID=ACCOUNT_ID, balance=I64, seqNum=I64, numSubEntries=U32, inflationDest=Option(ACCOUNT_ID), flags=U32,
    homeDomain=Text(32), thresholds=Fixed(4), signers=Items(SIGNER, 20),
    ext=Choice("v", {0: (0,), 1: (1, "v1", ACCOUNT_EXT_1)}),
)
TRUST_LINE_EXT_2 = Struct(liquidityPoolUseCount=I32, ext=NO_EXT)
TRUST_LINE_EXT_1 = Struct(liabilities=LIABILITIES, ext=Choice("v", {0: (0,), 2: (2, "v2", TRUST_LINE_EXT_2)}))
TRUST_LINE = Struct(
    accountID=ACCOUNT_ID, asset=TRUST_LINE_ASSET, balance=I64, limit=I64, flags=U32,
    ext=Choice("v", {0: (0,), 1: (1, "v1", TRUST_LINE_EXT_1)}),
)
OFFER = Struct(
    sellerID=ACCOUNT_ID, offerID=I64, selling=ASSET, buying=ASSET, amount=I64, price=PRICE, flags=U32, ext=NO_EXT,
)
DATA = Struct(accountID=ACCOUNT_ID, dataName=Text(64), dataValue=Opaque(64), ext=NO_EXT)
CLAIMABLE_BALANCE = Struct(
    balanceID=BALANCE_ID, claimants=Items(CLAIMANT, 10), asset=ASSET, amount=I64,
    ext=Choice("v", {0: (0,), 1: (1, "v1", Struct(ext=NO_EXT, flags=U32))}),
)
CONSTANT_PRODUCT = Struct(
    params=POOL_TERMS, reserveA=I64, reserveB=I64, totalPoolShares=I64, poolSharesTrustLineCount=I64,
)
LIQUIDITY_POOL = Struct(
    liquidityPoolID=HASH,
    body=Choice("type", {0: ("LIQUIDITY_POOL_CONSTANT_PRODUCT", "constantProduct", CONSTANT_PRODUCT)}),
)
# the types of entries in the order of their keys
ENTRY_TYPES = ("ACCOUNT", "TRUSTLINE", "OFFER", "DATA", "CLAIMABLE_BALANCE", "LIQUIDITY_POOL")
ENTRY_FIELDS = ("account", "trustLine", "offer", "data", "claimableBalance", "liquidityPool")
ENTRY_BODIES = (ACCOUNT, TRUST_LINE, OFFER, DATA, CLAIMABLE_BALANCE, LIQUIDITY_POOL)
SPONSORSHIP = Struct(sponsoringID=Option(ACCOUNT_ID), ext=NO_EXT)
LEDGER_ENTRY = Struct(
    lastModifiedLedgerSeq=U32,
    data=Choice("type", dict(enumerate(zip(ENTRY_TYPES, ENTRY_FIELDS, ENTRY_BODIES)))),
    ext=Choice("v", {0: (0,), 1: (1, "v1", SPONSORSHIP)}),
)
KEY_BODIES = (
    Struct(accountID=ACCOUNT_ID), Struct(accountID=ACCOUNT_ID, asset=TRUST_LINE_ASSET),
    Struct(sellerID=ACCOUNT_ID, offerID=I64), Struct(accountID=ACCOUNT_ID, dataName=Text(64)),
    Struct(balanceID=BALANCE_ID), Struct(liquidityPoolID=HASH),
)
LEDGER_KEY = Choice("type", dict(enumerate(zip(ENTRY_TYPES, ENTRY_FIELDS, KEY_BODIES))))
BUCKET_ENTRY = Choice("type", {
    -1: ("METAENTRY", "metaEntry", Struct(ledgerVersion=U32, ext=NO_EXT)),
    0: ("LIVEENTRY", "liveEntry", LEDGER_ENTRY),
    1: ("DEADENTRY", "deadEntry", LEDGER_KEY),
    2: ("INITENTRY", "liveEntry", LEDGER_ENTRY),
})

# ---- operations

PATH = Items(ASSET, 5)
SELL_OFFER = dict(selling=ASSET, buying=ASSET, amount=I64, price=PRICE)
ASSET_CODE = Choice("type", {
    1: ("ASSET_TYPE_CREDIT_ALPHANUM4", "assetCode4", Code(4)),
    2: ("ASSET_TYPE_CREDIT_ALPHANUM12", "assetCode12", Code(12)),
})
SET_OPTIONS = Struct(
    inflationDest=Option(ACCOUNT_ID), clearFlags=Option(U32), setFlags=Option(U32), masterWeight=Option(U32),
    lowThreshold=Option(U32), medThreshold=Option(U32), highThreshold=Option(U32), homeDomain=Option(Text(32)),
    signer=Option(SIGNER),
)
REVOKE_SPONSORSHIP = Choice("type", {
    0: ("REVOKE_SPONSORSHIP_LEDGER_ENTRY", "ledgerKey", LEDGER_KEY),
    1: ("REVOKE_SPONSORSHIP_SIGNER", "signer", Struct(accountID=ACCOUNT_ID, signerKey=SIGNER_KEY)),
})
# Stellar's names of the types, the field of each where it has one, and its type
OPERATIONS: Tuple[Tuple[str, Optional[str], Optional[Type]], ...] = (
    ("CREATE_ACCOUNT", "createAccountOp", Struct(destination=ACCOUNT_ID, startingBalance=I64)),
    ("PAYMENT", "paymentOp", Struct(destination=MUXED_ACCOUNT, asset=ASSET, amount=I64)),
    ("PATH_PAYMENT_STRICT_RECEIVE", "pathPaymentStrictReceiveOp", Struct(
        sendAsset=ASSET, sendMax=I64, destination=MUXED_ACCOUNT, destAsset=ASSET, destAmount=I64, path=PATH)),
    ("MANAGE_SELL_OFFER", "manageSellOfferOp", Struct(**SELL_OFFER, offerID=I64)),
    ("CREATE_PASSIVE_SELL_OFFER", "createPassiveSellOfferOp", Struct(**SELL_OFFER)),
    ("SET_OPTIONS", "setOptionsOp", SET_OPTIONS),
    ("CHANGE_TRUST", "changeTrustOp", Struct(line=CHANGE_TRUST_ASSET, limit=I64)),
    ("ALLOW_TRUST", "allowTrustOp", Struct(trustor=ACCOUNT_ID, asset=ASSET_CODE, authorize=U32)),
    ("ACCOUNT_MERGE", "destination", MUXED_ACCOUNT),
    ("INFLATION", None, None),
    ("MANAGE_DATA", "manageDataOp", Struct(dataName=Text(64), dataValue=Option(Opaque(64)))),
    ("BUMP_SEQUENCE", "bumpSequenceOp", Struct(bumpTo=I64)),
    ("MANAGE_BUY_OFFER", "manageBuyOfferOp", Struct(
        selling=ASSET, buying=ASSET, buyAmount=I64, price=PRICE, offerID=I64)),
    ("PATH_PAYMENT_STRICT_SEND", "pathPaymentStrictSendOp", Struct(
        sendAsset=ASSET, sendAmount=I64, destination=MUXED_ACCOUNT, destAsset=ASSET, destMin=I64, path=PATH)),
    ("CREATE_CLAIMABLE_BALANCE", "createClaimableBalanceOp", Struct(
        asset=ASSET, amount=I64, claimants=Items(CLAIMANT, 10))),
    ("CLAIM_CLAIMABLE_BALANCE", "claimClaimableBalanceOp", Struct(balanceID=BALANCE_ID)),
    ("BEGIN_SPONSORING_FUTURE_RESERVES", "beginSponsoringFutureReservesOp", Struct(sponsoredID=ACCOUNT_ID)),
    ("END_SPONSORING_FUTURE_RESERVES", None, None),
    ("REVOKE_SPONSORSHIP", "revokeSponsorshipOp", REVOKE_SPONSORSHIP),
    # a name of Python's is a field's name here
    ("CLAWBACK", "clawbackOp", Struct(**{"asset": ASSET, "from": MUXED_ACCOUNT, "amount": I64})),
    ("CLAWBACK_CLAIMABLE_BALANCE", "clawbackClaimableBalanceOp", Struct(balanceID=BALANCE_ID)),
    ("SET_TRUST_LINE_FLAGS", "setTrustLineFlagsOp", Struct(
        trustor=ACCOUNT_ID, asset=ASSET, clearFlags=U32, setFlags=U32)),
    ("LIQUIDITY_POOL_DEPOSIT", "liquidityPoolDepositOp", Struct(
        liquidityPoolID=HASH, maxAmountA=I64, maxAmountB=I64, minPrice=PRICE, maxPrice=PRICE)),
    ("LIQUIDITY_POOL_WITHDRAW", "liquidityPoolWithdrawOp", Struct(
        liquidityPoolID=HASH, amount=I64, minAmountA=I64, minAmountB=I64)),
)
OPERATION = Struct(sourceAccount=Option(MUXED_ACCOUNT), body=Choice("type", dict(enumerate(OPERATIONS))))

# ---- transactions

MEMO = Choice("type", {
    0: ("MEMO_NONE",), 1: ("MEMO_TEXT", "text", Text(28)), 2: ("MEMO_ID", "id", U64), 3: ("MEMO_HASH", "hash", HASH),
    4: ("MEMO_RETURN", "retHash", HASH),
})
SIGNATURES = Items(Struct(hint=Fixed(4), signature=Opaque(64)), 20)
TIME_BOUNDS = Struct(minTime=U64, maxTime=U64)
PRECONDITIONS_V2 = Struct(
    timeBounds=Option(TIME_BOUNDS), ledgerBounds=Option(Struct(minLedger=U32, maxLedger=U32)), minSeqNum=Option(I64),
    minSeqAge=U64, minSeqLedgerGap=U32, extraSigners=Items(SIGNER_KEY, 2),
)
# the first two have the bytes of an option of time bounds
PRECONDITIONS = Choice("type", {
    0: ("PRECOND_NONE",), 1: ("PRECOND_TIME", "timeBounds", TIME_BOUNDS), 2: ("PRECOND_V2", "v2", PRECONDITIONS_V2),
})
BEFORE_BOUNDS, AFTER_BOUNDS = dict(fee=U32, seqNum=I64), dict(memo=MEMO, operations=Items(OPERATION, 100), ext=NO_EXT)
TRANSACTION_V0 = Struct(
    sourceAccountEd25519=ED25519, **BEFORE_BOUNDS, timeBounds=Option(TIME_BOUNDS), **AFTER_BOUNDS,
)
TRANSACTION = Struct(sourceAccount=MUXED_ACCOUNT, **BEFORE_BOUNDS, cond=PRECONDITIONS, **AFTER_BOUNDS)
TRANSACTION_V1_ENVELOPE = Struct(tx=TRANSACTION, signatures=SIGNATURES)
FEE_BUMP_TRANSACTION = Struct(
    feeSource=MUXED_ACCOUNT, fee=I64,
    innerTx=Choice("type", {2: ("ENVELOPE_TYPE_TX", "v1", TRANSACTION_V1_ENVELOPE)}), ext=NO_EXT,
)
TRANSACTION_ENVELOPE = Choice("type", {
    0: ("ENVELOPE_TYPE_TX_V0", "v0", Struct(tx=TRANSACTION_V0, signatures=SIGNATURES)),
    2: ("ENVELOPE_TYPE_TX", "v1", TRANSACTION_V1_ENVELOPE),
    5: ("ENVELOPE_TYPE_TX_FEE_BUMP", "feeBump", Struct(tx=FEE_BUMP_TRANSACTION, signatures=SIGNATURES)),
})
TRANSACTION_SET = Struct(previousLedgerHash=HASH, txs=Items(TRANSACTION_ENVELOPE))

# ---- results

TRADE = dict(assetSold=ASSET, amountSold=I64, assetBought=ASSET, amountBought=I64)
CLAIM_ATOM = Choice("type", {
    0: ("CLAIM_ATOM_TYPE_V0", "v0", Struct(sellerEd25519=ED25519, offerID=I64, **TRADE)),
    1: ("CLAIM_ATOM_TYPE_ORDER_BOOK", "orderBook", Struct(sellerID=ACCOUNT_ID, offerID=I64, **TRADE)),
    2: ("CLAIM_ATOM_TYPE_LIQUIDITY_POOL", "liquidityPool", Struct(liquidityPoolID=HASH, **TRADE)),
})
PATH_PAID = Struct(offers=Items(CLAIM_ATOM), last=Struct(destination=ACCOUNT_ID, asset=ASSET, amount=I64))
OFFER_MANAGED = Struct(offersClaimed=Items(CLAIM_ATOM), offer=Choice("effect", {
    0: ("MANAGE_OFFER_CREATED", "offer", OFFER), 1: ("MANAGE_OFFER_UPDATED", "offer", OFFER),
    2: ("MANAGE_OFFER_DELETED",),
}))
PAYOUTS = Items(Struct(destination=ACCOUNT_ID, amount=I64))
# what follows a code of an operation's type, by the code's name
PAYLOADS: Dict[str, Tuple[str, Type]] = {
    "PATH_PAYMENT_STRICT_RECEIVE_SUCCESS": ("success", PATH_PAID),
    "PATH_PAYMENT_STRICT_RECEIVE_NO_ISSUER": ("noIssuer", ASSET),
    "PATH_PAYMENT_STRICT_SEND_SUCCESS": ("success", PATH_PAID),
    "PATH_PAYMENT_STRICT_SEND_NO_ISSUER": ("noIssuer", ASSET),
    "MANAGE_SELL_OFFER_SUCCESS": ("success", OFFER_MANAGED),
    "MANAGE_BUY_OFFER_SUCCESS": ("success", OFFER_MANAGED),
    "ACCOUNT_MERGE_SUCCESS": ("sourceAccountBalance", I64),
    "INFLATION_SUCCESS": ("payouts", PAYOUTS),
    "CREATE_CLAIMABLE_BALANCE_SUCCESS": ("balanceID", BALANCE_ID),
}


def result_of(prefix: str, failures: str) -> Choice:
    """The result of a type of operations: SUCCESS is 0, and its failures are -1, -2 and so on, in their order."""
    names = [f"{prefix}_{name}" for name in ["SUCCESS", *failures.split()]]
    return Choice("code", {-index: (name, *PAYLOADS.get(name, ())) for index, name in enumerate(names)})


TO_DESTINATION = (
    "MALFORMED UNDERFUNDED SRC_NO_TRUST SRC_NOT_AUTHORIZED NO_DESTINATION NO_TRUST NOT_AUTHORIZED LINE_FULL NO_ISSUER"
)
OFFER_FAILURES = (
    "MALFORMED SELL_NO_TRUST BUY_NO_TRUST SELL_NOT_AUTHORIZED BUY_NOT_AUTHORIZED LINE_FULL UNDERFUNDED CROSS_SELF"
    " SELL_NO_ISSUER BUY_NO_ISSUER NOT_FOUND LOW_RESERVE"
)
SET_OPTIONS_FAILURES = (
    "LOW_RESERVE TOO_MANY_SIGNERS BAD_FLAGS INVALID_INFLATION CANT_CHANGE UNKNOWN_FLAG THRESHOLD_OUT_OF_RANGE"
    " BAD_SIGNER INVALID_HOME_DOMAIN AUTH_REVOCABLE_REQUIRED"
)
CHANGE_TRUST_FAILURES = (
    "MALFORMED NO_ISSUER INVALID_LIMIT LOW_RESERVE SELF_NOT_ALLOWED TRUST_LINE_MISSING CANNOT_DELETE"
    " NOT_AUTH_MAINTAIN_LIABILITIES"
)
MERGE_FAILURES = "MALFORMED NO_ACCOUNT IMMUTABLE_SET HAS_SUB_ENTRIES SEQNUM_TOO_FAR DEST_FULL IS_SPONSOR"
DEPOSIT_FAILURES = "MALFORMED NO_TRUST NOT_AUTHORIZED UNDERFUNDED LINE_FULL BAD_PRICE POOL_FULL"
# the results in the order of the types of operations: the field of each, the prefix of its codes, and its failures
RESULTS = (
    ("createAccountResult", "CREATE_ACCOUNT", "MALFORMED UNDERFUNDED LOW_RESERVE ALREADY_EXIST"),
    ("paymentResult", "PAYMENT", TO_DESTINATION),
    ("pathPaymentStrictReceiveResult", "PATH_PAYMENT_STRICT_RECEIVE",
     f"{TO_DESTINATION} TOO_FEW_OFFERS OFFER_CROSS_SELF OVER_SENDMAX"),
    ("manageSellOfferResult", "MANAGE_SELL_OFFER", OFFER_FAILURES),
    ("createPassiveSellOfferResult", "MANAGE_SELL_OFFER", OFFER_FAILURES),
    ("setOptionsResult", "SET_OPTIONS", SET_OPTIONS_FAILURES),
    ("changeTrustResult", "CHANGE_TRUST", CHANGE_TRUST_FAILURES),
    ("allowTrustResult", "ALLOW_TRUST",
     "MALFORMED NO_TRUST_LINE TRUST_NOT_REQUIRED CANT_REVOKE SELF_NOT_ALLOWED LOW_RESERVE"),
    ("accountMergeResult", "ACCOUNT_MERGE", MERGE_FAILURES),
    ("inflationResult", "INFLATION", "NOT_TIME"),
    ("manageDataResult", "MANAGE_DATA", "NOT_SUPPORTED_YET NAME_NOT_FOUND LOW_RESERVE INVALID_NAME"),
    ("bumpSeqResult", "BUMP_SEQUENCE", "BAD_SEQ"),
    ("manageBuyOfferResult", "MANAGE_BUY_OFFER", OFFER_FAILURES),
    ("pathPaymentStrictSendResult", "PATH_PAYMENT_STRICT_SEND",
     f"{TO_DESTINATION} TOO_FEW_OFFERS OFFER_CROSS_SELF UNDER_DESTMIN"),
    ("createClaimableBalanceResult", "CREATE_CLAIMABLE_BALANCE",
     "MALFORMED LOW_RESERVE NO_TRUST NOT_AUTHORIZED UNDERFUNDED"),
    ("claimClaimableBalanceResult", "CLAIM_CLAIMABLE_BALANCE",
     "DOES_NOT_EXIST CANNOT_CLAIM LINE_FULL NO_TRUST NOT_AUTHORIZED"),
    ("beginSponsoringFutureReservesResult", "BEGIN_SPONSORING_FUTURE_RESERVES",
     "MALFORMED ALREADY_SPONSORED RECURSIVE"),
    ("endSponsoringFutureReservesResult", "END_SPONSORING_FUTURE_RESERVES", "NOT_SPONSORED"),
    ("revokeSponsorshipResult", "REVOKE_SPONSORSHIP",
     "DOES_NOT_EXIST NOT_SPONSOR LOW_RESERVE ONLY_TRANSFERABLE MALFORMED"),
    ("clawbackResult", "CLAWBACK", "MALFORMED NOT_CLAWBACK_ENABLED NO_TRUST UNDERFUNDED"),
    ("clawbackClaimableBalanceResult", "CLAWBACK_CLAIMABLE_BALANCE", "DOES_NOT_EXIST NOT_ISSUER NOT_CLAWBACK_ENABLED"),
    ("setTrustLineFlagsResult", "SET_TRUST_LINE_FLAGS",
     "MALFORMED NO_TRUST_LINE CANT_REVOKE INVALID_STATE LOW_RESERVE"),
    ("liquidityPoolDepositResult", "LIQUIDITY_POOL_DEPOSIT", DEPOSIT_FAILURES),
    ("liquidityPoolWithdrawResult", "LIQUIDITY_POOL_WITHDRAW",
     "MALFORMED NO_TRUST UNDERFUNDED LINE_FULL UNDER_MINIMUM"),
)
OPERATION_RAN = Choice("type", {
    number: (operation[0], field, result_of(prefix, failures))
    for number, (operation, (field, prefix, failures)) in enumerate(zip(OPERATIONS, RESULTS))
})
OPERATION_RESULT = Choice("code", {
    0: ("opINNER", "tr", OPERATION_RAN),
    -1: ("opBAD_AUTH",), -2: ("opNO_ACCOUNT",), -3: ("opNOT_SUPPORTED",), -4: ("opTOO_MANY_SUBENTRIES",),
    -5: ("opEXCEEDED_WORK_LIMIT",), -6: ("opTOO_MANY_SPONSORING",),
})
RAN = ("results", Items(OPERATION_RESULT))
NO_RUN = {
    number: (f"tx{name}",) for number, name in [
        (1, "FEE_BUMP_INNER_SUCCESS"), (-2, "TOO_EARLY"), (-3, "TOO_LATE"), (-4, "MISSING_OPERATION"), (-5, "BAD_SEQ"),
        (-6, "BAD_AUTH"), (-7, "INSUFFICIENT_BALANCE"), (-8, "NO_ACCOUNT"), (-9, "INSUFFICIENT_FEE"),
        (-10, "BAD_AUTH_EXTRA"), (-11, "INTERNAL_ERROR"), (-12, "NOT_SUPPORTED"), (-13, "FEE_BUMP_INNER_FAILED"),
        (-14, "BAD_SPONSORSHIP"), (-15, "BAD_MIN_SEQ_AGE_OR_GAP"), (-16, "MALFORMED"),
    ]
}
INNER_ENDS = {0: ("txSUCCESS", *RAN), -1: ("txFAILED", *RAN), **NO_RUN}
INNER_RESULT = Struct(feeCharged=I64, result=Choice("code", INNER_ENDS), ext=NO_EXT)
INNER_RESULT_PAIR = Struct(transactionHash=HASH, result=INNER_RESULT)
ENDS = {
    **INNER_ENDS,
    1: ("txFEE_BUMP_INNER_SUCCESS", "innerResultPair", INNER_RESULT_PAIR),
    -13: ("txFEE_BUMP_INNER_FAILED", "innerResultPair", INNER_RESULT_PAIR),
}
TRANSACTION_RESULT = Struct(feeCharged=I64, result=Choice("code", ENDS), ext=NO_EXT)
TRANSACTION_RESULT_SET = Struct(results=Items(Struct(transactionHash=HASH, result=TRANSACTION_RESULT)))

# ---- headers and records

STELLAR_VALUE = Struct(
    txSetHash=HASH, closeTime=U64, upgrades=Items(Opaque(128), 6), ext=Choice("v", {
        0: ("STELLAR_VALUE_BASIC",),
        1: ("STELLAR_VALUE_SIGNED", "lcValueSignature", Struct(nodeID=ACCOUNT_ID, signature=Opaque(64))),
    }),
)
LEDGER_UPGRADE = Choice("type", {
    1: ("LEDGER_UPGRADE_VERSION", "newLedgerVersion", U32),
    2: ("LEDGER_UPGRADE_BASE_FEE", "newBaseFee", U32),
    3: ("LEDGER_UPGRADE_MAX_TX_SET_SIZE", "newMaxTxSetSize", U32),
    4: ("LEDGER_UPGRADE_BASE_RESERVE", "newBaseReserve", U32),
    5: ("LEDGER_UPGRADE_FLAGS", "newFlags", U32),
})
LEDGER_HEADER = Struct(
    ledgerVersion=U32, previousLedgerHash=HASH, scpValue=STELLAR_VALUE, txSetResultHash=HASH, bucketListHash=HASH,
    ledgerSeq=U32, totalCoins=I64, feePool=I64, inflationSeq=U32, idPool=U64, baseFee=U32, baseReserve=U32,
    maxTxSetSize=U32, skipList=Array(HASH, 4), ext=Choice("v", {0: (0,), 1: (1, "v1", Struct(flags=U32, ext=NO_EXT))}),
)
# an Ed25519 signature that somebody outside says to be that of a key over the hash of a transaction, or over a payload
VOUCH = Choice("type", {
    0: ("SIGNER_KEY_TYPE_ED25519", "ofHash", Struct(ed25519=ED25519, hash=HASH, signature=Opaque(64))),
    3: ("SIGNER_KEY_TYPE_ED25519_SIGNED_PAYLOAD", "ofPayload", Struct(
        ed25519=ED25519, payload=Opaque(64), signature=Opaque(64))),
})
CLOSE = dict(ledgerSeq=U32, txSet=TRANSACTION_SET, scpValue=STELLAR_VALUE)
CLOSE_RECORD = Struct(**CLOSE)
VOUCHED_RECORD = Struct(**CLOSE, vouches=Items(VOUCH, MOST_VOUCHES))
# the word before a record of form 2; a record of form 1 begins with the number of its ledger
VOUCHED_FORM = 0x80000002
RECORD = Formed(VOUCHED_FORM, CLOSE_RECORD, VOUCHED_RECORD)

# ---- the files of history archives

LEDGER_HEADER_HISTORY_ENTRY = Struct(hash=HASH, header=LEDGER_HEADER, ext=NO_EXT)
TRANSACTION_HISTORY_ENTRY = Struct(ledgerSeq=U32, txSet=TRANSACTION_SET, ext=NO_EXT)
TRANSACTION_HISTORY_RESULT_ENTRY = Struct(ledgerSeq=U32, txResultSet=TRANSACTION_RESULT_SET, ext=NO_EXT)

# the types that have a name in docs/FORMATS.md or in Stellar's files
TYPES: Dict[str, Type] = {
    "AccountID": ACCOUNT_ID, "Asset": ASSET, "AssetCode": ASSET_CODE, "BucketEntry": BUCKET_ENTRY,
    "ChangeTrustAsset": CHANGE_TRUST_ASSET, "ClaimAtom": CLAIM_ATOM, "ClaimPredicate": CLAIM_PREDICATE,
    "ClaimableBalanceID": BALANCE_ID, "Claimant": CLAIMANT, "CloseRecord": RECORD,
    "FeeBumpTransaction": FEE_BUMP_TRANSACTION, "LedgerEntry": LEDGER_ENTRY, "LedgerHeader": LEDGER_HEADER,
    "LedgerKey": LEDGER_KEY, "LedgerUpgrade": LEDGER_UPGRADE, "Liabilities": LIABILITIES,
    "LiquidityPoolParameters": POOL_PARAMETERS, "Memo": MEMO, "MuxedAccount": MUXED_ACCOUNT, "Operation": OPERATION,
    "OperationResult": OPERATION_RESULT, "Price": PRICE, "Signer": SIGNER, "SignerKey": SIGNER_KEY,
    "StellarValue": STELLAR_VALUE, "Transaction": TRANSACTION, "TransactionEnvelope": TRANSACTION_ENVELOPE,
    "TransactionResult": TRANSACTION_RESULT, "TransactionResultSet": TRANSACTION_RESULT_SET,
    "TransactionSet": TRANSACTION_SET, "TransactionV0": TRANSACTION_V0, "TrustLineAsset": TRUST_LINE_ASSET,
    "LedgerHeaderHistoryEntry": LEDGER_HEADER_HISTORY_ENTRY, "Preconditions": PRECONDITIONS,
    "TransactionHistoryEntry": TRANSACTION_HISTORY_ENTRY, "Vouch": VOUCH,
    "TransactionHistoryResultEntry": TRANSACTION_HISTORY_RESULT_ENTRY,
}
