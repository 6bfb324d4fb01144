"""Offers of the ledger in Python: their ranges, what they bind, and where. After CAP-0003 and OfferExchange of stellar-core."""

from entry_model import GREATEST, account_key, is_asset, issuer_of, line_rank


NORMAL, STRICT_SEND, STRICT_RECEIVE = range(3)


def table(price, wheat_send, wheat_receive, sheep_send, sheep_receive, rounding=NORMAL):
    """The wheat and the sheep that a trade moves before its zero rules, and whether wheat stays (exchangeV10WithoutPriceErrorThresholds)."""
    n, d = price["n"], price["d"]
    worth, paid = min(wheat_send * n, sheep_receive * d), min(sheep_send * d, wheat_receive * n)
    if worth > paid:
        if rounding == STRICT_SEND:
            return paid // n, min(sheep_send, sheep_receive), True
        if n > d or rounding == STRICT_RECEIVE:
            wheat = paid // n
            return wheat, -(-wheat * n // d), True
        sheep = paid // d
        return sheep * d // n, sheep, True
    if n > d:
        wheat = worth // n
        return wheat, wheat * n // d, False
    sheep = worth // d
    return -(-sheep * d // n), sheep, False


def exchange(price, *bounds, rounding=NORMAL):
    """The same with the zero rules (exchangeV10)."""
    wheat, sheep, stays = table(price, *bounds, rounding)
    worth, paid = wheat * price["n"], sheep * price["d"]
    is_nothing = not sheep or not wheat and rounding != STRICT_SEND
    is_dear = 100 * abs(worth - paid) > worth if rounding == NORMAL else 100 * worth - 100 * paid > worth
    return (0, 0, stays) if is_nothing or is_dear else (wheat, sheep, stays)


def adjusted(price, send, receive):
    """What an offer can really sell, of which it can send and take so much (adjustOffer)."""
    return exchange(price, send, GREATEST, GREATEST, receive)[0]


def bound(offer):
    """What an offer may have to give and what it may take in."""
    return table(offer["price"], offer["amount"], GREATEST, GREATEST, GREATEST)[:2]


def is_offer_in_range(offer, ids):
    """Whether an offer is in range by itself, where so many ids were drawn."""
    price = offer["price"]
    if min(offer["amount"], price["n"], price["d"], offer["offer"]) < 1 or offer["offer"] > ids or offer["flags"] > 1:
        return False
    is_trade = is_asset(offer["selling"]) and is_asset(offer["buying"]) and offer["selling"] != offer["buying"]
    return is_trade and min(bound(offer)) >= 1


def holder(name, asset):
    """The rank of what an account has an asset in; nothing for its own asset."""
    if asset[0] == 0:
        return account_key(name)
    return None if issuer_of(asset) == name else line_rank(name, asset)


def holders(offer):
    """Where an offer's seller has what it sells, and where it will have what it buys."""
    name = offer["seller"][1]
    return holder(name, offer["selling"]), holder(name, offer["buying"])
