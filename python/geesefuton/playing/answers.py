"""The server's answers in a sentence for a person: what was done, or why not and what to do."""

from __future__ import annotations

from typing import NamedTuple, Optional, Sequence, Tuple

from geesefuton.records.games import AUCTIONS, FLIGHTS, HOTELS
from geesefuton.records.replies import Below, Done, No, Own, Points, Reply, Request, Taken

MOST_PRICE = 10000  # dollars of a bid
MOST_DIGITS = 99999  # a number of a request has five digits at most


class Answer(NamedTuple):
    """What came of a bid or a withdrawal.

    Attributes:
        is_done: Whether it was admitted.
        text: What is said of it.
        fix: The units and the dollars that would be right; None if they are not known.
    """

    is_done: bool
    text: str
    fix: Optional[Tuple[int, int]] = None


def title_of(good: int) -> str:
    """What an auction is called in a sentence."""
    auction = AUCTIONS[good]
    return f"{auction.group}, {'day' if good in FLIGHTS else 'night'} {auction.day}"


def points_in_words(points: Sequence[Tuple[int, int]]) -> str:
    """Points such as `buy 2 at 70, sell 1 at 90`."""
    return ", ".join(f"{'buy' if units > 0 else 'sell'} {abs(units)} at {price}"
                     for units, price in points)


def asked_in_words(request: Request) -> str:
    """A bid or a withdrawal in a few words."""
    assert request.auction is not None
    what = "withdraw" if request.do == "withdraw" else points_in_words(request.points)
    return f"{title_of(request.auction)}: {what}"


def answer_of(request: Request, reply: Reply, own: Optional[Own]) -> Answer:
    """The answer to a bid or a withdrawal.

    Args:
        request: What was asked.
        reply: What the server answered.
        own: What the seat holds and what stands there after it, if that is known.
    """
    assert request.auction is not None
    if isinstance(reply, Taken):
        return Answer(True, _taken(request.auction, reply, own))
    if isinstance(reply, Done):
        return Answer(True, "Withdrawn: nothing of yours stands there now.")
    if isinstance(reply, No):
        fix = _fix(reply.below) if reply.below else None
        return Answer(False, _refusal(request, reply, own), fix)
    return Answer(False, "The server's answer does not fit this request.")


def _taken(good: int, reply: Taken, own: Optional[Own]) -> str:
    done = [f"{word} {units} at once" for word, units in (("bought", reply.bought),
                                                          ("sold", reply.sold)) if units]
    if own is not None and own.points:
        done.append(f"your bid stands: {points_in_words(own.points)}")
    if good in HOTELS:
        done.append("it is decided at the closing")
    text = "; ".join(done) or "it was admitted"
    return f"{text[0].upper()}{text[1:]}."


def _fix(below: Below) -> Optional[Tuple[int, int]]:
    return (below.need, below.price) if below.price <= MOST_PRICE else None


def _below(below: Below) -> str:
    if below.price > MOST_PRICE:
        return "The price is 10000 dollars already: no bid can beat it."
    units = "1 room" if below.need == 1 else f"{below.need} rooms"
    offered = "none" if not below.offered else f"only {below.offered}"
    why = f", since you would win {below.need} now" if below.need > 1 else ""
    return (f"Too low: a new bid has to offer {units} at {below.price} dollars or more{why}; yours "
            f"offers {offered} at that price.")


def _refusal(request: Request, reply: No, own: Optional[Own]) -> str:
    assert request.auction is not None
    if reply.below is not None:
        return _below(reply.below)
    if reply.reason == "bid":
        return FAULTS[reply.fault]
    if reply.reason == "selfcross":
        sells = [price for units, price in request.points if units < 0]
        return (f"You would buy from yourself: keep your buying prices below {min(sells)} dollars, "
                "at which you sell.")
    if reply.reason == "closed":
        return f"{title_of(request.auction)} is closed: you cannot bid or withdraw there any more."
    return REASONS.get(reply.reason, "The server could not read this; reload the page.")


FAULTS = {
    1: "Use whole numbers of at most five digits for units and prices.",
    2: "A bid can have at most 16 prices: use fewer.",
    3: "A bid can have at most 16 units, bought and sold together: use fewer.",
    4: "A price must be 1 to 10000 dollars.",
    5: "A bid must be for at least 1 unit.",
}
REASONS = {
    "wrongcall": "A hotel bid cannot be withdrawn: replace it with a higher one, or wait for the "
                 "closing.",
    "nobid": "You have no bid there: it was traded or withdrawn before.",
    "sell": "Only tickets can be sold: bid to buy here.",
    "spent": "This seat has used all of its 1024 calls there: it cannot bid there any more.",
}


def fault_of(points: Points) -> Optional[str]:
    """Why points cannot be written as a bid at all; None if they can."""
    if not points:
        return FAULTS[5]
    if any(abs(units) > MOST_DIGITS or not 0 <= price <= MOST_DIGITS for units, price in points):
        return FAULTS[1]
    return None
