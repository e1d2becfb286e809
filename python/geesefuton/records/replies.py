"""Requests and replies as values, and their two forms on a link: lines of words, and JSON.

A reply on a link has the position of its entry. In a log the position is the entry's place, so the
lines do not have it.
"""

import json
import re
from dataclasses import dataclass
from typing import Any, Callable, Dict, Optional, Sequence, Tuple, Union

Points = Tuple[Tuple[int, int], ...]  # units, below 0 for selling, and dollars for each

NUMBER = r"(?:0|[1-9][0-9]{0,9})"
SIGNED = r"(?:0|-?[1-9][0-9]{0,17})"
POINTS = rf"\((?:\({SIGNED} {NUMBER}\)(?: \({SIGNED} {NUMBER}\))*)?\)"

CLOSING_REASONS = ("closed", "wrongcall", "nobid", "sell", "selfcross")  # have an entry
LINE_REASONS = ("spent", "syntax", "auction", "memory", "toolong")  # have none


class ReplyError(Exception):
    """A line that is no reply, or an object that is none."""


@dataclass(frozen=True)
class Taken:
    """A bid was admitted, and at once bought and sold so many units."""

    at: Optional[int]
    bought: int
    sold: int


@dataclass(frozen=True)
class Done:
    """A withdrawal was admitted, or a call of the clock."""

    at: Optional[int]


@dataclass(frozen=True)
class Sold:
    """A hotel has closed: units sold, at so many dollars each."""

    at: Optional[int]
    units: int
    price: int


@dataclass(frozen=True)
class Own:
    """What the agent holds of a good, and its standing points."""

    at: Optional[int]
    holding: int
    points: Points


@dataclass(frozen=True)
class Cash:
    """What the agent earned so far less what it paid, in dollars."""

    at: Optional[int]
    dollars: int


@dataclass(frozen=True)
class Quote:
    """A board: how many entries it shows, the highest bid, the lowest ask or the price in dollars,
    and whether the auction is closed."""

    count: int
    bid: int
    ask: int
    closed: bool


@dataclass(frozen=True)
class Below:
    """What a refused bid in a hotel has to offer: NEED units at PRICE dollars or more."""

    need: int
    price: int
    offered: int


@dataclass(frozen=True)
class No:
    """A refusal."""

    at: Optional[int]  # the position of its entry; None if there is none
    reason: str  # one word, such as `closed`, `belowquote`, `bid` or `syntax`
    fault: int = 0  # the fault of a bid's points, 1 to 5; 0 for other reasons
    below: Optional[Below] = None  # for `belowquote` what was due


@dataclass(frozen=True)
class Bye:
    """The session has ended."""


Reply = Union[Taken, Done, Sold, Own, Cash, Quote, No, Bye]


@dataclass(frozen=True)
class Request:
    """What an agent asks: `bid`, `withdraw`, `own`, `quote`, `cash` or `quit`."""

    do: str
    auction: Optional[int] = None
    points: Points = ()


def text_of_points(points: Sequence[Tuple[int, int]]) -> str:
    """Points as a bid string, such as `((2 70) (1 65))`."""
    return "(" + " ".join(f"({units} {price})" for units, price in points) + ")"


def read_points(text: str) -> Points:
    """The points of a text that the pattern POINTS matches."""
    numbers = [int(word) for word in re.findall(r"-?[0-9]+", text)]
    return tuple(zip(numbers[::2], numbers[1::2]))


# The forms of a reply without its position. The names of the groups say what is read from them.
_FORMS = re.compile(
    rf"taken (?P<bought>{NUMBER}) (?P<sells>{NUMBER})|(?P<done>done)"
    rf"|sold (?P<sold>{NUMBER}) (?P<price>{NUMBER})"
    rf"|own (?P<own>{SIGNED}) (?P<points>{POINTS})|cash (?P<cash>{SIGNED})"
    rf"|quote (?P<bid>{NUMBER}) (?P<ask>{NUMBER}) (?P<state>open|closed)"
    rf"|no (?P<reason>{'|'.join(CLOSING_REASONS)})"
    rf"|no belowquote (?P<need>{NUMBER}) (?P<least>{NUMBER}) (?P<offered>{NUMBER})")
# What is read from each form, by the name of its last group.
_READ: Dict[Optional[str], Callable[[Optional[int], "re.Match[str]"], Reply]] = {
    "sells": lambda at, found: Taken(at, int(found["bought"]), int(found["sells"])),
    "done": lambda at, found: Done(at),
    "price": lambda at, found: Sold(at, int(found["sold"]), int(found["price"])),
    "points": lambda at, found: Own(at, int(found["own"]), read_points(found["points"])),
    "cash": lambda at, found: Cash(at, int(found["cash"])),
    "state": lambda at, found: Quote(at or 0, int(found["bid"]), int(found["ask"]),
                                     found["state"] == "closed"),
    "reason": lambda at, found: No(at, found["reason"]),
    "offered": lambda at, found: No(at, "belowquote", 0, Below(
        int(found["need"]), int(found["least"]), int(found["offered"])))}
_PLACED = re.compile(rf"@({NUMBER}) (.*)")
_PLAIN = re.compile(rf"no (?:({'|'.join(LINE_REASONS)})|bid ([1-5]))")


def read_entry_reply(text: str, at: Optional[int] = None) -> Reply:
    """Reads the reply of an entry, without its position.

    Args:
        text: The text, such as `taken 1 0`.
        at: The position that the value gets.

    Raises ReplyError where the text is no such reply."""
    found = _FORMS.fullmatch(text)
    if found is None:
        raise ReplyError(f"{text[:60]!r} is not a reply")
    return _READ[found.lastgroup](at, found)


def read_words(line: str) -> Reply:
    """Reads a reply line of words, without its line end. Raises ReplyError where the line is no
    reply."""
    placed = _PLACED.fullmatch(line)
    if placed is not None:
        return read_entry_reply(placed[2], int(placed[1]))
    if line == "bye":
        return Bye()
    found = _PLAIN.fullmatch(line)
    if found is None:
        raise ReplyError(f"{line[:60]!r} is not a reply")
    return No(None, found[1] or "bid", int(found[2] or 0))


_WORDS = {Taken: "taken {0.bought} {0.sold}", Done: "done", Sold: "sold {0.units} {0.price}",
          Cash: "cash {0.dollars}", Bye: "bye"}


def entry_words(reply: Reply) -> str:
    """The words of a reply without its position, as a log has them."""
    if isinstance(reply, Own):
        return f"own {reply.holding} {text_of_points(reply.points)}"
    if isinstance(reply, Quote):
        return f"quote {reply.bid} {reply.ask} {'closed' if reply.closed else 'open'}"
    if not isinstance(reply, No):
        return _WORDS[type(reply)].format(reply)
    if reply.below is not None:
        return f"no belowquote {reply.below.need} {reply.below.price} {reply.below.offered}"
    return f"no bid {reply.fault}" if reply.reason == "bid" else f"no {reply.reason}"


def _position(reply: Reply) -> Optional[int]:
    return reply.count if isinstance(reply, Quote) else getattr(reply, "at", None)


def words_of(reply: Reply) -> str:
    """The line of words of a reply, without a line end."""
    at = _position(reply)
    return entry_words(reply) if at is None else f"@{at} {entry_words(reply)}"


# The words of a reply in JSON, by its keys.
_WORDS_BY_KEYS = {frozenset(keys.split()): words for keys, words in (
    ("bye", "bye"), ("no", "no {no}"), ("no fault", "no {no} {fault}"), ("at no", "@{at} no {no}"),
    ("at no need price offered", "@{at} no {no} {need} {price} {offered}"),
    ("at taken", "@{at} taken {taken[0]} {taken[1]}"), ("at done", "@{at} done"),
    ("at sold", "@{at} sold {sold[0]} {sold[1]}"), ("at own points", "@{at} own {own} {points}"),
    ("at cash", "@{at} cash {cash}"),
    ("at quote open", "@{at} quote {quote[0]} {quote[1]} {open}"))}
_STATES = {"true": "open", "false": "closed"}


def read_json(line: str) -> Reply:
    """Reads a reply in JSON. Raises ReplyError where the line is no reply."""
    try:
        value = json.loads(line)
        told = dict(value)
        if "points" in value:  # as a bid string
            text = json.dumps(value["points"], separators=(",", ":"))
            told["points"] = text.translate(str.maketrans("[],", "() "))
        if "open" in value:
            told["open"] = _STATES[json.dumps(value["open"])]
        reply = read_words(_WORDS_BY_KEYS[frozenset(value)].format_map(told))
    except (ValueError, LookupError, TypeError, AttributeError, ReplyError):
        raise ReplyError(f"{line[:60]!r} is not a reply") from None
    if json.loads(reply_json(reply)) != value:  # so other types and further items are none
        raise ReplyError(f"{line[:60]!r} is not a reply")
    return reply


def reply_json(reply: Reply) -> str:
    """The JSON object of a reply, without a line end."""
    at = _position(reply)
    value: dict[str, Any] = {} if at is None else {"at": at}
    word, *rest = entry_words(reply).split(" ")
    if isinstance(reply, Own):
        value.update(own=reply.holding, points=[list(point) for point in reply.points])
    elif isinstance(reply, Quote):
        value.update(quote=[reply.bid, reply.ask], open=not reply.closed)
    elif isinstance(reply, No):
        value["no"] = reply.reason
        if reply.below is not None:
            below = reply.below
            value.update(need=below.need, price=below.price, offered=below.offered)
        if reply.reason == "bid":
            value["fault"] = reply.fault
    else:  # `done` and `bye` have no number, `cash` has one, and the others two
        numbers = list(map(int, rest))
        value[word] = True if not rest else numbers[0] if len(numbers) == 1 else numbers
    return json.dumps(value, separators=(",", ":"))


def request_words(request: Request) -> str:
    """The line of words that asks this, without a line end."""
    good = "" if request.auction is None else f" {request.auction}"
    points = f" {text_of_points(request.points)}" if request.do == "bid" else ""
    return f"{request.do}{good}{points}"


def request_json(request: Request) -> str:
    """The JSON object that asks this, without a line end."""
    value: dict[str, Any] = {"do": request.do}
    if request.auction is not None:
        value["auction"] = request.auction
    if request.do == "bid":
        value["points"] = [list(point) for point in request.points]
    return json.dumps(value, separators=(",", ":"))


_REQUEST = re.compile(rf"(?P<plain>cash|quit)|(?P<one>withdraw|own|quote) (?P<good>{NUMBER})"
                      rf"|bid (?P<auction>{NUMBER}) (?P<points>{POINTS})")


def read_request(line: str) -> Optional[Request]:
    """What a line of words asks; None if it has none of the forms."""
    found = _REQUEST.fullmatch(line)
    if found is None:
        return None
    if found["plain"]:
        return Request(found["plain"])
    if found["one"]:
        return Request(found["one"], int(found["good"]))
    return Request("bid", int(found["auction"]), read_points(found["points"]))
