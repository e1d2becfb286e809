"""How the server reads an agent's line, and what its replies say, in words and in JSON.

Both forms mean the same, so everything becomes lines of words as in docs/PROTOCOL.md. Each byte of
a line becomes the character of that number.
"""

from __future__ import annotations

import json
import math
import re
from typing import Any, NamedTuple, Optional

from geesefuton.records.replies import (Points, Request, read_json, read_request, read_words,
                                        reply_json, request_words, words_of)

MOST_LINE = 512  # bytes of a line before its end
MOST_NESTED = 127  # levels of a JSON text
CASH = 28  # stands for the cash book among the goods
KEYS = {"bid": 3, "withdraw": 2, "own": 2, "quote": 2, "cash": 1, "quit": 1}


class Asked(NamedTuple):
    """A request that has a position: its keyword, its good (`CASH` for cash), and its line."""

    keyword: str
    good: int
    text: str


def asked_by(line: str, form: str) -> Optional[Asked]:
    """What a line asks that the server gives a position, in a form, `words` or `json`.

    Returns:
        None for `quit`, and for a line that the server refuses.
    """
    if len(line) > MOST_LINE:
        return None
    request = _request_of(_read_object(line)) if form == "json" else read_request(line)
    if request is None or request.do == "quit":
        return None
    if request.do == "cash":
        return Asked("cash", CASH, "cash")
    good = request.auction
    if good is None or good > 27 or request.do == "bid" and not _is_bid(request.points):
        return None
    return Asked(request.do, good, request_words(request))


def words_for(line: bytes, form: str) -> bytes:
    """The line of words that is answered as a line of a form, with at most 512 bytes, is: one that
    asks the same, or that is refused for the same reason."""
    if form == "words":
        return line
    value = _read_object(line.decode("latin-1"))
    request = _request_of(value)
    if request is not None:
        return request_words(request).encode("ascii")
    if value.get("do") == "bid" and len(value) == KEYS["bid"] and "points" in value \
            and _is_whole(value.get("auction"), 0):
        return b"bid %d x" % value["auction"]  # its points are none
    return b""  # no syntax


def said_in(reply: bytes, form: str) -> bytes:
    """A reply of words in a form."""
    if form == "words":
        return reply
    return reply_json(read_words(reply.decode("ascii"))).encode("ascii")


def reply_of(line: str, form: str) -> str:
    """A reply in words. Raises ReplyError where it is no reply of the form."""
    return words_of(read_json(line) if form == "json" else read_words(line))


def position_of(reply: str) -> Optional[int]:
    """The position that a reply in words begins with, or None."""
    return int(reply[1:reply.index(" ")]) if reply.startswith("@") else None


def is_refusal(reply: bytes) -> bool:
    """Whether a reply line, of either form, refuses its line before any auction was asked."""
    return reply.startswith((b"no ", b'{"no":'))


def is_bye(reply: bytes) -> bool:
    """Whether a reply line, of either form, ends the session."""
    return reply in (b"bye", b'{"bye":true}')


def _read_object(line: str) -> "dict[str, Any]":
    """The JSON object of a line as the server reads it; an empty one if it has none."""
    try:
        text = line.encode("latin-1").decode("utf-8")
        if _depth(text) > MOST_NESTED or _has_half_pair(text):
            return {}
        value = json.loads(text, parse_int=_whole, parse_float=_finite, parse_constant=_finite)
    except (ValueError, RecursionError):
        return {}
    return value if isinstance(value, dict) else {}


def _depth(text: str) -> int:
    depth = most = 0
    for bracket in re.findall(r"[\[\]{}]", re.sub(r'"(?:[^"\\]|\\.)*"', "", text)):
        depth += 1 if bracket in "[{" else -1
        most = max(most, depth)
    return most


def _has_half_pair(text: str) -> bool:
    r"""Whether a JSON text has half a surrogate pair, such as `\ud800` alone."""
    escapes = re.sub(r"\\[^u]", "", text)
    whole = re.sub(r"\\u[dD][89abAB]..\\u[dD][c-fC-F]..", "", escapes)
    return re.search(r"\\u[dD][89a-fA-F]", whole) is not None


def _whole(digits: str) -> object:
    """The value of a whole number; `-0`, and one that 64 bits do not hold, is a broken one."""
    return _finite(digits) if digits == "-0" or len(digits) > 18 else int(digits)


def _finite(digits: str) -> float:
    value = float(digits)
    if not math.isfinite(value):
        raise ValueError(f"{digits[:20]} is too great")
    return value


def _request_of(value: "dict[str, Any]") -> Optional[Request]:
    """What an object asks; None if it is no request."""
    do = value.get("do")
    if not isinstance(do, str) or KEYS.get(do) != len(value):
        return None
    if len(value) == 1:
        return Request(do)
    if not _is_whole(value.get("auction"), 0):
        return None
    if do != "bid":
        return Request(do, value["auction"])
    points = value.get("points")
    if not isinstance(points, list) or not all(map(_is_point, points)):
        return None
    return Request("bid", value["auction"], tuple((point[0], point[1]) for point in points))


def _is_point(value: object) -> bool:
    if not isinstance(value, list) or len(value) != 2:
        return False
    return _is_whole(value[0], -99999) and _is_whole(value[1], 0)


def _is_whole(value: object, least: int) -> bool:
    return isinstance(value, int) and not isinstance(value, bool) and least <= value <= 99999


def _is_bid(points: Points) -> bool:
    if not 1 <= len(points) <= 16:
        return False
    return (all(units and 1 <= price <= 10000 for units, price in points)
            and sum(abs(units) for units, _ in points) <= 16)
