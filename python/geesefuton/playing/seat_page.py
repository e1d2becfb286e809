"""What the pages of seats are answered. Each seat's page is at an address with a token of its own:
without the token nobody can see or ask anything.

A seat may be open in several browsers, but only one plays. Each opened page gets a number, which
all its requests carry.
"""

from __future__ import annotations

import asyncio
import contextlib
import hmac
import json
import secrets
import time
from dataclasses import dataclass, field
from http import HTTPStatus
from pathlib import Path
from typing import Any, Dict, Iterable, List, Optional, Tuple

from geesefuton.network import pages as network
from geesefuton.network.addresses import new_token
from geesefuton.network.pages import Bell, Response
from geesefuton.playing.answers import Answer, fault_of
from geesefuton.playing.seat import Seat, greeting
from geesefuton.playing.trip_board import TripBoard
from geesefuton.records.games import GOODS
from geesefuton.records.replies import Points, Request

WAIT = 1.0  # seconds that a page's question for news is kept: browsers keep few for one host
QUIET = 9.0  # seconds without a question after which another page may play without asking
MOST_PAGES = 50  # of a seat that are known
LATE = 20.0  # seconds until a browser is told that its order was not answered yet
NOT_YET = Answer(False, "The server has not answered yet: what it answers will be listed below.")
STALE = "This page is stale: reload it."
OTHER = "Another browser plays this seat: take it over first."
NO_SEAT = "There is no seat at this address: check its letters, or ask for a new one.\n"
TEXT = "text/plain; charset=utf-8"


class Refused(Exception):
    """A request that is refused: its HTTP status, and why in a line."""

    def __init__(self, status: int, text: str) -> None:
        super().__init__(text)
        self.status = f"{status} {HTTPStatus(status).phrase}"


class Pages:
    """The pages that are open at a seat."""

    def __init__(self) -> None:
        self._heard: Dict[str, float] = {}  # when each page asked last
        self._playing = ""

    def open(self, before: str) -> str:
        """The number of a new page. It plays if nobody else does.

        Args:
            before: The number that the same browser window had before, "" if it had none.
        """
        number = secrets.token_hex(8)
        if before == self._playing or not self._is_heard(self._playing):
            self._playing = number
        self._heard.pop(before, None)
        self._heard[number] = time.monotonic()
        while len(self._heard) > MOST_PAGES:
            del self._heard[min(self._heard, key=lambda each: self._heard[each])]
        return number

    def _is_heard(self, page: str) -> bool:
        return time.monotonic() - self._heard.get(page, float("-inf")) <= QUIET

    def is_open(self) -> bool:
        """Whether a browser has one of them open. It may be asked in any thread."""
        return any(self._is_heard(page) for page in list(self._heard))

    def hear(self, page: str) -> bool:
        """A page has asked something: whether it is known."""
        if page not in self._heard:
            return False
        self._heard[page] = time.monotonic()
        return True

    def plays(self, page: str) -> bool:
        """Whether this page plays the seat."""
        return page == self._playing

    def take(self, page: str) -> None:
        """From now on this page plays the seat."""
        self._playing = page


@dataclass
class Host:
    """Where games are, and what their pages are told."""

    host: str  # of the lobby
    port: int
    pace: int  # in milliseconds
    form: str = "words"
    has_plan: bool = True  # whether boards of trips plan
    names: Dict[str, str] = field(default_factory=dict)  # what agents are called, by seat words
    has_games: bool = True  # whether another game may come after each
    has_results: bool = False  # whether the scores of all agents will be known after each


class Table:
    """A seat at the address with its token, its board of trips, and the pages that are open there.

    Attributes:
        name: What the game's host calls it.
        results: After the game the names and the scores of all agents, once they are known.
        is_told: Whether the game is over, and a page has all that will be known of its result.
    """

    def __init__(self, seat: Seat, pages: Pages, board: TripBoard, token: str, word: str,
                 host: Host) -> None:
        self.seat, self.pages, self.token, self.word, self.is_told = seat, pages, token, word, False
        self.name, self.results = host.names[word], list[Tuple[str, int]]()
        self._board, self._host, self._bell = board, host, Bell()
        self._looking, self._shown, self._version = asyncio.Lock(), dict[str, Any](), -1
        seat.tell = self._bell.ring

    async def answer(self, what: str, given: Dict[str, Any]) -> Dict[str, Any]:
        """Answers a request of a page by the last word of its address and what the page says.

        Raises:
            Refused: It is none, or may not be asked.
        """
        if what == "open":
            page = self.pages.open(_text(given, "page"))
            if self.seat.phase == "idle":
                self.seat.begin()
            return {"page": page}
        page = _text(given, "page")
        if not self.pages.hear(page):
            raise Refused(409, STALE)
        if what == "state":
            return await self._state(page, given.get("after"))
        if what == "take":
            self.pages.take(page)
            self.seat.publish()
            return {}
        if what not in ("bid", "withdraw", "again"):
            raise Refused(404, "There is nothing here.")
        if not self.pages.plays(page):
            raise Refused(409, OTHER)
        if what == "again":
            self.results = []
            self.seat.begin()
            return {}
        return await self._order(what, given)

    async def _state(self, page: str, after: Any) -> Dict[str, Any]:
        await self._bell.wait_until(lambda: bool(self.seat.version != after), WAIT)
        async with self._looking:  # so that the board follows one state after the other
            told = self.seat.state()
            if told["version"] != self._version and told.get("clients") and all(told["quotes"]):
                self._version = told["version"]
                self._shown = await asyncio.to_thread(self._board.follow, told)
        is_over, number = told["phase"] == "over", self.seat.number
        self.is_told = is_over and bool(self.results or not self._host.has_results)
        return {**told, "plays": self.pages.plays(page), "board": self._shown, "me": number,
                "name": self.name, "again": self._host.has_games, "results": self.results,
                "hosted": self._host.has_results}

    def end(self, results: List[Tuple[str, int]]) -> None:
        """Takes the names and the scores of the game's agents."""
        self.results = results
        self.seat.publish()

    async def _order(self, what: str, given: Dict[str, Any]) -> Dict[str, Any]:
        good = given.get("good")
        if not _is_whole(good) or good not in GOODS:
            raise Refused(400, "There is no such auction.")
        points: Points = ()
        if what == "bid":
            points = _points(given.get("points"))
            fault = fault_of(points)
            if fault is not None:
                return {"done": False, "text": fault, "fix": None}
        told = asyncio.wrap_future(self.seat.order(Request(what, good, points)))
        await asyncio.wait([told], timeout=LATE)
        answer = told.result() if told.done() else NOT_YET
        return {"done": answer.is_done, "text": answer.text, "fix": answer.fix}


def _is_whole(value: Any) -> bool:
    return isinstance(value, int) and not isinstance(value, bool)


def _text(given: Dict[str, Any], name: str) -> str:
    value = given.get(name)
    return value if isinstance(value, str) else ""


def _points(value: Any) -> Points:
    pairs = value if isinstance(value, list) else []
    if not all(isinstance(pair, list) and len(pair) == 2 and all(map(_is_whole, pair))
               for pair in pairs):
        raise Refused(400, "Units and prices must be whole numbers.")
    return tuple((units, price) for units, price in pairs)


class Site:
    """The pages of seats, each at its table; for some of them the words and tokens are given."""

    def __init__(self, host: Host, seats: Iterable[Tuple[str, str]] = ()) -> None:
        self.host, self.tables = host, list[Table]()
        self._page = network.read_page(Path(__file__).with_name("seat.html"))
        for word, token in seats:
            self.add(word, token)

    def add(self, word: str, token: str) -> Table:
        """Makes the table of a seat, in the event loop in which its page is served."""
        pages, given = Pages(), self.host
        greet = greeting(given.host, given.port, word, given.form, pages.is_open)
        seat = Seat(greet, given.pace / 1000)
        self.tables.append(Table(seat, pages, TripBoard(given.has_plan), token, word, given))
        return self.tables[-1]

    async def join(self, asked: network.Request) -> Response:
        """Lets somebody who knows the word of a seat play it: the path of its page. Guesses wait
        as those of agents do."""
        wait = asked.visit.whole()
        if wait is None:
            return Response("429 Too Many Requests", TEXT, b"Try again in a while.\n")
        await asyncio.sleep(wait)
        word = next((word for word in self.host.names
                     if hmac.compare_digest(word.encode(), asked.body)), None)
        if word is None:
            asked.visit.refuse()
            return Response("403 Forbidden", TEXT, b"No seat has this word: check its letters.\n")
        table = next((table for table in self.tables if table.word == word), None)
        return Response("200 OK", TEXT, (table or self.add(word, new_token())).token.encode())

    def find(self, asked: network.Request) -> Optional[Table]:
        """The table whose token a request has in its path."""
        token = asked.path.lstrip("/").partition("/")[0].encode()
        return next((each for each in self.tables
                     if hmac.compare_digest(each.token.encode(), token)), None)

    async def answer(self, asked: network.Request) -> Response:
        """Answers a request of a browser."""
        token, slash, what = asked.path.lstrip("/").partition("/")
        table = self.find(asked)
        if table is not None:
            asked.visit.know(token)
        if asked.method == "POST":
            try:
                told, status = await self._told(table, what, asked), "200 OK"
            except Refused as refused:
                told, status = {"done": False, "text": str(refused)}, refused.status
            text = json.dumps(told, separators=(",", ":")) + "\n"
            return Response(status, "application/json", text.encode("ascii"))
        if table is None:
            return Response("403 Forbidden" if token else "404 Not Found", TEXT, NO_SEAT.encode())
        if not slash:  # the address without its last slash
            return Response("308 Permanent Redirect", TEXT, line=f"Location: /{token}/\r\n")
        if what or asked.method != "GET":
            return Response("404 Not Found", TEXT, b"There is nothing here.\n")
        return Response("200 OK", "text/html; charset=utf-8", self._page)

    async def _told(self, table: Optional[Table], what: str, asked: network.Request
                    ) -> Dict[str, Any]:
        if table is None:
            raise Refused(403, NO_SEAT.strip())
        if asked.fields.get("content-type", "").split(";")[0] != "application/json":
            raise Refused(415, "A request must be JSON.")
        with contextlib.suppress(ValueError, RecursionError):
            given = json.loads(asked.body)
            if isinstance(given, dict):
                return await table.answer(what, given)
        raise Refused(400, "A request must be a JSON object.")
