"""A seat for a person: an agent's knowledge of its game, with bids that a person decides.

A thread of its own talks to the server. It takes orders, and between them it asks for all quotes.
It asks `own` only where its units stand and the quote shows that a call was made since, and `cash`
only after its holdings have changed: these count as calls, and a quote does not.
"""

from __future__ import annotations

import queue
import threading
import time
from collections import deque
from concurrent.futures import Future
from dataclasses import dataclass
from typing import Any, Callable, Deque, Dict, List, NamedTuple, Optional, Tuple

from geesefuton.link import REJOIN, Link, LinkError, Unanswered
from geesefuton.playing.answers import Answer, answer_of, asked_in_words
from geesefuton.playing.game_clock import GameClock
from geesefuton.records.games import FLIGHTS, GOODS, HOTELS, TICKETS, Client
from geesefuton.records.replies import Cash, Own, Points, Quote, Reply, Request

LOOKS = 4  # looks in a tick; an auction answers at most 1024 `own` requests of an agent
LEAST, MOST = 0.2, 2.0  # seconds from one look to the next; so a session's 65,536 lines last
FRESH = 1.5  # seconds of waiting for the welcome after which it came as the game began
READINGS = 2  # of the cash after a change: another caller's trade may be missing for a moment
KEPT = 40  # answers that are kept
# Seconds from one greeting to the next: all seats by hand share an address, whose first lines wait
# once they are many.
PAUSE = 4.0
# Flights move before the hotel of their tick closes: so who saw it closed then sees them moved.
ORDER = (*HOTELS, *FLIGHTS, *TICKETS)
NOT_NOW = Answer(False, "There is no game now in which this could be asked.")


@dataclass
class Holding:
    """What a seat knows of a good."""

    units: int = 0
    points: Points = ()  # what stands there
    at: int = -1  # the position of that reading
    quote: Optional[Quote] = None
    due: float = 0.0  # when what stands may be read again

    def is_due(self, good: int) -> bool:
        """Whether what stood may have been traded since the last reading."""
        if self.quote is None or not self.points or self.quote.count <= self.at + 1:
            return False
        return self.quote.closed or good not in HOTELS and time.monotonic() >= self.due


class Order(NamedTuple):
    """A bid or a withdrawal, and what will come of it."""

    request: Request
    answer: "Future[Answer]"


def greeting(host: str, port: int, word: str, form: str,
             is_open: Callable[[], bool]) -> Callable[[], Link]:
    """What takes a seat, as `Link.greet`. A lost link is connected again only while a browser has
    the seat's page open: so a host who ends the link of a page that nobody looks at frees the seat.
    """
    class SeatLink(Link):
        """The link of the seat."""

        def rejoin(self, within: float = REJOIN) -> None:
            """Connects again, as `Link.rejoin`."""
            if not is_open():
                self.close()
                raise LinkError(f"{word}: it was lost while no browser had this page open")
            super().rejoin(within)

    return lambda: SeatLink.greet(host, port, word, form)


class Seat:
    """A seat that a person plays.

    Args:
        greet: Takes the seat, and waits until the game begins.
        pace: The seconds from tick to tick.
    """

    def __init__(self, greet: Callable[[], Link], pace: float) -> None:
        self._greet, self._pace = greet, pace
        self.version = 0  # the number of the newest state
        self.tell: Callable[[], None] = lambda: None  # called in any thread once there is one
        self._lock = threading.RLock()
        self._state: Dict[str, Any] = {"phase": "idle"}
        self._asked: Optional[float] = None  # since when a reply is waited for
        self._thread: Optional[threading.Thread] = None
        self._greets = 0.0  # when it may greet next
        self._reset()

    def _reset(self) -> None:
        self.clients: List[Client] = []  # once the game has begun
        self.number: Optional[int] = None  # that of its agent, from then on
        self._phase, self._fault = "waiting", ""
        self._goods = [Holding() for _ in GOODS]
        self._clock, self._clock_closed = GameClock(self._pace), 0
        self._closed: List[Tuple[int, int]] = []  # hotel nights that closed, and their prices
        self._moves = [0] * len(FLIGHTS)  # how often each flight's price was seen to change
        self._cash, self._readings = 0, READINGS
        self._calls: Deque[Dict[str, Any]] = deque(maxlen=KEPT)
        self._number = 0
        self._orders: "queue.Queue[Order]" = queue.Queue()
        self._looked, self._took = 0.0, 0.0  # when the last look ended, and its seconds

    def begin(self) -> None:
        """Takes the seat, unless it is taken already. After a game it is taken for the next."""
        with self._lock:
            if self._thread is not None:
                if self._thread.is_alive() and self.phase not in ("over", "failed"):
                    return
                self._thread.join()  # it has told its end, and ends now
            self._reset()
            self.publish()
            self._thread = threading.Thread(target=self._play, daemon=True)
            self._thread.start()

    @property
    def phase(self) -> str:
        """`idle`, `waiting` for the game, `running`, `over`, or `failed`."""
        phase: str = self._state["phase"]
        return phase

    def order(self, request: Request) -> "Future[Answer]":
        """Asks a bid or a withdrawal, and gives what will come of it."""
        order = Order(request, Future())
        self._orders.put(order)
        if self.phase != "running":  # perhaps since a moment
            self._refuse_rest()
        return order.answer

    def state(self) -> Dict[str, Any]:
        """What there is to show."""
        with self._lock:
            state, version, now = self._state, self.version, time.monotonic()
        mark = self._clock.now(now)
        asked = self._asked
        return {**state, "version": version, "tick": mark.tick, "since": now - mark.moment,
                "pace": self._pace, "exact": self._clock.is_exact,
                "silent": now - asked if asked is not None else 0}

    def publish(self) -> None:
        """Makes what is known now the state, and tells that there is a new one."""
        with self._lock:
            self._state = {
                "phase": self._phase, "fault": self._fault,
                "clients": [[each.arrive, each.depart, each.premium, *each.values]
                            for each in self.clients],
                "goods": [[each.units, each.points] for each in self._goods],
                "quotes": [each.quote and [each.quote.bid, each.quote.ask, each.quote.closed]
                           for each in self._goods],
                "cash": self._cash, "settled": self._readings <= 0,
                "closed": list(self._closed), "calls": list(self._calls)}
            self.version += 1
        self.tell()

    # What the thread does.

    def _play(self) -> None:
        """Plays a game, from its welcome to its end."""
        time.sleep(max(0.0, self._greets - time.monotonic()))
        begun = time.monotonic()
        self._greets = begun + PAUSE
        try:
            with self._greet() as link:
                self._take(link, time.monotonic() - begun > FRESH)
                while not all(each.quote and each.quote.closed for each in self._goods):
                    self._wait(link)
                    self._look(link)
                self._settle(link)
                link.quit()
            self._phase = "over"
        except LinkError as fault:
            self._phase, self._fault = "failed", str(fault)
        except Exception as fault:  # whatever ends the thread is told, so that no page waits for it
            self._phase, self._fault = "failed", f"{type(fault).__name__}: {fault}"
        finally:
            self._asked = None
            self.publish()
            self._refuse_rest()

    def _refuse_rest(self) -> None:
        while True:
            try:
                order = self._orders.get_nowait()
            except queue.Empty:
                return
            order.answer.set_result(NOT_NOW)

    def _send(self, link: Link, request: Request) -> Reply:
        self._asked = time.monotonic()
        try:
            return link.send(request)
        finally:
            self._asked = None

    def _take(self, link: Link, is_fresh: bool) -> None:
        """The first look: what a program that was started anew has bought is read as well."""
        now = time.monotonic()
        self.clients, self.number = link.clients, link.agent
        for good in GOODS:
            self._see(link, good)
        counts = [each.quote.count for each in self._goods[:8] if each.quote]
        self._clock.begin(now, len(self._closed), is_fresh or min(counts) == 0)
        self._clock_closed = len(self._closed)
        for good in GOODS:
            self._read(link, good)
        self._read_cash(link)
        self._looked = time.monotonic()
        self._phase = "running"
        self.publish()

    def _wait(self, link: Link) -> None:
        """Takes orders until the next look is due."""
        pause = min(MOST, max(LEAST, self._pace / LOOKS))
        due = self._looked + max(pause, self._took)  # so that a slow link is not always busy
        while True:
            try:
                self._obey(link, self._orders.get(timeout=max(0, due - time.monotonic())))
            except queue.Empty:
                return

    def _look(self, link: Link) -> None:
        """Looks at all quotes, and reads what may have changed. Orders do not wait for its end."""
        last, begun = self._looked, time.monotonic()
        moves, closed = max(self._moves), self._clock_closed
        for good in ORDER:
            if not self._orders.empty():
                self._obey(link, self._orders.get())
            before = self._goods[good].quote
            if before is None or not before.closed:
                now = self._see(link, good)
                if good in FLIGHTS and before is not None and before.ask != now.ask:
                    self._moves[good] += 1
        self._looked = time.monotonic()
        self._took, middle = self._looked - begun, (last + self._looked) / 2
        if max(self._moves) > moves:
            self._clock.move(middle)
        if len(self._closed) > closed:
            self._clock.close(middle, len(self._closed))
            self._clock_closed = len(self._closed)
        for good in GOODS:
            if self._goods[good].is_due(good):
                self._read(link, good)
        if self._readings:
            self._read_cash(link)
        self.publish()

    def _see(self, link: Link, good: int) -> Quote:
        """Looks at a quote."""
        quote = self._send(link, Request("quote", good))
        if not isinstance(quote, Quote):
            raise LinkError(f"{link.word}: auction {good} has no quote")
        if quote.closed and good in HOTELS:
            self._closed.append((good, quote.ask))
        self._goods[good].quote = quote
        return quote

    def _read(self, link: Link, good: int) -> Optional[Own]:
        """Reads what the seat holds and what stands; None if all of its calls there are used up."""
        own = self._send(link, Request("own", good))
        if not isinstance(own, Own):
            return None
        each = self._goods[good]
        if own.holding != each.units:
            self._readings = READINGS
        each.units, each.points, each.at = own.holding, own.points, own.at or 0
        each.due = time.monotonic() + self._pace / LOOKS
        return own

    def _read_cash(self, link: Link) -> None:
        cash = self._send(link, Request("cash"))
        self._readings -= 1
        if isinstance(cash, Cash):
            self._cash = cash.dollars

    def _obey(self, link: Link, order: Order) -> None:
        """Asks what an order says, and tells what came of it."""
        request = order.request
        assert request.auction is not None
        try:
            reply = self._send(link, request)
            own = self._read(link, request.auction)
            self._see_open(link, request.auction)
            answer = answer_of(request, reply, own)
        except Unanswered:
            own = self._read(link, request.auction)
            answer = Answer(False, "The link was lost before this was answered, and is back: look "
                                   "at what stands there, and ask again if it is missing.")
        except LinkError:
            order.answer.set_result(Answer(False, "The link is lost."))
            raise
        if self._readings:
            self._read_cash(link)
        self._number += 1
        self._calls.append({"number": self._number, "tick": self._clock.now(time.monotonic()).tick,
                            "what": asked_in_words(request), "text": answer.text,
                            "done": answer.is_done})
        self.publish()
        order.answer.set_result(answer)

    def _see_open(self, link: Link, good: int) -> None:
        """Looks at a hotel's or a ticket's quote after a bid, which may have moved it."""
        quote = self._goods[good].quote
        if good not in FLIGHTS and (quote is None or not quote.closed):
            self._see(link, good)

    def _settle(self, link: Link) -> None:
        """Reads the last trades and the cash once all is closed."""
        for good in GOODS:
            if self._goods[good].points:
                self._read(link, good)
        before: Optional[int] = None
        while before != self._cash:
            before = self._cash
            self._read_cash(link)
