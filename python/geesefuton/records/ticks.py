"""The ticks of a log's entries: when its calls were made.

A log has no times, but a script has the ticks between the requests, and a journal those at which
they were passed on: an entry has the tick of its request, as far as the clock's calls around it
leave that possible. By the log alone, an entry of a flight or a hotel has the tick of the clock's
last call there. A trade of a ticket has the tick of the last such trade before it in the cash book,
which has all trades in order; another entry of tickets has the tick of the trade before it. These
may have come later.

Prices over the ticks are recomputed by the books of a game from its log, which has the calls, but
not the prices that were shown. A trade of a ticket has no tick there.
"""

from collections import defaultdict, deque
from typing import Deque, Dict, Iterable, Iterator, List, NamedTuple, Optional, Sequence, Tuple

from geesefuton.records.books import Board, Books
from geesefuton.records.games import CLOCK, GOODS, HOTELS, HOUSE, TICKETS, TICKS, Game
from geesefuton.records.logs import Entry, Log, Post
from geesefuton.records.replies import Request, read_request
from geesefuton.records.rules import clock_ticks

Placed = Tuple[int, int, Entry]  # good, position and entry
Timed = Tuple[int, int, Optional[Request]]  # a tick, an agent, and what it asked
Ticks = List[List[int]]  # the ticks, 0 to 54, of the entries of each auction


class TicksError(Exception):
    """Requests that are not those of a log."""


def ticks_by_log(game: Game, log: Log) -> Ticks:
    """The ticks of a log's entries, as far as it tells them."""
    ticks = [ticks_by_clock(game, good, log.histories[good]) for good in range(TICKETS.start)]
    ticks += [[0] * len(log.histories[good]) for good in TICKETS]
    now = 0
    for post in log.cash:
        if isinstance(post, Post) and post.good in TICKETS:
            ticks[post.good][post.position] = now
        elif isinstance(post, Post):
            now = max(now, ticks[post.good][post.position])
    for good in TICKETS:
        last = 0
        for position, entry in enumerate(log.histories[good]):
            last = TICKS if entry.caller == CLOCK else max(last, ticks[good][position])
            ticks[good][position] = last
    return ticks


def ticks_by_clock(game: Game, good: int, history: Sequence[Entry]) -> List[int]:
    """The ticks of the clock's last calls before the entries of an auction."""
    ticks, now, clock = [], 0, iter(clock_ticks(game, good))
    for entry in history:
        now = next(clock, now) if entry.caller == CLOCK else now
        ticks.append(now)
    return ticks


def ticks_by_requests(game: Game, log: Log, requests: Iterable[Timed]) -> Ticks:
    """The ticks of a log's entries, by the requests of all agents, those of each one in order. A
    request that was refused before an auction was asked has no entry. Raises TicksError where a
    request of the log is not among them."""
    asked: Dict[Tuple[int, Optional[int], str], Deque[Tuple[int, Request]]] = defaultdict(deque)
    for tick, agent, request in requests:
        if request is not None:
            asked[agent, request.auction, request.do].append((tick, request))
    ticks = []
    for good in GOODS:
        clock, low, now = deque(clock_ticks(game, good)), 0, list[int]()
        for position, entry in enumerate(log.histories[good]):
            if entry.caller == CLOCK:
                low = clock.popleft() if clock else TICKS
            else:
                high = clock[0] - 1 if clock else TICKS
                low = min(max(low, _asked(asked, good, position, entry)), high)
            now.append(low)
        ticks.append(now)
    return ticks


def _asked(asked: Dict[Tuple[int, Optional[int], str], Deque[Tuple[int, Request]]], good: int,
           position: int, entry: Entry) -> int:
    waiting = asked[entry.caller, good, entry.call.do]
    while waiting:
        tick, request = waiting.popleft()
        if request.points == entry.call.points:
            return tick
    raise TicksError(f"it lacks entry {position} of good {good}")


def requests_of(script: str) -> Iterator[Timed]:
    """The requests of a script."""
    tick = 0
    for line in script.splitlines():
        tick += line == "tick"
        if line != "tick":
            yield tick, int(line[0]), read_request(line[2:])


def entries_by_tick(ticks: Ticks, log: Log) -> List[List[Placed]]:
    """For each tick, 0 to 54, its entries, each with its good and its position there."""
    by_tick: List[List[Placed]] = [[] for _ in range(TICKS + 1)]
    for good in GOODS:
        for position, (tick, entry) in enumerate(zip(ticks[good], log.histories[good])):
            by_tick[tick].append((good, position, entry))
    return by_tick


def boards_by_tick(game: Game, log: Log, ticks: Ticks) -> List[List[Board]]:
    """The boards of all goods at each tick, 0 to 54, as they stand when the clock has made its
    calls and no agent has acted."""
    books, boards = Books(game), []
    for entries in entries_by_tick(ticks, log):
        for is_clock in (True, False):
            for good, _, entry in entries:
                if (entry.caller == CLOCK) == is_clock:
                    books.take(good, entry)
            if is_clock:
                boards.append(books.boards[:])
    return boards


class MarketEvent(NamedTuple):
    """Something that happened in an auction: a row of the report's CSV."""

    # `price`, the published price from this entry on; `close`, that of a hotel's closing; `trade`,
    # what an agent bought (units above 0) or sold (below 0)
    what: str
    tick: Optional[int]  # the tick; None where it is not known
    good: int  # the auction
    position: Optional[int]  # the position of the entry; None before the first
    agent: Optional[int]  # who traded; None for prices
    units: Optional[int]  # of a trade; None for prices
    dollars: int  # the price, of a trade for each unit


def events_of(game: Game, good: int, history: Sequence[Entry],
              books: Books) -> Iterator[MarketEvent]:
    """The prices and trades of an auction, in order, by the books of the game before it."""
    has_prices, price = good not in TICKETS, books.boards[good][1]
    if has_prices:
        yield MarketEvent("price", 0, good, None, None, None, price)
    for position, (tick, entry) in enumerate(zip(ticks_by_clock(game, good, history), history)):
        books.take(good, entry)
        before, price = price, books.boards[good][1]
        what = "close" if good in HOTELS and entry.call.do == "close" else "price"
        is_told = entry.caller == CLOCK and (what == "close" or entry.call.do != "close")
        if has_prices and (is_told or price != before):
            yield MarketEvent(what, tick, good, position, None, None, price)
        for trade in entry.trades:
            for agent, units in ((trade.buyer, trade.units), (trade.seller, -trade.units)):
                if agent != HOUSE:
                    yield MarketEvent("trade", tick if has_prices else None, good, position, agent,
                                      units, trade.price)


def all_events(game: Game, log: Log) -> List[MarketEvent]:
    """The prices and trades of all auctions, by good."""
    books = Books(game)
    return [event for good in GOODS
            for event in events_of(game, good, log.histories[good], books)]
