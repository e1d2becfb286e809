"""Agents that play in the process of a game in steps, such as those of examples/agents."""

from __future__ import annotations

import importlib
import random
import sys
from functools import partial
from typing import (Callable, Dict, Iterator, List, Mapping, Optional, Protocol, Tuple, Union,
                    cast)

from geesefuton import program
from geesefuton.learning.market import Market
from geesefuton.records.games import TICKS, Game
from geesefuton.records.order import order_of_turn
from geesefuton.records.replies import Own, Quote, ReplyError, read_words, text_of_points

SHIPPED = {"baseline": True, "equilibrium": True, "scenarios": True, "planner": False,
           "trader": False, "watcher": False}  # if it draws


class SeatLink:
    """A seat of a market, with the calls of a link (`geesefuton.link.Link`).

    What the books have costs no request: boards, what it holds, and its cash. So their positions
    are 0.

    Attributes:
        agent: The number of the seat.
        endow: Its tickets at first, good 16 first.
        clients: Its eight clients.
        source: What it may draw from, which follows from the game's seed.
    """

    def __init__(self, market: Market, seat: int, source: random.Random) -> None:
        self.agent, self.source = seat, source
        self.endow, self.clients = list(market.game.endow[seat]), list(market.game.clients[seat])
        self._market = market

    def ask(self, line: str) -> str:
        """Asks a request by its line of words, and gives the reply."""
        return self._market.ask([(self.agent, line)])[0]

    def bid(self, good: int, *points: Tuple[int, int]) -> str:
        """Bids points, each units and dollars, which replace the whole earlier bid there."""
        return self.ask(f"bid {good} {text_of_points(points)}")

    def withdraw(self, good: int) -> str:
        """Takes the standing bid back."""
        return self.ask(f"withdraw {good}")

    def quote(self, good: int) -> Quote:
        """The board of an auction."""
        bid, ask, is_closed = self._market.books.boards[good]
        return Quote(0, bid, ask, is_closed)

    def own(self, good: int) -> int:
        """How many units the agent holds; below 0 it owes them."""
        return self._market.books.holdings[self.agent][good]

    def holding(self, good: int) -> Own:
        """What the agent holds, and its standing points. Raises ReplyError where the agent has no
        call left in this auction."""
        reply = read_words(self.ask(f"own {good}"))
        if not isinstance(reply, Own):
            raise ReplyError(f"own {good} was refused")
        return reply

    def cash(self) -> int:
        """What the agent earned so far less what it paid, in dollars."""
        return self._market.books.cash[self.agent]


class Acting(Protocol):
    """An agent that acts when it is told to."""

    def act(self) -> object:
        """Acts once. It acts no more once this gives False."""


Maker = Callable[[SeatLink], Acting]  # makes an agent for its seat
Rivals = Dict[str, Union[str, Maker]]  # by the names of their seats


def maker_of(rival: Union[str, Maker]) -> Maker:
    """What makes a rival: the class of an agent, or what makes the shipped one of a name. Raises
    ValueError where no agent of this name is shipped, or there is no folder of examples."""
    if not isinstance(rival, str):
        return rival
    if rival not in SHIPPED:
        raise ValueError(f"expected an agent of {', '.join(SHIPPED)}, not {rival!r:.60}")
    try:
        program.examples()
    except program.ProgramError as fault:
        raise ValueError(str(fault)) from None
    return partial(_shipped, rival)


def _shipped(name: str, link: SeatLink) -> Acting:
    folder = str(program.examples() / "agents")
    sys.path.insert(0, folder)  # one takes parts of another
    try:
        agent = getattr(importlib.import_module(name), name.capitalize())
    finally:
        sys.path.remove(folder)
    return cast(Acting, agent(link, link.source) if SHIPPED[name] else agent(link))


class Players:
    """Rivals at some seats of a market. Each is made when it is first told to act."""

    def __init__(self, market: Market, makers: Mapping[int, Maker], seed: int) -> None:
        self._market, self._makers, self._seed = market, makers, seed
        self._playing: Dict[int, Optional[Acting]] = {}  # None for one that has ended

    def act(self, seat: int) -> None:
        """Lets the rival of a seat act, unless it has ended."""
        if seat not in self._playing:
            source = random.Random(f"{self._seed} {seat}")
            self._playing[seat] = self._makers[seat](SeatLink(self._market, seat, source))
        rival = self._playing[seat]
        if rival is not None and rival.act() is False:
            self._playing[seat] = None


def played(game: Game, makers: Mapping[int, Maker], seed: int) -> Iterator[Market]:
    """Plays a game in which nobody plays but these, each once between two ticks. What they draw
    follows from the seed and their seats.

    Yields:
        The market, after each tick. After the last one it has the scores.

    Raises ProgramError where there is no program, or it ended with an error."""
    market = Market(game)
    try:
        players = Players(market, makers, seed)
        for tick in range(TICKS):
            for seat in order_of_turn(tick, 0, market.first):
                if seat in makers:
                    players.act(seat)
            market.advance()
            if tick == TICKS - 1:
                market.finish()
            yield market
    finally:
        market.close()


def scores_of(game: Game, makers: Mapping[int, Maker], seed: int) -> List[int]:
    """The scores, in dollars, of a game that is `played`."""
    *_, market = played(game, makers, seed)
    return market.scores
