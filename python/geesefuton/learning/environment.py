"""A game in steps, for agents that learn: without real time, with PettingZoo's parallel interface.

    with Environment() as environment:
        observations, infos = environment.reset(42)
        while environment.agents:
            actions = {agent: ["own 16"] for agent in environment.agents}
            observations, rewards, terminations, truncations, infos = environment.step(actions)

An action is a list of request lines as in docs/PROTOCOL.md. Each step makes the requests seat by
seat, and then a tick comes. No seat gains by its place: each step begins one seat later, and the
first seat of a game is pseudorandom (`geesefuton.records.order`). docs/EXPERIMENTS.md says what an
observation and the infos have. The rewards are 0 before the last step, and then the scores.

The same requests give the same game, and its log is what `tac play` writes for the game's file and
script. A game is one process of `tac step`.
"""

from __future__ import annotations

import copy
import random
from collections import abc
from importlib import import_module
from operator import index
from pathlib import Path
from typing import Any, Dict, List, Mapping, Optional, Sequence, Tuple, Union

from geesefuton.learning.interfaces import Parallel
from geesefuton.learning.market import LimitError, Market, Scorer
from geesefuton.learning.rivals import Maker, Players, Rivals, maker_of
from geesefuton.records.books import Board, Books, text_of
from geesefuton.records.drawing import MOST_SEED, made_game, varied
from geesefuton.records.games import MOST_ROOMS, SEATS, TICKS, Game, read_game
from geesefuton.records.order import order_of_turn

MOST_ROUNDS = 1000  # in a tick
Actions = Mapping[str, "list[str]"]
Values = Dict[str, Any]  # for each agent something
Replies = Dict[str, "list[str]"]  # for each agent that asked something
Step = Tuple[Values, Values, Values, Values, Values]


class ActionError(ValueError):
    """Actions that cannot be asked, or a call that is not due; nothing has changed."""


class Environment(Parallel):
    """Games of eight seats, one after the other.

    Attributes:
        possible_agents: The names of the agents by seat, which are the words of the game. Seats of
            rivals are not among them.
        agents: Those that play now: all of them, or nobody before a game and after it.
        render_mode: `ansi`, or None; `render` gives the same text for both.
        seed: The seed that the game is made from; None for a game of a file.
        game: The text of the game file that is played; "" before the first game.
        tick: How many ticks have passed, 0 to 54.
        round: The round in this tick, from 0.
        log: The log of the game, once it is over; None before.

    Args:
        game: A game file of version 1 or 2, which is played each time; without one each game is
            made from a seed, as by `tac make`.
        rooms: The least and the most rooms that a hotel night of a made game has, drawn from its
            seed as by `tournament --rooms`; None for 16.
        live: Whether each bid publishes a hotel's price in made games.
        endow: `classic`, for tickets as by `tournament --endow classic` in made games; None
            for those of `tac make`.
        hindsight: Whether `infos` of each step have `hindsight`, the score that the agent would
            have if nobody asked anything more. It follows from draws that no agent knows yet.
        rounds: How many steps there are before each tick, 1 to 1000.
        rivals: Agents that play in this process, by the names of their seats: each the name of a
            shipped one, as `baseline`, or a class that is made with a `SeatLink` and has `act`,
            which is called in each step.
        render_mode: `ansi`, or None.

    Raises GameError where it is no game file, and ValueError where another argument is out of its
    range."""

    metadata = {"name": "geesefuton_v4", "render_modes": ["ansi"], "is_parallelizable": True}

    def __init__(self, game: Union[str, Path, None] = None, *,
                 rooms: Optional[Tuple[int, int]] = None, live: bool = False,
                 endow: Optional[str] = None, hindsight: bool = False, rounds: int = 1,
                 rivals: Optional[Rivals] = None, render_mode: Optional[str] = None) -> None:
        if render_mode not in (None, "ansi"):
            raise ValueError(f"expected the render mode 'ansi' or None, not {render_mode!r}")
        if game is not None and (rooms is not None or live or endow is not None):
            raise ValueError("rooms, live quotes and tickets come from the game file: leave them "
                             "out")
        if endow not in (None, "classic"):
            raise ValueError(f"expected endow as 'classic' or None, not {endow!r:.60}")
        if rooms is not None and not _are_rooms(rooms):
            raise ValueError(f"expected rooms as two numbers from 1 to {MOST_ROOMS}, the least "
                             f"first, not {rooms!r:.60}")
        if not isinstance(rounds, int) or not 1 <= rounds <= MOST_ROUNDS:
            raise ValueError(f"expected rounds from 1 to {MOST_ROUNDS}, not {rounds!r:.60}")
        self.render_mode = render_mode
        self._given: Optional[Game] = None
        if game is not None:
            self._given = read_game(Path(game).read_bytes().decode("latin-1"))
        words = self._given.words if self._given else [f"seat{seat}" for seat in range(SEATS)]
        self._rivals = _rivals_by_seat(rivals or {}, words)
        self._seats = {word: seat for seat, word in enumerate(words) if seat not in self._rivals}
        self.possible_agents = list(self._seats)
        self._zeros: Values = dict.fromkeys(self._seats, 0)
        self._falses: Values = dict.fromkeys(self._seats, False)
        self._rooms, self._live, self._endow, self._rounds = rooms, live, endow, rounds
        self._has_hindsight = hindsight
        self._seeds: Optional[random.Random] = None  # draws those of games that have none given
        self._last: Optional[Tuple[int, Game, str]] = None  # the last made game and its seed
        self._spaces: Dict[Tuple[str, int], Any] = {}
        self._market: Optional[Market] = None
        self.agents: List[str] = []
        self.seed: Optional[int] = None
        self._clear("")

    def _clear(self, game: str) -> None:
        """Forgets the game before."""
        self.game, self.tick, self.round = game, 0, 0
        self.log: Optional[bytes] = None
        self._script = b""  # of a game that is no longer played
        self._boards: Tuple[Board, ...] = ()
        self._books: Optional[Books] = None
        self._known: List[Tuple[str, Values]] = []  # what each agent sees until more moves
        self._moves = -1
        self._clients: List[Tuple[Tuple[int, ...], ...]] = []
        self._players: Optional[Players] = None  # the rivals
        self._scorer: Optional[Scorer] = None
        self._scores_now: Optional[List[int]] = None  # of all seats, if nobody asks anything more

    @property
    def script(self) -> str:
        """The requests and ticks of the game so far, as a script for `tac play`."""
        return (self._market.script if self._market else self._script).decode()

    def observation_space(self, agent: str) -> Any:
        """The space of an agent's observations, the same at each call. Raises ModuleNotFoundError
        where `gymnasium` is not installed."""
        return self._space("observation_space", self._seats[agent], self._rounds)

    def action_space(self, agent: str) -> Any:
        """The space of an agent's actions (`geesefuton.learning.spaces`), the same at each call.
        Raises ModuleNotFoundError where `gymnasium` is not installed."""
        return self._space("action_space", self._seats[agent])

    def _space(self, name: str, seat: int, *given: int) -> Any:
        if (name, seat) not in self._spaces:
            make = getattr(import_module("geesefuton.learning.spaces"), name)
            self._spaces[name, seat] = make(*given)
        return self._spaces[name, seat]

    def reset(self, seed: Optional[int] = None,
              options: Optional[Values] = None) -> Tuple[Values, Values]:
        """Begins a game, and ends the current one.

        Args:
            seed: What the game is made from, 0 to 18446744073709551615; None for a number that is
                drawn by the seed that was given last, or by the system's entropy if none was. A
                game of a file is the same for each, but what its rivals draw is not.
            options: What is given is ignored.

        Raises ValueError where the seed is none, and ProgramError where there is no program, or it
        ended with an error."""
        source = self._seeds
        if seed is None:
            seed = (source or random.SystemRandom()).randrange(MOST_SEED + 1)
        else:
            seed = _seed(seed)
            source = random.Random(seed)
        self.close()
        game, text = (self._given, "") if self._given else self._made(seed)
        market = Market(game, text)
        self.seed = None if self._given else seed
        self._seeds = source
        self._clear(market.text)
        self._market = market
        self._books, self._boards = market.books, tuple(market.books.boards)
        self._clients = [tuple([client[:3] + client.values for client in clients])
                         for clients in game.clients]
        self._scorer = Scorer(game) if self._has_hindsight else None
        self._players = Players(market, self._rivals, seed)
        self.agents = list(self.possible_agents)
        infos = {agent: {"endow": list(game.endow[seat]), "clients": self._clients[seat]}
                 for agent, seat in self._seats.items()}
        return self._observations(), infos

    def _made(self, seed: int) -> Tuple[Game, str]:
        if self._last is None or self._last[0] != seed:
            game = varied(made_game(seed), seed, self._rooms, self._live, self._endow is not None)
            self._last = seed, game, game.text()
        return self._last[1:]

    def step(self, actions: Actions) -> Step:
        """Asks the requests of the agents, and lets a tick pass after the last round.

        Args:
            actions: For each agent that asks something the list of its request lines, without line
                ends. One of more than 512 bytes is answered `no toolong`, as over a link, and
                `quit` is not asked, but answered `no syntax`.

        Raises ActionError where there is no game, or an action cannot be asked; nothing has changed
        then. Raises ProgramError where the program ended with an error; the game is lost then."""
        asked = self._asked(actions)
        assert self._market is not None
        try:
            replies = self._play(self._market, asked)
            self.round += 1
            if self.round == self._rounds:
                self.round = 0
                self._market.advance()
                self.tick += 1
            self._boards = tuple(self._market.books.boards)
            return self._told(self._market, replies)
        except BaseException:
            self.close()
            raise

    def _asked(self, actions: Actions) -> Dict[int, List[str]]:
        if self._market is None:
            raise ActionError("no game has begun: call reset first")
        if not isinstance(actions, (dict, abc.Mapping)):
            raise ActionError(f"expected actions as a dictionary by agent, not {actions!r:.60}")
        asked: Dict[int, List[str]] = {}
        for agent, requests in actions.items():
            seat = self._seats.get(agent)
            if seat is None:
                raise ActionError(f"there is no agent {agent!r:.60}")
            if not isinstance(requests, (list, tuple)):
                raise ActionError(f"expected the action of {agent} as a list of requests, "
                                  f"not {requests!r:.60}")
            for request in requests:
                _check(agent, request)
            asked[seat] = list(requests)
        try:
            if asked:
                self._market.counted([(seat, line) for seat, lines in asked.items()
                                      for line in lines])
        except LimitError as fault:
            raise ActionError(str(fault)) from None
        return asked

    def _play(self, market: Market, asked: Dict[int, List[str]]) -> Replies:
        """Lets each seat act, and gives the replies to each that asked something."""
        waiting: List[Tuple[int, str]] = []
        replies: Replies = {}
        if not asked and not self._rivals:
            return replies
        before = market.changes
        for seat in [*order_of_turn(self.tick, self.round, market.first), None]:
            if seat is not None and seat not in self._rivals:
                waiting += [(seat, line) for line in asked.get(seat, ())]
                continue
            for (asking, _), reply in zip(waiting, market.ask(waiting)):
                replies.setdefault(market.game.words[asking], []).append(reply)
            waiting = []
            if seat is not None and self._players is not None:
                self._players.act(seat)
        if market.changes != before:
            self._scores_now = None  # no other request changes what anybody gets
        return replies

    def _told(self, market: Market, replies: Replies) -> Step:
        agents = self.agents
        observations = self._observations()
        # Copies take a fifth of the time of new dictionaries.
        rewards, are_over, are_cut = self._zeros.copy(), self._falses.copy(), self._falses.copy()
        infos: Values = {agent: {"replies": replies.get(agent, [])} for agent in agents}
        if self.tick == TICKS:
            self.log = market.finish()
            self._scores_now = market.scores
            rewards = {agent: self._scores_now[self._seats[agent]] for agent in agents}
            are_over = dict.fromkeys(agents, True)
            self.close()
        if self._scorer is not None:
            if self._scores_now is None:
                self._scores_now = self._scorer.scores(market.books)
            for agent in agents:
                infos[agent]["hindsight"] = self._scores_now[self._seats[agent]]
        return observations, rewards, are_over, are_cut, infos

    def _observations(self) -> Values:
        books, tick, round_, boards = self._books, self.tick, self.round, self._boards
        assert books is not None
        if self._moves != books.moves:
            self._moves = books.moves
            self._known = [(agent, {
                "tick": 0, "round": 0, "quotes": boards, "holdings": tuple(books.holdings[seat]),
                "cash": books.cash[seat], "clients": self._clients[seat]})
                for agent, seat in self._seats.items()]
        observations: Values = {}
        for agent, known in self._known:
            seen = observations[agent] = known.copy()  # quicker than to make it from its parts
            seen["tick"], seen["round"], seen["quotes"] = tick, round_, boards
        return observations

    def clone(self) -> "Environment":
        """The same environment in the same game, which goes on by itself, in a process of its own.

        `copy.copy` and `copy.deepcopy` give the same. Raises ProgramError where there is no
        program, or it ended with an error."""
        return copy.deepcopy(self)

    __copy__ = clone

    def render(self) -> str:
        """The tick and the boards of all goods as a text of some lines.

        A flight and a hotel night have their price, a ticket the highest bid and the lowest ask,
        in dollars; a closed auction has `x` after these.
        """
        return f"tick {self.tick} of {TICKS}\n{text_of(self._boards)}"

    def close(self) -> None:
        """Ends the game that is played. Another may be begun."""
        self.agents = []
        if self._market is not None:
            self._script = self._market.script
            self._market.close()
            self._market, self._players = None, None


def _rivals_by_seat(rivals: Rivals, words: Sequence[str]) -> Dict[int, Maker]:
    """What makes the rival of each seat that has one. Raises ValueError where there is no such
    seat, no such agent is shipped, or no seat is left."""
    for word in rivals:
        if word not in words:
            raise ValueError(f"there is no seat {word!r:.60}")
    if len(rivals) == SEATS:
        raise ValueError("rivals have all seats: leave one for an agent")
    return {words.index(word): maker_of(rival) for word, rival in rivals.items()}


def _seed(seed: Any) -> int:
    """A seed as a number, also where it is one of another library. Raises ValueError where it is
    none."""
    try:
        number = index(seed)
    except TypeError:
        number = -1
    if not 0 <= number <= MOST_SEED:
        raise ValueError(f"expected a seed from 0 to {MOST_SEED}, not {seed!r:.60}")
    return number


def _are_rooms(rooms: Any) -> bool:
    return (isinstance(rooms, (list, tuple)) and len(rooms) == 2
            and all(isinstance(number, int) for number in rooms)
            and 1 <= rooms[0] <= rooms[1] <= MOST_ROOMS)


def _check(agent: str, request: Any) -> None:
    """Sees that a request is a line. Raises ActionError where it is none."""
    if not isinstance(request, str):
        raise ActionError(f"expected a request of {agent} as a text, not {request!r:.60}")
    try:
        is_line = request.isascii() and "\n" not in request or b"\n" not in request.encode()
    except UnicodeEncodeError:
        is_line = False
    if not is_line:
        raise ActionError(f"{agent} cannot ask {request!r:.60}")
