"""Numeric games in steps, for learners that take arrays.

They need `numpy`, and for the spaces `gymnasium` (`pip install 'geesefuton[learn]'`). If Gymnasium
and PettingZoo are installed, `Seat` is an `Env` of the one, and `Seats` a `ParallelEnv` of the
other. `gymnasium.make("geesefuton.learning.numeric:geesefuton/Seat-v2")` then makes a `Seat`.

    environment = Seat(rivals=dict.fromkeys(SEATS[1:], "planner"))
    observation, info = environment.reset(seed=42)
    observation, reward, terminated, truncated, info = environment.step(action)

**An observation** is an array of 155 numbers, each scaled to a size of about 1: the tick; the asks
of all goods; the bids of the tickets; which hotel nights are closed; the seat's units of each good;
the units that its trips at current prices lack (`geesefuton.learning.trips`); its cash; the worth
of these trips; and six numbers for each client.

**An action** has a level for each of the 28 goods, 0 to 5; level 0 leaves the standing bid. A
flight's level above 0 buys the seats that the trips lack. A hotel night's level bids for all the
rooms that they use 1, 25, 50, 100 or 200 dollars above the quote. A ticket's levels bid for one at
20, 50 or 80 dollars, or offer one at 60 or 100.

**The reward** is the growth of the promised score, in thousands of dollars: the worth of the trips,
plus the cash. After the last step the score itself counts; so the rewards of a game add up to its
score less the score promised at first.
"""

from __future__ import annotations

from functools import cached_property
from importlib import import_module
from typing import Any, Dict, List, Mapping, Optional, Sequence, Tuple

import numpy

from geesefuton.learning.environment import Environment, Step
from geesefuton.learning.interfaces import Env, register
from geesefuton.learning.trips import NEVER, chosen
from geesefuton.records.games import FLIGHTS, GOODS, HOTELS, TICKETS, TICKS

SEATS = [f"seat{number}" for number in range(8)]
LEVELS = 6
ABOVE = (1, 25, 50, 100, 200)  # dollars above the quote of a hotel night, by level from 1
FOR_A_SEAT = 50  # dollars above a flight's price that a bid may pay
TRADES = ((1, 20), (1, 50), (1, 80), (-1, 60), (-1, 100))  # of tickets, units and dollars
MOST = 10_000  # dollars of a bid
SIZE = 1 + 28 + len(TICKETS) + len(HOTELS) + 28 + 28 + 2 + 8 * 6
WISHES = (5, 5, 150, 200, 200, 200)  # what a client's numbers are scaled by
THOUSAND = 1000


def observation_space() -> Any:
    """The space of observations."""
    return import_module("gymnasium.spaces").Box(-100.0, 100.0, (SIZE,), numpy.float32)


def action_space() -> Any:
    """The space of actions."""
    return import_module("gymnasium.spaces").MultiDiscrete([LEVELS] * len(GOODS))


class View:
    """What a seat sees, in numbers, and what it asks.

    Attributes:
        promised: What its trips and its cash promise as a score, in dollars.
    """

    def __init__(self, seen: Dict[str, Any]) -> None:
        self._seen = seen
        quotes, held = seen["quotes"], seen["holdings"]
        prices = [NEVER if is_closed else max(ask, 1) if good < TICKETS.start else ask or NEVER
                  for good, (_, ask, is_closed) in enumerate(quotes)]
        self._trips = chosen(seen["clients"], prices, held)
        self.promised = self._trips.worth + int(seen["cash"])

    def observation(self) -> Any:
        """The array of numbers."""
        seen, quotes = self._seen, self._seen["quotes"]
        numbers = [seen["tick"] / TICKS, *(ask / 500 for _, ask, _ in quotes),
                   *(quotes[good][0] / 200 for good in TICKETS),
                   *(float(quotes[good][2]) for good in HOTELS),
                   *(units / 8 for units in seen["holdings"]),
                   *(self._lacking(good) / 8 for good in GOODS),
                   seen["cash"] / 5000, self._trips.worth / 5000]
        for client in seen["clients"]:
            numbers += [wish / scale for wish, scale in zip(client, WISHES)]
        return numpy.array([min(100.0, max(-100.0, number)) for number in numbers],
                           dtype=numpy.float32)

    def _lacking(self, good: int) -> int:
        return max(0, self._trips.wanted[good] - max(0, int(self._seen["holdings"][good])))

    def requests(self, action: Sequence[int]) -> List[str]:
        """The requests that an action stands for. Raises ValueError where it is no action."""
        levels = [int(level) for level in action]
        if len(levels) != len(GOODS) or not all(0 <= level < LEVELS for level in levels):
            raise ValueError(f"expected {len(GOODS)} levels from 0 to {LEVELS - 1}")
        asked = []
        for good, level in enumerate(levels):
            _, ask, is_closed = self._seen["quotes"][good]
            units, price = self._lacking(good), ask
            if good in FLIGHTS:
                price += FOR_A_SEAT
            elif good in HOTELS:
                units, price = self._trips.wanted[good], ask + ABOVE[level - 1]
            else:
                units, price = TRADES[level - 1]
            if level and units and not is_closed and price <= MOST:
                asked.append(f"bid {good} (({min(units, 16)} {price}))")
        return asked

    def reward(self, before: View, is_over: bool, score: int, info: Dict[str, Any]) -> float:
        """The reward of the step from the view before. If the game is over, its score in dollars
        counts, and is put into the infos."""
        if is_over:
            info["score"] = score
        return ((score if is_over else self.promised) - before.promised) / THOUSAND


class Seats(Environment):
    """Games of all seats that no rival has, by PettingZoo's parallel interface in numbers. It is
    made, and ends, as an `Environment`."""

    metadata = {**Environment.metadata, "name": "geesefuton_numeric_v2"}

    def __init__(self, *given: Any, **settings: Any) -> None:
        super().__init__(*given, **settings)
        self._views: Dict[str, View] = {}

    @cached_property
    def _numeric(self) -> Dict[str, Tuple[Any, Any]]:
        return {agent: (observation_space(), action_space()) for agent in self.possible_agents}

    def observation_space(self, agent: str) -> Any:
        """The space of an agent's observations, the same at each call."""
        return self._numeric[agent][0]

    def action_space(self, agent: str) -> Any:
        """The space of an agent's actions, the same at each call."""
        return self._numeric[agent][1]

    def reset(self, seed: Optional[int] = None,
              options: Optional[Dict[str, Any]] = None) -> Tuple[Dict[str, Any], Dict[str, Any]]:
        """Begins a game, as `Environment.reset`. Gives for each agent its observation and infos."""
        seen, infos = super().reset(seed, options)
        self._views = {agent: View(each) for agent, each in seen.items()}
        return self._arrays(), infos

    def step(self, actions: Mapping[str, Any]) -> Step:
        """Plays a step, as `Environment.step`. An agent without an action asks nothing. Raises
        ValueError where there is no game or no such agent, or an action is none. Nothing has
        changed."""
        asked = {agent: self._views[agent].requests(action) if agent in self._views else []
                 for agent, action in actions.items()}
        seen, scores, ends, breaks, infos = super().step(asked)
        before, self._views = self._views, {agent: View(each) for agent, each in seen.items()}
        rewards = {agent: view.reward(before[agent], ends[agent], scores[agent], infos[agent])
                   for agent, view in self._views.items()}
        return self._arrays(), rewards, ends, breaks, infos

    def _arrays(self) -> Dict[str, Any]:
        return {agent: view.observation() for agent, view in self._views.items()}


class Seat(Env):  # type: ignore[misc]
    """Games of one seat, as an environment of Gymnasium. No other seat's view is made.

    Args:
        agent: The name of the seat. The others are rivals', or nobody's.
        settings: Those of `Environment`, such as `rivals` and `rooms`.

    Raises ValueError where no such seat is free, or as `Environment`."""

    metadata = {"render_modes": ["ansi"]}

    def __init__(self, agent: str = "seat0", **settings: Any) -> None:
        self._games = Environment(**settings)
        if agent not in self._games.possible_agents:
            raise ValueError(f"{agent!r:.60} must be a seat without a rival")
        self.agent, self.render_mode = agent, self._games.render_mode
        self._view: Optional[View] = None

    @cached_property
    def observation_space(self) -> Any:
        """The space of observations, the same at each call."""
        return observation_space()

    @cached_property
    def action_space(self) -> Any:
        """The space of actions, the same at each call."""
        return action_space()

    def reset(self, *, seed: Optional[int] = None,
              options: Optional[Dict[str, Any]] = None) -> Tuple[Any, Dict[str, Any]]:
        """Begins a game, as `Environment.reset`. Gives the observation and infos."""
        super().reset(seed=seed)
        seen, infos = self._games.reset(seed, options)
        self._view = View(seen[self.agent])
        return self._view.observation(), infos[self.agent]

    def step(self, action: Any) -> Tuple[Any, float, bool, bool, Dict[str, Any]]:
        """Plays a step. Gives the observation, the reward, whether the game is over, whether it
        broke off (never), and infos, which have the `score` in the end. Raises ValueError where
        there is no game, or the action is none. Nothing has changed."""
        before = self._view
        if before is None:
            raise ValueError("no game has begun: call reset first")
        told = self._games.step({self.agent: before.requests(action)})
        seen, score, end, is_broken, info = (each[self.agent] for each in told)
        self._view = View(seen)
        reward = self._view.reward(before, end, score, info)
        return self._view.observation(), reward, end, is_broken, info

    def render(self) -> str:
        """The boards as text."""
        return self._games.render()

    def close(self) -> None:
        """Ends the game that is played."""
        self._games.close()


register(id="geesefuton/Seat-v2", entry_point="geesefuton.learning.numeric:Seat")
