"""Why a team got its score: what it held, wanted and bid at each tick, the worth of its best plan
at that time, and its costliest decisions.

`Books` find the plan at the prices of a time; plan and cash together are worth the score that
the team would get if it bought the missing goods at once. So each fall of this worth shows the cost
of a decision: a trade, rooms that were wanted but not won at a closing, or flights that became
dearer while the team waited.
"""

from typing import Dict, Iterable, List, NamedTuple, Tuple

from geesefuton.records.books import Books
from geesefuton.records.games import CLOCK, FLIGHTS, HOTELS, SEATS, Game, name_of
from geesefuton.records.logs import Log
from geesefuton.records.ticks import Placed, entries_by_tick, ticks_by_log

MOST = 3  # decisions that are told of a team


class Moment(NamedTuple):
    """A team after a tick."""

    worth: int  # what its best plan is worth with its cash, in dollars
    cash: int  # what it was paid less what it paid
    held: Tuple[int, ...]  # its units of the 28 goods
    wanted: Tuple[int, ...]  # the units that are missing for its best plan
    # what stands of its bids for flights and rooms, by goods, such as `2 at 130`
    bids: Dict[int, str]


class Decision(NamedTuple):
    """What a team did or did not do: what it cost in dollars, and a sentence that tells it."""

    cost: int
    text: str


class Story(NamedTuple):
    """A team's game: its moments from tick 0 to 54, and the decisions that cost most."""

    moments: List[Moment]
    decisions: List[Decision]


def stories(game: Game, log: Log) -> List[Story]:
    """The story of each of the eight teams."""
    accounts = Books(game)
    teams = [_Team(accounts, agent) for agent in range(SEATS)]
    for tick, entries in enumerate(entries_by_tick(ticks_by_log(game, log), log)):
        for part in _parts(entries):
            for entry in part:
                accounts.take(entry[0], entry[2])
            for team in teams:
                team.follow(tick, part)
        for team in teams:
            team.end_tick()
    return [team.story() for team in teams]


def _parts(entries: List[Placed]) -> List[List[Placed]]:
    """The entries of a tick, in parts whose effects are told apart: the flights' prices, the
    closing of a hotel night, the prices of the others, and what the agents did."""
    clock = [entry for entry in entries if entry[2].caller == CLOCK]
    closing = [entry for entry in clock if entry[0] in HOTELS and entry[2].call.do == "close"]
    others = [entry for entry in clock if entry[0] in HOTELS and entry not in closing]
    agents = [entry for entry in entries if entry[2].caller != CLOCK]
    return [part for part in ([entry for entry in clock if entry[0] not in HOTELS], closing, others,
                              agents) if part]


class _Team:
    """Follows one team."""

    def __init__(self, accounts: Books, agent: int) -> None:
        self._accounts, self._agent = accounts, agent
        self._plan = accounts.plan(agent)
        self._cash = accounts.cash[agent]
        self._moments: List[Moment] = []
        self._decisions: List[Decision] = []
        self._waited, self._until = 0, 0

    def follow(self, tick: int, part: List[Placed]) -> None:
        """A part of a tick's entries has been worked through."""
        before, worth = self._plan, self._worth()
        trades = [(good, sign * trade.units, trade.price) for good, _, entry in part
                  for trade in entry.trades
                  for party, sign in ((trade.buyer, 1), (trade.seller, -1)) if party == self._agent]
        is_agents = part[0][2].caller != CLOCK
        if is_agents and not trades:
            return  # others' offers of tickets count from the next tick on
        self._plan = self._accounts.plan(self._agent, before)
        self._cash = self._accounts.cash[self._agent]
        cost = worth - self._worth()
        good, _, first = part[0]
        if is_agents:
            self._decide(cost, f"Tick {tick}: {_told(trades)}")
        elif good in HOTELS and first.call.do == "close":
            won = sum(units for _, units, _ in trades)
            at = f" at {trades[0][2]}" if trades else ""
            self._decide(cost, f"Tick {tick}: {name_of(good)} closed, and it won {won or 'no'} "
                               f"room{'' if won == 1 else 's'}{at} where its best plan wanted "
                               f"{before.missing[good]}")
        elif good in FLIGHTS and any(before.missing[flight] for flight in FLIGHTS):
            self._waited, self._until = self._waited + cost, tick

    def end_tick(self) -> None:
        """The tick is over."""
        accounts, agent = self._accounts, self._agent
        bids = {good: ", ".join(f"{units} at {price}" for units, price in points)
                for good, points in accounts.standing(agent).items()}
        self._moments.append(Moment(self._worth(), accounts.cash[agent],
                                    tuple(accounts.holdings[agent]), self._plan.missing, bids))

    def story(self) -> Story:
        """What was seen."""
        self._decide(self._waited, f"Until tick {self._until}: waited with flights that its plans "
                                   "wanted, which became dearer or closed meanwhile")
        return Story(self._moments, sorted(self._decisions, reverse=True)[:MOST])

    def _worth(self) -> int:
        return self._cash + self._plan.value

    def _decide(self, cost: int, text: str) -> None:
        if cost > 0:
            self._decisions.append(Decision(cost, f"{text}. Its best plan was worth {cost:,} less "
                                                  "afterwards."))


def _told(trades: Iterable[Tuple[int, int, int]]) -> str:
    """Trades of one team in a tick, in words."""
    sums: Dict[Tuple[int, int, bool], int] = {}
    for good, units, price in trades:
        key = good, price, units > 0
        sums[key] = sums.get(key, 0) + abs(units)
    return ", ".join(f"{'bought' if is_bought else 'sold'} {units} of {name_of(good)} at {price}"
                     for (good, price, is_bought), units in sums.items())
