"""What the live page shows of a game: the worth of each agent's best plan at current prices, the
trades; and how much of it agents may see.

A plan counts what an agent holds, what it still has to buy for its trips at the prices shown, and
what it has paid. It ignores later prices and closings. The page shows what only one agent can know
some ticks late.
"""

from __future__ import annotations

from dataclasses import dataclass
from typing import Any, Dict, List, Optional

from geesefuton.hosting.journal import JournalReader
from geesefuton.hosting.nights import Night, PriceSteps, tick_of
from geesefuton.hosting.recovery import Player, Recovery
from geesefuton.records.best_plans import parts_of
from geesefuton.records.books import Books
from geesefuton.records.games import CLOCK, DRAWS, GOODS, SEATS, TICKETS
from geesefuton.records.logs import Log, read_log
from geesefuton.records.rules import prices_of
from geesefuton.records.seat_names import names_of

SILENT = 9  # ticks without a line after which an agent is shown as silent
MOST_TRADES = 60  # that are shown


@dataclass(frozen=True)
class Projection:
    """What the log of a game so far says."""

    tick: int  # the last one
    # Each agent's: its worth with the cash, the cash, what is to be bought, and by how much that
    # raises its worth.
    plans: List[List[int]]
    scores: List[List[int]]  # after the game each agent's best total, cash, tickets short, score
    asks: List[PriceSteps]  # of the hotel nights 8 to 15
    trades: List[List[float]]  # of tickets: tick, good, buyer, seller and dollars
    silent: List[int]  # the agents that are here and have said nothing for some ticks
    refused: List[int]  # those whose lines were all refused
    empty: List[int]  # those that have neither a flight nor a room


def project(reader: JournalReader, nights: List[Night], player: Player) -> Projection:
    """What the log of the game so far says, by a journal that is not changed meanwhile.

    Raises:
        RecoveryError: The replies so far are not those of a game.
        LogError: The log is none.
        OSError: The script cannot be written.
    """
    game, is_over = reader.game, reader.status is not None
    assert game is not None
    recovery = Recovery(reader, player, live=not is_over)
    _, text = player.play(game.text(), recovery.script(quotes=False).text)
    log = read_log(text)
    agents, accounts = reader.agents, _accounts(log, reader)
    return Projection(
        reader.tick,
        [plan_of(accounts, agent) for agent in range(SEATS)],
        [[row.best, row.cash, row.short, row.score] for row in log.scores] if is_over else [],
        [night.asks for night in nights],
        _trades(log, reader),
        [number for number, agent in enumerate(agents)
         if agent.is_here and agent.end is None and reader.tick - agent.last >= SILENT],
        [number for number, agent in enumerate(agents)
         if agent.refused and agent.refused == agent.answered],
        [agent for agent in range(SEATS) if is_empty(accounts, agent)])


def _accounts(log: Log, reader: JournalReader) -> Books:
    """What the agents hold now. Of the log, which goes on to the end of the game, the clock's calls
    after the last tick do not count, and what they sell neither."""
    assert reader.game is not None and reader.schedule is not None
    accounts = Books(reader.game)
    for good in GOODS:
        clocks = reader.schedule.most(good, reader.tick)
        for entry in log.histories[good]:
            clocks -= entry.caller == CLOCK
            if clocks < 0:
                break
            accounts.take(good, entry)
    return accounts


def plan_of(accounts: Books, agent: int) -> List[int]:
    """What an agent's plan is worth now, as in a projection's `plans`. Of a trip that lacks
    something, what is held of it counts by its price, and the rest is what is still to be bought
    for."""
    plan, prices = accounts.plan(agent), accounts.prices_for(agent)
    cash, held, to_buy, hoped = accounts.cash[agent], accounts.holdings[agent], 0, 0
    for client, trip, (own, lacking) in zip(accounts.clients[agent], plan.packages,
                                            parts_of(plan.packages, held)):
        cost = sum(prices[good] or 0 for good in lacking)
        to_buy += cost
        if lacking:
            own_worth = sum(accounts.boards[good][1] for good in own if good not in TICKETS)
            hoped += max(0, client.worth(trip) - cost - own_worth)
    return [cash + plan.value, cash, to_buy, hoped]


def is_empty(accounts: Books, agent: int) -> bool:
    """Whether an agent has neither a flight nor a room."""
    return not any(accounts.holdings[agent][:TICKETS.start])


def _trades(log: Log, reader: JournalReader) -> List[List[float]]:
    """The trades of tickets, in time, which is that of the reply to the later bid."""
    bids = {(call.asked.good, call.at): call for call in reader.calls
            if call.asked.good in TICKETS and call.asked.keyword == "bid"}
    trades: List[List[float]] = []
    for good in TICKETS:
        last = 0.0
        for position, entry in enumerate(log.histories[good]):
            for trade in entry.trades:
                bid = bids.get((good, position))
                last = tick_of(bid, reader.pace, last) if bid else last
                trades.append([last, good, trade.buyer, trade.seller, trade.price])
    return sorted(trades, key=lambda trade: trade[0])


@dataclass(frozen=True)
class View:
    """What a page may show."""

    late: int  # ticks by which what agents cannot ask is shown later; 54 is after the game
    by_word: bool  # whether agents are called by their seat words

    def state(self, reader: JournalReader, nights: Optional[List[Night]],
              secret: Optional[Projection], is_final: bool) -> Dict[str, Any]:
        """What the page is sent: of the nights, which are those of now, prices and closings; and
        the projection that may be shown, which has the game's end if that is final."""
        game = reader.game
        assert game is not None
        names = names_of(game.words, self.by_word)
        phase = "over" if is_final else "running" if reader.has_begun else "waiting"
        state: Dict[str, Any] = {
            "phase": phase, "tick": reader.tick, "pace": reader.pace, "late": self.late,
            "status": reader.status, "live": game.live, "shown": secret and secret.tick,
            "agents": [self._agent(reader, number, names[number], secret)
                       for number in range(SEATS)],
            "flights": [prices_of(flight)[:min(reader.tick, DRAWS) + 1] for flight in game.flights]
            if reader.has_begun else []}
        if nights is not None:
            whole = is_final or not self.late
            state["hotels"] = [
                {"published": night.published,
                 "closed": night.closed and (night.closed if whole else night.closed[:2])}
                for night in nights]
        if secret is not None:
            state["asks"] = secret.asks
            state["trades"] = secret.trades[-MOST_TRADES:]
        return state

    def _agent(self, reader: JournalReader, number: int, name: str,
               secret: Optional[Projection]) -> Dict[str, Any]:
        agent: Dict[str, Any] = {"name": name, "here": _presence(reader, number)}
        if secret is not None:
            agent["plan"] = secret.plans[number]
            if secret.scores:
                agent["score"] = secret.scores[number]
            agent["empty"] = number in secret.empty
            if number in secret.refused:
                agent["doing"] = "refused"
            elif number in secret.silent and agent["here"] == "here" and reader.status is None:
                agent["doing"] = "silent"
        return agent


def _presence(reader: JournalReader, number: int) -> str:
    """Whether an agent is here, in one word."""
    agent = reader.agents[number]
    if agent.end is not None and agent.has_played:
        return agent.end if agent.end in ("left", "hung") else "gone"
    if agent.end is not None or agent.is_waived:
        return "absent"
    if agent.is_here:
        return "here"
    return "gone" if agent.has_played else "missing"
