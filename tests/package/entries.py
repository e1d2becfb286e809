"""Entries of logs, as tests make them, and games that are kept as data."""

from typing import Any, List, Tuple

from geesefuton.records.games import CLOCK, Game
from geesefuton.records.logs import Call, Entry, Log, Trade, read_log
from geesefuton.records.replies import Reply, read_entry_reply
from tests.package.helpers import DATA, served_game, served_log
from tests.package.journals import GAME

TAKEN, DONE = read_entry_reply("taken 0 0"), read_entry_reply("done")
GAMES: List[Tuple[Game, Log]] = [(served_game(), served_log()),
                                 (GAME, read_log((DATA / "lobby.log").read_bytes()))]


def bid(agent: int, *points: Tuple[int, int], trades: Tuple[Trade, ...] = (),
        reply: Reply = TAKEN) -> Entry:
    """A bid, which is admitted unless the reply says otherwise."""
    return Entry(agent, Call("bid", points), reply, trades)


def withdrawal(agent: int) -> Entry:
    return Entry(agent, Call("withdraw"), DONE)


def by_clock(do: str, *trades: Trade, **more: Any) -> Entry:
    """A call of the clock."""
    return Entry(CLOCK, Call(do, **more), DONE, trades)


def refused(reason: str) -> Reply:
    return read_entry_reply(f"no {reason}")
