"""Writes the games of a tournament as CSV tables: `games`, `deals`, `goods`,
`quotes`, `bids`, `trades`, `scores` and `trips`.

    geesefuton data runs/1 tables

FOLDER is the folder of a run (`tournament --out`). The command reports a game
whose files are missing or do not belong together, and goes on with the others.
The exit status is 0 if it wrote all games.
"""

import os
from functools import partial
from pathlib import Path
from typing import Iterable, Iterator, List, Sequence, Set, Tuple

from geesefuton.arguments import Parser
from geesefuton.experiments.joining import read_source
from geesefuton.experiments.runs import KeptGame, read_games
from geesefuton.processes import Output, command, tell
from geesefuton.records.data import TABLES
from geesefuton.records.games import AUCTIONS, CLOCK, FLIGHTS, GOODS, HOTELS, HOUSE, TICKETS, Game
from geesefuton.records.logs import Entry, gains_of
from geesefuton.records.replies import No, entry_words
from geesefuton.records.rules import PENALTY
from geesefuton.records.tables import csv_of
from geesefuton.records.ticks import boards_by_tick

Cells = Sequence[object]


def _write(folder: Path, games: Iterable[KeptGame]) -> List[str]:
    """Writes the tables of games to a new or empty folder; gives what failed."""
    files = {table: Output(folder / f"{table}.csv") for table in TABLES}
    for table, columns in TABLES.items():
        files[table].write(csv_of([columns]))
    deals: Set[str] = set()
    for number, kept in enumerate(games, 1):
        deal = kept.rows[0].deal
        if deal not in deals:
            deals.add(deal)
            for table, of_game in DEALS.items():
                files[table].write(csv_of((deal, *row) for row in of_game(kept.game)))
        for table, rows in ROWS.items():
            files[table].write(csv_of((number, *row) for row in rows(kept)))
    for file in files.values():
        file.close()
    return [f"{file.name}: {file.fault}" for file in files.values() if file.fault is not None][:1]


def _clients(game: Game) -> Iterator[Cells]:
    for seat, clients in enumerate(game.clients):
        for number, client in enumerate(clients):
            yield seat, number, client.premium, client.arrive, client.depart, *client.values


def _goods(game: Game) -> Iterator[Cells]:
    for good, group, day, _ in AUCTIONS:
        first = bound = rooms = ""
        closes, endow = 54, [0] * 8
        if good in FLIGHTS:
            first, bound = str(game.flights[good].first), str(game.flights[good].bound)
        elif good in HOTELS:
            night = game.hotels[good - HOTELS.start]
            rooms, closes = str(night.rooms), night.closes
        else:
            endow = [units[good - TICKETS.start] for units in game.endow]
        yield good, group, day, first, bound, rooms, closes, *endow


def _game(kept: KeptGame) -> Iterator[Cells]:
    row = kept.rows[0]
    yield (row.game_name, row.deal, row.rotation, row.kind.value, kept.source, kept.log.missed,
           int(kept.game.live), row.run, row.settings)


def _quotes(kept: KeptGame) -> Iterator[Cells]:
    for tick, boards in enumerate(boards_by_tick(kept.game, kept.log, kept.ticks)):
        for good, (bid, ask, is_closed) in enumerate(boards):
            yield tick, good, bid, ask, int(is_closed)


def _bids(kept: KeptGame) -> Iterator[Cells]:
    for tick, good, position, entry in _entries(kept):
        seat, call, reply = entry.caller, entry.call, entry.reply
        if seat == CLOCK or call.do not in ("bid", "withdraw"):
            continue
        said = reply.reason if isinstance(reply, No) else entry_words(reply).split(" ")[0]
        points: Iterable[Cells] = call.points or [("", "")]
        for units, price in points:
            yield tick, good, position, seat, kept.agents[seat], call.do, units, price, said


def _trades(kept: KeptGame) -> Iterator[Cells]:
    for tick, good, position, entry in _entries(kept):
        for trade in entry.trades:
            for seat, other, units in ((trade.buyer, trade.seller, trade.units),
                                       (trade.seller, trade.buyer, -trade.units)):
                if seat != HOUSE:
                    yield (tick, good, position, seat, kept.agents[seat], other, units,
                           trade.price, -units * trade.price)


def _entries(kept: KeptGame) -> Iterator[Tuple[int, int, int, Entry]]:
    """All entries of auctions, each with its tick, its good and its position."""
    for good in GOODS:
        for position, entry in enumerate(kept.log.histories[good]):
            yield kept.ticks[good][position], good, position, entry


def _scores(kept: KeptGame) -> Iterator[Cells]:
    for row, score, gains in zip(kept.rows, kept.log.scores, gains_of(kept.log)):
        yield (row.seat, row.agent, score.best, gains.flights, gains.hotels, gains.tickets,
               score.short, PENALTY * score.short, score.cash, score.score, row.end.value, row.luck,
               row.nights, row.first_price, row.files)


def _trips(kept: KeptGame) -> Iterator[Cells]:
    for score, clients in zip(kept.log.scores, kept.game.clients):
        for number, (client, package) in enumerate(zip(clients, score.packages)):
            trip: Cells = [""] * 6 if package is None else (
                package.hotel, package.arrive, package.depart, *package.nights)
            yield (score.agent, kept.agents[score.agent], number, *trip, client.worth(package))


DEALS = {"deals": _clients, "goods": _goods}  # a table with rows of each deal
ROWS = {"games": _game, "quotes": _quotes, "bids": _bids, "trades": _trades,
        "scores": _scores, "trips": _trips}


def _main() -> int:
    parser = Parser("data", __doc__)
    parser.add_argument("folder", type=Path, metavar="FOLDER", help="the folder of a run")
    parser.add_argument("out", type=Path, metavar="OUT", help="a new folder for the tables")
    given = parser.parse_args()
    source = read_source(given.folder)
    given.out.mkdir(parents=True, exist_ok=True)
    names = sorted(os.listdir(given.out))
    if names:
        parser.error(f"{given.out} is not empty (it has {names[0]}): name a new folder")
    told = list(source.told)
    told += _write(given.out, read_games(given.folder, source.rows, told))
    for text in told:
        tell(f"data: {text}")
    return 1 if told else 0


main = partial(command, "data", _main)
