"""Makes a page of a game: scores, payments, prices over the ticks, trips, trades.

    geesefuton report my.game my.log > page.html
    geesefuton report --csv my.game my.log > rows.csv

The log is audited first: if it is not sound there is no page. An agent is
called by the letters before the digits of its word if these differ, or by its
number. In the CSV `price` is the published price from that entry on, `close`
that of a hotel's closing, `trade` what an agent bought (above 0) or sold, with
the dollars a unit, `score` a score. A call has the tick of the clock's last
call there, and trades of tickets have none.
"""

import time
from functools import partial
from pathlib import Path
from typing import Optional, Tuple

from geesefuton import program
from geesefuton.arguments import Parser
from geesefuton.experiments.comparisons import missing_libraries
from geesefuton.experiments.forms import printed
from geesefuton.experiments.joining import read_source
from geesefuton.experiments.summary import summarize
from geesefuton.processes import command
from geesefuton.records.games import Game, GameError, read_game
from geesefuton.records.hindsight import stories
from geesefuton.records.logs import Log, LogError, read_log
from geesefuton.records.report_page import Heading, page
from geesefuton.records.seat_names import names_of
from geesefuton.records.tables import csv_of
from geesefuton.records.ticks import MarketEvent, all_events


def _read_both(game_file: Path, log_file: Path) -> Tuple[Game, Log]:
    try:
        game = read_game(game_file.read_bytes().decode("latin-1"))
    except GameError as fault:
        raise program.CommandError(f"{game_file} is not a game file: {fault}") from None
    try:
        return game, read_log(log_file.read_bytes())
    except LogError as fault:
        raise program.CommandError(f"{log_file} is not a complete log: {fault}") from None


def _csv_text(game: Game, log: Log) -> str:
    lines = [MarketEvent._fields, *all_events(game, log)]
    scores = [("score", "", "", "", score.agent, "", score.score) for score in log.scores]
    return csv_of([*lines, *scores])


def _over(folder: Path, figures: Optional[Path]) -> int:
    """Prints the page of a run's folder, if it has games, and gives the exit status; a folder of
    figures gets the page's pictures."""
    missing = missing_libraries("pages and pictures of a run")
    if missing:
        raise program.CommandError(missing)
    source = read_source(folder)
    from geesefuton.experiments import overview, overview_page  # which need the libraries
    found, faults = overview.gathered(folder, source.rows)
    faults, text = [*source.told, *faults], ""
    if not found.games.empty:
        summary = summarize(source.rows)
        text = overview_page.page(found, folder.name, source.rows[0], summary)
        faults += overview_page.write_figures(figures, found, summary) if figures else []
    return printed("report", text, faults)


def _main() -> int:
    parser = Parser("report", __doc__)
    add = parser.add_argument
    add("--csv", action="store_true", help="write CSV instead of a page")
    add("--why", action="store_true",
        help="show each team over the ticks, and what cost it most")
    add("--names", action="store_true", help="show agents by their seat words, which are passwords")
    add("--over", type=Path, metavar="FOLDER",
        help="show an overview of the games of a tournament")
    add("--figures", type=Path, metavar="FOLDER",
        help="with --over: also write its pictures to this folder")
    add("game", type=Path, nargs="?", help="the game file")
    add("log", type=Path, nargs="?", help="the log")
    given = parser.parse_args()
    if given.over is not None and (given.game or given.csv or given.why):
        parser.error("--over takes only a folder")
    if given.figures is not None and given.over is None:
        parser.error("--figures needs --over")
    if given.over is None and given.log is None:
        parser.error("give a game file and a log, or --over and a folder")
    if given.over is not None:
        return _over(given.over, given.figures)
    game, log = _read_both(given.game, given.log)
    said = program.audit(given.game, given.log)
    if said != "sound":
        raise program.CommandError(f"{given.log} is not sound by {given.game}: `tac audit` says "
                                   f"`{said}`")
    if given.csv:
        return printed("report", _csv_text(game, log))
    written = time.strftime("%Y-%m-%d at %H:%M", time.localtime(given.log.stat().st_mtime))
    return printed("report", page(
        game, log, all_events(game, log), Heading(given.game.name, written),
        names_of(game.words, given.names), stories(game, log) if given.why else []))


main = partial(command, "report", _main)
