"""Plays games between agents, several at once, and compares the agents.

    geesefuton tournament --games 20 --out FOLDER mine.py theirs.py

--against and --files may be repeated. The exit status is 0 if every game was
scored and everything was written.
"""

import argparse
import contextlib
import math
import os
import shutil
import subprocess
import sys
import time
from dataclasses import dataclass
from functools import partial
from itertools import groupby
from multiprocessing.connection import Connection, Pipe, wait
from pathlib import Path
from typing import AbstractSet, Iterator, List, NamedTuple, Optional, Sequence, Tuple

from geesefuton import program
from geesefuton.arguments import Parser
from geesefuton.experiments.agents import Job, sandbox
from geesefuton.experiments.covariates import covariates_of
from geesefuton.experiments.deals import SHORT, Table, place_of, tables
from geesefuton.experiments.entrants import Entrant, seat_words
from geesefuton.experiments.forms import as_grades, as_json, as_text, printed
from geesefuton.experiments.joining import joined, missing, pooled, read_source, whole_deals
from geesefuton.experiments.plan import Plan, make_parser, read_plan, text_of
from geesefuton.experiments.provenance import read_settings, settings_text
from geesefuton.experiments.results import Note, Result, Row
from geesefuton.experiments.results import text_of as csv_text
from geesefuton.experiments.runs import GAMES, RunError, RunFolder
from geesefuton.experiments.summary import Summary, summarize
from geesefuton.hosting import events
from geesefuton.processes import (Children, Output, Stopped, command, python_words, tell,
                                  why)
from geesefuton.records.games import SEATS
from geesefuton.records.secret_deals import agent_seed, seat_key

LEAVE = 5.0  # seconds that a game has to end its agents
GRADES = "grades.csv"
PLAYER = python_words("geesefuton.experiments.match")  # which run a process that plays games


class Player(NamedTuple):
    """A process that plays games, one after another."""

    connection: Connection
    process: "subprocess.Popen[bytes]"


@dataclass
class Running:
    """A game that is being played."""

    table: Table
    entrants: List[Entrant]
    player: Player
    deadline: float
    result: Optional[Result] = None
    has_answered: bool = False
    tick: int = 0  # the last that it has had
    told: int = 0  # the last that it knows all games of its deal to have had


class Tournament:
    """Plays the games of a plan that its folder lacks.

    Args:
        plan: The plan.
        folder: The folder, which takes the rows of each game.
        without: The games that are not to be played, by the numbers of their deals and their
            rotations.

    Attributes:
        rows: Those of the games so far, in the order in which they ended.
        lost: What was lost, each in a line.
        games: How many games are to be played.
    """

    def __init__(self, plan: Plan, folder: RunFolder,
                 without: AbstractSet[Tuple[int, int]] = frozenset()) -> None:
        self._plan, self._folder = plan, folder
        self._finished = folder.finished | without
        self._digests = {name: agent.digest[:SHORT] for name, agent in plan.agents.items()}
        self.rows: List[Row] = []
        self.lost: List[str] = []
        self.games = plan.games - sum(place_of(number, plan.rotations) in self._finished
                                      for number in range(plan.games))
        self._done = 0
        self._began = time.monotonic()

    def lose(self, text: str) -> None:
        """Tells a loss now, and again in the summary."""
        tell(text)
        self.lost.append(text)

    def play(self, children: Children) -> None:
        """Plays all games."""
        plan = self._plan
        waiting: Optional[Iterator[Tuple[object, Iterator[Table]]]] = groupby(
            tables(plan.rule, plan.games, plan.rotations, self._finished),
            lambda table: table.deal.number if plan.is_in_step else table.name)
        copies = children.folder("agents")
        self._sandboxes = {each: sandbox(each, plan.agents[each.name], copies / str(number))
                           for number, each in enumerate(plan.entrants) if plan.limits}
        running: List[Running] = []
        self._idle: List[Player] = []
        try:
            while running or waiting:
                while waiting and len(running) < plan.at_once:
                    try:
                        for table in next(waiting)[1]:
                            running.append(self._begin(children, table))
                    except StopIteration:
                        waiting = None
                    except (program.CommandError, OSError) as fault:
                        self.lose(f"stopped playing games: {why(fault)}")
                        waiting = None
                self._hear(running)
                for game in [game for game in running if self._is_over(game)]:
                    running.remove(game)
                    if game.has_answered:
                        self._idle.append(game.player)
                    else:
                        _end_all([game.player], children)
                    self._finish(game)
                if plan.is_in_step:
                    self._tell_ticks(running)
        finally:
            _end_all([game.player for game in running] + self._idle, children)

    def _begin(self, children: Children, table: Table) -> Running:
        plan, entrants = self._plan, self._plan.seated(table)
        words = seat_words(entrants)
        seeds = [agent_seed(plan.rule.secret, table.name, f"{seat} {entrant.name}")
                 for seat, entrant in enumerate(entrants)]
        keys = [seat_key(plan.rule.secret, table.name, seat) for seat in range(SEATS)]
        job = Job(table.name, plan.out / GAMES, table.deal.game.named(words).text(),
                  tuple(entrants), tuple(words), tuple(seeds), tuple(keys), plan.limits,
                  self._sandboxes, plan.is_in_step, plan.form, plan.pace, plan.start, plan.linger,
                  plan.turns, plan.patience)
        while self._idle and self._idle[-1].process.poll() is not None:
            _end_all([self._idle.pop()], children)
        player = self._idle.pop() if self._idle else self._started(children)
        with contextlib.suppress(OSError):  # it has ended, which is seen when its messages are read
            player.connection.send(job)
        return Running(table, entrants, player, time.monotonic() + plan.seconds())

    def _started(self, children: Children) -> Player:
        ours, theirs = Pipe()
        with theirs:
            return Player(ours, children.start(
                [*PLAYER, str(theirs.fileno())], pass_fds=[theirs.fileno(), self._folder.lock],
                stdin=subprocess.DEVNULL, stdout=subprocess.DEVNULL))

    def _hear(self, running: Sequence[Running]) -> None:
        by_connection = {game.player.connection: game for game in running}
        for connection in wait(list(by_connection), 0.5):
            assert isinstance(connection, Connection)
            game = by_connection[connection]
            try:
                message = connection.recv()
            except (EOFError, OSError):
                game.result = Result(fault="its process ended without a result")
                continue
            if isinstance(message, Result):
                game.result, game.has_answered = message, True
            elif isinstance(message, (Note, events.Warned)):
                tell(f"game {game.table.name}: {message.text}")
            elif isinstance(message, events.Refused):
                tell(f"game {game.table.name}: refused a link as {message.answer}: it sent "
                     f"{message.line!r}")
            elif isinstance(message, events.Ticked) and self._plan.turns:
                game.tick, game.deadline = message.tick, time.monotonic() + self._plan.seconds()

    def _tell_ticks(self, running: Sequence[Running]) -> None:
        """Tells games which ticks all games of their deal have had."""
        for game in running:
            had = min(each.tick for each in running if each.table.deal is game.table.deal)
            if game.told < had:
                game.told, game.deadline = had, time.monotonic() + self._plan.seconds()
                with contextlib.suppress(OSError):
                    game.player.connection.send(had)

    def _is_over(self, game: Running) -> bool:
        # A game whose messages were not read yet, as after ctrl-Z, may have ended in time.
        if (game.result is None and time.monotonic() > game.deadline
                and not game.player.connection.poll()):
            game.result = Result(fault="it took longer than its ticks and all its waits")
        return game.result is not None

    def _finish(self, game: Running) -> None:
        result, table = game.result, game.table
        assert result is not None
        self._done += 1
        rows, settings = list[Row](), settings_text(self._plan.settings)
        if result.fault:
            self.lose(f"game {table.name} is lost: {result.fault}")
        else:
            rows = [Row(table.deal.name, table.rotation, seat, entrant.name, result.scores[seat],
                        result.outcomes[seat], drawn.luck, result.kind, drawn.nights,
                        drawn.first_price, self._folder.number, settings,
                        self._digests.get(entrant.name, ""), result.missed[seat], table.deal.number)
                    for seat, (entrant, drawn) in enumerate(zip(
                        game.entrants, covariates_of(table.deal.game)))]
        each = (time.monotonic() - self._began) / self._done
        left = round(each * (self.games - self._done))
        tell(f"game {self._done} of {self.games} (deal {table.deal.number}, rotation "
             f"{table.rotation}): {'scored' if rows else 'lost'}; {left // 60}:{left % 60:02} left",
             is_passing=bool(rows) and self._done < self.games)
        out = self._folder.out
        if rows and not out.write(csv_text(rows)):
            self.lose(f"game {table.name} is lost: {out.name}: {out.fault}")
            rows = []
        self.rows += rows


def _end_all(players: Sequence[Player], children: Children) -> None:
    """Ends processes that play games, so that they end what they started."""
    for player in players:
        player.process.terminate()
    for player in players:
        with contextlib.suppress(subprocess.TimeoutExpired):  # then it is killed
            player.process.wait(LEAVE)
        children.end(player.process)
        player.connection.close()


def _join(given: argparse.Namespace) -> int:
    sources, told = [], []
    for name in given.agents:
        try:
            source = read_source(Path(name))
        except RunError as fault:
            told.append(str(fault))
            continue
        told += source.told
        if "players" in read_settings(source.rows[0].settings):
            told.append(f"{name}: it has the games of profiles: use `profiles --join`")
            continue
        if missing(source):
            told.append(missing(source))
            source, parts = whole_deals(source)
            if given.partial:
                tell(f"tournament: {name}: {len({row.deal for row in source.rows})} deals were "
                     f"played whole; {parts} are left out")
        sources += [source] if source.rows else []
    rows, refused = (pooled if given.pool else joined)(sources)
    for text in told + refused:
        tell(f"tournament: {text}")
    if refused or not rows or told and not given.partial:
        return 1
    summary = summarize(rows, detect=given.detect, planned=sum(each.planned for each in sources),
                        is_stopped=any(each.is_stopped for each in sources))
    return _print_summary(summary, given.summary) or int(bool(told))


def _print_summary(summary: Summary, file: Optional[Path], grades: Optional[Path] = None) -> int:
    """Prints the summary, writes it and the grades to files, and gives the exit status."""
    faults = []
    for target, form in ((grades, as_grades), (file, as_json)):
        if target is not None:
            out = Output(target)
            out.write(form(summary))
            out.close()
            if out.fault:
                faults.append(f"the summary was not written to {out.name}: {out.fault}")
    width = shutil.get_terminal_size().columns if os.isatty(1) else math.inf
    return printed("tournament", as_text(summary, width), faults)


def _main() -> int:
    parser = make_parser(__doc__)
    given = parser.parse_args()
    if given.join:
        return _join(given)
    for word in ("pool", "partial"):
        if getattr(given, word):
            parser.error(f"--{word} needs --join")
    if not given.out and not given.plan:
        parser.error("name a new folder for the run with --out")
    plan = read_plan(parser, given)
    if given.plan:
        return printed("tournament", text_of(plan))
    status, rows, lost = play_in_folder(parser, plan)
    summary = summarize(rows, lost, given.detect, plan.games, status > 128)
    return max(status, _print_summary(summary, given.summary, plan.out / GRADES))


def play_in_folder(parser: Parser, plan: Plan, without: AbstractSet[Tuple[int, int]] = frozenset()
                   ) -> Tuple[int, List[Row], List[str]]:
    """Plays what the folder of a plan lacks, but for some games.

    Returns the exit status, the rows of all runs of the folder, and what was lost."""
    try:
        folder = RunFolder(plan, sys.argv[1:])
    except RunError as fault:
        parser.error(f"--out {plan.out}: {fault}")
    for text in folder.told:
        tell(f"{parser.prog}: {text}")
    for what, value in plan.rule.drawn.items():
        tell(f"the deals are of the {what} {value}"
             + (", and agents can guess them" if what == "seed" else ""))
    if folder.finished:
        tell(f"{len(folder.finished)} games were finished by earlier runs")
    tournament = Tournament(plan, folder, without)
    folder.plan_games(len(folder.finished) + tournament.games)
    if folder.is_told and tournament.games:
        tell("the secret has been told, so agents may know the deals that are still to be played")
    status = 0
    with Children() as children:
        try:
            tournament.play(children)
        except Stopped as stopped:
            status = stopped.status
            tell(f"{parser.prog}: stopped")
    rows = sorted(tournament.rows, key=lambda row: (row.place, row.seat))
    status = status or (1 if tournament.lost else 0)
    try:
        folder.end(status, len(rows) // SEATS, tournament.lost)
    except (OSError, RunError) as fault:
        tournament.lose(f"{plan.out}: cannot write how the run ended: {why(fault)}")
        status = status or 1
    return status, folder.rows + rows, tournament.lost


main = partial(command, "tournament", _main)
