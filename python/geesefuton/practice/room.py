"""A practice room: game after game, each kept in a folder with its manifest.

A game begins some seconds after its first guest, once house agents have the empty seats. After the
game the room keeps its log and audits it, and the next game waits for guests at the same port. A
game that was stopped leaves its journal, and the next game has another number.

With several tables, each game has a thread. Links come in at a door in the main thread, and a table
gets the teams that have played fewest games.
"""

from __future__ import annotations

import contextlib
import threading
import time
from collections import Counter
from dataclasses import replace
from typing import Any, Callable, Dict, List, Optional, Sequence, Tuple

from geesefuton import program
from geesefuton.experiments.entrants import Entrant
from geesefuton.experiments.provenance import digest_of
from geesefuton.hosting.lobby import LobbyError, listener_at, recovery_line
from geesefuton.hosting.settings import LobbySettings
from geesefuton.practice.door import Door, Handed
from geesefuton.practice.folder import Finished, Folder, standings_of
from geesefuton.practice.page import Board
from geesefuton.practice.table import HouseServer, Table
from geesefuton.practice.teams import Team
from geesefuton.processes import why
from geesefuton.records.games import SEATS
from geesefuton.records.logs import LogError, read_scores

AGAIN = 5.0  # seconds until what failed is tried again
LOOK = 0.2  # seconds between two looks at tables
SEATING = 1.0  # seconds that a table has to take the links that are handed to it
AUDITING = 60.0  # seconds that the audit of a log may take


class Room:
    """Plays game after game.

    Args:
        settings: What the lobby of each game is told, but for what is of one game.
        house: The agents for empty seats.
        folder: Where its games are kept.
        board: What its page shows.
        tell: Is given a line for the host.
        teams: The teams; none if the seats are taken by `seat0` to `seat7`.
        games: After how many games it ends; None for none.
        tables: How many games it plays at once; teams are needed for more than one.
    """

    def __init__(self, settings: LobbySettings, house: Sequence[Entrant], folder: Folder,
                 board: Board, tell: Callable[[str], None], teams: Sequence[Team] = (),
                 games: Optional[int] = None, tables: int = 1) -> None:
        self._given, self._house, self._folder = settings, house, folder
        self._board, self._tell, self._wait = board, tell, settings.wait or 0.0
        self._teams, self._games, self._most = teams, games, tables
        self._shown = {team.key: team.name for team in teams}
        self._tables: Dict[Table, threading.Thread] = {}  # where games are played now
        self._door: Optional[Door] = None
        self._changed = threading.Event()  # set while the page lacks what is known of the tables
        self._changed.set()
        self._keeping = threading.Lock()  # held while a game is kept and judged
        self._rows = standings_of(folder.finished)
        self._played = Counter(name for game in folder.finished for name in game.players)
        self._again = 0.0  # when a game is tried again, by `time.monotonic`
        self._is_closing = self._is_stopped = self._is_over = False
        self._left: List[int] = []  # games without a manifest, of which the host was told

    def run(self) -> None:
        """Plays until the host closes the room, or as many games as it is to play.

        Raises:
            LobbyError: The first game cannot be hosted, or no link can come in.
            program.ProgramError: There is no program.
        """
        self._judge_all()
        if self._most > 1:
            self._host_tables()
        else:
            self._host_table()
        self._is_over = True
        self._board.close(lambda: self._is_stopped)

    def close(self, at_once: bool) -> str:
        """Ends the room: before a game and after its last tick at once, and in a game after it, or
        with `at_once` without it. It may be called by a signal handler. Gives what the host is to
        be told."""
        self._is_closing = True
        self._is_stopped |= at_once or self._is_over
        return max((table.close(at_once) for table in list(self._tables)), default="")

    def _host_table(self) -> None:
        count = 0
        while not self._is_closing and count != self._games:
            try:
                table = self._table(self._next_number(), self._teams)
                self._tables = {table: threading.current_thread()}
                played = table.play()
                self._keep_words(table)
                count += self._take(played)
            except (LobbyError, OSError, program.ProgramError) as fault:
                if not count:
                    raise
                self._tell(f"{why(fault)}; trying the next game again in {AGAIN:g} seconds")
                time.sleep(AGAIN)

    def _host_tables(self) -> None:
        number, begun, listener = self._next_number(), 0, listener_at(self._given.port)
        port, places = listener.getsockname()[1], list[str]()
        self._tell(f"{self._most} tables wait for guests at port {port}")
        with contextlib.closing(listener), \
                contextlib.closing(Door(listener, self._teams, self._table_of,
                                        self._played)) as self._door:
            while self._tables or not self._is_closing and begun != self._games:
                self._tables = {table: thread for table, thread in self._tables.items()
                                if thread.is_alive()}
                free = self._most - len(self._tables)
                if self._is_closing or begun == self._games or time.monotonic() < self._again:
                    free = 0
                keys = self._door.next_teams(free, self._wait)
                if keys:
                    self._played.update(keys)
                    handed = Handed(port)
                    self._door.seat(keys, handed)
                    table = self._table(number + begun, [
                        team for team in self._teams if team.key in keys], handed)
                    self._tables[table] = threading.Thread(target=self._play, args=(table, handed))
                    self._tables[table].start()
                    begun += 1
                now = self._door.places()
                if now != places or self._changed.is_set():
                    self._changed.clear()
                    self._show()
                    places = now
                self._door.turn(0.0 if keys else LOOK)

    def _play(self, table: Table, handed: Handed) -> None:
        try:
            self._take(table.play())
        except (LobbyError, OSError, program.ProgramError) as fault:
            self._again = time.monotonic() + AGAIN
            self._tell(f"game {table.game.number} cannot be played: {why(fault)}")
        finally:
            handed.close()

    def _table_of(self, word: str) -> Optional[Handed]:
        """Where the links of the table go whose house agent has a word."""
        return next((table.listener for table in self._tables if word in table.house.words), None)

    def _next_number(self) -> int:
        """The number of the next game. Tells the host of games that were stopped."""
        number, left = self._folder.next_number()
        for lost in left:
            if lost not in self._left:
                self._left.append(lost)
                self._tell(f"game {lost} was stopped, and does not count; to make its log: "
                           f"{recovery_line(self._folder.file(lost, 'journal'))}")
        return number

    def _table(self, number: int, teams: Sequence[Team],
               handed: Optional[Handed] = None) -> Table:
        """A table for a game between teams, at the door if their links are handed in. From game to
        game teams move on by a seat."""
        words = [team.key for team in teams]
        spare = (f"{name}{seat}" for name in ("seat", "free") for seat in range(SEATS))
        while len(words) < SEATS:
            words.append(next(word for word in spare if word not in words))
        first = number % SEATS if teams else 0
        words = words[first:] + words[:first]
        keys = {team.word: words.index(team.key) for team in teams} or {
            word: seat for seat, word in enumerate(words)}
        # Teams that were handed in may have left before they are gathered.
        settings = replace(self._given, start=SEATING, wait=SEATING, orders=None) if handed else \
            self._given
        game = Finished(number, self._folder.rule.seed_of(number), settings.pace, 0.0, 0.0,
                        ("",) * SEATS, {})
        return Table(game, words, keys, handed, settings, HouseServer(self._house), self._folder,
                     self._changed.set if handed else self._show, lambda: self._is_closing)

    def _keep_words(self, table: Table) -> None:
        new = {table.words[seat]: word for word, seat in table.keys.items()}
        changed = [team for team in self._teams if new.get(team.key, team.word) != team.word]
        for team in changed:
            team.word = new[team.key]
        if changed:
            try:
                self._folder.keep_words(changed)
            except OSError as fault:
                self._tell(f"cannot keep the new words: {why(fault)}")

    def _take(self, played: Optional[Tuple[Finished, bytes]]) -> bool:
        """Keeps and judges a game, and tells whether it was played."""
        if played is not None:
            with self._keeping:
                self._keep(*played)
                self._judge_all()
        return played is not None

    def _keep(self, game: Finished, log: bytes) -> None:
        """Keeps a game, and tries so again and again while the disk takes no more."""
        told = ""
        while True:
            try:
                return self._folder.keep(game, log)
            except OSError as fault:
                if told != why(fault):
                    told = why(fault)
                    self._tell(f"cannot keep game {game.number} in {self._folder.path}: {told}; "
                               f"trying again every {AGAIN:g} seconds")
                if self._is_stopped:
                    return
            time.sleep(AGAIN)

    def _judge_all(self) -> None:
        """Judges the games that are not. One whose log cannot be audited now, for instance for want
        of memory, is tried again later."""
        for game in list(self._folder.unjudged.values()):
            try:
                judged = self._judged(game)
                self._folder.judge(judged)
            except (OSError, program.ProgramError) as fault:
                self._tell(f"game {game.number} does not count yet: {why(fault)}; its log is "
                           "kept, and audited again after the next game")
                continue
            if judged.fault:
                self._tell(f"game {game.number} is lost: {judged.fault}")
            else:
                self._rows = standings_of(self._folder.finished)
                first = self._named([row.name for row in self._rows if row.rank == 1])
                self._tell(f"game {game.number} of `tac make {game.seed}` counts; first of "
                           f"{len(self._rows)}: {' and '.join(first) or 'nobody'}")

    def _judged(self, game: Finished) -> Finished:
        """A game with its scores, by its audited log, or with what is wrong with it. Raises OSError
        or ProgramError where the log cannot be read, or audited."""
        fault, file = game.fault, self._folder.file(game.number, "log")
        log, scores = file.read_bytes(), tuple[int, ...]()
        try:
            said = "sound" if fault else program.audit(file.with_suffix(".game"), log, AUDITING)
            if said != "sound":
                fault = f"the audit says `{said}`"
            elif not fault:
                scores = tuple(score.score for score in read_scores(log))
        except (LogError, program.ProgramError) as failed:
            if isinstance(failed, program.ProgramError) and failed.status != program.REFUSED:
                raise
            fault = f"its log: {failed}"
        return replace(game, is_judged=True, scores=scores, fault=fault,
                       files={**game.files, "log": digest_of(file)})

    def _named(self, names: Sequence[str]) -> List[str]:
        return [self._shown.get(name, name) for name in names]

    def _show(self) -> None:
        finished = self._folder.finished
        room: Dict[str, Any] = {
            "phase": "room", "played": len(finished), "commitment": self._folder.commitment,
            "table": [[row.rank, *self._named([row.name]), row.games, float(row.average), row.half]
                      for row in self._rows], "last": None, "begins": None}
        for last in finished[-1:]:
            room["last"] = [last.number, str(last.seed)]
        if self._door is not None:
            room["tables"] = [[table.game.number, self._named(table.names())]
                              for table in self._tables]
            room["waiting"] = self._named(self._door.places())
            return self._board.show({"journal": None, "names": [], "room": room, "words": {
                team.word: team.name for team in self._teams}})
        table, = self._tables
        names, journal = self._named(table.names()), self._folder.file(table.game.number, "journal")
        room["game"] = table.game.number
        room["seats"] = [{"name": name, "here": seat in table.sources}
                         for seat, name in enumerate(names)]
        if table.first is not None:
            room["begins"] = table.first + self._wait
        return self._board.show({
            "journal": str(journal) if table.game.began else None, "names": names, "room": room,
            "words": {word: self._named([table.words[seat]])[0]
                      for word, seat in table.keys.items()}})
