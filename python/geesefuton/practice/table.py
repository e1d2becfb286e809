"""A table of a practice room: hosts a game, lets house agents take its empty seats when it is about
to begin, and knows who had which seat.

Each house agent takes its seat by a word of its own, so a guest with the seat's word is never
mistaken for it. Other users of the host can read that word among the arguments of its process, so
it holds for one link: from the start of the process until the seat has a link. If that link is a
guest's, the agent is ended, so that it never waits for a guest's seat. Its process ends with the
game.
"""

from __future__ import annotations

import contextlib
import io
import subprocess
import time
from dataclasses import dataclass, field, replace
from typing import Callable, Dict, Iterable, List, Optional, Sequence, Tuple

from geesefuton import program
from geesefuton.experiments.entrants import Entrant, environment
from geesefuton.experiments.provenance import digest_of
from geesefuton.hosting import events
from geesefuton.hosting.control import STOPPED, Phase
from geesefuton.hosting.events import Event
from geesefuton.hosting.hosted_game import HostedGame
from geesefuton.hosting.lobby import Lobby
from geesefuton.hosting.relay import OWN
from geesefuton.hosting.seats import Seat
from geesefuton.hosting.server import ClockServer
from geesefuton.hosting.server_links import summary
from geesefuton.hosting.settings import LobbySettings
from geesefuton.hosting.teller import Teller
from geesefuton.network.addresses import new_token
from geesefuton.practice.door import Handed
from geesefuton.practice.folder import Finished, Folder
from geesefuton.processes import why, write_whole
from geesefuton.records.games import GameError, read_game

COMING = 15.0  # seconds that house agents have to take their seats
LOOK = 0.05  # seconds between two looks at them
# A house agent that was started: its process, its seat, and the word by which it takes that.
Started = Tuple["subprocess.Popen[bytes]", Seat, str]


class HouseServer:
    """Fills the empty seats with house agents, and serves the game by its clock.

    Args:
        house: The agents, of which each next seat gets the next one; none for no house.

    Attributes:
        port: The port of the lobby.
        words: The words of those that are starting, each with the number of its seat.
    """

    def __init__(self, house: Sequence[Entrant]) -> None:
        self._house, self.port = house, 0
        self.words: Dict[str, int] = {}

    def name_at(self, seat: int) -> str:
        """Who plays a seat for the house."""
        return f"house {self._agent(seat).name}"

    def _agent(self, seat: int) -> Entrant:
        return self._house[seat % len(self._house)]

    def play(self, game: HostedGame) -> int:
        """Plays the game, as a lobby's `Serving`."""
        self._wait(game, self._fill(game) if self._house else [])
        return STOPPED if game.is_stopped else ClockServer().play(game)

    def _fill(self, game: HostedGame) -> List[Started]:
        variables, started = environment(program.find(), game.folder), list[Started]()
        self.words = game.relay.seats.own
        for seat in game.relay.seats.seats:
            if seat.holder is not None:
                continue
            word, agent = new_token(), self._agent(seat.number)
            self.words[word] = seat.number
            try:
                process = game.children.start(
                    [*agent.words, "localhost", str(self.port), word, "--pause",
                     str(game.settings.pace / 1000)], stdin=subprocess.DEVNULL,
                    stdout=subprocess.DEVNULL, stderr=subprocess.DEVNULL, env=variables)
            except OSError as fault:  # such as too many processes
                game.warn(f"cannot start the house agent {agent.name}: {why(fault)}")
                continue
            started.append((process, seat, word))
        return started

    def _wait(self, game: HostedGame, started: List[Started]) -> None:
        """Waits until each has its seat, or has ended, for a while."""
        deadline = time.monotonic() + COMING
        while started and not game.is_stopped:
            game.turn(LOOK)
            is_late = time.monotonic() > deadline
            for agent in started[:]:
                process, seat, word = agent
                has_ended, holder = process.poll() is not None, seat.holder
                if holder is None and not has_ended and not is_late:
                    continue
                started.remove(agent)
                del self.words[word]
                if holder is None:
                    game.warn(f"the house agent {self._agent(seat.number).name} did not take "
                              + seat.word + (", but ended" if has_ended else
                                             f" within {COMING:g} seconds"))
                if holder is None or game.relay.links[holder].source != OWN:
                    game.children.end(process)


@dataclass(eq=False)
class Table:
    """A table, at which one game is played."""

    game: Finished  # as far as it has come
    words: Sequence[str]  # the seat words of its file, which anybody may see
    keys: Dict[str, int]  # those by which agents take its seats
    listener: Optional[Handed]  # where their links come in; None for the port of the settings
    settings: LobbySettings  # what its lobby is told, but for what is of this game
    house: HouseServer  # who plays the empty seats
    folder: Folder  # where it is kept
    show: Callable[[], None]  # is called whenever a page would show something else
    is_closing: Callable[[], bool]  # whether no other game is to begin
    sources: Dict[int, str] = field(default_factory=dict)  # whence the links of its seats come
    first: Optional[float] = None  # when the first guest came, while there is one
    _lobby: Optional[Lobby] = None

    def play(self) -> Optional[Tuple[Finished, bytes]]:
        """Plays the game. Gives what came of it and its log; None if it was stopped.

        Raises:
            LobbyError: It cannot be hosted.
            OSError: Its file cannot be written.
            program.ProgramError: There is no program, or it made no game.
        """
        number, log = self.game.number, io.BytesIO()
        try:
            made = read_game(program.make(self.game.seed)).named(self.words).text().encode("ascii")
        except GameError as refused:
            raise program.ProgramError(f"the program did not make a game: {refused}") from None
        file = self.folder.file(number, "game")
        write_whole(file, made)
        self.game = replace(self.game, files={"game": digest_of(file)})
        lobby = Lobby(replace(
            self.settings, game=file, log=log, keys=self.keys,
            journal=self.folder.file(number, "journal"),
            listeners=[self.listener] if self.listener else []), self.house)
        self.house.port = lobby.port
        status, fault = self._host(lobby), ""
        if status == STOPPED:
            return None
        if status == program.UNSOUND:
            fault = f"its log does not match each link: {summary(self.words, self.game.vouched)}"
        elif status not in (program.OK, program.CLOCK):
            fault = f"exit status {status}"
        return replace(self.game, over=time.time(), fault=fault), log.getvalue()

    def close(self, at_once: bool) -> str:
        """Ends the game: before it and after its last tick at once, and in it after it, or with
        `at_once` without it. It may be called by a signal handler. Gives what the host is to be
        told."""
        lobby = self._lobby
        if lobby is None:
            return ""
        if lobby.control.phase is Phase.ENDING:
            lobby.control.end()
        elif lobby.control.phase is Phase.PLAYING and not at_once:
            return "the room closes after this game; press ctrl-C again to stop the game now"
        else:
            lobby.control.stop()
        return ""

    def names(self) -> List[str]:
        """How the seats' players are called; those of one name have numbers."""
        names = [player or word for player, word in zip(self.game.players, self.words)]
        return [f"{name} {names[:seat + 1].count(name)}" if names.count(name) > 1 else name
                for seat, name in enumerate(names)]

    def _host(self, lobby: Lobby) -> int:
        teller = Teller(self.words)
        teller.say(f"game {self.game.number} waits for guests at port {lobby.port}")

        def take(event: Event) -> None:
            teller.tell(event)
            self._take(event)

        self._lobby = lobby
        if self.is_closing():  # it was asked for while the game was made
            lobby.control.stop()
        self.show()
        try:
            return lobby.run(take)
        finally:
            teller.close()
            self._lobby = None

    def _take(self, event: Event) -> None:
        if isinstance(event, (events.Arrived, events.Rejoined)):
            self.sources[event.seat] = event.source
            self.first = self.first or event.at
            if self.game.began and not self.game.players[event.seat]:
                self._count([event.seat])
        elif isinstance(event, events.Departed):
            self.sources.pop(event.seat, None)
            self.first = self.first if self.sources else None
        elif isinstance(event, events.Began):
            self.game = replace(self.game, began=event.at)
            self._count(event.seats)
        else:
            if isinstance(event, events.Ended) and self.listener:
                self.listener.over.add(self.words[event.seat])
            if isinstance(event, events.Finished):
                self.game = replace(self.game, vouched=event.vouched)
            return  # a page would show nothing else
        if self.game.began:
            with contextlib.suppress(OSError):  # a disk that is full is told at the end
                self.folder.write(self.game)
        self.show()

    def _count(self, seats: Iterable[int]) -> None:
        """Seats count for those who have them now."""
        players = list(self.game.players)
        for seat in seats:
            players[seat] = self.house.name_at(seat) if self.sources[seat] == OWN else \
                self.words[seat]
        self.game = replace(self.game, players=tuple(players))
