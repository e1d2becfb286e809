"""Hosts a game for agents on other machines, as a relay between them and the server.

Agents connect to the lobby's port as if it were the server's. Once all are there, a `Serving` plays
the game, by default a server with a clock at a port of its own, and the lobby passes lines on. It
writes everything into a journal as it happens, and at the end the log, also to a file beside it.
"""

from __future__ import annotations

import contextlib
import socket
import time
from pathlib import Path
from typing import Callable, List, Optional, Tuple

from geesefuton import program
from geesefuton.hosting import events, log_files
from geesefuton.hosting.control import STOPPED, Control, Phase
from geesefuton.hosting.events import Event, EventQueue
from geesefuton.hosting.hosted_game import LOOK, HostedGame, Serving
from geesefuton.hosting.journal import Journal, JournalError
from geesefuton.hosting.page_process import PageProcess
from geesefuton.hosting.relay import Relay
from geesefuton.hosting.seats import State
from geesefuton.hosting.server import ClockServer
from geesefuton.hosting.server_links import audit_link, is_vouched, server_links
from geesefuton.hosting.settings import LobbySettings
from geesefuton.network.addresses import listen
from geesefuton.processes import Children, why

FULL = 4  # the exit status if the output takes no more
SERVED = b"taclog 1\nserve\n"  # the first lines of the log of a served game
VOUCHING = 30.0  # seconds that may be taken to compare the log with the links
ENDING = 1.0  # seconds that links have to end after the server
SHOWING = 60.0  # seconds that the pages have to show the last scores


class LobbyError(program.CommandError):
    """A game that cannot be hosted."""


class Lobby:
    """Hosts one game.

    Args:
        settings: What it is told of its game.
        serving: Who plays the game once the agents are gathered; by default a `ClockServer`.

    Raises:
        LobbyError: A port is taken, or the page's port is that of the game.
        program.ProgramError: There is no program, or it refuses the game file.
    """

    def __init__(self, settings: LobbySettings, serving: Optional[Serving] = None) -> None:
        self.settings = settings
        self._serving = serving or ClockServer()
        self._text = program.show(settings.game)
        self.words = self._text.split("\n")[1].split()[1:]
        if settings.page is not None:
            if settings.page == settings.port:
                raise LobbyError(
                    f"port {settings.port} is for the game: choose another for the page")
            listener_at(settings.page).close()  # it is free
        # Links are taken from the beginning on.
        self._listeners = list(settings.listeners) or [listener_at(settings.port)]
        self.port: int = self._listeners[0].getsockname()[1]  # for agents
        self.control = Control()
        self._game: Optional[HostedGame] = None

    def run(self, on_event: Callable[[Event], None]) -> int:
        """Plays the game.

        Args:
            on_event: Is told each event, in a thread of its own. What it raises does not end the
                game, and is raised after it.

        Returns:
            The server's exit status, 128 plus the number of a signal that ended it; 130 if the game
            was interrupted, 9 if the log is not right about each link of the lobby, 4 if the log's
            output took no more.

        Raises:
            LobbyError: The journal cannot be made.
        """
        with contextlib.ExitStack() as stack:
            told = EventQueue(on_event)
            stack.callback(told.close)
            for listener in self._listeners:
                stack.callback(listener.close)
            children = stack.enter_context(Children())
            folder = children.folder("lobby")
            journal = self._open_journal(folder, told.put)
            stack.callback(journal.close)
            relay = Relay(self.words, self._listeners, told.put, journal, self.settings.patience,
                          self.settings.longest_silence())
            stack.callback(relay.close)
            relay.seats.keys = self.settings.keys or relay.seats.keys
            relay.gate.banned = self.settings.banned
            game = HostedGame(self.settings, self._text, self.control, children, folder, relay,
                              told.put)
            if self.settings.page is not None:
                game.page = PageProcess(children, self.settings, self.words, self.port,
                                        journal.file)
                stack.callback(game.page.end)
            self._game = game
            status = self._host(game)
            if game.page and not game.is_stopped:
                if not self.settings.stays:  # otherwise it ends by the host's word alone
                    game.page.close()
                game.page.wait(float("inf") if self.settings.stays else SHOWING,
                               lambda: game.is_stopped)
        return status

    def waits_for(self) -> Tuple[float, List[str]]:
        """After the last tick: for how many seconds the lobby still waits, and for whose agents."""
        if self._game is None:
            return 0.0, []
        seats = self._game.relay.seats.seats
        return self._game.seconds_left(), [
            seat.word for seat in seats if seat.state is not State.OVER]

    def _open_journal(self, folder: Path, emit: Callable[[Event], None]) -> Journal:
        """The journal; one that goes away with the game if only the page needs it."""
        given = self.settings
        file = given.journal or (folder / "journal" if given.page is not None else None)
        try:
            journal = Journal(file, lambda text: emit(events.Warned(time.time(), text)))
        except FileExistsError:
            raise LobbyError(f"{file} already exists: name a new file for the journal") from None
        except OSError as fault:
            raise LobbyError(f"cannot create the journal {file}: {why(fault)}") from None
        journal.head(given.pace, given.form, self._text)
        return journal

    def _host(self, game: HostedGame) -> int:
        """Gathers the agents, lets the game be played, and writes its log."""
        self._gather(game)
        if game.is_stopped:
            return self._stop(game)
        self.control.phase = Phase.STARTING
        status = self._serving.play(game)
        if status == STOPPED:
            return self._stop(game)
        status = status if status >= 0 else 128 - status  # of a signal as a shell tells it
        game.relay.settle()
        deadline = time.monotonic() + ENDING
        while not game.relay.is_done() and time.monotonic() < deadline:
            game.turn(LOOK)  # agents are sent what they still get
        for listener in self._listeners:
            listener.close()  # a link would wait in vain while the page shows the scores
        game.relay.journal.timed(over=status)
        self.control.phase = Phase.SHOWING
        return self._finish(game, status)

    def _gather(self, game: HostedGame) -> None:
        """Waits until the game may begin."""
        given, began, came = self.settings, time.monotonic(), float("inf")
        start, wait = (float("inf") if seconds is None else seconds
                       for seconds in (given.start, given.wait))
        while game.relay.seats.missing() and not self.control.is_begin_asked:
            now = time.monotonic()
            # When the first of those came who are here.
            came = min(came, now) if game.relay.seats.is_anybody_here() else float("inf")
            left = min(began + start, came + wait) - now
            if game.is_stopped or left <= 0:
                break
            game.turn(min(LOOK, left))

    def _stop(self, game: HostedGame) -> int:
        text = "stopped, without a log"
        if self.settings.journal and game.relay.started is not None:
            text += f"; to make one from the journal: {recovery_line(self.settings.journal)}"
        game.warn(text)
        game.emit(events.Finished(time.time(), STOPPED, None))
        return STOPPED

    def _finish(self, game: HostedGame, status: int) -> int:
        """Writes the log, looks whether it is right about the links, and tells the end."""
        given, journal = self.settings, game.relay.journal
        has_begun, is_served = game.relay.started is not None, status in (program.OK, program.CLOCK)
        if not is_served and has_begun and given.journal:
            game.warn("the server failed; to make a log from the journal: "
                      f"{recovery_line(given.journal)}")
        beside = given.journal.with_suffix(".log") if given.journal else None
        kept = log_files.keep(b"".join(game.log), given.log, beside)
        vouched = _vouching(game) if is_served and given.vouches else ()
        if not all(map(is_vouched, vouched)):
            status = program.UNSOUND
            game.warn("the log does not match each link of the lobby to the server, so it may not "
                      "be what was played: keep its files, and do not count its scores")
        if kept.fault is not None and is_served:
            status = FULL
            where = f"the log is in {kept.file}" if kept.file else "the log is lost"
            if not kept.file and given.journal:
                made = "it again" if journal.is_whole else "one from what the journal has"
                where += f"; to make {made}: {recovery_line(given.journal)}"
            game.warn(f"cannot write the log to its output ({kept.fault}): {where}")
        file = str(kept.file) if kept.file else None
        game.emit(events.Finished(time.time(), status, file, vouched))
        return status


def _vouching(game: HostedGame) -> Tuple[str, ...]:
    """What `tac vouch` says of the log by the lobby's link of each seat; nothing if the game was
    not served, the journal is not whole, or the program cannot tell, which is told."""
    journal, log = game.relay.journal, b"".join(game.log)
    if journal.file is None or not journal.is_whole or not log.startswith(SERVED):
        return ()
    file, deadline = game.folder / "played.game", time.monotonic() + VOUCHING
    try:
        file.write_text(game.text, encoding="ascii")
        return tuple(audit_link(link, file, log, game.settings.form, game.folder,
                                max(0.0, deadline - time.monotonic()))
                     for link in server_links(journal.file))
    except (JournalError, OSError, program.ProgramError) as fault:
        game.warn(f"cannot compare the log with the lobby's links: {why(fault)}")
    return ()


def listener_at(port: int) -> socket.socket:
    """A listening socket.

    Raises:
        LobbyError: The port is taken, for instance.
    """
    try:
        return listen(port)
    except OSError as fault:
        raise LobbyError(f"port {port}: {why(fault)}") from None


def recovery_line(journal: Path) -> str:
    """The command that makes a log of a journal."""
    return program.typed(f"recover {journal} > {journal.with_suffix('.recovered.log').name}")
