"""The server of a game by the clock: `tac serve`, whose eight seats the lobby takes.

The server listens on loopback alone, by the variable TAC_BIND, and is given a copy of the game
whose seat words are drawn for it, so that nobody else can take a seat. That it is the lobby's own
server the welcome shows, which follows from the game.
"""

from __future__ import annotations

import contextlib
import os
import secrets
import socket
import subprocess
import time
from typing import IO, List, Optional, Sequence

from geesefuton import program
from geesefuton.hosting.control import STOPPED, Phase
from geesefuton.hosting.hosted_game import HostedGame
from geesefuton.hosting.links import Session
from geesefuton.processes import free_port, why
from geesefuton.records.games import SEATS, TICKS, welcome

HOST = "127.0.0.1"
TAKEN = 5  # the server's exit status if its port is taken
TRIES = 5  # times that the server is started
LISTENING = WELCOMING = 15.0  # seconds that a server has to listen, and then to welcome the lobby
ENDING = 5.0  # seconds that a server has to end after its log
SETTLING = 0.3  # seconds in which a server ends that cannot listen
AGAIN = 0.5  # seconds until it is tried again
STEP = 0.005  # seconds between two looks at a server that is starting


class NotStarted(Exception):
    """A server that does not welcome the lobby."""


class ClockServer:
    """Serves a game by `tac serve`, which lets ticks pass by its clock."""

    def play(self, game: HostedGame) -> int:
        """Plays the game, and gives the server's exit status, negative for a signal; `STOPPED` if
        the game was stopped before the log was there."""
        for left in reversed(range(TRIES)):
            with contextlib.closing(Server(game)) as server:
                fault = server.start()
                if game.is_stopped:
                    return STOPPED
                if not fault and (server.links or server.wait() != TAKEN):
                    return self._play(game, server)
                if fault:
                    game.warn(f"the server did not start: {fault}; "
                              + ("trying again" if left else "giving up"))
                    game.rest(AGAIN if left else 0.0)
        return TAKEN

    def _play(self, game: HostedGame, server: "Server") -> int:
        """Passes lines on until the server has ended."""
        relay, tick, is_finished = game.relay, 0, False
        if server.links:
            game.control.phase = Phase.PLAYING
            relay.begin([Session(seat, link, welcome(game.text, seat.number))
                         for seat, link in zip(relay.seats.seats, server.links)])
        output = server.hear_log()
        while not output.closed and not game.is_stopped:
            wait = 1.0
            if relay.started is not None and tick < TICKS:
                passed = (time.monotonic() - relay.started) * 1000 / game.settings.pace
                if passed >= tick + 1:
                    tick = min(TICKS, int(passed))  # some before it may have been passed over
                    relay.journal.timed(tick=tick)
                    game.tick(tick, [session.lines for session in relay.sessions])
                wait = max(0.0, tick + 1 - passed) * game.settings.pace / 1000
            elif tick == TICKS and not is_finished and not game.seconds_left():
                is_finished = True
                relay.finish()
            game.turn(wait)
        return server.wait() if output.closed else STOPPED


class Server:
    """A server, and how it is started."""

    def __init__(self, game: HostedGame) -> None:
        self._game = game
        self._process: "Optional[subprocess.Popen[bytes]]" = None
        self.links: List[socket.socket] = []  # to its eight seats, once all of them are welcomed

    def start(self) -> str:
        """Starts it at a free port, and takes all seats. The links of the agents go on meanwhile.
        Returns why the lobby was not welcomed; "" if it was, or the server has ended by itself."""
        links: List[socket.socket] = []
        words = [secrets.token_hex(8) for _ in range(SEATS)]
        try:
            self._connect(links, self._launch(words), words)
            self._be_welcomed(links)
            if self._is_going():
                self.links = links
            return ""
        except NotStarted as fault:
            return str(fault)
        except OSError as fault:
            return why(fault) if self._turn_until(time.monotonic() + SETTLING) else ""
        finally:
            for link in links if not self.links else ():
                link.close()

    def _launch(self, words: Sequence[str]) -> int:
        """Starts the process, as soon as the system lets it, and gives its port."""
        game, told = self._game, ""
        file, lines = game.folder / "game", game.text.split("\n")
        lines[1] = " ".join(["words", *words])
        while not game.is_stopped:
            try:
                file.write_text("\n".join(lines), encoding="ascii")
                port = free_port()
                served = program.served_words(file, port, game.settings.pace, game.settings.form)
                self._process = game.children.start(
                    served, stdin=subprocess.DEVNULL, stdout=subprocess.PIPE,
                    env={**os.environ, "TAC_BIND": HOST})
                return port
            except OSError as fault:
                if why(fault) != told:
                    told = why(fault)
                    game.warn(f"cannot start the server: {told}; trying again and again")
                game.rest(AGAIN)
        return 0

    def hear_log(self) -> IO[bytes]:
        """Reads the log from now on. Gives the output, which is closed at its end."""
        assert self._process is not None and self._process.stdout is not None
        output = self._process.stdout
        os.set_blocking(output.fileno(), False)
        self._game.relay.loop.attend(output, lambda: self._hear(output))
        return output

    def wait(self) -> int:
        """Waits until it has ended, and gives its exit status; `STOPPED` if the game is stopped.
        After a while it is killed."""
        assert self._process is not None
        if self._turn_until(time.monotonic() + ENDING):
            self._game.warn("the server did not end after its log, and was killed")
            self._game.children.end(self._process)
        status = self._process.poll()
        return STOPPED if status is None else status

    def close(self) -> None:
        """Ends it, if it has not ended, and closes its output."""
        if self._process is not None and self._process.stdout is not None:
            self._game.children.end(self._process)
            self._game.relay.loop.forget(self._process.stdout)
            self._process.stdout.close()

    def _hear(self, output: IO[bytes]) -> None:
        with contextlib.suppress(BlockingIOError):
            piece = os.read(output.fileno(), 1 << 16)
            if piece:
                self._game.log.append(piece)
            else:
                self._game.relay.loop.forget(output)
                output.close()

    def _is_going(self) -> bool:
        """Whether the server runs and the game is not stopped."""
        return self._process is not None and self._process.poll() is None \
            and not self._game.is_stopped

    def _turn_until(self, deadline: float) -> bool:
        """Waits until it has ended, or the game is stopped: whether it still goes on then."""
        while self._is_going() and time.monotonic() < deadline:
            self._game.turn(STEP)
        return self._is_going()

    def _connect(self, links: List[socket.socket], port: int, words: Sequence[str]) -> None:
        """Asks for all seats, each by a link of its own, once it listens."""
        deadline = time.monotonic() + LISTENING
        while len(links) < len(words) and self._is_going():
            try:
                links.append(socket.create_connection((HOST, port)))
            except ConnectionRefusedError:
                if time.monotonic() >= deadline:
                    raise NotStarted(f"it did not listen within {LISTENING:g} seconds") from None
                self._game.turn(STEP)
                continue
            links[-1].setsockopt(socket.IPPROTO_TCP, socket.TCP_NODELAY, 1)
            links[-1].sendall(f"hello {words[len(links) - 1]}\n".encode("ascii"))
            links[-1].setblocking(False)

    def _be_welcomed(self, links: List[socket.socket]) -> None:
        """Waits until all seats are welcomed, which a stranger's link at the server may hold up."""
        deadline = time.monotonic() + WELCOMING
        for seat, link in enumerate(links):
            left = welcome(self._game.text, seat)
            while left and self._is_going():
                try:
                    said = link.recv(len(left))
                except BlockingIOError:
                    if time.monotonic() >= deadline:
                        raise NotStarted(f"it welcomed nobody in {WELCOMING:g} seconds") from None
                    self._game.turn(STEP)
                    continue
                if not said:
                    raise ConnectionError("it closed a link of the lobby")
                if not left.startswith(said):
                    raise NotStarted(f"the lobby was not welcomed, but got {said[:40]!r}")
                left = left[len(said):]
