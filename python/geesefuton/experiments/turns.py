"""A game in turns: unchanged agents over the same protocol get their requests answered in turn.

There is no clock, and no server at a port. In each turn every agent gets one request answered by a
process of `tac step`, seat after seat, in the order of `records.order`; the number of turns between
two ticks is fixed. Only an agent that sends nothing for a long time, `patience`, is passed over,
and then in each turn until it sends a line again; one that was waited for `SILENCES` times as long
in all is waited for no more. So agents whose requests depend only on what they received play the
same game on any machine, as long as no agent is passed over.

Games may go in step: after a tick each waits until all have had it, so that agents cannot tell one
game what comes in another of the same deal.
"""

from __future__ import annotations

import contextlib
import socket
import time
from multiprocessing.connection import Connection
from typing import List, Optional

from geesefuton import program
from geesefuton.hosting.control import STOPPED, Phase
from geesefuton.hosting.hosted_game import HostedGame
from geesefuton.hosting.links import Session
from geesefuton.learning.stepping import Stepped
from geesefuton.records.dialects import MOST_LINE, said_in, words_for
from geesefuton.records.games import TICKS, welcome
from geesefuton.records.order import first_seat, order_of_turn

MOST_TURNS = 1000  # between two ticks, so that the 65,536 lines of a session last
LAST_TURNS = 1024  # of each agent after the last tick
MOST_READ = 4096  # bytes; a line that the relay passes on has fewer
SILENCES = 10  # of an agent in a game, each as long as may be
LOOK = 0.05  # seconds after which links are looked after while other games are waited for


class Turner:
    """Who takes turns: the server's end of the link that the relay keeps for a seat."""

    def __init__(self, seat: int, link: socket.socket) -> None:
        self.seat, self.socket = seat, link
        self.asked = 0  # how many lines were asked in its turns
        # in how many turns it was passed over; if it was, the game cannot be repeated
        self.passed = 0
        self.is_silent = False  # whether it was so in its last one
        self.is_over = False  # whether it asks nothing more
        self.heard = time.monotonic()  # when it was last answered, or welcomed
        self.waited = 0.0  # the seconds for which it was waited for
        self._held = b""
        link.setblocking(False)

    def take(self) -> Optional[bytes]:
        """The line that has come, without its end; None if there is none yet."""
        try:
            piece = self.socket.recv(MOST_READ)
        except BlockingIOError:
            return None
        self.is_over = self.is_over or not piece
        self._held += piece
        if not self._held.endswith(b"\n"):
            return None
        line, self._held = self._held[:-1], b""
        self.asked, self.is_silent = self.asked + 1, False
        return line

    def say(self, lines: bytes) -> None:
        """Sends it whole lines. There is room: it is sent no more before it asks again."""
        self.socket.sendall(lines)
        self.heard = time.monotonic()

    def pass_over(self) -> None:
        """Its turn is over, and it has said nothing."""
        self.passed, self.is_silent = self.passed + 1, True


class TurnServer:
    """Serves a game in turns, as a `Serving` of a lobby, without the settings' `pace`; `linger` is
    how many seconds after the last tick everybody is passed over who has not ended.

    Args:
        turns: How many turns each agent has between two ticks, 1 to `MOST_TURNS`, and before the
            first. After the last it has `LAST_TURNS`.
        patience: The seconds without a word after which an agent is passed over.
        others: Tells the number of a tick once all games have had it that go in step with this one;
            None if there are none.
    """

    def __init__(self, turns: int, patience: float, others: Optional[Connection] = None) -> None:
        self._turns, self._patience, self._others = turns, patience, others
        self.script: List[bytes] = []  # what was asked so far, and the ticks (docs/FORMATS.md)
        self.turners: List[Turner] = []  # by seat
        self._first = 0  # the seat that is asked first

    def play(self, game: HostedGame) -> int:
        """Plays the game, and gives the exit status of its process, or `STOPPED`. Raises
        program.ProgramError where the program ends before the game is over."""
        with contextlib.ExitStack() as stack:
            table = stack.enter_context(Stepped(game.text.encode("ascii")))
            sessions = []
            for seat in game.relay.seats.seats:
                ours, theirs = socket.socketpair()
                stack.callback(theirs.close)
                sessions.append(Session(seat, ours, welcome(game.text, seat.number)))
                self.turners.append(Turner(seat.number, theirs))
            game.relay.begin(sessions)
            self._first = first_seat(game.text)
            game.control.phase = Phase.PLAYING
            self._play_ticks(game, table)
            if game.is_stopped:
                return STOPPED
            game.relay.turn(0)  # what was answered last
            game.relay.finish()
            game.log.append(table.finish())
        return program.OK

    def _play_ticks(self, game: HostedGame, table: Stepped) -> None:
        """Lets the ticks come, with the turns between them."""
        had = 0
        for tick in range(1, TICKS + 1):
            self._take_turns(game, table, tick - 1, range(self._turns))
            if game.is_stopped:
                return
            self._exchange(table, b"tick\n", 0)
            game.tick(tick, [turner.asked for turner in self.turners])
            while self._others and had < tick and not game.is_stopped:
                had = self._others.recv() if self._others.poll(LOOK) else had
                game.turn(0)
        for turn in range(LAST_TURNS):
            self._take_turns(game, table, TICKS, range(turn, turn + 1))
            if all(turner.is_over or turner.is_silent for turner in self.turners):
                break

    def _take_turns(self, game: HostedGame, table: Stepped, tick: int, turns: range) -> None:
        """Gives each agent these turns after a tick."""
        for turn in turns:
            for seat in order_of_turn(tick, turn, self._first):
                turner = self.turners[seat]
                line = None if turner.is_over else self._wait(game, turner)
                if game.is_stopped:
                    return
                if line is not None:
                    self._answer(table, turner, line, game.settings.form)

    def _answer(self, table: Stepped, turner: Turner, line: bytes, form: str) -> None:
        """Asks a line, and tells its agent the reply."""
        reply = b"no toolong"
        if len(line) <= MOST_LINE:
            asked = b"%d %b\n" % (turner.seat, words_for(line, form))
            reply = self._exchange(table, asked, 1).split(b" ", 1)[1][:-1]
        turner.say(said_in(reply, form) + b"\n")
        turner.is_over = reply == b"bye"

    def _exchange(self, table: Stepped, line: bytes, due: int) -> bytes:
        """Plays a line, and keeps it."""
        self.script.append(line)
        return table.exchange(line, due)

    def _wait(self, game: HostedGame, turner: Turner) -> Optional[bytes]:
        """The line of an agent whose turn it is; None if it is over or passed over."""
        line, began = turner.take(), time.monotonic()
        most = began + SILENCES * self._patience - turner.waited
        while line is None and not turner.is_over and not game.is_stopped:
            left = min(turner.heard + self._patience, most) - time.monotonic()
            if game.control.phase is Phase.ENDING:
                left = min(left, game.seconds_left())
            game.turn(max(0.0, left))
            line = turner.take()
            if line is None and left <= 0 and not turner.is_over:
                turner.pass_over()
                break
        turner.waited += time.monotonic() - began
        return line
