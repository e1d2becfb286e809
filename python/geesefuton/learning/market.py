"""A game that is played in steps: its process, its script and its books."""

from __future__ import annotations

import copy
from functools import cached_property
from typing import Any, Dict, List, Sequence, Tuple

from geesefuton import program
from geesefuton.learning.stepping import Stepped
from geesefuton.link import solve
from geesefuton.records.books import Books
from geesefuton.records.dialects import MOST_LINE
from geesefuton.records.games import SEATS, TICKS, Game
from geesefuton.records.logs import MOST_BYTES, read_scores
from geesefuton.records.order import first_seat
from geesefuton.records.replies import read_points
from geesefuton.records.rules import PENALTY

MOST_LINES = 65_536  # of an agent in a game
TICK = b"tick\n"
Requests = Sequence[Tuple[int, str]]  # each a seat and a line


class LimitError(ValueError):
    """More requests than a game takes; nothing has changed."""


class Market:
    """A game that is played in steps.

    Attributes:
        game: The game.
        text: Its canonical text.
        books: What stands, is held and was paid.
        changes: How many bids and withdrawals were answered by an auction.
        scores: The score of each seat in dollars, once the game is over; before, there are none.

    Raises ProgramError where there is no program."""

    def __init__(self, game: Game, text: str = "") -> None:
        self.game, self.books = game, Books(game)
        self.text = text or game.text()
        self._process = Stepped(self.text.encode())
        self._script: List[bytes] = []
        self._waiting = b""  # ticks that the process was not told yet
        self.changes = 0
        self.scores: List[int] = []
        self._lines = [0] * SEATS  # that each seat has asked
        self._bytes = len(TICK) * TICKS  # of the script

    @cached_property
    def first(self) -> int:
        """The seat that is asked first."""
        return first_seat(self.text)

    @property
    def script(self) -> bytes:
        """The requests and ticks so far, as a script for `tac play`."""
        return b"".join(self._script)

    def ask(self, requests: Requests) -> List[str]:
        """Asks requests, and gives their replies. What cannot be asked of a game is answered here:
        a line of more than 512 bytes by `no toolong`, as over a link, and `quit` by `no syntax`.
        Raises LimitError where these are more lines of a seat, or bytes of a script, than a game
        takes, and ProgramError where the program has ended. The game is lost."""
        sent = [request for request in requests if not _unasked(request[1])]
        if not sent:
            return [_unasked(line) for _, line in requests]
        text = "".join([f"{seat} {line}\n" for seat, line in sent]).encode()
        self._lines, self._bytes = self.counted(requests)
        self._script.append(text)
        told = self._exchange(text, len(sent)).decode("latin-1").split("\n")
        replies = [line[2:] for line in told[:-1]]
        for (seat, line), reply in zip(sent, replies):
            if line[:1] in ("b", "w") and reply[0] == "@":
                self._enter(seat, line, reply)
        left = iter(replies)
        return [_unasked(line) or next(left) for _, line in requests]

    def counted(self, requests: Requests) -> Tuple[List[int], int]:
        """The lines of each seat and the bytes of the script with these requests. Raises LimitError
        where a game does not take so many."""
        lines, size = self._lines[:], self._bytes
        for seat, line in requests:
            lines[seat] += 1
            size += 0 if _unasked(line) else _size(line) + 3  # with the seat and the line's end
        if max(lines) > MOST_LINES:
            raise LimitError(f"{self.game.words[lines.index(max(lines))]} makes more than "
                             f"{MOST_LINES} requests")
        if size > MOST_BYTES:
            raise LimitError(f"a script has at most {MOST_BYTES:,} bytes")
        return lines, size

    def _enter(self, seat: int, line: str, reply: str) -> None:
        """Enters a bid or a withdrawal into the books, if it was admitted."""
        call, good, *points = line.split(" ", 2)
        what = reply.split(" ", 2)[1]
        self.changes += 1
        if what == "taken":
            self.books.bid(seat, int(good), read_points(points[0]))
        elif what == "done" and call == "withdraw":
            self.books.withdraw(seat, int(good))

    def advance(self) -> None:
        """Lets a tick pass."""
        self._script.append(TICK)
        self._waiting += TICK
        self.books.advance()

    def _exchange(self, text: bytes, due: int) -> bytes:
        """Plays lines, and the ticks before them."""
        waiting, self._waiting = self._waiting, b""
        return self._process.exchange(waiting + text, due)

    def finish(self) -> bytes:
        """The log of the game. Raises ProgramError where the program has ended otherwise, or the
        log has other cash than the books."""
        self._exchange(b"", 0)
        log = self._process.finish()
        rows = read_scores(log)
        if [row.cash for row in rows] != self.books.cash:
            raise program.ProgramError("the cash of the log differs from that of the books")
        self.scores = [row.score for row in rows]
        return log

    def __deepcopy__(self, memory: Dict[int, Any]) -> Market:
        """The same game in a process of its own, which goes on by itself."""
        other = copy.copy(self)
        other._script, other._lines = self._script[:], self._lines[:]
        other.books = copy.deepcopy(self.books, memory)
        other._process, script, other._waiting = Stepped(self.text.encode()), self.script, b""
        other._process.exchange(script, script.count(b"\n") - self.books.tick)
        return other

    def close(self) -> None:
        """Ends the process, if it has not ended."""
        self._process.close()


def _size(line: str) -> int:
    return len(line) if line.isascii() else len(line.encode())


def _unasked(line: str) -> str:
    """The reply to a line that is not asked of the game; "" for one that is."""
    return "no syntax" if line == "quit" else "no toolong" if _size(line) > MOST_LINE else ""


class Scorer:
    """The scores that seats would have if nobody asked anything more. Each new holding of a seat
    takes a process of `tac solve`, and is kept."""

    def __init__(self, game: Game) -> None:
        self._game = game
        self._known: Dict[Tuple[int, Tuple[int, ...]], int] = {}

    def scores(self, books: Books) -> List[int]:
        """The score of each seat in dollars, if nobody asks anything more. Raises ProgramError
        where there is no program, or it ended with an error."""
        end = books.at_the_end()
        owed = [sum(-units for units in held if units < 0) for held in end.holdings]
        return [self._best(seat, tuple(held)) + cash - PENALTY * short
                for seat, (held, cash, short) in enumerate(zip(end.holdings, end.cash, owed))]

    def _best(self, seat: int, held: Tuple[int, ...]) -> int:
        if (seat, held) not in self._known:
            total = solve(held, self._game.clients[seat])
            if total is None:
                raise program.ProgramError("the program did not solve an account")
            self._known[seat, held] = total
        return self._known[seat, held]
