"""The door of a room with several tables: where links come in, and which teams play next.

The first line of a link is looked at, but left in the link, which is handed on whole to the table
where its team plays. Without such a table it waits. It is told nothing then: before its welcome an
agent understands nothing but a refusal, which would end its link. So a team's place is told on
another link, whose first line is `place WORD`, and on the page.
"""

from __future__ import annotations

import contextlib
import re
import select
import socket
import time
from functools import partial
from typing import Any, Callable, Dict, List, Mapping, Optional, Sequence, Set, Tuple

from geesefuton.hosting.links import OuterLink
from geesefuton.network.gate import AT_ONCE, Gate, Standing, most_links
from geesefuton.practice.teams import Team
from geesefuton.records.dialects import MOST_LINE
from geesefuton.records.games import SEATS

PATIENCE = 30.0  # seconds that a link has for its first line
MOST_LINKS, MOST_EACH, KEPT = 200, 32, 100  # links at a time, as a `Gate` counts them
OTHERS = 200  # open files that the tables and the rest of the process may need
REST = 0.05  # seconds until a link is taken after one could not be
FIRST_LINE = re.compile(rb"(hello|place) ([a-z0-9]{1,16})")
HAS_ENDED = select.EPOLLRDHUP | select.EPOLLHUP | select.EPOLLERR


class Handed(socket.socket):
    """A listener whose links are handed in."""

    def __init__(self, port: int) -> None:
        reading, self._writing = socket.socketpair(type=socket.SOCK_SEQPACKET)
        super().__init__(fileno=reading.detach())
        self._port = port
        self.over: Set[str] = set()  # the teams whose part in its game is over, by their keys

    def put(self, link: socket.socket, source: str) -> None:
        """Hands a link in, with the address that it comes from. This side of it is closed."""
        with link, contextlib.suppress(OSError):  # its game is over
            socket.send_fds(self._writing, [source.encode()], [link.fileno()])

    def accept(self) -> Tuple[socket.socket, Any]:
        """The next link, as of any listener."""
        source, (number,), *_ = socket.recv_fds(self, 100, 1)
        return socket.socket(fileno=number), (source.decode(),)

    def getsockname(self) -> Any:
        """The address by which agents come in, as far as it is known."""
        return "", self._port

    def close(self) -> None:
        """Closes it, and the links that nobody took."""
        super().close()
        self._writing.close()


class Door:
    """Takes the links of a room's agents.

    Args:
        listener: Where they come in; the door does not close it.
        teams: Who may play.
        table_of: Gives the table of a house agent's word; None if no house agent has the word.
        games: How many games each team has played, by its key.

    Attributes:
        waiting: The links of teams that wait, by their keys, in the order in which they came.
    """

    def __init__(self, listener: socket.socket, teams: Sequence[Team],
                 table_of: Callable[[str], Optional[Handed]], games: Mapping[str, int]) -> None:
        self._listener, self._table_of, self._games = listener, table_of, games
        self._keys = {team.word: team.key for team in teams}
        self._tables: Dict[str, Handed] = {}  # where teams play or played last, by their keys
        self.waiting: Dict[str, OuterLink] = {}
        self._visitors: Dict[int, OuterLink] = {}
        self._gate = Gate(time.monotonic, most_links(MOST_LINKS, OTHERS), MOST_EACH, KEPT, PATIENCE)
        self._poll = select.epoll()
        listener.setblocking(False)
        self._poll.register(listener, select.EPOLLIN)

    def turn(self, timeout: float) -> None:
        """Looks at what has come, for which it waits some seconds at most."""
        ready = dict(self._poll.poll(timeout))
        has_come = ready.pop(self._listener.fileno(), 0)
        for number in ready.keys() & self._visitors:
            self._look(self._visitors[number], bool(ready[number] & HAS_ENDED))
        if has_come:  # the last, since a new link may get the number of one that makes room
            self._accept()
        now = time.monotonic()
        for visitor in list(self._visitors.values()):
            if now > visitor.visit.deadline:
                self._drop(visitor)
            elif visitor.visit.is_due(now):
                self._judge(visitor)

    def places(self) -> List[str]:
        """The teams that wait, in the order in which they play: first who has played fewest games,
        and of these who waits longest."""
        return sorted(self.waiting, key=lambda key: self._games.get(key, 0))

    def next_teams(self, free: int, wait: float) -> List[str]:
        """The teams of the next game at so many free tables; none if it does not begin yet. It
        begins once these are full, nobody else can come, or the first team has waited so many
        seconds: then they are filled evenly."""
        places, tables = self.places(), min(free, -(-len(self.waiting) // SEATS))
        most = min(SEATS * free, sum(self._table(key) is None for key in self._keys.values()))
        if not tables or len(places) < most and time.monotonic() < wait + min(
                visitor.visit.due for visitor in self.waiting.values()):
            return []
        return places[:min(SEATS, -(-len(places) // tables))]

    def seat(self, keys: Sequence[str], table: Handed) -> None:
        """Hands the links of teams over to their table."""
        for key in keys:
            self._tables[key] = table
            self._hand_on(self.waiting.pop(key), table)

    def close(self) -> None:
        """Closes all links that are here."""
        for visitor in list(self._visitors.values()):
            self._drop(visitor)
        self._poll.close()

    def _accept(self) -> None:
        for _ in range(AT_ONCE):
            try:
                link, where = self._listener.accept()
            except (BlockingIOError, ConnectionError):
                return
            except OSError:  # no more files may be opened
                return time.sleep(REST)
            visit = self._gate.arrive(where[0])
            if visit is None:
                link.close()
                continue
            visitor = OuterLink(link.fileno(), link, visit, where[0])
            self._visitors[visitor.number], visit.end = visitor, partial(self._drop, visitor)
            # What is left in a link would be told of again and again, but for this flag.
            self._poll.register(link, select.EPOLLIN | select.EPOLLRDHUP | select.EPOLLET)

    def _look(self, visitor: OuterLink, has_ended: bool) -> None:
        said = self._said(visitor)
        if has_ended or not said:
            self._drop(visitor)
        elif visitor.visit.standing is Standing.STRANGER and (
                b"\n" in said or len(said) > MOST_LINE) and visitor.visit.whole() is None:
            self._drop(visitor)

    @staticmethod
    def _said(visitor: OuterLink) -> bytes:
        """What a link has sent, which is left in it; nothing if it has failed."""
        with contextlib.suppress(OSError):
            return visitor.socket.recv(MOST_LINE + 1, socket.MSG_PEEK)
        return b""

    def _judge(self, visitor: OuterLink) -> None:
        """Lets a link wait or play, or tells it its last line, by its first line."""
        asked = FIRST_LINE.fullmatch(self._said(visitor).split(b"\n", 1)[0])
        if asked is None:
            return self._tell(visitor, "refused syntax")
        is_greeting, word = asked[1] == b"hello", asked[2].decode("ascii")
        key = self._keys.get(word)
        table = self._table_of(word) if key is None else self._table(key)
        if is_greeting and table is not None:
            return self._hand_on(visitor, table)
        if key is None:
            visitor.visit.refuse()
            return self._tell(visitor, "refused wrongword")
        if not is_greeting:
            number = self.places().index(key) + 1 if key in self.waiting else 0
            return self._tell(visitor, f"place {number} of {len(self.waiting)}")
        if key in self.waiting:
            return self._tell(visitor, "refused taken")
        visitor.visit.know(key)
        self.waiting[key] = visitor
        return None

    def _table(self, key: str) -> Optional[Handed]:
        """Where a team plays; None if it does not, or not any more."""
        table = self._tables.get(key)
        return None if table is None or table.fileno() < 0 or key in table.over else table

    def _tell(self, visitor: OuterLink, line: str) -> None:
        """Tells a link its last line. Its first one is taken, so that it gets this."""
        visitor.visit.part()
        with contextlib.suppress(OSError):
            visitor.socket.recv(MOST_LINE + 1)
            visitor.socket.send(f"{line}\n".encode("ascii"))
            visitor.socket.shutdown(socket.SHUT_WR)

    def _hand_on(self, visitor: OuterLink, table: Handed) -> None:
        self._poll.unregister(visitor.socket)
        del self._visitors[visitor.number]
        visitor.visit.leave()
        table.put(visitor.socket, visitor.source)

    def _drop(self, visitor: OuterLink) -> None:
        del self._visitors[visitor.number]
        visitor.visit.leave()
        visitor.socket.close()
        self.waiting = {key: other for key, other in self.waiting.items() if other is not visitor}
