"""The links of a game: those from outside, to agents and to strangers that have no seat, and one to
the server for each seat, which is kept while agents come and go.

A link is *parting* once it was sent its last line: it has a moment to end its side, and is then
closed. Its *owed* lines were passed on to the server and have no reply yet.
"""

from __future__ import annotations

import contextlib
import socket
from collections import deque
from typing import Deque, List, Optional

from geesefuton.hosting.events import End
from geesefuton.hosting.seats import Seat
from geesefuton.link import prepare
from geesefuton.network.gate import Visit
from geesefuton.network.loop import Link
from geesefuton.records.dialects import MOST_LINE, is_bye, is_refusal

MOST_SAID = 65536  # bytes of an agent's lines that are kept; it is not read while there are more
UNACKNOWLEDGED = 14_000  # milliseconds, the same time for a link with something on its way


class Session(Link):
    """The link to the server that is kept for a seat, and has been welcomed with some lines."""

    def __init__(self, seat: Seat, link: socket.socket, welcome: bytes) -> None:
        super().__init__(link)
        self.seat, self.welcome = seat, welcome
        self.asked: Deque[OuterLink] = deque()  # whose lines were passed on and are not answered
        self.lines = self.passed = 0  # lines that agents have sent, and that were passed on
        self.answered = self.refused = 0  # replies, and those of them that refuse a line
        self._tail = b""

    def feed(self, data: bytes) -> List[bytes]:
        """The lines that are whole now, without their ends."""
        *lines, self._tail = (self._tail + data).split(b"\n")
        return lines

    def answer(self, line: bytes) -> OuterLink:
        """Counts a reply, and gives the link whose line it answers."""
        self.answered += not is_bye(line)
        self.refused += is_refusal(line)
        link = self.asked.popleft()
        link.owed -= 1
        return link

    def reason(self, reason: End) -> End:
        """The reason of its end, in view of what was answered."""
        return End.REFUSED if self.refused and self.refused == self.answered else reason


class OuterLink(Link):
    """A link from outside: a stranger until its first line, and then the link of a seat. `Seats`
    knows it by its number, the gate as a visit, and the host by its source."""

    def __init__(self, number: int, link: socket.socket, visit: Visit, source: str) -> None:
        super().__init__(link)
        self.number, self.visit, self.source = number, visit, source
        self.seat: Optional[Seat] = None  # which it has, or waits for
        self.said = bytearray()  # what it sent and was not passed on
        self.owed = 0  # lines of it that were passed on and are not answered
        self.stuck: Optional[float] = None  # since when it takes nothing of what is held
        self.is_told = False  # whether the host was told so
        self._is_skipping = False  # whether the rest of a line that is too long is coming
        tune(link)

    def is_read(self) -> bool:
        """Whether what it sends is read."""
        return not self.has_ended and len(self.said) < MOST_SAID

    def feed(self, data: bytes) -> None:
        """Keeps what came, of a line that is too long only the beginning."""
        if self._is_skipping:
            cut = data.find(b"\n")
            if cut < 0:
                return
            data, self._is_skipping = data[cut:], False
        self.said += data
        length = len(self.said) - self.said.rfind(b"\n") - 1
        if length > MOST_LINE + 1:
            del self.said[MOST_LINE + 1 - length:]
            self._is_skipping = True

    def has_line(self) -> bool:
        """Whether a whole line is there."""
        return b"\n" in self.said

    def take(self) -> bytes:
        """Takes the first line away, without its end."""
        cut = self.said.find(b"\n")
        line = bytes(self.said[:cut])
        del self.said[:cut + 1]
        return line


def tune(link: socket.socket) -> None:
    """Sets up a link as its other side does. One that takes nothing of what it is sent is ended as
    soon as one whose machine is gone, where the system can do so."""
    with contextlib.suppress(OSError):  # it may have gone already
        prepare(link)
        if hasattr(socket, "TCP_USER_TIMEOUT"):
            link.setsockopt(socket.IPPROTO_TCP, socket.TCP_USER_TIMEOUT, UNACKNOWLEDGED)
