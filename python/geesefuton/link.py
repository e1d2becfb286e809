"""A link to the server, as in docs/PROTOCOL.md: one reply for each request.

    with Link.greet("localhost", 7000, "seat0") as link:    # waits until the game begins
        link.bid(8, (2, 120))                               # two rooms at 120 dollars or less each
        print(link.quote(8).ask, link.own(8), link.cash())
        link.quit()

Agents send lines of words, or JSON objects if the server was started that way: `Link.greet` takes
the form, and the calls are the same. `ask` takes and returns lines of words in either form.

If the link is lost, because it ends or a reply takes longer than its limit, the agent reconnects,
as the lobby allows (docs/HOSTING.md), and repeats its request. The exception is a bid: it may have
been admitted, and bidding twice may buy twice. So a lost bid raises `Unanswered`, and `own` shows
whether it was admitted.

With the variable AGENT_RECORD a link keeps its bytes (`geesefuton.link_record`).
"""

import argparse
import os
import socket
import sys
import time
from dataclasses import dataclass, field
from types import TracebackType
from typing import BinaryIO, Callable, Dict, List, NamedTuple, Optional, Sequence, Tuple, Type

from geesefuton import program as tac
from geesefuton.agent_arguments import agent_parser, begin
from geesefuton.arguments import seconds
from geesefuton.link_record import LinkRecord, usual_folder
from geesefuton.processes import tell
from geesefuton.records.games import (FLIGHTS, HOTELS, INBOUND, OUTBOUND, TICKETS, Client, inbound,
                                      outbound, room, ticket)
from geesefuton.records.replies import (Cash, No, Own, Quote, Reply, ReplyError, Request, read_json,
                                        read_request, read_words, request_json, request_words,
                                        text_of_points, words_of)

__all__ = [
    "FLIGHTS", "HOTELS", "INBOUND", "OUTBOUND", "TICKETS", "Client", "Hopeless", "Link",
    "LinkError", "Quote", "Reply", "Unanswered", "arguments", "inbound", "outbound", "program",
    "room", "run", "solve", "ticket",
]

PATIENCE = 120  # seconds that a server which does not listen yet is tried for
LIMIT = 10.0  # seconds that a reply may take
# Seconds in which a lost link is connected again. The lobby waits two ticks, of a minute at most,
# until it takes a link for lost that has not ended.
REJOIN = 150.0
NEXT = 1.0  # seconds between two requests for a seat in the next game
TRY, BETWEEN = 15.0, 0.5  # seconds that one try of these takes at most, and to the next one
KEEPALIVE = {"TCP_KEEPIDLE": 5, "TCP_KEEPINTVL": 3, "TCP_KEEPCNT": 3}  # seconds, seconds, probes
Point = Tuple[int, int]  # units, below 0 for selling, and dollars for each


class LinkError(Exception):
    """The link ended, or was refused."""


class Unanswered(LinkError):
    """The link was lost before a bid was answered, and is back: `own` tells what came of it."""


class Hopeless(LinkError):
    """There is no server, or it does not know the word: to ask again is no use."""


class _Lost(LinkError):
    """The link ended, or a reply did not come in time."""


class Form(NamedTuple):
    """How requests and replies are written on a link."""

    ask: Callable[[Request], str]
    read: Callable[[str], Reply]


FORMS: Dict[str, Form] = {"words": Form(request_words, read_words),
                          "json": Form(request_json, read_json)}


@dataclass
class Link:
    """A seated link.

    Attributes:
        stream: The connection.
        lines: What it sends.
        word: The seat word.
        form: `words` or `json`.
        agent: The number of the agent, 0 to 7.
        endow: The agent's tickets at first, good 16 first.
        clients: Its eight clients.
        address: The server's name or address, and its port; None if the link cannot be connected
            again.
        limit: The seconds that a reply may take; None for no limit.
        record: What is kept of its bytes.
    """

    stream: socket.socket
    lines: BinaryIO
    word: str
    form: str = "words"
    agent: int = 0
    endow: List[int] = field(default_factory=list)
    clients: List[Client] = field(default_factory=list)
    address: Optional[Tuple[str, int]] = None
    limit: Optional[float] = None
    record: LinkRecord = field(init=False, repr=False, compare=False)

    def __post_init__(self) -> None:
        self.record = LinkRecord(self.word, usual_folder())

    @classmethod
    def greet(cls, host: str, port: int, word: str, form: str = "words",
              limit: Optional[float] = None) -> "Link":
        """Takes a seat by its word, and waits until the game begins.

        Args:
            host: The server's name or address.
            port: Its port.
            word: The seat word.
            form: What the server was started for, `words` or `json`.
            limit: The seconds that a reply may take, 0 for no limit; None for what the variable
                AGENT_LIMIT says, and without it `LIMIT`.

        Raises:
            LinkError: There is no server, or it refused the word.
        """
        limit = _usual_limit() if limit is None else limit
        stream = _connect(host, port)
        link = cls(stream, stream.makefile("rb"), word, form, address=(host, port),
                   limit=limit or None)
        try:
            link._take_welcome(None)
        except _Lost as lost:
            link._recover(lost)
        except BaseException:
            link.close()
            raise
        return link

    def _take_welcome(self, limit: Optional[float]) -> None:
        """Takes the seat. Each line may take so many seconds."""
        self.stream.settimeout(limit)
        prepare(self.stream)
        self.record.begin()
        first = self._exchange(f"hello {self.word}").split()
        if first[:1] != ["welcome"]:
            kind = LinkError if first == ["refused", "taken"] else Hopeless
            raise kind(f"{self.word}: {' '.join(first)}")
        self.record.seat()
        self.agent = int(first[1])
        self.endow = [int(units) for units in self.line().split()[2:]]
        self.clients = []
        for _ in range(8):
            arrive, depart, premium, *values = map(int, self.line().split()[3:])
            self.clients.append(Client(arrive, depart, premium, (values[0], values[1], values[2])))
        self.stream.settimeout(self.limit)

    def rejoin(self, within: float = REJOIN) -> None:
        """Ends the link, connects again with the same word, and takes the ten lines again.

        The lobby gives the seat to the new link once the old one has ended or is silent for long.
        Until then it may answer `refused taken`, and the link is tried again.

        Args:
            within: The seconds after which it is given up.

        Raises:
            LinkError: The link was not taken within this time, the word was refused, or the server
                has ended.
        """
        if self.address is None:
            raise LinkError(f"{self.word}: the address of the server is not known")
        fault, deadline = "", time.monotonic() + within
        while True:
            self.close()
            left = deadline - time.monotonic()
            if left <= 0:
                raise LinkError(f"{self.word}: no link within {within:g} seconds{fault}")
            begun = time.monotonic()
            try:
                self.stream = socket.create_connection(self.address, min(left, TRY))
                self.lines = self.stream.makefile("rb")
                # Without clients it was lost before its game, which may begin at any time.
                self._take_welcome(min(left, TRY) if self.clients else None)
                return
            except ConnectionRefusedError as refused:
                raise LinkError(_no_link(*self.address, refused)) from None
            except LinkError as refused:
                if not isinstance(refused, _Lost) and "refused taken" not in str(refused):
                    self.close()
                    raise
                fault = f" ({refused})"
            except OSError as failed:
                fault = f" ({failed.strerror or failed})"
            if not self.clients and time.monotonic() - begun > TRY:
                deadline = time.monotonic() + within  # it had waited for its game
            time.sleep(min(BETWEEN, left))

    def _recover(self, lost: _Lost) -> None:
        """Connects a lost link again, and says so.

        Raises:
            LinkError: That failed. If the server has ended, it is told how the link was lost.
        """
        begun = time.monotonic()
        try:
            self.rejoin(REJOIN)
        except LinkError as fault:
            if isinstance(fault, Hopeless):
                raise
            is_over = isinstance(fault.__context__, ConnectionRefusedError)
            raise LinkError(str(lost if is_over or self.address is None else fault)) from None
        tell(f"{lost}; reconnected after {time.monotonic() - begun:.1f} seconds")

    def line(self) -> str:
        """The next line that the server sends, without its line end.

        Raises:
            LinkError: The link was closed, or failed, or the line did not come in time.
        """
        try:
            line = self.lines.readline()
        except OSError as fault:
            if isinstance(fault, socket.timeout) and fault.errno is None:
                raise _Lost(f"{self.word}: no reply within {self.stream.gettimeout():g} seconds") \
                    from None
            line = b""
        except ValueError:  # it was closed here
            raise LinkError(f"{self.word}: the link was closed") from None
        self.record.hear(line)
        if not line.endswith(b"\n"):
            raise _Lost(f"{self.word}: the link was closed")
        return line[:-1].decode("ascii", "replace")

    def _exchange(self, line: str) -> str:
        data = line.encode("ascii", "replace") + b"\n"
        self.record.ask(data)
        try:
            self.stream.sendall(data)
        except OSError:
            pass  # then no reply line comes either
        return self.line()

    def _reply(self, line: str, keyword: str) -> str:
        """The reply to a line. A lost link is connected again, and the line asked again unless it
        is a bid; at `quit` it just ends."""
        until = time.monotonic() + REJOIN
        while True:
            try:
                return self._exchange(line)
            except _Lost as lost:
                if keyword == "quit" or time.monotonic() > until:
                    self.close()
                    raise
                self._recover(lost)
            if keyword == "bid":
                raise Unanswered(f"{self.word}: the link was lost before `{line}` was answered")

    def send(self, request: Request) -> Reply:
        """Asks a request, and gives its reply.

        Raises:
            Unanswered: The link was lost before this bid was answered, and is back.
            LinkError: The link is lost, or the reply is none.
        """
        form = FORMS[self.form]
        while True:
            line = self._reply(form.ask(request), request.do)
            try:
                reply = form.read(line)
            except ReplyError as fault:
                raise LinkError(f"{self.word}: {fault}") from None
            # For JSON alone: there was no memory to read the line, so nothing was asked.
            if not isinstance(reply, No) or reply.reason != "memory":
                return reply

    def ask(self, line: str) -> str:
        """Asks a request by its line of words, and gives the reply as a line of words.

        Raises:
            LinkError: As `send`.
        """
        if self.form == "words":
            return self._reply(line, line.split(" ", 1)[0])
        request = read_request(line)
        return "no syntax" if request is None else words_of(self.send(request))

    def bid(self, good: int, *points: Point) -> str:
        """Bids points, each units and dollars, which replace the whole earlier bid there."""
        return self.ask(f"bid {good} {text_of_points(points)}")

    def withdraw(self, good: int) -> str:
        """Takes the standing bid back."""
        return self.ask(f"withdraw {good}")

    def quote(self, good: int) -> Quote:
        """The board of an auction."""
        reply = self.send(Request("quote", good))
        if not isinstance(reply, Quote):
            raise LinkError(f"{self.word}: quote {good}: {words_of(reply)}")
        return reply

    def own(self, good: int) -> int:
        """How many units the agent holds; below 0 it owes them."""
        return self.holding(good).holding

    def holding(self, good: int) -> Own:
        """What the agent holds, and its standing points."""
        reply = self.send(Request("own", good))
        if not isinstance(reply, Own):
            raise LinkError(f"{self.word}: own {good}: {words_of(reply)}")
        return reply

    def cash(self) -> int:
        """What the agent earned so far less what it paid, in dollars."""
        reply = self.send(Request("cash"))
        if not isinstance(reply, Cash):
            raise LinkError(f"{self.word}: cash: {words_of(reply)}")
        return reply.dollars

    def quit(self) -> None:
        """Ends the session."""
        self.send(Request("quit"))
        self.close()

    def close(self) -> None:
        """Ends the link without a word."""
        self.lines.close()
        self.stream.close()
        self.record.close()

    def __enter__(self) -> "Link":
        return self

    def __exit__(self, kind: Optional[Type[BaseException]], fault: Optional[BaseException],
                 trace: Optional[TracebackType]) -> None:
        self.close()


def _usual_limit() -> float:
    """The seconds that a reply may take if the call does not say it."""
    try:
        return seconds(os.environ.get("AGENT_LIMIT", str(LIMIT)))
    except argparse.ArgumentTypeError as fault:
        raise LinkError(f"the variable AGENT_LIMIT: {fault}") from None


def prepare(stream: socket.socket) -> None:
    """Lets each line be sent at once, and an end of the other side be noticed while nothing is
    sent, where the system has the means for it."""
    stream.setsockopt(socket.IPPROTO_TCP, socket.TCP_NODELAY, 1)
    stream.setsockopt(socket.SOL_SOCKET, socket.SO_KEEPALIVE, 1)
    for name, value in KEEPALIVE.items():
        if hasattr(socket, name):
            stream.setsockopt(socket.IPPROTO_TCP, getattr(socket, name), value)


def _no_link(host: str, port: int, fault: OSError) -> str:
    return f"cannot connect to {host} at port {port}: {fault.strerror or fault}"


def _connect(host: str, port: int) -> socket.socket:
    """A connection to the server, which may still be starting."""
    if not 1 <= port <= 65535:  # otherwise the system takes the rest of a division by 65536
        raise Hopeless(f"cannot connect to {host} at port {port}: ports are 1 to 65535")
    deadline = time.monotonic() + PATIENCE
    while True:
        try:
            return socket.create_connection((host, port))
        except OSError as fault:
            if not isinstance(fault, ConnectionRefusedError) or time.monotonic() > deadline:
                raise Hopeless(_no_link(host, port, fault)) from None
        time.sleep(0.2)


def program() -> Optional[str]:
    """The file of tac; None if there is none."""
    try:
        return tac.find()
    except tac.ProgramError:
        return None


def account(holdings: Sequence[int], clients: Sequence[Client]) -> bytes:
    """The account file of 28 holdings and eight clients."""
    lines = ["account", " ".join(["hold", *map(str, holdings)])]
    for number, client in enumerate(clients):
        numbers = [number, client.arrive, client.depart, client.premium, *client.values]
        lines.append(" ".join(["client", *map(str, numbers)]))
    return "\n".join([*lines, "end", ""]).encode("ascii")


def solve(holdings: Sequence[int], clients: Sequence[Client]) -> Optional[int]:
    """The best total of 28 holdings for the clients, in dollars; None if there is no program."""
    try:
        solved = tac.solve(account(holdings, clients))
    except tac.ProgramError:
        return None
    return int(solved.split()[1])


def arguments(what: str) -> Tuple[str, int, str, float]:
    """The host, the port, the seat word and the pause in seconds of an agent's command line.

    With `--seed` in it, or the variable AGENT_SEED, Python's `random` draws from that number. With
    `--set SHADE=1.0` the name SHADE of the agent's file has that value from now on.

    Args:
        what: What the agent does, for its help text.
    """
    parser = agent_parser(what)
    return begin(parser, parser.parse_args())


def run(what: str, play: Callable[[Link, float], None]) -> None:
    """Runs an agent: it takes its seat by the words of its command line, plays, and quits. If its
    link is lost for good it ends with a line that says so, and status 1. With `--again` it then
    asks for a seat in the next game, as in a practice room, until there is no server.

    Args:
        what: What the agent does, for its help text.
        play: Plays a game with a link and a pause in seconds. It is called again after a lost bid,
            so it should begin with `own`.
    """
    parser = agent_parser(what)
    parser.add_argument("--again", action="store_true",
                        help="after each game ask for a seat in the next one, until no server has "
                             f"listened for {PATIENCE} seconds")
    given = parser.parse_args()
    host, port, word, pause = begin(parser, given)
    told = ""
    while True:
        try:
            with Link.greet(host, port, word) as link:
                told = ""
                _play(link, pause, play)
                link.quit()
        except LinkError as fault:
            if not given.again or isinstance(fault, Hopeless):
                sys.exit(str(fault))
            if str(fault) != told:
                told = str(fault)
                tell(f"{told}; asking for a seat in the next game")
        if not given.again:
            return
        time.sleep(NEXT)


def _play(link: Link, pause: float, play: Callable[[Link, float], None]) -> None:
    """Plays a game to its end, whatever bids are lost."""
    while True:
        try:
            play(link, pause)
            return
        except Unanswered:
            continue
