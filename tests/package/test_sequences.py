"""Random sequences of what comes to a relay and its seats, with links in memory.

Whatever comes in whatever order, after each of it:
- the holder and the heir of a seat are open links that know the seat, and any link that knows a
  seat is its holder or its heir;
- a seat has a holder as long as its state says so, and an heir exactly if another link waits;
- a seat whose session at the server has ended is over;
- at most one line of each seat has no reply, and a reply is sent to the link that asked, or to
  nobody;
- no fault was caught.
In the end each seat's part was told to be over once, and no link is left.
"""

import random
import selectors
import unittest
from types import SimpleNamespace
from typing import Any, Callable, Dict, List, Optional, Tuple
from unittest import mock

from geesefuton.hosting import events
from geesefuton.hosting.journal import Journal
from geesefuton.hosting.links import Session
from geesefuton.hosting.relay import Relay
from geesefuton.hosting.seats import State

SEQUENCES = 10_000
STEPS = 14  # of a sequence
WORDS = ["red", "blue"]
PATIENCE, SILENCE = 30.0, 10.0  # seconds
HAS_HOLDER = (State.HELD, State.CLOSING, State.CLAIMED)


class Wire:
    """A socket in memory, as its own side sees it; the other side uses its attributes, such as the
    numbers of the lines that it has asked."""

    def __init__(self, first: bytes = b"") -> None:
        self.inbox, self.outbox, self.asked = bytearray(first), bytearray(), list[int]()
        self.is_ended = self.is_reset = self.is_deaf = self.is_closed = False

    def setblocking(self, *_: int) -> None:
        pass

    setsockopt = setblocking

    def recv(self, most: int) -> bytes:
        if self.is_reset:
            raise ConnectionResetError
        if not self.inbox and not self.is_ended:
            raise BlockingIOError
        data = bytes(self.inbox[:most])
        del self.inbox[:most]
        return data

    def send(self, data: bytes) -> int:
        if self.is_reset:
            raise BrokenPipeError
        if self.is_deaf:
            raise BlockingIOError
        self.outbox += data
        return len(data)

    def shutdown(self, how: int) -> None:
        if self.is_reset:
            raise OSError

    def close(self) -> None:
        self.is_closed = True

    def take_lines(self) -> List[bytes]:
        """The whole lines that the other side was sent since."""
        *lines, rest = bytes(self.outbox).split(b"\n")
        self.outbox = bytearray(rest)
        return lines

    def ready(self) -> int:
        mask = selectors.EVENT_READ if self.inbox or self.is_ended or self.is_reset else 0
        return mask if self.is_deaf and not self.is_reset else mask | selectors.EVENT_WRITE


class Door:
    """A listener in memory."""

    def __init__(self) -> None:
        self.waiting: List[Wire] = []

    def setblocking(self, flag: bool) -> None:
        pass

    def accept(self) -> Tuple[Wire, Tuple[str, int]]:
        if not self.waiting:
            raise BlockingIOError
        return self.waiting.pop(0), ("127.0.0.1", 0)

    def ready(self) -> int:
        return selectors.EVENT_READ if self.waiting else 0


class Selecting:
    """A selector of what is in memory."""

    def __init__(self) -> None:
        self.known: Dict[Any, Tuple[int, Any]] = {}  # what each file waits for, and its key

    def register(self, file: Any, wants: int, data: Any) -> None:
        assert file not in self.known
        self.known[file] = wants, SimpleNamespace(data=data)

    def unregister(self, file: Any) -> None:
        del self.known[file]

    def modify(self, file: Any, wants: int, data: Any) -> None:
        self.unregister(file)
        self.register(file, wants, data)

    def select(self, timeout: float) -> List[Tuple[Any, int]]:
        return [(key, wants & file.ready()) for file, (wants, key) in self.known.items()
                if wants & file.ready()]

    def close(self) -> None:
        assert not [file for file in self.known if isinstance(file, Wire) and file.is_closed]


class Play:
    """A sequence.

    Attributes:
        now: The time, for all that happens, in seconds.
        wires: The agents' sides of the links from outside.
        heard: How many events were looked at.
    """

    now = 100.0

    def __init__(self, seed: int) -> None:
        self.draw = random.Random(seed)
        self.door, self.told = Door(), list[Any]()
        Play.now = 100.0
        listener: Any = self.door
        self.relay = Relay(WORDS, [listener], self.told.append, Journal(None, print), PATIENCE,
                           SILENCE)
        self.wires: List[Wire] = []
        self.heard = 0
        self.servers: List[Wire] = []
        self.waiting: List[Optional[bytes]] = []  # the line of each seat that has no reply
        self.count = 0
        self.steps: List[str] = []

    def run(self) -> None:
        for _ in range(STEPS):
            self.step()
            self.relay.turn(0)
            self.check()
        self.end()

    def step(self) -> None:
        step = self.draw.choice(STEPS_OF)
        self.steps.append(step.__name__)
        step(self)

    def connect(self) -> None:
        first = self.draw.choice(["hello red\n", "hello red\n", "hello blue\n", "hello green\n",
                                  "hello red\nown 0\n", "hel", "", "GET /\n"])
        self.wires.append(Wire(first.encode()))
        self.door.waiting.append(self.wires[-1])

    def wire(self) -> Wire:
        """One of the wires; one that nobody has if there is none."""
        return self.draw.choice(self.wires or [Wire()])

    def say(self) -> None:
        wire = self.wire()
        if not wire.is_ended:
            self.count += 1
            wire.asked.append(self.count)
            wire.inbox += b"own %d\n" % self.count

    def quit(self) -> None:
        wire = self.wire()
        if not wire.is_ended:
            wire.inbox += b"quit\n"

    def stop(self) -> None:
        self.wire().is_ended = True

    def reset(self) -> None:
        self.wire().is_reset = True

    def read_or_not(self) -> None:
        wire = self.wire()
        wire.is_deaf = not wire.is_deaf

    def begin(self) -> None:
        if self.servers:
            return
        self.servers = [Wire() for _ in WORDS]
        self.waiting = [None] * len(WORDS)
        server: Any
        self.relay.begin([Session(seat, server, b"welcome\n")
                          for seat, server in zip(self.relay.seats.seats, self.servers)])

    def answer(self) -> None:
        for seat, server in enumerate(self.servers):
            line = self.waiting[seat]
            if line is not None and not server.is_ended:
                server.inbox += b"bye\n" if line == b"quit" else b"@%b own 0 ()\n" % line[4:]
                self.waiting[seat] = None

    def server_ends(self) -> None:
        if self.servers:
            self.draw.choice(self.servers).is_ended = True

    def pass_time(self) -> None:
        Play.now += self.draw.choice([0.5, 2.0, 11.0, 17.0, 31.0])
        self.relay.pass_time(Play.now)

    def waive(self) -> None:
        self.relay.waive(self.draw.choice(self.relay.seats.seats))

    def release(self) -> None:
        if self.servers:
            self.relay.release()

    def finish(self) -> None:
        if self.servers and self.draw.random() < 0.3:
            self.relay.finish()

    def check(self) -> None:
        links = self.relay.links
        for seat in self.relay.seats.seats:
            for number in (seat.holder, seat.heir):
                assert number is None or links[number].seat is seat, "a link that knows the seat"
            assert seat.holder is not None or seat.state not in HAS_HOLDER, "a holder"
            assert seat.holder is None or seat.state in (*HAS_HOLDER, State.OVER), "no holder"
            assert (seat.heir is not None) == (seat.state is State.CLAIMED), "an heir"
        for session in self.relay.sessions:
            assert not session.has_ended or session.seat.state is State.OVER, "a seat of no session"
        for link in links.values():
            assert link.is_open
            assert link.seat is None or link.number in (link.seat.holder, link.seat.heir)
        for number, server in enumerate(self.servers):
            for line in server.take_lines():
                assert self.waiting[number] is None, "two lines without a reply"
                self.waiting[number] = line
        for wire in self.wires:
            for line in wire.take_lines():
                if line.startswith(b"@"):
                    assert int(line[1:].split(b" ")[0]) in [0, *wire.asked], "another link's reply"
        assert not [event for event in self.told[self.heard:]
                    if isinstance(event, events.Warned) and "error" in event.text], self.told
        self.heard = len(self.told)

    def end(self) -> None:
        """The server ends, and with it the game."""
        self.begin()
        for server in self.servers:
            server.is_ended = True
        self.relay.turn(0)
        self.relay.settle()
        self.check()
        Play.now += 40.0
        self.relay.turn(0)
        self.relay.pass_time(Play.now)
        assert self.relay.is_done(), "a link is left"
        ended = [event.seat for event in self.told if isinstance(event, events.Ended)]
        assert sorted(ended) == list(range(len(WORDS))), "each seat is over once"
        self.relay.close()


STEPS_OF: List[Callable[[Play], None]] = [
    *[Play.connect] * 5, *[Play.say] * 3, *[Play.answer] * 4, *[Play.pass_time] * 3,
    *[Play.begin] * 2, Play.quit, Play.stop, Play.reset, Play.read_or_not,
    Play.server_ends, Play.waive, Play.release, Play.finish]


class Sequences(unittest.TestCase):
    def test_links_and_seats_agree_after_whatever_comes(self) -> None:
        with mock.patch("time.monotonic", lambda: Play.now), \
                mock.patch("selectors.DefaultSelector", Selecting):
            for seed in range(SEQUENCES):
                play = Play(seed)
                try:
                    play.run()
                except Exception as fault:
                    raise AssertionError(f"seed {seed}: {fault!r} after {play.steps}") from fault
