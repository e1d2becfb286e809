"""Passes lines on between agents and the server, all in one thread.

An agent's lines go to the server one at a time, each after the reply to the line before. So at any
moment at most one line of each agent has no reply, and a journal that breaks off leaves little to
guess. The relay reads every reply, writes it into the journal, and sends it to the link whose line
it answers, or drops it if that link has ended: it never goes to another link that has taken the
seat since. An incomplete line is not passed on, and of a line that is too long, only the part that
makes it too long.
"""

from __future__ import annotations

import contextlib
import itertools
import socket
import time
from functools import partial
from typing import Callable, Dict, Optional, Sequence

from geesefuton.hosting import events
from geesefuton.hosting.events import End, Event
from geesefuton.hosting.journal import Journal
from geesefuton.hosting.links import MOST_SAID, OuterLink, Session
from geesefuton.hosting.seats import Action, Give, Over, Refuse, Seat, Seats, State
from geesefuton.network.addresses import parsed
from geesefuton.network.gate import AT_ONCE, Gate, Standing, most_links
from geesefuton.network.loop import Loop, Served
from geesefuton.records.dialects import MOST_LINE, is_bye

MOST_HELD = 65536  # bytes for an agent that does not read; nothing is asked for it beyond these
MOST_LINKS, MOST_EACH, KEPT = 200, 32, 48  # links at a time, as a `Gate` counts them
OTHERS = 48  # open files that the lobby needs beside them
MOST_LINES = 65536  # of a seat that the server answers
NEAR_MOST = 60000  # lines of a seat of which the host is told
UNREAD = 5.0  # seconds after which the host is told of an agent that does not read
OWN = "the house"  # where the links of the host's own agents come from


class Relay:
    """The links of a game, and which of them has which seat. A link has some seconds of `patience`
    for its first line, and after some of `silence` it gives way to another."""

    def __init__(self, words: Sequence[str], listeners: Sequence[socket.socket],
                 emit: Callable[[Event], None], journal: Journal,
                 patience: float, silence: float) -> None:
        self.seats, self.sessions = Seats(words, silence), list[Session]()
        self.started: Optional[float] = None  # when the game began, by `time.monotonic`
        self.gate = Gate(time.monotonic, most_links(MOST_LINKS, OTHERS), MOST_EACH, KEPT, patience)
        self._emit, self.journal, self._patience = emit, journal, patience
        self.links: Dict[int, OuterLink] = {}  # those from outside, by their numbers
        self.homes: Dict[int, str] = {}  # whence each seat's agent came first
        self._numbers = itertools.count()
        self._due: Dict[int, OuterLink] = {}  # those to which something is to be sent
        self.loop = Loop(self._warn)
        for number, listener in enumerate(listeners):
            listener.setblocking(False)
            network = f"listener {number}" if len(listeners) > 1 else ""
            self.loop.attend(listener, partial(self._accept, listener, network))

    def turn(self, timeout: float) -> None:
        """Waits until something comes, for some seconds at most, and passes it on."""
        self.loop.serve(timeout)
        self._deliver()

    def pass_time(self, now: float) -> None:
        """Ends what has waited too long, and writes what the journal keeps."""
        self.journal.flush()
        self.loop.pass_time(now)
        for seat in self.seats.seats:
            self._do(seat, seat.wait(now))
        for link in list(self.links.values()):
            self.loop.guard(partial(self._look_at, link, now), partial(self.fail, link))
        self._deliver()

    def _look_at(self, link: OuterLink, now: float) -> None:
        """Ends a link that has waited too long, or judges its first line."""
        if now > link.visit.deadline:
            self._make_room(link, f"it sent no line for {self._patience:g} seconds")
        elif link.visit.is_due(now):
            self._judge(link)
        elif link.seat and link.stuck and now - link.stuck > UNREAD and not link.is_told:
            link.is_told = True
            self._warn(f"{link.seat.word} has not read its replies for {UNREAD:g} seconds; its "
                       "requests wait until it does")

    # Links from outside.

    def _accept(self, listener: socket.socket, network: str) -> None:
        for _ in range(AT_ONCE):
            try:
                link, where = listener.accept()
            except (BlockingIOError, ConnectionError):
                return
            visit = self.gate.arrive(where[0], network)
            if visit is None:
                link.close()
                continue
            guest = OuterLink(next(self._numbers), link, visit, str(parsed(where[0])))
            visit.end = partial(self._make_room, guest, "too many links had no seat")
            guest.served = Served(partial(self._read, guest), partial(self._owe, guest, b""),
                                  partial(self.fail, guest))
            self.links[guest.number] = guest
            self.loop.watch(guest)

    def _make_room(self, link: OuterLink, why: str) -> None:
        """Closes a link that has no seat."""
        if not link.visit.is_parting():
            self._emit(events.Lost(time.time(), link.source, why))
        self._drop(link)

    def _read(self, link: OuterLink) -> None:
        if not link.is_open:
            return None
        try:
            data = link.socket.recv(MOST_SAID)
        except BlockingIOError:
            return None
        except OSError:
            return self.fail(link)
        if not data:
            return self._end_side(link)
        if link.visit.is_parting():
            return None  # what a refused link sends is not read
        link.feed(data)
        if link.seat is None:
            if link.visit.standing is Standing.STRANGER and (
                    link.has_line() or len(link.said) > MOST_LINE):
                wait = link.visit.whole()
                if wait is None:
                    self._make_room(link, "too many links of its network wait for an answer")
                elif not wait:
                    self._judge(link)
        elif link.seat.holder == link.number:
            self._do(link.seat, link.seat.speak(time.monotonic()))
            if self.sessions:
                self.sessions[link.seat.number].lines += data.count(b"\n")
                self._pass_on(self.sessions[link.seat.number])
        return self.loop.watch(link)

    def _judge(self, link: OuterLink) -> None:
        """Seats or refuses a link by its first line."""
        is_line = link.has_line()
        line = link.take() if is_line else bytes(link.said)
        seat, told = self.seats.admit(line) if is_line else (None, "syntax")
        if seat is None:
            self._refuse(link, told, line)
            return link.visit.refuse() if told == "wrongword" else None
        link.visit.know(seat.word)
        link.seat, link.source = seat, OWN if told else link.source
        return self._do(seat, seat.come(link.number, time.monotonic()))

    def _end_side(self, link: OuterLink) -> None:
        """A link sends nothing more. What it sent before is still asked."""
        link.has_ended = True
        seat = link.seat
        if link.visit.is_parting():
            return self.loop.watch(link) if link.held else self._drop(link)
        if seat is None:
            return self._make_room(link, "it ended before its first line")
        if seat.holder == link.number and (link.has_line() or link.owed or link.held):
            self._do(seat, seat.stop(time.monotonic()))
            return self.loop.watch(link)
        return self.fail(link)

    def fail(self, link: Optional[OuterLink]) -> None:
        """A link has ended, or failed, or the host ends it."""
        if link is None or not link.is_open:
            return None
        seat = link.seat
        self._drop(link)
        if seat is None:
            return None
        was_holder = seat.holder == link.number and seat.state is not State.OVER
        actions = seat.go(link.number, time.monotonic())
        if was_holder and seat.state is not State.OVER:
            self.journal.timed(gone=seat.number)
            self._emit(events.Departed(time.time(), seat.number, seat.word))
        return self._do(seat, actions)

    def _drop(self, link: OuterLink) -> None:
        """Closes a link."""
        if link.is_open:
            link.is_open = False
            self.loop.watch(link)
            link.socket.close()
            link.visit.leave()
            del self.links[link.number]
            self._due.pop(link.number, None)

    def _part(self, link: OuterLink, last: bytes = b"") -> None:
        """Sends a link what it still gets, and closes it once it has ended its side."""
        if link.is_open and not link.visit.is_parting():
            link.visit.part()
            seat, link.seat = link.seat, None
            link.said.clear()
            self._owe(link, last)
            if seat is not None:
                self._do(seat, seat.go(link.number, time.monotonic()))

    def _refuse(self, link: OuterLink, answer: str, line: bytes) -> None:
        text = line[:40].decode("ascii", "replace")
        self._emit(events.Refused(time.time(), link.source, answer, text))
        self._part(link, f"refused {answer}\n".encode("ascii"))

    def _do(self, seat: Seat, actions: Sequence[Action]) -> None:
        """Does what a seat asks for. A fault costs the link that it is about, and no other seat."""
        for action in actions:
            link = None if isinstance(action, Over) else self.links.get(action.link)
            self.loop.guard(partial(self._act, seat, action, link), partial(self.fail, link))

    def _act(self, seat: Seat, action: Action, link: Optional[OuterLink]) -> None:
        """Does one thing that a seat asks for; `link` is the one that it is about, if there is."""
        if isinstance(action, Over):
            self._finish_seat(seat, action.reason)
        elif link is None:
            if isinstance(action, Give):  # it has gone meanwhile
                self._do(seat, seat.go(action.link, time.monotonic()))
        elif isinstance(action, Give):
            self._give(seat, link, action.again)
        elif isinstance(action, Refuse):
            self._refuse(link, "taken", f"hello {seat.word}".encode())
        else:
            self._drop(link)

    def _give(self, seat: Seat, link: OuterLink, again: bool) -> None:
        self.homes.setdefault(seat.number, link.source)
        self.journal.timed(here=seat.number, **{"from": link.source})
        what = (time.time(), seat.number, seat.word, link.source)
        self._emit(events.Rejoined(*what) if again else events.Arrived(*what))
        if self.sessions:
            self._welcome(self.sessions[seat.number], link)

    def _welcome(self, session: Session, link: OuterLink) -> None:
        session.lines += link.said.count(b"\n")
        self._owe(link, session.welcome)
        self._pass_on(session)

    # Sending.

    def _owe(self, link: OuterLink, data: bytes) -> None:
        """Is to be sent at the end of this turn, after the journal is written."""
        link.held += data
        self._due[link.number] = link

    def _deliver(self) -> None:
        while self._due:
            self.journal.flush()
            due, self._due = self._due, {}
            for link in due.values():
                self.loop.guard(partial(self._write, link), partial(self.fail, link))

    def _write(self, link: OuterLink) -> None:
        if not link.is_open:
            return None
        try:
            if link.send():
                link.stuck, link.is_told = None, False
        except OSError:
            return self.fail(link)
        if link.held:
            link.stuck = link.stuck or time.monotonic()
        elif link.visit.is_parting():
            if link.has_ended:
                return self._drop(link)
            with contextlib.suppress(OSError):  # it may have ended
                link.socket.shutdown(socket.SHUT_WR)
        elif link.seat is not None and link.seat.holder == link.number and self.sessions:
            self._pass_on(self.sessions[link.seat.number])
            if link.has_ended and not (link.owed or link.has_line()):
                return self.fail(link)
        return self.loop.watch(link)

    # Sessions at the server.

    def begin(self, sessions: Sequence[Session]) -> None:
        """The game begins with one link to the server for each seat."""
        self.sessions, self.started = list(sessions), time.monotonic()
        here = tuple(seat.number for seat in self.seats.seats if seat.holder is not None)
        self.journal.tell(begin=here)
        for session in sessions:
            session.served = Served(partial(self._read_session, session),
                                    partial(self._send, session),
                                    partial(self._end_session, session))
            self.loop.watch(session)
            self._do(session.seat, session.seat.begin(self.started))
        self.journal.begin_time()
        self.journal.tell(tick=0, t=0)
        self._emit(events.Began(time.time(), here))
        for session in sessions:
            link = self.holder(session.seat)
            if link is not None:
                self._welcome(session, link)

    def release(self) -> None:
        """The last tick has passed: seats without a link are not kept any longer."""
        for seat in self.seats.seats:
            self._do(seat, seat.release())

    def waive(self, seat: Seat) -> None:
        """The host does not wait for an agent."""
        self.journal.timed(without=seat.number)
        self._emit(events.Waived(time.time(), seat.word))
        self._do(seat, seat.waive())

    def finish(self) -> None:
        """Ends all links."""
        for seat in self.seats.seats:
            self._do(seat, seat.finish())
        for link in list(self.links.values()):
            self._part(link)
        self._deliver()

    def settle(self) -> None:
        """The server has ended: what is left of seats and links is over."""
        for seat in self.seats.seats:
            self._do(seat, seat.finish() if self.holder(seat) is None else seat.leave())
        self.finish()

    def is_done(self) -> bool:
        """Whether no link is left, to agents or to the server."""
        return not self.links and all(session.has_ended for session in self.sessions)

    def close(self) -> None:
        """Closes all that is open."""
        for link in list(self.links.values()):
            self._drop(link)
        for session in self.sessions:
            session.socket.close()
        self.loop.close()

    def _pass_on(self, session: Session) -> None:
        """Sends the next line of the seat's agent to the server, if none waits for its reply."""
        seat, link = session.seat, self.holder(session.seat)
        if session.asked or link is None:
            return
        if seat.state is State.OVER:
            link.said.clear()
            return
        if len(link.held) > MOST_HELD or not link.has_line():
            return
        line = link.take()
        self.journal.request(seat.number, line)
        session.asked.append(link)
        session.passed += 1
        if session.passed == NEAR_MOST:
            self._warn(f"{seat.word} has sent {NEAR_MOST:,} lines; it gets no replies beyond "
                       f"{MOST_LINES:,}")
        link.owed += 1
        session.held += line + b"\n"
        self._send(session)
        self.loop.watch(link)

    def _send(self, session: Session) -> None:
        try:
            session.send()
        except OSError:
            return self._end_session(session)
        return self.loop.watch(session)

    def _read_session(self, session: Session) -> None:
        try:
            data = session.socket.recv(MOST_SAID)
        except BlockingIOError:
            return
        except OSError:
            data = b""
        if not data:
            self._end_session(session)
            return
        for line in session.feed(data):
            self._reply(session, line)
        self._pass_on(session)

    def _reply(self, session: Session, line: bytes) -> None:
        self.journal.reply(session.seat.number, line)
        link = session.answer(line)
        if is_bye(line):
            self._do(session.seat, session.seat.leave())
        if link.is_open:
            self._owe(link, line + b"\n")

    def _finish_seat(self, seat: Seat, reason: End) -> None:
        """Tells the server that an agent sends nothing more. What it still sends is read."""
        lines = 0
        if self.sessions:
            session = self.sessions[seat.number]
            reason, lines = session.reason(reason), session.lines
            with contextlib.suppress(OSError):  # it may have ended
                session.socket.shutdown(socket.SHUT_WR)
        self.journal.timed(end=seat.number, why=reason.value)
        self._emit(events.Ended(time.time(), seat.number, seat.word, reason, lines))

    def _end_session(self, session: Session) -> None:
        """The server has ended its side: the game is over, or has failed."""
        session.has_ended = True
        session.held.clear()
        self.loop.watch(session)
        seat, link = session.seat, self.holder(session.seat)
        self._do(seat, seat.finish() if link is None else seat.leave())
        if link is not None:
            self._part(link)

    def change_word(self, seat: Seat, word: str) -> None:
        """Another word leads to a seat from now on."""
        self._do(seat, self.seats.change_word(seat.number, word))

    def holder(self, seat: Seat) -> Optional[OuterLink]:
        """The link that has a seat, if there is one."""
        return None if seat.holder is None else self.links.get(seat.holder)

    def _warn(self, text: str) -> None:
        self._emit(events.Warned(time.time(), text))
