"""The journal of a game: what the lobby writes while the game runs, so that nothing is lost.

A journal is a text with one JSON object a line (docs/FORMATS.md, "The journal of a game").
The lobby writes a reply, with all lines before it, before it passes it on. So each reply that an
agent has got is here, after every line that affected it. What the lobby has written survives even
SIGKILL. A power failure may lose the last second or so, if the system's `fsync` waits for the disk,
as it does on Linux.
"""

from __future__ import annotations

import base64
import copy
import errno
import json
import os
import threading
import time
from collections import deque
from dataclasses import dataclass, field
from pathlib import Path
from typing import Any, Callable, Deque, Dict, List, Optional, Tuple

from geesefuton.processes import why
from geesefuton.program import CommandError
from geesefuton.records.dialects import (CASH, MOST_LINE, Asked, asked_by, is_refusal, position_of,
                                         reply_of)
from geesefuton.records.games import GOODS, SEATS, TICKS, Game, GameError, read_game
from geesefuton.records.replies import ReplyError
from geesefuton.records.rules import clock_ticks

VERSION = 1
SYNC = 1.0  # seconds between two requests to put what was written onto the disk
STALL = 3.0  # seconds after which it is told that a disk takes nothing
_quoted = json.JSONEncoder().encode  # `json.dumps` of a text, in half the time
NO_DISK = (errno.EINVAL, errno.ENOTSUP)  # what `fsync` says of a pipe or the like


class Journal:
    """Writes a journal. Lines are kept until `flush`, or until a line that `tell` writes.

    Once the file takes no more, `warn` is called and nothing more is written. Once the disk fails
    to keep what was written, `warn` is called, and the journal goes on. While a disk stalls, the
    game waits: an agent gets no reply that the journal does not have, and to leave each line to a
    thread that may be given up would cost each request a tenth more.

    Args:
        file: A new file; None if nothing is to be written.
        warn: Is told what fails, in any thread.

    Raises:
        OSError: The file is there already, or cannot be made.
    """

    def __init__(self, file: Optional[Path], warn: Callable[[str], None]) -> None:
        self.file, self._warn = file, warn
        self._held: List[str] = []
        self._zero: Optional[float] = None
        self._number: Optional[int] = None
        self._loss: Optional[OSError] = None  # why the disk did not keep something
        self._is_loss_told = self._is_dirty = False
        self._writing: Optional[float] = None  # since when a line is written
        self._closed = threading.Event()
        self._threads: List[threading.Thread] = []
        if file is not None:  # it has the seat words, which are passwords
            how = os.O_WRONLY | os.O_CREAT | os.O_EXCL | os.O_APPEND
            self._number = os.open(file, how, 0o600)
            self._sync_folder(file.parent)
            self._threads = [threading.Thread(target=self._sync, args=(self._number,), daemon=True),
                             threading.Thread(target=self._watch, daemon=True)]
            for thread in self._threads:
                thread.start()

    @property
    def is_whole(self) -> bool:
        """Whether the file has taken all so far."""
        return self._number is not None

    def head(self, pace: int, form: str, game: str) -> None:
        """Writes the first line; `game` is the canonical text of the game file."""
        self.tell(journal=VERSION, at=int(time.time()), pace=pace, form=form, game=game)

    def begin_time(self) -> None:
        """Times are counted from now on: the welcome is being sent."""
        self._zero = time.monotonic()

    def now(self) -> int:
        """Milliseconds since the welcome."""
        return 0 if self._zero is None else int((time.monotonic() - self._zero) * 1000)

    def request(self, agent: int, line: bytes) -> None:
        """An agent's line that is about to be passed on."""
        if self._number is None:
            return
        line = line[:MOST_LINE + 1]
        key, text = "q", _quoted(line.decode("latin-1"))
        if 3 * len(text) > 4 * len(line) + 60:  # escapes would make it up to six times as long
            key, text = "q64", f'"{base64.b64encode(line).decode("ascii")}"'
        self._held.append(f'{{"a":{agent},"{key}":{text}}}')

    def reply(self, agent: int, line: bytes) -> None:
        """A reply that came for an agent. It may be passed on after the next `flush`."""
        if self._number is None:
            return
        text = _quoted(line.decode("latin-1"))
        self._held.append(f'{{"a":{agent},"r":{text},"t":{self.now()}}}')

    def tell(self, **what: Any) -> None:
        """Writes an object."""
        self._held.append(json.dumps(what, separators=(",", ":")))
        self.flush()

    def timed(self, **what: Any) -> None:
        """Writes an object with its time, if the game has begun."""
        self.tell(**what, **({} if self._zero is None else {"t": self.now()}))

    def flush(self) -> None:
        """Writes all lines that are kept."""
        self._tell_loss()
        if not self._held:
            return
        data = memoryview(("\n".join(self._held) + "\n").encode("ascii"))
        self._held, self._writing = [], time.monotonic()
        while data and self._number is not None:
            try:
                data = data[os.write(self._number, data):]
            except OSError as fault:
                self._number = None
                self._warn(f"cannot write the journal {self.file} ({why(fault)}): the game goes on "
                           "without it")
        self._is_dirty, self._writing = True, None

    def close(self) -> None:
        """Writes all that is kept, waits until it is on the disk, and closes the file."""
        self.flush()
        self._closed.set()
        for thread in self._threads:
            thread.join()
        self._tell_loss()

    def _tell_loss(self) -> None:
        if self._loss is not None and not self._is_loss_told:
            self._is_loss_told = True
            self._warn(f"cannot sync the journal {self.file} to disk ({why(self._loss)}): the game "
                       "goes on, but a power failure may lose more than its last second")

    def _sync_folder(self, place: Path) -> None:
        """Puts the file's name onto the disk."""
        try:
            folder = os.open(place, os.O_RDONLY)
        except OSError as fault:
            self._loss = fault
            return
        self._put(folder)
        os.close(folder)

    def _sync(self, number: int) -> None:
        """Puts onto the disk now and then what was written, and in the end the rest."""
        is_last = False
        while not is_last:
            is_last = self._closed.wait(SYNC)
            if self._is_dirty:
                self._is_dirty = False
                self._put(number)
        os.close(number)

    def _watch(self) -> None:
        """Tells of each line that takes long to be written."""
        told: Optional[float] = None
        while not self._closed.wait(SYNC):
            since = self._writing
            if since is not None and since != told and time.monotonic() - since > STALL:
                told = since
                self._warn(f"the disk of the journal {self.file} has taken nothing for {STALL:g} "
                           "seconds: the game waits for it")

    def _put(self, number: int) -> None:
        """Waits until what was written is on the disk."""
        try:
            os.fsync(number)
        except OSError as fault:
            if fault.errno not in NO_DISK:
                self._loss = fault


class JournalError(CommandError):
    """A text that is no journal; the error names the line."""


@dataclass
class Exchange:
    """A request of an auction or of cash, and its reply in words once that has come."""

    agent: int
    asked: Asked  # what the server took it for
    order: int  # the number of its line in the journal
    tick: int  # the last one when it was passed on
    reply: Optional[str] = None
    at: Optional[int] = None  # the position in the reply
    time: int = 0  # when the reply came, in milliseconds since the welcome
    answered: int = 0  # the number of the reply's line in the journal


class Schedule:
    """The clock's calls of a game: at which ticks it calls each auction."""

    def __init__(self, game: Game) -> None:
        self.ticks = [clock_ticks(game, good) for good in GOODS]

    def most(self, good: int, tick: int) -> int:
        """How many calls of an auction the clock has made until a tick."""
        return sum(at <= tick for at in self.ticks[good])

    def span(self, good: int, clocks: int) -> Tuple[int, int]:
        """Between which ticks an entry stands that has so many calls of the clock before it."""
        ticks = self.ticks[good]
        least = ticks[clocks - 1] if clocks else 0
        return least, ticks[clocks] - 1 if clocks < len(ticks) else TICKS


@dataclass
class Agent:
    """What a journal says of one agent."""

    is_here: bool = False  # whether a link has the seat
    is_waived: bool = False
    has_played: bool = False  # whether a link had the seat in the game
    end: Optional[str] = None  # why its session is over
    asked: int = 0  # lines
    answered: int = 0
    refused: int = 0  # replies that refuse a line before any auction was asked
    last: int = 0  # the tick of its last line, or of its link's beginning
    waiting: Deque[Tuple[int, int, str]] = field(default_factory=deque)


class JournalReader:
    """What a journal says. Lines may be added while they are written.

    Args:
        keeps_calls: Whether `calls` are kept, which are most of what it needs.
    """

    def __init__(self, keeps_calls: bool = True) -> None:
        self._keeps_calls = keeps_calls
        self.text, self.form, self.pace, self.at = "", "words", 0, 0  # `text` is canonical
        self.game: Optional[Game] = None  # what it says
        self.schedule: Optional[Schedule] = None
        self.calls: List[Exchange] = []  # whose replies have a position, in the replies' order
        self.agents = [Agent() for _ in range(SEATS)]
        self.is_playing, self.has_begun = False, False  # it has begun once the welcome was sent
        self.tick, self.time = 0, 0  # the last ones, in milliseconds since the welcome
        self.lines = 0
        self.status: Optional[int] = None  # of the server, once it has ended

    def read(self, text: str) -> None:
        """Adds a piece of a journal that ends with a line.

        Raises:
            JournalError: A line is not a journal line.
        """
        for line in filter(None, text.split("\n")):
            self.add(line)

    def add(self, line: str) -> Dict[str, Any]:
        """Adds a line, and gives its object, in which each line of an agent is a text.

        Raises:
            JournalError: It is not a journal line.
        """
        self.lines += 1
        try:
            what: Dict[str, Any] = json.loads(line)
            if (self.lines == 1) != ("journal" in what):
                raise ValueError("`journal` belongs in the first line, and in no other")
            if "q64" in what:
                what["q"] = base64.b64decode(what["q64"], validate=True).decode("latin-1")
            self._add(what)
        except (ValueError, KeyError, IndexError, TypeError, AttributeError,
                GameError, ReplyError) as fault:
            raise JournalError(f"line {self.lines} is not a journal line: {fault}") from None
        return what

    def copy(self) -> "JournalReader":
        """What is known now, for a reader that works while more is added."""
        other = copy.copy(self)
        other.calls = self.calls[:]
        other.agents = copy.deepcopy(self.agents)
        return other

    def pending(self) -> List[Exchange]:
        """The calls of auctions that were passed on and have no reply, each agent's in order."""
        calls = []
        for number, agent in enumerate(self.agents):
            for order, tick, line in agent.waiting:
                asked = asked_by(line, self.form)
                if asked and asked.good != CASH and asked.keyword != "quote":
                    calls.append(Exchange(number, asked, order, tick))
        return calls

    def _add(self, what: Dict[str, Any]) -> None:
        if "q" in what:
            agent = self.agents[what["a"]]
            agent.asked, agent.last = agent.asked + 1, self.tick
            agent.waiting.append((self.lines, self.tick, what["q"]))
        elif "r" in what:
            self._answer(what["a"], what["r"], what["t"])
        elif "tick" in what:
            self.tick, self.has_begun = what["tick"], True
        elif "here" in what:
            agent = self.agents[what["here"]]
            agent.is_here, agent.is_waived, agent.last = True, False, self.tick
            agent.has_played = agent.has_played or self.is_playing
        elif "gone" in what:
            self.agents[what["gone"]].is_here = False
        elif "without" in what:
            agent = self.agents[what["without"]]
            agent.is_waived = not agent.is_here  # to one that is here it changes nothing
        elif "begin" in what:
            self.is_playing = True
            for number in what["begin"]:
                self.agents[number].has_played = True
        elif "end" in what:
            self.agents[what["end"]].end = what["why"]
        elif "over" in what:
            self.status = what["over"]
        elif "journal" in what:
            self._head(what)
        self.time = max(self.time, what.get("t", 0))

    def _head(self, what: Dict[str, Any]) -> None:
        if what["journal"] != VERSION:
            raise ValueError(f"its version is {what['journal']}, not {VERSION}")
        self.text, self.game = what["game"], read_game(what["game"])
        self.schedule = Schedule(self.game)
        self.form, self.pace, self.at = what["form"], what["pace"], what["at"]

    def _answer(self, number: int, line: str, now: int) -> None:
        agent = self.agents[number]
        if not agent.waiting:
            raise ValueError("the reply has no request")
        order, tick, asking = agent.waiting.popleft()
        agent.answered += 1
        agent.refused += is_refusal(line.encode("latin-1"))
        reply = reply_of(line, self.form)
        at = position_of(reply)
        if at is None:
            return
        asked = asked_by(asking, self.form)
        if asked is None:
            raise ValueError("a line that made no call has a reply with a position")
        if self._keeps_calls:
            self.calls.append(Exchange(number, asked, order, tick, reply, at, now, self.lines))


def read_journal(file: Path, take: Optional[Callable[[Dict[str, Any]], None]] = None
                 ) -> JournalReader:
    """Reads a journal file. A last line without its end is left out: nothing of it was passed on.
    `take` is given the object of each line, and then calls are not kept.

    Raises:
        JournalError: It is no journal.
        OSError: It cannot be read.
    """
    reader = JournalReader(keeps_calls=take is None)
    try:
        with file.open("rb") as lines:
            for line in lines:
                if line.endswith(b"\n") and len(line) > 1:
                    what = reader.add(line[:-1].decode("latin-1"))
                    if take is not None:
                        take(what)
        if reader.game is None:
            raise JournalError("it lacks the first line of a journal")
    except JournalError as fault:
        raise JournalError(f"{file}: {fault}") from None
    return reader
