"""Which link has which seat: admission, reconnecting, and the end of a seat, without sockets.

A *seat* is one of the eight places of a game. A link takes it by its word; at any time at most one
link has it. An *heir* is a second link with the word of a taken seat: it waits until the first link
proves to be live or gone. Links are known by numbers. Each event of a seat is a method, which
returns the actions to take; `Seat` is a small state machine with the states of `State`.

Before the game an agent whose link ends leaves its seat free. During the game its session at the
server is kept, so the agent may reconnect with the same word until the last tick, and a seat whose
agent never connected waits for it. A link that has gone silent without an end, as when a machine
loses its network, cannot be told from a link whose agent is thinking. So a second link with its
word becomes the heir. If the first link sends a line, the heir is refused. If it stays silent for
long during the game, the heir takes the seat. Before the game agents need not send anything: then
the heir takes the seat only once the first link has ended, as it does if its machine is gone, and
otherwise is refused after a while.
"""

from __future__ import annotations

import enum
import re
from dataclasses import dataclass, field
from typing import Dict, List, Optional, Sequence, Tuple, Union

from geesefuton.hosting.events import End

SILENCE = 10.0  # seconds without a word after which a link gives way to another with its word
PROBED = 16.0  # seconds in which a link ends whose machine is gone, as the system probes it
GREETING = re.compile(rb"hello ([a-z0-9]{1,16})")


class State(enum.Enum):
    """What is known of a seat."""

    FREE = "no link has it, and its agent may come"
    WAIVED = "no link has it, and the game does not wait for its agent"
    HELD = "a link has it"
    CLOSING = "a link has it that sends nothing more, and is still being answered"
    CLAIMED = "a link has it, and another with its word waits"
    OVER = "its session is over"


@dataclass(frozen=True)
class Give:
    """The link has the seat from now on."""

    link: int
    again: bool  # whether the seat had an agent in this game before


@dataclass(frozen=True)
class Refuse:
    """The link is answered `refused taken`."""

    link: int


@dataclass(frozen=True)
class Close:
    """The link has lost its seat and is closed."""

    link: int


@dataclass(frozen=True)
class Over:
    """The session of the seat is to be ended."""

    reason: End


Action = Union[Give, Refuse, Close, Over]


@dataclass
class Seat:
    """One seat."""

    number: int
    word: str
    silence: float = SILENCE  # seconds without a word after which its link gives way to another
    state: State = State.FREE
    holder: Optional[int] = None  # the link that has it
    heir: Optional[int] = None  # a link that waits for it
    heard: float = 0.0  # when the holder spoke last, in seconds
    claimed: float = 0.0  # when the heir came
    played: bool = False  # whether an agent had it in the game
    playing: bool = False  # whether the game has begun
    kept: bool = True  # whether it waits for its agent while no link has it

    def come(self, link: int, now: float) -> List[Action]:
        """A link says the word of the seat."""
        if self.state in (State.FREE, State.WAIVED):
            return self._give(link, now)
        if self.state is State.CLOSING:
            return self._replace(link, now)
        if self.state is State.HELD:
            if self.playing and now - self.heard >= self.silence:
                return self._replace(link, now)
            self.state, self.heir, self.claimed = State.CLAIMED, link, now
            return []
        return [Refuse(link)]

    def speak(self, now: float) -> List[Action]:
        """The holder sends something."""
        self.heard = now
        return self.refuse_heir() if self.state is State.CLAIMED else []

    def stop(self, now: float) -> List[Action]:
        """The holder ends its side, and something that it sent has no answer yet."""
        if self.state is State.CLAIMED:
            return self._replace(self.heir, now)
        if self.state is State.HELD:
            self.state = State.CLOSING
        return []

    def go(self, link: int, now: float) -> List[Action]:
        """A link that has the seat, or waits for it, has ended."""
        if link == self.heir:
            self.state, self.heir = State.HELD, None
            return []
        if link != self.holder:
            return []
        self.holder = None
        if self.state is State.CLAIMED:
            heir, self.heir = self.heir, None
            return self._give(heir, now)
        if self.state is State.OVER:
            return []
        if not self.kept:
            return self._end(End.LEFT)
        self.state = State.FREE
        return []

    def wait(self, now: float) -> List[Action]:
        """Time passes."""
        if self.state is not State.CLAIMED:
            return []
        if self.playing and now - self.heard >= self.silence:
            return self._replace(self.heir, now)
        if not self.playing and now - self.claimed >= PROBED:
            return self.refuse_heir()  # the holder's machine has answered all the while
        return []

    def waive(self) -> List[Action]:
        """The host does not wait for the agent. If it is here nothing changes."""
        if self.state is State.FREE and self.playing:
            return self._end(self._missing())
        if self.state is State.FREE:
            self.state = State.WAIVED
        return []

    def begin(self, now: float) -> List[Action]:
        """The game begins."""
        self.playing, self.heard = True, now
        if self.state is State.WAIVED:
            return self._end(End.ABSENT)
        self.played = self.holder is not None
        return []

    def leave(self) -> List[Action]:
        """The agent has quit. Its link stays until it ends."""
        if self.state is State.OVER:
            return []
        return self.refuse_heir() + self._end(End.LEFT)

    def release(self) -> List[Action]:
        """The last tick has passed: a seat without a link waits for its agent no longer."""
        self.kept = False
        return self._end(self._missing()) if self.state is State.FREE else []

    def finish(self) -> List[Action]:
        """All links are ended."""
        if self.state is State.OVER:
            return []
        actions = self.refuse_heir()
        if self.holder is None:
            return actions + self._end(self._missing())
        holder, self.holder = self.holder, None
        return actions + [Close(holder)] + self._end(End.HUNG)

    def refuse_heir(self) -> List[Action]:
        """The link that waits for it gets it no longer."""
        if self.heir is None:
            return []
        heir, self.heir = self.heir, None
        self.state = State.HELD
        return [Refuse(heir)]

    def _give(self, link: Optional[int], now: float) -> List[Action]:
        assert link is not None
        again = self.played
        self.state, self.holder, self.heard = State.HELD, link, now
        self.played = self.playing
        return [Give(link, again)]

    def _replace(self, link: Optional[int], now: float) -> List[Action]:
        assert self.holder is not None
        holder, self.holder, self.heir = self.holder, None, None
        return [Close(holder), *self._give(link, now)]

    def _end(self, reason: End) -> List[Action]:
        self.state = State.OVER
        return [Over(reason)]

    def _missing(self) -> End:
        return End.GONE if self.played else End.ABSENT


@dataclass
class Seats:
    """The eight seats of a game, in the order of their agents."""

    words: Sequence[str]  # of the game file
    silence: float = SILENCE
    # The words that agents say for their seats, each with the number of its seat; by default those
    # of the game file. And the same for words that are known to the host's own agents alone.
    keys: Dict[str, int] = field(default_factory=dict)
    own: Dict[str, int] = field(default_factory=dict)
    seats: List[Seat] = field(init=False)

    def __post_init__(self) -> None:
        self.seats = [Seat(number, word, self.silence)
                      for number, word in enumerate(self.words)]
        self.keys = self.keys or {word: number for number, word in enumerate(self.words)}

    def admit(self, line: bytes) -> Tuple[Optional[Seat], str]:
        """The seat that a first line asks for, and `own` if it is that of one of the host's own
        agents; or None and the refusal that is due."""
        greeting = GREETING.fullmatch(line)
        word = greeting[1].decode("ascii") if greeting else ""
        number = self.own.get(word, self.keys.get(word))
        if number is None:
            return None, "wrongword" if greeting else "syntax"
        return self.seats[number], "own" if word in self.own else ""

    def change_word(self, number: int, word: str) -> List[Action]:
        """The word that led to a seat leads there no longer, not even a link that waits for it, and
        another does."""
        for key in [key for key, seat in self.keys.items() if seat == number]:
            del self.keys[key]
        self.keys[word] = number
        return self.seats[number].refuse_heir()

    def is_anybody_here(self) -> bool:
        """Whether a link has a seat."""
        return any(seat.holder is not None for seat in self.seats)

    def missing(self) -> List[str]:
        """The words of those that the game waits for."""
        return [seat.word for seat in self.seats if seat.state is State.FREE]
